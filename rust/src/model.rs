//! The card, written from the rules paper and the change requests
//! that have landed, and from nothing else.
//!
//! Section names in quotes ("The files", "Events", ...) are those of the
//! paper. A [`Card`] is changed in place by its events: a command
//! ([`Card::command`]), a session change ([`Card::change_session`]), a power-up
//! ([`Card::power_up`]), and the frames of a chain ([`Card::open_chain`],
//! [`Card::file_frame`]).

mod chain;
mod roles;

pub use chain::{Chain, LONGEST_FILE_FRAME};
pub use roles::{DataRole, Numbers, Role, DATA_FILES, FILES, HIGHEST_NUMBER};

use crate::aes::Block;
use crate::messaging::{
    first_reply, two_blocks, Capabilities, FirstPart, RealSession, TransactionId, MAC_SIZE,
};
use std::collections::VecDeque;
use std::ops::Range;

/// The shortest reply buffer that a command, or a frame of a chain, accepts
/// ("Events", bench refusal 5).
pub const REPLY_ROOM: usize = 258;
/// The shortest and longest frame ("Frame and order of checks", place 1).
pub const FRAME_LENGTHS: std::ops::RangeInclusive<usize> = 5..=261;
/// Bytes in one entry of the log ("The files").
pub const ENTRY_SIZE: usize = 16;
/// Entries the log has room for ("The files").
pub const LOG_ENTRIES: usize = 4;
/// The highest key number ("The files": 0 to 4 is a key).
pub const LAST_KEY: u8 = 4;
/// How many keys there are.
pub const KEYS: usize = LAST_KEY as usize + 1;
/// The most bytes that a ReadData in MAC mode may read (request 06).
pub const LONGEST_MAC_READ: usize = 248;
/// The rows of the order of checks: thirteen places, and 5a, 9c and 9a.
pub const ROWS: usize = 16;

/// One entry of the log.
pub type Entry = [u8; ENTRY_SIZE];

/// Why the bench refuses an event ("Events", the table of bench refusals).
/// Number 6, a card that breaks a standing rule, cannot be met here: the
/// types below and the methods that change them keep every standing rule.
#[derive(Clone, Copy, Debug, PartialEq, Eq)]
pub enum BenchRefusal {
    /// A rights nibble is 5 to Dh.
    RightsNibble,
    /// The lower limit is above the upper one.
    LimitsCrossed,
    /// The starting value is outside the limits.
    ValueOutside,
    /// The key number of a session change is above 4.
    KeyNumber,
    /// The reply buffer is shorter than 258 bytes.
    ReplyRoom,
    /// A file number is above 1Fh (request 09).
    NumberTooHigh,
    /// Two files have the same number (request 09).
    NumberTwice,
}

impl BenchRefusal {
    /// The paper's number of the refusal.
    pub fn number(self) -> u8 {
        match self {
            Self::RightsNibble => 1,
            Self::LimitsCrossed => 2,
            Self::ValueOutside => 3,
            Self::KeyNumber => 4,
            Self::ReplyRoom => 5,
            Self::NumberTooHigh => 7,
            Self::NumberTwice => 8,
        }
    }
}

/// Why a command is refused, or a frame of a chain, in the order of the table of
/// "Frame and order of checks" with the rows of requests 06 and 07: one case for
/// each of its sixteen rows.
#[derive(Clone, Copy, Debug, PartialEq, Eq, PartialOrd, Ord)]
pub enum Refusal {
    /// Place 1: fewer than 5 or more than 261 bytes.
    FrameLength,
    /// Place 2: CLA not 90h.
    Class,
    /// Place 3: P1 or P2 not 00h.
    Parameters,
    /// Place 4: Lc is 00h or disagrees with the length; or Le not 00h.
    LengthBytes,
    /// Place 5: INS not in the command table; a second part without a first; an
    /// opening of another INS than WriteData; a file frame without a chain.
    Instruction,
    /// Place 5a: a first part waits and this is not the second; a command or an
    /// opening while a chain is open.
    Interrupted,
    /// Place 6: data field of the wrong length; fewer than eight bytes where a
    /// MAC comes off; a file frame of no bytes, too many, or more than are left.
    DataLength,
    /// Place 7: no file of the card has the number.
    FileNumber,
    /// Place 8: file of another kind, or every granting condition is Fh.
    KindOrNever,
    /// Place 9: no granting condition is free or equals the session key; a
    /// second part that fails.
    NotGranted,
    /// Place 9c, right behind 9: a chain whose WriteData would be in MAC mode.
    ChainInMacMode,
    /// Place 9a: wrong MAC; a base command, an opening or GetFileSettings at
    /// counter FFFFh.
    Integrity,
    /// Place 10: LimitedCredit while off; WriteRecord while a clear is pending.
    NotNow,
    /// Place 11: amount of 0 or negative; write of length 0; commit option not
    /// 00h; authentication with a key above 4 or a set LRP bit.
    BadParameter,
    /// Place 12: outside a file, the log, a limit or the allowance; a ReadData
    /// in MAC mode of more than 248 bytes.
    Boundary,
    /// Place 13: commit or abort with nothing pending.
    NothingPending,
}

impl Refusal {
    /// The place of each row in the order of checks.
    pub const PLACES: [&'static str; ROWS] = [
        "1", "2", "3", "4", "5", "5a", "6", "7", "8", "9", "9c", "9a", "10", "11", "12", "13",
    ];

    /// The row in the order of checks, from 0 on.
    pub fn row(self) -> usize {
        self as usize
    }

    /// The place in the order of checks.
    pub fn place(self) -> &'static str {
        Self::PLACES[self.row()]
    }

    /// The status word of the reply.
    pub fn status(self) -> u16 {
        match self {
            Self::FrameLength | Self::LengthBytes => 0x6700,
            Self::Class => 0x6E00,
            Self::Parameters => 0x6A86,
            Self::Instruction => 0x911C,
            Self::Interrupted => 0x91CA,
            Self::DataLength => 0x917E,
            Self::FileNumber => 0x91F0,
            Self::KindOrNever | Self::ChainInMacMode | Self::NotNow => 0x919D,
            Self::NotGranted => 0x91AE,
            Self::Integrity => 0x911E,
            Self::BadParameter => 0x919E,
            Self::Boundary => 0x91BE,
            Self::NothingPending => 0x910C,
        }
    }
}

/// One nibble of the access rights ("The files").
#[derive(Clone, Copy, Debug, PartialEq, Eq)]
pub enum Condition {
    /// 0 to 4: the session must be open with this key.
    Key(u8),
    /// Eh: granted to everyone.
    Free,
    /// Fh: granted to no one.
    Never,
}

impl Condition {
    /// The condition of a nibble, or none for 5 to Dh.
    fn from_nibble(nibble: u8) -> Option<Self> {
        match nibble {
            0..=LAST_KEY => Some(Self::Key(nibble)),
            0xE => Some(Self::Free),
            0xF => Some(Self::Never),
            _ => None,
        }
    }

    /// The nibble of the condition.
    fn nibble(self) -> u8 {
        match self {
            Self::Key(key) => key,
            Self::Free => 0xE,
            Self::Never => 0xF,
        }
    }
}

/// The access rights of one file: four nibbles from the top ("The files").
#[derive(Clone, Copy, Debug, PartialEq, Eq)]
pub struct Rights {
    /// The top nibble.
    pub read: Condition,
    /// The second nibble.
    pub write: Condition,
    /// The third nibble.
    pub read_write: Condition,
    /// The lowest nibble, which no command of this paper asks for.
    pub change: Condition,
}

impl Rights {
    /// Rights FFFFh, those of the blank card.
    const NEVER: Self = Self {
        read: Condition::Never,
        write: Condition::Never,
        read_write: Condition::Never,
        change: Condition::Never,
    };

    /// Takes the word apart; bench refusal 1 if a nibble is 5 to Dh.
    pub fn from_word(word: u16) -> Result<Self, BenchRefusal> {
        let nibble = |shift: u32| {
            Condition::from_nibble(((word >> shift) & 0xF) as u8).ok_or(BenchRefusal::RightsNibble)
        };
        Ok(Self {
            read: nibble(12)?,
            write: nibble(8)?,
            read_write: nibble(4)?,
            change: nibble(0)?,
        })
    }

    /// The word that the rights were taken from.
    pub fn word(self) -> u16 {
        [self.read, self.write, self.read_write, self.change]
            .into_iter()
            .fold(0, |word, condition| {
                (word << 4) | u16::from(condition.nibble())
            })
    }
}

/// What the rights say to a command (request 03); of several conditions the
/// last of these counts.
#[derive(Clone, Copy, Debug, PartialEq, Eq, PartialOrd, Ord)]
pub enum Access {
    /// Every condition that could grant it is Fh.
    Never,
    /// No condition is free or equals the session's key.
    NotGranted,
    /// Only a free condition grants it.
    FreeOnly,
    /// The session's key grants it.
    ByKey,
}

/// How commands on a file travel under a session of AuthenticateEV2First
/// (request 06).
#[derive(Clone, Copy, Debug, PartialEq, Eq)]
pub enum Mode {
    /// As they are.
    Plain,
    /// With a MAC.
    Mac,
}

impl Mode {
    /// The option byte of GetFileSettings (request 06).
    fn option_byte(self) -> u8 {
        match self {
            Self::Plain => 0x00,
            Self::Mac => 0x01,
        }
    }
}

/// What personalisation fixes for a file of any kind.
#[derive(Clone, Copy, Debug, PartialEq, Eq)]
struct Guard {
    rights: Rights,
    mode: Mode,
}

impl Guard {
    /// That of the blank card's files.
    const BLANK: Self = Self {
        rights: Rights::NEVER,
        mode: Mode::Plain,
    };
}

/// What personalisation gives ("The files").
#[derive(Clone, Copy, Debug, PartialEq, Eq)]
pub struct Personalisation {
    /// The rights of the files, in the order of [`Role::ALL`].
    pub rights: [u16; FILES],
    /// The value file's lower limit.
    pub lower: i32,
    /// The value file's upper limit.
    pub upper: i32,
    /// The value file's starting value.
    pub value: i32,
    /// Whether LimitedCredit is on.
    pub limited_credit: bool,
    /// Whether GetValue is free.
    pub free_get_value: bool,
    /// The keys 0 to 4 (request 06).
    pub keys: [Block; KEYS],
    /// The modes of the files, in the order of their rights (request 06).
    pub modes: [Mode; FILES],
    /// The numbers of the files (request 09).
    pub numbers: Numbers,
}

/// The keys of the program's card and of the blank one.
const ZERO_KEYS: [Block; KEYS] = [[0; 16]; KEYS];

/// The card of the section "Transcript program", with zero keys, plain modes and
/// the sheet's numbers.
pub const PROGRAM_CARD: Personalisation = Personalisation {
    rights: [0xEEEE; FILES],
    lower: 0,
    upper: 1000,
    value: 100,
    limited_credit: true,
    free_get_value: false,
    keys: ZERO_KEYS,
    modes: [Mode::Plain; FILES],
    numbers: Numbers::DEFAULT,
};

/// What the bench hands in with an event (request 06).
#[derive(Clone, Copy, Debug, Default, PartialEq, Eq)]
pub struct Inputs {
    /// The card's random number, which a first part takes.
    pub random: Block,
    /// The transaction identifier, which a first part takes too.
    pub transaction: TransactionId,
}

/// A standard data file.
#[derive(Clone, Debug, PartialEq, Eq)]
struct DataFile {
    guard: Guard,
    bytes: Vec<u8>,
}

/// The value file with its committed figures.
#[derive(Clone, Debug, PartialEq, Eq)]
struct ValueFile {
    guard: Guard,
    lower: i32,
    upper: i32,
    limited_credit: bool,
    free_get_value: bool,
    value: i32,
    /// What LimitedCredit may take, 0 to 2,147,483,647.
    allowance: i32,
}

/// The log with its committed entries, the newest in front.
#[derive(Clone, Debug, PartialEq, Eq)]
struct LogFile {
    guard: Guard,
    entries: VecDeque<Entry>,
}

/// The open transaction's work on the value file.
#[derive(Clone, Copy, Debug, PartialEq, Eq)]
struct ValueWork {
    /// The pending value.
    value: i32,
    /// What the next LimitedCredit may take: the committed allowance, and 0
    /// once this transaction has a LimitedCredit.
    allowance: i32,
    /// The sum of this transaction's Debits, held at 2,147,483,647; none if it
    /// has no Debit.
    debits: Option<i32>,
}

/// The open transaction's work on the log. A new entry and a clear are never
/// pending together.
#[derive(Clone, Copy, Debug, PartialEq, Eq)]
enum LogWork {
    NewEntry(Entry),
    Clear,
}

/// Pending work; both none when nothing is pending.
#[derive(Clone, Copy, Debug, Default, PartialEq, Eq)]
struct Pending {
    value: Option<ValueWork>,
    log: Option<LogWork>,
}

impl Pending {
    fn is_empty(&self) -> bool {
        self.value.is_none() && self.log.is_none()
    }
}

/// The session, or what stands in its place.
#[derive(Clone, Copy, Debug, PartialEq, Eq)]
pub enum Session {
    /// No session.
    None,
    /// A session of the bench with this key, which stays plain.
    Bench(u8),
    /// A session opened by AuthenticateEV2First.
    Real(RealSession),
    /// No session, and a first part that waits for its second.
    Waiting(FirstPart),
}

impl Session {
    /// The key of the session.
    pub fn key(&self) -> Option<u8> {
        match self {
            Self::None | Self::Waiting(_) => None,
            Self::Bench(key) => Some(*key),
            Self::Real(session) => Some(session.key_number),
        }
    }
}

/// The figures that the bench's `B` line shows.
#[derive(Clone, Copy, Debug, PartialEq, Eq)]
pub struct Books {
    /// The committed value.
    pub value: i32,
    /// The pending value, equal to the committed one if none is pending.
    pub pending_value: i32,
    /// The committed allowance.
    pub allowance: i32,
    /// What the next LimitedCredit may take.
    pub pending_allowance: i32,
    /// The sum of the open transaction's Debits, held at 2,147,483,647.
    pub debit_sum: i32,
    /// The number of committed entries of the log.
    pub entries: usize,
    /// Whether the value file is pending.
    pub value_pending: bool,
    /// Whether a new entry is pending.
    pub entry_pending: bool,
    /// Whether a clear is pending.
    pub clear_pending: bool,
    /// Whether a chain is open.
    pub chain_open: bool,
    /// The session.
    pub session: Session,
}

/// The status of an accepted command.
#[derive(Clone, Copy, Debug, PartialEq, Eq)]
pub enum Status {
    /// 9100 ("Frame and order of checks").
    Done,
    /// 91AF, that of a first part (request 06).
    More,
}

impl Status {
    /// The status word of the reply.
    pub fn word(self) -> u16 {
        match self {
            Self::Done => 0x9100,
            Self::More => 0x91AF,
        }
    }
}

/// What an accepted command replies, and what it did to the log's slots.
#[derive(Clone, Copy, Debug, PartialEq, Eq)]
pub struct Accepted {
    /// The number of bytes before the status: data, and the MAC if there is one.
    pub length: usize,
    /// The status.
    pub status: Status,
    /// The slot bytes stored.
    pub stored: usize,
}

/// What the bench learns of a command or a frame of a chain, beside the bytes in
/// its buffer. The other events have no reply and store nothing.
#[derive(Clone, Copy, Debug, Default, PartialEq, Eq)]
pub struct Reply {
    /// The reply's length.
    pub length: usize,
    /// The slot bytes stored (request 08): 16 for a commit with a new entry, 0
    /// for all else.
    pub stored: usize,
}

impl Reply {
    /// A reply to what stored nothing.
    fn of_length(length: usize) -> Self {
        Self { length, stored: 0 }
    }
}

/// What a base command or GetFileSettings did, apart from its effect.
#[derive(Clone, Copy, Debug, Default, PartialEq, Eq)]
struct Done {
    /// The data bytes put into the reply.
    shown: usize,
    /// The slot bytes stored.
    stored: usize,
}

impl Done {
    /// A command that shows data.
    fn showing(shown: usize) -> Self {
        Self { shown, stored: 0 }
    }

    /// A command that shows nothing and stores this much.
    fn storing(stored: usize) -> Self {
        Self { shown: 0, stored }
    }

    /// A command that does neither.
    fn neither((): ()) -> Self {
        Self::default()
    }
}

/// What an INS of the command table asks for.
#[derive(Clone, Copy, Debug, PartialEq, Eq)]
enum Asked {
    /// AuthenticateEV2First, first part.
    FirstPart,
    /// AuthenticateEV2First, second part.
    SecondPart,
    /// Any other command.
    Base(Instruction),
}

impl Asked {
    /// Place 5, but for a second part without a first.
    fn from_byte(byte: u8) -> Result<Self, Refusal> {
        match byte {
            0x71 => Ok(Self::FirstPart),
            0xAF => Ok(Self::SecondPart),
            _ => Instruction::from_byte(byte)
                .map(Self::Base)
                .ok_or(Refusal::Instruction),
        }
    }
}

/// The base commands and GetFileSettings, by their INS.
#[derive(Clone, Copy, Debug, PartialEq, Eq)]
enum Instruction {
    ReadData = 0xAD,
    WriteData = 0x8D,
    GetValue = 0x6C,
    Credit = 0x0C,
    Debit = 0xDC,
    LimitedCredit = 0x1C,
    ReadRecords = 0xAB,
    WriteRecord = 0x8B,
    ClearRecordFile = 0xEB,
    Commit = 0xC7,
    Abort = 0xA7,
    GetFileSettings = 0xF5,
}

impl Instruction {
    /// The command of an INS.
    fn from_byte(byte: u8) -> Option<Self> {
        Some(match byte {
            0xAD => Self::ReadData,
            0x8D => Self::WriteData,
            0x6C => Self::GetValue,
            0x0C => Self::Credit,
            0xDC => Self::Debit,
            0x1C => Self::LimitedCredit,
            0xAB => Self::ReadRecords,
            0x8B => Self::WriteRecord,
            0xEB => Self::ClearRecordFile,
            0xC7 => Self::Commit,
            0xA7 => Self::Abort,
            0xF5 => Self::GetFileSettings,
            _ => return None,
        })
    }

    /// The conditions of a file that can grant the command ("Command table");
    /// one that no one meets stands where there are fewer than three.
    fn granted_by(self, rights: Rights) -> [Condition; 3] {
        const NONE: Condition = Condition::Never;
        match self {
            Self::ReadData | Self::ReadRecords => [rights.read, NONE, rights.read_write],
            Self::WriteData | Self::WriteRecord | Self::LimitedCredit => {
                [NONE, rights.write, rights.read_write]
            }
            Self::GetValue | Self::Debit => [rights.read, rights.write, rights.read_write],
            Self::Credit | Self::ClearRecordFile => [NONE, NONE, rights.read_write],
            Self::Commit | Self::Abort | Self::GetFileSettings => [NONE; 3],
        }
    }
}

/// A base command or GetFileSettings as it was sent.
#[derive(Clone, Copy, Debug)]
struct Order<'a> {
    instruction: Instruction,
    /// The data field, less the MAC.
    data: &'a [u8],
    /// The MAC that came off, if the command is in MAC mode.
    mac: Option<&'a [u8]>,
}

/// A base command or GetFileSettings that passed places 1 to 6.
#[derive(Clone, Copy, Debug, PartialEq, Eq)]
enum Command<'a> {
    ReadData {
        file: u8,
        offset: usize,
        length: usize,
    },
    WriteData {
        file: u8,
        offset: usize,
        bytes: &'a [u8],
    },
    GetValue {
        file: u8,
    },
    Credit {
        file: u8,
        amount: i32,
    },
    Debit {
        file: u8,
        amount: i32,
    },
    LimitedCredit {
        file: u8,
        amount: i32,
    },
    ReadRecords {
        file: u8,
        entry: usize,
        count: usize,
    },
    WriteRecord {
        file: u8,
        offset: usize,
        bytes: &'a [u8],
    },
    ClearRecordFile {
        file: u8,
    },
    Commit {
        option: u8,
    },
    Abort,
    GetFileSettings {
        file: u8,
    },
}

/// A figure of three bytes, least significant first.
fn figure3(bytes: &[u8]) -> usize {
    bytes
        .iter()
        .rev()
        .fold(0, |sum, &byte| (sum << 8) | usize::from(byte))
}

/// The three bytes of a figure, least significant first.
fn bytes3(figure: usize) -> [u8; 3] {
    [0, 8, 16].map(|shift| (figure >> shift) as u8)
}

/// Places 1 to 4: the INS byte and data field of a frame.
fn parse_frame(frame: &[u8]) -> Result<(u8, &[u8]), Refusal> {
    if !FRAME_LENGTHS.contains(&frame.len()) {
        return Err(Refusal::FrameLength);
    }
    let (header, body) = frame.split_at(4);
    if header[0] != 0x90 {
        return Err(Refusal::Class);
    }
    if header[2..] != [0x00, 0x00] {
        return Err(Refusal::Parameters);
    }
    let data = match body {
        [0x00] => &body[..0],
        [lc, data @ .., 0x00] if *lc != 0 && usize::from(*lc) == data.len() => data,
        _ => return Err(Refusal::LengthBytes),
    };
    Ok((header[1], data))
}

impl<'a> Command<'a> {
    /// Place 6, and the reading of the parameters.
    fn parse(order: &Order<'a>) -> Result<Self, Refusal> {
        let data = order.data;
        let command = match order.instruction {
            Instruction::ReadData => {
                let (file, offset, length) = file_and_two(data)?;
                Self::ReadData {
                    file,
                    offset,
                    length,
                }
            }
            Instruction::WriteData => {
                let (file, offset, bytes) = file_and_write(data)?;
                Self::WriteData {
                    file,
                    offset,
                    bytes,
                }
            }
            Instruction::GetValue => Self::GetValue {
                file: file_alone(data)?,
            },
            Instruction::Credit => {
                let (file, amount) = file_and_amount(data)?;
                Self::Credit { file, amount }
            }
            Instruction::Debit => {
                let (file, amount) = file_and_amount(data)?;
                Self::Debit { file, amount }
            }
            Instruction::LimitedCredit => {
                let (file, amount) = file_and_amount(data)?;
                Self::LimitedCredit { file, amount }
            }
            Instruction::ReadRecords => {
                let (file, entry, count) = file_and_two(data)?;
                Self::ReadRecords { file, entry, count }
            }
            Instruction::WriteRecord => {
                let (file, offset, bytes) = file_and_write(data)?;
                Self::WriteRecord {
                    file,
                    offset,
                    bytes,
                }
            }
            Instruction::ClearRecordFile => Self::ClearRecordFile {
                file: file_alone(data)?,
            },
            Instruction::Commit => match *data {
                [] => Self::Commit { option: 0x00 },
                [option] => Self::Commit { option },
                _ => return Err(Refusal::DataLength),
            },
            Instruction::Abort if data.is_empty() => Self::Abort,
            Instruction::Abort => return Err(Refusal::DataLength),
            Instruction::GetFileSettings => Self::GetFileSettings {
                file: file_alone(data)?,
            },
        };
        Ok(command)
    }
}

/// Data field "file".
fn file_alone(data: &[u8]) -> Result<u8, Refusal> {
    match *data {
        [file] => Ok(file),
        _ => Err(Refusal::DataLength),
    }
}

/// Data field "file, amount 4". Bit 31 is the sign of the result.
fn file_and_amount(data: &[u8]) -> Result<(u8, i32), Refusal> {
    match *data {
        [file, a, b, c, d] => Ok((file, i32::from_le_bytes([a, b, c, d]))),
        _ => Err(Refusal::DataLength),
    }
}

/// Data field "file, offset 3, length 3" or "file, entry 3, count 3".
fn file_and_two(data: &[u8]) -> Result<(u8, usize, usize), Refusal> {
    if data.len() == 7 {
        Ok((data[0], figure3(&data[1..4]), figure3(&data[4..7])))
    } else {
        Err(Refusal::DataLength)
    }
}

/// Data field "file, offset 3, length 3, bytes"; the length field must be the
/// number of bytes sent ("Command table").
fn file_and_write(data: &[u8]) -> Result<(u8, usize, &[u8]), Refusal> {
    if data.len() < 7 {
        return Err(Refusal::DataLength);
    }
    let (parameters, bytes) = data.split_at(7);
    let (file, offset, length) = file_and_two(parameters)?;
    if length == bytes.len() {
        Ok((file, offset, bytes))
    } else {
        Err(Refusal::DataLength)
    }
}

/// Puts the status behind the data of a reply: the length of both.
fn put_status(status: u16, length: usize, reply: &mut [u8]) -> usize {
    reply[length..length + 2].copy_from_slice(&status.to_be_bytes());
    length + 2
}

/// Place 11: an amount of 0 or a negative one.
fn check_amount(amount: i32) -> Result<(), Refusal> {
    if amount <= 0 {
        Err(Refusal::BadParameter)
    } else {
        Ok(())
    }
}

/// Places 11 and 12 of a write of `length` bytes at `offset` into `size`
/// bytes: the range written.
fn write_range(offset: usize, length: usize, size: usize) -> Result<Range<usize>, Refusal> {
    if length == 0 {
        return Err(Refusal::BadParameter);
    }
    let range = offset..offset + length;
    if range.end > size {
        return Err(Refusal::Boundary);
    }
    Ok(range)
}

/// Place 12 of a read of `count` of `size` things from `start` on, where a
/// count of 0 runs to the end: the range read.
fn read_range(start: usize, count: usize, size: usize) -> Result<Range<usize>, Refusal> {
    let end = if count == 0 { size } else { start + count };
    if start >= size || end > size {
        return Err(Refusal::Boundary);
    }
    Ok(start..end)
}

/// The card.
#[derive(Clone, Debug, PartialEq, Eq)]
pub struct Card {
    /// The data files, in the order of [`DataRole::ALL`].
    data: [DataFile; DATA_FILES],
    value: ValueFile,
    log: LogFile,
    /// What the files are called.
    numbers: Numbers,
    keys: [Block; KEYS],
    session: Session,
    pending: Pending,
    /// The open chain, never beside a first part that waits.
    chain: Option<Chain>,
}

impl Card {
    /// The blank card ("Events"): the one beside a refused personalisation.
    pub fn blank() -> Self {
        Self {
            data: DataRole::ALL.map(|role| DataFile {
                guard: Guard::BLANK,
                bytes: vec![0; role.size()],
            }),
            value: ValueFile {
                guard: Guard::BLANK,
                lower: 0,
                upper: 0,
                limited_credit: false,
                free_get_value: false,
                value: 0,
                allowance: 0,
            },
            log: LogFile {
                guard: Guard::BLANK,
                entries: VecDeque::with_capacity(LOG_ENTRIES + 1),
            },
            numbers: Numbers::DEFAULT,
            keys: ZERO_KEYS,
            session: Session::None,
            pending: Pending::default(),
            chain: None,
        }
    }

    /// Personalisation ("The files"), with the bench refusals 1, 2, 3, 7 and 8
    /// tested in that order ("Events", request 09).
    pub fn personalise(with: &Personalisation) -> Result<Self, BenchRefusal> {
        let mut card = Self::blank();
        for ((role, word), mode) in Role::ALL.into_iter().zip(with.rights).zip(with.modes) {
            let rights = Rights::from_word(word)?;
            *card.guard_mut(role) = Guard { rights, mode };
        }
        if with.lower > with.upper {
            return Err(BenchRefusal::LimitsCrossed);
        }
        if !(with.lower..=with.upper).contains(&with.value) {
            return Err(BenchRefusal::ValueOutside);
        }
        with.numbers.check()?;
        card.value.lower = with.lower;
        card.value.upper = with.upper;
        card.value.value = with.value;
        card.value.limited_credit = with.limited_credit;
        card.value.free_get_value = with.free_get_value;
        card.numbers = with.numbers;
        card.keys = with.keys;
        Ok(card)
    }

    /// The card of the section "Transcript program".
    pub fn program_card() -> Self {
        Self::personalise(&PROGRAM_CARD).expect("the program's card breaks no rule")
    }

    /// A power-up: ends the session, or what stands in its place, and drops
    /// pending work and what is left of a chain ("Events").
    pub fn power_up(&mut self) {
        self.end();
    }

    /// What a refusal and a power-up do: the session is ended, a first part,
    /// pending work and what is left of a chain are dropped.
    fn end(&mut self) {
        self.session = Session::None;
        self.pending = Pending::default();
        self.chain = None;
    }

    /// Lets a refusal have its effect.
    fn settle<T>(&mut self, outcome: Result<T, Refusal>) -> Result<T, Refusal> {
        if outcome.is_err() {
            self.end();
        }
        outcome
    }

    /// A session change: a key 0 to 4, or none. It leaves pending work in place
    /// ("Events") and drops a first part and what is left of a chain.
    pub fn change_session(&mut self, key: Option<u8>) -> Result<(), BenchRefusal> {
        self.session = match key {
            None => Session::None,
            Some(key) if key <= LAST_KEY => Session::Bench(key),
            Some(_) => return Err(BenchRefusal::KeyNumber),
        };
        self.chain = None;
        Ok(())
    }

    /// A command. The reply is put at the start of `reply`, whose rest is left
    /// as it was; the result has the reply's length.
    pub fn command(
        &mut self,
        frame: &[u8],
        inputs: &Inputs,
        reply: &mut [u8],
    ) -> Result<Reply, BenchRefusal> {
        if reply.len() < REPLY_ROOM {
            return Err(BenchRefusal::ReplyRoom);
        }
        Ok(match self.answer(frame, inputs, reply) {
            Ok(accepted) => Reply {
                length: put_status(accepted.status.word(), accepted.length, reply),
                stored: accepted.stored,
            },
            Err(refusal) => Reply::of_length(put_status(refusal.status(), 0, reply)),
        })
    }

    /// A command without its status in the reply: what is put into `reply`, or
    /// the refusal, whose effect ("Events") has then taken place.
    pub fn answer(
        &mut self,
        frame: &[u8],
        inputs: &Inputs,
        reply: &mut [u8],
    ) -> Result<Accepted, Refusal> {
        let outcome = self.obey(frame, inputs, reply);
        self.settle(outcome)
    }

    /// Whether something is unfinished that other commands break off: a first
    /// part that waits, or an open chain.
    fn is_unfinished(&self) -> bool {
        matches!(self.session, Session::Waiting(_)) || self.chain.is_some()
    }

    /// All places, and the command's work. A refusal changes nothing here.
    fn obey(
        &mut self,
        frame: &[u8],
        inputs: &Inputs,
        reply: &mut [u8],
    ) -> Result<Accepted, Refusal> {
        let (byte, data) = parse_frame(frame)?;
        match (Asked::from_byte(byte)?, &self.session) {
            (Asked::SecondPart, Session::Waiting(first)) => {
                let first = *first;
                self.second_part(&first, data, reply)
            }
            (Asked::SecondPart, _) => Err(Refusal::Instruction),
            _ if self.is_unfinished() => Err(Refusal::Interrupted),
            (Asked::FirstPart, _) => self.first_part(data, inputs, reply),
            (Asked::Base(instruction), _) => self.base_command(instruction, data, reply),
        }
    }

    /// AuthenticateEV2First, first part: key number, LenCap, and as many bytes
    /// PCDcap2. Places 6 and 11 are asked. It ends the session and leaves
    /// pending work.
    fn first_part(
        &mut self,
        data: &[u8],
        inputs: &Inputs,
        reply: &mut [u8],
    ) -> Result<Accepted, Refusal> {
        let (key_number, sent) = match data {
            [key, length, sent @ ..] if usize::from(*length) == sent.len() => (*key, sent),
            _ => return Err(Refusal::DataLength),
        };
        let lrp = sent.first().map_or(false, |byte| byte & 0x02 != 0);
        if key_number > LAST_KEY || lrp {
            return Err(Refusal::BadParameter);
        }
        let mut capabilities = Capabilities::default();
        for (place, &byte) in capabilities.iter_mut().zip(sent) {
            *place = byte;
        }
        let secret = first_reply(&self.keys[usize::from(key_number)], &inputs.random);
        reply[..secret.len()].copy_from_slice(&secret);
        self.session = Session::Waiting(FirstPart {
            key_number,
            random: inputs.random,
            transaction: inputs.transaction,
            capabilities,
        });
        Ok(Accepted {
            length: secret.len(),
            status: Status::More,
            stored: 0,
        })
    }

    /// AuthenticateEV2First, second part, which opens the session. Places 6 and
    /// 9 are asked.
    fn second_part(
        &mut self,
        first: &FirstPart,
        data: &[u8],
        reply: &mut [u8],
    ) -> Result<Accepted, Refusal> {
        let second = two_blocks(data).ok_or(Refusal::DataLength)?;
        let key = &self.keys[usize::from(first.key_number)];
        let terminal = first
            .terminal_random(key, second)
            .ok_or(Refusal::NotGranted)?;
        let (session, blocks) = first.finished(key, &terminal);
        let bytes = blocks.concat();
        reply[..bytes.len()].copy_from_slice(&bytes);
        self.session = Session::Real(session);
        Ok(Accepted {
            length: bytes.len(),
            status: Status::Done,
            stored: 0,
        })
    }

    /// A base command or GetFileSettings: places 6 to 13, and its work.
    fn base_command(
        &mut self,
        instruction: Instruction,
        data: &[u8],
        reply: &mut [u8],
    ) -> Result<Accepted, Refusal> {
        let order = self.order(instruction, data)?;
        let command = Command::parse(&order)?;
        let done = self.execute(&order, command, reply)?;
        Ok(Accepted {
            length: self.count(&order, done.shown, reply),
            status: Status::Done,
            stored: done.stored,
        })
    }

    /// Takes the MAC off a data field (request 06); place 6 if there are fewer
    /// than eight bytes.
    fn order<'a>(&self, instruction: Instruction, data: &'a [u8]) -> Result<Order<'a>, Refusal> {
        if !self.in_mac_mode(instruction, data) {
            return Ok(Order {
                instruction,
                data,
                mac: None,
            });
        }
        let end = data
            .len()
            .checked_sub(MAC_SIZE)
            .ok_or(Refusal::DataLength)?;
        let (data, mac) = data.split_at(end);
        Ok(Order {
            instruction,
            data,
            mac: Some(mac),
        })
    }

    /// Whether a command with this data field, as sent, is in MAC mode (request
    /// 06): under a session of AuthenticateEV2First, commit, abort and
    /// GetFileSettings always are, the others when their first byte is
    /// the number of a file of that mode, unless a free condition alone grants them.
    fn in_mac_mode(&self, instruction: Instruction, data: &[u8]) -> bool {
        if !matches!(self.session, Session::Real(_)) {
            return false;
        }
        match instruction {
            Instruction::Commit | Instruction::Abort | Instruction::GetFileSettings => true,
            _ => match data.first().and_then(|&number| self.numbers.role(number)) {
                Some(role) => {
                    self.guard(role).mode == Mode::Mac
                        && self.access(instruction, role) != Access::FreeOnly
                }
                None => false,
            },
        }
    }

    /// The access decision for a command and a file of any kind (request 03).
    /// Free GetValue counts as a free condition of that command, unless R, W and
    /// RW are all Fh.
    fn access(&self, instruction: Instruction, role: Role) -> Access {
        let session = self.session.key();
        let by_condition = |condition| match condition {
            Condition::Key(key) if session == Some(key) => Access::ByKey,
            Condition::Key(_) => Access::NotGranted,
            Condition::Free => Access::FreeOnly,
            Condition::Never => Access::Never,
        };
        let [a, b, c] = instruction
            .granted_by(self.guard(role).rights)
            .map(by_condition);
        let access = a.max(b).max(c);
        let free = instruction == Instruction::GetValue && self.value.free_get_value;
        match access {
            Access::NotGranted if free => Access::FreeOnly,
            _ => access,
        }
    }

    /// Places 8 (second half) and 9.
    fn check_access(&self, instruction: Instruction, role: Role) -> Result<(), Refusal> {
        match self.access(instruction, role) {
            Access::Never => Err(Refusal::KindOrNever),
            Access::NotGranted => Err(Refusal::NotGranted),
            Access::FreeOnly | Access::ByKey => Ok(()),
        }
    }

    /// Places 8 (second half), 9 and 9a.
    fn check_granted(&self, order: &Order, role: Role) -> Result<(), Refusal> {
        self.check_access(order.instruction, role)?;
        self.check_integrity(order)
    }

    /// Place 9a, which only a session of AuthenticateEV2First asks: the end of
    /// the command counter, and the MAC of a command in MAC mode.
    fn check_integrity(&self, order: &Order) -> Result<(), Refusal> {
        self.check_counter()?;
        match (&self.session, order.mac) {
            (Session::Real(session), Some(mac))
                if session.command_mac(order.instruction as u8, order.data) != mac =>
            {
                Err(Refusal::Integrity)
            }
            _ => Ok(()),
        }
    }

    /// The first half of place 9a.
    fn check_counter(&self) -> Result<(), Refusal> {
        match &self.session {
            Session::Real(session) if session.counter == u16::MAX => Err(Refusal::Integrity),
            _ => Ok(()),
        }
    }

    /// Counts an accepted command and, in MAC mode, puts the MAC behind the
    /// reply's data: the length of both. Only a session of AuthenticateEV2First
    /// counts.
    fn count(&mut self, order: &Order, length: usize, reply: &mut [u8]) -> usize {
        let session = match &mut self.session {
            Session::Real(session) => session,
            _ => return length,
        };
        session.counter += 1;
        if order.mac.is_none() {
            return length;
        }
        let (data, rest) = reply.split_at_mut(length);
        rest[..MAC_SIZE].copy_from_slice(&session.reply_mac(data));
        length + MAC_SIZE
    }

    /// Places 7 to 13, and the command's work. A refusal changes nothing here.
    fn execute(
        &mut self,
        order: &Order,
        command: Command,
        reply: &mut [u8],
    ) -> Result<Done, Refusal> {
        match command {
            Command::ReadData {
                file,
                offset,
                length,
            } => self
                .read_data(order, file, offset, length, reply)
                .map(Done::showing),
            Command::WriteData {
                file,
                offset,
                bytes,
            } => self
                .write_data(order, file, offset, bytes)
                .map(Done::neither),
            Command::GetValue { file } => self.get_value(order, file, reply).map(Done::showing),
            Command::Credit { file, amount } => self.credit(order, file, amount).map(Done::neither),
            Command::Debit { file, amount } => self.debit(order, file, amount).map(Done::neither),
            Command::LimitedCredit { file, amount } => {
                self.limited_credit(order, file, amount).map(Done::neither)
            }
            Command::ReadRecords { file, entry, count } => self
                .read_records(order, file, entry, count, reply)
                .map(Done::showing),
            Command::WriteRecord {
                file,
                offset,
                bytes,
            } => self
                .write_record(order, file, offset, bytes)
                .map(Done::neither),
            Command::ClearRecordFile { file } => {
                self.clear_record_file(order, file).map(Done::neither)
            }
            Command::Commit { option } => self.commit(order, option).map(Done::storing),
            Command::Abort => self.abort(order).map(Done::neither),
            Command::GetFileSettings { file } => self
                .get_file_settings(order, file, reply)
                .map(Done::showing),
        }
    }

    /// What personalisation fixed for a file.
    fn guard(&self, role: Role) -> &Guard {
        match role {
            Role::Data(role) => &self.data[role.place()].guard,
            Role::Value => &self.value.guard,
            Role::Log => &self.log.guard,
        }
    }

    fn guard_mut(&mut self, role: Role) -> &mut Guard {
        match role {
            Role::Data(role) => &mut self.data[role.place()].guard,
            Role::Value => &mut self.value.guard,
            Role::Log => &mut self.log.guard,
        }
    }

    /// Place 7: the file that has a number.
    fn named(&self, number: u8) -> Result<Role, Refusal> {
        self.numbers.role(number).ok_or(Refusal::FileNumber)
    }

    /// Places 7 to 9a for the commands of data files.
    fn data_file(&self, order: &Order, number: u8) -> Result<DataRole, Refusal> {
        match self.named(number)? {
            Role::Data(role) => {
                self.check_granted(order, Role::Data(role))?;
                Ok(role)
            }
            Role::Value | Role::Log => Err(Refusal::KindOrNever),
        }
    }

    /// Places 7 to 9a for the commands of the value file.
    fn value_file(&self, order: &Order, number: u8) -> Result<(), Refusal> {
        match self.named(number)? {
            Role::Value => self.check_granted(order, Role::Value),
            Role::Data(_) | Role::Log => Err(Refusal::KindOrNever),
        }
    }

    /// Places 7 to 9a for the commands of the log.
    fn log_file(&self, order: &Order, number: u8) -> Result<(), Refusal> {
        match self.named(number)? {
            Role::Log => self.check_granted(order, Role::Log),
            Role::Data(_) | Role::Value => Err(Refusal::KindOrNever),
        }
    }

    /// ReadData ("Command table", **Data**).
    fn read_data(
        &self,
        order: &Order,
        number: u8,
        offset: usize,
        length: usize,
        reply: &mut [u8],
    ) -> Result<usize, Refusal> {
        let file = &self.data[self.data_file(order, number)?.place()];
        let bytes = &file.bytes[read_range(offset, length, file.bytes.len())?];
        if order.mac.is_some() && bytes.len() > LONGEST_MAC_READ {
            return Err(Refusal::Boundary);
        }
        reply[..bytes.len()].copy_from_slice(bytes);
        Ok(bytes.len())
    }

    /// WriteData ("Command table", **Data**): acts at once, nothing pending.
    fn write_data(
        &mut self,
        order: &Order,
        number: u8,
        offset: usize,
        bytes: &[u8],
    ) -> Result<(), Refusal> {
        let role = self.data_file(order, number)?;
        let file = &mut self.data[role.place()];
        let range = write_range(offset, bytes.len(), file.bytes.len())?;
        file.bytes[range].copy_from_slice(bytes);
        Ok(())
    }

    /// GetValue ("Command table", **Value**): shows the committed value.
    fn get_value(&self, order: &Order, number: u8, reply: &mut [u8]) -> Result<usize, Refusal> {
        self.value_file(order, number)?;
        let bytes = self.value.value.to_le_bytes();
        reply[..bytes.len()].copy_from_slice(&bytes);
        Ok(bytes.len())
    }

    /// The open transaction's work on the value file, new if there is none.
    fn value_work(&self) -> ValueWork {
        self.pending.value.unwrap_or(ValueWork {
            value: self.value.value,
            allowance: self.value.allowance,
            debits: None,
        })
    }

    /// Place 12 for a new pending value, none of which stands for one outside
    /// the signed 32 bits ("Command table", **Value**).
    fn within_limits(&self, value: Option<i32>) -> Result<i32, Refusal> {
        value
            .filter(|value| (self.value.lower..=self.value.upper).contains(value))
            .ok_or(Refusal::Boundary)
    }

    /// Credit ("Command table", **Value**).
    fn credit(&mut self, order: &Order, number: u8, amount: i32) -> Result<(), Refusal> {
        self.value_file(order, number)?;
        check_amount(amount)?;
        let work = self.value_work();
        let value = self.within_limits(work.value.checked_add(amount))?;
        self.pending.value = Some(ValueWork { value, ..work });
        Ok(())
    }

    /// Debit ("Command table", **Value** and **Allowance**).
    fn debit(&mut self, order: &Order, number: u8, amount: i32) -> Result<(), Refusal> {
        self.value_file(order, number)?;
        check_amount(amount)?;
        let work = self.value_work();
        let value = self.within_limits(work.value.checked_sub(amount))?;
        let debits = Some(work.debits.unwrap_or(0).saturating_add(amount));
        self.pending.value = Some(ValueWork {
            value,
            debits,
            ..work
        });
        Ok(())
    }

    /// LimitedCredit ("Command table", **Value** and **Allowance**).
    fn limited_credit(&mut self, order: &Order, number: u8, amount: i32) -> Result<(), Refusal> {
        self.value_file(order, number)?;
        if !self.value.limited_credit {
            return Err(Refusal::NotNow);
        }
        check_amount(amount)?;
        let work = self.value_work();
        let value = self.within_limits(work.value.checked_add(amount))?;
        if amount > work.allowance {
            return Err(Refusal::Boundary);
        }
        self.pending.value = Some(ValueWork {
            value,
            allowance: 0,
            ..work
        });
        Ok(())
    }

    /// ReadRecords ("Command table", **Log**): committed entries, oldest first.
    fn read_records(
        &self,
        order: &Order,
        number: u8,
        entry: usize,
        count: usize,
        reply: &mut [u8],
    ) -> Result<usize, Refusal> {
        self.log_file(order, number)?;
        let range = read_range(entry, count, self.log.entries.len())?;
        let length = range.len() * ENTRY_SIZE;
        let entries = self.log.entries.range(range).rev();
        for (place, entry) in reply.chunks_exact_mut(ENTRY_SIZE).zip(entries) {
            place.copy_from_slice(entry);
        }
        Ok(length)
    }

    /// WriteRecord ("Command table", **Log**): the first of a transaction makes
    /// a new entry of zeros, all of them write into it.
    fn write_record(
        &mut self,
        order: &Order,
        number: u8,
        offset: usize,
        bytes: &[u8],
    ) -> Result<(), Refusal> {
        self.log_file(order, number)?;
        let mut entry = match self.pending.log {
            None => [0; ENTRY_SIZE],
            Some(LogWork::NewEntry(entry)) => entry,
            Some(LogWork::Clear) => return Err(Refusal::NotNow),
        };
        entry[write_range(offset, bytes.len(), ENTRY_SIZE)?].copy_from_slice(bytes);
        self.pending.log = Some(LogWork::NewEntry(entry));
        Ok(())
    }

    /// ClearRecordFile ("Command table", **Log**): drops the new entry and
    /// empties the log at commit.
    fn clear_record_file(&mut self, order: &Order, number: u8) -> Result<(), Refusal> {
        self.log_file(order, number)?;
        self.pending.log = Some(LogWork::Clear);
        Ok(())
    }

    /// CommitTransaction ("Command table", **Ends**, **Allowance**, **Log**): the
    /// slot bytes stored (request 08), which are those of the new entry, since
    /// no other entry moves.
    fn commit(&mut self, order: &Order, option: u8) -> Result<usize, Refusal> {
        self.check_integrity(order)?;
        if option != 0x00 {
            return Err(Refusal::BadParameter);
        }
        if self.pending.is_empty() {
            return Err(Refusal::NothingPending);
        }
        let pending = std::mem::take(&mut self.pending);
        if let Some(work) = pending.value {
            self.value.value = work.value;
            self.value.allowance = match work.debits {
                Some(sum) => sum,
                None => work.allowance,
            };
        }
        Ok(match pending.log {
            None => 0,
            Some(LogWork::NewEntry(entry)) => {
                self.log.entries.push_front(entry);
                self.log.entries.truncate(LOG_ENTRIES);
                entry.len()
            }
            Some(LogWork::Clear) => {
                self.log.entries.clear();
                0
            }
        })
    }

    /// AbortTransaction ("Command table", **Ends**): keeps the session.
    fn abort(&mut self, order: &Order) -> Result<(), Refusal> {
        self.check_integrity(order)?;
        if self.pending.is_empty() {
            return Err(Refusal::NothingPending);
        }
        self.pending = Pending::default();
        Ok(())
    }

    /// GetFileSettings (request 02): no access condition, so of places 8 to 13
    /// only 9a is asked. File kind, option byte with the mode, rights, then what
    /// the kind has; the number is not told.
    fn get_file_settings(
        &self,
        order: &Order,
        number: u8,
        reply: &mut [u8],
    ) -> Result<usize, Refusal> {
        let role = self.named(number)?;
        self.check_integrity(order)?;
        let mut settings = Vec::new();
        let mut head = |kind: u8, guard: Guard| {
            settings.extend_from_slice(&[kind, guard.mode.option_byte()]);
            settings.extend_from_slice(&guard.rights.word().to_le_bytes());
        };
        match role {
            Role::Data(role) => {
                let file = &self.data[role.place()];
                head(0x00, file.guard);
                settings.extend_from_slice(&bytes3(file.bytes.len()));
            }
            Role::Value => {
                let file = &self.value;
                head(0x02, file.guard);
                for figure in [file.lower, file.upper, file.allowance] {
                    settings.extend_from_slice(&figure.to_le_bytes());
                }
                let switches = [file.limited_credit, file.free_get_value].map(u8::from);
                settings.push(switches[0] | switches[1] << 1);
            }
            Role::Log => {
                head(0x04, self.log.guard);
                for figure in [ENTRY_SIZE, LOG_ENTRIES, self.log.entries.len()] {
                    settings.extend_from_slice(&bytes3(figure));
                }
            }
        }
        reply[..settings.len()].copy_from_slice(&settings);
        Ok(settings.len())
    }

    /// The figures the bench's `B` line shows.
    pub fn books(&self) -> Books {
        let work = self.value_work();
        Books {
            value: self.value.value,
            pending_value: work.value,
            allowance: self.value.allowance,
            pending_allowance: work.allowance,
            debit_sum: work.debits.unwrap_or(0),
            entries: self.log.entries.len(),
            value_pending: self.pending.value.is_some(),
            entry_pending: matches!(self.pending.log, Some(LogWork::NewEntry(_))),
            clear_pending: matches!(self.pending.log, Some(LogWork::Clear)),
            chain_open: self.chain.is_some(),
            session: self.session,
        }
    }

    /// The committed entries of the log, the newest first.
    pub fn entries(&self) -> impl Iterator<Item = &Entry> {
        self.log.entries.iter()
    }

    /// The entry that the next commit puts in front.
    pub fn new_entry(&self) -> Option<&Entry> {
        match &self.pending.log {
            Some(LogWork::NewEntry(entry)) => Some(entry),
            _ => None,
        }
    }

    /// The value file's limits, lower and upper.
    pub fn limits(&self) -> (i32, i32) {
        (self.value.lower, self.value.upper)
    }

    /// The rights of a file.
    pub fn rights(&self, role: Role) -> Rights {
        self.guard(role).rights
    }

    /// The mode of a file.
    pub fn mode(&self, role: Role) -> Mode {
        self.guard(role).mode
    }

    /// The numbers of the files.
    pub fn numbers(&self) -> &Numbers {
        &self.numbers
    }

    /// The session.
    pub fn session(&self) -> &Session {
        &self.session
    }

    /// The key of a number from 0 to 4.
    pub fn key(&self, number: u8) -> &Block {
        &self.keys[usize::from(number)]
    }

    /// Whether a command of this INS with this data field, its MAC included, is
    /// in MAC mode: whether a MAC comes off.
    pub fn takes_mac(&self, byte: u8, data: &[u8]) -> bool {
        Instruction::from_byte(byte).map_or(false, |known| self.in_mac_mode(known, data))
    }
}

#[cfg(test)]
mod chain_tests;
#[cfg(test)]
mod number_tests;
#[cfg(test)]
mod session_tests;
#[cfg(test)]
mod tests;
