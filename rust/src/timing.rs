//! Deterministic scripts of bench lines, for timing bench programs.

use crate::aes::Block;
use crate::frames::{
    amount_frame, frame, hex_line, ins, read_frame, write_frame, Script, LONGEST_WRITE,
};
use crate::messaging::{self, Capabilities, FirstPart, RealSession};
use crate::model::{Numbers, ENTRY_SIZE, LONGEST_MAC_READ};
use crate::rng::Rng;
use crate::terminal;

/// The kinds of scripts for timing.
#[derive(Clone, Copy, Debug, PartialEq, Eq)]
pub enum SpeedKind {
    /// ReadData, GetValue and ReadRecords.
    Reads,
    /// Credit, Debit and LimitedCredit with commits.
    Values,
    /// WriteRecord and ClearRecordFile with commits.
    Logs,
    /// Commands refused at each of the thirteen places.
    Refusals,
    /// Chains of two file frames of 120 bytes: an opening and both, three events
    /// a chain.
    Chains,
    /// As `Values`, each with a MAC.
    MacValues,
    /// ReadData of 248 bytes, each with a MAC.
    MacReads,
}

impl SpeedKind {
    /// All kinds.
    pub const ALL: [Self; 7] = [
        Self::Reads,
        Self::Values,
        Self::Logs,
        Self::Refusals,
        Self::Chains,
        Self::MacValues,
        Self::MacReads,
    ];

    /// The kind's name.
    pub fn name(self) -> &'static str {
        match self {
            Self::Reads => "reads",
            Self::Values => "values",
            Self::Logs => "logs",
            Self::Refusals => "refusals",
            Self::Chains => "chains",
            Self::MacValues => "mac-values",
            Self::MacReads => "mac-reads",
        }
    }

    /// Whether the commands of a script of this kind have MACs.
    pub fn has_macs(self) -> bool {
        matches!(self, Self::MacValues | Self::MacReads)
    }

    /// The lines of a script of this kind where one of short commands without
    /// MACs has so many: fewer where lines are long, and the more blocks of AES a
    /// line takes, some 4 or 19.
    pub fn lines(self, short: usize) -> usize {
        match self {
            Self::Chains | Self::MacValues => (short / 10).max(20),
            Self::MacReads => (short / 50).max(20),
            _ => short,
        }
    }
}

/// The personalisation line for timing: rights EEEEh but for the short file, which
/// asks for key 0 to read and write, and whose ReadWrite is Fh; limits 0 and
/// 1,000,000,000, value 500,000,000, LimitedCredit on.
const SPEED_CARD: &[u8] = b"PEEEEEEEEFF00EEEEEEEE0000000000CA9A3B0065CD1D01";

/// The same with MACs: rights 0000h, all files in MAC mode, key 0 as
/// [`MAC_KEY`].
const MAC_CARD: &[u8] = b"P000000000000000000000000000000CA9A3B0065CD1D01\
    A0A1A2A3A4A5A6A7A8A9AAABACADAEAF\
    11111111111111111111111111111111\
    22222222222222222222222222222222\
    33333333333333333333333333333333\
    44444444444444444444444444444444\
    1F";

/// Key 0 of [`MAC_CARD`].
const MAC_KEY: Block = [
    0xA0, 0xA1, 0xA2, 0xA3, 0xA4, 0xA5, 0xA6, 0xA7, 0xA8, 0xA9, 0xAA, 0xAB, 0xAC, 0xAD, 0xAE, 0xAF,
];

/// What the files of both are called.
const OF: Numbers = Numbers::DEFAULT;
/// The long data files.
const LONG_FILES: [u8; 2] = [OF.first_long, OF.second_long];
/// A number that no file has.
const UNKNOWN_NUMBER: u8 = 0x07;

/// Commands with MACs before the next authentication, which the command counter
/// has room for.
const SESSION_COMMANDS: u16 = 60_000;

/// Bytes of a file frame.
const CHAIN_FRAME: usize = 120;

/// A script for timing. Every line is a command or a frame of a chain, but for
/// some lines at its start that prepare the card, one `N` before each
/// authentication, and one `B` at its end.
pub fn speed_script(kind: SpeedKind, lines: usize, seed: u64) -> Script {
    let mut script = if kind.has_macs() {
        mac_script(kind, lines, seed)
    } else {
        plain_script(kind, lines, seed)
    };
    script.push(b"B".to_vec());
    Script {
        lines: script,
        last_lf: true,
    }
}

/// The lines of a script of commands without MACs, but for the last.
fn plain_script(kind: SpeedKind, lines: usize, seed: u64) -> Vec<Vec<u8>> {
    let mut rng = Rng::new(seed);
    let mut script = vec![SPEED_CARD.to_vec()];
    if kind == SpeedKind::Reads {
        for file in LONG_FILES {
            let bytes = rng.some_bytes(LONGEST_WRITE as usize);
            let write = write_frame(ins::WRITE_DATA, file, 8, LONGEST_WRITE, &bytes);
            script.push(hex_line(b"", &write));
        }
        for _ in 0..4 {
            let bytes = rng.some_bytes(ENTRY_SIZE);
            let write = write_frame(ins::WRITE_RECORD, OF.log, 0, ENTRY_SIZE as u64, &bytes);
            script.push(hex_line(b"", &write));
            script.push(hex_line(b"", &frame(ins::COMMIT, &[])));
        }
    }
    let mut at = 0;
    while script.len() + 1 < lines {
        script.push(match kind {
            SpeedKind::Values => hex_line(b"", &speed_value(&mut rng, at)),
            SpeedKind::Logs => hex_line(b"", &speed_log(&mut rng, at)),
            SpeedKind::Refusals => hex_line(b"", &speed_refusal(&mut rng, at)),
            SpeedKind::Chains => speed_chain(&mut rng, at),
            _ => hex_line(b"", &speed_read(&mut rng)),
        });
        at += 1;
    }
    script
}

/// The lines of a script of commands with MACs, but for the last.
fn mac_script(kind: SpeedKind, lines: usize, seed: u64) -> Vec<Vec<u8>> {
    let mut rng = Rng::new(seed);
    let mut script = vec![MAC_CARD.to_vec(), b"S00".to_vec()];
    for file in LONG_FILES {
        let bytes = rng.some_bytes(LONGEST_WRITE as usize);
        let write = write_frame(ins::WRITE_DATA, file, 8, LONGEST_WRITE, &bytes);
        script.push(hex_line(b"", &write));
    }
    let mut session = None;
    let mut at = 0;
    while script.len() + 1 < lines {
        // What an authentication takes may be more than what is left.
        let mut open = match session {
            Some(open) => open,
            None if script.len() + 4 < lines => open_session(&mut rng, &mut script),
            None => break,
        };
        let plain = match kind {
            SpeedKind::MacValues => speed_value(&mut rng, at),
            _ => speed_mac_read(&mut rng),
        };
        script.push(hex_line(b"", &with_mac(&mut open, &plain)));
        session = (open.counter < SESSION_COMMANDS).then_some(open);
        at += 1;
    }
    script
}

/// Puts the lines of an authentication with key 0 down: its session.
fn open_session(rng: &mut Rng, script: &mut Vec<Vec<u8>>) -> RealSession {
    let inputs: [u8; 20] = [rng.byte(); 20].map(|byte| byte ^ rng.byte());
    let terminal: Block = [rng.byte(); 16].map(|byte| byte ^ rng.byte());
    let (random, transaction) = inputs.split_at(16);
    let first = FirstPart {
        key_number: 0,
        random: random.try_into().expect("sixteen bytes"),
        transaction: transaction.try_into().expect("four bytes"),
        capabilities: Capabilities::default(),
    };
    let second = messaging::second_part(&MAC_KEY, &terminal, &first.random).concat();
    script.push(hex_line(b"N", &inputs));
    script.push(hex_line(b"", &terminal::first_part(0, &[])));
    script.push(hex_line(b"", &frame(ins::SECOND_PART, &second)));
    first.finished(&MAC_KEY, &terminal).0
}

/// A sound frame with its MAC, which the session counts.
fn with_mac(session: &mut RealSession, plain: &[u8]) -> Vec<u8> {
    let (instruction, data) = terminal::parts(plain).expect("a sound frame");
    let mac = session.command_mac(instruction, data);
    session.counter += 1;
    frame(instruction, &[data, &mac].concat())
}

/// A read of as much as has room beside a MAC.
fn speed_mac_read(rng: &mut Rng) -> Vec<u8> {
    let file = rng.pick(&LONG_FILES);
    let length = LONGEST_MAC_READ as u64;
    read_frame(ins::READ_DATA, file, rng.below(256 - length + 1), length)
}

fn speed_read(rng: &mut Rng) -> Vec<u8> {
    match rng.below(4) {
        0 => frame(ins::GET_VALUE, &[OF.value]),
        1 => {
            let entry = rng.below(4);
            let count = rng.below(5 - entry);
            read_frame(ins::READ_RECORDS, OF.log, entry, count)
        }
        _ => {
            let file = rng.pick(&LONG_FILES);
            let offset = rng.below(256);
            let length = rng.below(257 - offset).min(rng.pick(&[16, 32, 256]));
            read_frame(ins::READ_DATA, file, offset, length)
        }
    }
}

/// Transactions of Debit, two Credits, LimitedCredit and commit by turns. A
/// Debit of 100 to 199 in each transaction keeps the allowance at or above 100.
fn speed_value(rng: &mut Rng, at: usize) -> Vec<u8> {
    match at % 5 {
        0 => amount_frame(ins::DEBIT, OF.value, 100 + rng.below(100) as u32),
        // The first transaction finds no allowance.
        3 if at >= 5 => amount_frame(ins::LIMITED_CREDIT, OF.value, 1 + rng.below(50) as u32),
        1..=3 => amount_frame(ins::CREDIT, OF.value, 1 + rng.below(100) as u32),
        _ => frame(ins::COMMIT, &[]),
    }
}

/// Transactions of two WriteRecords and a commit, each sixteenth a clear.
fn speed_log(rng: &mut Rng, at: usize) -> Vec<u8> {
    match at % 3 {
        2 => frame(ins::COMMIT, &[]),
        1 if at / 3 % 16 == 15 => frame(ins::CLEAR_RECORD_FILE, &[OF.log]),
        _ => {
            let offset = rng.below(ENTRY_SIZE as u64);
            let length = 1 + rng.below(ENTRY_SIZE as u64 - offset);
            let bytes = rng.some_bytes(length as usize);
            write_frame(ins::WRITE_RECORD, OF.log, offset, length, &bytes)
        }
    }
}

/// The line of an opening, then two of file frames, by turns.
fn speed_chain(rng: &mut Rng, at: usize) -> Vec<u8> {
    if at % 3 > 0 {
        return hex_line(b"D", &rng.some_bytes(CHAIN_FRAME));
    }
    let file = rng.pick(&LONG_FILES);
    let length = 2 * CHAIN_FRAME as u64;
    let offset = rng.below(256 - length + 1);
    hex_line(b"C", &read_frame(ins::WRITE_DATA, file, offset, length))
}

/// The thirteen places by turns; place 10 takes a clear before it.
fn speed_refusal(rng: &mut Rng, at: usize) -> Vec<u8> {
    let amount = rng.below(1000) as u32;
    let mut credit = amount_frame(ins::CREDIT, OF.value, amount);
    match at % 14 {
        0 => credit.truncate(rng.below(4) as usize + 1),
        1 => credit[0] = 0x80,
        2 => credit[2] = 0x01,
        3 => credit[4] += 1,
        4 => credit[1] = 0xFF,
        5 => credit = frame(ins::GET_VALUE, &[OF.value, 0x00]),
        6 => credit[5] = UNKNOWN_NUMBER,
        7 => credit[5] = OF.log,
        8 => credit = read_frame(ins::READ_DATA, OF.short, rng.below(32), 0),
        9 => credit = frame(ins::CLEAR_RECORD_FILE, &[OF.log]),
        10 => credit = write_frame(ins::WRITE_RECORD, OF.log, 0, 1, &[0x55]),
        11 => credit[9] = 0x80,
        12 => credit[9] = 0x7F,
        _ => credit = frame(ins::COMMIT, &[]),
    }
    credit
}

#[cfg(test)]
mod tests {
    use super::*;
    use crate::bench::answers;

    #[test]
    fn speed_scripts_do_what_they_say() {
        for kind in SpeedKind::ALL {
            let script = speed_script(kind, 2000, 1);
            assert_eq!(script.lines.len(), 2000);
            let out = answers(&script.bytes());
            let commands = out.split(|&byte| byte == b'\n').skip(1).take(1998);
            let accepted = commands.filter(|line| line.ends_with(b"9100")).count();
            match kind {
                SpeedKind::Refusals => assert!(accepted * 14 <= 1998 + 14),
                // The last frame of a chain alone has a reply.
                SpeedKind::Chains => assert_eq!(accepted, 1998 / 3),
                // A session change, an N line and a first part are among them.
                SpeedKind::MacValues | SpeedKind::MacReads => assert_eq!(accepted, 1995),
                _ => assert_eq!(accepted, 1998, "{kind:?}"),
            }
        }
    }

    #[test]
    fn chains_of_speed_scripts_are_opened_and_delivered() {
        let script = speed_script(SpeedKind::Chains, 2000, 1);
        let out = answers(&script.bytes());
        let lines: Vec<&[u8]> = out.split(|&byte| byte == b'\n').collect();
        for chain in lines[1..1999].chunks(3) {
            assert_eq!(chain, [&b""[..], b"", b"9100"]);
        }
        let frames = script.lines.iter().filter(|line| line[0] == b'D');
        assert_eq!(frames.filter(|line| line.len() == 241).count(), 1332);
    }

    #[test]
    fn sessions_of_speed_scripts_end_before_their_counter() {
        let lines = usize::from(SESSION_COMMANDS) + 2000;
        for kind in [SpeedKind::MacValues, SpeedKind::MacReads] {
            let script = speed_script(kind, lines, 1);
            assert_eq!(script.lines.len(), lines);
            let out = answers(&script.bytes());
            let count = |status: &[u8]| {
                let lines = out.split(|&byte| byte == b'\n');
                lines.filter(|line| line.ends_with(status)).count()
            };
            assert_eq!(count(b"91AF"), 2);
            assert_eq!(count(b"!0"), 4);
            assert_eq!(count(b"9100"), lines - 2 - 4 - 1);
        }
    }

    #[test]
    fn reads_with_macs_are_the_longest() {
        let out = answers(&speed_script(SpeedKind::MacReads, 100, 1).bytes());
        let longest = 2 * (LONGEST_MAC_READ + 8 + 2);
        let lines = out.split(|&byte| byte == b'\n');
        assert_eq!(lines.filter(|line| line.len() == longest).count(), 92);
    }
}
