//! What scripts contain.

use crate::frames::ins;
use crate::model::{Books, Refusal, DATA_FILES, FILES, KEYS, LOG_ENTRIES, ROWS};
use crate::scripts::{FrameFault, SealFault};
use std::fmt::{self, Display, Formatter};

/// What a personalisation prints: 0, or the number of the bench refusal.
pub const ORDER_OUTCOMES: [u8; 6] = [0, 1, 2, 3, 7, 8];

/// What the scripts written so far contain.
#[derive(Clone, Debug, Default)]
pub struct Tally {
    /// All lines.
    pub lines: u64,
    /// Commands that reached the card.
    pub commands: u64,
    /// Commands refused by the bench for want of room (number 5).
    pub no_room: u64,
    /// Session changes.
    pub sessions: u64,
    /// Power-ups.
    pub power_ups: u64,
    /// Personalisations, by the number printed, as [`ORDER_OUTCOMES`] has them.
    pub personalisations: [u64; ORDER_OUTCOMES.len()],
    /// `R` lines.
    pub rooms: u64,
    /// `B` lines.
    pub books: u64,
    /// `?` lines.
    pub others: u64,
    /// Accepted commands, in the order of the command table.
    pub accepted: [u64; 14],
    /// Refused commands, by the place of the order of checks.
    pub places: [u64; ROWS],
    /// Amounts of 0 refused for that, in Credit, Debit and LimitedCredit.
    pub zero_amounts: [u64; 3],
    /// Accepted GetFileSettings of each file, in the order of a personalisation.
    pub settings: [u64; FILES],
    /// Those of a file whose R, W and RW are all Fh.
    pub sealed_settings: u64,
    /// Refused ones, by the place of the order of checks.
    pub settings_places: [u64; ROWS],
    /// LimitedCredits within the committed allowance, refused at place 12
    /// after another of their transaction.
    pub used_up: u64,
    /// Commits of a LimitedCredit: without a Debit, and with one.
    pub rebookings: [u64; 2],
    /// Commits that pushed an entry out of the log.
    pub pushed_out: u64,
    /// Commits whose Debit sum was held at 2,147,483,647.
    pub held_sums: u64,
    /// Commits of ten or more accepted commands that made something pending.
    pub long_transactions: u64,
    /// `N` lines.
    pub inputs: u64,
    /// Personalisations with keys and modes.
    pub with_keys: u64,
    /// Personalisations with numbers too.
    pub with_numbers: u64,
    /// Accepted ones with others than the sheet's: none of the sheet's numbers is
    /// another file's, and some are.
    pub own_numbers: [u64; 2],
    /// Those refused with 7 in which two numbers are equal as well.
    pub high_and_twice: u64,
    /// Those refused with 1, 2 or 3 whose numbers are wrong as well.
    pub hidden_numbers: u64,
    /// Accepted commands on a file whose number is not the sheet's, in the order
    /// of the command table: plain ones, and those in MAC mode.
    pub by_own_number: [[u64; 14]; 2],
    /// Chains opened on such a data file.
    pub own_chains: [u64; DATA_FILES],
    /// Of both, those by a number that is another file's in the sheet.
    pub old_for_another: u64,
    /// Commands and openings refused at place 7 that name a file by the sheet.
    pub old_unknown: [u64; 2],
    /// Those refused at place 8 by a number that is a file's of another kind in
    /// the sheet.
    pub old_of_another_kind: [u64; 2],
    /// Lines between the two parts of an authentication, by their sort.
    pub between: [u64; LineSort::ALL.len()],
    /// Sessions of AuthenticateEV2First by their key.
    pub opened: [u64; KEYS],
    /// Second parts that failed.
    pub failed: u64,
    /// Accepted commands under such a session, in the order of the command
    /// table: plain ones, and those in MAC mode.
    pub in_session: [[u64; 14]; 2],
    /// The plain ones on a file in MAC mode: a free condition alone grants them.
    pub free_in_mac_mode: u64,
    /// ReadData in MAC mode of 247, 248, 249 and 250 bytes.
    pub mac_reads: [u64; 4],
    /// Accepted ones to the end of a file.
    pub mac_reads_to_end: u64,
    /// What was wrong with MACs.
    pub seal_faults: [u64; SealFault::ALL.len()],
    /// The highest command counter.
    pub highest_counter: u16,
    /// Commands refused at its end.
    pub ended: u64,
    /// Openings of chains that reached the card.
    pub openings: u64,
    /// File frames that reached the card.
    pub file_frames: u64,
    /// Openings and file frames refused by the bench for want of room.
    pub chains_no_room: [u64; 2],
    /// Chains opened under no session, one of the bench and one of
    /// AuthenticateEV2First, each on the three data files.
    pub chains: [[u64; DATA_FILES]; 3],
    /// Those under the last on a file in MAC mode: a free condition alone grants
    /// them.
    pub free_chains: u64,
    /// Those of more bytes than a WriteData has room for.
    pub long_chains: u64,
    /// Refused openings, by the place of the order of checks.
    pub opening_places: [u64; ROWS],
    /// Accepted file frames but the last ones.
    pub delivered: u64,
    /// Last ones, by the session as above.
    pub finished: [u64; 3],
    /// Those beside pending work.
    pub beside_work: u64,
    /// What was wrong with file frames.
    pub frame_faults: [u64; FrameFault::ALL.len()],
    /// Lines while a chain is open, by their sort.
    pub mid_chain: [u64; LineSort::ALL.len()],
    /// Of them, those that dropped the rest of a chain behind a delivered frame.
    pub torn: [u64; LineSort::ALL.len()],
    /// Commands refused with 91CA there, in the order of the command table.
    pub interrupted: [u64; 14],
    /// Commands refused there before that, by the place.
    pub mid_chain_places: [u64; ROWS],
    /// Reads of a file after a chain that was finished, and after one that was
    /// cut.
    pub read_back: [u64; 2],
    /// `L` lines by the last event before them.
    pub asked: [u64; LastEvent::ALL.len()],
    /// Those answered 16, by the sort of the line before them, which is the
    /// commit itself or no event.
    pub asked_behind: [u64; LineSort::ALL.len()],
    /// Reads of the log by the slot of its newest entry and by the number of its
    /// entries.
    pub log_reads: [[u64; LOG_ENTRIES]; LOG_ENTRIES],
}

/// The sorts of lines.
#[derive(Clone, Copy, Debug, PartialEq, Eq)]
pub enum LineSort {
    /// An empty line.
    PowerUp,
    /// `S` with or without a key.
    Session,
    /// `S` with a key that the bench refused.
    NoKey,
    /// `R`.
    Room,
    /// `P`.
    Personalisation,
    /// `B`.
    Books,
    /// `L`.
    Stored,
    /// `N`.
    Inputs,
    /// A line answered `?`.
    Other,
    /// A command that the bench refused.
    NoRoom,
    /// Any other command.
    Command,
    /// An opening of a chain that the bench refused.
    OpeningNoRoom,
    /// Any other.
    Opening,
    /// A file frame that the bench refused.
    FileFrameNoRoom,
    /// Any other.
    FileFrame,
}

impl LineSort {
    /// All sorts.
    pub const ALL: [Self; 15] = [
        Self::PowerUp,
        Self::Session,
        Self::NoKey,
        Self::Room,
        Self::Personalisation,
        Self::Books,
        Self::Stored,
        Self::Inputs,
        Self::Other,
        Self::NoRoom,
        Self::Command,
        Self::OpeningNoRoom,
        Self::Opening,
        Self::FileFrameNoRoom,
        Self::FileFrame,
    ];

    /// Whether lines of this sort are events, refused or not.
    pub fn is_event(self) -> bool {
        !matches!(
            self,
            Self::Room | Self::Books | Self::Stored | Self::Inputs | Self::Other
        )
    }

    /// The sort of a line with this answer.
    pub fn of(line: &[u8], answer: &[u8]) -> Self {
        let refused = answer.starts_with(b"!");
        match line {
            _ if answer == b"?\n" => Self::Other,
            [] => Self::PowerUp,
            b"B" => Self::Books,
            b"L" => Self::Stored,
            [b'S', ..] if answer != b"!0\n" => Self::NoKey,
            [b'S', ..] => Self::Session,
            [b'R', ..] => Self::Room,
            [b'P', ..] => Self::Personalisation,
            [b'N', ..] => Self::Inputs,
            [b'C', digits @ ..] if digits.len() % 2 == 0 => match refused {
                true => Self::OpeningNoRoom,
                false => Self::Opening,
            },
            [b'D', digits @ ..] if digits.len() % 2 == 0 => match refused {
                true => Self::FileFrameNoRoom,
                false => Self::FileFrame,
            },
            _ if refused => Self::NoRoom,
            _ => Self::Command,
        }
    }
}

/// The sorts of events by what they may do to the log's slots.
#[derive(Clone, Copy, Debug, PartialEq, Eq)]
pub enum LastEvent {
    /// There was no event yet.
    None,
    /// A commit of a new entry alone.
    Entry,
    /// One of a new entry and of figures.
    EntryAndValue,
    /// One of figures alone.
    Value,
    /// One of a clear.
    Clear,
    /// An abort.
    Abort,
    /// Any other accepted command.
    Accepted,
    /// A refused command.
    Refused,
    /// One that dropped a new entry.
    EntryDropped,
    /// A command that the bench refused.
    NoRoom,
    /// An accepted frame of a chain.
    Frame,
    /// A refused one.
    FrameRefused,
    /// One that the bench refused.
    FrameNoRoom,
    /// A session change.
    Session,
    /// One that the bench refused.
    NoKey,
    /// A power-up.
    PowerUp,
    /// A personalisation.
    Personalised,
    /// A refused one, which leaves the blank card.
    Blank,
}

impl LastEvent {
    /// All sorts.
    pub const ALL: [Self; 18] = [
        Self::None,
        Self::Entry,
        Self::EntryAndValue,
        Self::Value,
        Self::Clear,
        Self::Abort,
        Self::Accepted,
        Self::Refused,
        Self::EntryDropped,
        Self::NoRoom,
        Self::Frame,
        Self::FrameRefused,
        Self::FrameNoRoom,
        Self::Session,
        Self::NoKey,
        Self::PowerUp,
        Self::Personalised,
        Self::Blank,
    ];

    /// The sort of an event with this line and answer, and with these books
    /// before it; none of a line that is no event.
    pub fn of(sort: LineSort, line: &[u8], answer: &[u8], before: &Books) -> Option<Self> {
        let accepted = answer.ends_with(b"9100\n") || answer.ends_with(b"91AF\n");
        Some(match sort {
            _ if !sort.is_event() => return None,
            LineSort::PowerUp => Self::PowerUp,
            LineSort::Session => Self::Session,
            LineSort::NoKey => Self::NoKey,
            LineSort::Personalisation if answer == b"!0\n" => Self::Personalised,
            LineSort::Personalisation => Self::Blank,
            LineSort::NoRoom => Self::NoRoom,
            LineSort::OpeningNoRoom | LineSort::FileFrameNoRoom => Self::FrameNoRoom,
            LineSort::Opening | LineSort::FileFrame if accepted || answer == b"\n" => Self::Frame,
            LineSort::Opening | LineSort::FileFrame => Self::FrameRefused,
            LineSort::Command if accepted => Self::of_accepted(line, before),
            _ if before.entry_pending => Self::EntryDropped,
            _ => Self::Refused,
        })
    }

    /// The sort of an accepted command.
    fn of_accepted(line: &[u8], before: &Books) -> Self {
        match line[2..4].to_ascii_uppercase().as_slice() {
            b"C7" if before.entry_pending && before.value_pending => Self::EntryAndValue,
            b"C7" if before.entry_pending => Self::Entry,
            b"C7" if before.clear_pending => Self::Clear,
            b"C7" => Self::Value,
            b"A7" => Self::Abort,
            _ => Self::Accepted,
        }
    }

    /// Whether it is a commit with a new entry, which stores it.
    pub fn stores(self) -> bool {
        matches!(self, Self::Entry | Self::EntryAndValue)
    }
}

impl Tally {
    /// The events of the paper's section "Events": commands, session changes
    /// and power-ups, and the frames of chains. Personalisations and the other
    /// lines don't count.
    pub fn events(&self) -> u64 {
        self.commands + self.no_room + self.sessions + self.power_ups + self.chain_frames()
    }

    /// Openings and file frames.
    pub fn chain_frames(&self) -> u64 {
        self.openings + self.file_frames + self.chains_no_room.iter().sum::<u64>()
    }
}

/// A line of counts with their names.
fn write_counts<Name: Display, const COUNTS: usize>(
    f: &mut Formatter,
    title: &str,
    names: [Name; COUNTS],
    counts: [u64; COUNTS],
) -> fmt::Result {
    write!(f, "{title}:")?;
    for (name, count) in names.iter().zip(counts) {
        write!(f, " {name}:{count}")?;
    }
    writeln!(f)
}

impl Tally {
    /// What chains brought.
    fn fmt_chains(&self, f: &mut Formatter) -> fmt::Result {
        writeln!(
            f,
            "openings {}, file frames {}, without room {:?}, chains by session and file {:?}, \
             free in MAC mode {}, above 248 bytes {}",
            self.openings,
            self.file_frames,
            self.chains_no_room,
            self.chains,
            self.free_chains,
            self.long_chains
        )?;
        write_counts(
            f,
            "openings refused by place",
            Refusal::PLACES,
            self.opening_places,
        )?;
        writeln!(
            f,
            "file frames delivered {}, last ones by session {:?}, of them beside pending work {}",
            self.delivered, self.finished, self.beside_work
        )?;
        let faults = FrameFault::ALL.map(|fault| format!("{fault:?}"));
        write_counts(f, "wrong file frames", faults, self.frame_faults)?;
        let sorts = || LineSort::ALL.map(|sort| format!("{sort:?}"));
        write_counts(f, "in mid-chain", sorts(), self.mid_chain)?;
        write_counts(f, "chains torn", sorts(), self.torn)?;
        let instructions = ins::ALL.map(|byte| format!("{byte:02X}"));
        write_counts(f, "91CA in mid-chain", instructions, self.interrupted)?;
        let places = self.mid_chain_places;
        write_counts(f, "before it by place", Refusal::PLACES, places)?;
        writeln!(
            f,
            "read back after a chain that was finished and one that was cut {:?}",
            self.read_back
        )
    }

    /// What numbers of files brought.
    fn fmt_numbers(&self, f: &mut Formatter) -> fmt::Result {
        let outcomes = ORDER_OUTCOMES;
        write_counts(
            f,
            "personalisations by outcome",
            outcomes,
            self.personalisations,
        )?;
        let [others, exchanged] = self.own_numbers;
        writeln!(
            f,
            "P with numbers {}, accepted with own ones {}, of them with a number of the sheet for \
             another file {}; refused with 7 and equal ones too {}, with 1 to 3 and wrong ones too {}",
            self.with_numbers,
            others + exchanged,
            exchanged,
            self.high_and_twice,
            self.hidden_numbers
        )?;
        let instructions = || ins::ALL.map(|byte| format!("{byte:02X}"));
        let [plain, maced] = self.by_own_number;
        write_counts(f, "by own number, plain", instructions(), plain)?;
        write_counts(f, "by own number, with a MAC", instructions(), maced)?;
        writeln!(
            f,
            "chains by own number {:?}; by a number of the sheet for another file {}; of the sheet \
             and 91F0 {:?}, and a file of another kind {:?}",
            self.own_chains, self.old_for_another, self.old_unknown, self.old_of_another_kind
        )
    }

    /// What was asked about the log's slots.
    fn fmt_slots(&self, f: &mut Formatter) -> fmt::Result {
        let events = LastEvent::ALL.map(|event| format!("{event:?}"));
        write_counts(f, "L by the last event", events, self.asked)?;
        let sorts = LineSort::ALL.map(|sort| format!("{sort:?}"));
        write_counts(f, "L answered 16, behind", sorts, self.asked_behind)?;
        write!(
            f,
            "reads of the log by the newest entry's slot and the number of entries {:?}",
            self.log_reads
        )
    }

    /// What sessions of AuthenticateEV2First brought.
    fn fmt_sessions(&self, f: &mut Formatter) -> fmt::Result {
        let instructions = || ins::ALL.map(|byte| format!("{byte:02X}"));
        writeln!(
            f,
            "N {}, P with keys {}, sessions opened by key {:?}, second parts that failed {}",
            self.inputs, self.with_keys, self.opened, self.failed
        )?;
        let sorts = LineSort::ALL.map(|sort| format!("{sort:?}"));
        write_counts(f, "between the parts", sorts, self.between)?;
        let [plain, maced] = self.in_session;
        write_counts(f, "in session, plain", instructions(), plain)?;
        write_counts(f, "in session, with a MAC", instructions(), maced)?;
        let faults = SealFault::ALL.map(|fault| format!("{fault:?}"));
        write_counts(f, "wrong MACs", faults, self.seal_faults)?;
        writeln!(
            f,
            "free in MAC mode {}, MACed reads of 247 to 250 bytes {:?}, to the end {}, \
             highest counter {}, refused at its end {}",
            self.free_in_mac_mode,
            self.mac_reads,
            self.mac_reads_to_end,
            self.highest_counter,
            self.ended
        )
    }
}

impl Display for Tally {
    fn fmt(&self, f: &mut Formatter) -> fmt::Result {
        writeln!(
            f,
            "lines {}: commands {} and {} without room, sessions {}, power-ups {}, \
             personalisations {}, R {}, B {}, L {}, ? {}",
            self.lines,
            self.commands,
            self.no_room,
            self.sessions,
            self.power_ups,
            self.personalisations.iter().sum::<u64>(),
            self.rooms,
            self.books,
            self.asked.iter().sum::<u64>(),
            self.others
        )?;
        write_counts(
            f,
            "accepted",
            ins::ALL.map(|byte| format!("{byte:02X}")),
            self.accepted,
        )?;
        write_counts(f, "refused by place", Refusal::PLACES, self.places)?;
        writeln!(
            f,
            "settings of each file {:?}, of them sealed {}, refused by place {:?}",
            self.settings, self.sealed_settings, self.settings_places
        )?;
        writeln!(
            f,
            "second re-bookings {}, re-bookings committed without and with a Debit {:?}",
            self.used_up, self.rebookings
        )?;
        writeln!(
            f,
            "amounts of 0 {:?}, entries pushed out {}, Debit sums held {}, long transactions {}",
            self.zero_amounts, self.pushed_out, self.held_sums, self.long_transactions
        )?;
        self.fmt_numbers(f)?;
        self.fmt_sessions(f)?;
        self.fmt_chains(f)?;
        self.fmt_slots(f)
    }
}
