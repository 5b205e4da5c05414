//! Chains: openings, file frames, and what comes between them.

use super::Writer;
use crate::frames::{frame, ins, read_frame, LARGEST_3};
use crate::model::{
    Card, Chain, Condition, DataRole, Numbers, Refusal, Role, Session, Status, LAST_KEY,
    LONGEST_FILE_FRAME, REPLY_ROOM,
};
use crate::terminal;

/// The most file bytes that a line has room for.
const LONGEST_LINE_OF_BYTES: usize = 511;

/// What can be wrong with a file frame.
#[derive(Clone, Copy, Debug, PartialEq, Eq)]
pub enum FrameFault {
    /// No chain is open.
    NoChain,
    /// No chain is open, and a first part waits for its second.
    BetweenParts,
    /// It has no bytes.
    Empty,
    /// It has more than 128 bytes, which are not more than what is left.
    TooLong,
    /// It has more bytes than are left, but not more than 128.
    PastLength,
    /// It has more bytes than both.
    TooLongAndPast,
}

impl FrameFault {
    /// All faults.
    pub const ALL: [Self; 6] = [
        Self::NoChain,
        Self::BetweenParts,
        Self::Empty,
        Self::TooLong,
        Self::PastLength,
        Self::TooLongAndPast,
    ];

    /// What is wrong with a frame of this many bytes for the card at hand.
    pub(super) fn of(card: &Card, size: usize) -> Option<Self> {
        let left = match (card.chain(), card.session()) {
            (Some(chain), _) => chain.left,
            (None, Session::Waiting(_)) => return Some(Self::BetweenParts),
            (None, _) => return Some(Self::NoChain),
        };
        match (size > LONGEST_FILE_FRAME, size > left) {
            _ if size == 0 => Some(Self::Empty),
            (true, true) => Some(Self::TooLongAndPast),
            (true, false) => Some(Self::TooLong),
            (false, true) => Some(Self::PastLength),
            (false, false) => None,
        }
    }
}

/// A chain that is open no more.
#[derive(Clone, Copy, Debug)]
pub(super) struct OverChain {
    /// As it was when its last line came.
    pub(super) chain: Chain,
    /// Whether bytes of it never came.
    pub(super) cut: bool,
}

impl Writer {
    /// The open chain.
    pub(super) fn chain(&self) -> Option<Chain> {
        self.bench.card().chain().copied()
    }

    /// The outcome that an opening would have.
    fn opening_outcome(&self, frame: &[u8]) -> Result<(), Refusal> {
        self.bench.card().clone().answer_opening(frame)
    }

    /// The outcome that a file frame would have.
    fn file_frame_outcome(&self, bytes: &[u8]) -> Result<Option<Status>, Refusal> {
        self.bench.card().clone().answer_file_frame(bytes)
    }

    /// Sends an opening and counts its outcome.
    pub(super) fn send_opening(&mut self, frame: &[u8]) {
        self.count_opening(frame, self.opening_outcome(frame));
        self.digits_line(b"C", frame);
    }

    /// Sends a file frame and counts its outcome.
    pub(super) fn send_file_frame(&mut self, bytes: &[u8]) {
        self.count_file_frame(bytes, self.file_frame_outcome(bytes));
        self.digits_line(b"D", bytes);
    }

    /// An opening: thought over a few times if it would be refused, unless the
    /// mood sends wrong ones. Where none would do, mostly a command.
    pub(super) fn open_somehow(&mut self) {
        if self.rng.percent(self.mood.opening_faults) {
            let wrong = self.wrong_opening();
            self.send_opening(&wrong);
            return;
        }
        for _ in 0..8 {
            let opening = self.right_opening();
            let outcome = self.opening_outcome(&opening);
            if outcome == Err(Refusal::NotGranted) && self.rng.percent(self.restlessness()) {
                self.useful_session(opening[5]);
                if self.waiting().is_some() {
                    return;
                }
            } else if outcome.is_ok() || self.rng.percent(self.mood.refusals) {
                self.send_opening(&opening);
                return;
            }
        }
        if self.rng.percent(20) {
            let opening = self.right_opening();
            self.send_opening(&opening);
        } else {
            self.command();
        }
    }

    /// An opening of a data file, with a range inside it.
    fn right_opening(&mut self) -> Vec<u8> {
        let role = self.rng.pick(&DataRole::ALL);
        let size = role.size() as u64;
        let offset = match self.rng.below(8) {
            0..=3 => 0,
            4 => size - 1,
            _ => self.rng.below(size),
        };
        let rest = size - offset;
        let longest = LONGEST_FILE_FRAME as u64;
        let length = match self.rng.below(12) {
            0..=3 => rest,
            4 => 1,
            5 => rest.min(longest),
            6 => rest.min(longest + 1),
            7..=8 => rest.min(240),
            _ => 1 + self.rng.below(rest),
        };
        read_frame(ins::WRITE_DATA, self.data_number(role), offset, length)
    }

    /// An opening that is refused, mostly, for one or more reasons, so that
    /// their order shows.
    fn wrong_opening(&mut self) -> Vec<u8> {
        let role = self.rng.pick(&DataRole::ALL);
        let file = match self.rng.below(20) {
            0..=12 => self.data_number(role),
            13..=14 => Numbers::DEFAULT.of(Role::Data(role)),
            15 => {
                let other = self.rng.pick(&[Role::Value, Role::Log]);
                self.number(other)
            }
            _ => self.wrong_number(),
        };
        let size = self.data_size(file);
        let (offset, length) = if self.rng.percent(70) {
            self.range(size)
        } else {
            (self.rng.pick(&[0, size, LARGEST_3]), 0)
        };
        let mut opening = read_frame(ins::WRITE_DATA, file, offset, length);
        let mut data = opening[5..12].to_vec();
        match self.rng.below(14) {
            0 => {
                let more = self.rng.pick(&[1, 2, 7, 8, 16, 100, 248]);
                data.extend_from_slice(&self.rng.some_bytes(more));
                opening = frame(ins::WRITE_DATA, &data);
            }
            1 => {
                data.truncate(self.rng.below(7) as usize);
                opening = frame(ins::WRITE_DATA, &data);
            }
            // With the MAC that a WriteData would carry.
            2 => {
                if let Session::Real(session) = self.bench.card().session() {
                    data.extend_from_slice(&session.command_mac(ins::WRITE_DATA, &data));
                }
                opening = frame(ins::WRITE_DATA, &data);
            }
            // A command, sound or with another INS.
            3..=4 => {
                let sound = self.sound_frame();
                opening = self.seal(sound).0;
            }
            5 => opening[1] = self.rng.pick(&ins::ALL),
            6..=8 => self.damage(&mut opening),
            _ => {}
        }
        opening
    }

    /// A line while a chain is open: mostly a file frame that fits, and at times
    /// anything else.
    pub(super) fn mid_chain(&mut self) {
        let left = match self.chain() {
            Some(chain) => chain.left,
            None => return,
        };
        let has_room = self.bench.room() >= REPLY_ROOM;
        if has_room && !self.rng.percent(self.mood.cuts) {
            let bytes = self.fitting_bytes(left);
            self.send_file_frame(&bytes);
            return;
        }
        // What the bench refuses for want of room leaves the chain.
        let sort = match has_room {
            true => self.rng.below(26),
            false => 11 + self.rng.below(15),
        };
        match sort {
            0..=1 => self.line(Vec::new()),
            2..=3 => self.session(),
            4..=5 => self.personalise(),
            6 => self.room(),
            7 => self.inputs(),
            8 => self.line(b"B".to_vec()),
            9..=10 => self.other(),
            11..=12 => {
                let again = self.right_opening();
                self.send_opening(&again);
            }
            13 => {
                let wrong = self.wrong_opening();
                self.send_opening(&wrong);
            }
            14..=16 => {
                let sound = self.sound_frame();
                let sealed = self.seal(sound).0;
                self.send(&sealed);
            }
            17 => {
                let mut damaged = self.sound_frame();
                self.damage(&mut damaged);
                self.send(&damaged);
            }
            // A part of an authentication.
            18 => {
                let key_number = self.rng.below(u64::from(LAST_KEY) + 1) as u8;
                let first = self.first_part(key_number);
                self.send(&first);
            }
            19 => {
                let bytes = self.rng.some_bytes(32);
                self.send(&frame(ins::SECOND_PART, &bytes));
            }
            // What is left, as a command and not as a file frame.
            20 => {
                let bytes = self.fitting_bytes(left);
                self.send(&frame(ins::WRITE_DATA, &bytes));
            }
            _ => {
                let bytes = self.misfit(left);
                self.send_file_frame(&bytes);
            }
        }
    }

    /// Bytes of a file frame that fits, the last one often.
    fn fitting_bytes(&mut self, left: usize) -> Vec<u8> {
        let most = left.min(LONGEST_FILE_FRAME);
        let size = match self.rng.below(10) {
            0..=2 => most,
            3 => 1,
            4 => (most - 1).max(1),
            5 => most.min(120),
            _ => 1 + self.rng.below(most as u64) as usize,
        };
        self.rng.some_bytes(size)
    }

    /// Bytes of a file frame that does not fit.
    fn misfit(&mut self, left: usize) -> Vec<u8> {
        let size = match self.rng.below(9) {
            0..=1 => 0,
            2 => LONGEST_FILE_FRAME + 1,
            3..=4 if left > LONGEST_FILE_FRAME => left,
            3..=5 => left + 1,
            6 => self
                .rng
                .pick(&[130, 200, 255, 256, 257, 510, LONGEST_LINE_OF_BYTES]),
            _ => left + 1 + self.rng.below(10) as usize,
        };
        self.rng.some_bytes(size.min(LONGEST_LINE_OF_BYTES))
    }

    /// A file frame of any size where no chain is open.
    pub(super) fn stray_file_frame(&mut self) {
        let size = self.rng.pick(&[0, 1, 2, 16, 127, 128, 129, 240, 511]);
        let bytes = self.rng.some_bytes(size);
        self.send_file_frame(&bytes);
    }

    /// An opening or a file frame while a first part waits.
    pub(super) fn chain_between_parts(&mut self) {
        if self.rng.percent(20) {
            self.digits_line(b"R", &[0x01, 0x01]);
        }
        match self.rng.below(4) {
            0 => {
                let right = self.right_opening();
                self.send_opening(&right);
            }
            1 => {
                let wrong = self.wrong_opening();
                self.send_opening(&wrong);
            }
            _ => self.stray_file_frame(),
        }
    }

    /// Reads the whole file of a chain that is over, if it can be read, at times
    /// in another session.
    pub(super) fn read_back(&mut self, over: &OverChain) {
        let role = over.chain.file;
        let file = self.data_number(role);
        let size = role.size() as u64;
        if self.outcome(&self.read_of(file, 0, 1)) == Err(Refusal::NotGranted) {
            let stays = self.in_real_session() && self.rng.percent(60);
            match self.key_to_read(role) {
                Some(key) if !stays => self.digits_line(b"S", &[key]),
                _ => return,
            }
        }
        // A read in MAC mode has no room for all 256 bytes.
        for offset in (0..size).step_by(128) {
            let read = self.read_of(file, offset, size.min(128));
            if self.outcome(&read).is_err() {
                return;
            }
            self.send(&read);
            self.tally.read_back[usize::from(over.cut)] += 1;
        }
    }

    /// A ReadData with a MAC if the card takes one.
    fn read_of(&self, file: u8, offset: u64, length: u64) -> Vec<u8> {
        let plain = read_frame(ins::READ_DATA, file, offset, length);
        terminal::sealed(self.bench.card(), ins::READ_DATA, &plain[5..12])
    }

    /// A key that grants reading a data file.
    fn key_to_read(&self, role: DataRole) -> Option<u8> {
        let rights = self.bench.card().rights(Role::Data(role));
        [rights.read, rights.read_write]
            .into_iter()
            .find_map(|condition| match condition {
                Condition::Key(key) => Some(key),
                _ => None,
            })
    }
}
