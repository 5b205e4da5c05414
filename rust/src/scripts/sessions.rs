//! Sessions of AuthenticateEV2First: their parts, and the MACs of commands,
//! right and wrong.

use super::{Theme, Writer};
use crate::aes::Block;
use crate::frames::{frame, ins};
use crate::messaging::{self, FirstPart, RealSession, MAC_SIZE};
use crate::model::{Numbers, Session, LAST_KEY};
use crate::terminal::{self, parts};

/// What can be wrong with a MAC.
#[derive(Clone, Copy, Debug, PartialEq, Eq)]
pub enum SealFault {
    /// One bit.
    Bit,
    /// It is not there.
    Missing,
    /// Bytes are missing at its end.
    Short,
    /// A byte follows it.
    Long,
    /// Its halves are exchanged.
    Swapped,
    /// It stands before the data.
    InFront,
    /// It is that of the counter before or after.
    Counter,
    /// It is that of another transaction identifier.
    Transaction,
    /// It is that of another key.
    Key,
    /// It is that of another command with the same data.
    Instruction,
    /// It is that of a reply.
    Reply,
    /// It is made of zeros.
    Zeros,
    /// It is right, but none is taken.
    Unasked,
}

impl SealFault {
    /// All faults of a MAC that is taken, and the other one.
    pub const ALL: [Self; 13] = [
        Self::Bit,
        Self::Missing,
        Self::Short,
        Self::Long,
        Self::Swapped,
        Self::InFront,
        Self::Counter,
        Self::Transaction,
        Self::Key,
        Self::Instruction,
        Self::Reply,
        Self::Zeros,
        Self::Unasked,
    ];
}

impl Writer {
    /// The first part that waits for its second.
    pub(super) fn waiting(&self) -> Option<FirstPart> {
        match self.bench.card().session() {
            Session::Waiting(first) => Some(*first),
            _ => None,
        }
    }

    /// Whether a session of AuthenticateEV2First is open.
    pub(super) fn in_real_session(&self) -> bool {
        matches!(self.bench.card().session(), Session::Real(_))
    }

    /// A random block.
    fn block(&mut self) -> Block {
        let [high, low] = [self.rng.bits(), self.rng.bits()];
        (u128::from(high) << 64 | u128::from(low)).to_be_bytes()
    }

    /// An `N` line.
    pub(super) fn inputs(&mut self) {
        let mut bytes = self.rng.some_bytes(20);
        if self.rng.percent(5) {
            bytes = vec![0; 20];
        }
        self.digits_line(b"N", &bytes);
    }

    /// An authentication with any key.
    pub(super) fn authenticate_somehow(&mut self) {
        let key_number = self.rng.below(u64::from(LAST_KEY) + 1) as u8;
        self.authenticate(key_number);
    }

    /// An authentication with a key: mostly both parts, and right ones.
    pub(super) fn authenticate(&mut self, key_number: u8) {
        if self.rng.percent(40) {
            self.inputs();
        }
        let first = if self.rng.percent(self.mood.breaks / 2) {
            self.wrong_first_part(key_number)
        } else {
            self.first_part(key_number)
        };
        self.send(&first);
        if self.waiting().is_some() {
            self.between_parts();
        }
    }

    /// Capabilities of any length, without the LRP bit.
    fn capabilities(&mut self) -> Vec<u8> {
        let length = self.rng.pick(&[0, 0, 0, 1, 2, 5, 6, 6, 7, 8, 100, 253]);
        let mut bytes = self.rng.some_bytes(length);
        if let Some(first) = bytes.first_mut() {
            *first &= !0x02;
        }
        bytes
    }

    pub(super) fn first_part(&mut self, key_number: u8) -> Vec<u8> {
        let capabilities = self.capabilities();
        terminal::first_part(key_number, &capabilities)
    }

    /// A first part that is refused: its key, its LRP bit, its length, or more
    /// than one of them.
    fn wrong_first_part(&mut self, key_number: u8) -> Vec<u8> {
        let mut data = vec![key_number, 0x00];
        data.extend_from_slice(&self.capabilities());
        data[1] = (data.len() - 2) as u8;
        let faults = 1 + self.rng.below(2);
        for _ in 0..faults {
            match self.rng.below(6) {
                0..=1 if !data.is_empty() => {
                    data[0] = self.rng.pick(&[5, 6, 0x0E, 0x0F, 0x10, 0x80, 0xFF]);
                }
                2..=3 if data.len() > 2 => data[2] |= 0x02,
                2..=3 => data = vec![key_number, 0x01, self.rng.pick(&[0x02, 0x03, 0xFF])],
                4 if data.len() > 1 => data[1] ^= self.rng.pick(&[0x01, 0x03, 0x80]),
                _ => data.truncate(self.rng.below(2) as usize),
            }
        }
        frame(ins::FIRST_PART, &data)
    }

    /// A line while a first part waits: mostly the second part, and at times
    /// anything else.
    pub(super) fn between_parts(&mut self) {
        let first = match self.waiting() {
            Some(first) => first,
            None => return,
        };
        if !self.rng.percent(self.mood.breaks) {
            let terminal = self.block();
            let key = *self.bench.card().key(first.key_number);
            let blocks = messaging::second_part(&key, &terminal, &first.random);
            self.send(&frame(ins::SECOND_PART, &blocks.concat()));
            return;
        }
        let sorts = match self.theme {
            Theme::Chains => 20,
            _ => 16,
        };
        match self.rng.below(sorts) {
            0 => self.line(Vec::new()),
            1 => self.session(),
            2 => self.personalise(),
            3 => self.room(),
            4 => self.inputs(),
            5 => self.line(b"B".to_vec()),
            6 => self.other(),
            7 => {
                let again = self.first_part(first.key_number);
                self.send(&again);
            }
            8 => {
                let wrong = self.wrong_first_part(first.key_number);
                self.send(&wrong);
            }
            9..=10 => {
                let sound = self.sound_frame();
                self.send(&sound);
            }
            11 => {
                let mut damaged = self.sound_frame();
                self.damage(&mut damaged);
                self.send(&damaged);
            }
            16.. => self.chain_between_parts(),
            _ => {
                let wrong = self.wrong_second_part(&first);
                self.send(&wrong);
            }
        }
    }

    /// A second part that fails, or is of the wrong length.
    fn wrong_second_part(&mut self, first: &FirstPart) -> Vec<u8> {
        let terminal = self.block();
        let key = *self.bench.card().key(first.key_number);
        let right = messaging::second_part(&key, &terminal, &first.random);
        let mut data = right.concat();
        match self.rng.below(9) {
            // A bit of either block.
            0..=1 => {
                let bit = self.rng.below(256) as usize;
                data[bit / 8] ^= 1 << (bit % 8);
            }
            // Another key, which may have the same bytes.
            2 => {
                let other = *self.bench.card().key((first.key_number + 1) % 5);
                data = messaging::second_part(&other, &terminal, &first.random).concat();
            }
            // The random number not turned, or turned too far.
            3 => {
                let mut turned = first.random;
                turned.rotate_left(self.rng.pick(&[1, 15]));
                data = messaging::second_part(&key, &terminal, &turned).concat();
            }
            // Another random number, as of an older first part.
            4 => {
                let other = self.block();
                data = messaging::second_part(&key, &terminal, &other).concat();
            }
            // The blocks exchanged.
            5 => data.rotate_left(16),
            // A zero block, or the random number as it was sent.
            6 => data = [[0; 16], messaging::first_reply(&key, &first.random)].concat(),
            7 => data.truncate(self.rng.pick(&[0, 1, 16, 24, 31])),
            _ => {
                let more = self.rng.pick(&[1, 8, 16]);
                data.resize(data.len() + more, 0x00);
            }
        }
        frame(ins::SECOND_PART, &data)
    }

    /// A command that names a file of any kind, or one that only other cards
    /// have, with and without the MAC that the rights and the mode of that file
    /// ask for, and at times with a MAC whatever they ask for.
    pub(super) fn other_kind(&mut self) {
        let instruction = self.rng.pick(&[
            ins::READ_DATA,
            ins::GET_VALUE,
            ins::GET_VALUE,
            ins::CREDIT,
            ins::DEBIT,
            ins::LIMITED_CREDIT,
            ins::READ_RECORDS,
            ins::CLEAR_RECORD_FILE,
        ]);
        let length = match instruction {
            ins::READ_DATA | ins::READ_RECORDS => 7,
            ins::GET_VALUE | ins::CLEAR_RECORD_FILE => 1,
            _ => 5,
        };
        let number = match self.rng.below(10) {
            0 => self.rng.pick(&Numbers::DEFAULT.in_order()),
            _ => self.any_number(),
        };
        let mut data = vec![number; length];
        data[1..].fill(0x00);
        let command = match (self.rng.below(20), self.bench.card().session()) {
            (0..=9, _) => frame(instruction, &data),
            (10, Session::Real(session)) => {
                data.extend_from_slice(&session.command_mac(instruction, &data));
                frame(instruction, &data)
            }
            _ => terminal::sealed(self.bench.card(), instruction, &data),
        };
        self.send(&command);
    }

    /// The frame as a terminal sends it in a session of AuthenticateEV2First:
    /// with a MAC if the card takes one. Its MAC, or the lack of one, is wrong
    /// at times, which is told.
    pub(super) fn seal(&mut self, plain: Vec<u8>) -> (Vec<u8>, Option<SealFault>) {
        let session = match self.bench.card().session() {
            Session::Real(session) => *session,
            _ => return (plain, None),
        };
        let (instruction, data) = match parts(&plain) {
            Some(parts) => parts,
            None => return (plain, None),
        };
        let wrong = self.rng.percent(self.mood.seal_faults);
        let fault = if !self.bench.card().takes_mac(instruction, data) {
            if !wrong {
                return (plain, None);
            }
            Some(SealFault::Unasked)
        } else if wrong {
            Some(self.rng.pick(&SealFault::ALL[..SealFault::ALL.len() - 1]))
        } else {
            None
        };
        let sealed = match fault {
            None | Some(SealFault::Unasked) => {
                [data, &session.command_mac(instruction, data)].concat()
            }
            Some(fault) => self.wrongly_sealed(&session, instruction, data, fault),
        };
        (frame(instruction, &sealed), fault)
    }

    /// A data field with a wrong MAC.
    fn wrongly_sealed(
        &mut self,
        session: &RealSession,
        instruction: u8,
        data: &[u8],
        fault: SealFault,
    ) -> Vec<u8> {
        let mut session = *session;
        let mut mac = session.command_mac(instruction, data).to_vec();
        match fault {
            SealFault::Bit => {
                let bit = self.rng.below(64) as usize;
                mac[bit / 8] ^= 1 << (bit % 8);
            }
            SealFault::Missing => mac.clear(),
            SealFault::Short => mac.truncate(1 + self.rng.below(MAC_SIZE as u64 - 1) as usize),
            SealFault::Long => mac.push(self.rng.byte()),
            SealFault::Swapped => mac.rotate_left(MAC_SIZE / 2),
            SealFault::InFront => return [&mac[..], data].concat(),
            SealFault::Counter => {
                let step = self.rng.pick(&[1, u16::MAX, 0x0100]);
                session.counter = session.counter.wrapping_add(step);
                mac = session.command_mac(instruction, data).to_vec();
            }
            SealFault::Transaction => {
                session.transaction[self.rng.below(4) as usize] ^= 0x01;
                mac = session.command_mac(instruction, data).to_vec();
            }
            SealFault::Key => {
                session.mac_key[self.rng.below(16) as usize] ^= 0x01;
                mac = session.command_mac(instruction, data).to_vec();
            }
            SealFault::Instruction => {
                mac = session.command_mac(instruction ^ 0x10, data).to_vec();
            }
            SealFault::Reply => mac = session.reply_mac(data).to_vec(),
            SealFault::Zeros => mac = vec![0; MAC_SIZE],
            SealFault::Unasked => {}
        }
        [data, &mac].concat()
    }
}
