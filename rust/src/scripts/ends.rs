//! Scripts that play a session to the end of its command counter.

use super::{Script, Theme, Writer};
use crate::aes::Block;
use crate::frames::{amount_frame, frame, hex_line, ins, read_frame, write_frame};
use crate::model::{Numbers, Session};
use crate::rng::Rng;
use crate::terminal::{self, parts};

/// The number of sorts of ends: what is sent at counter FFFFh.
pub const ENDS: u64 = 21;
/// The ends from here on, counted from 0, are about chains, and chains lead to
/// them too.
const CHAIN_ENDS: u64 = 16;

/// The card of these scripts: the first long data file is free and plain; the
/// second, the value file and the log are in MAC mode and granted by key 1, and
/// reads of them by key 2 too; the short one is in MAC mode, free to read, and
/// written with key 3. Limits 0 and 1,000,000,000, value 500,000,000,
/// LimitedCredit on.
const CARD: &[u8] = b"PEEEE1F2FFFE31F2F1F2F0000000000CA9A3B0065CD1D01\
    00000000000000000000000000000000\
    11111111111111111111111111111111\
    22222222222222222222222222222222\
    33333333333333333333333333333333\
    44444444444444444444444444444444\
    1E";

/// The numbers of its files in every second script: most of them are the sheet's
/// for other files.
const OWN_NUMBERS: Numbers = Numbers {
    first_long: Numbers::DEFAULT.second_long,
    second_long: Numbers::DEFAULT.value,
    short: 0x1E,
    value: Numbers::DEFAULT.log,
    log: Numbers::DEFAULT.first_long,
};

/// A number that no file of either card has.
const UNKNOWN_NUMBER: u8 = 0x02;

impl Writer {
    /// The script of one of the ends, counted from 1: a session of key 1 with
    /// accepted commands alone up to counter FFFFh, and what is sent there. It
    /// is the same whatever scripts were written before.
    pub fn end_script(&mut self, seed: u64, end: u64) -> Script {
        let rng = std::mem::replace(&mut self.rng, Rng::new(seed ^ (end << 32)));
        self.begin(Theme::Sessions);
        let end = end.wrapping_sub(1) % ENDS;
        let chains = if end < CHAIN_ENDS { 0 } else { 10 };
        let mut order = CARD.to_vec();
        if end % 2 == 1 {
            order.extend_from_slice(&hex_line(b"", &OWN_NUMBERS.in_order()));
        }
        self.line(order);
        self.open_session(1);
        self.run_to(0xFFFF - 8, chains);
        // The last commands in MAC mode are looked at one by one.
        while self.counter() < 0xFFFF {
            if chains > 0 && self.counter() == 0xFFFE {
                self.short_chain();
            } else {
                let last = self.cheap_command(0);
                self.sealed_line(&last);
            }
            self.line(b"B".to_vec());
        }
        self.play_end(end);
        self.rng = rng;
        Script {
            lines: std::mem::take(&mut self.lines),
            last_lf: true,
        }
    }

    /// The command counter, 0 outside a session of AuthenticateEV2First.
    fn counter(&self) -> u16 {
        match self.bench.card().session() {
            Session::Real(session) => session.counter,
            _ => 0,
        }
    }

    /// The numbers of the card at hand.
    fn numbers(&self) -> Numbers {
        *self.bench.card().numbers()
    }

    /// Both parts of an authentication.
    fn open_session(&mut self, key_number: u8) {
        self.inputs();
        let terminal: Block = [self.rng.byte(); 16];
        self.send(&terminal::first_part(key_number, &[]));
        let second = terminal::second_part(self.bench.card(), &terminal);
        self.send(&second.expect("the first part was accepted"));
    }

    /// Accepted commands up to a counter, in this percentage of cases a chain.
    fn run_to(&mut self, counter: u16, chains: u64) {
        while self.counter() < counter {
            if chains > 0 && self.rng.percent(chains) {
                self.short_chain();
            } else {
                let command = self.cheap_command(80);
                self.sealed_line(&command);
            }
            if self.counter() % 0x1000 < 2 {
                self.line(b"B".to_vec());
            }
        }
    }

    /// A chain of one to three file frames, which counts once.
    fn short_chain(&mut self) {
        let bytes = self.rng.some_bytes(3);
        let at = self.rng.below(250);
        let longest = 1 + self.rng.below(3) as usize;
        let file = self.numbers().first_long;
        self.send_opening(&read_frame(ins::WRITE_DATA, file, at, 3));
        for part in bytes.chunks(longest) {
            self.send_file_frame(part);
        }
    }

    /// A command that is accepted: in this percentage of cases a plain read,
    /// else one with a MAC.
    fn cheap_command(&mut self, plain: u64) -> Vec<u8> {
        let of = self.numbers();
        if self.rng.percent(plain) {
            return read_frame(ins::READ_DATA, of.first_long, self.rng.below(250), 1);
        }
        let pending = self.bench.card().books().value_pending;
        match self.rng.below(7) {
            0 => frame(ins::GET_FILE_SETTINGS, &[of.value]),
            1 => amount_frame(ins::DEBIT, of.value, 1 + self.rng.below(100) as u32),
            2 => amount_frame(ins::CREDIT, of.value, 1 + self.rng.below(100) as u32),
            3 => read_frame(ins::READ_DATA, of.second_long, 0, 1 + self.rng.below(40)),
            4 => write_frame(ins::WRITE_RECORD, of.log, self.rng.below(16), 1, &[0xAB]),
            5 if pending => frame(ins::COMMIT, &[]),
            6 if pending => frame(ins::ABORT, &[]),
            _ => frame(ins::GET_VALUE, &[of.value]),
        }
    }

    /// What is sent at counter FFFFh, and what follows it.
    fn play_end(&mut self, end: u64) {
        let of = self.numbers();
        let debit = amount_frame(ins::DEBIT, of.value, 1);
        match end {
            // 911E: plain, and with a MAC of each command.
            0 => self.send(&read_frame(ins::READ_DATA, of.first_long, 0, 1)),
            1 => self.sealed_line(&debit),
            2 => self.sealed_line(&frame(ins::GET_FILE_SETTINGS, &[of.first_long])),
            3 => self.sealed_line(&frame(ins::COMMIT, &[])),
            4 => self.sealed_line(&frame(ins::ABORT, &[])),
            5 => self.sealed_line(&read_frame(ins::READ_DATA, of.second_long, 0, 248)),
            6 => self.sealed_line(&frame(ins::CLEAR_RECORD_FILE, &[of.log])),
            // 911E with a wrong MAC.
            7 => {
                let data = [of.value, 1, 0, 0, 0, 1, 2, 3, 4, 5, 6, 7, 8];
                self.send(&frame(ins::DEBIT, &data));
            }
            // 911E before places 11 and 12.
            8 => self.sealed_line(&amount_frame(ins::CREDIT, of.value, 0)),
            9 => self.send(&read_frame(ins::READ_DATA, of.first_long, 256, 1)),
            // 917E, 91F0, 919D and 91AE before it.
            10 => self.send(&debit),
            11 => self.send(&frame(ins::CLEAR_RECORD_FILE, &[UNKNOWN_NUMBER])),
            12 => self.send(&frame(ins::GET_VALUE, &[of.first_long])),
            13 => self.sealed_line(&write_frame(ins::WRITE_DATA, of.short, 0, 1, &[0x5A])),
            // No first part waits.
            14 => self.send(&frame(ins::SECOND_PART, &[0; 32])),
            // Openings: 911E, also before places 11 and 12.
            16 => self.send_opening(&read_frame(ins::WRITE_DATA, of.first_long, 0, 240)),
            17 => self.send_opening(&read_frame(ins::WRITE_DATA, of.first_long, 256, 0)),
            // 919D of MAC mode and 91AE before it.
            18 => self.send_opening(&read_frame(ins::WRITE_DATA, of.second_long, 0, 240)),
            19 => self.send_opening(&read_frame(ins::WRITE_DATA, of.short, 0, 16)),
            // No chain is open.
            20 => self.send_file_frame(&[0x5A]),
            // An authentication is not counted and begins anew.
            _ => {}
        }
        self.line(b"B".to_vec());
        self.open_session(2);
        self.sealed_line(&frame(ins::GET_VALUE, &[of.value]));
        self.line(b"B".to_vec());
    }

    /// Sends a sound frame with the MAC that the card takes, if it does.
    fn sealed_line(&mut self, plain: &[u8]) {
        let (instruction, data) = parts(plain).expect("a sound frame");
        let sealed = terminal::sealed(self.bench.card(), instruction, data);
        self.send(&sealed);
    }
}
