//! Commands, sound in form and damaged.

use super::Writer;
use crate::frames::{amount_frame, frame, ins, read_frame, write_frame, LARGEST_3, LONGEST_WRITE};
use crate::messaging::MAC_SIZE;
use crate::model::{DataRole, Role, ENTRY_SIZE};

impl Writer {
    /// A frame that is sound in form, with figures at and around the edges.
    pub(super) fn sound_frame(&mut self) -> Vec<u8> {
        if self.rng.percent(8) {
            return frame(ins::GET_FILE_SETTINGS, &[self.file(&Role::ALL)]);
        }
        let total: u64 = self.mood.weights.iter().sum();
        let mut roll = self.rng.below(total);
        let group = self
            .mood
            .weights
            .iter()
            .position(|&weight| {
                let here = roll < weight;
                roll = roll.saturating_sub(weight);
                here
            })
            .unwrap_or(0);
        match group {
            0 => self.data_frame(),
            1 => self.value_frame(),
            2 => self.log_frame(),
            3 if self.rng.percent(70) => frame(ins::COMMIT, &[]),
            3 => {
                let option = self.rng.pick(&[0x00, 0x00, 0x00, 0x01, 0x80, 0xFF]);
                frame(ins::COMMIT, &[option])
            }
            _ => frame(ins::ABORT, &[]),
        }
    }

    /// A start and a count of 24 bits each, at and around the edges of `size`
    /// things.
    pub(super) fn range(&mut self, size: u64) -> (u64, u64) {
        let inside = if size == 0 { 0 } else { self.rng.below(size) };
        let start = match self.rng.below(20) {
            0..=7 => inside,
            8..=11 => 0,
            12 => 1,
            13..=14 => size.saturating_sub(1),
            15 => size,
            16 => size + 1,
            17 => LARGEST_3,
            18 => self.rng.pick(&[0x100, 0x1_0000, 0x80_0000, 0xFF_FF00]) + inside,
            _ => self.rng.below(LARGEST_3 + 1),
        };
        let rest = size.saturating_sub(start);
        let count = match self.rng.below(20) {
            0..=5 => self.rng.below(rest + 1),
            6..=7 => 0,
            8..=9 => 1,
            10..=12 => rest,
            13 => rest.saturating_sub(1),
            14 => rest + 1,
            15 => size,
            16 => size + 1,
            17 => LARGEST_3,
            18 => LARGEST_3 + 1 - start.min(LARGEST_3),
            _ => self.rng.pick(&[0x100, 0x1_0000, 0x80_0000]) + rest,
        };
        (start & LARGEST_3, count & LARGEST_3)
    }

    /// A write of an instruction: the bytes fit the length field mostly.
    fn write(&mut self, instruction: u8, file: u8, size: u64) -> Vec<u8> {
        let (offset, length) = self.range(size);
        let longest = self.longest_write(instruction, file);
        let bytes = self.rng.some_bytes(length.min(longest) as usize);
        let sent = bytes.len() as u64;
        let length = match self.rng.below(30) {
            0 => sent + 1,
            1 => sent.saturating_sub(1),
            2 => sent + self.rng.pick(&[0x100, 0x1_0000]),
            3 => length,
            _ => sent,
        };
        write_frame(instruction, file, offset, length, &bytes)
    }

    /// The most bytes that a write has room for, mostly with its MAC.
    fn longest_write(&mut self, instruction: u8, file: u8) -> u64 {
        if self.bench.card().takes_mac(instruction, &[file]) && self.rng.percent(95) {
            LONGEST_WRITE - MAC_SIZE as u64
        } else {
            LONGEST_WRITE
        }
    }

    fn data_frame(&mut self) -> Vec<u8> {
        let file = self.file(&DataRole::ALL.map(Role::Data));
        let size = self.data_size(file);
        let long = size == DataRole::FirstLong.size() as u64;
        if self.rng.percent(50) {
            let (offset, length) = if long && self.rng.percent(15) {
                self.around_the_longest_mac_read()
            } else {
                self.range(size)
            };
            read_frame(ins::READ_DATA, file, offset, length)
        } else {
            self.write(ins::WRITE_DATA, file, size)
        }
    }

    /// Offset and length of a read of about 248 bytes of a file of 256.
    fn around_the_longest_mac_read(&mut self) -> (u64, u64) {
        let length = self.rng.pick(&[246, 247, 248, 248, 249, 250, 255, 256]);
        let rest = 256 - length;
        match self.rng.below(8) {
            0..=1 => (rest, 0),
            2 => (rest + 1, length),
            3..=4 => (rest, length),
            _ => (self.rng.below(rest + 1), length),
        }
    }

    fn log_frame(&mut self) -> Vec<u8> {
        let file = self.file(&[Role::Log]);
        match self.rng.below(24) {
            0..=8 => {
                let entries = self.bench.card().books().entries;
                let (entry, count) = self.range(entries as u64);
                read_frame(ins::READ_RECORDS, file, entry, count)
            }
            9..=22 => self.write(ins::WRITE_RECORD, file, ENTRY_SIZE as u64),
            _ => frame(ins::CLEAR_RECORD_FILE, &[file]),
        }
    }

    fn value_frame(&mut self) -> Vec<u8> {
        let file = self.file(&[Role::Value]);
        let books = self.bench.card().books();
        let mut instruction = self.rng.pick(&[
            ins::GET_VALUE,
            ins::CREDIT,
            ins::CREDIT,
            ins::DEBIT,
            ins::DEBIT,
            ins::DEBIT,
            ins::LIMITED_CREDIT,
            ins::LIMITED_CREDIT,
        ]);
        if instruction == ins::GET_VALUE {
            return frame(instruction, &[file]);
        }
        // With nothing to take back, mostly a sale.
        if instruction == ins::LIMITED_CREDIT && books.allowance == 0 && self.rng.percent(75) {
            instruction = ins::DEBIT;
        }
        let (lower, upper) = self.bench.card().limits();
        let headroom = match instruction {
            ins::DEBIT => i64::from(books.pending_value) - i64::from(lower),
            _ => i64::from(upper) - i64::from(books.pending_value),
        };
        // What the last sale allows, though it may be used up.
        let allowance = i64::from(books.allowance);
        let most = match instruction {
            ins::LIMITED_CREDIT if self.rng.percent(80) => allowance,
            _ => headroom,
        };
        let amount = match self.rng.below(24) {
            // Within the allowance, but past the limit.
            0..=11 if instruction == ins::LIMITED_CREDIT && headroom < allowance => {
                headroom + 1 + self.rng.below((allowance - headroom) as u64) as i64
            }
            0..=1 => 0,
            2..=3 => 1,
            4 => self.rng.below(20) as i64,
            5..=8 => self.rng.below(most as u64 / 10 + 1) as i64,
            9..=11 => self.rng.below(most as u64 + 1) as i64,
            12..=14 => most,
            15 => most + 1,
            16 => (most - 1).max(0),
            17 => headroom,
            18 => headroom + 1,
            19 => self.rng.pick(&[0x7FFF_FFFF, 0x7FFF_FFFE, 0x4000_0000]),
            20 => 0x8000_0000,
            21 => self.rng.pick(&[0xFFFF_FFFF, 0x8000_0001, 0xFFFF_FF00]),
            22 => i64::from(self.rng.bits() as u32),
            _ => i64::from(self.rng.bits() as u32) >> self.rng.below(32),
        };
        amount_frame(instruction, file, amount as u32)
    }

    /// Damages a frame in one or more ways, so that reasons meet and their
    /// order shows.
    pub(super) fn damage(&mut self, frame: &mut Vec<u8>) {
        loop {
            self.damage_once(frame);
            if frame.len() < 5 || self.rng.percent(55) {
                break;
            }
        }
        if frame.is_empty() {
            frame.push(self.rng.pick(&[0x90, 0x00]));
        }
    }

    /// One way of damage to a frame of at least five bytes.
    fn damage_once(&mut self, frame: &mut Vec<u8>) {
        let last = frame.len() - 1;
        match self.rng.below(17) {
            0 => frame[0] = self.rng.pick(&[0x00, 0x80, 0x91, 0xFF, 0x10]),
            1..=2 => frame[1] = self.rng.byte(),
            3 => frame[1] = self.rng.pick(&ins::ALL),
            4 => frame[2] = self.rng.pick(&[0x01, 0x80, 0xFF]),
            5 => frame[3] = self.rng.pick(&[0x01, 0x80, 0xFF]),
            6 => {
                let lc = frame[4];
                frame[4] = self
                    .rng
                    .pick(&[0, lc.wrapping_add(1), lc.wrapping_sub(1), 0xFF]);
            }
            7 => frame[last] = self.rng.pick(&[0x01, 0x80, 0xFF, 0x04]),
            8 => {
                let length = self.rng.below(frame.len() as u64);
                frame.truncate(length as usize);
            }
            9 => {
                let more = 1 + self.rng.below(3);
                frame.extend((0..more).map(|_| 0x00));
            }
            // A sound frame with a data field one byte short or long, or empty.
            10..=11 if frame.len() > 6 => {
                let mut data = frame[5..last].to_vec();
                match self.rng.below(3) {
                    0 => drop(data.pop()),
                    1 if data.len() < 255 => data.push(self.rng.byte()),
                    _ => data.clear(),
                }
                let mut changed = self::frame(frame[1], &data);
                changed[..4].copy_from_slice(&frame[..4]);
                *frame = changed;
            }
            // A sound frame with a data field of any length.
            10..=12 => {
                let length = self.rng.pick(&[1, 2, 5, 6, 7, 8, 23, 254, 255]);
                let data = self.rng.some_bytes(length);
                *frame = self::frame(frame[1], &data);
            }
            // A file number of another or no file.
            13 if frame.len() > 6 => frame[5] = self.wrong_number(),
            // Any length up to 300 bytes, Lc fitting or not.
            13..=14 => {
                let length = 1 + self.rng.below(300) as usize;
                frame.resize(length, 0x00);
                if length > 6 && self.rng.percent(50) {
                    frame[4] = (length - 6) as u8;
                    frame[length - 1] = 0x00;
                }
            }
            // Lengths at the edges.
            15 => {
                let length = self.rng.pick(&[4, 5, 6, 7, 260, 261, 262, 263, 300, 512]);
                frame.resize(length, 0x00);
                if length > 6 {
                    frame[4] = (length - 6) as u8;
                }
            }
            _ => {
                let at = self.rng.below(frame.len() as u64) as usize;
                frame[at] ^= 1 << self.rng.below(8);
            }
        }
    }
}
