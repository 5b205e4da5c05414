//! Lines that are no commands.

use super::{Theme, Writer};
use crate::bench::{BASE_GROUP, KEY_GROUP, LONGEST_LINE, NUMBER_GROUP};
use crate::frames::hex_line;
use crate::model::{KEYS, LAST_KEY, REPLY_ROOM};

impl Writer {
    /// A session change.
    pub(super) fn session(&mut self) {
        match self.rng.below(10) {
            0 => self.line(b"S".to_vec()),
            1 => {
                let key = self.rng.pick(&[5, 6, 0x0E, 0x0F, 0x10, 0x80, 0xFF]);
                self.digits_line(b"S", &[key]);
            }
            2 => {
                let key = self.rng.byte();
                self.digits_line(b"S", &[key]);
            }
            _ => {
                let key = self.rng.below(u64::from(LAST_KEY) + 1) as u8;
                self.digits_line(b"S", &[key]);
            }
        }
    }

    /// An `R` line: too short, just enough, and more.
    pub(super) fn room(&mut self) {
        let room: u16 = if self.rng.percent(50) {
            REPLY_ROOM as u16
        } else {
            self.rng
                .pick(&[0, 1, 2, 0x80, 0x100, 0x101, 0x103, 0x1FF, 0x200])
        };
        self.digits_line(b"R", &room.to_be_bytes());
    }

    /// A personalisation, refused at times.
    pub(super) fn personalise(&mut self) {
        let mut bytes = Vec::with_capacity(BASE_GROUP);
        let open = self.rng.percent(match self.theme {
            Theme::Base => 40,
            Theme::Sessions | Theme::Chains => 10,
        });
        let bad = self.rng.percent(8);
        let one_key = self.rng.below(5) as u8;
        let kind = match self.theme {
            Theme::Base => self.rng.below(5),
            Theme::Sessions => self.rng.pick(&[0, 0, 0, 1, 2, 3, 4]),
            Theme::Chains => self.rng.pick(&[0, 0, 2, 2, 3, 4, 1]),
        };
        for _ in 0..10 {
            let mut nibble = || -> u8 {
                let roll = self.rng.below(100);
                match kind {
                    _ if open => 0xE,
                    // One key only.
                    0 if roll < 85 => one_key,
                    // Hardly any.
                    1 if roll < 60 => 0xF,
                    // Free with some keys.
                    2 if roll < 70 => 0xE,
                    // Keys.
                    3 if roll < 75 => self.rng.below(5) as u8,
                    _ => self.rng.pick(&[0, 1, 2, 3, 4, 0xE, 0xE, 0xF]),
                }
            };
            bytes.push((nibble() << 4) | nibble());
        }
        if bad {
            for _ in 0..1 + self.rng.below(2) {
                let at = self.rng.below(10) as usize;
                let wrong = 5 + self.rng.below(9) as u8;
                bytes[at] = if self.rng.percent(50) {
                    (bytes[at] & 0x0F) | (wrong << 4)
                } else {
                    (bytes[at] & 0xF0) | wrong
                };
            }
        }
        for figure in self.limits_and_value() {
            bytes.extend_from_slice(&figure.to_le_bytes());
        }
        let switches = if self.rng.percent(70) { 0x01 } else { 0x00 };
        let others = self.rng.pick(&[0x00, 0x00, 0xFC, 0x80, 0x04]);
        let free = if self.rng.percent(40) { 0x02 } else { 0x00 };
        bytes.push(switches | free | others);
        let (keys, numbers) = match self.theme {
            Theme::Base => (40, 100),
            Theme::Sessions | Theme::Chains => (85, 55),
        };
        if self.rng.percent(keys) {
            self.put_key_group(&mut bytes);
            if self.rng.percent(numbers) {
                self.put_number_group(&mut bytes);
            }
        }
        self.digits_line(b"P", &bytes);
    }

    /// Five keys, alike at times, and modes.
    fn put_key_group(&mut self, bytes: &mut Vec<u8>) {
        let kind = self.rng.below(10);
        for number in 0..KEYS as u8 {
            match kind {
                0 => bytes.extend_from_slice(&[0; 16]),
                1 => bytes.extend_from_slice(&[number; 16]),
                _ => bytes.extend_from_slice(&self.rng.some_bytes(16)),
            }
        }
        let some = self.rng.byte();
        bytes.push(match self.theme {
            // Data files plain more often: chains have no MAC mode.
            Theme::Chains => self.rng.pick(&[0x1F, 0xFF, 0x18, 0xF8, some, some, 0x00]),
            _ => self.rng.pick(&[0x1F, 0x1F, 0xFF, some, some, some, 0x00]),
        });
    }

    /// Lower limit, upper limit and starting value, out of order at times.
    fn limits_and_value(&mut self) -> [i32; 3] {
        let mut figure = || -> i32 {
            let random = self.rng.bits() as i32;
            self.rng.pick(&[
                i32::MIN,
                i32::MIN + 1,
                -1000,
                -1,
                0,
                1,
                100,
                1000,
                i32::MAX - 1,
                i32::MAX,
                random,
                random >> 16,
            ])
        };
        let (a, b, c) = (figure(), figure(), figure());
        let (lower, upper) = (a.min(b), a.max(b));
        match self.rng.below(20) {
            0..=2 => [0, 1000, 100],
            3..=6 => [i32::MIN, i32::MAX, c],
            7..=13 => [lower, upper, c.clamp(lower, upper)],
            14 => [lower, upper, lower],
            15 => [lower, upper, upper],
            16 => [lower, upper, lower.wrapping_sub(1)],
            17 => [lower, upper, upper.wrapping_add(1)],
            18 => [upper, lower, c],
            _ => [a, b, c],
        }
    }

    /// A line that prints `?`, or nearly one.
    pub(super) fn other(&mut self) {
        let frame = self.sound_frame();
        let mut line = hex_line(b"", &frame);
        match self.rng.below(28) {
            0 => drop(line.pop()),
            1 => line.push(b'\r'),
            2 => line.push(b' '),
            3 => line.insert(0, b' '),
            4 => {
                let at = self.rng.below(line.len() as u64) as usize;
                line[at] = self.rng.pick(b"GgzZ:/@`\x00\r\t -\x7F\x80\xFF");
            }
            5 => {
                let at = self.rng.below(line.len() as u64) as usize;
                line.insert(at, self.rng.pick(b"0Gx\x00"));
            }
            6 => {
                line = self
                    .rng
                    .pick(&[b"\x00", b"\r", b" ", b"?", b"!", b"b", b"0"])
                    .to_vec()
            }
            7 => line = b"B ".to_vec(),
            8 => line = b"BB".to_vec(),
            9 => {
                line = self
                    .rng
                    .pick(&[&b"s"[..], b"s01", b"S1", b"S001", b"S ", b"S0G", b"SS"])
                    .to_vec()
            }
            10 => {
                line = self
                    .rng
                    .pick(&[&b"r0102"[..], b"R", b"R01", b"R102", b"R00102", b"R01G2"])
                    .to_vec()
            }
            11 => {
                line = self
                    .rng
                    .pick(&[&b"R0201"[..], b"R0300", b"RFFFF", b"R1000", b"R0202"])
                    .to_vec()
            }
            12..=13 => {
                // A personalisation of the wrong length or with a wrong letter.
                let whole = self.rng.pick(&[
                    0,
                    BASE_GROUP,
                    BASE_GROUP + KEY_GROUP,
                    BASE_GROUP + KEY_GROUP + NUMBER_GROUP,
                ]);
                let length = whole + self.rng.pick(&[0, 0, 1, 2, 3]);
                let bytes = self.rng.some_bytes(length);
                line = hex_line(b"P", &bytes);
                match self.rng.below(4) {
                    0 => drop(line.pop()),
                    1 => line[0] = b'p',
                    2 => line.push(b'0'),
                    _ if length == whole && whole > 0 => line.truncate(line.len() - 2),
                    _ => {}
                }
            }
            // Random number and transaction identifier, cut, too long or with a
            // wrong letter.
            20 => {
                let length = self.rng.pick(&[0, 19, 20, 21, 40]);
                let bytes = self.rng.some_bytes(length);
                line = hex_line(b"N", &bytes);
                match self.rng.below(3) {
                    0 => drop(line.pop()),
                    1 => line[0] = b'n',
                    _ => line.push(b'0'),
                }
            }
            // A frame of a chain with another character, a wrong letter or none.
            24 => {
                line = self
                    .rng
                    .pick(&[
                        &b"C"[..],
                        b"C ",
                        b"CG0",
                        b"D0G",
                        b"D ",
                        b"c",
                        b"d",
                        b"C9",
                        b"D0",
                    ])
                    .to_vec()
            }
            25..=26 => {
                line = hex_line(self.rng.pick(&[b"C", b"D"]), &frame);
                let at = 1 + self.rng.below(line.len() as u64 - 1) as usize;
                match self.rng.below(4) {
                    0 => line.make_ascii_lowercase(),
                    1 => line[at] = self.rng.pick(b"GgzZ:/@`\x00\r\t -\x7F\x80\xFF"),
                    2 => line.insert(at, self.rng.pick(b"Gx\x00")),
                    _ => line.resize(LONGEST_LINE + 1, b'0'),
                }
            }
            27 => {
                line = self
                    .rng
                    .pick(&[
                        &b"LL"[..],
                        b"L0",
                        b"L00",
                        b"L16",
                        b"L ",
                        b" L",
                        b"l",
                        b"L\r",
                    ])
                    .to_vec()
            }
            14 => line = hex_line(b"!", &frame),
            15 => line = b"90 6C 00 00 01 03 00".to_vec(),
            16 => line = b"0x906C0000010300".to_vec(),
            17 if self.rng.percent(20) => {
                // Around the longest line.
                let length = LONGEST_LINE as u64 - 2 + self.rng.below(6);
                line.resize(length as usize, b'0');
            }
            18 if self.rng.percent(10) => {
                let length = LONGEST_LINE as u64 + self.rng.below(5000);
                line.resize(length as usize, b'0');
            }
            19 if self.rng.percent(10) => {
                line = vec![self.rng.pick(b"PSRBNCDL ?"); LONGEST_LINE + 1];
            }
            _ => {
                let length = 1 + self.rng.below(12);
                line = (0..length)
                    .map(|_| self.rng.byte())
                    .filter(|&character| character != b'\n')
                    .collect();
                line.push(b'~');
            }
        }
        self.line(line);
    }
}
