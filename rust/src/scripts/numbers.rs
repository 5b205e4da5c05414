//! Numbers of files: those of an order, and those that commands name.

use super::Writer;
use crate::model::{DataRole, Numbers, Role, FILES, HIGHEST_NUMBER};

/// Numbers beside the sheet's, at the edge of what a number can be, and past it.
const OTHERS: [u8; 9] = [0x02, 0x05, 0x07, 0x0F, 0x1E, 0x20, 0x80, 0x9F, 0xFF];
/// Numbers that no file can have.
const TOO_HIGH: [u8; 8] = [0x20, 0x20, 0x21, 0x3F, 0x40, 0x80, 0x9F, 0xFF];

impl Writer {
    /// The number that a file has on the card at hand.
    pub(super) fn number(&self, role: Role) -> u8 {
        self.bench.card().numbers().of(role)
    }

    /// The number of one of the data files.
    pub(super) fn data_number(&self, role: DataRole) -> u8 {
        self.number(Role::Data(role))
    }

    /// The file of the card at hand that has a number.
    pub(super) fn role(&self, number: u8) -> Option<Role> {
        self.bench.card().numbers().role(number)
    }

    /// The size of a data file of that number; that of a long one if there is
    /// none.
    pub(super) fn data_size(&self, number: u8) -> u64 {
        let role = match self.role(number) {
            Some(Role::Data(role)) => role,
            _ => DataRole::FirstLong,
        };
        role.size() as u64
    }

    /// The number of one of these files, or rarely any other.
    pub(super) fn file(&mut self, fitting: &[Role]) -> u8 {
        let role = self.rng.pick(fitting);
        match self.rng.below(200) {
            0..=187 => self.number(role),
            // What the file is called where it has no number of its own.
            188..=191 => Numbers::DEFAULT.of(role),
            192..=196 => self.wrong_number(),
            _ => self.rng.byte(),
        }
    }

    /// The number of any file of the card at hand.
    pub(super) fn any_number(&mut self) -> u8 {
        let role = self.rng.pick(&Role::ALL);
        self.number(role)
    }

    /// A number that is wrong for most commands: that of another file, one that
    /// only other cards have, or one that is none.
    pub(super) fn wrong_number(&mut self) -> u8 {
        match self.rng.below(10) {
            0..=1 => self.any_number(),
            2..=4 => self.rng.pick(&Numbers::DEFAULT.in_order()),
            _ => self.rng.pick(&OTHERS),
        }
    }

    /// The numbers of an order, refused at times.
    pub(super) fn put_number_group(&mut self, bytes: &mut Vec<u8>) {
        let mut numbers = match self.rng.below(100) {
            0..=37 => self.shuffled(Numbers::DEFAULT.in_order()),
            38..=45 => {
                let mut numbers = Numbers::DEFAULT.in_order();
                let (one, other) = self.two_places();
                numbers.swap(one, other);
                numbers
            }
            46..=84 => self.distinct_numbers(),
            // Neighbours, up to either edge.
            85..=91 => {
                let first = self.rng.pick(&[0, 1, HIGHEST_NUMBER - 4]);
                self.shuffled([0, 1, 2, 3, 4].map(|step| first + step))
            }
            _ => Numbers::DEFAULT.in_order(),
        };
        match self.rng.below(100) {
            0..=4 => self.put_twice(&mut numbers),
            5..=9 => self.put_too_high(&mut numbers),
            10..=11 => {
                self.put_twice(&mut numbers);
                self.put_too_high(&mut numbers);
            }
            12 => {
                self.put_too_high(&mut numbers);
                self.put_twice(&mut numbers);
            }
            _ => {}
        }
        bytes.extend_from_slice(&numbers);
    }

    /// Two places of different files.
    fn two_places(&mut self) -> (usize, usize) {
        let one = self.rng.below(FILES as u64) as usize;
        let step = 1 + self.rng.below(FILES as u64 - 1) as usize;
        (one, (one + step) % FILES)
    }

    fn shuffled(&mut self, mut numbers: [u8; FILES]) -> [u8; FILES] {
        for place in (1..FILES).rev() {
            numbers.swap(place, self.rng.below(place as u64 + 1) as usize);
        }
        numbers
    }

    /// Any five numbers that files can have.
    fn distinct_numbers(&mut self) -> [u8; FILES] {
        let mut all: Vec<u8> = (0..=HIGHEST_NUMBER).collect();
        [(); FILES].map(|()| {
            let place = self.rng.below(all.len() as u64) as usize;
            all.swap_remove(place)
        })
    }

    /// Gives two files the same number, and at times two more.
    fn put_twice(&mut self, numbers: &mut [u8; FILES]) {
        for _ in 0..self.rng.pick(&[1, 1, 1, 2]) {
            let (one, other) = self.two_places();
            numbers[one] = numbers[other];
        }
    }

    /// Gives one or two files a number above the highest.
    fn put_too_high(&mut self, numbers: &mut [u8; FILES]) {
        for _ in 0..self.rng.pick(&[1, 1, 1, 2]) {
            let place = self.rng.below(FILES as u64) as usize;
            numbers[place] = match self.rng.below(3) {
                // One that looks like its own but for a bit.
                0 => numbers[place] | self.rng.pick(&[0x20, 0x40, 0x80]),
                1 => self.rng.pick(&TOO_HIGH),
                _ => self.rng.byte() | 0x20,
            };
        }
    }
}
