//! The five files by their roles, and the numbers that a client gives them
//! (request 09). Kind, size, rights, mode and bytes are the role's; a number is
//! only the name by which a command asks for it.

use super::BenchRefusal;

/// How many files there are.
pub const FILES: usize = 5;
/// How many of them are standard data files.
pub const DATA_FILES: usize = 3;
/// The highest file number.
pub const HIGHEST_NUMBER: u8 = 0x1F;

/// A standard data file.
#[derive(Clone, Copy, Debug, PartialEq, Eq)]
pub enum DataRole {
    /// The first of the two long ones.
    FirstLong,
    /// The second of them.
    SecondLong,
    /// The short one.
    Short,
}

impl DataRole {
    /// All of them, in the order of a personalisation.
    pub const ALL: [Self; DATA_FILES] = [Self::FirstLong, Self::SecondLong, Self::Short];

    /// The place in that order.
    pub fn place(self) -> usize {
        self as usize
    }

    /// Bytes in the file ("The files").
    pub const fn size(self) -> usize {
        match self {
            Self::FirstLong | Self::SecondLong => 256,
            Self::Short => 32,
        }
    }
}

/// What a file is for.
#[derive(Clone, Copy, Debug, PartialEq, Eq)]
pub enum Role {
    /// A standard data file.
    Data(DataRole),
    /// The value file.
    Value,
    /// The cyclic log.
    Log,
}

impl Role {
    /// All of them, in the order of a personalisation.
    pub const ALL: [Self; FILES] = [
        Self::Data(DataRole::FirstLong),
        Self::Data(DataRole::SecondLong),
        Self::Data(DataRole::Short),
        Self::Value,
        Self::Log,
    ];

    /// The place in that order.
    pub fn place(self) -> usize {
        match self {
            Self::Data(role) => role.place(),
            Self::Value => DATA_FILES,
            Self::Log => DATA_FILES + 1,
        }
    }
}

/// The number of each file.
#[derive(Clone, Copy, Debug, PartialEq, Eq)]
pub struct Numbers {
    /// That of the first long data file.
    pub first_long: u8,
    /// That of the second long data file.
    pub second_long: u8,
    /// That of the short data file.
    pub short: u8,
    /// That of the value file.
    pub value: u8,
    /// That of the log.
    pub log: u8,
}

impl Numbers {
    /// The sheet's numbers, which a card has that is not given others.
    pub const DEFAULT: Self = Self {
        first_long: 0x00,
        second_long: 0x04,
        short: 0x1F,
        value: 0x03,
        log: 0x01,
    };

    /// The numbers in the order of a personalisation.
    pub fn from_order(order: [u8; FILES]) -> Self {
        let [first_long, second_long, short, value, log] = order;
        Self {
            first_long,
            second_long,
            short,
            value,
            log,
        }
    }

    /// The numbers in that order.
    pub fn in_order(&self) -> [u8; FILES] {
        Role::ALL.map(|role| self.of(role))
    }

    /// The number of a file.
    pub fn of(&self, role: Role) -> u8 {
        match role {
            Role::Data(DataRole::FirstLong) => self.first_long,
            Role::Data(DataRole::SecondLong) => self.second_long,
            Role::Data(DataRole::Short) => self.short,
            Role::Value => self.value,
            Role::Log => self.log,
        }
    }

    /// The file that has a number, if any.
    pub fn role(&self, number: u8) -> Option<Role> {
        Role::ALL.into_iter().find(|&role| self.of(role) == number)
    }

    /// The bench refusals 7 and 8, in that order.
    pub(super) fn check(&self) -> Result<(), BenchRefusal> {
        let numbers = self.in_order();
        if numbers.iter().any(|&number| number > HIGHEST_NUMBER) {
            return Err(BenchRefusal::NumberTooHigh);
        }
        let again = |at: usize| numbers[..at].contains(&numbers[at]);
        if (1..FILES).any(again) {
            return Err(BenchRefusal::NumberTwice);
        }
        Ok(())
    }
}
