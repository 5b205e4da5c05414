//! Tests of the numbers that clients give their files (request 09).

use super::session_tests::*;
use super::tests::*;
use super::*;

/// Five numbers that no file has by default.
const OWN: Numbers = Numbers {
    first_long: 0x05,
    second_long: 0x1E,
    short: 0x02,
    value: 0x10,
    log: 0x0F,
};

/// The sheet's numbers with those of the value file and the log exchanged.
const SWAPPED: Numbers = Numbers {
    value: Numbers::DEFAULT.log,
    log: Numbers::DEFAULT.value,
    ..Numbers::DEFAULT
};

/// An order whose files have these numbers, and else the program's.
fn numbered(numbers: Numbers) -> Personalisation {
    Personalisation {
        numbers,
        ..PROGRAM_CARD
    }
}

fn card(numbers: Numbers) -> Card {
    Card::personalise(&numbered(numbers)).unwrap()
}

fn with_order(order: [u8; FILES]) -> Result<Card, BenchRefusal> {
    Card::personalise(&numbered(Numbers::from_order(order)))
}

/// The sheet's numbers with another at one place.
fn with_number(place: usize, number: u8) -> [u8; FILES] {
    let mut order = Numbers::DEFAULT.in_order();
    order[place] = number;
    order
}

fn settings(card: &mut Card, number: u8) -> Vec<u8> {
    reply(card, &frame(0xF5, &[number]))
}

#[test]
fn the_numbers_of_the_sheet_are_the_defaults() {
    assert_eq!(Numbers::DEFAULT.in_order(), [0x00, 0x04, 0x1F, 0x03, 0x01]);
    for card in [Card::blank(), Card::program_card()] {
        assert_eq!(*card.numbers(), Numbers::DEFAULT);
    }
    assert_eq!(
        with_order([0x00, 0x04, 0x1F, 0x03, 0x01]),
        Ok(Card::program_card())
    );
}

#[test]
fn roles_and_places_fit() {
    for (place, role) in Role::ALL.into_iter().enumerate() {
        assert_eq!(role.place(), place);
        assert_eq!(OWN.in_order()[place], OWN.of(role));
        assert_eq!(OWN.role(OWN.of(role)), Some(role));
    }
    assert_eq!(Numbers::from_order(OWN.in_order()), OWN);
    assert_eq!(DataRole::ALL.map(DataRole::size), [256, 256, 32]);
    for number in 0..=0xFF {
        let known = OWN.in_order().contains(&number);
        assert_eq!(OWN.role(number).is_some(), known);
    }
}

#[test]
fn a_number_above_1f_is_refused() {
    for place in 0..FILES {
        for number in 0x20..=0xFF {
            assert_eq!(
                with_order(with_number(place, number)),
                Err(BenchRefusal::NumberTooHigh)
            );
        }
    }
    assert_eq!(BenchRefusal::NumberTooHigh.number(), 7);
}

#[test]
fn every_number_up_to_1f_is_taken_for_every_file() {
    for place in 0..FILES {
        for number in 0x00..=0x1F {
            // The others are out of its way.
            let mut order =
                [0x0A, 0x0B, 0x0C, 0x0D, 0x0E].map(
                    |other| {
                        if other == number {
                            0x09
                        } else {
                            other
                        }
                    },
                );
            order[place] = number;
            let card = with_order(order).unwrap();
            assert_eq!(card.numbers().in_order(), order);
        }
    }
}

#[test]
fn equal_numbers_are_refused() {
    let mut pairs = 0;
    for one in 0..FILES {
        for other in 0..one {
            for number in [0x00, 0x07, 0x1F] {
                let mut order = [0x08, 0x09, 0x0A, 0x0B, 0x0C];
                assert!(with_order(order).is_ok());
                order[one] = number;
                order[other] = number;
                assert_eq!(with_order(order), Err(BenchRefusal::NumberTwice));
            }
            pairs += 1;
        }
    }
    assert_eq!(pairs, 10);
    assert_eq!(with_order([0x00; 5]), Err(BenchRefusal::NumberTwice));
    assert_eq!(BenchRefusal::NumberTwice.number(), 8);
}

#[test]
fn refusals_of_numbers_come_last_and_in_order() {
    let both = Numbers::from_order([0x04, 0x04, 0x1F, 0x03, 0x20]);
    let above = Err(BenchRefusal::NumberTooHigh);
    assert_eq!(Card::personalise(&numbered(both)), above);
    // Two equal numbers above 1Fh are above it first.
    assert_eq!(with_order([0x20, 0x20, 0x1F, 0x03, 0x01]), above);
    assert_eq!(with_order([0xFF; 5]), above);
    let twice = Numbers::from_order([0x04, 0x04, 0x1F, 0x03, 0x01]);
    for numbers in [both, twice] {
        let rights = Personalisation {
            rights: [0xEEEE, 0xEEEE, 0xEEEE, 0xEEEE, 0xEEED],
            ..numbered(numbers)
        };
        let limits = Personalisation {
            lower: 1001,
            ..numbered(numbers)
        };
        let value = Personalisation {
            value: 1001,
            ..numbered(numbers)
        };
        for (order, refusal) in [
            (rights, BenchRefusal::RightsNibble),
            (limits, BenchRefusal::LimitsCrossed),
            (value, BenchRefusal::ValueOutside),
        ] {
            assert_eq!(Card::personalise(&order), Err(refusal));
        }
    }
}

#[test]
fn each_file_is_found_by_its_own_number() {
    let mut card = card(OWN);
    let long = [0x00, 0x00, 0xEE, 0xEE, 0x00, 0x01, 0x00, 0x91, 0x00];
    assert_eq!(settings(&mut card, OWN.first_long), long);
    assert_eq!(settings(&mut card, OWN.second_long), long);
    assert_eq!(
        settings(&mut card, OWN.short),
        [0x00, 0x00, 0xEE, 0xEE, 0x20, 0x00, 0x00, 0x91, 0x00]
    );
    assert_eq!(settings(&mut card, OWN.value)[..2], [0x02, 0x00]);
    assert_eq!(settings(&mut card, OWN.log)[..2], [0x04, 0x00]);
    // Each data file has bytes of its own, and its own size.
    for role in DataRole::ALL {
        let number = OWN.of(Role::Data(role));
        let last = role.size() as u32 - 1;
        let byte = 0xA0 + role.place() as u8;
        assert_eq!(
            reply(&mut card, &with_write(0x8D, number, last, &[byte])),
            OK
        );
        let outside = with_write(0x8D, number, last, &[byte; 2]);
        assert_eq!(reply(&mut card, &outside), BOUNDARY);
    }
    for role in DataRole::ALL {
        let number = OWN.of(Role::Data(role));
        let read = with_two(0xAD, number, role.size() as u32 - 1, 0);
        let byte = 0xA0 + role.place() as u8;
        assert_eq!(reply(&mut card, &read), [byte, 0x91, 0x00]);
    }
    let value = OWN.value;
    assert_eq!(reply(&mut card, &frame(0xDC, &[value, 30, 0, 0, 0])), OK);
    let write = with_write(0x8B, OWN.log, 0, &[0x77]);
    assert_eq!(reply(&mut card, &write), OK);
    assert_eq!(reply(&mut card, &commit()), OK);
    assert_eq!(reply(&mut card, &frame(0x1C, &[value, 10, 0, 0, 0])), OK);
    assert_eq!(reply(&mut card, &frame(0x0C, &[value, 5, 0, 0, 0])), OK);
    assert_eq!(reply(&mut card, &commit()), OK);
    assert_eq!(
        reply(&mut card, &get_value(value)),
        [85, 0, 0, 0, 0x91, 0x00]
    );
    let mut entry = vec![0; 18];
    entry[0] = 0x77;
    entry[16..].copy_from_slice(&OK);
    assert_eq!(reply(&mut card, &with_two(0xAB, OWN.log, 0, 0)), entry);
    assert_eq!(reply(&mut card, &frame(0xEB, &[OWN.log])), OK);
}

/// One frame of each command that names a file, with this number.
fn commands_on(number: u8) -> [Vec<u8>; 10] {
    let amount = [number, 1, 0, 0, 0];
    [
        with_two(0xAD, number, 0, 1),
        with_write(0x8D, number, 0, &[1]),
        get_value(number),
        frame(0x0C, &amount),
        frame(0xDC, &amount),
        frame(0x1C, &amount),
        with_two(0xAB, number, 0, 1),
        with_write(0x8B, number, 0, &[1]),
        frame(0xEB, &[number]),
        frame(0xF5, &[number]),
    ]
}

#[test]
fn the_old_numbers_are_no_files_of_a_renumbered_card() {
    for number in Numbers::DEFAULT.in_order() {
        for command in commands_on(number) {
            let mut card = card(OWN);
            card.change_session(Some(2)).unwrap();
            assert_eq!(reply(&mut card, &command), [0x91, 0xF0]);
            assert_eq!(card, self::card(OWN));
        }
        let mut card = card(OWN);
        let opening = with_two(0x8D, number, 0, 1);
        assert_eq!(card.answer_opening(&opening), Err(Refusal::FileNumber));
    }
    // Place 6 comes before, place 8 behind.
    let mut card = card(OWN);
    assert_eq!(reply(&mut card, &frame(0x6C, &[0x03, 0x00])), [0x91, 0x7E]);
    let sealed = Personalisation {
        rights: [0xFFFF; FILES],
        ..numbered(OWN)
    };
    let mut card = Card::personalise(&sealed).unwrap();
    assert_eq!(reply(&mut card, &get_value(0x03)), [0x91, 0xF0]);
    assert_eq!(reply(&mut card, &get_value(OWN.value)), [0x91, 0x9D]);
}

/// Log 03h and value 01h: the kind is the role's.
#[test]
fn exchanged_numbers() {
    let mut card = card(SWAPPED);
    assert_eq!(reply(&mut card, &get_value(0x03)), [0x91, 0x9D]);
    assert_eq!(
        reply(&mut card, &get_value(0x01)),
        [100, 0, 0, 0, 0x91, 0x00]
    );
    assert_eq!(reply(&mut card, &frame(0xDC, &[0x01, 30, 0, 0, 0])), OK);
    assert_eq!(reply(&mut card, &with_write(0x8B, 0x03, 0, &[7])), OK);
    let books = card.books();
    assert!(books.value_pending && books.entry_pending);
    assert_eq!(
        reply(&mut card, &with_write(0x8B, 0x01, 0, &[7])),
        [0x91, 0x9D]
    );
    assert_eq!(settings(&mut card, 0x01)[0], 0x02);
    assert_eq!(settings(&mut card, 0x03)[0], 0x04);
}

/// The numbers of the long and the short data file exchanged: size and rights
/// stay with the role.
#[test]
fn exchanged_sizes_and_rights() {
    let numbers = Numbers {
        first_long: Numbers::DEFAULT.short,
        short: Numbers::DEFAULT.first_long,
        ..Numbers::DEFAULT
    };
    let mut card = Card::personalise(&Personalisation {
        rights: [0x1EFE, 0xEEEE, 0xE2FE, 0xEEEE, 0xEEEE],
        ..numbered(numbers)
    })
    .unwrap();
    assert_eq!(
        settings(&mut card, 0x1F),
        [0x00, 0x00, 0xFE, 0x1E, 0x00, 0x01, 0x00, 0x91, 0x00]
    );
    assert_eq!(
        settings(&mut card, 0x00),
        [0x00, 0x00, 0xFE, 0xE2, 0x20, 0x00, 0x00, 0x91, 0x00]
    );
    assert_eq!(reply(&mut card, &with_write(0x8D, 0x1F, 255, &[9])), OK);
    assert_eq!(
        reply(&mut card, &with_two(0xAD, 0x1F, 255, 1)),
        [0x91, 0xAE]
    );
    assert_eq!(reply(&mut card, &with_two(0xAD, 0x00, 31, 2)), BOUNDARY);
    assert_eq!(
        reply(&mut card, &with_write(0x8D, 0x00, 0, &[9])),
        [0x91, 0xAE]
    );
}

/// Two cards alike but for their numbers reply alike to frames with the numbers
/// exchanged accordingly.
#[test]
fn numbers_are_names_and_nothing_else() {
    let ring = Numbers::from_order([0x04, 0x1F, 0x03, 0x01, 0x00]);
    for numbers in [OWN, SWAPPED, ring] {
        let mut plain = Card::program_card();
        let mut own = card(numbers);
        for role in Role::ALL {
            let by_default = commands_on(Numbers::DEFAULT.of(role));
            for (old, new) in by_default.iter().zip(&commands_on(numbers.of(role))) {
                assert_eq!(reply(&mut plain, old), reply(&mut own, new));
                assert_eq!(plain.books(), own.books());
            }
        }
    }
}

/// A card with a session of key 3, these modes and numbers.
fn in_session_with(modes: [Mode; FILES], numbers: Numbers) -> Card {
    let mut card = Card::personalise(&Personalisation {
        rights: [0x3333; FILES],
        keys: [0, 1, 2, 3, 4].map(key),
        modes,
        ..numbered(numbers)
    })
    .unwrap();
    authenticate(&mut card, 3);
    card
}

#[test]
fn the_mode_is_the_role_s() {
    let mut modes = [Mode::Plain; FILES];
    modes[Role::Value.place()] = Mode::Mac;
    // The log has the value file's old number, and is plain.
    let mut card = in_session_with(modes, SWAPPED);
    accepts(&mut card, &get_value(0x01), &[100, 0, 0, 0]);
    assert_eq!(send(&mut card, &with_write(0x8B, 0x03, 0, &[1])), OK);
    let plain = with_write(0x8B, 0x03, 0, &[1]);
    refuses(&mut card.clone(), &maced(&card, &plain), 0x917E);
    refuses(&mut card.clone(), &get_value(0x01), 0x917E);
    // A GetValue of the log: no MAC comes off, as the log is plain.
    refuses(&mut card.clone(), &get_value(0x03), 0x919D);
    refuses(&mut card.clone(), &maced(&card, &get_value(0x03)), 0x917E);
    // A ClearRecordFile of the value file: one comes off.
    refuses(&mut card.clone(), &frame(0xEB, &[0x01]), 0x917E);
    refuses(
        &mut card.clone(),
        &maced(&card, &frame(0xEB, &[0x01])),
        0x919D,
    );
    // The option byte, too.
    let sealed = maced(&card, &frame(0xF5, &[0x01]));
    let shown = send(&mut card, &sealed);
    assert_eq!(shown[..2], [0x02, 0x01]);
    let sealed = maced(&card, &frame(0xF5, &[0x03]));
    let shown = send(&mut card, &sealed);
    assert_eq!(shown[..2], [0x04, 0x00]);
}

#[test]
fn a_number_of_no_file_is_in_no_mode() {
    let card = in_session_with(MACED, OWN);
    for number in Numbers::DEFAULT.in_order() {
        for command in &commands_on(number)[..9] {
            refuses(&mut card.clone(), command, 0x91F0);
            refuses(&mut card.clone(), &maced(&card, command), 0x917E);
        }
        // GetFileSettings has a MAC whatever it names; place 7 comes before it.
        let settings = frame(0xF5, &[number]);
        refuses(&mut card.clone(), &maced(&card, &settings), 0x91F0);
        refuses(&mut card.clone(), &settings, 0x917E);
    }
    for number in OWN.in_order() {
        let mut card = card.clone();
        let before = real(&card).counter;
        let settings = maced(&card, &frame(0xF5, &[number]));
        send(&mut card, &settings);
        assert_eq!(real(&card).counter, before + 1);
    }
}

/// A MAC is of the data field as sent, number included.
#[test]
fn a_mac_is_of_the_number_sent() {
    let card = in_session_with(MACED, SWAPPED);
    let right = maced(&card, &get_value(0x01));
    let mut other = maced(&card, &get_value(0x03));
    other[5] = 0x01;
    refuses(&mut card.clone(), &other, 0x911E);
    assert_eq!(send(&mut card.clone(), &right)[..4], [100, 0, 0, 0]);
}

#[test]
fn a_chain_is_opened_by_the_own_number() {
    let open =
        |card: &mut Card, number, length| card.answer_opening(&with_two(0x8D, number, 0, length));
    // The second long file and the short one have each other's old numbers.
    let numbers = Numbers {
        second_long: Numbers::DEFAULT.short,
        short: Numbers::DEFAULT.second_long,
        ..Numbers::DEFAULT
    };
    let mut card = card(numbers);
    assert_eq!(open(&mut card, 0x1F, 256), Ok(()));
    assert_eq!(card.chain().unwrap().file, DataRole::SecondLong);
    assert_eq!(card.answer_file_frame(&[0x11; 128]), Ok(None));
    assert_eq!(card.answer_file_frame(&[0x12; 128]), Ok(Some(Status::Done)));
    let second = &card.data[DataRole::SecondLong.place()].bytes;
    assert_eq!(second[..], [[0x11; 128], [0x12; 128]].concat());
    assert_eq!(open(&mut card, 0x04, 33), Err(Refusal::Boundary));
    assert_eq!(open(&mut card, 0x04, 32), Ok(()));
    assert_eq!(card.chain().unwrap().file, DataRole::Short);
    assert_eq!(card.answer_file_frame(&[0x13; 32]), Ok(Some(Status::Done)));
    assert_eq!(card.data[DataRole::Short.place()].bytes, [0x13; 32]);
    assert_eq!(card.data[DataRole::FirstLong.place()].bytes, [0x00; 256]);
    assert_eq!(open(&mut card, 0x02, 1), Err(Refusal::FileNumber));
    assert_eq!(open(&mut card, 0x03, 1), Err(Refusal::KindOrNever));
    // MAC mode is the role's: the short file's, which is called 04h.
    let mut modes = [Mode::Plain; FILES];
    modes[DataRole::Short.place()] = Mode::Mac;
    let card = in_session_with(modes, numbers);
    let maced = open(&mut card.clone(), 0x04, 8);
    assert_eq!(maced, Err(Refusal::ChainInMacMode));
    assert_eq!(open(&mut card.clone(), 0x1F, 8), Ok(()));
}
