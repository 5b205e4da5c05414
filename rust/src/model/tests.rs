//! Tests of the card: the paper's examples, and what each request changed.

use super::*;

/// The reply of the card to a frame in hexadecimal digits.
pub(super) fn reply(card: &mut Card, frame: &[u8]) -> Vec<u8> {
    let mut room = [0xA5; REPLY_ROOM + 10];
    let inputs = Inputs::default();
    let length = card
        .command(frame, &inputs, &mut room)
        .expect("room enough")
        .length;
    assert!(room[length..].iter().all(|&byte| byte == 0xA5));
    room[..length].to_vec()
}

/// A frame of an INS byte and a data field.
pub(super) fn frame(instruction: u8, data: &[u8]) -> Vec<u8> {
    let mut frame = vec![0x90, instruction, 0x00, 0x00];
    if !data.is_empty() {
        frame.push(data.len() as u8);
        frame.extend_from_slice(data);
    }
    frame.push(0x00);
    frame
}

pub(super) fn with_amount(instruction: u8, amount: u32) -> Vec<u8> {
    let mut data = vec![0x03];
    data.extend_from_slice(&amount.to_le_bytes());
    frame(instruction, &data)
}

pub(super) fn with_two(instruction: u8, file: u8, first: u32, second: u32) -> Vec<u8> {
    let mut data = vec![file];
    data.extend_from_slice(&first.to_le_bytes()[..3]);
    data.extend_from_slice(&second.to_le_bytes()[..3]);
    frame(instruction, &data)
}

pub(super) fn with_write(instruction: u8, file: u8, offset: u32, bytes: &[u8]) -> Vec<u8> {
    let mut data = vec![file];
    data.extend_from_slice(&offset.to_le_bytes()[..3]);
    data.extend_from_slice(&(bytes.len() as u32).to_le_bytes()[..3]);
    data.extend_from_slice(bytes);
    frame(instruction, &data)
}

pub(super) fn credit(amount: u32) -> Vec<u8> {
    with_amount(0x0C, amount)
}

pub(super) fn debit(amount: u32) -> Vec<u8> {
    with_amount(0xDC, amount)
}

pub(super) fn limited_credit(amount: u32) -> Vec<u8> {
    with_amount(0x1C, amount)
}

pub(super) fn commit() -> Vec<u8> {
    frame(0xC7, &[])
}

pub(super) fn abort() -> Vec<u8> {
    frame(0xA7, &[])
}

pub(super) fn get_value(file: u8) -> Vec<u8> {
    frame(0x6C, &[file])
}

pub(super) const OK: [u8; 2] = [0x91, 0x00];
pub(super) const BOUNDARY: [u8; 2] = [0x91, 0xBE];

#[test]
fn p1_empty_frame() {
    let mut card = Card::program_card();
    assert_eq!(reply(&mut card, &[]), [0x67, 0x00]);
}

#[test]
fn p2_class() {
    let mut card = Card::program_card();
    let frame = [0x80, 0x6C, 0x00, 0x00, 0x01, 0x03, 0x00];
    assert_eq!(reply(&mut card, &frame), [0x6E, 0x00]);
}

#[test]
fn p3_parameters() {
    let mut card = Card::program_card();
    let frame = [0x90, 0x6C, 0x01, 0x00, 0x01, 0x03, 0x00];
    assert_eq!(reply(&mut card, &frame), [0x6A, 0x86]);
}

#[test]
fn p4_le() {
    let mut card = Card::program_card();
    let frame = [0x90, 0x6C, 0x00, 0x00, 0x01, 0x03, 0x01];
    assert_eq!(reply(&mut card, &frame), [0x67, 0x00]);
}

#[test]
fn p5_instruction() {
    let mut card = Card::program_card();
    let frame = [0x90, 0xFF, 0x00, 0x00, 0x00];
    assert_eq!(reply(&mut card, &frame), [0x91, 0x1C]);
}

#[test]
fn p6_file_number_and_kind() {
    let mut card = Card::program_card();
    assert_eq!(reply(&mut card, &get_value(0x07)), [0x91, 0xF0]);
    assert_eq!(reply(&mut card, &get_value(0x00)), [0x91, 0x9D]);
}

#[test]
fn p7_credit_to_the_limit() {
    assert_eq!(reply(&mut Card::program_card(), &credit(900)), OK);
    assert_eq!(reply(&mut Card::program_card(), &credit(901)), BOUNDARY);
}

#[test]
fn p8_negative_amount() {
    let mut card = Card::program_card();
    assert_eq!(reply(&mut card, &credit(0xFFFF_FFFF)), [0x91, 0x9E]);
}

#[test]
fn p9_read_at_the_end() {
    let mut card = Card::program_card();
    assert_eq!(
        reply(&mut card, &with_two(0xAD, 0x00, 255, 1)),
        [0x00, 0x91, 0x00]
    );
    assert_eq!(reply(&mut card, &with_two(0xAD, 0x00, 256, 0)), BOUNDARY);
}

#[test]
fn p10_credit_past_32_bits() {
    let mut card = Card::personalise(&Personalisation {
        upper: 2_147_483_647,
        value: 2_147_483_647,
        ..PROGRAM_CARD
    })
    .unwrap();
    assert_eq!(reply(&mut card, &credit(1)), BOUNDARY);
}

#[test]
fn p11_commit_at_once() {
    let mut card = Card::program_card();
    assert_eq!(reply(&mut card, &commit()), [0x91, 0x0C]);
}

#[test]
fn p12_write_record_after_clear() {
    let mut card = Card::program_card();
    for byte in 1..=2 {
        reply(&mut card, &with_write(0x8B, 0x01, 0, &[byte; 16]));
        assert_eq!(reply(&mut card, &commit()), OK);
    }
    let log = card.log.clone();
    assert_eq!(reply(&mut card, &frame(0xEB, &[0x01])), OK);
    let write = with_write(0x8B, 0x01, 0, &[0x77]);
    assert_eq!(reply(&mut card, &write), [0x91, 0x9D]);
    assert_eq!(card.log, log);
    assert!(card.pending.is_empty());
}

#[test]
fn run_as_tests_five_entries() {
    let mut card = Card::program_card();
    for byte in 1..=5 {
        let write = with_write(0x8B, 0x01, 0, &[byte; 16]);
        assert_eq!(reply(&mut card, &write), OK);
        assert_eq!(reply(&mut card, &commit()), OK);
    }
    let filled = |bytes: &[u8]| {
        let mut expected: Vec<u8> = bytes.iter().flat_map(|&byte| [byte; 16]).collect();
        expected.extend_from_slice(&OK);
        expected
    };
    assert_eq!(
        reply(&mut card, &with_two(0xAB, 0x01, 0, 0)),
        filled(&[2, 3, 4, 5])
    );
    assert_eq!(
        reply(&mut card, &with_two(0xAB, 0x01, 1, 2)),
        filled(&[3, 4])
    );
}

#[test]
fn run_as_tests_two_writes_one_entry() {
    let mut card = Card::program_card();
    reply(&mut card, &with_write(0x8B, 0x01, 0, &[0xAA]));
    reply(&mut card, &with_write(0x8B, 0x01, 15, &[0xBB]));
    assert_eq!(reply(&mut card, &commit()), OK);
    let mut expected = vec![0; 18];
    expected[0] = 0xAA;
    expected[15] = 0xBB;
    expected[16..].copy_from_slice(&OK);
    assert_eq!(reply(&mut card, &with_two(0xAB, 0x01, 0, 0)), expected);
}

#[test]
fn run_as_tests_allowance() {
    let mut card = Card::program_card();
    for frame in [debit(30), commit(), limited_credit(10), commit()] {
        assert_eq!(reply(&mut card, &frame), OK);
    }
    assert_eq!(reply(&mut card.clone(), &limited_credit(21)), BOUNDARY);
    assert_eq!(reply(&mut card, &limited_credit(20)), BOUNDARY);
}

#[test]
fn one_rebooking_uses_the_allowance_up() {
    let mut card = Card::program_card();
    for frame in [debit(30), commit(), limited_credit(1)] {
        assert_eq!(reply(&mut card, &frame), OK);
    }
    assert_eq!(card.books().allowance, 30);
    assert_eq!(card.books().pending_allowance, 0);
    assert_eq!(reply(&mut card.clone(), &limited_credit(1)), BOUNDARY);
    // An abort brings the allowance back.
    let mut aborted = card.clone();
    for frame in [abort(), limited_credit(30)] {
        assert_eq!(reply(&mut aborted, &frame), OK);
    }
    // A Debit of the same transaction counts, before or after it.
    let mut sold = card.clone();
    for frame in [debit(5), commit()] {
        assert_eq!(reply(&mut sold, &frame), OK);
    }
    assert_eq!(sold.books().allowance, 5);
    assert_eq!(reply(&mut card, &commit()), OK);
    assert_eq!(card.books().allowance, 0);
}

#[test]
fn careful_two_credits_are_tested_on_the_pending_value() {
    let mut card = Card::program_card();
    assert_eq!(reply(&mut card, &credit(500)), OK);
    assert_eq!(reply(&mut card, &credit(500)), BOUNDARY);
}

#[test]
fn careful_data_is_not_rolled_back() {
    let mut card = Card::program_card();
    reply(&mut card, &credit(1));
    reply(&mut card, &with_write(0x8D, 0x1F, 31, &[0x5A]));
    assert_eq!(reply(&mut card, &abort()), OK);
    assert_eq!(
        reply(&mut card, &with_two(0xAD, 0x1F, 31, 0)),
        [0x5A, 0x91, 0x00]
    );
}

#[test]
fn careful_refused_read_ends_the_session_and_drops_work() {
    let mut card = Card::program_card();
    card.change_session(Some(3)).unwrap();
    reply(&mut card, &credit(1));
    assert_eq!(reply(&mut card, &with_two(0xAB, 0x01, 0, 0)), BOUNDARY);
    assert_eq!(card, Card::program_card());
}

#[test]
fn careful_own_debit_does_not_raise_the_allowance() {
    let mut card = Card::program_card();
    assert_eq!(reply(&mut card, &debit(30)), OK);
    assert_eq!(reply(&mut card, &limited_credit(1)), BOUNDARY);
}

#[test]
fn allowance_is_the_sum_of_debits_and_held() {
    let mut card = Card::personalise(&Personalisation {
        lower: i32::MIN,
        upper: i32::MAX,
        value: 0,
        ..PROGRAM_CARD
    })
    .unwrap();
    let most = i32::MAX as u32;
    for frame in [debit(most), credit(most), debit(most), commit()] {
        assert_eq!(reply(&mut card, &frame), OK);
    }
    assert_eq!(card.books().allowance, i32::MAX);
    // The sum alone counts, whatever the allowance was.
    for frame in [debit(1), commit()] {
        assert_eq!(reply(&mut card, &frame), OK);
    }
    assert_eq!(card.books().allowance, 1);
}

#[test]
fn amounts_of_zero_are_refused() {
    for zero in [credit(0), debit(0), limited_credit(0)] {
        let mut card = Card::program_card();
        card.change_session(Some(3)).unwrap();
        assert_eq!(reply(&mut card, &debit(1)), OK);
        assert_eq!(reply(&mut card, &zero), [0x91, 0x9E]);
        assert_eq!(card, Card::program_card());
    }
}

#[test]
fn the_switch_comes_before_an_amount_of_zero() {
    let mut card = Card::personalise(&Personalisation {
        limited_credit: false,
        ..PROGRAM_CARD
    })
    .unwrap();
    assert_eq!(reply(&mut card, &limited_credit(0)), [0x91, 0x9D]);
}

/// The slot bytes that a command stores.
fn stored(card: &mut Card, frame: &[u8]) -> usize {
    let replied = card.command(frame, &Inputs::default(), &mut [0; REPLY_ROOM]);
    replied.expect("room enough").stored
}

#[test]
fn only_a_commit_with_a_new_entry_stores() {
    let mut card = Card::program_card();
    let write = with_write(0x8B, 0x01, 3, &[0x77]);
    let clear = frame(0xEB, &[0x01]);
    for _ in 0..6 {
        assert_eq!(stored(&mut card, &write), 0);
        assert_eq!(stored(&mut card, &commit()), ENTRY_SIZE);
    }
    // With figures, and with as many writes as there may be.
    for frame in [&debit(1), &write, &write] {
        assert_eq!(stored(&mut card, frame), 0);
    }
    assert_eq!(stored(&mut card, &commit()), ENTRY_SIZE);
    // Figures alone, an abort, a clear, a clear that drops the entry.
    for frames in [
        [debit(1), commit(), commit()],
        [write.clone(), abort(), commit()],
        [clear.clone(), commit(), commit()],
        [write.clone(), clear, commit()],
    ] {
        for frame in frames {
            assert_eq!(stored(&mut card, &frame), 0);
        }
    }
    assert_eq!(card.entries().count(), 0);
    // A refusal with an entry pending, also of the commit itself.
    for refused in [get_value(0x07), frame(0xC7, &[0x01])] {
        for frame in [write.clone(), refused, commit()] {
            assert_eq!(stored(&mut card, &frame), 0);
        }
    }
}

#[test]
fn personalisation_refusals_in_order() {
    let all_wrong = Personalisation {
        rights: [0xEEEE, 0xEEEE, 0xEEEE, 0xEEEE, 0xEEE5],
        lower: 1,
        upper: 0,
        value: 5,
        ..PROGRAM_CARD
    };
    assert_eq!(
        Card::personalise(&all_wrong),
        Err(BenchRefusal::RightsNibble)
    );
    let two_wrong = Personalisation {
        rights: [0x0123, 0x4EEF, 0xFFFF, 0xEEEE, 0x0000],
        ..all_wrong
    };
    assert_eq!(
        Card::personalise(&two_wrong),
        Err(BenchRefusal::LimitsCrossed)
    );
    let one_wrong = Personalisation {
        upper: 4,
        ..two_wrong
    };
    assert_eq!(
        Card::personalise(&one_wrong),
        Err(BenchRefusal::ValueOutside)
    );
}

#[test]
fn other_bench_refusals() {
    let mut card = Card::program_card();
    assert_eq!(card.change_session(Some(5)), Err(BenchRefusal::KeyNumber));
    let mut room = [0; REPLY_ROOM - 1];
    assert_eq!(
        card.command(&[], &Inputs::default(), &mut room),
        Err(BenchRefusal::ReplyRoom)
    );
    assert_eq!(card, Card::program_card());
}

#[test]
fn free_get_value() {
    let personalise = |rights, free_get_value| {
        Card::personalise(&Personalisation {
            rights: [0xEEEE, 0xEEEE, 0xEEEE, rights, 0xEEEE],
            free_get_value,
            ..PROGRAM_CARD
        })
        .unwrap()
    };
    let granted = [100, 0, 0, 0, 0x91, 0x00];
    let frame = get_value(0x03);
    assert_eq!(reply(&mut personalise(0xFF1F, true), &frame), granted);
    assert_eq!(reply(&mut personalise(0xFF1F, false), &frame), [0x91, 0xAE]);
    assert_eq!(reply(&mut personalise(0xFFFE, true), &frame), [0x91, 0x9D]);
}

#[test]
fn settings_of_each_kind_need_no_right() {
    let sealed = Personalisation {
        rights: [0xFFFF; 5],
        lower: -2,
        free_get_value: true,
        ..PROGRAM_CARD
    };
    let mut card = Card::personalise(&sealed).unwrap();
    let mut settings = |file| reply(&mut card, &frame(0xF5, &[file]));
    let data = [0x00, 0x00, 0xFF, 0xFF, 0x00, 0x01, 0x00, 0x91, 0x00];
    assert_eq!(settings(0x00), data);
    assert_eq!(settings(0x04), data);
    assert_eq!(
        settings(0x1F),
        [0x00, 0x00, 0xFF, 0xFF, 0x20, 0x00, 0x00, 0x91, 0x00]
    );
    assert_eq!(
        settings(0x03),
        [
            0x02, 0x00, 0xFF, 0xFF, 0xFE, 0xFF, 0xFF, 0xFF, 0xE8, 0x03, 0x00, 0x00, 0x00, 0x00,
            0x00, 0x00, 0x03, 0x91, 0x00
        ]
    );
    assert_eq!(
        settings(0x01),
        [
            0x04, 0x00, 0xFF, 0xFF, 0x10, 0x00, 0x00, 0x04, 0x00, 0x00, 0x00, 0x00, 0x00, 0x91,
            0x00
        ]
    );
}

#[test]
fn settings_show_committed_figures_and_leave_pending_work() {
    let mut card = Card::program_card();
    let settings = |card: &mut Card| {
        let value = reply(card, &frame(0xF5, &[0x03]));
        let log = reply(card, &frame(0xF5, &[0x01]));
        (value[12..16].to_vec(), log[10..13].to_vec())
    };
    for frame in [debit(0x102), with_write(0x8B, 0x01, 0, &[0x77])] {
        card.value.value = 0x102;
        assert_eq!(reply(&mut card, &frame), OK);
        assert_eq!(settings(&mut card), (vec![0; 4], vec![0; 3]));
    }
    assert_eq!(reply(&mut card, &commit()), OK);
    let committed = (vec![0x02, 0x01, 0x00, 0x00], vec![0x01, 0x00, 0x00]);
    assert_eq!(settings(&mut card), committed);
    assert_eq!(reply(&mut card, &limited_credit(2)), OK);
    assert_eq!(settings(&mut card), committed);
}

#[test]
fn settings_have_rights_least_significant_byte_first() {
    let mut card = Card::personalise(&Personalisation {
        rights: [0x0123, 0x4EEF, 0xFFFF, 0xEEEE, 0x0000],
        ..PROGRAM_CARD
    })
    .unwrap();
    assert_eq!(reply(&mut card, &frame(0xF5, &[0x00]))[2..4], [0x23, 0x01]);
    assert_eq!(reply(&mut card, &frame(0xF5, &[0x04]))[2..4], [0xEF, 0x4E]);
}

#[test]
fn settings_are_refused_up_to_place_7() {
    for (frame, status) in [
        (vec![0x90, 0xF5, 0x00, 0x00, 0x01, 0x03, 0x01], [0x67, 0x00]),
        (frame(0xF5, &[]), [0x91, 0x7E]),
        (frame(0xF5, &[0x03, 0x00]), [0x91, 0x7E]),
        (frame(0xF5, &[0x02]), [0x91, 0xF0]),
    ] {
        let mut card = Card::program_card();
        card.change_session(Some(3)).unwrap();
        assert_eq!(reply(&mut card, &debit(1)), OK);
        assert_eq!(reply(&mut card, &frame), status);
        assert_eq!(card, Card::program_card());
    }
}

#[test]
fn places_and_statuses() {
    assert_eq!(Refusal::FrameLength.place(), "1");
    assert_eq!(Refusal::Interrupted.place(), "5a");
    assert_eq!(Refusal::ChainInMacMode.place(), "9c");
    assert_eq!(Refusal::Integrity.place(), "9a");
    assert_eq!(Refusal::NotNow.place(), "10");
    assert_eq!(Refusal::NothingPending.place(), "13");
    assert_eq!(Refusal::NothingPending.row() + 1, ROWS);
    assert_eq!(Refusal::NothingPending.status(), 0x910C);
}
