//! Tests of chains (request 07).

use super::session_tests::*;
use super::tests::*;
use super::*;

/// The opening of a chain.
fn opening(file: u8, offset: u32, length: u32) -> Vec<u8> {
    with_two(0x8D, file, offset, length)
}

/// The reply to an opening; what lies behind it in the buffer stays.
fn open(card: &mut Card, frame: &[u8]) -> Vec<u8> {
    let mut room = [0xA5; REPLY_ROOM];
    let Reply { length, stored } = card.open_chain(frame, &mut room).expect("room enough");
    assert_eq!(stored, 0);
    assert!(room[length..].iter().all(|&byte| byte == 0xA5));
    room[..length].to_vec()
}

/// The reply to a file frame; what lies behind it in the buffer stays.
fn deliver(card: &mut Card, bytes: &[u8]) -> Vec<u8> {
    let mut room = [0xA5; REPLY_ROOM];
    let Reply { length, stored } = card.file_frame(bytes, &mut room).expect("room enough");
    assert_eq!(stored, 0);
    assert!(room[length..].iter().all(|&byte| byte == 0xA5));
    room[..length].to_vec()
}

/// Opens a chain, which has to be accepted.
#[track_caller]
fn opens(card: &mut Card, file: u8, offset: u32, length: u32) {
    let before = card.clone();
    assert_eq!(open(card, &opening(file, offset, length)), []);
    // Nothing changed but the chain.
    let chain = card.chain.take();
    assert_eq!(*card, before);
    card.chain = chain;
    assert_eq!(chain.expect("a chain").left, length as usize);
}

/// The card of the program with a Debit of 30 and a session of the bench.
fn sold() -> Card {
    let mut card = Card::program_card();
    card.change_session(Some(2)).unwrap();
    assert_eq!(reply(&mut card, &debit(30)), OK);
    card
}

/// The same in mid-chain: 2 of 5 bytes at place 10 of file 04h are delivered.
fn torn() -> Card {
    let mut card = sold();
    opens(&mut card, 0x04, 10, 5);
    assert_eq!(deliver(&mut card, &[1, 2]), []);
    card
}

/// Six bytes of file 04h from place 9 on.
fn around(card: &Card) -> &[u8] {
    &card.data[1].bytes[9..15]
}

/// What is left where a chain of [`torn`] is dropped by a refusal.
#[track_caller]
fn dropped(card: &Card) {
    assert_eq!(card.chain, None);
    assert_eq!(card.session, Session::None);
    assert!(card.pending.is_empty());
    assert_eq!(around(card), [0, 1, 2, 0, 0, 0]);
}

#[test]
fn a_chain_is_written_frame_by_frame() {
    let mut card = sold();
    let books = card.books();
    opens(&mut card, 0x00, 16, 240);
    let mut bytes = vec![0; 256];
    for (number, at) in [(1, 16), (2, 136)] {
        assert!(card.books().chain_open);
        bytes[at..at + 120].fill(number);
        let answer = deliver(&mut card, &[number; 120]);
        assert_eq!(answer, if number == 2 { &OK[..] } else { &[] });
        assert_eq!(card.data[0].bytes, bytes);
    }
    // Nothing is pending for it, and what was pending stays.
    assert_eq!(card.books(), books);
    assert_eq!(reply(&mut card, &commit()), OK);
    assert_eq!(card.books().value, 70);
}

#[test]
fn announced_lengths_go_up_to_the_file_s_room() {
    for (file, size) in [(0x00, 256), (0x04, 256), (0x1F, 32)] {
        let mut card = Card::program_card();
        opens(&mut card, file, 0, size);
        let mut left = size as usize;
        while left > 0 {
            let bytes = vec![0x5A; left.min(LONGEST_FILE_FRAME)];
            left -= bytes.len();
            let answer = deliver(&mut card, &bytes);
            assert_eq!(answer, if left == 0 { &OK[..] } else { &[] });
        }
        let other = |other: &&DataFile| other.bytes.iter().all(|&byte| byte == 0);
        assert_eq!(card.data.iter().filter(other).count(), 2);
        let full = |file: &&DataFile| file.bytes.iter().all(|&byte| byte == 0x5A);
        assert_eq!(card.data.iter().filter(full).count(), 1);
    }
}

#[test]
fn frames_of_one_byte() {
    let mut card = Card::program_card();
    opens(&mut card, 0x1F, 0, 32);
    for byte in 0..32 {
        let answer = deliver(&mut card, &[byte]);
        assert_eq!(answer, if byte == 31 { &OK[..] } else { &[] });
    }
    let expected: Vec<u8> = (0..32).collect();
    assert_eq!(card.data[2].bytes, expected);
}

#[test]
fn a_power_up_after_any_frame_keeps_the_bytes_before_it() {
    let sizes = [1, 128, 3, 100, 8];
    for frames in 0..=sizes.len() {
        let mut card = sold();
        card.data[1].bytes.fill(0xEE);
        let mut bytes = card.data[1].bytes.clone();
        opens(&mut card, 0x04, 16, 240);
        let mut at = 16;
        for (number, &size) in (1..).zip(&sizes[..frames]) {
            deliver(&mut card, &vec![number; size]);
            bytes[at..at + size].fill(number);
            at += size;
        }
        card.power_up();
        assert_eq!(card.data[1].bytes, bytes);
        let mut expected = Card::program_card();
        expected.data[1].bytes = bytes;
        assert_eq!(card, expected);
    }
}

#[test]
fn an_opening_is_refused_in_the_order_of_the_places() {
    let plain = opening(0x00, 0, 8);
    let changed = |at: usize, byte: u8| {
        let mut frame = plain.clone();
        frame[at] = byte;
        frame
    };
    for (frame, status) in [
        (vec![], 0x6700),
        (vec![0x90, 0x8D, 0x00, 0x00], 0x6700),
        (vec![0x90; 262], 0x6700),
        (changed(0, 0x80), 0x6E00),
        (changed(2, 0x01), 0x6A86),
        (changed(3, 0x01), 0x6A86),
        (changed(4, 0x08), 0x6700),
        (changed(12, 0x01), 0x6700),
        (changed(1, 0xFF), 0x911C),
        (commit(), 0x911C),
        (get_value(0x03), 0x911C),
        (frame(0x71, &[0x00, 0x00]), 0x911C),
        (frame(0xAF, &[0; 32]), 0x911C),
        (with_write(0x8B, 0x01, 0, &[]), 0x911C),
        (frame(0x8D, &[]), 0x917E),
        (frame(0x8D, &[0; 6]), 0x917E),
        (frame(0x8D, &[0; 8]), 0x917E),
        (with_write(0x8D, 0x00, 0, &[1]), 0x917E),
        (frame(0x8D, &[0x07; 8]), 0x917E),
        (opening(0x07, 0, 0), 0x91F0),
        (opening(0x03, 0, 0), 0x919D),
        (opening(0x01, 0, 8), 0x919D),
        (opening(0x00, 0, 0), 0x919E),
        (opening(0x00, 256, 0), 0x919E),
        (opening(0x00, 256, 1), 0x91BE),
        (opening(0x00, 0, 257), 0x91BE),
        (opening(0x00, 255, 2), 0x91BE),
        (opening(0x1F, 0, 33), 0x91BE),
        (opening(0x1F, 0xFF_FFFF, 0xFF_FFFF), 0x91BE),
    ] {
        let mut card = sold();
        let answer = open(&mut card, &frame);
        assert_eq!(answer, u16::to_be_bytes(status), "{frame:X?}");
        assert_eq!(card, Card::program_card());
    }
}

#[test]
fn an_opening_asks_for_the_rights_of_a_write() {
    // W and RW grant it, R and Change do not.
    for (rights, session, status) in [
        (0xE1FF, Some(1), None),
        (0xFF1F, Some(1), None),
        (0xFEFF, None, None),
        (0xFFEF, Some(4), None),
        (0xE1FF, Some(0), Some(0x91AE)),
        (0xE12E, None, Some(0x91AE)),
        (0xEFFE, None, Some(0x919D)),
        (0x1FF1, Some(1), Some(0x919D)),
    ] {
        let mut card = keyed(rights, [Mode::Plain; 5]);
        card.change_session(session).unwrap();
        match status {
            None => opens(&mut card, 0x04, 0, 8),
            // Before places 11 and 12.
            Some(status) => {
                for length in [8, 0, 257] {
                    let mut card = card.clone();
                    let answer = open(&mut card, &opening(0x04, 0, length));
                    assert_eq!(answer, u16::to_be_bytes(status));
                    assert_eq!(card.session, Session::None);
                }
            }
        }
    }
}

#[test]
fn no_chain_in_mac_mode() {
    for length in [8, 0, 257] {
        let mut card = in_session(0x3333, MACED);
        let answer = open(&mut card, &opening(0x04, 0, length));
        assert_eq!(answer, [0x91, 0x9D]);
        assert_eq!(card, keyed(0x3333, MACED));
    }
    // Before it: the data field, whose MAC is not taken off, the file, rights.
    let card = in_session(0x3333, MACED);
    let sealed = maced(&card, &opening(0x04, 0, 8));
    assert_eq!(open(&mut card.clone(), &sealed), [0x91, 0x7E]);
    assert_eq!(open(&mut card.clone(), &opening(0x07, 0, 8)), [0x91, 0xF0]);
    let mut other = in_session(0x1111, MACED);
    assert_eq!(open(&mut other, &opening(0x04, 0, 8)), [0x91, 0xAE]);
    let mut never = in_session(0x3FF3, MACED);
    assert_eq!(open(&mut never, &opening(0x04, 0, 8)), [0x91, 0x9D]);
    // Behind it: the end of the counter.
    let last = at_counter(card, 0xFFFF);
    let answer = last.clone().answer_opening(&opening(0x04, 0, 8));
    assert_eq!(answer, Err(Refusal::ChainInMacMode));
    let mut plain = at_counter(in_session(0x3333, [Mode::Plain; 5]), 0xFFFF);
    for length in [0, 257, 8] {
        let answer = plain.clone().answer_opening(&opening(0x04, 0, length));
        assert_eq!(answer, Err(Refusal::Integrity));
    }
    assert_eq!(open(&mut plain, &opening(0x04, 0, 8)), [0x91, 0x1E]);
    assert_eq!(plain, keyed(0x3333, [Mode::Plain; 5]));
}

#[test]
fn a_chain_on_a_file_in_mac_mode_that_is_not_in_mac_mode() {
    // A free condition alone grants it; a session of the bench; none.
    let mut free = in_session(0x4EFF, MACED);
    opens(&mut free, 0x04, 0, 2);
    assert_eq!(deliver(&mut free, &[7, 8]), OK);
    assert_eq!(real(&free).counter, 1);
    let mut bench = keyed(0x3333, MACED);
    bench.change_session(Some(3)).unwrap();
    opens(&mut bench, 0x04, 0, 2);
    let mut none = keyed(0xEEEE, MACED);
    opens(&mut none, 0x04, 0, 2);
    // The mode is that of the file which the chain names.
    let modes = [Mode::Mac, Mode::Plain, Mode::Mac, Mode::Mac, Mode::Mac];
    let mut other = in_session(0x3333, modes);
    opens(&mut other, 0x04, 0, 2);
    let mut same = in_session(0x3333, modes);
    assert_eq!(open(&mut same, &opening(0x1F, 0, 2)), [0x91, 0x9D]);
}

#[test]
fn the_counter_goes_up_once_with_the_last_frame() {
    let mut card = at_counter(busy(0x3333, [Mode::Plain; 5]), 17);
    opens(&mut card, 0x00, 0, 240);
    for frame in 1..=6 {
        assert_eq!(real(&card).counter, 17);
        assert_eq!(deliver(&mut card, &[1; 40]).is_empty(), frame < 6);
    }
    assert_eq!(real(&card).counter, 18);
    accepts(&mut card, &commit(), &[]);
    // The last chain that a session can have.
    let mut card = at_counter(busy(0x3333, [Mode::Plain; 5]), 0xFFFE);
    opens(&mut card, 0x00, 0, 2);
    assert_eq!(deliver(&mut card, &[1, 2]), OK);
    assert_eq!(real(&card).counter, 0xFFFF);
    assert_eq!(open(&mut card, &opening(0x00, 0, 2)), [0x91, 0x1E]);
}

#[test]
fn a_file_frame_without_a_chain_is_refused() {
    for bytes in [&[][..], &[1], &[1; 128], &[1; 129]] {
        let mut card = sold();
        assert_eq!(deliver(&mut card, bytes), [0x91, 0x1C]);
        assert_eq!(card, Card::program_card());
        // Behind the last frame, too.
        opens(&mut card, 0x00, 0, 1);
        assert_eq!(deliver(&mut card, &[0]), OK);
        assert_eq!(deliver(&mut card, bytes), [0x91, 0x1C]);
        // Between the parts of an authentication, which is then broken off.
        let mut card = keyed(0xEEEE, MACED);
        send(&mut card, &first_part(0));
        assert_eq!(deliver(&mut card, bytes), [0x91, 0x1C]);
        refuses(&mut card, &second_part(&key(0)), 0x911C);
    }
}

#[test]
fn a_file_frame_of_the_wrong_size_writes_nothing() {
    for size in [0, 4, 5, 128, 129, 255, 511] {
        let mut card = torn();
        assert_eq!(deliver(&mut card, &vec![9; size]), [0x91, 0x7E]);
        dropped(&card);
    }
    for size in [0, 129, 130, 240, 256, 511] {
        let mut card = sold();
        opens(&mut card, 0x00, 0, 256);
        assert_eq!(deliver(&mut card, &vec![9; size]), [0x91, 0x7E]);
        assert_eq!(card, Card::program_card());
    }
    assert_eq!(deliver(&mut torn(), &[9; 3]), OK);
}

#[test]
fn in_mid_chain_every_command_and_opening_is_refused() {
    let mut commands = file_commands().to_vec();
    commands.extend([commit(), abort(), frame(0xF5, &[0x00]), first_part(0)]);
    // The data field is not looked at.
    commands.extend([frame(0x6C, &[]), frame(0x71, &[]), get_value(0x07)]);
    for command in &commands {
        let mut card = torn();
        assert_eq!(reply(&mut card, command), [0x91, 0xCA]);
        dropped(&card);
        assert_eq!(deliver(&mut card, &[3, 4, 5]), [0x91, 0x1C]);
        assert_eq!(around(&card), [0, 1, 2, 0, 0, 0]);
    }
    for (other, status) in [
        (vec![], 0x6700),
        (vec![0x80, 0x8D, 0, 0, 0], 0x6E00),
        (vec![0x90, 0x8D, 1, 0, 0], 0x6A86),
        (vec![0x90, 0x8D, 0, 0, 1], 0x6700),
        (frame(0xFF, &[]), 0x911C),
        (frame(0xAF, &[0; 32]), 0x911C),
    ] {
        let mut card = torn();
        assert_eq!(reply(&mut card, &other), u16::to_be_bytes(status));
        dropped(&card);
        // As an opening, too.
        let mut card = torn();
        assert_eq!(open(&mut card, &other), u16::to_be_bytes(status));
        dropped(&card);
    }
    for (other, status) in [
        (opening(0x04, 12, 3), 0x91CA),
        (opening(0x07, 0, 0), 0x91CA),
        (frame(0x8D, &[]), 0x91CA),
        (get_value(0x03), 0x911C),
    ] {
        let mut card = torn();
        assert_eq!(open(&mut card, &other), u16::to_be_bytes(status));
        dropped(&card);
    }
}

#[test]
fn an_opening_between_the_parts_of_an_authentication() {
    for (other, status) in [
        (opening(0x00, 0, 8), 0x91CA),
        (frame(0x8D, &[]), 0x91CA),
        (second_part(&key(0)), 0x911C),
        (commit(), 0x911C),
    ] {
        let mut card = keyed(0xEEEE, MACED);
        send(&mut card, &first_part(0));
        assert_eq!(open(&mut card, &other), u16::to_be_bytes(status));
        assert_eq!(card, keyed(0xEEEE, MACED));
    }
}

#[test]
fn a_session_change_drops_the_chain_and_keeps_pending_work() {
    for session in [None, Some(2), Some(4)] {
        let mut card = torn();
        card.change_session(session).unwrap();
        assert_eq!(card.chain, None);
        assert_eq!(card.books().pending_value, 70);
        assert_eq!(around(&card), [0, 1, 2, 0, 0, 0]);
        assert_eq!(reply(&mut card, &commit()), OK);
        assert_eq!(deliver(&mut card, &[3]), [0x91, 0x1C]);
    }
}

#[test]
fn a_bench_refusal_leaves_the_chain() {
    let mut card = torn();
    let before = card.clone();
    assert_eq!(card.change_session(Some(5)), Err(BenchRefusal::KeyNumber));
    let mut room = [0xA5; REPLY_ROOM - 1];
    let refused = Err(BenchRefusal::ReplyRoom);
    assert_eq!(card.file_frame(&[3, 4, 5], &mut room), refused);
    assert_eq!(card.file_frame(&[], &mut room), refused);
    assert_eq!(card.open_chain(&opening(0x00, 0, 1), &mut room), refused);
    assert_eq!(card.open_chain(&[], &mut room), refused);
    let inputs = Inputs::default();
    assert_eq!(card.command(&commit(), &inputs, &mut room), refused);
    assert_eq!(room, [0xA5; REPLY_ROOM - 1]);
    assert_eq!(card, before);
    assert_eq!(deliver(&mut card, &[3, 4, 5]), OK);
    assert_eq!(around(&card), [0, 1, 2, 3, 4, 5]);
    // Also where no reply would be given.
    let mut card = sold();
    assert_eq!(card.open_chain(&opening(0x00, 0, 1), &mut room), refused);
    assert_eq!(card, sold());
}

#[test]
fn a_refused_opening_or_frame_drops_pending_work() {
    let mut card = sold();
    opens(&mut card, 0x04, 0, 2);
    assert_eq!(deliver(&mut card, &[1, 2, 3]), [0x91, 0x7E]);
    assert_eq!(card, Card::program_card());
    let mut card = sold();
    assert_eq!(open(&mut card, &opening(0x04, 256, 1)), BOUNDARY);
    assert_eq!(card, Card::program_card());
}
