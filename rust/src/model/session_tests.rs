//! Tests of sessions and MACs (request 06).

use super::tests::*;
use super::*;
use crate::hex::bytes;
use crate::messaging;

const TERMINAL: Block = [0x77; 16];
pub(super) const INPUTS: Inputs = Inputs {
    random: [0xB0; 16],
    transaction: [0xC0, 0xC1, 0xC2, 0xC3],
};
pub(super) const MACED: [Mode; 5] = [Mode::Mac; 5];

/// Key `number` of [`keyed`] is sixteen times this byte.
pub(super) fn key(number: u8) -> Block {
    [0x10 + number; 16]
}

/// A card whose files all have these rights and modes, with keys of its own.
pub(super) fn keyed(rights: u16, modes: [Mode; 5]) -> Card {
    Card::personalise(&Personalisation {
        rights: [rights; 5],
        keys: [0, 1, 2, 3, 4].map(key),
        modes,
        ..PROGRAM_CARD
    })
    .unwrap()
}

/// The reply to a frame with [`INPUTS`] handed in.
pub(super) fn send(card: &mut Card, frame: &[u8]) -> Vec<u8> {
    let mut room = [0xA5; REPLY_ROOM];
    let length = card.command(frame, &INPUTS, &mut room).unwrap().length;
    assert!(room[length..].iter().all(|&byte| byte == 0xA5));
    room[..length].to_vec()
}

pub(super) fn first_part(key_number: u8) -> Vec<u8> {
    frame(0x71, &[key_number, 0x00])
}

/// The second part of a terminal that knows the key and the random number.
pub(super) fn second_part(key: &Block) -> Vec<u8> {
    let blocks = messaging::second_part(key, &TERMINAL, &INPUTS.random);
    frame(0xAF, &blocks.concat())
}

/// Opens a session of the key, as a terminal does.
pub(super) fn authenticate(card: &mut Card, number: u8) {
    let reply = send(card, &first_part(number));
    assert_eq!(reply.len(), 18);
    assert_eq!(reply[16..], [0x91, 0xAF]);
    let reply = send(card, &second_part(&key(number)));
    assert_eq!(reply.len(), 34);
    assert_eq!(reply[32..], OK);
}

/// A card of these rights and modes with a session of key 3.
pub(super) fn in_session(rights: u16, modes: [Mode; 5]) -> Card {
    let mut card = keyed(rights, modes);
    authenticate(&mut card, 3);
    card
}

pub(super) fn real(card: &Card) -> RealSession {
    match card.session {
        Session::Real(session) => session,
        other => panic!("no session: {other:?}"),
    }
}

/// The data field of a sound frame.
fn data_of(plain: &[u8]) -> &[u8] {
    match plain {
        [_, _, _, _, _, data @ .., _] => data,
        _ => &[],
    }
}

/// The frame of a sound one with the MAC of the session behind its data.
pub(super) fn maced(card: &Card, plain: &[u8]) -> Vec<u8> {
    let mut data = data_of(plain).to_vec();
    data.extend_from_slice(&real(card).command_mac(plain[1], &data));
    frame(plain[1], &data)
}

/// Sends a command with a MAC and expects this data, with a right MAC behind it.
#[track_caller]
pub(super) fn accepts(card: &mut Card, plain: &[u8], data: &[u8]) {
    let before = real(card);
    let reply = send(card, &maced(card, plain));
    let mut expected = data.to_vec();
    let after = RealSession {
        counter: before.counter + 1,
        ..before
    };
    expected.extend_from_slice(&after.reply_mac(data));
    expected.extend_from_slice(&OK);
    assert_eq!(reply, expected);
    assert_eq!(real(card), after);
}

/// Sends a frame and expects this refusal, with its effect.
#[track_caller]
pub(super) fn refuses(card: &mut Card, frame: &[u8], status: u16) {
    assert_eq!(send(card, frame), status.to_be_bytes());
    assert_eq!(card.session, Session::None);
    assert!(card.pending.is_empty());
}

/// As [`refuses`], for a card that is not needed afterwards.
#[track_caller]
fn refused(mut card: Card, frame: &[u8], status: u16) {
    refuses(&mut card, frame, status);
}

/// One sound frame of each command that names a file, on a file of its kind.
pub(super) fn file_commands() -> [Vec<u8>; 9] {
    [
        with_two(0xAD, 0x00, 0, 1),
        with_write(0x8D, 0x04, 0, &[1]),
        get_value(0x03),
        credit(1),
        debit(1),
        limited_credit(1),
        with_two(0xAB, 0x01, 0, 1),
        with_write(0x8B, 0x01, 0, &[1]),
        frame(0xEB, &[0x01]),
    ]
}

/// A card in session whose every file command is accepted, as are commit and
/// abort: an allowance, an entry, something pending.
pub(super) fn busy(rights: u16, modes: [Mode; 5]) -> Card {
    let mut card = in_session(rights, modes);
    card.value.allowance = 10;
    card.log.entries.push_front([7; ENTRY_SIZE]);
    card.pending.value = Some(card.value_work());
    card
}

#[test]
fn published_exchange() {
    let inputs = Inputs {
        random: bytes("B9E2FC789B64BF237CCCAA20EC7E6E48"),
        transaction: bytes("9D00C4DF"),
    };
    let mut card = Card::program_card();
    let mut room = [0; REPLY_ROOM];
    let first = first_part(0);
    let replied = card.command(&first, &inputs, &mut room);
    assert_eq!(replied, Ok(Reply::of_length(18)));
    assert_eq!(
        room[..18],
        bytes::<18>("A04C124213C186F22399D33AC2A3021591AF")
    );
    let second: [u8; 32] =
        bytes("35C3E05A752E0144BAC0DE51C1F22C56B34408A23D8AEA266CAB947EA8E0118D");
    // What is handed in with the second part does not matter.
    let second = frame(0xAF, &second);
    let replied = card.command(&second, &Inputs::default(), &mut room);
    assert_eq!(replied, Ok(Reply::of_length(34)));
    assert_eq!(
        room[..34],
        bytes::<34>("3FA64DB5446D1F34CD6EA311167F5E4985B89690C04A05F17FA7AB2F081206639100")
    );
    let session = real(&card);
    assert_eq!(session.mac_key, bytes("4C6626F5E72EA694202139295C7A7FC7"));
    assert_eq!(session.transaction, bytes("9D00C4DF"));
    assert_eq!((session.key_number, session.counter), (0, 0));
}

#[test]
fn each_key_opens_its_own_session() {
    for number in 0..=LAST_KEY {
        let mut card = keyed(0xEEEE, MACED);
        authenticate(&mut card, number);
        assert_eq!(real(&card).key_number, number);
        send(&mut card, &first_part(number));
        refuses(&mut card, &second_part(&key((number + 1) % 5)), 0x91AE);
    }
}

#[test]
fn the_capabilities_are_cut_or_filled() {
    for (sent, told) in [
        (&[][..], [0; 6]),
        (&[0x01], [0x01, 0, 0, 0, 0, 0]),
        (&[0xFD, 2, 3, 4, 5, 6], [0xFD, 2, 3, 4, 5, 6]),
        (&[0x00, 0xFF, 3, 4, 5, 6, 7, 8], [0x00, 0xFF, 3, 4, 5, 6]),
        (&[0x99; 253], [0x99; 6]),
    ] {
        let mut card = keyed(0xEEEE, MACED);
        let mut data = vec![0x02, sent.len() as u8];
        data.extend_from_slice(sent);
        let reply = send(&mut card, &frame(0x71, &data));
        assert_eq!(reply[16..], [0x91, 0xAF]);
        let reply = send(&mut card, &second_part(&key(2)));
        let blocks = two_blocks(&reply[..32]).unwrap();
        let plain = crate::aes::Aes::new(&key(2))
            .decrypt_chained(blocks)
            .concat();
        assert_eq!(plain[..4], INPUTS.transaction);
        assert_eq!(plain[4..20], TERMINAL);
        assert_eq!(plain[20..26], [0; 6]);
        assert_eq!(plain[26..], told);
    }
}

#[test]
fn a_first_part_is_refused_for_length_key_and_lrp() {
    for (data, status) in [
        (&[][..], 0x917E),
        (&[0x00], 0x917E),
        (&[0x00, 0x01], 0x917E),
        (&[0x00, 0x00, 0x00], 0x917E),
        (&[0x05, 0x02, 0x02], 0x917E),
        (&[0x05, 0x00], 0x919E),
        (&[0xFF, 0x00], 0x919E),
        (&[0x00, 0x01, 0x02], 0x919E),
        (&[0x04, 0x02, 0xFF, 0x00], 0x919E),
    ] {
        let mut card = busy(0x3333, MACED);
        refuses(&mut card, &frame(0x71, data), status);
    }
    let mut card = keyed(0xEEEE, MACED);
    send(&mut card, &frame(0x71, &[0x04, 0x02, 0xFD, 0xFF]));
    assert!(matches!(card.session, Session::Waiting(first) if first.key_number == 4));
}

#[test]
fn a_second_part_needs_a_first_and_32_bytes() {
    let mut card = busy(0x3333, MACED);
    refuses(&mut card, &second_part(&key(3)), 0x911C);
    for length in [0, 1, 16, 31, 33, 40, 255] {
        let mut card = keyed(0xEEEE, MACED);
        send(&mut card, &first_part(3));
        refuses(&mut card, &frame(0xAF, &vec![0; length]), 0x917E);
    }
    let mut card = keyed(0xEEEE, MACED);
    authenticate(&mut card, 3);
    refuses(&mut card, &second_part(&key(3)), 0x911C);
}

#[test]
fn a_first_part_ends_the_session_and_leaves_pending_work() {
    for session in [Some(3), None] {
        let mut card = keyed(0x3333, MACED);
        card.change_session(Some(3)).unwrap();
        send(&mut card, &debit(30));
        card.change_session(session).unwrap();
        send(&mut card, &first_part(3));
        assert_eq!(card.session.key(), None);
        assert_eq!(card.books().pending_value, 70);
        send(&mut card, &second_part(&key(3)));
        accepts(&mut card, &commit(), &[]);
        assert_eq!(card.books().value, 70);
    }
    // A real session too, and its counter begins again.
    let mut card = in_session(0x3333, MACED);
    accepts(&mut card, &debit(30), &[]);
    authenticate(&mut card, 4);
    assert_eq!(real(&card).counter, 0);
    accepts(&mut card, &commit(), &[]);
    assert_eq!(card.books().value, 70);
}

#[test]
fn between_the_parts_every_other_command_is_refused() {
    let mut commands: Vec<Vec<u8>> = file_commands().to_vec();
    commands.extend([commit(), abort(), frame(0xF5, &[0x00]), first_part(0)]);
    // The data field is not looked at.
    commands.extend([frame(0x6C, &[]), frame(0x71, &[]), get_value(0x07)]);
    for command in &commands {
        let mut card = keyed(0xEEEE, MACED);
        send(&mut card, &debit(1));
        send(&mut card, &first_part(0));
        refuses(&mut card, command, 0x91CA);
        refuses(&mut card, &second_part(&key(0)), 0x911C);
    }
    for (other, status) in [
        (vec![], 0x6700),
        (vec![0x80, 0xAF, 0, 0, 0], 0x6E00),
        (vec![0x90, 0x6C, 1, 0, 0], 0x6A86),
        (vec![0x90, 0x71, 0, 0, 1], 0x6700),
        (frame(0xFF, &[]), 0x911C),
    ] {
        let mut card = keyed(0xEEEE, MACED);
        send(&mut card, &first_part(0));
        refuses(&mut card, &other, status);
        refuses(&mut card, &second_part(&key(0)), 0x911C);
    }
}

#[test]
fn a_session_change_and_a_power_up_drop_the_first_part() {
    let waiting = || {
        let mut card = keyed(0xEEEE, MACED);
        send(&mut card, &debit(1));
        send(&mut card, &first_part(0));
        card
    };
    for session in [None, Some(0), Some(4)] {
        let mut card = waiting();
        card.change_session(session).unwrap();
        assert_eq!(card.session.key(), session);
        assert_eq!(card.books().pending_value, 99);
        refuses(&mut card, &second_part(&key(0)), 0x911C);
    }
    let mut card = waiting();
    card.power_up();
    assert_eq!(card, keyed(0xEEEE, MACED));
    // A bench refusal leaves it.
    let mut card = waiting();
    assert_eq!(card.change_session(Some(5)), Err(BenchRefusal::KeyNumber));
    let mut room = [0; REPLY_ROOM - 1];
    let second = second_part(&key(0));
    assert_eq!(
        card.command(&second, &INPUTS, &mut room),
        Err(BenchRefusal::ReplyRoom)
    );
    assert_eq!(send(&mut card, &second)[32..], OK);
}

#[test]
fn a_failed_second_part_drops_everything() {
    for wrong in [
        messaging::second_part(&key(1), &TERMINAL, &INPUTS.random),
        messaging::second_part(&key(0), &TERMINAL, &[0xB1; 16]),
        [[0; 16]; 2],
    ] {
        let mut card = keyed(0xEEEE, MACED);
        send(&mut card, &debit(1));
        send(&mut card, &first_part(0));
        refuses(&mut card, &frame(0xAF, &wrong.concat()), 0x91AE);
        assert_eq!(card, keyed(0xEEEE, MACED));
    }
}

#[test]
fn every_command_by_key_has_a_mac() {
    for (at, command) in file_commands().iter().enumerate() {
        let mut card = busy(0x3333, MACED);
        let data: &[u8] = match at {
            0 => &[0],
            2 => &[100, 0, 0, 0],
            6 => &[7; ENTRY_SIZE],
            _ => &[],
        };
        accepts(&mut card, command, data);
    }
    accepts(&mut busy(0x3333, MACED), &commit(), &[]);
    accepts(&mut busy(0x3333, MACED), &frame(0xC7, &[0x00]), &[]);
    accepts(&mut busy(0x3333, MACED), &abort(), &[]);
    let settings = [0x00, 0x01, 0x33, 0x33, 0x20, 0x00, 0x00];
    accepts(&mut busy(0x3333, MACED), &frame(0xF5, &[0x1F]), &settings);
}

#[test]
fn a_mac_that_is_wrong_in_any_bit_is_refused() {
    for command in [debit(1), commit(), abort(), frame(0xF5, &[0x00])] {
        for bit in 0..64 {
            let mut card = busy(0x3333, MACED);
            let mut wrong = maced(&card, &command);
            let at = wrong.len() - 9 + bit / 8;
            wrong[at] ^= 1 << (bit % 8);
            refuses(&mut card, &wrong, 0x911E);
        }
    }
}

#[test]
fn a_mac_is_of_this_command_counter_and_session() {
    let card = busy(0x3333, MACED);
    let right = maced(&card, &debit(1));
    let mut counted = card.clone();
    accepts(&mut counted, &debit(1), &[]);
    refuses(&mut counted, &right, 0x911E);
    let mut other = card.clone();
    let mut data = right.clone();
    data[6] += 1;
    refuses(&mut other, &data, 0x911E);
    let mut instruction = right.clone();
    instruction[1] = 0x0C;
    refuses(&mut card.clone(), &instruction, 0x911E);
    let mut transaction = card;
    if let Session::Real(session) = &mut transaction.session {
        session.transaction[3] ^= 1;
    }
    refuses(&mut transaction, &right, 0x911E);
}

#[test]
fn fewer_than_eight_bytes_are_refused_by_length() {
    let others = [commit(), abort(), frame(0xF5, &[0x00])];
    for command in file_commands().iter().chain(&others) {
        for length in 0..MAC_SIZE {
            let mut short = data_of(command).to_vec();
            short.resize(length, 0x00);
            refused(busy(0x3333, MACED), &frame(command[1], &short), 0x917E);
        }
    }
}

#[test]
fn a_missing_mac_is_refused() {
    // What is there is taken for the MAC, and what is left is too short; a
    // write's length no longer fits.
    for command in file_commands().iter().chain(&[commit(), abort()]) {
        refuses(&mut busy(0x3333, MACED), command, 0x917E);
    }
    refuses(&mut busy(0x3333, MACED), &frame(0xF5, &[0x00]), 0x917E);
}

#[test]
fn granted_by_a_free_condition_alone_travels_plain() {
    // R is free, W never, RW key 4: the session's key 3 grants nothing.
    for (at, plain) in [
        (0, with_two(0xAD, 0x00, 0, 1)),
        (2, get_value(0x03)),
        (4, debit(1)),
        (6, with_two(0xAB, 0x01, 0, 1)),
    ] {
        let mut card = busy(0xEF4F, MACED);
        let reply = send(&mut card, &plain);
        assert_eq!(reply[reply.len() - 2..], OK, "{at}");
        assert!(reply.len() < 20, "{at}");
        assert_eq!(real(&card).counter, 1, "{at}");
        let mut card = busy(0xEF4F, MACED);
        let sealed = maced(&card, &plain);
        refuses(&mut card, &sealed, 0x917E);
    }
    // With key 4 it is not the free condition alone.
    let mut card = busy(0xEF4F, MACED);
    authenticate(&mut card, 4);
    accepts(&mut card, &with_two(0xAD, 0x00, 0, 1), &[0]);
    refuses(&mut card, &with_two(0xAD, 0x00, 0, 1), 0x917E);
}

#[test]
fn free_get_value_is_a_free_condition() {
    let personalise = |rights: u16| {
        let mut card = Card::personalise(&Personalisation {
            rights: [rights; 5],
            keys: [0, 1, 2, 3, 4].map(key),
            modes: MACED,
            free_get_value: true,
            ..PROGRAM_CARD
        })
        .unwrap();
        authenticate(&mut card, 3);
        card
    };
    let shown = [100, 0, 0, 0, 0x91, 0x00];
    assert_eq!(send(&mut personalise(0xFF1F), &get_value(0x03)), shown);
    accepts(&mut personalise(0xFF3F), &get_value(0x03), &shown[..4]);
    let mut never = personalise(0xFFFE);
    let sealed = maced(&never, &get_value(0x03));
    refuses(&mut never, &get_value(0x03), 0x917E);
    refused(personalise(0xFFFE), &sealed, 0x919D);
    // The switch is the command's, whatever the file's kind.
    refuses(&mut personalise(0xFF1F), &get_value(0x00), 0x919D);
    refuses(&mut personalise(0xFF3F), &get_value(0x00), 0x917E);
    // It grants no other command.
    refuses(&mut personalise(0xFF1F), &debit(1), 0x917E);
}

#[test]
fn plain_files_stay_plain_and_are_counted() {
    for command in file_commands() {
        let mut card = busy(0x3333, [Mode::Plain; 5]);
        let reply = send(&mut card, &command);
        assert_eq!(reply[reply.len() - 2..], OK);
        assert!(reply.len() == 2 || reply[..2] != OK);
        assert_eq!(real(&card).counter, 1);
        let mut card = busy(0x3333, [Mode::Plain; 5]);
        let sealed = maced(&card, &command);
        refuses(&mut card, &sealed, 0x917E);
    }
    // Commit, abort and the settings have a MAC all the same.
    let mut card = busy(0x3333, [Mode::Plain; 5]);
    accepts(
        &mut card,
        &frame(0xF5, &[0x1F]),
        &[0, 0, 0x33, 0x33, 0x20, 0, 0],
    );
    accepts(&mut card, &commit(), &[]);
}

#[test]
fn the_mode_is_that_of_the_file_named() {
    for (at, number) in [0x00, 0x04, 0x1F].iter().enumerate() {
        let mut modes = [Mode::Plain; 5];
        modes[at] = Mode::Mac;
        for (other, file) in [0x00, 0x04, 0x1F].iter().enumerate() {
            let mut card = in_session(0x3333, modes);
            let read = with_two(0xAD, *file, 0, 1);
            if at == other {
                assert_eq!(file, number);
                accepts(&mut card, &read, &[0]);
            } else {
                assert_eq!(send(&mut card, &read), [0x00, 0x91, 0x00]);
            }
        }
    }
    let mut modes = [Mode::Plain; 5];
    modes[3] = Mode::Mac;
    let mut card = busy(0x3333, modes);
    accepts(&mut card, &debit(1), &[]);
    assert_eq!(send(&mut card, &with_write(0x8B, 0x01, 0, &[1])), OK);
    // A file of another kind, too: the MAC of a ClearRecordFile of 03h comes off.
    refused(card.clone(), &frame(0xEB, &[0x03]), 0x917E);
    refused(card.clone(), &maced(&card, &frame(0xEB, &[0x03])), 0x919D);
    refused(card.clone(), &frame(0xEB, &[0x00]), 0x919D);
    // An unknown file has no mode.
    refused(card.clone(), &frame(0xEB, &[0x02]), 0x91F0);
    refused(card.clone(), &maced(&card, &frame(0xEB, &[0x02])), 0x917E);
}

#[test]
fn other_sessions_stay_plain() {
    for session in [None, Some(3)] {
        let mut card = keyed(0x3E3E, MACED);
        card.change_session(session).unwrap();
        assert_eq!(send(&mut card, &debit(1)), OK);
        assert_eq!(send(&mut card, &commit()), OK);
        let settings = send(&mut card, &frame(0xF5, &[0x01]));
        assert_eq!(settings[..4], [0x04, 0x01, 0x3E, 0x3E]);
        assert_eq!(settings.len(), 15);
        assert_eq!(card.session.key(), session);
    }
}

#[test]
fn settings_tell_each_file_s_mode() {
    for (at, file) in [0x00, 0x04, 0x1F, 0x03, 0x01].iter().enumerate() {
        let mut modes = [Mode::Plain; 5];
        modes[at] = Mode::Mac;
        let mut card = keyed(0xEEEE, modes);
        for other in [0x00, 0x04, 0x1F, 0x03, 0x01] {
            let settings = send(&mut card, &frame(0xF5, &[other]));
            assert_eq!(settings[1], u8::from(other == *file));
        }
    }
}

#[test]
fn a_read_in_mac_mode_has_room_for_248_bytes() {
    for (offset, length, status) in [
        (0, 247, None),
        (0, 248, None),
        (8, 248, None),
        (8, 0, None),
        (255, 0, None),
        (0, 249, Some(0x91BE)),
        (7, 0, Some(0x91BE)),
        (0, 0, Some(0x91BE)),
        (9, 248, Some(0x91BE)),
    ] {
        let mut card = in_session(0x3333, MACED);
        let read = with_two(0xAD, 0x04, offset, length);
        let shown = if length == 0 { 256 - offset } else { length };
        match status {
            None => accepts(&mut card, &read, &vec![0; shown as usize]),
            Some(status) => refused(card.clone(), &maced(&card, &read), status),
        }
        // Plain, the whole file can be read.
        card.change_session(Some(3)).unwrap();
        let plain = send(&mut card, &read);
        let fits = offset + length <= 256;
        assert_eq!(plain.len() == shown as usize + 2, fits);
    }
}

#[test]
fn rights_come_before_the_mac_and_the_rest_after_it() {
    let wrong_and = |plain: &[u8], rights: u16, status: u16| {
        let mut card = in_session(rights, MACED);
        let mut wrong = maced(&card, plain);
        let at = wrong.len() - 2;
        wrong[at] ^= 0x01;
        refuses(&mut card, &wrong, status);
    };
    // Places 6 to 9 come before it.
    wrong_and(&frame(0x6C, &[0x03, 0x00]), 0x3333, 0x917E);
    wrong_and(&get_value(0x00), 0x3333, 0x919D);
    wrong_and(&get_value(0x03), 0xFFF3, 0x919D);
    wrong_and(&get_value(0x03), 0x1111, 0x91AE);
    wrong_and(&frame(0xF5, &[0x07]), 0x3333, 0x91F0);
    // Places 10 to 13 come after it.
    for plain in [
        credit(0),
        credit(0x8000_0000),
        credit(901),
        with_two(0xAD, 0x00, 256, 0),
        with_two(0xAD, 0x00, 0, 249),
        with_write(0x8D, 0x00, 0, &[]),
        with_two(0xAB, 0x01, 0, 0),
        frame(0xC7, &[0x01]),
        commit(),
        abort(),
    ] {
        wrong_and(&plain, 0x3333, 0x911E);
    }
    let mut card = in_session(0x3333, MACED);
    accepts(&mut card, &frame(0xEB, &[0x01]), &[]);
    let record = with_write(0x8B, 0x01, 0, &[1]);
    refused(card.clone(), &maced(&card, &record), 0x919D);
    let mut wrong = maced(&card, &record);
    wrong[7] ^= 0x01;
    refuses(&mut card, &wrong, 0x911E);
}

#[test]
fn right_macs_do_not_help_a_refused_command() {
    for (plain, status) in [
        (credit(0), 0x919E),
        (credit(901), 0x91BE),
        (frame(0xC7, &[0x01]), 0x919E),
        (commit(), 0x910C),
        (abort(), 0x910C),
        (frame(0xF5, &[0x07]), 0x91F0),
        (frame(0xF5, &[0x03, 0x00]), 0x917E),
        (frame(0xC7, &[0x00, 0x00]), 0x917E),
        (frame(0xA7, &[0x00]), 0x917E),
    ] {
        let card = in_session(0x3333, MACED);
        refused(card.clone(), &maced(&card, &plain), status);
    }
}

/// The card with its session's counter set.
pub(super) fn at_counter(mut card: Card, counter: u16) -> Card {
    if let Session::Real(session) = &mut card.session {
        session.counter = counter;
    }
    card
}

#[test]
fn the_counter_ends_at_ffff() {
    let mut card = at_counter(busy(0x3333, MACED), 0xFFFE);
    accepts(&mut card, &debit(1), &[]);
    assert_eq!(real(&card).counter, 0xFFFF);
    let mut commands = file_commands().to_vec();
    commands.extend([commit(), abort(), frame(0xF5, &[0x00])]);
    for command in &commands {
        let last = at_counter(busy(0x3333, MACED), 0xFFFF);
        refused(last.clone(), &maced(&last, command), 0x911E);
    }
    for command in &file_commands() {
        let last = at_counter(busy(0x3333, [Mode::Plain; 5]), 0xFFFF);
        refused(last, command, 0x911E);
    }
    let last = || at_counter(in_session(0xEEEE, MACED), 0xFFFF);
    refuses(&mut last(), &get_value(0x03), 0x911E);
    // The places before it, and those behind it.
    refuses(&mut last(), &get_value(0x07), 0x91F0);
    refuses(&mut last(), &get_value(0x00), 0x919D);
    refuses(&mut last(), &frame(0x6C, &[]), 0x917E);
    refuses(&mut last(), &credit(0), 0x911E);
    let idle = last();
    refused(idle.clone(), &maced(&idle, &commit()), 0x911E);
    refused(idle, &commit(), 0x917E);
    let not_granted = at_counter(in_session(0x1111, MACED), 0xFFFF);
    refused(
        not_granted.clone(),
        &maced(&not_granted, &get_value(0x03)),
        0x91AE,
    );
    // An authentication begins anew.
    let mut card = last();
    authenticate(&mut card, 0);
    assert_eq!(real(&card).counter, 0);
}
