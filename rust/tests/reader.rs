//! The program `reader` between a virtual reader and a bench, both played here.

#![forbid(unsafe_code)]

mod virtual_reader;

use std::fs;
use std::time::{Duration, Instant};
use virtual_reader::{bytes, faulty, Folder, Program, VirtualReader, REFBENCH};

const ATR: &str = "3B8180018080";
const GET_VALUE: &str = "906C0000010300";
const DEBIT_30: &str = "90DC000005031E00000000";
const COMMIT: &str = "90C7000000";
const READ_32: &str = "90AD0000070000000020000000";
const FIRST_PART: &str = "9071000002000000";

/// A value of 70 between 0 and 1000, and nothing else of interest.
const ORDER: &str = "PEEEEEEEEEEEEEEEEEEEE00000000E80300004600000000";

#[test]
fn a_till_gets_the_card_s_replies() {
    let reader = VirtualReader::new();
    let _program = Program::start(&reader, &[], &[REFBENCH]);
    let mut slot = reader.accept();
    slot.send(&[0x04]);
    assert_eq!(slot.receive(), bytes(ATR));
    slot.send(&[0x01]);
    assert_eq!(slot.reply(GET_VALUE), "640000009100");
    assert_eq!(slot.reply(DEBIT_30), "9100");
    assert_eq!(slot.reply(COMMIT), "9100");
    assert_eq!(slot.reply(GET_VALUE), "460000009100");
    assert_eq!(slot.reply("00A4040000"), "6E00");
    // One byte that asks for neither power nor the ATR.
    assert_eq!(slot.reply("03"), "6700");
}

#[test]
fn off_on_and_reset_are_power_ups() {
    let reader = VirtualReader::new();
    let _program = Program::start(&reader, &[], &[REFBENCH]);
    let mut slot = reader.accept();
    for message in [0x00, 0x01, 0x02] {
        assert_eq!(slot.reply(DEBIT_30), "9100");
        slot.send(&[message]);
        assert_eq!(slot.reply(COMMIT), "910C");
    }
    // The ATR is none.
    assert_eq!(slot.reply(DEBIT_30), "9100");
    slot.send(&[0x04]);
    assert_eq!(slot.receive(), bytes(ATR));
    assert_eq!(slot.reply(COMMIT), "9100");
}

#[test]
fn a_recording_plays_again() {
    let folder = Folder::new("again");
    let reader = VirtualReader::new();
    let _program = Program::start(&reader, &["--record", &folder.name("run")], &[REFBENCH]);
    let mut slot = reader.accept();
    slot.send(&[0x01]);
    slot.reply(GET_VALUE);
    slot.reply(FIRST_PART);
    // Whatever happens next, what was answered is there already.
    let sent = folder.lines("run.txt");
    assert_eq!(sent.len(), 4);
    assert_eq!(sent[0], "");
    assert_eq!(sent[1], GET_VALUE);
    assert!(sent[2].starts_with('N') && sent[2].len() == 41, "{sent:?}");
    assert_eq!(sent[3], FIRST_PART);
    folder.assert_plays_again("run");
}

#[test]
fn each_authentication_has_a_random_number_of_its_own() {
    let folder = Folder::new("random");
    let reader = VirtualReader::new();
    let _program = Program::start(&reader, &["--record", &folder.name("run")], &[REFBENCH]);
    let mut slot = reader.accept();
    let mut replies = Vec::new();
    for _ in 0..20 {
        replies.push(slot.reply(FIRST_PART));
        slot.send(&[0x02]);
    }
    // When this is answered, the last power-up is done.
    slot.send(&[0x04]);
    slot.receive();
    let mut handed_in: Vec<_> = folder.lines("run.txt");
    handed_in.retain(|line| line.starts_with('N'));
    for mut values in [replies, handed_in] {
        values.sort_unstable();
        values.dedup();
        assert_eq!(values.len(), 20);
    }
    folder.assert_plays_again("run");
}

#[test]
fn an_order_personalises_by_its_first_line() {
    let folder = Folder::new("order");
    fs::write(folder.path("order"), format!("{ORDER}\nP is not read\n")).unwrap();
    let options = [
        "--order",
        &folder.name("order"),
        "--record",
        &folder.name("run"),
    ];
    let reader = VirtualReader::new();
    let _program = Program::start(&reader, &options, &[REFBENCH]);
    let mut slot = reader.accept();
    assert_eq!(slot.reply(GET_VALUE), "460000009100");
    assert_eq!(folder.lines("run.txt"), [ORDER, GET_VALUE]);
    assert_eq!(folder.lines("run.out"), ["!0", "460000009100"]);
}

#[test]
fn an_order_may_number_the_files() {
    let folder = Folder::new("numbers");
    let order = ORDER.to_owned() + &"0".repeat(162) + "051E02100F";
    fs::write(folder.path("order"), &order).unwrap();
    let reader = VirtualReader::new();
    let _program = Program::start(&reader, &["--order", &folder.name("order")], &[REFBENCH]);
    let mut slot = reader.accept();
    assert_eq!(slot.reply("906C0000011000"), "460000009100");
    assert_eq!(slot.reply(GET_VALUE), "91F0");
}

#[test]
fn an_order_that_is_none_is_refused() {
    let folder = Folder::new("orders");
    let limits = ORDER.replace("00000000E8030000", "E803000000000000");
    for (order, message) in [
        (
            ORDER.replace("PEEEE", "P5EEE"),
            "a rights nibble is 5 to Dh",
        ),
        (limits, "the lower limit is above the upper"),
        (
            ORDER.replace("46000000", "E9030000"),
            "the starting value is outside the limits",
        ),
        (
            ORDER.to_owned() + &"0".repeat(162) + "2000010203",
            "a file number is above 1Fh",
        ),
        (
            ORDER.to_owned() + &"0".repeat(162) + "0001020300",
            "two files have the same number",
        ),
        (ORDER[..20].to_owned(), "it has not the digits of a P line"),
        (
            format!("P{}", "0".repeat(1_000_000)),
            "it has not the digits of a P line",
        ),
        (GET_VALUE.to_owned(), "is no order"),
        (String::new(), "is no order"),
    ] {
        fs::write(folder.path("order"), order).unwrap();
        let reader = VirtualReader::new();
        let program = Program::start(&reader, &["--order", &folder.name("order")], &[REFBENCH]);
        program.assert_ends(1, message);
    }
    let reader = VirtualReader::new();
    let options = ["--order", &folder.name("nowhere")];
    Program::start(&reader, &options, &[REFBENCH]).assert_ends(1, "cannot be read");
}

#[test]
fn a_string_that_no_line_spells_is_refused_as_the_card_would() {
    let folder = Folder::new("strings");
    let reader = VirtualReader::new();
    let _program = Program::start(&reader, &["--record", &folder.name("run")], &[REFBENCH]);
    let mut slot = reader.accept();
    for length in [0, 261, 262, 512, 513, 1024, 65535] {
        assert_eq!(slot.reply(DEBIT_30), "9100");
        assert_eq!(
            slot.reply(&"90".repeat(length)),
            if length == 261 { "6A86" } else { "6700" }
        );
        // A refusal drops what is pending.
        assert_eq!(slot.reply(COMMIT), "910C");
    }
    folder.assert_plays_again("run");
}

#[test]
fn no_reader_within_ten_seconds() {
    let reader = VirtualReader::new();
    let start = Instant::now();
    let port = reader.close();
    let program = Program::start_at(port, &[], &[REFBENCH]);
    program.assert_ends(1, "no reader at port");
    let time = start.elapsed();
    assert!((10..20).contains(&time.as_secs()), "{time:?}");
}

#[test]
fn a_port_that_asks_for_nothing_is_no_reader() {
    let reader = VirtualReader::new();
    let program = Program::start(&reader, &["--wait", "1"], &[REFBENCH]);
    let _silent = reader.accept();
    program.assert_ends(1, "no reader at port");

    let reader = VirtualReader::new();
    let program = Program::start(&reader, &["--wait", "1"], &[REFBENCH]);
    let until = Instant::now() + Duration::from_secs(2);
    while Instant::now() < until {
        drop(reader.accept_before(until));
    }
    program.assert_ends(1, "no reader at port");
}

#[test]
fn a_cut_takes_the_power_and_the_card_comes_back() {
    let folder = Folder::new("cut");
    let reader = VirtualReader::new();
    let options = ["--wait", "3", "--record", &folder.name("run")];
    let program = Program::start(&reader, &options, &[REFBENCH]);
    let mut slot = reader.accept();
    assert_eq!(slot.reply(DEBIT_30), "9100");
    assert_eq!(slot.reply(COMMIT), "9100");
    // Closed between two messages, within the length, within a message.
    for begun in [&[][..], &[0x00], &[0x00, 0x07, 0x90, 0x6C]] {
        assert_eq!(slot.reply(DEBIT_30), "9100");
        slot.send_raw(begun);
        drop(slot);
        slot = reader.accept();
        assert_eq!(slot.reply(COMMIT), "910C");
        assert_eq!(slot.reply(GET_VALUE), "460000009100");
    }
    // A message that stays half is a cut too.
    assert_eq!(slot.reply(DEBIT_30), "9100");
    slot.send_raw(&[0x00]);
    let mut again = reader.accept();
    assert_eq!(again.reply(COMMIT), "910C");
    drop(again);
    reader.close();
    program.assert_ends(0, "no reader any more; 13 APDUs answered");
    folder.assert_plays_again("run");
}

#[test]
fn a_bench_that_dies_is_told_of_and_the_recording_stays_whole() {
    let folder = Folder::new("dies");
    let reader = VirtualReader::new();
    let options = ["--record", &folder.name("run")];
    let program = Program::start(&reader, &options, &[&faulty(), "crash"]);
    let mut slot = reader.accept();
    for _ in 0..10 {
        assert_eq!(slot.reply(GET_VALUE), "640000009100");
    }
    slot.send_apdu(DEBIT_30);
    let message = format!("the bench ended (exit status: 9) before it answered \"{DEBIT_30}\"");
    program.assert_ends(1, &message);
    assert_eq!(folder.lines("run.txt").len(), 10);
    assert!(slot.is_closed());
    folder.assert_plays_again("run");
}

#[test]
fn a_bench_that_answers_wrongly_or_not_at_all_is_told_of() {
    for (script, message) in [
        (
            "exec sleep 60",
            "gave no answer to \"906C0000010300\" within 2 seconds",
        ),
        ("exec <&- >&-; exec sleep 60", "the bench ended"),
        ("exit 3", "the bench ended (exit status: 3)"),
        ("read a; printf 9100", "the bench ended (exit status: 0)"),
        ("exec cat /dev/zero", "the bench ended"),
        (
            "while read a; do echo '?'; done",
            "the bench answered \"?\" to",
        ),
        (
            "while read a; do echo '!5'; done",
            "the bench answered \"!5\" to",
        ),
        (
            "while read a; do echo 91; done",
            "the bench answered \"91\" to",
        ),
        ("while read a; do echo; done", "the bench answered \"\" to"),
    ] {
        let reader = VirtualReader::new();
        let program = Program::start(&reader, &["--wait", "2"], &["sh", "-c", script]);
        let mut slot = reader.accept();
        slot.send_apdu(GET_VALUE);
        program.assert_ends(1, message);
        assert!(slot.is_closed());
    }
    let reader = VirtualReader::new();
    let program = Program::start(&reader, &[], &["/nonexistent/bench"]);
    program.assert_ends(1, "the bench cannot be started");
}

#[test]
fn a_recording_is_not_written_over() {
    let folder = Folder::new("over");
    for (there, other) in [("run.txt", "run.out"), ("run.out", "run.txt")] {
        fs::write(folder.path(there), "an older one").unwrap();
        let reader = VirtualReader::new();
        let program = Program::start(&reader, &["--record", &folder.name("run")], &[REFBENCH]);
        program.assert_ends(1, &format!("{} cannot be written", folder.name(there)));
        assert_eq!(fs::read(folder.path(there)).unwrap(), b"an older one");
        assert!(!folder.path(other).exists());
        fs::remove_file(folder.path(there)).unwrap();
    }
    let reader = VirtualReader::new();
    let program = Program::start(&reader, &["--record", &folder.name("no/run")], &[REFBENCH]);
    program.assert_ends(1, "cannot be written");
}

#[test]
fn a_recording_that_cannot_go_on_stays_whole() {
    // Files of a few hundred bytes at most, as on a disk that is full.
    let limited = "trap '' XFSZ; ulimit -f 1; exec \"$@\"";
    let folder = Folder::new("full");
    // The lines are longer than the answers, and then the other way round.
    for (name, frame) in [("run.txt", GET_VALUE), ("read.out", READ_32)] {
        let record = folder.name(name.split('.').next().unwrap());
        let reader = VirtualReader::new();
        let program = Program::start_by(
            &["sh", "-c", limited, "sh"],
            reader.port(),
            &["--record", &record],
            &[REFBENCH],
        );
        let mut slot = reader.accept();
        let mut answered = 0;
        while answered < 1000 && slot.try_reply(frame).is_some() {
            answered += 1;
        }
        program.assert_ends(1, &format!("{} cannot be written", folder.name(name)));
        assert!(answered > 5);
        for ending in ["txt", "out"] {
            assert_eq!(folder.lines(&format!("{record}.{ending}")).len(), answered);
        }
        folder.assert_plays_again(&record);
    }
}

#[test]
fn people_see_a_line_an_apdu() {
    let reader = VirtualReader::new();
    let program = Program::start(&reader, &["--wait", "3"], &[REFBENCH]);
    let mut slot = reader.accept();
    slot.send(&[0x01]);
    slot.reply(GET_VALUE);
    slot.reply(COMMIT);
    drop(slot);
    reader.close();
    program.assert_ends(
        0,
        "        power-up\n     1  GetValue: 9100, done\n     2  CommitTransaction: 910C, nothing pending\n",
    );
}

#[test]
fn nobody_has_to_watch() {
    let reader = VirtualReader::new();
    let mut program = Program::start(&reader, &[], &[REFBENCH]);
    program.look_away();
    let mut slot = reader.accept();
    for _ in 0..10 {
        assert_eq!(slot.reply(GET_VALUE), "640000009100");
    }
}

#[test]
fn wrong_options_are_named() {
    let reader = VirtualReader::new();
    for (options, message) in [
        (&["--wrong"][..], "unknown option --wrong"),
        (&["--record"], "--record needs something behind it"),
        (&["--order"], "--order needs something behind it"),
        (
            &["--port", "70000"],
            "--port needs a number from 1 to 65535",
        ),
        (&["--wait", "0"], "--wait needs a number from 1 to 65535"),
    ] {
        Program::start(&reader, options, &[REFBENCH]).assert_ends(2, message);
    }
    Program::start(&reader, &[], &[]).assert_ends(2, "no program given");
}
