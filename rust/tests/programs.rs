//! The programs, run as programs.

#![forbid(unsafe_code)]

use std::io::{BufRead, BufReader, Write};
use std::path::{Path, PathBuf};
use std::process::{Command, Output, Stdio};

const CHECK: &str = env!("CARGO_BIN_EXE_check");
const COMPARE: &str = env!("CARGO_BIN_EXE_compare");
const READER: &str = env!("CARGO_BIN_EXE_reader");
const REFBENCH: &str = env!("CARGO_BIN_EXE_refbench");
const SPEED: &str = env!("CARGO_BIN_EXE_speed");
const WEAR: &str = env!("CARGO_BIN_EXE_wear");

/// The example program with a fault, which `cargo test` builds too.
fn faulty() -> PathBuf {
    Path::new(COMPARE).with_file_name("examples").join("faulty")
}

fn text(output: &Output) -> String {
    String::from_utf8_lossy(&output.stdout).into_owned()
}

#[test]
fn refbench_answers_before_it_reads_on() {
    let mut child = Command::new(REFBENCH)
        .stdin(Stdio::piped())
        .stdout(Stdio::piped())
        .spawn()
        .unwrap();
    let mut to_child = child.stdin.take().unwrap();
    let mut from_child = BufReader::new(child.stdout.take().unwrap()).lines();
    for (line, answer) in [
        ("906C0000010300\n", "640000009100"),
        ("\n", ""),
        ("S0", ""),
        ("5\n", "!4"),
        ("90C7000000", ""),
    ] {
        to_child.write_all(line.as_bytes()).unwrap();
        to_child.flush().unwrap();
        if line.ends_with('\n') {
            assert_eq!(from_child.next().unwrap().unwrap(), answer);
        }
    }
    drop(to_child);
    assert_eq!(from_child.next().unwrap().unwrap(), "910C");
    assert!(from_child.next().is_none());
    assert!(child.wait().unwrap().success());
}

/// The exchange that request 06 names, and nothing else: key 0 of zeros.
#[test]
fn refbench_plays_the_published_exchange() {
    let mut child = Command::new(REFBENCH)
        .stdin(Stdio::piped())
        .stdout(Stdio::piped())
        .spawn()
        .unwrap();
    let script = "NB9E2FC789B64BF237CCCAA20EC7E6E489D00C4DF\n\
                  9071000002000000\n\
                  90AF00002035C3E05A752E0144BAC0DE51C1F22C56\
                  B34408A23D8AEA266CAB947EA8E0118D00\n";
    let mut to_child = child.stdin.take().unwrap();
    to_child.write_all(script.as_bytes()).unwrap();
    drop(to_child);
    let output = child.wait_with_output().unwrap();
    assert_eq!(
        text(&output),
        "!0\n\
         A04C124213C186F22399D33AC2A3021591AF\n\
         3FA64DB5446D1F34CD6EA311167F5E4985B89690C04A05F17FA7AB2F081206639100\n"
    );
}

/// The bench's own test, which the proved bench is held to as well.
#[test]
fn refbench_plays_the_script_of_the_bench() {
    let root = Path::new(env!("CARGO_MANIFEST_DIR")).join("..");
    let script = std::fs::read(root.join("crates/bench/stdin")).unwrap();
    let expected = std::fs::read(root.join("crates/bench/stdout")).unwrap();
    let mut child = Command::new(REFBENCH)
        .stdin(Stdio::piped())
        .stdout(Stdio::piped())
        .spawn()
        .unwrap();
    let mut to_child = child.stdin.take().unwrap();
    let writer = std::thread::spawn(move || to_child.write_all(&script).unwrap());
    let output = child.wait_with_output().unwrap();
    writer.join().unwrap();
    assert!(output.stdout == expected, "the answers differ");
}

#[test]
fn compare_finds_no_difference_in_refbench() {
    let output = Command::new(COMPARE)
        .args(["--events", "30000", "--ends", "1", "--seed", "5"])
        .args(["--", REFBENCH])
        .output()
        .unwrap();
    assert!(output.status.success(), "{}", text(&output));
    assert!(text(&output).contains("differing lines 0\n"));
}

#[test]
fn compare_finds_and_shrinks_a_difference() {
    let output = Command::new(COMPARE)
        .args(["--events", "10000", "--stop", "--"])
        .arg(faulty())
        .output()
        .unwrap();
    let text = text(&output);
    assert_eq!(output.status.code(), Some(1), "{text}");
    assert!(!text.contains("differing lines 0\n"), "{text}");
    let lines = text.matches("  line      ").count();
    assert!((2..=8).contains(&lines), "{text}");
    assert!(text.contains("both      91BE\n"), "{text}");
}

#[test]
fn compare_shrinks_a_session() {
    let output = Command::new(COMPARE)
        .args(["--events", "100000", "--ends", "0", "--stop", "--"])
        .arg(faulty())
        .arg("911E")
        .output()
        .unwrap();
    let text = text(&output);
    assert_eq!(output.status.code(), Some(1), "{text}");
    let lines = text.matches("  line      ").count();
    assert!((4..=8).contains(&lines), "{text}");
    assert!(text.contains("both      911E\n"), "{text}");
}

/// What is left needs two entries, each with its commit, and the question what
/// the second stored.
#[test]
fn compare_sees_entries_that_move() {
    let output = Command::new(COMPARE)
        .args(["--events", "100000", "--ends", "0", "--stop", "--"])
        .arg(faulty())
        .arg("moves")
        .output()
        .unwrap();
    let text = text(&output);
    assert_eq!(output.status.code(), Some(1), "{text}");
    let end = "    reference 16\n    program   32\n";
    assert!(text.ends_with(end), "{text}");
    let lines = text.matches("  line      ").count();
    assert!((5..=12).contains(&lines), "{text}");
}

#[test]
fn compare_sees_missing_answers() {
    let output = Command::new(COMPARE)
        .args(["--events", "1", "--ends", "0", "--"])
        .arg(faulty())
        .arg("crash")
        .output()
        .unwrap();
    let text = text(&output);
    assert_eq!(output.status.code(), Some(1), "{text}");
    assert!(text.contains("program   (no answer)"), "{text}");
    assert_eq!(text.matches("  line      ").count(), 11, "{text}");
}

#[test]
fn compare_needs_a_program_that_starts() {
    for arguments in [&["--"][..], &["--", "/nonexistent/bench"], &["--wrong"]] {
        let output = Command::new(COMPARE).args(arguments).output().unwrap();
        assert_eq!(output.status.code(), Some(2));
    }
}

#[test]
fn speed_times_every_kind() {
    let output = Command::new(SPEED)
        .args(["--lines", "500", "--runs", "1"])
        .args(["--ours", REFBENCH, "--plain", REFBENCH])
        .output()
        .unwrap();
    let text = text(&output);
    assert!(output.status.success(), "{text}");
    assert_eq!(text.lines().count(), 8, "{text}");
}

#[test]
fn speed_refuses_programs_that_differ() {
    let output = Command::new(SPEED)
        .args(["--lines", "500", "--runs", "1"])
        .args(["--ours", "cat", "--plain", REFBENCH])
        .output()
        .unwrap();
    assert_eq!(output.status.code(), Some(1));
}

#[test]
fn wear_counts_the_stores_of_each_slot() {
    let wear = |program: &Path, argument: &str| {
        let output = Command::new(WEAR)
            .args(["--entries", "2002", "--"])
            .arg(program)
            .args((!argument.is_empty()).then_some(argument))
            .output()
            .unwrap();
        (output.status.code(), text(&output))
    };
    let (code, sound) = wear(Path::new(REFBENCH), "");
    assert_eq!(code, Some(0), "{sound}");
    for line in ["0 501 501", "1 501 501", "2 500 501", "3 500 501"] {
        let words: Vec<&str> = line.split(' ').collect();
        let counts = |shown: &str| shown.split_whitespace().eq(words.iter().copied());
        assert!(sound.lines().any(counts), "{sound}");
    }
    assert!(sound.ends_with("differing answers 0\n"), "{sound}");
    let (code, moved) = wear(&faulty(), "moves");
    assert_eq!(code, Some(1), "{moved}");
    assert!(moved.contains("  due     16\n  program 32\n"), "{moved}");
    let (code, crashed) = wear(&faulty(), "crash");
    assert_eq!(code, Some(1), "{crashed}");
    assert!(crashed.contains("program (no answer)\n"), "{crashed}");
    assert_eq!(wear(Path::new("/nonexistent/bench"), "").0, Some(2));
}

#[test]
fn help() {
    for program in [CHECK, COMPARE, READER, REFBENCH, SPEED, WEAR] {
        let output = Command::new(program).arg("--help").output().unwrap();
        assert!(output.status.success());
        assert!(text(&output).contains("Usage:"));
    }
}
