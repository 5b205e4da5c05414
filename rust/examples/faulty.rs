//! A bench program with one fault, for testing `compare` and `wear`: a command
//! answered 91BE, or the status given as an argument, leaves the card as it was,
//! instead of ending the session and dropping pending work. With the argument
//! `crash`, it ends after ten lines instead, each answered before the next is
//! read. With the argument `moves`, it answers `L` as if a commit with a new entry
//! stored all entries that the log then has.

#![forbid(unsafe_code)]

use card_reference::bench::Bench;
use card_reference::model::ENTRY_SIZE;
use std::io::{self, BufRead, Write};

fn main() -> io::Result<()> {
    let fault = std::env::args().nth(1).unwrap_or_else(|| "91BE".to_owned());
    let crash = fault == "crash";
    let moves = fault == "moves";
    let kept = format!("{fault}\n");
    let mut output = io::BufWriter::new(io::stdout().lock());
    let mut bench = Bench::new();
    let mut answer = Vec::new();
    for (number, line) in io::stdin().lock().split(b'\n').enumerate() {
        if crash && number == 10 {
            std::process::exit(9);
        }
        let before = bench.clone();
        answer.clear();
        bench.line(&line?, &mut answer);
        if moves && answer == b"16\n" {
            let stored = ENTRY_SIZE * bench.card().entries().count();
            answer = format!("{stored}\n").into_bytes();
        }
        output.write_all(&answer)?;
        if crash {
            output.flush()?;
        }
        if answer == kept.as_bytes() {
            bench = before;
        }
    }
    output.flush()
}
