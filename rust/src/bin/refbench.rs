//! The reference model as a bench program: lines in, answers out.
//!
//! It has a C main and not Rust's: the start of Rust's runtime reads
//! /proc/self/maps, on which the emulator that runs x86-64 programs on Arm ends.

#![no_main]

use card_reference::bench::Stream;
use std::io::{self, ErrorKind, Read, Write};

const HELP: &str = "\
refbench: the reference model as a bench program

Usage: refbench < SCRIPT > ANSWERS

Reads bench lines from standard input and writes one answer line for each to
standard output. Lines end with LF; the last one may lack it. Input is read in
blocks, and the answers to all complete lines are written before the next block
is read.

  hex digits (even number, at least two)  a command; prints the reply, or !5
  C and an even number of hex digits, at  opens a chain with that frame; prints
  least two                               the reply (none if accepted), or !5
  D and an even number of hex digits, or  a frame of file bytes; prints the reply
  none                                    (none before the last), or !5
  an empty line                           a power-up; prints an empty line
  P and 46, 208 or 218 hex digits         personalises; prints !0, or !1, !2,
                                          !3, !7 or !8
  S and 2 hex digits, or S alone          a session change; prints !0 or !4
  R and 4 hex digits (at most 0200)       length of the reply buffer; prints !0
  N and 40 hex digits                     the card's random number and
                                          transaction identifier; prints !0
  B                                       prints the books
  L                                       prints the slot bytes that the last
                                          event stored, in decimal
  any other, or over 1,024 characters     prints ?
";

/// Answers standard input to its end.
fn run() -> io::Result<()> {
    let mut input = io::stdin().lock();
    let mut output = io::stdout().lock();
    let mut stream = Stream::new();
    let mut block = vec![0; 1 << 16];
    let mut answers = Vec::new();
    loop {
        answers.clear();
        let length = match input.read(&mut block) {
            Ok(length) => length,
            Err(error) if error.kind() == ErrorKind::Interrupted => continue,
            Err(error) => return Err(error),
        };
        if length == 0 {
            stream.finish(&mut answers);
        } else {
            stream.feed(&block[..length], &mut answers);
        }
        output.write_all(&answers)?;
        output.flush()?;
        if length == 0 {
            return Ok(());
        }
    }
}

#[no_mangle]
pub extern "C" fn main() -> i32 {
    let mut arguments = std::env::args_os().skip(1);
    if let Some(argument) = arguments.next() {
        return if argument == "--help" || argument == "-h" {
            print!("{HELP}");
            0
        } else {
            eprint!("refbench: takes no arguments\n\n{HELP}");
            2
        };
    }
    match run() {
        Ok(()) => 0,
        Err(error) => {
            eprintln!("refbench: {error}");
            2
        }
    }
}
