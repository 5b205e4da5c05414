//! Counts how often a bench program stores each slot of the log.

#![forbid(unsafe_code)]

use card_reference::child;
use card_reference::ring::bound;
use card_reference::wear::{judge, History};
use std::ffi::OsString;
use std::io;
use std::process::ExitCode;

const HELP: &str = "\
wear: how often a bench program stores each slot of the log

Usage: wear [OPTIONS] -- PROGRAM [ARGUMENTS...]

Runs PROGRAM as a child process on one long history of a card: commits of
entries, and between them clears, commits of the value alone, entries that are
dropped, and reads of the log. An L line behind each asks what was stored. The
program does not name the slot: slots are stored by turns, also after a clear,
so that the stores so far tell it. PROGRAM may be an emulator with the real
program among its arguments.

Options:
  --entries N  entries to commit; 100000 if not given
  --seed S     the seed of the history, a decimal number; 1 if not given
  --help       this text

Prints the stores of each slot beside the most there may be, the committed
entries divided by 4 and rounded up, and the number of differing answers with
the first of them. Exit status: 0 if no slot is above it, no answer differs and
the child ended with status 0, 1 if not, 2 if it could not be run.
";

struct Options {
    entries: u64,
    seed: u64,
    program: Vec<OsString>,
}

fn parse(arguments: impl Iterator<Item = OsString>) -> Result<Option<Options>, String> {
    let mut options = Options {
        entries: 100_000,
        seed: 1,
        program: Vec::new(),
    };
    let mut arguments = arguments;
    while let Some(argument) = arguments.next() {
        let name = argument
            .to_str()
            .ok_or("an option that is not text")?
            .to_owned();
        let mut number = || -> Result<u64, String> {
            arguments
                .next()
                .and_then(|text| text.to_str()?.replace('_', "").parse().ok())
                .ok_or_else(|| format!("{name} needs a number"))
        };
        match name.as_str() {
            "--help" | "-h" => return Ok(None),
            "--entries" => options.entries = number()?,
            "--seed" => options.seed = number()?,
            "--" => {
                options.program = arguments.collect();
                break;
            }
            _ => return Err(format!("unknown option {name}")),
        }
    }
    if options.program.is_empty() {
        return Err("no program given after --".to_owned());
    }
    Ok(Some(options))
}

fn run(options: &Options) -> io::Result<bool> {
    let history = History::new(options.entries, options.seed);
    let run = child::run(&options.program, &history.script().bytes())?;
    let findings = judge(&history, &run.output);
    let most = bound(history.committed);
    println!(
        "entries committed {}, dropped {}, clears {}, commits of the value alone {}, seed {}",
        history.committed, history.dropped, history.clears, history.values, options.seed
    );
    println!("{:<4} {:>10} {:>10}", "slot", "stores", "at most");
    for (slot, count) in findings.stores.iter().enumerate() {
        println!("{slot:<4} {count:>10} {most:>10}");
    }
    println!("differing answers {}", findings.differing);
    if let Some(first) = &findings.first {
        let answer = first.answer.as_deref().unwrap_or("(no answer)");
        println!("first difference, line {}: {}", first.number, first.line);
        println!("  due     {}", first.due);
        println!("  program {answer}");
    }
    if !run.status.success() {
        println!("the program ended with {}", run.status);
    }
    Ok(findings.are_sound(most) && run.status.success())
}

fn main() -> ExitCode {
    let options = match parse(std::env::args_os().skip(1)) {
        Ok(Some(options)) => options,
        Ok(None) => {
            print!("{HELP}");
            return ExitCode::SUCCESS;
        }
        Err(message) => {
            eprint!("wear: {message}\n\n{HELP}");
            return ExitCode::from(2);
        }
    };
    match run(&options) {
        Ok(true) => ExitCode::SUCCESS,
        Ok(false) => ExitCode::FAILURE,
        Err(error) => {
            eprintln!("wear: {error}");
            ExitCode::from(2)
        }
    }
}
