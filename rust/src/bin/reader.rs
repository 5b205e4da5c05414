//! The card in a virtual PC/SC reader.

#![forbid(unsafe_code)]

use card_reference::bench::LONGEST_LINE;
use card_reference::reader::held::Held;
use card_reference::reader::recording::Recording;
use card_reference::reader::{serve, show, vpcd, Card, PATIENCE};
use std::ffi::OsString;
use std::fs::File;
use std::io::{self, BufRead, BufReader, Read};
use std::process::ExitCode;
use std::time::Duration;

const HELP: &str = "\
reader: a bench program's card in the virtual reader of vsmartcard (vpcd)

Usage: reader [OPTIONS] -- PROGRAM [ARGUMENTS...]

Starts PROGRAM, a bench, connects to the virtual reader on this machine and
hands each APDU that a PC/SC program sends to the card. Power off, power on, a
reset and a cut connection are power-ups. Each first part of an authentication
gets a fresh random number and identifier. Shows an APDU a line on standard
error.

Options:
  --record NAME  write NAME.txt, the lines as the bench was sent them, and
                 NAME.out, its answers; neither may be there yet
  --order FILE   personalise the card by the first line of FILE, a P line of
                 the bench
  --port N       the port of the reader on this machine; 35963 if not given
  --wait N       seconds to wait for a reader, and for an answer of PROGRAM; 10
                 if not given
  --help         this text

It ends when there is no reader for that long. Exit status: 0 if a reader was
there before, 1 if none was or if bench, order or recording failed, 2 if it was
started wrongly.
";

struct Options {
    record: Option<OsString>,
    order: Option<OsString>,
    port: u16,
    patience: Duration,
    program: Vec<OsString>,
}

/// A number from 1 to 65535.
fn number(name: &str, value: OsString) -> Result<u16, String> {
    value
        .to_str()
        .and_then(|text| text.parse().ok())
        .filter(|&number| number > 0)
        .ok_or_else(|| format!("{name} needs a number from 1 to 65535"))
}

fn parse(mut arguments: impl Iterator<Item = OsString>) -> Result<Option<Options>, String> {
    let mut options = Options {
        record: None,
        order: None,
        port: vpcd::PORT,
        patience: PATIENCE,
        program: Vec::new(),
    };
    while let Some(argument) = arguments.next() {
        let name = argument.to_string_lossy().into_owned();
        let mut value = || {
            arguments
                .next()
                .filter(|value| value != "--" && !value.is_empty())
                .ok_or_else(|| format!("{name} needs something behind it"))
        };
        match name.as_str() {
            "--help" | "-h" => return Ok(None),
            "--record" => options.record = Some(value()?),
            "--order" => options.order = Some(value()?),
            "--port" => options.port = number(&name, value()?)?,
            "--wait" => options.patience = Duration::from_secs(number(&name, value()?)?.into()),
            "--" => {
                options.program = arguments.collect();
                break;
            }
            _ => return Err(format!("unknown option {name}")),
        }
    }
    if options.program.is_empty() {
        return Err("no program given after --".to_owned());
    }
    Ok(Some(options))
}

/// The first line of a file, without its LF, which has to be an order.
fn order_in(file: &OsString) -> Result<Vec<u8>, String> {
    let name = file.to_string_lossy();
    let mut line = Vec::new();
    // One character more than a line may have, so that a longer one is seen.
    File::open(file)
        .and_then(|file| {
            BufReader::new(file.take(LONGEST_LINE as u64 + 1)).read_until(b'\n', &mut line)
        })
        .map_err(|error| format!("the order {name} cannot be read: {error}"))?;
    if line.last() == Some(&b'\n') {
        line.pop();
    }
    if line.first() == Some(&b'P') {
        Ok(line)
    } else {
        Err(format!("the first line of {name} is no order: no P line"))
    }
}

fn run(options: &Options) -> Result<u64, String> {
    let order = options.order.as_ref().map(order_in).transpose()?;
    let bench = Held::start(&options.program, options.patience)
        .map_err(|error: io::Error| format!("the bench cannot be started: {error}"))?;
    let recording = options
        .record
        .as_deref()
        .map(Recording::create)
        .transpose()?;
    let mut card = Card::new(bench, recording)?;
    if let Some(order) = order {
        card.personalise(&order)?;
    }
    serve(&mut card, options.port, options.patience)
}

fn main() -> ExitCode {
    let options = match parse(std::env::args_os().skip(1)) {
        Ok(Some(options)) => options,
        Ok(None) => {
            print!("{HELP}");
            return ExitCode::SUCCESS;
        }
        Err(message) => {
            show(&format!("reader: {message}\n\n{HELP}"));
            return ExitCode::from(2);
        }
    };
    match run(&options) {
        Ok(answered) => {
            show(&format!("no reader any more; {answered} APDUs answered"));
            ExitCode::SUCCESS
        }
        Err(message) => {
            show(&format!("reader: {message}"));
            ExitCode::FAILURE
        }
    }
}
