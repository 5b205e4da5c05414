//! Times two bench programs on the same scripts.

#![forbid(unsafe_code)]

use card_reference::timing::{speed_script, SpeedKind};
use std::ffi::OsString;
use std::fs::{self, File};
use std::io;
use std::path::{Path, PathBuf};
use std::process::{Command, ExitCode, Stdio};
use std::time::{Duration, Instant};

const HELP: &str = "\
speed: events per second of two bench programs

Usage: speed [OPTIONS] --ours PROGRAM [ARGUMENTS...] --plain PROGRAM [ARGUMENTS...]

Everything after --ours up to --plain is the first command line, everything
after --plain the second one. Each may start with an emulator:

  speed --ours qemu-x86_64 ./bench --plain qemu-x86_64 ./refbench

Seven scripts are written: reads; values (value operations with commits); logs
(log operations with commits); refusals (thirteen places of the order of
checks); chains (an opening and two file frames of 120 bytes by turns);
mac-values (value operations with MACs); mac-reads (reads of 248 bytes with
MACs). Each program is run on each script as a child process, standard input
from the file. First the outputs of both are written to files and must be
equal. Then follow the timed runs, the two programs by turns, standard output
to /dev/null; the best time of each counts, from before the start of the child
to its end, with nothing subtracted.

Options, which come before --ours:
  --lines N    lines of each script, but a tenth of it for chains and for
               mac-values and a fiftieth for mac-reads; 200000 if not given
               (give more where a run takes only some hundredths of a second)
  --runs N     timed runs of each program on each script; 5 if not given
  --seed S     the seed of the scripts; 1 if not given
  --dir D      the folder of scripts and outputs, made if missing and kept;
               if not given, a new temporary folder that is removed
  --help       this text

Prints for each kind the events per second of both programs and their ratio,
ours / plain. Exit status: 0 if all was timed, 1 if outputs differ, 2 if a
program could not be run.
";

struct Options {
    lines: usize,
    runs: u32,
    seed: u64,
    dir: Option<PathBuf>,
    ours: Vec<OsString>,
    plain: Vec<OsString>,
}

fn parse(arguments: impl Iterator<Item = OsString>) -> Result<Option<Options>, String> {
    let mut options = Options {
        lines: 200_000,
        runs: 5,
        seed: 1,
        dir: None,
        ours: Vec::new(),
        plain: Vec::new(),
    };
    let mut arguments = arguments;
    while let Some(argument) = arguments.next() {
        let name = argument
            .to_str()
            .ok_or("an option that is not text")?
            .to_owned();
        let mut number = || -> Result<u64, String> {
            arguments
                .next()
                .and_then(|text| text.to_str()?.replace('_', "").parse().ok())
                .ok_or_else(|| format!("{name} needs a number"))
        };
        match name.as_str() {
            "--help" | "-h" => return Ok(None),
            "--lines" => options.lines = number()?.max(20) as usize,
            "--runs" => options.runs = number()?.clamp(1, 1000) as u32,
            "--seed" => options.seed = number()?,
            "--dir" => {
                options.dir = Some(arguments.next().ok_or("--dir needs a folder")?.into());
            }
            "--ours" => {
                let rest: Vec<OsString> = arguments.collect();
                let mut parts = rest.splitn(2, |argument| argument == "--plain");
                options.ours = parts.next().unwrap_or_default().to_vec();
                options.plain = parts.next().unwrap_or_default().to_vec();
                break;
            }
            _ => return Err(format!("unknown option {name}")),
        }
    }
    if options.ours.is_empty() || options.plain.is_empty() {
        return Err("two programs are needed: --ours PROGRAM.. --plain PROGRAM..".to_owned());
    }
    Ok(Some(options))
}

/// Runs a program from a script to an output: the time it took.
fn run(program: &[OsString], script: &Path, output: Stdio) -> io::Result<Duration> {
    let input = File::open(script)?;
    let start = Instant::now();
    let status = Command::new(&program[0])
        .args(&program[1..])
        .stdin(input)
        .stdout(output)
        .status()?;
    let time = start.elapsed();
    if status.success() {
        Ok(time)
    } else {
        let message = format!("{} ended with {status}", program[0].to_string_lossy());
        Err(io::Error::new(io::ErrorKind::Other, message))
    }
}

/// Times both programs on one kind of script and prints the figures; false if
/// their outputs differ.
fn time_kind(options: &Options, dir: &Path, kind: SpeedKind) -> io::Result<bool> {
    let script = dir.join(format!("{}.script", kind.name()));
    let text = speed_script(kind, kind.lines(options.lines), options.seed);
    let events = text.lines.len();
    fs::write(&script, text.bytes())?;

    let mut outputs = Vec::new();
    for (name, program) in [("ours", &options.ours), ("plain", &options.plain)] {
        let path = dir.join(format!("{}.{name}", kind.name()));
        run(program, &script, File::create(&path)?.into())?;
        outputs.push(fs::read(&path)?);
    }
    let answers = outputs[1].iter().filter(|&&byte| byte == b'\n').count();
    if outputs[0] != outputs[1] || answers != events {
        println!("{:<10} the outputs of the two programs differ", kind.name());
        return Ok(false);
    }

    let mut best = [Duration::MAX; 2];
    for _ in 0..options.runs {
        for (best, program) in best.iter_mut().zip([&options.ours, &options.plain]) {
            *best = run(program, &script, Stdio::null())?.min(*best);
        }
    }
    let rates = best.map(|time| events as f64 / time.as_secs_f64());
    println!(
        "{:<10} {events:>8} {:>12.0} {:>12.0} {:>8.3}",
        kind.name(),
        rates[0],
        rates[1],
        rates[0] / rates[1]
    );
    Ok(true)
}

fn time_all(options: &Options) -> io::Result<bool> {
    let (dir, temporary) = match &options.dir {
        Some(dir) => (dir.clone(), false),
        None => {
            let name = format!("card-speed-{}", std::process::id());
            (std::env::temp_dir().join(name), true)
        }
    };
    fs::create_dir_all(&dir)?;
    println!(
        "{:<10} {:>8} {:>12} {:>12} {:>8}",
        "script", "events", "ours/s", "plain/s", "ratio"
    );
    let mut equal = true;
    for kind in SpeedKind::ALL {
        equal &= time_kind(options, &dir, kind)?;
    }
    if temporary {
        fs::remove_dir_all(&dir)?;
    }
    Ok(equal)
}

fn main() -> ExitCode {
    let options = match parse(std::env::args_os().skip(1)) {
        Ok(Some(options)) => options,
        Ok(None) => {
            print!("{HELP}");
            return ExitCode::SUCCESS;
        }
        Err(message) => {
            eprint!("speed: {message}\n\n{HELP}");
            return ExitCode::from(2);
        }
    };
    match time_all(&options) {
        Ok(true) => ExitCode::SUCCESS,
        Ok(false) => ExitCode::FAILURE,
        Err(error) => {
            eprintln!("speed: {error}");
            ExitCode::from(2)
        }
    }
}
