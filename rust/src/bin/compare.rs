//! Compares another bench program with the reference model.

#![forbid(unsafe_code)]

use card_reference::bench;
use card_reference::child;
use card_reference::frames::{join, Script};
use card_reference::scripts::{Writer, ENDS};
use card_reference::terminal::{resealed, with_seals, SealedLine};
use std::ffi::OsString;
use std::io;
use std::process::ExitCode;
use std::time::Instant;

const HELP: &str = "\
compare: runs a bench program and the reference model on the same scripts

Usage: compare [OPTIONS] -- PROGRAM [ARGUMENTS...]

Generates scripts of bench lines, runs PROGRAM on each as a new child process
(script on standard input, answers from standard output), and compares every
answer line, its LF included, with the reference model's. PROGRAM may be an
emulator with the real program among its arguments.

First come scripts of all sorts of lines, a quarter of them with chains, and many
on cards whose files have numbers of their own, then some that play a session of
AuthenticateEV2First to the end of its command counter, each with another end.

Options:
  --events N   run at least N events in the first: commands, frames of chains,
               session changes and power-ups (personalisations, R, N, B, L and
               ? lines don't count); 1350000 if not given
  --ends N     run so many of the others, some 65,550 events each and more with
               chains; 21 if not given, which is one for each end
  --seed S     the seed of the scripts, a decimal number; 1 if not given
  --lines L    lines of one of the first scripts, about; 4000 if not given
  --stop       stop at the first script with a difference
  --script S   write the first script of this number (from 1) to standard
               output and run nothing
  --end S      the same for one of the others
  --help       this text

Prints the numbers of events and of differing answer lines to standard output,
and the first difference shrunk to a short script, with MACs and second parts
made anew where lines before them went. Progress goes to standard error. Exit status: 0 if no answer differs and every child ended with status 0,
1 if not, 2 if the comparison could not be made.
";

struct Options {
    ends: u64,
    events: u64,
    seed: u64,
    lines: usize,
    stop: bool,
    script: Option<u64>,
    end: Option<u64>,
    program: Vec<OsString>,
}

fn parse(arguments: impl Iterator<Item = OsString>) -> Result<Option<Options>, String> {
    let mut options = Options {
        ends: ENDS,
        events: 1_350_000,
        seed: 1,
        lines: 4000,
        stop: false,
        script: None,
        end: None,
        program: Vec::new(),
    };
    let mut arguments = arguments;
    while let Some(argument) = arguments.next() {
        let name = argument
            .to_str()
            .ok_or("an option that is not text")?
            .to_owned();
        let mut number = || -> Result<u64, String> {
            arguments
                .next()
                .and_then(|text| text.to_str()?.replace('_', "").parse().ok())
                .ok_or_else(|| format!("{name} needs a number"))
        };
        match name.as_str() {
            "--help" | "-h" => return Ok(None),
            "--ends" => options.ends = number()?,
            "--events" => options.events = number()?,
            "--seed" => options.seed = number()?,
            "--lines" => options.lines = number()?.max(1) as usize,
            "--script" => options.script = Some(number()?.max(1)),
            "--end" => options.end = Some(number()?.max(1)),
            "--stop" => options.stop = true,
            "--" => {
                options.program = arguments.collect();
                break;
            }
            _ => return Err(format!("unknown option {name}")),
        }
    }
    if options.program.is_empty() && options.script.or(options.end).is_none() {
        return Err("no program given after --".to_owned());
    }
    Ok(Some(options))
}

/// Answer lines with their LF.
fn answer_lines(output: &[u8]) -> Vec<&[u8]> {
    output.split_inclusive(|&byte| byte == b'\n').collect()
}

/// The places of the lines whose answers differ, and how the child ended if
/// not well.
struct Outcome {
    differing: Vec<usize>,
    ended: Option<String>,
}

fn compare(program: &[OsString], script: &[u8]) -> io::Result<Outcome> {
    let run = child::run(program, script)?;
    let expected = bench::answers(script);
    let ended = (!run.status.success()).then(|| run.status.to_string());
    if run.output == expected {
        return Ok(Outcome {
            differing: Vec::new(),
            ended,
        });
    }
    let ours = answer_lines(&expected);
    let theirs = answer_lines(&run.output);
    let differing = (0..ours.len().max(theirs.len()))
        .filter(|&at| ours.get(at) != theirs.get(at))
        .collect();
    Ok(Outcome { differing, ended })
}

/// How many lines are run at most to make a script short. Scripts of some
/// thousand lines need far less.
const SHRINK_LINES: usize = 10_000_000;

/// A script that is being made short.
struct Shrinking<'a> {
    program: &'a [OsString],
    last_lf: bool,
    runs: u32,
    lines_left: usize,
}

impl Shrinking<'_> {
    /// Runs the lines, sealed anew: the place of the first difference. A child
    /// that ended badly may owe answers to lines before the one it ended on, so
    /// that the place is then the last one.
    fn first_difference(&mut self, lines: &[SealedLine]) -> io::Result<Option<usize>> {
        self.runs += 1;
        self.lines_left = self.lines_left.saturating_sub(lines.len());
        let outcome = compare(self.program, &join(&resealed(lines), self.last_lf))?;
        let first = outcome.differing.first().copied();
        Ok(match outcome.ended {
            Some(_) => first.and(lines.len().checked_sub(1)),
            None => first,
        })
    }

    /// Takes pieces of this many lines out as long as a difference stays; false
    /// if nothing could go.
    fn take_out(&mut self, lines: &mut Vec<SealedLine>, piece: usize) -> io::Result<bool> {
        let mut shrunk = false;
        // From the end on, since what a difference needs is often near it.
        let mut end = lines.len();
        while end > 0 && self.lines_left > 0 {
            let start = end.saturating_sub(piece);
            let mut candidate = lines[..start].to_vec();
            candidate.extend_from_slice(&lines[end..]);
            if !candidate.is_empty() {
                if let Some(at) = self.first_difference(&candidate)? {
                    if self.last_lf {
                        candidate.truncate(at + 1);
                    }
                    *lines = candidate;
                    shrunk = true;
                }
            }
            end = start.min(lines.len());
        }
        Ok(shrunk)
    }
}

/// Makes a script with a difference short: cuts it after the first difference
/// and takes out ever smaller pieces as long as a difference stays, to the
/// point where no single line can go, or where it took too long.
fn shrink(program: &[OsString], script: &Script) -> io::Result<(Vec<Vec<u8>>, bool, u32)> {
    let mut shrinking = Shrinking {
        program,
        last_lf: true,
        runs: 0,
        lines_left: SHRINK_LINES,
    };
    let mut lines = with_seals(&script.lines);
    match shrinking.first_difference(&lines)? {
        Some(at) => lines.truncate(at + 1),
        // The difference has to do with the end of the script.
        None => shrinking.last_lf = false,
    }
    let mut piece = (lines.len() / 2).max(1);
    while shrinking.lines_left > 0 {
        let shrunk = shrinking.take_out(&mut lines, piece)?;
        if piece > 1 {
            piece = (piece / 2).max(1);
        } else if !shrunk {
            break;
        }
    }
    Ok((resealed(&lines), shrinking.last_lf, shrinking.runs))
}

/// A line without its LF, with escapes for what is not plain, cut if long.
fn escaped(line: &[u8]) -> String {
    let mut text = line.escape_ascii().to_string();
    if text.len() > 2200 {
        text.truncate(2200);
        text.push_str("...");
    }
    text
}

/// An answer line as it is shown.
fn shown(answer: Option<&&[u8]>) -> String {
    match answer {
        None => "(no answer)".to_owned(),
        Some(answer) => match answer.strip_suffix(b"\n") {
            Some(text) => escaped(text),
            None => escaped(answer) + " (no LF)",
        },
    }
}

/// The most lines of a script that are shown.
const SHOWN_LINES: usize = 200;

/// Shrinks the script and prints what is left of it, with both answers.
fn report(program: &[OsString], script: &Script) -> io::Result<()> {
    eprintln!("compare: shrinking the first difference");
    let (lines, last_lf, runs) = shrink(program, script)?;
    let script = join(&lines, last_lf);
    let expected = bench::answers(&script);
    let run = child::run(program, &script)?;
    if run.output == expected {
        println!("the first difference did not come back when its script was run again");
        return Ok(());
    }
    let ours = answer_lines(&expected);
    let theirs = answer_lines(&run.output);
    let note = if last_lf {
        ""
    } else {
        " (the last line lacks its LF)"
    };
    println!(
        "first difference, {} lines after {runs} runs{note}:",
        lines.len()
    );
    let end = lines.len().max(theirs.len());
    let start = end.saturating_sub(SHOWN_LINES);
    if start > 0 {
        println!("  {start} lines that are not shown");
    }
    for at in start..end {
        match lines.get(at) {
            Some(line) => println!("  line      {}", escaped(line)),
            None => println!("  no line"),
        }
        if ours.get(at) == theirs.get(at) {
            println!("    both      {}", shown(ours.get(at)));
        } else {
            println!("    reference {}", shown(ours.get(at)));
            println!("    program   {}", shown(theirs.get(at)));
        }
    }
    Ok(())
}

/// A comparison and what it has found so far.
struct Comparison<'a> {
    options: &'a Options,
    start: Instant,
    scripts: u64,
    differing: usize,
    badly_ended: u64,
    /// The first script with a difference.
    first: Option<Script>,
}

impl Comparison<'_> {
    /// Runs one script; false if no other is to follow.
    fn play(&mut self, script: Script, name: &str) -> io::Result<bool> {
        self.scripts += 1;
        let outcome = compare(&self.options.program, &script.bytes())?;
        self.differing += outcome.differing.len();
        if let Some(how) = outcome.ended {
            self.badly_ended += 1;
            eprintln!("compare: {name}: the program ended with {how}");
        }
        if let (None, Some(at)) = (&self.first, outcome.differing.first()) {
            eprintln!("compare: {name}: first difference at line {}", at + 1);
            self.first = Some(script);
        }
        Ok(!self.options.stop || self.first.is_none())
    }

    /// Runs all scripts, up to the first difference if that is asked for.
    fn play_all(&mut self, writer: &mut Writer) -> io::Result<()> {
        let mut number = 0;
        while writer.tally.events() < self.options.events {
            number += 1;
            let script = writer.script(self.options.lines);
            if !self.play(script, &format!("script {number}"))? {
                return Ok(());
            }
            if number % 32 == 0 {
                self.tell_progress(writer);
            }
        }
        for end in 1..=self.options.ends {
            let script = writer.end_script(self.options.seed, end);
            if !self.play(script, &format!("end {end}"))? {
                return Ok(());
            }
        }
        self.tell_progress(writer);
        Ok(())
    }

    fn tell_progress(&self, writer: &Writer) {
        eprintln!(
            "compare: {} events, {} differing lines, {:.1} s",
            writer.tally.events(),
            self.differing,
            self.start.elapsed().as_secs_f64()
        );
    }
}

fn run(options: &Options) -> io::Result<bool> {
    let mut writer = Writer::new(options.seed);
    let mut comparison = Comparison {
        options,
        start: Instant::now(),
        scripts: 0,
        differing: 0,
        badly_ended: 0,
        first: None,
    };
    comparison.play_all(&mut writer)?;
    println!("{}", writer.tally);
    println!("scripts {}, seed {}", comparison.scripts, options.seed);
    if comparison.badly_ended > 0 {
        println!("children that ended badly {}", comparison.badly_ended);
    }
    println!("events {}", writer.tally.events());
    println!("differing lines {}", comparison.differing);
    if let Some(script) = &comparison.first {
        report(&options.program, script)?;
    }
    Ok(comparison.differing == 0 && comparison.badly_ended == 0)
}

/// The script of a number, and of those that play to the end of the counter if
/// `is_end`.
fn script(options: &Options, number: u64, is_end: bool) -> Script {
    let mut writer = Writer::new(options.seed);
    if is_end {
        return writer.end_script(options.seed, number);
    }
    for _ in 1..number {
        writer.script(options.lines);
    }
    writer.script(options.lines)
}

fn write_out(script: &Script) -> io::Result<bool> {
    io::Write::write_all(&mut io::stdout(), &script.bytes())?;
    Ok(true)
}

fn main() -> ExitCode {
    let options = match parse(std::env::args_os().skip(1)) {
        Ok(Some(options)) => options,
        Ok(None) => {
            print!("{HELP}");
            return ExitCode::SUCCESS;
        }
        Err(message) => {
            eprint!("compare: {message}\n\n{HELP}");
            return ExitCode::from(2);
        }
    };
    let outcome = match (options.script, options.end) {
        (Some(number), _) => write_out(&script(&options, number, false)),
        (None, Some(number)) => write_out(&script(&options, number, true)),
        (None, None) => run(&options),
    };
    match outcome {
        Ok(true) => ExitCode::SUCCESS,
        Ok(false) => ExitCode::FAILURE,
        Err(error) => {
            eprintln!("compare: {error}");
            ExitCode::from(2)
        }
    }
}
