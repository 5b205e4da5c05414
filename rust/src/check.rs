//! Trying the card with the programs of others: in a reader, and as a library.
//!
//! * [`library`]: the function that other languages call, with the examples.
//! * [`till`]: the reader, with opensc-tool and scriptor.
//! * [`pcsc`]: how those are run, and [`shown`], what they print.

pub mod library;
pub mod pcsc;
pub mod shown;
pub mod till;

use std::ffi::OsString;
use std::fs::{self, File};
use std::io;
use std::path::{Path, PathBuf};
use std::process::{Child, Command, ExitStatus, Stdio};
use std::thread;
use std::time::{Duration, Instant};

/// What a trial has at hand.
pub struct Place {
    /// The folder of the repository.
    pub root: PathBuf,
    /// A new folder for what a trial writes.
    pub folder: PathBuf,
    /// The command line that runs the bench.
    pub bench: Vec<OsString>,
}

impl Place {
    /// The command line that runs another program in the way of the bench.
    fn program(&self, path: PathBuf) -> Vec<OsString> {
        let mut program = self.bench.clone();
        program.pop();
        program.push(path.into());
        program
    }

    fn text(&self, path: &str) -> Result<Vec<u8>, String> {
        fs::read(self.root.join(path)).map_err(|error| format!("{path}: {error}"))
    }
}

/// What was tried, and what could not be.
#[derive(Default)]
pub struct Tally {
    passed: u32,
    failed: u32,
    not_tried: u32,
}

impl Tally {
    /// Counts and shows a trial.
    fn tried(&mut self, what: &str, result: Result<(), String>) {
        match result {
            Ok(()) => {
                self.passed += 1;
                println!("passed: {what}");
            }
            Err(why) => {
                self.failed += 1;
                println!("FAILED: {what}: {why}");
            }
        }
    }

    /// Counts and shows what could not be tried, and what is missing for it.
    fn not_tried(&mut self, what: &str, why: &str) {
        self.not_tried += 1;
        println!("not tried: {what}: {why}");
    }

    /// Shows the figures, last: the exit status, 0 where all was tried and
    /// passed, 3 where something is missing.
    pub fn finish(&self) -> u8 {
        let Self {
            passed,
            failed,
            not_tried,
        } = self;
        if *not_tried == 0 {
            println!("{passed} passed, {failed} failed");
        } else {
            println!("{passed} passed, {failed} failed, {not_tried} not tried");
        }
        match (failed, not_tried) {
            (0, 0) => 0,
            (0, _) => 3,
            _ => 1,
        }
    }

    /// Whether something was tried and failed.
    pub fn has_failed(&self) -> bool {
        self.failed > 0
    }
}

/// Holds what was found to what was expected, and shows the first line of both
/// that differs.
fn same(what: &str, found: &[u8], expected: &[u8]) -> Result<(), String> {
    if found == expected {
        return Ok(());
    }
    let equal = found
        .iter()
        .zip(expected)
        .take_while(|(a, b)| a == b)
        .count();
    let line = |&character: &u8| character == b'\n';
    let start = found[..equal].iter().rposition(line).map_or(0, |at| at + 1);
    let shown = |text: &[u8]| {
        let line = text[start..].split(line).next().unwrap_or_default();
        line[..line.len().min(200)].escape_ascii().to_string()
    };
    let number = found[..start].iter().filter(|c| line(c)).count() + 1;
    Err(format!(
        "{what} has \"{}\" in line {number} and not \"{}\"",
        shown(found),
        shown(expected)
    ))
}

/// A child that ends with this.
pub struct Running(Child);

impl Running {
    /// Waits for its end; none if it takes too long.
    fn wait(&mut self, patience: Duration) -> io::Result<Option<ExitStatus>> {
        let until = Instant::now() + patience;
        loop {
            let ended = self.0.try_wait()?;
            if ended.is_some() || Instant::now() > until {
                return Ok(ended);
            }
            thread::sleep(Duration::from_millis(20));
        }
    }
}

impl Drop for Running {
    fn drop(&mut self) {
        let _ = self.0.kill();
        let _ = self.0.wait();
    }
}

/// What a program wrote, and how it ended.
struct Written {
    output: Vec<u8>,
    errors: String,
    status: ExitStatus,
}

/// Runs a program on a file as its standard input, for a minute at most; what
/// it writes stands in files of the folder meanwhile.
fn run(command: &mut Command, input: &Path, folder: &Path) -> Result<Written, String> {
    let name = command.get_program().to_string_lossy().into_owned();
    let [output, errors] = ["output", "errors"].map(|name| folder.join(name));
    let result = || -> io::Result<Option<Written>> {
        let child = command
            .stdin(File::open(input)?)
            .stdout(File::create(&output)?)
            .stderr(File::create(&errors)?)
            .spawn()?;
        let ended = Running(child).wait(Duration::from_secs(60))?;
        ended
            .map(|status| {
                Ok(Written {
                    output: fs::read(&output)?,
                    errors: String::from_utf8_lossy(&fs::read(&errors)?).into_owned(),
                    status,
                })
            })
            .transpose()
    }();
    match result {
        Ok(Some(written)) => Ok(written),
        Ok(None) => Err(format!("{name} did not end within a minute")),
        Err(error) => Err(format!("{name}: {error}")),
    }
}

/// A program with its arguments, as a command.
fn command(program: &[OsString]) -> Command {
    let mut command = Command::new(&program[0]);
    command.args(&program[1..]).stdin(Stdio::null());
    command
}

#[cfg(test)]
mod tests {
    use super::*;

    #[test]
    fn the_first_line_that_differs_is_shown() {
        assert_eq!(same("it", b"a\nb\n", b"a\nb\n"), Ok(()));
        for (found, expected, message) in [
            (
                "a\nbc\nd\n",
                "a\nbd\nd\n",
                "\"bc\" in line 2 and not \"bd\"",
            ),
            ("", "a", "\"\" in line 1 and not \"a\""),
            ("a\nb\n", "a\n", "\"b\" in line 2 and not \"\""),
            ("a\n", "a\nb\n", "\"\" in line 2 and not \"b\""),
        ] {
            let result = same("it", found.as_bytes(), expected.as_bytes());
            assert_eq!(result, Err(format!("it has {message}")));
        }
    }
}
