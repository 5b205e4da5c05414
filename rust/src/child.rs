//! Running another bench program as a child process.

use std::ffi::OsString;
use std::io::{self, Read, Write};
use std::process::{Command, ExitStatus, Stdio};
use std::thread;

/// What a child process left behind.
#[derive(Debug)]
pub struct Run {
    /// All it wrote to standard output.
    pub output: Vec<u8>,
    /// How it ended.
    pub status: ExitStatus,
}

/// Starts `program` (the command and its arguments), writes `input` to its
/// standard input from a second thread, and reads its standard output to the
/// end. A child that stops reading early is no error here: its missing answers
/// are for the caller to see.
pub fn run(program: &[OsString], input: &[u8]) -> io::Result<Run> {
    let (command, arguments) = program
        .split_first()
        .ok_or_else(|| io::Error::new(io::ErrorKind::InvalidInput, "no program given"))?;
    let mut child = Command::new(command)
        .args(arguments)
        .stdin(Stdio::piped())
        .stdout(Stdio::piped())
        .spawn()?;
    let mut to_child = child.stdin.take().expect("standard input is piped");
    let mut from_child = child.stdout.take().expect("standard output is piped");
    let mut output = Vec::new();
    let (written, read) = thread::scope(|scope| {
        let writer = scope.spawn(move || to_child.write_all(input));
        let read = from_child.read_to_end(&mut output);
        (writer.join().expect("the writer does not panic"), read)
    });
    let status = child.wait()?;
    read?;
    match written {
        Err(error) if error.kind() != io::ErrorKind::BrokenPipe => Err(error),
        _ => Ok(Run { output, status }),
    }
}
