//! A bench program that runs as a child and is asked line by line.

use std::ffi::OsString;
use std::io::{self, BufRead, BufReader, Read, Write};
use std::process::{Child, ChildStdin, ChildStdout, Command, Stdio};
use std::sync::mpsc::{sync_channel, Receiver, RecvTimeoutError, SyncSender};
use std::thread;
use std::time::Duration;

/// More characters than any answer has, with its LF.
const LONGEST_ANSWER: u64 = 2048;

/// The program, which ends with this.
pub struct Held {
    child: Child,
    to_child: ChildStdin,
    /// Its answers, whole lines without their LF; closed when it has ended.
    answers: Receiver<Vec<u8>>,
    patience: Duration,
}

impl Held {
    /// Starts a program, the command and its arguments. An answer that takes
    /// longer than `patience` is a failure.
    pub fn start(program: &[OsString], patience: Duration) -> io::Result<Self> {
        let (command, arguments) = program
            .split_first()
            .ok_or_else(|| io::Error::new(io::ErrorKind::InvalidInput, "no program given"))?;
        let mut child = Command::new(command)
            .args(arguments)
            .stdin(Stdio::piped())
            .stdout(Stdio::piped())
            .spawn()?;
        let to_child = child.stdin.take().expect("standard input is piped");
        let from_child = child.stdout.take().expect("standard output is piped");
        let (sender, answers) = sync_channel(1);
        thread::spawn(move || forward(from_child, &sender));
        Ok(Self {
            child,
            to_child,
            answers,
            patience,
        })
    }

    /// Sends a line and waits for its answer, both without their LF.
    pub fn ask(&mut self, line: &[u8]) -> Result<Vec<u8>, String> {
        let sent = self.to_child.write_all(&[line, b"\n"].concat());
        match (sent, self.answers.recv_timeout(self.patience)) {
            (Ok(()), Ok(answer)) => Ok(answer),
            (Ok(()), Err(RecvTimeoutError::Timeout)) => Err(format!(
                "the bench gave no answer to \"{}\" within {} seconds",
                line.escape_ascii(),
                self.patience.as_secs()
            )),
            _ => Err(self.ended(line)),
        }
    }

    /// How the program ended, in words.
    fn ended(&mut self, line: &[u8]) -> String {
        // It may have closed its output alone.
        let _ = self.child.kill();
        let how = match self.child.wait() {
            Ok(status) => status.to_string(),
            Err(error) => error.to_string(),
        };
        format!(
            "the bench ended ({how}) before it answered \"{}\"",
            line.escape_ascii()
        )
    }
}

impl Drop for Held {
    fn drop(&mut self) {
        let _ = self.child.kill();
        let _ = self.child.wait();
    }
}

/// Hands whole lines on, until there are no more or one is too long.
fn forward(from_child: ChildStdout, answers: &SyncSender<Vec<u8>>) {
    let mut from_child = BufReader::new(from_child);
    loop {
        let mut line = Vec::new();
        let read = Read::take(&mut from_child, LONGEST_ANSWER).read_until(b'\n', &mut line);
        if read.is_err() || line.pop() != Some(b'\n') || answers.send(line).is_err() {
            return;
        }
    }
}
