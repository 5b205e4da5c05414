//! What a bench was sent and what it answered, in two files that a desk can
//! play again.

use std::ffi::{OsStr, OsString};
use std::fs::{self, File, OpenOptions};
use std::io::{self, Write};
use std::path::{Path, PathBuf};

/// NAME.txt, the lines that were sent, and NAME.out, their answers. Both hold
/// whole lines, and no answer is there without its line.
pub struct Recording {
    sent: Lines,
    answered: Lines,
}

impl Recording {
    /// Makes both files, of which neither may be there: a recording is not
    /// written over.
    pub fn create(name: &OsStr) -> Result<Self, String> {
        let sent = Lines::create(name, ".txt")?;
        match Lines::create(name, ".out") {
            Ok(answered) => Ok(Self { sent, answered }),
            Err(message) => {
                let _ = fs::remove_file(&sent.path);
                Err(message)
            }
        }
    }

    /// Adds a line and its answer, both on the disk when this returns; if one
    /// cannot be written, neither is there.
    pub fn add(&mut self, line: &[u8], answer: &[u8]) -> Result<(), String> {
        let [sent, answered] = [&mut self.sent, &mut self.answered];
        let written = sent
            .write(line)
            .and_then(|()| answered.write(answer))
            .and_then(|()| sent.sync())
            .and_then(|()| answered.sync());
        for file in [sent, answered] {
            file.settle(written.is_ok());
        }
        written
    }
}

/// A file of lines.
struct Lines {
    path: PathBuf,
    file: File,
    /// The length of what is there for good, and of the line behind it.
    kept: u64,
    added: u64,
}

impl Lines {
    fn create(name: &OsStr, ending: &str) -> Result<Self, String> {
        let mut path = OsString::from(name);
        path.push(ending);
        let path = PathBuf::from(path);
        match OpenOptions::new().append(true).create_new(true).open(&path) {
            Ok(file) => Ok(Self {
                path,
                file,
                kept: 0,
                added: 0,
            }),
            Err(error) => Err(failed(&path, &error)),
        }
    }

    fn write(&mut self, line: &[u8]) -> Result<(), String> {
        let text = [line, b"\n"].concat();
        self.added = text.len() as u64;
        self.file
            .write_all(&text)
            .map_err(|error| failed(&self.path, &error))
    }

    /// Waits until the line is on the disk.
    fn sync(&mut self) -> Result<(), String> {
        self.file
            .sync_data()
            .map_err(|error| failed(&self.path, &error))
    }

    /// The line is there for good, or whatever there is of it is taken out.
    fn settle(&mut self, good: bool) {
        if good {
            self.kept += self.added;
        } else {
            let _ = self.file.set_len(self.kept);
        }
        self.added = 0;
    }
}

fn failed(path: &Path, error: &io::Error) -> String {
    format!(
        "the recording {} cannot be written: {error}",
        path.display()
    )
}
