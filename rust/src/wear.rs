//! Wear of the log's slots: a long history on one card, each step of which asks
//! what was stored.
//!
//! A bench does not say which slot it stores. By the request's rule slots are
//! stored by turns, also after a clear, so that the number of stores tells the
//! slot: [`judge`] counts a store for every sixteen bytes that an answer names,
//! and holds what is read of the log to a [`Ring`].

use crate::frames::{amount_frame, frame, hex_line, ins, read_frame, write_frame, Script};
use crate::hex::put_hex;
use crate::model::{Entry, Numbers, ENTRY_SIZE, LOG_ENTRIES};
use crate::ring::{stored_by, Ring};
use crate::rng::Rng;

/// What the files of the program's card are called.
const OF: Numbers = Numbers::DEFAULT;
/// A number that none of them has.
const UNKNOWN_NUMBER: u8 = 0x07;

/// What the answer to a line has to be.
#[derive(Clone, Copy, Debug, PartialEq, Eq)]
enum Due {
    /// This.
    Answer(&'static str),
    /// The count of a commit with a new entry.
    Entry(Entry),
    /// That of a commit of a clear.
    Clear,
    /// That of what stores nothing.
    Nothing,
    /// All entries, the oldest first.
    Log,
}

/// A history for the program's card, and what has to be answered.
#[derive(Clone, Debug, Default)]
pub struct History {
    lines: Vec<Vec<u8>>,
    due: Vec<Due>,
    amounts: usize,
    /// Commits with a new entry.
    pub committed: u64,
    /// Commits of a clear.
    pub clears: u64,
    /// Commits of figures alone.
    pub values: u64,
    /// New entries that an abort, a refusal or a power-up dropped.
    pub dropped: u64,
}

impl History {
    /// The history of a seed with so many committed entries.
    pub fn new(committed: u64, seed: u64) -> Self {
        let mut rng = Rng::new(seed);
        let mut history = Self::default();
        while history.committed < committed {
            match rng.below(20) {
                0..=1 => history.clear(),
                2 => history.value(),
                3..=4 => history.drop_entry(&mut rng),
                5 => history.read(),
                _ => history.entry(&mut rng),
            }
        }
        history.read();
        history
    }

    /// The history as a bench program reads it.
    pub fn script(&self) -> Script {
        Script {
            lines: self.lines.clone(),
            last_lf: true,
        }
    }

    fn line(&mut self, line: Vec<u8>, due: Due) {
        self.lines.push(line);
        self.due.push(due);
    }

    fn command(&mut self, frame: &[u8], status: &'static str) {
        self.line(hex_line(b"", frame), Due::Answer(status));
    }

    /// A commit, and what it stored.
    fn commit(&mut self, due: Due) {
        self.command(&frame(ins::COMMIT, &[]), "9100");
        self.line(b"L".to_vec(), due);
    }

    /// A Debit of 1 or a Credit of 1 by turns, which stay within the limits.
    fn amount(&mut self) {
        let instruction = [ins::DEBIT, ins::CREDIT][self.amounts % 2];
        self.amounts += 1;
        self.command(&amount_frame(instruction, OF.value, 1), "9100");
    }

    /// A new entry, which stores nothing yet.
    fn write(&mut self, rng: &mut Rng) -> Entry {
        let mut entry = [0; ENTRY_SIZE];
        entry.fill_with(|| rng.byte());
        let write = write_frame(ins::WRITE_RECORD, OF.log, 0, ENTRY_SIZE as u64, &entry);
        self.command(&write, "9100");
        entry
    }

    fn entry(&mut self, rng: &mut Rng) {
        let entry = self.write(rng);
        if rng.percent(20) {
            self.amount();
        }
        self.commit(Due::Entry(entry));
        self.committed += 1;
    }

    fn clear(&mut self) {
        self.command(&frame(ins::CLEAR_RECORD_FILE, &[OF.log]), "9100");
        self.commit(Due::Clear);
        self.clears += 1;
    }

    fn value(&mut self) {
        self.amount();
        self.commit(Due::Nothing);
        self.values += 1;
    }

    fn drop_entry(&mut self, rng: &mut Rng) {
        self.write(rng);
        match rng.below(3) {
            0 => self.command(&frame(ins::ABORT, &[]), "9100"),
            1 => self.command(&frame(ins::GET_VALUE, &[UNKNOWN_NUMBER]), "91F0"),
            _ => self.line(Vec::new(), Due::Answer("")),
        }
        self.line(b"L".to_vec(), Due::Nothing);
        self.dropped += 1;
    }

    fn read(&mut self) {
        let read = read_frame(ins::READ_RECORDS, OF.log, 0, 0);
        self.line(hex_line(b"", &read), Due::Log);
    }
}

/// An answer that is not the one due.
#[derive(Clone, Debug, PartialEq, Eq)]
pub struct Difference {
    /// The number of the line, from 1 on.
    pub number: usize,
    /// The line.
    pub line: String,
    /// What was due.
    pub due: String,
    /// What was answered; none if nothing was.
    pub answer: Option<String>,
}

/// What a program's answers say.
#[derive(Clone, Debug, Default, PartialEq, Eq)]
pub struct Findings {
    /// How often each slot was stored.
    pub stores: [u64; LOG_ENTRIES],
    /// How many answers are not those due.
    pub differing: usize,
    /// The first of them.
    pub first: Option<Difference>,
}

impl Findings {
    /// Whether every answer was due, and no slot was stored more often than
    /// this.
    pub fn are_sound(&self, most: u64) -> bool {
        self.differing == 0 && self.stores.iter().all(|&count| count <= most)
    }

    /// Counts the stores of this many bytes, a slot each, from the one behind
    /// the last.
    fn count(&mut self, bytes: usize) {
        for _ in 0..(bytes / ENTRY_SIZE).min(LOG_ENTRIES) {
            let total: u64 = self.stores.iter().sum();
            self.stores[total as usize % LOG_ENTRIES] += 1;
        }
    }
}

/// The reply to a read of the whole log.
fn log_reply(ring: &Ring) -> String {
    let mut digits = Vec::new();
    for entry in ring.newest_first().rev() {
        put_hex(entry, &mut digits);
    }
    let status: &[u8] = if digits.is_empty() { b"91BE" } else { b"9100" };
    digits.extend_from_slice(status);
    String::from_utf8_lossy(&digits).into_owned()
}

/// Goes through a program's answers to a history.
pub fn judge(history: &History, output: &[u8]) -> Findings {
    let mut findings = Findings::default();
    let mut ring = Ring::default();
    let mut answers = output
        .split_inclusive(|&byte| byte == b'\n')
        .map(|answer| String::from_utf8_lossy(answer).into_owned());
    for (place, (line, due)) in history.lines.iter().zip(&history.due).enumerate() {
        let answer = answers.next();
        let text = match due {
            Due::Answer(text) => (*text).to_owned(),
            Due::Log => log_reply(&ring),
            Due::Entry(_) | Due::Clear | Due::Nothing => {
                let counted = answer
                    .as_ref()
                    .and_then(|text| text.trim_end().parse().ok());
                findings.count(counted.unwrap_or(0));
                stored_by(matches!(due, Due::Entry(_))).to_string()
            }
        };
        match due {
            Due::Entry(entry) => ring.store(entry),
            Due::Clear => ring.clear(),
            _ => {}
        }
        if answer.as_deref().and_then(|text| text.strip_suffix('\n')) == Some(&text) {
            continue;
        }
        findings.differing += 1;
        findings.first.get_or_insert_with(|| Difference {
            number: place + 1,
            line: String::from_utf8_lossy(line).into_owned(),
            due: text,
            answer: answer.map(|text| text.trim_end().to_owned()),
        });
    }
    findings.differing += answers.count();
    findings
}

#[cfg(test)]
mod tests {
    use super::*;
    use crate::bench::answers;
    use crate::ring::bound;

    const COMMITTED: u64 = 1001;

    fn history() -> History {
        History::new(COMMITTED, 1)
    }

    #[test]
    fn the_model_stores_each_slot_by_turns() {
        let history = history();
        let findings = judge(&history, &answers(&history.script().bytes()));
        assert_eq!(findings.first, None);
        assert_eq!(findings.stores, [251, 250, 250, 250]);
        assert!(findings.are_sound(bound(COMMITTED)));
        for count in [history.clears, history.values, history.dropped] {
            assert!(count >= 30);
        }
    }

    /// The model's answers, each changed.
    fn changed(change: impl Fn(&str, &str) -> String) -> Findings {
        let history = history();
        let output = answers(&history.script().bytes());
        let output = String::from_utf8(output).unwrap();
        let lines = history.lines.iter().zip(output.lines());
        let changed: String = lines
            .map(|(line, answer)| change(&String::from_utf8_lossy(line), answer) + "\n")
            .collect();
        judge(&history, changed.as_bytes())
    }

    #[test]
    fn wrong_answers_are_seen() {
        let same = changed(|_, answer| answer.to_owned());
        assert!(same.are_sound(bound(COMMITTED)));
        // A log whose entries all move at each commit.
        let moved = changed(|_, answer| match answer {
            "16" => "64".to_owned(),
            _ => answer.to_owned(),
        });
        assert_eq!(moved.differing as u64, COMMITTED);
        assert_eq!(moved.stores, [COMMITTED; LOG_ENTRIES]);
        assert!(!moved.are_sound(bound(COMMITTED)));
        // A clear that stores.
        let cleared = changed(|line, answer| match (line, answer) {
            ("L", "0") => "16".to_owned(),
            _ => answer.to_owned(),
        });
        assert!(cleared.stores.iter().all(|&count| count > bound(COMMITTED)));
        // Nothing stored, an empty log, no answers, and too many.
        let idle = changed(|line, answer| match line {
            "L" => "0".to_owned(),
            _ => answer.to_owned(),
        });
        assert_eq!((idle.differing as u64, idle.stores), (COMMITTED, [0; 4]));
        let empty = changed(|line, answer| match &line[..4.min(line.len())] {
            "90AB" => "91BE".to_owned(),
            _ => answer.to_owned(),
        });
        assert!(empty.differing > 0);
        let none = judge(&history(), b"");
        assert_eq!(none.differing, history().lines.len());
        let more = changed(|_, answer| answer.to_owned() + "\n");
        assert!(more.differing > history().lines.len());
    }
}
