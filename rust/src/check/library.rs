//! The card as a library: both examples under `examples/` play scripts through
//! the function, and what they show is held to the bench.

use super::{command, run, same, Place, Tally};
use crate::child;
use std::ffi::OsString;
use std::fs;
use std::path::PathBuf;
use std::process::Command;

/// Characters of the long scripts.
const MANY: usize = 1_000_000;

/// The characters of a script up to its last LF.
fn whole_lines(script: &[u8]) -> usize {
    let last = script.iter().rposition(|&character| character == b'\n');
    last.map_or(0, |at| at + 1)
}

/// How many characters are read and written where the answers have this room.
fn leading(script: &[u8], answers: &[u8], room: usize) -> (usize, usize) {
    let lines = |text| <[u8]>::split_inclusive(text, |&character| character == b'\n');
    let mut read = 0;
    let mut written = 0;
    for (line, answer) in lines(script).zip(lines(answers)) {
        if written + answer.len() > room {
            break;
        }
        read += line.len();
        written += answer.len();
    }
    (read, written)
}

/// An example, built.
struct Example<'a> {
    place: &'a Place,
    program: Vec<OsString>,
}

impl Example<'_> {
    /// Plays a script in a room, or in as much as it takes, and holds what comes
    /// back to the answers of all whole lines.
    fn play(&self, script: &[u8], answers: &[u8], room: Option<usize>) -> Result<(), String> {
        let folder = &self.place.folder;
        let input = folder.join("script");
        fs::write(&input, script).map_err(|error| error.to_string())?;
        let room_given = room.map(|room| room.to_string());
        let written = run(command(&self.program).args(room_given), &input, folder)?;
        if !written.status.success() {
            return Err(format!("{}: {}", written.status, written.errors));
        }
        let (read, length) = leading(script, answers, room.unwrap_or(usize::MAX));
        same("the output", &written.output, &answers[..length])?;
        let said = format!("{read} of {} characters answered\n", script.len());
        same("what is said", written.errors.as_bytes(), said.as_bytes())
    }

    /// The same, held to what the bench answers.
    fn play_as_bench(&self, script: &[u8]) -> Result<(), String> {
        let whole = &script[..whole_lines(script)];
        let bench = child::run(&self.place.bench, whole).map_err(|error| error.to_string())?;
        self.play(script, &bench.output, None)
    }
}

/// Builds an example: its command line, or what is missing for it.
fn build(place: &Place, language: &str) -> Result<Vec<OsString>, (Option<i32>, String)> {
    let mut script = Command::new(place.root.join("examples/build-embedded"));
    let written = run(script.arg(language), "/dev/null".as_ref(), &place.folder)
        .map_err(|message| (None, message))?;
    if !written.status.success() {
        return Err((written.status.code(), written.errors));
    }
    let path = PathBuf::from(String::from_utf8_lossy(&written.output).trim_end());
    // It is for x86-64, and elsewhere it needs what the bench needs.
    Ok(if cfg!(target_arch = "x86_64") {
        vec![path.into()]
    } else {
        place.program(path)
    })
}

/// Tries the example in one language.
fn try_language(tally: &mut Tally, place: &Place, language: &str) -> Result<(), String> {
    let program = match build(place, language) {
        Ok(program) => program,
        Err((Some(3), missing)) => {
            tally.not_tried(&format!("the library in {language}"), missing.trim_end());
            return Ok(());
        }
        Err((_, message)) => return Err(message),
    };
    let example = Example { place, program };
    let script = place.text("crates/bench/stdin")?;
    let answers = place.text("crates/bench/stdout")?;
    let mut tried = |what: &str, result| {
        tally.tried(&format!("library in {language}: {what}"), result);
    };

    tried(
        "the whole bench script",
        example.play(&script, &answers, None),
    );
    let full = answers.len();
    for room in [0, 1, 2, 100, full / 2, full - 1, full] {
        let result = example.play(&script, &answers, Some(room));
        tried(&format!("room for {room} characters of {full}"), result);
    }
    tried("an empty script", example.play(b"", b"", None));
    let unended = &script[..script.len() - 1];
    tried("no last LF", example.play_as_bench(unended));
    tried("no LF at all", example.play(b"906C0000010300", b"", None));
    let many: Vec<u8> = script.iter().copied().cycle().take(MANY).collect();
    tried("a million characters", example.play_as_bench(&many));
    let mut line = vec![b'F'; MANY];
    line[MANY - 1] = b'\n';
    tried(
        "a million characters in a line",
        example.play_as_bench(&line),
    );
    tried("a million lines", example.play_as_bench(&[b'\n'; MANY]));
    Ok(())
}

/// Tries both examples.
pub fn try_library(tally: &mut Tally, place: &Place) {
    for language in ["c", "rust"] {
        if let Err(message) = try_language(tally, place, language) {
            tally.tried(&format!("the library in {language}"), Err(message));
        }
    }
}

#[cfg(test)]
mod tests {
    use super::*;

    #[test]
    fn leading_answers_are_whole() {
        let script = b"B\n\n90\n91";
        let answers = b"-\n\n6700\n";
        let expected = [
            (0, 0),
            (0, 0),
            (2, 2),
            (3, 3),
            (3, 3),
            (3, 3),
            (3, 3),
            (3, 3),
            (6, 8),
        ];
        for (room, expected) in expected.into_iter().enumerate() {
            assert_eq!(leading(script, answers, room), expected, "{room}");
        }
        assert_eq!(leading(script, answers, usize::MAX), (6, 8));
        assert_eq!(whole_lines(script), 6);
        assert_eq!(whole_lines(b"90"), 0);
    }
}
