//! The card in a reader, with opensc-tool and scriptor in the part of a client's
//! till. Every reply is held to the transcript program's.

use super::pcsc::{hindrance, wait_for, Pcsc};
use super::{command, same, Place, Running, Tally};
use crate::child;
use crate::hex;
use crate::reader::{ATR, PATIENCE};
use std::ffi::OsString;
use std::fs::{self, File};
use std::path::{Path, PathBuf};

/// AuthenticateEV2First with key 0. A second one breaks the first off.
const FIRST_PART: &str = "9071000002000000";

fn lines(text: &[u8]) -> Vec<String> {
    let text = String::from_utf8_lossy(text);
    text.lines().map(str::to_owned).collect()
}

/// Replies held to the answers of a program, in digits.
fn compare(replies: Result<Vec<Vec<u8>>, String>, answers: &[String]) -> Result<(), String> {
    let replies = replies?;
    for (reply, answer) in replies.iter().zip(answers) {
        let mut digits = Vec::new();
        hex::put_hex(reply, &mut digits);
        same("a reply", &digits, answer.as_bytes())?;
    }
    if replies.len() == answers.len() {
        Ok(())
    } else {
        Err(format!("{} replies, not {}", replies.len(), answers.len()))
    }
}

/// Whether the first and the third of three first parts began, each in its way.
fn compare_first_parts(replies: Result<Vec<Vec<u8>>, String>) -> Result<(), String> {
    match replies?.as_slice() {
        [first, second, third]
            if first.ends_with(&[0x91, 0xAF])
                && second == &[0x91, 0xCA]
                && third.ends_with(&[0x91, 0xAF])
                && first != third =>
        {
            Ok(())
        }
        replies => Err(format!("the replies are {replies:02X?}")),
    }
}

/// A recording that the reader is writing.
struct Recorded(PathBuf);

impl Recorded {
    fn read(&self, ending: &str) -> Vec<u8> {
        fs::read(self.0.with_extension(ending)).unwrap_or_default()
    }

    /// Waits until a frame is the last one that was sent, and is answered.
    fn wait_for_frame(&self, frame: &str) -> Result<(), String> {
        wait_for(|| {
            let [sent, answered] = ["txt", "out"].map(|ending| lines(&self.read(ending)));
            let is_last = sent.last().map_or(false, |last| last == frame);
            (is_last && sent.len() == answered.len()).then_some(())
        })
        .ok_or_else(|| format!("{frame} was not sent"))
    }
}

/// Plays a sale and its refund with both programs, then a sale that is torn, and
/// authentications: the frames that were sent.
fn try_till(
    tally: &mut Tally,
    place: &Place,
    pcsc: &mut Pcsc,
    recorded: &Recorded,
) -> Result<Vec<String>, String> {
    let sale = lines(&place.text("examples/sale-and-refund.txt")?);
    let torn = lines(&place.text("examples/torn-sale.txt")?);
    let mut halves = torn.split(String::is_empty);
    let (before, after) = match (halves.next(), halves.next(), halves.next()) {
        (Some(before), Some(after), None) => (before, after),
        _ => return Err("the torn sale has not one power-up".to_owned()),
    };
    // One card plays all, with a power-up between them.
    let script = [&sale, &sale, before, after].map(|part| part.join("\n") + "\n");
    let transcript = place.program(place.root.join("crates/transcript/out/transcript"));
    let played = child::run(&transcript, script.join("\n").as_bytes());
    let answers = lines(&played.map_err(|error| error.to_string())?.output);
    let expected: Vec<&[String]> = answers.split(String::is_empty).collect();
    if expected.len() != script.len() {
        return Err(format!("the transcript program answered {answers:?}"));
    }

    pcsc.start()?;
    let atr = pcsc.atr().and_then(|atr| same("it", &atr, &ATR));
    tally.tried("the ATR by opensc-tool", atr);
    let replies = pcsc.send_by_opensc_tool(&sale);
    tally.tried(
        "sale and refund by opensc-tool",
        compare(replies, expected[0]),
    );
    let replies = pcsc.send_by_scriptor(&sale, |_| Ok(()));
    tally.tried("sale and refund by scriptor", compare(replies, expected[1]));
    let replies = pcsc.send_by_scriptor(before, |pcsc| {
        let sent = recorded.wait_for_frame(&before[before.len() - 1]);
        pcsc.end();
        sent
    });
    tally.tried(
        "a sale by scriptor, cut before its commit",
        compare(replies, expected[2]),
    );
    pcsc.start()?;
    let replies = pcsc.send_by_opensc_tool(after);
    tally.tried(
        "the card that came back, by opensc-tool",
        compare(replies, expected[3]),
    );
    let first_parts = [FIRST_PART; 3].map(str::to_owned);
    let replies = pcsc.send_by_opensc_tool(&first_parts);
    tally.tried(
        "a random number for each authentication",
        compare_first_parts(replies),
    );
    Ok([&sale, &sale, before, after, &first_parts].concat())
}

/// Holds the recording to what was sent, and plays it again.
fn try_recording(
    tally: &mut Tally,
    place: &Place,
    recorded: &Recorded,
    sent: &[String],
) -> Result<(), String> {
    let script = recorded.read("txt");
    let mut frames = lines(&script);
    frames.retain(|line| line.starts_with("90"));
    let result = same(
        "it",
        frames.join("\n").as_bytes(),
        sent.join("\n").as_bytes(),
    );
    tally.tried("the recording has each frame that was sent", result);
    let again = child::run(&place.bench, &script).map_err(|error| error.to_string())?;
    let result = same("its output", &again.output, &recorded.read("out"));
    tally.tried("the bench answers the recording as the card did", result);
    Ok(())
}

/// Starts the program `reader` and tries the card in it.
fn try_program(tally: &mut Tally, place: &Place, reader: &Path) -> Result<(), String> {
    let mut pcsc = Pcsc::new(&place.folder)?;
    let recorded = Recorded(place.folder.join("recording"));
    let port = pcsc.port().to_string();
    let mut line: Vec<OsString> = vec![reader.into(), "--port".into(), port.into()];
    line.extend(["--record".into(), recorded.0.clone().into(), "--".into()]);
    line.extend(place.bench.iter().cloned());
    let started = File::create(place.folder.join("reader.log"))
        .and_then(|shown| command(&line).stderr(shown).spawn());
    let mut reader = Running(started.map_err(|error| format!("the reader: {error}"))?);
    let sent = try_till(tally, place, &mut pcsc, &recorded);
    pcsc.end();
    let sent = sent?;
    let ended = match reader.wait(2 * PATIENCE) {
        Ok(Some(status)) if status.success() => Ok(()),
        ended => Err(format!("{ended:?}")),
    };
    tally.tried("the reader ends well when pcscd is gone", ended);
    try_recording(tally, place, &recorded, &sent)
}

/// Tries the card in the program `reader`.
pub fn try_reader(tally: &mut Tally, place: &Place, reader: &Path) {
    if let Some(why) = hindrance() {
        tally.not_tried("the reader", &why);
    } else if let Err(why) = try_program(tally, place, reader) {
        tally.tried("the reader", Err(why));
    }
}
