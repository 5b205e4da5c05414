//! The card in a virtual PC/SC reader: what a till sends goes to a bench
//! program, a line at a time, and the answers go back.
//!
//! * [`vpcd`]: the messages of the virtual reader.
//! * [`held`]: the bench program at hand, one line and one answer at a time.
//! * [`recording`]: what was sent and what was answered, in two files.
//! * [`words`]: commands and statuses in words, for people.

pub mod held;
pub mod recording;
pub mod vpcd;
pub mod words;

use crate::bench::LONGEST_LINE;
use crate::frames::{hex_line, ins};
use crate::hex;
use held::Held;
use recording::Recording;
use std::fs::File;
use std::io::{self, Read, Write};
use std::thread;
use std::time::{Duration, Instant};
use vpcd::{Connection, Message};

/// How long a reader, or an answer of the bench, is waited for.
pub const PATIENCE: Duration = Duration::from_secs(10);

/// The answer to reset of a contactless card in a PC/SC reader (PC/SC part 3):
/// 3B, 8n for n historical bytes, 80 01, those bytes, of a DESFire card 80 alone,
/// and the check byte, in which all but the first add up to 0 by exclusive or.
pub const ATR: [u8; 6] = [0x3B, 0x81, 0x80, 0x01, 0x80, 0x80];

/// The most bytes of an APDU that a line has room for.
const LONGEST_APDU: usize = LONGEST_LINE / 2;

/// Bytes of an `N` line: the card's random number and the identifier.
const INPUTS: usize = 20;

/// The card that a bench program holds, and what is written down of it.
pub struct Card {
    bench: Held,
    recording: Option<Recording>,
    random: File,
}

impl Card {
    /// The card of a bench program that was just started.
    pub fn new(bench: Held, recording: Option<Recording>) -> Result<Self, String> {
        let random = File::open("/dev/urandom")
            .map_err(|error| format!("the system's random source cannot be opened: {error}"))?;
        Ok(Self {
            bench,
            recording,
            random,
        })
    }

    /// Hands a line to the bench: its answer, which stands in the recording
    /// before anybody sees it.
    fn line(&mut self, line: &[u8]) -> Result<Vec<u8>, String> {
        let answer = self.bench.ask(line)?;
        if let Some(recording) = &mut self.recording {
            recording.add(line, &answer)?;
        }
        Ok(answer)
    }

    /// Hands in a line that the bench has to answer in one way.
    fn line_answered(&mut self, line: &[u8], expected: &[u8]) -> Result<(), String> {
        let answer = self.line(line)?;
        if answer == expected {
            Ok(())
        } else {
            Err(unexpected(line, &answer))
        }
    }

    /// Personalises the card by an order, a `P` line.
    pub fn personalise(&mut self, order: &[u8]) -> Result<(), String> {
        let why = match self.line(order)?.as_slice() {
            b"!0" => return Ok(()),
            b"!1" => "a rights nibble is 5 to Dh",
            b"!2" => "the lower limit is above the upper",
            b"!3" => "the starting value is outside the limits",
            b"!7" => "a file number is above 1Fh",
            b"!8" => "two files have the same number",
            _ => "it has not the digits of a P line",
        };
        Err(format!("the order is refused: {why}"))
    }

    /// Takes the power from the card and gives it back.
    pub fn power_up(&mut self) -> Result<(), String> {
        self.line_answered(b"", b"")
    }

    /// The card's reply to an APDU. A first part of an authentication gets a
    /// fresh random number and identifier.
    pub fn apdu(&mut self, apdu: &[u8]) -> Result<Vec<u8>, String> {
        if apdu.starts_with(&[0x90, ins::FIRST_PART]) {
            let mut inputs = [0; INPUTS];
            self.random
                .read_exact(&mut inputs)
                .map_err(|error| format!("the system's random source gives nothing: {error}"))?;
            self.line_answered(&hex_line(b"N", &inputs), b"!0")?;
        }
        let line = hex_line(b"", spelt(apdu));
        let answer = self.line(&line)?;
        let mut reply = Vec::new();
        match hex::decode(&answer, &mut reply) {
            Some(()) if reply.len() >= 2 => Ok(reply),
            _ => Err(unexpected(&line, &answer)),
        }
    }
}

/// What a line can spell of an APDU. A string of fewer than 5 or more than 261
/// bytes is refused whatever its bytes are, so a long one is cut where the line
/// ends, and one byte stands for none, since an empty line is a power-up.
fn spelt(apdu: &[u8]) -> &[u8] {
    match apdu {
        [] => &[0x00],
        _ => &apdu[..apdu.len().min(LONGEST_APDU)],
    }
}

fn unexpected(line: &[u8], answer: &[u8]) -> String {
    format!(
        "the bench answered \"{}\" to \"{}\"",
        answer.escape_ascii(),
        line.escape_ascii()
    )
}

/// Shows a line to people. That nobody looks is no reason to stop.
pub fn show(line: &str) {
    let _ = writeln!(io::stderr(), "{line}");
}

/// Plays the card in the reader at a port of this machine, until there is none
/// for longer than `patience`: how many APDUs were answered.
pub fn serve(card: &mut Card, port: u16, patience: Duration) -> Result<u64, String> {
    let mut answered = 0;
    let mut seen = false;
    let mut until = Instant::now() + patience;
    show(&format!("waiting for a reader at port {port}"));
    while let Some(mut connection) = Connection::open(port, patience, until) {
        // A port that asks for nothing is no reader, and gets no more time.
        if let Some(cut) = play(card, &mut connection, &mut answered)? {
            seen = true;
            until = Instant::now() + patience;
            show(&format!("the reader is gone ({cut}); the card is out"));
            card.power_up()?;
        }
        thread::sleep(vpcd::PAUSE);
    }
    if seen {
        Ok(answered)
    } else {
        Err(format!(
            "no reader at port {port} of this machine within {} seconds: \
             is pcscd running, with vsmartcard-vpcd, and no other card in that reader?",
            patience.as_secs()
        ))
    }
}

/// Plays the card until the connection is cut: by what, or none if nothing was
/// asked before.
fn play(
    card: &mut Card,
    connection: &mut Connection,
    answered: &mut u64,
) -> Result<Option<String>, String> {
    let mut asked = false;
    loop {
        let message = match connection.receive() {
            Ok(Some(message)) => message,
            Ok(None) => return Ok(asked.then(|| "it closed the connection".to_owned())),
            Err(error) => return Ok(asked.then(|| error.to_string())),
        };
        if !asked {
            show("the card is in the reader");
            asked = true;
        }
        let reply = answer(card, message, answered)?;
        if let Err(error) = reply.map_or(Ok(()), |reply| connection.send(&reply)) {
            return Ok(Some(error.to_string()));
        }
    }
}

/// Does what a message asks: the bytes to send back, if any.
fn answer(
    card: &mut Card,
    message: Message,
    answered: &mut u64,
) -> Result<Option<Vec<u8>>, String> {
    match message {
        Message::Atr => Ok(Some(ATR.to_vec())),
        Message::PowerUp => {
            card.power_up()?;
            show("        power-up");
            Ok(None)
        }
        Message::Apdu(apdu) => {
            let reply = card.apdu(&apdu)?;
            *answered += 1;
            show(&format!("{answered:>6}  {}", words::line(&apdu, &reply)));
            Ok(Some(reply))
        }
    }
}

#[cfg(test)]
mod tests {
    use super::*;

    #[test]
    fn the_atr_is_formed_as_it_should_be() {
        assert_eq!(usize::from(ATR[1] & 0x0F), ATR.len() - 5);
        assert_eq!(ATR[1..].iter().fold(0, |sum, byte| sum ^ byte), 0);
    }
}
