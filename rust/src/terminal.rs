//! The other side of the card: what a terminal that knows its keys, and looks
//! at the card at hand, would send it.

use crate::aes::Block;
use crate::bench::Bench;
use crate::frames::{frame, hex_line, ins};
use crate::hex;
use crate::messaging::{self, two_blocks, Mac, MAC_SIZE};
use crate::model::{Card, Session};

/// A first part of an authentication with a key, and these capabilities.
pub fn first_part(key_number: u8, capabilities: &[u8]) -> Vec<u8> {
    let mut data = vec![key_number, capabilities.len() as u8];
    data.extend_from_slice(capabilities);
    frame(ins::FIRST_PART, &data)
}

/// The second part that the card waits for, with this random number of the
/// terminal; none if it waits for none.
pub fn second_part(card: &Card, terminal: &Block) -> Option<Vec<u8>> {
    match card.session() {
        Session::Waiting(first) => {
            let key = card.key(first.key_number);
            let blocks = messaging::second_part(key, terminal, &first.random);
            Some(frame(ins::SECOND_PART, &blocks.concat()))
        }
        _ => None,
    }
}

/// The MAC that the card expects behind this data field; none if it takes none.
pub fn mac(card: &Card, instruction: u8, data: &[u8]) -> Option<Mac> {
    match card.session() {
        Session::Real(session) if card.takes_mac(instruction, data) => {
            Some(session.command_mac(instruction, data))
        }
        _ => None,
    }
}

/// A command with the MAC that the card expects, if it takes one.
pub fn sealed(card: &Card, instruction: u8, data: &[u8]) -> Vec<u8> {
    let mut data = data.to_vec();
    if let Some(mac) = mac(card, instruction, &data) {
        data.extend_from_slice(&mac);
    }
    frame(instruction, &data)
}

/// INS and data field of a frame that is sound in form.
pub fn parts(frame: &[u8]) -> Option<(u8, &[u8])> {
    match frame {
        [0x90, instruction, 0x00, 0x00, 0x00] => Some((*instruction, &[])),
        [0x90, instruction, 0x00, 0x00, lc, data @ .., 0x00]
            if !data.is_empty() && usize::from(*lc) == data.len() =>
        {
            Some((*instruction, data))
        }
        _ => None,
    }
}

/// What of a script's line has to be made anew when lines before it change.
#[derive(Clone, Copy, Debug, PartialEq, Eq)]
pub enum Seal {
    /// Nothing.
    None,
    /// The MAC of a command, which was right.
    Mac,
    /// A second part, which succeeded with this random number of the terminal.
    SecondPart(Block),
}

/// A line of a script with its seal.
pub type SealedLine = (Vec<u8>, Seal);

/// The seal of a line for the card at hand.
fn seal_of(card: &Card, line: &[u8]) -> Option<Seal> {
    let mut bytes = Vec::new();
    hex::decode(line, &mut bytes)?;
    let (instruction, data) = parts(&bytes)?;
    match card.session() {
        Session::Real(_) => {
            let (data, mac) = data.split_at(data.len().checked_sub(MAC_SIZE)?);
            (self::mac(card, instruction, data)? == mac).then_some(Seal::Mac)
        }
        Session::Waiting(first) if instruction == ins::SECOND_PART => {
            let key = card.key(first.key_number);
            let terminal = first.terminal_random(key, two_blocks(data)?)?;
            Some(Seal::SecondPart(terminal))
        }
        _ => None,
    }
}

/// The lines of a script, each with its seal.
pub fn with_seals(lines: &[Vec<u8>]) -> Vec<SealedLine> {
    let mut bench = Bench::new();
    let mut answer = Vec::new();
    lines
        .iter()
        .map(|line| {
            let seal = seal_of(bench.card(), line).unwrap_or(Seal::None);
            bench.line(line, &mut answer);
            answer.clear();
            (line.clone(), seal)
        })
        .collect()
}

/// The frame of a sealed line with a seal for the card at hand; none if this
/// card takes none.
fn resealed_frame(card: &Card, line: &SealedLine) -> Option<Vec<u8>> {
    let mut bytes = Vec::new();
    match line.1 {
        Seal::None => None,
        Seal::SecondPart(terminal) => second_part(card, &terminal),
        Seal::Mac => {
            hex::decode(&line.0, &mut bytes)?;
            let (instruction, data) = parts(&bytes)?;
            let data = &data[..data.len().checked_sub(MAC_SIZE)?];
            mac(card, instruction, data)?;
            Some(sealed(card, instruction, data))
        }
    }
}

/// The lines as a terminal would send them that sends what it sent before, but
/// to a card that lacks some of the lines before: sealed anew where the card
/// takes a seal, otherwise as they were.
pub fn resealed(lines: &[SealedLine]) -> Vec<Vec<u8>> {
    let mut bench = Bench::new();
    let mut answer = Vec::new();
    lines
        .iter()
        .map(|sealed| {
            let line = match resealed_frame(bench.card(), sealed) {
                Some(frame) => hex_line(b"", &frame),
                None => sealed.0.clone(),
            };
            bench.line(&line, &mut answer);
            answer.clear();
            line
        })
        .collect()
}

#[cfg(test)]
mod tests {
    use super::*;
    use crate::bench::answers;
    use crate::frames::{amount_frame, join};
    use crate::scripts::Writer;

    /// A script of these frames in a session of key 0 with right MACs.
    fn session_script(frames: &[Vec<u8>]) -> Vec<Vec<u8>> {
        let mut bench = Bench::new();
        let mut lines = Vec::new();
        let mut answer = Vec::new();
        let mut send = |bench: &mut Bench, frame: &[u8]| {
            let line = hex_line(b"", frame);
            bench.line(&line, &mut answer);
            lines.push(line);
        };
        send(&mut bench, &first_part(0, &[]));
        let second = second_part(bench.card(), &[0x77; 16]).unwrap();
        send(&mut bench, &second);
        for frame in frames {
            let (instruction, data) = parts(frame).unwrap();
            let sealed = sealed(bench.card(), instruction, data);
            send(&mut bench, &sealed);
        }
        lines
    }

    fn statuses(lines: &[Vec<u8>]) -> Vec<String> {
        String::from_utf8(answers(&join(lines, true)))
            .unwrap()
            .lines()
            .map(|answer| answer[answer.len().saturating_sub(4)..].to_owned())
            .collect()
    }

    #[test]
    fn a_shortened_script_is_sealed_anew() {
        let lines = session_script(&[
            frame(ins::GET_FILE_SETTINGS, &[0x00]),
            amount_frame(ins::DEBIT, 0x03, 5),
            frame(ins::COMMIT, &[]),
            frame(ins::GET_FILE_SETTINGS, &[0x03]),
        ]);
        let mut sealed = with_seals(&lines);
        // The program's card has plain files: a Debit carries no MAC.
        let seals: Vec<Seal> = sealed.iter().map(|line| line.1).collect();
        assert_eq!(seals[0], Seal::None);
        assert_eq!(seals[1], Seal::SecondPart([0x77; 16]));
        assert_eq!(seals[2..], [Seal::Mac, Seal::None, Seal::Mac, Seal::Mac]);
        sealed.remove(2);
        let as_it_was: Vec<_> = sealed.iter().map(|line| line.0.clone()).collect();
        assert_eq!(
            statuses(&as_it_was),
            ["91AF", "9100", "9100", "911E", "917E"]
        );
        let anew = resealed(&sealed);
        assert_eq!(statuses(&anew), ["91AF", "9100", "9100", "9100", "9100"]);
        // Another random number of the card asks for another second part.
        sealed.insert(0, (hex_line(b"N", &[0x5A; 20]), Seal::None));
        let anew = resealed(&sealed);
        assert_eq!(
            statuses(&anew)[1..],
            ["91AF", "9100", "9100", "9100", "9100"]
        );
    }

    /// A chain carries no MAC, and counts as one command where it is finished.
    #[test]
    fn chains_pass_as_they_are_and_count_once() {
        let mut lines = session_script(&[frame(ins::GET_FILE_SETTINGS, &[0x00])]);
        lines.push(b"C908D0000070000000003000000".to_vec());
        lines.push(b"D0102".to_vec());
        lines.push(b"D03".to_vec());
        let mut bench = Bench::new();
        for line in &lines {
            bench.line(line, &mut Vec::new());
        }
        let last = sealed(bench.card(), ins::GET_FILE_SETTINGS, &[0x03]);
        lines.push(hex_line(b"", &last));
        let mut sealed = with_seals(&lines);
        let seals: Vec<Seal> = sealed.iter().map(|line| line.1).collect();
        assert_eq!(
            seals[2..],
            [Seal::Mac, Seal::None, Seal::None, Seal::None, Seal::Mac]
        );
        assert_eq!(
            statuses(&lines),
            ["91AF", "9100", "9100", "", "", "9100", "9100"]
        );
        assert_eq!(resealed(&sealed), lines);
        // Without the chain, the last command is the second that is counted.
        sealed.drain(3..6);
        assert_eq!(
            statuses(&resealed(&sealed)),
            ["91AF", "9100", "9100", "9100"]
        );
    }

    #[test]
    fn a_wrong_mac_stays_wrong() {
        let mut lines = session_script(&[
            frame(ins::GET_FILE_SETTINGS, &[0x00]),
            frame(ins::GET_FILE_SETTINGS, &[0x03]),
        ]);
        let last = lines[3].len() - 3;
        lines[3][last] = if lines[3][last] == b'0' { b'1' } else { b'0' };
        let mut sealed = with_seals(&lines);
        assert_eq!(sealed[3].1, Seal::None);
        sealed.remove(2);
        assert_eq!(statuses(&resealed(&sealed)), ["91AF", "9100", "911E"]);
    }

    #[test]
    fn a_whole_script_is_sealed_as_it_was() {
        let mut writer = Writer::new(9);
        for _ in 0..5 {
            let script = writer.script(2000);
            let again = resealed(&with_seals(&script.lines));
            let pairs = script.lines.iter().zip(&again);
            assert!(pairs
                .into_iter()
                .all(|(line, again)| line.eq_ignore_ascii_case(again)));
        }
        assert!(writer.tally.opened.iter().sum::<u64>() > 100);
    }
}
