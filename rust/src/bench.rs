//! The bench: one line in, one answer line out.
//!
//! | Line | Does | Prints |
//! |---|---|---|
//! | hexadecimal digits, an even number, at least two | a command | the reply, or `!5` |
//! | `C` and an even number of digits, at least two | opens a chain with that frame | the reply, none if accepted, or `!5` |
//! | `D` and an even number of digits, or none | a frame of file bytes | the reply, none before the last, or `!5` |
//! | empty | a power-up | an empty line |
//! | `P` and 46, 208 or 218 digits | personalises a card | `!0`, or `!1`, `!2`, `!3`, `!7` or `!8` beside the blank card |
//! | `S` and 2 digits, or `S` | a session change, or no session | `!0` or `!4` |
//! | `R` and 4 digits | the length of the reply buffer, at most 0200h | `!0` |
//! | `N` and 40 digits | the card's random number and transaction identifier | `!0` |
//! | `B` | nothing | the books |
//! | `L` | nothing | the slot bytes that the last event stored, in decimal |
//! | any other, or more than 1,024 characters | nothing | `?` |
//!
//! The lines of the first six sorts are events, also where the bench refuses
//! them; before the first event nothing is stored.

use crate::hex::{decode, put_hex};
use crate::model::{
    BenchRefusal, Card, Inputs, Mode, Numbers, Personalisation, Reply, Session, FILES, KEYS,
    PROGRAM_CARD, REPLY_ROOM,
};
use std::io::Write;

/// The most characters a line may have.
pub const LONGEST_LINE: usize = 1024;
/// The longest reply buffer an `R` line may lend.
pub const LONGEST_ROOM: usize = 0x200;
/// Bytes of the first group of a personalisation line: rights, limits, value
/// and switches.
pub const BASE_GROUP: usize = 23;
/// Bytes of its second group, which may be missing: keys and modes.
pub const KEY_GROUP: usize = 16 * KEYS + 1;
/// Bytes of its third group, which may be missing too: the numbers of the files.
pub const NUMBER_GROUP: usize = FILES;

/// The bench with the card it holds.
#[derive(Clone, Debug)]
pub struct Bench {
    card: Card,
    /// What is handed in with each event.
    inputs: Inputs,
    /// The reply buffer lent to commands and to the frames of chains.
    reply: Vec<u8>,
    /// The bytes of the line at hand.
    bytes: Vec<u8>,
    /// The slot bytes that the last event stored.
    stored: usize,
}

impl Default for Bench {
    fn default() -> Self {
        Self::new()
    }
}

impl Bench {
    /// A bench that holds the program's card, hands in zeros and lends 258
    /// bytes.
    pub fn new() -> Self {
        Self {
            card: Card::program_card(),
            inputs: Inputs::default(),
            reply: vec![0; REPLY_ROOM],
            bytes: Vec::with_capacity(LONGEST_LINE / 2),
            stored: 0,
        }
    }

    /// The card held.
    pub fn card(&self) -> &Card {
        &self.card
    }

    /// What is handed in with each event.
    pub fn inputs(&self) -> &Inputs {
        &self.inputs
    }

    /// The slot bytes that the last event stored.
    pub fn stored(&self) -> usize {
        self.stored
    }

    /// The length of the reply buffer lent to commands.
    pub fn room(&self) -> usize {
        self.reply.len()
    }

    /// Takes one line, without its LF, and appends the answer line to `out`.
    pub fn line(&mut self, line: &[u8], out: &mut Vec<u8>) {
        if self.known_line(line, out).is_none() {
            out.push(b'?');
        }
        out.push(b'\n');
    }

    /// None, with nothing done or appended, if the line is to print `?`.
    fn known_line(&mut self, line: &[u8], out: &mut Vec<u8>) -> Option<()> {
        if line.len() > LONGEST_LINE {
            return None;
        }
        match line {
            [] => {
                self.card.power_up();
                self.stored = 0;
            }
            b"B" => self.books(out),
            b"L" => write!(out, "{}", self.stored).expect("a Vec takes every write"),
            b"S" => self.change_session(None, out),
            [b'S', digits @ ..] => match self.decode(digits)? {
                &[key] => self.change_session(Some(key), out),
                _ => return None,
            },
            [b'R', digits @ ..] => match self.decode(digits)? {
                &[high, low] => {
                    let room = usize::from(u16::from_be_bytes([high, low]));
                    if room > LONGEST_ROOM {
                        return None;
                    }
                    self.reply.resize(room, 0);
                    put_outcome(Ok(()), out);
                }
                _ => return None,
            },
            [b'N', digits @ ..] => {
                self.inputs = inputs(self.decode(digits)?)?;
                put_outcome(Ok(()), out);
            }
            [b'P', digits @ ..] => {
                let with = personalisation(self.decode(digits)?)?;
                let (card, outcome) = match Card::personalise(&with) {
                    Ok(card) => (card, Ok(())),
                    Err(refusal) => (Card::blank(), Err(refusal)),
                };
                self.card = card;
                self.stored = 0;
                put_outcome(outcome, out);
            }
            // Before an odd number of digits, either letter is one more digit of
            // a command.
            [b'C', digits @ ..] if digits.len() % 2 == 0 => {
                if self.decode(digits)?.is_empty() {
                    return None;
                }
                let reply = self.card.open_chain(&self.bytes, &mut self.reply);
                self.put_reply(reply, out);
            }
            [b'D', digits @ ..] if digits.len() % 2 == 0 => {
                self.decode(digits)?;
                let reply = self.card.file_frame(&self.bytes, &mut self.reply);
                self.put_reply(reply, out);
            }
            digits => {
                self.decode(digits)?;
                let reply = self
                    .card
                    .command(&self.bytes, &self.inputs, &mut self.reply);
                self.put_reply(reply, out);
            }
        }
        Some(())
    }

    /// A session change, refused or not.
    fn change_session(&mut self, key: Option<u8>, out: &mut Vec<u8>) {
        put_outcome(self.card.change_session(key), out);
        self.stored = 0;
    }

    /// Appends the reply of a command or a frame of a chain, or the bench
    /// refusal.
    #[inline]
    fn put_reply(&mut self, reply: Result<Reply, BenchRefusal>, out: &mut Vec<u8>) {
        self.stored = reply.map_or(0, |reply| reply.stored);
        match reply {
            Ok(reply) => put_hex(&self.reply[..reply.length], out),
            Err(refusal) => put_outcome(Err(refusal), out),
        }
    }

    /// The bytes of an even number of hexadecimal digits of either case.
    fn decode(&mut self, digits: &[u8]) -> Option<&[u8]> {
        self.bytes.clear();
        decode(digits, &mut self.bytes)?;
        Some(&self.bytes)
    }

    /// The eight fields of the `B` line.
    fn books(&self, out: &mut Vec<u8>) {
        let books = self.card.books();
        write!(
            out,
            "{} {} {} {} {} {} ",
            books.value,
            books.pending_value,
            books.allowance,
            books.pending_allowance,
            books.debit_sum,
            books.entries
        )
        .expect("a Vec takes every write");
        let letters = [
            (books.value_pending, b'v'),
            (books.entry_pending, b'n'),
            (books.clear_pending, b'c'),
            (books.chain_open, b'w'),
        ];
        if letters.iter().any(|&(is_pending, _)| is_pending) {
            out.extend(letters.iter().filter(|pair| pair.0).map(|pair| pair.1));
        } else {
            out.push(b'-');
        }
        match books.session {
            Session::None => write!(out, " -"),
            Session::Bench(key) => write!(out, " {key}"),
            Session::Real(real) => write!(out, " {}:{}", real.key_number, real.counter),
            Session::Waiting(first) => write!(out, " {}?", first.key_number),
        }
        .expect("a Vec takes every write");
    }
}

/// The settings of a `P` line, which ends after any group; none if it ends
/// elsewhere.
fn personalisation(bytes: &[u8]) -> Option<Personalisation> {
    let (base, rest) = group(bytes, BASE_GROUP)?;
    let with = base_group(base);
    if rest.is_empty() {
        return Some(with);
    }
    let (keys, rest) = group(rest, KEY_GROUP)?;
    let with = key_group(with, keys);
    if rest.is_empty() {
        return Some(with);
    }
    let numbers = Numbers::from_order(rest.try_into().ok()?);
    Some(Personalisation { numbers, ..with })
}

/// A group of this size, and what follows it; none if there are too few bytes.
fn group(bytes: &[u8], size: usize) -> Option<(&[u8], &[u8])> {
    (bytes.len() >= size).then(|| bytes.split_at(size))
}

/// The first group, figures least significant byte first; what follows it has
/// its default.
fn base_group(bytes: &[u8]) -> Personalisation {
    let word = |at: usize| u16::from_le_bytes([bytes[at], bytes[at + 1]]);
    let figure =
        |at: usize| i32::from_le_bytes([bytes[at], bytes[at + 1], bytes[at + 2], bytes[at + 3]]);
    let switches = bytes[22];
    Personalisation {
        rights: [word(0), word(2), word(4), word(6), word(8)],
        lower: figure(10),
        upper: figure(14),
        value: figure(18),
        limited_credit: switches & 0x01 != 0,
        free_get_value: switches & 0x02 != 0,
        ..PROGRAM_CARD
    }
}

/// The second group: five keys, and a byte whose bits 0 to 4 are the files.
fn key_group(mut with: Personalisation, bytes: &[u8]) -> Personalisation {
    let (keys, modes) = bytes.split_at(16 * KEYS);
    for (key, bytes) in with.keys.iter_mut().zip(keys.chunks_exact(16)) {
        key.copy_from_slice(bytes);
    }
    for (bit, mode) in with.modes.iter_mut().enumerate() {
        if modes[0] >> bit & 1 == 1 {
            *mode = Mode::Mac;
        }
    }
    with
}

/// The bytes of an `N` line: random number and transaction identifier.
fn inputs(bytes: &[u8]) -> Option<Inputs> {
    if bytes.len() != 20 {
        return None;
    }
    let (random, transaction) = bytes.split_at(16);
    Some(Inputs {
        random: random.try_into().ok()?,
        transaction: transaction.try_into().ok()?,
    })
}

/// Appends `!` and the number of a bench refusal, or `!0`.
fn put_outcome(outcome: Result<(), BenchRefusal>, out: &mut Vec<u8>) {
    let number = match outcome {
        Ok(()) => 0,
        Err(refusal) => refusal.number(),
    };
    out.extend_from_slice(&[b'!', b'0' + number]);
}

/// A bench that is fed blocks of a stream of lines.
#[derive(Clone, Debug, Default)]
pub struct Stream {
    bench: Bench,
    /// The start of a line whose LF has not come yet, cut off after the first
    /// character too many.
    partial: Vec<u8>,
}

impl Stream {
    /// A stream to a new bench.
    pub fn new() -> Self {
        Self::default()
    }

    /// Appends the answers to all lines that the block completes.
    pub fn feed(&mut self, block: &[u8], out: &mut Vec<u8>) {
        let mut rest = block;
        while let Some(end) = rest.iter().position(|&byte| byte == b'\n') {
            if self.partial.is_empty() {
                self.bench.line(&rest[..end], out);
            } else {
                self.keep(&rest[..end]);
                self.bench.line(&self.partial, out);
                self.partial.clear();
            }
            rest = &rest[end + 1..];
        }
        self.keep(rest);
    }

    /// Appends the answer to a last line that lacks its LF.
    pub fn finish(&mut self, out: &mut Vec<u8>) {
        if !self.partial.is_empty() {
            self.bench.line(&self.partial, out);
            self.partial.clear();
        }
    }

    fn keep(&mut self, characters: &[u8]) {
        let room = LONGEST_LINE + 1 - self.partial.len();
        self.partial
            .extend_from_slice(&characters[..characters.len().min(room)]);
    }
}

/// The answers of a new bench to a whole script.
pub fn answers(script: &[u8]) -> Vec<u8> {
    let mut out = Vec::new();
    let mut stream = Stream::new();
    stream.feed(script, &mut out);
    stream.finish(&mut out);
    out
}

#[cfg(test)]
mod tests {
    use super::*;

    fn check(script: &str, expected: &str) {
        let out = answers(script.as_bytes());
        assert_eq!(String::from_utf8(out).unwrap(), expected);
    }

    #[test]
    fn listing_of_the_paper() {
        let input = "906C0000010300\n90DC000005031E00000000\n906C0000010300\n\
                     90C7000000\n906C0000010300\n901C000005031F00000000\n\n906C0000010300\n";
        let output = "640000009100\n9100\n640000009100\n\
                      9100\n460000009100\n91BE\n\n460000009100\n";
        check(input, output);
        check(&input.to_lowercase(), output);
        check(input.trim_end(), output);
    }

    #[test]
    fn examples_p2_to_p12() {
        check("806C0000010300", "6E00\n");
        check("906C0100010300", "6A86\n");
        check("906C0000010301", "6700\n");
        check("90FF000000", "911C\n");
        check("906C0000010700\n906C0000010000", "91F0\n919D\n");
        check("900C000005038403000000", "9100\n");
        check("900C000005038503000000", "91BE\n");
        check("900C00000503FFFFFFFF00", "919E\n");
        check("90AD00000700FF000001000000", "009100\n");
        check("90AD0000070000010000000000", "91BE\n");
        check(
            "PEEEEEEEEEEEEEEEEEEEE00000000FFFFFF7FFFFFFF7F01\n900C000005030100000000",
            "!0\n91BE\n",
        );
        check("90C7000000", "910C\n");
        check(
            "908B00000801000000010000AA00\n90C7000000\n90EB0000010100\n\
             908B00000801000000010000BB00\n90AB0000070100000000000000",
            "9100\n9100\n9100\n919D\nAA0000000000000000000000000000009100\n",
        );
    }

    #[test]
    fn books() {
        check("B", "100 100 0 0 0 0 - -\n");
        check(
            "S03\n90DC000005031E00000000\n900C000005030500000000\nB\n90C7000000\n\
             901C000005030A00000000\n908B00000801000000010000AA00\nB\n90EB0000010100\nB\n90C7000000\nB\n\nB",
            "!0\n9100\n9100\n100 75 0 0 30 0 v 3\n9100\n\
             9100\n9100\n75 85 30 0 0 0 vn 3\n9100\n75 85 30 0 0 0 vc 3\n9100\n85 85 0 0 0 0 - 3\n\n85 85 0 0 0 0 - -\n",
        );
    }

    #[test]
    fn personalisation_lines() {
        let limits = "18FCFFFFFFFFFFFF9CFFFFFF";
        check(
            &format!("PEEEEEEEEEEEEEEEEEEEE{limits}FD\nB\n906C0000010300"),
            "!0\n-100 -100 0 0 0 0 - -\n9CFFFFFF9100\n",
        );
        check(
            &format!("PEEEEEEEEEEEEEEEEEE5E{limits}00\nB\n90C7000000\n906C0000010300"),
            "!1\n0 0 0 0 0 0 - -\n910C\n919D\n",
        );
        check("PEEEEEEEEEEEEEEEEEEEE01000000000000000000000000", "!2\n");
        check("PEEEEEEEEEEEEEEEEEEEE00000000010000000200000000", "!3\n");
        check("PEEEEEEEEEEEEEEEEEEEE000000000100000002000000", "?\n");
        check("PEEEEEEEEEEEEEEEEEEEE000000000100000002000000000", "?\n");
        check("pEEEEEEEEEEEEEEEEEEEE00000000010000000200000000", "?\n");
    }

    #[test]
    fn rights_words_are_least_significant_byte_first() {
        // File 03h has the rights word E0F4h: Read free, Write key 0, ReadWrite never.
        let personalise = "PEEEEEEEEEEEEF4E0EEEE00000000E80300006400000001";
        check(
            &format!("{personalise}\n906C0000010300\n900C000005030100000000"),
            "!0\n640000009100\n919D\n",
        );
        check(
            &format!(
                "{personalise}\n90DC000005030100000000\n90C7000000\nS00\n901C000005030100000000"
            ),
            "!0\n9100\n9100\n!0\n9100\n",
        );
    }

    #[test]
    fn sessions_and_rooms() {
        check(
            "S04\nS05\nB\nSFF\nS\nB\nS4\nS004\ns04",
            "!0\n!4\n100 100 0 0 0 0 - 4\n!4\n!0\n100 100 0 0 0 0 - -\n?\n?\n?\n",
        );
        check(
            "R0101\n906C0000010300\nR0102\n906C0000010300\nR0200\nR0201\n906C0000010300\nR0000\n00\nR102",
            "!0\n!5\n!0\n640000009100\n!0\n?\n640000009100\n!0\n!5\n?\n",
        );
    }

    /// The exchange that request 06 names, with key 0 of zeros.
    #[test]
    fn published_exchange() {
        check(
            "NB9E2FC789B64BF237CCCAA20EC7E6E489D00C4DF\nB\n\
             9071000002000000\nB\n\
             90AF00002035C3E05A752E0144BAC0DE51C1F22C56B34408A23D8AEA266CAB947EA8E0118D00\nB\n",
            "!0\n100 100 0 0 0 0 - -\n\
             A04C124213C186F22399D33AC2A3021591AF\n100 100 0 0 0 0 - 0?\n\
             3FA64DB5446D1F34CD6EA311167F5E4985B89690C04A05F17FA7AB2F081206639100\n\
             100 100 0 0 0 0 - 0:0\n",
        );
    }

    #[test]
    fn inputs_are_zeros_at_the_start_and_outlast_a_personalisation() {
        let personalise = "PEEEEEEEEEEEEEEEEEEEE00000000E80300006400000001";
        // The zero block under the zero key, as in the first test case of GCM.
        check(
            &format!(
                "9071000002000000\nNB9E2FC789B64BF237CCCAA20EC7E6E489D00C4DF\n\
                 {personalise}\n9071000002000000\nB\nS\n{personalise}\nB"
            ),
            "66E94BD4EF8A2C3B884CFA59CA342B2E91AF\n!0\n!0\n\
             A04C124213C186F22399D33AC2A3021591AF\n100 100 0 0 0 0 - 0?\n!0\n!0\n\
             100 100 0 0 0 0 - -\n",
        );
        let digits = "0".repeat(40);
        check(
            &format!(
                "N\nN{digits}\nN{digits}0\nN{digits}00\nN0{digits}\nn{digits}\nN{}G",
                &digits[1..]
            ),
            "?\n!0\n?\n?\n?\n?\n?\n",
        );
        check(&format!("N{}", &digits[2..]), "?\n");
    }

    #[test]
    fn keys_and_modes() {
        let base = "PEEEEEEEEEEEEEEEEEEEE00000000E80300006400000001";
        let keys: String = (0..5).map(|key| format!("{key:X}").repeat(32)).collect();
        // Bits 0, 3 and 4: the files 00h, 03h and 01h. The others are not looked at.
        check(
            &format!(
                "{base}{keys}F9\n90F50000010000\n90F50000010400\n90F50000011F00\n\
                 90F50000010300\n90F50000010100\n9071000002020000\nB"
            ),
            "!0\n0001EEEE0001009100\n0000EEEE0001009100\n0000EEEE2000009100\n\
             0201EEEE00000000E803000000000000019100\n0401EEEE1000000400000000009100\n\
             35A611C675AB604AC328DC75152182C091AF\n100 100 0 0 0 0 - 2?\n",
        );
        // No line ends inside the second group, or inside the third.
        for length in [base.len() - 1 + 2, 206, 207, 209, 210] {
            let order = format!("{base}{keys}F90000");
            check(
                &format!("{}\nB", &order[..=length]),
                "?\n100 100 0 0 0 0 - -\n",
            );
        }
        // A refused order leaves zero keys and plain modes.
        let refused = base.replacen("EEEE", "EEE5", 1);
        check(
            &format!("{refused}{keys}1F\n90F50000010000\n9071000002020000"),
            "!1\n0000FFFF0001009100\n66E94BD4EF8A2C3B884CFA59CA342B2E91AF\n",
        );
    }

    /// An order for the program's card with these numbers.
    fn numbered(numbers: &str) -> String {
        let base = "PEEEEEEEEEEEEEEEEEEEE00000000E80300006400000001";
        format!("{base}{}{numbers}", "0".repeat(2 * KEY_GROUP))
    }

    #[test]
    fn numbers_of_files() {
        let own = numbered("051E02100F");
        assert_eq!(own.len(), 1 + 218);
        check(
            &format!(
                "{own}\n906C0000011000\n906C0000010300\n90DC000005101E00000000\n90C7000000\n\
                 90F50000010500\n90F50000011E00\n90F50000010200\n90F50000011000\n\
                 90F50000010F00\nB"
            ),
            "!0\n640000009100\n91F0\n9100\n9100\n\
             0000EEEE0001009100\n0000EEEE0001009100\n0000EEEE2000009100\n\
             0200EEEE00000000E80300001E000000019100\n0400EEEE1000000400000000009100\n\
             70 70 30 30 0 0 - -\n",
        );
        check(
            &format!(
                "{}\n906C0000010300",
                own.to_lowercase().replacen('p', "P", 1)
            ),
            "!0\n91F0\n",
        );
        // A chain on a file of its own number.
        check(
            &format!(
                "{own}\nC908D0000071E00000003000000\nD0102\nB\nD03\n90AD0000071E00000004000000"
            ),
            "!0\n\n\n100 100 0 0 0 0 w -\n9100\n010203009100\n",
        );
    }

    #[test]
    fn numbers_that_are_refused_leave_the_old_ones() {
        for (numbers, answer) in [
            ("20041F0301", "!7"),
            ("00041F03FF", "!7"),
            ("0404200301", "!7"),
            ("04041F0301", "!8"),
            ("00041F0300", "!8"),
        ] {
            check(
                &format!("{}\n90F50000011F00\n90F50000010300\nB", numbered(numbers)),
                &format!(
                    "{answer}\n0000FFFF2000009100\n\
                     0200FFFF000000000000000000000000009100\n0 0 0 0 0 0 - -\n"
                ),
            );
        }
        // After the others.
        let wrong = numbered("2020202020");
        check(&wrong.replacen("PEEEE", "PEE5E", 1), "!1\n");
        check(
            &wrong.replacen("00000000E8030000", "E9030000E8030000", 1),
            "!2\n",
        );
        check(&wrong.replacen("64000000", "E9030000", 1), "!3\n");
    }

    #[test]
    fn shorter_orders_have_the_old_numbers_again() {
        let own = numbered("051E02100F");
        for length in [46, 208] {
            check(
                &format!("{own}\n{}\n906C0000010300\n906C0000011000", &own[..=length]),
                "!0\n!0\n640000009100\n91F0\n",
            );
        }
        // No order ends elsewhere, and the card is the one before.
        for length in [209, 210, 212, 214, 216, 217, 219, 220, 222, 228] {
            let order = own.clone() + &"0".repeat(10);
            check(
                &format!("{own}\n{}\n906C0000011000", &order[..=length]),
                "!0\n?\n640000009100\n",
            );
        }
    }

    #[test]
    fn chains() {
        check(
            "C908D0000070000000003000000\nB\nD0102\nD03\nB\n90AD0000070000000004000000",
            "\n100 100 0 0 0 0 w -\n\n9100\n100 100 0 0 0 0 - -\n010203009100\n",
        );
        // Digits of either case, and an answer only where there is a reply.
        check(
            "C908d0000071f1e000002000000\nDaB\nDCd\nD\nC908D0000071F1F000002000000",
            "\n\n9100\n911C\n91BE\n",
        );
        check(
            "S01\n90DC000005031E00000000\n908B00000801000000010000AA00\n\
             C908D0000070000000003000000\nB\nD01\nS\nB\nD02",
            "!0\n9100\n9100\n\n100 70 0 0 30 0 vnw 1\n\n!0\n100 70 0 0 30 0 vn -\n911C\n",
        );
        check(
            "C908D0000070000000003000000\nR0101\nD\nC90\nD01\n90\nR0102\nB\nD010203",
            "\n!0\n!5\n!5\n!5\n!5\n!0\n100 100 0 0 0 0 w -\n9100\n",
        );
    }

    const WRITE: &str = "908B00000801000000010000AA00";

    #[test]
    fn stored_bytes_of_commits() {
        check("L", "0\n");
        check(&format!("{WRITE}\nL\n90C7000000\nL"), "9100\n0\n9100\n16\n");
        // Of two writes into one entry, beside a value operation, with an option.
        check(
            &format!("{WRITE}\n{WRITE}\n90DC000005030100000000\n90C70000010000\nL"),
            "9100\n9100\n9100\n9100\n16\n",
        );
        check("90DC000005030100000000\n90C7000000\nL", "9100\n9100\n0\n");
        // A clear drops the entry, and stores nothing.
        check(
            &format!("{WRITE}\n90EB0000010100\n90C7000000\nL"),
            "9100\n9100\n9100\n0\n",
        );
        // A full log stores no more than an empty one.
        for entries in 1..=6 {
            let commits = format!("{WRITE}\n90C7000000\n").repeat(entries);
            let answers = "9100\n".repeat(2 * entries);
            check(&format!("{commits}L"), &format!("{answers}16\n"));
        }
    }

    #[test]
    fn stored_bytes_are_those_of_the_last_event() {
        let stored = format!("{WRITE}\n90C7000000\n");
        let personalise = "PEEEEEEEEEEEEEEEEEEEE00000000E80300006400000001";
        for (event, answer) in [
            ("", ""),
            ("S03", "!0"),
            ("S", "!0"),
            ("S05", "!4"),
            (personalise, "!0"),
            (&personalise.replacen('E', "5", 1), "!1"),
            ("906C0000010300", "640000009100"),
            ("906C0000010700", "91F0"),
            ("90C7000000", "910C"),
            ("90A7000000", "910C"),
            ("9071000002000000", "66E94BD4EF8A2C3B884CFA59CA342B2E91AF"),
            ("C908D0000070000000002000000", ""),
            ("C90", "6700"),
            ("D", "911C"),
            ("C9", "6700"),
        ] {
            check(
                &format!("{stored}{event}\nL"),
                &format!("9100\n9100\n{answer}\n0\n"),
            );
        }
        for event in ["906C0000010300", "C90", "D00"] {
            check(
                &format!("{stored}R0101\nL\n{event}\nL"),
                "9100\n9100\n!0\n16\n!5\n0\n",
            );
        }
        let inputs = "N".to_owned() + &"0".repeat(40);
        check(
            &format!("{stored}{inputs}\nL\nR0102\nL\nB\nL\nL"),
            "9100\n9100\n!0\n16\n!0\n16\n100 100 0 0 0 1 - -\n16\n16\n",
        );
        for line in [
            "LL", "L0", "L00", "L16", "L ", " L", "l", "9", "S0", "R0201", "C", "P", "N", "?",
        ] {
            check(&format!("{stored}{line}\nL"), "9100\n9100\n?\n16\n");
        }
    }

    #[test]
    fn lines_of_chains_that_are_none() {
        // A letter before an odd number of digits is a digit itself.
        check(
            "C\nC9\nC90\nCG0\nC90 \nc90\nCC90\nD\nD0\nD00\nDG0\nD 00\nd00\nDD00",
            "?\n6700\n6700\n?\n?\n?\n6700\n911C\n6700\n911C\n?\n?\n?\n6700\n",
        );
        for letter in ["C", "D"] {
            let longest = format!("{letter}{}", "0".repeat(LONGEST_LINE - 2));
            let status = if letter == "C" { "6700" } else { "911C" };
            check(
                &format!("{longest}\n{longest}0\n{longest}00"),
                &format!("{status}\n6700\n?\n"),
            );
        }
    }

    #[test]
    fn other_lines() {
        check(
            "9\n90 6C\n906C0000010300\r\n\0\nB \nb\nBB\n",
            "?\n?\n?\n?\n?\n?\n6700\n",
        );
        let long = "0".repeat(LONGEST_LINE);
        check(&format!("{long}\n{long}0\n{long}00\n"), "6700\n?\n?\n");
        check("", "");
        check("\n", "\n");
    }

    #[test]
    fn blocks_may_end_anywhere() {
        let script = b"S04\n906C0000010300\n\nB\n90 \n906C0000010300";
        let whole = answers(script);
        for cut in 0..=script.len() {
            let mut out = Vec::new();
            let mut stream = Stream::new();
            stream.feed(&script[..cut], &mut out);
            stream.feed(&script[cut..], &mut out);
            stream.finish(&mut out);
            assert_eq!(out, whole);
        }
    }
}
