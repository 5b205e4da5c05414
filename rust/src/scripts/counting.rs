//! Counting what a script contains.

use super::chains::OverChain;
use super::{FrameFault, Writer};
use crate::bench::{BASE_GROUP, KEY_GROUP, NUMBER_GROUP};
use crate::frames::{amount_frame, ins, LONGEST_WRITE};
use crate::hex;
use crate::messaging::MAC_SIZE;
use crate::model::{
    Accepted, Books, Chain, Condition, DataRole, Entry, Mode, Numbers, Refusal, Role, Session,
    Status, HIGHEST_NUMBER, LONGEST_MAC_READ, REPLY_ROOM,
};
use crate::ring::Ring;
use crate::tally::{self, LastEvent, LineSort, Tally};
use crate::terminal::parts;

impl Writer {
    /// Counts a line that was answered.
    pub(super) fn count_line(&mut self, sort: LineSort, line: &[u8]) {
        let tally = &mut self.tally;
        if let Session::Real(session) = self.bench.card().session() {
            tally.highest_counter = tally.highest_counter.max(session.counter);
        }
        match sort {
            LineSort::PowerUp => tally.power_ups += 1,
            LineSort::Session | LineSort::NoKey => tally.sessions += 1,
            LineSort::Room => tally.rooms += 1,
            LineSort::Personalisation => {
                let outcome = tally::ORDER_OUTCOMES
                    .iter()
                    .position(|&number| self.answer[1] == b'0' + number)
                    .expect("an outcome of an order");
                tally.personalisations[outcome] += 1;
                tally.with_keys += u64::from(line.len() > 1 + 2 * BASE_GROUP);
                self.count_order(line);
            }
            LineSort::Books => tally.books += 1,
            // By the last event, in `count_slots`.
            LineSort::Stored => {}
            LineSort::Inputs => tally.inputs += 1,
            LineSort::Other => tally.others += 1,
            LineSort::NoRoom => tally.no_room += 1,
            // The place of a refusal is counted by `count_frame`, and of a frame
            // of a chain by `count_opening` and `count_file_frame`.
            LineSort::Command => tally.commands += 1,
            LineSort::Opening => tally.openings += 1,
            LineSort::FileFrame => tally.file_frames += 1,
            LineSort::OpeningNoRoom => tally.chains_no_room[0] += 1,
            LineSort::FileFrameNoRoom => tally.chains_no_room[1] += 1,
        }
        let drops = match sort {
            LineSort::PowerUp | LineSort::Personalisation => true,
            LineSort::Command | LineSort::Opening | LineSort::FileFrame => {
                let accepted = [&b"9100\n"[..], b"91AF\n"];
                self.answer != b"\n" && !accepted.iter().any(|&end| self.answer.ends_with(end))
            }
            _ => false,
        };
        if drops {
            self.open = 0;
        }
    }

    /// Counts what numbers an order has, whose answer is at hand.
    fn count_order(&mut self, line: &[u8]) {
        let mut numbers = Vec::with_capacity(NUMBER_GROUP);
        match line.get(1 + 2 * (BASE_GROUP + KEY_GROUP)..) {
            Some(digits) if !digits.is_empty() => hex::decode(digits, &mut numbers),
            _ => return,
        };
        let tally = &mut self.tally;
        tally.with_numbers += 1;
        let above = numbers.iter().any(|&number| number > HIGHEST_NUMBER);
        let twice = (1..numbers.len()).any(|at| numbers[..at].contains(&numbers[at]));
        match self.answer[1] {
            b'0' => {
                let exchanged = numbers.iter().zip(Role::ALL).any(|(&number, role)| {
                    Numbers::DEFAULT
                        .role(number)
                        .map_or(false, |old| old != role)
                });
                let own = numbers != Numbers::DEFAULT.in_order();
                tally.own_numbers[usize::from(exchanged)] += u64::from(own);
            }
            b'7' => tally.high_and_twice += u64::from(twice),
            b'8' => {}
            _ => tally.hidden_numbers += u64::from(above || twice),
        }
    }

    /// Counts what a command, or an opening, has to do with numbers that are not
    /// the sheet's: one that is sent next.
    fn count_number(&mut self, frame: &[u8], refusal: Option<Refusal>, is_opening: bool) {
        let (instruction, data) = match parts(frame) {
            Some(parts) => parts,
            None => return,
        };
        let (number, place) = match (data.first(), ins::place(instruction)) {
            (Some(&number), Some(place)) if !ins::WITHOUT_FILE.contains(&instruction) => {
                (number, place)
            }
            _ => return,
        };
        let card = self.bench.card();
        let now = card.numbers().role(number);
        let by_default = Numbers::DEFAULT.role(number);
        let tally = &mut self.tally;
        match (refusal, now) {
            (None, Some(role)) if by_default != now => {
                tally.old_for_another += u64::from(by_default.is_some());
                match role {
                    Role::Data(role) if is_opening => tally.own_chains[role.place()] += 1,
                    _ => {
                        let maced = card.takes_mac(instruction, data);
                        tally.by_own_number[usize::from(maced)][place] += 1;
                    }
                }
            }
            (Some(Refusal::FileNumber), _) if by_default.is_some() => {
                tally.old_unknown[usize::from(is_opening)] += 1;
            }
            (Some(Refusal::KindOrNever), Some(role)) => {
                let other_kind = match by_default {
                    Some(old) => std::mem::discriminant(&old) != std::mem::discriminant(&role),
                    None => false,
                };
                tally.old_of_another_kind[usize::from(is_opening)] += u64::from(other_kind);
            }
            _ => {}
        }
    }

    /// Counts what has to do with the log's slots, and goes along with them: a
    /// line that was answered, with the books and the new entry before it.
    pub(super) fn count_slots(
        &mut self,
        sort: LineSort,
        line: &[u8],
        before: &Books,
        entry: Option<Entry>,
    ) {
        if sort == LineSort::Stored {
            self.tally.asked[self.last as usize] += 1;
            let stored = u64::from(self.bench.stored() > 0);
            self.tally.asked_behind[self.behind as usize] += stored;
        }
        self.behind = sort;
        let event = match LastEvent::of(sort, line, &self.answer, before) {
            Some(event) => event,
            None => return,
        };
        self.last = event;
        match event {
            LastEvent::Entry | LastEvent::EntryAndValue => {
                self.ring.store(&entry.expect("a new entry was pending"));
            }
            LastEvent::Clear => self.ring.clear(),
            LastEvent::Personalised | LastEvent::Blank => self.ring = Ring::default(),
            LastEvent::Accepted if line[2..4].eq_ignore_ascii_case(b"AB") => {
                let (slot, entries) = self.ring.place().expect("an empty log is not read");
                self.tally.log_reads[slot][entries - 1] += 1;
            }
            _ => {}
        }
    }

    /// Counts a line that came while this chain was open.
    pub(super) fn count_in_mid_chain(&mut self, sort: LineSort, chain: Chain) {
        self.tally.mid_chain[sort as usize] += 1;
        if self.chain().is_some() {
            return;
        }
        let cut = self.answer != b"9100\n";
        let torn = cut && chain.left < chain.length;
        self.tally.torn[sort as usize] += u64::from(torn);
        self.over = Some(OverChain { chain, cut });
    }

    /// 0 for no session, 1 for one of the bench, 2 for one of
    /// AuthenticateEV2First; none while a first part waits.
    fn session_sort(&self) -> Option<usize> {
        match self.bench.card().session() {
            Session::None => Some(0),
            Session::Bench(_) => Some(1),
            Session::Real(_) => Some(2),
            Session::Waiting(_) => None,
        }
    }

    /// Counts the outcome of an opening that is sent next.
    pub(super) fn count_opening(&mut self, frame: &[u8], outcome: Result<(), Refusal>) {
        if self.bench.room() < REPLY_ROOM {
            return;
        }
        self.count_number(frame, outcome.err(), true);
        match (outcome, self.session_sort()) {
            (Ok(()), Some(session)) => {
                let role = self.role(frame[5]).expect("an accepted file is known");
                let by_free = session == 2 && self.bench.card().mode(role) == Mode::Mac;
                let length = u64::from(frame[9]) | u64::from(frame[10]) << 8;
                self.tally.chains[session][role.place()] += 1;
                self.tally.free_chains += u64::from(by_free);
                self.tally.long_chains += u64::from(length > LONGEST_WRITE);
            }
            (Ok(()), None) => {}
            (Err(refusal), _) => self.tally.opening_places[refusal.row()] += 1,
        }
    }

    /// Counts the outcome of a file frame that is sent next.
    pub(super) fn count_file_frame(
        &mut self,
        bytes: &[u8],
        outcome: Result<Option<Status>, Refusal>,
    ) {
        if self.bench.room() < REPLY_ROOM {
            return;
        }
        let card = self.bench.card();
        let books = card.books();
        match (outcome, self.session_sort()) {
            (Ok(Some(_)), Some(session)) => {
                let pending = books.value_pending || books.entry_pending || books.clear_pending;
                self.tally.finished[session] += 1;
                self.tally.beside_work += u64::from(pending);
            }
            (Ok(_), _) => self.tally.delivered += 1,
            (Err(_), _) => {
                let fault = FrameFault::of(card, bytes.len()).expect("a refused frame");
                self.tally.frame_faults[fault as usize] += 1;
            }
        }
    }

    /// Counts the outcome of a frame that is sent next.
    pub(super) fn count_frame(&mut self, frame: &[u8], outcome: Result<Accepted, Refusal>) {
        if self.bench.room() < REPLY_ROOM {
            return;
        }
        self.count_in_session(frame, outcome);
        self.count_number(frame, outcome.err(), false);
        match outcome {
            Ok(_) => self.count_accepted(frame),
            Err(refusal) => {
                self.tally.places[refusal.row()] += 1;
                if self.chain().is_some() {
                    self.count_interruption(frame, refusal);
                }
                if frame.get(1) == Some(&ins::GET_FILE_SETTINGS) {
                    self.tally.settings_places[refusal.row()] += 1;
                }
                if refusal == Refusal::BadParameter {
                    self.count_zero_amount(frame);
                }
                if refusal == Refusal::Boundary && self.is_second_rebooking(frame) {
                    self.tally.used_up += 1;
                }
            }
        }
    }

    /// Counts a command that is refused in mid-chain.
    fn count_interruption(&mut self, frame: &[u8], refusal: Refusal) {
        match frame
            .get(1)
            .and_then(|&instruction| ins::place(instruction))
        {
            Some(place) if refusal == Refusal::Interrupted => self.tally.interrupted[place] += 1,
            _ => self.tally.mid_chain_places[refusal.row()] += 1,
        }
    }

    /// Counts what only sessions of AuthenticateEV2First have.
    fn count_in_session(&mut self, frame: &[u8], outcome: Result<Accepted, Refusal>) {
        let card = self.bench.card();
        let tally = &mut self.tally;
        let (instruction, data) = match parts(frame) {
            Some(parts) => parts,
            None => return,
        };
        let accepted = outcome.is_ok();
        match card.session() {
            Session::Waiting(first) if instruction == ins::SECOND_PART => {
                let key = usize::from(first.key_number);
                tally.opened[key] += u64::from(accepted);
                tally.failed += u64::from(outcome == Err(Refusal::NotGranted));
            }
            Session::Real(session) => {
                let maced = card.takes_mac(instruction, data);
                if let (true, Some(place)) = (accepted, ins::place(instruction)) {
                    tally.in_session[usize::from(maced)][place] += 1;
                    let role = data.first().and_then(|&number| card.numbers().role(number));
                    let mode = role.map(|role| card.mode(role));
                    tally.free_in_mac_mode += u64::from(!maced && mode == Some(Mode::Mac));
                }
                let ended = session.counter == u16::MAX && outcome == Err(Refusal::Integrity);
                tally.ended += u64::from(ended);
                if maced && instruction == ins::READ_DATA {
                    let short = card.numbers().of(Role::Data(DataRole::Short));
                    count_mac_read(tally, data, short, outcome);
                }
            }
            _ => {}
        }
    }

    fn count_zero_amount(&mut self, frame: &[u8]) {
        let file = self.number(Role::Value);
        let place = ins::WITH_AMOUNT
            .iter()
            .position(|&instruction| amount_frame(instruction, file, 0) == frame);
        if let Some(place) = place {
            self.tally.zero_amounts[place] += 1;
        }
    }

    /// Whether a frame is a LimitedCredit within the committed allowance that
    /// another of its transaction has used up.
    pub(super) fn is_second_rebooking(&self, frame: &[u8]) -> bool {
        let books = self.bench.card().books();
        let amount = frame.get(6..10).map_or(u32::MAX, |bytes| {
            u32::from_le_bytes(bytes.try_into().expect("four bytes"))
        });
        frame.get(1) == Some(&ins::LIMITED_CREDIT)
            && i64::from(amount) <= i64::from(books.allowance)
            && books.pending_allowance < books.allowance
    }

    /// Whether a frame is a ReadData in MAC mode.
    pub(super) fn is_mac_read(&self, frame: &[u8]) -> bool {
        parts(frame).map_or(false, |(instruction, data)| {
            instruction == ins::READ_DATA && self.bench.card().takes_mac(instruction, data)
        })
    }

    fn count_settings(&mut self, number: u8) {
        let role = self.role(number).expect("an accepted file is known");
        let rights = self.bench.card().rights(role);
        let sealed = [rights.read, rights.write, rights.read_write] == [Condition::Never; 3];
        self.tally.settings[role.place()] += 1;
        self.tally.sealed_settings += u64::from(sealed);
    }

    fn count_accepted(&mut self, frame: &[u8]) {
        let instruction = frame[1];
        let books = self.bench.card().books();
        let place = ins::place(instruction).expect("an accepted instruction is known");
        self.tally.accepted[place] += 1;
        match instruction {
            ins::COMMIT => {
                self.tally.pushed_out += u64::from(books.entries == 4 && books.entry_pending);
                self.tally.held_sums += u64::from(books.debit_sum == i32::MAX);
                if books.pending_allowance < books.allowance {
                    self.tally.rebookings[usize::from(books.debit_sum > 0)] += 1;
                }
                self.tally.long_transactions += u64::from(self.open >= 10);
                self.open = 0;
            }
            ins::ABORT => self.open = 0,
            ins::GET_FILE_SETTINGS => self.count_settings(frame[5]),
            ins::READ_DATA | ins::WRITE_DATA | ins::GET_VALUE | ins::READ_RECORDS => {}
            ins::FIRST_PART | ins::SECOND_PART => {}
            _ => self.open += 1,
        }
    }
}

/// Counts a ReadData in MAC mode by how much it reads, if it stays inside a
/// long file. The short one has this number.
fn count_mac_read(tally: &mut Tally, data: &[u8], short: u8, outcome: Result<Accepted, Refusal>) {
    let figure = |at: usize| (0..3).map(|i| usize::from(data[at + i]) << (8 * i)).sum();
    if data.len() != 7 + MAC_SIZE || outcome == Err(Refusal::Integrity) {
        return;
    }
    let (offset, length): (usize, usize) = (figure(1), figure(4));
    let reads = match length {
        0 => 256usize.saturating_sub(offset),
        _ => length,
    };
    if data[0] == short || offset + reads > 256 {
        return;
    }
    tally.mac_reads_to_end += u64::from(length == 0 && outcome.is_ok());
    if let Some(count) = tally
        .mac_reads
        .get_mut(reads.wrapping_sub(LONGEST_MAC_READ - 1))
    {
        *count += 1;
    }
}
