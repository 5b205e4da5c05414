//! Deterministic scripts of bench lines, for comparing two bench programs.
//!
//! [`Writer`] keeps a bench of its own at its side, so that most commands mean
//! something to the card at hand, and so that the number of events of each
//! sort is known ([`Tally`]).

mod chains;
mod commands;
mod counting;
mod ends;
mod lines;
mod numbers;
mod sessions;

pub use chains::FrameFault;
pub use ends::ENDS;
pub use sessions::SealFault;

use crate::bench::Bench;
use crate::frames::{hex_line, Script};
use crate::model::{Accepted, Condition, DataRole, Refusal, Role, REPLY_ROOM};
use crate::ring::Ring;
use crate::rng::Rng;
use crate::tally::{LastEvent, LineSort, Tally};
use chains::OverChain;

/// What a script is about.
#[derive(Clone, Copy, Debug, PartialEq, Eq)]
enum Theme {
    /// Bench sessions alone.
    Base,
    /// Keys, modes and sessions of AuthenticateEV2First too.
    Sessions,
    /// Those, and chains.
    Chains,
}

/// What a stretch of a script is about.
#[derive(Clone, Copy, Debug)]
struct Mood {
    /// Percentage of refused commands that are sent rather than thought over.
    refusals: u64,
    /// Percentage of frames that are damaged.
    damage: u64,
    /// Weights of data, value and log commands, of commits and of aborts.
    weights: [u64; 5],
    /// Percentage of lines that are no commands.
    events: u64,
    /// Percentage of useful sessions that are opened by AuthenticateEV2First.
    real: u64,
    /// Percentage of authentications that are broken off or fail.
    breaks: u64,
    /// Percentage of MACs that are wrong.
    seal_faults: u64,
    /// Percentage of commands under such a session on files of other kinds.
    other_kinds: u64,
    /// Percentage of lines that open a chain.
    chains: u64,
    /// Percentage of openings that are wrong.
    opening_faults: u64,
    /// Percentage of lines in mid-chain that are no file frame that fits.
    cuts: u64,
}

impl Mood {
    /// Accepted commands alone.
    const CALM: Self = Self {
        refusals: 0,
        damage: 0,
        weights: [1; 5],
        events: 0,
        real: 0,
        breaks: 0,
        seal_faults: 0,
        other_kinds: 0,
        chains: 0,
        opening_faults: 0,
        cuts: 0,
    };
}

/// Writes scripts for comparing two bench programs.
#[derive(Clone, Debug)]
pub struct Writer {
    rng: Rng,
    bench: Bench,
    theme: Theme,
    mood: Mood,
    lines: Vec<Vec<u8>>,
    answer: Vec<u8>,
    /// Accepted commands since the last commit, abort or refusal that made
    /// something pending.
    open: u64,
    /// The last chain, while its file has not been read back.
    over: Option<OverChain>,
    /// The last event.
    last: LastEvent,
    /// The sort of the last line.
    behind: LineSort,
    /// The slots of the log.
    ring: Ring,
    /// What all scripts so far contain.
    pub tally: Tally,
}

impl Writer {
    /// The writer of a seed.
    pub fn new(seed: u64) -> Self {
        Self {
            rng: Rng::new(seed),
            bench: Bench::new(),
            theme: Theme::Base,
            mood: Mood::CALM,
            lines: Vec::new(),
            answer: Vec::new(),
            open: 0,
            over: None,
            last: LastEvent::None,
            behind: LineSort::Other,
            ring: Ring::default(),
            tally: Tally::default(),
        }
    }

    /// Begins a script, for a new bench.
    fn begin(&mut self, theme: Theme) {
        self.bench = Bench::new();
        self.theme = theme;
        self.mood = Mood::CALM;
        self.open = 0;
        self.over = None;
        self.last = LastEvent::None;
        self.behind = LineSort::Other;
        self.ring = Ring::default();
    }

    /// The next script, of at least `lines` lines for a new bench.
    pub fn script(&mut self, lines: usize) -> Script {
        let themes = [Theme::Base, Theme::Sessions, Theme::Sessions, Theme::Chains];
        let theme = self.rng.pick(&themes);
        self.begin(theme);
        if self.rng.percent(50) {
            self.line(b"L".to_vec());
        }
        if self.rng.percent(70) {
            self.personalise();
        }
        while self.lines.len() < lines {
            self.change_mood();
            for _ in 0..20 + self.rng.below(200) {
                self.step();
            }
        }
        Script {
            lines: std::mem::take(&mut self.lines),
            last_lf: self.rng.percent(50),
        }
    }

    fn change_mood(&mut self) {
        let weights = self.rng.pick(&[
            [3, 6, 6, 2, 1],
            [3, 6, 6, 2, 1],
            [0, 8, 1, 1, 0],
            [0, 8, 1, 4, 0],
            [1, 0, 8, 1, 0],
            [1, 0, 8, 4, 0],
            [0, 20, 20, 1, 1],
            [1, 20, 20, 1, 0],
            [0, 30, 3, 1, 0],
            [0, 3, 30, 1, 0],
            [8, 1, 1, 1, 1],
        ]);
        let steady = self.rng.percent(match self.theme {
            Theme::Base | Theme::Chains => 45,
            Theme::Sessions => 65,
        });
        self.mood = if steady {
            Mood {
                refusals: 0,
                damage: 0,
                weights,
                events: self.rng.pick(&[0, 1, 2]),
                ..Mood::CALM
            }
        } else {
            Mood {
                refusals: self.rng.pick(&[2, 10, 40, 100]),
                damage: self.rng.pick(&[0, 0, 5, 30, 90]),
                weights,
                events: self.rng.pick(&[2, 8, 20]),
                breaks: self.rng.pick(&[2, 10, 50]),
                seal_faults: self.rng.pick(&[2, 10, 30]),
                other_kinds: self.rng.pick(&[0, 2, 10]),
                ..Mood::CALM
            }
        };
        if self.theme != Theme::Base {
            self.mood.real = self.rng.pick(&[20, 80, 100]);
        }
        if self.theme == Theme::Chains {
            self.mood.chains = self.rng.pick(&[20, 50, 80]);
            if steady {
                self.mood.cuts = self.rng.pick(&[0, 0, 5]);
            } else {
                self.mood.opening_faults = self.rng.pick(&[5, 20, 60]);
                self.mood.cuts = self.rng.pick(&[5, 20, 60]);
            }
        }
    }

    /// One event or other line, and a `B` line after every third or so. Some of
    /// the lines that are no events come between a store and the question after
    /// it.
    fn step(&mut self) {
        let blank = self.is_blank();
        let has_room = self.bench.room() >= REPLY_ROOM;
        if !has_room && self.rng.percent(30) {
            self.room();
        } else if self.theme != Theme::Base && self.waiting().is_some() {
            self.between_parts();
        } else if self.chain().is_some() {
            self.mid_chain();
        } else if let Some(over) = self.over.filter(|_| has_room) {
            self.over = None;
            self.read_back(&over);
        } else if self.rng.below(1000) < if blank { 150 } else { 7 } {
            self.personalise();
        } else if self.rng.percent(self.mood.events) {
            self.event();
        } else if self.in_real_session() && self.rng.percent(self.mood.other_kinds) {
            self.other_kind();
        } else if self.rng.percent(self.mood.chains) {
            self.open_somehow();
        } else if self.rng.percent(self.mood.opening_faults / 10) {
            self.stray_file_frame();
        } else {
            self.command();
        }
        if self.rng.percent(33) {
            self.line(b"B".to_vec());
        }
        if self.bench.stored() > 0 && self.rng.percent(30) {
            self.ask_later();
        }
    }

    /// An `L` line behind another that is no event.
    fn ask_later(&mut self) {
        match self.rng.below(5) {
            0 => self.line(b"B".to_vec()),
            1 => self.line(b"L".to_vec()),
            2 => self.room(),
            3 if self.theme != Theme::Base => self.inputs(),
            _ => self.other(),
        }
        self.line(b"L".to_vec());
    }

    /// A line that is no command, or an authentication.
    fn event(&mut self) {
        let sorts = match self.theme {
            Theme::Base => 8,
            Theme::Sessions | Theme::Chains => 12,
        };
        match self.rng.below(sorts) {
            0 => self.line(Vec::new()),
            1..=4 => self.session(),
            5 => self.room(),
            6..=7 => self.other(),
            8 => self.inputs(),
            _ => self.authenticate_somehow(),
        }
    }

    /// Whether no command on a file can ever be granted.
    fn is_blank(&self) -> bool {
        Role::ALL.iter().all(|&role| {
            let rights = self.bench.card().rights(role);
            [rights.read, rights.write, rights.read_write]
                .iter()
                .all(|&condition| condition == Condition::Never)
        })
    }

    /// Sends a line, and at times asks what it stored: seldom after what there is
    /// much of.
    fn line(&mut self, line: Vec<u8>) {
        self.put_line(line);
        let asks = match self.last {
            LastEvent::Accepted | LastEvent::Frame | LastEvent::Refused => 4,
            _ => 25,
        };
        if self.behind.is_event() && self.rng.percent(asks) {
            self.put_line(b"L".to_vec());
        }
    }

    /// Sends a line to the bench at the side and counts it.
    fn put_line(&mut self, line: Vec<u8>) {
        let waits = self.waiting().is_some();
        let chain = self.chain();
        let books = self.bench.card().books();
        let entry = self.bench.card().new_entry().copied();
        self.answer.clear();
        self.bench.line(&line, &mut self.answer);
        let sort = LineSort::of(&line, &self.answer);
        self.tally.lines += 1;
        self.tally.between[sort as usize] += u64::from(waits);
        self.count_line(sort, &line);
        if let Some(chain) = chain {
            self.count_in_mid_chain(sort, chain);
        }
        self.count_slots(sort, &line, &books, entry);
        self.lines.push(line);
    }

    /// Sends a frame as it is and counts its outcome.
    fn send(&mut self, frame: &[u8]) {
        self.count_frame(frame, self.outcome(frame));
        self.line(hex_line(b"", frame));
    }

    /// A line of digits of either case.
    fn digits_line(&mut self, prefix: &[u8], bytes: &[u8]) {
        let mut line = hex_line(prefix, bytes);
        let digits = &mut line[prefix.len()..];
        match self.rng.below(5) {
            0 => digits.make_ascii_lowercase(),
            1 => {
                for digit in digits {
                    if self.rng.percent(50) {
                        digit.make_ascii_lowercase();
                    }
                }
            }
            _ => {}
        }
        self.line(line);
    }

    /// The outcome that a frame would have.
    fn outcome(&self, frame: &[u8]) -> Result<Accepted, Refusal> {
        self.bench
            .card()
            .clone()
            .answer(frame, self.bench.inputs(), &mut [0; REPLY_ROOM])
    }

    /// A command: thought over a few times if it would be refused, unless the
    /// mood sends refused ones.
    fn command(&mut self) {
        for attempt in 0..8 {
            let mut frame = self.sound_frame();
            if self.rng.percent(self.mood.damage) {
                self.damage(&mut frame);
            }
            let (mut frame, fault) = self.seal(frame);
            let whole = fault.is_none() && frame.len() >= 5;
            if whole && self.rng.percent(self.mood.damage / 4) {
                self.damage(&mut frame);
            }
            let outcome = self.outcome(&frame);
            if outcome == Err(Refusal::NotGranted) && self.rng.percent(self.restlessness()) {
                self.useful_session(frame[5]);
                if self.theme != Theme::Base && self.waiting().is_some() {
                    return;
                }
                continue;
            }
            let special = outcome == Err(Refusal::Boundary)
                && (self.is_second_rebooking(&frame) || self.is_mac_read(&frame));
            let refusals = self.mood.refusals + if special { 25 } else { 0 };
            let wanted = outcome.is_ok() || fault.is_some() || self.rng.percent(refusals);
            if wanted || attempt == 7 {
                if let Some(fault) = fault {
                    self.tally.seal_faults[fault as usize] += 1;
                }
                self.count_frame(&frame, outcome);
                self.digits_line(b"", &frame);
                return;
            }
        }
    }

    /// Percentage of commands that are not granted for which a session is
    /// opened: fewer in a session of AuthenticateEV2First, so that it lasts.
    fn restlessness(&self) -> u64 {
        if self.in_real_session() {
            5
        } else {
            75
        }
    }

    /// A session with a key that the rights of the file of a number name.
    fn useful_session(&mut self, number: u8) {
        let role = self.role(number).unwrap_or(Role::Data(DataRole::FirstLong));
        let rights = self.bench.card().rights(role);
        let keys: Vec<u8> = [rights.read, rights.write, rights.read_write]
            .iter()
            .filter_map(|&condition| match condition {
                Condition::Key(key) => Some(key),
                _ => None,
            })
            .collect();
        if !keys.is_empty() {
            let key = self.rng.pick(&keys);
            if self.rng.percent(self.mood.real) {
                self.authenticate(key);
            } else {
                self.digits_line(b"S", &[key]);
            }
        }
    }
}

#[cfg(test)]
mod tests {
    use super::*;
    use crate::bench::answers;
    use crate::frames::ins;

    #[test]
    fn scripts_are_deterministic() {
        let script = |seed| Writer::new(seed).script(500).bytes();
        assert_eq!(script(1), script(1));
        assert_ne!(script(1), script(2));
    }

    #[test]
    fn scripts_have_one_answer_a_line() {
        let mut writer = Writer::new(7);
        for _ in 0..20 {
            let script = writer.script(1000);
            let out = answers(&script.bytes());
            assert_eq!(
                out.iter().filter(|&&byte| byte == b'\n').count(),
                script.lines.len()
            );
            assert!(script.lines.iter().all(|line| !line.contains(&b'\n')));
        }
    }

    #[test]
    fn scripts_meet_everything_often() {
        let mut writer = Writer::new(3);
        while writer.tally.events() < 160_000 {
            writer.script(3000);
        }
        let tally = &writer.tally;
        println!("{tally}");
        for (place, &count) in Refusal::PLACES.iter().zip(&tally.places) {
            match *place {
                "9c" => assert_eq!(count, 0, "{tally}"),
                _ => assert!(count >= 100, "{tally}"),
            }
        }
        assert!(
            tally.zero_amounts.iter().all(|&count| count >= 50),
            "{tally}"
        );
        assert!(tally.accepted.iter().all(|&count| count >= 500), "{tally}");
        assert!(tally.settings.iter().all(|&count| count >= 300), "{tally}");
        assert!(tally.sealed_settings >= 100, "{tally}");
        for (place, &count) in Refusal::PLACES.iter().zip(&tally.settings_places) {
            match *place {
                "1" | "2" | "3" | "4" | "6" | "7" | "9a" => assert!(count >= 10, "{tally}"),
                "5a" => assert!(count >= 1, "{tally}"),
                _ => assert_eq!(count, 0, "{tally}"),
            }
        }
        assert!(
            tally.personalisations.iter().all(|&count| count >= 20),
            "{tally}"
        );
        for count in [
            tally.no_room,
            tally.sessions,
            tally.power_ups,
            tally.rooms,
            tally.others,
            tally.pushed_out,
            tally.long_transactions,
            tally.rebookings[0],
            tally.rebookings[1],
        ] {
            assert!(count >= 100, "{tally}");
        }
        assert!(tally.held_sums >= 10, "{tally}");
        assert!(tally.used_up >= 50, "{tally}");
    }

    #[test]
    fn scripts_meet_sessions_often() {
        let mut writer = Writer::new(4);
        while writer.tally.events() < 200_000 {
            writer.script(3000);
        }
        let tally = &writer.tally;
        println!("{tally}");
        assert!(tally.opened.iter().all(|&count| count >= 300), "{tally}");
        for (sort, &count) in LineSort::ALL.iter().zip(&tally.between) {
            match sort {
                LineSort::OpeningNoRoom | LineSort::FileFrameNoRoom => {
                    assert!(count >= 3, "{tally}")
                }
                _ => assert!(count >= 10, "{tally}"),
            }
        }
        for count in [tally.inputs, tally.with_keys, tally.free_in_mac_mode] {
            assert!(count >= 300, "{tally}");
        }
        assert!(tally.failed >= 30, "{tally}");
        // Commit, abort and GetFileSettings always have a MAC.
        let [plain, maced] = tally.in_session;
        assert!(maced[..12].iter().all(|&count| count >= 50), "{tally}");
        assert!(plain[..9].iter().all(|&count| count >= 50), "{tally}");
        assert_eq!(plain[9..12], [0; 3], "{tally}");
        assert!(
            tally.seal_faults.iter().all(|&count| count >= 10),
            "{tally}"
        );
        let [shorter, longest, ..] = tally.mac_reads;
        assert!(shorter >= 2 && longest >= 5, "{tally}");
        assert!(tally.mac_reads[2..].iter().sum::<u64>() >= 2, "{tally}");
        assert!(tally.mac_reads_to_end >= 5, "{tally}");
        assert!(tally.highest_counter >= 100, "{tally}");
    }

    #[test]
    fn scripts_meet_own_numbers_often() {
        let mut writer = Writer::new(8);
        while writer.tally.events() < 200_000 {
            writer.script(3000);
        }
        let tally = &writer.tally;
        println!("{tally}");
        let orders: u64 = tally.personalisations.iter().sum();
        let [others, exchanged] = tally.own_numbers;
        // A quarter of all orders, refused ones included.
        assert!(4 * (others + exchanged) >= orders, "{tally}");
        assert!(others >= 50 && exchanged >= 200, "{tally}");
        assert!(tally.personalisations.iter().all(|&n| n >= 20), "{tally}");
        assert!(tally.high_and_twice >= 5, "{tally}");
        assert!(tally.hidden_numbers >= 10, "{tally}");
        // Commands that name a file: plain ones, and with a MAC.
        for counts in tally.by_own_number {
            for (&instruction, &count) in ins::ALL.iter().zip(&counts) {
                match ins::WITHOUT_FILE.contains(&instruction) {
                    true => assert_eq!(count, 0, "{tally}"),
                    false => assert!(count >= 50, "{tally}"),
                }
            }
        }
        assert!(tally.own_chains.iter().all(|&n| n >= 200), "{tally}");
        assert!(tally.old_for_another >= 1000, "{tally}");
        assert!(tally.old_unknown[0] >= 30, "{tally}");
        assert!(tally.old_unknown[1] >= 3, "{tally}");
        assert!(
            tally.old_of_another_kind.iter().all(|&n| n >= 10),
            "{tally}"
        );
    }

    #[test]
    fn scripts_meet_chains_often() {
        let mut writer = Writer::new(5);
        while writer.tally.events() < 400_000 {
            writer.script(3000);
        }
        let tally = &writer.tally;
        println!("{tally}");
        assert!(tally.chain_frames() >= 30_000, "{tally}");
        for count in tally.chains.iter().flatten().chain(&tally.finished) {
            assert!(*count >= 500, "{tally}");
        }
        for count in [tally.free_chains, tally.long_chains, tally.beside_work] {
            assert!(count >= 300, "{tally}");
        }
        for (place, &count) in Refusal::PLACES.iter().zip(&tally.opening_places) {
            match *place {
                // At the end of the counter, which other scripts come to.
                "9a" | "10" | "13" => assert_eq!(count, 0, "{tally}"),
                _ => assert!(count >= 30, "{tally}"),
            }
        }
        assert!(tally.delivered >= 8000, "{tally}");
        assert!(
            tally.frame_faults.iter().all(|&count| count >= 30),
            "{tally}"
        );
        assert!(tally.mid_chain.iter().all(|&count| count >= 15), "{tally}");
        for (sort, &count) in LineSort::ALL.iter().zip(&tally.torn) {
            match sort {
                LineSort::PowerUp
                | LineSort::Session
                | LineSort::Personalisation
                | LineSort::Command
                | LineSort::Opening
                | LineSort::FileFrame => assert!(count >= 30, "{tally}"),
                _ => assert_eq!(count, 0, "{tally}"),
            }
        }
        for (&instruction, &count) in ins::ALL.iter().zip(&tally.interrupted) {
            match instruction {
                ins::SECOND_PART => assert_eq!(count, 0, "{tally}"),
                _ => assert!(count >= 3, "{tally}"),
            }
        }
        for (place, &count) in Refusal::PLACES.iter().zip(&tally.mid_chain_places) {
            match *place {
                "1" | "2" | "3" | "4" | "5" => assert!(count >= 3, "{tally}"),
                _ => assert_eq!(count, 0, "{tally}"),
            }
        }
        assert!(
            tally.read_back.iter().all(|&count| count >= 2000),
            "{tally}"
        );
    }

    #[test]
    fn scripts_ask_what_was_stored_often() {
        let mut writer = Writer::new(6);
        while writer.tally.events() < 200_000 {
            writer.script(3000);
        }
        let tally = &writer.tally;
        println!("{tally}");
        for (event, &count) in LastEvent::ALL.iter().zip(&tally.asked) {
            let least = match event {
                LastEvent::Entry | LastEvent::EntryAndValue => 300,
                LastEvent::Value | LastEvent::Clear | LastEvent::Abort => 100,
                _ => 20,
            };
            assert!(count >= least, "{event:?}: {tally}");
        }
        for (sort, &count) in LineSort::ALL.iter().zip(&tally.asked_behind) {
            match sort {
                LineSort::Command => assert!(count >= 300, "{tally}"),
                _ if sort.is_event() => assert_eq!(count, 0, "{tally}"),
                _ => assert!(count >= 20, "{tally}"),
            }
        }
        // Every place of the ring, with every number of entries.
        let reads = tally.log_reads.iter().flatten();
        assert!(reads.into_iter().all(|&count| count >= 50), "{tally}");
    }

    #[test]
    fn ends_are_where_they_should_be() {
        // The answer to the first line behind counter FFFFh.
        for (end, answer) in [
            (1, "911E"),
            (4, "911E"),
            (14, "91AE"),
            (16, "!0"),
            (17, "911E"),
            (18, "911E"),
            (19, "919D"),
            (20, "91AE"),
            (21, "911C"),
        ] {
            let mut writer = Writer::new(1);
            let script = writer.end_script(1, end);
            let out = answers(&script.bytes());
            let lines: Vec<&[u8]> = out.split(|&byte| byte == b'\n').collect();
            let last = lines
                .iter()
                .rposition(|line| line.ends_with(b" 1:65535"))
                .expect("the counter comes to its end");
            assert_eq!(lines[last + 1], answer.as_bytes(), "{end}");
            assert_eq!(writer.tally.highest_counter, u16::MAX);
            let openings = writer.tally.opening_places[Refusal::Integrity.row()];
            assert_eq!(writer.tally.ended + openings, u64::from(answer == "911E"));
            assert!(lines[lines.len() - 2].ends_with(b" 2:1"), "{end}");
            assert_eq!(script.bytes(), Writer::new(2).end_script(1, end).bytes());
        }
    }
}
