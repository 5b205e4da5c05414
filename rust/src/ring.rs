//! The log's slots as request 08 has them, written from its text and beside the
//! list that the model keeps.

use crate::model::{Entry, ENTRY_SIZE, LOG_ENTRIES};

/// A ring of four slots, and how often each was stored.
#[derive(Clone, Debug, Default, PartialEq, Eq)]
pub struct Ring {
    slots: [Entry; LOG_ENTRIES],
    /// The slot behind the one stored last, which is where the ring starts after
    /// a clear too; slot 0 before the first store.
    next: usize,
    /// How many of the slots before it hold entries of the log.
    entries: usize,
    stores: [u64; LOG_ENTRIES],
}

impl Ring {
    /// Stores a new entry in the slot behind the newest. No other slot is
    /// stored; the oldest entry of a full log is the one stored over.
    pub fn store(&mut self, entry: &Entry) {
        self.slots[self.next] = *entry;
        self.stores[self.next] += 1;
        self.next = (self.next + 1) % LOG_ENTRIES;
        self.entries = (self.entries + 1).min(LOG_ENTRIES);
    }

    /// Empties the log. No slot is stored, and the ring stays where it is.
    pub fn clear(&mut self) {
        self.entries = 0;
    }

    /// The slot of an entry, counted from the newest as 0.
    fn slot(&self, entry: usize) -> usize {
        (self.next + LOG_ENTRIES - 1 - entry) % LOG_ENTRIES
    }

    /// The entries of the log, the newest first.
    pub fn newest_first(&self) -> impl DoubleEndedIterator<Item = &Entry> {
        (0..self.entries).map(|entry| &self.slots[self.slot(entry)])
    }

    /// The slot of the newest entry, and the number of entries; none of an empty
    /// log.
    pub fn place(&self) -> Option<(usize, usize)> {
        (self.entries > 0).then(|| (self.slot(0), self.entries))
    }

    /// How often each slot was stored.
    pub fn stores(&self) -> [u64; LOG_ENTRIES] {
        self.stores
    }
}

/// The most that a slot may have been stored after so many committed entries:
/// their number divided by 4, rounded up.
pub fn bound(committed: u64) -> u64 {
    let slots = LOG_ENTRIES as u64;
    (committed + slots - 1) / slots
}

/// The slot bytes that a commit stores.
pub fn stored_by(new_entry: bool) -> usize {
    if new_entry {
        ENTRY_SIZE
    } else {
        0
    }
}

#[cfg(test)]
mod tests {
    use super::*;
    use crate::bench::Bench;
    use crate::rng::Rng;
    use crate::scripts::Writer;
    use crate::tally::{LastEvent, LineSort};

    fn entry(byte: u8) -> Entry {
        [byte; ENTRY_SIZE]
    }

    fn first_bytes(ring: &Ring) -> Vec<u8> {
        ring.newest_first().map(|entry| entry[0]).collect()
    }

    #[test]
    fn a_fifth_entry_is_stored_over_the_oldest() {
        let mut ring = Ring::default();
        assert_eq!(ring.place(), None);
        for byte in 1..=5 {
            ring.store(&entry(byte));
        }
        assert_eq!(first_bytes(&ring), [5, 4, 3, 2]);
        assert_eq!(ring.slots, [5, 2, 3, 4].map(entry));
        assert_eq!(ring.place(), Some((0, 4)));
        assert_eq!(ring.stores(), [2, 1, 1, 1]);
    }

    #[test]
    fn a_clear_leaves_the_ring_where_it_is() {
        let mut ring = Ring::default();
        for byte in 1..=2 {
            ring.store(&entry(byte));
        }
        ring.clear();
        assert_eq!(first_bytes(&ring), []);
        assert_eq!(ring.slots, [1, 2, 0, 0].map(entry));
        for byte in 3..=5 {
            ring.store(&entry(byte));
        }
        assert_eq!(first_bytes(&ring), [5, 4, 3]);
        assert_eq!(ring.slots, [5, 2, 3, 4].map(entry));
        assert_eq!(ring.place(), Some((0, 3)));
    }

    /// Whether no slot is above the bound at any time of a history of entries and
    /// clears.
    fn keeps_the_bound(clear: fn(&mut Ring)) -> bool {
        let mut rng = Rng::new(1);
        let mut ring = Ring::default();
        (0..10_000).all(|_| {
            if rng.percent(30) {
                clear(&mut ring);
            } else {
                ring.store(&entry(rng.byte()));
            }
            let stores = ring.stores();
            let most = bound(stores.iter().sum());
            stores.iter().all(|&count| count <= most)
        })
    }

    #[test]
    fn no_slot_is_stored_more_often_than_the_bound() {
        assert_eq!([0, 1, 4, 5, 8].map(bound), [0, 1, 1, 2, 2]);
        assert!(keeps_the_bound(Ring::clear));
        // One that starts at slot 0 again after a clear does not keep it.
        assert!(!keeps_the_bound(|ring| {
            ring.clear();
            ring.next = 0;
        }));
    }

    /// The ring beside the model's list, through all sorts of events.
    #[test]
    fn read_from_the_newest_it_is_the_models_list() {
        let mut writer = Writer::new(6);
        let mut committed = 0;
        while committed < 5000 {
            let mut bench = Bench::new();
            let mut ring = Ring::default();
            for line in writer.script(3000).lines {
                let before = bench.card().books();
                let entry = bench.card().new_entry().copied();
                let mut answer = Vec::new();
                bench.line(&line, &mut answer);
                let sort = LineSort::of(&line, &answer);
                let event = LastEvent::of(sort, &line, &answer, &before);
                let stores = event.map_or(false, LastEvent::stores);
                match event {
                    Some(LastEvent::Clear) => ring.clear(),
                    Some(LastEvent::Personalised | LastEvent::Blank) => ring = Ring::default(),
                    _ if stores => ring.store(&entry.expect("a new entry")),
                    _ => {}
                }
                assert!(ring.newest_first().eq(bench.card().entries()));
                if event.is_some() {
                    assert_eq!(bench.stored(), stored_by(stores));
                }
                committed += u64::from(stores);
            }
        }
    }
}
