//! The live handles of a channel.

use std::collections::{BTreeMap, BTreeSet};

const LIVE_LIMIT: usize = 65_535;

/// The live senders and receivers, and the number of the next handle.
pub struct Handles {
    pub senders: BTreeSet<u64>,
    /// Each with the position that it reads next, or on a watch channel the version that it has seen.
    pub receivers: BTreeMap<u64, u64>,
    next: u64,
}

impl Handles {
    pub fn new(next: u64) -> Option<Handles> {
        (next > 0).then(|| Handles {
            senders: BTreeSet::new(),
            receivers: BTreeMap::new(),
            next,
        })
    }

    pub fn is_closed(&self) -> bool {
        self.senders.is_empty()
    }

    /// A sender of a picture: its number is above that of the last one.
    pub fn tell_sender(&mut self, tx: u64) -> Option<()> {
        let fits = self.receivers.is_empty()
            && (1..self.next).contains(&tx)
            && self.senders.len() < LIVE_LIMIT
            && self.senders.last().is_none_or(|&last| last < tx);
        fits.then(|| {
            self.senders.insert(tx);
        })
    }

    /// A receiver of a picture: its number is above that of the last one, and no sender's.
    pub fn tell_receiver(&mut self, rx: u64, place: u64) -> Option<()> {
        let fits = (1..self.next).contains(&rx)
            && self.receivers.len() < LIVE_LIMIT
            && self
                .receivers
                .last_key_value()
                .is_none_or(|(&last, _)| last < rx)
            && !self.senders.contains(&rx);
        fits.then(|| {
            self.receivers.insert(rx, place);
        })
    }

    /// The number of a new handle of a kind of which so many are live.
    fn number(&mut self, live: usize) -> Option<u64> {
        if live >= LIVE_LIMIT || self.next == u64::MAX {
            return None;
        }
        self.next += 1;
        Some(self.next - 1)
    }

    pub fn new_sender(&mut self) -> Option<u64> {
        let tx = self.number(self.senders.len())?;
        self.senders.insert(tx);
        Some(tx)
    }

    pub fn new_receiver(&mut self, place: u64) -> Option<u64> {
        let rx = self.number(self.receivers.len())?;
        self.receivers.insert(rx, place);
        Some(rx)
    }
}
