//! What a receiver of a watch channel has seen.
use std::sync::atomic::{AtomicU64, Ordering};

/// The version that a receiver has seen, or another one if the newest value is unseen. It answers
/// questions without a call. Only a `&mut` receiver or the holder of the state's lock changes it.
///
/// On a channel without a history, a look that marks the newest value seen makes no call either.
/// The library is then owed the mark, and gets it before the next call that depends on it.
pub(super) struct Mark(AtomicU64);

/// The lowest bit: whether the library is owed the mark. The version is in the bits above.
const OWED: u64 = 1;

impl Mark {
    pub(super) fn new(version: u64) -> Self {
        Self(AtomicU64::new(version << 1))
    }

    #[inline]
    pub(super) fn seen(&self) -> u64 {
        self.0.load(Ordering::Relaxed) >> 1
    }

    #[inline]
    pub(super) fn is_unseen(&self, newest: u64) -> bool {
        self.seen() != newest
    }

    /// Sets the version as the library has just done.
    #[inline]
    pub(super) fn set(&self, version: u64) {
        self.0.store(version << 1, Ordering::Relaxed);
    }

    /// Marks the newest version seen, and owes the library that mark. Returns whether it was
    /// unseen.
    #[inline]
    pub(super) fn take(&self, newest: u64) -> bool {
        let is_unseen = self.is_unseen(newest);
        if is_unseen {
            self.0.store(newest << 1 | OWED, Ordering::Relaxed);
        }
        is_unseen
    }

    /// Returns whether the library is owed a mark, which the caller then makes. If a later version
    /// was published since, it is no longer owed: the newest value is unseen with or without the
    /// mark.
    #[inline]
    pub(super) fn settle(&self, newest: u64) -> bool {
        let held = self.0.load(Ordering::Relaxed);
        if held & OWED == 0 {
            return false;
        }
        self.set(held >> 1);
        held >> 1 == newest
    }
}
