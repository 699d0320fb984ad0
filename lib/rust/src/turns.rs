//! A lock that is held for one call of a channel at a time.
use crate::blocking::Patience;
use std::sync::atomic::{AtomicUsize, Ordering};
use std::sync::{Mutex, MutexGuard, PoisonError, TryLockError};

/// How long a thread spins for the lock before it sleeps: a few microseconds. A call takes a tenth
/// of one. The mutexes of the standard library and of Tokio spin too.
const PATIENCE: Patience = Patience { spins: 6 };

/// A mutex that senders get first, though nobody waits for long.
///
/// If many receivers compete for the lock, they read each value as soon as it is sent and go back
/// to sleep, so that each value costs a wake-up per receiver. Therefore receivers that find the
/// lock taken queue at a gate, and only the one inside competes with the senders. It lets waiting
/// senders go first, but only for as long as it spins.
pub(crate) struct Turns<T> {
    mutex: Mutex<T>,
    /// Held by the one receiver that competes for the lock.
    gate: Mutex<()>,
    /// How many senders wait for the lock.
    senders: AtomicUsize,
}

impl<T> Turns<T> {
    pub(crate) fn new(value: T) -> Self {
        Self {
            mutex: Mutex::new(value),
            gate: Mutex::new(()),
            senders: AtomicUsize::new(0),
        }
    }

    /// Takes the lock for a caller that lets senders go first.
    #[inline]
    pub(crate) fn lock(&self) -> MutexGuard<'_, T> {
        match self.lock_behind_senders() {
            Some(guard) => guard,
            None => self.lock_through_gate(),
        }
    }

    /// Takes the lock for a sender.
    #[inline]
    pub(crate) fn lock_first(&self) -> MutexGuard<'_, T> {
        match self.try_lock() {
            Some(guard) => guard,
            None => self.lock_before_others(),
        }
    }

    #[cold]
    fn lock_through_gate(&self) -> MutexGuard<'_, T> {
        let _inside = self.gate.lock().unwrap_or_else(PoisonError::into_inner);
        self.lock_in_time(Self::lock_behind_senders)
    }

    #[cold]
    fn lock_before_others(&self) -> MutexGuard<'_, T> {
        self.senders.fetch_add(1, Ordering::Relaxed);
        let guard = self.lock_in_time(Self::try_lock);
        self.senders.fetch_sub(1, Ordering::Relaxed);
        guard
    }

    fn lock_in_time<'a>(
        &'a self,
        attempt: impl Fn(&'a Self) -> Option<MutexGuard<'a, T>>,
    ) -> MutexGuard<'a, T> {
        PATIENCE
            .until(|| attempt(self))
            .unwrap_or_else(|| self.mutex.lock().unwrap_or_else(PoisonError::into_inner))
    }

    #[inline]
    fn lock_behind_senders(&self) -> Option<MutexGuard<'_, T>> {
        if self.senders.load(Ordering::Relaxed) == 0 {
            self.try_lock()
        } else {
            None
        }
    }

    /// Takes the lock if it is free. Poison is ignored: if a value's `clone` has panicked under the
    /// lock, the call was complete, and nothing was left half done.
    #[inline]
    fn try_lock(&self) -> Option<MutexGuard<'_, T>> {
        match self.mutex.try_lock() {
            Ok(guard) => Some(guard),
            Err(TryLockError::Poisoned(held)) => Some(held.into_inner()),
            Err(TryLockError::WouldBlock) => None,
        }
    }
}
