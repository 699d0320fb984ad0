//! The builder of a broadcast channel, and the record of one.
use super::kept::Kept;
use super::{Receiver, Sender, Shared, State};
use crate::library;
use crate::recording::{Core, FIRST_SENDER, LEAST_LIMIT};
use crate::waiting::Waiters;
use crate::{BuildError, HandleError};
use std::fmt;
use std::sync::Arc;

/// Builds a channel.
#[derive(Clone, Copy, Debug)]
pub struct Builder {
    capacity: usize,
}

impl Builder {
    /// A builder for a channel that keeps at least `capacity` values: 1 to 65,536, rounded up to a
    /// power of two.
    pub fn new(capacity: usize) -> Self {
        Self { capacity }
    }

    /// Makes the channel record each call with its reply. `limit`, 3 to 1,000,000, is the maximum
    /// number of entries in one trace. It reserves room for the drop of each live handle, so choose
    /// it well above their number.
    pub fn recorded(self, limit: u64) -> RecordedBuilder {
        RecordedBuilder {
            builder: self,
            limit,
        }
    }

    /// Makes the channel, with a sender and a receiver.
    #[track_caller]
    pub fn build<T: Clone>(self) -> Result<(Sender<T>, Receiver<T>), BuildError> {
        self.made(None)
    }

    #[track_caller]
    pub(super) fn made<T>(
        self,
        limit: Option<u64>,
    ) -> Result<(Sender<T>, Receiver<T>), BuildError> {
        let core = Core::new(library::Broadcast::new(self.capacity as u64, limit)?);
        let mut state = State {
            core,
            kept: Kept::new(self.capacity),
            senders: [FIRST_SENDER].into(),
            weak_senders: 0,
            receivers: 0,
            waiting: Waiters::default(),
            leaving: Waiters::default(),
        };
        let receiver = state
            .new_receiver(|channel| channel.subscribe(FIRST_SENDER))
            .map_err(|error| match error {
                HandleError::Memory => BuildError::Memory,
                HandleError::TooMany | HandleError::Limit => BuildError::Limit,
            })?;
        let shared = Shared::new(state);
        Ok((
            Sender {
                shared: Arc::clone(&shared),
                id: FIRST_SENDER,
            },
            Receiver::new(shared, receiver),
        ))
    }
}

/// A channel that records its calls.
pub type Recorded<T> = (Sender<T>, Receiver<T>, Recording<T>);

/// Builds a channel that records its calls.
#[derive(Clone, Copy, Debug)]
pub struct RecordedBuilder {
    builder: Builder,
    limit: u64,
}

impl RecordedBuilder {
    /// Makes the channel, with a sender, a receiver and the record.
    #[track_caller]
    pub fn build<T: Clone>(self) -> Result<Recorded<T>, BuildError> {
        if self.limit < LEAST_LIMIT {
            return Err(BuildError::Limit);
        }
        let (sender, receiver) = self.builder.made(Some(self.limit))?;
        let recording = Recording {
            shared: Arc::clone(&sender.shared),
        };
        Ok((sender, receiver, recording))
    }
}

/// The record of a channel. It is not a handle of the channel, and may outlive all of them.
pub struct Recording<T> {
    shared: Arc<Shared<T>>,
}

impl<T> Recording<T> {
    /// Returns the calls and their replies, as a trace that [`check`](crate::check) and
    /// `topichub check` can read.
    ///
    /// Each trace begins where the last one ended. It has everything since then or, if that is more
    /// than the limit, as much as fills it; the rest is kept for the next trace. `END 0` means that
    /// nothing has happened. In a trace, a value is written as the number of values sent before it.
    ///
    /// # Panics
    ///
    /// If an allocation fails.
    #[track_caller]
    pub fn trace(&self) -> String {
        let segment = self.shared.lock().core.cut();
        segment.into_text()
    }

    /// Discards what has not been returned yet, without making a text of it. The next trace begins
    /// here.
    ///
    /// # Panics
    ///
    /// If an allocation fails.
    #[track_caller]
    pub fn discard(&self) {
        let discarded = self.shared.lock().core.cut_all();
        drop(discarded);
    }
}

impl<T> Clone for Recording<T> {
    fn clone(&self) -> Self {
        Self {
            shared: Arc::clone(&self.shared),
        }
    }
}

impl<T> fmt::Debug for Recording<T> {
    fn fmt(&self, to: &mut fmt::Formatter<'_>) -> fmt::Result {
        to.write_str("broadcast::Recording")
    }
}
