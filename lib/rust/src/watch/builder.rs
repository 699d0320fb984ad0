//! The builder of a watch channel, and the record of one.
use super::{Receiver, Sender, Shared, State};
use crate::library;
use crate::recording::{Core, FIRST_SENDER, LEAST_LIMIT};
use crate::waiting::Waiters;
use crate::{BuildError, HandleError};
use std::fmt;
use std::sync::Arc;

/// Builds a channel.
#[derive(Clone, Copy, Debug)]
pub struct Builder<T> {
    init: T,
}

impl<T> Builder<T> {
    /// A builder for a channel with this value.
    pub fn new(init: T) -> Self {
        Self { init }
    }

    /// Makes the channel record each call with its reply. `limit`, 3 to 1,000,000, is the maximum
    /// number of entries in one trace. It reserves room for the drop of each live handle, so choose
    /// it well above their number.
    pub fn recorded(self, limit: u64) -> RecordedBuilder<T> {
        RecordedBuilder {
            builder: self,
            limit,
        }
    }

    /// Makes the channel, with a sender and a receiver.
    #[track_caller]
    pub fn build(self) -> Result<(Sender<T>, Receiver<T>), BuildError> {
        self.made(None)
    }

    #[track_caller]
    fn made(self, limit: Option<u64>) -> Result<(Sender<T>, Receiver<T>), BuildError> {
        let core = Core::new(library::Watch::new(0, limit)?);
        let (waiting, leaving) = (Waiters::default(), Waiters::default());
        let mut state = State {
            core,
            published: 0,
            version: 0,
            senders: 1,
            receivers: 0,
            waiting,
            leaving,
        };
        let receiver = state
            .new_receiver(|channel| channel.subscribe(FIRST_SENDER))
            .map_err(|error| match error {
                HandleError::Memory => BuildError::Memory,
                HandleError::TooMany | HandleError::Limit => BuildError::Limit,
            })?;
        let seen = state.version;
        let shared = Shared::new(self.init, state, limit.is_some());
        Ok((
            Sender {
                shared: Arc::clone(&shared),
                id: FIRST_SENDER,
            },
            Receiver::new(shared, receiver, seen),
        ))
    }
}

/// A channel that records its calls.
pub type Recorded<T> = (Sender<T>, Receiver<T>, Recording<T>);

/// Builds a channel that records its calls.
#[derive(Clone, Copy, Debug)]
pub struct RecordedBuilder<T> {
    builder: Builder<T>,
    limit: u64,
}

impl<T> RecordedBuilder<T> {
    /// Makes the channel, with a sender, a receiver and the record.
    #[track_caller]
    pub fn build(self) -> Result<Recorded<T>, BuildError> {
        if self.limit < LEAST_LIMIT {
            return Err(BuildError::Limit);
        }
        let (sender, receiver) = self.builder.made(Some(self.limit))?;
        let recording = Recording {
            shared: Arc::clone(&sender.shared),
        };
        Ok((sender, receiver, recording))
    }
}

/// The record of a channel. It is not a handle of the channel, and may outlive all of them.
pub struct Recording<T> {
    shared: Arc<Shared<T>>,
}

impl<T> Recording<T> {
    /// Returns the calls and their replies, as a trace that [`check`](crate::check) and
    /// `topichub check` can read.
    ///
    /// Each trace begins where the last one ended. It has everything since then or, if that is more
    /// than the limit, as much as fills it; the rest is kept for the next trace. `END 0` means that
    /// nothing has happened. In a trace, values are written as numbers: 0 is the initial value, and
    /// each later value has the next number.
    ///
    /// # Panics
    ///
    /// If an allocation fails.
    #[track_caller]
    pub fn trace(&self) -> String {
        let segment = self.shared.lock().core.cut();
        segment.into_text()
    }

    /// Discards what has not been returned yet, without making a text of it. The next trace begins
    /// here.
    ///
    /// # Panics
    ///
    /// If an allocation fails.
    #[track_caller]
    pub fn discard(&self) {
        let discarded = self.shared.lock().core.cut_all();
        drop(discarded);
    }
}

impl<T> Clone for Recording<T> {
    fn clone(&self) -> Self {
        Self {
            shared: Arc::clone(&self.shared),
        }
    }
}

impl<T> fmt::Debug for Recording<T> {
    fn fmt(&self, to: &mut fmt::Formatter<'_>) -> fmt::Result {
        to.write_str("watch::Recording")
    }
}
