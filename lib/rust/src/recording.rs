//! A channel of the library whose history may fill up.
use crate::library::{self, status, Channel, Reply, Trace};
use crate::HandleError;
use std::collections::VecDeque;

/// The number of the sender that a channel is made with.
pub(crate) const FIRST_SENDER: u64 = 1;

/// The least limit of a history: entries for the first receiver, for its drop and for the drop of
/// the first sender.
pub(crate) const LEAST_LIMIT: u64 = 3;

/// A channel of the library, with the segments of its history that were cut but not yet handed out.
pub(crate) struct Core<C> {
    channel: C,
    /// The segments that were cut because they were full, oldest first. Without a history there are
    /// none.
    full: Option<VecDeque<Trace>>,
}

impl<C: Channel> Core<C> {
    pub(crate) fn new(channel: C) -> Self {
        Self {
            channel,
            full: None,
        }
    }

    /// Makes a call. If the history has no room for it, the next segment begins.
    #[track_caller]
    #[inline]
    pub(crate) fn call(&mut self, call: impl Fn(&mut C) -> Reply) -> Reply {
        let told = self.try_call(call);
        if told.status == status::LOG_FULL {
            library::refused(told.status);
        }
        told
    }

    /// Like `call`, but if even a new segment has no room, that is returned as a reply.
    #[track_caller]
    #[inline]
    fn try_call(&mut self, call: impl Fn(&mut C) -> Reply) -> Reply {
        let told = call(&mut self.channel);
        if told.status != status::LOG_FULL {
            return told;
        }
        self.begin_segment();
        call(&mut self.channel)
    }

    // The reply does not pass through here, so that it stays in registers.
    #[track_caller]
    #[cold]
    fn begin_segment(&mut self) {
        let full = self.channel.cut();
        self.full.get_or_insert_with(VecDeque::new).push_back(full);
    }

    /// The number of a new handle.
    #[track_caller]
    pub(crate) fn new_handle(
        &mut self,
        call: impl Fn(&mut C) -> Reply,
    ) -> Result<u64, HandleError> {
        let told = self.try_call(call);
        match told.status {
            status::NEW_TX | status::NEW_RX => Ok(told.number),
            other => Err(library::limit(other).unwrap_or_else(|| library::refused(other))),
        }
    }

    /// The count that a call returns.
    #[track_caller]
    pub(crate) fn count(&mut self, call: impl Fn(&mut C) -> Reply) -> usize {
        let told = self.call(call);
        match told.status {
            status::COUNT => told.number as usize,
            other => library::refused(other),
        }
    }

    /// The oldest segment not yet handed out. Only for a channel that was made with a history.
    #[track_caller]
    pub(crate) fn cut(&mut self) -> Trace {
        let oldest = self.full.as_mut().and_then(VecDeque::pop_front);
        oldest.unwrap_or_else(|| self.channel.cut())
    }

    /// All segments not yet handed out. Only for a channel that was made with a history.
    #[track_caller]
    pub(crate) fn cut_all(&mut self) -> VecDeque<Trace> {
        let mut all = self.full.take().unwrap_or_default();
        all.push_back(self.channel.cut());
        all
    }
}

/// Unwraps the result of a maker. The panic names the caller's line.
#[track_caller]
pub(crate) fn made<A, E: std::fmt::Display>(result: Result<A, E>) -> A {
    match result {
        Ok(made) => made,
        Err(error) => panic!("{error}"),
    }
}
