//! Errors of the watch channel.
use std::error::Error;
use std::fmt;

/// There is no receiver. The error contains the value; a later send may succeed.
#[derive(Clone, Copy, PartialEq, Eq)]
pub struct SendError<T>(pub T);

impl<T> fmt::Debug for SendError<T> {
    fn fmt(&self, to: &mut fmt::Formatter<'_>) -> fmt::Result {
        to.debug_struct("SendError").finish_non_exhaustive()
    }
}

impl<T> fmt::Display for SendError<T> {
    fn fmt(&self, to: &mut fmt::Formatter<'_>) -> fmt::Result {
        to.write_str("channel closed")
    }
}

impl<T> Error for SendError<T> {}

/// No sender is left.
#[derive(Clone, Debug, PartialEq, Eq)]
pub struct RecvError(pub(super) ());

impl fmt::Display for RecvError {
    fn fmt(&self, to: &mut fmt::Formatter<'_>) -> fmt::Result {
        to.write_str("channel closed")
    }
}

impl Error for RecvError {}

/// The error of [`Receiver::changed_timeout`](super::Receiver::changed_timeout), with the names of
/// [`std::sync::mpsc::RecvTimeoutError`].
#[derive(Clone, Copy, Debug, PartialEq, Eq)]
pub enum RecvTimeoutError {
    /// No value came in time.
    Timeout,
    /// No sender is left, and the newest value has been seen.
    Disconnected,
}

impl fmt::Display for RecvTimeoutError {
    fn fmt(&self, to: &mut fmt::Formatter<'_>) -> fmt::Result {
        match self {
            Self::Timeout => to.write_str("timed out waiting on channel"),
            Self::Disconnected => to.write_str("channel closed"),
        }
    }
}

impl Error for RecvTimeoutError {}

impl From<RecvError> for RecvTimeoutError {
    fn from(_: RecvError) -> Self {
        Self::Disconnected
    }
}
