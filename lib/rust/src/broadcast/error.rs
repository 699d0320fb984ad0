//! Errors of the broadcast channel.
use std::error::Error;
use std::fmt;

/// There is no receiver. The error contains the value; a later send may succeed.
#[derive(Clone, Copy, Debug, PartialEq, Eq)]
pub struct SendError<T>(pub T);

impl<T> fmt::Display for SendError<T> {
    fn fmt(&self, to: &mut fmt::Formatter<'_>) -> fmt::Result {
        to.write_str("channel closed")
    }
}

impl<T: fmt::Debug> Error for SendError<T> {}

/// The error of [`Receiver::recv`](super::Receiver::recv).
#[derive(Clone, Copy, Debug, PartialEq, Eq)]
pub enum RecvError {
    /// No sender is left, and everything that was kept has been received.
    Closed,
    /// The receiver fell behind and missed this many values. The next receive continues with the
    /// oldest value that is kept.
    Lagged(u64),
}

impl fmt::Display for RecvError {
    fn fmt(&self, to: &mut fmt::Formatter<'_>) -> fmt::Result {
        match self {
            Self::Closed => to.write_str("channel closed"),
            Self::Lagged(missed) => write!(to, "channel lagged by {missed}"),
        }
    }
}

impl Error for RecvError {}

/// The error of [`Receiver::try_recv`](super::Receiver::try_recv).
#[derive(Clone, Copy, Debug, PartialEq, Eq)]
pub enum TryRecvError {
    /// There is no value yet.
    Empty,
    /// No sender is left, and everything that was kept has been received.
    Closed,
    /// The receiver fell behind and missed this many values. The next receive continues with the
    /// oldest value that is kept.
    Lagged(u64),
}

impl fmt::Display for TryRecvError {
    fn fmt(&self, to: &mut fmt::Formatter<'_>) -> fmt::Result {
        match self {
            Self::Empty => to.write_str("channel empty"),
            Self::Closed => to.write_str("channel closed"),
            Self::Lagged(missed) => write!(to, "channel lagged by {missed}"),
        }
    }
}

impl Error for TryRecvError {}

/// The error of [`Receiver::recv_timeout`](super::Receiver::recv_timeout), with the names of
/// [`std::sync::mpsc::RecvTimeoutError`].
#[derive(Clone, Copy, Debug, PartialEq, Eq)]
pub enum RecvTimeoutError {
    /// No value came in time.
    Timeout,
    /// No sender is left, and everything that was kept has been received.
    Disconnected,
    /// The receiver fell behind and missed this many values. The next receive continues with the
    /// oldest value that is kept.
    Lagged(u64),
}

impl fmt::Display for RecvTimeoutError {
    fn fmt(&self, to: &mut fmt::Formatter<'_>) -> fmt::Result {
        match self {
            Self::Timeout => to.write_str("timed out waiting on channel"),
            Self::Disconnected => to.write_str("channel closed"),
            Self::Lagged(missed) => write!(to, "channel lagged by {missed}"),
        }
    }
}

impl Error for RecvTimeoutError {}

impl From<RecvError> for RecvTimeoutError {
    fn from(error: RecvError) -> Self {
        match error {
            RecvError::Closed => Self::Disconnected,
            RecvError::Lagged(missed) => Self::Lagged(missed),
        }
    }
}
