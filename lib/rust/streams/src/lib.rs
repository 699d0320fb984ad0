//! Streams over the channels of [`topichub`], with the names and errors of tokio-stream's
//! `wrappers`.
//!
//! - [`BroadcastStream`] yields every value of a broadcast channel. If it falls behind, it yields
//!   an error with the number of values it missed, and continues with the oldest value that is
//!   kept.
//! - [`WatchStream`] yields the newest value of a watch channel, and then, after each change, the
//!   newest value again.
//!
//! Both end once the channel is closed and everything was yielded.
#![forbid(unsafe_code)]
#![warn(missing_docs, unreachable_pub, rust_2018_idioms)]

// The example in the README is compiled too.
#[cfg(doctest)]
#[doc = include_str!("../README.md")]
struct Readme;

use errors::BroadcastStreamRecvError;
use futures_core::Stream;
use std::fmt;
use std::pin::Pin;
use std::task::{Context, Poll};
use topichub::{broadcast, watch};

/// Errors of the streams.
pub mod errors {
    use std::error::Error;
    use std::fmt;

    /// The error of a [`BroadcastStream`](crate::BroadcastStream).
    #[derive(Clone, Debug, PartialEq, Eq)]
    pub enum BroadcastStreamRecvError {
        /// The stream fell behind and missed this many values. It continues with the oldest value
        /// that is kept.
        Lagged(u64),
    }

    impl fmt::Display for BroadcastStreamRecvError {
        fn fmt(&self, to: &mut fmt::Formatter<'_>) -> fmt::Result {
            let Self::Lagged(missed) = self;
            write!(to, "channel lagged by {missed}")
        }
    }

    impl Error for BroadcastStreamRecvError {}
}

/// The values of a broadcast channel, as a stream.
pub struct BroadcastStream<T> {
    receiver: broadcast::Receiver<T>,
}

impl<T> BroadcastStream<T> {
    /// Makes a stream of the values that this receiver has yet to receive.
    pub fn new(receiver: broadcast::Receiver<T>) -> Self {
        Self { receiver }
    }
}

impl<T: Clone> Stream for BroadcastStream<T> {
    type Item = Result<T, BroadcastStreamRecvError>;

    fn poll_next(self: Pin<&mut Self>, context: &mut Context<'_>) -> Poll<Option<Self::Item>> {
        use broadcast::error::RecvError;
        let polled = self.get_mut().receiver.poll_recv(context);
        polled.map(|told| match told {
            Ok(value) => Some(Ok(value)),
            Err(RecvError::Lagged(missed)) => Some(Err(BroadcastStreamRecvError::Lagged(missed))),
            Err(RecvError::Closed) => None,
        })
    }
}

impl<T> From<broadcast::Receiver<T>> for BroadcastStream<T> {
    fn from(receiver: broadcast::Receiver<T>) -> Self {
        Self::new(receiver)
    }
}

impl<T> fmt::Debug for BroadcastStream<T> {
    fn fmt(&self, to: &mut fmt::Formatter<'_>) -> fmt::Result {
        to.debug_struct("BroadcastStream").finish()
    }
}

/// The newest values of a watch channel, as a stream.
pub struct WatchStream<T> {
    receiver: watch::Receiver<T>,
    /// Whether the next poll yields the newest value even if the receiver has seen it.
    is_due: bool,
}

impl<T> WatchStream<T> {
    /// Makes a stream that begins with the newest value, even if the receiver has seen it.
    pub fn new(receiver: watch::Receiver<T>) -> Self {
        Self {
            receiver,
            is_due: true,
        }
    }

    /// Makes a stream that begins with the first value that the receiver has not seen.
    pub fn from_changes(receiver: watch::Receiver<T>) -> Self {
        Self {
            receiver,
            is_due: false,
        }
    }
}

impl<T: Clone> Stream for WatchStream<T> {
    type Item = T;

    fn poll_next(self: Pin<&mut Self>, context: &mut Context<'_>) -> Poll<Option<T>> {
        let Self { receiver, is_due } = self.get_mut();
        if !*is_due {
            match receiver.poll_changed(context) {
                Poll::Ready(Ok(())) => {}
                Poll::Ready(Err(_)) => return Poll::Ready(None),
                Poll::Pending => return Poll::Pending,
            }
        }
        *is_due = false;
        let newest = receiver.borrow_and_update().clone();
        Poll::Ready(Some(newest))
    }
}

impl<T> From<watch::Receiver<T>> for WatchStream<T> {
    fn from(receiver: watch::Receiver<T>) -> Self {
        Self::new(receiver)
    }
}

impl<T> fmt::Debug for WatchStream<T> {
    fn fmt(&self, to: &mut fmt::Formatter<'_>) -> fmt::Result {
        to.debug_struct("WatchStream").finish()
    }
}
