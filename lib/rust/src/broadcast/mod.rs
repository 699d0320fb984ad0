//! A channel that sends every value to every receiver.
//!
//! The names and what they mean are those of `tokio::sync::broadcast`; its documentation has more
//! detail.
//!
//! # Lagging
//!
//! The channel keeps the newest values, up to its capacity, which is rounded up to a power of two.
//! If it drops values that a receiver has not read, the receiver gets
//! [`Lagged`](error::RecvError::Lagged) with the number of values it missed, and continues with the
//! oldest value that is kept.
//!
//! # Closing
//!
//! Once all senders are dropped, a receiver gets what is still kept for it, and then
//! [`Closed`](error::RecvError::Closed).
//!
//! # Differences from Tokio
//!
//! - At most 65,535 senders and 65,535 receivers are live at a time, and the capacity is at most
//!   65,536.
//! - `T` is cloned under the channel's lock, so its `clone` must not use the same channel. If a
//!   clone is expensive, send an `Arc`. The last receiver of a value gets the value itself.
//! - The futures are [`Unpin`], and take no part in the cooperative budget of Tokio's tasks: a loop
//!   that always finds a value should await `tokio::task::yield_now` once in a while.
//! - Tokio has no [`Sender::subscribe_oldest`], [`Sender::send_many`], [`Receiver::recv_many`] and
//!   its two variants, [`Receiver::poll_recv`], [`Receiver::recv_timeout`],
//!   [`Receiver::recv_deadline`], nor the calls that begin with `try_` and return a
//!   [`HandleError`].
//! - The streams of `tokio-stream` work only with Tokio's own receivers. The crate
//!   `topichub-streams` has the same streams for these.
//!
//! # Examples
//!
//! ```
//! use std::thread;
//! use topichub::broadcast;
//!
//! let (tx, mut first) = broadcast::channel(16);
//! let mut second = tx.subscribe();
//! let receiving = thread::spawn(move || {
//!     assert_eq!(first.blocking_recv(), Ok(10));
//!     assert_eq!(first.blocking_recv(), Ok(20));
//! });
//! tx.send(10).unwrap();
//! tx.send(20).unwrap();
//! receiving.join().unwrap();
//! assert_eq!(second.try_recv(), Ok(10));
//! ```
mod builder;
pub mod error;
mod kept;
mod receiver;
mod sender;

pub use builder::{Builder, Recorded, RecordedBuilder, Recording};
pub use receiver::{Receiver, Recv, RecvMany};
pub use sender::{Closed, Sender, WeakSender};

use crate::library::{self, status, Reply};
use crate::recording::{made, Core};
use crate::turns::Turns;
use crate::waiting::Waiters;
use crate::HandleError;
use error::{RecvError, TryRecvError};
use kept::Kept;
use std::collections::BTreeSet;
use std::sync::atomic::AtomicU64;
use std::sync::{Arc, MutexGuard};

/// What all handles of a channel share. The lock is held for a single call.
struct Shared<T> {
    state: Turns<State<T>>,
    /// How many values were sent, or [`CLOSED`]. From it a receiver sees without the lock whether
    /// asking is worth while.
    reached: AtomicU64,
}

/// What [`Shared::reached`] is once no sender is left.
const CLOSED: u64 = u64::MAX;

struct State<T> {
    /// The channel of numbers: for each value it keeps the number of values sent before it.
    core: Core<library::Broadcast>,
    /// The values that the channel keeps.
    kept: Kept<T>,
    /// The numbers of the live senders.
    senders: BTreeSet<u64>,
    weak_senders: usize,
    receivers: usize,
    /// The receivers that wait for a value.
    waiting: Waiters,
    /// The senders that wait until no receiver is left.
    leaving: Waiters,
}

impl<T> Shared<T> {
    fn new(state: State<T>) -> Arc<Self> {
        Arc::new(Self {
            state: Turns::new(state),
            reached: AtomicU64::new(0),
        })
    }

    fn lock(&self) -> MutexGuard<'_, State<T>> {
        self.state.lock()
    }
}

impl<T> State<T> {
    /// Sends a value. Returns the number of receivers and the value that the channel drops to make
    /// room, or the value itself if it cannot be sent.
    #[track_caller]
    #[inline]
    fn send(&mut self, id: u64, value: T) -> Result<(usize, Option<T>), T> {
        let number = self.kept.sent();
        let told = self.core.call(|channel| channel.send(id, number));
        match told.status {
            status::SENT => Ok((told.number as usize, self.kept.push(value, told.let_go))),
            status::NO_RECEIVERS | status::EXHAUSTED => Err(value),
            other => library::refused(other),
        }
    }

    #[track_caller]
    fn new_receiver(
        &mut self,
        call: impl Fn(&mut library::Broadcast) -> Reply,
    ) -> Result<u64, HandleError> {
        let id = self.core.new_handle(call)?;
        self.receivers += 1;
        Ok(id)
    }

    #[track_caller]
    fn new_sender(&mut self, by: u64) -> Result<u64, HandleError> {
        let id = self.core.new_handle(|channel| channel.clone_tx(by))?;
        self.senders.insert(id);
        Ok(id)
    }
}

impl<T: Clone> State<T> {
    /// What a receiver gets now. Sets `next` to the number of its next value, if that is known.
    #[track_caller]
    #[inline]
    fn try_recv(&mut self, id: u64, next: &mut u64) -> Result<T, TryRecvError> {
        let told = self.core.call(|channel| channel.try_recv(id));
        match told.status {
            status::VALUE => Ok(self.value(told, next)),
            status::LAGGED => Err(TryRecvError::Lagged(told.number)),
            status::EMPTY => {
                *next = self.kept.sent();
                Err(TryRecvError::Empty)
            }
            status::CLOSED => Err(TryRecvError::Closed),
            other => library::refused(other),
        }
    }

    /// The same for a receiver that waits: `None` if there is nothing yet.
    #[track_caller]
    #[inline]
    fn recv(&mut self, id: u64, next: &mut u64) -> Option<Result<T, RecvError>> {
        let told = self.core.call(|channel| channel.recv(id));
        match told.status {
            status::VALUE => Some(Ok(self.value(told, next))),
            status::LAGGED => Some(Err(RecvError::Lagged(told.number))),
            status::WOULD_WAIT => {
                *next = self.kept.sent();
                None
            }
            status::CLOSED => Some(Err(RecvError::Closed)),
            other => library::refused(other),
        }
    }

    /// Like `recv`, but appends the value and those that follow it to the buffer, up to `limit`.
    #[track_caller]
    fn recv_many(
        &mut self,
        id: u64,
        next: &mut u64,
        buffer: &mut Vec<T>,
        limit: usize,
    ) -> Option<Result<usize, RecvError>> {
        if limit == 0 {
            return Some(Ok(0));
        }
        Some(match self.recv(id, next)? {
            Ok(first) => Ok(self.take_more(first, id, next, buffer, limit)),
            Err(error) => Err(error),
        })
    }

    /// Like `recv_many`, but for a receiver that does not wait.
    #[track_caller]
    fn try_recv_many(
        &mut self,
        id: u64,
        next: &mut u64,
        buffer: &mut Vec<T>,
        limit: usize,
    ) -> Result<usize, TryRecvError> {
        if limit == 0 {
            return Ok(0);
        }
        let first = self.try_recv(id, next)?;
        Ok(self.take_more(first, id, next, buffer, limit))
    }

    /// Appends the first value and those that were sent after it to the buffer, up to `limit`. None
    /// of them can be missed any more, since nobody else has the lock.
    #[track_caller]
    fn take_more(
        &mut self,
        first: T,
        id: u64,
        next: &mut u64,
        buffer: &mut Vec<T>,
        limit: usize,
    ) -> usize {
        buffer.push(first);
        let more = (self.kept.sent() - *next).min(limit as u64 - 1) as usize;
        buffer.reserve(more);
        for _ in 0..more {
            let told = self.core.call(|channel| channel.recv(id));
            match told.status {
                status::VALUE => buffer.push(self.value(told, next)),
                other => library::refused(other),
            }
        }
        1 + more
    }

    #[track_caller]
    #[inline]
    fn value(&mut self, told: Reply, next: &mut u64) -> T {
        *next = told.number + 1;
        self.kept
            .read(told.number, told.let_go)
            .expect("the library reports only values that are kept")
    }
}

/// Makes a channel that keeps at least `capacity` values, with a sender and a receiver.
///
/// # Panics
///
/// If the capacity is 0 or above 65,536, or if an allocation fails. [`Builder::build`] returns an
/// error instead.
///
/// # Examples
///
/// ```
/// use topichub::broadcast;
///
/// let (tx, mut rx) = broadcast::channel(16);
/// tx.send(10).unwrap();
/// drop(tx);
/// assert_eq!(rx.blocking_recv(), Ok(10));
/// assert!(rx.blocking_recv().is_err());
/// ```
#[track_caller]
pub fn channel<T: Clone>(capacity: usize) -> (Sender<T>, Receiver<T>) {
    made(Builder::new(capacity).build())
}
