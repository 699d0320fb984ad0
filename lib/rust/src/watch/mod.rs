//! A channel that keeps only the newest value.
//!
//! The names and what they mean are those of `tokio::sync::watch`; its documentation has more
//! detail.
//!
//! # Seen and unseen
//!
//! Each receiver is notified once of a new value: [`Receiver::changed`] waits for a value that it
//! has not seen, and marks it seen. Values that were replaced in between are skipped. The initial
//! value counts as seen.
//!
//! # Closing
//!
//! Once all senders are dropped, an unseen value is still reported first, and then an error. The
//! newest value can still be borrowed.
//!
//! # Borrowing
//!
//! A [`Ref`] borrows the newest value, and senders wait until it is dropped. So keep it only
//! briefly, and never across an `.await`. Do not take a second one while you hold the first: it may
//! wait for a sender that is waiting for the first.
//!
//! # Sharing a receiver
//!
//! [`Receiver::borrow`] and [`Receiver::has_changed`] take `&self`, so any number of tasks that
//! only look can share one receiver in an `Arc`. Only a task that awaits [`Receiver::changed`]
//! needs a clone of its own.
//!
//! # Differences from Tokio
//!
//! - At most 65,535 senders and 65,535 receivers are live at a time.
//! - The futures of [`Receiver::changed`] and [`Sender::closed`] are [`Unpin`], and none takes part
//!   in the cooperative budget of Tokio's tasks: a loop that always finds a new value should await
//!   `tokio::task::yield_now` once in a while.
//! - Tokio has no [`Receiver::blocking_changed`], [`Receiver::changed_timeout`],
//!   [`Receiver::changed_deadline`], [`Receiver::poll_changed`], nor the calls that begin with
//!   `try_` and return a [`HandleError`].
//!
//! # Examples
//!
//! ```
//! use topichub::watch;
//!
//! let (tx, mut rx) = watch::channel("red");
//! tx.send("amber").unwrap();
//! tx.send("green").unwrap();
//! rx.blocking_changed().unwrap();
//! assert_eq!(*rx.borrow(), "green");
//! assert_eq!(rx.has_changed(), Ok(false));
//! drop(tx);
//! assert!(rx.blocking_changed().is_err());
//! ```
mod builder;
pub mod error;
mod mark;
mod receiver;
mod sender;

pub use builder::{Builder, Recorded, RecordedBuilder, Recording};
pub use receiver::{Changed, Receiver};
pub use sender::{Closed, Sender};

use crate::library::{self, status, Reply};
use crate::recording::{made, Core};
use crate::waiting::Waiters;
use crate::HandleError;
use error::RecvError;
use mark::Mark;
use std::fmt;
use std::ops::Deref;
use std::sync::atomic::{AtomicU64, AtomicUsize, Ordering};
use std::sync::{Arc, Mutex, MutexGuard, PoisonError, RwLock, RwLockReadGuard, RwLockWriteGuard};

/// What all handles of a channel share.
///
/// A caller that takes both locks takes the value's first. The state's lock is held for a single
/// call, while a value may be borrowed for longer. So a borrow never holds up a task that only
/// waits or asks.
struct Shared<T> {
    value: RwLock<T>,
    state: Mutex<State>,
    /// Whether the channel records its calls. If so, every question is a call.
    is_recorded: bool,
    /// What [`State::news`] returns. It is stored under the lock, so that questions need no lock.
    news: AtomicU64,
    /// How many receivers are live, stored likewise.
    receivers: AtomicUsize,
}

/// The bit of [`State::news`] that is set if no sender is left.
const CLOSED: u64 = 1;

struct State {
    /// The channel of numbers: its newest number is how many values have replaced the first one.
    core: Core<library::Watch>,
    /// How many values have replaced the first one.
    published: u64,
    /// How many times a new value was published.
    version: u64,
    senders: usize,
    receivers: usize,
    /// The receivers that wait for a value.
    waiting: Waiters,
    /// The senders that wait until no receiver is left.
    leaving: Waiters,
}

impl<T> Shared<T> {
    fn new(value: T, state: State, is_recorded: bool) -> Arc<Self> {
        Arc::new(Self {
            value: RwLock::new(value),
            is_recorded,
            news: AtomicU64::new(state.news()),
            receivers: AtomicUsize::new(state.receivers),
            state: Mutex::new(state),
        })
    }

    /// Stores what is read without the lock. Called after each change.
    fn show(&self, state: &State) {
        self.news.store(state.news(), Ordering::Release);
        self.receivers.store(state.receivers, Ordering::Release);
    }

    /// The newest version and whether a sender is left, as [`State::news`] has them.
    #[inline]
    fn news(&self) -> u64 {
        self.news.load(Ordering::Acquire)
    }

    #[inline]
    fn lock(&self) -> MutexGuard<'_, State> {
        self.state.lock().unwrap_or_else(PoisonError::into_inner)
    }

    #[inline]
    fn read(&self) -> RwLockReadGuard<'_, T> {
        self.value.read().unwrap_or_else(PoisonError::into_inner)
    }

    #[inline]
    fn write(&self) -> RwLockWriteGuard<'_, T> {
        // If a closure has panicked, the value is as the closure left it, and nothing was
        // published.
        self.value.write().unwrap_or_else(PoisonError::into_inner)
    }
}

/// Whether the handle that is being dropped is the last one. Its drop need not be a call, since the
/// channel is freed with it, and no [`Recording`] is left either that could show the call.
#[inline]
fn is_last<T>(shared: &Arc<Shared<T>>) -> bool {
    Arc::strong_count(shared) == 1
}

impl State {
    /// Replaces the newest value.
    #[track_caller]
    fn publish(&mut self, call: impl Fn(&mut library::Watch, u64) -> Reply) -> Reply {
        let number = self.published + 1;
        let told = self.core.call(|channel| call(channel, number));
        self.published += u64::from(told.let_go);
        if let status::DONE | status::WAS | status::YES = told.status {
            self.version += 1;
        }
        told
    }

    /// The version, shifted past the bit [`CLOSED`].
    fn news(&self) -> u64 {
        self.version << 1 | if self.senders == 0 { CLOSED } else { 0 }
    }

    /// What a receiver that waits for a change gets now: `None` if there is no change yet.
    #[track_caller]
    #[inline]
    fn changed(&mut self, id: u64, mark: &Mark) -> Option<Result<(), RecvError>> {
        self.settle(id, mark);
        let told = self.core.call(|channel| channel.changed(id));
        match told.status {
            status::MARKED => {
                mark.set(self.version);
                Some(Ok(()))
            }
            status::CLOSED => Some(Err(RecvError(()))),
            status::WOULD_WAIT => None,
            other => library::refused(other),
        }
    }

    /// Passes on to the library a mark that it is owed.
    #[track_caller]
    #[inline]
    fn settle(&mut self, id: u64, mark: &Mark) {
        if mark.settle(self.version) {
            let told = self.core.call(|channel| channel.mark_unchanged(id));
            if told.status != status::DONE {
                library::refused(told.status);
            }
        }
    }

    #[track_caller]
    fn new_receiver(
        &mut self,
        call: impl Fn(&mut library::Watch) -> Reply,
    ) -> Result<u64, HandleError> {
        let id = self.core.new_handle(call)?;
        self.receivers += 1;
        Ok(id)
    }
}

/// A borrow of the newest value. It holds the value's lock.
pub struct Ref<'a, T> {
    value: RwLockReadGuard<'a, T>,
    has_changed: bool,
}

impl<T> Ref<'_, T> {
    /// Whether the value was unseen when it was borrowed: always `false` if a sender borrowed it.
    ///
    /// # Examples
    ///
    /// ```
    /// use topichub::watch;
    ///
    /// let (tx, mut rx) = watch::channel(1);
    /// tx.send(2).unwrap();
    /// assert!(rx.borrow_and_update().has_changed());
    /// assert!(!rx.borrow().has_changed());
    /// ```
    pub fn has_changed(&self) -> bool {
        self.has_changed
    }
}

impl<T> Deref for Ref<'_, T> {
    type Target = T;

    fn deref(&self) -> &T {
        &self.value
    }
}

impl<T: fmt::Debug> fmt::Debug for Ref<'_, T> {
    fn fmt(&self, to: &mut fmt::Formatter<'_>) -> fmt::Result {
        to.debug_struct("Ref")
            .field("value", &**self)
            .field("has_changed", &self.has_changed)
            .finish()
    }
}

/// Makes a channel with this value, a sender, and a receiver that has seen the value.
///
/// # Panics
///
/// If an allocation fails.
///
/// # Examples
///
/// ```
/// use topichub::watch;
///
/// let (tx, mut rx) = watch::channel("hello");
/// tx.send("world").unwrap();
/// assert_eq!(rx.has_changed(), Ok(true));
/// assert_eq!(*rx.borrow_and_update(), "world");
/// ```
#[track_caller]
pub fn channel<T>(init: T) -> (Sender<T>, Receiver<T>) {
    made(Builder::new(init).build())
}
