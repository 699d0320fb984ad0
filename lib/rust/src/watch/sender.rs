//! The sending side.
use super::error::SendError;
use super::{Receiver, Ref, Shared};
use crate::library::{self, status};
use crate::recording::made;
use crate::waiting::{Called, Seat};
use crate::HandleError;
use std::fmt;
use std::future::Future;
use std::mem;
use std::pin::Pin;
use std::sync::atomic::Ordering;
use std::sync::Arc;
use std::task::{Context, Poll};

/// Publishes values on a channel. It can be cloned, and used by several threads at once.
pub struct Sender<T> {
    pub(super) shared: Arc<Shared<T>>,
    pub(super) id: u64,
}

impl<T> Sender<T> {
    /// Makes a channel with this value and without a receiver. [`subscribe`](Self::subscribe) makes
    /// receivers.
    ///
    /// # Panics
    ///
    /// If an allocation fails.
    #[track_caller]
    pub fn new(init: T) -> Self {
        super::channel(init).0
    }

    /// Publishes a value if there is a receiver. Otherwise the error contains the value.
    ///
    /// # Examples
    ///
    /// ```
    /// use topichub::watch;
    ///
    /// let (tx, rx) = watch::channel(1);
    /// assert_eq!(tx.send(2), Ok(()));
    /// drop(rx);
    /// assert_eq!(tx.send(3), Err(watch::error::SendError(3)));
    /// assert_eq!(*tx.borrow(), 2);
    /// ```
    #[track_caller]
    pub fn send(&self, value: T) -> Result<(), SendError<T>> {
        let mut newest = self.shared.write();
        let mut state = self.shared.lock();
        let told = state.publish(|channel, number| channel.send(self.id, number));
        match told.status {
            status::DONE => {}
            status::NO_RECEIVERS | status::EXHAUSTED => return Err(SendError(value)),
            other => library::refused(other),
        }
        self.shared.show(&state);
        let called = state.waiting.call();
        drop(state);
        let before = mem::replace(&mut *newest, value);
        drop(newest);
        called.wake();
        drop(before);
        Ok(())
    }

    /// Publishes a value, with or without receivers, and returns the value that it replaces.
    ///
    /// # Panics
    ///
    /// If the channel has had 2^64 - 1 versions.
    ///
    /// # Examples
    ///
    /// ```
    /// use topichub::watch;
    ///
    /// let (tx, _rx) = watch::channel(1);
    /// assert_eq!(tx.send_replace(2), 1);
    /// assert_eq!(tx.send_replace(3), 2);
    /// ```
    #[track_caller]
    pub fn send_replace(&self, value: T) -> T {
        let mut newest = self.shared.write();
        let mut state = self.shared.lock();
        let told = state.publish(|channel, number| channel.replace(self.id, number));
        if told.status != status::WAS {
            library::refused(told.status);
        }
        self.shared.show(&state);
        let called = state.waiting.call();
        drop(state);
        let before = mem::replace(&mut *newest, value);
        drop(newest);
        called.wake();
        before
    }

    /// Changes the newest value in place and publishes it, with or without receivers.
    ///
    /// # Panics
    ///
    /// If the closure panics; then nothing is published, and the value is as the closure left it.
    /// If the channel has had 2^64 - 1 versions.
    ///
    /// # Examples
    ///
    /// ```
    /// use topichub::watch;
    ///
    /// let (tx, mut rx) = watch::channel(vec![1]);
    /// tx.send_modify(|list| list.push(2));
    /// assert_eq!(*rx.borrow_and_update(), [1, 2]);
    /// ```
    #[track_caller]
    pub fn send_modify<F: FnOnce(&mut T)>(&self, modify: F) {
        self.send_if_modified(|value| {
            modify(value);
            true
        });
    }

    /// Changes the newest value in place, and publishes it if the closure returns `true`. If it
    /// returns `false`, the change is visible but is not reported.
    ///
    /// # Panics
    ///
    /// As [`send_modify`](Self::send_modify) does.
    ///
    /// # Examples
    ///
    /// ```
    /// use topichub::watch;
    ///
    /// let (tx, mut rx) = watch::channel(1);
    /// let raise_to = |least: i32| {
    ///     tx.send_if_modified(|value| {
    ///         let is_less = *value < least;
    ///         *value = least.max(*value);
    ///         is_less
    ///     })
    /// };
    /// assert!(raise_to(3));
    /// assert!(!raise_to(2));
    /// assert_eq!(*rx.borrow_and_update(), 3);
    /// ```
    #[track_caller]
    pub fn send_if_modified<F: FnOnce(&mut T) -> bool>(&self, modify: F) -> bool {
        let mut newest = self.shared.write();
        let is_modified = modify(&mut newest);
        let mut state = self.shared.lock();
        let told = state.publish(|channel, number| match is_modified {
            true => channel.set(self.id, number),
            false => channel.quiet(self.id, number),
        });
        self.shared.show(&state);
        let called = match told.status {
            status::YES => state.waiting.call(),
            status::NO => Called::nobody(),
            other => library::refused(other),
        };
        drop(state);
        drop(newest);
        called.wake();
        is_modified
    }

    /// Borrows the newest value. A [`Recording`](super::Recording) has no entry for this call.
    pub fn borrow(&self) -> Ref<'_, T> {
        Ref {
            value: self.shared.read(),
            has_changed: false,
        }
    }

    /// Makes a receiver that has seen the newest value.
    ///
    /// # Panics
    ///
    /// If the channel already has 65,535 receivers, or if an allocation fails.
    /// [`try_subscribe`](Self::try_subscribe) returns an error instead.
    ///
    /// # Examples
    ///
    /// ```
    /// use topichub::watch;
    ///
    /// let tx = watch::Sender::new(1);
    /// let mut rx = tx.subscribe();
    /// assert_eq!(rx.has_changed(), Ok(false));
    /// tx.send(2).unwrap();
    /// assert_eq!(rx.has_changed(), Ok(true));
    /// ```
    #[track_caller]
    pub fn subscribe(&self) -> Receiver<T> {
        made(self.try_subscribe())
    }

    /// Like [`subscribe`](Self::subscribe), but returns an error instead of panicking.
    pub fn try_subscribe(&self) -> Result<Receiver<T>, HandleError> {
        let mut state = self.shared.lock();
        let id = state.new_receiver(|channel| channel.subscribe(self.id))?;
        self.shared.show(&state);
        Ok(Receiver::new(Arc::clone(&self.shared), id, state.version))
    }

    /// Like `clone`, but returns an error instead of panicking.
    pub fn try_clone(&self) -> Result<Self, HandleError> {
        let mut state = self.shared.lock();
        let id = state.core.new_handle(|channel| channel.clone_tx(self.id))?;
        state.senders += 1;
        Ok(Self {
            shared: Arc::clone(&self.shared),
            id,
        })
    }

    /// The number of live receivers.
    #[track_caller]
    pub fn receiver_count(&self) -> usize {
        self.shared
            .lock()
            .core
            .count(|channel| channel.readers(self.id))
    }

    /// The number of live senders. A [`Recording`](super::Recording) has no entry for this call.
    pub fn sender_count(&self) -> usize {
        self.shared.lock().senders
    }

    /// Whether no receiver is left.
    #[track_caller]
    #[inline]
    pub fn is_closed(&self) -> bool {
        if self.shared.is_recorded {
            return self.ask_whether_closed();
        }
        self.shared.receivers.load(Ordering::Acquire) == 0
    }

    #[track_caller]
    #[cold]
    fn ask_whether_closed(&self) -> bool {
        let told = self
            .shared
            .lock()
            .core
            .call(|channel| channel.is_closed(self.id));
        is_yes(told.status)
    }

    /// Waits until no receiver is left.
    ///
    /// # Cancel safety
    ///
    /// This method is cancel safe: dropping the future changes nothing.
    pub fn closed(&self) -> Closed<'_, T> {
        Closed {
            sender: self,
            seat: Seat::default(),
        }
    }

    /// Whether both are senders of the same channel.
    pub fn same_channel(&self, other: &Self) -> bool {
        Arc::ptr_eq(&self.shared, &other.shared)
    }
}

#[track_caller]
fn is_yes(told: u32) -> bool {
    match told {
        status::YES => true,
        status::NO => false,
        other => library::refused(other),
    }
}

impl<T> Clone for Sender<T> {
    /// Makes another sender of the same channel. It panics if the channel already has 65,535, or if
    /// an allocation fails; [`try_clone`](Self::try_clone) returns an error instead.
    #[track_caller]
    fn clone(&self) -> Self {
        made(self.try_clone())
    }
}

impl<T: Default> Default for Sender<T> {
    fn default() -> Self {
        Self::new(T::default())
    }
}

impl<T> Drop for Sender<T> {
    fn drop(&mut self) {
        if super::is_last(&self.shared) {
            return;
        }
        let mut state = self.shared.lock();
        let told = state.core.call(|channel| channel.drop_tx(self.id));
        debug_assert_eq!(told.status, status::DONE);
        state.senders -= 1;
        self.shared.show(&state);
        let called = if state.senders == 0 {
            state.waiting.call()
        } else {
            Called::nobody()
        };
        drop(state);
        called.wake();
    }
}

impl<T> fmt::Debug for Sender<T> {
    fn fmt(&self, to: &mut fmt::Formatter<'_>) -> fmt::Result {
        to.write_str("watch::Sender")
    }
}

/// The future of [`Sender::closed`].
#[must_use = "a future does nothing unless it is awaited"]
pub struct Closed<'a, T> {
    sender: &'a Sender<T>,
    seat: Seat,
}

impl<T> Future for Closed<'_, T> {
    type Output = ();

    fn poll(self: Pin<&mut Self>, context: &mut Context<'_>) -> Poll<()> {
        let Self { sender, seat } = self.get_mut();
        seat.expect_waiting("watch::Closed");
        let mut state = sender.shared.lock();
        let told = state.core.call(|channel| channel.is_closed(sender.id));
        let answer = is_yes(told.status).then_some(());
        let (polled, left) = state.leaving.poll(seat, context.waker(), answer);
        drop(state);
        drop(left);
        polled
    }
}

impl<T> Drop for Closed<'_, T> {
    fn drop(&mut self) {
        if self.seat.is_taken() {
            let left = self.sender.shared.lock().leaving.leave(&mut self.seat);
            drop(left);
        }
    }
}

impl<T> fmt::Debug for Closed<'_, T> {
    fn fmt(&self, to: &mut fmt::Formatter<'_>) -> fmt::Result {
        to.write_str("watch::Closed")
    }
}
