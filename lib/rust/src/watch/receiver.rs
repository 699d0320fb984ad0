//! The receiving side.
use super::error::{RecvError, RecvTimeoutError};
use super::mark::Mark;
use super::{Ref, Shared, CLOSED};
use crate::blocking::{block_on, block_until, deadline_after};
use crate::library::{self, status, Reply};
use crate::recording::made;
use crate::waiting::{Called, Seat};
use crate::HandleError;
use std::fmt;
use std::future::Future;
use std::pin::Pin;
use std::sync::Arc;
use std::task::{Context, Poll};
use std::time::{Duration, Instant};

/// Borrows the newest value of a channel, and waits for values that it has not seen.
pub struct Receiver<T> {
    shared: Arc<Shared<T>>,
    id: u64,
    mark: Mark,
    /// The seat of the task that last called [`poll_changed`](Self::poll_changed).
    seat: Seat,
}

impl<T> Receiver<T> {
    pub(super) fn new(shared: Arc<Shared<T>>, id: u64, seen: u64) -> Self {
        Self {
            shared,
            id,
            mark: Mark::new(seen),
            seat: Seat::default(),
        }
    }

    /// Borrows the newest value without marking it seen.
    ///
    /// # Examples
    ///
    /// ```
    /// use topichub::watch;
    ///
    /// let (_tx, rx) = watch::channel("hello");
    /// assert_eq!(*rx.borrow(), "hello");
    /// ```
    #[track_caller]
    #[inline]
    pub fn borrow(&self) -> Ref<'_, T> {
        // Nothing is published while the value's lock is held.
        let value = self.shared.read();
        let has_changed = if self.shared.is_recorded {
            self.look(|channel, id| channel.borrow(id)).0
        } else {
            self.mark.is_unseen(self.shared.news() >> 1)
        };
        Ref { value, has_changed }
    }

    /// Borrows the newest value, and marks it seen.
    #[track_caller]
    #[inline]
    pub fn borrow_and_update(&mut self) -> Ref<'_, T> {
        self.take()
    }

    #[track_caller]
    #[inline]
    fn take(&self) -> Ref<'_, T> {
        let value = self.shared.read();
        let has_changed = if self.shared.is_recorded {
            let (has_changed, version) = self.look(|channel, id| channel.take(id));
            self.mark.set(version);
            has_changed
        } else {
            self.mark.take(self.shared.news() >> 1)
        };
        Ref { value, has_changed }
    }

    /// Makes a call that shows the newest value. Returns whether it was unseen, and its version.
    #[track_caller]
    fn look(&self, call: impl Fn(&mut library::Watch, u64) -> Reply) -> (bool, u64) {
        let mut state = self.shared.lock();
        let told = state.core.call(|channel| call(channel, self.id));
        let has_changed = match told.status {
            status::NEW => true,
            status::SAME => false,
            other => library::refused(other),
        };
        (has_changed, state.version)
    }

    /// Whether the newest value is unseen. It returns an error if no sender is left.
    ///
    /// # Examples
    ///
    /// ```
    /// use topichub::watch;
    ///
    /// let (tx, rx) = watch::channel(1);
    /// assert_eq!(rx.has_changed(), Ok(false));
    /// tx.send(2).unwrap();
    /// assert_eq!(rx.has_changed(), Ok(true));
    /// drop(tx);
    /// assert!(rx.has_changed().is_err());
    /// ```
    #[track_caller]
    #[inline]
    pub fn has_changed(&self) -> Result<bool, RecvError> {
        if self.shared.is_recorded {
            return self.ask_whether_changed();
        }
        let news = self.shared.news();
        match news & CLOSED {
            CLOSED => Err(RecvError(())),
            _ => Ok(self.mark.is_unseen(news >> 1)),
        }
    }

    #[track_caller]
    #[cold]
    fn ask_whether_changed(&self) -> Result<bool, RecvError> {
        let told = self
            .shared
            .lock()
            .core
            .call(|channel| channel.has_changed(self.id));
        match told.status {
            status::YES => Ok(true),
            status::NO => Ok(false),
            status::CLOSED => Err(RecvError(())),
            other => library::refused(other),
        }
    }

    /// Waits for an unseen value, and marks it seen. If there is none and no sender is left, it
    /// returns an error.
    ///
    /// # Cancel safety
    ///
    /// This method is cancel safe: dropping the future before it is ready marks nothing.
    ///
    /// # Examples
    ///
    /// ```no_run
    /// use topichub::watch;
    ///
    /// async fn follow(mut settings: watch::Receiver<String>) {
    ///     while settings.changed().await.is_ok() {
    ///         println!("now: {}", *settings.borrow());
    ///     }
    /// }
    /// ```
    pub fn changed(&mut self) -> Changed<'_, T> {
        Changed {
            receiver: self,
            seat: Seat::default(),
        }
    }

    /// Polls for an unseen value, and marks it seen, for streams and hand-written futures. If there
    /// is none, the task of the last call is woken once there is one. Tokio has no such call.
    #[track_caller]
    pub fn poll_changed(&mut self, context: &mut Context<'_>) -> Poll<Result<(), RecvError>> {
        let mut state = self.shared.lock();
        let answer = state.changed(self.id, &self.mark);
        let (polled, left) = state.waiting.poll(&mut self.seat, context.waker(), answer);
        drop(state);
        drop(left);
        polled
    }

    /// Like [`changed`](Self::changed), but blocks the thread. Tokio has no such call.
    #[track_caller]
    pub fn blocking_changed(&mut self) -> Result<(), RecvError> {
        block_on(self.changed())
    }

    /// Like [`blocking_changed`](Self::blocking_changed), but waits for at most this long. Tokio
    /// has no such call.
    ///
    /// A value that comes after the timeout stays unseen, and the next wait reports it.
    ///
    /// # Examples
    ///
    /// ```
    /// use std::time::Duration;
    /// use topichub::watch::{self, error::RecvTimeoutError};
    ///
    /// let (tx, mut rx) = watch::channel(1);
    /// let limit = Duration::from_millis(1);
    /// assert_eq!(rx.changed_timeout(limit), Err(RecvTimeoutError::Timeout));
    /// tx.send(2).unwrap();
    /// assert_eq!(rx.changed_timeout(limit), Ok(()));
    /// ```
    pub fn changed_timeout(&mut self, timeout: Duration) -> Result<(), RecvTimeoutError> {
        self.changed_until(deadline_after(timeout))
    }

    /// Like [`changed_timeout`](Self::changed_timeout), but waits until this time.
    pub fn changed_deadline(&mut self, deadline: Instant) -> Result<(), RecvTimeoutError> {
        self.changed_until(Some(deadline))
    }

    fn changed_until(&mut self, deadline: Option<Instant>) -> Result<(), RecvTimeoutError> {
        let told = block_until(self.changed(), deadline);
        Ok(told.ok_or(RecvTimeoutError::Timeout)??)
    }

    /// Waits for a value for which the closure returns `true`, and borrows it. Every value that the
    /// closure was called with is marked seen. If no sender is left and the closure returned
    /// `false` for the newest value, it returns an error.
    ///
    /// # Examples
    ///
    /// ```no_run
    /// use topichub::watch;
    ///
    /// async fn warm(mut degrees: watch::Receiver<i32>) {
    ///     let found = degrees.wait_for(|degrees| *degrees > 20).await;
    ///     println!("{:?}", found.map(|degrees| *degrees));
    /// }
    /// ```
    pub async fn wait_for(
        &mut self,
        mut is_it: impl FnMut(&T) -> bool,
    ) -> Result<Ref<'_, T>, RecvError> {
        let receiver = &*self;
        loop {
            {
                let newest = receiver.take();
                if is_it(&newest) {
                    return Ok(newest);
                }
            }
            Changed {
                receiver,
                seat: Seat::default(),
            }
            .await?;
        }
    }

    /// Makes the newest value unseen by this receiver.
    #[track_caller]
    pub fn mark_changed(&mut self) {
        let version = self.mark(|channel, id| channel.mark_changed(id));
        self.mark.set(version.wrapping_sub(1));
    }

    /// Marks the newest value seen by this receiver.
    #[track_caller]
    pub fn mark_unchanged(&mut self) {
        let version = self.mark(|channel, id| channel.mark_unchanged(id));
        self.mark.set(version);
    }

    #[track_caller]
    fn mark(&self, call: impl Fn(&mut library::Watch, u64) -> Reply) -> u64 {
        let mut state = self.shared.lock();
        let told = state.core.call(|channel| call(channel, self.id));
        if told.status != status::DONE {
            library::refused(told.status);
        }
        state.version
    }

    /// Like `clone`, but returns an error instead of panicking.
    pub fn try_clone(&self) -> Result<Self, HandleError> {
        let mut state = self.shared.lock();
        state.settle(self.id, &self.mark);
        let id = state.new_receiver(|channel| channel.clone_rx(self.id))?;
        self.shared.show(&state);
        Ok(Self::new(Arc::clone(&self.shared), id, self.mark.seen()))
    }

    /// Whether both are receivers of the same channel.
    pub fn same_channel(&self, other: &Self) -> bool {
        Arc::ptr_eq(&self.shared, &other.shared)
    }
}

impl<T> Clone for Receiver<T> {
    /// Makes another receiver, for which the newest value is seen if it is for this one. It panics
    /// if the channel already has 65,535, or if an allocation fails; [`try_clone`](Self::try_clone)
    /// returns an error instead.
    #[track_caller]
    fn clone(&self) -> Self {
        made(self.try_clone())
    }
}

impl<T> Drop for Receiver<T> {
    fn drop(&mut self) {
        if super::is_last(&self.shared) {
            return;
        }
        let mut state = self.shared.lock();
        let told = state.core.call(|channel| channel.drop_rx(self.id));
        debug_assert_eq!(told.status, status::DONE);
        state.receivers -= 1;
        self.shared.show(&state);
        let called = if state.receivers == 0 {
            state.leaving.call()
        } else {
            Called::nobody()
        };
        let left = state.waiting.leave(&mut self.seat);
        drop(state);
        called.wake();
        drop(left);
    }
}

impl<T> fmt::Debug for Receiver<T> {
    fn fmt(&self, to: &mut fmt::Formatter<'_>) -> fmt::Result {
        to.write_str("watch::Receiver")
    }
}

/// The future of [`Receiver::changed`].
#[must_use = "a future does nothing unless it is awaited"]
pub struct Changed<'a, T> {
    receiver: &'a Receiver<T>,
    seat: Seat,
}

impl<T> Future for Changed<'_, T> {
    type Output = Result<(), RecvError>;

    fn poll(self: Pin<&mut Self>, context: &mut Context<'_>) -> Poll<Self::Output> {
        let Self { receiver, seat } = self.get_mut();
        seat.expect_waiting("watch::Changed");
        let mut state = receiver.shared.lock();
        let answer = state.changed(receiver.id, &receiver.mark);
        let (polled, left) = state.waiting.poll(seat, context.waker(), answer);
        drop(state);
        drop(left);
        polled
    }
}

impl<T> Drop for Changed<'_, T> {
    fn drop(&mut self) {
        if self.seat.is_taken() {
            let left = self.receiver.shared.lock().waiting.leave(&mut self.seat);
            drop(left);
        }
    }
}

impl<T> fmt::Debug for Changed<'_, T> {
    fn fmt(&self, to: &mut fmt::Formatter<'_>) -> fmt::Result {
        to.write_str("watch::Changed")
    }
}
