//! The sending side.
use super::error::SendError;
use super::{Builder, Receiver, Shared, State, CLOSED};
use crate::library::{self, status, Reply};
use crate::recording::made;
use crate::waiting::{Called, Seat};
use crate::HandleError;
use std::fmt;
use std::future::Future;
use std::pin::Pin;
use std::sync::atomic::Ordering;
use std::sync::{Arc, MutexGuard};
use std::task::{Context, Poll};

/// Sends values to all receivers of a channel. It can be cloned, and used by several threads at
/// once.
pub struct Sender<T> {
    pub(super) shared: Arc<Shared<T>>,
    pub(super) id: u64,
}

impl<T> Sender<T> {
    /// Makes a channel without a receiver. [`subscribe`](Self::subscribe) makes receivers.
    ///
    /// # Panics
    ///
    /// As [`channel`](super::channel) does.
    #[track_caller]
    pub fn new(capacity: usize) -> Self {
        made(Builder::new(capacity).made(None)).0
    }

    /// Sends a value to every receiver, and returns the number of receivers, which is at least 1.
    /// If there is none, the error contains the value; a later send may succeed.
    ///
    /// It never waits for a receiver: if the channel is full, it drops the oldest value, and a
    /// receiver that has not read it lags.
    ///
    /// It takes the channel's lock once, for a time at most logarithmic in the number of senders,
    /// and allocates nothing. Waiting receivers are woken after the lock is released.
    ///
    /// # Examples
    ///
    /// ```
    /// use topichub::broadcast;
    ///
    /// let (tx, rx) = broadcast::channel(16);
    /// assert_eq!(tx.send(10), Ok(1));
    /// drop(rx);
    /// assert_eq!(tx.send(20), Err(broadcast::error::SendError(20)));
    /// ```
    #[track_caller]
    #[inline]
    pub fn send(&self, value: T) -> Result<usize, SendError<T>> {
        let mut state = self.shared.state.lock_first();
        let (receivers, let_go) = state.send(self.id, value).map_err(SendError)?;
        self.wake_receivers(state);
        drop(let_go);
        Ok(receivers)
    }

    /// Releases the lock, and wakes the receivers.
    #[inline]
    fn wake_receivers(&self, mut state: MutexGuard<'_, State<T>>) {
        let sent = state.kept.sent();
        self.shared.reached.store(sent, Ordering::Relaxed);
        let called = state.waiting.call();
        drop(state);
        called.wake();
    }

    /// Sends the values in order, with no other sender's value between them, and returns the number
    /// of receivers, or 0 if there are no values. If there is no receiver, the error contains all
    /// of the values. Tokio has no such call.
    ///
    /// It takes the channel's lock once for all of them, and wakes each waiting receiver once.
    /// Nobody else can use the channel meanwhile, so send a long list in parts. If there are more
    /// values than the channel keeps, every receiver misses the first ones.
    ///
    /// # Examples
    ///
    /// ```
    /// use topichub::broadcast;
    ///
    /// let (tx, mut rx) = broadcast::channel(16);
    /// assert_eq!(tx.send_many(vec![10, 20]), Ok(1));
    /// assert_eq!((rx.try_recv(), rx.try_recv()), (Ok(10), Ok(20)));
    /// drop(rx);
    /// assert_eq!(tx.send_many(vec![30]).unwrap_err().0, [30]);
    /// ```
    #[track_caller]
    pub fn send_many(&self, values: Vec<T>) -> Result<usize, SendError<Vec<T>>> {
        // Under the lock nothing is allocated and no value is dropped.
        let mut let_go = Vec::with_capacity(values.len());
        let mut values = values.into_iter();
        let (mut receivers, mut unsent) = (0, None);
        let mut state = self.shared.state.lock_first();
        for value in &mut values {
            match state.send(self.id, value) {
                Ok((count, oldest)) => {
                    receivers = count;
                    let_go.extend(oldest);
                }
                Err(value) => {
                    unsent = Some(value);
                    break;
                }
            }
        }
        self.wake_receivers(state);
        drop(let_go);
        match unsent {
            None => Ok(receivers),
            Some(value) => Err(SendError([value].into_iter().chain(values).collect())),
        }
    }

    /// Makes a receiver for the values that are sent from now on.
    ///
    /// # Panics
    ///
    /// If the channel already has 65,535 receivers, or if an allocation fails.
    /// [`try_subscribe`](Self::try_subscribe) returns an error instead.
    ///
    /// # Examples
    ///
    /// ```
    /// use topichub::broadcast;
    ///
    /// let (tx, _rx) = broadcast::channel(16);
    /// tx.send(10).unwrap();
    /// let mut late = tx.subscribe();
    /// tx.send(20).unwrap();
    /// assert_eq!(late.try_recv(), Ok(20));
    /// ```
    #[track_caller]
    pub fn subscribe(&self) -> Receiver<T> {
        made(self.try_subscribe())
    }

    /// Like [`subscribe`](Self::subscribe), but returns an error instead of panicking.
    pub fn try_subscribe(&self) -> Result<Receiver<T>, HandleError> {
        self.receiver(|channel| channel.subscribe(self.id))
    }

    /// Makes a receiver that first gets the values that are still kept: those that some other
    /// receiver has not read yet. Tokio has no such call.
    ///
    /// # Panics
    ///
    /// As [`subscribe`](Self::subscribe) does.
    ///
    /// # Examples
    ///
    /// ```
    /// use topichub::broadcast;
    ///
    /// let (tx, _rx) = broadcast::channel(16);
    /// tx.send(10).unwrap();
    /// assert_eq!(tx.subscribe_oldest().try_recv(), Ok(10));
    /// ```
    #[track_caller]
    pub fn subscribe_oldest(&self) -> Receiver<T> {
        made(self.try_subscribe_oldest())
    }

    /// Like [`subscribe_oldest`](Self::subscribe_oldest), but returns an error instead of
    /// panicking.
    pub fn try_subscribe_oldest(&self) -> Result<Receiver<T>, HandleError> {
        self.receiver(|channel| channel.subscribe_oldest(self.id))
    }

    fn receiver(
        &self,
        call: impl Fn(&mut library::Broadcast) -> Reply,
    ) -> Result<Receiver<T>, HandleError> {
        let id = self.shared.lock().new_receiver(call)?;
        Ok(Receiver::new(Arc::clone(&self.shared), id))
    }

    /// Like `clone`, but returns an error instead of panicking.
    ///
    /// # Examples
    ///
    /// ```
    /// use topichub::{broadcast, HandleError};
    ///
    /// let (tx, _rx) = broadcast::channel::<u8>(1);
    /// let mut all = vec![];
    /// let error = loop {
    ///     match tx.try_clone() {
    ///         Ok(another) => all.push(another),
    ///         Err(error) => break error,
    ///     }
    /// };
    /// assert_eq!((all.len(), error), (65_534, HandleError::TooMany));
    /// ```
    pub fn try_clone(&self) -> Result<Self, HandleError> {
        Self::of(&self.shared, |_| Some(self.id)).expect("this sender is live")
    }

    /// Clones the sender whose number `find` returns.
    fn of(
        shared: &Arc<Shared<T>>,
        find: impl FnOnce(&State<T>) -> Option<u64>,
    ) -> Option<Result<Self, HandleError>> {
        let mut state = shared.lock();
        let by = find(&state)?;
        let made = state.new_sender(by);
        drop(state);
        Some(made.map(|id| Self {
            shared: Arc::clone(shared),
            id,
        }))
    }

    /// The number of live receivers.
    #[track_caller]
    pub fn receiver_count(&self) -> usize {
        self.shared
            .lock()
            .core
            .count(|channel| channel.readers(self.id))
    }

    /// The number of values that are kept: those that some receiver has not read yet, up to the
    /// capacity.
    #[track_caller]
    pub fn len(&self) -> usize {
        self.shared
            .lock()
            .core
            .count(|channel| channel.queued(self.id))
    }

    /// Whether the channel keeps no value.
    #[track_caller]
    pub fn is_empty(&self) -> bool {
        self.len() == 0
    }

    /// Waits until there is no receiver. In a [`Recording`](super::Recording), each poll is an
    /// entry that asks for the number of receivers.
    ///
    /// # Cancel safety
    ///
    /// This method is cancel safe: dropping the future changes nothing.
    ///
    /// # Examples
    ///
    /// ```no_run
    /// use topichub::broadcast;
    ///
    /// async fn until_nobody_listens(tx: &broadcast::Sender<u64>) {
    ///     tx.closed().await;
    ///     assert_eq!(tx.receiver_count(), 0);
    /// }
    /// ```
    pub fn closed(&self) -> Closed<'_, T> {
        Closed {
            sender: self,
            seat: Seat::default(),
        }
    }

    /// Makes a [`WeakSender`], which does not keep the channel open.
    #[must_use = "a weak sender that is dropped does nothing"]
    pub fn downgrade(&self) -> WeakSender<T> {
        WeakSender::new(&self.shared)
    }

    /// The number of live senders. A [`Recording`](super::Recording) has no entry for this call.
    pub fn strong_count(&self) -> usize {
        self.shared.lock().senders.len()
    }

    /// The number of [`WeakSender`]s. A [`Recording`](super::Recording) has no entry for this call.
    pub fn weak_count(&self) -> usize {
        self.shared.lock().weak_senders
    }

    /// Whether both are senders of the same channel.
    pub fn same_channel(&self, other: &Self) -> bool {
        Arc::ptr_eq(&self.shared, &other.shared)
    }
}

impl<T> Clone for Sender<T> {
    /// Makes another sender of the same channel. It panics if the channel already has 65,535, or if
    /// an allocation fails; [`try_clone`](Self::try_clone) returns an error instead.
    #[track_caller]
    fn clone(&self) -> Self {
        made(self.try_clone())
    }
}

impl<T> Drop for Sender<T> {
    fn drop(&mut self) {
        let mut state = self.shared.lock();
        let told = state.core.call(|channel| channel.drop_tx(self.id));
        debug_assert_eq!(told.status, status::DONE);
        state.senders.remove(&self.id);
        let called = if state.senders.is_empty() {
            self.shared.reached.store(CLOSED, Ordering::Release);
            state.waiting.call()
        } else {
            Called::nobody()
        };
        drop(state);
        called.wake();
    }
}

impl<T> fmt::Debug for Sender<T> {
    fn fmt(&self, to: &mut fmt::Formatter<'_>) -> fmt::Result {
        to.write_str("broadcast::Sender")
    }
}

/// The future of [`Sender::closed`].
#[must_use = "a future does nothing unless it is awaited"]
pub struct Closed<'a, T> {
    sender: &'a Sender<T>,
    seat: Seat,
}

impl<T> Future for Closed<'_, T> {
    type Output = ();

    fn poll(self: Pin<&mut Self>, context: &mut Context<'_>) -> Poll<()> {
        let Self { sender, seat } = self.get_mut();
        seat.expect_waiting("broadcast::Closed");
        let mut state = sender.shared.lock();
        let receivers = state.core.count(|channel| channel.readers(sender.id));
        let answer = (receivers == 0).then_some(());
        let (polled, left) = state.leaving.poll(seat, context.waker(), answer);
        drop(state);
        drop(left);
        polled
    }
}

impl<T> Drop for Closed<'_, T> {
    fn drop(&mut self) {
        if self.seat.is_taken() {
            let left = self.sender.shared.lock().leaving.leave(&mut self.seat);
            drop(left);
        }
    }
}

impl<T> fmt::Debug for Closed<'_, T> {
    fn fmt(&self, to: &mut fmt::Formatter<'_>) -> fmt::Result {
        to.write_str("broadcast::Closed")
    }
}

/// A sender that does not keep the channel open, made by [`Sender::downgrade`]. It has to be
/// upgraded before it can send.
///
/// # Examples
///
/// ```
/// use topichub::broadcast;
///
/// let (tx, mut rx) = broadcast::channel(16);
/// let weak = tx.downgrade();
/// weak.upgrade().unwrap().send(10).unwrap();
/// drop(tx);
/// assert!(weak.upgrade().is_none());
/// assert_eq!(rx.blocking_recv(), Ok(10));
/// assert!(rx.blocking_recv().is_err());
/// ```
pub struct WeakSender<T> {
    shared: Arc<Shared<T>>,
}

impl<T> WeakSender<T> {
    fn new(shared: &Arc<Shared<T>>) -> Self {
        shared.lock().weak_senders += 1;
        Self {
            shared: Arc::clone(shared),
        }
    }

    /// Makes a sender, unless all senders were dropped. In a [`Recording`](super::Recording) it is
    /// a clone of a live one.
    ///
    /// # Panics
    ///
    /// If the channel already has 65,535 senders, or if an allocation fails.
    /// [`try_upgrade`](Self::try_upgrade) returns an error instead.
    #[must_use]
    #[track_caller]
    pub fn upgrade(&self) -> Option<Sender<T>> {
        let sender = self.try_upgrade()?;
        Some(made(sender))
    }

    /// Like [`upgrade`](Self::upgrade), but returns an error instead of panicking.
    #[must_use]
    pub fn try_upgrade(&self) -> Option<Result<Sender<T>, HandleError>> {
        Sender::of(&self.shared, |state| state.senders.iter().next().copied())
    }

    /// The number of live senders.
    pub fn strong_count(&self) -> usize {
        self.shared.lock().senders.len()
    }

    /// The number of weak senders, including this one.
    pub fn weak_count(&self) -> usize {
        self.shared.lock().weak_senders
    }
}

impl<T> Clone for WeakSender<T> {
    #[track_caller]
    fn clone(&self) -> Self {
        Self::new(&self.shared)
    }
}

impl<T> Drop for WeakSender<T> {
    fn drop(&mut self) {
        self.shared.lock().weak_senders -= 1;
    }
}

impl<T> fmt::Debug for WeakSender<T> {
    fn fmt(&self, to: &mut fmt::Formatter<'_>) -> fmt::Result {
        to.write_str("broadcast::WeakSender")
    }
}
