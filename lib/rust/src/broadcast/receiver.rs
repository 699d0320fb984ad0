//! The receiving side.
use super::error::{RecvError, RecvTimeoutError, TryRecvError};
use super::{Shared, State, CLOSED};
use crate::blocking::{block_on, block_until, deadline_after, Patience};
use crate::library::status;
use crate::recording::made;
use crate::waiting::{Called, Seat};
use crate::HandleError;
use std::fmt;
use std::future::Future;
use std::pin::Pin;
use std::sync::atomic::Ordering;
use std::sync::Arc;
use std::task::{Context, Poll};
use std::time::{Duration, Instant};

/// How long a thread looks for a value before it sleeps: less time than it takes to wake a thread.
const BLOCKING: Patience = Patience { spins: 5 };

/// Receives every value that is sent to a channel. Each receiver has its own position.
pub struct Receiver<T> {
    shared: Arc<Shared<T>>,
    id: u64,
    /// The number of the next value, or a lower one.
    next: u64,
    /// The seat of the task that last called [`poll_recv`](Self::poll_recv).
    seat: Seat,
}

impl<T> Receiver<T> {
    pub(super) fn new(shared: Arc<Shared<T>>, id: u64) -> Self {
        Self {
            shared,
            id,
            next: 0,
            seat: Seat::default(),
        }
    }

    /// Whether there seems to be something new. This takes no lock, and only decides whether to
    /// ask.
    fn seems_ready(&self) -> Option<()> {
        (self.shared.reached.load(Ordering::Relaxed) > self.next).then_some(())
    }

    /// The number of values that this receiver has yet to receive, including those it missed.
    #[track_caller]
    pub fn len(&self) -> usize {
        self.shared
            .lock()
            .core
            .count(|channel| channel.left(self.id))
    }

    /// Whether there is no value to receive.
    #[track_caller]
    pub fn is_empty(&self) -> bool {
        self.len() == 0
    }

    /// Whether both are receivers of the same channel.
    pub fn same_channel(&self, other: &Self) -> bool {
        Arc::ptr_eq(&self.shared, &other.shared)
    }

    /// Whether no sender is left. There may still be values to receive. A
    /// [`Recording`](super::Recording) has no entry for this call.
    ///
    /// # Examples
    ///
    /// ```
    /// use topichub::broadcast;
    ///
    /// let (tx, rx) = broadcast::channel::<u8>(16);
    /// assert!(!rx.is_closed());
    /// drop(tx);
    /// assert!(rx.is_closed());
    /// ```
    pub fn is_closed(&self) -> bool {
        self.shared.reached.load(Ordering::Acquire) == CLOSED
    }

    /// The number of live senders. A [`Recording`](super::Recording) has no entry for this call.
    pub fn sender_strong_count(&self) -> usize {
        self.shared.lock().senders.len()
    }

    /// The number of [`WeakSender`](super::WeakSender)s. A [`Recording`](super::Recording) has no
    /// entry for this call.
    pub fn sender_weak_count(&self) -> usize {
        self.shared.lock().weak_senders
    }

    /// Makes a receiver for the values that are sent from now on. This one does not change.
    ///
    /// # Panics
    ///
    /// If the channel already has 65,535 receivers, or if an allocation fails.
    /// [`try_resubscribe`](Self::try_resubscribe) returns an error instead.
    #[must_use]
    #[track_caller]
    pub fn resubscribe(&self) -> Self {
        made(self.try_resubscribe())
    }

    /// Like [`resubscribe`](Self::resubscribe), but returns an error instead of panicking.
    pub fn try_resubscribe(&self) -> Result<Self, HandleError> {
        let mut state = self.shared.lock();
        let id = state.new_receiver(|channel| channel.resubscribe(self.id))?;
        Ok(Self::new(Arc::clone(&self.shared), id))
    }
}

impl<T: Clone> Receiver<T> {
    /// Waits for the next value.
    ///
    /// If this receiver fell behind, it returns [`RecvError::Lagged`] with the number of values it
    /// missed. If no sender is left and everything that was kept has been received, it returns
    /// [`RecvError::Closed`].
    ///
    /// # Cancel safety
    ///
    /// This method is cancel safe: dropping the future before it is ready loses no value.
    ///
    /// # Examples
    ///
    /// ```no_run
    /// use topichub::broadcast::{self, error::RecvError};
    ///
    /// async fn sum(mut rx: broadcast::Receiver<u64>) -> u64 {
    ///     let mut sum = 0;
    ///     loop {
    ///         match rx.recv().await {
    ///             Ok(value) => sum += value,
    ///             Err(RecvError::Lagged(missed)) => eprintln!("{missed} values were missed"),
    ///             Err(RecvError::Closed) => return sum,
    ///         }
    ///     }
    /// }
    /// ```
    pub fn recv(&mut self) -> Recv<'_, T> {
        Recv(Wait::new(self))
    }

    /// Polls for the next value, for streams and hand-written futures. If there is none, the task
    /// of the last call is woken once there is one. Tokio's `broadcast` has no such call, but its
    /// `mpsc` does.
    #[track_caller]
    pub fn poll_recv(&mut self, context: &mut Context<'_>) -> Poll<Result<T, RecvError>> {
        let mut state = self.shared.lock();
        let answer = state.recv(self.id, &mut self.next);
        let (polled, left) = state.waiting.poll(&mut self.seat, context.waker(), answer);
        drop(state);
        drop(left);
        polled
    }

    /// Like [`recv`](Self::recv), but blocks the thread.
    ///
    /// It first spins for about a microsecond, since going to sleep and being woken takes longer.
    /// If there is a value, it costs as much as [`try_recv`](Self::try_recv).
    ///
    /// # Examples
    ///
    /// ```
    /// use topichub::broadcast;
    ///
    /// let (tx, mut rx) = broadcast::channel(16);
    /// let receiving = std::thread::spawn(move || rx.blocking_recv());
    /// tx.send(10).unwrap();
    /// assert_eq!(receiving.join().unwrap(), Ok(10));
    /// ```
    #[track_caller]
    pub fn blocking_recv(&mut self) -> Result<T, RecvError> {
        match self.look(State::recv) {
            Some(answer) => answer,
            None => block_on(self.recv()),
        }
    }

    /// Looks for an answer before the thread sleeps. Usually there is one, and then no future and
    /// no waker is made.
    #[inline]
    fn look<A>(
        &mut self,
        look: impl FnOnce(&mut State<T>, u64, &mut u64) -> Option<A>,
    ) -> Option<A> {
        BLOCKING.until(|| self.seems_ready())?;
        look(&mut self.shared.lock(), self.id, &mut self.next)
    }

    /// Like [`blocking_recv`](Self::blocking_recv), but waits for at most this long. Tokio has no
    /// such call.
    ///
    /// No value is lost: the next receive returns one that comes after the timeout.
    ///
    /// # Examples
    ///
    /// ```
    /// use std::time::Duration;
    /// use topichub::broadcast::{self, error::RecvTimeoutError};
    ///
    /// let (tx, mut rx) = broadcast::channel(16);
    /// let limit = Duration::from_millis(1);
    /// assert_eq!(rx.recv_timeout(limit), Err(RecvTimeoutError::Timeout));
    /// tx.send(10).unwrap();
    /// assert_eq!(rx.recv_timeout(limit), Ok(10));
    /// drop(tx);
    /// assert_eq!(rx.recv_timeout(limit), Err(RecvTimeoutError::Disconnected));
    /// ```
    pub fn recv_timeout(&mut self, timeout: Duration) -> Result<T, RecvTimeoutError> {
        self.recv_until(|| deadline_after(timeout))
    }

    /// Like [`recv_timeout`](Self::recv_timeout), but waits until this time.
    pub fn recv_deadline(&mut self, deadline: Instant) -> Result<T, RecvTimeoutError> {
        self.recv_until(|| Some(deadline))
    }

    fn recv_until(
        &mut self,
        deadline: impl FnOnce() -> Option<Instant>,
    ) -> Result<T, RecvTimeoutError> {
        let told = self
            .look(State::recv)
            .or_else(|| block_until(self.recv(), deadline()));
        Ok(told.ok_or(RecvTimeoutError::Timeout)??)
    }

    /// Waits for a value, and appends it and those that were sent after it to the buffer, up to
    /// `limit` in all. It returns their number: at least 1, or 0 if the limit is 0. The errors are
    /// those of [`recv`](Self::recv). Tokio's `broadcast` has no such call, but its `mpsc` does.
    ///
    /// It takes the channel's lock once for all of them, and clones them under it.
    ///
    /// # Cancel safety
    ///
    /// This method is cancel safe: dropping the future before it is ready loses no value.
    ///
    /// # Examples
    ///
    /// ```no_run
    /// use topichub::broadcast::{self, error::RecvError};
    ///
    /// async fn next_lines(rx: &mut broadcast::Receiver<String>) -> Result<Vec<String>, RecvError> {
    ///     let mut lines = Vec::new();
    ///     rx.recv_many(&mut lines, 64).await?;
    ///     Ok(lines)
    /// }
    /// ```
    pub fn recv_many<'a>(&'a mut self, buffer: &'a mut Vec<T>, limit: usize) -> RecvMany<'a, T> {
        RecvMany {
            wait: Wait::new(self),
            buffer,
            limit,
        }
    }

    /// Like [`recv_many`](Self::recv_many), but blocks the thread.
    ///
    /// # Examples
    ///
    /// ```
    /// use topichub::broadcast;
    ///
    /// let (tx, mut rx) = broadcast::channel(16);
    /// tx.send_many(vec![10, 20, 30]).unwrap();
    /// let mut values = vec![];
    /// assert_eq!(rx.blocking_recv_many(&mut values, 2), Ok(2));
    /// assert_eq!(rx.blocking_recv_many(&mut values, 2), Ok(1));
    /// assert_eq!(values, [10, 20, 30]);
    /// ```
    #[track_caller]
    pub fn blocking_recv_many(
        &mut self,
        buffer: &mut Vec<T>,
        limit: usize,
    ) -> Result<usize, RecvError> {
        let told = self.look(|state, id, next| state.recv_many(id, next, buffer, limit));
        match told {
            Some(answer) => answer,
            None => block_on(self.recv_many(buffer, limit)),
        }
    }

    /// Like [`recv_many`](Self::recv_many), but does not wait. The errors are those of
    /// [`try_recv`](Self::try_recv).
    #[track_caller]
    pub fn try_recv_many(
        &mut self,
        buffer: &mut Vec<T>,
        limit: usize,
    ) -> Result<usize, TryRecvError> {
        self.shared
            .lock()
            .try_recv_many(self.id, &mut self.next, buffer, limit)
    }

    /// Returns the next value, if there is one.
    ///
    /// It takes the channel's lock once, for a time at most logarithmic in the number of receivers,
    /// and allocates nothing itself. Every receiver of a value but the last clones it under the
    /// lock.
    ///
    /// # Examples
    ///
    /// ```
    /// use topichub::broadcast::{self, error::TryRecvError};
    ///
    /// let (tx, mut rx) = broadcast::channel(16);
    /// assert_eq!(rx.try_recv(), Err(TryRecvError::Empty));
    /// tx.send(10).unwrap();
    /// assert_eq!(rx.try_recv(), Ok(10));
    /// ```
    #[track_caller]
    #[inline]
    pub fn try_recv(&mut self) -> Result<T, TryRecvError> {
        self.shared.lock().try_recv(self.id, &mut self.next)
    }
}

impl<T> Drop for Receiver<T> {
    fn drop(&mut self) {
        let mut state = self.shared.lock();
        let told = state.core.call(|channel| channel.drop_rx(self.id));
        debug_assert_eq!(told.status, status::DONE);
        state.receivers -= 1;
        let called = if state.receivers == 0 {
            state.leaving.call()
        } else {
            Called::nobody()
        };
        // A value's own `drop` must not run under the lock.
        let let_go = state.kept.take_oldest(told.let_go);
        let left = state.waiting.leave(&mut self.seat);
        drop(state);
        called.wake();
        drop((let_go, left));
    }
}

impl<T> fmt::Debug for Receiver<T> {
    fn fmt(&self, to: &mut fmt::Formatter<'_>) -> fmt::Result {
        to.write_str("broadcast::Receiver")
    }
}

/// A receiver that waits, and its seat.
struct Wait<'a, T> {
    receiver: &'a mut Receiver<T>,
    seat: Seat,
}

impl<'a, T> Wait<'a, T> {
    fn new(receiver: &'a mut Receiver<T>) -> Self {
        Self {
            receiver,
            seat: Seat::default(),
        }
    }

    /// Polls the future with this name: it is ready if `look` finds an answer.
    #[inline]
    fn poll<A>(
        &mut self,
        future: &str,
        context: &Context<'_>,
        look: impl FnOnce(&mut State<T>, u64, &mut u64) -> Option<A>,
    ) -> Poll<A> {
        let Self { receiver, seat } = self;
        seat.expect_waiting(future);
        let mut state = receiver.shared.lock();
        let answer = look(&mut state, receiver.id, &mut receiver.next);
        let (polled, left) = state.waiting.poll(seat, context.waker(), answer);
        drop(state);
        drop(left);
        polled
    }
}

impl<T> Drop for Wait<'_, T> {
    fn drop(&mut self) {
        if self.seat.is_taken() {
            let left = self.receiver.shared.lock().waiting.leave(&mut self.seat);
            drop(left);
        }
    }
}

/// The future of [`Receiver::recv`].
#[must_use = "a future does nothing unless it is awaited"]
pub struct Recv<'a, T>(Wait<'a, T>);

impl<T: Clone> Future for Recv<'_, T> {
    type Output = Result<T, RecvError>;

    fn poll(self: Pin<&mut Self>, context: &mut Context<'_>) -> Poll<Self::Output> {
        let wait = &mut self.get_mut().0;
        wait.poll("broadcast::Recv", context, State::recv)
    }
}

impl<T> fmt::Debug for Recv<'_, T> {
    fn fmt(&self, to: &mut fmt::Formatter<'_>) -> fmt::Result {
        to.write_str("broadcast::Recv")
    }
}

/// The future of [`Receiver::recv_many`].
#[must_use = "a future does nothing unless it is awaited"]
pub struct RecvMany<'a, T> {
    wait: Wait<'a, T>,
    buffer: &'a mut Vec<T>,
    limit: usize,
}

impl<T: Clone> Future for RecvMany<'_, T> {
    type Output = Result<usize, RecvError>;

    fn poll(self: Pin<&mut Self>, context: &mut Context<'_>) -> Poll<Self::Output> {
        let Self {
            wait,
            buffer,
            limit,
        } = self.get_mut();
        wait.poll("broadcast::RecvMany", context, |state, id, next| {
            state.recv_many(id, next, buffer, *limit)
        })
    }
}

impl<T> fmt::Debug for RecvMany<'_, T> {
    fn fmt(&self, to: &mut fmt::Formatter<'_>) -> fmt::Result {
        to.write_str("broadcast::RecvMany")
    }
}
