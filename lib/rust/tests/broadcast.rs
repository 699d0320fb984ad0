//! The rules of a broadcast channel, in one thread.
mod common;

use common::{block_on, poll, Calls};
use std::cell::Cell;
use std::panic::{catch_unwind, AssertUnwindSafe};
use std::rc::Rc;
use std::sync::atomic::{AtomicUsize, Ordering};
use std::sync::Arc;
use std::task::Poll;
use topichub::broadcast::error::{RecvError, SendError, TryRecvError};
use topichub::broadcast::{self, Builder, Sender};
use topichub::{BuildError, HandleError};

#[test]
fn each_value_goes_to_each_receiver_in_order() {
    let (tx, mut first) = broadcast::channel(4);
    let mut second = tx.subscribe();
    for value in ["one", "two"] {
        assert_eq!(tx.send(value), Ok(2));
    }
    for receiver in [&mut first, &mut second] {
        assert_eq!(receiver.try_recv(), Ok("one"));
        assert_eq!(receiver.try_recv(), Ok("two"));
        assert_eq!(receiver.try_recv(), Err(TryRecvError::Empty));
    }
}

#[test]
fn a_capacity_is_rounded_up_and_a_receiver_behind_it_lags() {
    let (tx, mut rx) = broadcast::channel(3);
    for value in 0..7 {
        tx.send(value).unwrap();
    }
    assert_eq!((rx.len(), tx.len()), (7, 4));
    assert_eq!(rx.try_recv(), Err(TryRecvError::Lagged(3)));
    assert_eq!(rx.try_recv(), Ok(3));
    tx.send(7).unwrap();
    tx.send(8).unwrap();
    assert_eq!(rx.blocking_recv(), Err(RecvError::Lagged(1)));
    assert_eq!(
        (5..9)
            .map(|_| rx.blocking_recv().unwrap())
            .collect::<Vec<_>>(),
        [5, 6, 7, 8]
    );
    assert!(rx.is_empty() && tx.is_empty());
}

#[test]
fn a_closed_channel_reports_a_lag_and_then_gives_what_it_kept() {
    let (tx, mut rx) = broadcast::channel(1);
    let other = tx.clone();
    tx.send(1).unwrap();
    drop(tx);
    other.send(2).unwrap();
    drop(other);
    assert_eq!(rx.try_recv(), Err(TryRecvError::Lagged(1)));
    assert_eq!(rx.try_recv(), Ok(2));
    assert_eq!(rx.try_recv(), Err(TryRecvError::Closed));
    assert_eq!(block_on(rx.recv()), Err(RecvError::Closed));
}

#[test]
fn without_receivers_a_value_comes_back_and_later_ones_may_be_sent() {
    let tx = Sender::new(2);
    assert_eq!(
        tx.send("lost".to_string()),
        Err(SendError("lost".to_string()))
    );
    let mut rx = tx.subscribe();
    assert_eq!(
        (tx.receiver_count(), tx.send("told".to_string())),
        (1, Ok(1))
    );
    assert_eq!(rx.try_recv().as_deref(), Ok("told"));
}

#[test]
fn new_receivers_begin_where_they_should() {
    let (tx, mut rx) = broadcast::channel(4);
    tx.send(1).unwrap();
    tx.send(2).unwrap();
    assert_eq!(rx.try_recv(), Ok(1));
    let (mut newest, mut oldest, mut again) =
        (tx.subscribe(), tx.subscribe_oldest(), rx.resubscribe());
    tx.send(3).unwrap();
    assert_eq!(newest.try_recv(), Ok(3));
    assert_eq!(oldest.try_recv(), Ok(2));
    assert_eq!(again.try_recv(), Ok(3));
    assert_eq!(rx.try_recv(), Ok(2));
    assert_eq!(tx.receiver_count(), 4);
    assert!(rx.same_channel(&again) && tx.same_channel(&tx.clone()));
    assert!(!tx.same_channel(&broadcast::channel(1).0));
}

/// A payload that counts its clones and its drops.
struct Counted {
    number: usize,
    clones: Arc<AtomicUsize>,
    drops: Arc<AtomicUsize>,
}

impl Clone for Counted {
    fn clone(&self) -> Self {
        self.clones.fetch_add(1, Ordering::Relaxed);
        Self {
            number: self.number,
            clones: Arc::clone(&self.clones),
            drops: Arc::clone(&self.drops),
        }
    }
}

impl Drop for Counted {
    fn drop(&mut self) {
        self.drops.fetch_add(1, Ordering::Relaxed);
    }
}

#[test]
fn a_value_is_kept_until_its_last_reader_and_that_one_gets_it_uncloned() {
    let (clones, drops) = (Arc::new(AtomicUsize::new(0)), Arc::new(AtomicUsize::new(0)));
    let made = |number| Counted {
        number,
        clones: Arc::clone(&clones),
        drops: Arc::clone(&drops),
    };
    let count = || {
        (
            clones.load(Ordering::Relaxed),
            drops.load(Ordering::Relaxed),
        )
    };
    let (tx, mut first) = broadcast::channel(2);
    let mut second = tx.subscribe();
    let third = tx.subscribe();
    for number in 0..2 {
        tx.send(made(number)).ok().unwrap();
    }
    drop(third);
    assert_eq!(first.try_recv().ok().map(|value| value.number), Some(0));
    assert_eq!(count(), (1, 1));
    assert_eq!(second.try_recv().ok().map(|value| value.number), Some(0));
    assert_eq!(count(), (1, 2));
    // The second value is dropped with the last receiver that has not read it.
    drop(first);
    assert_eq!(count(), (1, 2));
    drop(second);
    assert_eq!(count(), (1, 3));
    assert!(tx.send(made(2)).is_err());
    assert_eq!(count(), (1, 4));
    // A value that no receiver has read is dropped when the channel no longer keeps it, or with the
    // channel.
    let late = tx.subscribe();
    for number in 3..6 {
        tx.send(made(number)).ok().unwrap();
    }
    assert_eq!(count(), (1, 5));
    drop((tx, late));
    assert_eq!(count(), (1, 7));
}

#[test]
fn a_waiting_task_is_woken_once_by_a_value_and_by_the_last_sender() {
    let (tx, mut rx) = broadcast::channel(4);
    let other = tx.clone();
    let (calls, waker) = Calls::new();
    {
        let mut waiting = rx.recv();
        assert_eq!(poll(&mut waiting, &waker), Poll::Pending);
        assert_eq!(poll(&mut waiting, &waker), Poll::Pending);
        tx.send(1).unwrap();
        tx.send(2).unwrap();
        assert_eq!(calls.count(), 1);
        assert_eq!(poll(&mut waiting, &waker), Poll::Ready(Ok(1)));
    }
    assert_eq!(rx.try_recv(), Ok(2));
    let mut waiting = rx.recv();
    assert_eq!(poll(&mut waiting, &waker), Poll::Pending);
    drop(tx);
    assert_eq!(calls.count(), 1);
    drop(other);
    assert_eq!(calls.count(), 2);
    assert_eq!(
        poll(&mut waiting, &waker),
        Poll::Ready(Err(RecvError::Closed))
    );
}

#[test]
fn a_wait_that_is_dropped_receives_nothing_and_is_not_woken() {
    let (tx, mut rx) = broadcast::channel(4);
    let (calls, waker) = Calls::new();
    for _ in 0..10 {
        assert_eq!(poll(&mut rx.recv(), &waker), Poll::Pending);
    }
    tx.send(1).unwrap();
    assert_eq!(calls.count(), 0);
    assert_eq!(rx.try_recv(), Ok(1));
}

#[test]
fn invalid_capacities_and_limits_are_refused() {
    assert_eq!(
        Builder::new(0).build::<u8>().unwrap_err(),
        BuildError::Capacity
    );
    assert_eq!(
        Builder::new(65_537).build::<u8>().unwrap_err(),
        BuildError::Capacity
    );
    assert_eq!(
        Builder::new(usize::MAX).build::<u8>().unwrap_err(),
        BuildError::Capacity
    );
    for limit in [0, 1, 2, 1_000_001] {
        assert_eq!(
            Builder::new(1).recorded(limit).build::<u8>().unwrap_err(),
            BuildError::Limit
        );
    }
    assert!(catch_unwind(|| broadcast::channel::<u8>(0)).is_err());
}

#[test]
fn receivers_are_limited() {
    let (tx, rx) = broadcast::channel::<u8>(1);
    let all: Vec<_> = (1..65_535).map(|_| tx.subscribe()).collect();
    assert_eq!(tx.receiver_count(), 65_535);
    assert!(catch_unwind(AssertUnwindSafe(|| rx.resubscribe())).is_err());
    assert_eq!(rx.try_resubscribe().err(), Some(HandleError::TooMany));
    assert_eq!(tx.try_subscribe().err(), Some(HandleError::TooMany));
    assert_eq!(tx.try_subscribe_oldest().err(), Some(HandleError::TooMany));
    drop(all);
    assert_eq!(
        tx.try_subscribe().unwrap().try_recv(),
        Err(TryRecvError::Empty)
    );
    assert!(tx.try_subscribe_oldest().is_ok() && rx.try_resubscribe().is_ok());
}

#[test]
fn senders_are_limited() {
    let (tx, rx) = broadcast::channel::<u8>(1);
    let weak = tx.downgrade();
    let all: Vec<_> = (1..65_535).map(|_| tx.try_clone().unwrap()).collect();
    assert_eq!(rx.sender_strong_count(), 65_535);
    assert_eq!(tx.try_clone().err(), Some(HandleError::TooMany));
    let upgraded = weak.try_upgrade().unwrap();
    assert_eq!(upgraded.err(), Some(HandleError::TooMany));
    assert!(catch_unwind(AssertUnwindSafe(|| tx.clone())).is_err());
    assert_eq!(rx.sender_strong_count(), 65_535);
    drop(all);
    assert!(weak.try_upgrade().unwrap().unwrap().same_channel(&tx));
    drop(tx);
    assert!(weak.try_upgrade().is_none() && rx.is_closed());
}

#[test]
fn a_history_without_room_for_a_handle_is_an_error() {
    let (tx, rx, recording) = Builder::new(1).recorded(3).build::<u8>().unwrap();
    assert_eq!(tx.try_subscribe().err(), Some(HandleError::Limit));
    assert_eq!(tx.try_clone().err(), Some(HandleError::Limit));
    assert_eq!(rx.try_resubscribe().err(), Some(HandleError::Limit));
    assert_eq!(
        (tx.strong_count(), recording.trace().is_empty()),
        (1, false)
    );
    assert_eq!(
        HandleError::TooMany.to_string(),
        "the channel already has 65,535 handles of this kind"
    );
}

#[test]
fn the_greatest_capacity_works() {
    let (tx, mut rx) = Builder::new(65_536).build().unwrap();
    tx.send_many((0..65_537).collect()).unwrap();
    assert_eq!(rx.try_recv(), Err(TryRecvError::Lagged(1)));
    assert_eq!((rx.try_recv(), rx.len()), (Ok(1), 65_535));
}

#[test]
fn a_sender_can_wait_until_no_receiver_is_left() {
    let (tx, rx) = broadcast::channel::<u8>(1);
    let other = rx.resubscribe();
    let (calls, waker) = Calls::new();
    let mut waiting = tx.closed();
    assert_eq!(poll(&mut waiting, &waker), Poll::Pending);
    drop(rx);
    assert_eq!(calls.count(), 0);
    drop(other);
    assert_eq!(calls.count(), 1);
    // A receiver that is made before the task is polled again keeps it waiting.
    let late = tx.subscribe();
    assert_eq!(poll(&mut waiting, &waker), Poll::Pending);
    drop(late);
    assert_eq!(calls.count(), 2);
    assert_eq!(poll(&mut waiting, &waker), Poll::Ready(()));
    assert_eq!(block_on(Sender::<u8>::new(1).closed()), ());
}

#[test]
fn a_weak_sender_does_not_keep_a_channel_open() {
    let (tx, mut rx) = broadcast::channel(4);
    let other = tx.clone();
    let weak = tx.downgrade();
    let second = weak.clone();
    assert_eq!((tx.strong_count(), tx.weak_count()), (2, 2));
    assert_eq!((weak.strong_count(), weak.weak_count()), (2, 2));
    assert_eq!((rx.sender_strong_count(), rx.sender_weak_count()), (2, 2));
    drop((tx, second));
    assert_eq!((rx.sender_strong_count(), rx.sender_weak_count()), (1, 1));
    let again = weak.upgrade().unwrap();
    assert!(again.same_channel(&other));
    drop(other);
    assert_eq!(again.send(1), Ok(1));
    assert!(!rx.is_closed());
    drop(again);
    assert!(rx.is_closed() && weak.upgrade().is_none());
    assert_eq!(rx.try_recv(), Ok(1));
    assert_eq!(rx.try_recv(), Err(TryRecvError::Closed));
    assert_eq!(format!("{weak:?}"), "broadcast::WeakSender");
}

#[test]
fn an_upgrade_is_a_clone_in_the_recording() {
    let (tx, rx, recording) = Builder::new(1).recorded(100).build::<u8>().unwrap();
    let weak = tx.downgrade();
    drop(weak.upgrade());
    assert_eq!((tx.strong_count(), rx.sender_weak_count()), (1, 1));
    let trace = recording.trace();
    assert!(
        trace.ends_with("C clone-tx 1\nR new-tx 3\nC drop-tx 3\nR done\nEND 3\n"),
        "{trace}"
    );
}

#[test]
fn a_sender_does_not_need_values_that_can_be_cloned() {
    struct Whole;
    let tx = Sender::<Whole>::new(1);
    let rx = tx.subscribe();
    assert!(tx.send(Whole).is_ok() && !rx.is_empty());
}

#[test]
fn a_receive_that_was_ready_takes_no_second_value() {
    let (tx, mut rx) = broadcast::channel(4);
    tx.send(1).unwrap();
    tx.send(2).unwrap();
    let (_, waker) = Calls::new();
    let mut receive = rx.recv();
    assert_eq!(poll(&mut receive, &waker), Poll::Ready(Ok(1)));
    let again = catch_unwind(AssertUnwindSafe(|| poll(&mut receive, &waker)));
    let said = again.unwrap_err().downcast::<String>().unwrap();
    assert!(said.contains("broadcast::Recv"), "{said}");
    drop(receive);
    assert_eq!(rx.try_recv(), Ok(2));
    drop(rx);
    let mut closed = tx.closed();
    assert_eq!(poll(&mut closed, &waker), Poll::Ready(()));
    assert!(catch_unwind(AssertUnwindSafe(|| poll(&mut closed, &waker))).is_err());
}

#[derive(Debug)]
struct PanicsOnce(Rc<Cell<bool>>);

impl Clone for PanicsOnce {
    fn clone(&self) -> Self {
        assert!(self.0.replace(true), "the first clone");
        Self(Rc::clone(&self.0))
    }
}

#[test]
fn a_clone_that_panics_leaves_the_channel_in_order() {
    let (tx, mut rx) = broadcast::channel(4);
    let mut other = tx.subscribe();
    let has_panicked = Rc::new(Cell::new(false));
    for _ in 0..2 {
        tx.send(PanicsOnce(Rc::clone(&has_panicked))).unwrap();
    }
    assert!(catch_unwind(AssertUnwindSafe(|| rx.try_recv())).is_err());
    assert!(rx.try_recv().is_ok());
    assert_eq!(rx.try_recv().unwrap_err(), TryRecvError::Empty);
    assert!(other.try_recv().is_ok() && other.try_recv().is_ok());
}

#[test]
fn errors_and_handles_print_what_tokios_print() {
    let (tx, rx) = broadcast::channel::<u8>(1);
    assert_eq!(
        format!("{tx:?} {rx:?}"),
        "broadcast::Sender broadcast::Receiver"
    );
    assert_eq!(SendError(1).to_string(), "channel closed");
    assert_eq!(RecvError::Lagged(2).to_string(), "channel lagged by 2");
    assert_eq!(TryRecvError::Empty.to_string(), "channel empty");
}

#[test]
fn handles_can_be_sent_to_threads_if_values_can() {
    fn goes<T: Send + Sync>() {}
    goes::<broadcast::Sender<Cell<u8>>>();
    goes::<broadcast::Receiver<Cell<u8>>>();
    goes::<broadcast::Recording<Cell<u8>>>();
    goes::<broadcast::WeakSender<Cell<u8>>>();
    goes::<broadcast::Recv<'_, Cell<u8>>>();
    goes::<broadcast::Closed<'_, Cell<u8>>>();
}
