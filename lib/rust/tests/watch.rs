//! The rules of a watch channel, in one thread.
mod common;

use common::{block_on, poll, Calls};
use std::panic::{catch_unwind, AssertUnwindSafe};
use std::task::Poll;
use topichub::watch::{self, error::SendError, Builder, Sender};
use topichub::{BuildError, HandleError};

#[test]
fn a_change_is_reported_once_and_the_newest_value_is_shown() {
    let (tx, mut rx) = watch::channel("red");
    assert_eq!(rx.has_changed(), Ok(false));
    tx.send("amber").unwrap();
    tx.send("green").unwrap();
    assert_eq!(rx.has_changed(), Ok(true));
    assert_eq!(block_on(rx.changed()), Ok(()));
    assert_eq!(rx.has_changed(), Ok(false));
    assert_eq!(*rx.borrow(), "green");
}

#[test]
fn a_borrow_reports_whether_the_value_was_unseen() {
    let (tx, mut rx) = watch::channel(1);
    tx.send(2).unwrap();
    assert!(rx.borrow().has_changed());
    assert!(rx.borrow_and_update().has_changed());
    assert!(!rx.borrow().has_changed());
    rx.mark_changed();
    assert_eq!(rx.has_changed(), Ok(true));
    rx.mark_unchanged();
    assert_eq!(rx.has_changed(), Ok(false));
    assert!(!tx.borrow().has_changed());
    assert_eq!(
        format!("{:?}", rx.borrow()),
        "Ref { value: 2, has_changed: false }"
    );
}

#[test]
fn an_unseen_value_is_reported_before_the_end() {
    let (tx, mut rx) = watch::channel(1);
    tx.send(2).unwrap();
    drop(tx);
    assert!(rx.has_changed().is_err());
    assert_eq!(rx.blocking_changed(), Ok(()));
    assert!(rx.blocking_changed().is_err());
    assert_eq!(*rx.borrow(), 2);
}

#[test]
fn only_send_needs_a_receiver() {
    let tx = Sender::new(1);
    assert!(tx.is_closed());
    assert_eq!(tx.send(2), Err(SendError(2)));
    assert_eq!(tx.send_replace(3), 1);
    tx.send_modify(|value| *value += 1);
    assert_eq!(*tx.borrow(), 4);
    let rx = tx.subscribe();
    assert_eq!(
        (tx.receiver_count(), tx.is_closed(), rx.has_changed()),
        (1, false, Ok(false))
    );
}

#[test]
fn what_a_closure_does_not_publish_is_shown_but_not_reported() {
    let (tx, rx) = watch::channel(1);
    assert!(!tx.send_if_modified(|value| {
        *value = 2;
        false
    }));
    assert_eq!((*rx.borrow(), rx.has_changed()), (2, Ok(false)));
    assert!(tx.send_if_modified(|_| true));
    assert_eq!((*rx.borrow(), rx.has_changed()), (2, Ok(true)));
}

#[test]
fn a_closure_that_panics_publishes_nothing() {
    let (tx, rx) = watch::channel(1);
    let panicked = catch_unwind(AssertUnwindSafe(|| {
        tx.send_modify(|value| {
            *value = 2;
            panic!("in the closure");
        });
    }));
    assert!(panicked.is_err());
    assert_eq!((*rx.borrow(), rx.has_changed()), (2, Ok(false)));
    tx.send(3).unwrap();
    assert_eq!((*rx.borrow(), rx.has_changed()), (3, Ok(true)));
}

#[test]
fn a_clone_has_the_mark_of_its_original() {
    let (tx, mut rx) = watch::channel(1);
    tx.send(2).unwrap();
    let unseen = rx.clone();
    rx.mark_unchanged();
    let seen = rx.clone();
    assert_eq!(
        (unseen.has_changed(), seen.has_changed()),
        (Ok(true), Ok(false))
    );
    assert_eq!(tx.subscribe().has_changed(), Ok(false));
    assert!(rx.same_channel(&seen) && tx.same_channel(&tx.clone()));
}

#[test]
fn a_waiting_task_is_woken_by_a_publication_and_by_the_last_sender() {
    let (tx, mut rx) = watch::channel(1);
    let other = tx.clone();
    let (calls, waker) = Calls::new();
    {
        let mut waiting = rx.changed();
        assert_eq!(poll(&mut waiting, &waker), Poll::Pending);
        tx.send_if_modified(|_| false);
        assert_eq!(calls.count(), 0);
        tx.send(2).unwrap();
        assert_eq!(calls.count(), 1);
        assert_eq!(poll(&mut waiting, &waker), Poll::Ready(Ok(())));
    }
    assert_eq!(poll(&mut rx.changed(), &waker), Poll::Pending);
    let mut waiting = rx.changed();
    assert_eq!(poll(&mut waiting, &waker), Poll::Pending);
    drop(tx);
    assert_eq!(calls.count(), 1);
    drop(other);
    assert_eq!(calls.count(), 2);
    assert!(matches!(poll(&mut waiting, &waker), Poll::Ready(Err(_))));
}

#[test]
fn a_sender_can_wait_until_no_receiver_is_left() {
    let (tx, rx) = watch::channel(1);
    let other = rx.clone();
    let (calls, waker) = Calls::new();
    let mut waiting = tx.closed();
    assert_eq!(poll(&mut waiting, &waker), Poll::Pending);
    drop(rx);
    assert_eq!(calls.count(), 0);
    drop(other);
    assert_eq!(calls.count(), 1);
    assert_eq!(poll(&mut waiting, &waker), Poll::Ready(()));
}

#[test]
fn a_wait_for_a_value_ends_with_it_or_with_the_channel() {
    let (tx, mut rx) = watch::channel(1);
    assert_eq!(
        block_on(rx.wait_for(|value| *value == 1)).map(|value| *value),
        Ok(1)
    );
    let mut waiting = Box::pin(rx.wait_for(|value| *value == 3));
    let (calls, waker) = Calls::new();
    assert!(poll(&mut waiting, &waker).is_pending());
    tx.send(2).unwrap();
    assert!(poll(&mut waiting, &waker).is_pending());
    tx.send(3).unwrap();
    assert_eq!(calls.count(), 2);
    assert!(matches!(poll(&mut waiting, &waker), Poll::Ready(Ok(value)) if *value == 3));
    drop(waiting);
    drop(tx);
    assert!(block_on(rx.wait_for(|value| *value == 4)).is_err());
}

#[test]
fn handles_are_limited() {
    let (tx, rx) = watch::channel(1);
    let all: Vec<_> = (1..65_535).map(|_| rx.try_clone().unwrap()).collect();
    assert_eq!(tx.receiver_count(), 65_535);
    assert_eq!(rx.try_clone().err(), Some(HandleError::TooMany));
    assert_eq!(tx.try_subscribe().err(), Some(HandleError::TooMany));
    assert!(catch_unwind(AssertUnwindSafe(|| rx.clone())).is_err());
    drop(all);
    assert!(tx.try_subscribe().is_ok() && rx.try_clone().is_ok());
    let all: Vec<_> = (1..65_535).map(|_| tx.try_clone().unwrap()).collect();
    assert_eq!(tx.sender_count(), 65_535);
    assert_eq!(tx.try_clone().err(), Some(HandleError::TooMany));
    drop(all);
    assert_eq!((tx.sender_count(), tx.receiver_count()), (1, 1));
}

#[test]
fn tasks_that_only_look_can_share_a_receiver() {
    let (tx, rx) = watch::channel(1);
    let shared = std::sync::Arc::new(rx);
    std::thread::scope(|scope| {
        for _ in 0..3 {
            let shared = std::sync::Arc::clone(&shared);
            scope.spawn(move || while *shared.borrow() != 2 {});
        }
        tx.send(2).unwrap();
    });
    assert_eq!(tx.receiver_count(), 1);
}

/// A channel without a history answers some calls without the library, and passes some marks on to
/// it later. One with a history calls the library each time. Both must return the same.
#[test]
fn a_channel_without_a_history_answers_as_its_library_does() {
    type Ends = (Vec<Sender<u64>>, Vec<watch::Receiver<u64>>);

    fn shown(newest: watch::Ref<'_, u64>) -> (u64, bool) {
        (*newest, newest.has_changed())
    }

    fn answers((senders, receivers): &Ends) -> String {
        let closed: Vec<_> = senders.iter().map(Sender::is_closed).collect();
        let changed = receivers
            .iter()
            .map(|it| (it.has_changed(), shown(it.borrow())));
        format!("{closed:?} {:?}", changed.collect::<Vec<_>>())
    }

    /// Makes a call, and returns its result as text.
    fn step((senders, receivers): &mut Ends, choice: u64, who: usize) -> String {
        let (tx, rx) = (who % senders.len().max(1), who % receivers.len().max(1));
        let mut told = String::new();
        match (choice, senders.get(tx), receivers.get_mut(rx)) {
            (0, Some(tx), _) => told = format!("{:?}", tx.send(1)),
            (1, Some(tx), _) => told = tx.send_replace(2).to_string(),
            (2, Some(tx), _) => tx.send_modify(|value| *value += 1),
            (3, Some(tx), _) => drop(tx.send_if_modified(|value| std::mem::replace(value, 7) == 8)),
            (4, Some(tx), _) => receivers.push(tx.subscribe()),
            (5, Some(tx), _) => senders.push(tx.clone()),
            (6, Some(_), _) if who % 8 == 0 => drop(senders.swap_remove(tx)),
            (7 | 8, _, Some(rx)) => told = format!("{:?}", shown(rx.borrow_and_update())),
            (9, _, Some(rx)) => rx.mark_changed(),
            (10, _, Some(rx)) => rx.mark_unchanged(),
            (11, _, Some(rx)) => {
                let another = rx.clone();
                receivers.push(another);
            }
            (12, _, Some(_)) => drop(receivers.swap_remove(rx)),
            (13 | 14, _, Some(rx)) => {
                told = format!("{:?}", poll(&mut rx.changed(), &Calls::new().1));
            }
            (15, Some(tx), _) => told = tx.receiver_count().to_string(),
            (16, _, Some(rx)) => {
                let mut waiting = Box::pin(rx.wait_for(|value| *value > 2));
                let polled = poll(&mut waiting, &Calls::new().1);
                told = format!("{:?}", polled.map(|it| it.map(shown)));
            }
            _ => {}
        }
        told
    }

    let mut dice = common::Dice::new(1);
    for _ in 0..400 {
        let (tx, rx) = watch::channel(0);
        let mut plain: Ends = (vec![tx], vec![rx]);
        let (tx, rx, recording) = Builder::new(0).recorded(1_000_000).build().unwrap();
        let mut recorded: Ends = (vec![tx], vec![rx]);
        for _ in 0..100 {
            let (choice, who) = (dice.below(17), dice.below(64) as usize);
            let told = step(&mut plain, choice, who);
            assert_eq!(told, step(&mut recorded, choice, who));
            assert_eq!(answers(&plain), answers(&recorded));
        }
        let verdict = topichub::check(recording.trace().as_bytes());
        assert!(matches!(verdict, topichub::Verdict::Legal(_)));
    }
}

#[test]
fn senders_are_counted() {
    let (tx, _rx) = watch::channel(1);
    let other = tx.clone();
    assert_eq!(tx.sender_count(), 2);
    drop(tx);
    assert_eq!(other.sender_count(), 1);
}

#[test]
fn an_error_can_contain_any_value() {
    struct Whole;
    let error: Box<dyn std::error::Error> = Box::new(SendError(Whole));
    assert_eq!(
        format!("{error:?} {error}"),
        "SendError { .. } channel closed"
    );
}

#[test]
fn a_finished_wait_marks_nothing_more() {
    let (tx, mut rx) = watch::channel(1);
    let (_, waker) = Calls::new();
    tx.send(2).unwrap();
    let mut changed = rx.changed();
    assert_eq!(poll(&mut changed, &waker), Poll::Ready(Ok(())));
    tx.send(3).unwrap();
    let again = catch_unwind(AssertUnwindSafe(|| poll(&mut changed, &waker)));
    let said = again.unwrap_err().downcast::<String>().unwrap();
    assert!(said.contains("watch::Changed"), "{said}");
    drop(changed);
    assert_eq!(rx.has_changed(), Ok(true));
    drop(rx);
    let mut closed = tx.closed();
    assert_eq!(poll(&mut closed, &waker), Poll::Ready(()));
    assert!(catch_unwind(AssertUnwindSafe(|| poll(&mut closed, &waker))).is_err());
}

#[test]
fn invalid_limits_are_refused() {
    for limit in [0, 1, 2, 1_000_001] {
        assert_eq!(
            Builder::new(1).recorded(limit).build().unwrap_err(),
            BuildError::Limit
        );
    }
}

#[test]
fn waits_can_be_sent_to_other_threads() {
    fn goes<T: Send>(value: T) -> T {
        value
    }
    let (tx, mut rx) = watch::channel(String::new());
    drop(goes(rx.changed()));
    drop(goes(rx.wait_for(|value| value.is_empty())));
    drop(goes(tx.closed()));
}
