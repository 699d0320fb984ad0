//! Sending and receiving values in groups.
mod common;

use common::{block_on, poll, Calls};
use std::rc::Rc;
use std::task::Poll;
use std::thread;
use topichub::broadcast::error::{RecvError, TryRecvError};
use topichub::broadcast::{self, Builder};
use topichub::{check, Verdict};

#[test]
fn a_group_is_sent_in_order_and_wakes_once() {
    let (tx, mut rx) = broadcast::channel(4);
    let (calls, waker) = Calls::new();
    let mut waiting = rx.recv();
    assert_eq!(poll(&mut waiting, &waker), Poll::Pending);
    assert_eq!(tx.send_many(vec![1, 2, 3]), Ok(1));
    assert_eq!(calls.count(), 1);
    assert_eq!(poll(&mut waiting, &waker), Poll::Ready(Ok(1)));
    drop(waiting);
    assert_eq!((rx.try_recv(), rx.try_recv()), (Ok(2), Ok(3)));
    assert_eq!(tx.send_many(vec![]), Ok(0));
    assert_eq!(rx.try_recv(), Err(TryRecvError::Empty));
    drop(rx);
    assert_eq!(tx.send_many(vec![4, 5]).unwrap_err().0, [4, 5]);
    assert_eq!(tx.send_many(vec![]), Ok(0));
}

#[test]
fn values_that_make_room_for_a_group_are_dropped() {
    let value = Rc::new(());
    let (tx, mut rx) = broadcast::channel(2);
    assert_eq!(tx.send_many(vec![Rc::clone(&value); 5]), Ok(1));
    assert_eq!(Rc::strong_count(&value), 3);
    assert_eq!(rx.try_recv(), Err(TryRecvError::Lagged(3)));
    let mut buffer = vec![];
    assert_eq!(rx.try_recv_many(&mut buffer, usize::MAX), Ok(2));
    drop(buffer);
    assert_eq!(Rc::strong_count(&value), 1);
}

#[test]
fn a_group_is_received_up_to_its_limit() {
    let (tx, mut rx) = broadcast::channel(4);
    let mut other = tx.subscribe();
    let mut buffer = vec![0];
    assert_eq!(rx.try_recv_many(&mut buffer, 4), Err(TryRecvError::Empty));
    assert_eq!(rx.try_recv_many(&mut buffer, 0), Ok(0));
    assert_eq!(rx.blocking_recv_many(&mut buffer, 0), Ok(0));
    assert_eq!(block_on(rx.recv_many(&mut buffer, 0)), Ok(0));
    tx.send_many(vec![1, 2, 3, 4, 5]).unwrap();
    assert_eq!(
        rx.try_recv_many(&mut buffer, 9),
        Err(TryRecvError::Lagged(1))
    );
    assert_eq!(rx.try_recv_many(&mut buffer, 1), Ok(1));
    assert_eq!(block_on(rx.recv_many(&mut buffer, 2)), Ok(2));
    assert_eq!(rx.blocking_recv_many(&mut buffer, 2), Ok(1));
    assert_eq!(buffer, [0, 2, 3, 4, 5]);
    assert_eq!(
        other.blocking_recv_many(&mut buffer, 9),
        Err(RecvError::Lagged(1))
    );
    assert_eq!(other.blocking_recv_many(&mut buffer, 9), Ok(4));
    drop(tx);
    assert_eq!(
        block_on(rx.recv_many(&mut buffer, 1)),
        Err(RecvError::Closed)
    );
    assert_eq!(rx.try_recv_many(&mut buffer, 1), Err(TryRecvError::Closed));
    assert_eq!(buffer.len(), 9);
}

#[test]
fn a_wait_for_a_group_that_is_dropped_loses_nothing() {
    let (tx, mut rx) = broadcast::channel(4);
    let (calls, waker) = Calls::new();
    let mut buffer = vec![];
    for _ in 0..10 {
        let mut waiting = rx.recv_many(&mut buffer, 4);
        assert_eq!(poll(&mut waiting, &waker), Poll::Pending);
    }
    tx.send_many(vec![1, 2]).unwrap();
    assert_eq!((calls.count(), buffer.len()), (0, 0));
    let mut waiting = rx.recv_many(&mut buffer, 4);
    assert_eq!(poll(&mut waiting, &waker), Poll::Ready(Ok(2)));
    drop(waiting);
    assert_eq!(buffer, [1, 2]);
}

#[test]
fn groups_of_threads_stay_together_and_their_run_is_legal() {
    const GROUPS: u64 = 100;
    const EACH: usize = 8;
    let (tx, mut rx, recording) = Builder::new(4_096).recorded(100_000).build().unwrap();
    let told = thread::scope(|scope| {
        for sender in 0..2 {
            let tx = tx.clone();
            scope.spawn(move || {
                for group in 0..GROUPS {
                    assert_eq!(tx.send_many(vec![(sender, group); EACH]), Ok(1));
                }
            });
        }
        drop(tx);
        let mut told = vec![];
        for turn in 0.. {
            let answer = match turn % 2 {
                0 => rx.blocking_recv_many(&mut told, 3),
                _ => block_on(rx.recv_many(&mut told, 5)),
            };
            match answer {
                Ok(count) => assert!((1..6).contains(&count)),
                Err(error) => {
                    assert_eq!(error, RecvError::Closed);
                    break;
                }
            }
        }
        told
    });
    assert_eq!(told.len(), 2 * GROUPS as usize * EACH);
    assert!(told
        .chunks(EACH)
        .all(|group| group.iter().all(|value| *value == group[0])));
    drop(rx);
    assert!(matches!(
        check(recording.trace().as_bytes()),
        Verdict::Legal(_)
    ));
}
