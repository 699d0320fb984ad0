//! Threads on one channel: what they receive is consistent, and the whole run is legal.
mod common;

use common::{block_on, Dice};
use std::thread;
use topichub::broadcast::error::{RecvError, TryRecvError};
use topichub::{broadcast, check, watch, Verdict};

const RUNS: u64 = 30;
const SENDERS: u64 = 2;
const EACH: u64 = 200;

/// Receives until the end, each time by one of three calls at random. Returns what came after its
/// last resubscription, and how many values it missed since then: nothing but what lags count.
fn receive_all(mut rx: broadcast::Receiver<(u64, u64)>, seed: u64) -> (Vec<(u64, u64)>, u64) {
    let mut dice = Dice::new(seed);
    let (mut told, mut missed) = (Vec::new(), 0);
    loop {
        let answer = match dice.below(10) {
            0 => {
                rx = rx.resubscribe();
                told.clear();
                missed = 0;
                continue;
            }
            1..=3 => match rx.try_recv() {
                Err(TryRecvError::Empty) => {
                    thread::yield_now();
                    continue;
                }
                Ok(value) => Ok(value),
                Err(TryRecvError::Lagged(count)) => Err(RecvError::Lagged(count)),
                Err(TryRecvError::Closed) => Err(RecvError::Closed),
            },
            4..=6 => rx.blocking_recv(),
            _ => block_on(rx.recv()),
        };
        match answer {
            Ok(value) => told.push(value),
            Err(RecvError::Lagged(count)) => missed += count,
            Err(RecvError::Closed) => return (told, missed),
        }
    }
}

fn rises(numbers: impl Iterator<Item = u64>) -> bool {
    let numbers: Vec<_> = numbers.collect();
    numbers.windows(2).all(|pair| pair[0] < pair[1])
}

#[test]
fn runs_of_a_broadcast_channel_are_legal() {
    for seed in 0..RUNS {
        let (tx, rx, recording) = broadcast::Builder::new(8)
            .recorded(100_000)
            .build()
            .unwrap();
        let mut receivers: Vec<_> = (0..2).map(|_| tx.subscribe()).collect();
        receivers.push(rx);
        thread::scope(|scope| {
            for (turn, rx) in (0u64..).zip(receivers) {
                scope.spawn(move || {
                    let (told, missed) = receive_all(rx, seed * 10 + turn);
                    assert!(told.len() as u64 + missed <= SENDERS * EACH);
                    for sender in 0..SENDERS {
                        assert!(rises(
                            told.iter()
                                .filter(|value| value.0 == sender)
                                .map(|value| value.1)
                        ));
                    }
                });
            }
            for sender in 0..SENDERS {
                let tx = tx.clone();
                scope.spawn(move || {
                    let mut dice = Dice::new(seed * 10 + 5 + sender);
                    for number in 0..EACH {
                        // All receivers may be resubscribing, so a send may find none.
                        let _ = tx.send((sender, number));
                        match dice.below(8) {
                            0 => thread::yield_now(),
                            1 => drop(tx.clone()),
                            2 => drop(tx.subscribe_oldest()),
                            3 => assert!(tx.receiver_count() <= 3 + SENDERS as usize + 3),
                            4 => assert!(tx.len() <= 8),
                            5 => drop(tx.downgrade().upgrade()),
                            _ => {}
                        }
                    }
                });
            }
            drop(tx);
        });
        assert!(
            matches!(check(recording.trace().as_bytes()), Verdict::Legal(_)),
            "seed {seed}"
        );
    }
}

#[test]
fn receivers_that_keep_up_get_every_value() {
    const VALUES: u64 = 2_000;
    let (tx, rx) = broadcast::channel(VALUES as usize);
    let receivers: Vec<_> = (1..4).map(|_| tx.subscribe()).chain([rx]).collect();
    thread::scope(|scope| {
        for (turn, mut rx) in receivers.into_iter().enumerate() {
            scope.spawn(move || {
                for value in 0..VALUES {
                    let told = if turn % 2 == 0 {
                        rx.blocking_recv()
                    } else {
                        block_on(rx.recv())
                    };
                    assert_eq!(told, Ok(value.to_string()));
                }
                assert_eq!(rx.blocking_recv(), Err(RecvError::Closed));
            });
        }
        for value in 0..VALUES {
            tx.send(value.to_string()).unwrap();
        }
        drop(tx);
    });
}

/// Has three threads follow a watch channel while another publishes.
fn publish_and_follow(tx: watch::Sender<u64>, rx: watch::Receiver<u64>, seed: u64) {
    let receivers: Vec<_> = (1..3).map(|_| tx.subscribe()).chain([rx]).collect();
    thread::scope(|scope| {
        for (turn, rx) in (0u64..).zip(receivers) {
            scope.spawn(move || assert!(rises(follow(rx, seed * 10 + turn).into_iter())));
        }
        // A reader stays until the last publication, so that each send finds one.
        let keeper = tx.subscribe();
        scope.spawn(move || publish_all(tx, keeper, seed));
    });
}

#[test]
fn runs_of_a_watch_channel_are_legal() {
    for seed in 0..RUNS {
        let (tx, rx, recording) = watch::Builder::new(0u64).recorded(100_000).build().unwrap();
        publish_and_follow(tx, rx, seed);
        assert!(
            matches!(check(recording.trace().as_bytes()), Verdict::Legal(_)),
            "seed {seed}"
        );
    }
}

#[test]
fn a_watch_channel_without_a_history_reports_each_value_once() {
    for seed in 0..RUNS {
        let (tx, rx) = watch::channel(0u64);
        publish_and_follow(tx, rx, seed);
    }
}

/// The values that were reported to a reader as unseen, until the channel is closed.
fn follow(mut rx: watch::Receiver<u64>, seed: u64) -> Vec<u64> {
    let mut dice = Dice::new(seed);
    let mut told = vec![];
    loop {
        match dice.below(8) {
            0 => rx = rx.clone(),
            1 => rx.mark_unchanged(),
            2 => drop(rx.borrow()),
            3 => {
                let newest = rx.borrow_and_update();
                if newest.has_changed() {
                    told.push(*newest);
                }
            }
            4 if rx.has_changed().is_err() => return told,
            5 if rx.blocking_changed().is_err() => return told,
            6 if block_on(rx.changed()).is_err() => return told,
            _ => thread::yield_now(),
        }
    }
}

fn publish_all(tx: watch::Sender<u64>, keeper: watch::Receiver<u64>, seed: u64) {
    let mut dice = Dice::new(seed * 10 + 9);
    for value in 1..EACH {
        match dice.below(4) {
            0 => assert!(tx.send_replace(value) < value),
            1 => tx.send_modify(|newest| *newest = value),
            2 => assert!(tx.send_if_modified(|newest| std::mem::replace(newest, value) < value)),
            _ => assert_eq!(tx.send(value), Ok(())),
        }
        if dice.below(4) == 0 {
            thread::yield_now();
        }
    }
    assert_eq!(*keeper.borrow(), EACH - 1);
}

#[test]
fn a_sender_that_waits_until_no_reader_is_left_is_woken() {
    let (tx, rx) = watch::channel(0);
    thread::scope(|scope| {
        scope.spawn(|| block_on(tx.closed()));
        for _ in 0..100 {
            drop(rx.clone());
        }
        drop(rx);
    });
    assert!(tx.is_closed());
}
