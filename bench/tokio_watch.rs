//! Calls of Tokio's watch channel in one thread, for `bench/watch`.
//!
//!     tokio_watch ROUNDS
//!
//! Printed is a line for each row: its name and the nanoseconds of a call, the least of ROUNDS rounds of 1,000 calls.
use std::hint::black_box;
use std::time::Instant;
use tokio::sync::watch;

const CALLS: u32 = 1_000;

fn time(rounds: u32, name: &str, mut call: impl FnMut()) {
    let round = |_| {
        let begin = Instant::now();
        (0..CALLS).for_each(|_| call());
        begin.elapsed()
    };
    let least = (0..rounds).map(round).min().unwrap();
    println!("{name} {:.1}", least.as_nanos() as f64 / f64::from(CALLS));
}

fn main() {
    let rounds = std::env::args().nth(1).unwrap().parse().unwrap();
    let (sender, mut receiver) = watch::channel(0u64);
    time(rounds, "has_changed", || {
        black_box(receiver.has_changed().is_ok());
    });
    time(rounds, "is_closed", || {
        black_box(sender.is_closed());
    });
    time(rounds, "borrow", || {
        black_box(*receiver.borrow());
    });
    time(rounds, "send_and_take", || {
        sender.send(1).unwrap();
        black_box(*receiver.borrow_and_update());
    });
    time(rounds, "subscribe", || drop(black_box(sender.subscribe())));
    time(rounds, "clone", || drop(black_box(receiver.clone())));
    time(rounds, "channel", || drop(black_box(watch::channel(0u64))));
}
