//! A sender and three receivers in threads on a recorded channel. Prints the trace of the run, for
//! `topichub check`.
use std::thread;
use topichub::broadcast::{error::RecvError, Builder, Receiver};

const VALUES: u64 = 2_000;

/// Receives to the end, and checks that values and gaps follow one another.
fn receive_all(mut rx: Receiver<u64>) {
    let mut next = 0;
    loop {
        match rx.blocking_recv() {
            Ok(value) => {
                assert_eq!(value, next);
                next += 1;
            }
            Err(RecvError::Lagged(missed)) => next += missed,
            Err(RecvError::Closed) => return assert_eq!(next, VALUES),
        }
    }
}

fn main() {
    let (tx, rx, recording) = Builder::new(16).recorded(100_000).build().unwrap();
    let receivers = [rx, tx.subscribe(), tx.subscribe()];
    thread::scope(|scope| {
        for rx in receivers {
            scope.spawn(|| receive_all(rx));
        }
        for value in 0..VALUES {
            tx.send(value).unwrap();
        }
        drop(tx);
    });
    print!("{}", recording.trace());
}
