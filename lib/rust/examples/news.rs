//! A sender, and a receiver in another thread that counts the values, including those it missed.
use std::thread;
use topichub::broadcast::{self, error::RecvError, Receiver};

/// Counts the values until no sender is left. In a task, use `rx.recv().await`.
fn count(mut rx: Receiver<u64>) -> u64 {
    let (mut came, mut missed) = (0, 0);
    loop {
        match rx.blocking_recv() {
            Ok(_) => came += 1,
            Err(RecvError::Lagged(count)) => missed += count,
            Err(RecvError::Closed) => return came + missed,
        }
    }
}

fn main() {
    let (tx, rx) = broadcast::channel(4);
    let counting = thread::spawn(|| count(rx));
    for value in 0..100 {
        tx.send(value).unwrap();
    }
    drop(tx);
    println!("{} values in all", counting.join().unwrap());
}
