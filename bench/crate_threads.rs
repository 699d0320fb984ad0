//! The same run on the crate topichub, with receivers that block their threads, for `bench/threads`.
//!
//!     crate_threads RECEIVERS BATCHES timed|recorded
//!
//! `recorded`: the channel keeps a log, which is let go each 64 batches.
use std::sync::mpsc;
use std::thread;
use std::time::Instant;
use topichub::broadcast::error::RecvError;
use topichub::broadcast::{channel, Builder, Receiver, Recording, Sender};

const BATCH: u64 = 1_024;
const CAPACITY: usize = 4 * BATCH as usize;
const CUT_EACH: u64 = 64;
const LIMIT: u64 = 1_000_000;

fn send_all(sender: Sender<u64>, taken: Vec<mpsc::Receiver<u64>>, batches: u64, recording: Option<Recording<u64>>) {
    for batch in 0..batches {
        for value in 0..BATCH {
            sender.send(value).unwrap();
        }
        if batch >= 2 {
            for told in &taken {
                told.recv().unwrap();
            }
        }
        discard(batch, &recording);
    }
}

fn discard(batch: u64, recording: &Option<Recording<u64>>) {
    if let Some(recording) = recording.as_ref().filter(|_| batch % CUT_EACH == 0) {
        recording.discard();
    }
}

fn receive_all(mut receiver: Receiver<u64>, taken: mpsc::Sender<u64>) -> (u64, u64) {
    let (mut received, mut missed) = (0, 0);
    loop {
        match receiver.blocking_recv() {
            Ok(_) => {
                received += 1;
                if received % BATCH == 0 {
                    // The sender of the values may have ended by then.
                    let _ = taken.send(received);
                }
            }
            Err(RecvError::Lagged(count)) => missed += count,
            Err(RecvError::Closed) => return (received, missed),
        }
    }
}

fn made(is_recorded: bool) -> (Sender<u64>, Receiver<u64>, Option<Recording<u64>>) {
    if is_recorded {
        let (sender, receiver, recording) = Builder::new(CAPACITY).recorded(LIMIT).build().unwrap();
        return (sender, receiver, Some(recording));
    }
    let (sender, receiver) = channel(CAPACITY);
    (sender, receiver, None)
}

fn main() {
    let words: Vec<String> = std::env::args().skip(1).collect();
    let (receivers, batches): (u64, u64) = (words[0].parse().unwrap(), words[1].parse().unwrap());
    let (sender, mut receiver, recording) = made(words[2] == "recorded");
    let (mut received, mut missed) = (0, 0);
    let start;
    if receivers == 0 {
        start = Instant::now();
        for batch in 0..batches {
            for value in 0..BATCH {
                sender.send(value).unwrap();
                receiver.try_recv().unwrap();
                received += 1;
            }
            discard(batch, &recording);
        }
    } else {
        drop(receiver);
        let mut taken = Vec::new();
        start = Instant::now();
        let running: Vec<_> = (0..receivers)
            .map(|_| {
                let (telling, told) = mpsc::channel();
                taken.push(told);
                let receiver = sender.subscribe();
                thread::spawn(move || receive_all(receiver, telling))
            })
            .collect();
        send_all(sender, taken, batches, recording);
        for thread in running {
            let told = thread.join().unwrap();
            received += told.0;
            missed += told.1;
        }
    }
    let spent = start.elapsed().as_nanos();
    println!("received {received} missed {missed}\nnanoseconds {spent}");
}
