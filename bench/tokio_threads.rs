//! The same run on Tokio's broadcast channel, for `bench/threads`.
//!
//!     tokio_threads RECEIVERS BATCHES timed
//!
//! Each receiver is a task on a thread of its own, and the sender another: each thread blocks on its task. Tokio keeps no log
//! and gives no receipts.
use std::thread;
use std::time::Instant;
use tokio::runtime::Builder;
use tokio::sync::broadcast::error::RecvError;
use tokio::sync::broadcast::{Receiver, Sender, channel};

const BATCH: u64 = 1_024;
const CAPACITY: usize = 4 * BATCH as usize;

fn block_on<T>(task: impl std::future::Future<Output = T>) -> T {
    Builder::new_current_thread().build().unwrap().block_on(task)
}

async fn send_all(sender: Sender<u64>, mut taken: Vec<Receiver<u64>>, batches: u64) {
    for batch in 0..batches {
        for value in 0..BATCH {
            sender.send(value).unwrap();
        }
        if batch >= 2 {
            for told in taken.iter_mut() {
                told.recv().await.unwrap();
            }
        }
    }
}

async fn receive_all(mut receiver: Receiver<u64>, taken: Sender<u64>) -> (u64, u64) {
    let (mut received, mut missed) = (0, 0);
    loop {
        match receiver.recv().await {
            Ok(_) => {
                received += 1;
                if received % BATCH == 0 {
                    // The sender of the values may have ended by then.
                    let _ = taken.send(received);
                }
            }
            Err(RecvError::Lagged(count)) => missed += count,
            Err(RecvError::Closed) => return (received, missed),
        }
    }
}

fn main() {
    let words: Vec<u64> = std::env::args().skip(1).take(2).map(|word| word.parse().unwrap()).collect();
    let (receivers, batches) = (words[0], words[1]);
    let (sender, mut receiver) = channel(CAPACITY);
    let (mut received, mut missed) = (0, 0);
    let start;
    if receivers == 0 {
        start = Instant::now();
        for _ in 0..batches {
            for value in 0..BATCH {
                sender.send(value).unwrap();
                receiver.try_recv().unwrap();
                received += 1;
            }
        }
    } else {
        drop(receiver);
        let mut taken = Vec::new();
        start = Instant::now();
        let running: Vec<_> = (0..receivers)
            .map(|_| {
                let (telling, told) = channel(4);
                taken.push(told);
                let receiver = sender.subscribe();
                thread::spawn(move || block_on(receive_all(receiver, telling)))
            })
            .collect();
        block_on(send_all(sender, taken, batches));
        for thread in running {
            let told = thread.join().unwrap();
            received += told.0;
            missed += told.1;
        }
    }
    let spent = start.elapsed().as_nanos();
    println!("received {received} missed {missed}\nnanoseconds {spent}");
}
