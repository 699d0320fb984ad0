//! How long tasks and threads wait on Tokio's broadcast channel, for `bench/waits`.
//!
//!     tokio_waits idle|chat|wake|std|plain|gap NUMBER
//!
//! - `idle`: a task that polls an idle receiver in each of NUMBER turns, by `select!`. Nanoseconds a turn, one line for each 1,000 turns.
//! - `chat`: 50 tasks on two threads, each in `select!` on the channel and on a queue of its own. NUMBER messages are sent, one when all
//!   tasks have the one before. Nanoseconds from the send of a message to its receipt, one line for each.
//! - `wake`: a thread that sleeps until a value comes, NUMBER times. Nanoseconds from the send to the receipt, one line for each.
//! - `std` and `plain`: the same on a channel of the standard library, and on a queue with a `Mutex` and a `Condvar`.
//! - `gap`: two threads that send without a pause for NUMBER milliseconds, and a receiver. The nanoseconds of its longest wait for an
//!   answer.
use std::collections::VecDeque;
use std::sync::atomic::{AtomicBool, AtomicU64, Ordering};
use std::sync::{Arc, Condvar, Mutex};
use std::thread;
use std::time::{Duration, Instant};
use tokio::runtime::{Builder, Runtime};
use tokio::sync::broadcast::error::RecvError;
use tokio::sync::broadcast::{channel, Receiver};
use tokio::sync::mpsc;

const CLIENTS: usize = 50;
const WORKERS: usize = 2;
const TURNS: u64 = 1_000;
/// Long enough that whoever waits sleeps.
const PAUSE: Duration = Duration::from_micros(300);

fn runtime() -> Runtime {
    Builder::new_current_thread().build().unwrap()
}

fn tell(times: impl IntoIterator<Item = u64>) {
    let lines: Vec<String> = times.into_iter().map(|it| it.to_string()).collect();
    println!("{}", lines.join("\n"));
}

fn idle(turns: u64) {
    let (_sender, mut receiver) = channel::<u64>(16);
    let times = runtime().block_on(async {
        let mut times = Vec::new();
        for _ in 0..turns / TURNS {
            let begin = Instant::now();
            for _ in 0..TURNS {
                tokio::select! {
                    biased;
                    _ = receiver.recv() => unreachable!(),
                    _ = std::future::ready(()) => {}
                }
            }
            times.push(begin.elapsed().as_nanos() as u64 / TURNS);
        }
        times
    });
    tell(times);
}

async fn client(mut receiver: Receiver<Instant>, mut own: mpsc::Receiver<u64>, read: Arc<AtomicU64>) -> Vec<u64> {
    let mut times = Vec::new();
    loop {
        tokio::select! {
            told = receiver.recv() => match told {
                Ok(sent) => {
                    times.push(sent.elapsed().as_nanos() as u64);
                    read.fetch_add(1, Ordering::Release);
                }
                Err(RecvError::Lagged(_)) => unreachable!(),
                Err(RecvError::Closed) => return times,
            },
            Some(_) = own.recv() => {}
        }
    }
}

fn chat(messages: u64) {
    let runtime = Builder::new_multi_thread().worker_threads(WORKERS).build().unwrap();
    let (sender, first) = channel(64);
    let read = Arc::new(AtomicU64::new(0));
    let mut queues = Vec::new();
    let clients: Vec<_> = (0..CLIENTS)
        .map(|_| {
            let (queue, own) = mpsc::channel(4);
            queues.push(queue);
            runtime.spawn(client(sender.subscribe(), own, Arc::clone(&read)))
        })
        .collect();
    drop(first);
    for message in 0..messages {
        thread::sleep(PAUSE);
        sender.send(Instant::now()).unwrap();
        while read.load(Ordering::Acquire) < (message + 1) * CLIENTS as u64 {
            thread::sleep(PAUSE);
        }
    }
    drop(sender);
    for client in clients {
        tell(runtime.block_on(client).unwrap());
    }
}

/// Sends so many values, each to a thread that sleeps by then, and tells how long each took to arrive.
fn wake(times: u64, send: impl Fn(Option<Instant>), mut receive: impl FnMut() -> Option<Instant> + Send + 'static) {
    let received = Arc::new(AtomicU64::new(0));
    let count = Arc::clone(&received);
    let sleeper = thread::spawn(move || {
        let mut told = Vec::new();
        while let Some(sent) = receive() {
            told.push(sent.elapsed().as_nanos() as u64);
            count.fetch_add(1, Ordering::Release);
        }
        told
    });
    for value in 0..times {
        thread::sleep(PAUSE);
        send(Some(Instant::now()));
        while received.load(Ordering::Acquire) <= value {
            thread::sleep(PAUSE);
        }
    }
    send(None);
    tell(sleeper.join().unwrap());
}

fn wake_by_broadcast(times: u64) {
    let (sender, mut receiver) = channel(16);
    let runtime = runtime();
    let send = |value| {
        sender.send(value).unwrap();
    };
    wake(times, send, move || receive(&runtime, &mut receiver).unwrap());
}

fn wake_by_std(times: u64) {
    let (sender, receiver) = std::sync::mpsc::channel();
    wake(times, |value| sender.send(value).unwrap(), move || receiver.recv().unwrap());
}

fn wake_by_condvar(times: u64) {
    let shared = Arc::new((Mutex::new(VecDeque::new()), Condvar::new()));
    let there = Arc::clone(&shared);
    let send = |value| {
        shared.0.lock().unwrap().push_back(value);
        shared.1.notify_one();
    };
    let receive = move || {
        let queue = there.0.lock().unwrap();
        there.1.wait_while(queue, |queue| queue.is_empty()).unwrap().pop_front().unwrap()
    };
    wake(times, send, receive);
}

fn receive<T: Clone>(runtime: &Runtime, receiver: &mut Receiver<T>) -> Result<T, RecvError> {
    runtime.block_on(receiver.recv())
}

fn gap(milliseconds: u64) {
    let (sender, mut receiver) = channel::<u64>(1_024);
    let is_over = Arc::new(AtomicBool::new(false));
    let sending: Vec<_> = (0..2)
        .map(|_| {
            let (sender, is_over) = (sender.clone(), Arc::clone(&is_over));
            thread::spawn(move || {
                while !is_over.load(Ordering::Relaxed) {
                    let _ = sender.send(1);
                }
            })
        })
        .collect();
    let (runtime, begin) = (runtime(), Instant::now());
    let (mut longest, mut before) = (0, begin);
    while begin.elapsed() < Duration::from_millis(milliseconds) {
        let _ = receive(&runtime, &mut receiver);
        let now = Instant::now();
        longest = longest.max((now - before).as_nanos() as u64);
        before = now;
    }
    is_over.store(true, Ordering::Relaxed);
    sending.into_iter().for_each(|it| it.join().unwrap());
    tell([longest]);
}

fn main() {
    let words: Vec<String> = std::env::args().skip(1).collect();
    let number = words[1].parse().unwrap();
    match words[0].as_str() {
        "idle" => idle(number),
        "chat" => chat(number),
        "wake" => wake_by_broadcast(number),
        "std" => wake_by_std(number),
        "plain" => wake_by_condvar(number),
        "gap" => gap(number),
        other => panic!("there is no {other}"),
    }
}
