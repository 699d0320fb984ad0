//! Real Tokio, and what each call of a channel was told: tasks on a runtime of four threads use one channel.
//!
//!     tokio_recorded broadcast|watch locked|timed SEED VALUES
//!
//! `locked`: each call, and each poll of one that waits, is made under one lock and noted under it. So the order of the notes is that
//! in which the calls took effect. No lock is held while a task is suspended. Printed is the trace, for `topichub check`.
//!
//! `timed`: no lock. Of each call it is noted when it began and when it ended, by one clock. Printed is a line for each call,
//! `HANDLE BEGAN ENDED CALL.. => REPLY..`, for `checks/orders.py`. All handles are made before the first call.
//!
//! The sender that a channel is made with has the number 1, its receiver 2, and each further handle the next number.
use std::fmt::Display;
use std::future::{poll_fn, Future};
use std::sync::atomic::{AtomicU64, Ordering::SeqCst};
use std::sync::{Arc, Mutex, MutexGuard};
use std::task::Poll;
use tokio::sync::broadcast::error::{RecvError, TryRecvError};
use tokio::sync::{broadcast, watch};
use tokio::task::yield_now;

const CAPACITY: usize = 8;
const RECEIVERS: u64 = 4;
const SENDERS: u64 = 2;
const FIRST_SENDER: u64 = 1;
const FIRST_RECEIVER: u64 = 2;

/// What was noted of a channel.
struct Book {
    is_locked: bool,
    clock: AtomicU64,
    notes: Mutex<Notes>,
}

struct Notes {
    text: String,
    entries: u64,
    next_handle: u64,
}

impl Book {
    fn lock(&self) -> MutexGuard<'_, Notes> {
        self.notes.lock().unwrap()
    }

    fn now(&self) -> u64 {
        self.clock.fetch_add(1, SeqCst)
    }
}

impl Notes {
    fn entry(&mut self, call: &str, handle: u64, value: &str, reply: &str) {
        self.text += &format!("C {call} {handle}{value}\nR {reply}\n");
        self.entries += 1;
    }
}

/// Notes the calls of one handle.
struct Witness {
    book: Arc<Book>,
    handle: u64,
    lines: String,
}

impl Drop for Witness {
    fn drop(&mut self) {
        self.book.lock().text += &self.lines;
    }
}

impl Witness {
    fn new(book: &Arc<Book>, handle: u64) -> Self {
        Self { book: Arc::clone(book), handle, lines: String::new() }
    }

    fn line(&mut self, began: u64, call: &str, value: &str, reply: &str) {
        let ended = self.book.now();
        self.lines += &format!("{} {began} {ended} {call}{value} => {reply}\n", self.handle);
    }

    /// Makes a call, whose value is empty or a space and the value.
    fn call<A>(&mut self, call: &str, value: &str, make: impl FnOnce() -> A, told: impl Fn(&A) -> String) -> A {
        if self.book.is_locked {
            let mut notes = self.book.lock();
            let answer = make();
            notes.entry(call, self.handle, value, &told(&answer));
            return answer;
        }
        let began = self.book.now();
        let answer = make();
        self.line(began, call, value, &told(&answer));
        answer
    }

    /// Makes a call that waits.
    async fn wait<F: Future>(&mut self, call: &str, future: F, told: impl Fn(&F::Output) -> String) -> F::Output {
        if !self.book.is_locked {
            let began = self.book.now();
            let answer = future.await;
            self.line(began, call, "", &told(&answer));
            return answer;
        }
        let mut future = Box::pin(future);
        poll_fn(|context| {
            let mut notes = self.book.lock();
            let polled = future.as_mut().poll(context);
            if let Poll::Ready(answer) = &polled {
                notes.entry(call, self.handle, "", &told(answer));
            }
            polled
        })
        .await
    }

    /// Makes a handle, under the lock, and its witness.
    fn made<A>(&mut self, call: &str, kind: &str, make: impl FnOnce() -> A) -> (A, Self) {
        let book = Arc::clone(&self.book);
        let mut notes = book.lock();
        let answer = make();
        let number = notes.next_handle;
        notes.next_handle += 1;
        if book.is_locked {
            notes.entry(call, self.handle, "", &format!("{kind} {number}"));
        }
        drop(notes);
        (answer, Self::new(&book, number))
    }
}

fn done<A>(_: &A) -> String {
    "done".to_string()
}

fn count(count: &usize) -> String {
    format!("count {count}")
}

fn yes(is_so: bool) -> &'static str {
    if is_so { "yes" } else { "no" }
}

/// A handle of Tokio's and its witness; its drop is a call too.
struct Noted<H> {
    real: Option<H>,
    witness: Witness,
    drop_is: &'static str,
}

impl<H> Noted<H> {
    fn new(real: H, witness: Witness, drop_is: &'static str) -> Self {
        Self { real: Some(real), witness, drop_is }
    }

    fn both(&mut self) -> (&mut H, &mut Witness) {
        (self.real.as_mut().expect("it is there until it is dropped"), &mut self.witness)
    }

    fn make<A>(&mut self, call: &str, is_sender: bool, make: impl FnOnce(&mut H) -> A) -> Noted<A> {
        let (real, witness) = self.both();
        let (made, its) = witness.made(call, if is_sender { "new-tx" } else { "new-rx" }, || make(real));
        Noted::new(made, its, if is_sender { "drop-tx" } else { "drop-rx" })
    }
}

impl<H> Drop for Noted<H> {
    fn drop(&mut self) {
        let real = self.real.take();
        self.witness.call(self.drop_is, "", || drop(real), done);
    }
}

fn told_try(answer: &Result<String, TryRecvError>) -> String {
    match answer {
        Ok(value) => format!("value {value}"),
        Err(TryRecvError::Lagged(missed)) => format!("lagged {missed}"),
        Err(TryRecvError::Empty) => "empty".to_string(),
        Err(TryRecvError::Closed) => "closed".to_string(),
    }
}

fn told(answer: &Result<String, RecvError>) -> String {
    match answer {
        Ok(value) => format!("value {value}"),
        Err(RecvError::Lagged(missed)) => format!("lagged {missed}"),
        Err(RecvError::Closed) => "closed".to_string(),
    }
}

type Sender = Noted<broadcast::Sender<String>>;
type Receiver = Noted<broadcast::Receiver<String>>;

async fn receive_all(mut rx: Receiver, mut dice: Dice) {
    loop {
        let is_locked = rx.witness.book.is_locked;
        let is_closed = match dice.below(8) {
            0 if is_locked => {
                rx = rx.make("resubscribe", false, |rx| rx.resubscribe());
                false
            }
            1 => {
                let (real, witness) = rx.both();
                witness.call("left", "", || real.len(), count);
                false
            }
            2 | 3 => {
                let (real, witness) = rx.both();
                witness.call("try-recv", "", || real.try_recv(), told_try) == Err(TryRecvError::Closed)
            }
            4 => {
                yield_now().await;
                false
            }
            _ => {
                let (real, witness) = rx.both();
                witness.wait("recv", real.recv(), told).await == Err(RecvError::Closed)
            }
        };
        if is_closed {
            return;
        }
    }
}

async fn send_all(mut tx: Sender, mut dice: Dice, values: u64) {
    for value in 0..values {
        let (real, witness) = tx.both();
        let value = format!("{}-{value}", witness.handle);
        witness.call("send", &format!(" {value}"), || real.send(value.clone()), |answer| match answer {
            Ok(receivers) => format!("sent {receivers}"),
            Err(_) => "no-receivers".to_string(),
        })
        .ok();
        match dice.below(6) {
            0 => yield_now().await,
            1 => {
                witness.call("readers", "", || real.receiver_count(), count);
            }
            2 if witness.book.is_locked => drop(tx.make("clone-tx", true, |tx| tx.clone())),
            _ => {}
        }
    }
}

fn run_broadcast(book: &Arc<Book>, seed: u64, values: u64) -> Vec<Task> {
    let (tx, rx) = broadcast::channel(CAPACITY);
    let mut tx = Noted::new(tx, Witness::new(book, FIRST_SENDER), "drop-tx");
    let rx = Noted::new(rx, Witness::new(book, FIRST_RECEIVER), "drop-rx");
    let mut receivers: Vec<Receiver> = (1..RECEIVERS).map(|_| tx.make("subscribe", false, |tx| tx.subscribe())).collect();
    receivers.push(rx);
    let senders: Vec<Sender> = (0..SENDERS).map(|_| tx.make("clone-tx", true, |tx| tx.clone())).collect();
    drop(tx);
    let mut tasks = vec![];
    for (turn, rx) in (0..).zip(receivers) {
        tasks.push(tokio::spawn(receive_all(rx, Dice::new(seed, turn))));
    }
    for (turn, tx) in (100..).zip(senders) {
        tasks.push(tokio::spawn(send_all(tx, Dice::new(seed, turn), values)));
    }
    tasks
}

type Task = tokio::task::JoinHandle<()>;
type Publisher = Noted<watch::Sender<String>>;
type Reader = Noted<watch::Receiver<String>>;

fn shown(answer: &(bool, String)) -> String {
    format!("shown {} {}", if answer.0 { "new" } else { "same" }, answer.1)
}

/// What is lent is copied, so that nobody waits for a task that looks at it.
fn copied(lent: watch::Ref<'_, String>) -> (bool, String) {
    (lent.has_changed(), lent.clone())
}

async fn read_all(mut rx: Reader, mut dice: Dice) {
    loop {
        let turn = dice.below(8);
        if turn == 0 && rx.witness.book.is_locked {
            rx = rx.make("clone-rx", false, |rx| rx.clone());
            continue;
        }
        let (real, witness) = rx.both();
        let is_closed = match turn {
            1 => {
                witness.call("borrow", "", || copied(real.borrow()), shown);
                false
            }
            2 => {
                witness.call("take", "", || copied(real.borrow_and_update()), shown);
                false
            }
            3 => {
                let answer = witness.call("has-changed", "", || real.has_changed(), |answer| match answer {
                    Ok(is_unseen) => format!("changed {}", yes(*is_unseen)),
                    Err(_) => "closed".to_string(),
                });
                answer.is_err()
            }
            4 => {
                yield_now().await;
                false
            }
            _ => {
                let marked = |answer: &Result<(), _>| (if answer.is_ok() { "marked" } else { "closed" }).to_string();
                witness.wait("changed", real.changed(), marked).await.is_err()
            }
        };
        if is_closed {
            return;
        }
    }
}

async fn publish_all(mut tx: Publisher, mut dice: Dice, values: u64) {
    for value in 0..values {
        let (real, witness) = tx.both();
        publish(real, witness, dice.below(4), format!("v{value}"));
        match dice.below(8) {
            0 => yield_now().await,
            1 => {
                witness.call("readers", "", || real.receiver_count(), count);
            }
            2 => {
                witness.call("is-closed", "", || real.is_closed(), |is_so| format!("gone {}", yes(*is_so)));
            }
            _ => {}
        }
    }
}

fn publish(real: &watch::Sender<String>, witness: &mut Witness, way: u64, value: String) {
    let field = format!(" {value}");
    match way {
        0 => {
            witness.call("replace", &field, || real.send_replace(value), |old| format!("was {old}"));
        }
        1 => {
            witness.call("set", &field, || real.send_modify(|newest| *newest = value), |_| "modified yes".to_string());
        }
        2 => {
            let quietly = |newest: &mut String| {
                *newest = value;
                false
            };
            witness.call("quiet", &field, || real.send_if_modified(quietly), |is_so| format!("modified {}", yes(*is_so)));
        }
        _ => {
            let sent = |answer: &Result<(), _>| (if answer.is_ok() { "done" } else { "no-receivers" }).to_string();
            witness.call("send", &field, || real.send(value), sent).ok();
        }
    }
}

fn run_watch(book: &Arc<Book>, seed: u64, values: u64) -> Vec<Task> {
    let (tx, rx) = watch::channel("first".to_string());
    let mut tx = Noted::new(tx, Witness::new(book, FIRST_SENDER), "drop-tx");
    let rx = Noted::new(rx, Witness::new(book, FIRST_RECEIVER), "drop-rx");
    let mut receivers: Vec<Reader> = (1..RECEIVERS).map(|_| tx.make("subscribe", false, |tx| tx.subscribe())).collect();
    receivers.push(rx);
    let mut tasks = vec![tokio::spawn(publish_all(tx, Dice::new(seed, 100), values))];
    for (turn, rx) in (0..).zip(receivers) {
        tasks.push(tokio::spawn(read_all(rx, Dice::new(seed, turn))));
    }
    tasks
}

/// Numbers that look random, the same for each seed.
struct Dice(u64);

impl Dice {
    fn new(seed: u64, turn: u64) -> Self {
        Self((seed * 1_000 + turn).wrapping_mul(0x9e37_79b9_7f4a_7c15) | 1)
    }

    fn below(&mut self, bound: u64) -> u64 {
        self.0 ^= self.0 << 13;
        self.0 ^= self.0 >> 7;
        self.0 ^= self.0 << 17;
        self.0 % bound
    }
}

/// The lines of the picture of a new channel with a sender and a receiver.
fn picture(kind: impl Display, keep: &str, receiver: &str) -> String {
    format!("TRACE 1 {kind}\nAT {keep}TX 1\nRX 2 {receiver}\nBEGIN\n")
}

fn main() {
    let words: Vec<String> = std::env::args().skip(1).collect();
    let (is_broadcast, is_locked) = (words[0] == "broadcast", words[1] == "locked");
    let (seed, values) = (words[2].parse().unwrap(), words[3].parse().unwrap());
    let notes = Notes { text: String::new(), entries: 0, next_handle: FIRST_RECEIVER + 1 };
    let book = Arc::new(Book { is_locked, clock: AtomicU64::new(0), notes: Mutex::new(notes) });
    let runtime = tokio::runtime::Builder::new_multi_thread().worker_threads(4).build().unwrap();
    runtime.block_on(async {
        let run = if is_broadcast { run_broadcast } else { run_watch };
        for task in run(&book, seed, values) {
            task.await.unwrap();
        }
    });
    let notes = book.lock();
    if !is_locked {
        return print!("{}", notes.text);
    }
    let picture = if is_broadcast {
        picture(format!("B {CAPACITY}"), "0 0 NEXT 3\n", "0")
    } else {
        picture("W", "1 NEXT 3\nKEEP first\n", "seen")
    };
    println!("{picture}{}END {}", notes.text, notes.entries);
}
