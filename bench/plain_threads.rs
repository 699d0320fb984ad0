//! A broadcast channel for threads in plain Rust, beside which `bench/threads` times topichub's.
//!
//!     plain_threads RECEIVERS BATCHES timed
//!
//! It does what the program bench_threads does: one Mutex and one Condvar, which is notified only where somebody waits for
//! a value; a window of counted values; a log of each call and its reply, of which room is kept for the end of each live
//! handle; a receipt for each call; and handles that count their events.
use std::collections::{HashMap, VecDeque};
use std::sync::{Arc, Condvar, Mutex};
use std::thread;
use std::time::Instant;

const BATCH: u64 = 1_024;
const CAPACITY: usize = 4 * BATCH as usize;
const CUT_EACH: u64 = 64;
const LIMIT: usize = 1_000_000;

#[derive(Clone, Copy)]
#[allow(dead_code)] // the log and the receipts are not read
enum Call {
    Send(u64, u64),
    TryReceive(u64),
    Receive(u64),
    Subscribe(u64),
    DropSender(u64),
}

#[derive(Clone, Copy)]
#[allow(dead_code)]
enum Reply {
    Sent(u64),
    NoReceivers(u64),
    Value(u64),
    Lagged(u64),
    Empty,
    Closed,
    NewReceiver(u64),
    Done,
}

#[allow(dead_code)]
struct Receipt {
    key: u64,
    place: u64,
    call: Call,
    reply: Reply,
}

struct LogFull;

struct Counted {
    value: u64,
    to_come: u64,
}

struct State {
    key: u64,
    window: VecDeque<Counted>,
    capacity: usize,
    // The position of the window's first value.
    first: u64,
    places: HashMap<u64, u64>,
    senders: u64,
    next: u64,
    log: Vec<(Call, Reply)>,
    total: u64,
    waiting: u64,
}

impl State {
    fn end(&self) -> u64 {
        self.first + self.window.len() as u64
    }

    fn is_ready(&self, receiver: u64) -> bool {
        self.senders == 0 || self.places.get(&receiver).is_none_or(|&place| place < self.end())
    }

    fn send(&mut self, value: u64) -> Reply {
        let to_come = self.places.len() as u64;
        if to_come == 0 {
            return Reply::NoReceivers(value);
        }
        if self.window.len() == self.capacity {
            self.window.pop_front();
            self.first += 1;
        }
        self.window.push_back(Counted { value, to_come });
        Reply::Sent(to_come)
    }

    fn receive(&mut self, receiver: u64) -> Reply {
        let end = self.end();
        let place = self.places.get_mut(&receiver).expect("a live receiver");
        if *place < self.first {
            let missed = self.first - *place;
            *place = self.first;
            return Reply::Lagged(missed);
        }
        if *place == end {
            return if self.senders == 0 { Reply::Closed } else { Reply::Empty };
        }
        let counted = &mut self.window[(*place - self.first) as usize];
        *place += 1;
        counted.to_come -= 1;
        let value = counted.value;
        while self.window.front().is_some_and(|counted| counted.to_come == 0) {
            self.window.pop_front();
            self.first += 1;
        }
        Reply::Value(value)
    }

    /// One event, with its entry and its receipt.
    fn apply(&mut self, call: Call) -> Result<Receipt, LogFull> {
        let live = self.senders as usize + self.places.len();
        if self.log.len() + 1 + live > LIMIT && !matches!(call, Call::DropSender(_)) {
            return Err(LogFull);
        }
        let reply = match call {
            Call::Send(_, value) => self.send(value),
            Call::TryReceive(receiver) | Call::Receive(receiver) => self.receive(receiver),
            Call::Subscribe(_) => {
                self.next += 1;
                self.places.insert(self.next, self.end());
                Reply::NewReceiver(self.next)
            }
            Call::DropSender(_) => {
                self.senders -= 1;
                Reply::Done
            }
        };
        self.log.push((call, reply));
        self.total += 1;
        Ok(Receipt { key: self.key, place: self.total - 1, call, reply })
    }
}

struct Room {
    state: Mutex<State>,
    news: Condvar,
}

/// A handle: its number, and the count of its events.
struct Handle {
    room: Arc<Room>,
    number: u64,
    events: u64,
}

impl Handle {
    fn open(capacity: usize, key: u64) -> Handle {
        let state = State {
            key,
            window: VecDeque::with_capacity(capacity),
            capacity,
            first: 0,
            places: HashMap::new(),
            senders: 1,
            next: 1,
            log: Vec::new(),
            total: 0,
            waiting: 0,
        };
        let room = Room { state: Mutex::new(state), news: Condvar::new() };
        Handle { room: Arc::new(room), number: 1, events: 0 }
    }

    fn call(&mut self, call: Call) -> Result<Receipt, LogFull> {
        let mut state = self.room.state.lock().unwrap();
        if let Call::Receive(receiver) = call {
            while !state.is_ready(receiver) {
                state.waiting += 1;
                state = self.room.news.wait(state).unwrap();
            }
        }
        let receipt = state.apply(call)?;
        self.events += 1;
        let is_news = matches!(receipt.reply, Reply::Sent(_)) || state.senders == 0;
        let wakes = is_news && state.waiting > 0;
        if wakes {
            state.waiting = 0;
        }
        drop(state);
        if wakes {
            self.room.news.notify_all();
        }
        Ok(receipt)
    }

    fn made(&mut self, call: Call) -> Handle {
        match self.call(call) {
            Ok(Receipt { reply: Reply::NewReceiver(number), .. }) => {
                Handle { room: self.room.clone(), number, events: 0 }
            }
            _ => panic!("no handle"),
        }
    }

    fn send(&mut self, value: u64) -> Result<Receipt, LogFull> {
        self.call(Call::Send(self.number, value))
    }

    fn receive(&mut self) -> Result<Receipt, LogFull> {
        self.call(Call::Receive(self.number))
    }

    fn try_receive(&mut self) -> Result<Receipt, LogFull> {
        self.call(Call::TryReceive(self.number))
    }

    fn cut(&self) -> Vec<(Call, Reply)> {
        let mut state = self.room.state.lock().unwrap();
        std::mem::take(&mut state.log)
    }
}

fn send_all(sender: &mut Handle, taken: &mut [Handle], batches: u64) {
    for batch in 0..batches {
        for value in 0..BATCH {
            assert!(sender.send(value).is_ok());
        }
        if batch >= 2 {
            for told in taken.iter_mut() {
                assert!(told.receive().is_ok());
            }
        }
        if batch % CUT_EACH == CUT_EACH - 1 {
            drop(sender.cut());
        }
    }
    assert!(sender.call(Call::DropSender(sender.number)).is_ok());
}

fn receive_all(mut receiver: Handle, mut taken: Handle) -> (u64, u64) {
    let (mut received, mut missed) = (0, 0);
    while let Ok(receipt) = receiver.receive() {
        match receipt.reply {
            Reply::Value(_) => {
                received += 1;
                if received % BATCH == 0 {
                    assert!(taken.send(received).is_ok());
                }
            }
            Reply::Lagged(count) => missed += count,
            _ => break,
        }
    }
    (received, missed)
}

fn main() {
    let words: Vec<u64> = std::env::args().skip(1).take(2).map(|word| word.parse().unwrap()).collect();
    let (receivers, batches) = (words[0], words[1]);
    let mut sender = Handle::open(CAPACITY, 1);
    let (mut received, mut missed) = (0, 0);
    let start;
    if receivers == 0 {
        let mut receiver = sender.made(Call::Subscribe(1));
        start = Instant::now();
        for batch in 0..batches {
            for value in 0..BATCH {
                assert!(sender.send(value).is_ok() && receiver.try_receive().is_ok());
                received += 1;
            }
            if batch % CUT_EACH == CUT_EACH - 1 {
                drop(sender.cut());
            }
        }
    } else {
        let mut taken = Vec::new();
        start = Instant::now();
        let running: Vec<_> = (0..receivers)
            .map(|number| {
                let mut telling = Handle::open(4, 2 + number);
                taken.push(telling.made(Call::Subscribe(1)));
                let receiver = sender.made(Call::Subscribe(1));
                thread::spawn(move || receive_all(receiver, telling))
            })
            .collect();
        send_all(&mut sender, &mut taken, batches);
        for thread in running {
            let told = thread.join().unwrap();
            received += told.0;
            missed += told.1;
        }
    }
    let spent = start.elapsed().as_nanos();
    println!("received {received} missed {missed}\nnanoseconds {spent}");
}
