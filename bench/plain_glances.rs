//! Looks at a number in plain Rust, beside which `bench/glances` times topichub's.
//!
//!     plain_glances CALLS load|glance|lock .. [timed]
//!
//! - load: loads of an AtomicU64, and nothing else;
//! - glance: the same as what an eye does: a load of a word in common memory, the count and the bit taken from it, and the
//!   count kept;
//! - lock: a Mutex<u64>, locked and read.
use std::hint::black_box;
use std::sync::atomic::{AtomicU64, Ordering};
use std::sync::{Arc, Mutex};
use std::time::Instant;

struct Glance {
    count: u64,
    #[allow(dead_code)] // no measurement reads it
    closed: bool,
}

struct Eye {
    word: Arc<AtomicU64>,
    count: u64,
}

impl Eye {
    fn glance(&mut self) -> Glance {
        let word = self.word.load(Ordering::Acquire);
        self.count = word / 2;
        Glance { count: word / 2, closed: word % 2 == 1 }
    }
}

fn load(word: &AtomicU64, calls: u64) -> u64 {
    let mut total = 0u64;
    for _ in 0..calls / 8 {
        for _ in 0..8 {
            total = total.wrapping_add(word.load(Ordering::Acquire));
        }
    }
    total
}

fn look(eye: &mut Eye, calls: u64) -> u64 {
    let mut total = 0u64;
    for _ in 0..calls / 8 {
        for _ in 0..8 {
            total = total.wrapping_add(eye.glance().count);
        }
    }
    total
}

fn take_lock(number: &Mutex<u64>, calls: u64) -> u64 {
    let mut total = 0u64;
    for _ in 0..calls {
        total = total.wrapping_add(*number.lock().unwrap());
    }
    total
}

/// The total of one measurement, and its nanoseconds.
fn measure(name: &str, calls: u64) -> (u64, u128) {
    match name {
        "load" => {
            let word = black_box(Arc::new(AtomicU64::new(1)));
            let start = Instant::now();
            (load(&word, calls), start.elapsed().as_nanos())
        }
        "glance" => {
            let mut eye = black_box(Eye { word: Arc::new(AtomicU64::new(2)), count: 0 });
            let start = Instant::now();
            let total = look(&mut eye, calls);
            let spent = start.elapsed().as_nanos();
            black_box(eye.count);
            (total, spent)
        }
        "lock" => {
            let number = black_box(Arc::new(Mutex::new(1)));
            let start = Instant::now();
            (take_lock(&number, calls), start.elapsed().as_nanos())
        }
        _ => panic!("words: CALLS load|glance|lock .. [timed]"),
    }
}

fn main() {
    let words: Vec<String> = std::env::args().skip(1).collect();
    let calls = words[0].parse().unwrap();
    let timed = words.last().is_some_and(|word| word == "timed");
    for name in &words[1..words.len() - timed as usize] {
        let (total, spent) = measure(name, calls);
        if timed {
            println!("{name} total {total} nanoseconds {spent}");
        } else {
            println!("{name} total {total}");
        }
    }
}
