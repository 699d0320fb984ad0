//! The clients by which `bench/serve` loads a server over its Unix socket, on the standard library alone.
//!
//!     serve_clients PROTOCOL PATH trips CLIENTS TOPICS MILLISECONDS
//!     serve_clients PROTOCOL PATH fan SUBSCRIBERS PUBLICATIONS
//!     serve_clients PROTOCOL PATH wakes SUBSCRIBERS PUBLICATIONS
//!
//! PROTOCOL is `lines` (docs/FORMATS.md) or `redis`. Of *trips* each client publishes a value and reads the reply, again and
//! again; the clients have so many topics among them, and each topic's window is full of what nobody reads. Of *fan* one client
//! publishes, with 64 publications under way, and each subscriber receives all of them; by lines it asks for up to 256 ahead. Of
//! *wakes* one client publishes once all subscribers wait, and told are the nanoseconds from each publication to each receipt.
//!
//! Of trips and fan there are at most 4 threads, so that the machine is the server's: a thread writes to each of its clients, and then
//! reads from each in turn. All of them are due something, so it waits where it has to. Of wakes each subscriber has a thread.

use std::env;
use std::io::{Read, Write};
use std::os::unix::net::UnixStream;
use std::sync::atomic::{AtomicU64, Ordering};
use std::sync::Barrier;
use std::thread;
use std::time::{Duration, Instant};

const THREADS: usize = 4;
/// Publications under way.
const UNDER_WAY: usize = 64;
/// How many values a subscriber asks for ahead.
const AHEAD: u64 = 256;
/// The bytes of a value: its number, of ten digits, and letters.
const VALUE: usize = 32;
/// The topic of a fan-out. Its window takes all publications of a run, so that nobody misses any.
const WINDOW: u64 = 65_536;

#[derive(Clone, Copy, PartialEq)]
enum Protocol {
    Lines,
    Redis,
}

fn value(number: u64) -> String {
    format!("{number:010}{}", "x".repeat(VALUE - 10))
}

impl Protocol {
    fn publish(self, topic: &str, number: u64) -> String {
        match self {
            Protocol::Lines => format!("PUB {topic} {}\n", value(number)),
            Protocol::Redis => format!(
                "*3\r\n$7\r\nPUBLISH\r\n${}\r\n{topic}\r\n${VALUE}\r\n{}\r\n",
                topic.len(),
                value(number)
            ),
        }
    }

    /// How the reply to a publication begins.
    fn published(self) -> &'static str {
        match self {
            Protocol::Lines => "OK ",
            Protocol::Redis => ":",
        }
    }
}

/// A connection, and what came of it and is not told yet.
struct Client {
    stream: UnixStream,
    buffer: Vec<u8>,
    came: usize,
}

impl Client {
    fn connect(path: &str) -> Client {
        Client {
            stream: UnixStream::connect(path).expect("a server that listens"),
            buffer: vec![0; 1 << 16],
            came: 0,
        }
    }

    fn say(&mut self, text: &str) {
        self.stream
            .write_all(text.as_bytes())
            .expect("a server that reads");
    }

    /// Reads once more.
    fn read(&mut self) {
        let count = self
            .stream
            .read(&mut self.buffer[self.came..])
            .expect("a server that writes");
        assert!(count > 0, "the server has ended a session");
        self.came += count;
    }

    /// Hands over each whole line of what came.
    fn lines(&mut self, mut tell: impl FnMut(&[u8])) {
        let mut told = 0;
        while let Some(length) = self.buffer[told..self.came]
            .iter()
            .position(|&b| b == b'\n')
        {
            tell(&self.buffer[told..told + length]);
            told += length + 1;
        }
        self.buffer.copy_within(told..self.came, 0);
        self.came -= told;
    }

    /// Reads until so many replies have come, each of which has to begin so.
    fn replies(&mut self, mut due: usize, begin: &str) {
        while due > 0 {
            self.read();
            self.lines(|line| {
                let text = String::from_utf8_lossy(line);
                assert!(line.starts_with(begin.as_bytes()), "{text} for {begin}");
                due -= 1;
            });
        }
    }

    fn ask(&mut self, line: &str, begin: &str) {
        self.say(line);
        self.replies(1, begin);
    }
}

// ---- round trips

fn trips(protocol: Protocol, path: &str, clients: usize, topics: usize, span: Duration) {
    let mut all: Vec<(Client, String)> = (0..clients)
        .map(|k| {
            let mut client = Client::connect(path);
            let topic = format!("topic-{}", k % topics);
            if protocol == Protocol::Lines {
                if k < topics {
                    client.ask(&format!("OPEN {topic} B 64\n"), "OK");
                }
                client.ask(&format!("BIND {topic}\n"), "OK");
                client.ask(&format!("SUB {topic}\n"), "OK");
            }
            let line = protocol.publish(&topic, 0);
            // The window is full before the clock starts.
            for _ in 0..64 {
                client.ask(&line, protocol.published());
            }
            (client, line)
        })
        .collect();
    let share = clients.div_ceil(THREADS);
    let barrier = Barrier::new(clients.div_ceil(share));
    let counted: Vec<(u64, Duration)> = thread::scope(|scope| {
        let threads: Vec<_> = all
            .chunks_mut(share)
            .map(|mine| {
                let barrier = &barrier;
                scope.spawn(move || {
                    barrier.wait();
                    let start = Instant::now();
                    let mut count = 0;
                    while start.elapsed() < span {
                        for (client, line) in mine.iter_mut() {
                            client.say(line);
                        }
                        for (client, _) in mine.iter_mut() {
                            client.replies(1, protocol.published());
                        }
                        count += mine.len() as u64;
                    }
                    (count, start.elapsed())
                })
            })
            .collect();
        threads
            .into_iter()
            .map(|thread| thread.join().unwrap())
            .collect()
    });
    let count: u64 = counted.iter().map(|(count, _)| count).sum();
    let taken = counted.iter().map(|(_, taken)| *taken).max().unwrap();
    println!("trips {count} nanoseconds {}", taken.as_nanos());
}

// ---- fan-out

struct Subscriber {
    client: Client,
    protocol: Protocol,
    publications: u64,
    asked: u64,
    answered: u64,
    received: u64,
    missed: u64,
}

fn number(digits: &[u8]) -> u64 {
    digits.iter().fold(0, |n, &b| n * 10 + u64::from(b - b'0'))
}

impl Subscriber {
    fn join(protocol: Protocol, path: &str, publications: u64) -> Subscriber {
        let mut client = Client::connect(path);
        match protocol {
            Protocol::Lines => client.ask("SUB topic\n", "OK"),
            Protocol::Redis => {
                client.say("*2\r\n$9\r\nSUBSCRIBE\r\n$5\r\ntopic\r\n");
                client.replies(6, "");
            }
        }
        Subscriber {
            client,
            protocol,
            publications,
            asked: 0,
            answered: 0,
            received: 0,
            missed: 0,
        }
    }

    fn is_done(&self) -> bool {
        self.received + self.missed == self.publications
    }

    /// Asks for more, where fewer than half of what may be asked ahead is under way.
    fn ask(&mut self) {
        let under_way = self.asked - self.answered;
        let left = self.publications - self.received - self.missed;
        if self.protocol == Protocol::Lines && under_way <= AHEAD / 2 && under_way < left {
            let more = left.min(AHEAD) - under_way;
            self.client.say(&"NEXT topic\n".repeat(more as usize));
            self.asked += more;
        }
    }

    fn take(&mut self) {
        self.client.read();
        let Subscriber {
            client,
            protocol,
            answered,
            received,
            missed,
            ..
        } = self;
        client.lines(|line| {
            // Of a message of Redis only the line with the value begins so.
            let told = match protocol {
                Protocol::Lines => {
                    *answered += 1;
                    if let Some(count) = line.strip_prefix(b"LAG ") {
                        *missed += number(count);
                        return;
                    }
                    line.strip_prefix(b"VAL ").expect("a value")
                }
                Protocol::Redis if line.len() == VALUE + 1 => line,
                Protocol::Redis => return,
            };
            assert_eq!(
                number(&told[..10]),
                *received + *missed,
                "values come in order"
            );
            *received += 1;
        });
    }
}

fn publish(protocol: Protocol, client: &mut Client, publications: u64) {
    let (mut sent, mut answered) = (0, 0);
    let mut text = String::new();
    while answered < publications {
        text.clear();
        while sent < publications && sent - answered < UNDER_WAY as u64 {
            text.push_str(&protocol.publish("topic", sent));
            sent += 1;
        }
        client.say(&text);
        client.read();
        client.lines(|line| {
            assert!(line.starts_with(protocol.published().as_bytes()));
            answered += 1;
        });
    }
}

fn fan(protocol: Protocol, path: &str, subscribers: usize, publications: u64) {
    assert!(publications <= WINDOW);
    let mut publisher = Client::connect(path);
    if protocol == Protocol::Lines {
        publisher.ask(&format!("OPEN topic B {WINDOW}\n"), "OK");
        publisher.ask("BIND topic\n", "OK");
    }
    let mut all: Vec<Subscriber> = (0..subscribers)
        .map(|_| Subscriber::join(protocol, path, publications))
        .collect();
    let share = subscribers.div_ceil(THREADS - 1);
    let start = Instant::now();
    thread::scope(|scope| {
        for mine in all.chunks_mut(share) {
            scope.spawn(move || {
                while mine.iter().any(|subscriber| !subscriber.is_done()) {
                    for subscriber in mine.iter_mut().filter(|subscriber| !subscriber.is_done()) {
                        subscriber.ask();
                        subscriber.take();
                    }
                }
            });
        }
        publish(protocol, &mut publisher, publications);
    });
    let taken = start.elapsed();
    let received: u64 = all.iter().map(|subscriber| subscriber.received).sum();
    let missed: u64 = all.iter().map(|subscriber| subscriber.missed).sum();
    if protocol == Protocol::Lines {
        // Who has asked for more than came is told that nothing comes any more.
        publisher.ask("END topic\n", "OK");
        publisher.ask("QUIT\n", "BYE");
    }
    println!(
        "received {received} missed {missed} nanoseconds {}",
        taken.as_nanos()
    );
}

// ---- wakes

/// Long enough that whoever waits sleeps.
const PAUSE: Duration = Duration::from_micros(300);

fn wakes(protocol: Protocol, path: &str, subscribers: usize, publications: u64) {
    let mut publisher = Client::connect(path);
    if protocol == Protocol::Lines {
        publisher.ask("OPEN topic B 64\n", "OK");
        publisher.ask("BIND topic\n", "OK");
    }
    let mut all: Vec<Subscriber> = (0..subscribers)
        .map(|_| Subscriber::join(protocol, path, publications))
        .collect();
    let (start, sent, received) = (Instant::now(), AtomicU64::new(0), AtomicU64::new(0));
    let now = || start.elapsed().as_nanos() as u64;
    let times: Vec<u64> = thread::scope(|scope| {
        let threads: Vec<_> = all
            .iter_mut()
            .map(|subscriber| {
                let (sent, received) = (&sent, &received);
                scope.spawn(move || {
                    let mut times = Vec::new();
                    while !subscriber.is_done() {
                        if protocol == Protocol::Lines && subscriber.asked == subscriber.answered {
                            subscriber.client.say("NEXT topic\n");
                            subscriber.asked += 1;
                        }
                        let before = subscriber.received;
                        subscriber.take();
                        if subscriber.received > before {
                            times.push(now() - sent.load(Ordering::Acquire));
                            received.fetch_add(1, Ordering::Release);
                        }
                    }
                    times
                })
            })
            .collect();
        for value in 0..publications {
            thread::sleep(PAUSE);
            sent.store(now(), Ordering::Release);
            publisher.ask(&protocol.publish("topic", value), protocol.published());
            while received.load(Ordering::Acquire) < (value + 1) * subscribers as u64 {
                thread::sleep(PAUSE);
            }
        }
        threads
            .into_iter()
            .flat_map(|thread| thread.join().unwrap())
            .collect()
    });
    if protocol == Protocol::Lines {
        publisher.ask("QUIT\n", "BYE");
    }
    for time in times {
        println!("{time}");
    }
}

fn main() {
    let words: Vec<String> = env::args().skip(1).collect();
    let protocol = match words[0].as_str() {
        "lines" => Protocol::Lines,
        "redis" => Protocol::Redis,
        other => panic!("{other} is no protocol"),
    };
    let path = &words[1];
    let numbers: Vec<u64> = words[3..]
        .iter()
        .map(|word| word.parse().unwrap())
        .collect();
    match words[2].as_str() {
        "trips" => {
            let span = Duration::from_millis(numbers[2]);
            trips(
                protocol,
                path,
                numbers[0] as usize,
                numbers[1] as usize,
                span,
            );
        }
        "fan" => fan(protocol, path, numbers[0] as usize, numbers[1]),
        "wakes" => wakes(protocol, path, numbers[0] as usize, numbers[1]),
        other => panic!("{other} is no load"),
    }
}
