//! `topichub serve` as a plain Rust program: the same lines, rules and replies over a Unix socket, with nothing proved. It is
//! what `bench/serve` compares with, and stands on the standard library alone.
//!
//!     plain_hub PATH --sessions N
//!
//! A Mutex and a Condvar for each topic, a thread for each connection. The channels and their logs are those of
//! bench/plain.rs. There is no `TRACE` here: it is a bad line, so a log that is full stays full.
//!
//! A session reads a chunk and answers all lines in it. As long as they are about one topic it holds that topic's lock; who
//! waits for news is woken once, when the chunk is answered, and the replies are written by one call. Both are done before it
//! waits or reads. Nothing is written under a lock: a peer that does not read holds up nobody but itself.

#[path = "plain/commands.rs"]
mod commands;
#[path = "plain/fields.rs"]
mod fields;
#[path = "plain/lines.rs"]
mod lines;
#[path = "plain/log.rs"]
mod log;
#[path = "plain/names.rs"]
mod names;
#[path = "plain/replies.rs"]
mod replies;
#[path = "plain/topics.rs"]
mod topics;

use crate::commands::{Command, Making, Verb, read};
use crate::lines::{Line, Lines};
use crate::names::Names;
use crate::replies::{Outcome, Refusal, Reply, Row, print};
use crate::topics::{Channel, News, Seat, Topic, on_topic};
use std::fs::{Permissions, remove_file, set_permissions};
use std::io::{self, Write};
use std::os::unix::fs::PermissionsExt;
use std::os::unix::net::{UnixListener, UnixStream};
use std::process::ExitCode;
use std::sync::{Arc, Condvar, Mutex, MutexGuard};
use std::{env, mem, thread};

/// The bytes of a value stand in memory once, for the channel, the log and the reply.
pub type Value = Arc<[u8]>;

/// How many bytes of replies wait at the most before they are written, but for the last one.
const REPLIES_ROOM: usize = 1 << 16;
const LINES_LIMIT: u64 = 1_000_000;
const TOPICS_LIMIT: usize = 1024;
const SESSIONS_LIMIT: usize = 64;

// ---- the hub

/// A topic for many threads. It is never let go, so a guard of it needs no owner.
struct Shared {
    room: Mutex<Room>,
    changed: Condvar,
}

struct Room {
    topic: Topic,
    /// What those who wait have seen, if anybody has looked in vain since they were last woken.
    awaited: Option<News>,
}

impl Shared {
    fn lock(&self) -> MutexGuard<'_, Room> {
        self.room.lock().unwrap()
    }
}

#[derive(Default)]
struct Topics {
    numbers: Names<usize>,
    rows: Vec<Row>,
    list: Vec<&'static Shared>,
}

impl Topics {
    fn open(&mut self, name: &[u8], making: Making<'_>) -> Outcome<'_> {
        if self.numbers.contains_key(name) {
            return Err(Refusal::Exists);
        }
        let (told, channel) = Channel::open(making)?;
        if self.list.len() == TOPICS_LIMIT {
            return Err(Refusal::TooMany);
        }
        let number = self.list.len();
        self.numbers.insert(name.into(), number);
        self.rows.push(Row {
            name: name.into(),
            kind: channel.kind(),
        });
        let room = Room {
            topic: Topic::open(channel),
            awaited: None,
        };
        self.list.push(Box::leak(Box::new(Shared {
            room: Mutex::new(room),
            changed: Condvar::new(),
        })));
        Ok(Reply::Opened(told))
    }
}

// ---- a session

/// Where the session is or was: the topic with its number, and what it holds there.
struct Place {
    number: usize,
    shared: &'static Shared,
    seat: Seat,
}

/// A session ends: after `QUIT`, or since no more can be read, written or answered.
struct End;

struct Session<'a> {
    topics: &'a Mutex<Topics>,
    stream: &'a UnixStream,
    lines: u64,
    /// Indices in `places`, by the topics' names.
    at: Names<usize>,
    places: Vec<Place>,
    /// The topic of the last line, as long as the next one may be about it too.
    held: Option<(usize, MutexGuard<'static, Room>)>,
    /// Topics on which somebody is to be woken.
    to_wake: Vec<&'static Shared>,
    replies: Vec<u8>,
}

impl Session<'_> {
    /// Lets the topic go that is held.
    fn release(&mut self) {
        if let Some((at, mut room)) = self.held.take()
            && room.awaited.is_some_and(|seen| seen != room.topic.news())
        {
            room.awaited = None;
            self.to_wake.push(self.places[at].shared);
        }
    }

    /// Nobody waits for this session any more: no lock, no news and no reply is kept back.
    fn settle(&mut self) -> Result<(), End> {
        self.release();
        for shared in self.to_wake.drain(..) {
            shared.changed.notify_all();
        }
        let written = self.stream.write_all(&self.replies);
        self.replies.clear();
        written.map_err(|_| End)
    }

    fn say(&mut self, outcome: Outcome<'_>) {
        print(&outcome, &mut self.replies).expect("a vector takes all");
    }

    /// The place of a topic that was opened.
    fn find(&mut self, name: &[u8]) -> Option<usize> {
        if let Some(&at) = self.at.get(name) {
            return Some(at);
        }
        self.release();
        let topics = self.topics.lock().unwrap();
        let number = *topics.numbers.get(name)?;
        self.at.insert(name.into(), self.places.len());
        self.places.push(Place {
            number,
            shared: topics.list[number],
            seat: Seat::default(),
        });
        Some(self.places.len() - 1)
    }

    fn answer(&mut self, line: Line<'_>) -> Result<(), End> {
        if self.lines == LINES_LIMIT {
            return Err(End);
        }
        self.lines += 1;
        if self.replies.len() >= REPLIES_ROOM {
            self.settle()?;
        }
        let Some(line) = line else {
            self.say(Err(Refusal::LongLine));
            return Ok(());
        };
        match read(line) {
            None => self.say(Err(Refusal::BadLine)),
            Some(Command::On { topic, verb }) => match self.find(topic) {
                None => self.say(Err(Refusal::NoTopic)),
                Some(at) => self.on(at, verb)?,
            },
            Some(Command::Open { topic, making }) => {
                self.release();
                let topics = self.topics;
                self.say(topics.lock().unwrap().open(topic, making));
            }
            Some(Command::List) => {
                self.release();
                let topics = self.topics;
                self.say(Ok(Reply::Topics(&topics.lock().unwrap().rows)));
            }
            Some(Command::Quit) => {
                self.spend();
                self.say(Ok(Reply::Bye));
                return Err(End);
            }
        }
        Ok(())
    }

    /// Carries out what is asked of a topic, and waits until it has an answer.
    fn on(&mut self, at: usize, verb: Verb<'_>) -> Result<(), End> {
        if !matches!(self.held, Some((held, _)) if held == at) {
            self.release();
            self.held = Some((at, self.places[at].shared.lock()));
        }
        if self.try_on(at, verb) {
            return Ok(());
        }
        // It may be long until there is an answer.
        self.settle()?;
        let shared = self.places[at].shared;
        let mut room = shared.lock();
        loop {
            self.held = Some((at, room));
            if self.try_on(at, verb) {
                return Ok(());
            }
            let Some((_, mut blocked)) = self.held.take() else {
                unreachable!("it was held a moment ago")
            };
            blocked.awaited = Some(blocked.topic.news());
            room = shared.changed.wait(blocked).unwrap();
        }
    }

    /// Carries out what is asked of the topic that is held; `false` where there is no answer yet.
    fn try_on(&mut self, at: usize, verb: Verb<'_>) -> bool {
        let Some((_, room)) = &mut self.held else {
            unreachable!("it is held")
        };
        let outcome = on_topic(&mut room.topic, &mut self.places[at].seat, verb);
        if matches!(outcome, Ok(Reply::Blocked)) {
            return false;
        }
        print(&outcome, &mut self.replies).expect("a vector takes all");
        true
    }

    /// All that the session holds is spent, topics in order of opening.
    fn spend(&mut self) {
        self.release();
        let mut order: Vec<usize> = (0..self.places.len()).collect();
        order.sort_by_key(|&at| self.places[at].number);
        for at in order {
            let place = &mut self.places[at];
            let mut room = place.shared.lock();
            room.topic.spend(mem::take(&mut place.seat));
            self.held = Some((at, room));
            self.release();
        }
    }

    fn run(&mut self) -> Result<(), End> {
        let mut input = Lines::new(self.stream);
        loop {
            while let Some(line) = input.next() {
                self.answer(line)?;
            }
            self.settle()?;
            if !input.read().map_err(|_| End)? {
                break;
            }
        }
        match input.last() {
            Some(line) => self.answer(line),
            None => Ok(()),
        }
    }
}

fn serve_one(topics: &Mutex<Topics>, stream: &UnixStream) {
    let mut session = Session {
        topics,
        stream,
        lines: 0,
        at: Names::default(),
        places: Vec::new(),
        held: None,
        to_wake: Vec::new(),
        replies: Vec::new(),
    };
    let (Ok(()) | Err(End)) = session.run();
    session.spend();
    // Who is gone gets no last replies; those who wait are woken all the same.
    let (Ok(()) | Err(End)) = session.settle();
}

// ---- the server

fn say_line(line: &str) -> io::Result<()> {
    let mut output = io::stdout();
    writeln!(output, "{line}")?;
    output.flush()
}

fn serve(path: &str, sessions: usize) -> io::Result<()> {
    let listener = UnixListener::bind(path)?;
    let topics = Mutex::new(Topics::default());
    let served = set_permissions(path, Permissions::from_mode(0o600))
        .and_then(|()| say_line("listening"))
        .and_then(|()| {
            thread::scope(|scope| {
                for _ in 0..sessions {
                    let (stream, _) = listener.accept()?;
                    let topics = &topics;
                    thread::Builder::new()
                        .spawn_scoped(scope, move || serve_one(topics, &stream))?;
                }
                Ok(())
            })
        });
    remove_file(path)?;
    served?;
    say_line(&format!("done {sessions}"))
}

fn main() -> ExitCode {
    let words: Vec<String> = env::args().skip(1).collect();
    let asked = match &words[..] {
        [path, option, count] if option == "--sessions" => count.parse().ok().map(|n| (path, n)),
        _ => None,
    };
    match asked {
        Some((path, sessions)) if (1..=SESSIONS_LIMIT).contains(&sessions) => {
            match serve(path, sessions) {
                Ok(()) => ExitCode::SUCCESS,
                Err(_) => {
                    eprintln!("topichub: socket fault");
                    ExitCode::FAILURE
                }
            }
        }
        _ => {
            eprintln!("usage: plain_hub PATH --sessions N, N from 1 to 64");
            ExitCode::from(2)
        }
    }
}
