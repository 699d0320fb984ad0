//! `topichub replay` as a plain Rust program: the same lines, rules and replies, with nothing proved. It is what the
//! bench compares with, and stands on the standard library alone.
//!
//! A broadcast topic keeps its newest values in a `VecDeque`, each with the number of receivers that have still to read
//! it. A watch topic keeps its newest value and its version. Each topic keeps a log of its calls and their replies, and
//! each actor what it holds on each topic; the schedules of the bench have no `TRACE`, so nothing prints the log here.

#[path = "plain/commands.rs"]
mod commands;
#[path = "plain/fields.rs"]
mod fields;
#[path = "plain/lines.rs"]
mod lines;
#[path = "plain/log.rs"]
mod log;
#[path = "plain/names.rs"]
mod names;
#[path = "plain/replies.rs"]
mod replies;
#[path = "plain/topics.rs"]
mod topics;

use crate::commands::{Command, Making, step};
use crate::lines::{Line, Lines};
use crate::names::Names;
use crate::replies::{Outcome, Refusal, Reply, Row, print};
use crate::topics::{Channel, Seat, Topic, on_topic};
use std::io::{self, BufWriter, Read, Write};
use std::mem;
use std::process::ExitCode;
use std::rc::Rc;

/// The bytes of a value stand in memory once, for the channel, the log and the reply.
pub type Value = Rc<[u8]>;

/// How many bytes of replies wait at the most before they are written.
const REPLIES_ROOM: usize = 1 << 16;
const LINES_LIMIT: u64 = 1_000_000;
const TOPICS_LIMIT: usize = 1024;
const ACTORS_LIMIT: usize = 1024;

// ---- the hub

/// Where an actor is or was, in the order in which it came.
#[derive(Default)]
struct Actor {
    /// By the topics' numbers, one more than the seat's index; 0 where it never was.
    at: Vec<u32>,
    seats: Vec<(usize, Seat)>,
}

impl Actor {
    fn seat(&mut self, topic: usize) -> &mut Seat {
        if self.at.len() <= topic {
            self.at.resize(topic + 1, 0);
        }
        if self.at[topic] == 0 {
            self.seats.push((topic, Seat::default()));
            self.at[topic] = self.seats.len() as u32;
        }
        &mut self.seats[self.at[topic] as usize - 1].1
    }
}

#[derive(Default)]
struct Topics {
    numbers: Names<usize>,
    rows: Vec<Row>,
    list: Vec<Topic>,
}

#[derive(Default)]
struct Hub {
    topics: Topics,
    actors: Names<Actor>,
}

impl Hub {
    /// Carries out one line, without its line end.
    fn answer(&mut self, line: &[u8]) -> Outcome<'_> {
        let (name, command) = step(line).ok_or(Refusal::BadLine)?;
        if let Command::Quit = command {
            return self.quit(name);
        }
        if let Some(actor) = self.actors.get_mut(name) {
            return self.topics.answer(actor, command);
        }
        if self.actors.len() == ACTORS_LIMIT {
            return Err(Refusal::TooMany);
        }
        let actor = self.actors.entry(name.into()).or_default();
        self.topics.answer(actor, command)
    }

    /// Ends the actor. One that has not begun begins and ends here.
    fn quit(&mut self, name: &[u8]) -> Outcome<'_> {
        match self.actors.remove(name) {
            Some(actor) => self.topics.spend(actor),
            None if self.actors.len() == ACTORS_LIMIT => return Err(Refusal::TooMany),
            None => {}
        }
        Ok(Reply::Bye)
    }
}

impl Topics {
    fn answer(&mut self, actor: &mut Actor, command: Command<'_>) -> Outcome<'_> {
        match command {
            Command::Open { topic, making } => self.open(topic, making),
            Command::On { topic, verb } => {
                let number = *self.numbers.get(topic).ok_or(Refusal::NoTopic)?;
                on_topic(&mut self.list[number], actor.seat(number), verb)
            }
            Command::List => Ok(Reply::Topics(&self.rows)),
            Command::Quit => unreachable!("the hub answers it"),
        }
    }

    fn open(&mut self, name: &[u8], making: Making<'_>) -> Outcome<'_> {
        if self.numbers.contains_key(name) {
            return Err(Refusal::Exists);
        }
        let (told, channel) = Channel::open(making)?;
        if self.list.len() == TOPICS_LIMIT {
            return Err(Refusal::TooMany);
        }
        let number = self.list.len();
        self.numbers.insert(name.into(), number);
        self.rows.push(Row {
            name: name.into(),
            kind: channel.kind(),
        });
        self.list.push(Topic::open(channel));
        Ok(Reply::Opened(told))
    }

    /// Everything that the actor holds is spent.
    fn spend(&mut self, actor: Actor) {
        for (number, seat) in actor.seats {
            self.list[number].spend(seat);
        }
    }
}

// ---- the run

enum Fault {
    Read,
    Write,
    TooLong,
}

/// The replies to the lines that come, and how many lines there were.
#[derive(Default)]
struct Run {
    hub: Hub,
    lines: u64,
}

impl Run {
    fn answer(&mut self, line: Line<'_>, output: &mut impl Write) -> Result<(), Fault> {
        if self.lines == LINES_LIMIT {
            return Err(Fault::TooLong);
        }
        self.lines += 1;
        let outcome = match line {
            Some(line) => self.hub.answer(line),
            None => Err(Refusal::LongLine),
        };
        print(&outcome, output).map_err(|_| Fault::Write)
    }
}

/// Before each read all replies are written, so that who waits for one gets it.
fn replay(
    run: &mut Run,
    input: &mut Lines<impl Read>,
    output: &mut impl Write,
) -> Result<(), Fault> {
    loop {
        while let Some(line) = input.next() {
            run.answer(line, output)?;
        }
        output.flush().map_err(|_| Fault::Write)?;
        if !input.read().map_err(|_| Fault::Read)? {
            break;
        }
    }
    match input.last() {
        Some(line) => run.answer(line, output),
        None => Ok(()),
    }
}

fn main() -> ExitCode {
    let mut input = Lines::new(io::stdin().lock());
    let mut output = BufWriter::with_capacity(REPLIES_ROOM, io::stdout().lock());
    let mut run = Run::default();
    let end = replay(&mut run, &mut input, &mut output);
    // The end of the process gives all memory back at once.
    mem::forget(run);
    let flushed = output.flush().map_err(|_| Fault::Write);
    match end.and(flushed) {
        Ok(()) => ExitCode::SUCCESS,
        Err(fault) => {
            eprintln!(
                "topichub: {}",
                match fault {
                    Fault::Read => "read fault",
                    Fault::Write => "write fault",
                    Fault::TooLong => "too long",
                }
            );
            ExitCode::FAILURE
        }
    }
}
