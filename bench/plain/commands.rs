//! Lines are read as commands.

use crate::fields::{number, split_field, value};

const NAME_LIMIT: usize = 32;

/// What an actor asks for.
pub enum Command<'a> {
    /// A topic to be opened.
    Open {
        topic: &'a [u8],
        making: Making<'a>,
    },
    /// Something on a topic.
    On {
        topic: &'a [u8],
        verb: Verb<'a>,
    },
    List,
    Quit,
}

pub enum Making<'a> {
    Broadcast { capacity: u64, base: u64 },
    Watch { value: &'a [u8] },
}

/// What is asked of a topic.
#[derive(Clone, Copy)]
pub enum Verb<'a> {
    /// Of a topic of any kind.
    Any(Any<'a>),
    /// Of a broadcast topic, by a receiver.
    Receive(Receive),
    /// Of a broadcast topic, by any sender.
    Queued,
    /// Of a broadcast topic, for a receiver.
    SubOldest,
    /// Of a watch topic, by a receiver.
    Look(Look),
    /// Of a watch topic, by a sender.
    Write(Change, &'a [u8]),
}

#[derive(Clone, Copy)]
pub enum Any<'a> {
    Bind,
    Unbind,
    Sub,
    Unsub,
    Pub { value: &'a [u8] },
    Readers,
    End,
}

#[derive(Clone, Copy)]
pub enum Receive {
    Try,
    Next,
    Resub,
    Left,
}

#[derive(Clone, Copy)]
pub enum Look {
    Get,
    Take,
    Has,
    TryChanged,
    Changed,
    Mark,
    Unmark,
}

#[derive(Clone, Copy)]
pub enum Change {
    Swap,
    Set,
    Differ,
    Quiet,
}

/// Whether a name may have the byte.
const NAME_BYTES: [bool; 256] = {
    let mut table = [false; 256];
    let bytes = b"abcdefghijklmnopqrstuvwxyz0123456789_-";
    let mut at = 0;
    while at < bytes.len() {
        table[bytes[at] as usize] = true;
        at += 1;
    }
    table
};

/// The name that stands in front, and the bytes behind it.
fn split_name(bytes: &[u8]) -> Option<(&[u8], &[u8])> {
    let end = bytes.iter().position(|&b| !NAME_BYTES[usize::from(b)]);
    let (name, rest) = bytes.split_at(end.unwrap_or(bytes.len()));
    (1..=NAME_LIMIT)
        .contains(&name.len())
        .then_some((name, rest))
}

/// The name in front of a space, and the bytes behind that.
fn name_field(bytes: &[u8]) -> Option<(&[u8], &[u8])> {
    let (name, rest) = split_name(bytes)?;
    Some((name, rest.strip_prefix(b" ")?))
}

fn name(bytes: &[u8]) -> Option<&[u8]> {
    let (name, rest) = split_name(bytes)?;
    rest.is_empty().then_some(name)
}

/// What follows `OPEN`.
fn open(rest: &[u8]) -> Option<Command<'_>> {
    let (topic, rest) = name_field(rest)?;
    let making = match split_field(rest)? {
        (b"B", rest) => {
            let (capacity, base) = match split_field(rest) {
                None => (rest, 0),
                Some((capacity, rest)) => (capacity, number(rest.strip_prefix(b"AT ")?)?),
            };
            let capacity = number(capacity)?;
            Making::Broadcast { capacity, base }
        }
        (b"W", rest) => Making::Watch {
            value: value(rest)?,
        },
        _ => return None,
    };
    Some(Command::Open { topic, making })
}

/// What follows the word of a command that has a topic alone.
fn named<'a>(rest: &'a [u8], verb: Verb<'a>) -> Option<Command<'a>> {
    let topic = name(rest)?;
    Some(Command::On { topic, verb })
}

/// What follows `SUB`.
fn subscribe(rest: &[u8]) -> Option<Command<'_>> {
    match name_field(rest) {
        None => named(rest, Verb::Any(Any::Sub)),
        Some((topic, b"OLDEST")) => Some(Command::On {
            topic,
            verb: Verb::SubOldest,
        }),
        Some(_) => None,
    }
}

/// What follows the word of a command that has a topic and a value.
fn valued<'a>(rest: &'a [u8], verb: impl Fn(&'a [u8]) -> Verb<'a>) -> Option<Command<'a>> {
    let (topic, rest) = name_field(rest)?;
    let verb = verb(value(rest)?);
    Some(Command::On { topic, verb })
}

/// What follows `EDIT`.
fn edit(rest: &[u8]) -> Option<Command<'_>> {
    let (topic, rest) = name_field(rest)?;
    let (form, rest) = split_field(rest)?;
    let change = match form {
        b"SET" => Change::Set,
        b"DIFFER" => Change::Differ,
        b"QUIET" => Change::Quiet,
        _ => return None,
    };
    let verb = Verb::Write(change, value(rest)?);
    Some(Command::On { topic, verb })
}

/// The command of a word and what follows it.
fn command<'a>(word: &[u8], rest: &'a [u8]) -> Option<Command<'a>> {
    match word {
        b"PUB" => valued(rest, |value| Verb::Any(Any::Pub { value })),
        b"TRY" => named(rest, Verb::Receive(Receive::Try)),
        b"OPEN" => open(rest),
        b"BIND" => named(rest, Verb::Any(Any::Bind)),
        b"UNBIND" => named(rest, Verb::Any(Any::Unbind)),
        b"SUB" => subscribe(rest),
        b"UNSUB" => named(rest, Verb::Any(Any::Unsub)),
        b"READERS" => named(rest, Verb::Any(Any::Readers)),
        b"END" => named(rest, Verb::Any(Any::End)),
        b"NEXT" => named(rest, Verb::Receive(Receive::Next)),
        b"RESUB" => named(rest, Verb::Receive(Receive::Resub)),
        b"LEFT" => named(rest, Verb::Receive(Receive::Left)),
        b"QUEUED" => named(rest, Verb::Queued),
        b"GET" => named(rest, Verb::Look(Look::Get)),
        b"TAKE" => named(rest, Verb::Look(Look::Take)),
        b"HAS" => named(rest, Verb::Look(Look::Has)),
        b"TRYCHANGED" => named(rest, Verb::Look(Look::TryChanged)),
        b"CHANGED" => named(rest, Verb::Look(Look::Changed)),
        b"MARK" => named(rest, Verb::Look(Look::Mark)),
        b"UNMARK" => named(rest, Verb::Look(Look::Unmark)),
        b"SWAP" => valued(rest, |value| Verb::Write(Change::Swap, value)),
        b"EDIT" => edit(rest),
        _ => None,
    }
}

/// The command of a line that names no actor.
pub fn read(line: &[u8]) -> Option<Command<'_>> {
    match line {
        b"LIST" => Some(Command::List),
        b"QUIT" => Some(Command::Quit),
        _ => {
            let (word, rest) = split_field(line)?;
            command(word, rest)
        }
    }
}

/// The actor and the command of a line.
#[allow(dead_code)] // a session's lines name no actor
pub fn step(line: &[u8]) -> Option<(&[u8], Command<'_>)> {
    let (actor, rest) = name_field(line)?;
    Some((actor, read(rest)?))
}
