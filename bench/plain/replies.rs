//! What is answered, and its text.

use crate::log::Told;
use std::io::{self, Write};

/// A row of a listing: a topic's name, and the end of its line.
pub struct Row {
    pub name: Box<[u8]>,
    pub kind: &'static [u8],
}

/// What is answered where nothing refuses.
pub enum Reply<'a> {
    Opened(u64),
    Told(&'a Told),
    Blocked,
    Topics(&'a [Row]),
    Bye,
}

#[derive(Clone, Copy)]
pub enum Refusal {
    BadLine,
    NoTopic,
    Exists,
    WrongKind,
    BadCapacity,
    Held,
    NotHeld,
    Closed,
    TooMany,
    LogFull,
    LongLine,
}

impl Refusal {
    fn text(self) -> &'static [u8] {
        match self {
            Refusal::BadLine => b"10 bad-line",
            Refusal::NoTopic => b"11 no-topic",
            Refusal::Exists => b"12 exists",
            Refusal::WrongKind => b"13 wrong-kind",
            Refusal::BadCapacity => b"14 bad-capacity",
            Refusal::Held => b"15 held",
            Refusal::NotHeld => b"16 not-held",
            Refusal::Closed => b"18 closed",
            Refusal::TooMany => b"19 too-many",
            Refusal::LogFull => b"22 log-full",
            Refusal::LongLine => b"23 long-line",
        }
    }
}

/// A reply, or the refusal in its place.
pub type Outcome<'a> = Result<Reply<'a>, Refusal>;

/// A line of a word and bytes.
fn print_bytes(word: &[u8], bytes: &[u8], output: &mut impl Write) -> io::Result<()> {
    output.write_all(word)?;
    output.write_all(bytes)?;
    output.write_all(b"\n")
}

/// A line of a word and a number.
fn print_count(word: &[u8], mut n: u64, output: &mut impl Write) -> io::Result<()> {
    let mut digits = [0; 20];
    let mut first = digits.len();
    loop {
        first -= 1;
        digits[first] = b'0' + (n % 10) as u8;
        n /= 10;
        if n == 0 {
            return print_bytes(word, &digits[first..], output);
        }
    }
}

fn print_topics(topics: &[Row], output: &mut impl Write) -> io::Result<()> {
    print_count(b"OK ", topics.len() as u64, output)?;
    for row in topics {
        print_bytes(&row.name, row.kind, output)?;
    }
    Ok(())
}

fn print_told(told: &Told, output: &mut impl Write) -> io::Result<()> {
    match told {
        Told::NewSender(_) | Told::NewReceiver(_) | Told::Done => output.write_all(b"OK\n"),
        Told::Count(n) => print_count(b"OK ", *n, output),
        Told::NoReceivers(_) => output.write_all(b"ERR 17 no-receivers\n"),
        Told::Exhausted(_) => output.write_all(b"ERR 20 exhausted\n"),
        Told::Value(value) => print_bytes(b"VAL ", value, output),
        Told::Lagged(n) => print_count(b"LAG ", *n, output),
        Told::Empty => output.write_all(b"EMPTY\n"),
        Told::Closed => output.write_all(b"CLOSED\n"),
        Told::Was(value) => print_bytes(b"WAS ", value, output),
        Told::New(value) => print_bytes(b"NEW ", value, output),
        Told::Same(value) => print_bytes(b"SAME ", value, output),
        Told::YesOrNo(true) => output.write_all(b"YES\n"),
        Told::YesOrNo(false) => output.write_all(b"NO\n"),
        Told::Changed => output.write_all(b"CHANGED\n"),
        Told::NotYet => output.write_all(b"NOTYET\n"),
    }
}

pub fn print(outcome: &Outcome, output: &mut impl Write) -> io::Result<()> {
    match outcome {
        Ok(Reply::Opened(n)) => print_count(b"OK ", *n, output),
        Ok(Reply::Told(told)) => print_told(told, output),
        Ok(Reply::Blocked) => output.write_all(b"BLOCKED\n"),
        Ok(Reply::Topics(topics)) => print_topics(topics, output),
        Ok(Reply::Bye) => output.write_all(b"BYE\n"),
        Err(refusal) => print_bytes(b"ERR ", refusal.text(), output),
    }
}
