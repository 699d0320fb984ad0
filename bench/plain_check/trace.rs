//! The lines of a trace, one after another.

use crate::broadcast::{Broadcast, capacity};
use crate::fields::{number, split_field, value};
use crate::handles::Handles;
use crate::watch::Watch;

const ENTRIES_LIMIT: u64 = 1_000_000;

/// Why a line does not lead on.
pub enum Stop {
    Bad,
    Illegal,
}

/// A channel that is made from a picture, and goes through the entries below it.
pub trait Channel {
    type Call;

    fn handles(&mut self) -> &mut Handles;

    /// Whether a value of the picture was not told yet.
    fn has_untold(&self) -> bool;

    /// The next value of the picture.
    fn keep(&mut self, value: &[u8]);

    /// Where a receiver of the picture stands.
    fn place(&self, field: &[u8]) -> Option<u64>;

    /// The picture is whole.
    fn begin(&mut self) -> Option<()>;

    /// The call of this word, with what follows it.
    fn call(&self, word: &[u8], rest: &[u8]) -> Option<Self::Call>;

    /// Makes the call, where the line is a reply to it.
    fn judge(&mut self, call: Self::Call, line: &[u8]) -> Result<(), Stop>;
}

/// A trace, up to some line of it.
pub enum Trace {
    Empty,
    BroadcastAt { has_oldest: bool, capacity: u64 },
    WatchAt,
    Broadcast(Course<Broadcast>),
    Watch(Course<Watch>),
}

/// A trace from the second line of its picture on.
pub struct Course<C: Channel> {
    channel: C,
    entries: u64,
    due: Due<C::Call>,
}

enum Due<C> {
    Picture,
    Call,
    Reply(C),
    Nothing,
}

impl Trace {
    /// One line more.
    pub fn take(&mut self, line: &[u8]) -> Result<(), Stop> {
        match self {
            Trace::Broadcast(course) => return course.take(line),
            Trace::Watch(course) => return course.take(line),
            _ => {}
        }
        *self = self.above(line).ok_or(Stop::Bad)?;
        Ok(())
    }

    /// With its first or second line.
    fn above(&self, line: &[u8]) -> Option<Trace> {
        Some(match *self {
            Trace::BroadcastAt {
                has_oldest,
                capacity,
            } => Trace::Broadcast(Course::new(Broadcast::at(has_oldest, capacity, line)?)),
            Trace::WatchAt => Trace::Watch(Course::new(Watch::at(line)?)),
            _ => match split_field(line.strip_prefix(b"TRACE ")?) {
                Some((b"1", b"W")) => Trace::WatchAt,
                Some((version @ (b"1" | b"2"), rest)) => Trace::BroadcastAt {
                    has_oldest: version == b"2",
                    capacity: capacity(rest)?,
                },
                _ => return None,
            },
        })
    }

    /// The number of entries, where the trace has ended.
    pub fn ended(&self) -> Option<u64> {
        match self {
            Trace::Broadcast(course) => course.ended(),
            Trace::Watch(course) => course.ended(),
            _ => None,
        }
    }
}

impl<C: Channel> Course<C> {
    fn new(channel: C) -> Course<C> {
        Course {
            channel,
            entries: 0,
            due: Due::Picture,
        }
    }

    fn take(&mut self, line: &[u8]) -> Result<(), Stop> {
        self.due = match std::mem::replace(&mut self.due, Due::Nothing) {
            Due::Call => self.call(line).ok_or(Stop::Bad)?,
            Due::Reply(call) => {
                let reply = line.strip_prefix(b"R ").ok_or(Stop::Bad)?;
                self.channel.judge(call, reply)?;
                self.entries += 1;
                Due::Call
            }
            Due::Picture => self.picture(line).ok_or(Stop::Bad)?,
            Due::Nothing => return Err(Stop::Bad),
        };
        Ok(())
    }

    /// A line where a call is due, or the end line.
    fn call(&self, line: &[u8]) -> Option<Due<C::Call>> {
        if let Some(rest) = line.strip_prefix(b"C ") {
            let (word, rest) = split_field(rest)?;
            let call = self.channel.call(word, rest)?;
            return (self.entries < ENTRIES_LIMIT).then_some(Due::Reply(call));
        }
        let told = number(line.strip_prefix(b"END ")?)?;
        (told == self.entries).then_some(Due::Nothing)
    }

    /// A line of the picture below the second.
    fn picture(&mut self, line: &[u8]) -> Option<Due<C::Call>> {
        if let Some(rest) = line.strip_prefix(b"KEEP ")
            && self.channel.has_untold()
        {
            self.channel.keep(value(rest)?);
            return Some(Due::Picture);
        }
        if self.channel.has_untold() {
            return None;
        }
        if line == b"BEGIN" {
            self.channel.begin()?;
            return Some(Due::Call);
        }
        match split_field(line)? {
            (b"TX", tx) => self.channel.handles().tell_sender(number(tx)?)?,
            (b"RX", rest) => {
                let (rx, place) = split_field(rest)?;
                let place = self.channel.place(place)?;
                self.channel.handles().tell_receiver(number(rx)?, place)?;
            }
            _ => return None,
        }
        Some(Due::Picture)
    }

    fn ended(&self) -> Option<u64> {
        matches!(self.due, Due::Nothing).then_some(self.entries)
    }
}
