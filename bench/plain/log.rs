//! What was asked of a topic and what it answered, in order.

// The schedules of the bench have no `TRACE`, so nothing reads a log.
#![allow(dead_code)]

use crate::Value;

/// The most entries of a log.
const ENTRIES_LIMIT: u64 = 1_000_000;

/// What was asked by the handle with this number.
#[derive(Clone)]
pub struct Call {
    pub by: u32,
    pub asked: Asked,
    pub value: Option<Value>,
}

#[derive(Clone, Copy)]
pub enum Asked {
    CloneSender,
    DropSender,
    Send,
    Receivers,
    Subscribe,
    SubscribeOldest,
    Queued,
    Resubscribe,
    DropReceiver,
    TryReceive,
    Receive,
    Left,
    Replace,
    EditSet,
    EditDiffer,
    EditQuiet,
    Borrow,
    BorrowAndUpdate,
    HasChanged,
    TryChanged,
    Changed,
    MarkChanged,
    MarkUnchanged,
}

/// What was told.
#[derive(Clone)]
pub enum Told {
    NewSender(u32),
    NewReceiver(u32),
    Done,
    Count(u64),
    NoReceivers(Value),
    Exhausted(Value),
    Value(Value),
    Lagged(u64),
    Empty,
    Closed,
    Was(Value),
    New(Value),
    Same(Value),
    YesOrNo(bool),
    Changed,
    NotYet,
}

struct Entry {
    call: Call,
    told: Told,
}

/// A handle with the number of its events.
pub struct Handle {
    pub number: u32,
    events: u64,
}

/// The events of a topic.
pub struct Log {
    entries: Vec<Entry>,
    next: u32,
}

impl Log {
    pub fn new() -> Log {
        Log {
            entries: Vec::new(),
            next: 1,
        }
    }

    /// A new handle.
    pub fn handle(&mut self) -> Handle {
        self.next += 1;
        Handle {
            number: self.next - 1,
            events: 0,
        }
    }

    /// The number of the next handle.
    pub fn next(&self) -> u32 {
        self.next
    }

    /// Whether there is no room for an event, with so many handles live after it.
    pub fn is_full(&self, live: u64) -> bool {
        self.entries.len() as u64 + 1 + live > ENTRIES_LIMIT
    }

    /// The last event of a handle.
    pub fn spend(&mut self, handle: Handle, asked: Asked) -> &Told {
        let call = Call {
            by: handle.number,
            asked,
            value: None,
        };
        self.enter(call, Told::Done)
    }

    /// An event, and what was told.
    pub fn event(
        &mut self,
        handle: &mut Handle,
        asked: Asked,
        value: Option<Value>,
        told: Told,
    ) -> &Told {
        handle.events += 1;
        let call = Call {
            by: handle.number,
            asked,
            value,
        };
        self.enter(call, told)
    }

    fn enter(&mut self, call: Call, told: Told) -> &Told {
        self.entries.push(Entry { call, told });
        &self.entries[self.entries.len() - 1].told
    }
}
