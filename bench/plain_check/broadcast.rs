//! A broadcast channel, and the lines of its calls and replies.

use crate::fields::{number, split_field, value};
use crate::handles::Handles;
use crate::trace::{Channel, Stop};
use std::borrow::Cow;
use std::collections::VecDeque;

const CAPACITY_LIMIT: u64 = 65_536;

pub enum Call {
    Sender(u64, BySender),
    Receiver(u64, ByReceiver),
}

pub enum BySender {
    Send(Box<[u8]>),
    Subscribe,
    SubscribeOldest,
    CloneTx,
    DropTx,
    Queued,
    Readers,
}

#[derive(Clone, Copy)]
pub enum ByReceiver {
    TryRecv,
    Recv,
    Resubscribe,
    DropRx,
    Left,
}

#[derive(PartialEq)]
enum Reply<'a> {
    Sent(u64),
    NoReceivers,
    Exhausted,
    Value(Cow<'a, [u8]>),
    Empty,
    Closed,
    Lagged(u64),
    NewRx(u64),
    NewTx(u64),
    Count(u64),
    Done,
    TooMany,
    NoHandle,
}

/// A value that somebody has still to read.
struct Slot {
    value: Box<[u8]>,
    to_come: usize,
}

/// The newest values, as far as somebody has still to read them.
struct Window {
    capacity: u64,
    /// The position of the next value.
    tail: u64,
    slots: VecDeque<Slot>,
}

pub struct Broadcast {
    /// `subscribe-oldest` is a call of version 2 alone.
    has_oldest: bool,
    window: Window,
    handles: Handles,
    /// How many values the picture has still to tell.
    untold: u64,
}

impl Window {
    /// The least position that is kept, or the tail.
    fn low(&self) -> u64 {
        self.tail - self.slots.len() as u64
    }

    /// The oldest position that a receiver can read.
    fn oldest(&self) -> u64 {
        self.tail.saturating_sub(self.capacity)
    }

    fn send(&mut self, value: Box<[u8]>, receivers: usize) -> Reply<'static> {
        if receivers == 0 {
            return Reply::NoReceivers;
        }
        if self.tail == u64::MAX {
            return Reply::Exhausted;
        }
        self.tail += 1;
        if self.slots.len() as u64 == self.capacity {
            self.slots.pop_front();
        }
        self.slots.push_back(Slot {
            value,
            to_come: receivers,
        });
        Reply::Sent(receivers as u64)
    }

    /// What a receiver with this place is told.
    fn receive(&mut self, place: &mut u64, is_closed: bool) -> Reply<'_> {
        if *place == self.tail {
            return if is_closed {
                Reply::Closed
            } else {
                Reply::Empty
            };
        }
        let oldest = self.oldest();
        if *place < oldest {
            let missed = oldest - *place;
            *place = oldest;
            return Reply::Lagged(missed);
        }
        let behind = (self.tail - *place) as usize;
        *place += 1;
        Reply::Value(self.read(self.slots.len() - behind))
    }

    /// The value of this slot, which one receiver more has read. The oldest one goes with its last receiver.
    fn read(&mut self, at: usize) -> Cow<'_, [u8]> {
        self.slots[at].to_come -= 1;
        match self.slots.pop_front_if(|slot| slot.to_come == 0) {
            Some(slot) => Cow::Owned(slot.value.into()),
            None => Cow::Borrowed(&self.slots[at].value),
        }
    }

    /// A new receiver reads all that is kept.
    fn join_oldest(&mut self) {
        for slot in &mut self.slots {
            slot.to_come += 1;
        }
    }

    /// A receiver with this place is no more.
    fn leave(&mut self, place: u64) {
        let unread = (self.tail - place).min(self.slots.len() as u64) as usize;
        let first = self.slots.len() - unread;
        for slot in self.slots.range_mut(first..) {
            slot.to_come -= 1;
        }
        while self.slots.pop_front_if(|slot| slot.to_come == 0).is_some() {}
    }

    /// Counts who has still to read what is kept, by the receivers' places.
    fn count(&mut self, places: impl Iterator<Item = u64>) {
        let low = self.low();
        for place in places {
            // Who has read everything has no slot.
            if let Some(slot) = self.slots.get_mut(place.saturating_sub(low) as usize) {
                slot.to_come += 1;
            }
        }
        let mut readers = 0;
        for slot in &mut self.slots {
            readers += slot.to_come;
            slot.to_come = readers;
        }
    }
}

/// The capacity in force, by the fields behind the version.
pub fn capacity(fields: &[u8]) -> Option<u64> {
    let capacity = number(fields.strip_prefix(b"B ")?)?;
    (capacity <= CAPACITY_LIMIT && capacity.is_power_of_two()).then_some(capacity)
}

impl Broadcast {
    /// Before the first value of the picture is told.
    pub fn at(has_oldest: bool, capacity: u64, line: &[u8]) -> Option<Broadcast> {
        let (low, rest) = split_field(line.strip_prefix(b"AT ")?)?;
        let (tail, rest) = split_field(rest)?;
        let (low, tail) = (number(low)?, number(tail)?);
        let untold = tail.checked_sub(low).filter(|&kept| kept <= capacity)?;
        Some(Broadcast {
            has_oldest,
            window: Window {
                capacity,
                tail,
                slots: VecDeque::new(),
            },
            handles: Handles::new(number(rest.strip_prefix(b"NEXT ")?)?)?,
            untold,
        })
    }

    fn is_ready(&self, call: &Call) -> bool {
        match call {
            Call::Receiver(rx, ByReceiver::Recv) => {
                self.handles.is_closed()
                    || self.handles.receivers.get(rx) != Some(&self.window.tail)
            }
            _ => true,
        }
    }

    fn answer(&mut self, call: Call) -> Reply<'_> {
        match call {
            Call::Sender(tx, asked) if self.handles.senders.contains(&tx) => {
                self.of_sender(tx, asked)
            }
            Call::Receiver(rx, asked) => self.of_receiver(rx, asked),
            Call::Sender(..) => Reply::NoHandle,
        }
    }

    fn of_sender(&mut self, tx: u64, asked: BySender) -> Reply<'_> {
        match asked {
            BySender::Send(value) => self.window.send(value, self.handles.receivers.len()),
            BySender::Subscribe => self.subscribe(self.window.tail),
            BySender::SubscribeOldest => {
                let made = self.subscribe(self.window.low());
                if made != Reply::TooMany {
                    self.window.join_oldest();
                }
                made
            }
            BySender::CloneTx => self
                .handles
                .new_sender()
                .map_or(Reply::TooMany, Reply::NewTx),
            BySender::DropTx => {
                self.handles.senders.remove(&tx);
                Reply::Done
            }
            BySender::Queued => Reply::Count(self.window.slots.len() as u64),
            BySender::Readers => Reply::Count(self.handles.receivers.len() as u64),
        }
    }

    fn of_receiver(&mut self, rx: u64, asked: ByReceiver) -> Reply<'_> {
        let is_closed = self.handles.is_closed();
        let Some(place) = self.handles.receivers.get_mut(&rx) else {
            return Reply::NoHandle;
        };
        match asked {
            ByReceiver::TryRecv | ByReceiver::Recv => self.window.receive(place, is_closed),
            ByReceiver::Resubscribe => self.subscribe(self.window.tail),
            ByReceiver::DropRx => {
                self.window.leave(*place);
                self.handles.receivers.remove(&rx);
                Reply::Done
            }
            ByReceiver::Left => Reply::Count(self.window.tail - *place),
        }
    }

    fn subscribe(&mut self, place: u64) -> Reply<'static> {
        self.handles
            .new_receiver(place)
            .map_or(Reply::TooMany, Reply::NewRx)
    }
}

impl Channel for Broadcast {
    type Call = Call;

    fn handles(&mut self) -> &mut Handles {
        &mut self.handles
    }

    fn has_untold(&self) -> bool {
        self.untold > 0
    }

    fn keep(&mut self, value: &[u8]) {
        self.untold -= 1;
        self.window.slots.push_back(Slot {
            value: value.into(),
            to_come: 0,
        });
    }

    fn place(&self, field: &[u8]) -> Option<u64> {
        number(field).filter(|&place| place <= self.window.tail)
    }

    fn begin(&mut self) -> Option<()> {
        let places = self.handles.receivers.values().copied();
        let low = match places.clone().min() {
            Some(least) => least.max(self.window.oldest()),
            None => self.window.tail,
        };
        self.window.count(places);
        (self.window.low() == low).then_some(())
    }

    fn call(&self, word: &[u8], rest: &[u8]) -> Option<Call> {
        let asked = match word {
            b"send" => {
                let (tx, given) = split_field(rest)?;
                let sent = BySender::Send(value(given)?.into());
                return Some(Call::Sender(number(tx)?, sent));
            }
            b"try-recv" => return by_receiver(rest, ByReceiver::TryRecv),
            b"recv" => return by_receiver(rest, ByReceiver::Recv),
            b"resubscribe" => return by_receiver(rest, ByReceiver::Resubscribe),
            b"drop-rx" => return by_receiver(rest, ByReceiver::DropRx),
            b"left" => return by_receiver(rest, ByReceiver::Left),
            b"subscribe" => BySender::Subscribe,
            b"subscribe-oldest" if self.has_oldest => BySender::SubscribeOldest,
            b"clone-tx" => BySender::CloneTx,
            b"drop-tx" => BySender::DropTx,
            b"queued" => BySender::Queued,
            b"readers" => BySender::Readers,
            _ => return None,
        };
        Some(Call::Sender(number(rest)?, asked))
    }

    fn judge(&mut self, call: Call, line: &[u8]) -> Result<(), Stop> {
        let is_send = matches!(call, Call::Sender(_, BySender::Send(_)));
        let said = reply(line, is_send).ok_or(Stop::Bad)?;
        match self.is_ready(&call) && self.answer(call) == said {
            true => Ok(()),
            false => Err(Stop::Illegal),
        }
    }
}

fn by_receiver(rest: &[u8], asked: ByReceiver) -> Option<Call> {
    Some(Call::Receiver(number(rest)?, asked))
}

/// The reply to a call, which was a send or none.
fn reply(line: &[u8], is_send: bool) -> Option<Reply<'_>> {
    let Some((word, rest)) = split_field(line) else {
        return match line {
            b"empty" => Some(Reply::Empty),
            b"closed" => Some(Reply::Closed),
            b"done" => Some(Reply::Done),
            b"no-receivers" if is_send => Some(Reply::NoReceivers),
            b"exhausted" if is_send => Some(Reply::Exhausted),
            b"too-many" => Some(Reply::TooMany),
            b"no-handle" => Some(Reply::NoHandle),
            _ => None,
        };
    };
    Some(match word {
        b"value" => Reply::Value(value(rest)?.into()),
        b"sent" => Reply::Sent(number(rest)?),
        b"lagged" => Reply::Lagged(number(rest)?),
        b"new-rx" => Reply::NewRx(number(rest)?),
        b"new-tx" => Reply::NewTx(number(rest)?),
        b"count" => Reply::Count(number(rest)?),
        _ => return None,
    })
}
