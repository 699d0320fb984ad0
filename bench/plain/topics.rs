//! Topics with their channels and logs, and what an actor holds on them.

use crate::Value;
use crate::commands::{Any, Change, Look, Making, Receive, Verb};
use crate::log::{Asked, Handle, Log, Told};
use crate::replies::{Outcome, Refusal, Reply};
use std::collections::VecDeque;
use std::mem;

const CAPACITY_LIMIT: u64 = 65_536;

pub struct Topic {
    senders: Senders,
    receivers: u64,
    channel: Channel,
    log: Log,
}

pub enum Channel {
    Broadcast(Broadcast),
    Watch(Watch),
}

impl Channel {
    /// A new one, and the capacity in force.
    pub fn open(making: Making<'_>) -> Result<(u64, Channel), Refusal> {
        match making {
            Making::Broadcast { capacity, .. } if capacity == 0 || capacity > CAPACITY_LIMIT => {
                Err(Refusal::BadCapacity)
            }
            Making::Broadcast { capacity, base } => {
                let broadcast = Broadcast::open(capacity, base);
                Ok((broadcast.capacity, Channel::Broadcast(broadcast)))
            }
            Making::Watch { value } => {
                let value = value.into();
                Ok((1, Channel::Watch(Watch { value, version: 1 })))
            }
        }
    }

    /// How it is listed.
    pub fn kind(&self) -> &'static [u8] {
        match self {
            Channel::Broadcast(_) => b" B",
            Channel::Watch(_) => b" W",
        }
    }
}

/// The live senders: the hub's own, and how many the actors have.
pub struct Senders {
    hub: Option<Handle>,
    bound: u64,
}

impl Senders {
    fn live(&self) -> u64 {
        u64::from(self.hub.is_some()) + self.bound
    }

    /// The actor goes through its own sender, or else through the hub's.
    fn any<'a>(&'a mut self, own: &'a mut Option<Handle>) -> Result<&'a mut Handle, Refusal> {
        own.as_mut().or(self.hub.as_mut()).ok_or(Refusal::Closed)
    }
}

/// How far a topic is, for those who wait: the next position or the newest version, and whether it is closed.
pub type News = (u64, bool);

impl Topic {
    #[allow(dead_code)] // in a schedule nobody waits
    pub fn news(&self) -> News {
        let far = match &self.channel {
            Channel::Broadcast(broadcast) => broadcast.tail,
            Channel::Watch(watch) => watch.version,
        };
        (far, self.senders.live() == 0)
    }

    pub fn open(channel: Channel) -> Topic {
        let mut log = Log::new();
        Topic {
            senders: Senders {
                hub: Some(log.handle()),
                bound: 0,
            },
            receivers: 0,
            channel,
            log,
        }
    }

    /// There is room for an event that makes so many handles.
    fn room(&self, made: u64) -> Result<(), Refusal> {
        match self
            .log
            .is_full(self.senders.live() + self.receivers + made)
        {
            true => Err(Refusal::LogFull),
            false => Ok(()),
        }
    }

    /// Everything that an actor holds is spent.
    pub fn spend(&mut self, seat: Seat) {
        if let Some(sender) = seat.sender {
            self.unbind(sender);
        }
        if let Some(receiver) = seat.receiver {
            self.unsubscribe(receiver);
        }
    }

    fn unbind(&mut self, sender: Handle) -> &Told {
        self.senders.bound -= 1;
        self.log.spend(sender, Asked::DropSender)
    }

    fn unsubscribe(&mut self, receiver: Receiver) -> &Told {
        self.receivers -= 1;
        if let Channel::Broadcast(broadcast) = &mut self.channel {
            broadcast.leave(receiver.place);
        }
        self.log.spend(receiver.handle, Asked::DropReceiver)
    }
}

/// A value that somebody has still to read.
struct Slot {
    value: Value,
    to_come: u64,
}

pub struct Broadcast {
    capacity: u64,
    /// The position of the next value.
    tail: u64,
    /// The newest values that somebody has still to read: at most as many as the capacity.
    window: VecDeque<Slot>,
}

impl Broadcast {
    fn open(capacity: u64, base: u64) -> Broadcast {
        Broadcast {
            capacity: capacity.next_power_of_two(),
            tail: base,
            window: VecDeque::new(),
        }
    }

    fn send(&mut self, value: Value, receivers: u64) -> Told {
        if self.tail == u64::MAX {
            return Told::Exhausted(value);
        }
        self.tail += 1;
        if self.window.len() as u64 == self.capacity {
            self.window.pop_front();
        }
        self.window.push_back(Slot {
            value,
            to_come: receivers,
        });
        Told::Count(receivers)
    }

    /// What a receiver with this place is told.
    fn receive(&mut self, place: &mut u64, is_closed: bool) -> Told {
        if *place == self.tail {
            return if is_closed { Told::Closed } else { Told::Empty };
        }
        let oldest = self.tail.saturating_sub(self.capacity);
        if *place < oldest {
            let missed = oldest - *place;
            *place = oldest;
            return Told::Lagged(missed);
        }
        let behind = (self.tail - *place) as usize;
        *place += 1;
        Told::Value(self.read(self.window.len() - behind))
    }

    /// The value of this slot, which one receiver more has read. The oldest one goes with its last receiver.
    fn read(&mut self, at: usize) -> Value {
        self.window[at].to_come -= 1;
        match self.window.pop_front_if(|slot| slot.to_come == 0) {
            Some(slot) => slot.value,
            None => self.window[at].value.clone(),
        }
    }

    /// The place of a new receiver, which reads all that is kept.
    fn join_oldest(&mut self) -> u64 {
        for slot in &mut self.window {
            slot.to_come += 1;
        }
        self.tail - self.window.len() as u64
    }

    /// A receiver with this place is no more.
    fn leave(&mut self, place: u64) {
        let unread = (self.tail - place).min(self.window.len() as u64) as usize;
        let first = self.window.len() - unread;
        for slot in self.window.range_mut(first..) {
            slot.to_come -= 1;
        }
        while self.window.pop_front_if(|slot| slot.to_come == 0).is_some() {}
    }
}

pub struct Watch {
    value: Value,
    version: u64,
}

impl Watch {
    fn publish(&mut self, value: Value) {
        self.version += 1;
        self.value = value;
    }

    fn write(&mut self, change: Change, value: Value) -> (Asked, Told) {
        match change {
            Change::Swap => {
                self.version += 1;
                (
                    Asked::Replace,
                    Told::Was(mem::replace(&mut self.value, value)),
                )
            }
            Change::Set => {
                self.publish(value);
                (Asked::EditSet, Told::YesOrNo(true))
            }
            Change::Differ => {
                let differs = self.value != value;
                if differs {
                    self.publish(value);
                }
                (Asked::EditDiffer, Told::YesOrNo(differs))
            }
            Change::Quiet => {
                self.value = value;
                (Asked::EditQuiet, Told::YesOrNo(false))
            }
        }
    }

    fn look(&self, mark: &mut u64, is_closed: bool, look: Look) -> (Asked, Told) {
        let is_unseen = *mark < self.version;
        match look {
            Look::Get => (Asked::Borrow, self.show(is_unseen)),
            Look::Take => {
                *mark = self.version;
                (Asked::BorrowAndUpdate, self.show(is_unseen))
            }
            Look::Has if is_closed => (Asked::HasChanged, Told::Closed),
            Look::Has => (Asked::HasChanged, Told::YesOrNo(is_unseen)),
            Look::TryChanged => (Asked::TryChanged, self.changed(mark, is_closed)),
            Look::Changed => (Asked::Changed, self.changed(mark, is_closed)),
            Look::Mark => {
                *mark = 0;
                (Asked::MarkChanged, Told::Done)
            }
            Look::Unmark => {
                *mark = self.version;
                (Asked::MarkUnchanged, Told::Done)
            }
        }
    }

    fn changed(&self, mark: &mut u64, is_closed: bool) -> Told {
        if *mark < self.version {
            *mark = self.version;
            Told::Changed
        } else if is_closed {
            Told::Closed
        } else {
            Told::NotYet
        }
    }

    fn show(&self, is_unseen: bool) -> Told {
        if is_unseen {
            Told::New(self.value.clone())
        } else {
            Told::Same(self.value.clone())
        }
    }
}

pub struct Receiver {
    handle: Handle,
    /// On a broadcast topic the position that it reads next, on a watch topic the version that it has seen.
    place: u64,
}

/// What an actor holds on a topic.
#[derive(Default)]
pub struct Seat {
    sender: Option<Handle>,
    receiver: Option<Receiver>,
}

/// Carries out what is asked of a topic by an actor that holds so much on it.
pub fn on_topic<'a>(topic: &'a mut Topic, seat: &mut Seat, verb: Verb<'_>) -> Outcome<'a> {
    match verb {
        Verb::Any(any) => on_any(topic, seat, any),
        Verb::Receive(receive) => on_receive(topic, seat, receive),
        Verb::SubOldest if !matches!(topic.channel, Channel::Broadcast(_)) => {
            Err(Refusal::WrongKind)
        }
        Verb::SubOldest => subscribe(topic, seat, Asked::SubscribeOldest),
        Verb::Queued => {
            let Channel::Broadcast(broadcast) = &topic.channel else {
                return Err(Refusal::WrongKind);
            };
            let queued = broadcast.window.len() as u64;
            count(topic, seat, Asked::Queued, queued)
        }
        Verb::Look(look) => on_look(topic, seat, look),
        Verb::Write(change, value) => {
            let Channel::Watch(_) = topic.channel else {
                return Err(Refusal::WrongKind);
            };
            let sender = seat.sender.as_mut().ok_or(Refusal::NotHeld)?;
            topic.room(0)?;
            let Channel::Watch(watch) = &mut topic.channel else {
                unreachable!("it is a watch topic")
            };
            let value: Value = value.into();
            let (asked, told) = watch.write(change, value.clone());
            Ok(Reply::Told(topic.log.event(
                sender,
                asked,
                Some(value),
                told,
            )))
        }
    }
}

fn on_receive<'a>(topic: &'a mut Topic, seat: &mut Seat, receive: Receive) -> Outcome<'a> {
    let Channel::Broadcast(broadcast) = &topic.channel else {
        return Err(Refusal::WrongKind);
    };
    let receiver = seat.receiver.as_mut().ok_or(Refusal::NotHeld)?;
    let is_closed = topic.senders.live() == 0;
    if let Receive::Next = receive
        && receiver.place == broadcast.tail
        && !is_closed
    {
        return Ok(Reply::Blocked);
    }
    topic.room(match receive {
        Receive::Resub => 1,
        _ => 0,
    })?;
    let Channel::Broadcast(broadcast) = &mut topic.channel else {
        unreachable!("it is a broadcast topic")
    };
    let place = &mut receiver.place;
    let (asked, told) = match receive {
        Receive::Try => (Asked::TryReceive, broadcast.receive(place, is_closed)),
        Receive::Next => (Asked::Receive, broadcast.receive(place, is_closed)),
        Receive::Left => (Asked::Left, Told::Count(broadcast.tail - *place)),
        Receive::Resub => (Asked::Resubscribe, Told::NewReceiver(topic.log.next())),
    };
    if let Receive::Resub = receive {
        let old = mem::replace(place, broadcast.tail);
        broadcast.leave(old);
        let new = topic.log.handle();
        let mut old = mem::replace(&mut receiver.handle, new);
        topic.log.event(&mut old, asked, None, told);
        return Ok(Reply::Told(topic.log.spend(old, Asked::DropReceiver)));
    }
    let handle = &mut receiver.handle;
    Ok(Reply::Told(topic.log.event(handle, asked, None, told)))
}

fn on_look<'a>(topic: &'a mut Topic, seat: &mut Seat, look: Look) -> Outcome<'a> {
    let Channel::Watch(watch) = &topic.channel else {
        return Err(Refusal::WrongKind);
    };
    let receiver = seat.receiver.as_mut().ok_or(Refusal::NotHeld)?;
    let is_closed = topic.senders.live() == 0;
    if let Look::Changed = look
        && receiver.place == watch.version
        && !is_closed
    {
        return Ok(Reply::Blocked);
    }
    topic.room(0)?;
    let (asked, told) = watch.look(&mut receiver.place, is_closed, look);
    let handle = &mut receiver.handle;
    Ok(Reply::Told(topic.log.event(handle, asked, None, told)))
}

/// A new receiver, made through any sender.
fn subscribe<'a>(topic: &'a mut Topic, seat: &mut Seat, asked: Asked) -> Outcome<'a> {
    if seat.receiver.is_some() {
        return Err(Refusal::Held);
    }
    topic.senders.any(&mut seat.sender)?;
    topic.room(1)?;
    let place = match (&mut topic.channel, asked) {
        (Channel::Broadcast(broadcast), Asked::SubscribeOldest) => broadcast.join_oldest(),
        (Channel::Broadcast(broadcast), _) => broadcast.tail,
        (Channel::Watch(watch), _) => watch.version,
    };
    let handle = topic.log.handle();
    let told = Told::NewReceiver(handle.number);
    seat.receiver = Some(Receiver { handle, place });
    topic.receivers += 1;
    let sender = topic.senders.any(&mut seat.sender)?;
    Ok(Reply::Told(topic.log.event(sender, asked, None, told)))
}

/// How many there are, asked through any sender.
fn count<'a>(topic: &'a mut Topic, seat: &mut Seat, asked: Asked, count: u64) -> Outcome<'a> {
    topic.senders.any(&mut seat.sender)?;
    topic.room(0)?;
    let sender = topic.senders.any(&mut seat.sender)?;
    Ok(Reply::Told(topic.log.event(
        sender,
        asked,
        None,
        Told::Count(count),
    )))
}

fn publish<'a>(topic: &'a mut Topic, seat: &mut Seat, value: &[u8]) -> Outcome<'a> {
    let sender = seat.sender.as_mut().ok_or(Refusal::NotHeld)?;
    topic.room(0)?;
    let value: Value = value.into();
    let sent = value.clone();
    let told = match &mut topic.channel {
        _ if topic.receivers == 0 => Told::NoReceivers(sent),
        Channel::Broadcast(broadcast) => broadcast.send(sent, topic.receivers),
        Channel::Watch(watch) => {
            watch.publish(sent);
            Told::Done
        }
    };
    let log = &mut topic.log;
    Ok(Reply::Told(log.event(
        sender,
        Asked::Send,
        Some(value),
        told,
    )))
}

fn on_any<'a>(topic: &'a mut Topic, seat: &mut Seat, any: Any<'_>) -> Outcome<'a> {
    match any {
        Any::Bind if seat.sender.is_some() => Err(Refusal::Held),
        Any::Bind if topic.senders.hub.is_none() => Err(Refusal::Closed),
        Any::Bind => {
            topic.room(1)?;
            let sender = topic.log.handle();
            let told = Told::NewSender(sender.number);
            seat.sender = Some(sender);
            topic.senders.bound += 1;
            let hub = topic.senders.hub.as_mut().ok_or(Refusal::Closed)?;
            let log = &mut topic.log;
            Ok(Reply::Told(log.event(hub, Asked::CloneSender, None, told)))
        }
        Any::Unbind => {
            let sender = seat.sender.take().ok_or(Refusal::NotHeld)?;
            Ok(Reply::Told(topic.unbind(sender)))
        }
        Any::Sub => subscribe(topic, seat, Asked::Subscribe),
        Any::Unsub => {
            let receiver = seat.receiver.take().ok_or(Refusal::NotHeld)?;
            Ok(Reply::Told(topic.unsubscribe(receiver)))
        }
        Any::Pub { value } => publish(topic, seat, value),
        Any::Readers => {
            let receivers = topic.receivers;
            count(topic, seat, Asked::Receivers, receivers)
        }
        Any::End => {
            let hub = topic.senders.hub.take().ok_or(Refusal::Closed)?;
            Ok(Reply::Told(topic.log.spend(hub, Asked::DropSender)))
        }
    }
}
