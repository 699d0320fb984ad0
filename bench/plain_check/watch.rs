//! A watch channel, and the lines of its calls and replies.

use crate::fields::{number, split_field, value};
use crate::handles::Handles;
use crate::trace::{Channel, Stop};
use std::borrow::Cow;
use std::mem;

pub enum Call {
    Sender(u64, BySender),
    Receiver(u64, ByReceiver),
}

pub enum BySender {
    Write(Change, Box<[u8]>),
    Subscribe,
    CloneTx,
    DropTx,
    IsClosed,
    Readers,
}

#[derive(Clone, Copy)]
pub enum Change {
    Send,
    Replace,
    Set,
    Differ,
    Quiet,
}

#[derive(Clone, Copy)]
pub enum ByReceiver {
    Borrow,
    Take,
    HasChanged,
    TryChanged,
    Changed,
    MarkChanged,
    MarkUnchanged,
    CloneRx,
    DropRx,
}

#[derive(PartialEq)]
enum Reply<'a> {
    Done,
    NoReceivers,
    Exhausted,
    Was(Cow<'a, [u8]>),
    Modified(bool),
    Shown { is_new: bool, value: &'a [u8] },
    Changed(bool),
    Marked,
    NotYet,
    Closed,
    Gone(bool),
    NewRx(u64),
    NewTx(u64),
    Count(u64),
    TooMany,
    NoHandle,
}

pub struct Watch {
    newest: Newest,
    handles: Handles,
    is_told: bool,
}

/// The newest value, with its version.
struct Newest {
    value: Box<[u8]>,
    version: u64,
}

impl Newest {
    fn write(&mut self, change: Change, value: Box<[u8]>, has_receivers: bool) -> Reply<'static> {
        match change {
            Change::Send if !has_receivers => Reply::NoReceivers,
            Change::Differ if value == self.value => Reply::Modified(false),
            Change::Quiet => {
                self.value = value;
                Reply::Modified(false)
            }
            _ if self.version == u64::MAX => Reply::Exhausted,
            _ => {
                self.version += 1;
                let was = mem::replace(&mut self.value, value);
                match change {
                    Change::Send => Reply::Done,
                    Change::Replace => Reply::Was(Cow::Owned(was.into())),
                    _ => Reply::Modified(true),
                }
            }
        }
    }

    fn look(&self, mark: &mut u64, is_closed: bool, asked: ByReceiver) -> Reply<'_> {
        let is_unseen = *mark < self.version;
        let shown = Reply::Shown {
            is_new: is_unseen,
            value: &self.value,
        };
        match asked {
            ByReceiver::Borrow => shown,
            ByReceiver::Take => {
                *mark = self.version;
                shown
            }
            ByReceiver::HasChanged if is_closed => Reply::Closed,
            ByReceiver::HasChanged => Reply::Changed(is_unseen),
            ByReceiver::MarkChanged => {
                *mark = 0;
                Reply::Done
            }
            ByReceiver::MarkUnchanged => {
                *mark = self.version;
                Reply::Done
            }
            _ if is_unseen => {
                *mark = self.version;
                Reply::Marked
            }
            _ if is_closed => Reply::Closed,
            _ => Reply::NotYet,
        }
    }
}

impl Watch {
    /// Before the value of the picture is told.
    pub fn at(line: &[u8]) -> Option<Watch> {
        let (version, rest) = split_field(line.strip_prefix(b"AT ")?)?;
        Some(Watch {
            newest: Newest {
                value: Box::default(),
                version: number(version).filter(|&version| version > 0)?,
            },
            handles: Handles::new(number(rest.strip_prefix(b"NEXT ")?)?)?,
            is_told: false,
        })
    }

    fn is_ready(&self, call: &Call) -> bool {
        match call {
            Call::Receiver(rx, ByReceiver::Changed) => {
                let mark = self.handles.receivers.get(rx);
                self.handles.is_closed() || mark.is_none_or(|&mark| mark < self.newest.version)
            }
            _ => true,
        }
    }

    fn answer(&mut self, call: Call) -> Reply<'_> {
        match call {
            Call::Sender(tx, asked) if self.handles.senders.contains(&tx) => {
                self.of_sender(tx, asked)
            }
            Call::Receiver(rx, asked) => self.of_receiver(rx, asked),
            Call::Sender(..) => Reply::NoHandle,
        }
    }

    fn of_sender(&mut self, tx: u64, asked: BySender) -> Reply<'_> {
        let readers = self.handles.receivers.len();
        match asked {
            BySender::Write(change, value) => self.newest.write(change, value, readers > 0),
            BySender::Subscribe => self.subscribe(self.newest.version),
            BySender::CloneTx => self
                .handles
                .new_sender()
                .map_or(Reply::TooMany, Reply::NewTx),
            BySender::DropTx => {
                self.handles.senders.remove(&tx);
                Reply::Done
            }
            BySender::IsClosed => Reply::Gone(readers == 0),
            BySender::Readers => Reply::Count(readers as u64),
        }
    }

    fn of_receiver(&mut self, rx: u64, asked: ByReceiver) -> Reply<'_> {
        let is_closed = self.handles.is_closed();
        let Some(mark) = self.handles.receivers.get_mut(&rx) else {
            return Reply::NoHandle;
        };
        match asked {
            ByReceiver::CloneRx => {
                let mark = *mark;
                self.subscribe(mark)
            }
            ByReceiver::DropRx => {
                self.handles.receivers.remove(&rx);
                Reply::Done
            }
            _ => self.newest.look(mark, is_closed, asked),
        }
    }

    fn subscribe(&mut self, mark: u64) -> Reply<'static> {
        self.handles
            .new_receiver(mark)
            .map_or(Reply::TooMany, Reply::NewRx)
    }
}

impl Channel for Watch {
    type Call = Call;

    fn handles(&mut self) -> &mut Handles {
        &mut self.handles
    }

    fn has_untold(&self) -> bool {
        !self.is_told
    }

    fn keep(&mut self, value: &[u8]) {
        self.is_told = true;
        self.newest.value = value.into();
    }

    fn place(&self, field: &[u8]) -> Option<u64> {
        match field {
            b"seen" => Some(self.newest.version),
            b"unseen" => Some(0),
            _ => None,
        }
    }

    fn begin(&mut self) -> Option<()> {
        Some(())
    }

    fn call(&self, word: &[u8], rest: &[u8]) -> Option<Call> {
        match word {
            b"send" => write(rest, Change::Send),
            b"replace" => write(rest, Change::Replace),
            b"set" => write(rest, Change::Set),
            b"differ" => write(rest, Change::Differ),
            b"quiet" => write(rest, Change::Quiet),
            b"borrow" => by_receiver(rest, ByReceiver::Borrow),
            b"take" => by_receiver(rest, ByReceiver::Take),
            b"has-changed" => by_receiver(rest, ByReceiver::HasChanged),
            b"try-changed" => by_receiver(rest, ByReceiver::TryChanged),
            b"changed" => by_receiver(rest, ByReceiver::Changed),
            b"mark-changed" => by_receiver(rest, ByReceiver::MarkChanged),
            b"mark-unchanged" => by_receiver(rest, ByReceiver::MarkUnchanged),
            b"clone-rx" => by_receiver(rest, ByReceiver::CloneRx),
            b"drop-rx" => by_receiver(rest, ByReceiver::DropRx),
            b"subscribe" => by_sender(rest, BySender::Subscribe),
            b"clone-tx" => by_sender(rest, BySender::CloneTx),
            b"drop-tx" => by_sender(rest, BySender::DropTx),
            b"is-closed" => by_sender(rest, BySender::IsClosed),
            b"readers" => by_sender(rest, BySender::Readers),
            _ => None,
        }
    }

    fn judge(&mut self, call: Call, line: &[u8]) -> Result<(), Stop> {
        let is_write = matches!(call, Call::Sender(_, BySender::Write(..)));
        let said = reply(line, is_write).ok_or(Stop::Bad)?;
        match self.is_ready(&call) && self.answer(call) == said {
            true => Ok(()),
            false => Err(Stop::Illegal),
        }
    }
}

fn write(rest: &[u8], change: Change) -> Option<Call> {
    let (tx, given) = split_field(rest)?;
    let asked = BySender::Write(change, value(given)?.into());
    Some(Call::Sender(number(tx)?, asked))
}

fn by_sender(rest: &[u8], asked: BySender) -> Option<Call> {
    Some(Call::Sender(number(rest)?, asked))
}

fn by_receiver(rest: &[u8], asked: ByReceiver) -> Option<Call> {
    Some(Call::Receiver(number(rest)?, asked))
}

/// The reply to a call, which had a value or none.
fn reply(line: &[u8], is_write: bool) -> Option<Reply<'_>> {
    let Some((word, rest)) = split_field(line) else {
        return match line {
            b"done" => Some(Reply::Done),
            b"marked" => Some(Reply::Marked),
            b"not-yet" => Some(Reply::NotYet),
            b"closed" => Some(Reply::Closed),
            b"no-receivers" if is_write => Some(Reply::NoReceivers),
            b"exhausted" if is_write => Some(Reply::Exhausted),
            b"too-many" => Some(Reply::TooMany),
            b"no-handle" => Some(Reply::NoHandle),
            _ => None,
        };
    };
    Some(match word {
        b"shown" => shown(rest)?,
        b"was" => Reply::Was(value(rest)?.into()),
        b"modified" => Reply::Modified(yes_or_no(rest)?),
        b"changed" => Reply::Changed(yes_or_no(rest)?),
        b"gone" => Reply::Gone(yes_or_no(rest)?),
        b"new-rx" => Reply::NewRx(number(rest)?),
        b"new-tx" => Reply::NewTx(number(rest)?),
        b"count" => Reply::Count(number(rest)?),
        _ => return None,
    })
}

/// What follows `shown`.
fn shown(rest: &[u8]) -> Option<Reply<'_>> {
    let (is_new, given) = match split_field(rest)? {
        (b"new", given) => (true, given),
        (b"same", given) => (false, given),
        _ => return None,
    };
    let value = value(given)?;
    Some(Reply::Shown { is_new, value })
}

fn yes_or_no(rest: &[u8]) -> Option<bool> {
    match rest {
        b"yes" => Some(true),
        b"no" => Some(false),
        _ => None,
    }
}
