//! Carries out a schedule of topichub on Tokio's channels: a line for each of its lines, with the reply that Tokio gives
//! in the words of topichub, or `-` where Tokio is not asked or tells nothing.
//!
//! What is the hub's and not the channels' stands here in a few lines: who holds which handle, and who goes through the
//! hub's own sender. A watch sender has no `clone` in the Tokio that this is built on, so the senders of a watch topic
//! share one by `Arc`, and the last one drops it. A call that would wait is polled once, and let go.
use std::collections::HashMap;
use std::future::Future;
use std::io::{self, BufRead, Write};
use std::sync::Arc;
use std::task::{Context, Poll, Wake};
use tokio::sync::broadcast::error::{RecvError, TryRecvError};
use tokio::sync::{broadcast, watch};

type WatchSender = Arc<watch::Sender<String>>;

struct Nobody;

impl Wake for Nobody {
    fn wake(self: Arc<Self>) {}
}

/// What a future answers when it is polled once, or `None` where it would wait.
fn polled<F: Future>(future: F) -> Option<F::Output> {
    let waker = Arc::new(Nobody).into();
    let mut future = Box::pin(future);
    match future.as_mut().poll(&mut Context::from_waker(&waker)) {
        Poll::Ready(answer) => Some(answer),
        Poll::Pending => None,
    }
}

enum Topic {
    Broadcast(Option<broadcast::Sender<String>>),
    Watch(Option<WatchSender>),
}

/// What an actor holds on a topic.
#[derive(Default)]
struct Held {
    sender: Option<broadcast::Sender<String>>,
    receiver: Option<broadcast::Receiver<String>>,
    watch_sender: Option<WatchSender>,
    watch_receiver: Option<watch::Receiver<String>>,
}

#[derive(Default)]
struct Hub {
    topics: HashMap<String, Topic>,
    held: HashMap<String, HashMap<String, Held>>,
}

fn shown(value: watch::Ref<'_, String>) -> String {
    format!("{} {}", if value.has_changed() { "NEW" } else { "SAME" }, *value)
}

fn yes(is_so: bool) -> String {
    (if is_so { "YES" } else { "NO" }).to_string()
}

fn received(answer: Result<String, TryRecvError>) -> String {
    match answer {
        Ok(value) => format!("VAL {value}"),
        Err(TryRecvError::Lagged(missed)) => format!("LAG {missed}"),
        Err(TryRecvError::Empty) => "EMPTY".to_string(),
        Err(TryRecvError::Closed) => "CLOSED".to_string(),
    }
}

impl Hub {
    fn open(&mut self, topic: &str, rest: &str) {
        if self.topics.contains_key(topic) {
            return;
        }
        let made = match rest.split_once(' ') {
            Some(("B", capacity)) => Topic::Broadcast(Some(broadcast::channel(capacity.parse().unwrap()).0)),
            Some(("W", value)) => Topic::Watch(Some(Arc::new(watch::channel(value.to_string()).0))),
            _ => panic!("a topic of no kind: {rest}"),
        };
        self.topics.insert(topic.to_string(), made);
    }

    /// The reply to a line, or nothing.
    fn answer(&mut self, line: &str) -> Option<String> {
        let mut fields = line.splitn(4, ' ');
        let actor = fields.next()?;
        let word = fields.next()?;
        if word == "QUIT" {
            self.held.remove(actor);
            return None;
        }
        let topic = fields.next()?;
        let rest = fields.next().unwrap_or("");
        if word == "OPEN" {
            self.open(topic, rest);
            return None;
        }
        let held = self.held.entry(actor.to_string()).or_default().entry(topic.to_string()).or_default();
        match self.topics.get_mut(topic)? {
            Topic::Broadcast(hub) => on_broadcast(hub, held, word, rest),
            Topic::Watch(hub) => on_watch(hub, held, word, rest),
        }
    }
}

fn on_broadcast(
    hub: &mut Option<broadcast::Sender<String>>,
    held: &mut Held,
    word: &str,
    value: &str,
) -> Option<String> {
    match word {
        "BIND" => held.sender = held.sender.take().or_else(|| hub.clone()),
        "UNBIND" => held.sender = None,
        "END" => *hub = None,
        "UNSUB" => held.receiver = None,
        "SUB" => {
            if held.receiver.is_none() {
                held.receiver = held.sender.as_ref().or(hub.as_ref()).map(|sender| sender.subscribe());
            }
        }
        "RESUB" => {
            if let Some(old) = &held.receiver {
                held.receiver = Some(old.resubscribe());
            }
        }
        "PUB" => {
            return Some(match held.sender.as_ref()?.send(value.to_string()) {
                Ok(receivers) => format!("OK {receivers}"),
                Err(_) => "ERR 17 no-receivers".to_string(),
            });
        }
        "TRY" => return Some(received(held.receiver.as_mut()?.try_recv())),
        "NEXT" => {
            return Some(match polled(held.receiver.as_mut()?.recv()) {
                None => "BLOCKED".to_string(),
                Some(Ok(value)) => received(Ok(value)),
                Some(Err(RecvError::Lagged(missed))) => received(Err(TryRecvError::Lagged(missed))),
                Some(Err(RecvError::Closed)) => received(Err(TryRecvError::Closed)),
            });
        }
        "LEFT" => return Some(format!("OK {}", held.receiver.as_ref()?.len())),
        "READERS" => return Some(format!("OK {}", held.sender.as_ref().or(hub.as_ref())?.receiver_count())),
        _ => panic!("no command on a broadcast topic: {word}"),
    }
    None
}

fn on_watch(hub: &mut Option<WatchSender>, held: &mut Held, word: &str, rest: &str) -> Option<String> {
    match word {
        "BIND" => held.watch_sender = held.watch_sender.take().or_else(|| hub.clone()),
        "UNBIND" => held.watch_sender = None,
        "END" => *hub = None,
        "UNSUB" => held.watch_receiver = None,
        "SUB" => {
            if held.watch_receiver.is_none() {
                held.watch_receiver = held.watch_sender.as_ref().or(hub.as_ref()).map(|sender| sender.subscribe());
            }
        }
        "PUB" => {
            return Some(match held.watch_sender.as_ref()?.send(rest.to_string()) {
                Ok(()) => "OK".to_string(),
                Err(_) => "ERR 17 no-receivers".to_string(),
            });
        }
        "READERS" => return Some(format!("OK {}", held.watch_sender.as_ref().or(hub.as_ref())?.receiver_count())),
        "SWAP" => return Some(format!("WAS {}", held.watch_sender.as_ref()?.send_replace(rest.to_string()))),
        "EDIT" => return Some(edited(held.watch_sender.as_ref()?, rest)),
        "GET" => return Some(shown(held.watch_receiver.as_ref()?.borrow())),
        "TAKE" => return Some(shown(held.watch_receiver.as_mut()?.borrow_and_update())),
        "HAS" => {
            return Some(match held.watch_receiver.as_ref()?.has_changed() {
                Ok(has) => yes(has),
                Err(_) => "CLOSED".to_string(),
            });
        }
        "CHANGED" | "TRYCHANGED" => {
            return Some(
                match polled(held.watch_receiver.as_mut()?.changed()) {
                    Some(Ok(())) => "CHANGED",
                    Some(Err(_)) => "CLOSED",
                    None if word == "CHANGED" => "BLOCKED",
                    None => "NOTYET",
                }
                .to_string(),
            );
        }
        _ => panic!("no command on a watch topic: {word}"),
    }
    None
}

fn edited(sender: &watch::Sender<String>, rest: &str) -> String {
    let (how, value) = rest.split_once(' ').unwrap();
    match how {
        "SET" => {
            sender.send_modify(|old| *old = value.to_string());
            yes(true)
        }
        "DIFFER" => yes(sender.send_if_modified(|old| {
            let differs = old != value;
            if differs {
                *old = value.to_string();
            }
            differs
        })),
        "QUIET" => yes(sender.send_if_modified(|old| {
            *old = value.to_string();
            false
        })),
        _ => panic!("no edit: {how}"),
    }
}

fn main() -> io::Result<()> {
    let mut hub = Hub::default();
    let mut out = io::BufWriter::new(io::stdout().lock());
    for line in io::stdin().lock().lines() {
        let reply = hub.answer(&line?);
        writeln!(out, "{}", reply.as_deref().unwrap_or("-"))?;
    }
    out.flush()
}
