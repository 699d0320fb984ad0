//! Tasks on one channel, in every order of their polls and the calls of others: no wake is lost, so
//! every task finishes.
mod common;

use common::{poll, Calls};
use std::future::Future;
use std::pin::Pin;
use std::rc::Rc;
use std::sync::Arc;
use std::task::{Context, Poll, Waker};
use topichub::broadcast::error::RecvError;
use topichub::{broadcast, watch};

/// Chooses the steps of a run, in one order after another.
#[derive(Default)]
struct Choices {
    /// What was chosen, and out of how many.
    taken: Vec<(usize, usize)>,
    at: usize,
}

impl Choices {
    fn below(&mut self, count: usize) -> usize {
        if self.at == self.taken.len() {
            self.taken.push((0, count));
        }
        let (choice, of) = self.taken[self.at];
        assert_eq!(count, of, "the same choices lead to the same state");
        self.at += 1;
        choice
    }

    /// The next order, if there is one.
    fn advance(&mut self) -> bool {
        self.at = 0;
        while let Some((choice, count)) = self.taken.pop() {
            if choice + 1 < count {
                self.taken.push((choice + 1, count));
                return true;
            }
        }
        false
    }
}

type Steps = Vec<Box<dyn FnOnce()>>;

/// A task that is polled at first, and then only after it was woken.
struct Task {
    future: Pin<Box<dyn Future<Output = ()>>>,
    calls: Arc<Calls>,
    waker: Waker,
    /// How often it had been woken when it was last polled.
    seen: Option<usize>,
    is_done: bool,
}

impl Task {
    fn new(future: impl Future<Output = ()> + 'static) -> Self {
        let (calls, waker) = Calls::new();
        Self {
            future: Box::pin(future),
            calls,
            waker,
            seen: None,
            is_done: false,
        }
    }

    fn can_go_on(&self) -> bool {
        !self.is_done && self.seen != Some(self.calls.count())
    }

    fn go_on(&mut self) {
        self.seen = Some(self.calls.count());
        self.is_done = poll(&mut self.future, &self.waker).is_ready();
    }
}

/// Runs tasks interleaved with others, each of which makes its calls in order. Once nothing can go
/// on, all tasks must have finished.
fn run(choices: &mut Choices, mut tasks: Vec<Task>, mut others: Vec<Steps>) {
    others.iter_mut().for_each(|steps| steps.reverse());
    loop {
        let awake: Vec<_> = (0..tasks.len())
            .filter(|&task| tasks[task].can_go_on())
            .collect();
        others.retain(|steps| !steps.is_empty());
        if awake.is_empty() && others.is_empty() {
            assert!(tasks.iter().all(|task| task.is_done), "a wake was lost");
            return;
        }
        let choice = choices.below(awake.len() + others.len());
        match awake.get(choice) {
            Some(&task) => tasks[task].go_on(),
            None => {
                let step = others[choice - awake.len()].pop();
                step.expect("a list without a step is not chosen")();
            }
        }
    }
}

/// Makes every run that the choices allow, and returns how many there were.
fn in_every_order(mut made: impl FnMut() -> (Vec<Task>, Vec<Steps>)) -> u64 {
    let mut choices = Choices::default();
    let mut runs = 0;
    loop {
        let (tasks, others) = made();
        run(&mut choices, tasks, others);
        runs += 1;
        if !choices.advance() {
            return runs;
        }
    }
}

/// Polls a future once and drops it.
struct AtOnce<F>(Option<F>);

impl<F: Future + Unpin> Future for AtOnce<F> {
    type Output = Option<F::Output>;

    fn poll(mut self: Pin<&mut Self>, context: &mut Context<'_>) -> Poll<Self::Output> {
        let mut once = self.0.take().expect("it is polled once");
        Poll::Ready(match Pin::new(&mut once).poll(context) {
            Poll::Ready(answer) => Some(answer),
            Poll::Pending => None,
        })
    }
}

fn at_once<F: Future + Unpin>(future: F) -> AtOnce<F> {
    AtOnce(Some(future))
}

/// Receives, in order, until this many values have come or were missed. An impatient receiver first
/// starts a wait and drops it, each time.
async fn receive(rx: &mut broadcast::Receiver<u64>, sent: u64, is_impatient: bool) {
    let mut next = 0;
    while next < sent {
        let told = if is_impatient {
            at_once(rx.recv()).await
        } else {
            None
        };
        let told = match told {
            Some(told) => told,
            None => rx.recv().await,
        };
        match told {
            Ok(value) => {
                assert_eq!(value, next);
                next += 1;
            }
            Err(RecvError::Lagged(missed)) => next += missed,
            Err(RecvError::Closed) => panic!("there is more to tell"),
        }
    }
}

async fn receive_to_the_end(mut rx: broadcast::Receiver<u64>, sent: u64, is_impatient: bool) {
    receive(&mut rx, sent, is_impatient).await;
    assert_eq!(rx.recv().await, Err(RecvError::Closed));
}

/// The calls of a sender: this many sends, and its drop.
fn sends(tx: broadcast::Sender<u64>, count: u64) -> Steps {
    let tx = Rc::new(tx);
    let mut steps: Steps = Vec::new();
    for value in 0..count {
        let tx = Rc::clone(&tx);
        steps.push(Box::new(move || {
            tx.send(value).unwrap();
        }));
    }
    steps.push(Box::new(move || drop(tx)));
    steps
}

#[test]
fn receivers_are_woken_by_each_send() {
    for sent in 1..4 {
        in_every_order(|| {
            let (tx, mut rx) = broadcast::channel(2);
            let (live, mut second) = (tx.clone(), tx.subscribe());
            let tasks = vec![
                Task::new(async move { receive(&mut rx, sent, false).await }),
                Task::new(async move {
                    receive(&mut second, sent, true).await;
                    drop(live);
                }),
            ];
            (tasks, vec![sends(tx, sent)])
        });
    }
}

#[test]
fn receivers_are_woken_when_the_last_sender_is_dropped() {
    let runs = in_every_order(|| {
        let (tx, rx) = broadcast::channel(2);
        let tasks = vec![
            Task::new(receive_to_the_end(tx.subscribe(), 2, false)),
            Task::new(receive_to_the_end(rx, 2, true)),
        ];
        let other = tx.clone();
        (tasks, vec![sends(tx, 2), sends(other, 0)])
    });
    assert!(runs > 1_000, "{runs}");
}

/// Waits for publications until the newest value is this one. An impatient reader first starts a
/// wait and drops it, each time.
async fn follow(rx: &mut watch::Receiver<u64>, last: u64, is_impatient: bool) {
    while *rx.borrow() < last {
        let told = if is_impatient {
            at_once(rx.changed()).await
        } else {
            None
        };
        match told {
            Some(told) => told.unwrap(),
            None => rx.changed().await.unwrap(),
        }
    }
}

async fn follow_to_the_end(mut rx: watch::Receiver<u64>, last: u64, is_impatient: bool) {
    follow(&mut rx, last, is_impatient).await;
    while rx.changed().await.is_ok() {}
    assert_eq!(*rx.borrow(), last);
}

/// The calls of a sender: this many publications, and its drop.
fn publications(tx: watch::Sender<u64>, count: u64) -> Steps {
    let tx = Rc::new(tx);
    let mut steps: Steps = Vec::new();
    for value in 1..=count {
        let tx = Rc::clone(&tx);
        steps.push(Box::new(move || {
            tx.send_replace(value);
        }));
    }
    steps.push(Box::new(move || drop(tx)));
    steps
}

#[test]
fn readers_are_woken_by_each_publication() {
    for last in 1..4 {
        in_every_order(|| {
            let (tx, mut rx) = watch::channel(0);
            let (live, mut second) = (tx.clone(), tx.subscribe());
            let tasks = vec![
                Task::new(async move { follow(&mut rx, last, false).await }),
                Task::new(async move {
                    follow(&mut second, last, true).await;
                    drop(live);
                }),
            ];
            (tasks, vec![publications(tx, last)])
        });
    }
}

#[test]
fn readers_are_woken_when_the_last_sender_is_dropped() {
    let runs = in_every_order(|| {
        let (tx, rx) = watch::channel(0);
        let tasks = vec![
            Task::new(follow_to_the_end(tx.subscribe(), 2, false)),
            Task::new(follow_to_the_end(rx, 2, true)),
        ];
        let other = tx.clone();
        (tasks, vec![publications(tx, 2), publications(other, 0)])
    });
    assert!(runs > 1_000, "{runs}");
}

#[test]
fn senders_are_woken_when_the_last_reader_is_dropped() {
    let runs = in_every_order(|| {
        let (tx, rx) = watch::channel(0);
        let (other, second) = (tx.clone(), rx.clone());
        let tasks = vec![
            Task::new(async move { tx.closed().await }),
            Task::new(async move { other.closed().await }),
        ];
        let cloned: Steps = vec![Box::new(move || drop(rx.clone())), Box::new(|| ())];
        (tasks, vec![cloned, vec![Box::new(move || drop(second))]])
    });
    assert!(runs > 10, "{runs}");
}

#[test]
fn senders_are_woken_when_the_last_receiver_is_dropped() {
    let runs = in_every_order(|| {
        let (tx, rx) = broadcast::channel::<u64>(2);
        let (other, second) = (tx.clone(), tx.subscribe());
        let tasks = vec![
            Task::new(async move { tx.closed().await }),
            Task::new(async move {
                at_once(other.closed()).await;
                other.closed().await;
            }),
        ];
        let again: Steps = vec![Box::new(move || drop(rx.resubscribe())), Box::new(|| ())];
        (tasks, vec![again, vec![Box::new(move || drop(second))]])
    });
    assert!(runs > 10, "{runs}");
}

/// A future that calls a closure; `std::future::poll_fn` needs Rust 1.64.
struct Polls<F>(F);

impl<A, F: FnMut(&mut Context<'_>) -> Poll<A> + Unpin> Future for Polls<F> {
    type Output = A;

    fn poll(mut self: Pin<&mut Self>, context: &mut Context<'_>) -> Poll<A> {
        (self.0)(context)
    }
}

/// Receives to the end by polling without a future, as a stream does.
async fn poll_to_the_end(mut rx: broadcast::Receiver<u64>, sent: u64) {
    let mut next = 0;
    loop {
        match Polls(|context: &mut Context<'_>| rx.poll_recv(context)).await {
            Ok(value) => {
                assert_eq!(value, next);
                next += 1;
            }
            Err(RecvError::Lagged(missed)) => next += missed,
            Err(RecvError::Closed) => return assert_eq!(next, sent),
        }
    }
}

#[test]
fn polls_without_a_future_are_woken_too() {
    let runs = in_every_order(|| {
        let (tx, rx) = broadcast::channel(2);
        let tasks = vec![
            Task::new(poll_to_the_end(tx.subscribe(), 2)),
            Task::new(poll_to_the_end(rx, 2)),
        ];
        (tasks, vec![sends(tx, 2)])
    });
    assert!(runs > 10, "{runs}");
    in_every_order(|| {
        let (tx, mut rx) = watch::channel(0);
        let polling = async move {
            while Polls(|context: &mut Context<'_>| rx.poll_changed(context))
                .await
                .is_ok()
            {}
            assert_eq!(*rx.borrow(), 2);
        };
        (vec![Task::new(polling)], vec![publications(tx, 2)])
    });
}
