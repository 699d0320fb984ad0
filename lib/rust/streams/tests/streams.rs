//! The items of the streams, polled by a task that counts its wakes.
use futures_core::Stream;
use std::pin::Pin;
use std::sync::atomic::{AtomicUsize, Ordering};
use std::sync::Arc;
use std::task::{Context, Poll, Wake, Waker};
use topichub::{broadcast, watch};
use topichub_streams::errors::BroadcastStreamRecvError;
use topichub_streams::{BroadcastStream, WatchStream};

#[derive(Default)]
struct Wakes(AtomicUsize);

impl Wake for Wakes {
    fn wake(self: Arc<Self>) {
        self.0.fetch_add(1, Ordering::SeqCst);
    }
}

/// A task that polls streams.
struct Task {
    wakes: Arc<Wakes>,
    waker: Waker,
}

impl Task {
    fn new() -> Self {
        let wakes = Arc::new(Wakes::default());
        let waker = Waker::from(Arc::clone(&wakes));
        Self { wakes, waker }
    }

    fn next<S: Stream + Unpin>(&self, stream: &mut S) -> Poll<Option<S::Item>> {
        Pin::new(stream).poll_next(&mut Context::from_waker(&self.waker))
    }

    fn wakes(&self) -> usize {
        self.wakes.0.load(Ordering::SeqCst)
    }
}

#[test]
fn a_broadcast_stream_yields_each_value_and_what_it_missed() {
    let (tx, rx) = broadcast::channel(2);
    let (task, mut stream) = (Task::new(), BroadcastStream::new(rx));
    assert_eq!(task.next(&mut stream), Poll::Pending);
    assert_eq!(task.next(&mut stream), Poll::Pending);
    for value in 0..5 {
        tx.send(value).unwrap();
    }
    assert_eq!(task.wakes(), 1);
    let lagged = BroadcastStreamRecvError::Lagged(3);
    assert_eq!(lagged.to_string(), "channel lagged by 3");
    assert_eq!(task.next(&mut stream), Poll::Ready(Some(Err(lagged))));
    assert_eq!(task.next(&mut stream), Poll::Ready(Some(Ok(3))));
    assert_eq!(task.next(&mut stream), Poll::Ready(Some(Ok(4))));
    assert_eq!(task.next(&mut stream), Poll::Pending);
    drop(tx);
    assert_eq!(task.wakes(), 2);
    assert_eq!(task.next(&mut stream), Poll::Ready(None));
    assert_eq!(task.next(&mut stream), Poll::Ready(None));
}

#[test]
fn a_watch_stream_yields_the_newest_value_and_then_newer_ones() {
    let (tx, rx) = watch::channel("first");
    let (task, mut stream) = (Task::new(), WatchStream::new(rx.clone()));
    let mut changes = WatchStream::from_changes(rx);
    assert_eq!(task.next(&mut stream), Poll::Ready(Some("first")));
    assert_eq!(task.next(&mut stream), Poll::Pending);
    assert_eq!(task.next(&mut changes), Poll::Pending);
    tx.send("second").unwrap();
    tx.send("third").unwrap();
    assert_eq!(task.wakes(), 2);
    assert_eq!(task.next(&mut stream), Poll::Ready(Some("third")));
    assert_eq!(task.next(&mut changes), Poll::Ready(Some("third")));
    assert_eq!(task.next(&mut stream), Poll::Pending);
    drop(tx);
    assert_eq!(task.next(&mut stream), Poll::Ready(None));
    assert_eq!(task.next(&mut stream), Poll::Ready(None));
}

#[test]
fn a_dropped_stream_is_not_woken() {
    let (tx, rx) = broadcast::channel(2);
    let (task, mut stream) = (Task::new(), BroadcastStream::from(rx));
    assert_eq!(task.next(&mut stream), Poll::Pending);
    drop(stream);
    assert!(tx.send(1).is_err());
    let (tx, rx) = watch::channel(1);
    let mut stream = WatchStream::from(rx);
    assert_eq!(task.next(&mut stream), Poll::Ready(Some(1)));
    assert_eq!(task.next(&mut stream), Poll::Pending);
    drop(stream);
    tx.send_replace(2);
    drop(tx);
    assert_eq!(task.wakes(), 0);
}

#[test]
fn streams_can_be_sent_where_receivers_can() {
    fn goes<T: Send + Sync + Unpin>() {}
    goes::<BroadcastStream<String>>();
    goes::<WatchStream<String>>();
}
