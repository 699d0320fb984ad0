//! How tasks and threads wait: none yields its thread, none is shut out of a channel, and a wait
//! with a timeout loses nothing.
mod common;

use std::path::{Path, PathBuf};
use std::sync::atomic::{AtomicBool, Ordering};
use std::thread;
use std::time::{Duration, Instant};
use topichub::{broadcast, watch};

fn sources(folder: &Path) -> Vec<PathBuf> {
    let entries = std::fs::read_dir(folder).unwrap();
    let paths = entries.map(|entry| entry.unwrap().path());
    paths
        .flat_map(|path| match path.is_dir() {
            true => sources(&path),
            false => vec![path],
        })
        .collect()
}

/// A yield lasts for as long as another process uses the processor, perhaps milliseconds.
#[test]
fn nothing_yields_its_thread_and_no_poll_spins() {
    let folder = Path::new(env!("CARGO_MANIFEST_DIR")).join("src");
    let all = sources(&folder);
    assert!(all.len() > 10);
    for path in all {
        let text = std::fs::read_to_string(&path).unwrap();
        let code = text.lines().filter(|it| !it.trim_start().starts_with("//"));
        let text = code.collect::<Vec<_>>().join("\n");
        assert!(!text.contains("yield_now"), "{}", path.display());
        let spins = text.contains("spin_loop");
        assert_eq!(spins, path.ends_with("blocking.rs"), "{}", path.display());
        let polls = text.split("fn poll").skip(1);
        for poll in polls {
            let body = poll.split("\n    }\n").next().unwrap_or_default();
            assert!(!body.contains(".until("), "{}", path.display());
        }
    }
}

#[test]
fn senders_that_never_pause_do_not_shut_a_receiver_out() {
    const ANSWERS: usize = 2_000;
    for is_blocking in [true, false] {
        let (tx, mut rx) = broadcast::channel(16);
        let is_over = AtomicBool::new(false);
        thread::scope(|scope| {
            for _ in 0..2 {
                scope.spawn(|| {
                    while !is_over.load(Ordering::Relaxed) {
                        tx.send(1).unwrap();
                    }
                });
            }
            for _ in 0..ANSWERS {
                let _ = match is_blocking {
                    true => rx.blocking_recv(),
                    false => common::block_on(rx.recv()),
                };
            }
            is_over.store(true, Ordering::Relaxed);
        });
    }
}

const SHORT: Duration = Duration::from_millis(2);
/// Longer than any test takes.
const LONG: Duration = Duration::from_secs(3_600);

#[test]
fn a_receive_with_a_timeout_ends_in_time_and_loses_nothing() {
    use broadcast::error::RecvTimeoutError;
    let (tx, mut rx) = broadcast::channel(2);
    for timeout in [Duration::ZERO, SHORT] {
        let begin = Instant::now();
        assert_eq!(rx.recv_timeout(timeout), Err(RecvTimeoutError::Timeout));
        assert!(begin.elapsed() >= timeout);
        let deadline = Instant::now() + timeout;
        assert_eq!(rx.recv_deadline(deadline), Err(RecvTimeoutError::Timeout));
        assert!(Instant::now() >= deadline);
    }
    let past = Instant::now();
    for value in ["one", "two", "three"] {
        tx.send(value).unwrap();
    }
    assert_eq!(rx.recv_timeout(SHORT), Err(RecvTimeoutError::Lagged(1)));
    assert_eq!(rx.recv_deadline(past), Ok("two"));
    assert_eq!(rx.recv_timeout(Duration::ZERO), Ok("three"));
    drop(tx);
    assert_eq!(rx.recv_timeout(LONG), Err(RecvTimeoutError::Disconnected));
}

#[test]
fn a_value_ends_a_receive_before_its_timeout() {
    for timeout in [LONG, Duration::MAX] {
        let (tx, mut rx) = broadcast::channel(1);
        let receiving = thread::spawn(move || {
            let first = rx.recv_timeout(timeout);
            (first, rx.recv_deadline(Instant::now() + LONG))
        });
        tx.send(1).unwrap();
        drop(tx);
        let ended = Err(broadcast::error::RecvTimeoutError::Disconnected);
        assert_eq!(receiving.join().unwrap(), (Ok(1), ended));
    }
}

#[test]
fn a_wait_for_a_change_with_a_timeout_ends_in_time_and_loses_nothing() {
    use watch::error::RecvTimeoutError;
    let (tx, mut rx) = watch::channel(1);
    for timeout in [Duration::ZERO, SHORT] {
        let deadline = Instant::now() + timeout;
        assert_eq!(rx.changed_timeout(timeout), Err(RecvTimeoutError::Timeout));
        assert!(Instant::now() >= deadline);
        assert_eq!(
            rx.changed_deadline(deadline),
            Err(RecvTimeoutError::Timeout)
        );
    }
    tx.send(2).unwrap();
    assert_eq!(rx.changed_timeout(Duration::ZERO), Ok(()));
    let waiting =
        thread::spawn(move || (rx.changed_timeout(Duration::MAX), rx.changed_timeout(LONG)));
    tx.send(3).unwrap();
    drop(tx);
    let ended = Err(RecvTimeoutError::Disconnected);
    assert_eq!(waiting.join().unwrap(), (Ok(()), ended));
}

#[test]
fn timeouts_lose_nothing_between_threads() {
    use broadcast::error::RecvTimeoutError;
    const VALUES: u64 = 2_000;
    let (tx, mut rx) = broadcast::channel(VALUES as usize);
    let receiving = thread::spawn(move || {
        let mut told = Vec::new();
        for turn in 0.. {
            match rx.recv_timeout(Duration::from_micros(turn % 20)) {
                Ok(value) => told.push(value),
                Err(RecvTimeoutError::Timeout) => {}
                Err(RecvTimeoutError::Lagged(missed)) => panic!("{missed} were missed"),
                Err(RecvTimeoutError::Disconnected) => break,
            }
        }
        told
    });
    for value in 0..VALUES {
        tx.send(value).unwrap();
        if value % 8 == 0 {
            thread::sleep(Duration::from_micros(value % 32));
        }
    }
    drop(tx);
    assert!(receiving.join().unwrap().into_iter().eq(0..VALUES));
}

#[test]
fn errors_of_waits_are_described() {
    use broadcast::error::RecvTimeoutError as Broadcast;
    use watch::error::RecvTimeoutError as Watch;
    assert_eq!(
        Broadcast::Timeout.to_string(),
        "timed out waiting on channel"
    );
    assert_eq!(Watch::Timeout.to_string(), "timed out waiting on channel");
    assert_eq!(Broadcast::Lagged(2).to_string(), "channel lagged by 2");
    assert_eq!(Broadcast::Disconnected.to_string(), "channel closed");
    assert_eq!(Watch::Disconnected.to_string(), "channel closed");
}
