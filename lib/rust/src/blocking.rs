//! How threads wait.
use std::future::Future;
use std::hint;
use std::pin::Pin;
use std::sync::atomic::{AtomicBool, Ordering};
use std::sync::Arc;
use std::task::{Context, Poll, Wake, Waker};
use std::thread::{self, Thread};
use std::time::{Duration, Instant};

/// A short busy wait, in steps that are each twice as long as the one before. It never yields the
/// thread, since next to a busy process a yield can take a whole time slice.
pub(crate) struct Patience {
    pub(crate) spins: u32,
}

impl Patience {
    /// Looks until there is an answer or its patience has run out.
    pub(crate) fn until<A>(&self, mut look: impl FnMut() -> Option<A>) -> Option<A> {
        for turn in 0..self.spins {
            if let Some(answer) = look() {
                return Some(answer);
            }
            (0..1 << turn).for_each(|_| hint::spin_loop());
        }
        look()
    }
}

/// A thread that blocks on a future.
struct Sleeper {
    thread: Thread,
    is_woken: AtomicBool,
}

impl Wake for Sleeper {
    fn wake(self: Arc<Self>) {
        self.wake_by_ref();
    }

    fn wake_by_ref(self: &Arc<Self>) {
        if !self.is_woken.swap(true, Ordering::Release) {
            self.thread.unpark();
        }
    }
}

/// How a thread sleeps and is woken.
struct Sleep {
    sleeper: Arc<Sleeper>,
    waker: Waker,
}

impl Sleep {
    fn new() -> Self {
        let sleeper = Arc::new(Sleeper {
            thread: thread::current(),
            is_woken: AtomicBool::new(false),
        });
        Self {
            waker: Waker::from(Arc::clone(&sleeper)),
            sleeper,
        }
    }

    #[inline]
    fn until_ready<F: Future + Unpin>(
        &self,
        future: &mut F,
        deadline: Option<Instant>,
    ) -> Option<F::Output> {
        let mut context = Context::from_waker(&self.waker);
        loop {
            if let Poll::Ready(answer) = Pin::new(&mut *future).poll(&mut context) {
                return Some(answer);
            }
            while !self.sleeper.is_woken.swap(false, Ordering::Acquire) {
                match deadline.map(|it| it.saturating_duration_since(Instant::now())) {
                    None => thread::park(),
                    Some(Duration::ZERO) => return None,
                    Some(left) => thread::park_timeout(left),
                }
            }
        }
    }
}

thread_local! {
    /// Made once per thread, so that a future that is ready costs a poll and nothing else.
    static SLEEP: Sleep = Sleep::new();
}

/// Blocks the thread until the future is ready, and returns its output.
#[inline]
pub(crate) fn block_on<F: Future + Unpin>(future: F) -> F::Output {
    block_until(future, None).expect("without a deadline there is an answer")
}

/// Blocks the thread until the future is ready or the deadline has passed.
#[inline]
pub(crate) fn block_until<F: Future + Unpin>(
    mut future: F,
    deadline: Option<Instant>,
) -> Option<F::Output> {
    // A thread that is ending may no longer have one.
    SLEEP
        .try_with(|sleep| sleep.until_ready(&mut future, deadline))
        .unwrap_or_else(|_| Sleep::new().until_ready(&mut future, deadline))
}

/// When a wait of this length ends: never, if that is beyond the clock's range.
pub(crate) fn deadline_after(timeout: Duration) -> Option<Instant> {
    Instant::now().checked_add(timeout)
}
