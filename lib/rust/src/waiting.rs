//! The tasks that wait for news of a channel.
use std::cell::Cell;
use std::task::{Poll, Waker};

/// The tasks that wait for the same news. The channel's lock guards them, so that none is missed.
/// Nothing is allocated until a task waits: on many channels none ever does.
#[derive(Default)]
pub(crate) struct Waiters(Option<Box<Seats>>);

#[derive(Default)]
struct Seats {
    /// How often all of them were called. A seat from an earlier round is no longer valid.
    round: u64,
    wakers: Vec<Option<Waker>>,
    /// The seats that were given back in this round.
    free: Vec<usize>,
}

/// A task's place among those that wait, if it waits. [`Waiters::leave`] gives it back.
#[derive(Default)]
pub(crate) struct Seat {
    place: Option<Place>,
    /// Whether the wait is over.
    is_done: bool,
}

#[derive(Clone, Copy)]
struct Place {
    round: u64,
    index: usize,
}

impl Seat {
    pub(crate) fn is_taken(&self) -> bool {
        self.place.is_some()
    }

    /// Panics if the wait is over, since a future must not take a second answer.
    #[inline]
    pub(crate) fn expect_waiting(&self, future: &str) {
        assert!(!self.is_done, "`{future}` was polled after it was ready");
    }
}

impl Waiters {
    /// Registers a waker for the next news. Drop the waker that it replaces only after releasing
    /// the lock, since that may run the task's own code.
    #[must_use]
    pub(crate) fn sit(&mut self, seat: &mut Seat, waker: &Waker) -> Option<Waker> {
        self.0.get_or_insert_with(Box::default).sit(seat, waker)
    }

    /// Gives the seat back. Drop the waker only after releasing the lock.
    #[must_use]
    #[inline]
    pub(crate) fn leave(&mut self, seat: &mut Seat) -> Option<Waker> {
        let place = seat.place.take()?;
        self.0.as_mut()?.leave(place)
    }

    /// The result of a poll: with an answer the wait is over, without one it continues. Drop the
    /// waker only after releasing the lock.
    #[inline]
    pub(crate) fn poll<A>(
        &mut self,
        seat: &mut Seat,
        waker: &Waker,
        answer: Option<A>,
    ) -> (Poll<A>, Option<Waker>) {
        match answer {
            Some(answer) => {
                seat.is_done = true;
                (Poll::Ready(answer), self.leave(seat))
            }
            None => (Poll::Pending, self.sit(seat, waker)),
        }
    }

    /// Takes out all tasks that wait. Wake them after releasing the lock.
    #[inline]
    pub(crate) fn call(&mut self) -> Called {
        match &mut self.0 {
            Some(seats) if !seats.wakers.is_empty() => seats.call(),
            _ => Called::nobody(),
        }
    }
}

impl Seats {
    fn sit(&mut self, seat: &mut Seat, waker: &Waker) -> Option<Waker> {
        let index = match seat.place {
            Some(place) if place.round == self.round => place.index,
            _ => self.free_seat(),
        };
        seat.place = Some(Place {
            round: self.round,
            index,
        });
        match &mut self.wakers[index] {
            Some(here) if here.will_wake(waker) => None,
            here => here.replace(waker.clone()),
        }
    }

    fn free_seat(&mut self) -> usize {
        self.free.pop().unwrap_or_else(|| {
            self.wakers.push(None);
            self.wakers.len() - 1
        })
    }

    fn leave(&mut self, place: Place) -> Option<Waker> {
        if place.round != self.round {
            return None;
        }
        self.free.push(place.index);
        self.wakers[place.index].take()
    }

    #[inline(never)]
    fn call(&mut self) -> Called {
        self.round += 1;
        self.free.clear();
        let emptied = SPARE.try_with(Cell::take).unwrap_or_default();
        Called(Some(std::mem::replace(&mut self.wakers, emptied)))
    }
}

thread_local! {
    /// An empty list with spare capacity, so that waking does not allocate every time.
    static SPARE: Cell<Vec<Option<Waker>>> = const { Cell::new(Vec::new()) };
}

/// Tasks to be woken.
#[must_use]
pub(crate) struct Called(Option<Vec<Option<Waker>>>);

impl Called {
    pub(crate) const fn nobody() -> Self {
        Self(None)
    }

    #[inline]
    pub(crate) fn wake(self) {
        if let Some(wakers) = self.0 {
            wake_all(wakers);
        }
    }
}

#[inline(never)]
fn wake_all(mut wakers: Vec<Option<Waker>>) {
    wakers.drain(..).flatten().for_each(Waker::wake);
    // A thread that is ending may no longer have a spare list.
    let _ = SPARE.try_with(|spare| spare.set(wakers));
}

#[cfg(test)]
mod tests {
    use super::*;
    use std::sync::atomic::{AtomicUsize, Ordering};
    use std::sync::Arc;
    use std::task::Wake;

    #[derive(Default)]
    struct Counted(AtomicUsize);

    impl Wake for Counted {
        fn wake(self: Arc<Self>) {
            self.0.fetch_add(1, Ordering::Relaxed);
        }
    }

    fn counted() -> (Arc<Counted>, Waker) {
        let counted = Arc::new(Counted::default());
        (Arc::clone(&counted), Waker::from(counted))
    }

    #[test]
    fn each_waiting_task_is_woken_once() {
        let mut waiters = Waiters::default();
        let all: Vec<_> = (0..3).map(|_| counted()).collect();
        for (_, waker) in &all {
            assert!(waiters.sit(&mut Seat::default(), waker).is_none());
        }
        waiters.call().wake();
        waiters.call().wake();
        assert!(all
            .iter()
            .all(|(times, _)| times.0.load(Ordering::Relaxed) == 1));
    }

    #[test]
    fn a_task_that_sits_again_is_woken_by_its_later_waker_only() {
        let mut waiters = Waiters::default();
        let mut seat = Seat::default();
        let ((earlier, first), (later, second)) = (counted(), counted());
        assert!(waiters.sit(&mut seat, &first).is_none());
        assert!(waiters.sit(&mut seat, &first).is_none());
        assert!(waiters.sit(&mut seat, &second).is_some());
        waiters.call().wake();
        assert_eq!(
            (
                earlier.0.load(Ordering::Relaxed),
                later.0.load(Ordering::Relaxed)
            ),
            (0, 1)
        );
    }

    #[test]
    fn a_task_that_left_is_not_woken_and_its_seat_is_reused() {
        let mut waiters = Waiters::default();
        let ((gone, first), (there, second)) = (counted(), counted());
        for _ in 0..100 {
            let mut seat = Seat::default();
            assert!(waiters.sit(&mut seat, &first).is_none());
            assert!(waiters.leave(&mut seat).is_some());
            assert!(!seat.is_taken());
        }
        assert!(waiters.sit(&mut Seat::default(), &second).is_none());
        assert_eq!(waiters.0.as_ref().unwrap().wakers.len(), 1);
        waiters.call().wake();
        assert_eq!(
            (
                gone.0.load(Ordering::Relaxed),
                there.0.load(Ordering::Relaxed)
            ),
            (0, 1)
        );
    }

    #[test]
    fn a_seat_from_an_earlier_round_is_no_longer_valid() {
        let mut waiters = Waiters::default();
        let mut seat = Seat::default();
        let ((_, first), (other, second)) = (counted(), counted());
        assert!(waiters.sit(&mut seat, &first).is_none());
        waiters.call().wake();
        assert!(waiters.sit(&mut Seat::default(), &second).is_none());
        assert!(waiters.leave(&mut seat).is_none());
        waiters.call().wake();
        assert_eq!(other.0.load(Ordering::Relaxed), 1);
    }

    /// What may happen to two seats. Other steps may come between a call and its wake, since the
    /// lock is released in between.
    #[derive(Clone, Copy, Debug)]
    enum Step {
        Sit(usize),
        Leave(usize),
        Call,
        Wake,
    }

    const STEPS: [Step; 6] = [
        Step::Sit(0),
        Step::Sit(1),
        Step::Leave(0),
        Step::Leave(1),
        Step::Call,
        Step::Wake,
    ];

    /// Takes the steps, with a new waker each time: a wake calls each waker that waited at the time
    /// of its call once, and no other.
    fn take(steps: &[Step]) {
        let mut waiters = Waiters::default();
        let mut seats = [Seat::default(), Seat::default()];
        let (mut given, mut called) = (Vec::new(), std::collections::VecDeque::new());
        // Which waker waits in each seat, and how often each should have been called.
        let (mut waits, mut wanted) = ([None; 2], Vec::new());
        for step in steps {
            match *step {
                Step::Sit(who) => {
                    let (times, waker) = counted();
                    assert_eq!(
                        waiters.sit(&mut seats[who], &waker).is_some(),
                        waits[who].is_some()
                    );
                    waits[who] = Some(given.len());
                    given.push(times);
                    wanted.push(0);
                }
                Step::Leave(who) => {
                    let left = waiters.leave(&mut seats[who]);
                    assert_eq!(left.is_some(), waits[who].take().is_some());
                    assert!(!seats[who].is_taken());
                }
                Step::Call => called.push_back((waiters.call(), std::mem::take(&mut waits))),
                Step::Wake => {
                    if let Some((called, woken)) = called.pop_front() {
                        called.wake();
                        woken.into_iter().flatten().for_each(|it| wanted[it] += 1);
                    }
                }
            }
            let times = given.iter().map(|it| it.0.load(Ordering::Relaxed));
            assert!(times.eq(wanted.iter().copied()), "{steps:?}");
        }
    }

    #[test]
    fn in_every_order_a_wake_calls_exactly_those_who_wait() {
        const LENGTH: u32 = 6;
        for order in 0..STEPS.len().pow(LENGTH) {
            let steps: Vec<_> = (0..LENGTH)
                .map(|at| STEPS[order / STEPS.len().pow(at) % STEPS.len()])
                .collect();
            take(&steps);
        }
    }
}
