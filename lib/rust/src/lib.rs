//! Broadcast and watch channels with the names of Tokio's, over a library whose every reply is
//! proved.
//!
//! - A [`broadcast`] channel sends every value to every receiver, and keeps the newest ones. A
//!   receiver that falls behind learns how many values it missed.
//! - A [`watch`] channel keeps only the newest value, and notifies each receiver once when there is
//!   a new one.
//!
//! To switch from `tokio::sync::broadcast` or `tokio::sync::watch`, change the `use` line. The
//! names are those of Tokio 1.47, and each module has a section "Differences from Tokio". The
//! examples in the documentation of Tokio 1.24.2, which Debian 12 packages, are tested on these
//! channels; later additions follow Tokio's documentation. The channels need no runtime: their
//! futures run on any executor, and every wait for a value also exists as a call that blocks the
//! thread.
//!
//! The blocking calls are for threads outside a runtime. Inside a task they block the executor's
//! thread, perhaps the one on which the sender would run. Tokio's calls panic there; these cannot
//! tell that they are inside a task.
//!
//! ```
//! use topichub::broadcast::{self, error::RecvError};
//!
//! let (tx, mut rx) = broadcast::channel(2);
//! for value in ["one", "two", "three"] {
//!     tx.send(value).unwrap();
//! }
//! assert_eq!(rx.blocking_recv(), Err(RecvError::Lagged(1)));
//! assert_eq!(rx.blocking_recv(), Ok("two"));
//! assert_eq!(rx.blocking_recv(), Ok("three"));
//! ```
//!
//! # What is proved
//!
//! The library `libtopichub` keeps the channel's state. Its code is proved: each call returns, and
//! leaves behind, what the rules prescribe. [`library_build`] says whether the linked library was
//! proved. What this crate adds is only tested: the lock around each call, the payloads (the
//! library stores numbers in their place), the wakers, the declarations of the C functions, and the
//! replies that take no call.
//!
//! Those are the counts of senders, [`broadcast::Receiver::is_closed`] and, for a watch channel
//! that is not recorded, `has_changed`, `borrow`, `borrow_and_update` and `is_closed`. They return
//! what the library said last, from atomics that are stored under the lock. If `borrow_and_update`
//! marks a value seen, the library is told so before the next call for which it matters.
//!
//! # Recording
//!
//! A channel can record each call with its reply. The record is a text that anyone can check, with
//! [`check`] or with the program `topichub check`.
//!
//! ```
//! use topichub::{broadcast, check, Verdict};
//!
//! let (tx, mut rx, recording) = broadcast::Builder::new(16).recorded(1_000).build().unwrap();
//! tx.send("hello").unwrap();
//! assert_eq!(rx.try_recv(), Ok("hello"));
//! drop((tx, rx));
//!
//! let trace = recording.trace();
//! assert!(trace.contains("C send 1 0\nR sent 1\nC try-recv 2\nR value 0\n"));
//! assert_eq!(check(trace.as_bytes()), Verdict::Legal(5));
//! ```
#![deny(unsafe_code)]
#![warn(missing_docs, unreachable_pub, rust_2018_idioms)]

// The examples in the README are compiled too.
#[cfg(doctest)]
#[doc = include_str!("../README.md")]
struct Readme;

mod blocking;
pub mod broadcast;
mod library;
mod recording;
mod turns;
mod waiting;
pub mod watch;

use std::fmt;

/// Why a channel was not made.
#[derive(Clone, Copy, Debug, PartialEq, Eq)]
#[non_exhaustive]
pub enum BuildError {
    /// The capacity must be 1 to 65,536.
    Capacity,
    /// The limit of a history must be 3 to 1,000,000.
    Limit,
    /// An allocation failed.
    Memory,
}

impl fmt::Display for BuildError {
    fn fmt(&self, to: &mut fmt::Formatter<'_>) -> fmt::Result {
        to.write_str(match self {
            Self::Capacity => "the capacity must be 1 to 65,536",
            Self::Limit => "the limit of a history must be 3 to 1,000,000",
            Self::Memory => "an allocation failed",
        })
    }
}

impl std::error::Error for BuildError {}

/// Why a handle was not made.
#[derive(Clone, Copy, Debug, PartialEq, Eq)]
#[non_exhaustive]
pub enum HandleError {
    /// The channel already has 65,535 live handles of this kind.
    TooMany,
    /// The channel is recorded, and the limit of its history is too low for this many handles.
    Limit,
    /// An allocation failed.
    Memory,
}

impl fmt::Display for HandleError {
    fn fmt(&self, to: &mut fmt::Formatter<'_>) -> fmt::Result {
        to.write_str(match self {
            Self::TooMany => "the channel already has 65,535 handles of this kind",
            Self::Limit => {
                "the limit of the history has no room for one entry and the drop of each live handle"
            }
            Self::Memory => "an allocation failed",
        })
    }
}

impl std::error::Error for HandleError {}

/// The verdict on a trace.
#[derive(Clone, Copy, Debug, PartialEq, Eq)]
pub enum Verdict {
    /// A trace of this many entries, in which every reply is the one that the channel gives.
    Legal(u64),
    /// This line, counted from 1, has a reply that the channel would not have given.
    Illegal(u64),
    /// This line, counted from 1, is missing or malformed.
    Bad(u64),
}

/// Checks whether a text is the trace of a channel, as the program `topichub check` does.
///
/// The time it takes grows with the text, and the memory with what the traced channel keeps.
///
/// # Panics
///
/// If an allocation fails.
#[track_caller]
pub fn check(trace: &[u8]) -> Verdict {
    library::check(trace)
}

/// The version of the linked library, as 1,000,000 * major + 1,000 * minor + patch.
pub fn library_version() -> u32 {
    library::version()
}

/// How the linked library was built.
///
/// This is the builder's claim: a library cannot know whether it was proved.
#[derive(Clone, Copy, Debug, PartialEq, Eq)]
#[non_exhaustive]
pub enum Build {
    /// From an archive that was supplied by hand: nothing is known about its proof.
    Given,
    /// From an archive that the toolchain proved (`make`).
    Proved,
    /// From the same sources, with run-time checks but no proof (`make fast`).
    Checked,
    /// From the same sources with neither, for measurements (`make unchecked`).
    Unchecked,
}

impl fmt::Display for Build {
    fn fmt(&self, to: &mut fmt::Formatter<'_>) -> fmt::Result {
        to.write_str(match self {
            Self::Given => "of an archive that was given by hand",
            Self::Proved => "proved",
            Self::Checked => "with run-time checks, and not proved",
            Self::Unchecked => "neither proved nor with run-time checks",
        })
    }
}

/// How the linked library was built: the channels are proved if it is [`Build::Proved`].
///
/// ```
/// println!("libtopichub is {}", topichub::library_build());
/// ```
pub fn library_build() -> Build {
    library::build()
}
