//! `topichub check` as a plain Rust program: the same lines, rules and verdicts, with nothing proved. It is what
//! `bench/check` compares with, and stands on the standard library alone.
//!
//! A channel is made from the picture of the trace, and makes each call; its reply has to be the one that is told. A
//! broadcast channel keeps its newest values in a `VecDeque`, each with the number of receivers that have still to read
//! it. Handles stand in ordered maps. Of the text no more is kept than what one read gave.

#[path = "plain_check/broadcast.rs"]
mod broadcast;
#[path = "plain/fields.rs"]
mod fields;
#[path = "plain_check/handles.rs"]
mod handles;
#[path = "plain/lines.rs"]
mod lines;
#[path = "plain_check/trace.rs"]
mod trace;
#[path = "plain_check/watch.rs"]
mod watch;

use crate::lines::{Line, Lines};
use crate::trace::{Stop, Trace};
use std::fmt;
use std::io::{self, Read, Write};
use std::process::ExitCode;

const READS_LIMIT: u64 = 1 << 32;

/// With a number of entries, or that of a line, counted from 1.
enum Verdict {
    Legal(u64),
    Illegal(u64),
    Bad(u64),
}

impl fmt::Display for Verdict {
    fn fmt(&self, out: &mut fmt::Formatter<'_>) -> fmt::Result {
        match self {
            Verdict::Legal(entries) => write!(out, "legal {entries}"),
            Verdict::Illegal(line) => write!(out, "illegal {line}"),
            Verdict::Bad(line) => write!(out, "bad {line}"),
        }
    }
}

enum Fault {
    Read,
    Write,
    TooLong,
}

/// The lines that came, and what they tell.
struct Check {
    trace: Trace,
    lines: u64,
}

impl Check {
    /// The verdict, where the line does not lead on.
    fn take(&mut self, line: Line<'_>) -> Result<(), Verdict> {
        self.lines += 1;
        match line.map_or(Err(Stop::Bad), |line| self.trace.take(line)) {
            Ok(()) => Ok(()),
            Err(Stop::Bad) => Err(Verdict::Bad(self.lines)),
            Err(Stop::Illegal) => Err(Verdict::Illegal(self.lines)),
        }
    }

    fn take_all(&mut self, input: &mut Lines<impl Read>) -> Result<(), Verdict> {
        while let Some(line) = input.next() {
            self.take(line)?;
        }
        Ok(())
    }

    /// The verdict at the end of the input.
    fn finish(&mut self, input: &Lines<impl Read>) -> Verdict {
        match input.last().map_or(Ok(()), |line| self.take(line)) {
            Ok(()) => match self.trace.ended() {
                Some(entries) => Verdict::Legal(entries),
                None => Verdict::Bad(self.lines + 1),
            },
            Err(verdict) => verdict,
        }
    }
}

fn check(input: &mut Lines<impl Read>) -> Result<Verdict, Fault> {
    let mut check = Check {
        trace: Trace::Empty,
        lines: 0,
    };
    for _ in 0..READS_LIMIT {
        if !input.read().map_err(|_| Fault::Read)? {
            return Ok(check.finish(input));
        }
        if let Err(verdict) = check.take_all(input) {
            return Ok(verdict);
        }
    }
    Err(Fault::TooLong)
}

fn told() -> Result<ExitCode, Fault> {
    let verdict = check(&mut Lines::new(io::stdin().lock()))?;
    writeln!(io::stdout(), "{verdict}").map_err(|_| Fault::Write)?;
    Ok(match verdict {
        Verdict::Legal(_) => ExitCode::SUCCESS,
        Verdict::Illegal(_) | Verdict::Bad(_) => ExitCode::from(3),
    })
}

fn main() -> ExitCode {
    told().unwrap_or_else(|fault| {
        eprintln!(
            "topichub: {}",
            match fault {
                Fault::Read => "read fault",
                Fault::Write => "write fault",
                Fault::TooLong => "too long",
            }
        );
        ExitCode::FAILURE
    })
}
