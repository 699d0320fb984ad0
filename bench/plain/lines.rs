//! Lines are cut from what is read.

use std::io::{self, BufRead, Read};
use std::mem;
use std::ops::Range;

const CHUNK: usize = 1 << 16;
const LINE_LIMIT: usize = 4096;

/// Input that is read in large pieces, and of which lines are cut.
pub struct Lines<R> {
    source: R,
    buffer: Box<[u8]>,
    /// Where in the buffer that lies which was read and not yet cut.
    held: Range<usize>,
    /// The line that the held bytes go on with was too long already, and its beginning is let go.
    is_long: bool,
}

/// Where the first LF stands, found a machine word at a time.
fn line_feed(bytes: &[u8]) -> Option<usize> {
    let mut rest = bytes;
    let passed = rest.skip_until(b'\n').ok()?;
    (passed > 0 && bytes[passed - 1] == b'\n').then(|| passed - 1)
}

/// A line as it was cut, or `None` where it was too long.
pub type Line<'a> = Option<&'a [u8]>;

impl<R: Read> Lines<R> {
    pub fn new(source: R) -> Lines<R> {
        Lines {
            source,
            buffer: vec![0; CHUNK].into(),
            held: 0..0,
            is_long: false,
        }
    }

    /// The next line of those whose end was read.
    pub fn next(&mut self) -> Option<Line<'_>> {
        let held = &self.buffer[self.held.clone()];
        let line = &held[..line_feed(held)?];
        self.held.start += line.len() + 1;
        let is_long = mem::take(&mut self.is_long) || line.len() > LINE_LIMIT;
        Some((!is_long).then(|| line.strip_suffix(b"\r").unwrap_or(line)))
    }

    /// Reads once more; `false` at the end of the input.
    pub fn read(&mut self) -> io::Result<bool> {
        if self.held.len() > LINE_LIMIT {
            self.is_long = true;
            self.held = 0..0;
        }
        self.buffer.copy_within(self.held.clone(), 0);
        self.held = 0..self.held.len();
        let count = loop {
            match self.source.read(&mut self.buffer[self.held.end..]) {
                Err(fault) if fault.kind() == io::ErrorKind::Interrupted => {}
                read => break read?,
            }
        };
        self.held.end += count;
        Ok(count > 0)
    }

    /// What stands behind the last line end of the whole input.
    pub fn last(&self) -> Option<Line<'_>> {
        if self.is_long || self.held.len() > LINE_LIMIT {
            return Some(None);
        }
        (!self.held.is_empty()).then(|| Some(&self.buffer[self.held.clone()]))
    }
}
