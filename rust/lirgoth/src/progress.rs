//! A line on standard error that says how far a long drill is.

use crate::words::grouped;
use std::io::{self, IsTerminal, Write};
use std::time::{Duration, Instant};

/// How long a reader waits for the next line.
const PAUSE: Duration = Duration::from_millis(500);

pub struct Progress {
    shown: Instant,
    /// On a terminal each line takes the place of the one before.
    in_place: bool,
}

impl Progress {
    pub fn new() -> Progress {
        Progress {
            shown: Instant::now(),
            in_place: io::stderr().is_terminal(),
        }
    }

    /// Says that `done` of `all` runs are done, now and then and at the end.
    pub fn say(&mut self, done: usize, all: usize) {
        if done < all && self.shown.elapsed() < PAUSE {
            return;
        }
        self.shown = Instant::now();
        let line = format!("{} of {} runs", grouped(done), grouped(all));
        let (start, end) = match (self.in_place, done == all) {
            (true, false) => ("\r", ""),
            (true, true) => ("\r", "\n"),
            (false, _) => ("", "\n"),
        };
        // A reader that is gone misses nothing.
        let _ = write!(io::stderr(), "{start}{line}{end}");
    }
}
