//! How far a long piece of work has come, on standard error where that is a
//! terminal.

use std::io::{self, Write};
use std::time::{Duration, Instant};

/// Work shorter than this shows nothing; then the line is renewed this often.
const STEP: Duration = Duration::from_millis(200);

const STANDARD_ERROR: i32 = 2;

extern "C" {
    fn isatty(descriptor: i32) -> i32;
}

/// The work done so far. Its line goes when the work ends.
pub struct Progress {
    what: &'static str,
    total: usize,
    done: usize,
    next: Instant,
    terminal: bool,
    shown: bool,
}

impl Progress {
    pub fn new(what: &'static str, total: usize) -> Progress {
        Progress {
            what,
            total,
            done: 0,
            next: Instant::now() + STEP,
            // SAFETY: isatty takes any number and only reads the process's state
            terminal: unsafe { isatty(STANDARD_ERROR) } == 1,
            shown: false,
        }
    }

    /// One more piece is done.
    pub fn step(&mut self) {
        self.reach(self.done + 1);
    }

    /// So many pieces are done.
    pub fn reach(&mut self, done: usize) {
        self.done = done;
        if self.terminal && Instant::now() >= self.next {
            self.show();
        }
    }

    fn show(&mut self) {
        self.next = Instant::now() + STEP;
        self.shown = true;
        // a terminal that takes nothing more does not stop the work
        let _ = write!(
            io::stderr(),
            "\r{} {} of {}",
            self.what,
            self.done,
            self.total
        );
    }
}

impl Drop for Progress {
    fn drop(&mut self) {
        if self.shown {
            let _ = write!(io::stderr(), "\r\x1b[K");
        }
    }
}
