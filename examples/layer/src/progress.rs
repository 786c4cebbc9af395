//! A bar on a terminal for a layer that takes long.

use std::io::{IsTerminal, Write, stderr};
use std::time::{Duration, Instant};

/// Whoever waits less sees no bar; it is drawn again at most this often.
const PATIENCE: Duration = Duration::from_millis(300);
const PAUSE: Duration = Duration::from_millis(50);

const CELLS: usize = 40;

pub struct Bar {
    wanted: bool,
    next: Instant,
    drawn: usize,
}

impl Bar {
    pub fn new() -> Bar {
        Bar {
            wanted: stderr().is_terminal(),
            next: Instant::now() + PATIENCE,
            drawn: 0,
        }
    }

    pub fn show(&mut self, done: usize, all: usize) {
        if !self.wanted || Instant::now() < self.next {
            return;
        }
        let cells = CELLS * done / all;
        let line = format!("[{:-<CELLS$}] {:3} %", "#".repeat(cells), 100 * done / all);
        self.drawn = line.len();
        // A terminal that is gone is no reason to stop.
        let _ = write!(stderr(), "\r{line}");
        self.next = Instant::now() + PAUSE;
    }

    pub fn clear(&mut self) {
        if self.drawn > 0 {
            let _ = write!(stderr(), "\r{:1$}\r", "", self.drawn);
            self.drawn = 0;
        }
    }
}
