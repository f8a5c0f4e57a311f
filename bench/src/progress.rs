//! What is told on a terminal while something takes long.

use std::io::{self, IsTerminal, Write};
use std::time::{Duration, Instant};

/// How long nothing is told.
const SILENCE: Duration = Duration::from_secs(2);

/// How far something is; nothing of it stays on the terminal.
pub struct Progress {
    what: &'static str,
    began: Instant,
    shown: Option<usize>,
}

impl Progress {
    /// Of what begins now.
    pub fn of(what: &'static str) -> Self {
        Self {
            what,
            began: Instant::now(),
            shown: None,
        }
    }

    /// Tells that so many of all are done, where that is news.
    pub fn tell(&mut self, done: usize, all: usize) {
        let share = 100 * done / all;
        if self.shown != Some(share) && self.began.elapsed() >= SILENCE {
            self.shown = Some(share);
            show(&format!("{}: {share} %", self.what));
        }
    }
}

impl Drop for Progress {
    fn drop(&mut self) {
        if self.shown.is_some() {
            show("");
        }
    }
}

/// Puts a text in place of the last line of the terminal, if standard error is one.
fn show(text: &str) {
    let mut out = io::stderr();
    if out.is_terminal() {
        // A terminal that has gone away is no failure.
        let _ = write!(out, "\r\x1b[K{text}").and_then(|()| out.flush());
    }
}
