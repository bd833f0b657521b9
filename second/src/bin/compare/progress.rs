//! Progress, shown only to somebody who watches.

use std::io::{stderr, IsTerminal, Write};

pub struct Progress {
    what: &'static str,
    all: u64,
    shown: bool,
}

impl Progress {
    pub fn new(what: &'static str, all: u64) -> Progress {
        Progress { what, all, shown: stderr().is_terminal() }
    }

    pub fn show(&self, done: u64) {
        if self.shown && (done.is_multiple_of(50) || done == self.all) {
            eprint!("\r{done} of {} {} ", self.all, self.what);
            // Progress that can't be shown is no reason to fail.
            let _ = stderr().flush();
        }
    }
}

impl Drop for Progress {
    fn drop(&mut self) {
        if self.shown {
            eprint!("\r\x1b[K");
        }
    }
}
