//! How far a run is: one line that is written over on a terminal, else a line now and then.

use std::io::{stdout, IsTerminal, Write};
use std::time::{Duration, Instant};

pub struct Progress {
    calls: u64,
    start: Instant,
    shown: Instant,
    on_terminal: bool,
}

impl Progress {
    pub fn new(calls: u64) -> Progress {
        Progress { calls, start: Instant::now(), shown: Instant::now(), on_terminal: stdout().is_terminal() }
    }

    pub fn show(&mut self, calls: u64) {
        let pause = Duration::from_secs(if self.on_terminal { 1 } else { 10 });
        if self.shown.elapsed() < pause {
            return;
        }
        self.shown = Instant::now();
        let share = (100 * calls / self.calls.max(1)).min(100);
        let rate = calls as f64 / self.start.elapsed().as_secs_f64();
        let line = format!("{calls} of {} calls, {share} %, {rate:.0} a second", self.calls);
        if self.on_terminal {
            print!("\r{line}  ");
        } else {
            println!("{line}");
        }
        // A terminal that is gone is no reason to stop.
        stdout().flush().unwrap_or_default();
    }

    pub fn end(&self) {
        if self.on_terminal {
            print!("\r{:60}\r", "");
        }
    }
}
