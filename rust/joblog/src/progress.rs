//! How far a run has come, on standard error: on a terminal one line that changes, elsewhere a line now and then.
use std::{
    io::{stderr, IsTerminal, Write},
    time::{Duration, Instant},
};

pub struct Progress {
    all: usize,
    /// there before the run began
    before: usize,
    done: usize,
    began: Instant,
    shown: Instant,
    terminal: bool,
    /// a line stands on the terminal that is not ended
    open: bool,
}

/// A time in words.
pub fn time(seconds: f64) -> String {
    match seconds.ceil() as u64 {
        s @ 0..100 => format!("{} s", s),
        s @ 100..6000 => format!("{} min", s.div_ceil(60)),
        s => format!("{} h {} min", s / 3600, s % 3600 / 60),
    }
}

/// `per` jobs a second, in words that stay short.
fn rate(per: f64) -> String {
    match per {
        p if p >= 10.0 => format!("{:.0} a second", p),
        p if p >= 0.5 => format!("{:.1} a second", p),
        p => format!("{:.1} a minute", p * 60.0),
    }
}

/// What is told when `done` of `all` are done, `ran` of them in so many seconds.
pub fn line(done: usize, all: usize, ran: usize, seconds: f64) -> String {
    let per = ran as f64 / seconds.max(1e-9);
    let told = format!("{} of {} jobs, {}", done, all, rate(per));
    match all - done {
        0 => told,
        left => format!("{}, {} left", told, time(left as f64 / per)),
    }
}

impl Progress {
    pub fn new(all: usize, before: usize) -> Progress {
        let now = Instant::now();
        Progress { all, before, done: before, began: now, shown: now, terminal: stderr().is_terminal(), open: false }
    }

    /// One job more is done.
    pub fn tick(&mut self) {
        self.done += 1;
        let (last, since) = (self.done == self.all, self.shown.elapsed());
        let due = match self.terminal {
            true => since > Duration::from_millis(100),
            false => self.done.is_multiple_of(100) || since > Duration::from_secs(30),
        };
        if !due && !last {
            return;
        }
        self.shown = Instant::now();
        let told = line(self.done, self.all, self.done - self.before, self.began.elapsed().as_secs_f64());
        let (start, end) = if self.terminal { ("\r\x1b[K", "") } else { ("", "\n") };
        write!(stderr(), "{}{}{}", start, told, end).ok();
        self.open = self.terminal;
    }

    /// A line of its own.
    pub fn tell(&mut self, what: &str) {
        self.end();
        writeln!(stderr(), "joblog: {}", what).ok();
    }

    pub fn end(&mut self) {
        if std::mem::take(&mut self.open) {
            writeln!(stderr()).ok();
        }
    }
}
