//! How far something long has come, on standard error: a bar in a terminal, elsewhere a line every few seconds; and of something
//! that comes when it comes, in a terminal, what came last.

use std::cell::Cell;
use std::io::IsTerminal;
use std::time::{Duration, Instant};

use indicatif::{ProgressBar, ProgressStyle};

use crate::fault::say;

/// What takes this many bytes or fewer is done before a person could read of it.
const SHORT: u64 = 8 << 20;

pub struct Progress {
    what: &'static str,
    total: u64,
    bar: Option<ProgressBar>,
    told: Cell<Instant>,
}

impl Progress {
    /// Of something of so many bytes. Nothing is shown of what is short.
    pub fn new(what: &'static str, total: u64) -> Progress {
        let bar = (total > SHORT && std::io::stderr().is_terminal()).then(|| {
            let bar = ProgressBar::new(total);
            if let Ok(style) =
                ProgressStyle::with_template("{msg} {wide_bar} {percent} %, {eta} left")
            {
                bar.set_style(style);
            }
            bar.set_message(what);
            bar
        });
        Progress {
            what,
            total,
            bar,
            told: Cell::new(Instant::now()),
        }
    }

    /// Nothing is shown.
    pub fn silent() -> Progress {
        Progress::new("", 0)
    }

    /// So many bytes are done.
    pub fn at(&self, done: u64) {
        match &self.bar {
            Some(bar) => bar.set_position(done),
            None if self.total > SHORT && self.told.get().elapsed() > Duration::from_secs(3) => {
                say!("{}: {} %", self.what, done * 100 / self.total);
                self.told.set(Instant::now());
            }
            None => {}
        }
    }
}

impl Drop for Progress {
    fn drop(&mut self) {
        if let Some(bar) = &self.bar {
            bar.finish_and_clear();
        }
    }
}

/// What came last of something that may never end, in a terminal's last line.
pub struct Coming {
    line: Option<ProgressBar>,
}

impl Coming {
    /// Of what is said; nothing is shown where `shown` is not, or standard error is no terminal.
    pub fn new(what: String, shown: bool) -> Coming {
        let line = (shown && std::io::stderr().is_terminal()).then(|| {
            let line = ProgressBar::new_spinner();
            line.set_message(what);
            line
        });
        Coming { line }
    }

    /// Whether it is shown to anybody.
    pub fn is_shown(&self) -> bool {
        self.line.is_some()
    }

    pub fn last(&self, what: impl FnOnce() -> String) {
        if let Some(line) = &self.line {
            line.set_message(what());
            line.tick();
        }
    }
}

impl Drop for Coming {
    fn drop(&mut self) {
        if let Some(line) = &self.line {
            line.finish_and_clear();
        }
    }
}
