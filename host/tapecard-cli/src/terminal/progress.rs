//! A bar for transfers that take over a second, on a terminal only.

use std::io::{self, IsTerminal, Write};
use std::time::{Duration, Instant};

const QUIET: Duration = Duration::from_secs(1);
const REDRAW: Duration = Duration::from_millis(100);
const CELLS: usize = 40;

pub struct Progress {
    what: String,
    total: u64,
    done: u64,
    next_draw: Instant,
    on_terminal: bool,
    drawn: bool,
}

impl Progress {
    pub fn new(what: impl Into<String>, total: u64) -> Progress {
        Progress {
            what: what.into(),
            total,
            done: 0,
            next_draw: Instant::now() + QUIET,
            on_terminal: io::stderr().is_terminal(),
            drawn: false,
        }
    }

    pub fn advance(&mut self, by: u64) {
        self.done = self.done.saturating_add(by);
        if self.on_terminal && Instant::now() >= self.next_draw {
            self.next_draw = Instant::now() + REDRAW;
            self.drawn = true;
            let _ = write!(io::stderr(), "\r{}", bar(&self.what, self.done, self.total));
        }
    }
}

/// The bar goes away when the transfer ends, well or not.
impl Drop for Progress {
    fn drop(&mut self) {
        if self.drawn {
            let width = bar(&self.what, self.done, self.total).chars().count();
            let _ = write!(io::stderr(), "\r{:width$}\r", "");
        }
    }
}

fn bar(what: &str, done: u64, total: u64) -> String {
    let share = done.min(total) as f64 / total.max(1) as f64;
    let filled = (share * CELLS as f64) as usize;
    format!(
        "{what} [{}{}] {:3.0} %",
        "#".repeat(filled),
        ".".repeat(CELLS - filled),
        share * 100.0
    )
}

#[cfg(test)]
mod tests {
    use super::*;

    #[test]
    fn the_bar_fills_up() {
        assert!(bar("x", 0, 4).ends_with(".]   0 %"));
        assert!(bar("x", 2, 4).contains(&format!("[{}{}]", "#".repeat(20), ".".repeat(20))));
        assert!(bar("x", 9, 4).ends_with("#] 100 %"));
        assert!(bar("x", 0, 0).ends_with("0 %"));
    }
}
