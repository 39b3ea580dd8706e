//! What is shown of the searches of a squeeze, on standard error.

use super::files::told;
use pozqaben::Progress;
use std::time::{Duration, Instant};

/// Between two lines of one search.
const PAUSE: Duration = Duration::from_secs(1);

pub struct Shown {
    start: Instant,
    /// When the next line of a search that goes on is due.
    next: Duration,
    /// How the search that goes on stood.
    last: Option<Progress>,
}

impl Shown {
    pub fn new() -> Self {
        Shown { start: Instant::now(), next: PAUSE, last: None }
    }

    fn line(&self, p: Progress, state: &str) {
        let direction = if p.first { "horizontal" } else { "vertical" };
        let seconds = self.start.elapsed().as_secs_f64();
        told(format_args!("{} layers, first {direction}: {state}, {} nets routed, {seconds:.1} s", p.k, p.routed));
    }

    /// A search that was given up is shown when the next one begins, or all end.
    pub fn give_up(&mut self) {
        if let Some(last) = self.last.take() {
            self.line(last, &format!("not found, {} nets in conflict", last.conflicts));
        }
    }

    pub fn show(&mut self, p: Progress) {
        if self.last.is_some_and(|last| (last.k, last.first) != (p.k, p.first)) {
            self.give_up();
        }
        self.last = Some(p).filter(|p| p.conflicts > 0);
        if p.conflicts == 0 {
            self.line(p, "found");
        } else if self.start.elapsed() > self.next {
            self.line(p, &format!("{} nets in conflict", p.conflicts));
            self.next = self.start.elapsed() + PAUSE;
        }
    }
}
