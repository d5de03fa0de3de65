//! A progress line on the standard error stream, every two seconds.

use std::io::Write;
use std::time::{Duration, Instant};

pub struct Progress {
    quiet: bool,
    began: Instant,
    said: Instant,
}

impl Progress {
    pub fn new(quiet: bool) -> Progress {
        let now = Instant::now();
        Progress { quiet, began: now, said: now }
    }

    /// So many calls were played, in so many lists or cases.
    pub fn say(&mut self, what: &str, calls: u64, begun: u64) {
        if self.quiet || self.said.elapsed() < Duration::from_secs(2) {
            return;
        }
        self.said = Instant::now();
        eprintln!("{:>5} s  {what}: {:.1} million calls, {begun} begun anew", self.began.elapsed().as_secs(), calls as f64 / 1e6);
        let _ = std::io::stderr().flush();
    }
}
