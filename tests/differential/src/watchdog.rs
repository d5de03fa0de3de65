//! Every call ends: a thread that ends the run where one call takes longer than a minute.

use std::sync::atomic::{AtomicU64, Ordering::Relaxed};
use std::time::Duration;

static CALLS: AtomicU64 = AtomicU64::new(0);
static WHERE: [AtomicU64; 2] = [AtomicU64::new(0), AtomicU64::new(0)];

/// A call begins.
pub fn beat() {
    CALLS.store(CALLS.load(Relaxed) + 1, Relaxed);
}

/// A list or a case of torn memory begins: its number is said where a call does not end.
pub fn begin(torn: bool, number: u64) {
    WHERE[0].store(u64::from(torn), Relaxed);
    WHERE[1].store(number, Relaxed);
}

pub fn watch(seed: u64, limit: Duration) {
    std::thread::spawn(move || {
        let mut last = 0;
        loop {
            std::thread::sleep(limit);
            let now = CALLS.load(Relaxed);
            if now == last {
                let what = if WHERE[0].load(Relaxed) == 1 { "torn case" } else { "list" };
                let number = WHERE[1].load(Relaxed);
                println!("A CALL DOES NOT END: seed {seed}, {what} {number}");
                std::process::exit(1);
            }
            last = now;
        }
    });
}
