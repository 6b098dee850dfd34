//! When to tick: quickly while something is missing or not yet known to be everywhere, slowly when all is quiet.

use std::time::{Duration, Instant};

const QUICK: Duration = Duration::from_millis(250);
const SLOW: Duration = Duration::from_secs(2);

/// So many quick ticks follow the last one that was needed: its status may be lost. More of them where none comes after.
const MORE: u32 = 4;
const LAST: u32 = 8;

#[derive(Debug)]
pub struct Pace {
    due: Instant,
    quick: u32,
}

impl Pace {
    pub fn new(now: Instant) -> Pace {
        Pace { due: now, quick: MORE }
    }

    pub fn due(&self) -> Instant {
        self.due
    }

    pub fn is_quiet(&self) -> bool {
        self.quick == 0
    }

    /// It ticked.
    pub fn ticked(&mut self, now: Instant, is_busy: bool) {
        self.quick = if is_busy { self.quick.max(MORE) } else { self.quick.saturating_sub(1) };
        self.due = now + if self.is_quiet() { SLOW } else { QUICK };
    }

    /// Something happened that the others are to hear of.
    pub fn hurry(&mut self, now: Instant) {
        self.quick = self.quick.max(MORE);
        self.due = self.due.min(now + QUICK);
    }

    /// The last ticks begin: the others are to hear all that was delivered here.
    pub fn end(&mut self, now: Instant) {
        self.hurry(now);
        self.quick = LAST;
    }
}

#[cfg(test)]
mod tests {
    use super::*;

    #[test]
    fn ticks_become_slow_when_all_is_quiet() {
        let now = Instant::now();
        let mut pace = Pace::new(now);
        pace.ticked(now, true);
        for _ in 0..MORE {
            assert_eq!(pace.due(), now + QUICK);
            pace.ticked(now, false);
        }
        assert_eq!((pace.due(), pace.is_quiet()), (now + SLOW, true));
        pace.hurry(now);
        assert_eq!((pace.due(), pace.is_quiet()), (now + QUICK, false));
        pace.end(now);
        (0..LAST).for_each(|_| {
            assert!(!pace.is_quiet());
            pace.ticked(now, false);
        });
        assert!(pace.is_quiet());
    }
}
