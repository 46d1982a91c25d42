//! A line on standard error that says how far a long recording is.

use std::io::{self, IsTerminal, Write};
use std::time::{Duration, Instant};

const PERIOD: Duration = Duration::from_millis(500);

/// A line that is rewritten while a recording is converted, on a terminal only and first after half a second.
pub struct Progress {
    on_terminal: bool,
    start: Instant,
    last: Instant,
    shown: bool,
}

impl Progress {
    /// Starts now.
    pub fn start() -> Progress {
        let now = Instant::now();
        Progress {
            on_terminal: io::stderr().is_terminal(),
            start: now,
            last: now,
            shown: false,
        }
    }

    /// Says how many samples were taken and which part of the recording they are, where it is time to.
    pub fn tell(&mut self, samples: u64, part: Option<f64>) {
        if !self.on_terminal || self.last.elapsed() < PERIOD {
            return;
        }
        let said = said(samples, part, self.start.elapsed().as_secs_f64());
        // A terminal that is gone needs no progress.
        let _ = write!(io::stderr(), "\r{said}\x1b[K");
        self.last = Instant::now();
        self.shown = true;
    }
}

// Samples, their rate, and what is left where the length is known.
fn said(samples: u64, part: Option<f64>, seconds: f64) -> String {
    let rate = samples as f64 / seconds;
    let left = part.map_or(String::new(), |part| {
        let left = seconds * (1.0 - part) / part;
        format!(", {:.0} %, {left:.0} s left", 100.0 * part)
    });
    format!("{samples} samples, {rate:.0} a second{left}")
}

impl Drop for Progress {
    fn drop(&mut self) {
        if self.shown {
            // A terminal that is gone needs no cleaning.
            let _ = write!(io::stderr(), "\r\x1b[K");
        }
    }
}

#[cfg(test)]
mod tests {
    use super::*;

    #[test]
    fn a_rate_and_what_is_left_are_said() {
        let said_at = |part| said(3000, part, 2.0);
        assert_eq!(said_at(None), "3000 samples, 1500 a second");
        assert_eq!(
            said_at(Some(0.25)),
            "3000 samples, 1500 a second, 25 %, 6 s left"
        );
    }
}
