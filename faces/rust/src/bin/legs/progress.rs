//! A line on a terminal that tells how far it is, from the second second on.
use std::io::Write;
use std::time::{Duration, Instant};

const FIRST: Duration = Duration::from_secs(1);
const NEXT: Duration = Duration::from_millis(200);

pub struct Progress<W: Write> {
    to: W,
    of: usize,
    due: Instant,
    shown: bool,
}

impl<W: Write> Progress<W> {
    pub fn new(to: W, of: usize, now: Instant) -> Progress<W> {
        Progress { to, of, due: now + FIRST, shown: false }
    }

    pub fn tell(&mut self, done: usize, now: Instant) {
        if now >= self.due {
            // What can't be shown is no reason to stop.
            let _ = write!(self.to, "\rlegs: {done} of {}", self.of).and_then(|()| self.to.flush());
            (self.due, self.shown) = (now + NEXT, true);
        }
    }

    /// Takes the line away again.
    pub fn end(mut self) {
        if self.shown {
            let _ = write!(self.to, "\r\x1b[K").and_then(|()| self.to.flush());
        }
    }
}

#[cfg(test)]
mod tests {
    use super::*;

    #[test]
    fn from_the_second_second_on_and_gone_at_the_end() {
        let start = Instant::now();
        let at = |millis| start + Duration::from_millis(millis);
        let mut shown = Vec::new();
        let mut progress = Progress::new(&mut shown, 9000, start);
        for (done, millis) in [(10, 0), (1000, 999), (2000, 1000), (3000, 1100), (4000, 1200)] {
            progress.tell(done, at(millis));
        }
        progress.end();
        assert_eq!(String::from_utf8(shown).unwrap(), "\rlegs: 2000 of 9000\rlegs: 4000 of 9000\r\x1b[K");
    }

    #[test]
    fn nothing_for_a_short_run() {
        let start = Instant::now();
        let mut shown = Vec::new();
        let mut progress = Progress::new(&mut shown, 2, start);
        progress.tell(2, start);
        progress.end();
        assert_eq!(shown, []);
    }
}
