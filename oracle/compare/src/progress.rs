//! A line now and then, so that a long comparison is seen to go on.

use std::io::{self, Write};
use std::time::{Duration, Instant};

const EVERY: Duration = Duration::from_secs(5);

/// How far a command has come, noted about every five seconds. A command that
/// takes less time notes nothing.
pub struct Progress<W> {
    notes: W,
    command: &'static str,
    count: u64,
    start: Instant,
    noted: Duration,
}

impl<W: Write> Progress<W> {
    pub fn new(notes: W) -> Self {
        Self {
            notes,
            command: "",
            count: 0,
            start: Instant::now(),
            noted: Duration::ZERO,
        }
    }

    /// A command begins that has so many cases.
    pub fn begin(&mut self, command: &'static str, count: u64) {
        self.command = command;
        self.count = count;
        self.start = Instant::now();
        self.noted = Duration::ZERO;
    }

    /// So many cases are done.
    pub fn done(&mut self, done: u64) -> io::Result<()> {
        self.done_after(done, self.start.elapsed())
    }

    fn done_after(&mut self, done: u64, passed: Duration) -> io::Result<()> {
        if passed - self.noted < EVERY {
            return Ok(());
        }
        self.noted = passed;
        let (command, count) = (self.command, self.count);
        let seconds = passed.as_secs();
        writeln!(self.notes, "{command}: {done} of {count}, {seconds} s")?;
        self.notes.flush()
    }
}

#[cfg(test)]
mod tests {
    use super::*;

    /// What is noted if so many cases are done after so many milliseconds.
    fn noted(steps: &[(u64, u64)]) -> String {
        let mut progress = Progress::new(Vec::new());
        progress.begin("run", 900);
        for (done, passed) in steps {
            let passed = Duration::from_millis(*passed);
            progress.done_after(*done, passed).unwrap();
        }
        String::from_utf8(progress.notes).unwrap()
    }

    #[test]
    fn a_short_command_notes_nothing() {
        assert_eq!(noted(&[(0, 0), (500, 2_500), (900, 4_999)]), "");
    }

    #[test]
    fn a_long_one_notes_how_far_it_has_come_every_five_seconds() {
        let steps = [(1, 5_000), (2, 5_001), (3, 9_999), (4, 10_200), (5, 15_199)];
        assert_eq!(noted(&steps), "run: 1 of 900, 5 s\nrun: 4 of 900, 10 s\n");
    }

    #[test]
    fn each_command_has_its_own_time() {
        let mut progress = Progress::new(Vec::new());
        progress.begin("run", 9);
        progress.done_after(1, Duration::from_secs(60)).unwrap();
        progress.begin("identify", 7);
        progress.done(1).unwrap();
        progress.done_after(2, Duration::from_secs(5)).unwrap();
        let text = String::from_utf8(progress.notes).unwrap();
        assert_eq!(text, "run: 1 of 9, 60 s\nidentify: 2 of 7, 5 s\n");
    }
}
