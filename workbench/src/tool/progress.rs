//! A line on a terminal that tells how far the work is, and is gone at its end.

use std::io::Write;

/// To the beginning of the line, and all of it away.
const ERASE: &str = "\r\x1b[K";

/// A progress line.
pub struct Progress<W: Write> {
    out: W,
    /// Whether it is shown at all.
    wanted: bool,
    all: usize,
    /// The hundredths that were told last, if the line is there.
    told: Option<usize>,
}

impl<W: Write> Progress<W> {
    pub fn new(out: W, wanted: bool, all: usize) -> Progress<W> {
        let wanted = wanted && all > 1;
        Progress {
            out,
            wanted,
            all,
            told: None,
        }
    }

    /// Tells how many are done, where that is a hundredth more than was told, or the
    /// line is not there.
    pub fn tell(&mut self, done: usize) {
        let hundredths = done * 100 / self.all.max(1);
        if self.wanted && self.told != Some(hundredths) {
            self.told = Some(hundredths);
            self.put(&format!("{ERASE}{done} of {} checked", self.all));
        }
    }

    /// Takes the line away, so that something else can be written.
    pub fn erase(&mut self) {
        if self.told.take().is_some() {
            self.put(ERASE);
        }
    }

    /// A line that cannot be written is done without.
    fn put(&mut self, text: &str) {
        let written = self.out.write_all(text.as_bytes());
        self.wanted &= written.and_then(|()| self.out.flush()).is_ok();
    }
}

#[cfg(test)]
mod tests {
    use super::*;

    #[test]
    fn the_line_is_told_by_hundredths_and_erased() {
        let mut progress = Progress::new(vec![], true, 1_000);
        for done in 0..=15 {
            progress.tell(done);
        }
        progress.erase();
        progress.erase();
        progress.tell(15);
        let told = String::from_utf8(progress.out).unwrap();
        let line = |done: &str| format!("{ERASE}{done} of 1000 checked");
        assert_eq!(
            told,
            [line("0"), line("10"), ERASE.to_string(), line("15")].concat()
        );
    }

    #[test]
    fn there_is_none_where_it_is_not_wanted_or_for_one_file() {
        for (wanted, all) in [(false, 10), (true, 1), (true, 0)] {
            let mut progress = Progress::new(vec![], wanted, all);
            progress.tell(0);
            progress.tell(1);
            progress.erase();
            assert!(progress.out.is_empty());
        }
    }
}
