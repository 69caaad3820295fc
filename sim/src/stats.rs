//! Counts of verdicts and departures, to see what a trace really exercises.

use std::fmt::Write as _;
use std::io::{self, Read};
use std::ops::AddAssign;

use crate::link::MOST_LEVELS;
use crate::notices::NOTICE_NUMBER;
use crate::record::Answer;
use crate::replay::{walk, Pace};
use crate::verdict::HIGHEST;

const VERDICTS: usize = HIGHEST as usize + 1;

/// The answers that carry a verdict.
const MARKS: [&str; 7] = ["LA", "CA", "PA", "TA", "ER", "NA", "CD"];

/// How many bytes of a `CA` the units have.
const UNIT_BYTES: usize = 4;

/// How often each answer carried each verdict, how many packets departed and how many notices
/// were among them; which levels were short, a frame before level 1, and how many bytes their units
/// needed.
#[derive(Clone, Debug, Default, PartialEq, Eq)]
pub struct Stats {
    counts: [[u64; VERDICTS]; MARKS.len()],
    pub departures: u64,
    pub notices: u64,
    pub ticks: u64,
    pub short_levels: [u64; MOST_LEVELS + 1],
    pub short_units: [u64; UNIT_BYTES],
}

impl Stats {
    pub fn of(trace: impl Read) -> io::Result<Stats> {
        let mut stats = Stats::default();
        walk(trace, Pace::Passing, &mut |answer| {
            stats.count(&answer);
            Ok(())
        })?;
        Ok(stats)
    }

    fn count(&mut self, answer: &Answer) {
        let row = match answer {
            Answer::Link { .. } => 0,
            Answer::Connection { short, .. } => {
                if let Some(short) = short {
                    self.short_levels[usize::from(short.level)] += 1;
                    self.short_units[bytes_for(short.units) - 1] += 1;
                }
                1
            }
            Answer::Packet { .. } => 2,
            Answer::Ticks { done, .. } => {
                self.ticks += u64::from(*done);
                3
            }
            Answer::Malformed { .. } => 4,
            Answer::Notice { .. } => 5,
            Answer::Closed { .. } => 6,
            Answer::Departed(departure) => {
                self.departures += 1;
                self.notices += u64::from(departure.connection == NOTICE_NUMBER);
                return;
            }
        };
        if let Some(verdict) = answer.verdict() {
            self.counts[row][usize::from(verdict)] += 1;
        }
    }

    /// How often a verdict was given, over all calls.
    pub fn verdict(&self, number: u8) -> u64 {
        self.counts
            .iter()
            .filter_map(|row| row.get(usize::from(number)))
            .sum()
    }

    /// The head line for `line` and for `table`.
    pub fn head(name: &str) -> String {
        let mut head = format!("{name:<15}");
        for verdict in shown() {
            let _ = write!(head, "{verdict:>9}");
        }
        head
    }

    /// All calls in one line.
    pub fn line(&self, name: &str) -> String {
        let mut line = format!("{name:<15}");
        for verdict in shown() {
            let _ = write!(line, "{:>9}", self.verdict(verdict as u8));
        }
        let (departures, notices) = (self.departures, self.notices);
        let _ = write!(line, "{departures:>11}{notices:>8}{:>15}", self.ticks);
        line
    }

    /// One line per answer mark.
    pub fn table(&self) -> String {
        let mut table = Stats::head("answer");
        for (mark, row) in MARKS.iter().zip(&self.counts) {
            let _ = write!(table, "\n{mark:<15}");
            for verdict in shown() {
                let _ = write!(table, "{:>9}", row[verdict]);
            }
        }
        let _ = write!(table, "\ndepartures {}", self.departures);
        let _ = write!(table, "\nnotices among them {}", self.notices);
        let _ = write!(table, "\nticks done {}", self.ticks);
        let _ = write!(
            table,
            "\n{}\n{}",
            Stats::short_head(""),
            self.short_line("short")
        );
        table
    }

    /// The head line for `short_line`: frames, levels, then the bytes that the units need.
    pub fn short_head(name: &str) -> String {
        let mut head = format!("{name:<15}{:>9}", "frame");
        for level in 1..=MOST_LEVELS {
            let _ = write!(head, "{:>9}", format!("level {level}"));
        }
        for bytes in 1..=UNIT_BYTES {
            let _ = write!(head, "{:>9}", format!("{bytes} B"));
        }
        head
    }

    /// Admissions refused with 8: by the frame or the level that was short, then by its units.
    pub fn short_line(&self, name: &str) -> String {
        let mut line = format!("{name:<15}");
        for count in self.short_levels.iter().chain(&self.short_units) {
            let _ = write!(line, "{count:>9}");
        }
        line
    }
}

/// How many bytes a number needs; at least 1.
fn bytes_for(number: u64) -> usize {
    let bits = u64::BITS - number.leading_zeros();
    (bits.max(1) as usize + 7) / 8
}

/// Verdict 1 cannot occur in a trace.
fn shown() -> impl Iterator<Item = usize> {
    (0..VERDICTS).filter(|&verdict| verdict != 1)
}

impl AddAssign<&Stats> for Stats {
    fn add_assign(&mut self, other: &Stats) {
        let mine = self.counts.iter_mut().flatten();
        for (count, more) in mine.zip(other.counts.iter().flatten()) {
            *count += more;
        }
        self.departures += other.departures;
        self.notices += other.notices;
        self.ticks += other.ticks;
        let mine = self.short_levels.iter_mut().chain(&mut self.short_units);
        for (count, more) in mine.zip(other.short_levels.iter().chain(&other.short_units)) {
            *count += more;
        }
    }
}
