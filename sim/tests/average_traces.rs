//! What must hold of every connection in every generated trace (docs/RULES.md, R-6, by stamps R-9, of
//! those that stand by R-11), told by the records and their answers alone.


use sim::kinds::Kind;
use sim::link::Connection;
use sim::record::{Answer, Record};
use crate::told::{records, By, Line, Told};

const REMEMBERED: usize = 16;

/// What a sound state asks of a connection.
trait Sound {
    fn is_sound(&self, clock: u64, ahead: Option<u64>) -> bool;
    fn is_spaced(&self, known: &[u64], at: usize) -> bool;
    fn may_wait(&self, known: &[u64], at: usize, clock: u64) -> bool;
    fn may_stand_by(&self, known: &[u64], at: usize, clock: u64) -> bool;
    fn most_within(&self, ticks: u64) -> usize;
}

impl Sound for Line {
    /// What a sound state asks of a connection's rows and its memory at a clock; `ahead`: where its
    /// packets may go early, how far past the clock they may lie.
    fn is_sound(&self, clock: u64, ahead: Option<u64>) -> bool {
        let all = &self.eligibilities;
        let rows = all.len() - self.departed;
        let known = &all[all.len() - rows.max(REMEMBERED.min(all.len()))..];
        let gone = known.len() - rows;
        let may_lie_beyond = |at: usize| match ahead {
            None => self.may_wait(known, at, clock),
            Some(ahead) => known[at] <= clock + ahead && self.may_stand_by(known, at, clock),
        };
        known[..gone]
            .iter()
            .all(|&tick| tick <= clock + ahead.unwrap_or(0))
            && (0..known.len()).all(|at| self.is_spaced(known, at))
            && (gone..known.len()).all(|at| known[at] <= clock || may_lie_beyond(at))
    }

    /// A row beyond the clock of a line whose packets may go early: the earliest that both rules allow
    /// where its n-th before is held or remembered, without an average where the one before lies beyond
    /// the clock too.
    fn may_stand_by(&self, known: &[u64], at: usize, clock: u64) -> bool {
        let spaced = at.checked_sub(1).map_or(0, |last| known[last] + self.gap());
        match self.average() {
            None => at == 0 || known[at - 1] <= clock || known[at] == spaced,
            Some((window, packets)) => {
                at < packets || known[at] == spaced.max(known[at - packets] + window)
            }
        }
    }

    fn is_spaced(&self, known: &[u64], at: usize) -> bool {
        let behind = |back: usize, apart: u64| at < back || known[at] >= known[at - back] + apart;
        behind(1, self.gap())
            && self
                .average()
                .map_or(true, |(window, packets)| behind(packets, window))
    }

    /// A row beyond the clock: the earliest that both rules allow where its n-th before is held or
    /// remembered, else at most the greater of I past the clock and X past the one before. By stamps:
    /// at most a past the clock.
    fn may_wait(&self, known: &[u64], at: usize, clock: u64) -> bool {
        if self.figures.allowance.is_some() {
            return known[at] <= clock + self.allowance();
        }
        let spaced = at.checked_sub(1).map_or(0, |last| known[last] + self.gap());
        match self.average() {
            None => known[at] <= spaced.max(clock + self.gap()),
            Some((window, packets)) if at >= packets => {
                known[at] == spaced.max(known[at - packets] + window)
            }
            Some((window, _)) => known[at] <= spaced.max(clock + window),
        }
    }

    /// The most of its packets that are eligible within so many ticks in a row.
    fn most_within(&self, ticks: u64) -> usize {
        let all = &self.eligibilities;
        let from = |first: usize| {
            all[first..]
                .iter()
                .take_while(|&&tick| tick < all[first] + ticks)
                .count()
        };
        (0..all.len()).map(from).max().unwrap_or(0)
    }
}

/// What was met in all traces.
#[derive(Default)]
struct Met {
    by_gap: usize,
    by_window: [usize; REMEMBERED + 1],
    more_than_remembered: usize,
    full_windows: usize,
}

/// Each accepted packet is eligible by the rule's words, and all connections are sound behind each
/// record, also those that are closed.
fn carry_out(told: &mut Told, record: Record, met: &mut Met) {
    let clock = told.clock();
    let expected = match record {
        Record::Packet {
            connection, stamp, ..
        } => told.standing(connection).map(|line| {
            let average = line.average();
            (line.next(clock, stamp), average)
        }),
        _ => None,
    };
    let answer = told.carry_out(record);
    if let (
        Answer::Packet {
            verdict: 0,
            eligibility,
        },
        Some(((expected, by), average)),
    ) = (answer, expected)
    {
        assert_eq!(eligibility, expected);
        match (by, average) {
            (By::Gap, _) => met.by_gap += 1,
            (By::Window, Some((_, packets))) => met.by_window[packets] += 1,
            _ => {}
        }
    }
    let clock = told.clock();
    let link = told.job.hub().link().ok();
    for (_, line) in told.owners() {
        let link = link.expect("it was admitted");
        let ahead = line.may_go_early(link).then(|| line.distance(link));
        assert!(line.is_sound(clock, ahead), "{:?} at {clock}", line.figures);
        met.more_than_remembered += usize::from(line.held() > REMEMBERED);
    }
}

/// No stretch of the length of a bound, of a window or of about a window holds more packets than
/// are counted for it.
fn check_stretches(told: &Told, met: &mut Met) {
    let link = match told.job.hub().link() {
        Ok(link) => link,
        Err(_) => return,
    };
    for line in &told.lines {
        let terms = Connection::new(link, line.figures).expect("it was accepted");
        let mut stretches = link.bounds().to_vec();
        if let Some((window, packets)) = line.average() {
            let window = window as u16;
            stretches.extend([window, window.saturating_add(1), window - 1, window / 2]);
            met.full_windows += usize::from(line.most_within(u64::from(window)) == packets);
        }
        for ticks in stretches {
            let most = line.most_within(u64::from(ticks)) as u64;
            assert!(most <= terms.packets_within(ticks), "{terms:?} {ticks}");
        }
    }
}

fn follow(trace: &[u8], met: &mut Met) {
    let mut told = Told::new();
    for record in records(trace) {
        carry_out(&mut told, record, met);
    }
    check_stretches(&told, met);
}

#[test]
fn every_connection_of_every_trace() {
    let mut met = Met::default();
    for kind in Kind::of_levels().filter(|kind| !kind.name.ends_with("limit")) {
        let seeds = if kind.name.ends_with("end") { 4 } else { 6 };
        for seed in 0..seeds {
            follow(&kind.trace(seed, None), &mut met);
        }
    }
    assert!(met.by_gap > 5_000, "only {}", met.by_gap);
    assert!(met.full_windows > 300, "only {}", met.full_windows);
}

#[test]
fn windows_of_every_number_of_packets_are_waited_for() {
    let mut met = Met::default();
    for name in ["averageflood", "averagememory", "bursts", "flooded"] {
        let kind = Kind::named(name).expect("a kind");
        for seed in 0..40 {
            follow(&kind.trace(seed, None), &mut met);
        }
    }
    for packets in 1..=REMEMBERED {
        let waited = met.by_window[packets];
        assert!(waited > 15, "n {packets}: only {waited}");
    }
    assert!(met.more_than_remembered > 500);
}
