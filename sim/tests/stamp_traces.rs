//! Every offer of every generated trace (docs/RULES.md, R-9 and R-11): its verdict
//! and its eligibility, told by the records and answers before it, and what is promised of stamps.


use sim::hub::CLOCK_END;
use sim::kinds::Kind;
use sim::link::{Link, MOST_CONNECTIONS};
use sim::record::{Answer, Record};
use crate::told::{records, Line, Told};

/// What was met of offers with a stamp.
#[derive(Debug, Default)]
struct Met {
    accepted: usize,
    stamped_now: usize,
    later: usize,
    a_tick_later: usize,
    eligible_now: usize,
    over: usize,
    a_tick_over: usize,
    just_a_gap_behind: usize,
    too_close: usize,
    a_tick_too_close: usize,
    first_that_would_be_too_close: usize,
    full_with_a_cause: usize,
    ended_with_a_cause: usize,
    unsuited: [usize; 2],
    kept_apart: usize,
    to_the_other_kind: usize,
}

/// The causes of 17 that an offer has.
#[derive(Clone, Copy, Debug, PartialEq, Eq)]
struct Causes {
    later: bool,
    over: bool,
    too_close: bool,
}

impl Causes {
    fn any(self) -> bool {
        self.later || self.over || self.too_close
    }
}

/// One offer as it is asked.
#[derive(Clone, Copy)]
struct Asked {
    number: u8,
    length: u16,
    stamp: Option<u32>,
}

/// Under each number: the kind of the owner before, its last eligibility, and when the present one
/// last made an offer of allowed length, if it has kept a gap between them.
#[derive(Clone, Copy)]
struct Apart {
    last_offer: Option<u64>,
    keeps: bool,
}

const FRESH: Apart = Apart {
    last_offer: None,
    keeps: true,
};

struct Foreseen<'a> {
    told: Told,
    apart: [Apart; MOST_CONNECTIONS],
    met: &'a mut Met,
}

fn causes(line: &Line, stamp: u32, now: u64) -> Causes {
    let stamp = u64::from(stamp);
    let eligibility = stamp + line.figures.allowance.map_or(0, u64::from);
    let earliest = line.eligibilities.last();
    let earliest = earliest.map_or(0, |last| last + u64::from(line.figures.gap));
    Causes {
        later: stamp > now,
        over: eligibility < now,
        too_close: eligibility < earliest,
    }
}

impl Foreseen<'_> {
    fn carry_out(&mut self, record: Record) {
        if let Record::Packet {
            connection,
            length,
            stamp,
            ..
        } = record
        {
            let asked = Asked {
                number: connection,
                length,
                stamp,
            };
            return self.offer(record, asked);
        }
        let before = self.told.lines.len();
        let answer = self.told.carry_out(record);
        if let (true, Answer::Connection { connection, .. }) =
            (self.told.lines.len() > before, answer)
        {
            self.apart[usize::from(connection)] = FRESH;
        }
    }

    fn offer(&mut self, record: Record, asked: Asked) {
        let expected = self.verdict(asked);
        let clock = self.told.clock();
        self.count(asked, expected, clock);
        self.hold_apart(asked, expected, clock);
        let line = self.told.standing(asked.number).cloned();
        match self.told.carry_out(record) {
            Answer::Packet {
                verdict,
                eligibility,
            } => {
                assert_eq!(verdict, expected);
                if let (0, Some(stamp), Some(line)) = (verdict, asked.stamp, line) {
                    let allowance = line.figures.allowance.expect("it suits");
                    assert_eq!(eligibility, u64::from(stamp) + u64::from(allowance));
                }
            }
            other => panic!("{other:?}"),
        }
    }

    /// The line that hears an offer: it stands, and the offer suits.
    fn heard(&self, asked: Asked) -> Option<&Line> {
        let standing = self.told.standing(asked.number);
        standing.filter(|line| line.figures.allowance.is_some() == asked.stamp.is_some())
    }

    /// By the table; the promise is that of stamps nothing but a cause of 17 leads to 12.
    fn verdict(&self, asked: Asked) -> u8 {
        let link = match self.told.job.hub().link() {
            Ok(link) => link,
            Err(_) => return 2,
        };
        let (line, clock) = match self.heard(asked) {
            Some(line) => (line, self.told.clock()),
            None => return 10,
        };
        let cause = asked.stamp.map(|stamp| causes(line, stamp, clock).any());
        if asked.length == 0 || asked.length > line.figures.size {
            11
        } else if line.held() as u64 >= line.reservation(link) {
            assert!(cause != Some(false) || clock == CLOCK_END);
            12
        } else if clock == CLOCK_END {
            13
        } else if cause == Some(true) {
            17
        } else if self.is_too_far(link, line, asked) {
            18
        } else {
            0
        }
    }

    /// By R-11 the eligibility lies more than the distance past the present tick; none by a stamp does.
    fn is_too_far(&self, link: &Link, line: &Line, asked: Asked) -> bool {
        let clock = self.told.clock();
        let (eligibility, _) = line.next(clock, asked.stamp);
        let far = link.stands_by() && eligibility > clock + line.distance(link);
        assert!(!far || asked.stamp.is_none());
        far
    }

    /// where the offers of allowed length come a gap apart, whatever their stamps, none gets 12.
    fn hold_apart(&mut self, asked: Asked, verdict: u8, clock: u64) {
        let gap = match self.heard(asked) {
            Some(line) if asked.stamp.is_some() => u64::from(line.figures.gap),
            _ => return,
        };
        if verdict == 11 || clock == CLOCK_END {
            return;
        }
        let apart = &mut self.apart[usize::from(asked.number)];
        apart.keeps &= apart.last_offer.map_or(true, |last| last + gap <= clock);
        apart.last_offer = Some(clock);
        if apart.keeps {
            assert!(verdict == 0 || verdict == 17);
            self.met.kept_apart += 1;
        }
    }

    fn count(&mut self, asked: Asked, verdict: u8, clock: u64) {
        let standing = self.told.standing(asked.number).is_some();
        let line = match (self.heard(asked).cloned(), asked.stamp) {
            (Some(line), Some(_)) => line,
            (None, stamp) if standing => {
                self.met.unsuited[usize::from(stamp.is_some())] += 1;
                return;
            }
            _ => return,
        };
        let stamp = asked.stamp.expect("it brings one");
        let causes = causes(&line, stamp, clock);
        self.met.full_with_a_cause += usize::from(verdict == 12 && causes.any());
        self.met.ended_with_a_cause += usize::from(verdict == 13 && causes.any());
        match verdict {
            0 => self.count_accepted(&line, asked, clock),
            17 => self.count_refused(&line, stamp, clock),
            _ => {}
        }
    }

    fn count_accepted(&mut self, line: &Line, asked: Asked, clock: u64) {
        let stamp = u64::from(asked.stamp.unwrap_or(0));
        let eligibility = stamp + line.figures.allowance.map_or(0, u64::from);
        let gap = u64::from(line.figures.gap);
        let before = self.before(asked.number);
        let (met, first) = (&mut *self.met, line.eligibilities.is_empty());
        met.accepted += 1;
        met.stamped_now += usize::from(stamp == clock);
        met.eligible_now += usize::from(eligibility == clock);
        let last = line.eligibilities.last();
        met.just_a_gap_behind += usize::from(last.map_or(false, |last| last + gap == eligibility));
        if let Some((by_gap, last)) = before.filter(|_| first) {
            met.to_the_other_kind += usize::from(by_gap);
            met.first_that_would_be_too_close += usize::from(last + gap > eligibility);
        }
    }

    /// The latest line that was closed under a number: whether it was regulated by its gap, and its
    /// last eligibility.
    fn before(&self, number: u8) -> Option<(bool, u64)> {
        let closed = |line: &&Line| line.closed && line.number == number;
        let line = self.told.lines.iter().rev().find(closed)?;
        Some((
            line.figures.allowance.is_none(),
            *line.eligibilities.last()?,
        ))
    }

    fn count_refused(&mut self, line: &Line, stamp: u32, clock: u64) {
        let causes = causes(line, stamp, clock);
        let stamp = u64::from(stamp);
        let eligibility = stamp + line.figures.allowance.map_or(0, u64::from);
        let gap = u64::from(line.figures.gap);
        let last = line.eligibilities.last();
        let only = |later, over, too_close| {
            usize::from(
                causes
                    == Causes {
                        later,
                        over,
                        too_close,
                    },
            )
        };
        let met = &mut *self.met;
        met.later += only(true, false, false);
        met.a_tick_later += only(true, false, false) * usize::from(stamp == clock + 1);
        met.over += only(false, true, false);
        met.a_tick_over += only(false, true, false) * usize::from(eligibility + 1 == clock);
        met.too_close += only(false, false, true);
        let a_tick = last.map_or(false, |last| eligibility + 1 == last + gap);
        met.a_tick_too_close += only(false, false, true) * usize::from(a_tick);
    }
}

fn met_by(name: &str, seeds: u64) -> Met {
    let kind = Kind::named(name).expect("a kind");
    let mut met = Met::default();
    for seed in 0..seeds {
        let trace = kind.trace(seed, None);
        let mut foreseen = Foreseen {
            told: Told::new(),
            apart: [FRESH; MOST_CONNECTIONS],
            met: &mut met,
        };
        for record in records(&trace) {
            foreseen.carry_out(record);
        }
    }
    met
}

/// Kinds with stamps that are not about them.
const WITH_STAMPS: [&str; 17] = [
    "earlyoff",
    "earlyflood",
    "earlydistance",
    "earlysmall",
    "earlydamage",
    "badearly",
    "earlyend",
    "windowearly",
    "windowbounds",
    "windowzeros",
    "windowflood",
    "windowedges",
    "windowsmall",
    "windowlinks",
    "windowdamage",
    "badwindow",
    "windowend",
];

#[test]
fn every_offer_of_every_trace() {
    for kind in Kind::of_levels().filter(|kind| !kind.name.ends_with("limit")) {
        let seeds = if kind.name.ends_with("end") { 1 } else { 12 };
        let met = met_by(kind.name, seeds);
        let with_stamps = kind.name.contains("stamp") || WITH_STAMPS.contains(&kind.name);
        assert_eq!(met.accepted > 0, with_stamps, "{}", kind.name);
    }
}

#[test]
fn stamps_on_the_edge_of_each_cause() {
    for name in ["stamps", "stampsmall"] {
        let met = met_by(name, 12);
        assert!(met.stamped_now > 20 && met.a_tick_later > 10, "{met:?}");
        assert!(met.eligible_now > 20 && met.a_tick_over > 3, "{met:?}");
        assert!(met.just_a_gap_behind > 20, "{met:?}");
        assert!(met.a_tick_too_close > 20, "{met:?}");
        assert!(
            met.later > 40 && met.over > 5 && met.too_close > 60,
            "{met:?}"
        );
    }
}

#[test]
fn full_ones_with_a_cause() {
    let met = met_by("stampfull", 12);
    assert!(met.full_with_a_cause > 150, "{met:?}");
    let met = met_by("stampend", 2);
    assert!(met.ended_with_a_cause > 50, "{met:?}");
}

#[test]
fn offers_that_do_not_suit() {
    for name in ["stamps", "stampsmall", "stampreopened"] {
        let [without, with] = met_by(name, 12).unsuited;
        assert!(without > 10 && with > 10, "{name} {without} {with}");
    }
}

#[test]
fn numbers_go_to_the_other_kind() {
    let met = met_by("stampreopened", 12);
    assert!(met.to_the_other_kind > 20, "{met:?}");
    assert!(met.first_that_would_be_too_close > 20, "{met:?}");
}

#[test]
fn packets_that_come_a_gap_apart() {
    let met = met_by("stamprelays", 12);
    assert!(met.accepted > 300 && met.kept_apart > 80, "{met:?}");
}
