//! What must hold of every generated trace with packets that stand by and without
//! (docs/RULES.md, R-11), told by the records and their answers alone. Every verdict
//! 18 is recomputed in `stamp_traces.rs`, with those of all other offers.


use sim::hub::CLOCK_END;
use sim::kinds::Kind;
use sim::link::{Link, OFF};
use sim::record::{Answer, Record};
use sim::replay::{answers, Pace};
use crate::told::{records, Told};

/// What was met.
#[derive(Debug, Default)]
struct Met {
    accepted: usize,
    just_at_the_distance: usize,
    a_tick_too_far: usize,
    too_far_by_a_window: usize,
    closed_ahead: usize,
    freed_behind_it: usize,
    most_ahead: u64,
}

fn slow(kind: &Kind) -> bool {
    kind.name.ends_with("limit")
}

/// Every packet that was accepted has left by its eligibility plus its bound, what is held at the end
/// is not over that, and nothing was accepted further off than the distance.
struct Followed<'a> {
    told: Told,
    met: &'a mut Met,
}

impl Followed<'_> {
    fn carry_out(&mut self, record: Record) {
        match record {
            Record::Packet {
                connection, stamp, ..
            } => self.offer(record, connection, stamp),
            Record::Close { connection } => self.close(record, connection),
            Record::Ticks { .. } => self.tick(record),
            _ => {
                self.told.carry_out(record);
            }
        }
    }

    fn link(&self) -> Option<Link> {
        self.told.job.hub().link().ok().copied()
    }

    fn offer(&mut self, record: Record, number: u8, stamp: Option<u32>) {
        let clock = self.told.clock();
        let (link, line) = match (self.link(), self.told.standing(number)) {
            (Some(link), Some(line)) if stamp.is_none() && line.may_go_early(&link) => (link, line),
            _ => {
                self.told.carry_out(record);
                return;
            }
        };
        let (eligibility, _) = line.next(clock, None);
        let farthest = clock + line.distance(&link);
        let (gap, last) = (line.gap(), line.eligibilities.last().copied());
        match self.told.carry_out(record).verdict() {
            Some(0) => {
                assert!(eligibility <= farthest);
                self.met.accepted += 1;
                self.met.just_at_the_distance += usize::from(eligibility == farthest);
                self.met.most_ahead = self.met.most_ahead.max(eligibility - clock);
            }
            Some(18) => {
                assert!(eligibility > farthest && clock < CLOCK_END);
                self.met.a_tick_too_far += usize::from(eligibility == farthest + 1);
                let by_gap = last.map_or(0, |last| last + gap);
                self.met.too_far_by_a_window += usize::from(by_gap < eligibility);
            }
            _ => {}
        }
    }

    fn close(&mut self, record: Record, number: u8) {
        let clock = self.told.clock();
        let last = self.told.standing(number);
        let last = last.and_then(|line| line.eligibilities.last().copied());
        let done = self.told.carry_out(record).verdict() == Some(0);
        let ahead = done && last.map_or(false, |last| last > clock);
        self.met.closed_ahead += usize::from(ahead);
        assert!(!ahead || self.told.owner(number).is_some());
    }

    /// The last tick of a charge that began ahead of the clock frees its number, and none before.
    fn tick(&mut self, record: Record) {
        let charged = |told: &Told| {
            let closed = told.owners().filter(|(_, line)| line.closed);
            closed.count()
        };
        let before = charged(&self.told);
        self.told.carry_out(record);
        self.met.freed_behind_it += before - charged(&self.told);
        assert_eq!(charged(&self.told), self.told.job.hub().charged().count());
    }

    /// What is still held at the end could leave in time.
    fn end(&self) {
        let (link, clock) = match self.link() {
            Some(link) => (link, self.told.clock()),
            None => return,
        };
        for (_, line) in self.told.owners() {
            let bound = u64::from(link.bound(line.figures.level));
            for &eligibility in &line.eligibilities[line.departed..] {
                assert!(clock < eligibility + bound, "{:?}", line.figures);
            }
        }
    }
}

fn follow(kind: &Kind, seeds: u64) -> Met {
    let mut met = Met::default();
    for seed in 0..seeds {
        let trace = kind.trace(seed, None);
        let mut followed = Followed {
            told: Told::new(),
            met: &mut met,
        };
        for record in records(&trace) {
            followed.carry_out(record);
        }
        followed.end();
        check_finishes(&trace);
    }
    met
}

fn met_by(name: &str, seeds: u64) -> Met {
    follow(Kind::named(name).expect("a kind"), seeds)
}

/// Each departure by its eligibility plus the bound of the level that its connection was admitted with:
/// the bounds and levels as the records have them.
fn check_finishes(trace: &[u8]) {
    let (mut told, mut bounds) = (Told::new(), [0; 8]);
    for record in records(trace) {
        let answer = told.carry_out(record.clone());
        if let (Record::Link(asked_for), Answer::Link { verdict: 0 }) = (record, answer) {
            bounds = asked_for.bounds;
        }
        let level_of = |number: u8| {
            let owner = told.owner(number);
            owner.map(|line| usize::from(line.figures.level))
        };
        for departure in &told.departed {
            let bound = level_of(departure.connection).map(|level| u64::from(bounds[level - 1]));
            let latest = departure.eligibility + bound.expect("it has an owner");
            assert!(departure.finish <= latest, "{departure:?}");
        }
    }
}

#[test]
fn every_packet_leaves_in_time() {
    for kind in Kind::of_levels().filter(|kind| !slow(kind)) {
        let seeds = if kind.name.ends_with("end") { 1 } else { 10 };
        let met = follow(kind, seeds);
        let on = kind.name.contains("early") && kind.name != "earlyoff";
        let either = kind.name.contains("window") && !on;
        assert!(either || (met.accepted > 0) == on, "{}", kind.name);
    }
}

#[test]
fn offers_about_the_distance() {
    for name in ["earlydistance", "earlyflood"] {
        let met = met_by(name, 12);
        assert!(met.accepted > 400, "{name} {met:?}");
        assert!(met.just_at_the_distance > 30, "{name} {met:?}");
        assert!(met.a_tick_too_far > 30, "{name} {met:?}");
    }
    let met = met_by("earlyaverages", 24);
    assert!(met.too_far_by_a_window > 100, "{met:?}");
}

#[test]
fn eligibilities_do_not_run_away() {
    // No distance is as long as the longest bound and the longest gap, in however many ticks.
    let met = met_by("earlyflood", 16);
    assert!(met.accepted > 3_000 && met.most_ahead < 98_304, "{met:?}");
}

#[test]
fn closes_ahead_of_the_clock() {
    let met = met_by("earlycharges", 12);
    assert!(met.closed_ahead > 30 && met.freed_behind_it > 30, "{met:?}");
    let met = met_by("earlysmall", 12);
    assert!(met.closed_ahead > 10 && met.freed_behind_it > 30, "{met:?}");
}

/// A trace with the settings of its links exchanged, up to a record that is malformed.
fn set_to(trace: &[u8], exchange: fn(Option<u8>) -> Option<u8>) -> Vec<u8> {
    let (mut out, mut length) = (Vec::new(), 0);
    for mut record in records(trace) {
        let mut bytes = Vec::new();
        record.append_to(&mut bytes);
        length += bytes.len();
        if let Record::Link(figures) = &mut record {
            figures.setting = exchange(figures.setting);
        }
        record.append_to(&mut out);
    }
    out.extend_from_slice(&trace[length..]);
    out
}

fn answered(trace: &[u8]) -> Vec<u8> {
    answers(trace, Pace::Passing).expect("answers")
}

/// Whether some link of a trace has a setting that is not off.
fn is_set(trace: &[u8]) -> bool {
    records(trace).any(|record| match record {
        Record::Link(figures) => figures.setting.map_or(false, |setting| setting != OFF),
        _ => false,
    })
}

/// The offset in an `ER`, if there is one, grows by the bytes that were inserted before it.
fn move_offset(answers: &mut [u8], inserted: usize) {
    let at = answers.len().saturating_sub(7);
    if answers[at..].starts_with(b"ER\x0E") {
        let offset = u32::from_le_bytes(answers[at + 3..].try_into().expect("four bytes"));
        let moved = offset + inserted as u32;
        answers[at + 3..].copy_from_slice(&moved.to_le_bytes());
    }
}

#[test]
fn off_is_as_without() {
    for kind in Kind::of_levels().filter(|kind| !slow(kind)) {
        let seeds = if kind.name.ends_with("end") { 1 } else { 12 };
        for trace in (0..seeds).map(|seed| kind.trace(seed, None)) {
            if is_set(&trace) {
                continue;
            }
            let (off, without) = (set_to(&trace, |_| Some(OFF)), set_to(&trace, |_| None));
            let mut expected = answered(&without);
            move_offset(&mut expected, off.len() - without.len());
            assert!(answered(&off) == expected, "{}", kind.name);
        }
    }
}

#[test]
fn on_is_not_as_off() {
    let kind = Kind::named("early").expect("a kind");
    let differ = |trace: &Vec<u8>| answered(trace) != answered(&set_to(trace, |_| Some(OFF)));
    let traces = (0..12).map(|seed| kind.trace(seed, None));
    assert!(traces.filter(differ).count() > 8);
}
