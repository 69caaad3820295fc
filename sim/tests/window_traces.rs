//! What must hold of every generated trace with windows (docs/RULES.md, R-12), told by
//! the records and their answers alone. That a charge lasts as long as it must is tested in
//! `closing_traces.rs`, for all kinds.


use sim::kinds::Kind;
use sim::level_test::shortage_of;
use sim::link::{Connection, Figures, Link, OFF};
use sim::random::Random;
use sim::record::{Answer, Record};
use sim::replay::{answers, Pace};
use crate::told::{records, Condition, Terms, Told};

/// What was met: admissions that were refused by each condition of the first level that fails, those that
/// were accepted just at the limit of each, those that document 01's test refuses and the other way round,
/// and departures while it would refuse the lines that stand or are charged.
#[derive(Debug, Default)]
struct Met {
    refused: [usize; 3],
    just_fit: [usize; 3],
    only_by_the_finer: usize,
    only_by_the_other: usize,
    departed_only_by_the_finer: usize,
}

/// Of the w condition, the first β and the later ones.
fn place(condition: Condition) -> usize {
    match condition {
        Condition::W => 0,
        Condition::Beta(0) => 1,
        Condition::Beta(_) => 2,
    }
}

/// The same link without windows: its test is document 01's.
fn without(terms: &Terms) -> Terms {
    Terms {
        windows: [0; 8],
        ..*terms
    }
}

struct Followed<'a> {
    told: Told,
    met: &'a mut Met,
    /// Lines, and whether document 01's test would refuse them.
    judged: (Vec<Figures>, bool),
}

impl Followed<'_> {
    fn carry_out(&mut self, record: Record) {
        match (&record, self.told.terms) {
            (Record::Connection(figures), Some(terms)) => self.admit(*figures, &terms),
            (Record::Ticks { .. }, Some(terms)) => self.tick(record, &terms),
            _ => {
                self.told.carry_out(record);
            }
        }
    }

    /// 8 exactly where the test fails, with the lowest level and the first excess, recomputed plainly.
    fn admit(&mut self, figures: Figures, terms: &Terms) {
        let mut all = self.told.counted();
        all.push(figures);
        let answer = self.told.carry_out(Record::Connection(figures));
        let (verdict, told) = match answer {
            Answer::Connection { verdict, short, .. } => (verdict, short),
            other => panic!("{other:?}"),
        };
        if ![0, 8, 9].contains(&verdict) {
            assert_eq!(told, None);
            return;
        }
        let short = terms.short(&all);
        assert_eq!(verdict == 8, short.is_some(), "{figures:?}");
        let units = told.map(|told| (told.level, told.units));
        assert_eq!(units, short.map(|(level, _, units)| (level, units)));
        self.count(terms, &all, short.map(|(_, condition, _)| condition));
    }

    fn count(&mut self, terms: &Terms, all: &[Figures], failed: Option<Condition>) {
        if !terms.has_windows() {
            return;
        }
        let other = without(terms).short(all).is_some();
        self.met.only_by_the_finer += usize::from(failed.is_none() && other);
        self.met.only_by_the_other += usize::from(failed.is_some() && !other);
        match failed {
            Some(condition) => self.met.refused[place(condition)] += 1,
            None => {
                let largest = terms.largest + 1;
                let tighter = Terms { largest, ..*terms };
                if let Some((_, condition, _)) = tighter.short(all) {
                    self.met.just_fit[place(condition)] += 1;
                }
            }
        }
    }

    /// Each packet has left by its eligibility plus the bound of its level, also where only the finer test
    /// lets its lines in.
    fn tick(&mut self, record: Record, terms: &Terms) {
        let counted = self.told.counted();
        self.told.carry_out(record);
        for departure in &self.told.departed {
            let line = self.told.lines.iter().rev();
            let mut line = line.filter(|line| line.number == departure.connection);
            let level = line.next().expect("it was admitted").figures.level;
            let bound = u64::from(terms.bounds[usize::from(level) - 1]);
            assert!(departure.finish <= departure.eligibility + bound);
        }
        if terms.has_windows()
            && !self.told.departed.is_empty()
            && self.refused_by_01(terms, counted)
        {
            self.met.departed_only_by_the_finer += self.told.departed.len();
        }
    }
}

impl Followed<'_> {
    /// Whether document 01's test refuses some lines, which are mostly the same as before.
    fn refused_by_01(&mut self, terms: &Terms, lines: Vec<Figures>) -> bool {
        if self.judged.0 != lines {
            let refused = without(terms).short(&lines).is_some();
            self.judged = (lines, refused);
        }
        self.judged.1
    }
}

fn follow(kind: &Kind, seeds: u64) -> Met {
    let mut met = Met::default();
    for seed in 0..seeds {
        let mut followed = Followed {
            told: Told::new(),
            met: &mut met,
            judged: (Vec::new(), false),
        };
        for record in records(&kind.trace(seed, None)) {
            followed.carry_out(record);
        }
    }
    met
}

fn met_by(name: &str, seeds: u64) -> Met {
    follow(Kind::named(name).expect("a kind"), seeds)
}

fn with_windows(kind: &&Kind) -> bool {
    kind.name.contains("window") && !kind.name.ends_with("limit")
}

#[test]
fn every_admission_and_every_departure() {
    for kind in Kind::of_levels().filter(with_windows) {
        let seeds = if kind.name.ends_with("end") { 1 } else { 4 };
        follow(kind, seeds);
    }
}

#[test]
fn lines_that_only_the_finer_test_lets_in() {
    for name in ["windowflood", "windowsmall", "windowedges"] {
        let met = met_by(name, 20);
        assert!(met.only_by_the_finer > 30, "{name} {met:?}");
        assert!(met.departed_only_by_the_finer > 300, "{name} {met:?}");
    }
}

#[test]
fn every_condition_fails_and_is_just_met() {
    let met = met_by("windowedges", 24);
    assert!(met.refused.iter().all(|&count| count > 200), "{met:?}");
    assert!(met.just_fit.iter().all(|&count| count > 10), "{met:?}");
    assert!(met.only_by_the_other > 30, "{met:?}");
}

#[test]
fn with_windows_at_the_bounds_the_verdicts_are_document_01s() {
    let met = met_by("windowbounds", 24);
    assert_eq!((met.only_by_the_finer, met.only_by_the_other), (0, 0));
    assert_eq!(&met.refused[1..], &[0, 0]);
    assert!(met.refused[0] > 200, "{met:?}");
}

/// A trace whose `LW`s are `LE`s, up to a record that is malformed.
fn as_le(trace: &[u8]) -> Vec<u8> {
    let mut out = Vec::new();
    for mut record in records(trace) {
        if let Record::Link(figures) = &mut record {
            figures.windows = None;
        }
        record.append_to(&mut out);
    }
    out
}

#[test]
fn windows_that_are_all_0_are_none() {
    let kind = Kind::named("windowzeros").expect("a kind");
    for trace in (0..24).map(|seed| kind.trace(seed, None)) {
        let others = as_le(&trace);
        assert!(others.len() < trace.len());
        let answered = |trace: &[u8]| answers(trace, Pace::Passing).expect("answers");
        assert!(answered(&trace) == answered(&others));
    }
}

/// Any link of few ticks with windows, and lines that fit it more or less.
fn some_set(random: &mut Random) -> (Terms, Vec<Figures>) {
    let levels = random.between(1, 4) as usize;
    let (largest, silence) = (random.between16(1, 6), random.between(0, 2) as u8);
    let (mut bounds, mut windows) = ([0; 8], [0; 8]);
    let mut bound = largest + u16::from(silence) + random.between16(0, 20);
    for level in 0..levels {
        bounds[level] = bound;
        let longer = random.pick([0, 1, 9, 60, 400]);
        windows[level] = bound + random.between16(0, longer);
        bound += random.between16(1, 30);
    }
    let terms = Terms {
        levels,
        largest,
        silence,
        bounds,
        windows,
    };
    let line = |random: &mut Random| {
        let level = random.between(1, levels as u64) as u8;
        let size = random.between16(1, largest);
        let gap = random.pick([1, 3, 10, 30, 90]) + random.between16(0, 20);
        let one = Figures::plain(level, gap, size);
        let (packets, average) = (random.between16(1, 5), gap + random.between16(0, 60));
        match random.between(0, 4) {
            0 => one.with_average(packets * average, average),
            1 => Figures::plain(level, random.between16(1, 3).min(gap), size)
                .with_average(packets * average, average),
            2 => one.by_stamps(random.between16(0, 50)),
            _ => one,
        }
    };
    let lines = (0..random.between(0, 7)).map(|_| line(random)).collect();
    (terms, lines)
}

/// What the simulator says of a set.
fn quickly(terms: &Terms, lines: &[Figures]) -> Option<(u8, u64)> {
    let Terms {
        levels,
        largest,
        silence,
        bounds,
        windows,
    } = *terms;
    let link = Link::set_to(OFF, levels as u8, largest, silence, bounds);
    let link = link.and_then(|link| link.with_windows(windows));
    let link = link.expect("within its limits");
    let accepted = |one: &Figures| Connection::new(&link, *one).expect("within its limits");
    let connections: Vec<Connection> = lines.iter().map(accepted).collect();
    shortage_of(&link, &connections).map(|short| (short.level, short.units))
}

#[test]
fn the_quick_test_is_the_plain_one() {
    let mut random = Random::new(12);
    let mut met = [0; 4];
    for _ in 0..60_000 {
        let (terms, lines) = some_set(&mut random);
        let short = terms.short(&lines);
        let expected = short.map(|(level, _, units)| (level, units));
        assert_eq!(quickly(&terms, &lines), expected, "{terms:?} {lines:?}");
        met[short.map_or(3, |(_, condition, _)| place(condition))] += 1;
        let at_the_bounds = Terms {
            windows: terms.bounds,
            ..terms
        };
        let other = without(&terms).short(&lines);
        let other = other.map(|(level, _, units)| (level, units));
        assert_eq!(quickly(&at_the_bounds, &lines), other);
        assert_eq!(quickly(&without(&terms), &lines), other);
    }
    assert!(met.iter().all(|&count| count > 500), "{met:?}");
}
