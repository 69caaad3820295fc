//! A trace as its records and answers tell it: who has which number, what each has sent and
//! what of it has departed; the level test and the finer test counted packet by packet.

#![allow(dead_code)] // Each test needs a part of it.

use sim::departure::Departure;
use sim::link::{Figures, Link, MOST_CONNECTIONS, MOST_LEVELS};
use sim::notices::NOTICE_NUMBER;
use sim::record::{Answer, Record};
use sim::replay::{Job, Pace};

/// What held an accepted packet up last.
#[derive(Clone, Copy, Debug, PartialEq, Eq)]
pub enum By {
    Nothing,
    Gap,
    Window,
}

/// A connection from its admission on: the eligibilities and the lengths of its packets in the order
/// accepted.
#[derive(Clone, Debug)]
pub struct Line {
    pub number: u8,
    pub figures: Figures,
    pub eligibilities: Vec<u64>,
    pub lengths: Vec<u16>,
    pub departed: usize,
    pub closed: bool,
}

impl Line {
    pub fn held(&self) -> usize {
        self.eligibilities.len() - self.departed
    }

    /// The clock has reached the last eligibility plus the time of a charge, or nothing was sent.
    pub fn charge_is_over(&self, clock: u64, time: u64) -> bool {
        let last = self.eligibilities.last();
        last.map_or(true, |last| clock >= last + time)
    }

    pub fn gap(&self) -> u64 {
        u64::from(self.figures.gap)
    }

    pub fn allowance(&self) -> u64 {
        self.figures.allowance.map_or(0, u64::from)
    }

    /// I and n.
    pub fn average(&self) -> Option<(u64, usize)> {
        let Figures {
            window, average, ..
        } = self.figures;
        (average > 0).then(|| (u64::from(window), usize::from(window / average)))
    }

    /// The eligibility by the rule's words, from all that was accepted, and what decided it; by a
    /// stamp it is that plus the allowance.
    pub fn next(&self, arrival: u64, stamp: Option<u32>) -> (u64, By) {
        if let Some(stamp) = stamp {
            return (u64::from(stamp) + self.allowance(), By::Nothing);
        }
        let back = |packets: usize| self.eligibilities.iter().rev().nth(packets - 1);
        let mut next = (arrival, By::Nothing);
        if let Some(last) = back(1).filter(|&last| last + self.gap() > next.0) {
            next = (last + self.gap(), By::Gap);
        }
        if let Some((window, packets)) = self.average() {
            if let Some(nth) = back(packets).filter(|&nth| nth + window > next.0) {
                next = (nth + window, By::Window);
            }
        }
        next
    }

    /// The packets that it may hold, by the rules' words.
    pub fn reservation(&self, link: &Link) -> u64 {
        let within = self.allowance() + u64::from(link.bound(self.figures.level));
        let by_gap = |ticks: u64| ticks / self.gap() + u64::from(ticks % self.gap() > 0);
        match self.average() {
            None => by_gap(within),
            Some((window, packets)) => {
                let packets = packets as u64;
                let rest = by_gap(within % window).min(packets);
                by_gap(within).min(within / window * packets + rest)
            }
        }
    }

    /// Whether its packets may go early.
    pub fn may_go_early(&self, link: &Link) -> bool {
        link.stands_by() && self.figures.allowance.is_none()
    }

    /// How far past the present tick an eligibility may lie then: the reservation times X.
    pub fn distance(&self, link: &Link) -> u64 {
        self.reservation(link) * self.gap()
    }
}

/// A link as its record has it.
#[derive(Clone, Copy, Debug)]
pub struct Terms {
    pub levels: usize,
    pub largest: u16,
    pub silence: u8,
    pub bounds: [u16; MOST_LEVELS],
    pub windows: [u16; MOST_LEVELS],
}

impl Terms {
    pub fn of(record: &Record) -> Option<Terms> {
        match record {
            Record::Link(figures) => Some(Terms {
                levels: usize::from(figures.levels),
                largest: figures.largest,
                silence: figures.silence,
                bounds: figures.bounds,
                windows: figures.windows.unwrap_or([0; MOST_LEVELS]),
            }),
            _ => None,
        }
    }

    pub fn has_windows(&self) -> bool {
        self.windows.iter().any(|&window| window > 0)
    }

    /// The largest bound and the longest window, which is 0 where there is none.
    pub fn charge_time(&self) -> u64 {
        let most = |numbers: &[u16]| numbers.iter().copied().max().map_or(0, u64::from);
        most(&self.bounds) + most(&self.windows)
    }

    /// The first level that fails, which of its conditions fails first, and by how much, by the words of
    /// the rule: each condition in turn, each packet by itself.
    pub fn short(&self, lines: &[Figures]) -> Option<(u8, Condition, u64)> {
        (1..=self.levels as u8).find_map(|level| {
            let (condition, units) = self.short_at(lines, level)?;
            Some((level, condition, units))
        })
    }

    fn short_at(&self, lines: &[Figures], level: u8) -> Option<(Condition, u64)> {
        let place = usize::from(level) - 1;
        let bound = usize::from(self.bounds[place]);
        let window = if self.has_windows() {
            usize::from(self.windows[place])
        } else {
            bound
        };
        let own = self.demand(lines.iter().filter(|line| line.level == level), window);
        let urgent = self.demand(lines.iter().filter(|line| line.level < level), window);
        let blocked = u64::from(self.largest) + u64::from(self.silence);
        let over = |sum: u64, limit: usize| sum.checked_sub(limit as u64 + 1).map(|less| less + 1);
        if let Some(units) = over(blocked + own[window] + urgent[window], window) {
            return Some((Condition::W, units));
        }
        let betas = if self.has_windows() { 0..window } else { 0..0 };
        betas.into_iter().find_map(|beta| {
            let seen = (bound + beta).min(window);
            let units = over(blocked + own[beta + 1] + urgent[seen], bound + beta)?;
            Some((Condition::Beta(beta), units))
        })
    }

    /// What lines may send within 0, 1, .. ticks up to a window, with the silences.
    fn demand<'a>(&self, lines: impl Iterator<Item = &'a Figures>, window: usize) -> Vec<u64> {
        let mut within = vec![0; window + 1];
        for line in lines {
            for tick in sent_before(window as u64, line) {
                within[tick as usize + 1] += u64::from(line.size) + u64::from(self.silence);
            }
        }
        for ticks in 1..=window {
            within[ticks] += within[ticks - 1];
        }
        within
    }
}

/// The conditions of a level; without windows there is only the first, with d for w.
#[derive(Clone, Copy, Debug, PartialEq, Eq)]
pub enum Condition {
    W,
    Beta(usize),
}

/// When the packets of a connection go before a tick, if it sends from 0 on whenever its gap and its
/// average allow it: packet by packet.
pub fn sent_before(end: u64, figures: &Figures) -> Vec<u64> {
    let (gap, window) = (u64::from(figures.gap), u64::from(figures.window));
    let mut sent: Vec<u64> = Vec::new();
    loop {
        let mut next = sent.last().map_or(0, |last| last + gap);
        if window > 0 {
            let nth = usize::from(figures.window / figures.average) - 1;
            next = next.max(sent.iter().rev().nth(nth).map_or(0, |one| one + window));
        }
        if next >= end {
            return sent;
        }
        sent.push(next);
    }
}

/// A trace so far, with all lines that ever were and the packets of levels that the last record has let
/// go.
pub struct Told {
    pub job: Job,
    pub lines: Vec<Line>,
    pub departed: Vec<Departure>,
    pub terms: Option<Terms>,
    owners: [Option<usize>; MOST_CONNECTIONS],
}

impl Told {
    pub fn new() -> Told {
        Told {
            job: Job::new(Pace::Passing),
            lines: Vec::new(),
            departed: Vec::new(),
            terms: None,
            owners: [None; MOST_CONNECTIONS],
        }
    }

    pub fn clock(&self) -> u64 {
        self.job.hub().clock()
    }

    /// How long behind its last eligibility a closed line is charged.
    pub fn charge_time(&self) -> u64 {
        self.terms.map_or(0, |terms| terms.charge_time())
    }

    /// The figures of all that have a number.
    pub fn counted(&self) -> Vec<Figures> {
        self.owners().map(|(_, line)| line.figures).collect()
    }

    /// The line that has a number, whether it stands or is charged.
    pub fn owner(&self, number: u8) -> Option<&Line> {
        let line = self.owners.get(usize::from(number)).copied().flatten()?;
        Some(&self.lines[line])
    }

    /// The line that stands under a number.
    pub fn standing(&self, number: u8) -> Option<&Line> {
        self.owner(number).filter(|line| !line.closed)
    }

    /// All that have a number, in the order of the numbers.
    pub fn owners(&self) -> impl Iterator<Item = (u8, &Line)> {
        let numbered = |(number, line): (usize, &Option<usize>)| {
            let line = (*line)?;
            Some((number as u8, &self.lines[line]))
        };
        self.owners.iter().enumerate().filter_map(numbered)
    }

    pub fn lowest_free(&self) -> Option<u8> {
        let free = self.owners.iter().position(Option::is_none);
        free.map(|number| number as u8)
    }

    /// Carries out a record and follows its answers; gives the last one. What departs is what was
    /// accepted, in order, and, unless it may go early, never before its eligibility plus its
    /// length; never before its arrival plus its length.
    pub fn carry_out(&mut self, record: Record) -> Answer {
        let (mut last, mut departed) = (None, Vec::new());
        let result: Result<(), ()> = self.job.carry_out(record.clone(), &mut |answer| {
            match answer {
                Answer::Departed(departure) => departed.push(departure),
                _ => last = Some(answer),
            }
            Ok(())
        });
        assert_eq!(result, Ok(()));
        self.departed.clear();
        for departure in departed {
            if departure.connection != NOTICE_NUMBER {
                self.departed.push(departure);
                let link = *self.job.hub().link().expect("a link");
                let line = self.line_of(departure.connection);
                assert_eq!(departure.eligibility, line.eligibilities[line.departed]);
                let length = u64::from(line.lengths[line.departed]);
                let early = line.may_go_early(&link);
                assert!(early || departure.finish >= departure.eligibility + length);
                assert!(departure.finish >= departure.arrival + length);
                line.departed += 1;
            }
        }
        let answer = last.expect("an answer");
        self.follow(record, answer);
        self.free();
        answer
    }

    fn line_of(&mut self, number: u8) -> &mut Line {
        let line = self.owners[usize::from(number)].expect("it has an owner");
        &mut self.lines[line]
    }

    fn follow(&mut self, record: Record, answer: Answer) {
        if answer.verdict() != Some(0) {
            return;
        }
        match (record, answer) {
            (Record::Connection(figures), Answer::Connection { connection, .. }) => {
                self.owners[usize::from(connection)] = Some(self.lines.len());
                self.lines.push(Line {
                    number: connection,
                    figures,
                    eligibilities: Vec::new(),
                    lengths: Vec::new(),
                    departed: 0,
                    closed: false,
                });
            }
            (
                Record::Packet {
                    connection, length, ..
                },
                Answer::Packet { eligibility, .. },
            ) => {
                let line = self.line_of(connection);
                line.eligibilities.push(eligibility);
                line.lengths.push(length);
            }
            (Record::Close { connection }, _) => self.line_of(connection).closed = true,
            (link @ Record::Link(_), _) => self.terms = Terms::of(&link),
            _ => {}
        }
    }

    /// Numbers whose line is closed and no longer charged have no owner.
    fn free(&mut self) {
        let (clock, time) = (self.clock(), self.charge_time());
        for owner in &mut self.owners {
            let over = |line: &Line| line.closed && line.charge_is_over(clock, time);
            *owner = owner.filter(|&line| !over(&self.lines[line]));
        }
    }
}

/// The records of a trace up to its end or to one that is malformed.
pub fn records(trace: &[u8]) -> impl Iterator<Item = Record> + '_ {
    let mut rest = trace;
    std::iter::from_fn(move || {
        let (record, length) = Record::read(rest)?;
        rest = &rest[length..];
        Some(record)
    })
}
