//! What must hold of every generated trace with frames (docs/RULES.md, R-13), told by the
//! records and their answers alone: every verdict is found again by counting all that was accepted, and all
//! departures are those of a schedule that goes from start to start and knows no ticks.

use std::collections::VecDeque;
use std::convert::Infallible;

use sim::departure::Departure;
use sim::frames::{Framing, Share};
use sim::hub::CLOCK_END;
use sim::kinds::{Kind, KINDS};
use sim::notices::NOTICE_NUMBER;
use sim::record::{Answer, Record};
use sim::replay::{answers, Job, Pace};
use sim::verdict::Shortage;

const SEEDS: u64 = 12;

/// The answer to an admission that the discipline of the line does not know.
const NO_LINK_FOR_IT: Answer = Answer::Connection {
    verdict: 2,
    connection: 255,
    short: None,
};

/// A packet or a notice that was accepted.
#[derive(Clone, Copy, Debug)]
struct Accepted {
    connection: u8,
    length: u16,
    tag: u32,
    arrival: u64,
    eligibility: u64,
}

/// What was met.
#[derive(Debug, Default)]
struct Met {
    departed: usize,
    verdicts: [usize; 20],
    in_the_last_tick: usize,
    late_by_a_notice: usize,
    kept_to_half: usize,
    latest: u64,
}

/// What the records and answers tell.
#[derive(Default)]
struct Told {
    link: Option<Framing>,
    has_levels: bool,
    shares: Vec<Share>,
    clock: u64,
    all: Vec<Accepted>,
    held: VecDeque<Accepted>,
    notices: VecDeque<Accepted>,
    /// What is in service and its finish; when the line may start again.
    serving: Option<(Accepted, u64)>,
    free: u64,
    /// The offers of allowed length: connection, frame; who ever got 12.
    offers: Vec<(u8, u64)>,
    full: Vec<u8>,
}

fn records(trace: &[u8]) -> Vec<Record> {
    let mut all = Vec::new();
    let mut at = 0;
    while let Some((record, length)) = Record::read(&trace[at..]) {
        all.push(record);
        at += length;
    }
    all
}

fn is_frames(kind: &&Kind) -> bool {
    kind.has_frames() && !kind.name.ends_with("limit")
}

impl Told {
    fn frame_of(&self, tick: u64) -> u64 {
        self.link.map_or(0, |link| tick / u64::from(link.frame))
    }

    fn cost(&self, length: u16) -> u64 {
        u64::from(length) + self.link.map_or(0, |link| u64::from(link.silence))
    }

    fn held_by(&self, connection: u8) -> usize {
        let own = |one: &&Accepted| one.connection == connection;
        self.held.iter().filter(own).count()
    }

    /// What the packets of a connection cost that were accepted in this frame.
    fn used_by(&self, connection: u8) -> u64 {
        let now = self.frame_of(self.clock);
        let since = self.all.iter().rev();
        let recent = since.take_while(|one| self.frame_of(one.arrival) == now);
        let own = recent.filter(|one| one.connection == connection);
        own.map(|one| self.cost(one.length)).sum()
    }

    fn link_verdict(&self, framing: &Framing) -> u8 {
        let cost = u32::from(framing.largest) + u32::from(framing.silence);
        let good = (1..=32_768).contains(&framing.frame)
            && (1..=2_048).contains(&framing.largest)
            && framing.silence <= 64
            && cost <= u32::from(framing.frame);
        match (self.link.is_some() || self.has_levels, good) {
            (true, _) => 3,
            (false, true) => 0,
            (false, false) => 4,
        }
    }

    fn share_verdict(&self, share: &Share) -> (u8, u64) {
        let link = match self.link {
            Some(link) => link,
            None => return (2, 0),
        };
        let units: u64 = self.shares.iter().map(|one| u64::from(one.units)).sum();
        let places: u64 = self.shares.iter().map(|one| u64::from(one.places)).sum();
        let sum = units + u64::from(share.units) + self.cost(link.largest);
        let bad = |figure| !(1..=2_048).contains(&figure);
        if bad(share.units) || bad(share.places) {
            (6, 0)
        } else if self.shares.len() == 200 {
            (7, 0)
        } else if sum > u64::from(link.frame) {
            (8, sum - u64::from(link.frame))
        } else if places + u64::from(share.places) > 2_048 {
            (9, 0)
        } else {
            (0, 0)
        }
    }

    fn offer_verdict(&self, connection: u8, length: u16) -> u8 {
        let link = match self.link {
            Some(link) => link,
            None => return 2,
        };
        let share = match self.shares.get(usize::from(connection)) {
            Some(share) => share,
            None => return 10,
        };
        if !(1..=link.largest).contains(&length) {
            11
        } else if self.held_by(connection) >= usize::from(share.places) {
            12
        } else if self.clock == CLOCK_END {
            13
        } else if self.used_by(connection) + self.cost(length) > u64::from(share.units) {
            19
        } else {
            0
        }
    }

    fn notice_verdict(&self, length: u16) -> u8 {
        match self.link {
            None => 2,
            Some(link) if !(1..=link.largest).contains(&length) => 11,
            Some(_) if self.clock == CLOCK_END => 13,
            Some(_) if self.notices.len() >= 64 => 15,
            Some(_) => 0,
        }
    }

    /// The departures of so many ticks, from start to start.
    fn run(&mut self, ticks: u64) -> Vec<Departure> {
        let end = self.clock + ticks;
        let mut departures = Vec::new();
        loop {
            if self.serving.is_none() {
                self.start(end);
            }
            match self.serving {
                Some((one, finish)) if finish <= end => {
                    self.serving = None;
                    self.free = finish + self.cost(one.length) - u64::from(one.length);
                    match one.connection {
                        NOTICE_NUMBER => self.notices.pop_front(),
                        _ => self.held.pop_front(),
                    };
                    departures.push(Departure {
                        connection: one.connection,
                        tag: one.tag,
                        arrival: one.arrival,
                        eligibility: one.eligibility,
                        finish,
                    });
                }
                _ => break,
            }
        }
        self.clock = end;
        departures
    }

    /// What starts before a moment, if anything does.
    fn start(&mut self, end: u64) {
        let from = self.free.max(self.clock);
        let first = self.held.front().copied();
        let eligible = first.filter(|one| one.eligibility <= from);
        let (one, start) = match (eligible, self.notices.front(), first) {
            (Some(one), _, _) => (one, from),
            (None, Some(&notice), _) => (notice, from),
            (None, None, Some(one)) => (one, one.eligibility),
            (None, None, None) => return,
        };
        if start < end {
            self.serving = Some((one, start + u64::from(one.length)));
        }
    }

    fn accept(&mut self, connection: u8, length: u16, tag: u32, eligibility: u64) {
        let one = Accepted {
            connection,
            length,
            tag,
            arrival: self.clock,
            eligibility,
        };
        match connection {
            NOTICE_NUMBER => self.notices.push_back(one),
            _ => {
                self.all.push(one);
                self.held.push_back(one);
            }
        }
    }

    /// Holds the answers to a record against what is told.
    fn hear(&mut self, record: &Record, answered: &[Answer], met: &mut Met) {
        if self.has_levels {
            return self.hear_levels(record, answered);
        }
        match (record, answered) {
            (Record::Framing(_) | Record::Link(_), [Answer::Link { verdict }]) => {
                self.hear_link(record, *verdict);
            }
            (Record::Share(share), [answer]) => self.hear_share(share, answer),
            (Record::Connection(_), [answer]) => assert_eq!(*answer, NO_LINK_FOR_IT),
            (Record::Close { .. }, [answer]) => assert_eq!(answer.verdict(), Some(2)),
            (
                Record::Packet { .. },
                [Answer::Packet {
                    verdict,
                    eligibility,
                }],
            ) => {
                self.hear_offer(record, (*verdict, *eligibility), met);
            }
            (
                Record::Notice { length, tag },
                [Answer::Notice {
                    verdict,
                    eligibility,
                }],
            ) => {
                self.hear_notice(*length, *tag, (*verdict, *eligibility));
            }
            (Record::Ticks { asked }, [departed @ .., Answer::Ticks { verdict, done }]) => {
                self.hear_ticks(*asked, departed, (*verdict, *done), met);
            }
            _ => panic!("{record:?}: {answered:?}"),
        }
        if let Some(verdict) = answered.last().and_then(Answer::verdict) {
            met.verdicts[usize::from(verdict)] += 1;
        }
    }

    fn hear_link(&mut self, record: &Record, verdict: u8) {
        match (record, self.link) {
            (Record::Framing(framing), _) => {
                assert_eq!(verdict, self.link_verdict(framing));
                if verdict == 0 {
                    self.link = Some(*framing);
                }
            }
            (_, Some(_)) => assert_eq!(verdict, 3),
            (_, None) => self.has_levels = verdict == 0,
        }
    }

    fn hear_share(&mut self, share: &Share, answer: &Answer) {
        let (verdict, units) = self.share_verdict(share);
        assert!(units <= u64::from(share.units));
        let number = self.shares.len() as u8;
        let connection = if verdict == 0 { number } else { 255 };
        let short = (verdict == 8).then_some(Shortage { level: 0, units });
        let expected = Answer::Connection {
            verdict,
            connection,
            short,
        };
        assert_eq!(*answer, expected);
        if verdict == 0 {
            self.shares.push(*share);
        }
    }

    fn hear_notice(&mut self, length: u16, tag: u32, told: (u8, u64)) {
        let verdict = self.notice_verdict(length);
        let eligibility = if verdict == 0 { self.clock } else { 0 };
        assert_eq!(told, (verdict, eligibility));
        if verdict == 0 {
            self.accept(NOTICE_NUMBER, length, tag, eligibility);
        }
    }

    /// On a line with levels only what frames alone know is looked at.
    fn hear_levels(&self, record: &Record, answered: &[Answer]) {
        match (record, answered) {
            (Record::Framing(_), [Answer::Link { verdict }]) => assert_eq!(*verdict, 3),
            (Record::Share(_), [answer]) => assert_eq!(*answer, NO_LINK_FOR_IT),
            (Record::Framing(_) | Record::Share(_), _) => panic!("{answered:?}"),
            _ => {}
        }
    }

    fn hear_offer(&mut self, record: &Record, told: (u8, u64), met: &mut Met) {
        let (connection, length, tag) = match *record {
            Record::Packet {
                connection,
                length,
                tag,
                stamp: None,
            } => (connection, length, tag),
            _ => return assert_eq!(told, (2, 0)),
        };
        let (verdict, eligibility) = told;
        assert_eq!(verdict, self.offer_verdict(connection, length));
        if !matches!(verdict, 2 | 10 | 11) {
            self.offers.push((connection, self.frame_of(self.clock)));
        }
        if verdict == 12 {
            self.full.push(connection);
        }
        if verdict != 0 {
            return assert_eq!(eligibility, 0);
        }
        let frame = self.link.map_or(1, |link| u64::from(link.frame));
        assert!(eligibility % frame == 0 && eligibility > self.clock);
        assert!(eligibility - self.clock <= frame);
        met.in_the_last_tick += usize::from(eligibility == self.clock + 1);
        self.accept(connection, length, tag, eligibility);
    }

    fn hear_ticks(&mut self, asked: u16, departed: &[Answer], told: (u8, u16), met: &mut Met) {
        if self.link.is_none() {
            return assert_eq!((told, departed.len()), ((2, 0), 0));
        }
        let left = CLOCK_END - self.clock;
        let done = left.min(u64::from(asked));
        let verdict = if done < u64::from(asked) { 13 } else { 0 };
        assert_eq!(told, (verdict, done as u16));
        let departures = self.run(done);
        let given: Vec<Departure> = departed
            .iter()
            .filter_map(|answer| match answer {
                Answer::Departed(departure) => Some(*departure),
                _ => None,
            })
            .collect();
        assert_eq!(given, departures);
        let packets = given.iter().filter(|one| one.connection != NOTICE_NUMBER);
        for one in packets {
            let frame = self.link.map_or(1, |link| u64::from(link.frame));
            assert!(one.finish > one.eligibility);
            assert!(one.finish <= (one.arrival / frame + 2) * frame);
            met.departed += 1;
            met.latest = met.latest.max((one.finish - one.eligibility) * 100 / frame);
        }
        let waits = self
            .held
            .front()
            .map_or(false, |one| one.eligibility <= self.clock);
        let by_notice = matches!(self.serving, Some((one, _)) if one.connection == NOTICE_NUMBER);
        met.late_by_a_notice += usize::from(waits && by_notice);
    }

    /// The connections of whose offers at most half as many as there are places came in each frame.
    fn keep_to_half(&self) -> Vec<u8> {
        let half = |connection: &u8| {
            let places = usize::from(self.shares[usize::from(*connection)].places);
            let frames = self.offers.iter().filter(|one| one.0 == *connection);
            let mut counts = std::collections::HashMap::new();
            for (_, frame) in frames {
                *counts.entry(frame).or_insert(0) += 2;
            }
            !counts.is_empty() && counts.values().all(|twice| *twice <= places)
        };
        (0..self.shares.len() as u8).filter(half).collect()
    }
}

fn follow(trace: &[u8], met: &mut Met) -> Told {
    let mut job = Job::new(Pace::Passing);
    let mut told = Told::default();
    for record in records(trace) {
        let mut answered = Vec::new();
        let done = job.carry_out::<Infallible>(record.clone(), &mut |answer| {
            answered.push(answer);
            Ok(())
        });
        done.unwrap_or_else(|never| match never {});
        told.hear(&record, &answered, met);
    }
    told
}

#[test]
fn all_answers_are_found_again() {
    let mut met = Met::default();
    for kind in KINDS.iter().filter(is_frames) {
        for seed in 0..SEEDS {
            let trace = kind.trace(seed, None);
            let told = follow(&trace, &mut met);
            let halves = told.keep_to_half();
            met.kept_to_half += halves.len();
            assert!(halves.iter().all(|one| !told.full.contains(one)));
        }
    }
    for verdict in [0, 2, 3, 4, 6, 7, 8, 9, 10, 11, 12, 13, 15, 19] {
        assert!(met.verdicts[verdict] > 5, "verdict {verdict}: {met:?}");
    }
    assert!(
        met.departed > 5_000 && met.in_the_last_tick > 200,
        "{met:?}"
    );
    assert!(
        met.late_by_a_notice > 20 && met.kept_to_half > 50,
        "{met:?}"
    );
    assert!(met.latest > 90, "{met:?}");
}

/// What is told to one connection, without the offers of all others and without notices.
fn alone(trace: &[u8], number: u8) -> Vec<u8> {
    let mut bytes = Vec::new();
    for record in records(trace) {
        let is_kept = match record {
            Record::Packet { connection, .. } => connection == number,
            Record::Notice { .. } => false,
            _ => true,
        };
        if is_kept {
            record.append_to(&mut bytes);
        }
    }
    bytes
}

fn told_to(trace: &[u8], number: u8) -> Vec<Answer> {
    let mut job = Job::new(Pace::Passing);
    let mut told = Vec::new();
    for record in records(trace) {
        let own = matches!(record, Record::Packet { connection, .. } if connection == number);
        let done = job.carry_out::<Infallible>(record, &mut |answer| {
            if own {
                told.push(answer);
            }
            Ok(())
        });
        done.unwrap_or_else(|never| match never {});
    }
    told
}

#[test]
fn nobody_changes_what_half_is_told() {
    let mut compared = 0;
    for name in [
        "framehalves",
        "framelast",
        "frameflood",
        "framesmall",
        "frames",
    ] {
        let kind = Kind::named(name).expect("a kind");
        for seed in 0..SEEDS {
            let trace = kind.trace(seed, None);
            for number in follow(&trace, &mut Met::default()).keep_to_half() {
                let told = told_to(&trace, number);
                assert_eq!(told, told_to(&alone(&trace, number), number));
                compared += told.len();
            }
        }
    }
    assert!(compared > 300, "{compared}");
}

#[test]
fn every_pace_agrees_and_stays_sound() {
    for kind in KINDS
        .iter()
        .filter(is_frames)
        .filter(|kind| kind.name != "frameend")
    {
        for seed in 0..SEEDS {
            let trace = kind.trace(seed, None);
            let plain = answers(&trace, Pace::Plain).expect("answers");
            let tested = answers(&trace, Pace::Tested).expect("answers");
            assert!(plain == tested, "{} {seed}", kind.name);
        }
    }
}
