//! The departures of every generated trace against a schedule that knows no ticks: from start to
//! start, with the silence behind each finish (docs/RULES.md, R-4) and with packets
//! that go early (section R-11).

use sim::departure::Departure;
use sim::kinds::Kind;
use sim::notices::NOTICE_NUMBER;
use sim::record::{Answer, Record};
use sim::replay::{Job, Pace};

/// What was accepted. A notice is of a level below all others. What may go early may start from its
/// arrival on, other packets from their eligibility on.
struct Accepted {
    level: u8,
    may_go_early: bool,
    length: u64,
    departure: Departure,
}

/// A trace as its answers tell it.
#[derive(Default)]
struct Told {
    accepted: Vec<Accepted>,
    departed: Vec<Departure>,
    offers_in_silence: usize,
    ticks_ended_in_silence: usize,
}

impl Told {
    fn accept(&mut self, job: &Job, record: Record, eligibility: u64) {
        let (connection, length, tag) = match record {
            Record::Packet {
                connection,
                length,
                tag,
                ..
            } => (connection, length, tag),
            Record::Notice { length, tag } => (NOTICE_NUMBER, length, tag),
            _ => return,
        };
        let standing = job.hub().connection(connection);
        let stands_by = job.hub().link().map_or(false, |link| link.stands_by());
        self.accepted.push(Accepted {
            level: standing.map_or(u8::MAX, |one| one.level()),
            may_go_early: stands_by && standing.map_or(false, |one| one.allowance().is_none()),
            length: u64::from(length),
            departure: Departure {
                connection,
                tag,
                arrival: job.hub().clock(),
                eligibility,
                finish: 0,
            },
        });
        self.offers_in_silence += usize::from(job.hub().silence_left() > 0);
    }
}

/// Runs a trace; the job is left as it is at the end.
fn told(trace: &[u8]) -> (Told, Job) {
    let (mut job, mut told, mut rest) = (Job::new(Pace::Passing), Told::default(), trace);
    while let Some((record, length)) = Record::read(rest) {
        rest = &rest[length..];
        let mut last = None;
        let result: Result<(), ()> = job.carry_out(record.clone(), &mut |answer| {
            if let Answer::Departed(departure) = answer {
                told.departed.push(departure);
            }
            last = Some(answer);
            Ok(())
        });
        assert_eq!(result, Ok(()));
        match last {
            Some(
                Answer::Packet {
                    verdict: 0,
                    eligibility,
                }
                | Answer::Notice {
                    verdict: 0,
                    eligibility,
                },
            ) => told.accept(&job, record, eligibility),
            Some(Answer::Ticks { .. }) => {
                told.ticks_ended_in_silence += usize::from(job.hub().silence_left() > 0);
            }
            _ => {}
        }
    }
    (told, job)
}

impl Accepted {
    /// From when on it may start.
    fn from(&self) -> u64 {
        match self.may_go_early {
            true => self.departure.arrival,
            false => self.departure.eligibility,
        }
    }

    /// What is eligible by level, eligibility and the order offered; then what is not, by that alone.
    fn rank(&self, start: u64, offered: usize) -> (bool, u8, u64, usize) {
        match self.departure.eligibility {
            eligibility if eligibility <= start => (false, self.level, eligibility, offered),
            _ => (true, 0, 0, offered),
        }
    }
}

/// Every departure up to a clock: the line is free a silence behind each finish, and takes the
/// lowest level, then the earliest eligibility, then the earliest offered; where nothing is eligible,
/// the earliest offered of those that may go early.
fn schedule(accepted: Vec<Accepted>, silence: u64, clock: u64) -> Vec<Departure> {
    let (mut waiting, mut free, mut departed) = (accepted, 0, Vec::new());
    while let Some(earliest) = waiting.iter().map(Accepted::from).min() {
        let start = earliest.max(free);
        let chosen = waiting
            .iter()
            .enumerate()
            .filter(|(_, one)| one.from() <= start)
            .min_by_key(|(offered, one)| one.rank(start, *offered))
            .map(|(offered, _)| offered);
        let one = waiting.remove(chosen.expect("the earliest may start"));
        let finish = start + one.length;
        if finish > clock {
            break;
        }
        departed.push(Departure {
            finish,
            ..one.departure
        });
        free = finish + silence;
    }
    departed
}

#[test]
fn departures_are_those_of_the_schedule() {
    let (mut behind_a_silence, mut early) = (0, 0);
    for kind in Kind::of_levels().filter(|kind| !kind.name.ends_with("limit")) {
        for seed in 0..12 {
            let (told, job) = told(&kind.trace(seed, None));
            let silence = job.hub().link().map_or(0, |link| u64::from(link.silence()));
            let expected = schedule(told.accepted, silence, job.hub().clock());
            assert!(told.departed == expected, "{} {seed}", kind.name);
            if silence > 0 {
                behind_a_silence += expected.len();
            }
            let is_early = |one: &&Departure| one.finish <= one.eligibility;
            early += expected.iter().filter(is_early).count();
        }
    }
    assert!(behind_a_silence > 10_000, "only {behind_a_silence}");
    assert!(early > 5_000, "only {early}");
}

#[test]
fn silences_are_split_and_offered_into() {
    let kind = Kind::named("silencesplit").expect("a kind");
    let (mut offers, mut ticks) = (0, 0);
    for seed in 0..12 {
        let (told, _) = told(&kind.trace(seed, None));
        offers += told.offers_in_silence;
        ticks += told.ticks_ended_in_silence;
    }
    assert!(offers > 200 && ticks > 1_000, "{offers} {ticks}");
}

#[test]
fn the_clock_ends_in_silences() {
    let kind = Kind::named("silenceend").expect("a kind");
    let ends = [0, 1, 2, 3].map(|seed| {
        let (_, job) = told(&kind.trace(seed, None));
        let whole = job.hub().link().expect("a link").silence();
        (job.hub().silence_left(), whole)
    });
    // With the last tick; within the silence; with its end; a tick of another packet behind it.
    assert_eq!(ends[0].0, ends[0].1);
    assert!(ends[1].0 > 0 && ends[1].0 < ends[1].1, "{ends:?}");
    assert_eq!(ends[2].0, 0);
    assert_eq!(ends[3].0, ends[3].1);
}
