//! Numbers, charges and closes of every generated trace (docs/RULES.md, R-8),
//! told by the records and their answers alone.


use sim::hub::CLOCK_END;
use sim::kinds::Kind;
use sim::link::{Connection, Figures, Link, MOST_RESERVED};
use sim::record::{Answer, Record};
use crate::told::{records, Line, Told};

/// What was met.
#[derive(Debug, Default)]
struct Met {
    never_sent: usize,
    time_reached: usize,
    charged: usize,
    held: usize,
    nobody: usize,
    no_link: usize,
    ended_inside: usize,
    ended_with_the_record: usize,
    a_tick_before_the_end: usize,
    reused_numbers: usize,
    all_owned: usize,
    short_by_charges: usize,
    places_by_charges: usize,
    fresh_behind_an_average: usize,
    in_a_silence: usize,
    at_the_clocks_end: usize,
    ended_with_the_clock: usize,
    charged_for_ever: usize,
}

/// A trace whose answers are foreseen from what was told before.
struct Foreseen {
    told: Told,
    met: Met,
}

impl Foreseen {
    fn carry_out(&mut self, record: Record) {
        match record {
            Record::Connection(figures) => self.admit(figures),
            Record::Close { connection } => self.close(connection),
            Record::Packet {
                connection, stamp, ..
            } => self.offer(record, connection, stamp.is_some()),
            Record::Ticks { .. } => self.tick(record),
            _ => {
                self.told.carry_out(record);
            }
        }
        self.hold_against_the_hub();
    }

    fn link(&self) -> Option<Link> {
        self.told.job.hub().link().ok().copied()
    }

    fn admit(&mut self, figures: Figures) {
        let expected = self.link().map(|link| self.admission(&link, figures));
        let free = self.told.lowest_free();
        let answer = self.told.carry_out(Record::Connection(figures));
        let (verdict, number) = match answer {
            Answer::Connection {
                verdict,
                connection,
                ..
            } => (verdict, connection),
            other => panic!("{other:?}"),
        };
        assert_eq!(verdict, expected.unwrap_or(2), "{figures:?}");
        if verdict == 0 {
            assert_eq!(Some(number), free);
        }
    }

    /// The verdict of an admission on a link that is set, from the figures of all owners.
    fn admission(&mut self, link: &Link, figures: Figures) -> u8 {
        if let Err(refusal) = Connection::new(link, figures) {
            return refusal.number();
        }
        let any_charged = self.told.owners().any(|(_, line)| line.closed);
        if self.told.lowest_free().is_none() {
            self.met.all_owned += usize::from(any_charged);
            return 7;
        }
        let terms = self.told.terms.expect("a link");
        let passes = |all: &[Figures]| terms.short(all).is_none();
        let reserved = |one: &Figures| {
            let accepted = Connection::new(link, *one).expect("within its limits");
            accepted.reservation(link)
        };
        let fits = |all: &[Figures]| all.iter().map(reserved).sum::<u64>() <= MOST_RESERVED;
        let with = |kept: fn(&Line) -> bool| {
            let owners = self.told.owners().filter(|(_, line)| kept(line));
            let mut all: Vec<Figures> = owners.map(|(_, line)| line.figures).collect();
            all.push(figures);
            all
        };
        let (all, standing) = (with(|_| true), with(|line| !line.closed));
        if !passes(&all) {
            self.met.short_by_charges += usize::from(passes(&standing));
            return 8;
        }
        if !fits(&all) {
            self.met.places_by_charges += usize::from(fits(&standing));
            return 9;
        }
        0
    }

    fn close(&mut self, number: u8) {
        let (clock, time) = (self.told.clock(), self.told.charge_time());
        let held = self.told.standing(number).map_or(0, Line::held);
        assert_eq!(held, self.told.job.hub().held_by(number));
        let expected = match self.told.standing(number) {
            _ if self.link().is_none() => 2,
            None => 10,
            Some(_) if held > 0 => 16,
            Some(line) => {
                let sent = !line.eligibilities.is_empty();
                let over = line.charge_is_over(clock, time);
                self.met.never_sent += usize::from(!sent);
                self.met.time_reached += usize::from(sent && over);
                self.met.charged += usize::from(!over);
                self.met.charged_for_ever += usize::from(!over && clock == CLOCK_END);
                0
            }
        };
        self.met.no_link += usize::from(expected == 2);
        self.met.nobody += usize::from(expected == 10);
        self.met.held += usize::from(expected == 16);
        self.met.in_a_silence +=
            usize::from(expected == 0 && self.told.job.hub().silence_left() > 0);
        self.met.at_the_clocks_end += usize::from(clock == CLOCK_END);
        let answer = self.told.carry_out(Record::Close { connection: number });
        assert_eq!(answer, Answer::Closed { verdict: expected });
    }

    /// Only a number that stands takes offers, with a stamp exactly where its owner is regulated by
    /// stamps; a first one without is eligible on arrival whoever had the number before.
    fn offer(&mut self, record: Record, number: u8, stamped: bool) {
        let standing = self.told.standing(number);
        let first = standing
            .filter(|line| line.figures.allowance.is_some() == stamped)
            .map(|line| line.held() == 0 && line.departed == 0);
        let clock = self.told.clock();
        let answer = self.told.carry_out(record);
        let nobody = answer.verdict() == Some(10);
        assert_eq!(nobody, first.is_none() && self.link().is_some());
        if let (
            Some(true),
            Answer::Packet {
                verdict: 0,
                eligibility,
            },
        ) = (first.filter(|_| !stamped), answer)
        {
            assert_eq!(eligibility, clock);
            self.met.fresh_behind_an_average +=
                usize::from(self.waited_for_a_window(number, clock));
        }
    }

    /// Whether an earlier owner of these figures would have had to wait for its window.
    fn waited_for_a_window(&self, number: u8, clock: u64) -> bool {
        let now = self.told.owner(number).expect("it stands").figures;
        let lines = self.told.lines.iter().rev();
        let mut before = lines.filter(|line| line.closed && line.figures == now);
        now.average > 0
            && before.next().map_or(false, |line| {
                let nth = usize::from(now.window / now.average) - 1;
                let nth = line.eligibilities.iter().rev().nth(nth);
                nth.map_or(false, |nth| nth + u64::from(now.window) > clock)
            })
    }

    fn tick(&mut self, record: Record) {
        let time = self.told.charge_time();
        let charged = self.told.owners().filter(|(_, line)| line.closed);
        let ends: Vec<u64> = charged
            .filter_map(|(_, line)| Some(line.eligibilities.last()? + time))
            .collect();
        self.told.carry_out(record);
        let clock = self.told.clock();
        for end in ends {
            self.met.ended_inside += usize::from(end < clock);
            self.met.ended_with_the_record += usize::from(end == clock);
            self.met.a_tick_before_the_end += usize::from(end == clock + 1);
            self.met.ended_with_the_clock += usize::from(end == clock && clock == CLOCK_END);
        }
    }

    fn hold_against_the_hub(&mut self) {
        let (hub, time) = (self.told.job.hub(), self.told.charge_time());
        let standing: Vec<u8> = hub.standing().map(|(number, _)| number).collect();
        let charged: Vec<(u8, u64)> = hub.charged().collect();
        let (mut stand, mut are_charged) = (Vec::new(), Vec::new());
        for (number, line) in self.told.owners() {
            match line.eligibilities.last() {
                Some(last) if line.closed => are_charged.push((number, last + time)),
                _ => stand.push(number),
            }
        }
        assert_eq!((standing, charged), (stand, are_charged));
    }
}

fn follow(trace: &[u8], met: Met) -> Met {
    let mut foreseen = Foreseen {
        told: Told::new(),
        met,
    };
    for record in records(trace) {
        foreseen.carry_out(record);
    }
    let Foreseen { told, mut met } = foreseen;
    met.reused_numbers += told.lines.len() - told.lines.len().min(told.owners().count());
    met
}

fn met_by(name: &str, seeds: u64) -> Met {
    let kind = Kind::named(name).expect("a kind");
    let traces = (0..seeds).map(|seed| kind.trace(seed, None));
    traces.fold(Met::default(), |met, trace| follow(&trace, met))
}

/// Kinds with closes that are not about them.
const WITH_CLOSES: [&str; 21] = [
    "stampsmall",
    "stampreopened",
    "stampdamage",
    "badstamp",
    "earlystamps",
    "earlyoff",
    "earlysmall",
    "earlycharges",
    "earlydamage",
    "badearly",
    "earlyend",
    "windowstamps",
    "windowearly",
    "windowbounds",
    "windowzeros",
    "windowedges",
    "windowsmall",
    "windowcharges",
    "windowdamage",
    "badwindow",
    "windowend",
];

#[test]
fn every_number_of_every_trace() {
    for kind in Kind::of_levels().filter(|kind| !kind.name.ends_with("limit")) {
        let seeds = match kind.name {
            name if name.ends_with("end") => 1,
            name if name.starts_with("bad") => 12,
            _ => 5,
        };
        let met = met_by(kind.name, seeds);
        let closes = met.never_sent + met.time_reached + met.charged;
        let with_closes = kind.name.contains("close") || WITH_CLOSES.contains(&kind.name);
        assert_eq!(closes > 0, with_closes, "{}", kind.name);
    }
}

#[test]
fn closes_of_every_sort() {
    let met = met_by("closesmall", 12);
    assert!(
        met.never_sent > 50 && met.charged > 50 && met.time_reached > 20,
        "{met:?}"
    );
    assert!(
        met.held > 50 && met.nobody > 50 && met.in_a_silence > 20,
        "{met:?}"
    );
    let met = met_by("closerefusals", 12);
    assert!(
        met.no_link > 20 && met.nobody > 50 && met.held > 200,
        "{met:?}"
    );
    let met = met_by("closes", 12);
    assert!(
        met.charged > 50 && met.held > 50 && met.in_a_silence > 20,
        "{met:?}"
    );
}

#[test]
fn lines_in_turn_are_kept_out_by_charges() {
    let met = met_by("closeturns", 12);
    assert!(met.charged > 300 && met.short_by_charges > 500, "{met:?}");
    assert!(met.reused_numbers > 300, "{met:?}");
}

#[test]
fn charges_end_inside_records_with_them_and_beside_them() {
    let met = met_by("closecharges", 12);
    assert!(
        met.ended_inside > 60 && met.ended_with_the_record > 30,
        "{met:?}"
    );
    assert!(
        met.a_tick_before_the_end > 20 && met.time_reached > 50,
        "{met:?}"
    );
}

#[test]
fn charges_use_up_numbers_and_places() {
    let met = met_by("closebeds", 12);
    assert!(met.all_owned > 50 && met.places_by_charges > 30, "{met:?}");
    assert!(
        met.short_by_charges > 0 && met.reused_numbers > 100,
        "{met:?}"
    );
}

#[test]
fn numbers_are_given_again_behind_averages() {
    let met = met_by("closereopened", 12);
    assert!(met.fresh_behind_an_average > 30, "{met:?}");
}

#[test]
fn closes_at_the_clocks_end() {
    let met = met_by("closeend", 4);
    assert!(
        met.at_the_clocks_end > 30 && met.charged_for_ever > 0,
        "{met:?}"
    );
    assert!(met.ended_with_the_clock > 0, "{met:?}");
}
