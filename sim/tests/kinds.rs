//! The generated traces are of use: verdicts and departures really occur, both paces agree.

use sim::kinds::{Kind, KINDS};
use sim::notices::NOTICE_NUMBER;
use sim::record::{Answer, Record};
use sim::replay::{answers, Job, Pace};
use sim::stats::Stats;

const SEEDS: u64 = 12;

fn total(name: &str) -> Stats {
    let kind = Kind::named(name).expect("a kind");
    let mut total = Stats::default();
    for seed in 0..SEEDS {
        let trace = kind.trace(seed, None);
        total += &Stats::of(trace.as_slice()).expect("counts");
    }
    total
}

#[test]
fn the_same_seed_gives_the_same_trace() {
    for kind in KINDS.iter().filter(|kind| !kind.name.ends_with("limit")) {
        assert!(kind.trace(3, None) == kind.trace(3, None));
        assert!(kind.trace(3, None) != kind.trace(4, None));
    }
}

#[test]
fn both_paces_agree() {
    let slow = [
        "limit",
        "clockend",
        "noticelimit",
        "noticeend",
        "silenceend",
        "averageend",
        "closelimit",
        "closeend",
        "stamplimit",
        "stampend",
        "earlylimit",
        "earlyend",
        "windowlimit",
        "windowend",
        "framelimit",
        "frameend",
    ];
    for kind in KINDS.iter().filter(|kind| !slow.contains(&kind.name)) {
        for seed in 0..SEEDS {
            let trace = kind.trace(seed, None);
            let plain = answers(&trace, Pace::Plain).expect("answers");
            let passing = answers(&trace, Pace::Passing).expect("answers");
            assert!(plain == passing, "{} {seed}", kind.name);
        }
    }
}

#[test]
fn every_refusal_occurs() {
    let refusals = total("refusals");
    for verdict in 2..=12 {
        assert!(refusals.verdict(verdict) > 5, "verdict {verdict}");
    }
    assert!(refusals.departures > 100);
    let end = total("clockend");
    for verdict in [0, 3, 5, 6, 8, 10, 11, 12, 13] {
        assert!(end.verdict(verdict) > 5, "verdict {verdict}");
    }
}

#[test]
fn traffic_departs() {
    for name in ["quiet", "flooded", "wild", "midrun", "ties", "reserve"] {
        assert!(total(name).departures > 300, "{name}");
    }
    assert!(total("bigpackets").departures > 100);
    assert!(total("tight").departures > 100);
}

#[test]
fn lines_that_keep_their_word_are_never_full() {
    let quiet = total("quiet");
    assert_eq!(quiet.verdict(12), 0);
    assert!(total("flooded").verdict(12) > 500);
    assert!(total("wild").verdict(12) > 500);
}

#[test]
fn tight_tests_hold_and_fail() {
    let tight = total("tight");
    assert!(tight.verdict(8) > 200);
    assert!(total("reserve").verdict(9) > 50);
    assert!(total("midrun").verdict(10) > 50);
}

#[test]
fn notices_wait_depart_and_are_refused() {
    for name in ["notices", "noticeflood", "noticefull", "noticerefusals"] {
        assert!(total(name).notices > 300, "{name}");
    }
    for name in ["noticeflood", "noticefull", "noticerefusals"] {
        assert!(total(name).verdict(15) > 200, "{name}");
    }
    assert!(total("noticeflood").departures > total("noticeflood").notices + 200);
    let refusals = total("noticerefusals");
    assert!(refusals.verdict(2) > 20 && refusals.verdict(11) > 100);
    let end = total("noticeend");
    assert!(end.notices > 100);
    assert!(end.verdict(11) > 20 && end.verdict(13) > 100 && end.verdict(15) > 0);
}

#[test]
fn silences_are_met() {
    for name in ["silence", "silencesplit"] {
        assert!(total(name).departures > 500, "{name}");
        assert!(total(name).notices > 200, "{name}");
    }
    let links = total("silencelinks");
    assert!(links.verdict(4) > 20 && links.verdict(8) > 200 && links.departures > 100);
    assert!(total("silenceend").verdict(13) > 100);
    assert!(total("refusals").verdict(4) > 10);
}

#[test]
fn averages_are_accepted_refused_and_flooded() {
    let bursts = total("bursts");
    assert!(bursts.departures > 500 && bursts.verdict(12) > 100);
    let flooded = total("averageflood");
    assert!(flooded.departures > 1_000 && flooded.verdict(12) > 300);
    let figures = total("averagefigures");
    for verdict in [2, 5, 6, 7, 8, 9] {
        assert!(figures.verdict(verdict) > 5, "verdict {verdict}");
    }
    assert!(figures.departures > 300);
    assert!(total("averagememory").departures > 1_000);
    assert!(total("averageend").verdict(13) > 50);
}

#[test]
fn connections_and_places_are_used_up() {
    let beds = total("beds");
    assert!(beds.verdict(7) > 20 && beds.verdict(9) > 10);
    assert!(beds.verdict(10) > 200 && beds.verdict(12) > 2_000);
    assert!(beds.departures > 15_000);
    let most = |name| (0..SEEDS).map(move |seed| most_used(name, seed));
    assert!(most("beds").all(|(standing, held)| standing == 200 || held == 2_048));
    assert_eq!(most("beds").filter(|&used| used == (200, 2_048)).count(), 6);
    assert!(most("reserve").all(|(_, held)| held == 2_048));
    assert!(most("refusals").all(|(standing, _)| standing == 200));
}

/// The most connections that stand and the most packets that are held anywhere in a trace.
fn most_used(name: &str, seed: u64) -> (usize, usize) {
    let trace = Kind::named(name).expect("a kind").trace(seed, None);
    let (mut job, mut rest, mut most) = (Job::new(Pace::Passing), &trace[..], (0, 0));
    let mut held: usize = 0;
    while let Some((record, length)) = Record::read(rest) {
        rest = &rest[length..];
        let result: Result<(), ()> = job.carry_out(record, &mut |answer| {
            match answer {
                Answer::Packet { verdict: 0, .. } => held += 1,
                Answer::Departed(one) if one.connection != NOTICE_NUMBER => held -= 1,
                _ => {}
            }
            Ok(())
        });
        assert_eq!(result, Ok(()));
        most.0 = most.0.max(job.hub().standing().count());
        most.1 = most.1.max(held);
    }
    most
}

#[test]
fn connections_are_closed_and_opened() {
    let all = [
        "closes",
        "closesmall",
        "closeturns",
        "closecharges",
        "closebeds",
        "closereopened",
    ];
    for name in all {
        assert!(total(name).departures > 300, "{name}");
    }
    for name in ["closes", "closesmall", "closeturns", "closecharges"] {
        assert!(total(name).verdict(8) > 100, "{name}");
    }
    assert!(total("closesmall").verdict(16) > 50);
    let refusals = total("closerefusals");
    assert!(refusals.verdict(2) > 20 && refusals.verdict(10) > 100 && refusals.verdict(16) > 500);
    let beds = total("closebeds");
    assert!(beds.verdict(7) > 50 && beds.verdict(9) > 100);
    let end = total("closeend");
    assert!(end.verdict(10) > 50 && end.verdict(13) > 50 && end.verdict(16) > 50);
}

#[test]
fn stamps_are_taken_and_refused() {
    let all = [
        "stamps",
        "stamprelays",
        "stampsmall",
        "stampfull",
        "stampreopened",
    ];
    for name in all {
        assert!(total(name).departures > 300, "{name}");
    }
    for name in ["stamps", "stampsmall", "stampfull", "stampfigures"] {
        assert!(total(name).verdict(17) > 400, "{name}");
    }
    assert_eq!(total("stamprelays").verdict(17), 0);
    assert!(total("stampfull").verdict(12) > 200);
    assert!(total("stampreopened").verdict(10) > 300);
    let figures = total("stampfigures");
    for verdict in [2, 5, 6, 7, 8, 9] {
        assert!(figures.verdict(verdict) > 5, "verdict {verdict}");
    }
    let end = total("stampend");
    assert!(end.verdict(12) > 100 && end.verdict(13) > 300 && end.verdict(17) > 500);
}

#[test]
fn damage_is_noticed() {
    let malformed = total("malformed");
    assert!(malformed.verdict(14) > SEEDS / 3);
    assert!(malformed.departures > 50);
    assert_eq!(total("badrecord").verdict(14), SEEDS);
    assert!(total("noticedamage").verdict(14) > SEEDS / 2);
    assert!(total("badnotice").verdict(14) > SEEDS / 2);
    assert!(total("closedamage").verdict(14) > SEEDS / 2);
    assert!(total("badclose").verdict(14) > SEEDS / 2);
    assert!(total("stampdamage").verdict(14) > SEEDS / 2);
    assert!(total("badstamp").verdict(14) > SEEDS / 2);
    assert!(total("earlydamage").verdict(14) > SEEDS / 2);
    assert!(total("badearly").verdict(14) > SEEDS / 2);
    assert!(total("windowdamage").verdict(14) > SEEDS / 2);
    assert!(total("badwindow").verdict(14) > SEEDS / 2);
}

#[test]
fn packets_stand_by_and_are_refused() {
    let all = [
        "early",
        "earlynotices",
        "earlyaverages",
        "earlycloses",
        "earlystamps",
        "earlyflood",
        "earlydistance",
        "earlysmall",
        "earlycharges",
    ];
    for name in all {
        assert!(total(name).departures > 300, "{name}");
        assert!(total(name).verdict(18) > 0, "{name}");
    }
    for name in ["early", "earlyaverages", "earlyflood", "earlydistance"] {
        assert!(total(name).verdict(18) > 200, "{name}");
    }
    assert!(total("earlyflood").ticks > 12 * 10_000);
    assert_eq!(total("earlyoff").verdict(18), 0);
    let links = total("earlylinks");
    for verdict in [2, 3, 4] {
        assert!(links.verdict(verdict) > 10, "verdict {verdict}");
    }
    let end = total("earlyend");
    assert!(end.verdict(13) > 50 && end.verdict(18) > 50);
}

#[test]
fn windows_are_met() {
    let all = [
        "windows",
        "windownotices",
        "windowaverages",
        "windowcloses",
        "windowstamps",
        "windowearly",
        "windowbounds",
        "windowzeros",
        "windowflood",
        "windowedges",
        "windowsmall",
        "windowcharges",
        "windowlinks",
    ];
    for name in all {
        assert!(total(name).departures > 200, "{name}");
        assert!(total(name).verdict(8) > 20, "{name}");
    }
    let links = total("windowlinks");
    for verdict in [2, 3, 4] {
        assert!(links.verdict(verdict) > 10, "verdict {verdict}");
    }
    assert!(total("windowedges").verdict(8) > 200);
    assert!(total("windowend").verdict(13) > 50);
}
