//! Which level was short, and by how much (docs/RULES.md, R-2).


use std::collections::BTreeSet;

use sim::hub::Hub;
use sim::kinds::Kind;
use sim::link::{Figures, Link};
use sim::record::{Answer, Record};
use sim::replay::{answers, Pace};
use sim::verdict::{Refusal, Shortage};
use crate::told::{records, Terms, Told};

const LINK_A: &[u8] = b"LK\x02\x04\x00\x00\x0A\x00\x14\x00";

fn hub(largest: u16, used: &[u16]) -> Hub {
    let mut bounds = [0; 8];
    bounds[..used.len()].copy_from_slice(used);
    let mut hub = Hub::new();
    let link = Link::new(used.len() as u8, largest, 0, bounds);
    assert_eq!(hub.set_link(link), Ok(()));
    hub
}

fn short(level: u8, units: u64) -> Result<u8, Refusal> {
    Err(Refusal::LevelTest(Shortage { level, units }))
}

fn admission(level: u8, gap: u16, size: u16) -> Vec<u8> {
    let mut bytes = Vec::new();
    Record::Connection(Figures::plain(level, gap, size)).append_to(&mut bytes);
    bytes
}

fn answered(trace: &[&[u8]]) -> Vec<u8> {
    answers(&trace.concat(), Pace::Passing).expect("answers")
}

/// The last so many bytes of the answers.
fn tail(trace: &[&[u8]], length: usize) -> Vec<u8> {
    let given = answered(trace);
    given[given.len() - length..].to_vec()
}

#[test]
fn the_bytes_of_p4_p6_and_p7() {
    let [p1, p2, p3] = [(1, 10, 4), (2, 20, 4), (1, 9, 1)].map(|(l, x, s)| admission(l, x, s));
    let p4 = admission(1, 9, 2);
    let given = tail(&[LINK_A, &p1, &p2, &p4], 9);
    assert_eq!(given, b"CA\x08\xFF\x01\x02\x00\x00\x00");
    let p5 = admission(2, 20, 1);
    let given = tail(&[LINK_A, &p1, &p2, &p3, &p5, &p5], 9);
    assert_eq!(given, b"CA\x08\xFF\x02\x01\x00\x00\x00");
    let given = tail(&[LINK_A, &p2, &p2, &p2, &p1], 9);
    assert_eq!(given, b"CA\x08\xFF\x02\x04\x00\x00\x00");
}

#[test]
fn any_other_verdict_gives_0_and_0_also_behind_an_8() {
    // Without a link 2. Then 10 * 4 + 4 is 34 over 10; wrong levels, gaps and sizes; P1 is accepted.
    let zeros = [0; 5];
    let too_much = admission(1, 1, 4);
    assert_eq!(
        answered(&[&too_much]),
        [&b"CA\x02\xFF"[..], &zeros].concat()
    );
    let before = [LINK_A, &too_much];
    assert_eq!(tail(&before, 9), b"CA\x08\xFF\x01\x22\x00\x00\x00");
    let others = [
        (5, admission(0, 1, 4)),
        (5, admission(3, 0, 4)),
        (6, admission(1, 0, 4)),
        (6, admission(1, 1, 5)),
        (6, admission(2, 1, 0)),
    ];
    for (verdict, record) in others {
        let expected = [&[b'C', b'A', verdict, 255][..], &zeros].concat();
        assert_eq!(tail(&[LINK_A, &too_much, &record], 9), expected);
    }
    let accepted = tail(&[LINK_A, &too_much, &admission(1, 10, 4)], 9);
    assert_eq!(accepted, [&b"CA\x00\x00"[..], &zeros].concat());
}

#[test]
fn reservations_past_2048_and_a_201st_connection_give_0_and_0() {
    // Bound 4,000, S 1. A gap of 1 is one unit over. A gap of 2 reserves 2,000, one of 50 another
    // 80; then a gap of 1 is 2,001 over.
    let link = b"LK\x01\x01\x00\x00\xA0\x0F";
    let [one_over, half, some] = [1, 2, 50].map(|gap| admission(1, gap, 1));
    let given = answered(&[link, &one_over, &half, &some, &one_over]);
    let expected = [
        &b"LA\x00CA\x08\xFF\x01\x01\x00\x00\x00"[..],
        b"CA\x00\x00\x00\x00\x00\x00\x00",
        b"CA\x09\xFF\x00\x00\x00\x00\x00",
        b"CA\x08\xFF\x01\xD1\x07\x00\x00",
    ]
    .concat();
    assert_eq!(given, expected);
    // 199 of one packet and S are 200, so a gap of 1 is 200 over; with 200 of them standing it gets 7.
    let crowd = admission(1, 4_000, 1).repeat(199);
    let last = admission(1, 4_000, 1);
    let given = tail(&[link, &crowd, &one_over, &last, &one_over], 27);
    let expected = [
        &b"CA\x08\xFF\x01\xC8\x00\x00\x00"[..],
        b"CA\x00\xC7\x00\x00\x00\x00\x00",
        b"CA\x07\xFF\x00\x00\x00\x00\x00",
    ]
    .concat();
    assert_eq!(given, expected);
}

#[test]
fn the_lowest_of_several_failing_levels() {
    // Each level fails: 44, 84 and 124 of 10, 20 and 30.
    assert_eq!(
        hub(4, &[10, 20, 30]).admit(Figures::plain(1, 1, 4)),
        short(1, 34)
    );
    // Levels 2 and 3 fail, by 64 and 94; level 3 alone.
    assert_eq!(
        hub(4, &[10, 20, 30]).admit(Figures::plain(2, 1, 4)),
        short(2, 64)
    );
    assert_eq!(
        hub(4, &[10, 20, 30]).admit(Figures::plain(3, 1, 4)),
        short(3, 94)
    );
    // P7 with a third level: 8 of 10, 24 of 20, 3 * 4 + 3 * 2 * 4 + 4 = 40 of 30.
    let mut hub = hub(4, &[10, 20, 30]);
    for number in 0..3 {
        assert_eq!(hub.admit(Figures::plain(2, 20, 4)), Ok(number));
    }
    assert_eq!(hub.admit(Figures::plain(1, 10, 4)), short(2, 4));
    // A newcomer of level 1 for which only the third level has no room: 5, 18 and 31 of 30.
    assert_eq!(hub.admit(Figures::plain(1, 10, 1)), short(3, 1));
}

#[test]
fn every_level_of_eight() {
    // S 1 and bounds 10 to 17: gap 1 and size 1 is d + 1 of d at its level. A connection of level 8
    // and gap 2 adds 9 there and nothing above.
    let bounds = [10, 11, 12, 13, 14, 15, 16, 17];
    for level in 1..=8 {
        assert_eq!(
            hub(1, &bounds).admit(Figures::plain(level, 1, 1)),
            short(level, 1)
        );
        let mut hub = hub(1, &bounds);
        assert_eq!(hub.admit(Figures::plain(8, 2, 1)), Ok(0));
        let others = if level == 8 { 9 } else { 0 };
        assert_eq!(
            hub.admit(Figures::plain(level, 1, 1)),
            short(level, 1 + others)
        );
    }
}

#[test]
fn the_most_units_that_an_admission_can_be_over() {
    // 15 * 2,048 and S fill the bound of 32,768; the newcomer adds 32,768 packets of 2,048. With
    // a silence it is more: `tests/silence.rs`.
    let link = b"LK\x01\x00\x08\x00\x00\x80";
    let fill = admission(1, 32_768, 2_048).repeat(15);
    let most = admission(1, 1, 2_048);
    let given = tail(&[link, &fill, &most], 9);
    assert_eq!(given, b"CA\x08\xFF\x01\x00\x00\x00\x04");
    // On the fresh link 2,048 - 32,768 less: 67,078,144.
    let given = tail(&[link, &most], 9);
    assert_eq!(given, b"CA\x08\xFF\x01\x00\x88\xFF\x03");
}

/// What a `CN` met: the link, the connections counted, closed ones that are charged among them,
/// itself the last, and its answer.
struct Met {
    link: Link,
    terms: Terms,
    counted: Vec<Figures>,
    verdict: u8,
    short: Option<Shortage>,
}

/// Every admission of a trace on a link that was set.
fn admissions(trace: &[u8]) -> Vec<Met> {
    let (mut told, mut all) = (Told::new(), Vec::new());
    for record in records(trace) {
        let figures = match record {
            Record::Connection(figures) => figures,
            _ => {
                told.carry_out(record);
                continue;
            }
        };
        let mut counted = told.counted();
        counted.push(figures);
        let answer = told.carry_out(record);
        if let (Answer::Connection { verdict, short, .. }, Ok(link), Some(terms)) =
            (answer, told.job.hub().link(), told.terms)
        {
            all.push(Met {
                link: *link,
                terms,
                counted,
                verdict,
                short,
            });
        }
    }
    all
}

/// Level and units counted once more, packet by packet from the rule's words.
fn counted(met: &Met) -> (u8, u64) {
    let short = met.terms.short(&met.counted);
    short.map_or((0, 0), |(level, _, units)| (level, units))
}

#[test]
fn level_and_units_of_every_refused_admission() {
    let mut refused = 0;
    for kind in Kind::of_levels().filter(|kind| !kind.name.ends_with("limit")) {
        for seed in 0..6 {
            for met in admissions(&kind.trace(seed, None)) {
                let told = met.short.map_or((0, 0), |short| (short.level, short.units));
                let expected = if met.verdict == 8 {
                    counted(&met)
                } else {
                    (0, 0)
                };
                assert_eq!(told, expected, "{} {seed}", kind.name);
                assert_eq!(met.verdict == 8, told != (0, 0));
                // Before the newcomer every level held, so the units are at most what it adds.
                assert!(told.1 <= 69_206_016);
                refused += usize::from(met.verdict == 8);
            }
        }
    }
    assert!(refused > 1_000, "only {refused} refused");
}

#[test]
fn the_kind_short_meets_first_middle_and_last_levels() {
    let kind = Kind::named("short").expect("a kind");
    let [mut first, mut middle, mut last, mut below] = [0; 4];
    let mut units = BTreeSet::new();
    for seed in 0..20 {
        for met in admissions(&kind.trace(seed, None)) {
            let short = match met.short {
                Some(short) if met.link.levels() > 2 => short,
                _ => continue,
            };
            first += usize::from(short.level == 1);
            middle += usize::from((2..met.link.levels()).contains(&short.level));
            last += usize::from(short.level == met.link.levels());
            let newcomer = met.counted.last().expect("a newcomer");
            below += usize::from(short.level > newcomer.level);
            units.insert(short.units);
        }
    }
    assert!(
        first > 50 && middle > 200 && last > 50,
        "{first} {middle} {last}"
    );
    assert!(below > 100, "only {below} below the newcomer's own level");
    assert!(
        units.len() > 200 && units.contains(&1),
        "only {} units",
        units.len()
    );
    assert!(units.range(16_777_216..).count() > 3);
}
