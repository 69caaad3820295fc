//! Windows (docs/RULES.md, R-12), worked out by hand.

use sim::firmware::{level_answer, units_answer, NOT_TO_BE_ASKED};
use sim::hub::Hub;
use sim::link::{Figures, Link, LinkFigures, MOST_LEVELS, NO_WINDOWS, OFF, ON};
use sim::record::{Record, LONGEST_RECORD};
use sim::replay::{answers, Pace};
use sim::verdict::{Refusal, Shortage};

fn of_all(used: &[u16]) -> [u16; MOST_LEVELS] {
    let mut all = [0; MOST_LEVELS];
    all[..used.len()].copy_from_slice(used);
    all
}

fn link(largest: u16, bounds: &[u16], windows: &[u16]) -> Option<Link> {
    let without = Link::new(bounds.len() as u8, largest, 0, of_all(bounds))?;
    without.with_windows(of_all(windows))
}

fn hub(largest: u16, bounds: &[u16], windows: &[u16]) -> Hub {
    let mut hub = Hub::new();
    hub.set_link(Some(link(largest, bounds, windows).expect("a link")))
        .expect("set");
    hub
}

fn short(level: u8, units: u64) -> Result<u8, Refusal> {
    Err(Refusal::LevelTest(Shortage { level, units }))
}

fn plain(level: u8, gap: u16, size: u16) -> Figures {
    Figures::plain(level, gap, size)
}

#[test]
fn limits() {
    for windows in [[10, 20], [32_768, 32_768], [32_768, 20], [30, 25]] {
        let link = link(4, &[10, 20], &windows).expect("within its limits");
        assert!(link.has_windows() && link.is_within());
        assert_eq!((link.span(1), link.span(2)), (windows[0], windows[1]));
    }
    let broken: [&[u16]; 9] = [
        &[9, 20],
        &[10, 19],
        &[0, 20],
        &[10, 0],
        &[32_769, 20],
        &[10, 32_769],
        &[65_535, 65_535],
        &[10, 20, 1],
        &[0, 0, 30],
    ];
    for windows in broken {
        assert_eq!(link(4, &[10, 20], windows), None, "{windows:?}");
    }
    let without = link(4, &[10, 20], &[]);
    assert_eq!(without, Link::new(2, 4, 0, of_all(&[10, 20])));
    assert!(without.map_or(false, |link| !link.has_windows() && link.span(2) == 20));
}

#[test]
fn more_lines_than_by_the_bound_alone() {
    // Within 10 ticks 2 + 4 + 4 + 2, two over; within 12 just 12, and of the moments 8 of 10 and of 11.
    let mut without = hub(2, &[10], &[]);
    let mut with = hub(2, &[10], &[12]);
    for hub in [&mut without, &mut with] {
        assert_eq!(hub.admit(plain(1, 6, 2)), Ok(0));
        assert_eq!(hub.admit(plain(1, 6, 2)), Ok(1));
    }
    assert_eq!(without.admit(plain(1, 12, 2)), short(1, 2));
    assert_eq!(with.admit(plain(1, 12, 2)), Ok(2));
    assert_eq!(with.admit(plain(1, 65_535, 1)), short(1, 1));
    // The reservation counts within the bound.
    for connection in [0, 0, 1, 1, 2] {
        assert!(with.offer(connection, 2, 7).is_ok());
    }
    for connection in [0, 1, 2] {
        let full = with.offer(connection, 2, 7);
        assert_eq!(full, Err(Refusal::ReservationFull));
    }
}

#[test]
fn the_conditions_of_a_level_in_their_order() {
    // One packet each: 2 + 8 of 10 at the first moment; within 40 there is room.
    let mut hub = hub(2, &[10], &[40]);
    for number in 0..4 {
        assert_eq!(hub.admit(plain(1, 100, 2)), Ok(number));
    }
    assert_eq!(hub.admit(plain(1, 100, 1)), short(1, 1));
    // 10 + 20 packets within 40, which is 30 of 40, and 11 of 10 at the first moment.
    assert_eq!(hub.admit(plain(1, 2, 1)), short(1, 1));
    // 10 + 40 within 40: ten over, before the moments.
    assert_eq!(hub.admit(plain(1, 1, 1)), short(1, 10));
}

#[test]
fn a_burst_fails_later() {
    // 3, 6, 9 and 12 units within 1, 2, 3 and 4 ticks: 15 of 13 at the fourth moment.
    let burst = plain(1, 1, 3).with_average(100, 25);
    assert_eq!(hub(3, &[10], &[40]).admit(burst), short(1, 2));
    assert_eq!(hub(3, &[10], &[]).admit(burst), short(1, 5));
    assert_eq!(hub(3, &[12], &[40]).admit(burst), Ok(0));
}

#[test]
fn the_urgent_ones_within_the_bound_and_more() {
    // At the second moment the first line sends twice, within 21 ticks: 4 + 12 + 8 of 21.
    let mut hub = hub(4, &[10, 20], &[40, 40]);
    assert_eq!(hub.admit(plain(1, 20, 4)), Ok(0));
    assert_eq!(hub.admit(plain(2, 65_535, 4)), Ok(1));
    assert_eq!(hub.admit(plain(2, 65_535, 4)), Ok(2));
    assert_eq!(hub.admit(plain(2, 65_535, 4)), short(2, 3));
    assert_eq!(hub.admit(plain(2, 65_535, 1)), Ok(3));
    assert_eq!(hub.admit(plain(2, 65_535, 1)), short(2, 1));
}

#[test]
fn a_charge_lasts_for_bound_and_window() {
    let mut hub = hub(2, &[10, 15], &[18, 16]);
    assert_eq!(hub.admit(plain(1, 100, 2)), Ok(0));
    hub.offer(0, 1, 7).expect("accepted");
    hub.tick().expect("a tick");
    hub.close(0).expect("closed");
    // The largest bound 15 and the longest window 18, from eligibility 0 on.
    assert_eq!(hub.charged().collect::<Vec<_>>(), [(0, 33)]);
    for clock in 1..33 {
        assert_eq!((hub.clock(), hub.charged().count()), (clock, 1));
        hub.tick().expect("a tick");
    }
    assert_eq!(hub.charged().count(), 0);
}

#[test]
fn bytes() {
    assert_eq!(LONGEST_RECORD, 39);
    let link = Record::Link(Box::new(LinkFigures {
        levels: 2,
        largest: 4,
        silence: 3,
        setting: Some(1),
        bounds: of_all(&[10, 20]),
        windows: Some(of_all(&[300, 25])),
    }));
    let mut trace = Vec::new();
    link.append_to(&mut trace);
    let written = b"LW\x02\x04\x00\x03\x01\x0A\x00\x14\x00\x2C\x01\x19\x00";
    assert_eq!(trace, written);
    assert_eq!(Record::read(written), Some((link, 15)));
    for cut in 0..15 {
        assert_eq!(Record::read(&written[..cut]), None);
    }
    for levels in [0, 9, 255] {
        let bad = [b"LW", &[levels][..], &[1; 60]].concat();
        assert_eq!(Record::read(&bad), None);
    }
    let answer = |trace: &[u8]| answers(trace, Pace::Tested).expect("answers");
    assert_eq!(answer(b"LW\x01\x04\x00\x00\x00\x0A\x00\x09\x00"), b"LA\x04");
    assert_eq!(answer(b"LW\x01\x04\x00\x00\x02\x0A\x00\x0A\x00"), b"LA\x04");
    assert_eq!(answer(b"LW\x01\x04\x00\x00\x01\x0A\x00\x00\x00"), b"LA\x00");
}

#[test]
fn the_question_takes_an_lk_or_an_lw() {
    let rows = [&b"\x01\x06\x00\x02\x00\0\0\0\0"[..]; 2].concat();
    let rows = [&rows[..], b"\x01\x0C\x00\x02\x00\0\0\0\0"].concat();
    let asked = |link: &[u8]| (level_answer(link, &rows), units_answer(link, &rows));
    assert_eq!(asked(b"LK\x01\x02\x00\x00\x0A\x00"), (1, 2));
    for setting in [OFF, ON] {
        let with = |window| [b"LW\x01\x02\x00\x00", &[setting, 10, 0, window, 0][..]].concat();
        assert_eq!(asked(&with(12)), (0, 0));
        assert_eq!(asked(&with(13)), (1, 5));
        assert_eq!(asked(&with(0)), (1, 2));
        assert_eq!(asked(&with(9)), (NOT_TO_BE_ASKED, 0));
    }
    let wrong: [&[u8]; 3] = [
        b"LW\x01\x02\x00\x00\x02\x0A\x00\x0C\x00",
        b"LE\x01\x02\x00\x00\x00\x0A\x00",
        b"LW\x01\x02\x00\x00\x00\x0A\x00\x0C\x00\x00",
    ];
    for link in wrong {
        assert_eq!(asked(link), (NOT_TO_BE_ASKED, 0));
    }
    assert_eq!(NO_WINDOWS, [0; 8]);
}
