//! Connections by stamps (docs/RULES.md, R-9), worked out by hand.
//!
//! Unless a test says otherwise: S 4, no silence, bounds 10 and 20. The relay is by stamps, of level 1,
//! gap 10, size 4, allowance 5: (5 + 10) / 10 rounded up, two places; 4 of level 1's 10 ticks, 8 of
//! level 2's 20, 4 of each for S.

use sim::departure::Departure;
use sim::hub::{Hub, CLOCK_END};
use sim::link::{Connection, Figures, Link};
use sim::record::Record;
use sim::replay::{answers, Pace};
use sim::verdict::{Refusal, Shortage};

fn hub() -> Hub {
    let mut hub = Hub::new();
    let link = Link::new(2, 4, 0, [10, 20, 0, 0, 0, 0, 0, 0]);
    assert_eq!(hub.set_link(link), Ok(()));
    hub
}

fn relay(allowance: u16) -> Figures {
    Figures::plain(1, 10, 4).by_stamps(allowance)
}

/// The relay alone, at a clock.
fn relay_at(clock: u64) -> Hub {
    let mut hub = hub();
    assert_eq!(hub.admit(relay(5)), Ok(0));
    run_until(&mut hub, clock);
    hub
}

fn run_until(hub: &mut Hub, clock: u64) -> Vec<Departure> {
    let mut departed = Vec::new();
    while hub.clock() < clock {
        departed.extend(hub.tick().expect("a tick of a running clock"));
    }
    departed
}

fn stamped(hub: &mut Hub, stamp: u64) -> Result<u64, Refusal> {
    hub.offer_with(0, 4, 7, Some(stamp))
}

const UNTIMELY: Result<u64, Refusal> = Err(Refusal::Untimely);
const NOBODY: Result<u64, Refusal> = Err(Refusal::NoSuchConnection);
const FULL: Result<u64, Refusal> = Err(Refusal::ReservationFull);

#[test]
fn the_stamp_plus_the_allowance() {
    // Eligible at 5 on an idle line: units at 5 to 8.
    let mut hub = relay_at(0);
    assert_eq!(stamped(&mut hub, 0), Ok(5));
    let departed = run_until(&mut hub, 9);
    assert_eq!(departed.len(), 1);
    assert_eq!((departed[0].eligibility, departed[0].finish), (5, 9));
}

#[test]
fn a_stamp_later_than_now() {
    let mut hub = relay_at(7);
    assert_eq!(stamped(&mut hub, 8), UNTIMELY);
    assert_eq!(stamped(&mut hub, u64::from(u32::MAX)), UNTIMELY);
    assert_eq!(stamped(&mut hub, 7), Ok(12));
}

#[test]
fn a_sum_before_now() {
    let mut hub = relay_at(7);
    assert_eq!(stamped(&mut hub, 1), UNTIMELY);
    assert_eq!(stamped(&mut hub, 2), Ok(7));
}

#[test]
fn a_gap_behind_the_last_eligibility() {
    // Behind 5 the next may be eligible at 15: stamp 10, not 9, whenever they come.
    let mut hub = relay_at(0);
    assert_eq!(stamped(&mut hub, 0), Ok(5));
    run_until(&mut hub, 12);
    assert_eq!(stamped(&mut hub, 9), UNTIMELY);
    assert_eq!(stamped(&mut hub, 10), Ok(15));
}

#[test]
fn offers_that_do_not_suit() {
    // 10 comes before 11; a refused offer changes nothing.
    let mut hub = relay_at(7);
    assert_eq!(hub.admit(Figures::plain(2, 20, 4)), Ok(1));
    for length in [0, 4] {
        assert_eq!(hub.offer(0, length, 7), NOBODY);
        assert_eq!(hub.offer_with(1, length, 7, Some(7)), NOBODY);
    }
    assert_eq!(hub.offer_with(0, 5, 7, Some(7)), Err(Refusal::Length));
    assert_eq!(stamped(&mut hub, 7), Ok(12));
    assert_eq!(hub.offer(1, 4, 7), Ok(7));
}

#[test]
fn reservations_count_the_allowance() {
    // (20,470 + 10) / 10 is 2,048, one more tick is a place more.
    assert_eq!(hub().admit(relay(20_471)), Err(Refusal::Reservations));
    assert_eq!(hub().admit(relay(20_470)), Ok(0));
    let link = *hub().link().expect("a link");
    let places = |allowance| {
        let line = Connection::new(&link, Figures::plain(1, 100, 1).by_stamps(allowance));
        line.map(|line| line.reservation(&link))
    };
    assert_eq!(places(0), Ok(1));
    assert_eq!(places(90), Ok(1));
    assert_eq!(places(91), Ok(2));
    assert_eq!(places(u16::MAX), Ok(656));
}

#[test]
fn the_level_test_does_not_look_at_the_kind() {
    let mut hub = relay_at(0);
    let short = Err(Refusal::LevelTest(Shortage { level: 1, units: 2 }));
    assert_eq!(hub.admit(Figures::plain(1, 10, 4).by_stamps(60)), short);
    assert_eq!(hub.admit(Figures::plain(1, 10, 4)), short);
}

#[test]
fn limits() {
    let broken = Err(Refusal::ConnectionLimit);
    for line in [relay(5), relay(0), relay(u16::MAX)] {
        assert_eq!(hub().admit(Figures { gap: 0, ..line }), broken);
        assert_eq!(hub().admit(Figures { size: 0, ..line }), broken);
        assert_eq!(hub().admit(Figures { size: 5, ..line }), broken);
        assert_eq!(hub().admit(line.with_average(40, 20)), broken);
        let wrong_level = Figures { level: 3, ..line };
        assert_eq!(hub().admit(wrong_level), Err(Refusal::NoSuchLevel));
    }
    assert_eq!(Hub::new().admit(relay(5)), Err(Refusal::NoLink));
    assert_eq!(stamped(&mut Hub::new(), 0), Err(Refusal::NoLink));
}

#[test]
fn a_full_one_gets_12_and_17_behind_it() {
    // Eligible at 5 and 15; at 10 the first is in service, so both places are used.
    let mut hub = hub();
    assert_eq!(hub.admit(relay(5)), Ok(0));
    assert_eq!(hub.admit(Figures::plain(2, 20, 4)), Ok(1));
    assert_eq!(stamped(&mut hub, 0), Ok(5));
    run_until(&mut hub, 4);
    assert_eq!(hub.offer(1, 4, 8), Ok(4));
    run_until(&mut hub, 10);
    assert_eq!(stamped(&mut hub, 10), Ok(15));
    for stamp in [0, 10, 11] {
        assert_eq!(stamped(&mut hub, stamp), FULL);
    }
    run_until(&mut hub, 12);
    for stamp in [0, 10, 13] {
        assert_eq!(stamped(&mut hub, stamp), UNTIMELY);
    }
}

#[test]
fn the_clocks_end_comes_before_17() {
    let mut hub = relay_at(0);
    while hub.clock() < CLOCK_END {
        hub.pass_over(CLOCK_END - hub.clock());
    }
    for stamp in [0, CLOCK_END, CLOCK_END + 1] {
        assert_eq!(stamped(&mut hub, stamp), Err(Refusal::ClockEnded));
    }
    assert_eq!(hub.offer(0, 4, 7), NOBODY);
}

#[test]
fn a_new_owner_is_of_its_own_kind() {
    // Sent at 5, gone at 9, charged until 25; the first of the new owner has no packet before it.
    let mut hub = relay_at(0);
    assert_eq!(stamped(&mut hub, 0), Ok(5));
    run_until(&mut hub, 9);
    assert_eq!(hub.close(0), Ok(()));
    run_until(&mut hub, 25);
    let slow = Figures::plain(1, 60_000, 1);
    assert_eq!(hub.admit(slow), Ok(0));
    assert_eq!(stamped(&mut hub, 25), NOBODY);
    assert_eq!(hub.offer(0, 1, 7), Ok(25));
    run_until(&mut hub, 26);
    assert_eq!(hub.close(0), Ok(()));
    run_until(&mut hub, 45);
    assert_eq!(hub.admit(slow.by_stamps(3)), Ok(0));
    assert_eq!(hub.offer(0, 1, 7), NOBODY);
    assert_eq!(hub.offer_with(0, 1, 7, Some(42)), Ok(45));
}

#[test]
fn bytes() {
    let mut trace = Vec::new();
    Record::Connection(Figures::plain(1, 10, 4).by_stamps(0x1234)).append_to(&mut trace);
    assert_eq!(trace, b"CS\x01\x0A\x00\x04\x00\x34\x12");
    trace.clear();
    let offer = Record::Packet {
        connection: 9,
        length: 2,
        tag: 7,
        stamp: Some(0x0102_0304),
    };
    offer.append_to(&mut trace);
    let written = b"PS\x09\x02\x00\x07\x00\x00\x00\x04\x03\x02\x01";
    assert_eq!(trace, written);
    assert_eq!(Record::read(written), Some((offer, 13)));
    for cut in 0..13 {
        assert_eq!(Record::read(&written[..cut]), None);
    }
}

#[test]
fn answers_are_those_of_other_admissions_and_offers() {
    let trace = [
        &b"LK\x01\x04\x00\x00\x0A\x00"[..],
        b"CS\x01\x0A\x00\x04\x00\x05\x00",
        b"PS\x00\x01\x00\x07\x00\x00\x00\x00\x00\x00\x00",
        b"PS\x00\x01\x00\x08\x00\x00\x00\x01\x00\x00\x00",
        b"PK\x00\x01\x00\x09\x00\x00\x00",
    ]
    .concat();
    let expected = [
        &b"LA\x00CA\x00\x00\x00\x00\x00\x00\x00"[..],
        b"PA\x00\x05\x00\x00\x00PA\x11\x00\x00\x00\x00PA\x0A\x00\x00\x00\x00",
    ]
    .concat();
    for pace in [Pace::Plain, Pace::Passing] {
        assert_eq!(answers(&trace, pace).expect("answers"), expected);
    }
}
