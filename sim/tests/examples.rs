//! The examples P1 to P10 and the whole run (section "Table of proved examples"), with the level
//! and units of R-2.

use sim::departure::Departure;
use sim::hub::Hub;
use sim::level_test::level_sum;
use sim::link::{Connection, Figures, Link};
use sim::replay::{answers, Pace};
use sim::verdict::{Refusal, Shortage};

fn link_a() -> Link {
    Link::new(2, 4, 0, [10, 20, 0, 0, 0, 0, 0, 0]).expect("link A is within its limits")
}

fn hub_a() -> Hub {
    let mut hub = Hub::new();
    assert_eq!(hub.set_link(Some(link_a())), Ok(()));
    hub
}

/// Link A with the connections of P1 and P2.
fn hub_after_p2() -> Hub {
    let mut hub = hub_a();
    assert_eq!(hub.admit(Figures::plain(1, 10, 4)), Ok(0));
    assert_eq!(hub.admit(Figures::plain(2, 20, 4)), Ok(1));
    hub
}

/// Sums of both levels over the standing connections and a newcomer.
fn sums_with(hub: &Hub, level: u8, gap: u16, size: u16) -> (u64, u64) {
    let link = link_a();
    let newcomer = Connection::new(&link, Figures::plain(level, gap, size));
    let newcomer = newcomer.expect("within its limits");
    let sum = |level| level_sum(&link, hub.counted().chain([&newcomer]), level);
    (sum(1), sum(2))
}

/// Verdict 8, with the level that is short and its units.
fn short(level: u8, units: u64) -> Result<u8, Refusal> {
    Err(Refusal::LevelTest(Shortage { level, units }))
}

fn reservation(hub: &Hub, number: u8) -> Option<u64> {
    let connection = hub.connection(number)?;
    Some(connection.reservation(&link_a()))
}

fn run(hub: &mut Hub, ticks: usize) -> Vec<Departure> {
    let one = |_| hub.tick().expect("a tick of a running clock");
    (0..ticks).filter_map(one).collect()
}

#[test]
fn p1_first_connection() {
    let mut hub = hub_a();
    assert_eq!(sums_with(&hub, 1, 10, 4), (8, 12));
    assert_eq!(hub.admit(Figures::plain(1, 10, 4)), Ok(0));
    assert_eq!(reservation(&hub, 0), Some(1));
}

#[test]
fn p2_second_connection() {
    let mut hub = hub_a();
    assert_eq!(hub.admit(Figures::plain(1, 10, 4)), Ok(0));
    assert_eq!(sums_with(&hub, 2, 20, 4), (8, 16));
    assert_eq!(hub.admit(Figures::plain(2, 20, 4)), Ok(1));
}

#[test]
fn p3_rounded_up() {
    let mut hub = hub_after_p2();
    assert_eq!(sums_with(&hub, 1, 9, 1), (10, 19));
    assert_eq!(hub.admit(Figures::plain(1, 9, 1)), Ok(2));
    assert_eq!(reservation(&hub, 2), Some(2));
}

#[test]
fn p4_sum_past_level_1() {
    let mut hub = hub_after_p2();
    assert_eq!(sums_with(&hub, 1, 9, 2).0, 12);
    assert_eq!(hub.admit(Figures::plain(1, 9, 2)), short(1, 2));
}

#[test]
fn p5_and_p6_exactly_the_bound_and_one_more() {
    let mut hub = hub_after_p2();
    assert_eq!(hub.admit(Figures::plain(1, 9, 1)), Ok(2));
    assert_eq!(sums_with(&hub, 2, 20, 1).1, 20);
    assert_eq!(hub.admit(Figures::plain(2, 20, 1)), Ok(3));
    assert_eq!(sums_with(&hub, 2, 20, 1).1, 21);
    assert_eq!(hub.admit(Figures::plain(2, 20, 1)), short(2, 1));
}

#[test]
fn p7_a_level_below_fails() {
    let mut hub = hub_a();
    for number in 0..3 {
        assert_eq!(hub.admit(Figures::plain(2, 20, 4)), Ok(number));
    }
    assert_eq!(level_sum(&link_a(), hub.counted(), 2), 16);
    assert_eq!(sums_with(&hub, 1, 10, 4), (8, 24));
    assert_eq!(hub.admit(Figures::plain(1, 10, 4)), short(2, 4));
}

/// P8: finishes 4 and 8; the hub is left at clock 8.
fn hub_after_p8(also_p9: bool) -> Hub {
    let mut hub = hub_after_p2();
    assert_eq!(hub.offer(1, 4, 70), Ok(0));
    assert_eq!(run(&mut hub, 1), []);
    assert_eq!(hub.offer(0, 4, 71), Ok(1));
    if also_p9 {
        assert_eq!(hub.offer(0, 4, 72), Err(Refusal::ReservationFull));
    }
    let departed = run(&mut hub, 7);
    let finishes: Vec<_> = departed.iter().map(|one| (one.tag, one.finish)).collect();
    assert_eq!(finishes, [(70, 4), (71, 8)]);
    assert_eq!(hub.clock(), 8);
    hub
}

#[test]
fn p8_nothing_interrupts() {
    hub_after_p8(false);
}

#[test]
fn p9_reservation_full() {
    hub_after_p8(true);
}

#[test]
fn p10_spaced_from_the_last_eligibility() {
    for also_p9 in [false, true] {
        let mut hub = hub_after_p8(also_p9);
        assert_eq!(hub.offer(0, 1, 73), Ok(11));
        let departed = run(&mut hub, 10);
        assert_eq!(departed.len(), 1);
        assert_eq!((departed[0].eligibility, departed[0].finish), (11, 12));
    }
}

#[test]
fn whole_run_on_link_b() {
    let trace = [
        &b"LK\x01\x04\x00\x00\x0A\x00"[..],
        b"CN\x01\x0A\x00\x04\x00\x00\x00\x00\x00",
        b"PK\x00\x02\x00\x07\x00\x00\x00",
        b"TK\x02\x00",
    ]
    .concat();
    let expected = [
        &b"LA\x00"[..],
        b"CA\x00\x00\x00\x00\x00\x00\x00",
        b"PA\x00\x00\x00\x00\x00",
        b"DP\x00\x07\x00\x00\x00\x00\x00\x00\x00\x00\x00\x00\x00\x02\x00\x00\x00",
        b"TA\x00\x02\x00",
    ]
    .concat();
    for pace in [Pace::Plain, Pace::Passing] {
        assert_eq!(answers(&trace, pace).expect("answers"), expected);
    }
}
