//! Notices (docs/RULES.md, R-1), worked out by hand.
//!
//! Link A of document 01: S 4, bounds 10 and 20; connections 0 (level 1, gap 10, size 4) and
//! 1 (level 2, gap 20, size 4).

use sim::departure::Departure;
use sim::hub::{Hub, CLOCK_END};
use sim::link::{Figures, Link};
use sim::verdict::Refusal;

const S: u16 = 4;

fn hub() -> Hub {
    let mut hub = Hub::new();
    let link = Link::new(2, S, 0, [10, 20, 0, 0, 0, 0, 0, 0]);
    assert_eq!(hub.set_link(link), Ok(()));
    assert_eq!(hub.admit(Figures::plain(1, 10, 4)), Ok(0));
    assert_eq!(hub.admit(Figures::plain(2, 20, 4)), Ok(1));
    hub
}

/// A hub whose clock stands so many ticks before its end.
fn hub_near_the_end(left: u64) -> Hub {
    let mut hub = hub();
    assert_eq!(hub.pass_over(CLOCK_END - left), CLOCK_END - left);
    hub
}

fn run(hub: &mut Hub, ticks: u64) -> Vec<Departure> {
    let one = |_| hub.tick().expect("a tick of a running clock");
    (0..ticks).filter_map(one).collect()
}

/// What the departure of a notice gives.
fn notice(tag: u32, arrival: u64, finish: u64) -> Departure {
    Departure {
        connection: 254,
        tag,
        arrival,
        eligibility: arrival,
        finish,
    }
}

fn tags(departed: &[Departure]) -> Vec<u32> {
    departed.iter().map(|one| one.tag).collect()
}

/// Notices of one length, tagged from a number on, that are all accepted.
fn offer_notices(hub: &mut Hub, length: u16, tags: std::ops::Range<u32>) {
    for tag in tags {
        assert_eq!(hub.offer_notice(length, tag), Ok(hub.clock()));
    }
}

#[test]
fn an_idle_line_takes_a_notice_at_once() {
    // Offered at 5 it takes part in the tick at 5; its three units go at 5, 6 and 7.
    let mut hub = hub();
    assert_eq!(run(&mut hub, 5), []);
    assert_eq!(hub.offer_notice(3, 7), Ok(5));
    assert_eq!(run(&mut hub, 2), []);
    assert_eq!(run(&mut hub, 1), [notice(7, 5, 8)]);
    assert_eq!(hub.notices_waiting(), 0);
}

#[test]
fn a_notice_of_one_unit_goes_in_its_first_tick() {
    let mut hub = hub();
    assert_eq!(hub.offer_notice(1, 7), Ok(0));
    assert_eq!(run(&mut hub, 1), [notice(7, 0, 1)]);
}

#[test]
fn an_eligible_packet_goes_first_whatever_its_level() {
    // The notice is older, the packet is of the last level: it still starts at 0 and goes at 0
    // to 3; then nothing is eligible, so that the notice goes at 4 and 5.
    for connection in [0, 1] {
        let mut hub = hub();
        assert_eq!(hub.offer_notice(2, 7), Ok(0));
        assert_eq!(hub.offer(connection, 4, 70), Ok(0));
        let departed = run(&mut hub, 6);
        assert_eq!(tags(&departed), [70, 7]);
        assert_eq!(departed[0].finish, 4);
        assert_eq!(departed[1], notice(7, 0, 6));
    }
}

#[test]
fn every_eligible_packet_goes_before_a_notice() {
    // Connections 0 and 1 go at 0 to 7, though connection 1 was offered last.
    let mut hub = hub();
    offer_notices(&mut hub, 1, 7..9);
    assert_eq!(hub.offer(0, 4, 70), Ok(0));
    assert_eq!(run(&mut hub, 4).len(), 1);
    assert_eq!(hub.offer(1, 4, 71), Ok(4));
    assert_eq!(tags(&run(&mut hub, 6)), [71, 7, 8]);
}

#[test]
fn a_packet_that_is_not_eligible_yet_lets_a_notice_pass() {
    // Connection 1 sends at 0 to 3. Its successor can't be held (reservation 1) before 4; it is
    // eligible at 20. The notice of 2 units takes 5 and 6, long before.
    let mut hub = hub();
    assert_eq!(hub.offer(1, 4, 70), Ok(0));
    assert_eq!(run(&mut hub, 5).len(), 1);
    assert_eq!(hub.offer(1, 4, 71), Ok(20));
    assert_eq!(hub.offer_notice(2, 7), Ok(5));
    let departed = run(&mut hub, 19);
    assert_eq!(departed[0], notice(7, 5, 7));
    assert_eq!((departed[1].tag, departed[1].finish), (71, 24));
}

#[test]
fn a_notice_is_not_interrupted_and_a_packet_waits_at_most_s_less_1() {
    // The notice of S units starts at 0. A packet offered at 1 to 3 starts at 4: it waits 3, 2,
    // 1 ticks. Offered at 4 it doesn't wait.
    for offered in 1..=4 {
        let mut hub = hub();
        assert_eq!(hub.offer_notice(S, 7), Ok(0));
        let mut departed = run(&mut hub, offered);
        assert_eq!(hub.offer(0, 4, 70), Ok(offered));
        departed.extend(run(&mut hub, 8 - offered));
        assert_eq!(tags(&departed), [7, 70]);
        assert_eq!(departed[0], notice(7, 0, 4));
        assert_eq!(departed[1].finish, 8);
        assert!(4 - offered <= u64::from(S) - 1);
    }
}

#[test]
fn between_two_notices_a_packet_goes() {
    let mut hub = hub();
    offer_notices(&mut hub, 2, 7..9);
    assert_eq!(run(&mut hub, 1), []);
    assert_eq!(hub.offer(1, 1, 70), Ok(1));
    let departed = run(&mut hub, 4);
    assert_eq!(tags(&departed), [7, 70, 8]);
    let finishes: Vec<_> = departed.iter().map(|one| one.finish).collect();
    assert_eq!(finishes, [2, 3, 5]);
}

#[test]
fn the_order_offered_is_the_order_of_departure() {
    // Lengths 4, 1, 3, 1 at 0; one more of length 1 at 2. Finishes 4, 5, 8, 9, 10.
    let mut hub = hub();
    for (tag, length) in [(40, 4), (30, 1), (20, 3), (10, 1)] {
        assert_eq!(hub.offer_notice(length, tag), Ok(0));
    }
    assert_eq!(run(&mut hub, 2), []);
    assert_eq!(hub.offer_notice(1, 0), Ok(2));
    let expected = [
        notice(40, 0, 4),
        notice(30, 0, 5),
        notice(20, 0, 8),
        notice(10, 0, 9),
        notice(0, 2, 10),
    ];
    assert_eq!(run(&mut hub, 8), expected);
}

#[test]
fn the_65th_notice_gets_15_and_a_freed_place_is_used_again() {
    let mut hub = hub();
    offer_notices(&mut hub, 2, 0..64);
    assert_eq!(hub.offer_notice(2, 64), Err(Refusal::NoticesFull));
    // The first is in service after one of its two units: it keeps its place.
    assert_eq!(run(&mut hub, 1), []);
    assert_eq!(hub.offer_notice(2, 64), Err(Refusal::NoticesFull));
    // With the second unit the place is free, for one notice.
    assert_eq!(run(&mut hub, 1), [notice(0, 0, 2)]);
    assert_eq!(hub.offer_notice(2, 65), Ok(2));
    assert_eq!(hub.offer_notice(2, 66), Err(Refusal::NoticesFull));
    // The refused ones left nothing behind; the accepted one stands last.
    let departed = run(&mut hub, 128);
    let expected: Vec<u32> = (1..64).chain([65]).collect();
    assert_eq!(tags(&departed), expected);
    assert_eq!(hub.notices_waiting(), 0);
}

#[test]
fn places_are_used_again_many_times() {
    let mut hub = hub();
    offer_notices(&mut hub, 1, 0..64);
    for tag in 64..300 {
        assert_eq!(hub.offer_notice(1, tag), Err(Refusal::NoticesFull));
        assert_eq!(tags(&run(&mut hub, 1)), [tag - 64]);
        assert_eq!(hub.offer_notice(1, tag), Ok(hub.clock()));
    }
}

#[test]
fn a_full_queue_refuses_no_packet_and_full_places_no_notice() {
    let mut hub = hub();
    offer_notices(&mut hub, 1, 0..64);
    assert_eq!(hub.offer(0, 4, 70), Ok(0));
    assert_eq!(hub.offer(0, 4, 71), Err(Refusal::ReservationFull));
    assert_eq!(hub.offer(254, 1, 72), Err(Refusal::NoSuchConnection));
    assert_eq!(run(&mut hub, 5).len(), 2);
    assert_eq!(hub.offer_notice(1, 64), Ok(5));
}

#[test]
fn a_length_of_0_or_above_s_gets_11_also_when_the_queue_is_full() {
    let mut hub = hub();
    for filled in [false, true] {
        for length in [0, S + 1, u16::MAX] {
            assert_eq!(hub.offer_notice(length, 7), Err(Refusal::Length));
        }
        if filled {
            assert_eq!(hub.offer_notice(S, 7), Err(Refusal::NoticesFull));
        } else {
            offer_notices(&mut hub, S, 0..64);
        }
    }
}

#[test]
fn no_link_gets_2_whatever_the_length() {
    for length in [0, 1, u16::MAX] {
        assert_eq!(Hub::new().offer_notice(length, 7), Err(Refusal::NoLink));
    }
}

#[test]
fn at_the_clocks_end_11_then_13_then_15() {
    // 64 notices at one tick before the end; the first has a unit to go for ever.
    let mut hub = hub_near_the_end(1);
    offer_notices(&mut hub, 2, 0..64);
    assert_eq!(hub.offer_notice(2, 64), Err(Refusal::NoticesFull));
    assert_eq!(run(&mut hub, 1), []);
    assert_eq!(hub.offer_notice(2, 64), Err(Refusal::ClockEnded));
    assert_eq!(hub.offer_notice(0, 64), Err(Refusal::Length));
    assert_eq!(hub.offer_notice(S + 1, 64), Err(Refusal::Length));
    assert_eq!(hub.tick(), Err(Refusal::ClockEnded));
    assert_eq!(hub.notices_waiting(), 64);
}

#[test]
fn a_last_unit_in_the_last_tick() {
    let mut hub = hub_near_the_end(4);
    assert_eq!(hub.offer_notice(4, 7), Ok(CLOCK_END - 4));
    assert_eq!(run(&mut hub, 4), [notice(7, CLOCK_END - 4, CLOCK_END)]);
    assert_eq!(hub.offer_notice(4, 8), Err(Refusal::ClockEnded));
}

#[test]
fn a_waiting_notice_leaves_no_quiet_tick_but_its_own() {
    let mut hub = hub();
    assert_eq!(hub.offer_notice(4, 7), Ok(0));
    assert_eq!(hub.pass_over(100), 0);
    assert_eq!(run(&mut hub, 1), []);
    assert_eq!(hub.pass_over(100), 2);
    assert_eq!(run(&mut hub, 1), [notice(7, 0, 4)]);
    assert_eq!(hub.pass_over(100), 100);
}
