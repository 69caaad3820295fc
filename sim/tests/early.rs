//! Packets that stand by (docs/RULES.md, R-11), worked out by hand.
//!
//! Unless a test says otherwise: S 4, no silence, bounds 10 and 20, the queue on; line 0 of level 1, gap
//! 10 and size 4, line 1 of level 2, gap 20 and size 4. Each has one place: distances of 10 and 20.

use sim::departure::Departure;
use sim::firmware::{level_answer, NOT_TO_BE_ASKED};
use sim::hub::{Hub, CLOCK_END};
use sim::link::{Figures, Link, LinkFigures, OFF, ON};
use sim::record::Record;
use sim::replay::{answers, Pace};
use sim::verdict::Refusal;

const TOO_FAR: Result<u64, Refusal> = Err(Refusal::TooFar);

fn link_a(setting: u8) -> Option<Link> {
    Link::set_to(setting, 2, 4, 0, [10, 20, 0, 0, 0, 0, 0, 0])
}

fn hub(setting: u8) -> Hub {
    let mut hub = Hub::new();
    assert_eq!(hub.set_link(link_a(setting)), Ok(()));
    assert_eq!(hub.admit(Figures::plain(1, 10, 4)), Ok(0));
    assert_eq!(hub.admit(Figures::plain(2, 20, 4)), Ok(1));
    hub
}

fn run_until(hub: &mut Hub, clock: u64) -> Vec<Departure> {
    let mut departed = Vec::new();
    while hub.clock() < clock {
        departed.extend(hub.tick().expect("a tick of a running clock"));
    }
    departed
}

/// Tag, eligibility and finish.
fn told(departed: &[Departure]) -> Vec<(u32, u64, u64)> {
    let told = |one: &Departure| (one.tag, one.eligibility, one.finish);
    departed.iter().map(told).collect()
}

/// Line 0 has sent at 0, and its packet has left at 4.
fn sent_once(setting: u8) -> Hub {
    let mut hub = hub(setting);
    assert_eq!(hub.offer(0, 4, 71), Ok(0));
    run_until(&mut hub, 4);
    hub
}

#[test]
fn settings() {
    assert!(link_a(OFF).is_some() && link_a(ON).is_some());
    for setting in [2, 3, 128, 255] {
        assert_eq!(link_a(setting), None);
    }
    let without = Link::new(2, 4, 0, [10, 20, 0, 0, 0, 0, 0, 0]);
    assert_eq!(link_a(OFF), without);
    assert_ne!(link_a(ON), without);
}

#[test]
fn before_its_eligibility_on_and_not_off() {
    let mut on = sent_once(ON);
    assert_eq!(on.offer(0, 4, 72), Ok(10));
    assert_eq!(told(&run_until(&mut on, 14)), [(72, 10, 8)]);
    let mut off = sent_once(OFF);
    assert_eq!(off.offer(0, 4, 72), Ok(10));
    assert_eq!(told(&run_until(&mut off, 14)), [(72, 10, 14)]);
}

#[test]
fn too_far_by_a_tick_and_not() {
    // The next is eligible at 20, and the distance is 10.
    let mut hub = sent_once(ON);
    assert_eq!(hub.offer(0, 4, 72), Ok(10));
    run_until(&mut hub, 8);
    assert_eq!(hub.offer(0, 4, 73), TOO_FAR);
    run_until(&mut hub, 9);
    assert_eq!(hub.offer(0, 4, 73), TOO_FAR);
    run_until(&mut hub, 10);
    assert_eq!(hub.offer(0, 4, 73), Ok(20));
}

#[test]
fn lower_verdicts_come_first() {
    let mut hub = sent_once(ON);
    assert_eq!(hub.offer(0, 4, 72), Ok(10));
    assert_eq!(hub.offer(0, 4, 73), Err(Refusal::ReservationFull));
    run_until(&mut hub, 8);
    assert_eq!(hub.offer(0, 5, 73), Err(Refusal::Length));
    let unsuited = hub.offer_with(0, 4, 73, Some(8));
    assert_eq!(unsuited, Err(Refusal::NoSuchConnection));
    assert_eq!(hub.offer(0, 4, 73), TOO_FAR);
}

#[test]
fn the_clocks_end_comes_before_18() {
    // Near the end a line of gap 65,535 runs ahead by one packet; behind it the next is too far off.
    let mut hub = hub(ON);
    assert_eq!(hub.admit(Figures::plain(2, u16::MAX, 1)), Ok(2));
    while hub.clock() < CLOCK_END - 3 {
        hub.pass_over(CLOCK_END - 3 - hub.clock());
    }
    assert_eq!(hub.offer(2, 1, 7), Ok(CLOCK_END - 3));
    run_until(&mut hub, CLOCK_END - 2);
    assert_eq!(hub.offer(2, 1, 7), Ok(CLOCK_END + 65_532));
    run_until(&mut hub, CLOCK_END - 1);
    assert_eq!(hub.offer(2, 1, 7), TOO_FAR);
    run_until(&mut hub, CLOCK_END);
    assert_eq!(hub.offer(2, 1, 7), Err(Refusal::ClockEnded));
}

#[test]
fn in_the_order_offered_whatever_the_level() {
    let mut hub = hub(ON);
    assert_eq!(hub.offer(0, 4, 71), Ok(0));
    assert_eq!(hub.offer(1, 4, 72), Ok(0));
    run_until(&mut hub, 8);
    assert_eq!(hub.offer(1, 4, 73), Ok(20));
    assert_eq!(hub.offer(0, 4, 74), Ok(10));
    let departed = run_until(&mut hub, 16);
    assert_eq!(told(&departed), [(73, 20, 12), (74, 10, 16)]);
}

#[test]
fn behind_what_is_eligible_and_behind_notices() {
    let mut hub = sent_once(ON);
    assert_eq!(hub.offer(0, 4, 72), Ok(10));
    assert_eq!(hub.offer_notice(1, 9), Ok(4));
    assert_eq!(hub.offer(1, 3, 73), Ok(4));
    let departed = run_until(&mut hub, 12);
    assert_eq!(told(&departed), [(73, 4, 7), (9, 4, 8), (72, 10, 12)]);
}

#[test]
fn two_of_one_line_go_one_behind_the_other() {
    // S 1, bound 20: gap 5, four places, a distance of 20; while the second is in service the third
    // still stands by, and a fifth is offered.
    let mut hub = Hub::new();
    let link = Link::set_to(ON, 1, 1, 1, [20, 0, 0, 0, 0, 0, 0, 0]);
    assert_eq!(hub.set_link(link), Ok(()));
    assert_eq!(hub.admit(Figures::plain(1, 5, 1)), Ok(0));
    let eligible = [70, 71, 72, 73].map(|tag| hub.offer(0, 1, tag));
    assert_eq!(eligible, [Ok(0), Ok(5), Ok(10), Ok(15)]);
    run_until(&mut hub, 1);
    assert_eq!(hub.offer(0, 1, 74), Ok(20));
    let departed = run_until(&mut hub, 9);
    let expected = [(71, 5, 3), (72, 10, 5), (73, 15, 7), (74, 20, 9)];
    assert_eq!(told(&departed), expected);
}

#[test]
fn stamps_wait_for_their_eligibility() {
    let mut hub = Hub::new();
    assert_eq!(hub.set_link(link_a(ON)), Ok(()));
    assert_eq!(hub.admit(Figures::plain(1, 10, 4).by_stamps(5)), Ok(0));
    assert_eq!(hub.offer_with(0, 4, 7, Some(0)), Ok(5));
    assert_eq!(told(&run_until(&mut hub, 9)), [(7, 5, 9)]);
}

#[test]
fn a_charge_from_an_eligibility_to_come() {
    // S 1, bound 4: sent at 0 and at 1, eligible at 4, gone at 2; charged until 8.
    let mut hub = Hub::new();
    let link = Link::set_to(ON, 1, 1, 0, [4, 0, 0, 0, 0, 0, 0, 0]);
    assert_eq!(hub.set_link(link), Ok(()));
    assert_eq!(hub.admit(Figures::plain(1, 4, 1)), Ok(0));
    assert_eq!(hub.offer(0, 1, 71), Ok(0));
    run_until(&mut hub, 1);
    assert_eq!(hub.offer(0, 1, 72), Ok(4));
    run_until(&mut hub, 2);
    assert_eq!(hub.close(0), Ok(()));
    assert_eq!(hub.charged().collect::<Vec<_>>(), [(0, 8)]);
    run_until(&mut hub, 7);
    assert_eq!(hub.next_number(), Some(1));
    run_until(&mut hub, 8);
    assert_eq!(hub.next_number(), Some(0));
}

#[test]
fn a_flood_does_not_run_away() {
    // An offer in each of 20,000 ticks: never more than the distance ahead, and one in 10 accepted.
    let mut hub = hub(ON);
    let mut accepted = 0;
    while hub.clock() < 20_000 {
        if let Ok(eligibility) = hub.offer(0, 4, 7) {
            assert!(eligibility <= hub.clock() + 10);
            accepted += 1;
        }
        let next = hub.clock() + 1;
        run_until(&mut hub, next);
    }
    assert_eq!(accepted, 2_001);
}

#[test]
fn bytes() {
    let link = Record::Link(Box::new(LinkFigures {
        levels: 2,
        largest: 4,
        silence: 3,
        setting: Some(1),
        bounds: [10, 20, 0, 0, 0, 0, 0, 0],
        windows: None,
    }));
    let mut trace = Vec::new();
    link.append_to(&mut trace);
    let written = b"LE\x02\x04\x00\x03\x01\x0A\x00\x14\x00";
    assert_eq!(trace, written);
    assert_eq!(Record::read(written), Some((link, 11)));
    for cut in 0..11 {
        assert_eq!(Record::read(&written[..cut]), None);
    }
    for levels in [0, 9, 255] {
        let bad = [b"LE", &[levels][..], &[1; 40]].concat();
        assert_eq!(Record::read(&bad), None);
    }
    for setting in [2, 255] {
        let trace = [b"LE\x01\x04\x00\x00", &[setting][..], b"\x0A\x00"].concat();
        for pace in [Pace::Plain, Pace::Passing, Pace::Tested] {
            assert_eq!(answers(&trace, pace).expect("answers"), b"LA\x04");
        }
    }
}

#[test]
fn the_question_takes_an_lk() {
    assert_eq!(level_answer(b"LK\x01\x04\x00\x00\x0A\x00", b""), 0);
    let by_setting = level_answer(b"LE\x01\x04\x00\x00\x00\x0A\x00", b"");
    assert_eq!(by_setting, NOT_TO_BE_ASKED);
}
