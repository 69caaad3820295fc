//! The silence after each packet (docs/RULES.md, R-4), worked out by hand.
//!
//! Unless a test says otherwise: S 4, silence 3, bounds 14 and 35; connections 0 (level 1, gap 14,
//! size 4: 7 + 7 = 14 of 14) and 1 (level 2, gap 35, size 4: 3 * 7 + 7 + 7 = 35 of 35).

use sim::departure::Departure;
use sim::hub::{Hub, CLOCK_END};
use sim::level_test::level_sum;
use sim::link::{Connection, Figures, Link};
use sim::replay::{answers, Pace};
use sim::verdict::{Refusal, Shortage};

fn link(largest: u16, silence: u8, used: &[u16]) -> Option<Link> {
    let mut bounds = [0; 8];
    bounds[..used.len()].copy_from_slice(used);
    Link::new(used.len() as u8, largest, silence, bounds)
}

fn hub() -> Hub {
    let mut hub = Hub::new();
    assert_eq!(hub.set_link(link(4, 3, &[14, 35])), Ok(()));
    assert_eq!(hub.admit(Figures::plain(1, 14, 4)), Ok(0));
    assert_eq!(hub.admit(Figures::plain(2, 35, 4)), Ok(1));
    hub
}

fn run(hub: &mut Hub, ticks: u64) -> Vec<Departure> {
    let one = |_| hub.tick().expect("a tick of a running clock");
    (0..ticks).filter_map(one).collect()
}

/// Tag and finish of each.
fn told(departed: &[Departure]) -> Vec<(u32, u64)> {
    departed.iter().map(|one| (one.tag, one.finish)).collect()
}

fn short(level: u8, units: u64) -> Result<u8, Refusal> {
    Err(Refusal::LevelTest(Shortage { level, units }))
}

#[test]
fn a_second_packet_waits_for_the_silence() {
    // Units at 0 to 3, silent at 4, 5 and 6, units at 7 to 10.
    let mut hub = hub();
    assert_eq!(hub.offer(0, 4, 70), Ok(0));
    assert_eq!(hub.offer(1, 4, 71), Ok(0));
    assert_eq!(told(&run(&mut hub, 4)), [(70, 4)]);
    assert_eq!(told(&run(&mut hub, 6)), []);
    assert_eq!(told(&run(&mut hub, 1)), [(71, 11)]);
}

#[test]
fn the_silence_runs_whether_something_waits_or_not() {
    // Last unit at 3; the silence is over at 7. Offered at 4 to 7 it starts at 7, at 8 at once.
    for offered in 4..=8 {
        let mut hub = hub();
        assert_eq!(hub.offer(0, 4, 70), Ok(0));
        run(&mut hub, offered);
        assert_eq!(hub.offer(1, 2, 71), Ok(offered));
        let finish = offered.max(7) + 2;
        assert_eq!(told(&run(&mut hub, finish - offered)), [(71, finish)]);
    }
}

#[test]
fn the_silence_still_to_run_is_told_tick_by_tick() {
    let mut hub = hub();
    assert_eq!(hub.offer(0, 2, 70), Ok(0));
    let mut left = Vec::new();
    for _ in 0..8 {
        left.push(hub.silence_left());
        run(&mut hub, 1);
    }
    assert_eq!(left, [0, 0, 3, 2, 1, 0, 0, 0]);
}

#[test]
fn the_place_is_free_when_the_last_unit_has_gone() {
    // Reservation 1: held through 3, free at 4, before the silence has run.
    let mut hub = hub();
    assert_eq!(hub.offer(0, 4, 70), Ok(0));
    run(&mut hub, 3);
    assert_eq!(hub.offer(0, 4, 71), Err(Refusal::ReservationFull));
    run(&mut hub, 1);
    assert_eq!((hub.silence_left(), hub.held_by(0)), (3, 0));
    assert_eq!(hub.offer(0, 4, 71), Ok(14));
}

#[test]
fn the_choice_is_made_when_the_silence_is_over() {
    // Level 2 waits since 1, level 1 is offered in the last silent tick: it goes first.
    let mut hub = hub();
    assert_eq!(hub.offer_notice(1, 7), Ok(0));
    run(&mut hub, 1);
    assert_eq!(hub.offer(1, 4, 71), Ok(1));
    run(&mut hub, 2);
    assert_eq!(hub.offer(0, 4, 70), Ok(3));
    // Silent at 1 to 3; units at 4 to 7, silent at 8 to 10, units at 11 to 14.
    assert_eq!(told(&run(&mut hub, 12)), [(70, 8), (71, 15)]);
}

#[test]
fn notices_cost_the_same() {
    // One unit each: at 0, 4 and 8; a packet offered at 1 goes at 4 to 5, before the second.
    let mut hub = hub();
    for tag in [7, 8] {
        assert_eq!(hub.offer_notice(1, tag), Ok(0));
    }
    assert_eq!(told(&run(&mut hub, 1)), [(7, 1)]);
    assert_eq!(hub.offer(0, 2, 70), Ok(1));
    assert_eq!(told(&run(&mut hub, 9)), [(70, 6), (8, 10)]);
}

#[test]
fn a_notice_frees_its_place_before_its_silence() {
    let mut hub = hub();
    for tag in 0..64 {
        assert_eq!(hub.offer_notice(1, tag), Ok(0));
    }
    assert_eq!(told(&run(&mut hub, 1)), [(0, 1)]);
    assert_eq!(hub.offer_notice(1, 64), Ok(1));
    assert_eq!(hub.offer_notice(1, 65), Err(Refusal::NoticesFull));
    assert_eq!(told(&run(&mut hub, 3)), []);
    assert_eq!(told(&run(&mut hub, 1)), [(1, 5)]);
}

#[test]
fn the_longest_silence() {
    // S 1, silence 64: units at 0, 65 and 130.
    let mut hub = Hub::new();
    assert_eq!(hub.set_link(link(1, 64, &[65])), Ok(()));
    for tag in 0..3 {
        assert_eq!(hub.offer_notice(1, tag), Ok(0));
    }
    assert_eq!(told(&run(&mut hub, 131)), [(0, 1), (1, 66), (2, 131)]);
}

#[test]
fn links_at_the_edges() {
    let cases = [
        (4, 0, 4, true),
        (4, 0, 3, false),
        (4, 1, 5, true),
        (4, 1, 4, false),
        (4, 64, 68, true),
        (4, 64, 67, false),
        (4, 65, 69, false),
        (4, 65, 32_768, false),
        (4, 255, 32_768, false),
        (2_048, 64, 2_112, true),
        (2_048, 64, 2_111, false),
        (2_049, 0, 2_049, false),
        (65_535, 255, 65_535, false),
    ];
    for (largest, silence, first, good) in cases {
        let set = link(largest, silence, &[first]);
        assert_eq!(set.is_some(), good, "{largest} {silence} {first}");
    }
}

#[test]
fn each_size_and_s_grow_in_the_level_test() {
    // Bound 20: a gap of 10 counts twice. 2 * (2 + 3) + 4 + 3 = 17; 2 * (3 + 3) + 7 = 19;
    // 2 * (4 + 3) + 7 = 21.
    let link = link(4, 3, &[20]).expect("within its limits");
    for (size, sum) in [(2, 17), (3, 19), (4, 21)] {
        let one = Connection::new(&link, Figures::plain(1, 10, size)).expect("within its limits");
        assert_eq!(level_sum(&link, &[one], 1), sum);
        // The reservation is what it was: 20 / 10.
        assert_eq!(one.reservation(&link), 2);
    }
    let mut hub = Hub::new();
    assert_eq!(hub.set_link(Some(link)), Ok(()));
    assert_eq!(hub.admit(Figures::plain(1, 10, 4)), short(1, 1));
    assert_eq!(hub.admit(Figures::plain(1, 10, 3)), Ok(0));
    // 19 and 1 * (1 + 3) are 3 over.
    assert_eq!(hub.admit(Figures::plain(1, 20, 1)), short(1, 3));
}

#[test]
fn the_most_units_that_an_admission_can_be_over() {
    // 14 * 2,112, once 1,024 + 64, and S with 2,112 fill the bound of 32,768 exactly; the newcomer
    // adds 32,768 packets of 2,112.
    let mut hub = Hub::new();
    assert_eq!(hub.set_link(link(2_048, 64, &[32_768])), Ok(()));
    for number in 0..14 {
        assert_eq!(hub.admit(Figures::plain(1, 32_768, 2_048)), Ok(number));
    }
    assert_eq!(hub.admit(Figures::plain(1, 32_768, 1_024)), Ok(14));
    assert_eq!(hub.admit(Figures::plain(1, 65_535, 1)), short(1, 65));
    assert_eq!(hub.admit(Figures::plain(1, 1, 2_048)), short(1, 69_206_016));
}

#[test]
fn the_clock_ends_in_a_silence() {
    // Last unit so many ticks before the end; with 3 left the silence takes them all, with 4 one
    // more unit goes.
    for left in 0..=4 {
        let (mut hub, start) = (hub(), CLOCK_END - left - 1);
        assert_eq!(hub.pass_over(start), start);
        assert_eq!(hub.offer_notice(1, 7), Ok(start));
        assert_eq!(hub.offer_notice(1, 8), Ok(start));
        let departed = run(&mut hub, left + 1);
        assert_eq!(departed.len(), if left == 4 { 2 } else { 1 });
        assert_eq!(hub.tick(), Err(Refusal::ClockEnded));
        assert_eq!(
            u64::from(hub.silence_left()),
            [3, 2, 1, 0, 3][left as usize]
        );
    }
}

#[test]
fn quiet_ticks_of_a_silence() {
    let mut hub = hub();
    assert_eq!(hub.offer_notice(1, 7), Ok(0));
    assert_eq!(hub.offer_notice(1, 8), Ok(0));
    assert_eq!(told(&run(&mut hub, 1)), [(7, 1)]);
    assert_eq!(hub.pass_over(2), 2);
    assert_eq!(hub.silence_left(), 1);
    assert_eq!(hub.pass_over(100), 1);
    assert_eq!(hub.pass_over(100), 0);
    assert_eq!(told(&run(&mut hub, 1)), [(8, 5)]);
}

fn answered(trace: &[u8]) -> Vec<u8> {
    let passing = answers(trace, Pace::Passing).expect("answers");
    assert_eq!(passing, answers(trace, Pace::Plain).expect("answers"));
    passing
}

#[test]
fn the_bytes_of_a_silence() {
    // S 4, silence 3, bound 14. Notices of one unit at 0 and 4: the first `TK` ends in the silence.
    let trace = [
        &b"LK\x01\x04\x00\x03\x0E\x00"[..],
        b"NQ\x01\x00\x07\x00\x00\x00NQ\x01\x00\x08\x00\x00\x00",
        b"TK\x03\x00TK\x02\x00",
    ]
    .concat();
    let expected = [
        &b"LA\x00NA\x00\x00\x00\x00\x00NA\x00\x00\x00\x00\x00"[..],
        b"DP\xFE\x07\x00\x00\x00\x00\x00\x00\x00\x00\x00\x00\x00\x01\x00\x00\x00TA\x00\x03\x00",
        b"DP\xFE\x08\x00\x00\x00\x00\x00\x00\x00\x00\x00\x00\x00\x05\x00\x00\x00TA\x00\x02\x00",
    ]
    .concat();
    assert_eq!(answered(&trace), expected);
}

#[test]
fn any_silence_is_well_formed() {
    for silence in 0..=255 {
        let trace = [&b"LK\x01\x04\x00"[..], &[silence], b"\x00\x80"].concat();
        let verdict = if silence <= 64 { 0 } else { 4 };
        assert_eq!(answered(&trace), [b'L', b'A', verdict]);
    }
}

#[test]
fn a_link_without_its_last_byte_is_malformed() {
    // The layout of document 01 lacks a byte: a trace of it ends in a record cut short.
    let old = b"LK\x02\x04\x00\x0A\x00\x14\x00";
    assert_eq!(answered(old), b"ER\x0E\x00\x00\x00\x00");
}
