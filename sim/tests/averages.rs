//! Average rates (docs/RULES.md, R-6), worked out by hand.
//!
//! Unless a test says otherwise: S 2, no silence, bound 100. The camera has gap 5, size 2, window 40
//! and average gap 20, so n is 2; 100 ticks are two windows and 20 ticks: 2 * 2 + 2 = 6 packets.

use sim::departure::Departure;
use sim::firmware::{level_answer, units_answer};
use sim::hub::{Hub, CLOCK_END};
use sim::link::{Figures, Link};
use sim::record::Record;
use sim::replay::{answers, Pace};
use sim::verdict::{Refusal, Shortage};

fn hub_of(largest: u16, used: &[u16]) -> Hub {
    let mut bounds = [0; 8];
    bounds[..used.len()].copy_from_slice(used);
    let mut hub = Hub::new();
    let link = Link::new(used.len() as u8, largest, 0, bounds);
    assert_eq!(hub.set_link(link), Ok(()));
    hub
}

fn hub() -> Hub {
    hub_of(2, &[100])
}

fn camera() -> Figures {
    Figures::plain(1, 5, 2).with_average(40, 20)
}

/// Level 1 and size 1.
fn line(gap: u16, window: u16, average: u16) -> Figures {
    Figures::plain(1, gap, 1).with_average(window, average)
}

fn hub_with(figures: Figures) -> Hub {
    let mut hub = hub();
    assert_eq!(hub.admit(figures), Ok(0));
    hub
}

/// So many offers of one unit on connection 0, now.
fn offers(hub: &mut Hub, count: usize) -> Vec<Result<u64, Refusal>> {
    (0..count).map(|_| hub.offer(0, 1, 7)).collect()
}

fn eligible(hub: &mut Hub, expected: &[u64]) {
    let expected: Vec<_> = expected.iter().map(|&tick| Ok(tick)).collect();
    assert_eq!(offers(hub, expected.len()), expected);
}

fn run_until(hub: &mut Hub, clock: u64) -> Vec<Departure> {
    let mut departed = Vec::new();
    while hub.clock() < clock {
        departed.extend(hub.tick().expect("a tick of a running clock"));
    }
    departed
}

fn short(level: u8, units: u64) -> Result<u8, Refusal> {
    Err(Refusal::LevelTest(Shortage { level, units }))
}

const FULL: Result<u64, Refusal> = Err(Refusal::ReservationFull);
const BROKEN: Result<u8, Refusal> = Err(Refusal::ConnectionLimit);

#[test]
fn a_burst() {
    // Two a gap apart, then a window behind each of them, and so on; six places.
    let mut hub = hub_with(camera());
    eligible(&mut hub, &[0, 5, 40, 45, 80, 85]);
    assert_eq!(offers(&mut hub, 1), [FULL]);
    let departed = run_until(&mut hub, 100);
    let finishes: Vec<_> = departed.iter().map(|one| one.finish).collect();
    assert_eq!(finishes, [1, 6, 41, 46, 81, 86]);
}

#[test]
fn a_burst_on_arrival() {
    // Offered when the rules allow it each is eligible at once; a tick early it waits for that tick.
    let mut hub = hub_with(camera());
    for moment in [0, 5, 40, 45, 80, 85, 120] {
        run_until(&mut hub, moment);
        eligible(&mut hub, &[moment]);
    }
    run_until(&mut hub, 124);
    eligible(&mut hub, &[125]);
    run_until(&mut hub, 159);
    eligible(&mut hub, &[160]);
}

#[test]
fn a_window_that_begins_inside_a_burst() {
    // n 3, I 60. 0, 30 and 35 are one window's; the next waits for 0 + 60, then for 30 + 60 and
    // 35 + 60: also the windows from 30 and from 35 on hold three each.
    let mut hub = hub_with(line(5, 60, 20));
    for moment in [0, 30, 35] {
        run_until(&mut hub, moment);
        eligible(&mut hub, &[moment]);
    }
    run_until(&mut hub, 40);
    eligible(&mut hub, &[60, 90, 95, 120]);
}

#[test]
fn the_gap_counts_where_it_asks_for_more() {
    // n 2, I 40: at 60 the first has been left behind, but 58 + 5 is later than 20 + 40.
    let mut hub = hub_with(camera());
    for moment in [20, 58] {
        run_until(&mut hub, moment);
        eligible(&mut hub, &[moment]);
    }
    run_until(&mut hub, 60);
    eligible(&mut hub, &[63]);
    // Behind 58 and 63: 58 + 40.
    eligible(&mut hub, &[98]);
}

#[test]
fn one_packet_to_a_window() {
    // 100 ticks are two windows and 20 ticks: 2 + 1.
    let mut hub = hub_with(line(5, 40, 40));
    eligible(&mut hub, &[0, 40, 80]);
    assert_eq!(offers(&mut hub, 1), [FULL]);
}

#[test]
fn sixteen_packets_to_a_window_and_the_seventeenth() {
    // I 160, gap 2, bound 200: 16 + the smaller of 16 and 40 / 2, so 32 places. The first window's
    // go at 0 to 30, the second's at 160 to 190; the 17th is 16 behind the first.
    let mut hub = hub_of(1, &[200]);
    assert_eq!(hub.admit(line(2, 160, 10)), Ok(0));
    let first: Vec<u64> = (0..16).map(|number| 2 * number).collect();
    eligible(&mut hub, &first);
    eligible(&mut hub, &[160, 162]);
    let second: Vec<u64> = (2..16).map(|number| 160 + 2 * number).collect();
    eligible(&mut hub, &second);
    assert_eq!(offers(&mut hub, 1), [FULL]);
    // The first of all has left: the 33rd is 16 behind the 17th, at 160 + 160.
    run_until(&mut hub, 1);
    eligible(&mut hub, &[320]);
}

#[test]
fn more_packets_held_than_remembered() {
    // Bound 1,000: 25 windows of two packets.
    let mut hub = hub_of(2, &[1_000]);
    assert_eq!(hub.admit(camera()), Ok(0));
    let all: Vec<u64> = (0..25)
        .flat_map(|window| [40 * window, 40 * window + 5])
        .collect();
    eligible(&mut hub, &all);
    assert_eq!(offers(&mut hub, 1), [FULL]);
    run_until(&mut hub, 6);
    eligible(&mut hub, &[1_000, 1_005]);
    assert_eq!(offers(&mut hub, 1), [FULL]);
}

#[test]
fn an_average_gap_of_the_gap_changes_nothing() {
    // n times X is I, so that the n-th before plus I is never later than the last plus X.
    for packets in 1..=16 {
        let mut plain = hub_with(line(7, 0, 0));
        let mut average = hub_with(line(7, 7 * packets, 7));
        for step in 0_u64..60 {
            let moment = 3 * step + step * step % 5;
            run_until(&mut plain, moment);
            run_until(&mut average, moment);
            assert_eq!(offers(&mut plain, 2), offers(&mut average, 2));
        }
    }
}

#[test]
fn windows_pass() {
    let mut hub = hub_with(camera());
    eligible(&mut hub, &[0, 5, 40]);
    run_until(&mut hub, 1_000);
    eligible(&mut hub, &[1_000, 1_005, 1_040, 1_045]);
}

#[test]
fn refused_offers_do_not_move_the_memory() {
    let mut hub = hub_with(camera());
    eligible(&mut hub, &[0, 5, 40, 45, 80, 85]);
    assert_eq!(offers(&mut hub, 3), [FULL; 3]);
    run_until(&mut hub, 1);
    assert_eq!(hub.offer(0, 0, 7), Err(Refusal::Length));
    assert_eq!(hub.offer(0, 3, 7), Err(Refusal::Length));
    assert_eq!(hub.offer(1, 1, 7), Err(Refusal::NoSuchConnection));
    // The second before it is the one at 80.
    eligible(&mut hub, &[120]);
}

#[test]
fn each_connection_remembers_for_itself() {
    let mut hub = hub_with(camera());
    assert_eq!(hub.admit(camera()), Ok(1));
    eligible(&mut hub, &[0, 5]);
    assert_eq!(hub.offer(1, 1, 7), Ok(0));
    eligible(&mut hub, &[40]);
    assert_eq!(hub.offer(1, 1, 7), Ok(5));
    assert_eq!(hub.offer(1, 1, 7), Ok(40));
}

#[test]
fn figures_at_their_limits() {
    let good = [
        (5, 5, 5),
        (5, 80, 5),
        (4, 4 * 16, 4),
        (1, 1, 1),
        (1, 16, 1),
        (1, 65_535, 65_535),
        (65_535, 65_535, 65_535),
        (4_369, 65_535, 4_369),
        (1, 65_520, 4_095),
        (4_095, 65_520, 4_095),
        (32_767, 65_534, 32_767),
    ];
    for (gap, window, average) in good {
        let given = hub().admit(line(gap, window, average));
        // Only a gap of 1 with n 1 and I 1 or n 16 and I 16 is too much: 100 + 2 of 100.
        if (gap, average) == (1, 1) {
            assert_eq!(given, short(1, 2), "{window}");
        } else {
            assert_eq!(given, Ok(0), "{gap} {window} {average}");
        }
    }
}

#[test]
fn broken_figures() {
    let broken = [
        // A window without an average gap, and the other way.
        (5, 40, 0),
        (5, 0, 20),
        (1, 1, 0),
        (1, 0, 1),
        (5, 65_535, 0),
        (5, 0, 65_535),
        // An average gap that does not divide.
        (5, 41, 20),
        (5, 39, 20),
        (5, 40, 30),
        (5, 65_535, 65_534),
        (5, 65_535, 32_767),
        // An average gap above the window: n would be 0.
        (5, 20, 40),
        (5, 40, 41),
        // An average gap below the gap.
        (5, 16, 4),
        (5, 4, 4),
        (2, 16, 1),
        (65_535, 65_534, 65_534),
        // n is 17, or more.
        (5, 85, 5),
        (1, 17, 1),
        (1, 65_535, 3_855),
        (1, 65_535, 1),
    ];
    for (gap, window, average) in broken {
        let given = hub().admit(line(gap, window, average));
        assert_eq!(given, BROKEN, "{gap} {window} {average}");
    }
}

#[test]
fn the_order_of_verdicts() {
    let broken = line(1, 40, 0);
    assert_eq!(Hub::new().admit(broken), Err(Refusal::NoLink));
    let wrong_level = Figures { level: 2, ..broken };
    assert_eq!(hub().admit(wrong_level), Err(Refusal::NoSuchLevel));
    // Without the window it would be 100 + 2 of 100.
    assert_eq!(hub().admit(broken), BROKEN);
    // 200 stand, with S 202 of 300: 6 before 7.
    let mut hub = hub_of(2, &[300]);
    for number in 0..200 {
        assert_eq!(hub.admit(line(300, 0, 0)), Ok(number));
    }
    assert_eq!(hub.admit(broken), BROKEN);
    let good = line(300, 300, 300);
    assert_eq!(hub.admit(good), Err(Refusal::NoNumberFree));
}

#[test]
fn the_average_lets_in_what_the_gap_alone_would_not() {
    // Gap 1, size 2: 100 packets are 200, and S. With n 10 and I 200: 10 packets are 20, and S.
    let mut hub = hub();
    let gap_alone = Figures::plain(1, 1, 2);
    assert_eq!(hub.admit(gap_alone), short(1, 102));
    assert_eq!(hub.admit(gap_alone.with_average(200, 20)), Ok(0));
    // n 4, I 40: 2 * 4 + 4 packets of 2 are 24. Three fit: 22 + 72 = 94 of 100. A fourth: 118.
    let other = gap_alone.with_average(40, 10);
    for number in 1..=3 {
        assert_eq!(hub.admit(other), Ok(number));
    }
    assert_eq!(hub.admit(other), short(1, 18));
    // n 16, I 32: 3 * 16 + min(16, 4) = 52 packets of 1.
    assert_eq!(hub.admit(line(1, 32, 2)), short(1, 46));
}

#[test]
fn each_level_counts_its_own_bound() {
    // S 4, bounds 30 and 100. Gap 3, size 2, I 60, n 5. 30 ticks: the smaller of 10 and 5, so
    // 5 * 2 + 4 = 14 of 30. 100 ticks: 5 + min(5, 40 / 3 rounded up) = 10: 24 of 100.
    let mut hub = hub_of(4, &[30, 100]);
    let camera = Figures::plain(1, 3, 2).with_average(60, 12);
    assert_eq!(hub.admit(camera), Ok(0));
    // Two: 24 of 30, 44 of 100. Three: 34 of 30.
    assert_eq!(hub.admit(camera), Ok(1));
    assert_eq!(hub.admit(camera), short(1, 4));
    // The rest of a window counts by the gap: 100 = 3 * 32 + 4, and 4 / 3 rounded up is 2: 3 * 4 + 2
    // packets of 4 are 56: 44 + 56 fill level 2. One unit more does not pass.
    let filling = Figures::plain(2, 3, 4).with_average(32, 8);
    assert_eq!(hub.admit(filling), Ok(2));
    assert_eq!(hub.admit(Figures::plain(2, 65_535, 1)), short(2, 1));
    assert_eq!(
        hub.admit(Figures::plain(2, 1, 1).with_average(65_535, 4_369)),
        short(2, 15)
    );
}

#[test]
fn the_silence_counts_with_each_packet() {
    // Silence 3, bound 35. n 2, I 20: 2 + 2 packets of 1 + 3, and S 2 + 3: 21 of 35.
    let bounds = [35, 0, 0, 0, 0, 0, 0, 0];
    let figures = line(1, 20, 10);
    let mut hub = Hub::new();
    assert_eq!(hub.set_link(Link::new(1, 2, 3, bounds)), Ok(()));
    assert_eq!(hub.admit(figures), Ok(0));
    // Another 16: 37 of 35.
    assert_eq!(hub.admit(figures), short(1, 2));
}

#[test]
fn reservations_use_the_same_count() {
    // Bound 10,000. n 16, I 1,008: 9 * 16 + 16 = 160 of 2,048. Twelve: 1,920.
    let mut hub = hub_of(1, &[10_000]);
    for number in 0..12 {
        assert_eq!(hub.admit(line(1, 1_008, 63)), Ok(number));
    }
    assert_eq!(hub.admit(line(1, 1_008, 63)), Err(Refusal::Reservations));
    // 129 = 8 * 16 + 1: 10,000 = 8 * 1,248 + 16, gap 16. 128 = 7 * 16 + 16: I 1,264.
    assert_eq!(hub.admit(line(16, 1_248, 78)), Err(Refusal::Reservations));
    assert_eq!(hub.admit(line(16, 1_264, 79)), Ok(12));
    assert_eq!(
        hub.admit(line(1, 65_535, 65_535)),
        Err(Refusal::Reservations)
    );
    // All 128 places of it, and no more.
    for number in 0..128_u64 {
        let expected = 1_264 * (number / 16) + 16 * (number % 16);
        assert_eq!(hub.offer(12, 1, 7), Ok(expected));
    }
    assert_eq!(hub.offer(12, 1, 7), FULL);
}

#[test]
fn a_window_beyond_the_clocks_end() {
    // One packet to 65,535 ticks: the second is eligible as far beyond its arrival as can be.
    let mut hub = hub_with(line(1, 65_535, 65_535));
    assert_eq!(hub.pass_over(CLOCK_END - 2), CLOCK_END - 2);
    eligible(&mut hub, &[CLOCK_END - 2]);
    assert!(matches!(hub.tick(), Ok(Some(_))));
    eligible(&mut hub, &[CLOCK_END - 2 + 65_535]);
    assert_eq!(hub.tick(), Ok(None));
    assert_eq!(offers(&mut hub, 1), [FULL]);
    assert_eq!(hub.held_by(0), 1);
}

#[test]
fn the_bytes_of_an_admission() {
    // The camera: 28 00 is the window, 14 00 the average gap. The other way round n would be 0.
    let mut written = Vec::new();
    Record::Connection(camera()).append_to(&mut written);
    assert_eq!(written, b"CN\x01\x05\x00\x02\x00\x28\x00\x14\x00");
    let link = b"LK\x01\x02\x00\x00\x64\x00";
    let exchanged = b"CN\x01\x05\x00\x02\x00\x14\x00\x28\x00";
    let trace = [&link[..], &written, exchanged, &written[..10]].concat();
    let expected = [
        &b"LA\x00CA\x00\x00\x00\x00\x00\x00\x00"[..],
        b"CA\x06\xFF\x00\x00\x00\x00\x00ER\x0E\x1E\x00\x00\x00",
    ]
    .concat();
    for pace in [Pace::Plain, Pace::Passing] {
        assert_eq!(answers(&trace, pace).expect("answers"), expected);
    }
}

#[test]
fn the_questions_from_c_read_averages() {
    // Bound 100, S 2. Gap 1, size 2: 102 over; n 10 and I 200: 22 of 100; n 4 and I 40: 26 of 100.
    let link = b"LK\x01\x02\x00\x00\x64\x00";
    let gap_alone = [1, 1, 0, 2, 0, 0, 0, 0, 0];
    let slow = [1, 1, 0, 2, 0, 200, 0, 20, 0];
    let quick = [1, 1, 0, 2, 0, 40, 0, 10, 0];
    let answer = |rows: &[u8]| (level_answer(link, rows), units_answer(link, rows));
    assert_eq!(answer(&gap_alone), (1, 102));
    assert_eq!(answer(&slow), (0, 0));
    assert_eq!(answer(&[slow, quick, quick, quick].concat()), (0, 0));
    assert_eq!(
        answer(&[slow, quick, quick, quick, quick].concat()),
        (1, 18)
    );
    // Every way to break a limit.
    for broken in [(40, 0), (0, 20), (41, 20), (20, 40), (17, 1)] {
        let (window, average) = broken;
        let row = [1, 1, 0, 2, 0, window, 0, average, 0];
        assert_eq!(answer(&[slow, row].concat()), (255, 0), "{broken:?}");
    }
    let below_the_gap = [1, 3, 0, 2, 0, 4, 0, 2, 0];
    assert_eq!(answer(&below_the_gap), (255, 0));
}
