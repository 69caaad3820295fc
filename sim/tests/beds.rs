//! Two hundred connections and 2,048 places, worked out by hand.

use sim::departure::Departure;
use sim::firmware::{level_answer, units_answer};
use sim::hub::{Hub, CLOCK_END};
use sim::link::{Figures, Link};
use sim::record::Record;
use sim::replay::{answers, Pace};
use sim::verdict::{Refusal, Shortage};

/// One level, no silence.
fn hub(largest: u16, bound: u16) -> Hub {
    let mut hub = Hub::new();
    let link = Link::new(1, largest, 0, [bound, 0, 0, 0, 0, 0, 0, 0]);
    assert_eq!(hub.set_link(link), Ok(()));
    hub
}

/// Level 1 and size 1.
fn line(gap: u16) -> Figures {
    Figures::plain(1, gap, 1)
}

/// The same admission so many times, which is accepted under the next numbers.
fn admit_all(hub: &mut Hub, figures: Figures, count: usize) {
    for _ in 0..count {
        let number = hub.standing().count() as u8;
        assert_eq!(hub.admit(figures), Ok(number));
    }
}

fn run_until(hub: &mut Hub, clock: u64) -> Vec<Departure> {
    let mut departed = Vec::new();
    while hub.clock() < clock {
        departed.extend(hub.tick().expect("a tick of a running clock"));
    }
    departed
}

const ALL_STAND: Result<u8, Refusal> = Err(Refusal::NoNumberFree);
const NO_PLACE: Result<u8, Refusal> = Err(Refusal::Reservations);
const NOBODY: Result<u64, Refusal> = Err(Refusal::NoSuchConnection);
const FULL: Result<u64, Refusal> = Err(Refusal::ReservationFull);

#[test]
fn two_hundred_and_no_more() {
    // One packet each: 200 and S are 201 of 300.
    let mut hub = hub(1, 300);
    admit_all(&mut hub, line(300), 200);
    assert_eq!(hub.admit(line(300)), ALL_STAND);
    for number in [0, 63, 64, 127, 128, 198, 199] {
        assert_eq!(hub.offer(number, 1, 7), Ok(0));
        assert_eq!(hub.offer(number, 1, 7), FULL);
    }
    for number in [200, 201, 253, 254, 255] {
        assert_eq!(hub.offer(number, 1, 7), NOBODY);
    }
    let departed = run_until(&mut hub, 10);
    let numbers: Vec<u8> = departed.iter().map(|one| one.connection).collect();
    assert_eq!(numbers, [0, 63, 64, 127, 128, 198, 199]);
}

#[test]
fn seven_behind_5_and_6_and_before_8_and_9() {
    // A gap of 1 is 300 packets. With 199 that is 200 over; with 200 nobody asks.
    let mut hub = hub(1, 300);
    admit_all(&mut hub, line(300), 199);
    let shortage = Shortage {
        level: 1,
        units: 200,
    };
    assert_eq!(hub.admit(line(1)), Err(Refusal::LevelTest(shortage)));
    admit_all(&mut hub, line(300), 1);
    assert_eq!(
        hub.admit(Figures::plain(2, 0, 0)),
        Err(Refusal::NoSuchLevel)
    );
    assert_eq!(hub.admit(line(0)), Err(Refusal::ConnectionLimit));
    assert_eq!(hub.admit(line(1)), ALL_STAND);
}

#[test]
fn the_two_hundredth_at_the_bound() {
    // S 2, bound 202: 199 of one unit and S are 201, so one unit is left.
    let mut hub = hub(2, 202);
    admit_all(&mut hub, line(202), 199);
    let shortage = Shortage { level: 1, units: 1 };
    let two_units = Figures::plain(1, 202, 2);
    assert_eq!(hub.admit(two_units), Err(Refusal::LevelTest(shortage)));
    assert_eq!(hub.admit(line(202)), Ok(199));
}

#[test]
fn the_places_of_one_connection() {
    // 32,768 / 16: 2,048 packets, 2,049 with S. In 4,098 ticks a gap of 2 has 2,049 of them.
    assert_eq!(hub(1, 4_098).admit(line(2)), NO_PLACE);
    let mut hub = hub(1, 32_768);
    assert_eq!(hub.admit(line(15)), NO_PLACE);
    assert_eq!(hub.admit(line(16)), Ok(0));
    assert_eq!(hub.admit(line(65_535)), NO_PLACE);
    for number in 0..2_048 {
        assert_eq!(hub.offer(0, 1, 7), Ok(16 * number));
    }
    assert_eq!(hub.offer(0, 1, 7), FULL);
    assert_eq!(hub.held_by(0), 2_048);
    // The first leaves in the first tick, and its place is used again.
    assert_eq!(run_until(&mut hub, 1).len(), 1);
    assert_eq!(hub.offer(0, 1, 8), Ok(32_768));
    assert_eq!(hub.offer(0, 1, 8), FULL);
    let departed = run_until(&mut hub, 32_769);
    let finishes: Vec<u64> = departed.iter().map(|one| one.finish).collect();
    let expected: Vec<u64> = (1..=2_048).map(|number| 16 * number + 1).collect();
    assert_eq!(finishes, expected);
}

#[test]
fn the_places_of_one_average() {
    // n 16, I 256: 128 windows of 16 packets, a tick apart in each.
    let mut hub = hub(1, 32_768);
    assert_eq!(hub.admit(line(1).with_average(256, 16)), Ok(0));
    assert_eq!(hub.admit(line(65_535)), NO_PLACE);
    for number in 0..2_048 {
        let expected = 256 * (number / 16) + number % 16;
        assert_eq!(hub.offer(0, 1, 7), Ok(expected));
    }
    assert_eq!(hub.offer(0, 1, 7), FULL);
    // n 15, I 255: 32,768 is 128 windows and 128 ticks, so 128 * 15 + 15 = 1,935 packets.
    let mut other = self::hub(1, 32_768);
    assert_eq!(other.admit(line(1).with_average(255, 17)), Ok(0));
    // 113 are left: 32,768 / 290, rounded up; by 289 it is 114.
    assert_eq!(other.admit(line(289)), NO_PLACE);
    assert_eq!(other.admit(line(290)), Ok(1));
    assert_eq!(other.admit(line(65_535)), NO_PLACE);
}

#[test]
fn all_connections_use_all_places() {
    // Bound 2,640: 48 of gap 240 have 11 places each, 152 of gap 264 have 10. 48 * 11 + 152 * 10 is
    // 2,048, 2,049 with S.
    let mut hub = hub(1, 2_640);
    admit_all(&mut hub, line(240), 48);
    admit_all(&mut hub, line(264), 151);
    // 1,528 + 510 = 2,038. 240 would make 2,049; the last takes 10.
    assert_eq!(hub.admit(line(240)), NO_PLACE);
    admit_all(&mut hub, line(264), 1);
    assert_eq!(hub.admit(line(65_535)), ALL_STAND);
    for number in 0..200_u8 {
        let (gap, places) = if number < 48 { (240, 11) } else { (264, 10) };
        for place in 0..places {
            assert_eq!(hub.offer(number, 1, 7), Ok(gap * place));
        }
        assert_eq!(hub.offer(number, 1, 7), FULL);
    }
    // Round j: those of gap 240 are eligible first, at 240 j, then the others, at 264 j; the next
    // round's first are eligible behind them, at 240 j + 240. Each waits until those before are done.
    let mut expected = Vec::new();
    let mut free: u64 = 0;
    for round in 0..11 {
        for (first, behind, gap) in [(0, 48, 240), (48, 200, 264)] {
            if gap * round < 2_640 {
                free = free.max(gap * round);
                for number in first..behind {
                    free += 1;
                    expected.push((number, free));
                }
            }
        }
    }
    let departed = run_until(&mut hub, 2_641);
    let told: Vec<(u8, u64)> = departed
        .iter()
        .map(|one| (one.connection, one.finish))
        .collect();
    assert_eq!(expected.len(), 2_048);
    assert_eq!(told, expected);
}

#[test]
fn all_places_at_the_clocks_end() {
    // The last of them is eligible 2,047 gaps beyond the last tick, which is within 32 bits.
    let mut hub = hub(1, 32_768);
    assert_eq!(hub.admit(line(16)), Ok(0));
    assert_eq!(hub.pass_over(CLOCK_END - 1), CLOCK_END - 1);
    for number in 0..2_048 {
        assert_eq!(hub.offer(0, 1, 7), Ok(3_999_999_999 + 16 * number));
    }
    assert_eq!(hub.eligibility_now(0), Some(4_000_032_767));
    assert!(matches!(hub.tick(), Ok(Some(_))));
    assert_eq!(hub.offer(0, 1, 7), Err(Refusal::ClockEnded));
    assert_eq!(hub.held_by(0), 2_047);
}

#[test]
fn the_bytes_of_the_last_number() {
    // Number 199 is C7.
    let link = b"LK\x01\x01\x00\x00\x2C\x01";
    let mut admission = Vec::new();
    Record::Connection(line(300)).append_to(&mut admission);
    let rest = b"PK\xC7\x01\x00\x07\x00\x00\x00PK\xC8\x01\x00\x07\x00\x00\x00TK\x01\x00";
    let trace = [link, &admission.repeat(201)[..], rest].concat();
    let expected = [
        &b"CA\x00\xC7\x00\x00\x00\x00\x00CA\x07\xFF\x00\x00\x00\x00\x00"[..],
        b"PA\x00\x00\x00\x00\x00PA\x0A\x00\x00\x00\x00",
        b"DP\xC7\x07\x00\x00\x00\x00\x00\x00\x00\x00\x00\x00\x00\x01\x00\x00\x00TA\x00\x01\x00",
    ]
    .concat();
    for pace in [Pace::Plain, Pace::Passing] {
        let given = answers(&trace, pace).expect("answers");
        assert_eq!(given[given.len() - expected.len()..], expected);
    }
}

#[test]
fn the_questions_from_c_take_two_hundred_rows() {
    // S 1, bound 201: 200 packets of one unit and S are 201. Bound 200: one over.
    let row = [1, 0xFF, 0xFF, 1, 0, 0, 0, 0, 0];
    let bad = [1, 0, 0, 1, 0, 0, 0, 0, 0];
    let answer = |bound: u8, rows: &[u8]| {
        let link = [b'L', b'K', 1, 1, 0, 0, bound, 0];
        (level_answer(&link, rows), units_answer(&link, rows))
    };
    assert_eq!(answer(201, &row.repeat(200)), (0, 0));
    assert_eq!(answer(200, &row.repeat(200)), (1, 1));
    assert_eq!(answer(100, &row.repeat(65)), (0, 0));
    assert_eq!(answer(100, &row.repeat(200)), (1, 101));
    assert_eq!(answer(201, &row.repeat(201)), (255, 0));
    assert_eq!(answer(100, &row.repeat(201)), (255, 0));
    assert_eq!(
        answer(201, &[&row.repeat(199)[..], &bad].concat()),
        (255, 0)
    );
    assert_eq!(answer(201, &row.repeat(200)[..1_799]), (255, 0));
}
