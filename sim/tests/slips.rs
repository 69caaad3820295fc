//! Slips that have happened (section of that name): each would change one of these answers.

use sim::firmware::{level_answer, units_answer};
use sim::hub::Hub;
use sim::link::{Figures, Link};
use sim::verdict::{Refusal, Shortage};

fn hub(largest: u16, bounds: [u16; 2]) -> Hub {
    let [first, second] = bounds;
    let mut hub = Hub::new();
    let link = Link::new(2, largest, 0, [first, second, 0, 0, 0, 0, 0, 0]);
    assert_eq!(hub.set_link(link), Ok(()));
    hub
}

fn short(level: u8, units: u64) -> Result<u8, Refusal> {
    Err(Refusal::LevelTest(Shortage { level, units }))
}

#[test]
fn rounding_down() {
    // Two packets of gap 9 fit into 10 ticks: 4 + 2 * 3 is 10, 4 + 2 * 4 is 12.
    assert_eq!(hub(4, [10, 20]).admit(Figures::plain(1, 9, 4)), short(1, 2));
    let mut hub = hub(4, [10, 20]);
    assert_eq!(hub.admit(Figures::plain(1, 9, 3)), Ok(0));
    assert_eq!(hub.offer(0, 1, 0), Ok(0));
    assert_eq!(hub.offer(0, 1, 1), Ok(9));
    assert_eq!(hub.offer(0, 1, 2), Err(Refusal::ReservationFull));
}

#[test]
fn testing_only_the_level_of_the_newcomer() {
    let mut hub = hub(4, [10, 20]);
    for number in 0..3 {
        assert_eq!(hub.admit(Figures::plain(2, 20, 4)), Ok(number));
    }
    assert_eq!(hub.admit(Figures::plain(1, 10, 4)), short(2, 4));
}

#[test]
fn spacing_from_the_last_arrival() {
    let mut hub = hub(1, [40, 50]);
    assert_eq!(hub.admit(Figures::plain(1, 10, 1)), Ok(0));
    assert_eq!(hub.offer(0, 1, 0), Ok(0));
    assert_eq!(hub.offer(0, 1, 1), Ok(10));
    assert_eq!(hub.offer(0, 1, 2), Ok(20));
    for _ in 0..5 {
        assert!(hub.tick().is_ok());
    }
    assert_eq!(hub.offer(0, 1, 3), Ok(30));
}

#[test]
fn moving_the_last_eligibility_on_a_refused_offer() {
    let mut hub = hub(4, [10, 20]);
    assert_eq!(hub.admit(Figures::plain(1, 10, 4)), Ok(0));
    assert_eq!(hub.offer(0, 4, 0), Ok(0));
    assert_eq!(hub.offer(0, 4, 1), Err(Refusal::ReservationFull));
    assert_eq!(hub.offer(0, 5, 1), Err(Refusal::Length));
    for _ in 0..4 {
        assert!(hub.tick().is_ok());
    }
    assert_eq!(hub.offer(0, 4, 2), Ok(10));
}

#[test]
fn gap_and_bound_in_each_others_place() {
    // 20 / 40 rounds up to 1, 40 / 20 is 2.
    let mut hub = hub(4, [10, 20]);
    assert_eq!(hub.admit(Figures::plain(2, 40, 4)), Ok(0));
    assert_eq!(hub.offer(0, 1, 0), Ok(0));
    assert_eq!(hub.offer(0, 1, 1), Err(Refusal::ReservationFull));
}

#[test]
fn summing_in_32_bits() {
    // 64 rows of 32,768 packets of 2,048 units: 4,294,967,296, which is 0 in 32 bits.
    let link = b"LK\x01\x00\x08\x00\x00\x80";
    let row = [1, 1, 0, 0x00, 0x08, 0, 0, 0, 0];
    assert_eq!(level_answer(link, &row.repeat(64)), 1);
    assert_eq!(units_answer(link, &row.repeat(64)), 4_294_936_576);
}

#[test]
fn summing_in_33_bits() {
    // 128 of the same rows: 8,589,934,592, which is 0 in 33 bits. The most rows there are, and the
    // longest silence: 200 times 32,768 packets of 2,112 ticks, and 2,112, less the bound.
    let link = b"LK\x01\x00\x08\x00\x00\x80";
    let row = [1, 1, 0, 0x00, 0x08, 0, 0, 0, 0];
    assert_eq!(level_answer(link, &row.repeat(128)), 1);
    assert_eq!(units_answer(link, &row.repeat(128)), 8_589_903_872);
    let silent = b"LK\x01\x00\x08\x40\x00\x80";
    assert_eq!(level_answer(silent, &row.repeat(200)), 1);
    assert_eq!(
        units_answer(silent, &row.repeat(200)),
        13_841_205_312 - 32_768
    );
}

#[test]
fn a_first_packet_is_known_by_a_flag() {
    // A first packet accepted at 0 has a last eligibility of 0 and still spaces the next one.
    let mut hub = hub(4, [20, 30]);
    assert_eq!(hub.admit(Figures::plain(1, 10, 1)), Ok(0));
    assert_eq!(hub.offer(0, 1, 0), Ok(0));
    assert_eq!(hub.offer(0, 1, 1), Ok(10));
}
