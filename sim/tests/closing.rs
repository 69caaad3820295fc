//! Closing a connection (docs/RULES.md, R-8), worked out by hand.
//!
//! Unless a test says otherwise: S 2, no silence, bounds 10 and 30. A closed connection is charged
//! until 30 ticks behind its last eligibility. A pump is of level 1, gap 10, size 2: 2 of level 1's
//! 10 ticks, 6 of level 2's 30, 2 of each for S; one place. A camera is of level 2, gap 10, size 2:
//! three places.

use sim::departure::Departure;
use sim::hub::{Hub, CLOCK_END};
use sim::link::{Figures, Link};
use sim::replay::{answers, Pace};
use sim::verdict::{Refusal, Shortage};

fn hub_of(largest: u16, silence: u8, used: &[u16]) -> Hub {
    let mut bounds = [0; 8];
    bounds[..used.len()].copy_from_slice(used);
    let mut hub = Hub::new();
    let link = Link::new(used.len() as u8, largest, silence, bounds);
    assert_eq!(hub.set_link(link), Ok(()));
    hub
}

fn hub() -> Hub {
    hub_of(2, 0, &[10, 30])
}

fn pump() -> Figures {
    Figures::plain(1, 10, 2)
}

fn camera() -> Figures {
    Figures::plain(2, 10, 2)
}

/// One unit of level 2's 30 ticks.
fn slow() -> Figures {
    Figures::plain(2, 65_535, 1)
}

/// The same admission so many times, under the next numbers.
fn admit_all(hub: &mut Hub, figures: Figures, count: u8) {
    for number in 0..count {
        assert_eq!(hub.admit(figures), Ok(number));
    }
}

fn run_until(hub: &mut Hub, clock: u64) -> Vec<Departure> {
    let mut departed = Vec::new();
    while hub.clock() < clock {
        departed.extend(hub.tick().expect("a tick of a running clock"));
    }
    departed
}

/// The same clock, quiet ticks at once.
fn pass_until(hub: &mut Hub, clock: u64) {
    while hub.clock() < clock {
        if hub.pass_over(clock - hub.clock()) == 0 {
            hub.tick().expect("a tick of a running clock");
        }
    }
}

/// A pump under number 0 that sent at a tick and was closed as soon as its two units had gone.
fn closed_behind(sent: u64) -> Hub {
    let mut hub = hub();
    admit_all(&mut hub, pump(), 1);
    run_until(&mut hub, sent);
    assert_eq!(hub.offer(0, 2, 7), Ok(sent));
    run_until(&mut hub, sent + 2);
    assert_eq!(hub.close(0), Ok(()));
    hub
}

fn charged(hub: &Hub) -> Vec<(u8, u64)> {
    hub.charged().collect()
}

/// The number that a newcomer gets; it leaves nothing, since it is closed before it sends.
fn next_number(hub: &mut Hub) -> Result<u8, Refusal> {
    let number = hub.admit(slow())?;
    assert_eq!(hub.close(number), Ok(()));
    Ok(number)
}

fn short(level: u8, units: u64) -> Result<u8, Refusal> {
    Err(Refusal::LevelTest(Shortage { level, units }))
}

const NOBODY: Result<(), Refusal> = Err(Refusal::NoSuchConnection);
const HELD: Result<(), Refusal> = Err(Refusal::PacketsHeld);

#[test]
fn one_that_never_sent_is_freed_at_once() {
    let mut hub = hub();
    admit_all(&mut hub, pump(), 1);
    for clock in [0, 5, 40] {
        run_until(&mut hub, clock);
        assert_eq!(hub.close(0), Ok(()));
        assert_eq!(hub.close(0), NOBODY);
        assert_eq!(hub.offer(0, 1, 7), Err(Refusal::NoSuchConnection));
        assert_eq!(charged(&hub), []);
        assert_eq!(hub.admit(pump()), Ok(0));
    }
}

#[test]
fn a_refused_offer_is_not_sent() {
    let mut hub = hub();
    admit_all(&mut hub, pump(), 1);
    assert_eq!(hub.offer(0, 3, 7), Err(Refusal::Length));
    assert_eq!(hub.close(0), Ok(()));
    assert_eq!(charged(&hub), []);
}

#[test]
fn the_tick_that_reaches_the_end_frees_the_number() {
    // By the largest bound, not by that of level 1.
    for sent in [0, 7] {
        let mut hub = closed_behind(sent);
        assert_eq!(charged(&hub), [(0, sent + 30)]);
        for clock in [sent + 2, sent + 10, sent + 29] {
            run_until(&mut hub, clock);
            assert_eq!(next_number(&mut hub), Ok(1), "at {clock}");
        }
        run_until(&mut hub, sent + 30);
        assert_eq!(charged(&hub), []);
        assert_eq!(next_number(&mut hub), Ok(0));
    }
}

#[test]
fn quiet_ticks_that_are_passed_over_free_it_too() {
    for clock in [29, 30, 31, 1_000, CLOCK_END] {
        let mut hub = closed_behind(0);
        assert_eq!(hub.pass_over(clock - 2), clock - 2);
        let expected = if clock < 30 { Ok(1) } else { Ok(0) };
        assert_eq!(next_number(&mut hub), expected, "at {clock}");
    }
}

#[test]
fn the_charge_counts_from_the_last_eligibility() {
    // Offered at 0, eligible at 0, 10 and 20, the last unit at 21. Not from the arrival, 0, nor from
    // the finish, 22, nor from the close, 25.
    let mut hub = hub();
    admit_all(&mut hub, camera(), 1);
    for eligibility in [0, 10, 20] {
        assert_eq!(hub.offer(0, 2, 7), Ok(eligibility));
    }
    run_until(&mut hub, 25);
    assert_eq!(hub.close(0), Ok(()));
    assert_eq!(charged(&hub), [(0, 50)]);
    run_until(&mut hub, 49);
    assert_eq!(next_number(&mut hub), Ok(1));
    run_until(&mut hub, 50);
    assert_eq!(next_number(&mut hub), Ok(0));
}

#[test]
fn one_whose_time_has_come_is_freed_by_the_close() {
    // Sent at 0: at 29 a tick is left, at 30 none.
    for (clock, left) in [
        (29, vec![(0, 30)]),
        (30, vec![]),
        (31, vec![]),
        (500, vec![]),
    ] {
        let mut hub = hub();
        admit_all(&mut hub, pump(), 1);
        assert_eq!(hub.offer(0, 2, 7), Ok(0));
        run_until(&mut hub, clock);
        assert_eq!(hub.close(0), Ok(()));
        assert_eq!(charged(&hub), left, "at {clock}");
        let expected = if clock < 30 { Ok(1) } else { Ok(0) };
        assert_eq!(next_number(&mut hub), expected);
        run_until(&mut hub, clock + 1);
        assert_eq!(next_number(&mut hub), Ok(0));
    }
}

#[test]
fn no_close_while_packets_are_held() {
    // Eligible at 0 and 10. The first goes at 0 and 1, the second at 10 and 11.
    let mut hub = hub();
    admit_all(&mut hub, camera(), 2);
    assert_eq!(hub.offer(0, 2, 7), Ok(0));
    assert_eq!(hub.offer(0, 2, 8), Ok(10));
    for clock in [0, 1, 2, 9, 10, 11] {
        run_until(&mut hub, clock);
        assert_eq!(hub.close(0), HELD, "at {clock}");
    }
    // What others hold does not matter.
    assert_eq!(hub.close(1), Ok(()));
    run_until(&mut hub, 12);
    assert_eq!(hub.close(0), Ok(()));
    assert_eq!(charged(&hub), [(0, 40)]);
}

#[test]
fn a_refused_close_changes_nothing() {
    let mut hub = hub();
    admit_all(&mut hub, pump(), 1);
    assert_eq!(hub.offer(0, 2, 7), Ok(0));
    assert_eq!(hub.close(0), HELD);
    assert_eq!(hub.close(1), NOBODY);
    let finishes: Vec<u64> = run_until(&mut hub, 5)
        .iter()
        .map(|one| one.finish)
        .collect();
    assert_eq!(finishes, [2]);
    assert_eq!(hub.offer(0, 2, 7), Ok(10));
    assert_eq!(charged(&hub), []);
}

#[test]
fn two_before_10_and_10_before_16() {
    let mut fresh = Hub::new();
    for number in [0, 199, 200, 254, 255] {
        assert_eq!(fresh.close(number), Err(Refusal::NoLink));
    }
    let mut hub = hub();
    for number in [0, 1, 199, 200, 253, 254, 255] {
        assert_eq!(hub.close(number), NOBODY);
    }
    // A notice belongs to nobody.
    assert_eq!(hub.offer_notice(2, 7), Ok(0));
    assert_eq!(hub.close(254), NOBODY);
}

#[test]
fn a_closed_number_takes_no_offer_and_no_close() {
    let mut hub = closed_behind(0);
    for clock in [2, 29, 30, 31] {
        run_until(&mut hub, clock);
        assert_eq!(hub.offer(0, 1, 7), Err(Refusal::NoSuchConnection));
        assert_eq!(hub.offer(0, 0, 7), Err(Refusal::NoSuchConnection));
        assert_eq!(hub.close(0), NOBODY);
        assert_eq!(hub.eligibility_now(0), None);
    }
}

#[test]
fn the_lowest_free_number_is_given_next() {
    let mut hub = hub_of(1, 0, &[300]);
    let line = Figures::plain(1, 300, 1);
    admit_all(&mut hub, line, 6);
    for number in [4, 1, 3] {
        assert_eq!(hub.close(number), Ok(()));
    }
    for number in [1, 3, 4, 6] {
        assert_eq!(hub.admit(line), Ok(number));
    }
    // Nobody else has moved.
    assert_eq!(hub.close(6), Ok(()));
    assert_eq!(hub.close(0), Ok(()));
    assert_eq!(hub.close(6), NOBODY);
    assert_eq!(hub.offer(5, 1, 7), Ok(0));
    assert_eq!(hub.admit(line), Ok(0));
    assert_eq!(hub.admit(line), Ok(6));
}

#[test]
fn a_charged_number_is_passed_over() {
    // 0, 1 and 2 send at 0 and go at 0, 1 and 2 of one unit each; 1 is charged until 300.
    let mut hub = hub_of(1, 0, &[300]);
    let line = Figures::plain(1, 300, 1);
    admit_all(&mut hub, line, 4);
    for number in 0..3 {
        assert_eq!(hub.offer(number, 1, 7), Ok(0));
    }
    run_until(&mut hub, 3);
    assert_eq!(hub.close(1), Ok(()));
    assert_eq!(hub.close(3), Ok(()));
    assert_eq!(hub.admit(line), Ok(3));
    run_until(&mut hub, 300);
    assert_eq!(hub.admit(line), Ok(1));
}

#[test]
fn a_charged_one_counts_in_the_level_tests() {
    // Four pumps: 4 * 2 + 2 = 10 of 10, 4 * 6 + 2 = 26 of 30. A fifth: 12 of 10.
    let mut hub = hub();
    admit_all(&mut hub, pump(), 4);
    assert_eq!(hub.offer(1, 2, 7), Ok(0));
    run_until(&mut hub, 2);
    assert_eq!(hub.admit(pump()), short(1, 2));
    assert_eq!(hub.close(1), Ok(()));
    for clock in [2, 10, 29] {
        run_until(&mut hub, clock);
        assert_eq!(hub.admit(pump()), short(1, 2), "at {clock}");
    }
    run_until(&mut hub, 30);
    assert_eq!(hub.admit(pump()), Ok(1));
    assert_eq!(hub.admit(pump()), short(1, 2));
    // One that never sent makes room at once.
    assert_eq!(hub.close(3), Ok(()));
    assert_eq!(hub.admit(pump()), Ok(3));
}

#[test]
fn a_charged_one_counts_at_the_levels_below_its_own() {
    // Level 2 alone: 26 with four pumps, and a camera of one packet, 2 of 30; then 28, and 2 more
    // are 30. A third is 2 over.
    let mut hub = hub();
    admit_all(&mut hub, pump(), 4);
    let two_units = Figures::plain(2, 30, 2);
    assert_eq!(hub.offer(0, 1, 7), Ok(0));
    run_until(&mut hub, 1);
    assert_eq!(hub.close(0), Ok(()));
    assert_eq!(hub.admit(two_units), Ok(4));
    assert_eq!(hub.admit(two_units), Ok(5));
    assert_eq!(hub.admit(two_units), short(2, 2));
    // 6 of them are the closed pump's, until 30.
    run_until(&mut hub, 29);
    assert_eq!(hub.admit(two_units), short(2, 2));
    run_until(&mut hub, 30);
    for number in [0, 6, 7] {
        assert_eq!(hub.admit(two_units), Ok(number));
    }
    assert_eq!(hub.admit(two_units), short(2, 2));
}

#[test]
fn a_charged_one_counts_in_the_reservations() {
    // 32,768 / 16: all places.
    let mut hub = hub_of(1, 0, &[32_768]);
    let all = Figures::plain(1, 16, 1);
    let one = Figures::plain(1, 65_535, 1);
    assert_eq!(hub.admit(all), Ok(0));
    assert_eq!(hub.offer(0, 1, 7), Ok(0));
    run_until(&mut hub, 1);
    assert_eq!(hub.close(0), Ok(()));
    for clock in [1, 16, 32_767] {
        pass_until(&mut hub, clock);
        assert_eq!(hub.admit(one), Err(Refusal::Reservations), "at {clock}");
    }
    pass_until(&mut hub, 32_768);
    assert_eq!(hub.admit(all), Ok(0));
    assert_eq!(hub.admit(one), Err(Refusal::Reservations));
    // It has not sent: the places are free at once.
    assert_eq!(hub.close(0), Ok(()));
    assert_eq!(hub.admit(one), Ok(0));
}

#[test]
fn a_charged_one_counts_among_the_two_hundred() {
    // 200 and S are 201 of 300, so that only the numbers are short.
    let mut hub = hub_of(1, 0, &[300]);
    let line = Figures::plain(1, 300, 1);
    admit_all(&mut hub, line, 200);
    assert_eq!(hub.offer(7, 1, 7), Ok(0));
    run_until(&mut hub, 1);
    assert_eq!(hub.offer(5, 1, 7), Ok(1));
    run_until(&mut hub, 2);
    for number in [5, 7] {
        assert_eq!(hub.close(number), Ok(()));
    }
    assert_eq!(charged(&hub), [(5, 301), (7, 300)]);
    run_until(&mut hub, 299);
    assert_eq!(hub.admit(line), Err(Refusal::NoNumberFree));
    run_until(&mut hub, 300);
    assert_eq!(hub.admit(line), Ok(7));
    assert_eq!(hub.admit(line), Err(Refusal::NoNumberFree));
    run_until(&mut hub, 301);
    assert_eq!(hub.admit(line), Ok(5));
    assert_eq!(hub.admit(line), Err(Refusal::NoNumberFree));
    assert_eq!(hub.close(199), Ok(()));
    assert_eq!(hub.admit(line), Ok(199));
}

#[test]
fn the_order_of_7_8_and_9_stays() {
    // All numbers owned, one of them charged: 5 and 6 before 7, 7 before 8.
    let mut hub = hub_of(1, 0, &[300]);
    let line = Figures::plain(1, 300, 1);
    admit_all(&mut hub, line, 200);
    assert_eq!(hub.offer(0, 1, 7), Ok(0));
    run_until(&mut hub, 1);
    assert_eq!(hub.close(0), Ok(()));
    let of = |level, gap| Figures::plain(level, gap, 1);
    assert_eq!(hub.admit(of(2, 300)), Err(Refusal::NoSuchLevel));
    assert_eq!(hub.admit(of(1, 0)), Err(Refusal::ConnectionLimit));
    assert_eq!(hub.admit(of(1, 1)), Err(Refusal::NoNumberFree));
    // Freed: 199 and S are 200, and 300 more of 300 are 200 over.
    run_until(&mut hub, 300);
    assert_eq!(hub.admit(of(1, 1)), short(1, 200));
}

#[test]
fn the_new_owner_starts_fresh() {
    // A gap of 1,000 is far beyond the charge: the one before would be eligible at 1,000.
    let mut hub = hub();
    let rare = Figures::plain(1, 1_000, 2);
    admit_all(&mut hub, rare, 1);
    assert_eq!(hub.offer(0, 2, 7), Ok(0));
    run_until(&mut hub, 2);
    assert_eq!(hub.close(0), Ok(()));
    run_until(&mut hub, 30);
    assert_eq!(hub.admit(rare), Ok(0));
    assert_eq!(hub.offer(0, 2, 7), Ok(30));
    // Its own charge counts from its own packet, and it remembers that one.
    run_until(&mut hub, 32);
    assert_eq!(hub.offer(0, 2, 7), Ok(1_030));
    pass_until(&mut hub, 1_032);
    assert_eq!(hub.close(0), Ok(()));
    assert_eq!(charged(&hub), [(0, 1_060)]);
    // Nor is one that never sent charged for those before it.
    run_until(&mut hub, 1_060);
    assert_eq!(hub.admit(rare), Ok(0));
    assert_eq!(hub.close(0), Ok(()));
    assert_eq!(charged(&hub), []);
}

#[test]
fn nothing_is_left_of_an_average() {
    // n 2, I 200: 0 and 5, then 200. Its largest bound behind 5 is 35.
    let mut hub = hub();
    let video = Figures::plain(2, 5, 1).with_average(200, 100);
    admit_all(&mut hub, video, 1);
    assert_eq!(hub.offer(0, 1, 7), Ok(0));
    assert_eq!(hub.offer(0, 1, 7), Ok(5));
    run_until(&mut hub, 6);
    assert_eq!(hub.eligibility_now(0), Some(200));
    assert_eq!(hub.close(0), Ok(()));
    assert_eq!(charged(&hub), [(0, 35)]);
    run_until(&mut hub, 35);
    assert_eq!(hub.admit(video), Ok(0));
    assert_eq!(hub.offer(0, 1, 7), Ok(35));
    assert_eq!(hub.offer(0, 1, 7), Ok(40));
    run_until(&mut hub, 41);
    assert_eq!(hub.eligibility_now(0), Some(235));
}

#[test]
fn lines_closed_and_opened_in_turn() {
    // S 1, bounds 4 and 10; two lines of level 1, gap 4, and one of level 2, gap 10, one unit each:
    // 2 + 1 of 4, 2 * 3 + 1 + 1 = 8 of 10. A third of level 1 is 3 more of level 2: one over. Were a
    // closed one forgotten, the two could have the line in every tick, and level 2 never.
    let mut hub = hub_of(1, 0, &[4, 10]);
    let urgent = Figures::plain(1, 4, 1);
    admit_all(&mut hub, urgent, 2);
    assert_eq!(hub.admit(Figures::plain(2, 10, 1)), Ok(2));
    assert_eq!(hub.offer(2, 1, 70), Ok(0));
    assert_eq!(hub.offer(0, 1, 71), Ok(0));
    assert_eq!(hub.offer(1, 1, 72), Ok(0));
    let mut departed = Vec::new();
    for clock in 1..=9 {
        departed.extend(run_until(&mut hub, clock));
        if clock <= 2 {
            assert_eq!(hub.close(clock as u8 - 1), Ok(()));
        }
        assert_eq!(hub.admit(urgent), short(2, 1), "at {clock}");
    }
    let finishes: Vec<_> = departed.iter().map(|one| (one.tag, one.finish)).collect();
    assert_eq!(finishes, [(71, 1), (72, 2), (70, 3)]);
    run_until(&mut hub, 10);
    admit_all(&mut hub, urgent, 2);
    assert_eq!(hub.offer(0, 1, 73), Ok(10));
}

#[test]
fn several_charges_end_each_at_its_own_tick() {
    // Cameras 0 to 3 send at 0, 2, 4 and 4, two units each, which go at 0, 2, 4 and 6.
    let mut hub = hub();
    admit_all(&mut hub, Figures::plain(2, 30, 2), 4);
    for (number, sent) in [(2, 0), (0, 2), (1, 4), (3, 4)] {
        run_until(&mut hub, sent);
        assert_eq!(hub.offer(number, 2, 7), Ok(sent));
    }
    run_until(&mut hub, 8);
    for number in 0..4 {
        assert_eq!(hub.close(number), Ok(()));
    }
    let ends = [(0, 32), (1, 34), (2, 30), (3, 34)];
    assert_eq!(charged(&hub), ends);
    for clock in 8..=36 {
        run_until(&mut hub, clock);
        let left: Vec<_> = ends
            .iter()
            .copied()
            .filter(|&(_, end)| end > clock)
            .collect();
        assert_eq!(charged(&hub), left, "at {clock}");
    }
}

#[test]
fn a_tick_with_a_departure_frees_too() {
    // The charge ends at 30; another pump's last unit goes in the tick at 29.
    let mut hub = closed_behind(0);
    assert_eq!(hub.admit(pump()), Ok(1));
    run_until(&mut hub, 28);
    assert_eq!(hub.offer(1, 2, 8), Ok(28));
    assert_eq!(run_until(&mut hub, 29), []);
    assert_eq!(next_number(&mut hub), Ok(2));
    assert_eq!(run_until(&mut hub, 30).len(), 1);
    assert_eq!(next_number(&mut hub), Ok(0));
}

#[test]
fn the_silence_runs_on_whoever_is_closed() {
    // S 2, silence 3: a unit at 0, silent at 1, 2 and 3. Closed in the silence; what is offered
    // there starts at 4.
    for closed in [1, 2, 3, 4] {
        let mut hub = hub_of(2, 3, &[30]);
        let line = Figures::plain(1, 30, 1);
        admit_all(&mut hub, line, 2);
        assert_eq!(hub.offer(0, 1, 7), Ok(0));
        run_until(&mut hub, closed);
        assert_eq!(hub.close(0), Ok(()));
        assert_eq!(u64::from(hub.silence_left()), 4 - closed);
        assert_eq!(hub.offer(1, 1, 8), Ok(closed));
        let finishes: Vec<u64> = run_until(&mut hub, 6)
            .iter()
            .map(|one| one.finish)
            .collect();
        assert_eq!(finishes, [5]);
        // The silence does not count in the charge.
        assert_eq!(charged(&hub), [(0, 30)]);
    }
}

#[test]
fn a_charge_that_ends_in_a_silence_or_in_a_long_packet() {
    // A notice of 2 units at 27 and 28, silent at 29 to 31: the tick at 29 frees. Of 2 units at 28
    // and 29: with its last unit.
    for sent in [27, 28] {
        let mut hub = hub_of(2, 3, &[30]);
        admit_all(&mut hub, Figures::plain(1, 30, 1), 1);
        assert_eq!(hub.offer(0, 1, 7), Ok(0));
        pass_until(&mut hub, 1);
        assert_eq!(hub.close(0), Ok(()));
        pass_until(&mut hub, sent);
        assert_eq!(hub.offer_notice(2, 8), Ok(sent));
        pass_until(&mut hub, 29);
        assert_eq!(charged(&hub), [(0, 30)]);
        pass_until(&mut hub, 30);
        assert_eq!(charged(&hub), []);
    }
}

/// Three pumps that sent one unit each so many ticks before the clock's end, a tick apart, and
/// their clock at the last of them.
fn near_the_end(before: u64) -> Hub {
    let mut hub = hub();
    admit_all(&mut hub, pump(), 4);
    pass_until(&mut hub, CLOCK_END - before);
    for number in 0..3 {
        let sent = CLOCK_END - before + u64::from(number);
        assert_eq!(hub.offer(number, 1, 7), Ok(sent));
        pass_until(&mut hub, sent + 1);
    }
    hub
}

#[test]
fn charges_at_the_clocks_end() {
    // They end a tick before the clock's end, with it and behind it: the last one stays.
    let mut hub = near_the_end(31);
    for number in 0..3 {
        assert_eq!(hub.close(number), Ok(()));
    }
    pass_until(&mut hub, CLOCK_END - 2);
    assert_eq!(next_number(&mut hub), Ok(4));
    pass_until(&mut hub, CLOCK_END - 1);
    assert_eq!(next_number(&mut hub), Ok(0));
    assert_eq!(hub.admit(slow()), Ok(0));
    assert_eq!(next_number(&mut hub), Ok(4));
    assert_eq!(hub.tick(), Ok(None));
    assert_eq!(charged(&hub), [(2, CLOCK_END + 1)]);
    assert_eq!(hub.tick(), Err(Refusal::ClockEnded));
    assert_eq!(charged(&hub), [(2, CLOCK_END + 1)]);
    assert_eq!(hub.admit(slow()), Ok(1));
    assert_eq!(next_number(&mut hub), Ok(4));
    assert_eq!(hub.close(2), NOBODY);
    assert_eq!(hub.offer(2, 1, 7), Err(Refusal::NoSuchConnection));
}

#[test]
fn closes_behind_the_clocks_end() {
    // The same three: the first two are freed by the close, the third is charged for ever; 3 never
    // sent.
    let mut hub = near_the_end(31);
    assert_eq!(hub.offer(0, 1, 8), Ok(CLOCK_END - 21));
    pass_until(&mut hub, CLOCK_END);
    let mut other = hub.clone();
    assert_eq!(hub.close(0), Ok(()));
    assert_eq!(charged(&hub), [(0, CLOCK_END + 9)]);
    for number in [1, 3] {
        assert_eq!(hub.close(number), Ok(()));
        assert_eq!(hub.admit(pump()), Ok(number));
    }
    assert_eq!(hub.close(2), Ok(()));
    assert_eq!(charged(&hub), [(0, CLOCK_END + 9), (2, CLOCK_END + 1)]);
    assert_eq!(hub.admit(slow()), Ok(4));
    // In the other order.
    for number in [3, 2, 1, 0] {
        assert_eq!(other.close(number), Ok(()));
        assert_eq!(other.close(number), NOBODY);
    }
    assert_eq!(charged(&other), [(0, CLOCK_END + 9), (2, CLOCK_END + 1)]);
}

#[test]
fn held_for_ever_at_the_clocks_end() {
    // Two units in the last tick: one goes, the packet stays, and with it its connection.
    let mut hub = hub();
    admit_all(&mut hub, pump(), 1);
    pass_until(&mut hub, CLOCK_END - 1);
    assert_eq!(hub.offer(0, 2, 7), Ok(CLOCK_END - 1));
    assert_eq!(hub.tick(), Ok(None));
    assert_eq!(hub.close(0), HELD);
    assert_eq!(hub.tick(), Err(Refusal::ClockEnded));
    assert_eq!(hub.close(0), HELD);
}

const LINK: &[u8] = b"LK\x02\x02\x00\x00\x0A\x00\x1E\x00";
const PUMP: &[u8] = b"CN\x01\x0A\x00\x02\x00\x00\x00\x00\x00";
const PACKET: &[u8] = b"PK\x00\x02\x00\x07\x00\x00\x00";

fn answered(trace: &[u8]) -> Vec<u8> {
    let passing = answers(trace, Pace::Passing).expect("answers");
    assert_eq!(passing, answers(trace, Pace::Plain).expect("answers"));
    passing
}

#[test]
fn the_bytes_of_a_close() {
    let trace = [
        b"CL\x00",
        LINK,
        PUMP,
        b"CL\x01CL\xFF",
        PACKET,
        b"CL\x00TK\x02\x00CL\x00CL\x00TK\x1B\x00",
        PUMP,
        b"TK\x01\x00",
        PUMP,
    ]
    .concat();
    let expected = [
        &b"CD\x02LA\x00CA\x00\x00\x00\x00\x00\x00\x00CD\x0ACD\x0A"[..],
        b"PA\x00\x00\x00\x00\x00CD\x10",
        b"DP\x00\x07\x00\x00\x00\x00\x00\x00\x00\x00\x00\x00\x00\x02\x00\x00\x00TA\x00\x02\x00",
        b"CD\x00CD\x0ATA\x00\x1B\x00",
        b"CA\x00\x01\x00\x00\x00\x00\x00TA\x00\x01\x00CA\x00\x00\x00\x00\x00\x00\x00",
    ]
    .concat();
    assert_eq!(answered(&trace), expected);
}

#[test]
fn one_long_record_over_the_end_of_a_charge() {
    // Sent at 0, closed at 2, charged until 30. The ticks that follow in one record, and the number
    // that is given then.
    for (ticks, number) in [(0, 1), (27, 1), (28, 0), (29, 0), (65_535, 0)] {
        let ticks: u16 = ticks;
        let [low, high] = ticks.to_le_bytes();
        let before = [LINK, PUMP, PACKET, b"TK\x02\x00CL\x00"].concat();
        let trace = [&before, &b"TK"[..], &[low, high], PUMP].concat();
        let expected = [&b"TA\x00"[..], &[low, high], b"CA\x00", &[number], &[0; 5]].concat();
        assert!(answered(&trace).ends_with(&expected), "{ticks}");
    }
}

#[test]
fn a_close_cut_at_every_byte_is_malformed_at_its_start() {
    for length in 1..3 {
        let trace = [LINK, b"CL\x00", &b"CL\x00"[..length]].concat();
        let expected = b"LA\x00CD\x0AER\x0E\x0D\x00\x00\x00";
        assert_eq!(answered(&trace), expected, "{length} bytes");
    }
}

#[test]
fn the_answers_mark_is_no_trace_record() {
    for mark in ["CD", "cl", "LC", "C\0", "CM"] {
        let trace = [LINK, mark.as_bytes(), &[1; 30]].concat();
        assert_eq!(answered(&trace), b"LA\x00ER\x0E\x0A\x00\x00\x00", "{mark}");
    }
}
