//! The count of packets in a stretch (docs/RULES.md, R-6) against every pattern
//! that keeps both rules: the count is what the densest of them holds.

use sim::link::{Connection, Figures, Link};

/// Whether ticks in rising order keep the gap, and the window behind the n-th before.
fn keeps(ticks: &[u32], gap: u32, average: Option<(u32, usize)>) -> bool {
    let spaced = |apart: usize, least: u32| {
        let later = ticks.iter().skip(apart);
        ticks.iter().zip(later).all(|(one, two)| two - one >= least)
    };
    spaced(1, gap) && average.map_or(true, |(window, packets)| spaced(packets, window))
}

/// The most ticks that a pattern within a stretch can have, by looking at every set of its ticks.
/// What a longer pattern has within the stretch keeps both rules too, so it is among them.
fn densest(stretch: u32, gap: u32, average: Option<(u32, usize)>) -> u64 {
    let patterns = (0_u32..1 << stretch).map(|set| {
        let ticks = (0..stretch).filter(|tick| set >> tick & 1 == 1);
        ticks.collect::<Vec<u32>>()
    });
    let kept = patterns.filter(|ticks| keeps(ticks, gap, average));
    kept.map(|ticks| ticks.len() as u64).max().unwrap_or(0)
}

fn connection(gap: u16, window: u16, average: u16) -> Connection {
    let link = Link::new(1, 1, 0, [32_768, 0, 0, 0, 0, 0, 0, 0]).expect("a link");
    let figures = Figures::plain(1, gap, 1).with_average(window, average);
    Connection::new(&link, figures).expect("within its limits")
}

#[test]
fn without_an_average() {
    for gap in 1..=6 {
        let connection = connection(gap, 0, 0);
        for stretch in 0..=14 {
            let count = connection.packets_within(stretch);
            let most = densest(u32::from(stretch), u32::from(gap), None);
            assert_eq!(count, most, "gap {gap}, {stretch} ticks");
        }
    }
}

#[test]
fn with_an_average() {
    let mut below_the_gap_alone = 0;
    for gap in 1..=4 {
        for average in gap..=5 {
            for packets in 1..=4 {
                let window = packets * average;
                let connection = connection(gap, window, average);
                for stretch in 0..=14 {
                    let count = connection.packets_within(stretch);
                    let rule = Some((u32::from(window), usize::from(packets)));
                    let most = densest(u32::from(stretch), u32::from(gap), rule);
                    assert_eq!(count, most, "{connection:?}, {stretch} ticks");
                    let gap_alone = u64::from((stretch + gap - 1) / gap);
                    below_the_gap_alone += usize::from(count < gap_alone);
                }
            }
        }
    }
    assert!(below_the_gap_alone > 300, "only {below_the_gap_alone}");
}

/// The eligibilities of a line that offers more than enough all the time, packet by packet.
fn as_early_as_allowed(gap: u64, window: u64, packets: usize, end: u64) -> Vec<u64> {
    let mut ticks: Vec<u64> = Vec::new();
    loop {
        let behind = |back: usize, apart: u64| {
            let place = ticks.len().checked_sub(back);
            place.map_or(0, |place| ticks[place] + apart)
        };
        let next = behind(1, gap).max(behind(packets, window));
        if next >= end {
            return ticks;
        }
        ticks.push(next);
    }
}

#[test]
fn up_to_the_longest_stretches() {
    // All n, gaps from 1 to the average gap, windows up to 65,535, bounds up to 32,768.
    for packets in 1..=16_u16 {
        for average in [1, 2, 3, 7, 50, 511, 2_048, 4_095] {
            for gap in [1, average / 3 + 1, average / 2 + 1, average] {
                let window = packets * average;
                let connection = connection(gap, window, average);
                let (gap, many) = (u64::from(gap), usize::from(packets));
                let ticks = as_early_as_allowed(gap, u64::from(window), many, 32_768);
                for stretch in [
                    0,
                    1,
                    2,
                    window - 1,
                    window,
                    window.saturating_add(1),
                    9_999,
                    32_768,
                ] {
                    let before = |tick: &&u64| **tick < u64::from(stretch);
                    if stretch <= 32_768 {
                        let count = connection.packets_within(stretch);
                        let sent = ticks.iter().filter(before).count() as u64;
                        assert_eq!(count, sent, "{connection:?}, {stretch} ticks");
                    }
                }
            }
        }
    }
}
