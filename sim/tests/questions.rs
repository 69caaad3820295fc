//! The questions of the firmware against worked answers.

use sim::firmware::{level_answer, next_eligibility, units_answer};

fn lines(text: &str) -> impl Iterator<Item = Vec<&str>> {
    let data = text.lines().filter(|line| !line.starts_with('#'));
    data.map(|line| line.split_whitespace().collect())
}

/// An `LW`.
fn with_windows(link: &str) -> bool {
    link.starts_with("4C57")
}

fn number(text: &str) -> u64 {
    text.parse().expect("a number")
}

fn number32(text: &str) -> u32 {
    text.parse().expect("a 32-bit number")
}

fn bytes(text: &str) -> Vec<u8> {
    if text == "-" {
        return Vec::new();
    }
    let pair = |at| u8::from_str_radix(&text[at..at + 2], 16).expect("a byte");
    (0..text.len()).step_by(2).map(pair).collect()
}

#[test]
fn next_eligibilities() {
    let mut count = 0;
    for line in lines(include_str!("c_next.txt")) {
        let given = match line[..] {
            [flag, last, gap, now, _] => {
                next_eligibility(number32(flag), number32(last), number32(gap), number32(now))
            }
            _ => panic!("five numbers: {line:?}"),
        };
        assert_eq!(given, number(line[4]), "{line:?}");
        count += 1;
    }
    assert!(count > 800, "only {count} lines");
}

#[test]
fn level_answers() {
    let (mut count, mut windows) = (0, 0);
    for line in lines(include_str!("c_level.txt")) {
        let given = match line[..] {
            [link, rows, _] => level_answer(&bytes(link), &bytes(rows)),
            _ => panic!("three fields: {line:?}"),
        };
        assert_eq!(u64::from(given), number(line[2]), "{line:?}");
        let units = units_answer(&bytes(line[0]), &bytes(line[1]));
        assert_eq!(units > 0, (1..=8).contains(&given), "{line:?}");
        count += 1;
        windows += u32::from(with_windows(line[0]));
    }
    assert!(count > 500, "only {count} lines");
    assert!(windows > 60, "only {windows} lines with windows");
}

#[test]
fn units_answers() {
    let (mut count, mut windows) = (0, 0);
    for line in lines(include_str!("c_units.txt")) {
        let given = match line[..] {
            [link, rows, _] => units_answer(&bytes(link), &bytes(rows)),
            _ => panic!("three fields: {line:?}"),
        };
        assert_eq!(given, number(line[2]), "{line:?}");
        count += 1;
        windows += u32::from(with_windows(line[0]));
    }
    assert!(count > 30, "only {count} lines");
    assert!(windows > 60, "only {windows} lines with windows");
}

#[test]
fn no_rows() {
    assert_eq!(level_answer(b"LK\x01\x04\x00\x00\x0A\x00", &[]), 0);
    assert_eq!(level_answer(b"LK\x01\x00\x00\x00\x0A\x00", &[]), 255);
    assert_eq!(level_answer(b"LK\x01\x04\x00\x00\x0A\x00\x00", &[]), 255);
    assert_eq!(level_answer(b"LK\x01\x04\x00\x00\x0A", &[]), 255);
    assert_eq!(level_answer(b"", &[]), 255);
}

#[test]
fn a_bad_row_wins_over_a_failing_level() {
    let link = b"LK\x01\x04\x00\x00\x0A\x00";
    let failing = [1, 1, 0, 4, 0, 0, 0, 0, 0];
    let bad = [1, 0, 0, 4, 0, 0, 0, 0, 0];
    assert_eq!(level_answer(link, &failing), 1);
    assert_eq!(level_answer(link, &[failing, bad].concat()), 255);
    assert_eq!(level_answer(link, &[bad, failing].concat()), 255);
    assert_eq!(level_answer(link, &failing[..8]), 255);
}

#[test]
fn reservations_are_not_asked_about() {
    // One row of 32,768 packets of one unit, S 1: 32,769 is one too many; gap 2 holds.
    let link = b"LK\x01\x01\x00\x00\x00\x80";
    assert_eq!(level_answer(link, &[1, 1, 0, 1, 0, 0, 0, 0, 0]), 1);
    assert_eq!(level_answer(link, &[1, 2, 0, 1, 0, 0, 0, 0, 0]), 0);
}
