//! A line with frames (docs/RULES.md, R-13), worked out by hand; the examples of
//! `crates/frames/specs/Examples.antt` stand in tests/vectors besides.

use sim::firmware::{level_answer, NOT_TO_BE_ASKED};
use sim::frames::{Frames, Framing, Share};
use sim::hub::CLOCK_END;
use sim::record::{Answer, Record};
use sim::replay::{answers, Pace};
use sim::verdict::{Refusal, Shortage};

fn framing(frame: u16, largest: u16, silence: u8) -> Framing {
    Framing {
        frame,
        largest,
        silence,
    }
}

fn line(link: Framing, shares: &[(u16, u16)]) -> Frames {
    let mut line = Frames::new();
    assert_eq!(line.set_link(link), Ok(()));
    for (number, &(units, places)) in (0..).zip(shares) {
        assert_eq!(line.admit(Share { units, places }), Ok(number));
    }
    line
}

/// T 10, S 4, silence 1, two connections: 3 + 2 + 4 + 1 of 10.
fn line_a() -> Frames {
    line(framing(10, 4, 1), &[(3, 2), (2, 2)])
}

fn over(units: u64) -> Result<u8, Refusal> {
    Err(Refusal::LevelTest(Shortage { level: 0, units }))
}

/// The finishes of so many ticks.
fn finishes(line: &mut Frames, ticks: usize) -> Vec<u64> {
    let departures = (0..ticks).filter_map(|_| line.tick().expect("a tick"));
    departures.map(|departure| departure.finish).collect()
}

#[test]
fn limits_of_the_link() {
    for (frame, largest, silence) in [
        (1, 1, 0),
        (5, 4, 1),
        (32_768, 2_048, 64),
        (2_112, 2_048, 64),
    ] {
        assert!(framing(frame, largest, silence).is_within());
    }
    for (frame, largest, silence) in [
        (0, 1, 0),
        (0, 0, 0),
        (32_769, 2_048, 64),
        (65_535, 1, 0),
        (4, 4, 1),
        (2_111, 2_048, 64),
        (3_000, 2_049, 0),
        (3_000, 0, 0),
        (3_000, 1, 65),
        (65_535, 65_535, 255),
    ] {
        assert!(!framing(frame, largest, silence).is_within());
    }
}

#[test]
fn admissions() {
    let mut line = line_a();
    let admit = |line: &mut Frames, units, places| line.admit(Share { units, places });
    assert_eq!(admit(&mut line, 1, 1), over(1));
    assert_eq!(admit(&mut line, 2_048, 2_048), over(2_048));
    for (units, places) in [(0, 1), (1, 0), (2_049, 1), (1, 2_049), (65_535, 65_535)] {
        assert_eq!(
            admit(&mut line, units, places),
            Err(Refusal::ConnectionLimit)
        );
    }
    let mut places = self::line(framing(100, 4, 1), &[(10, 2_000)]);
    assert_eq!(admit(&mut places, 10, 49), Err(Refusal::Reservations));
    assert_eq!(admit(&mut places, 90, 49), over(5));
    assert_eq!(admit(&mut places, 10, 48), Ok(1));
    let mut many = self::line(framing(32_768, 1, 0), &[(1, 1); 200]);
    assert_eq!(admit(&mut many, 2_048, 2_048), Err(Refusal::NoNumberFree));
    assert_eq!(admit(&mut many, 0, 1), Err(Refusal::ConnectionLimit));
    assert_eq!(
        Frames::new().admit(Share {
            units: 0,
            places: 0
        }),
        Err(Refusal::NoLink)
    );
}

#[test]
fn frames_start_at_multiples() {
    let mut line = line_a();
    for (ticks, eligibility) in [(0, 10), (9, 10), (1, 20), (9, 20), (1, 30)] {
        finishes(&mut line, ticks);
        assert_eq!(line.clone().offer(0, 2, 7), Ok(eligibility));
    }
}

#[test]
fn units_of_a_frame() {
    let mut line = line_a();
    assert_eq!(line.offer(0, 3, 7), Err(Refusal::PastItsUnits));
    assert_eq!(line.offer(0, 2, 7), Ok(10));
    assert_eq!(line.used_by(0), 3);
    assert_eq!(line.offer(0, 1, 7), Err(Refusal::PastItsUnits));
    assert_eq!(line.offer(1, 1, 7), Ok(10));
    assert_eq!(finishes(&mut line, 10), []);
    assert_eq!(line.used_by(0), 0);
    assert_eq!(line.offer(0, 2, 7), Ok(20));
    assert_eq!(line.offer(0, 1, 7), Err(Refusal::ReservationFull));
    assert_eq!(finishes(&mut line, 20), [12, 14, 22]);
    for (silence, units) in [(1, 1), (2, 1), (64, 64), (64, 1)] {
        let mut line = self::line(framing(200, 4, silence), &[(units, 1)]);
        assert_eq!(line.offer(0, 1, 7), Err(Refusal::PastItsUnits));
    }
    let mut just = self::line(framing(200, 4, 64), &[(65, 1)]);
    assert_eq!(just.offer(0, 1, 7), Ok(200));
}

#[test]
fn a_notice_holds_up_the_next_frame() {
    let mut line = line(framing(6, 2, 1), &[(3, 2)]);
    assert_eq!(line.offer(0, 2, 71), Ok(6));
    assert_eq!(finishes(&mut line, 5), []);
    assert_eq!(line.offer_notice(2, 72), Ok(5));
    assert_eq!(finishes(&mut line, 7), [7, 10]);
    assert_eq!(line.silence_left(), 0);
}

#[test]
fn quiet_ticks() {
    let mut line = line_a();
    assert_eq!(line.quiet_ticks(), CLOCK_END);
    assert_eq!(line.offer(0, 2, 7), Ok(10));
    assert_eq!(line.quiet_ticks(), 10);
    assert_eq!(line.pass_over(4), 4);
    assert_eq!(line.quiet_ticks(), 6);
    assert_eq!(line.offer_notice(4, 7), Ok(4));
    assert_eq!(line.quiet_ticks(), 0);
    assert_eq!(finishes(&mut line, 1), []);
    assert_eq!(line.quiet_ticks(), 2);
    assert_eq!(line.pass_over(9), 2);
    assert_eq!(finishes(&mut line, 1), [8]);
    assert_eq!((line.silence_left(), line.quiet_ticks()), (1, 1));
    assert_eq!(line.pass_over(9), 1);
    assert_eq!((line.clock(), line.quiet_ticks()), (9, 1));
    assert_eq!(Frames::new().quiet_ticks(), 0);
}

#[test]
fn the_clocks_end() {
    let mut line = line(framing(32_000, 4, 1), &[(3, 1), (10, 9)]);
    while line.clock() < CLOCK_END - 3 {
        line.pass_over(CLOCK_END - 3 - line.clock());
    }
    // CLOCK_END is a multiple of 32,000: the last frame ends with the clock.
    assert_eq!(line.offer(0, 2, 7), Ok(CLOCK_END));
    assert_eq!(line.offer_notice(2, 7), Ok(CLOCK_END - 3));
    assert_eq!(finishes(&mut line, 3), [CLOCK_END - 1]);
    assert_eq!(line.silence_left(), 0);
    assert_eq!(line.offer(0, 2, 7), Err(Refusal::ReservationFull));
    assert_eq!(line.offer(1, 4, 7), Err(Refusal::ClockEnded));
    assert_eq!(line.offer(1, 5, 7), Err(Refusal::Length));
    assert_eq!(line.offer(2, 5, 7), Err(Refusal::NoSuchConnection));
    assert_eq!(line.offer_notice(1, 7), Err(Refusal::ClockEnded));
    assert_eq!(line.offer_notice(5, 7), Err(Refusal::Length));
    assert_eq!(line.tick(), Err(Refusal::ClockEnded));
    assert_eq!(
        line.admit(Share {
            units: 1,
            places: 1
        }),
        Ok(2)
    );
    // The offer would pass its units as well: 13 comes before 19.
    assert_eq!(line.offer(2, 4, 7), Err(Refusal::ClockEnded));
    assert_eq!((line.held(), line.quiet_ticks()), (1, 0));
    assert!(line.is_sound());
}

#[test]
fn records() {
    let link = Record::Framing(framing(0x1234, 0x5678, 0x9A));
    let share = Record::Share(Share {
        units: 0x1234,
        places: 0x5678,
    });
    let both: [(Record, &[u8]); 2] = [
        (link, b"LF\x34\x12\x78\x56\x9A"),
        (share, b"CF\x34\x12\x78\x56"),
    ];
    for (record, bytes) in both {
        let mut written = Vec::new();
        record.append_to(&mut written);
        assert_eq!(written, bytes);
        assert_eq!(Record::read(bytes), Some((record, bytes.len())));
        assert_eq!(Record::read(&bytes[..bytes.len() - 1]), None);
    }
    let mut written = Vec::new();
    let short = Some(Shortage {
        level: 0,
        units: 300,
    });
    let answer = Answer::Connection {
        verdict: 8,
        connection: 255,
        short,
    };
    answer.append_to(&mut written);
    assert_eq!(written, b"CA\x08\xFF\x00\x2C\x01\x00\x00");
}

#[test]
fn the_questions_from_c_know_no_frames() {
    let row = [1, 20, 0, 1, 0, 0, 0, 0, 0];
    assert_eq!(
        level_answer(b"LF\x0A\x00\x04\x00\x01", &row),
        NOT_TO_BE_ASKED
    );
    assert_eq!(
        level_answer(b"LF\x0A\x00\x04\x00\x01", &[]),
        NOT_TO_BE_ASKED
    );
}

#[test]
fn one_discipline() {
    let levels = b"LK\x01\x04\x00\x00\x14\x00";
    let frames = b"LF\x0A\x00\x04\x00\x01";
    let of_frames = b"CF\x03\x00\x02\x00";
    let of_levels = b"CN\x01\x14\x00\x04\x00\x00\x00\x00\x00CL\x00PS\x00\x01\x00\x07\0\0\0\0\0\0\0";
    let all = |first: &[u8]| {
        let trace = [first, levels, frames, of_frames, of_levels].concat();
        let tested = answers(&trace, Pace::Tested).expect("answers");
        assert_eq!(tested, answers(&trace, Pace::Plain).expect("answers"));
        tested
    };
    let two = b"CA\x02\xFF\0\0\0\0\0";
    let one = b"CA\0\0\0\0\0\0\0";
    let none = b"CD\x02PA\x02\0\0\0\0";
    let with_levels = [b"LA\0LA\x03LA\x03", &two[..], one, b"CD\0PA\x0A\0\0\0\0"].concat();
    assert_eq!(all(levels), with_levels);
    assert_eq!(
        all(frames),
        [b"LA\0LA\x03LA\x03", &one[..], two, none].concat()
    );
    assert_eq!(
        all(b"LF\0\0\0\0\0"),
        [b"LA\x04LA\0LA\x03", &two[..], one, b"CD\0PA\x0A\0\0\0\0"].concat()
    );
}
