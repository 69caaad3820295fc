//! The four tables that a caller in C lends, and the calls on them, worked out by hand from docs/CALLERS.md and
//! include/mtredovim.h; and that they hold all that a line is.

use sim::calls::answer_lines;
use sim::kinds::Kind;
use sim::record::Record;
use sim::replay::{answers, Job, Pace};
use sim::tables::Tables;

const FRESH: &str = "lent 31 5002 10240 320";

/// P1 and P2: S 4, bounds 10 and 20.
const TWO: [&str; 4] = [
    FRESH,
    "make link 2 4 0 0 10 20 0 0 0 0 0 0 0 0 0 0 0 0 0 0",
    "make admit 1 10 4 0 0",
    "make admit 2 20 4 0 0",
];

/// What is answered to the last of some lines.
fn last(lines: &[&str]) -> String {
    let mut out = Vec::new();
    answer_lines(lines.join("\n").as_bytes(), &mut out).expect("understood");
    let out = String::from_utf8(out).expect("text");
    String::from(out.lines().last().expect("an answer"))
}

fn after(start: &[&str], lines: &[&str]) -> String {
    last(&[start, lines].concat())
}

#[test]
fn each_call_changes_its_numbers() {
    assert_eq!(last(&TWO[..1]), "sound");
    assert_eq!(last(&TWO[..2]), "0 l0=2 l1=4 l4=10 l5=20");
    // level, size, gap, and behind the 200 rows how many there are
    assert_eq!(last(&TWO[..3]), "0 0 0 0 c0=1 c1=4 c2=10 c5000=1");
    assert_eq!(last(&TWO), "0 1 0 0 c25=2 c26=4 c27=20 c5000=2");
    // P4: short by 2 at level 1
    assert_eq!(after(&TWO, &["make admit 1 9 2 0 0"]), "8 255 1 2");
    // one eligibility is remembered, which is 0; connection, length, tag
    let offered = "make offer 1 4 81";
    assert_eq!(after(&TWO, &[offered]), "0 0 c33=1 p0=1 p1=4 p2=81");
    // the clock, who is in service, its units to go
    let tick = "0 0 0 0 0 0 0 0 l20=1 l21=1 l22=3";
    assert_eq!(after(&TWO, &[offered, "make tick"]), tick);
}

/// P8 to P10 and the rows that move up.
#[test]
fn the_example_of_document_01() {
    let first = ["make offer 1 4 81", "make tick", "make offer 0 4 82"];
    let start = [&TWO[..], &first].concat();
    assert_eq!(last(&start), "0 1 c8=1 c9=1 p6=4 p7=82 p8=1 p9=1");
    assert_eq!(after(&start, &["make offer 0 4 9"]), "12 0");
    let gone = "0 3 1 1 4 81 0 0 4 l20=4 l21=0 l22=0";
    let rows = " p0=0 p2=82 p3=1 p4=1 p6=0 p7=0 p8=0 p9=0";
    let ticks = after(&start, &["make ticks 100"]);
    assert_eq!(ticks, format!("{gone}{rows}"));
    let tenth = ["make ticks 100", "make ticks 100", "make offer 0 1 23"];
    assert_eq!(
        after(&start, &tenth),
        "0 11 c8=2 c9=11 c10=1 p1=1 p2=23 p3=8 p4=11"
    );
    // a try changes nothing
    let tried = ["try ticks 100", "make ticks 100"];
    assert_eq!(after(&start, &tried), ticks);
}

/// Ticks end with the first departure, at the clock's end, or with those asked.
#[test]
fn many_ticks() {
    let none = "0 0 0 0 0 0 0";
    assert_eq!(last(&[FRESH, "make ticks 0"]), format!("2 0 {none}"));
    assert_eq!(after(&TWO, &["make ticks 0"]), format!("0 0 {none}"));
    let end = "make ticks 4294967295";
    let done = format!("0 4000000000 {none} l20=4000000000");
    assert_eq!(after(&TWO, &[end]), done);
    assert_eq!(after(&TWO, &[end, "make ticks 1"]), format!("13 0 {none}"));
    assert_eq!(after(&TWO, &[end, "make ticks 0"]), format!("0 0 {none}"));
    assert_eq!(after(&TWO, &[end, "make tick"]), format!("13 {none}"));
}

/// A number that no field of a record holds is outside its limits.
#[test]
fn great_numbers() {
    let wrong = [
        ("admit 256 10 4 0 0", "5 255 0 0"),
        ("admit 1 65546 4 0 0", "6 255 0 0"),
        ("admit 1 10 65540 0 0", "6 255 0 0"),
        ("admit 1 10 4 65536 0", "6 255 0 0"),
        ("admit_stamped 1 10 4 65536", "6 255 0 0"),
        ("offer 256 4 7", "10 0"),
        ("offer 0 65540 7", "11 0"),
        ("notice 65540 7", "11 0"),
        ("close 256", "10"),
        ("link_frames 65546 4 0", "3"),
        ("admit_share 1 1", "2 255 0 0"),
    ];
    for (call, told) in wrong {
        assert_eq!(after(&TWO, &[&format!("make {call}")]), told, "{call}");
    }
    let links = [
        "link 258 4 0 0 10 20 0 0 0 0 0 0 0 0 0 0 0 0 0 0",
        "link 2 65540 0 0 10 20 0 0 0 0 0 0 0 0 0 0 0 0 0 0",
        "link 2 4 256 0 10 20 0 0 0 0 0 0 0 0 0 0 0 0 0 0",
        "link 2 4 0 256 10 20 0 0 0 0 0 0 0 0 0 0 0 0 0 0",
        "link 2 4 0 0 10 65556 0 0 0 0 0 0 0 0 0 0 0 0 0 0",
        "link 2 4 0 0 10 20 65536 0 0 0 0 0 0 0 0 0 0 0 0 0",
        "link 2 4 0 0 10 20 0 0 0 0 0 0 0 0 0 0 0 0 0 65536",
        "link_frames 65546 4 0",
        "link_frames 10 4 256",
    ];
    for link in links {
        assert_eq!(last(&[FRESH, &format!("make {link}")]), "4", "{link}");
    }
}

#[test]
fn a_line_with_frames() {
    let start = [FRESH, "make link_frames 20 4 1", "make admit_share 9 4"];
    assert_eq!(last(&start[..2]), "0 l24=20 l25=4 l26=1");
    assert_eq!(last(&start), "0 0 0 0 c0=9 c1=4");
    let offer = "make offer 0 4 7";
    assert_eq!(after(&start, &[offer]), "0 20 p1=4 p2=7 p4=20");
    let gone = "0 24 1 0 4 7 0 20 24 l27=24 l30=1 p1=0 p2=0 p4=0";
    assert_eq!(after(&start, &[offer, "make ticks 100"]), gone);
    assert_eq!(after(&start, &["make close 0"]), "2");
    assert_eq!(after(&start, &["make offer_stamped 0 1 7 0"]), "2 0");
}

/// Each of these numbers, changed in tables with a packet in service and one that waits, at 1, leaves them
/// sound or not.
#[test]
fn numbers_that_may_change() {
    let rows = "l0=2 l1=4 l4=10 l5=20 l20=1 l21=1 l22=3 c0=1 c1=4 c2=10 c8=1 c9=1 c25=2 c26=4 c27=20 c33=1 c5000=2 \
                p0=1 p1=4 p2=81 p6=4 p7=82 p8=1 p9=1 n0=254 n1=4 n2=5 n3=1 n4=1";
    let lent = |change: &str| last(&[&format!("{FRESH} {rows} {change}")]);
    assert_eq!(lent(""), "sound");
    for change in [
        "p2=0",
        "p7=9",
        "n2=4294967295",
        "l22=1",
        "l22=4",
        "l21=0",
        "l2=1",
        "p8=0",
        "n3=0 n4=0",
        "n1=1",
        "c26=4 l5=32768",
        "l20=4000000000",
        "c9=0 p9=0 p8=0",
        "p6=1",
        "c9=11 p9=11",
        "l20=2",
    ] {
        assert_eq!(lent(change), "sound", "{change}");
    }
    for change in [
        "l22=5",
        "l21=2",
        "l21=254 l22=5",
        "l23=1",
        "l22=0",
        "l20=0",
        "l20=4000000001",
        "l0=0",
        "l0=3",
        "l1=2049",
        "l1=3",
        "l2=65",
        "l3=2",
        "l4=21",
        "l6=30",
        "l12=9",
        "l12=10",
        "l24=1",
        "l27=1",
        "c0=0",
        "c0=3",
        "c1=5",
        "c2=0",
        "c2=65536",
        "c3=1",
        "c5=2",
        "c6=1",
        "c7=1",
        "c8=0",
        "c8=2",
        "c8=17",
        "c33=2",
        "c9=0",
        "c10=1",
        "c50=1",
        "c5000=1",
        "c5000=3",
        "c5001=1",
        "p0=2",
        "p0=200",
        "p1=0",
        "p1=5",
        "p3=2",
        "p4=1",
        "p5=1",
        "p8=2",
        "p9=0",
        "p9=12",
        "p10=1",
        "p12=1",
        "p10239=1",
        "n0=255",
        "n1=5",
        "n3=2",
        "n4=0",
        "n5=254",
        "n319=1",
        "c9=12 p9=12",
    ] {
        assert_eq!(lent(change), "not sound", "{change}");
    }
}

#[test]
fn other_lengths_are_not_sound() {
    for lent in [
        "lent 30 5002 10240 320",
        "lent 31 5003 10240 320",
        "lent 31 5002 10235 320",
        "lent 31 5002 10240 0",
        "lent 0 0 0 0",
    ] {
        assert_eq!(last(&[lent]), "not sound");
        assert_eq!(last(&[lent, "make admit 1 10 4 0 0"]), "1 255 0 0");
        assert_eq!(last(&[lent, "make offer 0 1 1"]), "1 0");
        assert_eq!(last(&[lent, "make tick"]), "1 0 0 0 0 0 0 0");
        assert_eq!(last(&[lent, "make ticks 0"]), "1 0 0 0 0 0 0 0 0");
    }
}

/// A line that is put aside as tables and taken up again behind each record answers as one that is not.
#[test]
fn tables_hold_the_line() {
    for name in [
        "ties",
        "closes",
        "stamps",
        "early",
        "earlyflood",
        "windows",
        "frames",
        "frameeither",
        "notices",
        "averagememory",
        "silence",
    ] {
        let kind = Kind::named(name).expect("a kind");
        let trace = kind.trace(3, Some(40));
        let (mut job, mut at, mut given) = (Job::new(Pace::Passing), 0, Vec::new());
        while let Some((record, length)) = Record::read(&trace[at..]) {
            let tables = Tables::of(&job);
            job = tables.line().expect("sound tables");
            assert_eq!(Tables::of(&job), tables);
            let carried_out = job.carry_out(record, &mut |answer| {
                answer.append_to(&mut given);
                Ok::<(), ()>(())
            });
            carried_out.expect("carried out");
            at += length;
        }
        let whole = answers(&trace[..at], Pace::Passing).expect("answers");
        assert_eq!(given, whole, "{name}");
    }
}
