//! `pumps`: how many lines of three profiles a ward's link lets in at the same bounds, by document 01's test and
//! by the finer one. Tables on standard output; docs/WINDOWS.md tells what they say.

use std::fmt;

use sim::hub::Hub;
use sim::level_test::shortage_of;
use sim::link::{Connection, Figures, Link, LONGEST_WINDOW, MOST_LEVELS, NO_WINDOWS};
use sim::verdict::Refusal;

/// Of every link: its largest packet in units, and the ticks of silence behind each packet.
const LARGEST: u16 = 128;
const SILENCE: u8 = 1;

/// Lines send so many units a second, in such steps: a tenth of a second is whole ticks.
const STEP: u16 = 10;

/// A profile has a level of its own; its gap is in tenths of a second.
struct Profile {
    name: &'static str,
    gap: u16,
    size: u16,
    /// The window of its average in tenths of a second, and the packets in it.
    average: Option<(u16, u16)>,
    /// One for so many beds, and one at least.
    beds: usize,
}

const PROFILES: [Profile; 3] = [
    Profile {
        name: "pump",
        gap: 10,
        size: 16,
        average: None,
        beds: 1,
    },
    Profile {
        name: "monitor",
        gap: 4,
        size: 32,
        average: None,
        beds: 5,
    },
    Profile {
        name: "wound camera",
        gap: 3,
        size: 128,
        average: Some((80, 4)),
        beds: 10,
    },
];

const WARDS: [usize; 3] = [5, 20, 100];

/// The bounds of the profiles' levels in tenths of a second: two choices.
const BOUNDS: [[u16; 3]; 2] = [[5, 10, 25], [5, 15, 50]];

/// Bounds for pumps alone.
const PUMP_BOUNDS: [u16; 9] = [5, 10, 12, 15, 20, 22, 25, 30, 40];

type Numbers = [u16; MOST_LEVELS];

/// A link with its lines' figures, in ticks of so many a second.
struct Ward {
    bounds: Numbers,
    levels: u8,
    figures: Vec<Figures>,
}

impl Ward {
    /// A level for each profile; nothing where a number would pass its limit.
    fn of(profiles: &[Profile], tenths: &[u16], rate: u16) -> Option<Ward> {
        let ticks = |tenths: u16| (rate / 10).checked_mul(tenths);
        let (mut bounds, mut figures) = (NO_WINDOWS, Vec::new());
        for (level, (profile, &bound)) in (1..).zip(profiles.iter().zip(tenths)) {
            bounds[usize::from(level) - 1] = ticks(bound)?;
            let plain = Figures::plain(level, ticks(profile.gap)?, profile.size);
            figures.push(match profile.average {
                None => plain,
                Some((window, packets)) => {
                    plain.with_average(ticks(window)?, ticks(window)? / packets)
                }
            });
        }
        let ward = Ward {
            bounds,
            levels: profiles.len() as u8,
            figures,
        };
        ward.without_windows().map(|_| ward)
    }

    fn without_windows(&self) -> Option<Link> {
        Link::new(self.levels, LARGEST, SILENCE, self.bounds)
    }

    fn link(&self, windows: Numbers) -> Link {
        self.without_windows()
            .and_then(|link| link.with_windows(windows))
            .expect("within the limits")
    }

    /// The level that fails with so many lines of each profile.
    fn short(&self, windows: Numbers, counts: &[usize]) -> Option<u8> {
        let link = self.link(windows);
        let mut lines = Vec::new();
        for (&figures, &count) in self.figures.iter().zip(counts) {
            let line = Connection::new(&link, figures).expect("within the limits");
            lines.resize(lines.len() + count, line);
        }
        shortage_of(&link, &lines).map(|short| short.level)
    }

    /// Windows from one on behind which some line may send one more, and the longest. Others need not be
    /// tried: what passes with a window passes with the next of these, as no count grows up to it.
    fn ends(&self, from: u16) -> Vec<u16> {
        let link = self.link(NO_WINDOWS);
        let line = |&figures| Connection::new(&link, figures).expect("within the limits");
        let lines: Vec<Connection> = self.figures.iter().map(line).collect();
        let grows = |window: u16| {
            let mut lines = lines.iter();
            lines.any(|line| line.packets_within(window + 1) > line.packets_within(window))
        };
        (from..=LONGEST_WINDOW)
            .filter(|&window| window == LONGEST_WINDOW || grows(window))
            .collect()
    }

    /// Windows with which so many lines of each profile pass, those at hand where they do, else the shortest
    /// that do; or the level for which there is none. A level's conditions depend on its own window alone.
    fn windows(&self, at_hand: Numbers, counts: &[usize]) -> Result<Numbers, u8> {
        let mut windows = at_hand;
        while let Some(level) = self.short(windows, counts) {
            let place = usize::from(level) - 1;
            let passes = |&window: &u16| {
                let mut tried = windows;
                tried[place] = window;
                self.short(tried, counts)
                    .map_or(true, |short| short > level)
            };
            let found = self.ends(self.bounds[place]).into_iter().find(passes);
            windows[place] = found.ok_or(level)?;
        }
        Ok(windows)
    }

    /// Lines of one profile are let in, the others' standing, until one is refused.
    fn admitted(&self, windows: Numbers, others: &[usize], more: usize) -> (usize, Refusal) {
        let mut hub = Hub::new();
        hub.set_link(Some(self.link(windows))).expect("a link");
        for (place, (&figures, &count)) in self.figures.iter().zip(others).enumerate() {
            for _ in 0..if place == more { 0 } else { count } {
                hub.admit(figures).expect("the ward stands");
            }
        }
        let mut count = 0;
        loop {
            match hub.admit(self.figures[more]) {
                Ok(_) => count += 1,
                Err(refusal) => return (count, refusal),
            }
        }
    }

    /// The same with the windows that let most of them in.
    fn admitted_finely(&self, others: &[usize], more: usize) -> (usize, Stop, Numbers) {
        let mut counts = others.to_vec();
        counts[more] = 0;
        let mut windows = self.windows(self.bounds, &counts).expect("the ward stands");
        loop {
            let (count, refusal) = self.admitted(windows, others, more);
            counts[more] = count + 1;
            match (refusal, self.windows(windows, &counts)) {
                (Refusal::LevelTest(_), Ok(longer)) => windows = longer,
                (Refusal::LevelTest(_), Err(level)) => return (count, Stop::Level(level), windows),
                (refusal, _) => return (count, Stop::of(refusal), windows),
            }
        }
    }

    /// The numbers of its levels.
    fn shown(&self, numbers: &Numbers) -> String {
        let used = numbers.iter().take(usize::from(self.levels));
        used.map(|&number| grouped(number))
            .collect::<Vec<_>>()
            .join("; ")
    }
}

/// What stops the next one.
enum Stop {
    Level(u8),
    Verdict(u8),
}

impl Stop {
    fn of(refusal: Refusal) -> Stop {
        match refusal {
            Refusal::LevelTest(short) => Stop::Level(short.level),
            other => Stop::Verdict(other.number()),
        }
    }
}

impl fmt::Display for Stop {
    fn fmt(&self, to: &mut fmt::Formatter) -> fmt::Result {
        match self {
            Stop::Level(level) => write!(to, "8, level {level}"),
            Stop::Verdict(verdict) => write!(to, "{verdict}"),
        }
    }
}

/// A number with a comma before its last three digits.
fn grouped(number: u16) -> String {
    match number {
        0..=999 => number.to_string(),
        _ => format!("{},{:03}", number / 1_000, number % 1_000),
    }
}

/// Tenths as seconds.
fn seconds(tenths: &[u16]) -> String {
    let one = |&tenths: &u16| format!("{}", f64::from(tenths) / 10.0);
    tenths.iter().map(one).collect::<Vec<_>>().join("; ")
}

/// How many of each profile a ward has.
fn lines_of(beds: usize) -> Vec<usize> {
    let count = |profile: &Profile| (beds / profile.beds).max(1);
    PROFILES.iter().map(count).collect()
}

/// The slowest line that lets a ward in: by document 01's test, or by the finer one with some windows.
fn slowest(bounds: &[u16], counts: &[usize], finely: bool) -> u16 {
    let lets_in = |rate: &u16| {
        Ward::of(&PROFILES, bounds, *rate).map_or(false, |ward| match finely {
            false => ward.short(NO_WINDOWS, counts).is_none(),
            true => ward.windows(ward.bounds, counts).is_ok(),
        })
    };
    let mut rates = (1..=u16::MAX / STEP).map(|steps| steps * STEP);
    rates.find(lets_in).expect("a line for the ward")
}

/// How many fit on the slowest line of document 01's test.
fn print_wards() {
    println!(
        "| Beds | Bounds in seconds | In ticks | Profile | Document 01's test | The next one gets \
         | The finer test | The next one gets | Windows |\n|---|---|---|---|---|---|---|---|---|"
    );
    for bounds in BOUNDS {
        for beds in WARDS {
            let counts = lines_of(beds);
            let rate = slowest(&bounds, &counts, false);
            let ward = Ward::of(&PROFILES, &bounds, rate).expect("within the limits");
            for (place, profile) in PROFILES.iter().enumerate() {
                let (before, refusal) = ward.admitted(NO_WINDOWS, &counts, place);
                let (after, stop, windows) = ward.admitted_finely(&counts, place);
                println!(
                    "| {beds} | {} | {} | {} | {before} | {} | {after} | {stop} | {} |",
                    seconds(&bounds),
                    ward.shown(&ward.bounds),
                    profile.name,
                    Stop::of(refusal),
                    ward.shown(&windows)
                );
            }
        }
    }
}

/// The slowest lines of the wards, in units a second.
fn print_lines() {
    println!(
        "\n| Beds | Bounds in seconds | Document 01's test | The finer test |\n|---|---|---|---|"
    );
    for bounds in BOUNDS {
        for beds in WARDS {
            let rate = |finely| grouped(slowest(&bounds, &lines_of(beds), finely));
            let (before, after) = (rate(false), rate(true));
            println!("| {beds} | {} | {before} | {after} |", seconds(&bounds));
        }
    }
}

/// Pumps alone by their bound, on a line of 1,000 units a second.
fn print_pumps() {
    println!(
        "\n| Bound in seconds | In ticks | Document 01's test | The finer test | Window |\n|---|---|---|---|---|"
    );
    for bound in PUMP_BOUNDS {
        let ward = Ward::of(&PROFILES[..1], &[bound], 1_000).expect("within the limits");
        let (before, _) = ward.admitted(NO_WINDOWS, &[0], 0);
        let (after, _, windows) = ward.admitted_finely(&[0], 0);
        println!(
            "| {} | {} | {before} | {after} | {} |",
            seconds(&[bound]),
            ward.shown(&ward.bounds),
            ward.shown(&windows)
        );
    }
}

fn main() {
    print_wards();
    print_lines();
    print_pumps();
}
