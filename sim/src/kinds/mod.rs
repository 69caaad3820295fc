//! Kinds of traces made from a seed. The same kind, seed and size give the same bytes.

mod averages;
mod beds;
mod closing;
mod damage;
mod early;
mod edges;
mod frames;
mod notices;
mod script;
mod short;
mod silence;
mod stamps;
mod traffic;
mod windows;

use crate::link::{OFF, ON};
use crate::random::Random;
use script::{Script, Windows};

enum Maker {
    /// Good records, carried out while they are written.
    Scripted(fn(&mut Script, usize)),
    /// The scripted kinds of these names in turn, their links with a setting and windows or without
    ///
    Set(u8, Windows, &'static [&'static str]),
    /// Bytes of any sort.
    Bytes(fn(u64, &mut Random, usize) -> Vec<u8>),
}

/// The kinds whose hubs stand by too, or have windows: of traffic, of notices and silences, of averages and places, of
/// closes, of stamps.
const TRAFFIC: [&str; 9] = [
    "quiet",
    "flooded",
    "wild",
    "midrun",
    "ties",
    "reserve",
    "bigpackets",
    "refusals",
    "tight",
];
const NOTICES: [&str; 7] = [
    "notices",
    "noticeflood",
    "noticefull",
    "noticerefusals",
    "silence",
    "silencesplit",
    "silencelinks",
];
const AVERAGES: [&str; 6] = [
    "bursts",
    "averageflood",
    "averagefigures",
    "averagememory",
    "beds",
    "short",
];
const CLOSES: [&str; 7] = [
    "closes",
    "closesmall",
    "closeturns",
    "closecharges",
    "closerefusals",
    "closebeds",
    "closereopened",
];
const STAMPS: [&str; 6] = [
    "stamps",
    "stamprelays",
    "stampsmall",
    "stampfull",
    "stampfigures",
    "stampreopened",
];
const SOME: [&str; 8] = [
    "flooded",
    "stampsmall",
    "closesmall",
    "averageflood",
    "silence",
    "noticeflood",
    "wild",
    "refusals",
];

/// A kind of traces and its usual size (steps, not bytes).
pub struct Kind {
    pub name: &'static str,
    pub size: usize,
    maker: Maker,
}

#[rustfmt::skip] // One line for each kind.
pub const KINDS: [Kind; 99] = [
    Kind { name: "quiet", size: 60, maker: Maker::Scripted(traffic::quiet) },
    Kind { name: "flooded", size: 60, maker: Maker::Scripted(traffic::flooded) },
    Kind { name: "wild", size: 60, maker: Maker::Scripted(traffic::wild) },
    Kind { name: "midrun", size: 150, maker: Maker::Scripted(traffic::midrun) },
    Kind { name: "ties", size: 30, maker: Maker::Scripted(traffic::ties) },
    Kind { name: "reserve", size: 5, maker: Maker::Scripted(traffic::reserve) },
    Kind { name: "bigpackets", size: 40, maker: Maker::Scripted(traffic::big_packets) },
    Kind { name: "refusals", size: 90, maker: Maker::Scripted(edges::refusals) },
    Kind { name: "tight", size: 40, maker: Maker::Scripted(edges::tight) },
    Kind { name: "malformed", size: 30, maker: Maker::Bytes(damage::malformed) },
    Kind { name: "badrecord", size: 20, maker: Maker::Bytes(damage::bad_record) },
    Kind { name: "clockend", size: 40, maker: Maker::Scripted(edges::clock_end) },
    Kind { name: "limit", size: 40, maker: Maker::Scripted(edges::limit) },
    Kind { name: "notices", size: 60, maker: Maker::Scripted(notices::mixed) },
    Kind { name: "noticeflood", size: 60, maker: Maker::Scripted(notices::notice_flood) },
    Kind { name: "noticefull", size: 60, maker: Maker::Scripted(notices::notice_full) },
    Kind { name: "noticerefusals", size: 60, maker: Maker::Scripted(notices::notice_refusals) },
    Kind { name: "noticedamage", size: 30, maker: Maker::Bytes(damage::damaged_notices) },
    Kind { name: "badnotice", size: 20, maker: Maker::Bytes(damage::bad_notice) },
    Kind { name: "noticeend", size: 40, maker: Maker::Scripted(notices::notice_end) },
    Kind { name: "noticelimit", size: 40, maker: Maker::Scripted(notices::notice_limit) },
    Kind { name: "short", size: 80, maker: Maker::Scripted(short::short) },
    Kind { name: "silence", size: 300, maker: Maker::Scripted(silence::small) },
    Kind { name: "silencesplit", size: 60, maker: Maker::Scripted(silence::split) },
    Kind { name: "silencelinks", size: 40, maker: Maker::Scripted(silence::links) },
    Kind { name: "silenceend", size: 40, maker: Maker::Scripted(silence::end) },
    Kind { name: "bursts", size: 80, maker: Maker::Scripted(averages::bursts) },
    Kind { name: "averageflood", size: 60, maker: Maker::Scripted(averages::flooded) },
    Kind { name: "averagefigures", size: 90, maker: Maker::Scripted(averages::figures) },
    Kind { name: "averagememory", size: 20, maker: Maker::Scripted(averages::memory) },
    Kind { name: "averageend", size: 40, maker: Maker::Scripted(averages::end) },
    Kind { name: "beds", size: 12, maker: Maker::Scripted(beds::beds) },
    Kind { name: "closes", size: 60, maker: Maker::Scripted(closing::mixed) },
    Kind { name: "closesmall", size: 400, maker: Maker::Scripted(closing::small) },
    Kind { name: "closeturns", size: 80, maker: Maker::Scripted(closing::turns) },
    Kind { name: "closecharges", size: 12, maker: Maker::Scripted(closing::charges) },
    Kind { name: "closerefusals", size: 60, maker: Maker::Scripted(closing::refusals) },
    Kind { name: "closebeds", size: 6, maker: Maker::Scripted(closing::beds) },
    Kind { name: "closereopened", size: 12, maker: Maker::Scripted(closing::reopened) },
    Kind { name: "closedamage", size: 30, maker: Maker::Bytes(damage::damaged_closes) },
    Kind { name: "badclose", size: 20, maker: Maker::Bytes(damage::bad_close) },
    Kind { name: "closeend", size: 40, maker: Maker::Scripted(closing::end) },
    Kind { name: "closelimit", size: 40, maker: Maker::Scripted(closing::limit) },
    Kind { name: "stamps", size: 120, maker: Maker::Scripted(stamps::mixed) },
    Kind { name: "stamprelays", size: 80, maker: Maker::Scripted(stamps::relayed) },
    Kind { name: "stampsmall", size: 400, maker: Maker::Scripted(stamps::small) },
    Kind { name: "stampfull", size: 30, maker: Maker::Scripted(stamps::full) },
    Kind { name: "stampfigures", size: 90, maker: Maker::Scripted(stamps::figures) },
    Kind { name: "stampreopened", size: 12, maker: Maker::Scripted(stamps::reopened) },
    Kind { name: "stampdamage", size: 30, maker: Maker::Bytes(damage::damaged_stamps) },
    Kind { name: "badstamp", size: 20, maker: Maker::Bytes(damage::bad_stamp) },
    Kind { name: "stampend", size: 40, maker: Maker::Scripted(stamps::end) },
    Kind { name: "stamplimit", size: 40, maker: Maker::Scripted(stamps::limit) },
    Kind { name: "early", size: 60, maker: Maker::Set(ON, Windows::None, &TRAFFIC) },
    Kind { name: "earlynotices", size: 60, maker: Maker::Set(ON, Windows::None, &NOTICES) },
    Kind { name: "earlyaverages", size: 60, maker: Maker::Set(ON, Windows::None, &AVERAGES) },
    Kind { name: "earlycloses", size: 60, maker: Maker::Set(ON, Windows::None, &CLOSES) },
    Kind { name: "earlystamps", size: 60, maker: Maker::Set(ON, Windows::None, &STAMPS) },
    Kind { name: "earlyoff", size: 60, maker: Maker::Set(OFF, Windows::None, &SOME) },
    Kind { name: "earlyflood", size: 10_000, maker: Maker::Scripted(early::flooded) },
    Kind { name: "earlydistance", size: 20, maker: Maker::Scripted(early::distances) },
    Kind { name: "earlysmall", size: 400, maker: Maker::Scripted(early::small) },
    Kind { name: "earlycharges", size: 12, maker: Maker::Scripted(early::charges) },
    Kind { name: "earlylinks", size: 30, maker: Maker::Scripted(early::links) },
    Kind { name: "earlydamage", size: 30, maker: Maker::Bytes(damage::damaged_early) },
    Kind { name: "badearly", size: 20, maker: Maker::Bytes(damage::bad_early) },
    Kind { name: "earlyend", size: 40, maker: Maker::Scripted(early::end) },
    Kind { name: "earlylimit", size: 40, maker: Maker::Scripted(early::limit) },
    Kind { name: "windows", size: 60, maker: Maker::Set(OFF, Windows::Any, &TRAFFIC) },
    Kind { name: "windownotices", size: 60, maker: Maker::Set(OFF, Windows::Any, &NOTICES) },
    Kind { name: "windowaverages", size: 60, maker: Maker::Set(OFF, Windows::Any, &AVERAGES) },
    Kind { name: "windowcloses", size: 60, maker: Maker::Set(OFF, Windows::Any, &CLOSES) },
    Kind { name: "windowstamps", size: 60, maker: Maker::Set(OFF, Windows::Any, &STAMPS) },
    Kind { name: "windowearly", size: 60, maker: Maker::Set(ON, Windows::Any, &SOME) },
    Kind { name: "windowbounds", size: 60, maker: Maker::Set(OFF, Windows::AtTheBounds, &SOME) },
    Kind { name: "windowzeros", size: 60, maker: Maker::Set(OFF, Windows::Zeros, &SOME) },
    Kind { name: "windowflood", size: 40, maker: Maker::Scripted(windows::flooded) },
    Kind { name: "windowedges", size: 40, maker: Maker::Scripted(windows::edges) },
    Kind { name: "windowsmall", size: 400, maker: Maker::Scripted(windows::small) },
    Kind { name: "windowcharges", size: 12, maker: Maker::Scripted(windows::charges) },
    Kind { name: "windowlinks", size: 30, maker: Maker::Scripted(windows::links) },
    Kind { name: "windowdamage", size: 30, maker: Maker::Bytes(damage::damaged_windows) },
    Kind { name: "badwindow", size: 20, maker: Maker::Bytes(damage::bad_window) },
    Kind { name: "windowend", size: 40, maker: Maker::Scripted(windows::end) },
    Kind { name: "windowlimit", size: 40, maker: Maker::Scripted(windows::limit) },
    Kind { name: "frames", size: 250, maker: Maker::Scripted(frames::mixed) },
    Kind { name: "framesmall", size: 400, maker: Maker::Scripted(frames::small) },
    Kind { name: "frameflood", size: 50, maker: Maker::Scripted(frames::flooded) },
    Kind { name: "framelast", size: 40, maker: Maker::Scripted(frames::last_ticks) },
    Kind { name: "frameworst", size: 12, maker: Maker::Scripted(frames::worst) },
    Kind { name: "frameedges", size: 60, maker: Maker::Scripted(frames::edges) },
    Kind { name: "framerefusals", size: 90, maker: Maker::Scripted(frames::refusals) },
    Kind { name: "framebeds", size: 3, maker: Maker::Scripted(frames::beds) },
    Kind { name: "framehalves", size: 20, maker: Maker::Scripted(frames::halves) },
    Kind { name: "frameeither", size: 40, maker: Maker::Scripted(frames::either) },
    Kind { name: "framedamage", size: 30, maker: Maker::Bytes(damage::damaged_frames) },
    Kind { name: "badframe", size: 20, maker: Maker::Bytes(damage::bad_frame) },
    Kind { name: "frameend", size: 40, maker: Maker::Scripted(frames::end) },
    Kind { name: "framelimit", size: 40, maker: Maker::Scripted(frames::limit) },
];

impl Kind {
    pub fn named(name: &str) -> Option<&'static Kind> {
        KINDS.iter().find(|kind| kind.name == name)
    }

    /// Those of the discipline of levels alone.
    pub fn of_levels() -> impl Iterator<Item = &'static Kind> {
        KINDS.iter().filter(|kind| !kind.has_frames())
    }

    /// Whether its traces have records of the discipline of frames.
    pub fn has_frames(&self) -> bool {
        self.name.contains("frame")
    }

    /// The trace of a seed, of the usual size if none is asked for; of kinds in turn, the usual size of
    /// the one whose turn it is.
    pub fn trace(&self, seed: u64, size: Option<usize>) -> Vec<u8> {
        let mut script = Script::new(self.mixed(seed));
        let usual = size.unwrap_or(self.size);
        match self.maker {
            Maker::Scripted(make) => {
                script.set_seed(seed);
                make(&mut script, usual);
            }
            Maker::Set(setting, windows, names) => {
                let turns = names.len() as u64;
                script.links_by(Some(setting));
                script.links_with(windows);
                script.set_seed(seed / turns);
                let kind = Kind::named(names[(seed % turns) as usize]);
                if let Some((size, Maker::Scripted(make))) =
                    kind.map(|kind| (size.unwrap_or(kind.size), &kind.maker))
                {
                    make(&mut script, size);
                }
            }
            Maker::Bytes(make) => return make(seed, &mut Random::new(self.mixed(seed)), usual),
        }
        script.finish().0
    }

    /// Other numbers for each kind.
    fn mixed(&self, seed: u64) -> u64 {
        let letters = self.name.bytes();
        letters.fold(seed, |mixed, letter| {
            Random::new(mixed ^ u64::from(letter)).number()
        })
    }
}
