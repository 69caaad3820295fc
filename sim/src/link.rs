//! Link and connection with their limits (section "Link, connections, places"; the silence by
//! R-4, averages by R-6, how many connections and places by R-7, allowances by R-9, the stand-by queue
//! by R-11, windows by R-12).

use crate::verdict::Refusal;

pub const MOST_LEVELS: usize = 8;
pub const MOST_UNITS: u16 = 2_048;
pub const MOST_SILENCE: u8 = 64;
pub const HIGHEST_BOUND: u16 = 32_768;
pub const LONGEST_WINDOW: u16 = 32_768;

/// The windows of a link that has none.
pub const NO_WINDOWS: [u16; MOST_LEVELS] = [0; MOST_LEVELS];

/// The settings of the stand-by queue.
pub const OFF: u8 = 0;
pub const ON: u8 = 1;

/// Connections, numbered from 0, and the places of all reservations together.
pub const MOST_CONNECTIONS: usize = 200;
pub const MOST_RESERVED: u64 = 2_048;

/// The most packets that a connection with an average may have to a window: n is 1 to 16. So many
/// of its eligibilities a connection remembers.
pub const MOST_PER_WINDOW: u16 = 16;

/// A link within its limits: n levels, the largest packet S, the silence after each packet, whether
/// its stand-by queue is on, a delay bound per level, and whether it has windows. `spans` are these
/// or, where it has none, the bounds; a closed connection is charged for `charge_time`.
#[derive(Clone, Copy, Debug, PartialEq, Eq)]
pub struct Link {
    levels: u8,
    largest: u16,
    silence: u8,
    stands_by: bool,
    has_windows: bool,
    bounds: [u16; MOST_LEVELS],
    spans: [u16; MOST_LEVELS],
    charge_time: u32,
}

impl Link {
    /// The link with its stand-by queue off, or nothing if one of its limits is broken.
    pub fn new(levels: u8, largest: u16, silence: u8, bounds: [u16; MOST_LEVELS]) -> Option<Link> {
        Link::set_to(OFF, levels, largest, silence, bounds)
    }

    /// The link without windows, its stand-by queue as the setting says: off or on, another one
    /// breaks a limit.
    pub fn set_to(
        setting: u8,
        levels: u8,
        largest: u16,
        silence: u8,
        bounds: [u16; MOST_LEVELS],
    ) -> Option<Link> {
        let used = bounds.get(..usize::from(levels))?;
        let unused = bounds.get(usize::from(levels)..)?;
        let (first, last) = (*used.first()?, *used.last()?);
        let within = (1..=MOST_UNITS).contains(&largest)
            && silence <= MOST_SILENCE
            && setting <= ON
            && used.windows(2).all(|pair| pair[0] < pair[1])
            && first >= largest + u16::from(silence)
            && last <= HIGHEST_BOUND
            && unused.iter().all(|&bound| bound == 0);
        within.then_some(Link {
            levels,
            largest,
            silence,
            stands_by: setting == ON,
            has_windows: false,
            bounds,
            spans: bounds,
            charge_time: u32::from(last),
        })
    }

    /// The same link with these windows, or nothing if one of their limits is broken. All 0 are
    /// none. Else each level has one, from its bound up to the longest, and past n they are 0.
    pub fn with_windows(self, windows: [u16; MOST_LEVELS]) -> Option<Link> {
        if windows == NO_WINDOWS {
            return Some(self);
        }
        let (used, unused) = windows.split_at(usize::from(self.levels));
        let mut pairs = used.iter().zip(self.bounds());
        let within = pairs.all(|(window, bound)| (*bound..=LONGEST_WINDOW).contains(window))
            && unused.iter().all(|&window| window == 0);
        let longest = used.iter().max()?;
        within.then_some(Link {
            has_windows: true,
            spans: windows,
            charge_time: u32::from(self.largest_bound()) + u32::from(*longest),
            ..self
        })
    }

    /// Whether it is within its limits, as one that was made is.
    pub fn is_within(&self) -> bool {
        let made = Link::new(self.levels, self.largest, self.silence, self.bounds);
        let made = match self.has_windows {
            true => made.and_then(|link| link.with_windows(self.spans)),
            false => made,
        };
        made.map_or(false, |link| {
            link.has_windows == self.has_windows
                && link.spans == self.spans
                && link.charge_time == self.charge_time
        })
    }

    /// Whether it has windows, so that the finer test is made.
    pub fn has_windows(&self) -> bool {
        self.has_windows
    }

    /// w of one level; on a link without windows d. 0 for a level that the link does not have.
    pub fn span(&self, level: u8) -> u16 {
        let row = usize::from(level).wrapping_sub(1);
        let spans = &self.spans[..usize::from(self.levels)];
        spans.get(row).copied().unwrap_or(0)
    }

    /// How long behind its last eligibility a closed connection is charged: for the largest bound,
    /// with windows for the longest of these besides.
    pub fn charge_time(&self) -> u32 {
        self.charge_time
    }

    /// Whether packets of connections by their gap stand by.
    pub fn stands_by(&self) -> bool {
        self.stands_by
    }

    /// n: levels are numbered 1 to n, level 1 most urgent.
    pub fn levels(&self) -> u8 {
        self.levels
    }

    /// S, the largest packet, in units.
    pub fn largest(&self) -> u16 {
        self.largest
    }

    /// The ticks of silence after each packet.
    pub fn silence(&self) -> u8 {
        self.silence
    }

    /// How many ticks a packet of a length occupies the line: its units, then the silence.
    pub fn cost(&self, length: u16) -> u64 {
        u64::from(length) + u64::from(self.silence)
    }

    /// d of each level, level 1 first.
    pub fn bounds(&self) -> &[u16] {
        &self.bounds[..usize::from(self.levels)]
    }

    /// The largest bound, which is that of the last level.
    pub fn largest_bound(&self) -> u16 {
        self.bound(self.levels)
    }

    /// d of one level; 0 for a level that the link does not have.
    pub fn bound(&self, level: u8) -> u16 {
        let row = usize::from(level).wrapping_sub(1);
        self.bounds().get(row).copied().unwrap_or(0)
    }
}

/// The figures of a link as they are handed in: bounds and windows past n are 0. A link without a setting is
/// off, one without windows has none.
#[derive(Clone, Copy, Debug, PartialEq, Eq)]
pub struct LinkFigures {
    pub levels: u8,
    pub largest: u16,
    pub silence: u8,
    pub setting: Option<u8>,
    pub bounds: [u16; MOST_LEVELS],
    pub windows: Option<[u16; MOST_LEVELS]>,
}

impl LinkFigures {
    /// The link, or nothing if a limit is broken.
    pub fn link(&self) -> Option<Link> {
        let setting = self.setting.unwrap_or(OFF);
        let windows = self.windows.unwrap_or(NO_WINDOWS);
        Link::set_to(
            setting,
            self.levels,
            self.largest,
            self.silence,
            self.bounds,
        )?
        .with_windows(windows)
    }
}

/// The figures of a connection as they are handed in: window I and average gap are both 0 where it
/// has no average; one with an allowance is regulated by stamps, others by their gap.
#[derive(Clone, Copy, Debug, PartialEq, Eq)]
pub struct Figures {
    pub level: u8,
    pub gap: u16,
    pub size: u16,
    pub window: u16,
    pub average: u16,
    pub allowance: Option<u16>,
}

impl Figures {
    /// Those of a connection without an average, regulated by its gap.
    pub fn plain(level: u8, gap: u16, size: u16) -> Figures {
        Figures {
            level,
            gap,
            size,
            window: 0,
            average: 0,
            allowance: None,
        }
    }

    pub fn with_average(self, window: u16, average: u16) -> Figures {
        Figures {
            window,
            average,
            ..self
        }
    }

    pub fn by_stamps(self, allowance: u16) -> Figures {
        Figures {
            allowance: Some(allowance),
            ..self
        }
    }
}

/// An average rate: n packets to each window of I ticks.
#[derive(Clone, Copy, Debug, PartialEq, Eq)]
pub struct Average {
    window: u16,
    packets: u16,
}

impl Average {
    /// I, the averaging window, in ticks.
    pub fn window(&self) -> u16 {
        self.window
    }

    /// n: I divided by the average gap.
    pub fn packets(&self) -> u16 {
        self.packets
    }
}

/// A connection within the limits of its link: level, gap X, size and perhaps an average, or an
/// allowance, but not both.
#[derive(Clone, Copy, Debug, PartialEq, Eq)]
pub struct Connection {
    level: u8,
    gap: u16,
    size: u16,
    average: Option<Average>,
    allowance: Option<u16>,
}

impl Connection {
    /// The connection, or verdict 5 or 6 (section "Verdict numbers").
    pub fn new(link: &Link, figures: Figures) -> Result<Connection, Refusal> {
        let Figures {
            level,
            gap,
            size,
            allowance,
            ..
        } = figures;
        if !(1..=link.levels()).contains(&level) {
            return Err(Refusal::NoSuchLevel);
        }
        if gap == 0 || !(1..=link.largest()).contains(&size) {
            return Err(Refusal::ConnectionLimit);
        }
        let average = average_of(figures)?;
        if average.is_some() && allowance.is_some() {
            return Err(Refusal::ConnectionLimit);
        }
        Ok(Connection {
            level,
            gap,
            size,
            average,
            allowance,
        })
    }

    /// Whether it is within the limits of its link, as one that was made is.
    pub fn is_within(&self, link: &Link) -> bool {
        let average = self.average;
        let (window, packets) = average.map_or((0, 0), |one| (one.window, one.packets));
        let figures = Figures {
            level: self.level,
            gap: self.gap,
            size: self.size,
            window,
            average: window.checked_div(packets).unwrap_or(0),
            allowance: self.allowance,
        };
        Connection::new(link, figures) == Ok(*self)
    }

    pub fn level(&self) -> u8 {
        self.level
    }

    pub fn gap(&self) -> u16 {
        self.gap
    }

    pub fn size(&self) -> u16 {
        self.size
    }

    pub fn average(&self) -> Option<Average> {
        self.average
    }

    /// a of a connection that is regulated by stamps; nothing of one by its gap.
    pub fn allowance(&self) -> Option<u16> {
        self.allowance
    }

    /// The most packets that a stretch of so many ticks can hold: the ticks divided by X, rounded
    /// up; with an average no more than n for each whole I, and for the rest the smaller of n and
    /// the rest divided by X, rounded up.
    pub fn packets_within(&self, ticks: u16) -> u64 {
        let by_gap = rounded_up(ticks, self.gap);
        match self.average {
            None => by_gap,
            Some(Average { window, packets }) => {
                let whole = u64::from(ticks / window) * u64::from(packets);
                let rest = rounded_up(ticks % window, self.gap).min(u64::from(packets));
                by_gap.min(whole + rest)
            }
        }
    }

    /// Reservation: the most packets that d of the connection's own level can hold; by stamps, that
    /// a and d together can.
    pub fn reservation(&self, link: &Link) -> u64 {
        match self.allowance {
            None => self.packets_within(link.bound(self.level)),
            Some(allowance) => {
                let bound = link.bound(self.level);
                rounded_up(u64::from(allowance) + u64::from(bound), self.gap)
            }
        }
    }
}

/// The average of figures whose gap is at least 1, or verdict 6: the average gap is at least
/// X and divides I, which gives n.
fn average_of(figures: Figures) -> Result<Option<Average>, Refusal> {
    let Figures {
        gap,
        window,
        average,
        ..
    } = figures;
    if window == 0 && average == 0 {
        return Ok(None);
    }
    if average < gap || window % average != 0 {
        return Err(Refusal::ConnectionLimit);
    }
    let packets = window / average;
    if !(1..=MOST_PER_WINDOW).contains(&packets) {
        return Err(Refusal::ConnectionLimit);
    }
    Ok(Some(Average { window, packets }))
}

fn rounded_up(ticks: impl Into<u64>, gap: u16) -> u64 {
    (ticks.into() + u64::from(gap) - 1) / u64::from(gap)
}
