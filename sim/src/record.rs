//! Trace and answer records (section "Trace and answer records"; `NQ` and `NA` by R-1,
//! level and units in `CA` by R-2, the silence in `LK` by R-4, window and average gap in `CN` by
//! R-6, `CL` and `CD` by R-8, `CS` and `PS` by R-9, `LE` by R-11, `LW`
//! by R-12, `LF` and `CF` by R-13).

use crate::departure::{Departure, Tick};
use crate::frames::{Framing, Share};
use crate::link::{Figures, LinkFigures, MOST_LEVELS, OFF};
use crate::verdict::{Refusal, Shortage};

/// The longest trace record: an `LW` with 8 bounds and 8 windows.
pub const LONGEST_RECORD: usize = 7 + 4 * MOST_LEVELS;

/// The connection number that a refused admission gives.
pub const NO_CONNECTION: u8 = 255;

/// A trace record. A link with windows stands in an `LW`, one with a setting alone in an `LE`,
/// one without in an `LK`; with windows it has a setting too. Its figures are kept apart, so that other
/// records are short. Figures with an allowance stand in a `CS`, others in a `CN`; a packet with a stamp in a
/// `PS`, one without in a `PK`. Of the discipline of frames `LF` is the link and `CF` the connection
///
#[derive(Clone, Debug, PartialEq, Eq)]
pub enum Record {
    Link(Box<LinkFigures>),
    Framing(Framing),
    Connection(Figures),
    Share(Share),
    Close {
        connection: u8,
    },
    Packet {
        connection: u8,
        length: u16,
        tag: u32,
        stamp: Option<u32>,
    },
    Notice {
        length: u16,
        tag: u32,
    },
    Ticks {
        asked: u16,
    },
}

impl Record {
    /// The record at the start of the bytes and its length; nothing if it is malformed.
    #[inline(always)]
    pub fn read(bytes: &[u8]) -> Option<(Record, usize)> {
        match bytes.get(..LONGEST_RECORD) {
            Some(whole) => Record::read_whole(whole.try_into().ok()?),
            None => Record::read_short(bytes),
        }
    }

    /// The same of fewer bytes than the longest record has.
    #[cold]
    fn read_short(bytes: &[u8]) -> Option<(Record, usize)> {
        let read = Record::read_whole(&padded(bytes));
        read.filter(|&(_, length)| length <= bytes.len())
    }

    /// The same where there are bytes for the longest record.
    #[inline(always)]
    fn read_whole(bytes: &[u8; LONGEST_RECORD]) -> Option<(Record, usize)> {
        let mut fields = Fields { bytes, taken: 0 };
        let record = match &fields.take::<2>()? {
            b"LK" => Record::Link(read_link(&mut fields, false, false)?),
            b"LE" => Record::Link(read_link(&mut fields, true, false)?),
            b"LW" => Record::Link(read_link(&mut fields, true, true)?),
            b"LF" => Record::Framing(read_framing(&mut fields)?),
            b"CN" => Record::Connection(read_figures(&mut fields)?),
            b"CS" => Record::Connection(read_stamped(&mut fields)?),
            b"CF" => Record::Share(read_share(&mut fields)?),
            b"CL" => Record::Close {
                connection: fields.one()?,
            },
            b"PK" => Record::Packet {
                connection: fields.one()?,
                length: fields.two()?,
                tag: fields.four()?,
                stamp: None,
            },
            b"PS" => Record::Packet {
                connection: fields.one()?,
                length: fields.two()?,
                tag: fields.four()?,
                stamp: Some(fields.four()?),
            },
            b"NQ" => Record::Notice {
                length: fields.two()?,
                tag: fields.four()?,
            },
            b"TK" => Record::Ticks {
                asked: fields.two()?,
            },
            _ => return None,
        };
        Some((record, fields.taken))
    }

    /// Writes the record behind what is there already.
    pub fn append_to(&self, out: &mut Vec<u8>) {
        match *self {
            Record::Link(ref figures) => append_link(out, figures),
            Record::Framing(framing) => append_framing(out, &framing),
            Record::Connection(figures) => append_connection(out, &figures),
            Record::Share(share) => append_share(out, &share),
            Record::Close { connection } => out.extend_from_slice(&[b'C', b'L', connection]),
            Record::Packet {
                connection,
                length,
                tag,
                stamp,
            } => append_packet(out, connection, length, tag, stamp),
            Record::Notice { length, tag } => {
                out.extend_from_slice(b"NQ");
                out.extend_from_slice(&length.to_le_bytes());
                out.extend_from_slice(&tag.to_le_bytes());
            }
            Record::Ticks { asked } => {
                out.extend_from_slice(b"TK");
                out.extend_from_slice(&asked.to_le_bytes());
            }
        }
    }
}

/// Levels, S and silence, and the setting if there is one; with windows there always is. Then the bounds
/// and the windows that are used.
fn append_link(out: &mut Vec<u8>, figures: &LinkFigures) {
    let (mark, setting) = match (figures.windows, figures.setting) {
        (Some(_), setting) => (b"LW", Some(setting.unwrap_or(OFF))),
        (None, Some(setting)) => (b"LE", Some(setting)),
        (None, None) => (b"LK", None),
    };
    out.extend_from_slice(mark);
    out.push(figures.levels);
    out.extend_from_slice(&figures.largest.to_le_bytes());
    out.push(figures.silence);
    out.extend(setting);
    append_used(out, figures.levels, &figures.bounds);
    if let Some(windows) = &figures.windows {
        append_used(out, figures.levels, windows);
    }
}

/// The numbers of the levels that a link has.
fn append_used(out: &mut Vec<u8>, levels: u8, numbers: &[u16; MOST_LEVELS]) {
    for number in numbers.iter().take(usize::from(levels)) {
        out.extend_from_slice(&number.to_le_bytes());
    }
}

fn append_framing(out: &mut Vec<u8>, framing: &Framing) {
    out.extend_from_slice(b"LF");
    out.extend_from_slice(&framing.frame.to_le_bytes());
    out.extend_from_slice(&framing.largest.to_le_bytes());
    out.push(framing.silence);
}

fn append_share(out: &mut Vec<u8>, share: &Share) {
    out.extend_from_slice(b"CF");
    out.extend_from_slice(&share.units.to_le_bytes());
    out.extend_from_slice(&share.places.to_le_bytes());
}

/// With an allowance there is no average to be written.
fn append_connection(out: &mut Vec<u8>, figures: &Figures) {
    out.extend_from_slice(figures.allowance.map_or(b"CN", |_| b"CS"));
    out.push(figures.level);
    out.extend_from_slice(&figures.gap.to_le_bytes());
    out.extend_from_slice(&figures.size.to_le_bytes());
    match figures.allowance {
        Some(allowance) => out.extend_from_slice(&allowance.to_le_bytes()),
        None => {
            out.extend_from_slice(&figures.window.to_le_bytes());
            out.extend_from_slice(&figures.average.to_le_bytes());
        }
    }
}

fn append_packet(out: &mut Vec<u8>, connection: u8, length: u16, tag: u32, stamp: Option<u32>) {
    out.extend_from_slice(stamp.map_or(b"PK", |_| b"PS"));
    out.push(connection);
    out.extend_from_slice(&length.to_le_bytes());
    out.extend_from_slice(&tag.to_le_bytes());
    if let Some(stamp) = stamp {
        out.extend_from_slice(&stamp.to_le_bytes());
    }
}

/// Whole figures as a `CN` has them behind its mark, and not a byte more.
pub fn whole_figures(bytes: &[u8]) -> Option<Figures> {
    let mut fields = Fields {
        bytes: &padded(bytes),
        taken: 0,
    };
    let figures = read_figures(&mut fields)?;
    (fields.taken == bytes.len()).then_some(figures)
}

fn read_figures(fields: &mut Fields) -> Option<Figures> {
    Some(Figures {
        level: fields.one()?,
        gap: fields.two()?,
        size: fields.two()?,
        window: fields.two()?,
        average: fields.two()?,
        allowance: None,
    })
}

fn read_stamped(fields: &mut Fields) -> Option<Figures> {
    let plain = Figures::plain(fields.one()?, fields.two()?, fields.two()?);
    Some(plain.by_stamps(fields.two()?))
}

#[inline(always)]
fn read_framing(fields: &mut Fields) -> Option<Framing> {
    Some(Framing {
        frame: fields.two()?,
        largest: fields.two()?,
        silence: fields.one()?,
    })
}

#[inline(always)]
fn read_share(fields: &mut Fields) -> Option<Share> {
    Some(Share {
        units: fields.two()?,
        places: fields.two()?,
    })
}

/// An `LK`, an `LE`, which has a setting, or an `LW`, which has windows besides, with n outside 1 to 8 is
/// malformed, with any silence, setting and windows it is not; bounds and windows past n are read as 0.
fn read_link(
    fields: &mut Fields,
    has_setting: bool,
    has_windows: bool,
) -> Option<Box<LinkFigures>> {
    let levels = fields.one()?;
    if !(1..=MOST_LEVELS).contains(&usize::from(levels)) {
        return None;
    }
    let largest = fields.two()?;
    let silence = fields.one()?;
    let setting = match has_setting {
        true => Some(fields.one()?),
        false => None,
    };
    let bounds = read_used(fields, levels)?;
    let windows = match has_windows {
        true => Some(read_used(fields, levels)?),
        false => None,
    };
    Some(Box::new(LinkFigures {
        levels,
        largest,
        silence,
        setting,
        bounds,
        windows,
    }))
}

/// A number for each level that a link has, 0 for others.
fn read_used(fields: &mut Fields, levels: u8) -> Option<[u16; MOST_LEVELS]> {
    let mut numbers = [0; MOST_LEVELS];
    for number in numbers.iter_mut().take(usize::from(levels)) {
        *number = fields.two()?;
    }
    Some(numbers)
}

/// Fewer bytes than the longest record has, and zeros behind them.
fn padded(bytes: &[u8]) -> [u8; LONGEST_RECORD] {
    let mut padded = [0; LONGEST_RECORD];
    for (to, from) in padded.iter_mut().zip(bytes) {
        *to = *from;
    }
    padded
}

/// The bytes that a record starts, and how many of them are taken; numbers are little-endian.
struct Fields<'a> {
    bytes: &'a [u8; LONGEST_RECORD],
    taken: usize,
}

impl Fields<'_> {
    #[inline(always)]
    fn take<const N: usize>(&mut self) -> Option<[u8; N]> {
        let taken = self.bytes.get(self.taken..self.taken + N)?;
        self.taken += N;
        taken.try_into().ok()
    }

    #[inline(always)]
    fn one(&mut self) -> Option<u8> {
        self.take::<1>().map(|[byte]| byte)
    }

    #[inline(always)]
    fn two(&mut self) -> Option<u16> {
        self.take().map(u16::from_le_bytes)
    }

    #[inline(always)]
    fn four(&mut self) -> Option<u32> {
        self.take().map(u32::from_le_bytes)
    }
}

/// An answer record.
#[derive(Clone, Copy, Debug, PartialEq, Eq)]
pub enum Answer {
    Link {
        verdict: u8,
    },
    Connection {
        verdict: u8,
        connection: u8,
        short: Option<Shortage>,
    },
    Closed {
        verdict: u8,
    },
    Packet {
        verdict: u8,
        eligibility: Tick,
    },
    Notice {
        verdict: u8,
        eligibility: Tick,
    },
    Departed(Departure),
    Ticks {
        verdict: u8,
        done: u16,
    },
    Malformed {
        offset: u32,
    },
}

impl Answer {
    /// The verdict that the answer carries; a departure carries none.
    pub fn verdict(&self) -> Option<u8> {
        match *self {
            Answer::Link { verdict }
            | Answer::Connection { verdict, .. }
            | Answer::Closed { verdict }
            | Answer::Packet { verdict, .. }
            | Answer::Notice { verdict, .. }
            | Answer::Ticks { verdict, .. } => Some(verdict),
            Answer::Departed(_) => None,
            Answer::Malformed { .. } => Some(Refusal::Malformed.number()),
        }
    }

    /// Writes the answer behind what is there already.
    #[inline]
    pub fn append_to(&self, out: &mut Vec<u8>) {
        match *self {
            Answer::Link { verdict } => out.extend_from_slice(&[b'L', b'A', verdict]),
            Answer::Connection {
                verdict,
                connection,
                short,
            } => {
                out.extend_from_slice(&[b'C', b'A', verdict, connection]);
                append_shortage(out, short);
            }
            Answer::Closed { verdict } => out.extend_from_slice(&[b'C', b'D', verdict]),
            Answer::Packet {
                verdict,
                eligibility,
            } => append_accepted(out, [b'P', b'A', verdict], eligibility),
            Answer::Notice {
                verdict,
                eligibility,
            } => append_accepted(out, [b'N', b'A', verdict], eligibility),
            Answer::Departed(departure) => append_departure(out, &departure),
            Answer::Ticks { verdict, done } => {
                out.extend_from_slice(&[b'T', b'A', verdict]);
                out.extend_from_slice(&done.to_le_bytes());
            }
            Answer::Malformed { offset } => {
                out.extend_from_slice(&[b'E', b'R', Refusal::Malformed.number()]);
                out.extend_from_slice(&offset.to_le_bytes());
            }
        }
    }
}

/// Level and units, both 0 where no level was short. Four bytes hold the units: on a sound
/// state they are at most what the newcomer adds, 32,768 packets of 2,048 units and 64 ticks.
fn append_shortage(out: &mut Vec<u8>, short: Option<Shortage>) {
    let (level, units) = short.map_or((0, 0), |short| (short.level, short.units));
    out.push(level);
    out.extend_from_slice(&units.to_le_bytes()[..4]);
}

fn append_departure(out: &mut Vec<u8>, departure: &Departure) {
    let mut bytes = [0; 19];
    bytes[..3].copy_from_slice(&[b'D', b'P', departure.connection]);
    bytes[3..7].copy_from_slice(&departure.tag.to_le_bytes());
    bytes[7..11].copy_from_slice(&four_bytes(departure.arrival));
    bytes[11..15].copy_from_slice(&four_bytes(departure.eligibility));
    bytes[15..].copy_from_slice(&four_bytes(departure.finish));
    out.extend_from_slice(&bytes);
}

/// An offer's answer: mark and verdict, then the eligibility.
fn append_accepted(out: &mut Vec<u8>, head: [u8; 3], eligibility: Tick) {
    let mut bytes = [0; 7];
    bytes[..3].copy_from_slice(&head);
    bytes[3..].copy_from_slice(&four_bytes(eligibility));
    out.extend_from_slice(&bytes);
}

/// No tick of a run needs more: an accepted offer is made before the clock's end, and its eligibility
/// lies less than 65,536 beyond, by a stamp as well, which is never later than the offer; while packets
/// stand by at most a reservation times a gap past the offer, which is less than a bound and a gap; on a
/// line with frames at most a frame past it.
fn four_bytes(tick: Tick) -> [u8; 4] {
    (tick as u32).to_le_bytes()
}
