//! The four tables of numbers that a caller in C lends: the line, the connections, the places, the notices (include/mtredovim.h;
//! docs/CALLERS.md, "What the caller keeps"; with frames docs/RULES.md, section 13). The state that they stand
//! for, and what is written of a state.

use crate::departure::Tick;
use crate::frames::{Frames, Framing, Row, Share};
use crate::hub::Hub;
use crate::level_test::loads;
use crate::line::{Line, Sent};
use crate::link::{Connection, Figures, Link, LinkFigures, MOST_CONNECTIONS, MOST_LEVELS};
use crate::notices::{Notice, Notices, NOTICE_NUMBER};
use crate::owners::{Owner, Owners};
use crate::queues::{Held, Queues, Started};
use crate::recent::Recent;
use crate::replay::Job;

/// The tables by their places in `Tables`.
pub const LINE: usize = 0;
pub const CONNECTIONS: usize = 1;
pub const PLACES: usize = 2;
pub const NOTICES: usize = 3;

/// Their lengths.
pub const LENGTHS: [usize; 4] = [31, 5_002, 10_240, 320];

/// A row of a connection has 25 numbers, the 16 eligibilities last; one of a share two; one of a packet or
/// a notice five.
const OWNER_WIDTH: usize = 25;
const SHARE_WIDTH: usize = 2;
const PACKET_WIDTH: usize = 5;

/// Where the numbers of the line stand: those of levels, its link first, and behind them those of frames.
const BOUNDS: usize = 4;
const WINDOWS: usize = BOUNDS + MOST_LEVELS;
const OF_LEVELS: usize = WINDOWS + MOST_LEVELS;
const FRAMING: usize = OF_LEVELS + 4;
const OF_FRAMES: usize = FRAMING + 3;

/// The kinds of a connection: by its gap, by stamps.
const BY_GAP: u32 = 0;
const BY_STAMPS: u32 = 1;

/// Tables of any lengths and any content.
#[derive(Clone, Debug, PartialEq, Eq)]
pub struct Tables {
    pub numbers: [Vec<u32>; 4],
}

/// A clock, who is in service, its units to go, the silence to run.
type LineNumbers = [u32; 4];

impl Tables {
    /// All zero: those of a fresh line.
    pub fn fresh() -> Tables {
        Tables {
            numbers: LENGTHS.map(|length| vec![0; length]),
        }
    }

    /// The line that they stand for, or nothing where they are not sound: everything that no row in use
    /// holds is zero, which is so if they are what is written of that line.
    pub fn line(&self) -> Option<Job> {
        if (0..LENGTHS.len()).any(|table| self.numbers[table].len() != LENGTHS[table]) {
            return None;
        }
        let job = match self.numbers[LINE][FRAMING] {
            0 => Job::of(self.hub()?, Frames::new()),
            _ => Job::of(Hub::new(), self.frames()?),
        };
        (job.is_sound() && Tables::of(&job) == *self).then_some(job)
    }

    /// What is written of a line.
    pub fn of(job: &Job) -> Tables {
        let mut tables = Tables::fresh();
        if let Ok(link) = job.frames().link() {
            tables.put_frames(job.frames(), &link);
        } else if let Ok(link) = job.hub().link() {
            tables.put_hub(job.hub(), link);
        }
        tables
    }

    fn line_numbers(&self, at: usize) -> LineNumbers {
        let numbers = &self.numbers[LINE];
        [0, 1, 2, 3].map(|k| numbers[at + k])
    }

    /// The rows of a table that are in use: those before the first whose second number is 0.
    fn rows_in_use(&self, table: usize, width: usize) -> impl Iterator<Item = &[u32]> {
        let rows = self.numbers[table].chunks_exact(width);
        rows.take_while(|row| row[1] != 0)
    }

    /// The first notice or what the discipline has is in service, or a silence runs, or nothing.
    fn service<P: Copy>(&self, at: usize, packet: impl FnOnce(u8) -> Option<P>) -> Option<Line<P>> {
        let [_, serving, to_go, silent] = self.line_numbers(at);
        let ticks_to_go = u8::try_from(silent).ok()?;
        let number = u8::try_from(serving).ok()?;
        Some(match (to_go, ticks_to_go) {
            (0, 0) => Line::Idle,
            (0, _) => Line::Silent { ticks_to_go },
            _ => Line::Serving {
                units_to_go: u16::try_from(to_go).ok()?,
                sent: match number {
                    NOTICE_NUMBER => Sent::FirstNotice,
                    _ => Sent::FirstOf(packet(number)?),
                },
            },
        })
    }

    fn notices(&self) -> Option<Notices> {
        let mut notices = Notices::default();
        for row in self.rows_in_use(NOTICES, PACKET_WIDTH) {
            notices.add(Notice {
                length: u16::try_from(row[1]).ok()?,
                tag: row[2],
                arrival: Tick::from(row[3]),
            });
        }
        Some(notices)
    }

    // ---- the discipline of levels

    /// A hub; without a link it is a new one.
    fn hub(&self) -> Option<Hub> {
        if self.numbers[LINE][0] == 0 {
            return Some(Hub::new());
        }
        let link = self.link()?;
        let owners = self.owners(&link)?;
        let mut queues = self.queues(&link, &owners)?;
        let first = |number: u8| {
            Some(Started {
                connection: number,
                level: owners.standing_at(number)?.connection.level(),
                length: queues.first_of(number)?.length,
            })
        };
        let line = self.service(OF_LEVELS, first)?;
        if let Line::Serving {
            sent: Sent::FirstOf(started),
            ..
        } = line
        {
            queues.take_into_service(started.connection);
        }
        Some(Hub {
            link: Some(link),
            owners,
            queues,
            notices: self.notices()?,
            line,
            clock: Tick::from(self.numbers[LINE][OF_LEVELS]),
        })
    }

    fn link(&self) -> Option<Link> {
        let numbers = &self.numbers[LINE];
        LinkFigures {
            levels: u8::try_from(numbers[0]).ok()?,
            largest: u16::try_from(numbers[1]).ok()?,
            silence: u8::try_from(numbers[2]).ok()?,
            setting: Some(u8::try_from(numbers[3]).ok()?),
            bounds: each_level(&numbers[BOUNDS..])?,
            windows: Some(each_level(&numbers[WINDOWS..])?),
        }
        .link()
    }

    /// Each number free or with its owner: in use are the rows whose level is not 0.
    fn owners(&self, link: &Link) -> Option<Owners> {
        let rows = self.numbers[CONNECTIONS].chunks_exact(OWNER_WIDTH);
        let read = |row: &[u32]| match row[0] {
            0 => Some(None),
            _ => Some(Some(owner(link, row)?)),
        };
        let owners: Option<Vec<Option<Owner>>> = rows.take(MOST_CONNECTIONS).map(read).collect();
        Some(Owners::laid_out(owners?))
    }

    fn queues(&self, link: &Link, owners: &Owners) -> Option<Queues> {
        let mut queues = Queues::default();
        (0..MOST_CONNECTIONS).for_each(|number| queues.make_room_for(number as u8));
        for row in self.rows_in_use(PLACES, PACKET_WIDTH) {
            let number = u8::try_from(row[0]).ok()?;
            let connection = &owners.standing_at(number)?.connection;
            let times = (Tick::from(row[3]), Tick::from(row[4]));
            let length = u16::try_from(row[1]).ok()?;
            queues.offer(number, connection.level(), length, row[2], times);
            if link.stands_by() && connection.allowance().is_none() {
                queues.stand_by(number, connection.level());
            }
        }
        Some(queues)
    }

    fn put_hub(&mut self, hub: &Hub, link: &Link) {
        let mut numbers = vec![
            u32::from(link.levels()),
            u32::from(link.largest()),
            u32::from(link.silence()),
            u32::from(link.stands_by()),
        ];
        numbers.resize(OF_LEVELS, 0);
        for (row, level) in (1..=link.levels()).enumerate() {
            numbers[BOUNDS + row] = u32::from(link.bound(level));
            if link.has_windows() {
                numbers[WINDOWS + row] = u32::from(link.span(level));
            }
        }
        numbers.extend(line_numbers(hub.clock, &hub.line, |one| one.connection));
        self.numbers[LINE][..FRAMING].copy_from_slice(&numbers);
        self.put_owners(&hub.owners);
        let rows = hub.queues.in_order();
        let packet = |&(number, held): &(u8, Held)| {
            [
                u32::from(number),
                u32::from(held.length),
                held.tag,
                held.arrival,
                held.eligibility,
            ]
        };
        self.put_rows(PLACES, rows.iter().map(packet));
        self.put_notices(&hub.notices);
    }

    /// The rows, and behind them how many there are up to the last owner's and one more than the earliest
    /// last eligibility of those that are closed.
    fn put_owners(&mut self, owners: &Owners) {
        let table = &mut self.numbers[CONNECTIONS];
        let mut used = 0;
        let mut earliest: Option<Tick> = None;
        for (number, owner) in owners.all() {
            let at = OWNER_WIDTH * usize::from(number);
            put_owner(&mut table[at..at + OWNER_WIDTH], owner);
            used = u32::from(number) + 1;
            if let (Some(_), Some(last)) = (owner.charge_end(), owner.recent.back(1)) {
                earliest = Some(earliest.map_or(last, |one| one.min(last)));
            }
        }
        let behind = OWNER_WIDTH * MOST_CONNECTIONS;
        table[behind] = used;
        table[behind + 1] = earliest.map_or(0, |last| last as u32 + 1);
    }

    // ---- the discipline of frames

    fn frames(&self) -> Option<Frames> {
        let numbers = &self.numbers[LINE];
        let link = Framing {
            frame: u16::try_from(numbers[FRAMING]).ok()?,
            largest: u16::try_from(numbers[FRAMING + 1]).ok()?,
            silence: u8::try_from(numbers[FRAMING + 2]).ok()?,
        };
        let shares = &self.numbers[CONNECTIONS][..SHARE_WIDTH * MOST_CONNECTIONS];
        let mut frames = Frames::laid_out(link, Tick::from(numbers[OF_FRAMES]));
        for row in shares
            .chunks_exact(SHARE_WIDTH)
            .take_while(|row| row[1] != 0)
        {
            frames.join(Share {
                units: u16::try_from(row[0]).ok()?,
                places: u16::try_from(row[1]).ok()?,
            });
        }
        for row in self.rows_in_use(PLACES, PACKET_WIDTH) {
            let number = u8::try_from(row[0]).ok()?;
            let length = u16::try_from(row[1]).ok()?;
            frames.lay_out(
                number,
                length,
                row[2],
                Tick::from(row[3]),
                Tick::from(row[4]),
            )?;
        }
        frames.notices = self.notices()?;
        frames.line = self.service(OF_FRAMES, |_| Some(()))?;
        Some(frames)
    }

    fn put_frames(&mut self, frames: &Frames, link: &Framing) {
        let first = frames.rows.front().map_or(0, |row| row.connection);
        let mut numbers = vec![
            u32::from(link.frame),
            u32::from(link.largest),
            u32::from(link.silence),
        ];
        numbers.extend(line_numbers(frames.clock(), &frames.line, |_| first));
        self.numbers[LINE][FRAMING..].copy_from_slice(&numbers);
        for (number, share) in frames.shares().enumerate() {
            let at = SHARE_WIDTH * number;
            self.numbers[CONNECTIONS][at] = u32::from(share.units);
            self.numbers[CONNECTIONS][at + 1] = u32::from(share.places);
        }
        let packet = |row: &Row| {
            [
                u32::from(row.connection),
                u32::from(row.length),
                row.tag,
                row.arrival as u32,
                row.eligibility as u32,
            ]
        };
        self.put_rows(PLACES, frames.rows.iter().map(packet));
        self.put_notices(&frames.notices);
    }

    // ---- both

    fn put_notices(&mut self, notices: &Notices) {
        let packet = |notice: &Notice| {
            let arrival = notice.arrival as u32;
            [
                u32::from(NOTICE_NUMBER),
                u32::from(notice.length),
                notice.tag,
                arrival,
                arrival,
            ]
        };
        self.put_rows(NOTICES, notices.all().map(packet));
    }

    fn put_rows(&mut self, table: usize, rows: impl Iterator<Item = [u32; PACKET_WIDTH]>) {
        let places = self.numbers[table].chunks_exact_mut(PACKET_WIDTH);
        places
            .zip(rows)
            .for_each(|(place, row)| place.copy_from_slice(&row));
    }
}

/// A number for each level.
fn each_level(numbers: &[u32]) -> Option<[u16; MOST_LEVELS]> {
    let mut all = [0; MOST_LEVELS];
    for (one, &number) in all.iter_mut().zip(numbers) {
        *one = u16::try_from(number).ok()?;
    }
    Some(all)
}

/// The clock and the line; where nothing is in service its number is 0.
fn line_numbers<P: Copy>(clock: Tick, line: &Line<P>, number: impl FnOnce(P) -> u8) -> LineNumbers {
    let (serving, to_go, silent) = match *line {
        Line::Idle => (0, 0, 0),
        Line::Silent { ticks_to_go } => (0, 0, ticks_to_go),
        Line::Serving { sent, units_to_go } => match sent {
            Sent::FirstNotice => (NOTICE_NUMBER, units_to_go, 0),
            Sent::FirstOf(packet) => (number(packet), units_to_go, 0),
        },
    };
    [
        clock as u32,
        u32::from(serving),
        u32::from(to_go),
        u32::from(silent),
    ]
}

/// A row of a connection: level, size, gap, window, average gap, kind, allowance, the mark of a closed
/// one, how many eligibilities are remembered, and these, newest first.
fn owner(link: &Link, row: &[u32]) -> Option<Owner> {
    let allowance = match row[5] {
        BY_GAP => None,
        BY_STAMPS => Some(u16::try_from(row[6]).ok()?),
        _ => return None,
    };
    let figures = Figures {
        level: u8::try_from(row[0]).ok()?,
        size: u16::try_from(row[1]).ok()?,
        gap: u16::try_from(row[2]).ok()?,
        window: u16::try_from(row[3]).ok()?,
        average: u16::try_from(row[4]).ok()?,
        allowance,
    };
    let connection = Connection::new(link, figures).ok()?;
    let recent = Recent::of(row[9..].get(..row[8] as usize)?);
    let charge_end = match row[7] {
        0 => None,
        1 => Some(recent.back(1)? + Tick::from(link.charge_time())),
        _ => return None,
    };
    let reservation = connection.reservation(link);
    let loads = loads(link, &connection);
    Some(Owner::laid_out(
        connection,
        reservation,
        recent,
        loads,
        charge_end,
    ))
}

fn put_owner(row: &mut [u32], owner: &Owner) {
    let connection = &owner.connection;
    let (window, packets) = connection
        .average()
        .map_or((0, 1), |one| (one.window(), one.packets()));
    let figures = [
        u32::from(connection.level()),
        u32::from(connection.size()),
        u32::from(connection.gap()),
        u32::from(window),
        u32::from(window / packets),
        u32::from(connection.allowance().is_some()),
        u32::from(connection.allowance().unwrap_or(0)),
        u32::from(owner.charge_end().is_some()),
        owner.recent.count() as u32,
    ];
    row[..figures.len()].copy_from_slice(&figures);
    for back in 1..=owner.recent.count() {
        let last = owner.recent.back(back).unwrap_or(0);
        row[figures.len() + back - 1] = last as u32;
    }
}
