//! Kinds with traffic on a link that was set up well.

use super::script::Script;
use crate::departure::Tick;
use crate::link::{
    Connection, Figures, Link, HIGHEST_BOUND, MOST_CONNECTIONS, MOST_LEVELS, MOST_PER_WINDOW,
    MOST_UNITS,
};
use crate::recent::Recent;

/// A link of some levels with bounds that leave room for connections and their silences.
pub fn modest_link(script: &mut Script) {
    let largest = script.random.between16(1, 24);
    let levels = script.random.between(1, MOST_LEVELS as u64);
    let silence = script.some_silence();
    let cost = largest + u16::from(silence);
    let mut bound = cost + script.random.between16(1, 6 * cost);
    let mut bounds = Vec::new();
    for _ in 0..levels {
        bounds.push(bound);
        bound += script.random.between16(1, 60 + 4 * u16::from(silence));
    }
    script.link(largest, silence, &bounds);
}

/// Tries to admit connections of gaps about as long as their bounds.
pub fn admit_some(script: &mut Script, wanted: usize) {
    for _ in 0..4 * wanted {
        if script.hub().standing().count() >= wanted {
            return;
        }
        admit_one(script);
    }
}

/// Tries to admit one connection.
pub fn admit_one(script: &mut Script) -> u8 {
    match script.link_set() {
        Some(link) => {
            let line = some_line(script, &link);
            script.admit_with(line)
        }
        _ => script.admit(1, 1, 1),
    }
}

/// Most often a plain line, else a camera or a line that has an average besides.
pub fn some_line(script: &mut Script, link: &Link) -> Figures {
    match script.random.between(0, 5) {
        0 => camera(script, link),
        1 => {
            let line = plain_line(script, link);
            let (window, average) = script.some_average(line.gap);
            line.with_average(window, average)
        }
        _ => plain_line(script, link),
    }
}

fn plain_line(script: &mut Script, link: &Link) -> Figures {
    let level = script.random.between16(1, u16::from(link.levels())) as u8;
    let bound = link.bound(level);
    let gap = match script.random.between(0, 3) {
        0 => script.random.between16(bound / 4 + 1, bound),
        1 => bound,
        2 => script
            .random
            .between16(bound / 2 + 1, bound.saturating_mul(3)),
        _ => script.random.between16(bound, bound.saturating_mul(2)),
    };
    let size = some_size(script, link);
    Figures::plain(level, gap, size)
}

fn some_size(script: &mut Script, link: &Link) -> u16 {
    match script.random.between(0, 2) {
        0 => 1,
        1 => script.random.between16(1, link.largest()),
        _ => script.random.between16(1, link.largest() / 3 + 1),
    }
}

/// A camera: a gap far below its bound, few packets to a window of about that length, so that
/// its average lets in what the gap alone would not.
pub fn camera(script: &mut Script, link: &Link) -> Figures {
    let level = script.random.between16(1, u16::from(link.levels())) as u8;
    let bound = link.bound(level);
    let any = script.random.between16(1, MOST_PER_WINDOW);
    let packets = script
        .random
        .pick([1, 2, 2, 3, 4, any, any, MOST_PER_WINDOW]);
    let longest = u16::MAX / packets;
    let gap = script.random.between16(1, longest.min(bound / 4 + 1));
    let least = gap.max(bound / packets);
    let average = script
        .random
        .between16(least, longest.min(least.saturating_mul(2)));
    let size = some_size(script, link);
    Figures::plain(level, gap, size).with_average(packets * average, average)
}

/// A connection that keeps its word: its gap and, with an average, n packets to a window.
struct Keeper {
    number: u8,
    connection: Connection,
    due: Tick,
    offered: Recent,
}

impl Keeper {
    /// Offers now, and is due again at the earliest that its word allows or later.
    fn offer(&mut self, script: &mut Script) {
        script.offer_good(self.number, &self.connection);
        let now = script.clock();
        self.offered.remember(now);
        let gap = Tick::from(self.connection.gap());
        self.due = now + gap;
        let mut apart = gap;
        if let Some(average) = self.connection.average() {
            let window = Tick::from(average.window());
            let nth = self.offered.back(usize::from(average.packets()));
            self.due = nth.map_or(self.due, |nth| self.due.max(nth + window));
            apart = script.random.pick([gap, gap, window]);
        }
        if script.random.once_in(2) {
            self.due += script.random.between(0, apart);
        }
    }
}

/// The connections that keep their word.
pub struct Keepers {
    all: Vec<Keeper>,
}

impl Keepers {
    /// All connections but one start within their first gap.
    pub fn all_but(script: &mut Script, left_out: Option<u8>) -> Keepers {
        let mut lines = script.standing();
        lines.retain(|(number, _)| left_out != Some(*number));
        Keepers::of(script, lines)
    }

    /// These connections do.
    pub fn of(script: &mut Script, lines: Vec<(u8, Connection)>) -> Keepers {
        let mut all = Vec::new();
        for (number, connection) in lines {
            let wait = script.random.between(0, u64::from(connection.gap()));
            all.push(Keeper {
                number,
                connection,
                due: script.clock() + wait,
                offered: Recent::default(),
            });
        }
        Keepers { all }
    }

    /// When the next of them offers.
    pub fn earliest(&self) -> Option<Tick> {
        self.all.iter().map(|keeper| keeper.due).min()
    }

    /// Offers whatever is due now.
    pub fn offer_due(&mut self, script: &mut Script) {
        for keeper in &mut self.all {
            if keeper.due <= script.clock() {
                keeper.offer(script);
            }
        }
    }
}

/// A few connections that keep their word; the line is idle most of the time.
pub fn quiet(script: &mut Script, size: usize) {
    modest_link(script);
    let wanted = script.random.between(1, 6) as usize;
    admit_some(script, wanted);
    let mut keepers = Keepers::all_but(script, None);
    for _ in 0..size {
        if let Some(moment) = keepers.earliest() {
            script.ticks_until(moment);
        }
        keepers.offer_due(script);
    }
    script.drain();
}

/// Offers far beyond every gap, few ticks between them.
pub fn flooded(script: &mut Script, size: usize) {
    modest_link(script);
    let wanted = script.random.between(2, 20) as usize;
    admit_some(script, wanted);
    flood(script, size);
    script.drain();
}

/// The traffic of a flood: bursts of offers and few ticks between them.
pub fn flood(script: &mut Script, bursts: usize) {
    for _ in 0..bursts {
        for _ in 0..script.random.between(1, 8) {
            script.offer_on_any();
        }
        let ticks = script.random.pick([0, 1, 1, 2, 5, 9, 17, 40]);
        script.tick(ticks);
    }
}

/// One wild connection offers all the time beside others that keep their word.
pub fn wild(script: &mut Script, size: usize) {
    modest_link(script);
    let wanted = script.random.between(2, 10) as usize;
    admit_some(script, wanted);
    if let Some((wild, terms)) = script.any_connection() {
        wild_among_keepers(script, wild, &terms, size);
        script.drain();
    }
}

/// Offers of a wild connection, few ticks between them, and of the others when they are due.
pub fn wild_among_keepers(script: &mut Script, wild: u8, terms: &Connection, bursts: usize) {
    let mut keepers = Keepers::all_but(script, Some(wild));
    for _ in 0..bursts {
        for _ in 0..script.random.between(1, 3) {
            script.offer_good(wild, terms);
        }
        let portion = script.clock() + script.random.between(1, 30);
        script.ticks_until(keepers.earliest().unwrap_or(portion).min(portion));
        keepers.offer_due(script);
    }
}

/// Connections are admitted or refused while packets are held and in service.
pub fn midrun(script: &mut Script, size: usize) {
    modest_link(script);
    for _ in 0..size {
        match script.random.between(0, 9) {
            0 | 1 => {
                admit_one(script);
            }
            2..=6 => script.offer_on_any(),
            7 => offer_on_the_next(script),
            _ => {
                let ticks = script.random.pick([1, 2, 3, 8, 30, 100]);
                script.tick(ticks);
            }
        }
    }
    script.drain();
}

/// An offer on the number that the next accepted connection will have.
fn offer_on_the_next(script: &mut Script) {
    let next = script.hub().next_number();
    script.offer(next.unwrap_or(MOST_CONNECTIONS as u8), 1);
}

/// Equal gaps and levels, small packets: the order is decided by eligibility and by row.
pub fn ties(script: &mut Script, size: usize) {
    let silence = script.some_silence();
    let least = 1 + u16::from(silence);
    let gap = least * script.random.between16(8, 40);
    let top = least * script.random.between16(60, 120);
    let levels = script.random.between16(1, 3);
    let bounds: Vec<u16> = (0..levels).map(|level| top + level).collect();
    script.link(3, silence, &bounds);
    for _ in 0..12 {
        let level = script.random.between16(1, levels) as u8;
        let size = script.random.between16(1, 3);
        script.admit(level, gap, size);
    }
    for _ in 0..size {
        for _ in 0..script.random.between(1, 12) {
            script.offer_on_any();
        }
        let ticks = script.random.pick([0, 1, 2, gap, gap, gap - 1, gap / 2]);
        script.tick(ticks);
    }
    script.drain();
}

/// Where all places are used: more silence than this behind each packet would not fit into the
/// highest bound.
pub const MOST_SILENT: u8 = 13;

/// Reservations of together 2,048, all of them used: the places are full.
pub fn reserve(script: &mut Script, size: usize) {
    let levels = script.random.between16(1, 4);
    let silence = script.some_silence().min(MOST_SILENT);
    let least = 1 + u16::from(silence);
    let bound_of = |level| least * (2_100 + 50 * level);
    let bounds: Vec<u16> = (1..=levels).map(bound_of).collect();
    script.link(2, silence, &bounds);
    for _ in 0..script.random.pick([40, 120, 160]) {
        let level = script.random.between16(1, levels) as u8;
        let gap = least * script.random.between16(20, 400);
        script.admit(level, gap, 1);
    }
    fill_reservations(script);
    for _ in 0..size {
        fill_places(script);
        let ticks = script.random.pick([1, 7, 30, 300]);
        script.tick(ticks);
    }
    script.drain();
}

/// Tries ever smaller reservations until no place is left.
fn fill_reservations(script: &mut Script) {
    let link = match script.link_set() {
        Some(link) => link,
        _ => return,
    };
    let mut packets = 1_024;
    while packets > 0 {
        let level = script.random.between16(1, u16::from(link.levels())) as u8;
        if script.admit(level, link.bound(level) / packets + 1, 1) != 0 {
            packets /= 2;
        }
    }
}

/// Offers on every connection until its reservation is full.
pub fn fill_places(script: &mut Script) {
    let link = match script.link_set() {
        Some(link) => link,
        _ => return,
    };
    for (number, connection) in script.standing() {
        let room = connection.reservation(&link) as usize;
        let held = script.hub().held_by(number);
        let extra = usize::from(script.random.once_in(10));
        for _ in 0..room.saturating_sub(held) + extra {
            script.offer(number, 1);
        }
    }
}

/// Packets of up to 2,048 units, bounds up to 32,768.
pub fn big_packets(script: &mut Script, size: usize) {
    let largest = script.random.pick([MOST_UNITS, MOST_UNITS - 1, 1_500, 700]);
    let levels = script.random.between(1, MOST_LEVELS as u64);
    let step = (HIGHEST_BOUND - 2 * largest) / levels as u16;
    let mut bounds: Vec<u16> = (1..=levels as u16)
        .map(|level| 2 * largest + level * step)
        .collect();
    if let Some(last) = bounds.last_mut() {
        *last = HIGHEST_BOUND;
    }
    let silence = script.some_silence();
    script.link(largest, silence, &bounds);
    for _ in 0..12 {
        let level = script.random.between16(1, levels as u16) as u8;
        let gap = script.random.between16(3_000, u16::MAX);
        let size = script.random.between16(largest / 2, largest);
        script.admit(level, gap, size);
    }
    for _ in 0..size {
        for _ in 0..script.random.between(1, 4) {
            script.offer_on_any();
        }
        let ticks = script
            .random
            .pick([1, 100, 699, 1_500, 2_047, 2_048, 2_049, 9_000]);
        script.tick(ticks);
    }
    script.drain();
}
