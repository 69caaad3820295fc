//! The output line, whatever the discipline (section "One tick"; the silence by R-4, notices by R-1).

use crate::departure::Tick;

/// What the output line is doing. A silence with no tick to go is an idle line.
#[derive(Clone, Copy, Debug, PartialEq, Eq)]
pub(crate) enum Line<P> {
    Idle,
    Serving { sent: Sent<P>, units_to_go: u16 },
    Silent { ticks_to_go: u8 },
}

/// What is in service: a packet, by what its discipline knows of it, or the first notice.
#[derive(Clone, Copy, Debug, PartialEq, Eq)]
pub(crate) enum Sent<P> {
    FirstOf(P),
    FirstNotice,
}

impl<P: Copy> Line<P> {
    /// The line when so many ticks of silence are still to run.
    fn silent_for(ticks_to_go: u8) -> Line<P> {
        match ticks_to_go {
            0 => Line::Idle,
            _ => Line::Silent { ticks_to_go },
        }
    }

    /// How many ticks of silence are still to run; 0 while something is in service.
    pub fn silence_left(&self) -> u8 {
        match *self {
            Line::Silent { ticks_to_go } => ticks_to_go,
            _ => 0,
        }
    }

    /// Step 2: one unit goes; without one to go a tick of the silence runs. What departs with its last
    /// unit is given, and the whole silence is still to run.
    #[inline]
    pub fn send_or_be_silent(&mut self, silence: u8) -> Option<Sent<P>> {
        match *self {
            Line::Idle => None,
            Line::Serving { sent, units_to_go } => self.send_one_unit(sent, units_to_go, silence),
            Line::Silent { ticks_to_go } => {
                *self = Line::silent_for(ticks_to_go - 1);
                None
            }
        }
    }

    #[inline]
    fn send_one_unit(&mut self, sent: Sent<P>, units_to_go: u16, silence: u8) -> Option<Sent<P>> {
        if units_to_go > 1 {
            *self = Line::Serving {
                sent,
                units_to_go: units_to_go - 1,
            };
            return None;
        }
        *self = Line::silent_for(silence);
        Some(sent)
    }

    /// How many ticks from now on are quiet whatever waits: a unit goes that is not the last, or a
    /// silence runs; nothing of an idle line, which may take something.
    #[inline]
    pub fn quiet_ticks(&self) -> Option<Tick> {
        match *self {
            Line::Idle => None,
            Line::Serving { units_to_go, .. } => Some(Tick::from(units_to_go) - 1),
            Line::Silent { ticks_to_go } => Some(Tick::from(ticks_to_go)),
        }
    }

    /// Passes over so many quiet ticks.
    #[inline]
    pub fn pass_over(&mut self, passed: Tick) {
        match self {
            Line::Idle => {}
            Line::Serving { units_to_go, .. } => *units_to_go -= passed as u16,
            Line::Silent { ticks_to_go } => {
                *self = Line::silent_for(*ticks_to_go - passed as u8);
            }
        }
    }

    /// Whether a silence is at most the link's, and what is in service has 1 to its length units to go;
    /// `length_of` gives that length, or nothing where it may not be in service.
    pub fn is_sound(&self, silence: u8, length_of: impl Fn(Sent<P>) -> Option<u16>) -> bool {
        match *self {
            Line::Idle => true,
            Line::Silent { ticks_to_go } => (1..=silence).contains(&ticks_to_go),
            Line::Serving { sent, units_to_go } => {
                let length = length_of(sent);
                length.map_or(false, |length| (1..=length).contains(&units_to_go))
            }
        }
    }
}
