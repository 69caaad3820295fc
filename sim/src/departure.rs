//! Time, and the packets that have left (section "One tick").

/// A moment in whole ticks.
pub type Tick = u64;

/// A packet whose last unit has gone.
#[derive(Clone, Copy, Debug, PartialEq, Eq)]
pub struct Departure {
    pub connection: u8,
    pub tag: u32,
    pub arrival: Tick,
    pub eligibility: Tick,
    pub finish: Tick,
}
