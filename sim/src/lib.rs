//! A second opinion on the packet hub: the trace job of document 01 in ordinary Rust.
//!
//! Nothing here is shared with the hub's own library. Every rule names the section of
//! document 01 that it follows, or the request of document 02 (docs/RULES.md). The simulator tests its own state for soundness
//! only where it is asked to (`sound`): a trace starts from an empty state, so verdict 1 cannot occur.

pub mod calls;
pub mod departure;
pub mod firmware;
pub mod frames;
pub mod hub;
pub mod kinds;
pub mod level_test;
mod line;
pub mod link;
pub mod notices;
pub mod owners;
pub mod queues;
pub mod random;
pub mod recent;
pub mod record;
pub mod replay;
pub mod sound;
mod sound_frames;
pub mod stats;
pub mod tables;
pub mod verdict;
