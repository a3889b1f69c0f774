//! Damaged windows of well-formed telegrams, given to the window calls. A file a
//! kind of damage: bursts (document 02, No. 8), scattered changes, and slips. What
//! is proved of them is in docs/DAMAGE.md.

pub mod beyond;
pub mod bursts;
pub mod report;
pub mod scattered;
pub mod slips;
pub mod stretches;
pub mod telegrams;
pub mod trial;
