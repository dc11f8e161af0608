//! Puts the same questions to two sides, rule by rule.

mod duel;
mod inputs;
mod plan;
pub mod sample;
mod tally;
mod tell;

pub use duel::{Difference, Duel};
pub use inputs::Rule;
pub use plan::{Plan, Sides};
pub use tell::Shortened;
