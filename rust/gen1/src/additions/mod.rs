//! Traits that Rust users expect of the engine's types, in addition to the generated sources: text, order, hash and serde's data. These
//! convert values, and contain no rule of battle (docs/PLAIN.md, "What is added").

mod battles;
mod chances;
mod host;
mod machine;
mod player;
mod stats;
mod tables;

pub use chances::Weights;
pub use machine::UnknownText;
pub use player::AsleepBy;
pub use tables::{OutOfRange, UnknownName};
pub(crate) use tables::{as_number, ordered_by_key};
