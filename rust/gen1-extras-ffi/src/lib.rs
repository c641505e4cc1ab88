//! The searches of gen1-search behind three functions, and the protocol of gen1-showdown behind one, which the packages for Python and
//! JavaScript call; and for Python its league behind two.
//!
//! A result is a JSON text, so its layout is stated nowhere else. `gen1_player`, `gen1_battle` and `gen1_team` are those of include/gen1.h.
#![cfg_attr(all(target_family = "wasm", not(feature = "showdown")), no_std)]
#![warn(missing_docs)]

extern crate alloc;

#[cfg(feature = "search")]
mod forms;
#[cfg(feature = "search")]
mod search;
#[cfg(feature = "showdown")]
mod showdown;
#[cfg(feature = "search")]
mod texts;
#[cfg(all(target_family = "wasm", not(feature = "showdown")))]
mod wasm;

#[cfg(feature = "search")]
pub use search::{SolveForm, ThinkForm, gen1_search_nodes, gen1_search_solve, gen1_search_think};
#[cfg(feature = "showdown")]
pub use showdown::{gen1_showdown_call, gen1_showdown_free};
