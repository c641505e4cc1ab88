//! Tests of `gen1_hits`, `gen1_odds`, `gen1_status`, `gen1_effects` and `gen1_multiturn`, through their public
//! functions, with both generators of `gen1_rolls` and a third one.
//!
//! - `script`: tests as text, which a few functions play
//! - `comparing`: the two sides, and what tests compare
//! - `damage`: damage and where it lands
//! - `hit_tests`: critical draws, hit tests, and what is known of an action
//! - `odds`: odds of a use of a move, and its chances to knock out
//! - `status`: picks, the gate, statuses, stages and residual damage
//! - `early_effects`: effects before any damage
//! - `late_effects`: stages and sleep
//! - `side_effects`: effects in addition to damage
//! - `lasting_moves`: moves that last several turns
//! - `own_damage`: Counter, fixed damage and one-hit moves
//! - `hits`: all hits of a move, what follows them, and what follows a miss
//! - `countdown`: the third generator, and worked draws of it

mod comparing;
mod countdown;
mod damage;
mod early_effects;
mod hit_tests;
mod hits;
mod lasting_moves;
mod late_effects;
mod odds;
mod own_damage;
mod script;
mod side_effects;
mod status;
