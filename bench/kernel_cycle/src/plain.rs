//! The kernel in plain Rust. Two packages have this source: with the feature `inlined`, the functions on each call's way are
//! inlined as those of the proved kernel are.

// Once for each function that is measured, so that the compiler may inline what has one caller.
#[path = "rounds.rs"]
mod dropped;
#[path = "rounds.rs"]
mod kept;
#[path = "revokes.rs"]
mod revokes;

pub use dropped::{run, STEPS};
pub use kept::run_kept;
pub use revokes::{revoke_run, ALL_SLOTS};
