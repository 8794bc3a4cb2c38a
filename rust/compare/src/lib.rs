//! The engine against the scope (docs/SCOPE.md), written once more as plain Rust, and against crate openjp2's own packet functions.
#[cfg(openjp2)]
pub mod answers;
mod follow;
pub mod gathered;
mod inputs;
pub mod model;
pub mod moves;
#[cfg(openjp2)]
pub mod openjp2;
#[cfg(openjpeg)]
pub mod openjpeg;
pub mod pair;
pub mod random;
pub mod trials;
