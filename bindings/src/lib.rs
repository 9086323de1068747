//! The proved calls for Rust, for every program here that calls the library.
//!
//! `library` has the functions of include/citternblaze.h over slices, linked or
//! loaded: numbers go in and come out as in C. All else stands on the linked ones:
//! what they answer as enums and structs, in memory of its own. No other Rust calls a
//! function of the library.

mod answer;
mod bundle;
mod constants;
pub mod counts;
mod face;
pub mod flat;
mod grid;
pub mod host;
pub mod library;
pub mod points;
mod runs;

pub use answer::Refusal;
pub use bundle::{bundle_read, bundle_write, record, Kind, Record};
pub use constants::*;
pub use face::{face, How, Join, Why};
pub use grid::{Grid, Lists, Loop, LoopType, Meshed};
