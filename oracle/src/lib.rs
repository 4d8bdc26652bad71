//! The six Rust files of T-NURCC, compiled unchanged and once more with some places altered, with what they lean on and
//! what reads their records. The program `oracle` and the runs of `station/` are made of it.

pub mod answers;
pub mod records;
pub mod text;

// What the six files lean on and is not among them.
pub mod errors;
pub mod monstertruck_core;
pub mod parking_lot;
mod prelude;

// The six files, with stand-ins for the other modules of that folder.
#[allow(dead_code, unused_imports)]
pub mod t_spline;

// The same with the places altered that alterations/ON names.
#[allow(dead_code, unused_imports, unused_variables, unused_assignments)]
pub mod altered;
