//! The names that the six files take for granted.

pub use crate::errors::{Error, Result};
pub use crate::monstertruck_core::Tolerance;
pub use std::fmt::Debug;

/// The knot vector of a T-mesh, which is no part of this work.
#[derive(Debug)]
pub struct KnotVector;
