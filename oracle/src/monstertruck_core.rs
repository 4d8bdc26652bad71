//! Positions and the smallness test, as document 01 gives them.

use cgmath64::control_point::ControlPoint;
use std::ops::{Add, Div, Mul};

pub mod cgmath64 {
    pub mod control_point {
        use std::fmt::Debug;
        use std::ops::{Add, Div, Mul};

        /// What refining asks of a position.
        pub trait ControlPoint<S>:
            Copy + Debug + Add<Self::Diff, Output = Self> + Mul<S, Output = Self> + Div<S, Output = Self>
        {
            type Diff;
            fn origin() -> Self;
            fn to_vec(self) -> Self::Diff;
        }
    }
}

/// A position is three binary64 coordinates; sum, product and quotient by a number go coordinate by coordinate.
#[derive(Clone, Copy, Debug)]
pub struct Position {
    pub x: f64,
    pub y: f64,
    pub z: f64,
}

impl Add for Position {
    type Output = Position;
    fn add(self, other: Position) -> Position {
        Position { x: self.x + other.x, y: self.y + other.y, z: self.z + other.z }
    }
}

impl Mul<f64> for Position {
    type Output = Position;
    fn mul(self, number: f64) -> Position {
        Position { x: self.x * number, y: self.y * number, z: self.z * number }
    }
}

impl Div<f64> for Position {
    type Output = Position;
    fn div(self, number: f64) -> Position {
        Position { x: self.x / number, y: self.y / number, z: self.z / number }
    }
}

/// The difference of two positions is a position too.
impl ControlPoint<f64> for Position {
    type Diff = Position;
    fn origin() -> Position {
        Position { x: 0.0, y: 0.0, z: 0.0 }
    }
    fn to_vec(self) -> Position {
        self
    }
}

/// Small means from -t to t, ends included, t the binary64 nearest 0.000001.
pub trait Tolerance {
    fn so_small(&self) -> bool;
}

impl Tolerance for f64 {
    fn so_small(&self) -> bool {
        (-0.000001..=0.000001).contains(self)
    }
}
