//! The records of a mesh as rows with row numbers, and their lines (document 02, section 1).

use crate::monstertruck_core::Position;
use std::fmt::{Display, Formatter, Result};

/// A reference to a row.
#[derive(Clone, Copy)]
pub enum Row {
    At(usize),
    /// Written as the none mark.
    None,
    /// To something that is in no table of the mesh any more. Only meshes that are not closed have it.
    Lost,
}

pub struct PointRow {
    pub position: Position,
    pub valence: usize,
    pub start: Row,
    pub extraordinary: bool,
}

pub struct EdgeRow {
    pub origin: Row,
    pub dest: Row,
    pub left: Row,
    pub right: Row,
    /// LeftCw, LeftAcw, RightCw, RightAcw.
    pub neighbours: [Row; 4],
    pub interval: f64,
}

pub struct FaceRow {
    pub start: Row,
    pub corners: [Row; 4],
}

/// A whole mesh. It is written as the text `[mesh 3]`.
pub struct Listing {
    pub points: Vec<PointRow>,
    pub edges: Vec<EdgeRow>,
    pub faces: Vec<FaceRow>,
}

/// The bits of a number. The sign and payload of a NaN are not fixed by the language: all NaNs are written as one.
struct Bits(f64);

impl Display for Bits {
    fn fmt(&self, f: &mut Formatter<'_>) -> Result {
        let bits = if self.0.is_nan() { 0x7ff8_0000_0000_0000 } else { self.0.to_bits() };
        write!(f, "{bits:016x}")
    }
}

impl Display for Row {
    fn fmt(&self, f: &mut Formatter<'_>) -> Result {
        match self {
            Row::At(row) => write!(f, "{row}"),
            Row::None => write!(f, "4294967295"),
            Row::Lost => write!(f, "lost"),
        }
    }
}

impl Display for PointRow {
    fn fmt(&self, f: &mut Formatter<'_>) -> Result {
        let Position { x, y, z } = self.position;
        let mark = u8::from(self.extraordinary);
        write!(f, "[point {} {} {} {} {} {mark}]", Bits(x), Bits(y), Bits(z), self.valence, self.start)
    }
}

impl Display for EdgeRow {
    fn fmt(&self, f: &mut Formatter<'_>) -> Result {
        let [n0, n1, n2, n3] = self.neighbours;
        write!(f, "[edge {} {} {} {}", self.origin, self.dest, self.left, self.right)?;
        write!(f, " {n0} {n1} {n2} {n3} {}]", Bits(self.interval))
    }
}

impl Display for FaceRow {
    fn fmt(&self, f: &mut Formatter<'_>) -> Result {
        let [c0, c1, c2, c3] = self.corners;
        write!(f, "[face {} {c0} {c1} {c2} {c3}]", self.start)
    }
}

impl Display for Listing {
    fn fmt(&self, f: &mut Formatter<'_>) -> Result {
        writeln!(f, "[mesh 3]")?;
        self.points.iter().try_for_each(|point| writeln!(f, "{point}"))?;
        self.edges.iter().try_for_each(|edge| writeln!(f, "{edge}"))?;
        self.faces.iter().try_for_each(|face| writeln!(f, "{face}"))?;
        writeln!(f, "[end]")
    }
}
