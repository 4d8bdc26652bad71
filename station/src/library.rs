//! The static library, and tables to lend to it.

use crate::lavyngo::raw::*;
use crate::lists::Lists;

pub use crate::lavyngo::{Counts, NONE, Tables};
pub use oracle::answers::Edition;

impl Counts {
    pub fn records(self) -> u64 {
        (self.points + self.edges + self.faces) as u64
    }
}

/// A word that no table would hold by chance, for each place.
fn pattern_word(place: usize) -> u32 {
    0xa5c3_0000 ^ (place as u32).wrapping_mul(0x0001_0021)
}

/// The same for numbers: finite, and none that a mesh has.
fn pattern_number(place: usize) -> f64 {
    f64::from_bits(0x3a5c_96e1_0000_0000 ^ place as u64)
}

fn same_numbers(a: &[f64], b: &[f64]) -> bool {
    a.len() == b.len() && a.iter().zip(b).all(|(x, y)| x.to_bits() == y.to_bits())
}

fn all_zero(words: &[u32], numbers: &[f64]) -> bool {
    words.iter().all(|&word| word == 0) && numbers.iter().all(|number| number.to_bits() == 0)
}

impl Tables {
    /// Tables with the rows of these counts, and so many elements more in each, all filled with the pattern.
    pub fn patterned(counts: Counts, spare: usize) -> Self {
        let words = |length: usize| (0..length + spare).map(pattern_word).collect();
        let numbers = |length: usize| (0..length + spare).map(pattern_number).collect();
        Tables {
            positions: numbers(3 * counts.points),
            points: words(3 * counts.points),
            edges: words(8 * counts.edges),
            intervals: numbers(counts.edges),
            faces: words(5 * counts.faces),
        }
    }

    /// The rows that the tables hold whole.
    pub fn room(&self) -> Counts {
        Counts {
            points: (self.positions.len() / 3).min(self.points.len() / 3),
            edges: (self.edges.len() / 8).min(self.intervals.len()),
            faces: self.faces.len() / 5,
        }
    }

    pub fn same(&self, other: &Tables) -> bool {
        same_numbers(&self.positions, &other.positions)
            && self.points == other.points
            && self.edges == other.edges
            && same_numbers(&self.intervals, &other.intervals)
            && self.faces == other.faces
    }

    /// Whether the rows beyond these counts are those of the other tables.
    pub fn same_beyond(&self, counts: Counts, other: &Tables) -> bool {
        same_numbers(&self.positions[3 * counts.points..], &other.positions[3 * counts.points..])
            && self.points[3 * counts.points..] == other.points[3 * counts.points..]
            && self.edges[8 * counts.edges..] == other.edges[8 * counts.edges..]
            && same_numbers(&self.intervals[counts.edges..], &other.intervals[counts.edges..])
            && self.faces[5 * counts.faces..] == other.faces[5 * counts.faces..]
    }

    /// Whether the rows of these counts are zero.
    pub fn is_zero(&self, counts: Counts) -> bool {
        all_zero(&self.points[..3 * counts.points], &self.positions[..3 * counts.points])
            && all_zero(&self.edges[..8 * counts.edges], &self.intervals[..counts.edges])
            && all_zero(&self.faces[..5 * counts.faces], &[])
    }

    /// Whether the edge rows from one count to another are zero.
    pub fn edges_zero(&self, from: usize, to: usize) -> bool {
        all_zero(&self.edges[8 * from..8 * to], &self.intervals[from..to])
    }

    /// The first rows, of these counts.
    pub fn first(&self, counts: Counts) -> Tables {
        Tables {
            positions: self.positions[..3 * counts.points].to_vec(),
            points: self.points[..3 * counts.points].to_vec(),
            edges: self.edges[..8 * counts.edges].to_vec(),
            intervals: self.intervals[..counts.edges].to_vec(),
            faces: self.faces[..5 * counts.faces].to_vec(),
        }
    }

    /// These tables with the rows of others put at their front.
    pub fn over(mut self, front: &Tables) -> Tables {
        self.positions[..front.positions.len()].copy_from_slice(&front.positions);
        self.points[..front.points.len()].copy_from_slice(&front.points);
        self.edges[..front.edges.len()].copy_from_slice(&front.edges);
        self.intervals[..front.intervals.len()].copy_from_slice(&front.intervals);
        self.faces[..front.faces.len()].copy_from_slice(&front.faces);
        self
    }

    pub fn bytes(&self) -> usize {
        8 * (self.positions.len() + self.intervals.len()) + 4 * (self.points.len() + self.edges.len() + self.faces.len())
    }
}

/// Builds from lists of either version. The answer is document 01's number, or 02's, 0 for accepted.
pub fn build(lists: &Lists, tables: &mut Tables, counts: &mut [usize; 3]) -> u32 {
    let (t, l) = (tables, lists);
    if let Some(firsts) = &l.firsts {
        // SAFETY: each pointer goes with its length, no table overlaps another, and the counts are three words.
        return unsafe {
            lavyngo_build_2(
                l.coordinates.as_ptr(), l.coordinates.len(), l.sides.as_ptr(), l.sides.len(), firsts.as_ptr(), firsts.len(),
                l.listed.as_ptr(), l.listed.len(), l.intervals.as_ptr(), l.intervals.len(),
                t.positions.as_mut_ptr(), t.positions.len(), t.points.as_mut_ptr(), t.points.len(),
                t.edges.as_mut_ptr(), t.edges.len(), t.intervals.as_mut_ptr(), t.intervals.len(),
                t.faces.as_mut_ptr(), t.faces.len(), counts,
            )
        };
    }
    // SAFETY: each pointer goes with its length, no table overlaps another, and the counts are three words.
    unsafe {
        lavyngo_build(
            l.coordinates.as_ptr(), l.coordinates.len(), l.sides.as_ptr(), l.sides.len(),
            l.listed.as_ptr(), l.listed.len(), l.intervals.as_ptr(), l.intervals.len(),
            t.positions.as_mut_ptr(), t.positions.len(), t.points.as_mut_ptr(), t.points.len(),
            t.edges.as_mut_ptr(), t.edges.len(), t.intervals.as_mut_ptr(), t.intervals.len(),
            t.faces.as_mut_ptr(), t.faces.len(), counts,
        )
    }
}

/// Builds from a text.
pub fn build_text(text: &[u8], tables: &mut Tables, counts: &mut [usize; 3]) -> u32 {
    let t = tables;
    // SAFETY: as above.
    unsafe {
        lavyngo_build_text(
            text.as_ptr(), text.len(), t.positions.as_mut_ptr(), t.positions.len(), t.points.as_mut_ptr(), t.points.len(),
            t.edges.as_mut_ptr(), t.edges.len(), t.intervals.as_mut_ptr(), t.intervals.len(),
            t.faces.as_mut_ptr(), t.faces.len(), counts,
        )
    }
}

/// Mends a text in place. The answer is document 02's number, 0 for mended.
pub fn mend_text(text: &mut [u8]) -> u32 {
    // SAFETY: the pointer goes with its length.
    unsafe { lavyngo_mend_text(text.as_mut_ptr(), text.len()) }
}

/// The answer of building a text in tables with rows to spare, and the line, the face and the edge of it.
pub fn explain_text(text: &[u8]) -> (u32, [usize; 3]) {
    let mut place = [0; 3];
    // SAFETY: the pointer goes with its length.
    let answer = unsafe { lavyngo_explain_text(text.as_ptr(), text.len(), &mut place) };
    (answer, place)
}

/// 0 for a closed mesh, else 30.
pub fn audit(tables: &Tables, counts: [usize; 3]) -> u32 {
    let t = tables;
    // SAFETY: as above.
    unsafe {
        lavyngo_audit(
            t.positions.as_ptr(), t.positions.len(), t.points.as_ptr(), t.points.len(), t.edges.as_ptr(), t.edges.len(),
            t.intervals.as_ptr(), t.intervals.len(), t.faces.as_ptr(), t.faces.len(), &counts,
        )
    }
}

/// One step of either edition. The answer is document 01's number, 0 for accepted.
pub fn step(edition: Edition, tables: &mut Tables, counts: &mut [usize; 3], order: &[u32], scratch: &mut Tables) -> u32 {
    let (t, s) = (tables, scratch);
    let step = match edition {
        Edition::First => lavyngo_step,
        Edition::Second => lavyngo_step_published,
    };
    // SAFETY: as above.
    unsafe {
        step(
            t.positions.as_mut_ptr(), t.positions.len(), t.points.as_mut_ptr(), t.points.len(),
            t.edges.as_mut_ptr(), t.edges.len(), t.intervals.as_mut_ptr(), t.intervals.len(),
            t.faces.as_mut_ptr(), t.faces.len(), counts, order.as_ptr(), order.len(),
            s.positions.as_mut_ptr(), s.positions.len(), s.points.as_mut_ptr(), s.points.len(),
            s.edges.as_mut_ptr(), s.edges.len(), s.intervals.as_mut_ptr(), s.intervals.len(),
            s.faces.as_mut_ptr(), s.faces.len(),
        )
    }
}

/// The first edge that crosses a depth. The answer is document 02's number, 0 for an edge, which is then written.
pub fn find_depth(tables: &Tables, counts: [usize; 3], depth: f64, edge: &mut usize) -> u32 {
    let t = tables;
    // SAFETY: as above.
    unsafe {
        lavyngo_find_depth(
            t.positions.as_ptr(), t.positions.len(), t.points.as_ptr(), t.points.len(), t.edges.as_ptr(), t.edges.len(),
            t.intervals.as_ptr(), t.intervals.len(), t.faces.as_ptr(), t.faces.len(), &counts, depth, edge,
        )
    }
}

/// Writes the listing of a mesh. How many bytes it has is written with the answer 0 only.
pub fn write_listing(tables: &Tables, counts: [usize; 3], text: &mut [u8], written: &mut usize) -> u32 {
    let t = tables;
    // SAFETY: each pointer goes with its length; the output overlaps no table.
    unsafe {
        lavyngo_write_listing(
            t.positions.as_ptr(), t.positions.len(), t.points.as_ptr(), t.points.len(), t.edges.as_ptr(), t.edges.len(),
            t.intervals.as_ptr(), t.intervals.len(), t.faces.as_ptr(), t.faces.len(), &counts, text.as_mut_ptr(), text.len(),
            written,
        )
    }
}

/// Reads a listing into tables.
pub fn read_listing(text: &[u8], tables: &mut Tables, counts: &mut [usize; 3]) -> u32 {
    let t = tables;
    // SAFETY: each pointer goes with its length, and no table overlaps another.
    unsafe {
        lavyngo_read_listing(
            text.as_ptr(), text.len(), t.positions.as_mut_ptr(), t.positions.len(), t.points.as_mut_ptr(), t.points.len(),
            t.edges.as_mut_ptr(), t.edges.len(), t.intervals.as_mut_ptr(), t.intervals.len(),
            t.faces.as_mut_ptr(), t.faces.len(), counts,
        )
    }
}
