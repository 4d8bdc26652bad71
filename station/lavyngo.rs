//! The library for stations in Rust: safe functions over slices, and tables to lend. lavyngo.h says what each function does, what
//! the words of a row are and what an answer means; link with target/staticlib/libstation.a (`station/library.sh`).

#![allow(dead_code)]

use raw::*;

/// Elements of a row of each table.
pub const POSITION: usize = 3;
pub const POINT: usize = 3;
pub const EDGE: usize = 8;
pub const FACE: usize = 5;

/// The version of this module, and of the header.
pub const VERSION: u32 = 10;

/// The version of the library that is linked.
pub fn version() -> u32 {
    unsafe { lavyngo_version() }
}

/// A corner that is no point.
pub const NONE: u32 = u32::MAX;

/// Document 01's number of a refusal.
#[derive(Clone, Copy, PartialEq, Eq, Debug)]
pub struct Ground(pub u32);

/// How many points, edges and faces a mesh has.
#[derive(Clone, Copy, PartialEq, Eq, Debug, Default)]
pub struct Counts {
    pub points: usize,
    pub edges: usize,
    pub faces: usize,
}

impl Counts {
    /// The counts after a step.
    pub fn refined(self) -> Self {
        Counts { points: self.points + self.edges + self.faces, edges: 4 * self.edges, faces: 2 * self.edges }
    }

    /// The counts as the functions take them.
    pub fn array(self) -> [usize; 3] {
        [self.points, self.edges, self.faces]
    }

    /// The counts that a function has written.
    pub fn of(counts: [usize; 3]) -> Self {
        Counts { points: counts[0], edges: counts[1], faces: counts[2] }
    }
}

/// The five tables of a mesh.
#[derive(Clone, Debug, Default, PartialEq)]
pub struct Tables {
    pub positions: Vec<f64>,
    pub points: Vec<u32>,
    pub edges: Vec<u32>,
    pub intervals: Vec<f64>,
    pub faces: Vec<u32>,
}

/// What building is handed: 3 coordinates a point, 4 side lengths a face, the listed points and the interval beside each.
#[derive(Clone, Copy, Debug)]
pub struct Lists<'a> {
    pub coordinates: &'a [f64],
    pub sides: &'a [u32],
    pub listed: &'a [u32],
    pub beside: &'a [f64],
}

impl Tables {
    /// Tables of zeros with rows for these counts.
    pub fn with_rows(counts: Counts) -> Self {
        Tables {
            positions: vec![0.0; POSITION * counts.points],
            points: vec![0; POINT * counts.points],
            edges: vec![0; EDGE * counts.edges],
            intervals: vec![0.0; counts.edges],
            faces: vec![0; FACE * counts.faces],
        }
    }

    /// Builds a mesh from lists.
    pub fn build(&mut self, lists: Lists) -> Result<Counts, Ground> {
        let mut counts = [0; 3];
        // SAFETY: every pointer goes with its length, and no two tables overlap.
        let answer = unsafe {
            lavyngo_build(
                lists.coordinates.as_ptr(), lists.coordinates.len(), lists.sides.as_ptr(), lists.sides.len(),
                lists.listed.as_ptr(), lists.listed.len(), lists.beside.as_ptr(), lists.beside.len(),
                self.positions.as_mut_ptr(), self.positions.len(), self.points.as_mut_ptr(), self.points.len(),
                self.edges.as_mut_ptr(), self.edges.len(), self.intervals.as_mut_ptr(), self.intervals.len(),
                self.faces.as_mut_ptr(), self.faces.len(), &mut counts,
            )
        };
        accepted(answer, counts)
    }

    /// Builds a mesh from lists of version 2, with the first points of the sides, four a face.
    pub fn build_2(&mut self, lists: Lists, firsts: &[u32]) -> Result<Counts, Ground> {
        let mut counts = [0; 3];
        // SAFETY: as above.
        let answer = unsafe {
            lavyngo_build_2(
                lists.coordinates.as_ptr(), lists.coordinates.len(), lists.sides.as_ptr(), lists.sides.len(),
                firsts.as_ptr(), firsts.len(),
                lists.listed.as_ptr(), lists.listed.len(), lists.beside.as_ptr(), lists.beside.len(),
                self.positions.as_mut_ptr(), self.positions.len(), self.points.as_mut_ptr(), self.points.len(),
                self.edges.as_mut_ptr(), self.edges.len(), self.intervals.as_mut_ptr(), self.intervals.len(),
                self.faces.as_mut_ptr(), self.faces.len(), &mut counts,
            )
        };
        accepted(answer, counts)
    }

    /// Builds a mesh from a text, of version 1 or 2.
    pub fn build_text(&mut self, text: &[u8]) -> Result<Counts, Ground> {
        let mut counts = [0; 3];
        // SAFETY: as above.
        let answer = unsafe {
            lavyngo_build_text(
                text.as_ptr(), text.len(),
                self.positions.as_mut_ptr(), self.positions.len(), self.points.as_mut_ptr(), self.points.len(),
                self.edges.as_mut_ptr(), self.edges.len(), self.intervals.as_mut_ptr(), self.intervals.len(),
                self.faces.as_mut_ptr(), self.faces.len(), &mut counts,
            )
        };
        accepted(answer, counts)
    }

    /// Whether the tables are a closed mesh with these counts.
    pub fn audit(&self, counts: Counts) -> Result<(), Ground> {
        // SAFETY: every pointer goes with its length; nothing is written.
        let answer = unsafe {
            lavyngo_audit(
                self.positions.as_ptr(), self.positions.len(), self.points.as_ptr(), self.points.len(),
                self.edges.as_ptr(), self.edges.len(), self.intervals.as_ptr(), self.intervals.len(),
                self.faces.as_ptr(), self.faces.len(), &counts.array(),
            )
        };
        accepted(answer, counts.array()).map(|_| ())
    }

    /// The lowest-numbered edge that crosses a depth.
    pub fn find_depth(&self, counts: Counts, depth: f64) -> Result<usize, Ground> {
        let mut edge = 0;
        // SAFETY: every pointer goes with its length; nothing but the edge is written.
        let answer = unsafe {
            lavyngo_find_depth(
                self.positions.as_ptr(), self.positions.len(), self.points.as_ptr(), self.points.len(),
                self.edges.as_ptr(), self.edges.len(), self.intervals.as_ptr(), self.intervals.len(),
                self.faces.as_ptr(), self.faces.len(), &counts.array(), depth, &mut edge,
            )
        };
        accepted(answer, counts.array()).map(|_| edge)
    }

    /// Writes the listing of the mesh at the front of an output: how many bytes it has.
    pub fn write_listing(&self, counts: Counts, text: &mut [u8]) -> Result<usize, Ground> {
        let mut written = 0;
        // SAFETY: every pointer goes with its length, and the output overlaps no table.
        let answer = unsafe {
            lavyngo_write_listing(
                self.positions.as_ptr(), self.positions.len(), self.points.as_ptr(), self.points.len(),
                self.edges.as_ptr(), self.edges.len(), self.intervals.as_ptr(), self.intervals.len(),
                self.faces.as_ptr(), self.faces.len(), &counts.array(), text.as_mut_ptr(), text.len(), &mut written,
            )
        };
        accepted(answer, counts.array()).map(|_| written)
    }

    /// Reads a listing: the counts of its mesh.
    pub fn read_listing(&mut self, text: &[u8]) -> Result<Counts, Ground> {
        let mut counts = [0; 3];
        // SAFETY: every pointer goes with its length, and no two tables overlap.
        let answer = unsafe {
            lavyngo_read_listing(
                text.as_ptr(), text.len(),
                self.positions.as_mut_ptr(), self.positions.len(), self.points.as_mut_ptr(), self.points.len(),
                self.edges.as_mut_ptr(), self.edges.len(), self.intervals.as_mut_ptr(), self.intervals.len(),
                self.faces.as_mut_ptr(), self.faces.len(), &mut counts,
            )
        };
        accepted(answer, counts)
    }

    /// Refines the mesh once, visiting the faces in this order: the counts after the step.
    pub fn step(&mut self, counts: Counts, order: &[u32], scratch: &mut Tables) -> Result<Counts, Ground> {
        let mut after = counts.array();
        // SAFETY: every pointer goes with its length, and no two tables overlap.
        let answer = unsafe {
            lavyngo_step(
                self.positions.as_mut_ptr(), self.positions.len(), self.points.as_mut_ptr(), self.points.len(),
                self.edges.as_mut_ptr(), self.edges.len(), self.intervals.as_mut_ptr(), self.intervals.len(),
                self.faces.as_mut_ptr(), self.faces.len(), &mut after, order.as_ptr(), order.len(),
                scratch.positions.as_mut_ptr(), scratch.positions.len(), scratch.points.as_mut_ptr(), scratch.points.len(),
                scratch.edges.as_mut_ptr(), scratch.edges.len(), scratch.intervals.as_mut_ptr(), scratch.intervals.len(),
                scratch.faces.as_mut_ptr(), scratch.faces.len(),
            )
        };
        accepted(answer, after)
    }

    /// The same by the published position rule (document 02, section 5).
    pub fn step_published(&mut self, counts: Counts, order: &[u32], scratch: &mut Tables) -> Result<Counts, Ground> {
        let mut after = counts.array();
        // SAFETY: every pointer goes with its length, and no two tables overlap.
        let answer = unsafe {
            lavyngo_step_published(
                self.positions.as_mut_ptr(), self.positions.len(), self.points.as_mut_ptr(), self.points.len(),
                self.edges.as_mut_ptr(), self.edges.len(), self.intervals.as_mut_ptr(), self.intervals.len(),
                self.faces.as_mut_ptr(), self.faces.len(), &mut after, order.as_ptr(), order.len(),
                scratch.positions.as_mut_ptr(), scratch.positions.len(), scratch.points.as_mut_ptr(), scratch.points.len(),
                scratch.edges.as_mut_ptr(), scratch.edges.len(), scratch.intervals.as_mut_ptr(), scratch.intervals.len(),
                scratch.faces.as_mut_ptr(), scratch.faces.len(),
            )
        };
        accepted(answer, after)
    }
}

/// Mends a text of version 2 in place: faces turned round so that all neighbours run opposite ways.
pub fn mend_text(text: &mut [u8]) -> Result<(), Ground> {
    // SAFETY: the pointer goes with its length.
    let answer = unsafe { lavyngo_mend_text(text.as_mut_ptr(), text.len()) };
    accepted(answer, [0; 3]).map(|_| ())
}

/// Where a text is refused: its line, counted from 1, and the face and the edge of the face, from 0, where there is one.
#[derive(Clone, Copy, Debug, PartialEq, Eq)]
pub struct Place {
    pub line: Option<usize>,
    pub face: Option<usize>,
    pub edge: Option<usize>,
}

/// What building answers to a text in tables with rows to spare, and where it is refused.
pub fn explain_text(text: &[u8]) -> Result<(), (Ground, Place)> {
    let mut words = [0; 3];
    // SAFETY: the pointer goes with its length.
    let answer = unsafe { lavyngo_explain_text(text.as_ptr(), text.len(), &mut words) };
    let [line, face, edge] = words.map(|word| (word != usize::MAX).then_some(word));
    if answer == 0 { Ok(()) } else { Err((Ground(answer), Place { line, face, edge })) }
}

fn accepted(answer: u32, counts: [usize; 3]) -> Result<Counts, Ground> {
    if answer == 0 { Ok(Counts::of(counts)) } else { Err(Ground(answer)) }
}

/// The functions as lavyngo.h declares them.
pub mod raw {
    unsafe extern "C" {
        pub fn lavyngo_version() -> u32;
        pub fn lavyngo_build(
            coordinates: *const f64, coordinates_length: usize, sides: *const u32, sides_length: usize,
            listed: *const u32, listed_length: usize, beside: *const f64, beside_length: usize,
            positions: *mut f64, positions_length: usize, points: *mut u32, points_length: usize,
            edges: *mut u32, edges_length: usize, intervals: *mut f64, intervals_length: usize,
            faces: *mut u32, faces_length: usize, counts: *mut [usize; 3],
        ) -> u32;
        pub fn lavyngo_build_2(
            coordinates: *const f64, coordinates_length: usize, sides: *const u32, sides_length: usize,
            firsts: *const u32, firsts_length: usize,
            listed: *const u32, listed_length: usize, beside: *const f64, beside_length: usize,
            positions: *mut f64, positions_length: usize, points: *mut u32, points_length: usize,
            edges: *mut u32, edges_length: usize, intervals: *mut f64, intervals_length: usize,
            faces: *mut u32, faces_length: usize, counts: *mut [usize; 3],
        ) -> u32;
        pub fn lavyngo_build_text(
            text: *const u8, text_length: usize,
            positions: *mut f64, positions_length: usize, points: *mut u32, points_length: usize,
            edges: *mut u32, edges_length: usize, intervals: *mut f64, intervals_length: usize,
            faces: *mut u32, faces_length: usize, counts: *mut [usize; 3],
        ) -> u32;
        pub fn lavyngo_mend_text(text: *mut u8, text_length: usize) -> u32;
        pub fn lavyngo_explain_text(text: *const u8, text_length: usize, place: *mut [usize; 3]) -> u32;
        pub fn lavyngo_audit(
            positions: *const f64, positions_length: usize, points: *const u32, points_length: usize,
            edges: *const u32, edges_length: usize, intervals: *const f64, intervals_length: usize,
            faces: *const u32, faces_length: usize, counts: *const [usize; 3],
        ) -> u32;
        pub fn lavyngo_step(
            positions: *mut f64, positions_length: usize, points: *mut u32, points_length: usize,
            edges: *mut u32, edges_length: usize, intervals: *mut f64, intervals_length: usize,
            faces: *mut u32, faces_length: usize, counts: *mut [usize; 3], order: *const u32, order_length: usize,
            newpositions: *mut f64, newpositions_length: usize, newpoints: *mut u32, newpoints_length: usize,
            newedges: *mut u32, newedges_length: usize, newintervals: *mut f64, newintervals_length: usize,
            newfaces: *mut u32, newfaces_length: usize,
        ) -> u32;
        pub fn lavyngo_step_published(
            positions: *mut f64, positions_length: usize, points: *mut u32, points_length: usize,
            edges: *mut u32, edges_length: usize, intervals: *mut f64, intervals_length: usize,
            faces: *mut u32, faces_length: usize, counts: *mut [usize; 3], order: *const u32, order_length: usize,
            newpositions: *mut f64, newpositions_length: usize, newpoints: *mut u32, newpoints_length: usize,
            newedges: *mut u32, newedges_length: usize, newintervals: *mut f64, newintervals_length: usize,
            newfaces: *mut u32, newfaces_length: usize,
        ) -> u32;
        pub fn lavyngo_find_depth(
            positions: *const f64, positions_length: usize, points: *const u32, points_length: usize,
            edges: *const u32, edges_length: usize, intervals: *const f64, intervals_length: usize,
            faces: *const u32, faces_length: usize, counts: *const [usize; 3], depth: f64, edge: *mut usize,
        ) -> u32;
        pub fn lavyngo_write_listing(
            positions: *const f64, positions_length: usize, points: *const u32, points_length: usize,
            edges: *const u32, edges_length: usize, intervals: *const f64, intervals_length: usize,
            faces: *const u32, faces_length: usize, counts: *const [usize; 3],
            text: *mut u8, text_length: usize, written: *mut usize,
        ) -> u32;
        pub fn lavyngo_read_listing(
            text: *const u8, text_length: usize,
            positions: *mut f64, positions_length: usize, points: *mut u32, points_length: usize,
            edges: *mut u32, edges_length: usize, intervals: *mut f64, intervals_length: usize,
            faces: *mut u32, faces_length: usize, counts: *mut [usize; 3],
        ) -> u32;
    }
}
