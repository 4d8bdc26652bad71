//! What the Rust answers to a text: the records after building and after each step, or the line that says why not.

use crate::altered;
use crate::errors::{Error, Result};
use crate::monstertruck_core::Position;
use crate::parking_lot::{self, Endless};
use crate::t_spline::Tnurcc;
use crate::text::{self, MeshText, Side, Version};
use std::panic::{AssertUnwindSafe, catch_unwind};

/// The order in which one step visits the faces.
#[derive(Clone)]
pub enum Visit {
    Numbered,
    Listed(Vec<usize>),
}

/// Whose step is made: that of the Rust as it is, or document 02's second edition, by the Rust with places altered.
#[derive(Clone, Copy, PartialEq, Eq, Debug)]
pub enum Edition {
    First,
    Second,
}

/// For each stage the line `[stage K]` and the listing of the mesh. A stage that is not reached has one line instead of
/// a listing, and is the last:
///
///     [error N]                     the ground N of document 01: 1, 13, 14, 20, or 31 for an unfit order
///     [error bad-connection E E]    two edges with no point or no face in common were to be connected
///     [error malformed-face]        a face or a point with no edge was to be refined
///     [panic]                       the Rust panicked
///     [endless]                     a walk did not come back to its start
pub fn answers(text: &[u8], steps: &[(Edition, Visit)]) -> String {
    let mut out = String::from("[stage 0]\n");
    let mut tnurcc = match build(text) {
        Ok(tnurcc) => tnurcc,
        Err(line) => return out + &line,
    };
    out += &tnurcc.listing().to_string();
    for (done, (edition, visit)) in steps.iter().enumerate() {
        out += &format!("[stage {}]\n", done + 1);
        if let Err(line) = refine(&mut tnurcc, *edition, visit) {
            return out + &line;
        }
        out += &tnurcc.listing().to_string();
    }
    out
}

/// The mesh that the Rust builds of a text, or the line of its refusal.
fn build(text: &[u8]) -> std::result::Result<Tnurcc<Position>, String> {
    let Some(mesh) = text::read(text) else {
        return Err(String::from("[error 1]\n"));
    };
    build_of(mesh)
}

/// The mesh that the Rust builds of points and faces, or the line of its refusal. Of version 2 it is given the same edges
/// and intervals, its own side test passed over.
pub fn build_of(mesh: MeshText) -> std::result::Result<Tnurcc<Position>, String> {
    let listed: usize = mesh.faces.iter().flatten().map(|side| side.1.len()).sum();
    let MeshText { version, points, faces } = mesh;
    match version {
        Version::One => watched(listed, || Tnurcc::try_new(points, faces)),
        Version::Two => watched(listed, || altered::Tnurcc::try_new(points, faces.into_iter().map(turned).collect()))
            .map(carried_over),
    }
}

/// A face of version 2 with each interval moved to the point that its edge leaves, as the Rust reads it: the one beside
/// point i + 1 to point i, the one beside the first point listed to the last.
fn turned(mut sides: [Side; 4]) -> [Side; 4] {
    let mut intervals: Vec<f64> = sides.iter().flat_map(|side| &side.1).map(|entry| entry.1).collect();
    if !intervals.is_empty() {
        intervals.rotate_left(1);
    }
    let entries = sides.iter_mut().flat_map(|side| &mut side.1);
    entries.zip(intervals).for_each(|(entry, interval)| entry.1 = interval);
    sides
}

/// One step of the Rust, in either edition.
pub fn refine(tnurcc: &mut Tnurcc<Position>, edition: Edition, visit: &Visit) -> std::result::Result<(), String> {
    let edges = tnurcc.edge_count();
    if let Visit::Listed(order) = visit
        && !tnurcc.is_order(order)
    {
        return Err(String::from("[error 31]\n"));
    }
    match edition {
        Edition::First => watched(edges, || match visit {
            Visit::Numbered => tnurcc.global_subdivide(),
            Visit::Listed(order) => tnurcc.subdivide_in_order(order),
        }),
        Edition::Second => {
            let refined = watched(edges, || {
                let mut altered = altered::Tnurcc::of_listing(&tnurcc.listing());
                match visit {
                    Visit::Numbered => altered.global_subdivide(),
                    Visit::Listed(order) => altered.subdivide_in_order(order),
                }?;
                Ok(carried_over(altered))
            })?;
            std::mem::replace(tnurcc, refined).release();
            Ok(())
        }
    }
}

/// The mesh of the Rust that has the records of an altered one.
fn carried_over(altered: altered::Tnurcc<Position>) -> Tnurcc<Position> {
    let tnurcc = Tnurcc::of_listing(&altered.listing());
    altered.release();
    tnurcc
}

/// Runs a piece of the Rust on a mesh of so many edges; an error or a panic becomes its line.
///
/// Building reads some three locks for each pair of listed point and edge, refining at most some thirty for each pair
/// of edges: a run that reads more often than is allowed here goes round a walk that never ends.
fn watched<T>(edges: usize, run: impl FnOnce() -> Result<T>) -> std::result::Result<T, String> {
    let enough = 100 * (edges as u64 + 10).pow(2);
    parking_lot::allow_reads(enough);
    let outcome = catch_unwind(AssertUnwindSafe(run));
    parking_lot::allow_reads(u64::MAX);
    match outcome {
        Ok(Ok(answer)) => Ok(answer),
        Ok(Err(error)) => Err(error_line(error)),
        Err(panic) if panic.is::<Endless>() => Err(String::from("[endless]\n")),
        Err(_) => Err(String::from("[panic]\n")),
    }
}

/// The line of an error: document 01's number for the errors that it has a ground for.
fn error_line(error: Error) -> String {
    match error {
        Error::TnurccNonRectangularFace => String::from("[error 13]\n"),
        Error::TnurccEdgeTripleFace => String::from("[error 14]\n"),
        Error::TnurccMissingFace => String::from("[error 20]\n"),
        Error::TnurccBadConnectionConditions(first, other) => format!("[error bad-connection {first} {other}]\n"),
        Error::TnurccMalformedFace => String::from("[error malformed-face]\n"),
        Error::TmeshMalformedMesh => unreachable!("no T-mesh is made"),
    }
}

/// Keeps panics from writing to standard error: they become lines.
pub fn silence_panics() {
    std::panic::set_hook(Box::new(|_| {}));
}
