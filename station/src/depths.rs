//! The depth finder, held against document 02 in plain Rust: which depths are tried on a mesh, and what is expected of each.

use crate::grounds;
use crate::library::{self, Counts, Tables};
use crate::random::Random;
use std::collections::BTreeMap;

/// How often each answer was given, 0 for an edge.
pub type Answers = BTreeMap<u32, u64>;

/// The depth of a point of the mesh.
fn z(tables: &Tables, point: u32) -> f64 {
    tables.positions[3 * point as usize + 2]
}

/// Whether one end of an edge is at or above a depth, the other at or below.
fn crosses(tables: &Tables, e: usize, depth: f64) -> bool {
    let (a, b) = (z(tables, tables.edges[8 * e]), z(tables, tables.edges[8 * e + 1]));
    let (low, high) = if a < b { (a, b) } else { (b, a) };
    low <= depth && depth <= high
}

/// The lowest-numbered edge that crosses, or the number of the ground.
fn expected(tables: &Tables, counts: Counts, closed: bool, depth: f64) -> Result<usize, u32> {
    if !depth.is_finite() {
        return Err(42);
    }
    if !closed {
        return Err(30);
    }
    (0..counts.edges).find(|&e| crosses(tables, e, depth)).ok_or(41)
}

/// A depth: at a point, next to one, between two, beyond all, a zero, a subnormal, or no number at all.
fn depth(random: &mut Random, tables: &Tables) -> f64 {
    let depths: Vec<f64> = tables.positions.chunks_exact(3).map(|p| p[2]).collect();
    let any = |random: &mut Random| if depths.is_empty() { 0.0 } else { random.of(&depths) };
    let at = any(random);
    let least = depths.iter().copied().fold(f64::INFINITY, f64::min);
    let most = depths.iter().copied().fold(f64::NEG_INFINITY, f64::max);
    match random.below(16) {
        0..=3 => at,
        4 => at.next_up(),
        5 => at.next_down(),
        6 | 7 => at / 2.0 + any(random) / 2.0,
        8 => least.next_down(),
        9 => most.next_up(),
        10 => random.of(&[least, most]),
        11 => random.of(&[0.0, -0.0]),
        12 => {
            let bits = if random.once_in(2) { 1 } else { random.word() >> 12 };
            f64::from_bits(bits) * random.of(&[1.0, -1.0])
        }
        13 => random.of(&[f64::MAX, f64::MIN, f64::MIN_POSITIVE]),
        14 => random.of(&[f64::INFINITY, f64::NEG_INFINITY, f64::NAN, -f64::NAN]),
        _ => f64::from_bits(random.word()),
    }
}

/// So many depths on tables of any content. The edge is written only where one is answered.
pub fn check(
    random: &mut Random, tables: &Tables, words: [usize; 3], depths: usize, answers: &mut Answers,
) -> Result<(), String> {
    let counts = Counts::of(words);
    let closed = grounds::is_closed(tables, counts);
    for _ in 0..depths {
        let depth = depth(random, tables);
        let untold = usize::MAX - 7;
        let expected = expected(tables, counts, closed, depth).map_or_else(|ground| (ground, untold), |edge| (0, edge));
        let mut edge = untold;
        let answer = library::find_depth(tables, words, depth, &mut edge);
        if (answer, edge) != expected {
            return Err(format!("to depth {depth:e} the finder answers {answer} and edge {edge}, expected is {expected:?}"));
        }
        *answers.entry(answer).or_default() += 1;
    }
    Ok(())
}
