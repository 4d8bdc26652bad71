//! The library against the original Rust: every record and every bit after building and after each step, the refusals, and
//! what every lent row is afterwards.

use crate::grounds::{self, CEILINGS};
use crate::library::{self, Counts, Edition, Tables};
use crate::lists::Lists;
use crate::names::{self, Names, Register, Share};
use crate::random::Random;
use crate::rust::Mesh;
use crate::{agreement, depths, listings, mender, numbers, shapes, spoil};
use oracle::text::Version;
use std::collections::BTreeMap;

/// How a step is made: in which edition, and whether the faces are visited in numbered order.
#[derive(Clone, Copy)]
pub struct How {
    pub edition: Edition,
    pub numbered: bool,
}

/// What is handed in, and what is done with it.
#[derive(Clone)]
pub struct Case {
    pub lists: Lists,
    /// Of this everything follows that is left to chance.
    pub seed: u64,
    /// Elements of each table beyond its rows.
    pub spare: usize,
    /// A table that has too few elements for ground 4, and how many it lacks.
    pub short: Option<(usize, usize)>,
    /// Whether start edges, directions, corners and marks are changed before the first step.
    pub scrambled: bool,
    pub steps: Vec<How>,
    /// Whether a second run in other orders and editions is held against the first, under the names.
    pub two_runs: bool,
    /// How many steps two runs of the second edition make that must agree in full.
    pub agreeing: usize,
}

/// What was compared.
#[derive(Default)]
pub struct Tally {
    pub meshes: u64,
    /// How many of them were of version 2.
    pub version_2: u64,
    /// How many of them were also built from their texts.
    pub texts: u64,
    pub accepted: u64,
    pub refused: BTreeMap<u32, u64>,
    /// Refusals that were met by the Rust's own error.
    pub refused_by_both: BTreeMap<u32, u64>,
    pub steps: u64,
    pub steps_in_other_orders: u64,
    pub steps_published: u64,
    pub refused_steps: BTreeMap<u32, u64>,
    pub records: u64,
    pub runs_under_names: u64,
    pub records_under_names: u64,
    pub agreed: agreement::Agreed,
    pub largest_face: usize,
    /// How often the depth finder gave each answer.
    pub depths: depths::Answers,
    /// How often writing and reading a listing gave each answer.
    pub listings: listings::Answers,
    /// How often the mender gave each answer.
    pub mended: mender::Answers,
}

/// A change of what the library leaves, to see that it is found.
pub type Tamper = fn(&mut Tables);

impl Case {
    /// The case of a number in a run.
    pub fn random(seed: u64, number: u64) -> Self {
        let mut random = Random::of_case(seed, number);
        let shape = shapes::closed(&mut random);
        let mut lists = numbers::numbered(&mut random, &shape);
        if random.once_in(4) {
            for _ in 0..random.of(&[1, 1, 1, 2]) {
                if lists.agree() {
                    spoil::lists(&mut random, &mut lists);
                }
            }
        }
        let short = random.once_in(40).then(|| (random.below(5), random.between(1, 9)));
        let edition = |random: &mut Random| random.of(&[Edition::First, Edition::Second]);
        let how = |random: &mut Random| How { edition: edition(random), numbered: !random.once_in(4) };
        let steps = vec![how(&mut random), how(&mut random)];
        Case {
            lists,
            seed: random.word(),
            spare: random.of(&[0, 0, 1, 2, 7, 40]),
            short,
            scrambled: random.once_in(3),
            steps,
            two_runs: random.once_in(4),
            agreeing: if random.once_in(3) { random.between(1, 4) } else { 0 },
        }
    }
}

/// The tables to build in.
fn lent(case: &Case) -> Tables {
    let lists = &case.lists;
    let room = Counts { points: lists.points(), edges: lists.listed.len(), faces: lists.faces() };
    let mut tables = Tables::patterned(room, case.spare);
    if let Some((table, lacks)) = case.short {
        let lacks = lacks + case.spare;
        let cut = |length: usize| length.saturating_sub(lacks);
        match table {
            0 => tables.positions.truncate(cut(tables.positions.len())),
            1 => tables.points.truncate(cut(tables.points.len())),
            2 => tables.edges.truncate(cut(tables.edges.len())),
            3 => tables.intervals.truncate(cut(tables.intervals.len())),
            _ => tables.faces.truncate(cut(tables.faces.len())),
        }
    }
    tables
}

/// The first row in which two meshes of these counts differ.
fn difference(ours: &Tables, rust: &Tables, counts: Counts) -> Option<String> {
    let bits = |numbers: &[f64]| -> Vec<u64> { numbers.iter().map(|x| x.to_bits()).collect() };
    let row = |kind: &str, at: usize, ours: String, rust: String| format!("{kind} {at}: library {ours}, Rust {rust}");
    for p in 0..counts.points {
        let (a, b) = (bits(&ours.positions[3 * p..3 * p + 3]), bits(&rust.positions[3 * p..3 * p + 3]));
        if a != b {
            return Some(row("position of point", p, format!("{a:016x?}"), format!("{b:016x?}")));
        }
        let (a, b) = (&ours.points[3 * p..3 * p + 3], &rust.points[3 * p..3 * p + 3]);
        if a != b {
            return Some(row("point", p, format!("{a:?}"), format!("{b:?}")));
        }
    }
    for e in 0..counts.edges {
        let (a, b) = (&ours.edges[8 * e..8 * e + 8], &rust.edges[8 * e..8 * e + 8]);
        if a != b {
            return Some(row("edge", e, format!("{a:?}"), format!("{b:?}")));
        }
        let (a, b) = (ours.intervals[e].to_bits(), rust.intervals[e].to_bits());
        if a != b {
            return Some(row("interval of edge", e, format!("{a:016x}"), format!("{b:016x}")));
        }
    }
    for f in 0..counts.faces {
        let (a, b) = (&ours.faces[5 * f..5 * f + 5], &rust.faces[5 * f..5 * f + 5]);
        if a != b {
            return Some(row("face", f, format!("{a:?}"), format!("{b:?}")));
        }
    }
    None
}

fn demand(holds: bool, what: impl FnOnce() -> String) -> Result<(), String> {
    if holds { Ok(()) } else { Err(what()) }
}

/// Building by the library: the answer that document 01 gives, and what is left in every row. The mesh, if accepted.
pub fn build(case: &Case, tally: &mut Tally) -> Result<Option<(Tables, Counts)>, String> {
    let lists = &case.lists;
    let mut tables = lent(case);
    let before = tables.clone();
    let untold = [usize::MAX - 1, 77, 0];
    let mut counts = untold;
    let expected = grounds::building(lists, tables.room());
    let answer = library::build(lists, &mut tables, &mut counts);
    demand(answer == expected, || format!("building answers {answer}, document 01 or 02 says {expected}"))?;
    if let Some(text) = lists.text() {
        let (mut read, mut read_counts) = (lent(case), untold);
        let answer = library::build_text(text.as_bytes(), &mut read, &mut read_counts);
        let same = answer == expected && read.same(&tables) && read_counts == counts;
        demand(same, || format!("building from the text answers {answer}, or leaves other rows than from the lists"))?;
        tally.texts += 1;
    }
    tally.meshes += 1;
    tally.version_2 += u64::from(lists.version() == Version::Two);
    let room = Counts { points: lists.points(), edges: lists.listed.len(), faces: lists.faces() };
    if expected == 0 {
        let counts = Counts::of(counts);
        let left = tables.edges_zero(counts.edges, room.edges) && tables.same_beyond(room, &before);
        demand(left, || String::from("building leaves other rows than those of the mesh changed, or some not zeroed"))?;
        demand(library::audit(&tables, counts.array()) == 0, || String::from("what was built fails the audit"))?;
        tally.accepted += 1;
        return Ok(Some((tables, counts)));
    }
    *tally.refused.entry(expected).or_default() += 1;
    demand(counts == untold, || format!("building answers {answer} and writes the counts"))?;
    if expected < 10 {
        demand(tables.same(&before), || format!("building answers {answer} and touches the tables"))?;
    } else {
        let left = tables.is_zero(room) && tables.same_beyond(room, &before);
        demand(left, || format!("building answers {answer} and does not leave the counted rows zero and the others alone"))?;
    }
    Ok(None)
}

/// The refusal of the Rust beside that of the library. Of version 2 the Rust is given no side test.
fn refused(case: &Case, tally: &mut Tally) -> Result<(), String> {
    let expected = grounds::building(&case.lists, lent(case).room());
    if expected < 10 || case.lists.version() == Version::Two && expected == 13 {
        return Ok(());
    }
    match (expected, Mesh::build(&case.lists)) {
        (13 | 14 | 20, Err(line)) => {
            let ours = format!("[error {expected}]\n");
            demand(line == ours, || format!("the library refuses with {expected}, the Rust answers {line}"))?;
            *tally.refused_by_both.entry(expected).or_default() += 1;
            Ok(())
        }
        (13 | 14 | 20, Ok(_)) => Err(format!("the library refuses with {expected}, the Rust builds")),
        _ => Ok(()),
    }
}

/// The depth finder on a mesh of the case.
fn find_depths(case: &Case, mesh: &Tables, counts: Counts, tally: &mut Tally) -> Result<(), String> {
    depths::check(&mut Random::new(case.seed ^ 0xdeb7), mesh, counts.array(), 4, &mut tally.depths)
}

/// The listing of a mesh of the case, written and read back.
fn hand_over(case: &Case, mesh: &Tables, counts: Counts, tally: &mut Tally) -> Result<(), String> {
    listings::check(&mut Random::new(case.seed ^ 0x115), mesh, counts.array(), &mut tally.listings)
}

/// One step by the library and by the Rust, altered for the second edition. True if it was accepted; the mesh is then the
/// refined one.
fn step(
    case: &Case, mesh: &mut Tables, counts: &mut Counts, edition: Edition, order: Option<&[u32]>, rust: &mut Mesh,
    tally: &mut Tally, tamper: Option<Tamper>,
) -> Result<bool, String> {
    let after = counts.refined();
    let mut tables = Tables::patterned(after, case.spare).over(mesh);
    let mut scratch = Tables::patterned(after, case.spare);
    let (before, before_scratch) = (tables.clone(), scratch.clone());
    let mut words = counts.array();
    let numbered: Vec<u32> = (0..counts.faces as u32).collect();
    let answer = library::step(edition, &mut tables, &mut words, order.unwrap_or(&numbered), &mut scratch);
    if let (Some(tamper), 0) = (tamper, answer) {
        tamper(&mut tables);
    }
    rust.step(edition, order).map_err(|line| format!("the library answers {answer}, the Rust does not refine: {line}"))?;
    let (theirs, rust_counts) = rust.tables().ok_or("the Rust leaves a reference to no row")?;
    demand(rust_counts == after, || format!("the Rust has {rust_counts:?}, document 01 {after:?}"))?;
    let finite = theirs.positions.iter().chain(&theirs.intervals).all(|x| x.is_finite());
    let expected = if finite { 0 } else { 33 };
    demand(answer == expected, || format!("the step answers {answer}, by the Rust's numbers it is {expected}"))?;
    let zeroed = scratch.is_zero(after) && scratch.same_beyond(after, &before_scratch);
    demand(zeroed, || format!("the step answers {answer} and does not leave scratch zeroed"))?;
    tally.steps += 1;
    tally.steps_in_other_orders += u64::from(order.is_some());
    tally.steps_published += u64::from(edition == Edition::Second);
    if !finite {
        *tally.refused_steps.entry(33).or_default() += 1;
        demand(tables.same(&before) && words == counts.array(), || String::from("33 and the mesh is touched"))?;
        return Ok(false);
    }
    demand(words == after.array(), || format!("the counts after the step are {words:?}"))?;
    if let Some(row) = difference(&tables, &theirs, after) {
        return Err(row);
    }
    demand(tables.same_beyond(after, &before), || String::from("the step touches rows beyond the mesh"))?;
    tally.records += after.records();
    find_depths(case, &theirs, after, tally)?;
    hand_over(case, &theirs, after, tally)?;
    *mesh = theirs;
    *counts = after;
    Ok(true)
}

/// The steps of a case. The meshes after the accepted ones, if all were visited in numbered order.
fn steps(
    case: &Case, first: &Tables, first_counts: Counts, mut rust: Mesh, random: &mut Random, tally: &mut Tally,
    tamper: Option<Tamper>,
) -> Result<Option<Vec<Tables>>, String> {
    let (mut mesh, mut counts) = (first.clone(), first_counts);
    let mut stages = vec![mesh.clone()];
    for (done, &How { edition, numbered }) in case.steps.iter().enumerate() {
        let order = random.order(counts.faces);
        let order = (!numbered).then_some(&order[..]);
        let stage = |what: String| format!("step {}, {edition:?} edition: {what}", done + 1);
        if !step(case, &mut mesh, &mut counts, edition, order, &mut rust, tally, tamper).map_err(stage)? {
            break;
        }
        stages.push(mesh.clone());
    }
    Ok(case.steps.iter().all(|how| how.numbered).then_some(stages))
}

/// A second run, by the library in other orders and editions, held under the names against the stages of the first, by the
/// Rust in numbered order.
fn second_run(
    case: &Case, stages: &[Tables], first: Counts, random: &mut Random, tally: &mut Tally,
) -> Result<(), String> {
    let mut register = Register::default();
    let mut names = (Names::first(&mut register, first), Names::first(&mut register, first));
    let (mut mesh, mut counts) = (stages[0].clone(), first);
    for k in 1..=case.steps.len() {
        let edition = random.of(&[Edition::First, Edition::Second]);
        let after = counts.refined();
        let mut tables = Tables::patterned(after, case.spare).over(&mesh);
        let mut scratch = Tables::patterned(after, case.spare);
        let mut words = counts.array();
        let answer = library::step(edition, &mut tables, &mut words, &random.order(counts.faces), &mut scratch);
        let stage = |what: String| format!("second run, step {k}, {edition:?} edition: {what}");
        let other = stages.get(k);
        // Whether a number is finite does not depend on the order of that step; after the first, numbers may differ, and
        // between editions in any.
        let same_numbers = k == 1 && edition == case.steps[0].edition;
        if same_numbers && (answer == 0) != other.is_some() {
            return Err(stage(format!("it answers {answer}, in numbered order it was another answer")));
        }
        let (0, Some(other)) = (answer, other) else {
            demand(answer == 0 || answer == 33, || stage(format!("it answers {answer}")))?;
            break;
        };
        let none = || stage(String::from("a row has no name"));
        let one = names.0.after(&mut register, k as u32, &stages[k - 1], counts, other).ok_or_else(none)?;
        let two = names.1.after(&mut register, k as u32, &mesh, counts, &tables).ok_or_else(none)?;
        let share = if same_numbers { Share::Positions } else { Share::Structure };
        names::shared(after, (other, &one), (&tables, &two), share).map_err(stage)?;
        tally.records_under_names += after.records();
        names = (one, two);
        mesh = tables.first(after);
        counts = after;
    }
    tally.runs_under_names += 1;
    Ok(())
}

/// The largest: a torus of as many points, faces and listed points as building takes, refined up to the ceilings, and the
/// step beyond them, which is refused and touches nothing.
pub fn largest(tally: &mut Tally) -> Result<(), String> {
    let mut random = Random::new(64);
    let mut shape = shapes::torus(64, 64);
    shape.scramble(&mut random);
    let lists = numbers::ordinary(&mut random, &shape);
    let steps = vec![How { edition: Edition::First, numbered: true }, How { edition: Edition::Second, numbered: false }];
    let case = Case { lists, seed: 1, spare: 1, short: None, scrambled: false, steps, two_runs: false, agreeing: 0 };
    let Some((tables, counts)) = build(&case, tally)? else {
        return Err(String::from("the largest mesh is not built"));
    };
    let rust = Mesh::build(&case.lists).map_err(|line| format!("the Rust answers {line}"))?;
    let (theirs, _) = rust.tables().ok_or("the Rust leaves a reference to no row")?;
    if let Some(row) = difference(&tables, &theirs, counts) {
        return Err(format!("building: {row}"));
    }
    tally.records += counts.records();
    let (mut mesh, mut counts, mut rust) = (theirs, counts, rust);
    for &How { edition, numbered } in &case.steps {
        let order = random.order(counts.faces);
        let order = (!numbered).then_some(&order[..]);
        let refined = step(&case, &mut mesh, &mut counts, edition, order, &mut rust, tally, None)?;
        demand(refined, || String::from("the largest mesh is not refined"))?;
    }
    demand(counts == CEILINGS, || format!("the largest mesh has {counts:?}"))?;
    let after = counts.refined();
    for edition in [Edition::First, Edition::Second] {
        let (mut tables, mut scratch) = (Tables::patterned(after, 0).over(&mesh), Tables::patterned(after, 0));
        let (before, before_scratch, mut words) = (tables.clone(), scratch.clone(), counts.array());
        let answer = library::step(edition, &mut tables, &mut words, &random.order(counts.faces), &mut scratch);
        demand(answer == 32, || format!("the step beyond the ceilings answers {answer}"))?;
        *tally.refused_steps.entry(32).or_default() += 1;
        tally.steps += 1;
        let same = tables.same(&before) && scratch.same(&before_scratch) && words == counts.array();
        demand(same, || String::from("32 and something is touched"))?;
    }
    Ok(())
}

/// All that is asked of a case. The error says what differs.
pub fn check(case: &Case, tally: &mut Tally, tamper: Option<Tamper>) -> Result<(), String> {
    let built = build(case, tally).map_err(|what| format!("building: {what}"))?;
    mender::check(&mut Random::new(case.seed ^ 0x3e4d), &case.lists, &mut tally.mended)?;
    let Some((tables, counts)) = built else {
        return refused(case, tally);
    };
    let rust = Mesh::build(&case.lists).map_err(|line| format!("the library builds, the Rust answers {line}"))?;
    let (theirs, rust_counts) = rust.tables().ok_or("building: the Rust leaves a reference to no row")?;
    demand(rust_counts == counts, || format!("building: the library has {counts:?}, the Rust {rust_counts:?}"))?;
    if let Some(row) = difference(&tables, &theirs, counts) {
        return Err(format!("building: {row}"));
    }
    tally.records += counts.records();
    let largest = case.lists.places().iter().map(|place| place.1).max();
    tally.largest_face = tally.largest_face.max(largest.unwrap_or(0));

    let mut random = Random::new(case.seed);
    let (mut mesh, mut rust) = (theirs, rust);
    if case.scrambled && counts.edges > 0 {
        spoil::scramble(&mut random, &mut mesh, counts);
        demand(library::audit(&mesh, counts.array()) == 0, || String::from("the scrambled mesh fails the audit"))?;
        rust = Mesh::of_tables(&mesh, counts);
    }
    find_depths(case, &mesh, counts, tally)?;
    hand_over(case, &mesh, counts, tally)?;
    if counts.refined().faces > CEILINGS.faces {
        return Ok(());
    }
    let stages = steps(case, &mesh, counts, rust, &mut random, tally, tamper)?;
    if let Some(stages) = stages
        && case.two_runs
    {
        second_run(case, &stages, counts, &mut random, tally)?;
    }
    // As many steps as leave no more than some thousands of faces.
    let fit = (0..case.agreeing).take_while(|&k| (2 * counts.edges) << (2 * k) <= 4096).count();
    if fit == 0 {
        return Ok(());
    }
    agreement::check(&mut random, &mesh, counts, fit, &mut tally.agreed)
}
