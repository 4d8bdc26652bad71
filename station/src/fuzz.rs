//! Random and damaged lists, texts and tables through the library. Each answer is the one that document 01 gives, and every row of
//! every table is what its ground promises.

use crate::compare::{self, Case, Tally};
use crate::grounds::{self, CEILINGS};
use crate::library::{self, Counts, Edition, Tables};
use crate::lists::Lists;
use crate::random::Random;
use crate::rust::Mesh;
use crate::{depths, listings, mender, numbers, shapes, spoil};
use std::collections::BTreeMap;

#[derive(Default)]
pub struct Fuzzed {
    pub lists: u64,
    pub texts: u64,
    pub tables: u64,
    pub steps: u64,
    /// How often each answer was given: by building from lists, from texts, and by the step.
    pub building: BTreeMap<u32, u64>,
    pub reading: BTreeMap<u32, u64>,
    pub answers: BTreeMap<u32, u64>,
    pub audits: [u64; 2],
    pub depths: depths::Answers,
    pub listings: listings::Answers,
    pub mended: mender::Answers,
}

/// Any binary64, near ones more often than far ones.
fn any_number(random: &mut Random) -> f64 {
    match random.below(4) {
        0 => f64::from_bits(random.word()),
        1 => 0.0,
        _ => random.below(9) as f64 - 1.0,
    }
}

fn any_word(random: &mut Random, bound: usize) -> u32 {
    if random.once_in(30) { random.word() as u32 } else { random.below(bound) as u32 }
}

fn words(random: &mut Random, length: usize, bound: usize) -> Vec<u32> {
    (0..length).map(|_| any_word(random, bound)).collect()
}

fn numbers(random: &mut Random, length: usize) -> Vec<f64> {
    let plain = random.once_in(2);
    (0..length).map(|_| if plain { random.below(3) as f64 } else { any_number(random) }).collect()
}

/// Lists of any content. Most have lengths that agree, so that later grounds are met too.
fn any_lists(random: &mut Random) -> Lists {
    let (np, nf) = (random.below(7), random.below(6));
    let sides: Vec<u32> = (0..4 * nf).map(|_| random.below(3) as u32).collect();
    let listed = sides.iter().sum::<u32>() as usize;
    let mut lists = Lists {
        coordinates: numbers(random, 3 * np),
        firsts: random.once_in(2).then(Vec::new),
        listed: words(random, listed, np.max(1)),
        intervals: numbers(random, listed),
        sides,
    }
    .fitted();
    if random.once_in(5) {
        spoil::lists(random, &mut lists);
    }
    lists
}

/// Tables of any content with counts of any size.
fn any_tables(random: &mut Random) -> (Tables, [usize; 3]) {
    let small = Counts { points: random.below(5), edges: random.below(7), faces: random.below(5) };
    let mut length = |length: usize| if random.once_in(3) { random.below(length + 9) } else { length };
    let lengths = [3 * small.points, 3 * small.points, 8 * small.edges, small.edges, 5 * small.faces].map(&mut length);
    let bound = random.between(1, 8);
    let tables = Tables {
        positions: numbers(random, lengths[0]),
        points: words(random, lengths[1], bound),
        edges: words(random, lengths[2], bound),
        intervals: numbers(random, lengths[3]),
        faces: words(random, lengths[4], bound),
    };
    (tables, damaged_counts(random, small))
}

/// The counts, or other ones, also such as no table has room for.
fn damaged_counts(random: &mut Random, counts: Counts) -> [usize; 3] {
    let mut words = counts.array();
    if random.once_in(4) {
        let far = [usize::MAX, usize::MAX / 8 + 1, 1 << 61, 1 << 32, 0];
        let at = random.below(3);
        words[at] = match random.below(3) {
            0 => random.of(&far),
            1 => words[at] + 1,
            _ => words[at].saturating_sub(1),
        };
    }
    words
}

/// A closed mesh, now and then one step on.
fn closed_mesh(random: &mut Random) -> (Tables, Counts) {
    loop {
        let shape = shapes::closed(random);
        let lists = numbers::numbered(random, &shape);
        let room = Counts { points: lists.points(), edges: lists.listed.len(), faces: lists.faces() };
        let (mut tables, mut words) = (Tables::with_rows(room), [0; 3]);
        if library::build(&lists, &mut tables, &mut words) != 0 {
            continue;
        }
        let counts = Counts::of(words);
        let mut mesh = tables.first(counts);
        if counts.edges > 0 && random.once_in(2) {
            spoil::scramble(random, &mut mesh, counts);
        }
        let after = counts.refined();
        let mut refined = Tables::with_rows(after).over(&mesh);
        let order = random.order(counts.faces);
        let edition = random.of(&[Edition::First, Edition::Second]);
        if random.once_in(4) && library::step(edition, &mut refined, &mut words, &order, &mut Tables::with_rows(after)) == 0 {
            return (refined, after);
        }
        return (mesh, counts);
    }
}

fn demand(holds: bool, what: impl FnOnce() -> String) -> Result<(), String> {
    if holds { Ok(()) } else { Err(what()) }
}

/// The audit, the depth finder and a step of tables of any content, held against documents 01 and 02 and, where the mesh is
/// closed, the Rust.
fn through(
    random: &mut Random, tables: Tables, words: [usize; 3], order: &[u32], scratch: Tables, fuzzed: &mut Fuzzed,
) -> Result<(), String> {
    let counts = Counts::of(words);
    let closed = grounds::is_closed(&tables, counts);
    let answer = library::audit(&tables, words);
    demand(answer == if closed { 0 } else { 30 }, || format!("the audit answers {answer}, closed is {closed}"))?;
    fuzzed.audits[usize::from(closed)] += 1;
    depths::check(random, &tables, words, 3, &mut fuzzed.depths)?;
    listings::check(random, &tables, words, &mut fuzzed.listings)?;

    let expected = grounds::step(&tables, counts, order, &scratch);
    let (before, before_scratch) = (tables.clone(), scratch.clone());
    let (mut tables, mut scratch, mut after_words) = (tables, scratch, words);
    let edition = random.of(&[Edition::First, Edition::Second]);
    let answer = library::step(edition, &mut tables, &mut after_words, order, &mut scratch);
    fuzzed.steps += 1;
    *fuzzed.answers.entry(answer).or_default() += 1;
    if expected != 0 {
        demand(answer == expected, || format!("the step answers {answer}, document 01 says {expected}"))?;
        let same = tables.same(&before) && scratch.same(&before_scratch) && after_words == words;
        return demand(same, || format!("the step answers {answer} and touches something"));
    }
    let after = counts.refined();
    let zeroed = scratch.is_zero(after) && scratch.same_beyond(after, &before_scratch);
    demand(zeroed, || format!("the step answers {answer} and does not leave scratch zeroed"))?;
    let mut rust = Mesh::of_tables(&before, counts);
    rust.step(edition, Some(order)).map_err(|line| format!("the library answers {answer}, the Rust {line}"))?;
    let (theirs, _) = rust.tables().ok_or("the Rust leaves a reference to no row")?;
    let finite = theirs.positions.iter().chain(&theirs.intervals).all(|x| x.is_finite());
    if !finite {
        let same = answer == 33 && tables.same(&before) && after_words == words;
        return demand(same, || format!("the step answers {answer} where a number is not finite, or touches the mesh"));
    }
    let same = answer == 0 && after_words == after.array() && tables.first(after).same(&theirs);
    demand(same && tables.same_beyond(after, &before), || format!("the step answers {answer}, and not as the Rust"))
}

/// Damage of a closed mesh, of the order and of the room, each now and then.
fn damaged(random: &mut Random, fuzzed: &mut Fuzzed) -> Result<(), String> {
    let (mesh, counts) = closed_mesh(random);
    let after = counts.refined();
    if after.faces > CEILINGS.faces {
        return Ok(());
    }
    let spare = random.of(&[0, 0, 1, 13]);
    let mut tables = Tables::patterned(after, spare).over(&mesh);
    let mut scratch = Tables::patterned(after, spare);
    let mut order = random.order(counts.faces);
    let mut words = counts.array();
    match random.below(8) {
        0..=3 => {
            for _ in 0..random.of(&[1, 1, 1, 2, 3]) {
                spoil::tables(random, &mut tables, counts);
            }
        }
        4 => spoil::order(random, &mut order),
        5 => words = damaged_counts(random, counts),
        6 => {
            let lent = if random.once_in(2) { &mut tables } else { &mut scratch };
            let lacks = spare + random.between(1, 8);
            match random.below(5) {
                0 => lent.positions.truncate(lent.positions.len().saturating_sub(lacks)),
                1 => lent.points.truncate(lent.points.len().saturating_sub(lacks)),
                2 => lent.edges.truncate(lent.edges.len().saturating_sub(lacks)),
                3 => lent.intervals.truncate(lent.intervals.len().saturating_sub(lacks)),
                _ => lent.faces.truncate(lent.faces.len().saturating_sub(lacks)),
            }
        }
        _ => {}
    }
    through(random, tables, words, &order, scratch, fuzzed)
}

/// A text of any bytes, or one of a mesh with damage, through building. The oracle's reader says what is of the form.
fn text(random: &mut Random, fuzzed: &mut Fuzzed) -> Result<(), String> {
    let mut bytes: Vec<u8> = match random.below(8) {
        0 => (0..random.below(60)).map(|_| random.word() as u8).collect(),
        1 => (0..random.below(90)).map(|_| random.of(b"[] \n012af[mesh 1]\n[end]\n[point [face ")).collect(),
        2 => any_lists(random).text().unwrap_or_default().into_bytes(),
        _ => {
            let shape = shapes::closed(random);
            numbers::numbered(random, &shape).text().unwrap_or_default().into_bytes()
        }
    };
    if !random.once_in(8) {
        spoil::text(random, &mut bytes);
    }
    let lists = oracle::text::read(&bytes).map(|mesh| Lists::of_mesh(&mesh));
    mender::through(&bytes, lists.as_ref(), &mut fuzzed.mended)?;
    let (told, wanted) = (library::explain_text(&bytes), grounds::explained(lists.as_ref()));
    demand(told == wanted, || {
        format!("explained as {told:?}, document 01 says {wanted:?}, to the text\n{}", String::from_utf8_lossy(&bytes))
    })?;
    let listed = lists.clone().unwrap_or_default();
    let room = Counts { points: listed.points(), edges: listed.listed.len(), faces: listed.faces() };
    let mut tables = Tables::patterned(room, random.below(9));
    if random.once_in(20) {
        tables.edges.truncate(tables.edges.len() / 2);
    }
    let expected = lists.map_or(1, |lists| grounds::building(&lists, tables.room()));
    let before = tables.clone();
    let untold = [9, 8, 7];
    let mut words = untold;
    let answer = library::build_text(&bytes, &mut tables, &mut words);
    demand(answer == expected, || {
        format!("building answers {answer}, document 01 says {expected}, to the text\n{}", String::from_utf8_lossy(&bytes))
    })?;
    fuzzed.texts += 1;
    *fuzzed.reading.entry(answer).or_default() += 1;
    let left = match answer {
        0 => library::audit(&tables, words) == 0 && tables.same_beyond(room, &before),
        1..=4 => tables.same(&before) && words == untold,
        _ => tables.is_zero(room) && tables.same_beyond(room, &before) && words == untold,
    };
    demand(left, || format!("building from a text answers {answer} and leaves other rows than that ground promises"))
}

/// One case of each kind.
fn case(random: &mut Random, fuzzed: &mut Fuzzed) -> Result<(), String> {
    let lists = any_lists(random);
    let short = random.once_in(8).then(|| (random.below(5), random.between(1, 9)));
    let case = Case {
        lists, seed: 0, spare: random.below(9), short, scrambled: false, steps: Vec::new(), two_runs: false, agreeing: 0,
    };
    let mut tally = Tally::default();
    compare::build(&case, &mut tally)?;
    mender::check(random, &case.lists, &mut fuzzed.mended)?;
    fuzzed.lists += 1;
    *fuzzed.building.entry(tally.refused.keys().next().copied().unwrap_or(0)).or_default() += 1;

    text(random, fuzzed)?;
    let (tables, words) = any_tables(random);
    let order_length = random.below(6);
    let order = words_below(random, order_length);
    let (scratch, _) = any_tables(random);
    through(random, tables, words, &order, scratch, fuzzed)?;
    damaged(random, fuzzed)?;
    fuzzed.tables += 2;
    Ok(())
}

fn words_below(random: &mut Random, length: usize) -> Vec<u32> {
    words(random, length, length.max(1))
}

/// So many cases; the number of the first that fails, and how.
pub fn run(cases: u64, seed: u64) -> Result<Fuzzed, (u64, String)> {
    let mut fuzzed = Fuzzed::default();
    for number in 0..cases {
        let mut random = Random::of_case(seed ^ 0xf022, number);
        case(&mut random, &mut fuzzed).map_err(|what| (number, what))?;
    }
    Ok(fuzzed)
}
