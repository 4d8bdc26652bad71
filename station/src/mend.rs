//! The mender (document 02, section 8) against all choices of faces, tried one by one; its grounds; and what building makes of a
//! mended text.

use crate::compare::{self, Case, How, Tally};
use crate::library::{self, Edition};
use crate::lists::Lists;
use crate::random::Random;
use crate::mender::{self, Shared, reversed, shown, turned, works};
use crate::shapes::{self, Shape};
use crate::{grounds, numbers, spoil};
use oracle::text::Version;

/// Up to so many faces all choices are tried.
const TRIED: usize = 12;

/// What was mended, refused and compared.
#[derive(Default)]
pub struct Mended {
    pub texts: u64,
    pub answers: mender::Answers,
    /// Meshes of which all choices were tried.
    pub tried: u64,
    /// Faces that were turned.
    pub faces: u64,
    pub tally: Tally,
}

/// The lowest-numbered face of the part of each face, parts being faces joined through shared edges.
fn lowest(edges: &[Shared], faces: usize) -> Vec<usize> {
    let mut lowest: Vec<usize> = (0..faces).collect();
    loop {
        let before = lowest.clone();
        for Shared { faces: [f, g], .. } in edges {
            let low = lowest[*f].min(lowest[*g]);
            (lowest[*f], lowest[*g]) = (low, low);
        }
        if lowest == before {
            return lowest;
        }
    }
}

/// The choice, found by trying all of them. An error says that the document's words do not settle it.
fn by_trying(edges: &[Shared], faces: usize) -> Result<Option<Vec<bool>>, String> {
    let lowest = lowest(edges, faces);
    let choices = (0..1_u32 << faces).map(|bits| (0..faces).map(|f| bits >> f & 1 == 1).collect::<Vec<bool>>());
    let working: Vec<Vec<bool>> = choices.filter(|choice| works(edges, choice)).collect();
    let staying = |choice: &&Vec<bool>| (0..faces).all(|f| lowest[f] != f || !choice[f]);
    let those: Vec<&Vec<bool>> = working.iter().filter(staying).collect();
    if those.len() != usize::from(!working.is_empty()) {
        return Err(format!("{} choices work, in {} of them the lowest faces stay", working.len(), those.len()));
    }
    Ok(those.first().map(|choice| (*choice).clone()))
}

fn demand(holds: bool, what: impl FnOnce() -> String) -> Result<(), String> {
    if holds { Ok(()) } else { Err(what()) }
}

/// A text of any bytes through the mender. Of few faces, all choices are tried. The mended lists, if there are some.
fn check(text: &[u8], mended: &mut Mended) -> Result<Option<Lists>, String> {
    let lists = oracle::text::read(text).map(|mesh| Lists::of_mesh(&mesh));
    if let Some(lists) = &lists
        && lists.faces() <= TRIED
        && grounds::mending(lists) == 0
    {
        let (edges, faces) = (mender::edges(lists), lists.faces());
        let same = by_trying(&edges, faces)? == mender::by_walking(&edges, faces);
        demand(same, || format!("trying all choices finds another than walking, of the text\n{}", shown(text)))?;
        mended.tried += 1;
    }
    let made = mender::through(text, lists.as_ref(), &mut mended.answers)?;
    mended.texts += 1;
    mended.faces += made.as_ref().map_or(0, |made| made.turned) as u64;
    Ok(made.map(|made| made.lists))
}

/// The mended lists and their text built, and the mesh compared with the Rust's. 14, 15 and 20 are met no more.
fn build(random: &mut Random, lists: Lists, mended: &mut Mended) -> Result<(), String> {
    let room = library::Counts { points: lists.points(), edges: lists.listed.len(), faces: lists.faces() };
    let ground = grounds::building(&lists, room);
    demand(![14, 15, 20, 43].contains(&ground), || format!("building from a mended text meets {ground}"))?;
    let how = How { edition: random.of(&[Edition::First, Edition::Second]), numbered: true };
    let steps = if random.once_in(8) { vec![how] } else { Vec::new() };
    let case = Case {
        lists, seed: random.word(), spare: random.below(5), short: None, scrambled: false, steps, two_runs: false, agreeing: 0,
    };
    compare::check(&case, &mut mended.tally, None)
}

/// A surface with two sides, mostly of few faces.
fn two_sided(random: &mut Random) -> Shape {
    let mut shape = shapes::closed(random);
    while shape.borders.len() > TRIED && !random.once_in(6) {
        shape = shapes::closed(random);
    }
    shape
}

fn shape(random: &mut Random) -> Shape {
    match random.below(12) {
        0 => shapes::one_sided(random),
        1 => {
            let mut both = shapes::together(&[shapes::one_sided(random), two_sided(random)]);
            both.scramble(random);
            both
        }
        2 => shapes::together(&[shapes::tetrahedron(), shapes::pillow(3), shapes::tetrahedron()]),
        _ => two_sided(random),
    }
}

/// Another digit in the place of one: mostly the text is still of the form.
fn change_digit(random: &mut Random, text: &mut [u8]) {
    let digits: Vec<usize> = (0..text.len()).filter(|&at| text[at].is_ascii_digit()).collect();
    if !digits.is_empty() {
        text[random.of(&digits)] = random.of(b"0123456789");
    }
}

/// A mesh with faces turned, now and then spoilt, or of version 1; then its text damaged; then any bytes.
fn case(random: &mut Random, mended: &mut Mended) -> Result<(), String> {
    let version = if random.once_in(30) { Version::One } else { Version::Two };
    let shape = shape(random);
    let mut lists = numbers::numbered_in(random, &shape, version);
    lists = turned(random, &lists);
    if random.once_in(4) {
        for _ in 0..random.of(&[1, 1, 2, 3]) {
            if lists.agree() {
                spoil::lists(random, &mut lists);
            }
        }
    }
    let text = lists.text().unwrap_or_default().into_bytes();
    if let Some(lists) = check(&text, mended)? {
        build(random, lists, mended)?;
    }
    let mut damaged = text;
    if random.once_in(2) { change_digit(random, &mut damaged) } else { spoil::text(random, &mut damaged) }
    check(&damaged, mended)?;
    let length = random.below(90);
    let any: Vec<u8> = if random.once_in(2) {
        (0..length).map(|_| random.word() as u8).collect()
    } else {
        (0..length).map(|_| random.of(b"[] \n012af[mesh 2]\n[end]\n[point [face ")).collect()
    };
    check(&any, mended)?;
    Ok(())
}

/// Lists of faces with these borders: intervals that all differ, first points that agree.
fn plain(points: usize, borders: &[&[u32]]) -> Lists {
    let mut lists = Lists { coordinates: vec![0.5; 3 * points], firsts: Some(Vec::new()), ..Lists::default() };
    for border in borders {
        let n = border.len() as u32;
        lists.sides.extend([n / 2, 0, n - n / 2, 0]);
        lists.listed.extend(*border);
        let before = lists.intervals.len();
        lists.intervals.extend((0..border.len()).map(|k| (before + k + 1) as f64));
    }
    lists.fitted()
}

/// Each ground by a small text, in the order in which they are met, and those where two hold.
fn each_ground(mended: &mut Mended) -> Result<(), String> {
    let tetrahedron: [&[u32]; 4] = [&[0, 1, 2], &[1, 3, 0], &[1, 3, 2], &[0, 3, 2]];
    let good = plain(4, &tetrahedron);
    let with = |change: &dyn Fn(&mut Lists)| {
        let mut lists = good.clone();
        change(&mut lists);
        lists
    };
    // Changes that make each ground hold, the later ones in later faces.
    let over = |lists: &mut Lists| lists.coordinates.resize(3 * 4097, 0.5);
    let infinite = |lists: &mut Lists| lists.coordinates[4] = f64::INFINITY;
    let negative = |lists: &mut Lists| lists.intervals[7] = -0.0;
    let out_of_range = |lists: &mut Lists| {
        lists.listed[0] = 4097;
        *lists = std::mem::take(lists).fitted();
    };
    let twice = |lists: &mut Lists| {
        lists.listed[4] = lists.listed[3];
        *lists = std::mem::take(lists).fitted();
    };
    let first_point = |lists: &mut Lists| lists.firsts.iter_mut().for_each(|firsts| firsts[10] ^= 1);
    let version_1 = |lists: &mut Lists| lists.firsts = None;
    let both = |one: &dyn Fn(&mut Lists), two: &dyn Fn(&mut Lists)| {
        with(&|lists: &mut Lists| {
            one(lists);
            two(lists);
        })
    };
    let half_cube: [&[u32]; 3] = [&[0, 1, 2, 3], &[0, 1, 3, 2], &[0, 2, 1, 3]];
    let cases: Vec<(u32, Lists)> = vec![
        (0, good.clone()),
        (0, plain(0, &[])),
        (1, with(&version_1)),
        (1, both(&version_1, &over)),
        (2, with(&over)),
        (2, both(&over, &infinite)),
        (3, with(&infinite)),
        (3, with(&negative)),
        (3, both(&negative, &twice)),
        (10, plain(4, &[&[0, 1]])),
        (10, plain(4, &[&[0, 9]])),
        (11, with(&out_of_range)),
        (11, both(&out_of_range, &twice)),
        (11, plain(2, &[&[0, 0, 2]])),
        (12, with(&twice)),
        (12, both(&twice, &first_point)),
        (12, plain(2, &[&[0, 1, 0]])),
        (43, with(&first_point)),
        (14, plain(5, &[&[0, 1, 2], &[0, 1, 3], &[1, 0, 4]])),
        (14, plain(5, &[&[0, 1, 2], &[0, 1, 3], &[1, 0, 4], &[0, 1]])),
        (10, plain(5, &[&[0, 1, 2], &[0, 1, 3], &[0, 1], &[1, 0, 4]])),
        (20, plain(4, &tetrahedron[..3])),
        (20, plain(9, &[&[0, 1, 2, 3], &[0, 1, 3, 2], &[0, 2, 1, 3], &[4, 5, 6]])),
        (44, plain(4, &half_cube)),
        (44, plain(9, &[&[4, 5, 6], &[4, 5, 6], &[0, 1, 2, 3], &[0, 1, 3, 2], &[0, 2, 1, 3]])),
    ];
    for (ground, lists) in cases {
        let text = lists.text().ok_or("a small case has no text")?.into_bytes();
        let before = mended.answers.get(&ground).copied().unwrap_or(0);
        check(&text, mended)?;
        let met = mended.answers.get(&ground).copied().unwrap_or(0) > before;
        demand(met, || format!("the small case of {ground} is answered otherwise:\n{}", shown(&text)))?;
    }
    for text in [&b""[..], b"[mesh 2]\n", b"[mesh 2]\n[end]", b"[mesh 3]\n[end]\n", b"[mesh 1]\n[end]\n"] {
        let met = check(text, mended)?;
        demand(met.is_none(), || String::from("what is no text of version 2 is mended"))?;
    }
    for seed in 0..40 {
        let mut random = Random::new(seed);
        let shape = shapes::one_sided(&mut random);
        let lists = numbers::numbered_in(&mut random, &shape, Version::Two);
        let lists = turned(&mut random, &lists);
        let before = mended.answers.get(&44).copied().unwrap_or(0);
        check(&lists.text().unwrap_or_default().into_bytes(), mended)?;
        demand(mended.answers.get(&44).copied().unwrap_or(0) > before, || String::from("a surface with one side is mended"))?;
    }
    Ok(())
}

/// The largest: a torus of 64 by 64 squares, half of them turned.
fn largest(mended: &mut Mended) -> Result<(), String> {
    let mut random = Random::new(64);
    let mut shape = shapes::torus(64, 64);
    shape.scramble(&mut random);
    let lists = numbers::numbered_in(&mut random, &shape, Version::Two);
    let choice: Vec<bool> = (0..lists.faces()).map(|_| random.once_in(2)).collect();
    let text = reversed(&lists, &choice).text().unwrap_or_default().into_bytes();
    let lists = check(&text, mended)?.ok_or("the largest mesh is not mended")?;
    let case = Case {
        lists, seed: 1, spare: 1, short: None, scrambled: false, steps: Vec::new(), two_runs: false, agreeing: 0,
    };
    compare::build(&case, &mut mended.tally).map(drop)
}

/// The small texts of each ground, the largest mesh, and so many cases; where it fails, and how.
pub fn run(cases: u64, seed: u64) -> Result<Mended, (String, String)> {
    let mut mended = Mended::default();
    each_ground(&mut mended).map_err(|what| (String::from("the small texts"), what))?;
    largest(&mut mended).map_err(|what| (String::from("the torus of 64 by 64"), what))?;
    for number in 0..cases {
        let mut random = Random::of_case(seed ^ 0x3e4d, number);
        case(&mut random, &mut mended).map_err(|what| (format!("case {number} of seed {seed}"), what))?;
    }
    Ok(mended)
}
