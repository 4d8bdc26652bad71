//! Lists, tables, orders and texts spoilt in one place or more.

use crate::grounds::{MOST_FACES, MOST_LISTED, MOST_POINTS, Rows};
use crate::library::{Counts, NONE, Tables};
use crate::lists::Lists;
use crate::random::Random;

/// Numbers that are no coordinate, then also numbers that are no interval.
const NO_NUMBERS: [f64; 3] = [f64::NAN, f64::INFINITY, f64::NEG_INFINITY];
const NO_INTERVALS: [f64; 5] = [f64::NAN, f64::INFINITY, -1.0, -0.0, -5e-324];

/// The lists with something wrong, as a rule: now and then the change does no harm. In version 2 the first points agree with
/// the lists that were changed, or it is they that are wrong.
pub fn lists(random: &mut Random, lists: &mut Lists) {
    if random.once_in(5) && lists.firsts.is_some() {
        return first_points(random, lists);
    }
    other_lists(random, lists);
    *lists = std::mem::take(lists).fitted();
}

/// A first point that is another one, or in range no more, now and then in a face whose sums are made to disagree too; or one
/// too few or too many.
fn first_points(random: &mut Random, lists: &mut Lists) {
    let (points, places) = (lists.points() as u32, lists.places());
    let Some(firsts) = &mut lists.firsts else { return };
    if firsts.is_empty() || random.once_in(6) {
        match random.below(2) {
            0 => drop(firsts.pop()),
            _ => firsts.push(0),
        }
        return;
    }
    let (side, other) = (random.below(firsts.len()), random.of(firsts));
    firsts[side] = random.of(&[other, other, 0, points, NONE]);
    let (begin, size) = places[side / 4];
    if size > 0 && random.once_in(3) {
        lists.intervals[begin + random.below(size)] += 1.0;
    }
}

fn other_lists(random: &mut Random, lists: &mut Lists) {
    let Some(faces) = lists.faces().checked_sub(1) else {
        return shorten(random, lists);
    };
    let face = random.between(0, faces);
    let (begin, size) = lists.places()[face];
    if size == 0 || lists.coordinates.is_empty() {
        return shorten(random, lists);
    }
    let entry = begin + random.below(size);
    match random.below(26) {
        0 => *random_of(random, &mut lists.coordinates) = random.of(&NO_NUMBERS),
        1 => *random_of(random, &mut lists.intervals) = random.of(&NO_INTERVALS),
        2 => shorten(random, lists),
        3 => *random_of(random, &mut lists.sides) ^= 1 << random.below(32),
        4 => lists.coordinates.resize(3 * (MOST_POINTS + 1), 0.5),
        5 if random.once_in(4) => over_listed(random, lists),
        6..=8 => take_entries(random, lists, face),
        9 => add_big_face(random, lists),
        10 | 11 => lists.listed[entry] = random.of(&[lists.points() as u32, lists.points() as u32 + 7, NONE]),
        12 | 13 => lists.listed[entry] = lists.listed[begin + random.below(size)],
        14 => lists.intervals[entry] += random.of(&[1.0, 1e-5, 1.1e-6, 1e17]),
        15 => lists.intervals[entry] *= random.of(&[2.0, 1.0000000001, 1e300]),
        16 => copy_face(lists, face, false),
        17 => copy_face(lists, face, true),
        18 | 19 => turn_face(lists, face),
        20 | 21 => take_face(lists, face),
        22 => lists.coordinates.extend([1.0, 2.0, 3.0]),
        23 | 24 => join_points(random, lists),
        _ => lists.listed.swap(entry, begin),
    }
}

fn random_of<'a, T>(random: &mut Random, items: &'a mut [T]) -> &'a mut T {
    let at = random.below(items.len());
    &mut items[at]
}

/// One list ends too early or too late.
fn shorten(random: &mut Random, lists: &mut Lists) {
    match random.below(8) {
        0 => drop(lists.coordinates.pop()),
        1 => lists.coordinates.push(1.0),
        2 => drop(lists.sides.pop()),
        3 => lists.sides.push(0),
        4 => drop(lists.listed.pop()),
        5 => lists.listed.push(0),
        6 => drop(lists.intervals.pop()),
        _ => lists.intervals.push(1.0),
    }
}

/// More faces, or more listed points, than building takes.
fn over_listed(random: &mut Random, lists: &mut Lists) {
    if random.once_in(2) {
        lists.sides.resize(4 * (MOST_FACES + 1), 0);
    } else {
        let more = MOST_LISTED + 1 - lists.listed.len();
        lists.sides.extend([more as u32, 0, 0, 0]);
        lists.listed.resize(MOST_LISTED + 1, 0);
        lists.intervals.resize(MOST_LISTED + 1, 1.0);
    }
}

/// A face keeps 0 to 2 of its points.
fn take_entries(random: &mut Random, lists: &mut Lists, face: usize) {
    let (begin, size) = lists.places()[face];
    let kept = random.below(3).min(size);
    lists.listed.drain(begin + kept..begin + size);
    lists.intervals.drain(begin + kept..begin + size);
    lists.sides[4 * face..4 * face + 4].copy_from_slice(&[kept as u32, 0, 0, 0]);
}

/// A pillow of 64 or 65 points in place of everything, or one such face more.
fn add_big_face(random: &mut Random, lists: &mut Lists) {
    let size = random.of(&[64, 65, 65, 66]);
    let first = lists.points() as u32;
    lists.coordinates.extend((0..3 * size).map(|k| k as f64));
    for turned in [false, true] {
        let half = size as u32 / 2;
        lists.sides.extend([half, 0, size as u32 - half, 0]);
        lists.listed.extend((0..size as u32).map(|k| first + if turned { size as u32 - 1 - k } else { k }));
        lists.intervals.extend((0..size).map(|k| if size % 2 == 1 && k == 0 { 2.0 } else { 1.0 }));
    }
}

fn copy_face(lists: &mut Lists, face: usize, turned: bool) {
    let (begin, size) = lists.places()[face];
    let sides: Vec<u32> = lists.sides[4 * face..4 * face + 4].to_vec();
    lists.sides.extend(sides);
    lists.listed.extend_from_within(begin..begin + size);
    lists.intervals.extend_from_within(begin..begin + size);
    if turned {
        turn_face(lists, lists.faces() - 1);
    }
}

fn turn_face(lists: &mut Lists, face: usize) {
    let (begin, size) = lists.places()[face];
    lists.listed[begin..begin + size].reverse();
}

pub fn take_face(lists: &mut Lists, face: usize) {
    let (begin, size) = lists.places()[face];
    lists.sides.drain(4 * face..4 * face + 4);
    lists.listed.drain(begin..begin + size);
    lists.intervals.drain(begin..begin + size);
}

/// One point takes the place of another in every face. The other one is left with no edge, or goes too.
fn join_points(random: &mut Random, lists: &mut Lists) {
    let np = lists.points();
    if np < 2 {
        return;
    }
    let (p, q) = (random.below(np) as u32, np as u32 - 1);
    for point in &mut lists.listed {
        if *point == q {
            *point = p;
        }
    }
    if !random.once_in(4) {
        lists.coordinates.truncate(3 * (np - 1));
    }
}

/// Another start edge for each point and face, another direction for some edges, other corners and marks: still closed.
pub fn scramble(random: &mut Random, tables: &mut Tables, counts: Counts) {
    for p in 0..counts.points {
        let edges = Rows(tables).point_walk(p, counts.edges).unwrap_or_default();
        tables.points[3 * p + 1] = random.of(&edges) as u32;
        tables.points[3 * p + 2] = random.below(2) as u32;
    }
    for f in 0..counts.faces {
        let edges = Rows(tables).face_walk(f, 64).unwrap_or_default();
        tables.faces[5 * f] = random.of(&edges) as u32;
        for k in 1..5 {
            if random.once_in(2) {
                let point = random_row(random, counts.points);
                tables.faces[5 * f + k] = random.of(&[NONE, point]);
            }
        }
    }
    for e in 0..counts.edges {
        if random.once_in(2) {
            let row = &mut tables.edges[8 * e..8 * e + 8];
            row.swap(0, 1);
            row.swap(2, 3);
            row.swap(4, 6);
            row.swap(5, 7);
        }
    }
}

fn random_row(random: &mut Random, rows: usize) -> u32 {
    random.below(rows) as u32
}

/// One word or number of the rows of a mesh changed. Not every change makes the mesh another than a closed one.
pub fn tables(random: &mut Random, tables: &mut Tables, counts: Counts) {
    if counts.edges == 0 {
        return;
    }
    let any = [counts.points, counts.edges, counts.faces, 1 << 20];
    let bound = random.of(&any).max(1);
    let word = match random.below(8) {
        0 => NONE,
        1 => random.of(&any) as u32,
        2 => 0,
        _ => random_row(random, bound),
    };
    match random.below(12) {
        0 => tables.positions[random.below(3 * counts.points)] = random.of(&NO_NUMBERS),
        1 => tables.intervals[random.below(counts.edges)] = random.of(&NO_INTERVALS),
        2 => tables.points[3 * random.below(counts.points)] = word,
        3 => tables.points[3 * random.below(counts.points) + 1] = word,
        4 => tables.points[3 * random.below(counts.points) + 2] = word,
        5 => tables.faces[5 * random.below(counts.faces)] = word,
        6 => tables.faces[5 * random.below(counts.faces) + random.between(1, 4)] = word,
        7 => {
            let (e, k) = (random.below(counts.edges), random.between(0, 3));
            tables.edges.swap(8 * e + k, 8 * e + (k ^ 1));
        }
        8 => {
            let (e, o) = (random.below(counts.edges), random.below(counts.edges));
            let k = random.below(8);
            tables.edges.swap(8 * e + k, 8 * o + k);
        }
        _ => tables.edges[random.below(8 * counts.edges)] = word,
    }
}

/// An order of the faces that is mostly unfit.
pub fn order(random: &mut Random, order: &mut Vec<u32>) {
    match random.below(5) {
        0 => drop(order.pop()),
        1 => order.push(random.below(order.len() + 1) as u32),
        2 if !order.is_empty() => *random_of(random, order) = NONE,
        3 if order.len() > 1 => {
            let (a, b) = (random.below(order.len()), random.below(order.len()));
            order[a] = order[b];
        }
        _ => order.push(order.len() as u32),
    }
}

/// A text with some bytes changed, left out, put in or doubled, or cut short.
pub fn text(random: &mut Random, text: &mut Vec<u8>) {
    for _ in 0..random.between(1, 3) {
        if text.is_empty() {
            return text.push(random.of(b"[\nm"));
        }
        let at = random.below(text.len());
        let byte = random.of(b"[] \n0123456789abcdefgmpointfacehs\x00\xff");
        match random.below(7) {
            0 => text[at] = byte,
            1 => drop(text.remove(at)),
            2 => text.insert(at, byte),
            3 => text.truncate(at),
            4 => text[at] ^= 1 << random.below(8),
            5 => {
                let lines: Vec<&[u8]> = text.split_inclusive(|&b| b == b'\n').collect();
                let mut lines: Vec<Vec<u8>> = lines.into_iter().map(<[u8]>::to_vec).collect();
                let (a, b) = (random.below(lines.len()), random.below(lines.len()));
                if random.once_in(2) { lines.swap(a, b) } else { lines[a] = lines[b].clone() }
                *text = lines.concat();
            }
            _ => {
                let end = (at + random.between(1, 40)).min(text.len());
                let part = text[at..end].to_vec();
                if random.once_in(2) { drop(text.splice(at..at, part)) } else { drop(text.drain(at..end)) }
            }
        }
    }
}
