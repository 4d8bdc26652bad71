//! The handover listing, held against document 02 in plain Rust: the bytes of a mesh's listing, what a text lists, and what writing
//! and reading are to answer and to leave.

use crate::grounds::{self, CEILINGS};
use crate::library::{self, Counts, Tables};
use crate::random::Random;
use std::collections::BTreeMap;
use std::fmt::Write;

/// How often each answer was given, 0 for a listing that was written or read.
pub type Answers = BTreeMap<u32, u64>;

/// The listing of the rows of these counts.
pub fn text(tables: &Tables, counts: Counts) -> String {
    let bits = |numbers: &[f64]| numbers.iter().map(|x| format!("{:016x}", x.to_bits())).collect::<Vec<_>>().join(" ");
    let words = |row: &[u32]| row.iter().map(u32::to_string).collect::<Vec<_>>().join(" ");
    let mut text = String::from("[mesh 3]\n");
    for p in 0..counts.points {
        let row = 3 * p..3 * p + 3;
        writeln!(text, "[point {} {}]", bits(&tables.positions[row.clone()]), words(&tables.points[row])).unwrap();
    }
    for e in 0..counts.edges {
        writeln!(text, "[edge {} {}]", words(&tables.edges[8 * e..8 * e + 8]), bits(&tables.intervals[e..e + 1])).unwrap();
    }
    for f in 0..counts.faces {
        writeln!(text, "[face {}]", words(&tables.faces[5 * f..5 * f + 5])).unwrap();
    }
    text + "[end]\n"
}

/// A word as document 02 writes it: decimal, below 2^32, with no leading zero.
fn word(field: &str) -> Option<u32> {
    let plain = field.bytes().all(|b| b.is_ascii_digit()) && (field == "0" || !field.starts_with('0'));
    if plain { field.parse().ok() } else { None }
}

/// A number as H.
fn number(field: &str) -> Option<f64> {
    let plain = field.len() == 16 && field.bytes().all(|b| b.is_ascii_digit() || (b'a'..=b'f').contains(&b));
    if plain { u64::from_str_radix(field, 16).ok().map(f64::from_bits) } else { None }
}

/// The fields of a line of this kind.
fn fields<'a>(line: &'a str, kind: &str) -> Option<Vec<&'a str>> {
    Some(line.strip_prefix(kind)?.strip_suffix(']')?.split(' ').collect())
}

/// The rows that a text lists, with their counts; nothing if it is not of the form.
pub fn rows(text: &[u8]) -> Option<(Tables, Counts)> {
    let body = std::str::from_utf8(text).ok()?.strip_prefix("[mesh 3]\n")?.strip_suffix("[end]\n")?;
    let (mut tables, mut counts) = (Tables::default(), Counts::default());
    for line in body.split_terminator('\n') {
        if let Some(fields) = fields(line, "[point ") {
            if fields.len() != 6 || counts.edges + counts.faces > 0 {
                return None;
            }
            for field in &fields[..3] {
                tables.positions.push(number(field)?);
            }
            for field in &fields[3..] {
                tables.points.push(word(field)?);
            }
            if *tables.points.last()? > 1 {
                return None;
            }
            counts.points += 1;
        } else if let Some(fields) = fields(line, "[edge ") {
            if fields.len() != 9 || counts.faces > 0 {
                return None;
            }
            for field in &fields[..8] {
                tables.edges.push(word(field)?);
            }
            tables.intervals.push(number(fields[8])?);
            counts.edges += 1;
        } else {
            let fields = fields(line, "[face ")?;
            if fields.len() != 5 {
                return None;
            }
            for field in fields {
                tables.faces.push(word(field)?);
            }
            counts.faces += 1;
        }
    }
    (body.is_empty() || body.ends_with('\n')).then_some((tables, counts))
}

fn over_ceilings(counts: Counts) -> bool {
    counts.points > CEILINGS.points || counts.edges > CEILINGS.edges || counts.faces > CEILINGS.faces
}

fn has_room(room: Counts, counts: Counts) -> bool {
    counts.points <= room.points && counts.edges <= room.edges && counts.faces <= room.faces
}

fn demand(holds: bool, what: impl FnOnce() -> String) -> Result<(), String> {
    if holds { Ok(()) } else { Err(what()) }
}

/// Writing a mesh: an output that just suffices, one that is longer, one that is too short. Gives the listing.
fn write(tables: &Tables, words: [usize; 3], random: &mut Random, answers: &mut Answers) -> Result<Option<Vec<u8>>, String> {
    let counts = Counts::of(words);
    let closed = grounds::is_closed(tables, counts);
    let listing = if closed { text(tables, counts).into_bytes() } else { Vec::new() };
    let room = if random.once_in(3) { random.below(listing.len() + 1) } else { listing.len() + random.of(&[0, 0, 1, 30]) };
    let expected = match (closed, over_ceilings(counts), room < listing.len()) {
        (false, ..) => 30,
        (_, true, _) => 2,
        (.., true) => 4,
        _ => 0,
    };
    let before: Vec<u8> = (0..room).map(|at| 0xa5 ^ at as u8).collect();
    let untold = usize::MAX - 3;
    let (mut output, mut written) = (before.clone(), untold);
    let answer = library::write_listing(tables, words, &mut output, &mut written);
    *answers.entry(answer).or_default() += 1;
    demand(answer == expected, || format!("writing the listing answers {answer}, expected is {expected}"))?;
    if expected != 0 {
        demand(output == before && written == untold, || format!("writing answers {answer} and writes"))?;
        return Ok(None);
    }
    let left = written == listing.len() && output[..written] == listing[..] && output[written..] == before[written..];
    demand(left, || String::from("the listing is another, or bytes behind it are touched"))?;
    Ok(Some(listing))
}

/// Reading bytes of any kind into tables with so many rows.
fn read(bytes: &[u8], lent: Tables, answers: &mut Answers) -> Result<(), String> {
    let found = rows(bytes);
    let (mut tables, untold) = (lent.clone(), [usize::MAX - 1, 77, 0]);
    let mut counts = untold;
    let answer = library::read_listing(bytes, &mut tables, &mut counts);
    *answers.entry(answer).or_default() += 1;
    let expected = match &found {
        None => 40,
        Some((_, counts)) if over_ceilings(*counts) => 2,
        Some((_, counts)) if !has_room(lent.room(), *counts) => 4,
        Some((rows, counts)) if !grounds::is_closed(rows, *counts) => 30,
        Some(_) => 0,
    };
    demand(answer == expected, || format!("reading the listing answers {answer}, expected is {expected}"))?;
    match (found, expected) {
        (Some((rows, listed)), 0) => {
            let left = counts == listed.array() && tables.same(&lent.over(&rows));
            demand(left, || String::from("reading leaves other rows than are listed, or other counts"))
        }
        (Some((_, listed)), 30) => {
            let left = counts == untold && tables.is_zero(listed) && tables.same_beyond(listed, &lent);
            demand(left, || String::from("30, and the listed rows are not zeroed, or others are touched"))
        }
        _ => demand(counts == untold && tables.same(&lent), || format!("reading answers {answer} and touches the tables")),
    }
}

/// A listing with something changed: a byte, a line, a field, its end.
fn damaged(random: &mut Random, listing: &[u8]) -> Vec<u8> {
    let mut bytes = listing.to_vec();
    let at = random.below(bytes.len());
    match random.below(8) {
        0 => bytes[at] = random.of(b"0123456789abcdef [] \n\x00A"),
        1 => bytes.insert(at, random.of(b"0 9f]\n")),
        2 => {
            bytes.remove(at);
        }
        3 => bytes.truncate(at),
        4 => bytes.extend_from_slice(random.of(&[b"\n".as_slice(), b"[end]\n", b" "])),
        _ => {
            let mut lines: Vec<&[u8]> = listing.split_inclusive(|&b| b == b'\n').collect();
            let (a, b) = (random.below(lines.len()), random.below(lines.len()));
            match random.below(3) {
                0 => lines.swap(a, b),
                1 => lines.insert(a, lines[b]),
                _ => {
                    lines.remove(a);
                }
            }
            bytes = lines.concat();
        }
    }
    bytes
}

/// A mesh of any content written, and what was written read back, whole and damaged, into tables with rows enough or too few.
pub fn check(random: &mut Random, tables: &Tables, words: [usize; 3], answers: &mut Answers) -> Result<(), String> {
    let Some(listing) = write(tables, words, random, answers)? else {
        return Ok(());
    };
    let counts = Counts::of(words);
    read(&listing, Tables::patterned(counts, random.of(&[0, 1, 9])), answers)?;
    for _ in 0..3 {
        let mut room = counts;
        match random.below(6) {
            0 => room.points = random.below(counts.points + 1),
            1 => room.edges = random.below(counts.edges + 1),
            2 => room.faces = random.below(counts.faces + 1),
            _ => room.points += 2,
        }
        let bytes = damaged(random, &listing);
        read(&bytes, Tables::patterned(room, random.of(&[0, 2])), answers)?;
    }
    Ok(())
}
