//! Coordinates and intervals for a shape, from plain ones to the ends of binary64, and the cutting of borders into sides
//! whose sums agree.

use crate::lists::Lists;
use crate::random::Random;
use crate::shapes::Shape;
use oracle::text::Version;

const T: f64 = 0.000001;

/// What the intervals of a mesh are like.
#[derive(Clone, Copy)]
enum Intervals {
    Ones,
    Eighths,
    Full,
    ManyZeros,
    AboutT,
    /// Ones beside some of the least numbers, whose halves are rounded.
    Least,
    Power(i32),
    Mixed,
}

/// What the coordinates of a mesh are like.
#[derive(Clone, Copy)]
enum Coordinates {
    Full,
    Whole,
    Zeros,
    Power(i32),
    Subnormal,
    Mixed,
}

/// A number from 0 to 1 with a full significand.
fn unit(random: &mut Random) -> f64 {
    (random.word() >> 11) as f64 / 9007199254740992.0
}

/// Two to a power, also where the answer is subnormal.
fn power(exponent: i32) -> f64 {
    match exponent {
        -1074..=-1023 => f64::from_bits(1 << (exponent + 1074)),
        -1022..=1023 => f64::from_bits(((exponent + 1023) as u64) << 52),
        _ => unreachable!("no binary64"),
    }
}

fn interval(random: &mut Random, kind: Intervals) -> f64 {
    match kind {
        Intervals::Ones => 1.0,
        Intervals::Eighths => {
            let bits = random.below(14);
            random.below(1 << bits) as f64 / 8.0
        }
        Intervals::Full => unit(random) * 4.0,
        Intervals::ManyZeros => random.of(&[0.0, 0.0, 0.0, 1.0, 0.5]),
        Intervals::AboutT => T * random.of(&[0.0, 0.0625, 0.125, 0.25, 0.5, 1.0]),
        Intervals::Least => random.of(&[1.0, 1.0, 1.0, 0.0, power(-1074), 2.0 * power(-1074), 3.0 * power(-1074)]),
        Intervals::Power(exponent) => power(exponent) * random.of(&[1.0, 1.0, 2.0, 0.5]),
        Intervals::Mixed => match random.below(8) {
            0 => 0.0,
            1 => power(random.between(0, 1023) as i32),
            2 => power(-(random.between(0, 1074) as i32)),
            3 => f64::MAX,
            4 => T,
            5 => unit(random),
            _ => 1.0,
        },
    }
}

fn coordinate(random: &mut Random, kind: Coordinates) -> f64 {
    let sign = random.of(&[1.0, -1.0]);
    sign * match kind {
        Coordinates::Full => unit(random) * 2.0,
        Coordinates::Whole => random.below(5) as f64,
        Coordinates::Zeros => 0.0,
        Coordinates::Power(exponent) => power(exponent) * unit(random),
        Coordinates::Subnormal => f64::from_bits(random.word() >> 12),
        Coordinates::Mixed => match random.below(6) {
            0 => 0.0,
            1 => power(random.between(0, 1023) as i32),
            2 => f64::MAX,
            3 => f64::from_bits(random.word() >> 12),
            _ => unit(random),
        },
    }
}

fn sum(part: &[f64]) -> f64 {
    part.iter().fold(0.0, |sum, d| sum + d)
}

/// Test 13: in version 1 document 01's, in version 2 document 02's, pair by pair.
pub fn sums_agree(version: Version, sides: [&[f64]; 4]) -> bool {
    let [s0, s1, s2, s3] = sides.map(sum);
    let small = |difference: f64| (-T..=T).contains(&difference);
    match version {
        Version::One => small(s0 - s2 + s1 - s3),
        Version::Two => small(s0 - s2) && small(s1 - s3),
    }
}

/// Lengths of four sides in which the first two have `first` of n points.
fn lengths(random: &mut Random, n: usize, first: usize) -> [usize; 4] {
    let a = random.between(0, first);
    let b = random.between(0, n - first);
    [a, first - a, b, n - first - b]
}

fn cut<'a>(intervals: &'a [f64], lengths: &[usize; 4]) -> [&'a [f64]; 4] {
    let mut at = 0;
    lengths.map(|length| {
        at += length;
        &intervals[at - length..at]
    })
}

/// Two parts of the intervals of a face that are held against each other: the first two sides and the last two, or two
/// opposite sides.
fn parts(version: Version, lengths: &[usize; 4]) -> Vec<(std::ops::Range<usize>, std::ops::Range<usize>)> {
    let [a, b, c, d] = *lengths;
    let n = a + b + c + d;
    match version {
        Version::One => vec![(0..a + b, a + b..n)],
        Version::Two => vec![(0..a, a + b..a + b + c), (a..a + b, a + b + c..n)],
    }
}

/// Intervals for a border of n points and the lengths of its sides, so that the sums agree if some tries find it.
fn face(random: &mut Random, n: usize, kind: Intervals, version: Version) -> (Vec<f64>, [usize; 4]) {
    for _ in 0..8 {
        let mut intervals: Vec<f64> = (0..n).map(|_| interval(random, kind)).collect();
        let first = random.between(1, n - 1);
        let lengths = lengths(random, n, first);
        if sums_agree(version, cut(&intervals, &lengths)) {
            return (intervals, lengths);
        }
        for (one, other) in parts(version, &lengths) {
            let difference = sum(&intervals[one.clone()]) - sum(&intervals[other.clone()]);
            let lesser = if difference > 0.0 { other } else { one };
            if !lesser.is_empty() {
                intervals[random.between(lesser.start, lesser.end - 1)] += difference.abs();
            }
        }
        if intervals.iter().all(|d| d.is_finite()) && sums_agree(version, cut(&intervals, &lengths)) {
            return (intervals, lengths);
        }
    }
    // One on each of two parts, and noughts.
    let first = random.between(1, n - 1);
    let lengths = lengths(random, n, first);
    let mut intervals = vec![0.0; n];
    let d = interval(random, kind);
    for (one, other) in parts(version, &lengths) {
        if !one.is_empty() && !other.is_empty() {
            intervals[random.between(one.start, one.end - 1)] = d;
            intervals[random.between(other.start, other.end - 1)] = d;
        }
    }
    (intervals, lengths)
}

/// The shape with numbers of no extreme.
pub fn ordinary(random: &mut Random, shape: &Shape) -> Lists {
    lists(random, shape, Intervals::Full, Coordinates::Full, Version::One)
}

/// The shape with numbers of some kind, in either version.
pub fn numbered(random: &mut Random, shape: &Shape) -> Lists {
    let version = random.of(&[Version::One, Version::Two]);
    numbered_in(random, shape, version)
}

/// The shape with numbers of some kind.
pub fn numbered_in(random: &mut Random, shape: &Shape, version: Version) -> Lists {
    let intervals = match random.below(17) {
        0..=2 => Intervals::Ones,
        3..=6 => Intervals::Eighths,
        7 | 8 => Intervals::Full,
        9 => Intervals::ManyZeros,
        10 => Intervals::AboutT,
        11 | 12 => Intervals::Power(random.between(0, 502) as i32 * random.of(&[1, -1])),
        13 => Intervals::Power(random.between(500, 1022) as i32 * random.of(&[1, -1])),
        14 => Intervals::Least,
        _ => Intervals::Mixed,
    };
    let coordinates = match random.below(10) {
        0..=4 => Coordinates::Full,
        5 => Coordinates::Whole,
        6 => Coordinates::Zeros,
        7 => Coordinates::Power(random.between(0, 1022) as i32 * random.of(&[1, -1])),
        8 => Coordinates::Subnormal,
        _ => Coordinates::Mixed,
    };
    lists(random, shape, intervals, coordinates, version)
}

fn lists(random: &mut Random, shape: &Shape, intervals: Intervals, coordinates: Coordinates, version: Version) -> Lists {
    let mut lists = Lists { firsts: (version == Version::Two).then(Vec::new), ..Lists::default() };
    lists.coordinates.extend((0..3 * shape.points).map(|_| coordinate(random, coordinates)));
    for border in &shape.borders {
        let (numbers, lengths) = match border.len() {
            0 | 1 => (vec![0.0; border.len()], [border.len(), 0, 0, 0]),
            n => face(random, n, intervals, version),
        };
        lists.sides.extend(lengths.map(|length| length as u32));
        lists.listed.extend(border.iter().map(|&p| p as u32));
        lists.intervals.extend(numbers);
    }
    lists.fitted()
}
