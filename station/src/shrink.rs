//! The smallest case that still shows a difference, as far as taking things away one by one finds it.

use crate::compare::{Case, How};
use crate::library::Edition;
use crate::lists::Lists;
use crate::spoil::take_face;

/// The lists without a point: it goes out of every face.
fn without_point(lists: &Lists, p: usize) -> Lists {
    let mut left = lists.clone();
    left.coordinates.drain(3 * p..3 * p + 3);
    (left.listed, left.intervals) = (Vec::new(), Vec::new());
    let mut at = 0;
    for side in &mut left.sides {
        let range = at..at + *side as usize;
        at = range.end;
        for i in range {
            let q = lists.listed[i];
            if q as usize == p {
                *side -= 1;
            } else {
                left.listed.push(if q as usize > p && q != u32::MAX { q - 1 } else { q });
                left.intervals.push(lists.intervals[i]);
            }
        }
    }
    left
}

/// The lists with point q in place of point p, side by side in some face: the edge between them goes.
fn with_points_joined(lists: &Lists, p: usize, q: u32) -> Lists {
    let mut left = lists.clone();
    for (begin, size) in lists.places() {
        let border = &lists.listed[begin..begin + size];
        if !border.contains(&q) {
            for point in &mut left.listed[begin..begin + size] {
                if *point as usize == p {
                    *point = q;
                }
            }
        }
    }
    without_point(&left, p)
}

/// Plain numbers: intervals of 1, the last doubled where their number is odd, sides of halves.
fn plain(lists: &Lists) -> Lists {
    let mut plain = lists.clone();
    for (face, (begin, n)) in lists.places().into_iter().enumerate() {
        let first = n - n / 2;
        plain.sides[4 * face..4 * face + 4].copy_from_slice(&[first as u32, 0, (n - first) as u32, 0]);
        plain.intervals[begin..begin + n].fill(1.0);
        if n % 2 == 1 {
            plain.intervals[begin + n - 1] = 2.0;
        }
    }
    plain
}

/// What may be tried of a case, the largest cuts first.
fn smaller(case: &Case) -> Vec<Case> {
    let mut tries = Vec::new();
    let with = |lists: Lists| Case { lists: lists.fitted(), ..case.clone() };
    if case.steps.len() > 1 {
        tries.push(Case { steps: case.steps[..1].to_vec(), ..case.clone() });
        tries.push(Case { steps: case.steps[1..].to_vec(), ..case.clone() });
    }
    for (k, &how) in case.steps.iter().enumerate() {
        for plainer in [How { numbered: true, ..how }, How { edition: Edition::First, ..how }] {
            let mut steps = case.steps.clone();
            steps[k] = plainer;
            tries.push(Case { steps, ..case.clone() });
        }
    }
    if case.scrambled {
        tries.push(Case { scrambled: false, ..case.clone() });
    }
    if case.two_runs {
        tries.push(Case { two_runs: false, ..case.clone() });
    }
    if case.agreeing > 0 {
        tries.push(Case { agreeing: case.agreeing - 1, ..case.clone() });
    }
    if case.spare > 0 {
        tries.push(Case { spare: 0, ..case.clone() });
    }
    if !case.lists.agree() {
        return tries;
    }
    let lists = &case.lists;
    if lists.firsts.is_some() {
        tries.push(with(Lists { firsts: None, ..lists.clone() }));
    }
    let evened = plain(lists);
    if evened.intervals != lists.intervals || evened.sides != lists.sides {
        tries.push(with(evened));
    }
    for f in 0..lists.faces() {
        let mut left = lists.clone();
        take_face(&mut left, f);
        tries.push(with(left));
    }
    for p in 0..lists.points() {
        for left in [without_point(lists, p), plain(&without_point(lists, p))] {
            tries.push(with(left));
        }
    }
    for (begin, n) in lists.places() {
        for i in 0..n {
            let (p, q) = (lists.listed[begin + i], lists.listed[begin + (i + 1) % n]);
            if (p as usize) < lists.points() {
                tries.push(with(plain(&with_points_joined(lists, p as usize, q))));
            }
        }
    }
    for k in 0..lists.coordinates.len() {
        if lists.coordinates[k].to_bits() != 0 {
            let mut left = lists.clone();
            left.coordinates[k] = 0.0;
            tries.push(with(left));
        }
    }
    tries
}

fn size(case: &Case) -> usize {
    let lists = &case.lists;
    let noughts = lists.coordinates.iter().filter(|x| x.to_bits() == 0).count();
    let ones = lists.intervals.iter().filter(|&&d| d == 1.0).count();
    1000 * (lists.listed.len() + lists.faces() + lists.points()) - noughts - ones + lists.intervals.len()
        + 100 * usize::from(lists.firsts.is_some()) + 10 * case.steps.len() + case.spare + usize::from(case.scrambled) + usize::from(case.two_runs) + case.agreeing
        + case.steps.iter().map(|how| usize::from(!how.numbered) + usize::from(how.edition == Edition::Second)).sum::<usize>()
}

/// Goes on as long as something smaller still fails, and gives back what that says.
pub fn shrink(case: Case, what: String, fails: impl Fn(&Case) -> Option<String>) -> (Case, String) {
    let (mut best, mut what) = (case, what);
    let mut tried = 0;
    'again: loop {
        for smaller in smaller(&best) {
            tried += 1;
            if tried > 20_000 {
                return (best, what);
            }
            if size(&smaller) < size(&best) && let Some(now) = fails(&smaller) {
                (best, what) = (smaller, now);
                continue 'again;
            }
        }
        return (best, what);
    }
}
