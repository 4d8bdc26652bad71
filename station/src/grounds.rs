//! Document 01's grounds and its audit, and document 02's grounds of mesh text 2 and of the mender, written down once more in
//! plain Rust, to say which answer is expected of the library. Nothing here is taken from the library, and nothing is quick.

use crate::library::{Counts, NONE, Tables};
use crate::lists::Lists;
use crate::numbers::sums_agree;
use oracle::text::Version;
use std::collections::{HashMap, HashSet};

pub const MOST_POINTS: usize = 4096;
pub const MOST_FACES: usize = 4096;
pub const MOST_LISTED: usize = 16384;
pub const CEILINGS: Counts = Counts { points: 65536, edges: 131072, faces: 65536 };

/// The first ground of building, in the order of document 01; 0 if there is none.
pub fn building(lists: &Lists, room: Counts) -> u32 {
    let (np, nf, listed) = (lists.points(), lists.faces(), lists.listed.len());
    if !lists.agree() || np > MOST_POINTS || nf > MOST_FACES || listed > MOST_LISTED {
        return 2;
    }
    if !lists.coordinates.iter().all(|x| x.is_finite()) || !lists.intervals.iter().all(|&d| is_interval(d)) {
        return 3;
    }
    if room.points < np || room.faces < nf || room.edges < listed {
        return 4;
    }
    faces(lists, Tests::Building).map_or_else(|met| met.ground, |()| whole(lists))
}

/// The first ground of the mender (document 02, section 8), but for 1 of a text that is none and 44; 0 if there is none.
pub fn mending(lists: &Lists) -> u32 {
    let (np, nf, listed) = (lists.points(), lists.faces(), lists.listed.len());
    if lists.version() == Version::One {
        return 1;
    }
    if !lists.agree() || np > MOST_POINTS || nf > MOST_FACES || listed > MOST_LISTED {
        return 2;
    }
    if !lists.coordinates.iter().all(|x| x.is_finite()) || !lists.intervals.iter().all(|&d| is_interval(d)) {
        return 3;
    }
    faces(lists, Tests::Mending).map_or_else(|met| met.ground, |()| 0)
}

/// The answer of building a text in tables with rows to spare, and its place: the line from 1, the face and its edge from 0, each
/// `usize::MAX` where there is none. A text that is of no form has no lists.
pub fn explained(lists: Option<&Lists>) -> (u32, [usize; 3]) {
    let nowhere = [usize::MAX; 3];
    let Some(lists) = lists else { return (1, nowhere) };
    let answer = building(lists, CEILINGS);
    if answer < 10 || answer == 20 {
        return (answer, nowhere);
    }
    match faces(lists, Tests::Building) {
        Ok(()) => (answer, nowhere),
        Err(met) => (answer, [lists.points() + met.face + 2, met.face, met.edge]),
    }
}

/// A ground, the face that meets it, and its edge, `usize::MAX` where the ground is not of an edge.
struct Met {
    ground: u32,
    face: usize,
    edge: usize,
}

/// Whose tests the faces are put to: the mender leaves out 13 and 15.
#[derive(Clone, Copy, PartialEq, Eq)]
enum Tests {
    Building,
    Mending,
}

fn is_interval(d: f64) -> bool {
    d.is_finite() && d.is_sign_positive()
}

/// The faces in turn: 10 to 12, 43 and 13 of each, then 14 and 15 of its edges; 20 when all are through.
fn faces(lists: &Lists, tests: Tests) -> Result<(), Met> {
    let building = tests == Tests::Building;
    // For each two points that an edge joins: from which to which it runs, and whether it has a second face.
    let mut edges: HashMap<(u32, u32), ((u32, u32), bool)> = HashMap::new();
    let agreed = lists.agreed();
    for (f, (sides, (begin, n))) in lists.sides.chunks_exact(4).zip(lists.places()).enumerate() {
        let border = &lists.listed[begin..begin + n];
        let refused = |ground| Err(Met { ground, face: f, edge: usize::MAX });
        let mut at = begin;
        let four = [0, 1, 2, 3].map(|k: usize| {
            at += sides[k] as usize;
            &lists.intervals[at - sides[k] as usize..at]
        });
        if !(3..=64).contains(&n) {
            return refused(10);
        }
        if border.iter().any(|&p| p as usize >= lists.points()) {
            return refused(11);
        }
        if border.iter().collect::<HashSet<_>>().len() < n {
            return refused(12);
        }
        if lists.firsts.as_ref().is_some_and(|firsts| firsts[4 * f..4 * f + 4] != agreed[4 * f..4 * f + 4]) {
            return refused(43);
        }
        if building && !sums_agree(lists.version(), four) {
            return refused(13);
        }
        for i in 0..n {
            let (p, q) = (border[i], border[(i + 1) % n]);
            match edges.get_mut(&(p.min(q), p.max(q))) {
                None => {
                    edges.insert((p.min(q), p.max(q)), ((p, q), false));
                }
                Some((_, true)) => return Err(Met { ground: 14, face: f, edge: i }),
                Some((way, _)) if building && *way == (p, q) => return Err(Met { ground: 15, face: f, edge: i }),
                Some((_, second)) => *second = true,
            }
        }
    }
    let lone = edges.values().any(|edge| !edge.1);
    if lone { Err(Met { ground: 20, face: usize::MAX, edge: usize::MAX }) } else { Ok(()) }
}

/// 21, then 22: about each point the faces make one ring. Each edge has two faces, which run against each other.
fn whole(lists: &Lists) -> u32 {
    let np = lists.points();
    // About point p: the neighbour that a face comes from, by the neighbour that it goes to.
    let mut about: Vec<HashMap<u32, u32>> = vec![HashMap::new(); np];
    for (begin, n) in lists.places() {
        for i in 0..n {
            let [before, p, after] = [i + n - 1, i, i + 1].map(|k| lists.listed[begin + k % n]);
            about[p as usize].insert(after, before);
        }
    }
    if about.iter().any(HashMap::is_empty) {
        return 21;
    }
    let one_ring = |ring: &HashMap<u32, u32>| {
        let first = *ring.keys().next().expect("a point with an edge");
        let mut neighbour = ring[&first];
        let mut passed = 1;
        while neighbour != first {
            neighbour = ring[&neighbour];
            passed += 1;
        }
        passed == ring.len()
    };
    if about.iter().all(one_ring) { 0 } else { 22 }
}

/// The words of a row by their names.
pub struct Rows<'a>(pub &'a Tables);

impl Rows<'_> {
    pub fn valence(&self, p: usize) -> u32 {
        self.0.points[3 * p]
    }
    pub fn point_start(&self, p: usize) -> u32 {
        self.0.points[3 * p + 1]
    }
    pub fn mark(&self, p: usize) -> u32 {
        self.0.points[3 * p + 2]
    }
    pub fn origin(&self, e: usize) -> u32 {
        self.0.edges[8 * e]
    }
    pub fn dest(&self, e: usize) -> u32 {
        self.0.edges[8 * e + 1]
    }
    pub fn left(&self, e: usize) -> u32 {
        self.0.edges[8 * e + 2]
    }
    pub fn right(&self, e: usize) -> u32 {
        self.0.edges[8 * e + 3]
    }
    /// LeftCw 0, LeftAcw 1, RightCw 2, RightAcw 3.
    pub fn neighbour(&self, e: usize, place: usize) -> u32 {
        self.0.edges[8 * e + 4 + place]
    }
    pub fn face_start(&self, f: usize) -> u32 {
        self.0.faces[5 * f]
    }
    pub fn corner(&self, f: usize, place: usize) -> u32 {
        self.0.faces[5 * f + 1 + place]
    }

    fn touches(&self, e: usize, p: u32) -> bool {
        self.origin(e) == p || self.dest(e) == p
    }

    fn borders(&self, e: usize, f: u32) -> bool {
        self.left(e) == f || self.right(e) == f
    }

    /// The clockwise (0) or anticlockwise (1) neighbour of an edge on the side of a face that it borders.
    fn on_side(&self, e: usize, f: u32, way: usize) -> u32 {
        self.neighbour(e, if self.left(e) == f { way } else { 2 + way })
    }

    /// The edges that a walk about a face passes, anticlockwise from its start edge; nothing if it does not come back
    /// within so many, or leaves the face.
    pub fn face_walk(&self, f: usize, most: usize) -> Option<Vec<usize>> {
        self.walk(self.face_start(f), most, |e| self.borders(e, f as u32).then(|| self.on_side(e, f as u32, 1)))
    }

    pub fn point_walk(&self, p: usize, most: usize) -> Option<Vec<usize>> {
        self.walk(self.point_start(p), most, |e| {
            let near = self.origin(e) == p as u32;
            self.touches(e, p as u32).then(|| self.neighbour(e, if near { 0 } else { 2 }))
        })
    }

    fn walk(&self, start: u32, most: usize, next: impl Fn(usize) -> Option<u32>) -> Option<Vec<usize>> {
        let mut passed = vec![start as usize];
        loop {
            let e = next(passed[passed.len() - 1])?;
            if e == start {
                return Some(passed);
            }
            if passed.len() == most {
                return None;
            }
            passed.push(e as usize);
        }
    }

    /// The point from which a walk about a face goes along an edge.
    pub fn walked_from(&self, e: usize, f: usize) -> u32 {
        if self.left(e) == f as u32 { self.origin(e) } else { self.dest(e) }
    }
}

/// Whether tables are a closed mesh with these counts, clause by clause as document 01 words it.
pub fn is_closed(tables: &Tables, counts: Counts) -> bool {
    let room = tables.room();
    if counts.points > room.points || counts.edges > room.edges || counts.faces > room.faces {
        return false;
    }
    let rows = Rows(tables);
    let (np, ne, nf) = (counts.points, counts.edges, counts.faces);
    let in_range = (0..np).all(|p| (rows.point_start(p) as usize) < ne)
        && (0..nf).all(|f| (rows.face_start(f) as usize) < ne)
        && (0..ne).all(|e| {
            (rows.origin(e) as usize) < np
                && (rows.dest(e) as usize) < np
                && (rows.left(e) as usize) < nf
                && (rows.right(e) as usize) < nf
                && (0..4).all(|k| (rows.neighbour(e, k) as usize) < ne)
        });
    let numbers = tables.positions[..3 * np].iter().all(|x| x.is_finite())
        && tables.intervals[..ne].iter().all(|&d| is_interval(d));
    let marks = (0..np).all(|p| rows.mark(p) < 2);
    let corner = |c: u32| c == NONE || (c as usize) < np;
    let corners = (0..nf).all(|f| (0..4).all(|k| corner(rows.corner(f, k))));
    if !(in_range && numbers && marks && corners) {
        return false;
    }
    let mut pairs = HashSet::new();
    for e in 0..ne {
        let (o, d) = (rows.origin(e), rows.dest(e));
        if o == d || rows.left(e) == rows.right(e) || !pairs.insert((o.min(d), o.max(d))) {
            return false;
        }
    }
    let links = |e: usize| {
        let (left, right) = (rows.left(e), rows.right(e));
        let back = |place: usize, face: u32, way: usize| {
            let x = rows.neighbour(e, place) as usize;
            rows.borders(x, face) && rows.on_side(x, face, way) == e as u32
        };
        rows.touches(rows.neighbour(e, 1) as usize, rows.dest(e))
            && rows.touches(rows.neighbour(e, 3) as usize, rows.origin(e))
            && back(1, left, 0)
            && back(3, right, 0)
            && back(0, left, 1)
            && back(2, right, 1)
    };
    if !(0..ne).all(links) {
        return false;
    }
    let mut about_points = vec![0; np];
    let mut about_faces = vec![0; nf];
    for e in 0..ne {
        for p in [rows.origin(e), rows.dest(e)] {
            about_points[p as usize] += 1;
        }
        for f in [rows.left(e), rows.right(e)] {
            about_faces[f as usize] += 1;
        }
    }
    let distinct = |items: &[u32]| items.iter().collect::<HashSet<_>>().len() == items.len();
    let edges_of = |edges: &[usize]| -> Vec<u32> { edges.iter().map(|&e| e as u32).collect() };
    let face = |f: usize| {
        rows.face_walk(f, 64).is_some_and(|edges| {
            let from: Vec<u32> = edges.iter().map(|&e| rows.walked_from(e, f)).collect();
            edges.len() >= 3 && edges.len() == about_faces[f] && distinct(&edges_of(&edges)) && distinct(&from)
        })
    };
    let point = |p: usize| {
        rows.point_walk(p, ne).is_some_and(|edges| {
            let n = edges.len();
            n >= 2 && n == rows.valence(p) as usize && n == about_points[p] && distinct(&edges_of(&edges))
        })
    };
    (0..nf).all(face) && (0..np).all(point)
}

/// Ground 31: whether an order is each face once.
pub fn each_face_once(order: &[u32], faces: usize) -> bool {
    let mut sorted = order.to_vec();
    sorted.sort_unstable();
    order.len() == faces && sorted.iter().enumerate().all(|(place, &face)| face as usize == place)
}

/// The first of the grounds 30 to 32 of a step, 0 if there is none.
pub fn step(tables: &Tables, counts: Counts, order: &[u32], scratch: &Tables) -> u32 {
    if !is_closed(tables, counts) {
        return 30;
    }
    if !each_face_once(order, counts.faces) {
        return 31;
    }
    let after = counts.refined();
    let fits = |room: Counts| {
        after.points <= room.points && after.edges <= room.edges && after.faces <= room.faces
    };
    if fits(tables.room()) && fits(scratch.room()) && fits(CEILINGS) { 0 } else { 32 }
}
