//! Closed surfaces as borders of faces over numbered points: the kinds that the recorded samples have, surfaces glued at
//! random, and what becomes of them by cuts, chords, tubes and the like.

use crate::random::Random;
use std::collections::HashMap;

/// Each border lists the points of a face in turn.
#[derive(Clone)]
pub struct Shape {
    pub points: usize,
    pub borders: Vec<Vec<usize>>,
}

const CUBE: [[usize; 4]; 6] = [[0, 2, 3, 1], [4, 5, 7, 6], [0, 1, 5, 4], [2, 6, 7, 3], [0, 4, 6, 2], [1, 3, 7, 5]];
const TETRAHEDRON: [[usize; 3]; 4] = [[0, 1, 2], [0, 3, 1], [0, 2, 3], [1, 3, 2]];

pub fn cube() -> Shape {
    Shape { points: 8, borders: CUBE.iter().map(|b| b.to_vec()).collect() }
}

pub fn tetrahedron() -> Shape {
    Shape { points: 4, borders: TETRAHEDRON.iter().map(|b| b.to_vec()).collect() }
}

/// Two faces back to back: valence 2 at every point.
pub fn pillow(n: usize) -> Shape {
    Shape { points: n, borders: vec![(0..n).collect(), (0..n).rev().collect()] }
}

pub fn prism(n: usize) -> Shape {
    let mut borders: Vec<Vec<usize>> = vec![(0..n).rev().collect(), (n..2 * n).collect()];
    borders.extend((0..n).map(|k| vec![k, (k + 1) % n, n + (k + 1) % n, n + k]));
    Shape { points: 2 * n, borders }
}

pub fn antiprism(n: usize) -> Shape {
    let mut borders: Vec<Vec<usize>> = vec![(0..n).rev().collect(), (n..2 * n).collect()];
    for k in 0..n {
        borders.push(vec![k, (k + 1) % n, n + k]);
        borders.push(vec![(k + 1) % n, n + (k + 1) % n, n + k]);
    }
    Shape { points: 2 * n, borders }
}

pub fn pyramid(n: usize) -> Shape {
    let mut borders: Vec<Vec<usize>> = vec![(0..n).rev().collect()];
    borders.extend((0..n).map(|k| vec![k, (k + 1) % n, n]));
    Shape { points: n + 1, borders }
}

pub fn bipyramid(n: usize) -> Shape {
    let upper = (0..n).map(|k| vec![k, (k + 1) % n, n]);
    let lower = (0..n).map(|k| vec![(k + 1) % n, k, n + 1]);
    Shape { points: n + 2, borders: upper.chain(lower).collect() }
}

pub fn torus(m: usize, n: usize) -> Shape {
    let at = |i: usize, j: usize| (i % m) * n + j % n;
    let square = |i, j| vec![at(i, j), at(i + 1, j), at(i + 1, j + 1), at(i, j + 1)];
    let borders = (0..m).flat_map(|i| (0..n).map(move |j| square(i, j))).collect();
    Shape { points: m * n, borders }
}

/// A Klein bottle of m by n squares: once round the first way, the second way is turned over.
fn klein_bottle(m: usize, n: usize) -> Shape {
    let at = |i: usize, j: usize| if i < m { i * n + j % n } else { (n - j % n) % n };
    let square = |i, j| vec![at(i, j), at(i + 1, j), at(i + 1, j + 1), at(i, j + 1)];
    let borders = (0..m).flat_map(|i| (0..n).map(move |j| square(i, j))).collect();
    Shape { points: m * n, borders }
}

/// Projective planes: half a cube, half an icosahedron.
const HALF_CUBE: [[usize; 4]; 3] = [[0, 1, 2, 3], [0, 1, 3, 2], [0, 2, 1, 3]];
const HALF_ICOSAHEDRON: [[usize; 3]; 10] = [
    [0, 1, 2], [0, 2, 3], [0, 3, 4], [0, 4, 5], [0, 5, 1], [1, 2, 4], [2, 3, 5], [3, 4, 1], [4, 5, 2], [5, 1, 3],
];

/// A surface with one side: each edge has two faces, and no choice of faces turned makes all neighbours run opposite ways.
pub fn one_sided(random: &mut Random) -> Shape {
    let mut shape = match random.below(4) {
        0 => Shape { points: 4, borders: HALF_CUBE.iter().map(|b| b.to_vec()).collect() },
        1 => Shape { points: 6, borders: HALF_ICOSAHEDRON.iter().map(|b| b.to_vec()).collect() },
        _ => klein_bottle(random.between(3, 4), random.between(3, 4)),
    };
    for _ in 0..random.below(6) {
        if random.once_in(2) { shape.put_point(random, 64) } else { shape.put_chord(random) }
    }
    shape.scramble(random);
    shape
}

pub fn together(shapes: &[Shape]) -> Shape {
    let mut whole = Shape { points: 0, borders: Vec::new() };
    for shape in shapes {
        let moved = shape.borders.iter().map(|b| b.iter().map(|p| p + whole.points).collect());
        whole.borders.extend(moved);
        whole.points += shape.points;
    }
    whole
}

/// Polygons whose sides are glued in pairs at random. `next` goes round a polygon, `twin` across a side, `start` is the
/// point where a side begins.
struct Gluing {
    next: Vec<usize>,
    twin: Vec<usize>,
    start: Vec<usize>,
}

impl Gluing {
    fn random(random: &mut Random, sizes: &[usize]) -> Self {
        let total: usize = sizes.iter().sum();
        let mut next = Vec::with_capacity(total);
        for &size in sizes {
            let begin = next.len();
            next.extend((0..size).map(|k| begin + (k + 1) % size));
        }
        let order = random.order(total);
        let mut twin = vec![0; total];
        for pair in order.chunks_exact(2) {
            twin[pair[0] as usize] = pair[1] as usize;
            twin[pair[1] as usize] = pair[0] as usize;
        }
        let mut gluing = Gluing { next, twin, start: Vec::new() };
        gluing.number_points();
        gluing
    }

    /// The sides that begin in one point are those met by going back along a side and across.
    fn number_points(&mut self) {
        let total = self.next.len();
        self.start = vec![usize::MAX; total];
        let mut points = 0;
        for first in 0..total {
            let mut side = first;
            if self.start[side] != usize::MAX {
                continue;
            }
            while self.start[side] == usize::MAX {
                self.start[side] = points;
                side = self.next[self.twin[side]];
            }
            points += 1;
        }
    }

    /// Whether no point has but one side: no cutting makes a closed mesh of such a point.
    fn has_no_tip(&self) -> bool {
        (0..self.next.len()).all(|side| self.next[self.twin[side]] != side)
    }

    /// Each polygon cut into quadrilaterals about its middle. Side d becomes the four sides of its quadrilateral: from
    /// its start to its middle, to the polygon's middle, to the middle of the side before, to its start.
    fn cut(&self) -> Self {
        let total = self.next.len();
        let mut next = vec![0; 4 * total];
        let mut twin = vec![0; 4 * total];
        for d in 0..total {
            for k in 0..4 {
                next[4 * d + k] = 4 * d + (k + 1) % 4;
            }
            let across = 4 * self.next[self.twin[d]] + 3;
            twin[4 * d] = across;
            twin[across] = 4 * d;
            let beside = 4 * self.next[d] + 2;
            twin[4 * d + 1] = beside;
            twin[beside] = 4 * d + 1;
        }
        let mut cut = Gluing { next, twin, start: Vec::new() };
        cut.number_points();
        cut
    }

    fn shape(&self) -> Shape {
        let mut seen = vec![false; self.next.len()];
        let mut borders = Vec::new();
        for first in 0..self.next.len() {
            let mut border = Vec::new();
            let mut side = first;
            while !seen[side] {
                seen[side] = true;
                border.push(self.start[side]);
                side = self.next[side];
            }
            if !border.is_empty() {
                borders.push(border);
            }
        }
        Shape { points: self.start.iter().map(|p| p + 1).max().unwrap_or(0), borders }
    }
}

/// A surface glued at random, cut as often as it takes until it is closed in document 01's sense, at most twice.
fn glued(random: &mut Random) -> Shape {
    let polygons = random.between(1, 4);
    let mut sizes: Vec<usize> = (0..polygons).map(|_| random.between(3, 7)).collect();
    if sizes.iter().sum::<usize>() % 2 == 1 {
        sizes[0] += 1;
    }
    let mut gluing = Gluing::random(random, &sizes);
    for _ in 0..20 {
        if gluing.has_no_tip() {
            break;
        }
        gluing = Gluing::random(random, &sizes);
    }
    for _ in 0..2 {
        if gluing.shape().is_closed() {
            break;
        }
        gluing = gluing.cut();
    }
    gluing.shape()
}

impl Shape {
    /// The face that runs from one point to the next, for each pair of neighbours; nothing if two faces do.
    fn sides(&self) -> Option<HashMap<(usize, usize), usize>> {
        let mut sides = HashMap::new();
        for (face, border) in self.borders.iter().enumerate() {
            for i in 0..border.len() {
                if sides.insert((border[i], border[(i + 1) % border.len()]), face).is_some() {
                    return None;
                }
            }
        }
        Some(sides)
    }

    /// Whether the shape is a closed mesh: each side has another one against it, no point stands twice in a face, faces
    /// have 3 to 64 points, and the faces about each point make one ring.
    pub fn is_closed(&self) -> bool {
        let fits = |b: &Vec<usize>| {
            let mut sorted = b.clone();
            sorted.sort_unstable();
            sorted.dedup();
            (3..=64).contains(&b.len()) && sorted.len() == b.len()
        };
        let Some(sides) = self.sides() else {
            return false;
        };
        if !self.borders.iter().all(fits) || sides.keys().any(|&(p, q)| !sides.contains_key(&(q, p))) {
            return false;
        }
        let mut valence = vec![0; self.points];
        let mut start = vec![None; self.points];
        for &(p, q) in sides.keys() {
            valence[p] += 1;
            start[p] = Some(q);
        }
        (0..self.points).all(|p| {
            let Some(first) = start[p] else {
                return false;
            };
            let mut passed = 0;
            let mut q = first;
            loop {
                let border = &self.borders[sides[&(p, q)]];
                let at = border.iter().position(|&r| r == p).expect("a side's face has its point");
                q = border[(at + border.len() - 1) % border.len()];
                passed += 1;
                if q == first {
                    return passed == valence[p];
                }
            }
        })
    }

    fn joined(&self, p: usize, q: usize) -> bool {
        let joins = |b: &Vec<usize>| (0..b.len()).any(|i| b[i] == p && b[(i + 1) % b.len()] == q);
        self.borders.iter().any(|b| joins(b))
    }

    /// A point put on a side of a face, if its two faces keep to so many points: a point of valence 2.
    fn put_point(&mut self, random: &mut Random, most: usize) {
        let face = random.below(self.borders.len());
        let at = random.below(self.borders[face].len());
        let (p, q) = (self.borders[face][at], self.borders[face][(at + 1) % self.borders[face].len()]);
        let side = |border: &Vec<usize>| {
            (0..border.len()).find(|&i| {
                let ends = (border[i], border[(i + 1) % border.len()]);
                ends == (p, q) || ends == (q, p)
            })
        };
        if self.borders.iter().any(|border| side(border).is_some() && border.len() >= most) {
            return;
        }
        for border in &mut self.borders {
            if let Some(i) = side(border) {
                border.insert(i + 1, self.points);
            }
        }
        self.points += 1;
    }

    /// A face cut in two between two of its points.
    fn put_chord(&mut self, random: &mut Random) {
        let face = random.below(self.borders.len());
        let n = self.borders[face].len();
        if n == 3 {
            return;
        }
        let turn = random.below(n);
        self.borders[face].rotate_left(turn);
        let at = random.between(2, n - 2);
        let (p, q) = (self.borders[face][0], self.borders[face][at]);
        if self.joined(p, q) || self.joined(q, p) {
            return;
        }
        let mut other = self.borders[face].split_off(at + 1);
        other.insert(0, q);
        other.push(p);
        self.borders.push(other);
    }

    /// A face cut into triangles about a new point.
    fn put_middle(&mut self, random: &mut Random) {
        let face = random.below(self.borders.len());
        let border = self.borders.swap_remove(face);
        let n = border.len();
        if n > 12 {
            self.borders.push(border);
            return;
        }
        self.borders.extend((0..n).map(|i| vec![border[i], border[(i + 1) % n], self.points]));
        self.points += 1;
    }

    /// Two faces made one where they have but one side in common.
    fn take_edge(&mut self, random: &mut Random) {
        let one = random.below(self.borders.len());
        let n = self.borders[one].len();
        let at = random.below(n);
        let (p, q) = (self.borders[one][at], self.borders[one][(at + 1) % n]);
        let runs_back = |b: &Vec<usize>| (0..b.len()).find(|&i| b[i] == q && b[(i + 1) % b.len()] == p);
        let Some((two, back)) = self.borders.iter().enumerate().find_map(|(f, b)| Some((f, runs_back(b)?))) else {
            return;
        };
        let m = self.borders[two].len();
        let shared = self.borders[one].iter().filter(|r| self.borders[two].contains(r)).count();
        let valence = |r: usize| self.borders.iter().filter(|b| b.contains(&r)).count();
        if one == two || shared != 2 || n + m - 2 > 64 || valence(p) < 3 || valence(q) < 3 {
            return;
        }
        let mut border: Vec<usize> = (0..n).map(|k| self.borders[one][(at + 1 + k) % n]).collect();
        border.extend((2..m).map(|k| self.borders[two][(back + k) % m]));
        self.borders[one] = border;
        self.borders.swap_remove(two);
    }

    /// A tube of quadrilaterals in place of two faces of one size that have no point in common.
    fn put_tube(&mut self, random: &mut Random) {
        let one = random.below(self.borders.len());
        let n = self.borders[one].len();
        let apart = |b: &Vec<usize>| b.len() == n && b.iter().all(|p| !self.borders[one].contains(p));
        let others: Vec<usize> = (0..self.borders.len()).filter(|&f| apart(&self.borders[f])).collect();
        if others.is_empty() || n > 16 {
            return;
        }
        let two = random.of(&others);
        let turn = random.below(n);
        let (a, b) = (self.borders[one].clone(), self.borders[two].clone());
        let at = |i: usize| (turn + n - i % n) % n;
        if (0..n).any(|i| self.joined(a[(i + 1) % n], b[at(i)]) || self.joined(b[at(i)], a[(i + 1) % n])) {
            return;
        }
        let square = |i: usize| vec![a[i], a[(i + 1) % n], b[at(i)], b[(at(i) + 1) % n]];
        let tube: Vec<Vec<usize>> = (0..n).map(square).collect();
        let (low, high) = (one.min(two), one.max(two));
        self.borders.swap_remove(high);
        self.borders.swap_remove(low);
        self.borders.extend(tube);
    }

    /// Faces and points change places.
    fn dual(&self) -> Option<Shape> {
        let sides = self.sides()?;
        let mut start = vec![None; self.points];
        for &(p, q) in sides.keys() {
            start[p] = Some(q).max(start[p]);
        }
        let mut borders = Vec::with_capacity(self.points);
        for (p, first) in start.into_iter().enumerate() {
            let first = first?;
            let mut border = Vec::new();
            let mut q = first;
            loop {
                let face = *sides.get(&(p, q))?;
                border.push(face);
                let at = self.borders[face].iter().position(|&r| r == p)?;
                q = self.borders[face][(at + self.borders[face].len() - 1) % self.borders[face].len()];
                if q == first {
                    break;
                }
            }
            borders.push(border);
        }
        let dual = Shape { points: self.borders.len(), borders };
        dual.is_closed().then_some(dual)
    }

    /// Other names for the points, another order of the faces, other beginnings of the borders, and perhaps the other
    /// side of the surface.
    pub fn scramble(&mut self, random: &mut Random) {
        let names = random.order(self.points);
        let mirrored = random.once_in(3);
        for border in &mut self.borders {
            for p in border.iter_mut() {
                *p = names[*p] as usize;
            }
            if mirrored {
                border.reverse();
            }
            let turn = random.below(border.len());
            border.rotate_left(turn);
        }
        random.shuffle(&mut self.borders);
    }
}

fn component(random: &mut Random) -> Shape {
    match random.below(24) {
        0 | 1 => cube(),
        2 | 3 => tetrahedron(),
        4 => pillow(3),
        5 => pillow(random.between(3, 12)),
        6 => pillow(random.between(13, 64)),
        7 | 8 => prism(random.between(3, 9)),
        9 => prism(if random.once_in(4) { random.between(10, 64) } else { random.between(5, 12) }),
        10 => antiprism(random.between(3, 8)),
        11 => pyramid(random.between(3, 12)),
        12 => pyramid(if random.once_in(4) { random.between(13, 64) } else { 6 }),
        13 | 14 => bipyramid(random.between(3, 12)),
        15 | 16 => torus(random.between(3, 5), random.between(3, 5)),
        _ => glued(random),
    }
}

/// A closed surface, or, where gluing at random left none, something near one.
pub fn closed(random: &mut Random) -> Shape {
    if random.once_in(500) {
        return Shape { points: 0, borders: Vec::new() };
    }
    let components = if random.once_in(6) { random.between(2, 4) } else { 1 };
    let parts: Vec<Shape> = (0..components).map(|_| component(random)).collect();
    let mut shape = together(&parts);
    if shape.is_closed() {
        let turns = if random.once_in(2) { random.below(12) } else { 0 };
        for _ in 0..turns {
            match random.below(7) {
                0 | 1 => shape.put_point(random, 64),
                2 | 3 => shape.put_chord(random),
                4 => shape.put_middle(random),
                5 => shape.take_edge(random),
                _ => shape.put_tube(random),
            }
        }
        if random.once_in(8) {
            shape = shape.dual().unwrap_or(shape);
        }
    }
    if !random.once_in(10) {
        shape.scramble(random);
    }
    shape
}

/// A closed surface of about so many faces of 3 to 8 sides, with points of many valences, all numbered at random.
pub fn extraordinary(random: &mut Random, faces: usize) -> Shape {
    let n = (3..).find(|n| 2 * n * n >= faces).unwrap_or(3);
    let mut shape = torus(n, n);
    for _ in 0..faces {
        match random.below(4) {
            0 if shape.borders.len() < faces => shape.put_middle(random),
            1 => shape.put_chord(random),
            _ => shape.put_point(random, 8),
        }
    }
    shape.scramble(random);
    shape
}
