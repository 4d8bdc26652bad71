//! Document 01's names of rows over a run of accepted steps, and what two runs share under them.

use crate::grounds::Rows;
use crate::library::{Counts, NONE, Tables};
use std::collections::HashMap;

/// A name: of which kind it is, the number of its step, and the names that it is given by. In the first mesh it is a
/// row's number.
#[derive(Clone, Copy, PartialEq, Eq, Hash)]
enum Name {
    Number(u32),
    Midpoint(u32, u32),
    FacePoint(u32, u32),
    DestinationHalf(u32, u32),
    Joining(u32, u32, u32),
    NewFace(u32, u32, u32),
}

/// All names that are given, each known by a number, the same in both runs.
#[derive(Default)]
pub struct Register(HashMap<Name, u32>);

impl Register {
    fn number(&mut self, name: Name) -> u32 {
        let next = self.0.len() as u32;
        *self.0.entry(name).or_insert(next)
    }
}

/// The names of the rows of a mesh.
#[derive(Clone)]
pub struct Names {
    points: Vec<u32>,
    edges: Vec<u32>,
    faces: Vec<u32>,
}

impl Names {
    pub fn first(register: &mut Register, counts: Counts) -> Self {
        let mut numbers = |n: usize| (0..n as u32).map(|row| register.number(Name::Number(row))).collect();
        Names { points: numbers(counts.points), edges: numbers(counts.edges), faces: numbers(counts.faces) }
    }

    /// The names after an accepted step, number `step` among the accepted ones; nothing if a row gets none.
    pub fn after(
        &self, register: &mut Register, step: u32, before: &Tables, counts: Counts, after: &Tables,
    ) -> Option<Names> {
        let (old, new, refined) = (Rows(before), Rows(after), counts.refined());
        let mut points = vec![None; refined.points];
        let mut edges = vec![None; refined.edges];
        let mut faces = vec![None; refined.faces];
        for p in 0..counts.points {
            points[p] = Some(self.points[p]);
        }
        // The midpoint of an old edge is the destination of its row, the face point of an old face corner 0 of its row.
        let mut edge_of = HashMap::new();
        let mut face_of = HashMap::new();
        for e in 0..counts.edges {
            edges[e] = Some(self.edges[e]);
            *points.get_mut(new.dest(e) as usize)? = Some(register.number(Name::Midpoint(step, self.edges[e])));
            edge_of.insert(new.dest(e), e);
        }
        for f in 0..counts.faces {
            *points.get_mut(new.corner(f, 0) as usize)? = Some(register.number(Name::FacePoint(step, self.faces[f])));
            face_of.insert(new.corner(f, 0), f);
        }
        for e in counts.edges..refined.edges {
            let (origin, dest) = (new.origin(e), new.dest(e));
            let name = if let Some(&half) = edge_of.get(&origin) {
                (dest == old.dest(half)).then_some(Name::DestinationHalf(step, self.edges[half]))?
            } else {
                Name::Joining(step, self.faces[*face_of.get(&origin)?], self.edges[*edge_of.get(&dest)?])
            };
            edges[e] = Some(register.number(name));
        }
        for (f, face) in faces.iter_mut().enumerate() {
            let from = *face_of.get(&new.corner(f, 0))?;
            let point = *self.points.get(new.corner(f, 2) as usize)?;
            *face = Some(register.number(Name::NewFace(step, self.faces[from], point)));
        }
        let whole = |names: Vec<Option<u32>>| names.into_iter().collect::<Option<Vec<u32>>>();
        Some(Names { points: whole(points)?, edges: whole(edges)?, faces: whole(faces)? })
    }
}

/// The row of each name; nothing if two rows have one name.
fn rows(names: &[u32]) -> Option<HashMap<u32, usize>> {
    let rows: HashMap<u32, usize> = names.iter().enumerate().map(|(row, &name)| (name, row)).collect();
    (rows.len() == names.len()).then_some(rows)
}

/// A list turned so that its least entry is first: lists that go round are compared so.
fn turned(mut items: Vec<(u32, u32)>) -> Vec<(u32, u32)> {
    let least = (0..items.len()).min_by_key(|&i| items[i]).unwrap_or(0);
    items.rotate_left(least);
    items
}

/// How much two meshes are to share under the names.
#[derive(Clone, Copy, PartialEq, Eq, PartialOrd, Ord)]
pub enum Share {
    /// Document 01's sense: points in their valence, edges in all eight words, faces in their borders and corners.
    Structure,
    /// Positions too, bit for bit.
    Positions,
    /// Document 02's full agreement: intervals, marks and start edges too.
    Everything,
}

/// Whether two meshes of these counts share so much. Else the row that differs.
pub fn shared(counts: Counts, a: (&Tables, &Names), b: (&Tables, &Names), share: Share) -> Result<(), String> {
    let everything = share == Share::Everything;
    let twice = || String::from("two rows have one name");
    let point_rows = rows(&b.1.points).ok_or_else(twice)?;
    let edge_rows = rows(&b.1.edges).ok_or_else(twice)?;
    let face_rows = rows(&b.1.faces).ok_or_else(twice)?;
    let (one, two) = (Rows(a.0), Rows(b.0));
    let lost = |kind: &str, row: usize| format!("{kind} {row} has a name that the other run does not have");
    let differs = |kind: &str, row: usize, other: usize| format!("{kind} {row} and {kind} {other} of one name differ");
    for p in 0..counts.points {
        let &q = point_rows.get(&a.1.points[p]).ok_or_else(|| lost("point", p))?;
        let bits = |t: &Tables, row: usize| [0, 1, 2].map(|k| t.positions[3 * row + k].to_bits());
        let start = |r: &Rows, n: &Names, row: usize| (n.edges[r.point_start(row) as usize], r.mark(row));
        if one.valence(p) != two.valence(q)
            || share >= Share::Positions && bits(a.0, p) != bits(b.0, q)
            || everything && start(&one, a.1, p) != start(&two, b.1, q)
        {
            return Err(differs("point", p, q));
        }
    }
    let edge_names = |r: &Rows, n: &Names, e: usize| {
        let ends = [r.origin(e), r.dest(e)].map(|p| n.points[p as usize]);
        let sides = [r.left(e), r.right(e)].map(|f| n.faces[f as usize]);
        (ends, sides, [0, 1, 2, 3].map(|k| n.edges[r.neighbour(e, k) as usize]))
    };
    for e in 0..counts.edges {
        let &o = edge_rows.get(&a.1.edges[e]).ok_or_else(|| lost("edge", e))?;
        if edge_names(&one, a.1, e) != edge_names(&two, b.1, o)
            || everything && a.0.intervals[e].to_bits() != b.0.intervals[o].to_bits()
        {
            return Err(differs("edge", e, o));
        }
    }
    let corner_name = |n: &Names, corner: u32| if corner == NONE { None } else { Some(n.points[corner as usize]) };
    let face_names = |r: &Rows, n: &Names, f: usize| {
        let border = r.face_walk(f, 64).unwrap_or_default().into_iter();
        let border = border.map(|e| (n.edges[e], n.points[r.walked_from(e, f) as usize])).collect();
        (turned(border), [0, 1, 2, 3].map(|k| corner_name(n, r.corner(f, k))))
    };
    for f in 0..counts.faces {
        let &g = face_rows.get(&a.1.faces[f]).ok_or_else(|| lost("face", f))?;
        let start = |r: &Rows, n: &Names, row: usize| n.edges[r.face_start(row) as usize];
        if face_names(&one, a.1, f) != face_names(&two, b.1, g) || everything && start(&one, a.1, f) != start(&two, b.1, g) {
            return Err(differs("face", f, g));
        }
    }
    Ok(())
}
