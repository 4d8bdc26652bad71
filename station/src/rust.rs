//! The original Rust, by way of the oracle: its meshes as tables, and tables as its meshes.

use crate::library::{Counts, NONE, Tables};
use crate::lists::Lists;
use oracle::answers::{self, Edition, Visit};
use oracle::monstertruck_core::Position;
use oracle::records::{EdgeRow, FaceRow, Listing, PointRow, Row};
use oracle::t_spline::Tnurcc;

/// A mesh of the Rust. Its records hold each other; they are taken apart when it is dropped.
pub struct Mesh(Option<Tnurcc<Position>>);

impl Drop for Mesh {
    fn drop(&mut self) {
        if let Some(tnurcc) = self.0.take() {
            tnurcc.release();
        }
    }
}

impl Mesh {
    /// The mesh of lists whose lengths agree, or the oracle's line for why there is none.
    pub fn build(lists: &Lists) -> Result<Self, String> {
        let mesh = lists.mesh().expect("lists whose lengths agree");
        answers::build_of(mesh).map(|tnurcc| Mesh(Some(tnurcc)))
    }

    /// The mesh with these records.
    pub fn of_tables(tables: &Tables, counts: Counts) -> Self {
        Mesh(Some(Tnurcc::of_listing(&listing(tables, counts))))
    }

    /// One step of either edition, in numbered order or in the order given. The second edition's is made by the Rust altered.
    pub fn step(&mut self, edition: Edition, order: Option<&[u32]>) -> Result<(), String> {
        let visit = match order {
            None => Visit::Numbered,
            Some(order) => Visit::Listed(order.iter().map(|&f| f as usize).collect()),
        };
        answers::refine(self.0.as_mut().expect("a mesh"), edition, &visit)
    }

    /// The records as tables, or nothing if one refers to something that is in no table.
    pub fn tables(&self) -> Option<(Tables, Counts)> {
        tables(&self.0.as_ref().expect("a mesh").listing())
    }
}

fn word(row: Row) -> Option<u32> {
    match row {
        Row::At(row) => Some(row as u32),
        Row::None => Some(NONE),
        Row::Lost => None,
    }
}

fn tables(listing: &Listing) -> Option<(Tables, Counts)> {
    let counts = Counts { points: listing.points.len(), edges: listing.edges.len(), faces: listing.faces.len() };
    let mut tables = Tables::default();
    for point in &listing.points {
        let Position { x, y, z } = point.position;
        tables.positions.extend([x, y, z]);
        tables.points.extend([point.valence as u32, word(point.start)?, u32::from(point.extraordinary)]);
    }
    for edge in &listing.edges {
        for row in [edge.origin, edge.dest, edge.left, edge.right].into_iter().chain(edge.neighbours) {
            tables.edges.push(word(row)?);
        }
        tables.intervals.push(edge.interval);
    }
    for face in &listing.faces {
        tables.faces.push(word(face.start)?);
        for corner in face.corners {
            tables.faces.push(word(corner)?);
        }
    }
    Some((tables, counts))
}

fn listing(tables: &Tables, counts: Counts) -> Listing {
    let row = |word: u32| if word == NONE { Row::None } else { Row::At(word as usize) };
    let point = |p: usize| {
        let [x, y, z] = [0, 1, 2].map(|k| tables.positions[3 * p + k]);
        let [valence, start, mark] = [0, 1, 2].map(|k| tables.points[3 * p + k]);
        PointRow { position: Position { x, y, z }, valence: valence as usize, start: row(start), extraordinary: mark == 1 }
    };
    let edge = |e: usize| {
        let [origin, dest, left, right, n0, n1, n2, n3] = [0, 1, 2, 3, 4, 5, 6, 7].map(|k| row(tables.edges[8 * e + k]));
        EdgeRow { origin, dest, left, right, neighbours: [n0, n1, n2, n3], interval: tables.intervals[e] }
    };
    let face = |f: usize| {
        let [start, c0, c1, c2, c3] = [0, 1, 2, 3, 4].map(|k| row(tables.faces[5 * f + k]));
        FaceRow { start, corners: [c0, c1, c2, c3] }
    };
    Listing {
        points: (0..counts.points).map(point).collect(),
        edges: (0..counts.edges).map(edge).collect(),
        faces: (0..counts.faces).map(face).collect(),
    }
}
