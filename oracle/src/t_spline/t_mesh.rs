//! Stand-in for the module of this name, of which the six files use nothing. The records are private to this folder's
//! modules, so it is here that they are read as rows, and that a visiting order is put before a step.

use super::*;
use crate::monstertruck_core::Position;
use crate::records::{EdgeRow, FaceRow, Listing, PointRow, Row};
use std::collections::HashMap;

/// The row number of each thing in a vector, by its place in memory.
struct Rows<T>(HashMap<*const RwLock<T>, usize>);

impl<T> Rows<T> {
    fn new(things: &[Arc<RwLock<T>>]) -> Self {
        Rows(things.iter().enumerate().map(|(row, thing)| (Arc::as_ptr(thing), row)).collect())
    }

    fn of(&self, thing: &Arc<RwLock<T>>) -> Row {
        self.0.get(&Arc::as_ptr(thing)).map_or(Row::Lost, |&row| Row::At(row))
    }

    fn of_option(&self, thing: &Option<Arc<RwLock<T>>>) -> Row {
        thing.as_ref().map_or(Row::None, |thing| self.of(thing))
    }
}

impl Tnurcc<Position> {
    /// The records as rows: a row's number is its place in the vector.
    pub fn listing(&self) -> Listing {
        let points = Rows::new(&self.control_points);
        let edges = Rows::new(&self.edges);
        let faces = Rows::new(&self.faces);
        let extraordinary = Rows::new(&self.extraordinary_control_points);

        let point_row = |point: &Arc<RwLock<TnurccControlPoint<Position>>>| PointRow {
            position: point.read().point,
            valence: point.read().valence,
            start: edges.of_option(&point.read().incoming_edge),
            extraordinary: matches!(extraordinary.of(point), Row::At(_)),
        };
        let edge_row = |edge: &Arc<RwLock<TnurccEdge<Position>>>| EdgeRow {
            origin: points.of(&edge.read().origin),
            dest: points.of(&edge.read().dest),
            left: faces.of_option(&edge.read().face_left),
            right: faces.of_option(&edge.read().face_right),
            neighbours: edge.read().connections.each_ref().map(|link| edges.of_option(link)),
            interval: edge.read().knot_interval,
        };
        let face_row = |face: &Arc<RwLock<TnurccFace<Position>>>| FaceRow {
            start: edges.of_option(&face.read().edge),
            corners: face.read().corners.each_ref().map(|corner| points.of_option(corner)),
        };
        Listing {
            points: self.control_points.iter().map(point_row).collect(),
            edges: self.edges.iter().map(edge_row).collect(),
            faces: self.faces.iter().map(face_row).collect(),
        }
    }

    /// The mesh whose records are these rows, each reference to a row of the listing or none. A mesh that was listed and
    /// is made anew has the same records; the listing may also be of a mesh that was made in another way.
    pub fn of_listing(listing: &Listing) -> Self {
        let at = |row: Row| match row {
            Row::At(row) => Some(row),
            Row::None => None,
            Row::Lost => unreachable!("a lost reference is of no closed mesh"),
        };
        let control_points: Vec<_> = (listing.points.iter().enumerate())
            .map(|(index, row)| {
                let mut point = TnurccControlPoint::new(index, row.position);
                point.valence = row.valence;
                Arc::new(RwLock::new(point))
            })
            .collect();
        let new_face = |(index, row): (usize, &FaceRow)| {
            let corners = row.corners.map(|corner| at(corner).map(|p| Arc::clone(&control_points[p])));
            Arc::new(RwLock::new(TnurccFace { index, edge: None, corners }))
        };
        let faces: Vec<_> = listing.faces.iter().enumerate().map(new_face).collect();
        let face_at = |row: Row| at(row).map(|f| Arc::clone(&faces[f]));
        let point_at = |row: Row| Arc::clone(&control_points[at(row).expect("an edge has two ends")]);
        let new_edge = |(index, row): (usize, &EdgeRow)| {
            Arc::new(RwLock::new(TnurccEdge {
                index,
                connections: [const { None }; 4],
                face_left: face_at(row.left),
                face_right: face_at(row.right),
                origin: point_at(row.origin),
                dest: point_at(row.dest),
                knot_interval: row.interval,
            }))
        };
        let edges: Vec<_> = listing.edges.iter().enumerate().map(new_edge).collect();

        let edge_at = |row: Row| at(row).map(|e| Arc::clone(&edges[e]));
        for (edge, row) in edges.iter().zip(&listing.edges) {
            edge.write().connections = row.neighbours.map(edge_at);
        }
        for (point, row) in control_points.iter().zip(&listing.points) {
            point.write().incoming_edge = edge_at(row.start);
        }
        for (face, row) in faces.iter().zip(&listing.faces) {
            face.write().edge = edge_at(row.start);
        }
        let extraordinary = control_points.iter().zip(&listing.points).filter(|(_, row)| row.extraordinary);
        let extraordinary_control_points = extraordinary.map(|(point, _)| Arc::clone(point)).collect();
        Tnurcc { extraordinary_control_points, control_points, faces, edges }
    }

    /// Takes the mesh apart. Its records hold each other, so that they would stay in memory for ever.
    pub fn release(self) {
        for edge in &self.edges {
            let mut edge = edge.write();
            edge.connections = [const { None }; 4];
            edge.face_left = None;
            edge.face_right = None;
        }
        for face in &self.faces {
            face.write().edge = None;
            face.write().corners = [const { None }; 4];
        }
        for point in &self.control_points {
            point.write().incoming_edge = None;
        }
    }

    pub fn edge_count(&self) -> usize {
        self.edges.len()
    }

    /// Whether a list names each face once.
    pub fn is_order(&self, order: &[usize]) -> bool {
        let mut named = order.to_vec();
        named.sort_unstable();
        named.into_iter().eq(0..self.faces.len())
    }

    /// One step that visits the faces in this order. The Rust goes through its vector of faces from front to back: the
    /// vector is put into the order before the step, and its rows are put back after it.
    pub fn subdivide_in_order(&mut self, order: &[usize]) -> Result<()> {
        let numbered = self.faces.clone();
        for (place, &face) in order.iter().enumerate() {
            self.put_face(place, &numbered[face]);
        }
        let outcome = self.global_subdivide();
        let visited = self.faces[..order.len()].to_vec();
        for (place, &face) in order.iter().enumerate() {
            self.put_face(face, &visited[place]);
        }
        outcome
    }

    fn put_face(&mut self, row: usize, face: &Arc<RwLock<TnurccFace<Position>>>) {
        face.write().index = row;
        self.faces[row] = Arc::clone(face);
    }
}
