//! What is handed to building: coordinates, side lengths, in version 2 first points, listed points and intervals; and its text.

use oracle::monstertruck_core::Position;
use oracle::text::{MeshText, Side, Version};
use std::fmt::Write;

#[derive(Clone, Default)]
pub struct Lists {
    pub coordinates: Vec<f64>,
    pub sides: Vec<u32>,
    /// The first points of version 2, one a side.
    pub firsts: Option<Vec<u32>>,
    pub listed: Vec<u32>,
    pub intervals: Vec<f64>,
}

impl Lists {
    pub fn version(&self) -> Version {
        if self.firsts.is_some() { Version::Two } else { Version::One }
    }

    pub fn points(&self) -> usize {
        self.coordinates.len() / 3
    }

    pub fn faces(&self) -> usize {
        self.sides.len() / 4
    }

    /// Whether the lengths of the lists agree: only then are there faces to speak of.
    pub fn agree(&self) -> bool {
        let sum: u64 = self.sides.iter().map(|&length| u64::from(length)).sum();
        self.coordinates.len() % 3 == 0
            && self.sides.len() % 4 == 0
            && self.listed.len() == self.intervals.len()
            && sum == self.listed.len() as u64
            && self.firsts.as_ref().is_none_or(|firsts| firsts.len() == self.sides.len())
    }

    /// First points that agree, where the other lists do: for each side, an empty one too, the point listed last before it,
    /// going round.
    pub fn agreed(&self) -> Vec<u32> {
        let mut firsts = Vec::with_capacity(self.sides.len());
        for (sides, (begin, size)) in self.sides.chunks_exact(4).zip(self.places()) {
            let mut at = begin;
            for &length in sides {
                let before = if at > begin { at } else { begin + size };
                firsts.push(if size == 0 { 0 } else { self.listed[before - 1] });
                at += length as usize;
            }
        }
        firsts
    }

    /// These lists, in version 2 with first points that agree.
    pub fn fitted(mut self) -> Self {
        if self.firsts.take().is_some() {
            self.firsts = Some(if self.agree() { self.agreed() } else { vec![0; self.sides.len()] });
        }
        self
    }

    /// Where the listed points of each face begin, and how many they are.
    pub fn places(&self) -> Vec<(usize, usize)> {
        let mut at = 0;
        let place = |sides: &[u32]| {
            let size: usize = sides.iter().map(|&length| length as usize).sum();
            at += size;
            (at - size, size)
        };
        self.sides.chunks_exact(4).map(place).collect()
    }

    /// What the Rust is given. A side's first point, which in version 1 nothing looks at, is there the one listed last before
    /// it, and 0 of an empty side.
    pub fn mesh(&self) -> Option<MeshText> {
        if !self.agree() {
            return None;
        }
        let points = self.coordinates.chunks_exact(3).map(|c| Position { x: c[0], y: c[1], z: c[2] }).collect();
        let firsts = self.firsts.clone().unwrap_or_else(|| {
            self.agreed().into_iter().zip(&self.sides).map(|(first, &length)| if length == 0 { 0 } else { first }).collect()
        });
        let mut at = 0;
        let side = |(&length, &first): (&u32, &u32)| -> Side {
            let range = at..at + length as usize;
            at = range.end;
            (first as usize, range.map(|i| (self.listed[i] as usize, self.intervals[i])).collect())
        };
        let sides: Vec<Side> = self.sides.iter().zip(&firsts).map(side).collect();
        let faces = sides.chunks_exact(4).map(|four| four.to_vec().try_into().expect("four sides")).collect();
        Some(MeshText { version: self.version(), points, faces })
    }

    /// The mesh text of their version, where the lengths of the lists agree.
    pub fn text(&self) -> Option<String> {
        let mesh = self.mesh()?;
        let mut text = String::from(if mesh.version == Version::Two { "[mesh 2]\n" } else { "[mesh 1]\n" });
        for p in &mesh.points {
            let [x, y, z] = [p.x, p.y, p.z].map(f64::to_bits);
            writeln!(text, "[point {x:016x} {y:016x} {z:016x}]").ok()?;
        }
        for face in &mesh.faces {
            text += "[face";
            for (first, entries) in face {
                write!(text, " [{first}").ok()?;
                for (point, interval) in entries {
                    write!(text, " [{point} {:016x}]", interval.to_bits()).ok()?;
                }
                text += "]";
            }
            text += "]\n";
        }
        Some(text + "[end]\n")
    }

    /// The lists of a mesh that was read.
    pub fn of_mesh(mesh: &MeshText) -> Self {
        let mut lists = Lists::default();
        for p in &mesh.points {
            lists.coordinates.extend([p.x, p.y, p.z]);
        }
        lists.firsts = (mesh.version == Version::Two).then(|| mesh.faces.iter().flatten().map(|side| side.0 as u32).collect());
        for (_, entries) in mesh.faces.iter().flatten() {
            lists.sides.push(entries.len() as u32);
            lists.listed.extend(entries.iter().map(|entry| entry.0 as u32));
            lists.intervals.extend(entries.iter().map(|entry| entry.1));
        }
        lists
    }
}
