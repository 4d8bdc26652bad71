//! Stand-in for the module of this name. Only the making of T-meshes calls it, which is no part of this work.

use super::*;

impl TmeshDirection {
    pub fn iter() -> impl Iterator<Item = Self> {
        use TmeshDirection::*;
        [Up, Right, Down, Left].into_iter()
    }

    fn turned(self, quarters: usize) -> Self {
        use TmeshDirection::*;
        [Up, Right, Down, Left][(self as usize + quarters) % 4]
    }

    pub fn clockwise(self) -> Self {
        self.turned(1)
    }

    pub fn flip(self) -> Self {
        self.turned(2)
    }

    pub fn anti_clockwise(self) -> Self {
        self.turned(3)
    }

    pub fn horizontal(self) -> bool {
        self as usize % 2 == 1
    }
}
