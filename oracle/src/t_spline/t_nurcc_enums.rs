//! Stand-in for the module of this name.

use super::*;

impl TnurccConnection {
    /// Document 01: LeftCw 0, LeftAcw 1, RightCw 2, RightAcw 3.
    pub fn from_usize(number: usize) -> Self {
        use TnurccConnection::*;
        [LeftCw, LeftAcw, RightCw, RightAcw][number]
    }
}
