//! The reader of mesh texts 1 and 2 (document 01, "Mesh text"; document 02, section 4). It looks at the form alone: numbers
//! that are not finite or out of range go to the Rust as they are.

use crate::monstertruck_core::Position;

/// A side: its first point, then the points listed, each with its interval.
pub type Side = (usize, Vec<(usize, f64)>);

/// What the number in a text's head says: in version 2 an interval belongs to the edge that arrives at its point.
#[derive(Clone, Copy, PartialEq, Eq, Debug)]
pub enum Version {
    One,
    Two,
}

/// What a text says, in the shape that `Tnurcc::try_new` takes.
pub struct MeshText {
    pub version: Version,
    pub points: Vec<Position>,
    pub faces: Vec<[Side; 4]>,
}

/// The mesh of a text, or `None` if the text is not of the form.
pub fn read(text: &[u8]) -> Option<MeshText> {
    let mut reader = Reader { rest: text };
    let version = reader.version()?;
    let mut points = Vec::new();
    while reader.begins("[point ") {
        points.push(reader.point()?);
    }
    let mut faces = Vec::new();
    while reader.begins("[face ") {
        faces.push(reader.face()?);
    }
    reader.word("[end]\n")?;
    reader.rest.is_empty().then_some(MeshText { version, points, faces })
}

/// The face numbers of a line `[order N N ..]`, or of another first word, or `None` if it is no such line.
pub fn read_order(word: &str, line: &[u8]) -> Option<Vec<usize>> {
    let mut reader = Reader { rest: line };
    reader.word(word)?;
    let mut order = Vec::new();
    while reader.word(" ").is_some() {
        order.push(reader.number()?);
    }
    reader.word("]\n")?;
    reader.rest.is_empty().then_some(order)
}

/// The bytes that are still to be read. Each method takes what it is named for from their front.
struct Reader<'a> {
    rest: &'a [u8],
}

impl Reader<'_> {
    fn version(&mut self) -> Option<Version> {
        if self.word("[mesh 1]\n").is_some() {
            return Some(Version::One);
        }
        self.word("[mesh 2]\n").map(|()| Version::Two)
    }

    fn begins(&self, word: &str) -> bool {
        self.rest.starts_with(word.as_bytes())
    }

    fn word(&mut self, word: &str) -> Option<()> {
        self.rest = self.rest.strip_prefix(word.as_bytes())?;
        Some(())
    }

    /// A decimal number below 2^32 with no leading zero.
    fn number(&mut self) -> Option<usize> {
        let end = self.rest.iter().take_while(|byte| byte.is_ascii_digit()).count();
        let (digits, rest) = self.rest.split_at(end);
        if digits.len() > 1 && digits[0] == b'0' {
            return None;
        }
        self.rest = rest;
        let number: u32 = std::str::from_utf8(digits).ok()?.parse().ok()?;
        Some(number as usize)
    }

    /// The bits of a binary64 as 16 lower-case hexadecimal digits.
    fn float(&mut self) -> Option<f64> {
        let (digits, rest) = self.rest.split_at_checked(16)?;
        if !digits.iter().all(|byte| matches!(byte, b'0'..=b'9' | b'a'..=b'f')) {
            return None;
        }
        self.rest = rest;
        let bits = u64::from_str_radix(std::str::from_utf8(digits).ok()?, 16).ok()?;
        Some(f64::from_bits(bits))
    }

    fn point(&mut self) -> Option<Position> {
        self.word("[point ")?;
        let x = self.float()?;
        self.word(" ")?;
        let y = self.float()?;
        self.word(" ")?;
        let z = self.float()?;
        self.word("]\n")?;
        Some(Position { x, y, z })
    }

    fn side(&mut self) -> Option<Side> {
        self.word("[")?;
        let first = self.number()?;
        let mut listed = Vec::new();
        while self.word(" [").is_some() {
            let point = self.number()?;
            self.word(" ")?;
            let interval = self.float()?;
            self.word("]")?;
            listed.push((point, interval));
        }
        self.word("]")?;
        Some((first, listed))
    }

    fn face(&mut self) -> Option<[Side; 4]> {
        self.word("[face ")?;
        let s0 = self.side()?;
        self.word(" ")?;
        let s1 = self.side()?;
        self.word(" ")?;
        let s2 = self.side()?;
        self.word(" ")?;
        let s3 = self.side()?;
        self.word("]\n")?;
        Some([s0, s1, s2, s3])
    }
}
