//! The errors that the six files name.

#[derive(Debug)]
pub enum Error {
    TnurccNonRectangularFace,
    TnurccEdgeTripleFace,
    TnurccMissingFace,
    TnurccBadConnectionConditions(usize, usize),
    TnurccMalformedFace,
    TmeshMalformedMesh,
}

pub type Result<T> = std::result::Result<T, Error>;
