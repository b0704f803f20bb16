//! Floats that lists of arguments are made of: powers of two, neighbours, the ends of the
//! range, random ones. Each width has its file.

pub mod doubles;
pub mod singles;
