//! A stand-in for the original's tables.

/// Entries of a table: a turn and the first entry once more.
const ENTRIES: usize = 4097;

/// The cosine table. The build script makes its words from `cosine_table.txt`.
pub static COS_F32: [f32; ENTRIES] = include!(concat!(env!("OUT_DIR"), "/cosine_table.rs"));

/// Unused: the fixed-point oscillator is built, since it stands in the same file, but it is
/// never run. These are no cosines.
pub static COS_Q15: [i16; ENTRIES] = [0; ENTRIES];
