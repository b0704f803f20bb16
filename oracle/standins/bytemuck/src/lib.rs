//! A stand-in for `bytemuck`: two marks without methods. The files that are built only name
//! them as bounds; no bytes are ever looked at through them.

pub use bytemuck_derive::{Pod, Zeroable};

/// A type for which all bits zero is a value.
pub trait Zeroable {}

/// A plain type.
pub trait Pod: Zeroable + Copy + 'static {}

impl Zeroable for f32 {}
impl Pod for f32 {}
