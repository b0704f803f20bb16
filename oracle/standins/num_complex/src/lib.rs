//! A stand-in for `num_complex`: a pair of parts. The original writes its complex arithmetic
//! out part by part, so none is needed here.

/// A complex number, real part first.
#[derive(Clone, Copy, Debug, Default, PartialEq)]
#[repr(C)]
pub struct Complex<T> {
    /// The real part.
    pub re: T,
    /// The imaginary part.
    pub im: T,
}

impl<T> Complex<T> {
    /// The number with these parts.
    pub const fn new(re: T, im: T) -> Self {
        Self { re, im }
    }
}

/// Parts of 32 bits.
pub type Complex32 = Complex<f32>;
/// Parts of 64 bits.
pub type Complex64 = Complex<f64>;

impl bytemuck::Zeroable for Complex32 {}
impl bytemuck::Pod for Complex32 {}
