//! Buffers of f32 as buffers of samples, where they lie.

use std::slice;

use crate::bits::Parts;

/// Whether a buffer of so many f32 is one of whole samples. A sample is its parts in a row: f32 is one
/// itself, and `C32` is laid out as in C.
fn fits<T: Parts>(count: usize) -> bool {
    assert_eq!(size_of::<T>(), T::COUNT * size_of::<f32>());
    assert_eq!(align_of::<T>(), align_of::<f32>());
    count.is_multiple_of(T::COUNT)
}

/// The samples, or none if an f32 is left over.
pub fn whole<T: Parts>(floats: &[f32]) -> Option<&[T]> {
    let count = floats.len() / T::COUNT;
    // SAFETY: the samples cover the same f32, and any bits are a sample.
    fits::<T>(floats.len()).then(|| unsafe { slice::from_raw_parts(floats.as_ptr().cast(), count) })
}

/// The f32 of samples.
pub fn parts<T: Parts>(samples: &[T]) -> &[f32] {
    assert!(fits::<T>(samples.len() * T::COUNT));
    // SAFETY: the f32 cover the same samples.
    unsafe { slice::from_raw_parts(samples.as_ptr().cast(), samples.len() * T::COUNT) }
}

/// The same samples, to be written.
pub fn whole_mut<T: Parts>(floats: &mut [f32]) -> Option<&mut [T]> {
    let count = floats.len() / T::COUNT;
    let start = floats.as_mut_ptr();
    // SAFETY: as above; the loan goes on in the samples.
    fits::<T>(floats.len()).then(|| unsafe { slice::from_raw_parts_mut(start.cast(), count) })
}
