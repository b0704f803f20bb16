//! A stand-in for `sdrk_device`: the three names that `timing.rs` passes on. Nothing that is
//! compared looks at them.

/// A ratio of two whole numbers that are not zero.
#[derive(Clone, Copy, Debug, PartialEq, Eq, Hash)]
pub struct Ratio {
    num: u64,
    den: u64,
}

/// Why a ratio was refused.
#[derive(Clone, Copy, Debug, PartialEq, Eq)]
pub struct ZeroPart;

impl Ratio {
    /// One to one.
    pub const ONE: Ratio = Ratio { num: 1, den: 1 };

    /// The ratio of two whole numbers.
    ///
    /// # Errors
    /// `ZeroPart` if one of them is zero.
    pub const fn new(num: u64, den: u64) -> Result<Ratio, ZeroPart> {
        if num == 0 || den == 0 {
            return Err(ZeroPart);
        }
        Ok(Ratio { num, den })
    }

    /// The upper number.
    pub const fn num(&self) -> u64 {
        self.num
    }

    /// The lower number.
    pub const fn den(&self) -> u64 {
        self.den
    }
}

/// Only passed on by name.
#[derive(Clone, Copy, Debug)]
pub struct Rate;

/// Only passed on by name.
#[derive(Clone, Copy, Debug)]
pub struct SampleIndex;
