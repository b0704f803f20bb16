//! Reads the fields of a tape, one after the other. All are little-endian.

use super::model::CUT;

/// A field, or the number that the tape is refused with.
pub type Read<T> = Result<T, u32>;

/// A tape, and how many of its bytes were read.
pub struct Reader<'a> {
    tape: &'a [u8],
    place: usize,
}

impl<'a> Reader<'a> {
    pub fn new(tape: &'a [u8]) -> Self {
        Self { tape, place: 0 }
    }

    /// How many bytes were read.
    pub fn place(&self) -> usize {
        self.place
    }

    /// Whether all bytes were read.
    pub fn at_end(&self) -> bool {
        self.place == self.tape.len()
    }

    /// The bytes of the next field. If the tape ends inside it, what there is of it was read.
    fn field<const BYTES: usize>(&mut self) -> Read<[u8; BYTES]> {
        match self.tape[self.place..].first_chunk() {
            Some(bytes) => {
                self.place += BYTES;
                Ok(*bytes)
            }
            None => {
                self.place = self.tape.len();
                Err(CUT)
            }
        }
    }

    pub fn byte(&mut self) -> Read<u8> {
        self.field().map(u8::from_le_bytes)
    }

    /// A number of 16 bits.
    pub fn count(&mut self) -> Read<u16> {
        self.field().map(u16::from_le_bytes)
    }

    pub fn single(&mut self) -> Read<f32> {
        self.field().map(f32::from_le_bytes)
    }

    pub fn double(&mut self) -> Read<f64> {
        self.field().map(f64::from_le_bytes)
    }
}
