//! Matrices as they cross: four little-endian bytes a float.

use cases::answers::Words;

pub const MATRIX: usize = 64;

pub fn of(words: &Words) -> [u8; MATRIX] {
    let mut bytes = [0; MATRIX];
    for (four, word) in bytes.as_chunks_mut::<4>().0.iter_mut().zip(words) {
        *four = word.to_le_bytes();
    }
    bytes
}

/// The first 16 words of `bytes`, which holds at least as many.
pub fn words(bytes: &[u8]) -> Words {
    let fours = bytes.as_chunks::<4>().0;
    core::array::from_fn(|i| u32::from_le_bytes(fours[i]))
}
