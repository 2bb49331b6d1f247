//! The absent block, as its bytes.

use crate::plain::Shape;
use crate::publishing::put_absent;

/// The first word of an absent block.
pub const STAT: [u8; 2] = [0xA1, 0xF0];

/// Whether the bytes are a present block of the shape: nearly always the first word tells.
#[inline(always)]
pub fn is_present(bytes: &[u8], shape: Shape) -> bool {
    bytes.first_chunk() != Some(&STAT) || !is_absent(bytes, shape)
}

#[inline(never)]
fn is_absent(bytes: &[u8], shape: Shape) -> bool {
    let (values, digitals) = bytes.split_at(bytes.len() - 2 * usize::from(shape.digitals));
    let (words, _) = values[2..].as_chunks::<2>();
    words.iter().all(|word| *word == [0x80, 0]) && digitals.iter().all(|byte| *byte == 0)
}

/// Writes the absent block: a call of its own.
#[inline(never)]
pub fn write_absent(bytes: &mut [u8], shape: Shape) {
    put_absent(bytes, shape);
}
