//! Words, each with its high byte first, eight at a step.

/// Reads the words that the bytes are, over these.
#[inline]
pub fn read_words(bytes: &[u8], words: &mut [u16]) {
    let (steps, last) = bytes.as_chunks::<16>();
    let (places, rest) = words.as_chunks_mut::<8>();
    for (place, step) in places.iter_mut().zip(steps) {
        *place = std::array::from_fn(|k| u16::from_be_bytes([step[2 * k], step[2 * k + 1]]));
    }
    for (word, pair) in rest.iter_mut().zip(last.as_chunks::<2>().0) {
        *word = u16::from_be_bytes(*pair);
    }
}
