//! Bytes that are moved: few of them without a call.

/// Copies bytes over as many others.
#[inline(always)]
pub fn copy(from: &[u8], to: &mut [u8]) {
    assert!(from.len() == to.len());
    match from.len() {
        0..2 => to.copy_from_slice(from),
        2..4 => ends::<2>(from, to),
        4..8 => ends::<4>(from, to),
        8..16 => ends::<8>(from, to),
        16..32 => ends::<16>(from, to),
        32..64 => ends::<32>(from, to),
        64..128 => ends::<64>(from, to),
        _ => to.copy_from_slice(from),
    }
}

/// Copies the first and the last N bytes, which may be the same in part.
#[inline(always)]
fn ends<const N: usize>(from: &[u8], to: &mut [u8]) {
    let (Some(first), Some(last)) = (from.first_chunk::<N>(), from.last_chunk::<N>()) else {
        return;
    };
    if let Some(place) = to.first_chunk_mut::<N>() {
        *place = *first;
    }
    if let Some(place) = to.last_chunk_mut::<N>() {
        *place = *last;
    }
}
