//! The check word, CRC-CCITT, in the two forms that the plain side takes.

/// A way to compute the check word.
pub trait CheckWord {
    fn of(bytes: &[u8]) -> u16;

    /// That of a header of fourteen bytes, given as one number with its first byte highest, and the payload behind it: so a header that was
    /// just written is not read again, which would wait for it.
    fn behind(header: u128, payload: &[u8]) -> u16;
}

/// Sixteen bytes a step from tables: slicing by 16.
pub struct ByTables;

/// Thirty-two bytes a step without tables, and from 512 bytes on lanes of words that are joined by exclusive or alone, as ours.
pub struct ByShifts;

const fn next_check(check: u16, byte: u8) -> u16 {
    let high = (check >> 8) ^ byte as u16;
    let mixed = high ^ (high >> 4);
    (check << 8) ^ (mixed << 12) ^ (mixed << 5) ^ mixed
}

/// Table k has the check word, from 0, of each byte with k zeros behind it.
const fn tables() -> [[u16; 256]; 16] {
    let mut tables = [[0; 256]; 16];
    let mut byte = 0;
    while byte < 256 {
        let mut check = next_check(0, byte as u8);
        let mut k = 0;
        while k < 16 {
            tables[k][byte] = check;
            check = next_check(check, 0);
            k += 1;
        }
        byte += 1;
    }
    tables
}

static TABLES: [[u16; 256]; 16] = tables();

/// The check word of so many zeros.
pub const fn of_zeros(count: usize) -> u16 {
    let (mut check, mut k) = (0xFFFF, 0);
    while k < count {
        check = next_check(check, 0);
        k += 1;
    }
    check
}

/// What becomes of a check word behind which so many bytes stand: its product with a power of x, from two tables.
pub struct Moved {
    pub len: usize,
    high: [u16; 256],
    low: [u16; 256],
}

/// The product of two remainders by the generator.
fn product(one: u16, other: u16) -> u16 {
    (0..16).rev().fold(0, |product: u16, bit| {
        let doubled = (product << 1) ^ if product >> 15 == 1 { 0x1021 } else { 0 };
        doubled ^ if one >> bit & 1 == 1 { other } else { 0 }
    })
}

/// The products of a number with each byte, at this place.
fn products(number: u16, place: u32) -> [u16; 256] {
    let mut products = [0; 256];
    for bit in 0..8 {
        products[1 << bit] = product(1 << (bit + place), number);
    }
    for byte in 1..256_usize {
        products[byte] = products[byte & (byte - 1)] ^ products[1 << byte.trailing_zeros()];
    }
    products
}

impl Moved {
    pub fn by(len: usize) -> Moved {
        let (mut power, mut square, mut rest) = (1, 0x0100, len);
        while rest != 0 {
            if rest & 1 == 1 {
                power = product(power, square);
            }
            square = product(square, square);
            rest >>= 1;
        }
        Moved {
            len,
            high: products(power, 8),
            low: products(power, 0),
        }
    }

    #[inline(always)]
    pub fn of(&self, check: u16) -> u16 {
        let [high, low] = check.to_be_bytes();
        self.high[usize::from(high)] ^ self.low[usize::from(low)]
    }
}

/// The check word after a step of this many bytes more. What depends on the bytes alone comes first, so that steps overlap.
#[inline(always)]
fn after_step<const N: usize>(check: u16, step: &[u8; N]) -> u16 {
    let [high, low] = check.to_be_bytes();
    let of = |place: usize, byte: u8| TABLES[N - 1 - place][usize::from(byte)];
    let later = (2..N).fold(0, |later, place| later ^ of(place, step[place]));
    later ^ (of(0, step[0] ^ high) ^ of(1, step[1] ^ low))
}

impl ByTables {
    #[inline(always)]
    fn after(check: u16, bytes: &[u8]) -> u16 {
        let (steps, rest) = bytes.as_chunks::<16>();
        let check = steps.iter().fold(check, after_step);
        let (steps, rest) = rest.as_chunks::<8>();
        let check = steps.iter().fold(check, after_step);
        let (steps, rest) = rest.as_chunks::<2>();
        let check = steps.iter().fold(check, after_step);
        rest.iter()
            .fold(check, |check, &byte| next_check(check, byte))
    }
}

impl CheckWord for ByTables {
    #[inline]
    fn of(bytes: &[u8]) -> u16 {
        ByTables::after(0xFFFF, bytes)
    }

    #[inline]
    fn behind(header: u128, payload: &[u8]) -> u16 {
        let [_, _, header @ ..]: [u8; 16] = header.to_be_bytes();
        ByTables::after(after_step(0xFFFF, &header), payload)
    }
}

/// The state before the first byte.
const START: u128 = 0x84CF;

/// The quotient of state * x^64 by the generator's fourth power, x^64 + x^48 + x^20 + 1.
#[inline]
fn quotient(state: u64) -> u64 {
    let half = state ^ (state >> 32);
    half ^ (half >> 16) ^ (half >> 44)
}

/// What is left of state * x^64 behind that power.
#[inline]
fn moved_up(state: u64) -> u64 {
    let quotient = quotient(state);
    (quotient << 48) ^ (quotient << 20) ^ quotient
}

/// What is left of state * x^128 behind the generator's eighth power, x^128 + x^96 + x^40 + 1.
#[inline]
fn wide_moved_up(state: u128) -> u128 {
    let half = state ^ (state >> 64);
    let quotient = half ^ (half >> 32) ^ (half >> 88);
    (quotient << 96) ^ (quotient << 40) ^ quotient
}

/// What is left of state * x^256 behind the generator's sixteenth power, x^256 + x^192 + x^80 + 1: a state in two halves.
#[inline]
fn long_moved_up((high, low): (u128, u128)) -> (u128, u128) {
    let mixed = low ^ high;
    let first = high ^ (high >> 64);
    let second = mixed ^ ((high << 64) | (mixed >> 64)) ^ (high >> 48);
    (
        (second << 64) ^ ((first << 80) | (second >> 48)) ^ first,
        (second << 80) ^ second,
    )
}

/// The state after a step of thirty-two bytes.
#[inline]
fn after_long(state: (u128, u128), step: &[u8; 32]) -> (u128, u128) {
    let (high, low) = long_moved_up(state);
    let [first, second] = [0, 16].map(|at| {
        let (half, _) = step[at..].as_chunks::<16>();
        u128::from_be_bytes(half[0])
    });
    (high ^ first, low ^ second)
}

/// The state after the steps of thirty-two bytes; the first one starts from a constant.
#[inline]
fn after_all_long(steps: &[[u8; 32]]) -> u128 {
    let Some((first, steps)) = steps.split_first() else {
        return START;
    };
    let (high, low) = steps.iter().fold(after_long((0, START), first), after_long);
    wide_moved_up(high) ^ low
}

/// The state after fewer than eight bytes more.
#[inline]
fn after_last(state: u64, last: &[u8]) -> u64 {
    if last.is_empty() {
        return state;
    }
    let bits = 8 * last.len() as u32;
    let number = last
        .iter()
        .fold(0, |number, &byte| (number << 8) | u64::from(byte));
    moved_up(state >> (64 - bits)) ^ (state << bits) ^ number
}

/// The check word that a state stands for: what is left of state * x^16 behind the generator.
#[inline]
fn check_of_state(state: u64) -> u16 {
    let half = quotient(state);
    let quarter = half ^ (half >> 8) ^ (half >> 22) ^ (half >> 32);
    let last = quarter ^ (quarter >> 4) ^ (quarter >> 11) ^ (quarter >> 16);
    ((last << 12) ^ (last << 5) ^ last) as u16
}

/// The state after fewer than sixteen bytes more.
#[inline]
fn after_rest(state: u128, rest: &[u8]) -> u64 {
    let state = moved_up((state >> 64) as u64) ^ state as u64;
    let (steps, rest) = rest.as_chunks::<8>();
    let state = steps.iter().fold(state, |state, step| {
        moved_up(state) ^ u64::from_be_bytes(*step)
    });
    after_last(state, rest)
}

/// The check word of thirty-two bytes or more: a call of its own, so that fewer need few registers.
#[inline(never)]
fn of_many(bytes: &[u8]) -> u16 {
    let (steps, rest) = bytes.as_chunks::<32>();
    let state = after_all_long(steps);
    let (steps, rest) = rest.as_chunks::<16>();
    let state = steps.iter().fold(state, |state, step| {
        wide_moved_up(state) ^ u128::from_be_bytes(*step)
    });
    check_of_state(after_rest(state, rest))
}

/// The check word of fewer than sixteen bytes.
#[inline(never)]
fn of_few(bytes: &[u8]) -> u16 {
    check_of_state(after_rest(START, bytes))
}

/// From so many bytes on lanes are worth their begin.
const LONG: usize = 512;

/// As many words as the longest step back of a lane.
const LANES: usize = 16;

/// Words of a message, one in each lane.
type Lanes = [u64; LANES];

/// The generator's 64th power is x^1024 + x^768 + x^320 + 1: each word goes on into those four, eleven and sixteen behind it.
#[inline(always)]
fn after_lanes(lanes: &mut Lanes, words: &Lanes) {
    for lane in 0..LANES {
        lanes[lane] ^= words[lane] ^ lanes[(lane + 12) % LANES] ^ lanes[(lane + 5) % LANES];
    }
}

#[inline(always)]
fn words_of(step: &[u8; 8 * LANES]) -> Lanes {
    let (words, _) = step.as_chunks::<8>();
    std::array::from_fn(|lane| u64::from_ne_bytes(words[lane]))
}

/// The check word behind these lanes: of steps of words, and the bytes behind them.
#[inline(always)]
fn of_lanes(mut lanes: Lanes, steps: &[[u8; 8 * LANES]], rest: &[u8]) -> u16 {
    let Some((last, steps)) = steps.split_last() else {
        return 0;
    };
    for step in steps {
        after_lanes(&mut lanes, &words_of(step));
    }
    let last = words_of(last);
    let mut left = [0; 8 * LANES + 8];
    for lane in 0..LANES {
        let mut word = last[lane] ^ lanes[lane];
        if lane < 4 {
            word ^= lanes[12 + lane];
        }
        if lane < 11 {
            word ^= lanes[5 + lane];
        }
        left[8 * lane..8 * lane + 8].copy_from_slice(&word.to_ne_bytes());
    }
    left[8 * LANES..8 * LANES + rest.len()].copy_from_slice(rest);
    of_state_and(0, &left[..8 * LANES + rest.len()])
}

/// The check word of many bytes behind a state of two words.
#[inline(never)]
fn of_long(state: u128, bytes: &[u8]) -> u16 {
    let (words, rest) = bytes.as_chunks::<8>();
    let (first, steps) = words.split_at(words.len() % LANES);
    let mut front = [0; LANES + 2];
    let begin = LANES - first.len();
    front[begin] = ((state >> 64) as u64).to_be();
    front[begin + 1] = (state as u64).to_be();
    for (word, bytes) in front[begin + 2..].iter_mut().zip(first) {
        *word = u64::from_ne_bytes(*bytes);
    }
    let mut lanes = [0; LANES];
    // With the state these may be a word more than a step has: then the first two are a step of their own.
    let (early, late) = front.split_at(2);
    if first.len() + 2 > LANES {
        lanes[LANES - 2..].copy_from_slice(early);
    }
    after_lanes(&mut lanes, late.try_into().expect("as many as lanes"));
    let (steps, _) = steps.as_flattened().as_chunks::<{ 8 * LANES }>();
    of_lanes(lanes, steps, rest)
}

/// The check word of bytes behind a state.
#[inline(always)]
fn of_behind(state: u128, bytes: &[u8]) -> u16 {
    if bytes.len() >= LONG {
        return of_long(state, bytes);
    }
    of_state_and(state, bytes)
}

/// The same by steps of thirty-two bytes.
#[inline(always)]
fn of_state_and(state: u128, bytes: &[u8]) -> u16 {
    let (steps, rest) = bytes.as_chunks::<32>();
    let state = match steps.split_first() {
        Some((first, steps)) => {
            let (high, low) = steps.iter().fold(after_long((0, state), first), after_long);
            wide_moved_up(high) ^ low
        }
        None => state,
    };
    let (steps, rest) = rest.as_chunks::<16>();
    let state = steps.iter().fold(state, |state, step| {
        wide_moved_up(state) ^ u128::from_be_bytes(*step)
    });
    check_of_state(after_rest(state, rest))
}

impl CheckWord for ByShifts {
    #[inline]
    fn behind(header: u128, payload: &[u8]) -> u16 {
        of_behind((START << 112) ^ header, payload)
    }

    #[inline]
    fn of(bytes: &[u8]) -> u16 {
        if bytes.len() >= LONG {
            return of_long(START, bytes);
        }
        if bytes.len() >= 32 {
            return of_many(bytes);
        }
        let Some((first, rest)) = bytes.split_first_chunk::<16>() else {
            return of_few(bytes);
        };
        let state = wide_moved_up(START) ^ u128::from_be_bytes(*first);
        check_of_state(after_rest(state, rest))
    }
}
