//! What a plain concentrator publishes: the data frame of each row, once the floor is stored at or above its instant. The blocks stand in
//! the frame already; what is written here is what stands in front of them.

use crate::blocks::MAX_WORDS;
use crate::plain::{Shape, VERSION};
use crate::ring::{COLUMNS, RowLayout};

/// The bytes of the own block: STAT, FREQ, DFREQ, and the stamp.
pub const OWN_BLOCK_LEN: usize = 14;

/// Where the own block, and the blocks of the PMUs, stand in a frame.
const OWN_PLACE: usize = 14;
pub const BLOCKS_PLACE: usize = OWN_PLACE + OWN_BLOCK_LEN;

/// The longest frame of a row.
pub const MAX_ROW_LEN: usize = BLOCKS_PLACE + COLUMNS * 2 * MAX_WORDS + 2;

/// What the frames of a concentrator say of itself.
#[derive(Clone, Copy)]
pub struct Output {
    pub id: u16,
    pub rate: u32,
    pub time_base: u32,
}

/// A mark in memory: the start number and the floor, in two slots.
struct Mark {
    slots: [(u32, u64); 2],
}

impl Mark {
    fn floor(&self) -> u64 {
        self.slots[0].1.max(self.slots[1].1)
    }

    fn reserve(&mut self, floor: u64) {
        let oldest = usize::from(self.slots[1].1 < self.slots[0].1);
        self.slots[oldest].1 = floor;
    }
}

/// The time tags of instants: the second and the place in it are counted on from those before, and the counts of FRACSEC stand in a table.
struct Tags {
    rate: u64,
    instant: u64,
    soc: u32,
    slot: u64,
    fracs: Vec<u32>,
}

impl Tags {
    fn new(output: &Output) -> Tags {
        let (rate, base) = (u64::from(output.rate), u64::from(output.time_base));
        Tags {
            rate,
            instant: 0,
            soc: 0,
            slot: 0,
            fracs: (0..rate)
                .map(|k| ((2 * k * base + rate) / (2 * rate)) as u32)
                .collect(),
        }
    }

    /// SOC and FRACSEC's count of an instant, which lies above those before.
    fn of(&mut self, instant: u64) -> (u32, u32) {
        let after = self.slot + (instant - self.instant);
        self.instant = instant;
        if after < self.rate {
            self.slot = after;
        } else {
            (self.soc, self.slot) = ((instant / self.rate) as u32, instant % self.rate);
        }
        (self.soc, self.fracs[self.slot as usize])
    }
}

pub struct Publisher {
    id: u16,
    mark: Mark,
    last: u64,
    tags: Tags,
}

impl Publisher {
    pub fn new(output: Output, start: u32, floor: u64) -> Publisher {
        let mark = Mark {
            slots: [(start, floor), (0, 0)],
        };
        Publisher {
            id: output.id,
            mark,
            last: floor,
            tags: Tags::new(&output),
        }
    }

    /// Stores an instant that is to be published, where it is above the floor; none that is not above the last one may be.
    #[inline]
    pub fn cover(&mut self, instant: u64) -> bool {
        if instant <= self.last {
            return false;
        }
        if self.mark.floor() < instant {
            self.mark.reserve(instant);
        }
        self.last = instant;
        true
    }

    /// Writes the header and the own block of a frame of so many bytes.
    #[inline(always)]
    pub fn seal(
        &mut self,
        instant: u64,
        layout: &RowLayout,
        quality: u8,
        len: usize,
        front: &mut [u8; BLOCKS_PLACE],
    ) {
        let (soc, frac) = self.tags.of(instant);
        let fracsec = u32::from(quality) << 24 | frac;
        let sync = 0xAA00 | u128::from(VERSION);
        let header = sync << 112
            | (len as u128) << 96
            | u128::from(self.id) << 80
            | u128::from(soc) << 48
            | u128::from(fracsec) << 16;
        front[..16].copy_from_slice(&header.to_be_bytes());
        front[16..24].copy_from_slice(&u64::from(layout.start).to_be_bytes());
        front[24..].copy_from_slice(&layout.change.to_be_bytes());
    }
}

/// Writes the absent block.
pub fn put_absent(place: &mut [u8], shape: Shape) {
    let (values, digitals) = place.split_at_mut(place.len() - 2 * usize::from(shape.digitals));
    for pair in values.chunks_exact_mut(2) {
        pair.copy_from_slice(&[0x80, 0]);
    }
    values[..2].copy_from_slice(&[0xA1, 0xF0]);
    digitals.fill(0);
}
