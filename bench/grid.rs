//! The grid of instants: a division by a time base that is known before is a product.

/// How the time tags of a stream are read.
#[derive(Clone, Copy)]
pub struct Grid {
    base: u64,
    rate: u64,
    /// 2^64 by twice the time base, rounded up: exact for numerators below 2^38.
    inverse: u64,
}

impl Grid {
    pub fn new(time_base: u32, rate: u32) -> Grid {
        let base = u64::from(time_base);
        Grid {
            base,
            rate: u64::from(rate),
            inverse: u64::MAX / (2 * base) + 1,
        }
    }

    /// The instant of a tag, if it lies on the grid.
    #[inline(always)]
    pub fn instant(&self, soc: u32, frac: u32) -> Option<u64> {
        let frac = u64::from(frac);
        if frac >= self.base {
            return None;
        }
        let tag = frac * self.rate;
        let k = (u128::from(2 * tag + self.base) * u128::from(self.inverse) >> 64) as u64;
        (tag.abs_diff(k * self.base) < self.rate).then(|| u64::from(soc) * self.rate + k)
    }
}
