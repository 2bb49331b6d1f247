//! A few values in one place, without memory of their own.

/// At most N values, in the value itself.
#[derive(Clone)]
pub struct Few<T, const N: usize> {
    values: [T; N],
    len: usize,
}

impl<T: Copy + Default, const N: usize> Few<T, N> {
    pub fn new() -> Self {
        Few {
            values: [T::default(); N],
            len: 0,
        }
    }

    pub fn push(&mut self, value: T) {
        self.values[self.len] = value;
        self.len += 1;
    }

    pub fn as_slice(&self) -> &[T] {
        &self.values[..self.len]
    }

    pub fn clear(&mut self) {
        self.len = 0;
    }

    /// The next place, with what stood there before, to be written over.
    pub fn next(&mut self) -> &mut T {
        self.len += 1;
        &mut self.values[self.len - 1]
    }
}
