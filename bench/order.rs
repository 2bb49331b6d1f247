//! Which instants of a ring are open and which closed. A ring has as many places as the next power of two, so that the place of an
//! instant is its last bits: a division of 64 bits takes some forty steps of the processor's clock.

use crate::ring::WaitRule;
use std::collections::VecDeque;

pub struct Order {
    window: u64,
    mask: u64,
    pub required: u16,
    ticks: u64,
    /// The lowest and the highest instant that may be open.
    range: Option<(u64, u64)>,
    /// The instants that closed and wait.
    closed: VecDeque<u64>,
    last: u64,
}

/// What is known of the instant at a place.
#[derive(Clone, Copy, Default)]
pub struct Age {
    pub instant: u64,
    /// How many ticks there had been when the row opened.
    opened: u64,
    pub is_open: bool,
    /// The streams that were taken.
    pub taken: u16,
}

impl Age {
    #[inline]
    pub fn is_of(&self, instant: u64) -> bool {
        self.is_open && self.instant == instant
    }
}

impl Order {
    /// All up to the floor is closed.
    pub fn new(window: u64, floor: u64) -> Order {
        let places = window.next_power_of_two();
        Order {
            window,
            mask: places - 1,
            required: 0,
            ticks: 0,
            range: None,
            closed: VecDeque::with_capacity(places as usize),
            last: floor,
        }
    }

    pub fn places(&self) -> usize {
        self.mask as usize + 1
    }

    #[inline]
    pub fn place(&self, instant: u64) -> usize {
        (instant & self.mask) as usize
    }

    #[inline]
    pub fn last(&self) -> u64 {
        self.last
    }

    pub fn require(&mut self, stream: usize, is_required: bool) {
        self.required = self.required & !(1 << stream) | u16::from(is_required) << stream;
    }

    /// Whether each instant that is held is less than the window away.
    pub fn is_in_window(&self, instant: u64) -> bool {
        let (low, high) = self.range.unzip();
        let lowest = self.closed.front().copied().or(low);
        let highest = high.or(self.closed.back().copied());
        let is_near =
            |held: Option<u64>| held.is_none_or(|held| held.abs_diff(instant) < self.window);
        is_near(lowest) && is_near(highest)
    }

    pub fn open(&mut self, age: &mut Age, instant: u64) {
        *age = Age {
            instant,
            opened: self.ticks,
            is_open: true,
            taken: 0,
        };
        self.range = Some(self.range.map_or((instant, instant), |(low, high)| {
            (low.min(instant), high.max(instant))
        }));
    }

    fn is_due(&self, age: &Age, rule: WaitRule) -> bool {
        let is_over = match rule {
            WaitRule::Ticks(wait) => wait <= self.ticks - age.opened,
            WaitRule::Until(limit) => limit.is_some_and(|limit| age.instant <= limit),
        };
        is_over || self.required & !age.taken == 0
    }

    /// Counts a tick, and tells the open instants.
    pub fn begin_tick(&mut self) -> Option<(u64, u64)> {
        self.ticks += 1;
        self.range.take()
    }

    /// Closes the instant of this age, if it is due; else it and those behind it stay open.
    #[inline]
    pub fn close(&mut self, age: &mut Age, rule: WaitRule, high: u64) -> bool {
        if !self.is_due(age, rule) {
            self.range = Some((age.instant, high));
            return false;
        }
        age.is_open = false;
        self.last = age.instant;
        self.closed.push_back(age.instant);
        true
    }

    pub fn pop(&mut self) -> Option<usize> {
        let instant = self.closed.pop_front()?;
        Some(self.place(instant))
    }
}
