//! The alignment of 16 streams of one PMU each over two plain tables: the ring, and the simple way to write one, rows in a `BTreeMap`.

use crate::answers::{Answer, Refusal};
use crate::blocks::{Block, Body};
use crate::plain::Shape;
use crate::ring::{COLUMNS, DueRow, Ring, RowLayout, WaitRule};
use std::collections::{BTreeMap, VecDeque};

const STREAMS: usize = COLUMNS;

pub trait Table {
    fn new(window: u64) -> Self;
    fn require(&mut self, stream: usize, is_required: bool);
    fn put(
        &mut self,
        stream: usize,
        instant: u64,
        body: Body,
        quality: u8,
    ) -> Result<Answer, Refusal>;
    fn tick(&mut self, wait: u64, layout: &RowLayout) -> u32;
    /// Writes the next row over this one, if there is one.
    fn pop_into(&mut self, row: &mut DueRow) -> bool;
}

impl Table for Ring<1> {
    fn new(window: u64) -> Self {
        Ring::new(window, STREAMS, 0)
    }

    fn require(&mut self, stream: usize, is_required: bool) {
        Ring::require(self, stream, is_required);
    }

    fn put(
        &mut self,
        stream: usize,
        instant: u64,
        body: Body,
        quality: u8,
    ) -> Result<Answer, Refusal> {
        Ring::put(
            self,
            stream,
            instant,
            quality,
            std::iter::once((stream, body)),
        )
    }

    fn tick(&mut self, wait: u64, layout: &RowLayout) -> u32 {
        Ring::tick(self, WaitRule::Ticks(wait), layout)
    }

    fn pop_into(&mut self, row: &mut DueRow) -> bool {
        let Some(popped) = self.pop() else {
            return false;
        };
        row.set(&popped);
        true
    }
}

/// A row of the simple table.
#[derive(Clone, Default)]
struct MapRow {
    age: u64,
    cells: [Option<(Block, u8)>; STREAMS],
}

impl MapRow {
    fn offer(&mut self, stream: usize, body: Body, quality: u8) -> Result<Answer, Refusal> {
        match &self.cells[stream] {
            Some((held, _)) if held.holds(body) => Err(Refusal::Duplicate),
            Some(_) => Err(Refusal::Conflict),
            None => {
                let mut block = Block::default();
                block.set_body(body);
                self.cells[stream] = Some((block, quality % 16));
                Ok(Answer::Taken)
            }
        }
    }

    fn is_due(&self, required: &[bool; STREAMS], wait: u64) -> bool {
        wait <= self.age
            || required
                .iter()
                .zip(&self.cells)
                .all(|(required, cell)| !required || cell.is_some())
    }

    fn close(&self, instant: u64, layout: &RowLayout) -> DueRow {
        let mut row = DueRow {
            instant,
            start: layout.start,
            change: layout.change,
            ..DueRow::spare()
        };
        let mut worst = None;
        for (cell, shape) in self.cells.iter().zip(layout.shapes) {
            let Some(shape) = shape else { continue };
            match cell {
                Some((block, quality)) if !block.is_absent() => {
                    worst = worst.max(Some(*quality));
                    row.blocks.push(*block);
                }
                _ => row.blocks.next().set_absent(shape),
            }
        }
        row.quality = worst.unwrap_or(15);
        row
    }
}

/// The simple way: each row is a value of a map, in a box, since a map moves its values.
pub struct MapTable {
    window: u64,
    required: [bool; STREAMS],
    rows: BTreeMap<u64, Box<MapRow>>,
    closed: VecDeque<DueRow>,
    last: u64,
}

impl MapTable {
    fn is_near(&self, instant: u64, held: Option<u64>) -> bool {
        held.is_none_or(|held| held.abs_diff(instant) < self.window)
    }
}

impl Table for MapTable {
    fn new(window: u64) -> Self {
        MapTable {
            window,
            required: [false; STREAMS],
            rows: BTreeMap::new(),
            closed: VecDeque::new(),
            last: 0,
        }
    }

    fn require(&mut self, stream: usize, is_required: bool) {
        self.required[stream] = is_required;
    }

    fn put(
        &mut self,
        stream: usize,
        instant: u64,
        body: Body,
        quality: u8,
    ) -> Result<Answer, Refusal> {
        if instant <= self.last {
            return Err(Refusal::Late);
        }
        let first = self.rows.keys().next().copied();
        let lowest = self.closed.front().map(|row| row.instant).or(first);
        let highest = self
            .rows
            .keys()
            .next_back()
            .copied()
            .or(self.closed.back().map(|row| row.instant));
        if !self.is_near(instant, lowest) || !self.is_near(instant, highest) {
            return Err(Refusal::OutOfWindow);
        }
        self.rows
            .entry(instant)
            .or_default()
            .offer(stream, body, quality)
    }

    fn tick(&mut self, wait: u64, layout: &RowLayout) -> u32 {
        for row in self.rows.values_mut() {
            row.age = row.age.saturating_add(1);
        }
        let mut count = 0;
        while let Some(first) = self.rows.first_entry() {
            if !first.get().is_due(&self.required, wait) {
                break;
            }
            let (instant, row) = first.remove_entry();
            self.last = instant;
            self.closed.push_back(row.close(instant, layout));
            count += 1;
        }
        count
    }

    fn pop_into(&mut self, row: &mut DueRow) -> bool {
        let Some(popped) = self.closed.pop_front() else {
            return false;
        };
        *row = popped;
        true
    }
}

const SHAPE: Shape = Shape {
    phasors: 8,
    analogs: 4,
    digitals: 1,
};

/// The bytes of a body of this shape.
const BODY_LEN: usize = 48;

/// For so many instants the streams have bodies of their own.
const INSTANTS: u64 = 4;

/// The bodies of 16 streams for four instants, one behind the other.
pub fn bodies() -> Vec<u8> {
    (0..INSTANTS as usize * STREAMS * BODY_LEN)
        .map(|i| (i * 37 + i / BODY_LEN) as u8)
        .collect()
}

struct Aligner<'a, T: Table> {
    table: T,
    layout: RowLayout,
    /// The bodies that the streams send for four instants, one behind the other: they lie in memory, as those of datagrams do.
    bodies: &'a [u8],
    /// Each row is popped into this one.
    row: DueRow,
    mixed: u64,
}

impl<'a, T: Table> Aligner<'a, T> {
    fn new(window: u64, bodies: &'a [u8]) -> Self {
        let mut table = T::new(window);
        for stream in 0..STREAMS {
            table.require(stream, true);
        }
        let layout = RowLayout {
            start: 1,
            change: 0,
            shapes: [Some(SHAPE); STREAMS],
        };
        Aligner {
            table,
            layout,
            bodies,
            row: DueRow::spare(),
            mixed: 0,
        }
    }

    fn put(&mut self, stream: usize, instant: u64) {
        let Some(shape) = self.layout.shapes[stream] else {
            return;
        };
        let at = ((instant % INSTANTS) as usize * STREAMS + stream) * BODY_LEN;
        let Ok(body) = Body::new(shape, &self.bodies[at..at + BODY_LEN]) else {
            return;
        };
        let outcome = match self.table.put(stream, instant, body, 0) {
            Ok(_) => 0,
            Err(Refusal::Late) => 1,
            Err(Refusal::OutOfWindow) => 2,
            Err(Refusal::Duplicate) => 3,
            Err(_) => 4,
        };
        self.mixed = self.mixed.rotate_left(1) ^ outcome;
    }

    fn tick(&mut self, wait: u64) {
        for _ in 0..self.table.tick(wait, &self.layout) {
            if self.table.pop_into(&mut self.row) {
                self.mixed = self.mixed.rotate_left(1) ^ mix(&self.row);
            }
        }
    }
}

/// A number that depends on the row: its instant, its quality and the last byte of its last block.
fn mix(row: &DueRow) -> u64 {
    let words = row.blocks.as_slice().last().map_or(&[][..], Block::words);
    let byte = words.last().map_or(0, |word| u64::from(word & 0xFF));
    (row.instant ^ u64::from(row.quality) << 60).wrapping_add(byte)
}

/// For each instant 16 puts, of which the last is this much behind, and 4 ticks.
#[inline(never)]
pub fn steady<T: Table>(window: u64, behind: u64, instants: u32, bodies: &[u8]) -> u64 {
    let mut aligner = Aligner::<T>::new(window, bodies);
    for instant in 1..=u64::from(instants) {
        for stream in 0..STREAMS - 1 {
            aligner.put(stream, instant);
        }
        aligner.put(STREAMS - 1, instant.saturating_sub(behind));
        for _ in 0..4 {
            aligner.tick(1000);
        }
    }
    aligner.mixed
}

/// Fills the window with 16 puts an instant, in rising order, and closes it with one tick, so many times.
#[inline(never)]
pub fn fill<T: Table>(window: u64, rounds: u32, bodies: &[u8]) -> u64 {
    let mut aligner = Aligner::<T>::new(window, bodies);
    for round in 0..u64::from(rounds) {
        for instant in round * window + 1..=(round + 1) * window {
            for stream in 0..STREAMS {
                aligner.put(stream, instant);
            }
        }
        aligner.tick(1);
    }
    aligner.mixed
}
