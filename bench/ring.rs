//! A ring of plain, careful Rust: a place for each instant of the window, in which the words of each block stand. A put writes them over
//! those of the cell that it takes, closing copies none, and a closed row is lent from where it stands. With one lane each column has a
//! stream of its own; with two, two streams bring cells for all columns.

use crate::answers::{Answer, Refusal};
use crate::blocks::{Block, Body};
use crate::few::Few;
use crate::plain::Shape;
use std::collections::VecDeque;

/// The most columns.
pub const COLUMNS: usize = 16;

/// The layout that rows close under.
#[derive(Clone, Copy, Default)]
pub struct RowLayout {
    pub start: u32,
    pub change: u32,
    pub shapes: [Option<Shape>; COLUMNS],
}

/// When the wait of an open instant is over.
#[derive(Clone, Copy)]
pub enum WaitRule {
    /// It has been open for so many ticks.
    Ticks(u64),
    /// It is at most this instant, if any.
    Until(Option<u64>),
}

/// Which columns of a lane have a cell, which of these a present block, and the time quality of each.
#[derive(Clone, Copy, Default)]
struct Lane {
    held: u16,
    present: u16,
    quality: [u8; COLUMNS],
}

/// What is known of a place.
#[derive(Clone)]
struct Head<const LANES: usize> {
    instant: u64,
    /// How many ticks there had been when the row opened.
    opened: u64,
    is_open: bool,
    /// The streams that were taken.
    taken: u16,
    lanes: [Lane; LANES],
    /// What the row closed under.
    layout: RowLayout,
}

impl<const LANES: usize> Head<LANES> {
    fn blank() -> Self {
        Head {
            instant: 0,
            opened: 0,
            is_open: false,
            taken: 0,
            lanes: [Lane::default(); LANES],
            layout: RowLayout::default(),
        }
    }

    fn open(&mut self, instant: u64, ticks: u64) {
        self.instant = instant;
        self.opened = ticks;
        self.is_open = true;
        self.taken = 0;
        for lane in &mut self.lanes {
            lane.held = 0;
            lane.present = 0;
        }
    }

    fn is_due(&self, rule: WaitRule, required: u16, ticks: u64) -> bool {
        let is_over = match rule {
            WaitRule::Ticks(wait) => wait <= ticks - self.opened,
            WaitRule::Until(limit) => limit.is_some_and(|limit| self.instant <= limit),
        };
        is_over || required & !self.taken == 0
    }
}

pub struct Ring<const LANES: usize> {
    window: u64,
    columns: usize,
    required: u16,
    ticks: u64,
    /// The place of an instant is its remainder by their number.
    heads: Vec<Head<LANES>>,
    /// The cells of a place stand side by side, lane by lane.
    cells: Vec<Block>,
    /// The lowest and the highest instant that may be open.
    range: Option<(u64, u64)>,
    /// The instants that closed and wait.
    closed: VecDeque<u64>,
    last: u64,
    disagree: u64,
}

/// A closed row, lent.
pub struct Row<'a, const LANES: usize> {
    head: &'a Head<LANES>,
    cells: &'a [Block],
    columns: usize,
}

impl<'a, const LANES: usize> Row<'a, LANES> {
    pub fn instant(&self) -> u64 {
        self.head.instant
    }

    pub fn layout(&self) -> &'a RowLayout {
        &self.head.layout
    }

    /// The block that a column gives, if it has one, with its time quality.
    #[inline]
    fn chosen(&self, column: usize) -> Option<(&'a Block, u8)> {
        let lane = self
            .head
            .lanes
            .iter()
            .position(|lane| lane.present & 1 << column != 0)?;
        Some((
            &self.cells[lane * self.columns + column],
            self.head.lanes[lane].quality[column],
        ))
    }

    /// For each column that has a shape its block, if it has one, with its time quality.
    #[inline]
    pub fn blocks(&self) -> impl Iterator<Item = (Shape, Option<(&'a Block, u8)>)> + '_ {
        let shapes = self.head.layout.shapes[..self.columns].iter().enumerate();
        shapes.filter_map(|(column, shape)| Some(((*shape)?, self.chosen(column))))
    }
}

impl<const LANES: usize> Ring<LANES> {
    /// All up to the floor is closed.
    pub fn new(window: u64, columns: usize, floor: u64) -> Self {
        let places = window.next_power_of_two() as usize;
        Ring {
            window,
            columns,
            required: 0,
            ticks: 0,
            heads: vec![Head::blank(); places],
            cells: vec![Block::default(); places * LANES * columns],
            range: None,
            closed: VecDeque::with_capacity(places),
            last: floor,
            disagree: 0,
        }
    }

    pub fn require(&mut self, stream: usize, is_required: bool) {
        self.required = self.required & !(1 << stream) | u16::from(is_required) << stream;
    }

    /// There are as many places as a power of two: a remainder by the window is a division, which takes some forty steps of the clock.
    fn place(&self, instant: u64) -> usize {
        instant as usize & (self.heads.len() - 1)
    }

    /// Whether each instant that is held is less than the window away.
    fn is_in_window(&self, instant: u64) -> bool {
        let lowest = self
            .closed
            .front()
            .copied()
            .or(self.range.map(|(low, _)| low));
        let highest = self
            .range
            .map(|(_, high)| high)
            .or(self.closed.back().copied());
        let is_near =
            |held: Option<u64>| held.is_none_or(|held| held.abs_diff(instant) < self.window);
        is_near(lowest) && is_near(highest)
    }

    fn is_open(&self, place: usize, instant: u64) -> bool {
        let head = &self.heads[place];
        head.is_open && head.instant == instant
    }

    fn open(&mut self, place: usize, instant: u64) {
        self.heads[place].open(instant, self.ticks);
        self.range = Some(self.range.map_or((instant, instant), |(low, high)| {
            (low.min(instant), high.max(instant))
        }));
    }

    /// Takes the blocks of a stream for an instant, each with its column.
    #[inline]
    pub fn put<'a>(
        &mut self,
        stream: usize,
        instant: u64,
        quality: u8,
        blocks: impl Iterator<Item = (usize, Body<'a>)>,
    ) -> Result<Answer, Refusal> {
        if instant <= self.last {
            return Err(Refusal::Late);
        }
        let place = self.place(instant);
        if !self.is_open(place, instant) {
            if !self.is_in_window(instant) {
                return Err(Refusal::OutOfWindow);
            }
            self.open(place, instant);
        }
        let head = &mut self.heads[place];
        let lane = if LANES == 1 { 0 } else { stream };
        let start = (place * LANES + lane) * self.columns;
        let cells = &mut self.cells[start..start + self.columns];
        if head.taken & 1 << stream != 0 {
            return Err(refusal_of(&head.lanes[lane], cells, blocks));
        }
        head.taken |= 1 << stream;
        take(&mut head.lanes[lane], cells, quality, blocks);
        Ok(Answer::Taken)
    }

    /// Closes the rows for which every row up to them is due, and answers how many.
    pub fn tick(&mut self, rule: WaitRule, layout: &RowLayout) -> u32 {
        self.ticks += 1;
        let Some((low, high)) = self.range.take() else {
            return 0;
        };
        let mut count = 0;
        for instant in low..=high {
            let place = self.place(instant);
            if !self.is_open(place, instant) {
                continue;
            }
            let head = &mut self.heads[place];
            if !head.is_due(rule, self.required, self.ticks) {
                self.range = Some((instant, high));
                break;
            }
            head.is_open = false;
            head.layout = *layout;
            self.disagree = self.disagree.saturating_add(self.disagreements(place));
            self.last = instant;
            self.closed.push_back(instant);
            count += 1;
        }
        count
    }

    /// In how many columns with a shape the present blocks differ.
    fn disagreements(&self, place: usize) -> u64 {
        let Head { lanes, layout, .. } = &self.heads[place];
        let [first, second] = lanes.as_slice() else {
            return 0;
        };
        let cells = &self.cells[place * LANES * self.columns..][..LANES * self.columns];
        let (ours, others) = cells.split_at(self.columns);
        let both = first.present & second.present;
        let columns = ours.iter().zip(others).zip(&layout.shapes).enumerate();
        columns
            .filter(|(column, ((one, other), shape))| {
                both & 1 << column != 0 && shape.is_some() && !one.agrees(other)
            })
            .count() as u64
    }

    /// Takes out the lowest row that closed, and lends it.
    pub fn pop(&mut self) -> Option<Row<'_, LANES>> {
        let instant = self.closed.pop_front()?;
        let place = self.place(instant);
        let width = LANES * self.columns;
        Some(Row {
            head: &self.heads[place],
            cells: &self.cells[place * width..(place + 1) * width],
            columns: self.columns,
        })
    }
}

/// Why the blocks of a stream that was taken are refused.
#[inline]
fn refusal_of<'a>(
    lane: &Lane,
    cells: &[Block],
    mut blocks: impl Iterator<Item = (usize, Body<'a>)>,
) -> Refusal {
    if blocks.any(|(column, body)| lane.held & 1 << column != 0 && !cells[column].holds(body)) {
        Refusal::Conflict
    } else {
        Refusal::Duplicate
    }
}

#[inline]
fn take<'a>(
    lane: &mut Lane,
    cells: &mut [Block],
    quality: u8,
    blocks: impl Iterator<Item = (usize, Body<'a>)>,
) {
    for (column, body) in blocks {
        let cell = &mut cells[column];
        cell.set_body(body);
        lane.held |= 1 << column;
        lane.present |= u16::from(!cell.is_absent()) << column;
        lane.quality[column] = quality % 16;
    }
}

/// A row that is kept: another is written over it.
pub struct DueRow {
    pub instant: u64,
    pub start: u32,
    pub change: u32,
    pub quality: u8,
    pub blocks: Few<Block, COLUMNS>,
}

impl DueRow {
    pub fn spare() -> DueRow {
        DueRow {
            instant: 0,
            start: 0,
            change: 0,
            quality: 15,
            blocks: Few::new(),
        }
    }

    /// Writes this row over what was there.
    pub fn set<const LANES: usize>(&mut self, row: &Row<'_, LANES>) {
        let mut worst = None;
        self.blocks.clear();
        for (shape, block) in row.blocks() {
            match block {
                Some((block, quality)) => {
                    self.blocks.next().set(block.shape, block.words());
                    worst = worst.max(Some(quality));
                }
                None => self.blocks.next().set_absent(shape),
            }
        }
        (self.instant, self.quality) = (row.instant(), worst.unwrap_or(15));
        (self.start, self.change) = (row.layout().start, row.layout().change);
    }
}
