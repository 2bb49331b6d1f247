//! The rows of a node, each as the data frame that it will be: a block is copied once, from its datagram to where it stands in the frame
//! that is sent. A row that closed is sealed in place: what is absent is written, the header, and the check word.

use crate::absent::{is_present, write_absent};
use crate::alignment::Rows;
use crate::answers::{Answer, Refusal};
use crate::check::CheckWord;
use crate::moving::copy;
use crate::order::{Age, Order};
use crate::publishing::{BLOCKS_PLACE, MAX_ROW_LEN, Publisher};
use crate::ring::{COLUMNS, RowLayout, WaitRule};

/// Where the blocks stand in a frame, and which columns have one.
#[derive(Clone, Copy)]
struct Places {
    /// Where that of a column begins, and behind the last where all end.
    at: [u16; COLUMNS + 1],
    columns: u16,
}

impl Places {
    fn of(layout: &RowLayout) -> Places {
        let mut places = Places {
            at: [BLOCKS_PLACE as u16; COLUMNS + 1],
            columns: 0,
        };
        for (column, shape) in layout.shapes.iter().enumerate() {
            let len = shape.map_or(0, |shape| 2 * shape.word_count());
            places.at[column + 1] = places.at[column] + len as u16;
            places.columns |= u16::from(shape.is_some()) << column;
        }
        places
    }

    #[inline(always)]
    fn of_column(&self, column: usize) -> std::ops::Range<usize> {
        usize::from(self.at[column])..usize::from(self.at[column + 1])
    }

    fn end(&self) -> usize {
        usize::from(self.at[COLUMNS])
    }
}

/// What is known of a row.
#[derive(Clone)]
struct Head {
    age: Age,
    present: u16,
    /// The time quality of each present block, else 0.
    quality: [u8; COLUMNS],
    /// Where the blocks stand, under the layout in force or that of its closing.
    places: Places,
    layout: RowLayout,
}

pub struct Images {
    order: Order,
    layout: RowLayout,
    places: Places,
    heads: Vec<Head>,
    frames: Vec<[u8; MAX_ROW_LEN]>,
}

impl Images {
    pub fn new(window: u64, floor: u64, start: u32) -> Images {
        let order = Order::new(window, floor);
        let layout = RowLayout {
            start,
            ..RowLayout::default()
        };
        let places = Places::of(&layout);
        let head = Head {
            age: Age::default(),
            present: 0,
            quality: [0; COLUMNS],
            places,
            layout,
        };
        Images {
            heads: vec![head; order.places()],
            frames: vec![[0; MAX_ROW_LEN]; order.places()],
            order,
            layout,
            places,
        }
    }

    /// The place of an instant, whose row is opened where it is not.
    #[inline(always)]
    fn opened(&mut self, instant: u64) -> Result<usize, Refusal> {
        let place = self.order.place(instant);
        if !self.heads[place].age.is_of(instant) {
            self.begin(place, instant)?;
        }
        Ok(place)
    }

    #[inline(never)]
    fn begin(&mut self, place: usize, instant: u64) -> Result<(), Refusal> {
        if !self.order.is_in_window(instant) {
            return Err(Refusal::OutOfWindow);
        }
        let head = &mut self.heads[place];
        self.order.open(&mut head.age, instant);
        head.present = 0;
        head.quality = [0; COLUMNS];
        head.places = self.places;
        Ok(())
    }

    /// Takes the block of a column for an instant.
    #[inline]
    pub fn put(
        &mut self,
        column: usize,
        instant: u64,
        quality: u8,
        block: &[u8],
    ) -> Result<Answer, Refusal> {
        let place = self.opened(instant)?;
        let head = &mut self.heads[place];
        let Some(shape) = self.layout.shapes[column] else {
            return Err(Refusal::NoConfig);
        };
        let cell = &mut self.frames[place][head.places.of_column(column)];
        if head.age.taken & 1 << column != 0 {
            return Err(if cell == block {
                Refusal::Duplicate
            } else {
                Refusal::Conflict
            });
        }
        head.age.taken |= 1 << column;
        copy(block, cell);
        if is_present(block, shape) {
            head.present |= 1 << column;
            head.quality[column] = quality % 16;
        }
        Ok(Answer::Taken)
    }

    /// Takes out the lowest row that closed, and publishes its frame.
    #[inline]
    pub fn publish<C: CheckWord>(&mut self, publisher: &mut Publisher) -> Option<&[u8]> {
        let place = self.order.pop()?;
        let (head, frame) = (&self.heads[place], &mut self.frames[place]);
        let instant = head.age.instant;
        if !publisher.cover(instant) {
            return None;
        }
        if head.present != head.places.columns {
            write_all_absent(head, frame);
        }
        let quality = match head.present {
            0 => 15,
            _ => head.quality.iter().fold(0, |worst, next| worst.max(*next)),
        };
        let end = head.places.end();
        let front = frame.first_chunk_mut()?;
        publisher.seal(instant, &head.layout, quality, end + 2, front);
        let check = C::of(&frame[..end]);
        frame[end..end + 2].copy_from_slice(&check.to_be_bytes());
        Some(&frame[..end + 2])
    }
}

/// Writes the absent block where none is present.
#[inline(never)]
fn write_all_absent(head: &Head, frame: &mut [u8; MAX_ROW_LEN]) {
    for (column, shape) in head.layout.shapes.iter().enumerate() {
        if let (Some(shape), 0) = (shape, head.present & 1 << column) {
            write_absent(&mut frame[head.places.of_column(column)], *shape);
        }
    }
}

impl Rows for Images {
    const LANES: usize = 1;

    fn last(&self) -> u64 {
        self.order.last()
    }

    fn disagree(&self) -> u64 {
        0
    }

    fn require(&mut self, stream: usize, is_required: bool) {
        self.order.require(stream, is_required);
    }

    fn tick(&mut self, rule: WaitRule, layout: &RowLayout) -> u32 {
        let Some((low, high)) = self.order.begin_tick() else {
            return 0;
        };
        let mut count = 0;
        for instant in low..=high {
            let place = self.order.place(instant);
            let head = &mut self.heads[place];
            if !head.age.is_of(instant) {
                continue;
            }
            if !self.order.close(&mut head.age, rule, high) {
                break;
            }
            head.layout = *layout;
            count += 1;
        }
        count
    }

    fn drop_column(&mut self, column: usize) {
        for head in self.heads.iter_mut().filter(|head| head.age.is_open) {
            head.age.taken &= !(1 << column);
            head.present &= !(1 << column);
            head.quality[column] = 0;
        }
    }

    /// Moves the blocks of the open rows to where they stand under the layout. Their columns of other shapes were dropped.
    fn lay(&mut self, layout: &RowLayout) {
        self.layout = *layout;
        self.places = Places::of(layout);
        for (head, frame) in self.heads.iter_mut().zip(&mut self.frames) {
            if !head.age.is_open {
                continue;
            }
            let (before, from) = (head.places, *frame);
            head.places = self.places;
            for column in (0..COLUMNS).filter(|column| head.age.taken & 1 << column != 0) {
                frame[head.places.of_column(column)]
                    .copy_from_slice(&from[before.of_column(column)]);
            }
        }
    }
}
