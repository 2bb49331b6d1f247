//! The rows of a merger. The frame of a node is copied whole, once, to where the merger's own is made of it: its blocks stand there
//! already. Nearly always the second node's frame brings the same blocks: then it is compared in one call, and nothing is copied.
//!
//! A check word is linear: where two frames of one length differ in their first bytes alone, that of the second is that of the first, and
//! what the difference of these first bytes makes of it. So of three check words of an instant, two nodes' and the merger's, one is
//! computed over all bytes.

use crate::absent::{STAT, is_present, write_absent};
use crate::alignment::Rows;
use crate::answers::{Answer, Refusal};
use crate::check::{CheckWord, Moved};
use crate::order::{Age, Order};
use crate::plain::Shape;
use crate::publishing::{BLOCKS_PLACE, MAX_ROW_LEN, Publisher};
use crate::ring::{COLUMNS, RowLayout, WaitRule};

pub const LANES: usize = 2;

/// A block in the frames of a node.
#[derive(Clone, Copy, Default)]
pub struct Part {
    pub column: usize,
    pub shape: Shape,
    pub count: u16,
    /// Where it begins in the frame.
    pub at: u16,
}

/// Where the blocks of a node stand in its frames.
#[derive(Clone, Copy)]
pub struct Places {
    pub at: [u16; COLUMNS],
    /// The columns that have one.
    pub columns: u16,
    /// Where they end.
    pub end: u16,
}

impl Places {
    pub fn of(parts: &[Part]) -> Places {
        let mut places = Places {
            at: [0; COLUMNS],
            columns: 0,
            end: BLOCKS_PLACE as u16,
        };
        for part in parts {
            places.at[part.column] = part.at;
            places.columns |= 1 << part.column;
            places.end = part.at + 2 * part.shape.word_count() as u16;
        }
        places
    }
}

/// What was taken of a node.
#[derive(Clone, Copy)]
struct Lane {
    /// In which of the two frames of the place its blocks stand.
    frame: usize,
    /// The columns that hold a cell.
    held: u16,
    /// The columns of which the frame brings a present block.
    present: u16,
    quality: u8,
    places: Places,
}

/// What is known of a row.
#[derive(Clone)]
struct Head {
    age: Age,
    lanes: [Lane; LANES],
    /// The check words of both frames.
    checks: [u16; LANES],
    layout: RowLayout,
    /// The columns that have a shape in it.
    columns: u16,
}

/// What a datagram of a node brings.
pub struct Brought<'a> {
    pub stream: usize,
    pub bytes: &'a [u8],
    pub places: &'a Places,
    pub parts: &'a [Part],
    /// The columns whose count is in force.
    pub in_force: u16,
}

pub struct Lanes {
    order: Order,
    heads: Vec<Head>,
    frames: Vec<[[u8; MAX_ROW_LEN]; LANES]>,
    /// The columns that have a shape in the layout in force.
    columns: u16,
    disagree: u64,
}

/// Bytes in front of all blocks, with the difference of two such.
fn difference(one: &[u8; BLOCKS_PLACE], other: &[u8; BLOCKS_PLACE]) -> [u8; BLOCKS_PLACE] {
    let mut difference = *one;
    for (byte, other) in difference.iter_mut().zip(other) {
        *byte ^= other;
    }
    difference
}

/// The check word of a frame of which the front is known, by that of another one whose blocks are the same.
#[inline(always)]
fn check_behind<C: CheckWord>(
    front: &[u8; BLOCKS_PLACE],
    other: &[u8; BLOCKS_PLACE],
    check: u16,
    moved: &Moved,
) -> u16 {
    let nothing = const { crate::check::of_zeros(BLOCKS_PLACE) };
    check ^ moved.of(C::of(&difference(front, other)) ^ nothing)
}

impl Lanes {
    pub fn new(window: u64, floor: u64) -> Lanes {
        let order = Order::new(window, floor);
        let lane = |frame| Lane {
            frame,
            held: 0,
            present: 0,
            quality: 0,
            places: Places::of(&[]),
        };
        let head = Head {
            age: Age::default(),
            lanes: [lane(0), lane(1)],
            checks: [0; LANES],
            layout: RowLayout::default(),
            columns: 0,
        };
        Lanes {
            heads: vec![head; order.places()],
            frames: vec![[[0; MAX_ROW_LEN]; LANES]; order.places()],
            order,
            columns: 0,
            disagree: 0,
        }
    }

    /// Whether the other node's frame brought the same blocks for the instant; then whether the check word is right, too.
    #[inline]
    pub fn meets<C: CheckWord>(
        &self,
        stream: usize,
        instant: u64,
        bytes: &[u8],
        moved: &Moved,
    ) -> Option<bool> {
        let place = self.order.place(instant);
        let head = &self.heads[place];
        let other = 1 - stream;
        if !head.age.is_of(instant) || head.age.taken & 1 << other == 0 {
            return None;
        }
        let lane = &head.lanes[other];
        let end = usize::from(lane.places.end);
        let kept = &self.frames[place][lane.frame];
        if bytes.len() != end + 2 || bytes[BLOCKS_PLACE..end] != kept[BLOCKS_PLACE..end] {
            return None;
        }
        let (front, kept) = (bytes.first_chunk()?, kept.first_chunk()?);
        let check = check_behind::<C>(front, kept, head.checks[lane.frame], moved);
        Some(bytes[end..] == check.to_be_bytes())
    }

    #[inline(never)]
    fn begin(&mut self, place: usize, instant: u64) -> Result<(), Refusal> {
        if !self.order.is_in_window(instant) {
            return Err(Refusal::OutOfWindow);
        }
        let head = &mut self.heads[place];
        self.order.open(&mut head.age, instant);
        for lane in &mut head.lanes {
            lane.held = 0;
        }
        Ok(())
    }

    /// Takes the blocks of a node for an instant: those of the other node, where it is known that they are the same.
    #[inline]
    pub fn put(
        &mut self,
        brought: &Brought<'_>,
        instant: u64,
        quality: u8,
        is_same: bool,
    ) -> Result<Answer, Refusal> {
        let place = self.order.place(instant);
        if !self.heads[place].age.is_of(instant) {
            self.begin(place, instant)?;
        }
        let stream = brought.stream;
        let head = &mut self.heads[place];
        if head.age.taken & 1 << stream != 0 {
            let lane = &head.lanes[stream];
            return Err(refusal_of(brought, lane, &self.frames[place][lane.frame]));
        }
        head.age.taken |= 1 << stream;
        let other = head.lanes[1 - stream];
        let is_same = is_same && other.places.at == brought.places.at;
        let lane = &mut head.lanes[stream];
        lane.held = brought.in_force & brought.places.columns;
        lane.quality = quality % 16;
        lane.places = *brought.places;
        if is_same {
            (lane.frame, lane.present) = (other.frame, other.present);
            return Ok(Answer::Taken);
        }
        lane.frame = match head.age.taken {
            3 => 1 - other.frame,
            _ => stream,
        };
        lane.present = present_of(brought);
        let end = usize::from(brought.places.end);
        self.frames[place][lane.frame][..end].copy_from_slice(&brought.bytes[..end]);
        let check = brought
            .bytes
            .last_chunk()
            .map_or(0, |last| u16::from_be_bytes(*last));
        head.checks[lane.frame] = check;
        Ok(Answer::Taken)
    }

    /// Takes out the lowest row that closed, and publishes its frame, made where one of the nodes' stands.
    #[inline]
    pub fn publish<'a, C: CheckWord>(
        &mut self,
        publisher: &mut Publisher,
        mut moved: impl Iterator<Item = &'a Moved>,
    ) -> Option<&[u8]> {
        let place = self.order.pop()?;
        let (head, frames) = (&self.heads[place], &mut self.frames[place]);
        let instant = head.age.instant;
        if !publisher.cover(instant) {
            return None;
        }
        let columns = head.columns;
        let [first, second] = head
            .lanes
            .each_ref()
            .map(|lane| lane.held & lane.present & columns);
        let chosen = [first, second & !first];
        let quality = quality_of(&head.lanes, chosen);
        let Some(lane) = whole_lane(head, columns, chosen) else {
            let end = gather(head, frames, chosen);
            let frame = &mut frames[0][..end + 2];
            publisher.seal(
                instant,
                &head.layout,
                quality,
                end + 2,
                frame.first_chunk_mut()?,
            );
            let check = C::of(&frame[..end]);
            frame[end..].copy_from_slice(&check.to_be_bytes());
            return Some(frame);
        };
        let end = usize::from(lane.places.end);
        let frame = &mut frames[lane.frame][..end + 2];
        let front = frame.first_chunk_mut()?;
        let before = *front;
        publisher.seal(instant, &head.layout, quality, end + 2, front);
        let check = match moved.find(|moved| moved.len == end - BLOCKS_PLACE) {
            Some(moved) => check_behind::<C>(front, &before, head.checks[lane.frame], moved),
            None => C::of(&frame[..end]),
        };
        frame[end..].copy_from_slice(&check.to_be_bytes());
        Some(frame)
    }
}

/// The columns of which the frame brings a present block: nearly always all, as the first word of each tells.
#[inline(always)]
fn present_of(brought: &Brought<'_>) -> u16 {
    let mut present = brought.places.columns;
    for part in brought.parts {
        let at = usize::from(part.at);
        if brought.bytes[at..at + 2] == STAT && !is_present(block_of(brought, part), part.shape) {
            present &= !(1 << part.column);
        }
    }
    present
}

fn block_of<'a>(brought: &Brought<'a>, part: &Part) -> &'a [u8] {
    &brought.bytes[usize::from(part.at)..][..2 * part.shape.word_count()]
}

/// Why the blocks of a node that was taken are refused.
#[inline(never)]
fn refusal_of(brought: &Brought<'_>, lane: &Lane, frame: &[u8; MAX_ROW_LEN]) -> Refusal {
    let differs = |part: &Part| {
        let (len, at) = (2 * part.shape.word_count(), usize::from(part.at));
        let held = usize::from(lane.places.at[part.column]);
        lane.held & brought.in_force & 1 << part.column != 0
            && brought.bytes[at..at + len] != frame[held..held + len]
    };
    if brought.parts.iter().any(differs) {
        Refusal::Conflict
    } else {
        Refusal::Duplicate
    }
}

/// The columns that have a shape.
fn columns_of(layout: &RowLayout) -> u16 {
    let shapes = layout.shapes.iter().enumerate();
    shapes.fold(0, |columns, (column, shape)| {
        columns | u16::from(shape.is_some()) << column
    })
}

/// The worst quality of the lanes that give a block.
fn quality_of(lanes: &[Lane; LANES], chosen: [u16; LANES]) -> u8 {
    let qualities = lanes.iter().zip(chosen).filter(|(_, chosen)| *chosen != 0);
    qualities.map(|(lane, _)| lane.quality).max().unwrap_or(15)
}

/// A lane whose frame has all blocks of the row, one behind the other: those that no lane has are absent in it.
fn whole_lane(head: &Head, columns: u16, chosen: [u16; LANES]) -> Option<&Lane> {
    let [first, second] = &head.lanes;
    let is_whole = |lane: &Lane| lane.held == columns && lane.places.columns == columns;
    if chosen[1] == 0 && is_whole(first) {
        return Some(first);
    }
    (chosen[0] == 0 && is_whole(second)).then_some(second)
}

/// Writes the blocks of the row one behind the other, and answers where they end. They stand in both frames, so that one more is needed.
#[inline(never)]
fn gather(head: &Head, frames: &mut [[u8; MAX_ROW_LEN]; LANES], chosen: [u16; LANES]) -> usize {
    let mut row = [0; MAX_ROW_LEN];
    let mut end = BLOCKS_PLACE;
    for (column, shape) in head.layout.shapes.iter().enumerate() {
        let Some(shape) = shape else { continue };
        let place = &mut row[end..end + 2 * shape.word_count()];
        end += place.len();
        match chosen.iter().position(|chosen| chosen & 1 << column != 0) {
            Some(lane) => {
                let lane = &head.lanes[lane];
                let at = usize::from(lane.places.at[column]);
                place.copy_from_slice(&frames[lane.frame][at..at + place.len()]);
            }
            None => write_absent(place, *shape),
        }
    }
    frames[0][BLOCKS_PLACE..end].copy_from_slice(&row[BLOCKS_PLACE..end]);
    end
}

/// In how many columns with a shape the present blocks differ.
fn disagreements(head: &Head, frames: &[[u8; MAX_ROW_LEN]; LANES], layout: &RowLayout) -> u64 {
    let [first, second] = &head.lanes;
    let both = first.held & first.present & second.held & second.present;
    if both == 0 || first.frame == second.frame {
        return 0;
    }
    let differs = |(column, shape): (usize, &Option<Shape>)| {
        let Some(shape) = shape else { return false };
        let len = 2 * shape.word_count();
        let of = |lane: &Lane| usize::from(lane.places.at[column]);
        let (one, other) = (of(first), of(second));
        both & 1 << column != 0
            && frames[first.frame][one..one + len] != frames[second.frame][other..other + len]
    };
    let columns = layout.shapes.iter().enumerate();
    columns.filter(|column| differs(*column)).count() as u64
}

impl Rows for Lanes {
    const LANES: usize = LANES;

    fn last(&self) -> u64 {
        self.order.last()
    }

    fn disagree(&self) -> u64 {
        self.disagree
    }

    fn require(&mut self, stream: usize, is_required: bool) {
        self.order.require(stream, is_required);
    }

    fn tick(&mut self, rule: WaitRule, layout: &RowLayout) -> u32 {
        let Some((low, high)) = self.order.begin_tick() else {
            return 0;
        };
        let mut count = 0;
        for instant in low..=high {
            let place = self.order.place(instant);
            let head = &mut self.heads[place];
            if !head.age.is_of(instant) {
                continue;
            }
            if !self.order.close(&mut head.age, rule, high) {
                break;
            }
            head.layout = *layout;
            head.columns = self.columns;
            let more = disagreements(head, &self.frames[place], layout);
            self.disagree = self.disagree.saturating_add(more);
            count += 1;
        }
        count
    }

    fn drop_column(&mut self, column: usize) {
        for head in self.heads.iter_mut().filter(|head| head.age.is_open) {
            for lane in &mut head.lanes {
                lane.held &= !(1 << column);
            }
        }
    }

    fn lay(&mut self, layout: &RowLayout) {
        self.columns = columns_of(layout);
    }
}
