//! A merger of plain, careful Rust for the same work as the proved one: it reads and checks the frames of both nodes, cuts each under
//! the layout whose stamp it bears straight into a ring of two lanes, stores the floor in a mark in memory, and writes the data frames
//! straight out of the ring.

use crate::alignment::{Alignment, Plan, Rows, Ticked};
use crate::answers::{Answer, Counts, Refusal};
use crate::check::{CheckWord, Moved};
use crate::few::Few;
use crate::grid::Grid;
use crate::lanes::{Brought, Lanes, Part, Places};
use crate::plain::{self, Config, Frame, Kind, Section};
use crate::publishing::{BLOCKS_PLACE, OWN_BLOCK_LEN, Output, Publisher};
use crate::ring::COLUMNS;
use crate::script::{Core, Script};
use std::cmp::Ordering;
use std::marker::PhantomData;

const NODES: usize = 2;
const OWN_SECTION_LEN: usize = 1070;

/// A node whose stream the merger takes.
#[derive(Clone, Copy)]
pub struct MergedNode {
    pub id: u16,
    pub time_base: u32,
}

/// What the merger is told.
pub struct Settings {
    pub output: Output,
    pub plan: Plan,
    pub nodes: [MergedNode; NODES],
    pub sources: Vec<u16>,
}

/// What is held of a node's layout.
struct Layout {
    stamp: [u8; 8],
    parts: Few<Part, COLUMNS>,
    places: Places,
    /// The columns whose count is in force.
    in_force: u16,
    moved: Moved,
}

struct Merger<C> {
    rate: u32,
    nodes: [MergedNode; NODES],
    sources: Vec<u16>,
    grids: [Grid; NODES],
    layouts: [Option<Box<Layout>>; NODES],
    alignment: Alignment<Lanes>,
    publisher: Publisher,
    counts: Counts,
    check: PhantomData<C>,
}

impl<C: CheckWord> Merger<C> {
    fn open(settings: &Settings, start: u32, floor: u64) -> Merger<C> {
        Merger {
            rate: settings.output.rate,
            nodes: settings.nodes,
            sources: settings.sources.clone(),
            grids: settings
                .nodes
                .map(|node| Grid::new(node.time_base, settings.output.rate)),
            layouts: [None, None],
            alignment: Alignment::new(
                Lanes::new(settings.plan.window, floor),
                settings.plan,
                start,
                &[0; COLUMNS],
                floor,
            ),
            publisher: Publisher::new(settings.output, start, floor),
            counts: Counts::default(),
            check: PhantomData,
        }
    }

    /// Whether a data frame has the blocks of the other node's; then whether its check word is right, too.
    #[inline(always)]
    fn meets(&self, stream: usize, bytes: &[u8], instant: Option<u64>) -> Option<bool> {
        let layout = self.layouts[stream].as_deref()?;
        if bytes.len() != BLOCKS_PLACE + layout.moved.len + 2 {
            return None;
        }
        let rows = &self.alignment.rows;
        rows.meets::<C>(stream, instant?, bytes, &layout.moved)
    }

    fn answer(&mut self, stream: usize, bytes: &[u8]) -> Result<Answer, Refusal> {
        let (kind, version) = plain::read_front(bytes)?;
        if kind != Kind::Data {
            return self.answer_other(stream, bytes);
        }
        let frame = plain::fields(bytes, kind, version);
        let instant = self.grids[stream].instant(frame.soc, frame.frac);
        let meets = self.meets(stream, bytes, instant);
        if !meets.unwrap_or_else(|| plain::is_checked::<C>(bytes)) {
            return Err(Refusal::BadCheck);
        }
        plain::check_id(frame.id)?;
        if frame.id != self.nodes[stream].id {
            return Err(Refusal::WrongId);
        }
        self.take(
            stream,
            bytes,
            &frame,
            instant.ok_or(Refusal::BadTag)?,
            meets.is_some(),
        )
    }

    #[cold]
    fn answer_other(&mut self, stream: usize, bytes: &[u8]) -> Result<Answer, Refusal> {
        let frame = plain::read_frame::<C>(bytes)?;
        if frame.id != self.nodes[stream].id {
            return Err(Refusal::WrongId);
        }
        match frame.kind {
            Kind::Cfg2 => self.hold(stream, &plain::read_config(&frame)?),
            _ => Err(Refusal::WrongKind),
        }
    }

    #[inline(always)]
    fn take(
        &mut self,
        stream: usize,
        bytes: &[u8],
        frame: &Frame,
        instant: u64,
        is_same: bool,
    ) -> Result<Answer, Refusal> {
        let layout = self.layouts[stream].as_deref().ok_or(Refusal::NoConfig)?;
        let (own, rest) = frame
            .payload
            .split_at_checked(OWN_BLOCK_LEN)
            .ok_or(Refusal::WrongLength)?;
        if own[6..] != layout.stamp {
            return Err(Refusal::OtherStamp);
        }
        if rest.len() != layout.moved.len {
            return Err(Refusal::WrongLength);
        }
        self.alignment.is_in_time(instant)?;
        let brought = Brought {
            stream,
            bytes,
            places: &layout.places,
            parts: layout.parts.as_slice(),
            in_force: layout.in_force,
        };
        let rows = &mut self.alignment.rows;
        rows.put(&brought, instant, frame.quality, is_same)
    }

    /// Looks which counts are in force, of the layouts that are held.
    fn look(&mut self) {
        let columns = &self.alignment.columns;
        for layout in self.layouts.iter_mut().flatten() {
            let parts = layout.parts.as_slice().iter();
            let parts = parts.filter(|part| columns[part.column].has_in_force(part.count));
            layout.in_force = parts.fold(0, |in_force, part| in_force | 1 << part.column);
        }
    }

    #[cold]
    fn hold(&mut self, stream: usize, config: &Config) -> Result<Answer, Refusal> {
        let node = &self.nodes[stream];
        if config.time_base != node.time_base {
            return Err(Refusal::WrongTimeBase);
        }
        if u32::from(config.rate.cast_unsigned()) != self.rate {
            return Err(Refusal::WrongRate);
        }
        let [own, others @ ..] = config.sections.as_slice() else {
            return Err(Refusal::Cut);
        };
        let stamp = own_stamp(node.id, own.bytes).ok_or(Refusal::BadOwnBlock)?;
        let placed = self.placed(others).ok_or(Refusal::UnknownSource)?;
        let placed = placed.as_slice();
        let held = self.layouts[stream].as_ref();
        match held.map_or(Ordering::Greater, |held| stamp.cmp(&held.stamp)) {
            Ordering::Less => return Err(Refusal::OldStamp),
            Ordering::Equal => return Ok(Answer::Known),
            Ordering::Greater => {}
        }
        let columns = &self.alignment.columns;
        if placed
            .iter()
            .any(|(column, section)| columns[*column].conflicts(section))
        {
            return Err(Refusal::CountConflict);
        }
        for (column, section) in placed {
            self.alignment.hold(*column, section);
        }
        self.layouts[stream] = Some(Box::new(layout_of(stamp, placed)));
        self.look();
        Ok(Answer::Candidate)
    }

    /// Puts each section beside the column of its source; they stand in the order of the columns.
    fn placed<'a>(&self, sections: &[Section<'a>]) -> Option<Few<(usize, Section<'a>), COLUMNS>> {
        let mut placed = Few::new();
        let mut sources = self.sources.iter().enumerate();
        for section in sections {
            let (column, _) = sources.find(|(_, source)| **source == section.source)?;
            placed.push((column, *section));
        }
        Some(placed)
    }
}

/// What is kept of a layout.
fn layout_of(stamp: [u8; 8], placed: &[(usize, Section)]) -> Layout {
    let mut parts = Few::new();
    let mut end = BLOCKS_PLACE;
    for (column, section) in placed {
        parts.push(Part {
            column: *column,
            shape: section.shape,
            count: section.count,
            at: end as u16,
        });
        end += 2 * section.shape.word_count();
    }
    Layout {
        stamp,
        places: Places::of(parts.as_slice()),
        parts,
        in_force: 0,
        moved: Moved::by(end - BLOCKS_PLACE),
    }
}

impl<C: CheckWord> Core for Merger<C> {
    #[inline]
    fn put_datagram(&mut self, stream: usize, bytes: &[u8]) {
        let answer = self.answer(stream, bytes);
        self.counts.count(answer);
    }

    fn tick(&mut self, now: u64, cleared: &[u16; COLUMNS]) -> Ticked {
        let ticked = self.alignment.tick(now, cleared);
        if ticked.change.is_some() {
            self.look();
        }
        ticked
    }

    fn publish(&mut self) -> Option<&[u8]> {
        let moved = self.layouts.iter().flatten().map(|layout| &layout.moved);
        let rows = &mut self.alignment.rows;
        rows.publish::<C>(&mut self.publisher, moved)
    }

    fn counts(&self) -> &Counts {
        &self.counts
    }

    fn waiting(&self) -> [u16; COLUMNS] {
        self.alignment.waiting()
    }

    fn disagree(&self) -> u64 {
        self.alignment.rows.disagree()
    }
}

/// The bytes of the stamp that the masks of an own section of this id say, where all else in it is as it must be, under either nominal
/// frequency.
fn own_stamp(id: u16, bytes: &[u8]) -> Option<[u8; 8]> {
    if bytes.len() != OWN_SECTION_LEN {
        return None;
    }
    let mut stamp = [0; 8];
    for (pair, mask) in stamp
        .chunks_exact_mut(2)
        .zip(bytes[1050..1066].chunks_exact(4))
    {
        pair.copy_from_slice(&mask[..2]);
    }
    let [a, b, c, d, e, f, g, h] = stamp;
    let numbers = (
        u32::from_be_bytes([a, b, c, d]),
        u32::from_be_bytes([e, f, g, h]),
    );
    [0, 1]
        .into_iter()
        .any(|nominal| bytes == own_section(id, nominal, numbers))
        .then_some(stamp)
}

/// The own section of a node: its name and id, no values but four digital words, whose masks say the stamp.
pub fn own_section(id: u16, nominal: u16, (start, change): (u32, u32)) -> Vec<u8> {
    let mut bytes = format!("PDC {id:05}       ").into_bytes();
    for word in [id, 0, 0, 0, 4] {
        bytes.extend_from_slice(&word.to_be_bytes());
    }
    bytes.extend_from_slice(&[b' '; 64 * 16]);
    for word in [
        (start >> 16) as u16,
        start as u16,
        (change >> 16) as u16,
        change as u16,
    ] {
        bytes.extend_from_slice(&word.to_be_bytes());
        bytes.extend_from_slice(&[0xFF, 0xFF]);
    }
    for word in [nominal, change as u16] {
        bytes.extend_from_slice(&word.to_be_bytes());
    }
    bytes
}

/// The same run as `dagluwis_merger`.
#[inline(never)]
pub fn run<C: CheckWord>(settings: &Settings, script: &Script, floor: u64) -> u64 {
    crate::script::run(Merger::<C>::open(settings, 1, floor), script, floor)
}
