//! A node of plain, careful Rust for the same work as the proved one: it reads and checks each datagram, counts how it was answered,
//! aligns, stores the floor in a mark in memory, and writes the data frames straight out of the ring.

use crate::alignment::{Alignment, Plan, Rows, Ticked};
use crate::answers::{Answer, Counts, Refusal};
use crate::check::CheckWord;
use crate::grid::Grid;
use crate::images::Images;
use crate::plain::{self, Config, Frame, Kind};
use crate::publishing::{Output, Publisher};
use crate::ring::COLUMNS;
use crate::script::{Core, Script};
use std::marker::PhantomData;

/// A PMU whose stream the node takes.
#[derive(Clone, Copy)]
pub struct Pmu {
    pub stream: u16,
    pub source: u16,
    pub time_base: u32,
}

/// What a node is told.
pub struct Settings {
    pub output: Output,
    pub plan: Plan,
    pub pmus: Vec<Pmu>,
}

/// A node; each PMU has a stream and a column of its own.
pub struct Node<C> {
    rate: u32,
    pmus: Vec<Pmu>,
    grids: Vec<Grid>,
    alignment: Alignment<Images>,
    publisher: Publisher,
    counts: Counts,
    check: PhantomData<C>,
}

impl<C: CheckWord> Node<C> {
    pub fn open(settings: &Settings, start: u32, floor: u64) -> Node<C> {
        Node {
            rate: settings.output.rate,
            pmus: settings.pmus.clone(),
            grids: settings
                .pmus
                .iter()
                .map(|pmu| Grid::new(pmu.time_base, settings.output.rate))
                .collect(),
            alignment: Alignment::new(
                Images::new(settings.plan.window, floor, start),
                settings.plan,
                start,
                &[0; COLUMNS],
                floor,
            ),
            publisher: Publisher::new(settings.output, start, floor),
            counts: Counts::default(),
            check: PhantomData,
        }
    }

    /// Takes what was read of a datagram, which may have been read before the node was locked.
    #[inline]
    pub fn put_read(&mut self, stream: usize, read: Result<Frame, Refusal>) {
        let answer = read.and_then(|frame| self.answer(stream, &frame));
        self.counts.count(answer);
    }

    fn answer(&mut self, stream: usize, frame: &Frame) -> Result<Answer, Refusal> {
        if frame.id != self.pmus[stream].stream {
            return Err(Refusal::WrongId);
        }
        match frame.kind {
            Kind::Data => self.take(stream, frame),
            Kind::Cfg2 => self.hold(stream, &plain::read_config(frame)?),
            _ => Err(Refusal::WrongKind),
        }
    }

    fn take(&mut self, stream: usize, frame: &Frame) -> Result<Answer, Refusal> {
        let instant = self.grids[stream].instant(frame.soc, frame.frac);
        let instant = instant.ok_or(Refusal::BadTag)?;
        let shape = self.alignment.shape(stream).ok_or(Refusal::NoConfig)?;
        if frame.payload.len() != 2 * shape.word_count() {
            return Err(Refusal::WrongLength);
        }
        self.alignment.is_in_time(instant)?;
        let rows = &mut self.alignment.rows;
        rows.put(stream, instant, frame.quality, frame.payload)
    }

    #[cold]
    fn hold(&mut self, stream: usize, config: &Config) -> Result<Answer, Refusal> {
        let [section] = config.sections.as_slice() else {
            return Err(Refusal::TooMany);
        };
        let pmu = &self.pmus[stream];
        if config.time_base != pmu.time_base {
            return Err(Refusal::WrongTimeBase);
        }
        if u32::from(config.rate.cast_unsigned()) != self.rate {
            return Err(Refusal::WrongRate);
        }
        if section.source != pmu.source {
            return Err(Refusal::WrongSource);
        }
        let column = &self.alignment.columns[stream];
        if section.count < column.opening {
            return Err(Refusal::StaleCount);
        }
        match &column.held {
            Some(held) if section.count < held.count => Err(Refusal::StaleCount),
            Some(held) if section.count == held.count && held.is(section) => Ok(Answer::Known),
            Some(held) if section.count == held.count => Err(Refusal::CountConflict),
            _ => {
                self.alignment.hold(stream, section);
                Ok(Answer::Candidate)
            }
        }
    }
}

impl<C: CheckWord> Core for Node<C> {
    #[inline]
    fn put_datagram(&mut self, stream: usize, bytes: &[u8]) {
        self.put_read(stream, plain::read_frame::<C>(bytes));
    }

    fn tick(&mut self, now: u64, cleared: &[u16; COLUMNS]) -> Ticked {
        self.alignment.tick(now, cleared)
    }

    fn publish(&mut self) -> Option<&[u8]> {
        self.alignment.rows.publish::<C>(&mut self.publisher)
    }

    fn counts(&self) -> &Counts {
        &self.counts
    }

    fn waiting(&self) -> [u16; COLUMNS] {
        self.alignment.waiting()
    }

    fn disagree(&self) -> u64 {
        self.alignment.rows.disagree()
    }
}

/// The same run as `dagluwis_node`.
#[inline(never)]
pub fn run<C: CheckWord>(settings: &Settings, script: &Script, floor: u64) -> u64 {
    crate::script::run(Node::<C>::open(settings, 1, floor), script, floor)
}
