//! The alignment of a plain concentrator: what is held of each column and in force for it, and the ring.

use crate::answers::Refusal;
use crate::plain::{Section, Shape};
use crate::ring::{COLUMNS, RowLayout, WaitRule};

/// What the wait is counted in: ticks that an instant is open, or instants below now.
#[derive(Clone, Copy, PartialEq, Eq)]
pub enum WaitKind {
    Relative,
    Absolute,
}

/// How instants are aligned.
#[derive(Clone, Copy)]
pub struct Plan {
    pub wait: u64,
    pub wait_kind: WaitKind,
    pub window: u64,
    pub ahead: u64,
    pub columns: usize,
}

/// A section that is kept.
#[derive(Clone)]
pub struct Kept {
    bytes: Vec<u8>,
    pub shape: Shape,
    pub count: u16,
}

impl Kept {
    fn of(section: &Section) -> Kept {
        Kept {
            bytes: section.bytes.to_vec(),
            shape: section.shape,
            count: section.count,
        }
    }

    pub fn is(&self, section: &Section) -> bool {
        self.bytes == section.bytes
    }

    fn differs(&self, section: &Section) -> bool {
        self.count == section.count && !self.is(section)
    }
}

/// What is held of a column, and what is in force for it.
#[derive(Default)]
pub struct Column {
    /// No section below this count is held.
    pub opening: u16,
    pub held: Option<Kept>,
    pub in_force: Option<Kept>,
}

impl Column {
    pub fn has_in_force(&self, count: u16) -> bool {
        self.in_force
            .as_ref()
            .is_some_and(|section| section.count == count)
    }

    pub fn conflicts(&self, section: &Section) -> bool {
        self.held
            .iter()
            .chain(&self.in_force)
            .any(|other| other.differs(section))
    }

    fn is_newer(&self, count: u16) -> bool {
        self.in_force
            .as_ref()
            .is_none_or(|section| section.count < count)
    }
}

/// What a tick did: how many rows closed, the change number where columns were adopted, and whether none was left for them.
#[derive(Clone, Copy, Debug, Default, PartialEq, Eq)]
pub struct Ticked {
    pub closed: u32,
    pub change: Option<u32>,
    pub used_up: bool,
}

/// The rows that wait for data.
pub trait Rows {
    const LANES: usize;
    /// All up to this instant is closed.
    fn last(&self) -> u64;
    /// How often, at a closing, the present blocks of a column differed.
    fn disagree(&self) -> u64;
    fn require(&mut self, stream: usize, is_required: bool);
    /// Closes the rows for which every row up to them is due, and answers how many.
    fn tick(&mut self, rule: WaitRule, layout: &RowLayout) -> u32;
    /// Forgets what was taken of a column at each open instant, with one lane of its stream too.
    fn drop_column(&mut self, column: usize);
    /// Takes the layout that is in force from now on.
    fn lay(&mut self, layout: &RowLayout);
}

pub struct Alignment<R> {
    plan: Plan,
    now: u64,
    pub columns: Vec<Column>,
    /// For each column the count up to which a section may be adopted.
    cleared: [u16; COLUMNS],
    /// The columns of which a section is held that is newer than the one in force.
    pending: u16,
    layout: RowLayout,
    pub rows: R,
}

impl<R: Rows> Alignment<R> {
    pub fn new(mut rows: R, plan: Plan, start: u32, counts: &[u16; COLUMNS], now: u64) -> Self {
        if R::LANES == 2 {
            rows.require(0, true);
            rows.require(1, true);
        }
        let columns = counts[..plan.columns]
            .iter()
            .map(|&opening| Column {
                opening,
                ..Column::default()
            })
            .collect();
        let mut cleared = [0; COLUMNS];
        cleared[..plan.columns].copy_from_slice(&counts[..plan.columns]);
        let layout = RowLayout {
            start,
            ..RowLayout::default()
        };
        Alignment {
            plan,
            now,
            columns,
            cleared,
            pending: 0,
            layout,
            rows,
        }
    }

    /// The shape in force for a column.
    pub fn shape(&self, column: usize) -> Option<Shape> {
        self.layout.shapes[column]
    }

    /// Whether an instant is above those that closed, and not too far ahead.
    #[inline(always)]
    pub fn is_in_time(&self, instant: u64) -> Result<(), Refusal> {
        if instant <= self.rows.last() {
            return Err(Refusal::Late);
        }
        if instant.saturating_sub(self.now) > self.plan.ahead {
            return Err(Refusal::Ahead);
        }
        Ok(())
    }

    /// Holds a copy of the section, unless it is below the opening count or not above what is held.
    pub fn hold(&mut self, column: usize, section: &Section) {
        let held = &mut self.columns[column];
        if section.count < held.opening
            || held
                .held
                .as_ref()
                .is_some_and(|held| section.count <= held.count)
        {
            return;
        }
        held.held = Some(Kept::of(section));
        if held.is_newer(section.count) {
            self.pending |= 1 << column;
        }
    }

    /// Rows close under the layout before the tick, and then the columns that are ready are adopted, where a change number is left.
    pub fn tick(&mut self, now: u64, counts: &[u16; COLUMNS]) -> Ticked {
        let closed = self.rows.tick(self.rule(now), &self.layout);
        self.now = now;
        for (cleared, count) in self.cleared.iter_mut().zip(counts) {
            *cleared = (*cleared).max(*count);
        }
        let mut ticked = Ticked {
            closed,
            ..Ticked::default()
        };
        if self.pending != 0 {
            self.adopt(&mut ticked);
        }
        ticked
    }

    fn rule(&self, now: u64) -> WaitRule {
        match self.plan.wait_kind {
            WaitKind::Relative => WaitRule::Ticks(self.plan.wait),
            WaitKind::Absolute => WaitRule::Until(now.checked_sub(self.plan.wait)),
        }
    }

    /// Adopts the columns that are ready, and drops what is pending of them.
    #[cold]
    fn adopt(&mut self, ticked: &mut Ticked) {
        let mut has_change = false;
        for column in 0..self.columns.len() {
            if !self.is_ready(column) {
                continue;
            }
            if self.layout.change == u32::MAX {
                ticked.used_up = true;
                return;
            }
            has_change = true;
            self.adopt_column(column);
        }
        if has_change {
            self.layout.change += 1;
            ticked.change = Some(self.layout.change);
            self.rows.lay(&self.layout);
        }
    }

    fn is_ready(&self, column: usize) -> bool {
        let held = self.columns[column].held.as_ref();
        self.pending & 1 << column != 0
            && held.is_some_and(|held| held.count <= self.cleared[column])
    }

    fn adopt_column(&mut self, column: usize) {
        let Column { held, in_force, .. } = &mut self.columns[column];
        in_force.clone_from(held);
        self.layout.shapes[column] = in_force.as_ref().map(|section| section.shape);
        self.pending &= !(1 << column);
        if R::LANES == 1 {
            self.rows.require(column, true);
        }
        self.rows.drop_column(column);
    }

    /// For each column the count that waits to be stored: the greater of the cleared and the held one.
    pub fn waiting(&self) -> [u16; COLUMNS] {
        let mut waiting = [0; COLUMNS];
        for ((waiting, column), cleared) in waiting.iter_mut().zip(&self.columns).zip(self.cleared)
        {
            *waiting = column
                .held
                .as_ref()
                .map_or(cleared, |held| cleared.max(held.count));
        }
        waiting
    }
}
