//! Lines of the tables: what is run on each side, and how its times are taken and printed.

use crate::plain::Shape;
use std::collections::VecDeque;
use std::time::Instant;

/// Some work, which gives a number that depends on all of it.
pub type Work<'a> = Box<dyn FnMut() -> u64 + 'a>;

/// One side of a line.
pub struct Side<'a> {
    /// How a run begins, where that is timed alone and taken off.
    pub opening: Option<Work<'a>>,
    pub whole: Work<'a>,
}

impl<'a> Side<'a> {
    pub fn new(whole: impl FnMut() -> u64 + 'a) -> Side<'a> {
        Side {
            opening: None,
            whole: Box::new(whole),
        }
    }

    pub fn opened(opening: impl FnMut() -> u64 + 'a, whole: impl FnMut() -> u64 + 'a) -> Side<'a> {
        Side {
            opening: Some(Box::new(opening)),
            whole: Box::new(whole),
        }
    }

    /// Nanoseconds of the work without its opening.
    fn time(&mut self) -> f64 {
        let opening = self.opening.as_mut().map_or(0.0, timed);
        timed(&mut self.whole) - opening
    }
}

/// Nanoseconds of the work.
fn timed(work: &mut Work) -> f64 {
    let start = Instant::now();
    std::hint::black_box(work());
    start.elapsed().as_nanos() as f64
}

/// A line: ours, and the plain ways beside it.
pub struct Line<'a> {
    pub name: String,
    /// How many frames, datagrams or puts its work has.
    pub count: u32,
    /// How many it has where steps are counted.
    pub counted: u32,
    pub ours: Side<'a>,
    pub others: Vec<Side<'a>>,
}

/// Steps of the processor: all work is called here, so that the tool that counts them sees where it begins and ends.
#[unsafe(no_mangle)]
#[inline(never)]
pub fn counted(work: &mut Work) -> u64 {
    work()
}

/// How the lines are taken.
pub enum Mode {
    /// So many turns are timed.
    Timed {
        turns: usize,
        /// The steps of the processor, which were counted before, in the order of the work.
        steps: VecDeque<u64>,
        times: Times,
    },
    /// Steps are counted.
    Counted,
}

/// The times of all turns, those of other builds among them: for each line and side, in order, nanoseconds of each turn.
#[derive(Default)]
pub struct Times {
    /// Those that were taken before.
    pub before: VecDeque<Vec<f64>>,
    /// Those of before and of this run.
    pub all: Vec<Vec<f64>>,
    /// Whether more are to come: then no table is printed.
    pub are_more_to_come: bool,
}

impl Times {
    /// Adds the times of the sides of a line, and answers them with those of before.
    fn add(&mut self, sides: Vec<Vec<f64>>) -> &[Vec<f64>] {
        let first = self.all.len();
        for times in sides {
            let mut all = self.before.pop_front().unwrap_or_default();
            all.extend(times);
            self.all.push(all);
        }
        &self.all[first..]
    }
}

impl<'a> Line<'a> {
    fn sides(&mut self) -> impl Iterator<Item = &mut Side<'a>> {
        std::iter::once(&mut self.ours).chain(&mut self.others)
    }

    /// All sides give the same answers.
    fn compare(&mut self) {
        let openings: Vec<u64> = self
            .sides()
            .filter_map(|side| Some(side.opening.as_mut()?()))
            .collect();
        let answers: Vec<u64> = self.sides().map(|side| (side.whole)()).collect();
        assert_same(&self.name, &openings);
        assert_same(&self.name, &answers);
    }

    /// For each side the nanoseconds of each turn. A turn takes all sides, each turn from another one on.
    fn take_turns(&mut self, turns: usize) -> Vec<Vec<f64>> {
        let count = f64::from(self.count);
        let mut sides: Vec<_> = self.sides().collect();
        let mut times = vec![Vec::new(); sides.len()];
        for turn in 0..turns {
            for number in 0..sides.len() {
                let side = (turn + number) % sides.len();
                times[side].push(sides[side].time() / count);
            }
        }
        times
    }

    /// Takes the line, and prints it where it is timed.
    pub fn take(&mut self, mode: &mut Mode) {
        match mode {
            Mode::Counted => self.count_steps(),
            Mode::Timed {
                turns,
                steps,
                times,
            } => {
                self.compare();
                let taken = self.take_turns(*turns);
                let steps = self.steps(steps);
                let is_last = !times.are_more_to_come;
                let all = times.add(taken);
                if is_last {
                    self.print(all, &steps);
                }
            }
        }
    }

    /// Does each work once, and prints of which line and side it is, whether it is an opening, and how many frames, datagrams or puts
    /// it has.
    fn count_steps(&mut self) {
        let (name, count) = (self.name.clone(), self.counted);
        for (number, side) in self.sides().enumerate() {
            if let Some(opening) = &mut side.opening {
                counted(opening);
                println!("counted: {name}: {number}: opening: {count}");
            }
            counted(&mut side.whole);
            println!("counted: {name}: {number}: whole: {count}");
        }
    }

    /// For each side its steps for each frame, datagram or put, taken from the front of those that were counted.
    fn steps(&mut self, counted: &mut VecDeque<u64>) -> Vec<Option<f64>> {
        let count = f64::from(self.counted);
        let sides: Vec<_> = self.sides().map(|side| side.opening.is_some()).collect();
        let mut next = || counted.pop_front();
        let mut steps = Vec::new();
        for is_opened in sides {
            let opening = if is_opened { next() } else { Some(0) };
            steps.push(
                next()
                    .zip(opening)
                    .map(|(whole, opening)| whole.saturating_sub(opening) as f64 / count),
            );
        }
        steps
    }

    fn print(&self, times: &[Vec<f64>], steps: &[Option<f64>]) {
        let ours = tenths(middle(&times[0]));
        let mut row = format!("| {} | {ours:.1} |", self.name);
        for other in &times[1..] {
            let plain = tenths(middle(other));
            let ratios: Vec<f64> = other
                .iter()
                .zip(&times[0])
                .map(|(plain, ours)| plain / ours)
                .collect();
            let (low, high) = (part(&ratios, 0.1), part(&ratios, 0.9));
            row += &format!(
                " {plain:.1} | {:.2} ({low:.2} to {high:.2}) |",
                plain / ours
            );
        }
        let steps: Vec<_> = steps
            .iter()
            .map(|steps| steps.map_or("-".into(), |steps| format!("{steps:.0}")))
            .collect();
        println!("{row} {} |", steps.join(" / "));
    }
}

/// All are one number.
pub fn assert_same(name: &str, answers: &[u64]) {
    let is_one = answers.windows(2).all(|pair| pair[0] == pair[1]);
    assert!(
        is_one,
        "{name}: both sides give the same answers, not {answers:x?}"
    );
}

/// The number as it is printed, so that a ratio is that of the numbers beside it.
fn tenths(number: f64) -> f64 {
    (number * 10.0).round() / 10.0
}

/// The number below which this part of the numbers is.
fn part(numbers: &[f64], part: f64) -> f64 {
    let mut sorted = numbers.to_vec();
    sorted.sort_by(f64::total_cmp);
    sorted[((sorted.len() - 1) as f64 * part).round() as usize]
}

/// The middle one of the numbers.
fn middle(numbers: &[f64]) -> f64 {
    part(numbers, 0.5)
}

/// Calls `one` for each round, and mixes what it gives.
pub fn each(rounds: u32, mut one: impl FnMut() -> u64) -> u64 {
    (0..rounds).fold(0, |mixed: u64, _| mixed.rotate_left(1) ^ one())
}

/// Prints the head of a table, where it is timed: so many columns of names, and those of numbers.
pub fn head(mode: &Mode, names: &[&str], numbers: &[&str]) {
    if let Mode::Timed { times, .. } = mode
        && !times.are_more_to_come
    {
        let titles = [names, numbers].concat().join(" | ");
        let (left, right) = ("---|".repeat(names.len()), "---:|".repeat(numbers.len()));
        println!("\n| {titles} |\n|{left}{right}");
    }
}

/// The title of a ratio with its spread.
pub const RATIO: &str = "ratio (10 to 90 %)";

/// The numbers of a line that has ours beside both plain ones.
pub const BESIDE: [&str; 6] = [
    "ours, ns",
    "plain, by tables, ns",
    RATIO,
    "plain, as ours, ns",
    RATIO,
    "steps: ours / by tables / as ours",
];

pub fn shape(phasors: u8, analogs: u8, digitals: u8) -> Shape {
    Shape {
        phasors,
        analogs,
        digitals,
    }
}

pub fn name_of(shape: Shape) -> String {
    format!("{}/{}/{}", shape.phasors, shape.analogs, shape.digitals)
}
