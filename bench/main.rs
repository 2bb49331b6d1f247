//! The reading and writing paths, the table, a node and the merger, proved and plain, side by side in one process.
//!
//! `bench steps` does each work once, for a tool that counts the steps of the processor, and prints which it was. `bench TURNS [STEPS [TIMES [more]]]` prints the tables:
//! medians of so many turns, and beside them the steps that stand in a file, one number a line. A file of times has those of turns before, which are
//! added; with `more` it gets those of this run too, and no table is printed.

mod absent;
mod alignment;
mod answers;
mod blocks;
mod check;
mod core_lines;
mod cores;
mod few;
mod frame_lines;
mod grid;
mod images;
mod lanes;
mod lines;
mod merging;
mod moving;
mod order;
mod ours;
mod paths;
mod plain;
mod publishing;
mod refusals;
mod ring;
mod script;
mod table_lines;
mod tables;
mod traffic;
mod words;

use lines::{Mode, Times};
use std::arch::global_asm;
use std::path::Path;
use std::str::FromStr;

/// So many bytes stand in front of all code, by which each function stands at another remainder: some are slower at one than at another.
const SHIFT: usize = match option_env!("BENCH_SHIFT") {
    Some(words) => number_of(words.as_bytes()),
    None => 0,
};

const fn number_of(digits: &[u8]) -> usize {
    let (mut number, mut place) = (0, 0);
    while place < digits.len() {
        number = 10 * number + (digits[place] - b'0') as usize;
        place += 1;
    }
    number
}

global_asm!(
    ".pushsection .text.startup.shift, \"ax\", @progbits",
    ".globl bench_shift",
    "bench_shift: .zero {shift}",
    ".popsection",
    shift = const SHIFT,
);

unsafe extern "C" {
    fn bench_shift();
}

/// So the linker keeps the bytes.
#[used]
static KEPT: unsafe extern "C" fn() = bench_shift;

/// What stands in a file, a line each; nothing where there is no file.
fn lines_in(file: Option<&String>) -> Vec<String> {
    let text = file
        .and_then(|file| std::fs::read_to_string(file).ok())
        .unwrap_or_default();
    text.lines().map(str::to_owned).collect()
}

fn numbers_of<T: FromStr>(line: &str) -> Vec<T> {
    line.split_whitespace()
        .filter_map(|word| word.parse().ok())
        .collect()
}

/// Writes the times of all turns, those of a line and side each into a line.
fn write_times(file: &Path, times: &Times) -> std::io::Result<()> {
    let lines = times.all.iter().map(|them| {
        let words: Vec<String> = them.iter().map(f64::to_string).collect();
        words.join(" ") + "\n"
    });
    std::fs::write(file, lines.collect::<String>())
}

fn main() -> std::io::Result<()> {
    let arguments: Vec<String> = std::env::args().skip(1).collect();
    let mut mode = match arguments.first().map(String::as_str) {
        Some("steps") => Mode::Counted,
        turns => {
            let turns = turns.and_then(|turns| turns.parse().ok()).unwrap_or(32);
            let steps = lines_in(arguments.get(1));
            let before = lines_in(arguments.get(2));
            Mode::Timed {
                turns,
                steps: steps.iter().flat_map(|line| numbers_of(line)).collect(),
                times: Times {
                    before: before.iter().map(|line| numbers_of(line)).collect(),
                    all: Vec::new(),
                    are_more_to_come: arguments.get(3).is_some_and(|word| word == "more"),
                },
            }
        }
    };
    frame_lines::frames(&mut mode);
    core_lines::nodes(&mut mode);
    core_lines::mergers(&mut mode);
    table_lines::tables(&mut mode);
    match (&mode, arguments.get(2)) {
        (Mode::Timed { times, .. }, Some(file)) if times.are_more_to_come => {
            write_times(Path::new(file), times)
        }
        _ => Ok(()),
    }
}
