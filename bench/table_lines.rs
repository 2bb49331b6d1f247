//! The lines of alignment.

use crate::lines::{Line, Mode, Side, head};
use crate::ring::{COLUMNS, Ring};
use crate::tables::{self, MapTable};
use crate::{lines, ours};
use std::hint::black_box;

/// The numbers of a line.
const NUMBERS: [&str; 8] = [
    "ours, ns a put",
    "plain ring, ns",
    lines::RATIO,
    "the simple way: plain `BTreeMap`, ns",
    lines::RATIO,
    "the simple way: proved, sorted rows, ns",
    lines::RATIO,
    "steps: ours / plain ring / `BTreeMap` / sorted rows",
];

/// How far the last stream is behind the others.
const BEHIND: u64 = 48;

/// Runs a table of this window over so many instants, or as many of its windows.
type Run<'a> = &'a dyn Fn(u64, u32) -> u64;

/// A side that runs a table over so many instants; that it is made is taken off.
fn side<'a>(run: Run<'a>, window: u64, instants: u32) -> Side<'a> {
    Side::opened(
        move || run(window, 0),
        move || run(window, black_box(instants)),
    )
}

fn line(mode: &mut Mode, name: &str, window: u64, instants: u32, ours: Run, others: [Run; 3]) {
    let mut line = Line {
        name: format!("{name} | {window}"),
        count: instants * COLUMNS as u32,
        counted: instants * COLUMNS as u32,
        ours: side(ours, window, instants),
        others: others
            .map(|run| side(run, window, instants))
            .into_iter()
            .collect(),
    };
    line.take(mode);
}

/// The tables of alignment: ours and plain rings, and the simple ways to write one.
pub fn tables(mode: &mut Mode) {
    head(mode, &["alignment of 16 streams", "window"], &NUMBERS);
    let bodies = tables::bodies();
    let bodies = black_box(bodies.as_slice());
    line(
        mode,
        "16 puts, 4 ticks an instant, one stream 48 behind",
        64,
        2_000,
        &|window, instants| ours::ring_steady(window, BEHIND, instants, bodies),
        [
            &|window, instants| tables::steady::<Ring<1>>(window, BEHIND, instants, bodies),
            &|window, instants| tables::steady::<MapTable>(window, BEHIND, instants, bodies),
            &|window, instants| ours::sorted_steady(window, BEHIND, instants, bodies),
        ],
    );
    for window in [8, 64, 256] {
        let rounds = |instants| instants / window as u32;
        line(
            mode,
            "fill the window, close it with one tick",
            window,
            4_096,
            &|window, instants| ours::ring_fill(window, rounds(instants), bodies),
            [
                &|window, instants| tables::fill::<Ring<1>>(window, rounds(instants), bodies),
                &|window, instants| tables::fill::<MapTable>(window, rounds(instants), bodies),
                &|window, instants| ours::sorted_fill(window, rounds(instants), bodies),
            ],
        );
    }
}
