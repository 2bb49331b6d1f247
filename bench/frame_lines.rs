//! The lines of reading and writing.

use crate::check::{ByShifts, ByTables};
use crate::lines::{BESIDE, Line, Mode, Side, each, head, name_of, shape};
use crate::paths::Frames;
use crate::plain::Shape;
use crate::traffic::{Beside, RATE, TIME_BASE, pmu_configuration, pmu_data};
use crate::{ours, paths};
use std::hint::black_box;

/// The rounds of a line whose steps are counted: so many that what comes once, before the first round, is no part of them.
const COUNTED: u32 = 1000;

/// How many frames lie one behind the other where they are read.
const FRAMES: u32 = 8;

/// Enough rounds for some milliseconds on frames of this length, as many as those that are read together fill.
fn rounds_for(len: usize, mode: &Mode) -> u32 {
    match mode {
        Mode::Timed { .. } => (20_000_000 / (len as u32 + 200)).max(1_000) / FRAMES * FRAMES,
        Mode::Counted => COUNTED,
    }
}

/// The frames with these numbers, which are of one length.
fn one_behind_the_other(frame: impl Fn(u16) -> Vec<u8>) -> Vec<u8> {
    (1..=FRAMES as u16).flat_map(frame).collect()
}

fn check_words(mode: &mut Mode) {
    for len in [24_usize, 72, 552, 3452] {
        let bytes: Vec<u8> = (0..len).map(|i| (i * 37 + 11) as u8).collect();
        let count = rounds_for(len, mode);
        let of = |check: fn(&[u8]) -> u16| {
            let bytes = &bytes;
            Side::new(move || each(count, || u64::from(check(black_box(bytes)))))
        };
        let others = vec![
            of(paths::check_word::<ByTables>),
            of(paths::check_word::<ByShifts>),
        ];
        Line {
            name: format!("check word | {} bytes", len + 2),
            count,
            counted: COUNTED,
            ours: of(ours::check_word),
            others,
        }
        .take(mode);
    }
}

fn configurations(mode: &mut Mode, shape: Shape) {
    let bytes = pmu_configuration(shape, 11, 1, Beside::Nothing);
    let count = rounds_for(bytes.len(), mode);
    let several =
        one_behind_the_other(|number| pmu_configuration(shape, 11, number, Beside::Nothing));
    let reading = |read: fn(Frames, u32) -> u64| {
        let frames = Frames {
            bytes: &several,
            len: bytes.len(),
        };
        Side::new(move || read(black_box(frames), count / FRAMES))
    };
    let others = vec![
        reading(paths::read_configs::<ByTables>),
        reading(paths::read_configs::<ByShifts>),
    ];
    let name = format!("read configuration | {}", name_of(shape));
    Line {
        name,
        count,
        counted: COUNTED,
        ours: reading(ours::read_configs),
        others,
    }
    .take(mode);
    let writing = |write: fn(&[u8], u32) -> u64| {
        let bytes = &bytes;
        Side::new(move || write(black_box(bytes), count))
    };
    let others = vec![
        writing(paths::write_config::<ByTables>),
        writing(paths::write_config::<ByShifts>),
    ];
    let name = format!("write configuration | {}", name_of(shape));
    Line {
        name,
        count,
        counted: COUNTED,
        ours: writing(ours::write_config),
        others,
    }
    .take(mode);
}

fn data_frames(mode: &mut Mode, shape: Shape) {
    let bytes = pmu_data(shape, 11, 1, Beside::Nothing);
    let count = rounds_for(bytes.len(), mode);
    let several =
        one_behind_the_other(|number| pmu_data(shape, 11, number.into(), Beside::Nothing));
    let reading = |read: fn(Frames, Shape, u32, u32, u32) -> u64| {
        let frames = Frames {
            bytes: &several,
            len: bytes.len(),
        };
        Side::new(move || {
            read(
                black_box(frames),
                shape,
                black_box(TIME_BASE),
                black_box(RATE),
                count / FRAMES,
            )
        })
    };
    let others = vec![
        reading(paths::read_data::<ByTables>),
        reading(paths::read_data::<ByShifts>),
    ];
    let name = format!("read data | {}", name_of(shape));
    Line {
        name,
        count,
        counted: COUNTED,
        ours: reading(ours::read_data),
        others,
    }
    .take(mode);
    let writing = |write: fn(&[u8], Shape, u32) -> u64| {
        let bytes = &bytes;
        Side::new(move || write(black_box(bytes), shape, count))
    };
    let others = vec![
        writing(paths::write_data::<ByTables>),
        writing(paths::write_data::<ByShifts>),
    ];
    let name = format!("write data | {}", name_of(shape));
    Line {
        name,
        count,
        counted: COUNTED,
        ours: writing(ours::write_data),
        others,
    }
    .take(mode);
}

/// Reading and writing of frames.
pub fn frames(mode: &mut Mode) {
    head(mode, &["path", "frame or shape"], &BESIDE);
    check_words(mode);
    for shape in [shape(1, 0, 0), shape(8, 4, 1), shape(32, 32, 8)] {
        configurations(mode, shape);
        data_frames(mode, shape);
    }
}
