//! Datagrams that are refused, each cause once: both sides must tell them apart alike. They are compared and not timed.

use crate::plain::Shape;
use crate::script::Script;
use crate::traffic::{Beside, NODES, node_data, node_layout, pmu_configuration, pmu_data, sealed};

/// Where fields stand in a frame, and in a configuration of which a PMU's is the first section.
const SYNC: usize = 0;
const SIZE: usize = 2;
const ID: usize = 4;
const FRAC: usize = 11;
const BASE: usize = 15;
const COUNT: usize = 18;
const SECTION: usize = 20;

/// And in a section.
const SOURCE: usize = 16;
const FORMAT: usize = 18;
const PHASORS: usize = 20;
const ANALOGS: usize = 22;

/// The bytes of a node's own section.
const OWN_SECTION_LEN: usize = 1070;

/// The frame with these bytes at a place, and its check word made again.
fn with(frame: &[u8], place: usize, bytes: &[u8]) -> Vec<u8> {
    let mut changed = frame[..frame.len() - 2].to_vec();
    changed[place..place + bytes.len()].copy_from_slice(bytes);
    sealed(changed)
}

/// The frame without its last word, and its length and check word made again.
fn shorter(frame: &[u8]) -> Vec<u8> {
    let mut shorter = frame[..frame.len() - 4].to_vec();
    let size = shorter.len() as u16 + 2;
    shorter[SIZE..SIZE + 2].copy_from_slice(&size.to_be_bytes());
    sealed(shorter)
}

/// Each fault of a frame, and each of a configuration up to its first section, which stands at this place.
fn faults(configuration: &[u8], section: usize) -> Vec<Vec<u8>> {
    let rate = configuration.len() - 4;
    let mut unchecked = configuration.to_vec();
    unchecked[SECTION] ^= 1;
    vec![
        configuration[..10].to_vec(),
        with(configuration, SYNC, &[0xAB]),
        with(configuration, SYNC + 1, &[0x62]),
        with(configuration, SYNC + 1, &[0x33]),
        with(configuration, SIZE, &[0, 99]),
        unchecked,
        with(configuration, ID, &[0, 0]),
        with(configuration, ID, &[0xFF, 0xFF]),
        with(configuration, ID, &[0, 9]),
        with(configuration, SYNC + 1, &[0x12]),
        with(configuration, SYNC + 1, &[0x22]),
        with(configuration, SYNC + 1, &[0x52]),
        with(configuration, COUNT, &[0, 0]),
        with(configuration, COUNT, &[0, 18]),
        with(configuration, section + PHASORS, &[0, 33]),
        with(configuration, section + ANALOGS, &[0, 31]),
        with(configuration, section + FORMAT, &[0, 2]),
        shorter(configuration),
        with(configuration, BASE, &[1]),
        with(configuration, rate, &[0, 25]),
    ]
}

/// Data that is refused or taken, in turn: too long, of a wrong tag, twice, with another word, old, too far ahead and out of a window of 8.
fn data_of(data: impl Fn(u32) -> Vec<u8>) -> Vec<Vec<u8>> {
    let first = data(1);
    let last = first.len() - 4;
    vec![
        shorter(&first),
        with(&first, FRAC, &[0, 0, 9]),
        with(&first, FRAC, &[0xFF, 0xFF, 0xFF]),
        first.clone(),
        first.clone(),
        with(&first, last, &[0xAB, 0xCD]),
        data(0),
        data(33),
        data(20),
    ]
}

/// What a node is sent.
pub fn to_node(shape: Shape) -> Script {
    let configuration = pmu_configuration(shape, 1, 5, Beside::Nothing);
    let data = |instant| pmu_data(shape, 1, instant, Beside::Nothing);
    let mut script = Script::default();
    let mut put = |datagrams: &[Vec<u8>]| datagrams.iter().for_each(|it| script.put(0, it));
    put(&[data(1)]);
    put(&faults(&configuration, SECTION));
    put(&[
        with(&configuration, SECTION + SOURCE, &[0, 9]),
        configuration.clone(),
        configuration.clone(),
        with(&configuration, SECTION, b"X"),
        pmu_configuration(shape, 1, 4, Beside::Nothing),
    ]);
    script.tick();
    data_of(data).iter().for_each(|it| script.put(0, it));
    (0..3).for_each(|_| script.tick());
    script
}

/// What the merger is sent.
pub fn to_merger(shapes: &[Shape]) -> Script {
    let [first, second] = NODES;
    let layout = node_layout(shapes, first, 2, Beside::Nothing);
    let section = SECTION + OWN_SECTION_LEN;
    let data = |change| move |instant| node_data(shapes, first, instant, change, Beside::Nothing);
    let mut script = Script::default();
    let mut put = |datagrams: &[Vec<u8>]| datagrams.iter().for_each(|it| script.put(0, it));
    put(&[data(1)(1)]);
    put(&faults(&layout, section));
    put(&[
        with(&layout, SECTION, b"X"),
        with(&layout, section + SOURCE, &[0, 99]),
        layout.clone(),
        layout.clone(),
        node_layout(shapes, first, 1, Beside::Nothing),
        data(1)(1),
    ]);
    let other = with(
        &node_layout(shapes, second, 2, Beside::Nothing),
        section,
        b"X",
    );
    script.put(1, &other);
    script.tick();
    data_of(data(2)).iter().for_each(|it| script.put(0, it));
    let differing = with(
        &node_data(shapes, second, 1, 2, Beside::Nothing),
        40,
        &[0xAB],
    );
    script.put(1, &node_layout(shapes, second, 2, Beside::Nothing));
    script.put(1, &differing);
    (0..3).for_each(|_| script.tick());
    script
}
