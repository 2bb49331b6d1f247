//! What PMUs and nodes send: frames, and the scripts of runs.

use crate::check::{ByTables, CheckWord};
use crate::merging::own_section;
use crate::plain::{Kind, Shape, VERSION, header};
use crate::publishing::{OWN_BLOCK_LEN, put_absent};
use crate::script::Script;

pub const TIME_BASE: u32 = 1_000_000;

/// The greatest TIME_BASE. A frame lies at no whole number of its counts.
const OTHER_TIME_BASE: u32 = 16_777_215;

pub const RATE: u32 = 50;

/// The second of the first instants.
pub const SOC: u32 = 0x4485_27F0;

/// All up to this instant is published before a run.
pub const FLOOR: u64 = SOC as u64 * RATE as u64;

pub const PMUS: usize = 16;

/// The nodes that the merger takes.
pub const NODES: [u16; 2] = [201, 202];

/// What a run has beside the happy path.
#[derive(Clone, Copy, PartialEq, Eq)]
pub enum Beside {
    Nothing,
    /// One datagram in ten is damaged on its way.
    Refused,
    /// One datagram in twenty comes twice.
    Twice,
    /// One PMU in four is absent.
    Absent,
    /// The second node is a tick late.
    Late,
    /// The frame of the second node comes first.
    SecondFirst,
    /// One block in four of the second node differs from that of the first, in its last byte.
    Differ,
    /// What comes has another TIME_BASE than what goes out.
    OtherBase,
}

impl Beside {
    /// The TIME_BASE of what comes.
    pub fn time_base(self) -> u32 {
        if self == Beside::OtherBase {
            OTHER_TIME_BASE
        } else {
            TIME_BASE
        }
    }
}

fn frame(kind: Kind, id: u16, soc: u32, frac: u32, payload: &[u8]) -> Vec<u8> {
    let mut bytes = header(kind, VERSION, id, soc, frac, payload.len()).to_vec();
    bytes.extend_from_slice(payload);
    sealed(bytes)
}

/// The bytes, with their check word behind them.
pub fn sealed(mut bytes: Vec<u8>) -> Vec<u8> {
    let check = ByTables::of(&bytes);
    bytes.extend_from_slice(&check.to_be_bytes());
    bytes
}

/// The section of a PMU.
fn section(shape: Shape, source: u16, count: u16) -> Vec<u8> {
    let (p, a, d) = (
        usize::from(shape.phasors),
        usize::from(shape.analogs),
        usize::from(shape.digitals),
    );
    let mut section = b"PMU 11          ".to_vec();
    for word in [source, 0, p as u16, a as u16, d as u16] {
        section.extend_from_slice(&word.to_be_bytes());
    }
    section.extend(std::iter::repeat_n(b' ', 16 * (p + a + 16 * d)));
    section.extend(std::iter::repeat_n(1, 4 * (p + a + d)));
    section.extend_from_slice(&[0, 1]);
    section.extend_from_slice(&count.to_be_bytes());
    section
}

/// A CFG-2 frame of these sections.
fn configuration(id: u16, time_base: u32, sections: &[Vec<u8>]) -> Vec<u8> {
    let mut payload = time_base.to_be_bytes().to_vec();
    payload.extend_from_slice(&(sections.len() as u16).to_be_bytes());
    payload.extend(sections.concat());
    payload.extend_from_slice(&(RATE as u16).to_be_bytes());
    frame(Kind::Cfg2, id, SOC, 0, &payload)
}

/// The configuration of a PMU.
pub fn pmu_configuration(shape: Shape, id: u16, count: u16, beside: Beside) -> Vec<u8> {
    configuration(id, beside.time_base(), &[section(shape, id, count)])
}

/// The layout of a node of 16 PMUs with this change number. The first PMU has its second configuration from the second change on.
pub fn node_layout(shapes: &[Shape], id: u16, change: u32, beside: Beside) -> Vec<u8> {
    let pmus = (1..).zip(shapes).map(|(source, shape)| {
        section(*shape, source, if source == 1 { change as u16 } else { 1 })
    });
    let sections: Vec<_> = std::iter::once(own_section(id, 1, (1, change)))
        .chain(pmus)
        .collect();
    configuration(id, beside.time_base(), &sections)
}

/// The bytes of a block at an instant.
fn block(shape: Shape, instant: u32, source: u32) -> Vec<u8> {
    (0..2 * shape.word_count() as u32)
        .map(|i| (i * 37 + instant * 11 + source) as u8)
        .collect()
}

/// A data frame of this instant behind the floor, with the count nearest to it.
fn data(id: u16, instant: u32, payload: &[u8], beside: Beside) -> Vec<u8> {
    let (slot, base) = (u64::from(instant % RATE), u64::from(beside.time_base()));
    let rate = u64::from(RATE);
    frame(
        Kind::Data,
        id,
        SOC + instant / RATE,
        ((2 * slot * base + rate) / (2 * rate)) as u32,
        payload,
    )
}

pub fn pmu_data(shape: Shape, id: u16, instant: u32, beside: Beside) -> Vec<u8> {
    let block = block(shape, instant, u32::from(id));
    data(id, instant, &block, beside)
}

/// The data frame of a node of 16 PMUs under its layout with this change number; with absent PMUs, one in four is so, and with blocks that
/// differ, one in four of the second node has another last byte.
pub fn node_data(shapes: &[Shape], id: u16, instant: u32, change: u32, beside: Beside) -> Vec<u8> {
    let mut payload = vec![0; OWN_BLOCK_LEN];
    payload[6..10].copy_from_slice(&1_u32.to_be_bytes());
    payload[10..].copy_from_slice(&change.to_be_bytes());
    for (number, shape) in shapes.iter().enumerate() {
        let mut bytes = block(*shape, instant, number as u32);
        if beside == Beside::Absent && is_fourth(number) {
            put_absent(&mut bytes, *shape);
        }
        if beside == Beside::Differ && is_fourth(number) && id == NODES[1] {
            *bytes.last_mut().expect("a block has words") ^= 1;
        }
        payload.extend(bytes);
    }
    data(id, instant, &payload, beside)
}

fn is_fourth(pmu: usize) -> bool {
    pmu % 4 == 3
}

/// The datagram as it comes when it is damaged, in one of five ways: a bit is wrong; the id, the time tag or the length is; it is old.
fn damaged(datagram: &[u8], number: u32) -> Vec<u8> {
    let mut bytes = datagram[..datagram.len() - 2].to_vec();
    match number / 20 % 5 {
        0 => {
            let mut bytes = datagram.to_vec();
            bytes[15] ^= 4;
            return bytes;
        }
        1 => bytes[4] ^= 1,
        2 => bytes[11..14].fill(0xFF),
        3 => {
            bytes.truncate(bytes.len() - 2);
            let len = bytes.len() as u16 + 2;
            bytes[2..4].copy_from_slice(&len.to_be_bytes());
        }
        _ => bytes[6..10].copy_from_slice(&(SOC - 1).to_be_bytes()),
    }
    sealed(bytes)
}

/// Sends datagrams, some of them not as they should come.
struct Sender {
    script: Script,
    beside: Beside,
    sent: u32,
}

impl Sender {
    fn send(&mut self, stream: usize, datagram: &[u8]) {
        self.sent += 1;
        match (self.beside, self.sent % 20, self.sent % 40) {
            (Beside::Refused, 0 | 9, _) => self.script.put(stream, &damaged(datagram, self.sent)),
            (Beside::Twice, _, 0 | 19) => {
                self.script.put(stream, datagram);
                self.script.put(stream, datagram);
            }
            _ => self.script.put(stream, datagram),
        }
    }
}

/// How a run begins, and all of it.
pub struct Run {
    pub opening: Script,
    pub whole: Script,
}

impl Run {
    /// The datagrams that are measured.
    pub fn datagrams(&self) -> u32 {
        self.whole.datagrams - self.opening.datagrams
    }
}

/// A run of a node of 16 PMUs: their configurations, and for each instant a datagram of each and a tick. In the middle, while an instant
/// waits for the last PMU, the first one sends a new configuration, which is adopted.
pub fn node_run(shapes: &[Shape], instants: u32, beside: Beside) -> Run {
    let mut opening = Script::default();
    for (stream, (id, shape)) in (1..).zip(shapes).enumerate() {
        opening.put(stream, &pmu_configuration(*shape, id, 1, beside));
    }
    opening.tick();
    let mut sender = Sender {
        script: opening.clone(),
        beside,
        sent: 0,
    };
    let last = shapes.len() - 1;
    for instant in 1..=instants {
        let is_middle = instant == instants / 2;
        for (stream, (id, shape)) in (1..).zip(shapes).enumerate() {
            let is_left_out =
                beside == Beside::Absent && is_fourth(stream) || is_middle && stream == last;
            if !is_left_out {
                sender.send(stream, &pmu_data(*shape, id, instant, beside));
            }
        }
        if is_middle {
            sender
                .script
                .put(0, &pmu_configuration(shapes[0], 1, 2, beside));
        }
        sender.script.tick();
        if is_middle && beside != Beside::Absent {
            let late = pmu_data(shapes[last], last as u16 + 1, instant, beside);
            sender.send(last, &late);
        }
    }
    Run {
        opening,
        whole: sender.script,
    }
}

/// A run of the merger of two nodes of 16 PMUs: their layouts, and for each instant a data frame of each and a tick. In the middle, while an
/// instant waits for the second node, both send a new layout, and a column is adopted.
pub fn merger_run(shapes: &[Shape], instants: u32, beside: Beside) -> Run {
    let mut opening = Script::default();
    for (stream, id) in NODES.into_iter().enumerate() {
        opening.put(stream, &node_layout(shapes, id, 1, beside));
    }
    opening.tick();
    let mut sender = Sender {
        script: opening.clone(),
        beside,
        sent: 0,
    };
    let middle = instants / 2;
    for instant in 1..=instants {
        let changes = |instant| if instant < middle { 1 } else { 2 };
        let first = node_data(
            shapes,
            NODES[0],
            instant,
            if instant <= middle { 1 } else { 2 },
            beside,
        );
        let second = |instant| node_data(shapes, NODES[1], instant, changes(instant), beside);
        let is_second_first = beside == Beside::SecondFirst && instant != middle;
        if !is_second_first {
            sender.send(0, &first);
        }
        match beside {
            Beside::Late if instant > 1 => sender.send(1, &second(instant - 1)),
            Beside::Late => {}
            _ if instant != middle => sender.send(1, &second(instant)),
            _ => {}
        }
        if is_second_first {
            sender.send(0, &first);
        }
        if instant == middle {
            for (stream, id) in NODES.into_iter().enumerate() {
                let layout = node_layout(shapes, id, 2, beside);
                sender.script.put(stream, &layout);
            }
        }
        sender.script.tick();
        if instant == middle && beside != Beside::Late {
            sender.send(1, &second(instant));
        }
    }
    Run {
        opening,
        whole: sender.script,
    }
}
