//! What a concentrator is handed, step by step, and the plain run over it; ours is `dagluwis_node` and `dagluwis_merger`.

use crate::alignment::Ticked;
use crate::answers::Counts;
use crate::ring::COLUMNS;

/// Steps of three bytes: a stream and the length of its datagram, or a tick; and the datagrams, one behind the other.
#[derive(Clone, Default)]
pub struct Script {
    pub steps: Vec<u8>,
    pub data: Vec<u8>,
    pub datagrams: u32,
}

/// The stream of a step that is a tick.
const TICK: u8 = u8::MAX;

impl Script {
    pub fn put(&mut self, stream: usize, datagram: &[u8]) {
        let [high, low] = (datagram.len() as u16).to_be_bytes();
        self.steps.extend_from_slice(&[stream as u8, high, low]);
        self.data.extend_from_slice(datagram);
        self.datagrams += 1;
    }

    pub fn tick(&mut self) {
        self.steps.extend_from_slice(&[TICK, 0, 0]);
    }
}

/// A plain concentrator.
pub trait Core {
    fn put_datagram(&mut self, stream: usize, bytes: &[u8]);
    fn tick(&mut self, now: u64, cleared: &[u16; COLUMNS]) -> Ticked;
    /// Publishes the lowest row that closed: its frame, if there was one.
    fn publish(&mut self) -> Option<&[u8]>;
    fn counts(&self) -> &Counts;
    fn waiting(&self) -> [u16; COLUMNS];
    fn disagree(&self) -> u64;
}

/// All counts may be adopted.
const CLEARED: [u16; COLUMNS] = [u16::MAX; COLUMNS];

fn mix(mixed: u64, number: u64) -> u64 {
    mixed.rotate_left(8) ^ number
}

/// Hands the steps to a concentrator: the first tick is at the floor, and each later one an instant on. Publishes what closes; mixes what
/// ticks say, the check words of the frames, and in the end all counters.
#[inline(always)]
pub fn run(mut core: impl Core, script: &Script, floor: u64) -> u64 {
    let mut mixed = 0;
    let mut now = floor;
    let mut rest = script.data.as_slice();
    for step in script.steps.chunks_exact(3) {
        let (datagram, later) = rest.split_at(usize::from(u16::from_be_bytes([step[1], step[2]])));
        rest = later;
        if step[0] == TICK {
            mixed = tick(&mut core, now, mixed);
            now += 1;
        } else {
            core.put_datagram(usize::from(step[0]), datagram);
        }
    }
    mix_counts(&core, mixed)
}

#[inline(always)]
fn tick(core: &mut impl Core, now: u64, mixed: u64) -> u64 {
    let Ticked {
        closed,
        change,
        used_up,
    } = core.tick(now, &CLEARED);
    let mut mixed = mix(mixed, u64::from(closed));
    if let Some(change) = change {
        mixed = mix(mixed, u64::from(change));
    }
    if used_up {
        mixed = mix(mixed, 1);
    }
    for _ in 0..closed {
        if let Some(&[.., high, low]) = core.publish() {
            mixed = mix(mix(mixed, u64::from(high)), u64::from(low));
        }
    }
    mixed
}

#[inline(never)]
fn mix_counts(core: &impl Core, mixed: u64) -> u64 {
    let counts = core.counts();
    let answers = [counts.taken, counts.candidate, counts.known, counts.refused];
    let waiting = core.waiting().map(u64::from);
    let numbers = answers.into_iter().chain(counts.causes).chain(waiting);
    numbers.chain([core.disagree()]).fold(mixed, mix)
}
