//! A plain node with threads, as the author of a rival would write it for speed: a receiver for each of sixteen sources in memory, one lock, an
//! aligner and a sender. A receiver reads and checks its frame before it asks for the lock, and holds it while the words go into the row. The aligner
//! copies the frames that are due out of the node, and hands them to the sender without the lock, in buffers that come back.
//!
//! `threads INSTANTS` prints how long a datagram took. It is paced as `crates/bench_running` is.

// (of each module a part is used here)
#![allow(dead_code)]

mod absent;
mod alignment;
mod answers;
mod blocks;
mod check;
mod cores;
mod few;
mod grid;
mod images;
mod moving;
mod order;
mod plain;
mod publishing;
mod ring;
mod script;
mod words;

use alignment::{Plan, WaitKind};
use check::ByShifts;
use cores::{Node, Pmu, Settings};
use plain::{Frame, Kind, VERSION, read_frame, write_frame};
use publishing::Output;
use ring::COLUMNS;
use script::Core;
use std::sync::atomic::{AtomicU64, Ordering};
use std::sync::mpsc::{Receiver, Sender, channel};
use std::sync::{Mutex, MutexGuard, PoisonError};
use std::thread;
use std::time::{Duration, Instant};

const PMUS: usize = 16;
const FIRST_STREAM: u16 = 11;
const RATE: u32 = 50;
const TIME_BASE: u32 = 1_000_000;
const FLOOR: u64 = 57_478_860_000;

/// How many instants a source may be ahead of the last one that was published.
const AHEAD: u64 = 100;

/// How long a source sleeps that is as far ahead: as a receiver sleeps that waits for a datagram. A hundred instants take longer.
const NAP: Duration = Duration::from_micros(200);

/// How often a thread that finds the lock held lets another one run, before it waits for it: with more threads than cores that is faster than
/// to sleep and be woken.
const TURNS: usize = 8;

/// The size of a receiver's buffer.
const MAX_SIZE: usize = 65535;

/// All counts may be adopted.
const CLEARED: [u16; COLUMNS] = [u16::MAX; COLUMNS];

/// The payload of a configuration: TIME_BASE, one PMU with one phasor, its IDCODE at 22, count 1, 50 frames a second.
const CONFIG: [u8; 58] = *b"\x00\x0F\x42\x40\x00\x01PMU             \x00\x0B\x00\x00\x00\x01\x00\x00\x00\x00VA              \x00\x01\x86\xA0\x00\x01\x00\x01\x00\x32";
const SOURCE_AT: usize = 22;

fn settings() -> Settings {
    Settings {
        output: Output {
            id: 201,
            rate: RATE,
            time_base: TIME_BASE,
        },
        plan: Plan {
            wait: 1000,
            wait_kind: WaitKind::Absolute,
            window: 256,
            ahead: 1000,
            columns: PMUS,
        },
        pmus: (FIRST_STREAM..)
            .take(PMUS)
            .map(|id| Pmu {
                stream: id,
                source: id,
                time_base: TIME_BASE,
            })
            .collect(),
    }
}

fn frame_of(kind: Kind, id: u16, instant: u64, payload: &[u8]) -> Vec<u8> {
    let rate = u64::from(RATE);
    let frame = Frame {
        kind,
        version: VERSION,
        id,
        soc: (instant / rate) as u32,
        quality: 0,
        frac: (instant % rate) as u32 * (TIME_BASE / RATE),
        payload,
    };
    let mut bytes = Vec::new();
    write_frame::<ByShifts>(&frame, &mut bytes);
    bytes
}

/// The frames of a PMU: its configuration, and then its data for each instant above the floor.
fn frames_of(id: u16, count: u64) -> Vec<Vec<u8>> {
    let mut payload = CONFIG;
    payload[SOURCE_AT..SOURCE_AT + 2].copy_from_slice(&id.to_be_bytes());
    let config = frame_of(Kind::Cfg2, id, FLOOR, &payload);
    let data = (1..=count).map(|number| {
        // STAT, a phasor that counts, FREQ and DFREQ.
        let mut words = [0; 10];
        words[2..4].copy_from_slice(&((number % 32768) as u16).to_be_bytes());
        frame_of(Kind::Data, id, FLOOR + number, &words)
    });
    std::iter::once(config).chain(data).collect()
}

/// A counter that has a line of the processor's cache for itself.
#[derive(Default)]
#[repr(align(64))]
struct Counter(AtomicU64);

/// What the threads share.
struct Shared {
    node: Mutex<Node<ByShifts>>,
    /// How many frames of each source were taken.
    delivered: [Counter; PMUS],
    /// Up to which number the frames may be given.
    released: Counter,
}

impl Shared {
    fn with_node<T>(&self, work: impl FnOnce(&mut Node<ByShifts>) -> T) -> T {
        work(&mut self.locked())
    }

    fn locked(&self) -> MutexGuard<'_, Node<ByShifts>> {
        if let Ok(node) = self.node.try_lock() {
            return node;
        }
        for _ in 0..TURNS {
            thread::yield_now();
            if let Ok(node) = self.node.try_lock() {
                return node;
            }
        }
        self.node.lock().unwrap_or_else(PoisonError::into_inner)
    }

    /// Takes the frames of a source, each as soon as it is released, as a datagram that comes into a buffer.
    fn receive(&self, stream: usize, frames: &[Vec<u8>]) {
        let mut buffer = vec![0; MAX_SIZE];
        for (number, frame) in frames.iter().enumerate() {
            while number as u64 > self.released.0.load(Ordering::Acquire) {
                thread::sleep(NAP);
            }
            let bytes = &mut buffer[..frame.len()];
            bytes.copy_from_slice(frame);
            let read = read_frame::<ByShifts>(bytes);
            self.with_node(|node| node.put_read(stream, read));
            self.delivered[stream]
                .0
                .store(number as u64 + 1, Ordering::Release);
        }
    }

    /// How many frames each source has delivered at least.
    fn least(&self) -> u64 {
        let delivered = self.delivered.iter();
        delivered
            .map(|count| count.0.load(Ordering::Acquire))
            .min()
            .unwrap_or(0)
    }

    /// Ticks whenever each source has delivered more, and hands on the frames that close.
    fn align(&self, count: u64, out: &Sender<Vec<u8>>, back: &Receiver<Vec<u8>>) {
        let mut done = 0;
        let mut due = Vec::new();
        while done <= count {
            // The first tick adopts the configurations; only then the data are released.
            if done > 0 {
                self.released.0.store(done + AHEAD, Ordering::Release);
            }
            let least = loop {
                match self.least() {
                    least if least > done => break least,
                    _ => thread::yield_now(),
                }
            };
            done = least;
            self.with_node(|node| {
                let ticked = node.tick(FLOOR + done - 1, &CLEARED);
                for _ in 0..ticked.closed {
                    if let Some(frame) = node.publish() {
                        let mut bytes: Vec<u8> = back.try_recv().unwrap_or_default();
                        bytes.clear();
                        bytes.extend_from_slice(frame);
                        due.push(bytes);
                    }
                }
            });
            for frame in due.drain(..) {
                let _ = out.send(frame);
            }
        }
    }
}

/// Takes each frame and keeps none; answers how many there were.
fn send(frames: Receiver<Vec<u8>>, back: Sender<Vec<u8>>) -> u64 {
    let mut sent = 0;
    for frame in frames {
        sent += 1;
        let _ = back.send(frame);
    }
    sent
}

fn main() {
    let count = std::env::args().nth(1);
    let count = count.and_then(|word| word.parse().ok()).unwrap_or(20_000);
    let sources: Vec<_> = (FIRST_STREAM..)
        .take(PMUS)
        .map(|id| frames_of(id, count))
        .collect();
    let shared = Shared {
        node: Mutex::new(Node::open(&settings(), 1, FLOOR)),
        delivered: Default::default(),
        released: Counter::default(),
    };
    let (out, frames) = channel();
    let (back, buffers) = channel();
    let begun = Instant::now();
    let sent = thread::scope(|scope| {
        let shared = &shared;
        for (stream, frames) in sources.iter().enumerate() {
            scope.spawn(move || shared.receive(stream, frames));
        }
        let sender = scope.spawn(move || send(frames, back));
        shared.align(count, &out, &buffers);
        drop(out);
        sender.join().unwrap_or(0)
    });
    let taken = begun.elapsed().as_nanos();
    let counts = shared.with_node(|node| node.counts().taken);
    println!("taken={counts} published={sent}");
    let datagrams = u128::from(counts.max(1));
    println!(
        "plain, side by side: {} ns a datagram, {} thousand a second",
        taken / datagrams,
        datagrams * 1_000_000 / taken.max(1)
    );
}
