//! Reading and writing of frames on the plain side, each call with a number that depends on all that it did.

use crate::blocks::{self, Body};
use crate::check::CheckWord;
use crate::plain::{self, Frame, Shape};

#[inline(never)]
pub fn check_word<C: CheckWord>(bytes: &[u8]) -> u16 {
    C::of(bytes)
}

/// Frames of one length that lie one behind the other.
#[derive(Clone, Copy)]
pub struct Frames<'a> {
    pub bytes: &'a [u8],
    pub len: usize,
}

impl Frames<'_> {
    /// Reads them from the first to the last, so many times, and mixes what each says. One frame alone, read again and again, a compiler
    /// might read once.
    #[inline]
    fn each(self, rounds: u32, said: impl Fn(&[u8]) -> u64) -> u64 {
        (0..rounds).fold(0, |mixed, _| {
            let frames = self.bytes.chunks(self.len);
            frames.fold(mixed, |mixed: u64, bytes| {
                mixed.rotate_left(1) ^ said(bytes)
            })
        })
    }
}

#[inline]
fn said_by_config<C: CheckWord>(bytes: &[u8]) -> u64 {
    let Ok(frame) = plain::read_frame::<C>(bytes) else {
        return 0;
    };
    let Ok(config) = plain::read_config(&frame) else {
        return 0;
    };
    let mut mixed = u64::from(config.time_base);
    for section in config.sections.as_slice() {
        mixed ^=
            u64::from(section.source) << 32 ^ u64::from(section.count) ^ section.bytes.len() as u64;
    }
    mixed
}

#[inline(never)]
pub fn read_configs<C: CheckWord>(frames: Frames, rounds: u32) -> u64 {
    frames.each(rounds, said_by_config::<C>)
}

#[inline]
fn said_by_data<C: CheckWord>(bytes: &[u8], shape: Shape, time_base: u32, rate: u32) -> u64 {
    let Ok(frame) = plain::read_frame::<C>(bytes) else {
        return 0;
    };
    let Ok(body) = Body::new(shape, frame.payload) else {
        return 0;
    };
    let Some(instant) = plain::instant(frame.soc, frame.frac, time_base, rate) else {
        return 0;
    };
    body.words()
        .fold(instant, |mixed, word| mixed ^ u64::from(word))
}

/// The time base and the rate come with the call, as they come from a configuration: with constants no division would be left.
#[inline(never)]
pub fn read_data<C: CheckWord>(
    frames: Frames,
    shape: Shape,
    time_base: u32,
    rate: u32,
    rounds: u32,
) -> u64 {
    frames.each(rounds, |bytes| {
        said_by_data::<C>(bytes, shape, time_base, rate)
    })
}

/// The number mixed with the last byte.
fn with_last(mixed: u64, out: &[u8]) -> u64 {
    mixed.rotate_left(1) ^ u64::from(*out.last().unwrap_or(&0))
}

#[inline(never)]
pub fn write_config<C: CheckWord>(bytes: &[u8], rounds: u32) -> u64 {
    let Ok(frame) = plain::read_frame::<C>(bytes) else {
        return 0;
    };
    let Ok(config) = plain::read_config(&frame) else {
        return 0;
    };
    let mut out = Vec::new();
    let mut mixed = 0;
    for soc in 0..rounds {
        out.clear();
        plain::write_config::<C>(&config, frame.id, soc, &mut out);
        mixed = with_last(mixed, &out);
    }
    mixed
}

#[inline(never)]
pub fn write_data<C: CheckWord>(bytes: &[u8], shape: Shape, rounds: u32) -> u64 {
    let Ok(frame) = plain::read_frame::<C>(bytes) else {
        return 0;
    };
    let Ok(blocks) = blocks::cut(&[shape], frame.payload) else {
        return 0;
    };
    let (mut payload, mut out) = (Vec::new(), Vec::new());
    let mut mixed = 0;
    for soc in 0..rounds {
        payload.clear();
        out.clear();
        blocks::join(blocks.as_slice(), &mut payload);
        plain::write_frame::<C>(
            &Frame {
                soc,
                payload: &payload,
                ..frame
            },
            &mut out,
        );
        mixed = with_last(mixed, &out);
    }
    mixed
}
