//! Frames, configurations and blocks in plain, careful Rust: each test is made, each fault has its name, nothing is unsafe, and no
//! memory is taken while reading.

use crate::answers::Refusal;
use crate::check::CheckWord;
use crate::few::Few;

#[derive(Clone, Copy, Debug, PartialEq, Eq)]
pub enum Kind {
    Data,
    Header,
    Cfg1,
    Cfg2,
    Command,
    Cfg3,
}

#[derive(Clone, Copy)]
pub struct Frame<'a> {
    pub kind: Kind,
    pub version: u8,
    pub id: u16,
    pub soc: u32,
    pub quality: u8,
    pub frac: u32,
    pub payload: &'a [u8],
}

/// SYNC to FRACSEC.
const HEADER_LEN: usize = 14;

/// A frame without payload: header and check word.
const OVERHEAD: usize = HEADER_LEN + 2;

fn word(bytes: &[u8], place: usize) -> u16 {
    u16::from_be_bytes([bytes[place], bytes[place + 1]])
}

fn long(bytes: &[u8], place: usize) -> u32 {
    u32::from_be_bytes([
        bytes[place],
        bytes[place + 1],
        bytes[place + 2],
        bytes[place + 3],
    ])
}

/// Whether the check word is that of all before it, which is computed first: the end of a long frame, asked for before all that stands in
/// front of it, would be waited for. A call of its own, which leaves the merger more registers.
#[inline(never)]
pub fn is_checked<C: CheckWord>(bytes: &[u8]) -> bool {
    let (front, last) = bytes.split_at(bytes.len() - 2);
    let check = C::of(front);
    last == check.to_be_bytes()
}

/// The kind and the version of bytes that begin as a frame and are as many as they say.
#[inline(always)]
pub fn read_front(bytes: &[u8]) -> Result<(Kind, u8), Refusal> {
    if bytes.len() < OVERHEAD {
        return Err(Refusal::Short);
    }
    let kind = match bytes[1] >> 4 {
        0 => Kind::Data,
        1 => Kind::Header,
        2 => Kind::Cfg1,
        3 => Kind::Cfg2,
        4 => Kind::Command,
        5 => Kind::Cfg3,
        _ => return Err(Refusal::BadSync),
    };
    let version = bytes[1] & 0x0F;
    if bytes[0] != 0xAA || version == 0 || version > 2 {
        return Err(Refusal::BadSync);
    }
    if usize::from(word(bytes, 2)) != bytes.len() {
        return Err(Refusal::SizeMismatch);
    }
    Ok((kind, version))
}

#[inline(always)]
pub fn check_id(id: u16) -> Result<(), Refusal> {
    match id {
        0 | u16::MAX => Err(Refusal::BadId),
        _ => Ok(()),
    }
}

/// What stands in the places of the fields.
#[inline(always)]
pub fn fields(bytes: &[u8], kind: Kind, version: u8) -> Frame<'_> {
    let fracsec = long(bytes, 10);
    Frame {
        kind,
        version,
        id: word(bytes, 4),
        soc: long(bytes, 6),
        quality: (fracsec >> 24) as u8,
        frac: fracsec & 0x00FF_FFFF,
        payload: &bytes[HEADER_LEN..bytes.len() - 2],
    }
}

#[inline]
pub fn read_frame<C: CheckWord>(bytes: &[u8]) -> Result<Frame<'_>, Refusal> {
    let (kind, version) = read_front(bytes)?;
    if !is_checked::<C>(bytes) {
        return Err(Refusal::BadCheck);
    }
    let frame = fields(bytes, kind, version);
    check_id(frame.id)?;
    Ok(frame)
}

#[derive(Clone, Copy, Debug, Default, PartialEq, Eq)]
pub struct Shape {
    pub phasors: u8,
    pub analogs: u8,
    pub digitals: u8,
}

impl Shape {
    pub fn word_count(self) -> usize {
        3 + 2 * usize::from(self.phasors) + usize::from(self.analogs) + usize::from(self.digitals)
    }

    fn section_len(self) -> usize {
        let (p, a, d) = (
            usize::from(self.phasors),
            usize::from(self.analogs),
            usize::from(self.digitals),
        );
        30 + 16 * (p + a + 16 * d) + 4 * (p + a + d)
    }
}

#[derive(Clone, Copy, Default)]
pub struct Section<'a> {
    pub bytes: &'a [u8],
    pub shape: Shape,
    pub source: u16,
    pub count: u16,
}

pub struct Config<'a> {
    pub flags: u8,
    pub time_base: u32,
    pub sections: Few<Section<'a>, 17>,
    pub rate: i16,
}

fn read_section(bytes: &[u8]) -> Result<Section<'_>, Refusal> {
    if bytes.len() < 26 {
        return Err(Refusal::Cut);
    }
    let (phasors, analogs, digitals) = (word(bytes, 20), word(bytes, 22), word(bytes, 24));
    if phasors > 32 || analogs > 32 || digitals > 8 {
        return Err(Refusal::TooMany);
    }
    let shape = Shape {
        phasors: phasors as u8,
        analogs: analogs as u8,
        digitals: digitals as u8,
    };
    if (word(bytes, 18) >> 1) & 0b111 != 0 {
        return Err(Refusal::FloatFormat);
    }
    let len = shape.section_len();
    if bytes.len() < len {
        return Err(Refusal::Cut);
    }
    let section = &bytes[..len];
    Ok(Section {
        bytes: section,
        shape,
        source: word(section, 16),
        count: word(section, len - 2),
    })
}

pub fn read_config<'a>(frame: &Frame<'a>) -> Result<Config<'a>, Refusal> {
    if !matches!(frame.kind, Kind::Cfg1 | Kind::Cfg2) {
        return Err(Refusal::WrongKind);
    }
    let payload = frame.payload;
    if payload.len() < 8 {
        return Err(Refusal::Cut);
    }
    let count = word(payload, 4);
    if count == 0 || count > 17 {
        return Err(Refusal::TooMany);
    }
    let end = payload.len() - 2;
    let body = &payload[6..end];
    let mut sections = Few::new();
    let mut place = 0;
    for _ in 0..count {
        let section = read_section(&body[place..])?;
        place += section.bytes.len();
        sections.push(section);
    }
    if place < body.len() {
        return Err(Refusal::Cut);
    }
    let base = long(payload, 0);
    Ok(Config {
        flags: (base >> 24) as u8,
        time_base: base & 0x00FF_FFFF,
        sections,
        rate: word(payload, end) as i16,
    })
}

pub fn instant(soc: u32, frac: u32, time_base: u32, rate: u32) -> Option<u64> {
    if frac >= time_base {
        return None;
    }
    let (tag, base) = (u64::from(frac) * u64::from(rate), u64::from(time_base));
    let k = (2 * tag + base) / (2 * base);
    (tag.abs_diff(k * base) < u64::from(rate)).then(|| u64::from(soc) * u64::from(rate) + k)
}

/// The version of the standard of the frames that are made here.
pub const VERSION: u8 = 2;

/// SYNC to FRACSEC, for a payload of this length.
pub fn header(
    kind: Kind,
    version: u8,
    id: u16,
    soc: u32,
    fracsec: u32,
    payload_len: usize,
) -> [u8; HEADER_LEN] {
    let sync = 16 * kind as u8 + version;
    let [size_high, size_low] = ((payload_len + OVERHEAD) as u16).to_be_bytes();
    let [id_high, id_low] = id.to_be_bytes();
    let ([a, b, c, d], [e, f, g, h]) = (soc.to_be_bytes(), fracsec.to_be_bytes());
    [
        0xAA, sync, size_high, size_low, id_high, id_low, a, b, c, d, e, f, g, h,
    ]
}

/// Appends the check word of what stands from here on.
fn end<C: CheckWord>(start: usize, out: &mut Vec<u8>) {
    let check = C::of(&out[start..]);
    out.extend_from_slice(&check.to_be_bytes());
}

pub fn write_config<C: CheckWord>(config: &Config, id: u16, soc: u32, out: &mut Vec<u8>) {
    let start = out.len();
    let sections = config.sections.as_slice();
    let len = 8 + sections
        .iter()
        .map(|section| section.bytes.len())
        .sum::<usize>();
    out.reserve(len + OVERHEAD);
    out.extend_from_slice(&header(Kind::Cfg2, VERSION, id, soc, 0, len));
    out.extend_from_slice(&(u32::from(config.flags) << 24 | config.time_base).to_be_bytes());
    out.extend_from_slice(&(sections.len() as u16).to_be_bytes());
    for section in sections {
        out.extend_from_slice(section.bytes);
    }
    out.extend_from_slice(&config.rate.to_be_bytes());
    end::<C>(start, out);
}

pub fn write_frame<C: CheckWord>(frame: &Frame, out: &mut Vec<u8>) {
    let fracsec = u32::from(frame.quality) << 24 | frame.frac;
    let payload = frame.payload;
    let header = header(
        frame.kind,
        frame.version,
        frame.id,
        frame.soc,
        fracsec,
        payload.len(),
    );
    let number = header
        .iter()
        .fold(0, |number: u128, byte| number << 8 | u128::from(*byte));
    out.reserve(payload.len() + OVERHEAD);
    out.extend_from_slice(&header);
    out.extend_from_slice(payload);
    out.extend_from_slice(&C::behind(number, payload).to_be_bytes());
}
