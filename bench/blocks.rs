//! Blocks of data: their words kept, or read where they lie.

use crate::answers::Refusal;
use crate::few::Few;
use crate::plain::Shape;
use crate::words::read_words;

/// The most words of a block.
pub const MAX_WORDS: usize = 107;

/// A block whose words are kept.
#[derive(Clone, Copy)]
pub struct Block {
    pub shape: Shape,
    words: [u16; MAX_WORDS],
}

impl Default for Block {
    fn default() -> Self {
        Block {
            shape: Shape::default(),
            words: [0; MAX_WORDS],
        }
    }
}

impl Block {
    pub fn words(&self) -> &[u16] {
        &self.words[..self.shape.word_count()]
    }

    /// Writes these words over what was there.
    #[inline]
    pub fn set(&mut self, shape: Shape, from: &[u16]) {
        self.shape = shape;
        self.words[..shape.word_count()].copy_from_slice(from);
    }

    /// Writes the words of the body over what was there.
    #[inline]
    pub fn set_body(&mut self, body: Body) {
        self.shape = body.shape;
        read_words(body.bytes, &mut self.words[..body.shape.word_count()]);
    }

    /// Writes the absent block over what was there.
    pub fn set_absent(&mut self, shape: Shape) {
        self.shape = shape;
        let words = &mut self.words[..shape.word_count()];
        let (values, digitals) = words.split_at_mut(words.len() - usize::from(shape.digitals));
        values.fill(0x8000);
        values[0] = 0xA1F0;
        digitals.fill(0);
    }

    pub fn is_absent(&self) -> bool {
        let words = self.words();
        let (values, digitals) = words.split_at(words.len() - usize::from(self.shape.digitals));
        values[0] == 0xA1F0
            && values[1..].iter().all(|word| *word == 0x8000)
            && digitals.iter().all(|word| *word == 0)
    }

    pub fn holds(&self, body: Body) -> bool {
        self.shape == body.shape && self.words().iter().copied().eq(body.words())
    }

    pub fn agrees(&self, other: &Block) -> bool {
        self.shape == other.shape && self.words() == other.words()
    }
}

/// A block as it lies in a payload: its words are read where they are.
#[derive(Clone, Copy)]
pub struct Body<'a> {
    pub shape: Shape,
    bytes: &'a [u8],
}

impl<'a> Body<'a> {
    /// The block of this shape that the bytes are.
    pub fn new(shape: Shape, bytes: &'a [u8]) -> Result<Body<'a>, Refusal> {
        if bytes.len() != 2 * shape.word_count() {
            return Err(Refusal::WrongLength);
        }
        Ok(Body { shape, bytes })
    }

    pub fn words(self) -> impl Iterator<Item = u16> + 'a {
        self.bytes
            .chunks_exact(2)
            .map(|pair| u16::from_be_bytes([pair[0], pair[1]]))
    }
}

/// The blocks of these shapes that a payload is.
pub fn cut(shapes: &[Shape], payload: &[u8]) -> Result<Few<Block, 17>, Refusal> {
    let mut blocks = Few::<Block, 17>::new();
    let mut rest = payload;
    for shape in shapes {
        let (bytes, later) = rest
            .split_at_checked(2 * shape.word_count())
            .ok_or(Refusal::WrongLength)?;
        blocks.next().set_body(Body::new(*shape, bytes)?);
        rest = later;
    }
    if rest.is_empty() {
        Ok(blocks)
    } else {
        Err(Refusal::WrongLength)
    }
}

/// Appends the words of the blocks.
pub fn join(blocks: &[Block], out: &mut Vec<u8>) {
    for block in blocks {
        out.extend(block.words().iter().flat_map(|word| word.to_be_bytes()));
    }
}
