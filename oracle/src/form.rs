//! The pieces of a listing's lines: words, numbers, operands and entries, read strictly and written back.

use crate::value_layout::{CompositeKind, ScalarKind};

/// What is left of a listing. Nothing of it is copied: words are slices of the listing's bytes.
#[derive(Clone, Copy)]
pub struct Cursor<'a> {
    rest: &'a [u8],
    /// Whether an op may name kind 5: the first line says so for the lines after it.
    pub has_floats: bool,
}

impl<'a> Cursor<'a> {
    pub fn new(bytes: &'a [u8]) -> Cursor<'a> {
        Cursor { rest: bytes, has_floats: true }
    }

    pub fn bytes_left(&self) -> usize {
        self.rest.len()
    }

    /// Whether this byte comes next.
    pub fn is_at(&self, byte: u8) -> bool {
        self.rest.first() == Some(&byte)
    }

    /// Takes exactly this text. Inlined, so that a literal is compared without a call.
    #[inline(always)]
    pub fn text(&mut self, text: &str) -> Option<()> {
        self.rest = self.rest.strip_prefix(text.as_bytes())?;
        Some(())
    }

    /// The letters that come next, as many as there are. They are not taken.
    pub fn word_ahead(&self) -> &'a [u8] {
        let length = self.rest.iter().take_while(|byte| byte.is_ascii_alphabetic()).count();
        &self.rest[..length]
    }

    /// Takes letters, as many as there are.
    pub fn word(&mut self) -> &'a [u8] {
        let (word, rest) = self.rest.split_at(self.word_ahead().len());
        self.rest = rest;
        word
    }

    /// Takes a space and a decimal number without leading zeros, at most `max`.
    pub fn number(&mut self, max: u32) -> Option<u32> {
        let [b' ', first @ b'0'..=b'9', rest @ ..] = self.rest else { return None };
        self.rest = rest;
        let mut value = u64::from(first - b'0');
        while let [digit @ b'0'..=b'9', rest @ ..] = self.rest {
            let is_zero_in_front = value == 0;
            value = value * 10 + u64::from(digit - b'0');
            if is_zero_in_front || value > u64::from(max) {
                return None;
            }
            self.rest = rest;
        }
        u32::try_from(value).ok().filter(|value| *value <= max)
    }
}

/// What stands in a line after its first word: read with the space before it, and so written.
pub trait Operand: Sized {
    fn read(cursor: &mut Cursor) -> Option<Self>;
    fn write(&self, out: &mut Vec<u8>);
}

/// What a line of its own says, between its first word and its bracket.
pub trait Entry: Operand {
    /// The bracket and the first word.
    const BEGIN: &'static str;
}

/// Writes a space and a number. Digit by digit, as it is read: what formats any value at all takes several times as long.
fn write_number(number: u32, out: &mut Vec<u8>) {
    let mut text = [b' '; " 4294967295".len()];
    let mut first = text.len();
    let mut left = number;
    loop {
        first -= 1;
        text[first] = b'0' + (left % 10) as u8;
        left /= 10;
        if left == 0 {
            break;
        }
    }
    out.extend_from_slice(&text[first - 1..]);
}

macro_rules! number_operands {
    ($($number:ty),+) => {$(
        impl Operand for $number {
            fn read(cursor: &mut Cursor) -> Option<Self> {
                Self::try_from(cursor.number(u32::from(Self::MAX))?).ok()
            }

            fn write(&self, out: &mut Vec<u8>) {
                write_number(u32::from(*self), out);
            }
        }
    )+};
}
number_operands!(u8, u16, u32);

/// K of an op, 0 to 7; not 5 where the listing has no floats.
impl Operand for ScalarKind {
    fn read(cursor: &mut Cursor) -> Option<Self> {
        let tag = u8::read(cursor)?;
        // The build without floats has no rule of its own here: what its `from_tag` does not know is no kind.
        #[cfg(feature = "floats")]
        if tag == crate::bytecode::FLOAT_TAG && !cursor.has_floats {
            return None;
        }
        ScalarKind::from_tag(tag)
    }

    fn write(&self, out: &mut Vec<u8>) {
        self.to_tag().write(out);
    }
}

/// KIND of an op, 0 to 3.
impl Operand for CompositeKind {
    fn read(cursor: &mut Cursor) -> Option<Self> {
        CompositeKind::from_tag(u8::read(cursor)?)
    }

    fn write(&self, out: &mut Vec<u8>) {
        self.to_tag().write(out);
    }
}
