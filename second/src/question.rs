//! Questions and answers as PROTOCOL.md writes them.

use crate::block::{Sides, BLOCK};
use crate::pair::{Way, MOST_VARIABLES};
use crate::solved::USUAL_COUNT;
use crate::values::LONGEST_VALUE;
use std::io::{self, Read};

const HEADER: usize = 20;
/// The numbers of an answer after its first byte.
pub const FIGURES: usize = 6;
const KEY_BYTES: usize = 4;
/// How much higher the numbers of Rows, Page and Values are in matching, and with an identity.
const MATCHING: u8 = 4;
const IDENTITY: u8 = 8;

/// What is asked.
#[derive(Clone, Copy, Debug, PartialEq, Eq)]
pub enum Ask {
    Read { expected: u16 },
    Rows { way: Way },
    Page { way: Way, after: Option<u32>, wanted: u32 },
    Values { way: Way, key: u32 },
    Write { number: u16 },
    Count,
}

impl Ask {
    /// The count that a page wants: 200 for 0, and nothing for the other questions.
    pub fn wanted(self) -> usize {
        match self {
            Ask::Page { wanted: 0, .. } => USUAL_COUNT as usize,
            Ask::Page { wanted, .. } => wanted as usize,
            _ => 0,
        }
    }

    /// The number of the question in the protocol: in matching and with an identity it is higher.
    fn kind(self) -> u8 {
        match self {
            Ask::Read { .. } => 1,
            Ask::Rows { way } => in_the_way(2, way),
            Ask::Page { way, .. } => in_the_way(3, way),
            Ask::Values { way, .. } => in_the_way(4, way),
            Ask::Write { .. } => 5,
            Ask::Count => 9,
        }
    }

    /// The shortest lent buffer that is long enough, in bytes or, for a page, in numbers; Count is lent none.
    pub fn least_buffer(self) -> usize {
        match self {
            Ask::Read { .. } => 64,
            Ask::Rows { .. } => 480,
            Ask::Page { .. } => self.wanted(),
            Ask::Values { .. } => MOST_VARIABLES * (2 + LONGEST_VALUE),
            Ask::Write { .. } => BLOCK,
            Ask::Count => 0,
        }
    }
}

/// A question with the buffers that are lent to it. For Read the left side is the block and the right one is
/// empty.
#[derive(Clone, Debug, PartialEq, Eq)]
pub struct Question {
    pub ask: Ask,
    pub sides: Sides,
    pub fill: u8,
    pub first_buffer: u16,
    pub second_buffer: u16,
}

impl Question {
    /// The length of the first buffer in bytes.
    pub fn first_bytes(&self) -> usize {
        let length = usize::from(self.first_buffer);
        match self.ask {
            Ask::Page { .. } => length * KEY_BYTES,
            _ => length,
        }
    }

    /// The question as the protocol writes it.
    pub fn to_bytes(&self) -> Vec<u8> {
        let (number, after, wanted) = match self.ask {
            Ask::Read { expected: number } | Ask::Write { number } => (u32::from(number), 0, 0),
            Ask::Rows { .. } | Ask::Count => (0, 0, 0),
            Ask::Page { after, wanted, .. } => (after.unwrap_or(0), u8::from(after.is_some()), wanted),
            Ask::Values { key, .. } => (key, 0, 0),
        };
        let mut bytes = vec![self.ask.kind(), self.fill];
        bytes.extend((self.sides.left.len() as u16).to_be_bytes());
        bytes.extend((self.sides.right.len() as u16).to_be_bytes());
        bytes.extend(number.to_be_bytes());
        bytes.push(after);
        bytes.extend(wanted.to_be_bytes());
        bytes.push(0);
        bytes.extend(self.first_buffer.to_be_bytes());
        bytes.extend(self.second_buffer.to_be_bytes());
        bytes.extend(&self.sides.left);
        bytes.extend(&self.sides.right);
        bytes
    }

    /// The next question of an input, or none at its end.
    pub fn read(input: &mut impl Read) -> io::Result<Option<Question>> {
        let mut header = Vec::with_capacity(HEADER);
        input.by_ref().take(HEADER as u64).read_to_end(&mut header)?;
        if header.is_empty() {
            return Ok(None);
        }
        if header.len() < HEADER {
            return Err(io::ErrorKind::UnexpectedEof.into());
        }
        let left = read_bytes(input, usize::from(short(&header, 2)))?;
        let right = read_bytes(input, usize::from(short(&header, 4)))?;
        Ok(Some(Question {
            ask: ask(&header)?,
            sides: Sides { left, right },
            fill: header[1],
            first_buffer: short(&header, 16),
            second_buffer: short(&header, 18),
        }))
    }
}

/// The number of a question that may be asked in every way.
fn in_the_way(kind: u8, way: Way) -> u8 {
    match way {
        Way::Unifying => kind,
        Way::Matching => kind + MATCHING,
        Way::Identity => kind + IDENTITY,
    }
}

/// What a header asks.
fn ask(header: &[u8]) -> io::Result<Ask> {
    let number = long(header, 6);
    let way = match header[0] {
        6..=8 => Way::Matching,
        10..=12 => Way::Identity,
        _ => Way::Unifying,
    };
    match header[0] {
        1 => Ok(Ask::Read { expected: short(header, 8) }),
        2 | 6 | 10 => Ok(Ask::Rows { way }),
        3 | 7 | 11 => {
            let after = if header[10] == 0 { None } else { Some(number) };
            Ok(Ask::Page { way, after, wanted: long(header, 11) })
        }
        4 | 8 | 12 => Ok(Ask::Values { way, key: number }),
        5 => Ok(Ask::Write { number: short(header, 8) }),
        9 => Ok(Ask::Count),
        _ => Err(io::Error::new(io::ErrorKind::InvalidData, "there are twelve questions, 1 to 12")),
    }
}

/// The number of two bytes at a place, high byte first.
fn short(bytes: &[u8], place: usize) -> u16 {
    u16::from_be_bytes([bytes[place], bytes[place + 1]])
}

/// The number of four bytes at a place, high byte first.
fn long(bytes: &[u8], place: usize) -> u32 {
    u32::from_be_bytes([bytes[place], bytes[place + 1], bytes[place + 2], bytes[place + 3]])
}

/// So many bytes of an input, or an error if it ends before.
fn read_bytes(input: &mut impl Read, length: usize) -> io::Result<Vec<u8>> {
    let mut bytes = vec![0; length];
    input.read_exact(&mut bytes)?;
    Ok(bytes)
}

/// An answer: 0 or the refusal's number, the returned numbers, and both buffers after the call as bytes.
#[derive(Clone, Debug, PartialEq, Eq)]
pub struct Answer {
    pub number: u8,
    pub figures: [u32; FIGURES],
    pub first: Vec<u8>,
    pub second: Vec<u8>,
}

impl Answer {
    /// The answer as the protocol writes it.
    pub fn to_bytes(&self) -> Vec<u8> {
        let mut bytes = vec![self.number];
        for figure in self.figures {
            bytes.extend(figure.to_be_bytes());
        }
        bytes.extend(&self.first);
        bytes.extend(&self.second);
        bytes
    }

    /// The next answer of an input, whose length the question sets.
    pub fn read(input: &mut impl Read, question: &Question) -> io::Result<Answer> {
        let head = read_bytes(input, 1 + FIGURES * KEY_BYTES)?;
        let first = read_bytes(input, question.first_bytes())?;
        let second = read_bytes(input, usize::from(question.second_buffer))?;
        let figures = std::array::from_fn(|place| long(&head, 1 + place * KEY_BYTES));
        Ok(Answer { number: head[0], figures, first, second })
    }
}
