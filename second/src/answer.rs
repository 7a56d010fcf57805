//! The questions with their lent buffers (document 01, The questions; document 02, R-3, R-4, R-7, R-8 and R-10).

use crate::block::{self, Sides};
use crate::pair::Way;
use crate::question::{Answer, Ask, Question, FIGURES};
use crate::refusal::Refusal;
use crate::solved::Solved;
use crate::values::Value;

/// What a question gives when it is not refused: the returned numbers and what each buffer receives.
#[derive(Default)]
struct Given {
    figures: [u32; FIGURES],
    first: Vec<u8>,
    second: Vec<u8>,
}

/// The answer to a question, with pairs solved by the given means: refusal 16 first, buffers unchanged on a
/// refusal and after the written part.
pub fn answer(question: &Question, solve: impl Fn(Way, &Sides) -> Result<Solved, Refusal>) -> Answer {
    let (number, given) = match give(question, solve) {
        Ok(given) => (0, given),
        Err(refusal) => (refusal.number(), Given { figures: named(refusal), ..Given::default() }),
    };
    Answer {
        number,
        figures: given.figures,
        first: buffer(question.fill, question.first_bytes(), &given.first),
        second: buffer(question.fill, usize::from(question.second_buffer), &given.second),
    }
}

/// What is returned beside a refusal's number: the atom that it names, if any.
fn named(refusal: Refusal) -> [u32; FIGURES] {
    let mut figures = [0; FIGURES];
    figures[0] = refusal.atom().map_or(0, u32::from);
    figures
}

/// A buffer full of one byte, after the given bytes have been written to its beginning.
fn buffer(fill: u8, length: usize, written: &[u8]) -> Vec<u8> {
    let mut buffer = vec![fill; length];
    buffer[..written.len()].copy_from_slice(written);
    buffer
}

/// What a question gives, or its refusal.
fn give(
    question: &Question,
    solve: impl Fn(Way, &Sides) -> Result<Solved, Refusal>,
) -> Result<Given, Refusal> {
    if buffers_too_short(question) {
        return Err(Refusal::Buffer);
    }
    match question.ask {
        Ask::Read { expected } => block::read(&question.sides.left, expected).map(give_sides),
        Ask::Rows { way } => solve(way, &question.sides).map(|solved| give_rows(&solved)),
        Ask::Page { way, after, .. } => {
            give_page(&solve(way, &question.sides)?, after, question.ask.wanted())
        }
        Ask::Values { way, key } => {
            solve(way, &question.sides)?.values(key).map(|values| give_values(&values))
        }
        Ask::Write { number } => block::write(&question.sides, number).map(give_block),
        Ask::Count => solve(Way::Unifying, &question.sides).map(|solved| give_number(solved.list.number())),
    }
}

/// Whether a lent buffer is too short for its question.
fn buffers_too_short(question: &Question) -> bool {
    let least = question.ask.least_buffer();
    let second_too_short =
        matches!(question.ask, Ask::Read { .. }) && usize::from(question.second_buffer) < least;
    usize::from(question.first_buffer) < least || second_too_short
}

/// Read gives the lengths of the sides and the sides.
fn give_sides(sides: Sides) -> Given {
    let figures = [sides.left.len() as u32, sides.right.len() as u32, 0, 0, 0, 0];
    Given { figures, first: sides.left, second: sides.right }
}

/// Write gives the block.
fn give_block(block: Vec<u8>) -> Given {
    Given { first: block, ..Given::default() }
}

/// Count gives the number.
fn give_number(number: u64) -> Given {
    let [high, low] = in_halves(number);
    Given { figures: [high, low, 0, 0, 0, 0], ..Given::default() }
}

/// A number of 64 bits as two of 32, the high one first.
pub fn in_halves(number: u64) -> [u32; 2] {
    [(number >> 32) as u32, number as u32]
}

/// Rows gives the size of each group and the rows one after the other.
fn give_rows(solved: &Solved) -> Given {
    let groups = &solved.groups;
    let mut figures = [groups.balanced.len() as u32, groups.constants.len() as u32, 0, 0, 0, 0];
    for (figure, rows) in figures[2..].iter_mut().zip(&groups.constants) {
        *figure = rows.len() as u32;
    }
    let first = groups.balanced.iter().chain(groups.constants.iter().flatten()).flatten().copied().collect();
    Given { figures, first, ..Given::default() }
}

/// Page gives the number of keys, whether more follow, how many candidates were weighed, and the keys.
fn give_page(solved: &Solved, after: Option<u32>, wanted: usize) -> Result<Given, Refusal> {
    let page = solved.page(after, wanted)?;
    let [high, low] = in_halves(page.weighed);
    let figures = [page.keys.len() as u32, u32::from(page.more), high, low, 0, 0];
    let first = page.keys.iter().flat_map(|key| key.to_be_bytes()).collect();
    Ok(Given { figures, first, ..Given::default() })
}

/// Values gives the length and, for each variable, its byte, a byte count and the atoms.
fn give_values(values: &[Value]) -> Given {
    let mut first = Vec::new();
    for value in values {
        first.extend([value.variable, value.atoms.len() as u8]);
        first.extend(&value.atoms);
    }
    Given { figures: [first.len() as u32, 0, 0, 0, 0, 0], first, ..Given::default() }
}

/// How many atoms each value has that Values gave; none if it was refused.
pub fn value_lengths(answer: &Answer) -> Vec<u8> {
    let given = if answer.number == 0 { answer.figures[0] as usize } else { 0 };
    let mut rest = &answer.first[..given];
    let mut lengths = Vec::new();
    while let [_, count, after @ ..] = rest {
        lengths.push(*count);
        rest = &after[usize::from(*count)..];
    }
    lengths
}
