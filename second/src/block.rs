//! Library blocks: reading one, writing one, and sealing one with its check (document 01, A library block; document 02,
//!

use crate::pair::{must_be_sides, FIRST_CONSTANT};
use crate::refusal::Refusal;

/// The length of a block in bytes.
pub const BLOCK: usize = 512;
/// Where the terms begin.
pub const TERMS: usize = 4;
/// Where the check stands, after the filler.
pub const CHECK: usize = 510;
/// The longest term.
pub const LONGEST_TERM: usize = 127;
/// The byte that is followed by two terms.
pub const PLUS: u8 = 128;
/// How many variables may be written, and so how much higher those of a right term are numbered.
pub const APART: u8 = 32;

/// The two flattened sides of a pair.
#[derive(Clone, Debug, PartialEq, Eq, PartialOrd, Ord)]
pub struct Sides {
    pub left: Vec<u8>,
    pub right: Vec<u8>,
}

/// The flattened sides of a block, or the first reason by number why it has none.
pub fn read(block: &[u8], expected: u16) -> Result<Sides, Refusal> {
    if block.len() != BLOCK {
        return Err(Refusal::BlockLength);
    }
    if number_at(block, CHECK) != check(block) {
        return Err(Refusal::Check);
    }
    if number_at(block, 0) != expected {
        return Err(Refusal::BlockNumber);
    }
    let lengths = [usize::from(block[2]), usize::from(block[3])];
    if lengths.iter().any(|length| !(1..=LONGEST_TERM).contains(length)) {
        return Err(Refusal::TermLength);
    }
    let (left, rest) = block[TERMS..CHECK].split_at(lengths[0]);
    let (right, filler) = rest.split_at(lengths[1]);
    let sides = Sides { left: flatten(left)?, right: renamed(flatten(right)?) };
    if filler.iter().any(|&byte| byte != 0) {
        return Err(Refusal::Filler);
    }
    Ok(sides)
}

/// The block of two flattened sides, or the first of the refusals 7, 8 and 18 that holds.
pub fn write(sides: &Sides, number: u16) -> Result<Vec<u8>, Refusal> {
    must_be_sides(sides, 1)?;
    let of_left = |&atom: &u8| atom < APART || atom >= FIRST_CONSTANT;
    if !sides.left.iter().all(of_left) || sides.right.iter().any(|&atom| atom < APART) {
        return Err(Refusal::WrongSide);
    }
    let lowered: Vec<u8> =
        sides.right.iter().map(|&atom| if atom < FIRST_CONSTANT { atom - APART } else { atom }).collect();
    let (left, right) = (nested(&sides.left), nested(&lowered));
    let mut block = number.to_be_bytes().to_vec();
    block.extend([left.len() as u8, right.len() as u8]);
    block.extend(left.iter().chain(&right));
    block.resize(BLOCK, 0);
    seal(&mut block);
    Ok(block)
}

/// The term that adds each atom to all that follow it, made from its end.
fn nested(atoms: &[u8]) -> Vec<u8> {
    let mut backwards = Vec::new();
    for &atom in atoms.iter().rev() {
        let is_last = backwards.is_empty();
        backwards.push(atom);
        if !is_last {
            backwards.push(PLUS);
        }
    }
    backwards.reverse();
    backwards
}

/// The atoms of a term in the order in which they are read. Instead of taking terms apart it counts how many
/// terms are still to come: a plus asks for one more, an atom for one less.
fn flatten(term: &[u8]) -> Result<Vec<u8>, Refusal> {
    let mut to_come = 1;
    let mut atoms = Vec::new();
    for &byte in term {
        if to_come == 0 || !(may_be_written(byte) || byte == PLUS) {
            return Err(Refusal::Term);
        }
        if byte == PLUS {
            to_come += 1;
        } else {
            to_come -= 1;
            atoms.push(byte);
        }
    }
    if to_come == 0 {
        Ok(atoms)
    } else {
        Err(Refusal::Term)
    }
}

/// Whether a byte is an atom that may stand in a term: v0 to v31, or a constant.
pub fn may_be_written(byte: u8) -> bool {
    byte < APART || (FIRST_CONSTANT..PLUS).contains(&byte)
}

/// The right term's atoms, each variable with the number 32 higher.
fn renamed(mut atoms: Vec<u8>) -> Vec<u8> {
    atoms.iter_mut().filter(|atom| **atom < FIRST_CONSTANT).for_each(|atom| *atom += APART);
    atoms
}

/// The number of two bytes at a place, high byte first.
fn number_at(block: &[u8], place: usize) -> u16 {
    u16::from_be_bytes([block[place], block[place + 1]])
}

/// The check that belongs to a block's first 510 bytes.
fn check(block: &[u8]) -> u16 {
    let sum = block[..CHECK].iter().fold(0u16, |sum, &byte| sum.wrapping_add(u16::from(byte)));
    u16::MAX - sum
}

/// Writes the check that belongs to a whole block, so that damage made before it is met by a later test.
pub fn seal(block: &mut [u8]) {
    let check = check(block);
    block[CHECK..].copy_from_slice(&check.to_be_bytes());
}
