//! Blocks to read: random terms of every shape, and damage of every kind.

use crate::block::{may_be_written, seal, Sides, APART, BLOCK, CHECK, LONGEST_TERM, PLUS, TERMS};
use crate::chance::Chance;
use crate::pair::FIRST_CONSTANT;

/// How a plus is split: the first atom beside the rest, all but the last beside it, or anywhere.
#[derive(Clone, Copy)]
enum Shape {
    First,
    Last,
    Anywhere,
}

/// A block with two sides as terms of random shape; each side has 1 to 64 atoms that may be written.
pub fn good_block(chance: &mut Chance, number: u16, sides: &Sides) -> Vec<u8> {
    let left = term(chance, &sides.left);
    let right = term(chance, &sides.right);
    let mut block = vec![0; BLOCK];
    block[..2].copy_from_slice(&number.to_be_bytes());
    block[2] = left.len() as u8;
    block[3] = right.len() as u8;
    block[TERMS..TERMS + left.len()].copy_from_slice(&left);
    block[TERMS + left.len()..TERMS + left.len() + right.len()].copy_from_slice(&right);
    seal(&mut block);
    block
}

/// A random pair of sides that a block can hold.
pub fn block_sides(chance: &mut Chance) -> Sides {
    let longest = chance.pick(&[1, 3, 8, 64]);
    let mut side = || {
        let length = if chance.one_in(16) { 64 } else { 1 + chance.below(longest) };
        (0..length).map(|_| written(chance.byte(0, PLUS - 1))).collect()
    };
    Sides { left: side(), right: side() }
}

/// The byte that an atom is written with: a variable above v31, as Read gives them of a right term, 32 lower.
pub fn written(atom: u8) -> u8 {
    if may_be_written(atom) || atom >= FIRST_CONSTANT {
        atom
    } else {
        atom - APART
    }
}

/// A term over the atoms in their order, of random shape.
fn term(chance: &mut Chance, atoms: &[u8]) -> Vec<u8> {
    let shape = chance.pick(&[Shape::First, Shape::Last, Shape::Anywhere, Shape::Anywhere]);
    let mut bytes = Vec::new();
    write_term(chance, shape, atoms, &mut bytes);
    bytes
}

/// Writes a term over the atoms: one atom, or a plus and the terms over two parts of them.
fn write_term(chance: &mut Chance, shape: Shape, atoms: &[u8], bytes: &mut Vec<u8>) {
    if let [atom] = atoms {
        bytes.push(*atom);
        return;
    }
    let split = match shape {
        Shape::First => 1,
        Shape::Last => atoms.len() - 1,
        Shape::Anywhere => 1 + chance.below(atoms.len() - 1),
    };
    bytes.push(PLUS);
    write_term(chance, shape, &atoms[..split], bytes);
    write_term(chance, shape, &atoms[split..], bytes);
}

/// Damages a whole block in one of the ways that the refusals 1 to 6 are about.
pub fn damage(chance: &mut Chance, block: &mut Vec<u8>) {
    match chance.below(9) {
        0 => block.resize(chance.below(1025), 0),
        1 => change_byte(chance, block, 0, BLOCK),
        _ => {
            damage_inside(chance, block);
            seal(block);
        }
    }
}

/// Damages the number, a length, a term or the filler; sealed afterwards, the block is refused for just that.
fn damage_inside(chance: &mut Chance, block: &mut [u8]) {
    let terms_end = TERMS + usize::from(block[2]) + usize::from(block[3]);
    match chance.below(7) {
        0 => change_byte(chance, block, 0, 2),
        1 => block[2 + chance.below(2)] = chance.pick(&[0, 128, 129, 255]),
        2 => change_byte(chance, block, 2, TERMS),
        3 => block[TERMS + chance.below(2 * LONGEST_TERM)] = chance.byte(PLUS, u8::MAX),
        4 => change_byte(chance, block, TERMS, terms_end.clamp(TERMS + 1, CHECK)),
        5 => change_byte(chance, block, terms_end.min(CHECK - 1), CHECK),
        _ => move_border(chance, block),
    }
}

/// Gives one byte from a place to before another a different value.
fn change_byte(chance: &mut Chance, block: &mut [u8], from: usize, before: usize) {
    let place = from + chance.below(before - from);
    block[place] ^= chance.byte(1, u8::MAX);
}

/// Moves the border between the terms, so that one ends early and the other has bytes left over.
fn move_border(chance: &mut Chance, block: &mut [u8]) {
    let by = chance.byte(1, 3);
    block[2] = block[2].wrapping_add(by);
    block[3] = block[3].wrapping_sub(by);
}
