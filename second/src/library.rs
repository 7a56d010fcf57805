//! Libraries for the nightly text.

use crate::block::{Sides, BLOCK};
use crate::blocks::{block_sides, damage, good_block, written};
use crate::chance::Chance;
use crate::examples::{
    AROUND_A_PAGE, AT_LIMITS, BY_HAND, HIGHEST, LATEST_FIRST_KEY, LONGEST_LIST, LONGEST_VALUE,
    MOST_ROW_BYTES, PUBLISHED,
};
use crate::names::sides;
use crate::sides::random_sides;
use std::io::{self, Write};

/// A library of the pairs that have a name and then of random blocks: good ones, damaged ones, refused ones
/// of every kind, pairs without unifier and with more than 200. With an odd seed the last block is short. The
/// first blocks may be of zeros, so that a place beyond 65,535 is reached with little work.
pub struct Library {
    pub seed: u64,
    pub blocks: u64,
    pub zeros: u64,
}

impl Library {
    /// Writes the library.
    pub fn write(&self, mut output: impl Write) -> io::Result<()> {
        let mut chance = Chance::new(self.seed);
        let mut named = named_sides().into_iter();
        for place in 0..self.blocks {
            let mut block = match place < self.zeros {
                true => vec![0; BLOCK],
                false => next_block(&mut chance, place as u16, named.next()),
            };
            if self.seed % 2 == 1 && place + 1 == self.blocks {
                block.truncate(1 + chance.below(BLOCK - 1));
            }
            output.write_all(&block)?;
        }
        output.flush()
    }
}

/// The pairs with a name that a block can hold.
fn named_sides() -> Vec<Sides> {
    let published = PUBLISHED.map(|(left, right, _)| (left, right));
    let extreme = [HIGHEST, LONGEST_LIST, MOST_ROW_BYTES, LONGEST_VALUE, LATEST_FIRST_KEY];
    let named = BY_HAND.iter().chain(&AT_LIMITS).chain(&AROUND_A_PAGE).chain(&published).chain(&extreme);
    named.map(|(left, right)| sides(left, right)).filter(fits_a_block).map(as_written).collect()
}

/// Whether terms over both sides can stand in a block.
fn fits_a_block(sides: &Sides) -> bool {
    [&sides.left, &sides.right]
        .iter()
        .all(|side| (1..=64).contains(&side.len()) && side.iter().all(|&byte| byte < 128))
}

/// The two sides as they are written.
fn as_written(sides: Sides) -> Sides {
    let side = |side: Vec<u8>| side.into_iter().map(written).collect();
    Sides { left: side(sides.left), right: side(sides.right) }
}

/// A block with the named pair or, without one, with a random pair and now and then damaged.
fn next_block(chance: &mut Chance, number: u16, named: Option<Sides>) -> Vec<u8> {
    if let Some(sides) = named {
        return good_block(chance, number, &sides);
    }
    let random = random_sides(chance);
    let sides = if fits_a_block(&random) { as_written(random) } else { block_sides(chance) };
    let mut block = good_block(chance, number, &sides);
    if chance.one_in(6) {
        damage(chance, &mut block);
        block.resize(BLOCK, 0);
    }
    block
}
