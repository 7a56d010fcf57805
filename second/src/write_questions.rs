//! Questions about sides to be written as blocks.

use crate::block::{Sides, APART};
use crate::blocks::block_sides;
use crate::names::sides;
use crate::pair::{FIRST_CONSTANT, LAST_ATOM};
use crate::question::Ask;
use crate::questions::Questions;
use crate::sides::{apart, random_sides};

/// The first and the last atom of each kind that Write tells apart, and the first byte that is none.
const EDGES: [u8; 7] = [0, APART - 1, APART, FIRST_CONSTANT - 1, FIRST_CONSTANT, LAST_ATOM, LAST_ATOM + 1];
/// Numbers whose two bytes show their order and their limits.
const NUMBERS: [u16; 6] = [0, 1, 255, 256, 0x0102, u16::MAX];
/// Sides at and past the limit of 64 atoms.
const LENGTHS: [usize; 6] = [0, 1, 2, 63, 64, 65];

impl Questions {
    /// Asks about all sides of at most two atoms at the edges, all lengths at the limits, and every buffer.
    pub fn ask_fixed_writes(&mut self) {
        let short = short_sides();
        for left in &short {
            for right in &short {
                self.ask(Ask::Write { number: 0 }, &Sides { left: left.clone(), right: right.clone() });
            }
        }
        for left in LENGTHS {
            for right in LENGTHS {
                self.ask(Ask::Write { number: 1 }, &Sides { left: vec![3; left], right: vec![70; right] });
            }
        }
        for number in NUMBERS {
            self.ask_with_each_buffer(Ask::Write { number }, &sides("v0+v31+c0", "c1+v63+c63+v32"));
        }
    }

    /// Asks about random sides: most may be written, some hold a variable of the other side or more.
    pub fn ask_random_write(&mut self) {
        let mut sides = match self.chance.one_in(8) {
            true => random_sides(&mut self.chance),
            false => apart(&block_sides(&mut self.chance)),
        };
        if self.chance.one_in(4) {
            let side = if self.chance.one_in(2) { &mut sides.left } else { &mut sides.right };
            if !side.is_empty() {
                let place = self.chance.below(side.len());
                side[place] = self.chance.byte(0, LAST_ATOM);
            }
        }
        let number = self.chance.number() as u16;
        self.ask_any(Ask::Write { number }, &sides);
    }
}

/// No atom, one of the edges, or two of them.
fn short_sides() -> Vec<Vec<u8>> {
    let ones = EDGES.iter().map(|&atom| vec![atom]);
    let twos = EDGES.iter().flat_map(|&first| EDGES.iter().map(move |&second| vec![first, second]));
    std::iter::once(Vec::new()).chain(ones).chain(twos).collect()
}
