//! Questions about blocks.

use crate::block::{seal, Sides, BLOCK, CHECK, TERMS};
use crate::blocks::{block_sides, damage, good_block};
use crate::names::sides;
use crate::question::Ask;
use crate::questions::Questions;

/// The block number of the fixed blocks; its two bytes differ, so that their order shows.
const NUMBER: u16 = 0x0102;
const LONGEST_BLOCK: usize = 600;

impl Questions {
    /// Asks about a good block of every length, with every buffer and with damage at every place.
    pub fn ask_fixed_reads(&mut self) {
        let good = good_block(&mut self.chance, NUMBER, &sides("v0+v31+c0", "c1+v31+c63"));
        self.ask_with_each_buffer(Ask::Read { expected: NUMBER }, &only(good.clone()));
        for expected in [0, NUMBER - 1, NUMBER + 1, NUMBER.swap_bytes(), u16::MAX] {
            self.ask(Ask::Read { expected }, &only(good.clone()));
        }
        for length in 0..=LONGEST_BLOCK {
            let mut block = good.clone();
            block.resize(length, 0);
            self.ask_read(block);
        }
        self.ask_read(vec![0; BLOCK]);
        self.ask_damaged_places(&good);
        self.ask_every_value(&good);
    }

    /// Asks about a block with each single bit turned, and once more at each place with any other value: as
    /// it is, and sealed.
    fn ask_damaged_places(&mut self, good: &[u8]) {
        for place in 0..BLOCK {
            let any = self.chance.byte(1, u8::MAX);
            for change in (0..8).map(|bit| 1 << bit).chain([any]) {
                let mut block = good.to_vec();
                block[place] ^= change;
                self.ask_read(block.clone());
                if place < CHECK {
                    seal(&mut block);
                    self.ask_read(block);
                }
            }
        }
    }

    /// Asks about a block with every other value of each byte of its number, lengths and terms and of the
    /// first and last byte of its filler, all sealed, and of its check.
    fn ask_every_value(&mut self, good: &[u8]) {
        let terms_end = TERMS + usize::from(good[2]) + usize::from(good[3]);
        for place in (0..=terms_end).chain(CHECK - 1..BLOCK) {
            for change in 1..=u8::MAX {
                let mut block = good.to_vec();
                block[place] ^= change;
                if place < CHECK {
                    seal(&mut block);
                }
                self.ask_read(block);
            }
        }
    }

    /// Asks about a block under its own number.
    fn ask_read(&mut self, block: Vec<u8>) {
        self.ask(Ask::Read { expected: NUMBER }, &only(block));
    }

    /// Asks about a random block: good, damaged once or twice, or under another number.
    pub fn ask_random_read(&mut self) {
        let sides = block_sides(&mut self.chance);
        let number = self.chance.number() as u16;
        let mut block = good_block(&mut self.chance, number, &sides);
        for _ in 0..self.chance.below(3) {
            if block.len() == BLOCK {
                damage(&mut self.chance, &mut block);
            }
        }
        let expected = if self.chance.one_in(16) { self.chance.number() as u16 } else { number };
        self.ask_any(Ask::Read { expected }, &only(block));
    }
}

/// A block as the first bytes of a question, with none as the second.
fn only(block: Vec<u8>) -> Sides {
    Sides { left: block, right: Vec::new() }
}
