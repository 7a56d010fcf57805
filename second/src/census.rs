//! The census text (document 02, R-7): how many unifiers each block of a library has.

use crate::block;
use crate::pair::Way;
use crate::refusal::Refusal;
use crate::solved::Solved;
use crate::text::{next_block, refused};
use std::io::{self, Read, Write};

/// The most blocks that are counted.
pub const MOST_BLOCKS: u16 = 32_768;

/// Reads a library and writes its census text, with a line for each of at most so many blocks.
pub fn census(mut library: impl Read, mut text: impl Write, most_blocks: u16) -> io::Result<()> {
    let mut total = 0;
    for place in 0..=most_blocks {
        let block = next_block(&mut library)?;
        if block.is_empty() {
            break;
        }
        if place == most_blocks {
            writeln!(text, "too long")?;
            break;
        }
        match unifiers(place, &block) {
            Ok(number) => {
                total += number;
                writeln!(text, "block {place} unifiers {number}")?;
            }
            Err(refusal) => writeln!(text, "{}", refused(u64::from(place), refusal))?,
        }
    }
    writeln!(text, "total {total}")?;
    text.flush()
}

/// How many unifiers a block has, or its refusal.
fn unifiers(place: u16, block: &[u8]) -> Result<u64, Refusal> {
    let sides = block::read(block, place)?;
    Ok(Solved::of(Way::Unifying, &sides)?.list.number())
}
