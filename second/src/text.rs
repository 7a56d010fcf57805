//! The text of a library (document 01, The nightly program), of unifiers or of matches.

use crate::block::{self, BLOCK};
use crate::names::{name, sum};
use crate::pair::Way;
use crate::refusal::Refusal;
use crate::solved::{Solved, USUAL_COUNT};
use crate::values::Value;
use std::io::{self, Read, Write};

const MOST_BLOCKS: u64 = 1_048_576;

/// How many blocks had each kind of line.
#[derive(Default)]
struct Counts {
    listed: u64,
    none: u64,
    refused: u64,
}

/// Reads a library and writes its text: the nightly one, or in matching the same of each block's matches.
pub fn print_library(way: Way, mut library: impl Read, mut text: impl Write) -> io::Result<()> {
    let mut counts = Counts::default();
    let mut blocks = 0;
    let mut input_remains = false;
    loop {
        let block = next_block(&mut library)?;
        if block.is_empty() {
            break;
        }
        if blocks == MOST_BLOCKS {
            input_remains = true;
            break;
        }
        write_block(way, &mut text, blocks, &block, &mut counts)?;
        blocks += 1;
    }
    if input_remains {
        writeln!(text, "too long")?;
    }
    match blocks {
        0 => writeln!(text, "nothing read")?,
        _ => {
            let Counts { listed, none, refused } = counts;
            writeln!(text, "blocks {blocks} listed {listed} none {none} refused {refused}")?;
        }
    }
    text.flush()
}

/// The next 512 bytes, or fewer at the end of the library.
pub fn next_block(library: &mut impl Read) -> io::Result<Vec<u8>> {
    let mut block = Vec::with_capacity(BLOCK);
    library.take(BLOCK as u64).read_to_end(&mut block)?;
    Ok(block)
}

/// Writes the lines of one block and counts it by the kind of its line.
fn write_block(
    way: Way,
    text: &mut impl Write,
    place: u64,
    block: &[u8],
    counts: &mut Counts,
) -> io::Result<()> {
    match block_lines(way, place, block) {
        Ok(lines) => {
            counts.listed += 1;
            text.write_all(lines.as_bytes())
        }
        Err(Refusal::NoUnifier) => {
            counts.none += 1;
            writeln!(text, "block {place} none")
        }
        Err(refusal) => {
            counts.refused += 1;
            writeln!(text, "{}", refused(place, refusal))
        }
    }
}

/// The line of a refused block: the number and the atom that it names.
pub fn refused(place: u64, refusal: Refusal) -> String {
    let atom = refusal.atom().map_or(String::new(), |atom| format!(" {}", name(atom)));
    format!("block {place} refused {}{atom}", refusal.number())
}

/// The lines of a listed block: its rows, its first page and whether that is all.
fn block_lines(way: Way, place: u64, block: &[u8]) -> Result<String, Refusal> {
    let expected = (place % 65_536) as u16;
    let solved = Solved::of(way, &block::read(block, expected)?)?;
    let page = solved.page(None, USUAL_COUNT as usize)?;
    let constant_rows: usize = solved.groups.constants.iter().map(Vec::len).sum();
    let mut lines = format!("block {place} rows {} {constant_rows}\n", solved.groups.balanced.len());
    for &key in &page.keys {
        lines += &substitution(&solved.values(key)?);
        lines.push('\n');
    }
    match page.more {
        true => lines += "more\n",
        false => lines += &format!("end {}\n", page.keys.len()),
    }
    Ok(lines)
}

/// A substitution as one line: each variable with its value, or a dash without variables.
fn substitution(values: &[Value]) -> String {
    if values.is_empty() {
        return "-".to_string();
    }
    let parts: Vec<String> =
        values.iter().map(|value| format!("{}={}", name(value.variable), sum(&value.atoms))).collect();
    parts.join(" ")
}
