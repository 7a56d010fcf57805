//! Atoms by name: v0 to v63, c0 to c63 and n0 to n15; and sides written as sums, such as 2v0+c1.

use crate::block::Sides;
use crate::pair::{FIRST_CONSTANT, LAST_ATOM};
use crate::values::FIRST_NEW_VARIABLE;

/// The name of an atom; a byte that is none is named by its number.
pub fn name(byte: u8) -> String {
    match byte {
        0..FIRST_CONSTANT => format!("v{byte}"),
        FIRST_CONSTANT..=LAST_ATOM => format!("c{}", byte - FIRST_CONSTANT),
        192..=207 => format!("n{}", byte - FIRST_NEW_VARIABLE),
        _ => format!("byte {byte}"),
    }
}

/// Atoms in order, joined by plus signs.
pub fn sum(atoms: &[u8]) -> String {
    atoms.iter().map(|&atom| name(atom)).collect::<Vec<_>>().join("+")
}

/// Two sides in words.
pub fn told(sides: &Sides) -> String {
    format!("{} and {}", sum(&sides.left), sum(&sides.right))
}

/// The sides that two sums name, for instance 4v0+v4 and v1+c2; n0 stands for a byte that no side may hold,
/// and an empty text for an empty side. For tables in this program only: a sum that it cannot read is an
/// error in them.
pub fn sides(left: &str, right: &str) -> Sides {
    Sides { left: side(left), right: side(right) }
}

/// The atoms that a sum names.
fn side(text: &str) -> Vec<u8> {
    text.split('+').filter(|part| !part.is_empty()).flat_map(repeated_atom).collect()
}

/// An atom as often as the number before its letter says, once without a number.
fn repeated_atom(part: &str) -> Vec<u8> {
    let letter = part.find(['v', 'c', 'n']).expect("an atom begins with v, c or n");
    let times = if letter == 0 { 1 } else { part[..letter].parse().expect("a number before the letter") };
    let index: u8 = part[letter + 1..].parse().expect("a number after the letter");
    let first = match &part[letter..=letter] {
        "v" => 0,
        "c" => FIRST_CONSTANT,
        _ => FIRST_NEW_VARIABLE,
    };
    vec![first + index; times]
}
