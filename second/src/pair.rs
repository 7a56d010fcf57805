//! A pair as net counts (document 01, From sides to equations; document 02, R-4 and R-10).

use crate::block::Sides;
use crate::refusal::Refusal;
use std::collections::BTreeMap;

/// The first byte that is a constant.
pub const FIRST_CONSTANT: u8 = 64;
/// The last byte that is an atom.
pub const LAST_ATOM: u8 = 127;
const MOST_ATOMS: usize = 64;
/// The most variables that may move.
pub const MOST_VARIABLES: usize = 6;
/// How far from 0 a net count may be.
pub const FURTHEST_NET_COUNT: i32 = 8;
const MOST_CONSTANTS: usize = 4;

/// Which atoms may move: the variables of both sides, or those of the left one only, which is then a pattern
/// and the right one its subject; and whether sums have an identity, so that a variable and a side may be empty.
#[derive(Clone, Copy, Debug, PartialEq, Eq)]
pub enum Way {
    Unifying,
    Matching,
    Identity,
}

/// An atom with its occurrences on the left minus those on the right.
#[derive(Clone, Debug, PartialEq, Eq)]
pub struct NetCount {
    pub atom: u8,
    pub net: i32,
}

/// All distinct variables of a pair that may move, and the unbalanced ones of the other atoms, both ascending.
#[derive(Clone, Debug, PartialEq, Eq)]
pub struct Pair {
    pub variables: Vec<NetCount>,
    pub constants: Vec<NetCount>,
}

impl Pair {
    /// The net counts of two sides, or the first of the refusals 7, 8, 19 in matching, and 9 to 11 that holds.
    pub fn of(way: Way, sides: &Sides) -> Result<Pair, Refusal> {
        must_be_sides(sides, usize::from(way != Way::Identity))?;
        if way == Way::Matching && !shared_variables(sides).is_empty() {
            return Err(Refusal::Shared);
        }
        let may_move = |atom| atom < FIRST_CONSTANT && (way != Way::Matching || sides.left.contains(&atom));
        let (variables, mut constants): (Vec<_>, Vec<_>) =
            net_counts(sides).into_iter().partition(|count| may_move(count.atom));
        if variables.len() > MOST_VARIABLES {
            return Err(Refusal::Variables);
        }
        let too_frequent =
            variables.iter().chain(&constants).filter(|count| count.net.abs() > FURTHEST_NET_COUNT);
        if let Some(lowest) = too_frequent.min_by_key(|count| count.atom) {
            return Err(Refusal::NetCount(lowest.atom));
        }
        constants.retain(|count| count.net != 0);
        if constants.len() > MOST_CONSTANTS {
            return Err(Refusal::Constants);
        }
        Ok(Pair { variables, constants })
    }
}

/// Refusal 7 or 8 for what are no two sides of at least so many atoms.
pub fn must_be_sides(sides: &Sides, fewest_atoms: usize) -> Result<(), Refusal> {
    let lengths = fewest_atoms..=MOST_ATOMS;
    if [&sides.left, &sides.right].iter().any(|side| !lengths.contains(&side.len())) {
        return Err(Refusal::SideLength);
    }
    if sides.left.iter().chain(&sides.right).any(|&byte| byte > LAST_ATOM) {
        return Err(Refusal::SideByte);
    }
    Ok(())
}

/// The net counts of the variables that stand on both sides.
pub fn shared_variables(sides: &Sides) -> Vec<NetCount> {
    let mut counts = net_counts(sides);
    let on_both = |atom| sides.left.contains(&atom) && sides.right.contains(&atom);
    counts.retain(|count| count.atom < FIRST_CONSTANT && on_both(count.atom));
    counts
}

/// Every atom that occurs with its net count, ascending by atom.
pub fn net_counts(sides: &Sides) -> Vec<NetCount> {
    let mut counts = BTreeMap::new();
    for &atom in &sides.left {
        *counts.entry(atom).or_insert(0) += 1;
    }
    for &atom in &sides.right {
        *counts.entry(atom).or_insert(0) -= 1;
    }
    counts.into_iter().map(|(atom, net)| NetCount { atom, net }).collect()
}
