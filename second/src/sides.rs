//! Sides to ask about: all small pairs, and random ones at and past every limit.

use crate::block::{Sides, APART};
use crate::chance::Chance;
use crate::pair::{FIRST_CONSTANT, LAST_ATOM};

const MOST_ATOMS: usize = 64;

/// What a random pair is made of: how many variables and constants, from and to, and how far their net counts
/// go.
#[derive(Clone, Copy)]
struct Make {
    variables: (i32, i32),
    variable_net: i32,
    constants: (i32, i32),
    constant_net: i32,
}

/// Small pairs, few variables of large net counts, pairs between, many variables, many constants, net counts
/// past the limit, large balanced groups, and large groups of constants.
const MAKES: [Make; 8] = [
    Make { variables: (0, 5), variable_net: 2, constants: (0, 3), constant_net: 3 },
    Make { variables: (1, 3), variable_net: 8, constants: (0, 4), constant_net: 8 },
    Make { variables: (3, 6), variable_net: 3, constants: (0, 4), constant_net: 4 },
    Make { variables: (5, 7), variable_net: 1, constants: (0, 2), constant_net: 2 },
    Make { variables: (1, 3), variable_net: 2, constants: (3, 6), constant_net: 2 },
    Make { variables: (1, 3), variable_net: 9, constants: (0, 2), constant_net: 9 },
    Make { variables: (4, 6), variable_net: 6, constants: (0, 2), constant_net: 6 },
    Make { variables: (2, 3), variable_net: 3, constants: (1, 4), constant_net: 8 },
];

/// Every multiset of at most so many of the atoms, ascending within each, the empty one included.
pub fn multisets(atoms: &[u8], most: usize) -> Vec<Vec<u8>> {
    let mut all = vec![Vec::new()];
    let mut of_last_size = all.clone();
    for _ in 0..most {
        let longer = |side: &Vec<u8>| {
            let side = side.clone();
            let next = atoms.iter().filter(move |atom| side.last().is_none_or(|last| last <= atom));
            next.copied().collect::<Vec<u8>>()
        };
        of_last_size = of_last_size
            .iter()
            .flat_map(|side| longer(side).into_iter().map(move |atom| [&side[..], &[atom]].concat()))
            .collect();
        all.extend(of_last_size.iter().cloned());
    }
    all
}

/// All pairs of such multisets.
pub fn all_pairs(atoms: &[u8], most_left: usize, most_right: usize) -> Vec<Sides> {
    let rights = multisets(atoms, most_right);
    let pairs_of = |left: Vec<u8>| {
        let beside = |right: &Vec<u8>| Sides { left: left.clone(), right: right.clone() };
        rights.iter().map(beside).collect::<Vec<_>>()
    };
    multisets(atoms, most_left).into_iter().flat_map(pairs_of).collect()
}

/// The same pair with the atoms of each side in another order.
pub fn shuffled(chance: &mut Chance, sides: &Sides) -> Sides {
    let mut shuffled = sides.clone();
    chance.shuffle(&mut shuffled.left);
    chance.shuffle(&mut shuffled.right);
    shuffled
}

/// The same pair with the variables of its sides made apart: v0 to v31 on the left and v32 to v63 on the right.
pub fn apart(sides: &Sides) -> Sides {
    let renamed = |side: &[u8], add: u8| {
        let rename = |&atom: &u8| if atom < FIRST_CONSTANT { atom % APART + add } else { atom };
        side.iter().map(rename).collect()
    };
    Sides { left: renamed(&sides.left, 0), right: renamed(&sides.right, APART) }
}

/// A random pair. Most are within all limits; some are at each limit and some past it.
pub fn random_sides(chance: &mut Chance) -> Sides {
    match chance.below(24) {
        0 => of_odd_length(chance),
        1 => with_high_byte(chance),
        2 => of_few_atoms(chance),
        _ => {
            let make = chance.pick(&MAKES);
            made(chance, &make)
        }
    }
}

/// A pair of which one side is empty or has more than 64 atoms.
fn of_odd_length(chance: &mut Chance) -> Sides {
    let mut sides = of_few_atoms(chance);
    let length = match chance.below(4) {
        0 => 0,
        1 => 65,
        2 => 65 + chance.below(136),
        _ => 200 + chance.below(825),
    };
    let side = if chance.one_in(2) { &mut sides.left } else { &mut sides.right };
    *side = (0..length).map(|_| chance.byte(0, if length % 8 == 0 { u8::MAX } else { LAST_ATOM })).collect();
    sides
}

/// A pair of which one side holds a byte that is no atom.
fn with_high_byte(chance: &mut Chance) -> Sides {
    let mut sides = of_few_atoms(chance);
    let side = if chance.one_in(2) { &mut sides.left } else { &mut sides.right };
    let place = chance.below(side.len());
    side[place] = if chance.one_in(2) { LAST_ATOM + 1 } else { chance.byte(LAST_ATOM + 1, u8::MAX) };
    sides
}

/// A pair of any length within 64 over a few atoms.
fn of_few_atoms(chance: &mut Chance) -> Sides {
    let atoms: Vec<u8> = (0..1 + chance.below(7)).map(|_| chance.byte(0, LAST_ATOM)).collect();
    let longest = chance.pick(&[4, 8, MOST_ATOMS]);
    let mut side = || {
        let length = if chance.one_in(8) { MOST_ATOMS } else { 1 + chance.below(longest) };
        (0..length).map(|_| chance.pick(&atoms)).collect()
    };
    Sides { left: side(), right: side() }
}

/// A pair made of random net counts and of occurrences that both sides share.
fn made(chance: &mut Chance, make: &Make) -> Sides {
    let variables = chance.between(make.variables.0, make.variables.1);
    let constants = chance.between(make.constants.0, make.constants.1);
    let mut sides = Sides { left: Vec::new(), right: Vec::new() };
    let range = chance.pick(&[8, FIRST_CONSTANT]);
    for _ in 0..variables {
        let atom = chance.byte(0, range - 1);
        add(chance, &mut sides, atom, make.variable_net);
    }
    for _ in 0..constants {
        let atom = chance.byte(FIRST_CONSTANT, FIRST_CONSTANT + range - 1);
        add(chance, &mut sides, atom, make.constant_net);
    }
    if chance.one_in(8) {
        fill_up(chance, &mut sides);
    }
    shuffled(chance, &sides)
}

/// Adds an atom with a random net count no further than stated from 0, now and then on both sides.
fn add(chance: &mut Chance, sides: &mut Sides, atom: u8, furthest: i32) {
    let net = chance.between(-furthest, furthest);
    let side = if net > 0 { &mut sides.left } else { &mut sides.right };
    side.extend(std::iter::repeat_n(atom, net.unsigned_abs() as usize));
    if net == 0 || chance.one_in(8) {
        sides.left.push(atom);
        sides.right.push(atom);
    }
}

/// Adds one atom to both sides until one of them has 64.
fn fill_up(chance: &mut Chance, sides: &mut Sides) {
    let atom = chance.byte(0, LAST_ATOM);
    let longest = sides.left.len().max(sides.right.len());
    for side in [&mut sides.left, &mut sides.right] {
        side.extend(std::iter::repeat_n(atom, MOST_ATOMS.saturating_sub(longest)));
    }
}
