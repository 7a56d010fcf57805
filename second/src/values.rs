//! The values that a key gives to the variables (document 01, From sides to equations).

use crate::list::field_shift;
use crate::pair::Pair;
use crate::rows::Groups;

/// The byte of n0.
pub const FIRST_NEW_VARIABLE: u8 = 192;
/// The most atoms of a value (document 02, R-9).
pub const LONGEST_VALUE: usize = 160;

/// A variable with the atoms of its value in order.
#[derive(Clone, Debug, PartialEq, Eq)]
pub struct Value {
    pub variable: u8,
    pub atoms: Vec<u8>,
}

/// The values of all variables ascending for a listed key.
pub fn values(pair: &Pair, groups: &Groups, key: u32) -> Vec<Value> {
    let variables = pair.variables.iter().enumerate();
    variables
        .map(|(place, variable)| Value { variable: variable.atom, atoms: atoms(pair, groups, key, place) })
        .collect()
}

/// The atoms of the value of the variable with this place: the unbalanced constants as often as their taken
/// rows say, then the new variables of the balanced rows taken.
fn atoms(pair: &Pair, groups: &Groups, key: u32, place: usize) -> Vec<u8> {
    let mut atoms = Vec::new();
    for (index, (constant, rows)) in pair.constants.iter().zip(&groups.constants).enumerate() {
        let taken = (key >> field_shift(index) & 0xF) as usize;
        atoms.extend(std::iter::repeat_n(constant.atom, usize::from(rows[taken][place])));
    }
    for (new_variable, (index, row)) in (FIRST_NEW_VARIABLE..).zip(groups.balanced.iter().enumerate()) {
        if key >> index & 1 == 1 {
            atoms.extend(std::iter::repeat_n(new_variable, usize::from(row[place])));
        }
    }
    atoms
}
