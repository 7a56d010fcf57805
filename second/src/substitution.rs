//! Substitutions as plain sums, and when one comes from another (source 000: "more general"). Nothing here
//! knows of rows or keys.

use crate::pair::FIRST_CONSTANT;
use crate::values::FIRST_NEW_VARIABLE;

/// The constants that sums are made of: c0 and c1, which pairs may hold, and c2, which none holds.
pub const CONSTANTS: usize = 3;
const NEW_VARIABLES: usize = 16;
const PLACES: usize = CONSTANTS + NEW_VARIABLES;

/// How often each atom stands in a sum: first the constants, then the new variables.
pub type Sum = [u16; PLACES];

/// The empty sum, which replaces a variable only where sums have an identity.
pub const NOTHING: Sum = [0; PLACES];

/// The sum of some atoms, or none if one of them is neither such a constant nor a new variable.
pub fn sum_of(atoms: &[u8]) -> Option<Sum> {
    let mut sum = NOTHING;
    for &atom in atoms {
        let place = match atom {
            FIRST_CONSTANT..=66 => usize::from(atom - FIRST_CONSTANT),
            FIRST_NEW_VARIABLE..=207 => usize::from(atom - FIRST_NEW_VARIABLE) + CONSTANTS,
            _ => return None,
        };
        sum[place] += 1;
    }
    Some(sum)
}

/// The atoms of a sum in order.
pub fn atoms_of(sum: &Sum) -> Vec<u8> {
    let atoms = (FIRST_CONSTANT..).take(CONSTANTS).chain(FIRST_NEW_VARIABLE..);
    atoms.zip(sum).flat_map(|(atom, &times)| std::iter::repeat_n(atom, usize::from(times))).collect()
}

/// What a side becomes when each of the variables is replaced by its value.
pub fn total(side: &[u8], variables: &[u8], values: &[Sum]) -> Sum {
    let mut total = NOTHING;
    for &atom in side {
        match variables.iter().position(|&variable| variable == atom) {
            Some(place) => total.iter_mut().zip(&values[place]).for_each(|(total, times)| *total += times),
            None => total[usize::from(atom - FIRST_CONSTANT)] += 1,
        }
    }
    total
}

/// Whether sums can be filled in for the new variables of the general substitution so that it becomes the special
/// one, whose new variables stand for themselves. The sums are not empty, or may be.
pub fn comes_from(special: &[Sum], general: &[Sum], may_be_empty: bool) -> bool {
    let without_constants: Option<Vec<Sum>> =
        special.iter().zip(general).map(|(special, general)| less_constants(special, general)).collect();
    let new_variables: Vec<Vec<u16>> = (CONSTANTS..PLACES)
        .map(|place| general.iter().map(|value| value[place]).collect())
        .filter(|times: &Vec<u16>| times.iter().any(|&times| times > 0))
        .collect();
    without_constants.is_some_and(|rest| can_fill(&rest, &new_variables, may_be_empty))
}

/// A value without the constants of another, or none if it has fewer of them.
fn less_constants(value: &Sum, other: &Sum) -> Option<Sum> {
    let mut rest = *value;
    for (rest, &times) in rest.iter_mut().zip(other).take(CONSTANTS) {
        *rest = rest.checked_sub(times)?;
    }
    Some(rest)
}

/// Whether sums for the new variables, of which it is known how often each stands in each value, use up what
/// remains of the values. Every sum is tried.
fn can_fill(rest: &[Sum], new_variables: &[Vec<u16>], may_be_empty: bool) -> bool {
    let Some((times, others)) = new_variables.split_first() else {
        return rest.iter().all(|value| *value == NOTHING);
    };
    let mut largest = NOTHING;
    for (place, most) in largest.iter_mut().enumerate() {
        let in_values = rest.iter().zip(times).filter(|(_, &times)| times > 0);
        *most = in_values.map(|(value, &times)| value[place] / times).min().unwrap_or(0);
    }
    parts(&largest).iter().skip(usize::from(!may_be_empty)).any(|part| {
        let less =
            |(value, &times): (&Sum, &u16)| std::array::from_fn(|place| value[place] - times * part[place]);
        let still: Vec<Sum> = rest.iter().zip(times).map(less).collect();
        can_fill(&still, others, may_be_empty)
    })
}

/// All sums within a sum, the empty one first.
fn parts(whole: &Sum) -> Vec<Sum> {
    let mut parts = vec![NOTHING];
    for (place, &most) in whole.iter().enumerate().filter(|(_, &most)| most > 0) {
        let fewer = parts.clone();
        for times in 1..=most {
            parts.extend(fewer.iter().map(|part| {
                let mut part = *part;
                part[place] = times;
                part
            }));
        }
    }
    parts
}
