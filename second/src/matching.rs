//! Matching (document 02, R-4) by handing out: each atom that the subject has more often than the pattern is
//! handed out to the pattern's variables, so many to each, until none is left over. What a variable gets counts
//! as often as it stands in the pattern. No vectors are searched and none is compared with another.

use crate::pair::Pair;
use crate::refusal::Refusal;
use crate::rows::{Groups, MOST_ROWS};

/// The ways to hand out each unbalanced atom, ascending, or refusal 12. There are no balanced rows.
pub fn handed_out(pair: &Pair) -> Result<Groups, Refusal> {
    let stands: Vec<i32> = pair.variables.iter().map(|variable| variable.net).collect();
    let constants: Vec<_> = pair.constants.iter().map(|atom| ways(&stands, -atom.net)).collect();
    if constants.iter().any(|ways| ways.len() > MOST_ROWS) {
        return Err(Refusal::Rows);
    }
    Ok(Groups { balanced: Vec::new(), constants })
}

/// All ways to hand out so many of an atom to variables that stand so often in the pattern, ascending; none if
/// the pattern has more of it than the subject.
fn ways(stands: &[i32], left_over: i32) -> Vec<Vec<u8>> {
    let Some((&times, later)) = stands.split_first() else {
        return if left_over == 0 { vec![Vec::new()] } else { Vec::new() };
    };
    let mut all = Vec::new();
    let mut gets = 0;
    while i32::from(gets) * times <= left_over {
        let rest = ways(later, left_over - i32::from(gets) * times);
        all.extend(rest.iter().map(|others| [&[gets], &others[..]].concat()));
        gets += 1;
    }
    all
}
