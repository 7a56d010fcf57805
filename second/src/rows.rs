//! The rows of a pair, found by the search of Contejean and Devie: a vector grows by one in one place at a
//! time, only in places that bring its weight nearer to 0 from the other side, and never at or above a row
//! already found.
//!
//! Why no row is missed: let m be a row and x a vector below it on the way. Then the weight of x is not 0,
//! and what m has beyond x has the opposite weight, so some place of it has a net count of the opposite sign:
//! x may grow there and stays at or below m. Vectors of one level have one sum, so none of them is below
//! another, and a vector of weight 0 that stands above no row of the levels before is a row.

use crate::pair::Pair;
use crate::refusal::Refusal;

/// The most rows of one group.
pub const MOST_ROWS: usize = 16;

/// A vector that is minimal for its weight: one number for each variable ascending.
pub type Row = Vec<u8>;

/// The balanced rows, and the rows of each unbalanced constant ascending; rows ascend within a group.
#[derive(Clone, Debug, PartialEq, Eq)]
pub struct Groups {
    pub balanced: Vec<Row>,
    pub constants: Vec<Vec<Row>>,
}

impl Groups {
    /// All groups of a pair, or refusal 12. A constant is one more place of the vector that holds 1 from the
    /// start, so that the search begins with the constant's net count as weight; a vector at or above a
    /// balanced row cannot become a row of a constant, since without that row it has the same weight.
    pub fn of(pair: &Pair) -> Result<Groups, Refusal> {
        let nets: Vec<i32> = pair.variables.iter().map(|variable| variable.net).collect();
        let balanced = search(&nets, 0, units(nets.len()), &[])?;
        let zero = vec![0; nets.len()];
        let constants = pair
            .constants
            .iter()
            .map(|constant| search(&nets, constant.net, vec![zero.clone()], &balanced))
            .collect::<Result<_, _>>()?;
        Ok(Groups { balanced, constants })
    }
}

/// The rows above the vectors of the first level, ascending; refusal 12 as soon as there are too many of
/// them. To each weight the constant's net count is added, and vectors at or above a row of `lower` are left
/// out.
fn search(nets: &[i32], constant: i32, first: Vec<Row>, lower: &[Row]) -> Result<Vec<Row>, Refusal> {
    let mut found: Vec<Row> = Vec::new();
    let mut level = first;
    while !level.is_empty() {
        let (rows, open): (Vec<Row>, Vec<Row>) =
            level.into_iter().partition(|vector| constant + weight(nets, vector) == 0);
        found.extend(rows);
        if found.len() > MOST_ROWS {
            return Err(Refusal::Rows);
        }
        level = next_level(nets, constant, &open, |vector| {
            lower.iter().chain(&found).any(|row| at_or_below(row, vector))
        });
    }
    found.sort();
    Ok(found)
}

/// The vectors one larger than those given, each once, without those that are above a row.
fn next_level(nets: &[i32], constant: i32, open: &[Row], above_a_row: impl Fn(&Row) -> bool) -> Vec<Row> {
    let mut next = Vec::new();
    for vector in open {
        let weight = constant + weight(nets, vector);
        for place in (0..nets.len()).filter(|&place| weight * nets[place] < 0) {
            let mut grown = vector.clone();
            grown[place] += 1;
            if !above_a_row(&grown) {
                next.push(grown);
            }
        }
    }
    next.sort();
    next.dedup();
    next
}

/// The vectors that are 1 in one place and 0 in all others.
fn units(places: usize) -> Vec<Row> {
    (0..places).map(|one| (0..places).map(|place| u8::from(place == one)).collect()).collect()
}

/// The sum over the variables of net count times number.
pub fn weight(nets: &[i32], vector: &Row) -> i32 {
    nets.iter().zip(vector).map(|(net, &number)| net * i32::from(number)).sum()
}

/// Whether a vector is at or below another in every place.
pub fn at_or_below(low: &Row, high: &Row) -> bool {
    low.iter().zip(high).all(|(low, high)| low <= high)
}
