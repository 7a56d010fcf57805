//! A check that uses no algorithm of the solver, only what a unifier is (source 000): for small pairs, every
//! replacement of the variables by small non-empty sums that makes the sides equal must come from a listed
//! substitution, every listed one must make the sides equal, none may come from another, and as many must be
//! counted as are listed. With an identity (document 02, R-10) the sums and the sides may be empty, and nothing is
//! counted.

use crate::block::Sides;
use crate::names::{name, sum, told};
use crate::pair::{Way, FIRST_CONSTANT};
use crate::question::{Answer, Ask, Question};
use crate::refusal::Refusal;
use crate::sides::{all_pairs, multisets};
use crate::substitution::{atoms_of, comes_from, sum_of, total, Sum, CONSTANTS};
use std::collections::BTreeSet;

/// How many atoms the sums have at most that replace 0, 1, 2, 3 and 4 variables.
const LARGEST_SUM: [usize; 5] = [0, 10, 6, 4, 2];
/// The longest page, longer than the list of any small pair.
const PAGE: u16 = 1024;
/// The shortest buffer for values.
const VALUES: u16 = 972;

/// What the check did.
#[derive(Default)]
pub struct Checked {
    pub pairs: usize,
    pub listed: usize,
    pub replacements: usize,
    pub unifiers: usize,
}

/// A small pair with the substitutions that are listed for it, a value for each variable ascending, and with the
/// number that is given without listing them.
struct Listed {
    way: Way,
    sides: Sides,
    variables: Vec<u8>,
    substitutions: Vec<Vec<Sum>>,
    counted: Option<u64>,
}

/// Checks all small pairs, unified or with an identity, with the answers that the given means gives; the first objection
/// ends it.
pub fn check(way: Way, ask: impl Fn(&[Question]) -> Result<Vec<Answer>, String>) -> Result<Checked, String> {
    let mut checked = Checked::default();
    let pairs = if may_be_empty(way) { small_pairs_with_identity() } else { small_pairs() };
    for listed in listed_substitutions(way, pairs, ask)? {
        checked.pairs += 1;
        checked.listed += listed.substitutions.len();
        let outcome = listed.check_listed().and_then(|()| listed.check_complete(&mut checked));
        outcome.map_err(|objection| format!("{way:?}, {}: {objection}", told(&listed.sides)))?;
    }
    Ok(checked)
}

/// All pairs of non-empty sides of up to 3 and 3 atoms over three variables and two constants, and over four
/// variables and one constant, and of up to 5 and 5 over two variables and one constant.
fn small_pairs() -> Vec<Sides> {
    let three_variables = all_pairs(&[0, 1, 2, FIRST_CONSTANT, FIRST_CONSTANT + 1], 3, 3);
    let four_variables = all_pairs(&[0, 1, 2, 3, FIRST_CONSTANT], 3, 3);
    let two_variables = all_pairs(&[0, 1, FIRST_CONSTANT], 5, 5);
    let all: BTreeSet<Sides> =
        [three_variables, four_variables, two_variables].into_iter().flatten().collect();
    all.into_iter().filter(|sides| !sides.left.is_empty() && !sides.right.is_empty()).collect()
}

/// All pairs of sides of up to 2 and 3 atoms over three variables and two constants, of up to 2 and 2 over four
/// variables and one constant, and of up to 4 and 4 over two variables and one constant, empty ones among them.
fn small_pairs_with_identity() -> Vec<Sides> {
    let three_variables = all_pairs(&[0, 1, 2, FIRST_CONSTANT, FIRST_CONSTANT + 1], 2, 3);
    let four_variables = all_pairs(&[0, 1, 2, 3, FIRST_CONSTANT], 2, 2);
    let two_variables = all_pairs(&[0, 1, FIRST_CONSTANT], 4, 4);
    let all: BTreeSet<Sides> =
        [three_variables, four_variables, two_variables].into_iter().flatten().collect();
    all.into_iter().collect()
}

/// Asks for the whole list of each pair, for the values of each key and, in unifying, for their number.
fn listed_substitutions(
    way: Way,
    pairs: Vec<Sides>,
    ask: impl Fn(&[Question]) -> Result<Vec<Answer>, String>,
) -> Result<Vec<Listed>, String> {
    let page = Ask::Page { way, after: None, wanted: u32::from(PAGE) };
    let page_questions: Vec<Question> = pairs.iter().map(|sides| question(page, sides, PAGE)).collect();
    let pages = ask(&page_questions)?.iter().map(keys).collect::<Result<Vec<_>, _>>()?;
    let value_questions: Vec<Question> = pairs
        .iter()
        .zip(&pages)
        .flat_map(|(sides, keys)| {
            let values = move |key| Ask::Values { way, key };
            keys.iter().map(move |&key| question(values(key), sides, VALUES))
        })
        .collect();
    let mut values = ask(&value_questions)?.into_iter();
    let counted = match way {
        Way::Unifying => numbers(&pairs, ask)?,
        _ => vec![None; pairs.len()],
    };
    pairs
        .into_iter()
        .zip(pages)
        .zip(counted)
        .map(|((sides, keys), counted)| listed(way, sides, values.by_ref().take(keys.len()), counted))
        .collect()
}

/// Asks how many unifiers each pair has.
fn numbers(
    pairs: &[Sides],
    ask: impl Fn(&[Question]) -> Result<Vec<Answer>, String>,
) -> Result<Vec<Option<u64>>, String> {
    let questions: Vec<Question> = pairs.iter().map(|sides| question(Ask::Count, sides, 0)).collect();
    ask(&questions)?.iter().map(|count| number(count).map(Some)).collect()
}

/// A question with a buffer of this length.
fn question(ask: Ask, sides: &Sides, first_buffer: u16) -> Question {
    Question { ask, sides: sides.clone(), fill: 0, first_buffer, second_buffer: 0 }
}

/// The keys of a whole list from a page; none for a pair without unifier.
fn keys(page: &Answer) -> Result<Vec<u32>, String> {
    match (page.number, page.figures) {
        (0, [count, 0, ..]) => {
            let numbers = page.first.chunks_exact(4).take(count as usize);
            Ok(numbers.map(|bytes| u32::from_be_bytes([bytes[0], bytes[1], bytes[2], bytes[3]])).collect())
        }
        (number, _) if number == Refusal::NoUnifier.number() => Ok(Vec::new()),
        (number, _) => Err(format!("a page that is neither the whole list nor refusal 13: number {number}")),
    }
}

/// The number that an answer to Count gives.
fn number(count: &Answer) -> Result<u64, String> {
    match (count.number, count.figures) {
        (0, [high, low, 0, 0, 0, 0]) => Ok(u64::from(high) << 32 | u64::from(low)),
        (number, _) => Err(format!("a pair whose unifiers are not counted: number {number}")),
    }
}

/// A pair with the substitutions that answers to Values hold, and their number where it was asked for.
fn listed(
    way: Way,
    sides: Sides,
    answers: impl Iterator<Item = Answer>,
    counted: Option<u64>,
) -> Result<Listed, String> {
    let atoms: BTreeSet<u8> = sides.left.iter().chain(&sides.right).copied().collect();
    let variables: Vec<u8> = atoms.into_iter().filter(|&atom| atom < FIRST_CONSTANT).collect();
    let substitutions = answers
        .map(|answer| {
            substitution(way, &answer, &variables)
                .ok_or(format!("{way:?}, {}: values that cannot be read", told(&sides)))
        })
        .collect::<Result<_, _>>()?;
    Ok(Listed { way, sides, variables, substitutions, counted })
}

/// The values of all variables ascending from an answer, if it holds just those and none is empty that may not be.
fn substitution(way: Way, answer: &Answer, variables: &[u8]) -> Option<Vec<Sum>> {
    let mut rest = answer.first.get(..answer.figures[0] as usize)?;
    let mut values = Vec::new();
    for &variable in variables {
        let (head, after) = rest.split_at_checked(2)?;
        let (atoms, after) = after.split_at_checked(usize::from(head[1]))?;
        if head[0] != variable || (atoms.is_empty() && !may_be_empty(way)) {
            return None;
        }
        values.push(sum_of(atoms)?);
        rest = after;
    }
    (answer.number == 0 && rest.is_empty()).then_some(values)
}

/// Whether a variable may be replaced by the empty sum.
fn may_be_empty(way: Way) -> bool {
    way == Way::Identity
}

impl Listed {
    /// As many substitutions are counted as are listed, each makes the sides equal, and none comes from another.
    fn check_listed(&self) -> Result<(), String> {
        let listed = self.substitutions.len() as u64;
        if let Some(counted) = self.counted.filter(|&counted| counted != listed) {
            return Err(format!("{counted} are counted and {listed} listed"));
        }
        for (place, values) in self.substitutions.iter().enumerate() {
            if !self.makes_equal(values) {
                return Err(format!("{} does not make the sides equal", self.told_values(values)));
            }
            for (other_place, other) in self.substitutions.iter().enumerate() {
                if place != other_place && comes_from(values, other, may_be_empty(self.way)) {
                    return Err(format!(
                        "{} comes from {}",
                        self.told_values(values),
                        self.told_values(other)
                    ));
                }
            }
        }
        Ok(())
    }

    /// Each replacement by small sums that makes the sides equal comes from a listed substitution.
    fn check_complete(&self, checked: &mut Checked) -> Result<(), String> {
        let constants: Vec<u8> = (FIRST_CONSTANT..).take(CONSTANTS).collect();
        let sums: Vec<Sum> = multisets(&constants, LARGEST_SUM[self.variables.len()])
            .iter()
            .filter(|atoms| may_be_empty(self.way) || !atoms.is_empty())
            .filter_map(|atoms| sum_of(atoms))
            .collect();
        self.check_replacements(&sums, &mut Vec::new(), checked)
    }

    /// The same for all replacements that begin with the given values.
    fn check_replacements(
        &self,
        sums: &[Sum],
        values: &mut Vec<Sum>,
        checked: &mut Checked,
    ) -> Result<(), String> {
        if values.len() < self.variables.len() {
            for sum in sums {
                values.push(*sum);
                self.check_replacements(sums, values, checked)?;
                values.pop();
            }
            return Ok(());
        }
        checked.replacements += 1;
        if self.makes_equal(values) {
            checked.unifiers += 1;
            let comes = |listed: &Vec<Sum>| comes_from(values, listed, may_be_empty(self.way));
            if !self.substitutions.iter().any(comes) {
                return Err(format!(
                    "{} makes the sides equal and comes from no key",
                    self.told_values(values)
                ));
            }
        }
        Ok(())
    }

    /// Whether the two sides become the same sum.
    fn makes_equal(&self, values: &[Sum]) -> bool {
        total(&self.sides.left, &self.variables, values) == total(&self.sides.right, &self.variables, values)
    }

    /// A substitution in words.
    fn told_values(&self, values: &[Sum]) -> String {
        let told = |(&variable, value): (&u8, &Sum)| format!("{}={}", name(variable), sum(&atoms_of(value)));
        format!("[{}]", self.variables.iter().zip(values).map(told).collect::<Vec<_>>().join(" "))
    }
}
