//! Planted faults: answers that are wrong in one known way, to show that the comparison can fail. One for
//! each question, one for the variables of a right term, two for the atom that 10 names, two for the shape that
//! is written, three for matching, three for Count, five for the number of candidates weighed, two for the longest value, six
//! for sums with an identity, one for each plausible error of document 01, two in the nightly text and two in the census text.

use crate::answer::{answer, in_halves, value_lengths};
use crate::block::{seal, Sides, APART, BLOCK, PLUS, TERMS};
use crate::census::{census, MOST_BLOCKS};
use crate::list::{field_shift, stages, take_all_balanced, without_covers, List, Stage};
use crate::pair::{
    must_be_sides, net_counts, shared_variables, Pair, Way, FIRST_CONSTANT, FURTHEST_NET_COUNT,
};
use crate::question::{Answer, Ask, Question, FIGURES};
use crate::refusal::Refusal;
use crate::rows::{at_or_below, weight, Groups, Row, MOST_ROWS};
use crate::sides::apart;
use crate::solved::Solved;
use crate::text;
use crate::values::FIRST_NEW_VARIABLE;
use std::io::{self, Read, Write};

/// One way to be wrong.
#[derive(Clone, Copy, Debug, PartialEq, Eq)]
pub enum Fault {
    /// Read looks at the block number before the check.
    NumberBeforeCheck,
    /// Read gives the right term's variables as they are written.
    RightAsWritten,
    /// Rows clears the byte after the last row.
    ByteAfterRows,
    /// Page says that more follow whenever it is full.
    MoreWhenFull,
    /// Values puts the new variables of a value before the constants.
    NewVariablesFirst,
    /// A variable is bounded by the counts on its own side.
    OwnSideBound,
    /// Only the set of all balanced rows is taken.
    AllRowsOnly,
    /// Variables of net count 0 are dropped.
    NetCountZeroDropped,
    /// Rows of the first constant answer for the second one too.
    ConstantsMixed,
    /// Rows that are the half sum of two others are left out.
    HalfSumsLeftOut,
    /// A new vector is compared only with the row found last.
    LastRowOnly,
    /// A net count too far from 0 is told with the highest such atom.
    HighestAtom,
    /// The atom named is the first that stands too often and not the lowest.
    FirstAtom,
    /// Write leaves the right side's variables as they are.
    RightNotLowered,
    /// Write adds all atoms but the last before it adds the last.
    NestedToTheLeft,
    /// Matching lets the right side's variables move too.
    SubjectMoves,
    /// Matching gives 19 only for a variable whose net count is not 0.
    SharedByNetCount,
    /// Matching counts the variables of both sides for 9.
    NineCountsBoth,
    /// Count adds the selections that leave a variable uncovered where it should take them away.
    CountSign,
    /// Count takes the rows of constants as if they covered no variable.
    CountUnrestricted,
    /// Count gives 13 where there is no unifier.
    CountThirteen,
    /// Page weighs only the keys that it writes.
    WeighedWritten,
    /// Page does not count the last key that it writes as weighed.
    WeighedWithoutLast,
    /// Page counts the key after which it begins as weighed.
    WeighedBeginning,
    /// Page counts what it weighs to see whether more follow.
    WeighedAhead,
    /// Page works out the number weighed with the sizes of the constants' groups in the other order.
    WeighedSizesSwapped,
    /// Values asks for the buffer that a value of 200 atoms would need.
    ValuesLongerBuffer,
    /// Values gives 17 for a value that is longer than 127 atoms.
    ValuesSeventeen,
    /// With an identity the first balanced row is not taken.
    IdentityBitMissing,
    /// With an identity any set of balanced rows may be taken.
    IdentityAnySet,
    /// With an identity each variable must still be covered.
    IdentityReach,
    /// With an identity 13 is given where some variable is covered by no row at all.
    IdentityThirteen,
    /// With an identity a side without atoms is refused.
    IdentityEmptySide,
    /// With an identity Page weighs every set of balanced rows.
    IdentityWeighed,
    /// The nightly text says `more` for a list of exactly 200.
    TextMore,
    /// The nightly text counts blocks without unifier as refused.
    TextCounts,
    /// The census text counts each refused block as one unifier.
    CensusRefused,
    /// The census text goes on for one block more.
    CensusLimit,
}

/// All faults by name.
pub const FAULTS: [(&str, Fault); 38] = [
    ("number-before-check", Fault::NumberBeforeCheck),
    ("right-as-written", Fault::RightAsWritten),
    ("byte-after-rows", Fault::ByteAfterRows),
    ("more-when-full", Fault::MoreWhenFull),
    ("new-variables-first", Fault::NewVariablesFirst),
    ("own-side-bound", Fault::OwnSideBound),
    ("all-rows-only", Fault::AllRowsOnly),
    ("net-count-zero-dropped", Fault::NetCountZeroDropped),
    ("constants-mixed", Fault::ConstantsMixed),
    ("half-sums-left-out", Fault::HalfSumsLeftOut),
    ("last-row-only", Fault::LastRowOnly),
    ("highest-atom", Fault::HighestAtom),
    ("first-atom", Fault::FirstAtom),
    ("right-not-lowered", Fault::RightNotLowered),
    ("nested-to-the-left", Fault::NestedToTheLeft),
    ("subject-moves", Fault::SubjectMoves),
    ("shared-by-net-count", Fault::SharedByNetCount),
    ("nine-counts-both", Fault::NineCountsBoth),
    ("count-sign", Fault::CountSign),
    ("count-unrestricted", Fault::CountUnrestricted),
    ("count-thirteen", Fault::CountThirteen),
    ("weighed-written", Fault::WeighedWritten),
    ("weighed-without-last", Fault::WeighedWithoutLast),
    ("weighed-beginning", Fault::WeighedBeginning),
    ("weighed-ahead", Fault::WeighedAhead),
    ("weighed-sizes-swapped", Fault::WeighedSizesSwapped),
    ("values-longer-buffer", Fault::ValuesLongerBuffer),
    ("values-seventeen", Fault::ValuesSeventeen),
    ("identity-bit-missing", Fault::IdentityBitMissing),
    ("identity-any-set", Fault::IdentityAnySet),
    ("identity-reach", Fault::IdentityReach),
    ("identity-thirteen", Fault::IdentityThirteen),
    ("identity-empty-side", Fault::IdentityEmptySide),
    ("identity-weighed", Fault::IdentityWeighed),
    ("text-more", Fault::TextMore),
    ("text-counts", Fault::TextCounts),
    ("census-refused", Fault::CensusRefused),
    ("census-limit", Fault::CensusLimit),
];

/// The fault with a name.
pub fn named(name: &str) -> Option<Fault> {
    FAULTS.iter().find(|(known, _)| *known == name).map(|(_, fault)| *fault)
}

/// The answer to a question, wrong where a fault is planted.
pub fn answer_with(question: &Question, fault: Option<Fault>) -> Answer {
    match fault {
        None => answer(question, Solved::of),
        Some(fault) => {
            let mut answer = answer(question, |way, sides| fault.solve(way, sides));
            fault.spoil_answer(question, &mut answer);
            answer
        }
    }
}

/// The nightly text of a library, wrong where a fault is planted.
pub fn nightly_with(library: impl Read, mut output: impl Write, fault: Option<Fault>) -> io::Result<()> {
    let Some(fault) = fault else { return text::print_library(Way::Unifying, library, output) };
    let mut right_text = Vec::new();
    text::print_library(Way::Unifying, library, &mut right_text)?;
    let text = String::from_utf8_lossy(&right_text);
    let spoiled = match fault {
        Fault::TextMore => text.replace("end 200\n", "more\n"),
        Fault::TextCounts => text.lines().map(none_counted_as_refused).collect(),
        _ => text.into_owned(),
    };
    output.write_all(spoiled.as_bytes())
}

/// The census text of a library, wrong where a fault is planted.
pub fn census_with(library: impl Read, mut output: impl Write, fault: Option<Fault>) -> io::Result<()> {
    match fault {
        Some(Fault::CensusLimit) => census(library, output, MOST_BLOCKS + 1),
        Some(Fault::CensusRefused) => {
            let mut right_text = Vec::new();
            census(library, &mut right_text, MOST_BLOCKS)?;
            let text = String::from_utf8_lossy(&right_text);
            let refused = text.lines().filter(|line| line.contains(" refused ")).count() as u64;
            let spoiled: String = text.lines().map(|line| with_more_in_total(line, refused)).collect();
            output.write_all(spoiled.as_bytes())
        }
        _ => census(library, output, MOST_BLOCKS),
    }
}

/// A line of the census text; the last one's total has so many more.
fn with_more_in_total(line: &str, more: u64) -> String {
    match line.strip_prefix("total ").and_then(|total| total.parse::<u64>().ok()) {
        Some(total) => format!("total {}\n", total + more),
        None => format!("{line}\n"),
    }
}

/// A line of the text; of the last one, the blocks without unifier are moved to the refused ones.
fn none_counted_as_refused(line: &str) -> String {
    let words: Vec<&str> = line.split(' ').collect();
    match words[..] {
        ["blocks", blocks, "listed", listed, "none", none, "refused", refused] => {
            let sum = none.parse::<u64>().unwrap_or(0) + refused.parse::<u64>().unwrap_or(0);
            format!("blocks {blocks} listed {listed} none 0 refused {sum}\n")
        }
        _ => format!("{line}\n"),
    }
}

impl Fault {
    /// Whether the fault changes which unifiers are given or how many are counted, so that the semantic check must
    /// object as well.
    pub fn changes_unifiers(self) -> bool {
        matches!(
            self,
            Fault::OwnSideBound
                | Fault::AllRowsOnly
                | Fault::NetCountZeroDropped
                | Fault::ConstantsMixed
                | Fault::HalfSumsLeftOut
                | Fault::LastRowOnly
                | Fault::CountSign
                | Fault::CountUnrestricted
                | Fault::CountThirteen
                | Fault::IdentityBitMissing
                | Fault::IdentityAnySet
                | Fault::IdentityReach
                | Fault::IdentityThirteen
                | Fault::IdentityEmptySide
        )
    }

    /// The way of listing in which the fault shows.
    pub fn way(self) -> Way {
        match self {
            Fault::IdentityBitMissing
            | Fault::IdentityAnySet
            | Fault::IdentityReach
            | Fault::IdentityThirteen
            | Fault::IdentityEmptySide
            | Fault::IdentityWeighed => Way::Identity,
            Fault::SubjectMoves | Fault::SharedByNetCount | Fault::NineCountsBoth => Way::Matching,
            _ => Way::Unifying,
        }
    }

    /// Whether the fault is in the number of candidates weighed.
    fn in_weighing(self) -> bool {
        matches!(
            self,
            Fault::WeighedWritten
                | Fault::WeighedWithoutLast
                | Fault::WeighedBeginning
                | Fault::WeighedAhead
                | Fault::WeighedSizesSwapped
                | Fault::IdentityWeighed
        )
    }

    /// Whether the fault is in the nightly text.
    pub fn in_text(self) -> bool {
        matches!(self, Fault::TextMore | Fault::TextCounts)
    }

    /// Whether the fault is in the census text.
    pub fn in_census(self) -> bool {
        matches!(self, Fault::CensusRefused | Fault::CensusLimit)
    }

    /// A pair solved with the fault.
    fn solve(self, way: Way, sides: &Sides) -> Result<Solved, Refusal> {
        match way {
            Way::Unifying | Way::Identity => self.unify(way, sides),
            Way::Matching => self.match_subject(sides),
        }
    }

    /// A pair matched with the fault.
    fn match_subject(self, sides: &Sides) -> Result<Solved, Refusal> {
        let right = Solved::of(Way::Matching, sides);
        match (self, right.as_ref().err()) {
            (Fault::SubjectMoves, None) => Solved::of(Way::Unifying, sides),
            (Fault::SharedByNetCount, Some(Refusal::Shared))
                if shared_variables(sides).iter().all(|count| count.net == 0) =>
            {
                Solved::of(Way::Matching, &apart(sides))
            }
            (Fault::NineCountsBoth, why)
                if why != Some(&Refusal::Shared)
                    && Pair::of(Way::Unifying, sides) == Err(Refusal::Variables) =>
            {
                Err(Refusal::Variables)
            }
            _ => right,
        }
    }

    /// A pair unified with the fault, with an identity or without.
    fn unify(self, way: Way, sides: &Sides) -> Result<Solved, Refusal> {
        if self == Fault::IdentityEmptySide {
            must_be_sides(sides, 1)?;
        }
        let mut pair = Pair::of(way, sides)?;
        if self == Fault::NetCountZeroDropped {
            pair.variables.retain(|variable| variable.net != 0);
        }
        let groups = self.groups(&pair)?;
        let list = match way {
            Way::Identity => self.list_with_identity(&pair, &groups),
            _ => self.list(&pair, &groups),
        };
        Ok(Solved { pair, groups, list })
    }

    /// The list of a pair's rows with the fault.
    fn list(self, pair: &Pair, groups: &Groups) -> List {
        let mut stages = stages(groups);
        if self == Fault::AllRowsOnly {
            take_all_balanced(&mut stages);
        }
        List::of_stages(stages, pair.variables.len())
    }

    /// The list of a pair's rows with the fault, where sums have an identity.
    fn list_with_identity(self, pair: &Pair, groups: &Groups) -> List {
        let mut stages = stages(groups);
        let covered =
            stages.iter().flat_map(|stage| &stage.choices).fold(0, |all, choice| all | choice.cover);
        let variables = pair.variables.len();
        match self {
            Fault::IdentityBitMissing => {
                take_all_balanced(&mut stages);
                stages.last_mut().into_iter().for_each(|first_row| first_row.choices[0].bits = 0);
                List::of_stages(without_covers(stages), 0)
            }
            Fault::IdentityAnySet => List::of_stages(without_covers(stages), 0),
            Fault::IdentityReach => {
                take_all_balanced(&mut stages);
                List::of_stages(stages, variables)
            }
            Fault::IdentityThirteen if covered.count_ones() as usize != variables => {
                stages[0].choices.clear();
                List::of_stages(stages, variables)
            }
            _ => List::with_identity(groups),
        }
    }

    /// The rows of a pair with the fault.
    fn groups(self, pair: &Pair) -> Result<Groups, Refusal> {
        let mut groups = Groups::of(pair)?;
        match self {
            Fault::OwnSideBound => {
                each_group(&mut groups, |rows| rows.retain(|row| within_own_side(pair, row)))
            }
            Fault::HalfSumsLeftOut => each_group(&mut groups, leave_out_half_sums),
            Fault::ConstantsMixed => groups = Groups::of(&mixed(pair))?,
            Fault::LastRowOnly => groups = compared_with_last_only(pair, &groups)?,
            _ => (),
        }
        Ok(groups)
    }

    /// Changes the right answer where the fault lies in how it is given.
    fn spoil_answer(self, question: &Question, answer: &mut Answer) {
        match (self, question.ask) {
            (Fault::NumberBeforeCheck, Ask::Read { expected }) => {
                let other_number = question.sides.left.get(..2) != Some(&expected.to_be_bytes()[..]);
                if answer.number == Refusal::Check.number() && other_number {
                    answer.number = Refusal::BlockNumber.number();
                }
            }
            (Fault::RightAsWritten, Ask::Read { .. }) => give_right_as_written(answer),
            (Fault::ByteAfterRows, Ask::Rows { way }) => clear_byte_after_rows(way, question, answer),
            (Fault::MoreWhenFull, Ask::Page { .. }) if answer.number == 0 => {
                answer.figures[1] = u32::from(answer.figures[0] as usize == question.ask.wanted());
            }
            (Fault::NewVariablesFirst, Ask::Values { .. }) => put_new_variables_first(answer),
            (Fault::ValuesLongerBuffer, Ask::Values { .. }) if question.first_buffer < 1212 => {
                refuse(question, answer, Refusal::Buffer.number())
            }
            (Fault::ValuesSeventeen, Ask::Values { .. })
                if value_lengths(answer).iter().any(|&n| n > 127) =>
            {
                refuse(question, answer, 17)
            }
            (Fault::RightNotLowered, Ask::Write { .. }) if answer.number == 0 => {
                leave_right_as_it_was(answer)
            }
            (Fault::NestedToTheLeft, Ask::Write { .. }) if answer.number == 0 => nest_to_the_left(answer),
            (Fault::CountSign | Fault::CountUnrestricted | Fault::CountThirteen, Ask::Count) => {
                if let Ok(solved) = Solved::of(Way::Unifying, &question.sides) {
                    self.spoil_count(&solved, answer);
                }
            }
            (_, Ask::Page { way, after, .. }) if answer.number == 0 && self.in_weighing() => {
                if let Ok(solved) = Solved::of(way, &question.sides) {
                    self.spoil_weighed(&solved, after, answer);
                }
            }
            (Fault::HighestAtom | Fault::FirstAtom, _) if answer.number == Refusal::NetCount(0).number() => {
                let far = far_atoms(&question.sides);
                let first =
                    question.sides.left.iter().chain(&question.sides.right).find(|atom| far.contains(atom));
                let atom = if self == Fault::HighestAtom { far.last() } else { first };
                answer.figures[0] = atom.map_or(0, |&atom| u32::from(atom));
            }
            _ => (),
        }
    }

    /// Changes the number of unifiers of a pair, or gives 13 in its place.
    fn spoil_count(self, solved: &Solved, answer: &mut Answer) {
        let mut stages = stages(&solved.groups);
        let variables = solved.pair.variables.len();
        match self {
            Fault::CountSign => {
                let sets = 0..1u8 << variables;
                let sum = sets.map(|set| runs_avoiding(&stages, set)).sum();
                answer.figures[..2].copy_from_slice(&in_halves(sum));
            }
            Fault::CountUnrestricted => {
                let of_constants = stages.iter_mut().filter(|stage| stage.field >= 1 << MOST_ROWS);
                of_constants.flat_map(|stage| &mut stage.choices).for_each(|choice| choice.cover = 0);
                let number = List::of_stages(stages, variables).number();
                answer.figures[..2].copy_from_slice(&in_halves(number));
            }
            _ if solved.list.is_empty() => answer.number = Refusal::NoUnifier.number(),
            _ => (),
        }
    }

    /// Changes the number of candidates that a page has weighed.
    fn spoil_weighed(self, solved: &Solved, after: Option<u32>, answer: &mut Answer) {
        let written = answer.figures[0] as usize;
        let keys = solved.list.keys(after, written + 1);
        let (last, next) = (keys[written - 1], keys[keys.len() - 1]);
        let right = solved.list.candidates(after, last);
        let weighed = match self {
            Fault::WeighedWritten => written as u64,
            Fault::WeighedWithoutLast => right - 1,
            Fault::WeighedBeginning => right + u64::from(after.is_some()),
            Fault::WeighedAhead => solved.list.candidates(after, next),
            Fault::WeighedSizesSwapped => {
                let before = after.map_or(0, |key| rank_with_sizes_swapped(&solved.groups, key));
                rank_with_sizes_swapped(&solved.groups, last).wrapping_sub(before)
            }
            Fault::IdentityWeighed => List::of(&solved.pair, &solved.groups).candidates(after, last),
            _ => right,
        };
        answer.figures[2..4].copy_from_slice(&in_halves(weighed));
    }
}

/// How many candidates there are up to a key if the sizes of the constants' groups stand in the other order.
fn rank_with_sizes_swapped(groups: &Groups, key: u32) -> u64 {
    let sizes = groups.constants.iter().rev().map(|rows| rows.len() as u64);
    let fields = (0..).map(|place| u64::from(key >> field_shift(place) & 0xF));
    let rows = sizes.zip(fields).fold(0, |rank, (size, field)| rank * size + field);
    (rows << groups.balanced.len()) + u64::from(key & 0xFFFF) + 1
}

/// How many runs of choices cover nothing of a set of variables.
fn runs_avoiding(stages: &[Stage], set: u8) -> u64 {
    let choices = |stage: &Stage| stage.choices.iter().filter(|choice| choice.cover & set == 0).count();
    stages.iter().map(|stage| choices(stage) as u64).product()
}

/// The atoms whose net counts are too far from 0, ascending.
fn far_atoms(sides: &Sides) -> Vec<u8> {
    let far = net_counts(sides).into_iter().filter(|count| count.net.abs() > FURTHEST_NET_COUNT);
    far.map(|count| count.atom).collect()
}

/// Does the same to the balanced rows and to those of each constant.
fn each_group(groups: &mut Groups, change: impl Fn(&mut Vec<Row>)) {
    change(&mut groups.balanced);
    groups.constants.iter_mut().for_each(change);
}

/// Whether each number of a row is within the highest net count on the variable's own side.
fn within_own_side(pair: &Pair, row: &Row) -> bool {
    pair.variables.iter().zip(row).all(|(variable, &number)| {
        let same_side = pair.variables.iter().filter(|other| other.net * variable.net > 0);
        let bound = same_side.map(|other| other.net.abs()).max().unwrap_or(1);
        i32::from(number) <= bound
    })
}

/// Removes the rows that are the half sum of two other rows of their group.
fn leave_out_half_sums(rows: &mut Vec<Row>) {
    let all = rows.clone();
    rows.retain(|row| {
        let is_half_sum = |one: &Row, other: &Row| {
            one != row && row.iter().zip(one.iter().zip(other)).all(|(&half, (&a, &b))| 2 * half == a + b)
        };
        !all.iter().any(|one| all.iter().any(|other| is_half_sum(one, other)))
    });
}

/// The pair in which the first constant's net count has the second one's added.
fn mixed(pair: &Pair) -> Pair {
    let mut mixed = pair.clone();
    if let [first, second, ..] = &mut mixed.constants[..] {
        first.net += second.net;
    }
    mixed
}

/// The groups that come out if the vectors up to the largest numbers of the right rows are tried in ascending
/// order and each is compared only with the row found last.
fn compared_with_last_only(pair: &Pair, right: &Groups) -> Result<Groups, Refusal> {
    let nets: Vec<i32> = pair.variables.iter().map(|variable| variable.net).collect();
    let kept = |rows: &[Row], constant: i32| {
        let mut kept: Vec<Row> = Vec::new();
        for vector in vectors_up_to_largest(rows, nets.len()) {
            let fits =
                constant + weight(&nets, &vector) == 0 && (constant != 0 || vector.iter().any(|&n| n > 0));
            if fits && !kept.last().is_some_and(|last| at_or_below(last, &vector)) {
                kept.push(vector);
            }
        }
        if kept.len() > MOST_ROWS {
            Err(Refusal::Rows)
        } else {
            Ok(kept)
        }
    };
    let constants = pair.constants.iter().zip(&right.constants);
    Ok(Groups {
        balanced: kept(&right.balanced, 0)?,
        constants: constants.map(|(constant, rows)| kept(rows, constant.net)).collect::<Result<_, _>>()?,
    })
}

/// All vectors, ascending, that are in each place at most as large as the largest of the rows there.
fn vectors_up_to_largest(rows: &[Row], places: usize) -> Vec<Row> {
    let mut vectors = vec![Vec::new()];
    for place in 0..places {
        let largest = rows.iter().map(|row| row[place]).max().unwrap_or(0);
        let longer = |vector: &Row| {
            let vector = vector.clone();
            (0..=largest).map(move |number| [&vector[..], &[number]].concat())
        };
        vectors = vectors.iter().flat_map(longer).collect();
    }
    vectors
}

/// Numbers the right side's variables as the block has them.
fn give_right_as_written(answer: &mut Answer) {
    let right = answer.second.iter_mut().take(answer.figures[1] as usize);
    right.filter(|atom| **atom < FIRST_CONSTANT).for_each(|atom| *atom -= APART);
}

/// Gives a written block the right side's variables as they were, and its check.
fn leave_right_as_it_was(answer: &mut Answer) {
    let (start, end) = right_term(answer);
    let right = answer.first[start..end].iter_mut();
    right.filter(|byte| **byte < FIRST_CONSTANT).for_each(|byte| *byte += APART);
    seal(&mut answer.first[..BLOCK]);
}

/// Puts the pluses of a written block's right term before all of its atoms.
fn nest_to_the_left(answer: &mut Answer) {
    let (start, end) = right_term(answer);
    answer.first[start..end].sort_by_key(|&byte| byte != PLUS);
    seal(&mut answer.first[..BLOCK]);
}

/// Where the right term of a written block begins and ends.
fn right_term(answer: &Answer) -> (usize, usize) {
    let start = TERMS + usize::from(answer.first[2]);
    (start, start + usize::from(answer.first[3]))
}

/// Sets the byte after the written rows to 0, if there is one.
fn clear_byte_after_rows(way: Way, question: &Question, answer: &mut Answer) {
    let Ok(solved) = Solved::of(way, &question.sides) else { return };
    let rows = solved.groups.balanced.iter().chain(solved.groups.constants.iter().flatten());
    let written: usize = rows.map(Vec::len).sum();
    if let (0, Some(byte)) = (answer.number, answer.first.get_mut(written)) {
        *byte = 0;
    }
}

/// Gives a number in place of what was answered.
fn refuse(question: &Question, answer: &mut Answer, number: u8) {
    *answer = Answer { number, figures: [0; FIGURES], ..answer.clone() };
    answer.first.fill(question.fill);
}

/// Puts the new variables of each value before its constants.
fn put_new_variables_first(answer: &mut Answer) {
    let length = answer.figures[0] as usize;
    let mut rest = &mut answer.first[..length];
    while !rest.is_empty() {
        let count = usize::from(rest[1]);
        let (value, after) = rest.split_at_mut(2 + count);
        value[2..].sort_by_key(|&atom| (atom < FIRST_NEW_VARIABLE, atom));
        rest = after;
    }
}
