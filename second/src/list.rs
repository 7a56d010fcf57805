//! The list of keys (document 01, From sides to equations), never held as a whole. A selection is a run of
//! twenty choices, from the highest bits of its key to the lowest: a row for each constant's field, then for
//! each balanced row from 15 down to 0 whether it is taken. A choice is made only if the variables that are
//! still uncovered can be covered by the choices that remain, so the keys come in ascending order and the way
//! from one to the next is at most twenty choices back and twenty forth.

use crate::pair::Pair;
use crate::rows::{Groups, Row, MOST_ROWS};

const CONSTANT_FIELDS: usize = 4;
const HIGHEST_FIELD: usize = 28;
const FIELD_BITS: usize = 4;
/// How many sets of six variables there are.
const SETS: usize = 64;

/// How many runs of choices cover just the variables of a set, by the set.
type Runs = [u64; SETS];

/// One way to decide a stage: its bits of the key and the set of variables that it covers.
#[derive(Clone, Debug)]
pub struct Choice {
    pub bits: u32,
    pub cover: u8,
}

/// One decision of a selection: its field of the key and the choices, ascending.
#[derive(Clone, Debug)]
pub struct Stage {
    pub field: u32,
    pub choices: Vec<Choice>,
}

/// The admissible selections of a pair, ascending by key.
#[derive(Clone, Debug)]
pub struct List {
    stages: Vec<Stage>,
    /// For each stage, and after the last, the sets of variables that the stages from there on can complete:
    /// bit s stands for the set s.
    completable: Vec<u64>,
    every_variable: u8,
}

/// Where a key's field for the constant with this place begins.
pub fn field_shift(place: usize) -> usize {
    HIGHEST_FIELD - FIELD_BITS * place
}

impl List {
    /// The list of a pair with its rows.
    pub fn of(pair: &Pair, groups: &Groups) -> List {
        List::of_stages(stages(groups), pair.variables.len())
    }

    /// The list of a pair's rows where sums have an identity (document 02, R-10): a row for each constant and all
    /// balanced rows, and no variable has to be covered.
    pub fn with_identity(groups: &Groups) -> List {
        let mut stages = stages(groups);
        take_all_balanced(&mut stages);
        List::of_stages(without_covers(stages), 0)
    }

    /// The list that a run of stages makes over a number of variables.
    pub fn of_stages(stages: Vec<Stage>, variables: usize) -> List {
        let every_variable = ((1u16 << variables) - 1) as u8;
        let mut completable = vec![1u64 << every_variable];
        for stage in stages.iter().rev() {
            let later = completable[completable.len() - 1];
            completable.push(sets_leading_into(stage, later));
        }
        completable.reverse();
        List { stages, completable, every_variable }
    }

    /// Whether no selection is admissible.
    pub fn is_empty(&self) -> bool {
        !self.can_complete(0, 0)
    }

    /// Whether the stages from one on can cover what a set of variables lacks.
    fn can_complete(&self, stage: usize, cover: u8) -> bool {
        self.completable[stage] >> cover & 1 == 1
    }

    /// Whether a key is listed: each of its fields holds a choice and together they cover every variable.
    pub fn holds(&self, key: u32) -> bool {
        let mut cover = 0;
        for stage in &self.stages {
            match stage.choices.iter().find(|choice| choice.bits == key & stage.field) {
                Some(choice) => cover |= choice.cover,
                None => return false,
            }
        }
        cover == self.every_variable
    }

    /// The first keys above the given one, or from the start, as many as wanted or all that remain.
    pub fn keys(&self, after: Option<u32>, wanted: usize) -> Vec<u32> {
        let mut keys = Vec::new();
        let nothing_chosen = Choice { bits: 0, cover: 0 };
        self.walk(0, nothing_chosen, after, wanted, &mut keys);
        keys
    }

    /// Adds the keys that begin with the choices made so far. While those equal the fields of `after`, lower
    /// choices are passed over; the first higher one sets the walk free.
    fn walk(&self, stage: usize, so_far: Choice, after: Option<u32>, wanted: usize, keys: &mut Vec<u32>) {
        if keys.len() == wanted || !self.can_complete(stage, so_far.cover) {
            return;
        }
        let Some(decision) = self.stages.get(stage) else {
            if after.is_none() {
                keys.push(so_far.bits);
            }
            return;
        };
        for choice in &decision.choices {
            let bound = after.map(|key| key & decision.field);
            if bound.is_some_and(|bound| choice.bits < bound) {
                continue;
            }
            let still_bound = after.filter(|_| bound == Some(choice.bits));
            let next = Choice { bits: so_far.bits | choice.bits, cover: so_far.cover | choice.cover };
            self.walk(stage + 1, next, still_bound, wanted, keys);
        }
    }

    /// How many candidates lie after a key, or from the start on, up to and including another (document 02, R-8). A
    /// candidate is any run of choices. Those with the same rows for the constants are numbers without a gap between
    /// them, so that of each such stretch the part between the two ends is counted.
    pub fn candidates(&self, after: Option<u32>, last: u32) -> u64 {
        let (constants, balanced) = self.stages.split_at(CONSTANT_FIELDS);
        let (lowest, highest) = ends(balanced);
        let start = after.map_or(0, |key| u64::from(key) + 1);
        let part = |rows: u32| {
            let end = u64::from(last.min(rows | highest)) + 1;
            end.saturating_sub(start.max(u64::from(rows | lowest)))
        };
        runs(constants).into_iter().map(part).sum()
    }

    /// The last key, found by taking the highest choice that can be completed at each stage.
    pub fn last(&self) -> Option<u32> {
        let mut key = 0;
        let mut cover = 0;
        for (place, stage) in self.stages.iter().enumerate() {
            let highest = stage
                .choices
                .iter()
                .rev()
                .find(|choice| self.can_complete(place + 1, cover | choice.cover))?;
            key |= highest.bits;
            cover |= highest.cover;
        }
        Some(key)
    }

    /// How many keys are listed: the runs of choices are counted stage after stage by the set of variables that
    /// they cover, and those that cover every variable at the end are the keys.
    pub fn number(&self) -> u64 {
        let mut before_all = [0; SETS];
        before_all[0] = 1;
        let runs = self.stages.iter().fold(before_all, |runs, stage| lengthened(&runs, stage));
        runs[usize::from(self.every_variable)]
    }
}

/// The bits of each run of choices of some stages.
fn runs(stages: &[Stage]) -> Vec<u32> {
    stages.iter().fold(vec![0], |runs, stage| {
        runs.iter().flat_map(|run| stage.choices.iter().map(move |choice| run | choice.bits)).collect()
    })
}

/// The bits of the lowest and of the highest run of choices of some stages that have choices.
fn ends(stages: &[Stage]) -> (u32, u32) {
    let lowest = stages.iter().filter_map(|stage| stage.choices.first()).map(|choice| choice.bits).sum();
    let highest = stages.iter().filter_map(|stage| stage.choices.last()).map(|choice| choice.bits).sum();
    (lowest, highest)
}

/// The runs that are longer by one choice of a stage.
fn lengthened(runs: &Runs, stage: &Stage) -> Runs {
    let mut longer = [0; SETS];
    for (set, number) in runs.iter().enumerate() {
        for choice in &stage.choices {
            longer[set | usize::from(choice.cover)] += number;
        }
    }
    longer
}

/// The twenty decisions of a selection; a field that is not used has the one choice 0.
pub fn stages(groups: &Groups) -> Vec<Stage> {
    let constants = (0..CONSTANT_FIELDS).map(|place| constant_stage(place, groups.constants.get(place)));
    let balanced = (0..MOST_ROWS).rev().map(|place| balanced_stage(place, groups.balanced.get(place)));
    constants.chain(balanced).collect()
}

/// Leaves only those runs of choices that take every balanced row.
pub fn take_all_balanced(stages: &mut [Stage]) {
    for stage in &mut stages[CONSTANT_FIELDS..] {
        let last = stage.choices.len() - 1;
        stage.choices.drain(..last);
    }
}

/// The stages, with choices that cover nothing.
pub fn without_covers(mut stages: Vec<Stage>) -> Vec<Stage> {
    stages.iter_mut().flat_map(|stage| &mut stage.choices).for_each(|choice| choice.cover = 0);
    stages
}

/// The choice of a row for the constant with this place.
fn constant_stage(place: usize, rows: Option<&Vec<Row>>) -> Stage {
    let shift = field_shift(place);
    let choices = match rows {
        Some(rows) => (0u32..)
            .zip(rows)
            .map(|(index, row)| Choice { bits: index << shift, cover: cover(row) })
            .collect(),
        None => vec![Choice { bits: 0, cover: 0 }],
    };
    Stage { field: 0xF << shift, choices }
}

/// The choice whether the balanced row with this place is taken.
fn balanced_stage(place: usize, row: Option<&Row>) -> Stage {
    let bit = 1 << place;
    let mut choices = vec![Choice { bits: 0, cover: 0 }];
    choices.extend(row.map(|row| Choice { bits: bit, cover: cover(row) }));
    Stage { field: bit, choices }
}

/// The set of variables that are above 0 in a row: bit i stands for the variable with place i.
fn cover(row: &Row) -> u8 {
    row.iter().enumerate().map(|(place, &number)| u8::from(number > 0) << place).sum()
}

/// The sets of variables from which some choice of a stage leads into one of the given sets.
fn sets_leading_into(stage: &Stage, later: u64) -> u64 {
    (0..SETS as u8)
        .filter(|set| stage.choices.iter().any(|choice| later >> (set | choice.cover) & 1 == 1))
        .map(|set| 1 << set)
        .sum()
}
