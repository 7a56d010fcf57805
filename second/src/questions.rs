//! The questions of a comparison: the fixed ones, then random ones up to the stated number.

use crate::answer::answer;
use crate::block::Sides;
use crate::chance::Chance;
use crate::names::told;
use crate::pair::{Way, FIRST_CONSTANT, LAST_ATOM};
use crate::question::{Ask, Question};
use crate::sides::shuffled;
use crate::solved::Solved;

/// A side of this many atoms takes no further one.
const MOST_ATOMS: usize = 64;

/// The longest buffer in bytes.
const LONGEST_BUFFER: usize = 4096;
/// The longest buffer of a page in numbers.
pub const LONGEST_PAGE: usize = 1024;

/// Questions being gathered.
pub struct Questions {
    pub chance: Chance,
    asked: Vec<Question>,
}

/// Exactly so many questions that a seed sets. An error if the fixed ones alone are more, or if a list does
/// not have the number of keys that Count gives.
pub fn questions(seed: u64, total: usize) -> Result<Vec<Question>, String> {
    let mut questions = Questions { chance: Chance::new(seed), asked: Vec::new() };
    questions.ask_fixed_reads();
    questions.ask_fixed_pairs()?;
    questions.ask_fixed_matches()?;
    questions.ask_fixed_identities()?;
    questions.ask_fixed_writes();
    let fixed = questions.asked.len();
    if fixed > total {
        return Err(format!("{total} questions are too few: the fixed ones alone are {fixed}"));
    }
    while questions.asked.len() < total {
        match questions.chance.below(20) {
            0 | 1 => questions.ask_random_read(),
            2 => questions.ask_random_write(),
            3..=7 => questions.ask_random_pair(Way::Matching)?,
            8..=11 => questions.ask_random_pair(Way::Identity)?,
            _ => questions.ask_random_pair(Way::Unifying)?,
        }
    }
    questions.asked.truncate(total);
    Ok(questions.asked)
}

impl Questions {
    /// Asks the questions from a place on once more, of the same pair in another order, swapped where all variables move,
    /// and with a constant added to both sides. An error if an own answer is another then (document 02, R-6).
    pub fn ask_rewritten(&mut self, way: Way, from: usize) -> Result<(), String> {
        for question in self.asked[from..].to_vec() {
            for sides in self.rewritten(way, &question.sides) {
                let again = Question { sides, ..question.clone() };
                if answer(&again, Solved::of) != answer(&question, Solved::of) {
                    return Err(format!(
                        "{} is answered otherwise than {}",
                        told(&again.sides),
                        told(&question.sides)
                    ));
                }
                self.asked.push(again);
            }
        }
        Ok(())
    }

    /// How many questions have been asked.
    pub fn number(&self) -> usize {
        self.asked.len()
    }

    /// The other ways in which a pair may be written.
    fn rewritten(&mut self, way: Way, sides: &Sides) -> Vec<Sides> {
        let mut rewritten = vec![shuffled(&mut self.chance, sides)];
        if way != Way::Matching {
            rewritten.push(Sides { left: sides.right.clone(), right: sides.left.clone() });
        }
        let (left, right) = (&sides.left, &sides.right);
        let constant = self.chance.byte(FIRST_CONSTANT, LAST_ATOM);
        let lengths = usize::from(way != Way::Identity)..MOST_ATOMS;
        if [left, right].iter().all(|side| lengths.contains(&side.len())) {
            rewritten.push(Sides {
                left: [&[constant], &left[..]].concat(),
                right: [&right[..], &[constant]].concat(),
            });
        }
        rewritten
    }

    /// Adds a question whose buffers are long enough.
    pub fn ask(&mut self, ask: Ask, sides: &Sides) {
        let first = self.long_enough(ask);
        let second = self.long_enough(ask);
        self.ask_with_buffers(ask, sides, first, second);
    }

    /// Adds a question whose buffers may be too short.
    pub fn ask_any(&mut self, ask: Ask, sides: &Sides) {
        let first = self.any_length(ask);
        let second = self.any_length(ask);
        self.ask_with_buffers(ask, sides, first, second);
    }

    /// Adds a question with each of some lengths of its buffers: one short, exact, one more, and the longest.
    pub fn ask_with_each_buffer(&mut self, ask: Ask, sides: &Sides) {
        let least = ask.least_buffer();
        for length in [least - 1, least, least + 1, longest(ask)] {
            self.ask_with_buffers(ask, sides, length, least);
            if matches!(ask, Ask::Read { .. }) {
                self.ask_with_buffers(ask, sides, least, length);
            }
        }
    }

    /// Adds a question with buffers of these lengths, cut to what the protocol allows; only Read has a second
    /// one.
    fn ask_with_buffers(&mut self, ask: Ask, sides: &Sides, first: usize, second: usize) {
        let is_read = matches!(ask, Ask::Read { .. });
        self.asked.push(Question {
            ask,
            sides: sides.clone(),
            fill: self.chance.byte(0, u8::MAX),
            first_buffer: first.min(longest(ask)) as u16,
            second_buffer: if is_read { second as u16 } else { 0 },
        });
    }

    /// The length of a buffer that is long enough, in half of the cases just so.
    fn long_enough(&mut self, ask: Ask) -> usize {
        let least = ask.least_buffer();
        match self.chance.below(32) {
            0 => least.max(longest(ask)),
            1..=15 => least + self.chance.below(40),
            _ => least,
        }
    }

    /// The length of any buffer, too short in one of eight cases.
    fn any_length(&mut self, ask: Ask) -> usize {
        match self.chance.below(16) {
            0 => ask.least_buffer() - 1,
            1 => self.chance.below(ask.least_buffer()),
            _ => self.long_enough(ask),
        }
    }
}

/// The longest buffer that the protocol allows for a question.
fn longest(ask: Ask) -> usize {
    match ask {
        Ask::Page { .. } => LONGEST_PAGE,
        Ask::Count => 0,
        _ => LONGEST_BUFFER,
    }
}
