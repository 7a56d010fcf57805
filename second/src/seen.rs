//! What a comparison has met, so that it fails if it never came to what it is meant to compare.

use crate::answer::value_lengths;
use crate::block::Sides;
use crate::pair::{net_counts, Way, FIRST_CONSTANT};
use crate::question::{Answer, Ask, Question};
use crate::rows::MOST_ROWS;

/// The number that is not used.
const NOT_USED: usize = 17;
/// The refusal that names an atom.
const TOO_FREQUENT: u8 = 10;
/// All refusals, and 0 for none.
const NUMBERS: usize = 20;
/// The refusals of matching.
const OF_MATCHING: [usize; 11] = [7, 8, 9, 10, 11, 12, 13, 14, 15, 16, 19];
/// The refusals with an identity.
const OF_IDENTITY: [usize; 10] = [7, 8, 9, 10, 11, 12, 13, 14, 15, 16];
/// The refusals of Count.
const OF_COUNT: [usize; 6] = [7, 8, 9, 10, 11, 12];
/// A list is long if it has more keys than this.
const THOUSAND_MILLION: u32 = 1_000_000_000;
/// How many atoms the longest value has.
const LONGEST_VALUE: u8 = 135;
/// A page has weighed many candidates if they are more than this.
const MANY: u32 = 32_768;

/// How often each thing was met.
#[derive(Default)]
pub struct Seen {
    numbers: [usize; NUMBERS],
    read: usize,
    rows: usize,
    pages: usize,
    values: usize,
    longest_values: usize,
    written: usize,
    pages_given: Pages,
    without_variables: usize,
    net_count_zero: usize,
    balanced_constant: usize,
    named_variable: usize,
    named_constant: usize,
    balanced_sizes: [usize; MOST_ROWS + 1],
    constant_sizes: [usize; MOST_ROWS + 1],
    matching: Matching,
    identity: Identity,
    counting: Counting,
}

/// How often each thing was met in matching; rows, pages and values where they were given.
#[derive(Default)]
struct Matching {
    numbers: [usize; NUMBERS],
    rows: usize,
    pages: Pages,
    values: usize,
    without_variables: usize,
    largest_group: usize,
}

/// How often each thing was met with an identity; rows, pages and values where they were given.
#[derive(Default)]
struct Identity {
    numbers: [usize; NUMBERS],
    rows: usize,
    empty_sides: usize,
    pages: Pages,
    values: usize,
    empty_values: usize,
}

/// How often each thing was met in pages that were given.
#[derive(Default)]
struct Pages {
    more: usize,
    no_more: usize,
    more_weighed_than_written: usize,
    many_weighed: usize,
}

/// How often each thing was met where unifiers were counted.
#[derive(Default)]
struct Counting {
    numbers: [usize; NUMBERS],
    none: usize,
    long: usize,
}

impl Seen {
    /// Counts what a question and its right answer show.
    pub fn note(&mut self, question: &Question, answer: &Answer) {
        self.numbers[usize::from(answer.number)] += 1;
        if let Ask::Rows { way } | Ask::Page { way, .. } | Ask::Values { way, .. } = question.ask {
            match way {
                Way::Unifying => (),
                Way::Matching => return self.matching.note(question, answer),
                Way::Identity => return self.identity.note(question, answer),
            }
        }
        match question.ask {
            Ask::Read { .. } => self.read += 1,
            Ask::Rows { .. } => self.rows += 1,
            Ask::Page { .. } => self.pages += 1,
            Ask::Values { .. } => self.values += 1,
            Ask::Write { .. } => self.written += 1,
            Ask::Count => self.counting.note(answer),
        }
        match (answer.number, question.ask) {
            (0, Ask::Rows { .. }) => self.note_rows(question, answer),
            (0, Ask::Page { .. }) => self.pages_given.note(answer),
            (0, Ask::Values { .. }) => {
                self.longest_values += usize::from(value_lengths(answer).contains(&LONGEST_VALUE))
            }
            (TOO_FREQUENT, _) if answer.figures[0] < u32::from(FIRST_CONSTANT) => self.named_variable += 1,
            (TOO_FREQUENT, _) => self.named_constant += 1,
            _ => (),
        }
    }

    /// Counts what kinds of atoms a pair has and how large its groups are.
    fn note_rows(&mut self, question: &Question, answer: &Answer) {
        let counts = net_counts(&question.sides);
        let is_variable = |atom: u8| atom < FIRST_CONSTANT;
        self.without_variables += usize::from(!counts.iter().any(|count| is_variable(count.atom)));
        self.net_count_zero +=
            usize::from(counts.iter().any(|count| is_variable(count.atom) && count.net == 0));
        self.balanced_constant +=
            usize::from(counts.iter().any(|count| !is_variable(count.atom) && count.net == 0));
        self.balanced_sizes[answer.figures[0] as usize] += 1;
        for &size in &answer.figures[2..2 + answer.figures[1] as usize] {
            self.constant_sizes[size as usize] += 1;
        }
    }

    /// What should have been met, with how often it was.
    fn wanted(&self) -> Vec<(String, usize)> {
        let mut wanted: Vec<(String, usize)> = (1..NUMBERS)
            .filter(|number| *number != NOT_USED)
            .map(|number| (format!("number {number}"), self.numbers[number]))
            .collect();
        for size in [0, 15, 16] {
            wanted.push((format!("{size} balanced rows"), self.balanced_sizes[size]));
            wanted.push((format!("{size} rows of a constant"), self.constant_sizes[size]));
        }
        let others = [
            ("pair without variables", self.without_variables),
            ("variable of net count 0", self.net_count_zero),
            ("balanced constant", self.balanced_constant),
            ("10 that names a variable", self.named_variable),
            ("10 that names a constant", self.named_constant),
            ("longest value", self.longest_values),
        ];
        wanted.extend(others.map(|(what, times)| (what.to_string(), times)));
        wanted.extend(self.pages_given.wanted(""));
        wanted.extend(self.pages_given.wanted_of_weighing(""));
        wanted.extend(self.matching.wanted());
        wanted.extend(self.identity.wanted());
        wanted.extend(self.counting.wanted());
        wanted
    }

    /// What should have been met and never was.
    pub fn missing(&self) -> Vec<String> {
        self.wanted().into_iter().filter(|(_, times)| *times == 0).map(|(what, _)| what).collect()
    }

    /// All of it in words.
    pub fn summary(&self) -> String {
        let parts: Vec<String> =
            self.wanted().iter().map(|(what, times)| format!("{what}: {times}")).collect();
        format!(
            "Read {}, Rows {}, Page {}, Values {}, Write {}, Count {}, of matching {}, with an identity {}; met: {}",
            self.read,
            self.rows,
            self.pages,
            self.values,
            self.written,
            self.counting.numbers.iter().sum::<usize>(),
            self.matching.numbers.iter().sum::<usize>(),
            self.identity.numbers.iter().sum::<usize>(),
            parts.join(", ")
        )
    }
}

impl Matching {
    /// Counts what a question of matching and its right answer show.
    fn note(&mut self, question: &Question, answer: &Answer) {
        self.numbers[usize::from(answer.number)] += 1;
        match (answer.number, question.ask) {
            (0, Ask::Rows { .. }) => {
                self.rows += 1;
                self.without_variables +=
                    usize::from(question.sides.left.iter().all(|&atom| atom >= FIRST_CONSTANT));
                self.largest_group += usize::from(answer.figures[2..].contains(&(MOST_ROWS as u32)));
            }
            (0, Ask::Page { .. }) => self.pages.note(answer),
            (0, Ask::Values { .. }) => self.values += 1,
            _ => (),
        }
    }

    /// What should have been met in matching, with how often it was.
    fn wanted(&self) -> Vec<(String, usize)> {
        let numbers = OF_MATCHING.map(|number| (format!("matching, number {number}"), self.numbers[number]));
        let others = [
            ("matching, rows", self.rows),
            ("matching, values", self.values),
            ("matching, pattern without variables", self.without_variables),
            ("matching, 16 rows of a constant", self.largest_group),
        ];
        let mut wanted = numbers.to_vec();
        wanted.extend(others.map(|(what, times)| (what.to_string(), times)));
        wanted.extend(self.pages.wanted("matching, "));
        wanted.extend(self.pages.wanted_of_weighing("matching, "));
        wanted
    }
}

impl Identity {
    /// Counts what a question with an identity and its right answer show.
    fn note(&mut self, question: &Question, answer: &Answer) {
        self.numbers[usize::from(answer.number)] += 1;
        match (answer.number, question.ask) {
            (0, Ask::Rows { .. }) => {
                self.rows += 1;
                let Sides { left, right } = &question.sides;
                self.empty_sides += usize::from(left.is_empty() || right.is_empty());
            }
            (0, Ask::Page { .. }) => self.pages.note(answer),
            (0, Ask::Values { .. }) => {
                self.values += 1;
                self.empty_values += usize::from(value_lengths(answer).contains(&0));
            }
            _ => (),
        }
    }

    /// What should have been met with an identity, with how often it was. There no page weighs more than it writes.
    fn wanted(&self) -> Vec<(String, usize)> {
        let numbers = OF_IDENTITY.map(|number| (format!("identity, number {number}"), self.numbers[number]));
        let others = [
            ("identity, rows", self.rows),
            ("identity, empty side", self.empty_sides),
            ("identity, values", self.values),
            ("identity, empty value", self.empty_values),
        ];
        let mut wanted = numbers.to_vec();
        wanted.extend(others.map(|(what, times)| (what.to_string(), times)));
        wanted.extend(self.pages.wanted("identity, "));
        wanted
    }
}

impl Pages {
    /// Counts what a page shows.
    fn note(&mut self, answer: &Answer) {
        let [written, more, weighed_high, weighed_low, ..] = answer.figures;
        self.more += usize::from(more == 1);
        self.no_more += usize::from(more == 0);
        self.more_weighed_than_written += usize::from([weighed_high, weighed_low] > [0, written]);
        self.many_weighed += usize::from([weighed_high, weighed_low] > [0, MANY]);
    }

    /// What should have been met in pages of one way of listing, with how often it was.
    fn wanted(&self, way: &str) -> [(String, usize); 2] {
        [("more", self.more), ("no more", self.no_more)].map(|(what, times)| (format!("{way}{what}"), times))
    }

    /// The same of the number of candidates weighed.
    fn wanted_of_weighing(&self, way: &str) -> [(String, usize); 2] {
        [("more weighed than written", self.more_weighed_than_written), ("many weighed", self.many_weighed)]
            .map(|(what, times)| (format!("{way}{what}"), times))
    }
}

impl Counting {
    /// Counts what a right answer of Count shows.
    fn note(&mut self, answer: &Answer) {
        self.numbers[usize::from(answer.number)] += 1;
        let number = &answer.figures[..2];
        self.none += usize::from(answer.number == 0 && number == [0, 0]);
        self.long += usize::from(answer.number == 0 && number > &[0, THOUSAND_MILLION]);
    }

    /// What should have been met where unifiers were counted, with how often it was.
    fn wanted(&self) -> Vec<(String, usize)> {
        let numbers = OF_COUNT.map(|number| (format!("Count, number {number}"), self.numbers[number]));
        let others = [("Count, no unifier", self.none), ("Count, more than a thousand million", self.long)];
        numbers.into_iter().chain(others.map(|(what, times)| (what.to_string(), times))).collect()
    }
}
