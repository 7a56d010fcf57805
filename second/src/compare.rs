//! The comparison: a command's answers beside the own ones.

use crate::answer::answer;
use crate::names::told;
use crate::probe::ask_command;
use crate::question::{Answer, Ask, Question};
use crate::seen::Seen;
use crate::solved::Solved;
use std::fmt::Debug;
use std::ops::ControlFlow;

/// The comparison stops after so many differences.
const MOST_DIFFERENCES: usize = 5;
/// So much of a buffer is told where it differs.
const SHOWN: usize = 12;

/// What a comparison found.
#[derive(Default)]
pub struct Comparison {
    pub compared: usize,
    pub seen: Seen,
    pub differences: Vec<String>,
    /// Why the command's answers could not be read to their end.
    broken: Option<String>,
}

/// Asks a command all questions and compares each answer with the own one.
pub fn compare(command: &[String], questions: &[Question]) -> Comparison {
    let mut comparison = Comparison::default();
    let asked = ask_command(command, questions, |question, got| comparison.take(question, &got));
    comparison.broken = asked.err().map(|error| error.to_string());
    comparison
}

impl Comparison {
    /// Compares one answer; stops the comparison at the last difference that is told.
    fn take(&mut self, question: &Question, got: &Answer) -> ControlFlow<()> {
        let expected = answer(question, Solved::of);
        self.compared += 1;
        self.seen.note(question, &expected);
        if *got != expected {
            self.differences.push(difference(self.compared, question, &expected, got));
        }
        match self.differences.len() < MOST_DIFFERENCES {
            true => ControlFlow::Continue(()),
            false => ControlFlow::Break(()),
        }
    }

    /// Why the comparison fails: differences, broken answers, too few comparisons, or something it never met.
    pub fn failures(&self, stated: usize) -> Vec<String> {
        let mut failures: Vec<String> = self.differences.iter().chain(&self.broken).cloned().collect();
        if failures.is_empty() {
            if self.compared != stated {
                failures.push(format!("{} comparisons were made, {stated} were stated", self.compared));
            }
            failures.extend(self.seen.missing().iter().map(|what| format!("never met: {what}")));
        }
        failures
    }
}

/// A difference in words.
fn difference(place: usize, question: &Question, expected: &Answer, got: &Answer) -> String {
    let mut words = format!("question {place}, {}:", asked(question));
    if got.number != expected.number {
        words += &format!("\n  expected number {}, got {}", expected.number, got.number);
    }
    if got.figures != expected.figures {
        words += &format!("\n  expected returns {:?}, got {:?}", expected.figures, got.figures);
    }
    if matches!(question.ask, Ask::Page { .. }) {
        words += &buffer_difference("number", &keys(&expected.first), &keys(&got.first));
    } else {
        words += &buffer_difference("byte", &expected.first, &got.first);
    }
    words += &buffer_difference("byte (second buffer)", &expected.second, &got.second);
    words
}

/// The bytes of a page's buffer as numbers.
fn keys(bytes: &[u8]) -> Vec<u32> {
    bytes.chunks_exact(4).map(|key| u32::from_be_bytes([key[0], key[1], key[2], key[3]])).collect()
}

/// Where two buffers begin to differ and what each holds from there on; nothing if they are equal.
fn buffer_difference<T: PartialEq + Debug>(what: &str, expected: &[T], got: &[T]) -> String {
    match expected.iter().zip(got).position(|(expected, got)| expected != got) {
        Some(place) => {
            let end = expected.len().min(place + SHOWN);
            let (expected, got) = (&expected[place..end], &got[place..end]);
            format!("\n  from {what} {place} on expected {expected:?}, got {got:?}")
        }
        None => String::new(),
    }
}

/// A question in words.
fn asked(question: &Question) -> String {
    let what = match question.ask {
        Ask::Read { expected } => {
            format!("Read with expected number {expected} of {}", block(&question.sides.left))
        }
        Ask::Rows { way } => format!("{way:?}, Rows of {}", told(&question.sides)),
        Ask::Page { way, after: None, wanted } => {
            format!("{way:?}, Page of {} from the start, {wanted} wanted", told(&question.sides))
        }
        Ask::Page { way, after: Some(key), wanted } => {
            format!("{way:?}, Page of {} after {key}, {wanted} wanted", told(&question.sides))
        }
        Ask::Values { way, key } => format!("{way:?}, Values of {} for key {key}", told(&question.sides)),
        Ask::Write { number } => format!("Write of {} as block {number}", told(&question.sides)),
        Ask::Count => format!("Count of {}", told(&question.sides)),
    };
    let Question { fill, first_buffer, second_buffer, .. } = question;
    format!("{what}, buffers of {first_buffer} and {second_buffer}, filled with {fill}")
}

/// A block in words: its length and its bytes without the zeros before the check.
fn block(bytes: &[u8]) -> String {
    let end = bytes.len().saturating_sub(2);
    let last = bytes[..end].iter().rposition(|&byte| byte != 0).map_or(0, |place| place + 1);
    format!("{} bytes that begin {:02x?} and end {:02x?}", bytes.len(), &bytes[..last], &bytes[end..])
}
