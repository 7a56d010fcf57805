//! The show that the checks can fail: each planted fault is put before them and must be found.

use crate::census::MOST_BLOCKS;
use crate::compare::compare;
use crate::faults::{census_with, nightly_with, Fault, FAULTS};
use crate::library::Library;
use crate::probe::answers;
use crate::question::Question;
use crate::questions::questions;
use crate::semantic;
use std::io;

/// The size of the library whose text shows the faults in it. For the census blocks of zeros stand before it, so that
/// its limit lies in the middle.
const LIBRARY_BLOCKS: u64 = 2000;

/// Puts each planted fault before the comparison, and those that change the unifiers before the semantic
/// check too; prints a line for each. An error if one is not found.
pub fn show(seed: u64, total: usize) -> Result<(), String> {
    let questions = questions(seed, total)?;
    let program = std::env::current_exe().map_err(|error| error.to_string())?;
    let mut missed = Vec::new();
    for (name, fault) in FAULTS {
        let command = [&program.to_string_lossy(), "probe", "--fault", name].map(str::to_string);
        let found = match fault.in_text() || fault.in_census() {
            true => found_in_text(seed, fault)?,
            false => found_in_answers(&command, &questions, fault),
        };
        match found {
            Ok(where_found) => println!("{name}: found {where_found}"),
            Err(by_what) => {
                println!("{name}: NOT FOUND by {by_what}");
                missed.push(name);
            }
        }
    }
    if missed.is_empty() {
        return Ok(());
    }
    Err(format!("not found: {}", missed.join(", ")))
}

/// Where the comparison and, for a fault that changes the unifiers, the semantic check find a fault in the
/// answers; or which of them does not find it.
fn found_in_answers(command: &[String], questions: &[Question], fault: Fault) -> Result<String, String> {
    let comparison = compare(command, questions);
    let difference = comparison.differences.first().ok_or("the comparison")?;
    let first_line = difference.lines().next().unwrap_or_default();
    if !fault.changes_unifiers() {
        return Ok(format!("at {first_line}"));
    }
    match semantic::check(fault.way(), |questions| answers(command, questions)) {
        Ok(_) => Err("the semantic check".to_string()),
        Err(objection) => Ok(format!("at {first_line} and because of {objection}")),
    }
}

/// Where the texts of a library with and without a fault differ; or that they do not.
fn found_in_text(seed: u64, fault: Fault) -> Result<Result<String, String>, String> {
    let place = first_difference(seed, fault).map_err(|error| error.to_string())?;
    let text = if fault.in_census() { "the census text" } else { "the nightly text" };
    Ok(place.map(|place| format!("at byte {place} of {text}")).ok_or(text.to_string()))
}

/// The first byte in which the texts of a library with and without a fault differ.
fn first_difference(seed: u64, fault: Fault) -> io::Result<Option<usize>> {
    let zeros = if fault.in_census() { u64::from(MOST_BLOCKS) - LIBRARY_BLOCKS / 2 } else { 0 };
    let mut library = Vec::new();
    Library { seed, blocks: zeros + LIBRARY_BLOCKS, zeros }.write(&mut library)?;
    let text_with = |planted: Option<Fault>| {
        let mut text = Vec::new();
        match fault.in_census() {
            true => census_with(&library[..], &mut text, planted)?,
            false => nightly_with(&library[..], &mut text, planted)?,
        }
        Ok::<_, io::Error>(text)
    };
    let (right, wrong) = (text_with(None)?, text_with(Some(fault))?);
    Ok(right.iter().zip(&wrong).position(|(right, wrong)| right != wrong))
}
