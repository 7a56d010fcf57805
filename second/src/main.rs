//! An independent second solver that checks the proved one by comparison; README.md says how.

mod answer;
mod block;
mod blocks;
mod census;
mod chance;
mod compare;
mod examples;
mod faults;
mod library;
mod list;
mod matching;
mod names;
mod pair;
mod pair_questions;
mod probe;
mod question;
mod questions;
mod read_questions;
mod refusal;
mod rows;
mod seen;
mod semantic;
mod show_faults;
mod sides;
mod solved;
mod substitution;
mod text;
mod values;
mod write_questions;

#[cfg(test)]
mod tests;

use crate::faults::Fault;
use crate::library::Library;
use crate::pair::Way;
use std::io::{self, BufWriter};
use std::process::ExitCode;

const DEFAULT_SEED: u64 = 1;
const DEFAULT_QUESTIONS: u64 = 170_000;
const DEFAULT_BLOCKS: u64 = 2000;

const USAGE: &str = "second probe [--fault NAME]
second compare [--seed N] [--questions N] --probe COMMAND [ARGUMENT ..]
second nightly [--fault NAME]
second matches
second census [--fault NAME]
second library [--seed N] [--blocks N] [--zeros N]
second semantic [--probe COMMAND [ARGUMENT ..]]
second faults --probe-self [--seed N] [--questions N]";

/// Runs the command that the arguments name; any failure is told and ends with 1.
fn main() -> ExitCode {
    let arguments: Vec<String> = std::env::args().skip(1).collect();
    match run(&arguments) {
        Ok(()) => ExitCode::SUCCESS,
        Err(failure) => {
            eprintln!("{failure}");
            ExitCode::FAILURE
        }
    }
}

/// Runs one command.
fn run(arguments: &[String]) -> Result<(), String> {
    let (command, rest) = arguments.split_first().ok_or(USAGE)?;
    let options = Options::read(rest)?;
    match command.as_str() {
        "probe" => probe::serve(io::stdin().lock(), io::stdout().lock(), options.fault).map_err(in_words),
        "compare" => compare_with(&options),
        "nightly" => {
            faults::nightly_with(io::stdin().lock(), standard_output(), options.fault).map_err(in_words)
        }
        "matches" => {
            text::print_library(Way::Matching, io::stdin().lock(), standard_output()).map_err(in_words)
        }
        "census" => {
            faults::census_with(io::stdin().lock(), standard_output(), options.fault).map_err(in_words)
        }
        "library" => options.library().write(standard_output()).map_err(in_words),
        "semantic" => check_semantic(&options),
        "faults" if options.probe_self => show_faults::show(options.seed, options.questions as usize),
        _ => Err(USAGE.to_string()),
    }
}

/// What the arguments after the command set.
struct Options {
    fault: Option<Fault>,
    seed: u64,
    questions: u64,
    blocks: u64,
    zeros: u64,
    probe: Vec<String>,
    probe_self: bool,
}

impl Options {
    /// Reads the options; all that follows `--probe` is the command to be asked.
    fn read(arguments: &[String]) -> Result<Options, String> {
        let mut options = Options {
            fault: None,
            seed: DEFAULT_SEED,
            questions: DEFAULT_QUESTIONS,
            blocks: DEFAULT_BLOCKS,
            zeros: 0,
            probe: Vec::new(),
            probe_self: false,
        };
        let mut rest = arguments.iter();
        while let Some(option) = rest.next() {
            match option.as_str() {
                "--probe" => options.probe = rest.by_ref().cloned().collect(),
                "--probe-self" => options.probe_self = true,
                "--fault" => options.fault = Some(fault_named(rest.next())?),
                "--seed" => options.seed = number(rest.next())?,
                "--questions" => options.questions = number(rest.next())?,
                "--blocks" => options.blocks = number(rest.next())?,
                "--zeros" => options.zeros = number(rest.next())?,
                _ => return Err(USAGE.to_string()),
            }
        }
        Ok(options)
    }

    /// The library that the options set.
    fn library(&self) -> Library {
        Library { seed: self.seed, blocks: self.blocks, zeros: self.zeros }
    }
}

/// The number that an argument names.
fn number(argument: Option<&String>) -> Result<u64, String> {
    argument.and_then(|text| text.parse().ok()).ok_or_else(|| "a number is missing".to_string())
}

/// The fault that an argument names.
fn fault_named(argument: Option<&String>) -> Result<Fault, String> {
    let names: Vec<&str> = faults::FAULTS.iter().map(|(name, _)| *name).collect();
    argument
        .and_then(|name| faults::named(name))
        .ok_or_else(|| format!("the faults are {}", names.join(", ")))
}

/// Standard output, written in large pieces.
fn standard_output() -> impl io::Write {
    BufWriter::new(io::stdout().lock())
}

/// An error in words.
fn in_words(error: io::Error) -> String {
    error.to_string()
}

/// Compares a command's answers with the own ones and tells what was compared.
fn compare_with(options: &Options) -> Result<(), String> {
    if options.probe.is_empty() {
        return Err(USAGE.to_string());
    }
    let questions = questions::questions(options.seed, options.questions as usize)?;
    let comparison = compare::compare(&options.probe, &questions);
    let failures = comparison.failures(questions.len());
    if !failures.is_empty() {
        return Err(failures.join("\n"));
    }
    println!("{}", comparison.seen.summary());
    println!("{} comparisons, no difference", comparison.compared);
    Ok(())
}

/// Checks the listed substitutions of small pairs, the own ones or a command's.
fn check_semantic(options: &Options) -> Result<(), String> {
    for way in [Way::Unifying, Way::Identity] {
        let checked = semantic::check(way, |questions| probe::answers(&options.probe, questions))?;
        println!(
            "{way:?}: {} pairs, {} listed substitutions, {} replacements of which {} unify: no objection",
            checked.pairs, checked.listed, checked.replacements, checked.unifiers
        );
    }
    Ok(())
}
