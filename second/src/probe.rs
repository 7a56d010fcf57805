//! Both ends of the protocol: answering questions from an input, and asking a command.

use crate::faults::{answer_with, Fault};
use crate::question::{Answer, Question};
use std::io::{self, BufRead, BufReader, BufWriter, Read, Write};
use std::ops::ControlFlow;
use std::process::{Command, Stdio};
use std::thread;

/// Answers the questions of an input until it ends, with a planted fault if there is one.
pub fn serve(input: impl Read, output: impl Write, fault: Option<Fault>) -> io::Result<()> {
    let mut input = BufReader::new(input);
    let mut output = BufWriter::new(output);
    while let Some(question) = Question::read(&mut input)? {
        output.write_all(&answer_with(&question, fault).to_bytes())?;
    }
    output.flush()
}

/// Asks a command all questions and hands each answer on, until one is enough. The questions are written by a
/// thread of their own, so that neither end waits for the other. An error if the answers end early or go on
/// too long.
pub fn ask_command(
    command: &[String],
    questions: &[Question],
    mut take: impl FnMut(&Question, Answer) -> ControlFlow<()>,
) -> io::Result<()> {
    let (program, arguments) =
        command.split_first().ok_or_else(|| io::Error::other("no command is given"))?;
    let mut child =
        Command::new(program).args(arguments).stdin(Stdio::piped()).stdout(Stdio::piped()).spawn()?;
    let (Some(input), Some(output)) = (child.stdin.take(), child.stdout.take()) else {
        return Err(io::Error::other("the command has no input or output"));
    };
    thread::scope(|scope| {
        scope.spawn(move || write_questions(input, questions));
        let taken = take_answers(BufReader::new(output), questions, &mut take);
        if !matches!(taken, Ok(ControlFlow::Continue(()))) {
            child.kill()?;
        }
        child.wait()?;
        taken.map(|_| ())
    })
}

/// Writes all questions and closes the input. A command that stops reading shows itself by the answers it
/// owes, so the writing error is not reported.
fn write_questions(input: impl Write, questions: &[Question]) {
    let mut input = BufWriter::with_capacity(1 << 16, input);
    for question in questions {
        if input.write_all(&question.to_bytes()).is_err() {
            return;
        }
    }
}

/// Hands on the answer to each question in turn, and says whether all were taken.
fn take_answers(
    mut output: impl BufRead,
    questions: &[Question],
    take: &mut impl FnMut(&Question, Answer) -> ControlFlow<()>,
) -> io::Result<ControlFlow<()>> {
    for (place, question) in questions.iter().enumerate() {
        let answer = Answer::read(&mut output, question)
            .map_err(|error| io::Error::other(format!("the command gave {place} whole answers: {error}")))?;
        if take(question, answer).is_break() {
            return Ok(ControlFlow::Break(()));
        }
    }
    if !output.fill_buf()?.is_empty() {
        return Err(io::Error::other("the command goes on after the last answer"));
    }
    Ok(ControlFlow::Continue(()))
}

/// The answers of a command, or the own ones without a command.
pub fn answers(command: &[String], questions: &[Question]) -> Result<Vec<Answer>, String> {
    if command.is_empty() {
        return Ok(questions.iter().map(|question| answer_with(question, None)).collect());
    }
    let mut answers = Vec::new();
    let asked = ask_command(command, questions, |_, answer| {
        answers.push(answer);
        ControlFlow::Continue(())
    });
    asked.map(|()| answers).map_err(|error| error.to_string())
}
