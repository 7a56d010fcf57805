//! How many unifiers there are (document 02, R-7): numbers that are published or worked by hand, all selections of
//! small pairs tried one by one, and the census text.

use super::{example_library, solved};
use crate::answer::answer;
use crate::block::{write, BLOCK};
use crate::census::{census, MOST_BLOCKS};
use crate::chance::Chance;
use crate::examples::{AT_LIMITS, LONGEST_LIST, PUBLISHED};
use crate::names::sides;
use crate::pair::Way;
use crate::question::{Ask, Question};
use crate::rows::{Groups, Row};
use crate::sides::{all_pairs, random_sides};
use crate::solved::Solved;

/// Document 01's pairs 13 and 17 with their numbers of unifiers. 13: v4 is in a row of its own, and of the other 15
/// the sets that cover v1, v2 and v3 are 2^15 - 3 * 2^5 + 3 * 2 - 1. 17: the matrices of three by three places with
/// 0 and 1 in which no line and no column is all 0.
const BY_HAND: [(&str, &str, u64); 2] = [("4v0+v4", "v1+v2+v3+v4", 32_677), ("v0+v1+v2", "v3+v4+v5", 265)];

/// What Count answers: its number and the numbers it returns.
fn count(left: &str, right: &str) -> (u8, [u32; 6]) {
    let sides = sides(left, right);
    let question = Question { ask: Ask::Count, sides, fill: 0, first_buffer: 0, second_buffer: 0 };
    let answer = answer(&question, Solved::of);
    (answer.number, answer.figures)
}

/// How many selections are admissible, each tried: a row for each constant with any set of balanced rows.
fn admissible(solved: &Solved) -> u64 {
    let mut selections: Vec<Vec<&Row>> = vec![Vec::new()];
    for rows in &solved.groups.constants {
        selections =
            selections.iter().flat_map(|taken| rows.iter().map(move |row| with(taken, row))).collect();
    }
    for row in &solved.groups.balanced {
        selections = selections.iter().flat_map(|taken| [taken.clone(), with(taken, row)]).collect();
    }
    let above_0 = |place: usize, taken: &[&Row]| taken.iter().any(|row| row[place] > 0);
    let places = 0..solved.pair.variables.len();
    selections.retain(|taken| places.clone().all(|place| above_0(place, taken)));
    selections.len() as u64
}

/// The rows taken so far and one more.
fn with<'a>(taken: &[&'a Row], row: &'a Row) -> Vec<&'a Row> {
    [taken, &[row]].concat()
}

/// How many selections there are, admissible or not.
fn selections(groups: &Groups) -> usize {
    groups.constants.iter().map(Vec::len).product::<usize>() << groups.balanced.len()
}

#[test]
fn unifiers_are_counted() {
    for (left, right, number) in PUBLISHED.iter().chain(&BY_HAND) {
        assert_eq!(count(left, right), (0, [0, *number as u32, 0, 0, 0, 0]), "{left} and {right}");
        assert_eq!(admissible(&solved(left, right)), *number, "{left} and {right}");
    }
    assert_eq!(count(LONGEST_LIST.0, LONGEST_LIST.1), (0, [0, 4_294_651_782, 0, 0, 0, 0]));
    for (left, right) in [("v0", "v0+v1"), ("v0+v1", "c0"), ("2v0", "c0")] {
        assert_eq!(count(left, right), (0, [0; 6]), "{left} and {right}");
    }
    for ((left, right), number) in AT_LIMITS.iter().zip([7, 7, 7, 0, 7, 7, 7, 7, 7, 8, 8, 8, 0, 9, 9]) {
        assert_eq!(count(left, right).0, number, "{left} and {right}");
    }
    assert_eq!(count("9v0", "v1"), (10, [0; 6]));
    assert_eq!(count("v0", "9c63+9v39"), (10, [39, 0, 0, 0, 0, 0]));
    assert_eq!(count("v0", "c0+c1+c2+c3+c4"), (11, [0; 6]));
    assert_eq!(count("4v0+v4+v5", "v1+v2+v3+v4+v5"), (12, [0; 6]));
}

#[test]
fn counts_are_those_of_all_selections() {
    let mut chance = Chance::new(7);
    let random = (0..2000).map(|_| random_sides(&mut chance)).collect::<Vec<_>>();
    let mut tried = 0;
    for sides in all_pairs(&[0, 1, 2, 64, 65], 3, 3).iter().chain(&random) {
        let Ok(solved) = Solved::of(Way::Unifying, sides) else { continue };
        if selections(&solved.groups) <= 1 << 12 {
            assert_eq!(solved.list.number(), admissible(&solved), "{sides:?}");
            tried += 1;
        }
    }
    assert!(tried > 4000, "{tried}");
}

/// The census text of a library.
fn text(library: &[u8]) -> String {
    let mut text = Vec::new();
    census(library, &mut text, MOST_BLOCKS).expect("memory can be read and written");
    String::from_utf8(text).expect("the text is in plain letters")
}

/// The last lines of the census text of so many bytes of zeros.
fn last_lines_of_zeros(bytes: usize) -> Vec<String> {
    let mut lines: Vec<String> = text(&vec![0; bytes]).lines().map(str::to_string).collect();
    lines.split_off(lines.len() - 3)
}

#[test]
fn census_text_is_as_stated() {
    assert_eq!(text(&[]), "total 0\n");
    assert_eq!(text(&[0]), "block 0 refused 1\ntotal 0\n");
    assert_eq!(text(&example_library()), "block 0 unifiers 2\nblock 1 unifiers 0\ntotal 2\n");
    let block = |left, right, number| write(&sides(left, right), number).expect("sides that may be written");
    let (left, right) = ("6v3+6c0+6c1+6c2+6c3", "8v32+7v33+7v34");
    let library = [
        block("v0+v1", "v32+v33", 0),
        block(left, right, 1),
        block("v0", "9v39", 2),
        block(left, right, 3),
        block("v0", "v32", 3),
        vec![0; BLOCK - 1],
    ];
    let expected = "block 0 unifiers 7\nblock 1 unifiers 4294651782\nblock 2 refused 10 v39\n\
                    block 3 unifiers 4294651782\nblock 4 refused 3\nblock 5 refused 1\ntotal 8589303571\n";
    assert_eq!(text(&library.concat()), expected);
}

#[test]
fn census_ends_after_its_last_block() {
    let most = usize::from(MOST_BLOCKS) * BLOCK;
    let whole = ["block 32766 refused 2", "block 32767 refused 2", "total 0"];
    assert_eq!(last_lines_of_zeros(most), whole);
    let too_long = ["block 32767 refused 2", "too long", "total 0"];
    assert_eq!(last_lines_of_zeros(most + 1), too_long);
    assert_eq!(last_lines_of_zeros(2 * most), too_long);
}
