//! The longest value (document 02, R-9): the buffer that Values asks for, the longest value there is, and the longest that
//! random pairs could have.

use crate::answer::{answer, value_lengths};
use crate::chance::Chance;
use crate::examples::LONGEST_VALUE as LONGEST;
use crate::names::sides;
use crate::pair::Way;
use crate::question::{Answer, Ask, Question};
use crate::rows::Row;
use crate::sides::{apart, random_sides};
use crate::solved::Solved;
use crate::values::LONGEST_VALUE;

/// What Values answers with a buffer of this length.
fn values(way: Way, pair: (&str, &str), key: u32, first_buffer: u16) -> Answer {
    let ask = Ask::Values { way, key };
    answer(
        &Question { ask, sides: sides(pair.0, pair.1), fill: 7, first_buffer, second_buffer: 0 },
        Solved::of,
    )
}

#[test]
fn values_ask_for_972_bytes() {
    for (way, pair, key, expected) in [
        (Way::Unifying, ("v0", "v1+c0"), 1, &[0, 2, 0x40, 0xC0, 1, 1, 0xC0][..]),
        (Way::Matching, ("v0", "v32+c0"), 0, &[0, 2, 32, 0x40]),
    ] {
        for first_buffer in [972, 1000, 1211, 1212] {
            let given = values(way, pair, key, first_buffer);
            assert_eq!((given.number, given.figures[0] as usize), (0, expected.len()));
            assert_eq!(given.first[..expected.len()], *expected);
            assert!(given.first[expected.len()..].iter().all(|&byte| byte == 7));
        }
        for first_buffer in [0, 971] {
            let refused = values(way, pair, key, first_buffer);
            assert_eq!((refused.number, refused.first), (16, vec![7; usize::from(first_buffer)]));
        }
    }
}

#[test]
fn longest_value_has_135_atoms() {
    let given = values(Way::Unifying, LONGEST, 65_535, 972);
    assert_eq!((given.number, given.figures), (0, [218, 0, 0, 0, 0, 0]));
    assert_eq!(given.first[218 - 137..218 - 135], [4, 135]);
    assert_eq!(value_lengths(&given).iter().max(), Some(&135));
}

/// The most atoms that a selection could give to the variable with this place: all balanced rows, and for each
/// constant the row that has most of it.
fn most_atoms(solved: &Solved, place: usize) -> usize {
    let at_place = |row: &Row| usize::from(row[place]);
    let balanced: usize = solved.groups.balanced.iter().map(at_place).sum();
    let constants: usize =
        solved.groups.constants.iter().map(|rows| rows.iter().map(at_place).max().unwrap_or(0)).sum();
    balanced + constants
}

#[test]
fn values_are_within_the_bound() {
    let mut chance = Chance::new(9);
    let mut tried = 0;
    for _ in 0..20_000 {
        let sides = random_sides(&mut chance);
        let unified = Solved::of(Way::Unifying, &sides);
        for solved in unified.iter().chain(&Solved::of(Way::Matching, &apart(&sides))) {
            let mut rows = solved.groups.balanced.iter().chain(solved.groups.constants.iter().flatten());
            assert!(rows.all(|row| row.iter().all(|&number| number <= 8)), "{sides:?}");
            for place in 0..solved.pair.variables.len() {
                assert!(most_atoms(solved, place) <= LONGEST_VALUE, "{sides:?}");
                tried += 1;
            }
        }
    }
    assert!(tried > 40_000, "{tried}");
}
