//! Document 01's pairs 1 to 17 and its nightly example, the published counts, Fages' rows, and the list
//! against itself; matches worked by hand and found by trying all replacements.

mod counting;
mod identity;
mod values;
mod weighing;

use crate::block::{read, seal, write, Sides, BLOCK, PLUS};
use crate::chance::Chance;
use crate::examples::{
    AROUND_A_PAGE, AT_LIMITS, HIGHEST, LONGEST_LIST, LONGEST_MATCHES, MATCHED, MATCHES_OF_PAGES,
    MOST_ROW_BYTES, PUBLISHED,
};
use crate::library::Library;
use crate::names::{name, sides, sum};
use crate::pair::{NetCount, Pair, Way};
use crate::refusal::Refusal;
use crate::rows::{at_or_below, weight, Groups, Row, MOST_ROWS};
use crate::sides::{all_pairs, apart, multisets, random_sides};
use crate::solved::Solved;
use crate::text::print_library;
use std::collections::BTreeSet;

/// A pair that must not be refused before its list.
fn solved(left: &str, right: &str) -> Solved {
    Solved::of(Way::Unifying, &sides(left, right))
        .unwrap_or_else(|refusal| panic!("{left} and {right}: {refusal:?}"))
}

/// The whole list of a pair.
fn keys(left: &str, right: &str) -> Vec<u32> {
    solved(left, right).list.keys(None, usize::MAX)
}

/// The values of a key as the nightly text writes them.
fn values(left: &str, right: &str, key: u32) -> String {
    told_values(&solved(left, right), key)
}

/// The values of a listed key as the nightly text writes them.
fn told_values(solved: &Solved, key: u32) -> String {
    let values = solved.values(key).expect("the key is listed");
    let parts: Vec<String> =
        values.iter().map(|value| format!("{}={}", name(value.variable), sum(&value.atoms))).collect();
    parts.join(" ")
}

/// The number that a whole first page is refused with, or 0.
fn refusal(left: &str, right: &str) -> u8 {
    let page = Solved::of(Way::Unifying, &sides(left, right)).and_then(|solved| solved.page(None, 200));
    page.map_or_else(Refusal::number, |_| 0)
}

/// Rows written as digits.
fn digits(rows: &[Vec<u8>]) -> Vec<String> {
    rows.iter().map(|row| row.iter().map(u8::to_string).collect()).collect()
}

#[test]
fn pairs_1_to_8_have_their_values() {
    assert_eq!(keys("v0", "v1+c0"), [1]);
    assert_eq!(values("v0", "v1+c0", 1), "v0=c0+n0 v1=n0");
    assert_eq!(digits(&solved("v0+v1", "v2+v3").groups.balanced), ["0101", "0110", "1001", "1010"]);
    assert_eq!(keys("v0+v1", "v2+v3"), [6, 7, 9, 11, 13, 14, 15]);
    assert_eq!(digits(&solved("2v0", "v1+v2").groups.balanced), ["102", "111", "120"]);
    assert_eq!(keys("2v0", "v1+v2"), [2, 3, 5, 6, 7]);
    assert_eq!(keys("v0+c0", "v1+c1"), [0, 1]);
    assert_eq!(values("v0+c0", "v1+c1", 0), "v0=c1 v1=c0");
    assert_eq!(values("v0+c0", "v1+c1", 1), "v0=c1+n0 v1=c0+n0");
    assert_eq!(keys("2v0", "v1+c0"), [0, 1]);
    assert_eq!(values("2v0", "v1+c0", 0), "v0=c0 v1=c0");
    assert_eq!(values("2v0", "v1+c0", 1), "v0=c0+n0 v1=c0+n0+n0");
    assert_eq!(keys("3v0", "2v1"), [1]);
    assert_eq!(values("3v0", "2v1", 1), "v0=n0+n0 v1=n0+n0+n0");
    assert_eq!(keys("v0", "v0"), [1]);
    assert_eq!(values("v0", "v0", 1), "v0=n0");
    assert_eq!(keys("c0", "c0"), [0]);
    assert_eq!(values("c0", "c0", 0), "");
}

#[test]
fn pairs_9_to_17_have_their_lists_or_refusals() {
    assert_eq!((refusal("v0", "v0+v1"), solved("v0", "v0+v1").groups.balanced.len()), (13, 1));
    assert_eq!((refusal("v0+v1", "c0"), solved("v0+v1", "c0").groups.constants[0].len()), (13, 2));
    assert_eq!(refusal("2v0", "c0"), 13);
    assert_eq!(keys("v0+v1", "c0+c1"), [16_777_216, 268_435_456]);
    assert_eq!(solved("4v0+v4", "v1+v2+v3+v4").groups.balanced.len(), 16);
    assert_eq!(refusal("4v0+v4+v5", "v1+v2+v3+v4+v5"), 12);
    assert_eq!(solved("v0+v1+v2", "4c0").groups.constants[0].len(), 15);
    assert_eq!(refusal("v0+v1+v2", "5c0"), 12);
    assert_eq!((refusal("8v0", "v1"), refusal("9v0", "v1")), (0, 10));
    assert_eq!(keys("v0", "c0+c1+c2+c3"), [0]);
    assert_eq!(refusal("v0", "c0+c1+c2+c3+c4"), 11);
    assert_eq!(solved("v0+v1+v2", "v3+v4+v5").groups.balanced.len(), 9);
    assert_eq!(refusal("v0+v1+v2", "v3+v4+v5+v6"), 9);
}

#[test]
fn published_counts_hold() {
    for (left, right, number) in PUBLISHED {
        assert_eq!(solved(left, right).list.number(), number);
        assert_eq!(keys(left, right).len() as u64, number);
    }
}

#[test]
fn fages_rows_are_found() {
    let mut matrix = ["01110", "00210", "02010", "10010", "00101", "01001", "10002"];
    matrix.sort();
    assert_eq!(digits(&solved("2v0+v1+v2", "2v3+v4").groups.balanced), matrix);
}

/// The rows of three net counts by their definition, tried over all vectors with numbers up to 8; the
/// constant's net count is 0 for the balanced rows.
fn rows_by_definition(nets: &[i32], constant: i32) -> Vec<Row> {
    let numbers = 0..=8u8;
    let pairs = numbers.clone().flat_map(|a| numbers.clone().map(move |b| (a, b)));
    let vectors = pairs.flat_map(|(a, b)| numbers.clone().map(move |c| vec![a, b, c]));
    let of_weight: Vec<Row> = vectors
        .filter(|vector| weight(nets, vector) == -constant && (constant != 0 || vector != &[0, 0, 0]))
        .collect();
    let is_lower = |row: &Row, other: &Row| other != row && at_or_below(other, row);
    of_weight.iter().filter(|row| !of_weight.iter().any(|other| is_lower(row, other))).cloned().collect()
}

/// The groups of three net counts and one constant, found and by definition, are the same or too large.
fn groups_are_by_definition(nets: &[i32], constant: i32) {
    let variables = (0..).zip(nets).map(|(atom, &net)| NetCount { atom, net }).collect();
    let pair = Pair { variables, constants: vec![NetCount { atom: 64, net: constant }] };
    let balanced = rows_by_definition(nets, 0);
    let constants = vec![rows_by_definition(nets, constant)];
    let too_large = balanced.len() > MOST_ROWS || constants[0].len() > MOST_ROWS;
    let expected = if too_large { Err(Refusal::Rows) } else { Ok(Groups { balanced, constants }) };
    assert_eq!(Groups::of(&pair), expected, "{nets:?} and {constant}");
}

#[test]
fn rows_are_by_definition() {
    for (first, second, third) in
        (-8..=8).flat_map(|a| (a..=8).flat_map(move |b| (b..=8).map(move |c| (a, b, c))))
    {
        for constant in [-8, -5, -1, 3, 7] {
            groups_are_by_definition(&[second, first, third], constant);
        }
    }
}

#[test]
fn extreme_pairs_are_as_named() {
    let highest = solved(HIGHEST.0, HIGHEST.1);
    assert_eq!(highest.list.last(), Some(u32::MAX));
    assert!(highest.list.holds(u32::MAX));
    assert_eq!(highest.page(Some(u32::MAX), 1).err(), Some(Refusal::LastKey));
    assert_eq!(solved(LONGEST_LIST.0, LONGEST_LIST.1).list.number(), 4_294_651_782);
    let rows = solved(MOST_ROW_BYTES.0, MOST_ROW_BYTES.1).groups;
    assert_eq!(rows.balanced.len() + rows.constants.iter().map(Vec::len).sum::<usize>(), 480 / 6);
    for ((left, right), number) in AROUND_A_PAGE.iter().zip([199, 200, 201]) {
        assert_eq!(solved(left, right).list.number(), number);
    }
}

#[test]
fn limits_are_refused_by_the_lowest_number() {
    let numbers = [
        7, 7, 7, 0, 7, 7, 7, 7, 7, 8, 8, 8, 13, 9, 9, 0, 10, 0, 10, 10, 11, 11, 12, 12, 0, 13, 0, 0, 0, 13,
        13, 0, 13, 0, 0, 0, 0, 0,
    ];
    for ((left, right), number) in AT_LIMITS.iter().zip(numbers) {
        assert_eq!(refusal(left, right), number, "{left} and {right}");
    }
}

#[test]
fn blocks_are_written_in_one_shape() {
    let number = |left, right| write(&sides(left, right), 0).map_or_else(Refusal::number, |_| 0);
    assert_eq!(write(&sides("v0+v1", "c0+c1"), 0).as_deref(), Ok(&example_library()[..BLOCK]));
    let highest = write(&sides("v31", "v63"), u16::MAX).expect("sides that may be written");
    assert_eq!(highest[..6], [0xFF, 0xFF, 1, 1, 0x1F, 0x1F]);
    assert_eq!(highest[BLOCK - 2..], [0xFD, 0xC1]);
    let longest = write(&sides("64v0", "64c0"), 0).expect("sides that may be written");
    assert_eq!(longest[2..4], [127, 127]);
    assert_eq!((number("v32", "v32"), number("v0", "v31"), number("65v0", "v32")), (18, 18, 7));
}

#[test]
fn ten_names_the_lowest_atom() {
    let named = |left, right| {
        Solved::of(Way::Unifying, &sides(left, right)).err().map(|why| (why.number(), why.atom()))
    };
    assert_eq!(named("9v0", "v1"), Some((10, Some(0))));
    assert_eq!(named("10c0", "c0"), Some((10, Some(64))));
    assert_eq!(named("9c0+9v0", "v1"), Some((10, Some(0))));
    assert_eq!(named("v0", "9v39"), Some((10, Some(39))));
    assert_eq!(named("v0+v1+v2+v3+v4+v5", "9v6"), Some((9, None)));
}

/// The list of a pair is ascending, as long as it is counted, and goes on after each of its keys.
fn list_agrees_with_itself(pair: &Solved) {
    let number = pair.list.number();
    if number > 2000 {
        return;
    }
    let keys = pair.list.keys(None, usize::MAX);
    assert_eq!(keys.len() as u64, number);
    assert!(keys.windows(2).all(|two| two[0] < two[1]));
    assert_eq!(pair.list.last(), keys.last().copied());
    assert_eq!(pair.list.is_empty(), keys.is_empty());
    for (place, &key) in keys.iter().enumerate() {
        assert!(pair.list.holds(key));
        assert_eq!(pair.list.keys(Some(key), 5), keys[place + 1..keys.len().min(place + 6)]);
    }
}

#[test]
fn lists_agree_with_their_count() {
    all_pairs(&[0, 1, 2, 64, 65], 3, 3)
        .iter()
        .flat_map(|sides| Solved::of(Way::Unifying, sides))
        .for_each(|pair| list_agrees_with_itself(&pair));
    let mut chance = Chance::new(1);
    for _ in 0..2000 {
        let sides = random_sides(&mut chance);
        Solved::of(Way::Unifying, &sides).iter().for_each(list_agrees_with_itself);
        Solved::of(Way::Matching, &apart(&sides)).iter().for_each(list_agrees_with_itself);
    }
}

/// A pattern and subject that must not be refused before the list.
fn matched(left: &str, right: &str) -> Solved {
    Solved::of(Way::Matching, &sides(left, right))
        .unwrap_or_else(|refusal| panic!("{left} and {right}: {refusal:?}"))
}

#[test]
fn matches_are_as_worked_by_hand() {
    let pair = matched("v0+v1", "2v32+v33");
    let listed = pair.list.keys(None, usize::MAX);
    assert_eq!(listed, [16_777_216, 268_435_456, 285_212_672, 536_870_912]);
    let told = ["v0=v33 v1=v32+v32", "v0=v32 v1=v32+v33", "v0=v32+v33 v1=v32", "v0=v32+v32 v1=v33"];
    for (&key, told) in listed.iter().zip(told) {
        assert_eq!(told_values(&pair, key), told);
    }
    let pair = matched("v0+c0", "v33+c0");
    assert_eq!(pair.list.keys(None, usize::MAX), [0]);
    assert_eq!(told_values(&pair, 0), "v0=v33");
    let pair = matched("v0+v1+v2", "4v7");
    assert_eq!((pair.list.number(), pair.groups.constants[0].len()), (3, 15));
    let pair = matched("v40+v41", "v0+v1+c0");
    assert_eq!(told_values(&pair, 0x0110_0000), "v40=v1+c0 v41=v0");
    assert_eq!(told_values(&matched("8v0", "8v63+8c63"), 0), "v0=v63+c63");
    let pair = matched("c0", "c0");
    assert_eq!((pair.list.keys(None, usize::MAX), told_values(&pair, 0)), (vec![0], String::new()));
    for (left, right) in [LONGEST_MATCHES, ("v0+v1+v2+v3+v4+2v5", "2v32+2v33+2c0+2c1")] {
        assert!(matched(left, right).groups.constants.iter().all(|ways| ways.len() == MOST_ROWS));
    }
    assert_eq!(matched(MATCHES_OF_PAGES.0, MATCHES_OF_PAGES.1).list.number(), 528);
}

#[test]
fn matching_is_refused_in_order() {
    for (left, right, number) in MATCHED {
        let page = Solved::of(Way::Matching, &sides(left, right)).and_then(|solved| solved.page(None, 200));
        assert_eq!(page.map_or_else(Refusal::number, |_| 0), number, "{left} and {right}");
    }
    let named = |left, right| Solved::of(Way::Matching, &sides(left, right)).err().and_then(Refusal::atom);
    assert_eq!(named("v0", "9v7"), Some(7));
    assert_eq!(named("9v0", "v32"), Some(0));
    assert_eq!(named("9v40", "9v39"), Some(39));
    assert_eq!(named("v0", "9v33+10v32"), Some(32));
}

/// Every replacement of variables by non-empty sums of atoms that makes a pattern the subject, found by trying
/// all of them.
fn replacements(
    pattern: &[u8],
    subject: &[u8],
    variables: &[u8],
    sums: &[Vec<u8>],
) -> BTreeSet<Vec<Vec<u8>>> {
    let Some((&variable, others)) = variables.split_first() else {
        let mut pattern = pattern.to_vec();
        pattern.sort();
        return if pattern == subject { BTreeSet::from([Vec::new()]) } else { BTreeSet::new() };
    };
    let mut found = BTreeSet::new();
    for sum in sums {
        let put = |&atom: &u8| if atom == variable { sum.clone() } else { vec![atom] };
        let replaced: Vec<u8> = pattern.iter().flat_map(put).collect();
        for later in replacements(&replaced, subject, others, sums) {
            found.insert([&[sum.clone()], &later[..]].concat());
        }
    }
    found
}

#[test]
fn every_match_is_listed_once() {
    for left in multisets(&[0, 1, 64], 3) {
        for right in multisets(&[32, 33, 64, 65], 4) {
            let Ok(pair) = Solved::of(Way::Matching, &Sides { left: left.clone(), right: right.clone() })
            else {
                assert!(left.is_empty() || right.is_empty());
                continue;
            };
            let variables: Vec<u8> = pair.pair.variables.iter().map(|variable| variable.atom).collect();
            let mut sums = multisets(&[32, 33, 64, 65], right.len());
            sums.retain(|sum| !sum.is_empty());
            let listed: Vec<Vec<Vec<u8>>> = pair
                .list
                .keys(None, usize::MAX)
                .iter()
                .map(|&key| {
                    pair.values(key).expect("a listed key").into_iter().map(|value| value.atoms).collect()
                })
                .collect();
            let found = replacements(&left, &right, &variables, &sums);
            assert_eq!(listed.len(), found.len(), "{left:?} and {right:?}");
            assert_eq!(listed.into_iter().collect::<BTreeSet<_>>(), found, "{left:?} and {right:?}");
        }
    }
}

#[test]
fn keys_not_listed_are_refused() {
    let pair = solved("v0+v1", "c0+c1");
    for key in [0, 1, 0x0100_0001, 0x0110_0000, 0x0101_0000, 0x0200_0000, 0x1100_0000, u32::MAX] {
        assert_eq!(pair.page(Some(key), 1).err(), Some(Refusal::NotListed), "{key}");
        assert_eq!(pair.values(key).err(), Some(Refusal::NotListed), "{key}");
    }
    assert_eq!(pair.page(Some(268_435_456), 1).err(), Some(Refusal::LastKey));
}

/// A block that begins and ends with some bytes.
fn block(beginning: &[u8], check: [u8; 2]) -> Vec<u8> {
    let mut block = vec![0; BLOCK];
    block[..beginning.len()].copy_from_slice(beginning);
    block[510..].copy_from_slice(&check);
    block
}

/// The text of a library by a way of listing.
fn text_by(way: Way, library: &[u8]) -> String {
    let mut text = Vec::new();
    print_library(way, library, &mut text).expect("memory can be read and written");
    String::from_utf8(text).expect("the text is in plain letters")
}

/// The nightly text of a library.
fn text(library: &[u8]) -> String {
    text_by(Way::Unifying, library)
}

/// Document 01's two blocks.
fn example_library() -> Vec<u8> {
    let first = block(&[0, 0, 3, 3, 0x80, 0, 1, 0x80, 0x40, 0x41], [0xFE, 0x77]);
    let second = block(&[0, 1, 3, 1, 0x80, 0, 0, 0x40], [0xFF, 0x3A]);
    [first, second].concat()
}

#[test]
fn nightly_example_is_byte_for_byte() {
    let expected = "block 0 rows 0 4\nv0=c1 v1=c0\nv0=c0 v1=c1\nend 2\nblock 1 none\n\
                    blocks 2 listed 1 none 1 refused 0\n";
    assert_eq!(text(&example_library()), expected);
}

#[test]
fn nightly_text_of_odd_inputs() {
    assert_eq!(text(&[]), "nothing read\n");
    assert_eq!(text(&[0]), "block 0 refused 1\nblocks 1 listed 0 none 0 refused 1\n");
    assert_eq!(text(&[0; BLOCK]), "block 0 refused 2\nblocks 1 listed 0 none 0 refused 1\n");
    let short = [&example_library()[512..], &[0; 511]].concat();
    let expected = "block 0 refused 3\nblock 1 refused 1\nblocks 2 listed 0 none 0 refused 2\n";
    assert_eq!(text(&short), expected);
    let mut constants = block(&[0, 0, 1, 1, 64, 64], [0, 0]);
    seal(&mut constants);
    assert_eq!(text(&constants), "block 0 rows 0 0\n-\nend 1\nblocks 1 listed 1 none 0 refused 0\n");
}

#[test]
fn library_has_every_kind_of_line() {
    let mut library = Vec::new();
    Library { seed: 1, blocks: 1000, zeros: 5 }.write(&mut library).expect("memory can be written");
    let text = text(&library);
    let refused = [1, 2, 3, 4, 5, 6, 9, 11, 12].map(|number| format!(" refused {number}\n"));
    let others =
        [" refused 10 v", " refused 10 c", " none\n", "\nmore\n", "\nend 199\n", "\nend 200\n", "\n-\n"]
            .map(str::to_string);
    for line in refused.iter().chain(&others) {
        assert!(text.contains(line.as_str()), "{line}");
    }
}

/// The number that a sealed block is refused with, or 0.
fn read_number(change: impl Fn(&mut Vec<u8>)) -> u8 {
    let mut changed = block(&[1, 2, 3, 1, 0x80, 0, 64, 65], [0, 0]);
    change(&mut changed);
    if changed.len() == BLOCK {
        seal(&mut changed);
    }
    read(&changed, 0x0102).map_or_else(Refusal::number, |_| 0)
}

/// The text of a block of two terms by a way of listing, without the counts.
fn text_of(way: Way, left: &[u8], right: &[u8]) -> String {
    let lengths = [left, right].map(|term| term.len() as u8);
    let mut block = block(&[&[0, 0], &lengths[..], left, right].concat(), [0, 0]);
    seal(&mut block);
    let text = text_by(way, &block);
    text.lines().take_while(|line| !line.starts_with("blocks")).collect::<Vec<_>>().join(" / ")
}

#[test]
fn patterns_have_separate_variables() {
    let text_of = |left, right| text_of(Way::Unifying, left, right);
    let overlap = "block 0 rows 1 2 / v3=c1 v35=c0 / v3=c1+n0 v35=c0+n0 / end 2";
    assert_eq!(text_of(&[PLUS, 3, 64], &[PLUS, 3, 65]), overlap);
    assert_eq!(text_of(&[0], &[0]), "block 0 rows 1 0 / v0=n0 v32=n0 / end 1");
    assert_eq!(text_of(&[0], &[PLUS, 0, 1]), "block 0 rows 2 0 / v0=n0+n1 v32=n1 v33=n0 / end 1");
    assert_eq!(text_of(&[31], &[31]), "block 0 rows 1 0 / v31=n0 v63=n0 / end 1");
}

#[test]
fn matches_of_a_block() {
    let text_of = |left, right| text_of(Way::Matching, left, right);
    let four = "block 0 rows 0 5 / v0=v33 v1=v32+v32 / v0=v32 v1=v32+v33 / v0=v32+v33 v1=v32 / \
                v0=v32+v32 v1=v33 / end 4";
    assert_eq!(text_of(&[PLUS, 0, 1], &[PLUS, 0, PLUS, 0, 1]), four);
    assert_eq!(text_of(&[PLUS, 0, 64], &[PLUS, 0, 64]), "block 0 rows 0 1 / v0=v32 / end 1");
    assert_eq!(text_of(&[PLUS, 0, 0], &[PLUS, 64, 65]), "block 0 none");
    assert_eq!(text_of(&[64], &[64]), "block 0 rows 0 0 / - / end 1");
}

#[test]
fn blocks_are_refused_by_the_lowest_number() {
    assert_eq!(read_number(|_| ()), 0);
    assert_eq!(read_number(|block| block.truncate(511)), 1);
    assert_eq!(read_number(|block| block.push(0)), 1);
    assert_eq!(read_number(|block| block[1] = 1), 3);
    assert_eq!(read_number(|block| block[2] = 0), 4);
    assert_eq!(read_number(|block| block[3] = 128), 4);
    assert_eq!(read_number(|block| block[2] = 2), 5);
    assert_eq!(read_number(|block| block[3] = 2), 5);
    assert_eq!(read_number(|block| block[4] = 129), 5);
    assert_eq!(read_number(|block| block[5] = 128), 5);
    assert_eq!(read_number(|block| block[5] = 31), 0);
    assert_eq!(read_number(|block| block[5] = 32), 5);
    assert_eq!(read_number(|block| block[7] = 63), 5);
    assert_eq!(read_number(|block| block[8] = 32), 6);
    assert_eq!(read_number(|block| (block[7], block[8]) = (32, 1)), 5);
    assert_eq!(read_number(|block| block[8] = 1), 6);
    assert_eq!(read_number(|block| block[509] = 255), 6);
    assert_eq!(read(&[0; BLOCK], 0).err(), Some(Refusal::Check));
}
