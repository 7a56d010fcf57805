//! Pairs that documents name: those of document 01 worked by hand, the counts that source 002 publishes
//! (TRACONE, B.2), and pairs at and just past the limits.

/// Document 01's pairs 1 to 17, each with its further cases.
pub const BY_HAND: [(&str, &str); 22] = [
    ("v0", "v1+c0"),
    ("v0+v1", "v2+v3"),
    ("2v0", "v1+v2"),
    ("v0+c0", "v1+c1"),
    ("2v0", "v1+c0"),
    ("3v0", "2v1"),
    ("v0", "v0"),
    ("c0", "c0"),
    ("v0", "v0+v1"),
    ("v0+v1", "c0"),
    ("2v0", "c0"),
    ("v0+v1", "c0+c1"),
    ("4v0+v4", "v1+v2+v3+v4"),
    ("4v0+v4+v5", "v1+v2+v3+v4+v5"),
    ("v0+v1+v2", "4c0"),
    ("v0+v1+v2", "5c0"),
    ("8v0", "v1"),
    ("9v0", "v1"),
    ("v0", "c0+c1+c2+c3"),
    ("v0", "c0+c1+c2+c3+c4"),
    ("v0+v1+v2", "v3+v4+v5"),
    ("v0+v1+v2", "v3+v4+v5+v6"),
];

/// Pairs of source 002 with the number of unifiers that it publishes for each.
pub const PUBLISHED: [(&str, &str, u64); 5] = [
    ("v0+v1", "v2+v3", 7),
    ("v0+v1+c0", "v2+v3+v4+c1", 204),
    ("2v0+c0", "v1+v2+c1+c2", 60),
    ("2v0+v1", "v2+v3+c0+c1", 228),
    ("3v0", "v1+v2+v3+c0", 6006),
];

/// The pair of net counts -8, -8, -3 and 7 with four constants of net count 7: the highest key is on its
/// list.
pub const HIGHEST: (&str, &str) = ("7v3+7c0+7c1+7c2+7c3", "8v0+8v1+3v2");

/// The pair with the longest list of all, 4,294,651,782 keys.
pub const LONGEST_LIST: (&str, &str) = ("6v3+6c0+6c1+6c2+6c3", "8v0+7v1+7v2");

/// A pair whose rows fill 480 bytes: six variables, 16 balanced rows and 16 for each of four constants.
pub const MOST_ROW_BYTES: (&str, &str) = ("2v4+2v5+7c0+7c1+7c2+7c3", "8v0+8v1+v2+v3");

/// A pair whose last key gives a value of 135 atoms, the longest of all.
pub const LONGEST_VALUE: (&str, &str) = ("4v4", "8v0+7v1+7v2+7v3+7c0+7c1+7c2+7c3");

/// A pair whose first key stands behind 49,666 other candidates.
pub const LATEST_FIRST_KEY: (&str, &str) = ("v0+v1+4v2+8v4+c0", "v0+v1+v3+v5");

/// Pairs with exactly 199, 200 and 201 keys, around the usual page.
pub const AROUND_A_PAGE: [(&str, &str); 3] =
    [("2v1+v3", "v0+v2+3c0+2c1"), ("2v0+v1+c0", "6v2+2v3"), ("3v0+4c1+3c2+3c3", "2v1+v2")];

/// Pairs at and past each limit, and pairs that give two reasons for a refusal, of which the lower number
/// counts.
pub const AT_LIMITS: [(&str, &str); 38] = [
    ("", ""),
    ("", "v0"),
    ("v0", ""),
    ("64v0", "64v0"),
    ("64v0", "65v0"),
    ("65v0", "64v0"),
    ("64v0+n0", "v0"),
    ("v0", "64v0+n0"),
    ("n0", ""),
    ("v0+n0", "v0"),
    ("v0", "c0+n15"),
    ("v0+v1+v2+v3+v4+v5+v6", "n0"),
    ("v10+v20+v30+v40+v50+v63", "c63"),
    ("v10+v20+v30+v40+v50+v63", "v0+c63"),
    ("9v0+v1+v2+v3+v4+v5+v6", "c0"),
    ("8c0+v0", "8v1"),
    ("9c0+v0", "v1"),
    ("v0", "8c63"),
    ("v0", "9c63"),
    ("9v0", "c0+c1+c2+c3+c4"),
    ("c0+c1+c2+c3+c4+v0", "v1"),
    ("v0+v1+v2", "5c0+c1+c2+c3+c4"),
    ("2v0+2v1+2v2+2v3", "c0+8c1"),
    ("4v0+v4+v5+c0", "v1+v2+v3+v4+v5"),
    ("v0+c0+c1+c2+c3+c4", "v1+c0+c1+c2+c3+c4"),
    ("v0+c0", "v0+c1"),
    ("v0+c0", "v0+c0"),
    ("v0+c0", "v1+c0"),
    ("60c0+v0", "60c0+v1"),
    ("c0", "c1"),
    ("2c0", "c0"),
    ("c0+c1", "c1+c0"),
    ("2v0", "2v1+c0"),
    ("4v0+5v1", "6v2+v3"),
    ("8v2", "v0+v1+5v3"),
    ("v0+v1+3v2", "7c0"),
    ("6c0", "v0+v1+2v2"),
    ("v0+v1+v2+v3+v4+v5", "v0+v1+v2+v3+v4+v5"),
];

/// Patterns and subjects (document 02, R-4): those worked by hand, those at and past each limit, and those that
/// give two reasons for a refusal, of which the earlier one counts. Each with the number that its first page is
/// refused with, or 0.
pub const MATCHED: [(&str, &str, u8); 39] = [
    ("v0+v1", "2v32+v33", 0),
    ("v0+c0", "v33+c0", 0),
    ("v0+v1+v2", "4v7", 0),
    ("v0+v1+v2", "5v7", 12),
    ("2v0", "c0+c1", 13),
    ("c0+c1+c2", "v0+v1+v2", 11),
    ("v0+c0", "v0+c1", 19),
    ("v0", "9v7", 10),
    ("v0", "v0", 19),
    ("v0+v1+c0", "v1+v32+c0", 19),
    ("65v0", "v0", 7),
    ("v0", "", 7),
    ("v0", "v0+n0", 8),
    ("v0+v1+v2+v3+v4+v5+v6", "v0", 19),
    ("9v0", "v0+c0", 19),
    ("v0+v1+v2+v3+v4+v5+v6", "v7", 9),
    ("9v0+v1+v2+v3+v4+v5+v6", "v7", 9),
    ("v10+v20+v30+v40+v50+v63", "3v0+3v62", 12),
    ("v10+v20+v30+v40+v50+v63", "v0+v1+v62+c0", 13),
    ("v0+v1+v2+v3+v4+2v5", "2v32+2v33+2c0+2c1", 0),
    ("v0+v1+v2", "v32+v33+v34+v35", 0),
    ("v0+v1+v2", "v32+v33+v34+v35+v36", 11),
    ("v0+v1+v2", "5v32+v33+v34+v35+v36", 11),
    ("9v0", "v32", 10),
    ("v0", "9v33+10v32", 10),
    ("9v40", "9v39", 10),
    ("v0", "9v32+c0+c1+c2+c3", 10),
    ("v0", "8v32", 0),
    ("8v0", "8v63+8c63", 0),
    ("v40+v41", "v0+v1+c0", 0),
    ("v0+v1+2v2", "6v32", 0),
    ("v0+v1+3v2", "7v32", 0),
    ("v0+c0", "v32+c1", 13),
    ("v0+c0", "c0", 13),
    ("v0+v1", "v32", 13),
    ("c0", "c0", 0),
    ("c0", "v0", 13),
    ("v0+63c0", "v32+63c0", 0),
    ("3v0+2v1", "5v32+8c0", 0),
];

/// Pairs in sums with an identity (document 02, R-10): those worked by hand, those at and past each limit, and those
/// that give two reasons for a refusal. Each with the number that its first page is refused with, or 0.
pub const WITH_IDENTITY: [(&str, &str, u8); 31] = [
    ("v0+v1", "v2+v3", 0),
    ("c0+c1+c2", "v0+v1+v2", 0),
    ("v0", "", 0),
    ("", "v0+v1", 0),
    ("", "", 0),
    ("c0", "", 13),
    ("", "c0+v0", 13),
    ("v0+v1", "c0", 0),
    ("2v0+c0", "v1+v2+c1", 0),
    ("v0", "v0+v1", 0),
    ("2v0", "c0", 13),
    ("2v0", "c0+v1", 0),
    ("2v0+c0", "v0+v0", 13),
    ("v0+v1+c0", "v0+v1", 13),
    ("3v0+5v1", "", 0),
    ("64v0", "", 10),
    ("8v0", "", 0),
    ("65v0", "", 7),
    ("", "65n0", 7),
    ("", "n0", 8),
    ("v0+v1+v2+v3+v4+v5+v6", "", 9),
    ("v0+v1+v2+v3+v4+v5", "", 0),
    ("9v0+v1+v2+v3+v4+v5+v6", "", 9),
    ("", "9c63+9v39", 10),
    ("9v0", "c0+c1+c2+c3+c4", 10),
    ("", "c0+c1+c2+c3+c4", 11),
    ("", "c0+c1+c2+c3", 13),
    ("v0+v1+v2+c0", "5c1", 12),
    ("4v0+v4+v5", "v1+v2+v3+v4+v5", 12),
    ("4v0+v4", "v1+v2+v3+v4", 0),
    ("v0", "c0+c1+c2+c3", 0),
];

/// A pair that has 225 keys in sums with an identity, more than a usual page.
pub const IDENTITY_OF_PAGES: (&str, &str) = ("v0+v1+v2", "4c0+4c1");

/// The pattern and subject with the longest list: 16 ways for each of four atoms.
pub const LONGEST_MATCHES: (&str, &str) = ("v0+v1+2v2", "6v32+6v33+6c0+6c1");

/// A pattern and subject with 528 matches, more than two usual pages.
pub const MATCHES_OF_PAGES: (&str, &str) = ("v0+v1+v2", "4v32+4v33+c0");
