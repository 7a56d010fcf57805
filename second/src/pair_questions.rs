//! Questions about pairs.

use crate::block::Sides;
use crate::examples::{
    AROUND_A_PAGE, AT_LIMITS, BY_HAND, HIGHEST, IDENTITY_OF_PAGES, LATEST_FIRST_KEY, LONGEST_LIST,
    LONGEST_MATCHES, LONGEST_VALUE, MATCHED, MATCHES_OF_PAGES, MOST_ROW_BYTES, PUBLISHED, WITH_IDENTITY,
};
use crate::names::{sides, told};
use crate::pair::{Way, FIRST_CONSTANT};
use crate::question::Ask;
use crate::questions::{Questions, LONGEST_PAGE};
use crate::sides::{all_pairs, apart, multisets, random_sides, shuffled};
use crate::solved::Solved;

/// Three variables and two constants.
const SMALL_ATOMS: [u8; 5] = [0, 1, 2, FIRST_CONSTANT, FIRST_CONSTANT + 1];
/// The atoms of a small pattern, two variables and two constants, and of a small subject.
const PATTERN_ATOMS: [u8; 4] = [0, 1, FIRST_CONSTANT, FIRST_CONSTANT + 1];
const SUBJECT_ATOMS: [u8; 4] = [32, 33, FIRST_CONSTANT, FIRST_CONSTANT + 1];
/// The atoms of small pairs whose sides may share a variable.
const SHARED_ATOMS: [u8; 3] = [0, 32, FIRST_CONSTANT];
/// The most atoms of a side of a small pair.
const SMALL_SIDE: usize = 3;
/// Up to so many keys each one is asked about, else so many of them.
const KEYS_ASKED: usize = 16;
/// Odd page counts.
const ODD_COUNTS: [u32; 9] = [1, 3, 7, 13, 37, 101, 199, 203, 997];
/// Lists up to this length are walked to their end for the random pairs.
const SHORT_LIST: u64 = 60;

impl Questions {
    /// Asks about every small pair and about all pairs that have a name.
    pub fn ask_fixed_pairs(&mut self) -> Result<(), String> {
        for small in all_pairs(&SMALL_ATOMS, SMALL_SIDE, SMALL_SIDE) {
            self.ask_in_full(Way::Unifying, &small);
            if self.chance.one_in(8) {
                let other_order = shuffled(&mut self.chance, &small);
                self.ask_sampled(Way::Unifying, &other_order);
            }
        }
        for (left, right) in BY_HAND.iter().chain(&AT_LIMITS).chain(&AROUND_A_PAGE) {
            self.ask_named(Way::Unifying, &sides(left, right));
        }
        for (left, right) in [HIGHEST, LONGEST_LIST, MOST_ROW_BYTES, LONGEST_VALUE, LATEST_FIRST_KEY] {
            self.ask_named(Way::Unifying, &sides(left, right));
            self.walk_top(Way::Unifying, &sides(left, right));
        }
        for (left, right) in AROUND_A_PAGE {
            self.walk(Way::Unifying, &sides(left, right), None, &[0])?;
        }
        for (left, right, number) in PUBLISHED {
            let published = sides(left, right);
            self.ask_named(Way::Unifying, &published);
            for counts in [&ODD_COUNTS[..], &[ODD_COUNTS[3]], &[0]] {
                self.walk(Way::Unifying, &published, Some(number), counts)?;
            }
        }
        Ok(())
    }

    /// Asks in matching about every small pattern and subject and about all pairs that have a name, as they are
    /// and with their variables made apart.
    pub fn ask_fixed_matches(&mut self) -> Result<(), String> {
        for small in small_matches() {
            self.ask_in_full(Way::Matching, &small);
            if self.chance.one_in(8) {
                let other_order = shuffled(&mut self.chance, &small);
                self.ask_sampled(Way::Matching, &other_order);
            }
        }
        for (left, right, _) in MATCHED {
            self.ask_named(Way::Matching, &sides(left, right));
        }
        for (left, right) in BY_HAND.iter().chain(&AT_LIMITS).chain(&AROUND_A_PAGE) {
            let named = sides(left, right);
            self.ask_in_full(Way::Matching, &named);
            self.ask_in_full(Way::Matching, &apart(&named));
        }
        let longest = sides(LONGEST_MATCHES.0, LONGEST_MATCHES.1);
        self.ask_named(Way::Matching, &longest);
        self.walk_top(Way::Matching, &longest);
        let of_pages = sides(MATCHES_OF_PAGES.0, MATCHES_OF_PAGES.1);
        self.ask_named(Way::Matching, &of_pages);
        for counts in [&ODD_COUNTS[..], &[ODD_COUNTS[3]], &[0]] {
            self.walk(Way::Matching, &of_pages, None, counts)?;
        }
        Ok(())
    }

    /// Asks with an identity about small pairs and about all pairs that have a name.
    pub fn ask_fixed_identities(&mut self) -> Result<(), String> {
        for small in all_pairs(&SMALL_ATOMS, SMALL_SIDE - 1, SMALL_SIDE) {
            self.ask_in_full(Way::Identity, &small);
        }
        for (left, right, _) in WITH_IDENTITY {
            self.ask_named(Way::Identity, &sides(left, right));
        }
        let published = PUBLISHED.map(|(left, right, _)| (left, right));
        for (left, right) in BY_HAND.iter().chain(&AT_LIMITS).chain(&AROUND_A_PAGE).chain(&published) {
            self.ask_in_full(Way::Identity, &sides(left, right));
        }
        for (left, right) in [HIGHEST, LONGEST_LIST, MOST_ROW_BYTES, LONGEST_VALUE] {
            self.ask_in_full(Way::Identity, &sides(left, right));
            self.walk_top(Way::Identity, &sides(left, right));
        }
        let of_pages = sides(IDENTITY_OF_PAGES.0, IDENTITY_OF_PAGES.1);
        self.ask_named(Way::Identity, &of_pages);
        for counts in [&ODD_COUNTS[..], &[ODD_COUNTS[3]], &[0]] {
            self.walk(Way::Identity, &of_pages, None, counts)?;
        }
        Ok(())
    }

    /// Asks all that is asked about a small pair, and each question with each length of its buffer.
    fn ask_named(&mut self, way: Way, sides: &Sides) {
        self.ask_in_full(way, sides);
        let first = Solved::of(way, sides).ok().and_then(|solved| solved.list.keys(None, 1).first().copied());
        let key = first.unwrap_or(0);
        self.ask_with_each_buffer(Ask::Rows { way }, sides);
        self.ask_with_each_buffer(Ask::Values { way, key }, sides);
        for wanted in [0, 1, 199, 200, 201, 1023] {
            self.ask_with_each_buffer(Ask::Page { way, after: None, wanted }, sides);
            self.ask_with_each_buffer(Ask::Page { way, after: Some(key), wanted }, sides);
        }
        for wanted in [LONGEST_PAGE as u32 + 1, 65_536, 65_537, u32::MAX] {
            self.ask(Ask::Page { way, after: None, wanted }, sides);
        }
    }

    /// Asks for the rows, the number of unifiers, the first page, pages that end just before, at and after the
    /// last key, and about each key of the list, if there are not too many, and about some that are not on it.
    fn ask_in_full(&mut self, way: Way, sides: &Sides) {
        self.ask(Ask::Rows { way }, sides);
        self.ask_count(way, sides);
        self.ask(Ask::Page { way, after: None, wanted: 0 }, sides);
        let Ok(solved) = Solved::of(way, sides) else { return self.ask_about(way, sides, 0) };
        let number = solved.list.number();
        if number <= LONGEST_PAGE as u64 {
            for wanted in number.saturating_sub(1)..=number + 1 {
                self.ask(Ask::Page { way, after: None, wanted: wanted as u32 }, sides);
            }
        }
        let keys = solved.list.keys(None, KEYS_ASKED);
        for &key in keys.iter().chain(&solved.list.last()) {
            self.ask_about(way, sides, key);
        }
        if number > KEYS_ASKED as u64 {
            for _ in 0..KEYS_ASKED {
                let key = self.some_key(&solved);
                self.ask_about(way, sides, key);
            }
        }
        for _ in 0..2 {
            let key = self.stray_key(&solved);
            self.ask_about(way, sides, key);
        }
    }

    /// Asks how many unifiers a pair has; in other ways of listing that is not asked.
    fn ask_count(&mut self, way: Way, sides: &Sides) {
        if way == Way::Unifying {
            self.ask(Ask::Count, sides);
        }
    }

    /// Asks for the page after a key and for its values.
    fn ask_about(&mut self, way: Way, sides: &Sides, key: u32) {
        let wanted = self.wanted();
        self.ask(Ask::Page { way, after: Some(key), wanted }, sides);
        self.ask(Ask::Values { way, key }, sides);
    }

    /// Asks some questions about a pair, with buffers of any length.
    fn ask_sampled(&mut self, way: Way, sides: &Sides) {
        self.ask_any(Ask::Rows { way }, sides);
        self.ask_count(way, sides);
        let wanted = self.wanted();
        self.ask_any(Ask::Page { way, after: None, wanted }, sides);
        let keys = match Solved::of(way, sides) {
            Ok(solved) if !solved.list.is_empty() => {
                let stray = self.stray_key(&solved);
                let some = self.some_key(&solved);
                [Some(stray), Some(some), solved.list.last()]
            }
            _ => [Some(self.chance.number() as u32), None, None],
        };
        for key in keys.into_iter().flatten() {
            let wanted = self.wanted();
            self.ask_any(Ask::Page { way, after: Some(key), wanted }, sides);
            self.ask_any(Ask::Values { way, key }, sides);
        }
    }

    /// Asks about a random pair, in matching most often with its variables made apart, with an identity now and then
    /// with an empty side; a short list is also walked to its end.
    pub fn ask_random_pair(&mut self, way: Way) -> Result<(), String> {
        let mut sides = random_sides(&mut self.chance);
        if way == Way::Matching && !self.chance.one_in(8) {
            sides = apart(&sides);
        }
        if way == Way::Identity && self.chance.one_in(8) {
            sides.left.clear();
        }
        let from = self.number();
        self.ask_sampled(way, &sides);
        if self.chance.one_in(4) {
            self.ask_rewritten(way, from)?;
        }
        let is_short =
            Solved::of(way, &sides).is_ok_and(|solved| (1..=SHORT_LIST).contains(&solved.list.number()));
        if is_short && self.chance.one_in(4) {
            let counts = [self.chance.pick(&ODD_COUNTS[1..4]), self.chance.pick(&ODD_COUNTS[1..4])];
            self.walk(way, &sides, None, &counts)?;
        }
        Ok(())
    }

    /// Asks for all pages of a list, each after the last key of the one before, with the counts in turn. An
    /// error if the keys are not as many as are counted or as a source publishes, or if the pages have not weighed
    /// together all candidates up to the last key.
    fn walk(
        &mut self,
        way: Way,
        sides: &Sides,
        published: Option<u64>,
        counts: &[u32],
    ) -> Result<(), String> {
        let solved =
            Solved::of(way, sides).map_err(|refusal| format!("{} is refused: {refusal:?}", told(sides)))?;
        let number = solved.list.number();
        let mut after = None;
        let (mut walked, mut weighed) = (0, 0);
        for &wanted in counts.iter().cycle() {
            let ask = Ask::Page { way, after, wanted };
            self.ask(ask, sides);
            match solved.page(after, ask.wanted()) {
                Ok(page) => {
                    walked += page.keys.len() as u64;
                    weighed += page.weighed;
                    after = page.keys.last().copied();
                }
                Err(_) => break,
            }
        }
        if walked != number || published.is_some_and(|published| published != number) {
            return Err(format!("{}: {walked} keys walked, {number} counted", told(sides)));
        }
        let candidates = after.map_or(0, |last| solved.list.candidates(None, last));
        if weighed != candidates {
            return Err(format!("{}: {weighed} weighed of {candidates} candidates", told(sides)));
        }
        Ok(())
    }

    /// Asks for the pages at the upper end of a list that is too long to be walked.
    fn walk_top(&mut self, way: Way, sides: &Sides) {
        let Ok(solved) = Solved::of(way, sides) else { return };
        let Some(last) = solved.list.last() else { return };
        for back in [0, 1, 2, 3, 7, 200, 201, 5000] {
            self.ask_about(way, sides, last.saturating_sub(back));
        }
    }

    /// A wanted count: usual ones, odd ones, and now and then one above 200 or above any buffer.
    fn wanted(&mut self) -> u32 {
        match self.chance.below(32) {
            0 => 0,
            1 => self.chance.pick(&[199, 200, 201]),
            2 => 201 + self.chance.below(900) as u32,
            3 => self.chance.pick(&[1025, 65_536, 1 << 31, u32::MAX]),
            4..=7 => self.chance.pick(&ODD_COUNTS),
            _ => 1 + self.chance.below(9) as u32,
        }
    }

    /// A key somewhere on a list that is not empty.
    fn some_key(&mut self, solved: &Solved) -> u32 {
        let start = self.chance.number() as u32 & solved.list.last().unwrap_or(0);
        let next = solved.list.keys(Some(start), 1);
        next.first().copied().or(solved.list.last()).unwrap_or(start)
    }

    /// A key that is most often not on the list: any at all, or one beside or with another bit than a listed
    /// one.
    fn stray_key(&mut self, solved: &Solved) -> u32 {
        let near = self.some_key(solved);
        match self.chance.below(5) {
            0 => self.chance.number() as u32,
            1 => near.wrapping_add(1),
            2 => near.wrapping_sub(1),
            3 => near | 1 << (16 + self.chance.below(16)),
            _ => near ^ 1 << self.chance.below(32),
        }
    }
}

/// All small patterns with all small subjects, and all small pairs over atoms that both sides may have.
fn small_matches() -> Vec<Sides> {
    let subjects = multisets(&SUBJECT_ATOMS, SMALL_SIDE);
    let mut small = all_pairs(&SHARED_ATOMS, SMALL_SIDE, SMALL_SIDE);
    for left in multisets(&PATTERN_ATOMS, SMALL_SIDE) {
        small.extend(subjects.iter().map(|right| Sides { left: left.clone(), right: right.clone() }));
    }
    small
}
