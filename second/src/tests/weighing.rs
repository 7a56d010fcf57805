//! How many candidates a page has weighed (document 02, R-8): pages worked by hand, and all candidates tried one by one.

use super::solved;
use crate::chance::Chance;
use crate::examples::LATEST_FIRST_KEY;
use crate::list::field_shift;
use crate::pair::Way;
use crate::rows::Groups;
use crate::sides::{all_pairs, apart, random_sides};
use crate::solved::Solved;

/// Pairs with more candidates are not tried.
const FEW: usize = 1 << 10;

/// The keys of all candidates: row indexes within their groups, and no bit beyond the balanced rows.
fn candidates(groups: &Groups) -> Vec<u32> {
    let mut candidates: Vec<u32> = (0..1 << groups.balanced.len()).collect();
    for (place, rows) in groups.constants.iter().enumerate() {
        let with_row = |key: u32| (0..rows.len() as u32).map(move |row| key | row << field_shift(place));
        candidates = candidates.into_iter().flat_map(with_row).collect();
    }
    candidates
}

/// A page has weighed the candidates after its beginning up to and including its last key.
fn page_is_weighed(solved: &Solved, candidates: &[u32], after: Option<u32>, wanted: usize) {
    let Ok(page) = solved.page(after, wanted) else { return };
    let last = page.keys[page.keys.len() - 1];
    let between = |key: &&u32| after.is_none_or(|after| **key > after) && **key <= last;
    assert_eq!(page.weighed, candidates.iter().filter(between).count() as u64, "{:?}", solved.pair);
    assert!(page.weighed <= candidates.len() as u64);
}

/// Pages from the start and after some keys, each of several counts, have weighed what they should.
fn pages_are_weighed(solved: &Solved) -> bool {
    let sizes = solved.groups.constants.iter().map(Vec::len);
    if sizes.product::<usize>() << solved.groups.balanced.len() > FEW {
        return false;
    }
    let candidates = candidates(&solved.groups);
    let keys = solved.list.keys(None, 9);
    for wanted in [1, 2, 3, 200] {
        page_is_weighed(solved, &candidates, None, wanted);
        keys.iter().for_each(|&key| page_is_weighed(solved, &candidates, Some(key), wanted));
    }
    true
}

#[test]
fn candidates_are_weighed() {
    let page = |left, right, after, wanted| {
        let page = solved(left, right).page(after, wanted).expect("a page");
        (page.keys, page.weighed)
    };
    assert_eq!(page("v0+v1", "v2+v3", None, 3), (vec![6, 7, 9], 10));
    assert_eq!(page("v0+v1", "v2+v3", Some(9), 2), (vec![11, 13], 4));
    assert_eq!(page("v0+v1", "c0+c1", None, 1), (vec![16_777_216], 2));
    assert_eq!(page("v0+v1", "c0+c1", None, 5), (vec![16_777_216, 268_435_456], 3));
    assert_eq!(page("c0", "c0", None, 1), (vec![0], 1));
    assert_eq!(page(LATEST_FIRST_KEY.0, LATEST_FIRST_KEY.1, None, 1).1, 49_667);
}

#[test]
fn weighed_are_those_of_all_candidates() {
    let mut chance = Chance::new(8);
    let random = (0..2000).map(|_| random_sides(&mut chance)).collect::<Vec<_>>();
    let pairs = all_pairs(&[0, 1, 2, 64, 65], 3, 3);
    let unified = pairs.iter().chain(&random).flat_map(|sides| Solved::of(Way::Unifying, sides));
    let matched = pairs.iter().chain(&random).flat_map(|sides| Solved::of(Way::Matching, &apart(sides)));
    let tried = unified.chain(matched).filter(pages_are_weighed).count();
    assert!(tried > 6000, "{tried}");
}
