//! Sums with an identity (document 02, R-10): keys and values worked by hand, refusals in order, and rows against those
//! of unifying.

use crate::answer::answer;
use crate::block::Sides;
use crate::chance::Chance;
use crate::examples::{IDENTITY_OF_PAGES, WITH_IDENTITY};
use crate::names::{name, sides};
use crate::pair::Way;
use crate::question::{Ask, Question};
use crate::refusal::Refusal;
use crate::sides::{all_pairs, random_sides};
use crate::solved::Solved;

/// A pair that must not be refused before its list.
fn solved(left: &str, right: &str) -> Solved {
    Solved::of(Way::Identity, &sides(left, right))
        .unwrap_or_else(|refusal| panic!("{left} and {right}: {refusal:?}"))
}

/// The whole list of a pair.
fn keys(left: &str, right: &str) -> Vec<u32> {
    solved(left, right).list.keys(None, usize::MAX)
}

/// The values of a listed key: each variable with the atoms of its value, if it has any.
fn values(left: &str, right: &str, key: u32) -> String {
    let values = solved(left, right).values(key).expect("the key is listed");
    let atoms = |atoms: &[u8]| atoms.iter().map(|&atom| name(atom)).collect::<Vec<_>>().join("+");
    let parts: Vec<String> =
        values.iter().map(|value| format!("{}={}", name(value.variable), atoms(&value.atoms))).collect();
    parts.join(" ")
}

/// What Values answers: its number, its length and the bytes that it wrote.
fn written(left: &str, right: &str, key: u32) -> (u8, Vec<u8>) {
    let ask = Ask::Values { way: Way::Identity, key };
    let sides = sides(left, right);
    let answer = answer(&Question { ask, sides, fill: 7, first_buffer: 972, second_buffer: 0 }, Solved::of);
    (answer.number, answer.first[..answer.figures[0] as usize].to_vec())
}

#[test]
fn sums_with_an_identity_are_as_worked_by_hand() {
    assert_eq!(keys("v0+v1", "v2+v3"), [15]);
    assert_eq!(values("v0+v1", "v2+v3", 15), "v0=n2+n3 v1=n0+n1 v2=n1+n3 v3=n0+n2");
    assert_eq!(written("v0+v1", "v2+v3", 7), (14, vec![]));
    assert_eq!(keys("c0+c1+c2", "v0+v1+v2").len(), 27);
    assert_eq!((keys("v0", ""), written("v0", "", 0)), (vec![0], (0, vec![0, 0])));
    assert_eq!((keys("", ""), written("", "", 0)), (vec![0], (0, vec![])));
    assert_eq!(solved("c0", "").page(None, 1).err(), Some(Refusal::NoUnifier));
    assert_eq!(keys("v0+v1", "c0"), [0, 268_435_456]);
    assert_eq!(values("v0+v1", "c0", 0), "v0= v1=c0");
    assert_eq!(values("v0+v1", "c0", 268_435_456), "v0=c0 v1=");
    assert_eq!(keys("2v0+c0", "v1+v2+c1"), [7, 16_777_223, 268_435_463, 285_212_679]);
    assert_eq!(keys("v0", "v0+v1"), [1]);
    assert_eq!(values("v0", "v0+v1", 1), "v0=n0 v1=");
    assert_eq!(keys("c0", "c0"), [0]);
    assert_eq!(keys("4v0+v4", "v1+v2+v3+v4"), [65_535]);
    assert_eq!(keys(IDENTITY_OF_PAGES.0, IDENTITY_OF_PAGES.1).len(), 225);
}

#[test]
fn sums_with_an_identity_are_refused_in_order() {
    for (left, right, number) in WITH_IDENTITY {
        let page = Solved::of(Way::Identity, &sides(left, right)).and_then(|solved| solved.page(None, 200));
        assert_eq!(page.map_or_else(Refusal::number, |_| 0), number, "{left} and {right}");
    }
    let pair = solved("2v0+c0", "v1+v2+c1");
    for key in [0, 6, 8, 15, 16_777_222, 33_554_439, u32::MAX] {
        assert_eq!(pair.page(Some(key), 1).err(), Some(Refusal::NotListed), "{key}");
        assert_eq!(pair.values(key).err(), Some(Refusal::NotListed), "{key}");
    }
    assert_eq!(pair.page(Some(285_212_679), 1).err(), Some(Refusal::LastKey));
    assert_eq!(Solved::of(Way::Identity, &sides("", "9c63+9v39")).err().and_then(Refusal::atom), Some(39));
}

/// The rows are those of unifying, each page weighs as many as it writes, and a listed key of unifying that takes all
/// balanced rows is listed too.
fn agrees_with_unifying(sides: &Sides) {
    let unified = Solved::of(Way::Unifying, sides);
    let pair = match Solved::of(Way::Identity, sides) {
        Ok(pair) => pair,
        Err(refusal) => {
            let of_unifying = unified.err();
            assert!(of_unifying == Some(refusal) || of_unifying == Some(Refusal::SideLength), "{sides:?}");
            return;
        }
    };
    for wanted in [1, 3, 200] {
        let page = pair.page(None, wanted);
        assert!(page.is_ok_and(|page| page.weighed == page.keys.len() as u64) || pair.list.is_empty());
    }
    match unified {
        Ok(unified) => {
            assert_eq!(unified.groups, pair.groups, "{sides:?}");
            let all = (1 << pair.groups.balanced.len()) - 1;
            let keys = unified.list.keys(None, 1000).into_iter().filter(|key| key & 0xFFFF == all);
            keys.for_each(|key| assert!(pair.list.holds(key), "{sides:?}, {key}"));
        }
        Err(refusal) => assert_eq!(refusal, Refusal::SideLength, "{sides:?}"),
    }
}

#[test]
fn rows_with_an_identity_are_those_of_unifying() {
    all_pairs(&[0, 1, 2, 64, 65], 3, 3).iter().for_each(agrees_with_unifying);
    let mut chance = Chance::new(10);
    for _ in 0..5000 {
        agrees_with_unifying(&random_sides(&mut chance));
    }
}
