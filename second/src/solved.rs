//! A solved pair: what Rows, Page and Values answer from, and the order of their refusals after the rows.

use crate::block::Sides;
use crate::list::List;
use crate::matching::handed_out;
use crate::pair::{Pair, Way};
use crate::refusal::Refusal;
use crate::rows::Groups;
use crate::values::{values, Value};

/// The count that a wanted count of 0 means.
pub const USUAL_COUNT: u32 = 200;

/// A pair with its rows and its list.
pub struct Solved {
    pub pair: Pair,
    pub groups: Groups,
    pub list: List,
}

/// Some keys of a list, whether more follow, and how many candidates were weighed up to the last of them.
pub struct Page {
    pub keys: Vec<u32>,
    pub more: bool,
    pub weighed: u64,
}

impl Solved {
    /// The pair of two sides in one way of listing, or the first of the refusals up to 12 that holds.
    pub fn of(way: Way, sides: &Sides) -> Result<Solved, Refusal> {
        let pair = Pair::of(way, sides)?;
        let groups = match way {
            Way::Unifying | Way::Identity => Groups::of(&pair)?,
            Way::Matching => handed_out(&pair)?,
        };
        let list = match way {
            Way::Unifying | Way::Matching => List::of(&pair, &groups),
            Way::Identity => List::with_identity(&groups),
        };
        Ok(Solved { pair, groups, list })
    }

    /// The next keys from the start or after a key, or the first of the refusals 13 to 15 that holds.
    pub fn page(&self, after: Option<u32>, wanted: usize) -> Result<Page, Refusal> {
        match after {
            Some(key) => self.must_list(key)?,
            None => self.must_unify()?,
        }
        let mut keys = self.list.keys(after, wanted + 1);
        let more = keys.len() > wanted;
        keys.truncate(wanted);
        let last = *keys.last().ok_or(Refusal::LastKey)?;
        Ok(Page { keys, more, weighed: self.list.candidates(after, last) })
    }

    /// The values of the variables for a key, or the first of the refusals 13 and 14 that holds.
    pub fn values(&self, key: u32) -> Result<Vec<Value>, Refusal> {
        self.must_list(key)?;
        Ok(values(&self.pair, &self.groups, key))
    }

    /// Refusal 13 for an empty list.
    fn must_unify(&self) -> Result<(), Refusal> {
        if self.list.is_empty() {
            return Err(Refusal::NoUnifier);
        }
        Ok(())
    }

    /// Refusal 13 for an empty list, else 14 for a key that is not on it.
    fn must_list(&self, key: u32) -> Result<(), Refusal> {
        self.must_unify()?;
        if !self.list.holds(key) {
            return Err(Refusal::NotListed);
        }
        Ok(())
    }
}
