//! The differences of a run, of each sort the smallest one: that is the easiest to look into.

use std::collections::BTreeMap;

/// How many differences are printed; the others are counted.
const SHOWN: usize = 5;

/// The call's name and both answers' numbers: differences alike in these mostly have one cause.
pub type Sort = (&'static str, u32, u32);

/// A difference in a call of any sort.
pub trait Difference {
    fn sort(&self) -> Sort;

    /// How much there is to read of it.
    fn size(&self) -> usize;
}

pub struct Smallest<D>(BTreeMap<Sort, D>);

impl<D> Default for Smallest<D> {
    fn default() -> Self {
        Smallest(BTreeMap::new())
    }
}

impl<D: Difference> Smallest<D> {
    /// Keeps a difference, if none that is as small is kept of its sort.
    pub fn keep(&mut self, difference: D) {
        let larger = |kept: &D| kept.size() > difference.size();
        let sort = difference.sort();
        if self.0.get(&sort).is_none_or(larger) {
            self.0.insert(sort, difference);
        }
    }

    /// Those that are printed.
    pub fn shown(&self) -> impl Iterator<Item = &D> {
        self.0.values().take(SHOWN)
    }
}
