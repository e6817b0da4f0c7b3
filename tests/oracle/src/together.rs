//! Faults together, so that the order of refusals shows.

/// Every choice of some of n faults, from none to all: whether each of them is there.
pub fn choices(n: u32) -> impl Iterator<Item = Vec<bool>> {
    (0..1u32 << n).map(move |choice| (0..n).map(|k| choice >> k & 1 == 1).collect())
}
