//! The table of answers: cases made of a few things each, and which refusals they have due at once.

use crate::check;
use std::collections::BTreeSet;

/// Every way to choose one of `counts[i]` things for each i, the ordinary thing being 0, with at most `unusual` others.
pub fn choices<const N: usize>(counts: [usize; N], unusual: usize) -> impl Iterator<Item = [usize; N]> {
    (0..counts.iter().product()).filter_map(move |mut code: usize| {
        let at = counts.map(|count| {
            let index = code % count;
            code /= count;
            index
        });
        (at.iter().filter(|&&index| index != 0).count() <= unusual).then_some(at)
    })
}

/// The refusals that were due in one case: a single one stands with itself.
#[derive(Default)]
pub struct Together(BTreeSet<(u64, u64)>);

impl Together {
    /// A case's due refusals, in the order in which they are given.
    pub fn note(&mut self, due: &[u64]) {
        for (i, &first) in due.iter().enumerate() {
            self.0.extend(due[i..].iter().map(|&other| (first, other)));
        }
    }

    /// The cases have every pair of refusals due at once but those that can never be.
    pub fn check(&self, what: &str, order: &[u64], never: impl Fn(u64, u64) -> bool) {
        for (i, &first) in order.iter().enumerate() {
            for &other in &order[i..] {
                let never = never(first, other);
                check::holds(
                    || format!("{what}: {first} and {other} due at once: the cases have it: {never}"),
                    self.0.contains(&(first, other)) != never,
                );
            }
        }
    }
}
