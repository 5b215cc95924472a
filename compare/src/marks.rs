//! Counts of the branches that the marked copy of just's text has taken.
use std::sync::{
    LazyLock,
    atomic::{AtomicUsize, Ordering::Relaxed},
};

/// What each mark stands for: file, line and branch. Empty unless built with the feature `marked`.
pub static NAMES: LazyLock<Vec<&str>> =
    LazyLock::new(|| include_str!(concat!(env!("OUT_DIR"), "/marks.txt")).lines().collect());

static HITS: LazyLock<Vec<AtomicUsize>> =
    LazyLock::new(|| NAMES.iter().map(|_| AtomicUsize::new(0)).collect());

#[allow(dead_code)]
pub fn hit(mark: usize) {
    HITS[mark].fetch_add(1, Relaxed);
}

#[allow(dead_code)]
pub fn both(yes: usize, no: usize, condition: bool) -> bool {
    hit(if condition { yes } else { no });
    condition
}

/// The marks hit since the last call.
pub fn drain() -> Vec<usize> {
    let taken = |(mark, hits): (usize, &AtomicUsize)| (hits.swap(0, Relaxed) > 0).then_some(mark);
    HITS.iter().enumerate().filter_map(taken).collect()
}
