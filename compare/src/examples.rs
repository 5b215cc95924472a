//! The examples of the documentation, over the example tree.
use crate::{fixed, judge::Judge, line, side::Side};

const EXAMPLES: [(&str, &str); 20] = [
    ("lower 3 --by 10", "reading 1 | 0 0 4 0:33 1:3130"),
    ("lower 3 -qb 10", "reading 1 | 0 0 4 0:33 1:3130 2:74727565"),
    ("lower 3 --by --", "reading 1 | 0 0 4 0:33 1:2d2d"),
    ("lower --by=1 3 lower --by=5 4", "reading 2 | 0 0 3 0:33 1:31 | 0 3 3 0:34 1:35"),
    ("lower 3 --by=10 --by=10", "refused 28 3 3 0 0"),
    ("lower 3 -bq", "refused 26 3 2 0 0"),
    ("lower", "refused 29 4 0 1 0"),
    ("lower --by=1", "refused 30 4 0 0 1"),
    ("e raise 1 2", "reading 1 | 1 0 4 0:31,32"),
    ("east::raise -1", "reading 1 | 1 0 2 0:2d31"),
    ("east::", "refused 21 2 0 0 0"),
    ("east:: raise", "refused 14 2 0 0 0"),
    ("east::raise::x", "refused 16 2 0 0 0"),
    ("east::x::y", "refused 15 2 0 0 0"),
    ("lower 3 --by=1 lower 4 -qqb 1", "refused 28 3 5 1 0"),
    ("lower 3 --by 1 --by 1", "refused 28 3 4 0 0"),
    ("lower 3 --by 1 --by", "refused 27 3 4 0 0"),
    ("lower 3 -qx", "refused 24 3 2 1 0"),
    ("lower 3 -q=1", "refused 25 3 2 0 0"),
    ("lower 3 --=1", "refused 23 3 2 0 0"),
];

/// The number of examples; panics where just answers otherwise.
pub fn check() -> usize {
    let tree = fixed::example();
    let side = Side::new(&tree, Judge::Either);
    assert_eq!(side.answer(&[]), "refused 21 2 0 0 0");
    for (words, answer) in EXAMPLES {
        let words = words.split(' ').collect::<Vec<&str>>();
        assert_eq!(side.answer(&line::join(&words)), answer, "{words:?}");
    }
    EXAMPLES.len() + 1
}
