//! The distance of two texts by which just picks a suggestion.
pub(crate) fn levenshtein(a: &str, b: &str) -> usize {
    let b = b.chars().collect::<Vec<char>>();
    let mut row = (0..=b.len()).collect::<Vec<usize>>();
    for (i, x) in a.chars().enumerate() {
        let mut corner = row[0];
        row[0] = i + 1;
        for (j, y) in b.iter().enumerate() {
            let change = corner + usize::from(x != *y);
            corner = row[j + 1];
            row[j + 1] = change.min(corner + 1).min(row[j] + 1);
        }
    }
    row[b.len()]
}
