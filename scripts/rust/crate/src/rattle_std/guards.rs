//! Tests of what calls require.

/// Whether no number comes twice.
pub fn are_distinct(numbers: impl Iterator<Item = usize>) -> bool {
    if numbers.size_hint().1 == Some(1) {
        return true;
    }
    let mut sorted: Vec<usize> = numbers.collect();
    sorted.sort_unstable();
    sorted.is_sorted_by(|first, second| first < second)
}
