//! "Ways": marks and groups, and the combinations that the types byte names.

/// Numbers on the board.
pub const NUMBERS: usize = 80;

/// The most groups a ticket can have.
pub const MOST_GROUPS: u8 = 8;

/// Whether there are 80 marks, none over `groups`, and no group is empty.
pub fn marks_in_order(marks: &[u8], groups: u8) -> bool {
    marks.len() == NUMBERS
        && marks.iter().all(|&mark| mark <= groups)
        && (1..=groups).all(|group| marks.contains(&group))
}

/// Whether the types byte names a count of groups, and none above `groups`.
pub fn types_in_order(types: u8, groups: u8) -> bool {
    types != 0 && (1..=8).all(|count| !nominates(types, count) || count <= u32::from(groups))
}

/// The numbers of every way: for each nominated count k, one way for each
/// combination of exactly k groups.
///
/// Combinations are gone through as sets of groups; the document gives the ways
/// of a ticket no order, and none of its figures depends on one.
pub fn ways(marks: &[u8], groups: u8, types: u8) -> Vec<Vec<u8>> {
    (1u32..1 << groups)
        .filter(|set| nominates(types, set.count_ones()))
        .map(|set| numbers_of(marks, set))
        .collect()
}

/// Bit k-1 of the types byte means combinations of exactly k groups.
fn nominates(types: u8, count: u32) -> bool {
    types >> (count - 1) & 1 == 1
}

/// The marked numbers whose group is in the set (bit 0 is group 1).
fn numbers_of(marks: &[u8], set: u32) -> Vec<u8> {
    (1u8..)
        .zip(marks)
        .filter(|&(_, &group)| group > 0 && set >> (group - 1) & 1 == 1)
        .map(|(number, _)| number)
        .collect()
}

/// The marks of a ticket with these groups of numbers, the first being group 1.
pub fn marks_of(groups: &[&[u8]]) -> Vec<u8> {
    let mut marks = vec![0; NUMBERS];
    for (group, numbers) in (1u8..).zip(groups) {
        for &number in *numbers {
            marks[usize::from(number) - 1] = group;
        }
    }
    marks
}
