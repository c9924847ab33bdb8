//! Section 18 of the rule book: dollars for a dollar, by numbers selected and
//! numbers matched.
//!
//! The tables stand here as they are printed, a row for each match and a column
//! for each selection. `X` is a cell the book leaves blank. Rows that the book
//! leaves out, blank cells and selections without a table all pay 0.
//!
//! Beside them, rule 21.1 of Tasmania's book: Lucky Last.

const X: u32 = 0;

type Row<const COLUMNS: usize> = (usize, [u32; COLUMNS]);

/// Rule 18.1, numbers selected 1 to 5.
const STANDARD_1_TO_5: [Row<5>; 6] = [
    (0, [0, 0, 0, 0, 1]),
    (1, [3, 0, 0, 0, 0]),
    (2, [X, 13, 2, 1, 0]),
    (3, [X, X, 36, 5, 1]),
    (4, [X, X, X, 113, 10]),
    (5, [X, X, X, X, 530]),
];

/// Rule 18.1, numbers selected 6 to 10.
const STANDARD_6_TO_10: [Row<5>; 9] = [
    (0, [0, 1, 1, 2, 3]),
    (3, [1, 1, 0, 0, 0]),
    (4, [4, 3, 1, 2, 1]),
    (5, [50, 10, 5, 4, 3]),
    (6, [1_000, 155, 50, 15, 12]),
    (7, [X, 5_000, 555, 150, 50]),
    (8, [X, X, 12_500, 3_000, 500]),
    (9, [X, X, X, 20_000, 7_500]),
    (10, [X, X, X, X, 25_000]),
];

/// Rule 18.1, numbers selected 11 to 15.
const STANDARD_11_TO_15: [Row<5>; 14] = [
    (0, [4, 6, 8, 10, 12]),
    (1, [1, 1, 1, 1, 2]),
    (4, [0, 0, 0, 0, 0]),
    (5, [2, 1, 1, 1, 0]),
    (6, [5, 5, 3, 2, 2]),
    (7, [32, 15, 7, 5, 5]),
    (8, [200, 75, 40, 15, 15]),
    (9, [1_500, 600, 250, 150, 50]),
    (10, [10_000, 4_000, 2_000, 500, 350]),
    (11, [30_000, 12_000, 9_000, 5_500, 1_600]),
    (12, [X, 35_000, 20_000, 15_000, 8_000]),
    (13, [X, X, 40_000, 25_000, 15_000]),
    (14, [X, X, X, 45_000, 30_000]),
    (15, [X, X, X, X, 50_000]),
];

/// Rule 18.2, numbers selected 6 and 8.
const SPECIAL_ONE_6_AND_8: [Row<2>; 7] = [
    (0, [1, 1]),
    (3, [1, 0]),
    (4, [6, 2]),
    (5, [50, 9]),
    (6, [1_200, 60]),
    (7, [X, 1_000]),
    (8, [X, 12_500]),
];

/// Rule 18.3, numbers selected 3 to 6.
const SPECIAL_TWO_3_TO_6: [Row<4>; 4] =
    [(3, [56, X, X, X]), (4, [X, 252, X, X]), (5, [X, X, 1_200, X]), (6, [X, X, X, 6_000])];

/// Rule 21.1, numbers selected 1 to 15: cents for a dollar.
const LUCKY_LAST: [u32; 15] =
    [6_000, 3_000, 2_000, 1_500, 1_200, 1_000, 850, 750, 650, 600, 550, 500, 450, 400, 400];

/// Rule 18.1.
pub fn standard(selected: usize, matched: usize) -> u32 {
    match selected {
        1..=5 => cell(&STANDARD_1_TO_5, selected - 1, matched),
        6..=10 => cell(&STANDARD_6_TO_10, selected - 6, matched),
        11..=15 => cell(&STANDARD_11_TO_15, selected - 11, matched),
        _ => 0,
    }
}

/// Rule 18.2, which is rule 18.1 but for selections of 6 and 8.
pub fn special_one(selected: usize, matched: usize) -> u32 {
    match selected {
        6 => cell(&SPECIAL_ONE_6_AND_8, 0, matched),
        8 => cell(&SPECIAL_ONE_6_AND_8, 1, matched),
        _ => standard(selected, matched),
    }
}

/// Rule 18.3.
pub fn special_two(selected: usize, matched: usize) -> u32 {
    match selected {
        3..=6 => cell(&SPECIAL_TWO_3_TO_6, selected - 3, matched),
        _ => 0,
    }
}

/// Rule 21.1: cents for a dollar, when the last ball is among the numbers.
pub fn lucky_last(selected: usize) -> u32 {
    match selected {
        1..=15 => LUCKY_LAST[selected - 1],
        _ => 0,
    }
}

fn cell<const COLUMNS: usize>(table: &[Row<COLUMNS>], column: usize, matched: usize) -> u32 {
    table.iter().find(|(row, _)| *row == matched).map_or(0, |(_, cells)| cells[column])
}
