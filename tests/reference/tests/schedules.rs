//! Rule book section 18 and the schedule of Lucky Last, copied out a second time,
//! by numbers selected, and compared cell by cell with the tables of the crate.

use reference::prizes::feature_prize;
use reference::schedule::{lucky_last, special_one, special_two, standard};

/// Match and dollars, for each selection; what is not listed pays 0.
type Column = (usize, &'static [(usize, u32)]);

const STANDARD: [Column; 15] = [
    (1, &[(1, 3)]),
    (2, &[(2, 13)]),
    (3, &[(2, 2), (3, 36)]),
    (4, &[(2, 1), (3, 5), (4, 113)]),
    (5, &[(0, 1), (3, 1), (4, 10), (5, 530)]),
    (6, &[(3, 1), (4, 4), (5, 50), (6, 1000)]),
    (7, &[(0, 1), (3, 1), (4, 3), (5, 10), (6, 155), (7, 5000)]),
    (8, &[(0, 1), (4, 1), (5, 5), (6, 50), (7, 555), (8, 12500)]),
    (9, &[(0, 2), (4, 2), (5, 4), (6, 15), (7, 150), (8, 3000), (9, 20000)]),
    (10, &[(0, 3), (4, 1), (5, 3), (6, 12), (7, 50), (8, 500), (9, 7500), (10, 25000)]),
    (11, &[(0, 4), (1, 1), (5, 2), (6, 5), (7, 32), (8, 200), (9, 1500), (10, 10000), (11, 30000)]),
    (
        12,
        &[
            (0, 6),
            (1, 1),
            (5, 1),
            (6, 5),
            (7, 15),
            (8, 75),
            (9, 600),
            (10, 4000),
            (11, 12000),
            (12, 35000),
        ],
    ),
    (
        13,
        &[
            (0, 8),
            (1, 1),
            (5, 1),
            (6, 3),
            (7, 7),
            (8, 40),
            (9, 250),
            (10, 2000),
            (11, 9000),
            (12, 20000),
            (13, 40000),
        ],
    ),
    (
        14,
        &[
            (0, 10),
            (1, 1),
            (5, 1),
            (6, 2),
            (7, 5),
            (8, 15),
            (9, 150),
            (10, 500),
            (11, 5500),
            (12, 15000),
            (13, 25000),
            (14, 45000),
        ],
    ),
    (
        15,
        &[
            (0, 12),
            (1, 2),
            (6, 2),
            (7, 5),
            (8, 15),
            (9, 50),
            (10, 350),
            (11, 1600),
            (12, 8000),
            (13, 15000),
            (14, 30000),
            (15, 50000),
        ],
    ),
];

const SPECIAL_ONE: [Column; 2] = [
    (6, &[(0, 1), (3, 1), (4, 6), (5, 50), (6, 1200)]),
    (8, &[(0, 1), (4, 2), (5, 9), (6, 60), (7, 1000), (8, 12500)]),
];

const SPECIAL_TWO: [Column; 4] =
    [(3, &[(3, 56)]), (4, &[(4, 252)]), (5, &[(5, 1200)]), (6, &[(6, 6000)])];

fn dollars(columns: &[Column], selected: usize, matched: usize) -> u32 {
    let column = columns.iter().find(|column| column.0 == selected);
    let cell = column.and_then(|column| column.1.iter().find(|cell| cell.0 == matched));
    cell.map_or(0, |cell| cell.1)
}

#[test]
fn every_cell() {
    for selected in 0..=20 {
        for matched in 0..=20 {
            let cell = format!("{matched} of {selected}");
            let plain = dollars(&STANDARD, selected, matched);
            assert_eq!(standard(selected, matched), plain, "standard, {cell}");
            let one = if selected == 6 || selected == 8 {
                dollars(&SPECIAL_ONE, selected, matched)
            } else {
                plain
            };
            assert_eq!(special_one(selected, matched), one, "special one, {cell}");
            let two = dollars(&SPECIAL_TWO, selected, matched);
            assert_eq!(special_two(selected, matched), two, "special two, {cell}");
        }
    }
}

/// Rule 21.1: numbers selected, and dollars and cents.
const LUCKY_LAST: [(usize, u32, u32); 15] = [
    (1, 60, 0),
    (2, 30, 0),
    (3, 20, 0),
    (4, 15, 0),
    (5, 12, 0),
    (6, 10, 0),
    (7, 8, 50),
    (8, 7, 50),
    (9, 6, 50),
    (10, 6, 0),
    (11, 5, 50),
    (12, 5, 0),
    (13, 4, 50),
    (14, 4, 0),
    (15, 4, 0),
];

#[test]
fn every_count_of_numbers_of_lucky_last() {
    for (selected, dollars, cents) in LUCKY_LAST {
        let printed = 100 * dollars + cents;
        assert_eq!(lucky_last(selected), printed, "{selected} numbers");
        for dollars in [1, 2, 7, 9_998] {
            let prize = feature_prize(selected, 100 * dollars);
            assert_eq!(prize, i128::from(printed) * dollars, "{selected} numbers at ${dollars}");
        }
    }
    assert_eq!([0, 16, 80].map(lucky_last), [0, 0, 0]);
}
