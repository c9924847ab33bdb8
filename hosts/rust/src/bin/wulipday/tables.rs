//! Till and pools as tables, in dollars.

use std::fmt::Write;
use wulipday::{Dollars, Pools, Till};

const WIDTH: usize = 18;

/// The nine figures, and the two sums that are equal.
pub fn till(till: &Till) -> String {
    let figures = till.figures();
    let mut table = String::from("till\n");
    for (name, cents) in Till::NAMES.into_iter().zip(figures) {
        row(&mut table, name, &[cents]);
    }
    row(&mut table, "taken and seeds", &[figures[..2].iter().sum()]);
    row(&mut table, "the other seven", &[figures[2..].iter().sum()]);
    table
}

/// A column for each jackpot.
pub fn pools(pools: &Pools) -> String {
    let Pools { six, eight } = pools;
    let mut table =
        format!("{:<17}{:>WIDTH$}{:>WIDTH$}\n", "pools", "six numbers", "eight numbers");
    let rows = [
        ("primary", six.primary, eight.primary),
        ("secondary", six.secondary, eight.secondary),
        ("reimbursement", six.reimbursement, eight.reimbursement),
        ("debt", six.debt, eight.debt),
    ];
    for (name, six, eight) in rows {
        row(&mut table, name, &[six.into(), eight.into()]);
    }
    table
}

fn row(table: &mut String, name: &str, cents: &[i128]) {
    let amounts = cents.iter().map(|&cents| format!("{:>WIDTH$}", Dollars(cents)));
    let amounts: String = amounts.collect();
    writeln!(table, "  {name:<15}{amounts}").expect("a string takes it");
}
