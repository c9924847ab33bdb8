//! Amounts for people.

use std::fmt;

/// Cents, shown in dollars.
///
/// ```
/// use wulipday::Dollars;
///
/// assert_eq!(Dollars(111_000).to_string(), "$1,110.00");
/// assert_eq!(Dollars(-5).to_string(), "-$0.05");
/// ```
#[derive(Clone, Copy, Debug, PartialEq, Eq, PartialOrd, Ord)]
pub struct Dollars(pub i128);

impl fmt::Display for Dollars {
    fn fmt(&self, formatter: &mut fmt::Formatter<'_>) -> fmt::Result {
        let cents = self.0.unsigned_abs();
        let sign = if self.0 < 0 { "-" } else { "" };
        let shown = format!("{sign}${}.{:02}", in_thousands(cents / 100), cents % 100);
        formatter.pad(&shown)
    }
}

/// With a comma before every three digits.
fn in_thousands(number: u128) -> String {
    let digits = number.to_string();
    let mut shown = String::new();
    for (place, digit) in digits.chars().enumerate() {
        if place > 0 && (digits.len() - place).is_multiple_of(3) {
            shown.push(',');
        }
        shown.push(digit);
    }
    shown
}

#[cfg(test)]
mod tests {
    use super::*;

    #[test]
    fn commas_and_cents() {
        let rows = [
            (0, "$0.00"),
            (99, "$0.99"),
            (100, "$1.00"),
            (99_999, "$999.99"),
            (100_000, "$1,000.00"),
            (-532_921_000, "-$5,329,210.00"),
            (i128::from(u64::MAX), "$184,467,440,737,095,516.15"),
        ];
        for (cents, shown) in rows {
            assert_eq!(Dollars(cents).to_string(), shown);
        }
        assert_eq!(format!("{:>8}", Dollars(5)), "   $0.05");
    }
}
