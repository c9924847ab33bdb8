//! "A year by the calendar" on the true house.

mod checks;

use checks::dates;
use reference::Flaw;

#[test]
fn tickets_expire_by_the_calendar() {
    for (name, check) in dates::ALL {
        check(Flaw::None).unwrap_or_else(|found| panic!("{name}: {found}"));
    }
}
