//! "Traps" of document 01 on the true house.

mod checks;

use checks::traps;
use reference::Flaw;

#[test]
fn each_trap_is_missed() {
    for (name, check) in traps::ALL {
        check(Flaw::None).unwrap_or_else(|found| panic!("{name}: {found}"));
    }
}
