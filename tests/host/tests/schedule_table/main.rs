//! The schedules in the compiled library: one constant table of at most 4 bytes for
//! each combination that pays and 4 for each selection that a schedule has, copied to
//! the stack once for a game and at no look-up, with no code left that has a prize for
//! each combination.
//!
//! The table is found by its bytes. They are worked out from the reference's schedules
//! by the layout that docs/DECISIONS.md gives, and looked for 16 at a time, as the
//! compiler keeps them; what the last whole piece leaves over may stand in an
//! instruction.

mod broken;
mod checks;
mod object;

use checks::{copied_at_a_look_up, copied_in_a_loop, left_of_a_match, limit, table, wrong_table};
use object::Object;

#[test]
fn the_table_takes_half_of_what_it_may() {
    assert_eq!((limit(), table().len()), (528, 264));
}

#[test]
fn the_library_has_the_table_once() {
    assert_eq!(wrong_table(&Object::of_the_library()), None);
}

#[test]
fn no_match_over_combinations_is_left() {
    assert_eq!(left_of_a_match(&Object::of_the_library()), None);
}

#[test]
fn no_look_up_copies_the_table() {
    assert_eq!(copied_at_a_look_up(&Object::of_the_library()), None);
}

#[test]
fn a_game_copies_the_table_once() {
    assert_eq!(copied_in_a_loop(&Object::of_the_library()), None);
}
