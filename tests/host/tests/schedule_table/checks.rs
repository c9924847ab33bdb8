//! What is asked of the compiled library. Each check says what is wrong with it, or
//! nothing.

use crate::object::{Function, Instruction, Object, Place};
use reference::schedule::{special_one, special_two, standard};

/// The recursion over a ticket's ways. It is generic: what follows this in a name in the
/// library says what the ways are noted in.
pub const WALK: &str = "sale::walk::note_from";

/// The compiler keeps an array in pieces of so many bytes.
pub const PIECE: usize = 16;

/// Of each selection that a schedule has, how many numbers it is and its prizes by
/// match. Rule 18.2 has its own for 6 and 8 alone.
fn selections() -> Vec<(usize, Vec<u32>)> {
    let row = |prize: fn(usize, usize) -> u32, selected: usize| {
        (selected, (0..=selected).map(|matched| prize(selected, matched)).collect())
    };
    let first = (1..=15).map(|selected| row(standard, selected));
    let second = [6, 8].into_iter().map(|selected| row(special_one, selected));
    let third = (3..=6).map(|selected| row(special_two, selected));
    first.chain(second).chain(third).collect()
}

/// 4 bytes for each combination that pays, and 4 for each selection.
pub fn limit() -> usize {
    let selections = selections();
    let paying = selections.iter().flat_map(|(_, prizes)| prizes).filter(|prize| **prize > 0);
    4 * paying.count() + 4 * selections.len()
}

/// A word for each selection: where its cells start, the match with which its run up to
/// all numbers begins, and how many low matches pay. Then the cells.
pub fn table() -> Vec<u8> {
    let selections = selections();
    let (mut words, mut cells) = (Vec::new(), Vec::new());
    for (selected, prizes) in &selections {
        let start = selections.len() + cells.len();
        let low = prizes.iter().take_while(|prize| **prize > 0).count();
        let run = selected + 1 - prizes.iter().rev().take_while(|prize| **prize > 0).count();
        words.push((start * 256 + run * 16 + low) as u32);
        cells.extend(prizes.iter().filter(|prize| **prize > 0));
    }
    let both = words.into_iter().chain(cells);
    both.flat_map(|word| u16::try_from(word).expect("two bytes").to_le_bytes()).collect()
}

/// The library has the table once, and no more read-only data than the schedules may
/// take, whatever it is for. Jump tables hold addresses and no prizes.
pub fn wrong_table(object: &Object) -> Option<String> {
    for piece in table().chunks(PIECE) {
        let places = object.places_of(piece);
        if places.len() != 1 {
            return Some(format!("{piece:?} stands {} times: {places:?}", places.len()));
        }
    }
    let plain = object.read_only().filter(|section| !section.relocated);
    let bytes = plain.map(|section| section.bytes.len()).sum::<usize>();
    (bytes > limit()).then(|| format!("{bytes} read-only bytes where {} may be", limit()))
}

fn of_the_rule_book(object: &Object) -> impl Iterator<Item = &Function> {
    let of_it = |function: &&Function| {
        ["prizes::", WALK].iter().any(|start| function.name.starts_with(start))
    };
    object.functions.iter().filter(of_it)
}

/// The walk in which every prize is looked up, and not that of a sale: a prize is dollars
/// times a stake, and a sale's look at its ways multiplies nothing.
fn walk_of_a_game(object: &Object) -> Option<&Function> {
    let multiplies =
        |one: &Instruction| ["imul", "mul"].iter().any(|name| one.text.starts_with(name));
    let mut walks = object.functions.iter().filter(|function| function.name.starts_with(WALK));
    walks.find(|function| function.code.iter().any(multiplies))
}

/// A `match` on selection and match becomes tables that are named for a function of
/// the rule book, or jumps to an address that is looked up.
pub fn left_of_a_match(object: &Object) -> Option<String> {
    let names = object.read_only().map(|section| &section.name).chain(object.symbols.keys());
    let mut names = names.filter(|name| name.starts_with(".rodata") || name.starts_with(".L"));
    let table = names.find(|name| name.contains("prizes::") || name.contains(WALK)).cloned();
    let looked_up = |one: &&Instruction| one.text.starts_with("jmp") && one.text.contains('*');
    let jump = |function: &Function| Some(told(function.code.iter().find(looked_up)?, function));
    table.or_else(|| of_the_rule_book(object).find_map(jump))
}

/// Each look-up would copy the table if a function of the rule book read constants, had
/// bytes copied, or had room on the stack for a table.
pub fn copied_at_a_look_up(object: &Object) -> Option<String> {
    let copies = |one: &&Instruction| {
        let section = object.target(one).map(|place| place.section).unwrap_or_default();
        [".rodata", ".L", "mem"].iter().any(|start| section.starts_with(start))
    };
    let copied = |function: &Function| {
        let copy = function.code.iter().find(copies).map(|one| told(one, function));
        let frame = function.frame();
        let room = frame as usize >= table().len();
        copy.or_else(|| room.then(|| format!("{frame} bytes of stack in {}", function.name)))
    };
    if walk_of_a_game(object).is_none() {
        return Some(format!("no {WALK} with prizes"));
    }
    of_the_rule_book(object).find_map(copied)
}

/// A game copies the table once: each piece is loaded once, all in one function, before
/// the loop in which it calls the walk for each ticket.
pub fn copied_in_a_loop(object: &Object) -> Option<String> {
    let table = table();
    let pieces = table.chunks_exact(PIECE).flat_map(|piece| object.places_of(piece));
    let pieces = pieces.collect::<Vec<Place>>();
    let loads = |function: &Function| {
        let load = |one: &&Instruction| object.target(one).is_some_and(|at| pieces.contains(&at));
        function.code.iter().filter(load).map(|one| one.address).collect::<Vec<_>>()
    };
    let Some(function) = object.functions.iter().find(|one| !loads(one).is_empty()) else {
        return Some("no function loads it".to_string());
    };
    let loaded = object.functions.iter().map(|one| loads(one).len()).sum::<usize>();
    let here = loads(function);
    if loaded != pieces.len() || here.len() != loaded {
        return Some(format!("{loaded} loads, {} of them in {}", here.len(), function.name));
    }
    let Some(walk) = walk_of_a_game(object) else {
        return Some(format!("no {WALK} with prizes"));
    };
    let walks = |one: &&Instruction| {
        one.refers.as_ref().is_some_and(|(name, _)| name.ends_with(&walk.name))
    };
    let around = |call: &Instruction| function.loop_around(call.address);
    match function.code.iter().filter(walks).map(around).collect::<Vec<_>>()[..] {
        [Some((first, last))] => {
            let late = here.iter().find(|load| **load >= first);
            late.map(|load| format!("a load at {load:x}, the loop from {first:x} to {last:x}"))
        }
        ref calls => Some(format!("loops around the calls in {}: {calls:x?}", function.name)),
    }
}

fn told(instruction: &Instruction, function: &Function) -> String {
    format!("{} in {}", instruction.text, function.name)
}
