//! The checks themselves: a small object that passes all of them, and one for each thing
//! that they look for.

use crate::checks::{
    copied_at_a_look_up, copied_in_a_loop, left_of_a_match, table, wrong_table, PIECE, WALK,
};
use crate::object::{functions, Object, Place, Section};

const CONSTANTS: &str = ".rodata.cst16";

fn section(name: &str, bytes: Vec<u8>) -> Section {
    Section { name: name.to_string(), relocated: false, bytes }
}

/// A game that copies the table, and calls the walk in a loop that begins at `first`.
fn game(first: &str) -> String {
    let load = |piece: usize| {
        let (at, offset) = (piece * 8, piece as i64 * 16 - 4);
        let sign = if offset < 0 { '-' } else { '+' };
        format!(
            "{at:4x}:\tmovaps 0x0(%rip),%xmm0\t0: R_X86_64_PC32\t{CONSTANTS}{sign}0x{:x}\n",
            offset.abs()
        )
    };
    let loads = (0..table().len() / PIECE).map(load).collect::<String>();
    let call =
        format!(" 100:\tcall   105 <game+0x105>\t101: R_X86_64_PLT32\t.text.{WALK}::<#1>-0x4\n");
    format!("0000 <game>:\n{loads}{call} 108:\tjne    {first} <game+0x{first}>\n")
}

/// With more code in the walk.
fn object(first: &str, walk: &str) -> Object {
    let table = table();
    let (whole, rest) = table.split_at(table.len() / PIECE * PIECE);
    let listing =
        format!("{}0000 <{WALK}::<#1>>:\n   0:\timul   %rsi,%rax\n{walk}   9:\tret\n", game(first));
    Object {
        sections: vec![section(CONSTANTS, whole.to_vec()), section(".text.game", rest.to_vec())],
        symbols: Default::default(),
        functions: functions(&listing),
    }
}

fn sound() -> Object {
    object("100", "")
}

#[test]
fn a_sound_object_passes() {
    assert_eq!(wrong_table(&sound()), None);
    assert_eq!(left_of_a_match(&sound()), None);
    assert_eq!(copied_at_a_look_up(&sound()), None);
    assert_eq!(copied_in_a_loop(&sound()), None);
}

#[test]
fn another_table_is_seen() {
    let mut object = sound();
    object.sections[0].bytes[100] ^= 1;
    assert!(wrong_table(&object).is_some(), "another byte");
    object = sound();
    object.sections.push(section(".rodata.more", table()));
    assert!(wrong_table(&object).is_some(), "the table twice");
    object = sound();
    object.sections.push(section(".rodata.more", vec![0; 273]));
    assert!(wrong_table(&object).is_some(), "529 bytes");
    object.sections.last_mut().expect("one more").relocated = true;
    assert_eq!(wrong_table(&object), None, "a jump table is no table of prizes");
}

#[test]
fn a_match_is_seen() {
    let mut object = sound();
    object.sections.push(section(".rodata.prizes::schedule::standard", Vec::new()));
    assert!(left_of_a_match(&object).is_some(), "a jump table");
    object = sound();
    let place = Place { section: CONSTANTS.to_string(), offset: 0 };
    object.symbols.insert(".Lswitch.table.prizes::schedule::standard".to_string(), place);
    assert!(left_of_a_match(&object).is_some(), "a table of a match");
    object = self::object("100", "   4:\tjmp    *%rcx\n");
    assert!(left_of_a_match(&object).is_some(), "a jump");
}

#[test]
fn a_copy_at_a_look_up_is_seen() {
    let load = format!("   4:\tmovaps 0x0(%rip),%xmm0\t7: R_X86_64_PC32\t{CONSTANTS}-0x4\n");
    let call = "   4:\tcall   9 <f+0x9>\t5: R_X86_64_PLT32\tmemcpy-0x4\n";
    for code in [load.as_str(), call, "   4:\tsub    $0x108,%rsp\n"] {
        assert!(copied_at_a_look_up(&object("100", code)).is_some(), "{code}");
    }
    let mut object = sound();
    object.functions.pop();
    assert!(copied_at_a_look_up(&object).is_some(), "the walk is not found");
}

#[test]
fn a_copy_for_each_ticket_is_seen() {
    assert!(copied_in_a_loop(&object("78", "")).is_some(), "the last piece is in the loop");
    assert!(copied_in_a_loop(&object("0", "")).is_some(), "all pieces are");
    assert!(copied_in_a_loop(&object("200", "")).is_some(), "no loop around the call");
    let mut object = sound();
    object.functions.extend(functions(&game("100")));
    assert!(copied_in_a_loop(&object).is_some(), "two functions copy it");
}
