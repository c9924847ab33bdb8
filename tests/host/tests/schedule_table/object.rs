//! What `objdump` says of the static library: its sections, its symbols and the
//! instructions of its functions.

use std::collections::HashMap;
use std::env;
use std::path::{Path, PathBuf};
use std::process::Command;

pub struct Object {
    pub sections: Vec<Section>,
    /// Where in which section a name stands.
    pub symbols: HashMap<String, Place>,
    pub functions: Vec<Function>,
}

pub struct Section {
    pub name: String,
    /// It holds addresses that the linker fills in, as a jump table does.
    pub relocated: bool,
    pub bytes: Vec<u8>,
}

#[derive(Clone, Debug, PartialEq, Eq, Hash)]
pub struct Place {
    pub section: String,
    pub offset: u64,
}

pub struct Function {
    pub name: String,
    pub code: Vec<Instruction>,
}

pub struct Instruction {
    pub address: u64,
    pub text: String,
    /// What the linker puts into it: a name, and how far from it.
    pub refers: Option<(String, i64)>,
}

impl Object {
    /// Of the library that the other tests link.
    pub fn of_the_library() -> Object {
        let root = Path::new(env!("CARGO_MANIFEST_DIR")).join("../..");
        let library = env::var_os("WULIPDAY_LIB").map(PathBuf::from);
        let library = library.unwrap_or_else(|| root.join("crates/host/out/libhost.a"));
        let told = |words: &[&str]| {
            let run = Command::new("objdump").args(words).arg(&library).output();
            let run = run.expect("objdump runs: it is in binutils");
            assert!(run.status.success(), "{}", String::from_utf8_lossy(&run.stderr));
            String::from_utf8(run.stdout).expect("objdump writes text")
        };
        Object {
            sections: sections(&told(&["-h", "-w"]), &told(&["-s"])),
            symbols: symbols(&told(&["-t"])),
            functions: functions(&told(&["-d", "-r", "-w", "--no-show-raw-insn"])),
        }
    }

    /// The read-only data, without the constants of the machine's own code.
    pub fn read_only(&self) -> impl Iterator<Item = &Section> {
        self.sections.iter().filter(|section| section.name.starts_with(".rodata"))
    }

    /// Every place where the bytes stand, in code too.
    pub fn places_of(&self, bytes: &[u8]) -> Vec<Place> {
        let within = |section: &Section| {
            let name = section.name.clone();
            let starts = section.bytes.windows(bytes.len()).enumerate();
            let starts = starts.filter(|(_, window)| *window == bytes);
            let place = |(offset, _)| Place { section: name.clone(), offset: offset as u64 };
            starts.map(place).collect::<Vec<_>>()
        };
        self.sections.iter().flat_map(within).collect()
    }

    /// Where an instruction's reference leads: it counts from the instruction's end,
    /// four bytes behind the place that the linker fills in.
    pub fn target(&self, instruction: &Instruction) -> Option<Place> {
        let (name, from) = instruction.refers.as_ref()?;
        let start = Place { section: name.clone(), offset: 0 };
        let place = self.symbols.get(name).unwrap_or(&start);
        let offset = place.offset.checked_add_signed(from + 4)?;
        Some(Place { section: place.section.clone(), offset })
    }
}

impl Function {
    /// The innermost loop around an address: where its last jump back leads, and where
    /// that jump stands.
    pub fn loop_around(&self, address: u64) -> Option<(u64, u64)> {
        let jumps = self.code.iter().filter_map(|one| Some((one.jump()?, one.address)));
        jumps.filter(|(to, from)| (*to..=*from).contains(&address)).max_by_key(|(to, _)| *to)
    }

    /// The bytes of its own that it takes on the stack, beside the registers it keeps.
    pub fn frame(&self) -> u64 {
        let taken = |one: &Instruction| {
            let number = one.text.strip_prefix("sub")?.trim().strip_prefix("$0x")?;
            let number = number.strip_suffix(",%rsp")?;
            u64::from_str_radix(number, 16).ok()
        };
        self.code.iter().filter_map(taken).max().unwrap_or(0)
    }
}

impl Instruction {
    /// Where a jump within the function leads.
    fn jump(&self) -> Option<u64> {
        let mut words = self.text.split_whitespace();
        words.next().filter(|word| word.starts_with('j'))?;
        u64::from_str_radix(words.next()?, 16).ok()
    }
}

/// From the list of headers, a line each, and from the contents in hexadecimal.
fn sections(headers: &str, contents: &str) -> Vec<Section> {
    let mut bytes = HashMap::<&str, Vec<u8>>::new();
    let mut name = "";
    for line in contents.lines() {
        if let Some(next) = line.strip_prefix("Contents of section ") {
            name = next.trim_end_matches(':');
        } else if line.starts_with(' ') {
            // The address, four words of four bytes, and the same as text.
            let digits = line[1..].split_once(' ').map_or("", |(_, rest)| &rest[..35]);
            let digits = digits.replace(' ', "");
            let pairs = (0..digits.len()).step_by(2).map(|i| &digits[i..i + 2]);
            let read = pairs.map(|pair| u8::from_str_radix(pair, 16).expect("hexadecimal"));
            bytes.entry(name).or_default().extend(read);
        }
    }
    let header = |line: &str| {
        let words = line.split_whitespace().collect::<Vec<_>>();
        words.first()?.parse::<usize>().ok()?;
        let name = words.get(1)?.to_string();
        let relocated = line.contains("RELOC");
        let bytes = bytes.get(name.as_str()).cloned().unwrap_or_default();
        Some(Section { name, relocated, bytes })
    };
    headers.lines().filter_map(header).collect()
}

/// A line each: address, flags, section, a tab, size and name.
fn symbols(table: &str) -> HashMap<String, Place> {
    let symbol = |line: &str| {
        let (left, right) = line.split_once('\t')?;
        let offset = u64::from_str_radix(left.split_whitespace().next()?, 16).ok()?;
        let section = left.split_whitespace().last()?.to_string();
        let name = right.split_once(' ')?.1.trim().to_string();
        Some((name, Place { section, offset }))
    };
    table.lines().filter_map(symbol).collect()
}

pub fn functions(listing: &str) -> Vec<Function> {
    let mut functions = Vec::<Function>::new();
    for line in listing.lines() {
        if let Some(name) = line.strip_suffix(">:").and_then(|line| line.split_once('<')) {
            functions.push(Function { name: name.1.to_string(), code: Vec::new() });
        } else if let Some(instruction) = instruction(line) {
            functions.last_mut().expect("a function's name is above").code.push(instruction);
        }
    }
    functions
}

/// The address, the words of the machine, and behind a tab what the linker puts in.
fn instruction(line: &str) -> Option<Instruction> {
    let (address, rest) = line.split_once(":\t")?;
    let address = u64::from_str_radix(address.trim(), 16).ok()?;
    let (text, linked) = rest.split_once(": R_X86_64_").unwrap_or((rest, ""));
    let refers = linked.split_once('\t').map(|(_, name)| reference(name.trim()));
    let text =
        if refers.is_some() { text.rsplit_once('\t').map_or(text, |(text, _)| text) } else { text };
    Some(Instruction { address, text: text.trim().to_string(), refers })
}

/// A name with a hexadecimal number added or taken away at its end.
fn reference(text: &str) -> (String, i64) {
    let number = |digits: &str| i64::from_str_radix(digits, 16).ok();
    let added = text.rsplit_once("+0x").and_then(|(name, n)| Some((name, number(n)?)));
    let taken = text.rsplit_once("-0x").and_then(|(name, n)| Some((name, -number(n)?)));
    let (name, from) = added.or(taken).unwrap_or((text, 0));
    (name.to_string(), from)
}
