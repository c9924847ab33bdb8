//! README's hosts are the files that are compiled, and its command compiles the one
//! in C.

use std::env;
use std::fs;
use std::path::{Path, PathBuf};
use std::process::Command;

const README: &str = include_str!("../../../README.md");
const IN_RUST: &str = include_str!("../../../hosts/rust/examples/lounge.rs");
const IN_C: &str = include_str!("../../../hosts/c/lounge.c");
const MANIFEST: &str = include_str!("../../../hosts/rust/Cargo.toml");

#[test]
fn the_readme_shows_the_hosts() {
    for (mark, host) in [("rust", IN_RUST), ("c", IN_C)] {
        assert!(README.contains(&format!("```{mark}\n{host}```\n")), "the host in {mark}");
        assert!(host.lines().count() <= 30, "{} lines in {mark}", host.lines().count());
    }
}

#[test]
fn the_readme_leads_to_the_protocol() {
    assert!(README.contains("[docs/PROTOCOL.md](docs/PROTOCOL.md)"));
}

#[test]
fn the_readme_names_the_version_that_is_wanted() {
    let version = MANIFEST.lines().find_map(|line| line.strip_prefix("rust-version = "));
    let version = version.expect("a version").trim_matches('"');
    assert!(README.contains(&format!("cargo {version} or newer")), "{version}");
}

/// With the library that the other tests use.
#[test]
fn the_command_of_the_readme_compiles_the_host_in_c() {
    let line = README.lines().find(|line| line.starts_with("    cc ")).expect("a command");
    let root = Path::new(env!("CARGO_MANIFEST_DIR")).join("../..");
    let library = env::var_os("WULIPDAY_LIB").map(PathBuf::from);
    let library = library.unwrap_or_else(|| root.join("crates/host/out/libhost.a"));
    let program = Path::new(env!("CARGO_TARGET_TMPDIR")).join("lounge-in-c");
    fs::remove_file(&program).ok();
    let line = line
        .replace("crates/host/out/libhost.a", &library.display().to_string())
        .replace("-o lounge", &format!("-Wall -Wextra -Werror -o {}", program.display()));
    let compiled = Command::new("sh").args(["-c", &line]).current_dir(root).status();
    assert!(compiled.expect("a shell").success(), "{line}");
    let output = Command::new(&program).output().expect("the host runs");
    let print = String::from_utf8(output.stdout).expect("words");
    assert!(output.status.success() && print.ends_with("paid 3600 cents in all\n"), "{print}");
}
