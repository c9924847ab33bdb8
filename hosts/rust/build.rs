//! Links the static library that `rt lib` writes in crates/host. The variable
//! WULIPDAY_LIB names another place for it.

use std::env;
use std::path::PathBuf;

fn main() {
    println!("cargo:rerun-if-env-changed=WULIPDAY_LIB");
    let library = env::var_os("WULIPDAY_LIB").map_or_else(default_library, PathBuf::from);
    println!("cargo:rerun-if-changed={}", library.display());
    let Ok(library) = library.canonicalize() else {
        panic!("{} is not there: run `rt lib` in crates/host", library.display());
    };
    let folder = library.parent().expect("a file stands in a folder");
    let name = library.file_name().expect("a file has a name").to_string_lossy();
    println!("cargo:rustc-link-search=native={}", folder.display());
    println!("cargo:rustc-link-lib=static:+verbatim={name}");
}

fn default_library() -> PathBuf {
    let here = env::var_os("CARGO_MANIFEST_DIR").expect("cargo names the folder");
    PathBuf::from(here).join("../../crates/host/out/libhost.a")
}
