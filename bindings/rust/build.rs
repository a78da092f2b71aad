//! Says where libmvtgate is. The first of these that is there is taken:
//!
//! 1. the folder that the environment variable MVTGATE_LIB_DIR names by its absolute path, and no other place where it is set;
//! 2. `bindings/c/out` of this repository;
//! 3. what `pkg-config --libs mvtgate` says.
//!
//! In a folder the static library `libmvtgate.a` comes before the shared one, `libmvtgate.so`: a server that holds the
//! library itself needs no file beside it. A shared library has to be where the loader looks when the program starts
//! (`LD_LIBRARY_PATH`, or a folder of the system).

use std::env;
use std::path::{Path, PathBuf};
use std::process::Command;

fn main() {
    println!("cargo:rerun-if-changed=build.rs");
    println!("cargo:rerun-if-env-changed=MVTGATE_LIB_DIR");
    println!("cargo:rerun-if-env-changed=PKG_CONFIG_PATH");
    if let Some(folder) = env::var_os("MVTGATE_LIB_DIR").map(PathBuf::from) {
        // (this runs in the crate's folder, and the linker in another one)
        assert!(folder.is_absolute(), "MVTGATE_LIB_DIR is {}, and has to be an absolute path", folder.display());
        assert!(
            link_from(&folder),
            "MVTGATE_LIB_DIR is {}, where there is no libmvtgate.a and no libmvtgate.so",
            folder.display()
        );
        return;
    }
    let crate_folder = PathBuf::from(env::var_os("CARGO_MANIFEST_DIR").expect("cargo sets this"));
    let of_c = crate_folder.join("../c");
    let built = of_c.join("out");
    // (so that a library that comes later is seen)
    watch(if built.exists() { &built } else { &of_c });
    assert!(
        link_from(&built) || link_by_pkg_config(),
        "there is no libmvtgate: build it with tools/library of the repository, or set MVTGATE_LIB_DIR to its folder"
    );
}

/// Runs this again once the path has changed. One that isn't there would make each build a new one.
fn watch(path: &Path) {
    if path.exists() {
        println!("cargo:rerun-if-changed={}", path.display());
    }
}

/// Links the library of a folder; false where there is none.
fn link_from(folder: &Path) -> bool {
    for (file, kind) in [("libmvtgate.a", "static"), ("libmvtgate.so", "dylib")] {
        let path = folder.join(file);
        if path.exists() {
            // (so that a library that is built anew is seen)
            watch(&path);
            println!("cargo:rustc-link-search=native={}", folder.display());
            println!("cargo:rustc-link-lib={}=mvtgate", kind);
            return true;
        }
    }
    false
}

/// Links what pkg-config says; false where it isn't there or doesn't know the library.
fn link_by_pkg_config() -> bool {
    let told = match Command::new("pkg-config").args(["--libs", "mvtgate"]).output() {
        Ok(told) if told.status.success() => told.stdout,
        _ => return false,
    };
    for word in words_of(&String::from_utf8_lossy(&told)) {
        if let Some(folder) = word.strip_prefix("-L") {
            println!("cargo:rustc-link-search=native={}", folder);
        } else if let Some(library) = word.strip_prefix("-l") {
            println!("cargo:rustc-link-lib={}", library);
        }
    }
    true
}

/// The words of a line that pkg-config writes: in a word a backslash stands before each space and each other character that a
/// shell would take for more than itself.
fn words_of(line: &str) -> Vec<String> {
    let mut words = vec![String::new()];
    let mut letters = line.chars();
    while let Some(letter) = letters.next() {
        if letter.is_whitespace() {
            words.push(String::new());
            continue;
        }
        let taken = if letter == '\\' { letters.next() } else { Some(letter) };
        words.last_mut().expect("there is a word").extend(taken);
    }
    words
}
