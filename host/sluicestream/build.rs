//! Links the proved end, and reads the table's size from the C header, where it is written once.

use std::path::{Path, PathBuf};
use std::{env, fs, process};

fn main() {
    let repository = PathBuf::from(env::var_os("CARGO_MANIFEST_DIR").unwrap_or_default()).join("../..");
    link(&repository);
    let header = repository.join("include/sluicestream.h");
    println!("cargo::rerun-if-changed={}", header.display());
    println!("cargo::rustc-env=SLUICE_TABLE_WORDS={}", table_words(&header));
}

/// Links libendpoint.a from SLUICESTREAM_LIB_DIR, or from where `tools/library` writes it.
fn link(repository: &Path) {
    println!("cargo::rerun-if-env-changed=SLUICESTREAM_LIB_DIR");
    let folder = match env::var_os("SLUICESTREAM_LIB_DIR") {
        Some(folder) => PathBuf::from(folder),
        None => {
            if env::var("CARGO_CFG_TARGET_ARCH").as_deref() != Ok("x86_64") {
                stop("the proved end is x86-64 code: on any other machine start cargo by `tools/hosts cargo ..`");
            }
            repository.join("target/staticlib")
        }
    };
    let archive = folder.join("libendpoint.a");
    println!("cargo::rerun-if-changed={}", archive.display());
    if !archive.is_file() {
        stop(&format!("{} is missing: run `tools/library` in the repository first", archive.display()));
    }
    println!("cargo::rustc-link-search=native={}", folder.display());
    println!("cargo::rustc-link-lib=static=endpoint");
}

/// The number on the header's line `#define SLUICE_TABLE_WORDS n`.
fn table_words(header: &Path) -> usize {
    let text = fs::read_to_string(header).unwrap_or_default();
    let number = text.lines().find_map(|line| line.strip_prefix("#define SLUICE_TABLE_WORDS "));
    match number.and_then(|number| number.trim().parse().ok()) {
        Some(words) => words,
        None => stop(&format!("{} has no line `#define SLUICE_TABLE_WORDS n`", header.display())),
    }
}

/// Ends the build with one line that says why.
fn stop(why: &str) -> ! {
    println!("cargo::error={why}");
    process::exit(1)
}
