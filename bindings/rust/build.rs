//! Links the proved library: FRUSCALITU_LIBRARY names the folder of libexports.a, else it is the repository's
//! crates/exports/out.

use std::env;
use std::path::{Path, PathBuf};
use std::process;

fn fail(why: &str) -> ! {
    eprintln!("error: {why}");
    process::exit(1)
}

fn main() {
    println!("cargo:rerun-if-env-changed=FRUSCALITU_LIBRARY");
    let folder = match env::var_os("FRUSCALITU_LIBRARY") {
        Some(folder) => PathBuf::from(folder),
        // Another processor's program is told here, in place of a linker's words about a file of the wrong kind.
        None if env::var("CARGO_CFG_TARGET_ARCH").as_deref() != Ok("x86_64") => fail(
            "the library that `rt lib --cpu x86-64` builds in crates/exports links into x86-64 programs only; on another processor \
             run bindings/check, which asks it through an emulator",
        ),
        None => Path::new(&env::var_os("CARGO_MANIFEST_DIR").unwrap_or_default()).join("../../crates/exports/out"),
    };
    let archive = folder.join("libexports.a");
    println!("cargo:rerun-if-changed={}", archive.display());
    if !archive.is_file() {
        fail(&format!(
            "there is no {}: run `rt lib --cpu x86-64` in the repository's crates/exports, or set FRUSCALITU_LIBRARY to the folder \
             that has libexports.a",
            archive.display()
        ));
    }
    println!("cargo:rustc-link-search=native={}", folder.display());
    println!("cargo:rustc-link-lib=static=exports");
}
