//! Copies the four Rust files, unchanged and by their sums, into the build folder beside the stand-ins.

mod sha256;

use std::path::{Path, PathBuf};
use std::{env, fs, process};

const FROM: &str = "crates/vexil-lang/src";

/// The files of vexil-lang/vexil at 0e0a971135, with their SHA-256.
const FILES: [(&str, &str); 4] = [
    ("codegen/portable.rs", "1b2b96ce3a64a9ffe498d4d1f6f9caa9fdec6345504c2ee020a78fefd5a1664f"),
    ("ir/types.rs", "c9d440fce18b3e43f2eb822dab394fa999c70d85c8d550f5abb5bdbb1668b38e"),
    ("ir/mod.rs", "f7bcf3fbb625306c60ebde962e8f04fdbd12a4f3f5223050bf7a992bbf40154c"),
    ("ast/mod.rs", "26bfae0433d4791b2856db344a3ad27020885882d68fff7d37532d7775b0cbba"),
];

/// Our stand-ins for what the four files name and docs/src does not have (smol_str is a crate of its own).
const STAND_INS: [(&str, &str); 4] =
    [("span.rs", "span.rs"), ("visit.rs", "ast/visit.rs"), ("remap.rs", "remap.rs"), ("canonical.rs", "canonical.rs")];

fn fail(message: String) -> ! {
    eprintln!("error: {message}");
    process::exit(1);
}

fn read(path: &Path) -> Vec<u8> {
    println!("cargo:rerun-if-changed={}", path.display());
    fs::read(path).unwrap_or_else(|error| fail(format!("cannot read {}: {error}", path.display())))
}

fn write(path: &Path, bytes: &[u8]) {
    let written = fs::create_dir_all(path.parent().unwrap()).and_then(|()| fs::write(path, bytes));
    written.unwrap_or_else(|error| fail(format!("cannot write {}: {error}", path.display())));
}

fn main() {
    println!("cargo:rerun-if-env-changed=VEXIL_SRC");
    let Some(source) = env::var_os("VEXIL_SRC") else {
        fail("VEXIL_SRC is not set: it names the folder docs/src that holds the four Rust files".into());
    };
    let source = PathBuf::from(source).join(FROM);
    let out = PathBuf::from(env::var_os("OUT_DIR").unwrap());

    for (name, sum) in FILES {
        let bytes = read(&source.join(name));
        if sha256::hex(&bytes) != sum {
            fail(format!(
                "{} is not the file that this was written for: its SHA-256 is {}, not {sum}",
                source.join(name).display(),
                sha256::hex(&bytes)
            ));
        }
        write(&out.join(name), &bytes);
    }
    for (from, to) in STAND_INS {
        write(&out.join(to), &read(&Path::new("stand-ins").join(from)));
    }

    // A path attribute takes no macro, so the modules' places are written out here.
    let place = |name: &str| format!("#[path = {:?}]\n", out.join(name));
    let root: String = [
        ("ast", "ast/mod.rs"),
        ("ir", "ir/mod.rs"),
        ("portable", "codegen/portable.rs"),
        ("span", "span.rs"),
        ("remap", "remap.rs"),
        ("canonical", "canonical.rs"),
    ]
    .iter()
    .map(|(module, file)| format!("#[allow(dead_code, unused_imports)]\n{}mod {module};\n", place(file)))
    .collect();
    write(&out.join("modules.rs"), root.as_bytes());
}
