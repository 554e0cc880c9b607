//! Links the proved library where the feature `library` is on; FRUSCALITU_LIBRARY names its folder.

fn main() {
    println!("cargo:rerun-if-env-changed=FRUSCALITU_LIBRARY");
    if std::env::var_os("CARGO_FEATURE_LIBRARY").is_none() {
        return;
    }
    let Ok(folder) = std::env::var("FRUSCALITU_LIBRARY") else {
        eprintln!(
            "error: the feature library wants FRUSCALITU_LIBRARY, the folder of libexports.a; compare/run sets it"
        );
        std::process::exit(1);
    };
    println!("cargo:rerun-if-changed={folder}/libexports.a");
    println!("cargo:rustc-link-search=native={folder}");
    println!("cargo:rustc-link-lib=static=exports");
}
