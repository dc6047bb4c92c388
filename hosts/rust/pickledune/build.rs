//! Links the archive `libpickledune.a`, which `tools/build.sh archive` writes, from the directory
//! that `PICKLEDUNE_LIB_DIR` names, or else from `target/staticlib` at the root of the repository.
use std::env;
use std::path::PathBuf;

fn main() {
    let package = PathBuf::from(env::var_os("CARGO_MANIFEST_DIR").expect("cargo sets it"));
    let directory = match env::var_os("PICKLEDUNE_LIB_DIR") {
        Some(named) => PathBuf::from(named),
        None => package.join("../../../target/staticlib"),
    };
    let archive = directory.join("libpickledune.a");
    if !archive.exists() {
        let missing = archive.display();
        println!("cargo:warning={missing} is missing: tools/build.sh archive writes it");
    }
    println!("cargo:rerun-if-env-changed=PICKLEDUNE_LIB_DIR");
    println!("cargo:rerun-if-changed={}", archive.display());
    println!("cargo:rustc-link-search=native={}", directory.display());
    println!("cargo:rustc-link-lib=static=pickledune");
}
