//! Links libpickledune.a from PICKLEDUNE_LIB_DIR, by default the repository's target/staticlib, and the
//! C comparator, hosts/c/fast.c, which it compiles with the compiler that CC names, by default gcc, and
//! the flags that CFLAGS adds.

use std::path::{Path, PathBuf};
use std::process::{exit, Command};
use std::{env, fs};

fn main() {
    println!("cargo:rerun-if-changed=build.rs");
    let package = folder("CARGO_MANIFEST_DIR");
    link_comparator(&package.join("../../c"), &folder("OUT_DIR"));
    println!("cargo:rerun-if-env-changed=PICKLEDUNE_LIB_DIR");
    if env::var_os("CARGO_FEATURE_STANDIN").is_none() {
        let given = env::var_os("PICKLEDUNE_LIB_DIR").map(PathBuf::from);
        let named = given.unwrap_or_else(|| "../../../target/staticlib".into());
        link_archive(&package.join(named));
    }
}

fn folder(variable: &str) -> PathBuf {
    PathBuf::from(env::var_os(variable).expect("cargo sets it"))
}

fn link_archive(folder: &Path) {
    let archive = folder.join("libpickledune.a");
    if !archive.exists() {
        eprintln!("{} is missing: build it first, name its folder in", archive.display());
        eprintln!("PICKLEDUNE_LIB_DIR, or try the programs with --features standin");
        exit(1);
    }
    println!("cargo:rerun-if-changed={}", archive.display());
    println!("cargo:rustc-link-search=native={}", folder.display());
    println!("cargo:rustc-link-lib=static=pickledune");
}

/// It is always compiled for speed, since it is there to be timed.
fn link_comparator(sources: &Path, out: &Path) {
    for file in ["fast.c", "fast.h"] {
        println!("cargo:rerun-if-changed={}", sources.join(file).display());
    }
    println!("cargo:rerun-if-env-changed=CC");
    println!("cargo:rerun-if-env-changed=CFLAGS");
    let compiler = env::var_os("CC").unwrap_or_else(|| "gcc".into());
    let flags = env::var("CFLAGS").unwrap_or_default();
    let (object, archive) = (out.join("fast.o"), out.join("libfast.a"));
    run(Command::new(compiler)
        .args(["-std=c11", "-O3", "-Wall", "-Wextra", "-Werror", "-c"])
        .args(flags.split_whitespace())
        .arg(sources.join("fast.c"))
        .arg("-o")
        .arg(&object));
    // ar would keep what an older archive holds.
    let _ = fs::remove_file(&archive);
    run(Command::new("ar").arg("rcs").arg(&archive).arg(&object));
    println!("cargo:rustc-link-search=native={}", out.display());
    println!("cargo:rustc-link-lib=static=fast");
}

fn run(command: &mut Command) {
    match command.status() {
        Ok(status) if status.success() => {}
        Ok(status) => {
            eprintln!("{command:?}: {status}");
            exit(1);
        }
        Err(error) => {
            eprintln!("{command:?}: {error}; the C comparator needs gcc and ar");
            exit(1);
        }
    }
}
