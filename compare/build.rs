//! Links the binary with libbodlarina.a, whose folder BODLARINA_LIB names, and with the
//! plain C products and listings of its benchmark. The lib target needs neither. Where clang is
//! installed (cfg `clang`), the products are there as it compiles them too; where a cross
//! compiler for riscv64 is, as a program for an emulator.

use std::path::{Path, PathBuf};
use std::process::Command;

fn main() {
    link_library();
    link_baseline();
}

fn link_library() {
    println!("cargo:rerun-if-env-changed=BODLARINA_LIB");
    match std::env::var("BODLARINA_LIB") {
        Ok(folder) => {
            let archive = Path::new(&folder).join("libbodlarina.a");
            println!("cargo:rerun-if-changed={}", archive.display());
            println!("cargo:rustc-link-arg-bins={}", archive.display());
        }
        Err(_) => println!("cargo:warning=BODLARINA_LIB is not set: only the lib target links"),
    }
}

/// What clang's products are called.
const BY_CLANG: [&str; 3] = [
    "-Danchor_product=clang_anchor_product",
    "-Dslow_product=clang_slow_product",
    "-Danchor_float_product=clang_anchor_float_product",
];

fn link_baseline() {
    let folder = PathBuf::from(std::env::var("OUT_DIR").expect("OUT_DIR is set by cargo"));
    for name in ["baseline.c", "baseline.h", "listing.c", "listing.h", "emulated.c"] {
        println!("cargo:rerun-if-changed=c/{name}");
    }
    for name in ["baseline", "listing"] {
        let object = folder.join(name).with_extension("o");
        if needed(compiled("gcc", &["-c"], &[name], &object), name) {
            println!("cargo:rustc-link-arg-bins={}", object.display());
        }
    }
    // the same lines of assembler text as a program of its own
    let program = folder.join("listing");
    needed(compiled("gcc", &["-DLISTING_PROGRAM"], &["listing"], &program), "listing");
    println!("cargo:rustc-env=LISTING_PROGRAM={}", program.display());
    // the same products by clang, and as programs for emulators
    println!("cargo:rustc-check-cfg=cfg(clang)");
    let object = folder.join("by_clang.o");
    if compiled("clang", &[&["-c"], &BY_CLANG[..]].concat(), &["baseline"], &object) {
        println!("cargo:rustc-link-arg-bins={}", object.display());
        println!("cargo:rustc-cfg=clang");
    }
    for (compiler, variable) in
        [("gcc", "NATIVE_PRODUCTS"), ("riscv64-linux-gnu-gcc", "RISCV_PRODUCTS")]
    {
        let program = folder.join(variable.to_lowercase());
        let there = compiled(compiler, &["-static"], &["emulated", "baseline"], &program);
        let path = if there { program.display().to_string() } else { String::new() };
        println!("cargo:rustc-env={variable}={path}");
    }
}

/// The named files of c/ compiled.
fn compiled(compiler: &str, options: &[&str], names: &[&str], out: &Path) -> bool {
    Command::new(compiler)
        .args(["-O3", "-std=c99", "-Wall", "-Wextra"])
        .args(options)
        .args(names.iter().map(|name| format!("c/{name}.c")))
        .arg("-o")
        .arg(out)
        .status()
        .is_ok_and(|status| status.success())
}

/// Says what the binary cannot do without.
fn needed(done: bool, name: &str) -> bool {
    if !done {
        println!("cargo:warning=gcc did not compile c/{name}.c: only the lib target links");
    }
    done
}
