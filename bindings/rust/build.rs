//! Finds the proved archive libkahopiru.a and links it.
//!
//! It is looked for in the repository's target/staticlib, where the script bindings/archive builds it, or in the folder
//! that `KAHOPIRU_LIB_DIR` names.

use std::env;
use std::path::PathBuf;
use std::process::exit;

const ARCHIVE: &str = "libkahopiru.a";

/// What the archive is for.
const FOR: &str = "libkahopiru.a holds ELF code for x86-64 with the System V calling convention (Linux, the BSDs)";

/// Ends the build with a sentence.
fn refuse(why: &str) -> ! {
    eprintln!("kahopiru: {why}");
    exit(1);
}

fn folder() -> PathBuf {
    match env::var_os("KAHOPIRU_LIB_DIR") {
        Some(named) => PathBuf::from(named),
        None => PathBuf::from(env::var_os("CARGO_MANIFEST_DIR").expect("cargo names the manifest's folder"))
            .join("../../target/staticlib"),
    }
}

/// The archive is machine code for one calling convention; elsewhere it would link and then go wrong, or not link.
fn check_target() {
    let told = |name| env::var(name).unwrap_or_default();
    let (system, processor) = (told("CARGO_CFG_TARGET_OS"), told("CARGO_CFG_TARGET_ARCH"));
    match system.as_str() {
        "linux" | "freebsd" | "netbsd" | "openbsd" | "dragonfly" => {}
        "macos" => refuse(&format!(
            "{FOR}, and macOS takes Mach-O code alone. Build and run on Linux; on a Mac, that is in a virtual machine."
        )),
        "windows" | "cygwin" => refuse(&format!(
            "{FOR}, and Windows has another object format and another calling convention. Build and run on Linux; on \
             Windows, that is in the Windows Subsystem for Linux."
        )),
        other => refuse(&format!("{FOR}, and not for the system `{other}`. Build and run on Linux.")),
    }
    if processor != "x86_64" {
        refuse(&format!(
            "{FOR}, and not for the processor `{processor}`. Build and run on x86-64, or in an emulator of it."
        ));
    }
    let width = told("CARGO_CFG_TARGET_POINTER_WIDTH");
    if width != "64" {
        refuse(&format!("{FOR} and pointers of 64 bits, and not {width}. Build for `x86_64-unknown-linux-gnu`."));
    }
}

fn main() {
    println!("cargo:rerun-if-env-changed=KAHOPIRU_LIB_DIR");
    println!("cargo:rerun-if-changed=build.rs");
    check_target();
    let folder = folder();
    if !folder.is_absolute() {
        refuse(&format!("KAHOPIRU_LIB_DIR must be an absolute path, and is {}", folder.display()));
    }
    let archive = folder.join(ARCHIVE);
    println!("cargo:rerun-if-changed={}", archive.display());
    let Ok(found) = archive.canonicalize() else {
        refuse(&format!(
            "{} is not there. Build it with the script `bindings/archive` of the repository, or name the folder that \
             holds {ARCHIVE} in KAHOPIRU_LIB_DIR.",
            archive.display()
        ));
    };
    let folder = found.parent().expect("a file stands in a folder");
    println!("cargo:rustc-link-search=native={}", folder.display());
    println!("cargo:rustc-link-lib=static=kahopiru");
}
