//! Puts upstream's writer together from its source, where that lies.
//!
//! The source is looked for in the folder that `KAHOPIRU_UPSTREAM` names, else in ../shared/docs/src beside the
//! repository. It must be the very source that the comparison speaks of: upstream.sha256 holds the digest of each file.
//! All is taken as published, but for three things. `build_hvcc` returns the record that it is given, by one line
//! inserted as the first of its body; `write_clap`, which is private to its file, is made visible to src/lib.rs, by
//! `pub(crate)` before its `fn`; and of gain_map.rs, which leans on the encoder, only the two items that the writer
//! takes are kept. Nothing of it is stored in the repository.

use std::fs;
use std::path::{Path, PathBuf};
use std::process::{Command, exit};

const DIGESTS: &str = "upstream.sha256";

/// The inserted line. The record lies ready in our stand-in for the coded stream (src/hevc.rs).
const INSERTED: &str = "    return Ok({ let _ = bit_depth; stream.record.take() });";

/// The function that src/lib.rs calls beside the writer.
const CALLED: &str = "fn write_clap(";

fn stop(why: &str) -> ! {
    eprintln!("oracle: {why}");
    exit(1)
}

fn variable(name: &str) -> PathBuf {
    PathBuf::from(std::env::var_os(name).unwrap_or_else(|| stop(&format!("{name} is not set"))))
}

/// The folder that holds upstream's src/.
fn upstream(manifest: &Path) -> PathBuf {
    let named = std::env::var_os("KAHOPIRU_UPSTREAM").map(PathBuf::from);
    let folder = named.unwrap_or_else(|| manifest.join("../../../shared/docs/src"));
    if !folder.is_absolute() {
        stop(&format!("KAHOPIRU_UPSTREAM must be an absolute path, and is {}", folder.display()));
    }
    folder.canonicalize().unwrap_or_else(|_| {
        stop(&format!(
            "upstream's source is not at {}. Name the folder that holds its src/ in KAHOPIRU_UPSTREAM.",
            folder.display()
        ))
    })
}

/// Stops unless every file has the digest that is written down for it.
fn check_digests(manifest: &Path, upstream: &Path) {
    let list = manifest.join(DIGESTS);
    let done = Command::new("sha256sum").arg("--check").arg("--quiet").arg(&list).current_dir(upstream).output();
    match done {
        Err(e) => stop(&format!("sha256sum does not run: {e}")),
        Ok(out) if !out.status.success() => stop(&format!(
            "the source in {} is not the one that {DIGESTS} was made from:\n{}{}",
            upstream.display(),
            String::from_utf8_lossy(&out.stdout),
            String::from_utf8_lossy(&out.stderr)
        )),
        Ok(_) => {}
    }
}

fn read(path: &Path) -> String {
    fs::read_to_string(path).unwrap_or_else(|e| stop(&format!("{}: {e}", path.display())))
}

/// A source with a line put in after the first line that begins and ends so.
fn insert_after(source: &str, begins: &str, ends: &str, line: &str) -> String {
    let mut out = String::with_capacity(source.len() + line.len() + 1);
    let mut done = 0;
    for each in source.lines() {
        out.push_str(each);
        out.push('\n');
        if each.starts_with(begins) && each.ends_with(ends) {
            out.push_str(line);
            out.push('\n');
            done += 1;
        }
    }
    if done != 1 {
        stop(&format!("'{begins}' begins {done} lines of upstream's source, not one"));
    }
    out
}

/// A source in which the one line that begins so, a private function's, begins with `pub(crate)`.
fn make_visible(source: &str, begins: &str) -> String {
    let begun = format!("\n{begins}");
    let count = source.matches(&begun).count();
    if count != 1 {
        stop(&format!("'{begins}' begins {count} lines of upstream's source, not one"));
    }
    source.replace(&begun, &format!("\npub(crate) {begins}"))
}

/// The lines of an item, from the line that begins so to the first that ends so.
fn item(source: &str, begins: &str, ends: &str) -> String {
    let from = source.lines().skip_while(|l| !l.starts_with(begins));
    let mut out = String::new();
    for each in from {
        out.push_str(each);
        out.push('\n');
        if each.ends_with(ends) {
            return out;
        }
    }
    stop(&format!("upstream's source has no '{begins}'"))
}

/// The two items of gain_map.rs that the writer takes.
fn gain_map_items(source: &str) -> String {
    let mut out = String::from("use crate::color::{Cicp, ColorMetadata};\nuse crate::fmt::BitDepth;\n");
    out.push_str("use crate::hevc::NaluStream;\n");
    out.push_str(&item(source, "pub(crate) const APPLE_GAIN_MAP_URN", ";"));
    out.push_str(&item(source, "pub(crate) struct EncodedGainMap {", "}"));
    out
}

fn main() {
    let manifest = variable("CARGO_MANIFEST_DIR");
    let out = variable("OUT_DIR");
    let upstream = upstream(&manifest);
    println!("cargo:rerun-if-env-changed=KAHOPIRU_UPSTREAM");
    println!("cargo:rerun-if-changed=build.rs");
    println!("cargo:rerun-if-changed={DIGESTS}");
    println!("cargo:rerun-if-changed={}", upstream.join("src").display());
    check_digests(&manifest, &upstream);

    let src = upstream.join("src");
    let isobmff = make_visible(&read(&src.join("isobmff.rs")), CALLED);
    let isobmff = insert_after(&isobmff, "fn build_hvcc(", "{", INSERTED);
    // A file that #[path] names looks for its own modules beside itself; so isobmff.rs gets a folder of its own.
    fs::create_dir_all(out.join("isobmff")).unwrap_or_else(|e| stop(&format!("{}: {e}", out.display())));
    let mut files = vec![
        ("isobmff/isobmff.rs", isobmff),
        ("isobmff/gain_map.rs", read(&src.join("isobmff/gain_map.rs"))),
        ("gain_map.rs", gain_map_items(&read(&src.join("gain_map.rs")))),
    ];
    for name in ["color.rs", "error.rs", "fmt.rs", "metadata.rs"] {
        files.push((name, read(&src.join(name))));
    }
    for (name, text) in &files {
        fs::write(out.join(name), text).unwrap_or_else(|e| stop(&format!("{name}: {e}")));
    }
    fs::write(out.join("modules.rs"), modules(&out)).unwrap_or_else(|e| stop(&format!("modules.rs: {e}")));
}

/// The declarations of upstream's modules, which src/lib.rs takes in.
fn modules(out: &Path) -> String {
    let declared = [
        ("pub", "color", "color.rs"),
        ("", "error", "error.rs"),
        ("pub", "fmt", "fmt.rs"),
        ("", "gain_map", "gain_map.rs"),
        ("", "isobmff", "isobmff/isobmff.rs"),
        ("pub", "metadata", "metadata.rs"),
    ];
    let mut text = String::new();
    for (visible, name, file) in declared {
        text.push_str(&format!(
            "#[path = {:?}]\n#[allow(dead_code, unreachable_code, unused)]\n{visible} mod {name};\n",
            out.join(file).display().to_string()
        ));
    }
    text
}
