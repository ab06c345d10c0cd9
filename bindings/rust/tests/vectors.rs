//! Upstream's own files, kept in tests/vectors/upstream.txt: each line is a name, a panel sheet and the file that
//! upstream writes for it, in hexadecimal; where alpha has a depth of its own, with that depth in its place, and where
//! Exif begins with its marker, with the offset 6 before it. The binding must write the same bytes, for the panel and
//! for the sheet.

mod common;

use common::sheet::with_panel;
use kahopiru::{sheet_to_vec, to_vec};

const VECTORS: &str = include_str!("../../../tests/vectors/upstream.txt");

fn bytes(hex: &str) -> Vec<u8> {
    let digits = |i| u8::from_str_radix(&hex[i..i + 2], 16).expect("two hexadecimal digits");
    (0..hex.len()).step_by(2).map(digits).collect()
}

#[test]
fn the_binding_writes_what_upstream_wrote() {
    let mut count = 0;
    for line in VECTORS.lines() {
        let words: Vec<&str> = line.split(' ').collect();
        let [name, sheet, file] = words[..] else { panic!("not a name, a sheet and a file: {line}") };
        let written = with_panel(&bytes(sheet), to_vec);
        assert!(written.expect("every panel of the list is accepted") == bytes(file), "{name} differs");
        assert!(sheet_to_vec(&bytes(sheet)).as_ref() == Ok(&bytes(file)), "{name} differs as a sheet");
        count += 1;
    }
    assert!(count >= 46, "only {count} files are in the list");
}
