//! Exif that nearly begins with its marker.

use crate::reference::MARKER;

/// What Exif begins with, and what is said of it.
#[derive(Clone)]
pub struct Start {
    pub name: &'static str,
    pub bytes: Vec<u8>,
}

/// What comes close to the marker: its first bytes alone, one of its bytes left out, another one in its place, its
/// letters in another case, and something before it.
pub fn near_misses() -> Vec<Start> {
    let mut all = Vec::new();
    let mut add = |name, bytes: &[u8]| all.push(Start { name, bytes: bytes.to_vec() });
    for count in 1..MARKER.len() {
        add("less than the marker", &MARKER[..count]);
    }
    for at in 0..MARKER.len() {
        let (before, behind) = (&MARKER[..at], &MARKER[at + 1..]);
        // What follows must not be taken for the byte that is missing.
        add("five of the six bytes", &[before, behind, &[0xFF]].concat());
        for other in [MARKER[at] ^ 0x80, MARKER[at].wrapping_add(1), MARKER[at].wrapping_sub(1)] {
            add("another byte", &[before, &[other], behind].concat());
        }
    }
    for word in [b"EXIF", b"exif", b"ExIf"] {
        add("another case", &[word, &[0, 0][..]].concat());
    }
    for first in [0, b'E', 0xFF] {
        add("a byte before it", &[&[first], &MARKER[..]].concat());
    }
    all
}
