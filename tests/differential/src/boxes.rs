//! The boxes of upstream's files, and the numbers in them. A file is held to what it must be wherever it is looked at.

use std::ops::Range;

// ---- numbers

/// What upstream's file must be.
pub fn must(holds: bool, why: impl FnOnce() -> String) -> Result<(), String> {
    if holds {
        return Ok(());
    }
    Err(format!("in upstream's file {}", why()))
}

/// A number of so many bytes.
pub fn number(file: &[u8], at: usize, count: usize) -> usize {
    file[at..at + count].iter().fold(0, |n, &byte| n << 8 | usize::from(byte))
}

/// Raises a number of four bytes, which must be this one.
pub fn raise(file: &mut [u8], at: usize, from: usize, by: usize) -> Result<(), String> {
    must(number(file, at, 4) == from, || format!("{from} is not at byte {at}"))?;
    let raised = u32::try_from(from + by).map_err(|_| format!("{from} and {by} have not 32 bits"))?;
    file[at..at + 4].copy_from_slice(&raised.to_be_bytes());
    Ok(())
}

// ---- boxes

/// The boxes that a part of a file is made of.
pub fn boxes(file: &[u8], part: Range<usize>) -> Result<Vec<Range<usize>>, String> {
    let mut boxes = Vec::new();
    let mut at = part.start;
    while at < part.end {
        let size = if part.end - at < 8 { 0 } else { number(file, at, 4) };
        must((8..=part.end - at).contains(&size), || format!("no box is at byte {at}"))?;
        boxes.push(at..at + size);
        at += size;
    }
    Ok(boxes)
}

/// How long a box is before the first box in it, given the box from its size on.
pub fn head(bytes: &[u8]) -> usize {
    match (&bytes[4..8], bytes.get(8)) {
        // Full boxes; iinf with a count, of 16 bits in version 0 and of 32 in version 1.
        (b"meta" | b"iref", _) => 12,
        (b"iinf", Some(0)) => 14,
        (b"iinf", _) => 16,
        _ => 8,
    }
}

/// The box at the end of a path of boxes, each within the one before it.
pub fn find(file: &[u8], path: &[&[u8; 4]]) -> Result<Range<usize>, String> {
    let (last, parents) = path.split_last().expect("a path has an end");
    let mut part = 0..file.len();
    for parent in parents {
        let found = child(file, part, parent)?;
        part = found.start + head(&file[found.start..])..found.end;
    }
    child(file, part, last)
}

/// The one box of a type among those that a part of a file is made of.
fn child(file: &[u8], part: Range<usize>, kind: &[u8; 4]) -> Result<Range<usize>, String> {
    let mut found = boxes(file, part)?.into_iter().filter(|each| file[each.start + 4..each.start + 8] == *kind);
    match (found.next(), found.next()) {
        (Some(only), None) => Ok(only),
        _ => Err(format!("in upstream's file there is not one {}", String::from_utf8_lossy(kind))),
    }
}

/// A box: its size, its type and its body.
pub fn boxed(kind: &[u8; 4], body: &[u8]) -> Vec<u8> {
    let mut all = [&[0; 4], &kind[..], body].concat();
    put_size(&mut all, 0);
    all
}

/// Puts the size of the box that begins at a byte and ends where all does.
pub fn put_size(all: &mut [u8], begins: usize) {
    let size = u32::try_from(all.len() - begins).expect("a box has a size of 32 bits");
    all[begins..begins + 4].copy_from_slice(&size.to_be_bytes());
}

/// A full box: its body behind a version and 24 flags.
pub fn full(kind: &[u8; 4], version: u8, flags: u32, body: &[u8]) -> Vec<u8> {
    let head = u32::from(version) << 24 | flags;
    let mut all = [&[0; 4], &kind[..], &head.to_be_bytes(), body].concat();
    put_size(&mut all, 0);
    all
}

// ---- what meta says of the items

/// How long ipma is before its first entry.
pub const IPMA_HEAD: usize = 16;

/// Where iloc has the offsets that are counted from the file's first byte, and what they are. They must name the body
/// of mdat, one part behind the other to the file's end.
pub fn offsets(file: &[u8], iloc: &Range<usize>) -> Result<Vec<(usize, usize)>, String> {
    let mut payload = find(file, &[b"mdat"])?.start + 8;
    let mut offsets = Vec::new();
    let entries = iloc.start + 16..iloc.end;
    must(entries.len() == 16 * number(file, entries.start - 2, 2), || "iloc has other entries than it counts".into())?;
    for entry in entries.step_by(16) {
        let (method, offset, length) =
            (number(file, entry + 2, 2), number(file, entry + 8, 4), number(file, entry + 12, 4));
        if method == 0 {
            must(offset == payload, || format!("iloc has {offset} at byte {}, not {payload}", entry + 8))?;
            offsets.push((entry + 8, offset));
            payload += length;
        }
    }
    must(payload == file.len(), || format!("the payloads end at byte {payload}"))?;
    Ok(offsets)
}

/// An item's id, and where the properties are that it names: a byte each.
pub type Named = (usize, Range<usize>);

/// The entries of an ipma of version 0.
pub fn associations(file: &[u8], ipma: &Range<usize>) -> Result<Vec<Named>, String> {
    let mut entries = Vec::new();
    let mut at = ipma.start + IPMA_HEAD;
    for _ in 0..number(file, at - 4, 4) {
        let (id, count) = (number(file, at, 2), number(file, at + 2, 1));
        entries.push((id, at + 3..at + 3 + count));
        at += 3 + count;
    }
    must(at == ipma.end, || "ipma has other entries than it counts".into())?;
    Ok(entries)
}
