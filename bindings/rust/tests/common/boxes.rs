//! What a file has where.

/// The size and type of the box that begins at an offset.
pub fn box_at(file: &[u8], at: usize) -> (usize, &[u8]) {
    let size = u32::from_be_bytes(file[at..at + 4].try_into().unwrap());
    (size as usize, &file[at + 4..at + 8])
}

/// Holds a file to boxes, each by its type, its offset and its size.
pub fn hold_boxes(file: &[u8], boxes: &[(&[u8; 4], usize, usize)]) {
    for &(name, at, size) in boxes {
        assert_eq!(box_at(file, at), (size, &name[..]), "at {at}");
    }
}

/// Whether bytes occur in a file.
pub fn holds(file: &[u8], bytes: &[u8]) -> bool {
    file.windows(bytes.len()).any(|w| w == bytes)
}
