//! What a call must answer and leave, held against what it did.

use crate::predict::Answer;

/// Bytes before and behind the lent output that belong to nobody.
const GUARD: usize = 48;

/// Memory around a lent output. Every byte has a mark before the call, so that a stray store shows.
pub struct Room {
    marks: Vec<u8>,
    bytes: Vec<u8>,
    lent: usize,
}

impl Room {
    pub fn new() -> Room {
        Room { marks: Vec::new(), bytes: Vec::new(), lent: 0 }
    }

    /// Marks the memory afresh and lends so many bytes in the midst of it.
    pub fn lend(&mut self, count: usize) -> &mut [u8] {
        let all = count + 2 * GUARD;
        while self.marks.len() < all {
            // Marks do not repeat with a power of two, as the numbers of a file do.
            self.marks.push((self.marks.len() % 251) as u8 ^ 0xA5);
        }
        self.bytes.clear();
        self.bytes.extend_from_slice(&self.marks[..all]);
        self.lent = count;
        &mut self.bytes[GUARD..GUARD + count]
    }

    /// The memory as it now is, to be changed by the self-test.
    pub fn tamper(&mut self) -> &mut [u8] {
        &mut self.bytes
    }

    /// Where the lent output begins.
    pub const fn begins() -> usize {
        GUARD
    }
}

/// The answer and the memory, held to what they must be: at the front of the output the file, none if refused, and
/// every other byte as it was.
pub fn judge(expected: Answer, file: &[u8], answer: Answer, room: &Room) -> Result<(), String> {
    if answer != expected {
        return Err(format!("answers {}, not {}", said(answer), said(expected)));
    }
    let written = if expected.is_ok() { file } else { &[] };
    if written.len() > room.lent {
        return Err(format!("the answer is {}, and the output has {} bytes", said(expected), room.lent));
    }
    let (before, rest) = room.bytes.split_at(GUARD);
    let (front, behind) = rest.split_at(written.len());
    if let Some(at) = first_difference(front, written) {
        return Err(format!("byte {at} of the file is {:02X}, not {:02X}", front[at], written[at]));
    }
    if let Some(at) = first_difference(before, &room.marks[..GUARD]) {
        return Err(format!("the byte {} before the output was touched", GUARD - at));
    }
    let marks = &room.marks[GUARD + written.len()..][..behind.len()];
    match first_difference(behind, marks) {
        Some(at) => Err(format!("byte {} was touched, behind {} bytes of file", written.len() + at, written.len())),
        None => Ok(()),
    }
}

/// Two lengths or refusals, of a call that has no output.
pub fn same_answer(expected: Answer, answer: Answer) -> Result<(), String> {
    if answer == expected {
        return Ok(());
    }
    Err(format!("answers {}, not {}", said(answer), said(expected)))
}

/// Two files.
pub fn same_file(expected: &[u8], file: &[u8]) -> Result<(), String> {
    if expected.len() != file.len() {
        return Err(format!("a file of {} bytes, not {}", file.len(), expected.len()));
    }
    match first_difference(file, expected) {
        Some(at) => Err(format!("byte {at} of the file is {:02X}, not {:02X}", file[at], expected[at])),
        None => Ok(()),
    }
}

fn first_difference(a: &[u8], b: &[u8]) -> Option<usize> {
    // Compared whole first: almost always they are the same.
    if a == b {
        return None;
    }
    a.iter().zip(b).position(|(x, y)| x != y)
}

/// An answer in words.
pub fn said(answer: Answer) -> String {
    match answer {
        Ok(length) => format!("length {length}"),
        Err(u32::MAX) => "a refusal with a length".into(),
        Err(number) => format!("refusal {number}"),
    }
}
