//! Stands in for upstream's coded stream: it holds a decoder configuration record and a sample that are given, and
//! hands each over once, without a copy.

use std::cell::RefCell;

/// Bytes that are handed over by the first who asks for them.
pub(crate) struct Once(RefCell<Vec<u8>>);

impl Once {
    fn new(bytes: &[u8]) -> Once {
        Once(RefCell::new(bytes.to_vec()))
    }

    pub(crate) fn take(&self) -> Vec<u8> {
        self.0.take()
    }
}

/// A unit of a coded stream. None is ever made: upstream's code that would read one is not reached.
pub(crate) struct Nalu {
    pub(crate) data: Vec<u8>,
}

/// A coded picture.
pub(crate) struct NaluStream {
    pub(crate) nalus: Vec<Nalu>,
    pub(crate) record: Once,
    sample: Once,
}

impl NaluStream {
    pub(crate) fn new(record: &[u8], sample: &[u8]) -> NaluStream {
        NaluStream { nalus: Vec::new(), record: Once::new(record), sample: Once::new(sample) }
    }

    /// The sample as upstream's writer asks for it.
    pub(crate) fn to_length_prefixed_slices(&self) -> Vec<u8> {
        self.sample.take()
    }
}
