//! The coded tiles of a picture: lent, and gathered from a list of slices.

use std::fmt;

/// The coded tiles of one picture: how long each is, and all of them back to back.
///
/// The tiles are listed row by row: from left to right, the top row first. Colour and alpha have the same grid.
///
/// A sample is one coded tile as HEIF stores it: its NAL units, each behind its length in 4 bytes, big-endian. It is
/// not in the form of Annex B, and has no start codes (`00 00 01`). It has no parameter sets (VPS, SPS, PPS) either:
/// those are in the [record](crate::Panel::color_hvcc) that all tiles of the picture share. Samples are not looked
/// into, and wrong ones give a file that no reader shows.
///
/// [`SampleList`] makes one of samples that lie apart.
#[derive(Clone, Copy, Debug, PartialEq, Eq, Hash, Default)]
pub struct Samples<'a> {
    /// The length of each sample, one entry for each tile. A sample may be empty, but readers refuse the picture then,
    /// or show that tile black.
    pub lengths: &'a [u32],
    /// The samples themselves, back to back; as many bytes as the lengths sum to.
    pub bytes: &'a [u8],
}

/// The coded tiles of one picture, gathered from slices that lie apart, as an encoder gives them. It owns a copy of
/// their bytes, and lends them as [`Samples`].
///
/// ```
/// use kahopiru::{SampleList, Samples};
///
/// # fn main() -> Result<(), kahopiru::SampleTooLong> {
/// let coded: Vec<Vec<u8>> = vec![b"one".to_vec(), b"tw".to_vec()];
/// let list = SampleList::from_slices(&coded)?;
/// assert_eq!(list.as_samples(), Samples { lengths: &[3, 2], bytes: b"onetw" });
/// # Ok(())
/// # }
/// ```
#[derive(Clone, Debug, PartialEq, Eq, Hash, Default)]
pub struct SampleList {
    lengths: Vec<u32>,
    bytes: Vec<u8>,
}

impl SampleList {
    /// A list with no sample.
    #[must_use]
    pub const fn new() -> Self {
        SampleList { lengths: Vec::new(), bytes: Vec::new() }
    }

    /// The list of these samples, in their order.
    ///
    /// # Errors
    ///
    /// If a sample has more than 4,294,967,295 bytes. As with any vector, the program ends if there is no memory for
    /// all of them.
    ///
    /// ```
    /// let list = kahopiru::SampleList::from_slices([&b"one"[..], b"", b"tw"])?;
    /// assert_eq!(list.as_samples().lengths, [3, 0, 2]);
    /// # Ok::<(), kahopiru::SampleTooLong>(())
    /// ```
    pub fn from_slices<T: AsRef<[u8]>>(samples: impl IntoIterator<Item = T>) -> Result<Self, SampleTooLong> {
        let mut list = SampleList::new();
        samples.into_iter().try_for_each(|sample| list.push(sample.as_ref()))?;
        Ok(list)
    }

    /// Puts a sample behind those that are there.
    ///
    /// # Errors
    ///
    /// If it has more than 4,294,967,295 bytes; the list is then as it was.
    ///
    /// ```
    /// let mut list = kahopiru::SampleList::new();
    /// list.push(b"one")?;
    /// list.push(b"tw")?;
    /// assert_eq!(list.as_samples().bytes, b"onetw");
    /// # Ok::<(), kahopiru::SampleTooLong>(())
    /// ```
    pub fn push(&mut self, sample: &[u8]) -> Result<(), SampleTooLong> {
        let too_long = SampleTooLong { index: self.lengths.len(), length: sample.len() };
        self.lengths.push(u32::try_from(sample.len()).map_err(|_| too_long)?);
        self.bytes.extend_from_slice(sample);
        Ok(())
    }

    /// The samples as a [`Panel`](crate::Panel) takes them.
    ///
    /// ```
    /// use kahopiru::{tile, SampleList};
    ///
    /// let color = SampleList::from_slices(["one", "tw"])?;
    /// let alpha = SampleList::from_slices(["a", "b"])?;
    /// assert_eq!(tile(2, color.as_samples(), alpha.as_samples()), Ok(&b"tw"[..]));
    /// # Ok::<(), kahopiru::SampleTooLong>(())
    /// ```
    #[must_use]
    pub fn as_samples(&self) -> Samples<'_> {
        Samples { lengths: &self.lengths, bytes: &self.bytes }
    }
}

/// A sample that is too long for a file: a length has 32 bits.
#[derive(Clone, Copy, Debug, PartialEq, Eq, Hash)]
pub struct SampleTooLong {
    index: usize,
    length: usize,
}

impl SampleTooLong {
    /// Its place in the list, counted from 0.
    #[must_use]
    pub const fn index(&self) -> usize {
        self.index
    }

    /// How many bytes it has.
    #[must_use]
    pub const fn length(&self) -> usize {
        self.length
    }
}

impl fmt::Display for SampleTooLong {
    fn fmt(&self, f: &mut fmt::Formatter<'_>) -> fmt::Result {
        write!(f, "sample {}, counted from 0, has {} bytes, and at most 4,294,967,295 fit", self.index, self.length)
    }
}

impl std::error::Error for SampleTooLong {}
