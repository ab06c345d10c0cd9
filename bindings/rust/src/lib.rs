//! A HEIF file writer whose every byte is proved.
//!
//! A [`Panel`] is a colour picture in tiles, an alpha picture in tiles and, where there is one, a gain map with a tone
//! map; all of them are already coded as HEVC. A panel becomes one HEIF file, or is refused, with a [`Refusal`] that
//! says why; a call that refuses leaves the output as it was.
//!
//! | call | what it does |
//! |---|---|
//! | [`file_length`] | says how long the file will be |
//! | [`write`](fn@write) | writes the file into room that the caller lends |
//! | [`to_vec`] | makes a vector of it |
//! | [`write_to`] | writes it to a file, a socket or any other [`std::io::Write`] |
//! | [`form_length`], [`write_in_form`], [`to_vec_in_form`], [`write_to_in_form`] | the same, in a [form](FileForm) |
//! | [`write_sheet`], [`sheet_to_vec`] | write the file of a sheet, which is a panel as one run of bytes |
//! | [`tile`] | gives the payload of a tile by its item id |
//!
//! The code behind these calls is an archive, `libkahopiru.a`, in which every function is proved: the bytes written are
//! those of a definition of the file, for every panel, and nothing else is touched. This crate only hands the parts
//! over. It has no dependencies, and allocates nothing but the vectors of [`to_vec`], [`write_to`], these two in a
//! form, [`sheet_to_vec`] and [`SampleList`].
//!
//! # Example
//!
//! ```
//! use kahopiru::{GridDims, Metadata, Orientation, Panel, Samples};
//!
//! # fn main() -> Result<(), kahopiru::Refusal> {
//! // Two tiles side by side, each 64 × 64.
//! let panel = Panel {
//!     dims: GridDims { cols: 2, rows: 1, tile_w: 64, tile_h: 64, full_w: 128, full_h: 64 },
//!     color_hvcc: &[0x01, 0x01], // the decoder configuration records, shortened here
//!     alpha_hvcc: &[0x01, 0x04],
//!     color_samples: Samples { lengths: &[3, 2], bytes: b"onetw" },
//!     alpha_samples: Samples { lengths: &[1, 1], bytes: b"ab" },
//!     metadata: Metadata { orientation: Orientation::Rotate90, ..Metadata::default() },
//!     ..Panel::default()
//! };
//!
//! let length = kahopiru::file_length(&panel)?;
//! let mut out = vec![0; 1000];
//! let written = kahopiru::write(&panel, &mut out)?;
//! assert_eq!(written as u64, length);
//! assert_eq!(&out[4..12], b"ftypheic");
//! assert_eq!(&out[written - 7..written], b"onetwab");
//!
//! assert_eq!(kahopiru::to_vec(&panel)?, out[..written]);
//! # Ok(())
//! # }
//! ```
//!
//! # What goes in
//!
//! Records and samples come from an encoder, and are written as they are.
//!
//! - The tiles are listed row by row: from left to right, the top row first. Colour and alpha have the same grid.
//! - A sample is one coded tile as HEIF stores it: its NAL units, each behind its length in 4 bytes, big-endian. It is
//!   not in the form of Annex B (no start codes `00 00 01`), and has no parameter sets (VPS, SPS, PPS): those are in
//!   the record. So the record's `lengthSizeMinusOne` must be 3. See [`Samples`]; [`SampleList`] gathers samples that
//!   lie apart.
//! - A record is the body of an `hvcC` box (`HEVCDecoderConfigurationRecord`), without the box's own 8 bytes of size
//!   and type. All tiles of a picture share their parameter sets: there is one record for all colour tiles, and one for
//!   all alpha tiles. See [`Panel::color_hvcc`].
//! - Neither records nor samples are looked into, and wrong ones give a file that no reader shows. There is one
//!   exception, the profile: the low five bits of the second byte of the colour record and of the gain image's record.
//!   4, range extensions, makes the brand `heix` where it is `heic` else (colour), or adds `heix` to the compatible
//!   brands (gain image). A record of fewer than two bytes counts as another profile. The alpha record's second byte is
//!   not looked at.
//! - The size of a tile is that which the decoder puts out. Where that is more than is to be shown, as of tiles of an
//!   odd size in 4:2:0, which an encoder pads to even sizes, a visible size is stated beside it. See
//!   [`Panel::visible`].
//! - Colour and alpha each have a depth, which must be the one in the record. Unless it is given, alpha has the
//!   colour's. See [`Panel::alpha_bit_depth`].
//! - Where a picture states no colour, neither by code points nor by a profile, unspecified is written, with full
//!   range; a panel that states just that has the same file. See [`ColorMetadata`].
//! - Mirrored orientations show mirrored the other way in today's readers. See [`Orientation`].
//! - An alternate colour that is empty, or without a tone map, is the same as none. See
//!   [`EncodedGainMap::alternate_color`].
//! - A grid of more than 32,766 tiles, or of just so many (254 × 129) with a gain map, wants the wide form of the file,
//!   which not every reader reads. See [`FileForm`].
//! - A sheet has at most 12,288 bytes, and cannot say a visible size. See [`write_sheet`].
//!
//! Numbers that come from elsewhere become values by `TryFrom`: code points ([`Primaries`], [`TransferFunction`],
//! [`MatrixCoefficients`]), bits ([`BitDepth`]) and Exif's orientation ([`Orientation`]). A number that stands for
//! nothing is an [`UnknownCode`].
//!
#![doc = include_str!("../FROM-HPVCA.md")]
//!
//! # Linking
//!
//! The archive holds ELF code for x86-64 with the System V calling convention (Linux, the BSDs); for other targets the
//! build ends with a sentence that says so. It is looked for in `target/staticlib` of the repository, where the script
//! `bindings/archive` builds it, or in the folder that `KAHOPIRU_LIB_DIR` names.

#![warn(missing_docs)]
#![deny(unsafe_op_in_unsafe_fn)]

mod color;
mod form;
mod hand_over;
mod metadata;
mod panel;
mod refusal;
mod samples;
#[doc(hidden)]
pub mod sys;
mod unknown_code;
mod write_error;

pub use color::{Cicp, ColorMetadata, MatrixCoefficients, Primaries, TransferFunction};
pub use form::FileForm;
pub use metadata::{BitDepth, ContentLightLevel, Metadata, Orientation};
pub use panel::{EncodedGainMap, GridDims, Panel, VisibleSize};
pub use refusal::Refusal;
pub use samples::{SampleList, SampleTooLong, Samples};
pub use unknown_code::UnknownCode;
pub use write_error::WriteError;

use std::io;

/// The version of this crate, which the C header has as `KAHOPIRU_VERSION`.
///
/// While its first number is 0, the second rises where the file of any panel, a struct, a call or a refusal changes,
/// the third where nothing of that does. A change of a file's bytes is always told first in the repository's
/// docs/CHANGES.md.
///
/// ```
/// assert_eq!(kahopiru::VERSION.split('.').count(), 3);
/// ```
pub const VERSION: &str = env!("CARGO_PKG_VERSION");

/// The length of the panel's file in bytes, or why the panel is refused.
///
/// Reads the lists of lengths, and of the byte parts little more than their lengths.
///
/// # Errors
///
/// The first of these refusals that holds, in this order: [`Refusal::GridSide`], [`Refusal::VisibleSize`],
/// [`Refusal::Cover`], [`Refusal::TileCount`], [`Refusal::SampleLengths`], [`Refusal::ItemIds`],
/// [`Refusal::FileLength`].
///
/// # Panics
///
/// Only if the archive linked is not the one that this crate is made for, and refuses with a number that the crate does
/// not know. So do the other calls.
pub fn file_length(panel: &Panel<'_>) -> Result<u64, Refusal> {
    let (numbers, lent) = hand_over::of(panel);
    let answer = sys::file_length(numbers, &lent);
    refusal::result(answer.refusal, answer.length)
}

/// Writes the panel's file to the front of `out` and answers its length.
///
/// The bytes of `out` behind the file keep what they had. If the call refuses, all of `out` does.
///
/// # Errors
///
/// What [`file_length`] refuses, with the same refusal; then [`Refusal::OutputLength`] if `out` is shorter than the
/// file.
///
/// # Panics
///
/// As [`file_length`].
pub fn write(panel: &Panel<'_>, out: &mut [u8]) -> Result<usize, Refusal> {
    let (numbers, lent) = hand_over::of(panel);
    let answer = sys::write(numbers, &lent, out);
    // The file lies in `out`, so that its length is a usize.
    refusal::result(answer.refusal, answer.length as usize)
}

/// The panel's file in a vector of just its length.
///
/// A file has at most 4,294,967,295 bytes; as with any vector, the program ends if there is no memory for it. Use
/// [`file_length`] first where that matters.
///
/// # Errors
///
/// What [`file_length`] refuses, with the same refusal.
///
/// # Panics
///
/// As [`file_length`].
pub fn to_vec(panel: &Panel<'_>) -> Result<Vec<u8>, Refusal> {
    to_vec_in_form(FileForm::Ordinary, panel)
}

/// Writes the panel's whole file to `out`, flushes it, and answers the file's length.
///
/// The panel's file is made in memory first, as by [`to_vec`], and then written. Where `out` is a file that the caller
/// has just created, that file is there and empty if the panel is refused; `std::fs::write(path, to_vec(&panel)?)`
/// creates none then.
///
/// # Errors
///
/// [`WriteError::Refused`] where [`file_length`] refuses the panel; nothing is written then, nor flushed.
/// [`WriteError::Io`] where `out` fails, or takes no more bytes before it has the whole file; it may have some of the
/// file by then.
///
/// # Panics
///
/// As [`file_length`], and where `out` does.
///
/// ```
/// use kahopiru::{GridDims, Panel, Samples, WriteError};
///
/// # fn main() -> Result<(), WriteError> {
/// let panel = Panel {
///     dims: GridDims { cols: 1, rows: 1, tile_w: 64, tile_h: 64, full_w: 64, full_h: 64 },
///     color_samples: Samples { lengths: &[1], bytes: b"c" },
///     alpha_samples: Samples { lengths: &[1], bytes: b"a" },
///     ..Panel::default()
/// };
/// let mut out = Vec::new(); // or std::io::stdout(), a socket, a file
/// assert_eq!(kahopiru::write_to(&panel, &mut out)?, 552);
/// assert_eq!(out, kahopiru::to_vec(&panel)?);
/// # Ok(())
/// # }
/// ```
pub fn write_to(panel: &Panel<'_>, out: impl io::Write) -> Result<u64, WriteError> {
    write_to_in_form(FileForm::Ordinary, panel, out)
}

/// The length of the panel's file in a form, or why the panel is refused there.
///
/// In the [ordinary form](FileForm::Ordinary) the answer is that of [`file_length`].
///
/// # Errors
///
/// As [`file_length`], of which two go by the form: [`Refusal::ItemIds`] holds in the [wide form](FileForm::Wide) if
/// there are more than 65,535 tiles in a picture, as in a grid of 256 × 256 alone, and [`Refusal::FileLength`] if the
/// file in this form would be too long.
///
/// # Panics
///
/// As [`file_length`].
///
/// ```
/// use kahopiru::{file_length, form_length, to_vec_in_form, FileForm, GridDims, Panel, Refusal, Samples};
///
/// // A grid of 255 × 256 tiles, of which each is one byte here.
/// let (lengths, bytes) = (vec![1; 255 * 256], vec![0; 255 * 256]);
/// let tiles = Samples { lengths: &lengths, bytes: &bytes };
/// let panel = Panel {
///     dims: GridDims { cols: 255, rows: 256, tile_w: 64, tile_h: 64, full_w: 16_320, full_h: 16_384 },
///     color_samples: tiles,
///     alpha_samples: tiles,
///     ..Panel::default()
/// };
/// assert_eq!(file_length(&panel), Err(Refusal::ItemIds));
///
/// let file = to_vec_in_form(FileForm::Wide, &panel)?;
/// assert_eq!(file.len() as u64, form_length(FileForm::Wide, &panel)?);
/// assert_eq!(&file[73 + 4..73 + 9], b"pitm\x01"); // ids of 32 bits are its version 1
/// # Ok::<(), Refusal>(())
/// ```
pub fn form_length(form: FileForm, panel: &Panel<'_>) -> Result<u64, Refusal> {
    let (numbers, lent) = hand_over::of(panel);
    let answer = sys::form_length(form.code(), numbers, &lent);
    refusal::result(answer.refusal, answer.length)
}

/// Writes the panel's file in a form to the front of `out` and answers its length, as [`write`](fn@write) does in the
/// ordinary form.
///
/// # Errors
///
/// What [`form_length`] refuses, with the same refusal; then [`Refusal::OutputLength`] if `out` is shorter than the
/// file in this form.
///
/// # Panics
///
/// As [`file_length`].
pub fn write_in_form(form: FileForm, panel: &Panel<'_>, out: &mut [u8]) -> Result<usize, Refusal> {
    let (numbers, lent) = hand_over::of(panel);
    let answer = sys::form_write(form.code(), numbers, &lent, out);
    // The file lies in `out`, so that its length is a usize.
    refusal::result(answer.refusal, answer.length as usize)
}

/// The panel's file in a form, in a vector of just its length, as [`to_vec`] makes it of the ordinary form.
///
/// # Errors
///
/// What [`form_length`] refuses, with the same refusal.
///
/// # Panics
///
/// As [`file_length`].
pub fn to_vec_in_form(form: FileForm, panel: &Panel<'_>) -> Result<Vec<u8>, Refusal> {
    let length = form_length(form, panel)?;
    let mut file = vec![0; length as usize];
    let written = write_in_form(form, panel, &mut file)?;
    debug_assert_eq!(written as u64, length);
    Ok(file)
}

/// Writes the panel's whole file in a form to `out`, flushes it, and answers the file's length, as [`write_to`] does in
/// the ordinary form.
///
/// # Errors
///
/// [`WriteError::Refused`] where [`form_length`] refuses the panel, and [`WriteError::Io`] where `out` fails, as with
/// [`write_to`].
///
/// # Panics
///
/// As [`file_length`], and where `out` does.
pub fn write_to_in_form(form: FileForm, panel: &Panel<'_>, mut out: impl io::Write) -> Result<u64, WriteError> {
    let file = to_vec_in_form(form, panel)?;
    out.write_all(&file)?;
    out.flush()?;
    Ok(file.len() as u64)
}

/// The payload of the tile with this item id: that very part of the colour bytes or of the alpha bytes.
///
/// With n tiles in each picture, the colour tiles have the ids 1 to n and the alpha tiles n + 2 to 2n + 1.
///
/// The lookup keeps to ids of 16 bits. In a [wide](FileForm::Wide) file the tiles have the same ids; where it has more
/// than 32,766 tiles in a picture, the lookup refuses with [`Refusal::ItemIds`].
///
/// # Errors
///
/// [`Refusal::TileCount`] if the two lists differ in count or are empty, [`Refusal::SampleLengths`] if a list does not
/// sum to its bytes, [`Refusal::ItemIds`] if 2n + 2 is above 65,535, and [`Refusal::NoTile`] if the id names no tile;
/// in that order.
///
/// # Panics
///
/// As [`file_length`].
///
/// ```
/// use kahopiru::{tile, Refusal, Samples};
///
/// let color = Samples { lengths: &[3, 2], bytes: b"onetw" };
/// let alpha = Samples { lengths: &[1, 1], bytes: b"ab" };
/// assert_eq!(tile(2, color, alpha), Ok(&b"tw"[..])); // the second colour tile
/// assert_eq!(tile(3, color, alpha), Err(Refusal::NoTile)); // the colour grid
/// assert_eq!(tile(4, color, alpha), Ok(&b"a"[..])); // the first alpha tile
/// ```
pub fn tile<'a>(id: u16, color: Samples<'a>, alpha: Samples<'a>) -> Result<&'a [u8], Refusal> {
    let place = sys::tile(id, color.lengths, alpha.lengths, color.bytes, alpha.bytes);
    let bytes = if place.alpha == 1 { alpha.bytes } else { color.bytes };
    // The place lies within the bytes, so that its numbers are each a usize.
    let (start, length) = (place.start as usize, place.length as usize);
    refusal::result(place.refusal, &bytes[start..start + length])
}

/// Writes the file of the panel that a sheet says to the front of `out` and answers its length.
///
/// A sheet is a panel as one run of bytes, at most 12,288 of them; it cannot say a [visible size](Panel::visible). The
/// bytes of `out` behind the file keep what they had; if the call refuses, all of `out` does.
///
/// Since 0.3.0 a sheet says an alpha depth, too: an older one is refused, as a rule with [`Refusal::SheetEnds`], until
/// its byte 22, the depth, is repeated behind it.
///
/// The longest file that a sheet can say has 136,838 bytes. The program behind `./panel` has room for 32,768: 6 there
/// says that the file would be longer. The sheet's author can make fewer tiles, each of which costs 89 bytes beside its
/// samples, or hand the sheet to this call, whose room is the caller's, or to [`sheet_to_vec`].
///
/// # Errors
///
/// [`Refusal::SheetLength`] if the sheet has more than 12,288 bytes; else the first of [`Refusal::SheetEnds`],
/// [`Refusal::SheetMap`], [`Refusal::SheetCode`] and [`Refusal::SheetBytesLeft`] that the reading meets; else what
/// [`write`](fn@write) refuses of its panel.
///
/// # Panics
///
/// As [`file_length`].
pub fn write_sheet(sheet: &[u8], out: &mut [u8]) -> Result<usize, Refusal> {
    let answer = sys::sheet(sheet, out);
    // The file lies in `out`, so that its length is a usize.
    refusal::result(answer.refusal, answer.length as usize)
}

/// The file of the panel that a sheet says, in a vector of just its length.
///
/// # Errors
///
/// What [`write_sheet`] refuses, with the same refusal, but never [`Refusal::OutputLength`].
///
/// # Panics
///
/// As [`file_length`].
///
/// ```
/// use kahopiru::{sheet_to_vec, Refusal};
///
/// # fn main() -> Result<(), Refusal> {
/// let mut sheet = vec![0, 0, 0, 1, 0, 1]; // no optional part, 1 column, 1 row
/// sheet.extend([0, 0, 0, 64].repeat(4)); // the size of a tile and of the whole picture
/// sheet.extend([0, 0]); // 8 bits, and 8 bits of alpha
/// sheet.extend([0, 0, 0, 2, 1, 1]); // the colour record, behind its length
/// sheet.extend([0, 0, 0, 2, 1, 4]); // the alpha record
/// sheet.extend([0, 0, 0, 1, 0, 0, 0, 1]); // the length of each sample
/// sheet.extend([0xAA, 0xBB]); // the samples
/// assert_eq!(sheet_to_vec(&sheet)?.len(), 556);
///
/// sheet.pop();
/// assert_eq!(sheet_to_vec(&sheet), Err(Refusal::SheetEnds));
/// # Ok(())
/// # }
/// ```
pub fn sheet_to_vec(sheet: &[u8]) -> Result<Vec<u8>, Refusal> {
    // The room is doubled as long as it is too short. That ends: a file has at most 4,294,967,295 bytes, or its panel
    // is refused with 5; so in room of 2³² bytes no file is refused with 6.
    let mut room = vec![0; 1 << 15];
    loop {
        match write_sheet(sheet, &mut room) {
            Ok(length) => return Ok(room[..length].to_vec()),
            Err(Refusal::OutputLength) => room = vec![0; 2 * room.len()],
            Err(why) => return Err(why),
        }
    }
}
