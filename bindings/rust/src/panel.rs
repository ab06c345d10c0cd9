//! A panel: everything that one file is made of.

use crate::{BitDepth, Cicp, ColorMetadata, Metadata, Samples};

/// The tile grid: its columns and rows, the size of a tile, and the size of the whole picture, in pixels.
///
/// The size of a tile is that which the decoder puts out: without what the conformance window of the parameter sets
/// cuts off. It is the same for colour and alpha.
///
/// No size is 0, and the tiles cover the whole picture: `cols` × `tile_w` is at least `full_w`, and `rows` × `tile_h`
/// at least `full_h`; where a panel has a [visible size](Panel::visible), that stands in the place of a tile's. Other
/// sizes are refused with [`Refusal::Cover`](crate::Refusal::Cover). Today's readers refuse a width or height above
/// 65,535; the repository's docs/DIFFERENCES.md says more, S10.
#[derive(Clone, Copy, Debug, PartialEq, Eq, Hash, Default)]
pub struct GridDims {
    /// Tiles across, 1 to 256.
    pub cols: u32,
    /// Tiles down, 1 to 256.
    pub rows: u32,
    /// Width of a tile, 1 or more.
    pub tile_w: u32,
    /// Height of a tile, 1 or more.
    pub tile_h: u32,
    /// Width of the whole picture, 1 or more.
    pub full_w: u32,
    /// Height of the whole picture, 1 or more.
    pub full_h: u32,
}

/// What is shown of each tile, from its first column and its first row on, in pixels. See [`Panel::visible`].
///
/// Neither side is 0, or above that of the tile, which is at most 2,147,483,647. Other sizes are refused with
/// [`Refusal::VisibleSize`](crate::Refusal::VisibleSize).
#[derive(Clone, Copy, Debug, PartialEq, Eq, Hash, Default)]
pub struct VisibleSize {
    /// Columns that are shown, 1 to [`GridDims::tile_w`].
    pub w: u32,
    /// Rows that are shown, 1 to [`GridDims::tile_h`].
    pub h: u32,
}

/// A gain map, already coded: one hidden picture, an XMP packet and, if there is one, a tone map.
#[derive(Clone, Copy, Debug, PartialEq, Eq, Hash, Default)]
pub struct EncodedGainMap<'a> {
    /// The decoder configuration record of the gain image, in the form of [`Panel::color_hvcc`]. Of it, too, the
    /// profile is looked at: if it is 4 and the colour record's is not, `heix` is added to the compatible brands.
    pub hvcc: &'a [u8],
    /// The coded gain image, one picture in the form of a [sample](Samples).
    pub sample: &'a [u8],
    /// Width of the gain image, in pixels.
    pub width: u32,
    /// Height of the gain image, in pixels.
    pub height: u32,
    /// Bits of a sample of the gain image.
    pub bit_depth: BitDepth,
    /// The gain image's colour code points.
    pub cicp: Cicp,
    /// The XMP packet that describes the gain map.
    pub xmp: &'a [u8],
    /// The payload of the tone map item, if there is one. It may be empty.
    pub tmap: Option<&'a [u8]>,
    /// The colour of the picture that the tone map gives, if it is stated. One that states nothing, or that stands
    /// beside no tone map, is the same as none: nothing of it is written. (In C its codes are looked at even then, and
    /// 13 answered; here no code can be wrong.)
    pub alternate_color: Option<ColorMetadata<'a>>,
}

/// Everything that one file is made of. The byte parts are borrowed; [`Default`] has none of them, and no tile.
#[derive(Clone, Copy, Debug, PartialEq, Eq, Hash, Default)]
pub struct Panel<'a> {
    /// The tile grid, the same for colour and alpha.
    pub dims: GridDims,
    /// The visible size of a tile, the same for colour and alpha, where the decoder puts out more than is to be shown.
    /// With `None`, the default, all of each tile is shown. It is the visible parts that lie side by side, and that
    /// have to cover the whole picture.
    ///
    /// Tiles of an odd width in 4:2:0 or 4:2:2, or of an odd height in 4:2:0, need one. There the conformance window of
    /// the parameter sets cuts off columns, or rows, by two, and a decoder puts out even sizes alone; so the encoder
    /// pads such a tile by a column or a row that the decoder puts out, too. `tile_w` and `tile_h` are the padded size,
    /// and this is the odd one. Alpha tiles are padded likewise, also where they have no chroma. Where the decoder puts
    /// out just what is to be shown, no visible size is needed; so it is with even tiles, also of an odd picture,
    /// beyond which tiles may reach.
    ///
    /// libheif shows a file with a visible size as it is meant, ffmpeg does not; the repository's docs/DIFFERENCES.md
    /// says more, S12.
    ///
    /// ```
    /// use kahopiru::{to_vec, GridDims, Panel, Samples, VisibleSize};
    ///
    /// // Two tiles of 63 × 65 pixels side by side, each padded to 64 × 66.
    /// let tiles = Samples { lengths: &[1, 1], bytes: &[0, 0] };
    /// let odd = Panel {
    ///     dims: GridDims { cols: 2, rows: 1, tile_w: 64, tile_h: 66, full_w: 126, full_h: 65 },
    ///     visible: Some(VisibleSize { w: 63, h: 65 }),
    ///     color_samples: tiles,
    ///     alpha_samples: tiles,
    ///     ..Panel::default()
    /// };
    /// // 40 bytes say what is shown, and each of the two colour tiles and two alpha tiles names them in one byte more.
    /// let whole = Panel { visible: None, ..odd };
    /// assert_eq!(to_vec(&odd)?.len(), to_vec(&whole)?.len() + 40 + 4);
    /// # Ok::<(), kahopiru::Refusal>(())
    /// ```
    pub visible: Option<VisibleSize>,
    /// Bits of a sample of the colour picture.
    pub bit_depth: BitDepth,
    /// Bits of a sample of the alpha picture. `None`, the default, is the colour picture's depth: a panel has the same
    /// file with `None` and with `Some(bit_depth)`, though `==` tells the two apart.
    ///
    /// Today's readers have trouble with two depths that differ; the repository's docs/DIFFERENCES.md says which, S11.
    ///
    /// ```
    /// use kahopiru::{to_vec, BitDepth, GridDims, Panel, Samples};
    ///
    /// let tile = Samples { lengths: &[1], bytes: &[0] };
    /// let deep = Panel {
    ///     dims: GridDims { cols: 1, rows: 1, tile_w: 64, tile_h: 64, full_w: 64, full_h: 64 },
    ///     bit_depth: BitDepth::Twelve,
    ///     color_samples: tile,
    ///     alpha_samples: tile,
    ///     ..Panel::default()
    /// };
    /// let masked = Panel { alpha_bit_depth: Some(BitDepth::Eight), ..deep };
    /// // The depth of the alpha picture's pixi is all that differs.
    /// let differing = to_vec(&deep)?.into_iter().zip(to_vec(&masked)?).filter(|(a, b)| a != b);
    /// assert_eq!(differing.collect::<Vec<_>>(), [(12, 8)]);
    /// # Ok::<(), kahopiru::Refusal>(())
    /// ```
    pub alpha_bit_depth: Option<BitDepth>,
    /// The decoder configuration record that all colour tiles share, and with it their parameter sets.
    ///
    /// A record is the body of an `hvcC` box (`HEVCDecoderConfigurationRecord`), without the box's own 8 bytes of size
    /// and type. It holds the parameter sets (VPS, SPS, PPS), and its `lengthSizeMinusOne` must be 3, since the lengths
    /// in [samples](Samples) have 4 bytes. A wrong one gives a file that no reader shows: it is not looked into, but
    /// for the profile, the low five bits of its second byte. If that is 4, range extensions, the file's brand is
    /// `heix`, else `heic`; a record of fewer than two bytes counts as another profile.
    pub color_hvcc: &'a [u8],
    /// The decoder configuration record that all alpha tiles share, in the form of [`Panel::color_hvcc`]. Its second
    /// byte is not looked at.
    pub alpha_hvcc: &'a [u8],
    /// The coded colour tiles, row by row.
    pub color_samples: Samples<'a>,
    /// The coded alpha tiles, row by row.
    pub alpha_samples: Samples<'a>,
    /// How the picture states its colour. [`Default`] states none, and is written as [`Cicp::unspecified`].
    pub color_meta: ColorMetadata<'a>,
    /// Orientation, light level and Exif.
    pub metadata: Metadata<'a>,
    /// The gain map, if there is one.
    pub gain_map: Option<EncodedGainMap<'a>>,
}
