//! Depth, orientation, light level and Exif.

use crate::unknown_code::{Numbers, UnknownCode};

/// Bits of a sample of the picture.
#[derive(Clone, Copy, Debug, PartialEq, Eq, Hash, Default)]
pub enum BitDepth {
    /// 8 bits.
    #[default]
    Eight,
    /// 10 bits.
    Ten,
    /// 12 bits.
    Twelve,
}

impl BitDepth {
    /// Every depth, in rising order.
    pub const ALL: [BitDepth; 3] = [BitDepth::Eight, BitDepth::Ten, BitDepth::Twelve];

    /// The number of bits: 8, 10 or 12.
    #[must_use]
    pub const fn bits(self) -> u8 {
        match self {
            BitDepth::Eight => 8,
            BitDepth::Ten => 10,
            BitDepth::Twelve => 12,
        }
    }

    /// The depth of so many bits.
    ///
    /// # Errors
    ///
    /// If there is none: there are 8, 10 and 12.
    ///
    /// ```
    /// use kahopiru::BitDepth;
    ///
    /// assert_eq!(BitDepth::from_bits(10), Ok(BitDepth::Ten));
    /// assert!(BitDepth::from_bits(1).is_err());
    /// ```
    pub fn from_bits(bits: u8) -> Result<Self, UnknownCode> {
        Numbers { name: "a depth in bits", all: "8, 10 or 12" }.find(&Self::ALL, Self::bits, bits)
    }

    /// The code of this depth in a sheet and in the C interface: 0, 1 or 2.
    #[must_use]
    pub const fn code(self) -> u8 {
        self as u8
    }

    /// The depth with this code in a sheet and in the C interface.
    ///
    /// # Errors
    ///
    /// If there is none: there are 0, 1 and 2.
    ///
    /// ```
    /// use kahopiru::BitDepth;
    ///
    /// assert_eq!(BitDepth::from_code(1), Ok(BitDepth::Ten));
    /// assert!(BitDepth::from_code(10).is_err());
    /// ```
    pub fn from_code(code: u8) -> Result<Self, UnknownCode> {
        Numbers { name: "a depth's code", all: "0 to 2" }.find(&Self::ALL, Self::code, code)
    }
}

/// By the number of bits, as [`BitDepth::from_bits`]; not by the code.
impl TryFrom<u8> for BitDepth {
    type Error = UnknownCode;

    fn try_from(bits: u8) -> Result<Self, UnknownCode> {
        Self::from_bits(bits)
    }
}

/// How the stored picture is turned and mirrored to show upright, in Exif's order.
///
/// Today's readers show a mirrored orientation as the other of its pair: [`FlipH`](Self::FlipH) and
/// [`FlipV`](Self::FlipV) are a pair, [`Transpose`](Self::Transpose) and [`Transverse`](Self::Transverse) the other.
/// Whoever needs one of these four to show right in such readers passes the other of its pair. `Normal` and the three
/// rotations show right. The reason stands in the repository's docs/DIFFERENCES.md, S1.
#[derive(Clone, Copy, Debug, PartialEq, Eq, Hash, Default)]
pub enum Orientation {
    /// Exif 1: as stored.
    #[default]
    Normal,
    /// Exif 2: left and right exchanged. Today's readers show it as [`FlipV`](Self::FlipV), and that as this.
    FlipH,
    /// Exif 3: half a turn.
    Rotate180,
    /// Exif 4: top and bottom exchanged. Today's readers show it as [`FlipH`](Self::FlipH), and that as this.
    FlipV,
    /// Exif 5: mirrored about the diagonal from the top left. Today's readers show it as
    /// [`Transverse`](Self::Transverse), and that as this.
    Transpose,
    /// Exif 6: a quarter turn clockwise.
    Rotate90,
    /// Exif 7: mirrored about the diagonal from the top right. Today's readers show it as
    /// [`Transpose`](Self::Transpose), and that as this.
    Transverse,
    /// Exif 8: a quarter turn anticlockwise.
    Rotate270,
}

impl Orientation {
    /// Every orientation, in Exif's order.
    pub const ALL: [Orientation; 8] = [
        Orientation::Normal,
        Orientation::FlipH,
        Orientation::Rotate180,
        Orientation::FlipV,
        Orientation::Transpose,
        Orientation::Rotate90,
        Orientation::Transverse,
        Orientation::Rotate270,
    ];

    /// Exif's number of this orientation, 1 to 8: the value of its tag 0x0112.
    #[must_use]
    pub const fn exif(self) -> u16 {
        self as u16 + 1
    }

    /// The orientation that Exif's number says.
    ///
    /// # Errors
    ///
    /// If it says none: there are 1 to 8. For a caller who takes any other number for upright, `unwrap_or_default`
    /// gives [`Normal`](Orientation::Normal).
    ///
    /// ```
    /// use kahopiru::Orientation;
    ///
    /// assert_eq!(Orientation::from_exif(6), Ok(Orientation::Rotate90));
    /// assert_eq!(Orientation::Rotate90.exif(), 6);
    /// assert!(Orientation::from_exif(0).is_err());
    /// assert_eq!(Orientation::from_exif(0).unwrap_or_default(), Orientation::Normal);
    /// ```
    pub fn from_exif(number: u16) -> Result<Self, UnknownCode> {
        Numbers { name: "an Exif orientation", all: "1 to 8" }.find(&Self::ALL, Self::exif, number)
    }

    /// The code of this orientation in a sheet and in the C interface: Exif's number less 1.
    #[must_use]
    pub const fn code(self) -> u8 {
        self as u8
    }

    /// The orientation with this code in a sheet and in the C interface.
    ///
    /// # Errors
    ///
    /// If there is none: there are 0 to 7.
    ///
    /// ```
    /// use kahopiru::Orientation;
    ///
    /// assert_eq!(Orientation::from_code(5), Ok(Orientation::Rotate90));
    /// assert!(Orientation::from_code(8).is_err());
    /// ```
    pub fn from_code(code: u8) -> Result<Self, UnknownCode> {
        Numbers { name: "an orientation's code", all: "0 to 7" }.find(&Self::ALL, Self::code, code)
    }
}

/// By Exif's number, 1 to 8, in the width in which Exif stores it; as [`Orientation::from_exif`]. There is none from a
/// `u8`, which could be taken for the code.
impl TryFrom<u16> for Orientation {
    type Error = UnknownCode;

    fn try_from(number: u16) -> Result<Self, UnknownCode> {
        Self::from_exif(number)
    }
}

/// How bright the content is, in candela per square metre; written as `clli`.
#[derive(Clone, Copy, Debug, PartialEq, Eq, Hash, Default)]
pub struct ContentLightLevel {
    /// The brightest pixel.
    pub max_content_light_level: u16,
    /// The average of the brightest picture.
    pub max_pic_average_light_level: u16,
}

/// What is said of the picture beside its colour.
#[derive(Clone, Copy, Debug, PartialEq, Eq, Hash, Default)]
pub struct Metadata<'a> {
    /// How the picture is turned and mirrored; `Normal` writes nothing.
    pub orientation: Orientation,
    /// How bright the content is, if that is known.
    pub content_light_level: Option<ContentLightLevel>,
    /// The Exif, if there is one: from its TIFF header on, or with the marker `Exif\0\0` before that. It is stored as it is,
    /// and readers are told where the header is. It may be empty.
    pub exif: Option<&'a [u8]>,
}
