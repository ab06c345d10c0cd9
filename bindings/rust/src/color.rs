//! Colour: the code points of ISO/IEC 23091-2 (CICP), and how a picture states its colour.

use crate::unknown_code::{Numbers, UnknownCode};

/// Values by their code points: `from_code`, which finds what `code` gives, and `TryFrom`, which does the same. The
/// last two of a row are an example: a code point, and the value that has it.
macro_rules! by_code_point {
    ($($type:ident $numbers:expr, $code:literal $value:ident;)*) => {$(
        impl $type {
            /// The code point.
            #[must_use]
            pub const fn code(self) -> u16 {
                self as u16
            }

            /// The value with this code point.
            ///
            /// # Errors
            ///
            /// If there is no such value.
            ///
            /// ```
            #[doc = concat!("use kahopiru::", stringify!($type), ";")]
            ///
            #[doc = concat!(
                "assert_eq!(", stringify!($type), "::from_code(", $code, "), Ok(", stringify!($type), "::",
                stringify!($value), "));"
            )]
            #[doc = concat!("assert!(", stringify!($type), "::from_code(255).is_err());")]
            /// ```
            pub fn from_code(code: u16) -> Result<Self, UnknownCode> {
                $numbers.find(&Self::ALL, Self::code, code)
            }
        }

        /// By code point, as `from_code`.
        impl TryFrom<u16> for $type {
            type Error = UnknownCode;

            fn try_from(code: u16) -> Result<Self, UnknownCode> {
                Self::from_code(code)
            }
        }
    )*};
}

by_code_point! {
    Primaries Numbers { name: "a code of colour primaries", all: "0 to 2, 4 to 12 or 22" }, 12 Smpte432;
    TransferFunction Numbers { name: "a code of transfer characteristics", all: "0 to 2 or 4 to 18" }, 16 Smpte2084;
    MatrixCoefficients Numbers { name: "a code of matrix coefficients", all: "0 to 17" }, 9 Bt2020Ncl;
}

/// Colour primaries (ISO/IEC 23091-2, table 2).
#[derive(Clone, Copy, Debug, PartialEq, Eq, Hash, Default)]
#[repr(u16)]
pub enum Primaries {
    /// 0: Kept for later use.
    Reserved = 0,
    /// 1: BT.709, as sRGB has it.
    Bt709 = 1,
    /// 2: Not known, or for the application to say.
    #[default]
    Unspecified = 2,
    /// 4: BT.470 System M, NTSC of 1953.
    Bt470M = 4,
    /// 5: BT.470 System B and G, BT.601 of 625 lines.
    Bt470Bg = 5,
    /// 6: BT.601 of 525 lines.
    Bt601 = 6,
    /// 7: SMPTE 240M; the same primaries as 6.
    Smpte240 = 7,
    /// 8: Film, with colour filters under illuminant C.
    GenericFilm = 8,
    /// 9: BT.2020 and BT.2100.
    Bt2020 = 9,
    /// 10: SMPTE ST 428-1: CIE 1931 XYZ.
    Xyz = 10,
    /// 11: SMPTE RP 431-2, DCI P3.
    Smpte431 = 11,
    /// 12: SMPTE EG 432-1, Display P3.
    Smpte432 = 12,
    /// 22: EBU Tech. 3213-E.
    Ebu3213 = 22,
}

impl Primaries {
    /// Every value, by rising code point.
    pub const ALL: [Primaries; 13] = [
        Primaries::Reserved,
        Primaries::Bt709,
        Primaries::Unspecified,
        Primaries::Bt470M,
        Primaries::Bt470Bg,
        Primaries::Bt601,
        Primaries::Smpte240,
        Primaries::GenericFilm,
        Primaries::Bt2020,
        Primaries::Xyz,
        Primaries::Smpte431,
        Primaries::Smpte432,
        Primaries::Ebu3213,
    ];
}

/// Transfer characteristics (ISO/IEC 23091-2, table 3).
#[derive(Clone, Copy, Debug, PartialEq, Eq, Hash, Default)]
#[repr(u16)]
pub enum TransferFunction {
    /// 0: Kept for later use.
    Reserved = 0,
    /// 1: BT.709.
    Bt709 = 1,
    /// 2: Not known, or for the application to say.
    #[default]
    Unspecified = 2,
    /// 4: BT.470 System M, NTSC of 1953.
    Bt470M = 4,
    /// 5: BT.470 System B and G.
    Bt470Bg = 5,
    /// 6: BT.601; the same curve as 1.
    Bt601 = 6,
    /// 7: SMPTE 240M.
    Smpte240 = 7,
    /// 8: Linear.
    Linear = 8,
    /// 9: Logarithmic over a range of 100 to 1.
    Log100 = 9,
    /// 10: Logarithmic over a range of 100 √10 to 1.
    Log100sqrt10 = 10,
    /// 11: IEC 61966-2-4, xvYCC.
    Iec61966 = 11,
    /// 12: BT.1361 with its extended gamut.
    Bt1361 = 12,
    /// 13: IEC 61966-2-1, sRGB or sYCC.
    Srgb = 13,
    /// 14: BT.2020 at 10 bits.
    Bt202010bit = 14,
    /// 15: BT.2020 at 12 bits.
    Bt202012bit = 15,
    /// 16: SMPTE ST 2084, perceptual quantisation (PQ).
    Smpte2084 = 16,
    /// 17: SMPTE ST 428-1.
    Smpte428 = 17,
    /// 18: ARIB STD-B67, hybrid log-gamma (HLG).
    Hlg = 18,
}

impl TransferFunction {
    /// Every value, by rising code point.
    pub const ALL: [TransferFunction; 18] = [
        TransferFunction::Reserved,
        TransferFunction::Bt709,
        TransferFunction::Unspecified,
        TransferFunction::Bt470M,
        TransferFunction::Bt470Bg,
        TransferFunction::Bt601,
        TransferFunction::Smpte240,
        TransferFunction::Linear,
        TransferFunction::Log100,
        TransferFunction::Log100sqrt10,
        TransferFunction::Iec61966,
        TransferFunction::Bt1361,
        TransferFunction::Srgb,
        TransferFunction::Bt202010bit,
        TransferFunction::Bt202012bit,
        TransferFunction::Smpte2084,
        TransferFunction::Smpte428,
        TransferFunction::Hlg,
    ];
}

/// Matrix coefficients, from RGB to the coded components (ISO/IEC 23091-2, table 4).
#[derive(Clone, Copy, Debug, PartialEq, Eq, Hash, Default)]
#[repr(u16)]
pub enum MatrixCoefficients {
    /// 0: None: the components are RGB.
    Identity = 0,
    /// 1: BT.709.
    Bt709 = 1,
    /// 2: Not known, or for the application to say.
    #[default]
    Unspecified = 2,
    /// 3: Kept for later use.
    Reserved = 3,
    /// 4: FCC, United States.
    Fcc = 4,
    /// 5: BT.470 System B and G, BT.601 of 625 lines.
    Bt470Bg = 5,
    /// 6: SMPTE 170M, BT.601 of 525 lines.
    Smpte170m = 6,
    /// 7: SMPTE 240M.
    Smpte240m = 7,
    /// 8: YCgCo.
    YCgCo = 8,
    /// 9: BT.2020 with non-constant luminance.
    Bt2020Ncl = 9,
    /// 10: BT.2020 with constant luminance.
    Bt2020Cl = 10,
    /// 11: SMPTE ST 2085.
    Smpte2085 = 11,
    /// 12: Derived from the primaries, non-constant luminance.
    ChromaticityDerivedNCL = 12,
    /// 13: Derived from the primaries, constant luminance.
    ChromaticityDerivedCL = 13,
    /// 14: ICtCp of BT.2100.
    ICtCp = 14,
    /// 15: IPT-PQ-C2.
    IPtC2 = 15,
    /// 16: YCgCo-Re, reversible with even bits added.
    YCgCoRe = 16,
    /// 17: YCgCo-Ro, reversible with odd bits added.
    YCgCoRo = 17,
}

impl MatrixCoefficients {
    /// Every value, by rising code point.
    pub const ALL: [MatrixCoefficients; 18] = [
        MatrixCoefficients::Identity,
        MatrixCoefficients::Bt709,
        MatrixCoefficients::Unspecified,
        MatrixCoefficients::Reserved,
        MatrixCoefficients::Fcc,
        MatrixCoefficients::Bt470Bg,
        MatrixCoefficients::Smpte170m,
        MatrixCoefficients::Smpte240m,
        MatrixCoefficients::YCgCo,
        MatrixCoefficients::Bt2020Ncl,
        MatrixCoefficients::Bt2020Cl,
        MatrixCoefficients::Smpte2085,
        MatrixCoefficients::ChromaticityDerivedNCL,
        MatrixCoefficients::ChromaticityDerivedCL,
        MatrixCoefficients::ICtCp,
        MatrixCoefficients::IPtC2,
        MatrixCoefficients::YCgCoRe,
        MatrixCoefficients::YCgCoRo,
    ];
}

/// A colour by its code points.
#[derive(Clone, Copy, Debug, PartialEq, Eq, Hash)]
pub struct Cicp {
    /// The primaries.
    pub primaries: Primaries,
    /// The transfer characteristics.
    pub transfer: TransferFunction,
    /// The matrix coefficients.
    pub matrix: MatrixCoefficients,
    /// Whether samples use their full range, as opposed to the narrower one of video.
    pub full_range: bool,
}

impl Cicp {
    /// Unspecified in all three codes, full range: what is written where a picture states no colour at all.
    #[must_use]
    pub const fn unspecified() -> Self {
        Cicp {
            primaries: Primaries::Unspecified,
            transfer: TransferFunction::Unspecified,
            matrix: MatrixCoefficients::Unspecified,
            full_range: true,
        }
    }

    /// BT.709 in all three codes, full range.
    #[must_use]
    pub const fn bt709() -> Self {
        Cicp {
            primaries: Primaries::Bt709,
            transfer: TransferFunction::Bt709,
            matrix: MatrixCoefficients::Bt709,
            full_range: true,
        }
    }

    /// sRGB: BT.709 with sRGB's transfer, full range.
    #[must_use]
    pub const fn srgb() -> Self {
        Cicp { transfer: TransferFunction::Srgb, ..Cicp::bt709() }
    }

    /// Display P3: the primaries of SMPTE EG 432-1 with sRGB's transfer, full range. The matrix is BT.709's, as in
    /// [`Cicp::srgb`]; where the encoder made the components by another one, set `matrix` to that.
    #[must_use]
    pub const fn display_p3() -> Self {
        Cicp { primaries: Primaries::Smpte432, ..Cicp::srgb() }
    }

    /// BT.2020 with perceptual quantisation, full range.
    #[must_use]
    pub const fn bt2020_pq() -> Self {
        Cicp {
            primaries: Primaries::Bt2020,
            transfer: TransferFunction::Smpte2084,
            matrix: MatrixCoefficients::Bt2020Ncl,
            full_range: true,
        }
    }
}

impl Default for Cicp {
    fn default() -> Self {
        Cicp::unspecified()
    }
}

/// How a picture states its colour: by code points, by an ICC profile, by both or by neither.
///
/// Where a picture states neither, a `colr` of type `nclx` is written all the same, with 2, 2, 2 (unspecified) and full
/// range: [`Cicp::unspecified`]. A panel that states just that has the same file.
#[derive(Clone, Copy, Debug, PartialEq, Eq, Hash, Default)]
pub struct ColorMetadata<'a> {
    /// The code points, written as `nclx`.
    pub cicp: Option<Cicp>,
    /// The ICC profile, written as `prof`. It may be empty.
    pub icc: Option<&'a [u8]>,
}

impl<'a> ColorMetadata<'a> {
    /// By code points alone.
    #[must_use]
    pub const fn cicp(cicp: Cicp) -> Self {
        ColorMetadata { cicp: Some(cicp), icc: None }
    }

    /// By an ICC profile alone.
    #[must_use]
    pub const fn icc(profile: &'a [u8]) -> Self {
        ColorMetadata { cicp: None, icc: Some(profile) }
    }

    /// By code points and an ICC profile.
    #[must_use]
    pub const fn cicp_and_icc(cicp: Cicp, profile: &'a [u8]) -> Self {
        ColorMetadata { cicp: Some(cicp), icc: Some(profile) }
    }
}
