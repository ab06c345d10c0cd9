//! Why a panel is refused.

use crate::unknown_code::{Numbers, UnknownCode};
use std::fmt;

/// The refusals, a row for each: its number, its name and what it says.
macro_rules! refusals {
    ($($number:literal $name:ident $text:literal)*) => {
        /// Why a call refuses: the first check that holds is answered.
        ///
        /// A panel is checked in the order 1, 22, 8, 2, 3, 4, 5, 6; only a call that is lent room answers 6. A tile
        /// lookup answers 2, 3, 4 or 7, in this order, and a sheet is read first, and refused with 15 or with the first
        /// of 11 to 14 that the reading meets. In C a panel, or the form of its file, can be refused with 13; the types
        /// of this crate have no code that stands for nothing.
        #[derive(Clone, Copy, Debug, PartialEq, Eq, PartialOrd, Ord, Hash)]
        #[non_exhaustive]
        pub enum Refusal {
            $(#[doc = concat!($number, ": ", $text, ".")] $name,)*
        }

        impl Refusal {
            /// Every refusal, by rising number.
            pub const ALL: [Refusal; 14] = [$(Refusal::$name),*];

            /// The refusal's number, as the archive, the C header and the sheet program have it.
            #[must_use]
            pub const fn number(self) -> u32 {
                match self {
                    $(Refusal::$name => $number,)*
                }
            }
        }

        /// The refusal in the words of this page.
        impl fmt::Display for Refusal {
            fn fmt(&self, f: &mut fmt::Formatter<'_>) -> fmt::Result {
                f.write_str(match self {
                    $(Refusal::$name => $text,)*
                })
            }
        }
    };
}

refusals! {
    1 GridSide "there are no rows or no columns, or more than 256"
    2 TileCount "there is not exactly one sample length for each tile, in the colour list or in the alpha list"
    3 SampleLengths "the lengths do not add up to the sample bytes that were handed over"
    4 ItemIds
        "there are too many tiles: the last item id or, in the wide form, the count in a picture would be above 65,535"
    5 FileLength "the file would be longer than 4,294,967,295 bytes"
    6 OutputLength "the room for the file is too short"
    7 NoTile "the item id names no tile"
    8 Cover "a size of a tile or of the whole picture is 0, or what the tiles show does not cover the whole picture"
    11 SheetEnds "the sheet ends before its fields do"
    12 SheetMap
        "the sheet's map asks for something that there is not, or for a part without the part that it belongs to"
    13 SheetCode "a form of the file, a depth, an orientation, a colour code, or a yes or no is none that exists"
    14 SheetBytesLeft "bytes are left over behind the sheet's last field"
    15 SheetLength "the sheet has more than 12,288 bytes"
    22 VisibleSize
        "a tile's visible size is 0 or above its decoded size, or its decoded size is above 2,147,483,647"
}

impl std::error::Error for Refusal {}

/// By number, as the sheet program prints it behind `refused` and the C interface answers it.
///
/// ```
/// use kahopiru::Refusal;
///
/// # fn main() -> Result<(), kahopiru::UnknownCode> {
/// assert_eq!(Refusal::try_from(6)?, Refusal::OutputLength);
/// assert!(Refusal::try_from(9).is_err());
/// # Ok(())
/// # }
/// ```
impl TryFrom<u32> for Refusal {
    type Error = UnknownCode;

    fn try_from(number: u32) -> Result<Self, UnknownCode> {
        Numbers { name: "a refusal's number", all: "1 to 8, 11 to 15 or 22" }.find(&Self::ALL, Self::number, number)
    }
}

/// An answer of the archive as a result: the number of its refusal, and what it says where that is 0.
///
/// # Panics
///
/// If the archive refuses with a number that this crate does not know: then the archive linked is not the one that this
/// crate is made for.
pub(crate) fn result<T>(refusal: u32, accepted: T) -> Result<T, Refusal> {
    if refusal == 0 {
        return Ok(accepted);
    }
    match Refusal::try_from(refusal) {
        Ok(known) => Err(known),
        Err(unknown) => panic!("libkahopiru.a refused with {}, which this crate does not know", unknown.given()),
    }
}
