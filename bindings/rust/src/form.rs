//! The forms that a file can have.

use crate::unknown_code::{Numbers, UnknownCode};

/// The form of a file, for the calls that take one. A form decides how wide some numbers of a file are; what the file
/// says of a panel is the same in each.
///
/// Files of different forms have different lengths, and a panel that one form refuses can be accepted in another:
/// [`form_length`](crate::form_length) answers for each.
#[derive(Clone, Copy, Debug, PartialEq, Eq, Hash, Default)]
#[non_exhaustive]
pub enum FileForm {
    /// The form in which everything is written that takes no form. An item's id takes 16 bits, so that a picture has at
    /// most 32,766 tiles, as 254 × 129; with a gain map no grid has more than 32,763, as 201 × 163.
    #[default]
    Ordinary = 0,
    /// The form for more tiles than that, such as those of a web press camera: for every grid but 256 × 256.
    ///
    /// An item's id takes 32 bits in `pitm`, `iloc`, `infe`, `iref` and `ipma`, and so do the counts of items in `iloc`
    /// and `iinf`; ISO/IEC 14496-12 has versions of these boxes for that, and 23008-12 one of `ipma`. All else is the
    /// same bytes, but for the sizes and offsets that follow. With n tiles in each picture the file has 16 × n + 26
    /// bytes more, and 8 for Exif, 18 for a gain map and 12 for a tone map.
    ///
    /// Readers that know ids of 16 bits alone do not read such a file; the repository's docs/DIFFERENCES.md says which
    /// do. Where the ordinary form accepts a panel, more readers show its file in that.
    Wide = 3,
}

impl FileForm {
    /// Every form, by rising code.
    pub const ALL: [FileForm; 2] = [FileForm::Ordinary, FileForm::Wide];

    /// The code of this form in the C interface: 0 or 3.
    #[must_use]
    pub const fn code(self) -> u8 {
        self as u8
    }

    /// The form with this code in the C interface.
    ///
    /// # Errors
    ///
    /// If there is none: there are 0 and 3.
    ///
    /// ```
    /// use kahopiru::FileForm;
    ///
    /// assert_eq!(FileForm::from_code(3), Ok(FileForm::Wide));
    /// assert!(FileForm::from_code(1).is_err());
    /// ```
    pub fn from_code(code: u8) -> Result<Self, UnknownCode> {
        Numbers { name: "a form's code", all: "0 or 3" }.find(&Self::ALL, Self::code, code)
    }
}
