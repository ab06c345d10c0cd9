//! The archive's own interface, as bindings/c/kahopiru.h describes it. Only tests that hand over codes that no enum
//! has, or bytes beside an absent part, need it; everybody else takes the crate's own types.
#![allow(missing_docs)]

#[repr(C)]
#[derive(Clone, Copy, Debug, PartialEq, Eq, Default)]
pub struct Cicp {
    pub primaries: u16,
    pub transfer: u16,
    pub matrix: u16,
    pub full_range: u8,
}

#[repr(C)]
#[derive(Clone, Copy, Debug, PartialEq, Eq, Default)]
pub struct Color {
    pub has_cicp: u8,
    pub has_icc: u8,
    pub cicp: Cicp,
}

#[repr(C)]
#[derive(Clone, Copy, Debug, PartialEq, Eq, Default)]
pub struct Gain {
    pub width: u32,
    pub height: u32,
    pub bit_depth: u8,
    pub has_tmap: u8,
    pub has_alternate: u8,
    pub cicp: Cicp,
    pub alternate: Color,
}

#[repr(C)]
#[derive(Clone, Copy, Debug, PartialEq, Eq, Default)]
pub struct Panel {
    pub cols: u32,
    pub rows: u32,
    pub tile_w: u32,
    pub tile_h: u32,
    pub full_w: u32,
    pub full_h: u32,
    pub bit_depth: u8,
    pub alpha_bit_depth: u8,
    pub orientation: u8,
    pub has_light: u8,
    pub has_exif: u8,
    pub has_gain: u8,
    pub max_content_light_level: u16,
    pub max_pic_average_light_level: u16,
    pub color: Color,
    pub gain: Gain,
    pub has_visible: u8,
    pub visible_w: u32,
    pub visible_h: u32,
}

#[repr(C)]
#[derive(Clone, Copy, Debug, PartialEq, Eq, Default)]
pub struct Answer {
    pub refusal: u32,
    pub length: u64,
}

#[repr(C)]
#[derive(Clone, Copy, Debug, PartialEq, Eq, Default)]
pub struct TilePlace {
    pub refusal: u32,
    pub alpha: u32,
    pub start: u64,
    pub length: u64,
}

// The sizes that bindings/c/example.c asserts of the header's structs.
const _: () = assert!(size_of::<Cicp>() == 8 && size_of::<Color>() == 10 && size_of::<Gain>() == 32);
const _: () = assert!(size_of::<Panel>() == 88 && size_of::<Answer>() == 16 && size_of::<TilePlace>() == 24);

/// The byte parts, each lent whether or not it belongs to the panel.
#[derive(Clone, Copy, Debug, PartialEq, Eq, Default)]
pub struct Lent<'a> {
    pub color_hvcc: &'a [u8],
    pub alpha_hvcc: &'a [u8],
    pub color_lengths: &'a [u32],
    pub alpha_lengths: &'a [u32],
    pub color_samples: &'a [u8],
    pub alpha_samples: &'a [u8],
    pub icc: &'a [u8],
    pub exif: &'a [u8],
    pub gain_hvcc: &'a [u8],
    pub gain_sample: &'a [u8],
    pub gain_xmp: &'a [u8],
    pub gain_tmap: &'a [u8],
    pub alternate_icc: &'a [u8],
}

/// Declares calls of the archive that take a panel and its thirteen parts. These come where the semicolon stands.
macro_rules! calls_over_parts {
    ($(pub fn $call:ident($($before:ident: $b:ty),*; $($after:ident: $a:ty),*) -> Answer;)*) => {
        unsafe extern "C" {
            $(pub fn $call(
                $($before: $b,)*
                color_hvcc: *const u8,
                color_hvcc_len: usize,
                alpha_hvcc: *const u8,
                alpha_hvcc_len: usize,
                color_lengths: *const u32,
                color_lengths_len: usize,
                alpha_lengths: *const u32,
                alpha_lengths_len: usize,
                color_samples: *const u8,
                color_samples_len: usize,
                alpha_samples: *const u8,
                alpha_samples_len: usize,
                icc: *const u8,
                icc_len: usize,
                exif: *const u8,
                exif_len: usize,
                gain_hvcc: *const u8,
                gain_hvcc_len: usize,
                gain_sample: *const u8,
                gain_sample_len: usize,
                gain_xmp: *const u8,
                gain_xmp_len: usize,
                gain_tmap: *const u8,
                gain_tmap_len: usize,
                alternate_icc: *const u8,
                alternate_icc_len: usize,
                $($after: $a),*
            ) -> Answer;)*
        }
    };
}

calls_over_parts! {
    pub fn kahopiru_file_length(panel: Panel;) -> Answer;
    pub fn kahopiru_write(panel: Panel; out: *mut u8, out_len: usize) -> Answer;
    pub fn kahopiru_form_length(form: u8, panel: Panel;) -> Answer;
    pub fn kahopiru_form_write(form: u8, panel: Panel; out: *mut u8, out_len: usize) -> Answer;
}

unsafe extern "C" {
    pub fn kahopiru_tile(
        id: u16,
        color_lengths: *const u32,
        color_lengths_len: usize,
        alpha_lengths: *const u32,
        alpha_lengths_len: usize,
        color_samples: *const u8,
        color_samples_len: usize,
        alpha_samples: *const u8,
        alpha_samples_len: usize,
    ) -> TilePlace;

    pub fn kahopiru_sheet(sheet: *const u8, sheet_len: usize, out: *mut u8, out_len: usize) -> Answer;
}

/// Makes such a call. Each part that is lent goes as a pointer and a length, where the semicolon stands.
macro_rules! lend {
    ($lent:ident to $call:ident($($before:expr),*; $($after:expr),*)) => {
        $call(
            $($before,)*
            $lent.color_hvcc.as_ptr(),
            $lent.color_hvcc.len(),
            $lent.alpha_hvcc.as_ptr(),
            $lent.alpha_hvcc.len(),
            $lent.color_lengths.as_ptr(),
            $lent.color_lengths.len(),
            $lent.alpha_lengths.as_ptr(),
            $lent.alpha_lengths.len(),
            $lent.color_samples.as_ptr(),
            $lent.color_samples.len(),
            $lent.alpha_samples.as_ptr(),
            $lent.alpha_samples.len(),
            $lent.icc.as_ptr(),
            $lent.icc.len(),
            $lent.exif.as_ptr(),
            $lent.exif.len(),
            $lent.gain_hvcc.as_ptr(),
            $lent.gain_hvcc.len(),
            $lent.gain_sample.as_ptr(),
            $lent.gain_sample.len(),
            $lent.gain_xmp.as_ptr(),
            $lent.gain_xmp.len(),
            $lent.gain_tmap.as_ptr(),
            $lent.gain_tmap.len(),
            $lent.alternate_icc.as_ptr(),
            $lent.alternate_icc.len(),
            $($after),*
        )
    };
}

/// The length call, with any numbers and any bytes.
pub fn file_length(panel: Panel, lent: &Lent<'_>) -> Answer {
    // SAFETY: each pointer and length come from one slice that outlives the call. The archive only reads through them,
    // within their lengths, and takes any numbers: its calls are proved with no condition on their arguments.
    unsafe { lend!(lent to kahopiru_file_length(panel;)) }
}

/// The writing call, with any numbers and any bytes.
pub fn write(panel: Panel, lent: &Lent<'_>, out: &mut [u8]) -> Answer {
    // SAFETY: as for `file_length`. `out` is borrowed mutably, so that it overlaps none of the slices lent, and the
    // archive stores within its length and nowhere else.
    unsafe { lend!(lent to kahopiru_write(panel; out.as_mut_ptr(), out.len())) }
}

/// The length call of a form, with any code of a form, any numbers and any bytes.
pub fn form_length(form: u8, panel: Panel, lent: &Lent<'_>) -> Answer {
    // SAFETY: as for `file_length`.
    unsafe { lend!(lent to kahopiru_form_length(form, panel;)) }
}

/// The writing call of a form, with any code of a form, any numbers and any bytes.
pub fn form_write(form: u8, panel: Panel, lent: &Lent<'_>, out: &mut [u8]) -> Answer {
    // SAFETY: as for `write`.
    unsafe { lend!(lent to kahopiru_form_write(form, panel; out.as_mut_ptr(), out.len())) }
}

/// The tile lookup, with any id, any lists and any bytes.
pub fn tile(
    id: u16,
    color_lengths: &[u32],
    alpha_lengths: &[u32],
    color_samples: &[u8],
    alpha_samples: &[u8],
) -> TilePlace {
    // SAFETY: as for `file_length`.
    unsafe {
        kahopiru_tile(
            id,
            color_lengths.as_ptr(),
            color_lengths.len(),
            alpha_lengths.as_ptr(),
            alpha_lengths.len(),
            color_samples.as_ptr(),
            color_samples.len(),
            alpha_samples.as_ptr(),
            alpha_samples.len(),
        )
    }
}

/// The sheet call, with any bytes.
pub fn sheet(sheet: &[u8], out: &mut [u8]) -> Answer {
    // SAFETY: as for `write`.
    unsafe { kahopiru_sheet(sheet.as_ptr(), sheet.len(), out.as_mut_ptr(), out.len()) }
}
