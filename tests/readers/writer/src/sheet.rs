//! Reads a panel sheet, and writes the panel's file.

use kahopiru::{to_vec_in_form, BitDepth, Cicp, ColorMetadata, ContentLightLevel, EncodedGainMap, FileForm, GridDims};
use kahopiru::{MatrixCoefficients, Metadata, Orientation, Panel, Primaries, Samples, TransferFunction, VisibleSize};

/// Why a sheet is not a panel's: the sheet's own refusals, in words.
const CUT_SHORT: &str = "the sheet ends before its fields do";
const NO_SUCH_CODE: &str = "a code names nothing";
const LEFT_OVER: &str = "bytes are left over";
const MAP: &str = "the map has a bit that means nothing there";

type Answer<T> = Result<T, &'static str>;

/// The part of a sheet that has not been read yet.
struct Rest<'a>(&'a [u8]);

impl<'a> Rest<'a> {
    fn take(&mut self, count: usize) -> Answer<&'a [u8]> {
        let (front, rest) = self.0.split_at_checked(count).ok_or(CUT_SHORT)?;
        self.0 = rest;
        Ok(front)
    }

    fn number(&mut self, width: usize) -> Answer<u32> {
        Ok(self.take(width)?.iter().fold(0, |n, &byte| n << 8 | u32::from(byte)))
    }

    fn u32(&mut self) -> Answer<u32> {
        self.number(4)
    }

    fn u16(&mut self) -> Answer<u16> {
        Ok(self.number(2)? as u16)
    }

    fn string(&mut self) -> Answer<&'a [u8]> {
        let count = self.u32()?;
        self.take(count as usize)
    }

    fn lengths(&mut self, count: u32) -> Answer<Vec<u32>> {
        (0..count).map(|_| self.u32()).collect()
    }

    /// The value that a one-byte code stands for.
    fn of<T: Copy>(&mut self, all: &[T]) -> Answer<T> {
        let code = self.number(1)?;
        all.get(code as usize).copied().ok_or(NO_SUCH_CODE)
    }

    fn cicp(&mut self) -> Answer<Cicp> {
        let (primaries, transfer, matrix) = (self.u16()?, self.u16()?, self.u16()?);
        Ok(Cicp {
            primaries: Primaries::ALL.into_iter().find(|p| p.code() == primaries).ok_or(NO_SUCH_CODE)?,
            transfer: TransferFunction::ALL.into_iter().find(|t| t.code() == transfer).ok_or(NO_SUCH_CODE)?,
            matrix: MatrixCoefficients::ALL.into_iter().find(|m| m.code() == matrix).ok_or(NO_SUCH_CODE)?,
            full_range: self.of(&[false, true])?,
        })
    }
}

/// A field that is there only if its bit stands.
fn if_stands<T>(stands: bool, read: impl FnOnce() -> Answer<T>) -> Answer<Option<T>> {
    stands.then(read).transpose()
}

fn sum(lengths: &[u32]) -> usize {
    lengths.iter().map(|&l| l as usize).sum()
}

/// The file of the sheet's panel in a form, with a visible tile size or without, or why there is none.
pub fn written(sheet: &[u8], form: FileForm, visible: Option<VisibleSize>) -> Result<Vec<u8>, String> {
    let mut rest = Rest(sheet);
    let map = rest.u16()?;
    let has = |bit: u8| map >> bit & 1 == 1;
    if map >> 9 != 0 || (has(6) && !has(5)) || ((has(7) || has(8)) && !has(6)) {
        return Err(MAP.into());
    }
    let (cols, rows) = (rest.u16()?.into(), rest.u16()?.into());
    let [tile_w, tile_h, full_w, full_h] = [rest.u32()?, rest.u32()?, rest.u32()?, rest.u32()?];
    let (bit_depth, alpha_bit_depth) = (rest.of(&BitDepth::ALL)?, Some(rest.of(&BitDepth::ALL)?));
    let (color_hvcc, alpha_hvcc) = (rest.string()?, rest.string()?);
    let (color_lengths, alpha_lengths) = (rest.lengths(cols * rows)?, rest.lengths(cols * rows)?);
    let color_samples = Samples { lengths: &color_lengths, bytes: rest.take(sum(&color_lengths))? };
    let alpha_samples = Samples { lengths: &alpha_lengths, bytes: rest.take(sum(&alpha_lengths))? };
    let panel = Panel {
        dims: GridDims { cols, rows, tile_w, tile_h, full_w, full_h },
        visible,
        bit_depth,
        alpha_bit_depth,
        color_hvcc,
        alpha_hvcc,
        color_samples,
        alpha_samples,
        color_meta: color(&mut rest, has(0), has(1))?,
        metadata: metadata(&mut rest, has)?,
        gain_map: if_stands(has(5), || gain_map(&mut rest, has))?,
    };
    if !rest.0.is_empty() {
        return Err(LEFT_OVER.into());
    }
    to_vec_in_form(form, &panel).map_err(|refusal| format!("refused {}: {refusal}", refusal.number()))
}

fn color<'a>(rest: &mut Rest<'a>, has_cicp: bool, has_icc: bool) -> Answer<ColorMetadata<'a>> {
    let cicp = if_stands(has_cicp, || rest.cicp())?;
    Ok(ColorMetadata { cicp, icc: if_stands(has_icc, || rest.string())? })
}

fn metadata<'a>(rest: &mut Rest<'a>, has: impl Fn(u8) -> bool) -> Answer<Metadata<'a>> {
    let orientation = if_stands(has(2), || rest.of(&Orientation::ALL))?.unwrap_or_default();
    let content_light_level = if_stands(has(3), || {
        Ok(ContentLightLevel { max_content_light_level: rest.u16()?, max_pic_average_light_level: rest.u16()? })
    })?;
    Ok(Metadata { orientation, content_light_level, exif: if_stands(has(4), || rest.string())? })
}

fn gain_map<'a>(rest: &mut Rest<'a>, has: impl Fn(u8) -> bool) -> Answer<EncodedGainMap<'a>> {
    Ok(EncodedGainMap {
        hvcc: rest.string()?,
        sample: rest.string()?,
        width: rest.u32()?,
        height: rest.u32()?,
        bit_depth: rest.of(&BitDepth::ALL)?,
        cicp: rest.cicp()?,
        xmp: rest.string()?,
        tmap: if_stands(has(6), || rest.string())?,
        alternate_color: if_stands(has(7) || has(8), || color(rest, has(7), has(8)))?,
    })
}
