//! The wide form of a file, made from its ordinary form box by box. What ISO/IEC 14496-12 and 23008-12 give for the
//! versions of each box stands here, and nothing of panels: which items there are is read. Whatever is read is held
//! first to what it must be.

use crate::boxes::{find, must, number, offsets, put_size, raise};

/// How long an iloc of version 2 is before its first entry, and how long an entry of one extent is.
const WIDE_ILOC_HEAD: usize = 18;
const WIDE_LOCATION: usize = 18;

/// The wide form of an ordinary file: ids, and the counts of iloc and iinf, take 4 bytes where they took 2, and sizes
/// and offsets are those that follow.
pub fn widen(file: &[u8]) -> Result<Vec<u8>, String> {
    let meta = find(file, &[b"meta"])?;
    offsets(file, &find(file, &[b"meta", b"iloc"])?)?;
    // Nothing in meta becomes more than twice as long.
    let wide = Vec::with_capacity(file.len() + meta.len());
    let mut all = Widening { what: "the file", left: file, wide };
    all.each_box()?;
    let mut wide = all.wide;
    let more = wide.len() - file.len();
    raise_offsets(&mut wide, more)?;
    Ok(wide)
}

/// Raises the offsets that are counted from the file's first byte, which all are behind meta.
fn raise_offsets(wide: &mut [u8], by: usize) -> Result<(), String> {
    let iloc = find(wide, &[b"meta", b"iloc"])?;
    for entry in (iloc.start + WIDE_ILOC_HEAD..iloc.end).step_by(WIDE_LOCATION) {
        if number(wide, entry + 4, 2) == 0 {
            let at = entry + 10;
            raise(wide, at, number(wide, at, 4), by)?;
        }
    }
    Ok(())
}

/// A box that is read from its front on, while its wide form is put behind others.
struct Widening<'a> {
    what: &'static str,
    left: &'a [u8],
    wide: Vec<u8>,
}

// ---- the boxes, behind size and type

impl Widening<'_> {
    /// All boxes that are left. One that holds no id stays what it is.
    fn each_box(&mut self) -> Result<(), String> {
        while !self.left.is_empty() {
            match self.left.get(4..8) {
                Some(b"meta") => self.inner("meta", |meta| {
                    meta.same(&[0; 4])?;
                    meta.each_box()
                }),
                Some(b"iprp") => self.inner("iprp", Widening::each_box),
                Some(b"pitm") => self.inner("pitm", Widening::pitm),
                Some(b"iloc") => self.inner("iloc", Widening::iloc),
                Some(b"iinf") => self.inner("iinf", Widening::iinf),
                Some(b"iref") => self.inner("iref", Widening::iref),
                Some(b"ipma") => self.inner("ipma", Widening::ipma),
                _ => self.inner("a box", |other| {
                    other.rest();
                    Ok(())
                }),
            }?;
        }
        Ok(())
    }

    /// 14496-12, 8.11.4: an id, of 16 bits in version 0, of 32 in version 1.
    fn pitm(&mut self) -> Result<(), String> {
        self.version(0, 1)?;
        self.same(&[0; 3])?;
        self.widen()?;
        Ok(())
    }

    /// 14496-12, 8.11.3: in version 1 the count of entries and an entry's id have 16 bits, in version 2 they have 32.
    /// Both have construction methods. The sizes say that offsets and lengths have 4 bytes, base offsets and indices
    /// none.
    fn iloc(&mut self) -> Result<(), String> {
        self.version(1, 2)?;
        self.same(&[0; 3])?;
        self.same(&[0x44, 0x00])?;
        for _ in 0..self.widen()? {
            self.widen()?;
            let method = self.copy(2)?;
            must(method <= 1, || format!("iloc has construction method {method}"))?;
            self.same(&[0, 0])?; // data reference: this file
            self.same(&[0, 1])?; // one extent
            self.copy(8)?;
        }
        Ok(())
    }

    /// 14496-12, 8.11.6: the count of entries has 16 bits in version 0, 32 in version 1.
    fn iinf(&mut self) -> Result<(), String> {
        self.version(0, 1)?;
        self.same(&[0; 3])?;
        for _ in 0..self.widen()? {
            self.inner("infe", Widening::infe)?;
        }
        Ok(())
    }

    /// 14496-12, 8.11.6: an entry's id has 16 bits in version 2, 32 in version 3. All else is the same, flags too.
    fn infe(&mut self) -> Result<(), String> {
        self.version(2, 3)?;
        self.copy(3)?;
        self.widen()?;
        self.rest();
        Ok(())
    }

    /// 14496-12, 8.11.12: a reference's ids have 16 bits in version 0, 32 in version 1. The count of those that it
    /// leads to has 16 in both.
    fn iref(&mut self) -> Result<(), String> {
        self.version(0, 1)?;
        self.same(&[0; 3])?;
        while !self.left.is_empty() {
            self.inner("a reference", |reference| {
                reference.widen()?;
                for _ in 0..reference.copy(2)? {
                    reference.widen()?;
                }
                Ok(())
            })?;
        }
        Ok(())
    }

    /// 23008-12, 9.3.1: an entry's id has 16 bits in version 0, 32 in version 1. The count of entries has 32 in both,
    /// the count of an entry's associations 8, and so has an association where no flag says otherwise.
    fn ipma(&mut self) -> Result<(), String> {
        self.version(0, 1)?;
        self.same(&[0; 3])?;
        for _ in 0..self.copy(4)? {
            self.widen()?;
            for _ in 0..self.copy(1)? {
                self.copy(1)?;
            }
        }
        Ok(())
    }
}

// ---- what boxes are made of

impl<'a> Widening<'a> {
    /// Goes through the box at hand, all of which must be read, and puts the size that its wide form has.
    fn inner(
        &mut self,
        what: &'static str,
        go: impl FnOnce(&mut Widening<'a>) -> Result<(), String>,
    ) -> Result<(), String> {
        let size = if self.left.len() < 8 { 0 } else { number(self.left, 0, 4) };
        must(size >= 8, || format!("{} has no box where {what} must be", self.what))?;
        let (begins, outer) = (self.wide.len(), self.what);
        let (bytes, behind) = (self.take(size)?, self.left);
        (self.what, self.left) = (what, bytes);
        self.copy(8)?;
        go(self)?;
        must(self.left.is_empty(), || format!("{what} goes on"))?;
        put_size(&mut self.wide, begins);
        (self.what, self.left) = (outer, behind);
        Ok(())
    }

    /// Takes the next bytes.
    fn take(&mut self, count: usize) -> Result<&'a [u8], String> {
        must(count <= self.left.len(), || format!("{} ends too soon", self.what))?;
        let (taken, left) = self.left.split_at(count);
        self.left = left;
        Ok(taken)
    }

    /// Copies a number of so many bytes, and answers it.
    fn copy(&mut self, count: usize) -> Result<usize, String> {
        let bytes = self.take(count)?;
        self.wide.extend_from_slice(bytes);
        Ok(number(bytes, 0, count))
    }

    /// Copies bytes that must be these.
    fn same(&mut self, expected: &[u8]) -> Result<(), String> {
        let bytes = self.take(expected.len())?;
        self.wide.extend_from_slice(bytes);
        must(bytes == expected, || format!("{} has {bytes:02X?}, not {expected:02X?}", self.what))
    }

    /// Reads a version, which must be this one, and puts another.
    fn version(&mut self, from: u8, to: u8) -> Result<(), String> {
        let version = self.take(1)?[0];
        self.wide.push(to);
        must(version == from, || format!("{} has version {version}, not {from}", self.what))
    }

    /// Reads a number of 2 bytes, puts it in 4, and answers it.
    fn widen(&mut self) -> Result<usize, String> {
        self.wide.extend([0, 0]);
        self.copy(2)
    }

    /// Copies all that is left.
    fn rest(&mut self) {
        self.wide.extend_from_slice(self.left);
        self.left = &[];
    }
}
