//! The tile lookup, held to a computation of its own: every id from 0 to 2n + 4 over random lists, the refusals in their
//! order, and for accepted panels what the entry of that id says in the file that they must have.

use crate::panels::Case;
use crate::random::{self, Rng};
use crate::reference;
use crate::run::Run;
use kahopiru::{sys, tile, Refusal, Samples};

/// How many random lists are drawn.
const LISTS: u64 = 1_000;
/// How many of them are also looked up in the file.
const FILES: u64 = 200;
/// The most tiles that have ids: 2n + 2 is at most 65,535.
pub const MOST_TILES: usize = 32_766;

/// The checks of the lookup that hold for an id, in the order in which they are made: the first is answered.
pub fn holding(id: u16, color: Samples<'_>, alpha: Samples<'_>) -> Vec<u32> {
    let n = color.lengths.len();
    let sums = |s: Samples<'_>| s.lengths.iter().map(|&l| u64::from(l)).sum::<u64>() == s.bytes.len() as u64;
    let id = usize::from(id);
    let checks = [
        (2, n != alpha.lengths.len() || n == 0),
        (3, !sums(color) || !sums(alpha)),
        (4, n > MOST_TILES),
        (7, !(1..=n).contains(&id) && !(n + 2..=2 * n + 1).contains(&id)),
    ];
    checks.into_iter().filter(|&(_, holds)| holds).map(|(number, _)| number).collect()
}

/// What the lookup must give for an id: the bytes, or the number of the refusal.
pub fn expected<'a>(id: u16, color: Samples<'a>, alpha: Samples<'a>) -> Result<&'a [u8], u32> {
    if let Some(&number) = holding(id, color, alpha).first() {
        return Err(number);
    }
    for (first, samples) in [(1, color), (color.lengths.len() + 2, alpha)] {
        let mut rest = samples.bytes;
        for (k, &length) in samples.lengths.iter().enumerate() {
            let (own, behind) = rest.split_at(length as usize);
            if first + k == usize::from(id) {
                return Ok(own);
            }
            rest = behind;
        }
    }
    unreachable!("an id that is not refused names a tile")
}

/// Whether a slice is that very part, and not only equal bytes.
fn same_part(a: &[u8], b: &[u8]) -> bool {
    a == b && (a.is_empty() || a.as_ptr() == b.as_ptr())
}

fn one(id: u16, color: Samples<'_>, alpha: Samples<'_>) -> Result<(), String> {
    let wanted = expected(id, color, alpha);
    match (wanted, tile(id, color, alpha).map_err(Refusal::number)) {
        (Ok(a), Ok(b)) if same_part(a, b) => {}
        (Err(a), Err(b)) if a == b => {}
        (wanted, found) => return Err(format!("id {id}: {found:?}, not {wanted:?}")),
    }
    let place = sys::tile(id, color.lengths, alpha.lengths, color.bytes, alpha.bytes);
    match wanted {
        Ok(_) if place.refusal == 0 && place.alpha <= 1 => Ok(()),
        Err(n) if place == (sys::TilePlace { refusal: n, ..Default::default() }) => Ok(()),
        _ => Err(format!("id {id}: the archive answers {place:?}")),
    }
}

/// The offset and the length that a file's iloc gives for an id. The first `iloc` is the box: what precedes it is fixed.
pub fn located(file: &[u8], id: u16) -> Option<(usize, usize)> {
    let at = file.windows(4).position(|w| w == b"iloc")? + 4;
    let number = |from: usize, count: usize| file[from..from + count].iter().fold(0, |n, &b| n << 8 | usize::from(b));
    (0..number(at + 6, 2)).map(|k| at + 8 + 16 * k).find(|&e| number(e, 2) == usize::from(id)).map(|e| {
        assert_eq!(number(e + 2, 2), 0, "a tile lies in the file");
        (number(e + 8, 4), number(e + 12, 4))
    })
}

/// What the entries of the file say of each tile.
fn in_file(case: &Case) -> Result<(), String> {
    let panel = case.panel();
    let file = reference::file(case)?;
    let n = case.color_lengths.len() as u16;
    for id in (1..=n).chain(n + 2..=2 * n + 1) {
        let own = tile(id, panel.color_samples, panel.alpha_samples).map_err(|r| r.to_string())?;
        let (offset, length) = located(&file, id).ok_or(format!("the file has no item {id}"))?;
        if file[offset..offset + length] != *own {
            return Err(format!("id {id} is not what the file's entry says"));
        }
    }
    Ok(())
}

/// Lists with so many tiles, all empty.
fn many(run: &mut Run, n: usize, ids: &[u16]) -> u64 {
    let lengths = vec![0; n];
    let samples = Samples { lengths: &lengths, bytes: &[] };
    for &id in ids {
        if let Err(why) = one(id, samples, samples) {
            run.fail("tile lookup", &why, &n);
        }
    }
    ids.len() as u64
}

/// Answers how many lookups were compared.
pub fn run(run: &mut Run, seed: u64) -> u64 {
    let mut rng = Rng::new(seed ^ 0x7117);
    let mut lookups = 0;
    for number in 0..LISTS {
        let case = random::panel(&mut rng);
        let (color, alpha) = (case.panel().color_samples, case.panel().alpha_samples);
        let last = 2 * color.lengths.len() + 4;
        for id in 0..=last.min(usize::from(u16::MAX)) as u16 {
            lookups += 1;
            if let Err(why) = one(id, color, alpha) {
                run.fail("tile lookup", &why, &case);
            }
        }
        if number < FILES && kahopiru::file_length(&case.panel()).is_ok() {
            if let Err(why) = in_file(&case) {
                run.fail("tile lookup in the file", &why, &case);
            }
        }
    }
    let ends = [0, 1, 32_765, 32_766, 32_767, 32_768, 32_769, 65_532, 65_533, 65_534, 65_535];
    lookups + [0, MOST_TILES, MOST_TILES + 1, 65_280, 65_536].into_iter().map(|n| many(run, n, &ends)).sum::<u64>()
}
