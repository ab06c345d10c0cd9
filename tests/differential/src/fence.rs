//! Parts that end at, or begin at, a page that cannot be touched: a read or a store one byte outside of what is lent
//! stops the program.

use crate::calls::{Calls, WIDE};
use crate::memory::{Fenced, Side};
use crate::panels::Case;
use crate::random::{self, Rng};
use crate::run::Run;
use crate::{predict, raw, reference};
use kahopiru::sys;

fn list(lengths: &[u32], side: Side) -> Fenced {
    Fenced::new(&lengths.iter().flat_map(|l| l.to_ne_bytes()).collect::<Vec<u8>>(), side)
}

/// Both calls on a panel all of whose parts are fenced, into an output that is fenced too; in either form.
fn fenced(case: &Case, side: Side, rng: &mut Rng) -> Result<(), String> {
    let file = reference::file(case)?;
    let numbers = raw::numbers(case, rng);
    let lent = raw::lent(case, &[0xD7]);
    let part = |bytes: &[u8]| Fenced::new(bytes, side);
    let (color_lengths, alpha_lengths) = (list(lent.color_lengths, side), list(lent.alpha_lengths, side));
    let records = [part(lent.color_hvcc), part(lent.alpha_hvcc), part(lent.gain_hvcc)];
    let samples = [part(lent.color_samples), part(lent.alpha_samples), part(lent.gain_sample)];
    let rest = [part(lent.icc), part(lent.exif), part(lent.gain_xmp), part(lent.gain_tmap), part(lent.alternate_icc)];
    let lent = sys::Lent {
        color_hvcc: records[0].slice(),
        alpha_hvcc: records[1].slice(),
        color_lengths: color_lengths.lengths(),
        alpha_lengths: alpha_lengths.lengths(),
        color_samples: samples[0].slice(),
        alpha_samples: samples[1].slice(),
        icc: rest[0].slice(),
        exif: rest[1].slice(),
        gain_hvcc: records[2].slice(),
        gain_sample: samples[2].slice(),
        gain_xmp: rest[2].slice(),
        gain_tmap: rest[3].slice(),
        alternate_icc: rest[4].slice(),
    };
    let wide = reference::wide_file(case, Some(&file))?;
    for (calls, file) in [(Calls::Plain, file), (WIDE, wide)] {
        let good = Ok(file.len() as u64);
        let mut out = part(&vec![0x5A; file.len()]);
        if calls.raw_length(numbers, &lent) != good || calls.raw_write(numbers, &lent, out.bytes()) != good {
            return Err(format!("another answer{calls} than without fences"));
        }
        crate::compare::same_file(&file, out.slice())?;
    }
    Ok(())
}

/// Draws panels and fences each on either side. Answers how many were accepted and so run.
pub fn run(run: &mut Run, seed: u64) -> u64 {
    let mut rng = Rng::new(seed ^ 0xFE);
    let mut count = 0;
    for _ in 0..1000 {
        let case = random::panel(&mut rng);
        if predict::answer(&case.panel(), None).is_err() {
            continue;
        }
        count += 1;
        for side in [Side::Before, Side::Behind] {
            if let Err(why) = fenced(&case, side, &mut rng) {
                run.fail("fenced", &why, &case);
            }
        }
    }
    count
}
