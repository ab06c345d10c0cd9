//! Files around 4,294,967,295 bytes. The length call reads no sample, so that the memory lent need not exist.

use crate::calls::{Calls, WIDE};
use crate::compare::{judge, said, same_answer, Room};
use crate::memory::Zeros;
use crate::panels::{full, p, Case};
use crate::predict::{self, Form};
use crate::run::Run;
use crate::tiles::located;
use crate::widen::widen;
use kahopiru::{Panel, Samples};

const MOST: usize = 4_294_967_295;

/// Puts a part of some length into a panel.
type Put = for<'a> fn(&mut Panel<'a>, &'a [u8]);

/// Every part of which a panel has one.
const PARTS: [(&str, Put); 9] = [
    ("colour record", |p, part| p.color_hvcc = part),
    ("alpha record", |p, part| p.alpha_hvcc = part),
    ("ICC", |p, part| p.color_meta.icc = Some(part)),
    ("Exif", |p, part| p.metadata.exif = Some(part)),
    ("gain record", |p, part| gain(p).hvcc = part),
    ("gain sample", |p, part| gain(p).sample = part),
    ("XMP", |p, part| gain(p).xmp = part),
    ("tone map", |p, part| gain(p).tmap = Some(part)),
    ("alternate ICC", |p, part| gain(p).alternate_color.as_mut().expect("full has one").icc = Some(part)),
];

fn gain<'p, 'a>(p: &'p mut Panel<'a>) -> &'p mut kahopiru::EncodedGainMap<'a> {
    p.gain_map.as_mut().expect("full has one")
}

/// The calls that a panel is given to whose length is about the greatest.
const CALLS: [Calls; 2] = [Calls::Plain, WIDE];

fn check(run: &mut Run, name: &str, panel: &Panel<'_>) {
    let mut room = Room::new();
    for calls in CALLS {
        run.count(panel, calls);
        let size = 64;
        let outcome = same_answer(calls.expected(panel, None), calls.length(panel)).and_then(|()| {
            let answer = calls.write(panel, room.lend(size));
            judge(calls.expected(panel, Some(size)), &[], answer, &room)
        });
        run.calls += 2;
        if let Err(why) = outcome {
            run.fail(&format!("{name}{calls}"), &why, &panel.dims);
        }
    }
}

/// The length call on either side of the longest file, with each part in turn as the one that makes it long.
pub fn lengths(run: &mut Run) {
    let zeros = Zeros::new(1 << 46);
    let zeros = zeros.slice();
    for base in [full(), full().with_visible(63, 1)] {
        for (name, put) in PARTS {
            let mut panel = base.panel();
            put(&mut panel, &[]);
            // The most in either form; between the two the wide form alone refuses.
            let most = CALLS.map(|calls| MOST - calls.expected(&panel, None).expect("the panel is accepted") as usize);
            let around = most.into_iter().flat_map(|most| [most - 1, most, most + 1]);
            for count in around.chain([MOST, MOST + 1, 2 * MOST, zeros.len()]) {
                put(&mut panel, &zeros[..count]);
                check(run, &format!("{name} of {count} bytes"), &panel);
            }
        }
    }
    samples(run, zeros);
    everything(run, zeros);
}

/// Samples that make the file long, alone or together, of colour or of alpha.
fn samples(run: &mut Run, zeros: &[u8]) {
    let most = MOST - 554; // P's file without its two sample bytes
    let most_wide = most - 42;
    for total in [most_wide - 1, most_wide, most_wide + 1, most - 1, most, most + 1] {
        for color in [0, 1, total / 2, total] {
            let (color_length, alpha_length) = ([color as u32], [(total - color) as u32]);
            let base = p();
            let mut panel = base.panel();
            panel.color_samples = Samples { lengths: &color_length, bytes: &zeros[..color] };
            panel.alpha_samples = Samples { lengths: &alpha_length, bytes: &zeros[..total - color] };
            check(run, &format!("samples of {color} and {} bytes", total - color), &panel);
        }
    }
}

/// Everything at its longest: as many tiles as there are ids, each of 4 GiB, and every other part as long as may be.
fn everything(run: &mut Run, zeros: &[u8]) {
    let tiles = 180 * 90; // 16,200 tiles of 4 GiB are just below 2⁴⁶ bytes
    let lengths = vec![u32::MAX; tiles];
    let samples = Samples { lengths: &lengths, bytes: &zeros[..tiles * MOST] };
    let base = full().with_visible(63, 63);
    let mut panel = base.panel();
    (panel.dims.cols, panel.dims.rows) = (180, 90);
    (panel.color_samples, panel.alpha_samples) = (samples, samples);
    check(run, "tiles of 4 GiB", &panel);
    for (_, put) in PARTS {
        put(&mut panel, zeros);
    }
    check(run, "everything at its longest", &panel);
}

/// Writes files of the greatest length, two ordinary ones and a wide one, and compares each with upstream's, the wide
/// one with that widened. Takes 8.1 GiB of memory.
pub fn write(run: &mut Run) {
    one_tile(run);
    many_tiles(run);
    one_wide_tile(run);
}

/// As many bytes, of which one in each MiB and the last are not 0.
fn striped(count: usize) -> Vec<u8> {
    let mut bytes = vec![0; count];
    for at in (0..count).step_by(1 << 20) {
        bytes[at] = (at >> 20) as u8 | 1;
    }
    *bytes.last_mut().expect("there are some") = 0xAA;
    bytes
}

/// P with a colour sample that makes its file as long as one may be, and then longer.
fn one_tile(run: &mut Run) {
    let mut case = p();
    let count = MOST - 555; // P's file without its colour sample
    (case.color_lengths, case.color_samples) = (vec![count as u32], striped(count));
    println!("huge: P with a colour sample of {count} bytes, its last byte AA");
    longest(run, "P", Calls::Plain, &case);
    one_byte_more(run, "P", Calls::Plain, &mut case);
    upstream_goes_on(run, &case, MOST);
    add_a_byte(&mut case);
    upstream_goes_on(run, &case, 0);
}

/// The same in the wide form. One byte more is refused there, and the ordinary form takes it.
fn one_wide_tile(run: &mut Run) {
    let mut case = p();
    let count = MOST - 597; // P's wide file without its colour sample
    (case.color_lengths, case.color_samples) = (vec![count as u32], striped(count));
    println!("huge: P in the wide form with a colour sample of {count} bytes");
    longest(run, "P in the wide form", WIDE, &case);
    one_byte_more(run, "P in the wide form", WIDE, &mut case);
    check(run, "P with the first sample that the wide form refuses", &case.panel());
}

/// Six tiles in each picture with everything optional but Exif, and all that comes last is empty: the last alpha tile,
/// the gain image, its XMP and the tone map lie at the end of the file, at the greatest offset that 32 bits hold.
fn many_tiles(run: &mut Run) {
    let mut case = full().with_empty_grid(3, 2);
    case.exif = None; // its payload has four bytes at least
    let gain = case.gain.as_mut().expect("full has one");
    (gain.sample, gain.xmp, gain.tmap) = (Vec::new(), Vec::new(), Some(Vec::new()));
    let rest = predict::answer(&case.panel(), None).expect("it is short") as usize;
    let mut lengths: Vec<usize> = (0..11).map(|k| (MOST - rest) / 11 - 7 * k).collect();
    lengths[0] += MOST - rest - lengths.iter().sum::<usize>();
    lengths.push(0);
    let lengths: Vec<u32> = lengths.into_iter().map(|n| n as u32).collect();
    let (color, alpha) = lengths.split_at(6);
    let sum = |lengths: &[u32]| lengths.iter().map(|&n| n as usize).sum();
    (case.color_lengths, case.color_samples) = (color.to_vec(), striped(sum(color)));
    (case.alpha_lengths, case.alpha_samples) = (alpha.to_vec(), striped(sum(alpha)));
    println!("huge: 3 × 2 tiles with colour samples of {color:?} bytes and alpha samples of {alpha:?}");
    if let Some(file) = longest(run, "3 × 2 tiles", Calls::Plain, &case) {
        for (what, id) in [("the last alpha tile", 13), ("the gain image", 15), ("its XMP", 16), ("the tone map", 17)] {
            let place = located(&file, id);
            println!("huge: {what} lies at {place:?}, offset and length");
            if place != Some((MOST, 0)) {
                run.fail("3 × 2 tiles", &format!("{what} is not empty and at the end of the file"), &place);
            }
        }
    }
    one_byte_more(run, "3 × 2 tiles", Calls::Plain, &mut case);
}

/// The file of a panel, which has the greatest length, if it is upstream's, or that widened.
fn longest(run: &mut Run, name: &str, calls: Calls, case: &Case) -> Option<Vec<u8>> {
    run.count(&case.panel(), calls);
    // First upstream's, whose copy of the samples is gone then; ordinary, it is gone where it was widened. So there are
    // never three so long.
    let theirs = match (calls.form(), crate::upstream::write(case)) {
        (Form::Ordinary, theirs) => theirs,
        (Form::Wide, theirs) => theirs.and_then(|file| widen(&file)),
    };
    let file = match calls.to_vec(&case.panel()) {
        Ok(file) => file,
        Err(number) => {
            run.fail(name, &format!("is refused with {number}"), &case.dims);
            return None;
        }
    };
    println!("huge: written, {} bytes; the last two are {:02X?}", file.len(), &file[file.len() - 2..]);
    if file.len() != MOST {
        run.fail(name, "is not as long as a file may be", &file.len());
    }
    match theirs {
        Ok(theirs) if theirs == file => {
            println!("huge: upstream's file{calls} is the same, byte for byte");
            Some(file)
        }
        Ok(theirs) => {
            run.fail(name, "is not upstream's", &theirs.len());
            None
        }
        Err(why) => {
            run.fail(name, &format!("upstream: {why}"), &case.dims);
            None
        }
    }
}

fn add_a_byte(case: &mut Case) {
    case.color_lengths[0] += 1;
    case.color_samples.push(0);
}

/// With one byte more the panel of a longest file is refused, and the output is as it was.
fn one_byte_more(run: &mut Run, name: &str, calls: Calls, case: &mut Case) {
    add_a_byte(case);
    run.count(&case.panel(), calls);
    let length = calls.length(&case.panel());
    let mut room = Room::new();
    let answer = calls.write(&case.panel(), room.lend(600));
    println!("huge: one byte more is answered: {}", said(answer));
    let outcome = same_answer(Err(5), length).and_then(|()| judge(Err(5), &[], answer, &room));
    if let Err(why) = outcome {
        run.fail(name, &format!("with one byte more: {why}"), &case.dims);
    }
}

/// What upstream writes for a panel like P whose file is too long, and where iloc then says that the alpha tile lies.
fn upstream_goes_on(run: &mut Run, case: &Case, expected: usize) {
    match crate::upstream::write(case) {
        Ok(theirs) => {
            let place = located(&theirs, 3);
            println!("huge: upstream writes {} bytes, with the alpha tile at {place:?}", theirs.len());
            if place != Some((expected, 1)) {
                run.fail("upstream beyond the longest file", "has the alpha tile elsewhere", &place);
            }
        }
        Err(why) => run.fail("upstream beyond the longest file", &why, &case.dims),
    }
}
