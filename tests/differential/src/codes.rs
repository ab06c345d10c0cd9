//! Every value of every code that the archive takes: 13 exactly where it names nothing.

use crate::compare::{judge, same_answer, Room};
use crate::panels::{full, p, Case};
use crate::predict::{self, Answer};
use crate::random::Rng;
use crate::run::Run;
use crate::{orders, raw, reference};
use kahopiru::{sys, GridDims, VisibleSize};
use std::ops::RangeInclusive;

/// A code: how it is set, how large its field is, and the values that name something.
struct Field {
    name: &'static str,
    set: fn(&mut sys::Panel, u16),
    most: u16,
    named: &'static [RangeInclusive<u16>],
}

/// A field of one byte.
fn byte(name: &'static str, named: &'static [RangeInclusive<u16>], set: fn(&mut sys::Panel, u16)) -> Field {
    Field { name, set, most: 255, named }
}

/// A field of two bytes.
fn word(name: &'static str, named: &'static [RangeInclusive<u16>], set: fn(&mut sys::Panel, u16)) -> Field {
    Field { name, set, most: u16::MAX, named }
}

const YES_NO: &[RangeInclusive<u16>] = &[0..=1];
const DEPTHS: &[RangeInclusive<u16>] = &[0..=2];
const ORIENTATIONS: &[RangeInclusive<u16>] = &[0..=7];
const PRIMARIES: &[RangeInclusive<u16>] = &[0..=2, 4..=12, 22..=22];
const TRANSFERS: &[RangeInclusive<u16>] = &[0..=2, 4..=18];
const MATRICES: &[RangeInclusive<u16>] = &[0..=17];

fn fields() -> Vec<Field> {
    vec![
        byte("bit_depth", DEPTHS, |p, v| p.bit_depth = v as u8),
        byte("alpha_bit_depth", DEPTHS, |p, v| p.alpha_bit_depth = v as u8),
        byte("orientation", ORIENTATIONS, |p, v| p.orientation = v as u8),
        byte("has_light", YES_NO, |p, v| p.has_light = v as u8),
        byte("has_exif", YES_NO, |p, v| p.has_exif = v as u8),
        byte("has_gain", YES_NO, |p, v| p.has_gain = v as u8),
        byte("has_visible", YES_NO, |p, v| p.has_visible = v as u8),
        byte("color.has_cicp", YES_NO, |p, v| p.color.has_cicp = v as u8),
        byte("color.has_icc", YES_NO, |p, v| p.color.has_icc = v as u8),
        word("color.cicp.primaries", PRIMARIES, |p, v| p.color.cicp.primaries = v),
        word("color.cicp.transfer", TRANSFERS, |p, v| p.color.cicp.transfer = v),
        word("color.cicp.matrix", MATRICES, |p, v| p.color.cicp.matrix = v),
        byte("color.cicp.full_range", YES_NO, |p, v| p.color.cicp.full_range = v as u8),
        byte("gain.bit_depth", DEPTHS, |p, v| p.gain.bit_depth = v as u8),
        byte("gain.has_tmap", YES_NO, |p, v| p.gain.has_tmap = v as u8),
        byte("gain.has_alternate", YES_NO, |p, v| p.gain.has_alternate = v as u8),
        word("gain.cicp.primaries", PRIMARIES, |p, v| p.gain.cicp.primaries = v),
        word("gain.cicp.transfer", TRANSFERS, |p, v| p.gain.cicp.transfer = v),
        word("gain.cicp.matrix", MATRICES, |p, v| p.gain.cicp.matrix = v),
        byte("gain.cicp.full_range", YES_NO, |p, v| p.gain.cicp.full_range = v as u8),
        byte("gain.alternate.has_cicp", YES_NO, |p, v| p.gain.alternate.has_cicp = v as u8),
        byte("gain.alternate.has_icc", YES_NO, |p, v| p.gain.alternate.has_icc = v as u8),
        word("gain.alternate.cicp.primaries", PRIMARIES, |p, v| p.gain.alternate.cicp.primaries = v),
        word("gain.alternate.cicp.transfer", TRANSFERS, |p, v| p.gain.alternate.cicp.transfer = v),
        word("gain.alternate.cicp.matrix", MATRICES, |p, v| p.gain.alternate.cicp.matrix = v),
        byte("gain.alternate.cicp.full_range", YES_NO, |p, v| p.gain.alternate.cicp.full_range = v as u8),
    ]
}

/// Each value of each code in a panel that has every part, and in one that is also refused with 1: 13 comes first.
/// Answers how many codes were tried, and how many of them name nothing.
pub fn run(run: &mut Run) -> (u64, u64) {
    let case = full().with_visible(63, 62);
    let mut rng = Rng::new(0);
    let good = raw::numbers(&case, &mut rng);
    let lent = raw::lent(&case, &[]);
    let mut room = Room::new();
    let (mut tried, mut unnamed) = (0, 0);
    for field in fields() {
        for value in 0..=field.most {
            let named = field.named.iter().any(|range| range.contains(&value));
            let mut panel = good;
            (field.set)(&mut panel, value);
            if let Err(why) = one(panel, named, &lent, &mut room) {
                run.fail(&format!("{} {value}", field.name), &why, &panel);
            }
            tried += 1;
            unnamed += u64::from(!named);
        }
    }
    visible_sizes(run);
    null_parts(run);
    (tried, unnamed)
}

/// A panel in which only one code may be wrong.
fn one(mut panel: sys::Panel, named: bool, lent: &sys::Lent<'_>, room: &mut Room) -> Result<(), String> {
    let length = raw::answer(sys::file_length(panel, lent));
    let wide = raw::answer(sys::form_length(3, panel, lent));
    for length in [length, wide] {
        // Which length it is, other sets compare; here it is only that there is one.
        same_answer(if named { Ok(0) } else { Err(13) }, length.map(|_| 0))?;
    }
    if !named {
        // Also where the output is too short.
        for size in [2000, 10] {
            let answer = raw::answer(sys::write(panel, lent, room.lend(size)));
            judge(Err(13), &[], answer, room)?;
        }
    }
    panel.rows = 0;
    let expected = Err(if named { 1 } else { 13 });
    same_answer(expected, raw::answer(sys::file_length(panel, lent)))?;
    let answer = raw::answer(sys::write(panel, lent, room.lend(2000)));
    judge(expected, &[], answer, room)
}

/// The codes of the forms that there are.
const FORMS: [u8; 2] = [0, 3];

/// Every code that names no form, beside panels that are accepted, panels of which a code names nothing either, and all
/// for which two checks hold: 13 comes first. Answers how many calls were made.
pub fn unnamed_forms(run: &mut Run) -> u64 {
    let mut room = Room::new();
    let before = run.calls;
    let mut with = |what: &str, numbers: sys::Panel, lent: &sys::Lent<'_>| {
        for form in (0..=u8::MAX).filter(|form| !FORMS.contains(form)) {
            run.calls += 3;
            if let Err(why) = unnamed(form, numbers, lent, &mut room) {
                run.fail(&format!("form {form}, {what}"), &why, &numbers);
            }
        }
    };
    for case in [p(), full()] {
        let (good, lent) = (raw::numbers(&case, &mut Rng::new(0)), raw::lent(&case, &[]));
        with("a panel that is accepted", good, &lent);
        with("a panel whose depth names nothing", sys::Panel { bit_depth: 3, ..good }, &lent);
        with("a panel of which nothing is right", sys::Panel { cols: 0, has_gain: 2, ..good }, &sys::Lent::default());
    }
    orders::each_spoiled(&mut |[first, second], numbers, lent| {
        with(&format!("a panel where {first} and {second} hold"), numbers, lent);
    });
    run.calls - before
}

/// The length call and the writing call that are told such a code.
fn unnamed(form: u8, numbers: sys::Panel, lent: &sys::Lent<'_>, room: &mut Room) -> Result<(), String> {
    const REFUSED: Answer = Err(13);
    same_answer(REFUSED, raw::answer(sys::form_length(form, numbers, lent)))?;
    for size in [700, 0] {
        let answer = raw::answer(sys::form_write(form, numbers, lent, room.lend(size)));
        judge(REFUSED, &[], answer, room)?;
    }
    Ok(())
}

/// Every has_visible beside every size of interest, good or not: 0 looks at none of them, 1 at both, and any other is
/// refused with 13.
fn visible_sizes(run: &mut Run) {
    let sizes = [0, 1, 63, 64, 65, 1 << 31, u32::MAX];
    let mut room = Room::new();
    for base in [p(), Case { dims: GridDims { tile_w: 0, ..p().dims }, ..p() }] {
        for (visible_w, visible_h) in sizes.into_iter().flat_map(|w| sizes.map(|h| (w, h))) {
            for has_visible in 0..=u8::MAX {
                let visible = (has_visible == 1).then_some(VisibleSize { w: visible_w, h: visible_h });
                let case = Case { visible, ..base.clone() };
                let numbers = raw::numbers(&case, &mut Rng::new(0));
                let numbers = sys::Panel { has_visible, visible_w, visible_h, ..numbers };
                run.calls += 2;
                if let Err(why) = with_numbers(numbers, &case, &mut room) {
                    run.fail(&format!("has_visible {has_visible}, {visible_w} by {visible_h}"), &why, &numbers);
                }
            }
        }
    }
}

/// Both calls on a panel whose numbers are these.
fn with_numbers(numbers: sys::Panel, case: &Case, room: &mut Room) -> Result<(), String> {
    let known = numbers.has_visible <= 1;
    let expected = |room| if known { predict::answer(&case.panel(), room) } else { Err(13) };
    let lent = raw::lent(case, &[]);
    same_answer(expected(None), raw::answer(sys::file_length(numbers, &lent)))?;
    let file = if expected(None).is_ok() { reference::file(case)? } else { Vec::new() };
    let answer = raw::answer(sys::write(numbers, &lent, room.lend(700)));
    judge(expected(Some(700)), &file, answer, room)
}

/// A null pointer with length 0 is an empty part.
fn null_parts(run: &mut Run) {
    use std::ptr::null;
    let case = Case { color_hvcc: vec![], alpha_hvcc: vec![], ..p() }.with_empty_grid(1, 1);
    let numbers = raw::numbers(&case, &mut Rng::new(0));
    let n = null::<u8>();
    let lengths = case.color_lengths.as_ptr();
    let mut room = Room::new();
    let file = crate::upstream::write(&case).unwrap_or_default();
    let out = room.lend(file.len() + 5);
    // SAFETY: the two lists have one entry each, every other part is null with length 0, and the output is lent here.
    let answer = unsafe {
        sys::kahopiru_write(
            numbers,
            n,
            0,
            n,
            0,
            lengths,
            1,
            lengths,
            1,
            n,
            0,
            n,
            0,
            n,
            0,
            n,
            0,
            n,
            0,
            n,
            0,
            n,
            0,
            n,
            0,
            n,
            0,
            out.as_mut_ptr(),
            out.len(),
        )
    };
    if let Err(why) = judge(Ok(file.len() as u64), &file, raw::answer(answer), &room) {
        run.fail("null parts", &why, &case);
    }
}
