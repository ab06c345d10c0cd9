//! The comparison itself, put to the test: each kind of difference, made on purpose, must be reported; and so must a
//! prediction that makes two checks in the other order, or that is wrong of visible sizes or of the wide form.

use crate::compare::{judge, same_answer, same_file, Room};
use crate::panels::{full, Case};
use crate::reference::MARKER;
use crate::{edges, faults, orders, reference, upstream, visible, wide_faults};
use kahopiru::BitDepth;

/// A difference that is made on purpose, and whether the comparison reported it.
pub type Trial = (&'static str, Result<(), String>);

/// Depths at a wrong place, or not the panel's.
fn alpha_depths() -> Vec<Trial> {
    let case = Case { bit_depth: BitDepth::Twelve, alpha_bit_depth: BitDepth::Eight, ..full() };
    let file = reference::file(&case).expect("upstream writes it");
    let of_one_depth = upstream::write(&case).expect("upstream writes it");
    let at = reference::alpha_depth_at(&case.panel());
    let exchanged = Case { bit_depth: BitDepth::Eight, alpha_bit_depth: BitDepth::Twelve, ..case };
    let written = kahopiru::to_vec(&exchanged.panel()).expect("the panel is accepted");
    vec![
        ("the colour's depth for alpha", same_file(&file, &of_one_depth)),
        ("two depths exchanged", same_file(&file, &written)),
        ("a place one byte too far", reference::put_alpha_depth(&mut of_one_depth.clone(), at + 1, [12, 8])),
        ("a file of another depth", reference::put_alpha_depth(&mut of_one_depth.clone(), at, [10, 8])),
    ]
}

/// An offset of the TIFF header at a wrong place, or not the one that the Exif has.
fn tiff_offsets() -> Vec<Trial> {
    let with = |exif: &[u8]| Case { exif: Some(exif.to_vec()), ..full() };
    let (marked, nearly) = (with(&MARKER), with(&MARKER[..5]));
    let file = reference::file(&marked).expect("upstream writes it");
    let near_file = reference::file(&nearly).expect("upstream writes it");
    let of_upstream = upstream::write(&marked).expect("upstream writes it");
    let (at, near_at) = (reference::tiff_offset_at(&marked.panel()), reference::tiff_offset_at(&nearly.panel()));
    let put = |file: &[u8], at: usize, offset| {
        let mut file = file.to_vec();
        file[at] = offset;
        file
    };
    vec![
        ("no offset for the marker", same_file(&file, &of_upstream)),
        ("an offset from the payload's first byte", same_file(&file, &put(&file, at, 10))),
        ("an offset for five of six bytes", same_file(&near_file, &put(&near_file, near_at, 6))),
        ("an offset one byte too far", reference::put_tiff_offset(&mut of_upstream.clone(), at + 1)),
        ("an offset before other Exif", reference::put_tiff_offset(&mut near_file.clone(), near_at)),
    ]
}

/// Answers the differences that went unnoticed, and how many were made.
pub fn run() -> (Vec<String>, usize) {
    let case = full();
    let file = kahopiru::to_vec(&case.panel()).expect("the full panel is accepted");
    let good = Ok(file.len() as u64);
    let room_with = |change: &dyn Fn(&mut [u8])| {
        let mut room = Room::new();
        kahopiru::write(&case.panel(), room.lend(file.len() + 9)).expect("the full panel is accepted");
        change(room.tamper());
        room
    };
    let (first, end) = (Room::begins(), Room::begins() + file.len());
    let untouched = room_with(&|_| ());
    let unwritten = {
        let mut room = Room::new();
        room.lend(file.len() + 9);
        room
    };
    let trials: Vec<Trial> = vec![
        ("a flipped byte", judge(good, &file, good, &room_with(&|m| m[end - 1] ^= 1))),
        ("a flipped first byte", judge(good, &file, good, &room_with(&|m| m[first] ^= 0x80))),
        ("a wrong length", judge(good, &file, good.map(|n| n + 1), &untouched)),
        ("a wrong refusal", judge(Err(3), &[], Err(2), &unwritten)),
        ("a refusal for a file", judge(good, &file, Err(4), &untouched)),
        ("a touched guard byte behind", judge(good, &file, good, &room_with(&|m| m[end] ^= 1))),
        ("a touched guard byte before", judge(good, &file, good, &room_with(&|m| m[first - 1] ^= 1))),
        ("a touched last guard byte", judge(good, &file, good, &room_with(&|m| *m.last_mut().unwrap() ^= 1))),
        ("a refusal that wrote", judge(Err(6), &file, Err(6), &untouched)),
        ("nothing written", judge(good, &file, good, &unwritten)),
        ("a wrong length alone", same_answer(Ok(556), Ok(557))),
        ("a shorter file", same_file(&file, &file[1..])),
    ];
    let trials =
        [trials, alpha_depths(), tiff_offsets(), faults::trials(), wide_faults::trials()].into_iter().flatten();
    let mut seen: Vec<(String, bool)> = trials.map(|(name, seen)| (name.into(), seen.is_err())).collect();
    seen.extend(orders::exchanges());
    seen.extend(visible::predictions());
    seen.extend(edges::predictions());
    let made = seen.len();
    let mut unnoticed: Vec<_> = seen.into_iter().filter(|(_, reported)| !reported).map(|(name, _)| name).collect();
    // And what is right must pass, or the comparison reports everything.
    let right = [judge(good, &file, good, &untouched), judge(Err(6), &file, Err(6), &unwritten)];
    let right = right.into_iter().chain([faults::right(), wide_faults::right()]).collect::<Result<(), _>>();
    if right.is_err() {
        unnoticed.push("nothing (a right answer is reported)".into());
    }
    (unnoticed, made)
}
