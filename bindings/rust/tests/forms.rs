//! The forms of a file: the ordinary one is what the calls without a form write, and the wide one is held to what
//! ISO/IEC 14496-12 and 23008-12 give for the versions of its boxes.

mod common;

use common::accepted::Pool;
use common::boxes::{hold_boxes, holds};
use common::random::Random;
use common::{grid, p, with_gain};
use kahopiru::{
    file_length, form_length, sys, tile, to_vec, to_vec_in_form, write, write_in_form, write_to_in_form, Cicp,
    ColorMetadata, ContentLightLevel, EncodedGainMap, FileForm, Metadata, Orientation, Panel, Refusal, VisibleSize,
    WriteError,
};

/// A number of 32 bits in a file.
fn number(file: &[u8], at: usize) -> u32 {
    u32::from_be_bytes(file[at..at + 4].try_into().unwrap())
}

/// What a form refuses a panel with: the same for every call, and no byte of the output is touched.
fn refusal(form: FileForm, panel: &Panel<'_>) -> Refusal {
    let why = form_length(form, panel).unwrap_err();
    assert_eq!(to_vec_in_form(form, panel), Err(why));
    let mut out = [0x5A; 600];
    assert_eq!(write_in_form(form, panel, &mut out), Err(why));
    assert!(matches!(write_to_in_form(form, panel, &mut out[..]), Err(WriteError::Refused(again)) if again == why));
    assert_eq!(out, [0x5A; 600], "a refusal touched the output");
    why
}

/// A panel with every part that may be absent.
fn with_everything(panel: Panel<'_>) -> Panel<'_> {
    let both = ColorMetadata::cicp_and_icc(Cicp::srgb(), &[1, 2, 3]);
    let gain = with_gain(Some(&[4, 5])).gain_map.map(|gain| EncodedGainMap { alternate_color: Some(both), ..gain });
    Panel {
        visible: Some(VisibleSize { w: 63, h: 63 }),
        color_meta: both,
        metadata: Metadata {
            orientation: Orientation::Transpose,
            content_light_level: Some(ContentLightLevel::default()),
            exif: Some(&[6, 7]),
        },
        gain_map: gain,
        ..panel
    }
}

#[test]
fn the_ordinary_form_is_the_default_and_what_calls_without_a_form_write() {
    assert_eq!(FileForm::default(), FileForm::Ordinary);
    let mut random = Random(0x0D1_7A51);
    let pool = Pool::new(&mut random);
    for number in 0..1_000 {
        let panel = pool.panel(&mut random);
        let mut file = vec![0; file_length(&panel).unwrap() as usize];
        assert_eq!(write(&panel, &mut file), Ok(file.len()), "panel {number}");
        assert_eq!(form_length(FileForm::Ordinary, &panel), Ok(file.len() as u64), "panel {number}");
        assert!(to_vec_in_form(FileForm::Ordinary, &panel).as_ref() == Ok(&file), "panel {number}");
        assert!(to_vec(&panel).as_ref() == Ok(&file), "panel {number}");
    }
}

#[test]
fn p_in_the_wide_form() {
    let (file, ordinary) = (to_vec_in_form(FileForm::Wide, &p()).unwrap(), to_vec(&p()).unwrap());
    assert_eq!(form_length(FileForm::Wide, &p()), Ok(598));
    assert_eq!(file.len(), 598);
    let boxes = [
        (b"ftyp", 0, 28),
        (b"meta", 28, 560),
        (b"hdlr", 40, 33),
        (b"pitm", 73, 16),
        (b"iloc", 89, 90),
        (b"iinf", 179, 108),
        (b"iref", 287, 66),
        (b"iprp", 353, 211),
        (b"ipco", 361, 156),
        (b"ipma", 517, 47),
        (b"idat", 564, 24),
        (b"mdat", 588, 10),
    ];
    hold_boxes(&file, &boxes);
    // The first differences are the size of meta, the size of pitm, its version, and its id's two bytes more.
    let differing = (0..85).filter(|&at| file[at] != ordinary[at]);
    assert_eq!(differing.collect::<Vec<_>>(), [31, 76, 81]);
    assert_eq!(&file[81..89], [1, 0, 0, 0, 0, 0, 0, 2]);
    // iloc, version 2: a count of 4 bytes, and entries with an id of 4 bytes: of the colour tile and the colour grid.
    assert_eq!(&file[97..107], [2, 0, 0, 0, 0x44, 0, 0, 0, 0, 4]);
    assert_eq!(&file[107..125], [0, 0, 0, 1, 0, 0, 0, 0, 0, 1, 0, 0, 2, 0x54, 0, 0, 0, 1]);
    assert_eq!(&file[125..143], [0, 0, 0, 2, 0, 1, 0, 0, 0, 1, 0, 0, 0, 0, 0, 0, 0, 8]);
    // iinf, version 1: a count of 4 bytes; infe, version 3: the colour tile, hidden.
    assert_eq!(&file[187..195], [1, 0, 0, 0, 0, 0, 0, 4]);
    assert_eq!(&file[195..218], b"\0\0\0\x17infe\x03\0\0\x01\0\0\0\x01\0\0hvc1\0");
    // iref, version 1: from item 2, a count of 2 bytes, to item 1.
    assert_eq!(&file[295..317], b"\x01\0\0\0\0\0\0\x12dimg\0\0\0\x02\0\x01\0\0\0\x01");
    // ipma, version 1: its count has 4 bytes in any form, an id 4 here.
    assert_eq!(&file[525..541], [1, 0, 0, 0, 0, 0, 0, 4, 0, 0, 0, 1, 3, 0x81, 0x82, 0x84]);
    // What no id is in is as it was.
    assert_eq!(file[..28], ordinary[..28]);
    assert_eq!(file[40..73], ordinary[40..73]);
    assert_eq!(file[361..517], ordinary[327..483]);
    assert_eq!(file[564..], ordinary[522..]);
}

#[test]
fn the_group_of_a_tone_map_has_wide_ids_in_either_form() {
    let group = [b'a', b'l', b't', b'r', 0, 0, 0, 0, 0, 0, 0, 8, 0, 0, 0, 2, 0, 0, 0, 7, 0, 0, 0, 2];
    for form in FileForm::ALL {
        assert!(holds(&to_vec_in_form(form, &with_gain(Some(&[]))).unwrap(), &group), "{form:?}");
    }
}

/// How many ids the file of a panel has in the boxes that the wide form widens, box after box, and how many bytes the
/// documentation says that widening costs.
fn ids_and_told(panel: &Panel<'_>) -> (u64, u64) {
    let n = panel.color_samples.lengths.len() as u64;
    let exif = u64::from(panel.metadata.exif.is_some());
    let gain = u64::from(panel.gain_map.is_some());
    let tone = u64::from(panel.gain_map.is_some_and(|gain| gain.tmap.is_some()));
    // The tiles and the grid of colour, and of alpha; Exif; gain image and XMP; tone map.
    let items = 2 * (n + 1) + exif + 2 * gain + tone;
    let (pitm, iloc, infe) = (1, items, items);
    // The grids to their tiles; alpha grid to colour grid; Exif to colour grid; gain image to colour grid and XMP to
    // gain image; tone map to colour grid and gain image.
    let iref = 2 * (1 + n) + 2 + 2 * exif + 2 * 2 * gain + 3 * tone;
    // Exif and XMP have no properties.
    let ipma = items - exif - gain;
    (pitm + iloc + infe + iref + ipma, 16 * n + 26 + 8 * exif + 18 * gain + 12 * tone)
}

#[test]
fn a_wide_file_has_two_bytes_more_for_each_id_and_for_two_counts() {
    assert_eq!(ids_and_told(&p()), (19, 42));
    let documentation = include_str!("../src/form.rs").split("///").map(str::trim).collect::<Vec<_>>().join(" ");
    assert!(documentation.contains("16 × n + 26 bytes more, and 8 for Exif, 18 for a gain map and 12 for a tone map"));
    let mut random = Random(0x171D_E0F1);
    let pool = Pool::new(&mut random);
    let mut drawn = [0; 8];
    for number in 0..2_000 {
        let panel = pool.panel(&mut random);
        let (ids, told) = ids_and_told(&panel);
        let length = file_length(&panel).unwrap() + 2 * ids + 2 * 2;
        assert_eq!(form_length(FileForm::Wide, &panel), Ok(length), "panel {number}");
        assert_eq!(file_length(&panel).unwrap() + told, length, "panel {number}");
        let mut out = vec![0x5A; length as usize + 3];
        assert_eq!(write_in_form(FileForm::Wide, &panel, &mut out), Ok(length as usize), "panel {number}");
        assert_eq!(out[length as usize..], [0x5A; 3], "panel {number}");
        out.truncate(length as usize);
        assert!(to_vec_in_form(FileForm::Wide, &panel) == Ok(out), "panel {number}");
        let tone = panel.gain_map.map_or(0, |gain| 1 + usize::from(gain.tmap.is_some()));
        drawn[usize::from(panel.metadata.exif.is_some()) + 2 * tone] += 1;
    }
    assert!(drawn[..6].iter().all(|&panels| panels >= 100), "too few of a kind: {drawn:?}");
}

#[test]
fn panels_that_the_ordinary_form_has_no_ids_for_are_accepted() {
    let lengths = vec![0; 254 * 129];
    let panel = with_everything(grid(254, 129, &lengths));
    assert_eq!(file_length(&panel), Err(Refusal::ItemIds));
    assert_eq!(refusal(FileForm::Ordinary, &panel), Refusal::ItemIds);
    let file = to_vec_in_form(FileForm::Wide, &panel).unwrap();
    assert_eq!(Ok(file.len() as u64), form_length(FileForm::Wide, &panel));
    assert_eq!(number(&file, 77 + 4 + 4 + 4), 254 * 129 + 1, "the primary item is the colour grid");
    // The lookup, which takes ids of 16 bits, goes by the tiles, and these are as many as it takes.
    assert_eq!(tile(1, panel.color_samples, panel.alpha_samples), Ok(&[][..]));
}

#[test]
fn all_grids_but_one_are_accepted() {
    let lengths = vec![0; 256 * 256];
    for (cols, rows) in [(255, 256), (256, 255)] {
        let n = cols * rows;
        let bare = grid(cols, rows, &lengths[..n as usize]);
        for (panel, ftyp, last) in [(bare, 28, 2 * n + 2), (with_everything(bare), 32, 2 * n + 6)] {
            assert_eq!(refusal(FileForm::Ordinary, &panel), Refusal::ItemIds);
            let file = to_vec_in_form(FileForm::Wide, &panel).unwrap();
            let (ids, _) = ids_and_told(&panel);
            assert!(ids > u64::from(8 * n));
            // pitm's id; iloc's count, and its last entry, which ends where iinf begins; iinf's count; dimg's count.
            let (iloc, iinf) = (ftyp + 12 + 33 + 16, ftyp + 12 + 33 + 16 + 18 + 18 * last as usize);
            assert_eq!(number(&file, iloc - 4), n + 1);
            assert_eq!(&file[iloc + 4..iloc + 9], b"iloc\x02");
            assert_eq!((number(&file, iloc + 14), number(&file, iinf - 18)), (last, last));
            assert_eq!(&file[iinf + 4..iinf + 9], b"iinf\x01");
            assert_eq!(number(&file, iinf + 12), last);
            let dimg = [&b"dimg"[..], &(n + 1).to_be_bytes(), &(n as u16).to_be_bytes(), &[0, 0, 0, 1]].concat();
            assert!(holds(&file, &dimg));
        }
        assert_eq!(tile(1, bare.color_samples, bare.alpha_samples), Err(Refusal::ItemIds));
    }
    let most = grid(256, 256, &lengths);
    for panel in [most, with_everything(most)] {
        assert_eq!(refusal(FileForm::Wide, &panel), Refusal::ItemIds);
        assert_eq!(refusal(FileForm::Ordinary, &panel), Refusal::ItemIds);
    }
}

#[test]
fn short_room_is_refused_and_exact_room_is_filled() {
    let file = to_vec_in_form(FileForm::Wide, &p()).unwrap();
    let mut room = [0x5A; 700];
    for short in [0, 1, 556, 597] {
        assert_eq!(write_in_form(FileForm::Wide, &p(), &mut room[..short]), Err(Refusal::OutputLength));
        assert_eq!(room, [0x5A; 700]);
    }
    assert_eq!(write_in_form(FileForm::Wide, &p(), &mut room[20..618]), Ok(598));
    assert_eq!(room[20..618], file);
    assert!(room[..20].iter().chain(&room[618..]).all(|&b| b == 0x5A));
    let mut out = vec![];
    assert_eq!(write_to_in_form(FileForm::Wide, &p(), &mut out).unwrap(), 598);
    assert_eq!(out, file);
    assert!(matches!(write_to_in_form(FileForm::Wide, &p(), &mut [0; 597][..]), Err(WriteError::Io(_))));
}

#[test]
fn a_file_is_too_long_by_the_length_in_its_form() {
    // Zeroed memory that the length call does not read, and so that is never really taken.
    let bytes = vec![0; 4_294_967_295 - 555];
    let with = |form, count: usize| {
        let lengths = [count as u32];
        let color_samples = kahopiru::Samples { lengths: &lengths, bytes: &bytes[..count] };
        form_length(form, &Panel { color_samples, ..p() })
    };
    assert_eq!(with(FileForm::Ordinary, 4_294_967_295 - 555), Ok(4_294_967_295));
    assert_eq!(with(FileForm::Wide, 4_294_967_295 - 555), Err(Refusal::FileLength));
    assert_eq!(with(FileForm::Wide, 4_294_967_295 - 597 + 1), Err(Refusal::FileLength));
    assert_eq!(with(FileForm::Wide, 4_294_967_295 - 597), Ok(4_294_967_295));
}

#[test]
fn a_number_that_names_no_form_is_refused_by_the_archive_before_all_else() {
    let (refused, first) = (sys::Answer { refusal: 13, length: 0 }, sys::Answer { refusal: 1, length: 0 });
    let (nothing, lent) = (sys::Panel::default(), sys::Lent::default());
    for code in 0..=u8::MAX {
        let expected = if FileForm::from_code(code).is_ok() { first } else { refused };
        assert_eq!(sys::form_length(code, nothing, &lent), expected, "{code}");
        let mut out = [0x5A; 600];
        assert_eq!(sys::form_write(code, nothing, &lent, &mut out), expected, "{code}");
        assert_eq!(sys::form_write(code, nothing, &lent, &mut []), expected, "{code}");
        assert_eq!(out, [0x5A; 600], "{code}");
    }
}
