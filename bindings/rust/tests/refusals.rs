//! Each refusal, and the bytes that a refusal must leave alone.

mod common;

use common::{grid, p, with_gain};
use kahopiru::{file_length, sys, to_vec, write, GridDims, Panel, Refusal, Samples, VisibleSize};

/// What refuses a panel: the same for every call, and no byte of the output is touched.
fn refusal(panel: &Panel<'_>) -> Refusal {
    let why = file_length(panel).unwrap_err();
    assert_eq!(to_vec(panel).unwrap_err(), why);
    for room in [0, 1, 600] {
        let mut out = vec![0x5A; room];
        assert_eq!(write(panel, &mut out), Err(why));
        assert!(out.iter().all(|&b| b == 0x5A), "a refusal touched the output");
    }
    why
}

#[test]
fn sides_of_0_and_257_are_refused_and_256_is_not() {
    for (cols, rows) in [(0, 1), (1, 0), (257, 1), (1, 257), (u32::MAX, u32::MAX), (65_536, 65_536)] {
        assert_eq!(refusal(&grid(cols, rows, &[0])), Refusal::GridSide, "{cols} × {rows}");
    }
    let lengths = [0; 256];
    assert!(file_length(&grid(1, 256, &lengths)).is_ok());
    assert!(file_length(&grid(256, 1, &lengths)).is_ok());
}

#[test]
fn tiles_that_do_not_cover_the_picture_are_refused() {
    let sized = |cols, rows, [tile_w, tile_h, full_w, full_h]: [u32; 4]| {
        let lengths = vec![0; (cols * rows) as usize];
        let panel = grid(cols, rows, &lengths);
        let dims = GridDims { tile_w, tile_h, full_w, full_h, ..panel.dims };
        let panel = Panel { dims, ..panel };
        file_length(&panel).map_or_else(|_| Err(refusal(&panel)), |_| Ok(()))
    };
    // Just covered, one short, one over, on either axis.
    assert_eq!(sized(3, 2, [64, 32, 192, 64]), Ok(()));
    assert_eq!(sized(3, 2, [64, 32, 193, 64]), Err(Refusal::Cover));
    assert_eq!(sized(3, 2, [64, 32, 192, 65]), Err(Refusal::Cover));
    assert_eq!(sized(3, 2, [64, 32, 191, 63]), Ok(()));
    for zero in 0..4 {
        let mut sizes = [64; 4];
        sizes[zero] = 0;
        assert_eq!(sized(1, 1, sizes), Err(Refusal::Cover));
    }
    // 2 × 2³¹ and 256 × (2³² - 1), which 32 bits do not hold.
    assert_eq!(sized(2, 1, [1 << 31, 1, u32::MAX, 1]), Ok(()));
    assert_eq!(sized(1, 256, [1, u32::MAX, 1, u32::MAX]), Ok(()));
    // 1 comes before it, and it before 2.
    let uncovered = GridDims { full_w: 65, ..p().dims };
    assert_eq!(refusal(&Panel { dims: GridDims { cols: 0, ..uncovered }, ..p() }), Refusal::GridSide);
    let miscounted = Samples { lengths: &[1, 0], ..p().color_samples };
    assert_eq!(refusal(&Panel { dims: uncovered, color_samples: miscounted, ..p() }), Refusal::Cover);
}

#[test]
fn visible_sizes_of_0_and_above_the_decoded_one_are_refused() {
    // The size of a tile, its visible size, and what is answered; the same with the axes exchanged.
    let sized = |[tile_w, tile_h]: [u32; 2], [w, h]: [u32; 2], expected: Result<(), Refusal>| {
        for (tile_w, tile_h, w, h) in [(tile_w, tile_h, w, h), (tile_h, tile_w, h, w)] {
            let dims = GridDims { tile_w, tile_h, full_w: 1, full_h: 1, ..p().dims };
            let panel = Panel { dims, visible: Some(VisibleSize { w, h }), ..p() };
            let answer = file_length(&panel).map_or_else(|_| Err(refusal(&panel)), |_| Ok(()));
            assert_eq!(answer, expected, "{tile_w} × {tile_h}, visible {w} × {h}");
        }
    };
    let most = 0x7FFF_FFFF;
    sized([64, 66], [63, 65], Ok(()));
    sized([64, 66], [64, 66], Ok(()));
    sized([64, 66], [1, 66], Ok(()));
    sized([most, 66], [1, 66], Ok(()));
    sized([most, most], [most, most], Ok(()));
    sized([64, 66], [0, 66], Err(Refusal::VisibleSize));
    sized([64, 66], [65, 66], Err(Refusal::VisibleSize));
    sized([64, 66], [u32::MAX, 66], Err(Refusal::VisibleSize));
    sized([most + 1, 66], [64, 66], Err(Refusal::VisibleSize));
    sized([u32::MAX, 66], [u32::MAX, 66], Err(Refusal::VisibleSize));
    sized([0, 66], [0, 66], Err(Refusal::VisibleSize));
    sized([0, 66], [1, 66], Err(Refusal::VisibleSize));
}

#[test]
fn with_a_visible_size_it_is_that_which_covers_the_picture() {
    let lengths = [0; 6];
    let sized = |full_w, full_h, visible| {
        let panel = grid(3, 2, &lengths);
        let dims = GridDims { tile_w: 64, tile_h: 32, full_w, full_h, ..panel.dims };
        let panel = Panel { dims, visible, ..panel };
        file_length(&panel).map_or_else(|_| Err(refusal(&panel)), |_| Ok(()))
    };
    let odd = Some(VisibleSize { w: 63, h: 31 });
    assert_eq!(sized(189, 62, odd), Ok(()));
    assert_eq!(sized(190, 62, odd), Err(Refusal::Cover));
    assert_eq!(sized(189, 63, odd), Err(Refusal::Cover));
    assert_eq!(sized(0, 62, odd), Err(Refusal::Cover));
    assert_eq!(sized(189, 0, odd), Err(Refusal::Cover));
    assert_eq!(sized(190, 63, None), Ok(()));
    // 1 comes before 22, and that before 8 and before 2.
    let none = Some(VisibleSize { w: 0, h: 31 });
    assert_eq!(sized(193, 62, none), Err(Refusal::VisibleSize));
    assert_eq!(refusal(&Panel { visible: none, ..grid(0, 2, &lengths) }), Refusal::GridSide);
    assert_eq!(refusal(&Panel { visible: none, ..grid(3, 1, &lengths) }), Refusal::VisibleSize);
}

#[test]
fn a_list_with_another_count_is_refused() {
    let one = p().color_samples;
    for lengths in [&[][..], &[1, 0]] {
        let other = Samples { lengths, bytes: &[0xAA] };
        assert_eq!(refusal(&Panel { color_samples: other, ..p() }), Refusal::TileCount);
        assert_eq!(refusal(&Panel { alpha_samples: other, ..p() }), Refusal::TileCount);
    }
    // Lists that agree with each other but not with the grid.
    let two = Samples { lengths: &[1, 0], ..one };
    assert_eq!(refusal(&Panel { color_samples: two, alpha_samples: two, ..p() }), Refusal::TileCount);
}

#[test]
fn lengths_that_do_not_sum_to_the_bytes_are_refused() {
    for bytes in [&[][..], &[1, 2]] {
        let other = Samples { lengths: &[1], bytes };
        assert_eq!(refusal(&Panel { color_samples: other, ..p() }), Refusal::SampleLengths);
        assert_eq!(refusal(&Panel { alpha_samples: other, ..p() }), Refusal::SampleLengths);
    }
    // A sum of 2³² + 1 is not 1.
    let wrapped = Samples { lengths: &[u32::MAX, 2], bytes: &[7] };
    let dims = GridDims { cols: 2, ..p().dims };
    let panel = Panel { dims, color_samples: wrapped, alpha_samples: wrapped, ..p() };
    assert_eq!(refusal(&panel), Refusal::SampleLengths);
}

#[test]
fn ids_above_65535_are_refused() {
    let lengths = vec![0; 254 * 129];
    let most = grid(254, 129, &lengths);
    assert!(file_length(&most).is_ok());
    let mut with_exif = most;
    with_exif.metadata.exif = Some(&[]);
    assert!(file_length(&with_exif).is_ok(), "the last id is 65,535");
    let mut gain = most;
    gain.gain_map = with_gain(None).gain_map;
    assert_eq!(refusal(&gain), Refusal::ItemIds);
    assert_eq!(refusal(&grid(217, 151, &vec![0; 217 * 151])), Refusal::ItemIds);
    assert_eq!(refusal(&grid(256, 256, &vec![0; 65_536])), Refusal::ItemIds);
}

#[test]
fn a_file_above_32_bits_is_refused() {
    // Zeroed memory that the length call does not read, and so that is never really taken.
    let bytes = vec![0; 4_294_967_295 - 555 + 1];
    let with = |count: usize| {
        let lengths = [count as u32];
        let samples = Samples { lengths: &lengths, bytes: &bytes[..count] };
        file_length(&Panel { color_samples: samples, ..p() })
    };
    assert_eq!(with(4_294_967_295 - 555), Ok(4_294_967_295));
    assert_eq!(with(4_294_967_295 - 555 + 1), Err(Refusal::FileLength));
}

#[test]
fn short_room_is_refused_and_exact_room_is_filled() {
    let file = to_vec(&p()).unwrap();
    let mut room = [0x5A; 600];
    for short in [0, 1, 555] {
        assert_eq!(write(&p(), &mut room[..short]), Err(Refusal::OutputLength));
        assert_eq!(room, [0x5A; 600]);
    }
    assert_eq!(write(&p(), &mut room[20..576]), Ok(556));
    assert_eq!(room[20..576], file);
    assert!(room[..20].iter().chain(&room[576..]).all(|&b| b == 0x5A));
    assert_eq!(write(&p(), &mut room), Ok(556));
    assert_eq!(room[..556], file);
    assert_eq!(room[556..576], file[536..], "what lay behind the file stays");
}

/// The refusals in the words that the README, the header and the program have too.
const WORDS: [(u32, &str); 14] = [
    (1, "there are no rows or no columns, or more than 256"),
    (2, "there is not exactly one sample length for each tile, in the colour list or in the alpha list"),
    (3, "the lengths do not add up to the sample bytes that were handed over"),
    (
        4,
        "there are too many tiles: the last item id or, in the wide form, the count in a picture would be above 65,535",
    ),
    (5, "the file would be longer than 4,294,967,295 bytes"),
    (6, "the room for the file is too short"),
    (7, "the item id names no tile"),
    (8, "a size of a tile or of the whole picture is 0, or what the tiles show does not cover the whole picture"),
    (11, "the sheet ends before its fields do"),
    (12, "the sheet's map asks for something that there is not, or for a part without the part that it belongs to"),
    (13, "a form of the file, a depth, an orientation, a colour code, or a yes or no is none that exists"),
    (14, "bytes are left over behind the sheet's last field"),
    (15, "the sheet has more than 12,288 bytes"),
    (22, "a tile's visible size is 0 or above its decoded size, or its decoded size is above 2,147,483,647"),
];

#[test]
fn refusals_have_numbers_and_say_what_is_wrong() {
    for ((number, words), refusal) in WORDS.into_iter().zip(Refusal::ALL) {
        assert_eq!((refusal.number(), refusal.to_string().as_str()), (number, words));
    }
    let error: Box<dyn std::error::Error> = Box::new(Refusal::OutputLength);
    assert_eq!(error.to_string(), "the room for the file is too short");
}

#[test]
fn codes_that_no_enum_has_are_refused_by_the_archive_itself() {
    for panel in [
        sys::Panel { orientation: 8, ..sys::Panel::default() },
        sys::Panel { bit_depth: 3, ..sys::Panel::default() },
        sys::Panel { alpha_bit_depth: 3, ..sys::Panel::default() },
        sys::Panel { has_visible: 2, ..sys::Panel::default() },
        sys::Panel { has_visible: 255, ..sys::Panel::default() },
    ] {
        assert_eq!(sys::file_length(panel, &sys::Lent::default()), sys::Answer { refusal: 13, length: 0 });
    }
    let panel = sys::Panel { orientation: 7, ..sys::Panel::default() };
    assert_eq!(sys::file_length(panel, &sys::Lent::default()), sys::Answer { refusal: 1, length: 0 });
}
