//! The smallest panel, box by box, and what its options add.

mod common;

use common::boxes::{box_at, hold_boxes, holds};
use common::{p, with_gain};
use kahopiru::{
    file_length, to_vec, write, BitDepth, Cicp, ColorMetadata, ContentLightLevel, EncodedGainMap, Metadata,
    Orientation, Panel, VisibleSize,
};

#[test]
fn every_box_is_where_the_specification_says() {
    let file = to_vec(&p()).unwrap();
    assert_eq!(file.len(), 556);
    let boxes = [
        (b"ftyp", 0, 28),
        (b"meta", 28, 518),
        (b"hdlr", 40, 33),
        (b"pitm", 73, 14),
        (b"iloc", 87, 80),
        (b"iinf", 167, 98),
        (b"iref", 265, 54),
        (b"iprp", 319, 203),
        (b"ipco", 327, 156),
        (b"ipma", 483, 39),
        (b"idat", 522, 24),
        (b"mdat", 546, 10),
    ];
    hold_boxes(&file, &boxes);
    assert_eq!(&file[8..28], b"heic\0\0\0\0heicmif1miaf");
    assert_eq!(&file[554..], [0xAA, 0xBB]);
    // The colour tile's extent in iloc: file offset 554, one byte; the alpha tile's: 555, one byte.
    assert_eq!(&file[103..119], [0, 1, 0, 0, 0, 0, 0, 1, 0, 0, 2, 0x2A, 0, 0, 0, 1]);
    assert_eq!(&file[135..151], [0, 3, 0, 0, 0, 0, 0, 1, 0, 0, 2, 0x2B, 0, 0, 0, 1]);
    assert!(holds(&file, b"nclx\x00\x02\x00\x02\x00\x02\x80"));
}

#[test]
fn both_calls_answer_the_same_length() {
    let mut out = [0; 600];
    assert_eq!(file_length(&p()), Ok(556));
    assert_eq!(write(&p(), &mut out), Ok(556));
    assert_eq!(to_vec(&p()).unwrap(), out[..556]);
}

#[test]
fn a_size_above_65535_widens_the_descriptor() {
    let at = |width| {
        let mut panel = p();
        (panel.dims.tile_w, panel.dims.full_w) = (width, width);
        to_vec(&panel).unwrap()
    };
    let (narrow, wide) = (at(65_535), at(65_536));
    assert_eq!(narrow.len(), 556);
    assert_eq!(&narrow[530..538], [0, 0, 0, 0, 0xFF, 0xFF, 0, 0x40]);
    assert_eq!(wide.len(), 564);
    assert_eq!(&wide[530..542], [0, 2, 0, 0, 0, 1, 0, 0, 0, 0, 0, 0x40]);
}

#[test]
fn options_add_what_the_specification_says() {
    let with = |metadata| to_vec(&Panel { metadata, ..p() }).unwrap();
    let exif = with(Metadata { exif: Some(&[]), ..Metadata::default() });
    assert_eq!(exif.len(), 611);
    assert!(exif.ends_with(&[0xAA, 0xBB, 0, 0, 0, 0]));
    let level = ContentLightLevel { max_content_light_level: 1000, max_pic_average_light_level: 400 };
    let light = with(Metadata { content_light_level: Some(level), ..Metadata::default() });
    assert_eq!(light.len(), 569);
    assert!(holds(&light, b"clli\x03\xE8\x01\x90"));
    let turned = with(Metadata { orientation: Orientation::Transpose, ..Metadata::default() });
    assert!(holds(&turned, b"irot\x03") && holds(&turned, b"imir\x00"));
    assert!(holds(&turned, &[0, 2, 5, 0x03, 0x84, 0x05, 0x89, 0x8A]));
}

#[test]
fn a_visible_size_is_a_property_that_tiles_name_last() {
    let mut panel = p();
    (panel.dims.full_w, panel.dims.full_h) = (63, 61);
    let whole = to_vec(&panel).unwrap();
    panel.visible = Some(VisibleSize { w: 63, h: 61 });
    let file = to_vec(&panel).unwrap();
    assert_eq!(file.len(), 598);
    let boxes = [
        (b"ftyp", 0, 28),
        (b"meta", 28, 560),
        (b"iprp", 319, 245),
        (b"ipco", 327, 196),
        (b"clap", 483, 40),
        (b"ipma", 523, 41),
        (b"idat", 564, 24),
        (b"mdat", 588, 10),
    ];
    hold_boxes(&file, &boxes);
    // The tile's ispe keeps the decoded size; clap has the visible one, and behind it what it lacks of the decoded.
    assert_eq!(&file[357..365], [0, 0, 0, 64, 0, 0, 0, 64]);
    assert_eq!(&file[491..507], [0, 0, 0, 63, 0, 0, 0, 1, 0, 0, 0, 61, 0, 0, 0, 1]);
    assert_eq!(&file[507..523], [255, 255, 255, 255, 0, 0, 0, 2, 255, 255, 255, 253, 0, 0, 0, 2]);
    // The colour tile and the alpha tile name it, position 9, as essential; the grids do not.
    assert_eq!(&file[539..552], [0, 1, 4, 0x81, 0x82, 0x84, 0x89, 0, 2, 3, 3, 0x84, 5]);
    assert_eq!(&file[552..564], [0, 3, 3, 0x86, 0x82, 0x89, 0, 4, 3, 3, 7, 8]);
    // The samples, which lay at 554 and 555, are 42 bytes further on, and nothing else differs.
    assert_eq!(&file[111..119], [0, 0, 2, 0x54, 0, 0, 0, 1]);
    assert_eq!(&file[143..151], [0, 0, 2, 0x55, 0, 0, 0, 1]);
    assert_eq!(file[564..], whole[522..]);
}

#[test]
fn a_visible_size_stands_between_light_level_and_gain_map() {
    let level = ContentLightLevel { max_content_light_level: 1000, max_pic_average_light_level: 400 };
    let metadata = Metadata { content_light_level: Some(level), ..Metadata::default() };
    let visible = Some(VisibleSize { w: 64, h: 64 });
    let file = to_vec(&Panel { metadata, visible, ..with_gain(Some(&[])) }).unwrap();
    assert_eq!(file.len(), 556 + 13 + 42 + 243 + 3 + 134);
    let light = b"\0\0\0\x0Cclli\x03\xE8\x01\x90";
    let clap = b"\0\0\0\x28clap\0\0\0\x40\0\0\0\x01\0\0\0\x40\0\0\0\x01\0\0\0\0\0\0\0\x02\0\0\0\0\0\0\0\x02";
    let gain_hvcc = b"\0\0\0\x0AhvcC\x01\x01";
    assert!(holds(&file, &[&light[..], clap, gain_hvcc].concat()));
    let tiles_and_grids = [
        &[0, 1, 4, 0x81, 0x82, 0x84, 0x8A][..],
        &[0, 2, 4, 3, 0x84, 5, 9],
        &[0, 3, 3, 0x86, 0x82, 0x8A],
        &[0, 4, 3, 3, 7, 8],
        &[0, 5, 5, 0x8B, 12, 13, 14, 15],
        &[0, 7, 2, 16, 17],
    ];
    assert!(holds(&file, &tiles_and_grids.concat()));
}

#[test]
fn exif_tells_where_its_tiff_header_is() {
    let payload = |exif: &[u8]| {
        let metadata = Metadata { exif: Some(exif), ..Metadata::default() };
        let file = to_vec(&Panel { metadata, ..p() }).unwrap();
        assert_eq!(file.len(), 611 + exif.len());
        file[file.len() - exif.len() - 4..].to_vec()
    };
    assert_eq!(payload(b"MM\0*"), b"\0\0\0\0MM\0*");
    assert_eq!(payload(b"Exif\0\0MM\0*"), b"\0\0\0\x06Exif\0\0MM\0*");
    assert_eq!(payload(b"Exif\0\0"), b"\0\0\0\x06Exif\0\0");
    assert_eq!(payload(b"Exif\0"), b"\0\0\0\0Exif\0");
    assert_eq!(payload(b"EXIF\0\0"), b"\0\0\0\0EXIF\0\0");
}

#[test]
fn present_and_empty_is_not_absent() {
    let with = |color_meta| to_vec(&Panel { color_meta, ..p() }).unwrap();
    let none = with(ColorMetadata::default());
    let stated = with(ColorMetadata::cicp(Cicp::unspecified()));
    let profile = with(ColorMetadata::icc(&[]));
    let both = with(ColorMetadata::cicp_and_icc(Cicp::unspecified(), &[]));
    assert_eq!(none, stated);
    assert_eq!(profile.len(), 556 - 19 + 12);
    assert_eq!(both.len(), 556 + 13);
}

#[test]
fn a_gain_map_brings_its_items_and_brands() {
    let file = to_vec(&with_gain(Some(&[]))).unwrap();
    assert_eq!(file.len(), 556 + 243 + 3 + 134);
    assert_eq!(&file[24..32], b"miaftmap");
    assert!(holds(&file, b"urn:com:apple:photo:2020:aux:hdrgainmap\0"));
    // The group: its id 8, two entities, the tone map 7 and the colour grid 2.
    assert!(holds(&file, &[b'a', b'l', b't', b'r', 0, 0, 0, 0, 0, 0, 0, 8, 0, 0, 0, 2, 0, 0, 0, 7, 0, 0, 0, 2]));
    assert_eq!(to_vec(&with_gain(None)).unwrap().len(), 556 + 243 + 3);
}

#[test]
fn the_profiles_of_colour_and_gain_image_choose_the_brands() {
    let brands = |color_hvcc, alpha_hvcc, hvcc| {
        let gain_map = with_gain(None).gain_map.map(|gain| EncodedGainMap { hvcc, ..gain });
        let file = to_vec(&Panel { color_hvcc, alpha_hvcc, gain_map, ..p() }).unwrap();
        let (size, _) = box_at(&file, 0);
        String::from_utf8(file[8..size].to_vec()).unwrap()
    };
    for (color, alpha, gain, expected) in [
        (&[1, 1][..], &[1, 1][..], &[1, 1][..], "heic\0\0\0\0heicmif1miaf"),
        (&[1, 4], &[1, 1], &[1, 1], "heix\0\0\0\0heixmif1miaf"),
        (&[1, 0xE4], &[1, 1], &[1, 1], "heix\0\0\0\0heixmif1miaf"),
        (&[1, 0x14], &[1, 1], &[1, 1], "heic\0\0\0\0heicmif1miaf"),
        (&[4], &[1, 1], &[4], "heic\0\0\0\0heicmif1miaf"),
        (&[], &[1, 4], &[], "heic\0\0\0\0heicmif1miaf"),
        (&[1, 1], &[1, 1], &[1, 4], "heic\0\0\0\0heicmif1miafheix"),
        (&[1, 4], &[1, 1], &[1, 4], "heix\0\0\0\0heixmif1miaf"),
    ] {
        assert_eq!(brands(color, alpha, gain), expected, "{color:?}, {alpha:?}, {gain:?}");
    }
}

#[test]
fn an_alternate_colour_that_is_empty_or_has_no_tone_map_is_none() {
    let with = |tmap, alternate_color| {
        let gain_map = with_gain(tmap).gain_map.map(|gain| EncodedGainMap { alternate_color, ..gain });
        to_vec(&Panel { gain_map, ..p() }).unwrap()
    };
    let stated = Some(ColorMetadata::cicp_and_icc(Cicp::srgb(), &[7]));
    assert_eq!(with(None, stated), with(None, None));
    assert_eq!(with(Some(&[]), Some(ColorMetadata::default())), with(Some(&[]), None));
    assert_ne!(with(Some(&[]), stated), with(Some(&[]), None));
}

#[test]
fn each_depth_reaches_its_own_pixi() {
    for bit_depth in BitDepth::ALL {
        let bits = bit_depth.bits();
        for alpha in BitDepth::ALL {
            let file = to_vec(&Panel { bit_depth, alpha_bit_depth: Some(alpha), ..p() }).unwrap();
            assert!(holds(&file, &[b'p', b'i', b'x', b'i', 0, 0, 0, 0, 3, bits, bits, bits]));
            assert!(holds(&file, &[b'p', b'i', b'x', b'i', 0, 0, 0, 0, 1, alpha.bits()]));
        }
        // Unless it is stated, alpha has the colour's depth.
        let unstated = to_vec(&Panel { bit_depth, ..p() }).unwrap();
        assert_eq!(unstated, to_vec(&Panel { bit_depth, alpha_bit_depth: Some(bit_depth), ..p() }).unwrap());
    }
}
