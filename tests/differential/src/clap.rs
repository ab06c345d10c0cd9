//! The file of a panel with a visible size, made from upstream's file of the same panel without it.
//!
//! Upstream's grids have no visible size, but it has a function that writes a clap box for a picture of another kind.
//! That box is put in, the tiles are made to name it, and what it moves is raised. Upstream's bytes are walked for
//! this, box by box; where the clap goes is worked out by hand from the panel's lengths, and the walk must come by
//! there. Whatever is changed is held first to what it must be.

use crate::boxes::{associations, boxed, boxes, find, full, must, offsets, raise, IPMA_HEAD};
use crate::predict::tiles;
use crate::reference::alpha_depth_at;
use kahopiru::{Orientation, Panel};
use std::ops::Range;

/// How long upstream's clap box is.
const LENGTH: usize = 40;
/// What is added to a position where the item cannot be shown without the property.
const ESSENTIAL: u8 = 0x80;
/// What an alpha picture's auxC says.
const ALPHA_URN: &[u8] = b"urn:mpeg:hevc:2015:auxid:1\0";

/// Upstream's clap box for the tiles of a panel that has a visible size.
pub fn of(panel: &Panel<'_>) -> Result<Vec<u8>, String> {
    let visible = panel.visible.ok_or("the panel has no visible size")?;
    Ok(oracle::clap((panel.dims.tile_w, panel.dims.tile_h), (visible.w, visible.h)))
}

/// Puts a clap box at a place of upstream's file, which must be where the panel's belongs.
pub fn put(file: &mut Vec<u8>, panel: &Panel<'_>, place: usize, clap: &[u8]) -> Result<(), String> {
    put_with(file, panel, place, clap, &mut |_, _| ())
}

/// What is done to the list of properties that an item names.
pub type Change<'a> = &'a mut dyn FnMut(usize, &mut Vec<u8>);

/// The same with each item's list changed as the last thing before it is put in, as the self-test wants it. Sizes and
/// offsets are raised by what is put in.
pub fn put_with(
    file: &mut Vec<u8>,
    panel: &Panel<'_>,
    place: usize,
    clap: &[u8],
    change: Change<'_>,
) -> Result<(), String> {
    if clap.len() != LENGTH || !clap.starts_with(b"\0\0\0\x28clap") {
        return Err("that is no clap box of 40 bytes".into());
    }
    let meta = find(file, &[b"meta"])?;
    let iloc = find(file, &[b"meta", b"iloc"])?;
    let iprp = find(file, &[b"meta", b"iprp"])?;
    let ipco = find(file, &[b"meta", b"iprp", b"ipco"])?;
    let ipma = find(file, &[b"meta", b"iprp", b"ipma"])?;
    must(ipma.start == ipco.end, || "ipma is not behind ipco".into())?;
    let position = position(file, &ipco, place)?;
    lies_between(file, panel, place, ipma.start)?;
    let offsets = offsets(file, &iloc)?;
    let entries = entries(file, &ipma, tiles(panel) as usize, position, change)?;
    let named = IPMA_HEAD + entries.len() - ipma.len();
    let more = LENGTH + named;

    // From the back to the front, so that what is still to be changed has not moved.
    file.splice(ipma.start + IPMA_HEAD..ipma.end, entries);
    raise(file, ipma.start, ipma.len(), named)?;
    file.splice(place..place, clap.iter().copied());
    raise(file, ipco.start, ipco.len(), LENGTH)?;
    raise(file, iprp.start, iprp.len(), more)?;
    for (at, offset) in offsets {
        raise(file, at, offset, more)?;
    }
    raise(file, meta.start, meta.len(), more)
}

// ---- the place

/// Where the clap of a panel lies: behind the alpha picture's pixi and auxC, the second colr, irot, imir and clli.
pub fn place(panel: &Panel<'_>) -> usize {
    let profile = second_profile(panel).map_or(0, |icc| 12 + icc.len());
    let turns = turns(panel.metadata.orientation).map(|turn| turn.map_or(0, |_| 9));
    let light = panel.metadata.content_light_level.map_or(0, |_| 12);
    alpha_depth_at(panel) + 1 + (12 + ALPHA_URN.len()) + profile + turns[0] + turns[1] + light
}

/// The profile of the second colr.
fn second_profile<'a>(panel: &Panel<'a>) -> Option<&'a [u8]> {
    panel.color_meta.cicp.and(panel.color_meta.icc)
}

/// What irot and imir say.
fn turns(orientation: Orientation) -> [Option<u8>; 2] {
    match orientation {
        Orientation::Normal => [None, None],
        Orientation::FlipH => [None, Some(0)],
        Orientation::Rotate180 => [Some(2), None],
        Orientation::FlipV => [None, Some(1)],
        Orientation::Transpose => [Some(3), Some(0)],
        Orientation::Rotate90 => [Some(3), None],
        Orientation::Transverse => [Some(1), Some(0)],
        Orientation::Rotate270 => [Some(1), None],
    }
}

/// Holds a place to what is on either side of the clap: before it the last property of the picture itself, behind it
/// the gain image's record, or ipma.
fn lies_between(file: &[u8], panel: &Panel<'_>, place: usize, ipma: usize) -> Result<(), String> {
    let before = match (panel.metadata.content_light_level, turns(panel.metadata.orientation)) {
        (Some(light), _) => {
            let levels = [light.max_content_light_level, light.max_pic_average_light_level];
            boxed(b"clli", &levels.map(u16::to_be_bytes).concat())
        }
        (None, [_, Some(axis)]) => boxed(b"imir", &[axis]),
        (None, [Some(steps), None]) => boxed(b"irot", &[steps]),
        (None, [None, None]) => match second_profile(panel) {
            Some(icc) => boxed(b"colr", &[b"prof", icc].concat()),
            None => full(b"auxC", 0, 0, ALPHA_URN),
        },
    };
    let (front, rest) = file.split_at(place);
    must(front.ends_with(&before), || format!("no {before:02X?} ends at byte {place}"))?;
    match panel.gain_map {
        Some(gain) => {
            let behind = boxed(b"hvcC", gain.hvcc);
            must(rest.starts_with(&behind), || format!("the gain image's record is not at byte {place}"))
        }
        None => must(place == ipma, || format!("ipco does not end at byte {place}")),
    }
}

/// The position of a property that is put at a place of ipco: one more than that of the property that ends there.
fn position(file: &[u8], ipco: &Range<usize>, place: usize) -> Result<u8, String> {
    let properties = boxes(file, ipco.start + 8..ipco.end)?;
    let before = properties.iter().position(|property| property.end == place);
    before.map(|index| index as u8 + 2).ok_or(format!("no property ends at byte {place}"))
}

// ---- the associations

/// The entries of ipma where a property is put at a position: each tile names it last, and what was at that position or
/// behind it is one further.
fn entries(file: &[u8], ipma: &Range<usize>, n: usize, position: u8, change: Change<'_>) -> Result<Vec<u8>, String> {
    let mut entries = Vec::new();
    let mut ids = Vec::new();
    for (id, list) in associations(file, ipma)? {
        let list = &file[list];
        let list = if (1..=n).contains(&id) {
            named(list, &[1, 2, 4], position)
        } else if (n + 2..=2 * n + 1).contains(&id) {
            named(list, &[6, 2], position)
        } else if id == n + 1 || id == 2 * n + 2 {
            must(!moves(list, position), || "names what moves".into()).map(|()| list.to_vec())
        } else {
            must(moves(list, position), || "names nothing that moves".into()).map(|()| moved(list, position))
        };
        let mut list = list.map_err(|why| format!("item {id} {why}"))?;
        change(id, &mut list);
        ids.push(id);
        entries.extend([&(id as u16).to_be_bytes()[..], &[list.len() as u8], &list].concat());
    }
    let first = ids.into_iter().take(2 * n + 2);
    must(first.eq(1..=2 * n + 2), || "not each tile and grid has an entry".into())?;
    Ok(entries)
}

/// A tile's list, which must be of these positions, all essential; and behind them the clap.
fn named(list: &[u8], positions: &[u8], position: u8) -> Result<Vec<u8>, String> {
    let essential: Vec<u8> = positions.iter().map(|each| ESSENTIAL | each).collect();
    must(list == essential, || format!("names {list:02X?}, not {essential:02X?}"))?;
    Ok([list, &[ESSENTIAL | position]].concat())
}

/// Whether a list names what is at a position or behind it.
fn moves(list: &[u8], position: u8) -> bool {
    list.iter().any(|each| each & !ESSENTIAL >= position)
}

fn moved(list: &[u8], position: u8) -> Vec<u8> {
    list.iter().map(|each| if each & !ESSENTIAL >= position { each + 1 } else { *each }).collect()
}
