//! The wide file of a panel of any number of tiles. Upstream's file, which could be widened, there is only as long as
//! ids have 16 bits. This one is written item by item, as docs/FORMAT.md lists items and references, in the versions
//! that 14496-12 has for ids of 32 bits. What does not depend on the number of tiles is taken from upstream's file of
//! the same panel with one empty tile in each picture: ftyp, hdlr and the properties, which of them an item names, what
//! a descriptor says of the picture's size, and the payloads behind the samples.

use crate::boxes::{associations, boxed, find, full, must, put_size};
use crate::compare::same_file;
use crate::panels::Case;
use crate::random::{self, Rng};
use crate::run::Run;
use crate::{predict, reference, sets};
use std::ops::RangeInclusive;

/// How many random panels are drawn whose files are held to upstream's.
const RANDOM: u64 = 4_000;

/// The wide file of a panel that is accepted in that form.
pub fn file(case: &Case) -> Result<Vec<u8>, String> {
    if u16::try_from(case.color_lengths.len()).is_err() {
        return Err("a reference leads to at most 65,535 items".into());
    }
    let template = Template::of(case)?;
    let ids = Ids::of(case);
    let items = items(case, &template);
    let before = [template.hdlr.clone(), full(b"pitm", 1, 0, &be(ids.color))].concat();
    let behind = [
        iinf(&items),
        full(b"iref", 1, 0, &references(&ids)),
        boxed(b"iprp", &[template.ipco.clone(), ipma(&items)].concat()),
        ids.tone.map_or(Vec::new(), |tone| grpl(tone, ids.color)),
        boxed(b"idat", &template.descriptor.repeat(2)),
    ]
    .concat();
    // The head of meta, iloc with its entries, and the head of mdat lie before the payloads, too.
    let data = template.ftyp.len() + 12 + before.len() + (18 + 18 * items.len()) + behind.len() + 8;
    let iloc = iloc(&items, data, template.descriptor.len());
    let meta = full(b"meta", 0, 0, &[before, iloc, behind].concat());
    let mdat = boxed(b"mdat", &[&case.color_samples, &case.alpha_samples, &template.payloads[..]].concat());
    must(data == template.ftyp.len() + meta.len() + 8, || "iloc is not as long as it was taken for".into())?;
    Ok([template.ftyp, meta, mdat].concat())
}

/// A number of 32 bits.
fn be(number: u32) -> [u8; 4] {
    number.to_be_bytes()
}

// ---- what is upstream's

struct Template {
    ftyp: Vec<u8>,
    hdlr: Vec<u8>,
    ipco: Vec<u8>,
    /// The properties that an item names, by its id among one tile in each picture.
    named: Vec<(usize, Vec<u8>)>,
    /// For the panel's own rows and columns.
    descriptor: Vec<u8>,
    /// What mdat has behind the samples.
    payloads: Vec<u8>,
}

impl Template {
    fn of(case: &Case) -> Result<Template, String> {
        let file = reference::file(&case.clone().with_grid(1, 1, vec![0], vec![0]))?;
        let whole = |path: &[&[u8; 4]]| Ok::<_, String>(file[find(&file, path)?].to_vec());
        let named = associations(&file, &find(&file, &[b"meta", b"iprp", b"ipma"])?)?;
        let idat = whole(&[b"meta", b"idat"])?;
        let (color, alpha) = idat[8..].split_at((idat.len() - 8) / 2);
        must(color == alpha, || "the two descriptors differ".into())?;
        must(color[2..4] == [0, 0], || "the descriptors are not of one row and one column".into())?;
        let mut descriptor = color.to_vec();
        (descriptor[2], descriptor[3]) = ((case.dims.rows - 1) as u8, (case.dims.cols - 1) as u8);
        Ok(Template {
            ftyp: whole(&[b"ftyp"])?,
            hdlr: whole(&[b"meta", b"hdlr"])?,
            ipco: whole(&[b"meta", b"iprp", b"ipco"])?,
            named: named.into_iter().map(|(id, list)| (id, file[list].to_vec())).collect(),
            descriptor,
            payloads: whole(&[b"mdat"])?[8..].to_vec(),
        })
    }

    /// What an item names.
    fn named(&self, id: usize) -> Option<&[u8]> {
        self.named.iter().find(|(each, _)| *each == id).map(|(_, list)| &list[..])
    }
}

// ---- the items

/// An item, in the order of the ids.
struct Item<'a> {
    kind: &'static [u8; 4],
    hidden: bool,
    payload: Payload,
    /// The properties that it names, if it has an entry in ipma.
    named: Option<&'a [u8]>,
}

/// Where the payload is: the next so many bytes of mdat, or the descriptor of this number.
enum Payload {
    Data(usize),
    Descriptor(usize),
}

fn items<'a>(case: &Case, template: &'a Template) -> Vec<Item<'a>> {
    let mut items = Vec::new();
    let pictures = [(&case.color_lengths, [1, 2]), (&case.alpha_lengths, [3, 4])];
    for (number, (lengths, [tile, grid])) in pictures.into_iter().enumerate() {
        items.extend(lengths.iter().map(|&length| Item {
            kind: b"hvc1",
            hidden: true,
            payload: Payload::Data(length as usize),
            named: template.named(tile),
        }));
        let payload = Payload::Descriptor(number);
        items.push(Item { kind: b"grid", hidden: false, payload, named: template.named(grid) });
    }
    let mut rest = Vec::new();
    if let Some(exif) = &case.exif {
        rest.push((b"Exif", false, 4 + exif.len()));
    }
    if let Some(gain) = &case.gain {
        rest.push((b"hvc1", true, gain.sample.len()));
        rest.push((b"mime", true, gain.xmp.len()));
        rest.extend(gain.tmap.as_ref().map(|tmap| (b"tmap", false, tmap.len())));
    }
    let behind = (5..).zip(rest).map(|(id, (kind, hidden, length))| Item {
        kind,
        hidden,
        payload: Payload::Data(length),
        named: template.named(id),
    });
    items.extend(behind);
    items
}

/// 14496-12, 8.11.3, version 2: ids and the count in 32 bits.
fn iloc(items: &[Item<'_>], data: usize, descriptor: usize) -> Vec<u8> {
    let mut body = [&[0x44, 0x00], &be(items.len() as u32)[..]].concat();
    let mut next = data;
    for (id, item) in (1..).zip(items) {
        let (method, offset, length) = match item.payload {
            Payload::Data(length) => (0, next, length),
            Payload::Descriptor(number) => (1, number * descriptor, descriptor),
        };
        body.extend(be(id));
        body.extend([0, method, 0, 0, 0, 1]); // the method, this file, one extent
        body.extend(be(offset as u32));
        body.extend(be(length as u32));
        next += if method == 0 { length } else { 0 };
    }
    full(b"iloc", 2, 0, &body)
}

/// 14496-12, 8.11.6: iinf in version 1 with a count of 32 bits, infe in version 3 with an id of 32.
fn iinf(items: &[Item<'_>]) -> Vec<u8> {
    let mut body = be(items.len() as u32).to_vec();
    for (id, item) in (1..).zip(items) {
        let begins = body.len();
        body.extend(b"\0\0\0\0infe");
        body.extend([3, 0, 0, item.hidden.into()]);
        body.extend(be(id));
        body.extend([0, 0]); // not protected
        body.extend(item.kind);
        body.push(0); // an empty name
        if item.kind == b"mime" {
            body.extend(b"application/rdf+xml\0");
        }
        put_size(&mut body, begins);
    }
    full(b"iinf", 1, 0, &body)
}

/// 23008-12, 9.3.1, version 1: ids in 32 bits.
fn ipma(items: &[Item<'_>]) -> Vec<u8> {
    let mut body = Vec::new();
    let mut count = 0;
    for (id, item) in (1..).zip(items) {
        if let Some(named) = item.named {
            count += 1;
            body.extend(be(id));
            body.push(named.len() as u8);
            body.extend(named);
        }
    }
    full(b"ipma", 1, 0, &[&be(count), &body[..]].concat())
}

// ---- what leads from one to another

/// The ids of the items that references and groups name.
struct Ids {
    color_tiles: RangeInclusive<u32>,
    color: u32,
    alpha_tiles: RangeInclusive<u32>,
    alpha: u32,
    exif: Option<u32>,
    /// The image, and its XMP.
    gain: Option<(u32, u32)>,
    tone: Option<u32>,
}

impl Ids {
    fn of(case: &Case) -> Ids {
        let n = case.dims.rows * case.dims.cols;
        let exif = case.exif.as_ref().map(|_| 2 * n + 3);
        let image = 2 * n + 3 + u32::from(exif.is_some());
        let gain = case.gain.as_ref();
        Ids {
            color_tiles: 1..=n,
            color: n + 1,
            alpha_tiles: n + 2..=2 * n + 1,
            alpha: 2 * n + 2,
            exif,
            gain: gain.map(|_| (image, image + 1)),
            tone: gain.and_then(|gain| gain.tmap.as_ref()).map(|_| image + 2),
        }
    }
}

/// 14496-12, 8.11.12, version 1: ids in 32 bits, and the count in 16.
fn references(ids: &Ids) -> Vec<u8> {
    let mut all = Vec::new();
    let mut add = |kind: &[u8; 4], from: u32, to: &mut dyn Iterator<Item = u32>| {
        let to: Vec<[u8; 4]> = to.map(be).collect();
        let count = to.len() as u16;
        all.extend(boxed(kind, &[&be(from), &count.to_be_bytes()[..], &to.concat()].concat()));
    };
    add(b"dimg", ids.color, &mut ids.color_tiles.clone());
    add(b"dimg", ids.alpha, &mut ids.alpha_tiles.clone());
    add(b"auxl", ids.alpha, &mut [ids.color].into_iter());
    if let Some(exif) = ids.exif {
        add(b"cdsc", exif, &mut [ids.color].into_iter());
    }
    if let Some((image, xmp)) = ids.gain {
        add(b"auxl", image, &mut [ids.color].into_iter());
        add(b"cdsc", xmp, &mut [image].into_iter());
        if let Some(tone) = ids.tone {
            add(b"dimg", tone, &mut [ids.color, image].into_iter());
        }
    }
    all
}

/// The tone map or else the colour grid is shown. Ids have 32 bits here in either form.
fn grpl(tone: u32, color: u32) -> Vec<u8> {
    boxed(b"grpl", &full(b"altr", 0, 0, &[tone + 1, 2, tone, color].map(be).concat()))
}

// ---- held to upstream's

/// Holds what is written here to upstream's files widened, where there are such: of listed panels, without a visible
/// size and with one, and of random ones. Answers of how many.
pub fn run(run: &mut Run, seed: u64) -> u64 {
    let mut rng = Rng::new(seed ^ 0x3A17);
    let mut panels = sets::whole();
    for (name, case) in panels.clone() {
        panels.push((format!("{name}, 61 by 63 shown"), case.with_visible(61, 63)));
    }
    // Of those with so many tiles four that upstream has, with other options each.
    panels.extend(sets::around_the_last_id().into_iter().step_by(5));
    panels.extend((0..RANDOM).map(|number| (format!("random panel {number}"), random::panel(&mut rng))));
    let mut held = 0;
    for (name, case) in panels {
        if predict::answer(&case.panel(), None).is_ok() {
            held += 1;
            if let Err(why) = as_widened(&case) {
                run.fail(&format!("written item by item, {name}"), &why, &case);
            }
        }
    }
    held
}

fn as_widened(case: &Case) -> Result<(), String> {
    let ordinary = reference::file(case)?;
    same_file(&reference::wide_file(case, Some(&ordinary))?, &file(case)?)
}
