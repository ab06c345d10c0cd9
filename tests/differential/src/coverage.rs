//! What has occurred among the random panels that were accepted, among those whose tiles don't cover the picture, and
//! among those with a visible size that is refused. Whatever never did was not compared.

use crate::panels::{Case, Color, Gain};
use crate::random::MOST_DECODED;
use crate::reference::MARKER;
use crate::visible;
use kahopiru::{BitDepth, Cicp, MatrixCoefficients, Orientation, Primaries, TransferFunction};

type Holds = Box<dyn Fn(&Case) -> bool>;

/// Things that a panel may have, with how many had each.
pub struct Coverage(Vec<(String, Holds, u64)>);

impl Coverage {
    /// What is looked for in panels that are accepted.
    pub fn of_accepted() -> Coverage {
        let mut all = Coverage(Vec::new());
        all.options();
        all.enums();
        all.empty_parts();
        all.exif();
        all.records();
        all.codes("cicp", |c| c.color.cicp);
        all.codes("gain map's cicp", |c| c.gain.as_ref().map(|g| g.cicp));
        all.codes("alternate cicp", |c| alternate_of(c).and_then(|a| a.cicp));
        all.visible_sizes();
        for (name, axis) in AXES {
            all.add(format!("{name}: the tiles end where the picture does"), move |c| axis(c).over() == 0);
            all.add(format!("{name}: the tiles reach one further"), move |c| axis(c).over() == 1);
            all.add(format!("{name}: the tiles reach beyond 2³²"), move |c| axis(c).sum() > 1 << 32);
            all.add(format!("{name}: 32 bits lose that they reach"), move |c| (axis(c).sum() as u32) < axis(c).full);
        }
        all
    }

    /// What is looked for in panels that are refused because their tiles don't cover the picture.
    pub fn of_uncovered() -> Coverage {
        let mut all = Coverage(Vec::new());
        for (name, axis) in AXES {
            all.add(format!("{name}: the tiles end one too early"), move |c| axis(c).over() == -1);
            all.add(format!("{name}: no full size"), move |c| axis(c).full == 0 && axis(c).shown > 0);
            all.add(format!("{name}: no tile size"), move |c| axis(c).full > 0 && axis(c).shown == 0);
            all.add(format!("{name}: no full size, and a visible size"), move |c| {
                axis(c).full == 0 && c.visible.is_some()
            });
            all.add(format!("{name}: the tiles cover, what is shown of them does not"), move |c| {
                axis(c).over() < 0 && axis(c).decoded_sum() >= i64::from(axis(c).full)
            });
        }
        all.add("a wrong count of lengths", |c| c.color_lengths.len() != c.alpha_lengths.len());
        all
    }

    /// What is looked for in panels that are refused because of their visible size.
    pub fn of_misfits() -> Coverage {
        let mut all = Coverage(Vec::new());
        // Tiles of which nothing is shown never cover.
        let covers = |axis: Axis| axis.shown == 0 || (axis.full > 0 && axis.over() >= 0);
        for (name, holds) in visible::CAUSES {
            all.add(name, move |c| visible::caused(c, holds));
            all.add(format!("{name}, and nothing else"), move |c| {
                visible::causes(c) == [name] && AXES.iter().all(|(_, axis)| covers(axis(c)))
            });
        }
        for (name, axis) in AXES {
            all.add(format!("{name}: no tile size"), move |c| axis(c).tile == 0);
            all.add(format!("{name}: one more than the tile"), move |c| axis(c).hidden() == -1);
            all.add(format!("{name}: what is shown does not cover the picture"), move |c| axis(c).over() < 0);
        }
        all
    }

    /// Counts a panel.
    pub fn count(&mut self, case: &Case) {
        for (_, holds, count) in &mut self.0 {
            *count += u64::from(holds(case));
        }
    }

    /// How many panels had the thing of a name.
    pub fn of(&self, name: &str) -> u64 {
        self.0.iter().filter(|(each, _, _)| each == name).map(|(_, _, count)| count).sum()
    }

    /// How many things were looked for.
    pub fn len(&self) -> usize {
        self.0.len()
    }

    /// The thing that fewest panels had.
    pub fn rarest(&self) -> (&str, u64) {
        let rarest = self.0.iter().min_by_key(|(_, _, count)| count).expect("something is looked for");
        (&rarest.0, rarest.2)
    }

    /// What no panel had.
    pub fn missing(&self) -> Vec<&str> {
        self.0.iter().filter(|(_, _, count)| *count == 0).map(|(name, _, _)| name.as_str()).collect()
    }

    fn add(&mut self, name: impl Into<String>, holds: impl Fn(&Case) -> bool + 'static) {
        self.0.push((name.into(), Box::new(holds), 0));
    }

    /// A thing that a panel has, and that it lacks.
    fn both(&mut self, name: &str, holds: impl Fn(&Case) -> bool + Copy + 'static) {
        self.add(name, holds);
        self.add(format!("no {name}"), move |c| !holds(c));
    }

    fn options(&mut self) {
        self.both("cicp", |c| c.color.cicp.is_some());
        self.both("ICC", |c| c.color.icc.is_some());
        self.add("cicp and ICC", |c| c.color.cicp.is_some() && c.color.icc.is_some());
        self.add("neither cicp nor ICC", |c| c.color == Color::default());
        self.both("light level", |c| c.light.is_some());
        self.both("Exif", |c| c.exif.is_some());
        self.both("gain map", |c| c.gain.is_some());
        self.both("tone map", |c| c.gain.as_ref().is_some_and(|g| g.tmap.is_some()));
        self.both("alternate colour", |c| alternate_of(c).is_some());
        self.add("empty alternate colour", |c| toned(c, |a| *a == Color::default()));
        self.add("alternate cicp alone", |c| toned(c, |a| a.cicp.is_some() && a.icc.is_none()));
        self.add("alternate ICC alone", |c| toned(c, |a| a.cicp.is_none() && a.icc.is_some()));
        self.add("alternate cicp and ICC", |c| toned(c, |a| a.cicp.is_some() && a.icc.is_some()));
        self.add("alternate colour without tone map", |c| alternate_of(c).is_some() && !toned(c, |_| true));
        self.both("12-byte descriptor", |c| c.dims.full_w > 65_535 || c.dims.full_h > 65_535);
        self.add("grid of one tile", |c| c.color_lengths.len() == 1);
        self.add("256 rows", |c| c.dims.rows == 256);
        self.add("256 columns", |c| c.dims.cols == 256);
    }

    /// Visible sizes of each kind, and beside what else a panel may have.
    fn visible_sizes(&mut self) {
        self.both("visible size", |c| c.visible.is_some());
        for (name, axis) in AXES {
            self.visible(&format!("{name}: all is shown"), move |c| axis(c).shown == axis(c).tile);
            self.visible(&format!("{name}: all but one is shown"), move |c| axis(c).hidden() == 1);
            self.visible(&format!("{name}: one is shown"), move |c| axis(c).shown == 1 && axis(c).hidden() > 1);
            self.visible(&format!("{name}: little is shown"), move |c| axis(c).shown < axis(c).tile / 8);
            self.visible(&format!("{name}: an odd part of an even side"), move |c| {
                axis(c).shown % 2 == 1 && axis(c).tile % 2 == 0
            });
            self.visible(&format!("{name}: the longest side"), move |c| axis(c).tile == MOST_DECODED);
            self.visible(&format!("{name}: all of the longest side"), move |c| axis(c).shown == MOST_DECODED);
            self.visible(&format!("{name}: the picture ends where what is shown does"), move |c| axis(c).over() == 0);
            self.visible(&format!("{name}: what is shown reaches one further"), move |c| axis(c).over() == 1);
        }
        let [across, down] = AXES.map(|(_, axis)| move |c: &Case| axis(c).hidden() > 0);
        self.visible("cut across alone", move |c| across(c) && !down(c));
        self.visible("cut down alone", move |c| down(c) && !across(c));
        self.visible("cut across and down", move |c| across(c) && down(c));
        self.visible("not cut at all", move |c| !across(c) && !down(c));
        self.visible_beside();
    }

    /// Visible sizes beside what stands before the clap or behind it, or names it.
    fn visible_beside(&mut self) {
        self.visible("one tile", |c| c.color_lengths.len() == 1);
        self.visible("several tiles", |c| c.color_lengths.len() > 1);
        self.visible("256 rows", |c| c.dims.rows == 256);
        self.visible("256 columns", |c| c.dims.cols == 256);
        self.visible("12-byte descriptor", |c| c.dims.full_w > 65_535 || c.dims.full_h > 65_535);
        self.visible("Exif with its marker", |c| c.exif.as_ref().is_some_and(|e| e.starts_with(&MARKER)));
        self.visible("alpha's own depth", |c| c.bit_depth != c.alpha_bit_depth);
        self.visible("rext gain record, colour not", |c| gained(c, |g| rext(&g.hvcc)) && !rext(&c.color_hvcc));
        self.visible("an alternate cicp and ICC", |c| toned(c, |a| a.cicp.is_some() && a.icc.is_some()));
        for orientation in Orientation::ALL {
            self.visible(&format!("{orientation:?}"), move |c| c.orientation == orientation);
        }
        let second_colr = |c: &Case| c.color.cicp.is_some() && c.color.icc.is_some();
        let turned = |c: &Case| c.orientation != Orientation::Normal;
        // Each of the properties before the clap, there or not, beside each kind of gain map.
        for bits in 0..8 {
            let told =
                move |c: &Case| [second_colr(c), turned(c), c.light.is_some()] == [1, 2, 4].map(|b| bits & b > 0);
            let parts: Vec<&str> = [(1, "second colr"), (2, "turn"), (4, "light level")]
                .into_iter()
                .filter_map(|(bit, name)| (bits & bit > 0).then_some(name))
                .collect();
            let name = if parts.is_empty() { "none before it".to_string() } else { parts.join(", ") };
            self.visible(&format!("{name}; no gain map"), move |c| told(c) && c.gain.is_none());
            self.visible(&format!("{name}; a gain map"), move |c| told(c) && gained(c, |g| g.tmap.is_none()));
            self.visible(&format!("{name}; a tone map"), move |c| told(c) && gained(c, |g| g.tmap.is_some()));
        }
    }

    /// A thing that a panel with a visible size has.
    fn visible(&mut self, name: &str, holds: impl Fn(&Case) -> bool + 'static) {
        self.add(format!("visible size: {name}"), move |c| c.visible.is_some() && holds(c));
    }

    fn enums(&mut self) {
        for depth in BitDepth::ALL {
            self.add(format!("depth {depth:?}"), move |c| c.bit_depth == depth);
            self.add(format!("gain map's depth {depth:?}"), move |c| gained(c, |g| g.bit_depth == depth));
            for alpha in BitDepth::ALL {
                let both = move |c: &Case| (c.bit_depth, c.alpha_bit_depth) == (depth, alpha);
                self.add(format!("depth {depth:?}, alpha's {alpha:?}"), both);
                let toned = move |c: &Case| both(c) && gained(c, |g| g.tmap.is_some());
                self.add(format!("depth {depth:?}, alpha's {alpha:?}, beside a tone map"), toned);
            }
        }
        for orientation in Orientation::ALL {
            self.add(format!("{orientation:?}"), move |c| c.orientation == orientation);
        }
    }

    fn codes(&mut self, whose: &str, of: impl Fn(&Case) -> Option<Cicp> + Copy + 'static) {
        for value in Primaries::ALL {
            self.add(format!("{whose}: primaries {value:?}"), move |c| of(c).is_some_and(|x| x.primaries == value));
        }
        for value in TransferFunction::ALL {
            self.add(format!("{whose}: transfer {value:?}"), move |c| of(c).is_some_and(|x| x.transfer == value));
        }
        for value in MatrixCoefficients::ALL {
            self.add(format!("{whose}: matrix {value:?}"), move |c| of(c).is_some_and(|x| x.matrix == value));
        }
        for value in [false, true] {
            self.add(format!("{whose}: full range {value}"), move |c| of(c).is_some_and(|x| x.full_range == value));
        }
    }

    fn empty_parts(&mut self) {
        let empty = |part: Option<&Vec<u8>>| part.is_some_and(Vec::is_empty);
        self.add("empty colour record", |c| c.color_hvcc.is_empty());
        self.add("empty alpha record", |c| c.alpha_hvcc.is_empty());
        self.add("an empty colour sample", |c| c.color_lengths.contains(&0));
        self.add("an empty alpha sample", |c| c.alpha_lengths.contains(&0));
        self.add("no colour bytes", |c| c.color_samples.is_empty());
        self.add("no alpha bytes", |c| c.alpha_samples.is_empty());
        self.add("empty ICC", move |c| empty(c.color.icc.as_ref()));
        self.add("empty Exif", move |c| empty(c.exif.as_ref()));
        self.add("empty gain record", |c| gained(c, |g| g.hvcc.is_empty()));
        self.add("empty gain sample", |c| gained(c, |g| g.sample.is_empty()));
        self.add("empty XMP", |c| gained(c, |g| g.xmp.is_empty()));
        self.add("empty tone map", move |c| gained(c, |g| empty(g.tmap.as_ref())));
        self.add("empty alternate ICC", move |c| toned(c, |a| empty(a.icc.as_ref())));
    }

    fn exif(&mut self) {
        let is = |case: &Case, holds: fn(&[u8]) -> bool| case.exif.as_deref().is_some_and(holds);
        let marked = move |c: &Case| is(c, |e| e.starts_with(&MARKER));
        self.both("Exif with its marker", marked);
        self.add("the marker alone", move |c| is(c, |e| e == MARKER));
        self.add("the marker, beside a gain map", move |c| marked(c) && gained(c, |g| g.tmap.is_none()));
        self.add("the marker, beside a tone map", move |c| marked(c) && gained(c, |g| g.tmap.is_some()));
        self.add("the marker, and alpha's own depth", move |c| marked(c) && c.bit_depth != c.alpha_bit_depth);
        self.add("Exif of less than six bytes", move |c| is(c, |e| (1..6).contains(&e.len())));
        self.add("Exif of the marker's first five bytes", move |c| is(c, |e| e == &MARKER[..5]));
        self.add("five of the marker's bytes and more", move |c| {
            is(c, |e| e.len() > 5 && e.starts_with(&MARKER[..5]) && !e.starts_with(&MARKER))
        });
        self.add("the marker without its first byte", move |c| is(c, |e| e.starts_with(&MARKER[1..])));
        self.add("the marker in another case", move |c| {
            is(c, |e| e.len() > 5 && e[..6].eq_ignore_ascii_case(&MARKER) && !e.starts_with(&MARKER))
        });
        self.add("the marker behind a byte", move |c| is(c, |e| e.get(1..7) == Some(&MARKER[..])));
    }

    fn records(&mut self) {
        for count in [1, 2] {
            self.add(format!("colour record of {count}"), move |c| c.color_hvcc.len() == count);
            self.add(format!("alpha record of {count}"), move |c| c.alpha_hvcc.len() == count);
            self.add(format!("gain record of {count}"), move |c| gained(c, |g| g.hvcc.len() == count));
        }
        self.add("colour record of more", |c| c.color_hvcc.len() > 2);
        self.add("alpha record of more", |c| c.alpha_hvcc.len() > 2);
        self.add("gain record of more", |c| gained(c, |g| g.hvcc.len() > 2));
        self.both("rext colour record", |c| rext(&c.color_hvcc));
        self.both("rext alpha record", |c| rext(&c.alpha_hvcc));
        self.add("rext gain record, colour not", |c| gained(c, |g| rext(&g.hvcc)) && !rext(&c.color_hvcc));
        self.add("rext gain record, colour too", |c| gained(c, |g| rext(&g.hvcc)) && rext(&c.color_hvcc));
        self.add("rext colour record, gain not", |c| gained(c, |g| !rext(&g.hvcc)) && rext(&c.color_hvcc));
    }
}

/// Along one axis: how many tiles, the size of each, what is shown of it, and the full size.
struct Axis {
    tiles: u32,
    tile: u32,
    shown: u32,
    full: u32,
}

impl Axis {
    fn sum(&self) -> i64 {
        i64::from(self.tiles) * i64::from(self.shown)
    }

    fn decoded_sum(&self) -> i64 {
        i64::from(self.tiles) * i64::from(self.tile)
    }

    /// How much of a tile is not shown.
    fn hidden(&self) -> i64 {
        i64::from(self.tile) - i64::from(self.shown)
    }

    /// How far the tiles, or what is shown of them, reach beyond the picture.
    fn over(&self) -> i64 {
        self.sum() - i64::from(self.full)
    }
}

type NamedAxis = (&'static str, fn(&Case) -> Axis);

const AXES: [NamedAxis; 2] = [
    ("across", |c| Axis { tiles: c.dims.cols, tile: c.dims.tile_w, shown: c.shown().w, full: c.dims.full_w }),
    ("down", |c| Axis { tiles: c.dims.rows, tile: c.dims.tile_h, shown: c.shown().h, full: c.dims.full_h }),
];

fn rext(record: &[u8]) -> bool {
    record.len() > 1 && record[1] & 31 == 4
}

fn gained(case: &Case, holds: impl Fn(&Gain) -> bool) -> bool {
    case.gain.as_ref().is_some_and(holds)
}

fn alternate_of(case: &Case) -> Option<&Color> {
    case.gain.as_ref().and_then(|g| g.alternate.as_ref())
}

/// Whether there is an alternate colour beside a tone map, and it is so.
fn toned(case: &Case, holds: impl Fn(&Color) -> bool) -> bool {
    gained(case, |g| g.tmap.is_some() && g.alternate.as_ref().is_some_and(&holds))
}
