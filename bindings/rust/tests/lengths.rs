//! docs/LENGTH.md says how to work out a file's length from a list of what its panel has. Here panels are listed row by
//! row of the page's tables, and nothing but these tables is known of a length: what the rows sum to must be what the
//! length call answers.

mod common;

use common::accepted::Pool;
use common::listed::{rext, rows};
use common::random::Random;
use common::sheet::with_panel;
use common::table::{thousands, Row, Table};
use kahopiru::{file_length, write, ColorMetadata, Panel, Refusal};
use std::collections::BTreeMap;

const PAGE: &str = include_str!("../../../docs/LENGTH.md");

/// The page's formulas by the names of their rows, and its worked cards.
struct Page {
    formulas: BTreeMap<&'static str, &'static str>,
    cards: Vec<Table<'static>>,
}

impl Page {
    fn read() -> Page {
        let mut page = Page { formulas: BTreeMap::new(), cards: vec![] };
        for table in Table::all(PAGE) {
            match table.head {
                "every panel has" | "the panel has" => table.rows.into_iter().for_each(|row| page.add(row)),
                head if head.ends_with(".sheet has") => page.cards.push(table),
                head => panic!("docs/LENGTH.md has a table of another kind: {head}"),
            }
        }
        page
    }

    fn add(&mut self, (name, formula): (&'static str, &'static str)) {
        assert!(self.formulas.insert(name, formula).is_none(), "docs/LENGTH.md has two rows '{name}'");
    }

    fn formula(&self, row: &Row) -> &'static str {
        self.formulas.get(row.name).unwrap_or_else(|| panic!("docs/LENGTH.md has no row '{}'", row.name))
    }

    /// The rows of a panel as lines, each with how its bytes are worked out.
    fn lines(&self, rows: &[Row]) -> Vec<String> {
        rows.iter().map(|row| line(&row.told(), &row.worked(self.formula(row)))).collect()
    }

    fn sum(&self, rows: &[Row]) -> u64 {
        rows.iter().map(|row| row.value(self.formula(row))).sum::<i64>() as u64
    }
}

fn line(name: &str, bytes: &str) -> String {
    format!("{name}: {bytes}")
}

/// Whether a panel has something.
type Has = fn(&Panel<'_>) -> bool;

/// What must occur among the panels beside the rows: what adds nothing, and what a row counts as it counts all else.
const ALSO_DRAWN: [(&str, Has); 7] = [
    ("an alternate colour without a tone map", |panel| {
        let states = |color| color != ColorMetadata::default();
        panel.gain_map.is_some_and(|gain| gain.tmap.is_none() && gain.alternate_color.is_some_and(states))
    }),
    ("an alternate colour that states nothing", |panel| {
        panel.gain_map.is_some_and(|gain| gain.alternate_color == Some(ColorMetadata::default()))
    }),
    ("a tile above 65,535 in a picture that is not", |panel| {
        let dims = panel.dims;
        dims.tile_w.max(dims.tile_h) > 65_535 && dims.full_w.max(dims.full_h) <= 65_535
    }),
    ("a gain image above 65,535", |panel| panel.gain_map.is_some_and(|gain| gain.width > 65_535)),
    ("range extensions in the alpha record", |panel| rext(panel.alpha_hvcc)),
    ("a colour record of one byte", |panel| panel.color_hvcc.len() == 1),
    ("Exif with its marker", |panel| panel.metadata.exif.is_some_and(|exif| exif.starts_with(b"Exif\0\0"))),
];

#[test]
fn a_file_is_as_long_as_the_rows_of_its_panel_sum_to() {
    let page = Page::read();
    let mut random = Random(0x5705_1E57_0CE5);
    let pool = Pool::new(&mut random);
    let names = page.formulas.keys().copied().chain(ALSO_DRAWN.map(|(name, _)| name));
    let mut drawn: BTreeMap<&str, usize> = names.map(|name| (name, 0)).collect();
    for number in 0..10_000 {
        let panel = pool.panel(&mut random);
        let rows = rows(&panel);
        assert_eq!(file_length(&panel), Ok(page.sum(&rows)), "of panel {number}: {:#?}", page.lines(&rows));
        let others = ALSO_DRAWN.iter().filter(|(_, has)| has(&panel)).map(|(name, _)| *name);
        for name in rows.iter().map(|row| row.name).chain(others) {
            *drawn.entry(name).or_default() += 1;
        }
    }
    for (name, panels) in drawn {
        assert!(panels >= 300, "only {panels} panels have '{name}'");
    }
}

/// Those of a list that another lacks.
fn only_in<'a, T: PartialEq>(list: &'a [T], other: &[T]) -> Vec<&'a T> {
    list.iter().filter(|each| !other.contains(each)).collect()
}

#[test]
fn a_worked_card_is_the_list_of_its_sheet() {
    let page = Page::read();
    assert!(page.cards.len() >= 2, "docs/LENGTH.md works out {} cards, and two are wanted", page.cards.len());
    for card in &page.cards {
        let path = card.head.strip_suffix(" has").expect("the head of a card");
        let sheet = std::fs::read(format!("{}/../../{path}", env!("CARGO_MANIFEST_DIR"))).expect(path);
        with_panel(&sheet, |panel| {
            let rows = rows(panel);
            let sum = page.sum(&rows);
            let mut wanted = page.lines(&rows);
            wanted.push(line("together", &thousands(sum as i64)));
            let listed: Vec<_> = card.rows.iter().map(|(name, bytes)| line(name, bytes)).collect();
            let (strange, missing) = (only_in(&listed, &wanted), only_in(&wanted, &listed));
            assert!(strange.is_empty(), "{path} is listed with {strange:?}; its panel lacks them, and has {missing:?}");
            assert!(
                missing.is_empty() && listed.len() == wanted.len(),
                "{path} is listed without {missing:?}, or with a row twice"
            );
            assert_eq!(listed.last(), wanted.last(), "{path} does not end in its sum");
            assert_eq!(file_length(panel), Ok(sum), "{path}");
            let mut room = vec![0; sum as usize];
            assert_eq!(write(panel, &mut room[1..]), Err(Refusal::OutputLength), "{path}");
            assert_eq!(write(panel, &mut room), Ok(room.len()), "{path}");
        });
    }
}
