//! Times upstream's function, the writer in either form and memcpy of as many bytes, all in one run, and prints three
//! tables: times, ratios, and how they grow with the number of tiles. Nothing is asserted of a time.

mod panels;
mod rooms;
mod timing;

use panels::Tiles;
use timing::{rounds, Job, Times, What};

/// Panels for the first two tables: name, columns, rows, bytes of a sample, calls at once, rounds.
const PANELS: [(&str, u32, u32, usize, usize, usize); 3] = [
    ("P", 1, 1, 1, 64, 2000),
    ("16 × 16 tiles of 2 KiB", 16, 16, 2048, 4, 300),
    ("100 × 100 tiles of 4 KiB", 100, 100, 4096, 1, 15),
];

/// Grids for the last table: columns, rows, calls at once, rounds.
const GRIDS: [(u32, u32, usize, usize); 6] =
    [(1, 1, 64, 1000), (10, 1, 32, 500), (10, 10, 16, 200), (100, 10, 4, 100), (100, 100, 1, 50), (200, 160, 1, 30)];
const GROWTH_SAMPLE: usize = 64;

/// More tiles than the ordinary form takes, for the last row: columns, rows, calls at once, rounds.
const WIDE_ALONE: (u32, u32, usize, usize) = (255, 256, 1, 30);

/// Ratios of like with like.
const RATIOS: [(What, What); 9] = [
    (What::ToVecFresh, What::UpstreamFresh),
    (What::WriteFresh, What::UpstreamFresh),
    (What::WriteFresh, What::CopyFresh),
    (What::ToVecWarm, What::UpstreamWarm),
    (What::WriteWarm, What::UpstreamWarm),
    (What::WriteWarm, What::CopyWarm),
    (What::WideFresh, What::WriteFresh),
    (What::WideWarm, What::WriteWarm),
    (What::WideLength, What::Length),
];

/// Microseconds, with as many digits as mean something.
fn micros(nanos: f64) -> String {
    let micros = nanos / 1000.0;
    let digits = if micros < 10.0 {
        3
    } else if micros < 100.0 {
        1
    } else {
        0
    };
    format!("{micros:.digits$}")
}

fn pair(times: Times) -> String {
    format!("{} ({})", micros(times.least), micros(times.median))
}

fn row(first: &str, rest: impl IntoIterator<Item = String>) {
    let cells: Vec<String> = rest.into_iter().collect();
    println!("| {first} | {} |", cells.join(" | "));
}

fn head(first: &str, rest: &[String]) {
    row(first, rest.iter().cloned());
    row("---", rest.iter().map(|_| "---:".to_string()));
}

/// The first two tables.
fn panels() {
    let mut names = Vec::new();
    let mut columns = Vec::new();
    for (name, cols, rows, each, batch, count) in PANELS {
        let mut job = Job::new(Tiles::new(cols, rows, each), batch);
        names.push(format!("{name}, {} bytes", job.length()));
        columns.push(rounds(&mut job, &What::ALL, count));
    }
    println!(
        "Microseconds of one call: the least, and in brackets the median. 'Fresh' is memory that no one has touched,"
    );
    println!("'warm' has been in use; upstream and to_vec make a vector, write and memcpy have a room lent.\n");
    head("", &names);
    for (i, what) in What::ALL.iter().enumerate() {
        row(what.name(), columns.iter().map(|column| pair(column[i])));
    }
    println!("\nRatios: of the least times, and in brackets of the medians.\n");
    head("", &names);
    for (over, under) in RATIOS {
        let place = |what| What::ALL.iter().position(|&w| w == what).expect("it is one of all");
        let (over_at, under_at) = (place(over), place(under));
        let ratio = |column: &Vec<Times>| {
            let (a, b) = (column[over_at], column[under_at]);
            format!("{:.2} ({:.2})", a.least / b.least, a.median / b.median)
        };
        row(&format!("{} ÷ {}", over.name(), under.name()), columns.iter().map(ratio));
    }
}

/// The last table.
fn growth() {
    const OURS: [What; 4] = [What::WriteWarm, What::WideWarm, What::Length, What::WideLength];
    let what = [[What::UpstreamWarm].as_slice(), &OURS].concat();
    println!(
        "\nGrowth, with samples of {GROWTH_SAMPLE} bytes: microseconds of one call (least), and nanoseconds a tile.\n"
    );
    let ratios = ["wide ÷ write, warm", "wide length ÷ file_length"].map(String::from);
    let names: Vec<String> = what.iter().map(|w| w.name().to_string()).chain(ratios).collect();
    head("tiles of colour and as many of alpha", &names);
    for (cols, rows, batch, count) in GRIDS {
        let mut job = Job::new(Tiles::new(cols, rows, GROWTH_SAMPLE), batch);
        let tiles = cols * rows;
        let times = rounds(&mut job, &what, count);
        let ratio = |over: usize| format!("{:.2}", times[over].least / times[over - 1].least);
        let cells = times.iter().map(|time| per_tile(*time, tiles));
        row(&tiles.to_string(), cells.chain([ratio(2), ratio(4)]));
    }
    wide_alone();
}

/// The row of a panel that has no ordinary file.
fn wide_alone() {
    let (cols, rows, batch, count) = WIDE_ALONE;
    let mut job = Job::wide_alone(Tiles::new(cols, rows, GROWTH_SAMPLE), batch);
    let times = rounds(&mut job, &[What::WideWarm, What::WideLength], count);
    let [wide, length] = [times[0], times[1]].map(|time| per_tile(time, cols * rows));
    let none = || String::from("–");
    row(&(cols * rows).to_string(), [none(), none(), wide, none(), length, none(), none()]);
}

/// A time, and how much of it falls on a tile.
fn per_tile(time: Times, tiles: u32) -> String {
    format!("{} ({:.1} ns)", micros(time.least), time.least / f64::from(tiles))
}

fn main() {
    panels();
    growth();
}
