//! Turns panel sheets into HEIF files with the safe binding:
//! `sheet-writer [--wide] [--visible WIDTHxHEIGHT] SHEET FILE ...`
//!
//! Unlike the program `panel` this takes sheets of any length: the readers' panels are coded without loss and are
//! longer than a card's. `--wide` asks for the file of the next sheet in the wide form, and `--visible` gives its panel
//! a visible tile size; a sheet can say neither.

mod sheet;

use kahopiru::{FileForm, VisibleSize};
use std::process::ExitCode;

const USAGE: &str = "usage: sheet-writer [--wide] [--visible WIDTHxHEIGHT] SHEET FILE ...";

/// A sheet, the file that it is to become, its form, and the visible tile size.
struct Job {
    sheet: String,
    file: String,
    form: FileForm,
    visible: Option<VisibleSize>,
}

/// A size, as 63x65.
fn size(words: &str) -> Option<VisibleSize> {
    let (w, h) = words.split_once('x')?;
    Some(VisibleSize { w: w.parse().ok()?, h: h.parse().ok()? })
}

/// What the arguments ask for, or nothing if they are not understood.
fn jobs(mut words: impl Iterator<Item = String>) -> Option<Vec<Job>> {
    let mut found = Vec::new();
    while let Some(mut sheet) = words.next() {
        let (mut form, mut visible) = (FileForm::Ordinary, None);
        if sheet == "--wide" {
            form = FileForm::Wide;
            sheet = words.next()?;
        }
        if sheet == "--visible" {
            visible = Some(size(&words.next()?)?);
            sheet = words.next()?;
        }
        found.push(Job { sheet, file: words.next()?, form, visible });
    }
    Some(found).filter(|found| !found.is_empty())
}

fn convert(Job { sheet, file, form, visible }: &Job) -> Result<(), String> {
    let bytes = std::fs::read(sheet).map_err(|e| format!("{sheet}: {e}"))?;
    let written = sheet::written(&bytes, *form, *visible).map_err(|e| format!("{sheet}: {e}"))?;
    std::fs::write(file, written).map_err(|e| format!("{file}: {e}"))
}

fn main() -> ExitCode {
    let Some(jobs) = jobs(std::env::args().skip(1)) else {
        eprintln!("{USAGE}");
        return ExitCode::from(2);
    };
    for job in &jobs {
        if let Err(error) = convert(job) {
            eprintln!("sheet-writer: {error}");
            return ExitCode::FAILURE;
        }
    }
    ExitCode::SUCCESS
}
