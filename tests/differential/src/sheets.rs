//! Panel sheets: the archive's call and the program, held to upstream's writer (reference.rs) behind a reader of our own
//! (reader.rs).

use crate::compare::{judge, Room};
use crate::panels::{full, p, Case};
use crate::predict::{self, Answer};
use crate::random::{self, Rng};
use crate::run::{Answers, Run};
use crate::sheet::{every_field, sheet};
use crate::{raw, reader, reference};
use kahopiru::{sys, GridDims};
use std::io::Write;
use std::path::PathBuf;
use std::process::{Command, Stdio};

/// How many random sheets are drawn, and how many damaged ones.
const RANDOM: u64 = 12_000;
const DAMAGED: u64 = 10_000;
/// How many sheets the program is given.
const PROGRAM: usize = 200;
/// The room that the program has.
pub const ROOM: usize = 32_768;

/// What has been compared.
pub struct Seen {
    pub sheets: u64,
    /// By answer: 0 for accepted, else the number of the refusal.
    pub answers: Answers,
    /// How many of them went through the program, if it was there.
    pub program: Option<usize>,
}

/// What a sheet is refused with where there is so much room, in the order of reading and then of the panel's checks; and
/// the panel that it says.
pub fn holding(sheet: &[u8], room: usize) -> (Vec<u32>, Case) {
    let (mut met, case) = reader::read(sheet);
    met.extend(predict::holding(&case.panel(), Some(room)));
    (met, case)
}

/// What a sheet must be answered with so much room, and the file, if there is one.
fn expected(sheet: &[u8], room: usize) -> (Answer, Vec<u8>) {
    let (refusals, case) = holding(sheet, room);
    match refusals.first() {
        Some(&number) => (Err(number), Vec::new()),
        None => (predict::answer(&case.panel(), Some(room)), reference::file(&case).unwrap_or_default()),
    }
}

fn one(sheet: &[u8], size: usize, room: &mut Room) -> Result<Answer, String> {
    let (wanted, file) = expected(sheet, size);
    let answer = raw::answer(sys::sheet(sheet, room.lend(size)));
    judge(wanted, &file, answer, room)?;
    Ok(wanted)
}

/// All sheets: every map, every truncation, random ones and damaged ones.
fn sheets(seed: u64) -> Vec<Vec<u8>> {
    let mut all = Vec::new();
    for map in 0..512_u16 {
        all.push(every_field(map, &full()));
    }
    for bit in 9..16 {
        all.push(every_field(1 << bit, &full()));
        all.push(every_field(0x1FF | 1 << bit, &full()));
    }
    for (cols, rows) in [(0, 1), (1, 0), (0, 0), (257, 1), (1, 300), (0, 65_535)] {
        all.push(sheet(&p().with_empty_grid(cols, rows)));
    }
    for (tile_w, tile_h, full_w, full_h) in
        [(64, 64, 65, 64), (64, 64, 64, 65), (0, 64, 64, 64), (64, 64, 64, 0), (0, 0, 0, 0)]
    {
        let mut case = p();
        case.dims = GridDims { tile_w, tile_h, full_w, full_h, ..case.dims };
        all.push(sheet(&case));
    }
    let whole = sheet(&full().with_grid(2, 2, vec![1, 0, 2, 1], vec![0, 1, 1, 0]));
    all.extend((0..=whole.len()).map(|n| whole[..n].to_vec()));
    all.push([&whole[..], &[0]].concat());
    let mut rng = Rng::new(seed ^ 0x5EE7);
    let cases: Vec<Case> = (0..RANDOM).map(|_| random::panel(&mut rng)).collect();
    all.extend(cases.iter().map(sheet));
    for number in 0..DAMAGED {
        let mut damaged = sheet(&cases[(number % RANDOM) as usize]);
        damage(&mut rng, &mut damaged);
        all.push(damaged);
    }
    all
}

/// Changes a byte near the front, or some byte; takes bytes away, or adds some.
fn damage(rng: &mut Rng, sheet: &mut Vec<u8>) {
    loop {
        let at = rng.below(sheet.len() as u64) as usize;
        match rng.below(8) {
            0 => sheet[at % 2] ^= 1 << rng.below(8),
            1..=4 => sheet[at] = rng.next() as u8,
            5 => sheet.truncate(at.max(1)),
            6 => sheet.push(rng.next() as u8),
            _ => sheet.resize(12_287 + rng.below(3) as usize, 0),
        }
        if !rng.once_in(4) {
            return;
        }
    }
}

/// The program, where the proofs' run has built it.
fn program() -> Option<PathBuf> {
    let path = PathBuf::from(concat!(env!("CARGO_MANIFEST_DIR"), "/../../target/bin/program_panel"));
    path.is_file().then_some(path)
}

/// What the program prints for a sheet.
fn printed(program: &PathBuf, sheet: &[u8]) -> std::io::Result<Vec<u8>> {
    let mut child = Command::new(program).stdin(Stdio::piped()).stdout(Stdio::piped()).spawn()?;
    // A sheet that is too long is not read to its end: then the pipe may be closed on us.
    let _ = child.stdin.take().expect("stdin is piped").write_all(sheet);
    Ok(child.wait_with_output()?.stdout)
}

fn through_program(run: &mut Run, program: &PathBuf, sheets: &[Vec<u8>]) -> usize {
    let step = sheets.len() / PROGRAM;
    let chosen: Vec<&Vec<u8>> = sheets.iter().step_by(step).take(PROGRAM).collect();
    for sheet in &chosen {
        let (answer, file) = expected(sheet, ROOM);
        let wanted = answer.map_or_else(|n| format!("refused {n}\n").into_bytes(), |_| file);
        match printed(program, sheet) {
            Ok(found) if found == wanted => {}
            Ok(found) => {
                run.fail("program_panel", &format!("prints {} bytes, not {}", found.len(), wanted.len()), sheet)
            }
            Err(e) => run.fail("program_panel", &e.to_string(), sheet),
        }
    }
    chosen.len()
}

pub fn run(run: &mut Run, seed: u64) -> Seen {
    let all = sheets(seed);
    let mut seen = Seen { sheets: 0, answers: Answers::new(), program: None };
    let mut room = Room::new();
    for sheet in &all {
        for size in [ROOM, 0, 600] {
            match one(sheet, size, &mut room) {
                Ok(answer) if size == ROOM => *seen.answers.entry(answer.err().unwrap_or(0)).or_default() += 1,
                Ok(_) => {}
                Err(why) => run.fail("sheet", &why, sheet),
            }
        }
        seen.sheets += 1;
    }
    for number in [0, 1, 6, 8, 11, 12, 13, 14, 15] {
        if !seen.answers.contains_key(&number) {
            run.fail("sheets", "no sheet was answered so", &number);
        }
    }
    // A sheet says as many lengths as it has tiles, and no visible size.
    for number in [2, 3, 4, 5, 22] {
        if seen.answers.contains_key(&number) {
            run.fail("sheets", "a sheet cannot be answered so", &number);
        }
    }
    seen.program = program().map(|p| through_program(run, &p, &all));
    seen
}
