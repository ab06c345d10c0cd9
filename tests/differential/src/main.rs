//! The writer compared with upstream's: the same panels to both, through the binding and through the archive's own
//! interface; every answer, every byte of the file, and every byte that must not be written.

mod boxes;
mod calls;
mod clap;
mod codes;
mod compare;
mod coverage;
mod differences;
mod edges;
mod exifs;
mod faults;
mod fence;
mod huge;
mod many;
mod memory;
mod orders;
mod panels;
mod predict;
mod random;
mod raw;
mod reader;
mod reference;
mod run;
mod selftest;
mod sets;
mod sheet;
mod sheets;
mod stored;
mod tiles;
mod trials;
mod upstream;
mod vectors;
mod visible;
mod wide_faults;
mod widen;

use coverage::Coverage;
use random::Rng;
use run::{Answers, Rooms, Run};
use std::io::Write;
use std::process::ExitCode;
use std::time::Instant;

const HELP: &str = "usage: differential [--seed N] [--long] [--huge]
       differential vectors
       differential stored

  --seed N   draw other random panels (the seed is printed with each run)
  --long     draw 1,000,000 random panels instead of 100,000
  --huge     also write three files of 4,294,967,295 bytes (takes 8.1 GiB of memory)
  vectors    print a fixed list of upstream's files: name, sheet and file in hexadecimal
  stored     print what the program crate program_files must write, from upstream's files";

struct Options {
    seed: u64,
    panels: u64,
    huge: bool,
    print: Option<Print>,
}

/// Something to print from upstream's files, in place of the comparison.
type Print = fn() -> Result<Vec<u8>, String>;

fn options() -> Result<Options, String> {
    let mut options = Options { seed: 1, panels: 100_000, huge: false, print: None };
    let mut words = std::env::args().skip(1);
    while let Some(word) = words.next() {
        match word.as_str() {
            "--seed" => {
                let number = words.next().and_then(|n| n.parse().ok());
                options.seed = number.ok_or("--seed wants a number")?;
            }
            "--long" => options.panels = 1_000_000,
            "--huge" => options.huge = true,
            "vectors" => options.print = Some(|| vectors::text().map(String::into_bytes)),
            "stored" => options.print = Some(stored::bytes),
            _ => return Err(format!("'{word}' is not known\n{HELP}")),
        }
    }
    Ok(options)
}

/// Runs a set and says what it held: in the ordinary form, and in the wide one.
fn set(name: &str, run: &mut Run, go: impl FnOnce(&mut Run)) {
    let (before, failed) = ([run.panels.clone(), run.wide.clone()], run.failures);
    go(run);
    let [ordinary, wide] = [(&run.panels, &before[0]), (&run.wide, &before[1])].map(|(now, before)| {
        let accepted = accepted(now) - accepted(before);
        let refused = now.values().sum::<u64>() - before.values().sum::<u64>() - accepted;
        format!("{accepted} accepted, {refused} refused")
    });
    println!("{name}: {ordinary}; wide: {wide}; {} differ", run.failures - failed);
}

/// How many panels were accepted.
fn accepted(answers: &Answers) -> u64 {
    answers.get(&0).copied().unwrap_or(0)
}

/// How many were accepted, and how many were refused with each number.
fn counts(answers: &Answers) -> String {
    let refused: Vec<String> =
        answers.iter().filter(|(n, _)| **n != 0).map(|(n, count)| format!("{count} with {n}")).collect();
    format!("{} accepted; refused: {}", accepted(answers), refused.join(", "))
}

/// One random panel in so many is also asked for in the wide form.
const WIDE: u64 = 4;

/// Draws panels. Fails if too few were accepted, or if something looked for never occurred among the accepted or among
/// those refused with 8 or with 22.
fn random(run: &mut Run, seed: u64, panels: u64) {
    let (mut rng, mut accepted) = (Rng::new(seed), 0);
    let (mut coverage, mut uncovered) = (Coverage::of_accepted(), Coverage::of_uncovered());
    let mut misfits = Coverage::of_misfits();
    for number in 0..panels {
        let case = random::panel(&mut rng);
        let wide = number.is_multiple_of(WIDE).then_some(Rooms::Every);
        match run.panel_with(wide, &format!("random panel {number} of seed {seed}"), &case) {
            None => {
                accepted += 1;
                coverage.count(&case);
            }
            Some(8) => uncovered.count(&case),
            Some(22) => misfits.count(&case),
            Some(_) => {}
        }
    }
    if accepted < panels / 10 * 9 {
        run.fail("random panels", "fewer than nine in ten were accepted", &accepted);
    }
    for (of, among) in [
        (&coverage, "an accepted panel"),
        (&uncovered, "a panel refused with 8"),
        (&misfits, "a panel refused with 22"),
    ] {
        for name in of.missing() {
            run.fail("random panels", &format!("never occurred in {among}"), &name);
        }
        let (rarest, count) = of.rarest();
        println!("random panels: of {} things looked for in {among} the rarest is '{rarest}', in {count}", of.len());
    }
    println!("random panels: one in {WIDE} is also asked for in the wide form");
    println!("random panels: {} of the {accepted} accepted have a visible size", coverage.of("visible size"));
    let causes: Vec<String> = visible::CAUSES.iter().map(|(name, _)| format!("{name} {}", misfits.of(name))).collect();
    println!("random panels: refused with 22: {}", causes.join(", "));
}

/// Compares sheets and says what they were.
fn sheets(run: &mut Run, seed: u64) {
    let seen = sheets::run(run, seed);
    println!("sheets: {} in all; {}", seen.sheets, counts(&seen.answers));
    match seen.program {
        Some(count) => println!("program_panel: {count} of them through the program"),
        None => println!("program_panel: the program is not built, so it was left out"),
    }
}

fn everything(options: &Options) -> Run {
    let mut run = Run::new(options.seed);
    set("lettered trials", &mut run, trials::run);
    set("grids", &mut run, sets::grids);
    set("combinations", &mut run, sets::combinations);
    set("depths", &mut run, sets::depths);
    set("Exif markers", &mut run, sets::exif_markers);
    set("descriptors", &mut run, sets::descriptors);
    set("sizes that tiles cover, or not", &mut run, sets::covers);
    set("sizes around visible ones", &mut run, visible::run_sizes);
    set("visible sizes beside all else", &mut run, visible::run_beside);
    set("last ids", &mut run, sets::last_ids);
    set("as many tiles as the wide form takes", &mut run, edges::run);
    set("refusals", &mut run, sets::refusals);
    set("lengths around 4 GiB", &mut run, huge::lengths);
    set("two checks at once", &mut run, orders::panels);
    let ordered = orders::run(&mut run);
    println!("the order of the checks: {ordered} calls at which two hold");
    let parts = differences::run(&mut run);
    println!("where upstream parts from the specification: {parts} panels");
    let held = many::run(&mut run, options.seed);
    println!("wide files written item by item: {held} are upstream's, widened");
    let (codes, unnamed) = codes::run(&mut run);
    println!("codes: {codes} values, of which {unnamed} name nothing and are refused with 13");
    let unnamed = codes::unnamed_forms(&mut run);
    println!("codes of forms: {unnamed} calls that are told 1, 2 or 4 to 255, all refused with 13");
    let fenced = fence::run(&mut run, options.seed);
    println!("fenced: {fenced} panels, every part hard by memory that cannot be touched, before it and behind it");
    let lookups = tiles::run(&mut run, options.seed);
    println!("tile lookups: {lookups}");
    sheets(&mut run, options.seed);
    set("random panels", &mut run, |run| random(run, options.seed, options.panels));
    if options.huge {
        set("huge", &mut run, huge::write);
    }
    run
}

/// The counts and the verdict.
fn report(run: &Run) -> bool {
    println!("panels: {}", counts(&run.panels));
    println!("panels in the wide form: {}", counts(&run.wide));
    println!("panels that the wide form alone takes: {}, of more ids than 16 bits have", run.beyond);
    println!("panels told the ordinary form: {}, answered and written as by the calls that name none", run.told);
    println!("visible sizes: in {} of the accepted panels", run.visible);
    println!("calls compared: {}, of which {} into too little room, refused with 6", run.calls, run.short_rooms);
    let (unnoticed, made) = selftest::run();
    for name in &unnoticed {
        println!("self-test: {name} was not reported");
    }
    println!("self-test: {} of {made} differences made on purpose were reported", made - unnoticed.len().min(made));
    println!("{} differ", run.failures);
    run.failures == 0 && unnoticed.is_empty()
}

fn main() -> ExitCode {
    let options = match options() {
        Ok(options) => options,
        Err(why) => {
            eprintln!("differential: {why}");
            return ExitCode::from(2);
        }
    };
    if let Some(print) = options.print {
        let printed = print().and_then(|bytes| std::io::stdout().write_all(&bytes).map_err(|e| e.to_string()));
        return match printed {
            Ok(()) => ExitCode::SUCCESS,
            Err(why) => {
                eprintln!("differential: {why}");
                ExitCode::FAILURE
            }
        };
    }
    let begun = Instant::now();
    println!("seed {}", options.seed);
    let passed = report(&everything(&options));
    println!("{:.1} s", begun.elapsed().as_secs_f64());
    if passed {
        ExitCode::SUCCESS
    } else {
        ExitCode::FAILURE
    }
}
