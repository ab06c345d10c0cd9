//! One panel through every call, on both sides.

use crate::calls::{Calls, WIDE};
use crate::compare::{judge, said, same_answer, same_file, Room};
use crate::panels::Case;
use crate::predict::{self, Answer, Form};
use crate::random::Rng;
use crate::{raw, reference, visible};
use kahopiru::{sys, Panel};
use std::collections::BTreeMap;

/// How many failures are shown before the rest is only counted.
const SHOWN: u64 = 12;

/// One panel in so many is also asked for by the calls that are told the ordinary form.
const TOLD: u64 = 8;

/// The rooms that a file is written into.
#[derive(Clone, Copy, PartialEq)]
pub enum Rooms {
    /// More than the file needs, just enough, a byte too little, none; and a vector.
    Every,
    /// More than the file needs, and a byte too little: for long files.
    Two,
}

/// What a run has seen so far.
pub struct Run {
    room: Room,
    rng: Rng,
    /// Panels by their answer in the ordinary form: 0 for accepted, else the number of the refusal.
    pub panels: Answers,
    /// Panels by their answer in the wide form.
    pub wide: Answers,
    /// Panels that the ordinary form refuses with 4 and the wide form accepts.
    pub beyond: u64,
    /// Panels that were also asked for by the calls that are told the ordinary form.
    pub told: u64,
    /// Accepted panels with a visible size.
    pub visible: u64,
    /// Writing calls that must find the room too short.
    pub short_rooms: u64,
    /// Calls whose answer and output were compared.
    pub calls: u64,
    pub failures: u64,
}

/// How many panels had an answer.
pub type Answers = BTreeMap<u32, u64>;

impl Run {
    pub fn new(seed: u64) -> Run {
        Run {
            room: Room::new(),
            rng: Rng::new(!seed),
            panels: Answers::new(),
            wide: Answers::new(),
            beyond: 0,
            told: 0,
            visible: 0,
            short_rooms: 0,
            calls: 0,
            failures: 0,
        }
    }

    /// Compares all that is said and done with a panel, in either form and with every room. Answers the number of the
    /// refusal that is due in the ordinary form, if one is.
    pub fn panel(&mut self, name: &str, case: &Case) -> Option<u32> {
        self.panel_with(Some(Rooms::Every), name, case)
    }

    /// The same, where the wide file goes into these rooms, or is not asked for.
    pub fn panel_with(&mut self, wide: Option<Rooms>, name: &str, case: &Case) -> Option<u32> {
        let expected = predict::answer(&case.panel(), None);
        self.count(&case.panel(), Calls::Plain);
        let outcome = self.in_ordinary_form(case).and_then(|file| match wide {
            Some(rooms) => self.in_wide_form(rooms, case, file.as_deref()),
            None => Ok(()),
        });
        if let Err(why) = outcome {
            self.fail(name, &why, case);
        }
        let causes = visible::causes(case);
        let told = match expected {
            Ok(_) => causes.is_empty(),
            Err(22) => !causes.is_empty(),
            Err(_) => true,
        };
        if !told {
            self.fail(name, &format!("is predicted {}, with these causes for 22: {causes:?}", said(expected)), case);
        }
        expected.err()
    }

    /// Counts a panel by its answer.
    pub fn count(&mut self, panel: &Panel<'_>, calls: Calls) {
        let answer = calls.expected(panel, None);
        let answers = if calls.form() == Form::Wide { &mut self.wide } else { &mut self.panels };
        *answers.entry(answer.err().unwrap_or(0)).or_default() += 1;
        if calls == Calls::Plain {
            self.visible += u64::from(answer.is_ok() && panel.visible.is_some());
        }
    }

    /// Reports a difference.
    pub fn fail(&mut self, name: &str, why: &str, what: &dyn std::fmt::Debug) {
        self.failures += 1;
        if self.failures <= SHOWN {
            let mut text = format!("{what:?}");
            if let Some((cut, _)) = text.char_indices().nth(1500) {
                text.truncate(cut);
                text.push_str(" ..");
            }
            eprintln!("DIFFERS: {name}: {why}\n  {text}");
        }
    }

    /// Asks for a panel's file in the ordinary form. Answers it, if there is one.
    fn in_ordinary_form(&mut self, case: &Case) -> Result<Option<Vec<u8>>, String> {
        let file = match Calls::Plain.expected(&case.panel(), None) {
            Ok(_) => Some(reference::file(case).map_err(|e| format!("upstream: {e}"))?),
            Err(_) => None,
        };
        self.compare(Rooms::Every, case, Calls::Plain, file.as_deref())?;
        if self.panels.values().sum::<u64>().is_multiple_of(TOLD) {
            self.told += 1;
            self.compare(Rooms::Every, case, Calls::Told(Form::Ordinary), file.as_deref())?;
        }
        Ok(file)
    }

    /// Asks for a panel's file in the wide form, given its ordinary one, if there is one.
    fn in_wide_form(&mut self, rooms: Rooms, case: &Case, ordinary: Option<&[u8]>) -> Result<(), String> {
        self.count(&case.panel(), WIDE);
        let file = match WIDE.expected(&case.panel(), None) {
            Ok(_) => Some(reference::wide_file(case, ordinary).map_err(|e| format!("the wide file: {e}"))?),
            Err(_) => None,
        };
        self.beyond += u64::from(file.is_some() && ordinary.is_none());
        self.compare(rooms, case, WIDE, file.as_deref())
    }

    /// Asks by these calls for the length of a panel's file, and for the file.
    fn compare(&mut self, rooms: Rooms, case: &Case, calls: Calls, file: Option<&[u8]>) -> Result<(), String> {
        let expected = calls.expected(&case.panel(), None);
        let file = file.unwrap_or_default();
        if expected.is_ok_and(|length| file.len() as u64 != length) {
            let count = file.len();
            return Err(format!("the file{calls} has {count} bytes, the specification says {}", said(expected)));
        }
        self.length_calls(case, calls)?;
        for room in rooms.sizes(file, expected) {
            self.write_calls(case, calls, file, room)?;
        }
        if rooms == Rooms::Two {
            return Ok(());
        }
        let vector = calls.to_vec(&case.panel());
        let answer = vector.as_ref().map(|v| v.len() as u64).map_err(|number| *number);
        same_answer(expected, answer).map_err(|e| format!("to_vec{calls} {e}"))?;
        same_file(file, &vector.unwrap_or_default()).map_err(|e| format!("to_vec{calls}: {e}"))
    }

    fn length_calls(&mut self, case: &Case, calls: Calls) -> Result<(), String> {
        let expected = calls.expected(&case.panel(), None);
        same_answer(expected, calls.length(&case.panel())).map_err(|e| format!("the length call{calls} {e}"))?;
        let (numbers, stray) = self.strays(case);
        let raw = calls.raw_length(numbers, &raw::lent(case, &stray));
        self.calls += 2;
        same_answer(expected, raw).map_err(|e| format!("the length call{calls} with stray bytes {e}"))
    }

    /// Both writing calls, the binding's and the archive's own with stray bytes, into so much room.
    fn write_calls(&mut self, case: &Case, calls: Calls, file: &[u8], room: usize) -> Result<(), String> {
        let expected = calls.expected(&case.panel(), Some(room));
        self.short_rooms += if expected == Err(6) { 2 } else { 0 };
        let answer = calls.write(&case.panel(), self.room.lend(room));
        judge(expected, file, answer, &self.room).map_err(|e| format!("write{calls} into {room}: {e}"))?;
        let (numbers, stray) = self.strays(case);
        let answer = calls.raw_write(numbers, &raw::lent(case, &stray), self.room.lend(room));
        self.calls += 2;
        judge(expected, file, answer, &self.room).map_err(|e| format!("write{calls} with stray bytes into {room}: {e}"))
    }

    fn strays(&mut self, case: &Case) -> (sys::Panel, Vec<u8>) {
        let numbers = raw::numbers(case, &mut self.rng);
        (numbers, (0..self.rng.below(9)).map(|_| 0xD7).collect())
    }
}

impl Rooms {
    /// How large they are: for a file, and where there is none.
    fn sizes(self, file: &[u8], expected: Answer) -> Vec<usize> {
        match (expected, self) {
            (Ok(_), Rooms::Every) => vec![file.len() + 37, file.len(), file.len() - 1, 0],
            (Ok(_), Rooms::Two) => vec![file.len() + 37, file.len() - 1],
            (Err(_), _) => vec![700, 0],
        }
    }
}
