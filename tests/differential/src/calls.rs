//! The calls that make a panel's file: those that name no form of it, and those that are told one.

use crate::predict::{self, Answer, Form};
use crate::raw;
use kahopiru::{sys, FileForm, Panel, Refusal};
use std::fmt;

/// A length call, a writing call and one that makes a vector, of the binding; and the first two of the archive's own
/// interface.
#[derive(Clone, Copy, Debug, PartialEq)]
pub enum Calls {
    /// Those that name no form, and are of the ordinary one.
    Plain,
    /// Those that are told a form.
    Told(Form),
}

/// The calls that are told the wide form.
pub const WIDE: Calls = Calls::Told(Form::Wide);

/// The form as the binding takes it.
fn named(form: Form) -> FileForm {
    match form {
        Form::Ordinary => FileForm::Ordinary,
        Form::Wide => FileForm::Wide,
    }
}

impl Calls {
    /// The form of the file that they make.
    pub fn form(self) -> Form {
        match self {
            Calls::Plain => Form::Ordinary,
            Calls::Told(form) => form,
        }
    }

    /// What the writing calls must answer with so much room; the length calls, with no room named.
    pub fn expected(self, panel: &Panel<'_>, room: Option<usize>) -> Answer {
        predict::answer_in(self.form(), panel, room)
    }

    pub fn length(self, panel: &Panel<'_>) -> Answer {
        let length = match self {
            Calls::Plain => kahopiru::file_length(panel),
            Calls::Told(form) => kahopiru::form_length(named(form), panel),
        };
        length.map_err(Refusal::number)
    }

    pub fn write(self, panel: &Panel<'_>, out: &mut [u8]) -> Answer {
        let written = match self {
            Calls::Plain => kahopiru::write(panel, out),
            Calls::Told(form) => kahopiru::write_in_form(named(form), panel, out),
        };
        written.map(|length| length as u64).map_err(Refusal::number)
    }

    pub fn to_vec(self, panel: &Panel<'_>) -> Result<Vec<u8>, u32> {
        let file = match self {
            Calls::Plain => kahopiru::to_vec(panel),
            Calls::Told(form) => kahopiru::to_vec_in_form(named(form), panel),
        };
        file.map_err(Refusal::number)
    }

    pub fn raw_length(self, numbers: sys::Panel, lent: &sys::Lent<'_>) -> Answer {
        raw::answer(match self {
            Calls::Plain => sys::file_length(numbers, lent),
            Calls::Told(form) => sys::form_length(form as u8, numbers, lent),
        })
    }

    pub fn raw_write(self, numbers: sys::Panel, lent: &sys::Lent<'_>, out: &mut [u8]) -> Answer {
        raw::answer(match self {
            Calls::Plain => sys::write(numbers, lent, out),
            Calls::Told(form) => sys::form_write(form as u8, numbers, lent, out),
        })
    }
}

/// What is said of a call behind its name.
impl fmt::Display for Calls {
    fn fmt(&self, f: &mut fmt::Formatter<'_>) -> fmt::Result {
        f.write_str(match self {
            Calls::Plain => "",
            Calls::Told(Form::Ordinary) => " told the ordinary form",
            Calls::Told(Form::Wide) => " in the wide form",
        })
    }
}
