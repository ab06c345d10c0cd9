//! Why a file is not written.

use crate::Refusal;
use std::{error, fmt, io};

/// Why [`write_to`](crate::write_to), or the same [in a form](crate::write_to_in_form), has not written the whole file.
#[derive(Debug)]
pub enum WriteError {
    /// The panel is refused; nothing was written.
    Refused(Refusal),
    /// The output failed; the front of the file may have been written.
    Io(io::Error),
}

impl fmt::Display for WriteError {
    fn fmt(&self, f: &mut fmt::Formatter<'_>) -> fmt::Result {
        match self {
            WriteError::Refused(why) => write!(f, "the panel is refused: {why}"),
            WriteError::Io(why) => write!(f, "the file could not be written: {why}"),
        }
    }
}

impl error::Error for WriteError {
    fn source(&self) -> Option<&(dyn error::Error + 'static)> {
        match self {
            WriteError::Refused(why) => Some(why),
            WriteError::Io(why) => Some(why),
        }
    }
}

impl From<Refusal> for WriteError {
    fn from(why: Refusal) -> Self {
        WriteError::Refused(why)
    }
}

impl From<io::Error> for WriteError {
    fn from(why: io::Error) -> Self {
        WriteError::Io(why)
    }
}
