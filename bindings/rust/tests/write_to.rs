//! Files that go to a writer: the whole file, or an error that says who failed.

mod common;

use common::p;
use kahopiru::{to_vec, write_to, GridDims, Panel, Refusal, WriteError};
use std::error::Error;
use std::io::{self, BufWriter, Write};

/// A writer that takes so many bytes, a few at a time, and then fails; and that counts how often it is flushed.
#[derive(Default)]
struct Narrow {
    room: usize,
    taken: Vec<u8>,
    flushed: usize,
    flush_fails: bool,
    interrupted: bool,
}

impl Write for Narrow {
    fn write(&mut self, bytes: &[u8]) -> io::Result<usize> {
        self.interrupted = !self.interrupted;
        if self.interrupted {
            return Err(io::ErrorKind::Interrupted.into());
        }
        let count = bytes.len().min(7).min(self.room - self.taken.len());
        if count == 0 {
            return Err(io::ErrorKind::BrokenPipe.into());
        }
        self.taken.extend_from_slice(&bytes[..count]);
        Ok(count)
    }

    fn flush(&mut self) -> io::Result<()> {
        self.flushed += 1;
        if self.flush_fails {
            return Err(io::ErrorKind::TimedOut.into());
        }
        Ok(())
    }
}

/// The kind of the failure of the output, if that is what failed.
fn failure(answer: Result<u64, WriteError>) -> Option<io::ErrorKind> {
    match answer {
        Err(WriteError::Io(why)) => Some(why.kind()),
        _ => None,
    }
}

#[test]
fn the_whole_file_is_written_and_flushed() {
    let file = to_vec(&p()).unwrap();
    let mut out = Narrow { room: 556, ..Narrow::default() };
    assert_eq!(write_to(&p(), &mut out).unwrap(), 556);
    assert!(out.taken == file && out.flushed == 1);
    // What a buffer holds is written before the call returns.
    let mut out = Narrow { room: 556, ..Narrow::default() };
    let mut buffer = BufWriter::with_capacity(1000, &mut out);
    assert_eq!(write_to(&p(), &mut buffer).unwrap(), 556);
    assert!(buffer.buffer().is_empty());
    drop(buffer);
    assert!(out.taken == file);
}

#[test]
fn a_writer_that_fails_is_an_error() {
    let mut short = Narrow { room: 555, ..Narrow::default() };
    assert_eq!(failure(write_to(&p(), &mut short)), Some(io::ErrorKind::BrokenPipe));
    assert_eq!(short.taken.len(), 555);
    // A slice says that it is full by taking nothing.
    assert_eq!(failure(write_to(&p(), &mut [0; 555][..])), Some(io::ErrorKind::WriteZero));
    assert_eq!(write_to(&p(), &mut [0; 556][..]).unwrap(), 556);
    let mut broken = Narrow { room: 556, flush_fails: true, ..Narrow::default() };
    assert_eq!(failure(write_to(&p(), &mut broken)), Some(io::ErrorKind::TimedOut));
    let buffer = BufWriter::with_capacity(1000, Narrow::default());
    assert_eq!(failure(write_to(&p(), buffer)), Some(io::ErrorKind::BrokenPipe));
}

#[test]
fn a_refused_panel_writes_nothing() {
    let panel = Panel { dims: GridDims { cols: 0, ..p().dims }, ..p() };
    let mut out = Narrow { room: 556, ..Narrow::default() };
    assert!(matches!(write_to(&panel, &mut out), Err(WriteError::Refused(Refusal::GridSide))));
    assert!(out.taken.is_empty() && out.flushed == 0);
}

#[test]
fn the_error_says_what_failed_and_leads_to_why() {
    let refused = WriteError::from(Refusal::NoTile);
    assert_eq!(refused.to_string(), "the panel is refused: the item id names no tile");
    assert_eq!(refused.source().and_then(|why| why.downcast_ref()), Some(&Refusal::NoTile));
    let failed = WriteError::from(io::Error::other("no disk"));
    assert_eq!(failed.to_string(), "the file could not be written: no disk");
    assert!(failed.source().is_some_and(|why| why.is::<io::Error>() && why.to_string() == "no disk"));
    let anything: Box<dyn Error + Send + Sync> = failed.into();
    assert!(anything.is::<WriteError>());
}
