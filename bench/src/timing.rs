//! Times, each of a batch of calls, in interleaved rounds.

use crate::panels::Tiles;
use crate::rooms::{self, Fresh};
use kahopiru::{FileForm, Panel, Refusal};
use std::hint::black_box;
use std::time::Instant;

/// What is timed, in the order of a round: like beside like.
#[derive(Clone, Copy, PartialEq)]
pub enum What {
    UpstreamFresh,
    ToVecFresh,
    WriteFresh,
    WideFresh,
    CopyFresh,
    UpstreamWarm,
    ToVecWarm,
    WriteWarm,
    WideWarm,
    CopyWarm,
    Length,
    WideLength,
}

impl What {
    pub const ALL: [What; 12] = [
        What::UpstreamFresh,
        What::ToVecFresh,
        What::WriteFresh,
        What::WideFresh,
        What::CopyFresh,
        What::UpstreamWarm,
        What::ToVecWarm,
        What::WriteWarm,
        What::WideWarm,
        What::CopyWarm,
        What::Length,
        What::WideLength,
    ];

    pub fn name(self) -> &'static str {
        match self {
            What::UpstreamFresh => "fresh: upstream",
            What::ToVecFresh => "fresh: kahopiru, to_vec",
            What::WriteFresh => "fresh: kahopiru, write",
            What::WideFresh => "fresh: kahopiru, wide",
            What::CopyFresh => "fresh: memcpy",
            What::UpstreamWarm => "warm: upstream",
            What::ToVecWarm => "warm: kahopiru, to_vec",
            What::WriteWarm => "warm: kahopiru, write",
            What::WideWarm => "warm: kahopiru, wide",
            What::CopyWarm => "warm: memcpy",
            What::Length => "kahopiru, file_length",
            What::WideLength => "kahopiru, wide length",
        }
    }
}

/// A panel with the file that it makes, and how many calls are timed at once.
pub struct Job {
    tiles: Tiles,
    /// The ordinary file, if there is one.
    file: Vec<u8>,
    /// How long the wide file is.
    wide: usize,
    batch: usize,
    warm: Vec<u8>,
}

impl Job {
    /// Both sides must make the same file, or their times say nothing.
    pub fn new(tiles: Tiles, batch: usize) -> Job {
        let file = kahopiru::to_vec(&tiles.ours()).expect("the panel is accepted");
        assert!(oracle::write(&tiles.theirs()).as_deref() == Ok(&file[..]), "the two files differ");
        Job { file, ..Job::wide_alone(tiles, batch) }
    }

    /// A panel that may have no ordinary file. Only the wide calls can be timed.
    pub fn wide_alone(tiles: Tiles, batch: usize) -> Job {
        let wide = kahopiru::to_vec_in_form(FileForm::Wide, &tiles.ours()).expect("the panel is accepted").len();
        // Written once, so that its pages are there.
        let warm = vec![1; wide];
        Job { tiles, file: Vec::new(), wide, batch, warm }
    }

    pub fn length(&self) -> usize {
        self.file.len()
    }

    /// Nanoseconds that one call takes, as the mean of a batch.
    fn time(&mut self, what: What) -> f64 {
        let batch = self.batch;
        let total = match what {
            What::UpstreamFresh => in_fresh_memory(|| self.upstream()),
            What::ToVecFresh => in_fresh_memory(|| self.to_vec()),
            What::WriteFresh => self.fresh(self.file.len(), |job, room| job.write(room)),
            What::CopyFresh => self.fresh(self.file.len(), |job, room| job.copy(room)),
            What::WideFresh => self.fresh(self.wide, |job, room| job.write_wide(room)),
            What::UpstreamWarm => in_warm_memory(|| self.upstream()),
            What::ToVecWarm => in_warm_memory(|| self.to_vec()),
            What::WriteWarm => self.warm(self.file.len(), |job, room| job.write(room)),
            What::CopyWarm => self.warm(self.file.len(), |job, room| job.copy(room)),
            What::WideWarm => self.warm(self.wide, |job, room| job.write_wide(room)),
            What::Length => self.length_calls(kahopiru::file_length),
            What::WideLength => self.length_calls(|panel| kahopiru::form_length(FileForm::Wide, panel)),
        };
        total / batch as f64
    }

    /// Upstream's function. Its arguments are made before, and its files dropped after, the clock runs; what it drops
    /// itself, the samples that it was handed, it drops within.
    fn upstream(&self) -> f64 {
        let theirs = self.tiles.theirs();
        let prepared: Vec<_> = (0..self.batch).map(|_| oracle::Prepared::new(&theirs)).collect();
        let mut files = Vec::with_capacity(self.batch);
        clock(self.batch, |i| files.push(black_box(&prepared[i]).run()))
    }

    fn to_vec(&self) -> f64 {
        let panel = self.tiles.ours();
        let mut files = Vec::with_capacity(self.batch);
        clock(self.batch, |_| files.push(kahopiru::to_vec(black_box(&panel))))
    }

    fn length_calls(&self, call: impl Fn(&Panel<'_>) -> Result<u64, Refusal>) -> f64 {
        let panel = self.tiles.ours();
        clock(self.batch, |_| {
            let _ = black_box(call(black_box(&panel)));
        })
    }

    /// A batch of calls, each into room of its own, of so many bytes, that no one has touched.
    fn fresh(&self, count: usize, call: impl Fn(&Job, &mut [u8])) -> f64 {
        let mut room = Fresh::new(self.batch * count);
        let mut rooms: Vec<&mut [u8]> = room.bytes().chunks_mut(count).collect();
        clock(self.batch, |i| call(self, rooms[i]))
    }

    /// A batch of calls into the same room, of so many bytes.
    fn warm(&mut self, count: usize, call: impl Fn(&Job, &mut [u8])) -> f64 {
        let mut room = std::mem::take(&mut self.warm);
        let time = clock(self.batch, |_| call(self, &mut room[..count]));
        self.warm = room;
        time
    }

    fn write(&self, room: &mut [u8]) {
        let _ = black_box(kahopiru::write(black_box(&self.tiles.ours()), black_box(room)));
    }

    fn write_wide(&self, room: &mut [u8]) {
        let panel = self.tiles.ours();
        let _ = black_box(kahopiru::write_in_form(FileForm::Wide, black_box(&panel), black_box(room)));
    }

    fn copy(&self, room: &mut [u8]) {
        black_box(room).copy_from_slice(black_box(&self.file));
    }
}

/// A time in which vectors are made of untouched pages.
fn in_fresh_memory(time: impl Fn() -> f64) -> f64 {
    rooms::allocate_fresh();
    time()
}

/// A time in which vectors are made of memory that has been in use: by the same calls, once before.
fn in_warm_memory(time: impl Fn() -> f64) -> f64 {
    rooms::allocate_warm();
    time();
    time()
}

/// Nanoseconds of all calls together.
fn clock(batch: usize, mut call: impl FnMut(usize)) -> f64 {
    let begun = Instant::now();
    for i in 0..batch {
        call(i);
    }
    begun.elapsed().as_nanos() as f64
}

/// The least and the middle of several times, in nanoseconds.
#[derive(Clone, Copy)]
pub struct Times {
    pub least: f64,
    pub median: f64,
}

/// Times everything in rounds, so that a slow moment falls on all alike. Every second round goes the other way round:
/// so of two neighbours neither always comes second, and finds the panel's bytes nearer. The first round is not
/// counted.
pub fn rounds(job: &mut Job, what: &[What], count: usize) -> Vec<Times> {
    let mut times = vec![Vec::with_capacity(count); what.len()];
    for round in 0..=count {
        for place in 0..what.len() {
            let each = if round % 2 == 0 { place } else { what.len() - 1 - place };
            let time = job.time(what[each]);
            if round > 0 {
                times[each].push(time);
            }
        }
    }
    times.into_iter().map(summary).collect()
}

fn summary(mut times: Vec<f64>) -> Times {
    times.sort_by(f64::total_cmp);
    Times { least: times[0], median: times[times.len() / 2] }
}
