//! The clocks of several traces on one timeline: a safe wrapper of the proved merge.
//!
//! [`merge`] takes a manifest (JSON bytes, none meaning "no manifest") and a sheet (packed records of files, sources, snapshots and
//! events), and gives a [`Refusal`] or what is [`Merged`]. The archive is for x86-64 Linux.
#![deny(missing_docs)]

use std::error::Error;
use std::fmt;

/// The most sources, and the most machines with the host.
pub const MACHINES: usize = 32;
/// No accepted sheet has more events.
pub const EVENTS: usize = 6990;
/// A byte for each two of the 224 clocks.
const MATRIX: usize = 224 * 224;
/// What the summary holds in the place of a trace-time clock that is not there.
const UNTRACED: u32 = 0xffff_ffff;

extern "C" {
    fn narguvesh_merge(
        manifest: *const u8,
        manifest_length: usize,
        sheet: *const u8,
        sheet_length: usize,
        machines: *mut u8,
        machines_length: usize,
        times: *mut i64,
        times_length: usize,
        kinds: *mut u8,
        kinds_length: usize,
        steps: *mut u16,
        steps_length: usize,
        matrix: *mut u8,
        matrix_length: usize,
        readings: *mut i64,
        readings_length: usize,
        clocks: *mut u16,
        clocks_length: usize,
        summary: *mut u32,
    ) -> u8;
}

/// Why nothing is merged: a number from 1 to 37, which docs/REFUSALS.md explains.
#[derive(Clone, Copy, Debug, PartialEq, Eq, Hash)]
pub struct Refusal(pub u8);

impl fmt::Display for Refusal {
    fn fmt(&self, f: &mut fmt::Formatter<'_>) -> fmt::Result {
        write!(f, "refused {}", self.0)
    }
}

impl Error for Refusal {}

/// Why an event has no time.
#[derive(Clone, Copy, Debug, PartialEq, Eq, Hash)]
pub enum Drop {
    /// Drop 1: no path leads from its clock to trace time.
    Unrelated,
    /// Drop 2: a value on its path leaves 64 bits.
    OutOfRange,
    /// Drop 3: its time would be negative.
    BeforeStart,
}

/// The answer to one event.
#[derive(Clone, Copy, Debug, PartialEq, Eq, Hash)]
pub enum EventAnswer {
    /// Placed on the timeline.
    Placed {
        /// Its time on the trace-time clock, in nanoseconds.
        time: i64,
        /// The graph that its path is of, 1 to 3: recorded pairs; with equal REALTIME; with equal domains too.
        graph: u8,
        /// How many pairs its path has.
        steps: u16,
    },
    /// Dropped.
    Dropped(Drop),
}

/// What an accepted merge answers.
#[derive(Clone, Debug, PartialEq, Eq)]
pub struct Merged {
    /// How many files the sheet lists.
    pub files: u8,
    /// How many machines there are, with the host.
    pub machine_count: u8,
    /// The trace-time clock's number; none for a sheet without files.
    pub trace: Option<u16>,
    /// The machine of each source, in the sheet's order; zeros past the last source.
    pub machines: [u8; MACHINES],
    /// The answer to each event, in the sheet's order.
    pub events: Vec<EventAnswer>,
}

/// The answer that three numbers tell.
fn answer(time: i64, kind: u8, steps: u16) -> EventAnswer {
    match kind {
        1..=3 => EventAnswer::Placed { time, graph: kind, steps },
        4 => EventAnswer::Dropped(Drop::Unrelated),
        5 => EventAnswer::Dropped(Drop::OutOfRange),
        6 => EventAnswer::Dropped(Drop::BeforeStart),
        _ => unreachable!("the merge is proved to answer with a kind from 1 to 6"),
    }
}

/// Merges, in memory of its own: about 300 KB, which is given back before it returns.
///
/// The memory is long enough for every sheet, so refusal 38 is never given.
pub fn merge(manifest: &[u8], sheet: &[u8]) -> Result<Merged, Refusal> {
    let mut machines = [0u8; MACHINES];
    let mut times = vec![0i64; EVENTS];
    let mut kinds = vec![0u8; EVENTS];
    let mut steps = vec![0u16; EVENTS];
    let mut matrix = vec![0u8; MATRIX];
    let mut readings = vec![0i64; EVENTS];
    let mut clocks = vec![0u16; EVENTS];
    let mut summary = [0u32; 4];
    // SAFETY: each pointer is that of a live slice, so it is not null and aligned, and goes with that slice's length; the eight
    // slices that are written to are eight variables, and so overlap nothing.
    let number = unsafe {
        narguvesh_merge(
            manifest.as_ptr(),
            manifest.len(),
            sheet.as_ptr(),
            sheet.len(),
            machines.as_mut_ptr(),
            machines.len(),
            times.as_mut_ptr(),
            times.len(),
            kinds.as_mut_ptr(),
            kinds.len(),
            steps.as_mut_ptr(),
            steps.len(),
            matrix.as_mut_ptr(),
            matrix.len(),
            readings.as_mut_ptr(),
            readings.len(),
            clocks.as_mut_ptr(),
            clocks.len(),
            summary.as_mut_ptr(),
        )
    };
    if number != 0 {
        return Err(Refusal(number));
    }
    let [files, count, events, trace] = summary;
    Ok(Merged {
        files: files as u8,
        machine_count: count as u8,
        trace: (trace != UNTRACED).then_some(trace as u16),
        machines,
        events: (0..events as usize).map(|k| answer(times[k], kinds[k], steps[k])).collect(),
    })
}
