//! The proved judge, lookup, builder and checker of the C interface, as the tests call them.

use crate::checker::Record;
use crate::texts::{taken_apart, Refusal};
use crate::Chart;

pub mod linked {
    extern "C" {
        pub fn picker_judge(places: u32, alarm: u32, rows: *const u32, rows_len: usize) -> u64;
        pub fn picker_lookup(
            old_places: u32,
            old_alarm: u32,
            old_rows: *const u32,
            old_rows_len: usize,
            new_places: u32,
            new_alarm: u32,
            new_rows: *const u32,
            new_rows_len: usize,
            chart: u32,
            place: u32,
            rows: *mut u32,
            rows_len: usize,
        ) -> u64;
        pub fn picker_build(
            edition: u32,
            old_places: u32,
            old_alarm: u32,
            old_rows: *const u32,
            old_rows_len: usize,
            new_places: u32,
            new_alarm: u32,
            new_rows: *const u32,
            new_rows_len: usize,
            marks: *mut u8,
            marks_len: usize,
            targets: *mut u16,
            targets_len: usize,
            sets: *mut u64,
            sets_len: usize,
            waiting: *mut u8,
            waiting_len: usize,
        ) -> u64;
        pub fn picker_check(
            edition: u32,
            old_places: u32,
            old_alarm: u32,
            old_rows: *const u32,
            old_rows_len: usize,
            new_places: u32,
            new_alarm: u32,
            new_rows: *const u32,
            new_rows_len: usize,
            start: u32,
            marks: *const u8,
            marks_len: usize,
            targets: *const u16,
            targets_len: usize,
            sets: *const u64,
            sets_len: usize,
        ) -> u64;
    }
}

/// The four buffers that a build is lent.
#[derive(Clone, Debug, PartialEq, Eq)]
pub struct Buffers {
    pub marks: Vec<u8>,
    pub targets: Vec<u16>,
    pub sets: Vec<u64>,
    pub waiting: Vec<u8>,
}

/// Zeros, or the first refusal that is due for a chart.
pub fn judge(chart: &Chart) -> Result<[u64; 4], Refusal> {
    taken_apart(unsafe { linked::picker_judge(chart.places, chart.alarm, chart.rows.as_ptr(), chart.rows.len()) })
}

/// Start and counts of marks 1, 2 and 3.
pub fn build(edition: u32, old: &Chart, new: &Chart, buffers: &mut Buffers) -> Result<[u64; 4], Refusal> {
    taken_apart(unsafe {
        linked::picker_build(
            edition,
            old.places,
            old.alarm,
            old.rows.as_ptr(),
            old.rows.len(),
            new.places,
            new.alarm,
            new.rows.as_ptr(),
            new.rows.len(),
            buffers.marks.as_mut_ptr(),
            buffers.marks.len(),
            buffers.targets.as_mut_ptr(),
            buffers.targets.len(),
            buffers.sets.as_mut_ptr(),
            buffers.sets.len(),
            buffers.waiting.as_mut_ptr(),
            buffers.waiting.len(),
        )
    })
}

/// Four times 0 where the record is passed.
pub fn check(edition: u32, old: &Chart, new: &Chart, record: &Record) -> Result<[u64; 4], Refusal> {
    taken_apart(unsafe {
        linked::picker_check(
            edition,
            old.places,
            old.alarm,
            old.rows.as_ptr(),
            old.rows.len(),
            new.places,
            new.alarm,
            new.rows.as_ptr(),
            new.rows.len(),
            record.start,
            record.marks.as_ptr(),
            record.marks.len(),
            record.targets.as_ptr(),
            record.targets.len(),
            record.sets.as_ptr(),
            record.sets.len(),
        )
    })
}

/// The count of rows that leave a place; the rows go to the front of the lent entries.
pub fn lookup(old: &Chart, new: &Chart, chart: u32, place: u32, rows: &mut [u32]) -> Result<[u64; 4], Refusal> {
    taken_apart(unsafe {
        linked::picker_lookup(
            old.places,
            old.alarm,
            old.rows.as_ptr(),
            old.rows.len(),
            new.places,
            new.alarm,
            new.rows.as_ptr(),
            new.rows.len(),
            chart,
            place,
            rows.as_mut_ptr(),
            rows.len(),
        )
    })
}
