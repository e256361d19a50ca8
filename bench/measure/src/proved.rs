//! The proved calls, in the static library of `crates/calls`.
use crate::answer::Answer;
use crate::lent::Lent;

#[repr(C)]
struct PlanAnswer {
    refusal: u8,
    place: usize,
    rounds: u16,
    looks: u64,
}

#[repr(C)]
struct RowAnswer {
    refusal: u8,
    place: usize,
    changes: usize,
    rounds: u16,
    looks: u64,
    moved: u16,
}

// A slice crosses as a pointer and a length, and the heap as nothing.
unsafe extern "C" {
    fn cirdumash_plan(
        day: *const u8,
        day_length: usize,
        rounds: *mut u16,
        rounds_length: usize,
        group_rows: *mut u16,
        group_rows_length: usize,
        station_rows: *mut u16,
        station_rows_length: usize,
    ) -> PlanAnswer;

    fn cirdumash_change(
        day: *const u8,
        day_length: usize,
        changes: *const u8,
        changes_length: usize,
        rounds: *mut u16,
        rounds_length: usize,
        group_rows: *mut u16,
        group_rows_length: usize,
        station_rows: *mut u16,
        station_rows_length: usize,
    ) -> RowAnswer;
}

pub fn plan(day: &[u8], lent: &mut Lent) -> Answer {
    // SAFETY: the declaration fits that of `crates/calls`, which requires nothing, and each pointer and length are those of one
    // slice that is borrowed for the call.
    let answer = unsafe {
        cirdumash_plan(
            day.as_ptr(),
            day.len(),
            lent.rounds.as_mut_ptr(),
            lent.rounds.len(),
            lent.group_rows.as_mut_ptr(),
            lent.group_rows.len(),
            lent.station_rows.as_mut_ptr(),
            lent.station_rows.len(),
        )
    };
    match answer.refusal {
        0 => Answer::Planned {
            rounds: answer.rounds,
            looks: answer.looks,
        },
        number => Answer::Refused {
            number,
            place: answer.place,
        },
    }
}

pub fn change(day: &[u8], changes: &[u8], lent: &mut Lent) -> Answer {
    // SAFETY: as in `plan`.
    let answer = unsafe {
        cirdumash_change(
            day.as_ptr(),
            day.len(),
            changes.as_ptr(),
            changes.len(),
            lent.rounds.as_mut_ptr(),
            lent.rounds.len(),
            lent.group_rows.as_mut_ptr(),
            lent.group_rows.len(),
            lent.station_rows.as_mut_ptr(),
            lent.station_rows.len(),
        )
    };
    match answer.refusal {
        0 => Answer::Changed {
            changes: answer.changes,
            rounds: answer.rounds,
            looks: answer.looks,
            moved: answer.moved,
        },
        number => Answer::Refused {
            number,
            place: answer.place,
        },
    }
}
