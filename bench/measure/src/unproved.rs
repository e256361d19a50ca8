//! The calls in plain Rust.
use crate::answer::Answer;
use crate::lent::Lent;
use plain::Refusal;

fn refused(refusal: Refusal) -> Answer {
    Answer::Refused {
        number: refusal.number(),
        place: refusal.place(),
    }
}

pub fn plan(day: &[u8], lent: &mut Lent) -> Answer {
    let planned = plain::plan_bytes(
        day,
        &mut lent.rounds,
        &mut lent.group_rows,
        &mut lent.station_rows,
    );
    match planned {
        Ok(planned) => Answer::Planned {
            rounds: planned.rounds,
            looks: planned.looks,
        },
        Err(refusal) => refused(refusal),
    }
}

pub fn change(day: &[u8], changes: &[u8], lent: &mut Lent) -> Answer {
    let told = plain::change_bytes(
        day,
        changes,
        &mut lent.rounds,
        &mut lent.group_rows,
        &mut lent.station_rows,
    );
    match told {
        Ok(told) => {
            let (rounds, looks, moved) = told
                .last()
                .map_or((0, 0, 0), |last| (last.rounds, last.looks, last.moved));
            Answer::Changed {
                changes: told.len(),
                rounds,
                looks,
                moved,
            }
        }
        Err(refusal) => refused(refusal),
    }
}
