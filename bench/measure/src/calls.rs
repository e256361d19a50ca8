//! The calls, compared and timed in one process.
use crate::answer::Answer;
use crate::cases::Case;
use crate::lent::Lent;
use crate::timing::{in_turn, Medians};
use crate::{proved, unproved};
use std::hint::black_box;

/// What a call answers, and the medians.
pub struct Called {
    pub answer: Answer,
    pub medians: Medians,
}

fn call_ours(case: &Case, lent: &mut Lent) -> Answer {
    match &case.changes {
        None => proved::plan(&case.day, lent),
        Some(changes) => proved::change(&case.day, changes, lent),
    }
}

fn call_plain(case: &Case, lent: &mut Lent) -> Answer {
    match &case.changes {
        None => unproved::plan(&case.day, lent),
        Some(changes) => unproved::change(&case.day, changes, lent),
    }
}

/// Lends as the programs do: `plan` just as much as it needs, `day` the most.
fn lent_for(case: &Case) -> Lent {
    let mut longest = Lent::longest();
    match (&case.changes, unproved::plan(&case.day, &mut longest)) {
        (None, Answer::Planned { rounds, .. }) => Lent::exactly(&case.day, rounds),
        _ => Lent::longest(),
    }
}

/// Compares both, with what they leave in what was lent, and times them.
pub fn call(case: &Case) -> Result<Called, String> {
    let mut ours = lent_for(case);
    let mut plain = ours.clone();
    let answer = call_ours(case, &mut ours);
    let other = call_plain(case, &mut plain);
    if answer != other || ours != plain {
        return Err(format!(
            "{}: {answer:?} is not {other:?}, or other rounds",
            case.name
        ));
    }
    let medians = in_turn(
        &mut || {
            black_box(call_ours(black_box(case), &mut ours));
        },
        &mut || {
            black_box(call_plain(black_box(case), &mut plain));
        },
    );
    Ok(Called { answer, medians })
}

/// Compares what is answered and left for bytes of which many are refused: each beginning of a day and of a row, and each with a
/// byte changed.
pub fn compare_refusals(case: &Case) -> Result<usize, String> {
    let changes = case.changes.clone().unwrap_or_default();
    let mut compared = 0;
    let mut compare = |day: Vec<u8>, changes: Option<Vec<u8>>| {
        let case = Case {
            name: case.name.clone(),
            day,
            changes,
        };
        let (mut ours, mut plain) = (Lent::short(), Lent::short());
        let (answer, other) = (call_ours(&case, &mut ours), call_plain(&case, &mut plain));
        compared += 1;
        if answer == other && ours == plain {
            Ok(())
        } else {
            Err(format!(
                "{}: {answer:?} is not {other:?}, or other rounds",
                case.name
            ))
        }
    };
    for end in 0..case.day.len() {
        compare(case.day[..end].to_vec(), None)?;
        let mut day = case.day.clone();
        day[end] ^= 0x50;
        compare(day.clone(), None)?;
        compare(day, Some(changes.clone()))?;
    }
    for end in 0..changes.len() {
        compare(case.day.clone(), Some(changes[..end].to_vec()))?;
        let mut row = changes.clone();
        row[end] ^= 0x05;
        compare(case.day.clone(), Some(row))?;
    }
    Ok(compared)
}
