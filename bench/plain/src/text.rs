use crate::board::NONE;
use crate::change::{change_bytes, Changed};
use crate::list::List;
use crate::planning::plan;
use crate::refusal::Refusal;
use crate::register::fewest_rounds;
use crate::sizes::sizes_of;
use std::fmt::{self, Write};
use std::io;
use std::process::ExitCode;

/// The most numbers that are given out, and the most entries of the rows of a side.
const MOST_MEETINGS: usize = 4000;
const MOST_ENTRIES: usize = 120 * MOST_MEETINGS;

/// What `plan` prints of a list.
pub fn plan_text(bytes: &[u8]) -> Result<String, Refusal> {
    let list = List::read(bytes)?;
    let many = usize::from(fewest_rounds(&list));
    let mut of_meetings = vec![NONE; list.meetings.len()];
    let mut group_rows = vec![NONE; usize::from(list.groups) * many];
    let mut station_rows = vec![NONE; usize::from(list.stations) * many];
    let planned = plan(&list, &mut of_meetings, &mut group_rows, &mut station_rows)?;
    let mut of_rounds = vec![0; many];
    sizes_of(&of_meetings, &mut of_rounds);
    let mut text = String::new();
    write_plan(&mut text, planned.looks, &of_rounds, &of_meetings).expect("a string takes all");
    Ok(text)
}

fn write_plan(
    text: &mut String,
    looks: u64,
    of_rounds: &[u16],
    of_meetings: &[u16],
) -> fmt::Result {
    writeln!(text, "rounds {} looks {looks}", of_rounds.len())?;
    for (round, size) in of_rounds.iter().enumerate() {
        writeln!(text, "round {round} meetings {size}")?;
    }
    for (meeting, round) in of_meetings.iter().enumerate() {
        writeln!(text, "meeting {meeting} round {round}")?;
    }
    Ok(())
}

/// What `day` prints of a list and a row of changes.
pub fn changes_text(day: &[u8], changes: &[u8]) -> Result<String, Refusal> {
    let told = change_bytes(
        day,
        changes,
        &mut vec![0; MOST_MEETINGS],
        &mut vec![0; MOST_ENTRIES],
        &mut vec![0; MOST_ENTRIES],
    )?;
    let mut text = String::new();
    for Changed { rounds, moved, .. } in told {
        writeln!(text, "rounds {rounds} moved {moved}").expect("a string takes all");
    }
    Ok(text)
}

/// Prints an answer at once, or the line of its refusal, and answers the exit status.
pub fn print(answer: Result<String, Refusal>) -> io::Result<ExitCode> {
    match answer {
        Ok(text) => {
            io::Write::write_all(&mut io::stdout(), text.as_bytes())?;
            Ok(ExitCode::SUCCESS)
        }
        Err(refusal) => {
            println!("{refusal}");
            Ok(ExitCode::FAILURE)
        }
    }
}
