//! The days that are measured.
use crate::days::{chained_day, random_changes, random_day};
use std::fs;
use std::io;

/// A day, and a row of changes where these are measured.
pub struct Case {
    pub name: String,
    pub day: Vec<u8>,
    pub changes: Option<Vec<u8>>,
}

const SCHOOL_DAY: &str = "examples/school.day";
const SCHOOL_CHANGES: &str = "examples/school.changes";

fn planned(name: &str, day: Vec<u8>) -> Case {
    Case {
        name: name.to_string(),
        day,
        changes: None,
    }
}

fn changed(name: &str, day: Vec<u8>, changes: Vec<u8>) -> Case {
    Case {
        name: name.to_string(),
        day,
        changes: Some(changes),
    }
}

fn rooms_told(rooms: u8) -> String {
    match rooms {
        1 => "1 room".to_string(),
        _ => format!("{rooms} rooms"),
    }
}

/// A day of 120 groups and 120 stations, and a row of 1,000 random changes.
fn thousand(many: usize, rooms: u8) -> Case {
    let day = random_day(120, 120, rooms, many);
    let changes = random_changes(&day, 1000);
    changed(
        &format!("1,000 changes, {many} meetings, {}", rooms_told(rooms)),
        day,
        changes,
    )
}

pub fn cases() -> io::Result<Vec<Case>> {
    let school = fs::read(SCHOOL_DAY)?;
    let mut cases = vec![planned("school day", school.clone())];
    for rooms in [1, 2, 5, 10, 20, 34, 60, 90, 120] {
        let name = format!("full day, {}", rooms_told(rooms));
        cases.push(planned(&name, random_day(120, 120, rooms, 4000)));
    }
    cases.push(planned(
        "few parties: 2 by 3, 4,000 meetings",
        random_day(2, 3, 120, 4000),
    ));
    cases.push(planned(
        "few parties: 1 by 1, 4,000 meetings",
        random_day(1, 1, 120, 4000),
    ));
    cases.push(planned(
        "long chains: all busy in 33 rounds",
        chained_day(120, 33),
    ));
    cases.push(planned(
        "long chains: all busy in 4 rounds",
        chained_day(120, 4),
    ));
    cases.push(changed(
        "school day and its changes",
        school.clone(),
        fs::read(SCHOOL_CHANGES)?,
    ));
    let row = random_changes(&school, 1000);
    cases.push(changed("1,000 changes, school day", school, row));
    cases.extend([(3000, 120), (3000, 34), (3500, 1)].map(|(many, rooms)| thousand(many, rooms)));
    Ok(cases)
}

/// Days that grow: 120 groups, 120 stations and so many rooms.
pub fn growing(rooms: u8) -> Vec<Case> {
    [500, 1000, 2000, 4000]
        .map(|many| {
            planned(
                &format!("{many} meetings, {}", rooms_told(rooms)),
                random_day(120, 120, rooms, many),
            )
        })
        .into()
}
