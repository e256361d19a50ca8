use crate::list::{meeting_at, List, Meeting};
use crate::making::make_row;
use crate::refusal::Refusal;
use crate::register::Tally;

#[derive(Clone, Copy, PartialEq, Eq, Debug)]
pub enum Change {
    Add(Meeting),
    Drop(u16),
    GiveRoomUp,
    GetRoom,
}

/// The number of rounds after a change, its looks, and how many meetings it moved.
#[derive(Clone, Copy, PartialEq, Eq, Debug)]
pub struct Changed {
    pub rounds: u16,
    pub looks: u64,
    pub moved: u16,
}

/// A change of a row, and the number of rounds after it.
pub struct Step {
    pub change: Change,
    pub rounds: u16,
}

/// A row that can be made: its changes, and all meetings that have a number in the end.
pub struct Row {
    pub steps: Vec<Step>,
    pub meetings: Vec<Meeting>,
}

const MOST_ROOMS: u16 = 120;
const MOST_MEETINGS: usize = 4000;

/// The change whose bytes begin at this place, and where the next begins.
fn change_at(
    list: &List,
    bytes: &[u8],
    at: usize,
    place: usize,
) -> Result<(Change, usize), Refusal> {
    match bytes[at] {
        0 => {
            let meeting = meeting_at(bytes, at + 1, list.groups, list.stations)?;
            Ok((Change::Add(meeting), at + 3))
        }
        1 => match bytes.get(at + 1..at + 3) {
            Some(&[low, high]) => Ok((Change::Drop(u16::from_le_bytes([low, high])), at + 3)),
            _ => Err(Refusal::Length(bytes.len())),
        },
        2 => Ok((Change::GiveRoomUp, at + 1)),
        3 => Ok((Change::GetRoom, at + 1)),
        _ => Err(Refusal::BadChange(place)),
    }
}

/// What there is while a row is read.
struct Register {
    rooms: u16,
    meetings: Vec<Meeting>,
    there: Vec<bool>,
    many: u16,
    tally: Tally,
}

impl Register {
    fn of(list: &List) -> Register {
        Register {
            rooms: list.rooms,
            meetings: list.meetings.clone(),
            there: vec![true; list.meetings.len()],
            many: list.meetings.len() as u16,
            tally: Tally::of(list),
        }
    }

    /// Makes a change if it can be made, and answers whether it could.
    fn make(&mut self, change: Change) -> bool {
        match change {
            Change::Add(meeting) if self.meetings.len() < MOST_MEETINGS => {
                self.meetings.push(meeting);
                self.there.push(true);
                self.tally.add(meeting);
                self.many += 1;
            }
            Change::Drop(id) if self.there.get(usize::from(id)) == Some(&true) => {
                self.there[usize::from(id)] = false;
                self.tally.remove(self.meetings[usize::from(id)]);
                self.many -= 1;
            }
            Change::GiveRoomUp if self.rooms > 1 => self.rooms -= 1,
            Change::GetRoom if self.rooms < MOST_ROOMS => self.rooms += 1,
            _ => return false,
        }
        true
    }
}

impl Row {
    /// The row that the bytes say, or what is wrong with them first.
    fn read(list: &List, bytes: &[u8]) -> Result<Row, Refusal> {
        let mut register = Register::of(list);
        let mut steps = Vec::new();
        let mut at = 0;
        while at < bytes.len() {
            let (change, next) = change_at(list, bytes, at, steps.len())?;
            if !register.make(change) {
                return Err(Refusal::BadChange(steps.len()));
            }
            let rounds = register.tally.rounds(register.many, register.rooms);
            steps.push(Step { change, rounds });
            at = next;
        }
        Ok(Row {
            steps,
            meetings: register.meetings,
        })
    }
}

/// Plans the day that the bytes say, and makes the row of changes that the others say.
pub fn change_bytes(
    day: &[u8],
    changes: &[u8],
    rounds: &mut [u16],
    group_rows: &mut [u16],
    station_rows: &mut [u16],
) -> Result<Vec<Changed>, Refusal> {
    let list = List::read(day)?;
    let row = Row::read(&list, changes)?;
    make_row(&list, &row, rounds, group_rows, station_rows)
}
