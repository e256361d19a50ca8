use crate::refusal::Refusal;

/// A meeting of a group with a station.
#[derive(Clone, Copy, PartialEq, Eq, Debug)]
pub struct Meeting {
    pub group: u16,
    pub station: u16,
}

/// The two sides of a meeting.
#[derive(Clone, Copy, PartialEq, Eq, Debug)]
pub enum Side {
    Groups,
    Stations,
}

impl Meeting {
    pub fn party(self, side: Side) -> u16 {
        match side {
            Side::Groups => self.group,
            Side::Stations => self.station,
        }
    }
}

impl Side {
    pub fn other(self) -> Side {
        match self {
            Side::Groups => Side::Stations,
            Side::Stations => Side::Groups,
        }
    }
}

/// A day's list of meetings.
pub struct List {
    pub groups: u16,
    pub stations: u16,
    pub rooms: u16,
    pub meetings: Vec<Meeting>,
}

const HEAD: usize = 5;
const MOST_MEETINGS: u16 = 4000;

/// The byte at this place, if it names one of so many parties.
fn party(bytes: &[u8], at: usize, many: u16) -> Result<u16, Refusal> {
    let number = u16::from(*bytes.get(at).ok_or(Refusal::Length(bytes.len()))?);
    if number < many {
        Ok(number)
    } else {
        Err(Refusal::NoSuchParty(at))
    }
}

/// The meeting whose two bytes begin at this place.
pub fn meeting_at(bytes: &[u8], at: usize, groups: u16, stations: u16) -> Result<Meeting, Refusal> {
    Ok(Meeting {
        group: party(bytes, at, groups)?,
        station: party(bytes, at + 1, stations)?,
    })
}

impl List {
    /// The list that the bytes say, or what is wrong with them first.
    pub fn read(bytes: &[u8]) -> Result<List, Refusal> {
        let [groups, stations, rooms, low, high, ..] = *bytes else {
            return Err(Refusal::Length(bytes.len()));
        };
        let limits = [groups, stations, rooms];
        if let Some(at) = limits.iter().position(|limit| !(1..=120).contains(limit)) {
            return Err(Refusal::OutOfLimits(at));
        }
        let [groups, stations, rooms] = limits.map(u16::from);
        let many = u16::from_le_bytes([low, high]);
        if many > MOST_MEETINGS {
            return Err(Refusal::TooManyMeetings);
        }
        let end = HEAD + 2 * usize::from(many);
        let meetings = (HEAD..end)
            .step_by(2)
            .map(|at| meeting_at(bytes, at, groups, stations))
            .collect::<Result<Vec<_>, _>>()?;
        if bytes.len() > end {
            return Err(Refusal::Length(end));
        }
        Ok(List {
            groups,
            stations,
            rooms,
            meetings,
        })
    }

    pub fn parties(&self, side: Side) -> u16 {
        match side {
            Side::Groups => self.groups,
            Side::Stations => self.stations,
        }
    }
}
