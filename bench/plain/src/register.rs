use crate::list::{List, Meeting};

/// How many meetings each group and each station has.
pub struct Tally {
    groups: Vec<u16>,
    stations: Vec<u16>,
}

impl Tally {
    pub fn of(list: &List) -> Tally {
        let mut tally = Tally {
            groups: vec![0; usize::from(list.groups)],
            stations: vec![0; usize::from(list.stations)],
        };
        for meeting in &list.meetings {
            tally.add(*meeting);
        }
        tally
    }

    pub fn add(&mut self, meeting: Meeting) {
        self.groups[usize::from(meeting.group)] += 1;
        self.stations[usize::from(meeting.station)] += 1;
    }

    pub fn remove(&mut self, meeting: Meeting) {
        self.groups[usize::from(meeting.group)] -= 1;
        self.stations[usize::from(meeting.station)] -= 1;
    }

    fn busiest(&self) -> u16 {
        let most = |numbers: &[u16]| numbers.iter().copied().max().unwrap_or(0);
        most(&self.groups).max(most(&self.stations))
    }

    /// The fewest rounds for so many meetings, of which this is the tally.
    pub fn rounds(&self, many: u16, rooms: u16) -> u16 {
        self.busiest().max(many.div_ceil(rooms))
    }
}

/// The fewest rounds of a list.
pub fn fewest_rounds(list: &List) -> u16 {
    Tally::of(list).rounds(list.meetings.len() as u16, list.rooms)
}
