use crate::list::{List, Meeting, Side};
use crate::refusal::Refusal;

/// No round, and no meeting, in a lent slice.
pub const NONE: u16 = u16::MAX;

/// The rows of one side in a lent slice: the meeting of each party in each round.
pub struct Rows<'a> {
    entries: &'a mut [u16],
    width: usize,
}

impl Rows<'_> {
    pub fn row(&self, party: u16) -> &[u16] {
        let start = usize::from(party) * self.width;
        &self.entries[start..start + self.width]
    }

    fn set(&mut self, party: u16, round: u16, entry: u16) {
        self.entries[usize::from(party) * self.width + usize::from(round)] = entry;
    }
}

/// How long the rows of each side are.
#[derive(Clone, Copy)]
pub struct Shape {
    groups: u16,
    group_width: usize,
    stations: u16,
    station_width: usize,
}

impl Shape {
    /// The shape over lent slices of these lengths, if they are long enough for so many meetings and rounds.
    pub fn of_lent(
        list: &List,
        many: usize,
        rounds: u16,
        long_rounds: usize,
        long_groups: usize,
        long_stations: usize,
    ) -> Result<Shape, Refusal> {
        let width = |long: usize, side: Side| {
            (long / usize::from(list.parties(side))).min(usize::from(NONE))
        };
        let group_width = width(long_groups, Side::Groups);
        let station_width = width(long_stations, Side::Stations);
        if long_rounds < many {
            return Err(Refusal::ShortSlice(0));
        }
        if group_width < usize::from(rounds) {
            return Err(Refusal::ShortSlice(1));
        }
        if station_width < usize::from(rounds) {
            return Err(Refusal::ShortSlice(2));
        }
        Ok(Shape {
            groups: list.groups,
            group_width,
            stations: list.stations,
            station_width,
        })
    }

    pub fn groups(&self) -> u16 {
        self.groups
    }
}

/// The round of each meeting, and the meeting of each party in each round.
pub struct Board<'a> {
    pub meetings: &'a [Meeting],
    pub rounds: &'a mut [u16],
    pub shape: Shape,
    group_rows: Rows<'a>,
    station_rows: Rows<'a>,
}

/// Empties lent slices.
pub fn empty(shape: Shape, rounds: &mut [u16], group_rows: &mut [u16], station_rows: &mut [u16]) {
    rounds.fill(NONE);
    group_rows[..usize::from(shape.groups) * shape.group_width].fill(NONE);
    station_rows[..usize::from(shape.stations) * shape.station_width].fill(NONE);
}

impl<'a> Board<'a> {
    /// The board that lent slices hold.
    pub fn over(
        meetings: &'a [Meeting],
        shape: Shape,
        rounds: &'a mut [u16],
        group_rows: &'a mut [u16],
        station_rows: &'a mut [u16],
    ) -> Board<'a> {
        Board {
            meetings,
            rounds,
            shape,
            group_rows: Rows {
                entries: group_rows,
                width: shape.group_width,
            },
            station_rows: Rows {
                entries: station_rows,
                width: shape.station_width,
            },
        }
    }

    pub fn party_of(&self, meeting: u16, side: Side) -> u16 {
        self.meetings[usize::from(meeting)].party(side)
    }

    /// The round of a meeting, `NONE` where it has none.
    pub fn round_of(&self, meeting: u16) -> u16 {
        self.rounds[usize::from(meeting)]
    }

    pub fn row(&self, side: Side, party: u16) -> &[u16] {
        match side {
            Side::Groups => self.group_rows.row(party),
            Side::Stations => self.station_rows.row(party),
        }
    }

    /// The meeting that a party has in a round, if it has one there.
    pub fn met(&self, side: Side, party: u16, round: u16) -> Option<u16> {
        let entry = self.row(side, party)[usize::from(round)];
        (entry != NONE).then_some(entry)
    }

    fn write(&mut self, meeting: u16, round: u16, entry: u16) {
        let Meeting { group, station } = self.meetings[usize::from(meeting)];
        self.group_rows.set(group, round, entry);
        self.station_rows.set(station, round, entry);
    }

    /// Gives a meeting a round in which both its parties are free.
    pub fn place(&mut self, meeting: u16, round: u16) {
        self.rounds[usize::from(meeting)] = round;
        self.write(meeting, round, meeting);
    }

    /// Takes a meeting out of its round, if it has one.
    pub fn take_out(&mut self, meeting: u16) {
        let round = self.round_of(meeting);
        if round != NONE {
            self.rounds[usize::from(meeting)] = NONE;
            self.write(meeting, round, NONE);
        }
    }

    /// Exchanges two rounds on meetings of these rounds.
    pub fn exchange(&mut self, a: u16, b: u16, members: &[u16]) {
        // all leave their rounds first, since one may go where another was
        for &meeting in members {
            self.write(meeting, self.round_of(meeting), NONE);
        }
        for &meeting in members {
            let round = if self.round_of(meeting) == a { b } else { a };
            self.place(meeting, round);
        }
    }
}
