//! Three slices that are lent to a call.

#[derive(Clone, PartialEq, Eq)]
pub struct Lent {
    pub rounds: Vec<u16>,
    pub group_rows: Vec<u16>,
    pub station_rows: Vec<u16>,
}

/// The most numbers that are given out, and the most entries of the rows of a side.
const MOST_MEETINGS: usize = 4000;
const MOST_ENTRIES: usize = 120 * MOST_MEETINGS;

impl Lent {
    /// As long as the most that there can be, as `day` lends them.
    pub fn longest() -> Lent {
        Lent {
            rounds: vec![0; MOST_MEETINGS],
            group_rows: vec![0; MOST_ENTRIES],
            station_rows: vec![0; MOST_ENTRIES],
        }
    }

    /// Too short for some days.
    pub fn short() -> Lent {
        Lent {
            rounds: vec![9; 520],
            group_rows: vec![9; 2000],
            station_rows: vec![9; 2000],
        }
    }

    /// Just as long as a day with so many rounds asks for, as `plan` lends them.
    pub fn exactly(day: &[u8], rounds: u16) -> Lent {
        let [groups, stations, _, low, high] = [0, 1, 2, 3, 4].map(|at| day[at]);
        Lent {
            rounds: vec![0; usize::from(u16::from_le_bytes([low, high]))],
            group_rows: vec![0; usize::from(groups) * usize::from(rounds)],
            station_rows: vec![0; usize::from(stations) * usize::from(rounds)],
        }
    }
}
