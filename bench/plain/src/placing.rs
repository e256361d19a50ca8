use crate::board::{Board, NONE};
use crate::chains::TwoRounds;
use crate::found::Found;
use crate::list::Side;

/// The looks of putting a meeting in, and the round that has one meeting more.
pub struct Put {
    pub looks: u64,
    pub fuller: u16,
}

/// The lowest of so many rounds that is free in a row.
fn lowest_free(row: &[u16], rounds: u16) -> Option<u16> {
    row[..usize::from(rounds)]
        .iter()
        .position(|&entry| entry == NONE)
        .map(|round| round as u16)
}

/// The lowest of so many rounds that is free in two rows.
fn lowest_common_free(one: &[u16], other: &[u16], rounds: u16) -> Option<u16> {
    let many = usize::from(rounds);
    one[..many]
        .iter()
        .zip(&other[..many])
        .position(|(&one, &other)| one == NONE && other == NONE)
        .map(|round| round as u16)
}

/// Puts a meeting into the lowest common free round, else opens one by a chain, which is what was found then.
pub fn put_in(board: &mut Board<'_>, rounds: u16, meeting: u16, found: &mut Found) -> Put {
    let station = board.party_of(meeting, Side::Stations);
    let group_row = board.row(Side::Groups, board.party_of(meeting, Side::Groups));
    let station_row = board.row(Side::Stations, station);
    if let Some(common) = lowest_common_free(group_row, station_row, rounds) {
        board.place(meeting, common);
        return Put {
            looks: 1,
            fuller: common,
        };
    }
    let a = lowest_free(group_row, rounds).expect("a free round of the group");
    let b = lowest_free(station_row, rounds).expect("a free round of the station");
    let first = board
        .met(Side::Stations, station, a)
        .expect("a meeting of the station");
    board.find_chain(TwoRounds { a, b }, first, found);
    board.exchange(a, b, found.list());
    board.place(meeting, a);
    let length = found.list().len();
    Put {
        looks: 1 + length as u64,
        fuller: if length.is_multiple_of(2) { a } else { b },
    }
}

/// Puts in all meetings, in their order. Answers the looks.
pub fn put_in_all(board: &mut Board<'_>, rounds: u16, found: &mut Found) -> u64 {
    let mut looks = 0;
    for meeting in 0..board.meetings.len() as u16 {
        looks += put_in(board, rounds, meeting, found).looks;
        found.clear();
    }
    looks
}
