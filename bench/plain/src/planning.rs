use crate::board::{empty, Board, Shape};
use crate::evening::{even_out, Scratch};
use crate::list::List;
use crate::placing::put_in_all;
use crate::refusal::Refusal;
use crate::register::fewest_rounds;
use crate::sizes::sizes_of;

/// The number of rounds, and the looks.
#[derive(Clone, Copy, PartialEq, Eq, Debug)]
pub struct Planned {
    pub rounds: u16,
    pub looks: u64,
}

/// Plans a day in lent slices.
pub fn plan(
    list: &List,
    rounds: &mut [u16],
    group_rows: &mut [u16],
    station_rows: &mut [u16],
) -> Result<Planned, Refusal> {
    let many = fewest_rounds(list);
    let meetings = &list.meetings;
    let shape = Shape::of_lent(
        list,
        meetings.len(),
        many,
        rounds.len(),
        group_rows.len(),
        station_rows.len(),
    )?;
    let mut sizes = vec![0; usize::from(many)];
    let mut scratch = Scratch::blank(list.groups, meetings.len());
    let rounds = &mut rounds[..meetings.len()];
    empty(shape, rounds, group_rows, station_rows);
    let mut board = Board::over(meetings, shape, rounds, group_rows, station_rows);
    let put = put_in_all(&mut board, many, &mut scratch.found);
    sizes_of(board.rounds, &mut sizes);
    let looks = put + even_out(&mut board, &mut sizes, &mut scratch);
    Ok(Planned {
        rounds: many,
        looks,
    })
}

/// Plans the day that the bytes say.
pub fn plan_bytes(
    bytes: &[u8],
    rounds: &mut [u16],
    group_rows: &mut [u16],
    station_rows: &mut [u16],
) -> Result<Planned, Refusal> {
    plan(&List::read(bytes)?, rounds, group_rows, station_rows)
}
