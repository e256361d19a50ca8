use crate::board::{Board, Shape, NONE};
use crate::change::{Change, Changed, Row};
use crate::evening::{even_out, Scratch};
use crate::list::{List, Side};
use crate::placing::put_in;
use crate::planning::plan;
use crate::refusal::Refusal;
use crate::register::fewest_rounds;
use crate::sizes::sizes_of;

/// What is kept from one change to the next: the sizes, the rounds before a change, and room for the meetings that wait.
struct Kept {
    sizes: Vec<u16>,
    before: Vec<u16>,
    waiting: Vec<u16>,
    scratch: Scratch,
}

/// Takes the meetings out of the rounds that are no more, which are read off the rows of the groups.
fn take_out_rest(board: &mut Board<'_>, to: u16, from: u16, waiting: &mut Vec<u16>) {
    for group in 0..board.shape.groups() {
        for round in to..from {
            if let Some(meeting) = board.met(Side::Groups, group, round) {
                board.take_out(meeting);
                waiting.push(meeting);
            }
        }
    }
}

/// Puts in the meetings that wait. Answers the looks.
fn put_in_waiting(board: &mut Board<'_>, rounds: u16, kept: &mut Kept) -> u64 {
    let Scratch { found, touched, .. } = &mut kept.scratch;
    let mut looks = 0;
    for &meeting in &kept.waiting {
        let put = put_in(board, rounds, meeting, found);
        kept.sizes[usize::from(put.fuller)] += 1;
        touched.add_all(found.list());
        touched.add_all(&[meeting]);
        found.clear();
        looks += put.looks;
    }
    looks
}

/// Counts the touched meetings that were moved, and notes their rounds for the next change.
fn moved(board: &Board<'_>, kept: &mut Kept) -> u16 {
    let mut many = 0;
    for &meeting in kept.scratch.touched.list() {
        let now = board.round_of(meeting);
        let before = std::mem::replace(&mut kept.before[usize::from(meeting)], now);
        if before != NONE && now != NONE && before != now {
            many += 1;
        }
    }
    kept.scratch.touched.clear();
    many
}

/// Makes one change, from so many rounds to so many.
fn make(board: &mut Board<'_>, change: Change, from: u16, to: u16, kept: &mut Kept) -> Changed {
    kept.waiting.clear();
    match change {
        Change::Add(_) => kept.waiting.push(board.meetings.len() as u16 - 1),
        Change::Drop(meeting) => {
            kept.sizes[usize::from(board.round_of(meeting))] -= 1;
            board.take_out(meeting);
            kept.before[usize::from(meeting)] = NONE;
        }
        Change::GiveRoomUp | Change::GetRoom => {}
    }
    if to < from {
        take_out_rest(board, to, from, &mut kept.waiting);
        kept.sizes[usize::from(to)..usize::from(from)].fill(0);
    }
    kept.waiting.sort_unstable();
    let put = put_in_waiting(board, to, kept);
    let evened = even_out(board, &mut kept.sizes[..usize::from(to)], &mut kept.scratch);
    Changed {
        rounds: to,
        looks: put + evened,
        moved: moved(board, kept),
    }
}

/// Plans a day in lent slices, and makes a row of changes one after the other.
pub fn make_row(
    list: &List,
    row: &Row,
    rounds: &mut [u16],
    group_rows: &mut [u16],
    station_rows: &mut [u16],
) -> Result<Vec<Changed>, Refusal> {
    let first = fewest_rounds(list);
    let most = row
        .steps
        .iter()
        .map(|step| step.rounds)
        .fold(first, u16::max);
    let all = row.meetings.len();
    let shape = Shape::of_lent(
        list,
        all,
        most,
        rounds.len(),
        group_rows.len(),
        station_rows.len(),
    )?;
    let mut kept = Kept {
        sizes: vec![0; usize::from(most)],
        before: vec![NONE; all],
        waiting: Vec::with_capacity(all),
        scratch: Scratch::blank(list.groups, all),
    };
    plan(list, rounds, group_rows, station_rows)?;
    let rounds = &mut rounds[..all];
    let mut many = list.meetings.len();
    rounds[many..].fill(NONE);
    sizes_of(rounds, &mut kept.sizes);
    kept.before.copy_from_slice(rounds);
    let mut from = first;
    let mut told = Vec::with_capacity(row.steps.len());
    for step in &row.steps {
        many += usize::from(matches!(step.change, Change::Add(_)));
        let mut board = Board::over(
            &row.meetings[..many],
            shape,
            &mut rounds[..many],
            group_rows,
            station_rows,
        );
        told.push(make(&mut board, step.change, from, step.rounds, &mut kept));
        from = step.rounds;
    }
    Ok(told)
}
