use crate::board::Board;
use crate::chains::TwoRounds;
use crate::found::Found;
use crate::list::Side;
use crate::sizes::Search;

/// What is worked with beside the board: the meetings of two rounds, what was found, and what was touched.
pub struct Scratch {
    pub ordered: Vec<u16>,
    pub found: Found,
    pub touched: Found,
}

impl Scratch {
    pub fn blank(groups: u16, meetings: usize) -> Scratch {
        Scratch {
            ordered: Vec::with_capacity(2 * usize::from(groups)),
            found: Found::none(meetings),
            touched: Found::none(meetings),
        }
    }
}

/// The meetings of two rounds, by rising number.
fn order_two(board: &Board<'_>, rounds: TwoRounds, ordered: &mut Vec<u16>) {
    ordered.clear();
    for group in 0..board.shape.groups() {
        ordered.extend(board.met(Side::Groups, group, rounds.a));
        ordered.extend(board.met(Side::Groups, group, rounds.b));
    }
    ordered.sort_unstable();
}

/// Whether just one more of these meetings is in the first round than in the second.
fn has_one_more(board: &Board<'_>, rounds: TwoRounds, members: &[u16]) -> bool {
    let in_first = members
        .iter()
        .filter(|&&meeting| board.round_of(meeting) == rounds.a)
        .count();
    2 * in_first == members.len() + 1
}

/// Looks at parts in the order of their lowest meetings. Answers where the first with one more in the first round begins.
fn look(board: &Board<'_>, rounds: TwoRounds, ordered: &[u16], found: &mut Found) -> usize {
    for &meeting in ordered {
        if !found.has(meeting) {
            let start = found.list().len();
            board.find_part(rounds, meeting, found);
            if has_one_more(board, rounds, &found.list()[start..]) {
                return start;
            }
        }
    }
    found.list().len()
}

/// Evens the rounds out, and answers the looks. The sizes stay those of the rounds.
pub fn even_out(board: &mut Board<'_>, sizes: &mut [u16], scratch: &mut Scratch) -> u64 {
    let Scratch {
        ordered,
        found,
        touched,
    } = scratch;
    let mut looks = 0;
    let mut search = Search::start(sizes);
    while let Some(rounds) = search.uneven(sizes) {
        order_two(board, rounds, ordered);
        let start = look(board, rounds, ordered, found);
        let part = &found.list()[start..];
        board.exchange(rounds.a, rounds.b, part);
        touched.add_all(part);
        looks += found.list().len() as u64;
        found.clear();
        sizes[usize::from(rounds.a)] -= 1;
        sizes[usize::from(rounds.b)] += 1;
    }
    looks
}
