use crate::board::Board;
use crate::found::Found;
use crate::list::Side;

/// Two rounds that are looked at together.
#[derive(Clone, Copy)]
pub struct TwoRounds {
    pub a: u16,
    pub b: u16,
}

impl TwoRounds {
    fn other(self, round: u16) -> u16 {
        if round == self.a {
            self.b
        } else {
            self.a
        }
    }
}

impl Board<'_> {
    /// The meeting that a party of a meeting of two rounds has in the other of them.
    fn neighbour(&self, rounds: TwoRounds, side: Side, meeting: u16) -> Option<u16> {
        let there = rounds.other(self.round_of(meeting));
        self.met(side, self.party_of(meeting, side), there)
    }

    fn follow(&self, rounds: TwoRounds, side: Side, from: u16, found: &mut Found) {
        let mut at = from;
        let mut through = side;
        while let Some(next) = self.neighbour(rounds, through, at) {
            if found.has(next) {
                break;
            }
            found.add(next);
            at = next;
            through = through.other();
        }
    }

    /// Finds a meeting and the chain that is followed from it through its group.
    pub fn find_chain(&self, rounds: TwoRounds, meeting: u16, found: &mut Found) {
        found.add(meeting);
        self.follow(rounds, Side::Groups, meeting, found);
    }

    /// Finds the part of a meeting.
    pub fn find_part(&self, rounds: TwoRounds, meeting: u16, found: &mut Found) {
        self.find_chain(rounds, meeting, found);
        self.follow(rounds, Side::Stations, meeting, found);
    }
}
