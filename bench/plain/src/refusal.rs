use std::fmt;

/// Why something is refused: its number and its place.
#[derive(Clone, Copy, PartialEq, Eq, Debug)]
pub enum Refusal {
    Length(usize),
    OutOfLimits(usize),
    TooManyMeetings,
    NoSuchParty(usize),
    ShortSlice(usize),
    BadChange(usize),
}

impl Refusal {
    pub fn number(self) -> u8 {
        match self {
            Refusal::Length(_) => 1,
            Refusal::OutOfLimits(_) => 2,
            Refusal::TooManyMeetings => 3,
            Refusal::NoSuchParty(_) => 4,
            Refusal::ShortSlice(_) => 5,
            Refusal::BadChange(_) => 6,
        }
    }

    pub fn place(self) -> usize {
        match self {
            Refusal::Length(at)
            | Refusal::OutOfLimits(at)
            | Refusal::NoSuchParty(at)
            | Refusal::ShortSlice(at)
            | Refusal::BadChange(at) => at,
            Refusal::TooManyMeetings => 3,
        }
    }
}

impl fmt::Display for Refusal {
    fn fmt(&self, f: &mut fmt::Formatter<'_>) -> fmt::Result {
        write!(f, "refused {} at {}", self.number(), self.place())
    }
}
