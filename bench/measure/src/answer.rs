//! What both sides answer, to be compared.

#[derive(Clone, Copy, PartialEq, Eq, Debug)]
pub enum Answer {
    Refused {
        number: u8,
        place: usize,
    },
    Planned {
        rounds: u16,
        looks: u64,
    },
    /// How many changes there are, and what the last of them comes to.
    Changed {
        changes: usize,
        rounds: u16,
        looks: u64,
        moved: u16,
    },
}
