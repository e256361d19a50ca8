use crate::chains::TwoRounds;

/// Counts how many meetings each of so many rounds has.
pub fn sizes_of(rounds: &[u16], sizes: &mut [u16]) {
    sizes.fill(0);
    for &round in rounds {
        if let Some(size) = sizes.get_mut(usize::from(round)) {
            *size += 1;
        }
    }
}

/// A size that no other beats, and the first round that may have it.
#[derive(Clone, Copy)]
struct Reached {
    size: u16,
    round: usize,
}

/// How far the fullest and the emptiest round were searched.
pub struct Search {
    full: Reached,
    empty: Reached,
}

fn most_of(sizes: &[u16]) -> u16 {
    sizes.iter().copied().max().unwrap_or(0)
}

fn least_of(sizes: &[u16]) -> u16 {
    sizes.iter().copied().min().unwrap_or(0)
}

/// The next round of the size that was reached; only where there is none left all are gone over again.
fn next_or(sizes: &[u16], reached: Reached, extreme: fn(&[u16]) -> u16) -> Option<Reached> {
    let next = sizes[reached.round..]
        .iter()
        .position(|&size| size == reached.size);
    match next {
        Some(far) => Some(Reached {
            size: reached.size,
            round: reached.round + far,
        }),
        None => {
            let size = extreme(sizes);
            let round = sizes.iter().position(|&other| other == size)?;
            Some(Reached { size, round })
        }
    }
}

impl Search {
    pub fn start(sizes: &[u16]) -> Search {
        Search {
            full: Reached {
                size: most_of(sizes),
                round: 0,
            },
            empty: Reached {
                size: least_of(sizes),
                round: 0,
            },
        }
    }

    /// The fullest and the emptiest round, if the one has at least two meetings more than the other.
    pub fn uneven(&mut self, sizes: &[u16]) -> Option<TwoRounds> {
        let full = next_or(sizes, self.full, most_of)?;
        let empty = next_or(sizes, self.empty, least_of)?;
        if full.size < empty.size + 2 {
            return None;
        }
        self.full = full;
        self.empty = empty;
        Some(TwoRounds {
            a: full.round as u16,
            b: empty.round as u16,
        })
    }
}
