//! Two works timed in turn.
use crate::days::Shifts;
use std::time::{Duration, Instant};

/// The medians of both, and the shortest times, which other work on the machine disturbs least.
#[derive(Clone, Copy)]
pub struct Medians {
    pub ours: Duration,
    pub plain: Duration,
    shortest_ours: Duration,
    shortest_plain: Duration,
}

fn ratio(one: Duration, other: Duration) -> f64 {
    one.as_secs_f64() / other.as_secs_f64()
}

impl Medians {
    pub fn ratio(self) -> f64 {
        ratio(self.ours, self.plain)
    }

    pub fn ratio_of_shortest(self) -> f64 {
        ratio(self.shortest_ours, self.shortest_plain)
    }
}

const WARM_UP: usize = 5;
const FEWEST: usize = 15;
const MOST: usize = 1001;
const LONG_ENOUGH: Duration = Duration::from_millis(1500);

fn time(work: &mut dyn FnMut()) -> Duration {
    let start = Instant::now();
    work();
    start.elapsed()
}

/// The median and the shortest.
fn middle_and_least(mut times: Vec<Duration>) -> (Duration, Duration) {
    times.sort_unstable();
    (times[times.len() / 2], times[0])
}

/// Times both in turn, after a few runs that do not count. Which is first is left to chance each time: else other work that comes at
/// even intervals could disturb the same one always.
pub fn in_turn(ours: &mut dyn FnMut(), plain: &mut dyn FnMut()) -> Medians {
    for _ in 0..WARM_UP {
        ours();
        plain();
    }
    let mut shifts = Shifts::new(17);
    let start = Instant::now();
    let (mut of_ours, mut of_plain) = (Vec::new(), Vec::new());
    while of_ours.len() < FEWEST || (of_ours.len() < MOST && start.elapsed() < LONG_ENOUGH) {
        if shifts.below(2) == 0 {
            of_ours.push(time(ours));
            of_plain.push(time(plain));
        } else {
            of_plain.push(time(plain));
            of_ours.push(time(ours));
        }
    }
    let (ours, shortest_ours) = middle_and_least(of_ours);
    let (plain, shortest_plain) = middle_and_least(of_plain);
    Medians {
        ours,
        plain,
        shortest_ours,
        shortest_plain,
    }
}
