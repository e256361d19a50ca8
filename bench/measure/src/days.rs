//! Days and rows of changes, made from fixed seeds.

/// A generator of numbers that look random, by shifts.
pub struct Shifts(u64);

impl Shifts {
    pub fn new(seed: u64) -> Shifts {
        Shifts(seed.wrapping_mul(0x9e37_79b9_7f4a_7c15) | 1)
    }

    fn next(&mut self) -> u64 {
        self.0 ^= self.0 << 13;
        self.0 ^= self.0 >> 7;
        self.0 ^= self.0 << 17;
        self.0
    }

    /// A number below this one.
    pub fn below(&mut self, end: usize) -> usize {
        ((self.next() >> 33) % end as u64) as usize
    }

    fn shuffle<T>(&mut self, items: &mut [T]) {
        for end in (1..items.len()).rev() {
            items.swap(end, self.below(end + 1));
        }
    }
}

/// The bytes of a list.
fn bytes_of(groups: u8, stations: u8, rooms: u8, meetings: &[(u8, u8)]) -> Vec<u8> {
    let [low, high] = (meetings.len() as u16).to_le_bytes();
    let mut bytes = vec![groups, stations, rooms, low, high];
    bytes.extend(
        meetings
            .iter()
            .flat_map(|&(group, station)| [group, station]),
    );
    bytes
}

/// A day of random meetings.
pub fn random_day(groups: u8, stations: u8, rooms: u8, many: usize) -> Vec<u8> {
    let mut shifts = Shifts::new(7);
    let meetings: Vec<_> = (0..many)
        .map(|_| {
            let group = shifts.below(usize::from(groups)) as u8;
            (group, shifts.below(usize::from(stations)) as u8)
        })
        .collect();
    bytes_of(groups, stations, rooms, &meetings)
}

/// A day on which every group and every station is busy in every round, in a random order: most meetings that come late need a
/// chain, and chains are long.
pub fn chained_day(parties: u8, rounds: usize) -> Vec<u8> {
    let mut shifts = Shifts::new(11);
    let mut meetings = Vec::new();
    for _ in 0..rounds {
        let mut stations: Vec<u8> = (0..parties).collect();
        shifts.shuffle(&mut stations);
        meetings.extend((0..parties).zip(stations));
    }
    shifts.shuffle(&mut meetings);
    bytes_of(parties, parties, 120, &meetings)
}

/// A row of so many random changes of a day, each of which can be made.
pub fn random_changes(day: &[u8], many: usize) -> Vec<u8> {
    let mut shifts = Shifts::new(13);
    let (groups, stations) = (usize::from(day[0]), usize::from(day[1]));
    let mut rooms = day[2];
    let mut numbers = u16::from_le_bytes([day[3], day[4]]);
    let mut there: Vec<u16> = (0..numbers).collect();
    let mut bytes = Vec::new();
    let mut made = 0;
    while made < many {
        match shifts.below(10) {
            0..=3 if numbers < 4000 => {
                bytes.extend([0, shifts.below(groups) as u8, shifts.below(stations) as u8]);
                there.push(numbers);
                numbers += 1;
            }
            4..=7 if !there.is_empty() => {
                let [low, high] = there.swap_remove(shifts.below(there.len())).to_le_bytes();
                bytes.extend([1, low, high]);
            }
            8 if rooms > 1 => {
                bytes.push(2);
                rooms -= 1;
            }
            9 if rooms < 120 => {
                bytes.push(3);
                rooms += 1;
            }
            _ => continue,
        }
        made += 1;
    }
    bytes
}
