//! The order of a shuffled run (02, N13): its states, and which link a state picks.

use crate::runs::{Indexed, Links, Run};
use crate::tables::{Waits, Words};
use crate::{Refusal, MOST_PROCESSES};

/// A state of a shuffled run, which begins as its seed and is never 0.
pub(crate) struct State(u32);

impl State {
    /// 02, N13: "It refuses seed 0 with 37".
    pub(crate) fn begin(seed: u32) -> Result<State, Refusal> {
        match seed {
            0 => Err(Refusal::NoSeed),
            _ => Ok(State(seed)),
        }
    }

    /// "before each delivery the state is xored with itself shifted left 13, then right 17, then left
    /// 5 (Marsaglia's xorshift32), dropping bits past 32"
    pub(crate) fn next(&mut self) -> u32 {
        self.0 ^= self.0 << 13;
        self.0 ^= self.0 >> 17;
        self.0 ^= self.0 << 5;
        self.0
    }
}

/// Receivers whose links are counted together, so that few counts are passed over to find one.
const GROUP: usize = 8;

/// For many deliveries in an order that is shuffled: also how many links hold a message.
pub(crate) struct Counted {
    links: Indexed,
    all: u32,
    by_group: [u16; MOST_PROCESSES / GROUP],
    by_receiver: [u8; MOST_PROCESSES],
}

impl Links for Counted {
    fn find(&self, table: &Words, waits: &Waits, from: usize, to: usize) -> usize {
        self.links.find(table, waits, from, to)
    }
    fn note_sent(&mut self, from: usize, to: usize) {
        if !self.links.holds(from, to) {
            self.all += 1;
            self.by_group[(to - 1) / GROUP] += 1;
            self.by_receiver[to - 1] += 1;
        }
        self.links.note_sent(from, to);
    }
    fn note_emptied(&mut self, from: usize, to: usize) {
        self.all -= 1;
        self.by_group[(to - 1) / GROUP] -= 1;
        self.by_receiver[to - 1] -= 1;
        self.links.note_emptied(from, to);
    }
}

impl Counted {
    pub(crate) fn new(run: &Run) -> Counted {
        let mut counted = Counted {
            links: Indexed::new(run),
            all: 0,
            by_group: [0; MOST_PROCESSES / GROUP],
            by_receiver: [0; MOST_PROCESSES],
        };
        for (to, senders) in counted.links.senders().iter().enumerate() {
            let count = senders.count_ones();
            counted.all += count;
            counted.by_group[to / GROUP] += count as u16;
            counted.by_receiver[to] = count as u8;
        }
        counted
    }

    /// The link that the next state picks, as its sender and its receiver: "The state modulo the number
    /// of links with a message, counted from 0 in N11's order, picks the link".
    pub(crate) fn picked(&self, state: &mut State) -> Option<(usize, usize)> {
        let rank = state.next().checked_rem(self.all)?;
        let (group, rank) = passed_over(&self.by_group, rank);
        let (place, rank) = passed_over(&self.by_receiver[group * GROUP..], rank);
        let to = group * GROUP + place;
        let from = set_bit(self.links.senders()[to], rank);
        Some((from + 1, to + 1))
    }
}

/// The place of the count in which the one of this rank is counted, and its rank there.
fn passed_over<T: Copy + Into<u32>>(counts: &[T], mut rank: u32) -> (usize, u32) {
    for (place, &count) in counts.iter().enumerate() {
        match rank.checked_sub(count.into()) {
            Some(rest) => rank = rest,
            None => return (place, rank),
        }
    }
    unreachable!("a rank is less than what is counted")
}

/// The place of the set bit with so many set bits below it.
fn set_bit(set: u128, rank: u32) -> usize {
    let low = set as u64;
    match rank.checked_sub(low.count_ones()) {
        None => set_bit_of_half(low, rank),
        Some(rest) => 64 + set_bit_of_half((set >> 64) as u64, rest),
    }
}

/// Each byte of a word.
const fn bytes(byte: u8) -> u64 {
    u64::from_ne_bytes([byte; 8])
}

fn set_bit_of_half(set: u64, rank: u32) -> usize {
    // Of every two bits, of every four, of each byte, and of each byte with all below it.
    let counts = set - (set >> 1 & bytes(0x55));
    let counts = (counts & bytes(0x33)) + (counts >> 2 & bytes(0x33));
    let counts = (counts + (counts >> 4)) & bytes(0x0F);
    let sums = counts.wrapping_mul(bytes(1));
    // A byte keeps its highest bit if its sum, at most 64, is more than the rank.
    let more = (sums | bytes(0x80)) - (u64::from(rank) + 1) * bytes(1);
    let byte = (more & bytes(0x80)).trailing_zeros() / 8;
    let passed = (sums << 8 >> (8 * byte)) as u8;
    let mut rest = set >> (8 * byte);
    for _ in u32::from(passed)..rank {
        rest &= rest - 1;
    }
    (8 * byte + rest.trailing_zeros()) as usize
}

#[cfg(test)]
mod tests {
    use super::*;

    /// The first states from two seeds, worked out apart from this.
    #[test]
    fn the_states_are_those_of_xorshift32() {
        let states = [
            (2_463_534_242, [723_471_715, 2_497_366_906, 2_064_144_800]),
            (1, [270_369, 67_634_689, 2_647_435_461]),
        ];
        for (seed, states) in states {
            let mut state = State::begin(seed).unwrap();
            assert_eq!([(); 3].map(|()| state.next()), states);
        }
    }

    #[test]
    fn only_seed_0_is_refused() {
        assert_eq!(State::begin(0).err(), Some(Refusal::NoSeed));
        for seed in [1, 2, 1 << 16, 1 << 31, u32::MAX] {
            assert!(State::begin(seed).is_ok());
        }
    }

    /// 32 bits are kept and none comes back: from one set bit the bits of the three shifts, by hand.
    #[test]
    fn bits_past_32_are_dropped() {
        // Left 13 and then 5 lose all of the highest bit; right 17 makes bit 14 of it, and left 5 bit 19.
        assert_eq!(State::begin(1 << 31).unwrap().next(), 1 << 31 | 1 << 14 | 1 << 19);
        // Left 13 makes bit 31 of bit 18, right 17 bits 14 and 1, and left 5 bits 23, 19 and 6.
        let made = [18, 31, 14, 1, 23, 19, 6].map(|bit| 1 << bit);
        assert_eq!(State::begin(1 << 18).unwrap().next(), made.iter().sum());
    }

    #[test]
    fn every_set_bit_is_found_by_its_rank() {
        let mut sets =
            vec![u128::MAX, 1, 1 << 127, 1 << 63 | 1 << 64, u128::MAX << 64, 0b1011 << 61];
        sets.extend(
            (1..200_u128)
                .map(|factor| factor.wrapping_pow(11).wrapping_mul(0x9E37_79B9 << 40 | 13)),
        );
        for set in sets {
            let places = (0..128).filter(|place| set >> place & 1 == 1);
            for (rank, place) in places.enumerate() {
                assert_eq!(set_bit(set, rank as u32), place, "{set:x}, {rank}");
            }
        }
    }
}
