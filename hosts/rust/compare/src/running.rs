//! Running on by picks (02, N11) and shuffled (02, N13), with what planted faults mistake in its order,
//! in what it keeps of the links from one delivery to the next, or in its states.

use crate::families::NO_SEED;
use crate::layout::{links, Link};
use crate::planted::Fault::{self, *};
use crate::seconds::graph_in;
use calls::{Answer, Calls, Plain};
use std::collections::BTreeSet;

/// The faults that are planted here; without one, running on by picks is running on.
pub const ORDER_FAULTS: [Fault; 6] = [
    RunTakesSendersFirst,
    RunTakesTheHighestSender,
    RunNeverGoesDown,
    RunForgetsAReceiverAfterOneLink,
    RunTakesALinkThatFellEmpty,
    RunForgetsWhatALoopSends,
];

/// The same for shuffled runs.
pub const SHUFFLE_FAULTS: [Fault; 24] = [
    ShuffleKeepsTheFixedOrder,
    ShuffleShiftsRightFirst,
    ShuffleShiftsLeft5First,
    ShuffleShiftsRightWithTheSign,
    ShuffleKeepsBitsPast32,
    ShuffleBringsBitsPast32Back,
    ShufflePicksBeforeItMovesOn,
    ShuffleMovesOnOnce,
    ShuffleGoesOnFromTheCallBefore,
    ShuffleHandsItsStateOnUnderOneSeed,
    ShuffleCountsFrom1,
    ShuffleTakesSendersFirst,
    ShuffleTakesTheHighestReceiver,
    ShuffleTakesTheHighestSender,
    ShuffleCountsReceivers,
    ShuffleCountsAllLinks,
    ShuffleCountsMessages,
    ShufflePicksAReceiverOnly,
    ShuffleTakesTheNewest,
    ShuffleTakesSeed0,
    ShuffleTakesSeed0ForSeed1,
    ShuffleTakes37Before21,
    ShuffleTakesOverBefore37,
    ShuffleTakesSpentBefore37,
];

/// The links of a well-formed area.
pub fn links_in(area: &[i32]) -> Vec<Link> {
    links(&graph_in(area))
}

/// What running on keeps: by receiver and sender the links with a message, their receivers, and the
/// receiver of the last delivery.
#[derive(Default)]
struct Kept {
    links: BTreeSet<(usize, usize)>,
    receivers: BTreeSet<usize>,
    last: usize,
}

impl Kept {
    fn note_sent(&mut self, link: &Link) {
        self.links.insert((link.to, link.from));
        self.receivers.insert(link.to);
    }

    fn note_emptied(&mut self, fault: Fault, link: &Link) {
        if fault != RunTakesALinkThatFellEmpty {
            self.links.remove(&(link.to, link.from));
        }
        let is_served = self.links.iter().all(|&(to, _)| to != link.to);
        if is_served || fault == RunForgetsAReceiverAfterOneLink {
            self.receivers.remove(&link.to);
        }
    }

    /// The sender and the receiver of the next delivery: "lowest receiver first and then lowest
    /// sender" (02, N11), unless the fault has it otherwise.
    fn next(&self, fault: Fault) -> Option<(usize, usize)> {
        let lowest = self.receivers.first();
        let &to = match fault {
            RunNeverGoesDown => self.receivers.range(self.last..).next().or(lowest),
            _ => lowest,
        }?;
        let mut senders = self.links.range((to, 0)..(to + 1, 0)).map(|&(_, from)| from);
        match fault {
            RunTakesSendersFirst => self.links.iter().map(|&(to, from)| (from, to)).min(),
            RunTakesTheHighestSender => senders.next_back().map(|from| (from, to)),
            _ => senders.next().map(|from| (from, to)),
        }
    }
}

/// Running on with a fault, or with none.
pub fn run_on_by_picks(fault: Fault, area: &mut [i32], k: u32) -> Answer {
    let mut stopped = Plain.run_on(area, 0);
    if stopped.number != 0 {
        return stopped;
    }
    let links = links_in(area);
    let mut kept = Kept::default();
    links.iter().filter(|link| link.load(area) > 0).for_each(|link| kept.note_sent(link));
    for made in 0..i64::from(k) {
        if stopped.values[0] == 1 {
            break;
        }
        let Some((from, to)) = kept.next(fault) else { return Answer::new(24, [0, made]) };
        let before: Vec<_> = links.iter().map(|link| link.load(area)).collect();
        let picked = Plain.pick(area, from, to, 1);
        if picked.number != 0 {
            return Answer::new(picked.number, [0, made]);
        }
        kept.last = to;
        for (link, &before) in links.iter().zip(&before) {
            let is_taken = (link.from, link.to) == (from, to);
            let left = before - usize::from(is_taken);
            let is_emptied = is_taken && left == 0;
            let is_sent_on = link.load(area) > left;
            if is_emptied {
                kept.note_emptied(fault, link);
            }
            if is_sent_on && !(is_emptied && fault == RunForgetsWhatALoopSends) {
                kept.note_sent(link);
            }
        }
        stopped = Plain.run_on(area, 0);
        stopped.values[1] = made + 1;
    }
    stopped
}

/// What a faulty library keeps from one shuffled run to the next: the seed, and the state at its end.
pub type LastShuffle = Option<(u32, u64)>;

/// The state with which a shuffled run begins.
fn first_state(fault: Fault, seed: u32, last: LastShuffle) -> u64 {
    match (fault, last) {
        (ShuffleTakesSeed0ForSeed1, _) if seed == 0 => 1,
        (ShuffleGoesOnFromTheCallBefore, Some((_, state))) => state,
        (ShuffleHandsItsStateOnUnderOneSeed, Some((same, state))) if same == seed => state,
        _ => seed.into(),
    }
}

/// "xored with itself shifted left 13, then right 17, then left 5 (Marsaglia's xorshift32), dropping bits
/// past 32" (02, N13)
fn next_state(fault: Fault, state: u64) -> u64 {
    let left = |state: u64, by: u32| match fault {
        ShuffleKeepsBitsPast32 => state ^ state << by,
        ShuffleBringsBitsPast32Back => u64::from(state as u32 ^ (state as u32).rotate_left(by)),
        _ => u64::from(state as u32 ^ (state as u32) << by),
    };
    let right = |state: u64, by: u32| match fault {
        ShuffleShiftsRightWithTheSign => u64::from(state as u32 ^ (state as i32 >> by) as u32),
        _ => state ^ state >> by,
    };
    match fault {
        ShuffleShiftsRightFirst => left(left(right(state, 17), 13), 5),
        ShuffleShiftsLeft5First => left(right(left(state, 5), 17), 13),
        _ => left(right(left(state, 13), 17), 5),
    }
}

/// The sender and the receiver of the next delivery: "The state modulo the number of links with a
/// message, counted from 0 in N11's order, picks the link" (02, N13), unless the fault has it otherwise.
fn shuffled_link(fault: Fault, links: &[Link], area: &[i32], state: u64) -> Option<(usize, usize)> {
    let mut links = links.to_vec();
    links.sort_by_key(|link| match fault {
        ShuffleTakesSendersFirst => (link.from, link.to),
        ShuffleTakesTheHighestReceiver => (usize::MAX - link.to, link.from),
        ShuffleTakesTheHighestSender => (link.to, usize::MAX - link.from),
        _ => (link.to, link.from),
    });
    let all = links.len();
    // Where the count of all links leads to one without a message, the next one with a message goes.
    let from_there_on = |place: usize| links.iter().cycle().skip(place).take(all);
    if fault == ShuffleCountsAllLinks && all > 0 {
        let link = from_there_on(state as usize % all).find(|link| link.load(area) > 0)?;
        return Some((link.from, link.to));
    }
    let messages: usize = links.iter().map(|link| link.load(area)).sum();
    links.retain(|link| link.load(area) > 0);
    let receivers: BTreeSet<usize> = links.iter().map(|link| link.to).collect();
    let count = links.len();
    let rank = |count: usize| state.checked_rem(count as u64).map(|rank| rank as usize);
    let link = match fault {
        ShuffleKeepsTheFixedOrder => links.first(),
        ShuffleCountsFrom1 => links.get((rank(count)? + count - 1) % count),
        ShuffleCountsReceivers => links.get(rank(receivers.len())?),
        ShuffleCountsMessages => links.get(rank(messages)? % count),
        ShufflePicksAReceiverOnly => {
            let to = receivers.iter().copied().nth(rank(receivers.len())?)?;
            links.iter().find(|link| link.to == to)
        }
        _ => links.get(rank(count)?),
    }?;
    Some((link.from, link.to))
}

/// A shuffled run with a fault, or with none; `last` is what the fault keeps between runs.
pub fn run_shuffled_by_picks(
    fault: Fault,
    area: &mut [i32],
    k: u32,
    seed: u32,
    last: &mut LastShuffle,
) -> Answer {
    if fault == ShuffleTakes37Before21 && seed == 0 {
        return Answer::new(NO_SEED, []);
    }
    let mut stopped = Plain.run_on(area, 0);
    if stopped.number != 0 {
        return stopped;
    }
    let is_refused = seed == 0
        && match fault {
            ShuffleTakesSeed0 | ShuffleTakesSeed0ForSeed1 => false,
            ShuffleTakesOverBefore37 => stopped.values[0] == 0,
            ShuffleTakesSpentBefore37 => stopped.values[0] == 1 || k != 0,
            _ => true,
        };
    if is_refused {
        return Answer::new(NO_SEED, []);
    }
    let links = links_in(area);
    let mut state = first_state(fault, seed, *last);
    for made in 0..i64::from(k) {
        if stopped.values[0] == 1 {
            break;
        }
        let before = state;
        if fault != ShuffleMovesOnOnce || made == 0 {
            state = next_state(fault, state);
        }
        let picks = if fault == ShufflePicksBeforeItMovesOn { before } else { state };
        let Some((from, to)) = shuffled_link(fault, &links, area, picks) else {
            return Answer::new(24, [0, made]);
        };
        let place = match links.iter().find(|link| (link.from, link.to) == (from, to)) {
            Some(link) if fault == ShuffleTakesTheNewest => link.load(area),
            _ => 1,
        };
        let picked = Plain.pick(area, from, to, place);
        if picked.number != 0 {
            return Answer::new(picked.number, [0, made]);
        }
        stopped = Plain.run_on(area, 0);
        stopped.values[1] = made + 1;
    }
    *last = Some((seed, state));
    stopped
}
