//! 02, N13: which links a shuffled run picks, what it refuses, and that it ends as any other and can
//! be repeated.

mod common;

use common::{
    a_message_on_each_link, links, run_by_picks, small_sets, started_under, with_a_message,
    without_fathers, Link,
};
use plain::*;

/// Marsaglia's own seed, and seeds with one bit and with all.
const SEEDS: [u32; 4] = [2_463_534_242, 1, 1 << 31, u32::MAX];

/// A shuffled run by picks, with its own xorshift32: in 64 bits, of which each shift left keeps 32.
fn run_shuffled_by_picks(area: &mut [i32], links: &[Link], k: u32, seed: u32) -> (Stopped, u32) {
    let mut state = u64::from(seed);
    run_by_picks(area, links, k, |mut links| {
        state ^= state << 13 & 0xFFFF_FFFF;
        state ^= state >> 17;
        state ^= state << 5 & 0xFFFF_FFFF;
        links.sort_by_key(|&(from, to, _)| (to, from));
        (!links.is_empty()).then(|| links[state as usize % links.len()])
    })
}

/// One delivery: the state, the links with a message in N11's order, each by sender and receiver, and
/// which of them the state picks, counted from 0.
type Delivery = (u32, &'static [(usize, usize)], usize);

/// A whole run, with each delivery worked out by hand.
fn assert_picks(n: usize, list: &[u16], start: usize, seed: u32, deliveries: &[Delivery]) {
    let links = links(n, list);
    let started = started_under(1, n, list, start);
    let mut picked = started.clone();
    for (k, &(state, expected, rank)) in (1..).zip(deliveries) {
        let mut waiting = with_a_message(&picked, &links);
        waiting.sort_by_key(|&(from, to, _)| (to, from));
        let waiting: Vec<_> = waiting.into_iter().map(|(from, to, _)| (from, to)).collect();
        assert_eq!(waiting, expected, "before delivery {k}");
        assert_eq!(state as usize % expected.len(), rank, "delivery {k}");
        let (from, to) = expected[rank];
        assert!(pick(&mut picked, from, to, 1).is_ok(), "delivery {k}");
        let mut area = started.clone();
        let is_last = k as usize == deliveries.len();
        let stopped = if is_last { Stopped::Over } else { Stopped::Spent };
        assert_eq!(run_shuffled(&mut area, k, seed), (stopped, k));
        assert_eq!(area, picked, "after delivery {k}");
    }
}

/// 3 waits for 1 and 2, which acknowledge at once.
#[test]
fn picks_of_two_probes_and_their_acknowledgements() {
    let list = [3, 1, 3, 2];
    // Both are odd, and then one link is left.
    let deliveries: [Delivery; 4] = [
        (270_369, &[(3, 1), (3, 2)], 1),
        (67_634_689, &[(3, 1), (2, 3)], 1),
        (2_647_435_461, &[(3, 1)], 0),
        (307_599_695, &[(1, 3)], 0),
    ];
    assert_picks(3, &list, 3, 1, &deliveries);
    // Odd, even, even: both acknowledgements wait for 3, and the lower sender is picked.
    let deliveries: [Delivery; 4] = [
        (723_471_715, &[(3, 1), (3, 2)], 1),
        (2_497_366_906, &[(3, 1), (2, 3)], 0),
        (2_064_144_800, &[(1, 3), (2, 3)], 0),
        (2_008_045_182, &[(2, 3)], 0),
    ];
    assert_picks(3, &list, 3, 2_463_534_242, &deliveries);
}

/// 3 waits for itself and for 1, and 1 for 2 and 3: a loop, and links with two messages, of which the
/// older one goes.
#[test]
fn picks_with_a_loop_and_several_messages_on_a_link() {
    let list = [3, 3, 3, 1, 1, 2, 1, 3];
    let deliveries: [Delivery; 14] = [
        (270_369, &[(3, 1), (3, 3)], 1),
        (67_634_689, &[(3, 1), (3, 3)], 1),
        (2_647_435_461, &[(3, 1), (3, 3)], 1),
        (307_599_695, &[(3, 1), (3, 3)], 1),
        (2_398_689_233, &[(3, 1)], 0),
        (745_495_504, &[(3, 1), (1, 2), (1, 3)], 1),
        (632_435_482, &[(2, 1), (3, 1), (1, 3)], 1),
        (435_756_210, &[(2, 1), (1, 3)], 0),
        (2_005_365_029, &[(1, 3)], 0),
        (2_916_098_932, &[(3, 1), (1, 3)], 0),
        (2_657_092_299, &[(1, 3)], 0),
        (1_495_045_943, &[(1, 3)], 0),
        (3_031_976_842, &[(3, 1)], 0),
        (82_049_198, &[(1, 3)], 0),
    ];
    assert_picks(3, &list, 3, 1, &deliveries);
}

/// Every set of waits of up to three processes, from every start: by calls of 1 to 3 deliveries, each
/// from its own seed, and to the end in one.
#[test]
fn every_delivery_is_on_the_link_that_the_state_picks() {
    for (n, list) in small_sets() {
        let links = links(n, &list);
        for start in 1..=n {
            for seed in SEEDS {
                let mut area = started_under(1, n, &list, start);
                let mut picked = area.clone();
                for (turn, k) in (1_u32..).zip([1, 2, 3, 1, u32::MAX]) {
                    let seed = seed ^ turn << 8;
                    let stopped = run_shuffled(&mut area, k, seed);
                    let expected = run_shuffled_by_picks(&mut picked, &links, k, seed);
                    assert_eq!(stopped, expected, "{list:?} from {start}, seed {seed}");
                    assert_eq!(area, picked, "{list:?} from {start}, seed {seed}");
                }
                assert!(report(&area).is_ok());
            }
        }
    }
}

#[test]
fn every_receiver_and_every_sender_is_picked() {
    let (full, links) = a_message_on_each_link();
    let all = links.len() as u32;
    for seed in SEEDS {
        for k in 0..=all {
            let (mut area, mut picked) = (full.clone(), full.clone());
            assert_eq!(run_shuffled(&mut area, k, seed), (Stopped::Spent, k));
            if k % 16 == 15 || k == all {
                run_shuffled_by_picks(&mut picked, &links, k, seed);
                assert_eq!(area, picked, "{k} deliveries from {seed}");
            }
            assert_eq!(with_a_message(&area, &links).len() as u32, all - k);
        }
        let refused = (Stopped::Refused(Refusal::Nothing), all);
        assert_eq!(run_shuffled(&mut full.clone(), u32::MAX, seed), refused);
    }
}

/// "It refuses seed 0 with 37, after 21", and before over and spent.
#[test]
fn seed_0_is_refused_after_21() {
    let refused = |refusal| (Stopped::Refused(refusal), 0);
    let begun = started_under(1, 2, &[1, 2, 2, 1], 1);
    let mut over = begun.clone();
    assert_eq!(run_on(&mut over, 8), (Stopped::Over, 8));
    for area in [begun, over] {
        for k in [0, 1, 2048, u32::MAX] {
            let mut tried = area.clone();
            assert_eq!(run_shuffled(&mut tried, k, 0), refused(Refusal::NoSeed));
            assert_eq!(tried, area);
            // Each word that is no value there, and each word too few.
            for place in 0..area.len() {
                let mut damaged = area.clone();
                damaged[place] = i32::MIN;
                let before = damaged.clone();
                assert_eq!(run_shuffled(&mut damaged, k, 0), refused(Refusal::Malformed));
                assert_eq!(run_shuffled(&mut damaged, k, 1), refused(Refusal::Malformed));
                assert_eq!(damaged, before);
                let short = &mut tried[..place];
                assert_eq!(run_shuffled(short, k, 0), refused(Refusal::Malformed));
            }
        }
    }
    assert_eq!(Refusal::NoSeed.number(), 37);
}

#[test]
fn over_comes_before_spent() {
    let mut area = started_under(1, 2, &[1, 2], 1);
    let before = area.clone();
    for seed in SEEDS {
        assert_eq!(run_shuffled(&mut area, 0, seed), (Stopped::Spent, 0));
    }
    assert_eq!(area, before);
    assert_eq!(run_shuffled(&mut area, 1, 1), (Stopped::Spent, 1));
    assert_eq!(run_shuffled(&mut area, 1, 1), (Stopped::Over, 1));
    let before = area.clone();
    for k in [0, 1, u32::MAX] {
        assert_eq!(run_shuffled(&mut area, k, 1), (Stopped::Over, 0));
    }
    assert_eq!(area, before);
    // Nobody waits for anybody.
    let mut alone = started_under(1, 1, &[], 1);
    assert_eq!(run_shuffled(&mut alone, 5, 1), (Stopped::Over, 0));
}

/// "running on that meets 24 or 22 midway keeps its deliveries and gives their number" (01)
#[test]
fn deliveries_are_kept_when_one_is_refused() {
    // The start waits for one acknowledgement more than there is.
    let mut area = started_under(1, 2, &[1, 2], 1);
    area[26] = 2;
    let mut spent = area.clone();
    assert_eq!(run_shuffled(&mut area, 9, 1), (Stopped::Refused(Refusal::Nothing), 2));
    assert_eq!(run_shuffled(&mut spent, 2, 1), (Stopped::Spent, 2));
    assert_eq!(area, spent);
    assert_eq!(run_shuffled(&mut area, 9, 1), (Stopped::Refused(Refusal::Nothing), 0));
    assert_eq!(run_shuffled(&mut area, 0, 1), (Stopped::Spent, 0));
    // The count of deliveries is full after one.
    let mut area = started_under(1, 2, &[1, 2], 1);
    area[2] = 2047;
    let mut spent = area.clone();
    assert_eq!(run_shuffled(&mut area, 9, 1), (Stopped::Refused(Refusal::Range), 1));
    assert_eq!(run_shuffled(&mut spent, 1, 1), (Stopped::Spent, 1));
    assert_eq!(area, spent);
    assert_eq!(run_shuffled(&mut area, 9, 1), (Stopped::Refused(Refusal::Range), 0));
}

/// "Such a run ends as any other": with the same count, the same report and the same words but for
/// fathers, which do differ.
#[test]
fn a_shuffled_run_ends_as_any_other() {
    let mut other_fathers = 0;
    for (n, list) in small_sets() {
        for start in 1..=n {
            let started = started_under(1, n, &list, start);
            let mut fixed = started.clone();
            let ran = run_on(&mut fixed, u32::MAX);
            for seed in SEEDS {
                let mut area = started.clone();
                assert_eq!(run_shuffled(&mut area, 2048, seed), ran, "{list:?} from {start}");
                assert_eq!(report(&area), report(&fixed));
                assert_eq!(without_fathers(&area), without_fathers(&fixed));
                other_fathers += usize::from(area != fixed);
            }
        }
    }
    assert!(other_fathers > 100, "{other_fathers}");
}

/// The area after so many deliveries from a seed, of a ring of 16 in which each waits for the next four.
fn ring_after(k: u32, seed: u32) -> Vec<i32> {
    let waits =
        (0..16).flat_map(|from| (1..=4).map(move |more| [from + 1, (from + more) % 16 + 1]));
    let mut area = started_under(1, 16, &waits.flatten().collect::<Vec<u16>>(), 1);
    assert_eq!(run_shuffled(&mut area, k, seed).1, k);
    area
}

/// "Load days need orders anyone can repeat."
#[test]
fn a_seed_repeats_its_order_and_others_give_others() {
    let areas: Vec<_> = (1..=40).map(|seed| ring_after(60, seed)).collect();
    for (seed, area) in (1..).zip(&areas) {
        assert_eq!(*area, ring_after(60, seed), "{seed}");
        assert_eq!(areas.iter().filter(|other| *other == area).count(), 1, "{seed}");
    }
}

/// Each call begins from its own seed.
#[test]
fn two_calls_of_one_delivery_are_not_one_call_of_two() {
    let mut parted = ring_after(1, 1);
    assert_eq!(run_shuffled(&mut parted, 1, 1), (Stopped::Spent, 1));
    assert_ne!(parted, ring_after(2, 1));
    // From the state that the first delivery left it goes on as one call.
    let mut parted = ring_after(1, 1);
    assert_eq!(run_shuffled(&mut parted, 1, 270_369), (Stopped::Spent, 1));
    assert_eq!(parted, ring_after(2, 1));
}

/// What `hosts/c/example.c` prints.
#[test]
fn the_fathers_of_the_example_in_c() {
    for (seed, fathers) in [(2_463_534_242, [0, 3, 1]), (2026, [0, 1, 2])] {
        let mut area = started_under(1, 3, &[1, 2, 1, 3, 2, 3, 3, 1], 1);
        assert_eq!(run_shuffled(&mut area, 2048, seed), (Stopped::Over, 16));
        let found = [1, 2, 3].map(|process| read_record(&area, process).unwrap().father);
        assert_eq!(found, fathers, "seed {seed}");
    }
}
