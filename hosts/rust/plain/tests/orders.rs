//! 02, N11: the order of running on, delivery by delivery, and what can differ by it from the order
//! before.

mod common;

use common::{
    a_message_on_each_link, links, printed, run_by_picks, small_sets, started_under, table,
    without_fathers, Link,
};
use plain::*;

/// What the first link has least of.
type Order = fn(&Link) -> (usize, usize);

/// "The fixed order becomes lowest receiver first and then lowest sender."
const RECEIVERS_FIRST: Order = |&(from, to, _)| (to, from);

/// 01's order: "lowest sender first and then lowest receiver".
const SENDERS_FIRST: Order = |&(from, to, _)| (from, to);

/// Running on by picks, each on the first link with a message.
fn run_on_by_picks(area: &mut [i32], links: &[Link], order: Order, k: u32) -> (Stopped, u32) {
    run_by_picks(area, links, k, |links| links.into_iter().min_by_key(order))
}

/// What the program prints first, from a start and without picks.
fn assert_own_lines(start: u8, n: usize, list: &[u16], own: &str) {
    let printed = printed(&[&[start, 0, 1, 0], &table(n, list)[..]].concat());
    assert!(printed.starts_with(own), "{printed}");
    assert_eq!(printed.matches("own ").count(), own.lines().count());
}

#[test]
fn own_lines_rise_by_receiver_and_then_by_sender() {
    // The probe to 2 goes before the acknowledgement that 1 has sent.
    let own = "own 3 1 suc\nown 3 2 suc\nown 1 3 ack 1 1\nown 2 3 ack 1 1\n";
    assert_own_lines(3, 3, &[3, 1, 3, 2], own);
    // 1, which has two links with a message, gets its acknowledgement before the second is taken.
    let own = "own 1 2 suc\nown 2 1 ack 1 1\nown 1 3 suc\nown 3 1 ack 1 1\n";
    assert_own_lines(1, 3, &[1, 2, 1, 3], own);
    // A loop is a link like any other: 1 is a lower sender to 2 than 2.
    let own = "own 2 1 suc\nown 2 1 pre\nown 1 2 suc\nown 2 1 ack 0 0\nown 1 2 ack 1 0\n\
               own 1 2 pre\nown 2 1 ack 0 0\nown 1 2 ack -1 0\nown 2 2 suc\nown 2 2 pre\n\
               own 2 2 ack 0 0\nown 2 2 ack 0 0\n";
    assert_own_lines(2, 2, &[2, 2, 2, 1, 1, 2], own);
}

/// Every set of waits of up to three processes, from every start, by runnings on of 0 to 3.
#[test]
fn every_delivery_is_on_the_first_link_with_a_message() {
    for (n, list) in small_sets() {
        let links = links(n, &list);
        for first in 1..=n {
            for least in 0..=3 {
                let mut area = started_under(1, n, &list, first);
                let mut picked = area.clone();
                for k in (least..).map(|turn| turn % 4) {
                    let stopped = run_on(&mut area, k);
                    let expected = run_on_by_picks(&mut picked, &links, RECEIVERS_FIRST, k);
                    assert_eq!(stopped, expected, "{list:?} from {first}");
                    assert_eq!(area, picked, "{list:?} from {first}");
                    if stopped.0 == Stopped::Over {
                        break;
                    }
                }
            }
        }
    }
}

#[test]
fn every_receiver_and_every_sender_has_its_turn() {
    let (mut full, links) = a_message_on_each_link();
    let mut picked = full.clone();
    for k in 0..links.len() as u32 {
        let mut area = full.clone();
        assert_eq!(run_on(&mut area, k), (Stopped::Spent, k));
        assert_eq!(area, picked, "{k} deliveries");
        assert_eq!(run_on_by_picks(&mut picked, &links, RECEIVERS_FIRST, 1), (Stopped::Spent, 1));
    }
    let refused = Stopped::Refused(Refusal::Nothing);
    assert_eq!(run_on(&mut full, u32::MAX), (refused, links.len() as u32));
    assert_eq!(full, picked);
}

/// A call of 01's lists ("The end of a check").
#[derive(Clone, Copy, Debug)]
enum Call {
    Pick(usize, usize, usize),
    RunOn(u32),
    Report,
    ReadRecord(usize),
}

/// One check in the order of 02, N11, and in the order before it.
struct Both {
    links: Vec<Link>,
    new: Vec<i32>,
    old: Vec<i32>,
    /// A running on was spent after one delivery or more.
    spent: bool,
}

impl Both {
    /// The two answers, fathers aside.
    fn make(&mut self, call: Call) -> [String; 2] {
        let Both { links, new, old, spent } = self;
        if let Call::RunOn(k) = call {
            let stopped = [run_on(new, k), run_on_by_picks(old, links, SENDERS_FIRST, k)];
            *spent |= stopped.iter().any(|&(how, made)| how == Stopped::Spent && made > 0);
            return stopped.map(|stopped| format!("{stopped:?}"));
        }
        [new, old].map(|area| match call {
            Call::Pick(from, to, place) => format!("{:?}", pick(area, from, to, place)),
            Call::ReadRecord(process) => {
                let record = read_record(area, process);
                format!("{:?}", record.map(|record| Record { father: 0, ..record }))
            }
            _ => format!("{:?}", report(area)),
        })
    }

    fn both_are_over(&self) -> bool {
        [&self.new, &self.old].iter().all(|area| report(area).is_ok())
    }

    fn agree_but_for_fathers(&self) -> bool {
        without_fathers(&self.new) == without_fathers(&self.old)
    }
}

/// "In knot-check runs made by start and deliveries, only `own` lines, fathers, spent runs and what
/// follows these until both runs are over can differ." Drawn lists of calls on every set of waits of
/// up to three processes, which go on after the end; each kind of difference comes up.
#[test]
fn what_differs_by_the_order_ends_with_the_run() {
    let mut state = 11_u64;
    let mut below = |bound: usize| {
        state = state.wrapping_mul(6_364_136_223_846_793_005).wrapping_add(1);
        (state >> 33) as usize % bound
    };
    let (mut fathers, mut areas, mut answers, mut met_again) = (0, 0, 0, 0);
    for (n, list) in (0..4).flat_map(|_| small_sets()) {
        let start = 1 + below(n);
        let new = started_under(1, n, &list, start);
        let mut both = Both { links: links(n, &list), old: new.clone(), new, spent: false };
        let mut is_alike = true;
        for turn in 0..24 {
            let call = match below(8) {
                _ if turn == 16 => Call::RunOn(2048),
                0 => Call::Report,
                1 | 2 => Call::ReadRecord(1 + below(n)),
                3 => Call::RunOn(below(5) as u32),
                _ if both.links.is_empty() => Call::RunOn(0),
                _ => {
                    let (from, to, _) = both.links[below(both.links.len())];
                    Call::Pick(from, to, 1 + below(3))
                }
            };
            let [new, old] = both.make(call);
            answers += usize::from(new != old);
            assert!(new == old || !is_alike, "{list:?} from {start}, {call:?}: {new}, {old}");
            let was_alike = is_alike;
            is_alike = both.new == both.old;
            if !is_alike && both.both_are_over() {
                assert!(both.agree_but_for_fathers(), "{list:?} from {start}, {call:?}");
                is_alike = true;
                fathers += 1;
            }
            assert!(is_alike || both.spent, "{list:?} from {start}, {call:?}");
            areas += usize::from(!is_alike);
            met_again += usize::from(is_alike && !was_alike);
        }
        assert!(both.both_are_over());
    }
    for times in [fathers, areas, answers, met_again] {
        assert!(times > 100, "{fathers}, {areas}, {answers}, {met_again}");
    }
}
