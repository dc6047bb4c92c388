//! 01's own examples, its table of checks, and the refusals of each call; 02's rules for the escape
//! (N1), for the second sums and the mark (N3), for editions (N4) and for places (N5).

mod common;

use common::{links, printed, small_sets, started_under, table, waiting};
use plain::*;
use std::collections::{HashMap, HashSet};

fn started(n: usize, list: &[u16], first: usize) -> Vec<i32> {
    started_under(1, n, list, first)
}

/// An acknowledgement with its two counts (02, N3).
fn ack(count: i32, second: i32) -> Message {
    Message::Ack(Counts { count, second })
}

/// The word of such an acknowledgement.
fn ack_word(count: i32, second: i32) -> i32 {
    (256 + count) + 512 * (256 + second)
}

fn field(bytes: &mut [u8], place: usize, value: u16) {
    bytes[2 * place..2 * place + 2].copy_from_slice(&value.to_le_bytes());
}

#[test]
fn the_example_of_01() {
    // 02, N4: "01's input gains `01 00`" after the start process.
    let input =
        [1, 0, 1, 0, 2, 0, 1, 0, 1, 0, 0, 0, 0, 0, 1, 0, 1, 0, 2, 0, 0, 0, 0, 0, 1, 0, 2, 0];
    // 02, N3: "`ack` and `process` lines end with the second number".
    let expected = "pick 1 2 suc\nown 2 1 ack 1 1\nprocess 1 1 1 0 1 0 1\nprocess 2 1 0 1 0 0 0\n\
                    over 2\nverdict none\noutside 1\nescape 2\nmark held\n";
    assert_eq!(printed(&input), expected);
    assert_eq!(table(2, &[1, 2]), input[4..24]);
}

/// A knot by both editions, by the first alone (02, N4), or by none.
#[derive(Clone, Copy, PartialEq)]
enum Knot {
    Both,
    First,
    None,
}

impl Knot {
    fn under(self, edition: usize) -> bool {
        self == Knot::Both || self == Knot::First && edition == 1
    }
}

/// N, the waits, D, knot, outside; escape by 02, N1, and the start's second sum by 02, N3.
type Row = (usize, &'static [u16], u32, Knot, i32, usize, i32);

#[test]
fn the_rows_to_be_proved() {
    let rows: [Row; 8] = [
        (1, &[], 0, Knot::First, 0, 0, 1),
        (1, &[1, 1], 4, Knot::Both, 0, 0, 0),
        (2, &[1, 2], 2, Knot::None, 1, 2, 1),
        (2, &[2, 1], 2, Knot::First, 0, 0, 1),
        (2, &[1, 2, 2, 1], 8, Knot::Both, 0, 0, 0),
        (3, &[1, 2, 2, 3, 3, 1], 12, Knot::Both, 0, 0, 0),
        (3, &[1, 2, 2, 1, 2, 3], 10, Knot::None, 1, 3, 1),
        (3, &[1, 2, 2, 3, 3, 2], 6, Knot::None, 2, 2, 0),
    ];
    for (n, list, deliveries, knot, outside, escape, second) in rows {
        for edition in [1, 2] {
            let mut area = started_under(edition, n, list, 1);
            assert_eq!(run_on(&mut area, deliveries), (Stopped::Over, deliveries), "{list:?}");
            let knot = knot.under(edition);
            let expected = Report { deliveries, knot, outside, escape, returned: second == 0 };
            assert_eq!(report(&area), Ok(expected), "{list:?} under {edition}");
            assert_eq!(read_record(&area, 1).unwrap().second, second, "{list:?}");
        }
    }
}

/// By row and column, whether arcs lead from one process to another, one arc or more.
fn ways(n: usize, list: &[u16]) -> Vec<Vec<bool>> {
    let mut ways = vec![vec![false; n]; n];
    for arc in list.chunks(2) {
        ways[usize::from(arc[0]) - 1][usize::from(arc[1]) - 1] = true;
    }
    for middle in 0..n {
        for from in 0..n {
            for to in 0..n {
                ways[from][to] |= ways[from][middle] && ways[middle][to];
            }
        }
    }
    ways
}

/// 02, N3: the second sums once a run is over, "0 everywhere but at the start, which has the number of
/// such processes".
fn assert_second_sums(area: &[i32], n: usize, start: usize, number: usize) {
    for process in 1..=n {
        let expected = if process == start { number as i32 } else { 0 };
        assert_eq!(read_record(area, process).unwrap().second, expected, "process {process}");
    }
}

/// Every set of waits of up to three processes, from every start and under both editions: the two
/// runs differ in the word that names the edition alone, and both mark by 02, N3.
#[test]
fn small_checks_are_judged_by_their_edition() {
    for (n, list) in small_sets() {
        let ways = ways(n, &list);
        for first in 0..n {
            let reaches = |from: usize, to: usize| from == to || ways[from][to];
            let outside = (0..n).filter(|&other| reaches(first, other) && !reaches(other, first));
            let outside: Vec<_> = outside.collect();
            let by_an_arc = ways[first].contains(&true);
            let for_nobody =
                (0..n).filter(|&other| reaches(first, other) && !ways[other].contains(&true));
            let for_nobody = for_nobody.count();
            let [mut area, mut by_the_second] =
                [1, 2].map(|edition| started_under(edition, n, &list, first + 1));
            loop {
                assert_eq!((area[3], by_the_second[3]), (1, 2));
                assert_eq!(area[..3], by_the_second[..3]);
                assert_eq!(area[4..], by_the_second[4..]);
                let stopped = run_on(&mut area, 1);
                assert_eq!(run_on(&mut by_the_second, 1), stopped);
                if stopped == (Stopped::Over, 0) {
                    break;
                }
            }
            let knot = outside.is_empty();
            let found = report(&area).unwrap();
            let escape = outside.first().map_or(0, |other| other + 1);
            assert_eq!((found.outside, found.escape), (outside.len() as i32, escape), "{list:?}");
            assert_eq!((found.knot, found.returned), (knot, for_nobody == 0), "{list:?}");
            assert_second_sums(&area, n, first + 1, for_nobody);
            let expected = Report { knot: knot && by_an_arc, ..found };
            assert_eq!(report(&by_the_second), Ok(expected), "{list:?} from {}", first + 1);
        }
    }
}

/// 02, N5: "All that is said of the end of a check, D included, is wanted for these picks too,
/// without links that keep order." Every area that picks can make, at every place, is tried once,
/// under both editions (N4: "the end state is still one for all orders").
#[test]
fn the_end_is_the_same_at_every_place() {
    // N, the waits, the most messages on a link, D, knot, outside, escape, the start's second sum.
    type Check = (usize, &'static [u16], usize, u32, Knot, i32, usize, usize);
    let checks: [Check; 10] = [
        (1, &[1, 1], 2, 4, Knot::Both, 0, 0, 0),
        (2, &[1, 2], 1, 2, Knot::None, 1, 2, 1),
        (2, &[2, 1], 1, 2, Knot::First, 0, 0, 1),
        (2, &[1, 2, 2, 1], 3, 8, Knot::Both, 0, 0, 0),
        (2, &[1, 2, 2, 1, 2, 2], 3, 12, Knot::Both, 0, 0, 0),
        (3, &[1, 2, 2, 3, 3, 1], 2, 12, Knot::Both, 0, 0, 0),
        (3, &[1, 2, 2, 1, 2, 3], 3, 10, Knot::None, 1, 3, 1),
        (3, &[1, 2, 2, 3, 3, 2], 1, 6, Knot::None, 2, 2, 0),
        (3, &[1, 2, 1, 3, 2, 1, 2, 3, 3, 2], 4, 20, Knot::Both, 0, 0, 0),
        (4, &[1, 2, 2, 1, 2, 3, 1, 3, 2, 4], 3, 14, Knot::None, 2, 3, 2),
    ];
    for ((n, list, most, deliveries, knot, outside, escape, second), edition) in
        checks.into_iter().flat_map(|check| [(check, 1), (check, 2)])
    {
        let links = links(n, list);
        let knot = knot.under(edition);
        let mut open = vec![started_under(edition, n, list, 1)];
        let mut met: HashSet<Vec<i32>> = open.iter().cloned().collect();
        let mut ends = HashSet::new();
        let mut found = 0;
        while let Some(area) = open.pop() {
            let is_over = read_record(&area, 1).unwrap().num == 0;
            assert_eq!(links.iter().all(|link| waiting(&area, link.2).is_empty()), is_over);
            if is_over {
                let returned = second == 0;
                let expected = Report { deliveries, knot, outside, escape, returned };
                assert_eq!(report(&area), Ok(expected), "{list:?}");
                assert_second_sums(&area, n, 1, second);
                let records = (1..=n).map(|process| read_record(&area, process).unwrap());
                let records = records.map(|record| {
                    let Record { succeeding, preceding, subordinate, cs, num, .. } = record;
                    (succeeding, preceding, subordinate, cs, num, record.second)
                });
                ends.insert(records.collect::<Vec<_>>());
            }
            for &(from, to, link) in &links {
                let load = waiting(&area, link).len();
                found = found.max(load);
                for place in 1..=load {
                    let mut after = area.clone();
                    assert!(pick(&mut after, from, to, place).is_ok(), "{list:?}");
                    if met.insert(after.clone()) {
                        open.push(after);
                    }
                }
            }
        }
        assert_eq!(ends.len(), 1, "only fathers may differ: {list:?}");
        assert_eq!(found, most, "{list:?}");
    }
}

/// What escape names once the run is over.
fn escape_at_the_end(mut area: Vec<i32>) -> usize {
    assert_eq!(run_on(&mut area, u32::MAX).0, Stopped::Over);
    report(&area).unwrap().escape
}

/// 02, N1. In every case with several ways out the lowest is first reached last.
#[test]
fn escape_is_the_lowest_way_out() {
    // On a path the ways out are reached one after the other, here the highest first.
    assert_eq!(escape_at_the_end(started(4, &[1, 4, 4, 3, 3, 2], 1)), 2);
    assert_eq!(escape_at_the_end(started(5, &[5, 4, 4, 3, 3, 2, 2, 1], 5)), 1);
    // 1 and 2 are reachable and reach the start, 3 only reaches it, 4 does neither.
    let list = [5, 1, 1, 2, 2, 5, 3, 5, 2, 8, 8, 7, 7, 6];
    assert_eq!(escape_at_the_end(started(8, &list, 5)), 6);
    // No way out, though 1 reaches the start and 4 waits for nobody.
    assert_eq!(escape_at_the_end(started(4, &[1, 2, 2, 3, 3, 2], 2)), 0);
    // The picks reach the highest first.
    let mut area = started(4, &[1, 2, 1, 3, 1, 4], 1);
    for to in [4, 3, 2] {
        assert_eq!(pick(&mut area, 1, to, 1), Ok(Message::Suc));
    }
    assert_eq!(escape_at_the_end(area), 2);
}

/// 02, N1 asks for subordinate 1 and for nothing else: in an area that no run leaves, the start may
/// have it, and processes that are not succeeding.
#[test]
fn escape_goes_by_subordinate_alone() {
    let mut area = started(3, &[], 2);
    let flags = |process: usize| 16 + 2 * 3 + 6 * (process - 1);
    for process in [3, 2, 1] {
        area[flags(process)] |= 4;
        assert_eq!(report(&area).unwrap().escape, process);
    }
}

#[test]
fn counts_1_and_minus_1_come_back_when_both_probes_go_first() {
    let mut area = started(2, &[1, 2, 2, 1], 1);
    assert_eq!(pick(&mut area, 1, 2, 1), Ok(Message::Suc));
    assert_eq!(pick(&mut area, 1, 2, 1), Ok(Message::Pre));
    let mut counts = Vec::new();
    while report(&area).is_err() {
        match pick(&mut area, 2, 1, 1) {
            Ok(Message::Ack(Counts { count, second })) => counts.push((count, second)),
            Ok(_) => {}
            Err(refusal) => {
                assert_eq!(refusal, Refusal::Nothing);
                pick(&mut area, 1, 2, 1).unwrap();
            }
        }
    }
    assert_eq!(counts, [(1, 0), (-1, 0)]);
}

/// 02, N3: 1 waits for 2 and 3, which both wait for 4 and 5; 2 and 4 have loops. One of 2 and 3 gets
/// what 5, which waits for nobody, passes on.
#[test]
fn second_counts_come_back_once_from_each_process_that_waits_for_nobody() {
    let mut area = started(5, &[1, 2, 1, 3, 2, 4, 3, 4, 2, 5, 3, 5, 2, 2, 4, 4], 1);
    for to in [2, 3] {
        assert_eq!(pick(&mut area, 1, to, 1), Ok(Message::Suc));
    }
    for (from, second) in [(3, 1), (2, 0)] {
        assert_eq!(pick(&mut area, from, 5, 1), Ok(Message::Suc));
        assert_eq!(pick(&mut area, 5, from, 1), Ok(ack(second, second)));
        assert_eq!(read_record(&area, from).unwrap().second, second);
    }
    assert_eq!(run_on(&mut area, u32::MAX).0, Stopped::Over);
    assert_second_sums(&area, 5, 1, 1);
    assert!(!report(&area).unwrap().returned);
}

/// 02, N3: "The report marks returned if the start's second sum is 0, else held", whatever else an
/// area holds that no run leaves.
#[test]
fn the_mark_goes_by_the_second_sum_alone() {
    // The start's cs, num and second sum are at 25, 26 and 28.
    for edition in [1, 2] {
        let mut area = started_under(edition, 2, &[1, 2], 1);
        area[26] = 0;
        for second in -128..=128 {
            for cs in [-1, 0, 1] {
                (area[25], area[28]) = (cs, second);
                let found = report(&area).unwrap();
                assert_eq!((found.knot, found.returned), (cs == 0, second == 0), "{second}");
            }
        }
    }
}

/// The least and the most that a run gives: a process that waits for nobody, and one that waits for
/// 127 such.
#[test]
fn second_sums_at_the_most() {
    let list: Vec<u16> = (2..=128).flat_map(|to| [1, to]).collect();
    let mut area = started(128, &list, 1);
    assert_eq!(run_on(&mut area, u32::MAX).0, Stopped::Over);
    assert_second_sums(&area, 128, 1, 127);
    let area = started(128, &[], 128);
    assert_second_sums(&area, 128, 128, 1);
}

#[test]
fn tables_are_refused_in_order() {
    let right = table(3, &[1, 2, 2, 3, 3, 1, 1, 3]);
    let damaged = |place: usize, value: u16| {
        let mut bytes = right.clone();
        field(&mut bytes, place, value);
        read_table(&bytes)
    };
    assert_eq!(read_table(&right), Ok(Sizes { n: 3, m: 4 }));
    assert_eq!(read_table(&right[..3]), Err(Refusal::NoSizes));
    for (place, value) in [(0, 0), (0, 129), (1, 513)] {
        assert_eq!(damaged(place, value), Err(Refusal::Sizes));
    }
    assert_eq!(damaged(0, 2), Err(Refusal::Length));
    assert_eq!(read_table(&right[..right.len() - 1]), Err(Refusal::Length));
    assert_eq!(read_table(&[&right[..], &[0]].concat()), Err(Refusal::Length));
    for (place, value) in [(8, 0), (9, 4), (12, 65535)] {
        assert_eq!(damaged(place, value), Err(Refusal::Ends));
    }
    for (place, value) in [(2, 5), (7, 5), (10, 5), (23, 65535)] {
        assert_eq!(damaged(place, value), Err(Refusal::Places));
    }
    // Out-chain of 1 is 4, 1: it meets 1 for ever, meets 2, or misses 1.
    for (place, value) in [(10, 1), (10, 4), (10, 2), (22, 0), (2, 1), (2, 0)] {
        assert_eq!(damaged(place, value), Err(Refusal::Chains));
    }
    // Arcs 1 and 4 both from 1 to 2, in right chains.
    let mut alike = table(3, &[1, 2, 2, 3, 3, 1, 1, 3]);
    for (place, value) in [(5, 4), (7, 2), (21, 2), (23, 1)] {
        field(&mut alike, place, value);
    }
    assert_eq!(read_table(&alike), Err(Refusal::Alike));
}

#[test]
fn the_largest_tables_pass() {
    assert_eq!(read_table(&table(128, &[])), Ok(Sizes { n: 128, m: 0 }));
    let list = ring(128);
    assert_eq!(read_table(&table(128, &list)), Ok(Sizes { n: 128, m: 512 }));
    let mut area = started(128, &list, 77);
    assert_eq!(run_on(&mut area, u32::MAX), (Stopped::Over, 2048));
    assert_eq!(write_table(128, &[list, vec![1, 1]].concat(), &mut []), Err(Refusal::Sizes));
}

/// Every process waits for the next four.
fn ring(n: u16) -> Vec<u16> {
    (0..n).flat_map(|i| (1..5).flat_map(move |j| [i + 1, (i + j) % n + 1])).collect()
}

#[test]
fn the_writer_refuses_in_order_and_keeps_what_is_past_the_table() {
    let mut out = [7; 30];
    for n in [0, 129, usize::MAX] {
        assert_eq!(write_table(n, &[1, 2, 3], &mut out), Err(Refusal::OddList));
        assert_eq!(write_table(n, &[1, 2], &mut out), Err(Refusal::Sizes));
    }
    assert_eq!(write_table(2, &[1, 2, 1, 2, 1, 3], &mut out), Err(Refusal::Ends));
    assert_eq!(write_table(2, &[0, 2], &mut out), Err(Refusal::Ends));
    assert_eq!(write_table(2, &[1, 2, 1, 2], &mut out[..3]), Err(Refusal::Alike));
    assert_eq!(write_table(2, &[1, 2], &mut out[..19]), Err(Refusal::OutputShort));
    assert_eq!(out, [7; 30]);
    assert_eq!(write_table(2, &[1, 2], &mut out), Ok(20));
    assert_eq!(out[20..], [7; 10]);
}

#[test]
fn walks_keep_to_their_chain() {
    let bytes = table(3, &[1, 2, 2, 3, 1, 3]);
    assert_eq!(open(&bytes, Chain::Out, 1), Ok(3));
    assert_eq!(next(&bytes, Chain::Out, 3), 1);
    assert_eq!(next(&bytes, Chain::Out, 1), 0);
    assert_eq!(open(&bytes, Chain::In, 3), Ok(3));
    assert_eq!(next(&bytes, Chain::In, 3), 2);
    assert_eq!(open(&bytes, Chain::Out, 3), Ok(0));
    assert_eq!(open(&bytes, Chain::Out, 0), Err(Refusal::Start));
    assert_eq!(open(&bytes, Chain::Out, 4), Err(Refusal::Start));
    assert_eq!(open(&bytes[1..], Chain::Out, 4), Err(Refusal::Sizes));
    for arc in [0, 4, usize::MAX] {
        assert_eq!(next(&bytes, Chain::In, arc), 0);
    }
    assert_eq!(next(&bytes[..3], Chain::In, 1), 0);
    // The record of arc 3 is not wholly there.
    assert_eq!(next(&bytes[..bytes.len() - 1], Chain::Out, 3), 0);
    assert_eq!(next(&bytes[..bytes.len() - 8], Chain::Out, 2), 0);
}

#[test]
fn start_refuses_in_order_and_touches_only_its_words() {
    let bytes = table(2, &[1, 2]);
    let mut area = [9; 60];
    for edition in [1, 2] {
        assert_eq!(start(&bytes[..19], 0, edition, &mut area), Err(Refusal::Length));
        assert_eq!(start(&bytes, 0, edition, &mut area[..3]), Err(Refusal::Start));
        assert_eq!(start(&bytes, 3, edition, &mut area), Err(Refusal::Start));
        assert_eq!(start(&bytes, 1, edition, &mut area[..51]), Err(Refusal::AreaShort));
    }
    // 02, N4: "It refuses any other edition with 30, after 8 and before 9."
    for edition in NO_EDITIONS {
        assert_eq!(start(&bytes[..19], 1, edition, &mut area), Err(Refusal::Length));
        assert_eq!(start(&bytes, 0, edition, &mut area), Err(Refusal::Start));
        assert_eq!(start(&bytes, 3, edition, &mut area[..51]), Err(Refusal::Start));
        assert_eq!(start(&bytes, 1, edition, &mut area), Err(Refusal::NoEdition), "{edition}");
        assert_eq!(start(&bytes, 2, edition, &mut area[..51]), Err(Refusal::NoEdition));
        assert_eq!(start(&bytes, 2, edition, &mut []), Err(Refusal::NoEdition));
    }
    assert_eq!(area, [9; 60]);
    for edition in [1, 2] {
        assert_eq!(start(&bytes, 1, edition as usize, &mut area), Ok(()));
        let expected = [
            2, 1, 0, edition, 0, 0, 0, 0, 0, 0, 0, 0, 0, 0, // heading
            2, 1, 1, 0, 0, 1, 1, 2, 0, 0, // table
            3, 0, 1, 0, 0, 0, 0, 0, 0, 0, 0, 0, // records
            1, 0, 0, 0, 0, 0, 0, 0, 0, 0, 0, 0, 0, 0, 0, 0, // links
            9, 9, 9, 9, 9, 9, 9, 9, // surplus
        ];
        assert_eq!(area, expected);
    }
    // 02, N3: 2 waits for nobody, and "the start adds its own at once".
    assert_eq!(start(&bytes, 2, 1, &mut area), Ok(()));
    assert_eq!(area[24..36], [0, 0, 0, 0, 0, 0, 3, 0, 1, 0, 1, 0]);
}

/// Some are 1 or 2 to whoever takes a part of their bits.
const NO_EDITIONS: [usize; 10] =
    [0, 3, 4, 257, 65_535, 65_536, 1 << 32, (1 << 32) + 1, (1 << 32) + 2, usize::MAX];

/// 02, N4: "In an area it gives 21", and "open payments keep the edition they began under".
#[test]
fn an_area_is_judged_by_the_edition_that_it_holds() {
    // 2 waits for 1, which waits for nobody.
    for (made, edition) in [(0, 1), (0, 2), (1, 1), (1, 2), (2, 1), (2, 2)] {
        let mut area = started_under(edition, 2, &[2, 1], 1);
        assert_eq!(run_on(&mut area, made).1, made);
        assert_eq!(area[3], edition as i32);
        for word in [0, 3, 4, -1, -2, 257, 65_535, 65_537, i32::MIN, i32::MAX] {
            let mut damaged = area.clone();
            damaged[3] = word;
            let before = damaged.clone();
            assert_eq!(pick(&mut damaged, 1, 2, 1), Err(Refusal::Malformed), "{word}");
            assert_eq!(run_on(&mut damaged, 9), (Stopped::Refused(Refusal::Malformed), 0));
            assert_eq!(report(&damaged), Err(Refusal::Malformed));
            assert_eq!(read_record(&damaged, 1), Err(Refusal::Malformed));
            assert_eq!(damaged, before);
        }
        area[3] = 3 - area[3];
        assert_eq!(run_on(&mut area, 9), (Stopped::Over, 2 - made));
        assert_eq!(report(&area).unwrap().knot, edition == 2);
    }
}

/// Who is reachable is a matter of arcs: in an area that no run leaves, the verdict by the second
/// edition goes by them and the sum, whatever the flags.
#[test]
fn reachable_is_who_the_arcs_lead_to() {
    // The start's flags, cs and num are at 24, and the flags of 2 at 30.
    for (list, knot) in [([1, 2], true), ([2, 1], false)] {
        let mut area = started_under(2, 2, &list, 1);
        for flags in 0..64 {
            (area[24], area[26], area[30]) = (flags % 8, 0, flags / 8);
            for sum in [0, 1, -1] {
                area[25] = sum;
                let found = report(&area).unwrap();
                assert_eq!((found.knot, found.outside), (knot && sum == 0, sum), "{list:?}");
            }
        }
    }
}

#[test]
fn picks_and_readings_refuse_in_order() {
    let mut area = started(3, &[1, 2, 2, 3], 1);
    let before = area.clone();
    for (from, to) in [(0, 1), (1, 0), (4, 1), (1, 4), (1, 3), (1, 1), (usize::MAX, 1)] {
        assert_eq!(pick(&mut area, from, to, 1), Err(Refusal::NoLink));
    }
    assert_eq!(pick(&mut area, 2, 1, 1), Err(Refusal::Nothing));
    assert_eq!(report(&area), Err(Refusal::NotOver));
    assert_eq!(read_record(&area, 0), Err(Refusal::NoLink));
    assert_eq!(read_record(&area, 4), Err(Refusal::NoLink));
    assert_eq!(run_on(&mut area, 0), (Stopped::Spent, 0));
    assert_eq!(area, before);
    assert_eq!(run_on(&mut area, 3), (Stopped::Spent, 3));
    assert_eq!(run_on(&mut area, 9), (Stopped::Over, 1));
    assert_eq!(run_on(&mut area, 0), (Stopped::Over, 0));
    assert_eq!(pick(&mut area, 2, 3, 1), Err(Refusal::Over));
    assert_eq!(pick(&mut area, 1, 3, 1), Err(Refusal::NoLink));
}

/// Two processes that wait for each other and have heard from each other, so that every message is
/// delivered, none broadcasts, and a probe is acknowledged with both sums: 5 and 6 by process 2, 0 and
/// 0 by the start. Four messages wait on each link. Records are from 28 on, the link from 1 to 2 is at
/// 40, the link back at 56.
fn four_on_each_link() -> Vec<i32> {
    let mut area = started(2, &[1, 2, 2, 1], 1);
    area[28..40].copy_from_slice(&[3, 0, 9, 0, 20, 0, 3, 5, 9, 1, 6, 0]);
    area[40..44].copy_from_slice(&[ack_word(7, 3), 2, ack_word(-4, -8), 1]);
    area[56..60].copy_from_slice(&[1, ack_word(2, -1), ack_word(-1, 4), 2]);
    area
}

/// A link of `four_on_each_link`: its ends and first word, the receiver's record, and the last word of
/// the link back with what a probe's acknowledgement puts there.
struct Full {
    from: usize,
    to: usize,
    link: usize,
    record: usize,
    back: usize,
    acknowledgement: i32,
}

/// A pick of each place: the message, and cs, num and the second sum of the receiver afterwards.
fn takes_at_each_place(full: Full, rows: [(Message, [i32; 3]); 4]) {
    for (place, (message, [cs, num, second])) in (1..).zip(rows) {
        let mut area = four_on_each_link();
        // Room for the acknowledgement of a probe.
        area[full.back] = 0;
        let mut expected = area.clone();
        expected[2] = 1;
        expected[full.link + place - 1..full.link + 4].rotate_left(1);
        expected[full.link + 3] = 0;
        (expected[full.record + 1], expected[full.record + 2]) = (cs, num);
        expected[full.record + 4] = second;
        if matches!(message, Message::Suc | Message::Pre) {
            expected[full.back] = full.acknowledgement;
        }
        assert_eq!(pick(&mut area, full.from, full.to, place), Ok(message));
        assert_eq!(area, expected, "place {place}");
    }
}

/// 02, N5: "A pick may name a place, 1 for the oldest message, and that message is taken out of the
/// middle."
#[test]
fn a_pick_takes_the_message_at_its_place_and_the_others_keep_their_order() {
    takes_at_each_place(
        Full { from: 1, to: 2, link: 40, record: 34, back: 59, acknowledgement: ack_word(5, 6) },
        [
            (ack(7, 3), [12, 8, 9]),
            (Message::Pre, [0, 9, 0]),
            (ack(-4, -8), [1, 8, -2]),
            (Message::Suc, [0, 9, 0]),
        ],
    );
    // To the start, where an acknowledgement changes num and the sums alone, and a probe nothing.
    takes_at_each_place(
        Full { from: 2, to: 1, link: 56, record: 28, back: 43, acknowledgement: ack_word(0, 0) },
        [
            (Message::Suc, [0, 9, 20]),
            (ack(2, -1), [2, 8, 19]),
            (ack(-1, 4), [-1, 8, 24]),
            (Message::Pre, [0, 9, 20]),
        ],
    );
}

/// The last of one, two, three and four: those before it stay.
#[test]
fn the_last_place_is_the_number_of_messages_waiting() {
    for load in 1..=4 {
        let mut area = four_on_each_link();
        area[40..44].copy_from_slice(&[0, 1, 2, 3].map(|count| ack_word(count, -count)));
        area[40 + load..44].fill(0);
        let before = area.clone();
        assert_eq!(pick(&mut area, 1, 2, load + 1), Err(Refusal::NoPlace));
        assert_eq!(area, before);
        let count = load as i32 - 1;
        assert_eq!(pick(&mut area, 1, 2, load), Ok(ack(count, -count)));
        assert_eq!(waiting(&area, 40), before[40..40 + load - 1]);
    }
}

/// A message that goes to the end of the link that another was taken from: of a loop.
#[test]
fn what_is_sent_on_the_same_link_goes_behind_the_others() {
    let mut area = started(1, &[1, 1], 1);
    let link = 16 + 8 + 4;
    let (nine, eight, none) = (ack_word(9, 1), ack_word(8, 2), ack_word(0, 0));
    area[link..link + 4].copy_from_slice(&[nine, 1, 2, eight]);
    assert_eq!(pick(&mut area, 1, 1, 2), Ok(Message::Suc));
    assert_eq!(waiting(&area, link), [nine, 2, eight, none]);
    assert_eq!(pick(&mut area, 1, 1, 3), Ok(ack(8, 2)));
    assert_eq!(waiting(&area, link), [nine, 2, none]);
}

/// 02, N5: "It refuses a place that is 0 or beyond the messages waiting with 31, after 24." So it
/// comes before 22.
#[test]
fn places_are_refused_after_24_and_before_22() {
    let far = [5, 6, 256 + 1, 65_536 + 1, 1 << 31, (1 << 32) + 1, usize::MAX - 1, usize::MAX];
    let outside = |load: usize| [0].into_iter().chain(load + 1..5).chain(far);
    let refused = |area: &[i32], from, to, place, refusal| {
        let mut after = area.to_vec();
        assert_eq!(pick(&mut after, from, to, place), Err(refusal), "place {place}");
        assert_eq!(after, area);
    };
    for load in 1..=4 {
        let mut area = four_on_each_link();
        area[40 + load..44].fill(0);
        // One more delivery is one too many.
        let mut last = area.clone();
        last[2] = 2048;
        // Process 2 expects no acknowledgement.
        let mut stuck = area.clone();
        stuck[36] = 0;
        stuck[40..40 + load].fill(ack_word(0, 0));
        for place in outside(load) {
            refused(&area, 1, 2, place, Refusal::NoPlace);
            refused(&last, 1, 2, place, Refusal::NoPlace);
            refused(&stuck, 1, 2, place, Refusal::NoPlace);
        }
        for place in 1..=load {
            refused(&last, 1, 2, place, Refusal::Range);
            refused(&stuck, 1, 2, place, Refusal::Range);
        }
    }
    let mut empty = four_on_each_link();
    empty[40..44].fill(0);
    let mut over = empty.clone();
    over[30] = 0;
    let mut malformed = empty.clone();
    malformed[4] = 1;
    for place in outside(0) {
        refused(&empty, 1, 2, place, Refusal::Nothing);
        refused(&over, 1, 2, place, Refusal::Over);
        refused(&over, 2, 1, place, Refusal::Over);
        refused(&over, 1, 1, place, Refusal::NoLink);
        refused(&malformed, 1, 1, place, Refusal::Malformed);
    }
}

/// 22 is a matter of the message that is taken, not of the oldest.
#[test]
fn the_step_is_that_of_the_message_taken() {
    let mut area = four_on_each_link();
    // 2 expects nothing, so an acknowledgement takes num out of its range and a probe does not.
    (area[35], area[36], area[59]) = (5, 0, 0);
    let before = area.clone();
    for place in [1, 3] {
        assert_eq!(pick(&mut area, 1, 2, place), Err(Refusal::Range));
        assert_eq!(area, before);
    }
    assert_eq!(pick(&mut area, 1, 2, 2), Ok(Message::Pre));
    assert_eq!(pick(&mut area, 1, 2, 3), Err(Refusal::Range));
}

/// "Program picks keep their form and mean place 1" (02, N5), and running on takes the oldest.
#[test]
fn the_program_and_running_on_take_the_oldest() {
    let picks = [1, 0, 2, 0, 1, 0, 2, 0];
    let input = [&[1, 0, 1, 0], &table(2, &[1, 2, 2, 1])[..], &picks].concat();
    assert!(printed(&input).starts_with("pick 1 2 suc\npick 1 2 pre\n"));
    // A suc probe and a pre probe wait on that link, and then receiver 1 comes first (02, N11).
    let own = printed(&[&[1, 0, 1, 0], &table(2, &[1, 2, 2, 1])[..]].concat());
    assert!(own.starts_with("own 1 2 suc\nown 2 1 suc\n"), "{own}");
    let mut area = four_on_each_link();
    area[43] = 0;
    let mut picked = area.clone();
    assert_eq!(run_on(&mut area, 2), (Stopped::Spent, 2));
    assert_eq!(pick(&mut picked, 2, 1, 1), Ok(Message::Suc));
    assert_eq!(pick(&mut picked, 2, 1, 1), Ok(ack(2, -1)));
    assert_eq!(area, picked);
}

#[test]
fn every_damaged_word_that_leaves_its_range_is_seen() {
    // A loop and an arc back, so that links are used, unused and empty.
    let right = started(2, &[1, 2, 2, 1, 1, 1], 1);
    for place in 0..right.len() {
        for value in [-1, 9999, i32::MIN, i32::MAX] {
            let mut area = right.clone();
            area[place] = value;
            let damaged = area.clone();
            let sum = [33, 36, 39, 42].contains(&place);
            // −1 is a sum's value like any other.
            let expected = if sum && value == -1 { Ok(()) } else { Err(Refusal::Malformed) };
            assert_eq!(read_record(&area, 1).map(|_| ()), expected, "{place} {value}");
            if expected.is_err() {
                assert_eq!(pick(&mut area, 1, 2, 1), Err(Refusal::Malformed));
                assert_eq!(run_on(&mut area, 5), (Stopped::Refused(Refusal::Malformed), 0));
                assert_eq!(report(&area), Err(Refusal::Malformed));
                assert_eq!(area, damaged);
            }
        }
    }
    for length in 0..right.len() {
        assert_eq!(read_record(&right[..length], 1), Err(Refusal::Malformed));
    }
}

/// 02, N3: second sums "have cs's range".
#[test]
fn second_sums_in_an_area_are_in_range() {
    let mut area = one_wait();
    for process in [1, 2] {
        let place = 24 + 6 * (process - 1) + 4;
        for second in (-300..300).chain([i32::MIN, i32::MAX]) {
            area[place] = second;
            let expected = match second {
                -128..=128 => Ok(second),
                _ => Err(Refusal::Malformed),
            };
            assert_eq!(read_record(&area, process).map(|record| record.second), expected);
        }
        area[place] = 0;
    }
}

/// Every word of a message up to past the last one, and some far out.
#[test]
fn messages_are_two_probes_and_acknowledgements_with_counts_in_range() {
    let mut area = one_wait();
    let counts = -128..=128;
    let messages = counts.clone().flat_map(|second| {
        counts.clone().map(move |count| (ack_word(count, second), ack(count, second)))
    });
    let probes = [(1, Message::Suc), (2, Message::Pre)];
    let messages: HashMap<i32, Message> = probes.into_iter().chain(messages).collect();
    assert_eq!(messages.len(), 2 + 257 * 257);
    // The start expects so many and has room for the sums.
    (area[24 + 2], area[36]) = (256, 0);
    let far = [i32::MIN, -ack_word(0, 0), -256, -2, -1, ack_word(0, 0) + (1 << 18), i32::MAX];
    for word in (1..=ack_word(300, 300)).chain(far) {
        let mut words = area.clone();
        words[44] = word;
        let expected = messages.get(&word).copied().ok_or(Refusal::Malformed);
        assert_eq!(pick(&mut words, 2, 1, 1), expected, "{word}");
    }
}

#[test]
fn a_father_must_be_a_neighbour() {
    let mut area = started(3, &[1, 2], 1);
    let father_of_2 = 14 + 2 + 6 + 4 + 6 + 3;
    for (father, right) in [(0, true), (1, true), (2, false), (3, false), (4, false)] {
        area[father_of_2] = father;
        assert_eq!(read_record(&area, 2).is_ok(), right, "{father}");
    }
}

/// The area of 1-2 after start, with its places: records from 24, first link 36, second 44.
fn one_wait() -> Vec<i32> {
    started(2, &[1, 2], 1)
}

fn pick_refused_untouched(area: &[i32], from: usize, to: usize) {
    let mut after = area.to_vec();
    assert_eq!(pick(&mut after, from, to, 1), Err(Refusal::Range));
    assert_eq!(after, area);
}

/// The link is the first in the order of running on, too.
fn refused_untouched(area: &[i32], from: usize, to: usize) {
    pick_refused_untouched(area, from, to);
    let mut after = area.to_vec();
    let (stopped, _) = run_on(&mut after, 1);
    assert_eq!(stopped, Stopped::Refused(Refusal::Range));
    assert_eq!(after, area);
}

#[test]
fn values_out_of_range_are_refused_with_22() {
    let mut last = one_wait();
    last[2] = 2048;
    refused_untouched(&last, 1, 2);
    // An acknowledgement would be a fifth message: the start's, and that of 2, to which running on
    // comes after the start (02, N11).
    let mut full = one_wait();
    full[36..40].fill(ack_word(0, 0));
    full[44] = 1;
    refused_untouched(&full, 2, 1);
    let mut full = one_wait();
    full[44..48].fill(ack_word(0, 0));
    pick_refused_untouched(&full, 1, 2);
    let mut orphan = one_wait();
    orphan[36] = ack_word(0, 0);
    refused_untouched(&orphan, 1, 2);
    orphan[32] = 1;
    refused_untouched(&orphan, 1, 2);
    let mut wide = one_wait();
    wide[31] = 128;
    refused_untouched(&wide, 1, 2);
    let mut start_wide = one_wait();
    (start_wide[36], start_wide[44], start_wide[25]) = (0, ack_word(-1, 0), -128);
    refused_untouched(&start_wide, 2, 1);
    // 02, N3: "22 now cover[s] the second sums"; 2 waits for nobody and adds 1 to its own.
    let mut second = one_wait();
    second[34] = 128;
    refused_untouched(&second, 1, 2);
    for (sum, count) in [(-128, -1), (128, 1), (1, 128)] {
        let mut second = one_wait();
        (second[36], second[44], second[28]) = (0, ack_word(0, count), sum);
        refused_untouched(&second, 2, 1);
    }
}

#[test]
fn running_on_keeps_its_deliveries_when_it_is_refused() {
    let mut area = one_wait();
    area[26] = 2;
    assert_eq!(run_on(&mut area, 9), (Stopped::Refused(Refusal::Nothing), 2));
    assert_eq!((area[2], area[25], area[26]), (2, 1, 1));
    assert_eq!(run_on(&mut area, 9), (Stopped::Refused(Refusal::Nothing), 0));
    assert_eq!(run_on(&mut area, 0), (Stopped::Spent, 0));
}

#[test]
fn the_program_refuses_in_order() {
    let bytes = table(2, &[1, 2]);
    let input = |start: u16, edition: u16, rest: &[u8]| {
        [&start.to_le_bytes(), &edition.to_le_bytes(), &bytes[..], rest].concat()
    };
    assert_eq!(printed(&vec![0; 20_481]), "refused 13\n");
    for edition in [0, 1, 2, 3, 65_535] {
        for length in 0..8 {
            assert_eq!(printed(&input(1, edition, &[])[..length]), "refused 1\n");
        }
        assert_eq!(printed(&[1, 0, edition as u8, 0, 0, 0, 1, 0]), "refused 2\n");
        for length in 8..24 {
            assert_eq!(printed(&input(1, edition, &[])[..length]), "refused 3\n");
        }
        for length in 1..4 {
            assert_eq!(printed(&input(0, edition, &[1, 0, 2][..length])), "refused 12\n");
        }
        let mut damaged = input(0, edition, &[]);
        damaged[16] = 3;
        assert_eq!(printed(&damaged), "refused 4\n");
        assert_eq!(printed(&input(3, edition, &[])), "refused 8\n");
        assert_eq!(printed(&input(0, edition, &[])), "refused 8\n");
    }
    // 02, N4.
    for edition in [0, 3, 256, 257, 65_535] {
        assert_eq!(printed(&input(1, edition, &[1, 0, 2, 0])), "refused 30\n");
    }
}

/// The rows of which 02, N4 speaks.
#[test]
fn the_program_judges_by_the_edition() {
    // 02, N3: who waits for nobody is held, by the first edition in a knot.
    let [knot, for_nobody, none] = [
        "verdict knot\noutside 0\nescape 0\nmark returned\n",
        "verdict knot\noutside 0\nescape 0\nmark held\n",
        "verdict none\noutside 0\nescape 0\nmark held\n",
    ];
    let rows: [(usize, &[u16], [&str; 2]); 3] = [
        (1, &[], [for_nobody, none]),
        (1, &[1, 1], [knot, knot]),
        (2, &[2, 1], [for_nobody, none]),
    ];
    for (n, list, ends) in rows {
        for (edition, end) in (1..).zip(ends) {
            let printed = printed(&[&[1, 0, edition, 0], &table(n, list)[..]].concat());
            assert!(printed.ends_with(end), "{list:?} under {edition}: {printed}");
        }
    }
}

/// 02, N3: "Waits 1-2, 2-3, 3-2 are marked held, yet payment 1 can never be funded."
#[test]
fn who_waits_on_a_knot_is_returned() {
    let end = "process 1 1 1 0 2 0 0\nprocess 2 1 0 1 0 0 0\nprocess 3 1 0 1 0 0 0\n\
               over 6\nverdict none\noutside 2\nescape 2\nmark returned\n";
    for edition in [1, 2] {
        let printed = printed(&[&[1, 0, edition, 0], &table(3, &[1, 2, 2, 3, 3, 2])[..]].concat());
        assert!(printed.ends_with(end), "{printed}");
    }
}

#[test]
fn refused_picks_print_their_number_and_the_program_goes_on() {
    let bytes = table(2, &[1, 2]);
    let picks = [2, 0, 1, 0, 9, 0, 1, 0, 1, 0, 2, 0, 2, 0, 1, 0, 2, 0, 1, 0];
    let expected = "pick 2 1 refused 24\npick 9 1 refused 25\npick 1 2 suc\npick 2 1 ack 1 1\n\
                    pick 2 1 refused 23\nprocess 1 1 1 0 1 0 1\nprocess 2 1 0 1 0 0 0\n\
                    over 2\nverdict none\noutside 1\nescape 2\nmark held\n";
    assert_eq!(printed(&[&[1, 0, 1, 0], &bytes[..], &picks].concat()), expected);
}
