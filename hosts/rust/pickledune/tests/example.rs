//! 01's example, its rows of known verdicts, and a refusal of each call.
use pickledune::{area_words, table_bytes};
use pickledune::{
    Chain, Mark, Message, Probes, Process, Ran, Refusal, Reply, Report, Sizes, Verdict,
};

/// The table of 01's example: one wait, 1 for 2.
const TABLE: [u8; 20] = [2, 0, 1, 0, 1, 0, 0, 0, 0, 0, 1, 0, 1, 0, 2, 0, 0, 0, 0, 0];

fn written(n: usize, list: &[u16]) -> Vec<u8> {
    let mut table = vec![0; table_bytes(n, list.len() / 2)];
    assert_eq!(pickledune::write_table(n, list, &mut table), Ok(table.len()));
    table
}

fn started_under(edition: usize, table: &[u8], start: usize) -> Vec<i32> {
    let sizes = pickledune::read_table(table).unwrap();
    let mut area = vec![0; area_words(sizes.processes, sizes.arcs)];
    assert_eq!(pickledune::start(table, start, edition, &mut area), Ok(()));
    area
}

fn started(table: &[u8], start: usize) -> Vec<i32> {
    started_under(1, table, start)
}

fn process(flags: [u32; 3], cs: i32, num: u32, father: u32, second: i32) -> Process {
    let [succeeding, preceding, subordinate] = flags;
    Process { succeeding, preceding, subordinate, cs, num, father, second }
}

fn ack(count: i32, second: i32) -> Message {
    Message::Ack { count, second }
}

#[test]
fn the_example() {
    assert_eq!(written(2, &[1, 2]), TABLE);
    assert_eq!(pickledune::read_table(&TABLE), Ok(Sizes { processes: 2, arcs: 1 }));

    let mut area = started(&TABLE, 1);
    assert_eq!(pickledune::pick(&mut area, 1, 2, 1), Ok(Message::Suc));
    assert_eq!(pickledune::pick(&mut area, 2, 1, 1), Ok(ack(1, 1)));
    assert_eq!(pickledune::read_record(&area, 1), Ok(process([1, 1, 0], 1, 0, 0, 1)));
    assert_eq!(pickledune::read_record(&area, 2), Ok(process([1, 0, 1], 0, 0, 1, 0)));
    let report = Report {
        deliveries: 2,
        verdict: Verdict::Free,
        outside: 1,
        escape: Some(2),
        mark: Mark::Held,
    };
    assert_eq!(pickledune::report(&area), Ok(report));
}

/// 02, N5: 1 and 2 wait for each other, so that a suc probe and then a pre probe wait on the link from 1 to 2.
#[test]
fn a_pick_by_place() {
    let table = written(2, &[1, 2, 2, 1]);
    for (places, messages) in
        [([1, 1], [Message::Suc, Message::Pre]), ([2, 1], [Message::Pre, Message::Suc])]
    {
        let mut area = started(&table, 1);
        for place in [0, 3, 4, 5, 257, usize::MAX] {
            let before = area.clone();
            assert_eq!(pickledune::pick(&mut area, 1, 2, place), Err(Refusal::Place));
            assert_eq!(area, before);
        }
        for (place, message) in places.into_iter().zip(messages) {
            assert_eq!(pickledune::pick(&mut area, 1, 2, place), Ok(message));
        }
        assert_eq!(pickledune::pick(&mut area, 1, 2, 0), Err(Refusal::NoMessage));
        // D is 8, and two deliveries are picks.
        assert_eq!(pickledune::run_on(&mut area, 2048), Ran::Over(6));
        assert_eq!(pickledune::report(&area).unwrap().verdict, Verdict::Knot);
        assert_eq!(pickledune::pick(&mut area, 1, 2, 0), Err(Refusal::Over));
    }
}

#[test]
fn running_on_does_what_the_picks_do() {
    let mut picked = started(&TABLE, 1);
    pickledune::pick(&mut picked, 1, 2, 1).unwrap();
    let mut area = picked.clone();
    pickledune::pick(&mut picked, 2, 1, 1).unwrap();
    assert_eq!(pickledune::run_on(&mut area, 0), Ran::Spent(0));
    assert_eq!(pickledune::run_on(&mut area, 2048), Ran::Over(1));
    assert_eq!(area, picked);
}

/// 02, N11: 3 waits for 1 and 2, which wait for nobody. Both get their probe before 3 gets the acknowledgement of 1, and both
/// acknowledgements wait then, of which that of 1 goes first.
#[test]
fn running_on_takes_the_lowest_receiver_and_then_the_lowest_sender() {
    let links = [(3, 1), (3, 2), (1, 3), (2, 3)];
    let messages = [Message::Suc, Message::Suc, ack(1, 1), ack(1, 1)];
    let mut picked = started(&written(3, &[3, 1, 3, 2]), 3);
    let mut area = picked.clone();
    for (k, ((from, to), message)) in (1..).zip(links.into_iter().zip(messages)) {
        assert_eq!(pickledune::pick(&mut picked, from, to, 1), Ok(message));
        let mut at_once = started(&written(3, &[3, 1, 3, 2]), 3);
        let ran = if k < 4 { Ran::Spent } else { Ran::Over };
        assert_eq!(pickledune::run_on(&mut area, 1), ran(1));
        assert_eq!(pickledune::run_on(&mut at_once, k), ran(k));
        assert_eq!((&area, &at_once), (&picked, &picked));
    }
}

/// 02, N13: the same waits. The states from seed 1 are 270369, 67634689, 2647435461 and one more, from 2463534242 they are 723471715,
/// 2497366906, 2064144800 and one more; two links have a message until one of them is the last.
#[test]
fn a_shuffled_run_takes_the_link_that_the_state_picks() {
    for (seed, links) in
        [(1, [(3, 2), (2, 3), (3, 1), (1, 3)]), (2463534242, [(3, 2), (3, 1), (1, 3), (2, 3)])]
    {
        let mut picked = started(&written(3, &[3, 1, 3, 2]), 3);
        for (k, (from, to)) in (1..).zip(links) {
            assert!(pickledune::pick(&mut picked, from, to, 1).is_ok());
            let ran = if k < 4 { Ran::Spent } else { Ran::Over };
            let mut area = started(&written(3, &[3, 1, 3, 2]), 3);
            assert_eq!(pickledune::run_shuffled(&mut area, k, seed), ran(k));
            assert_eq!(area, picked);
        }
    }
}

/// 02, N13: such a run ends as any other, with other fathers at most.
#[test]
fn a_shuffled_run_ends_as_any_other() {
    let table = written(3, &[1, 2, 1, 3, 2, 3, 3, 1]);
    let ended = |run: &dyn Fn(&mut [i32]) -> Ran| {
        let mut area = started(&table, 1);
        assert_eq!(run(&mut area), Ran::Over(16));
        let records = [1, 2, 3].map(|process| pickledune::read_record(&area, process).unwrap());
        let fathers = records.map(|record| record.father);
        let others = records.map(|record| Process { father: 0, ..record });
        (pickledune::report(&area).unwrap(), others, fathers)
    };
    let (report, others, fathers) = ended(&|area| pickledune::run_on(area, 2048));
    assert_eq!(fathers, [0, 1, 1]);
    for (seed, fathers) in [(2463534242, [0, 3, 1]), (2026, [0, 1, 2])] {
        let shuffled = ended(&|area| pickledune::run_shuffled(area, 2048, seed));
        assert_eq!(shuffled, (report, others, fathers));
    }
}

/// 02, N13: 37 comes after 21, and before all else.
#[test]
fn seed_0() {
    let refused = |refusal| Ran::Refused { refusal, made: 0 };
    let mut area = started(&TABLE, 1);
    // At the start, between its two deliveries, and when the run is over.
    for ran in [Ran::Spent(1), Ran::Over(1), Ran::Over(0)] {
        let before = area.clone();
        for k in [0, 1, u32::MAX] {
            assert_eq!(pickledune::run_shuffled(&mut area, k, 0), refused(Refusal::Seed));
            assert_eq!(area, before);
            assert_eq!(
                pickledune::run_shuffled(&mut area[1..], k, 0),
                refused(Refusal::NotWellFormed)
            );
            assert_eq!(area, before);
        }
        assert_eq!(pickledune::run_shuffled(&mut area, 1, 1), ran);
    }
}

/// The verdict under editions 1 and 2 (02, N4).
type Verdicts = [Verdict; 2];
const KNOT: Verdicts = [Verdict::Knot, Verdict::Knot];
const KNOT_BY_THE_FIRST: Verdicts = [Verdict::Knot, Verdict::Free];
const FREE: Verdicts = [Verdict::Free, Verdict::Free];

/// A row P of 01, from process 1: N, the waits, D, the verdicts, outside; escape by 02, N1, and by 02, N3 the start's second sum.
type Row = (usize, &'static [u16], u32, Verdicts, i32, Option<u32>, i32);

#[test]
fn the_known_verdicts() {
    let rows: [Row; 8] = [
        (1, &[], 0, KNOT_BY_THE_FIRST, 0, None, 1),
        (1, &[1, 1], 4, KNOT, 0, None, 0),
        (2, &[1, 2], 2, FREE, 1, Some(2), 1),
        (2, &[2, 1], 2, KNOT_BY_THE_FIRST, 0, None, 1),
        (2, &[1, 2, 2, 1], 8, KNOT, 0, None, 0),
        (3, &[1, 2, 2, 3, 3, 1], 12, KNOT, 0, None, 0),
        (3, &[1, 2, 2, 1, 2, 3], 10, FREE, 1, Some(3), 1),
        (3, &[1, 2, 2, 3, 3, 2], 6, FREE, 2, Some(2), 0),
    ];
    for (n, list, d, verdicts, outside, escape, second) in rows {
        for (edition, verdict) in (1..).zip(verdicts) {
            let mut area = started_under(edition, &written(n, list), 1);
            assert_eq!(pickledune::run_on(&mut area, 2048), Ran::Over(d));
            let report = pickledune::report(&area).unwrap();
            assert_eq!(
                (report.deliveries, report.verdict, report.outside, report.escape),
                (d, verdict, outside, escape)
            );
            assert_eq!(report.mark == Mark::Returned, second == 0);
            for process in 1..=n {
                let expected = if process == 1 { second } else { 0 };
                let record = pickledune::read_record(&area, process).unwrap();
                assert_eq!(record.second, expected);
            }
        }
    }
}

/// 02, N3: a second sum out of cs's range, and a message with either count out of it, give 21.
#[test]
fn second_numbers_out_of_range() {
    let area = started(&TABLE, 1);
    // The second sum of 1 and of 2, and the first message from 2 to 1.
    for (place, words) in
        [(28, [-129, 129]), (34, [-129, 129]), (44, [127 + 512 * 256, 256 + 512 * 385])]
    {
        for word in words {
            let mut area = area.clone();
            area[place] = word;
            assert_eq!(pickledune::read_record(&area, 1), Err(Refusal::NotWellFormed));
            assert_eq!(pickledune::pick(&mut area, 1, 2, 1), Err(Refusal::NotWellFormed));
        }
    }
    // In range, but 2 waits for nobody and would make it 129.
    let mut area = area;
    area[34] = 128;
    assert_eq!(pickledune::pick(&mut area, 1, 2, 1), Err(Refusal::OutOfRange));
}

/// 02, N4: 30 comes after 8 and before 9; an area that holds another edition gives 21.
#[test]
fn other_editions() {
    let mut area = started(&TABLE, 1);
    let before = area.clone();
    for edition in [0, 3, 65_535, usize::MAX] {
        assert_eq!(pickledune::start(&TABLE, 3, edition, &mut area), Err(Refusal::Process));
        assert_eq!(pickledune::start(&TABLE, 1, edition, &mut area), Err(Refusal::Edition));
        assert_eq!(pickledune::start(&TABLE, 1, edition, &mut area[1..]), Err(Refusal::Edition));
    }
    assert_eq!(area, before);
    area[3] = 0;
    assert_eq!(pickledune::report(&area), Err(Refusal::NotWellFormed));
}

/// 02, N1: 5 waits for the four others; 1 waits for 5 in turn, and 2, 3 and 4 for nobody. The lowest of these three is named, whichever is
/// reached first.
#[test]
fn the_lowest_way_out() {
    let table = written(5, &[5, 1, 1, 5, 5, 4, 5, 3, 5, 2]);
    for order in [[4, 3, 2], [3, 2, 4], [2, 3, 4]] {
        let mut area = started(&table, 5);
        for to in order {
            assert_eq!(pickledune::pick(&mut area, 5, to, 1), Ok(Message::Suc));
        }
        // D is twice all 5 waits and twice the 2 between 5 and 1; three deliveries are picks.
        assert_eq!(pickledune::run_on(&mut area, 2048), Ran::Over(11));
        let report = Report {
            deliveries: 14,
            verdict: Verdict::Free,
            outside: 3,
            escape: Some(2),
            mark: Mark::Held,
        };
        assert_eq!(pickledune::report(&area), Ok(report));
    }
}

#[test]
fn a_walk() {
    let table = written(3, &[1, 2, 1, 3, 2, 3]);
    assert_eq!(pickledune::open(&table, Chain::Out, 1), Ok(Some(2)));
    assert_eq!(pickledune::next(&table, Chain::Out, 2), Some(1));
    assert_eq!(pickledune::next(&table, Chain::Out, 1), None);
    assert_eq!(pickledune::open(&table, Chain::In, 3), Ok(Some(3)));
    assert_eq!(pickledune::next(&table, Chain::In, 3), Some(2));
    assert_eq!(pickledune::open(&table, Chain::In, 1), Ok(None));
}

#[test]
fn one_step() {
    let mut record = Process::default();
    let sent = pickledune::step(&mut record, Message::Suc, 0, 1, 1).unwrap();
    assert_eq!(sent.probes, Probes::Sucs);
    assert_eq!(sent.reply, Some(Reply { process: 1, count: 1, second: 1 }));
    assert_eq!(record, process([1, 0, 1], 0, 0, 1, 0));

    // It waits for nobody, which it has counted.
    let sent = pickledune::step(&mut record, Message::Pre, 0, 1, 1).unwrap();
    assert_eq!(sent.probes, Probes::Pres);
    assert_eq!(sent.reply, None);
    assert_eq!(record, process([1, 1, 0], -1, 1, 1, 0));

    let sent = pickledune::step(&mut record, ack(3, -2), 0, 1, 1).unwrap();
    assert_eq!(sent.probes, Probes::Nothing);
    assert_eq!(sent.reply, Some(Reply { process: 1, count: 2, second: -2 }));
    assert_eq!(record, process([1, 1, 0], 0, 0, 1, 0));
}

#[test]
fn refusals_change_nothing() {
    let mut out = [7u8; 20];
    assert_eq!(pickledune::read_table(&[]), Err(Refusal::TableShort));
    assert_eq!(pickledune::write_table(2, &[1, 2, 1], &mut out), Err(Refusal::ListOdd));
    assert_eq!(pickledune::write_table(2, &[1, 3], &mut out), Err(Refusal::Ends));
    assert_eq!(pickledune::write_table(2, &[1, 2], &mut out[..19]), Err(Refusal::OutputShort));
    assert_eq!(out, [7; 20]);
    assert_eq!(pickledune::open(&TABLE, Chain::Out, 3), Err(Refusal::Process));
    assert_eq!(pickledune::next(&TABLE, Chain::Out, 2), None);

    let mut words = [5i32; area_words(2, 1)];
    assert_eq!(pickledune::start(&TABLE, 1, 1, &mut words[1..]), Err(Refusal::AreaShort));
    assert_eq!(pickledune::pick(&mut words, 1, 2, 1), Err(Refusal::NotWellFormed));
    assert_eq!(
        pickledune::run_on(&mut words, 1),
        Ran::Refused { refusal: Refusal::NotWellFormed, made: 0 }
    );
    assert_eq!(
        pickledune::run_shuffled(&mut words, 1, 1),
        Ran::Refused { refusal: Refusal::NotWellFormed, made: 0 }
    );
    assert_eq!(pickledune::report(&words), Err(Refusal::NotWellFormed));
    assert_eq!(pickledune::read_record(&words, 1), Err(Refusal::NotWellFormed));
    assert_eq!(words, [5; area_words(2, 1)]);

    let mut area = started(&TABLE, 1);
    let before = area.clone();
    assert_eq!(pickledune::pick(&mut area, 1, 1, 1), Err(Refusal::NoLink));
    assert_eq!(pickledune::pick(&mut area, 2, 1, 1), Err(Refusal::NoMessage));
    assert_eq!(pickledune::pick(&mut area, 1, 2, 2), Err(Refusal::Place));
    assert_eq!(pickledune::report(&area), Err(Refusal::NotOver));
    assert_eq!(pickledune::read_record(&area, 3), Err(Refusal::NoLink));
    assert_eq!(area, before);
    pickledune::run_on(&mut area, 2);
    assert_eq!(pickledune::pick(&mut area, 1, 2, 1), Err(Refusal::Over));

    let mut record = process([2, 0, 0], 0, 0, 0, 0);
    assert_eq!(pickledune::step(&mut record, Message::Suc, 0, 0, 1), Err(Refusal::NotWellFormed));
    record.succeeding = 0;
    assert_eq!(pickledune::step(&mut record, Message::Suc, 0, 0, 0), Err(Refusal::NoLink));
    assert_eq!(pickledune::step(&mut record, ack(1, 0), 0, 0, 1), Err(Refusal::OutOfRange));
    for message in [ack(129, 0), ack(0, 129), ack(0, -129)] {
        assert_eq!(pickledune::step(&mut record, message, 0, 0, 1), Err(Refusal::NotWellFormed));
    }
    assert_eq!(record, Process::default());
}
