//! The plain Rust behind the trait.

use crate::{Answer, Calls, LentRecord, Received};
use plain::{Chain, Counts, Message, Probe, Record, Refusal, Reply, Sent, Stopped};

/// The independent implementation in plain Rust.
pub struct Plain;

fn answer<const K: usize, T>(
    result: Result<T, Refusal>,
    values: impl FnOnce(T) -> [i64; K],
) -> Answer {
    match result {
        Ok(found) => Answer::new(0, values(found)),
        Err(refusal) => Answer::new(refusal.number(), []),
    }
}

fn chain_of(chain: u32) -> Chain {
    if chain == 0 {
        Chain::Out
    } else {
        Chain::In
    }
}

/// Over and made.
fn running_answer((stopped, made): (Stopped, u32)) -> Answer {
    let made = made.into();
    match stopped {
        Stopped::Over => Answer::new(0, [1, made]),
        Stopped::Spent => Answer::new(0, [0, made]),
        Stopped::Refused(refusal) => Answer::new(refusal.number(), [0, made]),
    }
}

fn record_values(record: &Record) -> [i64; 7] {
    [
        record.succeeding.into(),
        record.preceding.into(),
        record.subordinate.into(),
        record.cs.into(),
        record.num.into(),
        record.father.into(),
        record.second.into(),
    ]
}

/// Probes, reply to, reply count, reply's second count.
fn sent_values(sent: Sent) -> [i64; 4] {
    let probes = match sent.probes {
        None => 0,
        Some(Probe::Suc) => 1,
        Some(Probe::Pre) => 2,
    };
    match sent.reply {
        None => [probes, 0, 0, 0],
        Some(Reply { to, counts }) => {
            [probes, to.into(), counts.count.into(), counts.second.into()]
        }
    }
}

impl Calls for Plain {
    fn read_table(&self, table: &mut [u8]) -> Answer {
        answer(plain::read_table(table), |sizes| [sizes.n as i64, sizes.m as i64])
    }

    fn write_table(&self, n: usize, list: &mut [u16], out: &mut [u8]) -> Answer {
        answer(plain::write_table(n, list, out), |length| [length as i64])
    }

    fn open(&self, table: &mut [u8], chain: u32, process: usize) -> Answer {
        answer(plain::open(table, chain_of(chain), process), |arc| [arc as i64])
    }

    fn next(&self, table: &mut [u8], chain: u32, arc: usize) -> Answer {
        Answer::new(0, [plain::next(table, chain_of(chain), arc) as i64])
    }

    fn start(&self, table: &mut [u8], start: usize, edition: usize, area: &mut [i32]) -> Answer {
        answer(plain::start(table, start, edition, area), |()| [])
    }

    fn pick(&self, area: &mut [i32], from: usize, to: usize, place: usize) -> Answer {
        answer(plain::pick(area, from, to, place), |message| match message {
            Message::Suc => [1, 0, 0],
            Message::Pre => [2, 0, 0],
            Message::Ack(counts) => [3, counts.count.into(), counts.second.into()],
        })
    }

    fn run_on(&self, area: &mut [i32], k: u32) -> Answer {
        running_answer(plain::run_on(area, k))
    }

    fn run_shuffled(&self, area: &mut [i32], k: u32, seed: u32) -> Answer {
        running_answer(plain::run_shuffled(area, k, seed))
    }

    fn report(&self, area: &mut [i32]) -> Answer {
        answer(plain::report(area), |report| {
            let (knot, returned) = (report.knot.into(), report.returned.into());
            [report.deliveries.into(), knot, report.outside.into(), report.escape as i64, returned]
        })
    }

    fn read_record(&self, area: &mut [i32], process: usize) -> Answer {
        answer(plain::read_record(area, process), |record| record_values(&record))
    }

    fn step(&self, lent: LentRecord, received: Received) -> Answer {
        let LentRecord { succeeding, preceding, subordinate, cs, num, father, second } = lent;
        let mut record = Record { succeeding, preceding, subordinate, cs, num, father, second };
        let Received { kind, count, second_count, out_degree, in_degree, sender } = received;
        let message = match kind {
            1 => Some(Message::Suc),
            2 => Some(Message::Pre),
            3 => Some(Message::Ack(Counts { count, second: second_count })),
            _ => None,
        };
        let result = message
            .ok_or(Refusal::Malformed)
            .and_then(|message| plain::step(&mut record, message, out_degree, in_degree, sender));
        let (number, sent) = match result {
            Err(refusal) => (refusal.number(), [0; 4]),
            Ok(sent) => (0, sent_values(sent)),
        };
        Answer::of_step(number, record_values(&record), sent)
    }
}
