//! 01's calls behind one trait, so that programs can make the same call on the proved library
//! (`Proved`, by its C interface), on the plain Rust (`Plain`) and on the C comparator (`Fast`).

#![deny(missing_docs)]

mod fast;
mod interface;
mod plain_calls;
#[cfg(feature = "standin")]
mod standin;

pub use fast::Fast;
pub use interface::Proved;
pub use plain_calls::Plain;

/// Whether `Proved` is the plain Rust behind the C interface, and not the proved library.
pub const STANDIN: bool = cfg!(feature = "standin");

/// 01's number, and the values of the call in the order of the C interface, zeros behind them.
#[derive(Clone, Copy, Debug, Default, PartialEq, Eq)]
pub struct Answer {
    /// 0, or the number of the refusal.
    pub number: u32,
    /// The values.
    pub values: [i64; 11],
}

impl Answer {
    /// The answer with these values, at most 11.
    pub fn new<const K: usize>(number: u32, values: [i64; K]) -> Answer {
        let mut answer = Answer { number, ..Answer::default() };
        answer.values[..K].copy_from_slice(&values);
        answer
    }

    /// The answer of a step: the record afterwards, and what is sent.
    fn of_step(number: u32, record: [i64; 7], sent: [i64; 4]) -> Answer {
        let mut answer = Answer::new(number, record);
        answer.values[7..].copy_from_slice(&sent);
        answer
    }
}

/// A process record as a host lends it: any numbers, of which `plain::Record` says what they are.
#[derive(Clone, Copy, Debug, Default, PartialEq, Eq)]
pub struct LentRecord {
    /// A flag.
    pub succeeding: u32,
    /// A flag.
    pub preceding: u32,
    /// A flag.
    pub subordinate: u32,
    /// The sum.
    pub cs: i32,
    /// How many acknowledgements it waits for.
    pub num: u32,
    /// Who is acknowledged when num is 0 again.
    pub father: u32,
    /// The second sum.
    pub second: i32,
}

/// What a step gets beside the record: any numbers.
#[derive(Clone, Copy, Debug, PartialEq, Eq)]
pub struct Received {
    /// The message's kind: 1 suc, 2 pre, 3 an acknowledgement.
    pub kind: u32,
    /// The acknowledgement's count.
    pub count: i32,
    /// The acknowledgement's second count.
    pub second_count: i32,
    /// How many successors the process has.
    pub out_degree: u32,
    /// How many predecessors it has.
    pub in_degree: u32,
    /// Who sent the message.
    pub sender: u32,
}

/// The calls, each with its values. All that is lent is lent for writing, also what a call only reads:
/// so a stray write is something a caller can look for.
pub trait Calls {
    /// Reads a table: n, m.
    fn read_table(&self, table: &mut [u8]) -> Answer;
    /// Writes a table: its length.
    fn write_table(&self, n: usize, list: &mut [u16], out: &mut [u8]) -> Answer;
    /// Opens a walk: the first arc.
    fn open(&self, table: &mut [u8], chain: u32, process: usize) -> Answer;
    /// A step of a walk: the next arc; the number is always 0.
    fn next(&self, table: &mut [u8], chain: u32, arc: usize) -> Answer;
    /// Starts a check: no values.
    fn start(&self, table: &mut [u8], start: usize, edition: usize, area: &mut [i32]) -> Answer;
    /// Delivers a message: its kind, count, second count.
    fn pick(&self, area: &mut [i32], from: usize, to: usize, place: usize) -> Answer;
    /// Runs on: over, made.
    fn run_on(&self, area: &mut [i32], k: u32) -> Answer;
    /// Runs on, shuffled: over, made.
    fn run_shuffled(&self, area: &mut [i32], k: u32, seed: u32) -> Answer;
    /// The report: deliveries, knot, outside, escape, returned.
    fn report(&self, area: &mut [i32]) -> Answer;
    /// A record: succeeding, preceding, subordinate, cs, num, father, second sum.
    fn read_record(&self, area: &mut [i32], process: usize) -> Answer;
    /// One process's step: the record afterwards (seven values), probes, reply to, reply count, reply's
    /// second count.
    fn step(&self, record: LentRecord, received: Received) -> Answer;
}
