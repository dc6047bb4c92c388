//! The knot check: whether a process, such as a payment, is stuck in a knot of waits.
//!
//! A thin safe wrapper over the archive `libpickledune.a`, whose calls are proved to meet their
//! contracts on any input. `include/pickledune.h` says what each of them does; here each takes slices
//! and gives an enum or a struct. No call keeps what it is lent, allocates, or has state of its own.
//! A refusal leaves what was lent as it was; running on keeps the deliveries made before it. The
//! numbers in a call's comment are those of its [`Refusal`]s, in the order in which they are met.
//!
//! Beside the sum cs each process has a second sum, and beside its count each acknowledgement a second
//! count, of processes reachable from the start that wait for nobody (02, N3). At the end the start's
//! second sum is their number, and the mark goes by it.
//!
//! ```
//! use pickledune::{Mark, Ran, Verdict};
//!
//! let mut table = [0u8; pickledune::table_bytes(2, 1)];
//! pickledune::write_table(2, &[1, 2], &mut table)?; // 1 waits for 2
//! let mut area = [0i32; pickledune::area_words(2, 1)];
//! pickledune::start(&table, 1, 1, &mut area)?; // at process 1, under edition 1
//! assert_eq!(pickledune::run_on(&mut area, 2048), Ran::Over(2));
//! let report = pickledune::report(&area)?;
//! assert_eq!((report.verdict, report.mark), (Verdict::Free, Mark::Held)); // 2 waits for nobody
//! # Ok::<(), pickledune::Refusal>(())
//! ```
//!
//! Calls on different areas may run at the same time, in any threads: `examples/side_by_side.rs`.
#![deny(missing_docs)]

mod archive;
mod declared;
mod refusals;
mod versions;

pub use refusals::Refusal;
pub use versions::{layout, layout_of, version, LAYOUT, LAYOUT_WORD, VERSION, VERSION_TEXT};

/// Processes are numbered 1 to at most this.
pub const MAX_PROCESSES: usize = 128;
/// Arcs (waits) are numbered 1 to at most this; a table may have none.
pub const MAX_ARCS: usize = 512;

/// The bytes of a table of `n` processes and `m` arcs.
pub const fn table_bytes(n: usize, m: usize) -> usize {
    4 + 4 * n + 8 * m
}

/// The words that a run area of a table of `n` processes and `m` arcs needs.
pub const fn area_words(n: usize, m: usize) -> usize {
    8 * n + 20 * m + 16
}

/// The two chains of a process.
#[derive(Clone, Copy, Debug, PartialEq, Eq, Hash)]
pub enum Chain {
    /// The arcs that leave it.
    Out,
    /// The arcs that come to it.
    In,
}

/// The sizes of a table.
#[derive(Clone, Copy, Debug, PartialEq, Eq, Hash)]
pub struct Sizes {
    /// N, how many processes.
    pub processes: usize,
    /// M, how many arcs.
    pub arcs: usize,
}

/// What waits on a link.
#[derive(Clone, Copy, Debug, PartialEq, Eq, Hash)]
pub enum Message {
    /// A suc probe.
    Suc,
    /// A pre probe.
    Pre,
    /// An acknowledgement.
    Ack {
        /// Its count, −128 to 128.
        count: i32,
        /// Its second count, −128 to 128.
        second: i32,
    },
}

/// The answer of running on, also shuffled.
#[derive(Clone, Copy, Debug, PartialEq, Eq, Hash)]
pub enum Ran {
    /// The run is over, after so many deliveries by this call.
    Over(u32),
    /// The call made all its deliveries, so many, and the run is not over.
    Spent(u32),
    /// A refusal.
    Refused {
        /// Which one.
        refusal: Refusal,
        /// The deliveries made before it, which the area keeps.
        made: u32,
    },
}

/// Whether the start is in a knot, by the run's edition.
#[derive(Clone, Copy, Debug, PartialEq, Eq, Hash)]
pub enum Verdict {
    /// It is in a knot.
    Knot,
    /// It is in none; 01 calls this "none".
    Free,
}

/// What becomes of the start's payment, whatever the verdict (02, N3).
#[derive(Clone, Copy, Debug, PartialEq, Eq, Hash)]
pub enum Mark {
    /// Every process reachable from the start, itself included, waits for somebody.
    Returned,
    /// One of them waits for nobody.
    Held,
}

/// The report of a run that is over.
#[derive(Clone, Copy, Debug, PartialEq, Eq, Hash)]
pub struct Report {
    /// The deliveries that the run took.
    pub deliveries: u32,
    /// Whether the start is in a knot.
    pub verdict: Verdict,
    /// How many processes that the start waits for, at any remove, do not wait for it (0 also if it
    /// waits for nobody).
    pub outside: i32,
    /// The lowest-numbered of those (the lowest-numbered process with subordinate 1), if there is any
    /// (02, N1).
    pub escape: Option<u32>,
    /// Whether the payment is returned or held.
    pub mark: Mark,
}

/// One process's record.
#[derive(Clone, Copy, Debug, Default, PartialEq, Eq, Hash)]
pub struct Process {
    /// 1 once a suc probe has come, and in the start's record: the start waits for this process, at
    /// any remove; else 0.
    pub succeeding: u32,
    /// 1 once a pre probe has come, and in the start's record: this process waits for the start, at
    /// any remove; else 0.
    pub preceding: u32,
    /// 1 if succeeding was 1 and preceding 0 when the last probe had come; else 0, and in the start's
    /// record.
    pub subordinate: u32,
    /// The sum of the counts that it has not passed on, −128 to 128.
    pub cs: i32,
    /// How many acknowledgements it waits for, 0 to 256.
    pub num: u32,
    /// The sender of the last probe that came while num was 0, which is acknowledged when num is 0
    /// again; 0 if none came.
    pub father: u32,
    /// The sum of the second counts that it has not passed on, −128 to 128 (02, N3).
    pub second: i32,
}

/// The probes that a step broadcasts.
#[derive(Clone, Copy, Debug, PartialEq, Eq, Hash)]
pub enum Probes {
    /// None.
    Nothing,
    /// A suc probe to each successor.
    Sucs,
    /// A pre probe to each predecessor.
    Pres,
}

/// An acknowledgement to send.
#[derive(Clone, Copy, Debug, PartialEq, Eq, Hash)]
pub struct Reply {
    /// To whom.
    pub process: u32,
    /// Its count.
    pub count: i32,
    /// Its second count.
    pub second: i32,
}

/// What a step sends.
#[derive(Clone, Copy, Debug, PartialEq, Eq, Hash)]
pub struct Sent {
    /// The probes.
    pub probes: Probes,
    /// The acknowledgement, if there is one.
    pub reply: Option<Reply>,
}

/// Reads a wait table. 1, 2, 3, 4, 5, 6, 7.
pub fn read_table(table: &[u8]) -> Result<Sizes, Refusal> {
    let mut sizes = Sizes { processes: 0, arcs: 0 };
    accepted(archive::read_table(table, &mut sizes.processes, &mut sizes.arcs))?;
    Ok(sizes)
}

/// Writes the table of `n` processes at the front of `out` and gives its length in bytes; `list`
/// holds a from and a to for each arc, in turn. Bytes past the table keep their values.
/// 10, 2, 4, 7, 11.
pub fn write_table(n: usize, list: &[u16], out: &mut [u8]) -> Result<usize, Refusal> {
    let mut length = 0;
    accepted(archive::write_table(n, list, out, &mut length))?;
    Ok(length)
}

/// Opens a walk along one chain of a process: the chain's first arc, or `None` if it has none.
/// 1, 2, 3, 4, 5, 6, 7, 8.
pub fn open(table: &[u8], chain: Chain, process: usize) -> Result<Option<usize>, Refusal> {
    let mut arc = 0;
    accepted(archive::open(table, chain_number(chain), process, &mut arc))?;
    Ok(some(arc))
}

/// A step of a walk: the arc after `arc` on the chain, or `None` at the end; from an arc that is 0,
/// over M or past the bytes the end too. It refuses nothing.
pub fn next(table: &[u8], chain: Chain, arc: usize) -> Option<usize> {
    some(archive::next(table, chain_number(chain), arc))
}

/// Starts a check at process `start` under edition 1 or 2 of the rulebook (02, N4), which the area
/// then holds. It needs [`area_words`] words, and may hold anything before.
/// 1, 2, 3, 4, 5, 6, 7, 8, 30, 9.
pub fn start(table: &[u8], start: usize, edition: usize, area: &mut [i32]) -> Result<(), Refusal> {
    accepted(archive::start(table, start, edition, area))
}

/// Delivers the message at `place` of the link from one process to another, 1 for the oldest, and
/// gives it; the others keep their order. 21, 25, 23, 24, 31, 22.
pub fn pick(area: &mut [i32], from: usize, to: usize, place: usize) -> Result<Message, Refusal> {
    let mut kind = 0;
    let mut count = 0;
    let mut second = 0;
    accepted(archive::pick(area, from, to, place, &mut kind, &mut count, &mut second))?;
    Ok(match kind {
        archive::SUC => Message::Suc,
        archive::PRE => Message::Pre,
        _ => Message::Ack { count, second },
    })
}

/// Makes up to `k` deliveries, each of the oldest message on the link with a message that has the
/// lowest receiver and then the lowest sender (02, N11). A run that a start began is over after at
/// most 2048. 21 before the first delivery; 24, 22 at a delivery.
pub fn run_on(area: &mut [i32], k: u32) -> Ran {
    let mut over = 0;
    let mut made = 0;
    let number = archive::run_on(area, k, &mut over, &mut made);
    ran(number, over, made)
}

/// Runs on in an order that `seed` gives and that anyone can repeat (02, N13): the same area with the
/// same `k` and seed gives the same answer and the same words on every machine. Before each delivery
/// the state, which begins as the seed, is moved on (Marsaglia's xorshift32); modulo the number of
/// links with a message, counted from 0 in the order of [`run_on`], it picks the link, whose oldest
/// message goes. Each call begins from its own seed, so that two calls of one delivery from one seed
/// are not one call of two. A check ends as it does by any other deliveries. 21, 37 before the first
/// delivery; 24, 22 at a delivery.
///
/// ```
/// use pickledune::{Ran, Refusal};
///
/// let mut table = [0u8; pickledune::table_bytes(3, 4)];
/// pickledune::write_table(3, &[1, 2, 1, 3, 2, 3, 3, 1], &mut table)?;
/// let fathers = |seed| {
///     let mut area = [0i32; pickledune::area_words(3, 4)];
///     pickledune::start(&table, 1, 1, &mut area)?;
///     assert_eq!(pickledune::run_shuffled(&mut area, 2048, seed), Ran::Over(16));
///     Ok((pickledune::read_record(&area, 2)?.father, pickledune::read_record(&area, 3)?.father))
/// };
/// assert_eq!(fathers(2463534242)?, (3, 1));
/// assert_eq!(fathers(2026)?, (1, 2)); // of a process's values only father depends on the order
/// # Ok::<(), Refusal>(())
/// ```
pub fn run_shuffled(area: &mut [i32], k: u32, seed: u32) -> Ran {
    let mut over = 0;
    let mut made = 0;
    let number = archive::run_shuffled(area, k, seed, &mut over, &mut made);
    ran(number, over, made)
}

/// The report of a run that is over. 21, 26.
pub fn report(area: &[i32]) -> Result<Report, Refusal> {
    let mut deliveries = 0;
    let mut knot = 0;
    let mut outside = 0;
    let mut escape = 0;
    let mut returned = 0;
    accepted(archive::report(
        area,
        &mut deliveries,
        &mut knot,
        &mut outside,
        &mut escape,
        &mut returned,
    ))?;
    Ok(Report {
        deliveries,
        verdict: if knot == 1 { Verdict::Knot } else { Verdict::Free },
        outside,
        escape: if escape == 0 { None } else { Some(escape) },
        mark: if returned == 1 { Mark::Returned } else { Mark::Held },
    })
}

/// The record of one process, at any time of a run. 21, 25.
pub fn read_record(area: &[i32], process: usize) -> Result<Process, Refusal> {
    let mut record = Process::default();
    accepted(archive::read_record(area, process, &mut record))?;
    Ok(record)
}

/// The step of one process other than the start, by itself, on a record that the host keeps; a
/// refusal leaves the record as it was. The degrees are the numbers of the process's successors and
/// predecessors. 21, 25, 22.
pub fn step(
    record: &mut Process,
    message: Message,
    out_degree: u32,
    in_degree: u32,
    sender: u32,
) -> Result<Sent, Refusal> {
    let (kind, count, second_count) = match message {
        Message::Suc => (archive::SUC, 0, 0),
        Message::Pre => (archive::PRE, 0, 0),
        Message::Ack { count, second } => (archive::ACK, count, second),
    };
    let mut probes = 0;
    let mut reply = Reply { process: 0, count: 0, second: 0 };
    accepted(archive::step(
        record,
        kind,
        count,
        second_count,
        out_degree,
        in_degree,
        sender,
        &mut probes,
        &mut reply,
    ))?;
    Ok(Sent {
        probes: match probes {
            archive::SUC => Probes::Sucs,
            archive::PRE => Probes::Pres,
            _ => Probes::Nothing,
        },
        reply: if reply.process == 0 { None } else { Some(reply) },
    })
}

fn accepted(number: u32) -> Result<(), Refusal> {
    if number == 0 {
        Ok(())
    } else {
        Err(Refusal::numbered(number))
    }
}

fn ran(number: u32, over: u32, made: u32) -> Ran {
    match accepted(number) {
        Err(refusal) => Ran::Refused { refusal, made },
        Ok(()) if over == 1 => Ran::Over(made),
        Ok(()) => Ran::Spent(made),
    }
}

fn some(arc: usize) -> Option<usize> {
    if arc == 0 {
        None
    } else {
        Some(arc)
    }
}

fn chain_number(chain: Chain) -> u32 {
    match chain {
        Chain::Out => archive::OUT,
        Chain::In => archive::IN,
    }
}
