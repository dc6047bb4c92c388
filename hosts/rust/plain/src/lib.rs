//! The knot check of 01 in plain Rust: the same calls on the same bytes and words as the proved
//! library, written from the specification and docs/LAYOUT.md alone. The comparison holds the
//! two against each other, and the benchmarks take this one as the baseline.
//!
//! Every call is total: it takes any bytes, words and numbers, and what it refuses it leaves
//! untouched. Each runs in time linear in what it is lent, on fixed arrays.

#![forbid(unsafe_code)]
#![deny(missing_docs)]

mod areas;
mod parts;
mod program;
mod runs;
mod shuffled;
mod steps;
mod tables;

pub use areas::words_needed;
pub use program::{check_program, LARGEST_INPUT};
pub use runs::{
    pick, read_record, report, run_on, run_shuffled, start, Delivered, Report, Stopped,
};
pub use steps::{step, Counts, Message, Probe, Record, Reply, Sent};
pub use tables::{next, open, read_table, write_table, Chain, Sizes};

/// The most processes that a table may have.
pub const MOST_PROCESSES: usize = 128;
/// The most arcs that a table may have.
pub const MOST_ARCS: usize = 512;
/// The most deliveries that a run may count.
pub const MOST_DELIVERIES: i32 = 2048;

/// Why a call was refused; `number` gives 01's number, or 02's.
#[derive(Clone, Copy, Debug, PartialEq, Eq)]
#[repr(u32)]
pub enum Refusal {
    /// Under 4 bytes.
    NoSizes = 1,
    /// N or M outside its range.
    Sizes = 2,
    /// Table length wrong.
    Length = 3,
    /// A from or to is 0 or over N.
    Ends = 4,
    /// A first or next over M.
    Places = 5,
    /// A chain meets an arc twice, meets a foreign one or misses one.
    Chains = 6,
    /// Two arcs agree in from and to.
    Alike = 7,
    /// Start process 0 or over N.
    Start = 8,
    /// Run area too short.
    AreaShort = 9,
    /// Writer: odd number of list entries.
    OddList = 10,
    /// Writer: output too short.
    OutputShort = 11,
    /// Program: 1 to 3 bytes left after the last whole pick.
    PickCut = 12,
    /// Program: input over 20,480 bytes.
    InputLong = 13,
    /// Run area, or lent record, not well formed.
    Malformed = 21,
    /// The step would leave a range, overfill a link or acknowledge to father 0.
    Range = 22,
    /// The run is over.
    Over = 23,
    /// Nothing waits.
    Nothing = 24,
    /// No such link, sender or process.
    NoLink = 25,
    /// Report before the run is over.
    NotOver = 26,
    /// 02, N4: an edition other than 1 and 2.
    NoEdition = 30,
    /// 02, N5: the place is 0 or beyond the messages waiting.
    NoPlace = 31,
    /// 02, N13: a shuffled run from seed 0.
    NoSeed = 37,
}

impl Refusal {
    /// 01's number, or 02's.
    pub fn number(self) -> u32 {
        self as u32
    }
}
