//! The C comparator, `hosts/c/fast.c`, behind the trait.

use crate::interface::{pick, read_table, run_on, run_shuffled, start};
use crate::{Answer, Calls, LentRecord, Plain, Received};

// As `hosts/c/fast.h` declares them.
extern "C" {
    fn fast_read_table(table: *const u8, table_bytes: usize, n: *mut usize, m: *mut usize) -> u32;
    fn fast_start(
        table: *const u8,
        table_bytes: usize,
        start: usize,
        edition: usize,
        area: *mut i32,
        words: usize,
    ) -> u32;
    fn fast_pick(
        area: *mut i32,
        words: usize,
        from: usize,
        to: usize,
        place: usize,
        kind: *mut u32,
        count: *mut i32,
        second: *mut i32,
    ) -> u32;
    fn fast_run_on(area: *mut i32, words: usize, k: u32, over: *mut u32, made: *mut u32) -> u32;
    fn fast_run_shuffled(
        area: *mut i32,
        words: usize,
        k: u32,
        seed: u32,
        over: *mut u32,
        made: *mut u32,
    ) -> u32;
}

/// The calls that are timed, in C. It has no others: those are the plain Rust's.
pub struct Fast;

impl Calls for Fast {
    fn read_table(&self, table: &mut [u8]) -> Answer {
        read_table(fast_read_table, table)
    }

    fn write_table(&self, n: usize, list: &mut [u16], out: &mut [u8]) -> Answer {
        Plain.write_table(n, list, out)
    }

    fn open(&self, table: &mut [u8], chain: u32, process: usize) -> Answer {
        Plain.open(table, chain, process)
    }

    fn next(&self, table: &mut [u8], chain: u32, arc: usize) -> Answer {
        Plain.next(table, chain, arc)
    }

    fn start(&self, table: &mut [u8], process: usize, edition: usize, area: &mut [i32]) -> Answer {
        start(fast_start, table, process, edition, area)
    }

    fn pick(&self, area: &mut [i32], from: usize, to: usize, place: usize) -> Answer {
        pick(fast_pick, area, from, to, place)
    }

    fn run_on(&self, area: &mut [i32], k: u32) -> Answer {
        run_on(fast_run_on, area, k)
    }

    fn run_shuffled(&self, area: &mut [i32], k: u32, seed: u32) -> Answer {
        run_shuffled(fast_run_shuffled, area, k, seed)
    }

    fn report(&self, area: &mut [i32]) -> Answer {
        Plain.report(area)
    }

    fn read_record(&self, area: &mut [i32], process: usize) -> Answer {
        Plain.read_record(area, process)
    }

    fn step(&self, record: LentRecord, received: Received) -> Answer {
        Plain.step(record, received)
    }
}
