//! The plain Rust under the names of the C interface, to try the programs without the proved
//! library. Only for that: with it a comparison compares the plain Rust with itself.

use crate::{Answer, Calls, LentRecord, Plain, Received};
use std::slice::{from_raw_parts, from_raw_parts_mut};

/// What a C caller lends, copied so that this stand-in needs no promise that it may write.
unsafe fn copied<T: Clone>(start: *const T, len: usize) -> Vec<T> {
    from_raw_parts(start, len).to_vec()
}

macro_rules! give {
    ($answer:expr, $($place:expr),*) => {{
        let answer: Answer = $answer;
        let mut _values = answer.values.into_iter();
        $(*$place = _values.next().unwrap_or(0) as _;)*
        answer.number
    }};
}

#[no_mangle]
unsafe extern "C" fn pickledune_read_table(
    table: *const u8,
    len: usize,
    n: *mut usize,
    m: *mut usize,
) -> u32 {
    give!(Plain.read_table(&mut copied(table, len)), n, m)
}

#[no_mangle]
unsafe extern "C" fn pickledune_write_table(
    n: usize,
    list: *const u16,
    list_len: usize,
    out: *mut u8,
    out_len: usize,
    length: *mut usize,
) -> u32 {
    let out = from_raw_parts_mut(out, out_len);
    give!(Plain.write_table(n, &mut copied(list, list_len), out), length)
}

#[no_mangle]
unsafe extern "C" fn pickledune_open(
    table: *const u8,
    len: usize,
    chain: u32,
    process: usize,
    arc: *mut usize,
) -> u32 {
    give!(Plain.open(&mut copied(table, len), chain, process), arc)
}

#[no_mangle]
unsafe extern "C" fn pickledune_next(
    table: *const u8,
    len: usize,
    chain: u32,
    arc: usize,
) -> usize {
    Plain.next(&mut copied(table, len), chain, arc).values[0] as usize
}

#[no_mangle]
unsafe extern "C" fn pickledune_start(
    table: *const u8,
    len: usize,
    start: usize,
    edition: usize,
    area: *mut i32,
    area_len: usize,
) -> u32 {
    let area = from_raw_parts_mut(area, area_len);
    Plain.start(&mut copied(table, len), start, edition, area).number
}

#[no_mangle]
unsafe extern "C" fn pickledune_pick(
    area: *mut i32,
    area_len: usize,
    from: usize,
    to: usize,
    place: usize,
    kind: *mut u32,
    count: *mut i32,
    second: *mut i32,
) -> u32 {
    give!(Plain.pick(from_raw_parts_mut(area, area_len), from, to, place), kind, count, second)
}

#[no_mangle]
unsafe extern "C" fn pickledune_run_on(
    area: *mut i32,
    area_len: usize,
    k: u32,
    over: *mut u32,
    made: *mut u32,
) -> u32 {
    give!(Plain.run_on(from_raw_parts_mut(area, area_len), k), over, made)
}

#[no_mangle]
unsafe extern "C" fn pickledune_run_shuffled(
    area: *mut i32,
    area_len: usize,
    k: u32,
    seed: u32,
    over: *mut u32,
    made: *mut u32,
) -> u32 {
    give!(Plain.run_shuffled(from_raw_parts_mut(area, area_len), k, seed), over, made)
}

#[no_mangle]
unsafe extern "C" fn pickledune_report(
    area: *const i32,
    area_len: usize,
    deliveries: *mut u32,
    knot: *mut u32,
    outside: *mut i32,
    escape: *mut u32,
    returned: *mut u32,
) -> u32 {
    let answer = Plain.report(&mut copied(area, area_len));
    give!(answer, deliveries, knot, outside, escape, returned)
}

#[no_mangle]
unsafe extern "C" fn pickledune_read_record(
    area: *const i32,
    area_len: usize,
    process: usize,
    succeeding: *mut u32,
    preceding: *mut u32,
    subordinate: *mut u32,
    cs: *mut i32,
    num: *mut u32,
    father: *mut u32,
    second: *mut i32,
) -> u32 {
    let answer = Plain.read_record(&mut copied(area, area_len), process);
    give!(answer, succeeding, preceding, subordinate, cs, num, father, second)
}

#[no_mangle]
unsafe extern "C" fn pickledune_step(
    succeeding: *mut u32,
    preceding: *mut u32,
    subordinate: *mut u32,
    cs: *mut i32,
    num: *mut u32,
    father: *mut u32,
    second: *mut i32,
    kind: u32,
    count: i32,
    second_count: i32,
    out_degree: u32,
    in_degree: u32,
    sender: u32,
    probes: *mut u32,
    reply_to: *mut u32,
    reply_count: *mut i32,
    reply_second: *mut i32,
) -> u32 {
    let record = LentRecord {
        succeeding: *succeeding,
        preceding: *preceding,
        subordinate: *subordinate,
        cs: *cs,
        num: *num,
        father: *father,
        second: *second,
    };
    let received = Received { kind, count, second_count, out_degree, in_degree, sender };
    let answer = Plain.step(record, received);
    give!(
        answer,
        succeeding,
        preceding,
        subordinate,
        cs,
        num,
        father,
        second,
        probes,
        reply_to,
        reply_count,
        reply_second
    )
}
