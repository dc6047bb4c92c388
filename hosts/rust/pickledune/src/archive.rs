//! The calls of the archive, and all that is unsafe here: each slice goes as a pointer and a number of
//! elements, and each `&mut` as a pointer. References give what the archive asks: valid, aligned,
//! distinct pointers, used only during the call.
use crate::declared::*;
use crate::{Process, Reply};

pub const OUT: u32 = 0;
pub const IN: u32 = 1;
pub const SUC: u32 = 1;
pub const PRE: u32 = 2;
pub const ACK: u32 = 3;

// SAFETY, for each call below: the pointers come from references and slices that live through the
// call, and the borrow checker keeps every `&mut` among them apart from the others. The archive asks
// nothing of the values behind them.

pub fn version() -> u32 {
    unsafe { pickledune_version() }
}

pub fn layout() -> u32 {
    unsafe { pickledune_layout() }
}

pub fn read_table(table: &[u8], n: &mut usize, m: &mut usize) -> u32 {
    unsafe { pickledune_read_table(table.as_ptr(), table.len(), n, m) }
}

pub fn write_table(n: usize, list: &[u16], out: &mut [u8], length: &mut usize) -> u32 {
    unsafe {
        pickledune_write_table(n, list.as_ptr(), list.len(), out.as_mut_ptr(), out.len(), length)
    }
}

pub fn open(table: &[u8], chain: u32, process: usize, arc: &mut usize) -> u32 {
    unsafe { pickledune_open(table.as_ptr(), table.len(), chain, process, arc) }
}

pub fn next(table: &[u8], chain: u32, arc: usize) -> usize {
    unsafe { pickledune_next(table.as_ptr(), table.len(), chain, arc) }
}

pub fn start(table: &[u8], start: usize, edition: usize, area: &mut [i32]) -> u32 {
    unsafe {
        pickledune_start(table.as_ptr(), table.len(), start, edition, area.as_mut_ptr(), area.len())
    }
}

pub fn pick(
    area: &mut [i32],
    from: usize,
    to: usize,
    place: usize,
    kind: &mut u32,
    count: &mut i32,
    second: &mut i32,
) -> u32 {
    unsafe { pickledune_pick(area.as_mut_ptr(), area.len(), from, to, place, kind, count, second) }
}

pub fn run_on(area: &mut [i32], k: u32, over: &mut u32, made: &mut u32) -> u32 {
    unsafe { pickledune_run_on(area.as_mut_ptr(), area.len(), k, over, made) }
}

pub fn run_shuffled(area: &mut [i32], k: u32, seed: u32, over: &mut u32, made: &mut u32) -> u32 {
    unsafe { pickledune_run_shuffled(area.as_mut_ptr(), area.len(), k, seed, over, made) }
}

pub fn report(
    area: &[i32],
    deliveries: &mut u32,
    knot: &mut u32,
    outside: &mut i32,
    escape: &mut u32,
    returned: &mut u32,
) -> u32 {
    unsafe {
        pickledune_report(area.as_ptr(), area.len(), deliveries, knot, outside, escape, returned)
    }
}

pub fn read_record(area: &[i32], process: usize, record: &mut Process) -> u32 {
    let Process { succeeding, preceding, subordinate, cs, num, father, second } = record;
    unsafe {
        pickledune_read_record(
            area.as_ptr(),
            area.len(),
            process,
            succeeding,
            preceding,
            subordinate,
            cs,
            num,
            father,
            second,
        )
    }
}

#[allow(clippy::too_many_arguments)]
pub fn step(
    record: &mut Process,
    kind: u32,
    count: i32,
    second_count: i32,
    out_degree: u32,
    in_degree: u32,
    sender: u32,
    probes: &mut u32,
    reply: &mut Reply,
) -> u32 {
    let Process { succeeding, preceding, subordinate, cs, num, father, second } = record;
    unsafe {
        pickledune_step(
            succeeding,
            preceding,
            subordinate,
            cs,
            num,
            father,
            second,
            kind,
            count,
            second_count,
            out_degree,
            in_degree,
            sender,
            probes,
            &mut reply.process,
            &mut reply.count,
            &mut reply.second,
        )
    }
}
