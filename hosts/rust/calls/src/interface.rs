//! The C interface of the proved library, as the package `pickledune` declares it, and the trait over
//! it.
//!
//! Every value that a call gives is written to a `Slot`, which holds neither 0 nor any likely
//! value before the call and has guard bytes behind the value. So a value that a call forgets
//! to set shows, and a value wider than declared here stops the program instead of passing
//! unseen.

use crate::{Answer, Calls, LentRecord, Received};

// The versions are for hosts.
#[allow(dead_code)]
#[path = "../../pickledune/src/declared.rs"]
mod declared;
use declared::*;

/// The proved library by its C interface.
pub struct Proved;

/// The types that the interface gives values in.
trait Given: Copy {
    const UNSET: Self;
    fn wide(self) -> i64;
}

impl Given for u32 {
    const UNSET: u32 = 0xA5A5_A5A5;
    fn wide(self) -> i64 {
        self.into()
    }
}

impl Given for i32 {
    const UNSET: i32 = 0xA5A5_A5A5_u32 as i32;
    fn wide(self) -> i64 {
        self.into()
    }
}

impl Given for usize {
    const UNSET: usize = 0xA5A5_A5A5_A5A5_A5A5_u64 as usize;
    fn wide(self) -> i64 {
        self as i64
    }
}

const GUARD: [u8; 8] = [0xA5; 8];

/// Room for one value, with guard bytes behind it.
#[repr(C, align(8))]
struct Slot<T: Given> {
    value: T,
    guard: [u8; 8],
}

impl<T: Given> Slot<T> {
    fn unset() -> Slot<T> {
        Slot::holding(T::UNSET)
    }

    fn holding(value: T) -> Slot<T> {
        Slot { value, guard: GUARD }
    }

    /// The place of the value, with the guard bytes in reach.
    fn place(&mut self) -> *mut T {
        (self as *mut Slot<T>).cast()
    }

    #[track_caller]
    fn get(&self) -> i64 {
        assert_eq!(self.guard, GUARD, "a value wider than its declaration in interface.rs");
        self.value.wide()
    }
}

/// The types of the calls that the C comparator has, too.
pub(crate) type ReadTable = unsafe extern "C" fn(*const u8, usize, *mut usize, *mut usize) -> u32;
pub(crate) type Start =
    unsafe extern "C" fn(*const u8, usize, usize, usize, *mut i32, usize) -> u32;
pub(crate) type Pick =
    unsafe extern "C" fn(*mut i32, usize, usize, usize, usize, *mut u32, *mut i32, *mut i32) -> u32;
pub(crate) type RunOn = unsafe extern "C" fn(*mut i32, usize, u32, *mut u32, *mut u32) -> u32;
pub(crate) type RunShuffled =
    unsafe extern "C" fn(*mut i32, usize, u32, u32, *mut u32, *mut u32) -> u32;

// SAFETY of every call below: the pointers come from slices with their lengths, and from slots
// that live until the call is back; the interface asks nothing else of its caller.

#[inline]
pub(crate) fn read_table(call: ReadTable, table: &mut [u8]) -> Answer {
    let (mut n, mut m) = (Slot::unset(), Slot::unset());
    let number = unsafe { call(table.as_mut_ptr(), table.len(), n.place(), m.place()) };
    Answer::new(number, [n.get(), m.get()])
}

#[inline]
pub(crate) fn start(
    call: Start,
    table: &mut [u8],
    start: usize,
    edition: usize,
    area: &mut [i32],
) -> Answer {
    let (area, words) = (area.as_mut_ptr(), area.len());
    let number = unsafe { call(table.as_mut_ptr(), table.len(), start, edition, area, words) };
    Answer::new(number, [])
}

#[inline]
pub(crate) fn pick(call: Pick, area: &mut [i32], from: usize, to: usize, place: usize) -> Answer {
    let (mut kind, mut count, mut second) = (Slot::unset(), Slot::unset(), Slot::unset());
    let (area, words) = (area.as_mut_ptr(), area.len());
    let number =
        unsafe { call(area, words, from, to, place, kind.place(), count.place(), second.place()) };
    Answer::new(number, [kind.get(), count.get(), second.get()])
}

#[inline]
pub(crate) fn run_on(call: RunOn, area: &mut [i32], k: u32) -> Answer {
    let (mut over, mut made) = (Slot::unset(), Slot::unset());
    let number = unsafe { call(area.as_mut_ptr(), area.len(), k, over.place(), made.place()) };
    Answer::new(number, [over.get(), made.get()])
}

#[inline]
pub(crate) fn run_shuffled(call: RunShuffled, area: &mut [i32], k: u32, seed: u32) -> Answer {
    let (mut over, mut made) = (Slot::unset(), Slot::unset());
    let (area, words) = (area.as_mut_ptr(), area.len());
    let number = unsafe { call(area, words, k, seed, over.place(), made.place()) };
    Answer::new(number, [over.get(), made.get()])
}

impl Calls for Proved {
    fn read_table(&self, table: &mut [u8]) -> Answer {
        read_table(pickledune_read_table, table)
    }

    fn write_table(&self, n: usize, list: &mut [u16], out: &mut [u8]) -> Answer {
        let mut length = Slot::unset();
        let number = unsafe {
            pickledune_write_table(
                n,
                list.as_mut_ptr(),
                list.len(),
                out.as_mut_ptr(),
                out.len(),
                length.place(),
            )
        };
        Answer::new(number, [length.get()])
    }

    fn open(&self, table: &mut [u8], chain: u32, process: usize) -> Answer {
        let mut arc = Slot::unset();
        let number = unsafe {
            pickledune_open(table.as_mut_ptr(), table.len(), chain, process, arc.place())
        };
        Answer::new(number, [arc.get()])
    }

    fn next(&self, table: &mut [u8], chain: u32, arc: usize) -> Answer {
        let arc = unsafe { pickledune_next(table.as_mut_ptr(), table.len(), chain, arc) };
        Answer::new(0, [arc as i64])
    }

    fn start(&self, table: &mut [u8], process: usize, edition: usize, area: &mut [i32]) -> Answer {
        start(pickledune_start, table, process, edition, area)
    }

    fn pick(&self, area: &mut [i32], from: usize, to: usize, place: usize) -> Answer {
        pick(pickledune_pick, area, from, to, place)
    }

    fn run_on(&self, area: &mut [i32], k: u32) -> Answer {
        run_on(pickledune_run_on, area, k)
    }

    fn run_shuffled(&self, area: &mut [i32], k: u32, seed: u32) -> Answer {
        run_shuffled(pickledune_run_shuffled, area, k, seed)
    }

    fn report(&self, area: &mut [i32]) -> Answer {
        let (mut deliveries, mut knot, mut outside) = (Slot::unset(), Slot::unset(), Slot::unset());
        let (mut escape, mut returned) = (Slot::unset(), Slot::unset());
        let number = unsafe {
            pickledune_report(
                area.as_mut_ptr(),
                area.len(),
                deliveries.place(),
                knot.place(),
                outside.place(),
                escape.place(),
                returned.place(),
            )
        };
        let values = [deliveries.get(), knot.get(), outside.get(), escape.get(), returned.get()];
        Answer::new(number, values)
    }

    fn read_record(&self, area: &mut [i32], process: usize) -> Answer {
        let mut flags = [Slot::unset(), Slot::unset(), Slot::unset()];
        let (mut cs, mut num) = (Slot::unset(), Slot::unset());
        let (mut father, mut second) = (Slot::unset(), Slot::unset());
        let number = unsafe {
            pickledune_read_record(
                area.as_mut_ptr(),
                area.len(),
                process,
                flags[0].place(),
                flags[1].place(),
                flags[2].place(),
                cs.place(),
                num.place(),
                father.place(),
                second.place(),
            )
        };
        let [succeeding, preceding, subordinate] = flags.map(|flag| flag.get());
        let [cs, num, father, second] = [cs.get(), num.get(), father.get(), second.get()];
        Answer::new(number, [succeeding, preceding, subordinate, cs, num, father, second])
    }

    fn step(&self, record: LentRecord, received: Received) -> Answer {
        let mut flags = [
            Slot::holding(record.succeeding),
            Slot::holding(record.preceding),
            Slot::holding(record.subordinate),
        ];
        let mut cs = Slot::holding(record.cs);
        let mut num = Slot::holding(record.num);
        let mut father = Slot::holding(record.father);
        let mut second = Slot::holding(record.second);
        let (mut probes, mut to) = (Slot::unset(), Slot::unset());
        let (mut reply_count, mut reply_second) = (Slot::unset(), Slot::unset());
        let number = unsafe {
            pickledune_step(
                flags[0].place(),
                flags[1].place(),
                flags[2].place(),
                cs.place(),
                num.place(),
                father.place(),
                second.place(),
                received.kind,
                received.count,
                received.second_count,
                received.out_degree,
                received.in_degree,
                received.sender,
                probes.place(),
                to.place(),
                reply_count.place(),
                reply_second.place(),
            )
        };
        let [succeeding, preceding, subordinate] = flags.map(|flag| flag.get());
        let [cs, num, father, second] = [cs.get(), num.get(), father.get(), second.get()];
        let record = [succeeding, preceding, subordinate, cs, num, father, second];
        let sent = [probes.get(), to.get(), reply_count.get(), reply_second.get()];
        Answer::of_step(number, record, sent)
    }
}
