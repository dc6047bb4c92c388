//! Wait tables: 01's layout, its checks 1 to 7, the writer and the walk along one chain.

use crate::parts::Parts;
use crate::{Refusal, MOST_ARCS, MOST_PROCESSES};

/// N and M of a table.
#[derive(Clone, Copy, Debug, PartialEq, Eq)]
pub struct Sizes {
    /// How many processes.
    pub n: usize,
    /// How many arcs.
    pub m: usize,
}

/// Which of its two chains of a process.
#[derive(Clone, Copy, Debug, PartialEq, Eq)]
pub enum Chain {
    /// The arcs that leave it.
    Out = 0,
    /// The arcs that come to it.
    In = 1,
}

impl Sizes {
    /// N and M if both are in their ranges.
    pub(crate) fn in_range(n: usize, m: usize) -> Option<Sizes> {
        ((1..=MOST_PROCESSES).contains(&n) && m <= MOST_ARCS).then_some(Sizes { n, m })
    }

    /// The number of 16-bit fields.
    pub(crate) fn fields(self) -> usize {
        2 + 2 * self.n + 4 * self.m
    }
}

/// An arc's record: from and to, then next-out and next-in.
#[derive(Clone, Copy)]
pub(crate) struct Arc {
    ends: [u32; 2],
    nexts: [u32; 2],
}

impl Arc {
    pub(crate) fn from(&self) -> usize {
        self.ends[0] as usize
    }
    pub(crate) fn to(&self) -> usize {
        self.ends[1] as usize
    }
}

/// A table of right length, as bytes of a file or as words of an area. A word that is no 16-bit
/// number shows as one over every limit.
pub(crate) trait Table {
    fn sizes(&self) -> Sizes {
        Sizes { n: self.processes().len(), m: self.arcs().len() }
    }
    /// The first-out and first-in of each process.
    fn processes(&self) -> impl ExactSizeIterator<Item = [u32; 2]>;
    fn arcs(&self) -> impl ExactSizeIterator<Item = Arc>;
    fn first(&self, chain: Chain, process: usize) -> usize;
    fn arc(&self, arc: usize) -> Arc;

    /// The arcs of a chain of an accepted table, with their numbers.
    #[inline]
    fn chain(&self, chain: Chain, process: usize) -> impl Iterator<Item = (usize, Arc)> {
        let mut place = self.first(chain, process);
        std::iter::from_fn(move || {
            let met = place;
            if met == 0 {
                return None;
            }
            let arc = self.arc(met);
            place = arc.nexts[chain as usize] as usize;
            Some((met, arc))
        })
    }
}

#[derive(Clone, Copy)]
pub(crate) struct Bytes<'a> {
    processes: Parts<&'a [u8], 4>,
    arcs: Parts<&'a [u8], 8>,
}

#[derive(Clone, Copy)]
pub(crate) struct Words<'a> {
    processes: Parts<&'a [i32], 2>,
    arcs: Parts<&'a [i32], 4>,
}

impl<'a> Bytes<'a> {
    pub(crate) fn new(table: &'a [u8], Sizes { n, m }: Sizes) -> Bytes<'a> {
        let (processes, arcs) = table[4..].split_at(4 * n);
        Bytes { processes: Parts::of(processes), arcs: Parts::of(&arcs[..8 * m]) }
    }
}

impl<'a> Words<'a> {
    pub(crate) fn new(table: &'a [i32], n: usize) -> Words<'a> {
        let (processes, arcs) = table[2..].split_at(2 * n);
        Words { processes: Parts::of(processes), arcs: Parts::of(arcs) }
    }
}

#[inline(always)]
fn number(low: u8, high: u8) -> u32 {
    u32::from(u16::from_le_bytes([low, high]))
}

#[inline(always)]
fn arc_of_bytes(&[a, b, c, d, e, f, g, h]: &[u8; 8]) -> Arc {
    Arc { ends: [number(a, b), number(c, d)], nexts: [number(e, f), number(g, h)] }
}

#[inline(always)]
fn arc_of_words(&[from, to, next_out, next_in]: &[i32; 4]) -> Arc {
    Arc { ends: [from as u32, to as u32], nexts: [next_out as u32, next_in as u32] }
}

impl Table for Bytes<'_> {
    fn processes(&self) -> impl ExactSizeIterator<Item = [u32; 2]> {
        self.processes.iter().map(|&[a, b, c, d]| [number(a, b), number(c, d)])
    }
    fn arcs(&self) -> impl ExactSizeIterator<Item = Arc> {
        self.arcs.iter().map(arc_of_bytes)
    }
    #[inline(always)]
    fn first(&self, chain: Chain, process: usize) -> usize {
        let [a, b, c, d] = self.processes[process - 1];
        [number(a, b), number(c, d)][chain as usize] as usize
    }
    #[inline(always)]
    fn arc(&self, arc: usize) -> Arc {
        arc_of_bytes(&self.arcs[arc - 1])
    }
}

impl Table for Words<'_> {
    fn processes(&self) -> impl ExactSizeIterator<Item = [u32; 2]> {
        self.processes.iter().map(|&firsts| firsts.map(|first| first as u32))
    }
    fn arcs(&self) -> impl ExactSizeIterator<Item = Arc> {
        self.arcs.iter().map(arc_of_words)
    }
    #[inline(always)]
    fn first(&self, chain: Chain, process: usize) -> usize {
        self.processes[process - 1][chain as usize] as u32 as usize
    }
    #[inline(always)]
    fn arc(&self, arc: usize) -> Arc {
        arc_of_words(&self.arcs[arc - 1])
    }
}

/// Who waits for whom, as a square of bits: bit q − 1 of row p − 1 is set if p waits for q.
pub(crate) struct Waits([u128; MOST_PROCESSES]);

impl Waits {
    fn none() -> Waits {
        Waits([0; MOST_PROCESSES])
    }

    #[inline(always)]
    pub(crate) fn waits(&self, from: usize, to: usize) -> bool {
        self.0[from - 1] >> (to - 1) & 1 != 0
    }

    #[inline(always)]
    pub(crate) fn neighbours(&self, a: usize, b: usize) -> bool {
        self.waits(a, b) || self.waits(b, a)
    }

    #[inline(always)]
    pub(crate) fn has_successor(&self, process: usize) -> bool {
        self.0[process - 1] != 0
    }

    /// Notes the wait and says whether it is new.
    #[inline(always)]
    fn add(&mut self, from: usize, to: usize) -> bool {
        let row = &mut self.0[from - 1];
        let bit = 1 << (to - 1);
        let new = *row & bit == 0;
        *row |= bit;
        new
    }
}

/// Checks 4 to 7 in order.
pub(crate) fn check(table: &impl Table) -> Result<Waits, Refusal> {
    let sizes = table.sizes();
    let (n, m) = (sizes.n as u32, sizes.m as u32);
    let mut ends_right = true;
    let mut places_right = true;
    for Arc { ends, nexts } in table.arcs() {
        ends_right &= ends[0].wrapping_sub(1) < n && ends[1].wrapping_sub(1) < n;
        places_right &= nexts[0] <= m && nexts[1] <= m;
    }
    if !ends_right {
        return Err(Refusal::Ends);
    }
    for firsts in table.processes() {
        places_right &= firsts[0] <= m && firsts[1] <= m;
    }
    if !places_right {
        return Err(Refusal::Places);
    }
    check_chains(table, Chain::Out)?;
    check_chains(table, Chain::In)?;
    let mut waits = Waits::none();
    let mut all_new = true;
    for arc in table.arcs() {
        all_new &= waits.add(arc.from(), arc.to());
    }
    if all_new {
        Ok(waits)
    } else {
        Err(Refusal::Alike)
    }
}

/// Check 6 for all chains of one direction. Chains that hold only their own arcs are disjoint,
/// so they meet every arc once exactly if they meet M arcs in all before they end.
#[inline(always)]
fn check_chains(table: &impl Table, chain: Chain) -> Result<(), Refusal> {
    let Sizes { n, m } = table.sizes();
    let mut met = 0;
    for process in 1..=n {
        let mut place = table.first(chain, process);
        while place != 0 {
            // Never after check 5; but with this test the arc is read without another one.
            if place > m {
                return Err(Refusal::Chains);
            }
            let arc = table.arc(place);
            if met == m || arc.ends[chain as usize] as usize != process {
                return Err(Refusal::Chains);
            }
            met += 1;
            place = arc.nexts[chain as usize] as usize;
        }
    }
    if met == m {
        Ok(())
    } else {
        Err(Refusal::Chains)
    }
}

/// Checks 1 and 2.
pub(crate) fn leading_sizes(bytes: &[u8]) -> Result<Sizes, Refusal> {
    let &[a, b, c, d, ..] = bytes else { return Err(Refusal::NoSizes) };
    Sizes::in_range(number(a, b) as usize, number(c, d) as usize).ok_or(Refusal::Sizes)
}

/// Checks 1 to 7.
pub(crate) fn accept(table: &[u8]) -> Result<(Bytes<'_>, Waits), Refusal> {
    let sizes = leading_sizes(table)?;
    if table.len() != 2 * sizes.fields() {
        return Err(Refusal::Length);
    }
    let bytes = Bytes::new(table, sizes);
    check(&bytes).map(|waits| (bytes, waits))
}

/// Reads a table: its N and M.
pub fn read_table(table: &[u8]) -> Result<Sizes, Refusal> {
    accept(table).map(|(bytes, _)| bytes.sizes())
}

/// Writes the table of N processes and a list of from, to pairs to the front of `out`, and
/// gives its length in bytes.
pub fn write_table(n: usize, list: &[u16], out: &mut [u8]) -> Result<usize, Refusal> {
    if list.len() % 2 != 0 {
        return Err(Refusal::OddList);
    }
    let pairs: Parts<_, 2> = Parts::of(list);
    let sizes = Sizes::in_range(n, pairs.len()).ok_or(Refusal::Sizes)?;
    if !list.iter().all(|&end| (1..=n).contains(&usize::from(end))) {
        return Err(Refusal::Ends);
    }
    let mut waits = Waits::none();
    if !pairs.iter().all(|&[from, to]| waits.add(usize::from(from), usize::from(to))) {
        return Err(Refusal::Alike);
    }
    let length = 2 * sizes.fields();
    let out = out.get_mut(..length).ok_or(Refusal::OutputShort)?;
    let (heading, rest) = out.split_at_mut(4);
    let (processes, arcs) = rest.split_at_mut(4 * n);
    put_fields(heading, [n as u16, sizes.m as u16]);
    let mut firsts = [[0; 2]; MOST_PROCESSES];
    for (arc, (&[from, to], record)) in (1..).zip(pairs.iter().zip(arcs.chunks_exact_mut(8))) {
        let first_out = std::mem::replace(&mut firsts[usize::from(from) - 1][0], arc);
        let first_in = std::mem::replace(&mut firsts[usize::from(to) - 1][1], arc);
        put_fields(record, [from, to, first_out, first_in]);
    }
    for (record, firsts) in processes.chunks_exact_mut(4).zip(firsts) {
        put_fields(record, firsts);
    }
    Ok(length)
}

fn put_fields<const K: usize>(out: &mut [u8], fields: [u16; K]) {
    for (bytes, field) in out.chunks_exact_mut(2).zip(fields) {
        bytes.copy_from_slice(&field.to_le_bytes());
    }
}

/// Opens a walk along a chain of a process: the chain's first arc, or 0 if it has none.
pub fn open(table: &[u8], chain: Chain, process: usize) -> Result<usize, Refusal> {
    let (bytes, _) = accept(table)?;
    if !(1..=bytes.sizes().n).contains(&process) {
        return Err(Refusal::Start);
    }
    Ok(bytes.first(chain, process))
}

/// One step of a walk, on any bytes: the arc after `arc`, or 0 for the end.
pub fn next(table: &[u8], chain: Chain, arc: usize) -> usize {
    let &[a, b, c, d, ..] = table else { return 0 };
    let (n, m) = (number(a, b) as usize, number(c, d) as usize);
    if arc == 0 || arc > m {
        return 0;
    }
    let record = 4 + 4 * n + 8 * (arc - 1);
    match table.get(record..record + 8).and_then(|bytes| bytes.first_chunk()) {
        Some(bytes) => arc_of_bytes(bytes).nexts[chain as usize] as usize,
        None => 0,
    }
}
