//! The checks that are timed.

use crate::programs;
use crate::rows::Size;
use crate::shapes::{variant, Shape, Waits, VARIANTS};

/// One check on waits of one shape.
pub struct Input {
    pub table: Vec<u8>,
    /// The process with the largest check, and the lowest of these.
    pub start: usize,
    /// The area that a start leaves.
    pub started: Vec<i32>,
    /// The picks, each at place 1, that make the whole check in the fixed order.
    pub picks: Vec<(usize, usize)>,
    /// The area in the middle of the check, where most links have been used.
    pub middle: Vec<i32>,
}

impl Input {
    pub fn new(n: usize, waits: &Waits) -> Input {
        let list: Vec<u16> =
            waits.iter().flat_map(|&(from, to)| [from as u16, to as u16]).collect();
        let size = Size { n, m: waits.len() };
        let mut table = vec![0; 4 + 4 * size.n + 8 * size.m];
        plain::write_table(n, &list, &mut table).expect("the list is right");
        let starts = (1..=n).map(|start| (deliveries(n, waits, start), start));
        let (deliveries, start) = starts.rev().max_by_key(|start| start.0).expect("n is not 0");
        let picks = own_picks(&table, start);
        assert_eq!(picks.len(), deliveries, "a check ends at D");
        let mut started = vec![0; 8 * size.n + 20 * size.m + 16];
        plain::start(&table, start, 1, &mut started).expect("the table is right");
        let mut middle = started.clone();
        plain::run_on(&mut middle, deliveries as u32 / 2);
        Input { table, start, started, picks, middle }
    }

    /// The pick that is next in the middle of the check.
    pub fn middle_pick(&self) -> (usize, usize) {
        self.picks[self.picks.len() / 2]
    }
}

/// All variants of one shape and size.
pub struct Inputs {
    pub shape: &'static str,
    pub size: Size,
    pub variants: Vec<Input>,
}

impl Inputs {
    /// The first so many variants, or all.
    pub fn new(shape: Shape, n: usize, most: usize) -> Inputs {
        let numbers = 0..most.min(VARIANTS);
        let variants: Vec<Input> =
            numbers.map(|number| Input::new(n, &variant(shape, n, number))).collect();
        Inputs { shape: shape.0, size: Size { n, m: 4 * n }, variants }
    }

    pub fn variant(&self, number: usize) -> &Input {
        &self.variants[number % self.variants.len()]
    }

    /// The deliveries of a check, the median of all variants.
    pub fn deliveries(&self) -> usize {
        let mut all: Vec<usize> = self.variants.iter().map(|input| input.picks.len()).collect();
        all.sort();
        all[all.len() / 2]
    }
}

/// D: twice the number of arcs whose from is reachable from the start plus twice the number whose to
/// reaches it (01).
fn deliveries(n: usize, waits: &Waits, start: usize) -> usize {
    let mut ways = [vec![0_u128; n], vec![0_u128; n]];
    for &(from, to) in waits {
        ways[0][from - 1] |= 1 << (to - 1);
        ways[1][to - 1] |= 1 << (from - 1);
    }
    let [reachable, reaching] = ways.map(|next| reached(&next, start));
    let counted = |set: u128, process: usize| usize::from(set >> (process - 1) & 1 != 0);
    let arcs = waits.iter().map(|&(from, to)| counted(reachable, from) + counted(reaching, to));
    2 * arcs.sum::<usize>()
}

/// The processes that are reached from the start by the steps given.
fn reached(next: &[u128], start: usize) -> u128 {
    let (mut found, mut left) = (1 << (start - 1), 1_u128 << (start - 1));
    while left != 0 {
        let process = left.trailing_zeros() as usize;
        left &= left - 1;
        let new = next[process] & !found;
        found |= new;
        left |= new;
    }
    found
}

/// The deliveries that the check program makes by itself.
fn own_picks(table: &[u8], start: usize) -> Vec<(usize, usize)> {
    let mut printed = Vec::new();
    plain::check_program(&programs::input_of(table, start), &mut printed);
    let printed = String::from_utf8(printed).expect("it prints ASCII");
    let own = printed.lines().filter_map(|line| line.strip_prefix("own "));
    let numbers = own.map(|line| {
        let mut fields = line.split(' ').map(|field| field.parse().unwrap_or(0));
        (fields.next().unwrap_or(0), fields.next().unwrap_or(0))
    });
    numbers.collect()
}
