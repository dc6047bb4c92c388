//! The second sums and counts in the words of an area (02, N3), as far as planted faults mistake them
//! and as they are noted.

use crate::graphs::{Graph, MOST_ARCS, MOST_PROCESSES};
use crate::layout::{ack_word, record_place, Link, MOST_WAITING, SECOND};
use calls::{Answer, Calls, Plain};

/// The waits of a well-formed area.
pub fn graph_in(area: &[i32]) -> Graph {
    let (n, m) = (area[14] as usize, area[15] as usize);
    let arcs = area[16 + 2 * n..].chunks_exact(4).take(m);
    Graph { n, waits: arcs.map(|arc| (arc[0] as usize, arc[1] as usize)).collect() }
}

/// The count and the second count of a word, if it is one of an acknowledgement.
pub fn counts_in(word: i32) -> [i32; 2] {
    [word.rem_euclid(512) - 256, word.div_euclid(512) - 256]
}

/// The second sum of a process of a well-formed area.
pub fn second_place(area: &[i32], process: usize) -> usize {
    record_place(&graph_in(area), process) + SECOND
}

/// The places of second sums and of messages, in any words that have a right N and M and are as many
/// as these need.
pub struct SecondPlaces {
    pub sums: Vec<usize>,
    pub messages: Vec<usize>,
}

impl SecondPlaces {
    pub fn of(area: &[i32]) -> Option<SecondPlaces> {
        let (n, m) = (*area.get(14)? as usize, *area.get(15)? as usize);
        if !(1..=MOST_PROCESSES).contains(&n) || m > MOST_ARCS || area.len() < 8 * n + 20 * m + 16 {
            return None;
        }
        let records = 16 + 2 * n + 4 * m;
        let links = (0..2 * m).map(|link| records + 6 * n + 8 * link);
        Some(SecondPlaces {
            sums: (0..n).map(|process| records + 6 * process + SECOND).collect(),
            messages: links.flat_map(|link| link..link + MOST_WAITING).collect(),
        })
    }
}

/// Whether a sum or count is in its range.
pub fn is_small(sum: i32) -> bool {
    (-128..=128).contains(&sum)
}

/// The message without its second count.
pub fn without_second(word: i32) -> i32 {
    match word {
        0..=2 => word,
        _ => ack_word(counts_in(word)[0], 0),
    }
}

/// The message with its counts in each other's place.
pub fn with_counts_swapped(word: i32) -> i32 {
    match word {
        0..=2 => word,
        _ => ack_word(counts_in(word)[1], counts_in(word)[0]),
    }
}

/// Who gets a message in a pick, as far as rule 2 goes by it.
pub struct Receiver {
    /// What it adds to its second sum.
    pub own: i32,
    /// A suc probe, or a pre probe, sets its flag.
    pub new_suc: bool,
    pub new_pre: bool,
    /// A suc probe finds it succeeding.
    pub again: bool,
    /// It waits for nobody.
    pub for_nobody: bool,
    /// Nobody waits for it.
    pub of_nobody: bool,
}

impl Receiver {
    pub fn of(area: &[i32], link: Link, message: i32) -> Receiver {
        let graph = graph_in(area);
        let flags = area[record_place(&graph, link.to)];
        let for_nobody = graph.waits.iter().all(|&(from, _)| from != link.to);
        let of_nobody = graph.waits.iter().all(|&(_, to)| to != link.to);
        let [new_suc, new_pre] = [message == 1 && flags & 1 == 0, message == 2 && flags & 2 == 0];
        let again = message == 1 && !new_suc;
        let own = i32::from(new_suc && for_nobody);
        Receiver { own, new_suc, new_pre, again, for_nobody, of_nobody }
    }
}

/// An accepted pick in which the receiver's second sum gains so much more in rule 2.
pub fn pick_with_more(
    sound: Answer,
    before: &[i32],
    area: &mut [i32],
    link: Link,
    place: usize,
    more: i32,
) -> Answer {
    let record = record_place(&graph_in(before), link.to);
    if more == 0 || !is_small(before[record + SECOND] + more) {
        return sound;
    }
    // Rule 1 passes on what the sum has been, but not if num is 0.
    if before[record + 2] != 0 {
        area[record + SECOND] += more;
        return sound;
    }
    area.copy_from_slice(before);
    area[record + SECOND] += more;
    Plain.pick(area, link.from, link.to, place)
}
