//! The words of a run area (docs/LAYOUT.md) and the test that any words are well formed.

use crate::parts::Parts;
use crate::steps::{is_small, Counts, Message, Record};
use crate::tables::{check, Sizes, Table, Waits, Words};
use crate::{Refusal, MOST_DELIVERIES};

/// Word 0 of an area of the knot check with second sums (02, N3); it was 1 before these.
pub(crate) const KNOT_CHECK: i32 = 2;
pub(crate) const CHECK: usize = 0;
pub(crate) const START: usize = 1;
pub(crate) const DELIVERIES: usize = 2;
pub(crate) const EDITION: usize = 3;
const FREE: std::ops::Range<usize> = 4..14;
/// The words before the table.
pub(crate) const HEADING: usize = 14;

/// Flags, cs, num, father, the second sum, a free word.
pub(crate) type RecordWords = [i32; 6];
pub(crate) type Records<S> = Parts<S, 6>;
/// Four messages, oldest first, then four free words. Arc k has links 2(k − 1), from its from to
/// its to, and 2(k − 1) + 1, which is the link back if there is no arc back.
pub(crate) type Link = [i32; 8];
/// The most messages on a link.
pub(crate) const MOST_WAITING: usize = 4;

/// The rulebook's editions (02, N4), by their numbers.
#[derive(Clone, Copy, PartialEq, Eq)]
pub(crate) enum Edition {
    First = 1,
    Second = 2,
}

impl Edition {
    pub(crate) fn numbered(number: usize) -> Option<Edition> {
        [Edition::First, Edition::Second].into_iter().find(|&edition| edition as usize == number)
    }
}

/// The words that a start needs.
pub fn words_needed(sizes: Sizes) -> usize {
    8 * sizes.n + 20 * sizes.m + 16
}

pub(crate) fn first_link(arc: usize) -> usize {
    2 * (arc - 1)
}

pub(crate) fn second_link(arc: usize) -> usize {
    2 * (arc - 1) + 1
}

/// The word of a message; 0 is no message.
pub(crate) fn code_of(message: Message) -> i32 {
    match message {
        Message::Suc => 1,
        Message::Pre => 2,
        Message::Ack(Counts { count, second }) => (256 + count) + 512 * (256 + second),
    }
}

/// The two counts of a word, if it is an acknowledgement.
#[inline]
fn counts_in(code: i32) -> Counts {
    Counts { count: code.rem_euclid(512) - 256, second: code.div_euclid(512) - 256 }
}

/// The message of a word that is one.
pub(crate) fn message_of(code: i32) -> Message {
    match code {
        1 => Message::Suc,
        2 => Message::Pre,
        _ => Message::Ack(counts_in(code)),
    }
}

fn is_message(code: i32) -> bool {
    (1..=2).contains(&code) || counts_in(code).are_small()
}

/// How many messages wait on a link.
#[inline]
pub(crate) fn load(link: &Link) -> usize {
    link[..MOST_WAITING].iter().position(|&code| code == 0).unwrap_or(MOST_WAITING)
}

/// The link without the message at a place, 1 to its load; the others keep their order.
#[inline]
pub(crate) fn without(link: &Link, place: usize) -> Link {
    let mut after: Link = [0; 8];
    for slot in 0..MOST_WAITING - 1 {
        // Those behind the place move up by one.
        after[slot] = if slot + 1 < place { link[slot] } else { link[slot + 1] };
    }
    after
}

/// The record in words that were tested.
#[inline]
pub(crate) fn record_of(&[flags, cs, num, father, second, _]: &RecordWords) -> Record {
    Record {
        succeeding: (flags & 1) as u32,
        preceding: (flags >> 1 & 1) as u32,
        subordinate: (flags >> 2 & 1) as u32,
        cs,
        num: num as u32,
        father: father as u32,
        second,
    }
}

#[inline]
pub(crate) fn words_of(record: &Record) -> RecordWords {
    let flags = record.succeeding + 2 * record.preceding + 4 * record.subordinate;
    [flags as i32, record.cs, record.num as i32, record.father as i32, record.second, 0]
}

/// The edition that a heading names, as every heading that was tested does.
pub(crate) fn edition_in(heading: &[i32]) -> Option<Edition> {
    Edition::numbered(usize::try_from(heading[EDITION]).ok()?)
}

/// An area in its parts, for reading.
pub(crate) struct Area<'a> {
    pub(crate) heading: &'a [i32],
    pub(crate) table: Words<'a>,
    pub(crate) records: Records<&'a [i32]>,
    /// The two links of each arc.
    links: Parts<&'a [i32], 16>,
}

impl<'a> Area<'a> {
    /// The parts of the needed words.
    fn new(words: &'a [i32], sizes: Sizes) -> Area<'a> {
        let (heading, rest) = words.split_at(HEADING);
        let (table, rest) = rest.split_at(sizes.fields());
        let (records, links) = rest.split_at(6 * sizes.n);
        Area {
            heading,
            table: Words::new(table, sizes.n),
            records: Parts::of(records),
            links: Parts::of(links),
        }
    }

    /// The test of any words: 21 unless every word of the needed ones is as the layout has it.
    pub(crate) fn test(words: &'a [i32]) -> Result<(Area<'a>, Waits), Refusal> {
        Area::tested(words).ok_or(Refusal::Malformed)
    }

    fn tested(words: &'a [i32]) -> Option<(Area<'a>, Waits)> {
        let &[n, m] = words.get(HEADING..)?.first_chunk()?;
        let sizes = Sizes::in_range(usize::try_from(n).ok()?, usize::try_from(m).ok()?)?;
        let area = Area::new(words.get(..words_needed(sizes))?, sizes);
        if !area.heading_right() {
            return None;
        }
        let waits = check(&area.table).ok()?;
        (area.records_right(&waits) && area.links_right(&waits)).then_some((area, waits))
    }

    fn heading_right(&self) -> bool {
        self.heading[CHECK] == KNOT_CHECK
            && (1..=self.records.len() as i32).contains(&self.heading[START])
            && (0..=MOST_DELIVERIES).contains(&self.heading[DELIVERIES])
            && edition_in(self.heading).is_some()
            && all_zero(&self.heading[FREE])
    }

    fn records_right(&self, waits: &Waits) -> bool {
        let n = self.records.len();
        (1..).zip(self.records.iter()).all(|(process, &[flags, cs, num, father, second, free])| {
            let father = father as u32 as usize;
            (0..=7).contains(&flags)
                && is_small(cs)
                && (0..=256).contains(&num)
                && (father == 0 || father <= n && waits.neighbours(process, father))
                && is_small(second)
                && free == 0
        })
    }

    fn links_right(&self, waits: &Waits) -> bool {
        self.links.iter().zip(self.table.arcs()).all(|(pair, arc)| {
            // Most links are empty at most moments.
            if all_zero(pair) {
                return true;
            }
            let links: Parts<&[i32], 8> = Parts::of(pair);
            let (first, second) = (&links[0], &links[1]);
            // A loop is its own arc back.
            let second_used = !waits.waits(arc.to(), arc.from());
            link_right(first) && if second_used { link_right(second) } else { all_zero(second) }
        })
    }
}

fn all_zero(words: &[i32]) -> bool {
    words.iter().fold(0, |all, word| all | word) == 0
}

/// Messages at the front of a link, zeros behind them.
fn link_right(link: &Link) -> bool {
    let (waiting, free) = link.split_at(load(link));
    waiting.iter().all(|&code| is_message(code)) && all_zero(free)
}
