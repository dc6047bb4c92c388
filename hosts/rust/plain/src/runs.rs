//! The calls on a run area: start, pick, running on, also shuffled, the report, reading a record.

use crate::areas::{
    code_of, edition_in, first_link, load, message_of, record_of, second_link, without,
    words_needed, words_of, Area, Edition, Records, CHECK, DELIVERIES, EDITION, HEADING,
    KNOT_CHECK, MOST_WAITING, START,
};
use crate::parts::Parts;
use crate::shuffled::{Counted, State};
use crate::steps::{advance, advance_start, own_count, Message, Probe, Record, Sent};
use crate::tables::{accept, Arc, Chain, Sizes, Table, Waits, Words};
use crate::{Refusal, MOST_DELIVERIES, MOST_PROCESSES};
use std::ops::Deref;

/// How a running on stopped.
#[derive(Clone, Copy, Debug, PartialEq, Eq)]
pub enum Stopped {
    /// The run is over.
    Over,
    /// All deliveries that were asked for are made, and the run is not over.
    Spent,
    /// Refused: 21 or 37 before the first delivery, 24 or 22 at one.
    Refused(Refusal),
}

/// What is said of a run that is over.
#[derive(Clone, Copy, Debug, PartialEq, Eq)]
pub struct Report {
    /// How many deliveries the run took.
    pub deliveries: u32,
    /// The verdict: a knot, or none. "Verdicts are judged by the edition named at start" (02, N4).
    pub knot: bool,
    /// How many processes reachable from the start do not reach it: its cs.
    pub outside: i32,
    /// 02, N1: "escape is the lowest-numbered process with subordinate 1, and 0 only where there is
    /// none".
    pub escape: usize,
    /// The mark: returned, or held. 02, N3: "The report marks returned if the start's second sum is 0,
    /// else held."
    pub returned: bool,
}

/// One delivery.
#[derive(Clone, Copy, Debug, PartialEq, Eq)]
pub struct Delivered {
    /// Who sent it.
    pub from: usize,
    /// To whom.
    pub to: usize,
    /// What was sent.
    pub message: Message,
}

/// How a run finds its links, and what it keeps of them from one delivery to the next.
pub(crate) trait Links {
    /// The link between two neighbours.
    fn find(&self, table: &Words, waits: &Waits, from: usize, to: usize) -> usize;
    fn note_sent(&mut self, from: usize, to: usize);
    fn note_emptied(&mut self, from: usize, to: usize);
}

/// For a single delivery: every link is searched in its chain.
struct Searched;

impl Links for Searched {
    fn find(&self, table: &Words, waits: &Waits, from: usize, to: usize) -> usize {
        let arc_between = |from, to| {
            let mut chain = table.chain(Chain::Out, from);
            let found = chain.find(|(_, arc)| arc.to() == to);
            found.expect("one waits for the other, in an accepted table").0
        };
        if waits.waits(from, to) {
            first_link(arc_between(from, to))
        } else {
            second_link(arc_between(to, from))
        }
    }
    fn note_sent(&mut self, _: usize, _: usize) {}
    fn note_emptied(&mut self, _: usize, _: usize) {}
}

/// For many deliveries: where every link is, and which links hold a message.
pub(crate) struct Indexed {
    places: [[u16; MOST_PROCESSES]; MOST_PROCESSES],
    /// Bit p − 1 of row q − 1: a message waits on the link from p to q.
    senders: [u128; MOST_PROCESSES],
    /// Bit q − 1: row q − 1 is not 0.
    receivers: u128,
}

impl Links for Indexed {
    fn find(&self, _: &Words, _: &Waits, from: usize, to: usize) -> usize {
        usize::from(self.places[from - 1][to - 1])
    }
    fn note_sent(&mut self, from: usize, to: usize) {
        self.senders[to - 1] |= 1 << (from - 1);
        self.receivers |= 1 << (to - 1);
    }
    fn note_emptied(&mut self, from: usize, to: usize) {
        self.senders[to - 1] &= !(1 << (from - 1));
        if self.senders[to - 1] == 0 {
            self.receivers &= !(1 << (to - 1));
        }
    }
}

impl Indexed {
    pub(crate) fn new(run: &Run) -> Indexed {
        let mut links = Indexed {
            places: [[0; MOST_PROCESSES]; MOST_PROCESSES],
            senders: [0; MOST_PROCESSES],
            receivers: 0,
        };
        for (number, arc) in (1..).zip(run.table.arcs()) {
            let (from, to) = (arc.from(), arc.to());
            links.add(run, from, to, first_link(number));
            if !run.waits.waits(to, from) {
                links.add(run, to, from, second_link(number));
            }
        }
        links
    }

    /// Row q − 1 has the senders to q.
    pub(crate) fn senders(&self) -> &[u128; MOST_PROCESSES] {
        &self.senders
    }

    /// Whether a message waits on a link.
    pub(crate) fn holds(&self, from: usize, to: usize) -> bool {
        self.senders[to - 1] >> (from - 1) & 1 != 0
    }

    fn add(&mut self, run: &Run, from: usize, to: usize, link: usize) {
        self.places[from - 1][to - 1] = link as u16;
        if run.links[link][0] != 0 {
            self.note_sent(from, to);
        }
    }

    /// The first link with a message, as its sender and its receiver: "The fixed order becomes
    /// lowest receiver first and then lowest sender" (02, N11).
    pub(crate) fn lowest(&self) -> Option<(usize, usize)> {
        if self.receivers == 0 {
            return None;
        }
        let to = self.receivers.trailing_zeros() as usize;
        let from = self.senders[to].trailing_zeros() as usize;
        Some((from + 1, to + 1))
    }
}

/// What a check begins with.
pub(crate) struct Beginning<'a> {
    table: &'a [u8],
    pub(crate) sizes: Sizes,
    waits: Waits,
    start: usize,
    edition: Edition,
}

impl<'a> Beginning<'a> {
    /// Checks 1 to 8, then 30.
    pub(crate) fn accept(
        table: &'a [u8],
        start: usize,
        edition: usize,
    ) -> Result<Beginning<'a>, Refusal> {
        let (bytes, waits) = accept(table)?;
        let sizes = bytes.sizes();
        if !(1..=sizes.n).contains(&start) {
            return Err(Refusal::Start);
        }
        let edition = Edition::numbered(edition).ok_or(Refusal::NoEdition)?;
        Ok(Beginning { table, sizes, waits, start, edition })
    }
}

/// A well-formed area in its parts.
pub(crate) struct Run<'a> {
    heading: &'a mut [i32],
    table: Words<'a>,
    records: Records<&'a mut [i32]>,
    links: Parts<&'a mut [i32], 8>,
    waits: Waits,
}

impl<'a> Run<'a> {
    /// The parts of the needed words, which are well formed.
    fn new(words: &'a mut [i32], sizes: Sizes, waits: Waits) -> Run<'a> {
        let (heading, rest) = words.split_at_mut(HEADING);
        let (table, rest) = rest.split_at_mut(sizes.fields());
        let (records, links) = rest.split_at_mut(6 * sizes.n);
        Run {
            heading,
            table: Words::new(table, sizes.n),
            records: Parts::of(records),
            links: Parts::of(links),
            waits,
        }
    }

    fn test(words: &'a mut [i32]) -> Result<Run<'a>, Refusal> {
        let (area, waits) = Area::test(words)?;
        let sizes = area.table.sizes();
        Ok(Run::new(&mut words[..words_needed(sizes)], sizes, waits))
    }

    /// Starts a check in the needed words.
    pub(crate) fn begin(words: &'a mut [i32], beginning: Beginning) -> Run<'a> {
        let Beginning { table, sizes, waits, start, edition } = beginning;
        words.fill(0);
        words[CHECK] = KNOT_CHECK;
        words[START] = start as i32;
        words[EDITION] = edition as i32;
        for (word, field) in words[HEADING..].iter_mut().zip(Parts::of(table).iter()) {
            *word = i32::from(u16::from_le_bytes(*field));
        }
        let mut run = Run::new(words, sizes, waits);
        let mut num = run.broadcast(&mut Searched, start, Probe::Suc);
        num += run.broadcast(&mut Searched, start, Probe::Pre);
        // 02, N3: "the start adds its own at once".
        let second = own_count(run.waits.has_successor(start));
        let record = Record { succeeding: 1, preceding: 1, num, second, ..Record::default() };
        run.records[start - 1] = words_of(&record);
        run
    }

    fn start(&self) -> usize {
        self.heading[START] as usize
    }

    pub(crate) fn is_over(&self) -> bool {
        record_of(&self.records[self.start() - 1]).num == 0
    }

    /// A pick after 21: 25, 23, 24, 31, 22.
    pub(crate) fn pick(
        &mut self,
        links: &mut impl Links,
        from: usize,
        to: usize,
        place: usize,
    ) -> Result<Message, Refusal> {
        let processes = 1..=self.records.len();
        if !processes.contains(&from)
            || !processes.contains(&to)
            || !self.waits.neighbours(from, to)
        {
            return Err(Refusal::NoLink);
        }
        if self.is_over() {
            return Err(Refusal::Over);
        }
        let link = links.find(&self.table, &self.waits, from, to);
        let waiting = load(&self.links[link]);
        if waiting == 0 {
            return Err(Refusal::Nothing);
        }
        if !(1..=waiting).contains(&place) {
            return Err(Refusal::NoPlace);
        }
        self.deliver(links, from, to, link, place)
    }

    /// Delivers the message at a place of a link where one waits, while the run is not over: 22.
    /// "A pick may name a place, 1 for the oldest message, and that message is taken out of the
    /// middle" (02, N5).
    fn deliver(
        &mut self,
        links: &mut impl Links,
        from: usize,
        to: usize,
        link: usize,
        place: usize,
    ) -> Result<Message, Refusal> {
        if self.heading[DELIVERIES] == MOST_DELIVERIES {
            return Err(Refusal::Range);
        }
        let before = self.links[link];
        let message = message_of(before[place - 1]);
        let mut record = record_of(&self.records[to - 1]);
        let sent = if to == self.start() {
            let reply = advance_start(&mut record, message, from as u32)?;
            Sent { probes: None, reply }
        } else {
            let degree = |probe| self.table.chain(chain_of(probe), to).count() as u32;
            advance(&mut record, message, from as u32, degree)?
        };
        let reply_link =
            sent.reply.map(|reply| links.find(&self.table, &self.waits, to, reply.to as usize));
        let after = without(&before, place);
        self.links[link] = after;
        if !self.has_room(links, to, sent.probes, reply_link) {
            self.links[link] = before;
            return Err(Refusal::Range);
        }
        self.heading[DELIVERIES] += 1;
        self.records[to - 1] = words_of(&record);
        if after[0] == 0 {
            links.note_emptied(from, to);
        }
        if let (Some(reply), Some(link)) = (sent.reply, reply_link) {
            self.send(link, Message::Ack(reply.counts));
            links.note_sent(to, reply.to as usize);
        }
        if let Some(probe) = sent.probes {
            self.broadcast(links, to, probe);
        }
        Ok(message)
    }

    /// Whether every link that the step sends on stays within four messages.
    fn has_room(
        &self,
        links: &impl Links,
        from: usize,
        probes: Option<Probe>,
        reply_link: Option<usize>,
    ) -> bool {
        let has_room = |link: usize, messages| load(&self.links[link]) + messages <= MOST_WAITING;
        let reply_fits = reply_link.is_none_or(|link| has_room(link, 1));
        let probes_fit = probes.is_none_or(|probe| {
            self.table.chain(chain_of(probe), from).all(|(number, arc)| {
                let (link, _) = self.probe_link(links, probe, number, arc);
                has_room(link, 1 + usize::from(reply_link == Some(link)))
            })
        });
        reply_fits && probes_fit
    }

    /// Sends probes along a chain: suc to successors, pre to predecessors. Gives their number.
    fn broadcast(&mut self, links: &mut impl Links, from: usize, probe: Probe) -> u32 {
        let message = match probe {
            Probe::Suc => Message::Suc,
            Probe::Pre => Message::Pre,
        };
        let table = self.table;
        let mut sent = 0;
        for (number, arc) in table.chain(chain_of(probe), from) {
            let (link, to) = self.probe_link(links, probe, number, arc);
            self.send(link, message);
            links.note_sent(from, to);
            sent += 1;
        }
        sent
    }

    fn send(&mut self, link: usize, message: Message) {
        let link = &mut self.links[link];
        link[load(link)] = code_of(message);
    }

    /// The link and the receiver of a probe sent along an arc.
    fn probe_link(
        &self,
        links: &impl Links,
        probe: Probe,
        number: usize,
        arc: Arc,
    ) -> (usize, usize) {
        let (from, to) = (arc.from(), arc.to());
        match probe {
            Probe::Suc => (first_link(number), to),
            Probe::Pre if self.waits.waits(to, from) => {
                (links.find(&self.table, &self.waits, to, from), from)
            }
            Probe::Pre => (second_link(number), from),
        }
    }

    /// A delivery on the link that is chosen, as its sender and its receiver, or on none if no message
    /// waits, while the run is not over: 24, 22.
    pub(crate) fn deliver_chosen<L: Links>(
        &mut self,
        links: &mut L,
        choose: impl FnOnce(&L) -> Option<(usize, usize)>,
    ) -> Result<Delivered, Refusal> {
        let (from, to) = choose(links).ok_or(Refusal::Nothing)?;
        let link = links.find(&self.table, &self.waits, from, to);
        // Running on names no place and takes the oldest.
        let message = self.deliver(links, from, to, link, 1)?;
        Ok(Delivered { from, to, message })
    }

    /// Running on after 21, and 37 if it is shuffled: over, spent, 24, 22.
    fn run_on<L: Links>(
        &mut self,
        k: u32,
        links: fn(&Run) -> L,
        mut choose: impl FnMut(&L) -> Option<(usize, usize)>,
    ) -> (Stopped, u32) {
        if self.is_over() {
            return (Stopped::Over, 0);
        }
        if k == 0 {
            return (Stopped::Spent, 0);
        }
        let mut links = links(self);
        let mut made = 0;
        loop {
            if let Err(refusal) = self.deliver_chosen(&mut links, &mut choose) {
                return (Stopped::Refused(refusal), made);
            }
            made += 1;
            if self.is_over() {
                return (Stopped::Over, made);
            }
            if made == k {
                return (Stopped::Spent, made);
            }
        }
    }

    pub(crate) fn records(&self) -> impl Iterator<Item = Record> + '_ {
        self.records.iter().map(record_of)
    }

    pub(crate) fn report(&self) -> Result<Report, Refusal> {
        report_of(self.heading, &self.records, &self.waits)
    }
}

/// Suc probes go along the out-chain, pre probes along the in-chain.
fn chain_of(probe: Probe) -> Chain {
    match probe {
        Probe::Suc => Chain::Out,
        Probe::Pre => Chain::In,
    }
}

fn report_of(
    heading: &[i32],
    records: &Records<impl Deref<Target = [i32]>>,
    waits: &Waits,
) -> Result<Report, Refusal> {
    let start = heading[START] as usize;
    let Record { cs, num, second, .. } = record_of(&records[start - 1]);
    if num != 0 {
        return Err(Refusal::NotOver);
    }
    let escape = records.iter().position(|words| record_of(words).subordinate == 1);
    // 02, N4: under the second edition, "in addition, at least one process must be reachable by one
    // arc or more". The way there begins with an arc that leaves the start; "a loop is enough".
    let by_an_arc = waits.has_successor(start);
    let knot = cs == 0 && (edition_in(heading) == Some(Edition::First) || by_an_arc);
    Ok(Report {
        deliveries: heading[DELIVERIES] as u32,
        knot,
        outside: cs,
        escape: escape.map_or(0, |place| place + 1),
        returned: second == 0,
    })
}

/// Starts a check in the front words of `area`, under edition 1 or 2: 1 to 8, 30, 9.
pub fn start(table: &[u8], start: usize, edition: usize, area: &mut [i32]) -> Result<(), Refusal> {
    let beginning = Beginning::accept(table, start, edition)?;
    let words = area.get_mut(..words_needed(beginning.sizes)).ok_or(Refusal::AreaShort)?;
    Run::begin(words, beginning);
    Ok(())
}

/// Delivers the message at a place of the link between two processes, 1 for the oldest:
/// 21, 25, 23, 24, 31, 22.
pub fn pick(area: &mut [i32], from: usize, to: usize, place: usize) -> Result<Message, Refusal> {
    Run::test(area)?.pick(&mut Searched, from, to, place)
}

/// Makes up to k deliveries in the fixed order (02, N11: lowest receiver first and then lowest
/// sender), and gives how it stopped and how many it made.
pub fn run_on(area: &mut [i32], k: u32) -> (Stopped, u32) {
    match Run::test(area) {
        Ok(mut run) => run.run_on(k, Indexed::new, Indexed::lowest),
        Err(refusal) => (Stopped::Refused(refusal), 0),
    }
}

/// Makes up to k deliveries in the order that a seed gives (02, N13), and gives how it stopped and how
/// many it made. "It refuses seed 0 with 37, after 21." Each call begins from its own seed.
pub fn run_shuffled(area: &mut [i32], k: u32, seed: u32) -> (Stopped, u32) {
    let begun = Run::test(area).and_then(|run| Ok((run, State::begin(seed)?)));
    match begun {
        Ok((mut run, mut state)) => run.run_on(k, Counted::new, |links| links.picked(&mut state)),
        Err(refusal) => (Stopped::Refused(refusal), 0),
    }
}

/// The report of a run that is over: 21, 26.
pub fn report(area: &[i32]) -> Result<Report, Refusal> {
    let (area, waits) = Area::test(area)?;
    report_of(area.heading, &area.records, &waits)
}

/// The record of one process: 21, 25.
pub fn read_record(area: &[i32], process: usize) -> Result<Record, Refusal> {
    let (area, _) = Area::test(area)?;
    if !(1..=area.records.len()).contains(&process) {
        return Err(Refusal::NoLink);
    }
    Ok(record_of(&area.records[process - 1]))
}
