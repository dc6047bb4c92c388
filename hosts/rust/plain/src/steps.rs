//! Messages, process records and one process's step (01, "Steps"; 002, section 3.3).

use crate::{Refusal, MOST_PROCESSES};

/// A probe's kind.
#[derive(Clone, Copy, Debug, PartialEq, Eq)]
pub enum Probe {
    /// From a process to one that it waits for.
    Suc,
    /// From a process to one that waits for it.
    Pre,
}

/// What an acknowledgement carries: the count of 002, and the "second count .. of reachable processes
/// that wait for nobody" (02, N3).
#[derive(Clone, Copy, Debug, Default, PartialEq, Eq)]
pub struct Counts {
    /// The count.
    pub count: i32,
    /// The second count.
    pub second: i32,
}

/// What waits on a link.
#[derive(Clone, Copy, Debug, PartialEq, Eq)]
pub enum Message {
    /// A suc probe.
    Suc,
    /// A pre probe.
    Pre,
    /// An acknowledgement.
    Ack(Counts),
}

/// The values of one process. A host may lend any numbers; 21 says which are out of range.
#[derive(Clone, Copy, Debug, Default, PartialEq, Eq)]
pub struct Record {
    /// 1 once a suc probe has come, else 0.
    pub succeeding: u32,
    /// 1 once a pre probe has come, else 0.
    pub preceding: u32,
    /// 1 if succeeding was 1 and preceding 0 when the last probe had come, else 0.
    pub subordinate: u32,
    /// The sum of the counts that it has not passed on.
    pub cs: i32,
    /// How many acknowledgements it waits for.
    pub num: u32,
    /// The sender of the last probe that came while num was 0; 0 if none came.
    pub father: u32,
    /// The second sum (02, N3).
    pub second: i32,
}

/// An acknowledgement to send.
#[derive(Clone, Copy, Debug, PartialEq, Eq)]
pub struct Reply {
    /// To whom.
    pub to: u32,
    /// What it carries.
    pub counts: Counts,
}

/// What a step sends.
#[derive(Clone, Copy, Debug, Default, PartialEq, Eq)]
pub struct Sent {
    /// The probes to broadcast, if any: suc to all successors, or pre to all predecessors.
    pub probes: Option<Probe>,
    /// The one acknowledgement, if there is one.
    pub reply: Option<Reply>,
}

const MOST_NUM: u32 = 256;

/// Sums and counts are −128 to 128.
pub(crate) fn is_small(sum: i32) -> bool {
    (-128..=128).contains(&sum)
}

impl Counts {
    /// 02, N3: "it and the second count have cs's range".
    pub(crate) fn are_small(self) -> bool {
        is_small(self.count) && is_small(self.second)
    }
}

impl Record {
    fn is_right(&self) -> bool {
        self.succeeding <= 1
            && self.preceding <= 1
            && self.subordinate <= 1
            && self.sums().are_small()
            && self.num <= MOST_NUM
            && self.father as usize <= MOST_PROCESSES
    }

    fn sums(&self) -> Counts {
        Counts { count: self.cs, second: self.second }
    }

    /// Both sums, for an acknowledgement: "The second sum is passed on and zeroed with cs" (02, N3).
    fn pass_on(&mut self) -> Counts {
        let sums = self.sums();
        (self.cs, self.second) = (0, 0);
        sums
    }

    /// An acknowledgement comes: both sums gain its counts, and num loses 1.
    fn collect(&mut self, counts: Counts) -> Result<(), Refusal> {
        self.cs += counts.count;
        self.second += counts.second;
        self.num = self.num.checked_sub(1).ok_or(Refusal::Range)?;
        Ok(())
    }
}

/// What a process counts for itself in its second sum: 1 if it waits for nobody (02, N3).
pub(crate) fn own_count(waits_for_somebody: bool) -> i32 {
    i32::from(!waits_for_somebody)
}

/// The step of a process other than the start on a lent record: 21, 25, 22.
pub fn step(
    record: &mut Record,
    message: Message,
    out_degree: u32,
    in_degree: u32,
    sender: u32,
) -> Result<Sent, Refusal> {
    let most = MOST_PROCESSES as u32;
    let counts_right = !matches!(message, Message::Ack(counts) if !counts.are_small());
    if !record.is_right() || !counts_right || out_degree > most || in_degree > most {
        return Err(Refusal::Malformed);
    }
    if !(1..=most).contains(&sender) {
        return Err(Refusal::NoLink);
    }
    let mut after = *record;
    let sent = advance(&mut after, message, sender, |probe| match probe {
        Probe::Suc => out_degree,
        Probe::Pre => in_degree,
    })?;
    *record = after;
    Ok(sent)
}

/// The step of a process other than the start, on values in range; 22 leaves `record` unusable.
#[inline]
pub(crate) fn advance(
    record: &mut Record,
    message: Message,
    sender: u32,
    degree: impl FnOnce(Probe) -> u32,
) -> Result<Sent, Refusal> {
    let mut sent = Sent::default();
    match message {
        Message::Ack(counts) => record.collect(counts)?,
        Message::Suc => {
            receive_probe(record, &mut sent, sender);
            if record.succeeding == 0 {
                record.succeeding = 1;
                let successors = degree(Probe::Suc);
                record.num += successors;
                // 02, N3: "Such a process adds 1 when it first becomes succeeding".
                record.second += own_count(successors > 0);
                sent.probes = Some(Probe::Suc);
            }
            judge(record);
        }
        Message::Pre => {
            receive_probe(record, &mut sent, sender);
            if record.preceding == 0 {
                record.preceding = 1;
                record.num += degree(Probe::Pre);
                sent.probes = Some(Probe::Pre);
            }
            judge(record);
        }
    }
    // A sum out of its range is one whether it stays or is sent.
    if !record.sums().are_small() || record.num > MOST_NUM {
        return Err(Refusal::Range);
    }
    if record.num == 0 {
        if record.father == 0 {
            return Err(Refusal::Range);
        }
        sent.reply = Some(Reply { to: record.father, counts: record.pass_on() });
    }
    Ok(sent)
}

/// Rule 1.
fn receive_probe(record: &mut Record, sent: &mut Sent, sender: u32) {
    if record.num == 0 {
        record.father = sender;
    } else {
        sent.reply = Some(Reply { to: sender, counts: record.pass_on() });
    }
}

/// Rule 3.
fn judge(record: &mut Record) {
    let new = u32::from(record.succeeding == 1 && record.preceding == 0);
    record.cs += new as i32 - record.subordinate as i32;
    record.subordinate = new;
}

/// The start's step: it acknowledges every probe with 0 and 0, for its sums are "never" passed on
/// "by the start" (02, N3), and only collects acknowledgements. 23 comes before, so num is not 0.
#[inline]
pub(crate) fn advance_start(
    record: &mut Record,
    message: Message,
    sender: u32,
) -> Result<Option<Reply>, Refusal> {
    match message {
        Message::Suc | Message::Pre => Ok(Some(Reply { to: sender, counts: Counts::default() })),
        Message::Ack(counts) => {
            record.collect(counts)?;
            if record.sums().are_small() {
                Ok(None)
            } else {
                Err(Refusal::Range)
            }
        }
    }
}

#[cfg(test)]
mod tests {
    use super::*;

    fn stepped(
        before: Record,
        message: Message,
        degrees: (u32, u32),
    ) -> (Record, Result<Sent, Refusal>) {
        let mut record = before;
        let answer = step(&mut record, message, degrees.0, degrees.1, 3);
        if answer.is_err() {
            assert_eq!(record, before, "a refusal changes nothing");
        }
        (record, answer)
    }

    const FRESH: Record =
        Record { succeeding: 0, preceding: 0, subordinate: 0, cs: 0, num: 0, father: 0, second: 0 };

    fn ack(count: i32, second: i32) -> Message {
        Message::Ack(Counts { count, second })
    }

    fn reply(to: u32, count: i32, second: i32) -> Option<Reply> {
        Some(Reply { to, counts: Counts { count, second } })
    }

    #[test]
    fn a_first_probe_gives_the_father_and_goes_on() {
        let (record, answer) = stepped(FRESH, Message::Suc, (2, 5));
        assert_eq!(
            record,
            Record { succeeding: 1, subordinate: 1, cs: 1, num: 2, father: 3, ..FRESH }
        );
        assert_eq!(answer, Ok(Sent { probes: Some(Probe::Suc), reply: None }));
    }

    #[test]
    fn at_degree_0_the_probe_is_named_and_the_father_acknowledged() {
        let (record, answer) = stepped(FRESH, Message::Suc, (0, 5));
        assert_eq!(record, Record { succeeding: 1, subordinate: 1, father: 3, ..FRESH });
        assert_eq!(answer, Ok(Sent { probes: Some(Probe::Suc), reply: reply(3, 1, 1) }));
    }

    #[test]
    fn a_later_probe_keeps_the_father_and_may_return_a_negative_count_later() {
        let before = Record { succeeding: 1, subordinate: 1, cs: 1, num: 1, father: 9, ..FRESH };
        let (record, answer) = stepped(before, Message::Pre, (1, 1));
        assert_eq!(record, Record { preceding: 1, subordinate: 0, cs: -1, num: 2, ..before });
        assert_eq!(answer, Ok(Sent { probes: Some(Probe::Pre), reply: reply(3, 1, 0) }));
    }

    /// 02, N3: "Such a process adds 1 when it first becomes succeeding", and for no other message;
    /// who waits for it does not matter.
    #[test]
    fn a_process_that_waits_for_nobody_adds_1_once() {
        for in_degree in [0, 1, 128] {
            for (degree, own) in [(0, 1), (1, 0), (128, 0)] {
                let busy = Record { second: 5, num: 1, father: 9, ..FRESH };
                let degrees = (degree, in_degree);
                let (record, answer) = stepped(busy, Message::Suc, degrees);
                assert_eq!((record.second, answer.unwrap().reply), (own, reply(3, 0, 5)));
                let succeeding = Record { succeeding: 1, subordinate: 1, ..busy };
                let (record, answer) = stepped(succeeding, Message::Suc, degrees);
                assert_eq!((record.second, answer.unwrap().reply), (0, reply(3, 0, 5)));
                let (record, answer) = stepped(busy, Message::Pre, degrees);
                assert_eq!((record.second, answer.unwrap().reply), (0, reply(3, 0, 5)));
                let (record, answer) = stepped(Record { num: 2, ..busy }, ack(0, -3), degrees);
                assert_eq!((record.second, answer.unwrap().reply), (2, None));
            }
        }
    }

    /// "The second sum is passed on and zeroed with cs": by rule 4 too.
    #[test]
    fn both_sums_go_to_the_father() {
        let last = Record { cs: 4, second: -7, num: 1, father: 9, ..FRESH };
        let (record, answer) = stepped(last, ack(-1, 9), (0, 0));
        assert_eq!(record, Record { father: 9, ..FRESH });
        assert_eq!(answer, Ok(Sent { probes: None, reply: reply(9, 3, 2) }));
    }

    /// "so never by the start"
    #[test]
    fn the_start_keeps_its_sums() {
        let mut record = Record { cs: 4, second: 6, num: 2, ..FRESH };
        for probe in [Message::Suc, Message::Pre] {
            let before = record;
            assert_eq!(advance_start(&mut record, probe, 3), Ok(reply(3, 0, 0)));
            assert_eq!(record, before);
        }
        for (num, second) in [(1, 8), (0, 10)] {
            assert_eq!(advance_start(&mut record, ack(0, 2), 3), Ok(None));
            assert_eq!((record.num, record.cs, record.second), (num, 4, second));
        }
    }

    /// "it and the second count have cs's range": 21 for what is lent, 22 for what the step makes.
    #[test]
    fn second_sums_and_counts_have_the_range_of_cs() {
        for wide in [-129, 129, 257, i32::MIN, i32::MAX] {
            let record = Record { second: wide, ..FRESH };
            assert_eq!(stepped(record, Message::Suc, (0, 0)).1, Err(Refusal::Malformed));
            assert_eq!(stepped(FRESH, ack(0, wide), (0, 0)).1, Err(Refusal::Malformed));
        }
        for (sum, count) in [(128, 1), (-128, -1), (1, 128), (-1, -128)] {
            for num in [1, 2] {
                let full = Record { second: sum, num, father: 1, ..FRESH };
                assert_eq!(stepped(full, ack(0, count), (0, 0)).1, Err(Refusal::Range));
                assert!(stepped(full, ack(0, 0), (0, 0)).1.is_ok());
                assert_eq!(advance_start(&mut { full }, ack(0, count), 3), Err(Refusal::Range));
            }
        }
        // A process that waits for nobody adds to the sum that it has, unless rule 1 passes it on.
        let full = Record { second: 128, ..FRESH };
        assert_eq!(stepped(full, Message::Suc, (0, 0)).1, Err(Refusal::Range));
        assert!(stepped(full, Message::Suc, (1, 0)).1.is_ok());
        let (record, answer) = stepped(Record { num: 1, ..full }, Message::Suc, (0, 0));
        assert_eq!((record.second, answer.unwrap().reply), (1, reply(3, 0, 128)));
    }

    #[test]
    fn refusals_come_in_order() {
        let wide = Record { cs: 129, ..FRESH };
        assert_eq!(stepped(wide, Message::Suc, (0, 0)).1, Err(Refusal::Malformed));
        assert_eq!(stepped(FRESH, ack(-129, 0), (0, 0)).1, Err(Refusal::Malformed));
        assert_eq!(stepped(FRESH, Message::Suc, (0, 129)).1, Err(Refusal::Malformed));
        assert_eq!(
            stepped(Record { father: 129, ..FRESH }, Message::Suc, (0, 0)).1,
            Err(Refusal::Malformed)
        );
        assert_eq!(step(&mut { FRESH }, ack(0, 0), 0, 0, 0), Err(Refusal::NoLink));
        assert_eq!(step(&mut { FRESH }, ack(0, 0), 0, 0, 129), Err(Refusal::NoLink));
        assert_eq!(stepped(FRESH, ack(0, 0), (0, 0)).1, Err(Refusal::Range));
        let orphan = Record { num: 1, ..FRESH };
        assert_eq!(stepped(orphan, ack(0, 0), (0, 0)).1, Err(Refusal::Range));
        let full = Record { cs: 128, num: 1, father: 1, ..FRESH };
        assert_eq!(stepped(full, ack(1, 0), (0, 0)).1, Err(Refusal::Range));
        let busy = Record { num: 200, father: 1, ..FRESH };
        assert_eq!(stepped(busy, Message::Suc, (57, 0)).1, Err(Refusal::Range));
        assert!(stepped(busy, Message::Suc, (56, 0)).1.is_ok());
    }
}
