//! The comparison finds what it should: the plain Rust with one fault planted, of each kind that
//! a call can have, is told apart from the plain Rust, and the call is named.

use crate::driver::Driver;
use crate::families::{
    COUNTS, EDITIONS, NO_SEED, OTHER_EDITIONS, OTHER_EDITION_WORDS, PLACES, SEEDS, SUMS,
};
use crate::graphs::Graph;
use crate::layout::{ack_word, Link, EDITION, MOST_WAITING};
use crate::running::{
    links_in, run_on_by_picks, run_shuffled_by_picks, LastShuffle, ORDER_FAULTS, SHUFFLE_FAULTS,
};
use crate::seconds::{
    counts_in, graph_in, is_small, pick_with_more, second_place, with_counts_swapped,
    without_second, Receiver, SecondPlaces,
};
use crate::{compare, Options};
use calls::{Answer, Calls, LentRecord, Plain, Received};
use std::cell::{Cell, RefCell};
use std::collections::BTreeSet;

#[derive(Clone, Copy, Debug, PartialEq)]
pub enum Fault {
    Sound,
    /// No fault: running on is made by picks, shuffled or not.
    SoundByPicks,
    ReadGivesAnotherM,
    ReadTakes7Before6,
    ReadLeavesNWhenRefused,
    ReadWritesIntoTheTable,
    WriterTouchesABytePastTheTable,
    WriterTakes11First,
    OpenNamesTheNextArc,
    NextReadsOverM,
    StartTouchesASurplusWord,
    StartLeavesOutPreceding,
    StartRefusesAll,
    StartTakes30BeforeTheTable,
    StartTakes30Before8,
    StartTakes30After9,
    StartTakesOtherEditionsForTheSecond,
    StartCutsEditionsTo16Bits,
    StartCutsEditionsTo32Bits,
    StartAlwaysKeepsTheFirstEdition,
    StartWritesWhenTheEditionIsRefused,
    StartForgetsItsOwn,
    StartAlwaysCountsItself,
    StartCountsItselfIfNobodyWaitsForIt,
    PickTakes24Before23,
    PickWritesWhenRefused,
    PickGivesCountsUnsigned,
    PickLeavesTheRunUntouched,
    PickTakesTheOldestAtEveryPlace,
    PickLosesTheMessagesBehind,
    PickTurnsTheMessagesBehindRound,
    PickPutsTheLastInTheGap,
    PickAnswersWithTheOldest,
    PickTakes31Before25,
    PickTakes31Before23,
    PickTakes31Before24,
    PickTakes31After22,
    PickTakesAPlaceBeyondAsTheLast,
    PickTakesPlace0AsTheOldest,
    PickCutsPlacesTo32Bits,
    PickWritesWhenThePlaceIsRefused,
    PickGivesAKindWhenThePlaceIsRefused,
    PickForgetsTheEdition,
    PickAddsAgainAtAPreProbe,
    PickAddsAtEverySucProbe,
    PickNeverAdds,
    PickCountsWhomNobodyWaitsFor,
    PickKeepsTheSecondSum,
    PickZeroesTheSecondSumOfTheStart,
    PickPassesOnTheSecondSumOfTheStart,
    PickDropsTheSecondCount,
    PickSwapsTheCounts,
    PickAnswersWithoutTheSecondCount,
    PickGivesSecondCountsUnsigned,
    PickLetsTheSecondSumLeaveItsRange,
    RunForgetsTheEdition,
    RunDropsSecondCounts,
    RunTakesTheNewest,
    RunTakesOnlyItsFirstStep,
    RunForgetsMadeWhenRefused,
    RunSaysOverForSpent,
    RunUndoesItsDeliveriesWhenRefused,
    RunTakesSendersFirst,
    RunTakesTheHighestSender,
    /// To a receiver under the last one, though a message waits for it, until none is left above.
    RunNeverGoesDown,
    /// One link to it is empty, though a message waits on another.
    RunForgetsAReceiverAfterOneLink,
    RunTakesALinkThatFellEmpty,
    /// The link to itself is empty before the receiver sends on it.
    RunForgetsWhatALoopSends,
    ShuffleKeepsTheFixedOrder,
    /// Right 17 before left 13.
    ShuffleShiftsRightFirst,
    /// Left 5 in the place of left 13, and left 13 in the place of left 5.
    ShuffleShiftsLeft5First,
    ShuffleShiftsRightWithTheSign,
    /// The state has 64 bits.
    ShuffleKeepsBitsPast32,
    /// Left shifts are rotations.
    ShuffleBringsBitsPast32Back,
    ShufflePicksBeforeItMovesOn,
    /// All deliveries of a call are by one state.
    ShuffleMovesOnOnce,
    /// Only the first call begins from its seed.
    ShuffleGoesOnFromTheCallBefore,
    /// A call from the seed of the call before goes on where that one ended.
    ShuffleHandsItsStateOnUnderOneSeed,
    ShuffleCountsFrom1,
    ShuffleTakesSendersFirst,
    ShuffleTakesTheHighestReceiver,
    ShuffleTakesTheHighestSender,
    /// The state modulo the number of receivers for whom a message waits.
    ShuffleCountsReceivers,
    /// The state modulo the number of all links.
    ShuffleCountsAllLinks,
    /// The state modulo the number of messages.
    ShuffleCountsMessages,
    /// The lowest sender to it goes.
    ShufflePicksAReceiverOnly,
    ShuffleTakesTheNewest,
    /// From seed 0, whose states are all 0.
    ShuffleTakesSeed0,
    ShuffleTakesSeed0ForSeed1,
    ShuffleTakes37Before21,
    ShuffleTakesOverBefore37,
    ShuffleTakesSpentBefore37,
    ShuffleForgetsTheEdition,
    ShuffleForgetsMadeWhenRefused,
    ShuffleUndoesItsDeliveriesWhenRefused,
    ShuffleSaysOverWhenTheSeedIsRefused,
    ShuffleWritesWhenTheSeedIsRefused,
    ReportHasAFixedVerdict,
    ReportNamesTheStartAsEscape,
    ReportNamesNoEscape,
    ReportNamesTheHighestEscape,
    ReportPassesOverProcess1,
    ReportNamesTheLowestSucceeding,
    ReportCountsOneMore,
    ReportWritesIntoTheArea,
    ReportJudgesTheFirstEditionAsTheSecond,
    ReportJudgesTheSecondEditionAsTheFirst,
    ReportCountsTheStartAsReached,
    ReportLeavesOutLoops,
    ReportCountsAPredecessorAsReached,
    ReportJudgesByTheWaitsOfProcess1,
    ReportMakesOutside1WithoutAKnot,
    ReportMarksByTheSumAlone,
    ReportMarksByTheVerdict,
    ReportMarksNegativeSumsReturned,
    ReportMarksByProcess1,
    ReportMarksByEverySecondSum,
    RecordHasNoFather,
    RecordHasNoSecondSum,
    RecordTakes25First,
    AreaEditionsAreNotTested,
    AreaEdition0IsTheFirst,
    FreeWordsAreNotTested,
    FreeWordsOfRecordsAreNotTested,
    SecondSumsAreNotTested,
    SecondSum129IsTaken,
    FirstCountsAreNotTested,
    SecondCountsAreNotTested,
    OneCountIsTaken,
    SurplusWordsAreTested,
    StepNamesNoProbesAtDegree0,
    StepChangesTheRecordWhenRefused,
    StepTakesOtherKindsForAcknowledgements,
    StepAddsAgainAtAPreProbe,
    StepCountsWhomNobodyWaitsFor,
    StepKeepsTheSecondSum,
    StepDropsTheSecondCount,
    StepTakesASecondSumOf129,
    StepTakesASecondCountOf129,
    StepTestsTheSecondCountOfAProbe,
    StepLetsTheSecondSumLeaveItsRange,
}
use Fault::*;

/// Places among the values of reading a record, which a step gives too.
const SUCCEEDING: usize = 0;
const SUBORDINATE: usize = 2;
const NUM: usize = 4;
const FATHER: usize = 5;
const SECOND_SUM: usize = 6;

/// Places among the values of a step.
const PROBES: usize = 7;
const REPLY_SECOND: usize = 10;

/// The first of these processes whose record has the flag, or 0.
fn first_with(flag: usize, area: &mut [i32], mut processes: impl Iterator<Item = usize>) -> i64 {
    let first = processes.find(|&process| Plain.read_record(area, process).values[flag] == 1);
    first.map_or(0, |process| process as i64)
}

fn is_edition(number: usize) -> bool {
    EDITIONS.contains(&number)
}

fn names_edition(word: i32) -> bool {
    is_edition(word as usize)
}

/// An accepted report: the edition, N, the waits, the start, and the values.
type Judged = (i32, usize, Vec<(usize, usize)>, i32, [i64; 5]);

/// What was called. Noted by the sound one only.
#[derive(Default)]
struct Noted {
    /// Of starts on a table that is accepted: the edition, whether the start is a process, whether
    /// the area is long enough, and the number that was given.
    starts: BTreeSet<(usize, bool, bool, u32)>,
    /// Of picks that were not refused with 21, 25 or 23: how many messages waited on the link, the
    /// place, and the number that was given.
    picks: BTreeSet<(usize, usize, u32)>,
    /// Of accepted runnings on that made one delivery: whether the order before 02, N11 has another
    /// link, whether another sender's message waits for the receiver, and whether the link is a loop.
    deliveries: BTreeSet<[bool; 3]>,
    /// Of shuffled runs from one of `SEEDS`: the seed, whether the run was over before, whether none was
    /// asked for, and the number that was given.
    seeds: BTreeSet<(u32, bool, bool, u32)>,
    /// Of accepted shuffled runs that made one delivery: how many links had a message, and which of them,
    /// counted from 0 in N11's order, the delivery was on.
    ranks: BTreeSet<(usize, usize)>,
    /// On areas of one to three processes.
    reports: BTreeSet<Judged>,
    /// Of calls on an area that would be well formed with an edition: the call, the word in the
    /// edition's place, and whether it was refused with 21.
    editions: BTreeSet<(&'static str, i32, bool)>,
    /// The same with a second sum.
    sums: BTreeSet<(&'static str, i32, bool)>,
    /// The same with a message, by its two counts.
    counts: BTreeSet<(&'static str, [i32; 2], bool)>,
    /// Of steps by an acknowledgement that would be in range with other second numbers: the second
    /// sum, the second count, and whether it was refused with 21.
    steps: BTreeSet<(i32, i32, bool)>,
}

/// The plain Rust with a fault.
struct Planted {
    fault: Fault,
    noted: RefCell<Noted>,
    last_shuffle: Cell<LastShuffle>,
}

impl Planted {
    fn new(fault: Fault) -> Planted {
        Planted { fault, noted: RefCell::default(), last_shuffle: Cell::default() }
    }

    fn has(&self, fault: Fault) -> bool {
        self.fault == fault
    }

    /// Whether the fault is one of second sums in a pick.
    fn has_to_do_with_sums(&self) -> bool {
        let faults = [
            PickAddsAgainAtAPreProbe,
            PickAddsAtEverySucProbe,
            PickNeverAdds,
            PickCountsWhomNobodyWaitsFor,
            PickKeepsTheSecondSum,
            PickZeroesTheSecondSumOfTheStart,
            PickPassesOnTheSecondSumOfTheStart,
            PickLetsTheSecondSumLeaveItsRange,
        ];
        faults.contains(&self.fault)
    }

    /// What the fault makes of a pick on a link, for which the plain Rust gives `sound` and leaves
    /// `area`.
    fn pick_on_link(
        &self,
        sound: Answer,
        before: &[i32],
        area: &mut [i32],
        link: Link,
        place: usize,
    ) -> Answer {
        let load = link.load(before);
        let mut pick_instead = |place: usize, change: fn(&mut [i32], usize)| {
            area.copy_from_slice(before);
            let messages = &mut area[link.place..link.place + load];
            change(messages, place);
            Plain.pick(area, link.from, link.to, place)
        };
        match (self.fault, sound.number) {
            (PickTakesTheOldestAtEveryPlace, 0 | 22) => pick_instead(1, |_, _| {}),
            (PickLosesTheMessagesBehind, 0) => {
                pick_instead(place, |messages, place| messages[place..].fill(0))
            }
            (PickTurnsTheMessagesBehindRound, 0) => {
                pick_instead(place, |messages, place| messages[place..].reverse())
            }
            (PickPutsTheLastInTheGap, 0) if place < load => {
                pick_instead(place, |messages, place| messages[place..].rotate_right(1))
            }
            (PickAnswersWithTheOldest, 0) => match before[link.place] {
                probe @ 1..=2 => Answer::new(0, [probe.into()]),
                acknowledgement => {
                    let [count, second] = counts_in(acknowledgement);
                    Answer::new(0, [3, count.into(), second.into()])
                }
            },
            (PickDropsTheSecondCount, 0) => pick_instead(place, |messages, place| {
                messages[place - 1] = without_second(messages[place - 1])
            }),
            (PickSwapsTheCounts, 0) => pick_instead(place, |messages, place| {
                messages[place - 1] = with_counts_swapped(messages[place - 1])
            }),
            (PickTakes31Before24, 24) if place == 0 => Answer::new(31, []),
            (PickTakes31After22, 31) if before[2] == 2048 => Answer::new(22, []),
            (PickTakesAPlaceBeyondAsTheLast, 31) if place > load => pick_instead(load, |_, _| {}),
            (PickTakesPlace0AsTheOldest, 31) if place == 0 => pick_instead(1, |_, _| {}),
            (PickCutsPlacesTo32Bits, 31) => pick_instead(place as u32 as usize, |_, _| {}),
            (PickWritesWhenThePlaceIsRefused, 31) => {
                area[link.place..link.place + MOST_WAITING].rotate_left(1);
                sound
            }
            (PickGivesAKindWhenThePlaceIsRefused, 31) => Answer::new(31, [1]),
            _ => sound,
        }
    }

    /// What the fault makes of the second sums (02, N3) in a pick that the plain Rust accepts or
    /// refuses with 22, and for which it gives `sound` and leaves `area`.
    fn pick_with_sums(
        &self,
        sound: Answer,
        before: &[i32],
        area: &mut [i32],
        link: Link,
        place: usize,
    ) -> Answer {
        let second = second_place(before, link.to);
        let message = before[link.place + place - 1];
        let to_start = link.to == before[1] as usize;
        match (self.fault, sound.number) {
            (PickKeepsTheSecondSum, 0) if !to_start => {
                let received = if message > 2 { counts_in(message)[1] } else { 0 };
                let own = Receiver::of(before, link, message).own;
                area[second] = before[second] + received + own;
                sound
            }
            (PickZeroesTheSecondSumOfTheStart, 0) if to_start && message <= 2 => {
                area[second] = 0;
                sound
            }
            (PickPassesOnTheSecondSumOfTheStart, 0) if to_start && message <= 2 => {
                let back = links_in(area)
                    .into_iter()
                    .find(|back| (back.from, back.to) == (link.to, link.from))
                    .expect("links go both ways");
                let acknowledgement = back.place + back.load(area) - 1;
                area[acknowledgement] = ack_word(0, before[second]);
                sound
            }
            (PickLetsTheSecondSumLeaveItsRange, 22) => {
                area[second] = 0;
                let unbounded = Plain.pick(area, link.from, link.to, place);
                if unbounded.number != 0 {
                    area.copy_from_slice(before);
                }
                unbounded
            }
            (_, 0) if !to_start => {
                let more = self.miscounted(&Receiver::of(before, link, message));
                pick_with_more(sound, before, area, link, place, more)
            }
            _ => sound,
        }
    }

    /// The second sum that a faulty test of a step takes for another one.
    fn mistaken_sum(&self, second: i32, number: u32) -> Option<i32> {
        match (self.fault, number) {
            (StepTakesASecondSumOf129, 21) if second == 129 => Some(128),
            (StepLetsTheSecondSumLeaveItsRange, 22) => Some(0),
            _ => None,
        }
    }

    /// By how much a fault of rule 2 makes the second sum larger.
    fn miscounted(&self, receiver: &Receiver) -> i32 {
        let &Receiver { own, new_suc, new_pre, again, for_nobody, of_nobody } = receiver;
        match self.fault {
            PickAddsAgainAtAPreProbe if new_pre => i32::from(for_nobody),
            PickAddsAtEverySucProbe if again => i32::from(for_nobody),
            PickNeverAdds => -own,
            PickCountsWhomNobodyWaitsFor if new_suc => i32::from(of_nobody && !for_nobody),
            _ => 0,
        }
    }

    /// A word that a faulty test of areas takes for another one.
    fn mistaken_word(&self, area: &[i32]) -> Option<(usize, i32)> {
        let edition = *area.get(EDITION)?;
        match self.fault {
            FreeWordsAreNotTested if area.len() > 13 => Some((13, 0)),
            AreaEditionsAreNotTested if !names_edition(edition) => Some((EDITION, 1)),
            AreaEdition0IsTheFirst if edition == 0 => Some((EDITION, 1)),
            _ => self.mistaken_second(area),
        }
    }

    /// The same for the words of records and links.
    fn mistaken_second(&self, area: &[i32]) -> Option<(usize, i32)> {
        let SecondPlaces { sums, messages } = SecondPlaces::of(area)?;
        let first = |places: Vec<usize>, is: &dyn Fn(i32) -> bool, instead: fn(i32) -> i32| {
            let place = places.into_iter().find(|&place| is(area[place]))?;
            Some((place, instead(area[place])))
        };
        match self.fault {
            FreeWordsOfRecordsAreNotTested => {
                first(sums.iter().map(|sum| sum + 1).collect(), &|word| word != 0, |_| 0)
            }
            SecondSumsAreNotTested => first(sums, &|sum| !is_small(sum), |_| 0),
            SecondSum129IsTaken => first(sums, &|sum| sum == 129, |_| 128),
            FirstCountsAreNotTested => {
                first(messages, &|word| counts_in(word).map(is_small) == [false, true], |word| {
                    ack_word(0, counts_in(word)[1])
                })
            }
            SecondCountsAreNotTested => first(
                messages,
                &|word| word > 2 && counts_in(word).map(is_small) == [true, false],
                without_second,
            ),
            OneCountIsTaken => {
                first(messages, &|word| (128..=384).contains(&word), |word| ack_word(word - 256, 0))
            }
            _ => None,
        }
    }

    /// The area as a library with a faulty test of areas would see it.
    fn seen(
        &self,
        name: &'static str,
        area: &mut [i32],
        call: impl Fn(&mut [i32]) -> Answer,
    ) -> Answer {
        if let Some((place, word)) = self.mistaken_word(area) {
            let held = std::mem::replace(&mut area[place], word);
            let answer = call(area);
            area[place] = held;
            return answer;
        }
        if self.has(SurplusWordsAreTested) && area.len() > 16 {
            let needed = area[14].wrapping_mul(8).wrapping_add(area[15].wrapping_mul(20));
            if area.len() as i32 > needed.wrapping_add(16) {
                return Answer::new(21, []);
            }
        }
        let answer = call(area);
        if self.has(Sound) {
            self.note_edition(name, area, answer.number == 21);
            self.note_seconds(name, area, answer.number == 21);
        }
        answer
    }

    fn note_edition(&self, name: &'static str, area: &[i32], refused: bool) {
        let mut area = area.to_vec();
        let Some(held) = area.get_mut(EDITION) else { return };
        let word = std::mem::replace(held, 1);
        if Plain.report(&mut area).number != 21 {
            self.noted.borrow_mut().editions.insert((name, word, refused));
        }
    }

    fn note_seconds(&self, name: &'static str, area: &[i32], refused: bool) {
        let Some(SecondPlaces { sums, messages }) = SecondPlaces::of(area) else { return };
        let would_be_right = |place: usize, word: i32| {
            let mut area = area.to_vec();
            area[place] = word;
            Plain.report(&mut area).number != 21
        };
        let mut noted = self.noted.borrow_mut();
        for place in sums {
            let sum = area[place];
            if SUMS.contains(&sum) && (!refused || would_be_right(place, 0)) {
                noted.sums.insert((name, sum, refused));
            }
        }
        for place in messages {
            let counts = counts_in(area[place]);
            let is_tried = area[place] != 0 && counts.iter().all(|count| COUNTS.contains(count));
            if is_tried && (!refused || would_be_right(place, 1)) {
                noted.counts.insert((name, counts, refused));
            }
        }
    }

    fn note_delivery(&self, before: &[i32]) {
        let links = links_in(before).into_iter().filter(|link| link.load(before) > 0);
        let links: Vec<_> = links.map(|Link { from, to, .. }| (from, to)).collect();
        let &(from, to) = links.iter().min_by_key(|(from, to)| (to, from)).expect("it took one");
        let is_another = links.iter().min() != Some(&(from, to));
        let has_another = links.iter().any(|&(other, also)| also == to && other != from);
        self.noted.borrow_mut().deliveries.insert([is_another, has_another, from == to]);
    }

    fn note_shuffle(&self, before: &[i32], after: &[i32], k: u32, seed: u32, answer: Answer) {
        if SEEDS.contains(&seed) {
            let was_over = Plain.report(&mut before.to_vec()).number == 0;
            let called = (seed, was_over, k == 0, answer.number);
            self.noted.borrow_mut().seeds.insert(called);
        }
        if (answer.number, answer.values[1]) != (0, 1) {
            return;
        }
        let mut links = links_in(before);
        links.retain(|link| link.load(before) > 0);
        links.sort_by_key(|link| (link.to, link.from));
        let is_taken = |link: &Link| {
            let mut picked = before.to_vec();
            Plain.pick(&mut picked, link.from, link.to, 1).number == 0 && picked == after
        };
        let rank = links.iter().position(is_taken).expect("a delivery takes the oldest of a link");
        self.noted.borrow_mut().ranks.insert((links.len(), rank));
    }

    fn note_step(&self, record: LentRecord, received: Received, refused: bool) {
        let others = (LentRecord { second: 0, ..record }, Received { second_count: 0, ..received });
        if Plain.step(others.0, others.1).number != 21 {
            let called = (record.second, received.second_count, refused);
            self.noted.borrow_mut().steps.insert(called);
        }
    }

    /// Whether a process is reachable from the start by one arc or more, by a fault that mistakes it.
    fn by_an_arc(&self, area: &mut [i32]) -> Option<bool> {
        let Graph { n, waits } = graph_in(area);
        let start = area[1] as usize;
        let any = |is: &dyn Fn(usize, usize) -> bool| waits.iter().any(|&(from, to)| is(from, to));
        match (self.fault, area[EDITION]) {
            (ReportJudgesTheFirstEditionAsTheSecond, 1) => Some(any(&|from, _| from == start)),
            (ReportJudgesTheSecondEditionAsTheFirst, 2) => Some(true),
            (ReportCountsTheStartAsReached, 2) => Some(first_with(SUCCEEDING, area, 1..=n) != 0),
            (ReportLeavesOutLoops, 2) => Some(any(&|from, to| from == start && to != start)),
            (ReportCountsAPredecessorAsReached, 2) => {
                Some(any(&|from, to| from == start || to == start))
            }
            (ReportJudgesByTheWaitsOfProcess1, 2) => Some(any(&|from, _| from == 1)),
            _ => None,
        }
    }
}

impl Calls for Planted {
    fn read_table(&self, table: &mut [u8]) -> Answer {
        let mut answer = Plain.read_table(table);
        match self.fault {
            ReadGivesAnotherM if answer.number == 0 => answer.values[1] += 1,
            ReadTakes7Before6 if answer.number == 6 => answer.number = 7,
            ReadLeavesNWhenRefused if answer.number == 7 => answer.values[0] = 1,
            ReadWritesIntoTheTable if table.len() > 30 => table[30] ^= 1,
            _ => {}
        }
        answer
    }

    fn write_table(&self, n: usize, list: &mut [u16], out: &mut [u8]) -> Answer {
        let answer = Plain.write_table(n, list, out);
        let length = answer.values[0] as usize;
        if self.has(WriterTouchesABytePastTheTable) && length > 0 && length < out.len() {
            out[length] = 0;
        }
        if self.has(WriterTakes11First) && answer.number == 7 && out.len() < 2 * list.len() {
            return Answer::new(11, []);
        }
        answer
    }

    fn open(&self, table: &mut [u8], chain: u32, process: usize) -> Answer {
        let answer = Plain.open(table, chain, process);
        match self.fault {
            OpenNamesTheNextArc => {
                let next = Plain.next(table, chain, answer.values[0] as usize);
                Answer { number: answer.number, ..next }
            }
            _ => answer,
        }
    }

    fn next(&self, table: &mut [u8], chain: u32, arc: usize) -> Answer {
        let over = table.len() >= 4 && arc > usize::from(table[2]) + 256 * usize::from(table[3]);
        if self.has(NextReadsOverM) && over {
            return Answer::new(0, [1]);
        }
        Plain.next(table, chain, arc)
    }

    fn start(&self, table: &mut [u8], start: usize, edition: usize, area: &mut [i32]) -> Answer {
        if self.has(StartRefusesAll) {
            return Answer::new(8, []);
        }
        let taken = match self.fault {
            StartTakesOtherEditionsForTheSecond if edition != 1 => 2,
            StartCutsEditionsTo16Bits => usize::from(edition as u16),
            StartCutsEditionsTo32Bits => edition as u32 as usize,
            _ => edition,
        };
        let mut answer = Plain.start(table, start, taken, area);
        let read = Plain.read_table(table);
        let (n, m) = match read.values {
            [n, m, ..] => (n as usize, m as usize),
        };
        let needed = 8 * n + 20 * m + 16;
        if self.has(Sound) && read.number == 0 {
            let [is_process, is_long] = [(1..=n).contains(&start), area.len() >= needed];
            let started = (edition, is_process, is_long, answer.number);
            self.noted.borrow_mut().starts.insert(started);
        }
        match (self.fault, answer.number) {
            (StartTouchesASurplusWord, 0) if area.len() > needed => area[needed] = 0,
            (StartLeavesOutPreceding, 0) => area[16 + 2 * n + 4 * m + 6 * (start - 1)] = 1,
            (StartAlwaysKeepsTheFirstEdition, 0) => area[EDITION] = 1,
            (StartTakes30BeforeTheTable, 1..=7) if !is_edition(edition) => answer.number = 30,
            (StartTakes30Before8, 8) if !is_edition(edition) => answer.number = 30,
            (StartTakes30After9, 30) if area.len() < needed => answer.number = 9,
            (StartWritesWhenTheEditionIsRefused, 30) => area.fill(0),
            (StartForgetsItsOwn, 0) => area[second_place(area, start)] = 0,
            (StartAlwaysCountsItself, 0) => area[second_place(area, start)] = 1,
            (StartCountsItselfIfNobodyWaitsForIt, 0) => {
                let of_nobody = graph_in(area).waits.iter().all(|&(_, to)| to != start);
                area[second_place(area, start)] = of_nobody.into();
            }
            _ => {}
        }
        answer
    }

    fn pick(&self, area: &mut [i32], from: usize, to: usize, place: usize) -> Answer {
        let before = area.to_vec();
        let mut answer = self.seen("pick", area, |area| Plain.pick(area, from, to, place));
        if ![21, 25, 23].contains(&answer.number) {
            let link =
                links_in(&before).into_iter().find(|link| (link.from, link.to) == (from, to));
            let link = link.expect("there is one, or else 25");
            if self.has(Sound) {
                let picked = (link.load(&before), place, answer.number);
                self.noted.borrow_mut().picks.insert(picked);
            }
            answer = match answer.number {
                0 | 22 if self.has_to_do_with_sums() => {
                    self.pick_with_sums(answer, &before, area, link, place)
                }
                _ => self.pick_on_link(answer, &before, area, link, place),
            };
        }
        match self.fault {
            PickTakes31Before25 if answer.number == 25 && place == 0 => answer.number = 31,
            PickTakes31Before23 if answer.number == 23 && place == 0 => answer.number = 31,
            PickTakes24Before23 if answer.number == 23 => answer.number = 24,
            PickWritesWhenRefused if answer.number == 22 => area[2] += 1,
            PickGivesCountsUnsigned => answer.values[1] = answer.values[1].abs(),
            PickAnswersWithoutTheSecondCount => answer.values[2] = 0,
            PickGivesSecondCountsUnsigned => answer.values[2] = answer.values[2].abs(),
            PickLeavesTheRunUntouched => area.copy_from_slice(&before),
            PickForgetsTheEdition if answer.number == 0 => area[EDITION] = 1,
            _ => {}
        }
        answer
    }

    fn run_on(&self, area: &mut [i32], k: u32) -> Answer {
        if self.has(SoundByPicks) || ORDER_FAULTS.contains(&self.fault) {
            return run_on_by_picks(self.fault, area, k);
        }
        let before = area.to_vec();
        let k = if self.has(RunTakesOnlyItsFirstStep) { k.min(1) } else { k };
        if self.has(RunTakesTheNewest) && Plain.run_on(area, 0) == Answer::new(0, [0, 0]) {
            let waiting = links_in(area).into_iter().filter(|link| link.load(area) > 0);
            if let Some(link) = waiting.min_by_key(|link| (link.to, link.from)) {
                let load = link.load(area);
                area[link.place..link.place + load].rotate_right(1);
            }
        }
        if self.has(RunDropsSecondCounts) && Plain.run_on(area, 0).number == 0 {
            for place in SecondPlaces::of(area).expect("it is well formed").messages {
                area[place] = without_second(area[place]);
            }
        }
        let mut answer = self.seen("run_on", area, |area| Plain.run_on(area, k));
        if self.has(Sound) && (answer.number, answer.values[1]) == (0, 1) {
            self.note_delivery(&before);
        }
        match self.fault {
            RunForgetsTheEdition if answer.values[1] > 0 => area[EDITION] = 1,
            RunTakesTheNewest | RunDropsSecondCounts if answer.values[1] == 0 => {
                area.copy_from_slice(&before)
            }
            RunForgetsMadeWhenRefused if answer.number != 0 => answer.values[1] = 0,
            RunSaysOverForSpent if answer.number == 0 => answer.values[0] = 1,
            RunUndoesItsDeliveriesWhenRefused if answer.number != 0 => {
                area.copy_from_slice(&before)
            }
            _ => {}
        }
        answer
    }

    fn run_shuffled(&self, area: &mut [i32], k: u32, seed: u32) -> Answer {
        if self.has(SoundByPicks) || SHUFFLE_FAULTS.contains(&self.fault) {
            let mut last = self.last_shuffle.get();
            let answer = run_shuffled_by_picks(self.fault, area, k, seed, &mut last);
            self.last_shuffle.set(last);
            return answer;
        }
        let before = area.to_vec();
        let mut answer = self.seen("run_shuffled", area, |area| Plain.run_shuffled(area, k, seed));
        if self.has(Sound) {
            self.note_shuffle(&before, area, k, seed, answer);
        }
        match self.fault {
            ShuffleForgetsTheEdition if answer.values[1] > 0 => area[EDITION] = 1,
            ShuffleForgetsMadeWhenRefused if answer.number != 0 => answer.values[1] = 0,
            ShuffleUndoesItsDeliveriesWhenRefused if answer.number != 0 => {
                area.copy_from_slice(&before)
            }
            ShuffleSaysOverWhenTheSeedIsRefused if answer.number == NO_SEED => {
                answer.values[0] = Plain.run_on(area, 0).values[0]
            }
            ShuffleWritesWhenTheSeedIsRefused if answer.number == NO_SEED => area[2] ^= 1,
            _ => {}
        }
        answer
    }

    fn report(&self, area: &mut [i32]) -> Answer {
        let mut answer = self.seen("report", area, |area| Plain.report(area));
        if answer.number == 0 {
            let processes = area[14] as usize;
            if self.has(Sound) && processes <= 3 {
                let Graph { n, waits } = graph_in(area);
                let values = answer.values[..5].try_into().expect("five values");
                let report = (area[EDITION], n, waits, area[1], values);
                self.noted.borrow_mut().reports.insert(report);
            }
            if let Some(by_an_arc) = self.by_an_arc(area) {
                answer.values[1] = i64::from(answer.values[2] == 0 && by_an_arc);
            }
            let second = |process| area[second_place(area, process)];
            match self.fault {
                ReportHasAFixedVerdict => answer.values[1] = 1,
                ReportNamesTheStartAsEscape => answer.values[3] = area[1].into(),
                ReportNamesNoEscape => answer.values[3] = 0,
                ReportNamesTheHighestEscape => {
                    answer.values[3] = first_with(SUBORDINATE, area, (1..=processes).rev())
                }
                ReportPassesOverProcess1 => {
                    answer.values[3] = first_with(SUBORDINATE, area, 2..=processes)
                }
                ReportNamesTheLowestSucceeding => {
                    let start = area[1] as usize;
                    let others = (1..=processes).filter(|&process| process != start);
                    answer.values[3] = first_with(SUCCEEDING, area, others)
                }
                ReportCountsOneMore => answer.values[0] += 1,
                ReportWritesIntoTheArea => area[2] ^= 1,
                ReportMakesOutside1WithoutAKnot if answer.values[1..3] == [0, 0] => {
                    answer.values[2] = 1
                }
                ReportMarksByTheSumAlone => answer.values[4] = i64::from(answer.values[2] == 0),
                ReportMarksByTheVerdict => answer.values[4] = answer.values[1],
                ReportMarksNegativeSumsReturned => {
                    answer.values[4] = i64::from(second(area[1] as usize) <= 0)
                }
                ReportMarksByProcess1 => answer.values[4] = i64::from(second(1) == 0),
                ReportMarksByEverySecondSum => {
                    answer.values[4] =
                        i64::from((1..=processes).all(|process| second(process) == 0))
                }
                _ => {}
            }
        }
        answer
    }

    fn read_record(&self, area: &mut [i32], process: usize) -> Answer {
        if self.has(RecordTakes25First) && process == 0 {
            return Answer::new(25, []);
        }
        let mut answer = self.seen("read_record", area, |area| Plain.read_record(area, process));
        match self.fault {
            RecordHasNoFather => answer.values[FATHER] = 0,
            RecordHasNoSecondSum => answer.values[SECOND_SUM] = 0,
            _ => {}
        }
        answer
    }

    fn step(&self, record: LentRecord, mut received: Received) -> Answer {
        match self.fault {
            StepTakesOtherKindsForAcknowledgements if received.kind > 3 => received.kind = 3,
            StepDropsTheSecondCount if is_small(received.second_count) => received.second_count = 0,
            StepTakesASecondCountOf129 if received.second_count == 129 => {
                received.second_count = 128
            }
            _ => {}
        }
        let mut answer = Plain.step(record, received);
        if self.has(Sound) && received.kind == 3 {
            self.note_step(record, received, answer.number == 21);
        }
        if let Some(second) = self.mistaken_sum(record.second, answer.number) {
            let mistaken = Plain.step(LentRecord { second, ..record }, received);
            answer = if mistaken.number == 0 { mistaken } else { answer };
        }
        let is_new = |flag: u32, kind| answer.number == 0 && received.kind == kind && flag == 0;
        let [new_suc, new_pre] = [is_new(record.succeeding, 1), is_new(record.preceding, 2)];
        let [for_nobody, of_nobody] = [received.out_degree == 0, received.in_degree == 0];
        match self.fault {
            StepNamesNoProbesAtDegree0 if for_nobody && answer.values[PROBES] == 1 => {
                answer.values[PROBES] = 0
            }
            StepChangesTheRecordWhenRefused if answer.number == 22 => answer.values[NUM] = 0,
            StepAddsAgainAtAPreProbe if new_pre && for_nobody => {
                add_to_step(&mut answer, record, 1);
            }
            StepCountsWhomNobodyWaitsFor if new_suc && of_nobody && !for_nobody => {
                add_to_step(&mut answer, record, 1);
            }
            StepKeepsTheSecondSum if answer.number == 0 => {
                answer.values[SECOND_SUM] += answer.values[REPLY_SECOND]
            }
            StepTestsTheSecondCountOfAProbe if !is_small(received.second_count) => {
                answer = Plain.step(record, Received { kind: 3, ..received });
            }
            _ => {}
        }
        answer
    }
}

/// So much more in the second sum of a step by rule 2: rule 4 passes it on if num is 0 then.
fn add_to_step(answer: &mut Answer, lent: LentRecord, more: i64) {
    let is_passed_on = lent.num == 0 && answer.values[NUM] == 0;
    answer.values[if is_passed_on { REPLY_SECOND } else { SECOND_SUM }] += more;
}

/// The name of the call in which the comparison, of all families or of one, sees the fault.
fn call_that_shows(fault: Fault, family: Option<&str>) -> Option<String> {
    let options = Options { seed: 7, family: family.map(str::to_string), ..Options::default() };
    let library = Planted::new(fault);
    let mut driver = Driver::new(&library, options.seed);
    let outcome = compare(&mut driver, &options, 20);
    outcome.err().map(|difference| {
        let text = difference.to_string();
        assert!(text.contains("library:") && text.contains("plain:"), "{text}");
        format!("{:?}", difference.call)
    })
}

#[test]
fn the_plain_rust_agrees_with_itself() {
    assert_eq!(call_that_shows(Sound, None), None);
    assert_eq!(call_that_shows(SoundByPicks, None), None);
}

#[test]
fn every_planted_fault_is_found_and_its_call_named() {
    let faults = [
        (ReadGivesAnotherM, "ReadTable"),
        (ReadTakes7Before6, "ReadTable"),
        (ReadLeavesNWhenRefused, "ReadTable"),
        (ReadWritesIntoTheTable, "ReadTable"),
        (WriterTouchesABytePastTheTable, "WriteTable"),
        (WriterTakes11First, "WriteTable"),
        (OpenNamesTheNextArc, "Open"),
        (NextReadsOverM, "Next"),
        (StartTouchesASurplusWord, "Start"),
        (StartLeavesOutPreceding, "Start"),
        (StartRefusesAll, "Start"),
        (StartTakes30BeforeTheTable, "Start"),
        (StartTakes30Before8, "Start"),
        (StartTakes30After9, "Start"),
        (StartTakesOtherEditionsForTheSecond, "Start"),
        (StartCutsEditionsTo16Bits, "Start"),
        (StartCutsEditionsTo32Bits, "Start"),
        (StartAlwaysKeepsTheFirstEdition, "Start"),
        (StartWritesWhenTheEditionIsRefused, "Start"),
        (StartForgetsItsOwn, "Start"),
        (StartAlwaysCountsItself, "Start"),
        (StartCountsItselfIfNobodyWaitsForIt, "Start"),
        (PickTakes24Before23, "Pick"),
        (PickWritesWhenRefused, "Pick"),
        (PickGivesCountsUnsigned, "Pick"),
        (PickLeavesTheRunUntouched, "Pick"),
        (PickTakesTheOldestAtEveryPlace, "Pick"),
        (PickLosesTheMessagesBehind, "Pick"),
        (PickTurnsTheMessagesBehindRound, "Pick"),
        (PickPutsTheLastInTheGap, "Pick"),
        (PickAnswersWithTheOldest, "Pick"),
        (PickTakes31Before25, "Pick"),
        (PickTakes31Before23, "Pick"),
        (PickTakes31Before24, "Pick"),
        (PickTakes31After22, "Pick"),
        (PickTakesAPlaceBeyondAsTheLast, "Pick"),
        (PickTakesPlace0AsTheOldest, "Pick"),
        (PickCutsPlacesTo32Bits, "Pick"),
        (PickWritesWhenThePlaceIsRefused, "Pick"),
        (PickGivesAKindWhenThePlaceIsRefused, "Pick"),
        (PickForgetsTheEdition, "Pick"),
        (PickAddsAgainAtAPreProbe, "Pick"),
        (PickAddsAtEverySucProbe, "Pick"),
        (PickNeverAdds, "Pick"),
        (PickCountsWhomNobodyWaitsFor, "Pick"),
        (PickKeepsTheSecondSum, "Pick"),
        (PickZeroesTheSecondSumOfTheStart, "Pick"),
        (PickPassesOnTheSecondSumOfTheStart, "Pick"),
        (PickDropsTheSecondCount, "Pick"),
        (PickSwapsTheCounts, "Pick"),
        (PickAnswersWithoutTheSecondCount, "Pick"),
        (PickGivesSecondCountsUnsigned, "Pick"),
        (PickLetsTheSecondSumLeaveItsRange, "Pick"),
        (RunForgetsTheEdition, "RunOn"),
        (RunDropsSecondCounts, "RunOn"),
        (RunTakesTheNewest, "RunOn"),
        (RunTakesOnlyItsFirstStep, "RunOn"),
        (RunForgetsMadeWhenRefused, "RunOn"),
        (RunSaysOverForSpent, "RunOn"),
        (RunUndoesItsDeliveriesWhenRefused, "RunOn"),
        (RunTakesSendersFirst, "RunOn"),
        (RunTakesTheHighestSender, "RunOn"),
        (RunNeverGoesDown, "RunOn"),
        (RunForgetsAReceiverAfterOneLink, "RunOn"),
        (RunTakesALinkThatFellEmpty, "RunOn"),
        (RunForgetsWhatALoopSends, "RunOn"),
        (ShuffleForgetsTheEdition, "RunShuffled"),
        (ShuffleForgetsMadeWhenRefused, "RunShuffled"),
        (ShuffleUndoesItsDeliveriesWhenRefused, "RunShuffled"),
        (ShuffleSaysOverWhenTheSeedIsRefused, "RunShuffled"),
        (ShuffleWritesWhenTheSeedIsRefused, "RunShuffled"),
        (ReportHasAFixedVerdict, "Report"),
        (ReportNamesTheStartAsEscape, "Report"),
        (ReportNamesNoEscape, "Report"),
        (ReportNamesTheHighestEscape, "Report"),
        (ReportPassesOverProcess1, "Report"),
        (ReportNamesTheLowestSucceeding, "Report"),
        (ReportCountsOneMore, "Report"),
        (ReportWritesIntoTheArea, "Report"),
        (ReportJudgesTheFirstEditionAsTheSecond, "Report"),
        (ReportJudgesTheSecondEditionAsTheFirst, "Report"),
        (ReportCountsTheStartAsReached, "Report"),
        (ReportLeavesOutLoops, "Report"),
        (ReportCountsAPredecessorAsReached, "Report"),
        (ReportJudgesByTheWaitsOfProcess1, "Report"),
        (ReportMakesOutside1WithoutAKnot, "Report"),
        (ReportMarksByTheSumAlone, "Report"),
        (ReportMarksByTheVerdict, "Report"),
        (ReportMarksNegativeSumsReturned, "Report"),
        (ReportMarksByProcess1, "Report"),
        (ReportMarksByEverySecondSum, "Report"),
        (RecordHasNoFather, "ReadRecord"),
        (RecordHasNoSecondSum, "ReadRecord"),
        (RecordTakes25First, "ReadRecord"),
        (AreaEditionsAreNotTested, ""),
        (AreaEdition0IsTheFirst, ""),
        (FreeWordsAreNotTested, ""),
        (FreeWordsOfRecordsAreNotTested, ""),
        (SecondSumsAreNotTested, ""),
        (SecondSum129IsTaken, ""),
        (FirstCountsAreNotTested, ""),
        (SecondCountsAreNotTested, ""),
        (OneCountIsTaken, ""),
        (SurplusWordsAreTested, ""),
        (StepNamesNoProbesAtDegree0, "Step"),
        (StepChangesTheRecordWhenRefused, "Step"),
        (StepTakesOtherKindsForAcknowledgements, "Step"),
        (StepAddsAgainAtAPreProbe, "Step"),
        (StepCountsWhomNobodyWaitsFor, "Step"),
        (StepKeepsTheSecondSum, "Step"),
        (StepDropsTheSecondCount, "Step"),
        (StepTakesASecondSumOf129, "Step"),
        (StepTakesASecondCountOf129, "Step"),
        (StepTestsTheSecondCountOfAProbe, "Step"),
        (StepLetsTheSecondSumLeaveItsRange, "Step"),
    ];
    let shuffles = SHUFFLE_FAULTS.map(|fault| (fault, "RunShuffled"));
    for (fault, call) in faults.into_iter().chain(shuffles) {
        let shown =
            call_that_shows(fault, None).unwrap_or_else(|| panic!("{fault:?} is not found"));
        assert!(shown.starts_with(call), "{fault:?} shows in {shown}");
    }
}

const SMALL_RUNS: &str = "small runnings on and picks in turn";

/// 02, N11.
#[test]
fn every_fault_of_the_order_is_found_by_small_runnings_on() {
    for fault in ORDER_FAULTS {
        let shown = call_that_shows(fault, Some(SMALL_RUNS));
        assert!(shown.is_some_and(|call| call.starts_with("RunOn")), "{fault:?} is not found");
    }
}

const SHUFFLED_RUNS: &str = "shuffled runs and picks in turn";

/// 02, N13: but for 21, which areas that are well formed never give.
#[test]
fn every_fault_of_shuffling_is_found_by_shuffled_runs() {
    for fault in SHUFFLE_FAULTS.into_iter().filter(|&fault| fault != ShuffleTakes37Before21) {
        let shown = call_that_shows(fault, Some(SHUFFLED_RUNS));
        let is_shown = shown.is_some_and(|call| call.starts_with("RunShuffled"));
        assert!(is_shown, "{fault:?} is not found");
    }
}

/// 02, N13: 37 comes before 21 only where both are met.
#[test]
fn the_order_of_21_and_37_is_found_in_damaged_areas() {
    let shown = call_that_shows(ShuffleTakes37Before21, Some("areas damaged one word at a time"));
    assert!(shown.is_some_and(|call| call.starts_with("RunShuffled")));
}

/// What one family calls.
fn noted_in(family: &str, per_mille: u64) -> Noted {
    let options = Options { seed: 7, family: Some(family.into()), ..Options::default() };
    let library = Planted::new(Sound);
    let mut driver = Driver::new(&library, options.seed);
    compare(&mut driver, &options, per_mille).expect("no fault is planted");
    library.noted.into_inner()
}

/// 02, N11: deliveries that show which link is taken, among all kinds of links.
#[test]
fn small_runnings_on_choose_among_all_kinds_of_links() {
    let Noted { deliveries, .. } = noted_in(SMALL_RUNS, 100);
    for kind in 0..8 {
        let kind = [1, 2, 4].map(|bit| kind & bit != 0);
        assert!(deliveries.contains(&kind), "{kind:?} is missing");
    }
}

/// 02, N13: every link among few, by its rank.
#[test]
fn shuffled_runs_pick_every_link_among_few() {
    let Noted { ranks, .. } = noted_in(SHUFFLED_RUNS, 100);
    for count in 1..=8 {
        for rank in 0..count {
            assert!(ranks.contains(&(count, rank)), "{rank} of {count} is missing");
        }
    }
}

/// 02, N13: from each of the seeds, in runs that are over and that are not, with and without deliveries
/// asked for.
#[test]
fn every_seed_is_tried_with_every_number() {
    let mut seeds = BTreeSet::new();
    for family in ["areas damaged one word at a time", "well-formed areas that no run reaches"] {
        seeds.extend(noted_in(family, 300).seeds);
    }
    for seed in SEEDS {
        for (was_over, none_asked_for) in
            [(false, false), (false, true), (true, false), (true, true)]
        {
            let number = if seed == 0 { NO_SEED } else { 0 };
            let called = (seed, was_over, none_asked_for, number);
            assert!(seeds.contains(&called), "{called:?} is missing");
        }
        let refusals: &[u32] = if seed == 0 { &[21] } else { &[21, 22, 24] };
        for &number in refusals {
            let called = (seed, false, false, number);
            assert!(seeds.contains(&called), "{called:?} is missing");
        }
    }
}

/// 02, N5: on links with 0 to 4 messages.
#[test]
fn every_place_is_tried_with_every_number_of_messages() {
    let Noted { picks, .. } = noted_in("every place on a link", 100);
    for load in 0..=MOST_WAITING {
        for place in PLACES {
            let numbers: &[u32] = match place {
                _ if load == 0 => &[24],
                place if (1..=load).contains(&place) => &[0, 22],
                _ => &[31],
            };
            for &number in numbers {
                let pick = (load, place, number);
                assert!(picks.contains(&pick), "{pick:?} is missing");
            }
        }
    }
}

/// 02, N5: in whole checks, whose end is held against a graph search. In the largest ones three
/// messages seldom wait on one link.
#[test]
fn messages_overtake_each_other_in_whole_checks() {
    for (family, most) in [("valid areas, orders drawn", MOST_WAITING), ("the largest checks", 2)] {
        let Noted { picks, .. } = noted_in(family, 200);
        for load in 2..=most {
            for place in 1..=load {
                let pick = (load, place, 0);
                assert!(picks.contains(&pick), "{family}: {pick:?} is missing");
            }
        }
    }
}

/// 02, N4: with a start that is a process and one that is not, in areas long enough and too short.
#[test]
fn every_edition_is_tried_with_and_without_8_and_9() {
    let Noted { starts, .. } = noted_in("editions", 100);
    for edition in EDITIONS.into_iter().chain(OTHER_EDITIONS) {
        for (is_process, is_long) in [(true, true), (true, false), (false, true), (false, false)] {
            let number = match (is_process, is_edition(edition), is_long) {
                (false, ..) => 8,
                (_, false, _) => 30,
                (.., false) => 9,
                _ => 0,
            };
            let started = (edition, is_process, is_long, number);
            assert!(starts.contains(&started), "{started:?} is missing");
        }
    }
}

/// The calls on an area.
const AREA_CALLS: [&str; 5] = ["pick", "run_on", "run_shuffled", "report", "read_record"];

/// 02, N4: 21 from every call, unless the word names an edition.
#[test]
fn every_call_is_made_on_every_edition_in_an_area() {
    let Noted { editions, .. } = noted_in("editions", 100);
    for call in AREA_CALLS {
        for word in OTHER_EDITION_WORDS.into_iter().chain([1, 2]) {
            let called = (call, word, !names_edition(word));
            assert!(editions.contains(&called), "{called:?} is missing");
        }
    }
}

/// 02, N3: 21 from every call, unless the second sum is in its range.
#[test]
fn every_call_is_made_on_every_second_sum_in_an_area() {
    let Noted { sums, .. } = noted_in("second sums and counts", 100);
    for call in AREA_CALLS {
        for sum in SUMS {
            let called = (call, sum, !is_small(sum));
            assert!(sums.contains(&called), "{called:?} is missing");
        }
    }
}

/// 02, N3: 21 unless both counts are in their range.
#[test]
fn every_two_counts_are_tried_in_a_message() {
    let Noted { counts, .. } = noted_in("second sums and counts", 300);
    for call in AREA_CALLS {
        for both in COUNTS.into_iter().flat_map(|count| COUNTS.map(|second| [count, second])) {
            let called = (call, both, !both.iter().all(|&count| is_small(count)));
            // The word of the least two is 0, which is no message.
            assert!(both == [-256; 2] || counts.contains(&called), "{called:?} is missing");
        }
    }
}

/// 02, N3: 21 unless both second numbers are in their range.
#[test]
fn steps_are_made_with_second_numbers_at_the_edges() {
    let Noted { steps, .. } = noted_in("one process's step", 200);
    for edge in [-129, -128, 128, 129, i32::MIN, i32::MAX] {
        let refused = !is_small(edge);
        let as_sum = |&(sum, count, is): &_| (sum, is_small(count), is) == (edge, true, refused);
        let as_count = |&(sum, count, is): &_| (is_small(sum), count, is) == (true, edge, refused);
        assert!(steps.iter().any(as_sum), "{edge} is missing as a second sum");
        assert!(steps.iter().any(as_count), "{edge} is missing as a second count");
    }
}

/// A row of 01: N, the waits, D, the verdict under editions 1 and 2, outside, escape, and the mark
/// (02, N3).
type Row = (usize, &'static [(usize, usize)], i64, [i64; 2], i64, i64, i64);

#[test]
fn the_rows_of_01_are_judged_under_both_editions() {
    let rows: [Row; 8] = [
        (1, &[], 0, [1, 0], 0, 0, 0),
        (1, &[(1, 1)], 4, [1, 1], 0, 0, 1),
        (2, &[(1, 2)], 2, [0, 0], 1, 2, 0),
        (2, &[(2, 1)], 2, [1, 0], 0, 0, 0),
        (2, &[(1, 2), (2, 1)], 8, [1, 1], 0, 0, 1),
        (3, &[(1, 2), (2, 3), (3, 1)], 12, [1, 1], 0, 0, 1),
        (3, &[(1, 2), (2, 1), (2, 3)], 10, [0, 0], 1, 3, 0),
        (3, &[(1, 2), (2, 3), (3, 2)], 6, [0, 0], 2, 2, 1),
    ];
    let Noted { reports, .. } = noted_in("editions", 100);
    for (n, waits, deliveries, knots, outside, escape, returned) in rows {
        for (edition, knot) in (1..).zip(knots) {
            let values = [deliveries, knot, outside, escape, returned];
            let report = (edition, n, waits.to_vec(), 1, values);
            assert!(reports.contains(&report), "{report:?} is missing");
        }
    }
}

#[test]
fn every_refusal_of_every_call_occurs() {
    let options = Options { seed: 7, ..Options::default() };
    let library = Planted::new(Sound);
    let mut driver = Driver::new(&library, options.seed);
    compare(&mut driver, &options, 100).expect("no fault is planted");
    let expected: [(&str, &[u32]); 11] = [
        ("next", &[0]),
        ("open", &[0, 1, 2, 3, 4, 5, 6, 7, 8]),
        ("pick", &[0, 21, 22, 23, 24, 25, 31]),
        ("read_record", &[0, 21, 25]),
        ("read_table", &[0, 1, 2, 3, 4, 5, 6, 7]),
        ("report", &[0, 21, 26]),
        ("run_on", &[0, 21, 22, 24]),
        ("run_shuffled", &[0, 21, 22, 24, 37]),
        ("start", &[0, 1, 2, 3, 4, 5, 6, 7, 8, 9, 30]),
        ("step", &[0, 21, 22, 25]),
        ("write_table", &[0, 2, 4, 7, 10, 11]),
    ];
    let expected: Vec<_> = expected
        .into_iter()
        .flat_map(|(call, numbers)| numbers.iter().map(move |&number| (call, number)))
        .collect();
    let found: Vec<_> = driver.answers().keys().copied().collect();
    assert_eq!(found, expected);
}
