//! One call made on both libraries with the same bytes and words, and all that came of it
//! compared: the number, every value, and every byte and word that was lent.

use calls::{Answer, Calls, LentRecord, Plain, Received};
use std::collections::BTreeMap;
use std::fmt::{self, Debug, Display, Formatter};

/// A call and its numbers; its bytes and words are in a `Lent`.
#[derive(Clone, Copy, Debug)]
pub enum Call {
    ReadTable,
    WriteTable { n: usize },
    Open { chain: u32, process: usize },
    Next { chain: u32, arc: usize },
    Start { start: usize, edition: usize },
    Pick { from: usize, to: usize, place: usize },
    RunOn { k: u32 },
    RunShuffled { k: u32, seed: u32 },
    Report,
    ReadRecord { process: usize },
    Step { record: LentRecord, received: Received },
}

impl Call {
    fn name(&self) -> &'static str {
        match self {
            Call::ReadTable => "read_table",
            Call::WriteTable { .. } => "write_table",
            Call::Open { .. } => "open",
            Call::Next { .. } => "next",
            Call::Start { .. } => "start",
            Call::Pick { .. } => "pick",
            Call::RunOn { .. } => "run_on",
            Call::RunShuffled { .. } => "run_shuffled",
            Call::Report => "report",
            Call::ReadRecord { .. } => "read_record",
            Call::Step { .. } => "step",
        }
    }

    /// The names of its values.
    fn values(&self) -> &'static [&'static str] {
        const STEP: [&str; 11] = [
            "succeeding",
            "preceding",
            "subordinate",
            "cs",
            "num",
            "father",
            "second",
            "probes",
            "reply_to",
            "reply_count",
            "reply_second",
        ];
        match self {
            Call::ReadTable => &["n", "m"],
            Call::WriteTable { .. } => &["length"],
            Call::Open { .. } | Call::Next { .. } => &["arc"],
            Call::Start { .. } => &[],
            Call::Pick { .. } => &["kind", "count", "second"],
            Call::RunOn { .. } | Call::RunShuffled { .. } => &["over", "made"],
            Call::Report => &["deliveries", "knot", "outside", "escape", "returned"],
            Call::ReadRecord { .. } => &STEP[..7],
            Call::Step { .. } => &STEP,
        }
    }

    fn describe(&self, answer: &Answer) -> String {
        let values = self.values().iter().zip(answer.values);
        let values: String = values.map(|(name, value)| format!(", {name} {value}")).collect();
        format!("number {}{values}", answer.number)
    }

    fn lends_table(&self) -> bool {
        matches!(self, Call::ReadTable | Call::Open { .. } | Call::Next { .. } | Call::Start { .. })
    }

    fn lends_list(&self) -> bool {
        matches!(self, Call::WriteTable { .. })
    }

    fn lends_area(&self) -> bool {
        !self.lends_list()
            && !matches!(self, Call::Step { .. })
            && (!self.lends_table() || matches!(self, Call::Start { .. }))
    }

    fn runs_on(&self) -> bool {
        matches!(self, Call::RunOn { .. } | Call::RunShuffled { .. })
    }

    fn make(self, library: &impl Calls, lent: &mut Lent) -> Answer {
        let Lent { table, list, out, area } = lent;
        let (table, list) = (unguarded(table), unguarded(list));
        let (out, area) = (unguarded(out), unguarded(area));
        match self {
            Call::ReadTable => library.read_table(table),
            Call::WriteTable { n } => library.write_table(n, list, out),
            Call::Open { chain, process } => library.open(table, chain, process),
            Call::Next { chain, arc } => library.next(table, chain, arc),
            Call::Start { start, edition } => library.start(table, start, edition, area),
            Call::Pick { from, to, place } => library.pick(area, from, to, place),
            Call::RunOn { k } => library.run_on(area, k),
            Call::RunShuffled { k, seed } => library.run_shuffled(area, k, seed),
            Call::Report => library.report(area),
            Call::ReadRecord { process } => library.read_record(area, process),
            Call::Step { record, received } => library.step(record, received),
        }
    }
}

/// What calls are lent: a table, the writer's list and output, a run area.
#[derive(Clone, Debug, Default, PartialEq, Eq)]
pub struct Lent {
    pub table: Vec<u8>,
    pub list: Vec<u16>,
    pub out: Vec<u8>,
    pub area: Vec<i32>,
}

/// Words behind each lent slice that no call may touch.
const GUARDS: usize = 4;

fn guard<T: Copy>(copy: &mut Vec<T>, lent: &[T], used: bool, word: T) {
    copy.clear();
    if used {
        copy.extend_from_slice(lent);
    }
    copy.extend([word; GUARDS]);
}

fn unguarded<T>(words: &mut [T]) -> &mut [T] {
    let length = words.len() - GUARDS;
    &mut words[..length]
}

impl Lent {
    /// Becomes what a call is lent, each part with guards behind it.
    fn guard(&mut self, lent: &Lent, call: Call) {
        guard(&mut self.table, &lent.table, call.lends_table(), 0xA5);
        guard(&mut self.list, &lent.list, call.lends_list(), 0xA5A5);
        guard(&mut self.out, &lent.out, call.lends_list(), 0xA5);
        guard(&mut self.area, &lent.area, call.lends_area(), 0x5A5A_5A5A);
    }

    /// Whether a call left each part as it was.
    fn is_as_before(&mut self, before: &Lent, call: Call) -> bool {
        (!call.lends_table() || *unguarded(&mut self.table) == before.table[..])
            && (!call.lends_list() || *unguarded(&mut self.list) == before.list[..])
            && (!call.lends_list() || *unguarded(&mut self.out) == before.out[..])
            && (!call.lends_area() || *unguarded(&mut self.area) == before.area[..])
    }
}

/// A difference, with all that is needed to make its call again.
#[derive(Debug)]
pub struct Difference {
    pub family: &'static str,
    pub seed: u64,
    pub calls: u64,
    pub call: Call,
    pub before: Lent,
    pub what: String,
}

impl Display for Difference {
    fn fmt(&self, out: &mut Formatter) -> fmt::Result {
        writeln!(
            out,
            "difference in call {} of all, family \"{}\", seed {}",
            self.calls, self.family, self.seed
        )?;
        writeln!(out, "call: {:?}", self.call)?;
        if self.call.lends_table() {
            writeln!(out, "table, {} bytes: {:?}", self.before.table.len(), self.before.table)?;
        }
        if self.call.lends_list() {
            writeln!(out, "list, {} entries: {:?}", self.before.list.len(), self.before.list)?;
            writeln!(out, "output, {} bytes: {:?}", self.before.out.len(), self.before.out)?;
        }
        if self.call.lends_area() {
            writeln!(out, "area, {} words: {:?}", self.before.area.len(), self.before.area)?;
        }
        write!(out, "{}", self.what)
    }
}

pub type Outcome<T> = Result<T, Box<Difference>>;

/// Makes calls on both libraries and counts them.
pub struct Driver<'a, L: Calls> {
    library: &'a L,
    seed: u64,
    family: &'static str,
    calls: u64,
    calls_in_family: u64,
    answers: BTreeMap<(&'static str, u32), u64>,
    library_lent: Lent,
    plain_lent: Lent,
}

impl<'a, L: Calls> Driver<'a, L> {
    pub fn new(library: &'a L, seed: u64) -> Driver<'a, L> {
        Driver {
            library,
            seed,
            family: "",
            calls: 0,
            calls_in_family: 0,
            answers: BTreeMap::new(),
            library_lent: Lent::default(),
            plain_lent: Lent::default(),
        }
    }

    pub fn begin_family(&mut self, family: &'static str) {
        self.family = family;
        self.calls_in_family = 0;
    }

    pub fn calls_in_family(&self) -> u64 {
        self.calls_in_family
    }

    pub fn calls(&self) -> u64 {
        self.calls
    }

    /// How often each call gave each number.
    pub fn answers(&self) -> &BTreeMap<(&'static str, u32), u64> {
        &self.answers
    }

    /// Makes a call on both libraries. `lent` is then as the call left it.
    pub fn make(&mut self, call: Call, lent: &mut Lent) -> Outcome<Answer> {
        self.calls += 1;
        self.calls_in_family += 1;
        self.library_lent.guard(lent, call);
        self.plain_lent.guard(lent, call);
        let by_library = call.make(self.library, &mut self.library_lent);
        let by_plain = call.make(&Plain, &mut self.plain_lent);
        if let Some(what) = self.difference(call, &by_library, &by_plain) {
            return Err(self.found(call, lent, what));
        }
        *self.answers.entry((call.name(), by_plain.number)).or_default() += 1;
        // Running on keeps the deliveries that it made.
        let may_change = by_plain.number == 0 || (call.runs_on() && by_plain.values[1] > 0);
        if !may_change && !self.plain_lent.is_as_before(lent, call) {
            return Err(self.found(call, lent, "refused, but what was lent has changed".into()));
        }
        if call.lends_area() {
            lent.area.copy_from_slice(unguarded(&mut self.plain_lent.area));
        }
        if call.lends_list() {
            lent.out.copy_from_slice(unguarded(&mut self.plain_lent.out));
        }
        Ok(by_plain)
    }

    pub fn found(&self, call: Call, before: &Lent, what: String) -> Box<Difference> {
        let Driver { family, seed, calls, .. } = *self;
        Box::new(Difference { family, seed, calls, call, before: before.clone(), what })
    }

    fn difference(&self, call: Call, by_library: &Answer, by_plain: &Answer) -> Option<String> {
        let (library, plain) = (&self.library_lent, &self.plain_lent);
        let parts = [
            (by_library != by_plain).then(|| "the answers differ".to_string()),
            first_difference("table byte", &library.table, &plain.table),
            first_difference("list entry", &library.list, &plain.list),
            first_difference("output byte", &library.out, &plain.out),
            first_difference("area word", &library.area, &plain.area),
        ];
        let parts: Vec<String> = parts.into_iter().flatten().collect();
        if parts.is_empty() {
            return None;
        }
        let (by_library, by_plain) = (call.describe(by_library), call.describe(by_plain));
        Some(format!("library: {by_library}\nplain:   {by_plain}\n{}", parts.join("\n")))
    }
}

fn first_difference<T: PartialEq + Debug>(
    part: &str,
    library: &[T],
    plain: &[T],
) -> Option<String> {
    if library == plain {
        return None;
    }
    let place = library.iter().zip(plain).position(|(a, b)| a != b)?;
    Some(format!("{part} {place}: library {:?}, plain {:?}", library[place], plain[place]))
}
