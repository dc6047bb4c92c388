//! Several checks side by side: one table of waits, and a check from each process under each edition
//! of the rulebook, every one in an area and a thread of its own. The lines are in the order of the
//! checks, whichever is over first.
//!
//!     cargo run --offline --manifest-path hosts/rust/Cargo.toml -p pickledune --example side_by_side
use pickledune::{area_words, table_bytes, Mark, Ran, Refusal, Verdict};
use std::thread;

/// 1 waits for 2, and 2 and 3 for each other; 4 waits for 1 and for 5, which waits for nobody.
const WAITS: [u16; 10] = [1, 2, 2, 3, 3, 2, 4, 1, 4, 5];
const ARCS: usize = WAITS.len() / 2;
const PROCESSES: usize = 5;

/// The most deliveries of a check before it lets another one run.
const TURN: u32 = 4;

/// From where a check starts, and under which edition.
pub type Check = (usize, usize);

fn main() -> Result<(), Refusal> {
    let one_version = pickledune::version() == pickledune::VERSION;
    assert!(
        one_version,
        "the archive is not of the wrapper's version {}",
        pickledune::VERSION_TEXT
    );
    let table = table()?;
    for line in side_by_side(&table, &checks()) {
        println!("{line}");
    }
    Ok(())
}

pub fn table() -> Result<Vec<u8>, Refusal> {
    let mut table = vec![0; table_bytes(PROCESSES, ARCS)];
    pickledune::write_table(PROCESSES, &WAITS, &mut table)?;
    Ok(table)
}

/// The last two start where there is no process: they are refused, and the others go on.
pub fn checks() -> Vec<Check> {
    (1..=PROCESSES + 1).flat_map(|start| [(start, 1), (start, 2)]).collect()
}

/// A line for each check. All read the one table, and each writes its own part of the lent words.
pub fn side_by_side(table: &[u8], checks: &[Check]) -> Vec<String> {
    let words = area_words(PROCESSES, ARCS);
    let mut lent = vec![0; checks.len() * words];
    thread::scope(|scope| {
        let with_areas = checks.iter().zip(lent.chunks_exact_mut(words));
        let threads: Vec<_> = with_areas
            .map(|(&check, area)| scope.spawn(move || line(table, check, area)))
            .collect();
        threads.into_iter().map(|thread| thread.join().expect("no check panics")).collect()
    })
}

pub fn line(table: &[u8], (start, edition): Check, area: &mut [i32]) -> String {
    match run(table, start, edition, area) {
        Ok(end) => format!("start {start} edition {edition}: {end}"),
        Err(refusal) => format!("start {start} edition {edition}: {refusal}"),
    }
}

/// Runs a check to its end, in turns with the others, and says how it ended.
fn run(table: &[u8], start: usize, edition: usize, area: &mut [i32]) -> Result<String, Refusal> {
    pickledune::start(table, start, edition, area)?;
    let mut turns = 1;
    loop {
        match pickledune::run_on(area, TURN) {
            Ran::Over(_) => break,
            Ran::Spent(_) => turns += 1,
            Ran::Refused { refusal, .. } => return Err(refusal),
        }
        thread::yield_now();
    }
    let report = pickledune::report(area)?;
    let verdict = match report.verdict {
        Verdict::Knot => "knot",
        Verdict::Free => "none",
    };
    let mark = match report.mark {
        Mark::Returned => "returned",
        Mark::Held => "held",
    };
    Ok(format!(
        "over {}, turns {turns}, verdict {verdict}, outside {}, escape {}, mark {mark}",
        report.deliveries,
        report.outside,
        report.escape.unwrap_or(0)
    ))
}
