//! Times the proved library against the plain Rust and against the C comparator in one run, on the same
//! inputs. Every time is the median of repetitions in which the three take turns, each time on the next
//! of 64 variants. Reading, start, one pick and a whole check by one running on, and by one that is
//! shuffled, are timed on waits of several shapes, with the bounds that they are to keep; the first
//! shape, in which each process waits for the next four, is the one of the plot. `HELP` says how it is
//! called.

mod inputs;
mod plot;
mod programs;
mod repeat;
mod rows;
mod shapes;
mod timing;

use calls::{Answer, Calls, STANDIN};
use inputs::{Input, Inputs};
use repeat::Repeated;
use rows::{print_deliveries, print_growth, print_rows, print_shapes, Bounds, Row, Shaped};
use shapes::{SHAPES, VARIANTS};
use std::ffi::OsString;
use std::hint::black_box;
use std::process::ExitCode;
use std::time::Instant;
use timing::{time_all, Library, Timed};

const HELP: &str = "\
Times the proved library against the plain Rust and the C comparator on the same inputs.

  bench [PLOT.svg]
  bench --repeat TIMES LIBRARY WHAT SHAPE N

Prints tables in markdown, and writes the plot of growth to the file named, if one is. With
KNOT_CHECK set to the built check program, that program is timed too, from process start to exit,
against plain_check, which stands beside this program or where PLAIN_CHECK says.

With --repeat nothing is timed. One thing is made so many times by one library, for a count of its
instructions (hosts/instructions.sh), and the number of deliveries is printed. LIBRARY is proved, plain
or c; WHAT is start, or start with a whole check: run, shuffled or picks; SHAPE is as in the tables,
such as 'next four'; N is 16, 32, 64 or 128.
";

/// What the arguments ask for.
#[derive(Debug, PartialEq)]
enum Asked<'a> {
    Help,
    Times { plot: Option<&'a OsString> },
    Repeat(Repeated),
}

fn asked(words: &[OsString]) -> Result<Asked<'_>, String> {
    match words {
        [] => Ok(Asked::Times { plot: None }),
        [word] if word == "-h" || word == "--help" => Ok(Asked::Help),
        [word, rest @ ..] if word == "--repeat" => {
            let rest: Vec<String> =
                rest.iter().map(|word| word.to_string_lossy().into_owned()).collect();
            Repeated::named(&rest).map(Asked::Repeat)
        }
        [word] if !word.to_string_lossy().starts_with('-') => Ok(Asked::Times { plot: Some(word) }),
        [word] | [_, word, ..] => {
            let word = word.to_string_lossy();
            Err(format!("unknown argument {word}; bench --help says which there are"))
        }
    }
}

/// N and M doubled three times, up to the largest table.
const SIZES: [usize; 4] = [16, 32, 64, 128];

/// Something done on the table and the area of one check.
type Run = fn(&dyn Calls, &Input, &mut [u8], &mut [i32]);

/// Something done on areas that are as `before` each time, on as many variants at once as `batch`: in the
/// next turn it is done on the next ones, so that none is repeated before all others have been done.
fn timed<'a>(
    what: &'static str,
    inputs: &'a Inputs,
    batch: usize,
    before: fn(&Input) -> &[i32],
    run: Run,
) -> Timed<'a> {
    let mut tables = vec![Vec::new(); batch];
    let mut areas = vec![Vec::new(); batch];
    // The areas that the first library of the turn left.
    let mut ends = (0, areas.clone());
    let once = move |library: Library, turn: usize| {
        let lent = || (0..batch).map(|place| inputs.variant(turn * batch + place));
        for (input, (table, area)) in lent().zip(tables.iter_mut().zip(&mut areas)) {
            table.clone_from(&input.table);
            area.clear();
            area.extend_from_slice(before(input));
        }
        let library = library.calls();
        let began = Instant::now();
        for (input, (table, area)) in lent().zip(tables.iter_mut().zip(&mut areas)) {
            run(library, input, black_box(table), black_box(area));
        }
        let time = began.elapsed();
        if ends.0 == turn {
            assert!(ends.1 == areas, "{what}: areas differ");
        } else {
            ends.0 = turn;
            ends.1.clone_from(&areas);
        }
        time / batch as u32
    };
    Timed::new(what, Some(inputs.size), &Library::ALL, once)
}

/// So many variants of a short call at once that reading the clock does not count, in caches that hold
/// their areas.
fn short(inputs: &Inputs) -> usize {
    512 / inputs.size.n
}

fn expect(number: u32) {
    assert_eq!(number, 0, "refused in a benchmark");
}

fn expect_over(answer: Answer, input: &Input) {
    assert_eq!(answer.values[..2], [1, input.picks.len() as i64], "over, after D deliveries");
}

const READ: &str = "reading a table";
const START: &str = "start";
const PICK: &str = "one pick with its test of the area";
const WHOLE: &str = "a whole check by one running on";
const SHUFFLED: &str = "a whole check by one shuffled running on";
const PICKS: &str = "a whole check by picks";

fn started(input: &Input) -> &[i32] {
    &input.started
}

fn read(inputs: &Inputs) -> Timed<'_> {
    timed(
        READ,
        inputs,
        short(inputs),
        |_| &[],
        |library, _, table, _| {
            expect(library.read_table(table).number);
        },
    )
}

/// In the area of an earlier check of the same size.
fn start(inputs: &Inputs) -> Timed<'_> {
    timed(
        START,
        inputs,
        short(inputs),
        |input| &input.middle,
        |library, input, table, area| {
            expect(library.start(table, input.start, 1, area).number);
        },
    )
}

fn pick(inputs: &Inputs) -> Timed<'_> {
    timed(
        PICK,
        inputs,
        short(inputs),
        |input| &input.middle,
        |library, input, _, area| {
            let (from, to) = input.middle_pick();
            expect(library.pick(area, from, to, 1).number);
        },
    )
}

fn whole(inputs: &Inputs) -> Timed<'_> {
    timed(WHOLE, inputs, 1, started, |library, input, _, area| {
        expect_over(library.run_on(area, u32::MAX), input);
    })
}

/// The seed of every shuffled running on that is timed: Marsaglia's own.
const SEED: u32 = 2_463_534_242;

fn shuffled(inputs: &Inputs) -> Timed<'_> {
    timed(SHUFFLED, inputs, 1, started, |library, input, _, area| {
        expect_over(library.run_shuffled(area, u32::MAX, SEED), input);
    })
}

fn picks(inputs: &Inputs) -> Timed<'_> {
    timed(PICKS, inputs, 1, started, |library, input, _, area| {
        for &(from, to) in &input.picks {
            expect(library.pick(area, from, to, 1).number);
        }
    })
}

/// The times of one thing on all inputs.
fn by_shape(inputs: &[Inputs], rows: impl Iterator<Item = Row>) -> Vec<Shaped> {
    let shaped = inputs.iter().zip(rows).map(|(inputs, row)| Shaped {
        shape: inputs.shape,
        deliveries: inputs.deliveries(),
        row,
    });
    shaped.collect()
}

/// What the proved code is to keep: against the plain Rust and against the C.
fn short_bounds(_: usize) -> Bounds {
    [Some(1.2), None]
}

fn whole_bounds(n: usize) -> Bounds {
    match n {
        128 => [Some(1.05), Some(2.1)],
        _ => [Some(2.0), None],
    }
}

fn shuffled_bounds(n: usize) -> Bounds {
    match n {
        128 => [Some(1.3), None],
        _ => [Some(2.0), None],
    }
}

fn main() -> ExitCode {
    let words: Vec<OsString> = std::env::args_os().skip(1).collect();
    match asked(&words) {
        Ok(Asked::Times { plot }) => bench(plot),
        Ok(Asked::Repeat(repeated)) => {
            println!("{} deliveries", repeated.make());
            ExitCode::SUCCESS
        }
        Ok(Asked::Help) => {
            print!("{HELP}");
            ExitCode::SUCCESS
        }
        Err(message) => {
            eprintln!("bench: {message}");
            ExitCode::from(2)
        }
    }
}

fn bench(plot: Option<&OsString>) -> ExitCode {
    if STANDIN {
        println!("STAND-IN: the plain Rust is timed in the place of the proved library");
    }
    let inputs: Vec<Inputs> = SHAPES
        .into_iter()
        .flat_map(|shape| SIZES.map(|n| Inputs::new(shape, n, VARIANTS)))
        .collect();
    let largest = &inputs[SIZES.len() - 1];
    assert_eq!(largest.deliveries(), 4 * largest.size.m, "D of a strongly connected graph");
    let mut things: Vec<Timed> = Vec::new();
    for inputs in &inputs {
        things.extend([read(inputs), start(inputs), pick(inputs), whole(inputs)]);
    }
    things.extend(inputs.iter().map(shuffled));
    things.push(picks(largest));
    let mut rows = time_all(things);
    // By themselves: this program waits for them, and its processor is slower for a while after that.
    match programs::timed(largest) {
        Ok(timed) => rows.extend(time_all(timed.into())),
        Err(reason) => println!("The program is not timed: {reason}."),
    }
    let (fours, rest) = rows.split_at(4 * inputs.len());
    let (shuffled, rest) = rest.split_at(inputs.len());
    let fours: Vec<[Row; 4]> =
        fours.chunks_exact(4).filter_map(|rows| rows.try_into().ok()).collect();
    let growth = &fours[..SIZES.len()];
    let on_largest = &shuffled[SIZES.len() - 1..SIZES.len()];
    print_rows(&[&growth[SIZES.len() - 1], on_largest, rest].concat());
    print_growth(growth);
    let shaped = |thing: usize| by_shape(&inputs, fours.iter().map(|rows| rows[thing]));
    let whole = shaped(3);
    print_shapes(&shaped(1), short_bounds);
    print_shapes(&shaped(2), short_bounds);
    print_shapes(&whole, whole_bounds);
    print_deliveries(&whole);
    print_shapes(&by_shape(&inputs, shuffled.iter().copied()), shuffled_bounds);
    if let Some(path) = plot {
        if let Err(error) = std::fs::write(path, plot::draw(growth)) {
            eprintln!("bench: {}: {error}", path.to_string_lossy());
            return ExitCode::FAILURE;
        }
    }
    ExitCode::SUCCESS
}

#[test]
fn arguments_are_known_or_named() {
    let words: Vec<OsString> = ["a.svg", "b.svg", "--help", "--plot"].map(OsString::from).into();
    assert_eq!(asked(&[]), Ok(Asked::Times { plot: None }));
    assert_eq!(asked(&words[..1]), Ok(Asked::Times { plot: Some(&words[0]) }));
    assert_eq!(asked(&words[2..3]), Ok(Asked::Help));
    assert!(asked(&words[..2]).unwrap_err().contains("unknown argument b.svg"));
    assert!(asked(&words[3..]).unwrap_err().contains("unknown argument --plot"));
    let repeat = ["--repeat", "1", "c", "run", "random", "16"].map(OsString::from);
    assert!(matches!(asked(&repeat), Ok(Asked::Repeat(_))));
    assert!(asked(&repeat[..5]).unwrap_err().contains("--repeat wants"));
}
