//! Compares the proved library, or the C comparator, with the plain Rust, call by call, on more than two
//! million calls drawn from a seeded generator. `HELP` says how it is called.

mod driver;
mod families;
mod graphs;
mod layout;
#[cfg(test)]
mod planted;
mod programs;
mod rng;
#[cfg(test)]
mod running;
#[cfg(test)]
mod seconds;

use calls::{Calls, Fast, Proved, STANDIN};
use driver::{Driver, Outcome};
use rng::Rng;
use std::io::Write;
use std::path::PathBuf;
use std::process::ExitCode;
use std::time::Instant;

const HELP: &str = "\
Compares the proved library with the plain Rust, call by call.

  compare [--library NAME] [--seed NUMBER] [--family NAME] [--program PATH]

  --library NAME   compares the library named: proved, which is meant without this, or c, the
                   comparator of the benchmarks, which has no calls but those that are timed
  --seed NUMBER    draws the calls from another seed than 1982
  --family NAME    makes the calls of one family only
  --program PATH   compares the built check program, knot_check, too

The last line is 'no difference in N calls', and the status 0. A first difference ends the
comparison with status 1 and is printed with all that is needed to make its call again. An
argument that is wrong is named with status 2. The families are:
";

/// What is compared with the plain Rust.
#[derive(Clone, Copy, Debug, PartialEq)]
enum Library {
    Proved,
    C,
}

struct Options {
    library: Library,
    seed: u64,
    family: Option<String>,
    program: Option<PathBuf>,
}

impl Default for Options {
    fn default() -> Options {
        Options { library: Library::Proved, seed: 1982, family: None, program: None }
    }
}

/// The options, or `None` if help is asked for.
fn options(mut words: impl Iterator<Item = String>) -> Result<Option<Options>, String> {
    let mut options = Options::default();
    while let Some(word) = words.next() {
        let mut value = || words.next().ok_or_else(|| format!("{word} wants a value"));
        match word.as_str() {
            "-h" | "--help" => return Ok(None),
            "--library" => options.library = library(&value()?)?,
            "--seed" => options.seed = seed(&value()?)?,
            "--family" => options.family = Some(known_family(value()?)?),
            "--program" => options.program = Some(value()?.into()),
            _ => {
                return Err(format!("unknown argument {word}; compare --help says which there are"))
            }
        }
    }
    Ok(Some(options))
}

fn library(value: &str) -> Result<Library, String> {
    match value {
        "proved" => Ok(Library::Proved),
        "c" => Ok(Library::C),
        _ => Err(format!("no library {value}; there are: proved; c")),
    }
}

fn seed(value: &str) -> Result<u64, String> {
    value.parse().map_err(|_| format!("no seed: {value}"))
}

fn family_names() -> Vec<&'static str> {
    families::families::<Proved>().into_iter().map(|(name, ..)| name).collect()
}

fn known_family(name: String) -> Result<String, String> {
    match family_names().contains(&name.as_str()) {
        true => Ok(name),
        false => Err(format!("no family {name}; there are: {}", family_names().join("; "))),
    }
}

fn print_help() {
    print!("{HELP}");
    for name in family_names() {
        println!("  {name}");
    }
}

/// Compares every family, or the one named, each with its share of `per_mille` of its calls.
fn compare<L: Calls>(driver: &mut Driver<L>, options: &Options, per_mille: u64) -> Outcome<()> {
    for (place, (name, least, family)) in families::families().into_iter().enumerate() {
        if options.family.as_deref().is_some_and(|wanted| wanted != name) {
            continue;
        }
        driver.begin_family(name);
        // The name stands there even if a call should end the program.
        print!("{name}: ");
        let _ = std::io::stdout().flush();
        let began = Instant::now();
        let mut rng = Rng::new(options.seed.wrapping_mul(1009).wrapping_add(place as u64));
        family(driver, &mut rng, least * per_mille / 1000)?;
        let seconds = began.elapsed().as_secs_f64();
        println!("{} calls, {seconds:.1} s", driver.calls_in_family());
    }
    Ok(())
}

/// A line for each call: how often it gave which number.
fn print_answers<L: Calls>(driver: &Driver<L>) {
    let mut last = "";
    for (&(call, number), times) in driver.answers() {
        if call != last {
            print!("{}{call}:", if last.is_empty() { "" } else { "\n" });
            last = call;
        }
        print!(" {number} x {times},");
    }
    println!();
}

fn main() -> ExitCode {
    let options = match options(std::env::args().skip(1)) {
        Ok(Some(options)) => options,
        Ok(None) => {
            print_help();
            return ExitCode::SUCCESS;
        }
        Err(message) => {
            eprintln!("compare: {message}");
            return ExitCode::from(2);
        }
    };
    match options.library {
        Library::Proved => {
            if STANDIN {
                println!(
                    "STAND-IN: the plain Rust is compared with itself, not with the proved library"
                );
            }
            compare_all(&Proved, &options)
        }
        Library::C => compare_all(&Fast, &options),
    }
}

/// Compares all that the options ask for, and prints what came of it.
fn compare_all<L: Calls>(library: &L, options: &Options) -> ExitCode {
    let mut driver = Driver::new(library, options.seed);
    if let Err(difference) = compare(&mut driver, options, 1000) {
        println!("\n{difference}");
        return ExitCode::FAILURE;
    }
    if let Some(program) = &options.program {
        match programs::compare(program, options.seed) {
            Ok(inputs) => println!("programs: the same output for {inputs} inputs"),
            Err(difference) => {
                println!("{difference}");
                return ExitCode::FAILURE;
            }
        }
    }
    println!("how often each call gave which number:");
    print_answers(&driver);
    println!("no difference in {} calls", driver.calls());
    ExitCode::SUCCESS
}

#[test]
fn arguments_are_known_or_named() {
    let given = |words: &str| options(words.split_whitespace().map(String::from));
    let refused = |words: &str| given(words).err().expect("it is refused");
    assert!(given("--seed 7 --help").unwrap().is_none());
    let options = given("--program a/b --seed 7").unwrap().unwrap();
    assert_eq!((options.seed, options.program), (7, Some("a/b".into())));
    assert_eq!(options.library, Library::Proved);
    assert_eq!(given("--library c").unwrap().unwrap().library, Library::C);
    assert!(refused("--library x").contains("no library x; there are: proved; c"));
    assert!(refused("--sed 7").contains("unknown argument --sed"));
    assert!(refused("--seed").contains("--seed wants a value"));
    assert!(refused("--seed x").contains("no seed: x"));
    assert!(refused("--family x").contains("no family x; there are: valid tables"));
}

/// A part of what hosts/test.sh compares.
#[test]
fn the_c_comparator_is_as_the_plain_rust() {
    let options = Options { library: Library::C, seed: 7, ..Options::default() };
    let mut driver = Driver::new(&Fast, options.seed);
    if let Err(difference) = compare(&mut driver, &options, 50) {
        panic!("{difference}");
    }
}
