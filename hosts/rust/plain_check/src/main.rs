//! The check program of 01 in plain Rust: standard input to standard output.

use std::env;
use std::io::{self, Read, Write};
use std::process::ExitCode;

const HELP: &str = "\
The check program in plain Rust: reads one input from standard input and prints what came of it.

  plain_check < INPUT

It takes no arguments. tools/knot_input.sh makes inputs.
";

fn main() -> io::Result<ExitCode> {
    match env::args_os().nth(1) {
        None => check().map(|()| ExitCode::SUCCESS),
        Some(word) if word == "-h" || word == "--help" => {
            print!("{HELP}");
            Ok(ExitCode::SUCCESS)
        }
        Some(word) => {
            eprintln!("plain_check: unknown argument {}; it takes none", word.to_string_lossy());
            Ok(ExitCode::from(2))
        }
    }
}

fn check() -> io::Result<()> {
    let mut input = Vec::with_capacity(plain::LARGEST_INPUT + 1);
    // One byte more than the longest input is enough to refuse it.
    io::stdin().lock().take(plain::LARGEST_INPUT as u64 + 1).read_to_end(&mut input)?;
    let mut output = Vec::new();
    plain::check_program(&input, &mut output);
    io::stdout().lock().write_all(&output)
}
