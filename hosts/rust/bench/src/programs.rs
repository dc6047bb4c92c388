//! The check program from process start to exit.

use crate::inputs::Inputs;
use crate::timing::{Library, Timed};
use std::env;
use std::io::Write;
use std::path::{Path, PathBuf};
use std::process::{Command, Stdio};
use std::time::{Duration, Instant};

fn plain_program() -> Result<PathBuf, String> {
    let beside = || Some(env::current_exe().ok()?.with_file_name("plain_check"));
    let path = env::var_os("PLAIN_CHECK").map(PathBuf::from).or_else(beside);
    path.filter(|path| path.exists()).ok_or("plain_check is not built".into())
}

/// An input without picks: the start process, edition 1, the table.
pub fn input_of(table: &[u8], start: usize) -> Vec<u8> {
    [&[start as u8, 0, 1, 0], table].concat()
}

/// The longest input, most of it picks: the whole check by picks, then picks that are refused.
fn with_picks(mut input: Vec<u8>, picks: &[(usize, usize)]) -> Vec<u8> {
    for &(from, to) in picks.iter().cycle() {
        if input.len() + 4 > plain::LARGEST_INPUT {
            break;
        }
        input.extend((from as u16).to_le_bytes());
        input.extend((to as u16).to_le_bytes());
    }
    input
}

/// Inputs without picks, and the longest inputs.
pub fn timed(inputs: &Inputs) -> Result<[Timed<'static>; 2], String> {
    let proved = env::var_os("KNOT_CHECK").map(PathBuf::from).ok_or("KNOT_CHECK is not set")?;
    let programs = [proved, plain_program()?];
    let short: Vec<_> =
        inputs.variants.iter().map(|input| input_of(&input.table, input.start)).collect();
    let picks = inputs.variants.iter().map(|input| &input.picks);
    let long = short.iter().zip(picks).map(|(input, picks)| with_picks(input.clone(), picks));
    let long = long.collect();
    Ok([
        on_inputs("the program, start to exit, input without picks", programs.clone(), short)?,
        on_inputs("the program, start to exit, longest input", programs, long)?,
    ])
}

fn on_inputs(
    what: &'static str,
    programs: [PathBuf; 2],
    inputs: Vec<Vec<u8>>,
) -> Result<Timed<'static>, String> {
    for input in &inputs {
        let mut expected = Vec::new();
        plain::check_program(input, &mut expected);
        for program in &programs {
            let (output, _) = run(program, input)?;
            if output != expected {
                let program = program.display();
                return Err(format!("{program} prints something else than the plain Rust"));
            }
        }
    }
    let once = move |library: Library, turn: usize| {
        let input = &inputs[turn % inputs.len()];
        let (_, time) = run(&programs[library as usize], input).expect("it ran before");
        time
    };
    Ok(Timed::new(what, None, &[Library::Proved, Library::Plain], once))
}

fn run(program: &Path, input: &[u8]) -> Result<(Vec<u8>, Duration), String> {
    let failed = |error: std::io::Error| format!("{}: {error}", program.display());
    let began = Instant::now();
    let mut child = Command::new(program)
        .stdin(Stdio::piped())
        .stdout(Stdio::piped())
        .spawn()
        .map_err(failed)?;
    let mut stdin = child.stdin.take().expect("it is piped");
    stdin.write_all(input).map_err(failed)?;
    drop(stdin);
    let output = child.wait_with_output().map_err(failed)?.stdout;
    Ok((output, began.elapsed()))
}
