//! The check program compared with the plain Rust on inputs drawn from the generator: all of its
//! output.

use crate::graphs::Graph;
use crate::layout::links;
use crate::rng::Rng;
use std::io::Write;
use std::path::Path;
use std::process::{Command, Stdio};

const INPUTS: usize = 1500;

/// Gives the number of inputs, or the first difference.
pub fn compare(program: &Path, seed: u64) -> Result<usize, String> {
    for (place, input) in inputs(seed).enumerate() {
        let mut expected = Vec::new();
        plain::check_program(&input, &mut expected);
        let found =
            run(program, &input).map_err(|error| format!("{}: {error}", program.display()))?;
        if found != expected {
            let (found, expected) =
                (String::from_utf8_lossy(&found), String::from_utf8_lossy(&expected));
            return Err(format!(
                "difference in program input {place}, seed {seed}\ninput: {input:?}\nprogram:\n{found}plain:\n{expected}"
            ));
        }
    }
    Ok(INPUTS)
}

fn run(program: &Path, input: &[u8]) -> std::io::Result<Vec<u8>> {
    let mut child = Command::new(program).stdin(Stdio::piped()).stdout(Stdio::piped()).spawn()?;
    // A program that refuses a long input may stop reading it.
    let _ = child.stdin.take().expect("it is piped").write_all(input);
    Ok(child.wait_with_output()?.stdout)
}

fn inputs(seed: u64) -> impl Iterator<Item = Vec<u8>> {
    let mut rng = Rng::new(seed.wrapping_mul(1009).wrapping_add(999));
    let named = named_inputs(&mut rng);
    named.into_iter().chain(std::iter::from_fn(move || Some(draw_input(&mut rng)))).take(INPUTS)
}

/// Of 02, N4: under all kinds of editions inputs of 0 to 8 bytes, the rows that it names, the waits that
/// N3 names, and a table with two arcs alike, from process 1 and from none, with and without a byte left.
fn named_inputs(rng: &mut Rng) -> Vec<Vec<u8>> {
    let checks: [(usize, &[(usize, usize)]); 5] = [
        (1, &[]),
        (1, &[(1, 1)]),
        (2, &[(2, 1)]),
        (3, &[(1, 2), (2, 3), (3, 2)]),
        (1, &[(1, 1), (1, 1)]),
    ];
    let mut inputs = Vec::new();
    for edition in [0, 1, 2, 3, (1 << 8) + 1, u16::MAX] {
        for (n, waits) in checks {
            let table = Graph { n, waits: waits.to_vec() }.table(rng);
            for start in [1, 0] {
                let input = [heading(start, edition), table.clone()].concat();
                inputs.push([&input[..], &[0]].concat());
                inputs.push(input);
            }
        }
        let sizes = [1, 0, 0, 0];
        let input = [&heading(1, edition)[..], &sizes].concat();
        inputs.extend((0..=input.len()).map(|length| input[..length].to_vec()));
    }
    inputs
}

fn heading(start: usize, edition: u16) -> Vec<u8> {
    [(start as u16).to_le_bytes(), edition.to_le_bytes()].concat()
}

fn draw_input(rng: &mut Rng) -> Vec<u8> {
    let graph = Graph::any(rng);
    let start = if rng.one_in(20) { rng.below(graph.n + 2) } else { rng.within(1, graph.n) };
    let edition = if rng.one_in(20) { rng.below(5) } else { rng.within(1, 2) };
    let mut input = heading(start, edition as u16);
    input.extend(graph.table(rng));
    let links = links(&graph);
    let picks = rng.choose(&[0, 1, 5, 40, 400]);
    for _ in 0..picks {
        let (from, to) = match links.is_empty() || rng.one_in(8) {
            true => (rng.below(graph.n + 2), rng.below(graph.n + 2)),
            false => {
                let link = rng.choose(&links);
                (link.from, link.to)
            }
        };
        input.extend((from as u16).to_le_bytes());
        input.extend((to as u16).to_le_bytes());
    }
    match rng.below(24) {
        0 => input.truncate(rng.below(input.len() + 1)),
        1 => {
            let place = rng.below(input.len());
            input[place] = rng.draw() as u8;
        }
        2 => input.push(rng.draw() as u8),
        3 => input.resize(rng.choose(&[20_480, 20_481, 20_482, 20_479, 70_000]), 0),
        _ => {}
    }
    input
}

#[test]
fn every_refusal_of_an_input_and_every_verdict_occurs() {
    let printed = inputs(1982).map(|input| {
        let mut printed = Vec::new();
        plain::check_program(&input, &mut printed);
        let edition = input.get(2..4).map(|field| u16::from_le_bytes([field[0], field[1]]));
        (edition, String::from_utf8(printed).expect("it prints ASCII"))
    });
    let printed: Vec<_> = printed.collect();
    let occurs = |line: &str| printed.iter().any(|(_, printed)| printed == line);
    for number in [1, 2, 3, 4, 5, 6, 7, 8, 12, 13, 30] {
        assert!(occurs(&format!("refused {number}\n")), "{number} is missing");
    }
    let ends =
        ["verdict knot\noutside 0\n", "verdict none\noutside 0\n", "verdict none\noutside 1\n"];
    for (edition, ends) in [(1, &[ends[0], ends[2]][..]), (2, &ends)] {
        for end in ends {
            let mut judged = printed.iter().filter(|(named, _)| *named == Some(edition));
            assert!(judged.any(|(_, printed)| printed.contains(end)), "{edition}: {end}");
        }
    }
    // 02, N3: either mark with either verdict; second counts over 1, also after a negative count.
    let judged: Vec<_> = printed.iter().map(|(_, printed)| printed).collect();
    for verdict in ["verdict knot\n", "verdict none\n"] {
        for mark in ["mark returned\n", "mark held\n"] {
            let both = |printed: &&String| printed.contains(verdict) && printed.ends_with(mark);
            assert!(judged.iter().copied().any(|printed| both(&printed)), "{verdict}{mark}");
        }
    }
    for ack in [" ack -1 0\n", " ack -1 1\n", " ack 3 2\n"] {
        assert!(judged.iter().any(|printed| printed.contains(ack)), "{ack}");
    }
}
