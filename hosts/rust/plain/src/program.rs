//! The check program of 01: bytes of standard input to bytes of standard output.

use crate::areas::words_needed;
use crate::runs::{Beginning, Delivered, Indexed, Run};
use crate::tables::leading_sizes;
use crate::{Counts, Message, Refusal};

/// The longest input, in bytes.
pub const LARGEST_INPUT: usize = 20_480;

/// Appends what the program prints for this input.
pub fn check_program(input: &[u8], out: &mut Vec<u8>) {
    if let Err(refusal) = check(input, out) {
        put_refused(out, refusal);
    }
}

/// The parts of an input.
struct Input<'a> {
    start: usize,
    edition: usize,
    table: &'a [u8],
    picks: &'a [u8],
}

/// Checks 13, 1, 2, 3, 12.
fn split(input: &[u8]) -> Result<Input<'_>, Refusal> {
    if input.len() > LARGEST_INPUT {
        return Err(Refusal::InputLong);
    }
    // 02, N4: "a 16-bit field after the start process, so 1 is met under 4 bytes before the table".
    let (heading, rest) = input.split_at_checked(4).ok_or(Refusal::NoSizes)?;
    let length = 2 * leading_sizes(rest)?.fields();
    let (table, picks) = rest.split_at_checked(length).ok_or(Refusal::Length)?;
    if picks.len() % 4 != 0 {
        return Err(Refusal::PickCut);
    }
    Ok(Input { start: number(&heading[..2]), edition: number(&heading[2..]), table, picks })
}

fn number(field: &[u8]) -> usize {
    usize::from(u16::from_le_bytes([field[0], field[1]]))
}

fn check(input: &[u8], out: &mut Vec<u8>) -> Result<(), Refusal> {
    let Input { start, edition, table, picks } = split(input)?;
    let beginning = Beginning::accept(table, start, edition)?;
    let mut words = vec![0; words_needed(beginning.sizes)];
    let mut run = Run::begin(&mut words, beginning);
    let mut links = Indexed::new(&run);
    for pick in picks.chunks_exact(4) {
        let (from, to) = (number(&pick[..2]), number(&pick[2..]));
        // 02, N5: "Program picks keep their form and mean place 1."
        match run.pick(&mut links, from, to, 1) {
            Ok(message) => put_delivery(out, b"pick ", Delivered { from, to, message }),
            Err(refusal) => {
                put_link(out, b"pick ", from, to);
                out.push(b' ');
                put_refused(out, refusal);
            }
        }
    }
    while !run.is_over() {
        let delivered = run.deliver_chosen(&mut links, Indexed::lowest)?;
        put_delivery(out, b"own ", delivered);
    }
    put_end(out, &run)
}

fn put_end(out: &mut Vec<u8>, run: &Run) -> Result<(), Refusal> {
    for (process, record) in (1..).zip(run.records()) {
        out.extend_from_slice(b"process ");
        put_decimal(out, process);
        for flag in [record.succeeding, record.preceding, record.subordinate] {
            put_field(out, flag);
        }
        put_field(out, record.cs);
        put_field(out, record.num);
        put_field(out, record.second);
        out.push(b'\n');
    }
    let report = run.report()?;
    put_line(out, b"over ", i64::from(report.deliveries));
    out.extend_from_slice(if report.knot { b"verdict knot\n" } else { b"verdict none\n" });
    put_line(out, b"outside ", i64::from(report.outside));
    put_line(out, b"escape ", report.escape as i64);
    out.extend_from_slice(if report.returned { b"mark returned\n" } else { b"mark held\n" });
    Ok(())
}

fn put_refused(out: &mut Vec<u8>, refusal: Refusal) {
    put_line(out, b"refused ", i64::from(refusal.number()));
}

fn put_link(out: &mut Vec<u8>, word: &[u8], from: usize, to: usize) {
    out.extend_from_slice(word);
    put_decimal(out, from as i64);
    out.push(b' ');
    put_decimal(out, to as i64);
}

fn put_delivery(out: &mut Vec<u8>, word: &[u8], delivered: Delivered) {
    put_link(out, word, delivered.from, delivered.to);
    match delivered.message {
        Message::Suc => out.extend_from_slice(b" suc\n"),
        Message::Pre => out.extend_from_slice(b" pre\n"),
        // 02, N3: "`ack` and `process` lines end with the second number".
        Message::Ack(Counts { count, second }) => {
            out.extend_from_slice(b" ack");
            put_field(out, count);
            put_field(out, second);
            out.push(b'\n');
        }
    }
}

fn put_field(out: &mut Vec<u8>, value: impl Into<i64>) {
    out.push(b' ');
    put_decimal(out, value.into());
}

fn put_line(out: &mut Vec<u8>, words: &[u8], value: i64) {
    out.extend_from_slice(words);
    put_decimal(out, value);
    out.push(b'\n');
}

fn put_decimal(out: &mut Vec<u8>, value: i64) {
    if value < 0 {
        out.push(b'-');
    }
    let mut digits = [0; 20];
    let mut place = digits.len();
    let mut rest = value.unsigned_abs();
    loop {
        place -= 1;
        digits[place] = b'0' + (rest % 10) as u8;
        rest /= 10;
        if rest == 0 {
            break;
        }
    }
    out.extend_from_slice(&digits[place..]);
}
