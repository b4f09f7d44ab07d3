//! The same by tables of digits: a careful program, which puts each row into one buffer, over a
//! `BufWriter` too, and with no unsafe code.
use std::io::{self, BufWriter, Read, Write};

const DIGITS: &[u8; 16] = b"0123456789abcdef";
/// More than the longest row: sixteen numbers of three digits, each with a space behind it.
const LINE: usize = 80;

/// A byte in decimal.
struct Decimal {
    text: [u8; 3],
    len: u8,
}

fn decimals() -> [Decimal; 256] {
    std::array::from_fn(|number| {
        let digits = number.to_string();
        let mut text = [0; 3];
        text[..digits.len()].copy_from_slice(digits.as_bytes());
        Decimal {
            text,
            len: digits.len() as u8,
        }
    })
}

fn put_numbers<'a>(
    decimals: &[Decimal; 256],
    line: &mut [u8; LINE],
    bytes: impl Iterator<Item = &'a u8>,
) -> usize {
    let mut at = 0;
    for byte in bytes {
        let decimal = &decimals[usize::from(*byte)];
        line[at..at + 3].copy_from_slice(&decimal.text);
        at += usize::from(decimal.len);
        line[at] = b' ';
        at += 1;
    }
    line[at - 1] = b'\n';
    at
}

fn put_sum(line: &mut [u8; LINE], row: &[u8]) -> usize {
    let mut left: u32 = row.iter().map(|&it| u32::from(it)).sum();
    let mut at = 5;
    line[5] = b'\n';
    loop {
        at -= 1;
        line[at] = b'0' + (left % 10) as u8;
        left /= 10;
        if left == 0 {
            break;
        }
    }
    line.copy_within(at..6, 0);
    6 - at
}

fn put_hex<const N: usize>(line: &mut [u8; LINE], row: &[u8; N]) -> usize {
    for (pair, byte) in line.chunks_exact_mut(2).zip(row) {
        pair[0] = DIGITS[usize::from(byte >> 4)];
        pair[1] = DIGITS[usize::from(byte & 15)];
    }
    line[2 * N] = b'\n';
    2 * N + 1
}

/// Puts a row into the line, and returns its length.
#[inline(always)]
fn put_row<const N: usize>(
    decimals: &[Decimal; 256],
    line: &mut [u8; LINE],
    mode: &str,
    row: &[u8],
) -> usize {
    let row: &[u8; N] = row.try_into().expect("a whole row");
    match mode {
        "dec" | "last" => put_numbers(decimals, line, row.iter()),
        "back" => put_numbers(decimals, line, row.iter().rev()),
        "sum" => put_sum(line, row),
        _ => put_hex(line, row),
    }
}

/// Writes all rows, and returns whether there was a rest.
fn write_rows<const N: usize>(
    mode: &str,
    input: &[u8],
    output: &mut impl Write,
) -> io::Result<bool> {
    let decimals = &decimals();
    let mut line = [0; LINE];
    let rows = input.chunks_exact(N);
    let rest = rows.remainder();
    if mode == "last" {
        for row in rows.rev() {
            let len = put_row::<N>(decimals, &mut line, mode, row);
            output.write_all(&line[..len])?;
        }
    } else {
        for row in rows {
            let len = put_row::<N>(decimals, &mut line, mode, row);
            output.write_all(&line[..len])?;
        }
    }
    if !rest.is_empty() {
        output.write_all(b"rest ")?;
        let len = put_numbers(decimals, &mut line, rest.iter());
        output.write_all(&line[..len])?;
    }
    output.flush()?;
    Ok(!rest.is_empty())
}

fn main() -> io::Result<()> {
    let words: Vec<String> = std::env::args().skip(1).collect();
    let mode = words.first().map_or("dec", String::as_str);
    let mut input = Vec::new();
    io::stdin().lock().read_to_end(&mut input)?;
    let mut output = BufWriter::new(io::stdout().lock());
    let has_rest = match words.get(1).map_or("4", String::as_str) {
        "1" => write_rows::<1>(mode, &input, &mut output)?,
        "2" => write_rows::<2>(mode, &input, &mut output)?,
        "4" => write_rows::<4>(mode, &input, &mut output)?,
        "8" => write_rows::<8>(mode, &input, &mut output)?,
        _ => write_rows::<16>(mode, &input, &mut output)?,
    };
    std::process::exit(if has_rest { 1 } else { 0 })
}
