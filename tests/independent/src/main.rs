//! Answers requests on standard input, one a line, or prints such requests made from a seed.
//! The answers are those of documents 01 and 02 as reader.rs, writer.rs, rolls.rs and times.rs read them; see README.md for the lines.

mod definitions;
mod generate;
mod reader;
mod rolls;
mod times;
mod values;
mod writer;

#[cfg(test)]
mod examples;

use generate::{DENSE_KINDS, KINDS};
use reader::{read_sheet, table_answer, view, view_answer, Answer, SHEET_BYTES};
use rolls::{add_sheet, read_roll};
use std::io::{BufRead, Write};
use times::time_answer;
use writer::write_form;

fn main() {
    let words: Vec<String> = std::env::args().skip(1).collect();
    let words: Vec<&str> = words.iter().map(String::as_str).collect();
    let done = match words.as_slice() {
        [] => answer_requests(),
        ["generate", seed, count] => print_requests(seed, count, "16385", false, &[]),
        ["generate", seed, count, longest, "dense", kinds @ ..] => print_requests(seed, count, longest, true, kinds),
        ["generate", seed, count, longest, kinds @ ..] => print_requests(seed, count, longest, false, kinds),
        ["definitions", specs] => print_module(specs),
        _ => usage(),
    };
    if !done {
        std::process::exit(2);
    }
}

fn usage() -> bool {
    eprintln!("independent                                                 answers request lines");
    eprintln!("independent generate SEED COUNT [LONGEST [dense] [KIND..]]  prints COUNT request lines, with sheets up to LONGEST bytes");
    eprintln!(
        "independent definitions SPECS                               prints request lines and their answers as statements about SPECS"
    );
    false
}

/// Prints `count` request lines, of all kinds where none is named; false where an argument is no number or no kind of request.
fn print_requests(seed: &str, count: &str, longest: &str, dense: bool, kinds: &[&str]) -> bool {
    let mut out = std::io::stdout().lock();
    let all = if dense { &DENSE_KINDS[..] } else { &KINDS[..] };
    let named = if kinds.is_empty() { all } else { kinds };
    match (seed.parse(), count.parse(), longest.parse()) {
        (Ok(seed), Ok(count), Ok(longest)) if named.iter().all(|kind| all.contains(kind)) => {
            generate::requests(seed, count, longest, dense, named).iter().all(|line| writeln!(out, "{line}").is_ok())
        }
        _ => usage(),
    }
}

/// Prints the request lines of standard input as a module of statements about the definitions in the folder `specs`.
fn print_module(specs: &str) -> bool {
    let requests: Result<Vec<String>, _> = std::io::stdin().lock().lines().collect();
    match requests.and_then(|requests| definitions::module(specs.as_ref(), &requests)) {
        Ok(module) => write!(std::io::stdout(), "{module}").is_ok(),
        Err(_) => false,
    }
}

fn answer_requests() -> bool {
    let mut out = std::io::stdout().lock();
    for line in std::io::stdin().lock().lines() {
        let answer = match line {
            Ok(line) => answer_line(&line).unwrap_or("not a request".to_string()),
            Err(_) => return false,
        };
        if writeln!(out, "{answer}").is_err() {
            return false;
        }
    }
    true
}

/// A table, a sheet and the number of cells lent, as the words of a request.
struct SheetRequest {
    table: Vec<u8>,
    sheet: Vec<u8>,
    lent: usize,
}

impl SheetRequest {
    fn of(words: &[&str]) -> Option<SheetRequest> {
        match words {
            [table, sheet, lent] => Some(SheetRequest { table: from_hex(table)?, sheet: from_hex(sheet)?, lent: lent.parse().ok()? }),
            _ => None,
        }
    }
}

/// The answer to one request, or nothing where the line is none.
fn answer_line(line: &str) -> Option<String> {
    let words: Vec<&str> = line.split_whitespace().collect();
    match words.as_slice() {
        ["table", table] => Some(in_words(table_answer(&from_hex(table)?))),
        ["sheet", rest @ ..] => {
            let request = SheetRequest::of(rest)?;
            let (answer, cells) = read_sheet(&request.table, &request.sheet, request.lent);
            Some(in_words(answer) + &cells_in_words(&cells))
        }
        ["form", rest @ .., room] if rest.len() == 3 => form_words(&SheetRequest::of(rest)?, room.parse().ok()?),
        ["form", rest @ ..] => form_words(&SheetRequest::of(rest)?, SHEET_BYTES),
        ["view", sheet, number, cells @ ..] => view_words(&from_hex(sheet)?, number.parse().ok()?, &numbers(cells)?),
        ["roll", table, roll, records, lent] => {
            let (answer, cells) = read_roll(&from_hex(table)?, &from_hex(roll)?, records.parse().ok()?, lent.parse().ok()?);
            Some(in_words(answer) + &cells_in_words(&cells))
        }
        ["add", rest @ .., roll, n, room] => adding_words(&SheetRequest::of(rest)?, from_hex(roll)?, n.parse().ok()?, room.parse().ok()?),
        ["time", value] => Some(time_answer(&from_hex(value)?).to_string()),
        _ => None,
    }
}

/// What the room of a roll is full of behind the bytes that are given.
const UNUSED: u8 = 0xFF;

/// The answer and the bytes added in hex, which are none where it is refused.
fn adding_words(request: &SheetRequest, mut roll: Vec<u8>, n: usize, room: usize) -> Option<String> {
    roll.resize(room, UNUSED);
    let answer = add_sheet(&request.table, &request.sheet, &mut roll, n, request.lent);
    let added = if answer.number == 0 { &roll[n..answer.count] } else { &[] };
    Some(format!("{} {}", in_words(answer), to_hex(added)))
}

/// The answer and the canonical form in hex, which is empty where it is refused.
fn form_words(request: &SheetRequest, room: usize) -> Option<String> {
    let (answer, form) = write_form(&request.table, &request.sheet, request.lent, room);
    Some(format!("{} {}", in_words(answer), to_hex(&form)))
}

fn numbers(words: &[&str]) -> Option<Vec<u32>> {
    words.iter().map(|word| word.parse().ok()).collect()
}

/// The second call's answer, and the part in hex, which is empty where the view is refused.
fn view_words(sheet: &[u8], number: usize, cells: &[u32]) -> Option<String> {
    let part = view(sheet, cells, number).unwrap_or_default();
    Some(format!("{} {}", in_words(view_answer(sheet, cells, number)), to_hex(part)))
}

fn in_words(answer: Answer) -> String {
    format!("{} {} {}", answer.number, answer.place, answer.count)
}

/// The cells up to the last that is not zero, each after a space.
fn cells_in_words(cells: &[u32]) -> String {
    let used = cells.iter().rposition(|&cell| cell != 0).map_or(0, |last| last + 1);
    cells[..used].iter().map(|cell| format!(" {cell}")).collect()
}

/// Bytes from pairs of hex digits; "-" is no bytes.
fn from_hex(hex: &str) -> Option<Vec<u8>> {
    if hex == "-" {
        return Some(Vec::new());
    }
    let digits: Option<Vec<u32>> = hex.chars().map(|digit| digit.to_digit(16)).collect();
    let pairs = digits.filter(|digits| digits.len() % 2 == 0)?;
    Some(pairs.chunks(2).map(|pair| (pair[0] * 16 + pair[1]) as u8).collect())
}

fn to_hex(bytes: &[u8]) -> String {
    if bytes.is_empty() {
        return "-".to_string();
    }
    bytes.iter().map(|byte| format!("{byte:02x}")).collect()
}
