//! Reads a roll and adds a sheet to one: every answer, every record cell and every byte of the roll at exit.
//! Follows document 01, "Rolls", and refusals 12 to 16 of "Refusal numbers".

use crate::reader::{read_root, read_sheet, read_table, Answer, Refusal, Span, SHEET_BYTES};
use crate::writer::write_form;

/// The limits of "Sizes".
pub const ROLL_BYTES: usize = 65_536;
pub const SHEETS: usize = 256;

/// Cells of a record ("Rolls").
pub const RECORD_CELLS: usize = 5;

// ---- Reading

/// Reads a roll with `records` cells lent for records and `lent` for entries: the answer, and every record cell at exit.
pub fn read_roll(table: &[u8], roll: &[u8], records: usize, lent: usize) -> (Answer, Vec<u32>) {
    let mut cells = vec![0; records];
    match sheets_of(table, roll, records) {
        Ok(sheets) => {
            for (record, sheet) in cells.chunks_mut(RECORD_CELLS).zip(&sheets) {
                let (alone, _) = read_sheet(table, sheet.of(roll), lent);
                record.copy_from_slice(&[sheet.start as u32, sheet.end as u32, alone.number, alone.place as u32, alone.count as u32]);
            }
            (Answer { number: 0, place: roll.len(), count: sheets.len() }, cells)
        }
        Err(refusal) => (refusal.answer(), cells),
    }
}

/// The sheets of a roll that is accepted. Order: 13, 1, 14, 15.
fn sheets_of(table: &[u8], roll: &[u8], records: usize) -> Result<Vec<Span>, Refusal> {
    if roll.len() > ROLL_BYTES {
        return Err(Refusal { number: 13, place: ROLL_BYTES });
    }
    read_table(table)?;
    let starts = boundaries(roll);
    let before = &roll[..starts.first().copied().unwrap_or(roll.len())];
    if let Some(place) = no_part_of_blank_lines(before) {
        return Err(Refusal { number: 14, place });
    }
    if let Some(&place) = starts.get(SHEETS.min(records / RECORD_CELLS)) {
        return Err(Refusal { number: 15, place });
    }
    let ends = starts.iter().skip(1).copied().chain([roll.len()]);
    Ok(starts.iter().zip(ends).map(|(&start, end)| Span { start, end }).collect())
}

/// Where the lines start that begin with "<" and an upper case letter. Lines start at offset 0 and after each LF.
fn boundaries(roll: &[u8]) -> Vec<usize> {
    let (mut starts, mut at) = (Vec::new(), 0);
    for line in roll.split_inclusive(|&byte| byte == b'\n') {
        if matches!(line, [b'<', b'A'..=b'Z', ..]) {
            starts.push(at);
        }
        at += line.len();
    }
    starts
}

/// The first byte that is neither space nor tab nor of a line end.
fn no_part_of_blank_lines(bytes: &[u8]) -> Option<usize> {
    (0..bytes.len()).find(|&at| match bytes[at] {
        b' ' | b'\t' | b'\n' => false,
        b'\r' => bytes.get(at + 1) != Some(&b'\n'),
        _ => true,
    })
}

// ---- Adding

/// Adds a sheet's canonical form and one further LF after the first `n` bytes of the roll.
pub fn add_sheet(table: &[u8], sheet: &[u8], roll: &mut [u8], n: usize, lent: usize) -> Answer {
    match form_to_add(table, sheet, roll, n, lent) {
        Ok(mut form) => {
            form.push(b'\n');
            let total = n + form.len();
            roll[n..total].copy_from_slice(&form);
            Answer { number: 0, place: 0, count: total }
        }
        Err(refusal) => refusal.answer(),
    }
}

/// The form, where it may be added. Order: all refusals of reading, then 16, 12, 14.
fn form_to_add(table: &[u8], sheet: &[u8], roll: &[u8], n: usize, lent: usize) -> Result<Vec<u8>, Refusal> {
    let root = read_root(table, sheet, lent)?;
    if let Some(text) = root.annotations.first() {
        return Err(Refusal { number: 16, place: text.start - 1 });
    }
    let (written, form) = write_form(table, sheet, lent, SHEET_BYTES - 1);
    let room = ROLL_BYTES.min(roll.len());
    if written.number != 0 || n > room || room - n < form.len() + 1 {
        return Err(Refusal { number: 12, place: 0 });
    }
    if n > 0 && roll[n - 1] != b'\n' {
        return Err(Refusal { number: 14, place: n });
    }
    Ok(form)
}
