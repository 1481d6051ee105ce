//! Makes request lines from a seed: tables, sheets, rolls and times that are valid, nearly valid, damaged, cut or at a limit.
//! Follows document 01's grammar, and 001 §18's to §22's, to print trees in random layouts; each printed rule may be broken once.

mod dense;

use crate::reader::{is_trait_name, read_sheet, CONCEPTS_DEEP, ENTRIES, ENTRY_CELLS, NAME_BYTES, SHEET_BYTES};
use crate::rolls::{read_roll, RECORD_CELLS, ROLL_BYTES, SHEETS};
use crate::to_hex;
use crate::values::{Bracket, BRACKETS_DEEP, LIST, MAP, SET, TUPLE};
use crate::writer::write_form;
use dense::dense_sheet;

/// Cells for every entry a sheet may have.
const PLENTY: usize = ENTRIES * ENTRY_CELLS;

/// The kinds of requests, by their first words.
pub const KINDS: [&str; 7] = ["table", "sheet", "form", "view", "roll", "add", "time"];

/// Those that are made of sheets dense in traits.
pub const DENSE_KINDS: [&str; 5] = ["sheet", "form", "view", "roll", "add"];

/// `count` request lines of the kinds named, none with a sheet or a time longer than `longest` or a roll longer than four times that; of
/// sheets dense in traits alone, if that is asked.
pub fn requests(seed: u64, count: usize, longest: usize, dense: bool, kinds: &[&str]) -> Vec<String> {
    let mut chance = Chance(seed);
    let mut lines = Vec::new();
    while lines.len() < count {
        let mut made = Vec::new();
        if dense {
            add_dense(&mut made, &mut chance, longest);
        } else {
            add_requests(&mut made, &mut chance, longest);
        }
        lines.extend(made.into_iter().filter(|line| kinds.iter().any(|kind| line.starts_with(kind))));
    }
    lines.truncate(count);
    lines
}

/// Requests whose sheets are at most so long have small tables too: the definitions are computed with them.
const SMALL: usize = 200;

/// The requests about one table, sheet, roll or time, of all kinds.
fn add_requests(lines: &mut Vec<String>, chance: &mut Chance, longest: usize) {
    let names = if SMALL < longest && chance.one_in(6) { Names::many(chance) } else { Names::random(chance) };
    match chance.below(680) {
        0..=19 => add_table(lines, chance, &names, longest),
        20..=30 => add_limit(lines, chance, longest),
        31 => add_cuts(lines, chance, &names, longest),
        32..=69 => {
            let sheet = pieces_in_a_row(chance);
            add_sheet(lines, chance, &Names::papers().table(), sheet.as_bytes(), longest);
        }
        70..=89 => {
            let sheet = one_value(chance);
            add_sheet(lines, chance, &Names::papers().table(), sheet.as_bytes(), longest);
        }
        90..=129 => {
            let sheet = one_address(chance);
            add_sheet(lines, chance, &Names::papers().table(), &sheet, longest);
        }
        130..=189 => {
            let roll = any_roll(chance, &names, longest);
            add_roll(lines, chance, &names, &roll, longest);
        }
        190..=249 => add_any(lines, chance, &names, longest),
        250..=329 => add_time(lines, chance, longest),
        330..=409 => {
            let sheet = one_fault(chance);
            add_sheet(lines, chance, &Names::papers().table(), &sheet, longest);
        }
        410..=489 => {
            let sheet = one_bracketed(chance);
            add_sheet(lines, chance, &Names::papers().table(), &sheet, longest);
        }
        490..=549 => {
            let sheet = one_marker(chance, &names, longest);
            add_marker(lines, chance, &names.table(), &sheet, longest);
        }
        550..=569 => add_dense(lines, chance, longest),
        _ => {
            let sheet = any_sheet(chance, &names);
            add_sheet(lines, chance, &names.table(), &sheet, longest);
        }
    }
}

/// A table that is mostly refused, and at times a sheet under it.
fn add_table(lines: &mut Vec<String>, chance: &mut Chance, names: &Names, longest: usize) {
    let table = if names.are_many() && chance.one_in(2) { repeating_table(chance, names) } else { damaged_table(chance, names) };
    lines.push(format!("table {}", to_hex(&table)));
    if chance.one_in(4) {
        let sheet = any_sheet(chance, names);
        add_sheet(lines, chance, &table, &sheet, longest);
    }
}

/// The requests about one sheet: its reading, mostly its form, and at times a view.
fn add_sheet(lines: &mut Vec<String>, chance: &mut Chance, table: &[u8], sheet: &[u8], longest: usize) {
    if sheet.len() > longest {
        return;
    }
    let lent = random_lent(chance, table, sheet);
    let rest = format!("{} {} {}", to_hex(table), to_hex(sheet), lent);
    lines.push(format!("sheet {rest}"));
    if !chance.one_in(4) {
        lines.push(format!("form {rest}"));
    }
    if chance.one_in(4) {
        lines.push(format!("form {rest} {}", random_room(chance, table, sheet)));
    }
    if chance.one_in(8) {
        lines.push(view_request(chance, table, sheet));
    }
}

/// Room for a form: exactly enough, one byte too few, fewer, some more, or more than any form may take.
fn random_room(chance: &mut Chance, table: &[u8], sheet: &[u8]) -> usize {
    let enough = write_form(table, sheet, PLENTY, SHEET_BYTES).0.count;
    let (fewer, more) = (chance.below(enough + 1), enough + 1 + chance.below(40));
    *chance.pick(&[&enough, &enough, &enough.saturating_sub(1), &enough.saturating_sub(1), &fewer, &more, &(4 * SHEET_BYTES)])
}

/// A view of some entry or of none, at times over cells of which one was changed or the last were taken away.
fn view_request(chance: &mut Chance, table: &[u8], sheet: &[u8]) -> String {
    let (answer, mut cells) = read_sheet(table, sheet, PLENTY);
    cells.truncate((answer.count + chance.below(2)) * ENTRY_CELLS);
    if !cells.is_empty() && chance.one_in(2) {
        let length = sheet.len() as u32;
        let at = chance.below(cells.len());
        cells[at] = *chance.pick(&[&0, &1, &9, &length, &(length + 1), &u32::MAX]);
    }
    if chance.one_in(8) {
        cells.truncate(chance.below(cells.len() + 1));
    }
    let far = [1 << 32, 1 << 61, usize::MAX];
    let number = if chance.one_in(16) { far[chance.below(3)] } else { chance.below(answer.count + 2) };
    let cells: String = cells.iter().map(|cell| format!(" {cell}")).collect();
    format!("view {} {number}{cells}", to_hex(sheet))
}

/// Cells to lend: mostly plenty or more; else none, few, too few, exactly enough or one too few.
fn random_lent(chance: &mut Chance, table: &[u8], sheet: &[u8]) -> usize {
    let enough = read_sheet(table, sheet, PLENTY).0.count * ENTRY_CELLS;
    match chance.below(20) {
        0 => 0,
        1 => chance.below(40),
        2 => enough + chance.below(12),
        3..=6 => PLENTY + chance.below(40),
        7..=8 if enough > 0 => enough,
        9..=10 if enough > 0 => enough - 1,
        11..=12 if enough > 0 => chance.below(enough),
        _ => PLENTY,
    }
}

fn any_sheet(chance: &mut Chance, names: &Names) -> Vec<u8> {
    let slips = chance.one_in(2);
    let concepts = if chance.one_in(20) { 60 } else { 1 + chance.below(6) };
    let sheet = Printer::new(chance, names, slips).sheet(concepts);
    match chance.below(4) {
        0 if !slips => damaged(chance, sheet),
        1 if chance.one_in(4) => {
            let length = chance.below(sheet.len() + 1);
            sheet[..length].to_vec()
        }
        _ => sheet,
    }
}

/// One sheet cut at every byte.
fn add_cuts(lines: &mut Vec<String>, chance: &mut Chance, names: &Names, longest: usize) {
    let sheet = Printer::new(chance, names, false).sheet(2);
    let table = names.table();
    if sheet.len() > longest.min(200) {
        return;
    }
    for length in 0..=sheet.len() {
        let lent = if chance.one_in(4) { chance.below(40) } else { PLENTY };
        lines.push(format!("sheet {} {} {}", to_hex(&table), to_hex(&sheet[..length]), lent));
    }
}

// ---- Rolls

/// A roll, mostly with room for all its records and all entries of its sheets.
fn add_roll(lines: &mut Vec<String>, chance: &mut Chance, names: &Names, roll: &[u8], longest: usize) {
    if roll.len() > 4 * longest {
        return;
    }
    let table = if chance.one_in(12) { damaged_table(chance, names) } else { names.table() };
    let most = SHEETS * RECORD_CELLS;
    let enough = read_roll(&table, roll, most, 0).0.count * RECORD_CELLS;
    let records = match chance.below(12) {
        0 => chance.below(12),
        1..=3 => enough,
        4..=5 => enough.saturating_sub(1),
        6 => enough + chance.below(12),
        7 => most + chance.below(40),
        _ => most,
    };
    let lent = if chance.one_in(4) { chance.below(40) } else { PLENTY + chance.below(2) * chance.below(40) };
    lines.push(format!("roll {} {} {records} {lent}", to_hex(&table), to_hex(roll)));
}

/// Some sheets one behind the other, or a roll at a limit; as it is, damaged or cut. What stands before the first is mostly blank.
fn any_roll(chance: &mut Chance, names: &Names, longest: usize) -> Vec<u8> {
    let blank = ["", "", "\n", " \t\r\n\n", "\n\t \n"];
    let faulty = [" ", "\t", "\n  x", "\r", "x\n", "[a]\n", "\n ", " <Lab/>\n", "<lab/>\n", "<\n", "\0"];
    let before = if chance.one_in(6) { &faulty[..] } else { &blank[..] };
    let mut roll = chance.pick(before).as_bytes().to_vec();
    match chance.below(24) {
        0 => roll.extend(b"<A\n".repeat(SHEETS - 1 + chance.below(3))),
        1 if longest > SHEET_BYTES => roll = roll_at_limit(chance, names),
        _ => {
            for _ in 0..chance.below(6) {
                roll.extend(sheet_of_roll(chance, names));
            }
        }
    }
    match chance.below(12) {
        0 => damaged(chance, roll),
        1 => roll[..chance.below(roll.len() + 1)].to_vec(),
        _ => roll,
    }
}

/// A sheet as adding writes it, at times damaged behind its first two bytes or cut; or any other, or one with several traits.
fn sheet_of_roll(chance: &mut Chance, names: &Names) -> Vec<u8> {
    let sheet = any_sheet(chance, names);
    let (_, form) = write_form(&names.table(), &sheet, PLENTY, SHEET_BYTES);
    let mut part = if form.is_empty() && !chance.one_in(4) { b"<Lab />\n".to_vec() } else { form };
    match chance.below(12) {
        0 => part = sheet,
        1 if part.len() > 2 => {
            let rest = damaged(chance, part.split_off(2));
            part.extend(rest);
        }
        2 => part.truncate(chance.below(part.len() + 1)),
        3 => part = one_marker(chance, names, SMALL),
        _ => {}
    }
    let end = chance.pick(&["\n", "\n", "\n", "\n", "", "\r\n", "\r", "\n\n\t\n"]);
    part.extend_from_slice(end.as_bytes());
    part
}

/// A roll of as many bytes as are allowed, or one or two more or fewer, at times with a sheet as long as is allowed or a byte more.
fn roll_at_limit(chance: &mut Chance, names: &Names) -> Vec<u8> {
    let length = ROLL_BYTES - 2 + chance.below(5);
    let mut roll = of_length(SHEET_BYTES - 1 + chance.below(2)).into_bytes();
    roll.truncate(if chance.one_in(2) { roll.len() } else { 0 });
    roll.push(b'\n');
    let one = sheet_of_roll(chance, names);
    while !one.is_empty() && roll.len() + one.len() < length {
        roll.extend(&one);
    }
    roll.resize(length, b'\n');
    roll
}

/// Any sheet to be added to any roll.
fn add_any(lines: &mut Vec<String>, chance: &mut Chance, names: &Names, longest: usize) {
    let papers = Names::papers();
    let (names, sheet) = match chance.below(12) {
        0 => (names, of_length(SHEET_BYTES - 2 + chance.below(4)).into_bytes()),
        1 | 2 => (&papers, one_bracketed(chance)),
        3 => (names, one_marker(chance, names, longest)),
        _ => (names, any_sheet(chance, names)),
    };
    let roll = any_roll(chance, names, longest);
    add_adding(lines, chance, names, &sheet, &roll, longest);
}

/// A sheet to be added to a roll.
fn add_adding(lines: &mut Vec<String>, chance: &mut Chance, names: &Names, sheet: &[u8], roll: &[u8], longest: usize) {
    if sheet.len() > longest || roll.len() > 4 * longest {
        return;
    }
    let table = if chance.one_in(16) { damaged_table(chance, names) } else { names.table() };
    let lent = random_lent(chance, &table, sheet);
    let n = random_end(chance, roll);
    let added = write_form(&table, sheet, PLENTY, SHEET_BYTES).0.count + 1;
    let room = random_room_behind(chance, roll.len(), n.saturating_add(added));
    lines.push(format!("add {} {} {lent} {} {n} {room}", to_hex(&table), to_hex(sheet), to_hex(roll)));
}

/// How many bytes of a roll are in use: mostly all of it, or up to a line's end; else none, some, more than there are, or too many.
fn random_end(chance: &mut Chance, roll: &[u8]) -> usize {
    let lines: Vec<usize> = (1..=roll.len()).filter(|&end| roll[end - 1] == b'\n').collect();
    match chance.below(12) {
        0 => 0,
        1 => chance.below(roll.len() + 1),
        2 => roll.len() + 1 + chance.below(3),
        3 => *chance.pick(&[&ROLL_BYTES, &(ROLL_BYTES + 1), &(1 << 32), &(1 << 63), &(usize::MAX - 1), &usize::MAX]),
        4..=8 if !lines.is_empty() => lines[chance.below(lines.len())],
        _ => roll.len(),
    }
}

/// Room for a roll that grows to `total`: some more, exactly enough, one byte too few, fewer, what is there, or more than any roll may take.
fn random_room_behind(chance: &mut Chance, there: usize, total: usize) -> usize {
    let most = ROLL_BYTES + chance.below(40);
    let (fewer, more) = (chance.below(total.min(most) + 1), total.saturating_add(chance.below(40)));
    let room = *chance.pick(&[&total, &total, &(total - 1), &(total - 1), &fewer, &there, &more, &more, &more, &more, &most]);
    room.min(most)
}

// ---- Chance

/// A splitmix64 sequence.
struct Chance(u64);

impl Chance {
    fn next(&mut self) -> u64 {
        self.0 = self.0.wrapping_add(0x9E37_79B9_7F4A_7C15);
        let mut mixed = self.0;
        mixed = (mixed ^ (mixed >> 30)).wrapping_mul(0xBF58_476D_1CE4_E5B9);
        mixed = (mixed ^ (mixed >> 27)).wrapping_mul(0x94D0_49BB_1331_11EB);
        mixed ^ (mixed >> 31)
    }

    fn below(&mut self, bound: usize) -> usize {
        (self.next() % bound as u64) as usize
    }

    fn one_in(&mut self, odds: usize) -> bool {
        self.below(odds) == 0
    }

    fn pick<'a, T: ?Sized>(&mut self, choices: &[&'a T]) -> &'a T {
        choices[self.below(choices.len())]
    }
}

// ---- Names and mode tables

/// The names of a mode table.
struct Names {
    children: Vec<String>,
    content: Vec<String>,
}

impl Names {
    fn of(children: &[&str], content: &[&str]) -> Names {
        let owned = |names: &[&str]| names.iter().map(|name| name.to_string()).collect();
        Names { children: owned(children), content: owned(content) }
    }

    /// The table of "Sheets to try".
    fn papers() -> Names {
        Names::of(&["Lab"], &["Steps"])
    }

    /// The paper's table mostly, else one of a few others.
    fn random(chance: &mut Chance) -> Names {
        match chance.below(8) {
            0 => Names::of(&["A", "Ab", "AbC", "AB"], &["A1", "Abc"]),
            1 => Names::of(&["Lab", "Steps"], &[]),
            2 => Names::of(&["Box"], &["La", "Lab", "Labs"]),
            3 => Names::of(&["L123456789012345678901234567890x"], &["Steps"]),
            _ => Names::papers(),
        }
    }

    /// From 2 to 128 names, most of them alike, so that looking one up has to tell it from others that begin and end as it does.
    fn many(chance: &mut Chance) -> Names {
        let count = 2 + chance.below(127);
        let mut names = Vec::new();
        while names.len() < count {
            let name = alike(chance);
            if !names.contains(&name) {
                names.push(name);
            }
        }
        let content = names.split_off(count / 2);
        Names { children: names, content }
    }

    fn are_many(&self) -> bool {
        self.children.len() > 4
    }

    /// The table's bytes: two sections, each a count byte and names with their length bytes.
    fn table(&self) -> Vec<u8> {
        let mut table = Vec::new();
        for section in [&self.children, &self.content] {
            table.push(section.len() as u8);
            for name in section {
                table.push(name.len() as u8);
                table.extend_from_slice(name.as_bytes());
            }
        }
        table
    }
}

/// A Concept's name of 1 to 32 letters and digits, of which few are used.
fn alike(chance: &mut Chance) -> String {
    let mut name = chance.pick(&["A", "B", "N"]).to_string();
    let more = if chance.one_in(2) { chance.below(4) } else { chance.below(32) };
    for _ in 0..more {
        name.push_str(chance.pick(&["a", "b", "9"]));
    }
    name
}

/// The table with one of its names in the place of one of them, mostly of another.
fn repeating_table(chance: &mut Chance, names: &Names) -> Vec<u8> {
    let mut sections = [names.children.clone(), names.content.clone()];
    let from = &sections[chance.below(2)];
    let name = from[chance.below(from.len())].clone();
    let to = &mut sections[chance.below(2)];
    let place = chance.below(to.len());
    to[place] = name;
    let [children, content] = sections;
    Names { children, content }.table()
}

/// A table: as it is, with a byte changed, cut, or with a name that the rule forbids.
fn damaged_table(chance: &mut Chance, names: &Names) -> Vec<u8> {
    let bad_names = ["lab", "LABs", "4ab", "La-b", "", "Lab", "Steps", "La b", "L\u{e9}"];
    let long = "L".to_string() + &"a".repeat(chance.below(40));
    let many: Vec<String> = (0..60 + chance.below(8)).map(|number| format!("N{number}")).collect();
    match chance.below(6) {
        0 => names.table(),
        1 => damaged(chance, names.table()),
        2 => names.table()[..chance.below(names.table().len())].to_vec(),
        3 => Names { children: vec!["Lab".into(), chance.pick(&bad_names).into()], content: vec!["Steps".into()] }.table(),
        4 => Names { children: vec!["Lab".into()], content: vec![chance.pick(&bad_names).into(), long] }.table(),
        _ => Names { children: many, content: vec!["Steps".into()] }.table(),
    }
}

// ---- Pieces of the grammar in no order

/// A beginning that reads well, then pieces as chance strings them together.
fn pieces_in_a_row(chance: &mut Chance) -> String {
    let lines =
        ["<Lab", ">", "/>", "</Lab>", "</Steps>", "\n", "\r\n", "\t", " ", "[a]", "[", "]", "x", "<Steps", "<", "/", "n=1", "\\", "\n\t"];
    let values = [
        "\"", "\\", "\\u", "{", "}", "0", "1", "D8", "'", "`", "[", "]", ",", " ", "\n", "/", ">", "x:", ".", "e", "-", "a", "true",
        "\u{e9}", "$", "~",
    ];
    let (start, pieces) = match chance.below(15) {
        0 => ("", &lines[..]),
        1 => ("<Lab>\n", &lines[..]),
        2 => ("\t<Steps>\n", &lines[..]),
        3 => ("[a", &lines[..]),
        4 => ("<Lab n=\"", &values[..]),
        5 => ("<Lab n=[", &values[..]),
        6 => ("<Lab n=", &TIME_PIECES[..]),
        7 => ("<Lab n=[{", &TIME_PIECES[..]),
        8 => ("<Lab n=map[", &BRACKET_PIECES[..]),
        9 => ("<Lab n=(", &BRACKET_PIECES[..]),
        10 => ("<Lab n=set[map[a:", &BRACKET_PIECES[..]),
        11 => ("<Lab n=", &BRACKET_PIECES[..]),
        12 => ("<Lab n=1", &TRAIT_PIECES[..]),
        13 => ("<Lab n=map[n:1] nN=\" n=1\"", &TRAIT_PIECES[..]),
        _ => ("<Lab n=", &values[..]),
    };
    let mut sheet = start.to_string();
    for _ in 0..chance.below(8) {
        sheet.push_str(chance.pick(pieces));
    }
    let end = chance.pick(&["", "", "/>", " />", ">\n</Lab>", "\n\t</Steps>", "\n</Lab>", "]/>", ")/>", "\"/>"]);
    sheet + end
}

/// A marker with one value: a spelling that fits or nearly fits a kind, or digits, signs and letters in a row.
fn one_value(chance: &mut Chance) -> String {
    let parts = [
        "0", "1", "10", ".", "/", "e", "E", "+", "-", ":", "x", "A", "$", "~", "_", "%", "\u{e9}", "\u{E0FFF}", "\u{E1000}", "\u{1FFFD}",
        "\u{1FFFE}",
    ];
    let value = match chance.below(4) {
        0 => chance.pick(&WORDS).to_string(),
        1 | 2 => chance.pick(&FAULTY_VALUES).to_string(),
        _ => (0..1 + chance.below(5)).map(|_| chance.pick(&parts)).collect(),
    };
    let around = [
        ("", ""),
        ("[", "]"),
        ("[1,", ",x:]"),
        ("[[], ", ", \"a\"]"),
        ("(", ")"),
        ("(1,", ",x:)"),
        ("set[", "]"),
        ("map[a:", ",b:1]"),
        ("map[", ":1]"),
    ];
    let (before, behind) = around[chance.below(around.len())];
    format!("<Lab n={before}{value}{behind}{}", chance.pick(&["/>", " />", ">\n</Lab>", " m=1/>", ""]))
}

/// A sheet with letters of or near request One's list in an address, or where they always may stand; at times cut.
fn one_address(chance: &mut Chance) -> Vec<u8> {
    let around = [
        ("<Lab u=x:", " />"),
        ("<Lab u=x:a", "b/>"),
        ("<Lab u=x:%C2%A0", "/ >\n</Lab>"),
        ("<Lab u=x:a", "b=1 />"),
        ("<Lab u=x", ":a />"),
        ("<Lab u=", " />"),
        ("<Lab u=[1, x:", "/, y:] />"),
        ("<Lab u=[[x:a", "]]/>"),
        ("<Lab u=(x:", ",1) />"),
        ("<Lab u=(1,x:a]", ") />"),
        ("<Lab u=set[x:", ", set:] />"),
        ("<Lab u=map[a:x:", ",b:map:] />"),
        ("<Lab u=map[a", ":x:] />"),
        ("<Lab u=map[\"", "\":1] />"),
        ("<Lab u=map['", "':x:] />"),
        ("<Lab u=\"x:", "\" />"),
        ("<Lab u='", "' />"),
        ("<Lab u=`x: ", " ` />"),
        ("<Lab u=[`a`, \"", "\"] />"),
        ("[", "]\n<Lab/>"),
        ("<Steps>\n\t", "\n</Steps>"),
        ("<Lab", " />"),
    ];
    let (before, behind) = around[chance.below(around.len())];
    let letters: String = (0..1 + chance.below(2) * chance.below(3)).map(|_| hidden_letter(chance)).collect();
    let sheet = format!("{before}{letters}{behind}").into_bytes();
    let length = if chance.one_in(6) { chance.below(sheet.len() + 1) } else { sheet.len() };
    sheet[..length].to_vec()
}

/// A letter at or next to a bound of request One's list, inside one of its ranges, or one that shows no more than those and may stand.
fn hidden_letter(chance: &mut Chance) -> char {
    let bounds =
        [0xA0, 0x1680, 0x2000, 0x200A, 0x2028, 0x2029, 0x202F, 0x205F, 0x3000, 0x61C, 0x200E, 0x200F, 0x202A, 0x202E, 0x2066, 0x2069];
    let others = [0x2003, 0x2005, 0x202C, 0x2067, 0xAD, 0x180E, 0x200B, 0x200C, 0x200D, 0x2060, 0xFEFF];
    let scalar = match chance.below(4) {
        0 => others[chance.below(others.len())],
        1 => bounds[chance.below(bounds.len())] - 1 + 2 * chance.below(2) as u32,
        _ => bounds[chance.below(bounds.len())],
    };
    char::from_u32(scalar).expect("none is near the surrogates")
}

// ---- Times

/// A time, or what is nearly one, alone and in a sheet.
fn add_time(lines: &mut Vec<String>, chance: &mut Chance, longest: usize) {
    let time = any_time(chance);
    let alone = time_alone(chance, &time);
    if alone.len() <= longest {
        lines.push(format!("time {}", to_hex(&alone)));
    }
    let sheet = one_time(chance, &time);
    add_sheet(lines, chance, &Names::papers().table(), &sheet, longest);
}

/// A time that is good in half of the cases, else nearly good or pieces in a row between braces.
fn any_time(chance: &mut Chance) -> String {
    match chance.below(8) {
        0..=3 => good_time(chance),
        4..=6 => nearly_time(chance),
        _ => {
            let pieces: String = (0..chance.below(8)).map(|_| chance.pick(&TIME_PIECES)).collect();
            format!("{{{pieces}}}")
        }
    }
}

/// The time as it is; at times with bytes before or behind it, without its braces, damaged, cut, or none at all.
fn time_alone(chance: &mut Chance, time: &str) -> Vec<u8> {
    let beside = [" ", "x", "{", "}", "\n", "{now}", "\"", "1", "/>"];
    let bytes = time.as_bytes().to_vec();
    match chance.below(20) {
        0 => [chance.pick(&beside).as_bytes(), &bytes].concat(),
        1 | 2 => [&bytes, chance.pick(&beside).as_bytes()].concat(),
        3 => time.trim_matches(&['{', '}'][..]).as_bytes().to_vec(),
        4 | 5 => damaged(chance, bytes),
        6 => bytes[..chance.below(bytes.len() + 1)].to_vec(),
        7 if chance.one_in(4) => Vec::new(),
        _ => bytes,
    }
}

/// A sheet with the time as a trait's value or a list item, with junk beside it, or where no value begins; at times cut.
fn one_time(chance: &mut Chance, time: &str) -> Vec<u8> {
    let good = [
        ("<Lab n=", "/>"),
        ("<Lab n=", " />"),
        ("<Lab n=", ">\n</Lab>"),
        ("<Steps n=", "\r\n>\n\t{now}\n</Steps>"),
        ("<Lab n=", " m={now}/>"),
        ("<Lab a=1 b=", "\tc=\"{\" />"),
        ("<Lab n=[", "]/>"),
        ("<Lab n=[1,", ", x:]/>"),
        ("<Lab n=[[], ", ",\n\"a\"] />"),
        ("<Lab n=[{P1D},[{02-29}, ", "]] />"),
        ("<Lab n=[[[[[[[[", "]]]]]]]]/>"),
        ("<Lab n=(", ")/>"),
        ("<Lab n=({now}, ", ",x:) />"),
        ("<Lab n=set[", ", {now}]/>"),
        ("<Lab n=map[a:", "]/>"),
        ("<Lab n=map[a: {12:00},b:\n", ", $C: 1] />"),
        ("<Lab n=map[\"{\":(", ")]/>"),
    ];
    let other = [
        ("<Lab n=", "x />"),
        ("<Lab n=", "m=1/>"),
        ("<Lab n=", "{now} />"),
        ("<Lab n=", "}/>"),
        ("<Lab n=", "] />"),
        ("<Lab n=", ",{now}/>"),
        ("<Lab n=", "\" />"),
        ("<Lab n=", "/ >\n</Lab>"),
        ("<Lab n=", ""),
        ("<Lab n=[", ""),
        ("<Lab n=[", "x]/>"),
        ("<Lab n=[", "{now}]/>"),
        ("<Lab n=[", " ]/>"),
        ("<Lab n=[", ",]/>"),
        ("<Lab n=[", "}]/>"),
        ("<Lab n=[", ">\n</Lab>"),
        ("<Lab n=[04,", "]/>"),
        ("<Lab n=[ ", "]/>"),
        ("<Lab n=[[[[[[[[[", "]]]]]]]]]/>"),
        ("<Lab n=(", "]/>"),
        ("<Lab n=(", ""),
        ("<Lab n=( ", ")/>"),
        ("<Lab n=set", "/>"),
        ("<Lab n=map[", ":1]/>"),
        ("<Lab n=map[", "]/>"),
        ("<Lab n=map[a", "]/>"),
        ("<Lab n=map[a:", ":1]/>"),
        ("<Lab n=map[a :", "]/>"),
        ("<Lab n=x:", " />"),
        ("<Lab n=1", " />"),
        ("<Lab n=$A", "/>"),
        ("<Lab n= ", "/>"),
        ("<Lab n=\"", "\" />"),
        ("<Lab n=`", "` />"),
        ("<Lab n={", "/>"),
        ("<Lab n", "/>"),
        ("<Lab ", "/>"),
        ("[", "]\n<Lab/>"),
        ("<Steps>\n\t", "\n</Steps>"),
        ("<Lab>\n", "\n</Lab>"),
    ];
    let around = if chance.one_in(3) { &other[..] } else { &good[..] };
    let (before, behind) = around[chance.below(around.len())];
    let sheet = format!("{before}{time}{behind}").into_bytes();
    let length = if chance.one_in(8) { chance.below(sheet.len() + 1) } else { sheet.len() };
    sheet[..length].to_vec()
}

/// A time of a random kind.
fn good_time(chance: &mut Chance) -> String {
    let kind = 1 + chance.below(8);
    time_of_kind(chance, kind)
}

/// A time of the kind with this number in 001 §18's order.
fn time_of_kind(chance: &mut Chance, kind: usize) -> String {
    let body = match kind {
        1 => format!("{}T{}{}", random_date(chance), random_time_of_day(chance), random_zone(chance)),
        2 => format!("{}T{}", random_date(chance), random_time_of_day(chance)),
        3 => random_date(chance),
        4 => format!("{}-{:02}", random_year(chance), 1 + chance.below(12)),
        5 if chance.one_in(4) => "02-29".to_string(),
        5 => random_month_day(chance),
        6 => random_time_of_day(chance),
        7 => random_duration(chance),
        _ => chance.pick(&["now", "today"]).to_string(),
    };
    format!("{{{body}}}")
}

fn random_year(chance: &mut Chance) -> String {
    let telling = ["0000", "0001", "0004", "0100", "0400", "1582", "1900", "1999", "2000", "2023", "2024", "2100", "9996", "9999"];
    if chance.one_in(3) {
        format!("{:04}", chance.below(10_000))
    } else {
        chance.pick(&telling).to_string()
    }
}

/// A month and a day that every year has.
fn random_month_day(chance: &mut Chance) -> String {
    let last = [
        "01-31", "02-28", "03-31", "04-30", "05-31", "06-30", "07-31", "08-31", "09-30", "10-31", "11-30", "12-31", "01-01", "02-01",
        "10-10",
    ];
    if chance.one_in(3) {
        format!("{:02}-{:02}", 1 + chance.below(12), 1 + chance.below(28))
    } else {
        chance.pick(&last).to_string()
    }
}

fn random_date(chance: &mut Chance) -> String {
    if chance.one_in(4) {
        let leap_years = ["0000", "0004", "0400", "1600", "1904", "1996", "2000", "2024", "2400", "9996"];
        return format!("{}-02-29", chance.pick(&leap_years));
    }
    format!("{}-{}", random_year(chance), random_month_day(chance))
}

fn random_hour_and_minute(chance: &mut Chance) -> String {
    let (hour, minute) = (chance.below(24), chance.below(60));
    format!("{:02}:{:02}", chance.pick(&[&0, &23, &hour]), chance.pick(&[&0, &59, &minute]))
}

fn random_time_of_day(chance: &mut Chance) -> String {
    let mut time = random_hour_and_minute(chance);
    if !chance.one_in(3) {
        let second = chance.below(60);
        time.push_str(&format!(":{:02}", chance.pick(&[&0, &59, &second])));
        if chance.one_in(2) {
            time.push('.');
            time.push_str(&random_digits(chance));
        }
    }
    time
}

/// An offset, at times with a name.
fn random_zone(chance: &mut Chance) -> String {
    let names = ["[Europe/Berlin]", "[a]", "[Etc/GMT-1]", "[_-/]", "[0]", "[America/Argentina/Buenos_Aires]"];
    let sign = chance.pick(&["+", "-"]);
    let offset = if chance.one_in(3) { "Z".to_string() } else { format!("{sign}{}", random_hour_and_minute(chance)) };
    offset + if chance.one_in(2) { chance.pick(&names) } else { "" }
}

/// Parts in any order, behind T with fractions, too.
fn random_duration(chance: &mut Chance) -> String {
    let mut duration = String::from("P");
    let has_time = chance.one_in(2);
    let parts = if has_time { chance.below(3) } else { 1 + chance.below(4) };
    for _ in 0..parts {
        duration.push_str(&random_digits(chance));
        duration.push_str(chance.pick(&["Y", "M", "W", "D"]));
    }
    if has_time {
        duration.push('T');
        for _ in 0..1 + chance.below(3) {
            duration.push_str(&random_digits(chance));
            if chance.one_in(3) {
                duration.push('.');
                duration.push_str(&random_digits(chance));
            }
            duration.push_str(chance.pick(&["H", "M", "S"]));
        }
    }
    duration
}

fn random_digits(chance: &mut Chance) -> String {
    if chance.one_in(16) {
        return "9".repeat(1 + chance.below(40));
    }
    chance.pick(&["0", "1", "2", "5", "00", "007", "10", "123", "1234567", "18446744073709551616"]).to_string()
}

/// A good time with one small change, which mostly makes it none.
fn nearly_time(chance: &mut Chance) -> String {
    let mut time = good_time(chance);
    let at = 1 + chance.below(time.len() - 1);
    match chance.below(10) {
        0 => time.insert_str(at, chance.pick(&[" ", "\t", "\n", "\r\n", "}", "{", "\"", "'", ">", "/>", "\u{e9}", ",", "]", "0"])),
        1 => time.insert_str(at, chance.pick(&TIME_PIECES)),
        2 => drop(time.remove(at)),
        3 => time.replace_range(at.., &other_case(&time[at..])),
        4 => time.truncate(at),
        5..=7 => change_field(chance, &mut time),
        _ => time = chance.pick(&FAULTY_TIMES).to_string(),
    }
    time
}

fn other_case(text: &str) -> String {
    text.chars().map(|one| if one.is_ascii_uppercase() { one.to_ascii_lowercase() } else { one.to_ascii_uppercase() }).collect()
}

/// Puts other digits where two stand together: those at and behind the fields' bounds, too few or too many.
fn change_field(chance: &mut Chance, time: &mut String) {
    let pairs: Vec<usize> = (1..time.len()).filter(|&at| time.as_bytes()[at - 1..=at].iter().all(u8::is_ascii_digit)).collect();
    if !pairs.is_empty() {
        let past = pairs[chance.below(pairs.len())] + 1;
        let others = ["00", "01", "12", "13", "19", "23", "24", "28", "29", "30", "31", "32", "59", "60", "61", "99", "1", "011", ""];
        time.replace_range(past - 2..past, chance.pick(&others));
    }
}

/// What times are made of, and what may not stand in them.
const TIME_PIECES: [&str; 39] = [
    "{", "}", "{", "}", "2024", "2000-02", "02-29", "-02", "-29", "-", "T", "T", "12:00", "00:00", ":59", ":", ".5", ".", "Z", "+01:00",
    "-00:00", "[a/b]", "[", "]", "P", "P", "1", "0", "1D", "2Y", "3M", "1.5", "S", "H", "now", "today", " ", "\n", ",",
];

/// Spellings in braces that are no time, or that stop short of one.
const FAULTY_TIMES: [&str; 118] = [
    "{}", "{", "{ }", "{P}", "{PT}", "{P1DT}", "{P1.5D}", "{PT1.H}", "{PT.5S}", "{PT1.5.5S}", "{P1}", "{PT1}", "{PT1.5}", "{P1H}",
    "{PT1D}", "{P-1D}", "{-P1D}", "{+P1D}", "{P1DT1.5D}", "{PT1H1D}", "{P1D T1H}", "{PT1HT1M}", "{P1T1H}", "{TP1D}", "{1D}", "{PD}",
    "{P1,5D}", "{p1D}", "{P1d}", "{Pt1H}", "{PT1h}", "{PP1D}", "{P1DP1D}", "{12:00Z}", "{12:00+01:00}", "{12:00[a]}", "{24:00}", "{23:60}",
    "{23:59:60}", "{24:00:00}", "{12:00:}", "{12:00:00.}", "{12:00.5}", "{12:00:00:00}", "{12}", "{12:}", "{1:00}", "{12:0}", "{012:00}",
    "{T12:00}", "{12:00:00,5}", "{-12:00}", "{12-00:00}", "{2024-00-01}", "{2024-13-01}", "{2024-01-00}", "{2024-01-32}", "{2024-02-30}",
    "{2023-02-29}", "{1900-02-29}", "{2100-02-29}", "{0100-02-29}", "{2024-04-31}", "{2024-06-31}", "{02-30}", "{04-31}", "{06-31}",
    "{09-31}", "{11-31}", "{00-01}", "{13-01}", "{01-00}", "{01-32}", "{2024-00}", "{2024-13}", "{2024}", "{2024-1}", "{2024-1-1}",
    "{24-01-01}", "{02024-01-01}", "{-2024-01-01}", "{--02-29}", "{2024-01-01T}", "{2024-01-01T24:00}", "{2024-01-01t00:00}",
    "{2024-01-01 00:00}", "{2024-01-01Z}", "{2024-01T00:00}", "{01-01T00:00}", "{2024-01-01T00:00z}", "{2024-01-01T00:00+24:00}",
    "{2024-01-01T00:00-00:60}", "{2024-01-01T00:00+0100}", "{2024-01-01T00:00+01}", "{2024-01-01T00:00+01:00:00}", "{2024-01-01T00:00ZZ}",
    "{2024-01-01T00:00Z+00:00}", "{2024-01-01T00:00[a]}", "{2024-01-01T00:00Z[]}", "{2024-01-01T00:00Z[a}", "{2024-01-01T00:00Za]}",
    "{2024-01-01T00:00Z[a]]}", "{2024-01-01T00:00Z[a][b]}", "{2024-01-01T00:00Z[Etc/GMT+1]}", "{2024-01-01T00:00Z[a b]}",
    "{2024-01-01T00:00Z [a]}", "{2023-02-29T00:00Z}", "{Now}", "{NOW}", "{noon}", "{no}", "{nowtoday}", "{today }", "{ now}", "{now />\n}",
    "{\"}\"}", "{{now}}", "{\u{662}024-01-01}",
];

// ---- Faults inside values

/// A sheet with a value that has a fault inside: in brackets, between other items, behind other bytes of a string; at times cut.
fn one_fault(chance: &mut Chance) -> Vec<u8> {
    let deep = if chance.one_in(8) { chance.below(BRACKETS_DEEP + 2) } else { chance.below(4) };
    let fault = faulty_value(chance);
    let value = in_brackets(chance, deep, 2, &fault);
    in_a_marker(chance, &value)
}

/// A sheet with the value in a marker that is mostly good; at times cut, anywhere or behind the value.
fn in_a_marker(chance: &mut Chance, value: &str) -> Vec<u8> {
    let around = [
        ("<Lab n=", " />"),
        ("<Lab n=", "/>"),
        ("<Lab n=", ">\n</Lab>"),
        ("<Lab a=\"\\n\" b=[1, 2]\r\n\tn=", " m=04 />"),
        ("[a]\n\t<Lab>\n<Steps n=", ">\n\tx\n</Steps>\n</Lab>"),
    ];
    let (before, behind) = around[chance.below(around.len())];
    let sheet = format!("{before}{value}{behind}").into_bytes();
    let length = match chance.below(16) {
        0 | 1 => chance.below(sheet.len() + 1),
        2 => before.len() + value.len(),
        _ => sheet.len(),
    };
    sheet[..length].to_vec()
}

/// The value in so many brackets, each of any kind and with up to `beside` good items before it, and at most one behind it.
fn in_brackets(chance: &mut Chance, deep: usize, beside: usize, value: &str) -> String {
    let brackets: Vec<&Bracket> = (0..deep).map(|_| any_bracket(chance)).collect();
    let mut text = String::new();
    for bracket in &brackets {
        text.push_str(bracket.opener);
        for _ in 0..chance.below(beside + 1) {
            text.push_str(&good_item(chance, bracket));
            text.push_str(chance.pick(&ITEM_ENDS));
        }
        if bracket.keyed {
            text.push_str(&good_key(chance));
            text.push_str(chance.pick(&COLONS));
        }
    }
    text.push_str(value);
    for bracket in brackets.iter().rev() {
        for _ in 0..chance.below(beside.min(1) + 1) {
            text.push_str(chance.pick(&ITEM_ENDS));
            text.push_str(&good_item(chance, bracket));
        }
        text.push(bracket.closer);
    }
    text
}

/// What may stand between two items, and between a key and its value.
const ITEM_ENDS: [&str; 5] = [",", ",", ", ", ",\n\t", ",\r\n"];
const COLONS: [&str; 5] = [":", ":", ": ", ":\t", ":\r\n"];

/// A kind of bracket, a map more often than another.
fn any_bracket(chance: &mut Chance) -> &'static Bracket {
    chance.pick(&[&LIST, &SET, &MAP, &MAP, &TUPLE])
}

/// What a printer prints that breaks no rule.
fn printed(chance: &mut Chance, print: impl FnOnce(&mut Printer)) -> String {
    let names = Names::papers();
    let mut printer = Printer::new(chance, &names, false);
    print(&mut printer);
    String::from_utf8(printer.text).expect("values are text")
}

/// What may stand in the bracket as an item, seldom with a bracket of its own.
fn good_item(chance: &mut Chance, bracket: &'static Bracket) -> String {
    let deeper = usize::from(chance.one_in(4));
    printed(chance, |printer| printer.item(deeper, bracket))
}

fn good_key(chance: &mut Chance) -> String {
    printed(chance, |printer| printer.key())
}

/// What mostly is no value: a word, a time, a string, a character, or brackets with a fault.
fn faulty_value(chance: &mut Chance) -> String {
    match chance.below(8) {
        0 | 1 => chance.pick(&FAULTY_VALUES).to_string(),
        2 => nearly_time(chance),
        3 => faulty_string(chance),
        4 => faulty_character(chance),
        5 => chance.pick(&FAULTY_BRACKETS).to_string(),
        6 => faulty_map(chance),
        _ => {
            let due = chance
                .pick(&["", " ", ";", ":", " ,", "\n", "\r\n,", ",,", ", ,", ">", "/>", "\"", "{", "[", "(", ")", "=", "\\", "\u{e9}"]);
            let bracket = any_bracket(chance);
            let (one, other) = (good_item(chance, bracket), good_item(chance, bracket));
            format!("{}{one}{due}{other}{}", bracket.opener, bracket.closer)
        }
    }
}

/// A string with a bad escape or a line end somewhere.
fn faulty_string(chance: &mut Chance) -> String {
    let good = [
        "a", "boot 7", "\\n", "\\\\", "\\\"", "\\u0041", "\\u{1F600}", "\u{e9}", "\u{1F600}", "'", "\t", "[", ",", "]", ":",
        "0123456789abcdef",
    ];
    let faults = [
        "\\q", "\\'", "\\\n", "\\\r\n", "\n", "\r\n", "\\u00\n", "\\ug", "\\u12", "\\uD800", "\\uDFFF", "\\u{}", "\\u{110000}",
        "\\u{D800}", "\\u{1234567}", "\\u{0", "\\U0041", "\\ ", "\\x41", "\\\u{e9}",
    ];
    let fault = chance.below(6);
    let mut string = String::from("\"");
    for piece in 0..6 {
        string.push_str(if piece == fault { chance.pick(&faults) } else { chance.pick(&good) });
    }
    string + "\""
}

/// A character of none, two or three scalars, or with a bad escape or a line end.
fn faulty_character(chance: &mut Chance) -> String {
    let scalars = [
        "a", "\"", "\u{e9}", "\u{1F600}", "\t", "\\n", "\\'", "\\u0041", "\\u{10ffff}", "\\q", "\\\"", "\\uD800", "\\u{}", "\n", "\r\n",
        "\\\n",
    ];
    let count = *chance.pick(&[&0, &1, &2, &2, &2, &3]);
    let inside: String = (0..count).map(|_| chance.pick(&scalars)).collect();
    format!("'{inside}'")
}

// ---- Sets, maps and tuples

/// A sheet with a value in brackets: good, nearly good, at the limit of depth, or with words and keys that hold what ends others; at times
/// cut.
fn one_bracketed(chance: &mut Chance) -> Vec<u8> {
    let value = match chance.below(14) {
        0..=5 => good_brackets(chance),
        6 | 7 => {
            let good = good_brackets(chance);
            nearly(chance, &good)
        }
        8 => deep_brackets(chance),
        9 | 10 => {
            let word = chance.pick(&BRACKET_WORDS);
            in_some_brackets(chance, word)
        }
        11 => {
            let fault = chance.pick(&FAULTY_BRACKETS);
            in_some_brackets(chance, fault)
        }
        12 => {
            let fault = faulty_map(chance);
            in_some_brackets(chance, &fault)
        }
        _ => (0..1 + chance.below(10)).map(|_| chance.pick(&BRACKET_PIECES)).collect(),
    };
    in_a_marker(chance, &value)
}

fn in_some_brackets(chance: &mut Chance, value: &str) -> String {
    let (deep, beside) = (chance.below(4), chance.below(2));
    in_brackets(chance, deep, beside, value)
}

/// A list, set, map or tuple with up to three items.
fn good_brackets(chance: &mut Chance) -> String {
    let bracket = any_bracket(chance);
    let deeper = chance.below(4);
    printed(chance, |printer| printer.bracketed(deeper, bracket))
}

/// The value with one or two scalars changed, put in or taken out.
fn nearly(chance: &mut Chance, value: &str) -> String {
    let telling: Vec<char> = "[[]](()),,::  \t\n\"'/>={}smA04$".chars().collect();
    let mut scalars: Vec<char> = value.chars().collect();
    for _ in 0..1 + chance.below(2) {
        let at = chance.below(scalars.len() + 1);
        let one = telling[chance.below(telling.len())];
        match chance.below(3) {
            0 => scalars.insert(at, one),
            1 if at < scalars.len() => scalars[at] = one,
            _ if at < scalars.len() => drop(scalars.remove(at)),
            _ => {}
        }
    }
    scalars.into_iter().collect()
}

/// A value in as many brackets as are allowed, or one or two fewer or one more, at times without what closes them.
fn deep_brackets(chance: &mut Chance) -> String {
    let deep = BRACKETS_DEEP - 2 + chance.below(4);
    let beside = usize::from(chance.one_in(6));
    let insides =
        ["1", "", "x:y", "set", "map", "set:x", "map:y", "()", "[]", "set[]", "map[]", "map[a:1]", "(1)", "set[1]", "[1]", "{now}", "04"];
    let inside = chance.pick(&insides);
    let value = in_brackets(chance, deep, beside, inside);
    if inside.is_empty() || chance.one_in(4) {
        value.trim_end_matches(&[']', ')'][..]).to_string()
    } else {
        value
    }
}

/// A map with a bad key, or with what is no colon behind a good one.
fn faulty_map(chance: &mut Chance) -> String {
    let mut map = String::from(MAP.opener);
    for _ in 0..chance.below(2) * chance.below(3) {
        map.push_str(&good_item(chance, &MAP));
        map.push_str(chance.pick(&ITEM_ENDS));
    }
    if chance.one_in(3) {
        map.push_str(&good_key(chance));
        map.push_str(
            chance.pick(&[
                "", " ", " :", "\n:", "\r\n", "::", ",", "]", ";", "=", "/>", ">", ")", "\"", "{", "[", "\u{e9}", ":]", ": ]", ":,",
            ]),
        );
    } else {
        map.push_str(&faulty_key(chance));
        map.push_str(chance.pick(&[":", ":", ":", ": ", "", " :", "]", ","]));
    }
    map.push_str(chance.pick(&["1", "x:y", "{now}", "(1)", "\"a\"", "04", ""]));
    map.push_str(chance.pick(&["]", "]", "]", "", ",", ",b:1]", ")"]));
    map
}

/// What mostly is no key.
fn faulty_key(chance: &mut Chance) -> String {
    match chance.below(6) {
        0 => faulty_string(chance),
        1 => faulty_character(chance),
        2 => chance.pick(&WORDS).to_string(),
        _ => chance.pick(&FAULTY_KEYS).to_string(),
    }
}

/// Keys that are words.
const KEYS: [&str; 21] = [
    "a", "b", "k9", "aBCDE", "true", "false", "set", "map", "now", "e1", "a23456789012345678901234567890123", "0", "-0", "+7", "12", "-99",
    "18446744073709551616", "$A", "$Ab", "$ABC9", "x",
];

/// Spellings that are no key, or that stop short of one or go on behind it.
const FAULTY_KEYS: [&str; 57] = [
    "", "A", "Ab", "9a", "04", "-04", "00", "+", "-", "--1", "1.5", "1e5", "1/2", "~a", "~A", "$", "$a", "$A-", "`a`", "`a", "{now}",
    "{12:00}", "{a", "[1]", "[]", "[", "(1)", "()", "(", "set[1]", "set[]", "set[", "map[a:1]", "map[]", "a=1", "a b", " a", "a\n", "a-b",
    "a.b", "a(b)", "a)", "_a", "a?", "a\\", "a\"", "\"a\"b", "\"a\" ", "\"a", "'a", "a/b", "/", "/>", ">", "\u{e9}", "a\u{e9}",
    "123e4567-E89b-12d3-a456-426614174000",
];

/// Words with bytes that end some words and not others, delimited values with such bytes, and words that nearly open a bracket.
const BRACKET_WORDS: [&str; 58] = [
    "x:a(b", "x:a(b)", "x:a(b)c", "x:(", "x:)", "x:]", "x:[", "x:[1]", "x:a]b", "x:a)b", "x:a,b", "x:(,)]", "x:y:z", "x::", "x:/", "x:/)",
    "x:/]", "set:x", "set:", "set:[1]", "set:(1)", "map:y", "map:", "map:[a:1]", "map:(a)", "set", "map", "Set[1]", "SET[1]", "set [1]",
    "set(1)", "map(1)", "map{a:1}", "sets[1]", "1]", "1)", "1(", "1(2)", "1[", "1:2", "a:1", "a:", "12:00", "$A)", "$A]", "$A:", "true)",
    "true]", "true:", "1/2)", ")", "(", ":", "{12:00}", "{2024-01-01T00:00Z[a/b]}", "\"](,:)\"", "')'", "`,) ]: (`",
];

/// Brackets that do not close, that hold white space or nothing at a bad place, or that another bracket closes.
const FAULTY_BRACKETS: [&str; 67] = [
    "()", "( )", "(\n)", "(1 )", "( 1)", "(1", "(1,", "(1, ", "(1,)", "(1, )", "(,1)", "(,)", "(1,,2)", "(1 ,2)", "(1 2)", "(1;2)", "(1]",
    "[1)", "(\"a\"]", "(\"a\"b)", "((1)", "(1))", "(()", "(())", "([)]", "(1>", "(1/>", "(04)", "('ab')", "({no})", "set[ ]", "set[ 1]",
    "set[1 ]", "set[1", "set[1,", "set[1,]", "set[,1]", "set[,]", "set[1)", "set[1;2]", "set[1]]", "set[", "set[[]", "set[set[]",
    "set[()]", "set[1>", "set[1/>", "set []", "Set[]", "set(1)", "map[ ]", "map[ a:1]", "map[a:1 ]", "map[a:1 ,b:2]", "map[a:1",
    "map[a:1,", "map[a:1,]", "map[a:]", "map[a:1)", "map[a:1]]", "map[", "map[a:1;b:2]", "map[a:04]", "map[a:1:2]", "map[a:()]",
    "map[a:{no}]", "Map[]",
];

/// What brackets are made of, and what may not stand in them.
const BRACKET_PIECES: [&str; 40] = [
    "set[", "map[", "(", "[", "]", ")", "]", ")", ",", ",", ", ", ":", ":", ": ", "a:", "\"k\":", "'c':", "$Ab:", "-1:", "A:", "04:", "a",
    "1", "x:", "x:y", "\"k\"", "'c'", "$Ab", "04", "{12:00}", "{", "`", " ", "\n", "/", ">", "set", "map", "true", "\u{e9}",
];

// ---- Several traits in one marker

/// The requests about a sheet of dense markers; at times it is one of a roll, too, or is added to one.
fn add_dense(lines: &mut Vec<String>, chance: &mut Chance, longest: usize) {
    let names = Names::random(chance);
    let sheet = dense_sheet(chance, &names, longest);
    add_marker(lines, chance, &names.table(), &sheet, longest);
    if chance.one_in(6) {
        let mut roll = Vec::new();
        for _ in 0..1 + chance.below(4) {
            roll.extend(dense_sheet(chance, &names, longest));
            roll.push(b'\n');
        }
        roll.truncate(4 * longest);
        add_roll(lines, chance, &names, &roll, longest);
        add_adding(lines, chance, &names, &sheet, &roll, longest);
    }
}

/// The requests about a sheet with several traits; at times with just as many cells as are used, one fewer, or too few for an entry more.
fn add_marker(lines: &mut Vec<String>, chance: &mut Chance, table: &[u8], sheet: &[u8], longest: usize) {
    add_sheet(lines, chance, table, sheet, longest);
    if sheet.len() <= longest && chance.one_in(3) {
        let used = entries_used(table, sheet) * ENTRY_CELLS;
        let lent = *chance.pick(&[&used, &used.saturating_sub(1), &(used + ENTRY_CELLS - 1)]);
        lines.push(format!("sheet {} {} {lent}", to_hex(table), to_hex(sheet)));
    }
}

/// How many entries are made until the sheet is accepted or refused: with room for so many the answer is that with plenty.
fn entries_used(table: &[u8], sheet: &[u8]) -> usize {
    let answer = read_sheet(table, sheet, PLENTY).0;
    let (mut fewest, mut enough) = (0, ENTRIES);
    while fewest < enough {
        let middle = (fewest + enough) / 2;
        if read_sheet(table, sheet, middle * ENTRY_CELLS).0 == answer {
            enough = middle;
        } else {
            fewest = middle + 1;
        }
    }
    enough
}

/// A sheet with a marker of several traits, whose names differ; where they are many, most have a plain value. In two of three cases a name
/// stands in it once more, or nearly so. At times cut, behind that name or anywhere.
fn one_marker(chance: &mut Chance, names: &Names, longest: usize) -> Vec<u8> {
    let count = trait_count(chance, longest);
    let traits = trait_names(chance, count);
    let (before, behind) = around_traits(chance, names, &traits);
    let mut sheet = before;
    let all_plain = chance.one_in(2);
    for name in &traits {
        let plain = all_plain || chance.below(count) > 16;
        sheet.push_str(&good_trait(chance, name, plain));
    }
    if !chance.one_in(3) {
        sheet.push_str(chance.pick(&WHITE_SPACES));
        sheet.push_str(&name_once_more(chance, &traits));
        if chance.one_in(8) {
            return sheet.into_bytes();
        }
        sheet.push_str(chance.pick(&BEHIND_NAMES));
    }
    sheet.push_str(&behind);
    let mut sheet = sheet.into_bytes();
    if chance.one_in(12) {
        sheet.truncate(chance.below(sheet.len()));
    }
    sheet
}

/// Few traits mostly, about 4, 5, 8 or 16 often, and seldom any number that a sheet of `longest` bytes has room for.
fn trait_count(chance: &mut Chance, longest: usize) -> usize {
    let most = ENTRIES.min(longest / 12 + 1);
    let count = match chance.below(16) {
        0..=8 => 1 + chance.below(6),
        9..=12 => *chance.pick(&[&4, &5, &8, &16]) - 1 + chance.below(3),
        13 | 14 => 1 + chance.below(40),
        _ => 1 + chance.below(most),
    };
    count.min(most)
}

/// So many names of traits. No two are the same, and most of them nearly are.
fn trait_names(chance: &mut Chance, count: usize) -> Vec<String> {
    let mut names: Vec<String> = Vec::new();
    while names.len() < count {
        let name = if names.is_empty() || chance.one_in(3) {
            chance.pick(&TRAIT_NAMES).to_string()
        } else {
            let earlier = chance.below(names.len());
            nearly_name(chance, &names[earlier])
        };
        if is_trait_name(name.as_bytes()) && !names.contains(&name) {
            names.push(name);
        }
    }
    names
}

/// The name with one letter more, less, other or of the other case; at times it is no name of a trait any more.
fn nearly_name(chance: &mut Chance, name: &str) -> String {
    let mut name = name.to_string();
    let at = chance.below(name.len());
    let letter = chance.pick(&["a", "b", "n", "0", "9", "A", "N"]);
    match chance.below(5) {
        0 => name.insert_str(at, letter),
        1 => name.push_str(letter),
        2 => name.replace_range(at..=at, letter),
        3 => drop(name.remove(at)),
        _ => name.replace_range(at..=at, &other_case(&name[at..=at])),
    }
    name
}

/// What stands before and behind the traits of a marker: it is alone, or its parent or a sibling has traits of the same names.
fn around_traits(chance: &mut Chance, names: &Names, traits: &[String]) -> (String, String) {
    let parent = &names.children[chance.below(names.children.len())];
    let known = if names.content.is_empty() || chance.one_in(2) { &names.children } else { &names.content };
    let name = &known[chance.below(known.len())];
    let shared: String = traits.iter().take(3).map(|name| format!(" {name}=1")).collect();
    let end = match chance.below(4) {
        0 => format!(">\n</{name}>"),
        _ => chance.pick(&["/>", " />", "\n/>"]).to_string(),
    };
    match chance.below(8) {
        0 => (format!("<{parent}{shared}>\n<{name}"), format!("{end}\n</{parent}>")),
        1 => (format!("<{parent}>\n<{name}{shared} />\n<{name}"), format!("{end}\n<{name}{shared} />\n</{parent}>")),
        2 => (format!("[{shared}{shared}]\n<{name}"), end),
        _ => (format!("<{name}"), end),
    }
}

/// White space, the name and a value: 1 where it is to be plain, else one in which the name may stand, too.
fn good_trait(chance: &mut Chance, name: &str, plain: bool) -> String {
    let value = match chance.below(14) {
        _ if plain => "1".to_string(),
        0 => format!("map[{name}:1, {name}:2]"),
        1 => format!("[map[{name}: ~{name}], (~{name}, \"{name}=1\")]"),
        2 => format!("\" {name}=1\""),
        3 => format!("` {name}=1\n {name}=2`"),
        4 => format!("x:{name}=1"),
        5 | 6 => printed(chance, |printer| printer.value(1, None)),
        _ => "1".to_string(),
    };
    format!("{}{name}={value}", chance.pick(&WHITE_SPACES))
}

/// The name of the first trait, of the last or of any; at times nearly so, or with more letters than the rule allows.
fn name_once_more(chance: &mut Chance, names: &[String]) -> String {
    let any = chance.below(names.len());
    let name = &names[*chance.pick(&[&0, &(names.len() - 1), &any])];
    match chance.below(16) {
        0 | 1 => nearly_name(chance, name),
        2 => format!("{name}ABC"),
        3 => format!("{name}{}", "a".repeat(NAME_BYTES)),
        _ => name.clone(),
    }
}

/// Names of traits, from which others are made.
const TRAIT_NAMES: [&str; 12] =
    ["n", "u", "aB", "abC9", "x1", "aBCd", "node", "nodes", "abcdefxyz", "abcDefxyz", "freeUntil9", "n1234567890123456789012345678901"];

const WHITE_SPACES: [&str; 7] = [" ", " ", " ", "  ", "\t", "\n", "\r\n\t"];

/// What may stand behind the name of a trait, and what may not.
const BEHIND_NAMES: [&str; 28] = [
    "=1", "=1", "=1", "=9", "=true", "=\"a\"", "=[1, 2]", "=map[n:1]", "={now}", "=1 zz=04", "=1 zz=1", "=1?", "", "?", ">", "/>", " ",
    "\n", "=", " =1", "==1", "=04", "=[1 2]", "=[[[[[[[[[", "=\"", "='ab'", ":1", "\u{e9}",
];

/// What traits are made of, and what may not stand between them.
const TRAIT_PIECES: [&str; 26] = [
    " ", " ", " ", "\n", "n", "nN", "nn", "m", "n=1", " n=1", " nN=2", " m=\"n\"", " m=map[m:1]", " nn=[1, 2]", "=", "=1", "=04", "N",
    "ABC", "9", "?", ">", "/>", "\"", "\t", "[1]",
];

// ---- Damage

/// The bytes with one to three of them changed, inserted or removed.
fn damaged(chance: &mut Chance, mut bytes: Vec<u8>) -> Vec<u8> {
    for _ in 0..1 + chance.below(3) {
        let at = chance.below(bytes.len() + 1);
        match chance.below(3) {
            0 => bytes.insert(at, random_byte(chance)),
            1 if at < bytes.len() => bytes[at] = random_byte(chance),
            _ if at < bytes.len() => drop(bytes.remove(at)),
            _ => {}
        }
    }
    bytes
}

fn random_byte(chance: &mut Chance) -> u8 {
    let telling = b"<>/[]()\"'`\\=,:: \t\n\r$~-+.eE012u{}{}PTZLabSmpx\x7F\x00\xEF\xC3\x80";
    match chance.below(6) {
        0 => chance.below(256) as u8,
        _ => telling[chance.below(telling.len())],
    }
}

// ---- Limits

/// A sheet at or just past one of the limits of "Sizes", with more room for its form than any form may take.
fn add_limit(lines: &mut Vec<String>, chance: &mut Chance, longest: usize) {
    let over = chance.below(2);
    let sheet = match chance.below(17) {
        0 => format!("<Lab {}=1/>", "n".repeat(NAME_BYTES + over)),
        1 => format!("<L{}/>", "a".repeat(NAME_BYTES - 1 + over)),
        2 => format!("<Lab n={} />", in_brackets(chance, BRACKETS_DEEP + over, 0, "1")),
        3 => nested(CONCEPTS_DEEP + over),
        4 => format!("<Lab>\n{}</Lab>", "<Lab/>\n".repeat(ENTRIES - 1 + over)),
        5 => of_length(SHEET_BYTES + over),
        6 | 7 => of_deeper_content(1 + chance.below(CONCEPTS_DEEP - 1), SHEET_BYTES + over),
        8 => of_escapes(SHEET_BYTES + over),
        9 => of_fraction(SHEET_BYTES + over),
        10 => format!("<Lab n=[{}{{now}}] />", "{now},".repeat(ENTRIES - 3 + over)),
        11 => format!("<Lab n=map[{}a:{{now}}] />", "a:1,".repeat(ENTRIES - 3 + over)),
        12 => format!("<Lab n=({}) />", ["set[]"].repeat(ENTRIES - 2 + over).join(", ")),
        13 => of_key(SHEET_BYTES + over),
        14 => format!("<Lab{} />", numbered_traits(ENTRIES - 1 + over)),
        15 => format!("<Lab{} n{}=1 />", numbered_traits(ENTRIES - 2 + over), chance.below(ENTRIES)),
        _ => of_length(SHEET_BYTES - 1 + over) + "\n",
    };
    let table = Names::papers().table();
    if sheet.len() <= longest {
        lines.push(format!("form {} {} {PLENTY} {}", to_hex(&table), to_hex(sheet.as_bytes()), 4 * SHEET_BYTES));
    }
    add_sheet(lines, chance, &table, sheet.as_bytes(), longest);
}

/// So many traits, with names of a letter and a number.
fn numbered_traits(count: usize) -> String {
    (0..count).map(|number| format!(" n{number}=1")).collect()
}

/// `depth` Concepts in one another.
fn nested(depth: usize) -> String {
    format!("{}<Lab/>\n{}", "<Lab>\n".repeat(depth - 1), "</Lab>\n".repeat(depth - 1))
}

/// A sheet of `length` bytes, most of them Content.
fn of_length(length: usize) -> String {
    let frame = "<Steps>\n\t\n</Steps>".len();
    format!("<Steps>\n\t{}\n</Steps>", "x".repeat(length - frame))
}

/// A sheet whose form has `length` bytes, since Content that stands at the first column goes `depth` tabs deeper.
fn of_deeper_content(depth: usize, length: usize) -> String {
    let frame: usize = (0..depth).map(|tabs| 2 * tabs + "<Lab>\n</Lab>\n".len()).sum::<usize>() + 2 * depth + "<Steps>\n</Steps>\n".len();
    let line = depth + "\tx\n".len();
    let lines = (length - frame) / line - 1;
    let last = "x".repeat(length - frame - (lines + 1) * line + 1);
    let (open, close) = ("<Lab>\n".repeat(depth), "</Lab>\n".repeat(depth));
    format!("{open}<Steps>\n{}\t{last}\n</Steps>\n{close}", "\tx\n".repeat(lines))
}

/// A sheet whose form has `length` bytes, most of them a string's tabs, each of which is written as two bytes.
fn of_escapes(length: usize) -> String {
    let left = length - "<Lab n=\"\" />\n".len();
    format!("<Lab n=\"{}{}\"/>", "x".repeat(left % 2), "\t".repeat(left / 2))
}

/// A sheet whose form has `length` bytes, most of them a key's tabs, each of which is written as two bytes.
fn of_key(length: usize) -> String {
    let left = length - "<Lab n=map[\"\": 1] />\n".len();
    format!("<Lab n=map[\"{}{}\":1]/>", "x".repeat(left % 2), "\t".repeat(left / 2))
}

/// A sheet whose form has `length` bytes, most of them the digits behind a time's point.
fn of_fraction(length: usize) -> String {
    let frame = "<Lab n={12:00:00.} />\n".len();
    format!("<Lab n={{12:00:00.{}}}/>", "0".repeat(length - frame))
}

// ---- Sheets

/// Prints a random tree in a random layout. Where `kept` is set, one rule is broken after that many kept ones.
struct Printer<'a> {
    chance: &'a mut Chance,
    names: &'a Names,
    kept: Option<usize>,
    text: Vec<u8>,
}

impl<'a> Printer<'a> {
    fn new(chance: &'a mut Chance, names: &'a Names, slips: bool) -> Printer<'a> {
        let kept = slips.then(|| chance.below(50));
        Printer { chance, names, kept, text: Vec::new() }
    }

    fn put(&mut self, text: &str) {
        self.text.extend_from_slice(text.as_bytes());
    }

    fn put_one_of(&mut self, choices: &[&str]) {
        let choice = self.chance.pick(choices);
        self.put(choice);
    }

    /// Whether the rule that is printed next is broken.
    fn slip(&mut self) -> bool {
        let now = self.kept == Some(0);
        self.kept = self.kept.and_then(|kept| kept.checked_sub(1));
        now
    }

    /// Puts what stands rightly, or the one fault.
    fn put_or_slip(&mut self, right: &str, faults: &[&str]) {
        if self.slip() {
            self.put_one_of(faults);
        } else {
            self.put(right);
        }
    }

    fn sheet(mut self, concepts: usize) -> Vec<u8> {
        let mut left = concepts;
        if self.slip() {
            let faults: [&[u8]; 5] = [b"\xEF\xBB\xBF", b"\x01", b"\xC3(", b"\r", b"x"];
            let fault = self.chance.pick(&faults);
            self.text.extend_from_slice(fault);
        }
        self.blank_lines();
        self.concept(&mut left, 0);
        self.blank_lines();
        if self.slip() {
            self.put_one_of(&["x", "<Lab/>", "</Lab>", "[a]", " \t<", "\n\nx", "\x7F"]);
        }
        if self.chance.one_in(3) {
            while self.text.last().map_or(false, |last| b" \t\r\n".contains(last)) {
                self.text.pop();
            }
        }
        self.text
    }

    // ---- Lines

    fn line_end(&mut self) {
        self.put_one_of(&["\n", "\n", "\n", "\r\n"]);
    }

    /// The end of a marker's or an annotation's line.
    fn end_line(&mut self) {
        if self.chance.one_in(4) {
            self.put_one_of(&[" ", "\t", " \t "]);
        }
        if self.slip() {
            self.put_one_of(&["x", "<", "[", ">", " 1"]);
        }
        self.line_end();
    }

    fn blank_lines(&mut self) {
        while self.chance.one_in(5) {
            self.put_one_of(&["", " ", "\t", "\t \t"]);
            self.line_end();
        }
    }

    /// The tabs before a marker or an annotation; gives their number.
    fn tabs(&mut self, depth: usize) -> usize {
        let tabs = if self.chance.one_in(3) { self.chance.below(4) } else { depth };
        self.put(&"\t".repeat(tabs));
        if self.slip() {
            self.put_one_of(&[" ", "x", "\n ", ">"]);
        }
        tabs
    }

    fn white_space(&mut self) {
        for _ in 0..1 + self.chance.below(2) * self.chance.below(3) {
            self.put_one_of(&[" ", " ", " ", "\t", "\n", "\r\n"]);
        }
    }

    // ---- Concepts

    /// A Concept with its annotations. `left` Concepts may still be printed, this one with them.
    fn concept(&mut self, left: &mut usize, depth: usize) {
        *left = left.saturating_sub(1);
        while self.chance.one_in(5) {
            self.annotation(depth);
        }
        let is_content = self.names.children.is_empty() || (!self.names.content.is_empty() && self.chance.one_in(3));
        let known = if is_content { &self.names.content } else { &self.names.children };
        let name = known[self.chance.below(known.len())].clone();
        let tabs = self.tabs(depth);
        self.put_or_slip("<", &["", "< ", "<<", "</", "<\t"]);
        if self.names.are_many() && self.slip() {
            let other = alike(self.chance);
            self.put(&other);
        } else {
            self.put_or_slip(&name, &["lab", "LABs", "Other", "4ab", "", "LAb", "Stepss", "L-b"]);
        }
        self.traits();
        if self.chance.one_in(4) {
            self.put_or_slip("/>", &["/", "/ >", "//>", "/x"]);
            self.end_line();
            return;
        }
        self.put_or_slip(">", &["", ">>", "/ >", "=>"]);
        self.end_line();
        if is_content {
            self.content(&name, tabs);
        } else {
            self.children(&name, left, depth);
        }
        self.end_line();
    }

    fn children(&mut self, name: &str, left: &mut usize, depth: usize) {
        self.blank_lines();
        while *left > 0 && !self.chance.one_in(4) {
            self.concept(left, depth + 1);
            self.blank_lines();
        }
        if self.slip() {
            self.annotation(depth);
        }
        self.tabs(depth);
        if self.kept.is_some() && self.chance.one_in(3) {
            self.kept = Some(0);
        }
        let right = format!("</{name}>");
        let spaced = format!("</{name} >");
        let longer = format!("</{name}s>");
        self.put_or_slip(&right, &[&spaced, &longer, "</>", "</LABs>", "</Steps?", "</", "<", "< /Lab>", "</Lab?"]);
    }

    /// Content lines at one tab more than the marker, and the closing line.
    fn content(&mut self, name: &str, tabs: usize) {
        while !self.chance.one_in(3) {
            if self.chance.one_in(4) {
                self.put_one_of(&["", " ", "\t\t\t\t", " \t"]);
            } else {
                self.content_line(name, tabs);
            }
            self.line_end();
        }
        let closing = format!("{}</{name}>", "\t".repeat(tabs));
        let faults = [format!("{closing}x"), format!(" {closing}"), format!("{}</Lab>", "\t".repeat(tabs)), closing[1..].to_string()];
        self.put_or_slip(&closing, &[&faults[0], &faults[1], &faults[2], &faults[3]]);
    }

    fn content_line(&mut self, name: &str, tabs: usize) {
        let deeper = "\t".repeat(tabs + 1);
        self.put_or_slip(&deeper, &[" ", &deeper[1..], "", " \t\t\t"]);
        if self.chance.one_in(5) {
            self.put(&format!("</{name}>"));
        }
        self.put_one_of(&["boot 7", "a", " x ", "\ty", "<Lab>", "\\[", "\u{e9}\u{1F600} ", "\u{a0}x:\u{200F}", "[a]", "0\t"]);
    }

    fn annotation(&mut self, depth: usize) {
        self.tabs(depth);
        self.put("[");
        let texts = ["", " ", "a", "  a \t b ", "\\]", "\\\\", "a\\\\ ", "[", "<Lab>", "\u{e9}", "\u{3000}\u{200E}", "\t\\] x\\]\t"];
        for _ in 0..self.chance.below(3) {
            self.put_one_of(&texts);
        }
        self.put_or_slip("]", &["\n]", "\\n]", "\\", "", "]]", "\\ ]", "\r\n"]);
        self.end_line();
        if self.slip() {
            self.put_one_of(&["\n", " \n", "\t\r\n", " "]);
        }
    }

    // ---- Traits and values

    fn traits(&mut self) {
        let count = self.chance.below(3) + self.chance.below(3) * self.chance.below(2);
        let names = trait_names(self.chance, count);
        for (number, name) in names.iter().enumerate() {
            self.white_space();
            if number > 0 && self.slip() {
                let earlier = self.chance.below(number);
                self.put(&names[earlier]);
            } else {
                self.put_or_slip(name, &["N", "aBCD", "9", "", "-", "n-", "n1234567890123456789012345678901x"]);
            }
            self.put_or_slip("=", &["", " =", "= ", "==", ":"]);
            self.value(BRACKETS_DEEP, None);
            if self.slip() {
                self.put_one_of(&["x", "\"", ",", "]", "[", "(", ")", "m=1", "'a'", "}", "{now}", ":", "(1)"]);
            }
        }
        let slash_last = self.text.last() == Some(&b'/');
        if self.chance.one_in(2) || (slash_last && !self.slip()) {
            self.white_space();
        }
    }

    /// A value of a random kind, in which `deeper` brackets may still open in one another; `inside` is the innermost that is open. A word
    /// is kept from running into the byte behind it by the caller's white space.
    fn value(&mut self, deeper: usize, inside: Option<&Bracket>) {
        if self.slip() {
            let value = faulty_value(self.chance);
            self.put(&value);
            return;
        }
        match self.chance.below(12) {
            0..=3 if deeper > 0 => {
                let bracket = any_bracket(self.chance);
                self.bracketed(deeper - 1, bracket);
            }
            4 => self.quoted('"'),
            5 => self.quoted('\''),
            6 => self.backtick(),
            7 => self.iri(inside),
            8 | 9 => {
                let time = good_time(self.chance);
                self.put(&time);
            }
            _ => self.put_one_of(&WORDS),
        }
    }

    /// A list, set, map or tuple, in whose items `deeper` brackets may still open in one another.
    fn bracketed(&mut self, deeper: usize, bracket: &'static Bracket) {
        let openers = [
            "[ ", "[,", "[[[[[[[[[", "( ", "(,", "(((((((((", "(set[[[map[a:[(set[(", "set [", "Set[", "set(", "map[ ", "map[,", "map[:",
            "map[",
        ];
        self.put_or_slip(bracket.opener, &openers);
        let fewest = usize::from(!bracket.may_be_empty && !self.slip());
        for number in 0..fewest + self.chance.below(4 - fewest) {
            if number > 0 {
                self.put_or_slip(",", &[" ,", ";", ",,", "", ":"]);
                if self.chance.one_in(2) {
                    self.white_space();
                }
            }
            self.item(deeper, bracket);
        }
        let closers = [" ]", ",]", "", ">", "/>", "]]", "]", " )", ",)", "))", ")", ":1]"];
        self.put_or_slip(&bracket.closer.to_string(), &closers);
    }

    fn item(&mut self, deeper: usize, bracket: &'static Bracket) {
        if bracket.keyed {
            self.key();
            self.put_or_slip(":", &["", " :", "::", "=", ";", ",", "]", "\n:", ":]"]);
            if self.chance.one_in(3) {
                self.white_space();
            }
        }
        self.value(deeper, Some(bracket));
    }

    /// A key of a random kind.
    fn key(&mut self) {
        if self.slip() {
            let key = faulty_key(self.chance);
            self.put(&key);
            return;
        }
        match self.chance.below(5) {
            0 => self.quoted('"'),
            1 => self.quoted('\''),
            _ => self.put_one_of(&KEYS),
        }
    }

    /// A string or a character.
    fn quoted(&mut self, quote: char) {
        let (own, other) = if quote == '"' { ("\\\"", "'") } else { ("\\'", "\"") };
        let scalars = [
            "a", "\\\\", "\\n", "\\r", "\\t", "\t", "\\u0041", "\\u00e9", "\\u{7f}", "\\u{0}", "\\u{1F}", "\\u{10ffff}", "\\u{00000a}",
            "\u{e9}", "\u{1F600}", "\u{2028}", "\u{200F}", "\u{3000}", " ", "\u{85}", "\u{FEFF}", "/", ">", "<", ",", ":", "]", ")", own,
            other,
        ];
        let count = if quote == '"' { self.chance.below(5) } else { 1 };
        self.put(&quote.to_string());
        for _ in 0..count {
            self.put_one_of(&scalars);
        }
        self.put(&quote.to_string());
    }

    fn backtick(&mut self) {
        self.put("`");
        for _ in 0..self.chance.below(6) {
            self.put_one_of(&["a", " ", "\t", "\n", "\r\n", "\\`", "\\", "\\\\`", "\"", "'", "\u{e9}", "\u{a0}", "\\n", ">"]);
        }
        if self.text.last() == Some(&b'\\') {
            self.put(" ");
        }
        self.put("`");
    }

    /// An address. What would end it in the bracket `inside` is left out, what would end it in another bracket is not.
    fn iri(&mut self, inside: Option<&Bracket>) {
        self.put_one_of(&["x:", "http://", "a+b-c.9:", "Z:", "set:", "map:"]);
        let free = match inside {
            Some(bracket) if bracket.closer == ')' => "]",
            Some(_) => ")",
            None => ",])",
        };
        for _ in 0..self.chance.below(5) {
            self.put_one_of(&[
                "y", "/", "?q=1", "#f", "[", "@!$&'(*+;=", "%zz", "\u{a1}", "\u{e9}", "\u{FEFF}", "\u{E1000}", ":", "~._-", "\u{200B}",
                "\u{2010}", "\u{2030}", "\u{2060}", "\u{3001}", "(", free, free,
            ]);
        }
        if inside.is_none() {
            self.put_one_of(&["", "", ",]", "/"]);
        }
    }
}

/// Words that are values.
const WORDS: [&str; 29] = [
    "true", "false", "0", "-0", "+7", "12", "1.50", "-0.0", "1e5", "2.5E-3", "0e0", "1e+0", "1/2", "-3/4", "1/0", "$Ab", "$ABCD", "$A1",
    "~a", "~aBCD", "~a1", "123e4567-E89b-12d3-a456-426614174000", "AAAAAAAA-BBBB-CCCC-DDDD-EEEEEEEEEEEE",
    "00000000-0000-0000-0000-000000000000", "99", "4", "1E1", "10/10", "0.00",
];

/// Spellings that are no value, or that stop short of one.
const FAULTY_VALUES: [&str; 74] = [
    "", "04", "1.", ".5", "1/-2", "01/2", "1e05", "1/02", "truex", "Infinity", "-Infinity", "+", "-", "1e", "e1", "1/2/3", "00", "--1",
    "1:", "-x:y", "$", "$a", "~A", "~", "$A-", "True", "null", "1.5.", "1.2e", "1e1.5", "1.e1", "+-1", "1/", "/2",
    "123e4567-E89b-12d3-a456-42661417400", "123e4567-E89b-12d3-a45-6426614174000", "g23e4567-E89b-12d3-a456-426614174000", "x:\u{E000}",
    "x:\u{FDD0}", "x:\u{1FFFE}", "x:\"", "x:<", "x:\\", "x:{", "x:|", "x:^", "\u{e9}:a", ":a", "\"a", "\"\\q\"", "\"\\uD800\"",
    "\"\\u{}\"", "\"\\u{1234567}\"", "\"\\u{110000}\"", "\"\\'\"", "\"a\nb\"", "''", "'ab'", "'", "'\n'", "'\\\"'", "'\\uDFFF'", "[1",
    "`a", "[ ]", "[1 ]", "\"\\u{0000041}\"", "'''", "$aB", "x:\u{E0FFF}", "x:\u{A0}", "http://a/\u{200F}b", "x:\u{202E}", "x:a\u{3000}b",
];

#[cfg(test)]
mod tests {
    use super::*;
    use crate::times::time_answer;

    #[test]
    fn good_times_are_of_their_kind() {
        let mut chance = Chance(0);
        for number in 0..8_000 {
            let kind = 1 + number % 8;
            let time = time_of_kind(&mut chance, kind);
            assert_eq!(time_answer(time.as_bytes()), kind, "{time}");
        }
    }

    #[test]
    fn faulty_times_are_none() {
        for time in FAULTY_TIMES {
            assert_eq!(time_answer(time.as_bytes()), 0, "{time}");
        }
    }

    #[test]
    fn names_of_traits_differ_and_keep_their_rule() {
        for seed in 0..200 {
            let mut chance = Chance(seed);
            let mut names = trait_names(&mut chance, 100);
            assert!(names.iter().all(|name| is_trait_name(name.as_bytes())), "{names:?}");
            names.sort();
            names.dedup();
            assert_eq!(names.len(), 100);
        }
    }

    /// Whether the value stands in a good marker.
    fn is_value(value: &str) -> bool {
        read_sheet(&Names::papers().table(), format!("<Lab n={value} />").as_bytes(), PLENTY).0.number == 0
    }

    #[test]
    fn keys_and_brackets_are_good_or_faulty() {
        for key in KEYS {
            assert!(is_value(&format!("map[{key}:1]")), "{key}");
        }
        for key in FAULTY_KEYS {
            assert!(!is_value(&format!("map[{key}:1]")), "{key}");
        }
        for value in FAULTY_BRACKETS {
            assert!(!is_value(value), "{value}");
        }
    }

    /// What is printed in brackets is a value, and what is cut off it anywhere lacks nothing but its end; a CR is cut off with its LF.
    #[test]
    fn good_brackets_are_good_and_cut_ones_are_cut() {
        for seed in 0..300 {
            let mut chance = Chance(seed);
            let good = good_brackets(&mut chance);
            let deep = 1 + chance.below(BRACKETS_DEEP - 1);
            for value in [in_brackets(&mut chance, deep, 1, "[1]"), good] {
                assert!(is_value(&value), "{value}");
                let sheet = format!("<Lab n={value}");
                for end in (0..=sheet.len()).filter(|&end| sheet.is_char_boundary(end) && !sheet[..end].ends_with('\r')) {
                    let answer = read_sheet(&Names::papers().table(), &sheet.as_bytes()[..end], PLENTY).0;
                    assert_eq!((answer.number, answer.place), (9, end), "{}", &sheet[..end]);
                }
            }
        }
    }

    /// Kind, form, parent and count of the entries.
    fn shape(table: &[u8], sheet: &[u8]) -> Vec<[u32; 4]> {
        let (answer, cells) = read_sheet(table, sheet, PLENTY);
        cells.chunks(ENTRY_CELLS).take(answer.count).map(|entry| [entry[0], entry[1], entry[2], entry[3]]).collect()
    }

    /// The form of the form is the form itself, and it has entries as the sheet has.
    fn keeps_its_form(table: &[u8], sheet: &[u8]) {
        let shown = String::from_utf8_lossy(sheet).escape_debug().to_string();
        let (_, form) = write_form(table, sheet, PLENTY, SHEET_BYTES);
        let (answer, again) = write_form(table, &form, PLENTY, SHEET_BYTES);
        assert_eq!((answer.number, &again), (0, &form), "{shown}");
        assert_eq!(shape(table, &form), shape(table, sheet), "{shown}");
    }

    /// Where no rule is broken the sheet is accepted.
    #[test]
    fn printed_sheets_are_accepted() {
        for seed in 0..2_000 {
            let mut chance = Chance(seed);
            let names = if chance.one_in(6) { Names::many(&mut chance) } else { Names::random(&mut chance) };
            let sheet = Printer::new(&mut chance, &names, false).sheet(8);
            assert_eq!(read_sheet(&names.table(), &sheet, PLENTY).0.number, 0, "{}", String::from_utf8_lossy(&sheet).escape_debug());
            keeps_its_form(&names.table(), &sheet);
        }
    }

    /// Whatever is generated and accepted, its form fitting, keeps it.
    #[test]
    fn accepted_sheets_keep_their_form() {
        for line in requests(1, 4_000, 300, false, &["sheet"]) {
            let words: Vec<&str> = line.split(' ').collect();
            let (table, sheet) = (crate::from_hex(words[1]).unwrap(), crate::from_hex(words[2]).unwrap());
            if write_form(&table, &sheet, PLENTY, SHEET_BYTES).0.number == 0 {
                keeps_its_form(&table, &sheet);
            }
        }
    }
}
