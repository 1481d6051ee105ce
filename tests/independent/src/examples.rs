//! Every example of document 01's "Sheets to try" and of READINGS.md that concerns tables, sheets, views, forms and rolls; then those of
//! document 02 and READINGS-02.md. The numbers in the comments are theirs; `7@4` there is (7, 4) here, an acceptance is ACCEPTED.

use crate::reader::{read_sheet, table_answer, view, view_answer, Answer, Refusal};
use crate::rolls::{add_sheet, read_roll};
use crate::times::time_answer;
use crate::writer::write_form;

/// Lab in children mode, Steps in content mode.
const TABLE: &[u8] = b"\x01\x03Lab\x01\x05Steps";
const ALL: usize = 8_192;
const TOP: u32 = 4_294_967_295;
const ACCEPTED: u32 = 0;

fn answer(sheet: &[u8], lent: usize) -> Answer {
    let (answer, cells) = read_sheet(TABLE, sheet, lent);
    assert_eq!(cells.len(), lent);
    if answer.number != ACCEPTED {
        assert_eq!(answer.count, 0);
        assert!(cells.iter().all(|&cell| cell == 0));
    }
    answer
}

fn shown(sheet: &[u8]) -> String {
    String::from_utf8_lossy(sheet).escape_debug().to_string()
}

#[track_caller]
fn refused_with(sheet: impl AsRef<[u8]>, lent: usize, number: u32, place: usize) {
    let sheet = sheet.as_ref();
    assert_eq!(answer(sheet, lent), Answer { number, place, count: 0 }, "{}", shown(sheet));
}

#[track_caller]
fn refused(sheet: impl AsRef<[u8]>, number: u32, place: usize) {
    refused_with(sheet, ALL, number, place);
}

/// A value at place 7 of a marker that is otherwise good.
#[track_caller]
fn value_refused(value: &str, number: u32, place: usize) {
    refused(format!("<Lab n={value}"), number, place);
}

/// No kind fits the value at place 7, which `place` shows.
#[track_caller]
fn value_no_kind_at(value: &str, place: usize) {
    value_refused(&format!("{value} />"), 6, place);
}

#[track_caller]
fn value_no_kind(value: &str) {
    value_no_kind_at(value, 7);
}

#[track_caller]
fn accepted(sheet: impl AsRef<[u8]>) {
    let sheet = sheet.as_ref();
    let answer = answer(sheet, ALL);
    assert_eq!((answer.number, answer.place), (ACCEPTED, sheet.len()), "{}", shown(sheet));
    assert!(answer.count > 0);
}

/// The form of the value at place 7.
#[track_caller]
fn value_form(value: &str, form: u32) {
    let sheet = format!("<Lab n={value} />");
    let (answer, cells) = read_sheet(TABLE, sheet.as_bytes(), ALL);
    assert_eq!(answer.number, ACCEPTED, "{}", shown(sheet.as_bytes()));
    assert_eq!(cells[8..16], [2, form, 0, cells[11], 5, 6, 7, 7 + value.len() as u32]);
}

#[track_caller]
fn form(sheet: &str, right: &str) {
    let (answer, form) = write_form(TABLE, sheet.as_bytes(), ALL, 16_384);
    assert_eq!(String::from_utf8(form).unwrap(), right);
    assert_eq!(answer, Answer { number: 0, place: 0, count: right.len() });
    let (_, again) = write_form(TABLE, right.as_bytes(), ALL, 16_384);
    assert_eq!(again, right.as_bytes());
}

/// How a value is written in the canonical form.
#[track_caller]
fn written(value: &str, right: &str) {
    form(&format!("<Lab n={value} />"), &format!("<Lab n={right} />\n"));
}

#[track_caller]
fn cells(sheet: &str, entries: &[[u32; 8]]) {
    let (answer, cells) = read_sheet(TABLE, sheet.as_bytes(), ALL);
    assert_eq!(answer, Answer { number: 0, place: sheet.len(), count: entries.len() });
    let (used, rest) = cells.split_at(entries.len() * 8);
    assert_eq!(used, entries.concat());
    assert_eq!(rest, vec![0; ALL - used.len()]);
}

// ---- Sheets to try

#[test]
fn starred_refusals() {
    refused("", 9, 0);
    refused("<Lab>", 9, 5);
    refused("<Lab n=04 />", 6, 7);
    refused("<LABs />", 4, 1);
    refused("<LAb />", 5, 1);
    refused("<Lab>\n</Steps>", 8, 8);
}

#[test]
fn starred_acceptances() {
    form("<Lab/>", "<Lab />\n");
    cells("<Lab u=x:y/>", &[[1, 1, TOP, 1, 1, 4, 0, 12], [2, 11, 0, 0, 5, 6, 7, 10]]);
    cells("<Lab u=x:y/ >\n</Lab>", &[[1, 2, TOP, 1, 1, 4, 0, 20], [2, 11, 0, 0, 5, 6, 7, 11]]);
    form("<Lab u=x:y/ >\n</Lab>", "<Lab u=x:y/ >\n</Lab>\n");
}

#[test]
fn in_whole() {
    let sheet = "<Lab  n=4>\n<Steps>\n\tboot 7\n</Steps>\n</Lab>";
    let right = "<Lab n=4>\n\t<Steps>\n\t\tboot 7\n\t</Steps>\n</Lab>\n";
    form(sheet, right);
    assert_eq!(right.len(), 45);
    cells(sheet, &[[1, 2, TOP, 2, 1, 4, 0, 42], [2, 4, 0, 0, 6, 7, 8, 9], [1, 3, 0, 1, 12, 17, 11, 35], [5, 0, 2, 0, 19, 19, 19, 27]]);
}

#[test]
fn limits() {
    accepted(format!("<Lab {}=1/>", "a".repeat(32)));
    refused(format!("<Lab {}=1/>", "a".repeat(33)), 4, 5);
    refused(format!("<L{}/>", "a".repeat(31)), 5, 1);
    refused(format!("<L{}/>", "a".repeat(32)), 4, 1);
    value_form(&format!("{}1{}", "[".repeat(8), "]".repeat(8)), 12);
    value_refused(&format!("{}1{} />", "[".repeat(9), "]".repeat(9)), 10, 15);
    accepted(format!("<Steps>\n\t{}\n</Steps>", "x".repeat(16_384 - 18)));
    refused(format!("<Steps>\n\t{}\n</Steps>", "x".repeat(16_385 - 18)), 2, 16_384);
    refused("\x01".repeat(16_385), 2, 16_384);
}

// ---- The place of 7, and what comes first

#[test]
fn readings_2_to_6() {
    refused(" <Lab/>", 7, 1);
    refused("\t \t<Lab/>", 7, 3);
    refused("<Lab>\n </Lab>", 7, 7);
    // 3
    refused("[a]\n\n<Lab/>", 7, 4);
    refused("[a]\n\t\n<Lab/>", 7, 5);
    refused("[a]\n <Lab/>", 7, 4);
    refused("[a]\r\n\r\n", 7, 5);
    refused("[a]\n\n[b]\n<Lab/>", 7, 4);
    // 4
    refused("<Lab>\n[a]\n</Lab>", 7, 11);
    refused("</Lab>", 7, 1);
    // 5
    refused("<Lab/x", 7, 5);
    refused("<Lab / >", 7, 6);
    refused("<Lab/", 9, 5);
    // 6
    refused("<>", 7, 1);
    refused("<Lab =4>", 7, 5);
    refused("<Lab>\n</>", 7, 8);
    refused("<", 9, 1);
}

#[test]
fn readings_7_to_11() {
    refused("<Other?", 5, 1);
    refused("<Lab N?", 4, 5);
    refused_with("<Lab?", 0, 11, 1);
    refused("<Lab?", 7, 4);
    // 8
    refused("<lab/>", 4, 1);
    refused("<4ab/>", 4, 1);
    refused("<Lab 9=1/>", 4, 5);
    // 9
    refused("<Lab aBCD 4>", 4, 5);
    refused("<Lab n =1>", 7, 6);
    refused("<Lab n>", 7, 6);
    // 10
    refused("<Lab n=\"a\"x=1/>", 7, 10);
    refused("<Lab n=[1]x", 7, 10);
    refused("<Lab n=\"a\"m=1", 7, 10);
    // 11
    refused("<Lab/>\n<Lab/>", 7, 7);
    refused("<Lab/>\n</Lab>", 7, 7);
    refused("<Lab/> x", 7, 7);
}

#[test]
fn readings_12_to_15() {
    accepted("<Lab>\r\n\r\n</Lab>\r\n");
    accepted("<Steps>\r\n\tx\r\n</Steps>\r\n");
    // 13
    refused("<Lab></Lab>", 7, 5);
    form("<Lab>\n</Lab>", "<Lab>\n</Lab>\n");
    // 14
    accepted("<Lab\t\r\n n=1\n/>");
    refused("< Lab/>", 7, 1);
    refused("<Lab n= 1/>", 6, 7);
    // 15
    accepted("\t\t<Lab>\n</Lab>");
    accepted("<Lab>\n\t\t[a]\n\t<Lab/>\n\t\t\t</Lab>");
}

// ---- Input that ends too early

#[test]
fn readings_16_to_19() {
    refused("<LABs", 9, 5);
    refused("<Lab n=04", 9, 9);
    refused("<Lab n=", 9, 7);
    refused("<Lab n=1/", 9, 9);
    // 17; request Four has moved the places of 6, here and in 18
    for cut in ["\"\\uD8", "\"\\u{110000", "\"\\u{D800"] {
        value_refused(cut, 9, 7 + cut.len());
    }
    for whole in ["\"\\uD800", "\"\\u{}", "\"\\u{1234567", "\"\\ug", "\"\\q"] {
        value_refused(whole, 6, 8);
    }
    // 18
    value_refused("'ab", 6, 9);
    value_refused("''", 6, 8);
    value_refused("'a", 9, 9);
    // 19
    refused("[a\\", 9, 3);
    refused("[a\\\n", 7, 2);
    refused("[a\n", 7, 2);
}

#[test]
fn readings_20_to_23() {
    refused("<Lab\r", 3, 4);
    refused(b"<Lab \xC3", 3, 5);
    // 21
    refused("<Steps>\n</Ste", 7, 8);
    refused("<Lab>\n</La", 9, 10);
    refused("<Steps>\n\ta", 9, 10);
    // 22
    refused("<Steps>\nx\n", 7, 8);
    // 23
    refused(" \n\t", 9, 3);
    accepted("<Lab/>\n \t");
}

// ---- Bytes and the mode table

#[test]
fn reading_24() {
    refused("<Lab/>\r\r\n", 3, 6);
    refused(b"\xEF\xBB\xBF<Lab/>", 3, 0);
    refused(b"<Lab n=\"\x80\"/>", 3, 8);
    refused(b"<Lab n=\"\xE0\x80\x80\"/>", 3, 8);
    refused(b"<Lab n=\"\xED\xA0\x80\"/>", 3, 8);
    refused(b"<Lab n=\"\xF4\x90\x80\x80\"/>", 3, 8);
    refused(b"<Lab n=\"\x7F\x01\"/>", 3, 8);
    accepted("<Lab n=\"\u{85}\u{FFFE}\u{FEFF}\"/>");
}

#[test]
fn readings_25_and_26() {
    let refused = |table: &[u8], place| assert_eq!(table_answer(table), Answer { number: 1, place, count: 0 });
    refused(b"\x01\x03la", 4);
    refused(b"\x01\x03lab\x00", 2);
    refused(b"\x00", 1);
    refused(b"", 0);
    refused(b"\x01\x03Lab\x01\x03Lab", 7);
    refused(b"\x02\x03Lab\x03Lab\x00", 6);
    refused(b"\x41", 0);
    refused(b"\x01\x00", 1);
    refused(b"\x01\x21", 1);
    refused(b"\x01", 1);
    refused(b"\x00\x00\x00", 2);
    assert_eq!(table_answer(b"\x00\x00"), Answer { number: 0, place: 2, count: 0 });
    assert_eq!(table_answer(TABLE), Answer { number: 0, place: 12, count: 2 });
    assert_eq!(read_sheet(b"\x00", b"\xFF", 9), (Answer { number: 1, place: 1, count: 0 }, vec![0; 9]));
}

// ---- Entries and their room

#[test]
fn readings_27_and_28() {
    let many = |children| format!("<Lab>\n{}</Lab>", "<Lab/>\n".repeat(children));
    assert_eq!(answer(many(1_023).as_bytes(), 100_000).count, 1_024);
    refused_with(many(1_024), 100_000, 11, 6 + 1_023 * 7 + 1);
    refused_with("<Lab n=4 />", 15, 11, 5);
    assert_eq!(answer(b"<Lab n=4 />", 16).count, 2);
    // 28
    refused_with("<Lab n=4 />", 8, 11, 5);
    refused_with("<Lab n=[4] />", 16, 11, 8);
    refused_with("[]\n<Lab/>", 0, 11, 1);
}

#[test]
fn readings_29_and_30() {
    refused_with("<Lab n=04 />", 8, 6, 7);
    refused_with("<Lab n=4", 8, 9, 8);
    refused_with("<Lab n=\"a\"", 8, 11, 5);
    refused_with("<Lab n=\"a\"?", 8, 11, 5);
    refused_with("[a]?", 0, 11, 1);
    refused_with("[a", 0, 9, 2);
    // 30
    refused_with("<Steps>\n", 8, 11, 8);
    refused_with("<Steps>", 8, 9, 7);
    refused_with("<Steps>?", 8, 7, 7);
}

#[test]
fn readings_31_to_33() {
    let open = "<Lab>\n".repeat(32);
    refused(format!("{open}<La"), 9, 195);
    refused(format!("{open}<>"), 7, 193);
    refused(format!("{open}<lab/>"), 4, 193);
    refused(format!("{open}<Lab/>"), 10, 192);
    refused(format!("{open}<Other/>"), 10, 192);
    refused_with(format!("{open}<Lab/>"), 32 * 8, 10, 192);
    accepted(format!("{}<Lab/>\n{}", "<Lab>\n".repeat(31), "</Lab>\n".repeat(31)));
    value_refused(&"[".repeat(9), 10, 15);
    accepted(format!("<Lab n={0}{1} m={0}{1}/>", "[".repeat(8), "]".repeat(8)));
    // 32; request Six refuses what it says of a trait that stands twice
    cells("<Steps/>", &[[1, 1, TOP, 0, 1, 6, 0, 8]]);
    // 33
    cells(
        "[r]\n<Lab n=[1, [2]]>\n[c]\n<Steps>\n</Steps>\n</Lab>",
        &[
            [4, 0, TOP, 0, 1, 1, 1, 2],
            [1, 2, TOP, 3, 5, 8, 4, 48],
            [2, 12, 1, 2, 9, 10, 11, 19],
            [3, 4, 2, 0, 12, 12, 12, 13],
            [3, 12, 2, 1, 15, 15, 15, 18],
            [3, 4, 4, 0, 16, 16, 16, 17],
            [4, 0, 1, 0, 22, 22, 22, 23],
            [1, 3, 1, 1, 26, 31, 25, 41],
            [5, 0, 7, 0, 33, 33, 33, 33],
        ],
    );
}

// ---- Closing markers and Content

#[test]
fn readings_34_and_35() {
    refused("<Lab>\n</LABs>", 8, 8);
    refused("<Lab>\n</Steps?", 8, 8);
    refused("<Lab>\n</Lab?", 7, 11);
    refused("<Lab>\n</Lab >", 7, 11);
    // 35
    refused("<Steps>\n</Lab>", 7, 8);
    refused("<Steps>\n</Steps>x", 7, 8);
}

#[test]
fn readings_36_and_37() {
    accepted("<Steps\tn=1>\n\tx\n</Steps>");
    cells("<Steps\n\t\tn=1>\r\n\tx\r\n</Steps>", &[[1, 3, TOP, 2, 1, 6, 0, 27], [2, 4, 0, 0, 9, 10, 11, 12], [5, 0, 0, 0, 15, 15, 15, 19]]);
    // 37
    form("<Steps>\n\t\t\t \n\tx \n\t\t</Steps>\n</Steps>", "<Steps>\n\n\tx \n\t\t</Steps>\n</Steps>\n");
    accepted("\t<Steps>\n\t\tx\n\t</Steps>");
    refused("\t<Steps>\n\tx\n\t</Steps>", 7, 10);
    form("<Steps>\n\t</Steps>\n</Steps>", "<Steps>\n\t</Steps>\n</Steps>\n");
    cells("\t<Steps>\n\n\t</Steps> ", &[[1, 3, TOP, 1, 2, 7, 1, 19], [5, 0, 0, 0, 9, 9, 9, 10]]);
}

// ---- Values

#[test]
fn readings_38_and_39() {
    refused("<Lab n=>", 6, 7);
    refused("<Lab n=/>", 6, 7);
    refused("<Lab n= />", 6, 7);
    // 39; request Four has moved the places
    for (list, place) in [("[ ]", 8), ("[ 1]", 8), ("[1 ]", 9), ("[1 ,2]", 9), ("[1,]", 10), ("[,1]", 8), ("[\"a\"b]", 11), ("[1>", 9)] {
        value_no_kind_at(list, place);
    }
    value_refused("[1 ", 6, 9);
    value_refused("[1", 9, 9);
    value_refused("[1,", 9, 10);
    value_refused("[1, ", 9, 11);
}

#[test]
fn readings_40_and_41() {
    value_form("[x:[a]", 12);
    value_refused("[x:[a]] />", 7, 13);
    // 41
    value_refused("[04,[[[[[[[[[", 6, 8);
    value_refused("[[[[[[[[[?", 10, 15);
    value_refused("[[[[[[[[[", 10, 15);
}

#[test]
fn reading_42() {
    let good = [
        ("1/0", 7),
        ("-0", 4),
        ("+0", 4),
        ("0e0", 6),
        ("1e+0", 6),
        ("0.00", 5),
        ("x:", 11),
        ("x:%zz", 11),
        ("true", 3),
        ("false", 3),
        ("$ABC", 8),
        ("~aBCD", 9),
        ("123e4567-E89b-12d3-a456-426614174000", 10),
        ("\"a\"", 1),
        ("'a'", 2),
        ("`a`", 1),
        ("[]", 12),
        ("1.5E-3", 6),
    ];
    for (value, form) in good {
        value_form(value, form);
    }
    // request Five has made (1) and set[1] values
    let bad = [
        "1.", ".5", "1/-2", "01/2", "1e05", "1/02", "truex", "-Infinity", "Infinity", "$", "$a", "~A", "~", "-", "1e", "1/2/3", "-x:y",
        "1:", "123e4567-E89b-12d3-a456-42661417400", "1e1/2", "1i", "1.5p", "#fff", "rgb(1)", "1..2",
    ];
    for value in bad {
        value_no_kind(value);
    }
}

#[test]
fn readings_43_to_45() {
    // 43; request One has taken U+00A0 and U+200F out
    for scalar in ['\u{FEFF}', '\u{10000}', '\u{E1000}', '\u{EFFFD}', '\u{DFFFD}'] {
        value_form(&format!("x:{scalar}"), 11);
    }
    for scalar in ['\u{E000}', '\u{E0FFF}', '\u{FDD0}', '\u{1FFFE}', '\u{80}', '\u{F0000}', '\u{FFF0}'] {
        value_no_kind(&format!("x:{scalar}"));
    }
    value_no_kind("\u{e9}:a");
    // 44
    written("\"\t\"", "\"\\t\"");
    written("'\t'", "'\\t'");
    value_no_kind_at("\"\\uD83D\\uDE00\"", 8);
    written("\"\\u{000041}\"", "\"A\"");
    value_no_kind_at("\"\\u{0000041}\"", 8);
    // 45
    written("`a\\\\`b`", "\"a\\\\`b\"");
    written("` a\r\n\t b\u{A0} `", "\"a b\u{A0}\"");
}

// ---- Canonical form and view

#[test]
fn reading_46() {
    let sheet = b"<Lab u=x:y/ >\n</Lab>";
    assert_eq!(write_form(TABLE, sheet, 8, 0), (Answer { number: 11, place: 5, count: 0 }, vec![]));
    assert_eq!(write_form(TABLE, sheet, 16, 20), (Answer { number: 12, place: 0, count: 0 }, vec![]));
    assert_eq!(write_form(TABLE, sheet, 16, 21).0, Answer { number: 0, place: 0, count: 21 });
    form("<Lab a=1 b=2 u=x:/ >\n</Lab>", "<Lab\n\ta=1\n\tb=2\n\tu=x:/\n>\n</Lab>\n");
    form("<Lab u=x:/ />", "<Lab u=x:/ />\n");
    let wide = format!("<Steps>\n{}</Steps>", "\tx\n".repeat(5_450));
    let text = format!("<Lab>\n{wide}\n</Lab>");
    assert_eq!(answer(text.as_bytes(), ALL).number, ACCEPTED);
    assert_eq!(write_form(TABLE, text.as_bytes(), ALL, 70_000).0, Answer { number: 12, place: 0, count: 0 });
}

#[test]
fn reading_47() {
    form("[ ]\n<Lab/>", "[]\n<Lab />\n");
    form("[ a\\] \t b\\\\ ]\n<Lab/>", "[a\\] b\\\\]\n<Lab />\n");
    written("'\"'", "'\"'");
    written("'\\''", "'\\''");
    written("\"'\\\"\\\\\"", "\"'\\\"\\\\\"");
    written("\"\\n\\r\\u{1F}\\u007f\\u0000\\u0080\u{85}\"", "\"\\n\\r\\u{1f}\\u{7f}\\u{0}\u{80}\u{85}\"");
    written("[1,\n2,[ABCDEF01-0000-0000-0000-ABCDEF012345,`a  b`]]", "[1, 2, [abcdef01-0000-0000-0000-abcdef012345, \"a b\"]]");
    form(
        "[a]\n<Lab a=1 b=2>\n<Lab/>\n[b]\n[c]\n<Lab a=1\nb=2 c=3/>\n\n<Steps/>\n</Lab>",
        "[a]\n<Lab a=1 b=2>\n\t<Lab />\n\n\t[b]\n\t[c]\n\t<Lab\n\t\ta=1\n\t\tb=2\n\t\tc=3\n\t/>\n\n\t<Steps />\n</Lab>\n",
    );
}

#[test]
fn reading_48() {
    let refused = Answer { number: 17, place: 0, count: 0 };
    let sheet = b"<Lab n=4 />";
    let (_, cells) = read_sheet(TABLE, sheet, 17);
    assert_eq!(view(sheet, &cells, 0), Ok(&sheet[..]));
    assert_eq!(view(sheet, &cells, 1), Ok(&b"4"[..]));
    assert_eq!(view(sheet, &cells, 2), Err(Refusal { number: 17, place: 0 }));
    assert_eq!(view_answer(sheet, &cells, 1), Answer { number: 0, place: 0, count: 1 });
    assert_eq!(view_answer(sheet, &cells, usize::MAX), refused);
    assert_eq!(view_answer(sheet, &cells[..15], 1), refused);
    assert_eq!(view_answer(sheet, &[0; 8], 0), refused);
    assert_eq!(view_answer(sheet, &[9, 0, 0, 0, 0, 0, 11, 11], 0), Answer { number: 0, place: 0, count: 0 });
    assert_eq!(view_answer(sheet, &[9, 0, 0, 0, 0, 0, 11, 12], 0), refused);
    assert_eq!(view_answer(sheet, &[9, 0, 0, 0, 0, 0, 5, 4], 0), refused);
}

// ---- Rolls and adding

const ALL_RECORDS: usize = 1_280;

#[track_caller]
fn roll_refused(roll: impl AsRef<[u8]>, room: usize, number: u32, place: usize) {
    let roll = roll.as_ref();
    assert_eq!(read_roll(TABLE, roll, room, ALL), (Answer { number, place, count: 0 }, vec![0; room]), "{}", shown(roll));
}

#[track_caller]
fn records(roll: impl AsRef<[u8]>, records: &[[u32; 5]]) {
    let roll = roll.as_ref();
    let (answer, cells) = read_roll(TABLE, roll, ALL_RECORDS, ALL);
    assert_eq!(answer, Answer { number: ACCEPTED, place: roll.len(), count: records.len() }, "{}", shown(roll));
    let (made, left) = cells.split_at(5 * records.len());
    assert_eq!(made, records.concat(), "{}", shown(roll));
    assert!(left.iter().all(|&cell| cell == 0));
}

/// Adding to a roll of which `room` bytes are lent: its bytes, then bytes FF. Where it is refused the roll stays as it came.
#[track_caller]
fn adds(sheet: impl AsRef<[u8]>, roll: &[u8], room: usize, n: usize, right: Result<&[u8], (u32, usize)>) {
    let mut lent = roll.to_vec();
    lent.resize(room, 0xFF);
    let before = lent.clone();
    let answer = add_sheet(TABLE, sheet.as_ref(), &mut lent, n, ALL);
    match right {
        Ok(added) => {
            let count = n + added.len();
            assert_eq!(answer, Answer { number: ACCEPTED, place: 0, count });
            assert_eq!(lent, [&before[..n], added, &before[count..]].concat());
        }
        Err((number, place)) => {
            assert_eq!(answer, Answer { number, place, count: 0 });
            assert_eq!(lent, before);
        }
    }
}

#[test]
fn in_a_roll() {
    let right = "<Lab n=4>\n\t<Steps>\n\t\tboot 7\n\t</Steps>\n</Lab>\n\n";
    assert_eq!(right.len(), 46);
    adds("<Lab  n=4>\n<Steps>\n\tboot 7\n</Steps>\n</Lab>", b"", 60, 0, Ok(right.as_bytes()));
    records(right, &[[0, 46, 0, 46, 4]]);
}

#[test]
fn readings_49_and_50() {
    records("", &[]);
    records(" \n\t\r\n  ", &[]);
    roll_refused("\n  x", ALL_RECORDS, 14, 3);
    roll_refused(" <Lab/>", ALL_RECORDS, 14, 1);
    roll_refused("\n\r<Lab/>", ALL_RECORDS, 14, 1);
    roll_refused("[a]\n<Lab/>", ALL_RECORDS, 14, 0);
    records("\n<Lab/>\n[a]\n<Lab", &[[1, 12, 7, 7, 0], [12, 16, 9, 4, 0]]);
    records("<Lab n=`\n<Lab/>\n", &[[0, 9, 9, 9, 0], [9, 16, 0, 7, 1]]);
    records("<Steps>\n<A", &[[0, 8, 9, 8, 0], [8, 10, 9, 2, 0]]);
    records("<Lab/>\r<Lab/>", &[[0, 13, 3, 6, 0]]);
}

#[test]
fn reading_51() {
    roll_refused("<Lab/>\n<Lab/>\n<Lab/>", 14, 15, 14);
    roll_refused("<Lab/>", 4, 15, 0);
    roll_refused("<Lab/>\n".repeat(257), 2_000, 15, 7 * 256);
    assert_eq!(read_roll(TABLE, "<Lab/>\n".repeat(256).as_bytes(), 2_000, ALL).0.count, 256);
    let long = format!("<Steps>\n\t{}\n</Steps>\n", "x".repeat(16_384 - 18));
    records(&long, &[[0, 16_385, 2, 16_384, 0]]);
}

#[test]
fn reading_52() {
    roll_refused("x".repeat(65_537), ALL_RECORDS, 13, 65_536);
    assert_eq!(read_roll(b"", b"x", 5, 8).0, Answer { number: 1, place: 0, count: 0 });
    assert_eq!(read_roll(b"", &[b'x'; 65_537], 5, 8).0.number, 13);
}

#[test]
fn reading_53() {
    let form = b"<Lab />\n\n";
    adds("<Lab/>", b"x\n", 11, 2, Ok(form));
    adds("<Lab/>", b"x\n", 10, 2, Err((12, 0)));
    adds("<Lab/>", b"xx", 11, 2, Err((14, 2)));
    adds("<Lab/>", b"xx", 10, 2, Err((12, 0)));
    adds("<Lab/>", b"xx", 11, 0, Ok(form));
    adds("<Lab/>", b"x\n", 11, usize::MAX, Err((12, 0)));
    adds("\n\t[a]\n[b]\n<Lab/>", b"xx", 0, 2, Err((16, 2)));
    adds("<Lab>", b"xx", 0, 2, Err((9, 5)));
    adds("<Lab/>", &[b'\n'; 65_527], 70_000, 65_527, Ok(form));
    adds("<Lab/>", &[b'\n'; 65_528], 70_000, 65_528, Err((12, 0)));
    let long = format!("<Steps>\n\t{}\n</Steps>\n", "x".repeat(16_383 - 19));
    adds(&long, b"", 20_000, 0, Ok(format!("{long}\n").as_bytes()));
    adds(long.replacen('x', "xx", 1), b"", 20_000, 0, Err((12, 0)));
}

// ---- Request One; the numbers are those of READINGS-02.md

#[test]
fn request_one() {
    let white_space =
        [(0xA0, 0xA0), (0x1680, 0x1680), (0x2000, 0x200A), (0x2028, 0x2029), (0x202F, 0x202F), (0x205F, 0x205F), (0x3000, 0x3000)];
    let bidi_controls = [(0x61C, 0x61C), (0x200E, 0x200F), (0x202A, 0x202E), (0x2066, 0x2069)];
    for (first, last) in white_space.iter().chain(&bidi_controls) {
        taken_out(*first, *last);
    }
}

/// No address has a letter of the range. It stands in a string and a character, an annotation and Content.
fn taken_out(first: u32, last: u32) {
    for letter in (first..=last).filter_map(char::from_u32) {
        value_no_kind(&format!("x:{letter}"));
        value_no_kind_at(&format!("[x:a{letter}b]"), 8);
        value_form(&format!("\"x:{letter}\""), 1);
        value_form(&format!("`x:{letter}`"), 1);
        value_form(&format!("'{letter}'"), 2);
        accepted(format!("[x:{letter}]\n<Lab/>"));
        accepted(format!("<Steps>\n\tx:{letter}\n</Steps>"));
    }
}

#[test]
fn request_one_readings_1_to_3() {
    for letter in ['\u{200B}', '\u{200C}', '\u{200D}', '\u{2060}', '\u{180E}', '\u{AD}', '\u{FEFF}'] {
        value_form(&format!("x:{letter}"), 11);
    }
    // 2
    value_form("\"\u{A0}\"", 1);
    value_form("x:%C2%A0", 11);
    // 3
    value_no_kind("x:a\u{A0}b=1");
    value_refused("x:\u{200F}", 9, 12);
}

// ---- Request Two; the numbers are those of READINGS-02.md

/// The value is a time of the kind with this number in 001 §18's order, as a trait's value and as a list item.
#[track_caller]
fn time_of_kind(value: &str, kind: usize) {
    assert_eq!(time_answer(value.as_bytes()), kind, "{value}");
    value_form(value, 13);
    value_form(&format!("[{value}]"), 12);
    written(value, value);
}

/// The value is read up to its "}" and is no time.
#[track_caller]
fn no_time(value: &str) {
    assert_eq!(time_answer(value.as_bytes()), 0, "{value}");
    value_no_kind(value);
    value_no_kind_at(&format!("[1,{value}]"), 10);
}

#[test]
fn request_two_reading_4() {
    refused("<Lab n={now />\n}", 6, 7);
    refused("<Lab n={\"}\"} />", 6, 7);
    refused("<Lab n={ x />\n</Lab>\n", 9, 21);
    refused("<Lab n={x", 9, 9);
    refused("<Lab n={", 9, 8);
    refused("<Lab n=[1,{now]/>", 9, 17);
    refused("<Lab n=[04,{now]/>", 6, 8);
    refused("<Lab n={{now}} />", 6, 7);
    refused("<Lab n={now\r\n} />", 6, 7);
    refused("<Lab n={now\r} />", 3, 11);
}

#[test]
fn request_two_reading_5() {
    refused("<Lab n={now}x />", 7, 12);
    refused("<Lab n=[{now}x] />", 6, 13);
    accepted("<Lab n={now}/>");
    refused("<Lab n=x:{now} />", 6, 7);
    accepted("<Lab n={now}>\n</Lab>");
    refused("<Lab n={now}} />", 7, 12);
    refused("<Lab n={now}{now} />", 7, 12);
    refused("<Lab n={now}m=1 />", 7, 12);
    refused("<Lab n={now}", 9, 12);
    refused("<Lab n=[{now}", 9, 13);
    refused("<Lab n=[{now} ] />", 6, 13);
    refused("<Lab n=[{now}{now}] />", 6, 13);
    refused("<Lab n=1{now} />", 6, 7);
    refused("<Lab n=x:{now", 9, 13);
}

#[test]
fn request_two_reading_6() {
    time_of_kind("{0000-02-29}", 3);
    no_time("{1900-02-29}");
    time_of_kind("{02-29}", 5);
    no_time("{02-30}");
    no_time("{04-31}");
    time_of_kind("{2000-02-29}", 3);
    time_of_kind("{9999-12-31}", 3);
    time_of_kind("{0000-01}", 4);
    for bad in ["{2100-02-29}", "{2023-02-29}", "{2024-02-30}", "{2024-00-01}", "{2024-13-01}", "{2024-01-00}", "{2024-13}", "{00-01}"] {
        no_time(bad);
    }
}

#[test]
fn request_two_reading_7() {
    time_of_kind("{2024-01-01T00:00+23:59}", 1);
    no_time("{2024-01-01T00:00+24:00}");
    time_of_kind("{2024-01-01T00:00-00:00}", 1);
    no_time("{2024-01-01T00:00+00:60}");
    no_time("{23:59:60}");
    no_time("{24:00}");
    no_time("{23:60}");
    time_of_kind("{23:59:59}", 6);
}

#[test]
fn request_two_reading_8() {
    no_time("{12:00Z}");
    no_time("{2024-01-01T00:00[a]}");
    no_time("{2024-01-01T00:00Z[Etc/GMT+1]}");
    time_of_kind("{12:00:00.1234567}", 6);
    time_of_kind("{2024-01-01T00:00:00.5}", 2);
    time_of_kind("{2024-01-01T00:00Z[Europe/Berlin_-9]}", 1);
    for bad in ["{2024-01-01Z}", "{2024-01T00:00}", "{2024-01-01T}", "{2024-01-01T00:00Z[]}", "{12:00:00.}", "{12:00.5}", "{2024}"] {
        no_time(bad);
    }
}

#[test]
fn request_two_reading_9() {
    for duration in ["{P1D2Y1D}", "{P007D}", "{P0D}", "{PT1.5H2.5M}"] {
        time_of_kind(duration, 7);
    }
    for bad in ["{P1.5D}", "{P}", "{PT}", "{P1DT}", "{}", "{Now}"] {
        no_time(bad);
    }
    time_of_kind("{today}", 8);
    time_of_kind("{now}", 8);
    time_of_kind("{P1Y2M3W4DT5H6M7.25S}", 7);
    for bad in ["{PT1.H}", "{PT.5H}", "{P1H}", "{PT1D}", "{p1D}", "{P1d}", "{-P1D}", "{P1}", "{P1T1H}", "{TODAY}", "{now }", "{ now}"] {
        no_time(bad);
    }
}

#[test]
fn request_two_reading_10() {
    // request Four has moved the place from 7
    refused("<Lab n=[{now},{noon}] />", 6, 14);
    refused_with("<Lab n={now}?", 8, 11, 5);
    refused_with("<Lab n={no}?", 8, 6, 7);
    refused_with("<Lab n={no", 8, 9, 10);
    refused_with("<Lab n=[{now}]?", 16, 11, 8);
    refused("<Lab n={now}?", 7, 12);
}

#[test]
fn request_two_entries_and_form() {
    cells(
        "<Lab n=[{now},{P1D}] m={02-29}/>",
        &[
            [1, 1, TOP, 2, 1, 4, 0, 32],
            [2, 12, 0, 2, 5, 6, 7, 20],
            [3, 13, 1, 0, 8, 8, 8, 13],
            [3, 13, 1, 0, 14, 14, 14, 19],
            [2, 13, 0, 0, 21, 22, 23, 30],
        ],
    );
    form("<Lab\tn={PT007.50S}>\n</Lab>", "<Lab n={PT007.50S}>\n</Lab>\n");
    form("<Lab a={now} b={12:00}\nc={2024-01}/>", "<Lab\n\ta={now}\n\tb={12:00}\n\tc={2024-01}\n/>\n");
    written("[{2024-01-01T00:00Z[a/B]},[{now},\n{P1D}]]", "[{2024-01-01T00:00Z[a/B]}, [{now}, {P1D}]]");
    // a brace is no value in Content, an annotation or a string
    form("[{ }]\n<Steps n=\"{\">\n\t{\n</Steps>", "[{ }]\n<Steps n=\"{\">\n\t{\n</Steps>\n");
    records("<Lab n={now\n<Lab n={now}/>\n", &[[0, 12, 9, 12, 0], [12, 27, 0, 15, 2]]);
}

#[test]
fn request_two_time_answers() {
    let kinds = ["{2024-02-29T12:00Z}", "{2024-02-29T12:00}", "{2024-02-29}", "{2024-02}", "{02-29}", "{12:00}", "{P1D}", "{now}"];
    for (number, time) in kinds.iter().enumerate() {
        time_of_kind(time, number + 1);
    }
    for value in
        ["", "{", "}", "now", "{now", "now}", " {now}", "{now} ", "{now}\n", "{now}}", "{{now}", "{now}{now}", "[{now}]", "{now}/>"]
    {
        assert_eq!(time_answer(value.as_bytes()), 0, "{value}");
    }
    assert_eq!(time_answer(b"{\xFF}"), 0);
}

// ---- Request Four; the numbers are those of READINGS-02.md

/// A value that no kind fits, at fault behind so many of its bytes: as a trait's whole value, in a list, in two, and behind other items.
#[track_caller]
fn at_fault(value: &str, behind: usize) {
    for before in ["", "[", "[[", "[1,", "[[],\t\"[\\\\\", [{now}, x:y, 'a',\r\n"] {
        let inside = if before.is_empty() { "" } else { "]" };
        value_refused(&format!("{before}{value}{inside} />"), 6, 7 + before.len() + behind);
    }
}

#[test]
fn request_four() {
    // the backslash of a bad escape
    at_fault("\"boot\\q\"", 5);
    at_fault("\"\\n\\'\"", 3);
    at_fault("'\\\"'", 1);
    // the line end that cuts a string or character
    at_fault("\"boot\n\"", 5);
    at_fault("'\r\n'", 1);
    // the second scalar of a character, or the closing quote of an empty one
    at_fault("'ab'", 2);
    at_fault("'\u{e9}b'", 3);
    at_fault("''", 1);
    // the first byte of a bad word, the opening brace of a bad time
    at_fault("04", 0);
    at_fault("{noon}", 0);
    // where a comma or the closing bracket was due
    at_fault("[1 2]", 2);
    at_fault("[1;2]", 1);
    at_fault("[\"a\"'b']", 4);
    value_no_kind("04");
}

#[test]
fn request_four_reading_12() {
    refused("<Lab n=>", 6, 7);
    refused("<Lab n=[,1] />", 6, 8);
    refused("<Lab n=[1, ] />", 6, 11);
    refused("<Lab n=[ 1] />", 6, 8);
    refused("<Lab n=[1,\r\n\t] />", 6, 13);
    refused("<Lab n=[1,,2] />", 6, 10);
    refused("<Lab n=[1,>", 6, 10);
    refused("<Lab n=[1, />", 6, 11);
}

#[test]
fn request_four_reading_13() {
    refused("<Lab n=\"a\\\n", 6, 9);
    refused("<Lab n=\"\\u00\n", 6, 8);
    refused("<Lab n=\"a\r\n", 6, 9);
    refused("<Lab n=[1\r\n] />", 6, 9);
    refused("<Lab n=\"a\\\r\n", 6, 9);
    refused("<Lab n=\"\\u{0\r\n", 6, 8);
}

#[test]
fn request_four_reading_14() {
    refused("<Lab n='ab' />", 6, 9);
    refused("<Lab n='' />", 6, 8);
    refused("<Lab n=''' />", 6, 8);
    refused("<Lab n='\n", 6, 8);
    refused("<Lab n='a\n", 6, 9);
    refused("<Lab n='a\\n' />", 6, 9);
    refused("<Lab n='a\\q' />", 6, 9);
    refused("<Lab n='\\na' />", 6, 10);
    refused("<Lab n='\\qb' />", 6, 8);
    refused("<Lab n='\u{1F600}\u{1F600}' />", 6, 12);
    refused("<Lab n='\\u{1F600}b", 6, 17);
}

#[test]
fn request_four_reading_15() {
    refused("<Lab n=[1,x:\"a] />", 6, 10);
    refused("<Lab n=-04 />", 6, 7);
    refused("<Lab n=x:y\\z />", 6, 7);
    refused("<Lab n=[x:y, 12a, 1] />", 6, 13);
}

#[test]
fn request_four_reading_16() {
    refused("<Lab n=[1 ] />", 6, 9);
    refused("<Lab n=[\"a\"b] />", 6, 11);
    refused("<Lab n=[1>", 6, 9);
    refused("<Lab n=[1/>", 6, 9);
    refused("<Lab n=[[1]2] />", 6, 11);
    refused("<Lab n=[[1],[2,04]] />", 6, 15);
    refused("<Lab n=[1,{ now}] />", 6, 10);
    refused("<Lab n=[[1]", 9, 11);
    refused("<Lab n=[[]>", 6, 10);
    refused("<Lab n=[[]]]", 7, 11);
}

#[test]
fn request_four_reading_17() {
    refused("<Lab n=\"\\u{110000}\" />", 6, 8);
    refused("<Lab n=\"\\uD83D", 6, 8);
    refused("<Lab n=[1,[[[[[[[[2", 10, 17);
    refused_with("<Lab n=[1,04] />", 8, 6, 10);
    refused_with("<Lab n=[1, 4] />", 24, 11, 11);
    refused_with("<Lab n=[4 ", 0, 11, 1);
}

/// Whoever passes the place on passes this one: a writing, an adding and a roll's record.
#[test]
fn request_four_is_passed_on() {
    let sheet = "<Lab n=[1,\"a\\q\"] />\n";
    let refusal = Answer { number: 6, place: 12, count: 0 };
    assert_eq!(write_form(TABLE, sheet.as_bytes(), ALL, 16_384), (refusal, Vec::new()));
    adds(sheet, b"<Lab />\n", 60, 8, Err((6, 12)));
    records(format!("<Lab/>\n{sheet}<Lab/>\n"), &[[0, 7, 0, 7, 1], [7, 27, 6, 12, 0], [27, 34, 0, 7, 1]]);
}

// ---- Request Five; the numbers are those of READINGS-02.md

/// The same item of a list, a set, a map under the key `k`, and a tuple: what stands before it, and behind it.
const AROUND: [(&str, &str); 4] = [("[", "]"), ("set[", "]"), ("map[k:", "]"), ("(", ")")];

#[test]
fn request_five() {
    for ((before, behind), bracket) in AROUND.into_iter().zip([12, 14, 15, 16]) {
        value_form(&format!("{before}1{behind}"), bracket);
        // nested with lists
        for (outer, closing) in AROUND {
            value_form(&format!("[{outer}{before}1{behind}{closing}]"), 12);
        }
        // an item at fault is at its own place, as in a list
        for (item, fault) in
            [("04", 0), ("\"a\\q\"", 2), ("''", 1), ("{noon}", 0), (",1", 0), ("1, ,2", 3), ("1 ", 1), ("1>", 1), ("[1;2]", 1)]
        {
            value_no_kind_at(&format!("{before}{item}{behind}"), 7 + before.len() + fault);
        }
        value_refused(before, 9, 7 + before.len());
        value_refused(&format!("{before}04"), 9, 9 + before.len());
        value_refused(&format!("{before}1{behind}"), 9, 8 + before.len() + behind.len());
        value_refused(&format!("{before}1{behind}?"), 7, 8 + before.len() + behind.len());
    }
    // an empty tuple at its ")", a bad key at its start, a missing colon where it was due
    value_form("[]", 12);
    value_form("set[]", 14);
    value_form("map[]", 15);
    value_no_kind_at("()", 8);
    value_no_kind_at("map[a:1,04:2]", 15);
    value_no_kind_at("map[a:1,b;2]", 15);
    value_no_kind_at("map[a:1,b 2]", 16);
    value_no_kind_at("map[a:1,\"b\"2]", 18);
}

/// The same depth of eight, at the bracket: the last byte of what opens.
#[test]
fn request_five_depth() {
    for (before, behind) in AROUND {
        for (inner, closing) in AROUND {
            let seven = (before.repeat(7), behind.repeat(7));
            value_form(&format!("set[{}1{}]", seven.0, seven.1), 14);
            value_form(&format!("({}[]{})", before.repeat(6), behind.repeat(6)), 16);
            let bracket = inner.find(|one| one == '[' || one == '(').unwrap();
            let deep = format!("({}{inner}1{closing}{}) />", seven.0, seven.1);
            value_refused(&deep, 10, 7 + 1 + seven.0.len() + bracket);
            value_refused(&deep[..1 + seven.0.len() + bracket + 1], 10, 7 + 1 + seven.0.len() + bracket);
        }
    }
    // each value anew
    accepted(format!("<Lab n={0}1{1} m={0}1{1}/>", "(".repeat(8), ")".repeat(8)));
    value_form("([[[[[[[1]]]]]]],set[[[[[[[1]]]]]]],map[a:[[[[[[1]]]]]]])", 16);
}

#[test]
fn request_five_reading_18() {
    refused("<Lab n=set />", 6, 7);
    accepted("<Lab n=set:x />");
    value_form("set:x", 11);
    refused("<Lab n=set [1] />", 6, 7);
    refused("<Lab n=Set[1] />", 6, 7);
    refused("<Lab n=set", 9, 10);
    value_form("map:y", 11);
    value_form("set:[1]", 11);
    value_form("map:(1)", 11);
    value_form("[set:x,map:y]", 12);
    for word in ["map", "Map[a:1]", "SET[1]", "sets[1]", "set(1)", "map(1)", "map{a:1}", "-set[1]", "1(2)", "rgb(1)", "set]", ")"] {
        value_no_kind(word);
    }
    value_no_kind("map [a:1]");
    value_no_kind_at("[1,set]", 10);
    value_no_kind_at("[Set[1]]", 8);
    value_refused("map", 9, 10);
    value_refused("set:", 9, 11);
}

#[test]
fn request_five_reading_19() {
    refused("<Lab n=[[[[[[[[set[1]]]]]]]]] />", 10, 18);
    refused("<Lab n=[[[[[[[[(", 10, 15);
    refused("<Lab n=[[[[[[[[()", 10, 15);
    refused("<Lab n=[[[[[[[[set", 9, 18);
    refused("<Lab n=[[[[[[[[map[", 10, 18);
    refused("<Lab n=[[[[[[[[map[]", 10, 18);
    refused("<Lab n=[[[[[[[[map", 9, 18);
    refused("<Lab n=((((((((map:y,set:x)))))))) m=", 9, 37);
    refused("<Lab n=map[(:1,[[[[[[[[[", 6, 11);
}

#[test]
fn request_five_reading_20() {
    cells("<Lab n=map[\"k\":1] />", &[[1, 1, TOP, 1, 1, 4, 0, 20], [2, 15, 0, 1, 5, 6, 7, 17], [3, 4, 1, 0, 11, 14, 15, 16]]);
    refused_with("<Lab n=map[a:1] />", 16, 11, 11);
    refused_with("<Lab n=set[1] />", 16, 11, 11);
    refused_with("<Lab n=(1) />", 16, 11, 8);
    // the other items have no name
    cells(
        "<Lab n=(1, set[2], map[a:\t'b',$C: (3)])/>",
        &[
            [1, 1, TOP, 1, 1, 4, 0, 41],
            [2, 16, 0, 3, 5, 6, 7, 39],
            [3, 4, 1, 0, 8, 8, 8, 9],
            [3, 14, 1, 1, 11, 11, 11, 17],
            [3, 4, 3, 0, 15, 15, 15, 16],
            [3, 15, 1, 2, 19, 19, 19, 38],
            [3, 2, 5, 0, 23, 24, 26, 29],
            [3, 16, 5, 1, 30, 32, 34, 37],
            [3, 4, 7, 0, 35, 35, 35, 36],
        ],
    );
    refused_with("<Lab n=map[a:1, \"b\": (2)] />", 24, 11, 16);
    refused_with("<Lab n=map[a:1, \"b\": (2)] />", 32, 11, 22);
    refused_with("<Lab n=map[a:1, \"b\": (2)]?", 40, 7, 25);
    // 6, 9 and 10 come before 11
    refused_with("<Lab n=map[a:1,A:2] />", 8, 6, 15);
    refused_with("<Lab n=map[a:1,b", 8, 9, 16);
    refused_with("<Lab n=(((((((((", 8, 10, 15);
    refused_with("<Lab n=(1)", 8, 11, 5);
}

#[test]
fn request_five_reading_21() {
    refused("<Lab n=map[`a`:1] />", 6, 11);
    refused("<Lab n=map[04:1] />", 6, 11);
    accepted("<Lab n=map[-0:1,true:1,$Ab:1] />");
    refused("<Lab n=map[1.5:1] />", 6, 11);
    accepted("<Lab n=map[aBCDE:1] />");
    refused("<Lab n=map[A:1] />", 6, 11);
    let long = "a".repeat(100);
    for key in
        ["a", "k9", "set", "map", "false", "e1", "0", "+7", "12", "$A", "$ABC9", "\"\"", "\"\\u{61} :,]\"", "'\\''", "':'", "\"\t\"", &long]
    {
        value_form(&format!("map[{key}:1]"), 15);
    }
    let bad = [
        "9a", "a-b", "a.b", "_a", "~a", "$a", "$", "-", "+", "00", "1e5", "1/2", "-1.0", "--1", "{now}", "set[1]", "(1)", "[]", "\u{e9}",
        "a\"", "123e4567-E89b-12d3-a456-426614174000", "True", "a?", "a\\n", "#a", "\"a\nb\"", "\"\\u{110000}\"", "''", "'", "'\\\"'",
        "'\n'",
    ];
    for key in bad {
        value_no_kind_at(&format!("map[{key}:1]"), 11);
        value_no_kind_at(&format!("(map[k:1, {key}:1])"), 17);
    }
}

#[test]
fn request_five_reading_22() {
    refused("<Lab n=map[\"x\\q\":1] />", 6, 11);
    refused("<Lab n=map['ab':1] />", 6, 11);
    refused("<Lab n=map[\"x\n", 6, 11);
    refused("<Lab n=map[A", 9, 12);
    refused("<Lab n=map[\"a\"", 9, 14);
    refused("<Lab n=map[\"a", 9, 13);
    refused("<Lab n=map[\"\\u{110000", 9, 21);
    refused("<Lab n=map['ab", 6, 11);
    refused("<Lab n=map['", 9, 12);
    refused("<Lab n=map[a:1,'\\q", 6, 15);
    // the value under a good key keeps request Four's place
    refused("<Lab n=map[\"x\":\"y\\q\"] />", 6, 17);
}

#[test]
fn request_five_reading_23() {
    refused("<Lab n=map[{12:00}:1] />", 6, 11);
    refused("<Lab n=map[{a:", 6, 11);
    refused("<Lab n=map[[1]:1] />", 6, 11);
    refused("<Lab n=map[a=1] />", 6, 11);
    refused("<Lab n=map[{a", 9, 13);
    refused("<Lab n=map[[", 9, 12);
    refused("<Lab n=map[(a):1] />", 6, 11);
    refused("<Lab n=(map[a)", 9, 14);
    refused("<Lab n=(map[a):1]) />", 6, 12);
    refused("<Lab n=map[`a` :1] />", 6, 11);
    refused("<Lab n=map[a/b:1] />", 6, 11);
    refused("<Lab n=map[a/", 9, 13);
}

#[test]
fn request_five_reading_24() {
    refused("<Lab n=map[04] />", 6, 11);
    refused("<Lab n=map[a] />", 6, 12);
    refused("<Lab n=map[a :1] />", 6, 12);
    refused("<Lab n=map[:1] />", 6, 11);
    refused("<Lab n=map[a:1,] />", 6, 15);
    refused("<Lab n=map[ ] />", 6, 11);
    refused("<Lab n=map[a/>", 6, 12);
    refused("<Lab n=map[a>", 6, 12);
    refused("<Lab n=map[a,b:1] />", 6, 12);
    refused("<Lab n=map[\"a\"b:1] />", 6, 14);
    refused("<Lab n=map[\"a\" :1] />", 6, 14);
    refused("<Lab n=map['a'\r\n:1] />", 6, 14);
    refused("<Lab n=map[,a:1] />", 6, 11);
    refused("<Lab n=map[a:1,\n,b:1] />", 6, 16);
    refused("<Lab n=map[/>", 6, 11);
    refused("<Lab n=map[a:] />", 6, 13);
    refused("<Lab n=map[a:,b:1] />", 6, 13);
    refused("<Lab n=map[a:\r\n] />", 6, 15);
    refused("<Lab n=map[a:", 9, 13);
    refused("<Lab n=map[a: ", 9, 14);
    refused("<Lab n=map[a:1,", 9, 15);
}

#[test]
fn request_five_reading_25() {
    accepted("<Lab n=map[a: 1] />");
    refused("<Lab n=set[ 1] />", 6, 11);
    refused("<Lab n=(1 ) />", 6, 9);
    refused("<Lab n=( ) />", 6, 8);
    refused("<Lab n=() />", 6, 8);
    accepted("<Lab n=map[a:\r\n\t 1,\n\tb:2]/>");
    accepted("<Lab n=(1,\n\t2, 3)/>");
    refused("<Lab n=map[a:1 ] />", 6, 14);
    refused("<Lab n=map[a:1 ,b:2] />", 6, 14);
    refused("<Lab n=set[ ] />", 6, 11);
    refused("<Lab n=set[1 ] />", 6, 12);
    refused("<Lab n=( 1) />", 6, 8);
    refused("<Lab n=(1 ,2) />", 6, 9);
    refused("<Lab n=(1,) />", 6, 10);
    refused("<Lab n=(,) />", 6, 8);
    refused("<Lab n=(", 9, 8);
}

#[test]
fn request_five_reading_26() {
    refused("<Lab n=(x:a(b)) />", 7, 14);
    accepted("<Lab n=(x:[1]) />");
    accepted("<Lab n=([x:a)]) />");
    accepted("<Lab n=[(x:a])] />");
    refused("<Lab n=(1] />", 6, 8);
    refused("<Lab n=(\"a\"] />", 6, 11);
    accepted("<Lab n=map[a:x:y] />");
    refused("<Lab n=map[a:1:2] />", 6, 13);
    accepted("<Lab n=map[a:{2024-01-01T00:00Z[a/b]}] />");
    accepted("<Lab n=(map[a:x:)],x:]) />");
    accepted("<Lab n=map[a:(x:]:),b:x:)] />");
    accepted("<Lab n=set[x:(] />");
    refused("<Lab n=set[x:[]] />", 7, 15);
    refused("<Lab n=[1) />", 6, 8);
    refused("<Lab n=[{now}) />", 6, 13);
    refused("<Lab n=((1)] />", 6, 11);
    refused("<Lab n=(set[1)) />", 6, 12);
    accepted("<Lab n=x:(1) m=(x:) />");
    value_form("x:(,)]", 11);
}

#[test]
fn request_five_reading_27() {
    written("map[\"\\u{61}\":1,'\\u{62}':2]", "map[\"a\": 1, 'b': 2]");
    accepted("<Lab n=set[1,1] />");
    accepted("<Lab n=map[a:1,a:2] />");
    written("map[a:1,a:2,\"a\":3]", "map[a: 1, a: 2, \"a\": 3]");
    written("map[+7:`a  b`,\n$Ab:\tAAAAAAAA-BBBB-CCCC-DDDD-EEEEEEEEEEEE]", "map[+7: \"a b\", $Ab: aaaaaaaa-bbbb-cccc-dddd-eeeeeeeeeeee]");
    written("map[\"'\\\"\\\\\t\\u007F\":'\\u{22}','\"':\"\\u{27}\",'\\'':0]", "map[\"'\\\"\\\\\\t\\u{7f}\": '\"', '\"': \"'\", '\\'': 0]");
    written("(1,\n2,set[],map[],[(x:/,{now})])", "(1, 2, set[], map[], [(x:/, {now})])");
    written("set[map[k:[1,2]],(set[1,\t1])]", "set[map[k: [1, 2]], (set[1, 1])]");
    form("<Lab a=(x:/) b=set[1,2]\nc=map[d:1]>\n</Lab>", "<Lab\n\ta=(x:/)\n\tb=set[1, 2]\n\tc=map[d: 1]\n>\n</Lab>\n");
    form("<Lab a=(x:/)>\n</Lab>", "<Lab a=(x:/)>\n</Lab>\n");
    let sheet = b"<Lab n=map[a:1,b:2]/>";
    assert_eq!(write_form(TABLE, sheet, ALL, 25), (Answer { number: 12, place: 0, count: 0 }, Vec::new()));
    assert_eq!(write_form(TABLE, sheet, ALL, 26).1, b"<Lab n=map[a: 1, b: 2] />\n");
}

/// A view shows a map item's value, not its key; rolls and adding pass the places on.
#[test]
fn request_five_is_passed_on() {
    let sheet = b"<Lab n=map[\"k\":'v'] />";
    let (_, cells) = read_sheet(TABLE, sheet, ALL);
    assert_eq!(view(sheet, &cells, 2), Ok(&b"'v'"[..]));
    adds("<Lab n=map[k:1 ] />", b"", 60, 0, Err((6, 14)));
    adds("<Lab n=(1,2)/>", b"", 60, 0, Ok(b"<Lab n=(1, 2) />\n\n"));
    records("<Lab n=()/>\n<Lab n=(1)/>\n<Lab n=map[k\n", &[[0, 12, 6, 8, 0], [12, 25, 0, 13, 3], [25, 38, 6, 12, 0]]);
    // a bracket is no value in Content, an annotation or a string
    form("[()]\n<Steps n=\"(\">\n\tset[\n</Steps>", "[()]\n<Steps n=\"(\">\n\tset[\n</Steps>\n");
}

// ---- Request Six; the numbers are those of READINGS-02.md

#[test]
fn request_six() {
    refused("<Lab node=4 node=9 />", 18, 12);
    refused("<Lab node=4 free={now} node=9>\n</Lab>", 18, 23);
    refused("<Lab node=4>\n\t<Steps node=4 node=9>\n\t</Steps>\n</Lab>", 18, 28);
    // after 4 for that name, and before its value is read
    refused("<Lab node=4 Node=9 />", 4, 12);
    refused("<Lab node=4 node=[1, 04] />", 18, 12);
    accepted("<Lab node=4 nodes=9 />");
}

#[test]
fn request_six_reading_28() {
    refused("<Lab n=1 n>", 18, 9);
    refused("<Lab n=1 n?", 18, 9);
    refused("<Lab n=1 n=", 18, 9);
    refused("<Lab n=1 nABC=1 />", 4, 9);
    accepted("<Lab n=1 nN=2 />");
    refused("<Lab n=1 n", 9, 10);
    refused("<Lab n=1 n=2/>", 18, 9);
    for behind in [" =1", "/>", "\n", "==", ":1", "-", "\u{e9}"] {
        refused(format!("<Lab n=1 n{behind}"), 18, 9);
    }
    // no name stands here
    refused("<Lab n=1 =1 />", 7, 9);
    refused("<Lab n=1n=1 />", 6, 7);
    refused("<Lab n=[1]n=1 />", 7, 10);
    // the first one's own faults come first
    refused("<Lab n n=1 />", 7, 6);
    refused("<Lab n=04 n=1 />", 6, 7);
    refused("<Lab N=1 N=1 />", 4, 5);
    // the names are the whole runs, letter by letter
    for other in ["nn", "n1", "m", "nNa", "mn"] {
        accepted(format!("<Lab n=1 {other}=2 />"));
    }
    refused("<Lab n=1 N=2 />", 4, 9);
    let long = "a".repeat(31);
    accepted(format!("<Lab {long}b=1 {long}c=2 {long}=3 b{long}=4 c{long}=5 />"));
    refused(format!("<Lab {long}b=1 {long}c=2 {long}b=3 />"), 18, 5 + 35 + 35);
    refused(format!("<Lab {long}bc=1 {long}bc=2 />"), 4, 5);
}

#[test]
fn request_six_reading_29() {
    refused("<Lab n=1 n=04 />", 18, 9);
    refused_with("<Lab n=1 n=9 />", 16, 18, 9);
    refused_with("<Lab n=1 n=9 />", 8, 11, 5);
    refused("<Lab n=1 n=[[[[[[[[[", 18, 9);
    refused("<Lab n=1 n=\"", 18, 9);
    refused_with("<Lab n=[1, 2] n=9 />", 24, 11, 11);
    refused_with("<Lab n=[1, 2] n=9 />", 32, 18, 14);
    // the marker is read no further
    refused("<Lab n=1 n=2 m=04 />", 18, 9);
    refused("<Lab n=1 m=04 n=2 />", 6, 11);
    refused("<Lab n=1 m=2 n=3 n=4 m=5 />", 18, 13);
    refused("<Lab n=1 m=2 m=3 n=4 />", 18, 13);
    // parent, child and sibling may share names
    accepted("<Lab n=1>\n\t<Lab n=1 />\n\t<Lab n=1 m=2>\n\t\t<Steps m=1 n=2 />\n\t</Lab>\n</Lab>");
    refused("<Lab n=1>\n\t<Lab m=1 n=2 m=3 />\n</Lab>", 18, 24);
    // keys, items, strings, addresses, annotations and Content are no traits
    accepted("<Lab n=map[n:1, n:2] m=map[n:1, m:map[m:1]] />");
    accepted("[n=1 n=2]\n<Steps n=\" n=1\" a=` n=1\n n=2 ` b=x:n=1 c=[~n, ~n] d='n'>\n\t n=1 n=2\n</Steps>");
    refused("<Lab n=1 a=\"x n=2\" n=3 />", 18, 19);
    refused("<Lab a=map[n:1] n=[map[a:1]]\n\ta=2 />", 18, 30);
}

/// Many traits, of which the last has a name that one before it has, or none of them.
#[test]
fn request_six_in_long_markers() {
    let names: Vec<String> = (0..1_023).map(|number| format!("n{number}")).collect();
    let marker = |names: &[String]| format!("<Lab{}", names.iter().map(|name| format!(" {name}=1")).collect::<String>());
    for count in [1, 2, 7, 8, 9, 15, 16, 17, 31, 32, 33, 63, 64, 65, 200, 1_023] {
        let good = marker(&names[..count]);
        assert_eq!(answer(format!("{good} />").as_bytes(), ALL).count, 1 + count);
        for first in [0, count / 2, count - 1] {
            refused(format!("{good} {}=1 />", names[first]), 18, good.len() + 1);
            refused(format!("{good} {}", names[first]), 9, good.len() + 1 + names[first].len());
            refused_with(format!("{good} {}=1 />", names[first]), count * 8, 11, good.rfind(' ').unwrap() + 1);
        }
    }
    // its own 11 comes behind its 18, that of another name does not
    let full = marker(&names);
    refused(format!("{full} n0=1 />"), 18, full.len() + 1);
    refused(format!("{full} m0=1 />"), 11, full.len() + 1);
}

/// Forms, rolls and adding pass the place on.
#[test]
fn request_six_is_passed_on() {
    assert_eq!(write_form(TABLE, b"<Lab n=1 n=2/>", ALL, 16_384), (Answer { number: 18, place: 9, count: 0 }, Vec::new()));
    adds("<Lab n=1 n=2/>", b"", 60, 0, Err((18, 9)));
    adds("[a]\n<Lab n=1 n=2/>", b"x", 0, 1, Err((18, 13)));
    records("<Lab n=1/>\n<Lab n=1 n=2/>\n<Lab n=1 n\n", &[[0, 11, 0, 11, 2], [11, 26, 18, 9, 0], [26, 37, 18, 9, 0]]);
}
