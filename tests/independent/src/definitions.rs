//! Prints answered requests as statements about the formal definitions, each true by computation alone.
//! The definitions are document 01's, in the folder that is named; nothing else here looks at them.

use crate::reader::{read_sheet, table_answer, view, view_answer, Answer, SHEET_BYTES};
use crate::writer::write_form;
use crate::{from_hex, numbers, SheetRequest};
use std::path::Path;

/// So many cases stand in one statement, since a statement may take only so many steps of computation.
const CASES_AT_ONCE: usize = 40;

/// A module that holds where the definitions answer every request as this program does.
pub fn module(specs: &Path, requests: &[String]) -> std::io::Result<String> {
    let names = Names::read(specs)?;
    let words: Vec<Vec<&str>> = requests.iter().map(|line| line.split_whitespace().collect()).collect();
    let cases = |case: fn(&[&str]) -> Option<String>| words.iter().filter_map(|words| case(words)).collect::<Vec<_>>();
    let mut text = String::from("-- Requests and their answers, by computation.\n-- Document 01, as reader.rs and writer.rs read it.\n");
    text.push_str(&names.uses());
    text.push_str(KINDS_OF_CASES);
    for (kind, cases) in [("Sheet", cases(sheet_case)), ("Table", cases(table_case)), ("View", cases(view_case))] {
        for (number, cases) in cases.chunks(CASES_AT_ONCE).enumerate() {
            text.push_str(&statement(kind, number, cases, &names));
        }
    }
    Ok(text)
}

/// The cases of one kind as a list, and that what is seen of them is what is due.
fn statement(kind: &str, number: usize, cases: &[String], names: &Names) -> String {
    let list = format!("cases{kind}{number}");
    let seen = kind.to_lowercase();
    let cases: String = cases.iter().map(|case| format!("    {case} ∷\n")).collect();
    let holds = format!("right{kind}{number} : map seen_{seen} {list} ≡ map due_{seen} {list}");
    let unfolded = format!("{list} form_of seen_{seen} {}", names.unfolded());
    format!("\nunfoldable pub {list} : List {kind}Case\n{list} =\n{cases}    []\n\npub {holds}\nunfolding {unfolded}\nright{kind}{number} = refl\n")
}

/// The modules of the definitions, and the names in each that are unfolded on demand.
struct Names(Vec<(String, Vec<String>)>);

impl Names {
    fn read(specs: &Path) -> std::io::Result<Names> {
        let listed = std::fs::read_to_string(specs.join("Lib.antt"))?;
        let modules = listed.lines().filter_map(|line| line.strip_prefix("pub mod "));
        let named = |module: &str| {
            let text = std::fs::read_to_string(specs.join(format!("{module}.antt")))?;
            Ok((module.to_string(), unfoldable_names(&text)))
        };
        Ok(Names(modules.map(named).collect::<std::io::Result<_>>()?))
    }

    fn uses(&self) -> String {
        self.0.iter().map(|(module, _)| format!("use Rattle.paper.specs.{module}\n")).collect()
    }

    fn unfolded(&self) -> String {
        let qualified = |(module, names): &(String, Vec<String>)| names.iter().map(|name| format!("{module}.{name}")).collect::<Vec<_>>();
        self.0.iter().flat_map(qualified).collect::<Vec<_>>().join(" ")
    }
}

/// The names behind `unfoldable pub`, and the first name of each `unfoldable mutual`.
fn unfoldable_names(text: &str) -> Vec<String> {
    let mut names = Vec::new();
    let mut mutual = false;
    for line in text.lines() {
        let prefix = if mutual { "  pub " } else { "unfoldable pub " };
        if line == "unfoldable mutual" {
            mutual = true;
        } else if let Some((name, _)) = line.strip_prefix(prefix).and_then(|rest| rest.split_once(' ')) {
            names.push(name.to_string());
            mutual = false;
        }
    }
    names
}

/// A request about a sheet with answer, entries and form. A form over 16,384 bytes is no matter of these definitions.
fn sheet_case(words: &[&str]) -> Option<String> {
    let request = SheetRequest::of(words.strip_prefix(&["sheet"])?)?;
    let SheetRequest { table, sheet, lent } = &request;
    let (answer, cells) = read_sheet(table, sheet, *lent);
    let (written, form) = write_form(table, sheet, *lent, SHEET_BYTES);
    if written.number == 12 {
        return None;
    }
    let lists =
        format!("table = {}; sheet = {}; entries = {}; form = {}", list(table), list(sheet), list(&cells[..answer.count * 8]), list(&form));
    Some(format!("record {{ {lists}; lent = {lent}; answer = {} }}", told(answer)))
}

fn table_case(words: &[&str]) -> Option<String> {
    let table = from_hex(words.strip_prefix(&["table"])?.first()?)?;
    Some(format!("record {{ table = {}; answer = {} }}", list(&table), told(table_answer(&table))))
}

fn view_case(words: &[&str]) -> Option<String> {
    let (sheet, words) = words.strip_prefix(&["view"])?.split_first()?;
    let (number, cells) = words.split_first()?;
    let (sheet, number, cells) = (from_hex(sheet)?, number.parse().ok()?, numbers(cells)?);
    let part = view(&sheet, &cells, number).unwrap_or_default();
    let lists = format!("sheet = {}; cells = {}; part = {}", list(&sheet), list(&cells), list(part));
    Some(format!("record {{ {lists}; entry = {number}; answer = {} }}", told(view_answer(&sheet, &cells, number))))
}

fn list<T: std::fmt::Display>(things: &[T]) -> String {
    things.iter().map(|thing| format!("{thing} ∷ ")).collect::<String>() + "[]"
}

fn told(answer: Answer) -> String {
    format!("record {{ number = {}; place = {}; count = {} }}", answer.number, answer.place, answer.count)
}

/// What is seen of a case by the definitions, and what is due.
const KINDS_OF_CASES: &str = "\
use Prim.Native.Nat.{ℕ, ◌-◌}
use mathlib.Core.Path.{◌≡◌, refl}
use mathlib.Core.List.{List, [], ◌∷◌, ◌++◌, map}
use lib.ListN.{length, replicate}
use Rattle.paper.specs.declared.Told.{Told}
use Rattle.paper.specs.Found.{found, fault}

pub record SheetCase : Type 0 where
  pub table : List ℕ
  pub sheet : List ℕ
  pub lent : ℕ
  pub answer : Told
  pub entries : List ℕ
  pub form : List ℕ

-- the answer, every cell, the form, and the form of the form
pub record SheetSeen : Type 0 where
  pub answer : Told
  pub cells : List ℕ
  pub form : List ℕ
  pub again : List ℕ

unfoldable pub form_of : List ℕ → ℕ → List ℕ → List ℕ
form_of table lent s =
    elim (Modes.mode_table table) [
      | fault n left ↦ []
      | found m left ↦ elim (Reading.sheet_of m (Reading.room_of lent) s) [ fault n left ↦ [] | found t left ↦ Canonical.canonical t ]
    ]

unfoldable pub seen_sheet : SheetCase → SheetSeen
seen_sheet k =
    let read = Reading.reading k.table k.sheet k.lent in
    let form = form_of k.table k.lent k.sheet in
    record { answer = read.answer; cells = read.cells; form = form; again = form_of k.table k.lent form }

abbrev pub due_sheet : SheetCase → SheetSeen
due_sheet k = record { answer = k.answer; cells = k.entries ++ replicate (k.lent - length k.entries) 0; form = k.form; again = k.form }

pub record TableCase : Type 0 where
  pub table : List ℕ
  pub answer : Told

unfoldable pub seen_table : TableCase → Told
seen_table k = Modes.read_table k.table

abbrev pub due_table : TableCase → Told
due_table k = k.answer

pub record ViewCase : Type 0 where
  pub sheet : List ℕ
  pub cells : List ℕ
  pub entry : ℕ
  pub answer : Told
  pub part : List ℕ

pub record ViewSeen : Type 0 where
  pub answer : Told
  pub part : List ℕ

unfoldable pub seen_view : ViewCase → ViewSeen
seen_view k = record { answer = View.view_answer k.sheet k.cells k.entry; part = View.viewed k.sheet k.cells k.entry }

abbrev pub due_view : ViewCase → ViewSeen
due_view k = record { answer = k.answer; part = k.part }
";
