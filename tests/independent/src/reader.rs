//! Reads a mode table and a sheet, and hands back a span: every answer, and every cell at exit.
//! Follows document 01, "The mode table", "The grammar", "Entries" and "Refusal numbers"; a map's items have names by document 02, request
//! Five, and no two traits of a Concept have the same name by request Six.

use crate::values::{is_white_space, read_value, Key, Kind, Value};

/// The limits of "Sizes".
pub const SHEET_BYTES: usize = 16_384;
pub const ENTRIES: usize = 1_024;
pub const CONCEPTS_DEEP: usize = 32;
pub const NAME_BYTES: usize = 32;
const TABLE_NAMES: u8 = 64;

/// Cells of an entry, and the parent of an entry at the top ("Entries").
pub const ENTRY_CELLS: usize = 8;
const TOP: u32 = 4_294_967_295;

/// What a call answers: number, place, count ("Refusal numbers"; number 0 is an acceptance).
#[derive(Clone, Copy, Debug, PartialEq, Eq)]
pub struct Answer {
    pub number: u32,
    pub place: usize,
    pub count: usize,
}

/// A refusal's number and place.
#[derive(Clone, Copy, Debug, PartialEq, Eq)]
pub struct Refusal {
    pub number: u32,
    pub place: usize,
}

impl Refusal {
    pub fn answer(self) -> Answer {
        Answer { number: self.number, place: self.place, count: 0 }
    }
}

/// The bytes from `start` up to, not with, `end`.
#[derive(Clone, Copy, Debug)]
pub struct Span {
    pub start: usize,
    pub end: usize,
}

impl Span {
    pub fn of(self, sheet: &[u8]) -> &[u8] {
        &sheet[self.start..self.end]
    }
}

/// A mode table's names, in children mode and in content mode.
#[derive(Debug)]
pub struct ModeTable {
    pub children: Vec<Vec<u8>>,
    pub content: Vec<Vec<u8>>,
}

impl ModeTable {
    fn holds(&self, name: &[u8]) -> bool {
        self.children.iter().chain(&self.content).any(|known| known == name)
    }

    fn is_content(&self, name: &[u8]) -> bool {
        self.content.iter().any(|known| known == name)
    }
}

/// A Concept as it stands in a sheet.
#[derive(Debug)]
pub struct Concept {
    /// the annotations' texts, between the brackets
    pub annotations: Vec<Span>,
    pub name: Span,
    pub traits: Vec<Trait>,
    pub body: Body,
    pub span: Span,
}

#[derive(Debug)]
pub struct Trait {
    pub name: Span,
    pub value: Value,
}

#[derive(Debug)]
pub enum Body {
    SelfClosed,
    Children(Vec<Concept>),
    /// the whole lines, and each line's text
    Content {
        span: Span,
        texts: Vec<Span>,
    },
}

// ---- The mode table

/// Answers a mode table alone: an acceptance counts the names of both sections.
pub fn table_answer(table: &[u8]) -> Answer {
    match read_table(table) {
        Ok(names) => Answer { number: 0, place: table.len(), count: names.children.len() + names.content.len() },
        Err(refusal) => refusal.answer(),
    }
}

/// Reads a mode table; every refusal is 1.
pub fn read_table(table: &[u8]) -> Result<ModeTable, Refusal> {
    let mut at = 0;
    let mut names = ModeTable { children: Vec::new(), content: Vec::new() };
    for _ in 0..section_count(table, &mut at)? {
        let name = table_name(table, &mut at, &names)?;
        names.children.push(name);
    }
    for _ in 0..section_count(table, &mut at)? {
        let name = table_name(table, &mut at, &names)?;
        names.content.push(name);
    }
    if at < table.len() {
        return Err(table_refused(at));
    }
    Ok(names)
}

fn table_refused(place: usize) -> Refusal {
    Refusal { number: 1, place }
}

fn section_count(table: &[u8], at: &mut usize) -> Result<u8, Refusal> {
    let count = *table.get(*at).ok_or(table_refused(table.len()))?;
    if count > TABLE_NAMES {
        return Err(table_refused(*at));
    }
    *at += 1;
    Ok(count)
}

/// One name with its length byte; it is judged once all its bytes are there.
fn table_name(table: &[u8], at: &mut usize, earlier: &ModeTable) -> Result<Vec<u8>, Refusal> {
    let length = *table.get(*at).ok_or(table_refused(table.len()))? as usize;
    if length == 0 || length > NAME_BYTES {
        return Err(table_refused(*at));
    }
    let first = *at + 1;
    let name = table.get(first..first + length).ok_or(table_refused(table.len()))?;
    if !is_concept_name(name) || earlier.holds(name) {
        return Err(table_refused(first));
    }
    *at = first + length;
    Ok(name.to_vec())
}

// ---- Names and bytes

fn is_concept_name(name: &[u8]) -> bool {
    keeps_name_rule(name) && name[0].is_ascii_uppercase()
}

pub fn is_trait_name(name: &[u8]) -> bool {
    keeps_name_rule(name) && name[0].is_ascii_lowercase()
}

/// What Concept and trait names share: 1 to 32 letters and digits, no three upper case letters in a row (000 §4).
fn keeps_name_rule(name: &[u8]) -> bool {
    (1..=NAME_BYTES).contains(&name.len())
        && name.iter().all(u8::is_ascii_alphanumeric)
        && !name.windows(3).any(|three| three.iter().all(u8::is_ascii_uppercase))
}

/// The first byte of the first bad sequence, if there is one ("Bytes").
fn bad_bytes(sheet: &[u8]) -> Option<usize> {
    if sheet.starts_with(b"\xEF\xBB\xBF") {
        return Some(0);
    }
    let sound = match std::str::from_utf8(sheet) {
        Ok(_) => sheet.len(),
        Err(error) => error.valid_up_to(),
    };
    let control = (0..sound).find(|&at| is_bad_control(sheet, at));
    control.or((sound < sheet.len()).then_some(sound))
}

fn is_bad_control(sheet: &[u8], at: usize) -> bool {
    match sheet[at] {
        b'\t' | b'\n' => false,
        b'\r' => sheet.get(at + 1) != Some(&b'\n'),
        byte => byte < 32 || byte == 127,
    }
}

// ---- The sheet

/// Reads a sheet with `lent` cells lent: the answer, and every lent cell at exit.
pub fn read_sheet(table: &[u8], sheet: &[u8], lent: usize) -> (Answer, Vec<u32>) {
    let mut cells = vec![0; lent];
    match read_root(table, sheet, lent) {
        Ok(root) => {
            let mut entries = Vec::new();
            enter_concept(&mut entries, &root, TOP);
            cells[..entries.len() * ENTRY_CELLS].copy_from_slice(&entries.concat());
            (Answer { number: 0, place: sheet.len(), count: entries.len() }, cells)
        }
        Err(refusal) => (refusal.answer(), cells),
    }
}

/// The root Concept of a sheet that is accepted. Order: 1, 2, 3 over the whole sheet, then 4 to 11 and 18 by the fault met first.
pub fn read_root(table: &[u8], sheet: &[u8], lent: usize) -> Result<Concept, Refusal> {
    let table = read_table(table)?;
    if sheet.len() > SHEET_BYTES {
        return Err(Refusal { number: 2, place: SHEET_BYTES });
    }
    if let Some(place) = bad_bytes(sheet) {
        return Err(Refusal { number: 3, place });
    }
    let room = (lent / ENTRY_CELLS).min(ENTRIES);
    Reader { table: &table, sheet, at: 0, room }.document()
}

/// Where a reading stands: the next byte, and how many entries may still be made.
struct Reader<'a> {
    table: &'a ModeTable,
    sheet: &'a [u8],
    at: usize,
    room: usize,
}

impl Reader<'_> {
    fn byte(&self) -> Option<u8> {
        self.sheet.get(self.at).copied()
    }

    /// Something else was due: 9 at the end of input, else 7 at the byte that stands there.
    fn something_else_due(&self) -> Refusal {
        let number = if self.at == self.sheet.len() { 9 } else { 7 };
        Refusal { number, place: self.at }
    }

    /// Passes the byte that is due.
    fn pass(&mut self, due: u8) -> Result<(), Refusal> {
        if self.byte() != Some(due) {
            return Err(self.something_else_due());
        }
        self.at += 1;
        Ok(())
    }

    /// Passes all bytes that fit, and says how many.
    fn pass_while(&mut self, fits: fn(u8) -> bool) -> usize {
        let start = self.at;
        while self.byte().map_or(false, fits) {
            self.at += 1;
        }
        self.at - start
    }

    fn pass_tabs(&mut self) -> usize {
        self.pass_while(|byte| byte == b'\t')
    }

    fn pass_spaces_and_tabs(&mut self) {
        self.pass_while(|byte| byte == b' ' || byte == b'\t');
    }

    /// Passes LF or CR LF, if one stands here.
    fn pass_line_end(&mut self) -> bool {
        let length = match &self.sheet[self.at..] {
            [b'\n', ..] => 1,
            [b'\r', b'\n', ..] => 2,
            _ => 0,
        };
        self.at += length;
        length > 0
    }

    /// Makes an entry, or refuses with 11 at `place`.
    fn enter(&mut self, place: usize) -> Result<(), Refusal> {
        if self.room == 0 {
            return Err(Refusal { number: 11, place });
        }
        self.room -= 1;
        Ok(())
    }

    // ---- Lines

    /// The rest of a line whose line end must stand: an opening marker's or an annotation's.
    fn line_end_due(&mut self) -> Result<(), Refusal> {
        self.pass_spaces_and_tabs();
        if self.pass_line_end() {
            Ok(())
        } else {
            Err(self.something_else_due())
        }
    }

    /// The rest of a line that the end of input may end, too.
    fn line_over(&mut self) -> Result<(), Refusal> {
        self.pass_spaces_and_tabs();
        if self.pass_line_end() || self.at == self.sheet.len() {
            Ok(())
        } else {
            Err(self.something_else_due())
        }
    }

    /// Blank lines, then the tabs before a "<" or "[". A space here may begin a blank line, a later byte is at fault.
    fn tabs_past_blank_lines(&mut self) -> Result<usize, Refusal> {
        loop {
            let tabs = self.pass_tabs();
            if matches!(self.byte(), Some(b'<' | b'[')) {
                return Ok(tabs);
            }
            self.line_end_due()?;
        }
    }

    /// The tabs before a "<" or "[" where no blank line may stand: after an annotation.
    fn tabs_past_annotation(&mut self) -> Result<usize, Refusal> {
        let tabs = self.pass_tabs();
        match self.byte() {
            Some(b'<' | b'[') => Ok(tabs),
            _ => Err(self.something_else_due()),
        }
    }

    /// One root with its annotations, blank lines around them.
    fn document(&mut self) -> Result<Concept, Refusal> {
        let mut tabs = self.tabs_past_blank_lines()?;
        let annotations = self.annotations(&mut tabs)?;
        let root = self.concept(annotations, tabs, 1)?;
        while self.at < self.sheet.len() {
            self.line_over()?;
        }
        Ok(root)
    }

    /// The annotations of one Concept. `tabs` counts the tabs before the "[" or "<" that stands next.
    fn annotations(&mut self, tabs: &mut usize) -> Result<Vec<Span>, Refusal> {
        let mut texts = Vec::new();
        while self.byte() == Some(b'[') {
            texts.push(self.annotation()?);
            *tabs = self.tabs_past_annotation()?;
        }
        Ok(texts)
    }

    /// "[" to the first unescaped "]", on one line. The entry is made once the whole text is read.
    fn annotation(&mut self) -> Result<Span, Refusal> {
        self.at += 1;
        let start = self.at;
        while self.byte() != Some(b']') {
            match &self.sheet[self.at..] {
                [] | [b'\n' | b'\r', ..] => return Err(self.something_else_due()),
                [b'\\', b']' | b'\\', ..] => self.at += 2,
                [b'\\'] => self.at += 1,
                [b'\\', ..] => return Err(self.something_else_due()),
                _ => self.at += 1,
            }
        }
        let end = self.at;
        self.at += 1;
        self.enter(start)?;
        self.line_end_due()?;
        Ok(Span { start, end })
    }

    // ---- Markers

    /// A Concept from its "<", which stands after `tabs` tabs, to the end of its last line.
    fn concept(&mut self, annotations: Vec<Span>, tabs: usize, depth: usize) -> Result<Concept, Refusal> {
        let start = self.at;
        self.at += 1;
        let name = self.name()?;
        self.judge_concept_name(start, name, depth)?;
        self.enter(name.start)?;
        let traits = self.traits()?;
        let (body, end) = self.rest_of_concept(name, tabs, depth)?;
        Ok(Concept { annotations, name, traits, body, span: Span { start, end } })
    }

    /// A name is the whole run of letters and digits; one that the end of input cuts gives 9, an empty one 7.
    fn name(&mut self) -> Result<Span, Refusal> {
        let start = self.at;
        let length = self.pass_while(|byte| byte.is_ascii_alphanumeric());
        if length == 0 || self.at == self.sheet.len() {
            return Err(self.something_else_due());
        }
        Ok(Span { start, end: self.at })
    }

    /// A Concept name: 4, 10, 5 (then 11).
    fn judge_concept_name(&self, marker: usize, name: Span, depth: usize) -> Result<(), Refusal> {
        let letters = name.of(self.sheet);
        if !is_concept_name(letters) {
            return Err(Refusal { number: 4, place: name.start });
        }
        if depth > CONCEPTS_DEEP {
            return Err(Refusal { number: 10, place: marker });
        }
        if !self.table.holds(letters) {
            return Err(Refusal { number: 5, place: name.start });
        }
        Ok(())
    }

    /// Traits each after white space, then optional white space up to a "/" or ">".
    fn traits(&mut self) -> Result<Vec<Trait>, Refusal> {
        let mut traits = Vec::new();
        loop {
            let apart = self.pass_while(is_white_space) > 0;
            match self.byte() {
                Some(b'/' | b'>') => return Ok(traits),
                Some(byte) if apart && byte.is_ascii_alphanumeric() => {
                    let next = self.one_trait(&traits)?;
                    traits.push(next);
                }
                _ => return Err(self.something_else_due()),
            }
        }
    }

    /// Name, "=", value. The whole value is read before the entries of trait and items are made.
    fn one_trait(&mut self, earlier: &[Trait]) -> Result<Trait, Refusal> {
        let name = self.name()?;
        self.judge_trait_name(name, earlier)?;
        self.pass(b'=')?;
        let value = read_value(self.sheet, self.at)?;
        self.at = value.span.end;
        self.enter(name.start)?;
        self.enter_items(&value)?;
        Ok(Trait { name, value })
    }

    /// A trait name: 4, then 18 where an earlier trait of the same Concept has it.
    fn judge_trait_name(&self, name: Span, earlier: &[Trait]) -> Result<(), Refusal> {
        let letters = name.of(self.sheet);
        if !is_trait_name(letters) {
            return Err(Refusal { number: 4, place: name.start });
        }
        if earlier.iter().any(|one| one.name.of(self.sheet) == letters) {
            return Err(Refusal { number: 18, place: name.start });
        }
        Ok(())
    }

    /// The items of a list, set, map or tuple in depth-first order.
    fn enter_items(&mut self, value: &Value) -> Result<(), Refusal> {
        if let Kind::Bracketed(_, items) = &value.kind {
            for item in items {
                self.enter(item.start())?;
                self.enter_items(&item.value)?;
            }
        }
        Ok(())
    }

    /// From "/>" or ">" to the end of the Concept's last line: the body, and the place past the last ">".
    fn rest_of_concept(&mut self, name: Span, tabs: usize, depth: usize) -> Result<(Body, usize), Refusal> {
        if self.byte() == Some(b'/') {
            self.at += 1;
            self.pass(b'>')?;
            let end = self.at;
            self.line_over()?;
            return Ok((Body::SelfClosed, end));
        }
        self.pass(b'>')?;
        self.line_end_due()?;
        if self.table.is_content(name.of(self.sheet)) {
            self.content(name, tabs)
        } else {
            self.children(name, depth)
        }
    }

    /// Concepts with their annotations and blank lines, up to the closing marker.
    fn children(&mut self, name: Span, depth: usize) -> Result<(Body, usize), Refusal> {
        let mut concepts = Vec::new();
        loop {
            let mut tabs = self.tabs_past_blank_lines()?;
            if self.sheet[self.at..].starts_with(b"</") {
                let end = self.closing_marker(name)?;
                return Ok((Body::Children(concepts), end));
            }
            let annotations = self.annotations(&mut tabs)?;
            concepts.push(self.concept(annotations, tabs, depth + 1)?);
        }
    }

    /// "</", the same name, ">". The name is only compared, at its run's end.
    fn closing_marker(&mut self, name: Span) -> Result<usize, Refusal> {
        self.at += 2;
        let closing = self.name()?;
        if closing.of(self.sheet) != name.of(self.sheet) {
            return Err(Refusal { number: 8, place: closing.start });
        }
        self.pass(b'>')?;
        let end = self.at;
        self.line_over()?;
        Ok(end)
    }

    // ---- Content

    /// Lines up to the first that is exactly `tabs` tabs, the closing marker and spaces or tabs.
    fn content(&mut self, name: Span, tabs: usize) -> Result<(Body, usize), Refusal> {
        let start = self.at;
        self.enter(start)?;
        let closing = [b"\t".repeat(tabs).as_slice(), b"</", name.of(self.sheet), b">"].concat();
        let mut texts = Vec::new();
        loop {
            let line = self.line_here();
            if is_closing_line(line.of(self.sheet), &closing) {
                let span = Span { start, end: line.start };
                self.at = line.start + closing.len();
                let end = self.at;
                self.line_over()?;
                return Ok((Body::Content { span, texts }, end));
            }
            texts.push(self.text_of_line(line, tabs)?);
            self.at = line.end;
            self.line_end_due()?;
        }
    }

    /// The line that begins here, without its line end. The end of input ends a line, too.
    fn line_here(&self) -> Span {
        let rest = &self.sheet[self.at..];
        let length = rest.iter().position(|&byte| byte == b'\n' || byte == b'\r').unwrap_or(rest.len());
        Span { start: self.at, end: self.at + length }
    }

    /// A line of spaces and tabs only has empty text; any other starts with one tab more than the marker.
    fn text_of_line(&self, line: Span, tabs: usize) -> Result<Span, Refusal> {
        let bytes = line.of(self.sheet);
        let first = match bytes.iter().position(|&byte| byte != b' ' && byte != b'\t') {
            Some(first) => first,
            None => return Ok(Span { start: line.end, end: line.end }),
        };
        if !bytes.starts_with(&b"\t".repeat(tabs + 1)) {
            return Err(Refusal { number: 7, place: line.start + first });
        }
        Ok(Span { start: line.start + tabs + 1, end: line.end })
    }
}

fn is_closing_line(line: &[u8], closing: &[u8]) -> bool {
    match line.strip_prefix(closing) {
        Some(rest) => rest.iter().all(|&byte| byte == b' ' || byte == b'\t'),
        None => false,
    }
}

// ---- Entries

/// One entry: kind, form, parent, count, name start, name end, span start, span end.
type Entry = [u32; ENTRY_CELLS];

/// Adds an entry, counts it in its parent, and gives its number. Without a name both name cells equal the span start.
fn add_entry(entries: &mut Vec<Entry>, kind: u32, form: u32, parent: u32, name: Option<Span>, span: Span) -> u32 {
    let name = name.unwrap_or(Span { start: span.start, end: span.start });
    let [name_start, name_end, start, end] = [name.start, name.end, span.start, span.end].map(|place| place as u32);
    if parent != TOP {
        entries[parent as usize][3] += 1;
    }
    entries.push([kind, form, parent, 0, name_start, name_end, start, end]);
    entries.len() as u32 - 1
}

/// Annotations, the Concept, its traits each followed by its items, its body.
fn enter_concept(entries: &mut Vec<Entry>, concept: &Concept, parent: u32) {
    for &text in &concept.annotations {
        add_entry(entries, 4, 0, parent, None, text);
    }
    let form = match concept.body {
        Body::SelfClosed => 1,
        Body::Children(_) => 2,
        Body::Content { .. } => 3,
    };
    let number = add_entry(entries, 1, form, parent, Some(concept.name), concept.span);
    for one in &concept.traits {
        let holder = add_entry(entries, 2, one.value.kind.form(), number, Some(one.name), one.value.span);
        enter_items(entries, &one.value, holder);
    }
    match &concept.body {
        Body::SelfClosed => {}
        Body::Children(concepts) => concepts.iter().for_each(|child| enter_concept(entries, child, number)),
        Body::Content { span, .. } => {
            add_entry(entries, 5, 0, number, None, *span);
        }
    }
}

/// The name of a map's item is its key.
fn enter_items(entries: &mut Vec<Entry>, value: &Value, holder: u32) {
    if let Kind::Bracketed(_, items) = &value.kind {
        for item in items {
            let name = item.key.as_ref().map(Key::span);
            let number = add_entry(entries, 3, item.value.kind.form(), holder, name, item.value.span);
            enter_items(entries, &item.value, number);
        }
    }
}

// ---- The view

/// The part of the sheet that entry `number`'s span names, or refusal 17.
pub fn view<'a>(sheet: &'a [u8], cells: &[u32], number: usize) -> Result<&'a [u8], Refusal> {
    let refused = Refusal { number: 17, place: 0 };
    let first = number.checked_mul(ENTRY_CELLS).ok_or(refused)?;
    let past = first.checked_add(ENTRY_CELLS).ok_or(refused)?;
    let entry = cells.get(first..past).ok_or(refused)?;
    if entry[0] == 0 {
        return Err(refused);
    }
    sheet.get(entry[6] as usize..entry[7] as usize).ok_or(refused)
}

/// The view's second call: its number, and the span's length.
pub fn view_answer(sheet: &[u8], cells: &[u32], number: usize) -> Answer {
    match view(sheet, cells, number) {
        Ok(part) => Answer { number: 0, place: 0, count: part.len() },
        Err(refusal) => refusal.answer(),
    }
}
