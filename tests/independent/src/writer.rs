//! Lays out the canonical form of a sheet that reads without refusal.
//! Follows document 01, "Canonical form", and refusal 12 of "Refusal numbers"; braces keep their spelling (document 02, request Two), and
//! sets, maps and tuples are written as lists are, with a colon and one space behind a key (request Five).

use crate::reader::{read_root, Answer, Body, Concept, Refusal, Trait, SHEET_BYTES};
use crate::values::{spaces_joined, Bracket, Item, Key, Kind, Value};

/// More traits than these stand on lines of their own.
const TRAITS_ON_MARKER_LINE: usize = 2;

/// The answer of writing into `room` bytes with `lent` cells lent, and the bytes written (none where it is refused).
pub fn write_form(table: &[u8], sheet: &[u8], lent: usize, room: usize) -> (Answer, Vec<u8>) {
    match canonical_form(table, sheet, lent, room) {
        Ok(form) => (Answer { number: 0, place: 0, count: form.len() }, form),
        Err(refusal) => (refusal.answer(), Vec::new()),
    }
}

/// All refusals of reading come first, then 12.
fn canonical_form(table: &[u8], sheet: &[u8], lent: usize, room: usize) -> Result<Vec<u8>, Refusal> {
    let root = read_root(table, sheet, lent)?;
    let mut form = Form { sheet, bytes: Vec::new() };
    form.concept(&root, 0);
    if form.bytes.len() > room.min(SHEET_BYTES) {
        return Err(Refusal { number: 12, place: 0 });
    }
    Ok(form.bytes)
}

/// The sheet that is laid out, and the bytes of its form so far.
struct Form<'a> {
    sheet: &'a [u8],
    bytes: Vec<u8>,
}

impl Form<'_> {
    fn put(&mut self, bytes: &[u8]) {
        self.bytes.extend_from_slice(bytes);
    }

    /// Begins a line at `depth` tabs.
    fn put_tabs(&mut self, depth: usize) {
        self.put(&b"\t".repeat(depth));
    }

    /// A Concept and its annotations at as many tabs as its depth, each line with its LF.
    fn concept(&mut self, concept: &Concept, depth: usize) {
        for text in &concept.annotations {
            self.put_tabs(depth);
            self.annotation(text.of(self.sheet));
        }
        self.put_tabs(depth);
        self.marker(concept, depth);
        match &concept.body {
            Body::SelfClosed => {}
            Body::Children(concepts) => {
                self.children(concepts, depth + 1);
                self.closing_marker(concept, depth);
            }
            Body::Content { texts, .. } => {
                for text in texts {
                    self.text(text.of(self.sheet), depth + 1);
                }
                self.closing_marker(concept, depth);
            }
        }
    }

    /// Space and tab runs become one space, ends trimmed; escapes stay as spelt.
    fn annotation(&mut self, text: &[u8]) {
        let text = std::str::from_utf8(text).expect("the bytes were checked");
        self.put(b"[");
        self.put(spaces_joined(text).as_bytes());
        self.put(b"]\n");
    }

    /// One empty line between sibling Concepts, ahead of the latter's annotations.
    fn children(&mut self, concepts: &[Concept], depth: usize) {
        for (number, child) in concepts.iter().enumerate() {
            if number > 0 {
                self.put(b"\n");
            }
            self.concept(child, depth);
        }
    }

    fn closing_marker(&mut self, concept: &Concept, depth: usize) {
        self.put_tabs(depth);
        self.put(b"</");
        self.put(concept.name.of(self.sheet));
        self.put(b">\n");
    }

    /// Content text stands one tab deeper than its marker; empty text is an empty line.
    fn text(&mut self, text: &[u8], depth: usize) {
        if !text.is_empty() {
            self.put_tabs(depth);
            self.put(text);
        }
        self.put(b"\n");
    }

    /// The opening or self-closed marker, from its "<" to its LF.
    fn marker(&mut self, concept: &Concept, depth: usize) {
        self.put(b"<");
        self.put(concept.name.of(self.sheet));
        if concept.traits.len() > TRAITS_ON_MARKER_LINE {
            self.traits_on_lines(&concept.traits, depth);
        } else {
            self.traits_on_marker_line(&concept.traits);
        }
        self.put(self.marker_end(concept));
        self.put(b"\n");
    }

    /// ">" or "/>" with the space that stands before it. A value that ends in "/" keeps one space before ">".
    fn marker_end(&self, concept: &Concept) -> &'static [u8] {
        let own_line = concept.traits.len() > TRAITS_ON_MARKER_LINE;
        match concept.body {
            Body::SelfClosed if own_line => b"/>",
            Body::SelfClosed => b" />",
            _ if self.bytes.ends_with(b"/") => b" >",
            _ => b">",
        }
    }

    /// Up to two traits, after single spaces.
    fn traits_on_marker_line(&mut self, traits: &[Trait]) {
        for one in traits {
            self.put(b" ");
            self.one_trait(one);
        }
    }

    /// Three or more traits on lines of their own, one tab deeper; the marker's end on a line at the Concept's tabs.
    fn traits_on_lines(&mut self, traits: &[Trait], depth: usize) {
        for one in traits {
            self.put(b"\n");
            self.put_tabs(depth + 1);
            self.one_trait(one);
        }
        self.put(b"\n");
        self.put_tabs(depth);
    }

    fn one_trait(&mut self, one: &Trait) {
        self.put(one.name.of(self.sheet));
        self.put(b"=");
        self.value(&one.value);
    }

    fn value(&mut self, value: &Value) {
        let spelling = value.span.of(self.sheet);
        match &value.kind {
            Kind::String(text) => self.quoted(text.chars(), '"'),
            Kind::Character(one) => self.quoted([*one].into_iter(), '\''),
            Kind::Uuid => self.put(&spelling.to_ascii_lowercase()),
            Kind::Bracketed(bracket, items) => self.bracketed(bracket, items),
            Kind::Boolean | Kind::Integer | Kind::Decimal | Kind::Scientific | Kind::Fraction => self.put(spelling),
            Kind::Enumerated | Kind::Lookup | Kind::Iri | Kind::Temporal => self.put(spelling),
        }
    }

    /// Items: comma and one space; a map's key: colon and one space.
    fn bracketed(&mut self, bracket: &Bracket, items: &[Item]) {
        self.put(bracket.opener.as_bytes());
        for (number, item) in items.iter().enumerate() {
            if number > 0 {
                self.put(b", ");
            }
            if let Some(key) = &item.key {
                self.key(key);
                self.put(b": ");
            }
            self.value(&item.value);
        }
        self.put(&[bracket.closer as u8]);
    }

    /// A key in quotes as such a value is written, another one as spelt.
    fn key(&mut self, key: &Key) {
        match key {
            Key::Quoted(value) => self.value(value),
            Key::Word(span) => self.put(span.of(self.sheet)),
        }
    }

    /// A string or a character between its quotes.
    fn quoted(&mut self, scalars: impl Iterator<Item = char>, quote: char) {
        let mut text = String::from(quote);
        for one in scalars {
            text.push_str(&escaped(one, quote));
        }
        text.push(quote);
        self.put(text.as_bytes());
    }
}

/// How a scalar is written between quotes.
fn escaped(one: char, quote: char) -> String {
    match one {
        '\n' => "\\n".to_string(),
        '\r' => "\\r".to_string(),
        '\t' => "\\t".to_string(),
        _ if one == quote || one == '\\' => format!("\\{one}"),
        _ if (one as u32) < 32 || one as u32 == 127 => format!("\\u{{{:x}}}", one as u32),
        _ => one.to_string(),
    }
}
