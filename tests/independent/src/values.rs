//! Reads one value of a trait or an item: where its spelling ends, of which kind it is, what it spells.
//! Follows document 01, "Values", with 001 §12 (numbers), §14 (IRIs), §18 (times) as request Two asks for it, and §19 to §22 (lists, sets,
//! maps and tuples) as request Five does; the place of 6 is that of requests Four and Five.

use crate::reader::{Refusal, Span};
use crate::times::kind_of_body;

/// How deep lists, sets, maps and tuples may stand in one another, the outermost counting as one ("Sizes", and request Five).
pub const BRACKETS_DEEP: usize = 8;

/// A kind of bracket, which values may stand in: lists (001 §19), sets (§20), maps (§21) and tuples (§22).
#[derive(Debug)]
pub struct Bracket {
    /// the bytes that begin it, of which the last is the bracket byte
    pub opener: &'static str,
    pub closer: char,
    pub form: u32,
    /// whether each item has a key
    pub keyed: bool,
    pub may_be_empty: bool,
    /// the bytes that end a value's word where this bracket is the innermost
    pub word_ends: &'static [u8],
}

pub const LIST: Bracket = Bracket { opener: "[", closer: ']', form: 12, keyed: false, may_be_empty: true, word_ends: b",]" };
pub const SET: Bracket = Bracket { opener: "set[", closer: ']', form: 14, keyed: false, may_be_empty: true, word_ends: b",]" };
pub const MAP: Bracket = Bracket { opener: "map[", closer: ']', form: 15, keyed: true, may_be_empty: true, word_ends: b",]" };
pub const TUPLE: Bracket = Bracket { opener: "(", closer: ')', form: 16, keyed: false, may_be_empty: false, word_ends: b",)" };

/// All kinds of brackets. No opener begins another.
const BRACKETS: [&Bracket; 4] = [&LIST, &SET, &MAP, &TUPLE];

/// The bytes that end a key's word; it stands in a map.
const KEY_ENDS: &[u8] = b",]:";

/// A value: where its spelling stands and what it is.
#[derive(Debug)]
pub struct Value {
    pub span: Span,
    pub kind: Kind,
}

/// The kinds of "Values". Strings and characters carry what they spell, since the writer spells it anew.
#[derive(Debug)]
pub enum Kind {
    String(String),
    Character(char),
    Boolean,
    Integer,
    Decimal,
    Scientific,
    Fraction,
    /// "$" and a Pascal-case run
    Enumerated,
    /// "~" and a camel-case run
    Lookup,
    Uuid,
    Iri,
    /// a list, set, map or tuple
    Bracketed(&'static Bracket, Vec<Item>),
    /// a time in braces
    Temporal,
}

/// An item of a list, set, map or tuple. Those of a map have a key.
#[derive(Debug)]
pub struct Item {
    pub key: Option<Key>,
    pub value: Value,
}

impl Item {
    /// Where the item begins: its key, if it has one, else its value.
    pub fn start(&self) -> usize {
        self.key.as_ref().map_or(self.value.span, Key::span).start
    }
}

/// A map item's key (001 §21).
#[derive(Debug)]
pub enum Key {
    /// a string or a character, as values are
    Quoted(Value),
    /// a bare name, an integer or a "$" token
    Word(Span),
}

impl Key {
    /// The key's spelling, quotes too.
    pub fn span(&self) -> Span {
        match self {
            Key::Quoted(value) => value.span,
            Key::Word(span) => *span,
        }
    }
}

impl Kind {
    /// The value form of "Entries", and of requests Two and Five.
    pub fn form(&self) -> u32 {
        match self {
            Kind::String(_) => 1,
            Kind::Character(_) => 2,
            Kind::Boolean => 3,
            Kind::Integer => 4,
            Kind::Decimal => 5,
            Kind::Scientific => 6,
            Kind::Fraction => 7,
            Kind::Enumerated => 8,
            Kind::Lookup => 9,
            Kind::Uuid => 10,
            Kind::Iri => 11,
            Kind::Bracketed(bracket, _) => bracket.form,
            Kind::Temporal => 13,
        }
    }
}

/// Why a value is not read: refusals 6, 9 and 10.
enum Fault {
    NoKindFits { at: usize },
    InputEnds,
    TooDeep { bracket: usize },
}

/// A scalar or a whole value, and the place just past it.
type Past<T> = Result<(T, usize), Fault>;

/// Reads the whole value of a trait, which begins at `start`. 6 is placed where requests Four and Five say, 9 at the input's end.
pub fn read_value(sheet: &[u8], start: usize) -> Result<Value, Refusal> {
    value(sheet, start, BRACKETS_DEEP, b"").map_err(|fault| match fault {
        Fault::NoKindFits { at } => Refusal { number: 6, place: at },
        Fault::InputEnds => Refusal { number: 9, place: sheet.len() },
        Fault::TooDeep { bracket } => Refusal { number: 10, place: bracket },
    })
}

/// A value by its first bytes. `deeper` is how many brackets may still open in one another; the bytes `ends` end a word here.
fn value(sheet: &[u8], start: usize, deeper: usize, ends: &[u8]) -> Result<Value, Fault> {
    let opened = BRACKETS.into_iter().find(|bracket| sheet[start..].starts_with(bracket.opener.as_bytes()));
    let (kind, end) = match (byte(sheet, start)?, opened) {
        (_, Some(bracket)) => bracketed(sheet, start, bracket, deeper)?,
        (b'"', _) => string(sheet, start)?,
        (b'\'', _) => character(sheet, start)?,
        (b'`', _) => backtick(sheet, start)?,
        (b'{', _) => temporal(sheet, start)?,
        _ => word(sheet, start, ends)?,
    };
    Ok(Value { span: Span { start, end }, kind })
}

fn byte(sheet: &[u8], at: usize) -> Result<u8, Fault> {
    sheet.get(at).copied().ok_or(Fault::InputEnds)
}

/// The scalar that begins at `at`. The sheet's bytes are known to be UTF-8.
fn scalar(sheet: &[u8], at: usize) -> (char, usize) {
    let length = match sheet[at] {
        0..=0x7F => 1,
        0x80..=0xDF => 2,
        0xE0..=0xEF => 3,
        0xF0..=0xFF => 4,
    };
    let text = std::str::from_utf8(&sheet[at..at + length]).expect("the bytes were checked");
    (text.chars().next().expect("one scalar"), at + length)
}

/// A string. A line end that cuts it is at fault itself.
fn string(sheet: &[u8], start: usize) -> Past<Kind> {
    let mut text = String::new();
    let mut at = start + 1;
    loop {
        let (one, past) = match byte(sheet, at)? {
            b'"' => return Ok((Kind::String(text), at + 1)),
            b'\n' | b'\r' => return Err(Fault::NoKindFits { at }),
            b'\\' => escape(sheet, at, b'"')?,
            _ => scalar(sheet, at),
        };
        text.push(one);
        at = past;
    }
}

/// A character. At fault is the closing quote of an empty one, the line end that cuts it, or its second scalar, an escape too.
fn character(sheet: &[u8], start: usize) -> Past<Kind> {
    let first = start + 1;
    let (one, past) = match byte(sheet, first)? {
        b'\'' | b'\n' | b'\r' => return Err(Fault::NoKindFits { at: first }),
        b'\\' => escape(sheet, first, b'\'')?,
        _ => scalar(sheet, first),
    };
    match byte(sheet, past)? {
        b'\'' => Ok((Kind::Character(one), past + 1)),
        _ => Err(Fault::NoKindFits { at: past }),
    }
}

/// An escape whose backslash stands at `at`, where it is at fault if it is bad; `quote` is the quote that may be escaped.
fn escape(sheet: &[u8], at: usize, quote: u8) -> Past<char> {
    match byte(sheet, at + 1)? {
        b'\\' => Ok(('\\', at + 2)),
        b'n' => Ok(('\n', at + 2)),
        b'r' => Ok(('\r', at + 2)),
        b't' => Ok(('\t', at + 2)),
        b'u' if byte(sheet, at + 2)? == b'{' => escape_in_braces(sheet, at),
        b'u' => escape_of_four(sheet, at),
        other if other == quote => Ok((quote as char, at + 2)),
        _ => Err(Fault::NoKindFits { at }),
    }
}

/// `\uXXXX`, judged at its fourth digit.
fn escape_of_four(sheet: &[u8], backslash: usize) -> Past<char> {
    let bad = || Fault::NoKindFits { at: backslash };
    let digits = backslash + 2;
    let mut number = 0;
    for at in digits..digits + 4 {
        number = number * 16 + hex_digit(byte(sheet, at)?).ok_or_else(bad)?;
    }
    Ok((char::from_u32(number).ok_or_else(bad)?, digits + 4))
}

/// `\u{..}` with 1 to 6 digits, judged at its brace or at the first byte that cannot stand there.
fn escape_in_braces(sheet: &[u8], backslash: usize) -> Past<char> {
    let bad = || Fault::NoKindFits { at: backslash };
    let digits = backslash + 3;
    let mut number = 0;
    let mut at = digits;
    while byte(sheet, at)? != b'}' {
        let digit = hex_digit(sheet[at]).ok_or_else(bad)?;
        if at == digits + 6 {
            return Err(bad());
        }
        number = number * 16 + digit;
        at += 1;
    }
    if at == digits {
        return Err(bad());
    }
    Ok((char::from_u32(number).ok_or_else(bad)?, at + 1))
}

fn hex_digit(byte: u8) -> Option<u32> {
    (byte as char).to_digit(16)
}

/// A backtick string: "\`" is the only escape; white space runs become one space, the ends are trimmed.
fn backtick(sheet: &[u8], start: usize) -> Past<Kind> {
    let mut raw = String::new();
    let mut at = start + 1;
    while byte(sheet, at)? != b'`' {
        if sheet[at..].starts_with(b"\\`") {
            raw.push('`');
            at += 2;
        } else {
            let (one, past) = scalar(sheet, at);
            raw.push(one);
            at = past;
        }
    }
    Ok((Kind::String(spaces_joined(&raw)), at + 1))
}

/// The text with each run of spaces, tabs and line ends made one space, and none at its ends.
pub fn spaces_joined(text: &str) -> String {
    let pieces: Vec<&str> = text.split([' ', '\t', '\n', '\r']).filter(|piece| !piece.is_empty()).collect();
    pieces.join(" ")
}

/// A list, set, map or tuple: items split by "," and optional white space. It is too deep at its bracket byte, at once. A byte that stands
/// where a comma or the closing bracket was due is at fault, so is the closing bracket of one that may not be empty.
fn bracketed(sheet: &[u8], start: usize, bracket: &'static Bracket, deeper: usize) -> Past<Kind> {
    let mut at = start + bracket.opener.len();
    let deeper = deeper.checked_sub(1).ok_or(Fault::TooDeep { bracket: at - 1 })?;
    let closer = bracket.closer as u8;
    let mut items = Vec::new();
    if bracket.may_be_empty && byte(sheet, at)? == closer {
        return Ok((Kind::Bracketed(bracket, items), at + 1));
    }
    loop {
        let item = item(sheet, at, bracket, deeper)?;
        at = item.value.span.end;
        items.push(item);
        match byte(sheet, at)? {
            b',' => at = past_white_space(sheet, at + 1),
            other if other == closer => return Ok((Kind::Bracketed(bracket, items), at + 1)),
            _ => return Err(Fault::NoKindFits { at }),
        }
    }
}

/// A value; in a map a key, ":" and optional white space before it. A byte that stands where the colon was due is at fault.
fn item(sheet: &[u8], start: usize, bracket: &Bracket, deeper: usize) -> Result<Item, Fault> {
    if !bracket.keyed {
        return Ok(Item { key: None, value: value(sheet, start, deeper, bracket.word_ends)? });
    }
    let key = key(sheet, start)?;
    let colon = key.span().end;
    if byte(sheet, colon)? != b':' {
        return Err(Fault::NoKindFits { at: colon });
    }
    let value = value(sheet, past_white_space(sheet, colon + 1), deeper, bracket.word_ends)?;
    Ok(Item { key: Some(key), value })
}

/// A key by its first byte (001 §21): a string or a character, else a word. A bad one is at fault at its start, whatever its fault.
fn key(sheet: &[u8], start: usize) -> Result<Key, Fault> {
    let bad = Fault::NoKindFits { at: start };
    if let b'"' | b'\'' = byte(sheet, start)? {
        return value(sheet, start, 0, KEY_ENDS).map(Key::Quoted).map_err(|fault| match fault {
            Fault::NoKindFits { .. } => bad,
            other => other,
        });
    }
    let end = past_word(sheet, start, KEY_ENDS)?;
    if is_key_word(&sheet[start..end]) {
        Ok(Key::Word(Span { start, end }))
    } else {
        Err(bad)
    }
}

/// A time in braces is read up to the first "}", whatever stands before it, and only then judged; a bad one is at fault at its "{".
fn temporal(sheet: &[u8], start: usize) -> Past<Kind> {
    let mut at = start + 1;
    while byte(sheet, at)? != b'}' {
        at += 1;
    }
    kind_of_body(&sheet[start + 1..at]).ok_or(Fault::NoKindFits { at: start })?;
    Ok((Kind::Temporal, at + 1))
}

/// White space is spaces, tabs and line ends; a CR is known to stand before a LF.
pub fn is_white_space(byte: u8) -> bool {
    matches!(byte, b' ' | b'\t' | b'\n' | b'\r')
}

fn past_white_space(sheet: &[u8], mut at: usize) -> usize {
    while at < sheet.len() && is_white_space(sheet[at]) {
        at += 1;
    }
    at
}

/// A bad word is at fault at its first byte, an empty one where it was due.
fn word(sheet: &[u8], start: usize, ends: &[u8]) -> Past<Kind> {
    let end = past_word(sheet, start, ends)?;
    let kind = kind_of_word(&sheet[start..end]).ok_or(Fault::NoKindFits { at: start })?;
    Ok((kind, end))
}

/// The end of the word that begins at `start`. A word is judged only there, so one that runs to the end of input is cut, whatever it spells
/// so far.
fn past_word(sheet: &[u8], start: usize, ends: &[u8]) -> Result<usize, Fault> {
    let mut at = start;
    while !ends_word(sheet, at, ends) {
        at += 1;
    }
    byte(sheet, at)?;
    Ok(at)
}

/// White space, ">" and "/>" end every word, the bytes `ends` those that the innermost bracket lets them end.
fn ends_word(sheet: &[u8], at: usize, ends: &[u8]) -> bool {
    match sheet.get(at) {
        None | Some(b'>') => true,
        Some(b'/') => sheet.get(at + 1) == Some(&b'>'),
        Some(other) => is_white_space(*other) || ends.contains(other),
    }
}

/// MapIdentifier, Integer or EnumeratedToken of 001 §21, each of any length; the integer has no leading zero (000 §5.4).
fn is_key_word(word: &[u8]) -> bool {
    is_run(word, u8::is_ascii_lowercase) || matches!(kind_of_word(word), Some(Kind::Integer | Kind::Enumerated))
}

fn kind_of_word(word: &[u8]) -> Option<Kind> {
    if word == b"true" || word == b"false" {
        return Some(Kind::Boolean);
    }
    match word.first()? {
        b'$' => is_run(&word[1..], u8::is_ascii_uppercase).then_some(Kind::Enumerated),
        b'~' => is_run(&word[1..], u8::is_ascii_lowercase).then_some(Kind::Lookup),
        _ if is_uuid(word) => Some(Kind::Uuid),
        _ if is_iri(word) => Some(Kind::Iri),
        _ => kind_of_number(word),
    }
}

/// Letters and digits of which the first meets `first`: Pascal case or camel case.
fn is_run(run: &[u8], first: fn(&u8) -> bool) -> bool {
    run.first().map_or(false, first) && run.iter().all(u8::is_ascii_alphanumeric)
}

fn is_uuid(word: &[u8]) -> bool {
    let parts: Vec<&[u8]> = word.split(|&byte| byte == b'-').collect();
    let lengths: Vec<usize> = parts.iter().map(|part| part.len()).collect();
    lengths == [8, 4, 4, 4, 12] && parts.iter().all(|part| part.iter().all(u8::is_ascii_hexdigit))
}

/// Integer, decimal, scientific and fraction of 001 §12, without leading zeros (000 §5.4).
fn kind_of_number(word: &[u8]) -> Option<Kind> {
    let unsigned = without_sign(word);
    if let Some((integer, denominator)) = split_at(unsigned, |byte| byte == b'/') {
        return (is_whole(integer) && is_whole(denominator)).then_some(Kind::Fraction);
    }
    if let Some((front, exponent)) = split_at(unsigned, |byte| byte == b'e' || byte == b'E') {
        let fits = (is_whole(front) || is_decimal(front)) && is_whole(without_sign(exponent));
        return fits.then_some(Kind::Scientific);
    }
    if is_decimal(unsigned) {
        return Some(Kind::Decimal);
    }
    is_whole(unsigned).then_some(Kind::Integer)
}

fn without_sign(digits: &[u8]) -> &[u8] {
    match digits {
        [b'+' | b'-', rest @ ..] => rest,
        _ => digits,
    }
}

/// What stands before and behind the first byte that meets `splits`.
fn split_at(bytes: &[u8], splits: fn(u8) -> bool) -> Option<(&[u8], &[u8])> {
    let at = bytes.iter().position(|&byte| splits(byte))?;
    Some((&bytes[..at], &bytes[at + 1..]))
}

fn is_digits(digits: &[u8]) -> bool {
    !digits.is_empty() && digits.iter().all(u8::is_ascii_digit)
}

/// Digits without a leading zero; the single digit 0 is good.
fn is_whole(digits: &[u8]) -> bool {
    is_digits(digits) && (digits.len() == 1 || digits[0] != b'0')
}

fn is_decimal(unsigned: &[u8]) -> bool {
    split_at(unsigned, |byte| byte == b'.').map_or(false, |(integer, rest)| is_whole(integer) && is_digits(rest))
}

/// Scheme, ":", body of 001 §14 as request One mends it. The scheme ends at the first colon.
fn is_iri(word: &[u8]) -> bool {
    let (scheme, body) = match split_at(word, |byte| byte == b':') {
        Some(parts) => parts,
        None => return false,
    };
    let scheme_byte = |byte: &u8| byte.is_ascii_alphanumeric() || b"+-.".contains(byte);
    let body_text = std::str::from_utf8(body).expect("the bytes were checked");
    scheme.first().map_or(false, u8::is_ascii_alphabetic) && scheme.iter().all(scheme_byte) && body_text.chars().all(is_iri_scalar)
}

fn is_iri_scalar(one: char) -> bool {
    one.is_ascii_alphanumeric() || "-._~:/?#[]@!$&'()*+,;=%".contains(one) || (is_ucschar(one as u32) && !is_barred(one as u32))
}

/// RFC 3987's ucschar ranges, as 001 §14 prints them.
fn is_ucschar(scalar: u32) -> bool {
    match scalar {
        0xA0..=0xD7FF | 0xF900..=0xFDCF | 0xFDF0..=0xFFEF => true,
        0x10000..=0xDFFFF => scalar & 0xFFFF <= 0xFFFD,
        0xE1000..=0xEFFFD => true,
        _ => false,
    }
}

/// White space, then bidi controls: request One's list, in its order.
fn is_barred(scalar: u32) -> bool {
    match scalar {
        0xA0 | 0x1680 | 0x2000..=0x200A | 0x2028 | 0x2029 | 0x202F | 0x205F | 0x3000 => true,
        0x61C | 0x200E | 0x200F | 0x202A..=0x202E | 0x2066..=0x2069 => true,
        _ => false,
    }
}

#[cfg(test)]
mod tests {
    use super::*;

    /// What request One lists is Unicode's white space and bidi controls beyond the controls, which no body took before.
    #[test]
    fn the_list_is_white_space_and_bidi_controls() {
        let bidi = "\u{61C}\u{200E}\u{200F}\u{202A}\u{202B}\u{202C}\u{202D}\u{202E}\u{2066}\u{2067}\u{2068}\u{2069}";
        for one in (0xA0..=0x10FFFF).filter_map(char::from_u32) {
            assert_eq!(is_barred(one as u32), one.is_whitespace() || bidi.contains(one), "U+{:04X}", one as u32);
        }
    }
}
