//! Judges what stands between the braces of a time: of which kind it is, if of any.
//! Follows 001 §18, a function for each of its productions, with the bounds that document 02, request Two, asks of the digits.

use std::ops::RangeInclusive;

/// Passes what stands at the front of the bytes, if it fits, and gives the rest.
type Production = fn(&[u8]) -> Option<&[u8]>;

/// The kinds of TemporalBody, in 001's order.
const KINDS: [Production; 8] = [zoned_date_time, local_date_time, date, year_month, month_day, time, duration, reserved_temporal];

/// The number of the kind that the whole body is of, from 1 in 001's order.
pub fn kind_of_body(body: &[u8]) -> Option<usize> {
    KINDS.iter().position(|kind| kind(body).map_or(false, <[u8]>::is_empty)).map(|before| before + 1)
}

/// The number of a time's kind where the value is one time with its braces, else 0. No body of a kind holds a brace.
pub fn time_answer(value: &[u8]) -> usize {
    match value {
        [b'{', body @ .., b'}'] => kind_of_body(body).unwrap_or(0),
        _ => 0,
    }
}

// ---- Date and time

fn zoned_date_time(bytes: &[u8]) -> Option<&[u8]> {
    let rest = time_zone_offset(local_date_time(bytes)?)?;
    Some(optional(time_zone_id, rest))
}

fn local_date_time(bytes: &[u8]) -> Option<&[u8]> {
    time(date(bytes)?.strip_prefix(b"T")?)
}

/// "Z", or a sign and an offset to which the bounds of hour and minute apply, too.
fn time_zone_offset(bytes: &[u8]) -> Option<&[u8]> {
    bytes.strip_prefix(b"Z").or_else(|| hour_and_minute(one_of(b"+-", bytes)?))
}

fn time_zone_id(bytes: &[u8]) -> Option<&[u8]> {
    one_or_more(time_zone_id_char, bytes.strip_prefix(b"[")?)?.strip_prefix(b"]")
}

fn time_zone_id_char(bytes: &[u8]) -> Option<&[u8]> {
    let (first, rest) = bytes.split_first()?;
    (first.is_ascii_alphanumeric() || b"/_-".contains(first)).then_some(rest)
}

fn time(bytes: &[u8]) -> Option<&[u8]> {
    Some(optional(colon_and_second, hour_and_minute(bytes)?))
}

/// What a time and an offset begin with. There is no hour 24.
fn hour_and_minute(bytes: &[u8]) -> Option<&[u8]> {
    let (_, rest) = two_digits(0..=23, bytes)?;
    let (_, rest) = two_digits(0..=59, rest.strip_prefix(b":")?)?;
    Some(rest)
}

/// There is no leap second. Behind the point stands any number of digits but none.
fn colon_and_second(bytes: &[u8]) -> Option<&[u8]> {
    let (_, rest) = two_digits(0..=59, bytes.strip_prefix(b":")?)?;
    Some(optional(point_and_digits, rest))
}

// ---- Days

/// How many days each month has in a leap year.
const DAYS: [u32; 12] = [31, 29, 31, 30, 31, 30, 31, 31, 30, 31, 30, 31];

/// Year, month, and a day that exists in that month of that year.
fn date(bytes: &[u8]) -> Option<&[u8]> {
    let (year, rest) = year(bytes)?;
    let (month, rest) = month(rest.strip_prefix(b"-")?)?;
    let days = if month == 2 && !is_leap(year) { 28 } else { DAYS[month as usize - 1] };
    let (_, rest) = two_digits(1..=days, rest.strip_prefix(b"-")?)?;
    Some(rest)
}

fn year_month(bytes: &[u8]) -> Option<&[u8]> {
    let (_, rest) = year(bytes)?;
    let (_, rest) = month(rest.strip_prefix(b"-")?)?;
    Some(rest)
}

/// Month and a day that exists in it in some year, so 29 February may stand.
fn month_day(bytes: &[u8]) -> Option<&[u8]> {
    let (month, rest) = month(bytes)?;
    let (_, rest) = two_digits(1..=DAYS[month as usize - 1], rest.strip_prefix(b"-")?)?;
    Some(rest)
}

/// The Gregorian rule, carried back to the year 0000.
fn is_leap(year: u32) -> bool {
    year % 400 == 0 || (year % 4 == 0 && year % 100 != 0)
}

fn year(bytes: &[u8]) -> Option<(u32, &[u8])> {
    let (hundreds, rest) = two_digits(0..=99, bytes)?;
    let (ones, rest) = two_digits(0..=99, rest)?;
    Some((hundreds * 100 + ones, rest))
}

fn month(bytes: &[u8]) -> Option<(u32, &[u8])> {
    two_digits(1..=12, bytes)
}

/// The one rule for two-digit fields: their number, where it is within the bounds, and the rest.
fn two_digits(bounds: RangeInclusive<u32>, bytes: &[u8]) -> Option<(u32, &[u8])> {
    match bytes {
        [tens @ b'0'..=b'9', ones @ b'0'..=b'9', rest @ ..] => {
            let number = u32::from(tens - b'0') * 10 + u32::from(ones - b'0');
            bounds.contains(&number).then_some((number, rest))
        }
        _ => None,
    }
}

// ---- Durations and reserved words

/// At least one part, and one behind T if T stands.
fn duration(bytes: &[u8]) -> Option<&[u8]> {
    let parts = bytes.strip_prefix(b"P")?;
    match repeated(duration_component, parts).strip_prefix(b"T") {
        Some(time_parts) => one_or_more(time_duration_component, time_parts),
        None => one_or_more(duration_component, parts),
    }
}

fn duration_component(bytes: &[u8]) -> Option<&[u8]> {
    one_of(b"YMWD", digit_sequence(bytes)?)
}

fn time_duration_component(bytes: &[u8]) -> Option<&[u8]> {
    one_of(b"HMS", optional(point_and_digits, digit_sequence(bytes)?))
}

fn point_and_digits(bytes: &[u8]) -> Option<&[u8]> {
    digit_sequence(bytes.strip_prefix(b".")?)
}

fn digit_sequence(bytes: &[u8]) -> Option<&[u8]> {
    one_or_more(digit, bytes)
}

fn digit(bytes: &[u8]) -> Option<&[u8]> {
    one_of(b"0123456789", bytes)
}

fn reserved_temporal(bytes: &[u8]) -> Option<&[u8]> {
    bytes.strip_prefix(b"now").or_else(|| bytes.strip_prefix(b"today"))
}

// ---- 001 §1's notation

fn one_of<'a>(choices: &[u8], bytes: &'a [u8]) -> Option<&'a [u8]> {
    let (first, rest) = bytes.split_first()?;
    choices.contains(first).then_some(rest)
}

/// `[ .. ]`. No byte that begins it may stand in its place without it, so it is never tried the other way.
fn optional(production: Production, bytes: &[u8]) -> &[u8] {
    production(bytes).unwrap_or(bytes)
}

/// `{ .. }`
fn repeated(production: Production, mut bytes: &[u8]) -> &[u8] {
    while let Some(rest) = production(bytes) {
        bytes = rest;
    }
    bytes
}

fn one_or_more(production: Production, bytes: &[u8]) -> Option<&[u8]> {
    Some(repeated(production, production(bytes)?))
}

#[cfg(test)]
mod tests {
    use super::*;

    /// Which of the pairs 00 to 99 make the body one of the kind; "#" is the pair's place.
    fn pairs_that_fit(body: &str, kind: usize) -> Vec<usize> {
        (0..=99).filter(|pair| kind_of_body(body.replace('#', &format!("{pair:02}")).as_bytes()) == Some(kind)).collect()
    }

    fn are_up_to(first: usize, last: usize, body: &str, kind: usize) {
        assert_eq!(pairs_that_fit(body, kind), (first..=last).collect::<Vec<_>>(), "{body}");
    }

    #[test]
    fn bounds_of_the_fields() {
        are_up_to(0, 99, "#00-01", 4);
        are_up_to(0, 99, "20#-01-31", 3);
        are_up_to(1, 12, "2023-#-28", 3);
        are_up_to(1, 12, "2023-#", 4);
        are_up_to(1, 12, "#-29", 5);
        for (body, kind) in [("#:00", 6), ("2024-01-01T#:00", 2), ("2024-01-01T00:00-#:00", 1)] {
            are_up_to(0, 23, body, kind);
        }
        for (body, kind) in [("23:#", 6), ("00:00:#", 6), ("23:59:#.0", 6), ("2024-01-01T00:00+00:#[a]", 1)] {
            are_up_to(0, 59, body, kind);
        }
    }

    /// 400 years have 146,097 days; the February of a month-day has 29.
    #[test]
    fn days_of_the_months() {
        let days_in = |year: usize| (1..=12).map(|month| pairs_that_fit(&format!("{year:04}-{month:02}-#"), 3).len()).sum::<usize>();
        assert_eq!((1900..2300).map(days_in).sum::<usize>(), 146_097);
        for (year, days) in [(0, 366), (4, 366), (100, 365), (1900, 365), (2000, 366), (2023, 365), (2024, 366), (9996, 366), (9999, 365)] {
            assert_eq!(days_in(year), days, "{year:04}");
        }
        for (month, days) in (1..=12).zip([31, 29, 31, 30, 31, 30, 31, 31, 30, 31, 30, 31]) {
            are_up_to(1, days, &format!("{month:02}-#"), 5);
            are_up_to(1, days, &format!("2000-{month:02}-#"), 3);
        }
    }

    /// Beginnings of every kind and what may follow them: no body is of two kinds.
    #[test]
    fn kinds_exclude_one_another() {
        let pieces =
            ["", "20", "02-29", "2024-02", "-29", "T", "12:00", ":00", ".5", "Z", "+01:00", "[a]", "P", "1D", "1H", "now", "today"];
        let follow = |bodies: Vec<String>| bodies.iter().flat_map(|body| pieces.map(|piece| format!("{body}{piece}"))).collect::<Vec<_>>();
        for body in (0..4).fold(vec![String::new()], |bodies, _| follow(bodies)) {
            let fit = KINDS.iter().filter(|kind| kind(body.as_bytes()).map_or(false, <[u8]>::is_empty)).count();
            assert!(fit <= 1, "{body}");
        }
    }
}
