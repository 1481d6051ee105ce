//! Sheets dense in markers with many traits, to try any way of finding a name among the earlier ones of its marker.
//! Parent, child and sibling have the same names; these have numbers in them, differ in a letter, or were sought out to have one key.

use super::{good_trait, is_trait_name, nearly_name, trait_names, Chance, Names, CONCEPTS_DEEP, ENTRIES};
use std::collections::HashSet;

/// A sheet of Concepts in one another and side by side, of at most `longest` bytes; one that would be longer is cut. In some
/// half of the cases a name stands twice in one marker, or nearly so.
pub fn dense_sheet(chance: &mut Chance, names: &Names, longest: usize) -> Vec<u8> {
    let room = if chance.one_in(8) { longest - longest / 4 } else { longest.min(60 + chance.below(2_000)) };
    let count = (room / 8).clamp(2, ENTRIES);
    let known = all_names(chance, count);
    let deep = if chance.one_in(8) { CONCEPTS_DEEP } else { *chance.pick(&[&1, &2, &2, &3, &4]) };
    let twice = if chance.one_in(2) { Some(chance.below(3)) } else { None };
    let mut sheet = Sheet { chance, names, known, room, deep, twice, markers: 0, text: String::new() };
    sheet.concept(0);
    let mut sheet = sheet.text.into_bytes();
    sheet.truncate(longest);
    sheet
}

/// A sheet in the making.
struct Sheet<'a> {
    chance: &'a mut Chance,
    names: &'a Names,
    /// The names that its traits have.
    known: Vec<String>,
    /// So many bytes are to be filled.
    room: usize,
    /// Concepts stand in one another so deep.
    deep: usize,
    /// The number of the marker in which a name stands twice, where there are so many.
    twice: Option<usize>,
    markers: usize,
    text: String,
}

impl Sheet<'_> {
    /// A Concept with so many around it, each line behind as many tabs, so that no line but the root's begins a sheet of a roll.
    fn concept(&mut self, around: usize) {
        let tabs = "\t".repeat(around);
        let content = around > 0 && !self.names.content.is_empty() && self.chance.one_in(6);
        let names = if content { &self.names.content } else { &self.names.children };
        let name = &names[self.chance.below(names.len())];
        self.text.push_str(&format!("{tabs}<{name}"));
        self.traits();
        if content {
            self.text.push_str(&format!(">\n{tabs}\ttext\n{tabs}</{name}>\n"));
        } else if around + 1 < self.deep && self.has_room() {
            self.text.push_str(">\n");
            while self.has_room() {
                self.concept(around + 1);
                if self.chance.one_in(6) {
                    break;
                }
            }
            self.text.push_str(&format!("{tabs}</{name}>\n"));
        } else {
            self.text.push_str("/>\n");
        }
    }

    fn has_room(&self) -> bool {
        self.text.len() < self.room
    }

    fn traits(&mut self) {
        for name in self.names_of_marker() {
            let one = match self.chance.below(16) {
                0 => good_trait(self.chance, &name, false),
                1 => format!(" {name}=\"{}\"", "x".repeat(self.chance.below(80))),
                _ => good_trait(self.chance, &name, true),
            };
            self.text.push_str(&one);
        }
        self.markers += 1;
    }

    /// Some of the names, from 2 to 60 mostly, but about as many as there is room for; in their order, in the reverse or in none. In one of
    /// the markers one stands twice, or nearly so.
    fn names_of_marker(&mut self) -> Vec<String> {
        let wanted = match self.chance.below(12) {
            0 => self.known.len(),
            1..=5 => 2 + self.chance.below(12),
            _ => 2 + self.chance.below(59),
        };
        let fitting = 1 + self.room.saturating_sub(self.text.len()) / (self.known[0].len() + 4);
        let count = wanted.min(fitting).min(self.known.len());
        let first = self.chance.below(self.known.len());
        let mut names: Vec<String> = self.known.iter().cycle().skip(first).take(count).cloned().collect();
        match self.chance.below(4) {
            0 => names.reverse(),
            1 => shuffle(self.chance, &mut names),
            _ => {}
        }
        if self.twice == Some(self.markers) {
            let one = self.chance.below(names.len());
            let behind = one + 1 + self.chance.below(names.len() - one);
            let again = if self.chance.one_in(8) { nearly_name(self.chance, &names[one]) } else { names[one].clone() };
            names.insert(behind, again);
        }
        names
    }
}

fn shuffle(chance: &mut Chance, names: &mut [String]) {
    for at in 1..names.len() {
        names.swap(at, chance.below(at + 1));
    }
}

// ---- Names

/// About so many names of traits, of one family or of two in turn. No two are the same.
fn all_names(chance: &mut Chance, count: usize) -> Vec<String> {
    let mut names = family(chance, count);
    if chance.one_in(4) {
        let others = family(chance, count);
        names = names.into_iter().zip(others).flat_map(|(one, other)| [one, other]).take(count).collect();
    }
    let mut met = HashSet::new();
    names.retain(|name| is_trait_name(name.as_bytes()) && met.insert(name.clone()));
    names
}

/// About so many names that are like one another.
fn family(chance: &mut Chance, count: usize) -> Vec<String> {
    match chance.below(8) {
        0 => trait_names(chance, count.min(100)),
        1 => (0..count).map(|number| in_letters(number + 26 * 26)).collect(),
        2 => a_letter_apart(chance, count),
        3..=5 => numbered(chance, count),
        _ => of_one_key(chance, count),
    }
}

/// The number in the letters a to z, as it is written with 26 digits, the last one first.
fn in_letters(number: usize) -> String {
    let letter = char::from(b'a' + (number % 26) as u8);
    if number < 26 {
        return letter.to_string();
    }
    format!("{letter}{}", in_letters(number / 26))
}

/// Names with a number at their start, in their middle, at their end, or in two places.
fn numbered(chance: &mut Chance, count: usize) -> Vec<String> {
    let around =
        [("n", "x"), ("n", "Title"), ("p", "Speed"), ("port", "speedLimitMax"), ("a", "bcdefg"), ("week", ""), ("abcdef", ""), ("n", "")];
    let two = [("r", "c", ""), ("rack", "node", ""), ("a", "b", "c"), ("port", "queue", "Limit")];
    let first = chance.below(2) * chance.below(1_000);
    let numbers = first..first + count;
    if chance.one_in(4) {
        let (before, between, behind) = two[chance.below(two.len())];
        let wide = 2 + chance.below(40);
        return numbers.map(|number| format!("{before}{}{between}{}{behind}", number / wide, number % wide)).collect();
    }
    let (before, behind) = around[chance.below(around.len())];
    let digits = chance.below(5);
    numbers.map(|number| format!("{before}{number:0digits$}{behind}")).collect()
}

/// What names are made of here.
const LETTERS: &[u8] = b"abcdefghijklmnopqrstuvwxyz0123456789";

/// A name of so many letters.
fn random_name(chance: &mut Chance, length: usize) -> Vec<u8> {
    let any = (1..length).map(|_| LETTERS[chance.below(LETTERS.len())]).collect::<Vec<u8>>();
    [b"abcxyz"[chance.below(6)]].into_iter().chain(any).collect()
}

fn in_text(name: &[u8]) -> String {
    String::from_utf8(name.to_vec()).expect("names are ASCII")
}

/// A name, and others of its length that differ from it in one letter, in each place in turn.
fn a_letter_apart(chance: &mut Chance, count: usize) -> Vec<String> {
    let length = 4 + chance.below(29);
    let name = random_name(chance, length);
    let places = (0..LETTERS.len()).flat_map(|letter| (1..length).map(move |place| (place, letter)));
    let others = places.map(|(place, letter)| {
        let mut other = name.clone();
        other[place] = LETTERS[letter];
        in_text(&other)
    });
    others.take(count).collect()
}

// ---- Names of one key

/// A running key is `key * M + letter` at each letter, for some odd M, modulo a power of two. These are some M that one may choose.
const MULTIPLIERS: [usize; 20] = [3, 5, 7, 17, 31, 33, 37, 53, 63, 65, 127, 129, 131, 257, 263, 403, 1_021, 4_099, 31_153, 40_503];

fn next_key(key: usize, multiplier: usize, letter: u8) -> usize {
    (key * multiplier + letter as usize) % 65_536
}

fn running_key(name: &[u8], multiplier: usize) -> usize {
    name.iter().fold(0, |key, &letter| next_key(key, multiplier, letter))
}

/// The library's own M. Its key is this one times M, so that names of one key modulo 65,536 have one key there too.
const OF_THE_LIBRARY: usize = 40_503;

/// Names of any length that have one running key modulo 65,536, or modulo 2,048 and so modulo every smaller power of two.
fn of_one_key(chance: &mut Chance, count: usize) -> Vec<String> {
    let own = chance.one_in(2);
    let multiplier = if own { OF_THE_LIBRARY } else { MULTIPLIERS[chance.below(MULTIPLIERS.len())] };
    let keys = if own || chance.one_in(4) { 65_536 } else { 2_048 };
    let key = chance.below(keys);
    let length = chance.below(9);
    let end = random_name(chance, 1 + length).split_off(1);
    let mut names = Vec::new();
    while names.len() < count {
        let length = 1 + chance.below(6);
        let head = random_name(chance, length);
        let most = 1 + chance.below(16);
        names.extend(with_key(&head, multiplier, keys, key).iter().take(most).map(|start| in_text(&[start, end.as_slice()].concat())));
    }
    names.truncate(count);
    names
}

/// The names of three letters more than the head that have this key. What stands behind them alike leaves their keys alike.
fn with_key(head: &[u8], multiplier: usize, keys: usize, key: usize) -> Vec<Vec<u8>> {
    let mut names = Vec::new();
    for &one in LETTERS {
        for &two in LETTERS {
            let before = [one, two].iter().fold(running_key(head, multiplier), |key, &letter| next_key(key, multiplier, letter));
            let due = (keys + key - next_key(before, multiplier, 0) % keys) % keys;
            if let Some(&last) = LETTERS.iter().find(|&&letter| letter as usize == due) {
                names.push([head, &[one, two, last]].concat());
            }
        }
    }
    names
}

#[cfg(test)]
mod tests {
    use super::*;
    use crate::generate::PLENTY;
    use crate::reader::read_sheet;

    #[test]
    fn names_of_one_key_have_one_key() {
        for seed in 0..100 {
            let names = of_one_key(&mut Chance(seed), 40);
            let share = |multiplier: &usize| {
                let key = |name: &String| running_key(name.as_bytes(), *multiplier) % 2_048;
                names.iter().all(|name| key(name) == key(&names[0]))
            };
            assert!(MULTIPLIERS.iter().any(share), "{names:?}");
        }
    }

    #[test]
    fn names_differ_and_keep_their_rule() {
        for seed in 0..400 {
            let names = all_names(&mut Chance(seed), 100);
            assert!(names.len() > 20, "{names:?}");
            assert!(names.iter().all(|name| is_trait_name(name.as_bytes())), "{names:?}");
            assert_eq!(names.iter().collect::<HashSet<_>>().len(), names.len());
        }
    }

    /// Most are accepted or have a trait twice, and there are both.
    #[test]
    fn dense_sheets_are_read_far() {
        let mut chance = Chance(1);
        let names = Names::papers();
        let numbers: Vec<u32> =
            (0..1_000).map(|_| read_sheet(&names.table(), &dense_sheet(&mut chance, &names, 4_000), PLENTY).0.number).collect();
        let count = |number: u32| numbers.iter().filter(|&&other| other == number).count();
        assert!(count(0) > 400 && count(18) > 250, "{} are accepted, {} have a trait twice", count(0), count(18));
    }
}
