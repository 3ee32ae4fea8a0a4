//! Makes names, bounds, files and tries to order.

use std::collections::BTreeSet;

use crate::chance::Chance;
use crate::model::file::{bucket_bytes, kind, store, Bucket, Entry, File, Header, Kind, Slot, HEADER, VERSIONS};
use crate::model::names::{filled, is_legal_name, unfilled, Bound, BLANK, DIGITS};
use crate::model::trie::{fits, row, strings, Cell, Place, Side, Trie, CELLS};

/// What the names of a story look like.
#[derive(Clone, Copy, PartialEq, Eq, Debug)]
pub enum Style {
    /// Short, of few letters.
    Words,
    /// A long beginning shared by many.
    LongBeginnings,
    /// 23 or more shared digits, so that split strings get 24.
    LastDigit,
    /// Names that are beginnings of each other.
    Beginnings,
    /// Only the smallest and the greatest digit of names, and one between.
    Ends,
    /// Any digits.
    Any,
    /// A few words with one or more blanks between them.
    Phrases,
}

pub const STYLES: [Style; 7] =
    [Style::Words, Style::LongBeginnings, Style::LastDigit, Style::Beginnings, Style::Ends, Style::Any, Style::Phrases];

fn digit(chance: &mut Chance) -> u8 {
    chance.between(0x21, 0x7D) as u8
}

fn digits(chance: &mut Chance, alphabet: &[u8], length: usize) -> Vec<u8> {
    (0..length).map(|_| *chance.pick(alphabet)).collect()
}

/// Words with one blank between two of them, or with several.
fn phrase(chance: &mut Chance) -> Vec<u8> {
    let mut phrase = chance.pick(&["GDP", "real", "a", "i"]).as_bytes().to_vec();
    for _ in 0..chance.below(4) {
        let blanks = if chance.percent(70) { 1 } else { chance.between(2, 20) };
        phrase.extend(vec![BLANK; blanks]);
        phrase.extend(chance.pick(&["GDP", "real", "a", "b", "i", "1998", "!", "}"]).as_bytes());
    }
    phrase.truncate(DIGITS);
    phrase
}

/// A name of these digits: no blank stands first, and none last.
fn named(chance: &mut Chance, mut digits: Vec<u8>) -> Vec<u8> {
    digits.truncate(unfilled(&digits).len());
    match digits.first_mut() {
        None => digits.push(digit(chance)),
        Some(first) if *first == BLANK => *first = digit(chance),
        Some(_) => {}
    }
    digits
}

/// Some legal names of a style, each once. There may be fewer than asked for. In every style some names have blanks inside.
pub fn names(chance: &mut Chance, style: Style, how_many: usize) -> Vec<Vec<u8>> {
    let mut alphabet: Vec<u8> = match style {
        Style::Words => b"aeinorst".to_vec(),
        Style::Ends => vec![0x21, 0x7D, if chance.percent(50) { 0x7C } else { 0x22 }],
        _ => {
            let size = chance.between(2, 4);
            let mut alphabet: Vec<u8> = (0..size).map(|_| digit(chance)).collect();
            if chance.percent(50) {
                alphabet.push(0x21);
                alphabet.push(0x7D);
            }
            alphabet
        }
    };
    if chance.percent(40) {
        alphabet.extend(vec![BLANK; chance.between(1, 3)]);
    }
    let stem_count = match style {
        Style::LongBeginnings => chance.between(1, 3),
        Style::LastDigit => 1 + how_many / 5,
        _ => 1,
    };
    let stems: Vec<Vec<u8>> = (0..stem_count)
        .map(|_| match style {
            Style::LongBeginnings => {
                let length = chance.between(8, 22);
                digits(chance, &alphabet, length)
            }
            Style::LastDigit => {
                let mut stem = digits(chance, &alphabet, 23);
                stem[0] = digit(chance);
                stem
            }
            Style::Beginnings => {
                let few = [alphabet[0], alphabet[1], *alphabet.last().expect("digits to choose from")];
                digits(chance, &few, DIGITS)
            }
            _ => Vec::new(),
        })
        .map(|stem: Vec<u8>| if stem.first() == Some(&BLANK) { [&alphabet[..1], &stem[1..]].concat() } else { stem })
        .collect();
    let mut found: BTreeSet<Vec<u8>> = BTreeSet::new();
    for _ in 0..how_many * 3 {
        if found.len() == how_many {
            break;
        }
        let mut name = chance.pick(&stems).clone();
        match style {
            Style::Words | Style::Ends => {
                let length = chance.between(1, 5);
                name = digits(chance, &alphabet, length);
            }
            Style::LongBeginnings => {
                let most = DIGITS - name.len();
                let length = chance.between(0, most.min(3));
                name.extend(digits(chance, &alphabet, length));
                if chance.percent(5) {
                    name.truncate(chance.between(1, name.len()));
                }
            }
            Style::LastDigit => {
                name.push(digit(chance));
                if chance.percent(10) {
                    name.truncate(chance.between(22, 24));
                }
            }
            Style::Beginnings => {
                name.truncate(chance.between(1, DIGITS));
                if chance.percent(20) {
                    let last = name.len() - 1;
                    name[last] = *chance.pick(&alphabet);
                }
            }
            Style::Any => {
                let length = chance.between(1, DIGITS);
                name = (0..length).map(|_| chance.between(0x20, 0x7D) as u8).collect();
            }
            Style::Phrases => name = phrase(chance),
        }
        found.insert(named(chance, name));
    }
    let mut names: Vec<Vec<u8>> = found.into_iter().collect();
    chance.shuffle(&mut names);
    names
}

/// An illegal name of any kind: a wrong length, a wrong byte at any place, or a blank first or last.
pub fn illegal_name(chance: &mut Chance) -> Vec<u8> {
    let name = match chance.below(6) {
        0 => Vec::new(),
        1 => vec![b'a'; 25],
        2 => {
            let length = chance.between(26, 600);
            vec![digit(chance); length]
        }
        3 => {
            let length = chance.between(1, DIGITS);
            let mut name: Vec<u8> = (0..length).map(|_| *chance.pick(&[BLANK, 0x21, 0x61, 0x7D])).collect();
            let place = *chance.pick(&[0, length - 1]);
            name[place] = BLANK;
            name
        }
        _ => {
            let length = chance.between(1, 26);
            let mut name: Vec<u8> = (0..length).map(|_| digit(chance)).collect();
            let place = chance.below(length);
            name[place] = *chance.pick(&[0x00, 0x7E, 0x7F, 0x80, 0xFF, 0x1F, 0xA1]);
            name
        }
    };
    assert!(!is_legal_name(&name));
    name
}

/// A legal non-empty bound: often the beginning of a filled name, sometimes any digits, sometimes blanks only.
pub fn bound(chance: &mut Chance, names: &[Vec<u8>]) -> Bound {
    let most = if chance.percent(70) { 4 } else { DIGITS };
    let length = chance.between(1, most);
    match chance.below(10) {
        0 => Bound(vec![BLANK; length]),
        1 => Bound((0..length).map(|_| chance.between(0x20, 0x7D) as u8).collect()),
        2 => Bound(digits(chance, &[0x20, 0x21, 0x7D], length)),
        3 => {
            let name: &Vec<u8> = chance.pick(names);
            let mut digits = filled(name)[..length].to_vec();
            digits[length - 1] = chance.between(0x20, 0x7D) as u8;
            Bound(digits)
        }
        _ => {
            let name: &Vec<u8> = chance.pick(names);
            Bound(filled(name)[..length].to_vec())
        }
    }
}

/// Up to `most` entries in a range, sorted. A range that no legal name is in gets none.
pub fn entries(chance: &mut Chance, names: &[Vec<u8>], lower: &Bound, upper: &Bound, most: usize) -> Vec<Entry> {
    let range = Bucket { lower: lower.clone(), upper: upper.clone(), entries: Vec::new() };
    let mut found = BTreeSet::new();
    for _ in 0..4 * most {
        if found.len() == most {
            break;
        }
        let mut name = match chance.below(3) {
            0 => unfilled(&upper.0).to_vec(),
            1 => unfilled(&lower.0).to_vec(),
            _ => chance.pick(names).clone(),
        };
        if chance.percent(50) && name.len() < DIGITS {
            if chance.percent(20) {
                name.push(BLANK);
                name.truncate(DIGITS - 1);
            }
            name.push(digit(chance));
        }
        if chance.percent(30) && !name.is_empty() {
            let last = name.len() - 1;
            name[last] = digit(chance);
        }
        if is_legal_name(&name) && range.holds(&filled(&name)) {
            found.insert(filled(&name));
        }
    }
    found.into_iter().map(|name| Entry { name, value: value(chance), run: run(chance) }).collect()
}

/// A value: zero and the greatest too.
pub fn value(chance: &mut Chance) -> u64 {
    match chance.below(8) {
        0 => 0,
        1 => u64::MAX,
        _ => chance.word(),
    }
}

/// A run: mostly one of a few, so that equal, older and newer ones meet; zero, the greatest and any other too.
pub fn run(chance: &mut Chance) -> u64 {
    match chance.below(12) {
        0 => 0,
        1 => u64::MAX,
        2 => u64::MAX - 1,
        3 => chance.word(),
        _ => chance.between(0, 5) as u64,
    }
}

/// A version that is offered.
pub fn version(chance: &mut Chance) -> u64 {
    *chance.pick(&VERSIONS)
}

/// The bytes of a file with these slots.
pub fn file_bytes(version: u64, b: usize, slots: &[Slot]) -> Vec<u8> {
    let header = Header::new(version, b, slots.len());
    let mut file = vec![0; header.file_length()];
    file[..HEADER].copy_from_slice(&header.bytes());
    for (number, slot) in slots.iter().enumerate() {
        if let Slot::Used(bucket) = slot {
            store(&mut file, &header, number, &bucket_bytes(bucket, &header));
        }
    }
    file
}

/// A sound file with arbitrary bounds, its buckets in any slots.
pub fn sound_file(chance: &mut Chance, header: Header, used: usize, names: &[Vec<u8>]) -> Vec<u8> {
    let Header { version, b, slots } = header;
    let mut bounds = BTreeSet::new();
    for _ in 0..used * 10 {
        if bounds.len() + 1 >= used {
            break;
        }
        bounds.insert(bound(chance, names));
    }
    let mut numbers: Vec<usize> = (0..slots).collect();
    chance.shuffle(&mut numbers);
    let mut all = vec![Slot::Free; slots];
    let mut lower = Bound::empty();
    let uppers = bounds.into_iter().chain([Bound::empty()]);
    for (upper, number) in uppers.zip(numbers) {
        let most = if chance.percent(60) { b } else { chance.below(b + 1) };
        let entries = entries(chance, names, &lower, &upper, most);
        all[number] = Slot::Used(Bucket { lower, upper: upper.clone(), entries });
        lower = upper;
    }
    let file = file_bytes(version, b, &all);
    assert!(matches!(kind(&file), Kind::Sound(_)));
    file
}

/// A sound file with exactly so many strings: each bound has a first digit of its own, so its beginnings are its own.
pub fn file_with_strings(chance: &mut Chance, header: Header, used: usize, how_many: usize) -> Vec<u8> {
    let Header { version, b, slots } = header;
    let bounds = used - 1;
    assert!(bounds <= how_many && how_many <= bounds * DIGITS && bounds <= 0x7D - 0x21);
    let mut lengths = vec![1; bounds];
    let mut left = how_many - bounds;
    while left > 0 {
        let place = chance.below(bounds);
        let more = chance.between(0, left.min(DIGITS - lengths[place]));
        lengths[place] += more;
        left -= more;
    }
    let mut firsts: Vec<u8> = (0x21..0x7D).collect();
    chance.shuffle(&mut firsts);
    let mut uppers: Vec<Bound> = Vec::new();
    for (first, length) in firsts.iter().zip(lengths) {
        let mut digits = vec![*first];
        while digits.len() < length {
            digits.push(*chance.pick(&[0x21, 0x61, 0x7D, 0x20]));
        }
        uppers.push(Bound(digits));
    }
    uppers.sort();
    uppers.push(Bound::empty());
    // Any slots may be free, but often the last ones are.
    let mut numbers: Vec<usize> = (0..slots).collect();
    let shuffled = if chance.percent(50) { used } else { slots };
    chance.shuffle(&mut numbers[..shuffled]);
    let mut all = vec![Slot::Free; slots];
    let mut lower = Bound::empty();
    for (upper, number) in uppers.into_iter().zip(numbers) {
        let names = [vec![digit(chance), 0x61], vec![upper.0.first().copied().unwrap_or(0x7D), 0x21]];
        let entries = entries(chance, &names, &lower, &upper, b);
        all[number] = Slot::Used(Bucket { lower, upper: upper.clone(), entries });
        lower = upper;
    }
    let file = file_bytes(version, b, &all);
    let Kind::Sound(read) = kind(&file) else { panic!("the file is sound") };
    assert_eq!(strings(&read).len(), how_many);
    file
}

/// The names that a file holds, and names close to them.
pub fn names_near(chance: &mut Chance, file: &[u8]) -> Vec<Vec<u8>> {
    let read = File::read(file).expect("the header is right");
    let mut near = vec![vec![0x21], vec![0x7D; 24]];
    for entry in read.used().flat_map(|(_, bucket)| &bucket.entries) {
        let name = unfilled(&entry.name).to_vec();
        let mut longer = name.clone();
        let mut other = name.clone();
        while longer.len() < DIGITS && chance.percent(70) {
            longer.push(*chance.pick(&[0x20, 0x21, 0x61, 0x7D]));
        }
        let last = other.len() - 1;
        other[last] = digit(chance);
        near.extend([name, named(chance, longer), other]);
    }
    near
}

/// How the root of a run is chosen.
#[derive(Clone, Copy, PartialEq, Eq)]
pub enum Roots {
    First,
    Last,
    Any,
}

/// A trie that agrees with the file, of any legal shape and numbering. None if the file has too many strings.
pub fn shaped(chance: &mut Chance, file: &File, roots: Roots) -> Option<Trie> {
    let strings: Vec<Bound> = strings(file).into_iter().collect();
    if strings.len() > CELLS {
        return None;
    }
    // The root is cell 0, the others have any numbers.
    let mut numbers: Vec<usize> = (1..strings.len().max(1)).collect();
    chance.shuffle(&mut numbers);
    numbers.push(0);
    let mut trie = Trie::empty(0);
    trie.count = strings.len();
    let root = shape(chance, &strings, &Bound::empty(), (None, None), file, roots, &mut numbers, &mut trie);
    if let Side::Slot(slot) = root {
        trie.first_leaf = slot;
    }
    Some(trie)
}

#[allow(clippy::too_many_arguments)]
fn shape(
    chance: &mut Chance,
    run: &[Bound],
    path: &Bound,
    beside: (Option<&Bound>, Option<&Bound>),
    file: &File,
    roots: Roots,
    numbers: &mut Vec<usize>,
    trie: &mut Trie,
) -> Side {
    // A string can be a root here when all its digits but the last begin the path.
    let legal: Vec<usize> =
        (0..run.len()).filter(|place| path.0.starts_with(&run[*place].0[..run[*place].len() - 1])).collect();
    let Some(chosen) = (match roots {
        Roots::First => legal.first(),
        Roots::Last => legal.last(),
        Roots::Any if legal.is_empty() => None,
        Roots::Any => Some(chance.pick(&legal)),
    }) else {
        assert!(run.is_empty(), "a run has a root");
        let (slot, _) = file.used().find(|(_, bucket)| fits(bucket, beside.0, beside.1)).expect("one bucket fits");
        return Side::Slot(slot);
    };
    let root = &run[*chosen];
    let number = numbers.pop().expect("a number for each cell");
    let left = shape(chance, &run[..*chosen], root, (beside.0, Some(root)), file, roots, numbers, trie);
    let right = shape(chance, &run[chosen + 1..], path, (Some(root), beside.1), file, roots, numbers, trie);
    trie.cells[number] = Cell { digit: root.0[root.len() - 1], number: root.len() - 1, left, right };
    Side::Cell(number)
}

/// Whether a legal name lies above the string `left` and within the string `right`, beside a leaf.
pub fn has_a_legal_name(left: Option<&Bound>, right: Option<&Bound>) -> bool {
    // The least name above `left`: its last digit that can be raised is raised. A name does not begin with a blank, and the
    // least that begins with none is "!".
    let mut least = left.map_or(vec![0x21], |left| left.0.clone());
    if left.is_some() {
        while least.last() == Some(&0x7D) {
            least.pop();
        }
        let Some(last) = least.last_mut() else { return false };
        *last += 1;
        if least[0] == BLANK {
            least = vec![0x21];
        }
    }
    assert!(is_legal_name(&least));
    let range = Bucket {
        lower: left.cloned().unwrap_or(Bound::empty()),
        upper: right.cloned().unwrap_or(Bound::empty()),
        entries: Vec::new(),
    };
    range.holds(&filled(&least))
}

/// The places of leaves that no legal name reaches.
pub fn unreached_leaves(trie: &Trie) -> Vec<Place> {
    let Some(row) = row(trie) else { return Vec::new() };
    let unreached = row.leaves.iter().enumerate().filter(|(place, _)| {
        let left = place.checked_sub(1).map(|before| &row.strings[before]);
        !has_a_legal_name(left, row.strings.get(*place))
    });
    unreached.map(|(_, leaf)| leaf.place).collect()
}

/// A sound file from which most entries are gone, without a merge: what is removed from it next finds few in the buckets.
pub fn thinned(chance: &mut Chance, file: &[u8]) -> Vec<u8> {
    let mut read = File::read(file).expect("the header is right");
    let most = read.header.b / 2;
    for slot in &mut read.slots {
        if let Slot::Used(bucket) = slot {
            let left = chance.between(0, most);
            while bucket.entries.len() > left {
                bucket.entries.remove(chance.below(bucket.entries.len()));
            }
        }
    }
    file_bytes(read.header.version, read.header.b, &read.slots)
}

/// A file that is cut or nearly so, made from a sound one: a copy of part of a bucket A is put into a free slot N. Mostly A is
/// full, as a split leaves it; a merge leaves one that is not. None if no slot is free.
pub fn cut_file(chance: &mut Chance, file: &File, names: &[Vec<u8>], nearly: bool) -> Option<Vec<u8>> {
    let mut from: Vec<usize> = file.used().map(|(number, _)| number).collect();
    if chance.percent(60) && file.used().any(|(_, bucket)| bucket.entries.len() == file.header.b) {
        from.retain(|number| file.bucket(*number).entries.len() == file.header.b);
    }
    let free: Vec<usize> = (0..file.slots.len()).filter(|number| file.slots[*number] == Slot::Free).collect();
    if free.is_empty() {
        return None;
    }
    let a = *chance.pick(&from);
    let n = *chance.pick(&free);
    let mut kept = file.bucket(a).clone();
    // N's lower: any bound between A's two, mostly the beginning of one of A's names.
    let own: Vec<Vec<u8>> = kept.entries.iter().map(|entry| unfilled(&entry.name).to_vec()).collect();
    let mut lower = Bound::empty();
    for _ in 0..20 {
        let from_own = chance.percent(80);
        lower = bound(chance, if from_own && !own.is_empty() { &own } else { names });
        if lower < kept.upper && (kept.lower.is_empty() || kept.lower < lower) {
            break;
        }
        lower = Bound::empty();
    }
    if lower.is_empty() {
        return None;
    }
    let mut copy = Bucket { lower, upper: kept.upper.clone(), entries: Vec::new() };
    copy.entries = kept.entries.iter().filter(|entry| copy.holds(&entry.name)).cloned().collect();
    let one_more = |chance: &mut Chance, copy: &mut Bucket| {
        let more = entries(chance, names, &copy.lower, &copy.upper, 3);
        let more =
            more.into_iter().find(|entry| kept.entry(&entry.name).is_none() && copy.entry(&entry.name).is_none());
        if let (Some(more), true) = (more, copy.entries.len() < file.header.b) {
            copy.entries.push(more);
            copy.entries.sort_by_key(|entry| entry.name);
        }
    };
    if chance.percent(60) {
        one_more(chance, &mut copy);
    }
    if nearly {
        match chance.below(8) {
            0 if !copy.entries.is_empty() => {
                // Value and run together are the entry's content.
                let entry = chance.below(copy.entries.len());
                let entry = &mut copy.entries[entry];
                let number =
                    if file.header.has_runs() && chance.percent(50) { &mut entry.run } else { &mut entry.value };
                *number ^= 1 << chance.below(64);
            }
            1 if !copy.entries.is_empty() => {
                copy.entries.remove(chance.below(copy.entries.len()));
            }
            2 => one_more(chance, &mut copy),
            3 => {
                one_more(chance, &mut copy);
                one_more(chance, &mut copy);
            }
            4 if !kept.entries.is_empty() => {
                kept.entries.remove(chance.below(kept.entries.len()));
            }
            5 => copy.lower = bound(chance, names),
            6 => copy.upper = bound(chance, names),
            _ => copy.lower = kept.lower.clone(),
        }
    }
    let mut slots = file.slots.clone();
    slots[a] = Slot::Used(kept);
    slots[n] = Slot::Used(copy);
    Some(file_bytes(file.header.version, file.header.b, &slots))
}

#[cfg(test)]
mod tests {
    use super::*;
    use crate::model::file::cut_slot;
    use crate::model::names::{is_in_range, Filled};
    use crate::model::trie::{agrees, rebuilt, walk};

    /// Every legal name of up to three digits over a few, filled.
    fn small_names(alphabet: &[u8]) -> Vec<Filled> {
        let mut all: Vec<Vec<u8>> = vec![Vec::new()];
        let mut last = all.clone();
        for _ in 0..3 {
            last = last
                .iter()
                .flat_map(|name| alphabet.iter().map(move |digit| [&name[..], &[*digit]].concat()))
                .collect();
            all.extend(last.clone());
        }
        all.iter().filter(|name| is_legal_name(name)).map(|name| filled(name)).collect()
    }

    #[test]
    fn every_shape_agrees_and_leads_each_name_to_its_bucket() {
        for seed in 0..400 {
            let mut chance = Chance::new(seed);
            let style = *chance.pick(&STYLES);
            let pool = names(&mut chance, style, 30);
            let slots = chance.between(1, 12);
            let used = chance.between(1, slots);
            let header = Header::new(version(&mut chance), 3, slots);
            let file = File::read(&sound_file(&mut chance, header, used, &pool)).unwrap();
            assert!(cut_slot(&file).is_none(), "a sound file is not cut");
            // The one bucket that fits a leaf is one.
            let Some(again) = rebuilt(&file) else { continue };
            let row = row(&again).unwrap();
            for place in 0..row.leaves.len() {
                let left = place.checked_sub(1).map(|before| &row.strings[before]);
                let right = row.strings.get(place);
                assert_eq!(file.used().filter(|(_, bucket)| fits(bucket, left, right)).count(), 1);
            }
            for roots in [Roots::First, Roots::Last, Roots::Any, Roots::Any] {
                let trie = shaped(&mut chance, &file, roots).unwrap();
                assert!(agrees(&trie, &file) && agrees(&again, &file));
                for name in pool.iter().map(|name| filled(name)).chain(small_names(&[0x20, 0x21, 0x61, 0x7D])) {
                    let (slot, _) = file.bucket_of(&name);
                    assert_eq!(walk(&trie, &name, slots).unwrap().slot, slot);
                    assert_eq!(walk(&again, &name, slots).unwrap().slot, slot);
                }
            }
        }
    }

    #[test]
    fn whether_a_legal_name_lies_between_two_strings() {
        let string = |digits: &[u8]| Bound(digits.to_vec());
        assert!(has_a_legal_name(None, None));
        assert!(!has_a_legal_name(None, Some(&string(b" "))));
        assert!(has_a_legal_name(None, Some(&string(b"!"))));
        assert!(has_a_legal_name(None, Some(&string(b"! "))));
        assert!(!has_a_legal_name(Some(&string(b"r}")), Some(&string(b"r"))));
        assert!(has_a_legal_name(Some(&string(b"r|")), Some(&string(b"r"))));
        assert!(!has_a_legal_name(Some(&string(b"}")), None));
        assert!(has_a_legal_name(Some(&string(b" }")), Some(&string(b"!"))));
        assert!(has_a_legal_name(Some(&string(b"a b")), Some(&string(b"a "))));
        assert!(!has_a_legal_name(Some(&string(b"a }")), Some(&string(b"a "))));
        assert!(has_a_legal_name(Some(&string(b"a  ")), Some(&string(b"a "))));
        // The same asked of every name of up to three digits.
        let alphabet: Vec<u8> = vec![0x20, 0x21, 0x22, 0x7C, 0x7D];
        let all = small_names(&alphabet);
        let mut chance = Chance::new(5);
        let mut answers = [0, 0];
        for _ in 0..3000 {
            let mut two = [0, 0].map(|_| {
                let length = chance.between(1, 2);
                Bound(digits(&mut chance, &[0x20, 0x21, 0x7C, 0x7D], length))
            });
            two.sort();
            if two[0] == two[1] {
                continue;
            }
            let some = all.iter().any(|name| is_in_range(name, &two[0], &two[1]));
            assert_eq!(has_a_legal_name(Some(&two[0]), Some(&two[1])), some, "{two:?}");
            answers[some as usize] += 1;
        }
        assert!(answers.iter().all(|times| *times > 100), "{answers:?}");
    }

    #[test]
    fn every_style_has_names_with_blanks_inside() {
        for style in STYLES {
            let mut found = [false; 3];
            for seed in 0..60 {
                let mut chance = Chance::new(seed);
                for name in names(&mut chance, style, 20) {
                    assert!(is_legal_name(&name), "{name:?}");
                    found[name.iter().filter(|digit| **digit == BLANK).count().min(2)] = true;
                }
                illegal_name(&mut chance);
            }
            assert!(found == [true; 3], "{style:?}: none, one and many blanks: {found:?}");
        }
    }

    #[test]
    fn cut_files_are_cut() {
        let mut kinds = [0; 3];
        for seed in 0..2000 {
            let mut chance = Chance::new(seed);
            let style = *chance.pick(&STYLES);
            let pool = names(&mut chance, style, 30);
            let header = Header::new(version(&mut chance), 2, 6);
            let file = File::read(&sound_file(&mut chance, header, 3, &pool)).unwrap();
            if let Some(bytes) = cut_file(&mut chance, &file, &pool, false) {
                assert!(matches!(kind(&bytes), Kind::Cut(_)));
            }
            if let Some(bytes) = cut_file(&mut chance, &file, &pool, true) {
                kinds[match kind(&bytes) {
                    Kind::Sound(_) => 0,
                    Kind::Cut(_) => 1,
                    Kind::Bad => 2,
                }] += 1;
            }
        }
        assert!(kinds[1] > 50 && kinds[2] > 200, "{kinds:?}");
    }
}
