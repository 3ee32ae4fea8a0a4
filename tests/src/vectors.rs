//! Cases of the rules, made from the model, for the definitions that the proofs rest on.
//!
//! The crate `vectors` computes those definitions on these cases and compares. Neither they nor the library have a part in
//! making a case.

mod sheet;

use std::cmp::Ordering;
use std::collections::BTreeMap;

use crate::chance::Chance;
use crate::damage::{damaged_file, damaged_trie};
use crate::door::{read_image, write_image};
use crate::make::{
    bound, cut_file, file_bytes, file_with_strings, illegal_name, names_near, run, shaped, value, version, Roots,
};
use crate::model::calls::{self, Answer, Content};
use crate::model::file::{kind, Bucket, Entry, File, Header, Kind, Slot, HEADER};
use crate::model::names::{filled, is_legal_name, is_within, unfilled, Bound, BLANK};
use crate::model::trie::{agrees, strings, Cell, Place, Side, Trie, CELLS};
use crate::situations::{NINE, WORDS};
use sheet::{bytes, list, said, truth, written_cells, Sheet};

/// Where the written cases stand, from the repository's top.
pub const PLACE: &str = "crates/vectors/specs/Cases.antt";

/// Where it is said that every list of them holds.
pub const STATEMENT: &str = "crates/vectors/specs/Statement.antt";

/// All cases, as the text of that file.
pub fn text() -> String {
    let mut sheet = Sheet::default();
    legal_names(&mut sheet);
    names_within_bounds(&mut sheet);
    bounds_in_order(&mut sheet);
    split_strings(&mut sheet);
    arrangements(&mut sheet);
    agreements(&mut sheet);
    checks(&mut sheet);
    cut_or_not(&mut sheet);
    wrong_headers(&mut sheet);
    creates(&mut sheet);
    recovers(&mut sheet);
    rebuilds(&mut sheet);
    look_ups(&mut sheet);
    wrong_tries(&mut sheet);
    puts(&mut sheet);
    removes(&mut sheet);
    lists(&mut sheet);
    worked_puts(&mut sheet);
    shorter_separators(&mut sheet);
    merges(&mut sheet);
    worked_words(&mut sheet);
    most_strings(&mut sheet);
    sheet.written()
}

/// Tries numbered cases until there are enough of each sort. `sorts` says how many: "found 4, absent 3".
fn gather(first: u64, sorts: &str, mut one: impl FnMut(&mut Chance, &mut Wanted)) {
    let sorts = sorts.split(", ").map(|sort| sort.rsplit_once(' ').expect("a sort and a number"));
    let mut wanted = Wanted(sorts.map(|(sort, many)| (sort.to_string(), many.parse().expect("a number"))).collect());
    for seed in first..first + 100_000 {
        if wanted.0.values().all(|many| *many == 0) {
            return;
        }
        one(&mut Chance::new(seed), &mut wanted);
    }
    panic!("not found: {:?}", wanted.0);
}

/// How many more cases of each sort are wanted.
struct Wanted(BTreeMap<String, usize>);

impl Wanted {
    fn takes(&mut self, sort: &str) -> bool {
        let many = self.0.get_mut(sort).filter(|many| **many > 0);
        many.map(|many| *many -= 1).is_some()
    }
}

/// The sort of a case by its answer.
fn sort(answer: Answer) -> &'static str {
    match answer {
        Answer::Refused(calls::OLDER_RUN) => "12",
        Answer::Refused(number) => ["0", "1", "2", "3", "4", "5", "6", "7", "8"][number as usize],
        Answer::Stale(calls::NO_DIGIT) => "4",
        Answer::Stale(0) => "left at 0",
        Answer::Stale(_) => "left later",
        Answer::Created => "created",
        Answer::Sound => "sound",
        Answer::Cut => "cut",
        Answer::Bad => "bad",
        Answer::Freed(_) => "freed",
        Answer::NothingToDo => "nothing",
        Answer::Rebuilt => "rebuilt",
        Answer::Found(..) => "found",
        Answer::Absent => "absent",
        Answer::Added => "added",
        Answer::Replaced(..) => "replaced",
        Answer::Removed => "removed",
        Answer::Stopped(0) => "stopped 0",
        Answer::Stopped(_) => "stopped 1",
        Answer::Listed(0) => "none",
        Answer::Listed(1) => "one",
        Answer::Listed(_) => "several",
    }
}

/// Short names over few digits, some with a shared beginning, some with blanks inside.
fn few_names(chance: &mut Chance) -> Vec<Vec<u8>> {
    let alphabet = chance.pick(&["ab", "ino", "!a}", "!}", "rst", "xyz", "a b", "i  n"]).as_bytes();
    let length = match chance.below(20) {
        0..=8 => 0,
        9..=17 => chance.between(1, 4),
        _ => chance.between(18, 23),
    };
    let mut stem: Vec<u8> = (0..length).map(|_| *chance.pick(alphabet)).collect();
    if let Some(first) = stem.first_mut().filter(|first| **first == BLANK) {
        *first = alphabet[0];
    }
    // Names that leave the stem early are split by strings that the trie already has.
    let leave_early = chance.percent(40);
    let mut name = || {
        let mut name = stem.clone();
        if leave_early && chance.percent(70) {
            name.truncate(chance.between(0, name.len()));
        }
        let more = chance.between(usize::from(name.is_empty()), 3.min(24 - name.len()));
        name.extend((0..more).map(|_| *chance.pick(alphabet)));
        name
    };
    let mut names: Vec<Vec<u8>> = Vec::new();
    while names.len() < 9 {
        names.extend(Some(name()).filter(|name| is_legal_name(name)));
    }
    names
}

/// A small value, or any, and a run.
fn some_content(chance: &mut Chance) -> Content {
    let value = match chance.percent(70) {
        true => chance.below(1000) as u64,
        false => value(chance),
    };
    Content::new(value, run(chance))
}

/// A file as create makes it.
fn new_file(version: u64, b: usize, slots: usize) -> (Vec<u8>, Trie) {
    let mut file = vec![0; Header::new(version, b, slots).file_length()];
    let (answer, trie) = calls::create(&mut file, version, b as u64, slots as u64);
    assert_eq!(answer, Answer::Created);
    (file, trie)
}

/// A small file that lived through a few calls.
struct Small {
    file: Vec<u8>,
    trie: Trie,
    /// The trie before it last grew.
    older: Trie,
    /// What the last split or merge leaves when it is stopped after one store.
    cut: Option<Vec<u8>>,
    names: Vec<Vec<u8>>,
}

impl Small {
    fn new(chance: &mut Chance) -> Small {
        let (b, slots) = (chance.between(2, 3), chance.between(2, 4));
        let version = version(chance);
        let names = few_names(chance);
        let (file, trie) = new_file(version, b, slots);
        let mut small = Small { file, older: trie.clone(), trie, cut: None, names };
        for _ in 0..chance.between(2, 12) {
            let name = chance.pick(&small.names).clone();
            if chance.percent(20) {
                small.remove(&name);
            } else {
                small.put(&name, some_content(chance));
            }
        }
        small
    }

    fn put(&mut self, name: &[u8], content: Content) {
        let (mut stopped, trie) = (self.file.clone(), self.trie.clone());
        if calls::put(&mut stopped, &mut self.trie, name, content, 1) == Answer::Stopped(1) {
            self.cut = Some(stopped);
        }
        calls::put(&mut self.file, &mut self.trie, name, content, 2);
        if self.trie != trie {
            self.older = trie;
        }
    }

    fn remove(&mut self, name: &[u8]) {
        let (mut stopped, trie) = (self.file.clone(), self.trie.clone());
        if calls::remove(&mut stopped, &mut self.trie, name, 1) == Answer::Stopped(1) {
            self.cut = Some(stopped);
        }
        calls::remove(&mut self.file, &mut self.trie, name, 2);
        if self.trie != trie {
            self.older = trie;
        }
    }

    fn read(&self) -> File {
        File::read(&self.file).expect("the header is right")
    }

    /// Mostly the file, sometimes cut, sometimes damaged.
    fn some_file(&self, chance: &mut Chance) -> Vec<u8> {
        match (chance.below(10), &self.cut) {
            (0, Some(cut)) => cut.clone(),
            (1, _) => self.damaged(chance),
            _ => self.file.clone(),
        }
    }

    /// A damaged copy that is not much longer.
    fn damaged(&self, chance: &mut Chance) -> Vec<u8> {
        loop {
            let damaged = damaged_file(chance, &self.file, &self.names);
            if damaged.len() <= self.file.len() + 2 {
                return damaged;
            }
        }
    }

    /// The same buckets in other slots.
    fn shuffled(&self, chance: &mut Chance) -> Vec<u8> {
        let File { header, mut slots } = self.read();
        chance.shuffle(&mut slots);
        file_bytes(header.version, header.b, &slots)
    }

    /// Mostly the trie or another that agrees, sometimes an older one or a damaged one.
    fn some_trie(&self, chance: &mut Chance) -> Trie {
        match chance.below(10) {
            0..=3 => self.trie.clone(),
            4 | 5 => shaped(chance, &self.read(), Roots::Any).expect("not too many strings"),
            6 => self.older.clone(),
            _ => loop {
                let damaged = read_image(&damaged_trie(chance, &write_image(&self.trie)));
                if written_cells(&damaged) <= self.trie.count + 2 {
                    return damaged;
                }
            },
        }
    }

    /// Mostly a legal name.
    fn some_name(&self, chance: &mut Chance) -> Vec<u8> {
        match chance.percent(95) {
            true => chance.pick(&self.names).clone(),
            false => short_illegal_name(chance),
        }
    }
}

fn short_illegal_name(chance: &mut Chance) -> Vec<u8> {
    loop {
        let name = illegal_name(chance);
        if name.len() < 27 {
            return name;
        }
    }
}

fn legal_names(sheet: &mut Sheet) {
    for name in
        [&[b'a'; 24][..], b"", &[b'a'; 25], b"}", b"~", b"!", b" ", b"a b", b" a", b"a ", b"a  b", b"GDP real", b" a b"]
    {
        sheet.case("legals", "legal", &[bytes(name), truth(is_legal_name(name))]);
    }
    gather(1_000, "true 6, false 9", |chance, wanted| {
        let name = if chance.percent(50) { short_illegal_name(chance) } else { few_names(chance).remove(0) };
        let is = truth(is_legal_name(&name));
        if wanted.takes(&is) {
            sheet.case("legals", "legal", &[bytes(&name), is]);
        }
    });
}

fn names_within_bounds(sheet: &mut Sheet) {
    gather(2_000, "true 9, false 9", |chance, wanted| {
        let names = few_names(chance);
        let (name, bound) = (chance.pick(&names), bound(chance, &names));
        let is = truth(is_within(&filled(name), &bound));
        if wanted.takes(&is) {
            sheet.case("insides", "inside", &[bytes(name), bytes(&bound.0), is]);
        }
    });
}

fn bounds_in_order(sheet: &mut Sheet) {
    gather(3_000, "below 7, same 2, above 7", |chance, wanted| {
        let names = few_names(chance);
        let mut some = || if chance.percent(10) { Bound::empty() } else { bound(chance, &names) };
        let (left, right) = (some(), some());
        let sort = match left.cmp(&right) {
            Ordering::Less => "below",
            Ordering::Equal => "same",
            Ordering::Greater => "above",
        };
        if wanted.takes(sort) {
            sheet.case("orders", "ordered", &[bytes(&left.0), bytes(&right.0), truth(left <= right)]);
        }
    });
}

fn split_strings(sheet: &mut Sheet) {
    gather(4_000, "short 6, blank 6, blanks 3, blank inside 3, long 6", |chance, wanted| {
        let mut names = few_names(chance);
        names.sort();
        let (key, last) = (&names[3], &names[5]);
        if key == last {
            return;
        }
        let string = calls::split_string(&filled(key), &filled(last));
        let before_blanks = unfilled(&string.0);
        let sort = match string.len() - before_blanks.len() {
            0 if before_blanks.contains(&BLANK) => "blank inside",
            1 => "blank",
            2.. => "blanks",
            _ if string.len() > 3 => "long",
            _ => "short",
        };
        if wanted.takes(sort) {
            sheet.case("strings", "splits", &[bytes(key), bytes(last), bytes(&string.0)]);
        }
    });
}

fn arrangement(sheet: &mut Sheet, list_name: &'static str, file: &[u8]) {
    let Kind::Sound(read) = kind(file) else { panic!("the file is sound") };
    let order: Vec<String> = read.range_order().expect("the file is sound").iter().map(usize::to_string).collect();
    let strings: Vec<String> = strings(&read).iter().map(|string| bytes(&string.0)).collect();
    let file = sheet.file(file);
    sheet.case(list_name, "arranged", &[file, list(&order), list(&strings)]);
}

fn arrangements(sheet: &mut Sheet) {
    gather(5_000, "1 1, 2 1, 3 2, 4 4", |chance, wanted| {
        let small = Small::new(chance);
        if small.trie.count < 12 && wanted.takes(&small.read().used().count().to_string()) {
            arrangement(sheet, "arrangements", &small.shuffled(chance));
        }
    });
}

fn agreements(sheet: &mut Sheet) {
    gather(6_000, "own 2, other 3, older 2, damaged 8", |chance, wanted| {
        let small = Small::new(chance);
        let trie = small.some_trie(chance);
        let is = agrees(&trie, &small.read());
        let sort = match is {
            true if trie == small.trie => "own",
            true => "other",
            false if trie == small.older => "older",
            false => "damaged",
        };
        if (2..12).contains(&small.trie.count) && wanted.takes(sort) {
            let words = [sheet.file(&small.file), sheet.trie(&trie), truth(is)];
            sheet.case("agreements", "agrees", &words);
        }
    });
}

fn checks(sheet: &mut Sheet) {
    gather(7_000, "sound 3, cut 3, nearly cut 5, no header 3, bad 8", |chance, wanted| {
        let small = Small::new(chance);
        let way = chance.below(4);
        let file = match way {
            0 => Some(small.file.clone()),
            1 | 2 => cut_file(chance, &small.read(), &small.names, way == 2),
            _ => Some(small.damaged(chance)),
        };
        let Some(file) = file.filter(|_| small.trie.count > 0) else { return };
        let answer = calls::check(&file);
        let sort = match answer {
            Answer::Bad if File::read(&file).is_none() => "no header",
            Answer::Bad if way == 2 => "nearly cut",
            _ => sort(answer),
        };
        if wanted.takes(sort) {
            check(sheet, &file);
        }
    });
}

fn check(sheet: &mut Sheet, file: &[u8]) {
    let words = [sheet.file(file), said(calls::check(file))];
    sheet.case("checkings", "checks", &words);
}

/// Two slots, both without an upper limit: the second has a copy of what the first has above "b", or nearly so.
fn cut_or_not(sheet: &mut Sheet) {
    let bucket = |lower: &str, entries: &str| {
        let entry = |word: &str| Entry { name: filled(&word.as_bytes()[..1]), value: word.len() as u64, run: 0 };
        let entries = entries.split(' ').filter(|word| !word.is_empty()).map(entry).collect();
        Slot::Used(Bucket { lower: Bound(lower.as_bytes().to_vec()), upper: Bound::empty(), entries })
    };
    // A name is the first letter of a word, its value the word's length.
    for (a, n) in [
        ("a c d", "c d"),
        ("a c d", "c d e"),
        ("a c d", "b! c d"),
        ("a b d", "d"),
        ("B a b", ""),
        ("a c d", "c"),
        ("a c d", "c dd"),
        ("a c d", "c e"),
        ("B a b", "d e"),
        ("a c", "c"),
        ("a", ""),
        ("", ""),
        ("", "c"),
        ("c", ""),
        ("c", "d"),
        ("a c d", "c c! d"),
    ] {
        check(sheet, &file_bytes(1, 3, &[bucket("", a), bucket("b", n)]));
    }
    check(sheet, &file_bytes(1, 3, &[bucket("b", "c d"), bucket("", "a c d"), Slot::Free]));
    check(sheet, &file_bytes(1, 3, &[bucket("", "a c d"), bucket("", "a c d")]));
    check(sheet, &file_bytes(1, 3, &[bucket("b", "c d"), Slot::Free]));
    check(sheet, &file_bytes(1, 3, &[Slot::Free, Slot::Free]));
}

/// A new file whose header is wrong in one byte, or whose length is. The version is 4, then 257; version 2 is another one.
fn wrong_headers(sheet: &mut Sheet) {
    let (file, _) = new_file(1, 2, 2);
    for (place, more) in [(0, 1), (1, 1), (2, 1), (3, 3), (4, 1), (5, 1), (6, 1), (7, 1), (15, 1), (3, 1)] {
        let mut other = file.clone();
        other[place] += more;
        check(sheet, &other);
    }
    check(sheet, &file[..file.len() - 1]);
    check(sheet, &[&file[..], &[0]].concat());
    check(sheet, &file[..HEADER]);
    check(sheet, &[]);
}

fn creates(sheet: &mut Sheet) {
    let length = |version: u64, b: usize, slots: usize| Header::new(version, b, slots).file_length();
    for (length, [version, b, slots]) in [
        (length(1, 2, 2), [1, 2, 2]),
        (length(1, 3, 3), [1, 3, 3]),
        (length(1, 3, 3) + 1, [1, 3, 3]),
        (length(2, 2, 2), [2, 2, 2]),
        (length(2, 3, 3) - 1, [2, 3, 3]),
        (length(1, 2, 2), [0, 2, 2]),
        (length(3, 2, 2), [3, 2, 2]),
        (length(1, 2, 2), [3, 2, 2]),
        (length(3, 2, 2), [2, 2, 2]),
        (length(1, 2, 2), [4, 2, 2]),
        (length(1, 2, 2), [257, 2, 2]),
        (length(1, 1, 1), [1, 1, 1]),
        (HEADER, [1, 2, 0]),
    ] {
        let mut file = vec![0x20; length];
        let before = sheet.file(&file);
        let (answer, trie) = calls::create(&mut file, version, b, slots);
        let sizes = format!("{version} {b} {slots}");
        let words = [before, sizes, said(answer), sheet.file(&file), sheet.trie(&trie)];
        sheet.case("creatings", "creates", &words);
    }
}

fn recover(sheet: &mut Sheet, list: &'static str, file: &[u8], limit: u64) -> Vec<u8> {
    let mut after = file.to_vec();
    let answer = calls::recover(&mut after, limit);
    let words = [sheet.file(file), limit.to_string(), said(answer), sheet.file(&after)];
    sheet.case(list, "recovers", &words);
    after
}

fn recovers(sheet: &mut Sheet) {
    gather(8_000, "freed 3, stopped 0 1, nothing 2, 2 2, 8 1", |chance, wanted| {
        let small = Small::new(chance);
        let file = match (chance.percent(50), &small.cut) {
            (true, Some(cut)) => cut.clone(),
            _ => small.some_file(chance),
        };
        let limit = chance.below(4) as u64;
        if wanted.takes(sort(calls::recover(&mut file.clone(), limit))) {
            recover(sheet, "recoverings", &file, limit);
        }
    });
}

fn rebuild(sheet: &mut Sheet, list: &'static str, file: &[u8]) -> Trie {
    let (answer, trie) = calls::rebuild(file);
    let words = [sheet.file(file), said(answer), sheet.trie(&trie)];
    sheet.case(list, "rebuilds", &words);
    trie
}

fn rebuilds(sheet: &mut Sheet) {
    gather(9_000, "rebuilt 5, many strings 2, 2 1, 3 1", |chance, wanted| {
        let small = Small::new(chance);
        let file = if chance.percent(50) { small.shuffled(chance) } else { small.some_file(chance) };
        let (answer, trie) = calls::rebuild(&file);
        let sort = match answer {
            Answer::Rebuilt if trie.count > 15 => "many strings",
            Answer::Rebuilt if trie.count < 3 => return,
            _ => sort(answer),
        };
        if wanted.takes(sort) {
            rebuild(sheet, "rebuildings", &file);
        }
    });
}

fn look_up(sheet: &mut Sheet, list: &'static str, file: &[u8], trie: &Trie, name: &[u8]) {
    let answer = calls::look_up(file, trie, name);
    let words = [sheet.file(file), sheet.trie(trie), bytes(name), said(answer)];
    sheet.case(list, "looks_up", &words);
}

fn look_ups(sheet: &mut Sheet) {
    gather(10_000, "found 4, absent 3, found anyhow 3, 1 1, 2 3, 4 4, left at 0 2, left later 5", |chance, wanted| {
        let small = Small::new(chance);
        let (file, trie, name) = (small.some_file(chance), small.some_trie(chance), small.some_name(chance));
        let sort = match calls::look_up(&file, &trie, &name) {
            // Look up reads one bucket: nothing else needs to be right.
            Answer::Found(..) if !matches!(kind(&file), Kind::Sound(read) if agrees(&trie, &read)) => "found anyhow",
            answer => sort(answer),
        };
        if small.trie.count > 1 && wanted.takes(sort) {
            look_up(sheet, "lookings", &file, &trie, &name);
        }
    });
}

/// Tries that are wrong in one way each, beside the file of rate1, rate2 and rate3 (R14.7). Look up meets some of it,
/// and overlooks the rest.
fn wrong_tries(sheet: &mut Sheet) {
    let (mut file, mut trie) = new_file(1, 2, 4);
    for name in ["rate1", "rate2", "rate3"] {
        calls::put(&mut file, &mut trie, name.as_bytes(), Content::new(1, 0), 2);
    }
    let set = |place: Place, side: Side| move |trie: &mut Trie| trie.set(place, side);
    let changes: [&dyn Fn(&mut Trie); 18] = [
        &set(Place::Right(0), Side::Slot(4)),
        &set(Place::Left(4), Side::Slot(4)),
        &set(Place::Left(4), Side::Slot(2)),
        &set(Place::Left(4), Side::Slot(1)),
        &set(Place::Right(3), Side::Slot(0)),
        &set(Place::Left(4), Side::Cell(5)),
        &set(Place::Left(4), Side::Cell(0)),
        &set(Place::Right(0), Side::Cell(4)),
        &|trie| trie.cells[2].number = 3,
        &|trie| trie.cells[2].number = 1,
        &|trie| trie.cells[4].digit = b'0',
        &|trie| trie.cells[5].digit = 1,
        &|trie| trie.cells[255].number = 1,
        &|trie| trie.cells[5].right = Side::Slot(1),
        &|trie| trie.first_leaf = 1,
        &|trie| trie.count = 4,
        &|trie| trie.count = 6,
        &|trie| trie.count = 257,
    ];
    let mut tries: Vec<Trie> = changes.iter().map(|change| changed(&trie, change)).collect();
    // The second cell is met twice on the way of rate1, with paths "r" and "z": four visits, which a count of 4 allows.
    let cell = |digit: u8, number: usize, left: Side, right: Side| Cell { digit, number, left, right };
    for count in [3, 4] {
        let mut twice = Trie::empty(0);
        twice.cells[0] = cell(b'r', 0, Side::Cell(1), Side::Slot(1));
        twice.cells[1] = cell(b'!', 1, Side::Slot(0), Side::Cell(2));
        twice.cells[2] = cell(b'z', 0, Side::Cell(1), Side::Slot(1));
        twice.count = count;
        tries.push(twice);
    }
    // Numbers 0 to 24 on a path that gets 24 digits.
    for last in [23, 24] {
        let mut long = Trie::empty(0);
        for number in 0..=last {
            long.cells[number] = cell(b'r', number, Side::Cell(number + 1), Side::Slot(1));
        }
        long.cells[last].left = Side::Slot(0);
        long.count = last + 1;
        tries.push(long);
    }
    for trie in &tries {
        for name in ["rate1", "rate3", "s"] {
            look_up(sheet, "wrongs", &file, trie, name.as_bytes());
        }
        let words = [sheet.file(&file), sheet.trie(trie), truth(agrees(trie, &File::read(&file).expect("a header")))];
        sheet.case("wrongs", "agrees", &words);
    }
}

fn changed(trie: &Trie, change: &dyn Fn(&mut Trie)) -> Trie {
    let mut trie = trie.clone();
    change(&mut trie);
    trie
}

/// What is put, and how many stores may be made.
struct Put<'a>(&'a [u8], Content, u64);

fn put(sheet: &mut Sheet, list: &'static str, file: &[u8], trie: &Trie, put: Put) -> (Vec<u8>, Trie) {
    let Put(name, content, limit) = put;
    let (mut new_file, mut new_trie) = (file.to_vec(), trie.clone());
    let answer = calls::put(&mut new_file, &mut new_trie, name, content, limit);
    let asked = format!("{} {} {} {limit}", bytes(name), content.value, content.run);
    let words = [sheet.file(file), sheet.trie(trie), asked, said(answer), sheet.file(&new_file), sheet.trie(&new_trie)];
    sheet.case(list, "puts", &words);
    (new_file, new_trie)
}

fn puts(sheet: &mut Sheet) {
    let sorts = "added 3, replaced 2, no cell 3, one cell 2, cells 4, many cells 1, stopped 0 2, stopped 1 2, \
                 equal run 1, newer run 2, 1 1, 2 1, 3 1, 4 3, 5 2, 8 1, 12 3";
    gather(11_000, sorts, |chance, wanted| {
        let small = Small::new(chance);
        let (file, trie, name) = (small.some_file(chance), small.some_trie(chance), small.some_name(chance));
        let (content, limit) = (some_content(chance), *chance.pick(&[0, 1, 2, 2, 2, 2, 3]));
        let mut grown = trie.clone();
        let sort = match calls::put(&mut file.clone(), &mut grown, &name, content, limit) {
            Answer::Replaced(_, old) if old == content.run => "equal run",
            Answer::Replaced(_, old) if old > 0 => "newer run",
            Answer::Added if grown != trie => match grown.count - trie.count {
                5.. => "many cells",
                _ if trie.count < 2 => return,
                0 => "no cell",
                1 => "one cell",
                _ => "cells",
            },
            answer => sort(answer),
        };
        if wanted.takes(sort) {
            put(sheet, "puttings", &file, &trie, Put(&name, content, limit));
        }
    });
}

fn remove(sheet: &mut Sheet, list: &'static str, file: &[u8], trie: &Trie, name: &[u8], limit: u64) -> (Vec<u8>, Trie) {
    let (mut new_file, mut new_trie) = (file.to_vec(), trie.clone());
    let answer = calls::remove(&mut new_file, &mut new_trie, name, limit);
    let asked = format!("{} {limit}", bytes(name));
    let words = [sheet.file(file), sheet.trie(trie), asked, said(answer), sheet.file(&new_file), sheet.trie(&new_trie)];
    sheet.case(list, "removes", &words);
    (new_file, new_trie)
}

fn removes(sheet: &mut Sheet) {
    let sorts = "removed 3, to the right 3, to the left 3, absent 2, stopped 0 2, stopped 1 3, 1 1, 2 1, 3 1, 4 1, 8 1";
    gather(12_000, sorts, |chance, wanted| {
        let small = Small::new(chance);
        let (file, trie, name) = (small.some_file(chance), small.some_trie(chance), small.some_name(chance));
        let limit = *chance.pick(&[0, 1, 2, 2, 3]);
        let (mut after, mut merged) = (file.clone(), trie.clone());
        let sort = match calls::remove(&mut after, &mut merged, &name, limit) {
            Answer::Removed => {
                let (before, after) = (File::read(&file).expect("a header"), File::read(&after).expect("a header"));
                let slot = before.bucket_of(&filled(&name)).0;
                match before.used().count() - after.used().count() {
                    0 => "removed",
                    _ if after.slots[slot] == Slot::Free => "to the left",
                    _ => "to the right",
                }
            }
            answer => sort(answer),
        };
        if small.trie.count > 1 && wanted.takes(sort) {
            remove(sheet, "removings", &file, &trie, &name, limit);
        }
    });
}

fn lists(sheet: &mut Sheet) {
    gather(13_000, "none 1, one 1, several 3, exact 2, 1 1, 2 1, 3 1, 4 1, 7 2", |chance, wanted| {
        let small = Small::new(chance);
        let (file, trie) = (small.some_file(chance), small.some_trie(chance));
        let (first, second) = (small.some_name(chance), small.some_name(chance));
        let entry = small.read().header.entry_length();
        let output = vec![0x20; entry * chance.below(7) + chance.below(3)];
        let mut after = output.clone();
        let answer = calls::list(&file, &trie, &first, &second, &mut after);
        let sort = match answer {
            Answer::Listed(many) if many > 0 && output.len() as u64 == entry as u64 * many => "exact",
            _ => sort(answer),
        };
        if small.trie.count > 1 && wanted.takes(sort) {
            let asked = format!("{} {} {}", bytes(&first), bytes(&second), bytes(&output));
            let words = [sheet.file(&file), sheet.trie(&trie), asked, said(answer), bytes(&after)];
            sheet.case("listings", "lists", &words);
        }
    });
}

/// R14.7 to R14.9: rate1, rate2, rate3, razz and rz with b = 2, and the last put stopped after one store.
fn worked_puts(sheet: &mut Sheet) {
    let (mut file, mut trie) = new_file(1, 2, 4);
    for (name, value) in [("rate1", 1), ("rate2", 2), ("rate3", 3), ("razz", 4)] {
        (file, trie) = put(sheet, "worked", &file, &trie, Put(name.as_bytes(), Content::new(value, 0), 2));
    }
    look_up(sheet, "worked", &file, &trie, b"rb");
    put(sheet, "worked", &file, &trie, Put(b"rz", Content::new(5, 0), 2));
    let (cut, _) = put(sheet, "worked", &file, &trie, Put(b"rz", Content::new(5, 0), 1));
    let recovered = recover(sheet, "worked", &cut, 1);
    let trie = rebuild(sheet, "worked", &recovered);
    look_up(sheet, "worked", &recovered, &trie, b"rz");
}

/// The nine words with b = 4, and removals that merge: is to the right, then a to the right again, then the to the left, each
/// also stopped after its first store.
fn merges(sheet: &mut Sheet) {
    let (mut file, mut trie) = new_file(1, 4, 4);
    for (place, word) in NINE.iter().enumerate() {
        let content = Content::new(place as u64 + 1, 0);
        assert_eq!(calls::put(&mut file, &mut trie, word.as_bytes(), content, 2), Answer::Added);
    }
    for (merging, others) in [("is", &["in", "of"]), ("a", &["and", "that"]), ("the", &["i", "to"])] {
        let (stopped, _) = remove(sheet, "worked", &file, &trie, merging.as_bytes(), 1);
        let (after, merged) = remove(sheet, "worked", &file, &trie, merging.as_bytes(), 2);
        assert!(recover(sheet, "worked", &stopped, 1) == after);
        (file, trie) = (after, merged);
        for word in others {
            assert_eq!(calls::remove(&mut file, &mut trie, word.as_bytes(), 1), Answer::Removed);
        }
    }
}

/// What version 2 splits otherwise: the last of the nine words, and b = 2 with names that are beginnings of each other. Then a
/// tie, and names of which the key before the middle one would win against its neighbour. Each also with version 1 in the
/// header.
fn shorter_separators(sheet: &mut Sheet) {
    let sets: [(usize, &[&str]); 4] = [
        (4, &["and", "is", "i", "in", "a"]),
        (2, &["abc", "a", "ab"]),
        (2, &["r2", "r3", "r1"]),
        (4, &["a", "cb", "b", "d", "ca"]),
    ];
    for (b, names) in sets {
        let (mut file, mut trie) = new_file(2, b, 2);
        let (last, before) = names.split_last().expect("there are names");
        for name in before {
            assert_eq!(calls::put(&mut file, &mut trie, name.as_bytes(), Content::new(1, 0), 2), Answer::Added);
        }
        for version in [2, 1] {
            file[3] = version;
            put(sheet, "worked", &file, &trie, Put(last.as_bytes(), Content::new(2, 0), 2));
        }
    }
}

/// The nine words of R14.11 and the 31 words of R14.12: put one after the other, each with its place from 1 on as
/// value.
fn worked_words(sheet: &mut Sheet) {
    for (slots, words) in [(8, &NINE[..]), (16, &WORDS[..])] {
        let lent = sheet.file(&vec![0; Header::new(1, 4, slots).file_length()]);
        let (mut file, mut trie) = new_file(1, 4, slots);
        for (place, word) in words.iter().enumerate() {
            let content = Content::new(place as u64 + 1, 0);
            let answer = calls::put(&mut file, &mut trie, word.as_bytes(), content, 2);
            assert_eq!(answer, Answer::Added);
        }
        let words: Vec<String> = words.iter().map(|word| bytes(word.as_bytes())).collect();
        let (file_after, trie_after) = (sheet.file(&file), sheet.trie(&trie));
        let given = [lent, format!("4 {slots}"), list(&words), file_after.clone(), trie_after.clone()];
        sheet.case("words", "grows", &given);
        sheet.case("words", "agrees", &[file_after, trie_after, truth(true)]);
        arrangement(sheet, "words", &file);
        rebuild(sheet, "words", &file);
    }
}

/// 256 strings are not too many, 257 are.
fn most_strings(sheet: &mut Sheet) {
    let mut chance = Chance::new(14_000);
    let most = file_with_strings(&mut chance, Header::new(1, 2, 13), 12, CELLS);
    let trie = rebuild(sheet, "fullest", &most);
    let too_many = file_with_strings(&mut chance, Header::new(1, 2, 12), 12, CELLS + 1);
    rebuild(sheet, "fullest", &too_many);
    let refused = |name: &Vec<u8>| {
        let answer = calls::put(&mut most.clone(), &mut trie.clone(), name, Content::new(1, 0), 2);
        answer == Answer::Refused(calls::TOO_MANY_STRINGS)
    };
    let name = names_near(&mut chance, &most).into_iter().find(refused).expect("a name that splits a bucket");
    put(sheet, "fullest", &most, &trie, Put(&name, Content::new(1, 0), 2));
}
