//! The situations of section 14 of the rules, to be shown of the model and of the library.

use crate::door::{read_image, Call, Outcome, IMAGE, OUT_AT_ENTRY};
use crate::make::file_bytes;
use crate::model::calls::{self, entries_between, Answer, Content};
use crate::model::file::{slot_bytes, Bucket, Entry, File, Header, Slot, VERSIONS};
use crate::model::names::{filled, unfilled, Bound};
use crate::model::trie::{row, strings, walk, Side};

/// Who answers: the model or the library.
pub type Door<'a> = &'a mut dyn FnMut(&Call) -> Outcome;

/// The run of each put that says no other.
const RUN: u64 = 99;

/// A file and its trie on a desk, and who answers for them.
struct Desk<'a> {
    file: Vec<u8>,
    trie: Vec<u8>,
    door: Door<'a>,
}

impl<'a> Desk<'a> {
    fn new(b: usize, slots: usize, door: Door<'a>) -> Desk<'a> {
        Desk::of_version(1, b, slots, door)
    }

    fn of_version(version: u64, b: usize, slots: usize, door: Door<'a>) -> Desk<'a> {
        let file = vec![0x77; Header::new(version, b, slots).file_length()];
        let call = Call::Create { file, version, b: b as u64, slots: slots as u64, trie: vec![0x77; IMAGE] };
        let made = door(&call);
        assert_eq!(made.answer, 150);
        assert!(made.trie == [0; IMAGE], "count 0 and first leaf 0");
        Desk { file: made.file, trie: made.trie, door }
    }

    /// Puts a name with its place from 1 on as value, for each of the names. All are added.
    fn add(&mut self, names: &[&str]) {
        for (place, name) in names.iter().enumerate() {
            assert_eq!(self.put(name, place as u64 + 1, 2), 110, "{name}");
        }
    }

    fn put(&mut self, name: &str, value: u64, limit: u64) -> u64 {
        self.put_all(name.as_bytes(), value, limit).0
    }

    fn put_all(&mut self, name: &[u8], value: u64, limit: u64) -> (u64, [u64; 4]) {
        self.put_run(name, value, RUN, limit)
    }

    fn put_run(&mut self, name: &[u8], value: u64, run: u64, limit: u64) -> (u64, [u64; 4]) {
        let (file, trie, name) = (self.file.clone(), self.trie.clone(), name.to_vec());
        let outcome = (self.door)(&Call::Put { file, trie, name, value, run, limit });
        self.file = outcome.file;
        self.trie = outcome.trie;
        (outcome.answer, outcome.out)
    }

    /// The run of what is put without one being said: versions without runs give 0.
    fn run(&self) -> u64 {
        if self.header().has_runs() {
            RUN
        } else {
            0
        }
    }

    fn header(&self) -> Header {
        self.read().header
    }

    /// What look up says of a name that is held with this value.
    fn found(&self, value: u64) -> (u64, [u64; 4]) {
        (100, words(&[value, self.run()]))
    }

    fn remove(&mut self, name: &str, limit: u64) -> (u64, [u64; 4]) {
        let (file, trie, name) = (self.file.clone(), self.trie.clone(), name.as_bytes().to_vec());
        let outcome = (self.door)(&Call::Remove { file, trie, name, limit });
        self.file = outcome.file;
        self.trie = outcome.trie;
        (outcome.answer, outcome.out)
    }

    fn look_up(&mut self, name: &[u8]) -> (u64, [u64; 4]) {
        let (file, trie, name) = (self.file.clone(), self.trie.clone(), name.to_vec());
        let outcome = (self.door)(&Call::Lookup { file, trie, name });
        (outcome.answer, outcome.out)
    }

    fn list(&mut self, first: &str, second: &str, length: usize) -> Outcome {
        let (file, trie) = (self.file.clone(), self.trie.clone());
        let (first, second) = (first.as_bytes().to_vec(), second.as_bytes().to_vec());
        (self.door)(&Call::List { file, trie, first, second, output: vec![0x55; length] })
    }

    fn check(&mut self) -> u64 {
        (self.door)(&Call::Check { file: self.file.clone() }).answer
    }

    fn recover(&mut self, limit: u64) -> (u64, [u64; 4]) {
        let outcome = (self.door)(&Call::Recover { file: self.file.clone(), limit });
        self.file = outcome.file;
        (outcome.answer, outcome.out)
    }

    fn rebuild(&mut self) -> u64 {
        let outcome = (self.door)(&Call::Rebuild { file: self.file.clone(), trie: vec![0x55; IMAGE] });
        self.trie = outcome.trie;
        outcome.answer
    }

    fn read(&self) -> File {
        File::read(&self.file).expect("the header is right")
    }

    /// The slots in range order, each with its lower, upper and names.
    fn buckets(&self) -> Vec<(usize, String, String, Vec<String>)> {
        let text = |bytes: &[u8]| String::from_utf8(bytes.to_vec()).unwrap();
        let file = self.read();
        let order = file.range_order().expect("the file is sound");
        let told = order.iter().map(|slot| {
            let bucket = file.bucket(*slot);
            let names = bucket.entries.iter().map(|entry| text(unfilled(&entry.name))).collect();
            (*slot, text(&bucket.lower.0), text(&bucket.upper.0), names)
        });
        told.collect()
    }

    /// The slot to which the trie leads a name.
    fn leads_to(&self, name: &str) -> usize {
        walk(&read_image(&self.trie), &filled(name.as_bytes()), 64).expect("the walk ends").slot
    }

    /// The cells: digit, number, left, right. A slot counts from 0 up, a cell below 0.
    fn cells(&self) -> Vec<(char, usize, i32, i32)> {
        let trie = read_image(&self.trie);
        let side = |side: Side| match side {
            Side::Slot(slot) => slot as i32,
            Side::Cell(cell) => -(cell as i32),
        };
        let cells = trie.cells[..trie.count].iter();
        cells.map(|cell| (cell.digit as char, cell.number, side(cell.left), side(cell.right))).collect()
    }
}

/// `out` with these first words, the others as at entry.
fn words(first: &[u64]) -> [u64; 4] {
    let mut words = OUT_AT_ENTRY;
    words[..first.len()].copy_from_slice(first);
    words
}

/// The program's table, read from a file.
pub fn table(file: &[u8]) -> String {
    let file = File::read(file).expect("the header is right");
    let limit = |bound: &Bound| match bound.is_empty() {
        true => "-".to_string(),
        false => format!("[{}]", String::from_utf8_lossy(&bound.0)),
    };
    let mut text = "slot lower upper entries\n".to_string();
    for slot in file.range_order().expect("the file is sound") {
        let bucket = file.bucket(slot);
        text += &format!("{slot} {} {}", limit(&bucket.lower), limit(&bucket.upper));
        for entry in &bucket.entries {
            text += &format!(" {}", String::from_utf8_lossy(unfilled(&entry.name)));
        }
        text += "\n";
    }
    text
}

/// Section 12: what the program prints for its input.
pub fn program(input: &[u8]) -> String {
    let mut file = vec![0; Header::new(1, 4, 8).file_length()];
    let (_, mut trie) = calls::create(&mut file, 1, 4, 8);
    // R12.1: the last line may end without a line feed.
    let lines = input.strip_suffix(b"\n").unwrap_or(input).split(|byte| *byte == b'\n');
    for (number, name) in (1..).zip(lines).filter(|_| !input.is_empty()) {
        if let Answer::Refused(refusal) = calls::put(&mut file, &mut trie, name, Content::new(number, 0), 2) {
            return format!("refused {refusal} {number}\n");
        }
    }
    table(&file)
}

fn strs(texts: &[&str]) -> Vec<String> {
    texts.iter().map(|text| text.to_string()).collect()
}

/// R14.1: 24 bytes are legal.
pub fn a_name_of_24_bytes_is_legal(door: Door) {
    for version in VERSIONS {
        let mut desk = Desk::of_version(version, 4, 8, &mut *door);
        assert_eq!(desk.put("abcdefghijklmnopqrstuvwx", 5, 2), 110);
        assert_eq!(desk.look_up(b"abcdefghijklmnopqrstuvwx"), desk.found(5));
    }
}

/// R14.1: 0 and 25 bytes are illegal.
pub fn names_of_0_and_25_bytes_are_refused(door: Door) {
    for version in VERSIONS {
        let mut desk = Desk::of_version(version, 4, 8, &mut *door);
        for name in [&b""[..], b"abcdefghijklmnopqrstuvwxy"] {
            assert_eq!(desk.put_all(name, 5, 2), (1, words(&[])));
            assert_eq!(desk.look_up(name), (1, words(&[])));
        }
    }
}

/// R14.2: 0x7D is legal, 0x7E is not.
pub fn digit_7d_is_legal_and_7e_is_refused(door: Door) {
    for version in VERSIONS {
        let mut desk = Desk::of_version(version, 4, 8, &mut *door);
        assert_eq!(desk.put("}", 5, 2), 110);
        assert_eq!(desk.look_up(b"}"), desk.found(5));
        for name in ["~", "a~", "~a", "a~a"] {
            assert_eq!(desk.put(name, 5, 2), 1);
            assert_eq!(desk.look_up(name.as_bytes()), (1, words(&[])));
        }
    }
}

/// R14.2: 0x20 is legal inside a name, so "a b" is legal; a leading or a trailing blank is refused.
pub fn a_blank_is_legal_inside_a_name_alone(door: Door) {
    for version in VERSIONS {
        let mut desk = Desk::of_version(version, 4, 8, &mut *door);
        for (place, name) in ["a b", "a  b", "GDP real", "a                      b"].iter().enumerate() {
            assert_eq!(desk.put(name, place as u64, 2), 110);
            assert_eq!(desk.look_up(name.as_bytes()), desk.found(place as u64));
        }
        let file = desk.file.clone();
        for name in [" ", "a ", " a", "a b ", " a b", "  a", "a  ", "                        "] {
            assert_eq!(desk.put_all(name.as_bytes(), 5, 2), (1, words(&[])));
            assert_eq!(desk.look_up(name.as_bytes()), (1, words(&[])));
            assert_eq!(desk.remove(name, 2), (1, words(&[])));
            assert_eq!(desk.list(name, "z", 320).answer, 1);
            assert_eq!(desk.list("a", name, 320).answer, 1);
        }
        assert!(desk.file == file);
        // "a" is the beginning of all but one, and absent.
        assert_eq!(desk.look_up(b"a"), (101, words(&[])));
        let entry = desk.header().entry_length();
        let listed = desk.list("a  b", "a b", 2 * entry);
        assert_eq!((listed.answer, listed.out), (152, words(&[2])));
        assert_eq!(
            (&listed.output[..24], &listed.output[entry..entry + 24]),
            (&filled(b"a  b")[..], &filled(b"a b")[..])
        );
        // A slot whose first name begins with a blank is not well formed, and one whose first name is blank is not.
        for changed in [&b" b"[..], b" "] {
            desk.file = file.clone();
            desk.file[80..80 + 24].copy_from_slice(&filled(changed));
            assert_eq!(desk.check(), 142);
            assert_eq!(desk.look_up(b"a b").0, 2);
        }
    }
}

/// R14.3: "i" is within "i "; "in" is not, but is within "i".
pub fn i_is_within_i_blank_and_in_is_within_i(door: Door) {
    let bucket = |lower: &str, upper: &str| {
        let bound = |digits: &str| Bound(digits.as_bytes().to_vec());
        Slot::Used(Bucket { lower: bound(lower), upper: bound(upper), entries: vec![] })
    };
    let file = file_bytes(1, 4, &[bucket("", "i "), bucket("i ", "i"), bucket("i", "")]);
    let mut desk = Desk { file, trie: vec![], door };
    assert_eq!(desk.rebuild(), 151);
    desk.add(&["i", "in", "j"]);
    let expected = [(0, "", "i ", "i"), (1, "i ", "i", "in"), (2, "i", "", "j")];
    let expected: Vec<_> =
        expected.iter().map(|(slot, l, u, name)| (*slot, l.to_string(), u.to_string(), strs(&[name]))).collect();
    assert_eq!(desk.buckets(), expected);
}

/// Ranges whose bounds end in blanks: "a  " parts "a" and "a  b" from "a b", and "a " parts "a b" from "a!".
pub fn ranges_that_end_in_blanks(door: Door) {
    let bucket = |lower: &str, upper: &str| {
        let bound = |digits: &str| Bound(digits.as_bytes().to_vec());
        Slot::Used(Bucket { lower: bound(lower), upper: bound(upper), entries: vec![] })
    };
    let bounds = ["", "a  ", "a ", "a", ""];
    let slots: Vec<Slot> = bounds.windows(2).map(|pair| bucket(pair[0], pair[1])).collect();
    let mut desk = Desk { file: file_bytes(1, 4, &slots), trie: vec![], door };
    assert_eq!(desk.rebuild(), 151);
    // By length: "a" first, then "a " left of it, then "a  " left of that.
    assert_eq!(desk.cells(), vec![('a', 0, -1, 3), (' ', 1, -2, 2), (' ', 2, 0, 1)]);
    desk.add(&["a  b", "a b", "a!", "a", "b", "a  !", "a } b", "ab"]);
    let names = [&["a", "a  !", "a  b"][..], &["a b", "a } b"], &["a!", "ab"], &["b"]];
    let expected: Vec<_> =
        (0..4).map(|slot| (slot, bounds[slot].to_string(), bounds[slot + 1].to_string(), strs(names[slot]))).collect();
    assert_eq!(desk.buckets(), expected);
}

/// b = 2: split strings of names with blanks. The key "a  b" parts from "a b" at the third digit, which is a blank.
pub fn split_strings_that_end_in_blanks(door: Door) {
    let cases: [([&str; 3], &str, usize); 5] = [
        (["a", "a  b", "a b"], "a  ", 2),
        (["Z", "a", "a b"], "a  ", 2),
        (["a", "a b", "a c"], "a b", 2),
        (["a b", "a!", "ab"], "a!", 2),
        (["GDP", "GDP nominal", "GDP real"], "GDP n", 2),
    ];
    for (names, string, stay) in cases {
        for turn in 0..3 {
            let mut put = names;
            put.rotate_left(turn);
            let mut desk = Desk::new(2, 4, &mut *door);
            desk.add(&put);
            let expected = vec![
                (0, String::new(), string.to_string(), strs(&names[..stay])),
                (1, string.to_string(), String::new(), strs(&names[stay..])),
            ];
            assert_eq!(desk.buckets(), expected);
        }
    }
}

/// R14.4 to R14.6: a and of the to splits at "o", a and in is of at "i", a and i in is at "i ".
pub fn split_strings(door: Door) {
    let cases: [([&str; 5], &str); 3] = [
        (["a", "and", "of", "the", "to"], "o"),
        (["a", "and", "in", "is", "of"], "i"),
        (["a", "and", "i", "in", "is"], "i "),
    ];
    for (names, string) in cases {
        for turn in 0..5 {
            let mut names = names;
            names.rotate_left(turn);
            let mut desk = Desk::new(4, 8, &mut *door);
            desk.add(&names);
            let buckets = desk.buckets();
            assert_eq!(buckets.len(), 2);
            assert_eq!((buckets[0].0, &buckets[0].2[..], buckets[1].0), (0, string, 1));
        }
    }
}

/// R14.7: rate1 rate2 rate3 splits at "rate2" and gives five cells; the absent name rb walks to slot 1.
pub fn rate_gives_five_cells(door: Door) {
    for version in VERSIONS {
        let mut desk = Desk::of_version(version, 2, 4, &mut *door);
        desk.add(&["rate1", "rate2", "rate3"]);
        let expected = vec![
            (0, String::new(), "rate2".to_string(), strs(&["rate1", "rate2"])),
            (1, "rate2".to_string(), String::new(), strs(&["rate3"])),
        ];
        assert_eq!(desk.buckets(), expected);
        let cells = vec![('r', 0, -1, 1), ('a', 1, -2, 1), ('t', 2, -3, 1), ('e', 3, -4, 1), ('2', 4, 0, 1)];
        assert_eq!(desk.cells(), cells);
        assert_eq!(desk.look_up(b"rb"), (101, words(&[])));
        assert_eq!(desk.leads_to("rb"), 1);
        // Rebuilding takes the beginnings too, and gives the same trie here.
        assert_eq!(desk.rebuild(), 151);
        assert_eq!(desk.cells(), cells);
    }
}

/// R14.8: razz and rz split slot 1 at "ra", which is a string already: no cell is added.
pub fn razz_and_rz_add_no_cell(door: Door) {
    for version in VERSIONS {
        let mut desk = Desk::of_version(version, 2, 4, &mut *door);
        desk.add(&["rate1", "rate2", "rate3", "razz", "rz"]);
        let expected = vec![
            (0, String::new(), "rate2".to_string(), strs(&["rate1", "rate2"])),
            (1, "rate2".to_string(), "ra".to_string(), strs(&["rate3", "razz"])),
            (2, "ra".to_string(), String::new(), strs(&["rz"])),
        ];
        assert_eq!(desk.buckets(), expected);
        // Both leaves above "ra" lead to the new slot, not only the one reached.
        let cells = vec![('r', 0, -1, 2), ('a', 1, -2, 2), ('t', 2, -3, 1), ('e', 3, -4, 1), ('2', 4, 0, 1)];
        assert_eq!(desk.cells(), cells);
        for (name, slot) in [("rate2", 0), ("rate3", 1), ("rau", 1), ("rb", 2), ("s", 2), ("}", 2), ("!", 0)] {
            assert_eq!(desk.leads_to(name), slot, "{name}");
        }
        for (place, name) in ["rate1", "rate2", "rate3", "razz", "rz"].iter().enumerate() {
            assert_eq!(desk.look_up(name.as_bytes()), desk.found(place as u64 + 1));
        }
    }
}

/// R14.9: the last put stopped after one store, and recovered: rz is absent.
pub fn the_last_put_stopped_after_one_store(door: Door) {
    for version in VERSIONS {
        let mut desk = Desk::of_version(version, 2, 4, &mut *door);
        desk.add(&["rate1", "rate2", "rate3", "razz"]);
        let before = desk.file.clone();
        let trie = desk.trie.clone();
        assert_eq!(desk.put_all(b"rz", 5, 0), (112, words(&[0])));
        assert!(desk.file == before && desk.trie == trie);
        assert_eq!(desk.put_all(b"rz", 5, 1), (112, words(&[1])));
        assert!(desk.trie == trie, "the trie is unchanged");
        let stopped = desk.read();
        assert!(stopped.bucket(1).upper.is_empty());
        assert_eq!(stopped.bucket(1).entries.len(), 2, "rate3 and razz are still there");
        assert_eq!(stopped.bucket(2).entries, [Entry { name: filled(b"rz"), value: 5, run: desk.run() }]);
        assert_eq!(stopped.bucket(2).lower, Bound(b"ra".to_vec()));
        assert_eq!(desk.check(), 141);
        // Nobody but recover takes a cut file.
        assert_eq!(desk.put("zz", 6, 2), 3);
        assert_eq!(desk.remove("razz", 2).0, 3);
        assert_eq!(desk.list("a", "z", 320).answer, 3);
        assert_eq!(desk.rebuild(), 3);
        assert!(desk.trie == [0; IMAGE], "a refused rebuild gives the trie with count 0 and first leaf 0");
        assert_eq!(desk.recover(0), (112, words(&[0])));
        assert_eq!(desk.check(), 141);
        assert_eq!(desk.recover(1), (130, words(&[2])));
        assert!(desk.file == before, "recovery keeps the outer bucket");
        assert_eq!(desk.check(), 140);
        assert_eq!(desk.recover(0), (131, words(&[])));
        assert_eq!(desk.rebuild(), 151);
        assert_eq!(desk.look_up(b"rz"), (101, words(&[])));
        assert_eq!(desk.look_up(b"razz"), desk.found(4));
    }
}

/// The nine words of the program, as it puts them.
pub const NINE: [&str; 9] = ["the", "of", "and", "to", "a", "in", "that", "is", "i"];

/// R14.11: what the program prints for the nine words.
pub fn the_nine_words_and_the_table(door: Door) {
    let mut desk = Desk::new(4, 8, door);
    desk.add(&NINE);
    let expected = "slot lower upper entries\n0 - [i ] a and i\n3 [i ] [i] in is\n2 [i] [o] of\n1 [o] - that the to\n";
    assert_eq!(table(&desk.file), expected);
    let mut sorted = NINE;
    sorted.sort();
    let listed = desk.list("!", "}", 9 * 32 + 5);
    assert_eq!((listed.answer, listed.out), (152, words(&[9])));
    for (entry, name) in listed.output.chunks(32).zip(sorted) {
        let value = NINE.iter().position(|nine| *nine == name).unwrap() as u64 + 1;
        assert_eq!(entry[..24], filled(name.as_bytes()));
        assert_eq!(entry[24..], value.to_le_bytes());
    }
    assert_eq!(listed.output[288..], [0x55; 5], "nothing behind them");
}

/// R14.10: the nine words, rebuilt, have three cells.
pub fn the_nine_words_rebuilt(door: Door) {
    let mut desk = Desk::new(4, 8, door);
    desk.add(&NINE);
    assert_eq!(desk.rebuild(), 151);
    assert_eq!(desk.cells(), vec![('i', 0, -1, -2), (' ', 1, 0, 3), ('o', 0, 2, 1)]);
    assert_eq!(read_image(&desk.trie).first_leaf, 0);
}

/// R14.12: the 31 words, in the order in which they are put.
pub const WORDS: [&str; 31] = [
    "the", "of", "and", "to", "a", "in", "that", "is", "i", "it", "for", "as", "with", "was", "his", "he", "be", "not",
    "by", "but", "have", "you", "which", "are", "on", "or", "her", "had", "at", "from", "this",
];

/// R14.12: the range order of the eleven buckets. The strings that begin no other one are ar, b, f, he, "i ", o, t.
pub fn the_31_words(door: Door) {
    let mut desk = Desk::new(4, 16, door);
    desk.add(&WORDS);
    let order = vec![0, 9, 4, 10, 7, 8, 6, 3, 2, 1, 5];
    assert_eq!(desk.read().range_order(), Some(order.clone()));
    let all = strings(&desk.read());
    let begins_no_other = |string: &&Bound| !all.iter().any(|other| other != *string && other.0.starts_with(&string.0));
    let longest: Vec<String> =
        all.iter().filter(begins_no_other).map(|string| String::from_utf8_lossy(&string.0).to_string()).collect();
    assert_eq!(longest, ["ar", "b", "f", "he", "i ", "o", "t"]);
    for _ in 0..2 {
        // The grown trie first, then the rebuilt one.
        let row = row(&read_image(&desk.trie)).unwrap();
        assert_eq!(row.leaves.iter().map(|leaf| leaf.slot).collect::<Vec<_>>(), order);
        assert_eq!(row.strings, all.iter().cloned().collect::<Vec<_>>());
        // Where three names arrive, and with which path.
        for (name, slot, path) in [("s", 1, "t"), ("he", 7, "he"), ("gun", 7, "he")] {
            let leaf = walk(&read_image(&desk.trie), &filled(name.as_bytes()), 16).unwrap();
            assert_eq!((leaf.slot, leaf.path), (slot, Bound(path.as_bytes().to_vec())));
        }
        for (place, word) in WORDS.iter().enumerate() {
            assert_eq!(desk.look_up(word.as_bytes()), (100, words(&[place as u64 + 1, 0])));
        }
        assert_eq!(desk.rebuild(), 151);
    }
    let read = desk.read();
    assert_eq!(entries_between(&read, &filled(b"!"), &filled(b"}")).len(), 31);
}

/// Version 2, R7.3: the string that is the shortest of those at positions m, m - 1 and m + 1 against the last name, and of
/// equally short ones that of m before that of m - 1. What version 1 splits at stands beside it.
pub fn shorter_separators(door: Door) {
    // b, the names, the string of version 1 and how many stay, the same of version 2.
    type Case<'a> = (usize, &'a [&'a str], (&'a str, usize), (&'a str, usize));
    let cases: [Case; 9] = [
        // "of" and "and" give one digit each: a tie.
        (4, &["a", "and", "of", "the", "to"], ("o", 3), ("o", 3)),
        (4, &["a", "and", "in", "is", "of"], ("i", 4), ("i", 4)),
        // "i" gives "i ", "and" gives "a".
        (4, &["a", "and", "i", "in", "is"], ("i ", 3), ("a", 2)),
        // b = 2 has the positions 2 and 1: "ab" gives "ab ", "a" gives "a ".
        (2, &["a", "ab", "abc"], ("ab ", 2), ("a ", 1)),
        (2, &["rate1", "rate2", "rate3"], ("rate2", 2), ("rate2", 2)),
        (2, &["q", "rate2", "rate3"], ("rate2", 2), ("q", 1)),
        // b = 3 has the positions 2, 1 and 3.
        (3, &["a", "b1", "b2", "b3"], ("b1", 2), ("a", 1)),
        (3, &["b0", "b1", "b2", "b3"], ("b1", 2), ("b1", 2)),
        // The key before the middle one, not the first: "b" is at position 3, m is 4.
        (6, &["a", "aa", "b", "c1", "c2", "c3", "c4"], ("c1", 4), ("b", 3)),
    ];
    for (b, names, one, two) in cases {
        for (version, (string, stay)) in [(1, one), (2, two)] {
            for turn in 0..names.len() {
                let mut put = names.to_vec();
                put.rotate_left(turn);
                let mut desk = Desk::of_version(version, b, 2, &mut *door);
                desk.add(&put);
                let expected = vec![
                    (0, String::new(), string.to_string(), strs(&names[..stay])),
                    (1, string.to_string(), String::new(), strs(&names[stay..])),
                ];
                assert_eq!(desk.buckets(), expected, "version {version}");
            }
        }
    }
}

/// The nine words in a file of version 2: the last put splits at "a", where version 1 does at "i ".
pub fn the_nine_words_in_version_2(door: Door) {
    let mut desk = Desk::of_version(2, 4, 8, door);
    desk.add(&NINE);
    let expected = "slot lower upper entries\n0 - [a] a and\n3 [a] [i] i in is\n2 [i] [o] of\n1 [o] - that the to\n";
    assert_eq!(table(&desk.file), expected);
    // Grown: o first, i left of it, a left of that, which was led to by the split key "and".
    assert_eq!(desk.cells(), vec![('o', 0, -1, 1), ('i', 0, -2, 2), ('a', 0, 0, 3)]);
    assert_eq!(desk.rebuild(), 151);
    assert_eq!(desk.cells(), vec![('i', 0, -1, -2), ('a', 0, 0, 3), ('o', 0, 2, 1)]);
    for (place, word) in NINE.iter().enumerate() {
        assert_eq!(desk.look_up(word.as_bytes()), (100, words(&[place as u64 + 1, 0])));
    }
}

/// The splits of one version are as good as another's: with the other version in the header the file is sound, its trie
/// agrees, and what is split from then on is split by that version.
pub fn a_file_with_splits_of_another_version(door: Door) {
    // that the to tonic top: "to" gives "to ", the key before it gives "th".
    let by_one = [(1, "o", "to ", &["that", "the", "to"][..]), (4, "to ", "", &["tonic", "top"])];
    let by_two = [(1, "o", "th", &["that", "the"][..]), (4, "th", "", &["to", "tonic", "top"])];
    for (from, to, last_two) in [(1, 2, by_two), (2, 1, by_one)] {
        let mut desk = Desk::of_version(from, 4, 8, &mut *door);
        desk.add(&NINE);
        desk.file[3] = to;
        assert_eq!(desk.check(), 140);
        assert_eq!(desk.recover(1), (131, words(&[])));
        for (place, word) in NINE.iter().enumerate() {
            assert_eq!(desk.look_up(word.as_bytes()), (100, words(&[place as u64 + 1, 0])));
        }
        desk.add(&["tonic", "top"]);
        assert_eq!(desk.file[3], to);
        let expected: Vec<_> =
            last_two.iter().map(|(slot, l, u, names)| (*slot, l.to_string(), u.to_string(), strs(names))).collect();
        assert_eq!(desk.buckets()[3..], expected);
        assert_eq!(desk.rebuild(), 151);
        assert_eq!(desk.look_up(b"tonic"), (100, words(&[1, 0])));
    }
}

/// Version 3: a held name with a higher run is refused with 12, an equal or a lower one replaced; removal forgets the run.
pub fn an_older_run_is_refused(door: Door) {
    let mut desk = Desk::of_version(3, 4, 8, door);
    assert_eq!(desk.put_run(b"GDP", 70, 5, 2), (110, words(&[])));
    assert_eq!(desk.look_up(b"GDP"), (100, words(&[70, 5])));
    let (file, trie) = (desk.file.clone(), desk.trie.clone());
    for limit in [2, 1, 0] {
        // A refusal comes before a stop.
        assert_eq!(desk.put_run(b"GDP", 71, 4, limit), (12, words(&[])));
        assert_eq!(desk.put_run(b"GDP", 70, 0, limit), (12, words(&[])));
    }
    assert_eq!(desk.put_run(b"GDP", 71, 4, 3), (8, words(&[])));
    assert_eq!(desk.put_run(b"GDP", 72, 5, 0), (112, words(&[0])));
    assert!(desk.file == file && desk.trie == trie);
    assert_eq!(desk.put_run(b"GDP", 72, 5, 1), (111, words(&[70, 5])));
    assert_eq!(desk.put_run(b"GDP", 73, 6, 2), (111, words(&[72, 5])));
    assert_eq!(desk.look_up(b"GDP"), (100, words(&[73, 6])));
    assert_eq!(desk.put_run(b"GDP", 74, u64::MAX, 2), (111, words(&[73, 6])));
    assert_eq!(desk.put_run(b"GDP", 75, u64::MAX - 1, 2), (12, words(&[])));
    assert_eq!(desk.put_run(b"GDP", 75, u64::MAX, 2), (111, words(&[74, u64::MAX])));
    assert_eq!(desk.put_run(b"GDP", 76, 0, 2), (12, words(&[])));
    assert_eq!(desk.look_up(b"GDP"), (100, words(&[75, u64::MAX])));
    // Another name has a run of its own.
    assert_eq!(desk.put_run(b"GDP real", 1, 0, 2), (110, words(&[])));
    assert_eq!(desk.remove("GDP", 2), (120, words(&[])));
    assert_eq!(desk.put_run(b"GDP", 77, 0, 2), (110, words(&[])));
    assert_eq!(desk.look_up(b"GDP"), (100, words(&[77, 0])));
    assert_eq!(desk.put_run(b"GDP", 78, 0, 2), (111, words(&[77, 0])));
}

/// 12 stands behind 8, 1, 2, 3 and 4. It never meets 5 and 6, since a name that is held splits nothing.
pub fn where_12_stands(door: Door) {
    let mut desk = Desk::of_version(3, 2, 2, door);
    desk.add(&["a", "c"]);
    let (file, trie) = (desk.file.clone(), desk.trie.clone());
    let older = RUN - 1;
    assert_eq!(desk.put_run(b"a", 5, older, 2), (12, words(&[])));
    assert_eq!(desk.put_run(b"a", 5, older, 3), (8, words(&[])));
    desk.trie[2] = 1;
    assert_eq!(desk.put_run(b"a", 5, older, 2), (4, words(&[255])));
    desk.trie = trie.clone();
    // Stopped after its first store, a put of b leaves the file cut.
    assert_eq!(desk.put_run(b"b", 5, older, 1), (112, words(&[1])));
    assert_eq!(desk.put_run(b"a", 5, older, 2), (3, words(&[])));
    desk.file[4] = 1;
    assert_eq!(desk.put_run(b"a", 5, older, 2), (2, words(&[])));
    // No slot is free, and a and b have the same bucket: only a new name is refused with 5.
    desk.file = file;
    assert_eq!(desk.put_run(b"b", 5, older, 2), (110, words(&[])));
    assert_eq!(desk.put_run(b"aa", 5, older, 2), (5, words(&[])));
    assert_eq!(desk.put_run(b"a", 5, older, 2), (12, words(&[])));
    assert_eq!(desk.put_run(b"b", 6, older, 2), (111, words(&[5, older])));
}

/// Versions 1 and 2 ignore the run given, and give 0.
pub fn versions_without_runs(door: Door) {
    for version in [1, 2] {
        let mut files = Vec::new();
        for runs in [[5, 4, 3], [0, 0, 0], [u64::MAX, 0, 7]] {
            let mut desk = Desk::of_version(version, 2, 4, &mut *door);
            assert_eq!(desk.put_run(b"a", 1, runs[0], 2), (110, words(&[])));
            assert_eq!(desk.look_up(b"a"), (100, words(&[1, 0])));
            assert_eq!(desk.put_run(b"a", 2, runs[1], 2), (111, words(&[1, 0])));
            assert_eq!(desk.put_run(b"a", 3, runs[2], 2), (111, words(&[2, 0])));
            desk.add(&["b", "c"]);
            files.push(desk.file);
        }
        assert!(files[0] == files[1] && files[0] == files[2]);
    }
}

/// Version 3 has entries of 40 bytes: the lengths of files, where the run stands, and lists.
pub fn entries_of_40_bytes(door: Door) {
    assert_eq!(Header::new(3, 2, 1).file_length(), 160);
    assert_eq!(Header::new(3, 16, 64).file_length(), 45_072);
    // The largest file, and lengths that are not its own: those of version 1, and one byte beside.
    for (length, answer) in [(45_072, 150), (36_880, 8), (45_071, 8), (45_073, 8)] {
        let file = vec![9; length];
        let made = door(&Call::Create { file, version: 3, b: 16, slots: 64, trie: vec![9; IMAGE] });
        assert_eq!(made.answer, answer);
        assert!(made.trie == [0; IMAGE]);
        assert_eq!(door(&Call::Check { file: made.file }).answer, if answer == 150 { 140 } else { 142 });
    }
    let made = door(&Call::Create { file: vec![9; 45_072], version: 2, b: 16, slots: 64, trie: vec![9; IMAGE] });
    assert_eq!(made.answer, 8);
    let mut desk = Desk::of_version(3, 2, 2, door);
    assert_eq!(desk.file.len(), 16 + 2 * 144);
    for (name, value, run) in [("b", 0x0102, 0x0304), ("a", 0x0506, 0x0708)] {
        assert_eq!(desk.put_run(name.as_bytes(), value, run, 2).0, 110);
    }
    let entry = |name: &str, value: u64, run: u64| {
        [&filled(name.as_bytes())[..], &value.to_le_bytes(), &run.to_le_bytes()].concat()
    };
    let entries = [entry("a", 0x0506, 0x0708), entry("b", 0x0102, 0x0304)].concat();
    assert!(desk.file[80..160] == entries);
    let listed = desk.list("a", "b", 83);
    assert_eq!((listed.answer, listed.out), (152, words(&[2])));
    assert!(listed.output[..80] == entries && listed.output[80..] == [0x55; 3]);
    for length in [79, 64, 0] {
        let short = desk.list("a", "b", length);
        assert_eq!((short.answer, short.out), (7, words(&[])));
        assert!(short.output.iter().all(|byte| *byte == 0x55));
    }
    assert_eq!(desk.list("b", "b", 40).out, words(&[1]));
    assert_eq!(desk.list("b", "a", 0).out, words(&[0]));
}

/// R4.13: what N copied is compared with value and run.
pub fn a_copied_entry_has_value_and_run(door: Door) {
    let mut desk = Desk::of_version(3, 2, 2, door);
    desk.add(&["a", "c"]);
    let before = desk.file.clone();
    // a b c splits at "b": c moves, so N is a copy of what A has in the range.
    assert_eq!(desk.put_all(b"b", 9, 1), (112, words(&[1])));
    let cut = desk.file.clone();
    assert_eq!(desk.check(), 141);
    // Slot 1 begins at 160, its entry at 224: the name, the value from 248 on, the run from 256 on.
    assert_eq!(desk.file[224..248], filled(b"c"));
    for place in 248..264 {
        desk.file = cut.clone();
        desk.file[place] ^= 0x10;
        assert_eq!(desk.check(), 142);
        assert_eq!(desk.recover(1).0, 2);
    }
    desk.file = cut;
    assert_eq!(desk.recover(1), (130, words(&[1])));
    assert!(desk.file == before);
    assert_eq!(desk.rebuild(), 151);
    assert_eq!(desk.look_up(b"c"), (100, words(&[2, RUN])));
}

/// Put on a held name, remove, and what stops them.
pub fn replace_remove_and_stops(door: Door) {
    for version in VERSIONS {
        let mut desk = Desk::of_version(version, 4, 8, &mut *door);
        desk.add(&NINE);
        let (file, trie) = (desk.file.clone(), desk.trie.clone());
        assert_eq!(desk.put_all(b"of", 77, 0), (112, words(&[0])));
        assert!(desk.file == file && desk.trie == trie);
        assert_eq!(desk.put_all(b"of", 77, 1), (111, words(&[2, desk.run()])));
        assert_eq!(desk.put_all(b"of", 0, 2), (111, words(&[77, desk.run()])));
        assert_eq!(desk.look_up(b"of"), desk.found(0));
        assert_eq!(desk.remove("to", 0), (112, words(&[0])));
        assert_eq!(desk.remove("to", 1), (120, words(&[])));
        assert_eq!(desk.look_up(b"to"), (101, words(&[])));
        // that, the and, beside them, of are one too many for b/2 = 2: nothing merges.
        assert_eq!(desk.buckets()[3], (1, "o".to_string(), String::new(), strs(&["that", "the"])));
        assert!(desk.trie == trie);
        // R7.11: an absent name needs no store.
        assert_eq!(desk.remove("to", 0), (101, words(&[])));
        assert_eq!(desk.check(), 140);
    }
}

/// A slot with these names; a name's value is its place from 1 on, its run that of the desk.
fn slot(lower: &str, upper: &str, names: &[&str]) -> Slot {
    let bound = |digits: &str| Bound(digits.as_bytes().to_vec());
    let entries = names.iter().zip(1..).map(|(name, value)| Entry { name: filled(name.as_bytes()), value, run: RUN });
    Slot::Used(Bucket { lower: bound(lower), upper: bound(upper), entries: entries.collect() })
}

/// Buckets as a desk tells them.
fn told(buckets: &[(usize, &str, &str, &[&str])]) -> Vec<(usize, String, String, Vec<String>)> {
    buckets.iter().map(|(slot, l, u, names)| (*slot, l.to_string(), u.to_string(), strs(names))).collect()
}

impl Desk<'_> {
    /// Removes a name whose bucket merges: stopped before its first store, stopped after it, and whole. `left` takes
    /// everything in, `right` is freed.
    fn merge(&mut self, name: &str, left: usize, right: usize) {
        let (file, trie) = (self.file.clone(), self.trie.clone());
        assert_eq!(self.remove(name, 0), (112, words(&[0])));
        assert!(self.file == file && self.trie == trie);
        // After the first store the right slot is as it was, and the left one has its final bytes.
        assert_eq!(self.remove(name, 1), (112, words(&[1])));
        assert!(self.trie == trie, "stopped, the trie stays as it is");
        let header = self.header();
        let stopped = self.file.clone();
        for number in (0..header.slots).filter(|number| *number != left) {
            assert!(slot_bytes(&stopped, &header, number) == slot_bytes(&file, &header, number));
        }
        assert_eq!(self.check(), 141);
        assert_eq!(self.put("zz", 6, 2), 3);
        assert_eq!(self.remove(name, 2).0, 3);
        assert_eq!(self.recover(0), (112, words(&[0])));
        assert_eq!(self.recover(1), (130, words(&[right as u64])));
        let recovered = self.file.clone();
        self.file = file;
        assert_eq!(self.remove(name, 2), (120, words(&[])));
        assert!(self.file == recovered, "recovery after a stop leaves the file of the whole call");
        assert!(slot_bytes(&self.file, &header, left) == slot_bytes(&stopped, &header, left));
        assert!(slot_bytes(&self.file, &header, right).iter().all(|byte| *byte == 0));
        assert_eq!(self.look_up(name.as_bytes()), (101, words(&[])));
        let merged = self.trie.clone();
        assert_eq!(self.rebuild(), 151);
        assert!(self.trie == merged, "the trie after a merge is the rebuilt one");
    }

    /// Removes a name whose bucket does not merge: one store, and the trie stays as it is.
    fn remove_alone(&mut self, name: &str) {
        let trie = self.trie.clone();
        let used = self.read().used().count();
        assert_eq!(self.remove(name, 0), (112, words(&[0])));
        assert_eq!(self.remove(name, 1), (120, words(&[])));
        assert!(self.trie == trie && self.read().used().count() == used);
    }
}

/// The nine words, removed one after the other: to the right, to the left, down to one bucket. b/2 is 2.
pub fn the_nine_words_removed(door: Door) {
    let mut desk = Desk::new(4, 8, door);
    desk.add(&NINE);
    // in, and of on its right.
    desk.merge("is", 3, 2);
    let expected =
        told(&[(0, "", "i ", &["a", "and", "i"]), (3, "i ", "o", &["in", "of"]), (1, "o", "", &["that", "the", "to"])]);
    assert_eq!(desk.buckets(), expected);
    assert_eq!(desk.cells(), vec![('i', 0, -1, -2), (' ', 1, 0, 3), ('o', 0, 3, 1)]);
    // Each neighbour has three.
    desk.remove_alone("in");
    desk.remove_alone("of");
    assert_eq!(desk.buckets()[1], (3, "i ".to_string(), "o".to_string(), vec![]));
    // and, i, and nothing on their right.
    desk.merge("a", 0, 3);
    assert_eq!(desk.buckets(), told(&[(0, "", "o", &["and", "i"]), (1, "o", "", &["that", "the", "to"])]));
    assert_eq!(desk.cells(), vec![('o', 0, 0, 1)]);
    desk.remove_alone("and");
    desk.remove_alone("that");
    // to, no neighbour on the right, i on the left. Stopped after one store, slot 1 still has the one more.
    desk.merge("the", 0, 1);
    assert_eq!(desk.buckets(), told(&[(0, "", "", &["i", "to"])]));
    assert!(desk.trie == [0; IMAGE]);
    desk.remove_alone("i");
    desk.remove_alone("to");
    assert_eq!(desk.buckets(), told(&[(0, "", "", &[])]));
    // The freed slots are taken again, the lowest first.
    desk.add(&NINE);
    assert_eq!(desk.buckets().len(), 4);
}

/// Where both neighbours have few enough, the right one is taken; in every version, for b = 4 and 5.
pub fn the_right_neighbour_is_tried_first(door: Door) {
    for version in VERSIONS {
        for b in [4, 5] {
            let slots = [slot("p", "", &["q"]), slot("", "g", &["a"]), slot("g", "p", &["h", "i"]), Slot::Free];
            let mut desk = Desk { file: file_bytes(version, b, &slots), trie: vec![], door: &mut *door };
            assert_eq!(desk.rebuild(), 151);
            desk.merge("i", 2, 0);
            assert_eq!(desk.buckets(), told(&[(1, "", "g", &["a"]), (2, "g", "", &["h", "q"])]));
            assert_eq!(desk.look_up(b"q"), desk.found(1));
            // One merge a removal: a and h q are three, then a and q two.
            desk.merge("h", 1, 2);
            assert_eq!(desk.buckets(), told(&[(1, "", "", &["a", "q"])]));
            // The one used slot is not slot 0, and the trie leads there.
            assert_eq!(&desk.trie[..4], &[0, 0, 1, 0]);
        }
    }
}

/// b = 2 and 3: b/2 is 1, so an emptied bucket joins a neighbour with at most one entry.
pub fn merges_of_the_smallest_buckets(door: Door) {
    for version in VERSIONS {
        for b in [2, 3] {
            let mut lay = |slots: &[Slot]| {
                let file = file_bytes(version, b, slots);
                let mut desk = Desk { file, trie: vec![], door: &mut *door };
                assert_eq!(desk.rebuild(), 151);
                (desk.file, desk.trie)
            };
            let to_the_right = lay(&[slot("", "g", &["a"]), slot("g", "p", &["h"]), slot("p", "", &["q"])]);
            let to_the_left = lay(&[slot("", "g", &["a"]), slot("g", "p", &["h"]), slot("p", "", &["q", "r"])]);
            let alone = lay(&[slot("", "g", &["a", "b"]), slot("g", "p", &["h"]), slot("p", "", &["q", "r"])]);
            let two = lay(&[slot("", "g", &["a"]), slot("g", "", &["h", "i"])]);
            let mut desk = Desk { file: to_the_right.0, trie: to_the_right.1, door: &mut *door };
            desk.merge("h", 1, 2);
            assert_eq!(desk.buckets(), told(&[(0, "", "g", &["a"]), (1, "g", "", &["q"])]));
            desk.merge("a", 0, 1);
            assert_eq!(desk.buckets(), told(&[(0, "", "", &["q"])]));
            desk.remove_alone("q");
            (desk.file, desk.trie) = to_the_left;
            // Slot 1 has h more than slot 0 has in its range.
            desk.merge("h", 0, 1);
            assert_eq!(desk.buckets(), told(&[(0, "", "p", &["a"]), (2, "p", "", &["q", "r"])]));
            // R7.10: an emptied bucket that does not merge keeps its range.
            (desk.file, desk.trie) = alone;
            desk.remove_alone("h");
            assert_eq!(desk.buckets()[1], (1, "g".to_string(), "p".to_string(), vec![]));
            // One entry and one are two: too many.
            (desk.file, desk.trie) = two;
            desk.remove_alone("i");
            desk.merge("h", 0, 1);
            assert_eq!(desk.buckets(), told(&[(0, "", "", &["a"])]));
        }
    }
}

/// Removing an absent name changes nothing, though its bucket and both neighbours are empty.
pub fn an_absent_name_merges_nothing(door: Door) {
    for version in VERSIONS {
        let slots = [slot("", "g", &[]), slot("g", "p", &[]), slot("p", "", &["q"])];
        let mut desk = Desk { file: file_bytes(version, 4, &slots), trie: vec![], door: &mut *door };
        assert_eq!(desk.rebuild(), 151);
        let (file, trie) = (desk.file.clone(), desk.trie.clone());
        for name in ["a", "h", "r"] {
            for limit in 0..=2 {
                assert_eq!(desk.remove(name, limit), (101, words(&[])));
            }
        }
        assert!(desk.file == file && desk.trie == trie);
        // A removal merges two, and not the third.
        desk.merge("q", 1, 2);
        assert_eq!(desk.buckets(), told(&[(0, "", "g", &[]), (1, "g", "", &[])]));
    }
}

/// A slot that a merge freed is taken by the next split, as the lowest free one.
pub fn a_split_into_a_freed_slot(door: Door) {
    let mut desk = Desk::new(4, 8, door);
    desk.add(&NINE);
    desk.merge("is", 3, 2);
    // that the to tx ty: "to" against "ty".
    desk.add(&["tx", "ty"]);
    let expected = told(&[(1, "o", "to", &["that", "the", "to"]), (2, "to", "", &["tx", "ty"])]);
    assert_eq!(desk.buckets()[2..], expected);
}

/// R4.8 to R4.13 without R4.11: A need not be full.
pub fn a_cut_file_whose_bucket_is_not_full(door: Door) {
    for version in VERSIONS {
        // What A and N hold, and whether the file is cut.
        let cases: [(&[&str], &[&str], bool); 8] = [
            (&["a", "c"], &["c"], true),
            (&["a"], &[], true),
            (&[], &[], true),
            (&["a"], &["c"], true),
            (&[], &["c"], true),
            (&["a"], &["c", "d"], false),
            (&["a", "c"], &[], false),
            (&["a", "c", "d"], &["c"], false),
        ];
        for (a, n, cut) in cases {
            // The same value for each name.
            let mut slots = [slot("", "", a), slot("b", "", n)];
            for used in &mut slots {
                let Slot::Used(bucket) = used else { panic!("it is used") };
                bucket.entries.iter_mut().for_each(|entry| entry.value = 7);
            }
            let mut desk = Desk { file: file_bytes(version, 4, &slots), trie: vec![0; IMAGE], door: &mut *door };
            assert_eq!(desk.check(), if cut { 141 } else { 142 }, "{a:?} {n:?}");
            let recovered = desk.recover(1);
            assert_eq!(recovered, if cut { (130, words(&[1])) } else { (2, words(&[])) });
            if cut {
                assert_eq!(desk.buckets(), told(&[(0, "", "", a)]));
            }
        }
    }
}

/// Vintages put and deleted whole, each with stops: after everything is deleted one bucket is used, and the trie has no cell.
pub fn vintages_deleted_whole(door: Door) {
    for version in VERSIONS {
        for b in [2, 3, 6] {
            let mut desk = Desk::of_version(version, b, 64, &mut *door);
            let series = ["GDP", "GDP real", "CPI", "CPI core", "M1"];
            let vintage =
                |year: usize| series.iter().map(move |name| format!("{name} {}", 1990 + year)).collect::<Vec<_>>();
            for year in 0..12 {
                for name in vintage(year) {
                    assert_eq!(desk.put(&name, year as u64, 2), 110);
                }
                // Three vintages are kept.
                for name in year.checked_sub(3).map_or(vec![], vintage) {
                    assert_eq!(desk.remove(&name, 2).0, 120);
                }
            }
            for name in (9..12).flat_map(vintage) {
                // Stopped after one store, a merge counts as made.
                match desk.remove(&name, 1) {
                    (120, _) => {}
                    stopped => {
                        assert_eq!(stopped, (112, words(&[1])));
                        assert_eq!(desk.recover(1).0, 130);
                        assert_eq!(desk.rebuild(), 151);
                    }
                }
                assert_eq!(desk.look_up(name.as_bytes()).0, 101);
            }
            assert_eq!(desk.read().used().count(), 1, "version {version}, b = {b}");
            assert_eq!(read_image(&desk.trie).count, 0);
        }
    }
}

/// Each refusal of the table by an example.
pub fn each_refusal_number(door: Door) {
    for version in VERSIONS {
        let mut desk = Desk::of_version(version, 2, 2, &mut *door);
        desk.add(&["a", "b", "c"]);
        let (file, trie) = (desk.file.clone(), desk.trie.clone());
        assert_eq!(desk.put("a ", 1, 2), 1);
        assert_eq!(desk.put("x", 1, 3), 8);
        assert_eq!(desk.put("", 1, 3), 8, "8 stands before 1");
        // R10.5: slot 0 has a and b, slot 1 has c and then d.
        assert_eq!(desk.put("d", 4, 2), 110);
        assert_eq!(desk.put_all(b"e", 5, 2), (5, words(&[])));
        assert_eq!(desk.put_all(b"e", 5, 0), (5, words(&[])), "a refusal comes before a stop");
        assert!(desk.trie == trie);
        // A trie older than its file.
        desk.trie = vec![0; IMAGE];
        assert_eq!(desk.put_all(b"a", 1, 2), (4, words(&[255])));
        assert_eq!(desk.remove("zz", 2), (4, words(&[255])));
        let refused = desk.list("a", "z", 320);
        assert_eq!((refused.answer, refused.out), (4, words(&[255])));
        assert_eq!(desk.look_up(b"a").0, 100);
        // It leads d to slot 0, whose upper bound is "b".
        assert_eq!(desk.look_up(b"d"), (4, words(&[0])));
        desk.trie = trie.clone();
        desk.file = file;
        let three = 3 * desk.header().entry_length();
        let short = desk.list("a", "c", three - 1);
        assert_eq!((short.answer, short.out), (7, words(&[])));
        assert!(short.output.len() == three - 1 && short.output.iter().all(|byte| *byte == 0x55));
        assert_eq!(desk.list("a", "c", three).answer, 152);
        let none = desk.list("c", "a", 0);
        assert_eq!((none.answer, none.out), (152, words(&[0])));
        // Every bit of the header counts.
        for place in 0..16 {
            let right = desk.file.clone();
            desk.file[place] ^= 0x40;
            assert_eq!(desk.check(), 142);
            assert_eq!(desk.put("x", 1, 2), 2);
            assert_eq!(desk.remove("x", 2).0, 2);
            assert_eq!(desk.list("x", "y", 0).answer, 2);
            assert_eq!(desk.look_up(b"x").0, 2);
            assert_eq!(desk.recover(2).0, 2);
            assert_eq!(desk.rebuild(), 2);
            desk.trie = trie.clone();
            desk.file = right;
        }
        assert_eq!(desk.recover(3).0, 8);
        for (version, b, slots, length) in [
            (1, 1, 2, 208),
            (1, 17, 2, 1232),
            (1, 2, 0, 16),
            (1, 2, 65, 8336),
            (1, 2, 2, 271),
            (2, 2, 2, 271),
            (0, 2, 2, 272),
        ]
        .into_iter()
        .chain([3, 4, 256, 257, 258, 1 << 32 | 1, u64::MAX].map(|version| (version, 2, 2, 272)))
        {
            let call = Call::Create { file: vec![9; length], version, b, slots, trie: vec![9; IMAGE] };
            let outcome = (desk.door)(&call);
            assert_eq!(outcome.answer, 8);
            assert!(outcome.file.iter().all(|byte| *byte == 9) && outcome.trie == [0; IMAGE]);
        }
    }
}

/// Where a name left the range: R11.10 carries the digit number for the bound that was broken, every other refusal 4 has 255.
pub fn where_a_name_left_the_range(door: Door) {
    let digits = b"abcdefghijklmnopqrstuvwx";
    let bound = Bound(digits.to_vec());
    let bucket = |lower: &Bound, upper: &Bound| {
        Slot::Used(Bucket { lower: lower.clone(), upper: upper.clone(), entries: vec![] })
    };
    let none = Bound::empty();
    let file = file_bytes(1, 2, &[bucket(&none, &bound), bucket(&bound, &none), Slot::Free]);
    let mut desk = Desk { file, trie: vec![0; IMAGE], door };
    for number in 0..24 {
        let mut name = *digits;
        // Above the upper bound of slot 0, to which the trie with count 0 leads every name. Later digits do not matter.
        name[number] += 1;
        desk.trie[2] = 0;
        assert_eq!(desk.look_up(&name), (4, words(&[number as u64])));
        assert_eq!(desk.look_up(&name[..=number]), (4, words(&[number as u64])));
        // Below the lower bound of slot 1.
        name[number] -= 2;
        desk.trie[2] = 1;
        assert_eq!(desk.look_up(&name), (4, words(&[number as u64])));
        assert_eq!(desk.look_up(&name[..=number]), (4, words(&[number as u64])));
        // A beginning of the lower bound differs from it where the filling begins.
        if number > 0 {
            assert_eq!(desk.look_up(&digits[..number]), (4, words(&[number as u64])));
        }
    }
    // Equal to the whole lower bound: its length.
    assert_eq!(desk.look_up(digits), (4, words(&[24])));
    desk.trie[2] = 0;
    assert_eq!(desk.look_up(digits), (101, words(&[])));
    // A free slot, no slot at all, a cell past the count, a count above 256.
    for (count, first_leaf) in [(0, 2), (0, 3), (0, 64), (1, 0), (257, 0)] {
        desk.trie[..2].copy_from_slice(&u16::to_le_bytes(count));
        desk.trie[2] = first_leaf;
        // The right side of cell 0, whose digit is 0.
        desk.trie[8..10].copy_from_slice(&i16::to_le_bytes(-1));
        assert_eq!(desk.look_up(b"a"), (4, words(&[255])), "count {count}, first leaf {first_leaf}");
        assert_eq!(desk.put_all(b"a", 1, 2), (4, words(&[255])));
        assert_eq!(desk.put_all(b"a", 1, 0), (4, words(&[255])));
        assert_eq!(desk.remove("a", 2), (4, words(&[255])));
        let refused = desk.list("a", "b", 32);
        assert_eq!((refused.answer, refused.out), (4, words(&[255])));
    }
    // Put, remove and list have 255 also where a lookup with the same trie has a number.
    desk.trie = vec![0; IMAGE];
    assert_eq!(desk.look_up(b"z"), (4, words(&[0])));
    assert_eq!(desk.put_all(b"z", 1, 2), (4, words(&[255])));
    assert_eq!(desk.remove("z", 2), (4, words(&[255])));
    let refused = desk.list("z", "z", 0);
    assert_eq!((refused.answer, refused.out), (4, words(&[255])));
}

/// R10.6: 256 strings pass, 257 do not.
pub fn strings_fill_the_trie(door: Door) {
    let mut desk = Desk::new(2, 64, door);
    let mut count = 0;
    // Each group of three names has a first digit of its own, and its split string has as many digits as we wish.
    for group in 0..11u8 {
        let length = if group < 10 { 24 } else { 16 };
        let mut stem = vec![b'A' + group];
        stem.resize(length - 1, b'x');
        for last in [b'1', b'2', b'3'] {
            let name = [&stem[..], &[last]].concat();
            let (answer, _) = desk.put_all(&name, 1, 2);
            assert_eq!(answer, 110);
        }
        count += length;
    }
    // Splits between two groups bring strings of one digit that are there already, so only the long ones count.
    assert_eq!(count, 256);
    let read = desk.read();
    assert_eq!(strings(&read).len(), 256);
    assert_eq!(read_image(&desk.trie).count, 256);
    let (file, trie) = (desk.file.clone(), desk.trie.clone());
    assert_eq!(desk.put("Z1", 1, 2), 110);
    assert_eq!(desk.put_all(b"Z2", 1, 2), (6, words(&[])));
    assert_eq!(desk.put_all(b"Z2", 1, 0), (6, words(&[])), "a refusal comes before a stop");
    assert!(desk.trie == trie);
    desk.file = file;
    assert_eq!(desk.rebuild(), 151);
    assert_eq!(read_image(&desk.trie).count, 256);
    desk.trie = trie;
    assert_eq!(desk.look_up(b"Axxxxxxxxxxxxxxxxxxxxxx1"), (100, words(&[1, 0])));
}

/// Lists the situations once, for the model's tests and the library's.
#[macro_export]
macro_rules! every_situation {
    ($show:path) => {
        $crate::every_situation!(@ $show,
            a_name_of_24_bytes_is_legal
            names_of_0_and_25_bytes_are_refused
            digit_7d_is_legal_and_7e_is_refused
            a_blank_is_legal_inside_a_name_alone
            ranges_that_end_in_blanks
            split_strings_that_end_in_blanks
            i_is_within_i_blank_and_in_is_within_i
            split_strings
            rate_gives_five_cells
            razz_and_rz_add_no_cell
            the_last_put_stopped_after_one_store
            the_nine_words_and_the_table
            the_nine_words_rebuilt
            the_31_words
            shorter_separators
            the_nine_words_in_version_2
            a_file_with_splits_of_another_version
            an_older_run_is_refused
            where_12_stands
            versions_without_runs
            entries_of_40_bytes
            a_copied_entry_has_value_and_run
            replace_remove_and_stops
            the_nine_words_removed
            the_right_neighbour_is_tried_first
            merges_of_the_smallest_buckets
            an_absent_name_merges_nothing
            a_split_into_a_freed_slot
            a_cut_file_whose_bucket_is_not_full
            vintages_deleted_whole
            each_refusal_number
            where_a_name_left_the_range
            strings_fill_the_trie
        );
    };
    (@ $show:path, $($name:ident)*) => {
        $(#[test]
        fn $name() {
            $show($crate::situations::$name);
        })*
    };
}

#[cfg(test)]
mod tests {
    use super::{program, Door};
    use crate::door::by_model;

    fn show(situation: fn(Door)) {
        situation(&mut |call| by_model(call));
    }

    crate::every_situation!(show);

    /// What stands beside each input of `program/` is what the model prints.
    #[test]
    fn the_outputs_of_the_program() {
        let folder = concat!(env!("CARGO_MANIFEST_DIR"), "/program");
        let inputs = std::fs::read_dir(folder).expect("the folder is there").map(|file| file.expect("a file").path());
        let inputs: Vec<_> = inputs.filter(|path| path.extension().is_some_and(|end| end == "in")).collect();
        assert!(inputs.len() > 10);
        for input in inputs {
            let output = std::fs::read_to_string(input.with_extension("out")).expect("there is an output");
            assert_eq!(program(&std::fs::read(&input).expect("the input can be read")), output, "{}", input.display());
        }
    }
}
