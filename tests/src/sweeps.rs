//! Sweeps: every value of something, where random choices might miss one.

use std::collections::BTreeSet;

use crate::answers::mark;
use crate::chance::Chance;
use crate::door::{write_image, Call, IMAGE};
use crate::make::{self, file_bytes, sound_file};
use crate::model::file::{Bucket, Entry, File, Header, Slot, HEADER, VERSIONS};
use crate::model::names::{filled, is_in_range, is_legal_name, Bound};
use crate::model::trie::{rebuilt, Cell, Side, Trie, CELLS};
use crate::run::Run;

fn bound(digits: &str) -> Bound {
    Bound(digits.as_bytes().to_vec())
}

fn entry(name: &str, value: u64) -> Entry {
    Entry { name: filled(name.as_bytes()), value, run: value + 1000 }
}

fn bucket(lower: &str, upper: &str, entries: &[(&str, u64)]) -> Slot {
    let entries = entries.iter().map(|(name, value)| entry(name, *value)).collect();
    Slot::Used(Bucket { lower: bound(lower), upper: bound(upper), entries })
}

fn image_of(file: &[u8]) -> Vec<u8> {
    write_image(&rebuilt(&File::read(file).unwrap()).unwrap())
}

/// A sound file with two buckets and a free slot.
fn small_sound(version: u64) -> Vec<u8> {
    file_bytes(version, 2, &[bucket("", "h", &[("a", 7), ("gold", 8)]), Slot::Free, bucket("h", "", &[("i", 9)])])
}

/// The same file while a put of "cc" is stopped after its first store.
fn small_cut(version: u64) -> Vec<u8> {
    file_bytes(
        version,
        2,
        &[bucket("", "h", &[("a", 7), ("gold", 8)]), bucket("c", "h", &[("gold", 8)]), bucket("h", "", &[("i", 9)])],
    )
}

/// Create with every kind of version, b, slots and length.
pub fn create_arguments(_: u64, run: &mut Run) {
    let big = [255, 256, 258, 260, 1 << 16, (1 << 32) | 4, (1 << 63) | 4, u64::MAX];
    let create = |run: &mut Run, length: usize, version: u64, b: u64, slots: u64| {
        let file = vec![0xEE; length];
        run.call(Call::Create { file, version, b, slots, trie: vec![0xDD; IMAGE] });
    };
    for version in VERSIONS {
        for b in (0..=20).chain(big) {
            for slots in (0..=66).chain(big) {
                // The length that would belong to it, if it is not out of all reason.
                let entry = Header::new(version, 0, 0).entry_length() as u64;
                let slot = b.wrapping_mul(entry).wrapping_add(64);
                let length = (slots.wrapping_mul(slot).wrapping_add(16) % (1 << 16)) as usize;
                create(run, length, version, b, slots);
                if slots % 5 == 0 || slots > 60 || b > 14 {
                    create(run, length + 1, version, b, slots);
                    create(run, length.saturating_sub(1), version, b, slots);
                }
            }
        }
        for length in [0, 1, 15, 16, 17, 100] {
            create(run, length, version, 4, 8);
            create(run, length, version, 0, 0);
        }
    }
    let far = [1 << 16, 1 << 32, 1 << 63].into_iter().flat_map(|far| VERSIONS.map(|version| far | version));
    for version in (0..=5).chain([255, 256, 257, 258, 259, 512, 513, u64::MAX]).chain(far) {
        for (b, slots) in [(2, 1), (4, 8), (16, 64), (1, 8), (4, 0)] {
            create(run, Header::new(version, b, slots).file_length(), version, b as u64, slots as u64);
        }
    }
    for length in [0, 1, 2, 4, 1539, 1541, IMAGE + 256, 3080, IMAGE + 65_536] {
        let trie = vec![0xDD; length];
        for b in [4, 99] {
            let file = vec![0xEE; Header::new(1, 4, 8).file_length()];
            run.call(Call::Create { file, version: 1, b, slots: 8, trie: trie.clone() });
        }
        for file in [small_sound(1), small_cut(1), vec![]] {
            run.call(Call::Rebuild { file, trie: trie.clone() });
        }
    }
}

/// Files whose header says any b, slots and version, with the length that belongs to it.
pub fn headers(_: u64, run: &mut Run) {
    let with_header = |version: u64, b: usize, slots: usize| {
        let header = Header::new(version, b, slots);
        let mut file = vec![0; header.file_length()];
        file[..16].copy_from_slice(&header.bytes());
        if slots > 0 {
            file[16] = 1;
        }
        file
    };
    for version in VERSIONS {
        for b in (0..=20).chain([32, 128, 255]) {
            for slots in (0..=5).chain([31, 32, 63, 64, 65, 66, 127, 128, 255]) {
                all_calls(run, &with_header(version, b, slots), &[0; IMAGE]);
            }
        }
    }
    // The length of one version with another in the header.
    for version in VERSIONS {
        for other in VERSIONS {
            let mut file = with_header(version, 4, 3);
            file[3] = other as u8;
            all_calls(run, &file, &[0; IMAGE]);
        }
    }
    // 257 has 1 in both bytes.
    for version in (0..=5).chain([255, 256, 257, 258, 259, 512, 513, 514, 0xFF01, 0xFFFF]) {
        all_calls(run, &with_header(version, 4, 3), &[0; IMAGE]);
    }
}

/// Every byte at every place of names of every length, and lengths far too great.
pub fn bytes_of_a_name(_: u64, run: &mut Run) {
    let files = VERSIONS.map(small_sound);
    let trie = image_of(&files[0]);
    for length in 1..=25 {
        let file = &files[length % files.len()];
        for place in 0..length {
            for byte in 0..=255 {
                let mut name = vec![b'g'; length];
                name[place] = byte;
                run.call(Call::Lookup { file: file.clone(), trie: trie.clone(), name: name.clone() });
                if EDGES.contains(&byte) {
                    all_with_name(run, file, &trie, &name);
                }
            }
        }
    }
    for length in (0..=2).chain(23..=300).chain([511, 512, 513, 65_535, 65_536, 65_537, 65_560]) {
        let name = vec![b'g'; length];
        let file = &files[length % files.len()];
        run.call(Call::Lookup { file: file.clone(), trie: trie.clone(), name: name.clone() });
        all_with_name(run, file, &trie, &name);
    }
}

fn all_with_name(run: &mut Run, file: &[u8], trie: &[u8], name: &[u8]) {
    let (f, t, n) = (file.to_vec(), trie.to_vec(), name.to_vec());
    run.call(Call::Put { file: f.clone(), trie: t.clone(), name: n.clone(), value: 5, run: 6, limit: 2 });
    run.call(Call::Remove { file: f.clone(), trie: t.clone(), name: n.clone(), limit: 2 });
    let output = vec![0x99; 120];
    let (first, second) = (n.clone(), b"z".to_vec());
    run.call(Call::List { file: f.clone(), trie: t.clone(), first, second, output: output.clone() });
    run.call(Call::List { file: f, trie: t, first: b"a".to_vec(), second: n, output });
}

/// The bytes at which something changes: what is a digit, what is a digit of names, what is zero.
const EDGES: [u8; 11] = [0x00, 0x01, 0x1F, 0x20, 0x21, 0x7D, 0x7E, 0x7F, 0x80, 0xA1, 0xFF];

/// Entries and bounds of every length, with every edge at every place, also past their end. Nothing else is wrong with the
/// file, so the digits alone decide.
pub fn stored_digits(story: u64, run: &mut Run) {
    let version = VERSIONS[story as usize];
    let lone = file_bytes(version, 2, &[bucket("", "", &[("a", 7)])]);
    let trie = vec![0; IMAGE];
    for length in 0..=24 {
        for place in 0..24 {
            for byte in EDGES {
                let mut file = lone.clone();
                file[80..104].fill(0x20);
                file[80..80 + length].fill(b'g');
                file[80 + place] = byte;
                run.call(Call::Check { file: file.clone() });
                run.call(Call::Lookup { file, trie: trie.clone(), name: b"g".to_vec() });
            }
        }
    }
    let blank = file_bytes(version, 2, &[bucket("", "", &[]), Slot::Free]);
    let slot = Header::new(version, 2, 2).slot_length();
    for length in 1..=24 {
        for place in 0..24 {
            for byte in EDGES {
                let mut digits = [0; 24];
                digits[..length].fill(b'g');
                digits[place] = byte;
                // The upper of slot 0 and the lower of slot 1.
                let mut file = blank.clone();
                file[16 + 3] = length as u8;
                file[16 + 32..16 + 56].copy_from_slice(&digits);
                file[16 + slot] = 1;
                file[16 + slot + 2] = length as u8;
                file[16 + slot + 8..16 + slot + 32].copy_from_slice(&digits);
                run.call(Call::Check { file: file.clone() });
                run.call(Call::Rebuild { file: file.clone(), trie: trie.clone() });
                run.call(Call::Lookup { file, trie: trie.clone(), name: b"a".to_vec() });
            }
        }
    }
}

/// The fullest file there is: 64 slots with 16 entries each. The story's number chooses the version, and how the buckets lie
/// in the slots.
pub fn fullest_file(story: u64, run: &mut Run) {
    let names: Vec<Vec<u8>> = (0..1024).map(|n| vec![0x21 + (n / 90) as u8, 0x21 + (n % 90) as u8]).collect();
    let mut slots = vec![Slot::Free; 64];
    let mut numbers: Vec<usize> = (0..64).collect();
    match story % 3 {
        0 => {}
        1 => numbers.reverse(),
        _ => Chance::new(story).shuffle(&mut numbers),
    }
    let mut lower = Bound::empty();
    for (bucket, number) in names.chunks(16).zip(numbers) {
        let last = Bound(bucket[15].clone());
        let upper = if bucket[15] == names[1023] { Bound::empty() } else { last };
        let (value, run) = (1 << (number as u64), number as u64 % 9);
        let entries = bucket.iter().map(|name| Entry { name: filled(name), value, run }).collect();
        slots[number] = Slot::Used(Bucket { lower, upper: upper.clone(), entries });
        lower = upper;
    }
    let version = VERSIONS[story as usize % VERSIONS.len()];
    let file = file_bytes(version, 16, &slots);
    assert_eq!(file.len(), if version == 3 { 45_072 } else { 36_880 });
    let entry = Header::new(version, 16, 64).entry_length();
    let trie = image_of(&file);
    run.call(Call::Check { file: file.clone() });
    run.call(Call::Recover { file: file.clone(), limit: 0 });
    run.call(Call::Rebuild { file: file.clone(), trie: vec![0x55; IMAGE] });
    for length in [entry * 1024, entry * 1024 - 1, entry * 1024 + 7, entry * 1023, 65_536 + entry, 32 * 1024, 0] {
        let (first, second) = (vec![0x21], vec![0x7D; 24]);
        let call = Call::List { file: file.clone(), trie: trie.clone(), first, second, output: vec![0x66; length] };
        let outcome = run.call(call);
        if outcome.answer == 152 && outcome.out[0] == 1024 {
            mark("a list of 1024 entries");
        }
    }
    for name in &names {
        let (f, t) = (file.clone(), trie.clone());
        run.call(Call::Lookup { file: f.clone(), trie: t.clone(), name: name.clone() });
        run.call(Call::Put { file: f, trie: t, name: name.clone(), value: 3, run: 4, limit: 1 });
    }
    for name in names.iter().step_by(7) {
        let longer = [&name[..], b"x"].concat();
        let (f, t) = (file.clone(), trie.clone());
        let outcome = run.call(Call::Put { file: f, trie: t, name: longer.clone(), value: 3, run: 4, limit: 2 });
        assert_eq!(outcome.answer, 5);
        let (f, t) = (file.clone(), trie.clone());
        let removed = run.call(Call::Remove { file: f, trie: t, name: name.clone(), limit: 1 });
        run.call(Call::Put { file: removed.file, trie: removed.trie, name: longer, value: 3, run: 4, limit: 2 });
    }
}

/// All calls on one file and trie.
fn all_calls(run: &mut Run, file: &[u8], trie: &[u8]) {
    let (f, t) = (file.to_vec(), trie.to_vec());
    run.call(Call::Check { file: f.clone() });
    run.call(Call::Recover { file: f.clone(), limit: 1 });
    run.call(Call::Rebuild { file: f.clone(), trie: t.clone() });
    for name in [&b"a"[..], b"gold", b"i"] {
        run.call(Call::Lookup { file: f.clone(), trie: t.clone(), name: name.to_vec() });
    }
    run.call(Call::Put { file: f.clone(), trie: t.clone(), name: b"cc".to_vec(), value: 5, run: 6, limit: 2 });
    run.call(Call::Remove { file: f.clone(), trie: t.clone(), name: b"gold".to_vec(), limit: 1 });
    let (first, second) = (b"!".to_vec(), b"}".to_vec());
    run.call(Call::List { file: f, trie: t, first, second, output: vec![0x99; 120] });
}

/// Every single bit of a sound and a cut file, and every byte of what is not an entry.
pub fn bits_of_a_file(story: u64, run: &mut Run) {
    let version = VERSIONS[story as usize];
    let trie = image_of(&small_sound(version));
    for file in [small_sound(version), small_cut(version)] {
        for place in 0..file.len() {
            for bit in 0..8 {
                let mut damaged = file.clone();
                damaged[place] ^= 1 << bit;
                all_calls(run, &damaged, &trie);
            }
        }
        let second = HEADER + Header::new(version, 2, 3).slot_length();
        for place in (0..16 + 64).chain(second..second + 64) {
            for byte in 0..=255 {
                let mut damaged = file.clone();
                damaged[place] = byte;
                run.call(Call::Check { file: damaged.clone() });
                run.call(Call::Lookup { file: damaged, trie: trie.clone(), name: b"gold".to_vec() });
            }
        }
        let far = [file.len() + 256, file.len() + 65_536];
        for length in (0..60).chain(file.len() - 3..file.len() + 4).chain(far) {
            let mut damaged = file.clone();
            damaged.resize(length, 0);
            all_calls(run, &damaged, &trie);
        }
    }
}

/// Every single bit of a trie image, and every byte of its first cells. The versions take turns.
pub fn bits_of_a_trie(_: u64, run: &mut Run) {
    let slots = [
        bucket("", "ga", &[("a", 7)]),
        bucket("ga", "gold", &[("gb", 8), ("gold", 9)]),
        bucket("gold", "", &[("i", 10)]),
        Slot::Free,
    ];
    let files = VERSIONS.map(|version| file_bytes(version, 2, &slots));
    let trie = image_of(&files[0]);
    let some = |run: &mut Run, turn: usize, trie: Vec<u8>| {
        let file = &files[turn % files.len()];
        for name in [&b"a"[..], b"gold", b"i"] {
            run.call(Call::Lookup { file: file.clone(), trie: trie.clone(), name: name.to_vec() });
        }
        run.call(Call::Put {
            file: file.clone(),
            trie: trie.clone(),
            name: b"gc".to_vec(),
            value: 5,
            run: 6,
            limit: 2,
        });
        let (first, second) = (b"!".to_vec(), b"}".to_vec());
        run.call(Call::List { file: file.clone(), trie, first, second, output: vec![0x99; 100] });
    };
    for place in 0..IMAGE {
        for bit in 0..8 {
            let mut damaged = trie.clone();
            damaged[place] ^= 1 << bit;
            some(run, place + bit, damaged);
        }
    }
    for place in 0..4 + 6 * 7 {
        for byte in 0..=255 {
            let mut damaged = trie.clone();
            damaged[place] = byte;
            some(run, place + byte as usize, damaged);
        }
    }
}

/// Every order in which a few names can come, and every stop on the way. The story's number chooses the names; the versions
/// take turns.
pub fn orders(story: u64, run: &mut Run) {
    let sets: [&[&str]; 7] = [
        &["rate1", "rate2", "rate3", "razz", "rz", "rb"],
        &["a", "aa", "aaa", "aaaa", "aaaaa", "aaaaaa"],
        &["!", "}", "!}", "}!", "!!", "}}"],
        &["i", "in", "is", "it", "a", "o"],
        &[
            "vintage-of-1998-quarter1",
            "vintage-of-1998-quarter2",
            "vintage-of-1998-quarter",
            "vintage-of-1998-quarter3",
            "v",
            "w",
        ],
        &["b", "a}", "a|", "a}}", "b!", "c"],
        &["a", "a b", "a  b", "a b c", "a   c", "a!"],
    ];
    let names = sets[story as usize % sets.len()];
    let b = 2 + story / sets.len() as u64 % 2;
    let mut order: Vec<usize> = (0..names.len()).collect();
    let mut versions = VERSIONS.iter().cycle();
    each_order(&mut order, 0, &mut |order| {
        let version = *versions.next().expect("they come again and again");
        let made = run.call(Call::Create {
            file: vec![0x55; Header::new(version, b as usize, 5).file_length()],
            version,
            b,
            slots: 5,
            trie: vec![0x55; IMAGE],
        });
        let (mut file, mut trie) = (made.file, made.trie);
        for place in order {
            let name = names[*place].as_bytes().to_vec();
            let value = *place as u64;
            for limit in [0, 1] {
                let (f, t, n) = (file.clone(), trie.clone(), name.clone());
                let stopped = run.call(Call::Put { file: f, trie: t, name: n, value, run: value, limit });
                if stopped.answer == 112 && limit == 1 {
                    let mended = run.call(Call::Recover { file: stopped.file, limit: 1 });
                    assert!(mended.file == file, "recovery gives the file before the call");
                }
            }
            let outcome = run.call(Call::Put { file, trie, name, value, run: value, limit: 2 });
            file = outcome.file;
            trie = outcome.trie;
        }
        run.call(Call::Rebuild { file: file.clone(), trie: vec![0x55; IMAGE] });
        let (first, second) = (b"!".to_vec(), b"}}}}".to_vec());
        run.call(Call::List { file, trie, first, second, output: vec![0x99; 40 * names.len()] });
    });
}

/// Every order in which a few names can go, and every stop on the way. The story's number chooses the names; the versions take
/// turns.
pub fn removals(story: u64, run: &mut Run) {
    let sets: [&[&str]; 4] = [
        &["rate1", "rate2", "rate3", "razz", "rz", "rb"],
        &["a", "b", "c", "d", "e", "f"],
        &["a", "a b", "a  b", "a b c", "a   c", "a!"],
        &["and", "i", "in", "is", "it", "o"],
    ];
    let names = sets[story as usize % sets.len()];
    let b = 2 + story / sets.len() as u64 % 2;
    let files = VERSIONS.map(|version| {
        let file = vec![0x55; Header::new(version, b as usize, 5).file_length()];
        let made = run.call(Call::Create { file, version, b, slots: 5, trie: vec![0x55; IMAGE] });
        let (mut file, mut trie) = (made.file, made.trie);
        for (name, value) in names.iter().zip(1..) {
            let name = name.as_bytes().to_vec();
            let outcome = run.call(Call::Put { file, trie, name, value, run: value, limit: 2 });
            assert_eq!(outcome.answer, 110);
            (file, trie) = (outcome.file, outcome.trie);
        }
        (file, trie)
    });
    let mut files = files.iter().cycle();
    let mut order: Vec<usize> = (0..names.len()).collect();
    each_order(&mut order, 0, &mut |order| {
        let (mut file, mut trie) = files.next().expect("they come again and again").clone();
        for place in order {
            let name = names[*place].as_bytes().to_vec();
            for limit in [0, 1] {
                let (f, t, n) = (file.clone(), trie.clone(), name.clone());
                let stopped = run.call(Call::Remove { file: f, trie: t, name: n, limit });
                if limit == 0 || stopped.answer == 120 {
                    continue;
                }
                // A removal that merges counts from its first store on.
                let (f, t, n) = (file.clone(), trie.clone(), name.clone());
                let merged = run.call(Call::Remove { file: f, trie: t, name: n, limit: 2 });
                let mended = run.call(Call::Recover { file: stopped.file, limit: 1 });
                assert!(mended.file == merged.file, "recovery gives the file after the call");
            }
            let outcome = run.call(Call::Remove { file, trie, name, limit: 2 });
            (file, trie) = (outcome.file, outcome.trie);
        }
        assert_eq!(File::read(&file).expect("a header").used().count(), 1, "one bucket is left");
    });
}

/// Vintages come and go: of each series a name for each month, of which the last three years are kept, until at last
/// everything goes. The story's number chooses version and b.
pub fn vintages(story: u64, run: &mut Run) {
    let version = VERSIONS[story as usize % VERSIONS.len()];
    let b = [2, 4, 16][story as usize / VERSIONS.len() % 3];
    let header = Header::new(version, b, 64);
    let file = vec![0x55; header.file_length()];
    let made = run.call(Call::Create { file, version, b: b as u64, slots: 64, trie: vec![0x55; IMAGE] });
    let (mut file, mut trie) = (made.file, made.trie);
    let vintage = |year: u64| {
        let name = move |series: &str, quarter: u64| format!("{series} {} Q{quarter}", 1990 + year).into_bytes();
        (1..=4).flat_map(move |quarter| ["GDP", "GDP real", "CPI", "M1"].map(|series| name(series, quarter)))
    };
    let remove = |run: &mut Run, file: &mut Vec<u8>, trie: &mut Vec<u8>, name: Vec<u8>| {
        let (f, t) = (std::mem::take(file), std::mem::take(trie));
        let outcome = run.call(Call::Remove { file: f, trie: t, name, limit: 2 });
        assert_eq!(outcome.answer, 120);
        (*file, *trie) = (outcome.file, outcome.trie);
    };
    for year in 0..12 {
        for name in vintage(year) {
            let outcome = run.call(Call::Put { file, trie, name, value: year, run: year, limit: 2 });
            assert_eq!(outcome.answer, 110);
            (file, trie) = (outcome.file, outcome.trie);
        }
        for name in year.checked_sub(3).into_iter().flat_map(vintage) {
            remove(run, &mut file, &mut trie, name);
        }
    }
    let mut left: Vec<Vec<u8>> = (9..12).flat_map(vintage).collect();
    Chance::new(story).shuffle(&mut left);
    for name in left {
        remove(run, &mut file, &mut trie, name);
    }
    assert_eq!(File::read(&file).expect("a header").used().count(), 1, "one bucket is left");
}

fn each_order(order: &mut Vec<usize>, from: usize, tell: &mut impl FnMut(&[usize])) {
    if from == order.len() {
        return tell(order);
    }
    for place in from..order.len() {
        order.swap(from, place);
        each_order(order, from + 1, tell);
        order.swap(from, place);
    }
}

/// Every file of three slots with few bounds and few names: check, recover and rebuild.
pub fn small_files(story: u64, run: &mut Run) {
    let version = VERSIONS[story as usize];
    let bounds = ["", "a", "b"];
    let entries: [&[(&str, u64)]; 8] = [
        &[],
        &[("a", 1)],
        &[("b", 1)],
        &[("b", 2)],
        &[("c", 1)],
        &[("a", 1), ("b", 1)],
        &[("b", 1), ("c", 1)],
        &[("a", 1), ("c", 1)],
    ];
    let mut slots = vec![Slot::Free];
    for lower in bounds {
        for upper in bounds {
            for entries in entries {
                let (low, high) = (bound(lower), bound(upper));
                let ordered = lower.is_empty() || upper.is_empty() || low < high;
                // One slot with an entry out of range is enough; the others are well formed.
                let holds = entries.iter().all(|(name, _)| is_in_range(&filled(name.as_bytes()), &low, &high));
                if ordered && (holds || (lower == "a" && upper == "b" && entries == [("c", 1)])) {
                    slots.push(bucket(lower, upper, entries));
                }
            }
        }
    }
    for one in &slots {
        for two in &slots {
            for three in &slots {
                let file = file_bytes(version, 2, &[one.clone(), two.clone(), three.clone()]);
                let kind = run.call(Call::Check { file: file.clone() }).answer;
                if kind != 142 {
                    run.call(Call::Recover { file: file.clone(), limit: 2 });
                    run.call(Call::Rebuild { file, trie: vec![0x55; IMAGE] });
                }
            }
        }
    }
}

/// Look ups with tries that no file agrees with: each word of look up's order on both sides.
pub fn walks(story: u64, run: &mut Run) {
    let slots = 5;
    let file = file_bytes(
        VERSIONS[story as usize],
        2,
        &[
            bucket("", "", &[("abcdefghijklmnopqrstuvwx", 1), ("az", 2)]),
            Slot::Free,
            bucket("a", "b", &[("b", 3)]),
            bucket("", "az", &[("a", 4), ("az", 5)]),
            Slot::Free,
        ],
    );
    let look_up = |run: &mut Run, trie: &Trie, name: &[u8]| {
        run.call(Call::Lookup { file: file.clone(), trie: write_image(trie), name: name.to_vec() }).answer
    };
    let names: [&[u8]; 4] = [b"abcdefghijklmnopqrstuvwx", b"az", b"b", b"a"];
    // The first leaf with count 0, and the same with every count.
    for first_leaf in (0..70).chain([255, 256, 259, 0x7FFF, 0x8000, 0xFFFF]) {
        for count in [0, 1, 2, CELLS, CELLS + 1] {
            let mut trie = Trie::empty(first_leaf);
            trie.count = count;
            for name in names {
                look_up(run, &trie, name);
            }
        }
    }
    // A path of 24 digits, then a cell with any number.
    for length in 20..=24 {
        for number in 0..=255 {
            let mut trie = Trie::empty(0);
            trie.count = length + 1;
            for place in 0..length {
                let digit = b'a' + place as u8;
                trie.cells[place] = Cell { digit, number: place, left: Side::Cell(place + 1), right: Side::Slot(1) };
            }
            trie.cells[length] = Cell { digit: b'~', number, left: Side::Slot(0), right: Side::Slot(3) };
            for name in names {
                let answer = look_up(run, &trie, name);
                if length == 24 && number == 24 && name.len() == 24 {
                    assert_eq!(answer, 4);
                    mark("a digit number above 23 on a path of 24 digits");
                }
            }
        }
    }
    // A walk that meets a cell twice and goes another way the second time: 4 visits. Only the count can refuse it.
    for count in 3..=6 {
        let mut trie = Trie::empty(0);
        trie.count = count;
        trie.cells[0] = Cell { digit: b'z', number: 0, left: Side::Cell(1), right: Side::Slot(1) };
        trie.cells[1] = Cell { digit: b'!', number: 1, left: Side::Cell(2), right: Side::Slot(0) };
        trie.cells[2] = Cell { digit: b'a', number: 0, left: Side::Cell(1), right: Side::Slot(1) };
        let answer = look_up(run, &trie, b"az");
        assert_eq!(answer, if count < 4 { 4 } else { 100 });
        mark("a walk that meets a cell twice");
        for name in names {
            look_up(run, &trie, name);
        }
    }
    // Chains of every length, with every count around it, left and right.
    for length in (1..12).chain(250..=256) {
        for count in [length - 1, length, length + 1, length + 7] {
            for left in [true, false] {
                let mut trie = Trie::empty(0);
                trie.count = count;
                for cell in 0..length {
                    let next = if cell + 1 < length { Side::Cell(cell + 1) } else { Side::Slot(0) };
                    trie.cells[cell] = match left {
                        true => Cell { digit: b'}', number: 0, left: next, right: Side::Slot(1) },
                        false => Cell { digit: b'!', number: 0, left: Side::Slot(1), right: next },
                    };
                }
                for name in names {
                    look_up(run, &trie, name);
                }
            }
        }
    }
    // Every side that a cell can have.
    for side in i16::MIN..=i16::MAX {
        let near =
            (-300..300).contains(&side) || side % 256 == 0 || side % 256 == 1 || !(-0x7FF0..0x7FF0).contains(&side);
        if near {
            let mut trie = Trie::empty(0);
            trie.count = slots;
            let mut image = write_image(&trie);
            image[4] = b'm';
            image[6..8].copy_from_slice(&side.to_le_bytes());
            for name in [&b"az"[..], b"x"] {
                run.call(Call::Lookup { file: file.clone(), trie: image.clone(), name: name.to_vec() });
            }
        }
    }
}

/// Names that left a range at every place: beyond bounds of every length, and equal to the whole of them.
pub fn broken_bounds(_: u64, run: &mut Run) {
    let digits = b"mmnnoopp  qqrrsstt  uuvv";
    let mut numbers = [BTreeSet::new(), BTreeSet::new()];
    for length in 1..=24 {
        let between = Bound(digits[..length].to_vec());
        let slot = |lower: &Bound, upper: &Bound| {
            Slot::Used(Bucket { lower: lower.clone(), upper: upper.clone(), entries: vec![] })
        };
        let none = Bound::empty();
        let version = VERSIONS[length % VERSIONS.len()];
        let file = file_bytes(version, 2, &[slot(&none, &between), slot(&between, &none)]);
        for place in 0..24 {
            for other in [0x20, 0x21, digits[place] - 1, digits[place], digits[place] + 1, 0x7D] {
                let mut name = digits.to_vec();
                name[place] = other;
                for end in [place + 1, 24] {
                    for slot in [0, 1] {
                        let (file, trie) = (file.clone(), write_image(&Trie::empty(slot)));
                        let outcome = run.call(Call::Lookup { file, trie, name: name[..end].to_vec() });
                        if outcome.answer == 4 {
                            numbers[slot].insert(outcome.out[0]);
                        }
                    }
                }
            }
        }
    }
    // A name that is not within an upper bound differs from it; one that is within a lower may be equal to all of it.
    assert!(numbers[0].iter().copied().eq(0..24) && numbers[1].iter().copied().eq(0..=24), "{numbers:?}");
}

/// Look ups with tries whose cells are thrown together, so that walks are long and odd.
pub fn thrown_tries(story: u64, run: &mut Run) {
    let mut chance = Chance::new(story);
    let alphabet = [0x20, 0x21, b'a', b'b', b'c', 0x7D, 0xFF];
    let mut names: Vec<Vec<u8>> = Vec::new();
    while names.len() < 8 {
        let length = chance.between(1, 4);
        let name: Vec<u8> = (0..length).map(|_| *chance.pick(&alphabet[..6])).collect();
        if is_legal_name(&name) {
            names.push(name);
        }
    }
    let header = Header::new(make::version(&mut chance), 2, 4);
    let file = sound_file(&mut chance, header, 3, &names);
    for _ in 0..20 {
        let mut trie = Trie::empty(chance.below(5));
        trie.count = chance.between(1, 12);
        let count = trie.count;
        for cell in trie.cells.iter_mut().take(count) {
            let mut side = || match chance.below(100) {
                0..=39 => Side::Slot(chance.below(4)),
                40..=97 if count > 1 => Side::Cell(chance.between(1, count - 1)),
                _ => Side::Cell(count),
            };
            let (left, right) = (side(), side());
            *cell = Cell { digit: *chance.pick(&alphabet), number: chance.below(3), left, right };
        }
        let image = write_image(&trie);
        for name in &names {
            run.call(Call::Lookup { file: file.clone(), trie: image.clone(), name: name.clone() });
        }
        run.call(Call::Remove { file: file.clone(), trie: image, name: names[0].clone(), limit: 1 });
    }
}
