//! The eight calls (section 9 of the rules), with their refusals in the order of R10.9.

use super::file::{
    bucket_bytes, entry_bytes, header, kind, read_slot, slot_bytes, store, Bucket, Entry, File, Header, Kind, Slot,
    HEADER,
};
use super::names::{broken_bound, filled, is_legal_name, is_within, Bound, Filled, DIGITS};
use super::trie::{agrees, grow, rebuilt, strings, strings_of, walk, Trie, CELLS};

/// What a call answers.
#[derive(Clone, Copy, PartialEq, Eq, Debug)]
pub enum Answer {
    /// R10.11: a refusal is its number and nothing else. 4 is `Stale`.
    Refused(u64),
    /// R10.4, with the digit number at which a lookup's name left the range (R11.10), or with `NO_DIGIT`.
    Stale(u64),
    Created,
    Sound,
    Cut,
    Bad,
    /// The slot.
    Freed(u64),
    NothingToDo,
    Rebuilt,
    /// The value and the run.
    Found(u64, u64),
    Absent,
    Added,
    /// The old value and the old run.
    Replaced(u64, u64),
    Removed,
    /// The number of stores made.
    Stopped(u64),
    /// The number of entries.
    Listed(u64),
}

use Answer::*;

// The table of refusal numbers.
pub const ILLEGAL_NAME: u64 = 1;
pub const BAD_FILE: u64 = 2;
pub const CUT_FILE: u64 = 3;
pub const TRIE_STALE: u64 = 4;
pub const NO_FREE_SLOT: u64 = 5;
pub const TOO_MANY_STRINGS: u64 = 6;
pub const OUTPUT_TOO_SHORT: u64 = 7;
pub const WRONG_NUMBER: u64 = 8;
pub const OLDER_RUN: u64 = 12;

/// What a refusal 4 carries that is not for a range which lacks the name.
pub const NO_DIGIT: u64 = 255;

/// R9.1: a new file in the whole buffer, and its trie. Refused by R10.8, create gives the same trie.
pub fn create(file: &mut [u8], version: u64, b: u64, slots: u64) -> (Answer, Trie) {
    let header = Header::new(version, b as usize, slots as usize);
    if !header.is_offered() || file.len() != header.file_length() {
        return (Refused(WRONG_NUMBER), Trie::empty(0));
    }
    let bucket = Bucket { lower: Bound::empty(), upper: Bound::empty(), entries: Vec::new() };
    file.fill(0);
    file[..HEADER].copy_from_slice(&header.bytes());
    store(file, &header, 0, &bucket_bytes(&bucket, &header));
    (Created, Trie::empty(0))
}

/// R9.2: sound, cut or bad.
pub fn check(file: &[u8]) -> Answer {
    match kind(file) {
        Kind::Sound(_) => Sound,
        Kind::Cut(_) => Cut,
        Kind::Bad => Bad,
    }
}

/// R9.3: recover frees N and names it; on a sound file there is nothing to do.
pub fn recover(file: &mut [u8], limit: u64) -> Answer {
    if limit > 2 {
        return Refused(WRONG_NUMBER);
    }
    match kind(file) {
        Kind::Bad => Refused(BAD_FILE),
        Kind::Sound(_) => NothingToDo,
        Kind::Cut(n) => {
            let header = header(file).expect("a cut file has a right header");
            let made = make_stores(file, &header, limit, &[(n, vec![0; header.slot_length()])]);
            made.unwrap_or(Freed(n as u64))
        }
    }
}

/// R9.4; refused 2, 3 or 6 it gives the empty trie (R10.12).
pub fn rebuild(file: &[u8]) -> (Answer, Trie) {
    match kind(file) {
        Kind::Bad => (Refused(BAD_FILE), Trie::empty(0)),
        Kind::Cut(_) => (Refused(CUT_FILE), Trie::empty(0)),
        Kind::Sound(file) => match rebuilt(&file) {
            None => (Refused(TOO_MANY_STRINGS), Trie::empty(0)),
            Some(trie) => (Rebuilt, trie),
        },
    }
}

/// Look up: section 11 of the rules, from the top.
pub fn look_up(file: &[u8], trie: &Trie, name: &[u8]) -> Answer {
    // R11.1
    if !is_legal_name(name) {
        return Refused(ILLEGAL_NAME);
    }
    let name = filled(name);
    // R11.2
    let Some(header) = header(file) else { return Refused(BAD_FILE) };
    // R11.3 to R11.7
    let Some(leaf) = walk(trie, &name, header.slots) else { return Stale(NO_DIGIT) };
    let bucket = match read_slot(slot_bytes(file, &header, leaf.slot), &header) {
        // R11.8
        Slot::Free => return Stale(NO_DIGIT),
        // R11.9
        Slot::Malformed => return Refused(BAD_FILE),
        Slot::Used(bucket) => bucket,
    };
    // R11.10, with the digit number for the bound that was broken.
    if let Some(broken) = broken_bound(&name, &bucket.lower, &bucket.upper) {
        return Stale(broken.differs_at as u64);
    }
    // R11.11: found with value and run, or absent.
    bucket.entry(&name).map_or(Absent, |entry| Found(entry.value, entry.run))
}

/// The refusals 8, 1, 2, 3 and 4 of put, remove and list, in this order, for each that can have them: R9.10 and R10.9.
fn whole_check(limit: u64, names: &[&[u8]], file: &[u8], trie: &Trie) -> Result<File, Answer> {
    if limit > 2 {
        return Err(Refused(WRONG_NUMBER));
    }
    if !names.iter().all(|name| is_legal_name(name)) {
        return Err(Refused(ILLEGAL_NAME));
    }
    let file = match kind(file) {
        Kind::Bad => return Err(Refused(BAD_FILE)),
        Kind::Cut(_) => return Err(Refused(CUT_FILE)),
        Kind::Sound(file) => file,
    };
    if !agrees(trie, &file) {
        return Err(Stale(NO_DIGIT));
    }
    Ok(file)
}

/// R7.12: with a limit below the stores needed, as many as the limit says are made, and the call is stopped. None when
/// all are made.
fn make_stores(file: &mut [u8], header: &Header, limit: u64, stores: &[(usize, Vec<u8>)]) -> Option<Answer> {
    let made = stores.len().min(limit as usize);
    for (slot, bytes) in &stores[..made] {
        store(file, header, *slot, bytes);
    }
    (made < stores.len()).then_some(Stopped(made as u64))
}

/// How b + 1 sorted entries are parted.
pub struct Split {
    /// R7.3: the split key, by whose position the string was chosen.
    pub key: Filled,
    /// R7.4: the split string, against the last name.
    pub string: Bound,
    /// R7.5: names within s stay, the others move.
    pub stay: Vec<Entry>,
    pub moved: Vec<Entry>,
}

/// R7.3: at which positions, counted from 1, a version looks for its split key among b + 1 names, the one that wins a tie
/// first. m + 1 may be past b.
pub fn split_positions(version: u64, b: usize) -> Vec<usize> {
    let m = b / 2 + 1;
    match version {
        1 => vec![m],
        _ => [m, m - 1, m + 1].into_iter().filter(|position| (1..=b).contains(position)).collect(),
    }
}

/// R7.4: the shortest beginning of a split key that is smaller than as many digits of the last name.
pub fn split_string(key: &Filled, last: &Filled) -> Bound {
    let length = (1..=DIGITS).find(|length| key[..*length] < last[..*length]).expect("names strictly ascend");
    Bound(key[..length].to_vec())
}

/// R7.3 to R7.5: of the strings at a version's positions the shortest, of several that are equally short the first.
pub fn split(version: u64, entries: &[Entry]) -> Split {
    let b = entries.len() - 1;
    let last = entries[b].name;
    let mut best: Option<(Filled, Bound)> = None;
    for position in split_positions(version, b) {
        let key = entries[position - 1].name;
        let string = split_string(&key, &last);
        if best.as_ref().is_none_or(|(_, best)| string.len() < best.len()) {
            best = Some((key, string));
        }
    }
    let (key, string) = best.expect("position m is one of 1 to b");
    let (stay, moved): (Vec<Entry>, Vec<Entry>) =
        entries.iter().cloned().partition(|entry| is_within(&entry.name, &string));
    // R7.5: each of the two gets 1 to b entries.
    assert!((1..=b).contains(&stay.len()) && (1..=b).contains(&moved.len()));
    Split { key, string, stay, moved }
}

/// What a put brings: the value, and the run that writes it.
#[derive(Clone, Copy, PartialEq, Eq, Debug)]
pub struct Content {
    pub value: u64,
    pub run: u64,
}

impl Content {
    pub fn new(value: u64, run: u64) -> Content {
        Content { value, run }
    }
}

/// R7.2 and R7.8: added; R7.9: replaced, with the old value and run.
pub fn put(file: &mut [u8], trie: &mut Trie, name: &[u8], content: Content, limit: u64) -> Answer {
    let sound = match whole_check(limit, &[name], file, trie) {
        Ok(sound) => sound,
        Err(refused) => return refused,
    };
    let header = &sound.header;
    let name = filled(name);
    // R7.2: the bucket A that the name goes into.
    let (a, bucket) = sound.bucket_of(&name);
    let mut with_it = bucket.clone();
    // Versions without runs ignore the run given.
    let entry = Entry { name, value: content.value, run: if header.has_runs() { content.run } else { 0 } };
    if let Some(place) = bucket.entries.iter().position(|entry| entry.name == name) {
        let old = &bucket.entries[place];
        // A higher run stays, an equal one is replaced. The refusal comes after 4 and, like each, before a stop. Where it is
        // given nothing is split, so it never meets 5 or 6.
        if old.run > entry.run {
            return Refused(OLDER_RUN);
        }
        let replaced = Replaced(old.value, old.run);
        with_it.entries[place] = entry;
        return make_stores(file, header, limit, &[(a, bucket_bytes(&with_it, header))]).unwrap_or(replaced);
    }
    with_it.entries.push(entry);
    with_it.entries.sort_by_key(|entry| entry.name);
    // R7.2: with at most b entries, one store.
    if with_it.entries.len() <= header.b {
        return make_stores(file, header, limit, &[(a, bucket_bytes(&with_it, header))]).unwrap_or(Added);
    }
    let split = split(header.version, &with_it.entries);
    // R7.6: the lowest free slot.
    let Some(new) = sound.slots.iter().position(|slot| *slot == Slot::Free) else { return Refused(NO_FREE_SLOT) };
    // R10.6: too many strings after the change.
    let mut after = strings(&sound);
    after.extend(strings_of([&split.string].into_iter()));
    if after.len() > CELLS {
        return Refused(TOO_MANY_STRINGS);
    }
    // R7.7 and R7.8: first the new slot, then A.
    let upper = Bucket { lower: split.string.clone(), upper: bucket.upper.clone(), entries: split.moved };
    let lower = Bucket { lower: bucket.lower.clone(), upper: split.string.clone(), entries: split.stay };
    let stores = [(new, bucket_bytes(&upper, header)), (a, bucket_bytes(&lower, header))];
    if let Some(stopped) = make_stores(file, header, limit, &stores) {
        // R7.12: stopped, the trie stays as it is.
        return stopped;
    }
    grow(trie, &split.string, &split.key, a, new);
    Added
}

/// The two slots that a removal joins: the left one takes everything in, the right one is freed.
///
/// The bucket in `slot` has lost the name already. Its right neighbour is tried first, then its left one; two are joined that
/// have at most half of b entries together, rounded down.
pub fn joined(file: &File, slot: usize, without_it: &Bucket) -> Option<(usize, usize)> {
    let order = file.range_order().expect("the file is sound");
    let place = order.iter().position(|used| *used == slot).expect("the slot is used");
    let few = |other: usize| without_it.entries.len() + file.bucket(other).entries.len() <= file.header.b / 2;
    let right = order.get(place + 1).filter(|right| few(**right)).map(|right| (slot, *right));
    let left = place.checked_sub(1).map(|left| order[left]).filter(|left| few(*left)).map(|left| (left, slot));
    right.or(left)
}

/// R7.10: one store, and the bucket keeps its range, unless it is joined with a neighbour; R7.11: an absent name needs no
/// store.
pub fn remove(file: &mut [u8], trie: &mut Trie, name: &[u8], limit: u64) -> Answer {
    let sound = match whole_check(limit, &[name], file, trie) {
        Ok(sound) => sound,
        Err(refused) => return refused,
    };
    let name = filled(name);
    let (slot, bucket) = sound.bucket_of(&name);
    let mut without_it = bucket.clone();
    without_it.entries.retain(|entry| entry.name != name);
    if without_it == *bucket {
        return Absent;
    }
    let header = &sound.header;
    let Some((left, right)) = joined(&sound, slot, &without_it) else {
        return make_stores(file, header, limit, &[(slot, bucket_bytes(&without_it, header))]).unwrap_or(Removed);
    };
    // Two stores: first the widened slot, without the removed name, then the freed one.
    let part = |part: usize| if part == slot { &without_it } else { sound.bucket(part) };
    let (low, high) = (part(left), part(right));
    let entries = low.entries.iter().chain(&high.entries).cloned().collect();
    let widened = Bucket { lower: low.lower.clone(), upper: high.upper.clone(), entries };
    let stores = [(left, bucket_bytes(&widened, header)), (right, vec![0; header.slot_length()])];
    if let Some(stopped) = make_stores(file, header, limit, &stores) {
        // R7.12: stopped, the trie stays as it is.
        return stopped;
    }
    let merged = File::read(file).expect("the header is right");
    *trie = rebuilt(&merged).expect("a merge adds no string");
    Removed
}

/// R9.8: the entries in the range, ascending, with nothing written behind them; R9.9: none if the first name is above
/// the second.
pub fn list(file: &[u8], trie: &Trie, first: &[u8], second: &[u8], output: &mut [u8]) -> Answer {
    let sound = match whole_check(0, &[first, second], file, trie) {
        Ok(sound) => sound,
        Err(refused) => return refused,
    };
    let listed = entries_between(&sound, &filled(first), &filled(second));
    // R10.7
    if output.len() < sound.header.entry_length() * listed.len() {
        return Refused(OUTPUT_TOO_SHORT);
    }
    let bytes: Vec<u8> = listed.iter().flat_map(|entry| entry_bytes(entry, &sound.header)).collect();
    output[..bytes.len()].copy_from_slice(&bytes);
    Listed(listed.len() as u64)
}

/// The entries from the first to the second name, ascending.
pub fn entries_between(file: &File, first: &Filled, second: &Filled) -> Vec<Entry> {
    let mut entries: Vec<Entry> = file
        .used()
        .flat_map(|(_, bucket)| bucket.entries.iter())
        .filter(|entry| *first <= entry.name && entry.name <= *second)
        .cloned()
        .collect();
    entries.sort_by_key(|entry| entry.name);
    entries
}

#[cfg(test)]
mod tests {
    use super::*;
    use crate::chance::Chance;
    use crate::make::{names, version, STYLES};

    #[test]
    fn positions_of_split_keys() {
        for (b, m) in [(2, 2), (3, 2), (4, 3), (5, 3), (15, 8), (16, 9)] {
            assert_eq!(split_positions(1, b), [m]);
        }
        // m + 1 = 3 is past b = 2.
        assert_eq!(split_positions(2, 2), [2, 1]);
        assert_eq!(split_positions(2, 3), [2, 1, 3]);
        assert_eq!(split_positions(2, 4), [3, 2, 4]);
        assert_eq!(split_positions(2, 16), [9, 8, 10]);
    }

    #[test]
    fn the_shortest_string_wins_and_a_tie_goes_to_the_middle() {
        let string = |version: u64, names: &[&str]| {
            let entries: Vec<Entry> =
                names.iter().map(|name| Entry { name: filled(name.as_bytes()), value: 0, run: 0 }).collect();
            let split = split(version, &entries);
            (String::from_utf8(split.string.0).unwrap(), split.key, split.stay.len())
        };
        // "i" gives "i ", "and" gives "a", "in" gives "in".
        assert_eq!(string(1, &["a", "and", "i", "in", "is"]), ("i ".to_string(), filled(b"i"), 3));
        assert_eq!(string(2, &["a", "and", "i", "in", "is"]), ("a".to_string(), filled(b"and"), 2));
        // "of" gives "o", "and" gives "a".
        assert_eq!(string(2, &["a", "and", "of", "the", "to"]), ("o".to_string(), filled(b"of"), 3));
        assert_eq!(string(2, &["a", "ab", "abc"]), ("a ".to_string(), filled(b"a"), 1));
        assert_eq!(string(2, &["r1", "r2", "r3"]), ("r2".to_string(), filled(b"r2"), 2));
    }

    /// After any history of puts and removes, whatever is deleted in whatever order until nothing is left.
    #[test]
    fn one_bucket_is_left_when_everything_is_deleted() {
        let mut most = 0;
        for seed in 0..400 {
            let mut chance = Chance::new(seed);
            let header = Header::new(version(&mut chance), chance.between(2, 6), chance.between(4, 24));
            let style = *chance.pick(&STYLES);
            let mut pool = names(&mut chance, style, 40);
            let mut file = vec![0; header.file_length()];
            let (_, mut trie) = create(&mut file, header.version, header.b as u64, header.slots as u64);
            for _ in 0..chance.between(20, 150) {
                let name = chance.pick(&pool).clone();
                if chance.percent(65) {
                    put(&mut file, &mut trie, &name, Content::new(1, 1), 2);
                } else {
                    remove(&mut file, &mut trie, &name, 2);
                }
            }
            most = most.max(File::read(&file).unwrap().used().count());
            chance.shuffle(&mut pool);
            for name in &pool {
                assert!(matches!(remove(&mut file, &mut trie, name, 2), Removed | Absent));
            }
            assert_eq!(File::read(&file).unwrap().used().count(), 1, "seed {seed}");
        }
        assert!(most > 15, "at most {most} buckets");
    }

    /// Names nearer to the last share no less with it: a string is never longer than that of a later position.
    #[test]
    fn the_key_behind_the_middle_never_wins() {
        let mut won = [0; 2];
        for seed in 0..4000 {
            let mut chance = Chance::new(seed);
            let b = chance.between(2, 16);
            let style = *chance.pick(&STYLES);
            let mut names: Vec<Filled> = names(&mut chance, style, b + 1).iter().map(|name| filled(name)).collect();
            if names.len() < 3 {
                continue;
            }
            names.sort();
            let entries: Vec<Entry> = names.iter().map(|name| Entry { name: *name, value: 0, run: 0 }).collect();
            let b = names.len() - 1;
            let lengths: Vec<usize> = (0..b).map(|place| split_string(&names[place], &names[b]).len()).collect();
            assert!(lengths.windows(2).all(|pair| pair[0] <= pair[1]));
            let (one, two) = (split(1, &entries), split(2, &entries));
            let m = b / 2 + 1;
            assert!(one.key == names[m - 1]);
            assert!(two.key == names[m - 1] || (two.key == names[m - 2] && two.string.len() < one.string.len()));
            won[(two.key == one.key) as usize] += 1;
        }
        assert!(won.iter().all(|times| *times > 100), "{won:?}");
    }
}
