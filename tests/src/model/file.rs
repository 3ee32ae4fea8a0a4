//! The bytes of a file (sections 2 and 3 of the rules), and what is well formed, sound, cut and bad.

use super::names::{filled, is_in_range, is_legal_name, unfilled, Bound, Filled, DIGITS};

/// The header's length; the slots follow it.
pub const HEADER: usize = 16;

/// R2.3: the versions that there are.
pub const VERSIONS: [u64; 3] = [1, 2, 3];

/// What the header says.
#[derive(Clone, Copy, PartialEq, Eq, Debug)]
pub struct Header {
    pub version: u64,
    pub b: usize,
    pub slots: usize,
}

impl Header {
    pub fn new(version: u64, b: usize, slots: usize) -> Header {
        Header { version, b, slots }
    }

    /// R2.3 to R2.5: the version is offered, and the numbers are in their ranges.
    pub fn is_offered(&self) -> bool {
        VERSIONS.contains(&self.version) && (2..=16).contains(&self.b) && (1..=64).contains(&self.slots)
    }

    /// Whether entries have a run number.
    pub fn has_runs(&self) -> bool {
        self.version == 3
    }

    /// R3.13: what one entry takes: name and value, and in version 3 the run.
    pub fn entry_length(&self) -> usize {
        if self.has_runs() {
            40
        } else {
            32
        }
    }

    /// What one slot takes.
    pub fn slot_length(&self) -> usize {
        64 + self.entry_length() * self.b
    }

    /// R2.7: the length of a file.
    pub fn file_length(&self) -> usize {
        HEADER + self.slots * self.slot_length()
    }

    /// The header's bytes.
    pub fn bytes(&self) -> [u8; HEADER] {
        let mut bytes = [0; HEADER];
        bytes[..3].copy_from_slice(b"TKF");
        bytes[3..5].copy_from_slice(&(self.version as u16).to_le_bytes());
        bytes[5] = self.b as u8;
        bytes[6] = self.slots as u8;
        bytes
    }
}

/// R3.13: an entry.
#[derive(Clone, PartialEq, Eq, Debug)]
pub struct Entry {
    pub name: Filled,
    pub value: u64,
    /// The run that wrote it; 0 in a version without runs.
    pub run: u64,
}

/// What a well-formed used slot says.
#[derive(Clone, PartialEq, Eq, Debug)]
pub struct Bucket {
    pub lower: Bound,
    pub upper: Bound,
    pub entries: Vec<Entry>,
}

impl Bucket {
    pub fn holds(&self, name: &Filled) -> bool {
        is_in_range(name, &self.lower, &self.upper)
    }

    /// The entry with a name.
    pub fn entry(&self, name: &Filled) -> Option<&Entry> {
        self.entries.iter().find(|entry| entry.name == *name)
    }
}

/// What the bytes of one slot are.
#[derive(Clone, PartialEq, Eq, Debug)]
pub enum Slot {
    /// R3.1: all zero.
    Free,
    /// A used slot that is well formed.
    Used(Bucket),
    /// Neither.
    Malformed,
}

fn all_zero(bytes: &[u8]) -> bool {
    bytes.iter().all(|byte| *byte == 0)
}

/// The bytes of one slot: free, well formed, or neither.
pub fn read_slot(bytes: &[u8], header: &Header) -> Slot {
    if all_zero(bytes) {
        return Slot::Free;
    }
    match read_bucket(bytes, header) {
        Some(bucket) => Slot::Used(bucket),
        None => Slot::Malformed,
    }
}

/// R3.18: the bucket of a well-formed slot, None when the slot is not well formed.
fn read_bucket(bytes: &[u8], header: &Header) -> Option<Bucket> {
    // R3.2 to R3.6 and R3.11: the slot's own numbers, and its zero bytes.
    let count = bytes[1] as usize;
    let lower_length = bytes[2] as usize;
    let upper_length = bytes[3] as usize;
    let lengths_hold = bytes[0] == 1 && count <= header.b && lower_length <= DIGITS && upper_length <= DIGITS;
    if !lengths_hold || !all_zero(&bytes[4..8]) || !all_zero(&bytes[56..64]) {
        return None;
    }
    let (lower, lower_rest) = bytes[8..32].split_at(lower_length);
    let (upper, upper_rest) = bytes[32..56].split_at(upper_length);
    let (entries, entries_rest) = bytes[64..].split_at(header.entry_length() * count);
    // R3.8, R3.10 and R3.17: zero behind the bounds and the entries.
    if !all_zero(lower_rest) || !all_zero(upper_rest) || !all_zero(entries_rest) {
        return None;
    }
    let lower = Bound(lower.to_vec());
    let upper = Bound(upper.to_vec());
    if !lower.is_legal() || !upper.is_legal() {
        return None;
    }
    // R3.12: lower below upper, if neither is empty.
    if !lower.is_empty() && !upper.is_empty() && lower >= upper {
        return None;
    }
    let mut bucket = Bucket { lower, upper, entries: Vec::new() };
    for bytes in entries.chunks(header.entry_length()) {
        let name = unfilled(&bytes[..24]);
        // R3.13 to R3.16: legal names, ascending, each in the range.
        if !is_legal_name(name) {
            return None;
        }
        let number = |bytes: &[u8]| u64::from_le_bytes(bytes.try_into().unwrap());
        let run = if header.has_runs() { number(&bytes[32..]) } else { 0 };
        let entry = Entry { name: filled(name), value: number(&bytes[24..32]), run };
        let ascends = bucket.entries.last().is_none_or(|before| before.name < entry.name);
        if !ascends || !bucket.holds(&entry.name) {
            return None;
        }
        bucket.entries.push(entry);
    }
    Some(bucket)
}

/// The bytes of an entry. A version without runs has no place for one.
pub fn entry_bytes(entry: &Entry, header: &Header) -> Vec<u8> {
    let mut bytes = [&entry.name[..], &entry.value.to_le_bytes()].concat();
    if header.has_runs() {
        bytes.extend(entry.run.to_le_bytes());
    }
    bytes
}

/// The bytes of a used slot.
pub fn bucket_bytes(bucket: &Bucket, header: &Header) -> Vec<u8> {
    let mut bytes = vec![0; header.slot_length()];
    bytes[0] = 1;
    bytes[1] = bucket.entries.len() as u8;
    bytes[2] = bucket.lower.len() as u8;
    bytes[3] = bucket.upper.len() as u8;
    bytes[8..8 + bucket.lower.len()].copy_from_slice(&bucket.lower.0);
    bytes[32..32 + bucket.upper.len()].copy_from_slice(&bucket.upper.0);
    let entries: Vec<u8> = bucket.entries.iter().flat_map(|entry| entry_bytes(entry, header)).collect();
    bytes[64..64 + entries.len()].copy_from_slice(&entries);
    bytes
}

/// R7.1: a store replaces one whole slot.
pub fn store(file: &mut [u8], header: &Header, slot: usize, bytes: &[u8]) {
    file[HEADER + slot * header.slot_length()..][..header.slot_length()].copy_from_slice(bytes);
}

/// A file whose length and header are right, with its slots as read.
pub struct File {
    pub header: Header,
    pub slots: Vec<Slot>,
}

/// None if length or header is wrong (R2.1 to R2.7).
pub fn header(file: &[u8]) -> Option<Header> {
    if file.len() < HEADER {
        return None;
    }
    let version = u16::from_le_bytes([file[3], file[4]]) as u64;
    let header = Header::new(version, file[5] as usize, file[6] as usize);
    let right =
        &file[..3] == b"TKF" && header.is_offered() && all_zero(&file[7..16]) && file.len() == header.file_length();
    right.then_some(header)
}

/// The bytes of one slot of a file whose length and header are right.
pub fn slot_bytes<'a>(file: &'a [u8], header: &Header, slot: usize) -> &'a [u8] {
    &file[HEADER + slot * header.slot_length()..][..header.slot_length()]
}

impl File {
    /// None if length or header is wrong.
    pub fn read(bytes: &[u8]) -> Option<File> {
        let header = header(bytes)?;
        let slots = (0..header.slots).map(|slot| read_slot(slot_bytes(bytes, &header, slot), &header)).collect();
        Some(File { header, slots })
    }

    /// The used slots with their numbers.
    pub fn used(&self) -> impl Iterator<Item = (usize, &Bucket)> {
        self.slots.iter().enumerate().filter_map(|(number, slot)| match slot {
            Slot::Used(bucket) => Some((number, bucket)),
            _ => None,
        })
    }

    /// The bucket in a slot that is known to be used.
    pub fn bucket(&self, slot: usize) -> &Bucket {
        let Slot::Used(bucket) = &self.slots[slot] else { panic!("slot {slot} is not used") };
        bucket
    }

    /// The used slots in range order, if the file is sound.
    pub fn range_order(&self) -> Option<Vec<usize>> {
        range_order(&self.slots.iter().collect::<Vec<_>>())
    }

    /// The one bucket whose range holds the name. A sound file has it.
    pub fn bucket_of(&self, name: &Filled) -> (usize, &Bucket) {
        let mut holders = self.used().filter(|(_, bucket)| bucket.holds(name));
        let holder = holders.next().expect("ranges leave no gap");
        assert!(holders.next().is_none(), "ranges do not overlap");
        holder
    }
}

/// R4.2 to R4.7: sound.
///
/// Length and header are right here. The answer is that order, None if there is none. In it the uppers strictly ascend,
/// so it can only be the order of the uppers.
pub fn range_order(slots: &[&Slot]) -> Option<Vec<usize>> {
    let mut used: Vec<(usize, &Bucket)> = Vec::new();
    for (number, slot) in slots.iter().enumerate() {
        match slot {
            Slot::Free => {}
            Slot::Used(bucket) => used.push((number, bucket)),
            Slot::Malformed => return None,
        }
    }
    used.sort_by(|(_, left), (_, right)| left.upper.cmp(&right.upper));
    let (_, first) = used.first()?;
    let (_, last) = used.last()?;
    let sound = first.lower.is_empty()
        && last.upper.is_empty()
        && used.windows(2).all(|pair| {
            let (before, after) = (pair[0].1, pair[1].1);
            after.lower == before.upper && !after.lower.is_empty() && before.upper < after.upper
        });
    sound.then(|| used.iter().map(|(number, _)| *number).collect())
}

/// R4.8 to R4.13: cut.
///
/// The answer is N, None if the file is not cut.
pub fn cut_slot(file: &File) -> Option<usize> {
    let mut found: Vec<usize> = Vec::new();
    for (n, bucket) in file.used() {
        let mut slots: Vec<&Slot> = file.slots.iter().collect();
        slots[n] = &Slot::Free;
        if range_order(&slots).is_none() || bucket.lower.is_empty() {
            continue;
        }
        if file.used().any(|(a, other)| a != n && is_cut_pair(other, bucket)) {
            found.push(n);
        }
    }
    assert!(found.len() <= 1, "at most one slot can be N");
    found.first().copied()
}

/// The words of *cut* that speak of A and N together.
fn is_cut_pair(a: &Bucket, n: &Bucket) -> bool {
    let inside: Vec<&Entry> = a.entries.iter().filter(|entry| n.holds(&entry.name)).collect();
    let exactly = n.entries.iter().eq(inside.iter().copied());
    let one_more = (0..n.entries.len()).any(|more| {
        let rest = n.entries.iter().enumerate().filter(|(place, _)| *place != more).map(|(_, entry)| entry);
        rest.eq(inside.iter().copied())
    });
    a.upper == n.upper && (a.lower.is_empty() || a.lower < n.lower) && (exactly || one_more)
}

/// What check says of a file.
pub enum Kind {
    Sound(File),
    /// The slot is N.
    Cut(usize),
    /// R4.14: neither.
    Bad,
}

/// Sound, cut or bad. Sound and cut exclude each other, so it does not matter which is asked first.
pub fn kind(bytes: &[u8]) -> Kind {
    let Some(file) = File::read(bytes) else { return Kind::Bad };
    if file.range_order().is_some() {
        return Kind::Sound(file);
    }
    match cut_slot(&file) {
        Some(n) => Kind::Cut(n),
        None => Kind::Bad,
    }
}
