//! What a store of the Python package holds, by its file and the journal beside it: written from docs/FORMAT.md alone.

/// Behind the path of the store.
pub const SUFFIX: &str = ".journal";

const SECTOR: usize = 512;
const PAGE: usize = 4096;
const PLACES: usize = 64;

fn number(bytes: &[u8], at: usize, length: usize) -> u64 {
    bytes[at..at + length].iter().rev().fold(0, |high, byte| high << 8 | *byte as u64)
}

/// The checksum that zlib calls crc32.
fn sum(bytes: &[u8]) -> u64 {
    let step = |sum: u32, byte: &u8| {
        (0..8).fold(sum ^ *byte as u32, |sum, _| sum >> 1 ^ if sum & 1 == 1 { 0xEDB8_8320 } else { 0 })
    };
    !bytes.iter().fold(!0, step) as u64
}

/// The file after all stores that its journal tells of.
pub fn finished(file: &[u8], journal: &[u8]) -> Vec<u8> {
    // An entry of version 3 has 40 bytes.
    let slot = 64 + if file[3] == 3 { 40 } else { 32 } * file[5] as usize;
    let stride = (32 + slot).next_multiple_of(SECTOR);
    let records = (SECTOR + file.len()).next_multiple_of(PAGE);
    let half = (records + PLACES * stride).next_multiple_of(PAGE);
    let part = |from: usize, length: usize| journal.get(from..from + length);
    // Of the halves that have begun with a whole head and a whole copy of the file, the later one.
    let head = |at: &usize| {
        let head = part(*at, SECTOR)?;
        let whole = &head[..4] == b"TKJH" && sum(&head[..508]) == number(head, 508, 4);
        let copy = part(at + SECTOR, file.len())?;
        (whole && sum(copy) == number(head, 28, 4)).then(|| (number(head, 16, 8), &head[8..16], copy))
    };
    let newest = [0, half].iter().filter_map(head).max_by_key(|(first, ..)| *first);
    let Some((mut next, identity, copy)) = newest else { return file.to_vec() };
    let mut made = copy.to_vec();
    // The whole records of this journal, in both halves; made in the order of their numbers, as long as none is missing.
    let record = |at: usize| {
        let record = part(at, 32 + slot)?;
        let whole = &record[..4] == b"TKJR" && sum(&record[8..]) == number(record, 4, 4);
        (whole && &record[8..16] == identity).then_some(record)
    };
    let places =
        [records, half + records].into_iter().flat_map(|from| (0..PLACES).map(move |place| from + place * stride));
    let records: Vec<&[u8]> = places.filter_map(record).collect();
    while let Some(record) = records.iter().find(|record| number(record, 16, 8) == next) {
        let at = 16 + number(record, 24, 4) as usize * slot;
        made[at..at + slot].copy_from_slice(&record[32..]);
        next += 1;
    }
    made
}
