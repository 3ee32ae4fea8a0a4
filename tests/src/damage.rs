//! Damages files and tries in the ways that a stopped, mixed up or hostile caller might.

use crate::chance::Chance;
use crate::door::{read_image, write_image, IMAGE};
use crate::make;
use crate::model::file::{header, File, Header, HEADER};
use crate::model::trie::{Place, Side, Trie, CELLS};

/// A damaged copy of a file. Some damage leaves it sound: a changed value, two slots that changed places.
pub fn damaged_file(chance: &mut Chance, file: &[u8], names: &[Vec<u8>]) -> Vec<u8> {
    let mut damaged = file.to_vec();
    let times = if chance.percent(80) { 1 } else { 2 };
    for _ in 0..times {
        damage_file(chance, &mut damaged, names);
    }
    damaged
}

fn damage_file(chance: &mut Chance, file: &mut Vec<u8>, names: &[Vec<u8>]) {
    let Some(header) = header(file) else {
        return change_length(chance, file);
    };
    let Header { b, slots, .. } = header;
    let length = header.slot_length();
    let entry_length = header.entry_length();
    let slot = chance.below(slots);
    let at = HEADER + slot * length;
    match chance.below(22) {
        // One bit anywhere, or in a slot's first 64 bytes.
        0 => {
            let place = chance.below(file.len());
            file[place] ^= 1 << chance.below(8);
        }
        1 => {
            let place = at + chance.below(64);
            file[place] ^= 1 << chance.below(8);
        }
        // Two slots change places: the file stays sound, its tries become stale.
        2 | 3 => {
            let other = HEADER + chance.below(slots) * length;
            for place in 0..length {
                file.swap(at + place, other + place);
            }
        }
        // One slot's bytes over another's.
        4 | 5 => {
            let other = HEADER + chance.below(slots) * length;
            file.copy_within(other..other + length, at);
        }
        6 => file[at..at + length].fill(0),
        // An unused entry is dirty, or an entry's byte is another.
        7 | 8 => {
            let count = (file[at + 1] as usize).min(b);
            let entry = if chance.percent(50) && count < b { chance.between(count, b - 1) } else { chance.below(b) };
            let place = at + 64 + entry_length * entry + chance.below(entry_length);
            file[place] = if chance.percent(50) { file[place].wrapping_add(1) } else { chance.byte() };
        }
        // A bound's length or digit.
        9 => {
            let place = at + chance.between(2, 3);
            file[place] = if chance.percent(50) { file[place].wrapping_add(1) } else { file[place].wrapping_sub(1) };
        }
        10 => {
            let place = at + chance.between(8, 55);
            file[place] = *chance.pick(&[0x00, 0x20, 0x21, 0x7D, 0x7E, 0xFF]);
        }
        // The bytes that must be zero.
        11 => {
            let place = at + *chance.pick(&[4, 5, 6, 7, 56, 57, 62, 63]);
            file[place] = chance.byte();
        }
        // Another bound on both sides of the border, so that only the entries can tell.
        12 | 13 => change_border(chance, file, names),
        14 => {
            let count = file[at + 1];
            file[at + 1] = *chance.pick(&[count.wrapping_add(1), count.wrapping_sub(1), 0, b as u8, b as u8 + 1, 255]);
        }
        // Two entries change places, or one stands twice.
        15 => {
            let (one, other) = (at + 64 + entry_length * chance.below(b), at + 64 + entry_length * chance.below(b));
            if chance.percent(50) {
                for place in 0..entry_length {
                    file.swap(one + place, other + place);
                }
            } else {
                file.copy_within(one..one + entry_length, other);
            }
        }
        // A value or a run: the file stays sound if the entry is used.
        16 => {
            let place = at + 64 + entry_length * chance.below(b) + chance.between(24, entry_length - 1);
            file[place] = file[place].wrapping_add(1);
        }
        17 => file[at] = *chance.pick(&[0, 1, 2, 255]),
        18 => {
            let place = chance.below(HEADER);
            file[place] = if chance.percent(50) { file[place].wrapping_add(1) } else { chance.byte() };
        }
        // Another version: the splits were of the one before.
        19 => file[3..5].copy_from_slice(&(make::version(chance) as u16).to_le_bytes()),
        // One slot more or less, with the length that belongs to it.
        20 => {
            if chance.percent(50) && slots < 64 {
                file[6] += 1;
                file.extend(vec![0; length]);
            } else if slots > 1 {
                file[6] -= 1;
                file.truncate(file.len() - length);
            }
        }
        _ => change_length(chance, file),
    }
}

fn change_length(chance: &mut Chance, file: &mut Vec<u8>) {
    let length = file.len();
    let new = match chance.below(6) {
        0 => length.saturating_sub(1),
        1 => length + 1,
        2 => 0,
        3 => chance.below(17),
        4 => chance.below(length + 1),
        _ => length + chance.below(200),
    };
    file.resize(new, if chance.percent(50) { 0 } else { 0x41 });
}

/// Gives two buckets side by side another bound between them.
fn change_border(chance: &mut Chance, file: &mut [u8], names: &[Vec<u8>]) {
    let Some(read) = File::read(file) else { return };
    let borders: Vec<_> = read.used().filter(|(_, bucket)| !bucket.upper.is_empty()).collect();
    if borders.is_empty() {
        return;
    }
    let (below, bucket) = chance.pick(&borders);
    let Some((above, _)) = read.used().find(|(_, other)| other.lower == bucket.upper) else { return };
    let mut new = if chance.percent(50) { make::bound(chance, names) } else { bucket.upper.clone() };
    if chance.percent(50) {
        let last = new.len() - 1;
        new.0[last] = new.0[last].saturating_add(1).min(0x7D);
    }
    let length = read.header.slot_length();
    let (upper, lower) = (HEADER + below * length, HEADER + above * length);
    file[upper + 3] = new.len() as u8;
    file[upper + 32..upper + 56].fill(0);
    file[upper + 32..upper + 32 + new.len()].copy_from_slice(&new.0);
    file[lower + 2] = new.len() as u8;
    file[lower + 8..lower + 32].fill(0);
    file[lower + 8..lower + 8 + new.len()].copy_from_slice(&new.0);
}

/// A damaged copy of a trie image.
pub fn damaged_trie(chance: &mut Chance, image: &[u8]) -> Vec<u8> {
    if image.len() != IMAGE || chance.percent(4) {
        return (0..IMAGE).map(|_| chance.byte()).collect();
    }
    if chance.percent(15) {
        let mut damaged = image.to_vec();
        for _ in 0..chance.between(1, 3) {
            let used = 4 + 6 * (read_image(image).count.min(CELLS));
            let end = if chance.percent(80) { used } else { IMAGE };
            let place = chance.below(end);
            damaged[place] = if chance.percent(50) { chance.byte() } else { damaged[place] ^ (1 << chance.below(8)) };
        }
        return damaged;
    }
    let mut trie = read_image(image);
    let times = if chance.percent(80) { 1 } else { 3 };
    for _ in 0..times {
        damage_trie(chance, &mut trie);
    }
    write_image(&trie)
}

fn damage_trie(chance: &mut Chance, trie: &mut Trie) {
    let count = trie.count.clamp(1, CELLS);
    let cell = chance.below(count);
    let place = if chance.percent(50) { Place::Left(cell) } else { Place::Right(cell) };
    match chance.below(14) {
        0 => {
            trie.count = *chance.pick(&[0, 1, count - 1, count + 1, 255, 256, 257, 300, 0x7FFF, 0x8000, 0xFFFF]);
        }
        1 => trie.first_leaf = *chance.pick(&[0, 1, 2, 63, 64, 0x7FFF, 0x8000, 0xFFFF]),
        // Dirt past the count.
        2 if trie.count < CELLS => {
            let dirty = &mut trie.cells[chance.between(trie.count, CELLS - 1)];
            match chance.below(4) {
                0 => dirty.digit = 1 + chance.byte() / 2,
                1 => dirty.number = chance.between(1, 255),
                2 => dirty.left = Side::Slot(chance.between(1, 64)),
                _ => dirty.right = Side::Cell(chance.between(1, 256)),
            }
        }
        // A side leads to another slot, or to one that is none.
        3..=5 => trie.set(place, Side::Slot(chance.below(8))),
        6 => trie.set(place, Side::Slot(*chance.pick(&[63, 64, 65, 255, 256, 0x7FFF]))),
        // A side leads to any cell: a cycle or a shared cell.
        7 if count > 1 => trie.set(place, Side::Cell(chance.between(1, count - 1))),
        8 if cell > 0 => trie.set(place, Side::Cell(cell)),
        // A side leads to a cell at or past the count.
        9 => trie.set(place, Side::Cell(*chance.pick(&[count, count + 1, 255, 256, 257, 0x7FFF, 0x8000]))),
        10 => {
            let digit = &mut trie.cells[cell].digit;
            *digit = match chance.below(4) {
                0 => digit.wrapping_add(1),
                1 => digit.wrapping_sub(1),
                2 => *chance.pick(&[0, 0x1F, 0x20, 0x21, 0x7D, 0x7E, 0xFF]),
                _ => chance.byte(),
            };
        }
        11 => {
            let number = &mut trie.cells[cell].number;
            *number = match chance.below(4) {
                0 => (*number + 1) & 0xFF,
                1 => number.saturating_sub(1),
                2 => *chance.pick(&[0, 1, 22, 23, 24, 25, 127, 128, 255]),
                _ => chance.below(24),
            };
        }
        12 => {
            let cell = &mut trie.cells[cell];
            std::mem::swap(&mut cell.left, &mut cell.right);
        }
        // Two cells change their numbers, what leads to them does not.
        _ => {
            let other = chance.below(count);
            trie.cells.swap(cell, other);
        }
    }
}

/// A copy in which one leaf that no legal name reaches leads elsewhere. None if the trie has no such leaf.
pub fn unreached_leaf_changed(chance: &mut Chance, trie: &Trie, slots: usize) -> Option<Trie> {
    let places = make::unreached_leaves(trie);
    if places.is_empty() || slots < 2 {
        return None;
    }
    let place = *chance.pick(&places);
    let mut changed = trie.clone();
    for _ in 0..10 {
        changed.set(place, Side::Slot(chance.below(slots)));
        if changed != *trie {
            return Some(changed);
        }
    }
    None
}
