//! The C interface as values: a call, what it leaves behind, and what the model leaves behind for the same call.

use crate::model::calls::{self, Answer, Content, TRIE_STALE};
use crate::model::trie::{Cell, Side, Trie, CELLS};

/// A trie image has exactly this many bytes.
pub const IMAGE: usize = 1540;

/// 255 stands apart: the call is malformed, since a trie image is not exactly 1,540 bytes long.
pub const MALFORMED: u64 = 255;

/// One call of the C interface, with everything it is lent.
#[derive(Clone, PartialEq, Eq)]
pub enum Call {
    Create { file: Vec<u8>, version: u64, b: u64, slots: u64, trie: Vec<u8> },
    Check { file: Vec<u8> },
    Recover { file: Vec<u8>, limit: u64 },
    Rebuild { file: Vec<u8>, trie: Vec<u8> },
    Lookup { file: Vec<u8>, trie: Vec<u8>, name: Vec<u8> },
    Put { file: Vec<u8>, trie: Vec<u8>, name: Vec<u8>, value: u64, run: u64, limit: u64 },
    Remove { file: Vec<u8>, trie: Vec<u8>, name: Vec<u8>, limit: u64 },
    List { file: Vec<u8>, trie: Vec<u8>, first: Vec<u8>, second: Vec<u8>, output: Vec<u8> },
}

/// The calls by number, for counting.
pub const CALLS: [&str; 8] = ["create", "check", "recover", "rebuild", "lookup", "put", "remove", "list"];

impl Call {
    /// The call's place in `CALLS`.
    pub fn number(&self) -> usize {
        match self {
            Call::Create { .. } => 0,
            Call::Check { .. } => 1,
            Call::Recover { .. } => 2,
            Call::Rebuild { .. } => 3,
            Call::Lookup { .. } => 4,
            Call::Put { .. } => 5,
            Call::Remove { .. } => 6,
            Call::List { .. } => 7,
        }
    }
}

/// What the four words of `out` hold before each call. A word that a call must not write keeps this.
pub const OUT_AT_ENTRY: [u64; 4] =
    [0xA5A5_0000_1111_5A5A, 0xA5A5_2222_3333_5A5A, 0xA5A5_4444_5555_5A5A, 0xA5A5_6666_7777_5A5A];

/// What a call leaves behind: the answer and every byte lent to it that it may change. A call that is not lent one of
/// them leaves it empty; a call without `out` leaves it as at entry.
#[derive(Clone, PartialEq, Eq)]
pub struct Outcome {
    pub answer: u64,
    pub out: [u64; 4],
    pub file: Vec<u8>,
    pub trie: Vec<u8>,
    pub output: Vec<u8>,
}

/// The trie image: any 1,540 bytes are some trie.
pub fn read_image(image: &[u8]) -> Trie {
    assert_eq!(image.len(), IMAGE);
    let word = |place: usize| u16::from_le_bytes([image[place], image[place + 1]]);
    // A side is a signed number of 16 bits: from 0 on it is that slot, below 0 the cell with that number's negative.
    let side = |place: usize| match word(place) as i16 {
        slot @ 0.. => Side::Slot(slot as usize),
        cell => Side::Cell(-(cell as i32) as usize),
    };
    let cells = (0..CELLS).map(|cell| 4 + 6 * cell).map(|at| Cell {
        digit: image[at],
        number: image[at + 1] as usize,
        left: side(at + 2),
        right: side(at + 4),
    });
    Trie { count: word(0) as usize, first_leaf: word(2) as usize, cells: cells.collect() }
}

/// The image of a trie, the inverse of `read_image`.
pub fn write_image(trie: &Trie) -> Vec<u8> {
    let side = |side: Side| match side {
        Side::Slot(slot) => (slot as i32) as i16,
        Side::Cell(cell) => (-(cell as i32)) as i16,
    };
    let mut image = Vec::with_capacity(IMAGE);
    image.extend((trie.count as u16).to_le_bytes());
    image.extend((trie.first_leaf as u16).to_le_bytes());
    for cell in &trie.cells {
        image.extend([cell.digit, cell.number as u8]);
        image.extend(side(cell.left).to_le_bytes());
        image.extend(side(cell.right).to_le_bytes());
    }
    image
}

/// The answer's number, and the words of `out` that it names.
pub fn number_and_words(answer: Answer) -> (u64, Vec<u64>) {
    match answer {
        Answer::Refused(number) => (number, vec![]),
        // Word 0 is the digit number, or 255.
        Answer::Stale(digit) => (TRIE_STALE, vec![digit]),
        // Word 0 is the value, word 1 the run.
        Answer::Found(value, run) => (100, vec![value, run]),
        Answer::Absent => (101, vec![]),
        Answer::Added => (110, vec![]),
        Answer::Replaced(old, old_run) => (111, vec![old, old_run]),
        Answer::Stopped(made) => (112, vec![made]),
        Answer::Removed => (120, vec![]),
        Answer::Freed(slot) => (130, vec![slot]),
        Answer::NothingToDo => (131, vec![]),
        Answer::Sound => (140, vec![]),
        Answer::Cut => (141, vec![]),
        Answer::Bad => (142, vec![]),
        Answer::Created => (150, vec![]),
        Answer::Rebuilt => (151, vec![]),
        Answer::Listed(entries) => (152, vec![entries]),
    }
}

/// What the model leaves behind.
pub fn by_model(call: &Call) -> Outcome {
    let mut outcome =
        Outcome { answer: MALFORMED, out: OUT_AT_ENTRY, file: Vec::new(), trie: Vec::new(), output: Vec::new() };
    let answer = match call {
        Call::Create { file, version, b, slots, trie } => {
            outcome.file.clone_from(file);
            outcome.trie.clone_from(trie);
            if trie.len() != IMAGE {
                return outcome;
            }
            let (answer, given) = calls::create(&mut outcome.file, *version, *b, *slots);
            outcome.trie = write_image(&given);
            answer
        }
        Call::Check { file } => {
            outcome.file.clone_from(file);
            calls::check(file)
        }
        Call::Recover { file, limit } => {
            outcome.file.clone_from(file);
            calls::recover(&mut outcome.file, *limit)
        }
        Call::Rebuild { file, trie } => {
            outcome.file.clone_from(file);
            outcome.trie.clone_from(trie);
            if trie.len() != IMAGE {
                return outcome;
            }
            let (answer, given) = calls::rebuild(file);
            outcome.trie = write_image(&given);
            answer
        }
        Call::Lookup { file, trie, name } => {
            outcome.file.clone_from(file);
            outcome.trie.clone_from(trie);
            if trie.len() != IMAGE {
                return outcome;
            }
            calls::look_up(file, &read_image(trie), name)
        }
        Call::Put { file, trie, name, value, run, limit } => {
            outcome.file.clone_from(file);
            outcome.trie.clone_from(trie);
            if trie.len() != IMAGE {
                return outcome;
            }
            let mut grown = read_image(trie);
            let content = Content::new(*value, *run);
            let answer = calls::put(&mut outcome.file, &mut grown, name, content, *limit);
            outcome.trie = write_image(&grown);
            answer
        }
        Call::Remove { file, trie, name, limit } => {
            outcome.file.clone_from(file);
            outcome.trie.clone_from(trie);
            if trie.len() != IMAGE {
                return outcome;
            }
            let mut merged = read_image(trie);
            let answer = calls::remove(&mut outcome.file, &mut merged, name, *limit);
            outcome.trie = write_image(&merged);
            answer
        }
        Call::List { file, trie, first, second, output } => {
            outcome.file.clone_from(file);
            outcome.trie.clone_from(trie);
            outcome.output.clone_from(output);
            if trie.len() != IMAGE {
                return outcome;
            }
            calls::list(file, &read_image(trie), first, second, &mut outcome.output)
        }
    };
    let (number, words) = number_and_words(answer);
    outcome.answer = number;
    outcome.out[..words.len()].copy_from_slice(&words);
    outcome
}

#[cfg(test)]
mod tests {
    use super::*;
    use crate::chance::Chance;

    #[test]
    fn every_image_is_one_trie() {
        let mut chance = Chance::new(1);
        for _ in 0..200 {
            let image: Vec<u8> = (0..IMAGE).map(|_| chance.byte()).collect();
            assert!(write_image(&read_image(&image)) == image);
        }
    }
}
