//! Counts each pair of call and answer, and says which pairs can occur.

use std::collections::BTreeMap;
use std::sync::atomic::{AtomicU64, Ordering::Relaxed};
use std::sync::Mutex;

use crate::door::CALLS;

/// The answers that each call can give, and why it can give no other refusal. Done answers (100 and up) are those of the
/// C interface's table; 255 is for calls that are lent a trie image.
pub const POSSIBLE: [(&str, &[u64]); 8] = [
    // No name, no file to be bad or cut, no trie or output handed in, no split: 8 alone.
    ("create", &[8, 150, 255]),
    // R9.2: check refuses nothing, and is lent no image.
    ("check", &[140, 141, 142]),
    // No name, trie, split or output. Cut is what it is for (3 names list, put, remove, rebuild). It is lent no image.
    ("recover", &[2, 8, 112, 130, 131]),
    // No name, no trie handed in, no split, no output, no limit.
    ("rebuild", &[2, 3, 6, 151, 255]),
    // Its own order has 1, 2 and 4 only.
    ("lookup", &[1, 2, 4, 100, 101, 255]),
    // No output, so not 7.
    ("put", &[1, 2, 3, 4, 5, 6, 8, 12, 110, 111, 112, 255]),
    // It splits nothing, so neither 5 nor 6 (a file with too many strings agrees with no trie: 4). No output, so not 7. It
    // takes no run, so not 12.
    ("remove", &[1, 2, 3, 4, 8, 101, 112, 120, 255]),
    // No split, so neither 5 nor 6; no limit, so not 8.
    ("list", &[1, 2, 3, 4, 7, 152, 255]),
];

static COUNTS: [[AtomicU64; 256]; 8] = [const { [const { AtomicU64::new(0) }; 256] }; 8];

static MARKS: Mutex<BTreeMap<&'static str, u64>> = Mutex::new(BTreeMap::new());

/// Counts one call that was compared.
pub fn count(call: usize, answer: u64) {
    let possible = POSSIBLE[call].1.contains(&answer);
    assert!(possible, "{} answered {answer}, which it never can", CALLS[call]);
    COUNTS[call][answer as usize].fetch_add(1, Relaxed);
}

/// How many calls were compared so far.
pub fn total() -> u64 {
    COUNTS.iter().flatten().map(|count| count.load(Relaxed)).sum()
}

/// Notes that a situation occurred.
pub fn mark(situation: &'static str) {
    *MARKS.lock().unwrap().entry(situation).or_default() += 1;
}

/// The pairs that can occur and did not.
pub fn never_seen() -> Vec<String> {
    let mut unseen = Vec::new();
    for (call, (name, answers)) in POSSIBLE.iter().enumerate() {
        assert_eq!(*name, CALLS[call]);
        for answer in *answers {
            if COUNTS[call][*answer as usize].load(Relaxed) == 0 {
                unseen.push(format!("{name} answering {answer}"));
            }
        }
    }
    unseen
}

/// The situations of a list that were not noted.
pub fn never_marked(situations: &[&'static str]) -> Vec<String> {
    let marks = MARKS.lock().unwrap();
    situations
        .iter()
        .filter(|situation| !marks.contains_key(*situation))
        .map(|situation| situation.to_string())
        .collect()
}

/// All counts as text.
pub fn table() -> String {
    let mut text = String::new();
    for (call, (name, answers)) in POSSIBLE.iter().enumerate() {
        text += &format!("{name:8}");
        for answer in *answers {
            text += &format!(" {answer}:{}", COUNTS[call][*answer as usize].load(Relaxed));
        }
        text += "\n";
    }
    for (situation, times) in MARKS.lock().unwrap().iter() {
        text += &format!("{times:8} {situation}\n");
    }
    text
}
