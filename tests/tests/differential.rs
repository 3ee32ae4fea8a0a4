//! Compares the library with the model on about a million calls: file, trie image, output, `out` and answer.
//!
//! Each test is a part of one whole; cargo runs them side by side. The part that ends last checks the whole: enough calls,
//! and every pair of call and answer that can occur.

use std::io::Write;
use std::sync::atomic::{AtomicUsize, Ordering::SeqCst};

use palhavento_tests::answers;
use palhavento_tests::model::file::VERSIONS;
use palhavento_tests::run::{is_whole, part, Run};
use palhavento_tests::stories::{tell_brim, tell_built, tell_history, Profile, SITUATIONS};
use palhavento_tests::sweeps;

/// As many parts as there are tests below.
const PARTS: usize = 22;
/// So many calls at least are compared in a whole run.
const CALLS: u64 = 1_000_000;

/// A story for each version.
const EACH_VERSION: u64 = VERSIONS.len() as u64;

static ENDED: AtomicUsize = AtomicUsize::new(0);

/// Runs a part, and checks the whole if it was the last one.
fn run_part(name: &'static str, first: u64, stories: u64, tell: impl Fn(u64, &mut Run)) {
    part(name, first, stories, tell);
    if ENDED.fetch_add(1, SeqCst) + 1 == PARTS && is_whole() {
        check_whole();
    }
}

fn check_whole() {
    println!("{}", answers::table());
    let unseen = answers::never_seen();
    assert!(unseen.is_empty(), "pairs that can occur and were never seen: {unseen:?}");
    let unmarked = answers::never_marked(SITUATIONS);
    assert!(unmarked.is_empty(), "situations that never occurred: {unmarked:?}");
    let total = answers::total();
    assert!(total >= CALLS, "only {total} calls were compared");
    // Past the harness, so that a gate's log shows it.
    let figure = format!("{total} library calls compared with the model, no difference\n");
    std::io::stderr().write_all(figure.as_bytes()).unwrap();
}

#[test]
fn small_histories() {
    let profile = Profile { b: (2, 4), slots: (1, 8), names: (6, 30), changes: (20, 60), beside: 60, puts: 75 };
    run_part("small_histories", 1_000_000, 4000, |seed, run| tell_history(seed, run, &profile));
}

#[test]
fn smallest_histories() {
    let profile = Profile { b: (2, 2), slots: (2, 4), names: (4, 10), changes: (10, 30), beside: 50, puts: 75 };
    run_part("smallest_histories", 2_000_000, 3000, |seed, run| tell_history(seed, run, &profile));
}

#[test]
fn middle_histories() {
    let profile = Profile { b: (2, 16), slots: (4, 40), names: (40, 200), changes: (100, 250), beside: 40, puts: 75 };
    run_part("middle_histories", 3_000_000, 250, |seed, run| tell_history(seed, run, &profile));
}

#[test]
fn full_histories() {
    let profile =
        Profile { b: (16, 16), slots: (64, 64), names: (1000, 1600), changes: (1200, 2000), beside: 15, puts: 92 };
    run_part("full_histories", 4_000_000, 28, |seed, run| tell_history(seed, run, &profile));
}

#[test]
fn small_built() {
    let profile = Profile { b: (2, 4), slots: (1, 8), names: (4, 30), changes: (4, 12), beside: 100, puts: 75 };
    run_part("small_built", 5_000_000, 4000, |seed, run| tell_built(seed, run, &profile));
}

#[test]
fn middle_built() {
    let profile = Profile { b: (2, 16), slots: (4, 64), names: (10, 100), changes: (10, 30), beside: 100, puts: 75 };
    run_part("middle_built", 6_000_000, 800, |seed, run| tell_built(seed, run, &profile));
}

#[test]
fn full_built() {
    let profile = Profile { b: (16, 16), slots: (64, 64), names: (20, 300), changes: (10, 30), beside: 100, puts: 75 };
    run_part("full_built", 7_000_000, 560, |seed, run| tell_built(seed, run, &profile));
}

#[test]
fn brim() {
    let profile = Profile { b: (2, 16), slots: (20, 64), names: (0, 0), changes: (10, 30), beside: 100, puts: 75 };
    run_part("brim", 8_000_000, 600, |seed, run| tell_brim(seed, run, &profile));
}

#[test]
fn create_arguments() {
    run_part("create_arguments", 0, 1, sweeps::create_arguments);
}

#[test]
fn headers() {
    run_part("headers", 0, 1, sweeps::headers);
}

#[test]
fn fullest_file() {
    run_part("fullest_file", 0, 3, sweeps::fullest_file);
}

#[test]
fn stored_digits() {
    run_part("stored_digits", 0, EACH_VERSION, sweeps::stored_digits);
}

#[test]
fn bytes_of_a_name() {
    run_part("bytes_of_a_name", 0, 1, sweeps::bytes_of_a_name);
}

#[test]
fn bits_of_a_file() {
    run_part("bits_of_a_file", 0, EACH_VERSION, sweeps::bits_of_a_file);
}

#[test]
fn bits_of_a_trie() {
    run_part("bits_of_a_trie", 0, 1, sweeps::bits_of_a_trie);
}

#[test]
fn orders() {
    run_part("orders", 0, 14, sweeps::orders);
}

#[test]
fn removals() {
    run_part("removals", 0, 8, sweeps::removals);
}

#[test]
fn vintages() {
    run_part("vintages", 0, 3 * EACH_VERSION, sweeps::vintages);
}

#[test]
fn small_files() {
    run_part("small_files", 0, EACH_VERSION, sweeps::small_files);
}

#[test]
fn walks() {
    run_part("walks", 0, EACH_VERSION, sweeps::walks);
}

#[test]
fn broken_bounds() {
    run_part("broken_bounds", 0, 1, sweeps::broken_bounds);
}

#[test]
fn thrown_tries() {
    run_part("thrown_tries", 10_000_000, 600, sweeps::thrown_tries);
}
