//! Demand 3 tried: histories with stops, recoveries and rebuilding end as a plain map's history says.

use std::sync::atomic::{AtomicUsize, Ordering::Relaxed};

use palhavento_tests::histories;
use palhavento_tests::run::{is_whole, part};

#[test]
fn histories_with_stops() {
    let stopped = AtomicUsize::new(0);
    part("histories_with_stops", 9_000_000, 1500, |seed, run| {
        stopped.fetch_add(histories::tell(seed, |call| run.call(call)), Relaxed);
    });
    let stopped = stopped.into_inner();
    assert!(!is_whole() || stopped > 100, "only {stopped} merges were stopped between their stores");
}
