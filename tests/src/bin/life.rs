//! The process that `tests/killed.rs` kills, as a program: the file, and the numbers of `live`.

use std::path::Path;

fn main() {
    let words: Vec<String> = std::env::args().collect();
    let number = |place: usize| words[place].parse().expect("a number");
    palhavento_tests::lives::live(Path::new(&words[1]), number(2), number(3), number(4), number(5));
}
