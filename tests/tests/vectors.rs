//! The cases that the proofs compare the definitions with are the model's.

use std::path::Path;

use palhavento_tests::vectors;

#[test]
fn the_cases_are_the_models() {
    let place = Path::new(env!("CARGO_MANIFEST_DIR")).join("..").join(vectors::PLACE);
    let text = vectors::text();
    if std::env::var_os("PALHAVENTO_WRITE").is_some() {
        std::fs::write(&place, &text).expect("the file can be written");
    }
    let there = std::fs::read_to_string(&place).unwrap_or_default();
    assert!(
        there == text,
        "{} is not what the model gives. To write it anew: PALHAVENTO_WRITE=1 cargo test --release --offline --test vectors",
        vectors::PLACE
    );
}

#[test]
fn the_statement_names_every_list() {
    let place = Path::new(env!("CARGO_MANIFEST_DIR")).join("..").join(vectors::STATEMENT);
    let statement = std::fs::read_to_string(place).expect("the statement can be read");
    let text = vectors::text();
    let lists = text.lines().filter_map(|line| line.strip_prefix("abbrev pub ")?.strip_suffix(" : List Case"));
    for list in lists {
        assert!(statement.contains(&format!(": cases_hold {list} ≡ true\n")), "the statement lacks the list {list}");
    }
}
