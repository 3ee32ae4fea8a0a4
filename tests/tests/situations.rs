//! Every situation of the rules' section 14, shown of the model and of the library.

use palhavento_tests::door::{by_model, Call};
use palhavento_tests::library::{by_library, Grounds};
use palhavento_tests::run::SMALL_STACK;
use palhavento_tests::situations::Door;
use palhavento_tests::watch;

fn show(situation: fn(Door)) {
    watch::start();
    situation(&mut |call: &Call| by_model(call));
    // The library shows it on a thread with little stack, as in all tests.
    let shown = std::thread::Builder::new().stack_size(SMALL_STACK).spawn(move || {
        let mut grounds = Grounds::default();
        let mut turn = 0;
        situation(&mut |call: &Call| {
            turn += 1;
            by_library(call, &mut grounds, turn).unwrap_or_else(|touched| panic!("{touched}"))
        });
    });
    if let Err(panic) = shown.expect("a thread can start").join() {
        std::panic::resume_unwind(panic);
    }
}

palhavento_tests::every_situation!(show);
