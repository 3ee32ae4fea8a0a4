//! Demand 3 tried for real: processes over a file on disk are killed by SIGKILL, at every moment of some histories and at
//! random, and their successors find every name as the journal says. So are processes of the Python package.

use std::io::Write;
use std::path::{Path, PathBuf};
use std::process::Command;
use std::sync::{Mutex, PoisonError};
use std::time::Duration;

use palhavento_tests::killer::{try_files, Moments, Tally, Victim};
use palhavento_tests::lives::MOMENTS;

/// Runs so long unless PALHAVENTO_SECONDS says otherwise.
const SECONDS: u64 = 5;

/// One trial at a time has the processors.
static TURN: Mutex<()> = Mutex::new(());

/// Kills at every moment and, beside it, in other ways one after the other; tells how often each thing happened.
fn kill(name: &str, victim: &Victim, others: &[Moments]) -> Vec<Tally> {
    let seconds = std::env::var("PALHAVENTO_SECONDS").map_or(SECONDS, |text| text.parse().expect("a number"));
    let time = Duration::from_secs(seconds);
    let default = std::env::var_os("PALHAVENTO_DEFAULT").is_some();
    let _turn = TURN.lock().unwrap_or_else(PoisonError::into_inner);
    let tallies = std::thread::scope(|scope| {
        let every = scope.spawn(|| try_files(victim, Moments::Every, default, time));
        let mut tallies: Vec<Tally> =
            others.iter().map(|how| try_files(victim, *how, default, time / others.len() as u32)).collect();
        tallies.insert(0, every.join().unwrap_or_else(|panic| std::panic::resume_unwind(panic)));
        tallies
    });
    for (how, tally) in [Moments::Every].iter().chain(others).zip(&tallies) {
        // Past the harness, so that a gate's log shows it.
        std::io::stderr().write_all(format!("{name} killed {how}: {tally}\n").as_bytes()).unwrap();
    }
    assert!(tallies[0].between > 0 && tallies[0].freed > 0, "no cut file was met");
    assert!(tallies[0].merging > 0, "no merge was cut");
    tallies
}

fn kills(tallies: &[Tally]) -> u64 {
    tallies.iter().map(|tally| tally.kills).sum()
}

#[test]
fn killed_at_any_moment() {
    let program = vec![PathBuf::from(env!("CARGO_BIN_EXE_life"))];
    let victim = Victim { program, package: false, moments: MOMENTS };
    let tallies = kill("life", &victim, &[Moments::Random]);
    assert!(kills(&tallies) >= 200, "too few kills");
}

#[test]
fn killed_in_python() {
    let package = Path::new(env!("CARGO_MANIFEST_DIR")).join("../python");
    // The interpreter itself: `python3` may be a script that looks for it each time.
    let asked = Command::new("python3")
        .args(["-c", "import sys, palhavento; sys.stdout.write(sys.executable)"])
        .current_dir(&package)
        .output();
    let interpreter = match asked {
        Ok(answer) if answer.status.success() => String::from_utf8(answer.stdout).expect("a path in UTF-8"),
        _ => panic!("needed: python3, and python/palhavento/libpalhavento.so as `make python` builds it"),
    };
    let program = vec![PathBuf::from(interpreter), package.join("tests/life.py")];
    // Before a record is written, before it is synced, before the slot is written, and after.
    let victim = Victim { program, package: true, moments: 4 };
    let tallies = kill("life.py", &victim, &[Moments::Random, Moments::Inside]);
    assert!(kills(&tallies) >= 40, "too few kills");
    assert!(tallies[2].torn > 0, "no slot was torn");
}
