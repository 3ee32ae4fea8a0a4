//! Runs stories: each call goes to the model at once and to the library soon after, and both must leave the same behind.

use std::fmt::Write;
use std::time::Instant;

use crate::answers;
use crate::door::{by_model, Call, Outcome, CALLS};
use crate::library::{by_library, Grounds};
use crate::watch::{seat, Seat};

/// The library's calls run on a thread with this little stack.
pub const SMALL_STACK: usize = 128 * 1024;

/// So many calls are gathered before a thread compares them.
const BATCH: usize = 128;

/// One call, where it stands in which story, and what the model left behind.
struct Case {
    story: u64,
    step: u64,
    call: Call,
    expected: Outcome,
}

/// A part of the suite while it runs.
pub struct Run {
    part: &'static str,
    story: u64,
    step: u64,
    waiting: Vec<Case>,
    grounds: Grounds,
    seat: &'static Seat,
    compared: u64,
    told_step: Option<u64>,
}

/// A number from the environment.
fn asked(name: &str) -> Option<u64> {
    std::env::var(name).ok().map(|text| text.parse().unwrap_or_else(|_| panic!("{name} is a number")))
}

/// Tells the stories `first`, `first` + 1, ... of a part. A story is made from its number alone, so the number is the
/// seed that repeats it: with PALHAVENTO_STORY set, only that story is told. With PALHAVENTO_STEP set too, the inputs of
/// that step are printed before the library is called, for a call that does not come back.
pub fn part(name: &'static str, first: u64, stories: u64, tell: impl Fn(u64, &mut Run)) -> u64 {
    let mut run = Run {
        part: name,
        story: 0,
        step: 0,
        waiting: Vec::new(),
        grounds: Grounds::default(),
        seat: seat(name),
        compared: 0,
        told_step: asked("PALHAVENTO_STEP"),
    };
    let numbers = asked("PALHAVENTO_STORY").map_or(first..first + stories, |only| only..only + 1);
    println!("part {name}: stories {} to {}", numbers.start, numbers.end - 1);
    let start = Instant::now();
    for story in numbers {
        run.story = story;
        run.step = 0;
        tell(story, &mut run);
    }
    run.compare();
    println!("part {name}: {} calls compared in {:.1} s", run.compared, start.elapsed().as_secs_f64());
    run.compared
}

/// True when the whole suite is run, not one story of it.
pub fn is_whole() -> bool {
    asked("PALHAVENTO_STORY").is_none()
}

impl Run {
    /// Makes a call. The answer is what the model left behind; the library is compared with it before the part ends.
    pub fn call(&mut self, call: Call) -> Outcome {
        self.step += 1;
        let expected = by_model(&call);
        answers::count(call.number(), expected.answer);
        let outcome = expected.clone();
        self.waiting.push(Case { story: self.story, step: self.step, call, expected });
        if self.waiting.len() >= BATCH {
            self.compare();
        }
        outcome
    }

    /// Compares the library with the model on the calls that wait.
    fn compare(&mut self) {
        let cases = std::mem::take(&mut self.waiting);
        self.compared += cases.len() as u64;
        let part = self.part;
        let seat = self.seat;
        let grounds = &mut self.grounds;
        let told_step = self.told_step;
        let compare_all = || {
            cases.iter().find_map(|case| {
                if told_step == Some(case.step) {
                    println!("{}", tell_case(part, case));
                }
                seat.enter(case.story, case.step);
                let turn = (case.story as usize).wrapping_add(case.step as usize);
                let left_behind = by_library(&case.call, grounds, turn);
                seat.leave();
                difference(case, left_behind).map(|difference| {
                    format!("the library differs from the model\n{}{difference}", tell_case(part, case))
                })
            })
        };
        let found = std::thread::scope(|scope| {
            let thread = std::thread::Builder::new().name(part.to_string()).stack_size(SMALL_STACK);
            thread.spawn_scoped(scope, compare_all).expect("a thread can start").join()
        });
        match found {
            Ok(None) => {}
            Ok(Some(report)) => panic!("{report}"),
            Err(panic) => std::panic::resume_unwind(panic),
        }
    }
}

/// A model that contradicts itself says in which story.
impl Drop for Run {
    fn drop(&mut self) {
        if std::thread::panicking() {
            println!("part {}, last call made by the model: story {}, step {}", self.part, self.story, self.step);
        }
    }
}

/// In what the library differs, if it does.
fn difference(case: &Case, left_behind: Result<Outcome, String>) -> Option<String> {
    let library = match left_behind {
        Ok(outcome) => outcome,
        Err(touched) => return Some(touched),
    };
    let model = &case.expected;
    if library == *model {
        return None;
    }
    let mut text = String::new();
    writeln!(text, "answer: model {}, library {}", model.answer, library.answer).unwrap();
    if model.out != library.out {
        writeln!(text, "out: model {:x?}, library {:x?}", model.out, library.out).unwrap();
    }
    for (what, model, library) in [
        ("file", &model.file, &library.file),
        ("trie", &model.trie, &library.trie),
        ("output", &model.output, &library.output),
    ] {
        let places: Vec<usize> = (0..model.len()).filter(|place| model[*place] != library[*place]).collect();
        if let Some(first) = places.first() {
            let end = model.len().min(first + 48);
            writeln!(text, "{what} differs in {} bytes, first at {first}:", places.len()).unwrap();
            writeln!(text, "  model   {}", hex(&model[*first..end])).unwrap();
            writeln!(text, "  library {}", hex(&library[*first..end])).unwrap();
        }
    }
    Some(text)
}

/// Everything that repeats a call.
fn tell_case(part: &str, case: &Case) -> String {
    let mut text = String::new();
    writeln!(text, "part {part}, story {}, step {}", case.story, case.step).unwrap();
    writeln!(text, "repeat: PALHAVENTO_STORY={} cargo test --release --offline {part}", case.story).unwrap();
    writeln!(text, "call: {}", CALLS[case.call.number()]).unwrap();
    match &case.call {
        Call::Create { file, version, b, slots, trie } => {
            writeln!(text, "version {version}, b {b}, slots {slots}").unwrap();
            tell_bytes(&mut text, &[("file", file), ("trie", trie)]);
        }
        Call::Check { file } => tell_bytes(&mut text, &[("file", file)]),
        Call::Recover { file, limit } => {
            writeln!(text, "limit {limit}").unwrap();
            tell_bytes(&mut text, &[("file", file)]);
        }
        Call::Rebuild { file, trie } => tell_bytes(&mut text, &[("file", file), ("trie", trie)]),
        Call::Lookup { file, trie, name } => tell_bytes(&mut text, &[("name", name), ("file", file), ("trie", trie)]),
        Call::Put { file, trie, name, value, run, limit } => {
            writeln!(text, "value {value:#x}, run {run:#x}, limit {limit}").unwrap();
            tell_bytes(&mut text, &[("name", name), ("file", file), ("trie", trie)]);
        }
        Call::Remove { file, trie, name, limit } => {
            writeln!(text, "limit {limit}").unwrap();
            tell_bytes(&mut text, &[("name", name), ("file", file), ("trie", trie)]);
        }
        Call::List { file, trie, first, second, output } => {
            let all = [("first", first), ("second", second), ("file", file), ("trie", trie), ("output", output)];
            tell_bytes(&mut text, &all);
        }
    }
    text
}

fn tell_bytes(text: &mut String, all: &[(&str, &Vec<u8>)]) {
    for (what, bytes) in all {
        let mut digits = hex(bytes);
        if digits.len() > 20_000 {
            digits.truncate(20_000);
            digits += " ...";
        }
        writeln!(text, "{what}, {} bytes: {digits}", bytes.len()).unwrap();
    }
}

/// The bytes in hex. Eight or more equal ones are told once, with their number.
pub fn hex(bytes: &[u8]) -> String {
    let mut text = String::new();
    let mut rest = bytes;
    while let Some(first) = rest.first() {
        let equal = rest.iter().take_while(|byte| *byte == first).count();
        if equal >= 8 {
            write!(text, " {first:02x}*{equal} ").unwrap();
            rest = &rest[equal..];
        } else {
            write!(text, "{first:02x}").unwrap();
            rest = &rest[1..];
        }
    }
    text.trim().to_string()
}
