//! Kills processes over a file on disk, and holds what they leave and what their successors find against a journal.
//!
//! The journal is kept here, outside the processes: a plain map of the requests that count. A request that was said to be
//! made counts. The one in flight at a kill counts when its last store has reached the file, and not before, but a removal
//! that merges counts from its first store on; which stores have is seen by the bytes: the model says what the file holds
//! after each of them.
//!
//! A SIGKILL leaves every finished `pwrite` whole, synced or not: only a machine that fails loses what is not yet on disk.
//! Linux looks for the signal also between two pages of one `pwrite`, so a slot across the edge of a page may be left in
//! part. The rules promise nothing of half a store (R7.1). Where the process has no journal, such a slot is put back as it was,
//! and counted. The Python package has one: there, file and journal together must say what some whole stores leave, and some
//! kills are aimed inside a `pwrite`, so that slots and records are left in part.

use std::collections::BTreeMap;
use std::fs::File;
use std::io::{BufRead, BufReader, Read, Write};
use std::os::unix::process::ExitStatusExt;
use std::path::PathBuf;
use std::process::{Child, ChildStdout, Command, Stdio};
use std::sync::atomic::{AtomicU64, Ordering};
use std::time::{Duration, Instant};

use crate::chance::Chance;
use crate::door::{by_model, Call, Outcome, CALLS, IMAGE};
use crate::journal;
use crate::library::{by_library, Grounds};
use crate::lives::{self, call_for, Said, World, ABOUT_TO, SIGKILL, SIZES, STOPPED};

/// A program that opens the file, makes requests and says so, as `lives.rs` does.
pub struct Victim {
    /// The program and its first arguments.
    pub program: Vec<PathBuf>,
    /// It is the package: slow, so it is killed less often and later, and never before its first word; started once, to fork
    /// for each life; and it keeps a journal beside the file, and can be told to die inside a `pwrite`.
    pub package: bool,
    /// How many moments each of its stores has to be killed at. At the first nothing is made; at the others the store is.
    pub moments: u64,
}

/// How often each thing happened.
#[derive(Default)]
pub struct Tally {
    pub kills: u64,
    /// Kills between the two stores of a split: the file is left cut.
    pub between: u64,
    /// Kills between the two stores of a merge: the file is left cut, and the removal counts.
    pub merging: u64,
    /// Kills after a last store, before its request was said to be made.
    pub unsaid: u64,
    /// Kills of a process that had still to recover a cut file.
    pub recovering: u64,
    /// Recoveries that freed a slot.
    pub freed: u64,
    /// Requests refused because the name was held with a higher run.
    pub older: u64,
    pub requests: u64,
    pub names: u64,
    pub files: u64,
    /// Slots left in part.
    pub torn: u64,
    /// Kills inside a `pwrite`, of a slot or of its record in the journal.
    pub inside: u64,
}

/// When a process is killed.
enum Kill {
    /// By itself, at this moment of its stores.
    Moment(u64),
    /// By itself, inside the `pwrite` of a record, or with an odd number of a slot, after half as many stores.
    Inside(u64),
    /// From outside, so long after its start; of a slow one, after its first word.
    Started(Duration),
    /// From outside, so long after it has opened the file.
    Opened(Duration),
    /// Not at all: it opens the file and ends.
    Never,
}

/// What a process was doing when it was killed.
enum Flight {
    Opening,
    Request(u64),
    Nothing,
}

/// A process that was started, and where it is heard.
struct Process {
    number: i32,
    said: Box<dyn Read + Send>,
    /// None where another process is its parent.
    child: Option<Child>,
}

/// The package, started once: it forks a process for each life, and tells its number and how it ended.
struct Nursery {
    process: Child,
    told: BufReader<ChildStdout>,
}

impl Nursery {
    fn new(victim: &Victim) -> Nursery {
        let mut command = Command::new(&victim.program[0]);
        let command = command.args(&victim.program[1..]).stdin(Stdio::piped()).stdout(Stdio::piped());
        let mut process = command.spawn().expect("the package can start");
        let told = BufReader::new(process.stdout.take().expect("there is a pipe"));
        Nursery { process, told }
    }

    fn answer(&mut self) -> i32 {
        let mut line = String::new();
        self.told.read_line(&mut line).expect("the package answers");
        line.trim().parse().expect("the package answers with a number")
    }

    fn bear(&mut self, words: &[String]) -> i32 {
        let pipe = self.process.stdin.as_mut().expect("there is a pipe");
        writeln!(pipe, "{}", words.join(" ")).expect("the package listens");
        self.answer()
    }
}

impl Drop for Nursery {
    fn drop(&mut self) {
        // It ends when nobody asks any more.
        drop(self.process.stdin.take());
        self.process.wait().expect("the package ends");
    }
}

/// More requests than any file is asked for.
const REQUESTS: u64 = 10_000;

/// A process that dies by itself has so many requests before it: long before the last there was a store to die at. A full
/// file refuses most puts, and of small slots few stores can be torn, so a hundred would be too few.
const AHEAD: u64 = 1_000;

/// The files so far, so that each has a name of its own.
static FILES: AtomicU64 = AtomicU64::new(0);

/// One file on disk with its journal.
struct Trial<'a> {
    victim: &'a Victim,
    path: PathBuf,
    /// The journal of the process, where it has one.
    beside: PathBuf,
    /// The world in words, beside the file.
    told: PathBuf,
    seed: u64,
    world: World,
    nursery: Option<Nursery>,
    /// What the file holds, by the model.
    file: Vec<u8>,
    /// Each name's value and run; a version without runs gives 0.
    journal: BTreeMap<Vec<u8>, [u64; 2]>,
    /// The first request that does not count yet.
    next: u64,
    refused: u64,
    tally: &'a mut Tally,
}

impl<'a> Trial<'a> {
    fn new(victim: &'a Victim, seed: u64, tally: &'a mut Tally) -> Trial<'a> {
        let world = World::new(seed);
        let header = &world.header;
        let (b, slots) = (header.b as u64, header.slots as u64);
        let file = vec![0xA5; header.file_length()];
        let create = Call::Create { file, version: header.version, b, slots, trie: vec![0; IMAGE] };
        let created = by_library(&create, &mut Grounds::default(), 0).expect("nothing beside is written");
        assert!(created == by_model(&create), "create differs from the model");
        let number = FILES.fetch_add(1, Ordering::Relaxed);
        let path = std::env::temp_dir().join(format!("palhavento-killed-{}-{number}", std::process::id()));
        let told = path.with_extension("world");
        let beside = PathBuf::from(format!("{}{}", path.display(), journal::SUFFIX));
        std::fs::write(&path, &created.file).expect("the folder for temporary files can be written");
        std::fs::write(&told, world.text(REQUESTS)).expect("the folder for temporary files can be written");
        tally.files += 1;
        let (file, journal) = (created.file, BTreeMap::new());
        let nursery = victim.package.then(|| Nursery::new(victim));
        Trial { victim, path, beside, told, seed, world, nursery, file, journal, next: 0, refused: 0, tally }
    }

    fn is_cut(&self) -> bool {
        by_model(&Call::Check { file: self.file.clone() }).answer == 141
    }

    /// One process from start to end. True if the request in flight counts, or none was.
    fn life(&mut self, kill: Kill) -> bool {
        const NEVER: u64 = u64::MAX;
        let (end, moment, inside) = match kill {
            Kill::Moment(moment) => (self.next + AHEAD, moment, NEVER),
            Kill::Inside(write) => (self.next + AHEAD, NEVER, write),
            Kill::Never => (self.next, NEVER, NEVER),
            _ => (NEVER, NEVER, NEVER),
        };
        let mut words = vec![self.path.display().to_string()];
        words.extend([self.seed, self.next, end, moment, inside].map(|number| number.to_string()));
        let process = self.start(&words);
        let mut pipe = BufReader::new(process.said);
        let mut said: Vec<Said> = Vec::new();
        let mut listen = |until: &str| {
            while let Some(next) = Said::read(&mut pipe) {
                said.push(next);
                if CALLS[next.call as usize] == until {
                    break;
                }
            }
        };
        match kill {
            Kill::Moment(_) | Kill::Inside(_) | Kill::Never => listen(""),
            Kill::Started(after) | Kill::Opened(after) => {
                // To check is the first step of opening, to list the last.
                if matches!(kill, Kill::Opened(_)) {
                    listen("list");
                } else if self.victim.package {
                    listen("check");
                }
                std::thread::scope(|scope| {
                    scope.spawn(|| listen(""));
                    std::thread::sleep(after);
                    assert_eq!(unsafe { lives::kill(process.number, SIGKILL) }, 0, "the process can be killed");
                });
            }
        }
        // 0, or the number of the signal that ended it, below 0.
        let ended = match process.child {
            None => self.nursery.as_mut().expect("there is a package").answer(),
            Some(mut child) => {
                let status = child.wait().expect("the process ends");
                status.signal().map_or(status.code().unwrap_or(1), |signal| -signal)
            }
        };
        assert_eq!(ended, if matches!(kill, Kill::Never) { 0 } else { -SIGKILL }, "how the process ended");
        self.tally.kills += !matches!(kill, Kill::Never) as u64;
        self.tally.inside += matches!(kill, Kill::Inside(_)) as u64;
        if matches!(kill, Kill::Never) {
            assert!(!self.beside.exists(), "a journal is left behind by a store that was closed");
        }
        let flight = self.hear(&said);
        self.settle(flight)
    }

    /// A process with these arguments.
    fn start(&mut self, words: &[String]) -> Process {
        if let Some(nursery) = &mut self.nursery {
            let number = nursery.bear(words);
            let said = File::open(self.path.with_extension("said")).expect("there is a pipe of that name");
            return Process { number, said: Box::new(said), child: None };
        }
        let mut command = Command::new(&self.victim.program[0]);
        let command = command.args(&self.victim.program[1..]).args(words).stdin(Stdio::null()).stdout(Stdio::piped());
        let mut child = command.spawn().expect("the process can start");
        let said = Box::new(child.stdout.take().expect("there is a pipe"));
        Process { number: child.id() as i32, said, child: Some(child) }
    }

    /// Holds what a process said against model and journal. What it was doing at its end.
    fn hear(&mut self, said: &[Said]) -> Flight {
        let mut flight = Flight::Opening;
        let mut trie = Vec::new();
        for said in said {
            let (answer, file) = (said.answer, self.file.clone());
            match CALLS[said.call as usize] {
                "check" => assert_eq!(answer, by_model(&Call::Check { file }).answer, "check"),
                "recover" => {
                    let outcome = by_model(&Call::Recover { file, limit: 1 });
                    assert_eq!((answer, &said.words[..]), (outcome.answer, &outcome.out[..2]), "recover");
                    self.tally.freed += (answer == 130) as u64;
                    self.file = outcome.file;
                    flight = Flight::Nothing;
                }
                "rebuild" => {
                    let outcome = by_model(&Call::Rebuild { file, trie: vec![0; IMAGE] });
                    assert_eq!((answer, outcome.answer), (151, 151), "rebuild");
                    trie = outcome.trie;
                }
                "lookup" => {
                    let name = &self.world.names[said.number as usize];
                    let found = (answer == 100).then_some(said.words);
                    assert!(answer == 100 || answer == 101, "look up refused {answer}");
                    assert_eq!(found, self.journal.get(name).copied(), "{name:?} against the journal");
                    self.tally.names += 1;
                }
                "list" => assert_eq!((answer, said.words[0]), (152, self.journal.len() as u64), "list"),
                "put" | "remove" if answer == ABOUT_TO => {
                    assert_eq!(said.number, self.next, "requests come in order");
                    flight = Flight::Request(said.number);
                }
                "put" | "remove" => {
                    let outcome = by_model(&call_for(&self.world.request(said.number), &file, &trie, 2));
                    let expected = (outcome.answer, &outcome.out[..2]);
                    assert_eq!((answer, &said.words[..]), expected, "request {}", said.number);
                    self.count(&outcome);
                    trie = outcome.trie;
                    flight = Flight::Nothing;
                }
                other => panic!("a process said {other}"),
            }
        }
        flight
    }

    /// The next request counts, with what it leaves behind.
    fn count(&mut self, outcome: &Outcome) {
        let request = self.world.request(self.next);
        let run = request.content.filter(|_| self.world.header.has_runs()).map_or(0, |content| content.run);
        let old = match request.content {
            _ if outcome.answer < 100 => self.journal.get(request.name).copied(),
            Some(content) => self.journal.insert(request.name.to_vec(), [content.value, run]),
            None => self.journal.remove(request.name),
        };
        match outcome.answer {
            // Only a put of a new name splits, and only a split or an older run is refused here.
            5 | 6 => assert!(request.content.is_some() && old.is_none()),
            12 => assert!(old.is_some_and(|old| old[1] > run)),
            110 | 101 => assert_eq!(old, None),
            111 => assert!(old.is_some_and(|old| old == outcome.out[..2] && old[1] <= run)),
            120 => assert!(old.is_some()),
            other => panic!("request {} was answered by {other}", self.next),
        }
        self.refused += matches!(outcome.answer, 5 | 6) as u64;
        self.tally.older += (outcome.answer == 12) as u64;
        self.tally.requests += 1;
        self.next += 1;
        self.file.clone_from(&outcome.file);
    }

    /// Finds which stores of what was in flight have reached the file. True if it counts, or nothing was.
    fn settle(&mut self, flight: Flight) -> bool {
        let was_cut = self.is_cut();
        let file = self.file.clone();
        let trie = by_model(&Call::Rebuild { file: file.clone(), trie: vec![0; IMAGE] }).trie;
        // What the call leaves behind after none of its stores, after one, and so on to the last.
        let mut states: Vec<Outcome> = Vec::new();
        loop {
            let limit = states.len() as u64;
            let call = match flight {
                Flight::Request(number) => call_for(&self.world.request(number), &file, &trie, limit),
                Flight::Opening => Call::Recover { file: file.clone(), limit },
                Flight::Nothing => Call::Check { file: file.clone() },
            };
            states.push(by_model(&call));
            if states.last().is_some_and(|state| state.answer != STOPPED) {
                break;
            }
        }
        let left = std::fs::read(&self.path).expect("the file is there");
        let reached = if self.victim.package {
            self.tally.torn += states.iter().all(|state| state.file != left) as u64;
            let said = std::fs::read(&self.beside).unwrap_or_default();
            let finished = journal::finished(&left, &said);
            let reached = states.iter().position(|state| state.file == finished);
            reached.expect("file and journal are what some of the stores leave behind")
        } else {
            let reached = states.iter().position(|state| state.file == left);
            reached.unwrap_or_else(|| self.put_back(&states, &left))
        };
        let whole = reached == states.len() - 1;
        let counts = match flight {
            Flight::Request(number) => {
                let removes = self.world.request(number).content.is_none();
                let part = (reached > 0 && !whole) as u64;
                self.tally.unsaid += (reached > 0 && whole) as u64;
                *if removes { &mut self.tally.merging } else { &mut self.tally.between } += part;
                whole || (removes && reached > 0)
            }
            Flight::Opening => {
                self.tally.recovering += was_cut as u64;
                whole
            }
            Flight::Nothing => whole,
        };
        if let (Flight::Request(_), true, Some(last)) = (flight, counts, states.last()) {
            self.count(last);
        }
        // A merge that counts already may still have its right slot to free.
        self.file.clone_from(&states[reached].file);
        counts
    }

    /// A store that the kill left in part, its first pages new and the rest old, is put back. The stores before it.
    fn put_back(&mut self, states: &[Outcome], left: &[u8]) -> usize {
        const PAGE: usize = 4096;
        let is_torn = |pair: &[Outcome], edge: usize| {
            left[..edge] == pair[1].file[..edge] && left[edge..] == pair[0].file[edge..]
        };
        let torn = |pair: &[Outcome]| (PAGE..left.len()).step_by(PAGE).any(|edge| is_torn(pair, edge));
        let before = states.windows(2).position(torn).expect("the file is what some of the stores leave behind");
        std::fs::write(&self.path, &states[before].file).expect("the file can be written");
        self.tally.torn += 1;
        before
    }

    /// Kills before the first store of each call of the history, between any two, and after the last, up to this request.
    /// A request that does not count is made again, and comes further.
    fn at_every_moment(&mut self, requests: u64) {
        let moments = self.victim.moments;
        let mut moment = 0;
        while self.next < requests {
            // A cut file is recovered first, and that is a store too.
            let recovery = moments * self.is_cut() as u64;
            let counts = self.life(Kill::Moment(recovery + moment));
            // The recovery is killed as well, at each of its moments in turn.
            if self.is_cut() {
                self.life(Kill::Moment(self.tally.recovering % moments));
            }
            moment = match moment % moments {
                _ if counts => 0,
                // A last store is made only once, so the moments at which it is made take turns.
                0 => moment + 1 + self.next % (moments - 1),
                step => moment + moments - step,
            };
        }
    }

    /// How many stores are made before the next removal that merges; None if it is far.
    fn stores_before_a_merge(&self) -> Option<u64> {
        let mut file = by_model(&Call::Recover { file: self.file.clone(), limit: 1 }).file;
        let mut trie = by_model(&Call::Rebuild { file: file.clone(), trie: vec![0; IMAGE] }).trie;
        let mut stores = 0;
        for number in self.next..self.next + 90 {
            let request = self.world.request(number);
            let made = (0..2).find(|limit| by_model(&call_for(&request, &file, &trie, *limit)).answer != STOPPED);
            if request.content.is_none() && made.is_none() {
                return Some(stores);
            }
            stores += made.unwrap_or(2);
            let outcome = by_model(&call_for(&request, &file, &trie, 2));
            (file, trie) = (outcome.file, outcome.trie);
        }
        None
    }

    /// Kills in the next merges: between the two stores of one, after both of the next, and so on.
    fn at_merges(&mut self, kills: u64) {
        let moments = self.victim.moments;
        for kill in 0..kills {
            let Some(stores) = self.stores_before_a_merge() else { return };
            // A cut file is recovered first, and that is a store too. At the second moment of a store it is made.
            let before = self.is_cut() as u64 + stores + kill % 2;
            self.life(Kill::Moment(moments * before + 1));
        }
    }

    /// Kills inside the `pwrite` of a record or of a slot.
    fn inside(&mut self, chance: &mut Chance, end: Instant) {
        while self.goes_on(end) {
            // Mostly of a slot: an odd number.
            self.life(Kill::Inside(2 * chance.between(0, 12) as u64 + chance.percent(85) as u64));
        }
    }

    /// Until the file is full, or the time or the requests are over.
    fn goes_on(&self, end: Instant) -> bool {
        self.refused < 5 && self.next + AHEAD < REQUESTS && Instant::now() < end
    }

    /// Kills at random moments, from microseconds to milliseconds.
    fn at_random(&mut self, chance: &mut Chance, end: Instant) {
        while self.goes_on(end) {
            let (shortest, longest) = if self.victim.package { (6, 16) } else { (0, 14) };
            let most = 1 << chance.between(shortest, longest);
            let after = Duration::from_micros(chance.between(0, most) as u64);
            self.life(if chance.percent(25) { Kill::Started(after) } else { Kill::Opened(after) });
        }
    }
}

/// The file is removed, or told where to find if it shows a fault.
impl Drop for Trial<'_> {
    fn drop(&mut self) {
        if std::thread::panicking() {
            println!("world {}, request {}, the file: {}", self.seed, self.next, self.path.display());
        } else {
            std::fs::remove_file(&self.path).expect("the file can be removed");
            std::fs::remove_file(&self.told).expect("the file can be removed");
            if self.victim.package {
                std::fs::remove_file(self.path.with_extension("said")).expect("the pipe can be removed");
            }
        }
    }
}

/// How a trial chooses its moments.
#[derive(Clone, Copy, PartialEq, Eq)]
pub enum Moments {
    Every,
    Random,
    Inside,
}

impl std::fmt::Display for Moments {
    fn fmt(&self, to: &mut std::fmt::Formatter) -> std::fmt::Result {
        to.write_str(match self {
            Moments::Every => "at every moment",
            Moments::Random => "at random",
            Moments::Inside => "inside a write",
        })
    }
}

/// Tries one file after another until the time is over, and at least one of each size; of the default size alone if asked.
pub fn try_files(victim: &Victim, moments: Moments, default: bool, time: Duration) -> Tally {
    let end = Instant::now() + time;
    let sizes = SIZES.len() as u64;
    let first = if moments == Moments::Every { 0 } else { 900_000 };
    let (first, step, least) = if default { (first + sizes - 1, sizes, 1) } else { (first, 1, sizes) };
    let mut tally = Tally::default();
    for seed in (first..).step_by(step as usize) {
        if tally.files >= least && Instant::now() >= end {
            break;
        }
        let mut trial = Trial::new(victim, seed, &mut tally);
        let b = trial.world.header.b as u64;
        match moments {
            Moments::Every if victim.package => {
                // One process fills the first bucket, so that a split is near.
                trial.life(Kill::Moment(victim.moments * b));
                trial.at_every_moment(trial.next + 4);
                trial.at_merges(2);
            }
            Moments::Every => {
                trial.at_every_moment(8 * b);
                trial.at_merges(6);
            }
            Moments::Random => trial.at_random(&mut Chance::new(seed), end.min(Instant::now() + time / 4)),
            Moments::Inside => trial.inside(&mut Chance::new(seed), end.min(Instant::now() + time / 4)),
        }
        // The last kill, too, is followed by a process that finds every name.
        trial.life(Kill::Never);
    }
    tally
}

impl std::fmt::Display for Tally {
    fn fmt(&self, to: &mut std::fmt::Formatter) -> std::fmt::Result {
        write!(
            to,
            "{} kills, {} between the two stores of a split, {} of a merge, {} after a last store, {} in a recovery; {} recoveries \
             freed a slot; {} names compared, {} requests, {} with an older run, {} files; {} inside a write, {} slots torn",
            self.kills,
            self.between,
            self.merging,
            self.unsaid,
            self.recovering,
            self.freed,
            self.names,
            self.requests,
            self.older,
            self.files,
            self.inside,
            self.torn
        )
    }
}
