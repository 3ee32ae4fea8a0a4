//! The process that is killed: opens a file on disk, tells what it finds there, and makes requests until it is killed.
//!
//! Each store is one `pwrite` of exactly the slot's bytes, then `fdatasync`; nothing else of the file is ever written. The
//! library works on copies in memory; what it would store, and in which order, is seen by making the call with the limits
//! 0, 1 and 2. So every call, recovery too, is first stopped and then made again.
//!
//! `python/tests/life.py` is another such process: it says the same of the same requests, over the Python package, whose
//! stores are in a journal first.

use std::fs::{File, OpenOptions};
use std::io::{Read, Write};
use std::os::fd::AsFd;
use std::os::unix::fs::FileExt;
use std::path::Path;

use crate::chance::Chance;
use crate::door::{Call, Outcome, IMAGE};
use crate::library::{by_library, Grounds};
use crate::make;
use crate::model::calls::Content;
use crate::model::file::{Header, HEADER, VERSIONS};

/// The answer of a call that its limit stopped.
pub const STOPPED: u64 = 112;

/// A size and version of file, the names that are asked for, and a history of requests without end: all from one number.
pub struct World {
    pub header: Header,
    pub names: Vec<Vec<u8>>,
    seed: u64,
}

/// b, slots and how many names: small buckets, which split often, and the size that a file has unless it is said.
pub const SIZES: [(usize, usize, usize); 4] = [(2, 64, 250), (3, 64, 350), (16, 24, 500), (16, 64, 1000)];

/// A put of a value by a run, or a remove.
pub struct Request<'a> {
    pub name: &'a [u8],
    pub content: Option<Content>,
}

impl World {
    pub fn new(seed: u64) -> World {
        // With more names than the file can hold, most puts are of new ones.
        let (b, slots, names) = SIZES[(seed % SIZES.len() as u64) as usize];
        let mut chance = Chance::new(seed);
        let style = make::STYLES[(seed / SIZES.len() as u64) as usize % make::STYLES.len()];
        // Among the first sizes there is each version, and later each size has each.
        let version = VERSIONS[((seed + seed / SIZES.len() as u64) % VERSIONS.len() as u64) as usize];
        World { header: Header::new(version, b, slots), names: make::names(&mut chance, style, names), seed }
    }

    /// The request of a number. Its value is no other request's, so that every store changes a byte. Later requests mostly
    /// have later runs; some come late. Some buckets are filled, then most of what came in goes again, so that buckets split
    /// and merge, and the file grows in the long run.
    pub fn request(&self, number: u64) -> Request<'_> {
        let b = self.header.b as u64;
        let (begin, turn) = (number - number % (8 * b), 4 * b);
        let mut chance = self.chance(number);
        let name: &Vec<u8> = chance.pick(&self.names);
        if chance.percent(if number - begin < turn { 95 } else { 20 }) {
            let content = Content::new(number + 1, number / 8 + chance.below(40) as u64);
            return Request { name, content: Some(content) };
        }
        // What was put since `begin`, in this order.
        let earlier = begin + (number - begin) % turn;
        let name: &Vec<u8> = self.chance(earlier).pick(&self.names);
        Request { name, content: None }
    }

    fn chance(&self, number: u64) -> Chance {
        Chance::new(self.seed ^ ((number + 1) << 32))
    }

    /// The world in words, with so many of its requests, for a process without this `Chance`: each name on a line, an
    /// empty line, then on a line each request's name and, of a put, the value and the run, each after a tab, which no name
    /// has.
    pub fn text(&self, requests: u64) -> String {
        let word = |name: &[u8]| String::from_utf8(name.to_vec()).expect("digits are ASCII");
        let names = self.names.iter().map(|name| word(name) + "\n");
        let requests = (0..requests).map(|number| self.request(number)).map(|request| match request.content {
            Some(Content { value, run }) => format!("{}\t{value}\t{run}\n", word(request.name)),
            None => format!("{}\n", word(request.name)),
        });
        names.chain(["\n".to_string()]).chain(requests).collect()
    }
}

/// The call that makes a request.
pub fn call_for(request: &Request, file: &[u8], trie: &[u8], limit: u64) -> Call {
    let (file, trie, name) = (file.to_vec(), trie.to_vec(), request.name.to_vec());
    match request.content {
        Some(Content { value, run }) => Call::Put { file, trie, name, value, run, limit },
        None => Call::Remove { file, trie, name, limit },
    }
}

/// What a process says of a call: which one, for which request or name, its answer, and words 0 and 1 of `out`.
#[derive(Clone, Copy, Debug)]
pub struct Said {
    /// The place in `door::CALLS`.
    pub call: u64,
    pub number: u64,
    /// `ABOUT_TO` before the call is made.
    pub answer: u64,
    pub words: [u64; 2],
}

/// No call answers this.
pub const ABOUT_TO: u64 = 0;

impl Said {
    pub fn write(&self, to: &mut impl Write) {
        let [zero, one] = self.words;
        let words = [self.call, self.number, self.answer, zero, one].map(u64::to_le_bytes);
        to.write_all(&words.concat()).expect("somebody listens");
    }

    /// None at the end. What was said in part was not said.
    pub fn read(from: &mut impl Read) -> Option<Said> {
        let mut bytes = [0; 40];
        from.read_exact(&mut bytes).ok()?;
        let word = |place: usize| u64::from_le_bytes(bytes[8 * place..][..8].try_into().unwrap());
        Some(Said { call: word(0), number: word(1), answer: word(2), words: [word(3), word(4)] })
    }
}

extern "C" {
    pub fn kill(process: i32, signal: i32) -> i32;
    fn alarm(seconds: u32) -> u32;
}

/// SIGKILL's number.
pub const SIGKILL: i32 = 9;

/// A store has three moments to be killed at: before its `pwrite`, between that and `fdatasync`, and after it.
pub const MOMENTS: u64 = 3;

/// One process, from opening the file to its end.
struct Life {
    disk: File,
    listener: File,
    file: Vec<u8>,
    trie: Vec<u8>,
    slot_length: usize,
    /// How many moments are left before the one to die at.
    moments: u64,
    grounds: Grounds,
    turn: usize,
}

/// Opens the file and makes the requests from `first` to `end`, not included; dies at the moment of this number, counted
/// over all its stores.
pub fn live(path: &Path, seed: u64, first: u64, end: u64, moment: u64) {
    // A call that hangs ends the process too, by another signal.
    unsafe { alarm(60) };
    let world = World::new(seed);
    let disk = OpenOptions::new().read(true).write(true).open(path).expect("the file is there");
    // Past the buffer of Rust's standard output: what is said is out before the next step.
    let listener = File::from(std::io::stdout().as_fd().try_clone_to_owned().expect("there is an output"));
    let mut life = Life {
        disk,
        listener,
        file: Vec::new(),
        trie: Vec::new(),
        slot_length: world.header.slot_length(),
        moments: moment,
        grounds: Grounds::default(),
        turn: first as usize,
    };
    life.open(&world);
    for number in first..end {
        life.ask(number, &world.request(number));
    }
}

impl Life {
    /// What the library leaves behind.
    fn call(&mut self, call: &Call) -> Outcome {
        self.turn += 1;
        by_library(call, &mut self.grounds, self.turn).unwrap_or_else(|touched| panic!("{touched}"))
    }

    fn say(&mut self, call: &Call, number: u64, outcome: &Outcome) {
        let words = [outcome.out[0], outcome.out[1]];
        let said = Said { call: call.number() as u64, number, answer: outcome.answer, words };
        said.write(&mut self.listener);
    }

    /// Checks, recovers and rebuilds, then looks up every name and lists them all.
    fn open(&mut self, world: &World) {
        self.disk.read_to_end(&mut self.file).expect("the file can be read");
        let check = Call::Check { file: self.file.clone() };
        let outcome = self.call(&check);
        self.say(&check, 0, &outcome);
        self.change(0, |life, limit| Call::Recover { file: life.file.clone(), limit });
        let rebuild = Call::Rebuild { file: self.file.clone(), trie: vec![0xA5; IMAGE] };
        let outcome = self.call(&rebuild);
        self.say(&rebuild, 0, &outcome);
        self.trie = outcome.trie;
        for (number, name) in world.names.iter().enumerate() {
            let look_up = Call::Lookup { file: self.file.clone(), trie: self.trie.clone(), name: name.clone() };
            let outcome = self.call(&look_up);
            self.say(&look_up, number as u64, &outcome);
        }
        let (first, second) = (vec![0x21], vec![0x7D; 24]);
        let output = vec![0; self.file.len()];
        let list = Call::List { file: self.file.clone(), trie: self.trie.clone(), first, second, output };
        let outcome = self.call(&list);
        self.say(&list, 0, &outcome);
    }

    /// Makes a request, and says so before and after.
    fn ask(&mut self, number: u64, request: &Request) {
        let call = call_for(request, &self.file, &self.trie, 0);
        let about = Said { call: call.number() as u64, number, answer: ABOUT_TO, words: [0, 0] };
        about.write(&mut self.listener);
        self.change(number, |life, limit| call_for(request, &life.file, &life.trie, limit));
    }

    /// Makes a call that changes the file: each store on disk, then the whole in memory. Says so afterwards.
    fn change(&mut self, number: u64, call: impl Fn(&Life, u64) -> Call) {
        let mut stored = self.file.clone();
        for limit in 0.. {
            let made = call(self, limit);
            let outcome = self.call(&made);
            // With a limit of 0 nothing is stored; each further store changes one slot more.
            let slots: Vec<usize> = (0..stored.len())
                .filter(|place| stored[*place] != outcome.file[*place])
                .map(|place| (place - HEADER) / self.slot_length)
                .collect();
            assert!(slots.first() == slots.last() && slots.is_empty() == (limit == 0), "not one slot: {slots:?}");
            if let Some(slot) = slots.first() {
                self.store(*slot, &outcome.file);
            }
            if outcome.answer == STOPPED {
                assert!(outcome.out[0] == limit && outcome.trie == self.trie, "stopped otherwise than asked");
                stored = outcome.file;
                continue;
            }
            self.say(&made, number, &outcome);
            self.file = outcome.file;
            self.trie = outcome.trie;
            return;
        }
    }

    /// A store on disk: one `pwrite` of the slot's bytes, then `fdatasync`.
    fn store(&mut self, slot: usize, file: &[u8]) {
        let start = HEADER + slot * self.slot_length;
        let bytes = &file[start..][..self.slot_length];
        self.moment();
        let written = self.disk.write_at(bytes, start as u64).expect("the file can be written");
        assert_eq!(written, bytes.len());
        self.moment();
        self.disk.sync_data().expect("the file can be synced");
        self.moment();
    }

    /// A moment between two steps of a store: perhaps the last one.
    fn moment(&mut self) {
        if self.moments == 0 {
            // Nothing is unwound or flushed: the process is gone before the call returns.
            unsafe { kill(std::process::id() as i32, SIGKILL) };
        }
        self.moments -= 1;
    }
}

#[cfg(test)]
mod tests {
    use super::*;
    use crate::door::by_model;

    #[test]
    fn each_world_has_splits_and_merges() {
        for seed in 0..24 {
            let world = World::new(seed);
            let Header { version, b, slots } = world.header;
            let file = vec![0; world.header.file_length()];
            let create = Call::Create { file, version, b: b as u64, slots: slots as u64, trie: vec![0; IMAGE] };
            let Outcome { mut file, mut trie, .. } = by_model(&create);
            let mut two_stores = [0, 0];
            for number in 0..24 * b as u64 {
                let request = world.request(number);
                let stopped = by_model(&call_for(&request, &file, &trie, 1)).answer == STOPPED;
                two_stores[request.content.is_none() as usize] += stopped as usize;
                let outcome = by_model(&call_for(&request, &file, &trie, 2));
                assert!(matches!(outcome.answer, 12 | 100..), "{}", outcome.answer);
                (file, trie) = (outcome.file, outcome.trie);
            }
            assert!(two_stores.iter().all(|times| *times > 0), "world {seed}, b = {b}: {two_stores:?}");
        }
    }
}
