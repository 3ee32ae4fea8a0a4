//! Stories: a file and its trie live through many calls, and beside that life other calls are made on damaged copies.

use crate::answers::mark;
use crate::chance::Chance;
use crate::damage::{damaged_file, damaged_trie, unreached_leaf_changed};
use crate::door::{read_image, write_image, Call, Outcome, IMAGE};
use crate::make::{self, cut_file, shaped, sound_file, value, Roots, STYLES};
use crate::model::calls::{entries_between, split, split_positions, split_string};
use crate::model::file::{cut_slot, header, kind, read_slot, slot_bytes, Bucket, Entry, File, Header, Kind, Slot};
use crate::model::names::{filled, is_legal_name, is_within, unfilled, Bound, Filled, BLANK, DIGITS};
use crate::model::trie::{agrees, rebuilt, strings, strings_of, walk, Side, CELLS};
use crate::run::Run;

/// The sizes of a story, each from the first to the second number.
pub struct Profile {
    pub b: (usize, usize),
    pub slots: (usize, usize),
    pub names: (usize, usize),
    /// Changes of the file.
    pub changes: (usize, usize),
    /// Out of 100 changes, so many are puts.
    pub puts: usize,
    /// Out of 100 changes, so many are followed by calls on copies.
    pub beside: usize,
}

/// What check answers.
const SOUND: u64 = 140;
const CUT: u64 = 141;
const BAD: u64 = 142;

/// What must have occurred in the whole run, beside every pair of call and answer.
pub const SITUATIONS: &[&str] = &[
    "a split that adds no cell",
    "a split that adds one cell",
    "a split that adds several cells",
    "a split that adds 24 cells",
    "a split that leads two or more old leaves to the new slot",
    "a split of a trie with count 0",
    "a split that fills all 256 cells",
    "a split of a trie that is neither grown nor rebuilt",
    "a split into a slot below a used one",
    "a split into slot 63",
    "a split in a file of version 1",
    "a split in a file of version 2",
    "a split in a file of version 3",
    "a split by the key before the middle one",
    "a split by the key before the middle one, b = 2",
    "a tie of two split strings, which the middle key wins",
    "a tie of two split strings, which the middle key wins, b = 2",
    "a sound file with the splits of another version",
    "a split string that ends in a blank",
    "a split string that ends in several blanks",
    "a split string with a blank inside",
    "a split of names with a blank inside",
    "a list from or to a name with a blank inside",
    "an illegal name with a blank first",
    "an illegal name with a blank last",
    "a list of 1024 entries",
    "a split stopped after one store, the new name moved",
    "a split stopped after one store, the new name stayed",
    "a removal that merges to the right",
    "a removal that merges to the left",
    "a removal that merges to the right, and could to the left",
    "a removal that merges, b = 2",
    "a removal that merges, b = 3",
    "a removal that merges in a file of version 1",
    "a removal that merges in a file of version 2",
    "a removal that merges in a file of version 3",
    "a removal that would merge with one entry less",
    "a removal that leaves one bucket",
    "a merge with a trie that is neither grown nor rebuilt",
    "a merge to the right stopped after one store",
    "a merge to the left stopped after one store",
    "a merge with limit 0",
    "an absent name beside buckets that would merge",
    "a split into a slot that a merge freed",
    "a cut file whose bucket is not full",
    "a recovery that was stopped",
    "a trie rebuilt with 256 cells",
    "a lone used slot other than 0",
    "a sound file with more than 256 strings",
    "a sound file with more than 256 strings, a lookup that answers",
    "a stale trie that answers a lookup",
    "a stale trie that is refused by a lookup",
    "a lookup refused 4 by its walk",
    "a lookup refused 4 by a free slot",
    "a lookup refused 4 below the lower bound",
    "a lookup refused 4 at the whole lower bound",
    "a lookup refused 4 above the upper bound",
    "a digit number above 23 on a path of 24 digits",
    "a walk that meets a cell twice",
    "a lookup that answers in a cut file",
    "a lookup that answers in a bad file",
    "a leaf that no legal name reaches was changed, put refuses",
    "a leaf that no legal name reaches was changed, remove refuses",
    "a leaf that no legal name reaches was changed, list refuses",
    "a leaf that no legal name reaches was changed, a lookup answers",
    "an older run is refused",
    "an older run is refused with limit 0",
    "an equal run replaces",
    "a newer run replaces",
    "the run 0 replaces the run 0",
    "the greatest run replaces itself",
    "the greatest run refuses the one below it",
    "an older run is ignored by a version without runs",
    "8 stands before 12",
    "2 stands before 12",
    "3 stands before 12",
    "4 stands before 12",
    "a list into an output that is exactly long enough",
    "a list into an output one byte too short",
    "a list whose first name is above its second",
    "an absent name removed with limit 0",
    "nothing to recover with limit 0",
    "8 stands before 1",
    "8 stands before 2",
    "8 stands before 3",
    "8 stands before 4",
    "1 stands before 2",
    "1 stands before 3",
    "1 stands before 4",
    "2 stands before 4",
    "3 stands before 4",
    "4 stands before 5",
    "4 stands before 7",
    "5 stands before 6",
];

/// One story while it is told.
struct Story<'a> {
    chance: Chance,
    run: &'a mut Run,
    names: Vec<Vec<u8>>,
    file: Vec<u8>,
    trie: Vec<u8>,
    /// Images that once agreed with the file.
    old_tries: Vec<Vec<u8>>,
    puts: usize,
    /// The slot that the last merge freed.
    freed: Option<usize>,
}

/// The story of a new file.
pub fn tell_history(seed: u64, run: &mut Run, profile: &Profile) {
    let mut chance = Chance::new(seed);
    let b = chance.between(profile.b.0, profile.b.1);
    let slots = chance.between(profile.slots.0, profile.slots.1);
    let style = *chance.pick(&STYLES);
    let how_many = chance.between(profile.names.0, profile.names.1);
    let mut names = make::names(&mut chance, style, how_many);
    if chance.percent(20) {
        let other = *chance.pick(&STYLES);
        names.extend(make::names(&mut chance, other, how_many / 2 + 1));
    }
    let dirt = chance.byte();
    let trie = vec![dirt; IMAGE];
    let header = Header::new(make::version(&mut chance), b, slots);
    let file = vec![dirt; header.file_length()];
    let made = run.call(Call::Create { file, version: header.version, b: b as u64, slots: slots as u64, trie });
    let changes = chance.between(profile.changes.0, profile.changes.1);
    let (file, trie) = (made.file, made.trie);
    let mut story = Story { chance, run, names, file, trie, old_tries: Vec::new(), puts: profile.puts, freed: None };
    // In half of the stories, what has come in goes again.
    let turn = if story.chance.percent(50) { changes * 2 / 3 } else { changes };
    for change in 0..changes {
        if change == turn {
            story.puts = 100 - profile.puts;
        }
        story.change();
        if story.chance.percent(profile.beside) {
            story.beside();
        }
    }
}

/// The story of a sound file with arbitrary bounds, as no history leaves it.
pub fn tell_built(seed: u64, run: &mut Run, profile: &Profile) {
    let mut chance = Chance::new(seed);
    let b = chance.between(profile.b.0, profile.b.1);
    let slots = chance.between(profile.slots.0, profile.slots.1);
    let used = match chance.below(4) {
        0 => 1,
        1 => slots,
        _ => chance.between(1, slots),
    };
    let style = *chance.pick(&STYLES);
    let how_many = chance.between(profile.names.0, profile.names.1);
    let mut names = make::names(&mut chance, style, how_many);
    let header = Header::new(make::version(&mut chance), b, slots);
    let mut file = sound_file(&mut chance, header, used, &names);
    if chance.percent(40) {
        file = make::thinned(&mut chance, &file);
    }
    names.extend(make::names_near(&mut chance, &file));
    tell_of_file(chance, run, profile, file, names);
}

/// The story of a sound file that has just about as many strings as a trie can have.
pub fn tell_brim(seed: u64, run: &mut Run, profile: &Profile) {
    let mut chance = Chance::new(seed);
    let b = chance.between(profile.b.0, profile.b.1);
    let slots = if chance.percent(40) { 64 } else { chance.between(profile.slots.0, profile.slots.1) };
    let used = *chance.pick(&[slots, slots - 1, slots - 1, slots - 2]);
    let how_many = *chance.pick(&[200, 240, 250, 254, 255, 256, 256, 257, 280]);
    let header = Header::new(make::version(&mut chance), b, slots);
    let file = make::file_with_strings(&mut chance, header, used, how_many);
    let names = make::names_near(&mut chance, &file);
    tell_of_file(chance, run, profile, file, names);
}

fn tell_of_file(mut chance: Chance, run: &mut Run, profile: &Profile, file: Vec<u8>, names: Vec<Vec<u8>>) {
    let read = File::read(&file).unwrap();
    let order = read.range_order().unwrap();
    if order.len() == 1 && order[0] != 0 {
        mark("a lone used slot other than 0");
    }
    if strings(&read).len() > CELLS {
        mark("a sound file with more than 256 strings");
    }
    let trie = shaped(&mut chance, &read, Roots::Any).map_or(vec![0; IMAGE], |trie| write_image(&trie));
    let changes = chance.between(profile.changes.0, profile.changes.1);
    let puts = if chance.percent(50) { profile.puts } else { 100 - profile.puts };
    let mut story = Story { chance, run, names, file, trie, old_tries: Vec::new(), puts, freed: None };
    for _ in 0..changes {
        story.beside();
        story.change();
    }
}

impl Story<'_> {
    /// A put or a remove on the file itself, with its own trie. What was stopped is mended.
    fn change(&mut self) {
        let mut name = self.chance.pick(&self.names).clone();
        let limit = *self.chance.pick(&[2, 2, 2, 2, 2, 2, 1, 1, 0]);
        let before = self.trie.clone();
        let file = self.file.clone();
        let trie = self.trie.clone();
        let puts = self.chance.percent(self.puts);
        if !puts && self.chance.percent(60) {
            name = self.held_name(&file).unwrap_or(name);
        }
        let outcome = if puts {
            let (value, run) = (value(&mut self.chance), make::run(&mut self.chance));
            let outcome = self.run.call(Call::Put { file, trie, name: name.clone(), value, run, limit });
            mark_run(&self.file, &name, run, limit, &outcome);
            outcome
        } else {
            let outcome = self.run.call(Call::Remove { file, trie, name: name.clone(), limit });
            if let Some(freed) = mark_merge(&self.file, &self.trie, &name, limit, &outcome) {
                self.freed = Some(freed);
            }
            outcome
        };
        if outcome.answer == 110 && outcome.trie != before {
            let new_slot = mark_growth(&before, &outcome.trie, &self.file, &outcome.file);
            if new_slot == self.freed {
                mark("a split into a slot that a merge freed");
            }
        }
        if outcome.trie != before && self.old_tries.len() < 40 {
            self.old_tries.push(before);
        }
        let stopped = outcome.answer == 112;
        self.file = outcome.file;
        self.trie = outcome.trie;
        if stopped && outcome.out[0] == 1 {
            if let (true, Kind::Cut(n)) = (puts, kind(&self.file)) {
                let moved = File::read(&self.file).unwrap().bucket(n).entry(&filled(&name)).is_some();
                mark(if moved {
                    "a split stopped after one store, the new name moved"
                } else {
                    "a split stopped after one store, the new name stayed"
                });
            }
            for _ in 0..self.chance.below(3) {
                let file = self.file.clone();
                let trie = self.some_trie(&file);
                self.some_call(&file, CUT, trie);
            }
            self.mend();
        } else if stopped && self.chance.percent(30) {
            self.mend();
        }
    }

    /// Recovers, again if that is stopped, and rebuilds.
    fn mend(&mut self) {
        loop {
            let limit = *self.chance.pick(&[0, 1, 2]);
            let outcome = self.run.call(Call::Recover { file: self.file.clone(), limit });
            self.file = outcome.file;
            match outcome.answer {
                112 => mark("a recovery that was stopped"),
                130 | 131 => break,
                other => panic!("recovery refused {other}"),
            }
        }
        let trie = self.trie.clone();
        let outcome = self.run.call(Call::Rebuild { file: self.file.clone(), trie });
        assert_eq!(outcome.answer, 151, "rebuilding after recovery never refuses");
        self.trie = outcome.trie;
    }

    /// Calls on a copy, damaged or not. The file itself stays as it is.
    fn beside(&mut self) {
        let file = self.some_file();
        let kind = self.run.call(Call::Check { file: file.clone() }).answer;
        if kind == CUT {
            let read = File::read(&file).expect("a cut file has a right header");
            let n = cut_slot(&read).expect("a cut file has a slot N");
            let is_a = |slot: usize, bucket: &Bucket| slot != n && bucket.upper == read.bucket(n).upper;
            if read.used().any(|(slot, bucket)| is_a(slot, bucket) && bucket.entries.len() < read.header.b) {
                mark("a cut file whose bucket is not full");
            }
        }
        if kind == SOUND
            && header(&file).map(|header| header.version) != header(&self.file).map(|header| header.version)
        {
            mark("a sound file with the splits of another version");
        }
        for _ in 0..self.chance.between(1, 4) {
            let trie = self.some_trie(&file);
            self.some_call(&file, kind, trie);
        }
        if kind == SOUND && self.chance.percent(15) {
            self.unreached_leaf(&file);
        }
    }

    fn some_file(&mut self) -> Vec<u8> {
        let read = File::read(&self.file).unwrap();
        let chance = &mut self.chance;
        let other = match chance.below(100) {
            0..=49 => None,
            50..=79 => Some(damaged_file(chance, &self.file, &self.names)),
            80..=89 => cut_file(chance, &read, &self.names, false),
            _ => cut_file(chance, &read, &self.names, true),
        };
        other.unwrap_or_else(|| self.file.clone())
    }

    /// The own trie, a rebuilt one or one of another shape, an old one, a damaged one, or no image at all.
    fn some_trie(&mut self, file: &[u8]) -> Vec<u8> {
        let own = self.trie.clone();
        let chance = &mut self.chance;
        match chance.below(100) {
            0..=34 => own,
            35..=59 => {
                let Kind::Sound(read) = kind(file) else { return own };
                let trie = match chance.below(5) {
                    0 | 1 => rebuilt(&read),
                    2 => shaped(chance, &read, Roots::First),
                    3 => shaped(chance, &read, Roots::Last),
                    _ => shaped(chance, &read, Roots::Any),
                };
                let image = trie.map_or(own, |trie| write_image(&trie));
                if chance.percent(20) {
                    damaged_trie(chance, &image)
                } else {
                    image
                }
            }
            60..=71 if !self.old_tries.is_empty() => chance.pick(&self.old_tries).clone(),
            60..=97 => damaged_trie(chance, &own),
            _ => {
                let length = *chance.pick(&[0, 1, 4, IMAGE - 6, IMAGE - 1, IMAGE + 1, IMAGE + 6, 2 * IMAGE]);
                let mut image = own;
                image.resize(length, 0);
                image
            }
        }
    }

    /// Mostly a name of the story, sometimes one close to it, which may be illegal, sometimes an illegal one.
    fn some_name(&mut self) -> Vec<u8> {
        let chance = &mut self.chance;
        let mut name = chance.pick(&self.names).clone();
        match chance.below(100) {
            0..=74 => name,
            75..=91 => {
                match chance.below(4) {
                    0 if name.len() < DIGITS => {
                        if chance.percent(30) && name.len() + 1 < DIGITS {
                            name.push(BLANK);
                        }
                        name.push(*chance.pick(&[0x21, 0x61, 0x7D]));
                    }
                    1 if name.len() > 1 => {
                        name.pop();
                    }
                    2 => {
                        let place = chance.below(name.len());
                        name[place] = if chance.percent(25) { BLANK } else { chance.between(0x21, 0x7D) as u8 };
                    }
                    _ => {
                        let length = *chance.pick(&[1, 1, 24]);
                        name = vec![*chance.pick(&[0x21, 0x7D]); length];
                    }
                }
                name
            }
            _ => make::illegal_name(chance),
        }
    }

    /// A name that the file holds. None if it holds none, or if its header is wrong.
    fn held_name(&mut self, file: &[u8]) -> Option<Vec<u8>> {
        let read = File::read(file)?;
        let held: Vec<&Filled> = read.used().flat_map(|(_, bucket)| &bucket.entries).map(|entry| &entry.name).collect();
        (!held.is_empty()).then(|| unfilled(*self.chance.pick(&held)).to_vec())
    }

    fn some_limit(&mut self) -> u64 {
        *self.chance.pick(&[2, 2, 2, 2, 2, 1, 1, 0, 0, 3, u64::MAX, 1 << 32])
    }

    /// Any call on a copy that check called `kind`.
    fn some_call(&mut self, file: &[u8], kind: u64, trie: Vec<u8>) {
        let file = file.to_vec();
        let rebuilds = self.chance.percent(5);
        match self.chance.below(100) {
            0..=29 => {
                let name = self.some_name();
                let outcome =
                    self.run.call(Call::Lookup { file: file.clone(), trie: trie.clone(), name: name.clone() });
                mark_lookup(&file, kind, &trie, &name, &outcome);
            }
            30..=59 => {
                let (name, limit) = (self.some_name(), self.some_limit());
                let (value, run) = (value(&mut self.chance), make::run(&mut self.chance));
                let call = Call::Put { file: file.clone(), trie: trie.clone(), name: name.clone(), value, run, limit };
                let outcome = self.run.call(call);
                mark_order(limit, &name, kind, &file, &trie, outcome.answer);
                mark_run(&file, &name, run, limit, &outcome);
                if outcome.answer == 110 && outcome.trie != trie {
                    mark_growth(&trie, &outcome.trie, &file, &outcome.file);
                    if trie != self.trie && Some(&trie) != rebuilt_image(&file).as_ref() {
                        mark("a split of a trie that is neither grown nor rebuilt");
                    }
                }
            }
            60..=72 => {
                let (mut name, limit) = (self.some_name(), self.some_limit());
                if self.chance.percent(50) {
                    name = self.held_name(&file).unwrap_or(name);
                }
                let (f, t, n) = (file.clone(), trie.clone(), name.clone());
                let outcome = self.run.call(Call::Remove { file: f, trie: t, name: n, limit });
                if outcome.answer == 101 && limit == 0 {
                    mark("an absent name removed with limit 0");
                }
                let merged = mark_merge(&file, &trie, &name, limit, &outcome).is_some() && outcome.answer == 120;
                if merged && trie != self.trie && Some(&trie) != rebuilt_image(&file).as_ref() {
                    mark("a merge with a trie that is neither grown nor rebuilt");
                }
            }
            73..=87 => self.some_list(&file, kind, trie),
            88..=93 => {
                let limit = self.some_limit();
                let outcome = self.run.call(Call::Recover { file, limit });
                if outcome.answer == 131 && limit == 0 {
                    mark("nothing to recover with limit 0");
                }
            }
            _ => {
                let trie = if rebuilds { trie } else { self.trie.clone() };
                let outcome = self.run.call(Call::Rebuild { file, trie });
                if outcome.answer == 151 && outcome.trie[..2] == [0, 1] {
                    mark("a trie rebuilt with 256 cells");
                }
            }
        }
    }

    fn some_list(&mut self, file: &[u8], kind: u64, trie: Vec<u8>) {
        let (mut first, mut second) = match self.chance.below(10) {
            0 => (vec![0x21], vec![0x7D; 24]),
            1 => {
                let name = self.some_name();
                (name.clone(), name)
            }
            _ => (self.some_name(), self.some_name()),
        };
        if first > second && self.chance.percent(75) {
            std::mem::swap(&mut first, &mut second);
        }
        let legal = is_legal_name(&first) && is_legal_name(&second);
        // As many entries as a sound file would list.
        let entries = match File::read(file) {
            Some(read) if legal => entries_between(&read, &filled(&first), &filled(&second)).len(),
            _ => 0,
        };
        let exactly = header(file).map_or(32, |header| header.entry_length()) * entries;
        let length = match self.chance.below(8) {
            0 => 0,
            1 | 2 => exactly.saturating_sub(1),
            3 | 4 => exactly,
            5 => exactly + 1,
            6 => exactly + self.chance.below(100),
            _ => self.chance.below(exactly + 41),
        };
        let output = vec![self.chance.byte(); length];
        let call = Call::List { file: file.to_vec(), trie, first: first.clone(), second: second.clone(), output };
        let outcome = self.run.call(call);
        if outcome.answer == 152 && entries > 0 && (first.contains(&BLANK) || second.contains(&BLANK)) {
            mark("a list from or to a name with a blank inside");
        }
        match outcome.answer {
            152 if entries > 0 && length == exactly => mark("a list into an output that is exactly long enough"),
            152 if filled(&first) > filled(&second) => mark("a list whose first name is above its second"),
            7 if length + 1 == exactly => mark("a list into an output one byte too short"),
            4 if kind == SOUND && length < exactly => mark("4 stands before 7"),
            _ => {}
        }
    }

    /// A leaf that no legal name reaches leads elsewhere: look up cannot see it, the others refuse.
    fn unreached_leaf(&mut self, file: &[u8]) {
        let Kind::Sound(read) = kind(file) else { panic!("the file is sound") };
        let Some(trie) = shaped(&mut self.chance, &read, Roots::Any) else { return };
        let Some(changed) = unreached_leaf_changed(&mut self.chance, &trie, read.slots.len()) else { return };
        let (file, trie) = (file.to_vec(), write_image(&changed));
        let name = self.chance.pick(&self.names).clone();
        let (f, t, n) = (file.clone(), trie.clone(), name.clone());
        let outcome = self.run.call(Call::Put { file: f, trie: t, name: n, value: 1, run: 0, limit: 2 });
        assert_eq!((outcome.answer, outcome.out[0]), (4, 255));
        mark("a leaf that no legal name reaches was changed, put refuses");
        let (f, t, n) = (file.clone(), trie.clone(), name.clone());
        let outcome = self.run.call(Call::Remove { file: f, trie: t, name: n, limit: 2 });
        assert_eq!((outcome.answer, outcome.out[0]), (4, 255));
        mark("a leaf that no legal name reaches was changed, remove refuses");
        let (f, t, n) = (file.clone(), trie.clone(), name.clone());
        let outcome = self.run.call(Call::List { file: f, trie: t, first: n.clone(), second: n, output: vec![0; 32] });
        assert_eq!((outcome.answer, outcome.out[0]), (4, 255));
        mark("a leaf that no legal name reaches was changed, list refuses");
        let outcome = self.run.call(Call::Lookup { file, trie, name });
        assert!(outcome.answer == 100 || outcome.answer == 101);
        mark("a leaf that no legal name reaches was changed, a lookup answers");
    }
}

/// The image of the trie rebuilt from a sound file.
fn rebuilt_image(file: &[u8]) -> Option<Vec<u8>> {
    rebuilt(&File::read(file)?).map(|trie| write_image(&trie))
}

/// Notes whether a removal merged two buckets, made or stopped after its first store. The slot that it freed or would free.
fn mark_merge(file: &[u8], trie: &[u8], name: &[u8], limit: u64, outcome: &Outcome) -> Option<usize> {
    let done = outcome.answer == 120;
    if !done && outcome.answer != 112 && outcome.answer != 101 {
        return None;
    }
    let before = File::read(file).expect("2 stands before the rest");
    let order = before.range_order().expect("2 and 3 stand before the rest");
    let (slot, bucket) = before.bucket_of(&filled(name));
    let place = order.iter().position(|used| *used == slot).expect("the slot is used");
    let left = bucket.entries.len() - usize::from(outcome.answer != 101);
    let together = |place: Option<usize>| {
        place.and_then(|place| order.get(place)).map(|other| left + before.bucket(*other).entries.len())
    };
    let (on_left, on_right) = (together(place.checked_sub(1)), together(Some(place + 1)));
    let most = before.header.b / 2;
    let few = |together: Option<usize>| together.is_some_and(|together| together <= most);
    if outcome.answer == 101 {
        if few(on_left) || few(on_right) {
            mark("an absent name beside buckets that would merge");
        }
        assert!(outcome.file == file && outcome.trie == trie);
        return None;
    }
    if !few(on_left) && !few(on_right) {
        if on_left == Some(most + 1) || on_right == Some(most + 1) {
            mark("a removal that would merge with one entry less");
        }
        assert!(outcome.trie == trie && done == (limit > 0));
        return None;
    }
    if limit == 0 {
        mark("a merge with limit 0");
        return None;
    }
    let right_wins = few(on_right);
    if !done {
        mark(if right_wins {
            "a merge to the right stopped after one store"
        } else {
            "a merge to the left stopped after one store"
        });
        return None;
    }
    mark(if right_wins { "a removal that merges to the right" } else { "a removal that merges to the left" });
    if few(on_left) && right_wins {
        mark("a removal that merges to the right, and could to the left");
    }
    match before.header.b {
        2 => mark("a removal that merges, b = 2"),
        3 => mark("a removal that merges, b = 3"),
        _ => {}
    }
    let each = [
        "a removal that merges in a file of version 1",
        "a removal that merges in a file of version 2",
        "a removal that merges in a file of version 3",
    ];
    mark(each[before.header.version as usize - 1]);
    if order.len() == 2 {
        mark("a removal that leaves one bucket");
    }
    assert!(rebuilt_image(&outcome.file).as_ref() == Some(&outcome.trie), "the trie after a merge is the rebuilt one");
    Some(if right_wins { order[place + 1] } else { slot })
}

/// Notes how a split changed trie and file. The new slot.
fn mark_growth(before: &[u8], after: &[u8], file: &[u8], file_after: &[u8]) -> Option<usize> {
    let (old, new) = (read_image(before), read_image(after));
    match new.count - old.count {
        0 => {}
        1 => mark("a split that adds one cell"),
        24 => mark("a split that adds 24 cells"),
        _ => mark("a split that adds several cells"),
    }
    if old.count == 0 {
        mark("a split of a trie with count 0");
    }
    if new.count == CELLS {
        mark("a split that fills all 256 cells");
    }
    let elsewhere = |old: Side, new: Side| matches!((old, new), (Side::Slot(_), Side::Slot(_))) && old != new;
    let turned: usize = (0..old.count)
        .map(|cell| {
            let (old, new) = (&old.cells[cell], &new.cells[cell]);
            elsewhere(old.left, new.left) as usize + elsewhere(old.right, new.right) as usize
        })
        .sum();
    if new.count == old.count {
        mark("a split that adds no cell");
    }
    if turned >= 2 {
        mark("a split that leads two or more old leaves to the new slot");
    }
    let (old, new) = (File::read(file)?, File::read(file_after)?);
    let (new_slot, bucket) = new.used().find(|(slot, _)| old.used().all(|(used, _)| used != *slot))?;
    if old.used().any(|(used, _)| new_slot < used) {
        mark("a split into a slot below a used one");
    }
    if new_slot == 63 {
        mark("a split into slot 63");
    }
    // The split string is the new bucket's lower bound.
    mark_keys(&new, bucket);
    let string = &bucket.lower.0;
    let before_blanks = unfilled(string);
    match string.len() - before_blanks.len() {
        0 => {}
        1 => mark("a split string that ends in a blank"),
        _ => mark("a split string that ends in several blanks"),
    }
    if before_blanks.contains(&BLANK) {
        mark("a split string with a blank inside");
    }
    if bucket.entries.iter().any(|entry| unfilled(&entry.name).contains(&BLANK)) {
        mark("a split of names with a blank inside");
    }
    Some(new_slot)
}

/// Notes which split key of a version was taken. The file has just been split, and the new bucket has the upper part.
fn mark_keys(file: &File, upper: &Bucket) {
    let Header { version, b, .. } = file.header;
    let each = ["a split in a file of version 1", "a split in a file of version 2", "a split in a file of version 3"];
    mark(each[version as usize - 1]);
    let (_, lower) = file.used().find(|(_, bucket)| bucket.upper == upper.lower).expect("there is a lower part");
    let names: Vec<&Filled> = lower.entries.iter().chain(&upper.entries).map(|entry| &entry.name).collect();
    let strings: Vec<Bound> =
        split_positions(version, b).iter().map(|position| split_string(names[position - 1], names[b])).collect();
    if strings.len() > 1 && strings[1].len() < strings[0].len() {
        mark("a split by the key before the middle one");
        if b == 2 {
            mark("a split by the key before the middle one, b = 2");
        }
    } else if strings.len() > 1 && strings[1].len() == strings[0].len() && strings[1] != strings[0] {
        mark("a tie of two split strings, which the middle key wins");
        if b == 2 {
            mark("a tie of two split strings, which the middle key wins, b = 2");
        }
    }
}

fn mark_lookup(file: &[u8], kind: u64, trie: &[u8], name: &[u8], outcome: &Outcome) {
    let answers = outcome.answer == 100 || outcome.answer == 101;
    if outcome.answer == 4 {
        mark_stale(file, trie, name);
    }
    match kind {
        CUT if answers => mark("a lookup that answers in a cut file"),
        BAD if answers => mark("a lookup that answers in a bad file"),
        SOUND if trie.len() == IMAGE && is_legal_name(name) => {
            // R13.2: with a sound file, whatever the trie, a lookup tells the truth or refuses as stale.
            let read = File::read(file).unwrap();
            let truth = read.bucket_of(&filled(name)).1.entry(&filled(name));
            match truth {
                _ if outcome.answer == 4 => {}
                Some(entry) => assert!(outcome.answer == 100 && outcome.out[..2] == [entry.value, entry.run]),
                None => assert_eq!(outcome.answer, 101),
            }
            if answers && strings(&read).len() > CELLS {
                mark("a sound file with more than 256 strings, a lookup that answers");
            }
            if !agrees(&read_image(trie), &read) {
                mark(if answers {
                    "a stale trie that answers a lookup"
                } else {
                    "a stale trie that is refused by a lookup"
                });
            }
        }
        _ => {}
    }
}

/// Notes for which cause a lookup was refused with 4.
fn mark_stale(file: &[u8], trie: &[u8], name: &[u8]) {
    let header = header(file).expect("2 stands before 4");
    let name = filled(name);
    let Some(leaf) = walk(&read_image(trie), &name, header.slots) else {
        return mark("a lookup refused 4 by its walk");
    };
    match read_slot(slot_bytes(file, &header, leaf.slot), &header) {
        Slot::Free => mark("a lookup refused 4 by a free slot"),
        Slot::Used(bucket) if !is_within(&name, &bucket.upper) => mark("a lookup refused 4 above the upper bound"),
        Slot::Used(bucket) if name.starts_with(&bucket.lower.0) => mark("a lookup refused 4 at the whole lower bound"),
        _ => mark("a lookup refused 4 below the lower bound"),
    }
}

/// Notes what became of a put whose name the file holds, by its run.
fn mark_run(file: &[u8], name: &[u8], run: u64, limit: u64, outcome: &Outcome) {
    let Some(read) = File::read(file).filter(|_| is_legal_name(name)) else { return };
    let Some(held) = read.used().find_map(|(_, bucket)| bucket.entry(&filled(name))) else { return };
    if !read.header.has_runs() {
        if outcome.answer == 111 && run < 5 {
            mark("an older run is ignored by a version without runs");
        }
        return;
    }
    match outcome.answer {
        12 => {
            mark("an older run is refused");
            if limit == 0 {
                mark("an older run is refused with limit 0");
            }
            if held.run == u64::MAX && run == u64::MAX - 1 {
                mark("the greatest run refuses the one below it");
            }
        }
        111 => {
            mark(if held.run == run { "an equal run replaces" } else { "a newer run replaces" });
            if held.run == run && run == 0 {
                mark("the run 0 replaces the run 0");
            }
            if held.run == run && run == u64::MAX {
                mark("the greatest run replaces itself");
            }
        }
        8 if held.run > run => mark("8 stands before 12"),
        2 if held.run > run => mark("2 stands before 12"),
        3 if held.run > run => mark("3 stands before 12"),
        4 if held.run > run => mark("4 stands before 12"),
        _ => {}
    }
}

/// Notes which causes of refusal held together with the one that was given.
fn mark_order(limit: u64, name: &[u8], kind: u64, file: &[u8], trie: &[u8], answer: u64) {
    let illegal = !is_legal_name(name);
    let stale = || {
        trie.len() == IMAGE
            && header(file).is_some_and(|header| {
                // A count above 256 or a first leaf that is no slot agrees with no file at all.
                let trie = read_image(trie);
                trie.count > CELLS || (trie.count > 0 && trie.first_leaf > 0) || trie.first_leaf >= header.slots
            })
    };
    if answer == 1 && (1..=DIGITS).contains(&name.len()) && name.iter().all(|byte| (0x20..=0x7D).contains(byte)) {
        mark(if name[0] == BLANK { "an illegal name with a blank first" } else { "an illegal name with a blank last" });
    }
    match answer {
        8 if illegal => mark("8 stands before 1"),
        8 if limit > 2 && kind == BAD => mark("8 stands before 2"),
        8 if limit > 2 && kind == CUT => mark("8 stands before 3"),
        8 if limit > 2 && stale() => mark("8 stands before 4"),
        1 if kind == BAD => mark("1 stands before 2"),
        1 if kind == CUT => mark("1 stands before 3"),
        1 if stale() => mark("1 stands before 4"),
        2 if stale() => mark("2 stands before 4"),
        3 if stale() => mark("3 stands before 4"),
        4 | 5 => {
            let file = File::read(file).unwrap();
            let (_, bucket) = file.bucket_of(&filled(name));
            let splits = bucket.entries.len() == file.header.b && bucket.entry(&filled(name)).is_none();
            let full = file.used().count() == file.slots.len();
            if answer == 4 && splits && full {
                mark("4 stands before 5");
            }
            if answer == 5 && strings_after_a_split(&file, name) > CELLS {
                mark("5 stands before 6");
            }
        }
        _ => {}
    }
}

/// How many strings the file would have after the split that a put of this name needs.
fn strings_after_a_split(file: &File, name: &[u8]) -> usize {
    let name = filled(name);
    let (_, bucket) = file.bucket_of(&name);
    let mut entries = bucket.entries.clone();
    entries.push(Entry { name, value: 0, run: 0 });
    entries.sort_by_key(|entry| entry.name);
    let mut after = strings(file);
    after.extend(strings_of([&split(file.header.version, &entries).string].into_iter()));
    after.len()
}
