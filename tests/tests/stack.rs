//! Measures how deep each call goes into the stack: every call runs on a painted stack of 128 KB and may touch 24 KB of it.

use std::ffi::c_void;
use std::io::Write;
use std::ptr;

use palhavento_tests::chance::Chance;
use palhavento_tests::damage::{damaged_file, damaged_trie};
use palhavento_tests::door::{by_model, write_image, Call, CALLS, IMAGE};
use palhavento_tests::library::{lend, take_back, Grounds, Lent};
use palhavento_tests::make::{
    cut_file, file_with_strings, names, names_near, shaped, sound_file, thinned, Roots, Style,
};
use palhavento_tests::model::file::{File, Header, VERSIONS};
use palhavento_tests::model::trie::{rebuilt, Cell, Side, Trie, CELLS};
use palhavento_tests::run::SMALL_STACK;
use palhavento_tests::watch;

/// include/palhavento.h promises less than 64 KB; we hold ourselves to 24.
const ALLOWED: usize = 24 * 1024;

/// Room for what the C library calls `pthread_attr_t`.
#[repr(C, align(16))]
struct Attributes([u64; 32]);

extern "C" {
    fn pthread_attr_init(attributes: *mut Attributes) -> i32;
    fn pthread_attr_setstack(attributes: *mut Attributes, stack: *mut c_void, length: usize) -> i32;
    fn pthread_attr_destroy(attributes: *mut Attributes) -> i32;
    fn pthread_create(
        thread: *mut usize,
        attributes: *const Attributes,
        start: extern "C" fn(*mut c_void) -> *mut c_void,
        job: *mut c_void,
    ) -> i32;
    fn pthread_join(thread: usize, answer: *mut *mut c_void) -> i32;
}

/// What runs on the painted stack.
struct Job<'a> {
    work: &'a dyn Fn() -> u64,
    answer: u64,
    /// An address in the frame that starts the work.
    from: usize,
}

extern "C" fn start(job: *mut c_void) -> *mut c_void {
    let here = 0u8;
    // The job outlives the thread, and nobody else uses it meanwhile.
    let job = unsafe { &mut *(job as *mut Job) };
    job.from = ptr::addr_of!(here) as usize;
    job.answer = (job.work)();
    ptr::null_mut()
}

const PAINT: u128 = 0x9E9E_9E9E_9E9E_9E9E_9E9E_9E9E_9E9E_9E9E;

/// Painted memory, whose upper end serves as the stack of a thread. What lies below is ours too, so a call that needs too
/// much is measured and not lost.
struct Painted {
    memory: Vec<Page>,
}

#[derive(Clone, Copy)]
#[repr(C, align(4096))]
struct Page([u128; 256]);

impl Painted {
    fn new() -> Painted {
        Painted { memory: vec![Page([PAINT; 256]); 256] }
    }

    /// Runs the work on a thread with a stack of 128 KB. The answer, and how many bytes below its start were touched.
    fn run(&mut self, work: &dyn Fn() -> u64) -> (u64, usize) {
        let mut job = Job { work, answer: 0, from: 0 };
        let bottom = self.memory.as_mut_ptr() as *mut u8;
        let above = std::mem::size_of_val(&self.memory[..]) - SMALL_STACK;
        let mut attributes = Attributes([0; 32]);
        let mut thread = 0;
        unsafe {
            assert_eq!(pthread_attr_init(&mut attributes), 0);
            assert_eq!(pthread_attr_setstack(&mut attributes, bottom.add(above) as *mut c_void, SMALL_STACK), 0);
            let pointer = ptr::addr_of_mut!(job) as *mut c_void;
            assert_eq!(pthread_create(&mut thread, &attributes, start, pointer), 0);
            assert_eq!(pthread_join(thread, ptr::null_mut()), 0);
            assert_eq!(pthread_attr_destroy(&mut attributes), 0);
        }
        // The first word from below that is not paint; everything from there on is painted again.
        let words = self.memory.iter_mut().flat_map(|page| &mut page.0);
        let mut touched = words.skip_while(|word| **word == PAINT).peekable();
        let deepest = touched.peek().map_or(job.from, |word| ptr::addr_of!(**word) as usize);
        touched.for_each(|word| *word = PAINT);
        (job.answer, job.from.saturating_sub(deepest))
    }
}

/// The measure itself, on work whose need is known.
#[test]
fn the_paint_shows_what_is_used() {
    watch::start();
    #[inline(never)]
    fn touch(length: usize) -> u64 {
        let mut bytes = [0u8; 20_000];
        for (place, byte) in bytes.iter_mut().enumerate().take(length) {
            unsafe { ptr::write_volatile(byte, place as u8) };
        }
        std::hint::black_box(&bytes).iter().map(|byte| *byte as u64).sum()
    }
    let mut painted = Painted::new();
    let (_, little) = painted.run(&|| 1);
    let (sum, much) = painted.run(&|| touch(20_000));
    assert_eq!(sum, (0..20_000u64).map(|place| place % 256).sum::<u64>());
    assert!(little < 1_000, "{little}");
    assert!((20_000..21_500).contains(&much), "{much}");
    assert_eq!(painted.run(&|| 1), (1, little), "it is painted again");
}

/// Full-size files: 64 slots, b = 16. Sound, cut and bad.
fn files(chance: &mut Chance) -> Vec<Vec<u8>> {
    let mut files = Vec::new();
    // The versions take turns.
    let mut headers = VERSIONS.iter().cycle().map(|version| Header::new(*version, 16, 64));
    let mut header = || headers.next().expect("they come again and again");
    for (style, how_many) in
        [(Style::Any, 2000), (Style::LongBeginnings, 400), (Style::LastDigit, 400), (Style::Ends, 300)]
    {
        let pool = names(chance, style, how_many);
        files.push(sound_file(chance, header(), 64, &pool));
        files.push(sound_file(chance, header(), 40, &pool));
    }
    for (used, how_many) in [(64, 256), (63, 256), (63, 255), (12, 240), (64, 63)] {
        files.push(file_with_strings(chance, header(), used, how_many));
    }
    // Few entries in each bucket, so that removals merge and rebuild the trie.
    let thin: Vec<Vec<u8>> = files.iter().step_by(4).map(|file| thinned(chance, file)).collect();
    files.extend(thin);
    let sound = files.clone();
    for file in &sound {
        let read = File::read(file).unwrap();
        let pool = names_near(chance, file);
        files.extend(cut_file(chance, &read, &pool, false));
        files.extend(cut_file(chance, &read, &pool, true));
        files.push(damaged_file(chance, file, &pool));
        // Bad only in its very last byte.
        let mut bad = file.clone();
        *bad.last_mut().expect("a file has bytes") ^= 1;
        files.push(bad);
    }
    files
}

/// Tries for a file: of every shape that agrees, and chains as deep as 256 cells go.
fn tries(chance: &mut Chance, file: &[u8]) -> Vec<Vec<u8>> {
    let mut tries: Vec<Trie> = Vec::new();
    let read = File::read(file);
    if let Some(read) = read.filter(|read| read.range_order().is_some()) {
        tries.extend(rebuilt(&read));
        for roots in [Roots::First, Roots::Last, Roots::Any] {
            tries.extend(shaped(chance, &read, roots));
        }
    }
    type Next = fn(usize) -> Cell;
    let chains: [Next; 5] = [
        |next| Cell { digit: b'}', number: 0, left: Side::Cell(next), right: Side::Slot(0) },
        |next| Cell { digit: b'!', number: 0, left: Side::Slot(0), right: Side::Cell(next) },
        |next| Cell { digit: b'}', number: (next - 1).min(23), left: Side::Cell(next), right: Side::Slot(0) },
        |next| match next % 2 {
            0 => Cell { digit: b'}', number: 0, left: Side::Cell(next), right: Side::Slot(0) },
            _ => Cell { digit: b'!', number: 0, left: Side::Slot(0), right: Side::Cell(next) },
        },
        // A full binary tree.
        |next| Cell { digit: b'm', number: 0, left: Side::Cell(2 * next - 1), right: Side::Cell(2 * next) },
    ];
    for chain in chains {
        let mut trie = Trie::empty(0);
        trie.count = CELLS;
        for cell in 0..CELLS {
            let mut next = chain(cell + 1);
            for side in [&mut next.left, &mut next.right] {
                if matches!(side, Side::Cell(number) if *number >= CELLS) {
                    *side = Side::Slot(0);
                }
            }
            trie.cells[cell] = next;
        }
        tries.push(trie);
    }
    let mut images: Vec<Vec<u8>> = tries.iter().map(write_image).collect();
    let damaged: Vec<Vec<u8>> = images.iter().map(|image| damaged_trie(chance, image)).collect();
    images.extend(damaged);
    images
}

/// Every call on full-size inputs, on a stack of 128 KB, with the model's answer and in less than 24 KB.
#[test]
fn each_call_uses_less_than_64_kb() {
    watch::start();
    let mut chance = Chance::new(77);
    let mut grounds = Grounds::default();
    let mut painted = Painted::new();
    let mut deepest = [0; CALLS.len()];
    let mut turn = 0;
    let mut measure = |call: Call| {
        turn += 1;
        let lent: Lent = lend(&call, &mut grounds, turn);
        let (answer, used) = painted.run(&|| unsafe { lent.make() });
        let left_behind = take_back(&call, &grounds, answer).unwrap_or_else(|touched| panic!("{touched}"));
        assert!(left_behind == by_model(&call), "{} differs from the model", CALLS[call.number()]);
        let most = &mut deepest[call.number()];
        *most = used.max(*most);
    };
    for version in VERSIONS {
        let file = vec![7; Header::new(version, 16, 64).file_length()];
        measure(Call::Create { file: file.clone(), version, b: 16, slots: 64, trie: vec![7; IMAGE] });
        measure(Call::Create { file, version, b: 16, slots: 63, trie: vec![7; IMAGE] });
    }
    for file in files(&mut chance) {
        measure(Call::Check { file: file.clone() });
        measure(Call::Recover { file: file.clone(), limit: 2 });
        measure(Call::Rebuild { file: file.clone(), trie: vec![7; IMAGE] });
        let pool = File::read(&file).map_or(vec![vec![0x21]], |_| names_near(&mut chance, &file));
        for trie in tries(&mut chance, &file) {
            for limit in [1, 2, 2, 2] {
                let name = chance.pick(&pool).clone();
                let (f, t) = (file.clone(), trie.clone());
                measure(Call::Lookup { file: f.clone(), trie: t.clone(), name: name.clone() });
                measure(Call::Remove { file: f.clone(), trie: t.clone(), name: name.clone(), limit });
                measure(Call::Put { file: f, trie: t, name, value: 1, run: 3, limit });
            }
            let (first, second) = (vec![0x21], vec![0x7D; 24]);
            measure(Call::List { file: file.clone(), trie, first, second, output: vec![0; 40 * 16 * 64] });
        }
    }
    let figures: Vec<String> = CALLS.iter().zip(deepest).map(|(call, used)| format!("{call} {used}")).collect();
    // Past the harness, so that a gate's log shows it.
    let figures = format!("deepest use of the stack in bytes: {}\n", figures.join(", "));
    std::io::stderr().write_all(figures.as_bytes()).unwrap();
    for (call, used) in CALLS.iter().zip(deepest) {
        assert!(used > 0, "{call} was not measured");
        assert!(used < ALLOWED, "{call} used {used} bytes of stack");
    }
}
