//! The library behind its C interface: the declarations, and one safe wrapper that guards everything it lends.
//!
//! Each lent buffer is exactly as long as it is said to be. It stands either between guard bytes, or flush with a page
//! that traps every read and write, before it or behind it. (The trapping pages need Linux.)

use std::ptr;

use crate::door::{Call, Outcome, OUT_AT_ENTRY};

#[cfg(library_present)]
pub mod raw {
    //! The calls as the C interface declares them.
    extern "C" {
        pub fn pal_create(
            file: *mut u8,
            file_length: usize,
            version: u64,
            b: u64,
            slots: u64,
            trie: *mut u8,
            trie_length: usize,
        ) -> u64;
        pub fn pal_check(file: *const u8, file_length: usize) -> u64;
        pub fn pal_recover(file: *mut u8, file_length: usize, limit: u64, out: *mut u64) -> u64;
        pub fn pal_rebuild(file: *const u8, file_length: usize, trie: *mut u8, trie_length: usize) -> u64;
        pub fn pal_lookup(
            file: *const u8,
            file_length: usize,
            trie: *const u8,
            trie_length: usize,
            name: *const u8,
            name_length: usize,
            out: *mut u64,
        ) -> u64;
        pub fn pal_put(
            file: *mut u8,
            file_length: usize,
            trie: *mut u8,
            trie_length: usize,
            name: *const u8,
            name_length: usize,
            value: u64,
            run: u64,
            limit: u64,
            out: *mut u64,
        ) -> u64;
        pub fn pal_remove(
            file: *mut u8,
            file_length: usize,
            trie: *mut u8,
            trie_length: usize,
            name: *const u8,
            name_length: usize,
            limit: u64,
            out: *mut u64,
        ) -> u64;
        pub fn pal_list(
            file: *const u8,
            file_length: usize,
            trie: *const u8,
            trie_length: usize,
            first: *const u8,
            first_length: usize,
            second: *const u8,
            second_length: usize,
            output: *mut u8,
            output_length: usize,
            out: *mut u64,
        ) -> u64;
    }
}

#[cfg(not(library_present))]
#[allow(clippy::too_many_arguments)]
pub mod raw {
    //! The library was not there when this was built: each call says so.
    macro_rules! missing {
        ($($name:ident($($type:ty),*);)*) => {
            $(pub unsafe fn $name($(_: $type),*) -> u64 {
                panic!("libcapi.a was not there when the tests were built; name its folder in PALHAVENTO_LIB")
            })*
        };
    }
    missing! {
        pal_create(*mut u8, usize, u64, u64, u64, *mut u8, usize);
        pal_check(*const u8, usize);
        pal_recover(*mut u8, usize, u64, *mut u64);
        pal_rebuild(*const u8, usize, *mut u8, usize);
        pal_lookup(*const u8, usize, *const u8, usize, *const u8, usize, *mut u64);
        pal_put(*mut u8, usize, *mut u8, usize, *const u8, usize, u64, u64, u64, *mut u64);
        pal_remove(*mut u8, usize, *mut u8, usize, *const u8, usize, u64, *mut u64);
        pal_list(*const u8, usize, *const u8, usize, *const u8, usize, *const u8, usize, *mut u8, usize, *mut u64);
    }
}

extern "C" {
    fn mmap(address: *mut u8, length: usize, protection: i32, flags: i32, descriptor: i32, offset: i64) -> *mut u8;
    fn mprotect(address: *mut u8, length: usize, protection: i32) -> i32;
    fn munmap(address: *mut u8, length: usize) -> i32;
    fn getpagesize() -> i32;
}

/// How many guard bytes stand on an open side of a buffer.
const GUARD: usize = 64;

fn guard_byte(place: usize) -> u8 {
    0xC3 ^ (place as u8).wrapping_mul(29)
}

/// Where a buffer stands on its ground.
#[derive(Clone, Copy, PartialEq, Eq)]
enum Stand {
    /// Between guard bytes, at any alignment.
    Middle,
    /// Just behind a page that traps, guard bytes behind it.
    AtStart,
    /// Just before a page that traps, guard bytes before it.
    AtEnd,
}

/// Memory to lend from, with a page that traps at each end.
struct Ground {
    whole: *mut u8,
    whole_length: usize,
    open: *mut u8,
    open_length: usize,
    // Of the buffer lent last.
    start: usize,
    length: usize,
    stand: Stand,
}

// A ground is used by one thread at a time; the pointers are its own.
unsafe impl Send for Ground {}

impl Ground {
    fn new(most: usize) -> Ground {
        const NONE: i32 = 0;
        const READ_AND_WRITE: i32 = 1 | 2;
        const PRIVATE_AND_ANONYMOUS: i32 = 0x02 | 0x20;
        unsafe {
            let page = getpagesize() as usize;
            let open_length = (most + 2 * GUARD + 16).div_ceil(page) * page;
            let whole_length = open_length + 2 * page;
            let whole = mmap(ptr::null_mut(), whole_length, NONE, PRIVATE_AND_ANONYMOUS, -1, 0);
            assert!(whole as isize != -1, "mmap refused");
            let open = whole.add(page);
            assert_eq!(mprotect(open, open_length, READ_AND_WRITE), 0);
            Ground { whole, whole_length, open, open_length, start: 0, length: 0, stand: Stand::Middle }
        }
    }

    /// Lends a copy of the bytes. `turn` chooses where it stands, `align` which addresses are allowed.
    fn lend(&mut self, bytes: &[u8], turn: usize, align: usize) -> *mut u8 {
        if bytes.len() + 2 * GUARD + 16 > self.open_length {
            *self = Ground::new(bytes.len());
        }
        let stands = [Stand::Middle, Stand::AtEnd, Stand::Middle, Stand::AtStart];
        self.stand = stands[turn % stands.len()];
        self.start = match self.stand {
            Stand::Middle => GUARD + turn % 16 / align * align,
            Stand::AtStart => 0,
            Stand::AtEnd => self.open_length - bytes.len(),
        };
        self.length = bytes.len();
        let end = self.start + self.length;
        unsafe {
            for place in self.start.saturating_sub(GUARD)..self.start {
                *self.open.add(place) = guard_byte(place);
            }
            ptr::copy_nonoverlapping(bytes.as_ptr(), self.open.add(self.start), bytes.len());
            for place in end..self.open_length.min(end + GUARD) {
                *self.open.add(place) = guard_byte(place);
            }
            self.open.add(self.start)
        }
    }

    /// What the lent buffer holds now.
    fn lent(&self) -> &[u8] {
        unsafe { std::slice::from_raw_parts(self.open.add(self.start), self.length) }
    }

    /// Whether every guard byte is as it was.
    fn guarded(&self) -> bool {
        let end = self.start + self.length;
        let before = self.start.saturating_sub(GUARD)..self.start;
        let behind = end..self.open_length.min(end + GUARD);
        before.chain(behind).all(|place| unsafe { *self.open.add(place) == guard_byte(place) })
    }
}

impl Drop for Ground {
    fn drop(&mut self) {
        unsafe { munmap(self.whole, self.whole_length) };
    }
}

/// One ground for each thing that a call is lent.
pub struct Grounds {
    file: Ground,
    trie: Ground,
    first: Ground,
    second: Ground,
    output: Ground,
    out: Ground,
}

impl Default for Grounds {
    fn default() -> Grounds {
        Grounds {
            file: Ground::new(46_000),
            trie: Ground::new(4_000),
            first: Ground::new(100),
            second: Ground::new(100),
            output: Ground::new(46_000),
            out: Ground::new(32),
        }
    }
}

/// A call with everything lent to it, ready to be made. It points into grounds that must outlive it.
#[derive(Clone, Copy)]
pub struct Lent {
    number: usize,
    file: (*mut u8, usize),
    trie: (*mut u8, usize),
    first: (*mut u8, usize),
    second: (*mut u8, usize),
    output: (*mut u8, usize),
    out: *mut u64,
    numbers: [u64; 3],
}

impl Lent {
    /// Makes the call and nothing else, so that what it needs of the stack can be measured.
    ///
    /// # Safety
    /// The grounds are alive, and nobody else uses them.
    pub unsafe fn make(&self) -> u64 {
        let Lent { number, file, trie, first, second, output, out, numbers: [one, two, three] } = *self;
        match number {
            0 => raw::pal_create(file.0, file.1, one, two, three, trie.0, trie.1),
            1 => raw::pal_check(file.0, file.1),
            2 => raw::pal_recover(file.0, file.1, one, out),
            3 => raw::pal_rebuild(file.0, file.1, trie.0, trie.1),
            4 => raw::pal_lookup(file.0, file.1, trie.0, trie.1, first.0, first.1, out),
            5 => raw::pal_put(file.0, file.1, trie.0, trie.1, first.0, first.1, one, two, three, out),
            6 => raw::pal_remove(file.0, file.1, trie.0, trie.1, first.0, first.1, one, out),
            _ => raw::pal_list(
                file.0, file.1, trie.0, trie.1, first.0, first.1, second.0, second.1, output.0, output.1, out,
            ),
        }
    }
}

/// The bytes lent to a call: file, trie, first and second name, output. What a call has not is empty.
fn buffers(call: &Call) -> [&[u8]; 5] {
    match call {
        Call::Create { file, trie, .. } | Call::Rebuild { file, trie } => [file, trie, &[], &[], &[]],
        Call::Check { file } | Call::Recover { file, .. } => [file, &[], &[], &[], &[]],
        Call::Lookup { file, trie, name }
        | Call::Put { file, trie, name, .. }
        | Call::Remove { file, trie, name, .. } => [file, trie, name, &[], &[]],
        Call::List { file, trie, first, second, output } => [file, trie, first, second, output],
    }
}

/// Lends everything that a call needs. `turn` chooses where the buffers stand.
pub fn lend(call: &Call, grounds: &mut Grounds, turn: usize) -> Lent {
    let [file, trie, first, second, output] = buffers(call);
    let at_entry: Vec<u8> = OUT_AT_ENTRY.iter().flat_map(|word| word.to_ne_bytes()).collect();
    let numbers = match call {
        Call::Create { version, b, slots, .. } => [*version, *b, *slots],
        Call::Put { value, run, limit, .. } => [*value, *run, *limit],
        Call::Recover { limit, .. } | Call::Remove { limit, .. } => [*limit, 0, 0],
        Call::Check { .. } | Call::Rebuild { .. } | Call::Lookup { .. } | Call::List { .. } => [0, 0, 0],
    };
    Lent {
        number: call.number(),
        file: (grounds.file.lend(file, turn, 1), file.len()),
        trie: (grounds.trie.lend(trie, turn / 3, 1), trie.len()),
        first: (grounds.first.lend(first, turn / 5, 1), first.len()),
        second: (grounds.second.lend(second, turn / 2, 1), second.len()),
        output: (grounds.output.lend(output, turn / 11, 1), output.len()),
        out: grounds.out.lend(&at_entry, turn / 7, 8) as *mut u64,
        numbers,
    }
}

/// What a call that was made has left behind, or which memory it wrote that it must leave alone.
pub fn take_back(call: &Call, grounds: &Grounds, answer: u64) -> Result<Outcome, String> {
    let [_, _, first, second, _] = buffers(call);
    let lent: [(&str, &Ground); 6] = [
        ("file", &grounds.file),
        ("trie", &grounds.trie),
        ("first name", &grounds.first),
        ("second name", &grounds.second),
        ("output", &grounds.output),
        ("out", &grounds.out),
    ];
    for (what, ground) in lent {
        if !ground.guarded() {
            return Err(format!("bytes beside the {what} were written (answer {answer})"));
        }
    }
    if grounds.first.lent() != first || grounds.second.lent() != second {
        return Err(format!("a name was written (answer {answer})"));
    }
    let mut out = [0; 4];
    for (word, bytes) in out.iter_mut().zip(grounds.out.lent().chunks(8)) {
        *word = u64::from_ne_bytes(bytes.try_into().unwrap());
    }
    Ok(Outcome {
        answer,
        out,
        file: grounds.file.lent().to_vec(),
        trie: grounds.trie.lent().to_vec(),
        output: grounds.output.lent().to_vec(),
    })
}

/// What the library leaves behind, or which memory it wrote that it must leave alone.
pub fn by_library(call: &Call, grounds: &mut Grounds, turn: usize) -> Result<Outcome, String> {
    let lent = lend(call, grounds, turn);
    // Each buffer stands alone on its own ground, is alive, and has exactly the length that is said.
    let answer = unsafe { lent.make() };
    take_back(call, grounds, answer)
}
