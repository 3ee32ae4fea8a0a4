//! Watches the whole suite: a call that hangs or faults ends it, with a message that says which call it was.

use std::sync::atomic::{AtomicBool, AtomicPtr, AtomicU64, AtomicUsize, Ordering::Relaxed};
use std::sync::Once;
use std::time::Duration;

/// No suite takes this long.
const MINUTES_FOR_ALL: u64 = 20;
/// No single call takes this long.
const SECONDS_FOR_ONE: u64 = 120;

/// What one run is doing just now. Only atomics, so that a fault's handler may read it.
pub struct Seat {
    taken: AtomicBool,
    part: AtomicPtr<u8>,
    part_length: AtomicUsize,
    story: AtomicU64,
    step: AtomicU64,
    in_a_call: AtomicBool,
    calls: AtomicU64,
}

const SEATS: usize = 32;

static ALL: [Seat; SEATS] = [const {
    Seat {
        taken: AtomicBool::new(false),
        part: AtomicPtr::new(std::ptr::null_mut()),
        part_length: AtomicUsize::new(0),
        story: AtomicU64::new(0),
        step: AtomicU64::new(0),
        in_a_call: AtomicBool::new(false),
        calls: AtomicU64::new(0),
    }
}; SEATS];

impl Seat {
    /// Says that a call begins.
    pub fn enter(&self, story: u64, step: u64) {
        self.story.store(story, Relaxed);
        self.step.store(step, Relaxed);
        self.calls.fetch_add(1, Relaxed);
        self.in_a_call.store(true, Relaxed);
    }

    /// Says that it came back.
    pub fn leave(&self) {
        self.in_a_call.store(false, Relaxed);
    }
}

/// A seat for a part of the suite. Starts the watch.
pub fn seat(part: &'static str) -> &'static Seat {
    start();
    let seat = ALL.iter().find(|seat| !seat.taken.swap(true, Relaxed)).expect("there are seats enough");
    seat.part.store(part.as_ptr() as *mut u8, Relaxed);
    seat.part_length.store(part.len(), Relaxed);
    seat
}

/// Starts the watch, once for each process.
pub fn start() {
    static STARTED: Once = Once::new();
    STARTED.call_once(|| {
        catch_faults();
        std::thread::Builder::new().name("watch".to_string()).spawn(watch).expect("a thread can start");
    });
}

fn watch() {
    let mut calls_before = [0; SEATS];
    let mut unchanged = [0; SEATS];
    for _ in 0..MINUTES_FOR_ALL * 60 {
        std::thread::sleep(Duration::from_secs(1));
        for (number, seat) in ALL.iter().enumerate() {
            let calls = seat.calls.load(Relaxed);
            let hangs = seat.in_a_call.load(Relaxed) && calls == calls_before[number];
            unchanged[number] = if hangs { unchanged[number] + 1 } else { 0 };
            calls_before[number] = calls;
            if unchanged[number] > SECONDS_FOR_ONE {
                give_up("a call hangs");
            }
        }
    }
    give_up("the suite takes too long");
}

extern "C" {
    fn sigaction(signal: i32, new: *const Action, old: *mut Action) -> i32;
    fn write(descriptor: i32, bytes: *const u8, length: usize) -> isize;
    fn _exit(status: i32) -> !;
}

/// What Linux's C library calls `struct sigaction`.
#[repr(C)]
struct Action {
    handler: usize,
    mask: [u64; 16],
    flags: i32,
    restorer: usize,
}

/// A fault inside a call (a page that traps, an overflowing stack, an abort) is told before the process ends.
fn catch_faults() {
    const ON_OWN_STACK: i32 = 0x0800_0000;
    for signal in [4, 5, 6, 7, 8, 11] {
        let action =
            Action { handler: on_fault as *const () as usize, mask: [0; 16], flags: ON_OWN_STACK, restorer: 0 };
        unsafe { sigaction(signal, &action, std::ptr::null_mut()) };
    }
}

extern "C" fn on_fault(signal: i32) {
    tell(b"\nfault, signal ");
    tell_number(signal as u64);
    give_up("a call or a test faulted");
}

/// Tells what runs, and ends the process. It neither allocates nor locks, since a handler calls it.
fn give_up(why: &str) -> ! {
    tell(b"\n");
    tell(why.as_bytes());
    for seat in ALL.iter().filter(|seat| seat.in_a_call.load(Relaxed)) {
        tell(b"\nin a call: part ");
        let part = seat.part.load(Relaxed);
        if !part.is_null() {
            unsafe { write(2, part, seat.part_length.load(Relaxed)) };
        }
        tell(b", story ");
        tell_number(seat.story.load(Relaxed));
        tell(b", step ");
        tell_number(seat.step.load(Relaxed));
    }
    tell(b"\n");
    unsafe { _exit(101) }
}

fn tell(bytes: &[u8]) {
    unsafe { write(2, bytes.as_ptr(), bytes.len()) };
}

fn tell_number(number: u64) {
    let mut digits = [b'0'; 20];
    let mut place = digits.len();
    let mut rest = number;
    loop {
        place -= 1;
        digits[place] = b'0' + (rest % 10) as u8;
        rest /= 10;
        if rest == 0 {
            break;
        }
    }
    tell(&digits[place..]);
}
