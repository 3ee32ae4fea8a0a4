//! Nine words in a file of lent bytes: create, put, open again, look up, list. See include/palhavento.h.
type In = *const u8;
type Out = *mut u8;
type Len = usize;

extern "C" {
    fn pal_create(f: Out, fl: Len, version: u64, b: u64, slots: u64, t: Out, tl: Len) -> u64;
    fn pal_put(f: Out, fl: Len, t: Out, tl: Len, n: In, nl: Len, value: u64, run: u64, limit: u64, o: *mut u64) -> u64;
    fn pal_recover(f: Out, fl: Len, limit: u64, o: *mut u64) -> u64;
    fn pal_rebuild(f: In, fl: Len, t: Out, tl: Len) -> u64;
    fn pal_lookup(f: In, fl: Len, t: In, tl: Len, n: In, nl: Len, o: *mut u64) -> u64;
    fn pal_list(f: In, fl: Len, t: In, tl: Len, a: In, al: Len, z: In, zl: Len, e: Out, el: Len, o: *mut u64) -> u64;
}

fn main() {
    let (mut file, mut trie, mut entries, mut out) = ([0; 16 + 8 * (64 + 32 * 4)], [0; 1540], [0; 9 * 32], [0; 4]);
    let (fl, tl, el) = (file.len(), trie.len(), entries.len());
    let (f, t, e, o) = (file.as_mut_ptr(), trie.as_mut_ptr(), entries.as_mut_ptr(), out.as_mut_ptr());
    // Each slice is lent with its own length, and no call keeps a pointer.
    unsafe {
        assert_eq!(pal_create(f, fl, 1, 4, 8, t, tl), 150);
        for (value, name) in (10_000_000_001..).zip(["the", "of", "and", "to", "a", "in", "that", "is", "i"]) {
            assert_eq!(pal_put(f, fl, t, tl, name.as_ptr(), name.len(), value, 0, 2, o), 110);
        }
        // What a program does with a file that was kept: recover it, then rebuild its trie.
        println!("recover {}, rebuild {}", pal_recover(f, fl, 1, o), pal_rebuild(f, fl, t, tl));
        assert_eq!(pal_lookup(f, fl, t, tl, b"that".as_ptr(), 4, o), 100);
        println!("that is {}", *o);
        assert_eq!(pal_list(f, fl, t, tl, b"i".as_ptr(), 1, b"the".as_ptr(), 3, e, el, o), 152);
    }
    for entry in entries.chunks(32).take(out[0] as usize) {
        let value = u64::from_le_bytes(entry[24..].try_into().expect("eight bytes"));
        println!("{} {value}", String::from_utf8_lossy(&entry[..24]));
    }
}
