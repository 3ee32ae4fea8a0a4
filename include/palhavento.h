/*
 * palhavento.h: an ordered file of names in lent bytes, and the trie that addresses it.
 *
 * A name has 1 to 24 bytes, each 0x20 to 0x7D, with no blank (0x20) first or last, and carries a
 * 64-bit value, in files of version 3 also the 64-bit number of the run that wrote it. A file keeps
 * the names in buckets of up to b entries, one bucket a slot; its trie leads each name to the one
 * bucket whose range holds it. The file is what lasts. The trie can be rebuilt from it at any time.
 *
 *     uint8_t  file[PAL_FILE_BYTES(4, 8)], trie[PAL_TRIE_BYTES];
 *     uint64_t out[4];
 *
 *     const uint8_t name[] = {'g', 'd', 'p', '.', 'd', 'e'};
 *
 *     pal_create(file, sizeof file, 1, 4, 8, trie, sizeof trie);
 *     pal_put(file, sizeof file, trie, sizeof trie, name, sizeof name, 42, 0, 2, out);
 *     if (pal_lookup(file, sizeof file, trie, sizeof trie, name, sizeof name, out) == PAL_FOUND)
 *         printf("%llu\n", (unsigned long long)out[0]);
 *
 * To open a file that was kept, call pal_recover, then pal_rebuild. To keep it on disk while the
 * program may be killed, write it slot by slot; examples/keep.c does all of this:
 *
 *   1. Copy the file and the trie, and make the call on the copies with limit 1. If it is refused,
 *      there is nothing to write.
 *   2. Compare the copy with the file, slot by slot. At most one slot differs. Write that slot to its
 *      place on disk and wait for the disk (fdatasync).
 *   3. If the answer was PAL_STOPPED, the call needs a second store. Copy again what you had before
 *      step 1, make the call with limit 2, and compare with the copy of step 1: again at most one
 *      slot differs. Write it and wait.
 *   4. Go on with the last copies.
 *
 * Never write the second slot before the first is on disk: without the first, names would be lost;
 * without the second, pal_recover undoes a put, and finishes a removal.
 *
 * A kill between these steps loses nothing but the call under way. A kill in the middle of a write
 * can leave a slot half written if the slot lies across a page edge, and a power loss if it lies
 * across a sector edge. A file of at most 4096 bytes is one page, which no kill leaves half written.
 * For larger files, and on a real disk, write each slot to a journal first: docs/FORMAT.md has one.
 *
 * Every call checks for itself what it is lent; no file, trie or name, however damaged, makes it
 * crash, hang or leave its memory. No call keeps a pointer, allocates, or touches anything but what
 * is lent to it, and each needs less than 64 KB of stack. Pointers are not null, and lent memory
 * does not overlap; memory of length 0 may have any other pointer.
 *
 * Names, parameters and answers below never change: what was built against one release links
 * against every later one. docs/RULES.md has the rules: its section 9 for the calls, 10 for refusals.
 */
#ifndef PALHAVENTO_H
#define PALHAVENTO_H

#include <stddef.h>
#include <stdint.h>

#ifdef __cplusplus
extern "C" {
#endif

/* The version, as numbers for #if and as text. A program built with one version runs with every later
 * one of the same major number. */
#define PALHAVENTO_VERSION_MAJOR 1
#define PALHAVENTO_VERSION_MINOR 5
#define PALHAVENTO_VERSION_PATCH 1
#define PALHAVENTO_VERSION PAL_DOTTED_(PALHAVENTO_VERSION_MAJOR, PALHAVENTO_VERSION_MINOR, PALHAVENTO_VERSION_PATCH)
#define PAL_DOTTED_(major, minor, patch) PAL_TEXT_(major) "." PAL_TEXT_(minor) "." PAL_TEXT_(patch)
#define PAL_TEXT_(number) #number

/* The bytes of a trie image: count (2), first leaf (2), then 256 cells of digit (1), digit number
 * (1), left side (2) and right side (2), little-endian. A side is signed: 0 and above is that slot,
 * below 0 the cell of that number's negative. */
#define PAL_TRIE_BYTES 1540

/* The bytes of an entry in pal_list's output: the name filled to 24 with 0x20, then the value (8,
 * little-endian), and of a file of version 3 the run (8, little-endian). The name ends where the
 * blanks at the end begin: it may have others inside. PAL_ENTRY_BYTES is that of versions 1 and 2; a
 * file's version is its byte 3. */
#define PAL_ENTRY_BYTES 32
#define PAL_ENTRY_BYTES_OF(version) ((version) == 3 ? (size_t)40 : (size_t)PAL_ENTRY_BYTES)

/* The bytes of a file with bucket capacity b, 2 to 16, and slots, 1 to 64: of version 1 or 2, and of
 * any version. */
#define PAL_FILE_BYTES(b, slots) PAL_FILE_BYTES_OF(1, b, slots)
#define PAL_FILE_BYTES_OF(version, b, slots) (16 + (size_t)(slots) * (64 + PAL_ENTRY_BYTES_OF(version) * (size_t)(b)))

/* Room for every file, and for what pal_list writes of any: 64 slots of 16 entries in version 3. */
#define PAL_LARGEST_FILE 45072
#define PAL_LARGEST_LIST 40960

/* What out[0] is where the trie is stale and no digit of a name tells how far off it was. */
#define PAL_NO_DIGIT 255

/*
 * Answers. 1 to 99 is a refusal, 255 a malformed call; every other answer says what was done.
 *
 * A refusal carries the first cause that holds, in the order 8, 1, 2, 3, 4, 12, 5, 6, 7 (pal_lookup
 * has its own), and changes no file, trie or output. Only pal_create and pal_rebuild, whose trie is a
 * result, then give the empty trie: an image of zeros.
 *
 * PAL_STALE_TRIE is the one refusal that says more, in out[0] of every call that takes out. Where
 * pal_lookup came to a bucket whose range lacks the name, it is where the name left the range: the
 * number, from 0, of the name's first digit that is not that of the bound it broke, or the bound's
 * length, up to 24, where all are. For every other cause it is PAL_NO_DIGIT.
 *
 * A word of out that is not named for an answer is left as it was.
 */
#define PAL_ANSWERS(ANSWER) \
    ANSWER(PAL_ILLEGAL_NAME,     1,   "A name is not 1 to 24 bytes, each 0x20 to 0x7D, no blank first or last.") \
    ANSWER(PAL_BAD_FILE,         2,   "The file is neither sound nor cut; for look up: the part it reads is wrong.") \
    ANSWER(PAL_CUT_FILE,         3,   "The file is cut: recover, then rebuild.") \
    ANSWER(PAL_STALE_TRIE,       4,   "The trie does not agree with the file: rebuild.") \
    ANSWER(PAL_NO_FREE_SLOT,     5,   "A split is needed and there is no free slot.") \
    ANSWER(PAL_TOO_MANY_STRINGS, 6,   "The file would have more than 256 strings: bounds and their beginnings.") \
    ANSWER(PAL_SHORT_OUTPUT,     7,   "The output is too short: it needs 32 bytes for each entry, in version 3 40.") \
    ANSWER(PAL_OUTSIDE_LIMITS,   8,   "The store limit is above 2; or create's version, b, slots or length is wrong.") \
    ANSWER(PAL_OLDER_RUN,        12,  "The name is held with a higher run.") \
    \
    ANSWER(PAL_FOUND,            100, "The file holds the name.") \
    ANSWER(PAL_ABSENT,           101, "The file does not hold the name.") \
    ANSWER(PAL_ADDED,            110, "The name is new in the file.") \
    ANSWER(PAL_REPLACED,         111, "The name was held and has the new value and run.") \
    ANSWER(PAL_STOPPED,          112, "The limit was too low for the last store; the trie is unchanged.") \
    ANSWER(PAL_REMOVED,          120, "The name was held and is gone.") \
    ANSWER(PAL_FREED,            130, "The file was cut and is sound again: one slot was freed.") \
    ANSWER(PAL_NOTHING_TO_DO,    131, "The file was sound already.") \
    ANSWER(PAL_SOUND,            140, "The slots are free or well formed, and their ranges leave no gap.") \
    ANSWER(PAL_CUT,              141, "A split or a merge was stopped between its two stores; freeing one slot mends it.") \
    ANSWER(PAL_BAD,              142, "The file is neither sound nor cut.") \
    ANSWER(PAL_CREATED,          150, "The file is new and empty, and the trie is its trie.") \
    ANSWER(PAL_REBUILT,          151, "The trie is the one rebuilt from the file's bounds.") \
    ANSWER(PAL_LISTED,           152, "The output begins with the entries of the range.") \
    \
    ANSWER(PAL_MALFORMED,        255, "The trie image is not exactly 1540 bytes long; nothing is changed.")

#define PAL_NUMBER_(name, number, sentence) name = number,
enum { PAL_ANSWERS(PAL_NUMBER_) };

/* The sentence above for an answer, for messages. */
static inline const char *pal_answer_text(uint64_t answer)
{
#define PAL_SENTENCE_(name, number, sentence) case number: return sentence;
    switch (answer) {
        PAL_ANSWERS(PAL_SENTENCE_)
    default:
        return "No call gives this answer.";
    }
}

/*
 * Write a new file without names over the whole buffer, and its trie.
 *
 * version is 1, 2 or 3. It says where a bucket splits: at the middle, or in versions 2 and 3 by the
 * shortest of three strings about it (rule R7.3); and whether entries keep the run that wrote them, as
 * those of version 3 do. All other calls read it from the file. Releases before 1.3 take a file of
 * version 2 for a bad one, and releases before 1.4 one of version 3. file_length is
 * PAL_FILE_BYTES_OF(version, b, slots).
 *
 * PAL_CREATED. Refusals: 8.
 */
uint64_t pal_create(uint8_t *file, size_t file_length,
                    uint64_t version, uint64_t b, uint64_t slots,
                    uint8_t *trie, size_t trie_length);

/*
 * Say whether a file is sound, cut or bad.
 *
 * PAL_SOUND, PAL_CUT, PAL_BAD. No refusals.
 */
uint64_t pal_check(const uint8_t *file, size_t file_length);

/*
 * Make a cut file sound: free the new slot of the split that was stopped, or the right one of the two
 * that were to merge. One store, within the limit as for pal_put. Rebuild the trie afterwards.
 *
 * PAL_FREED (out[0]: the slot), PAL_NOTHING_TO_DO, PAL_STOPPED (out[0]: stores made). Refusals: 8, 2.
 */
uint64_t pal_recover(uint8_t *file, size_t file_length,
                     uint64_t limit, uint64_t out[4]);

/*
 * Give the trie of a sound file, from its bounds alone.
 *
 * PAL_REBUILT. Refusals: 2, 3, 6.
 */
uint64_t pal_rebuild(const uint8_t *file, size_t file_length,
                     uint8_t *trie, size_t trie_length);

/*
 * Look up a name. Reads the header and one bucket. With a sound file and any trie at all the answer
 * is true or the trie is refused as stale.
 *
 * PAL_FOUND (out[0]: the value, out[1]: the run, 0 in versions 1 and 2), PAL_ABSENT. Refusals: 1, 2, 4
 * (out[0]: where the name left the range, or PAL_NO_DIGIT).
 */
uint64_t pal_lookup(const uint8_t *file, size_t file_length,
                    const uint8_t *trie, size_t trie_length,
                    const uint8_t *name, size_t name_length,
                    uint64_t out[4]);

/*
 * Put a name with a value and a run, and keep the trie in step with the file. A file of version 3
 * keeps the run: a put on a name that it holds with a higher run is refused; a put with the same run
 * or a higher one replaces. Files of versions 1 and 2 ignore the run.
 *
 * limit, 0 to 2, is how many stores the call may make, each of one whole slot; 2 is always enough.
 * A lower one stops the call where a kill could. After a stop or a kill discard the trie, recover
 * and rebuild: a put that was stopped before its last store then counts as never made.
 *
 * The stores and their order do not depend on the limit. Whatever instant the call is stopped at,
 * the lent file is as its first stores leave it, each whole, but for the store under way. For the
 * order in which the machine sees the writes of one call, the compiler is trusted.
 *
 * PAL_ADDED, PAL_REPLACED (out[0]: the old value, out[1]: the old run, 0 in versions 1 and 2),
 * PAL_STOPPED (out[0]: stores made). Refusals: 8, 1, 2, 3, 4 (out[0]: PAL_NO_DIGIT), 12, 5, 6.
 */
uint64_t pal_put(uint8_t *file, size_t file_length,
                 uint8_t *trie, size_t trie_length,
                 const uint8_t *name, size_t name_length,
                 uint64_t value, uint64_t run, uint64_t limit, uint64_t out[4]);

/*
 * Remove a name, within the store limit as for pal_put. If its bucket and the right neighbour, or else
 * the left neighbour and its bucket, then have at most b/2 entries together, they merge: the left one
 * of the two takes everything in, and the right one's slot is freed. That takes two stores, and the
 * trie is then the one that pal_rebuild would give; else it stays as it is. Stopped between the two,
 * the removal counts as made. Nothing keeps the run: a later put of the name may be of any run.
 *
 * PAL_REMOVED, PAL_ABSENT, PAL_STOPPED (out[0]: stores made). Refusals: 8, 1, 2, 3, 4 (out[0]:
 * PAL_NO_DIGIT).
 */
uint64_t pal_remove(uint8_t *file, size_t file_length,
                    uint8_t *trie, size_t trie_length,
                    const uint8_t *name, size_t name_length,
                    uint64_t limit, uint64_t out[4]);

/*
 * Write the entries whose names lie from first to second, both included, ascending, 32 bytes each, in
 * version 3 40 (PAL_ENTRY_BYTES_OF), to the beginning of output, and nothing behind them.
 * PAL_LARGEST_LIST bytes are always enough. First above second gives no entries.
 *
 * PAL_LISTED (out[0]: entries written). Refusals: 1, 2, 3, 4 (out[0]: PAL_NO_DIGIT), 7.
 */
uint64_t pal_list(const uint8_t *file, size_t file_length,
                  const uint8_t *trie, size_t trie_length,
                  const uint8_t *first, size_t first_length,
                  const uint8_t *second, size_t second_length,
                  uint8_t *output, size_t output_length,
                  uint64_t out[4]);

#ifdef __cplusplus
}
#endif

#endif
