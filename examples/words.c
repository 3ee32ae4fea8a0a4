/* Nine words in a file of lent bytes: create, put, open again, look up, list. See include/palhavento.h. */
#include <inttypes.h>
#include <stdio.h>
#include <string.h>
#include "palhavento.h"

static uint8_t file[PAL_FILE_BYTES(4, 8)], trie[PAL_TRIE_BYTES], entries[9 * PAL_ENTRY_BYTES];

static uint64_t value_of(const uint8_t *entry)
{
    uint64_t value = 0;
    for (int i = 7; i >= 0; i--)
        value = value << 8 | entry[24 + i];
    return value;
}

int main(void)
{
    const char *words[] = {"the", "of", "and", "to", "a", "in", "that", "is", "i"};
    uint64_t out[4], answer;
    if (pal_create(file, sizeof file, 1, 4, 8, trie, sizeof trie) != PAL_CREATED)
        return 1;
    for (uint64_t i = 0; i < 9; i++) {
        const uint8_t *name = (const uint8_t *)words[i];
        uint64_t value = UINT64_C(10000000001) + i;
        answer = pal_put(file, sizeof file, trie, sizeof trie, name, strlen(words[i]), value, 0, 2, out);
        if (answer != PAL_ADDED) {
            fprintf(stderr, "%s: %s\n", words[i], pal_answer_text(answer));
            return 2;
        }
    }
    /* What a program does with a file that was kept: recover it, then rebuild its trie. */
    uint64_t recovered = pal_recover(file, sizeof file, 1, out);
    uint64_t rebuilt = pal_rebuild(file, sizeof file, trie, sizeof trie);
    printf("recover %" PRIu64 ", rebuild %" PRIu64 "\n", recovered, rebuilt);
    if (pal_lookup(file, sizeof file, trie, sizeof trie, (const uint8_t *)"that", 4, out) == PAL_FOUND)
        printf("that is %" PRIu64 "\n", out[0]);
    if (pal_list(file, sizeof file, trie, sizeof trie, (const uint8_t *)"i", 1, (const uint8_t *)"the", 3,
                 entries, sizeof entries, out) == PAL_LISTED)
        for (uint64_t i = 0; i < out[0]; i++)
            printf("%.24s %" PRIu64 "\n", (const char *)entries + 32 * i, value_of(entries + 32 * i));
    return 0;
}
