/* Names as economists give them, series.country.quarter, in a shuffled order that never changes. */
#include "bench.h"

#include <string.h>

static const char *const series[] = {
    "gdp",    "cpi",   "ppi",     "hicp",    "unemp",  "wages",  "m1",     "m3",
    "exports", "imports", "trade", "debt",   "deficit", "rate3m", "yield10y", "fx",
    "hours",  "permits", "retail", "output", "invest", "savings", "credit", "house",
};
static const char *const countries[] = {
    "at", "be", "de", "dk", "es", "fi", "fr", "gr", "ie", "it", "nl", "pl", "pt", "se", "uk", "us",
};
enum {
    SERIES = sizeof series / sizeof *series,
    COUNTRIES = sizeof countries / sizeof *countries,
    FIRST_YEAR = 2015,
    QUARTERS = 40,
    NAMES = SERIES * COUNTRIES * QUARTERS
};

/* Splitmix64: small, and the same on every machine. */
uint64_t next_random(uint64_t *state)
{
    uint64_t z = *state += 0x9E3779B97F4A7C15u;
    z = (z ^ (z >> 30)) * 0xBF58476D1CE4E5B9u;
    z = (z ^ (z >> 27)) * 0x94D049BB133111EBu;
    return z ^ (z >> 31);
}

const struct name *all_names(size_t *count)
{
    static struct name names[NAMES];
    uint64_t state = 1983;
    *count = NAMES;
    if (names[0].length)
        return names;
    for (size_t i = 0; i < NAMES; i++) {
        char text[64];
        unsigned quarter = (unsigned)(i % QUARTERS);
        size_t country = i / QUARTERS % COUNTRIES, s = i / QUARTERS / COUNTRIES;
        int length = snprintf(text, sizeof text, "%s.%s.%uq%u", series[s], countries[country],
                              FIRST_YEAR + quarter / 4, 1 + quarter % 4);
        EXPECT(length >= 1 && length <= NAME_DIGITS);
        memset(names[i].bytes, 0x20, NAME_DIGITS);
        memcpy(names[i].bytes, text, (size_t)length);
        names[i].length = (size_t)length;
        names[i].value = next_random(&state);
    }
    for (size_t i = NAMES - 1; i > 0; i--) {
        size_t other = next_random(&state) % (i + 1);
        struct name moved = names[i];
        names[i] = names[other];
        names[other] = moved;
    }
    return names;
}

int by_name(const void *a, const void *b)
{
    return memcmp(((const struct name *)a)->bytes, ((const struct name *)b)->bytes, NAME_DIGITS);
}
