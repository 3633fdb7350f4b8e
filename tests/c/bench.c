/*
 * Document 01's bench cases, through skid.h, and of document 02 keys in any order, salvage, boot numbers, the crew at
 * work and the setpoint book, and edges of the calling convention. A line for each case; exit 1 if a figure is not the
 * documents'.
 */
#include <inttypes.h>
#include <stdio.h>
#include <string.h>

#include "skid.h"

/* ---- what is checked */

static int cases, sorts, salvages, boots, works, books, edges, failures;
static int bad; /* in the case at hand */

static void check(const char *what, uint64_t got, uint64_t want) {
    printf("%s %" PRIu64 ", ", what, got);
    if (got != want) {
        printf("BUT NOT %" PRIu64 ", ", want);
        bad = 1;
    }
}

static void name(const char *text) {
    bad = 0;
    printf("%s: ", text);
}

static void end(int *count) {
    printf("%s\n", bad ? "FAILED" : "as it must be");
    if (bad) {
        failures++;
    } else {
        (*count)++;
    }
}

/* ---- the arena of the bench: H 2, B 4, registry 0, 1, 1, boot number 5; every lent run stands between guards */

#define PATTERN 0xa5a5a5a5a5a5a5a5u
#define GUARD 77u
#define NONE NULL, 0

static struct {
    uint32_t before, words[24], after;
} table;
static struct {
    uint8_t before, bytes[2], after;
} health;
static struct {
    uint64_t before, words[SKID_REPLY_WORDS], after;
} reply;
static struct {
    uint64_t before, words[SKID_CREW_WORDS], after;
} crew;
static struct {
    uint16_t before, each[8], after;
} counters;
static struct {
    uint8_t before, bytes[8 * SKID_ROOMY_BYTES], after; /* 8 slots, with room for every version */
} book;
static struct {
    uint64_t before, words[SKID_BOOK_WORDS], after;
} told;
static const uint32_t registry[3] = {0, 1, 1};
static uint32_t next, boot;
static size_t lent_book; /* bytes of the book */

#define BOOT 5u
#define HEAD 2, 4, next, boot
#define TABLE table.words, 24
#define HEALTH health.bytes, 2
#define COUNTERS counters.each, 8
#define FRONT (8 * SKID_SLOT_BYTES)
#define ROOMY (8 * SKID_ROOMY_BYTES)
#define BOOK book.bytes, lent_book
#define REGISTRY registry, 3
#define LIST(a) a, sizeof a / sizeof a[0]

/* The reply as no call leaves it, so that a word that is not written shows. */
static uint64_t *blank(void) {
    int i;
    for (i = 0; i < SKID_REPLY_WORDS; i++) {
        reply.words[i] = PATTERN;
    }
    return reply.words;
}

static uint64_t *blank_crew(void) {
    int i;
    for (i = 0; i < SKID_CREW_WORDS; i++) {
        crew.words[i] = PATTERN;
    }
    return crew.words;
}

/* After each call: no word as it was, none outside the runs, and the head goes on. */
static void kept(void) {
    if (table.before != GUARD || table.after != GUARD || health.before != GUARD || health.after != GUARD ||
        reply.before != GUARD || reply.after != GUARD || crew.before != GUARD || crew.after != GUARD) {
        printf("A WORD OUTSIDE THE RUNS CHANGED, ");
        bad = 1;
    }
}

static void called(void) {
    int i;
    for (i = 0; i < SKID_REPLY_WORDS; i++) {
        if (reply.words[i] == PATTERN) {
            printf("WORD %d NOT WRITTEN, ", i);
            bad = 1;
        }
    }
    kept();
    if (reply.words[SKID_HEADERS] != 2 || reply.words[SKID_BUCKETS] != 4 || reply.words[SKID_BOOT] != boot) {
        printf("ANOTHER HEAD, ");
        bad = 1;
    }
    next = (uint32_t)reply.words[SKID_NEXT];
}

static void crewed(void) {
    int i;
    for (i = 0; i < SKID_CREW_WORDS; i++) {
        if (crew.words[i] == PATTERN) {
            printf("WORD %d NOT WRITTEN, ", i);
            bad = 1;
        }
    }
    kept();
    if (crew.words[SKID_BOOT] != boot) {
        printf("ANOTHER HEAD, ");
        bad = 1;
    }
    next = (uint32_t)crew.words[SKID_NEXT];
}

/* Memory after a cold start holds anything. */
static void prepare_as(uint32_t serial, uint32_t number) {
    memset(&table, 0x5a, sizeof table);
    memset(&health, 0x5a, sizeof health);
    table.before = table.after = GUARD;
    health.before = health.after = GUARD;
    reply.before = reply.after = GUARD;
    crew.before = crew.after = GUARD;
    boot = number;
    skid_prepare(2, 4, serial, boot, TABLE, HEALTH, blank());
    called();
}

static void prepare(uint32_t serial) { prepare_as(serial, BOOT); }

static uint64_t word(int i) { return reply.words[i]; }

/* Why it was Busy. */
static void reason(uint64_t why, uint64_t serial) {
    check("reason", word(SKID_REASON), why);
    check("its serial", word(SKID_REASON_SERIAL), serial);
}

static void granted(uint32_t cell, uint32_t serial) {
    check("kind", word(SKID_KIND), SKID_GRANTED);
    check("cell", word(SKID_CELL), cell);
    check("serial", word(SKID_SERIAL), serial);
    check("boot", word(SKID_LEASE_BOOT), boot);
    reason(SKID_REASON_NONE, 0);
}

static void refused(uint64_t number, uint64_t carried) {
    check("kind", word(SKID_KIND), SKID_REFUSED);
    check("refusal", word(SKID_REFUSAL), number);
    check("carrying", word(SKID_CARRIED), carried);
    if (number != SKID_SERIALIZATION_FAILURE) {
        reason(SKID_REASON_NONE, 0);
    }
}

/* Refusal 11, with the reason of the last attempt. */
static void failed(uint64_t why, uint64_t serial) {
    refused(SKID_SERIALIZATION_FAILURE, 4096);
    reason(why, serial);
}

/* Every word behind the head. */
static void words(uint64_t place, uint64_t attempts, uint64_t boundaries, uint64_t dropped, uint64_t kind, uint64_t a,
                  uint64_t b, uint64_t third) {
    check("place", word(SKID_PLACE), place);
    check("attempts", word(SKID_ATTEMPTS), attempts);
    check("boundaries", word(SKID_BOUNDARIES), boundaries);
    check("yields", word(SKID_YIELDS), 0);
    check("dropped", word(SKID_DROPPED), dropped);
    check("kind", word(SKID_KIND), kind);
    check("word 10", word(10), a);
    check("word 11", word(11), b);
    check("word 12", word(12), third);
    if (kind != SKID_BUSY) {
        reason(SKID_REASON_NONE, 0);
    }
}

static void at_next(uint32_t want) { check("next", word(SKID_NEXT), want); }

static void free_cells(void) {
    uint32_t c, n = 0;
    for (c = 0; c < 8; c++) {
        n += table.words[3 * c] == 0 && table.words[3 * c + 1] == 0;
    }
    check("free cells", n, 8);
}

/* The retry on the key (0, bucket). */
static void acquire(const uint32_t *script, size_t script_len, const uint32_t *held, size_t held_len, uint32_t bucket) {
    skid_acquire_index_bucket(HEAD, TABLE, HEALTH, REGISTRY, script, script_len, 0, held, held_len, 0, bucket, blank());
    called();
}

/* One boundary that runs one foreign step. */
static void step(uint32_t kind, uint32_t place, uint32_t number) {
    uint32_t script[3];
    script[0] = kind;
    script[1] = place;
    script[2] = number;
    skid_environment(HEAD, TABLE, HEALTH, LIST(script), 0, NONE, blank());
    called();
}

/* ---- the bench cases, in document 01's order */

static void key(void) {
    static const uint32_t keys[SKID_KEY_WORDS] = {0, 2};
    uint32_t grants[SKID_LEASE_WORDS] = {7, 7, 7};

    name("key (0,2), acquire_index_bucket");
    prepare(1);
    acquire(NONE, NONE, 2);
    granted(2, 1);
    at_next(2);
    check("attempts", word(SKID_ATTEMPTS), 1);
    check("boundaries", word(SKID_BOUNDARIES), 3);

    printf("transactional_try_lock_bucket: ");
    prepare(1);
    skid_transactional_try_lock_bucket(HEAD, TABLE, HEALTH, REGISTRY, NONE, 0, NONE, 0, 2, blank());
    called();
    granted(2, 1);
    at_next(2);
    check("attempts", word(SKID_ATTEMPTS), 1);
    check("boundaries", word(SKID_BOUNDARIES), 3);

    printf("acquire_index_locks: ");
    prepare(1);
    skid_acquire_index_locks(HEAD, TABLE, HEALTH, REGISTRY, NONE, 0, NONE, LIST(keys), LIST(grants), blank());
    called();
    check("kind", word(SKID_KIND), SKID_ALL_GRANTED);
    reason(SKID_REASON_NONE, 0);
    check("cell", grants[0], 2);
    check("serial", grants[1], 1);
    check("boot", grants[2], BOOT);
    at_next(2);
    check("attempts", word(SKID_ATTEMPTS), 1);
    check("boundaries", word(SKID_BOUNDARIES), 3);
    end(&cases);
}

static void again(void) {
    static const uint32_t held[SKID_LEASE_WORDS] = {2, 1, BOOT};
    name("again, lease 1 held");
    prepare(1);
    acquire(NONE, NONE, 2);
    acquire(NONE, LIST(held), 2);
    failed(SKID_REASON_HELD, 1);
    check("boundaries", word(SKID_BOUNDARIES), 12352);
    check("yields", word(SKID_YIELDS), 64);
    at_next(2);
    end(&cases);
}

static void waiters(void) {
    name("waiters of cell 2 stay 1");
    prepare(1);
    step(SKID_STEP_WAITERS, 2, 1);
    acquire(NONE, NONE, 2);
    failed(SKID_REASON_BEFORE, 0);
    check("boundaries", word(SKID_BOUNDARIES), 8256);
    check("yields", word(SKID_YIELDS), 64);
    at_next(1);
    end(&cases);
}

static void late_waiters(void) {
    static const uint32_t script[12] = {5, 0, 0, 5, 0, 0, 3, 2, 1, 5, 0, 0};
    name("try_lock of cell 2, script 5; 5; set waiters of 2 to 1; 5");
    prepare(1);
    skid_try_lock(HEAD, TABLE, HEALTH, LIST(script), 0, NONE, 2, blank());
    called();
    check("kind", word(SKID_KIND), SKID_BUSY);
    reason(SKID_REASON_AFTER, 1);
    check("boundaries", word(SKID_BOUNDARIES), 3);
    check("place", word(SKID_PLACE), 4);
    at_next(2);
    check("bit", table.words[6], 0);
    check("owner", table.words[7], 0);
    end(&cases);
}

static void buckets(void) {
    name("bucket 4");
    prepare(1);
    acquire(NONE, NONE, 4);
    refused(SKID_INVALID_BUCKET, 4);
    check("boundaries", word(SKID_BOUNDARIES), 0);
    end(&cases);

    name("bucket 3");
    prepare(1);
    acquire(NONE, NONE, 3);
    granted(3, 1);
    end(&cases);

    name("header 0 poisoned, bucket 4");
    prepare(1);
    step(SKID_STEP_HEALTH, 0, 1);
    acquire(NONE, NONE, 4);
    refused(SKID_POISONED, 0);
    end(&cases);
}

static void serials(void) {
    static const uint32_t held[SKID_LEASE_WORDS] = {2, 4294967294u, BOOT};
    name("next 4,294,967,295, cell free");
    prepare(SKID_NO_SERIAL);
    acquire(NONE, NONE, 2);
    refused(SKID_SERIALS_SPENT, 2);
    check("boundaries", word(SKID_BOUNDARIES), 2);
    end(&cases);

    name("next 4,294,967,294");
    prepare(4294967294u);
    acquire(NONE, NONE, 2);
    granted(2, 4294967294u);
    end(&cases);

    name("spent and held");
    acquire(NONE, LIST(held), 2);
    failed(SKID_REASON_HELD, 4294967294u);
    end(&cases);
}

static void foreign_release(void) {
    static const uint32_t script[12] = {5, 0, 0, 5, 0, 0, 2, 2, 1, 5, 0, 0};
    static const uint32_t held[SKID_LEASE_WORDS] = {2, 1, BOOT};
    name("cell 2 held by foreign 1, script 5; 5; release (2,1); 5");
    prepare(1);
    step(SKID_STEP_TAKE, 2, 0);
    acquire(LIST(script), NONE, 2);
    granted(2, 2);
    check("attempts", word(SKID_ATTEMPTS), 2);
    check("boundaries", word(SKID_BOUNDARIES), 6);
    end(&cases);

    name("the same with (2,1) in the held list");
    prepare(1);
    step(SKID_STEP_TAKE, 2, 0);
    acquire(LIST(script), LIST(held), 2);
    failed(SKID_REASON_HELD, 1);
    check("dropped", word(SKID_DROPPED), 1);
    end(&cases);
}

static void keys(void) {
    static const uint32_t two[2 * SKID_KEY_WORDS] = {1, 0, 2, 0};
    uint32_t grants[2 * SKID_LEASE_WORDS] = {7, 7, 7, 7, 7, 7};
    uint32_t i, n = 0;
    name("keys (1,0),(2,0)");
    prepare(1);
    skid_acquire_index_locks(HEAD, TABLE, HEALTH, REGISTRY, NONE, 0, NONE, LIST(two), LIST(grants), blank());
    called();
    check("kind", word(SKID_KIND), SKID_REFUSED_AT);
    check("refusal", word(SKID_REFUSAL), SKID_SERIALIZATION_FAILURE);
    check("position", word(SKID_POSITION), 1);
    reason(SKID_REASON_HELD, 1);
    check("attempts", word(SKID_ATTEMPTS), 4097);
    check("boundaries", word(SKID_BOUNDARIES), 12356);
    check("yields", word(SKID_YIELDS), 64);
    at_next(2);
    free_cells();
    for (i = 0; i < 2 * SKID_LEASE_WORDS; i++) {
        n += grants[i] == 7;
    }
    check("grants as they were", n, 2 * SKID_LEASE_WORDS);
    end(&cases);

    name("no keys");
    prepare(1);
    skid_acquire_index_locks(HEAD, TABLE, HEALTH, REGISTRY, NONE, 0, NONE, NONE, NONE, blank());
    called();
    check("kind", word(SKID_KIND), SKID_ALL_GRANTED);
    check("attempts", word(SKID_ATTEMPTS), 0);
    check("boundaries", word(SKID_BOUNDARIES), 0);
    check("yields", word(SKID_YIELDS), 0);
    check("dropped", word(SKID_DROPPED), 0);
    end(&cases);
}

static void crews(void) {
    static const uint32_t counts[2] = {2, 2}, cells[4] = {2, 5, 2, 5}, falling[4] = {2, 5, 5, 2};
    static const uint32_t turns[14] = {0, 1, 0, 1, 0, 1, 0, 1, 0, 1, 0, 1, 0, 1};
    int i;
    name("crew {2,5},{2,5}, turns 0,1 seven times");
    prepare(1);
    skid_crew(HEAD, TABLE, HEALTH, LIST(counts), LIST(cells), LIST(turns), blank_crew());
    crewed();
    check("kind", crew.words[SKID_KIND], SKID_DONE);
    check("moving", crew.words[SKID_MOVING], 8);
    check("idle", crew.words[SKID_IDLE], 6);
    check("next", crew.words[SKID_NEXT], 5);
    for (i = 0; i < 16; i++) {
        uint64_t want = i < 2 ? 2 : 0;
        if (crew.words[SKID_TAKEN + i] != want || crew.words[SKID_RELEASED + i] != want) {
            printf("MEMBER %d, ", i);
            bad = 1;
        }
    }
    for (i = SKID_PLACE; i < SKID_MOVING; i++) {
        if (crew.words[i] != 0) {
            printf("WORD %d, ", i);
            bad = 1;
        }
    }
    free_cells();
    end(&cases);

    name("crew {2,5},{5,2}");
    prepare(1);
    skid_crew(HEAD, TABLE, HEALTH, LIST(counts), LIST(falling), LIST(turns), blank_crew());
    crewed();
    check("kind", crew.words[SKID_KIND], SKID_REFUSED);
    check("refusal", crew.words[SKID_REFUSAL], SKID_BAD_CREW);
    check("member", crew.words[SKID_CARRIED], 1);
    end(&cases);
}

/* ---- keys in any order, and doubles; a grant buffer of nines, so that one that was written shows */

#define GRANT_WORDS (4 * SKID_LEASE_WORDS + 1) /* four leases, and a word behind them */

static uint32_t grants[GRANT_WORDS];

static uint32_t *blank_grants(void) {
    uint32_t i;
    for (i = 0; i < GRANT_WORDS; i++) {
        grants[i] = 9;
    }
    return grants;
}

static void grants_kept(void) {
    uint32_t i, n = 0;
    for (i = 0; i < GRANT_WORDS; i++) {
        n += grants[i] == 9;
    }
    check("grants as they were", n, GRANT_WORDS);
}

static void sort_keys(const uint32_t *script, size_t script_len, const uint32_t *keys, size_t keys_len) {
    skid_acquire_sorted_locks(HEAD, TABLE, HEALTH, REGISTRY, script, script_len, 0, NONE, keys, keys_len,
                              blank_grants(), SKID_LEASE_WORDS * (keys_len / SKID_KEY_WORDS), blank());
    called();
}

static void each_granted(const uint32_t *want, size_t want_len, uint64_t attempts, uint64_t boundaries) {
    check("kind", word(SKID_KIND), SKID_ALL_GRANTED);
    check("attempts", word(SKID_ATTEMPTS), attempts);
    check("boundaries", word(SKID_BOUNDARIES), boundaries);
    check("grants", memcmp(grants, want, want_len * sizeof *want) == 0 && grants[want_len] == 9, 1);
}

static void refused_at(uint64_t number, uint64_t carried, uint64_t position, uint64_t attempts) {
    check("kind", word(SKID_KIND), SKID_REFUSED_AT);
    check("refusal", word(SKID_REFUSAL), number);
    check("carrying", word(SKID_CARRIED), carried);
    check("position", word(SKID_POSITION), position);
    check("attempts", word(SKID_ATTEMPTS), attempts);
    grants_kept();
}

static void any_order(void) {
    static const uint32_t two[2 * SKID_KEY_WORDS] = {1, 0, 2, 0};
    static const uint32_t falling[3 * SKID_KEY_WORDS] = {1, 1, 0, 3, 0, 0};
    static const uint32_t three[3 * SKID_KEY_WORDS] = {1, 0, 0, 2, 2, 0};
    static const uint32_t shared[2 * SKID_LEASE_WORDS] = {4, 1, BOOT, 4, 1, BOOT};
    static const uint32_t risen[3 * SKID_LEASE_WORDS] = {5, 3, BOOT, 3, 2, BOOT, 0, 1, BOOT};
    static const uint32_t doubled[3 * SKID_LEASE_WORDS] = {4, 2, BOOT, 2, 1, BOOT, 4, 2, BOOT};
    static const uint32_t once[2 * SKID_LEASE_WORDS] = {4, 2, BOOT, 2, 1, BOOT};

    name("keys (1,0),(2,0) in any order: one cell, one lease");
    prepare(1);
    sort_keys(NONE, LIST(two));
    each_granted(LIST(shared), 1, 3);
    at_next(2);
    end(&sorts);

    name("falling keys");
    prepare(1);
    sort_keys(NONE, LIST(falling));
    each_granted(LIST(risen), 3, 9);
    at_next(4);
    end(&sorts);

    name("three keys, two of them one cell, and their release");
    prepare(1);
    sort_keys(NONE, LIST(three));
    each_granted(LIST(doubled), 2, 6);
    at_next(3);
    skid_release_all(HEAD, TABLE, HEALTH, NONE, 0, grants, 3 * SKID_LEASE_WORDS, blank());
    called();
    refused(SKID_REPEATED, 2);
    skid_release_all(HEAD, TABLE, HEALTH, NONE, 0, LIST(once), blank());
    called();
    check("kind", word(SKID_KIND), SKID_DONE);
    free_cells();
    end(&sorts);
}

static void any_order_refused(void) {
    static const uint32_t strangers[3] = {0, 9, 1}, poison[3] = {4, 0, 1};
    static const uint32_t faults[2 * SKID_KEY_WORDS] = {0, 4, 1, 0};
    static const uint32_t unbound[3 * SKID_KEY_WORDS] = {0, 4, 1, 0, 3, 0};
    static const uint32_t poisoned[2 * SKID_KEY_WORDS] = {1, 4, 0, 2};
    static const uint32_t late[4 * SKID_KEY_WORDS] = {1, 0, 1, 0, 0, 2, 0, 2};

    name("a bad bucket at 0 and a bad header at 1, and a bad binding behind them");
    prepare(1);
    skid_acquire_sorted_locks(HEAD, TABLE, HEALTH, LIST(strangers), NONE, 0, NONE, LIST(faults), blank_grants(),
                              2 * SKID_LEASE_WORDS, blank());
    called();
    refused_at(SKID_INVALID_BUCKET, 4, 0, 0);
    skid_acquire_sorted_locks(HEAD, TABLE, HEALTH, LIST(strangers), NONE, 0, NONE, faults + SKID_KEY_WORDS,
                              SKID_KEY_WORDS, blank_grants(), SKID_LEASE_WORDS, blank());
    called();
    refused_at(SKID_BAD_HEADER, 9, 0, 0);
    skid_acquire_sorted_locks(HEAD, TABLE, HEALTH, LIST(strangers), NONE, 0, NONE, LIST(unbound), blank_grants(),
                              3 * SKID_LEASE_WORDS, blank());
    called();
    refused(SKID_BAD_BINDING, 2);
    check("attempts", word(SKID_ATTEMPTS), 0);
    at_next(1);
    end(&sorts);

    name("header 0 poisoned: the bucket is tested first, and a later refusal has the first position asking");
    prepare(1);
    step(SKID_STEP_HEALTH, 0, 1);
    sort_keys(NONE, LIST(poisoned));
    refused_at(SKID_INVALID_BUCKET, 4, 0, 0);
    sort_keys(NONE, LIST(late));
    refused_at(SKID_POISONED, 0, 2, 1);
    prepare(1);
    sort_keys(LIST(poison), LIST(late)); /* read after the lock too: the serial stays spent */
    refused_at(SKID_POISONED, 0, 2, 1);
    at_next(2);
    free_cells();
    end(&sorts);

    name("cell 4 held by foreign 1: cell 2 is taken and given back");
    prepare(1);
    step(SKID_STEP_TAKE, 4, 0);
    sort_keys(NONE, LIST(late));
    refused_at(SKID_SERIALIZATION_FAILURE, 4096, 0, 4097);
    reason(SKID_REASON_HELD, 1);
    check("boundaries", word(SKID_BOUNDARIES), 12356);
    at_next(3);
    check("bit of 2", table.words[6], 0);
    check("owner of 4", table.words[13], 1);
    end(&sorts);
}

/* ---- salvage after a warm restart */

static struct {
    uint32_t before, words[32], after;
} report;
static struct {
    uint32_t before, cells[4], after;
} list;
static struct {
    uint64_t before, words[SKID_SALVAGE_WORDS], after;
} found;

/* Given so many words of the report and of the list, all nines: all seven words, and what stands behind the entries. */
static void salvage(size_t room, size_t cells, uint64_t kind, uint64_t first, uint64_t second) {
    size_t i;
    uint32_t n = 0;
    for (i = 0; i < 32; i++) {
        report.words[i] = 9;
    }
    for (i = 0; i < 4; i++) {
        list.cells[i] = 9;
    }
    for (i = 0; i < SKID_SALVAGE_WORDS; i++) {
        found.words[i] = PATTERN;
    }
    report.before = report.after = list.before = list.after = GUARD;
    found.before = found.after = GUARD;
    skid_salvage(HEAD, TABLE, HEALTH, report.words, room, list.cells, cells, found.words);
    kept();
    if (report.before != GUARD || report.after != GUARD || list.before != GUARD || list.after != GUARD ||
        found.before != GUARD || found.after != GUARD) {
        printf("A WORD OUTSIDE THE RUNS CHANGED, ");
        bad = 1;
    }
    check("headers", found.words[SKID_HEADERS], 2);
    check("buckets", found.words[SKID_BUCKETS], 4);
    check("next", found.words[SKID_NEXT], next);
    check("boot", found.words[SKID_BOOT], boot);
    check("kind", found.words[SKID_SALVAGE_KIND], kind);
    check(kind == SKID_DONE ? "changed" : "refusal", found.words[SKID_SALVAGE_CHANGED], first);
    check("held", found.words[SKID_SALVAGE_HELD], second);
    for (i = kind == SKID_DONE ? 3 * first : 0; i < 32; i++) {
        n += report.words[i] != 9;
    }
    for (i = kind == SKID_DONE ? second : 0; i < 4; i++) {
        n += list.cells[i] != 9;
    }
    check("words behind the entries changed", n, 0);
}

/* The governor holds cells 2 and 6, somebody waits for 6; then power dips. Seven words and a byte will change. */
static void dip(void) {
    prepare(1);
    acquire(NONE, NONE, 2);
    skid_try_acquire(HEAD, TABLE, 6, blank());
    called();
    step(SKID_STEP_WAITERS, 6, 3);
    table.words[0] = 7;  /* cell 0: no bit */
    table.words[3] = 1;  /* cell 1: a bit, and nobody */
    table.words[10] = 2; /* cell 3: an owner, and no bit */
    table.words[12] = 1; /* cell 4: a serial that was never issued */
    table.words[13] = 3;
    table.words[14] = 4; /* and waiters */
    health.bytes[0] = 1;
    health.bytes[1] = 200;
}

static void salvaged(void) {
    static const uint32_t entries[24] = {0,  7, 0, 3,  1, 0, 10, 2, 0, 12, 1,   0,
                                         13, 3, 0, 14, 4, 0, 20, 3, 0, 25, 200, 1};
    uint32_t before[24];
    name("ReportFull for the report and for the list, and BadShape: nothing changes");
    dip();
    memcpy(before, table.words, sizeof before);
    salvage(23, 2, SKID_REFUSED, SKID_REPORT_FULL, 0);
    salvage(24, 1, SKID_REFUSED, SKID_REPORT_FULL, 0);
    salvage(0, 0, SKID_REFUSED, SKID_REPORT_FULL, 0);
    next = 0;
    salvage(0, 0, SKID_REFUSED, SKID_BAD_SHAPE, 0);
    next = 3;
    check("table as it was", memcmp(before, table.words, sizeof before) == 0, 1);
    check("health as it was", health.bytes[0] * 1000u + health.bytes[1], 1200);
    end(&salvages);

    name("the salvage: exactly enough room, and a word over");
    salvage(25, 2, SKID_DONE, 8, 2);
    check("report", memcmp(report.words, entries, sizeof entries) == 0, 1);
    check("list", list.cells[0] == 2 && list.cells[1] == 6, 1);
    check("health", health.bytes[0] * 1000u + health.bytes[1], 1001);
    check("owner of 6", table.words[19], 2);
    check("waiters of 6", table.words[20], 0);
    end(&salvages);

    name("a second salvage reports no change");
    salvage(0, 2, SKID_DONE, 0, 2);
    check("list", list.cells[0] == 2 && list.cells[1] == 6, 1);
    end(&salvages);

    name("the owners drop their leases, and cell 4 is taken");
    skid_drop_lease(HEAD, TABLE, 2, 1, BOOT, blank());
    called();
    check("kind", word(SKID_KIND), SKID_DONE);
    skid_drop_lease(HEAD, TABLE, 6, 2, BOOT, blank());
    called();
    check("kind", word(SKID_KIND), SKID_DONE);
    free_cells();
    skid_try_acquire(HEAD, TABLE, 4, blank());
    called();
    granted(4, 3);
    end(&salvages);

    name("one owner of two cells");
    table.words[15] = 1;
    table.words[16] = 3;
    salvage(0, 2, SKID_DONE, 0, 2);
    check("list", list.cells[0] == 4 && list.cells[1] == 5, 1);
    check("owner of 4", table.words[13], 3);
    check("owner of 5", table.words[16], 3);
    end(&salvages);

    name("a salvage with nothing lent");
    skid_salvage(2, 4, 1, BOOT, NONE, NONE, NONE, NONE, found.words);
    check("kind", found.words[SKID_SALVAGE_KIND], SKID_REFUSED);
    check("refusal", found.words[SKID_SALVAGE_REFUSAL], SKID_BAD_SHAPE);
    end(&salvages);
}

/* ---- boot numbers: cells 2 and 5 are held by serials 1 and 2; a lease of another number is refused, live or dead */

static const uint32_t both[2 * SKID_LEASE_WORDS] = {2, 1, BOOT, 5, 2, BOOT};
static const uint32_t stale[2 * SKID_LEASE_WORDS] = {2, 1, BOOT, 5, 2, BOOT - 1};

static void hold_two(void) {
    prepare(1);
    skid_try_acquire(HEAD, TABLE, 2, blank());
    called();
    skid_try_acquire(HEAD, TABLE, 5, blank());
    called();
}

static void by_lease(void) {
    name("each call by lease, of another boot number");
    hold_two();
    skid_drop_lease(HEAD, TABLE, 2, 1, BOOT - 1, blank());
    called();
    refused(SKID_STALE_BOOT, 0);
    skid_read_permission(HEAD, TABLE, 2, 1, BOOT + 1, blank());
    called();
    refused(SKID_STALE_BOOT, 0);
    skid_competing_acquire_is_excluded(HEAD, TABLE, 2, 1, 0, blank());
    called();
    refused(SKID_STALE_BOOT, 0);
    skid_release_then_handoff(HEAD, TABLE, 2, 1, 4294967295u, blank());
    called();
    refused(SKID_STALE_BOOT, 0);
    skid_foreign_release_between_attempts(HEAD, TABLE, NONE, 2, 1, BOOT - 1, blank());
    called();
    refused(SKID_STALE_BOOT, 0);
    skid_drop_preserving_borrows(HEAD, TABLE, NONE, 9, 9, BOOT - 1, blank()); /* and dead */
    called();
    refused(SKID_STALE_BOOT, 0);
    check("owner of 2", table.words[7], 1);
    end(&boots);
}

/* The calls with a held list; each gives its name. Of those with a script, the first eight, the place is 1. */

#define WITH_SCRIPT 8
#define WITH_HELD 11
#define SCRIPT LIST(script), 1
#define HELD held, held_len
#define FREE_KEY LIST(free_key), blank_grants(), SKID_LEASE_WORDS

static const char *with_held(int call, const uint32_t *held, size_t held_len) {
    static const uint32_t script[6] = {SKID_STEP_TAKE, 6, 0, SKID_STEP_WAITERS, 7, 4};
    static const uint32_t free_key[SKID_KEY_WORDS] = {0, 1};
    switch (call) {
    case 0:
        skid_environment(HEAD, TABLE, HEALTH, SCRIPT, HELD, blank());
        return "environment";
    case 1:
        skid_environment_for_borrows(HEAD, TABLE, HEALTH, SCRIPT, HELD, blank());
        return "environment_for_borrows";
    case 2:
        skid_try_lock(HEAD, TABLE, HEALTH, SCRIPT, HELD, 1, blank());
        return "try_lock";
    case 3:
        skid_other_mutex_preserves_leases(HEAD, TABLE, HEALTH, SCRIPT, HELD, 1, blank());
        return "other_mutex_preserves_leases";
    case 4:
        skid_transactional_try_lock_bucket(HEAD, TABLE, HEALTH, REGISTRY, SCRIPT, HELD, 0, 1, blank());
        return "transactional_try_lock_bucket";
    case 5:
        skid_acquire_index_bucket(HEAD, TABLE, HEALTH, REGISTRY, SCRIPT, HELD, 0, 1, blank());
        return "acquire_index_bucket";
    case 6:
        skid_acquire_index_locks(HEAD, TABLE, HEALTH, REGISTRY, SCRIPT, HELD, FREE_KEY, blank());
        return "acquire_index_locks";
    case 7:
        skid_acquire_sorted_locks(HEAD, TABLE, HEALTH, REGISTRY, SCRIPT, HELD, FREE_KEY, blank());
        return "acquire_sorted_locks";
    case 8:
        skid_acquire_preserving_borrows(HEAD, TABLE, HELD, 1, blank());
        return "acquire_preserving_borrows";
    case 9:
        skid_drop_preserving_borrows(HEAD, TABLE, HELD, 3, 3, BOOT, blank());
        return "drop_preserving_borrows";
    default:
        skid_foreign_release_between_attempts(HEAD, TABLE, HELD, 3, 3, BOOT, blank());
        return "foreign_release_between_attempts";
    }
}

static void each_held_list(void) {
    uint32_t before[24];
    int call;
    name("each call with a held list, its second lease of another boot number");
    for (call = 0; call < WITH_HELD; call++) {
        hold_two();
        skid_try_acquire(HEAD, TABLE, 3, blank());
        called();
        step(SKID_STEP_WAITERS, 0, 6);
        step(SKID_STEP_HEALTH, 1, 1);
        memcpy(before, table.words, sizeof before);
        blank_grants();
        printf("%s: ", with_held(call, LIST(stale)));
        called();
        at_next(4);
        words(call < WITH_SCRIPT ? 1 : 0, 0, 0, 0, SKID_REFUSED, SKID_STALE_BOOT, 1, 0);
        check("table as it was", memcmp(before, table.words, sizeof before) == 0, 1);
        check("health", health.bytes[0] * 16u + health.bytes[1], 1);
        grants_kept();
        with_held(call, LIST(both)); /* but for that number nothing is wrong */
        called();
        check("else refused", word(SKID_KIND) >= SKID_REFUSED, 0);
    }
    end(&boots);
}

static void in_lists(void) {
    static const uint32_t dead[2 * SKID_LEASE_WORDS] = {2, 7, BOOT, 5, 2, BOOT - 1};
    static const uint32_t twice[3 * SKID_LEASE_WORDS] = {2, 1, BOOT, 2, 1, BOOT - 1, 2, 1, BOOT};
    name("held lists: after the length, position by position, before 3 at that place");
    hold_two();
    skid_acquire_preserving_borrows(HEAD, TABLE, stale, 2 * SKID_LEASE_WORDS - 1, 7, blank());
    called();
    refused(SKID_BAD_HELD, 1);
    skid_acquire_preserving_borrows(HEAD, TABLE, LIST(stale), 9, blank());
    called();
    refused(SKID_STALE_BOOT, 1);
    skid_acquire_preserving_borrows(HEAD, TABLE, LIST(dead), 9, blank());
    called();
    refused(SKID_BAD_HELD, 0);
    skid_drop_preserving_borrows(HEAD, TABLE, LIST(both), 2, 1, BOOT - 1, blank());
    called();
    refused(SKID_STALE_BOOT, 0);
    end(&boots);

    name("release_all: before 12 and 14 at that place");
    skid_release_all(HEAD, TABLE, HEALTH, NONE, 0, LIST(twice), blank());
    called();
    refused(SKID_STALE_BOOT, 1);
    skid_release_all(HEAD, TABLE, HEALTH, NONE, 0, LIST(dead), blank());
    called();
    refused(SKID_NOT_HELD, 0);
    skid_release_all(HEAD, TABLE, HEALTH, NONE, 0, LIST(both), blank());
    called();
    check("kind", word(SKID_KIND), SKID_DONE);
    free_cells();
    end(&boots);
}

static void after_a_preparation(void) {
    name("a lease from before a preparation, of a cell and a serial that are live again");
    hold_two();
    prepare_as(1, BOOT + 1);
    skid_try_acquire(HEAD, TABLE, 2, blank());
    called();
    granted(2, 1);
    skid_drop_lease(HEAD, TABLE, 2, 1, BOOT, blank());
    called();
    refused(SKID_STALE_BOOT, 0);
    skid_drop_lease(HEAD, TABLE, 2, 1, BOOT + 1, blank());
    called();
    check("kind", word(SKID_KIND), SKID_DONE);
    free_cells();
    end(&boots);
}

/* ---- the crew at work: cell 2's counter is 40,000, cell 5's 30,000, all others 7 */

static void count(void) {
    int i;
    for (i = 0; i < 8; i++) {
        counters.each[i] = 7;
    }
    counters.each[2] = 40000;
    counters.each[5] = 30000;
    counters.before = counters.after = GUARD;
}

static void counted(uint32_t two, uint32_t five) {
    static const int others[6] = {0, 1, 3, 4, 6, 7};
    uint32_t i, n = 0;
    crewed();
    if (counters.before != GUARD || counters.after != GUARD) {
        printf("A COUNTER OUTSIDE THE RUN CHANGED, ");
        bad = 1;
    }
    for (i = 0; i < 6; i++) {
        n += counters.each[others[i]] == 7;
    }
    check("counter of 2", counters.each[2], two);
    check("of 5", counters.each[5], five);
    check("others as they were", n, 6);
}

static void at_work(void) {
    static const uint32_t counts[2] = {2, 2}, cells[4] = {2, 5, 2, 5}, falling[4] = {2, 5, 5, 2};
    static const uint32_t turns[22] = {0, 1, 0, 1, 0, 1, 0, 1, 0, 1, 0, 1, 0, 1, 0, 1, 0, 1, 0, 1, 0, 1};
    static const uint32_t one[1] = {1}, two[1] = {2}, thrice[3] = {0, 0, 0};
    int i;
    name("crew {2,5},{2,5} at work, turns 0,1 eleven times");
    prepare(1);
    count();
    skid_crew_at_work(HEAD, TABLE, HEALTH, LIST(counts), LIST(cells), LIST(turns), COUNTERS, blank_crew());
    counted(28928, 18928); /* 4 x 40,000 and 30,000 + 3 x 40,000, less what is over 65,535 */
    check("kind", crew.words[SKID_KIND], SKID_DONE);
    check("moving", crew.words[SKID_MOVING], 12);
    check("idle", crew.words[SKID_IDLE], 10);
    check("next", crew.words[SKID_NEXT], 5);
    for (i = 0; i < 16; i++) {
        uint64_t want = i < 2 ? 2 : 0;
        if (crew.words[SKID_TAKEN + i] != want || crew.words[SKID_RELEASED + i] != want) {
            printf("MEMBER %d, ", i);
            bad = 1;
        }
    }
    free_cells();
    end(&works);

    name("a member with one cell doubles its counter");
    prepare(1);
    count();
    skid_crew_at_work(HEAD, TABLE, HEALTH, LIST(one), LIST(two), LIST(thrice), COUNTERS, blank_crew());
    counted(14464, 30000);
    check("moving", crew.words[SKID_MOVING], 3);
    check("taken", crew.words[SKID_TAKEN], 1);
    check("released", crew.words[SKID_RELEASED], 1);
    end(&works);

    name("turns that run out");
    prepare(1);
    count();
    skid_crew_at_work(HEAD, TABLE, HEALTH, LIST(counts), LIST(cells), turns, 6, COUNTERS, blank_crew());
    counted(14464, 30000);
    check("kind", crew.words[SKID_KIND], SKID_DONE);
    check("moving", crew.words[SKID_MOVING], 3);
    check("idle", crew.words[SKID_IDLE], 3);
    check("taken", crew.words[SKID_TAKEN], 2);
    check("released", crew.words[SKID_RELEASED], 0);
    end(&works);

    name("seven counters, and a list that falls");
    prepare(1);
    count();
    skid_crew_at_work(HEAD, TABLE, HEALTH, LIST(counts), LIST(falling), LIST(turns), counters.each, 7, blank_crew());
    counted(40000, 30000);
    check("kind", crew.words[SKID_KIND], SKID_REFUSED);
    check("refusal", crew.words[SKID_REFUSAL], SKID_BAD_SHAPE);
    skid_crew_at_work(HEAD, TABLE, HEALTH, LIST(counts), LIST(falling), LIST(turns), COUNTERS, blank_crew());
    counted(40000, 30000);
    check("refusal", crew.words[SKID_REFUSAL], SKID_BAD_CREW);
    check("member", crew.words[SKID_CARRIED], 1);
    check("moving", crew.words[SKID_MOVING], 0);
    free_cells();
    end(&works);
}

/* ---- the setpoint book: the governor holds cell 2 by serial 1, the panel reads */

static uint64_t *blank_book(void) {
    int i;
    for (i = 0; i < SKID_BOOK_WORDS; i++) {
        told.words[i] = PATTERN;
    }
    return told.words;
}

/* All four words. */
static void tells(uint64_t kind, uint64_t first, uint64_t setpoint, uint64_t bits) {
    kept();
    if (book.before != GUARD || book.after != GUARD || told.before != GUARD || told.after != GUARD) {
        printf("A WORD OUTSIDE THE RUNS CHANGED, ");
        bad = 1;
    }
    check("kind", told.words[SKID_BOOK_KIND], kind);
    check(kind == SKID_BOOK_REFUSED ? "refusal" : "version", told.words[1], first);
    check(kind == SKID_BOOK_WRITTEN ? "moved" : "setpoint", told.words[2], setpoint);
    check("word", told.words[SKID_BOOK_WORD], bits);
}

static void no_setting(uint64_t number) { tells(SKID_BOOK_REFUSED, number, 0, 0); }

static void done_write(uint64_t version, uint64_t moved) { tells(SKID_BOOK_WRITTEN, version, moved, 0); }

/* How many of these bytes of the book are not 0. */
static uint32_t marks(uint32_t first, uint32_t count) {
    uint32_t i, n = 0;
    for (i = 0; i < count; i++) {
        n += book.bytes[first + i] != 0;
    }
    return n;
}

static float pressure(uint32_t bits) {
    float bar;
    memcpy(&bar, &bits, sizeof bar);
    return bar;
}

static void write_pressure(uint32_t slot, uint32_t cell, uint32_t serial, uint32_t bits) {
    skid_write_pressure(HEAD, TABLE, BOOK, slot, cell, serial, BOOT, bits, blank_book());
}

static void read_slot(uint32_t slot) { skid_read_setpoint(HEAD, BOOK, slot, blank_book()); }

/* Versions 0 to 7 of slot 2: those from `first` to `last` are kept, each the speed of its own number. */
static void keeps(uint32_t first, uint32_t last) {
    uint32_t version;
    for (version = 0; version < 8; version++) {
        skid_read_version(HEAD, BOOK, 2, version, blank_book());
        if (first <= version && version <= last) {
            tells(SKID_BOOK_SETTING, version, SKID_SPEED, version);
        } else {
            no_setting(SKID_NEVER_WRITTEN);
        }
    }
}

static void write_speed(uint32_t speed) { skid_write_speed(HEAD, TABLE, BOOK, 2, 2, 1, BOOT, speed, blank_book()); }

/* Versions 1 to `last` of slot 2, each the speed of its own number; none needs a slide. */
static void speeds_to(uint32_t last) {
    uint32_t version;
    for (version = 1; version <= last; version++) {
        write_speed(version);
        done_write(version, 0);
    }
}

/* Memory after a cold start holds anything. */
static void open_book(size_t length) {
    lent_book = length;
    prepare(1);
    acquire(NONE, NONE, 2);
    memset(&book, 0x5a, sizeof book);
    book.before = book.after = GUARD;
    told.before = told.after = GUARD;
    skid_prepare_book(HEAD, BOOK, blank_book());
    tells(SKID_BOOK_DONE, 0, 0, 0);
}

static void unwritten(void) {
    uint32_t i;
    name("a book prepared over cold RAM, read before anybody wrote");
    open_book(ROOMY);
    check("bytes not 0", marks(0, ROOMY), 0);
    for (i = 0; i < 8; i++) {
        read_slot(i);
        no_setting(SKID_NEVER_WRITTEN);
        skid_read_version(HEAD, BOOK, i, 1, blank_book());
        no_setting(SKID_NEVER_WRITTEN);
    }
    end(&books);

    name("a book that was not prepared");
    memset(book.bytes, 0x5a, sizeof book.bytes);
    read_slot(2);
    no_setting(SKID_DAMAGED_BOOK);
    end(&books);
}

static void written(void) {
    static const uint8_t body[5] = {1, 0, 0, 192, 63}, line[8] = {0, 1, 5, 0, 1, 0, 0, 0};
    name("the governor writes 1.5 bar");
    open_book(ROOMY);
    skid_write_pressure(HEAD, TABLE, BOOK, 2, 2, 1, BOOT, 0x3fc00000u, blank_book());
    done_write(1, 0);
    check("line", memcmp(book.bytes + 64, line, 8) == 0, 1);
    check("body", memcmp(book.bytes + FRONT, body, 5) == 0, 1);
    read_slot(2);
    tells(SKID_BOOK_SETTING, 1, SKID_PRESSURE, 0x3fc00000u);
    check("bar", pressure((uint32_t)told.words[SKID_BOOK_WORD]) == 1.5f, 1);
    end(&books);

    name("minus zero, bit for bit, as version 2");
    write_pressure(2, 2, 1, 0x80000000u);
    done_write(2, 0);
    read_slot(2);
    tells(SKID_BOOK_SETTING, 2, SKID_PRESSURE, 0x80000000u);
    end(&books);

    name("the smallest pressure above 0, and the largest");
    write_pressure(2, 2, 1, 1);
    read_slot(2);
    tells(SKID_BOOK_SETTING, 3, SKID_PRESSURE, 1);
    write_pressure(2, 2, 1, 0x7f7fffffu);
    read_slot(2);
    tells(SKID_BOOK_SETTING, 4, SKID_PRESSURE, 0x7f7fffffu);
    end(&books);

    name("a speed, a valve open and shut");
    skid_write_speed(HEAD, TABLE, BOOK, 2, 2, 1, BOOT, 4294967295u, blank_book());
    done_write(5, 0);
    read_slot(2);
    tells(SKID_BOOK_SETTING, 5, SKID_SPEED, 4294967295u);
    skid_write_valve(HEAD, TABLE, BOOK, 2, 2, 1, BOOT, true, blank_book());
    read_slot(2);
    tells(SKID_BOOK_SETTING, 6, SKID_VALVE, 1);
    skid_write_valve(HEAD, TABLE, BOOK, 2, 2, 1, BOOT, false, blank_book());
    read_slot(2);
    tells(SKID_BOOK_SETTING, 7, SKID_VALVE, 0);
    check("bytes of slot 1 not 0", marks(32, 32), 0);
    check("bytes of slot 3 not 0", marks(96, 32), 0);
    end(&books);
}

static void not_written(void) {
    uint8_t before[ROOMY];
    uint32_t i;
    name("refused writes, in order");
    open_book(ROOMY);
    write_pressure(2, 2, 1, 0x3fc00000u);
    book.bytes[FRONT] = 4; /* slot 2's body is damaged */
    memcpy(before, book.bytes, sizeof before);
    skid_write_pressure(HEAD, table.words, 23, BOOK, 8, 2, 7, BOOT - 1, 0x7fc00000u, blank_book());
    no_setting(SKID_BAD_SHAPE);
    write_pressure(8, 2, 7, 0x7fc00000u);
    no_setting(SKID_BAD_SLOT);
    skid_write_pressure(HEAD, TABLE, book.bytes, FRONT - 1, 2, 2, 7, BOOT - 1, 0x7fc00000u, blank_book());
    no_setting(SKID_BAD_SLOT);
    skid_write_pressure(HEAD, TABLE, BOOK, 2, 2, 7, BOOT - 1, 0x7fc00000u, blank_book());
    no_setting(SKID_STALE_BOOT);
    skid_write_speed(HEAD, TABLE, BOOK, 2, 2, 1, BOOT - 1, 7, blank_book());
    no_setting(SKID_STALE_BOOT);
    skid_write_valve(HEAD, TABLE, BOOK, 2, 2, 1, BOOT + 1, true, blank_book());
    no_setting(SKID_STALE_BOOT);
    write_pressure(2, 2, 7, 0x7fc00000u);
    no_setting(SKID_NOT_HELD);
    write_pressure(3, 2, 1, 0x3fc00000u);
    no_setting(SKID_NOT_HELD);
    write_pressure(2, 2, 1, 0x7fc00000u);
    no_setting(SKID_NOT_FINITE);
    write_pressure(2, 2, 1, 0xff800000u);
    no_setting(SKID_NOT_FINITE);
    write_pressure(2, 2, 1, 0x3fc00000u);
    no_setting(SKID_DAMAGED_BOOK);
    read_slot(2);
    no_setting(SKID_DAMAGED_BOOK);
    read_slot(3); /* damage of slot 2 is damage of the book */
    no_setting(SKID_DAMAGED_BOOK);
    skid_read_version(HEAD, BOOK, 3, 1, blank_book());
    no_setting(SKID_DAMAGED_BOOK);
    check("bytes as they were", memcmp(before, book.bytes, sizeof before) == 0, 1);
    end(&books);

    name("another lease on the cell");
    open_book(ROOMY);
    skid_release_then_handoff(HEAD, TABLE, 2, 1, BOOT, blank());
    called();
    skid_write_speed(HEAD, TABLE, BOOK, 2, 2, 1, BOOT, 7, blank_book());
    no_setting(SKID_NOT_HELD);
    skid_write_valve(HEAD, TABLE, BOOK, 2, 2, 1, BOOT, true, blank_book());
    no_setting(SKID_NOT_HELD);
    skid_write_speed(HEAD, TABLE, BOOK, 2, 2, 2, BOOT, 7, blank_book());
    done_write(1, 0);
    end(&books);

    name("the last version");
    open_book(ROOMY);
    speeds_to(4);
    for (i = 0; i < 4; i++) {
        memset(book.bytes + 64 + 8 * i + 4, 0xff, 4);
        book.bytes[64 + 8 * i + 4] = (uint8_t)(0xff - i);
    }
    write_speed(8);
    no_setting(SKID_VERSIONS_SPENT);
    read_slot(2);
    tells(SKID_BOOK_SETTING, 4294967295u, SKID_SPEED, 4);
    skid_read_version(HEAD, BOOK, 2, 4294967292u, blank_book());
    tells(SKID_BOOK_SETTING, 4294967292u, SKID_SPEED, 1);
    end(&books);

    name("no book");
    skid_prepare_book(HEAD, NONE, blank_book());
    no_setting(SKID_BAD_SLOT);
    skid_read_setpoint(HEAD, NONE, 2, blank_book());
    no_setting(SKID_BAD_SLOT);
    skid_prepare_book(0, 4, 1, BOOT, BOOK, blank_book());
    no_setting(SKID_BAD_SHAPE);
    end(&books);
}

static void four_versions(void) {
    static const uint8_t third[5] = {2, 3, 0, 0, 0};
    uint8_t before[ROOMY];
    uint32_t i;
    name("the fifth write of a slot");
    open_book(ROOMY);
    speeds_to(4);
    keeps(1, 4);
    write_speed(5);
    done_write(5, 0);
    keeps(2, 5);
    check("bytes of the dropped body not 0", marks(FRONT, 5), 0);
    end(&books);

    name("room for five bodies: the sixth write slides three");
    open_book(FRONT + 25);
    speeds_to(5);
    write_speed(6);
    done_write(6, 15);
    keeps(3, 6);
    check("first body", memcmp(book.bytes + FRONT, third, 5) == 0, 1);
    check("last bytes not 0", marks(FRONT + 20, 5), 0);
    end(&books);

    name("room for three bodies and four bytes: the fourth write is refused");
    open_book(FRONT + 19);
    speeds_to(3);
    memcpy(before, book.bytes, sizeof before);
    write_speed(4);
    no_setting(SKID_BOOK_FULL);
    check("bytes as they were", memcmp(before, book.bytes, sizeof before) == 0, 1);
    keeps(1, 3);
    end(&books);

    name("two bodies that share a byte: no slot is read or written until the book is prepared");
    open_book(ROOMY);
    speeds_to(2);
    memmove(book.bytes + FRONT + 4, book.bytes + FRONT + 5, 5); /* the other is a speed still */
    book.bytes[64] = 4;
    for (i = 0; i < 8; i++) {
        read_slot(i);
        no_setting(SKID_DAMAGED_BOOK);
    }
    skid_read_version(HEAD, BOOK, 2, 2, blank_book());
    no_setting(SKID_DAMAGED_BOOK);
    write_speed(3);
    no_setting(SKID_DAMAGED_BOOK);
    skid_prepare_book(HEAD, BOOK, blank_book());
    tells(SKID_BOOK_DONE, 0, 0, 0);
    speeds_to(1);
    end(&books);
}

/* ---- edges: each call by its own name, with its arguments in their places */

static void without_script(void) {
    static const uint32_t held[SKID_LEASE_WORDS] = {5, 1, BOOT}, other[SKID_LEASE_WORDS] = {6, 2, BOOT};
    prepare(1);
    name("try_acquire of cell 5");
    skid_try_acquire(HEAD, TABLE, 5, blank());
    called();
    at_next(2);
    words(0, 1, 0, 0, SKID_GRANTED, 5, 1, BOOT);
    end(&edges);

    name("read_permission");
    skid_read_permission(HEAD, TABLE, 5, 1, BOOT, blank());
    called();
    words(0, 0, 0, 0, SKID_A_CELL, 5, 0, 0);
    end(&edges);

    name("read_permission, another serial");
    skid_read_permission(HEAD, TABLE, 5, 2, BOOT, blank());
    called();
    words(0, 0, 0, 0, SKID_REFUSED, SKID_NOT_HELD, 0, 0);
    end(&edges);

    name("competing_acquire_is_excluded");
    skid_competing_acquire_is_excluded(HEAD, TABLE, 5, 1, BOOT, blank());
    called();
    words(0, 1, 0, 0, SKID_BUSY, 0, 0, 0);
    reason(SKID_REASON_HELD, 1);
    end(&edges);

    name("acquire_preserving_borrows");
    skid_acquire_preserving_borrows(HEAD, TABLE, LIST(held), 6, blank());
    called();
    at_next(3);
    words(0, 1, 0, 0, SKID_GRANTED, 6, 2, BOOT);
    end(&edges);

    name("drop_preserving_borrows of a held lease");
    skid_drop_preserving_borrows(HEAD, TABLE, LIST(held), 5, 1, BOOT, blank());
    called();
    words(0, 0, 0, 0, SKID_REFUSED, SKID_PROTECTED, 0, 0);
    end(&edges);

    name("foreign_release_between_attempts");
    skid_foreign_release_between_attempts(HEAD, TABLE, LIST(held), 6, 2, BOOT, blank());
    called();
    at_next(4);
    words(0, 2, 0, 0, SKID_GRANTED, 6, 3, BOOT);
    end(&edges);

    name("a held list whose lease was released");
    skid_acquire_preserving_borrows(HEAD, TABLE, LIST(other), 7, blank());
    called();
    words(0, 0, 0, 0, SKID_REFUSED, SKID_BAD_HELD, 0, 0);
    end(&edges);

    name("release_then_handoff");
    skid_release_then_handoff(HEAD, TABLE, 5, 1, BOOT, blank());
    called();
    at_next(5);
    words(0, 1, 0, 0, SKID_GRANTED, 5, 4, BOOT);
    end(&edges);

    name("drop_lease");
    skid_drop_lease(HEAD, TABLE, 5, 4, BOOT, blank());
    called();
    words(0, 0, 0, 0, SKID_DONE, 0, 0, 0);
    end(&edges);

    name("drop_preserving_borrows, no held list");
    skid_drop_preserving_borrows(HEAD, TABLE, NONE, 6, 3, BOOT, blank());
    called();
    words(0, 0, 0, 0, SKID_DONE, 0, 0, 0);
    free_cells();
    end(&edges);
}

static void with_script(void) {
    static const uint32_t script[12] = {0, 0, 0, 2, 3, 1, 9, 9, 9, 4, 1, 1};
    static const uint32_t held[SKID_LEASE_WORDS] = {3, 1, BOOT};
    static const uint32_t leases[2 * SKID_LEASE_WORDS] = {3, 1, BOOT, 4, 3, BOOT};
    prepare(1);
    skid_try_acquire(HEAD, TABLE, 3, blank());
    called();
    name("environment_for_borrows from place 1: a release of a held lease and a step of no kind, dropped");
    skid_environment_for_borrows(HEAD, TABLE, HEALTH, LIST(script), 1, LIST(held), blank());
    called();
    words(4, 0, 1, 2, SKID_DONE, 0, 0, 0);
    check("health", health.bytes[0] * 16u + health.bytes[1], 1);
    end(&edges);

    name("environment with a place past the end");
    skid_environment(HEAD, TABLE, HEALTH, LIST(script), 5, LIST(held), blank());
    called();
    words(5, 0, 0, 0, SKID_REFUSED, SKID_BAD_SCRIPT, 0, 0);
    end(&edges);

    name("other_mutex_preserves_leases of a poisoned header: read after the lock, the serial stays spent");
    skid_other_mutex_preserves_leases(HEAD, TABLE, HEALTH, NONE, 0, LIST(held), 4, blank());
    called();
    at_next(3);
    words(0, 1, 3, 0, SKID_REFUSED, SKID_POISONED, 1, 0);
    end(&edges);

    name("other_mutex_preserves_leases, the header mended");
    health.bytes[1] = 0;
    skid_other_mutex_preserves_leases(HEAD, TABLE, HEALTH, NONE, 0, LIST(held), 4, blank());
    called();
    words(0, 1, 3, 0, SKID_GRANTED, 4, 3, BOOT);
    end(&edges);

    name("release_all");
    skid_release_all(HEAD, TABLE, HEALTH, NONE, 0, LIST(leases), blank());
    called();
    words(0, 0, 2, 0, SKID_DONE, 0, 0, 0);
    free_cells();
    end(&edges);

    name("release_all of leases that are released");
    skid_release_all(HEAD, TABLE, HEALTH, NONE, 0, LIST(leases), blank());
    called();
    words(0, 0, 0, 0, SKID_REFUSED, SKID_NOT_HELD, 0, 0);
    end(&edges);

    name("release_all of nothing");
    skid_release_all(HEAD, TABLE, HEALTH, NONE, 0, NONE, blank());
    called();
    words(0, 0, 0, 0, SKID_DONE, 0, 0, 0);
    end(&edges);

    name("a key and no registry");
    skid_transactional_try_lock_bucket(HEAD, TABLE, HEALTH, NONE, NONE, 0, NONE, 0, 2, blank());
    called();
    words(0, 0, 0, 0, SKID_REFUSED, SKID_BAD_BINDING, 0, 0);
    end(&edges);
}

/* A refused preparation: four zeros for a head, and nothing else changes. */
static void refused_preparation(void) {
    uint32_t i, n = 0;
    name("prepare with one word too few");
    prepare(1);
    memset(table.words, 0x5a, sizeof table.words);
    skid_prepare(2, 4, 1, BOOT, table.words, 23, HEALTH, blank());
    kept();
    check("headers", word(SKID_HEADERS), 0);
    check("buckets", word(SKID_BUCKETS), 0);
    at_next(0);
    check("boot", word(SKID_BOOT), 0);
    words(0, 0, 0, 0, SKID_REFUSED, SKID_BAD_SHAPE, 0, 0);
    for (i = 0; i < 24; i++) {
        n += table.words[i] == 0x5a5a5a5au;
    }
    check("words as they were", n, 24);
    end(&edges);

    name("a call with nothing lent");
    skid_try_lock(2, 4, 1, BOOT, NONE, NONE, NONE, 0, NONE, 2, blank());
    called();
    words(0, 0, 0, 0, SKID_REFUSED, SKID_BAD_SHAPE, 0, 0);
    end(&edges);

    name("a crew with nothing lent");
    prepare(1);
    skid_crew(HEAD, TABLE, HEALTH, NONE, NONE, NONE, blank_crew());
    crewed();
    check("kind", crew.words[SKID_KIND], SKID_REFUSED);
    check("refusal", crew.words[SKID_REFUSAL], SKID_BAD_CREW);
    check("carrying", crew.words[SKID_CARRIED], 0);
    end(&edges);
}

int main(void) {
    key();
    again();
    waiters();
    late_waiters();
    buckets();
    serials();
    foreign_release();
    keys();
    crews();
    any_order();
    any_order_refused();
    salvaged();
    by_lease();
    each_held_list();
    in_lists();
    after_a_preparation();
    at_work();
    unwritten();
    written();
    not_written();
    four_versions();
    without_script();
    with_script();
    refused_preparation();
    if (failures != 0) {
        printf("bench cases in C: %d failed\n", failures);
        return 1;
    }
    printf("keys in any order in C: %d passed\n", sorts);
    printf("salvage in C: %d passed\n", salvages);
    printf("boot numbers in C: %d passed\n", boots);
    printf("crew at work in C: %d passed\n", works);
    printf("setpoint book in C: %d passed\n", books);
    printf("edges in C: %d passed\n", edges);
    printf("bench cases in C: %d passed\n", cases);
    return 0;
}
