/*
 * A governor, a panel and a logger through include/skid_arena.h, over cold RAM of ten seeds: opening, keys, contention,
 * all keys at once, the book with its slides and versions, health and waiters, a dip and its salvage, leases of the
 * boot before. Each figure is checked; the last line says how many were.
 */
#include "skid_arena.h"

#include <stdio.h>
#include <stdlib.h>
#include <string.h>

enum { PUMPS, VALVES, SENSORS, HEADERS };
enum { BUCKETS = 4, CELLS = HEADERS * BUCKETS, WORDS = 3 * CELLS };

SKID_MEMORY(plant_memory, headers(3), buckets(4));
static struct plant_memory memory;
SKID_ARENA(plant, memory, registry(PUMPS, VALVES, SENSORS, VALVES, 7));
SKID_REPORT(report, memory);
SKID_BOOK_MEMORY(book_memory, slots(12));
static struct book_memory pages;
SKID_BOOK(book, pages);

/* The limits themselves are allowed. */
SKID_MEMORY(widest_memory, headers(64), buckets(64));
SKID_MEMORY(longest_memory, headers(4), buckets(1024));
SKID_BOOK_MEMORY(longest_book, slots(64));

static unsigned long checks;
static unsigned seed;

static void check_at(int line, const char *what, unsigned long got, unsigned long want)
{
    checks++;
    if (got == want)
        return;
    printf("seed %u, line %d: %s is %lu, not %lu\n", seed, line, what, got, want);
    exit(1);
}
#define CHECK(got, want) check_at(__LINE__, #got, (unsigned long)(got), (unsigned long)(want))

static uint32_t chance_state;

static uint32_t chance(uint32_t below)
{
    chance_state = chance_state * 1664525u + 1013904223u;
    return (chance_state >> 8) % below;
}

/* What a call said, whole. */
static void says_at(int line, struct skid_result r, int code, uint32_t carried, uint32_t position, uint32_t reason,
                    uint32_t serial)
{
    check_at(line, "the code", (unsigned long)r.code, (unsigned long)code);
    check_at(line, "what it carries", r.carried, carried);
    check_at(line, "the position", r.position, position);
    check_at(line, "the reason", r.reason, reason);
    check_at(line, "the reason's serial", r.reason_serial, serial);
}
#define OK(r) says_at(__LINE__, r, SKID_OK, 0, 0, 0, 0)
#define REFUSED(r, code, carried) says_at(__LINE__, r, code, carried, 0, 0, 0)
#define REFUSED_AT(r, code, carried, position) says_at(__LINE__, r, code, carried, position, 0, 0)
#define BUSY(r, position, reason, serial) says_at(__LINE__, r, SKID_TRY_AGAIN, 0, position, reason, serial)

static void lease_at(int line, struct skid_lease lease, uint32_t cell, uint32_t serial, uint32_t boot)
{
    check_at(line, "the cell", lease.cell, cell);
    check_at(line, "the serial", lease.serial, serial);
    check_at(line, "the boot number", lease.boot, boot);
}
#define LEASE(lease, cell, serial, boot) lease_at(__LINE__, lease, cell, serial, boot)
#define NO_LEASE(lease) lease_at(__LINE__, lease, 0, 0, 0)

/* Never what a call hands out: an out-parameter that is not written shows. */
static const struct skid_lease unset = {77, 77, 77};

static struct skid_key key_of(uint32_t binding, uint32_t bucket)
{
    struct skid_key key;
    key.binding = binding;
    key.bucket = bucket;
    return key;
}

/* Which number is drawn first must not be the compiler's choice. */
static struct skid_key any_key(uint32_t bindings, uint32_t buckets)
{
    uint32_t binding = chance(bindings);
    return key_of(binding, chance(buckets));
}

/* A cell's three words as they are. */
static void cell_is(uint32_t cell, uint32_t bit, uint32_t owner, uint32_t waiters)
{
    CHECK(memory.table[3 * cell], bit);
    CHECK(memory.table[3 * cell + 1], owner);
    CHECK(memory.table[3 * cell + 2], waiters);
}

static unsigned held_cells(void)
{
    unsigned cell, n = 0;
    for (cell = 0; cell < CELLS; cell++)
        n += memory.table[3 * cell] != 0;
    return n;
}

/* ---- a cold start: half of the words are small, so that many a cell passes for a held one */

static void cold_ram(void)
{
    size_t i;
    for (i = 0; i < WORDS; i++)
        memory.table[i] = chance(2) ? chance(3) : chance(1u << 24) << 8;
    for (i = 0; i < HEADERS; i++)
        memory.health[i] = (uint8_t)chance(256);
    for (i = 0; i < sizeof pages.bytes; i++)
        pages.bytes[i] = (uint8_t)chance(256);
}

static void opening(uint32_t boot)
{
    struct skid_lease lease = unset;
    const struct skid_head none = {0, 0, 0, 0};
    const struct skid_key key = {0, 1};
    uint32_t cell;
    plant.head = none;
    cold_ram();
    REFUSED(skid_take_cell(&plant, 1, &lease), SKID_BAD_SHAPE, 0);
    NO_LEASE(lease);
    memory.health[0] = 0;
    memory.table[5] = 1; /* somebody seems to wait for cell 1 */
    REFUSED(skid_take_all(&plant, &key, 1, &lease), SKID_BAD_SHAPE, 0);
    REFUSED(skid_give_all(&plant, &lease, 1), SKID_BAD_SHAPE, 0);
    REFUSED(skid_poison(&plant, 0), SKID_BAD_SHAPE, 0);
    REFUSED(skid_book_open(&plant, &book), SKID_BAD_SHAPE, 0);
    CHECK(plant.head.headers, 0);
    OK(skid_open(&plant, boot));
    CHECK(plant.head.headers, HEADERS);
    CHECK(plant.head.buckets, BUCKETS);
    CHECK(plant.head.next, 1);
    CHECK(plant.head.boot, boot);
    for (cell = 0; cell < CELLS; cell++)
        cell_is(cell, 0, 0, 0);
    CHECK(memory.health[0] + memory.health[1] + memory.health[2], 0);
}

/* An opening that is refused leaves the head before it. */
static void opening_refused(uint32_t boot)
{
    struct skid_arena wrong = plant;
    wrong.headers = 65;
    wrong.buckets = 0;
    REFUSED(skid_open(&wrong, boot + 1), SKID_BAD_SHAPE, 0);
    CHECK(wrong.head.headers, HEADERS);
    CHECK(wrong.head.boot, boot);
}

/* ---- one key: serials 1 to 3 are spent; the panel keeps cell 6 by serial 3, the logger cell 9 by serial 2 */

static void one_key(uint32_t boot, struct skid_lease *panel, struct skid_lease *logger)
{
    struct skid_lease governor = unset;
    *panel = *logger = unset;
    OK(skid_take(&plant, key_of(1, 2), &governor));
    LEASE(governor, 6, 1, boot);
    BUSY(skid_take(&plant, key_of(1, 2), panel), 0, SKID_REASON_HELD, 1);
    NO_LEASE(*panel);
    BUSY(skid_take(&plant, key_of(3, 2), panel), 0, SKID_REASON_HELD, 1);
    OK(skid_take_cell(&plant, 9, logger));
    LEASE(*logger, 9, 2, boot);
    BUSY(skid_take_cell(&plant, 9, panel), 0, SKID_REASON_HELD, 2);
    NO_LEASE(*panel);
    OK(skid_is_mine(&plant, governor));
    OK(skid_give(&plant, governor));
    REFUSED(skid_give(&plant, governor), SKID_NOT_HELD, 0);
    OK(skid_take(&plant, key_of(3, 2), panel));
    LEASE(*panel, 6, 3, boot);
    REFUSED(skid_is_mine(&plant, governor), SKID_NOT_HELD, 0);
    OK(skid_is_mine(&plant, *panel));
    REFUSED(skid_take(&plant, key_of(5, 0), &governor), SKID_BAD_BINDING, 0);
    NO_LEASE(governor);
    governor = unset;
    REFUSED(skid_take(&plant, key_of(4, 0), &governor), SKID_BAD_HEADER, 7);
    NO_LEASE(governor);
    REFUSED(skid_take(&plant, key_of(0, 4), &governor), SKID_INVALID_BUCKET, 4);
    REFUSED(skid_take_cell(&plant, 12, &governor), SKID_INVALID_BUCKET, 12);
    CHECK(plant.head.next, 4);
}

/* ---- all keys or none: serials 4 to 8, and one that is spent where two keys in order ask for one cell */

static void all_keys(uint32_t boot)
{
    const struct skid_key keys[4] = {{2, 3}, {0, 0}, {3, 1}, {1, 1}};
    struct skid_lease leases[4] = {unset, unset, unset, unset};
    OK(skid_take_all(&plant, keys, 4, leases));
    LEASE(leases[0], 11, 6, boot);
    LEASE(leases[1], 0, 4, boot);
    LEASE(leases[2], 5, 5, boot);
    LEASE(leases[3], 5, 5, boot);
    CHECK(held_cells(), 5);
    OK(skid_give_all(&plant, leases, 4));
    CHECK(held_cells(), 2);
    REFUSED_AT(skid_give_all(&plant, leases, 4), SKID_NOT_HELD, 0, 0);
    OK(skid_take_in_order(&plant, keys, 2, leases));
    LEASE(leases[0], 11, 7, boot);
    LEASE(leases[1], 0, 8, boot);
    OK(skid_give_all(&plant, leases, 2));
    OK(skid_take_all(&plant, keys, 0, leases));
    OK(skid_give_all(&plant, leases, 0));
    CHECK(held_cells(), 2);
    CHECK(plant.head.next, 9);
    leases[2] = leases[3] = unset;
    says_at(__LINE__, skid_take_in_order(&plant, keys + 2, 2, leases + 2), SKID_SERIALIZATION_FAILURE, 4096, 1,
            SKID_REASON_HELD, 9);
    NO_LEASE(leases[2]);
    NO_LEASE(leases[3]);
    CHECK(held_cells(), 2);
    CHECK(plant.head.next, 10);
}

static void all_keys_refused(void)
{
    struct skid_key keys[65] = {{0, 0}, {1, 2}, {0, 0}};
    struct skid_lease leases[65];
    size_t i;
    for (i = 0; i < 65; i++)
        leases[i] = unset;
    BUSY(skid_take_all(&plant, keys, 2, leases), 1, SKID_REASON_HELD, 3);
    NO_LEASE(leases[0]);
    NO_LEASE(leases[1]);
    LEASE(leases[2], 77, 77, 77);
    leases[1] = unset;
    BUSY(skid_take_in_order(&plant, keys, 2, leases), 1, SKID_REASON_HELD, 3);
    NO_LEASE(leases[1]);
    keys[1] = key_of(5, 0);
    REFUSED_AT(skid_take_all(&plant, keys, 2, leases), SKID_BAD_BINDING, 1, 1);
    keys[1] = key_of(4, 0);
    REFUSED_AT(skid_take_all(&plant, keys, 2, leases), SKID_BAD_HEADER, 7, 1);
    keys[1] = key_of(0, 9);
    REFUSED_AT(skid_take_all(&plant, keys, 2, leases), SKID_INVALID_BUCKET, 9, 1);
    REFUSED_AT(skid_take_in_order(&plant, keys, 2, leases), SKID_INVALID_BUCKET, 9, 1);
    NO_LEASE(leases[1]);
    for (i = 0; i < 65; i++)
        keys[i] = key_of(0, 0);
    keys[1] = key_of(1, 2); /* which is held: too many are refused all the same */
    REFUSED(skid_take_all(&plant, keys, 65, leases), SKID_TOO_MANY, 0);
    NO_LEASE(leases[64]);
    leases[64] = unset;
    REFUSED(skid_take_in_order(&plant, keys, 65, leases), SKID_TOO_MANY, 0);
    NO_LEASE(leases[64]);
    REFUSED(skid_give_all(&plant, leases, 65), SKID_TOO_MANY, 0);
    CHECK(held_cells(), 2);
}

/* A list with doubles of which one lease is refused: none is given back, and the position is that in the list. */
static void not_all_given(struct skid_lease panel, struct skid_lease logger)
{
    struct skid_lease list[5];
    list[0] = list[1] = list[3] = panel;
    list[2] = list[4] = logger;
    list[4].serial = 1;
    REFUSED_AT(skid_give_all(&plant, list, 5), SKID_NOT_HELD, 4, 4);
    list[4] = logger;
    list[4].boot++;
    REFUSED_AT(skid_give_all(&plant, list, 5), SKID_STALE_BOOT, 4, 4);
    REFUSED_AT(skid_give_all(&plant, list + 4, 1), SKID_STALE_BOOT, 0, 0);
    CHECK(held_cells(), 2);
    OK(skid_is_mine(&plant, panel));
    OK(skid_is_mine(&plant, logger));
}

/* ---- what others set */

static void health_and_waiters(struct skid_lease panel)
{
    const struct skid_key keys[2] = {{0, 1}, {0, 0}};
    struct skid_lease lease = unset, two[2] = {unset, unset};
    uint32_t next = plant.head.next;
    OK(skid_poison(&plant, VALVES));
    CHECK(memory.health[VALVES], 1);
    REFUSED(skid_take(&plant, key_of(1, 2), &lease), SKID_POISONED, VALVES);
    NO_LEASE(lease);
    OK(skid_is_mine(&plant, panel));
    OK(skid_heal(&plant, VALVES));
    CHECK(memory.health[VALVES], 0);
    BUSY(skid_take(&plant, key_of(1, 2), &lease), 0, SKID_REASON_HELD, 3);
    REFUSED(skid_poison(&plant, 3), SKID_BAD_HEADER, 3);
    REFUSED(skid_heal(&plant, 4294967295u), SKID_BAD_HEADER, 4294967295u);
    OK(skid_set_waiters(&plant, 0, 2));
    cell_is(0, 0, 0, 2);
    BUSY(skid_take(&plant, key_of(0, 0), &lease), 0, SKID_REASON_BEFORE, 0);
    BUSY(skid_take_all(&plant, keys, 2, two), 1, SKID_REASON_BEFORE, 0);
    NO_LEASE(two[0]);
    OK(skid_set_waiters(&plant, 0, 0));
    OK(skid_take(&plant, key_of(0, 0), &lease));
    LEASE(lease, 0, next, plant.head.boot);
    OK(skid_give(&plant, lease));
    REFUSED(skid_set_waiters(&plant, 12, 1), SKID_INVALID_BUCKET, 12);
    CHECK(plant.head.next, next + 1);
}

/*
 * A look says Busy exactly where a take does, and for the same reason; and a list of that key alone is answered as the
 * key is, but that there the bucket is tested before the health. Nothing has changed behind it.
 */
static void look_is_take(struct skid_key key)
{
    const struct skid_arena before = plant;
    const struct plant_memory kept = memory;
    struct skid_lease lease, all;
    struct skid_result seen, got, listed;
    seen = skid_look(&plant, key);
    got = skid_take(&plant, key, &lease);
    plant = before;
    memory = kept;
    listed = skid_take_all(&plant, &key, 1, &all);
    CHECK(seen.code == SKID_TRY_AGAIN, got.code == SKID_TRY_AGAIN);
    CHECK(seen.reason, got.reason);
    CHECK(seen.reason_serial, got.reason_serial);
    if (key.bucket < BUCKETS)
        says_at(__LINE__, listed, got.code, got.carried, got.position, got.reason, got.reason_serial);
    LEASE(all, lease.cell, lease.serial, lease.boot);
    plant = before;
    memory = kept;
}

/* Words by chance, and then every edge of a cell's words, of its header's health and of the next serial. */
static void looks(void)
{
    static const uint32_t edges[] = {0, 1, 2, 3, 4, 5, 4294967294u, 4294967295u};
    const struct skid_arena before = plant;
    const struct plant_memory kept = memory;
    unsigned i;
    for (i = 0; i < 400; i++) {
        struct skid_key key = any_key(6, 5);
        uint32_t word = chance(WORDS), header = chance(HEADERS);
        uint32_t about_next = plant.head.next - 1 + chance(3);
        memory.table[word] = chance(2) ? chance(2) : about_next;
        memory.health[header] = (uint8_t)(chance(4) == 0);
        look_is_take(key);
    }
    for (i = 0; i < 3 * 8 * 3 * 3 * 8; i++) {
        memory.table[18] = i % 3;
        memory.table[19] = edges[i / 3 % 8];
        memory.table[20] = edges[3 * (i / 24 % 3)];
        memory.health[VALVES] = (uint8_t)(127 * (i / 72 % 3));
        plant.head.next = edges[i / 216];
        look_is_take(key_of(3, 2));
    }
    plant = before;
    memory = kept;
}

/* ---- the book */

static void setting_at(int line, uint32_t slot, uint32_t version, uint32_t kind, uint32_t bits)
{
    struct skid_setting setting = {77, 77, 77};
    struct skid_result r =
        version == 0 ? skid_book_read(&plant, &book, slot, &setting)
                     : skid_book_read_version(&plant, &book, slot, version, &setting);
    says_at(line, r, kind == 0 ? (int)SKID_NEVER_WRITTEN : (int)SKID_OK, 0, 0, 0, 0);
    check_at(line, "the kind", setting.kind, kind);
    check_at(line, "the bits", setting.bits, bits);
    if (version != 0 || kind == 0)
        check_at(line, "the version", setting.version, kind == 0 ? 0 : version);
}
#define NEWEST(slot, kind, bits) setting_at(__LINE__, slot, 0, kind, bits)
#define VERSION(slot, version, kind, bits) setting_at(__LINE__, slot, version, kind, bits)

static void wrote_at(int line, struct skid_result r, struct skid_written written, int code, uint32_t version,
                     uint32_t moved)
{
    says_at(line, r, code, 0, 0, 0, 0);
    check_at(line, "the version", written.version, version);
    check_at(line, "the bytes moved", written.moved, moved);
}

static void book_written(struct skid_lease panel, struct skid_lease given_back)
{
    struct skid_written w = {77, 77};
    struct skid_result r;
    OK(skid_book_open(&plant, &book));
    NEWEST(6, 0, 0);
    r = skid_set_pressure(&plant, &book, panel, 1.5f, &w);
    wrote_at(__LINE__, r, w, SKID_OK, 1, 0);
    NEWEST(6, SKID_PRESSURE, 0x3fc00000u);
    CHECK(skid_bar_of(0x3fc00000u) == 1.5f, 1);
    r = skid_set_speed(&plant, &book, panel, 4294967295u, &w);
    wrote_at(__LINE__, r, w, SKID_OK, 2, 0);
    r = skid_set_valve(&plant, &book, panel, true, &w);
    wrote_at(__LINE__, r, w, SKID_OK, 3, 0);
    r = skid_set_pressure_bits(&plant, &book, panel, 0x80000000u, &w);
    wrote_at(__LINE__, r, w, SKID_OK, 4, 0);
    VERSION(6, 1, SKID_PRESSURE, 0x3fc00000u);
    VERSION(6, 2, SKID_SPEED, 4294967295u);
    VERSION(6, 3, SKID_VALVE, 1);
    NEWEST(6, SKID_PRESSURE, 0x80000000u);
    r = skid_set_valve(&plant, &book, panel, false, &w);
    wrote_at(__LINE__, r, w, SKID_OK, 5, 0);
    VERSION(6, 1, 0, 0);
    VERSION(6, 6, 0, 0);
    VERSION(6, 5, SKID_VALVE, 0);
    r = skid_set_pressure_bits(&plant, &book, panel, 0x7fc00000u, &w);
    wrote_at(__LINE__, r, w, SKID_NOT_FINITE, 0, 0);
    w.version = w.moved = 77;
    r = skid_set_pressure_bits(&plant, &book, panel, 0xff800000u, &w);
    wrote_at(__LINE__, r, w, SKID_NOT_FINITE, 0, 0);
    r = skid_set_speed(&plant, &book, given_back, 1, &w);
    wrote_at(__LINE__, r, w, SKID_NOT_HELD, 0, 0);
    NEWEST(6, SKID_VALVE, 0);
}

/*
 * A setting of the logger's in front, then 100 of the panel's. Twelve slots have room for 48 bodies; where it is used
 * up, the panel's three that stay slide behind the logger's one, 15 bytes, and with that write 44 find room.
 */
static void book_slides(struct skid_lease panel, struct skid_lease logger)
{
    struct skid_written w;
    uint32_t i;
    OK(skid_book_open(&plant, &book));
    OK(skid_set_pressure(&plant, &book, logger, 2.25f, &w));
    for (i = 1; i <= 100; i++) {
        struct skid_result r = skid_set_speed(&plant, &book, panel, 1000 + i, &w);
        wrote_at(__LINE__, r, w, SKID_OK, i, i == 48 || i == 92 ? 15 : 0);
        NEWEST(9, SKID_PRESSURE, 0x40100000u);
        VERSION(6, i, SKID_SPEED, 1000 + i);
        if (i > 3)
            VERSION(6, i - 3, SKID_SPEED, 997 + i);
        if (i > 4)
            VERSION(6, i - 4, 0, 0);
    }
}

static void book_refused(struct skid_lease panel)
{
    const struct skid_book wrong = {pages.bytes, 383};
    struct skid_setting setting = {77, 77, 77};
    struct skid_written w;
    struct skid_result r;
    uint8_t byte = pages.bytes[0];
    REFUSED(skid_book_open(&plant, &wrong), SKID_BAD_SLOT, 0);
    REFUSED(skid_book_read(&plant, &book, 12, &setting), SKID_BAD_SLOT, 0);
    CHECK(setting.kind + setting.bits + setting.version, 0);
    pages.bytes[0] = (uint8_t)(byte + 1);
    REFUSED(skid_book_read(&plant, &book, 6, &setting), SKID_DAMAGED_BOOK, 0);
    r = skid_set_speed(&plant, &book, panel, 1, &w);
    wrote_at(__LINE__, r, w, SKID_DAMAGED_BOOK, 0, 0);
    pages.bytes[0] = byte;
    NEWEST(6, SKID_SPEED, 1100);
}

/* ---- the power dips: one bit word is no bit, somebody seems to wait, a health byte is neither 0 nor 1 */

static void change_is(size_t at, uint32_t place, uint32_t was, uint32_t now)
{
    CHECK(report.changes[at].place, place);
    CHECK(report.changes[at].was, was);
    CHECK(report.changes[at].now, now);
}

static void dip(struct skid_lease panel, struct skid_lease logger)
{
    struct skid_head paper = plant.head, turned = plant.head;
    struct skid_report short_one = report;
    struct skid_lease lease;
    memory.table[0] = 5;
    memory.table[17] = 7;
    memory.health[SENSORS] = 9;
    plant.head.next = 0;
    short_one.changes_room = 2;
    short_one.changed = short_one.held = 77;
    REFUSED(skid_mend(&plant, paper, &short_one), SKID_REPORT_FULL, 0);
    CHECK(short_one.changed + short_one.held, 0);
    turned.headers = BUCKETS;
    turned.buckets = HEADERS;
    REFUSED(skid_mend(&plant, turned, &report), SKID_BAD_SHAPE, 0);
    CHECK(memory.table[0], 5);
    CHECK(plant.head.next, 0);
    OK(skid_mend(&plant, paper, &report));
    CHECK(plant.head.next, paper.next);
    CHECK(report.changed, 3);
    change_is(0, 0, 5, 0);
    change_is(1, 17, 7, 0);
    change_is(2, 38, 9, 1);
    CHECK(report.held, 2);
    CHECK(report.cells[0], 6);
    CHECK(report.cells[1], 9);
    lease = skid_left_lease(&plant, 6);
    LEASE(lease, panel.cell, panel.serial, panel.boot);
    OK(skid_is_mine(&plant, lease));
    OK(skid_give(&plant, skid_left_lease(&plant, 9)));
    REFUSED(skid_give(&plant, logger), SKID_NOT_HELD, 0);
    NO_LEASE(skid_left_lease(&plant, 12));
    REFUSED(skid_take(&plant, key_of(2, 0), &lease), SKID_POISONED, SENSORS);
    OK(skid_heal(&plant, SENSORS));
    OK(skid_mend(&plant, plant.head, &report));
    CHECK(report.changed, 0);
    CHECK(report.held, 1);
}

static void next_boot(uint32_t boot, struct skid_lease panel)
{
    struct skid_written w = {77, 77};
    struct skid_result r;
    OK(skid_open(&plant, boot + 1));
    CHECK(held_cells(), 0);
    REFUSED(skid_is_mine(&plant, panel), SKID_STALE_BOOT, 0);
    REFUSED(skid_give(&plant, panel), SKID_STALE_BOOT, 0);
    r = skid_set_speed(&plant, &book, panel, 1, &w);
    wrote_at(__LINE__, r, w, SKID_STALE_BOOT, 0, 0);
    NEWEST(6, SKID_SPEED, 1100);
    REFUSED_AT(skid_give_all(&plant, &panel, 1), SKID_STALE_BOOT, 0, 0);
}

/* ---- the three at work by chance, and a referee with notes of its own */

enum { GOVERNOR, PANEL, LOGGER, NOBODY };

struct worker {
    struct skid_lease leases[3];
    size_t count;
};

static unsigned holder[CELLS];
static uint32_t versions[CELLS], grants;

static void begins(struct worker *w, unsigned who)
{
    struct skid_key keys[3];
    struct skid_result r;
    size_t i, count = 1 + chance(3);
    bool busy = false;
    for (i = 0; i < count; i++) {
        keys[i] = any_key(4, BUCKETS);
        busy |= holder[(keys[i].binding == 3 ? 1 : keys[i].binding) * BUCKETS + keys[i].bucket] != NOBODY;
    }
    r = count == 1 ? skid_take(&plant, keys[0], w->leases) : skid_take_all(&plant, keys, count, w->leases);
    CHECK(r.code == SKID_TRY_AGAIN, busy);
    CHECK(r.code == SKID_OK, !busy);
    if (busy)
        return;
    w->count = count;
    for (i = 0; i < count; i++) {
        grants += holder[w->leases[i].cell] == NOBODY;
        CHECK(holder[w->leases[i].cell] == NOBODY || holder[w->leases[i].cell] == who, 1);
        holder[w->leases[i].cell] = who;
    }
}

static void works(struct worker *w)
{
    struct skid_written written;
    struct skid_lease lease = w->leases[chance((uint32_t)w->count)];
    OK(skid_is_mine(&plant, lease));
    OK(skid_set_valve(&plant, &book, lease, chance(2) == 1, &written));
    CHECK(written.version, ++versions[lease.cell]);
}

static void ends(struct worker *w)
{
    size_t i;
    OK(skid_give_all(&plant, w->leases, w->count));
    for (i = 0; i < w->count; i++)
        holder[w->leases[i].cell] = NOBODY;
    w->count = 0;
}

static void turn(struct worker *w, unsigned who)
{
    if (w->count == 0)
        begins(w, who);
    else if (chance(3) == 0)
        ends(w);
    else
        works(w);
}

static void shift(void)
{
    struct worker workers[3];
    unsigned i, n = 0;
    memset(workers, 0, sizeof workers);
    for (i = 0; i < CELLS; i++) {
        holder[i] = NOBODY;
        versions[i] = 0;
    }
    grants = 0;
    OK(skid_book_open(&plant, &book));
    for (i = 0; i < 3000; i++)
        turn(&workers[i % 3], i % 3);
    for (i = 0; i < CELLS; i++)
        n += holder[i] != NOBODY;
    CHECK(held_cells(), n);
    for (i = 0; i < 3; i++)
        if (workers[i].count > 0)
            ends(&workers[i]);
    CHECK(held_cells(), 0);
    CHECK(plant.head.next, 1 + grants);
    CHECK(grants > 100, 1);
}

/* ---- words for people: every code has a name and a sentence of its own */

static void names(void)
{
    static const int codes[] = {-1,  0,   1,   2,   3,   4,   5,   6,   7,  8,  9,  10, 11,
                                12,  13,  14,  15,  16,  101, 102, 103, 104, 105, 106, 107};
    const size_t n = sizeof codes / sizeof codes[0];
    size_t i, k;
    CHECK(strcmp(skid_code_name(SKID_POISONED), "Poisoned"), 0);
    CHECK(strcmp(skid_code_name(SKID_TRY_AGAIN), "Busy"), 0);
    for (i = 0; i < n; i++) {
        CHECK(strcmp(skid_code_name(codes[i]), "Unknown") == 0, 0);
        for (k = 0; k < i; k++) {
            CHECK(strcmp(skid_code_name(codes[i]), skid_code_name(codes[k])) == 0, 0);
            CHECK(strcmp(skid_code_text(codes[i]), skid_code_text(codes[k])) == 0, 0);
        }
    }
    CHECK(strcmp(skid_code_name(17), "Unknown"), 0);
}

int main(void)
{
    CHECK(sizeof(struct widest_memory), 4 * 3 * 4096 + 64);
    CHECK(sizeof(struct longest_memory), 4 * 3 * 4096 + 4);
    CHECK(sizeof(struct longest_book), 52 * 64);
    CHECK(sizeof memory.table + sizeof memory.health, 4 * WORDS + HEADERS);
    CHECK(sizeof pages, 52 * 12);
    names();
    for (seed = 1; seed <= 10; seed++) {
        struct skid_lease panel, logger, given_back = {6, 1, 0};
        uint32_t boot = 10 * seed;
        chance_state = seed;
        given_back.boot = boot;
        opening(boot);
        opening_refused(boot);
        one_key(boot, &panel, &logger);
        all_keys(boot);
        all_keys_refused();
        not_all_given(panel, logger);
        health_and_waiters(panel);
        looks();
        book_written(panel, given_back);
        book_slides(panel, logger);
        book_refused(panel);
        dip(panel, logger);
        next_boot(boot, panel);
        shift();
    }
    printf("arena in C: %lu figures of ten seeds, all as they should be\n", checks);
    return 0;
}
