/*
 * The lease layer, held in one hand: an arena keeps its head, its runs, their lengths and its registry together, every
 * call gives one kind of result, and counts are of keys and leases, never of words. Header only, over skid.h; C99, C11,
 * C17 and C++, hosted or freestanding. skid.h says what the calls under it do, and what the caller must see to: one
 * caller at a time, boot numbers never used twice, the last head kept where a power dip does not reach it.
 *
 *     SKID_MEMORY(plant_memory, headers(3), buckets(4));    a struct type of exactly the right size
 *     static struct plant_memory memory;                    anywhere: a section that is not cleared, a fixed place
 *     SKID_ARENA(plant, memory, registry(0, 1, 2));         the arena over it, by the name plant
 *
 *     struct skid_key key = {1, 2};                         binding 1, bucket 2
 *     struct skid_lease valve;
 *     struct skid_result r = skid_open(&plant, boot);
 *     r = skid_take(&plant, key, &valve);
 *     if (r.code == SKID_OK) ..                             the valve is ours until skid_give(&plant, valve)
 *     if (r.code == SKID_TRY_AGAIN) ..                      held, or waited for: come back from your own scheduler
 *
 * Every call that can be refused says so in its result, and a lease, a setting or a count that it hands out is written
 * whether it is refused or not: no lease, no setting, 0. A call looks once. With one caller at a time a held cell
 * cannot come free inside a call, so none of these asks a cell of others a second time.
 *
 * A forgotten head, a length in words, two lent runs that overlap, headers and buckets exchanged, a reply read of the
 * call before: none of these can be written through it, but for one: do not copy an arena. The copy's head would be
 * forgotten where the arena goes on.
 */
#ifndef SKID_ARENA_H
#define SKID_ARENA_H

#include "skid.h"

#ifdef __cplusplus
extern "C" {
#endif

/* ---- what calls are given and give */

struct skid_head {
    uint32_t headers, buckets, next, boot;
};

/* All zeros is no lease: serial 0 is never live. */
struct skid_lease {
    uint32_t cell, serial, boot;
};

struct skid_key {
    uint32_t binding, bucket;
};

/* One word or byte that a salvage changed: places count the table's words, and then the health bytes. */
struct skid_change {
    uint32_t place, was, now;
};

struct skid_arena {
    struct skid_head head; /* the one in force; write it to paper before a lease is used */
    uint32_t *table;
    uint8_t *health;
    uint32_t headers, buckets; /* of the memory: what the lengths are made of */
    const uint32_t *registry;
    size_t bindings; /* words of the registry */
};

/* A call's code: SKID_OK, SKID_TRY_AGAIN for Busy, or the number of a refusal (enum skid_refusal and its kind). */
enum skid_code {
    SKID_TRY_AGAIN = -1,
    SKID_OK = 0
};

struct skid_result {
    int code;
    uint32_t carried;       /* of a refusal: what it carries */
    uint32_t position;      /* in a call of several keys or leases: which of them was refused or Busy; else 0 */
    uint32_t reason;        /* of SKID_TRY_AGAIN: enum skid_reason */
    uint32_t reason_serial; /* and the serial that goes with it */
};

/* ---- memory and arena */

/* So that headers and buckets cannot be exchanged: SKID_MEMORY(name, headers(3), buckets(4)). */
#define SKID_FIRST_headers(n) (n)
#define SKID_SECOND_buckets(n) (n)
#define SKID_THIRD_registry(...) {__VA_ARGS__}

/* A test when it is compiled. C99 knows no sentence for it: an array of -1 elements is refused. */
#if defined(__cplusplus)
#define SKID_FITS(name, test, sentence) static_assert(test, sentence)
#elif defined(__STDC_VERSION__) && __STDC_VERSION__ >= 201112L
#define SKID_FITS(name, test, sentence) _Static_assert(test, sentence)
#else
#define SKID_FITS(name, test, sentence) typedef char name##_fits[(test) ? 1 : -1]
#endif

#define SKID_MEMORY(name, H, B) SKID_MEMORY_OF(name, SKID_FIRST_##H, SKID_SECOND_##B)
#define SKID_MEMORY_OF(name, H, B)                                                                                     \
    SKID_FITS(name,                                                                                                    \
              (H) >= 1u && (H) <= SKID_MAX_HEADERS && (B) >= 1u && (B) <= SKID_MAX_BUCKETS &&                          \
                  (H) * (B) <= SKID_MAX_CELLS,                                                                         \
              "1 to 64 headers, 1 to 1,024 buckets, at most 4,096 cells");                                             \
    struct name {                                                                                                      \
        uint32_t table[SKID_CELL_WORDS * (H) * (B)];                                                                   \
        uint8_t health[(H)];                                                                                           \
    }

/* `memory` names such a struct. It has one arena: a second one would have a head of its own, and is refused. */
#define SKID_ARENA(name, memory, R) SKID_ARENA_OF(name, memory, SKID_THIRD_##R)
#define SKID_ARENA_OF(name, memory, ...)                                                                               \
    enum { memory##_has_one_arena };                                                                                   \
    static const uint32_t name##_registry[] = __VA_ARGS__;                                                             \
    SKID_FITS(name, sizeof name##_registry <= SKID_MAX_BINDINGS * sizeof(uint32_t), "at most 64 bindings");            \
    static struct skid_arena name = {{0, 0, 0, 0},                                                                     \
                                     (memory).table,                                                                   \
                                     (memory).health,                                                                  \
                                     SKID_HEADERS_OF(memory),                                                          \
                                     (uint32_t)(SKID_CELLS_OF(memory) / sizeof(memory).health),                        \
                                     name##_registry,                                                                  \
                                     sizeof name##_registry / sizeof(uint32_t)}

/* Of such memory: its headers, its cells, and how many words and bytes a salvage can change. */
#define SKID_HEADERS_OF(memory) ((uint32_t)sizeof(memory).health)
#define SKID_CELLS_OF(memory) (sizeof(memory).table / sizeof(uint32_t) / SKID_CELL_WORDS)
#define SKID_CHANGES_OF(memory) (sizeof(memory).table / sizeof(uint32_t) + sizeof(memory).health)

/* What a salvage found. Its lists are as long as the memory can need, so that it is never SKID_REPORT_FULL. */
struct skid_report {
    struct skid_change *changes; /* the first `changed` of them say what it changed */
    size_t changes_room;
    uint32_t *cells; /* the first `held` of them are the cells left held */
    size_t cells_room;
    size_t changed, held;
};

#define SKID_REPORT(name, memory)                                                                                      \
    static struct skid_change name##_changes[SKID_CHANGES_OF(memory)];                                                 \
    static uint32_t name##_cells[SKID_CELLS_OF(memory)];                                                               \
    static struct skid_report name = {                                                                                 \
        name##_changes, SKID_CHANGES_OF(memory), name##_cells, SKID_CELLS_OF(memory), 0, 0}

/* ---- inside: what every call hands on, and what it makes of a reply */

#define SKID_THE_HEAD(a) (a)->head.headers, (a)->head.buckets, (a)->head.next, (a)->head.boot
#define SKID_THE_TABLE(a) (a)->table, (size_t)SKID_CELL_WORDS * (a)->headers * (a)->buckets
#define SKID_THE_HEALTH(a) (a)->health, (size_t)(a)->headers
#define SKID_NOBODY_ELSE NULL, 0, 0, NULL, 0 /* no script, no held list: a kernel's others act between the calls */

SKID_FITS(skid_lease_words, sizeof(struct skid_lease) == 4 * SKID_LEASE_WORDS, "a lease is three words");
SKID_FITS(skid_key_words, sizeof(struct skid_key) == 4 * SKID_KEY_WORDS, "a key is two words");
SKID_FITS(skid_change_words, sizeof(struct skid_change) == 12, "a change is three words");

static inline struct skid_result skid_plain_result(int code, uint32_t carried)
{
    struct skid_result x = {0, 0, 0, 0, 0};
    x.code = code;
    x.carried = carried;
    return x;
}

/* What these refusals carry is a position. */
static inline bool skid_carries_position(int code)
{
    return code == SKID_BAD_BINDING || code == SKID_NOT_HELD || code == SKID_REPEATED || code == SKID_STALE_BOOT;
}

static inline struct skid_result skid_result_of(const uint64_t reply[SKID_REPLY_WORDS])
{
    uint64_t kind = reply[SKID_KIND];
    struct skid_result x = {SKID_OK, 0, 0, 0, 0};
    if (kind == SKID_BUSY)
        x.code = SKID_TRY_AGAIN;
    if (kind == SKID_REFUSED || kind == SKID_REFUSED_AT) {
        x.code = (int)reply[SKID_REFUSAL];
        x.carried = (uint32_t)reply[SKID_CARRIED];
        x.position = skid_carries_position(x.code) ? x.carried : 0;
    }
    if (kind == SKID_REFUSED_AT)
        x.position = (uint32_t)reply[SKID_POSITION];
    x.reason = (uint32_t)reply[SKID_REASON];
    x.reason_serial = (uint32_t)reply[SKID_REASON_SERIAL];
    return x;
}

/* The head that a call handed back is the one in force. */
static inline struct skid_result skid_kept(struct skid_arena *a, const uint64_t reply[SKID_REPLY_WORDS])
{
    a->head.headers = (uint32_t)reply[SKID_HEADERS];
    a->head.buckets = (uint32_t)reply[SKID_BUCKETS];
    a->head.next = (uint32_t)reply[SKID_NEXT];
    a->head.boot = (uint32_t)reply[SKID_BOOT];
    return skid_result_of(reply);
}

/* A call that may grant one lease. */
static inline struct skid_result skid_kept_lease(struct skid_arena *a, const uint64_t reply[SKID_REPLY_WORDS],
                                                 struct skid_lease *lease)
{
    struct skid_lease none = {0, 0, 0};
    *lease = none;
    if (reply[SKID_KIND] == SKID_GRANTED) {
        lease->cell = (uint32_t)reply[SKID_CELL];
        lease->serial = (uint32_t)reply[SKID_SERIAL];
        lease->boot = (uint32_t)reply[SKID_LEASE_BOOT];
    }
    return skid_kept(a, reply);
}

/* ---- opening */

/*
 * Prepares the arena: every cell free, every header healthy, serials from 1. `boot` is a number that no preparation
 * before it had. Refused, the head before it stays in force.
 */
static inline struct skid_result skid_open(struct skid_arena *a, uint32_t boot)
{
    uint64_t reply[SKID_REPLY_WORDS];
    skid_prepare(a->headers, a->buckets, 1, boot, SKID_THE_TABLE(a), SKID_THE_HEALTH(a), reply);
    return reply[SKID_KIND] == SKID_DONE ? skid_kept(a, reply) : skid_result_of(reply);
}

/* No longer than a limit: what a caller says of his own list, before words are counted. */
static inline size_t skid_at_most(size_t count, size_t limit)
{
    return count < limit ? count : limit;
}

/*
 * After a power dip: mends the arena by the last head, which was kept on paper. The report says what it changed, and
 * which cells are still held: each is to be confirmed by its owner or given back (skid_left_lease). Refused, nothing
 * has changed, the head before it stays in force, and the report is empty.
 */
static inline struct skid_result skid_mend(struct skid_arena *a, struct skid_head paper, struct skid_report *report)
{
    uint64_t reply[SKID_SALVAGE_WORDS];
    skid_salvage(paper.headers, paper.buckets, paper.next, paper.boot, SKID_THE_TABLE(a), SKID_THE_HEALTH(a),
                 (uint32_t *)(void *)report->changes, 3 * skid_at_most(report->changes_room, SKID_MAX_REPORT / 3),
                 report->cells, report->cells_room, reply);
    report->changed = 0;
    report->held = 0;
    if (reply[SKID_SALVAGE_KIND] != SKID_DONE)
        return skid_plain_result((int)reply[SKID_SALVAGE_REFUSAL], 0);
    a->head = paper;
    report->changed = (size_t)reply[SKID_SALVAGE_CHANGED];
    report->held = (size_t)reply[SKID_SALVAGE_HELD];
    return skid_plain_result(SKID_OK, 0);
}

/* The lease by which a cell that a salvage left held can be given back; no lease if there is no such cell. */
static inline struct skid_lease skid_left_lease(const struct skid_arena *a, uint32_t cell)
{
    struct skid_lease lease = {0, 0, 0};
    if (cell < a->headers * a->buckets) {
        lease.cell = cell;
        lease.serial = a->table[SKID_CELL_WORDS * cell + 1];
        lease.boot = a->head.boot;
    }
    return lease;
}

/* ---- leases. A call looks once: where it says SKID_TRY_AGAIN, come back from your own scheduler. */

static inline struct skid_result skid_take(struct skid_arena *a, struct skid_key key, struct skid_lease *lease)
{
    uint64_t reply[SKID_REPLY_WORDS];
    skid_transactional_try_lock_bucket(SKID_THE_HEAD(a), SKID_THE_TABLE(a), SKID_THE_HEALTH(a), a->registry,
                                       a->bindings, SKID_NOBODY_ELSE, key.binding, key.bucket, reply);
    return skid_kept_lease(a, reply, lease);
}

/* By the number of the cell: header x buckets + bucket. */
static inline struct skid_result skid_take_cell(struct skid_arena *a, uint32_t cell, struct skid_lease *lease)
{
    uint64_t reply[SKID_REPLY_WORDS];
    skid_try_lock(SKID_THE_HEAD(a), SKID_THE_TABLE(a), SKID_THE_HEALTH(a), SKID_NOBODY_ELSE, cell, reply);
    return skid_kept_lease(a, reply, lease);
}

/* Whether the head is one of this memory: before skid_open it is not. */
static inline bool skid_is_open(const struct skid_arena *a)
{
    return a->head.headers == a->headers && a->head.buckets == a->buckets && a->head.next != 0;
}

/*
 * Whether a key's cell would be Busy now, as skid_take finds it: waited for, or else held. A key of no cell, of a
 * poisoned header or of a damaged cell is not Busy, and nothing is in an arena that is not open; these are for the call
 * to refuse.
 *
 * It reads the words of table and health itself, and that is tested and not proved. It grants nothing: a wrong look
 * could only say Busy in vain, or let a call of several keys ask a held cell 4,096 times.
 */
static inline struct skid_result skid_look(const struct skid_arena *a, struct skid_key key)
{
    struct skid_result x = {SKID_OK, 0, 0, 0, 0};
    const uint32_t *cell;
    uint32_t header = key.binding < a->bindings ? a->registry[key.binding] : a->headers;
    if (!skid_is_open(a) || header >= a->headers || key.bucket >= a->buckets || a->health[header] != 0)
        return x;
    cell = a->table + (size_t)SKID_CELL_WORDS * (header * a->buckets + key.bucket);
    if (cell[2] != 0) {
        x.code = SKID_TRY_AGAIN;
        x.reason = SKID_REASON_BEFORE;
    } else if (cell[0] == 1 && cell[1] >= 1 && cell[1] < a->head.next) {
        x.code = SKID_TRY_AGAIN;
        x.reason = SKID_REASON_HELD;
        x.reason_serial = cell[1];
    }
    return x;
}

/* The first of several keys that is Busy, with its position. Of more than 64 none is: the call is to refuse them. */
static inline struct skid_result skid_look_all(const struct skid_arena *a, const struct skid_key *keys, size_t count)
{
    struct skid_result x = {SKID_OK, 0, 0, 0, 0};
    size_t i;
    for (i = 0; i < count && count <= SKID_MAX_LEASES && x.code == SKID_OK; i++) {
        x = skid_look(a, keys[i]);
        x.position = (uint32_t)(x.code == SKID_OK ? 0 : i);
    }
    return x;
}

/* No lease where nothing was granted. */
static inline void skid_no_leases(struct skid_lease *leases, size_t count)
{
    struct skid_lease none = {0, 0, 0};
    while (count > 0)
        leases[--count] = none;
}

/*
 * All keys or none, at most 64, in any order: cells are taken in rising order, so that callers who take all they need
 * at once never wait for one another in a circle. leases[i] is that of keys[i]; keys of one cell share one lease, and
 * skid_give_all gives it back once. SKID_TRY_AGAIN with the position of the first key whose cell is held or waited for:
 * that is looked for first, since the library's own call would ask such a cell 4,096 times.
 */
static inline struct skid_result skid_take_all(struct skid_arena *a, const struct skid_key *keys, size_t count,
                                               struct skid_lease *leases)
{
    uint64_t reply[SKID_REPLY_WORDS];
    size_t lent = skid_at_most(count, SKID_MAX_LEASES + 1u);
    struct skid_result x = skid_look_all(a, keys, lent);
    skid_no_leases(leases, count);
    if (x.code == SKID_TRY_AGAIN)
        return x;
    skid_acquire_sorted_locks(SKID_THE_HEAD(a), SKID_THE_TABLE(a), SKID_THE_HEALTH(a), a->registry, a->bindings,
                              SKID_NOBODY_ELSE, (const uint32_t *)(const void *)keys, SKID_KEY_WORDS * lent,
                              (uint32_t *)(void *)leases, SKID_LEASE_WORDS * lent, reply);
    return skid_kept(a, reply);
}

/*
 * All keys or none, in the order given. Who uses it sees to it that nobody waits in a circle. Two keys of one cell
 * cannot both be granted: SKID_SERIALIZATION_FAILURE, after the library's 4,096 attempts.
 */
static inline struct skid_result skid_take_in_order(struct skid_arena *a, const struct skid_key *keys, size_t count,
                                                    struct skid_lease *leases)
{
    uint64_t reply[SKID_REPLY_WORDS];
    size_t lent = skid_at_most(count, SKID_MAX_LEASES + 1u);
    struct skid_result x = skid_look_all(a, keys, lent);
    skid_no_leases(leases, count);
    if (x.code == SKID_TRY_AGAIN)
        return x;
    skid_acquire_index_locks(SKID_THE_HEAD(a), SKID_THE_TABLE(a), SKID_THE_HEALTH(a), a->registry, a->bindings,
                             SKID_NOBODY_ELSE, (const uint32_t *)(const void *)keys, SKID_KEY_WORDS * lent,
                             (uint32_t *)(void *)leases, SKID_LEASE_WORDS * lent, reply);
    return skid_kept(a, reply);
}

/* A lease that was given back is no lease any more: a second time it is SKID_NOT_HELD. */
static inline struct skid_result skid_give(struct skid_arena *a, struct skid_lease lease)
{
    uint64_t reply[SKID_REPLY_WORDS];
    skid_drop_lease(SKID_THE_HEAD(a), SKID_THE_TABLE(a), lease.cell, lease.serial, lease.boot, reply);
    return skid_kept(a, reply);
}

/* A list of leases released. */
static inline struct skid_result skid_released(struct skid_arena *a, const struct skid_lease *leases, size_t count)
{
    uint64_t reply[SKID_REPLY_WORDS];
    skid_release_all(SKID_THE_HEAD(a), SKID_THE_TABLE(a), SKID_THE_HEALTH(a), NULL, 0, 0,
                     (const uint32_t *)(const void *)leases, SKID_LEASE_WORDS * count, reply);
    return skid_kept(a, reply);
}

/* Whether leases[at] stands there for the first time. */
static inline bool skid_is_first(const struct skid_lease *leases, size_t at)
{
    size_t i;
    for (i = 0; i < at; i++)
        if (leases[i].cell == leases[at].cell && leases[i].serial == leases[at].serial &&
            leases[i].boot == leases[at].boot)
            return false;
    return true;
}

/* The same list with each lease once; at most 64. Positions are still those of the list as it was given. */
static inline struct skid_result skid_released_once(struct skid_arena *a, const struct skid_lease *leases, size_t count)
{
    struct skid_lease once[SKID_MAX_LEASES];
    uint32_t position[SKID_MAX_LEASES];
    uint32_t kept = 0, i;
    struct skid_result x;
    for (i = 0; i < count; i++) {
        if (!skid_is_first(leases, i))
            continue;
        once[kept] = leases[i];
        position[kept++] = i;
    }
    x = skid_released(a, once, kept);
    if (skid_carries_position(x.code) && x.position < kept)
        x.carried = x.position = position[x.position];
    return x;
}

/*
 * All leases of a list, at most 64, or, if one is refused, none. A lease that stands in it twice, as skid_take_all
 * leaves it for two keys of one cell, is given back once. A refusal has the position in the list.
 */
static inline struct skid_result skid_give_all(struct skid_arena *a, const struct skid_lease *leases, size_t count)
{
    size_t lent = skid_at_most(count, SKID_MAX_LEASES + 1u);
    struct skid_result x = skid_released(a, leases, lent);
    return x.code == SKID_REPEATED ? skid_released_once(a, leases, lent) : x;
}

/* SKID_OK exactly if the lease is live and of this boot: its holder may read and write what the cell guards. */
static inline struct skid_result skid_is_mine(const struct skid_arena *a, struct skid_lease lease)
{
    uint64_t reply[SKID_REPLY_WORDS];
    skid_read_permission(SKID_THE_HEAD(a), SKID_THE_TABLE(a), lease.cell, lease.serial, lease.boot, reply);
    return skid_result_of(reply);
}

/* ---- what others set: each is one foreign step at a boundary */

static inline struct skid_result skid_one_step(struct skid_arena *a, uint32_t kind, uint32_t place, uint32_t number)
{
    uint64_t reply[SKID_REPLY_WORDS];
    uint32_t step[3];
    step[0] = kind;
    step[1] = place;
    step[2] = number;
    skid_environment(SKID_THE_HEAD(a), SKID_THE_TABLE(a), SKID_THE_HEALTH(a), step, 3, 0, NULL, 0, reply);
    return skid_kept(a, reply);
}

/* No cell of a poisoned header is granted until it is healed. A header that is not there is SKID_BAD_HEADER. */
static inline struct skid_result skid_poison(struct skid_arena *a, uint32_t header)
{
    return header < a->headers ? skid_one_step(a, SKID_STEP_HEALTH, header, 1)
                               : skid_plain_result(SKID_BAD_HEADER, header);
}

static inline struct skid_result skid_heal(struct skid_arena *a, uint32_t header)
{
    return header < a->headers ? skid_one_step(a, SKID_STEP_HEALTH, header, 0)
                               : skid_plain_result(SKID_BAD_HEADER, header);
}

/* A cell with waiters other than 0 is not granted. A cell that is not there is SKID_INVALID_BUCKET. */
static inline struct skid_result skid_set_waiters(struct skid_arena *a, uint32_t cell, uint32_t waiters)
{
    return cell < a->headers * a->buckets ? skid_one_step(a, SKID_STEP_WAITERS, cell, waiters)
                                          : skid_plain_result(SKID_INVALID_BUCKET, cell);
}

/* ---- the setpoint book. A book has a slot for each cell, at most for the first 64. */

struct skid_book {
    uint8_t *bytes;
    size_t length;
};

/*
 * Memory of a book that is never full, SKID_BOOK_MEMORY(name, slots(12)), as a struct type; SKID_BOOK(book, memory) is
 * the book over such memory. It has room for the four newest settings of every slot.
 */
#define SKID_FIRST_slots(n) (n)
#define SKID_BOOK_MEMORY(name, N) SKID_BOOK_MEMORY_OF(name, SKID_FIRST_##N)
#define SKID_BOOK_MEMORY_OF(name, N)                                                                                   \
    SKID_FITS(name, (N) >= 1u && (N) <= SKID_MAX_SLOTS, "1 to 64 slots");                                              \
    struct name {                                                                                                      \
        uint8_t bytes[SKID_ROOMY_BYTES * (N)];                                                                         \
    }
#define SKID_BOOK(name, memory) static const struct skid_book name = {(memory).bytes, sizeof(memory).bytes}

struct skid_setting {
    uint32_t kind;    /* enum skid_setpoint */
    uint32_t bits;    /* of a pressure its 32 bits, a speed, of a valve 1 open and 0 shut */
    uint32_t version; /* from 1 */
};

/* What a write did: the slot's new version, and how many bytes of kept settings it moved to make room. */
struct skid_written {
    uint32_t version, moved;
};

static inline struct skid_result skid_book_result(const uint64_t reply[SKID_BOOK_WORDS])
{
    return skid_plain_result(reply[SKID_BOOK_KIND] == SKID_BOOK_REFUSED ? (int)reply[SKID_BOOK_REFUSAL] : SKID_OK, 0);
}

static inline struct skid_result skid_book_wrote(const uint64_t reply[SKID_BOOK_WORDS], struct skid_written *written)
{
    struct skid_written none = {0, 0};
    *written = none;
    if (reply[SKID_BOOK_KIND] == SKID_BOOK_WRITTEN) {
        written->version = (uint32_t)reply[SKID_BOOK_VERSION];
        written->moved = (uint32_t)reply[SKID_BOOK_MOVED];
    }
    return skid_book_result(reply);
}

static inline struct skid_result skid_book_told(const uint64_t reply[SKID_BOOK_WORDS], struct skid_setting *setting)
{
    struct skid_setting none = {0, 0, 0};
    *setting = none;
    if (reply[SKID_BOOK_KIND] == SKID_BOOK_SETTING) {
        setting->kind = (uint32_t)reply[SKID_BOOK_SETPOINT];
        setting->bits = (uint32_t)reply[SKID_BOOK_WORD];
        setting->version = (uint32_t)reply[SKID_BOOK_VERSION];
    }
    return skid_book_result(reply);
}

/* Forgets every setting: after a cold start, or where the book is SKID_DAMAGED_BOOK. */
static inline struct skid_result skid_book_open(const struct skid_arena *a, const struct skid_book *book)
{
    uint64_t reply[SKID_BOOK_WORDS];
    skid_prepare_book(SKID_THE_HEAD(a), book->bytes, book->length, reply);
    return skid_book_result(reply);
}

/*
 * The slot is the lease's own cell: who holds the valve sets the valve. A pressure is given as the 32 bits of its f32;
 * a NaN's and an infinity's are SKID_NOT_FINITE.
 */
static inline struct skid_result skid_set_pressure_bits(const struct skid_arena *a, const struct skid_book *book,
                                                        struct skid_lease lease, uint32_t bits,
                                                        struct skid_written *written)
{
    uint64_t reply[SKID_BOOK_WORDS];
    skid_write_pressure(SKID_THE_HEAD(a), SKID_THE_TABLE(a), book->bytes, book->length, lease.cell, lease.cell,
                        lease.serial, lease.boot, bits, reply);
    return skid_book_wrote(reply, written);
}

static inline struct skid_result skid_set_speed(const struct skid_arena *a, const struct skid_book *book,
                                                struct skid_lease lease, uint32_t speed, struct skid_written *written)
{
    uint64_t reply[SKID_BOOK_WORDS];
    skid_write_speed(SKID_THE_HEAD(a), SKID_THE_TABLE(a), book->bytes, book->length, lease.cell, lease.cell,
                     lease.serial, lease.boot, speed, reply);
    return skid_book_wrote(reply, written);
}

static inline struct skid_result skid_set_valve(const struct skid_arena *a, const struct skid_book *book,
                                                struct skid_lease lease, bool open, struct skid_written *written)
{
    uint64_t reply[SKID_BOOK_WORDS];
    skid_write_valve(SKID_THE_HEAD(a), SKID_THE_TABLE(a), book->bytes, book->length, lease.cell, lease.cell,
                     lease.serial, lease.boot, open, reply);
    return skid_book_wrote(reply, written);
}

/* The newest setting of a slot; it needs no lease. SKID_NEVER_WRITTEN where there is none. */
static inline struct skid_result skid_book_read(const struct skid_arena *a, const struct skid_book *book, uint32_t slot,
                                                struct skid_setting *setting)
{
    uint64_t reply[SKID_BOOK_WORDS];
    skid_read_setpoint(SKID_THE_HEAD(a), book->bytes, book->length, slot, reply);
    return skid_book_told(reply, setting);
}

/* One of the four newest, by its version; SKID_NEVER_WRITTEN where it is not kept. */
static inline struct skid_result skid_book_read_version(const struct skid_arena *a, const struct skid_book *book,
                                                        uint32_t slot, uint32_t version, struct skid_setting *setting)
{
    uint64_t reply[SKID_BOOK_WORDS];
    skid_read_version(SKID_THE_HEAD(a), book->bytes, book->length, slot, version, reply);
    return skid_book_told(reply, setting);
}

/* ---- pressures as floats, only where the compiler may use them: there is no such function without SSE */

#if defined(__SSE__)
SKID_FITS(skid_float, sizeof(float) == sizeof(uint32_t), "a float is a binary32");

static inline uint32_t skid_bits_of(float bar)
{
    uint32_t bits = 0;
    const unsigned char *from = (const unsigned char *)&bar;
    unsigned char *to = (unsigned char *)&bits;
    size_t i;
    for (i = 0; i < sizeof bits; i++)
        to[i] = from[i];
    return bits;
}

static inline float skid_bar_of(uint32_t bits)
{
    float bar = 0;
    const unsigned char *from = (const unsigned char *)&bits;
    unsigned char *to = (unsigned char *)&bar;
    size_t i;
    for (i = 0; i < sizeof bar; i++)
        to[i] = from[i];
    return bar;
}

static inline struct skid_result skid_set_pressure(const struct skid_arena *a, const struct skid_book *book,
                                                   struct skid_lease lease, float bar, struct skid_written *written)
{
    return skid_set_pressure_bits(a, book, lease, skid_bits_of(bar), written);
}
#endif

/* ---- words for people */

static inline const char *skid_code_name(int code)
{
    switch (code) {
    case SKID_TRY_AGAIN: return "Busy";
    case SKID_OK: return "OK";
    case SKID_BAD_SHAPE: return "BadShape";
    case SKID_BAD_SCRIPT: return "BadScript";
    case SKID_BAD_HELD: return "BadHeld";
    case SKID_TOO_MANY: return "TooMany";
    case SKID_BAD_BINDING: return "BadBinding";
    case SKID_BAD_HEADER: return "BadHeader";
    case SKID_POISONED: return "Poisoned";
    case SKID_INVALID_BUCKET: return "InvalidBucket";
    case SKID_DAMAGED: return "Damaged";
    case SKID_SERIALS_SPENT: return "SerialsSpent";
    case SKID_SERIALIZATION_FAILURE: return "SerializationFailure";
    case SKID_NOT_HELD: return "NotHeld";
    case SKID_PROTECTED: return "Protected";
    case SKID_REPEATED: return "Repeated";
    case SKID_BAD_CREW: return "BadCrew";
    case SKID_STALE_BOOT: return "StaleBoot";
    case SKID_BAD_SLOT: return "BadSlot";
    case SKID_NOT_FINITE: return "NotFinite";
    case SKID_DAMAGED_BOOK: return "DamagedBook";
    case SKID_VERSIONS_SPENT: return "VersionsSpent";
    case SKID_NEVER_WRITTEN: return "NeverWritten";
    case SKID_REPORT_FULL: return "ReportFull";
    case SKID_BOOK_FULL: return "BookFull";
    default: return "Unknown";
    }
}

/* What it means for who called. */
static inline const char *skid_code_text(int code)
{
    switch (code) {
    case SKID_TRY_AGAIN: return "the cell is held or waited for; ask again later";
    case SKID_OK: return "done";
    case SKID_BAD_SHAPE: return "the head or a length breaks the arena's rules, or nothing is prepared";
    case SKID_BAD_SCRIPT: return "the script is no list of whole steps, or too long, or its place is past its end";
    case SKID_BAD_HELD: return "a lease of the held list is not live, or the list is too long";
    case SKID_TOO_MANY: return "more than 64 keys or leases";
    case SKID_BAD_BINDING: return "the registry has no such binding";
    case SKID_BAD_HEADER: return "there is no such header";
    case SKID_POISONED: return "the header is poisoned";
    case SKID_INVALID_BUCKET: return "there is no such bucket or cell";
    case SKID_DAMAGED: return "the cell's words are damaged; preparing or a salvage mends it";
    case SKID_SERIALS_SPENT: return "no serial remains; prepare again under a new boot number";
    case SKID_SERIALIZATION_FAILURE: return "4,096 attempts found the cell held or waited for";
    case SKID_NOT_HELD: return "the lease is not live: it was given back, or never given";
    case SKID_PROTECTED: return "the lease is in the held list";
    case SKID_REPEATED: return "the lease stands in the list twice";
    case SKID_BAD_CREW: return "the crew's lists or turns break a rule";
    case SKID_STALE_BOOT: return "the lease is from another boot";
    case SKID_BAD_SLOT: return "the book is too short or too long, or has no such slot";
    case SKID_NOT_FINITE: return "the pressure is no finite number";
    case SKID_DAMAGED_BOOK: return "the book's bytes are damaged; preparing it is the only cure";
    case SKID_VERSIONS_SPENT: return "the slot has had its last version";
    case SKID_NEVER_WRITTEN: return "the slot or that version of it holds no setting";
    case SKID_REPORT_FULL: return "the report or the list of cells is too short; nothing was mended";
    case SKID_BOOK_FULL: return "the book has no room for another setting";
    default: return "no such code";
    }
}

#ifdef __cplusplus
}
#endif

#endif
