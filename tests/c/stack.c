/*
 * What a call costs: the stack that it touches, and the instructions that it executes.
 *
 *     stack                   a line for each exported call: its name, and the bytes below the caller's frame that its
 *                             worst case here writes: arguments on the stack, return address, its own frames and its
 *                             red zone
 *     stack CASE SIZE call    makes that case of that size ready and makes the call: for a counter of instructions
 *     stack CASE SIZE none    the same without the call; the difference is the call's own, and its caller's for passing
 *                             the arguments
 *
 * Each call is made on a stack of its own that was painted before. memcpy and memset are byte loops of this file if
 * BYTE_LOOPS is defined, so that the stack is the library's alone; else the C library's.
 */
#include "skid.h"
#include <stdio.h>
#include <stdlib.h>
#include <string.h>

enum { HELD = 64, LOOSE = 200, STACK = 1 << 16, PAINT = 0xa5, BOOT = 5 };

#ifdef BYTE_LOOPS
/* Else the compiler makes a call of memset out of memset's own loop. */
#define AS_WRITTEN __attribute__((optimize("no-tree-loop-distribute-patterns", "no-tree-vectorize")))

AS_WRITTEN void *memset(void *to, int byte, size_t count)
{
    unsigned char *at = to;
    while (count-- > 0)
        *at++ = (unsigned char)byte;
    return to;
}

AS_WRITTEN void *memcpy(void *restrict to, const void *restrict from, size_t count)
{
    unsigned char *at = to;
    const unsigned char *source = from;
    while (count-- > 0)
        *at++ = *source++;
    return to;
}
#endif

/* ---- what is lent */

static uint32_t headers, buckets, next, slots;
static uint32_t table[3 * SKID_MAX_CELLS], registry[SKID_MAX_BINDINGS], script[3 * SKID_MAX_STEPS];
static uint32_t held[3 * HELD], keys[2 * HELD], grants[3 * HELD], report[SKID_MAX_REPORT], list[SKID_MAX_CELLS];
static uint32_t counts[SKID_MAX_MEMBERS], cells[SKID_MAX_CREW_CELLS], turns[SKID_MAX_TURNS];
static uint16_t counters[SKID_MAX_CELLS];
static uint8_t health[SKID_MAX_HEADERS], book[SKID_MAX_BOOK], text[SKID_MAX_DUMP];
static size_t table_len, script_len, held_len, keys_len, leases_len, book_len, text_len;
static uint32_t cell, serial, binding, bucket, slot;
static uint64_t reply[SKID_CREW_WORDS];

/* ---- the calls, each from a frame of its own with nothing in it */

static const char *frame;
#define HERE (frame = __builtin_frame_address(0))
#define THE_HEAD headers, buckets, next, BOOT
#define THE_TABLE table, table_len
#define THE_HEALTH health, headers
#define THE_SCRIPT script, script_len, 0
#define THE_HELD held, held_len
#define THE_LEASE cell, serial, BOOT
#define THE_KEY binding, bucket
#define THE_REGISTRY registry, SKID_MAX_BINDINGS
#define THE_KEYS THE_REGISTRY, THE_SCRIPT, THE_HELD, keys, keys_len, grants, 3 * (keys_len / 2)
#define THE_CREW counts, SKID_MAX_MEMBERS, cells, SKID_MAX_CREW_CELLS, turns, SKID_MAX_TURNS
#define CALL(name, ...)                                                                                                \
    static void name(void)                                                                                             \
    {                                                                                                                  \
        HERE;                                                                                                          \
        skid_##name(__VA_ARGS__, reply);                                                                               \
    }

CALL(prepare, headers, buckets, 1, BOOT, THE_TABLE, THE_HEALTH)
CALL(salvage, THE_HEAD, THE_TABLE, THE_HEALTH, report, SKID_MAX_REPORT, list, SKID_MAX_CELLS)
CALL(try_acquire, THE_HEAD, THE_TABLE, cell)
CALL(drop_lease, THE_HEAD, THE_TABLE, THE_LEASE)
CALL(read_permission, THE_HEAD, THE_TABLE, THE_LEASE)
CALL(competing_acquire_is_excluded, THE_HEAD, THE_TABLE, THE_LEASE)
CALL(release_then_handoff, THE_HEAD, THE_TABLE, THE_LEASE)
CALL(foreign_release_between_attempts, THE_HEAD, THE_TABLE, THE_HELD, THE_LEASE)
CALL(acquire_preserving_borrows, THE_HEAD, THE_TABLE, THE_HELD, cell)
CALL(drop_preserving_borrows, THE_HEAD, THE_TABLE, THE_HELD, THE_LEASE)
CALL(environment, THE_HEAD, THE_TABLE, THE_HEALTH, THE_SCRIPT, THE_HELD)
CALL(environment_for_borrows, THE_HEAD, THE_TABLE, THE_HEALTH, THE_SCRIPT, THE_HELD)
CALL(try_lock, THE_HEAD, THE_TABLE, THE_HEALTH, THE_SCRIPT, THE_HELD, cell)
CALL(other_mutex_preserves_leases, THE_HEAD, THE_TABLE, THE_HEALTH, THE_SCRIPT, THE_HELD, cell)
CALL(transactional_try_lock_bucket, THE_HEAD, THE_TABLE, THE_HEALTH, THE_REGISTRY, THE_SCRIPT, THE_HELD, THE_KEY)
CALL(acquire_index_bucket, THE_HEAD, THE_TABLE, THE_HEALTH, THE_REGISTRY, THE_SCRIPT, THE_HELD, THE_KEY)
CALL(release_all, THE_HEAD, THE_TABLE, THE_HEALTH, THE_SCRIPT, held, leases_len)
CALL(acquire_index_locks, THE_HEAD, THE_TABLE, THE_HEALTH, THE_KEYS)
CALL(acquire_sorted_locks, THE_HEAD, THE_TABLE, THE_HEALTH, THE_KEYS)
CALL(crew, THE_HEAD, THE_TABLE, THE_HEALTH, THE_CREW)
CALL(crew_at_work, THE_HEAD, THE_TABLE, THE_HEALTH, THE_CREW, counters, (size_t)headers *buckets)
CALL(prepare_book, THE_HEAD, book, book_len)
CALL(write_pressure, THE_HEAD, THE_TABLE, book, book_len, slot, THE_LEASE, 0x3fc00000u)
CALL(write_speed, THE_HEAD, THE_TABLE, book, book_len, slot, THE_LEASE, 1500)
CALL(write_valve, THE_HEAD, THE_TABLE, book, book_len, slot, THE_LEASE, true)
CALL(read_setpoint, THE_HEAD, book, book_len, slot)
CALL(read_version, THE_HEAD, book, book_len, slot, 1)
CALL(write_dump, SKID_MAX_WAVE_CELLS, script, script_len, text, sizeof text)
CALL(read_dump, text, text_len, script, 3 * SKID_MAX_STEPS)

/* ---- what is made ready */

static void need(bool fine, const char *what)
{
    if (fine)
        return;
    fprintf(stderr, "stack: %s\n", what);
    exit(1);
}

static uint32_t taken(uint32_t wanted)
{
    skid_try_acquire(THE_HEAD, THE_TABLE, wanted, reply);
    need(reply[SKID_KIND] == SKID_GRANTED, "a cell that should be free is not");
    next = (uint32_t)reply[SKID_NEXT];
    return (uint32_t)reply[SKID_SERIAL];
}

/* An arena of h times b cells, no list, no script, every binding its own header. */
static void arena(uint32_t h, uint32_t b)
{
    uint32_t i;
    headers = h;
    buckets = b;
    next = 1;
    table_len = (size_t)3 * h * b;
    script_len = held_len = keys_len = leases_len = book_len = 0;
    for (i = 0; i < SKID_MAX_BINDINGS; i++)
        registry[i] = i;
    skid_prepare(h, b, 1, BOOT, THE_TABLE, THE_HEALTH, reply);
    need(reply[SKID_KIND] == SKID_DONE, "the arena was not prepared");
}

/* The first `count` cells taken, as a list. */
static void hold(uint32_t count)
{
    uint32_t i;
    for (i = 0; i < count; i++) {
        held[3 * i] = i;
        held[3 * i + 1] = taken(i);
        held[3 * i + 2] = BOOT;
    }
    held_len = leases_len = (size_t)3 * count;
}

/* The last cells as keys, falling. */
static void ask(uint32_t count)
{
    uint32_t i;
    for (i = 0; i < count; i++) {
        keys[2 * i] = headers - 1 - i / buckets;
        keys[2 * i + 1] = buckets - 1 - i % buckets;
    }
    keys_len = (size_t)2 * count;
}

/* Steps of every kind over the arena, releases of held leases among them. */
static void write_script(uint32_t steps)
{
    uint32_t i, kind, seed = 1;
    for (i = 0; i < steps; i++) {
        seed = seed * 1103515245u + 12345u;
        kind = (seed >> 16) % 6;
        script[3 * i] = kind;
        script[3 * i + 1] = i % 1000;
        if (kind == SKID_STEP_HEALTH)
            script[3 * i + 1] = 60 + i % 4;
        if (kind == SKID_STEP_WAITERS)
            script[3 * i + 1] = 3000 + i % 64;
        script[3 * i + 2] = kind == SKID_STEP_RELEASE ? i % 128 : i % 2;
    }
    script_len = (size_t)3 * steps;
}

/* A book with four versions in each slot, the last of them by `cell`, and room for `room` bytes more. */
static void fill_book(uint32_t count, size_t room)
{
    uint32_t round;
    slots = count;
    book_len = (size_t)SKID_ROOMY_BYTES * count + room;
    skid_prepare_book(THE_HEAD, book, book_len, reply);
    need(reply[SKID_BOOK_KIND] == SKID_BOOK_DONE, "the book was not prepared");
    for (round = 0; round < 4; round++)
        for (slot = 0; slot < count; slot++) {
            skid_write_speed(THE_HEAD, THE_TABLE, book, book_len, slot, slot, held[3 * slot + 1], BOOT, 1000, reply);
            need(reply[SKID_BOOK_KIND] == SKID_BOOK_WRITTEN, "a setting was not written");
        }
}

static void make_crew(void)
{
    uint32_t i;
    for (i = 0; i < SKID_MAX_MEMBERS; i++)
        counts[i] = 16;
    for (i = 0; i < SKID_MAX_CREW_CELLS; i++)
        cells[i] = 1000 + i % 16;
    for (i = 0; i < SKID_MAX_TURNS; i++)
        turns[i] = i % SKID_MAX_MEMBERS;
}

/* Every word and byte of the arena that can be changed by a salvage is one that will be. */
static void dip(void)
{
    size_t i;
    for (i = 0; i < table_len; i++)
        table[i] = 0x80000000u + (uint32_t)i;
    for (i = 0; i < headers; i++)
        health[i] = 7;
}

/* ---- the stack */

static char stack[STACK] __attribute__((aligned(16)));

static void on_painted_stack(void (*call)(void))
{
    memset(stack, PAINT, sizeof stack);
    __asm__ volatile("movq %%rsp, %%rbx\n\tmovq %0, %%rsp\n\tcall *%1\n\tmovq %%rbx, %%rsp"
                     :
                     : "r"(stack + sizeof stack), "r"(call)
                     : "rax", "rbx", "rcx", "rdx", "rsi", "rdi", "r8", "r9", "r10", "r11", "memory", "cc", "xmm0",
                       "xmm1", "xmm2", "xmm3", "xmm4", "xmm5", "xmm6", "xmm7", "xmm8", "xmm9", "xmm10", "xmm11",
                       "xmm12", "xmm13", "xmm14", "xmm15");
}

static size_t touched(void (*call)(void))
{
    const char *low = stack;
    on_painted_stack(call);
    while (*low == (char)PAINT)
        low++;
    need(low > stack, "the painted stack is too short");
    return (size_t)(frame - low);
}

/*
 * Sixteen arenas for each call, the largest there is: with and without 64 leases held, a script of 32,768 steps, a cell
 * that is held already, and what its call itself cannot grant: a poisoned header.
 */
static void make_ready(unsigned variant)
{
    arena(64, 64);
    hold(HELD);
    cell = LOOSE;
    binding = LOOSE / 64;
    bucket = LOOSE % 64;
    serial = variant & 1 ? taken(LOOSE) : held[3 * (HELD - 1) + 1];
    if (!(variant & 1) && !(variant & 4))
        cell = HELD - 1;
    fill_book(SKID_MAX_SLOTS, 0);
    slot = HELD - 1;
    if (!(variant & 2))
        held_len = 0;
    if (variant & 4)
        write_script(SKID_MAX_STEPS);
    ask(variant & 2 ? 0 : HELD);
    if (variant & 8)
        health[binding] = health[keys[0]] = 1;
    make_crew();
    if (variant & 8)
        dip();
}

static size_t worst(void (*call)(void), unsigned variants, void (*change)(void))
{
    size_t most = 0, now;
    unsigned variant;
    for (variant = 0; variant < variants; variant++) {
        make_ready(variant);
        if (change)
            change();
        now = touched(call);
        most = now > most ? now : most;
    }
    return most;
}

/* The lease of a write is on the slot's own cell; the book has no room, so that all slide. */
static void own_slot(void)
{
    cell = slot;
    serial = held[3 * slot + 1];
}

static void a_dump(void)
{
    if (!script_len)
        write_script(SKID_MAX_STEPS);
    skid_write_dump(SKID_MAX_WAVE_CELLS, script, script_len, text, sizeof text, reply);
    need(reply[SKID_WAVE_KIND] == SKID_WAVE_DONE, "no dump was written");
    text_len = (size_t)reply[SKID_WAVE_SIZE];
}

/* Half the room for held leases, half for keys; and all of it for keys, which stays as it is. */
static void half_and_half(void)
{
    if (held_len) {
        held_len = 3 * HELD / 2;
        ask(HELD / 2);
    }
}

static const struct {
    const char *name;
    void (*call)(void);
    void (*change)(void);
} calls[] = {
#define ROW(name, change) {"skid_" #name, name, change}
    ROW(acquire_index_bucket, NULL),
    ROW(acquire_index_locks, half_and_half),
    ROW(acquire_preserving_borrows, NULL),
    ROW(acquire_sorted_locks, half_and_half),
    ROW(competing_acquire_is_excluded, NULL),
    ROW(crew, NULL),
    ROW(crew_at_work, NULL),
    ROW(drop_lease, NULL),
    ROW(drop_preserving_borrows, NULL),
    ROW(environment, NULL),
    ROW(environment_for_borrows, NULL),
    ROW(foreign_release_between_attempts, NULL),
    ROW(other_mutex_preserves_leases, NULL),
    ROW(prepare, NULL),
    ROW(prepare_book, NULL),
    ROW(read_dump, a_dump),
    ROW(read_permission, NULL),
    ROW(read_setpoint, NULL),
    ROW(read_version, NULL),
    ROW(release_all, NULL),
    ROW(release_then_handoff, NULL),
    ROW(salvage, NULL),
    ROW(transactional_try_lock_bucket, NULL),
    ROW(try_acquire, NULL),
    ROW(try_lock, NULL),
    ROW(write_dump, NULL),
    ROW(write_pressure, own_slot),
    ROW(write_speed, own_slot),
    ROW(write_valve, own_slot),
};

/* ---- the instructions: cases as a kernel has them, without script and held list */

static void by_keys(uint32_t size)
{
    arena(64, 64);
    ask(size);
}

/* The same, and the last cell to be taken is of a poisoned header: all that was taken is given back. */
static void by_keys_in_vain(uint32_t size)
{
    uint32_t i;
    by_keys(size);
    for (i = 0; i < size; i++)
        keys[2 * i] = 62;
    keys[0] = 63;
    health[63] = 1;
}

/*
 * One bucket of each header: cells 64 apart share their marks in the sorted call, so that all are looked at. They fall
 * but for the last two, so that the whole list is looked at and then sorted.
 */
static void by_far_keys(uint32_t size)
{
    uint32_t i;
    arena(64, 64);
    for (i = 0; i < size; i++) {
        keys[2 * i] = 63 - i;
        keys[2 * i + 1] = 0;
    }
    if (size > 2) {
        keys[2 * size - 4] = 64 - size;
        keys[2 * size - 2] = 65 - size;
    }
    keys_len = (size_t)2 * size;
}

static void by_far_keys_in_vain(uint32_t size)
{
    by_far_keys(size);
    health[63] = 1;
}

/* In the order given the poisoned one comes last. */
static void by_rising_keys_in_vain(uint32_t size)
{
    by_keys_in_vain(size);
    keys[0] = 62;
    keys[2 * size - 2] = 63;
}

/* Of sixteen cells 251 apart, their neighbours, and so on: leases that share their marks, so that all are looked at. */
static void by_leases(uint32_t size)
{
    uint32_t i;
    arena(64, 64);
    for (i = 0; i < size; i++) {
        held[3 * i] = i % 16 * 251 + i / 16;
        held[3 * i + 1] = taken(held[3 * i]);
        held[3 * i + 2] = BOOT;
    }
    leases_len = (size_t)3 * size;
}

static void one_cell(uint32_t is_held)
{
    arena(64, 64);
    cell = LOOSE;
    binding = LOOSE / 64;
    bucket = LOOSE % 64;
    if (is_held)
        serial = taken(LOOSE);
}

static void one_step(uint32_t size)
{
    arena(64, 64);
    script[0] = SKID_STEP_WAITERS;
    script[1] = LOOSE;
    script[2] = size;
    script_len = 3;
}

static void large(uint32_t size)
{
    arena(64, size / 64);
}

static void dipped(uint32_t size)
{
    large(size);
    dip();
}

/* No room for one body more: all slide. */
static void full(uint32_t size)
{
    arena(1, size);
    hold(size);
    fill_book(size, 0);
    slot = size - 1;
    own_slot();
}

/* Room for one. */
static void roomy(uint32_t size)
{
    arena(1, size);
    hold(size);
    fill_book(size, 5);
    slot = size - 1;
    own_slot();
}

/* A book of 64 slots and `size` bytes, written round and round up to its end: the next write slides. */
static void long_book(uint32_t size)
{
    size_t left = (size - SKID_SLOT_BYTES * SKID_MAX_SLOTS) / 5;
    full(SKID_MAX_SLOTS);
    book_len = size;
    skid_prepare_book(THE_HEAD, book, book_len, reply);
    for (slot = 0; left > 0; left--, slot = (slot + 1) % SKID_MAX_SLOTS)
        skid_write_speed(THE_HEAD, THE_TABLE, book, book_len, slot, slot, held[3 * slot + 1], BOOT, 1000, reply);
    need(reply[SKID_BOOK_KIND] == SKID_BOOK_WRITTEN && reply[SKID_BOOK_MOVED] == 0, "the book slid too early");
    own_slot();
}

static const struct {
    const char *name;
    void (*ready)(uint32_t size);
    void (*call)(void);
    uint64_t answer; /* the kind that the reply must have */
    unsigned at;     /* and its place in the reply */
} cases[] = {
    {"take", one_cell, transactional_try_lock_bucket, SKID_GRANTED, SKID_KIND},
    {"take_busy", one_cell, transactional_try_lock_bucket, SKID_BUSY, SKID_KIND},
    {"take_cell", one_cell, try_lock, SKID_GRANTED, SKID_KIND},
    {"give", one_cell, drop_lease, SKID_DONE, SKID_KIND},
    {"is_mine", one_cell, read_permission, SKID_A_CELL, SKID_KIND},
    {"set", one_step, environment, SKID_DONE, SKID_KIND},
    {"take_all", by_far_keys, acquire_sorted_locks, SKID_ALL_GRANTED, SKID_KIND},
    {"take_all_in_vain", by_far_keys_in_vain, acquire_sorted_locks, SKID_REFUSED_AT, SKID_KIND},
    {"take_in_order_in_vain", by_rising_keys_in_vain, acquire_index_locks, SKID_REFUSED_AT, SKID_KIND},
    {"take_in_order", by_keys, acquire_index_locks, SKID_ALL_GRANTED, SKID_KIND},
    {"give_all", by_leases, release_all, SKID_DONE, SKID_KIND},
    {"open", large, prepare, SKID_DONE, SKID_KIND},
    {"mend", dipped, salvage, SKID_DONE, SKID_SALVAGE_KIND},
    {"book_open", roomy, prepare_book, SKID_BOOK_DONE, SKID_BOOK_KIND},
    {"write", roomy, write_speed, SKID_BOOK_WRITTEN, SKID_BOOK_KIND},
    {"write_slide", full, write_speed, SKID_BOOK_WRITTEN, SKID_BOOK_KIND},
    {"write_long", long_book, write_speed, SKID_BOOK_WRITTEN, SKID_BOOK_KIND},
    {"read", full, read_setpoint, SKID_BOOK_SETTING, SKID_BOOK_KIND},
};

static int count_case(const char *name, uint32_t size, bool none)
{
    size_t i;
    for (i = 0; i < sizeof cases / sizeof *cases; i++) {
        if (strcmp(cases[i].name, name) != 0)
            continue;
        cases[i].ready(size);
        memset(reply, 0xff, sizeof reply);
        if (none)
            reply[cases[i].at] = cases[i].answer;
        else
            cases[i].call();
        need(reply[cases[i].at] == cases[i].answer, "the case was answered otherwise");
        return 0;
    }
    need(false, "there is no such case");
    return 1;
}

int main(int count, char **words)
{
    size_t i;
    if (count == 4)
        return count_case(words[1], (uint32_t)strtoul(words[2], NULL, 10), strcmp(words[3], "none") == 0);
    for (i = 0; i < sizeof calls / sizeof *calls; i++)
        printf("%s %zu\n", calls[i].name, worst(calls[i].call, 16, calls[i].change));
    return 0;
}
