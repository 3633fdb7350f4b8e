/*
 * A skid in a box: a governor, a panel and a logger share motors and valves. Their programs, what happens to them, a
 * referee, and the counts at the end. With -DBELIEVING the calls are those of believing.h, under the same names.
 */
#include "demo.h"

enum { BUCKETS = 4, CELLS = 8, VALVES = 1, FIRST_VALVE = 4 }; /* header 0 has four motors, header 1 four valves */
SKID_MEMORY(plant_memory, headers(2), buckets(4));
static struct plant_memory memory;
SKID_ARENA(plant, memory, registry(0, 1));
SKID_REPORT(report, memory);
SKID_BOOK_MEMORY(pages_memory, slots(8));
static struct pages_memory pages;
SKID_BOOK(book, pages);
static const char *const name[TASKS] = {"governor", "panel", "logger"};
static const char *const unit[CELLS] = {"the main pump",   "the spare pump",   "the fan",          "the chart drive",
                                        "the inlet valve", "the outlet valve", "the bypass valve", "the drain valve"};

#ifdef BELIEVING
#include "believing.h"
#else
/* Whether a cell is a task's own when power comes: no, for nothing was granted since. */
static bool is_still_mine(uint32_t me, uint32_t cell) { return (void)me, (void)cell, false; }

/*
 * A take during which somebody else does something: after the cell has been taken, before the library looks again.
 * Nobody can act inside a call of skid_arena.h, since there is one caller at a time. It happens where a hand wheel or a
 * sensor sets waiters and health by itself; the library then gives the cell back. Here a script stands for it, which
 * only the call of skid.h takes: two empty boundaries, then the step. All else is the arena's own.
 */
static struct skid_result take_meanwhile(struct skid_key key, uint32_t kind, uint32_t place, struct skid_lease *lease)
{
    const uint32_t script[9] = {SKID_STEP_END, 0, 0, SKID_STEP_END, 0, 0, kind, place, 1};
    uint64_t reply[SKID_REPLY_WORDS];
    skid_transactional_try_lock_bucket(SKID_THE_HEAD(&plant), SKID_THE_TABLE(&plant), SKID_THE_HEALTH(&plant),
                                       plant.registry, plant.bindings, script, 9, 0, NULL, 0, key.binding, key.bucket,
                                       reply);
    return skid_kept_lease(&plant, reply, lease);
}
#endif
/*
 * ---- paper: memory with a battery, which no power cut reaches; the emulator keeps it in a file. The boot number and
 * the last head are there as docs/INTEGRATION.md asks: two copies, each with a check sum and a running number. They are
 * written in turn; of those that are right the newer counts.
 */
static struct paper { uint64_t running_number; uint32_t boot; struct skid_head head; uint32_t sum; } paper;
static struct { struct paper copy[2]; struct skid_lease panels_note; } *const battery = (void *)0x100000000;

static uint32_t sum_of(const struct paper *p)
{
    const uint8_t *byte = (const uint8_t *)p;
    uint32_t sum = 2166136261u;
    while (byte < (const uint8_t *)&p->sum) sum = (sum ^ *byte++) * 16777619u;
    return sum;
}
static void write_paper(void)
{
    paper.running_number++;
    paper.sum = sum_of(&paper);
    battery->copy[paper.running_number % 2] = paper;
}
static bool read_paper(void)
{
    bool right[2], newer;
    uint32_t i;
    for (i = 0; i < 2; i++) {
        right[i] = battery->copy[i].sum == sum_of(&battery->copy[i]);
        if (!right[i]) say("Copy %u of the boot number is not right.", i);
    }
    newer = right[1] && (!right[0] || battery->copy[1].running_number > battery->copy[0].running_number);
    paper = battery->copy[newer];
    return right[newer];
}
/* A head that has changed is on paper before anybody acts by the lease. */
static struct skid_result on_paper(struct skid_result r)
{
    if (plant.head.next == paper.head.next && plant.head.boot == paper.head.boot) return r;
    paper.head = plant.head;
    write_paper();
    return r;
}

/* ---- the referee: it goes by the answers alone and reads no memory of the plant */
static struct skid_lease note[TASKS][CELLS]; /* the tasks' own notes: what they have; a serial of 0 is no lease */
static bool working[TASKS], resting[TASKS], closing, good = true;
static uint32_t holder[CELLS]; /* who was last granted the cell and has not given it back; TASKS for nobody */
static uint32_t wrote[CELLS];  /* a bit for each task that has set it and still has it */
static uint32_t written[CELLS], value[CELLS]; /* settings accepted, and the last of them */
static uint32_t turns, grants, busy[4], poisoned, late_poisoned, stale, ungranted;
static uint32_t late_kind, late_cell; /* a step that comes during a take, and which cell was taken then */
static void is_free(uint32_t cell) { holder[cell] = TASKS, wrote[cell] = 0; }
static uint32_t held_bits(void)
{
    uint32_t c, n = 0;
    for (c = 0; c < CELLS; c++) n += memory.table[3 * c] != 0;
    return n;
}

/* ---- the waveform: a step for each bit that a turn has changed, or one step if it has changed none */
static uint32_t history[4096][3], steps;
static void draw(void)
{
    static bool drawn[CELLS];
    uint32_t c, before = steps;
    for (c = 0; c < CELLS && steps < 4096; c++) {
        if ((memory.table[3 * c] != 0) == drawn[c]) continue;
        drawn[c] = !drawn[c];
        history[steps][0] = drawn[c] ? SKID_STEP_TAKE : SKID_STEP_RELEASE;
        history[steps++][1] = c;
    }
    if (steps == before && steps < 4096) steps++; /* of kind 0: it only counts */
}
static _Noreturn void finish(uint32_t code, const char *sentence)
{
    static uint8_t text[65536];
    uint64_t reply[SKID_WAVE_WORDS];
    skid_write_dump(CELLS, history[0], 3 * steps, text, sizeof text, reply);
    if (reply[SKID_WAVE_KIND] == SKID_WAVE_DONE) send_wave(text, reply[SKID_WAVE_SIZE]);
    say(sentence);
    stop(code);
}

/* ---- what a task does. It is on turn; next_turn() gives the turn to one by chance, and waits until it is back. */
static uint32_t left; /* turns until the story goes on */
static void next_turn(uint32_t me)
{
    draw();
    turns++;
    on_turn = --left ? chance(TASKS) : (uint32_t)STORY;
    await_turn(me);
}
static const char *const why_busy[4] = { /* by enum skid_reason */
    "", "The %s wants %s: Busy, held by serial %u. It comes back later.",
    "The %s wants %s: Busy, somebody waits for it. It comes back later.",
    "The %s takes %s, and just then somebody comes to wait for it: Busy, serial %u is spent. It comes back later."};
/* Asks once. Why it is Busy it says when it has not just said so. */
static struct skid_result ask(uint32_t me, uint32_t cell, uint32_t told)
{
    const struct skid_key key = {cell / BUCKETS, cell % BUCKETS};
    struct skid_lease l;
    uint32_t place = late_kind == SKID_STEP_WAITERS ? cell : key.binding;
    struct skid_result r = late_kind ? take_meanwhile(key, late_kind, place, &l) : skid_take(&plant, key, &l);
    bool late = r.code == SKID_TRY_AGAIN ? r.reason == SKID_REASON_AFTER : r.code && late_kind == SKID_STEP_HEALTH;
    on_paper(r);
    if (late) late_kind = 0, late_cell = cell;
    if (r.code == SKID_OK) {
        grants++, note[me][cell] = l, holder[cell] = me;
        say("The %s takes %s (serial %u).", name[me], unit[cell], l.serial);
    } else if (r.code == SKID_TRY_AGAIN) {
        busy[r.reason]++;
        if (r.reason != told) say(why_busy[r.reason], name[me], unit[cell], r.reason_serial);
    } else {
        late_poisoned += late, poisoned += !late;
        say(late ? "The %s takes %s, and just then its header goes bad: refused by %u, %s, and a serial is spent."
                 : "The %s wants %s: refused by %u, %s. It gives back what it has.",
            name[me], unit[cell], r.code, skid_code_text(r.code));
    }
    return r;
}
static bool take(uint32_t me, uint32_t cell)
{
    struct skid_result r = {SKID_TRY_AGAIN, 0, 0, 0, 0};
    while (r.code == SKID_TRY_AGAIN) {
        r = ask(me, cell, r.reason);
        next_turn(me);
    }
    return r.code == SKID_OK;
}

/* Two that have a cell and have both set it; or one to whom it was not granted. */
static void judge(uint32_t me, uint32_t cell)
{
    uint32_t t;
    wrote[cell] |= 1u << me;
    for (t = 0; t < TASKS && (t == me || !(wrote[cell] >> t & 1)); t++) {}
    if (t < TASKS)
        say("*** TWO WRITERS: the %s and the %s both have %s, and both have set it.", name[t], name[me], unit[cell]);
    if (t < TASKS && cell >= FIRST_VALVE) finish(TWO_WRITERS, "Two writers on one valve.");
    if (holder[cell] == me) return;
    ungranted++;
    say("*** A WRITER WITHOUT A GRANT: the %s has set %s.", name[me], unit[cell]);
}
/* A lease that is refused is no lease any more. */
static void lose(uint32_t me, const char *does, uint32_t cell, struct skid_result r)
{
    stale += r.code == SKID_STALE_BOOT;
    say("The %s %s %s by serial %u of boot %u: refused by %u, %s.", name[me], does, unit[cell], note[me][cell].serial,
        note[me][cell].boot, r.code, skid_code_text(r.code));
    note[me][cell].serial = 0;
}
static void set(uint32_t me, uint32_t c)
{
    uint32_t v = c < FIRST_VALVE ? 600 + 10 * chance(90) : chance(2);
    struct skid_written w;
    struct skid_result r = c < FIRST_VALVE ? skid_set_speed(&plant, &book, note[me][c], v, &w)
                                           : skid_set_valve(&plant, &book, note[me][c], v, &w);
    if (r.code) {
        lose(me, "sets", c, r);
        return;
    }
    written[c]++, value[c] = v;
    if (c < FIRST_VALVE) say("The %s sets %s to %u turns a minute (version %u).", name[me], unit[c], v, w.version);
    else say("The %s sets %s %s (version %u).", name[me], unit[c], v ? "open" : "shut", w.version);
    judge(me, c);
}
static void give(uint32_t me, uint32_t c)
{
    struct skid_result r = skid_give(&plant, note[me][c]);
    wrote[c] &= ~(1u << me);
    if (r.code) lose(me, "releases", c, r);
    else say("The %s releases %s.", name[me], unit[c]);
    if (!r.code && holder[c] == me) is_free(c);
    note[me][c].serial = 0;
}

/* Works with all that it wanted, sets it, and in any case gives back what it has: a turn each. */
static void work(uint32_t me, bool has_all)
{
    uint32_t n = has_all ? 2 + chance(4) : 0;
    for (working[me] = has_all; n; n--) next_turn(me);
    for (n = 0; has_all && n < CELLS; n++)
        if (note[me][n].serial) set(me, n), next_turn(me);
    working[me] = false;
    for (n = 0; n < CELLS; n++)
        if (note[me][n].serial) give(me, n), next_turn(me);
}

/* A task's first turn. The panel has its own note of the lease that it had when the power was cut. */
static void come_back(uint32_t me)
{
    const struct skid_lease old = battery->panels_note;
    uint32_t c, has = 0;
    if (me == PANEL && old.serial) {
        note[me][old.cell] = old, has++;
        say("The panel still has its lease on %s, serial %u of boot %u, and goes on by it.", unit[old.cell], old.serial,
            old.boot);
    }
    for (c = 0; c < CELLS; c++) {
        if (!is_still_mine(me, c)) continue;
        note[me][c] = (struct skid_lease){c, me + 1, 0}, has++;
        say("The %s finds its name on %s and goes on there.", name[me], unit[c]);
    }
    if (has) work(me, true);
}

static void program(uint32_t me)
{
    static const uint32_t wants[TASKS][4] = {{0, 4, 5, 6}, {1, 4, 5, 7}, {3, 5, 6, 7}};
    uint32_t n, i;
    await_turn(me);
    for (n = chance(10); n; n--) next_turn(me);
    come_back(me);
    for (;;) {
        resting[me] = true;
        for (n = 1 + chance(3); n || closing; n -= !closing) next_turn(me);
        resting[me] = false;
        i = chance(4); /* one or two neighbours of its row, in rising order: so nobody waits in a circle */
        n = i < 3 ? chance(2) : 0;
        work(me, take(me, wants[me][i]) && (n == 0 || take(me, wants[me][i + 1])));
    }
}

/* ---- what happens to them */
static void run(uint32_t n)
{
    left = n;
    on_turn = chance(TASKS);
    await_turn(STORY);
}
static void run_until(const uint32_t *count, const char *then)
{
    uint32_t before = *count, n;
    for (n = 0; n < 300 && *count == before; n++) run(1);
    say(then);
}
static uint32_t panels_valve(void) /* that it is at work with; CELLS if there is none */
{
    uint32_t c = FIRST_VALVE;
    while (c < CELLS && !(working[PANEL] && note[PANEL][c].serial)) c++;
    return c;
}

/* Words that pass for cells, held or waited for, and bytes that pass for a book with a setting of each slot. */
static void rubbish(void)
{
    uint32_t c, at;
    for (c = 0; c < CELLS; c++) {
        uint8_t *line = pages.bytes + SKID_SLOT_BYTES * c; /* the place of the body, its length 5, version 1 */
        at = SKID_SLOT_BYTES * CELLS + 5 * c;
        line[0] = (uint8_t)at, line[1] = (uint8_t)(at >> 8), line[2] = 5, line[4] = 1;
        pages.bytes[at] = c < FIRST_VALVE ? SKID_SPEED : SKID_VALVE, pages.bytes[at + 1] = (uint8_t)chance(2);
        memory.table[3 * c] = chance(4) == 0;
        memory.table[3 * c + 1] = chance(2) ? 0 : 1 + chance(6);
        memory.table[3 * c + 2] = chance(16) == 0;
        memory.health[c / BUCKETS] = chance(16) == 0;
    }
    say("Power comes. The memory is rubbish: of %u cells %u pass for held, all setpoints for set.", CELLS, held_bits());
}
static void cold_start(bool is_new)
{
    struct skid_setting s;
    uint32_t c, set_ones = 0;
    if ((!is_new && !read_paper()) || paper.boot == 4294967295u) {
        say("The boot number is not known, or was the last. The kernel does not guess, and stops.");
        stop(NO_NUMBER);
    }
    paper.boot++; /* on paper first, then used */
    write_paper();
    say("The boot number on paper is raised to %u%s.", paper.boot, is_new ? ", the first of a new skid" : "");
    if (on_paper(skid_open(&plant, paper.boot)).code || skid_book_open(&plant, &book).code) stop(WRONG);
    for (c = 0; c < CELLS; c++) set_ones += skid_book_read(&plant, &book, c, &s).code == SKID_OK;
    say("The arena and the book are opened. Cells held now: %u, setpoints set: %u.", held_bits(), set_ones);
}

/* A cell that the salvage left held is confirmed by the task that has it in its notes, or given back. */
static bool is_confirmed(uint32_t c)
{
    struct skid_lease l = skid_left_lease(&plant, c);
    uint32_t t = 0;
    while (t < TASKS && (note[t][c].serial != l.serial || note[t][c].boot != l.boot)) t++;
    if (t < TASKS) say("  Left held: %s, by serial %u. The %s confirms it.", unit[c], l.serial, name[t]);
    else say("  Left held: %s, by serial %u. Nobody has that lease, so it is given back.", unit[c], l.serial);
    return t < TASKS || skid_give(&plant, l).code;
}
static void mend(void)
{
    static const char *const word[3] = {"bit", "owner", "waiters"};
    uint32_t i, stay = 0; /* a bit for each cell that stays held */
    if (!read_paper()) stop(NO_NUMBER);
    say("The head in memory says next serial %u, the one on paper %u.", plant.head.next, paper.head.next);
    if (skid_mend(&plant, paper.head, &report).code != SKID_OK) {
        say("Nothing is mended: the lock believes what the dip left.");
        return;
    }
    for (i = 0; i < report.changed; i++) {
        const struct skid_change *c = report.changes + i; /* no health byte: the dip has hit none */
        say("  Mended: %s, %s: was %u, is %u.", unit[c->place / 3], word[c->place % 3], c->was, c->now);
    }
    for (i = 0; i < report.held; i++) stay |= (uint32_t)is_confirmed(report.cells[i]) << report.cells[i];
    for (i = 0; i < CELLS; i++)
        if (!(stay >> i & 1)) is_free(i);
}
static void dip(void)
{
    uint32_t n = 4 + chance(4), i;
    say("-- The power dips, and %u bits of the table flip.", n);
    for (i = 0; i < n; i++) {
        uint32_t c = chance(CELLS), word = chance(3);
        memory.table[3 * c + word] ^= 1u << (word == 0 ? 0 : chance(6));
    }
    plant.head.next ^= 0x1010; /* the head in memory is not spared */
    draw();
    mend();
    plant.head = paper.head;
}

/* ---- what the theorems promise, as numbers */
static void check(const char *what, const char *of, uint32_t is, uint32_t should)
{
    say("  %s%s: %u, should be %u: %s", what, of, is, should, is == should ? "right." : "WRONG.");
    good = good && is == should;
}
static void check_some(const char *what, uint32_t is)
{
    say("  %s: %s", what, is ? "at least one, right." : "none, WRONG.");
    good = good && is;
}
static void count(void)
{
    uint32_t c, granted = 0, wrong = 0;
    struct skid_setting s;
    for (c = 0; c < CELLS; c++) granted += holder[c] < TASKS;
    say("-- The kernel counts, after %u turns.", turns);
    check("Serials spent ", "(grants, and what was given up late)", plant.head.next - 1,
          grants + busy[SKID_REASON_AFTER] + late_poisoned);
    check("Cells held ", "(granted and not given back)", held_bits(), granted);
    for (c = 0; c < CELLS; c++) {
        skid_book_read(&plant, &book, c, &s);
        check("Version of ", unit[c], s.version, written[c]);
        wrong += s.bits != value[c];
    }
    check("Settings that read other than they were set", "", wrong, 0);
    check("Writers without a grant", "", ungranted, 0);
    check("SSE registers lost when the timer took the processor", "", registers_lost, 0);
    check_some("Ticks of the timer inside a call of the library", taken_inside);
    check_some("Bytes of each stack that were never used", least_stack_left());
}

static _Noreturn void first_boot(bool is_steady)
{
    uint32_t n;
    run(60);
    say("-- The header of the valves goes bad.");
    skid_poison(&plant, VALVES);
    run_until(&poisoned, "-- It is well again.");
    skid_heal(&plant, VALVES);
    run(20);
    say("-- Somebody stands at the hand wheel of the outlet valve and waits for it.");
    skid_set_waiters(&plant, 5, 1);
    run_until(&busy[SKID_REASON_BEFORE], "-- He has gone.");
    skid_set_waiters(&plant, 5, 0);
    run(20);
    late_kind = SKID_STEP_WAITERS;
    run_until(&busy[SKID_REASON_AFTER], "-- Who came has gone.");
    skid_set_waiters(&plant, late_cell, 0);
    run(20);
    late_kind = SKID_STEP_HEALTH;
    run_until(&late_poisoned, "-- It is well again.");
    skid_heal(&plant, late_cell / BUCKETS);
    for (n = 0; n < 20 || (n < 500 && working[0] + working[1] + working[2] < 2); n++) run(1);
    if (!is_steady) dip();
    run(80);
    for (n = 0; n < 500 && panels_valve() == CELLS; n++) run(1);
    count();
    check_some("Refused, the header is bad", poisoned);
    check_some("Busy, somebody waits", busy[SKID_REASON_BEFORE]);
    check_some("Busy, somebody comes just then", busy[SKID_REASON_AFTER]);
    check_some("Refused, the header goes bad just then", late_poisoned);
    battery->panels_note = note[PANEL][panels_valve() % CELLS];
    finish(good ? POWER_CUT : WRONG, good ? "-- The power is cut." : "Something is wrong.");
}
static _Noreturn void later_boot(void)
{
    uint32_t n;
    run(100);
    closing = true;
    for (n = 0; n < 400 && !(resting[0] && resting[1] && resting[2]); n++) run(1);
    count();
    check_some("Refused, the lease is of an earlier boot", stale);
    finish(good ? ALL_RIGHT : WRONG, good ? "All as it should be." : "Something is wrong.");
}

/* The command line: a seed; `n` for a new skid, with nothing on paper; `c` for clean memory, `s` for steady power. */
_Noreturn void kernel(const uint8_t *start_info);
void kernel(const uint8_t *start_info)
{
    const char *at = *(const char *const *)(const void *)(start_info + 24); /* where PVH has its address */
    bool is_new = false, is_clean = false, is_steady = false;
    uint32_t seed = 0, i;
    for (; *at; at++) {
        if (*at >= '0' && *at <= '9') seed = 10 * seed + (uint32_t)(*at - '0');
        is_new |= *at == 'n', is_clean |= *at == 'c', is_steady |= *at == 's';
    }
    chance_state = (2 * (seed + 1) + is_new) * 2654435761u | 1;
    for (i = 0; i < CELLS; i++) is_free(i);
    if (is_new) say("Seed %u.", seed);
    if (!is_clean) rubbish();
    cold_start(is_new);
    for (i = 0; i < TASKS; i++) start_task(i, program);
    start_timer();
    if (is_new) first_boot(is_steady);
    later_boot();
}
