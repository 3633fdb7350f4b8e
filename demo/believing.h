/*
 * A lock that believes memory, as one writes it in an hour, under the names of skid_arena.h. It looks at bit, waiters
 * and health as the library does, before and after it takes, and says why it is Busy. What it leaves out:
 * - opening clears nothing: a bit in memory is held, and a task that finds its name as an owner goes on there;
 * - nothing tests whether bit and owner agree;
 * - a lease has no serial and no boot number, and a setting asks for no lease: who has taken the valve sets it;
 * - after a dip nothing is mended.
 * With clean memory and no dip it passes every count (run.sh --believing --calm).
 */
static uint32_t setting[CELLS], version[CELLS]; /* the settings are not the point here: plain numbers */

static bool is_still_mine(uint32_t me, uint32_t cell) { return memory.table[3 * cell + 1] == me + 1; }
static struct skid_result believing_open(uint32_t boot)
{
    plant.head = (struct skid_head){2, BUCKETS, 1, boot}; /* next counts the takes */
    return skid_plain_result(SKID_OK, 0);
}
static struct skid_result believing_busy(uint32_t reason, uint32_t owner)
{
    return (struct skid_result){SKID_TRY_AGAIN, 0, 0, reason, owner};
}
static struct skid_result take_meanwhile(struct skid_key key, uint32_t kind, uint32_t place, struct skid_lease *lease)
{
    uint32_t c = key.binding * BUCKETS + key.bucket, *bit = memory.table + 3 * c, *owner = bit + 1, *waiters = bit + 2;
    uint8_t *health = memory.health + key.binding;
    *lease = (struct skid_lease){c, on_turn + 1, 0};
    if (*health) return skid_plain_result(SKID_POISONED, 0);
    if (*waiters) return believing_busy(SKID_REASON_BEFORE, 0);
    if (*bit) return believing_busy(SKID_REASON_HELD, *owner);
    *bit = 1, *owner = on_turn + 1, plant.head.next++;
    if (kind) skid_one_step(&plant, kind, place, 1); /* what somebody else does just then */
    if (!*waiters && !*health) return skid_plain_result(SKID_OK, 0);
    *bit = *owner = 0;
    return *waiters ? believing_busy(SKID_REASON_AFTER, on_turn + 1) : skid_plain_result(SKID_POISONED, 0);
}
static struct skid_result believing_give(struct skid_lease lease)
{
    uint32_t *cell = memory.table + 3 * lease.cell;
    if (cell[1] != lease.serial) return skid_plain_result(SKID_NOT_HELD, 0);
    cell[0] = cell[1] = 0;
    return skid_plain_result(SKID_OK, 0);
}
static struct skid_result believing_set(uint32_t cell, uint32_t value, struct skid_written *w)
{
    setting[cell] = value;
    *w = (struct skid_written){++version[cell], 0};
    return skid_plain_result(SKID_OK, 0);
}
static struct skid_result believing_read(uint32_t cell, struct skid_setting *s)
{
    *s = (struct skid_setting){0, setting[cell], version[cell]};
    return skid_plain_result(s->version ? SKID_OK : SKID_NEVER_WRITTEN, 0);
}
#define skid_open(arena, boot) believing_open(boot)
#define skid_take(arena, key, lease) take_meanwhile(key, 0, 0, lease)
#define skid_give(arena, lease) believing_give(lease)
#define skid_set_speed(arena, book, lease, value, written) believing_set((lease).cell, value, written)
#define skid_set_valve(arena, book, lease, value, written) believing_set((lease).cell, value, written)
#define skid_book_read(arena, book, cell, setting) believing_read(cell, setting)
#define skid_mend(arena, head, report) ((void)(report), skid_plain_result(SKID_REPORT_FULL, 0))
