/*
 * The lease layer of the skid kernel: the calls of document 01, and of document 02 the setpoint book (L2, L10), keys
 * in any order (L4), salvage (L6), the boot number of a lease (L8), the waveform of the cells (L11) and the crew at
 * work (L13), for C. skid_arena.h is over it, and keeps head, runs and registry together; most programs want that.
 *
 * Link with libskid.a (`rt lib --cpu x86-64` in crates/skid writes crates/skid/out/libskid.a). The archive is code for
 * x86-64, by the calling convention of Linux there (System V). It asks the host for memcpy and memset, and for nothing else. It has
 * no data of its own that changes, no heap and no thread.
 *
 * What a kernel must know of that convention (docs/INTEGRATION.md lists the functions, read from the archive's code):
 * - The stack pointer is a multiple of 16 where a call is made, 8 more inside. On another stack an aligned SSE store
 *   faults. A task's first stack, and an interrupt that calls in, must be made so.
 * - The SSE registers are used, and none is kept over a call. They must be switched on (CR0.EM clear, CR4.OSFXSR set),
 *   and who takes the processor from a task inside a call must save them.
 * - The 128 bytes below the stack pointer (the red zone) are used. An interrupt must not write there: give it a stack
 *   of its own (interrupt stack table), or make the calls with interrupts off.
 * - Reads and writes of the setpoint book need the most stack of all calls, 6,928 bytes. The page has each.
 * No float crosses: a pressure goes in and comes out as the 32 bits of its binary32. So the calls are the same for a
 * program that is compiled without SSE (-mgeneral-regs-only, -mno-sse).
 *
 * Each function is a call of these documents and is proved to give what they say, refusals included: the reply's words
 * and every word of every lent run are fixed, whatever the numbers and the lent words are.
 *
 * How a call is made
 * ------------------
 * - The head (headers H, buckets B, next serial, boot number) goes in as four numbers, and comes back in the reply's
 *   first four words; the replies of setpoint book and waveform have no head. A lease is three numbers: cell, serial,
 *   and the boot number of the head that it was given by.
 * - A run is lent as a pointer to its first element and a length. A length counts elements, not bytes.
 * - The last argument is the lent reply: SKID_REPLY_WORDS words, SKID_CREW_WORDS for skid_crew and skid_crew_at_work,
 *   SKID_SALVAGE_WORDS for skid_salvage, SKID_BOOK_WORDS for the calls of the setpoint book, SKID_WAVE_WORDS for
 *   skid_write_dump and skid_read_dump. A call writes all of them and reads none.
 * - There is no result: the answer is in the reply.
 *
 * What a call needs, and changes
 * ------------------------------
 * - Of what is lent, a call changes only the runs that are declared without `const`, and the reply.
 * - A call keeps no pointer. When it has returned, what was lent is the caller's again, and until then nobody else
 *   writes it, or reads what the call may change.
 * - Runs that are lent to one call must not overlap, and none may overlap the reply. Two runs that are both `const`
 *   may.
 * - A pointer must be aligned for its type, and point to as many elements as the length says. It may be null only if
 *   the length is 0; then nothing is read or written through it. The reply is never null.
 * - A length that breaks the documents' rules is answered by a refusal, and so is any number that does.
 *
 * What the caller must see to
 * ---------------------------
 * - Give each call the head, the table and the health that the last call left. After a refused skid_prepare the head
 *   before it stays in force; the four zeros that it hands back are no head.
 * - Let one caller at a time work on a table. No call takes a lock or issues a memory barrier.
 * - Never use a boot number twice: then a lease from before a preparation is refused, by SKID_STALE_BOOT unless an
 *   earlier check applies, up to the next skid_salvage. A refused skid_prepare uses none up.
 * - Write no serial from before a preparation into a script: a step has no boot number, and means the head's own.
 * - Keep the last head where a power dip does not reach it, for skid_salvage.
 *
 * The arena
 * ---------
 * - table: 3 x H x B words; bit, owner and waiters of each cell. Cell number = header x B + bucket.
 * - health: H bytes; 0 is healthy, every other byte is poisoned.
 * - registry: 0 to 64 header numbers; a binding is a place in it.
 * - script: three words a step (kind, place, number), at most 32,768 steps. `place` counts steps, and the reply says
 *   where the script was left. Kinds: enum skid_step.
 * - held, leases: three words a lease (cell, serial, boot number), at most 64 leases.
 * - keys: two words a key (binding, bucket). grants: three words a key (cell, serial, boot number).
 *
 * The setpoint book
 * -----------------
 * - book: at most SKID_MAX_BOOK bytes. One slot for each cell, at most the first SKID_MAX_SLOTS. Each slot keeps its
 *   newest SKID_KEPT_VERSIONS settings. For n slots SKID_SLOT_BYTES x n bytes are needed; a book of
 *   SKID_ROOMY_BYTES x n bytes is never full.
 * - First a table of contents, four lines of 8 bytes a slot, the newest first: the place of a body (2 bytes), its
 *   length (2 bytes; 5), its version (4 bytes), each low byte first. Versions fall by one; unused lines are zeros.
 *   Behind the contents the bodies, 5 bytes each, in any order: a kind (enum skid_setpoint), and four bytes, low byte
 *   first.
 * - A write drops the slot's oldest of four, then puts its body behind the last body of all. Where there is no room,
 *   the kept bodies slide to the front in the order of their places, and the reply tells how many bytes moved.
 *   Bytes that a body leaves become zeros; preparing sets every byte to 0.
 * - A line or a kept body that fits no rule, or two bodies that overlap, is SKID_DAMAGED_BOOK, for every read and every
 *   write of any slot. Nothing mends such a book but preparing it, which forgets every setting.
 * - A read or a write needs up to 7 KB of stack: the marks of the test for damage stand there.
 */
#ifndef SKID_H
#define SKID_H

#include <stdbool.h>
#include <stddef.h>
#include <stdint.h>

#ifdef __cplusplus
extern "C" {
#endif

/* The version of header and library together; CHANGELOG.md says what came with which. */
#define SKID_VERSION "0.18.5"

/*
 * The number of the interface. It rises with every change of a call, of an answer or of a layout, and is a part of the
 * name of a function that the archive has. Whatever includes this header asks for that name, so that a program which
 * was compiled against another interface does not link: "undefined reference to `skid_interface_..'". The function
 * gives the number; nobody need call it.
 */
#define SKID_INTERFACE 1
#define SKID_INTERFACE_NAME(number) SKID_INTERFACE_JOINED(number)
#define SKID_INTERFACE_JOINED(number) skid_interface_##number
uint32_t SKID_INTERFACE_NAME(SKID_INTERFACE)(void);
#if defined(__has_attribute)
#if __has_attribute(retain)
__attribute__((used, retain))
#else
__attribute__((used))
#endif
#elif defined(__GNUC__)
__attribute__((used))
#endif
static uint32_t (*const skid_interface_asked)(void) = SKID_INTERFACE_NAME(SKID_INTERFACE);

/* ---- limits */

#define SKID_MAX_HEADERS 64u
#define SKID_MAX_BUCKETS 1024u
#define SKID_MAX_CELLS 4096u         /* H x B */
#define SKID_CELL_WORDS 3u           /* bit, owner, waiters */
#define SKID_LEASE_WORDS 3u          /* cell, serial, boot number: of a held list, a list to release, a grant buffer */
#define SKID_KEY_WORDS 2u            /* binding, bucket */
#define SKID_MAX_BINDINGS 64u        /* words of a registry */
#define SKID_MAX_STEPS 32768u        /* steps of a script, three words each */
#define SKID_MAX_LEASES 64u          /* leases of a list; in multi-lock, held leases and keys together */
#define SKID_MAX_ATTEMPTS 4096u      /* attempts of a key before SKID_SERIALIZATION_FAILURE */
#define SKID_NO_SERIAL 4294967295u   /* a next serial at which none remains */
#define SKID_MAX_MEMBERS 16u         /* of a crew */
#define SKID_MAX_MEMBER_CELLS 64u    /* of one member */
#define SKID_MAX_CREW_CELLS 256u     /* of all members */
#define SKID_MAX_TURNS 65536u
#define SKID_MAX_BOOK 32768u         /* bytes of a setpoint book */
#define SKID_MAX_SLOTS 64u           /* of a book; one for each cell, up to these */
#define SKID_KEPT_VERSIONS 4u        /* of each slot of a book: its newest */
#define SKID_SLOT_BYTES 32u          /* of each slot in the table of contents: four lines of 8 bytes */
#define SKID_ROOMY_BYTES 52u         /* of each slot with room for its four bodies of 5 bytes: never SKID_BOOK_FULL */
#define SKID_MAX_WAVE_CELLS 94u      /* of a waveform */
#define SKID_MAX_DUMP 319088u        /* bytes: no dump is longer */
#define SKID_MAX_REPORT 37056u       /* words: no report of a salvage is longer */

/* ---- a foreign step: its kind, and what its place and number are */

enum skid_step {
    SKID_STEP_OBSERVE = 0, /* reads neither */
    SKID_STEP_TAKE = 1,    /* a cell; the number is not read */
    SKID_STEP_RELEASE = 2, /* a cell and its serial; the boot number is the head's own */
    SKID_STEP_WAITERS = 3, /* a cell and its new waiters */
    SKID_STEP_HEALTH = 4,  /* a header and 0 or 1 */
    SKID_STEP_END = 5      /* of a boundary; reads neither */
};

/* ---- the reply */

#define SKID_REPLY_WORDS 15
#define SKID_CREW_WORDS 49
#define SKID_SALVAGE_WORDS 7
#define SKID_BOOK_WORDS 4
#define SKID_WAVE_WORDS 3

/* Which word is what. */
enum skid_reply {
    SKID_HEADERS = 0, /* the head */
    SKID_BUCKETS = 1,
    SKID_NEXT = 2,
    SKID_BOOT = 3,
    SKID_PLACE = 4,    /* where the script was left; 0 for a call without a script */
    SKID_ATTEMPTS = 5, /* attempts begun */
    SKID_BOUNDARIES = 6,
    SKID_YIELDS = 7,
    SKID_DROPPED = 8,       /* foreign steps dropped */
    SKID_KIND = 9,          /* of the answer: enum skid_kind */
    SKID_CELL = 10,         /* kinds 1 and 2: the cell; else 0, but for a refusal */
    SKID_REFUSAL = 10,      /* kinds 5 and 6: the refusal's number, enum skid_refusal */
    SKID_SERIAL = 11,       /* kind 2: the serial; else 0, but for a refusal */
    SKID_CARRIED = 11,      /* kinds 5 and 6: what the refusal carries */
    SKID_LEASE_BOOT = 12,   /* kind 2: the lease's boot number, which is the head's; else 0, but for kind 6 */
    SKID_POSITION = 12,     /* kind 6: the key's position */
    SKID_REASON = 13,       /* kind 4, and SKID_SERIALIZATION_FAILURE: why it was Busy, enum skid_reason; else 0 */
    SKID_REASON_SERIAL = 14 /* the reason's serial; 0 if it has none */
};

/* The crew's reply: words 0 to 3 and 9 to 11 as above, words 4 to 8 and 12 to 14 are 0. */
enum skid_crew_reply {
    SKID_MOVING = 15,  /* turns that took, released or, at work, added */
    SKID_IDLE = 16,    /* turns that did none of it */
    SKID_TAKEN = 17,   /* words 17 to 32: cells taken by members 0 to 15 */
    SKID_RELEASED = 33 /* words 33 to 48: cells released by members 0 to 15 */
};

/* The kinds of answers. Busy is no refusal; it says why, in SKID_REASON. */
enum skid_kind {
    SKID_DONE = 0,
    SKID_A_CELL = 1,      /* skid_read_permission: the lease's cell */
    SKID_GRANTED = 2,     /* cell, serial and boot number of the new lease */
    SKID_ALL_GRANTED = 3, /* multi-lock: the leases are in `grants` */
    SKID_BUSY = 4,
    SKID_REFUSED = 5,
    SKID_REFUSED_AT = 6 /* multi-lock: a refusal at a key, with its position */
};

/*
 * Why it was Busy (document 02, L1), with the serial that goes with it. A try_lock looks at the waiters first, so a
 * held cell that somebody waits for says BEFORE there. SKID_SERIALIZATION_FAILURE has the reason of its last attempt.
 * A grant has none, and neither has any other refusal.
 */
enum skid_reason {
    SKID_REASON_NONE = 0,   /* 0 */
    SKID_REASON_HELD = 1,   /* the cell is held: its owner's serial */
    SKID_REASON_BEFORE = 2, /* 0: somebody waited for the cell, seen before the compare-and-set */
    SKID_REASON_AFTER = 3   /* somebody waited for it, seen after: the serial that was spent */
};

/*
 * The refusals, by document 01's numbers (16 is document 02's, L8), with what each carries. 1 to 5, 8 in a call by
 * cell, and 12 to 16 are tested before anything else is done, in the order of the numbers, but for 16: after the length
 * test of its list, position by position, before 3 and 12 at that place (12, 14 and 16 together, by position); they
 * change nothing and have all counts 0. 6 to 11, but for that 8, end an attempt; they keep foreign steps and spent
 * serials, and the caller holds nothing new. (In skid_acquire_sorted_locks 6 and 8 are tested before any attempt: there
 * they change nothing and have all counts 0.)
 */
enum skid_refusal {
    SKID_BAD_SHAPE = 1,              /* 0: the head or a length breaks the arena's rules */
    SKID_BAD_SCRIPT = 2,             /* 0: no multiple of 3, too many steps, or a place past the end */
    SKID_BAD_HELD = 3,               /* held list not by threes or too long: length / 3; else the first not live */
    SKID_TOO_MANY = 4,               /* 0: keys odd or leases not by threes, too many, or grants of a wrong length */
    SKID_BAD_BINDING = 5,            /* the first position of a key whose binding is past the registry */
    SKID_BAD_HEADER = 6,             /* the header that the registry names, at least H */
    SKID_POISONED = 7,               /* the header */
    SKID_INVALID_BUCKET = 8,         /* the bucket, at least B; by cell: the cell, at least H x B */
    SKID_DAMAGED = 9,                /* the cell */
    SKID_SERIALS_SPENT = 10,         /* the cell */
    SKID_SERIALIZATION_FAILURE = 11, /* 4096; and the last attempt's reason, in SKID_REASON */
    SKID_NOT_HELD = 12,              /* the position of a lease that is not live; 0 for one lease */
    SKID_PROTECTED = 13,             /* 0: the lease is live and in the held list */
    SKID_REPEATED = 14,              /* the position of the later of two equal live leases in the list */
    SKID_BAD_CREW = 15,              /* 0 for a limit; the member of a bad list; the turn that names no member */
    SKID_STALE_BOOT = 16             /* the position of a lease with another boot number than the head's; 0 for one */
};

/* The salvage's reply: words 0 to 3 the head, as it was given. */
enum skid_salvage_reply {
    SKID_SALVAGE_KIND = 4,    /* SKID_DONE or SKID_REFUSED */
    SKID_SALVAGE_CHANGED = 5, /* done: the entries of the report */
    SKID_SALVAGE_REFUSAL = 5, /* refused: SKID_BAD_SHAPE or SKID_REPORT_FULL */
    SKID_SALVAGE_HELD = 6     /* done: the cells left held; else 0 */
};

/* A refusal without a number in document 01; they count on from the setpoint book's. */
enum skid_salvage_refusal {
    SKID_REPORT_FULL = 106 /* the report or the list of cells left held has no room for all its entries */
};

/* The reply of the setpoint book's calls. Words that an answer does not use are 0. A refusal changes no byte. */
enum skid_book_reply {
    SKID_BOOK_KIND = 0,     /* enum skid_book_kind */
    SKID_BOOK_VERSION = 1,  /* written, or a setting: the version, from 1 */
    SKID_BOOK_REFUSAL = 1,  /* refused: enum skid_book_refusal */
    SKID_BOOK_MOVED = 2,    /* written: the bytes of bodies that moved to make room; 0 if none did */
    SKID_BOOK_SETPOINT = 2, /* a setting: what the setpoint is, enum skid_setpoint */
    SKID_BOOK_WORD = 3      /* a setting: its 32 bits; a pressure is the f32 with this pattern */
};

enum skid_book_kind {
    SKID_BOOK_DONE = 0,
    SKID_BOOK_WRITTEN = 1,
    SKID_BOOK_SETTING = 2,
    SKID_BOOK_REFUSED = 3
};

enum skid_setpoint {
    SKID_PRESSURE = 1, /* in bar, a binary32; never a NaN or an infinity */
    SKID_SPEED = 2,    /* a whole number */
    SKID_VALVE = 3     /* 1 open, 0 shut */
};

/*
 * The refusals of the book's calls. SKID_BAD_SHAPE (1), SKID_NOT_HELD (12) and SKID_STALE_BOOT (16) are those above;
 * the others have no number there and count from 101; SKID_BOOK_FULL came later and stands behind SKID_REPORT_FULL.
 * Tested in the order of this list, SKID_STALE_BOOT and then SKID_NOT_HELD behind SKID_BAD_SLOT, SKID_BOOK_FULL last;
 * a read tests SKID_BAD_SHAPE, SKID_BAD_SLOT, SKID_DAMAGED_BOOK, SKID_NEVER_WRITTEN.
 */
enum skid_book_refusal {
    SKID_BAD_SLOT = 101,       /* the book shorter than its contents or over the limit, or no such slot */
    SKID_NOT_FINITE = 102,     /* a pressure that is a NaN or an infinity */
    SKID_DAMAGED_BOOK = 103,   /* a line or a kept body of any slot fits no rule, or two bodies overlap */
    SKID_VERSIONS_SPENT = 104, /* the slot is at version 4,294,967,295 */
    SKID_NEVER_WRITTEN = 105,  /* the version is 0, not yet written, or older than the newest four */
    SKID_BOOK_FULL = 107       /* the bodies that stay leave fewer than 5 bytes */
};

/* The reply of the waveform's two calls. A refusal changes no lent byte or word. */
enum skid_wave_reply {
    SKID_WAVE_KIND = 0,    /* enum skid_wave_kind */
    SKID_WAVE_SIZE = 1,    /* skid_write_dump, done: the bytes written */
    SKID_WAVE_CELLS = 1,   /* skid_read_dump, done: the cells */
    SKID_WAVE_REFUSAL = 1, /* refused by number: SKID_BAD_SCRIPT */
    SKID_WAVE_LINE = 1,    /* a bad line: its number, from 1 */
    SKID_WAVE_STEPS = 2    /* skid_read_dump, done: the steps, three words each; else 0 */
};

enum skid_wave_kind {
    SKID_WAVE_DONE = 0,
    SKID_WAVE_REFUSED = 1,  /* by number */
    SKID_WAVE_TOO_WIDE = 2, /* no cells, or more than SKID_MAX_WAVE_CELLS */
    SKID_WAVE_NO_ROOM = 3,  /* the lent run is too short for all of it */
    SKID_WAVE_BAD_LINE = 4  /* no dump begins with this line and those before it */
};

/*
 * The calls. tests/signatures.py writes the declarations from the exported functions of crates/skid/src, and the gate
 * compares; the comments are written here.
 */
/* declarations: begin */

/* ---- preparing */

/*
 * Sets every word of the table and every health byte to 0, whatever they held: Done, with the head (headers, buckets,
 * serial, boot). `serial` is the first serial, 1 to SKID_NO_SERIAL; `boot` is any number, and every lease that is
 * granted by this head has it. The table has exactly 3 x headers x buckets words and the health exactly `headers`
 * bytes; else SKID_BAD_SHAPE, a head of four zeros, and no lent word changes.
 */
void skid_prepare(uint32_t headers, uint32_t buckets, uint32_t serial, uint32_t boot, uint32_t *table, size_t table_len,
                  uint8_t *health, size_t health_len, uint64_t reply[SKID_REPLY_WORDS]);

/* ---- salvage after a warm restart (document 02, L6) */

/*
 * Power dipped, and RAM mostly survived. Goes over the arena by the head that was kept on paper: a damaged cell becomes
 * free, all waiters become 0, a health byte other than 0 and 1 becomes 1. A sound cell keeps its bit and owner. Done,
 * with the head as it was given.
 *
 * - report: three words an entry (place, old, new), one for each word or byte that was changed, in rising order of
 *   places. A place counts the table's words from 0, and then the health bytes, from 3 x H x B on. The report has room
 *   for report_len / 3 entries, rounded down.
 * - unconfirmed: the cells left held, one word each, rising.
 * - Words behind the entries of both are left alone.
 *
 * The boot number is not tested, and stays what the head says.
 *
 * Refused: SKID_BAD_SHAPE, where the head or the length of table or health breaks the arena's rules; then
 * SKID_REPORT_FULL, exactly if the report or the list cannot hold all its entries. That is known before the first
 * change: a refusal changes no lent word. A second salvage reports no change.
 *
 * What the caller must see to: the head must be the last one. By an older head, leases issued since look damaged and
 * are freed, and their serials are issued again; by one from before the last preparation, leases of that earlier boot
 * number can be accepted again. A cell left held is not thereby confirmed: its owner is to confirm the lease or to drop
 * it. RAM may have left one serial as the owner of two cells; both stand in the list, and the table says who owns each.
 */
void skid_salvage(uint32_t headers, uint32_t buckets, uint32_t next, uint32_t boot, uint32_t *table, size_t table_len,
                  uint8_t *health, size_t health_len, uint32_t *report, size_t report_len, uint32_t *unconfirmed,
                  size_t unconfirmed_len, uint64_t reply[SKID_SALVAGE_WORDS]);

/*
 * ---- calls without a script. Each changes no word but those of the named cell. A lease must have the head's boot
 * number, else SKID_STALE_BOOT, and be live (its cell is held by its serial), else SKID_NOT_HELD, or SKID_BAD_HELD in a
 * held list.
 */

/* One compare-and-set of a cell: granted, or Busy if it is held, with its owner's serial. */
void skid_try_acquire(uint32_t headers, uint32_t buckets, uint32_t next, uint32_t boot, uint32_t *table,
                      size_t table_len, uint32_t cell, uint64_t reply[SKID_REPLY_WORDS]);

/* One release of a live lease: Done. */
void skid_drop_lease(uint32_t headers, uint32_t buckets, uint32_t next, uint32_t boot, uint32_t *table,
                     size_t table_len, uint32_t cell, uint32_t serial, uint32_t lease_boot,
                     uint64_t reply[SKID_REPLY_WORDS]);

/* The cell of a live lease. Changes nothing. */
void skid_read_permission(uint32_t headers, uint32_t buckets, uint32_t next, uint32_t boot, const uint32_t *table,
                          size_t table_len, uint32_t cell, uint32_t serial, uint32_t lease_boot,
                          uint64_t reply[SKID_REPLY_WORDS]);

/* One compare-and-set of a live lease's cell: it is Busy, held by the lease's serial, and changes nothing. */
void skid_competing_acquire_is_excluded(uint32_t headers, uint32_t buckets, uint32_t next, uint32_t boot,
                                        uint32_t *table, size_t table_len, uint32_t cell, uint32_t serial,
                                        uint32_t lease_boot, uint64_t reply[SKID_REPLY_WORDS]);

/* A live lease released, and its cell taken anew. Where no serial remains, the release stands. */
void skid_release_then_handoff(uint32_t headers, uint32_t buckets, uint32_t next, uint32_t boot, uint32_t *table,
                               size_t table_len, uint32_t cell, uint32_t serial, uint32_t lease_boot,
                               uint64_t reply[SKID_REPLY_WORDS]);

/*
 * A compare-and-set of a live lease's cell that is Busy, a release of the lease, which may not be in the held list, and
 * a compare-and-set again. Where no serial remains, the release stands.
 */
void skid_foreign_release_between_attempts(uint32_t headers, uint32_t buckets, uint32_t next, uint32_t boot,
                                           uint32_t *table, size_t table_len, const uint32_t *held, size_t held_len,
                                           uint32_t cell, uint32_t serial, uint32_t lease_boot,
                                           uint64_t reply[SKID_REPLY_WORDS]);

/* skid_try_acquire after the held list's check. */
void skid_acquire_preserving_borrows(uint32_t headers, uint32_t buckets, uint32_t next, uint32_t boot, uint32_t *table,
                                     size_t table_len, const uint32_t *held, size_t held_len, uint32_t cell,
                                     uint64_t reply[SKID_REPLY_WORDS]);

/* skid_drop_lease, but not of a lease in the held list. */
void skid_drop_preserving_borrows(uint32_t headers, uint32_t buckets, uint32_t next, uint32_t boot, uint32_t *table,
                                  size_t table_len, const uint32_t *held, size_t held_len, uint32_t cell,
                                  uint32_t serial, uint32_t lease_boot, uint64_t reply[SKID_REPLY_WORDS]);

/* ---- calls with a script. Foreign steps run at each boundary, from `place` on; they may change table and health. */

/* One boundary: Done. A foreign release of a lease in the held list is dropped. */
void skid_environment(uint32_t headers, uint32_t buckets, uint32_t next, uint32_t boot, uint32_t *table,
                      size_t table_len, uint8_t *health, size_t health_len, const uint32_t *script, size_t script_len,
                      size_t place, const uint32_t *held, size_t held_len, uint64_t reply[SKID_REPLY_WORDS]);

/* The same. */
void skid_environment_for_borrows(uint32_t headers, uint32_t buckets, uint32_t next, uint32_t boot, uint32_t *table,
                                  size_t table_len, uint8_t *health, size_t health_len, const uint32_t *script,
                                  size_t script_len, size_t place, const uint32_t *held, size_t held_len,
                                  uint64_t reply[SKID_REPLY_WORDS]);

/*
 * One try_lock of a cell: boundary, waiters, boundary, compare-and-set, boundary, the health of the cell's header,
 * waiters. Granted or Busy, or refused. A late SKID_POISONED or Busy releases the cell, and its serial stays spent;
 * Busy gives it as the reason's serial.
 */
void skid_try_lock(uint32_t headers, uint32_t buckets, uint32_t next, uint32_t boot, uint32_t *table, size_t table_len,
                   uint8_t *health, size_t health_len, const uint32_t *script, size_t script_len, size_t place,
                   const uint32_t *held, size_t held_len, uint32_t cell, uint64_t reply[SKID_REPLY_WORDS]);

/* The same. */
void skid_other_mutex_preserves_leases(uint32_t headers, uint32_t buckets, uint32_t next, uint32_t boot,
                                       uint32_t *table, size_t table_len, uint8_t *health, size_t health_len,
                                       const uint32_t *script, size_t script_len, size_t place, const uint32_t *held,
                                       size_t held_len, uint32_t cell, uint64_t reply[SKID_REPLY_WORDS]);

/*
 * One attempt on a key: header from the registry, then its health, then the bucket, then a try_lock, which reads the
 * health again. SKID_POISONED before the try_lock has taken nothing; after it the serial stays spent.
 */
void skid_transactional_try_lock_bucket(uint32_t headers, uint32_t buckets, uint32_t next, uint32_t boot,
                                        uint32_t *table, size_t table_len, uint8_t *health, size_t health_len,
                                        const uint32_t *registry, size_t registry_len, const uint32_t *script,
                                        size_t script_len, size_t place, const uint32_t *held, size_t held_len,
                                        uint32_t binding, uint32_t bucket, uint64_t reply[SKID_REPLY_WORDS]);

/*
 * Up to 4,096 attempts on a key, with boundaries, yields and spins between them. Granted or refused, never Busy. A
 * refusal ends it at once, also SKID_POISONED after a try_lock's third boundary. After 4,096 Busy attempts it is
 * SKID_SERIALIZATION_FAILURE, with the last one's reason.
 */
void skid_acquire_index_bucket(uint32_t headers, uint32_t buckets, uint32_t next, uint32_t boot, uint32_t *table,
                               size_t table_len, uint8_t *health, size_t health_len, const uint32_t *registry,
                               size_t registry_len, const uint32_t *script, size_t script_len, size_t place,
                               const uint32_t *held, size_t held_len, uint32_t binding, uint32_t bucket,
                               uint64_t reply[SKID_REPLY_WORDS]);

/* All leases of a list released, last first, a boundary after each: Done. Those not yet released are protected. */
void skid_release_all(uint32_t headers, uint32_t buckets, uint32_t next, uint32_t boot, uint32_t *table,
                      size_t table_len, uint8_t *health, size_t health_len, const uint32_t *script, size_t script_len,
                      size_t place, const uint32_t *leases, size_t leases_len, uint64_t reply[SKID_REPLY_WORDS]);

/*
 * Multi-lock: the keys in the order given, each as skid_acquire_index_bucket takes it. All granted, and `grants` holds
 * cell, serial and boot number for each key, in key order; or refused at a key, all taken leases released as in
 * skid_release_all, and `grants` unchanged. The reason of SKID_SERIALIZATION_FAILURE is that of the refused key.
 * `grants_len` is 3 x keys_len / 2.
 */
void skid_acquire_index_locks(uint32_t headers, uint32_t buckets, uint32_t next, uint32_t boot, uint32_t *table,
                              size_t table_len, uint8_t *health, size_t health_len, const uint32_t *registry,
                              size_t registry_len, const uint32_t *script, size_t script_len, size_t place,
                              const uint32_t *held, size_t held_len, const uint32_t *keys, size_t keys_len,
                              uint32_t *grants, size_t grants_len, uint64_t reply[SKID_REPLY_WORDS]);

/*
 * Multi-lock with keys in any order, and doubles (document 02, L4). The keys are resolved to cells; each distinct cell
 * is taken once, in rising order of cells, as skid_acquire_index_locks takes a key. All granted, and `grants` holds
 * cell, serial and boot number for each key, in the caller's order: keys of one cell share one lease. So hand each
 * lease to skid_release_all once; the buffer of doubled keys as it stands is SKID_REPEATED. Attempts and boundaries
 * count distinct cells.
 *
 * Checked in this order: what skid_acquire_index_locks checks, every binding among it (SKID_TOO_MANY counts keys as
 * typed); then, before any attempt, position by position, the header (SKID_BAD_HEADER) before the bucket
 * (SKID_INVALID_BUCKET). These two have their position and, here, all counts 0. A later refusal, SKID_POISONED among
 * them, has the first position that asks for its cell; all taken leases are released as in skid_release_all. Refused,
 * `grants` is unchanged.
 */
void skid_acquire_sorted_locks(uint32_t headers, uint32_t buckets, uint32_t next, uint32_t boot, uint32_t *table,
                               size_t table_len, uint8_t *health, size_t health_len, const uint32_t *registry,
                               size_t registry_len, const uint32_t *script, size_t script_len, size_t place,
                               const uint32_t *held, size_t held_len, const uint32_t *keys, size_t keys_len,
                               uint32_t *grants, size_t grants_len, uint64_t reply[SKID_REPLY_WORDS]);

/* ---- the crew */

/*
 * The crew's run, without a script. counts: how many cells each of 1 to 16 members wants, 0 to 64 each and 256 in all.
 * cells: the members' lists one behind the other, each strictly rising. turns: members, by number, in the order of
 * their turns. Done, or SKID_BAD_SHAPE or SKID_BAD_CREW.
 */
void skid_crew(uint32_t headers, uint32_t buckets, uint32_t next, uint32_t boot, uint32_t *table, size_t table_len,
               const uint8_t *health, size_t health_len, const uint32_t *counts, size_t counts_len,
               const uint32_t *cells, size_t cells_len, const uint32_t *turns, size_t turns_len,
               uint64_t reply[SKID_CREW_WORDS]);

/*
 * The crew at work (document 02, L13): as skid_crew, and a member that has come to hold all its cells adds before it
 * releases, a moving turn for each cell, rising. To each cell's counter it adds the value that its lowest cell's
 * counter had when it came to hold all; sums wrap at 65,536. counters: one a cell, so H x B of them, else
 * SKID_BAD_SHAPE. A refusal leaves them as they were.
 */
void skid_crew_at_work(uint32_t headers, uint32_t buckets, uint32_t next, uint32_t boot, uint32_t *table,
                       size_t table_len, const uint8_t *health, size_t health_len, const uint32_t *counts,
                       size_t counts_len, const uint32_t *cells, size_t cells_len, const uint32_t *turns,
                       size_t turns_len, uint16_t *counters, size_t counters_len, uint64_t reply[SKID_CREW_WORDS]);

/* ---- the setpoint book (document 02, L2 and L10). No call changes the table, and none takes the health. */

/* Sets every byte of the book to 0, whatever stood there: done. Refused: SKID_BAD_SHAPE for the head, SKID_BAD_SLOT. */
void skid_prepare_book(uint32_t headers, uint32_t buckets, uint32_t next, uint32_t boot, uint8_t *book, size_t book_len,
                       uint64_t reply[SKID_BOOK_WORDS]);

/*
 * Writes a pressure in bar to a slot, by a live lease on the slot's cell: written, with the slot's new version, one
 * more than its last, and the bytes moved. `bits` are the 32 bits of the binary32 (1.5 bar is 0x3fc00000). Every other
 * version that is kept reads as before. Refused, in this order: SKID_BAD_SHAPE, SKID_BAD_SLOT, SKID_STALE_BOOT,
 * SKID_NOT_HELD, SKID_NOT_FINITE (the bits are a NaN's or an infinity's), SKID_DAMAGED_BOOK, SKID_VERSIONS_SPENT,
 * SKID_BOOK_FULL.
 */
void skid_write_pressure(uint32_t headers, uint32_t buckets, uint32_t next, uint32_t boot, const uint32_t *table,
                         size_t table_len, uint8_t *book, size_t book_len, uint32_t slot, uint32_t cell,
                         uint32_t serial, uint32_t lease_boot, uint32_t bits, uint64_t reply[SKID_BOOK_WORDS]);

/* The same with a speed; never SKID_NOT_FINITE. */
void skid_write_speed(uint32_t headers, uint32_t buckets, uint32_t next, uint32_t boot, const uint32_t *table,
                      size_t table_len, uint8_t *book, size_t book_len, uint32_t slot, uint32_t cell, uint32_t serial,
                      uint32_t lease_boot, uint32_t speed, uint64_t reply[SKID_BOOK_WORDS]);

/* The same with a valve, true for open; never SKID_NOT_FINITE. */
void skid_write_valve(uint32_t headers, uint32_t buckets, uint32_t next, uint32_t boot, const uint32_t *table,
                      size_t table_len, uint8_t *book, size_t book_len, uint32_t slot, uint32_t cell, uint32_t serial,
                      uint32_t lease_boot, bool opened, uint64_t reply[SKID_BOOK_WORDS]);

/* The newest setpoint of a slot and its version: a setting. It needs no lease and changes nothing. */
void skid_read_setpoint(uint32_t headers, uint32_t buckets, uint32_t next, uint32_t boot, const uint8_t *book,
                        size_t book_len, uint32_t slot, uint64_t reply[SKID_BOOK_WORDS]);

/* A version of a slot: a setting, or SKID_NEVER_WRITTEN if the slot does not keep it. */
void skid_read_version(uint32_t headers, uint32_t buckets, uint32_t next, uint32_t boot, const uint8_t *book,
                       size_t book_len, uint32_t slot, uint32_t version, uint64_t reply[SKID_BOOK_WORDS]);

/* ---- the waveform of the cells (document 02, L11) */

/*
 * Writes the bits of the first `cells` cells over a history as a value change dump (IEEE 1364), for a viewer. The
 * history is a script (three words a step), from all bits 0: a take sets its cell's bit, a release clears it, any other
 * step only counts. Bytes behind the dump are left alone. Refused, in this order: SKID_BAD_SCRIPT (no multiple of 3, or
 * more than SKID_MAX_STEPS steps), too wide, no room.
 */
void skid_write_dump(uint32_t cells, const uint32_t *script, size_t script_len, uint8_t *text, size_t text_len,
                     uint64_t reply[SKID_WAVE_WORDS]);

/*
 * Reads back what skid_write_dump can have written, and nothing else: how many cells, and a history with the same bits
 * at the same steps, up to the last change; other words of it are 0. Words behind it are left alone. Refused, in this
 * order: bad line, no room.
 */
void skid_read_dump(const uint8_t *text, size_t text_len, uint32_t *script, size_t script_len,
                    uint64_t reply[SKID_WAVE_WORDS]);
/* declarations: end */

#ifdef __cplusplus
}
#endif

#endif
