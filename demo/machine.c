/* The machine: two serial lines, chance from a seed, tasks, and a timer that takes the processor from them. */
#include <stdarg.h>
#include "demo.h"

static inline void out8(uint32_t at, uint32_t v) { __asm__ volatile("outb %b0, %w1" : : "a"(v), "Nd"(at) : "memory"); }
static inline uint8_t in8(uint32_t port)
{
    uint8_t v;
    __asm__ volatile("inb %w1, %0" : "=a"(v) : "Nd"(port));
    return v;
}

/* ---- the serial lines: COM1 tells the story, COM2 has the waveform */
enum { COM1 = 0x3F8, COM2 = 0x2F8 };
static void put(uint32_t line, char c)
{
    while (!(in8(line + 5) & 0x20)) {}
    out8(line, (uint8_t)c);
}
static void put_number(uint32_t n)
{
    if (n > 9) put_number(n / 10);
    put(COM1, (char)('0' + n % 10));
}
void say(const char *text, ...)
{
    const char *s;
    va_list v;
    va_start(v, text);
    for (; *text; text++) {
        if (*text != '%') put(COM1, *text);
        else if (*++text == 'u') put_number(va_arg(v, uint32_t));
        else for (s = va_arg(v, const char *); *s; s++) put(COM1, *s);
    }
    va_end(v);
    put(COM1, '\n');
}
void send_wave(const uint8_t *text, size_t size) { while (size--) put(COM2, (char)*text++); }
void stop(uint32_t code) /* the emulator's isa-debug-exit: it ends with 2 x code + 1 */
{
    while (!(in8(COM1 + 5) & in8(COM2 + 5) & 0x40)) {}
    out8(0xF4, code);
    for (;;) __asm__ volatile("cli; hlt");
}

/* ---- chance: xorshift. Only who is on turn draws, so that all of the story comes from the seed. */
uint32_t chance_state;
uint32_t chance(uint32_t below)
{
    chance_state ^= chance_state << 13;
    chance_state ^= chance_state >> 17;
    chance_state ^= chance_state << 5;
    return (chance_state >> 8) % below;
}

/*
 * ---- tasks and the timer
 *
 * The timer ticks 40,000 times a second and takes the processor from whoever has it, wherever he is: inside a call of
 * the library too, and there docs/INTEGRATION.md asks for three things.
 * - The library uses the 128 bytes below the stack pointer. So the interrupt has a stack of its own, by the interrupt
 *   stack table, and what it finds there is copied from and to the tasks' contexts.
 * - It uses SSE registers: they are saved and restored (fxsave, fxrstor), though the kernel's own code has none.
 * - One caller at a time: only who is on turn calls in. The turn is the kernel's lock. Who has it does one thing and
 *   gives it to one whom the seed names. So ticks come when they come, and the story is the same every time.
 */
struct frame { /* as tick_entry of boot.S pushes it; the last five by the processor */
    uint64_t r15, r14, r13, r12, r11, r10, r9, r8, rbp, rdi, rsi, rdx, rcx, rbx, rax, rip, cs, flags, rsp, ss;
};
static struct context {
    uint8_t sse[512];
    struct frame frame;
} __attribute__((aligned(16))) context[TASKS + 1];
static uint8_t stack[TASKS][GUARD + STACK] __attribute__((aligned(16)));
static uint32_t running = STORY;
volatile uint32_t on_turn = STORY;
extern const uint8_t library_begin[], library_end[];
uint32_t taken_inside, registers_lost;

/* Who is on turn goes on; if it was he who had the processor, the next one gets some of his time. */
void tick(struct frame *f)
{
    const bool is_inside = f->rip >= (uintptr_t)library_begin && f->rip < (uintptr_t)library_end;
    taken_inside += is_inside && f->rsp - (uintptr_t)f > sizeof *f + 15; /* on a stack of its own, not below his */
    context[running].frame = *f;
    __asm__ volatile("fxsave64 %0" : "=m"(context[running].sse));
    running = on_turn != running ? on_turn : (running + 1) % (TASKS + 1);
    __asm__ volatile("fxrstor64 %0" : : "m"(context[running].sse));
    *f = context[running].frame;
    out8(0x20, 0x20);
}

/* Who is not on turn waits for the timer. A number in an SSE register must outlast what the others do meanwhile. */
void await_turn(uint32_t me)
{
    const uint32_t mine = 0xC0FFEE00 + me;
    uint32_t found;
    __asm__ volatile("movd %0, %%xmm0" : : "r"(mine) : "memory");
    while (on_turn != me) __asm__ volatile("hlt" : : : "memory");
    __asm__ volatile("movd %%xmm0, %0" : "=r"(found) : : "memory");
    registers_lost += found != mine;
}

void start_task(uint32_t who, void (*program)(uint32_t who))
{
    struct context *c = context + who;
    __builtin_memset(stack[who], 0xA5, GUARD + STACK);
    __asm__ volatile("fxsave64 %0" : "=m"(c->sse));
    c->frame.rip = (uintptr_t)program, c->frame.rdi = who, c->frame.cs = 8, c->frame.ss = 16;
    c->frame.rsp = (uintptr_t)(stack[who] + GUARD + STACK - 8); /* at a function's begin: 16 n + 8 */
    c->frame.flags = 0x202;                                     /* interrupts on */
}
uint32_t least_stack_left(void) /* of the task that has used the most; 0 if the guard below a stack was touched */
{
    uint32_t at, t;
    for (at = 0; at < GUARD + STACK; at++)
        for (t = 0; t < TASKS; t++)
            if (stack[t][at] != 0xA5) return at < GUARD ? 0 : at - GUARD;
    return STACK;
}
_Noreturn void trap(void)
{
    say("*** A TRAP: the processor could not go on.");
    stop(TRAPPED);
}
