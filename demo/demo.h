/* What machine.c does for kernel.c. */
#ifndef DEMO_H
#define DEMO_H
#include "skid_arena.h"

enum { GOVERNOR, PANEL, LOGGER, TASKS, STORY = TASKS }; /* the story itself runs beside its three tasks */
enum { STACK = 8192, GUARD = 8192 }; /* a write of the book needs 6,928 (docs/INTEGRATION.md); the rest is ours */
enum { ALL_RIGHT = 16, WRONG = 17, TWO_WRITERS = 18, TRAPPED = 19, POWER_CUT = 20, NO_NUMBER = 21 };

void say(const char *text, ...); /* a line of the story; %s, %u */
void send_wave(const uint8_t *text, size_t size);
_Noreturn void stop(uint32_t code);
uint32_t chance(uint32_t below);
extern uint32_t chance_state;    /* from the seed; not 0 */
void start_task(uint32_t who, void (*program)(uint32_t who));
void start_timer(void);
void await_turn(uint32_t me);
extern volatile uint32_t on_turn;             /* who may call the library */
extern uint32_t taken_inside, registers_lost; /* ticks inside a call of the library; SSE registers found changed */
uint32_t least_stack_left(void);
#endif
