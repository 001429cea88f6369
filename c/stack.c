/* Measures how much stack each call takes, and holds it to the header's limits. The calls run on a stack of their own that was painted
 * before; the deepest byte that changed says how deep they went, counted from the stack pointer with which the call was entered. */
#define _XOPEN_SOURCE 700
#include <stdio.h>
#include <stdlib.h>
#include <string.h>
#include <ucontext.h>
#include "zevgorim.h"

enum { EVENTS = 16370, FILE_SIZE = 27 + 2 * EVENTS };

static _Alignas(64) uint8_t stack[1 << 18];
const uint8_t *volatile entered; /* the stack pointer at the last call */
static ucontext_t here, there;

/* a day file of most events, what they leave, and buffers to lend */
static uint8_t file[FILE_SIZE] = {'T', 'U', 'R', 'N', 2, 1, 23, 0, 0, 0, 4, 0, 0, 0, 2, 27, 0, 0, 0, 0, 0, 0, 0, 64, 16, 2, 2};
static zevgorim_state fresh, last, blank;
static uint8_t journal[4 * EVENTS], out[16 * EVENTS];
static uint8_t names[65]; /* every name and one that is none, to be closed */
static zevgorim_status roll[64];
static volatile size_t seen; /* so that no call is left out */

static unsigned chance(unsigned below) {
    static uint32_t x = 1;
    x = 1664525 * x + 1013904223;
    return (x >> 16) % below;
}

/* Anybody moves next, by an event that its stage accepts; one event in sixteen is any two bytes. */
static void make_file(void) {
    file[19] = 2 * EVENTS & 255;
    file[20] = 2 * EVENTS >> 8;
    last = fresh = zevgorim_setup(64, 16, 2, 2).state;
    for (int i = 0; i < EVENTS; i++) {
        uint8_t *event = file + 27 + 2 * i;
        event[1] = (uint8_t)chance(64);
        uint8_t stage = last.process[event[1]].stage;
        event[0] = stage == ZEVGORIM_REMAINDER ? ZEVGORIM_REQUEST : stage == ZEVGORIM_WORKING ? ZEVGORIM_RELEASE : ZEVGORIM_STEP;
        if (chance(16) == 0) {
            event[0] = (uint8_t)chance(256);
            event[1] = (uint8_t)chance(256);
        }
        last = zevgorim_event(last, event[0], event[1]).state;
    }
}

/* A function that makes a call so many times, i counting. The call goes by way of one that notes the stack pointer and jumps on. */
#define PROBE(name, times, ...) \
    __asm__(".text\nnoted_" #name ": mov %rsp, entered(%rip)\njmp zevgorim_" #name "\n"); \
    __typeof__(zevgorim_##name) noted_##name; \
    static void name(void) { \
        for (size_t i = 0; i < (times); i++) __VA_ARGS__; \
    }

/* what the call before gave; at last a state that is refused */
static zevgorim_done done;
#define STATE *(i < EVENTS ? &done.state : &blank)
#define KIND file[27 + 2 * (i % EVENTS)]
#define PROCESS file[28 + 2 * (i % EVENTS)]

/* accepted and refused */
PROBE(setup, 8, done = noted_setup(64, 16, 1 + i, 2))
PROBE(partial_setup, 40, done = noted_partial_setup(64, 16, 1 + i % 4, 2, i / 2))
PROBE(closed_setup, 132, done = noted_closed_setup(64, 16, 2 + i % 2, 2, names, i / 2))
PROBE(event, EVENTS + 1, done = noted_event(STATE, KIND, PROCESS))
PROBE(request, EVENTS + 1, done = noted_request(STATE, PROCESS))
PROBE(step, EVENTS + 1, done = noted_step(STATE, PROCESS))
PROBE(release, EVENTS + 1, done = noted_release(STATE, PROCESS))
PROBE(run, 1000, done = noted_run(*(i < 999 ? &fresh : &blank), file + 27, 33 * i, journal, sizeof journal))
PROBE(gate_report, 2, seen += noted_gate_report(*(i ? &last : &blank)).free)
PROBE(fill_status, 65, seen += noted_fill_status(last, roll, i))
PROBE(read_setup, 2, done = noted_read_setup(file, i ? FILE_SIZE : 26))
PROBE(read_events, 2, seen += noted_read_events(file, i ? FILE_SIZE : 26).size)
PROBE(write_file, 4, seen += noted_write_file(64, 16, 2, 2, file + 27, FILE_SIZE - 27 - i % 2, out, i < 2 ? sizeof out : 27).size)
PROBE(dearest_list, 8, seen += noted_dearest_list(64, 1, 1 + i, 8, out, i < 7 ? sizeof out : 4095).size)
PROBE(file_answer, 2, seen += noted_file_answer(file, i ? FILE_SIZE : 26))
PROBE(journal_text, 2, seen += noted_journal_text(journal, sizeof journal, out, i ? sizeof out : 9).size)
PROBE(file_text, 3, seen += noted_file_text(file, i ? FILE_SIZE : 26, out, i < 2 ? sizeof out : 9).size)

static size_t depth(void (*probe)(void), uint8_t paint) {
    memset(stack, paint, sizeof stack);
    done.state = last;
    getcontext(&there);
    there.uc_stack.ss_sp = stack;
    there.uc_stack.ss_size = sizeof stack;
    there.uc_link = &here;
    makecontext(&there, probe, 0);
    swapcontext(&here, &there);
    size_t low = 0;
    while (stack[low] == paint) low++;
    return (size_t)(entered - (stack + low));
}

static int wrong;

static void measure(const char *name, void (*probe)(void), size_t limit) {
    depth(probe, 0); /* the dynamic linker's work at a first call is not the archive's */
    size_t one = depth(probe, 85), other = depth(probe, 170);
    size_t most = one > other ? one : other;
    printf("  zevgorim_%-13s %6zu of %6zu\n", name, most, limit);
    if (most > limit) wrong = 1;
}

#define MEASURE(call, limit) measure(#call, call, limit)

int main(void) {
    make_file();
    for (int i = 0; i < 65; i++) names[i] = (uint8_t)i;
    puts("bytes of stack, measured and stated:");
    MEASURE(setup, ZEVGORIM_STACK_SETUP);
    MEASURE(partial_setup, ZEVGORIM_STACK_SETUP);
    MEASURE(closed_setup, ZEVGORIM_STACK_CLOSED_SETUP);
    MEASURE(event, ZEVGORIM_STACK_EVENT);
    MEASURE(request, ZEVGORIM_STACK_EVENT);
    MEASURE(step, ZEVGORIM_STACK_EVENT);
    MEASURE(release, ZEVGORIM_STACK_EVENT);
    MEASURE(run, ZEVGORIM_STACK_EVENT);
    MEASURE(gate_report, ZEVGORIM_STACK_REPORT);
    MEASURE(fill_status, ZEVGORIM_STACK_REPORT);
    MEASURE(read_setup, ZEVGORIM_STACK_READ_SETUP);
    MEASURE(read_events, ZEVGORIM_STACK_SMALL);
    MEASURE(file_answer, ZEVGORIM_STACK_SMALL);
    MEASURE(write_file, ZEVGORIM_STACK_SMALL);
    MEASURE(journal_text, ZEVGORIM_STACK_SMALL);
    MEASURE(dearest_list, ZEVGORIM_STACK_SMALL);
    MEASURE(file_text, ZEVGORIM_STACK_FILE_TEXT);
    puts(wrong ? "a call takes more stack than the header says" : "no call takes more stack than the header says");
    return wrong;
}
