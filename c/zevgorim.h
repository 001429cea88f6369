/* The pad claim of the finish box, for C on x86-64 Linux. Links with libzevgorim.a, which tests/build writes.
 *
 * A process is a recorder's handset, a name is a pad. The box's own words stand beside ours below, in brackets.
 * docs/MACHINE.md has the machine, the formats and the numbers. c/live.c is a box at work, c/day.c hands its day over as a day file,
 * c/morning.c replays one.
 *
 *
 * What you may rely on
 *
 * N processes, L leaves, g segments in a leaf, b bits in a segment; k = L*g*b names, of which a setup may close some: the others are
 * open; h is the tree's height, 2^h = L. After every list of events from an accepted setup, carried out one at a time or in lists, in
 * whatever order, refused ones included:
 *
 *   - At most as many processes are admitted [let in] as names are open: in stages 3 to 6, or in stage 2 and no longer in the queue.
 *   - The names [pads] of working processes [holders] are open, so below k, and all unlike.
 *   - No process is exhausted [astray].
 *   - If at no moment, at the start or directly after an event, more than m processes were admitted, every name held is one of the m
 *     lowest open names: fewer than m open names lie below it. With none closed, every name held is below m.
 *   - The number steps [spent, the claim figure] of a process counts its steps [turns] in getname [claiming] since its last accepted
 *     request [ask]. Of a working process it is from h + 1 to h + g.
 *   - The number returns counts its return operations since then: the bit cleared and each counter given back, but not a level left by
 *     the right and not the gate. A process in its remainder section [idle] after a full round has steps + returns from h + 2 to
 *     2h + g + 1. Journal and status records show this sum.
 *   - A process in getname holds a name directly after one of the next h + g steps given to it at the latest, whatever comes between.
 *   - Of setups that close no name: the number steps of no process, working or not, is above h + the smaller of g and 1 + (N - 1) / b,
 *     rounded down. A list of events with which a working process has exactly so many is what zevgorim_dearest_list writes.
 *
 * This, what each call below gives and writes, and that every call ends, is proved of the Rattle source, for every argument that keeps
 * to `Lent memory` below. The radio lies outside: a frame that is heard twice is two events, and which handset sent it no call asks.
 *
 *
 * What you must do for it
 *
 *   - Start from a state that zevgorim_setup, zevgorim_closed_setup or zevgorim_read_setup gave with answer 0, or zevgorim_partial_setup
 *     with a count of L - 1 or more.
 *   - Hand the state that a call gave, refused or not, to the next call that changes it, and drop the older one. One writer.
 *   - Store a state with a check sum. A state that was edited or damaged carries no claim, and often no call can tell: answer 15 looks
 *     at the ranges of the numbers, not at whether a list of events leads to them. A later archive may lay a state out anew, so store
 *     with it which one made it.
 *
 *
 * Platform
 *
 *   - x86-64 Linux, System V ABI, on any x86-64 processor: so tests/build asks the toolchain for it. Without --cpu x86-64 it compiles for
 *     processors with SSE4.2 and POPCNT, and an archive does not look whether it has one.
 *   - The archive needs memcpy, memmove and memset from outside, and nothing else.
 *   - It keeps nothing between calls: no heap, no static data but constants, no locks, no system calls. Calls may run in several threads
 *     at once, as long as none writes to a buffer that another is lent.
 *   - Stack: the figures ZEVGORIM_STACK_ below.
 *
 *
 * Lent memory
 *
 * A buffer is a pointer and, right after it, its length in elements. The pointer must not be NULL, not with length 0 either; beyond that
 * a length of 0 asks nothing of it. The elements must be there, and change by no other hand, for the time of the call. What a call writes
 * to must not overlap what it reads.
 */
#ifndef ZEVGORIM_H
#define ZEVGORIM_H

#if !defined(__x86_64__) || !defined(__linux__) || defined(__ILP32__)
#error "libzevgorim.a is for x86-64 Linux (System V ABI, 64-bit pointers) only"
#endif

#include <stddef.h>
#include <stdint.h>

#ifdef __cplusplus
extern "C" {
#endif

/* Answers: 0, or the number of the first check that fails. A number handed to a call is looked at whole, and not cut to a byte. */
enum {
    ZEVGORIM_OK = 0,
    ZEVGORIM_PROCESSES = 1,     /* [handsets]     N outside 1 to 64 */
    ZEVGORIM_LEAVES = 2,        /* [leaves]       L not one of 1, 2, 4, 8, 16 */
    ZEVGORIM_SEGMENTS = 3,      /* [rows]         g outside 1 to 8 */
    ZEVGORIM_BITS = 4,          /* [bits]         b outside 1 to 8 */
    ZEVGORIM_NAMES = 5,         /* [pads]         L*g*b above 64 */
    ZEVGORIM_STRANGER = 6,      /* [stranger]     process not below N */
    ZEVGORIM_BUSY = 7,          /* [busy]         request, and its stage is not 0 */
    ZEVGORIM_NOT_MOVING = 8,    /* [not moving]   step, and its stage is 0 or 4 */
    ZEVGORIM_NO_NAME_HELD = 9,  /* [no pad held]  release, and its stage is not 4 */
    ZEVGORIM_NO_DAY_FILE = 10,  /* [no day file]  length outside 27 to 32,768, or bytes 0 to 4 are not TURN and 2 */
    ZEVGORIM_CONTENTS = 11,     /* [contents]     an entry differs from the layout */
    ZEVGORIM_KIND = 12,         /* [kind]         kind of event above 2 */
    ZEVGORIM_SHORT = 13,        /* [short]        a lent journal, roll or text is shorter than what it is to hold */
    ZEVGORIM_ODD = 14,          /* [odd]          list of an odd number of bytes */
    ZEVGORIM_BROKEN_STATE = 15, /* [broken state] a number of the state outside its range, or a step that would take one outside */
    ZEVGORIM_TOO_LONG = 16,     /* the day file to be written would pass 32,768 bytes */
    ZEVGORIM_NO_ROOM = 17,      /* a lent buffer is shorter than the day file to be written */
    ZEVGORIM_SMALL_BUFFER = 18, /* a buffer lent for the dearest list is under 4,096 bytes */
    ZEVGORIM_CLOSED_NAME = 19,  /* a listed name is not below k */
    ZEVGORIM_NONE_OPEN = 20     /* every name would be closed */
};

/* Kinds of event. */
enum {
    ZEVGORIM_REQUEST = 0, /* [ask] */
    ZEVGORIM_STEP = 1,    /* [turn] */
    ZEVGORIM_RELEASE = 2  /* [finish] */
};

/* Stages of a process. */
enum {
    ZEVGORIM_REMAINDER = 0, /* [idle] */
    ZEVGORIM_ENTRY = 1,     /* [asking] */
    ZEVGORIM_WAITING = 2,   /* [waiting] */
    ZEVGORIM_GETNAME = 3,   /* [claiming] */
    ZEVGORIM_WORKING = 4,   /* [holding] */
    ZEVGORIM_PUTNAME = 5,   /* [returning] */
    ZEVGORIM_EXHAUSTED = 6  /* [astray] never reached from an accepted setup */
};

/* The name of a process that holds none. */
#define ZEVGORIM_NO_NAME 255

/* Bytes of stack that a call takes below its return address, rounded up. They are measured, not proved: c/stack.c looks how deep a
 * painted stack was written, with the archive as the toolchain compiles it (-O3) and glibc's memcpy, memmove and memset, and c/run fails
 * where a call takes more. What the caller's own frame has for the state (552 bytes) and the result (560 bytes) comes on top. */
enum {
    ZEVGORIM_STACK_SETUP = 2432, /* setup, partial_setup */
    ZEVGORIM_STACK_CLOSED_SETUP = 2432,
    ZEVGORIM_STACK_EVENT = 1024, /* event, request, step, release, run */
    ZEVGORIM_STACK_REPORT = 960, /* gate_report, fill_status */
    ZEVGORIM_STACK_READ_SETUP = 3072,
    ZEVGORIM_STACK_SMALL = 128, /* file_answer, read_events, write_file, journal_text, dearest_list */
    ZEVGORIM_STACK_FILE_TEXT = 69632
};

/* One process [handset]. */
typedef struct {
    uint8_t stage;   /* 0 to 6 */
    uint8_t node;    /* where it is in the tree, 1 to 2L - 1 */
    uint8_t segment; /* [row] in its leaf, 0 to g - 1 */
    uint8_t name;    /* [pad] an open one, 0 to k - 1, or ZEVGORIM_NO_NAME */
    uint8_t steps;   /* [spent] its steps in getname since its last request */
    uint8_t returns; /* its return operations since then; steps + returns is at most 255 */
} zevgorim_process;

/* What a setup is given, in 16 bytes: 4 bytes of padding come before closed. */
typedef struct {
    uint8_t processes; /* [handsets] N */
    uint8_t leaves;    /* L */
    uint8_t segments;  /* [rows] in a leaf, g */
    uint8_t bits;      /* in a segment, b */
    uint64_t closed;   /* bit p is 1 when name p is closed: not all k names are, and bits from k on are 0 */
} zevgorim_setup_numbers;

/* The whole state, in 552 bytes. Bytes 4 to 7, before setup.closed, and 546 to 551, after the last process, are padding: what they hold is
 * not defined. A state can be copied and stored as bytes, with a check sum over the bytes that are stored; but two states are compared
 * field by field, and not with memcmp. c/live.c stores padding as 0. */
typedef struct {
    zevgorim_setup_numbers setup;
    int8_t gate;                  /* gate word A, -64 to the number of open names */
    uint8_t queued;               /* how many wait at the gate */
    uint8_t queue[64];            /* their numbers, the head first; 0 past the end */
    uint8_t counters[16];         /* by node, 1 to L - 1: 0 to the number of open names under its left child; place 0 is unused */
    uint8_t words[64];            /* [row words] b bits for each segment, L*g of them; the bit of a closed name is 0 */
    zevgorim_process process[64]; /* N of them */
} zevgorim_state;

/* The state after the call, and the answer behind it, in 560 bytes: 7 bytes of padding come after the answer. */
typedef struct {
    zevgorim_state state;
    uint8_t answer;
} zevgorim_done;

/* The gate report. */
typedef struct {
    uint8_t answer;
    uint8_t free;   /* open names still free [pads still open] at the gate */
    uint8_t queued; /* processes queued there */
} zevgorim_report;

/* One status record [of the roll]. */
typedef struct {
    uint8_t stage;
    uint8_t name;
    uint8_t figure; /* steps + returns of the process */
} zevgorim_status;

/* A text or a file in a lent buffer. */
typedef struct {
    uint8_t answer;
    size_t size; /* bytes written */
} zevgorim_written;

/* The dearest claim's list in a lent buffer. */
typedef struct {
    uint8_t answer;
    uint8_t figure; /* [figure] the steps that the dearest claim costs */
    size_t size;    /* bytes written */
} zevgorim_dearest;

/* A part of a lent file. */
typedef struct {
    size_t offset;
    size_t size;
} zevgorim_part;


/* Setup */

/* The fresh state of N processes, L leaves, g segments in a leaf and b bits in a segment, with every name open.
 * Refused with 1, 2, 3, 4, 5 in this order: the state is blank, every number 0, and no call accepts it. */
zevgorim_done zevgorim_setup(uint32_t n, uint32_t l, uint32_t g, uint32_t b);

/* The setup's second form: it stops once so many counters are filled, from node L - 1 up to node 1. The others are 0, all else is fresh.
 * From a count of L - 1 on it gives what zevgorim_setup gives, number for number. The state of a smaller count is in range and every call
 * takes it, but nothing of `What you may rely on` is promised from there: processes may be exhausted.
 * Refused as zevgorim_setup, whatever the count: the state is blank. */
zevgorim_done zevgorim_partial_setup(uint32_t n, uint32_t l, uint32_t g, uint32_t b, uint64_t count);

/* The fresh state with the names [pads] of a lent list closed: nobody will hold one. One byte for each name, in any order, any number of
 * them; a name listed twice is closed once. The gate and the counters start with the open names alone. With an empty list it gives what
 * zevgorim_setup gives, number for number.
 * Refused with 1 to 5, then 19 when a listed name is not below k, then 20 when no name stays open: the state is blank. */
zevgorim_done zevgorim_closed_setup(uint32_t n, uint32_t l, uint32_t g, uint32_t b, const uint8_t *closed, size_t closed_len);


/* Events: the state after one, or after a list. A refused call gives the state it was lent. */

/* One event: its kind and its process. What it does is in docs/MACHINE.md.
 * Refused with 15 for the state, 12 for the kind, 6 for the process, then 7, 8 or 9 by kind, then 15 for the step. */
zevgorim_done zevgorim_event(zevgorim_state state, uint32_t kind, uint32_t process);

/* The same with the kind given. Refused with 15, 6, then 7 (request), 8 (step) or 9 (release), then 15 for the step. */
zevgorim_done zevgorim_request(zevgorim_state state, uint32_t process);
zevgorim_done zevgorim_step(zevgorim_state state, uint32_t process);
zevgorim_done zevgorim_release(zevgorim_state state, uint32_t process);

/* A list of events of any length, two bytes each: kind, process. A refused event changes no state and the list goes on.
 * The journal takes four bytes for each event: its answer, then stage, name and figure (steps + returns) of the process after it; these
 * three are 255 for answers 6, 12 and 15. Bytes past them are untouched.
 * Refused with 14 for the list, 13 for the journal (shorter than twice the list), 15 for the state: the journal is untouched. */
zevgorim_done zevgorim_run(zevgorim_state state, const uint8_t *events, size_t events_len, uint8_t *journal, size_t journal_len);


/* Reports: they change no state. */

/* Open names still free at the gate, and processes queued there. Refused with 15: both are 0. */
zevgorim_report zevgorim_gate_report(zevgorim_state state);

/* A status record for each process in rising order [roll]; records from N on are untouched. Gives the answer.
 * Refused with 15, then 13 when there are fewer than N records: nothing is written. */
uint8_t zevgorim_fill_status(zevgorim_state state, zevgorim_status *records, size_t records_len);


/* The dearest claim of a setup that closes no name, for planning */

/* Writes a list of events, two bytes each, in which one process's claim costs the most steps possible, at the start of a lent buffer, and
 * says that figure and how many bytes it wrote. No list from the setup's fresh state makes a claim cost more; zevgorim_run on that state
 * and this list, of which no event is refused, leaves a process in stage 4 whose steps are the figure. Bytes past the list are untouched.
 * Refused with 1 to 5 for the setup, then 18 when the buffer is under 4,096 bytes, however short the list is: nothing is written, and the
 * figure and the size are 0. */
zevgorim_dearest zevgorim_dearest_list(uint32_t n, uint32_t l, uint32_t g, uint32_t b, uint8_t *out, size_t out_len);


/* The day file: a setup and its events, 27 to 32,767 bytes. Closed names are not in it: its setup closes none. */

/* 0, or the number with which zevgorim_read_setup refuses the file. */
uint8_t zevgorim_file_answer(const uint8_t *file, size_t file_len);

/* The fresh state of the file's setup. Refused with 10, 11, then 1 to 5: the state is blank, as of a refused zevgorim_setup. */
zevgorim_done zevgorim_read_setup(const uint8_t *file, size_t file_len);

/* Where the file's events are, for zevgorim_run: offset 27 and the rest of the file. Of a refused file offset and size are 0. */
zevgorim_part zevgorim_read_events(const uint8_t *file, size_t file_len);

/* Writes the day file of a setup and a list of events, two bytes each, at the start of a lent buffer, and says its length, 27 bytes more
 * than the list's. The events are not run: any two bytes are written. Bytes past the file are untouched. What it wrote is read back as the
 * same setup and the same events, and a file that is accepted, written out from the two, is that file again.
 * Refused with 1 to 5 for the setup, 14 for the list, 16 when the file would pass 32,768 bytes (a list of more than 32,740), 17 when the
 * buffer is shorter than the file: nothing is written and the size is 0. 32,767 bytes are enough for every file. */
zevgorim_written zevgorim_write_file(uint32_t n, uint32_t l, uint32_t g, uint32_t b, const uint8_t *events, size_t events_len, uint8_t *out,
                                     size_t out_len);


/* Texts, as the program pads prints them, in a lent buffer. Bytes past the text are untouched.
 * Refused with 13 when the buffer is shorter than the text: nothing is written and the size is 0. */

/* A line for each four bytes of a journal: answer, stage, name, figure in decimal, 255 as `-`. Fewer than four bytes at the end are
 * left out. 16 bytes for each line are always enough. */
zevgorim_written zevgorim_journal_text(const uint8_t *journal, size_t journal_len, uint8_t *out, size_t out_len);

/* The lines of a day file's journal, at most 16 bytes for each event. Of a file that zevgorim_file_answer refuses, `refused n` and a line
 * feed, at most 11 bytes; the answer is then 0 too. So 262,144 bytes are enough for every file. */
zevgorim_written zevgorim_file_text(const uint8_t *file, size_t file_len, uint8_t *out, size_t out_len);

#ifdef __cplusplus
}
#endif

#endif
