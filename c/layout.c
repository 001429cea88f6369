/* Checks that the header's sizes and offsets are the archive's: sizes by what a call writes and leaves, offsets by values that each
 * call is known to put into each field. */
#include <stdio.h>
#include <string.h>
#include "zevgorim.h"

_Static_assert(sizeof(zevgorim_process) == 6 && offsetof(zevgorim_process, stage) == 0, "process");
_Static_assert(offsetof(zevgorim_process, node) == 1 && offsetof(zevgorim_process, segment) == 2, "process");
_Static_assert(offsetof(zevgorim_process, name) == 3 && offsetof(zevgorim_process, steps) == 4, "process");
_Static_assert(offsetof(zevgorim_process, returns) == 5, "process");
_Static_assert(sizeof(zevgorim_setup_numbers) == 16 && offsetof(zevgorim_setup_numbers, processes) == 0, "setup");
_Static_assert(offsetof(zevgorim_setup_numbers, leaves) == 1 && offsetof(zevgorim_setup_numbers, segments) == 2, "setup");
_Static_assert(offsetof(zevgorim_setup_numbers, bits) == 3 && offsetof(zevgorim_setup_numbers, closed) == 8, "setup");
_Static_assert(sizeof(zevgorim_state) == 552 && offsetof(zevgorim_state, setup) == 0, "state");
_Static_assert(offsetof(zevgorim_state, gate) == 16 && offsetof(zevgorim_state, queued) == 17, "gate");
_Static_assert(offsetof(zevgorim_state, queue) == 18 && offsetof(zevgorim_state, counters) == 82, "queue, counters");
_Static_assert(offsetof(zevgorim_state, words) == 98 && offsetof(zevgorim_state, process) == 162, "words, processes");
_Static_assert(offsetof(zevgorim_state, process[64]) == 546, "padding at the end");
_Static_assert(sizeof(zevgorim_done) == 560 && offsetof(zevgorim_done, state) == 0 && offsetof(zevgorim_done, answer) == 552, "done");
_Static_assert(sizeof(zevgorim_report) == 3 && offsetof(zevgorim_report, free) == 1, "report");
_Static_assert(sizeof(zevgorim_status) == 3 && offsetof(zevgorim_status, name) == 1, "status");
_Static_assert(sizeof(zevgorim_written) == 16 && offsetof(zevgorim_written, size) == 8, "written");
_Static_assert(sizeof(zevgorim_dearest) == 16 && offsetof(zevgorim_dearest, figure) == 1, "dearest");
_Static_assert(offsetof(zevgorim_dearest, size) == 8, "dearest");
_Static_assert(sizeof(zevgorim_part) == 16 && offsetof(zevgorim_part, size) == 8, "part");

static int wrong;

static void is(const char *what, long got, long expected) {
    if (got != expected) {
        printf("%s is %ld, expected %ld\n", what, got, expected);
        wrong = 1;
    }
}

/* the state after so many events, which all must be accepted */
static zevgorim_state run(zevgorim_state state, const uint8_t *events, size_t size) {
    uint8_t journal[256];
    zevgorim_done done = zevgorim_run(state, events, size, journal, sizeof journal);
    is("answer of a list", done.answer, 0);
    for (size_t i = 0; i < size / 2; i++) is("answer of an event", journal[4 * i], 0);
    return done.state;
}

static void check_fresh(void) {
    zevgorim_state s = zevgorim_setup(5, 2, 3, 4).state;
    is("processes", s.setup.processes, 5);
    is("leaves", s.setup.leaves, 2);
    is("segments", s.setup.segments, 3);
    is("bits", s.setup.bits, 4);
    is("closed", (long)s.setup.closed, 0);
    is("gate", s.gate, 24);
    is("counter 1", s.counters[1], 12);
    is("node of the last process", s.process[4].node, 1);
    is("name of the last process", s.process[4].name, ZEVGORIM_NO_NAME);
    is("node past the last process", s.process[5].node, 0);
}

/* two processes on one name, two segments of one bit: 0 takes name 0, 1 takes name 1 in its second segment, 2 and 3 queue */
static void check_run(void) {
    static const uint8_t events[] = {0, 0, 1, 0, 1, 0, 0, 1, 1, 1, 1, 1, 1, 1, 0, 3, 1, 3, 0, 2, 1, 2};
    zevgorim_state s = run(zevgorim_setup(4, 1, 2, 1).state, events, sizeof events);
    is("gate", s.gate, -2);
    is("queued", s.queued, 2);
    is("head of the queue", s.queue[0], 3);
    is("end of the queue", s.queue[1], 2);
    is("word 0", s.words[0], 1);
    is("word 1", s.words[1], 1);
    is("stage of 1", s.process[1].stage, ZEVGORIM_WORKING);
    is("segment of 1", s.process[1].segment, 1);
    is("name of 1", s.process[1].name, 1);
    is("steps of 1", s.process[1].steps, 2);
    is("returns of 1", s.process[1].returns, 0);

    zevgorim_report report = zevgorim_gate_report(s);
    is("answer of the report", report.answer, 0);
    is("free", report.free, 0);
    is("queued of the report", report.queued, 2);

    zevgorim_status roll[5];
    memset(roll, 170, sizeof roll);
    is("answer of the roll", zevgorim_fill_status(s, roll, 5), 0);
    is("stage of the roll", roll[1].stage, ZEVGORIM_WORKING);
    is("name of the roll", roll[1].name, 1);
    is("figure of the roll", roll[1].figure, 2);
    is("record past N", roll[4].stage + roll[4].name + roll[4].figure, 3 * 170);
    is("answer of a short roll", zevgorim_fill_status(s, roll, 3), ZEVGORIM_SHORT);
}

/* a process goes left, wins, clears its bit and gives the counter back: the journal and the roll show claim turns and returns together */
static void check_returns(void) {
    static const uint8_t events[] = {0, 0, 1, 0, 1, 0, 1, 0, 2, 0, 1, 0, 1, 0};
    uint8_t journal[28];
    zevgorim_state s = zevgorim_run(zevgorim_setup(2, 2, 1, 1).state, events, sizeof events, journal, sizeof journal).state;
    is("steps after the way back", s.process[0].steps, 2);
    is("returns after the way back", s.process[0].returns, 2);
    is("figure of the journal", journal[27], 4);

    zevgorim_status roll[2];
    is("answer of the roll", zevgorim_fill_status(s, roll, 2), 0);
    is("figure of the roll", roll[0].figure, 4);

    s.process[0].returns = 253;
    is("answer of the gate with a sum of 255", zevgorim_step(s, 0).answer, 0);
}

/* field by field, since a state has padding */
static int same_state(zevgorim_state a, zevgorim_state b) {
    return a.setup.processes == b.setup.processes && a.setup.leaves == b.setup.leaves && a.setup.segments == b.setup.segments &&
           a.setup.bits == b.setup.bits && a.setup.closed == b.setup.closed && a.gate == b.gate && a.queued == b.queued &&
           memcmp(a.queue, b.queue, sizeof a.queue) == 0 && memcmp(a.counters, b.counters, sizeof a.counters) == 0 &&
           memcmp(a.words, b.words, sizeof a.words) == 0 && memcmp(a.process, b.process, sizeof a.process) == 0;
}

/* every call on a state in which steps and returns of a process come to more than 255, each of the two large, and both */
static void check_sums(void) {
    static const uint8_t sums[][2] = {{255, 1}, {1, 255}, {128, 128}, {255, 255}};
    static const uint8_t events[] = {0, 0, 1, 0};
    for (size_t i = 0; i < sizeof sums / sizeof sums[0]; i++) {
        zevgorim_state s = zevgorim_setup(2, 2, 1, 1).state;
        s.process[1].steps = sums[i][0];
        s.process[1].returns = sums[i][1];
        uint8_t journal[8] = {170};
        zevgorim_status roll[2] = {{170, 170, 170}};
        zevgorim_done done[] = {
            zevgorim_event(s, ZEVGORIM_REQUEST, 0), zevgorim_request(s, 0), zevgorim_step(s, 0), zevgorim_release(s, 0),
            zevgorim_run(s, events, sizeof events, journal, sizeof journal),
        };
        for (size_t c = 0; c < sizeof done / sizeof done[0]; c++) {
            is("answer to a sum past 255", done[c].answer, ZEVGORIM_BROKEN_STATE);
            is("state of a sum past 255", same_state(done[c].state, s), 1);
        }
        is("report of a sum past 255", zevgorim_gate_report(s).answer, ZEVGORIM_BROKEN_STATE);
        is("roll of a sum past 255", zevgorim_fill_status(s, roll, 2), ZEVGORIM_BROKEN_STATE);
        is("lent bytes with a sum past 255", journal[0] + roll[0].stage + roll[0].name + roll[0].figure, 4 * 170);
    }
}

/* the calls of one kind are the event call with its kind given: one process takes the only name and gives it back */
static void check_kinds(void) {
    static const uint8_t kinds[] = {0, 1, 1, 2, 1, 1, 0, 0, 2};
    static const uint8_t answers[] = {0, 0, 0, 0, 0, 0, 0, ZEVGORIM_BUSY, ZEVGORIM_NO_NAME_HELD};
    zevgorim_done (*const calls[])(zevgorim_state, uint32_t) = {zevgorim_request, zevgorim_step, zevgorim_release};
    zevgorim_state s = zevgorim_setup(2, 1, 1, 1).state;
    for (size_t i = 0; i < sizeof kinds; i++) {
        zevgorim_done by_kind = calls[kinds[i]](s, 1), by_event = zevgorim_event(s, kinds[i], 1);
        is("answer of a call by kind", by_kind.answer, answers[i]);
        is("answer of its event", by_event.answer, answers[i]);
        is("state of a call by kind", same_state(by_kind.state, by_event.state), 1);
        s = by_kind.state;
        if (i == 2) is("name after the last step", s.process[1].name, 0);
    }
    is("answer to a step in the remainder section", zevgorim_step(zevgorim_setup(2, 1, 1, 1).state, 0).answer, ZEVGORIM_NOT_MOVING);
}

/* the setup with a count: counters by node, the lowest nodes first, then 1 to 5, whatever the count */
static void check_counts(void) {
    static const uint8_t counters[][4] = {{0, 0, 0, 0}, {0, 0, 0, 2}, {0, 0, 2, 2}, {0, 4, 2, 2}};
    static const uint64_t counts[] = {0, 1, 2, 3, 4, 255, 256, 1ull << 32, (1ull << 32) + 1, UINT64_MAX};
    static const zevgorim_state blank;
    zevgorim_state fresh = zevgorim_setup(5, 4, 1, 2).state;
    for (size_t i = 0; i < sizeof counts / sizeof *counts; i++) {
        zevgorim_done done = zevgorim_partial_setup(5, 4, 1, 2, counts[i]);
        is("answer of a setup with a count", done.answer, 0);
        is("counters of a setup with a count", memcmp(done.state.counters, counters[i < 3 ? i : 3], 4), 0);
        is("report of its state", zevgorim_gate_report(done.state).free, 8);
        memcpy(done.state.counters, fresh.counters, sizeof fresh.counters);
        is("what else it gives", same_state(done.state, fresh), 1);
        static const uint32_t bad[][4] = {{0, 3, 9, 9}, {256, 4, 1, 2}, {5, 3, 9, 9}, {5, 4, 9, 9}, {5, 4, 1, 9}, {5, 16, 8, 8}};
        static const uint8_t numbers[] = {1, 1, 2, 3, 4, 5};
        for (size_t k = 0; k < sizeof numbers; k++) {
            zevgorim_done refused = zevgorim_partial_setup(bad[k][0], bad[k][1], bad[k][2], bad[k][3], counts[i]);
            is("answer to a bad setup with a count", refused.answer, numbers[k]);
            is("its state", same_state(refused.state, blank), 1);
        }
    }
}

/* names 0, 3 and 5 of eight closed, the last listed twice */
static zevgorim_done close_three(void) {
    static const uint8_t names[] = {5, 0, 3, 5};
    return zevgorim_closed_setup(6, 4, 1, 2, names, sizeof names);
}

/* the gate and the counters start with the open names, five processes take those from the lowest on, and the sixth waits */
static void check_closed(void) {
    static const uint8_t counters[] = {0, 2, 1, 1}, open[] = {1, 2, 4, 6, 7}, last[] = {63};
    zevgorim_done done = close_three();
    is("answer of a setup with closed names", done.answer, 0);
    is("its closed names", (long)done.state.setup.closed, 1 << 0 | 1 << 3 | 1 << 5);
    is("its gate", done.state.gate, 5);
    is("its counters", memcmp(done.state.counters, counters, sizeof counters), 0);
    is("its free names", zevgorim_gate_report(done.state).free, 5);
    zevgorim_state s = done.state;
    for (uint8_t p = 0; p < 6; p++) {
        const uint8_t events[] = {0, p, 1, p, 1, p, 1, p, 1, p};
        s = run(s, events, sizeof events);
        is("name past the closed ones", s.process[p].name, p < 5 ? open[p] : ZEVGORIM_NO_NAME);
    }
    is("word with a closed bit", s.words[0], 2);
    is("process past the open names", s.queue[0], 5);
    is("closed names after a list", s.setup.closed == done.state.setup.closed, 1);
    is("last name closed", zevgorim_closed_setup(64, 16, 2, 2, last, 1).state.setup.closed == 1ull << 63, 1);
}

/* a closed name's bit, a closed name in a record, the gate or a counter above the open names, a closed name not below k, and none open */
static void check_closed_ranges(void) {
    zevgorim_state s[6];
    for (size_t i = 0; i < 6; i++) s[i] = close_three().state;
    s[0].words[0] = 1;
    s[1].process[0].name = 3;
    s[2].gate++;
    s[3].counters[2]++;
    s[4].setup.closed |= 1 << 8;
    s[4].gate = 0;
    s[5].setup.closed = 255;
    s[5].gate = 0;
    memset(s[5].counters, 0, sizeof s[5].counters);
    for (size_t i = 0; i < 6; i++) is("answer to closed names broken", zevgorim_request(s[i], 0).answer, ZEVGORIM_BROKEN_STATE);
}

/* no list, a long one of one name, then 1 to 5, 19 and 20 in this order */
static void check_closed_lists(void) {
    static const uint8_t names[300] = {0, 1, 2, 3, 4, 5, 6, 7, 8, 255};
    static const uint32_t bad[][4] = {{0, 3, 9, 9},  {6, 3, 9, 9},   {6, 4, 9, 9}, {6, 4, 1, 9},
                                      {6, 16, 8, 8}, {64, 16, 2, 2}, {6, 4, 1, 2}, {6, 4, 1, 2}};
    static const size_t sizes[] = {300, 300, 300, 300, 300, 300, 9, 8};
    static const uint8_t numbers[] = {1, 2, 3, 4, 5, ZEVGORIM_CLOSED_NAME, ZEVGORIM_CLOSED_NAME, ZEVGORIM_NONE_OPEN};
    static const zevgorim_state blank;
    zevgorim_done none = zevgorim_closed_setup(6, 4, 1, 2, names, 0);
    is("answer of an empty list of names", none.answer, 0);
    is("its state", same_state(none.state, zevgorim_setup(6, 4, 1, 2).state), 1);
    is("closed name of a long list", (long)zevgorim_closed_setup(6, 4, 1, 2, names + 10, 290).state.setup.closed, 1);
    is("answer with one name open", zevgorim_closed_setup(6, 4, 1, 2, names, 7).answer, 0);
    for (size_t i = 0; i < sizeof numbers; i++) {
        zevgorim_done refused = zevgorim_closed_setup(bad[i][0], bad[i][1], bad[i][2], bad[i][3], names, sizes[i]);
        is("answer to a bad setup with closed names", refused.answer, numbers[i]);
        is("its state", same_state(refused.state, blank), 1);
    }
}

/* a number above 255 gets the same number of refusal as any other outside its range, and nothing changes */
static void check_large(uint32_t large) {
    static const zevgorim_state blank;
    static const uint8_t name;
    for (int place = 0; place < 4; place++) {
        uint32_t n[4] = {2, 1, 1, 1};
        n[place] = large;
        zevgorim_done whole = zevgorim_setup(n[0], n[1], n[2], n[3]), part = zevgorim_partial_setup(n[0], n[1], n[2], n[3], large);
        zevgorim_done closed = zevgorim_closed_setup(n[0], n[1], n[2], n[3], &name, 0);
        is("answer to a large number of a setup", whole.answer, ZEVGORIM_PROCESSES + place);
        is("answer with a count", part.answer, ZEVGORIM_PROCESSES + place);
        is("answer with closed names", closed.answer, ZEVGORIM_PROCESSES + place);
        is("state of a refused setup", same_state(whole.state, blank), 1);
        is("state with a count", same_state(part.state, blank), 1);
        is("state with closed names", same_state(closed.state, blank), 1);
    }
    is("answer to four large numbers", zevgorim_setup(large, large, large, large).answer, ZEVGORIM_PROCESSES);
    zevgorim_state s = zevgorim_request(zevgorim_setup(2, 1, 1, 1).state, 1).state;
    zevgorim_done refused[] = {
        zevgorim_event(s, large, 1),    zevgorim_event(s, large, large), zevgorim_event(s, 1, large),
        zevgorim_request(s, large),     zevgorim_step(s, large),         zevgorim_release(s, large),
    };
    for (size_t i = 0; i < sizeof refused / sizeof *refused; i++) {
        is("answer to a large kind or process", refused[i].answer, i < 2 ? ZEVGORIM_KIND : ZEVGORIM_STRANGER);
        is("state of a refused event", same_state(refused[i].state, s), 1);
    }
}

/* what a call gives by value lies within what the header says it takes */
static void check_edges(void) {
    struct {
        uint8_t before[64];
        zevgorim_done done;
        uint8_t after[64];
    } around;
    memset(&around, 170, sizeof around);
    around.done = zevgorim_setup(64, 16, 2, 2);
    for (int i = 0; i < 64; i++) is("byte around the result", around.before[i] + around.after[i], 2 * 170);
    zevgorim_state garbage;
    memset(&garbage, 170, sizeof garbage);
    zevgorim_done back = zevgorim_event(garbage, 1, 0);
    is("answer to garbage", back.answer, ZEVGORIM_BROKEN_STATE);
    is("garbage given back", same_state(back.state, garbage), 1);
}

/* a day file of two events */
static void check_file(void) {
    static const uint8_t file[] = {'T', 'U', 'R', 'N', 2, 1, 23, 0, 0, 0, 4, 0, 0, 0, 2, 27, 0, 0, 0, 4, 0, 0, 0, 2, 1, 1, 1, 0, 0, 1, 0};
    static const char text[] = "0 1 - 0\n0 3 - 0\n";
    uint8_t out[32];
    memset(out, 170, sizeof out);
    zevgorim_part part = zevgorim_read_events(file, sizeof file);
    is("offset", (long)part.offset, 27);
    is("size", (long)part.size, 4);
    is("setup of the file", zevgorim_read_setup(file, sizeof file).state.setup.processes, 2);
    is("answer of the file", zevgorim_file_answer(file, sizeof file), 0);
    is("answer of a file cut short", zevgorim_file_answer(file, 26), ZEVGORIM_NO_DAY_FILE);
    is("answer of a file less an event", zevgorim_file_answer(file, sizeof file - 2), ZEVGORIM_CONTENTS);
    is("answer of its setup", zevgorim_read_setup(file, sizeof file - 2).answer, ZEVGORIM_CONTENTS);
    is("size of its events", (long)zevgorim_read_events(file, sizeof file - 2).size, 0);
    zevgorim_written made = zevgorim_file_text(file, sizeof file, out, sizeof out);
    is("answer of the text", made.answer, 0);
    is("size of the text", (long)made.size, (long)strlen(text));
    is("text", memcmp(out, text, strlen(text)), 0);
    is("byte past the text", out[strlen(text)], 170);
    is("answer of a short buffer", zevgorim_file_text(file, sizeof file, out, strlen(text) - 1).answer, ZEVGORIM_SHORT);
    is("size of a refusal", (long)zevgorim_file_text(file, sizeof file - 2, out, 11).size, 11);
    is("refusal", memcmp(out, "refused 11\n", 11), 0);
    static const uint8_t journal[] = {15, 255, 255, 255};
    is("size of a line", (long)zevgorim_journal_text(journal, 4, out, sizeof out).size, 9);
}

/* what a call that is refused gives: its number, the size 0, and a buffer as it was */
static void is_refused(zevgorim_written made, int number, const uint8_t *out, size_t size) {
    is("answer of a refused file", made.answer, number);
    is("size of a refused file", (long)made.size, 0);
    for (size_t i = 0; i < size; i++) is("byte of its buffer", out[i], 170);
}

/* the day file of two events, written; then each refusal */
static void check_write(void) {
    static const uint8_t file[] = {'T', 'U', 'R', 'N', 2, 1, 23, 0, 0, 0, 4, 0, 0, 0, 2, 27, 0, 0, 0, 4, 0, 0, 0, 5, 2, 3, 4, 0, 0, 1, 0};
    static uint8_t list[1 << 20], long_file[32767];
    uint8_t out[sizeof file + 1];
    memset(out, 170, sizeof out);
    is_refused(zevgorim_write_file(0, 3, 9, 9, file + 27, 3, out, 0), ZEVGORIM_PROCESSES, out, sizeof out);
    is_refused(zevgorim_write_file(5, 256 + 2, 3, 4, file + 27, 4, out, sizeof out), ZEVGORIM_LEAVES, out, sizeof out);
    is_refused(zevgorim_write_file(5, 2, UINT32_MAX, 4, file + 27, 4, out, sizeof out), ZEVGORIM_SEGMENTS, out, sizeof out);
    is_refused(zevgorim_write_file(5, 2, 3, 0, file + 27, 4, out, sizeof out), ZEVGORIM_BITS, out, sizeof out);
    is_refused(zevgorim_write_file(5, 16, 3, 4, file + 27, 4, out, sizeof out), ZEVGORIM_NAMES, out, sizeof out);
    is_refused(zevgorim_write_file(5, 2, 3, 4, list, sizeof list - 1, out, sizeof out), ZEVGORIM_ODD, out, sizeof out);
    is_refused(zevgorim_write_file(5, 2, 3, 4, list, sizeof list, out, sizeof out), ZEVGORIM_TOO_LONG, out, sizeof out);
    is_refused(zevgorim_write_file(5, 2, 3, 4, list, 32742, out, sizeof out), ZEVGORIM_TOO_LONG, out, sizeof out);
    is_refused(zevgorim_write_file(5, 2, 3, 4, file + 27, 4, out, sizeof file - 1), ZEVGORIM_NO_ROOM, out, sizeof out);
    is_refused(zevgorim_write_file(5, 2, 3, 4, file + 27, 4, out, 0), ZEVGORIM_NO_ROOM, out, sizeof out);
    zevgorim_written made = zevgorim_write_file(5, 2, 3, 4, file + 27, 4, out, sizeof out);
    is("answer of the writer", made.answer, 0);
    is("size of the file", (long)made.size, (long)sizeof file);
    is("the file", memcmp(out, file, sizeof file), 0);
    is("byte past the file", out[sizeof file], 170);
    is("size of the longest file", (long)zevgorim_write_file(5, 2, 3, 4, list, 32740, long_file, sizeof long_file).size, 32767);
    is("answer of the longest file", zevgorim_file_answer(long_file, sizeof long_file), 0);
}

/* the dearest list of a setup, and of nothing less than its buffer; then each refusal */
static void check_dearest(void) {
    static const uint8_t list[] = {0, 0, 1, 0, 1, 0, 1, 0, 0, 1, 1, 1, 1, 1, 1, 1, 1, 1};
    static const uint32_t bad[][4] = {{0, 3, 9, 9},       {256 + 2, 2, 2, 1},    {2, 3, 9, 9},
                                      {2, 2, 256 + 2, 1}, {2, 2, 2, UINT32_MAX}, {2, 16, 8, 8}};
    static const uint8_t numbers[] = {1, 1, 2, 3, 4, 5};
    static uint8_t out[4096], lent[4096];
    memset(lent, 170, sizeof lent);
    memcpy(out, lent, sizeof out);
    for (size_t i = 0; i < sizeof numbers + 2; i++) {
        int setup = i < sizeof numbers;
        zevgorim_dearest refused = setup ? zevgorim_dearest_list(bad[i][0], bad[i][1], bad[i][2], bad[i][3], out, i % 2 * sizeof out)
                                         : zevgorim_dearest_list(2, 2, 2, 1, out, i % 2 * (sizeof out - 1));
        is("answer of a refused dearest list", refused.answer, setup ? numbers[i] : ZEVGORIM_SMALL_BUFFER);
        is("its figure and size", refused.figure + (long)refused.size, 0);
        is("its buffer", memcmp(out, lent, sizeof out), 0);
    }
    zevgorim_dearest made = zevgorim_dearest_list(2, 2, 2, 1, out, sizeof out);
    is("answer of the dearest list", made.answer, 0);
    is("its figure", made.figure, 3);
    is("its size", (long)made.size, (long)sizeof list);
    is("the list", memcmp(out, list, sizeof list), 0);
    is("bytes past the list", memcmp(out + sizeof list, lent, sizeof out - sizeof list), 0);
    zevgorim_state s = run(zevgorim_setup(2, 2, 2, 1).state, out, made.size);
    is("stage of the dearest holder", s.process[1].stage, ZEVGORIM_WORKING);
    is("steps of the dearest holder", s.process[1].steps, made.figure);
}

int main(void) {
    check_fresh();
    check_run();
    check_returns();
    check_sums();
    check_kinds();
    check_counts();
    check_closed();
    check_closed_ranges();
    check_closed_lists();
    check_large(256);
    check_large(257);
    check_large(UINT32_MAX);
    check_edges();
    check_file();
    check_write();
    check_dearest();
    puts(wrong ? "the header does not fit the archive" : "the header fits the archive");
    return wrong;
}
