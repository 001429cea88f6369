/* Runs a morning's day file event by event, and prints who takes which pad and who gives it back; then the roll at the moment when most
 * handsets were not idle. In the words of the committee table: a process is a handset, a name is a pad. */
#include <stdio.h>
#include <stdlib.h>
#include "zevgorim.h"

static uint8_t file[32769];

static zevgorim_state after(zevgorim_state state, uint8_t kind, uint8_t handset, size_t number) {
    uint8_t before = handset < 64 ? state.process[handset].name : ZEVGORIM_NO_NAME;
    zevgorim_done done = zevgorim_event(state, kind, handset);
    if (done.answer != ZEVGORIM_OK) {
        printf("%4zu  handset %u is refused: %u\n", number, handset, done.answer);
        return done.state;
    }
    uint8_t now = done.state.process[handset].name;
    if (before == ZEVGORIM_NO_NAME && now != ZEVGORIM_NO_NAME) printf("%4zu  handset %u takes pad %u\n", number, handset, now);
    if (before != ZEVGORIM_NO_NAME && now == ZEVGORIM_NO_NAME) printf("%4zu  handset %u gives back pad %u\n", number, handset, before);
    return done.state;
}

/* How many handsets are not idle. */
static unsigned busy(const zevgorim_state *state) {
    unsigned count = 0;
    for (unsigned h = 0; h < state->setup.processes; h++) count += state->process[h].stage != ZEVGORIM_REMAINDER;
    return count;
}

static void print_roll(zevgorim_state state, size_t number) {
    static const char *const does[] = {"is idle", "asks", "waits", "claims", "holds", "returns", "is astray"};
    zevgorim_status roll[64];
    zevgorim_report gate = zevgorim_gate_report(state);
    if (zevgorim_fill_status(state, roll, 64) != ZEVGORIM_OK) return;
    printf("after event %zu: %u pads open at the gate, %u handsets queued\n", number, gate.free, gate.queued);
    for (unsigned h = 0; h < state.setup.processes; h++) {
        printf("  handset %u %s", h, does[roll[h].stage]);
        if (roll[h].stage == ZEVGORIM_WORKING) printf(" pad %u, won in %u turns", roll[h].name, roll[h].figure);
        puts("");
    }
}

int main(int argc, char **argv) {
    if (argc != 2) {
        fprintf(stderr, "usage: morning FILE\n");
        return 2;
    }
    FILE *in = fopen(argv[1], "rb");
    if (in == NULL) {
        fprintf(stderr, "morning: cannot open %s\n", argv[1]);
        return 1;
    }
    size_t size = fread(file, 1, sizeof file, in);
    fclose(in);

    zevgorim_done fresh = zevgorim_read_setup(file, size);
    if (fresh.answer != ZEVGORIM_OK) {
        printf("refused %u\n", fresh.answer);
        return 1;
    }
    zevgorim_part part = zevgorim_read_events(file, size);
    const uint8_t *events = file + part.offset;

    zevgorim_state state = fresh.state, busiest = state;
    size_t when = 0;
    for (size_t i = 0; i < part.size; i += 2) {
        state = after(state, events[i], events[i + 1], i / 2 + 1);
        if (busy(&state) > busy(&busiest)) {
            busiest = state;
            when = i / 2 + 1;
        }
    }
    print_roll(busiest, when);
    return 0;
}
