/* The end of a day: hands over what happened on the box as a day file, for the club's laptop. Standard input stands for the radio, as in
 * live.c: a line is a frame, `kind handset`. Each frame is carried out, and kept with those before it; when the input ends, the setup and
 * the frames are written to FILE. `pads < FILE` prints what the box answered. */
#include <stdio.h>
#include <stdlib.h>
#include "zevgorim.h"

enum { MOST_EVENTS = 16370, FILE_SIZE = 27 + 2 * MOST_EVENTS };

/* two bytes for each event that the box was given, and the file of them */
static uint8_t events[2 * MOST_EVENTS], file[FILE_SIZE];

static int fails(const char *why) {
    fprintf(stderr, "day: %s\n", why);
    return 1;
}

/* Carries out the frames until the input ends, and says how many bytes of events it kept; -1 where a line is no frame that a day file
 * can hold, or where there are too many. A refused event is kept too: it happened. */
static long serve(zevgorim_state state) {
    unsigned kind, handset;
    long size = 0;
    int read;
    while ((read = scanf("%u %u", &kind, &handset)) == 2) {
        if (kind > 255 || handset > 255 || size == sizeof events) return -1;
        state = zevgorim_event(state, kind, handset).state;
        events[size++] = (uint8_t)kind;
        events[size++] = (uint8_t)handset;
    }
    return read == EOF ? size : -1;
}

int main(int argc, char **argv) {
    if (argc != 6) {
        fprintf(stderr, "usage: day FILE HANDSETS LEAVES ROWS BITS\n");
        return 2;
    }
    uint32_t number[4];
    for (int i = 0; i < 4; i++) {
        unsigned long given = strtoul(argv[2 + i], NULL, 10);
        number[i] = given < UINT32_MAX ? (uint32_t)given : UINT32_MAX;
    }
    zevgorim_done fresh = zevgorim_setup(number[0], number[1], number[2], number[3]);
    if (fresh.answer != ZEVGORIM_OK) return fails("setup refused");
    long size = serve(fresh.state);
    if (size < 0) return fails("not a frame of a day file, or too many");

    /* the setup was accepted, the list is even and not too long, and there is room: so the answer is 0 */
    zevgorim_written day = zevgorim_write_file(number[0], number[1], number[2], number[3], events, (size_t)size, file, sizeof file);
    if (day.answer != ZEVGORIM_OK) return fails("file refused");
    FILE *out = fopen(argv[1], "wb");
    if (out == NULL) return fails("cannot open the file");
    int written = fwrite(file, 1, day.size, out) == day.size;
    return fclose(out) == 0 && written ? 0 : fails("cannot write the file");
}
