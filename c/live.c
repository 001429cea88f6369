/* A box at work: a frame comes, one event is carried out, the state is saved, the reply goes out. Started again, it goes on from the
 * state that it saved. Standard input stands for the radio: a line is a frame, `kind handset`. The reply is the line that pads prints
 * for the event: answer, stage, pad, figure (claim turns and return operations). Pads named after the setup's four numbers are closed.
 *
 * The state is saved before the reply goes out, so that no handset has heard of a pad that the box can forget. A saved state that cannot
 * be trusted stops the box: a fresh one would hand out pads that handsets still hold. */
#define _POSIX_C_SOURCE 200809L
#include <errno.h>
#include <fcntl.h>
#include <stdio.h>
#include <stdlib.h>
#include <string.h>
#include <unistd.h>
#include "zevgorim.h"

/* What is stored: the state, and its check sum, low byte first. */
enum { STATE_SIZE = sizeof(zevgorim_state), STORED_SIZE = STATE_SIZE + 4, PATH_SIZE = 4096, MOST_CLOSED = 64 };

/* CRC-32 as in zip files. */
static uint32_t check_sum(const uint8_t *bytes, size_t size) {
    uint32_t sum = 0xffffffff;
    for (size_t i = 0; i < size; i++) {
        sum ^= bytes[i];
        for (int bit = 0; bit < 8; bit++) sum = sum >> 1 ^ (sum & 1 ? 0xedb88320 : 0);
    }
    return ~sum;
}

static void put_sum(uint8_t *stored) {
    uint32_t sum = check_sum(stored, STATE_SIZE);
    for (int i = 0; i < 4; i++) stored[STATE_SIZE + i] = (uint8_t)(sum >> 8 * i);
}

/* The bytes of a state, with 0 for its padding, which no call defines. */
static void put_state(uint8_t *stored, const zevgorim_state *state) {
    size_t bits_end = offsetof(zevgorim_state, setup.bits) + 1, end = offsetof(zevgorim_state, process[64]);
    memcpy(stored, state, STATE_SIZE);
    memset(stored + bits_end, 0, offsetof(zevgorim_state, setup.closed) - bits_end);
    memset(stored + end, 0, STATE_SIZE - end);
}

/* One box on one state: takes a lock beside its file, which lasts until the program ends. */
static int lock(const char *path) {
    char aside[PATH_SIZE];
    if ((size_t)snprintf(aside, sizeof aside, "%s.lock", path) >= sizeof aside) return 0;
    int fd = open(aside, O_RDWR | O_CREAT, 0666);
    struct flock whole = {.l_type = F_WRLCK, .l_whence = SEEK_SET};
    return fd >= 0 && fcntl(fd, F_SETLK, &whole) == 0;
}

/* Writes out the folder of a file, so that its new name lasts. */
static int sync_folder(const char *path) {
    char folder[PATH_SIZE] = ".";
    const char *slash = strrchr(path, '/');
    if (slash != NULL) snprintf(folder, sizeof folder, "%.*s", (int)(slash - path) + 1, path);
    int fd = open(folder, O_RDONLY);
    if (fd < 0) return 0;
    int synced = fsync(fd) == 0;
    close(fd);
    return synced;
}

/* Writes the state aside and renames, so that a stop at any moment leaves the old file or the new one. */
static int save(const char *path, const zevgorim_state *state) {
    char aside[PATH_SIZE];
    if ((size_t)snprintf(aside, sizeof aside, "%s.new", path) >= sizeof aside) return 0;
    uint8_t stored[STORED_SIZE];
    put_state(stored, state);
    put_sum(stored);
    FILE *out = fopen(aside, "wb");
    if (out == NULL) return 0;
    int written = fwrite(stored, 1, STORED_SIZE, out) == STORED_SIZE && fflush(out) == 0 && fsync(fileno(out)) == 0;
    return fclose(out) == 0 && written && rename(aside, path) == 0 && sync_folder(path);
}

static const char none_saved[] = "no saved state";

/* NULL where the saved state is restored, otherwise why it is not. */
static const char *restore(const char *path, const zevgorim_state *fresh, zevgorim_state *state) {
    uint8_t stored[STORED_SIZE + 1], right[STORED_SIZE];
    FILE *in = fopen(path, "rb");
    if (in == NULL) return errno == ENOENT ? none_saved : "saved state cannot be read";
    size_t size = fread(stored, 1, sizeof stored, in);
    int failed = ferror(in);
    fclose(in);
    if (failed) return "saved state cannot be read";
    if (size != STORED_SIZE) return "saved state damaged";
    memcpy(right, stored, STATE_SIZE);
    put_sum(right);
    if (memcmp(stored, right, STORED_SIZE) != 0) return "saved state damaged";
    zevgorim_state saved;
    memcpy(&saved, stored, STATE_SIZE);
    /* N, L, g and b come first */
    if (memcmp(&saved, fresh, 4) != 0 || saved.setup.closed != fresh->setup.closed) return "saved state has another setup";
    if (zevgorim_gate_report(saved).answer != ZEVGORIM_OK) return "saved state broken";
    *state = saved;
    return NULL;
}

/* The reply to an event: its journal entry, as a line. */
static int reply(const zevgorim_done *done, uint32_t handset) {
    uint8_t entry[4] = {done->answer, 255, 255, 255}, line[16];
    int shown = done->answer != ZEVGORIM_KIND && done->answer != ZEVGORIM_STRANGER && done->answer != ZEVGORIM_BROKEN_STATE;
    if (shown) {
        const zevgorim_process *process = &done->state.process[handset];
        entry[1] = process->stage;
        entry[2] = process->name;
        entry[3] = (uint8_t)(process->steps + process->returns);
    }
    zevgorim_written text = zevgorim_journal_text(entry, sizeof entry, line, sizeof line);
    return fwrite(line, 1, text.size, stdout) == text.size && fflush(stdout) == 0;
}

/* Reads a number and moves past it; one of more than 32 bits becomes the largest, which every call refuses. */
static int take_number(char **at, uint32_t *number) {
    char *end, *digits = *at + strspn(*at, " ");
    unsigned long value = strtoul(digits, &end, 10);
    if (*digits < '0' || *digits > '9') return 0;
    *number = value < UINT32_MAX ? (uint32_t)value : UINT32_MAX;
    *at = end;
    return 1;
}

/* Reads the setup: four numbers, and the pads to be closed. One of more than 8 bits becomes the largest, which the setup refuses. */
static int take_setup(char **arguments, int count, uint32_t *number, uint8_t *closed) {
    uint32_t given;
    for (int i = 0; i < count; i++) {
        if (!take_number(&arguments[i], &given) || *arguments[i] != 0) return 0;
        if (i < 4) number[i] = given;
        else closed[i - 4] = given < 255 ? (uint8_t)given : 255;
    }
    return 1;
}

/* Reads a line without its end. One that is too long, or cut off by the input's end, is left empty: half a frame is none. */
static int take_line(char *line, size_t size) {
    size_t used = 0;
    int c = getchar();
    if (c == EOF) return 0;
    for (; c != EOF && c != '\n'; c = getchar()) {
        if (used < size) line[used++] = (char)c;
    }
    line[c == '\n' && used < size ? used : 0] = 0;
    return 1;
}

/* Frames until the input ends. */
static int serve(const char *path, zevgorim_state state) {
    char frame[64];
    uint32_t kind, handset;
    while (take_line(frame, sizeof frame)) {
        char *at = frame;
        if (!take_number(&at, &kind) || !take_number(&at, &handset) || *at != 0) {
            fprintf(stderr, "live: not a frame\n");
            continue;
        }
        zevgorim_done done = zevgorim_event(state, kind, handset);
        /* a refused event changes nothing */
        if (done.answer == ZEVGORIM_OK && !save(path, &done.state)) {
            fprintf(stderr, "live: cannot save to %s\n", path);
            return 1;
        }
        state = done.state;
        if (!reply(&done, handset)) {
            fprintf(stderr, "live: cannot reply\n");
            return 1;
        }
    }
    return 0;
}

int main(int argc, char **argv) {
    uint32_t number[4];
    uint8_t closed[MOST_CLOSED];
    if (argc < 6 || argc > 6 + MOST_CLOSED || !take_setup(argv + 2, argc - 2, number, closed)) {
        fprintf(stderr, "usage: live STATE-FILE HANDSETS LEAVES ROWS BITS [CLOSED-PAD ...]\n");
        return 2;
    }
    zevgorim_done fresh = zevgorim_closed_setup(number[0], number[1], number[2], number[3], closed, (size_t)argc - 6);
    if (fresh.answer != ZEVGORIM_OK) {
        fprintf(stderr, "live: setup refused: %u\n", fresh.answer);
        return 1;
    }
    if (!lock(argv[1])) {
        fprintf(stderr, "live: cannot lock %s: is another box at work on it?\n", argv[1]);
        return 1;
    }
    zevgorim_state state = fresh.state;
    const char *why = restore(argv[1], &fresh.state, &state);
    if (why == none_saved) {
        fprintf(stderr, "live: no saved state: fresh setup, every %s is open\n", argc > 6 ? "other pad" : "pad");
    } else if (why != NULL) {
        fprintf(stderr, "live: %s: remove %s once every pad is back\n", why, argv[1]);
        return 1;
    }
    return serve(argv[1], state);
}
