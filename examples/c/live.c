/* A desk in a program of its own: opens the track that its first argument names, feeds standard input line by line, and then
   prints what `dispatch run` prints for that batch: a line for each answer, and then the messages by engine.

   cc -I include examples/c/live.c include/heap.c release/c/librbc_c.a -o live
   ./live examples/main_line.toml < examples/first.batch */
#include "rbc.h"

#include <stdio.h>
#include <stdlib.h>
#include <string.h>

/* A message that was sent, with the number of the line that sent it: as many bytes as it has. */
struct mail {
    size_t number, line;
    uint32_t engine, length;
    uint8_t *bytes;
};

static struct mail *mails;
static size_t count_of_mails, room_for_mails;

static void stop(const char *what, unsigned code) {
    fprintf(stderr, "live: %s: %u\n", what, code);
    exit(1);
}

static void *grown(void *old, size_t bytes) {
    void *block = realloc(old, bytes);
    if (!block)
        stop("out of memory", 0);
    return block;
}

/* All bytes of a stream. */
static uint8_t *read_all(FILE *stream, size_t *length) {
    size_t room = 1 << 16;
    uint8_t *bytes = (uint8_t *)grown(NULL, room);
    *length = 0;
    for (size_t read; (read = fread(bytes + *length, 1, room - *length, stream)) > 0;) {
        *length += read;
        if (*length == room)
            bytes = (uint8_t *)grown(bytes, room *= 2);
    }
    return bytes;
}

/* Feeds one line, with room for its messages, and keeps them. */
static void feed(rbc_desk *desk, size_t line, const uint8_t *text, size_t length) {
    static rbc_message *out;
    static size_t room;
    rbc_answer answer;
    uint32_t code;
    while ((code = rbc_feed(desk, text, length, out, room, &answer)) == RBC_ROOM)
        out = (rbc_message *)grown(out, (room = answer.count) * sizeof *out);
    if (code != RBC_DONE)
        stop("a line was not taken", code);
    if (answer.refused)
        printf("%zu refused %u\n", line, (unsigned)answer.refused);
    else
        printf("%zu ok %zu\n", line, answer.count);
    for (size_t i = 0; i < answer.count; i++) {
        if (count_of_mails == room_for_mails)
            mails = (struct mail *)grown(mails, (room_for_mails = 2 * room_for_mails + 64) * sizeof *mails);
        uint8_t *bytes = (uint8_t *)memcpy(grown(NULL, out[i].length), out[i].bytes, out[i].length);
        struct mail mail = {count_of_mails, line, out[i].engine, out[i].length, bytes};
        mails[count_of_mails] = mail;
        count_of_mails++;
    }
}

static int by_engine(const void *a, const void *b) {
    const struct mail *x = (const struct mail *)a, *y = (const struct mail *)b;
    if (x->engine != y->engine)
        return x->engine < y->engine ? -1 : 1;
    return x->number < y->number ? -1 : 1;
}

int main(int argc, char **argv) {
    FILE *file = argc == 2 ? fopen(argv[1], "rb") : NULL;
    if (!file)
        stop("usage: live TRACK < BATCH", 0);
    size_t length;
    uint8_t *track = read_all(file, &length);
    fclose(file);

    rbc_desk desk = RBC_NONE;
    uint32_t code = rbc_open(&desk, track, length);
    free(track);
    if (code != RBC_DONE)
        stop("the track was refused", code);

    uint8_t *batch = read_all(stdin, &length);
    size_t line = 0;
    for (const uint8_t *at = batch, *end = batch + length; at < end;) {
        const uint8_t *feed_at = (const uint8_t *)memchr(at, '\n', (size_t)(end - at));
        const uint8_t *behind = feed_at ? feed_at : end;
        feed(&desk, ++line, at, (size_t)(behind - at));
        at = feed_at ? behind + 1 : end;
    }
    free(batch);

    if (count_of_mails)
        qsort(mails, count_of_mails, sizeof *mails, by_engine);
    for (size_t i = 0; i < count_of_mails; i++) {
        printf("%u %zu ", (unsigned)mails[i].engine, mails[i].line);
        for (uint32_t k = 0; k < mails[i].length; k++)
            printf("%02X", mails[i].bytes[k]);
        putchar('\n');
        free(mails[i].bytes);
    }
    free(mails);
    if (rbc_close(&desk) != RBC_DONE || rbc_close(&desk) != RBC_NOT_NOW)
        stop("the desk was not closed once", 0);
    return 0;
}
