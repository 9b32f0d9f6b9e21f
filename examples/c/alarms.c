/* Watches a desk: opens the track that its first argument names, feeds standard input line by line, and prints a line for each
   alarm that a line raised or cleared, as `dispatch run --alarms` has them: `LINE raised ENGINE ALARM`, `LINE cleared ENGINE ALARM`.

   cc -I include examples/c/alarms.c include/heap.c release/c/librbc_c.a -o alarms
   ./alarms examples/main_line.toml < examples/first.batch */
#include "rbc.h"

#include <stdio.h>
#include <stdlib.h>
#include <string.h>

/* The alarms that stand, with room for more. */
struct list {
    rbc_alarm *all;
    size_t count, room;
};

static void stop(const char *what, unsigned code) {
    fprintf(stderr, "alarms: %s: %u\n", what, code);
    exit(1);
}

static void *grown(void *old, size_t bytes) {
    void *block = realloc(old, bytes);
    if (!block)
        stop("out of memory", 0);
    return block;
}

static uint8_t *read_all(FILE *stream, size_t *length) {
    size_t room = 1 << 16;
    uint8_t *bytes = (uint8_t *)grown(NULL, room);
    *length = 0;
    for (size_t read; (read = fread(bytes + *length, 1, room - *length, stream)) > 0;) {
        *length += read;
        if (*length == room)
            bytes = (uint8_t *)grown(bytes, room *= 2);
    }
    return bytes;
}

/* Feeds one line. Its messages are dropped here; a radio block centre sends them. */
static void feed(rbc_desk *desk, const uint8_t *text, size_t length) {
    static rbc_message *out;
    static size_t room;
    rbc_answer answer;
    uint32_t code;
    while ((code = rbc_feed(desk, text, length, out, room, &answer)) == RBC_ROOM)
        out = (rbc_message *)grown(out, (room = answer.count) * sizeof *out);
    if (code != RBC_DONE)
        stop("a line was not taken", code);
}

/* Asks for the alarms until there is room for all. */
static void ask(rbc_desk *desk, struct list *list) {
    for (;;) {
        uint32_t code = rbc_alarms(desk, list->all, list->room, &list->count);
        if (code != RBC_DONE)
            stop("no alarms", code);
        if (list->count <= list->room)
            return;
        list->all = (rbc_alarm *)grown(list->all, (list->room = list->count) * sizeof *list->all);
    }
}

/* By engine, kind and number: the order in which they are given. */
static int compare(const rbc_alarm *a, const rbc_alarm *b) {
    if (a->engine != b->engine)
        return a->engine < b->engine ? -1 : 1;
    if (a->kind != b->kind)
        return a->kind < b->kind ? -1 : 1;
    return a->number == b->number ? 0 : a->number < b->number ? -1 : 1;
}

static void print(size_t line, const char *how, const rbc_alarm *alarm) {
    static const char *const kinds[] = {"place", "stop", "restriction", "answer"};
    printf("%zu %s %u %s", line, how, (unsigned)alarm->engine, kinds[alarm->kind]);
    if (alarm->kind != RBC_ALARM_PLACE)
        printf(" %u", (unsigned)alarm->number);
    putchar('\n');
}

/* The alarms of only one of two lists: both are in order. */
static void print_changes(size_t line, const struct list *old, const struct list *now) {
    size_t i = 0, k = 0;
    while (i < old->count || k < now->count) {
        int order = i == old->count ? 1 : k == now->count ? -1 : compare(&old->all[i], &now->all[k]);
        if (order < 0)
            print(line, "cleared", &old->all[i]);
        if (order > 0)
            print(line, "raised", &now->all[k]);
        i += order <= 0;
        k += order >= 0;
    }
}

int main(int argc, char **argv) {
    FILE *file = argc == 2 ? fopen(argv[1], "rb") : NULL;
    if (!file)
        stop("usage: alarms TRACK < BATCH", 0);
    size_t length;
    uint8_t *track = read_all(file, &length);
    fclose(file);

    rbc_desk desk = RBC_NONE;
    uint32_t code = rbc_open(&desk, track, length);
    free(track);
    if (code != RBC_DONE)
        stop("the track was refused", code);

    uint8_t *batch = read_all(stdin, &length);
    struct list lists[2] = {{NULL, 0, 0}, {NULL, 0, 0}};
    size_t line = 0;
    for (const uint8_t *at = batch, *end = batch + length; at < end;) {
        const uint8_t *feed_at = (const uint8_t *)memchr(at, '\n', (size_t)(end - at));
        const uint8_t *behind = feed_at ? feed_at : end;
        feed(&desk, at, (size_t)(behind - at));
        at = feed_at ? behind + 1 : end;
        line++;
        ask(&desk, &lists[line % 2]);
        print_changes(line, &lists[(line + 1) % 2], &lists[line % 2]);
    }
    free(batch);
    free(lists[0].all);
    free(lists[1].all);
    size_t count = 0;
    if (rbc_close(&desk) != RBC_DONE || rbc_alarms(&desk, NULL, 0, &count) != RBC_NOT_NOW)
        stop("the desk was not closed", 0);
    return 0;
}
