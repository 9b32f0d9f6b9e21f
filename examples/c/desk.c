/* Shows what a desk knows: opens the track that its first argument names, feeds standard input line by line, says in words why a line
   was refused, and prints at the end each train, stop and restriction, and what waits for an answer. Where the track is refused it
   prints the report on it.

   cc -I include examples/c/desk.c include/heap.c release/c/librbc_c.a -o desk
   ./desk examples/main_line.toml < examples/stop.batch */
#include "rbc.h"

#include <stdio.h>
#include <stdlib.h>
#include <string.h>

static void stop(const char *what, unsigned code) {
    fprintf(stderr, "desk: %s: %u\n", what, code);
    exit(1);
}

static void *grown(void *old, size_t bytes) {
    void *new = realloc(old, bytes);
    if (!new && bytes)
        stop("out of memory", 0);
    return new;
}

static uint8_t *read_all(FILE *stream, size_t *length) {
    size_t room = 1 << 16;
    uint8_t *bytes = grown(NULL, room);
    *length = 0;
    for (size_t read; (read = fread(bytes + *length, 1, room - *length, stream)) > 0;) {
        *length += read;
        if (*length == room)
            bytes = grown(bytes, room *= 2);
    }
    return bytes;
}

/* Asks first for the count, then for the list. Nothing may be fed between the two. */
#define ASK(call, desk, all, count)                                                                     \
    do {                                                                                                \
        if (call(desk, NULL, 0, &(count)) != RBC_DONE)                                                  \
            stop(#call, 0);                                                                             \
        (all) = grown(NULL, (count) * sizeof *(all));                                                   \
        if (call(desk, all, count, &(count)) != RBC_DONE)                                               \
            stop(#call, 1);                                                                             \
    } while (0)

static void print_report(const uint8_t *track, size_t length) {
    rbc_report report;
    uint32_t code = rbc_check(track, length, NULL, 0, &report);
    if (code != RBC_DONE)
        stop("no report", code);
    uint8_t *text = grown(NULL, report.count);
    if (rbc_check(track, length, text, report.count, &report) != RBC_DONE)
        stop("no report", 1);
    fwrite(text, 1, report.count, stdout);
    free(text);
}

/* Why a line was refused: it changed nothing, so the desk refuses it again. */
static void print_reason(rbc_desk *desk, size_t number, const uint8_t *line, size_t length) {
    uint8_t text[512];
    size_t count;
    if (rbc_explain_line(desk, line, length, text, sizeof text, &count) != RBC_DONE)
        stop("no reason", 0);
    printf("line %zu: %.*s", number, (int)(count < sizeof text ? count : sizeof text), (const char *)text);
}

/* Feeds one line. Its messages are dropped here; a radio block centre sends them. */
static void feed(rbc_desk *desk, size_t number, const uint8_t *line, size_t length) {
    static rbc_message *out;
    static size_t room;
    rbc_answer answer;
    uint32_t code;
    while ((code = rbc_feed(desk, line, length, out, room, &answer)) == RBC_ROOM)
        out = grown(out, (room = answer.count) * sizeof *out);
    if (code != RBC_DONE)
        stop("a line was not taken", code);
    if (answer.refused)
        print_reason(desk, number, line, length);
}

static void print_trains(rbc_desk *desk) {
    rbc_train *all;
    size_t count;
    ASK(rbc_trains, desk, all, count);
    for (size_t i = 0; i < count; i++) {
        printf("train %u: length %u, stamp %u, ", all[i].engine, all[i].length, all[i].stamp);
        if (all[i].placed)
            printf("line %u, %u-%u, facing %s, ", all[i].line, all[i].from, all[i].to, all[i].facing == RBC_UP ? "up" : "down");
        else
            printf("no place, ");
        printf("holds %u stop and %u restriction identifiers\n", all[i].stops, all[i].restrictions);
    }
    free(all);
}

static void print_active(rbc_desk *desk) {
    static const char *const ways[] = {"down", "up", "both"};
    rbc_stop_segment *stops;
    rbc_restriction *restrictions;
    size_t count;
    ASK(rbc_stops, desk, stops, count);
    for (size_t i = 0; i < count; i++)
        printf("stop %u: %u:%u-%u\n", stops[i].number, stops[i].line, stops[i].from, stops[i].to);
    free(stops);
    ASK(rbc_restrictions, desk, restrictions, count);
    for (size_t i = 0; i < count; i++) {
        const rbc_restriction *one = &restrictions[i];
        printf("restriction %u: %u:%u-%u %s %u %u\n", one->number, one->line, one->from, one->to, ways[one->ways], one->speed, one->front);
    }
    free(restrictions);
}

static void print_outstanding(rbc_desk *desk) {
    static const char *const kinds[] = {"conditional stop", "unconditional stop", "restriction", "revocation of a stop",
                                        "revocation of a restriction"};
    rbc_outstanding_entry *all;
    size_t count;
    ASK(rbc_outstanding, desk, all, count);
    for (size_t i = 0; i < count; i++) {
        printf("waiting: train %u, identifier %u, stamp %u, %s", all[i].engine, all[i].identifier, all[i].stamp, kinds[all[i].kind]);
        if (all[i].kind < RBC_WAITS_REVOCATION_OF_STOP)
            printf(" %u", all[i].number);
        putchar('\n');
    }
    free(all);
}

int main(int argc, char **argv) {
    FILE *file = argc == 2 ? fopen(argv[1], "rb") : NULL;
    if (!file)
        stop("usage: desk TRACK < BATCH", 0);
    size_t length;
    uint8_t *track = read_all(file, &length);
    fclose(file);
    printf("rules %u\n", rbc_rules());

    rbc_desk desk = RBC_NONE;
    uint32_t code = rbc_open(&desk, track, length);
    if (code >= RBC_TRACK_TEXT) {
        print_report(track, length);
        return 1;
    }
    free(track);
    if (code != RBC_DONE)
        stop("the track was refused", code);

    uint8_t *batch = read_all(stdin, &length);
    size_t line = 0;
    for (const uint8_t *at = batch, *end = batch + length; at < end;) {
        const uint8_t *feed_at = memchr(at, '\n', (size_t)(end - at));
        const uint8_t *behind = feed_at ? feed_at : end;
        feed(&desk, ++line, at, (size_t)(behind - at));
        at = feed_at ? behind + 1 : end;
    }
    free(batch);
    print_trains(&desk);
    print_active(&desk);
    print_outstanding(&desk);
    if (rbc_close(&desk) != RBC_DONE)
        stop("the desk was not closed", 0);
    return 0;
}
