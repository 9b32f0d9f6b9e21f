/* Feeds a batch to a live desk and prints what `dispatch run` prints for it; or refuses memory to it; or times it.

   c_library TRACK              room is asked for first, where a line sends messages. Before each line the desk is asked whether it
                                will refuse it, and after it for each list that it has: for the count alone, with room for one entry
                                more, and with room for one too few
   c_library TRACK refuse       each line is fed again and again: the first time its first allocation is refused, then its second, and so
                                on, until it is taken; opening, each list and the report on the track too. The number of refusals goes to
                                standard error
   c_library TRACK time         prints no answer, but how many ns a line took, and how many bytes are resident
   c_library TRACK many COUNT   feeds COUNT lines, those of the batch over and over on one desk, and prints ten times how
                                many bytes are resident

   Linked with -Wl,--wrap=malloc,--wrap=realloc. The batch is on standard input. The exit status is 1 where a call does not do as
   rbc.h says. */
#define _POSIX_C_SOURCE 200809L
#include "rbc.h"

#include <stdio.h>
#include <stdlib.h>
#include <string.h>
#include <time.h>

enum { ROOM = 1 << 16, MAILS = 1 << 20, LISTS = 1 << 24 };

/* What a desk is asked for, and how long an entry is. */
enum { ALARMS, TRAINS, STOPS, RESTRICTIONS, OUTSTANDING, REASON, ASKED };
static const size_t sizes[ASKED] = {sizeof(rbc_alarm), sizeof(rbc_train), sizeof(rbc_stop_segment), sizeof(rbc_restriction),
                                    sizeof(rbc_outstanding_entry), 1};

struct mail {
    size_t number, line;
    uint32_t engine, length;
    const uint8_t *bytes;
};

static uint8_t track[1 << 24], batch[(1 << 24) + 1];
static rbc_message out[ROOM], before[ROOM];
static struct mail mails[MAILS];
static uint8_t kept[1 << 27]; /* the bytes of all mails */
static _Alignas(16) uint8_t list[LISTS], other[LISTS];
static size_t count_of_mails, count_kept, refusals;
static long refused_at, calls;

void *__real_malloc(size_t size);
void *__real_realloc(void *block, size_t size);

void *__wrap_malloc(size_t size) {
    return ++calls == refused_at ? NULL : __real_malloc(size);
}

void *__wrap_realloc(void *block, size_t size) {
    return ++calls == refused_at ? NULL : __real_realloc(block, size);
}

static void stop(const char *what, size_t line, unsigned code) {
    fprintf(stderr, "c_library: line %zu: %s: %u\n", line, what, code);
    exit(1);
}

static size_t read_all(FILE *stream, uint8_t *bytes, size_t room) {
    size_t length = fread(bytes, 1, room, stream);
    if (length == room)
        stop("the input is too long", 0, 0);
    return length;
}

static long resident(void) {
    long pages = 0;
    FILE *file = fopen("/proc/self/statm", "r");
    if (!file || fscanf(file, "%*d %ld", &pages) != 1)
        stop("no /proc/self/statm", 0, 0);
    fclose(file);
    return pages * 4096;
}

static uint32_t ask(int what, rbc_desk *desk, const uint8_t *line, size_t length, void *into, size_t room, size_t *count) {
    switch (what) {
    case ALARMS:
        return rbc_alarms(desk, into, room, count);
    case TRAINS:
        return rbc_trains(desk, into, room, count);
    case STOPS:
        return rbc_stops(desk, into, room, count);
    case RESTRICTIONS:
        return rbc_restrictions(desk, into, room, count);
    case OUTSTANDING:
        return rbc_outstanding(desk, into, room, count);
    default:
        return rbc_explain_line(desk, line, length, into, room, count);
    }
}

/* A desk that is not to be asked answers this code, and says nothing. */
static void try_unasked(rbc_desk *desk, uint32_t wanted) {
    for (int what = 0; what < ASKED; what++) {
        _Alignas(16) uint8_t into[64];
        size_t count = 77;
        memset(into, 0xAA, sizeof into);
        uint32_t code = ask(what, desk, batch, 0, into, 1, &count);
        if (code != wanted || count != 77 || into[0] != 0xAA || memcmp(into, into + 1, sizeof into - 1) != 0)
            stop("a desk that is not to be asked gave something", (size_t)what, code);
    }
}

/* The list of one kind: the count alone, then with room for one entry more, which stays as it was, and with room for one too few.
   With `refuse` each allocation is refused in turn, and then nothing is written. The list stands in `list`. */
static size_t ask_for(int what, rbc_desk *desk, size_t line, const uint8_t *text, size_t length, int refuse) {
    size_t count = 77, again = 77, size = sizes[what];
    if (ask(what, desk, text, length, NULL, 0, &count) != RBC_DONE || (count + 1) * size > LISTS)
        stop("no count", line, (unsigned)what);
    memset(list, 0xAA, (count + 1) * size);
    memset(other, 0xAA, (count + 1) * size);
    for (refused_at = refuse; refused_at; refused_at++) {
        calls = 0;
        uint32_t code = ask(what, desk, text, length, list, count + 1, &again);
        if (code == RBC_DONE)
            break;
        refusals++;
        if (code != RBC_MEMORY || again != 77 || memcmp(list, other, (count + 1) * size) != 0)
            stop("memory was refused, and something was given", line, code);
    }
    refused_at = 0;
    if (ask(what, desk, text, length, list, count + 1, &again) != RBC_DONE || again != count)
        stop("another count with room", line, (unsigned)what);
    if (memcmp(list + count * size, other, size) != 0)
        stop("more was written than there is", line, (unsigned)what);
    if (count > 0 && (ask(what, desk, text, length, other, count - 1, &again) != RBC_DONE || again != count ||
                      memcmp(list, other, (count - 1) * size) != 0 || other[(count - 1) * size] != 0xAA))
        stop("room for one too few", line, (unsigned)what);
    return count;
}

/* What the lists have to do with one another: each train holds what waits at it, engines and numbers ascend, and places are in order. */
static void compare_lists(rbc_desk *desk, size_t line, int refuse) {
    static rbc_train trains[2048];
    size_t count = ask_for(TRAINS, desk, line, NULL, 0, refuse), at = 0, waits;
    if (count > 2000)
        stop("too many trains", line, (unsigned)count);
    memcpy(trains, list, count * sizeof *trains);
    for (size_t i = 0; i < count; i++)
        if ((i && trains[i].engine <= trains[i - 1].engine) || trains[i].placed > 1 || trains[i].from > trains[i].to ||
            trains[i].facing > RBC_UP || trains[i].stops > 15 || trains[i].restrictions > 255)
            stop("a bad train", line, trains[i].engine);
    waits = ask_for(OUTSTANDING, desk, line, NULL, 0, refuse);
    for (size_t i = 0; i < waits; i++) {
        rbc_outstanding_entry one;
        memcpy(&one, list + i * sizeof one, sizeof one);
        while (at < count && trains[at].engine < one.engine)
            at++;
        int of_stop = one.kind == RBC_WAITS_REVOCATION_OF_STOP || one.kind <= RBC_WAITS_UNCONDITIONAL_STOP;
        uint32_t *held = at < count && trains[at].engine == one.engine ? of_stop ? &trains[at].stops : &trains[at].restrictions : NULL;
        if (!held || *held == 0 || one.stamp > trains[at].stamp || (one.number == 0) != (one.kind >= RBC_WAITS_REVOCATION_OF_STOP))
            stop("a bad entry of what waits", line, one.engine);
        --*held;
    }
    count = ask_for(STOPS, desk, line, NULL, 0, refuse);
    for (size_t i = 0; i < count; i++) {
        const rbc_stop_segment *all = (const void *)list;
        if ((i && all[i].number < all[i - 1].number) || all[i].from > all[i].to)
            stop("a bad segment of a stop", line, all[i].number);
    }
    count = ask_for(RESTRICTIONS, desk, line, NULL, 0, refuse);
    for (size_t i = 0; i < count; i++) {
        const rbc_restriction *all = (const void *)list;
        if ((i && all[i].number <= all[i - 1].number) || all[i].from >= all[i].to || all[i].ways > RBC_BOTH || all[i].speed % 5 ||
            all[i].speed > 600 || all[i].front > 1)
            stop("a bad restriction", line, all[i].number);
    }
    ask_for(ALARMS, desk, line, NULL, 0, refuse);
}

/* The report on a text, with more than enough room, with refusals and with room for one byte too few. */
static rbc_report report_on(const uint8_t *text, size_t length, int refuse) {
    static const rbc_report none = {77, 77, 77};
    rbc_report report = none, again;
    memset(list, 0xAA, LISTS);
    for (refused_at = refuse; refused_at; refused_at++) {
        calls = 0;
        uint32_t code = rbc_check(text, length, list, LISTS, &report);
        if (code == RBC_DONE)
            break;
        refusals++;
        if (code != RBC_MEMORY || report.refused != 77 || report.warnings != 77 || report.count != 77 || list[0] != 0xAA)
            stop("memory was refused, and something was reported", 0, code);
    }
    refused_at = 0;
    if (rbc_check(text, length, list, LISTS, &report) != RBC_DONE || report.count == 0 || report.count >= LISTS ||
        list[report.count - 1] != '\n' || list[report.count] != 0xAA)
        stop("no report", 0, report.refused);
    memset(other, 0xAA, report.count);
    if (rbc_check(text, length, other, report.count - 1, &again) != RBC_DONE || again.count != report.count ||
        again.refused != report.refused || memcmp(list, other, report.count - 1) != 0 || other[report.count - 1] != 0xAA)
        stop("another report without room", 0, again.refused);
    return report;
}

static void try_check(size_t length, int refuse) {
    static const uint8_t shape[] = "horizon = 1\n", no_text[] = {'a', 0xFF};
    rbc_report report = {77, 77, 77};
    if (report_on(track, length, refuse).refused != 0)
        stop("the report refuses the track", 0, 0);
    if (report_on(shape, sizeof shape - 1, refuse).refused != RBC_TRACK_SHAPE)
        stop("another reason for no track", 0, 0);
    if (rbc_check(no_text, sizeof no_text, NULL, 0, &report) != RBC_NOT_UTF8 || report.count != 77)
        stop("a report on what is not UTF-8", 0, 0);
}

/* A caller that was compiled with another rbc.h is refused at each call, and nothing is changed. Behind the first byte, which was 0 in
   RBC_NONE before version 3, an older desk has padding, of any value. */
static void try_version(uint8_t version, size_t length) {
    rbc_desk desk;
    memset(&desk, RBC_VERSION, sizeof desk);
    desk.version = version;
    desk.memory = NULL;
    rbc_answer answer = {77, 77};
    if (rbc_open(&desk, track, length) != RBC_VERSION_OTHER)
        stop("a desk of another version was opened", 0, version);
    if (rbc_feed(&desk, batch, 0, out, 0, &answer) != RBC_VERSION_OTHER || answer.refused != 77 || answer.count != 77)
        stop("a desk of another version took a line", 0, version);
    try_unasked(&desk, RBC_VERSION_OTHER);
    if (rbc_close(&desk) != RBC_VERSION_OTHER || desk.version != version || desk.open != RBC_VERSION || desk.memory)
        stop("a desk of another version was closed", 0, version);
}

static void open_desk(rbc_desk *desk, size_t length, int refuse) {
    try_version(0, length);
    try_version(RBC_VERSION - 1, length);
    try_version(RBC_VERSION + 1, length);
    rbc_answer answer = {77, 77};
    if (rbc_feed(desk, batch, 0, out, 0, &answer) != RBC_NOT_NOW || answer.count != 77)
        stop("a desk that is not open took a line", 0, 0);
    if (rbc_close(desk) != RBC_NOT_NOW)
        stop("a desk that is not open was closed", 0, 0);
    try_unasked(desk, RBC_NOT_NOW);
    try_check(length, refuse);
    for (refused_at = refuse; refused_at; refused_at++) {
        calls = 0;
        uint32_t code = rbc_open(desk, track, length);
        if (code == RBC_DONE)
            break;
        refusals++;
        if (code != RBC_MEMORY || rbc_close(desk) != RBC_NOT_NOW)
            stop("memory was refused, and the desk was not", 0, code);
    }
    refused_at = 0;
    if (!refuse && rbc_open(desk, track, length) != RBC_DONE)
        stop("the track was refused", 0, 0);
    if (rbc_open(desk, track, length) != RBC_NOT_NOW)
        stop("an open desk was opened", 0, 0);
}

/* Feeds a line into so much room. With `refuse` its first allocation is refused, then, where that changed nothing, its second, and so
   on, until the call has all that it asks for. */
static uint32_t feed_into(rbc_desk *desk, size_t line, const uint8_t *text, size_t length, size_t room, int refuse, rbc_answer *answer) {
    if (!refuse)
        return rbc_feed(desk, text, length, out, room, answer);
    memcpy(before, out, room * sizeof *out);
    for (refused_at = 1;; refused_at++) {
        *answer = (rbc_answer){77, 77};
        calls = 0;
        uint32_t code = rbc_feed(desk, text, length, out, room, answer);
        if (code != RBC_MEMORY) {
            refused_at = 0;
            return code;
        }
        refusals++;
        if (answer->refused != 77 || answer->count != 77 || memcmp(before, out, room * sizeof *out) != 0)
            stop("memory was refused, and something was changed", line, code);
    }
}

/* Feeds a line with exactly the room that it needs, after it was refused for want of room. */
static void feed(rbc_desk *desk, size_t line, const uint8_t *text, size_t length, int refuse, rbc_answer *answer) {
    uint32_t code = feed_into(desk, line, text, length, 0, refuse, answer);
    if (code == RBC_ROOM) {
        size_t room = answer->count;
        if (answer->refused != 0 || room == 0 || room > ROOM)
            stop("a wrong count of messages", line, code);
        if (rbc_feed(desk, text, length, out, room - 1, answer) != RBC_ROOM || answer->count != room)
            stop("room for one message too few", line, 0);
        code = feed_into(desk, line, text, length, room, refuse, answer);
        if (answer->count != room)
            stop("another count of messages", line, code);
    } else if (answer->count != 0) {
        stop("messages without room", line, code);
    }
    if (code != RBC_DONE)
        stop("not taken", line, code);
}

static void print(size_t line, const rbc_answer *answer) {
    if (answer->refused)
        printf("%zu refused %u\n", line, (unsigned)answer->refused);
    else
        printf("%zu ok %zu\n", line, answer->count);
    for (size_t i = 0; i < answer->count; i++, count_of_mails++) {
        if (count_of_mails == MAILS || out[i].length > sizeof kept - count_kept)
            stop("too many messages", line, 0);
        uint8_t *bytes = memcpy(kept + count_kept, out[i].bytes, out[i].length);
        count_kept += out[i].length;
        mails[count_of_mails] = (struct mail){count_of_mails, line, out[i].engine, out[i].length, bytes};
    }
}

static int by_engine(const void *a, const void *b) {
    const struct mail *x = a, *y = b;
    if (x->engine != y->engine)
        return x->engine < y->engine ? -1 : 1;
    return x->number < y->number ? -1 : 1;
}

static void print_mails(void) {
    qsort(mails, count_of_mails, sizeof *mails, by_engine);
    for (size_t i = 0; i < count_of_mails; i++) {
        printf("%u %zu ", (unsigned)mails[i].engine, mails[i].line);
        for (uint32_t k = 0; k < mails[i].length; k++)
            printf("%02X", mails[i].bytes[k]);
        putchar('\n');
    }
}

/* The next line of a text, and what stands behind it. */
static const uint8_t *line_at(const uint8_t *at, const uint8_t *end, size_t *length) {
    const uint8_t *feed_at = memchr(at, '\n', (size_t)(end - at));
    *length = (size_t)((feed_at ? feed_at : end) - at);
    return feed_at ? feed_at + 1 : end;
}

static void run(rbc_desk *desk, const uint8_t *end, int refuse) {
    size_t line = 0, length;
    for (const uint8_t *at = batch; at < end;) {
        const uint8_t *text = at;
        rbc_answer answer;
        at = line_at(at, end, &length);
        size_t words = ask_for(REASON, desk, ++line, text, length, refuse);
        feed(desk, line, text, length, refuse, &answer);
        if ((words == 0) != (answer.refused == 0))
            stop("words on a line that is accepted, or none on one that is refused", line, answer.refused);
        compare_lists(desk, line, refuse);
        print(line, &answer);
    }
    print_mails();
}

static void measure(rbc_desk *desk, const uint8_t *end, size_t wanted, int times) {
    struct timespec from, to;
    size_t lines = 0, sent = 0, length, step = wanted / 10 ? wanted / 10 : 1;
    clock_gettime(CLOCK_MONOTONIC, &from);
    do {
        for (const uint8_t *at = batch; at < end && (!wanted || lines < wanted);) {
            const uint8_t *text = at;
            rbc_answer answer;
            at = line_at(at, end, &length);
            uint32_t code = rbc_feed(desk, text, length, out, ROOM, &answer);
            if (code != RBC_DONE)
                stop("not taken", lines, code);
            sent += answer.count;
            lines++;
            if (wanted && lines % step == 0)
                printf("%zu lines, %zu messages, %ld bytes resident\n", lines, sent, resident());
        }
    } while (wanted && lines < wanted);
    clock_gettime(CLOCK_MONOTONIC, &to);
    double ns = (double)(to.tv_sec - from.tv_sec) * 1e9 + (double)(to.tv_nsec - from.tv_nsec);
    if (times)
        printf("%zu lines, %zu messages, %.0f ns a line, %ld bytes resident\n", lines, sent, ns / (double)lines, resident());
}

int main(int argc, char **argv) {
    FILE *file = argc > 1 ? fopen(argv[1], "rb") : NULL;
    const char *mode = argc > 2 ? argv[2] : "";
    if (!file)
        stop("usage: c_library TRACK [refuse|time|many COUNT] < BATCH", 0, 0);
    size_t length = read_all(file, track, sizeof track);
    const uint8_t *end = batch + read_all(stdin, batch, sizeof batch);
    fclose(file);

    rbc_desk desk = RBC_NONE;
    int refuse = strcmp(mode, "refuse") == 0;
    open_desk(&desk, length, refuse);
    if (strcmp(mode, "time") == 0)
        measure(&desk, end, 0, 1);
    else if (strcmp(mode, "many") == 0 && argc > 3)
        measure(&desk, end, (size_t)atoll(argv[3]), 1);
    else
        run(&desk, end, refuse);
    if (rbc_close(&desk) != RBC_DONE || rbc_close(&desk) != RBC_NOT_NOW)
        stop("the desk was not closed once", 0, 0);
    if (refuse)
        fprintf(stderr, "%zu refusals\n", refusals);
    return 0;
}
