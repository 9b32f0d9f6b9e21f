/* Encodes the texts of worked messages by the codec for C, and compares with what its other calls give:

   encoding FILE..

   A line of a file is the bytes of a message in hexadecimal digits, a tab and its text; a line with a refusal in place of
   the text is passed over. Of each text:
   - The bytes that ertms_encode gives are those that ertms_write_to_train or ertms_write_from_train gives of the fields of
     the message. Those of a message from a train are read again, with the same fields.
   - Room for just the bytes is enough, and room for one byte too few is refused.
   - A word that is turned into another, a last word that is left out and a word more are refused with the number of that
     word, and what can stand there is told, as far as there is room.
   - Each allocation is refused in turn.
   - Of the fields of a message from a train, each that is put out of its range is refused.
   What a call has to leave is looked at too. The exit status is 1 at the first difference; the last line counts the calls
   by their codes.

   Linked with -Wl,--wrap=malloc,--wrap=realloc. */
#include "ertms.h"

#include <stdio.h>
#include <stdlib.h>
#include <string.h>

enum { LINE = 1 << 16, WORDS = 4096, ROOM = ERTMS_TO_TRAIN_BYTES, TOLD = 128 };

static uint8_t out[ROOM], told[TOLD];
static ertms_encoded encoded;
static const ertms_encoded marked = {77, 77, 77};
static long refused_at, calls;
static unsigned long tried[ERTMS_WRONG_WORD + 1];
static const char *now = "";

void *__real_malloc(size_t size);
void *__real_realloc(void *block, size_t size);

void *__wrap_malloc(size_t size) {
    return ++calls == refused_at ? NULL : __real_malloc(size);
}

void *__wrap_realloc(void *block, size_t size) {
    return ++calls == refused_at ? NULL : __real_realloc(block, size);
}

static void stop(const char *what, unsigned code) {
    printf("encoding: %s: %u: %s\n", what, code, now);
    exit(1);
}

static int is_marked(const uint8_t *bytes, size_t length) {
    for (size_t i = 0; i < length; i++)
        if (bytes[i] != 0xAA)
            return 0;
    return 1;
}

static int is_same(ertms_encoded a, ertms_encoded b) {
    return a.count == b.count && a.word == b.word && a.words == b.words;
}

/* Encodes a text, into so much room for its bytes and for words, and looks at what every answer has to leave. */
static uint32_t encode(const char *text, size_t length, size_t room, size_t room_for_words) {
    memset(out, 0xAA, sizeof out);
    memset(told, 0xAA, sizeof told);
    encoded = marked;
    calls = 0;
    uint32_t code = ertms_encode((const uint8_t *)text, length, room ? out : NULL, room, room_for_words ? told : NULL,
                                 room_for_words, &encoded);
    size_t written = code == ERTMS_OK ? encoded.count : 0;
    size_t worded = code != ERTMS_WRONG_WORD ? 0 : encoded.words < room_for_words ? encoded.words : room_for_words;
    if (written > room || !is_marked(out + written, ROOM - written))
        stop("bytes behind the message", code);
    if (!is_marked(told + worded, TOLD - worded))
        stop("bytes behind the words", code);
    if ((code == ERTMS_OK || code == ERTMS_ROOM) && (encoded.count == 0 || encoded.word != 0 || encoded.words != 0))
        stop("a message with a wrong word", code);
    if (code == ERTMS_MEMORY && !is_same(encoded, marked))
        stop("something was told without memory", code);
    tried[code]++;
    return code;
}

/* A text whose first wrong word has this number. */
static void try_wrong(const char *text, size_t length, size_t number) {
    char begin[32];
    uint8_t whole[TOLD];
    size_t front = (size_t)sprintf(begin, "word %zu: ", number);
    uint32_t code = encode(text, length, ROOM, TOLD);
    if (code != ERTMS_WRONG_WORD || encoded.word != number || encoded.count != 0 || encoded.words <= front ||
        encoded.words > TOLD || memcmp(told, begin, front) != 0)
        stop("another wrong word", code);
    size_t count = encoded.words;
    memcpy(whole, told, TOLD);
    if (encode(text, length, 0, count - 1) != ERTMS_WRONG_WORD || encoded.words != count ||
        memcmp(told, whole, count - 1) != 0)
        stop("words without room", code);
    if (encode(text, length, 0, 0) != ERTMS_WRONG_WORD || encoded.words != count || encoded.word != number)
        stop("a wrong word without room", code);
    for (refused_at = 1; (code = encode(text, length, ROOM, TOLD)) == ERTMS_MEMORY; refused_at++)
        ;
    if (refused_at == 1 || code != ERTMS_WRONG_WORD || memcmp(told, whole, TOLD) != 0)
        stop("words when memory was refused before", code);
    refused_at = 0;
}

/* What is told of one wrong word of this text, in words. */
static void try_words(const char *text, const char *words) {
    now = text;
    if (encode(text, strlen(text), ROOM, TOLD) != ERTMS_WRONG_WORD || encoded.words != strlen(words) ||
        memcmp(told, words, encoded.words) != 0)
        stop("other words", encoded.word);
}

/* Each word turned into another, and the text up to each word. */
static void try_each_word(const char *text, size_t length) {
    static char other[LINE + 2];
    size_t number = 0;
    for (size_t from = 0, to; from < length; from = to + 1) {
        const char *space = memchr(text + from, ' ', length - from);
        to = space ? (size_t)(space - text) : length;
        number++;
        memcpy(other, text, from);
        other[from] = 'x';
        memcpy(other + from + 1, text + to, length - to);
        try_wrong(other, from + 1 + length - to, number);
        memcpy(other + from, text + from, to - from);
        other[to] = 'x';
        memcpy(other + to + 1, text + to, length - to);
        try_wrong(other, length + 1, number);
    }
    memcpy(other, text, length);
    memcpy(other + length, " x", 2);
    try_wrong(other, length + 2, number + 1);
    try_wrong(other, length + 1, number + 1);
}

/* The text without its last word: that word is missing. */
static void try_shorter(const char *text, size_t length) {
    size_t spaces = 0, last = 0;
    for (size_t i = 0; i < length; i++)
        if (text[i] == ' ') {
            spaces++;
            last = i;
        }
    try_wrong(text, last, spaces + 1);
}

static uint32_t write_fields(const ertms_from_train *fields, size_t room, size_t *count) {
    memset(out, 0xAA, sizeof out);
    *count = 77;
    uint32_t code = ertms_write_from_train(fields, room ? out : NULL, room, count);
    size_t written = code == ERTMS_OK ? *count : 0;
    if (written > room || !is_marked(out + written, ROOM - written))
        stop("bytes behind the message from a train", code);
    tried[code]++;
    return code;
}

static void try_none(ertms_from_train fields) {
    size_t count;
    uint32_t code = write_fields(&fields, ROOM, &count);
    if (code != ERTMS_NO_MESSAGE || count != 77)
        stop("fields of no message were written", code);
}

/* Each field out of its range, or not 0 where the kind does not have it. */
static void try_out_of_range(const ertms_from_train *fields) {
    int placed = fields->kind != 146, stop_answer = fields->kind == 147;
#define WITH(field, value)                                                                                             \
    do {                                                                                                               \
        ertms_from_train other = *fields;                                                                              \
        other.field = (value);                                                                                         \
        try_none(other);                                                                                               \
    } while (0)
    WITH(kind, 0);
    WITH(kind, 16);
    WITH(engine, 16777216);
    WITH(id, stop_answer ? 16 : 1);
    WITH(answer, stop_answer ? 4 : 1);
    WITH(packet, placed ? 2 : 1);
    WITH(scale, placed ? 3 : 1);
    WITH(dir, placed ? 3 : 1);
    WITH(side, placed ? 3 : 1);
    WITH(distance, placed ? 32768 : 1);
    WITH(over, placed ? 32768 : 1);
    WITH(under, placed ? 32768 : 1);
    WITH(lrbg, placed ? 16777216 : 1);
    WITH(previous, fields->packet ? 16777216 : 1);
    if (placed)
        WITH(acked, 1);
#undef WITH
}

static int is_same_from(const ertms_from_train *a, const ertms_from_train *b) {
    return a->kind == b->kind && a->id == b->id && a->answer == b->answer && a->packet == b->packet &&
           a->scale == b->scale && a->dir == b->dir && a->side == b->side && a->distance == b->distance &&
           a->over == b->over && a->under == b->under && a->stamp == b->stamp && a->engine == b->engine &&
           a->acked == b->acked && a->lrbg == b->lrbg && a->previous == b->previous;
}

/* Bytes that were encoded of a message from a train with these fields. */
static void check_from_train(const ertms_from_train *fields, const uint8_t *bytes, size_t length) {
    ertms_from_train again;
    size_t count;
    if (ertms_read_from_train(bytes, length, &again) != ERTMS_OK || !is_same_from(fields, &again))
        stop("other fields from a train", 0);
    if (write_fields(fields, ROOM, &count) != ERTMS_OK || count != length || memcmp(out, bytes, length) != 0)
        stop("other bytes from a train", 0);
    if (write_fields(fields, length, &count) != ERTMS_OK || count != length || memcmp(out, bytes, length) != 0)
        stop("other bytes from a train, with just their room", 0);
    if (write_fields(fields, length - 1, &count) != ERTMS_ROOM || count != length ||
        write_fields(fields, 0, &count) != ERTMS_ROOM || count != length)
        stop("bytes from a train without room", 0);
    try_out_of_range(fields);
}

/* Bytes that were encoded of a message to a train with these fields. */
static void check_to_train(const ertms_to_train *fields, const uint8_t *bytes, size_t length) {
    uint8_t written[ERTMS_TO_TRAIN_BYTES];
    if (ertms_write_to_train(fields, written) != length || memcmp(written, bytes, length) != 0)
        stop("other bytes to a train", 0);
}

/* A text, and the bytes of its message. */
static void check(const uint8_t *bytes, size_t length, const char *text, size_t text_length) {
    ertms_from_train from;
    ertms_to_train to;
    uint8_t whole[ROOM];
    if (encode(text, text_length, ROOM, TOLD) != ERTMS_OK)
        stop("not encoded", 0);
    size_t count = encoded.count;
    memcpy(whole, out, ROOM);
    if (encode(text, text_length, count, 0) != ERTMS_OK || encoded.count != count || memcmp(out, whole, ROOM) != 0)
        stop("other bytes with just their room", 0);
    if (encode(text, text_length, count - 1, 0) != ERTMS_ROOM || encoded.count != count)
        stop("bytes without room", 0);
    uint32_t code;
    for (refused_at = 1; (code = encode(text, text_length, ROOM, TOLD)) == ERTMS_MEMORY; refused_at++)
        ;
    if (refused_at == 1 || code != ERTMS_OK || memcmp(out, whole, ROOM) != 0)
        stop("bytes when memory was refused before", code);
    refused_at = 0;
    if (ertms_read_to_train(bytes, length, &to) == ERTMS_OK)
        check_to_train(&to, whole, count);
    else if (ertms_read_from_train(bytes, length, &from) == ERTMS_OK)
        check_from_train(&from, whole, count);
    else
        stop("the bytes are refused", 0);
    try_each_word(text, text_length);
    try_shorter(text, text_length);
}

static void check_file(const char *name) {
    static char line[LINE];
    static uint8_t bytes[LINE / 2];
    FILE *file = fopen(name, "r");
    if (!file)
        stop(name, 0);
    while (fgets(line, sizeof line, file)) {
        char *text = strchr(line, '\t');
        size_t length = 0;
        unsigned byte;
        if (!text || text[1] < '0' || text[1] > '9')
            continue;
        for (const char *digits = line; digits < text && sscanf(digits, "%2x", &byte) == 1; digits += 2)
            bytes[length++] = (uint8_t)byte;
        now = text + 1;
        check(bytes, length, text + 1, strcspn(text + 1, "\n"));
    }
    fclose(file);
}

int main(int count, char **names) {
    for (int i = 1; i < count; i++)
        check_file(names[i]);
    try_words("", "word 1: '15' or '16' or '18' or '24' or '136' or '146' or '147'");
    try_words("16 stamp 1 ack 0 lrbg 1 em 16", "word 9: a number, 0 to 15");
    try_words("146 stamp 1 engine 1 ack 1", "word 6: 'acked'");
    try_words("136 stamp 1 engine 1 2", "word 6: '0' or '1'");
    try_words("24 stamp 1 ack 0 lrbg 1 64", "word 8: '65' or '66'");
    try_words("146 stamp 1 engine 1 acked 1 1", "word 8: the end of the line");
    if (!tried[ERTMS_OK] || !tried[ERTMS_MEMORY] || !tried[ERTMS_NO_MESSAGE] || !tried[ERTMS_ROOM] ||
        !tried[ERTMS_WRONG_WORD])
        stop("a code that never came", 0);
    printf("encoding: calls: %lu done, %lu refused memory, %lu of no message, %lu with too little room, %lu with a "
           "wrong word\n",
           tried[ERTMS_OK], tried[ERTMS_MEMORY], tried[ERTMS_NO_MESSAGE], tried[ERTMS_ROOM], tried[ERTMS_WRONG_WORD]);
    return 0;
}
