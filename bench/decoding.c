/* Decodes strings by the codec for C, and by a slow decoder over an array of bits that stands here and shares nothing with it: decoding COUNT SEED
   [FILE]. COUNT of them are random bytes and mutations of good messages. FILE has a message in hexadecimal at the beginning of each line: its
   beginnings, itself with other bytes in a place, and itself with more bytes behind it are the others. Each string goes to both readers; what
   they answer, and the fields, must be what the slow decoder answers, and where they refuse the fields must stay. A message to a train that is
   read is written again, and read again. Prints how many strings each answer came for. Ends with status 1 at the first difference, and prints
   its bytes. */
#include "ertms.h"
#include <stdio.h>
#include <stdlib.h>
#include <string.h>

enum { MOST = 1024, BITS = 8 * MOST };

static uint64_t state;

/* SplitMix64. */
static uint64_t next(void) {
    uint64_t z = state += 0x9E3779B97F4A7C15u;
    z = (z ^ z >> 30) * 0xBF58476D1CE4E5B9u;
    z = (z ^ z >> 27) * 0x94D049BB133111EBu;
    return z ^ z >> 31;
}

static uint32_t below(uint32_t n) {
    return (uint32_t)(next() % n);
}

/* A message as a list of bits, while it is made or read. */
typedef struct list {
    uint8_t bit[BITS];
    size_t count;
} list;

static void put(list *bits, uint32_t value, int width) {
    for (int left = width - 1; left >= 0; left--) {
        bits->bit[bits->count++] = value >> left & 1;
    }
}

static void take_bits(list *bits, const uint8_t *bytes, size_t length) {
    bits->count = 0;
    for (size_t i = 0; i < length; i++) {
        put(bits, bytes[i], 8);
    }
}

static uint32_t at(const list *bits, size_t place, int width) {
    uint32_t value = 0;
    for (int i = 0; i < width; i++) {
        value = value << 1 | bits->bit[place + i];
    }
    return value;
}

/* Steps 1 to 3: how long the message is. */
static uint32_t check_length(const list *bits, const uint32_t known[4], const size_t bytes[4], const size_t least[4]) {
    if (bits->count < 24 || at(bits, 8, 10) * 8 != bits->count) {
        return ERTMS_LENGTH;
    }
    for (int i = 0; i < 4; i++) {
        if (at(bits, 0, 8) == known[i]) {
            int is_right = bytes[i] ? bits->count == bytes[i] * 8 : bits->count >= least[i];
            return is_right ? ERTMS_OK : ERTMS_LENGTH;
        }
    }
    return ERTMS_MESSAGE;
}

/* One packet at a place: the place behind it, or 0 where it is none. */
static size_t slow_packet_to_train(const list *bits, size_t place, ertms_packet *it) {
    if (bits->count - place < 23) {
        return 0;
    }
    uint32_t size = at(bits, place + 10, 13);
    it->kind = at(bits, place, 8);
    if (!((it->kind == 65 && size == 71) || (it->kind == 66 && size == 31)) || size > bits->count - place) {
        return 0;
    }
    it->dir = at(bits, place + 8, 2);
    if (it->kind == 66) {
        it->id = at(bits, place + 23, 8);
        return place + size;
    }
    it->scale = at(bits, place + 23, 2);
    it->id = at(bits, place + 25, 8);
    it->start = at(bits, place + 33, 15);
    it->length = at(bits, place + 48, 15);
    it->front = at(bits, place + 63, 1);
    it->speed = at(bits, place + 64, 7);
    return place + size;
}

static uint32_t slow_packets_to_train(const list *bits, ertms_to_train *it) {
    size_t place = 75;
    int is_spare = 0;
    do {
        if (it->count == 100) {
            return ERTMS_PACKET;
        }
        ertms_packet *packet = &it->packets[it->count++];
        place = slow_packet_to_train(bits, place, packet);
        if (place == 0) {
            return ERTMS_PACKET;
        }
        is_spare |= packet->dir == 3 || packet->scale == 3 || packet->speed > 120;
    } while (bits->count - place >= 8);
    return is_spare ? ERTMS_FIELD : ERTMS_OK;
}

static uint32_t slow_to_train(const list *bits, ertms_to_train *it) {
    static const uint32_t known[4] = {15, 16, 18, 24};
    static const size_t bytes[4] = {15, 10, 10, 0}, least[4] = {0, 0, 0, 75};
    memset(it, 0, sizeof *it);
    uint32_t answer = check_length(bits, known, bytes, least);
    if (answer != ERTMS_OK) {
        return answer;
    }
    it->stamp = at(bits, 18, 32);
    it->ack = at(bits, 50, 1);
    it->lrbg = at(bits, 51, 24);
    it->kind = at(bits, 0, 8);
    if (it->kind == 24) {
        return slow_packets_to_train(bits, it);
    }
    it->id = at(bits, 75, 4);
    if (it->kind == 15) {
        it->scale = at(bits, 79, 2);
        it->reference = (int16_t)(at(bits, 81, 16) >= 32768 ? (int)at(bits, 81, 16) - 65536 : (int)at(bits, 81, 16));
        it->dir = at(bits, 97, 2);
        it->distance = at(bits, 99, 15);
    }
    return it->scale == 3 || it->dir == 3 ? ERTMS_FIELD : ERTMS_OK;
}

/* The sum of the widths of a position packet at a place, as far as its bits are there; SIZE_MAX where they are not. */
static size_t position_width(const list *bits, size_t place, size_t end, size_t more) {
    if (end - place < 114 + more) {
        return (size_t)-1;
    }
    size_t length = at(bits, place + more + 96, 2) % 3 == 0 ? 0 : 15;
    if (end - place < 114 + more + length) {
        return (size_t)-1;
    }
    size_t system = at(bits, place + more + length + 111, 3) == 1 ? 8 : 0;
    return 114 + more + length + system;
}

/* The place behind the packet at a place; 0 where it is none. */
static size_t packet_end(const list *bits, size_t place) {
    if (bits->count - place < 21) {
        return 0;
    }
    size_t size = at(bits, place + 8, 13);
    return size < 21 || size > bits->count - place ? 0 : place + size;
}

static uint32_t slow_position(const list *bits, size_t place, ertms_from_train *it) {
    size_t end = packet_end(bits, place);
    if (end == 0 || at(bits, place, 8) > 1) {
        return ERTMS_PACKET;
    }
    it->packet = at(bits, place, 8);
    size_t more = it->packet == 1 ? 24 : 0;
    if (position_width(bits, place, end, more) > end - place) {
        return ERTMS_PACKET;
    }
    for (size_t next_end = end; bits->count - next_end >= 8;) {
        next_end = packet_end(bits, next_end);
        if (next_end == 0) {
            return ERTMS_PACKET;
        }
    }
    it->scale = at(bits, place + 21, 2);
    it->lrbg = at(bits, place + 23, 24);
    it->previous = more ? at(bits, place + 47, 24) : 0;
    it->distance = at(bits, place + more + 47, 15);
    it->dir = at(bits, place + more + 62, 2);
    it->side = at(bits, place + more + 64, 2);
    it->over = at(bits, place + more + 66, 15);
    it->under = at(bits, place + more + 81, 15);
    return it->scale == 3 || it->dir == 3 || it->side == 3 ? ERTMS_FIELD : ERTMS_OK;
}

static uint32_t slow_from_train(const list *bits, ertms_from_train *it) {
    static const uint32_t known[4] = {136, 146, 147, 136};
    static const size_t bytes[4] = {0, 14, 0, 0}, least[4] = {74, 0, 80, 74};
    memset(it, 0, sizeof *it);
    uint32_t answer = check_length(bits, known, bytes, least);
    if (answer != ERTMS_OK) {
        return answer;
    }
    it->kind = at(bits, 0, 8);
    it->stamp = at(bits, 18, 32);
    it->engine = at(bits, 50, 24);
    if (it->kind == 146) {
        it->acked = at(bits, 74, 32);
        return ERTMS_OK;
    }
    if (it->kind == 136) {
        return slow_position(bits, 74, it);
    }
    it->id = at(bits, 74, 4);
    it->answer = at(bits, 78, 2);
    return slow_position(bits, 80, it);
}

static int is_same_packet(const ertms_packet *a, const ertms_packet *b) {
    return a->kind == b->kind && a->id == b->id && a->scale == b->scale && a->dir == b->dir && a->front == b->front && a->speed == b->speed
        && a->start == b->start && a->length == b->length;
}

static int is_same_to(const ertms_to_train *a, const ertms_to_train *b) {
    for (size_t i = 0; i < ERTMS_PACKETS; i++) {
        if (!is_same_packet(&a->packets[i], &b->packets[i])) {
            return 0;
        }
    }
    return a->kind == b->kind && a->ack == b->ack && a->id == b->id && a->scale == b->scale && a->dir == b->dir && a->reference == b->reference
        && a->distance == b->distance && a->stamp == b->stamp && a->lrbg == b->lrbg && a->count == b->count;
}

static int is_same_from(const ertms_from_train *a, const ertms_from_train *b) {
    return a->kind == b->kind && a->id == b->id && a->answer == b->answer && a->packet == b->packet && a->scale == b->scale && a->dir == b->dir
        && a->side == b->side && a->distance == b->distance && a->over == b->over && a->under == b->under && a->stamp == b->stamp
        && a->engine == b->engine && a->acked == b->acked && a->lrbg == b->lrbg && a->previous == b->previous;
}

/* A position packet with any values, of which spare ones come now and then. */
static void put_position(list *bits) {
    uint32_t packet = below(8) ? below(2) : below(256), integrity = below(4), level = below(4) ? below(8) : 1;
    size_t more = packet == 1 ? 24 : 0, width = 114 + more + (integrity % 3 ? 15 : 0) + (level == 1 ? 8 : 0);
    put(bits, packet, 8);
    put(bits, below(16) ? (uint32_t)width + (below(4) ? 0 : below(40)) : below(8192), 13);
    put(bits, below(16) ? below(3) : 3, 2);
    put(bits, below(1 << 24), 24);
    if (more) {
        put(bits, below(1 << 24), 24);
    }
    put(bits, below(1 << 15), 15);
    put(bits, below(16) ? below(3) : 3, 2);
    put(bits, below(16) ? below(3) : 3, 2);
    put(bits, below(1 << 15), 15);
    put(bits, below(1 << 15), 15);
    put(bits, integrity, 2);
    if (integrity % 3) {
        put(bits, below(1 << 15), 15);
    }
    put(bits, below(1 << 13), 13);
    put(bits, level, 3);
    if (level == 1) {
        put(bits, below(256), 8);
    }
}

/* Any further packets. */
static void put_packets(list *bits) {
    for (uint32_t left = below(4); left > 0; left--) {
        uint32_t width = below(60);
        put(bits, below(256), 8);
        put(bits, below(16) ? 21 + width : below(8192), 13);
        for (uint32_t i = 0; i < width; i++) {
            put(bits, below(2), 1);
        }
    }
}

static void put_from_train(list *bits) {
    static const uint32_t numbers[3] = {136, 146, 147};
    uint32_t number = numbers[below(3)];
    put(bits, number, 8);
    put(bits, 0, 10);
    put(bits, (uint32_t)next(), 32);
    put(bits, below(1 << 24), 24);
    if (number == 146) {
        put(bits, (uint32_t)next(), 32);
        return;
    }
    if (number == 147) {
        put(bits, below(64), 6);
    }
    put_position(bits);
    put_packets(bits);
}

static void put_packet_to_train(list *bits) {
    uint32_t is_limit = below(2);
    put(bits, below(64) ? (is_limit ? 65 : 66) : below(256), 8);
    put(bits, below(32) ? below(3) : 3, 2);
    put(bits, below(64) ? (is_limit ? 71 : 31) : below(8192), 13);
    if (is_limit) {
        put(bits, below(32) ? below(3) : 3, 2);
        put(bits, below(256), 8);
        put(bits, below(1 << 15), 15);
        put(bits, below(1 << 15), 15);
        put(bits, below(2), 1);
        put(bits, below(32) ? below(121) : below(128), 7);
    } else {
        put(bits, below(256), 8);
    }
}

static void put_to_train(list *bits) {
    static const uint32_t numbers[5] = {15, 16, 18, 24, 24};
    uint32_t chosen = below(5);
    put(bits, numbers[chosen], 8);
    put(bits, 0, 10);
    put(bits, (uint32_t)next(), 32);
    put(bits, below(1 << 25), 25);
    if (chosen < 3) {
        put(bits, below(16), 4);
    }
    if (chosen == 0) {
        put(bits, below(8) ? below(3) : 3, 2);
        put(bits, below(1 << 16), 16);
        put(bits, below(8) ? below(3) : 3, 2);
        put(bits, below(1 << 15), 15);
    }
    if (chosen < 3) {
        return;
    }
    for (uint32_t left = below(64) ? 1 + below(4) : 1 + below(104); left > 0; left--) {
        put_packet_to_train(bits);
    }
}

/* Writes the number of bytes as L_MESSAGE. */
static void recount(uint8_t *bytes, size_t length) {
    if (length >= 3) {
        bytes[1] = (uint8_t)(length >> 2);
        bytes[2] = (uint8_t)((length & 3) << 6 | (bytes[2] & 63));
    }
}

/* A message, with any fill bits. */
static size_t make_message(uint8_t *bytes) {
    list bits;
    bits.count = 0;
    if (below(2)) {
        put_from_train(&bits);
    } else {
        put_to_train(&bits);
    }
    while (bits.count % 8) {
        put(&bits, below(2), 1);
    }
    for (size_t i = 0; i < bits.count / 8; i++) {
        bytes[i] = (uint8_t)at(&bits, 8 * i, 8);
    }
    recount(bytes, bits.count / 8);
    return bits.count / 8;
}

/* Changes, takes away or adds some bytes. */
static size_t mutate(uint8_t *bytes, size_t length) {
    for (uint32_t left = below(3); left > 0 && length > 0; left--) {
        size_t place = below((uint32_t)length);
        switch (below(6)) {
        case 0: bytes[place] = 0; break;
        case 1: bytes[place] = 0xFF; break;
        case 2: bytes[place] = (uint8_t)next(); break;
        case 3: bytes[place] ^= (uint8_t)(1 << below(8)); break;
        case 4: length = place; break;
        default:
            for (uint32_t more = below(6); more > 0 && length < MOST - 1; more--) {
                bytes[length++] = (uint8_t)(below(2) ? 0 : next());
            }
        }
    }
    if (below(4)) {
        recount(bytes, length);
    }
    return length;
}

/* Random bytes: any, or those of a message of a known number with its length. */
static size_t make_noise(uint8_t *bytes) {
    static const uint8_t known[7] = {15, 16, 18, 24, 136, 146, 147};
    size_t length = below(below(2) ? 64 : 20);
    for (size_t i = 0; i < length; i++) {
        bytes[i] = (uint8_t)next();
    }
    if (length > 0 && below(2)) {
        bytes[0] = known[below(7)];
        recount(bytes, length);
    }
    return length;
}

static void end(const char *what, const uint8_t *bytes, size_t length) {
    printf("decoding: %s: ", what);
    for (size_t i = 0; i < length; i++) {
        printf("%02X", bytes[i]);
    }
    printf("\n");
    exit(1);
}

static uint64_t answers[2][5];

static void check_from_train(const uint8_t *bytes, size_t length, const list *bits) {
    ertms_from_train fields, before, wanted;
    memset(&fields, 0xA5, sizeof fields);
    before = fields;
    uint32_t answer = ertms_read_from_train(bytes, length, &fields);
    uint32_t slow = slow_from_train(bits, &wanted);
    answers[0][slow]++;
    if (answer != slow || !is_same_from(&fields, answer == ERTMS_OK ? &wanted : &before)) {
        end("from a train", bytes, length);
    }
}

static void check_to_train(const uint8_t *bytes, size_t length, const list *bits) {
    ertms_to_train fields, before, wanted, again;
    uint8_t written[ERTMS_TO_TRAIN_BYTES];
    memset(&fields, 0xA5, sizeof fields);
    before = fields;
    uint32_t answer = ertms_read_to_train(bytes, length, &fields);
    uint32_t slow = slow_to_train(bits, &wanted);
    answers[1][slow]++;
    if (answer != slow || !is_same_to(&fields, answer == ERTMS_OK ? &wanted : &before)) {
        end("to a train", bytes, length);
    }
    if (answer != ERTMS_OK) {
        return;
    }
    uint32_t count = ertms_write_to_train(&fields, written);
    if (count != length || memcmp(written, bytes, length - 1) != 0 || ertms_read_to_train(written, count, &again) != ERTMS_OK
        || !is_same_to(&fields, &again)) {
        end("written to a train", bytes, length);
    }
}

static void check(const uint8_t *bytes, size_t length) {
    list bits;
    take_bits(&bits, bytes, length);
    check_from_train(bytes, length, &bits);
    check_to_train(bytes, length, &bits);
}

/* Some bytes, as they are and with their number as L_MESSAGE. */
static void check_both(const uint8_t *bytes, size_t length) {
    uint8_t counted[MOST];
    check(bytes, length);
    memcpy(counted, bytes, length);
    recount(counted, length);
    check(counted, length);
}

/* The strings that are one step away from a message of at most MOST - 6 bytes. */
static void check_near(const uint8_t *bytes, size_t length) {
    static const uint8_t fills[3] = {0, 2, 0xFF};
    uint8_t near[MOST];
    for (size_t end = 0; end <= length; end++) {
        check_both(bytes, end);
    }
    memcpy(near, bytes, length);
    for (size_t place = 0; place < length; place++) {
        for (int turned = 0; turned < 256; turned++) {
            near[place] = bytes[place] ^ (uint8_t)turned;
            check(near, length);
        }
        near[place] = bytes[place];
    }
    for (int i = 0; i < 3; i++) {
        for (size_t more = 1; more <= 6; more++) {
            memset(near + length, fills[i], more);
            check_both(near, length + more);
        }
    }
}

/* Each message of a file. */
static int check_file(const char *name) {
    char line[4 * MOST];
    FILE *file = fopen(name, "r");
    if (!file) {
        perror(name);
        return 2;
    }
    while (fgets(line, sizeof line, file)) {
        uint8_t bytes[MOST];
        size_t length = 0;
        unsigned byte;
        while (length < MOST - 6 && sscanf(line + 2 * length, "%2x", &byte) == 1) {
            bytes[length++] = (uint8_t)byte;
        }
        check_near(bytes, length);
    }
    return fclose(file) ? 2 : 0;
}

int main(int count, char **words) {
    if (count != 3 && count != 4) {
        fputs("decoding COUNT SEED [FILE]\n", stderr);
        return 2;
    }
    uint64_t strings = strtoull(words[1], NULL, 10);
    state = strtoull(words[2], NULL, 10);
    for (uint64_t i = 0; i < strings; i++) {
        uint8_t bytes[MOST];
        size_t length = i % 4 == 0 ? make_noise(bytes) : make_message(bytes);
        if (i % 4 > 1) {
            length = mutate(bytes, length);
        }
        check(bytes, length);
    }
    int status = count == 4 ? check_file(words[3]) : 0;
    static const char *names[5] = {"read", "Length", "Message", "Packet", "Field"};
    printf("| answer | from a train | to a train |\n|---|---|---|\n");
    for (int i = 0; i < 5; i++) {
        printf("| %s | %llu | %llu |\n", names[i], (unsigned long long)answers[0][i], (unsigned long long)answers[1][i]);
    }
    return status;
}
