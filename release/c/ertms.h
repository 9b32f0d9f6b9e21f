/* The codec of ertms_codec for C, C++ and Ada: one message at a time, into or out of a struct of fixed layout.

   Libraries: release/c/libertms_c.a, and heap.c beside it, which hands memory on from malloc, realloc and free. Memory is
   asked for by ertms_read_to_train, for a message 24 of several packets, and by ertms_encode alone, and given back before
   they return. The library keeps nothing between calls, reads and writes what its arguments point to and nothing else, and
   never ends the process or prints.

   ERTMS_VERSION 3: a message 24 has up to 100 packets, ertms_to_train has room for them, and a message to a train takes up
   to 897 bytes. So the library has the two functions that read and write one under new names, which the header puts in:
   a caller of either that was compiled with the header of an earlier version does not link.

   What the caller owes at every call:
   - A pointer is aligned for its type and points to as much as its parameter says. Where a length or a room is 0 it may be
     null; otherwise it is not null.
   - What a call writes overlaps nothing else that it is given, and nobody else reads or writes it during the call.
   - A length is below 2^63, and so is a room. No call comes from a signal handler, or in a forked child of a process with threads.
   Any number of threads may call at once, each with its own structs and bytes.

   Variables are those of SUBSET-026, section 7.5, messages those of section 8. */
#ifndef ERTMS_H
#define ERTMS_H
#include <stddef.h>
#include <stdint.h>
#ifdef __cplusplus
extern "C" {
#endif

#define ERTMS_VERSION 3
#define ertms_read_to_train ertms_3_read_to_train
#define ertms_write_to_train ertms_3_write_to_train

/* What each call but ertms_write_to_train returns. ERTMS_LENGTH to ERTMS_FIELD say why bytes are refused: the first step that
   fails, in the order of the checks length, message, length of the message, packet, field. */
enum {
    ERTMS_OK = 0,
    ERTMS_LENGTH = 1,  /* fewer than 3 bytes, L_MESSAGE is not their number, or no length that the message can have */
    ERTMS_MESSAGE = 2, /* NID_MESSAGE is of no message that the reader takes */
    ERTMS_PACKET = 3,  /* a packet is missing, is not one that the message can have, or has a wrong L_PACKET; or there are
                          more packets than the message can have */
    ERTMS_FIELD = 4,   /* a variable has a spare value */
    ERTMS_MEMORY = 5,  /* no refusal: malloc or realloc gave nothing. At ertms_encode, and at ertms_read_to_train of a message
                          24 of several packets */
    ERTMS_NO_MESSAGE = 6, /* ertms_write_from_train: no message has these fields */
    ERTMS_ROOM = 7,       /* ertms_write_from_train, ertms_encode: the message has more bytes than there is room for */
    ERTMS_WRONG_WORD = 8  /* ertms_encode: a word is wrong */
};

/* Room for the bytes of a message to a train, of which it has at most 897. */
#define ERTMS_TO_TRAIN_BYTES 1024

/* The most bytes that ertms_write_from_train gives. */
#define ERTMS_FROM_TRAIN_BYTES 28

/* The greatest number of packets of a message 24. */
#define ERTMS_PACKETS 100

/* A packet of message 24. A variable that its kind does not have is 0. 10 bytes. */
typedef struct ertms_packet {
    uint8_t kind;    /* NID_PACKET: 65 (restriction), 66 (revocation of a restriction); 0 where there is no packet */
    uint8_t id;      /* NID_TSR: 0 to 255 */
    uint8_t scale;   /* Q_SCALE of 65: 0 is 10 cm, 1 is 1 m, 2 is 10 m */
    uint8_t dir;     /* Q_DIR: 0 reverse, 1 nominal, 2 both */
    uint8_t front;   /* Q_FRONT of 65: 0 the length of the train delays the end, 1 it does not */
    uint8_t speed;   /* V_TSR of 65: 0 to 120, in units of 5 km/h */
    uint16_t start;  /* D_TSR of 65: 0 to 32767 units of scale */
    uint16_t length; /* L_TSR of 65: 0 to 32767 units of scale */
} ertms_packet;

/* A message to a train. A variable that its kind does not have is 0. 1024 bytes. */
typedef struct ertms_to_train {
    uint8_t kind;      /* NID_MESSAGE: 15 (stop before a place), 16 (stop at once), 18 (revocation of a stop), 24 (packets) */
    uint8_t ack;       /* M_ACK: 0 or 1 */
    uint8_t id;        /* NID_EM of 15, 16, 18: 0 to 15 */
    uint8_t scale;     /* Q_SCALE of 15: 0 is 10 cm, 1 is 1 m, 2 is 10 m */
    uint8_t dir;       /* Q_DIR of 15: 0 reverse, 1 nominal, 2 both */
    int16_t reference; /* D_REF of 15, in units of scale */
    uint16_t distance; /* D_EMERGENCYSTOP of 15: 0 to 32767 units of scale */
    uint32_t stamp;    /* T_TRAIN, in units of 10 ms; 4294967295 is unknown */
    uint32_t lrbg;     /* NID_LRBG, NID_C (10 bits) before NID_BG (14 bits): 0 to 16777214; 16777215 is unknown */
    uint32_t count;    /* how many packets 24 has: 1 to 100 */
    ertms_packet packets[ERTMS_PACKETS]; /* they stand at the front; behind them all is 0 */
} ertms_to_train;

/* A message from a train. A variable that its kind does not have is 0. The distances and doubts are in units of scale.
   36 bytes. */
typedef struct ertms_from_train {
    uint8_t kind;      /* NID_MESSAGE: 136 (position report), 146 (acknowledgement), 147 (answer to a stop) */
    uint8_t id;        /* NID_EM of 147: 0 to 15 */
    uint8_t answer;    /* Q_EMERGENCYSTOP of 147: 0 conditional, accepted, changed the end of authority; 1 accepted, changed
                          nothing; 2 unconditional, accepted; 3 rejected */
    uint8_t packet;    /* NID_PACKET of the position of 136, 147: 0, or 1, which names two balise groups */
    uint8_t scale;     /* Q_SCALE of the position: 0 is 10 cm, 1 is 1 m, 2 is 10 m */
    uint8_t dir;       /* Q_DIRLRBG: 0 reverse, 1 nominal, 2 unknown */
    uint8_t side;      /* Q_DLRBG: 0 reverse, 1 nominal, 2 unknown */
    uint16_t distance; /* D_LRBG: 0 to 32766; 32767 is unknown */
    uint16_t over;     /* L_DOUBTOVER: 0 to 32766; 32767 is taken as unknown */
    uint16_t under;    /* L_DOUBTUNDER: 0 to 32766; 32767 is taken as unknown */
    uint32_t stamp;    /* T_TRAIN, in units of 10 ms; 4294967295 is unknown */
    uint32_t engine;   /* NID_ENGINE: 0 to 16777215 */
    uint32_t acked;    /* of 146, T_TRAIN of the message that is acknowledged */
    uint32_t lrbg;     /* NID_LRBG of the position: 0 to 16777214; 16777215 is unknown */
    uint32_t previous; /* NID_PRVLRBG of packet 1 */
} ertms_from_train;

/* What came of encoding a text. 24 bytes. */
typedef struct ertms_encoded {
    size_t count;  /* how many bytes the message has; 0 where a word is wrong */
    uint64_t word; /* the number of the first wrong word; the first word has number 1. 0 where none is wrong */
    size_t words;  /* how many bytes the words on it have; 0 where none is wrong */
} ertms_encoded;

/* Decodes the bytes of one message to a train. Returns ERTMS_OK, and *fields are those of the message; or why the bytes are
   refused, or ERTMS_MEMORY, and *fields stay as they were. */
uint32_t ertms_read_to_train(const uint8_t *bytes, size_t length, ertms_to_train *fields);

/* Encodes one message to a train. Returns how many bytes it has, 10 to 897: they stand at the front of bytes, and the rest of
   bytes stays. Returns 0, and changes nothing, where no message has these fields: the kind is none, a variable is out of its
   range, or one that the kind does not have is not 0. */
uint32_t ertms_write_to_train(const ertms_to_train *fields, uint8_t bytes[ERTMS_TO_TRAIN_BYTES]);

/* Decodes the bytes of one message from a train. Returns ERTMS_OK, and *fields are those of the message; or why the bytes are
   refused, and *fields stay as they were. Of a position, what a train says of its speed, mode, level and integrity is passed
   over. */
uint32_t ertms_read_from_train(const uint8_t *bytes, size_t length, ertms_from_train *fields);

/* Encodes one message from a train. Returns ERTMS_OK: its bytes stand at the front of out, *count is how many they are, 14 to
   ERTMS_FROM_TRAIN_BYTES, and the rest of out stays. What the fields do not hold is as for a train at a standstill: no length
   is told, the speed and the mode are 0, the level is 3, and no packet follows that of the position. Or returns
   - ERTMS_NO_MESSAGE where no message has these fields: the kind is none, a variable is out of its range, or one that the kind
     does not have is not 0. out and *count stay as they were.
   - ERTMS_ROOM where there is too little room. out stays as it was, and *count is how many bytes the message has: a room of 0
     is a way to ask for it. */
uint32_t ertms_write_from_train(const ertms_from_train *fields, uint8_t *out, size_t room, size_t *count);

/* Encodes the text of one message, to a train or from one, as docs/FORMATS.md has it, without a line feed. Returns ERTMS_OK:
   its bytes stand at the front of out, encoded->count is how many they are, 10 to 897, and the rest of out stays. They are
   those that ertms_write_to_train or ertms_write_from_train gives for the message. Or returns
   - ERTMS_ROOM where there is too little room: encoded->count is how many bytes the message has.
   - ERTMS_WRONG_WORD where the text is of no message: encoded->word is the number of the first wrong word. The words on it,
     such as "word 4: 'ack'", say what can stand there. They stand at the front of words, as much as there is room for, in
     ASCII, with no line feed and no zero byte at the end; what is behind them stays. encoded->words is how many bytes they
     have, whatever the room. A room_of_words of 0 is a way to do without them.
   - ERTMS_MEMORY: *encoded stays as it was.
   At every code but ERTMS_OK out stays as it was, and at every code but ERTMS_WRONG_WORD so does words. */
uint32_t ertms_encode(const uint8_t *text, size_t length, uint8_t *out, size_t room, uint8_t *words, size_t room_of_words,
                      ertms_encoded *encoded);

#ifdef __cplusplus
}
#endif
#endif
