/* A live desk for C, C++ and Ada: the emergency and restriction part of a radio block centre, fed one line at a time.

   Libraries: release/c/librbc_c.a, and heap.c beside it, which hands memory on from malloc, realloc and free
   (docs/C_LIBRARY.md has the commands). Only memcpy, memmove and memset are called besides. No call ends the process, prints, starts
   a thread or keeps a pointer that it was given. Only malloc and realloc may set errno.

   What the caller owes at every call:
   - A pointer is aligned for its type and points to as much as its parameter says. Where a length or a room is 0 its pointer may
     be null; otherwise no pointer is null.
   - What a call writes overlaps nothing else that it is given, and nobody else reads or writes it during the call.
   - A length is below 2^63, and so is a room in bytes.
   - No call comes from a signal handler, or in the child after a fork of a process with threads.

   Threads. Each desk is for one call at a time: that two calls do not meet on one rbc_desk is the caller's duty (a lock, or one
   thread). A desk may go from thread to thread, and different desks may be used at once. */
#ifndef RBC_H
#define RBC_H
#include <stddef.h>
#include <stdint.h>
#ifdef __cplusplus
extern "C" {
#endif

/* The version of this header, 3 to 255. Where the structs change it rises, and each call that takes a desk is refused if its caller
   was compiled with another one: RBC_VERSION_OTHER. Before version 3 a desk began with a byte that was 0 or 1, which is no version. */
#define RBC_VERSION 3

/* A desk that is open, or none. The caller owns this struct, sets it to RBC_NONE once, before its first use, and passes its
   address; the library alone writes it from then on. It may be moved. A copy of an open desk must not be used: a desk that
   is closed by one copy is gone for the other. What an open desk holds is given back by rbc_close alone. 16 bytes. */
typedef struct rbc_desk {
    uint8_t version; /* RBC_VERSION of the header that the caller was compiled with */
    uint8_t open;    /* 0 or 1 */
    void *memory;
} rbc_desk;
#define RBC_NONE {RBC_VERSION, 0, NULL}

/* A message to one train: the first `length` of its bytes, as they are sent; the others stay as they were. 1032 bytes. */
typedef struct rbc_message {
    uint32_t engine;     /* NID_ENGINE of the train: 0 to 16777215 */
    uint32_t length;     /* 10 to 897 */
    uint8_t bytes[1024]; /* ertms_read_to_train of ertms.h reads them */
} rbc_message;

/* What a line led to. 16 bytes. */
typedef struct rbc_answer {
    uint32_t refused; /* 0: it was accepted. 1 to 255: why it was refused, a code of docs/RULES.md; then it changed nothing */
    size_t count;     /* how many messages it sent */
} rbc_answer;

/* An alarm that stands: what a train does not know, or what the desk does not know of it. 12 bytes. */
typedef struct rbc_alarm {
    uint32_t engine; /* NID_ENGINE of the train */
    uint32_t kind;   /* RBC_ALARM_PLACE and so on */
    uint32_t number; /* of the stop or the restriction; 0 at RBC_ALARM_PLACE */
} rbc_alarm;
enum {
    RBC_ALARM_PLACE = 0,       /* it has no place: each active stop concerns it, and no restriction does */
    RBC_ALARM_STOP = 1,        /* an active stop concerns it and is not told to it */
    RBC_ALARM_RESTRICTION = 2, /* an active restriction concerns it and is not told to it */
    RBC_ALARM_ANSWER = 3       /* it left an active stop unanswered in three reports, and the stop is not yet told to it again */
};

/* How a train faces, or which trains a restriction is for: up is towards rising places. */
enum {
    RBC_DOWN = 0,
    RBC_UP = 1,
    RBC_BOTH = 2 /* of a restriction alone */
};

/* A train that is enrolled. Places and lengths are in units of 10 cm, stamps (T_TRAIN) in units of 10 ms. 40 bytes. */
typedef struct rbc_train {
    uint32_t engine;       /* NID_ENGINE: 0 to 16777215 */
    uint32_t length;       /* from its enrolment: 1 to 40000 */
    uint32_t stamp;        /* since its enrolment, the highest known T_TRAIN of messages to it and accepted messages from it; or 0 */
    uint32_t placed;       /* 1: its place is known. 0: it is not, and the next four fields are 0 */
    uint32_t line;         /* the number of its line: 0 to 63 */
    uint32_t from;         /* the lowest place at which a part of it may be: 0 to 3000000 */
    uint32_t to;           /* the highest one */
    uint32_t facing;       /* RBC_DOWN or RBC_UP */
    uint32_t stops;        /* how many of its 15 stop identifiers (NID_EM) are held: used, or being revoked */
    uint32_t restrictions; /* how many of its 255 restriction identifiers (NID_TSR) are held */
} rbc_train;

/* One segment of an active stop. A stop has 1 to 8. Places are in units of 10 cm. 16 bytes. */
typedef struct rbc_stop_segment {
    uint32_t number; /* of the stop */
    uint32_t line;   /* of the segment: 0 to 63 */
    uint32_t from;   /* its lower end */
    uint32_t to;     /* its upper end */
} rbc_stop_segment;

/* An active restriction. Places are in units of 10 cm. 28 bytes. */
typedef struct rbc_restriction {
    uint32_t number;
    uint32_t line;  /* 0 to 63 */
    uint32_t from;  /* the lower end */
    uint32_t to;    /* the upper end, above the lower one */
    uint32_t ways;  /* for trains that face RBC_DOWN, RBC_UP or RBC_BOTH */
    uint32_t speed; /* km/h: a multiple of 5, 0 to 600 */
    uint32_t front; /* Q_FRONT: 1 if there is no train length delay at its end, else 0 */
} rbc_restriction;

/* An identifier of a train whose message the train has not answered or acknowledged. Several of one train may have one
   stamp: that is one message with several packets, and is acknowledged once. 20 bytes. */
typedef struct rbc_outstanding_entry {
    uint32_t engine;     /* NID_ENGINE of the train */
    uint32_t kind;       /* RBC_WAITS_CONDITIONAL_STOP and so on */
    uint32_t number;     /* of the stop or the restriction; 0 where the identifier is being revoked */
    uint32_t identifier; /* NID_EM, 0 to 14, of a stop; NID_TSR, 0 to 254, of a restriction */
    uint32_t stamp;      /* T_TRAIN of the message, in units of 10 ms */
} rbc_outstanding_entry;
enum {
    RBC_WAITS_CONDITIONAL_STOP = 0,       /* message 15 told the stop */
    RBC_WAITS_UNCONDITIONAL_STOP = 1,     /* message 16 told the stop */
    RBC_WAITS_RESTRICTION = 2,            /* message 24 told the restriction */
    RBC_WAITS_REVOCATION_OF_STOP = 3,     /* message 18 revokes the stop identifier */
    RBC_WAITS_REVOCATION_OF_RESTRICTION = 4 /* message 24 revokes the restriction identifier */
};

/* What came of the check of a track. 24 bytes. */
typedef struct rbc_report {
    uint32_t refused; /* 0: it is a track. RBC_TRACK_TEXT to RBC_TRACK_TWICE: the rule that its text breaks first */
    size_t warnings;  /* how many warnings the report on a track has; 0 where it is refused */
    size_t count;     /* how many bytes the report has */
} rbc_report;

/* What each call but rbc_rules returns. */
enum {
    RBC_DONE = 0,
    RBC_MEMORY = 1,        /* malloc or realloc gave nothing */
    RBC_NOT_NOW = 2,       /* rbc_open: a desk is open. All other calls that take a desk: none is */
    RBC_ROOM = 3,          /* rbc_feed: there are more messages than room for them */
    RBC_VERSION_OTHER = 4, /* desk->version is not RBC_VERSION of the library: compile the caller with the header beside it */
    RBC_NOT_UTF8 = 5,      /* rbc_open, rbc_check: the text of the track is not UTF-8 */
    RBC_TRACK_TEXT = 10,   /* this and all below: of rbc_open, and in rbc_report. The track is no TOML text */
    RBC_TRACK_SHAPE = 11,  /* a key is missing, or is not what it has to be */
    RBC_TRACK_LINES = 12,  /* too many lines */
    RBC_TRACK_GROUPS = 13, /* too many balise groups */
    RBC_TRACK_LENGTH = 14, /* a line has a bad length */
    RBC_TRACK_OFF_LINE = 15, /* a balise group is not on its line */
    RBC_TRACK_TWICE = 16   /* two balise groups have one number */
};

/* Opens a desk on a track: no train, no stop, no restriction. track is the text of a track in TOML: `length` bytes of UTF-8; it is
   not needed after the call. Returns RBC_DONE, and the desk is open; or why not, and the desk is as it was: at RBC_NOT_NOW
   still open. */
uint32_t rbc_open(rbc_desk *desk, const uint8_t *track, size_t length);

/* Gives one line to an open desk, without its line feed: an enrolment, a command or a message, as docs/FORMATS.md has them.
   Returns RBC_DONE: *answer says what it led to, and its messages stand at the front of out, in the order in which they are sent;
   what stands behind them stays. At every other code the desk and out are as they were, and the line may be fed again. At RBC_ROOM
   answer->count says how many messages there would be, and answer->refused is 0: feed the line again with room for them.
   At RBC_MEMORY, RBC_NOT_NOW and RBC_VERSION_OTHER *answer stays as it was. A room of 0 is a way to ask how many messages there would
   be, but a line that sends none is taken at once: do not feed it again. */
uint32_t rbc_feed(rbc_desk *desk, const uint8_t *line, size_t length, rbc_message *out, size_t room, rbc_answer *answer);

/* The number of the rules by which a desk decides, as `dispatch --version` tells it. A log that was fed to a library with
   another number may be answered otherwise: begin a new log. */
uint32_t rbc_rules(void);

/* What an open desk has. Each of these calls writes a list to the front of out, as much as there is room for, and returns RBC_DONE:
   *count is how long the list is, whatever the room, and what is behind the list in out stays. At every other code, RBC_MEMORY,
   RBC_NOT_NOW and RBC_VERSION_OTHER, out and *count stay as they were. The desk stays as it was in any case. A room of 0 is a way
   to ask for the count alone.

   rbc_alarms: the alarms that stand: engines ascending, and those of one train by kind and number.
   rbc_trains: the trains that are enrolled: engines ascending. At most 2000.
   rbc_stops: the segments of the active stops: numbers ascending, and those of one stop as they were given. At most 512.
   rbc_restrictions: the active restrictions: numbers ascending. At most 300.
   rbc_outstanding: what waits for an answer or an acknowledgement: engines ascending; of one train first its stop identifiers and
   then its restriction identifiers, each ascending. */
uint32_t rbc_alarms(rbc_desk *desk, rbc_alarm *out, size_t room, size_t *count);
uint32_t rbc_trains(rbc_desk *desk, rbc_train *out, size_t room, size_t *count);
uint32_t rbc_stops(rbc_desk *desk, rbc_stop_segment *out, size_t room, size_t *count);
uint32_t rbc_restrictions(rbc_desk *desk, rbc_restriction *out, size_t room, size_t *count);
uint32_t rbc_outstanding(rbc_desk *desk, rbc_outstanding_entry *out, size_t room, size_t *count);

/* Says in words, in the same way, why an open desk refuses a line: the name of the refusal and what it means, as `dispatch codes` has
   them, in UTF-8, with a line feed and no zero byte at the end. *count is 0 where the desk would accept the line. A line that rbc_feed
   has just refused is refused again, since it changed nothing. */
uint32_t rbc_explain_line(rbc_desk *desk, const uint8_t *line, size_t length, uint8_t *out, size_t room, size_t *count);

/* Checks the text of a track, as `dispatch check` does: track is as for rbc_open. Returns RBC_DONE, also where the track is refused:
   *report says what came of it, and the report, in UTF-8 with line feeds and no zero byte at the end, stands at the front of out, as
   much as there is room for; what is behind it stays. At RBC_MEMORY and RBC_NOT_UTF8 out and *report stay as they were. */
uint32_t rbc_check(const uint8_t *track, size_t length, uint8_t *out, size_t room, rbc_report *report);

/* Closes an open desk, and gives its memory back. Returns RBC_DONE, or RBC_NOT_NOW where none is open. No desk is open then, and one may
   be opened again. At RBC_VERSION_OTHER the desk is as it was. */
uint32_t rbc_close(rbc_desk *desk);

#ifdef __cplusplus
}
#endif
#endif
