/* GDL 90 bytes: frames, collecting, messages, uplink payloads, weather texts, units. Link with libgdl90.a (README, 'Link it from C'),
   which is for x86-64 with the System V ABI, so for Linux: structs are handed over by value. For C99 or newer and C++.

   Every function takes every input, ends, keeps nothing, and touches nothing but the memory it is given, so any thread may call it.
   A pointer and a length stand for bytes, `list` and `list_len` for numbers of type size_t; where the length is 0 the pointer may be
   NULL. Pointers without a length, `room`, `message` and `tally`, are never NULL. Memory to be written overlaps no other argument. A
   bool holds 0 or 1, as C stores it; of another byte, which only memcpy or another language puts there, the lowest bit counts.

   `number` in an answer is one of enum gdl90_number. Of several that apply, the one named first beside a function is given.
   With 0 only the bytes and numbers written change. With any other number every other field of the answer is 0, and memory lent for
   output is as it was. The one exception is feeding, which goes on behind a refused frame: `control` and `taken` always hold the
   state and the bytes taken, `answered` is true with a refusal too, `position` says where the frame broke, the room is part of the
   state, and the tally counts the refusal. Reading a recording is no exception: there the number of a refused frame stands in the
   list, not in the answer. */
#ifndef GDL90_H
#define GDL90_H

#include <stdbool.h>
#include <stddef.h>
#include <stdint.h>

#ifdef __cplusplus
extern "C" {
#endif

/* The version of this header, of the crate for Rust and of gdl90-list. */
#define GDL90_VERSION "0.3.1"

/* What functions answer (RULES 'Numbers', in docs/RULES.md). 12 is not used, and will not be; later versions may have more. */
enum gdl90_number {
    GDL90_ACCEPTED = 0,
    GDL90_BAD_ESCAPE = 1,
    GDL90_ESCAPE_BEFORE_FLAG = 2,
    GDL90_FRAME_TOO_LONG = 3,
    GDL90_FRAME_TOO_SHORT = 4,
    GDL90_CHECK_SEQUENCE = 5,
    GDL90_UNKNOWN_ID = 6, /* often a message of the maker's own, and no fault */
    GDL90_WRONG_LENGTH = 7,
    GDL90_OUT_OF_RANGE = 8,
    GDL90_NO_ROOM = 9,
    GDL90_UNFRAMABLE = 10,
    GDL90_PAST_THE_DATA = 11,
    GDL90_NO_SUCH_FRAME = 13,
    GDL90_NO_TEXT_HEADER = 14,
    GDL90_NOT_TEXT = 15,
    GDL90_NO_CHARACTER = 16,
    GDL90_RETIRED = 17
};

/* A number in words, for a person to read: those of the crate for Rust and of `gdl90-list --help`. Never NULL. */
static inline const char *gdl90_number_words(uint8_t number)
{
    switch (number) {
    case GDL90_ACCEPTED: return "accepted";
    case GDL90_BAD_ESCAPE: return "an escape stands before a byte that is never escaped";
    case GDL90_ESCAPE_BEFORE_FLAG: return "an escape stands directly before the closing flag";
    case GDL90_FRAME_TOO_LONG: return "the frame has more than 438 bytes";
    case GDL90_FRAME_TOO_SHORT: return "the frame has only one or two bytes";
    case GDL90_CHECK_SEQUENCE: return "the check sequence differs";
    case GDL90_UNKNOWN_ID: return "the message is empty, or of an unknown kind";
    case GDL90_WRONG_LENGTH: return "the message or the payload has a wrong length";
    case GDL90_OUT_OF_RANGE: return "a field is outside its range";
    case GDL90_NO_ROOM: return "there is too little room";
    case GDL90_UNFRAMABLE: return "a message to be framed has 1 to 436 bytes";
    case GDL90_PAST_THE_DATA: return "an information frame runs past the application data";
    case GDL90_NO_SUCH_FRAME: return "no information frame has that number";
    case GDL90_NO_TEXT_HEADER: return "the data are shorter than a text's header";
    case GDL90_NOT_TEXT: return "the data are not a weather text";
    case GDL90_NO_CHARACTER: return "a code is no character of a text, a tab has no count, or a character has no code";
    case GDL90_RETIRED: return "the message has a retired id";
    default: return "a number that this version does not have";
    }
}

/* Lengths in bytes. */
enum gdl90_length {
    GDL90_LONGEST_MESSAGE = 436, /* id included, without the check sequence */
    GDL90_LONGEST_FRAME = 878,
    GDL90_ROOM = 438,          /* what collecting needs: the longest message and its check sequence */
    GDL90_PAYLOAD = 432,       /* of an uplink, from the fifth byte of its message on */
    GDL90_LONGEST_TEXT = 17515 /* of an information frame: 422 bytes of data, and in them tabs of 63 spaces */
};

/* ---- frames */

/* The frame check sequence of a message, of any length. A frame has its low byte first. */
uint16_t gdl90_check_sequence(const uint8_t *message, size_t message_len);

struct gdl90_frame_answer {
    uint8_t number; /* 10, 9, 0 */
    size_t length;  /* bytes written */
};

/* A message of 1 to 436 bytes as a frame: flag, message and check sequence with escapes, flag. 9 exactly when the output is shorter
   than this frame. */
struct gdl90_frame_answer gdl90_frame(const uint8_t *message, size_t message_len, uint8_t *out, size_t out_len);

/* ---- collecting frames from a stream. Control and room are the state: keep both, unchanged, from one call to the next, also from
   one datagram to the next. Each sender has a state of its own; where one starts anew, set it to the fresh state. */

/* All zero: the fresh state, as GDL90_FRESH initialises it. A control with a field outside its range below is taken as the fresh
   state. Fed no byte at all, one with a phase over 4 comes back with count 439, stuffed 0 and phase 0, and any other as it came: both
   are taken as the fresh state again. */
struct gdl90_feed_control {
    size_t count;   /* bytes in the room, 0 to 438 */
    size_t stuffed; /* bytes taken since the opening flag, as they came, 0 to 878; once 1 or 3 is met it stands still */
    uint8_t phase;  /* 0 to 4 */
};

/* Initialises control and room:
     struct gdl90_feed_control control = GDL90_FRESH;
     uint8_t room[GDL90_ROOM] = GDL90_FRESH;
   To start anew, assign a control that is so initialised. The room may hold anything then, as the first flag clears it. */
#define GDL90_FRESH {0, 0, 0}

/* With 1 to 5 the position says where the frame broke: how many bytes had been taken since the opening flag when the fault was met,
   as they came, so that an escape and the byte behind it are two. For 1 and 3 the last of them is the one that is wrong; for 2, 4 and
   5 they are all those before the closing flag. It is the same however the stream is cut into calls. From the fresh state on it is at
   least 1; a control that is made up may lead to 0. */
struct gdl90_feed_answer {
    struct gdl90_feed_control control; /* to be given to the next call */
    size_t taken;                      /* bytes taken: the next call goes on behind them */
    bool answered;                     /* the last of them closed a frame; else number, length and position are 0 */
    uint8_t number;                    /* of 1, 2 and 3 the one that the bytes meet first; 4, 5, 0 */
    size_t length;                     /* of the message, 1 to 436, where answered with 0 */
    size_t position;                   /* where answered with 1 to 5: at most 878; else 0 */
};

/* Takes bytes until one closes a frame or there are no more: call it again with what is left. Where answered with 0 all of
   `message` is written, the message and zeros behind it; else it is as it was. */
struct gdl90_feed_answer gdl90_feed(struct gdl90_feed_control control, uint8_t room[GDL90_ROOM],
                                    uint8_t message[GDL90_LONGEST_MESSAGE], const uint8_t *bytes, size_t bytes_len);

/* How often each answer of collecting was given. Zero it to start: struct gdl90_tally tally = {{0}}; */
struct gdl90_tally {
    uint32_t counts[6]; /* by number, 0 to 5; each holds at 4,294,967,295, UINT32_MAX */
};

/* As gdl90_feed; and where answered, counts[number] goes up by one, or holds. No other count changes, and without an answer none
   does. So each count is how many of its answers were given with this tally lent since it was zeroed, up to that hold, if nobody else
   altered it since. Several states may be fed with one tally, one after the other. */
struct gdl90_feed_answer gdl90_feed_tallied(struct gdl90_feed_control control, uint8_t room[GDL90_ROOM],
                                            uint8_t message[GDL90_LONGEST_MESSAGE], const uint8_t *bytes, size_t bytes_len,
                                            struct gdl90_tally *tally);

struct gdl90_recording_answer {
    uint8_t number; /* 9, 0 */
    size_t entries; /* in the list */
};

/* A recording that is there as a whole, without a state: it is cut at its flags, and what stands between two of them is unstuffed
   and checked. The list gets an entry for each time that gdl90_feed, given these bytes from the fresh state on, would answer
   (`answered`), in that order: so none for the bytes before the first flag, for those behind the last, and for nothing between two
   flags. Entry i, counted from 0, is three numbers:
     list[3 * i]      its number: GDL90_ACCEPTED to GDL90_CHECK_SEQUENCE, 0 to 5
     list[3 * i + 1]  its position, as in gdl90_feed_answer: 1 to 878, counted from the frame's opening flag, not from the start of
                      the recording; 0 where the number is 0
     list[3 * i + 2]  the length of its message: 1 to 436 where the number is 0, else 0
   `messages` gets the messages, one behind the other: that of entry i begins at the sum of the lengths in the entries before it.
   list_len counts numbers: there are places for list_len / 3 entries, and one or two numbers more are not used. 9 exactly when the
   entries are more than that, or their lengths together more than messages_len; it does not tell how much is needed. Always enough
   are places for as many entries as the recording has flags, or half as many as it has bytes, whichever is less, and recording_len
   bytes for messages (RULES 'Recordings'). */
struct gdl90_recording_answer gdl90_read_recording(const uint8_t *recording, size_t recording_len, size_t *list, size_t list_len,
                                                   uint8_t *messages, size_t messages_len);

/* ---- messages */

/* The first byte of a message of each kind, and how many bytes it has. */
enum gdl90_id {
    GDL90_HEARTBEAT = 0,      /* 7 */
    GDL90_INITIALIZATION = 2, /* 3 */
    GDL90_UPLINK = 7,         /* 436 */
    GDL90_HEIGHT = 9,         /* 3 */
    GDL90_OWNSHIP = 10,       /* 28 */
    GDL90_GEOMETRIC = 11,     /* 5 */
    GDL90_TRAFFIC = 20        /* 28 */
};

/* A mark says what the field behind it is. With a mark other than 0 the field is 0 when read, and is not looked at when written. A
   field has only the marks named beside it; any other is refused with 8 when written, as is a field outside the range beside it. */
enum gdl90_mark {
    GDL90_PLAIN = 0, /* the field is a plain number; every field with a mark has this one */
    GDL90_NONE = 1,
    GDL90_OVER = 2, /* a speed of 4,094 knots or more, a merit over 32,766 metres, a climb of more than 509 steps */
    GDL90_BELOW = 3 /* a descent of more than 509 steps */
};

struct gdl90_heartbeat {
    uint8_t status1;
    uint8_t status2;         /* bits 6 to 0, 0 to 127 */
    uint32_t time;           /* seconds since 0000Z, 0 to 86,400; the last is the leap second of a day that has one, 23:59:60 */
    uint8_t uplinks;         /* received in the last second, 0 to 31 */
    uint8_t reserved;        /* 0 or 1 */
    uint16_t basic_and_long; /* received in the last second, 0 to 1,023 */
};

struct gdl90_initialization {
    uint8_t first; /* configuration byte 1 */
    uint8_t second;
};

struct gdl90_uplink {
    uint8_t reception_mark; /* none */
    uint32_t reception;     /* 0 to 12,499,999 steps of 80 ns */
};

/* Altitudes come in three units. Each is a struct of its own, so that feet are worked out only from the matching one: a compiler
   refuses the others. */
struct gdl90_pressure_steps {
    uint16_t steps; /* of 25 feet from -1,000 feet on */
};
struct gdl90_geometric_steps {
    int16_t steps; /* of 5 feet */
};
struct gdl90_feet_above_terrain {
    int16_t feet;
};

struct gdl90_height {
    uint8_t height_mark;                    /* none */
    struct gdl90_feet_above_terrain height; /* -32,767 to 32,767 */
};

struct gdl90_report { /* an ownship's or of traffic */
    uint8_t alert;                        /* 0 to 15 */
    uint8_t address_type;                 /* 0 to 15 */
    uint32_t address;                     /* 0 to 16,777,215 */
    uint8_t position_mark;                /* of both; none. With integrity 0 the position 0, 0 is none: as a number it is refused */
    int32_t latitude;                     /* steps of 180 / 2^23 degrees, north positive, -4,194,304 to 4,194,304 */
    int32_t longitude;                    /* likewise, east positive, -8,388,608 to 8,388,607 */
    uint8_t altitude_mark;                /* none */
    struct gdl90_pressure_steps altitude; /* 0 to 4,094 */
    uint8_t track_kind;                   /* 0 not valid, 1 true track, 2 magnetic heading, 3 true heading */
    bool extrapolated;
    bool airborne;
    uint8_t integrity;    /* 0 to 11 */
    uint8_t accuracy;     /* 0 to 11 */
    uint8_t speed_mark;   /* none, over */
    uint16_t speed;       /* knots, 0 to 4,093 */
    uint8_t climb_mark;   /* none, over, below */
    int32_t climb;        /* steps of 64 feet per minute, up positive, -509 to 509 */
    uint8_t track;        /* steps of 360 / 256 degrees, also where the kind is 0 */
    uint8_t emitter;      /* category */
    uint8_t call_sign[8]; /* as it came, any bytes; no zero byte behind it */
    uint8_t priority;     /* 0 to 15 */
    uint8_t spare;        /* 0 to 15 */
};

struct gdl90_geometric {
    struct gdl90_geometric_steps altitude; /* any */
    bool warning;
    uint8_t merit_mark; /* none, over */
    uint16_t merit;     /* metres, 0 to 32,766 but not 32,494, whose code is that of over */
};

struct gdl90_heartbeat_read {
    uint8_t number;
    struct gdl90_heartbeat heartbeat;
};
struct gdl90_initialization_read {
    uint8_t number;
    struct gdl90_initialization initialization;
};
struct gdl90_uplink_read {
    uint8_t number;
    struct gdl90_uplink uplink;
};
struct gdl90_height_read {
    uint8_t number;
    struct gdl90_height height;
};
struct gdl90_report_read {
    uint8_t number;
    struct gdl90_report report;
};
struct gdl90_geometric_read {
    uint8_t number;
    struct gdl90_geometric geometric;
};

struct gdl90_kind_answer {
    uint8_t number;
    uint8_t id;
};

/* Which of the functions below reads the message: 0 and the kind's id; or 17, whatever its length, if its first byte is a retired id,
   30 or 31, once those of basic and long pass-through; or 6 if it is empty or its first byte is any other. */
struct gdl90_kind_answer gdl90_kind(const uint8_t *message, size_t message_len);

/* A message of one kind: 6 if it is empty or its first byte is not the kind's id (a retired id is no kind's); 7 if its length is not
   the kind's; 8 for a field outside its range; 0. The payload of an uplink is the 432 bytes from message + 4 on. */
struct gdl90_heartbeat_read gdl90_read_heartbeat(const uint8_t *message, size_t message_len);
struct gdl90_initialization_read gdl90_read_initialization(const uint8_t *message, size_t message_len);
struct gdl90_uplink_read gdl90_read_uplink(const uint8_t *message, size_t message_len);
struct gdl90_height_read gdl90_read_height(const uint8_t *message, size_t message_len);
struct gdl90_report_read gdl90_read_ownship(const uint8_t *message, size_t message_len);
struct gdl90_geometric_read gdl90_read_geometric(const uint8_t *message, size_t message_len);
struct gdl90_report_read gdl90_read_traffic(const uint8_t *message, size_t message_len);

struct gdl90_write_answer {
    uint8_t number; /* 7 for an uplink's payload not of 432 bytes, 8, 16 for a text's character, 9, 0 */
    size_t length;  /* bytes written */
};

/* The message of a value: as many bytes as its kind has. */
struct gdl90_write_answer gdl90_write_heartbeat(struct gdl90_heartbeat heartbeat, uint8_t *out, size_t out_len);
struct gdl90_write_answer gdl90_write_initialization(struct gdl90_initialization initialization, uint8_t *out, size_t out_len);
struct gdl90_write_answer gdl90_write_uplink(struct gdl90_uplink uplink, const uint8_t *payload, size_t payload_len, uint8_t *out,
                                             size_t out_len);
struct gdl90_write_answer gdl90_write_height(struct gdl90_height height, uint8_t *out, size_t out_len);
struct gdl90_write_answer gdl90_write_ownship(struct gdl90_report report, uint8_t *out, size_t out_len);
struct gdl90_write_answer gdl90_write_geometric(struct gdl90_geometric geometric, uint8_t *out, size_t out_len);
struct gdl90_write_answer gdl90_write_traffic(struct gdl90_report report, uint8_t *out, size_t out_len);

/* ---- the information frames of an uplink payload, 432 bytes */

struct gdl90_payload_list_answer {
    uint8_t number; /* 7, 11, 0 */
    size_t count;   /* 0 to 141 */
    size_t end;     /* where the list ends, counted from payload + 8, the start of the 424 bytes of application data */
};

struct gdl90_payload_nth_answer {
    uint8_t number;   /* 7, 11, 13, 0 */
    uint8_t kind;     /* the frame's type, 0 to 15 */
    uint8_t reserved; /* 0 to 7 */
    size_t start;     /* the frame's data are payload + start, without its header */
    size_t length;    /* of the data, 1 to 422 */
};

/* How many frames there are; none where the payload's header says that its application data are not valid. */
struct gdl90_payload_list_answer gdl90_payload_list(const uint8_t *payload, size_t payload_len);

/* Frame n, numbered from 0. */
struct gdl90_payload_nth_answer gdl90_payload_nth(const uint8_t *payload, size_t payload_len, size_t n);

/* One frame more at the list's end, of a type up to 15 and with 1 to 422 bytes of data; the application data are then valid, and
   zero behind it. Answers 7, 11, 8 for another type or length, 9 if there is no room for it, 0. */
uint8_t gdl90_payload_add(uint8_t *payload, size_t payload_len, uint8_t kind, const uint8_t *data, size_t data_len);

/* ---- weather texts, which information frames of type 0 carry. The type, `kind` of gdl90_payload_nth, is the caller's to look at. */

/* Hours, minutes and padding are the header's, as they stand there: no time of day is asked for. */
struct gdl90_text_answer {
    uint8_t number;  /* 14, 15, 16, 9, 0 */
    uint8_t hours;   /* 0 to 31 */
    uint8_t minutes; /* 0 to 63 */
    uint8_t padding; /* 0 to 15, the header's last four bits */
    size_t length;   /* of the text: bytes written */
};

/* The text in a frame's data, payload + start of gdl90_payload_nth, or in any other bytes. It has the letters A to Z, the characters
   of ASCII from 32, the space, to 63, 0x0A for a new line, and 0x1E between records. A tab becomes its spaces, 0 to 63; no zero byte
   is put behind the text. GDL90_LONGEST_TEXT bytes are room for that of every frame. Answers 14 for fewer than 4 bytes of data; 15
   for a header of another product than 413, with a flag, segmented, or with another time option than 0; 16 for a code that is no
   character, 27 or 31, and for a tab with no count behind it; 9 exactly when the output is shorter than the text; 0. A code 0 ends
   the text, and what stands behind it is not looked at; else the data's last whole code does. */
struct gdl90_text_answer gdl90_read_text(const uint8_t *data, size_t data_len, uint8_t *out, size_t out_len);

/* The data of a text, for gdl90_payload_add with type 0: a header of product 413, then the characters' codes, without tabs, a code 0,
   and zero bits up to the byte's end. n characters take 4 + (n + 1) - (n + 1) / 4 bytes; 556 fill a frame. Answers 8 unless hours are
   0 to 31, minutes 0 to 63 and padding 0 to 15; 16 for a byte that is no character of a text; 9; 0. */
struct gdl90_write_answer gdl90_write_text(uint8_t hours, uint8_t minutes, uint8_t padding, const uint8_t *text, size_t text_len,
                                           uint8_t *out, size_t out_len);

/* ---- units */

/* Feet, each from its own unit, for every value. A field with a mark is no number of steps or feet. */
int32_t gdl90_pressure_feet(struct gdl90_pressure_steps altitude);
int32_t gdl90_geometric_feet(struct gdl90_geometric_steps altitude);
int32_t gdl90_terrain_feet(struct gdl90_feet_above_terrain height);

struct gdl90_degrees_answer {
    uint8_t number; /* 8, 0 */
    double latitude;
    double longitude;
};

/* A report's position in degrees, exactly: 180 / 2^23 degrees a step. 8 for a number of steps outside -8,388,608 to 8,388,607; the
   range of a latitude is not checked here. */
struct gdl90_degrees_answer gdl90_degrees(int32_t latitude, int32_t longitude);

#ifdef __cplusplus
}
#endif

#endif
