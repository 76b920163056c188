/* Collecting, and where a frame broke (RULES 'Collecting', 'Structs for C'; 001 §2.2.1). */
#include "check.h"

static const uint8_t HEARTBEAT[] = {0x00, 0x81, 0x41, 0xDB, 0xD0, 0x08, 0x02}; /* 001 §2.2.4 */
static const uint8_t HEARTBEAT_FRAME[] = {0x7E, 0x00, 0x81, 0x41, 0xDB, 0xD0, 0x08, 0x02, 0xB3, 0x8B, 0x7E};
static const uint8_t FLAG[] = {0x7E}, ZERO[] = {0x00};

/* A stream that is fed: the state, and what each lent byte should hold. */
struct stream {
    struct gdl90_feed_control control;
    struct lent room, message, tally;
    uint8_t room_want[438], message_want[436];
    struct gdl90_tally tally_want;
};

static struct stream start(void)
{
    struct stream s;

    s.control.count = 0;
    s.control.stuffed = 0;
    s.control.phase = 0;
    s.room = lend(438, 0);
    s.message = lend(436, 0);
    s.tally = lend(sizeof s.tally_want, 0);
    memset(s.room.bytes, 0, 438);
    memset(s.room_want, 0, 438);
    memcpy(s.message_want, s.message.bytes, 436);
    memcpy(&s.tally_want, s.tally.bytes, sizeof s.tally_want); /* whatever the counts are, they go up from there */
    return s;
}

static void end(struct stream *s)
{
    TAKE_BACK(s->room, s->room_want, 438);
    TAKE_BACK(s->message, s->message_want, 436);
    TAKE_BACK(s->tally, (const uint8_t *)&s->tally_want, sizeof s->tally_want);
}

static void same_answers(struct gdl90_feed_answer got, struct gdl90_feed_answer want)
{
    CHECK_SIZE(got.control.count, want.control.count);
    CHECK_SIZE(got.control.stuffed, want.control.stuffed);
    CHECK_U8(got.control.phase, want.control.phase);
    CHECK_SIZE(got.taken, want.taken);
    CHECK_BOOL(got.answered, want.answered);
    CHECK_U8(got.number, want.number);
    CHECK_SIZE(got.length, want.length);
    CHECK_SIZE(got.position, want.position);
}

/* By both functions, from one state: they answer and leave the same, and the one with a tally counts what it answered. */
static struct gdl90_feed_answer feed(struct stream *s, const uint8_t *bytes, size_t length)
{
    struct lent input = lend_copy(bytes, length), room = lend_copy(s->room.bytes, 438), message = lend_copy(s->message.bytes, 436);
    struct gdl90_tally *tally = (struct gdl90_tally *)(void *)s->tally.bytes;
    struct gdl90_feed_answer plain = gdl90_feed(s->control, room.bytes, message.bytes, input.bytes, length);
    struct gdl90_feed_answer answer = gdl90_feed_tallied(s->control, s->room.bytes, s->message.bytes, input.bytes, length, tally);

    same_answers(answer, plain);
    if (answer.answered && answer.number <= 5)
        s->tally_want.counts[answer.number]++;
    CHECK_BYTES(s->tally.bytes, (const uint8_t *)&s->tally_want, sizeof s->tally_want);
    s->control = answer.control;
    TAKE_BACK(input, bytes, length);
    TAKE_BACK(room, s->room.bytes, 438);
    TAKE_BACK(message, s->message.bytes, 436);
    return answer;
}

/* ---- what each call leaves */

/* Feeds bytes that close no frame: all are taken, and the control after them is this. */
static void goes_on(struct stream *s, const uint8_t *bytes, size_t length, size_t count, size_t stuffed, uint8_t phase)
{
    struct gdl90_feed_answer answer = feed(s, bytes, length);

    CHECK_SIZE(answer.taken, length);
    CHECK_BOOL(answer.answered, false);
    CHECK_U8(answer.number, 0);
    CHECK_SIZE(answer.length, 0);
    CHECK_SIZE(answer.position, 0);
    CHECK_SIZE(answer.control.count, count);
    CHECK_SIZE(answer.control.stuffed, stuffed);
    CHECK_U8(answer.control.phase, phase);
    CHECK_BYTES(s->room.bytes, s->room_want, 438);
    CHECK_BYTES(s->message.bytes, s->message_want, 436);
}

/* Feeds bytes of which the one before `taken` closes a frame; the state is then that of one flag just seen, its room zero. */
static struct gdl90_feed_answer closes(struct stream *s, const uint8_t *bytes, size_t length, size_t taken)
{
    struct gdl90_feed_answer answer = feed(s, bytes, length);

    memset(s->room_want, 0, 438);
    CHECK_SIZE(answer.taken, taken);
    CHECK_BOOL(answer.answered, true);
    CHECK_SIZE(answer.control.count, 0);
    CHECK_SIZE(answer.control.stuffed, 0);
    CHECK_U8(answer.control.phase, 1);
    CHECK_BYTES(s->room.bytes, s->room_want, 438);
    return answer;
}

static void accepts(struct stream *s, const uint8_t *bytes, size_t length, size_t taken, const uint8_t *message, size_t message_len)
{
    struct gdl90_feed_answer answer = closes(s, bytes, length, taken);

    memset(s->message_want, 0, 436);
    memcpy(s->message_want, message, message_len);
    CHECK_U8(answer.number, 0);
    CHECK_SIZE(answer.length, message_len);
    CHECK_SIZE(answer.position, 0);
    CHECK_BYTES(s->message.bytes, s->message_want, 436);
}

static void refuses(struct stream *s, const uint8_t *bytes, size_t length, size_t taken, uint8_t number, size_t position)
{
    struct gdl90_feed_answer answer = closes(s, bytes, length, taken);

    CHECK_U8(answer.number, number);
    CHECK_SIZE(answer.length, 0);
    CHECK_SIZE(answer.position, position);
    CHECK_BYTES(s->message.bytes, s->message_want, 436);
}

/* ---- streams in pieces */

/* 001's heartbeat, split at every point: what is collected stands in the room, with zeros behind it. */
static void check_every_split(void)
{
    size_t at;

    for (at = 0; at < sizeof HEARTBEAT_FRAME; at++) {
        struct stream s = start();
        size_t inside = at > 1 ? at - 1 : 0;

        memcpy(s.room_want, HEARTBEAT_FRAME + 1, inside);
        goes_on(&s, HEARTBEAT_FRAME, at, inside, inside, at > 0);
        accepts(&s, HEARTBEAT_FRAME + at, sizeof HEARTBEAT_FRAME - at, sizeof HEARTBEAT_FRAME - at, HEARTBEAT, 7);
        end(&s);
    }
}

/* Value 4 of RULES 'Values', byte by byte: phase 1 between flags, 2 behind 0x7D; an escaped flag is no flag. */
static void check_byte_by_byte(void)
{
    static const uint8_t frame[] = {0x7E, 0x7D, 0x5E, 0x7D, 0x5D, 0x7D, 0x5D, 0x7D, 0x5E, 0x7E};
    static const uint8_t clear[] = {0x7E, 0x7D, 0x7D, 0x7E};
    static const size_t counts[] = {0, 0, 1, 1, 2, 2, 3, 3, 4};
    struct stream s = start();
    size_t i;

    for (i = 0; i < 9; i++) {
        memcpy(s.room_want, clear, counts[i]);
        goes_on(&s, frame + i, 1, counts[i], i, i % 2 == 0 ? 1 : 2);
        goes_on(&s, frame, 0, counts[i], i, i % 2 == 0 ? 1 : 2); /* no byte changes nothing */
    }
    accepts(&s, frame + 9, 1, 1, clear, 2);
    end(&s);
}

/* Lead-in, two flags in a row, one flag shared, each number, and an end without a flag; values 5 and 6 of RULES 'Values'. */
static const uint8_t STREAM[] = {
    0x55, 0x7D, 0x00, 0x7E, 0x00, 0x81, 0x41, 0xDB, 0xD0, 0x08, 0x02, 0xB3, 0x8B, 0x7E,       /* 0, at 13 */
    0x7E, 0x00, 0x81, 0x41, 0xDB, 0xD0, 0x08, 0x02, 0xB3, 0x8A, 0x7E,                         /* 5, at 24 */
    0x00, 0x81, 0x41, 0xDB, 0xD0, 0x08, 0x03, 0xB2, 0x8B, 0x7E,                               /* 0, at 34 */
    0x7D, 0x7E, 0x7D, 0x00, 0x7E, 0x07, 0x07, 0x7E, 0x07, 0x07, 0x00, 0x7E, 0x7E, 0x07, 0x7E, /* 2 1 4 0 4, at 36 39 42 46 49 */
    0x07, 0x7D, 0x7D, 0x7D, 0x7E, 0x7D, 0x5E, 0x7E, 0x7D, 0x5E, 0x7D, 0x5E, 0x00, 0x7E,       /* 1 4 0, at 54 57 63 */
    0x01, 0x02, 0x03, 0x7D, 0x7E, 0x00, 0x81};                                                /* 2, at 68 */
static const struct {
    size_t at;
    uint8_t number;
    uint8_t position;
    uint8_t length;
    uint8_t message[7];
} ANSWERS[] = {{13, 0, 0, 7, {0x00, 0x81, 0x41, 0xDB, 0xD0, 0x08, 0x02}},
               {24, 5, 9, 0, {0}},
               {34, 0, 0, 7, {0x00, 0x81, 0x41, 0xDB, 0xD0, 0x08, 0x03}},
               {36, 2, 1, 0, {0}},
               {39, 1, 2, 0, {0}},
               {42, 4, 2, 0, {0}},
               {46, 0, 0, 1, {0x07}},
               {49, 4, 1, 0, {0}},
               {54, 1, 3, 0, {0}},
               {57, 4, 2, 0, {0}},
               {63, 0, 0, 1, {0x7E}},
               {68, 2, 4, 0, {0}}};

/* Feeds a stretch of the stream that has answer n, or has its start. */
static void answers_this(struct stream *s, size_t at, size_t stop, size_t n)
{
    size_t taken = ANSWERS[n].at + 1 - at;

    if (ANSWERS[n].number == 0)
        accepts(s, STREAM + at, stop - at, taken, ANSWERS[n].message, ANSWERS[n].length);
    else
        refuses(s, STREAM + at, stop - at, taken, ANSWERS[n].number, ANSWERS[n].position);
}

/* The stream with a cut at `cut` and another every `step` bytes: the answers are the same. */
static void answers_are_these(size_t cut, size_t step)
{
    struct stream s = start();
    size_t at = 0, n = 0;

    while (at < sizeof STREAM) {
        size_t stop = at < cut ? cut : sizeof STREAM;
        struct gdl90_feed_answer answer;

        if (stop - at > step)
            stop = at + step;
        if (n < sizeof ANSWERS / sizeof ANSWERS[0] && ANSWERS[n].at < stop) {
            answers_this(&s, at, stop, n);
            at = ANSWERS[n].at + 1;
            n++;
        } else {
            answer = feed(&s, STREAM + at, stop - at);
            CHECK_BOOL(answer.answered, false);
            CHECK_SIZE(answer.taken, stop - at);
            CHECK_SIZE(answer.position, 0);
            CHECK_BYTES(s.message.bytes, s.message_want, 436);
            at = stop;
        }
    }
    CHECK(n, 12);
    memcpy(s.room_want, "\x00\x81", 2);
    CHECK_SIZE(s.control.count, 2);
    CHECK_SIZE(s.control.stuffed, 2);
    CHECK_U8(s.control.phase, 1);
    end(&s);
}

/* ---- where a frame broke */

/* These bytes between two flags, behind a lead-in that is not counted, cut in two at every place: one number, one position. */
static void breaks(const char *hex, uint8_t number, size_t position)
{
    uint8_t bytes[32] = {0x55, 0x7D, 0x7E};
    size_t length = 3 + from_hex(hex, bytes + 3) + 1, cut;

    bytes[length - 1] = 0x7E;
    for (cut = 0; cut < length; cut++) {
        struct stream s = start();
        struct gdl90_feed_answer answer = feed(&s, bytes, cut);

        CHECK_BOOL(answer.answered, false);
        CHECK_SIZE(answer.position, 0);
        refuses(&s, bytes + cut, length - cut, length - cut, number, position);
        goes_on(&s, FLAG, 1, 0, 0, 1); /* nothing between two flags */
        accepts(&s, HEARTBEAT_FRAME, 11, 11, HEARTBEAT, 7);
        end(&s);
    }
}

/* For 1 up to and with the byte that is wrong, for 2, 4 and 5 all before the closing flag. An escape and its byte are two. */
static void check_positions(void)
{
    CASE(breaks("7D00", 1, 2));
    CASE(breaks("7D7D", 1, 2));
    CASE(breaks("027D00", 1, 3));
    CASE(breaks("7D5E7D5D7DFF", 1, 6));
    CASE(breaks("027D0001027D5E7D", 1, 3)); /* what stands behind the fault moves nothing */
    CASE(breaks("7D", 2, 1));
    CASE(breaks("02007D", 2, 3));
    CASE(breaks("7D5D7D", 2, 3));
    CASE(breaks("07", 4, 1));
    CASE(breaks("0707", 4, 2));
    CASE(breaks("7D5E", 4, 2));
    CASE(breaks("7D5E07", 4, 3));
    CASE(breaks("7D5E7D5D", 4, 4));
    CASE(breaks("010000", 5, 3));
    CASE(breaks("7D5E7D5E01", 5, 5)); /* value 3 of RULES 'Values' with a bit flipped */
    CASE(breaks("008141DBD00802B38A", 5, 9));
}

/* 1 and 3: the room is zero once they are met, and all up to the flag is skipped and not counted. */
static void check_skipping(void)
{
    static const uint8_t bad[] = {0x7D, 0x00}, skipped[] = {0x55, 0x7D, 0x5E, 0x7D};
    uint8_t bytes[439];
    struct stream s = start();

    goes_on(&s, bad, 2, 0, 0, 0); /* lead-in: nothing is wrong before the first flag */
    goes_on(&s, FLAG, 1, 0, 0, 1);
    memcpy(s.room_want, HEARTBEAT, 7);
    goes_on(&s, HEARTBEAT, 7, 7, 7, 1);
    memset(s.room_want, 0, 438);
    goes_on(&s, bad, 2, 0, 9, 3);
    goes_on(&s, skipped, 4, 0, 9, 3);
    refuses(&s, FLAG, 1, 1, 1, 9);

    memset(bytes, 0xFF, 438); /* not zero, so that clearing the room shows */
    memset(s.room_want, 0xFF, 438);
    goes_on(&s, bytes, 438, 438, 438, 1);
    memset(s.room_want, 0, 438);
    goes_on(&s, ZERO, 1, 0, 439, 4);
    goes_on(&s, skipped, 4, 0, 439, 4);
    refuses(&s, FLAG, 1, 1, 3, 439);

    memset(bytes, 0, 439);
    goes_on(&s, bytes, 438, 438, 438, 1);
    accepts(&s, FLAG, 1, 1, bytes, 436); /* the longest message */
    goes_on(&s, bytes, 439, 0, 439, 4);
    refuses(&s, FLAG, 1, 1, 3, 439);
    end(&s);
}

/* Behind 438 bytes, which came as `stuffed` ones: a pair that is no escape yields no 439th byte, and one that is has it met at its
   second byte. */
static void ends_behind_438(const uint8_t *bytes, size_t stuffed, uint8_t clear)
{
    static const uint8_t pairs[][2] = {{0x7D, 0x7E}, {0x7D, 0x00}, {0x7D, 0x5E}};
    struct stream s = start();
    size_t i;

    goes_on(&s, FLAG, 1, 0, 0, 1);
    for (i = 0; i < 3; i++) {
        memset(s.room_want, clear, 438);
        goes_on(&s, bytes, stuffed, 438, stuffed, 1);
        if (i == 0) {
            refuses(&s, pairs[i], 2, 2, 2, stuffed + 1);
        } else {
            memset(s.room_want, 0, 438);
            goes_on(&s, pairs[i], 2, 0, stuffed + 2, i == 1 ? 3 : 4);
            refuses(&s, FLAG, 1, 1, i == 1 ? 1 : 3, stuffed + 2);
        }
    }
    end(&s);
}

/* The largest position: 439 escaped bytes, the first 438 of them wrong for their sequence, cut at every place. */
static void check_largest_position(void)
{
    uint8_t bytes[1 + 878 + 3 + 1], zeros[438] = {0};
    size_t i, cut;

    memset(bytes, 0x7E, sizeof bytes);
    for (i = 1; i < 880; i += 2)
        bytes[i] = 0x7D, bytes[i + 1] = 0x5E;
    bytes[881] = 0x7D; /* behind the 878: 7D 5E 7D, and the flag */
    CASE(ends_behind_438(zeros, 438, 0));
    CASE(ends_behind_438(bytes + 1, 876, 0x7E));

    for (cut = 0; cut < sizeof bytes; cut++) {
        struct stream s = start();

        feed(&s, bytes, cut);
        CHECK_SIZE(s.control.stuffed, cut == 0 ? 0 : cut > 879 ? 878 : cut - 1);
        refuses(&s, bytes + cut, sizeof bytes - cut, sizeof bytes - cut, 3, 878);
        memset(s.room_want, 0x7E, 438);
        goes_on(&s, bytes + 1, 876, 438, 876, 1);
        refuses(&s, FLAG, 1, 1, 5, 876);
        end(&s);
    }
}

/* ---- states that a caller made up */

static void made_up(struct stream *s, size_t count, size_t stuffed, uint8_t phase)
{
    s->control.count = count;
    s->control.stuffed = stuffed;
    s->control.phase = phase;
    memset(s->room.bytes, 0x33, 438);
}

/* A state that cannot be is taken as the fresh one, its room zero: a flag opens, any other byte is lead-in. */
static void taken_as_fresh(size_t count, size_t stuffed, uint8_t phase)
{
    struct stream s = start();
    struct gdl90_feed_answer answer;

    made_up(&s, count, stuffed, phase);
    accepts(&s, HEARTBEAT_FRAME, 11, 11, HEARTBEAT, 7);
    made_up(&s, count, stuffed, phase);
    goes_on(&s, FLAG, 1, 0, 0, 1);
    made_up(&s, count, stuffed, phase);
    goes_on(&s, ZERO, 1, 0, 0, 0);

    made_up(&s, count, stuffed, phase);
    answer = feed(&s, ZERO, 0); /* fed nothing it stays one */
    CHECK_SIZE(answer.control.count, phase > 4 ? 439 : count);
    CHECK_SIZE(answer.control.stuffed, phase > 4 ? 0 : stuffed);
    CHECK_U8(answer.control.phase, phase > 4 ? 0 : phase);
    CHECK_SIZE(answer.taken, 0);
    CHECK_BOOL(answer.answered, false);
    CHECK_SIZE(answer.position, 0);
    CHECK_BYTES(s.message.bytes, s.message_want, 436);
    goes_on(&s, ZERO, 1, 0, 0, 0);
    end(&s);
}

/* One that can be is taken as it is: a flag gives its number of stuffed bytes back as the position, 0 too. */
static void taken_as_it_is(size_t count, uint8_t phase, uint8_t number)
{
    struct stream s = start();

    made_up(&s, count, 878, phase);
    refuses(&s, FLAG, 1, 1, number, 878);
    made_up(&s, count, 0, phase);
    refuses(&s, FLAG, 1, 1, number, 0);
    end(&s);
}

/* The 879th stuffed byte, which no stream from the fresh state on comes to, makes a state that cannot be. */
static void check_879th(void)
{
    static const uint8_t both[] = {0x33, 0x7E};
    struct stream s = start();

    made_up(&s, 1, 878, 1);
    memset(s.room_want, 0x33, 438);
    goes_on(&s, both, 1, 2, 879, 1);
    memset(s.room_want, 0, 438);
    goes_on(&s, FLAG, 1, 0, 0, 1);
    made_up(&s, 1, 878, 1);
    goes_on(&s, both, 2, 0, 0, 1);
    end(&s);
}

static void check_made_up(void)
{
    CASE(taken_as_fresh(439, 0, 1));
    CASE(taken_as_fresh(439, 439, 2));
    CASE(taken_as_fresh(SIZE_MAX, 878, 4));
    CASE(taken_as_fresh(0, 879, 0));
    CASE(taken_as_fresh(3, 879, 1));
    CASE(taken_as_fresh(438, 879, 2));
    CASE(taken_as_fresh(0, 879, 3));
    CASE(taken_as_fresh(0, SIZE_MAX, 4));
    CASE(taken_as_fresh(0, 0, 5));
    CASE(taken_as_fresh(7, 7, 5));
    CASE(taken_as_fresh(438, 878, 255));
    CASE(taken_as_fresh(SIZE_MAX, SIZE_MAX, 5));
    CASE(taken_as_it_is(1, 1, 4));
    CASE(taken_as_it_is(3, 1, 5));
    CASE(taken_as_it_is(438, 1, 5));
    CASE(taken_as_it_is(0, 2, 2));
    CASE(taken_as_it_is(0, 3, 1));
    CASE(taken_as_it_is(0, 4, 3));
    check_879th();
}

void check_collecting(void)
{
    size_t i;

    check_every_split();
    check_byte_by_byte();
    for (i = 0; i <= sizeof STREAM; i++)
        answers_are_these(i, sizeof STREAM);
    for (i = 1; i < sizeof STREAM; i++)
        answers_are_these(0, i);
    check_positions();
    check_skipping();
    check_largest_position();
    check_made_up();
}
