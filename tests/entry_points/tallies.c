/* The tally of collecting's answers (RULES 'Tally', 'Structs for C'). */
#include "check.h"

/* A frame for each answer, by its number. */
static const char *const FRAMES[6] = {
    "7E008141DBD00802B38B7E", "7E027D007E", "7E027D7E", NULL, "7E07077E", "7E008141DBD00802B38A7E"};

enum { LONGEST = 441 };

static size_t frame_of(unsigned number, uint8_t bytes[LONGEST])
{
    if (number != GDL90_FRAME_TOO_LONG)
        return from_hex(FRAMES[number], bytes);
    memset(bytes, 0, LONGEST);
    bytes[0] = bytes[LONGEST - 1] = 0x7E; /* 439 bytes between them */
    return LONGEST;
}

struct receiver {
    struct gdl90_feed_control control;
    uint8_t room[GDL90_ROOM], message[GDL90_LONGEST_MESSAGE];
};

static struct receiver fresh(void)
{
    struct receiver r;

    memset(&r, 0, sizeof r);
    return r;
}

static struct gdl90_feed_answer feed(struct receiver *r, const uint8_t *bytes, size_t length, struct gdl90_tally *tally)
{
    struct gdl90_feed_answer answer = gdl90_feed_tallied(r->control, r->room, r->message, bytes, length, tally);

    r->control = answer.control;
    return answer;
}

static void tally_is(const struct gdl90_tally *tally, const struct gdl90_tally *want)
{
    unsigned n;

    for (n = 0; n < 6; n++)
        CHECK_U32(tally->counts[n], want->counts[n]);
}

/* A frame with this answer, from these counts on: its count is then `want`, and no other byte has changed, nor any around them. */
static void counts_once(unsigned number, struct gdl90_tally counts, uint32_t want)
{
    uint8_t bytes[LONGEST];
    size_t length = frame_of(number, bytes), behind;

    for (behind = 0; behind <= 16; behind += 16) {
        struct lent memory = lend(sizeof counts, behind);
        struct gdl90_tally *tally = (struct gdl90_tally *)(void *)memory.bytes, after = counts;
        struct receiver r = fresh();
        struct gdl90_feed_answer answer;

        *tally = counts;
        answer = feed(&r, bytes, length, tally);
        CHECK_BOOL(answer.answered, true);
        CHECK_U8(answer.number, number);
        after.counts[number] = want;
        tally_is(tally, &after);
        TAKE_BACK(memory, (const uint8_t *)&after, sizeof after);
    }
}

/* Each answer: from zero, from other counts, where 16 and 31 bits are full, and up to the hold. */
static void check_counts(void)
{
    static const struct gdl90_tally zero = {{0}}, some = {{1, 22, 333, 4444, 55555, 666666}};
    static const struct gdl90_tally held = {{UINT32_MAX, UINT32_MAX, UINT32_MAX, UINT32_MAX, UINT32_MAX, UINT32_MAX}};
    unsigned number;

    for (number = 0; number < 6; number++) {
        struct gdl90_tally counts = some;

        CASE(counts_once(number, zero, 1));
        CASE(counts_once(number, some, some.counts[number] + 1));
        CASE(counts_once(number, held, UINT32_MAX));
        counts.counts[number] = 0xFFFF;
        CASE(counts_once(number, counts, 0x10000));
        counts.counts[number] = 0x7FFFFFFF;
        CASE(counts_once(number, counts, 0x80000000));
        counts.counts[number] = UINT32_MAX - 2;
        CASE(counts_once(number, counts, UINT32_MAX - 1));
        counts.counts[number] = UINT32_MAX - 1;
        CASE(counts_once(number, counts, UINT32_MAX));
        counts.counts[number] = UINT32_MAX;
        CASE(counts_once(number, counts, UINT32_MAX));
    }
}

/* Bytes that are not answered count nothing: none at all, lead-in, flags, frames up to their closing flag, a state taken as fresh. */
static void check_no_answers(void)
{
    static const struct gdl90_tally some = {{1, 22, 333, 4444, 55555, 666666}};
    static const uint8_t lead_in[] = {0x55, 0x7D, 0x00}, flags[] = {0x7E, 0x7E, 0x7E};
    struct gdl90_tally tally = some;
    struct receiver r = fresh();
    uint8_t bytes[LONGEST];
    unsigned number;

    CHECK(feed(&r, lead_in, 0, &tally).answered, false);
    CHECK(feed(&r, lead_in, sizeof lead_in, &tally).answered, false);
    CHECK(feed(&r, flags, sizeof flags, &tally).answered, false);
    for (number = 0; number < 6; number++) {
        r = fresh();
        CHECK(feed(&r, bytes, frame_of(number, bytes) - 1, &tally).answered, false);
        CHECK(feed(&r, bytes, 0, &tally).answered, false);
    }
    r.control.stuffed = 879;
    CHECK(feed(&r, flags, 1, &tally).answered, false);
    tally_is(&tally, &some);
}

/* A stream with each answer n + 1 times, cut every `step` bytes: a call counts one answer at most, and gdl90_feed, in a state of its
   own beside it, none. Two receivers that share a tally add up in it. */
static void adds_up(const uint8_t *stream, size_t length, size_t step)
{
    static const struct gdl90_tally once = {{1, 2, 3, 4, 5, 6}}, twice = {{2, 4, 6, 8, 10, 12}};
    struct gdl90_tally tally = {{0}};
    unsigned round;

    for (round = 0; round < 2; round++) {
        struct receiver r = fresh(), beside = fresh();
        size_t at = 0, answers = 0;

        while (at < length) {
            size_t left = length - at < step ? length - at : step;
            struct gdl90_feed_answer plain = gdl90_feed(beside.control, beside.room, beside.message, stream + at, left);
            struct gdl90_feed_answer answer = feed(&r, stream + at, left, &tally);

            beside.control = plain.control;
            CHECK_SIZE(answer.taken, plain.taken);
            answers += answer.answered;
            at += answer.taken;
        }
        CHECK(answers, 21);
        tally_is(&tally, round == 0 ? &once : &twice);
    }
}

static void check_streams(void)
{
    static uint8_t stream[21 * LONGEST];
    size_t length = 0, step;
    unsigned number, times;

    for (times = 0; times < 6; times++) {
        for (number = times; number < 6; number++)
            length += frame_of(number, stream + length);
    }
    for (step = 1; step <= 64; step++)
        adds_up(stream, length, step);
    adds_up(stream, length, length);
}

void check_tallies(void)
{
    check_counts();
    check_no_answers();
    check_streams();
}
