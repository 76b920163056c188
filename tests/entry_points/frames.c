/* The check sequence and framing (RULES 'Check sequence', 'Framing'; 001 §2.2). */
#include "check.h"

static const uint8_t HEARTBEAT[] = {0x00, 0x81, 0x41, 0xDB, 0xD0, 0x08, 0x02}; /* 001 §2.2.4 */
static const uint8_t HEARTBEAT_FRAME[] = {0x7E, 0x00, 0x81, 0x41, 0xDB, 0xD0, 0x08, 0x02, 0xB3, 0x8B, 0x7E};

/* ---- check sequence */

static void sequence_is(const uint8_t *message, size_t length, uint16_t want)
{
    struct lent input = lend_copy(message, length);

    CHECK(gdl90_check_sequence(input.bytes, length), want);
    TAKE_BACK(input, message, length);
}

static void check_sequences(void)
{
    static const uint8_t x16[] = {0x01, 0x00, 0x00}, x23[] = {0x80, 0x00, 0x00};
    static const uint8_t four_flips[] = {0x01, 0x10, 0x21}, six_flips[] = {0x23, 0x14, 0x01};
    /* the 16 words of RULES 'Check sequence', which are the first 16 of 001's table */
    static const uint16_t words[16] = {0x0000, 0x1021, 0x2042, 0x3063, 0x4084, 0x50A5, 0x60C6, 0x70E7,
                                       0x8108, 0x9129, 0xA14A, 0xB16B, 0xC18C, 0xD1AD, 0xE1CE, 0xF1EF};
    uint8_t two[2] = {0}, three[3] = {0}, far[1000] = {0};
    unsigned b;

    CASE(sequence_is(two, 0, 0));
    for (b = 0; b < 256; b++) {
        two[0] = (uint8_t)b;
        two[1] = (uint8_t)(0xC3 ^ b);
        CASE(sequence_is(two, 1, (uint16_t)b));
        CASE(sequence_is(two, 2, (uint16_t)(256 * b + (0xC3 ^ b))));
    }
    for (b = 0; b < 16; b++) {
        three[0] = (uint8_t)b;
        CASE(sequence_is(three, sizeof three, words[b])); /* word i is the sequence of the message i, 00, 00 */
    }
    CASE(sequence_is(HEARTBEAT, sizeof HEARTBEAT, 0x8BB3)); /* value 1 of RULES 'Values' */
    CASE(sequence_is(x16, sizeof x16, 0x1021));             /* and 2 */
    CASE(sequence_is(x23, sizeof x23, 0x9188));             /* 001's table at 0x80 */
    CASE(sequence_is(four_flips, sizeof four_flips, 0));    /* RULES 'What the check sequence finds' */
    CASE(sequence_is(six_flips, sizeof six_flips, 0));
    /* leading zeros change no remainder: longer than any message, and not refused */
    memcpy(far + sizeof far - sizeof HEARTBEAT, HEARTBEAT, sizeof HEARTBEAT);
    CASE(sequence_is(far, sizeof far, 0x8BB3));
}

/* ---- framing */

/* The frame into an output of `room` bytes; `want_len` bytes of it are written, or none with a refusal. */
static void framed(const uint8_t *message, size_t length, size_t room, size_t behind, uint8_t number, const uint8_t *want,
                   size_t want_len)
{
    struct lent input = lend_copy(message, length), out = lend(room, behind);
    struct gdl90_frame_answer answer = gdl90_frame(input.bytes, length, out.bytes, room);

    CHECK_U8(answer.number, number);
    CHECK_SIZE(answer.length, want_len);
    TAKE_BACK(out, want, want_len);
    TAKE_BACK(input, message, length);
}

static void frame_is(const uint8_t *message, size_t length, const uint8_t *want, size_t want_len)
{
    size_t behind;

    for (behind = 0; behind <= 16; behind += 16) {
        framed(message, length, want_len, behind, 0, want, want_len);
        framed(message, length, want_len + 9, behind, 0, want, want_len);
        framed(message, length, want_len - 1, behind, 9, NULL, 0);
        framed(message, length, 1, behind, 9, NULL, 0);
        framed(message, length, 0, behind, 9, NULL, 0);
    }
}

static void check_framing(void)
{
    static const uint8_t flag[] = {0x7E, 0x7D}, flag_frame[] = {0x7E, 0x7D, 0x5E, 0x7D, 0x5E, 0x00, 0x7E};
    static const uint8_t both_frame[] = {0x7E, 0x7D, 0x5E, 0x7D, 0x5D, 0x7D, 0x5D, 0x7D, 0x5E, 0x7E};
    uint8_t message[1000], want[878];
    size_t i;

    CASE(frame_is(HEARTBEAT, 7, HEARTBEAT_FRAME, 11));
    CASE(frame_is(flag, 1, flag_frame, 7));  /* value 3 of RULES 'Values' */
    CASE(frame_is(flag, 2, both_frame, 10)); /* and 4 */

    /* the longest message at its shortest: zeros have sequence 0 */
    memset(message, 0, sizeof message);
    memset(want, 0, sizeof want);
    want[0] = want[439] = 0x7E;
    CASE(frame_is(message, 436, want, 440));

    /* and at its longest: every byte escaped, as those of its sequence, 0x7E7D by 001's table */
    memset(message, 0x7E, sizeof message);
    message[1] = message[373] = 0x7D;
    want[0] = want[877] = 0x7E;
    for (i = 0; i < 436; i++) {
        want[1 + 2 * i] = 0x7D;
        want[2 + 2 * i] = i == 1 || i == 373 ? 0x5D : 0x5E;
    }
    want[873] = 0x7D, want[874] = 0x5D, want[875] = 0x7D, want[876] = 0x5E;
    CASE(frame_is(message, 436, want, 878));

    /* 10 is checked before 9 */
    for (i = 0; i <= 900; i += 300) {
        CASE(framed(message, 0, i, 16, 10, NULL, 0));
        CASE(framed(message, 437, i, 16, 10, NULL, 0));
        CASE(framed(message, sizeof message, i, 0, 10, NULL, 0));
    }
}

void check_frames(void)
{
    check_sequences();
    check_framing();
}
