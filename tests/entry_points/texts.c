/* Weather texts: read from the data of information frames, and written (RULES 'Weather texts'; 001 §5.2). */
#include "check.h"

static const uint8_t HEADER[] = {0x06, 0x74, 0x41, 0x90}; /* of 001 §5.2.4: 16 hours, 25 minutes, padding 0 */

enum { MOST = 100 }; /* codes that a case packs */

/* The header, then codes of six bits, high bit first, and zero bits up to the byte's end. Answers how many bytes. */
static size_t pack(const uint8_t *codes, size_t count, uint8_t *data)
{
    size_t bit, length = 4 + (6 * count + 7) / 8;

    memset(data, 0, length);
    memcpy(data, HEADER, 4);
    for (bit = 0; bit < 6 * count; bit++)
        if ((codes[bit / 6] >> (5 - bit % 6)) % 2 == 1)
            data[4 + bit / 8] |= (uint8_t)(0x80 >> bit % 8);
    return length;
}

/* A character's code, 0 if it has none. */
static uint8_t code_of(unsigned character)
{
    if (character >= 'A' && character <= 'Z')
        return (uint8_t)(character - 'A' + 1);
    if (character == 0x1E)
        return 29;
    if (character == '\n')
        return 30;
    return character >= ' ' && character <= '?' ? (uint8_t)character : 0;
}

/* A code's character, 0 if it has none: the end, the tab, and the two that are refused. */
static uint8_t character_of(uint8_t code)
{
    unsigned character;

    for (character = 1; character < 256; character++)
        if (code_of(character) == code)
            return (uint8_t)character;
    return 0;
}

/* ---- reading */

static struct gdl90_text_answer answer(uint8_t number, uint8_t hours, uint8_t minutes, uint8_t padding, size_t length)
{
    struct gdl90_text_answer want;

    want.number = number;
    want.hours = hours;
    want.minutes = minutes;
    want.padding = padding;
    want.length = length;
    return want;
}

/* One call, with `room` bytes lent: the answer, the text at the room's start, and all else as it was. */
static void read_is(const uint8_t *data, size_t length, size_t room, size_t behind, struct gdl90_text_answer want,
                    const uint8_t *text)
{
    struct lent input = lend_copy(data, length), output = lend(room, behind);
    struct gdl90_text_answer read = gdl90_read_text(input.bytes, length, output.bytes, room);

    CHECK_U8(read.number, want.number);
    CHECK_U8(read.hours, want.hours);
    CHECK_U8(read.minutes, want.minutes);
    CHECK_U8(read.padding, want.padding);
    CHECK_SIZE(read.length, want.length);
    TAKE_BACK(output, text, want.length);
    TAKE_BACK(input, data, length);
}

/* Refused with this number whatever the room: 9 comes after it. */
static void unread(const uint8_t *data, size_t length, uint8_t number)
{
    read_is(data, length, 0, 0, answer(number, 0, 0, 0, 0), NULL);
    read_is(data, length, 1000, 16, answer(number, 0, 0, 0, 0), NULL);
}

/* Read with exact room and with more, refused with 9 where there is less. */
static void reads(const uint8_t *data, size_t length, struct gdl90_text_answer want, const uint8_t *text)
{
    read_is(data, length, want.length, 0, want, text);
    read_is(data, length, want.length, 16, want, text);
    read_is(data, length, want.length + 40, 16, want, text);
    if (want.length > 0) {
        read_is(data, length, want.length - 1, 16, answer(9, 0, 0, 0, 0), NULL);
        read_is(data, length, 0, 16, answer(9, 0, 0, 0, 0), NULL);
    }
}

/* Codes behind the header of 001 §5.2.4. */
static void codes_are(const uint8_t *codes, size_t count, const uint8_t *text, size_t text_len)
{
    uint8_t data[4 + MOST];
    size_t length = pack(codes, count, data);

    reads(data, length, answer(0, 16, 25, 0, text_len), text);
}

static void codes_unread(const uint8_t *codes, size_t count)
{
    uint8_t data[4 + MOST];
    size_t length = pack(codes, count, data);

    unread(data, length, 16);
}

/* ---- writing */

static void write_is(const uint8_t header[3], const uint8_t *text, size_t length, size_t room, size_t behind, uint8_t number,
                     const uint8_t *data, size_t data_len)
{
    struct lent input = lend_copy(text, length), output = lend(room, behind);
    struct gdl90_write_answer written = gdl90_write_text(header[0], header[1], header[2], input.bytes, length, output.bytes, room);

    CHECK_U8(written.number, number);
    CHECK_SIZE(written.length, data_len);
    TAKE_BACK(output, data, data_len);
    TAKE_BACK(input, text, length);
}

/* Refused with this number whatever the room. */
static void unwritten(uint8_t hours, uint8_t minutes, uint8_t padding, const uint8_t *text, size_t length, uint8_t number)
{
    const uint8_t header[] = {hours, minutes, padding};

    write_is(header, text, length, 0, 0, number, NULL, 0);
    write_is(header, text, length, length + 100, 16, number, NULL, 0);
}

/* Written with exact room and with more as these bytes, refused with 9 where there is less; and read again as the same text. */
static void writes(uint8_t hours, uint8_t minutes, uint8_t padding, const uint8_t *text, size_t length, const uint8_t *data,
                   size_t data_len)
{
    const uint8_t header[] = {hours, minutes, padding};

    write_is(header, text, length, data_len, 0, 0, data, data_len);
    write_is(header, text, length, data_len, 16, 0, data, data_len);
    write_is(header, text, length, data_len + 40, 16, 0, data, data_len);
    write_is(header, text, length, data_len - 1, 16, 9, NULL, 0);
    write_is(header, text, length, 0, 16, 9, NULL, 0);
    reads(data, data_len, answer(0, hours, minutes, padding, length), text);
}

/* Under the header of 001 §5.2.4: each character's code, and code 0. */
static void text_is_written(const uint8_t *text, size_t length)
{
    uint8_t codes[MOST], data[4 + MOST];
    size_t i, data_len;

    for (i = 0; i < length; i++)
        codes[i] = code_of(text[i]);
    codes[length] = 0;
    data_len = pack(codes, length + 1, data);
    CHECK(data_len, 4 + (length + 1) - (length + 1) / 4);
    writes(16, 25, 0, text, length, data, data_len);
}

/* ---- 001 §5.2.4: the five texts, whose second line starts with a tab of five spaces */

static void check_samples(void)
{
    static const char airports[][5] = {"KSLE", "KPDX", "KEUG", "KAST", "KHIO"};
    uint8_t payload[424], text[MOST];
    size_t n;

    CHECK(from_hex(TAF, payload), 345);
    for (n = 0; n < 5; n++) {
        const uint8_t *data = payload + 69 * n + 2;
        int length = snprintf((char *)text, sizeof text,
                              "TAF %s 260900ZAM 251315 08006KT P6SM FEW060 BKN120\n"
                              "     FM0400 VRB03KT P6SM SCT250=\n\x1E",
                              airports[n]);

        CHECK(length, 87);
        CASE(reads(data, 67, answer(0, 16, 25, 0, 87), text));
        CASE(text_is_written(text, 87)); /* in 70 bytes: without the tab, and closed by a code 0 */
    }
}

/* ---- refusals, each before those named behind it: 14, 15, 16, 9 */

static void check_not_read(void)
{
    uint8_t data[1000];
    size_t n;

    memset(data, 0xFF, sizeof data);
    for (n = 0; n < 4; n++)
        CASE(unread(data, n, 14));
    memcpy(data, HEADER, 4);
    for (n = 0; n < 4; n++)
        CASE(unread(data, n, 14));
    CASE(reads(data, 4, answer(0, 16, 25, 0, 0), NULL));

    /* each of the 17 bits before the hours, over a code that is none: three flags, 11 of the product, segmented, two of the time */
    data[4] = 27 << 2;
    CASE(unread(data, 5, 16));
    for (n = 0; n < 17; n++) {
        data[n / 8] ^= (uint8_t)(0x80 >> n % 8);
        CASE(unread(data, 4, 15));
        CASE(unread(data, 5, 15));
        data[n / 8] ^= (uint8_t)(0x80 >> n % 8);
    }
    CASE(unread(data, 5, 16));

    /* behind more characters than there is room for */
    data[4] = 1 << 2;
    CASE(read_is(data, 5, 0, 16, answer(9, 0, 0, 0, 0), NULL));
    memset(data + 4, 0x55, sizeof data - 4); /* 21, 21, 21, 21 */
    data[sizeof data - 1] = 0x40 | 31;
    CASE(read_is(data, sizeof data - 3, 0, 16, answer(9, 0, 0, 0, 0), NULL));
    CASE(unread(data, sizeof data, 16));
}

/* What the header carries is any number that its bits hold. */
static void check_headers(void)
{
    static const uint8_t hours[] = {0, 1, 23, 24, 31}, minutes[] = {0, 15, 16, 59, 60, 63}, paddings[] = {0, 1, 8, 15};
    static const uint8_t wide[] = {16, 32, 64, 128, 255};
    const uint8_t letter = 'A', small = 'a';
    size_t h, m, p;

    for (h = 0; h < sizeof hours; h++) {
        for (m = 0; m < sizeof minutes; m++) {
            for (p = 0; p < sizeof paddings; p++) {
                unsigned word = hours[h] * 1024u + minutes[m] * 16u + paddings[p];
                uint8_t data[] = {0x06, 0x74, 0, 0, 1 << 2, 0}; /* 000001 000000 0000 */

                data[2] = (uint8_t)(word / 256);
                data[3] = (uint8_t)(word % 256);
                CASE(writes(hours[h], minutes[m], paddings[p], &letter, 1, data, 6));
            }
        }
    }
    /* 8 comes before 16, and 16 before 9 */
    for (p = 0; p < sizeof wide; p++) {
        CASE(unwritten(0, 0, wide[p], &small, 1, 8));
        if (wide[p] > 31)
            CASE(unwritten(wide[p], 0, 0, &small, 1, 8));
        if (wide[p] > 63)
            CASE(unwritten(0, wide[p], 0, &letter, 1, 8));
    }
    CASE(unwritten(31, 63, 15, &small, 1, 16));
}

/* ---- codes and characters */

/* Each code at every place of 1 to 9: it stands over every two bytes, and each rest of bits is left behind the last. */
static void check_codes(void)
{
    uint8_t codes[9], text[9], code;
    size_t count, at;

    for (count = 1; count <= 9; count++) {
        for (at = 0; at < count; at++) {
            for (code = 0; code < 64; code++) {
                if (code == 28)
                    continue;
                memset(codes, 33, sizeof codes);
                memset(text, '!', sizeof text);
                codes[at] = code;
                text[at] = character_of(code);
                if (code == 27 || code == 31)
                    CASE(codes_unread(codes, count));
                else
                    CASE(codes_are(codes, count, text, code == 0 ? at : count));
            }
        }
    }
}

/* A tab and its count, which is 0 to 63 and no code; without a whole count it is refused, and behind a code 0 nothing is. */
static void check_tabs(void)
{
    static const uint8_t behind_end[] = {1, 0, 27, 28, 31};
    uint8_t codes[] = {1, 1, 1, 1, 28, 0, 2}, text[MOST], data[8], count, low;
    size_t front, length;

    for (count = 0; count < 64; count++) {
        for (front = 0; front < 4; front++) {
            memset(text, 'A', front);
            memset(text + front, ' ', count);
            text[front + count] = 'B';
            codes[5] = count;
            CASE(codes_are(codes + 4 - front, front + 3, text, front + count + 1));
            CASE(codes_are(codes + 4 - front, front + 2, text, front + count));
        }
    }
    for (front = 0; front < 5; front++) {
        if (front == 2)
            continue; /* six bits are left: a whole count */
        length = pack(codes + 4 - front, front + 1, data);
        for (low = 0; low < 1 << 2 * ((front + 1) % 4); low++) { /* 2, 4 or no bits are left, of any value */
            CASE(unread(data, length, 16));
            data[length - 1]++;
        }
    }
    CASE(codes_are(behind_end, sizeof behind_end, (const uint8_t *)"A", 1));
}

static void check_characters(void)
{
    static const uint8_t all[] = "ABCDEFGHIJKLMNOPQRSTUVWXYZ\x1E\n !\"#$%&'()*+,-./0123456789:;<=>?";
    uint8_t text[9];
    unsigned character;
    size_t length, at;

    CHECK(sizeof all - 1, 60);
    for (length = 0; length < sizeof all; length++)
        CASE(text_is_written(all, length));
    for (character = 0; character < 256; character++) {
        for (at = 0; at < 5; at++) {
            memset(text, 'Z', sizeof text);
            text[at] = (uint8_t)character;
            if (memchr(all, (int)character, 60) != NULL)
                CASE(text_is_written(text, 5));
            else
                CASE(unwritten(16, 25, 0, text, 5, 16));
        }
    }
}

/* ---- long ones: the most that a frame's data hold, and more than any frame */

static void check_long(void)
{
    static uint8_t data[100000], text[GDL90_LONGEST_TEXT];
    size_t i;

    memcpy(data, HEADER, 4);
    for (i = 4; i < sizeof data; i += 3) /* 28, 63, 28, 63 */
        data[i] = 0x73, data[i + 1] = 0xF7, data[i + 2] = 0x3F;
    memset(text, ' ', sizeof text);
    CASE(reads(data, 421, answer(0, 16, 25, 0, 278 * 63), text)); /* 139 times four codes */
    CASE(unread(data, 422, 16));                                  /* and a tab alone */
    data[421] = 0x04;
    text[GDL90_LONGEST_TEXT - 1] = 'A';
    CASE(reads(data, 422, answer(0, 16, 25, 0, GDL90_LONGEST_TEXT), text));

    memset(data + 4, 0x55, sizeof data - 4); /* 21, 21, 21, 21 */
    memset(text, 'U', sizeof text);
    CASE(reads(data, 4 + 3000, answer(0, 16, 25, 0, 4000), text));
    CASE(read_is(data, sizeof data, 133327, 16, answer(9, 0, 0, 0, 0), NULL)); /* of 99,996 bytes 133,328 codes */
    data[4 + 3000] = 0x54; /* 21, 0: the closing code and zero bits */
    data[4 + 3001] = 0x00;
    CASE(writes(16, 25, 0, text, 4001, data, 4 + 3002));
}

/* ---- in a payload: 556 characters fill a frame, and one more is too many */

static void check_full_frame(void)
{
    static const uint8_t empty[GDL90_PAYLOAD] = {0};
    uint8_t payload[GDL90_PAYLOAD] = {0}, text[557], data[423];
    struct gdl90_write_answer written;
    struct gdl90_payload_nth_answer frame;
    size_t i;

    for (i = 0; i < sizeof text; i++)
        text[i] = (uint8_t)(' ' + i % 32);
    written = gdl90_write_text(16, 25, 0, text, 557, data, sizeof data);
    CHECK_U8(written.number, 0);
    CHECK_SIZE(written.length, 423);
    CHECK(gdl90_payload_add(payload, sizeof payload, 0, data, written.length), 8);
    CHECK_BYTES(payload, empty, sizeof payload);

    written = gdl90_write_text(16, 25, 0, text, 556, data, sizeof data);
    CHECK_U8(written.number, 0);
    CHECK_SIZE(written.length, 422);
    CHECK(gdl90_payload_add(payload, sizeof payload, 0, data, written.length), 0);
    frame = gdl90_payload_nth(payload, sizeof payload, 0);
    CHECK_U8(frame.number, 0);
    CHECK_U8(frame.kind, 0);
    CHECK_SIZE(frame.length, 422);
    CASE(reads(payload + frame.start, frame.length, answer(0, 16, 25, 0, 556), text));
}

void check_texts(void)
{
    check_samples();
    check_not_read();
    check_headers();
    check_codes();
    check_tabs();
    check_characters();
    check_long();
    check_full_frame();
}
