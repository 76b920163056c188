/* The information frames of uplink payloads: listed, found by number, added (RULES 'Uplink payloads', 'Adding a frame'; 001 §4 and §5). */
#include "check.h"

/* Application data of 001 §5.1.4, first and second sample, without the zeros that fill them up to 424 bytes. */
static const char NEXRAD_1[] =
    "130000FC000084A570308950111A53120930110A23451B0A0918090A1B0C1D0607061D041"
    "B0A0108208000FC000084A3AE00090A1314150617061D04130A01080112131C0D06270615"
    "140B0A01000112131C0D06270615140B0A010000090A1314150617061D04130A0108148000"
    "FC000084A1EC00090A1B0C1D0607061D041B0A010808110A23451B0A091018111A531209"
    "20308930130000FC000084AAB7308950111A53120930110A23451B0A0918090A1B0C1D060"
    "7061D041B0A0108208000FC000084A8F500090A1314150617061D04130A01080112131C0D"
    "06270615140B0A01000112131C0D06270615140B0A010000090A1314150617061D04130A01"
    "08148000FC000084A73300090A1B0C1D0607061D041B0A010808110A23451B0A091018111"
    "A53120920308930130000FC000084AFFD308950111A53120930110A23451B0A0918090A1B"
    "0C1D0607061D041B0A0108";
static const char NEXRAD_2[] =
    "208000FC000084AE3B00090A1314150617061D04130A01080112131C0D06270615140B0A0"
    "1000112131C0D06270615140B0A010000090A1314150617061D04130A0108148000FC00008"
    "4AC7900090A1B0C1D0607061D041B0A010808110A23451B0A091018111A5312092030893"
    "0040000FC000004B1BDF0040000FC000004AFFBD0040000FC000004AE39D0040000FC000"
    "004AC77D0040000FC000004AAB5D0040000FC000004A8F3D0040000FC000004A731D004"
    "0000FC000004A56FE0040000FC000004A3ADE0040000FC000004A1EBE0";
const char TAF[] =
    "2180067441905011A02D3305832DB0E70C1A04D832D71CF1D60C38C30D8B5204364CD806157C36C"
    "2008B3B1CB079C146370D30C205920B0CCB5204364CD8130D4CB5C3D79D2180067441905011A02D"
    "0118832DB0E70C1A04D832D71CF1D60C38C30D8B5204364CD806157C36C2008B3B1CB079C146370"
    "D30C205920B0CCB5204364CD8130D4CB5C3D79D2180067441905011A02C5547832DB0E70C1A04D8"
    "32D71CF1D60C38C30D8B5204364CD806157C36C2008B3B1CB079C146370D30C205920B0CCB52043"
    "64CD8130D4CB5C3D79D2180067441905011A02C14D4832DB0E70C1A04D832D71CF1D60C38C30D8B"
    "5204364CD806157C36C2008B3B1CB079C146370D30C205920B0CCB5204364CD8130D4CB5C3D79D2"
    "180067441905011A02C824F832DB0E70C1A04D832D71CF1D60C38C30D8B5204364CD806157C36C2"
    "008B3B1CB079C146370D30C205920B0CCB5204364CD8130D4CB5C3D79D";

enum { VALID = 0x20 }; /* bit 5 of the seventh header byte */

/* A payload whose header is all ones but for the valid bit, and whose application data start with these bytes. */
static void make(uint8_t payload[433], uint8_t valid, const char *hex)
{
    memset(payload, 0, 433);
    memset(payload, 0xFF, 8);
    payload[6] = (uint8_t)(0xDF | valid);
    from_hex(hex, payload + 8);
}

/* ---- listing and finding */

static void list_is(const uint8_t *payload, size_t length, uint8_t number, size_t count, size_t end)
{
    struct lent input = lend_copy(payload, length);
    struct gdl90_payload_list_answer list = gdl90_payload_list(input.bytes, length);

    CHECK_U8(list.number, number);
    CHECK_SIZE(list.count, count);
    CHECK_SIZE(list.end, end);
    TAKE_BACK(input, payload, length);
}

static void nth_is(const uint8_t *payload, size_t length, size_t n, uint8_t number, uint8_t type, uint8_t reserved, size_t start,
                   size_t data_len)
{
    struct lent input = lend_copy(payload, length);
    struct gdl90_payload_nth_answer frame = gdl90_payload_nth(input.bytes, length, n);

    CHECK_U8(frame.number, number);
    CHECK_U8(frame.kind, type);
    CHECK_U8(frame.reserved, reserved);
    CHECK_SIZE(frame.start, start);
    CHECK_SIZE(frame.length, data_len);
    TAKE_BACK(input, payload, length);
}

/* Refused with this number whichever frame is asked for: one refused frame refuses the payload. */
static void refused(const uint8_t *payload, size_t length, uint8_t number)
{
    list_is(payload, length, number, 0, 0);
    nth_is(payload, length, 0, number, 0, 0, 0, 0);
    nth_is(payload, length, 1, number, 0, 0, 0, 0);
    nth_is(payload, length, SIZE_MAX, number, 0, 0, 0, 0);
}

/* The list of a payload: it ends where its last frame does, and no number behind the last has a frame. */
static void lists(const uint8_t *payload, size_t count, size_t end)
{
    list_is(payload, 432, 0, count, end);
    nth_is(payload, 432, count, 13, 0, 0, 0, 0);
    nth_is(payload, 432, count + 1, 13, 0, 0, 0, 0);
    nth_is(payload, 432, SIZE_MAX / 2 + 1, 13, 0, 0, 0, 0); /* 0 in fewer bits */
    nth_is(payload, 432, SIZE_MAX, 13, 0, 0, 0, 0);
}

/* Frames of type 0 with these lengths, one directly after the other. */
static void lengths_are(const char *hex, const size_t *lengths, size_t count, size_t end)
{
    uint8_t payload[433];
    size_t n, start = 8;

    make(payload, VALID, hex);
    lists(payload, count, end);
    for (n = 0; n < count; n++) {
        nth_is(payload, 432, n, 0, 0, 0, start + 2, lengths[n]);
        start += 2 + lengths[n];
    }
    refused(payload, 431, 7);
    refused(payload, 433, 7);
    refused(payload, 1, 7);
    refused(payload, 0, 7);
    payload[6] = 0xDF; /* not valid: no frames, whatever the data are */
    lists(payload, 0, 0);
}

static void check_samples(void)
{
    static const size_t nexrad_1[] = {38, 65, 41, 38, 65, 41, 38};
    static const size_t nexrad_2[] = {65, 41, 8, 8, 8, 8, 8, 8, 8, 8, 8, 8};
    static const size_t taf[] = {67, 67, 67, 67, 67};

    CASE(lengths_are(NEXRAD_1, nexrad_1, 7, 340));
    CASE(lengths_are(NEXRAD_2, nexrad_2, 12, 210));
    CASE(lengths_are(TAF, taf, 5, 345));
    CASE(lengths_are("", taf, 0, 0));
}

static void check_headers(void)
{
    uint8_t payload[433];
    size_t n;

    /* type and reserved bits; length 0 ends the list, whatever is behind it */
    make(payload, VALID, "01F5 A1A2A3 00AA B1 017F C1C2 007F FFFFFF");
    CASE(lists(payload, 3, 12));
    CASE(nth_is(payload, 432, 0, 0, 5, 7, 10, 3));
    CASE(nth_is(payload, 432, 1, 0, 10, 2, 15, 1));
    CASE(nth_is(payload, 432, 2, 0, 15, 7, 18, 2));
    memset(payload, 0, 8);
    payload[6] = VALID; /* no other bit of the header counts */
    CASE(lists(payload, 3, 12));
    payload[6] = 0;
    CASE(lists(payload, 0, 0));

    /* value 10 of RULES 'Values' */
    make(payload, VALID, "9600");
    CASE(lists(payload, 1, 302));
    CASE(nth_is(payload, 432, 0, 0, 0, 0, 10, 300));
    make(payload, VALID, "0080");
    CASE(lists(payload, 1, 3));
    CASE(nth_is(payload, 432, 0, 0, 0, 0, 10, 1));
    make(payload, VALID, "D300");
    CASE(lists(payload, 1, 424));
    CASE(nth_is(payload, 432, 0, 0, 0, 0, 10, 422));
    make(payload, VALID, "D380");
    CASE(refused(payload, 432, 11));
    payload[6] = 0xDF;
    CASE(lists(payload, 0, 0));
    make(payload, VALID, "FF80"); /* 511: a length over 422 runs past the data */
    CASE(refused(payload, 432, 11));

    /* the second frame is the one that runs past: 302 and 2 and 120 are 424 */
    make(payload, VALID, "9600");
    payload[8 + 302] = 0x3C;
    CASE(lists(payload, 2, 424));
    CASE(nth_is(payload, 432, 1, 0, 0, 0, 312, 120));
    payload[8 + 303] = 0x80;
    CASE(refused(payload, 432, 11));

    /* two bytes left are a header, one is not */
    make(payload, VALID, "D200");
    CASE(lists(payload, 1, 422));
    payload[431] = 0x80;
    CASE(refused(payload, 432, 11));
    make(payload, VALID, "D280");
    payload[431] = 0xFF;
    CASE(lists(payload, 1, 423));

    /* 141 frames, the most */
    make(payload, VALID, "");
    for (n = 0; n < 141; n++)
        payload[8 + 3 * n + 1] = (uint8_t)(0x80 | n % 16);
    payload[431] = 0xFF;
    CASE(lists(payload, 141, 423));
    for (n = 0; n < 141; n++)
        CASE(nth_is(payload, 432, n, 0, (uint8_t)(n % 16), 0, 10 + 3 * n, 1));
}

/* ---- adding */

/* Adds to the payload, which is then `want`: unchanged with a refusal. */
static void add(uint8_t *payload, size_t length, uint8_t type, const uint8_t *data, size_t data_len, uint8_t number,
                const uint8_t *want)
{
    struct lent memory = lend_copy(payload, length), input = lend_copy(data, data_len);

    CHECK(gdl90_payload_add(memory.bytes, length, type, input.bytes, data_len), number);
    memcpy(payload, memory.bytes, length);
    TAKE_BACK(memory, want, length);
    TAKE_BACK(input, data, data_len);
}

/* The frame stands at the list's end, reserved bits 0, with zeros behind it; the valid bit is set, and all before stays. */
static void check_adding(void)
{
    uint8_t data[1000], payload[433], want[433];
    size_t i;

    for (i = 0; i < sizeof data; i++)
        data[i] = (uint8_t)(0xD1 + 3 * i);

    /* into what was not valid: from byte 0 on */
    make(payload, 0, "01F5 A1A2A3 D380 FFFFFF");
    payload[431] = 0xEE;
    make(want, VALID, "0183 D1D4D7");
    CASE(add(payload, 432, 3, data, 3, 0, want));
    make(want, VALID, "0183 D1D4D7 010F D1D4");
    CASE(add(payload, 432, 15, data, 2, 0, want));
    CASE(lists(payload, 2, 9));
    CASE(nth_is(payload, 432, 1, 0, 15, 0, 15, 2));

    /* behind frames that are there, whose reserved bits stay; what was behind the list's end is gone */
    make(payload, VALID, "00F5 A1 0070 FFFFFFFF");
    payload[431] = 0xEE;
    make(want, VALID, "00F5 A1 0080 D1");
    CASE(add(payload, 432, 0, data, 1, 0, want));

    /* a header of zeros stays one, but for the valid bit */
    memset(payload, 0, 433);
    memset(want, 0, 433);
    want[6] = VALID;
    want[8] = 0x96, want[9] = 0x07; /* a nine-bit length of 300 */
    memcpy(want + 10, data, 300);
    CASE(add(payload, 432, 7, data, 300, 0, want));
    CASE(add(payload, 432, 7, data, 121, 9, want)); /* 302 and 2 and 121 are 425 */
    want[8 + 302] = 0x3C, want[8 + 303] = 0x08;
    memcpy(want + 8 + 304, data, 120);
    CASE(add(payload, 432, 8, data, 120, 0, want));
    CASE(add(payload, 432, 8, data, 1, 9, want));

    /* the longest */
    make(payload, VALID, "");
    make(want, VALID, "D301");
    memcpy(want + 10, data, 422);
    CASE(add(payload, 432, 1, data, 422, 0, want));
    CASE(add(payload, 432, 1, data, 1, 9, want));
    CASE(lists(payload, 1, 424));
}

/* 141 frames of one byte, each listed with those before it; then 9. */
static void check_filling(void)
{
    uint8_t payload[433], want[433];
    size_t n;

    make(payload, 0, "FFFF");
    make(want, VALID, "");
    for (n = 0; n < 141; n++) {
        uint8_t data = (uint8_t)(n ^ 0x99);

        want[8 + 3 * n + 1] = (uint8_t)(0x80 | n % 16);
        want[8 + 3 * n + 2] = data;
        CASE(add(payload, 432, (uint8_t)(n % 16), &data, 1, 0, want));
        CASE(lists(payload, n + 1, 3 * n + 3));
    }
    CASE(add(payload, 432, 0, want, 1, 9, want));
}

/* 7, 11, then 8, then 9; nothing changes. */
static void check_not_added(void)
{
    uint8_t data[1000], payload[433], want[433];

    memset(data, 0x77, sizeof data);
    make(payload, VALID, "0080 A1");
    make(want, VALID, "0080 A1");
    CASE(add(payload, 431, 16, data, 0, 7, want));
    CASE(add(payload, 433, 1, data, 1, 7, want));
    CASE(add(payload, 0, 1, data, 1, 7, want));
    CASE(add(payload, 432, 16, data, 1, 8, want));
    CASE(add(payload, 432, 255, data, 1, 8, want));
    CASE(add(payload, 432, 1, data, 0, 8, want));
    CASE(add(payload, 432, 1, data, 423, 8, want)); /* out of range in any payload, so not 9 */
    CASE(add(payload, 432, 1, data, sizeof data, 8, want));
    CASE(add(payload, 432, 1, data, 422, 9, want));
    make(payload, VALID, "0080 A1 FF80");
    make(want, VALID, "0080 A1 FF80");
    CASE(add(payload, 432, 16, data, 0, 11, want));
    CASE(add(payload, 432, 1, data, 1, 11, want));
    CASE(add(payload, 431, 1, data, 1, 7, want));
    make(payload, 0, "0080 A1"); /* the valid bit is not set either */
    make(want, 0, "0080 A1");
    CASE(add(payload, 432, 16, data, 1, 8, want));
    CASE(add(payload, 432, 1, data, 423, 8, want));
    CASE(add(payload, 431, 1, data, 1, 7, want));
}

void check_information_frames(void)
{
    check_samples();
    check_headers();
    check_adding();
    check_filling();
    check_not_added();
}
