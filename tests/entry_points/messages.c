/* The kind of a message, and five kinds read and written (RULES 'Messages', 'Retired ids'; 001 §3). */
#include "kinds.h"

/* ---- kinds, 001 Table 2: the id alone decides, at every kind's length, at the 22 and 38 that pass-through had, and beyond */

static void kind_is(const uint8_t *message, size_t length, uint8_t number, uint8_t id)
{
    struct lent input = lend_copy(message, length);
    struct gdl90_kind_answer answer = gdl90_kind(input.bytes, length);

    CHECK_U8(answer.number, number);
    CHECK_U8(answer.id, id);
    TAKE_BACK(input, message, length);
}

static void check_kinds(void)
{
    static const uint8_t ids[] = {0, 2, 7, 9, 10, 11, 20}, retired[] = {30, 31};
    static const size_t lengths[] = {1, 3, 5, 7, 22, 28, 38, 436, 437};
    uint8_t message[437];
    unsigned id;
    size_t i;

    memset(message, 0xFF, sizeof message);
    CASE(kind_is(message, 0, 6, 0));
    for (id = 0; id < 256; id++) {
        bool known = memchr(ids, (int)id, sizeof ids) != NULL;
        uint8_t number = known ? 0 : memchr(retired, (int)id, sizeof retired) != NULL ? 17 : 6;

        message[0] = (uint8_t)id;
        for (i = 0; i < sizeof lengths / sizeof lengths[0]; i++)
            CASE(kind_is(message, lengths[i], number, known ? (uint8_t)id : 0));
    }
}

/* ---- heartbeat, 001 §3.1 */

static union value heartbeat(uint8_t status1, uint8_t status2, uint32_t time, uint8_t uplinks, uint8_t reserved,
                             uint16_t basic_and_long)
{
    union value value = any();

    value.heartbeat.status1 = status1;
    value.heartbeat.status2 = status2;
    value.heartbeat.time = time;
    value.heartbeat.uplinks = uplinks;
    value.heartbeat.reserved = reserved;
    value.heartbeat.basic_and_long = basic_and_long;
    return value;
}

static void check_heartbeat(void)
{
    union value v;

    v = heartbeat(0x81, 0x41, 53467, 1, 0, 2); /* value 1 of RULES 'Values' */
    CASE(both_ways(&HEARTBEAT, "00 81 41 DBD0 0802", &v));
    v = heartbeat(0x01, 0x00, 86400, 4, 0, 567); /* value 7 of RULES 'Values'; the counts of 001 §3.1.4 */
    CASE(both_ways(&HEARTBEAT, "00 01 80 8051 2237", &v));
    v = heartbeat(0xA1, 0x12, 0x12345, 0x16, 1, 0x2B7);
    CASE(both_ways(&HEARTBEAT, "00 A1 92 4523 B6B7", &v));
    v = heartbeat(0xFF, 0x7F, 0xFFFF, 31, 1, 1023);
    CASE(both_ways(&HEARTBEAT, "00 FF 7F FFFF FFFF", &v));
    v = heartbeat(0, 0, 0x10000, 0, 1, 0);
    CASE(both_ways(&HEARTBEAT, "00 00 80 0000 0400", &v));
    v = heartbeat(0, 0, 0, 0, 0, 0);
    CASE(both_ways(&HEARTBEAT, "00 00 00 0000 0000", &v));
    CASE(refused(&HEARTBEAT, "00 01 80 8151 2237")); /* 86,401 */
    CASE(refused(&HEARTBEAT, "00 01 80 FFFF 0000"));
    v = heartbeat(1, 0x80, 1, 1, 1, 1);
    CASE(unwritten(&HEARTBEAT, &v));
    v = heartbeat(1, 1, 86401, 1, 1, 1);
    CASE(unwritten(&HEARTBEAT, &v));
    v = heartbeat(1, 1, UINT32_MAX, 1, 1, 1);
    CASE(unwritten(&HEARTBEAT, &v));
    v = heartbeat(1, 1, 1, 32, 1, 1);
    CASE(unwritten(&HEARTBEAT, &v));
    v = heartbeat(1, 1, 1, 1, 2, 1);
    CASE(unwritten(&HEARTBEAT, &v));
    v = heartbeat(1, 1, 1, 1, 1, 1024);
    CASE(unwritten(&HEARTBEAT, &v));
}

/* ---- initialization, 001 §3.2: two bytes, carried */

static void check_initialization(void)
{
    union value v = any();

    v.initialization.first = 0x43;
    v.initialization.second = 0x02;
    CASE(both_ways(&INITIALIZATION, "02 43 02", &v));
    v.initialization.first = 0x00;
    v.initialization.second = 0xFF;
    CASE(both_ways(&INITIALIZATION, "02 00 FF", &v));
}

/* ---- uplink, 001 §3.3: the time of reception, low byte first */

static const char RECEPTIONS[][7] = {"000000", "0C0B0A", "1FBCBE", "FFFFFF"}; /* read as 0, 0x0A0B0C, 12,499,999, none */
static const uint32_t STEPS[] = {0, 0x0A0B0C, 12499999, 0};
static const char NO_RECEPTIONS[][7] = {"20BCBE", "0000FF", "FEFFFF"};                      /* 12,500,000 and more */
static const uint32_t NO_STEPS[] = {12500000, 0xFFFFFE, 0xFFFFFF, 0x1000000, UINT32_MAX}; /* none is no number */

static void check_reception(union value *v, const char *rest)
{
    char hex[1000];
    size_t i;

    for (i = 0; i < 4; i++) {
        snprintf(hex, sizeof hex, "07 %s %s", RECEPTIONS[i], rest);
        v->uplink.reception_mark = i == 3 ? 1 : 0;
        v->uplink.reception = STEPS[i];
        both_ways(&UPLINK, hex, v);
    }
    v->uplink.reception = UINT32_MAX; /* behind the mark it is not looked at */
    written_as(&UPLINK, hex, v);
    for (i = 0; i < 3; i++) {
        snprintf(hex, sizeof hex, "07 %s %s", NO_RECEPTIONS[i], rest);
        refused(&UPLINK, hex);
    }
    v->uplink.reception_mark = 0;
    for (i = 0; i < 5; i++) {
        v->uplink.reception = NO_STEPS[i];
        unwritten(&UPLINK, v);
    }
    v->uplink.reception = 1;
    for (i = 2; i < 256; i++) { /* no marks of it */
        v->uplink.reception_mark = (uint8_t)i;
        unwritten(&UPLINK, v);
    }
}

static void check_uplink(void)
{
    union value v = any();
    char rest[865];
    size_t i;

    for (i = 0; i < 432; i++) {
        payload[i] = (uint8_t)(i ^ i >> 3);
        snprintf(rest + 2 * i, 3, "%02X", payload[i]);
    }
    CASE(check_reception(&v, rest));
    /* 7, for the payload, is checked before 8 and 9 */
    for (payload_len = 0; payload_len <= 433; payload_len += payload_len == 0 ? 431 : 2) {
        v.uplink.reception_mark = 0;
        v.uplink.reception = 1;
        CASE(writes(&UPLINK, &v, 436, 7, NULL, 0));
        v.uplink.reception = UINT32_MAX;
        CASE(writes(&UPLINK, &v, 0, 7, NULL, 0));
    }
    payload_len = 432;
}

/* ---- height above terrain, 001 §3.7, and geometric altitude, §3.8 */

static union value height(uint8_t mark, int16_t feet)
{
    union value value = any();

    value.height.height_mark = mark;
    value.height.height.feet = feet;
    return value;
}

static void check_height(void)
{
    union value v;

    v = height(0, 256); /* 001's example */
    CASE(both_ways(&HEIGHT, "09 0100", &v));
    v = height(0, 32767);
    CASE(both_ways(&HEIGHT, "09 7FFF", &v));
    v = height(0, -32767);
    CASE(both_ways(&HEIGHT, "09 8001", &v));
    v = height(0, -2);
    CASE(both_ways(&HEIGHT, "09 FFFE", &v));
    v = height(0, 0);
    CASE(both_ways(&HEIGHT, "09 0000", &v));
    v = height(1, 0);
    CASE(both_ways(&HEIGHT, "09 8000", &v));
    v = height(1, 0x1234);
    CASE(written_as(&HEIGHT, "09 8000", &v));
    v = height(0, -32768); /* the mark's code as a number */
    CASE(unwritten(&HEIGHT, &v));
    v = height(2, 256);
    CASE(unwritten(&HEIGHT, &v));
    v = height(255, 256);
    CASE(unwritten(&HEIGHT, &v));
}

static union value geometric(int16_t altitude, bool warning, uint8_t mark, uint16_t merit)
{
    union value value = any();

    value.geometric.altitude.steps = altitude;
    value.geometric.warning = warning;
    value.geometric.merit_mark = mark;
    value.geometric.merit = merit;
    return value;
}

static void check_geometric(void)
{
    union value v;

    v = geometric(-200, false, 0, 10); /* 001's examples: -1,000, 0 and 1,000 feet; 10 and 50 metres, none */
    CASE(both_ways(&GEOMETRIC, "0B FF38 000A", &v));
    v = geometric(200, true, 0, 50);
    CASE(both_ways(&GEOMETRIC, "0B 00C8 8032", &v));
    v = geometric(0, true, 1, 0);
    CASE(both_ways(&GEOMETRIC, "0B 0000 FFFF", &v));
    v = geometric(32767, false, 2, 0); /* over is 0x7EEE, and 0x7FFE is 32,766 metres (RULES 'Geometric altitude') */
    CASE(both_ways(&GEOMETRIC, "0B 7FFF 7EEE", &v));
    v = geometric(-32768, false, 0, 32766);
    CASE(both_ways(&GEOMETRIC, "0B 8000 7FFE", &v));
    v = geometric(0x1234, true, 0, 0x5678);
    CASE(both_ways(&GEOMETRIC, "0B 1234 D678", &v));
    v = geometric(0, false, 0, 0);
    CASE(both_ways(&GEOMETRIC, "0B 0000 0000", &v));
    v = geometric(1, false, 1, 0x1234);
    CASE(written_as(&GEOMETRIC, "0B 0001 7FFF", &v));
    v = geometric(1, false, 2, 65535);
    CASE(written_as(&GEOMETRIC, "0B 0001 7EEE", &v));
    v = geometric(1, false, 0, 0x7EEE); /* the marks' codes as numbers */
    CASE(unwritten(&GEOMETRIC, &v));
    v = geometric(1, false, 0, 0x7FFF);
    CASE(unwritten(&GEOMETRIC, &v));
    v = geometric(1, false, 0, 0x8000);
    CASE(unwritten(&GEOMETRIC, &v));
    v = geometric(1, false, 0, 65535);
    CASE(unwritten(&GEOMETRIC, &v));
    v = geometric(1, false, 3, 10);
    CASE(unwritten(&GEOMETRIC, &v));
    v = geometric(1, false, 255, 10);
    CASE(unwritten(&GEOMETRIC, &v));
}

void check_messages(void)
{
    check_kinds();
    check_heartbeat();
    check_initialization();
    check_uplink();
    check_height();
    check_geometric();
}
