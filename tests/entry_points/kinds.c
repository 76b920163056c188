/* How each kind is read and written, every field by its name, and what is held of all kinds. */
#include "kinds.h"

static void reads_heartbeat(const uint8_t *message, size_t length, uint8_t number, const union value *want)
{
    struct gdl90_heartbeat_read read = gdl90_read_heartbeat(message, length);

    CHECK_U8(read.number, number);
    CHECK_U8(read.heartbeat.status1, want->heartbeat.status1);
    CHECK_U8(read.heartbeat.status2, want->heartbeat.status2);
    CHECK_U32(read.heartbeat.time, want->heartbeat.time);
    CHECK_U8(read.heartbeat.uplinks, want->heartbeat.uplinks);
    CHECK_U8(read.heartbeat.reserved, want->heartbeat.reserved);
    CHECK_U16(read.heartbeat.basic_and_long, want->heartbeat.basic_and_long);
}

static void reads_initialization(const uint8_t *message, size_t length, uint8_t number, const union value *want)
{
    struct gdl90_initialization_read read = gdl90_read_initialization(message, length);

    CHECK_U8(read.number, number);
    CHECK_U8(read.initialization.first, want->initialization.first);
    CHECK_U8(read.initialization.second, want->initialization.second);
}

static void reads_uplink(const uint8_t *message, size_t length, uint8_t number, const union value *want)
{
    struct gdl90_uplink_read read = gdl90_read_uplink(message, length);

    CHECK_U8(read.number, number);
    CHECK_U8(read.uplink.reception_mark, want->uplink.reception_mark);
    CHECK_U32(read.uplink.reception, want->uplink.reception);
}

static void reads_height(const uint8_t *message, size_t length, uint8_t number, const union value *want)
{
    struct gdl90_height_read read = gdl90_read_height(message, length);

    CHECK_U8(read.number, number);
    CHECK_U8(read.height.height_mark, want->height.height_mark);
    CHECK_I16(read.height.height.feet, want->height.height.feet);
}

static void check_report(struct gdl90_report_read read, uint8_t number, const union value *want)
{
    CHECK_U8(read.number, number);
    CHECK_U8(read.report.alert, want->report.alert);
    CHECK_U8(read.report.address_type, want->report.address_type);
    CHECK_U32(read.report.address, want->report.address);
    CHECK_U8(read.report.position_mark, want->report.position_mark);
    CHECK_I32(read.report.latitude, want->report.latitude);
    CHECK_I32(read.report.longitude, want->report.longitude);
    CHECK_U8(read.report.altitude_mark, want->report.altitude_mark);
    CHECK_U16(read.report.altitude.steps, want->report.altitude.steps);
    CHECK_U8(read.report.track_kind, want->report.track_kind);
    CHECK_BOOL(read.report.extrapolated, want->report.extrapolated);
    CHECK_BOOL(read.report.airborne, want->report.airborne);
    CHECK_U8(read.report.integrity, want->report.integrity);
    CHECK_U8(read.report.accuracy, want->report.accuracy);
    CHECK_U8(read.report.speed_mark, want->report.speed_mark);
    CHECK_U16(read.report.speed, want->report.speed);
    CHECK_U8(read.report.climb_mark, want->report.climb_mark);
    CHECK_I32(read.report.climb, want->report.climb);
    CHECK_U8(read.report.track, want->report.track);
    CHECK_U8(read.report.emitter, want->report.emitter);
    CHECK(sizeof read.report.call_sign, 8);
    CHECK_BYTES(read.report.call_sign, want->report.call_sign, 8);
    CHECK_U8(read.report.priority, want->report.priority);
    CHECK_U8(read.report.spare, want->report.spare);
}

static void reads_ownship(const uint8_t *message, size_t length, uint8_t number, const union value *want)
{
    check_report(gdl90_read_ownship(message, length), number, want);
}

static void reads_traffic(const uint8_t *message, size_t length, uint8_t number, const union value *want)
{
    check_report(gdl90_read_traffic(message, length), number, want);
}

static void reads_geometric(const uint8_t *message, size_t length, uint8_t number, const union value *want)
{
    struct gdl90_geometric_read read = gdl90_read_geometric(message, length);

    CHECK_U8(read.number, number);
    CHECK_I16(read.geometric.altitude.steps, want->geometric.altitude.steps);
    CHECK_BOOL(read.geometric.warning, want->geometric.warning);
    CHECK_U8(read.geometric.merit_mark, want->geometric.merit_mark);
    CHECK_U16(read.geometric.merit, want->geometric.merit);
}

static struct gdl90_write_answer write_heartbeat(const union value *value, uint8_t *out, size_t room)
{
    return gdl90_write_heartbeat(value->heartbeat, out, room);
}

static struct gdl90_write_answer write_initialization(const union value *value, uint8_t *out, size_t room)
{
    return gdl90_write_initialization(value->initialization, out, room);
}

uint8_t payload[433];
size_t payload_len = 432;

static struct gdl90_write_answer write_uplink(const union value *value, uint8_t *out, size_t room)
{
    struct lent input = lend_copy(payload, payload_len);
    struct gdl90_write_answer answer = gdl90_write_uplink(value->uplink, input.bytes, payload_len, out, room);

    TAKE_BACK(input, payload, payload_len);
    return answer;
}

static struct gdl90_write_answer write_height(const union value *value, uint8_t *out, size_t room)
{
    return gdl90_write_height(value->height, out, room);
}

static struct gdl90_write_answer write_ownship(const union value *value, uint8_t *out, size_t room)
{
    return gdl90_write_ownship(value->report, out, room);
}

static struct gdl90_write_answer write_geometric(const union value *value, uint8_t *out, size_t room)
{
    return gdl90_write_geometric(value->geometric, out, room);
}

static struct gdl90_write_answer write_traffic(const union value *value, uint8_t *out, size_t room)
{
    return gdl90_write_traffic(value->report, out, room);
}

const struct kind HEARTBEAT = {0, reads_heartbeat, write_heartbeat};
const struct kind INITIALIZATION = {2, reads_initialization, write_initialization};
const struct kind UPLINK = {7, reads_uplink, write_uplink};
const struct kind HEIGHT = {9, reads_height, write_height};
const struct kind OWNSHIP = {10, reads_ownship, write_ownship};
const struct kind GEOMETRIC = {11, reads_geometric, write_geometric};
const struct kind TRAFFIC = {20, reads_traffic, write_traffic};

/* ---- what is held of every kind */

void reads(const struct kind *kind, const uint8_t *message, size_t length, uint8_t number, const union value *want)
{
    struct lent input = lend_copy(message, length);
    union value zero;

    memset(&zero, 0, sizeof zero);
    kind->reads(input.bytes, length, number, number == 0 ? want : &zero);
    TAKE_BACK(input, message, length);
}

void writes(const struct kind *kind, const union value *value, size_t room, uint8_t number, const uint8_t *message,
                   size_t length)
{
    size_t behind;

    for (behind = 0; behind <= 16; behind += 16) {
        struct lent out = lend(room, behind);
        struct gdl90_write_answer answer = kind->write(value, out.bytes, room);

        CHECK_U8(answer.number, number);
        CHECK_SIZE(answer.length, length);
        TAKE_BACK(out, message, length);
    }
}

/* A value gives the message, into an output that is exact, longer, a byte short, or none. */
static void written(const struct kind *kind, const uint8_t *message, size_t length, const union value *value)
{
    writes(kind, value, length, 0, message, length);
    writes(kind, value, length + 9, 0, message, length);
    writes(kind, value, length - 1, 9, NULL, 0);
    writes(kind, value, 0, 9, NULL, 0);
}

/* 6 is checked before 7. */
void both_ways(const struct kind *kind, const char *hex, const union value *value)
{
    uint8_t message[1000] = {0};
    size_t length = from_hex(hex, message), cut;
    unsigned id;

    reads(kind, message, length, 0, value);
    written(kind, message, length, value);
    reads(kind, message, 0, 6, NULL);
    for (cut = 1; cut < length; cut += 1 + cut / 8)
        reads(kind, message, cut, 7, NULL);
    reads(kind, message, length - 1, 7, NULL);
    reads(kind, message, length + 1, 7, NULL);
    reads(kind, message, sizeof message, 7, NULL);
    for (id = 0; id < 256; id++) {
        if (id == kind->id)
            continue;
        message[0] = (uint8_t)id;
        reads(kind, message, length, 6, NULL);
    }
    message[0] = 1; /* no kind's */
    reads(kind, message, 1, 6, NULL);
    reads(kind, message, length + 1, 6, NULL);
}

/* 7 is checked before 8. */
void refused(const struct kind *kind, const char *hex)
{
    uint8_t message[1000] = {0};
    size_t length = from_hex(hex, message);

    reads(kind, message, length, 8, NULL);
    reads(kind, message, length + 1, 7, NULL);
}

/* 8 is checked before 9. */
void unwritten(const struct kind *kind, const union value *value)
{
    writes(kind, value, 436, 8, NULL, 0);
    writes(kind, value, 0, 8, NULL, 0);
}

void written_as(const struct kind *kind, const char *hex, const union value *value)
{
    uint8_t message[436];
    size_t length = from_hex(hex, message);

    written(kind, message, length, value);
}

union value any(void)
{
    union value value;

    memset(&value, 0x5A, sizeof value);
    return value;
}
