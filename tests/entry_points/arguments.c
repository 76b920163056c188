/* What C can hand over and other languages cannot: NULL for no bytes, bytes in a bool that it does not hold, an initialised state
   (RULES 'Structs for C'). */
#include "check.h"

static const uint8_t HEARTBEAT[] = {0x00, 0x81, 0x41, 0xDB, 0xD0, 0x08, 0x02}; /* 001 §2.2.4 */

/* ---- NULL, in each place of a pointer with a length, one after the other; answers as to no bytes that are there */

static void check_no_frames(void)
{
    uint8_t room[GDL90_ROOM] = GDL90_FRESH, message[GDL90_LONGEST_MESSAGE] = {0}, frame[11];
    struct gdl90_feed_control control = GDL90_FRESH;
    struct gdl90_tally tally = {{0}};
    struct gdl90_feed_answer fed = gdl90_feed(control, room, message, NULL, 0);

    CHECK(gdl90_feed_tallied(control, room, message, NULL, 0, &tally).answered, false);
    CHECK(gdl90_check_sequence(NULL, 0), 0);
    CHECK(gdl90_frame(NULL, 0, frame, sizeof frame).number, GDL90_UNFRAMABLE);
    CHECK(gdl90_frame(HEARTBEAT, sizeof HEARTBEAT, NULL, 0).number, GDL90_NO_ROOM);
    CHECK(gdl90_frame(NULL, 0, NULL, 0).number, GDL90_UNFRAMABLE);
    CHECK(fed.taken, 0);
    CHECK(fed.answered, false);
    CHECK(fed.position, 0);
    CHECK(fed.control.count, 0);
    CHECK(fed.control.stuffed, 0);
    CHECK(fed.control.phase, 0);
}

/* No recording, no list, no memory for messages: each where there is nothing for it, and where there is something. */
static void check_no_recordings(void)
{
    static const uint8_t refused[] = {0x7E, 0x07, 0x7E}, accepted[] = {0x7E, 0x07, 0x07, 0x00, 0x7E};
    struct gdl90_recording_answer none = gdl90_read_recording(NULL, 0, NULL, 0, NULL, 0), answer;
    size_t list[3] = {0};
    uint8_t messages[1] = {0};

    CHECK(none.number, 0);
    CHECK(none.entries, 0);
    CHECK(gdl90_read_recording(NULL, 0, list, 3, messages, 1).number, 0);
    CHECK(gdl90_read_recording(refused, 2, NULL, 0, NULL, 0).number, 0);
    CHECK(gdl90_read_recording(refused, sizeof refused, NULL, 0, messages, 1).number, GDL90_NO_ROOM);
    answer = gdl90_read_recording(refused, sizeof refused, list, 3, NULL, 0);
    CHECK(answer.number, 0);
    CHECK(answer.entries, 1);
    CHECK(list[0], GDL90_FRAME_TOO_SHORT);
    CHECK(gdl90_read_recording(accepted, sizeof accepted, list, 3, NULL, 0).number, GDL90_NO_ROOM);
    CHECK(gdl90_read_recording(accepted, sizeof accepted, NULL, 0, NULL, 0).number, GDL90_NO_ROOM);
}

static void check_no_messages(void)
{
    CHECK(gdl90_kind(NULL, 0).number, GDL90_UNKNOWN_ID);
    CHECK(gdl90_read_heartbeat(NULL, 0).number, GDL90_UNKNOWN_ID);
    CHECK(gdl90_read_initialization(NULL, 0).number, GDL90_UNKNOWN_ID);
    CHECK(gdl90_read_uplink(NULL, 0).number, GDL90_UNKNOWN_ID);
    CHECK(gdl90_read_height(NULL, 0).number, GDL90_UNKNOWN_ID);
    CHECK(gdl90_read_ownship(NULL, 0).number, GDL90_UNKNOWN_ID);
    CHECK(gdl90_read_geometric(NULL, 0).number, GDL90_UNKNOWN_ID);
    CHECK(gdl90_read_traffic(NULL, 0).number, GDL90_UNKNOWN_ID);
}

static struct gdl90_report report(void)
{
    struct gdl90_report none;

    memset(&none, 0, sizeof none);
    none.position_mark = none.altitude_mark = none.speed_mark = none.climb_mark = GDL90_NONE;
    return none;
}

static void check_no_output(void)
{
    const struct gdl90_heartbeat heartbeat = {0, 0, 0, 0, 0, 0};
    const struct gdl90_initialization initialization = {0, 0};
    const struct gdl90_uplink uplink = {0, 0};
    const struct gdl90_height height = {0, {0}};
    const struct gdl90_geometric geometric = {{0}, false, 0, 0};
    const uint8_t payload[GDL90_PAYLOAD] = {0};
    uint8_t out[GDL90_LONGEST_MESSAGE];

    CHECK(gdl90_write_heartbeat(heartbeat, NULL, 0).number, GDL90_NO_ROOM);
    CHECK(gdl90_write_initialization(initialization, NULL, 0).number, GDL90_NO_ROOM);
    CHECK(gdl90_write_uplink(uplink, payload, sizeof payload, NULL, 0).number, GDL90_NO_ROOM);
    CHECK(gdl90_write_uplink(uplink, NULL, 0, out, sizeof out).number, GDL90_WRONG_LENGTH);
    CHECK(gdl90_write_height(height, NULL, 0).number, GDL90_NO_ROOM);
    CHECK(gdl90_write_ownship(report(), NULL, 0).number, GDL90_NO_ROOM);
    CHECK(gdl90_write_geometric(geometric, NULL, 0).number, GDL90_NO_ROOM);
    CHECK(gdl90_write_traffic(report(), NULL, 0).number, GDL90_NO_ROOM);
}

static void check_no_payloads_and_texts(void)
{
    uint8_t payload[GDL90_PAYLOAD] = {0}, data[5];
    const struct gdl90_write_answer empty = gdl90_write_text(0, 0, 0, NULL, 0, data, sizeof data);

    CHECK(gdl90_payload_list(NULL, 0).number, GDL90_WRONG_LENGTH);
    CHECK(gdl90_payload_nth(NULL, 0, 0).number, GDL90_WRONG_LENGTH);
    CHECK(gdl90_payload_add(NULL, 0, 0, data, 1), GDL90_WRONG_LENGTH);
    CHECK(gdl90_payload_add(payload, sizeof payload, 0, NULL, 0), GDL90_OUT_OF_RANGE);
    CHECK(empty.number, 0);
    CHECK(empty.length, 5);
    CHECK(gdl90_write_text(0, 0, 0, NULL, 0, NULL, 0).number, GDL90_NO_ROOM);
    CHECK(gdl90_read_text(data, empty.length, NULL, 0).number, 0); /* the empty text needs no room */
    CHECK(gdl90_read_text(NULL, 0, data, sizeof data).number, GDL90_NO_TEXT_HEADER);
}

/* ---- of a byte that is not 0 or 1 the lowest bit counts */

static void put(bool *field, unsigned byte)
{
    memset(field, (int)byte, 1);
}

/* The messages of two reports that differ in a bool: one with that byte in it, one with its lowest bit. */
static void same_reports(struct gdl90_report got, struct gdl90_report want)
{
    uint8_t bytes[28], expected[28];

    CHECK(gdl90_write_traffic(got, bytes, sizeof bytes).number, 0);
    CHECK(gdl90_write_traffic(want, expected, sizeof expected).number, 0);
    CHECK_BYTES(bytes, expected, sizeof bytes);
    CHECK(gdl90_write_ownship(got, bytes, sizeof bytes).number, 0);
    CHECK(gdl90_write_ownship(want, expected, sizeof expected).number, 0);
    CHECK_BYTES(bytes, expected, sizeof bytes);
}

static void check_bools(void)
{
    struct gdl90_report airborne = report(), extrapolated = report(), want;
    struct gdl90_geometric geometric = {{0}, false, 0, 10};
    uint8_t bytes[5];
    unsigned byte;

    for (byte = 0; byte < 256; byte++) {
        want = report();
        want.airborne = byte % 2 != 0;
        put(&airborne.airborne, byte);
        CASE(same_reports(airborne, want));
        want = report();
        want.extrapolated = byte % 2 != 0;
        put(&extrapolated.extrapolated, byte);
        CASE(same_reports(extrapolated, want));
        put(&geometric.warning, byte);
        CHECK(gdl90_write_geometric(geometric, bytes, sizeof bytes).number, 0);
        CHECK(bytes[3], byte % 2 != 0 ? 0x80 : 0);
        CHECK(bytes[4], 10);
    }
}

/* ---- the state */

/* GDL90_FRESH is all zero; and to start anew the control alone is enough, whatever the room holds: here a frame that broke off. */
static void check_fresh(void)
{
    static const uint8_t broken[] = {0x7E, 0x00, 0x81, 0x41};
    static const uint8_t frame[] = {0x00, 0x7E, 0x00, 0x81, 0x41, 0xDB, 0xD0, 0x08, 0x02, 0xB3, 0x8B, 0x7E};
    const struct gdl90_feed_control fresh = GDL90_FRESH;
    const uint8_t zeros[GDL90_ROOM] = {0};
    struct gdl90_feed_control control = GDL90_FRESH;
    uint8_t room[GDL90_ROOM] = GDL90_FRESH, message[GDL90_LONGEST_MESSAGE];
    struct gdl90_feed_answer fed;

    CHECK(control.count, 0);
    CHECK(control.stuffed, 0);
    CHECK(control.phase, 0);
    CHECK_BYTES(room, zeros, sizeof room);
    fed = gdl90_feed(control, room, message, broken, sizeof broken);
    control = fed.control;
    CHECK(fed.answered, false);
    CHECK(control.count, 3);
    CHECK(control.stuffed, 3);
    control = fresh;
    fed = gdl90_feed(control, room, message, frame, sizeof frame);
    CHECK(fed.taken, sizeof frame);
    CHECK(fed.answered, true);
    CHECK(fed.number, GDL90_ACCEPTED);
    CHECK(fed.length, sizeof HEARTBEAT);
    CHECK_BYTES(message, HEARTBEAT, sizeof HEARTBEAT);
    CHECK_BYTES(room, zeros, sizeof room);
}

void check_arguments(void)
{
    check_no_frames();
    check_no_recordings();
    check_no_messages();
    check_no_output();
    check_no_payloads_and_texts();
    check_bools();
    check_fresh();
}
