/* Ownship and traffic reports, read and written (RULES 'Reports'; 001 §3.4 and §3.5). */
#include "kinds.h"

/* N825V, the example of 001 §3.5.2 and value 11 of RULES 'Values', as half bytes, and where each field stands in them. */
static const char N825V[] = "1400AB45491FEF15A889780F09A907B00120014E3832355620202000";
enum {
    ALERT = 2, ADDRESS_TYPE = 3, ADDRESS = 4, LATITUDE = 10, LONGITUDE = 16, ALTITUDE = 22, MISCELLANEOUS = 25, INTEGRITY = 26,
    ACCURACY = 27, SPEED = 28, CLIMB = 31, TRACK = 34, EMITTER = 36, CALL_SIGN = 38, PRIORITY = 54, SPARE = 55
};

static union value n825v(void)
{
    union value v = any();

    v.report.alert = 0;
    v.report.address_type = 0;
    v.report.address = 052642511;
    v.report.position_mark = 0;
    v.report.latitude = 0x1FEF15;
    v.report.longitude = 0xA88978 - 0x1000000;
    v.report.altitude_mark = 0;
    v.report.altitude.steps = 240; /* 5,000 feet */
    v.report.track_kind = 1;
    v.report.extrapolated = false;
    v.report.airborne = true;
    v.report.integrity = 10;
    v.report.accuracy = 9;
    v.report.speed_mark = 0;
    v.report.speed = 123;
    v.report.climb_mark = 0;
    v.report.climb = 1;
    v.report.track = 32; /* 45 degrees */
    v.report.emitter = 1;
    memcpy(v.report.call_sign, "N825V   ", 8);
    v.report.priority = 0;
    v.report.spare = 0;
    return v;
}

/* N825V's message with other half bytes at a place. */
static const char *with(const struct kind *kind, size_t at, const char *digits)
{
    static char hex[sizeof N825V];

    memcpy(hex, N825V, sizeof hex);
    memcpy(hex, kind->id == 10 ? "0A" : "14", 2);
    memcpy(hex + at, digits, strlen(digits));
    return hex;
}

static void report_is(size_t at, const char *digits, const union value *v)
{
    both_ways(&TRAFFIC, with(&TRAFFIC, at, digits), v);
    both_ways(&OWNSHIP, with(&OWNSHIP, at, digits), v);
}

static void report_refused(size_t at, const char *digits)
{
    refused(&TRAFFIC, with(&TRAFFIC, at, digits));
    refused(&OWNSHIP, with(&OWNSHIP, at, digits));
}

static void report_written_as(size_t at, const char *digits, const union value *v)
{
    written_as(&TRAFFIC, with(&TRAFFIC, at, digits), v);
    written_as(&OWNSHIP, with(&OWNSHIP, at, digits), v);
}

static void report_unwritten(const union value *v)
{
    unwritten(&TRAFFIC, v);
    unwritten(&OWNSHIP, v);
}

/* N825V with one field, or two, set to another value. */
#define REPORT(field, value) (v = n825v(), v.report.field = (value))
#define REPORT_2(field, value, other, its) (v = n825v(), v.report.field = (value), v.report.other = (its))
#define IS(at, digits) CASE(report_is(at, digits, &v))
#define WRITTEN_AS(at, digits) CASE(report_written_as(at, digits, &v))
#define UNWRITTEN() CASE(report_unwritten(&v))

/* Every field at once, no two bytes alike. */
static void check_whole_reports(void)
{
    union value v = n825v();

    IS(0, "");
    v.report.alert = 13;
    v.report.address_type = 14;
    v.report.address = 0xA1B2C3;
    v.report.latitude = 0x2B3C4D;
    v.report.longitude = 0x987654 - 0x1000000;
    v.report.altitude.steps = 0x789;
    v.report.track_kind = 3;
    v.report.extrapolated = true;
    v.report.airborne = false;
    v.report.integrity = 8;
    v.report.accuracy = 6;
    v.report.speed = 0x567;
    v.report.climb = -0x1B7;
    v.report.track = 0x5E;
    v.report.emitter = 0x27;
    memcpy(v.report.call_sign, "\x81\x92\xA3\x00\xC5\xD6\xE7\xF8", 8); /* any bytes */
    v.report.priority = 11;
    v.report.spare = 12;
    IS(ALERT, "DEA1B2C32B3C4D9876547897" "86567E495E278192A300C5D6E7F8BC");
}

static void check_position(void)
{
    union value v;

    REPORT(address, 0xFFFFFF), IS(ADDRESS, "FFFFFF");
    REPORT(address, 0), IS(ADDRESS, "000000");
    REPORT_2(latitude, 0x400000, longitude, 0x7FFFFF), IS(LATITUDE, "4000007FFFFF");
    REPORT_2(latitude, -0x400000, longitude, -0x800000), IS(LATITUDE, "C00000800000");
    REPORT_2(latitude, -1, longitude, 0), IS(LATITUDE, "FFFFFF000000");
    REPORT_2(latitude, 0, longitude, -0x200000), IS(LATITUDE, "000000E00000");
    REPORT_2(latitude, 0, longitude, 0), IS(LATITUDE, "000000000000"); /* with integrity 10 it is a position */
    REPORT(integrity, 0), IS(INTEGRITY, "0");
    CASE(report_refused(LATITUDE, "400001"));
    CASE(report_refused(LATITUDE, "7FFFFF"));
    CASE(report_refused(LATITUDE, "800000"));
    CASE(report_refused(LATITUDE, "BFFFFF"));
    REPORT(address, 0x1000000), UNWRITTEN();
    REPORT(address, UINT32_MAX), UNWRITTEN();
    REPORT(latitude, 0x400001), UNWRITTEN();
    REPORT(latitude, -0x400001), UNWRITTEN();
    REPORT(latitude, INT32_MIN), UNWRITTEN();
    REPORT(longitude, 0x800000), UNWRITTEN();
    REPORT(longitude, -0x800001), UNWRITTEN();
    REPORT(longitude, INT32_MAX), UNWRITTEN();

    /* none exactly if latitude, longitude and integrity are all 0 (001 §3.5.1.3) */
    REPORT_2(latitude, 0, longitude, 0), v.report.integrity = 0, UNWRITTEN();
    v.report.position_mark = 1;
    IS(LATITUDE, "0000000000000F090");
    v.report.latitude = INT32_MAX;
    v.report.longitude = INT32_MIN;
    WRITTEN_AS(LATITUDE, "0000000000000F090");
    REPORT(position_mark, 1), UNWRITTEN(); /* its integrity is 10 */
    REPORT(position_mark, 2), UNWRITTEN();
    REPORT_2(position_mark, 255, integrity, 0), UNWRITTEN();
}

static void check_altitude_and_speed(void)
{
    union value v;

    REPORT(altitude.steps, 0), IS(ALTITUDE, "000");
    REPORT(altitude.steps, 0xFFE), IS(ALTITUDE, "FFE");
    REPORT_2(altitude_mark, 1, altitude.steps, 0), IS(ALTITUDE, "FFF");
    REPORT_2(altitude_mark, 1, altitude.steps, 65535), WRITTEN_AS(ALTITUDE, "FFF");
    REPORT(altitude.steps, 0xFFF), UNWRITTEN();
    REPORT(altitude.steps, 0x1000), UNWRITTEN();
    REPORT(altitude.steps, 65535), UNWRITTEN();
    REPORT(altitude_mark, 2), UNWRITTEN();
    REPORT(altitude_mark, 255), UNWRITTEN();
    REPORT(speed, 0), IS(SPEED, "000");
    REPORT(speed, 0xFFD), IS(SPEED, "FFD");
    REPORT_2(speed_mark, 2, speed, 0), IS(SPEED, "FFE");
    REPORT_2(speed_mark, 1, speed, 0), IS(SPEED, "FFF");
    REPORT_2(speed_mark, 2, speed, 65535), WRITTEN_AS(SPEED, "FFE");
    REPORT_2(speed_mark, 1, speed, 65535), WRITTEN_AS(SPEED, "FFF");
    REPORT(speed, 0xFFE), UNWRITTEN();
    REPORT(speed, 0xFFF), UNWRITTEN();
    REPORT(speed, 65535), UNWRITTEN();
    REPORT(speed_mark, 3), UNWRITTEN();
    REPORT(speed_mark, 255), UNWRITTEN();
}

/* All 4,096 codes: -509 to 509, three marks, every other refused (001 §3.5.1.8). */
static void check_climb(void)
{
    union value v;
    uint8_t message[28];
    char digits[4];
    int32_t code;

    for (code = 0; code < 4096; code++) {
        int32_t climb = code < 2048 ? code : code - 4096;
        uint8_t mark = code == 0x800 ? 1 : code == 0x1FE ? 2 : code == 0xE02 ? 3 : 0;
        bool number = climb >= -509 && climb <= 509;

        snprintf(digits, sizeof digits, "%03X", (unsigned)code & 0xFFF);
        REPORT_2(climb_mark, mark, climb, number ? climb : 0);
        from_hex(with(&TRAFFIC, CLIMB, digits), message);
        reads(&TRAFFIC, message, 28, number || mark != 0 ? 0 : 8, &v);
        if (number || mark != 0)
            report_written_as(CLIMB, digits, &v);
    }
    REPORT(climb, 509), IS(CLIMB, "1FD"); /* value 8 of RULES 'Values' */
    REPORT(climb, -509), IS(CLIMB, "E03");
    REPORT(climb, -1), IS(CLIMB, "FFF");
    REPORT(climb, 0), IS(CLIMB, "000");
    CASE(report_refused(CLIMB, "1FF"));
    REPORT_2(climb_mark, 1, climb, 0), IS(CLIMB, "800");
    REPORT_2(climb_mark, 2, climb, 0), IS(CLIMB, "1FE");
    REPORT_2(climb_mark, 3, climb, 0), IS(CLIMB, "E02");
    REPORT_2(climb_mark, 1, climb, INT32_MIN), WRITTEN_AS(CLIMB, "800");
    REPORT_2(climb_mark, 2, climb, INT32_MAX), WRITTEN_AS(CLIMB, "1FE");
    REPORT_2(climb_mark, 3, climb, INT32_MAX), WRITTEN_AS(CLIMB, "E02");
    REPORT(climb, 510), UNWRITTEN();
    REPORT(climb, -510), UNWRITTEN();
    REPORT(climb, -2048), UNWRITTEN();
    REPORT(climb, 4096), UNWRITTEN();
    REPORT(climb, INT32_MAX), UNWRITTEN();
    REPORT(climb, INT32_MIN), UNWRITTEN();
    REPORT(climb_mark, 4), UNWRITTEN();
    REPORT(climb_mark, 255), UNWRITTEN();
}

/* The fields of four bits, of bits (001 Table 9), and of any value. */
static void check_small_fields(void)
{
    static const char *const beyond[] = {"C", "D", "E", "F"};
    union value v;
    size_t i;

    REPORT(alert, 15), IS(ALERT, "F");
    REPORT(alert, 16), UNWRITTEN();
    REPORT(alert, 255), UNWRITTEN();
    REPORT(address_type, 15), IS(ADDRESS_TYPE, "F");
    REPORT(address_type, 16), UNWRITTEN();
    REPORT(address_type, 255), UNWRITTEN();
    REPORT(track_kind, 0), IS(MISCELLANEOUS, "8");
    REPORT(track_kind, 2), IS(MISCELLANEOUS, "A");
    REPORT(track_kind, 3), IS(MISCELLANEOUS, "B");
    REPORT(extrapolated, true), IS(MISCELLANEOUS, "D");
    REPORT(airborne, false), IS(MISCELLANEOUS, "1");
    REPORT(track_kind, 4), UNWRITTEN();
    REPORT(track_kind, 255), UNWRITTEN();
    REPORT(integrity, 11), IS(INTEGRITY, "B");
    REPORT(accuracy, 11), IS(ACCURACY, "B");
    REPORT(accuracy, 0), IS(ACCURACY, "0");
    for (i = 0; i < 4; i++) {
        CASE(report_refused(INTEGRITY, beyond[i]));
        CASE(report_refused(ACCURACY, beyond[i]));
        REPORT(integrity, (uint8_t)(12 + i)), UNWRITTEN();
        REPORT(accuracy, (uint8_t)(12 + i)), UNWRITTEN();
    }
    REPORT(integrity, 255), UNWRITTEN();
    REPORT(accuracy, 255), UNWRITTEN();
    REPORT(track, 255), IS(TRACK, "FF");
    REPORT(emitter, 255), IS(EMITTER, "FF");
    REPORT(priority, 15), IS(PRIORITY, "F");
    REPORT(priority, 16), UNWRITTEN();
    REPORT(priority, 255), UNWRITTEN();
    REPORT(spare, 15), IS(SPARE, "F");
    REPORT(spare, 16), UNWRITTEN();
    REPORT(spare, 255), UNWRITTEN();
    for (i = 0; i < 8; i++) {
        v = n825v();
        v.report.call_sign[i] = 0xFF;
        IS(CALL_SIGN + 2 * i, "FF");
    }
}

void check_reports(void)
{
    check_whole_reports();
    check_position();
    check_altitude_and_speed();
    check_climb();
    check_small_fields();
}
