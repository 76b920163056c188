/* Every function of gdl90.h, called from C: values that docs/RULES.md and the specification (001) give, each refusal, the
   memory around what is lent, and each field of each struct. Nothing that is expected here comes from the library, except where
   two of its functions are held against each other.
   All .c files of this folder make one program:
     cd tests/entry_points && cc -std=c99 -I../../include *.c ../../target/staticlib/libgdl90.a -o ../../target/entry_points */
#include "check.h"

unsigned long checks_passed, checks_failed;
int case_line;

/* ---- the functions' types, from the library's side: a header that says otherwise does not compile, also where no value shows it,
   as with a length of 32 bits */

#ifdef __cplusplus
extern "C" {
#endif
typedef uint8_t u8;
uint16_t gdl90_check_sequence(const u8 *, size_t);
struct gdl90_frame_answer gdl90_frame(const u8 *, size_t, u8 *, size_t);
struct gdl90_feed_answer gdl90_feed(struct gdl90_feed_control, u8[438], u8[436], const u8 *, size_t);
struct gdl90_feed_answer gdl90_feed_tallied(struct gdl90_feed_control, u8[438], u8[436], const u8 *, size_t, struct gdl90_tally *);
struct gdl90_recording_answer gdl90_read_recording(const u8 *, size_t, size_t *, size_t, u8 *, size_t);
struct gdl90_kind_answer gdl90_kind(const u8 *, size_t);
struct gdl90_heartbeat_read gdl90_read_heartbeat(const u8 *, size_t);
struct gdl90_initialization_read gdl90_read_initialization(const u8 *, size_t);
struct gdl90_uplink_read gdl90_read_uplink(const u8 *, size_t);
struct gdl90_height_read gdl90_read_height(const u8 *, size_t);
struct gdl90_report_read gdl90_read_ownship(const u8 *, size_t);
struct gdl90_geometric_read gdl90_read_geometric(const u8 *, size_t);
struct gdl90_report_read gdl90_read_traffic(const u8 *, size_t);
struct gdl90_write_answer gdl90_write_heartbeat(struct gdl90_heartbeat, u8 *, size_t);
struct gdl90_write_answer gdl90_write_initialization(struct gdl90_initialization, u8 *, size_t);
struct gdl90_write_answer gdl90_write_uplink(struct gdl90_uplink, const u8 *, size_t, u8 *, size_t);
struct gdl90_write_answer gdl90_write_height(struct gdl90_height, u8 *, size_t);
struct gdl90_write_answer gdl90_write_ownship(struct gdl90_report, u8 *, size_t);
struct gdl90_write_answer gdl90_write_geometric(struct gdl90_geometric, u8 *, size_t);
struct gdl90_write_answer gdl90_write_traffic(struct gdl90_report, u8 *, size_t);
struct gdl90_payload_list_answer gdl90_payload_list(const u8 *, size_t);
struct gdl90_payload_nth_answer gdl90_payload_nth(const u8 *, size_t, size_t);
u8 gdl90_payload_add(u8 *, size_t, u8, const u8 *, size_t);
struct gdl90_text_answer gdl90_read_text(const u8 *, size_t, u8 *, size_t);
struct gdl90_write_answer gdl90_write_text(u8, u8, u8, const u8 *, size_t, u8 *, size_t);
int32_t gdl90_pressure_feet(struct gdl90_pressure_steps);
int32_t gdl90_geometric_feet(struct gdl90_geometric_steps);
int32_t gdl90_terrain_feet(struct gdl90_feet_above_terrain);
struct gdl90_degrees_answer gdl90_degrees(int32_t, int32_t);
#ifdef __cplusplus
}
#endif

/* ---- what check.h declares */

enum { GUARD = 16 };

static void failed(const char *file, int line)
{
    checks_failed++;
    printf("%s:%d", file, line);
    if (case_line != 0)
        printf(" (case at line %d)", case_line);
}

void check(const char *file, int line, const char *what, double got, double want)
{
    if (got == want) {
        checks_passed++;
        return;
    }
    failed(file, line);
    printf(": %s is %.17g, not %.17g\n", what, got, want);
}

void check_bytes(const char *file, int line, const char *what, const uint8_t *got, const uint8_t *want, size_t length)
{
    size_t i = 0;

    while (i < length && got[i] == want[i])
        i++;
    if (i == length) {
        checks_passed++;
        return;
    }
    failed(file, line);
    printf(": byte %lu of %lu of %s is %02X, not %02X\n", (unsigned long)i, (unsigned long)length, what, got[i], want[i]);
}

/* What a lent byte holds at first. */
static uint8_t filler(size_t place)
{
    return (uint8_t)(0xA5 + 29 * place);
}

struct lent lend(size_t length, size_t behind)
{
    struct lent memory;
    size_t i, all = GUARD + length + behind;
    uint8_t *block = (uint8_t *)malloc(all);

    if (block == NULL) {
        perror("entry_points");
        exit(1);
    }
    for (i = 0; i < all; i++)
        block[i] = filler(i);
    memory.bytes = block + GUARD;
    memory.length = length;
    memory.behind = behind;
    return memory;
}

struct lent lend_copy(const uint8_t *from, size_t length)
{
    struct lent memory = lend(length, 0);

    if (length > 0)
        memcpy(memory.bytes, from, length);
    return memory;
}

void take_back(const char *file, int line, struct lent memory, const uint8_t *bytes, size_t written)
{
    uint8_t *block = memory.bytes - GUARD;
    size_t i, all = GUARD + memory.length + memory.behind;

    for (i = 0; i < all; i++) {
        int inside = i >= GUARD && i - GUARD < written;
        uint8_t want = inside ? bytes[i - GUARD] : filler(i);

        if (block[i] != want) {
            failed(file, line);
            printf(": byte %ld of %lu lent is %02X, not %02X\n", (long)i - GUARD, (unsigned long)memory.length, block[i], want);
            break;
        }
    }
    if (i == all)
        checks_passed++;
    free(block);
}

size_t from_hex(const char *hex, uint8_t *bytes)
{
    static const char digits[] = "0123456789ABCDEF";
    size_t n = 0;

    for (; *hex != 0; hex++) {
        const char *digit = strchr(digits, *hex);

        if (digit == NULL)
            continue;
        if (n % 2 == 0)
            bytes[n / 2] = 0;
        bytes[n / 2] = (uint8_t)(16 * bytes[n / 2] + (digit - digits));
        n++;
    }
    return n / 2;
}

/* ---- constants, feet, degrees */

static void check_constants(void)
{
    CHECK(GDL90_LONGEST_MESSAGE, 436);
    CHECK(GDL90_LONGEST_FRAME, 878);
    CHECK(GDL90_ROOM, 438);
    CHECK(GDL90_PAYLOAD, 432);
    CHECK(GDL90_LONGEST_TEXT, 17515);
    CHECK(GDL90_HEARTBEAT, 0);
    CHECK(GDL90_INITIALIZATION, 2);
    CHECK(GDL90_UPLINK, 7);
    CHECK(GDL90_HEIGHT, 9);
    CHECK(GDL90_OWNSHIP, 10);
    CHECK(GDL90_GEOMETRIC, 11);
    CHECK(GDL90_TRAFFIC, 20);
    CHECK(GDL90_PLAIN, 0);
    CHECK(GDL90_NONE, 1);
    CHECK(GDL90_OVER, 2);
    CHECK(GDL90_BELOW, 3);
}

/* As many fields as the library has, each at the next place that its type allows. A header with one more does not compile: -Wextra
   misses its initializer. */
static void check_frame_sizes(void)
{
    const size_t word = sizeof(size_t);
    const struct gdl90_frame_answer frame = {0, 0};
    const struct gdl90_feed_answer feed = {{0, 0, 0}, 0, false, 0, 0, 0};
    const struct gdl90_tally tally = {{0, 0, 0, 0, 0, 0}};
    const struct gdl90_recording_answer recording = {0, 0};

    CHECK(sizeof frame, 2 * word);
    CHECK(sizeof feed, 7 * word);
    CHECK(sizeof feed.control, 3 * word);
    CHECK(sizeof tally, 24);
    CHECK(sizeof recording, 2 * word);
}

static void check_message_sizes(void)
{
    const size_t word = sizeof(size_t);
    const struct gdl90_kind_answer kind = {0, 0};
    const struct gdl90_heartbeat_read heartbeat = {0, {0, 0, 0, 0, 0, 0}};
    const struct gdl90_initialization_read initialization = {0, {0, 0}};
    const struct gdl90_uplink_read uplink = {0, {0, 0}};
    const struct gdl90_height_read height = {0, {0, {0}}};
    const struct gdl90_report_read report = {
        0, {0, 0, 0, 0, 0, 0, 0, {0}, 0, false, false, 0, 0, 0, 0, 0, 0, 0, 0, {0}, 0, 0}};
    const struct gdl90_geometric_read geometric = {0, {{0}, false, 0, 0}};
    const struct gdl90_write_answer write = {0, 0};
    const struct gdl90_payload_list_answer list = {0, 0, 0};
    const struct gdl90_payload_nth_answer nth = {0, 0, 0, 0, 0};
    const struct gdl90_text_answer text = {0, 0, 0, 0, 0};
    const struct gdl90_degrees_answer degrees = {0, 0, 0};

    CHECK(sizeof kind, 2);
    CHECK(sizeof heartbeat, 16);
    CHECK(sizeof heartbeat.heartbeat, 12);
    CHECK(sizeof initialization, 3);
    CHECK(sizeof initialization.initialization, 2);
    CHECK(sizeof uplink, 12);
    CHECK(sizeof uplink.uplink, 8);
    CHECK(sizeof height, 6);
    CHECK(sizeof height.height, 4);
    CHECK(sizeof height.height.height, 2);
    CHECK(sizeof report, 56);
    CHECK(sizeof report.report, 52);
    CHECK(sizeof report.report.altitude, 2);
    CHECK(sizeof geometric, 8);
    CHECK(sizeof geometric.geometric, 6);
    CHECK(sizeof geometric.geometric.altitude, 2);
    CHECK(sizeof write, 2 * word);
    CHECK(sizeof list, 3 * word);
    CHECK(sizeof nth, 3 * word);
    CHECK(sizeof text, 2 * word);
    CHECK(sizeof degrees, 24);
}

static int32_t pressure_feet(uint16_t steps)
{
    const struct gdl90_pressure_steps altitude = {steps};

    return gdl90_pressure_feet(altitude);
}

static int32_t geometric_feet(int16_t steps)
{
    const struct gdl90_geometric_steps altitude = {steps};

    return gdl90_geometric_feet(altitude);
}

static int32_t terrain_feet(int16_t feet)
{
    const struct gdl90_feet_above_terrain height = {feet};

    return gdl90_terrain_feet(height);
}

/* Value 9 of RULES 'Values', 001 §3.5.1.4, §3.7 and §3.8, and the ends of each width: feet are for every value, codes of marks too. */
static void check_feet(void)
{
    CHECK(pressure_feet(0), -1000);
    CHECK(pressure_feet(0x028), 0);
    CHECK(pressure_feet(0x050), 1000);
    CHECK(pressure_feet(0xFFE), 101350);
    CHECK(pressure_feet(0xFFF), 101375);
    CHECK(pressure_feet(0x8000), 818200);
    CHECK(pressure_feet(65535), 1637375);
    CHECK(geometric_feet(-200), -1000);
    CHECK(geometric_feet(0), 0);
    CHECK(geometric_feet(200), 1000);
    CHECK(geometric_feet(-32768), -163840);
    CHECK(geometric_feet(32767), 163835);
    CHECK(terrain_feet(256), 256);
    CHECK(terrain_feet(0), 0);
    CHECK(terrain_feet(-1), -1);
    CHECK(terrain_feet(-32768), -32768);
    CHECK(terrain_feet(32767), 32767);
}

static void degrees_are(int32_t latitude, int32_t longitude, uint8_t number, double north, double east)
{
    struct gdl90_degrees_answer at = gdl90_degrees(latitude, longitude);

    CHECK_U8(at.number, number);
    CHECK_DOUBLE(at.latitude, north);
    CHECK_DOUBLE(at.longitude, east);
}

/* Exactly 180n / 2^23, so that == holds (RULES 'Degrees'); the examples of 001 §3.5.1.3 and the position of §3.5.2. */
static void check_degrees(void)
{
    CASE(degrees_are(0, 0, 0, 0.0, 0.0));
    CASE(degrees_are(1, -1, 0, 0.000021457672119140625, -0.000021457672119140625));
    CASE(degrees_are(0x200000, -0x200000, 0, 45.0, -45.0));
    CASE(degrees_are(0x400000, -0x400000, 0, 90.0, -90.0));
    CASE(degrees_are(-0x400000, 0x7FFFFF, 0, -90.0, 179.999978542327880859375));
    CASE(degrees_are(0x1FEF15, -0x577688, 0, 376707780.0 / 8388608.0, -1031755680.0 / 8388608.0));
    /* the range of a latitude is not checked here */
    CASE(degrees_are(-8388608, 8388607, 0, -180.0, 179.999978542327880859375));
    CASE(degrees_are(8388607, -8388608, 0, 179.999978542327880859375, -180.0));
    CASE(degrees_are(8388608, 1, 8, 0.0, 0.0));
    CASE(degrees_are(1, 8388608, 8, 0.0, 0.0));
    CASE(degrees_are(-8388609, 1, 8, 0.0, 0.0));
    CASE(degrees_are(1, -8388609, 8, 0.0, 0.0));
    CASE(degrees_are(INT32_MAX, 1, 8, 0.0, 0.0));
    CASE(degrees_are(1, INT32_MAX, 8, 0.0, 0.0));
    CASE(degrees_are(INT32_MIN, 1, 8, 0.0, 0.0));
    CASE(degrees_are(1, INT32_MIN, 8, 0.0, 0.0));
}

int main(void)
{
    check_constants();
    check_frame_sizes();
    check_message_sizes();
    check_feet();
    check_degrees();
    check_frames();
    check_collecting();
    check_tallies();
    check_recordings();
    check_messages();
    check_reports();
    check_information_frames();
    check_texts();
    check_arguments();
    if (checks_failed > 0) {
        printf("%lu checks failed, %lu passed\n", checks_failed, checks_passed);
        return 1;
    }
    printf("%lu checks passed\n", checks_passed);
    return 0;
}
