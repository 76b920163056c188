/* Reads a recording, from a file or from standard input, and says in words what its frames hold:
     cc -std=c99 -Iinclude examples/recording.c target/staticlib/libgdl90.a -o target/recording && target/recording FILE */
#include "gdl90.h"

#include <stdio.h>

/* A field with a mark is no number: say the mark, and not the 0 that stands there. */
static void print_number(const char *name, uint8_t mark, long number, const char *unit)
{
    static const char *const words[] = {"", "none", "over", "below"};

    if (mark == GDL90_PLAIN)
        printf("%s %ld %s", name, number, unit);
    else
        printf("%s %s", name, words[mark]);
}

/* Each kind is read by its own function. These print a message that is read, and answer the number of one that is refused. */
static uint8_t print_heartbeat(const uint8_t *message, size_t length)
{
    struct gdl90_heartbeat_read read = gdl90_read_heartbeat(message, length);
    struct gdl90_heartbeat h = read.heartbeat;

    if (read.number == GDL90_ACCEPTED)
        printf("heartbeat: second %lu of the day, status %02X %02X, uplinks %u, basic and long messages %u\n",
               (unsigned long)h.time, h.status1, h.status2, h.uplinks, h.basic_and_long);
    return read.number;
}

static uint8_t print_initialization(const uint8_t *message, size_t length)
{
    struct gdl90_initialization_read read = gdl90_read_initialization(message, length);

    if (read.number == GDL90_ACCEPTED)
        printf("initialization: configuration %02X %02X\n", read.initialization.first, read.initialization.second);
    return read.number;
}

/* An information frame of type 0 holds a weather text, whose lines are printed, or another product, which is refused with 15. */
static void print_text(const uint8_t *data, size_t length)
{
    static uint8_t text[GDL90_LONGEST_TEXT];
    struct gdl90_text_answer read = gdl90_read_text(data, length, text, sizeof text);

    if (read.number != GDL90_ACCEPTED) {
        printf("    text refused with %u: %s\n", read.number, gdl90_number_words(read.number));
        return;
    }
    printf("    text of %02u:%02u\n", read.hours, read.minutes);
    for (size_t start = 0, end = 0; end <= read.length; end++) {
        if (end < read.length && text[end] != '\n' && text[end] != 0x1E)
            continue;
        if (start < end || (end < read.length && text[end] == '\n')) /* behind a record's last new line there is no line */
            printf("      %.*s\n", (int)(end - start), (const char *)text + start);
        start = end + 1;
    }
}

static uint8_t print_uplink(const uint8_t *message, size_t length)
{
    struct gdl90_uplink_read read = gdl90_read_uplink(message, length);

    if (read.number != GDL90_ACCEPTED)
        return read.number;
    print_number("uplink: time of reception", read.uplink.reception_mark, read.uplink.reception * 80L, "ns");

    const uint8_t *payload = message + 4;
    struct gdl90_payload_list_answer list = gdl90_payload_list(payload, GDL90_PAYLOAD);

    if (list.number != GDL90_ACCEPTED)
        printf(", information frames refused with %u: %s\n", list.number, gdl90_number_words(list.number));
    else
        printf(", information frames %zu\n", list.count);
    for (size_t n = 0; n < list.count; n++) {
        struct gdl90_payload_nth_answer frame = gdl90_payload_nth(payload, GDL90_PAYLOAD, n);

        printf("  type %u, %zu bytes, from %02X on\n", frame.kind, frame.length, payload[frame.start]);
        if (frame.kind == 0)
            print_text(payload + frame.start, frame.length);
    }
    return 0;
}

static uint8_t print_height(const uint8_t *message, size_t length)
{
    struct gdl90_height_read read = gdl90_read_height(message, length);

    if (read.number == GDL90_ACCEPTED) {
        print_number("height above terrain:", read.height.height_mark, gdl90_terrain_feet(read.height.height), "ft");
        printf("\n");
    }
    return read.number;
}

static uint8_t print_geometric(const uint8_t *message, size_t length)
{
    struct gdl90_geometric_read read = gdl90_read_geometric(message, length);

    if (read.number == GDL90_ACCEPTED) {
        printf("geometric altitude: %ld ft", (long)gdl90_geometric_feet(read.geometric.altitude));
        print_number(", merit", read.geometric.merit_mark, read.geometric.merit, "m");
        printf("%s\n", read.geometric.warning ? ", vertical warning" : "");
    }
    return read.number;
}

static uint8_t print_report(const char *word, struct gdl90_report_read read)
{
    static const char *const tracks[] = {"track not valid", "true track", "magnetic heading", "true heading"};
    struct gdl90_report r = read.report;
    struct gdl90_degrees_answer at = gdl90_degrees(r.latitude, r.longitude);

    if (read.number != GDL90_ACCEPTED)
        return read.number;
    printf("%s: %06lX ", word, (unsigned long)r.address);
    for (int i = 0; i < 8; i++) /* a call sign may hold any bytes, and no zero ends it */
        putchar(r.call_sign[i] >= ' ' && r.call_sign[i] <= '~' ? r.call_sign[i] : '?');
    if (r.position_mark == GDL90_PLAIN)
        printf(", at %.5f %.5f", at.latitude, at.longitude);
    else
        printf(", position none");
    print_number(", altitude", r.altitude_mark, gdl90_pressure_feet(r.altitude), "ft");
    print_number(", speed", r.speed_mark, r.speed, "kt");
    print_number(", climb", r.climb_mark, r.climb * 64L, "ft/min");
    printf(", %s", tracks[r.track_kind]);
    if (r.track_kind != 0)
        printf(" %.1f", r.track * 360.0 / 256.0);
    printf(", %s%s%s\n", r.airborne ? "airborne" : "on the ground", r.extrapolated ? ", extrapolated" : "",
           r.alert == 1 ? ", alert" : "");
    return 0;
}

/* gdl90_kind says which function reads the message, or 6, or 17 for a retired id. */
static uint8_t print_kind(const uint8_t *message, size_t length)
{
    struct gdl90_kind_answer kind = gdl90_kind(message, length);

    if (kind.number != GDL90_ACCEPTED)
        return kind.number;
    switch (kind.id) {
    case GDL90_HEARTBEAT: return print_heartbeat(message, length);
    case GDL90_INITIALIZATION: return print_initialization(message, length);
    case GDL90_UPLINK: return print_uplink(message, length);
    case GDL90_HEIGHT: return print_height(message, length);
    case GDL90_OWNSHIP: return print_report("ownship", gdl90_read_ownship(message, length));
    case GDL90_GEOMETRIC: return print_geometric(message, length);
    case GDL90_TRAFFIC: return print_report("traffic", gdl90_read_traffic(message, length));
    default: return GDL90_UNKNOWN_ID; /* a kind that this program does not know */
    }
}

/* A frame that is refused broke at a byte, counted from 1 behind its opening flag; a message that is refused has no such byte. */
static void print_answer(struct gdl90_feed_answer fed, const uint8_t *message)
{
    uint8_t number = fed.number;

    if (number == GDL90_ACCEPTED)
        number = print_kind(message, fed.length);
    if (number == GDL90_ACCEPTED)
        return;
    printf("refused with %u", number);
    if (fed.position > 0)
        printf(" at byte %zu", fed.position);
    printf(": %s\n", gdl90_number_words(number));
}

/* One line for all frames: how many were accepted, and with which numbers how many were refused. */
static void print_tally(struct gdl90_tally tally)
{
    const char *refused = "refused with";

    printf("frames: %lu accepted", (unsigned long)tally.counts[GDL90_ACCEPTED]);
    for (unsigned number = GDL90_BAD_ESCAPE; number <= GDL90_CHECK_SEQUENCE; number++) {
        if (tally.counts[number] == 0)
            continue;
        printf(", %s %u: %lu", refused, number, (unsigned long)tally.counts[number]);
        refused = "with";
    }
    printf("\n");
}

static void print_frames(FILE *recording)
{
    static uint8_t room[GDL90_ROOM] = GDL90_FRESH, message[GDL90_LONGEST_MESSAGE], bytes[4096];
    struct gdl90_feed_control control = GDL90_FRESH;
    struct gdl90_tally tally = {{0}};
    size_t got;

    while ((got = fread(bytes, 1, sizeof bytes, recording)) > 0) {
        for (size_t at = 0; at < got;) {
            struct gdl90_feed_answer fed = gdl90_feed_tallied(control, room, message, bytes + at, got - at, &tally);

            control = fed.control;
            at += fed.taken;
            if (fed.answered)
                print_answer(fed, message);
        }
    }
    print_tally(tally);
}

int main(int argc, char **argv)
{
    const char *name = argc > 1 ? argv[1] : "standard input";
    FILE *recording = argc > 1 ? fopen(name, "rb") : stdin;

    if (recording != NULL)
        print_frames(recording);
    if (recording == NULL || ferror(recording)) {
        perror(name);
        return 1;
    }
    if (fflush(stdout) != 0 || ferror(stdout)) {
        perror("standard output");
        return 1;
    }
    return 0;
}
