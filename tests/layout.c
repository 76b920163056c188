/* Prints how a C compiler lays out the structs of include/gdl90.h, for other languages' declarations to be held against:
     struct NAME size alignment
     NAME FIELD offset size sort
   The sort is signed, bool, double or other. */
#include "gdl90.h"

#include <stdio.h>

#define SORT(field) _Generic((field), int16_t: "signed", int32_t: "signed", bool: "bool", double: "double", default: "other")

#define STRUCT(s) printf("struct %s %lu %lu\n", #s, (unsigned long)sizeof(struct s), (unsigned long)_Alignof(struct s))

#define FIELD(s, f) \
    printf("%s %s %lu %lu %s\n", #s, #f, (unsigned long)offsetof(struct s, f), (unsigned long)sizeof(((struct s *)0)->f), \
           SORT(((struct s *)0)->f))

static void print_frames(void)
{
    STRUCT(gdl90_frame_answer);
    FIELD(gdl90_frame_answer, number);
    FIELD(gdl90_frame_answer, length);

    STRUCT(gdl90_feed_control);
    FIELD(gdl90_feed_control, count);
    FIELD(gdl90_feed_control, stuffed);
    FIELD(gdl90_feed_control, phase);

    STRUCT(gdl90_feed_answer);
    FIELD(gdl90_feed_answer, control);
    FIELD(gdl90_feed_answer, taken);
    FIELD(gdl90_feed_answer, answered);
    FIELD(gdl90_feed_answer, number);
    FIELD(gdl90_feed_answer, length);
    FIELD(gdl90_feed_answer, position);

    STRUCT(gdl90_tally);
    FIELD(gdl90_tally, counts);

    STRUCT(gdl90_recording_answer);
    FIELD(gdl90_recording_answer, number);
    FIELD(gdl90_recording_answer, entries);
}

static void print_report(void)
{
    STRUCT(gdl90_report);
    FIELD(gdl90_report, alert);
    FIELD(gdl90_report, address_type);
    FIELD(gdl90_report, address);
    FIELD(gdl90_report, position_mark);
    FIELD(gdl90_report, latitude);
    FIELD(gdl90_report, longitude);
    FIELD(gdl90_report, altitude_mark);
    FIELD(gdl90_report, altitude);
    FIELD(gdl90_report, track_kind);
    FIELD(gdl90_report, extrapolated);
    FIELD(gdl90_report, airborne);
    FIELD(gdl90_report, integrity);
    FIELD(gdl90_report, accuracy);
    FIELD(gdl90_report, speed_mark);
    FIELD(gdl90_report, speed);
    FIELD(gdl90_report, climb_mark);
    FIELD(gdl90_report, climb);
    FIELD(gdl90_report, track);
    FIELD(gdl90_report, emitter);
    FIELD(gdl90_report, call_sign);
    FIELD(gdl90_report, priority);
    FIELD(gdl90_report, spare);
}

static void print_messages(void)
{
    STRUCT(gdl90_heartbeat);
    FIELD(gdl90_heartbeat, status1);
    FIELD(gdl90_heartbeat, status2);
    FIELD(gdl90_heartbeat, time);
    FIELD(gdl90_heartbeat, uplinks);
    FIELD(gdl90_heartbeat, reserved);
    FIELD(gdl90_heartbeat, basic_and_long);

    STRUCT(gdl90_initialization);
    FIELD(gdl90_initialization, first);
    FIELD(gdl90_initialization, second);

    STRUCT(gdl90_uplink);
    FIELD(gdl90_uplink, reception_mark);
    FIELD(gdl90_uplink, reception);

    STRUCT(gdl90_height);
    FIELD(gdl90_height, height_mark);
    FIELD(gdl90_height, height);

    print_report();

    STRUCT(gdl90_geometric);
    FIELD(gdl90_geometric, altitude);
    FIELD(gdl90_geometric, warning);
    FIELD(gdl90_geometric, merit_mark);
    FIELD(gdl90_geometric, merit);
}

static void print_answers(void)
{
    STRUCT(gdl90_kind_answer);
    FIELD(gdl90_kind_answer, number);
    FIELD(gdl90_kind_answer, id);

    STRUCT(gdl90_heartbeat_read);
    FIELD(gdl90_heartbeat_read, number);
    FIELD(gdl90_heartbeat_read, heartbeat);

    STRUCT(gdl90_initialization_read);
    FIELD(gdl90_initialization_read, number);
    FIELD(gdl90_initialization_read, initialization);

    STRUCT(gdl90_uplink_read);
    FIELD(gdl90_uplink_read, number);
    FIELD(gdl90_uplink_read, uplink);

    STRUCT(gdl90_height_read);
    FIELD(gdl90_height_read, number);
    FIELD(gdl90_height_read, height);

    STRUCT(gdl90_report_read);
    FIELD(gdl90_report_read, number);
    FIELD(gdl90_report_read, report);

    STRUCT(gdl90_geometric_read);
    FIELD(gdl90_geometric_read, number);
    FIELD(gdl90_geometric_read, geometric);

    STRUCT(gdl90_write_answer);
    FIELD(gdl90_write_answer, number);
    FIELD(gdl90_write_answer, length);
}

static void print_payloads(void)
{
    STRUCT(gdl90_payload_list_answer);
    FIELD(gdl90_payload_list_answer, number);
    FIELD(gdl90_payload_list_answer, count);
    FIELD(gdl90_payload_list_answer, end);

    STRUCT(gdl90_payload_nth_answer);
    FIELD(gdl90_payload_nth_answer, number);
    FIELD(gdl90_payload_nth_answer, kind);
    FIELD(gdl90_payload_nth_answer, reserved);
    FIELD(gdl90_payload_nth_answer, start);
    FIELD(gdl90_payload_nth_answer, length);
}

static void print_texts(void)
{
    STRUCT(gdl90_text_answer);
    FIELD(gdl90_text_answer, number);
    FIELD(gdl90_text_answer, hours);
    FIELD(gdl90_text_answer, minutes);
    FIELD(gdl90_text_answer, padding);
    FIELD(gdl90_text_answer, length);
}

static void print_units(void)
{
    STRUCT(gdl90_pressure_steps);
    FIELD(gdl90_pressure_steps, steps);

    STRUCT(gdl90_geometric_steps);
    FIELD(gdl90_geometric_steps, steps);

    STRUCT(gdl90_feet_above_terrain);
    FIELD(gdl90_feet_above_terrain, feet);

    STRUCT(gdl90_degrees_answer);
    FIELD(gdl90_degrees_answer, number);
    FIELD(gdl90_degrees_answer, latitude);
    FIELD(gdl90_degrees_answer, longitude);
}

int main(void)
{
    print_frames();
    print_messages();
    print_answers();
    print_payloads();
    print_texts();
    print_units();
    return 0;
}
