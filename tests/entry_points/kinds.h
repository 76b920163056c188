/* A message of whatever kind, with its value, for the tests of reading and writing. */
#ifndef KINDS_H
#define KINDS_H

#include "check.h"

union value {
    struct gdl90_heartbeat heartbeat;
    struct gdl90_initialization initialization;
    struct gdl90_uplink uplink;
    struct gdl90_height height;
    struct gdl90_report report;
    struct gdl90_geometric geometric;
};

/* How a kind is read, with every field held against what is wanted, and written. */
struct kind {
    uint8_t id;
    void (*reads)(const uint8_t *message, size_t length, uint8_t number, const union value *want);
    struct gdl90_write_answer (*write)(const union value *value, uint8_t *out, size_t room);
};

extern const struct kind HEARTBEAT, INITIALIZATION, UPLINK, HEIGHT, OWNSHIP, GEOMETRIC, TRAFFIC;

/* What an uplink is written with: payload_len of these bytes. */
extern uint8_t payload[433];
extern size_t payload_len;

/* A value whose every byte, also between its fields, holds something before the fields are set. */
union value any(void);

/* Message, in hexadecimal, and value are each other's; no other length and no other id is read. */
void both_ways(const struct kind *kind, const char *hex, const union value *value);

/* Reading the message answers the number and the value, every field of it 0 with a refusal. */
void reads(const struct kind *kind, const uint8_t *message, size_t length, uint8_t number, const union value *want);

/* The value gives the message, into an output that is exact, longer, a byte short, or none. */
void written_as(const struct kind *kind, const char *hex, const union value *value);

/* Writing into an output of `room` bytes answers the number, and changes as many bytes as the message has. */
void writes(const struct kind *kind, const union value *value, size_t room, uint8_t number, const uint8_t *message, size_t length);

/* A message of the right length with a field outside its range: 8. */
void refused(const struct kind *kind, const char *hex);

/* A value with a field outside its range: 8. */
void unwritten(const struct kind *kind, const union value *value);

#endif
