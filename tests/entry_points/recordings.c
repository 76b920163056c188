/* Recordings read as a whole (RULES 'Recordings', 'Structs for C'): entries and messages written out by hand, and those of feeding
   the same bytes. */
#include "check.h"

enum { LONGEST = 4096 }; /* of the recordings here */

/* A recording, and what is read of it: three numbers for each entry, and the messages end to end. */
struct recording {
    uint8_t bytes[LONGEST];
    size_t length;
    size_t list[3 * (LONGEST / 2)];
    size_t entries;
    uint8_t messages[LONGEST];
    size_t messages_len;
};

/* ---- lists and messages of many lengths */

/* Reads it where a list of so many numbers and so many bytes for messages are lent: with 0 what is wanted is written, with 9
   nothing. */
static void read_into(const struct recording *r, size_t numbers, size_t bytes, size_t behind, uint8_t number)
{
    struct lent input = lend_copy(r->bytes, r->length);
    struct lent list = lend(numbers * sizeof(size_t), behind), messages = lend(bytes, behind);
    struct gdl90_recording_answer answer =
        gdl90_read_recording(input.bytes, r->length, (size_t *)(void *)list.bytes, numbers, messages.bytes, bytes);

    CHECK_U8(answer.number, number);
    CHECK_SIZE(answer.entries, number == 0 ? r->entries : 0);
    TAKE_BACK(list, (const uint8_t *)r->list, number == 0 ? 3 * sizeof(size_t) * r->entries : 0);
    TAKE_BACK(messages, r->messages, number == 0 ? r->messages_len : 0);
    TAKE_BACK(input, r->bytes, r->length);
}

/* Numbers that are a long enough list for any recording with its flags and its length. */
static size_t enough_numbers(const struct recording *r)
{
    size_t flags = 0, i;

    for (i = 0; i < r->length; i++)
        flags += r->bytes[i] == 0x7E;
    return 3 * (flags < r->length / 2 ? flags : r->length / 2);
}

/* Enough: exactly, up to three numbers more, which are a place for one entry more at most, and what is always enough. */
static void fits(const struct recording *r, size_t behind)
{
    size_t more;

    for (more = 0; more <= 3; more++) {
        read_into(r, 3 * r->entries + more, r->messages_len, behind, 0);
        read_into(r, 3 * r->entries + more, r->messages_len + 1, behind, 0);
    }
    read_into(r, enough_numbers(r), r->length, behind, 0);
}

/* Too short: the list by one number to three, the messages by one byte, both, and each where the other is always enough. */
static void does_not_fit(const struct recording *r, size_t behind)
{
    size_t numbers = 3 * r->entries, bytes = r->messages_len, by;

    for (by = 1; by <= 3 && by <= numbers; by++) {
        read_into(r, numbers - by, bytes, behind, 9);
        read_into(r, numbers - by, r->length, behind, 9);
        if (bytes > 0)
            read_into(r, numbers - by, bytes - 1, behind, 9);
    }
    if (numbers > 0)
        read_into(r, 0, r->length, behind, 9);
    for (by = 0; by < 3 && bytes > 0; by++)
        read_into(r, numbers + by, bytes - 1, behind, 9);
    if (bytes > 0)
        read_into(r, enough_numbers(r), 0, behind, 9);
}

static void recording_is(const struct recording *r)
{
    size_t behind;

    for (behind = 0; behind <= 16; behind += 16) {
        fits(r, behind);
        does_not_fit(r, behind);
    }
}

/* ---- entries and messages written out */

static struct recording none(void)
{
    struct recording r;

    memset(&r, 0, sizeof r);
    return r;
}

static void add_bytes(struct recording *r, const char *hex)
{
    r->length += from_hex(hex, r->bytes + r->length);
}

static void add_entry(struct recording *r, size_t answer, size_t position, size_t length)
{
    size_t *entry = r->list + 3 * r->entries;

    entry[0] = answer, entry[1] = position, entry[2] = length;
    r->entries++;
    r->messages_len += length;
}

/* One frame, its flags not among the bytes: refused so, */
static void refused(const char *hex, size_t answer, size_t position)
{
    struct recording r = none();

    add_bytes(&r, "7E");
    add_bytes(&r, hex);
    add_bytes(&r, "7E");
    add_entry(&r, answer, position, 0);
    recording_is(&r);
}

/* or accepted with this message. */
static void accepted(const char *hex, const char *message)
{
    struct recording r = none();

    add_bytes(&r, "7E");
    add_bytes(&r, hex);
    add_bytes(&r, "7E");
    add_entry(&r, 0, 0, from_hex(message, r.messages));
    recording_is(&r);
}

static void no_entries(const char *hex)
{
    struct recording r = none();

    add_bytes(&r, hex);
    recording_is(&r);
}

/* Of 001 §2.2.4 and values of RULES 'Values'; for 1 up to and with the byte that is wrong, for 2, 4 and 5 all before the closing
   flag. An escape and its byte are two. */
static void check_one_frame(void)
{
    CASE(accepted("008141DBD00802B38B", "008141DBD00802"));
    CASE(accepted("070700", "07"));
    CASE(accepted("7D5E7D5E00", "7E"));
    CASE(accepted("7D5E7D5D7D5D7D5E", "7E7D"));
    CASE(refused("7D00", 1, 2));
    CASE(refused("7D7D", 1, 2));
    CASE(refused("7D5E7D5D7DFF", 1, 6));
    CASE(refused("027D0001027D5E7D", 1, 3)); /* what stands behind the fault moves nothing */
    CASE(refused("7D", 2, 1));
    CASE(refused("7D5D7D", 2, 3));
    CASE(refused("07", 4, 1));
    CASE(refused("0707", 4, 2));
    CASE(refused("7D5E7D5D", 4, 4));
    CASE(refused("010000", 5, 3));
    CASE(refused("7D5E7D5E01", 5, 5));
    CASE(refused("008141DBD00802B38A", 5, 9));
}

/* No bytes, no flag, nothing between flags, a frame that is not opened or not closed. */
static void check_no_entries(void)
{
    CASE(no_entries(""));
    CASE(no_entries("07"));
    CASE(no_entries("7E"));
    CASE(no_entries("557D00"));
    CASE(no_entries("7E7E"));
    CASE(no_entries("7E7E7E7E7E7E7E7E7E"));
    CASE(no_entries("557D007E"));
    CASE(no_entries("008141DBD00802B38B7E"));
    CASE(no_entries("7E008141DBD00802B38B"));
    CASE(no_entries("557E7E7E008141DBD00802B38B"));
}

/* Behind a lead-in, with flags in common and flags in a row, each answer; then the start of a frame. */
static struct recording each_answer(void)
{
    struct recording r = none();

    add_bytes(&r, "55 7D 00 7E 008141DBD00802B38B 7E 7E 7E 008141DBD00802B38A 7E 7D 7E 027D0001 7E 07 7E 7D5E7D5E00 7E");
    add_entry(&r, 0, 0, from_hex("008141DBD00802", r.messages));
    add_entry(&r, 5, 9, 0);
    add_entry(&r, 2, 1, 0);
    add_entry(&r, 1, 3, 0);
    add_entry(&r, 4, 1, 0);
    add_entry(&r, 0, 0, from_hex("7E", r.messages + 7));
    memset(r.bytes + r.length, 0x07, 440);
    r.length += 440;
    add_bytes(&r, "7E 008141DBD00803B28B 7E 0707 7E 0081");
    add_entry(&r, 3, 439, 0);
    add_entry(&r, 0, 0, from_hex("008141DBD00803", r.messages + 8));
    add_entry(&r, 4, 2, 0);
    return r;
}

/* So many times these bytes, between two flags. */
static struct recording repeated(size_t times, const char *hex)
{
    struct recording r = none();

    add_bytes(&r, "7E");
    while (times-- > 0)
        add_bytes(&r, hex);
    add_bytes(&r, "7E");
    return r;
}

/* The longest message, of zeros, whose sequence is 0; a byte more; and the largest position, at the second byte of an escape. */
static void check_longest(void)
{
    struct recording longest = repeated(438, "00"), too_long = repeated(439, "00");
    struct recording escaped = repeated(438, "7D5E"), largest = repeated(439, "7D5E"), behind = repeated(1000, "7D5E");

    add_entry(&longest, 0, 0, 436);
    CASE(recording_is(&longest));
    add_entry(&too_long, 3, 439, 0);
    CASE(recording_is(&too_long));
    add_entry(&escaped, 5, 876, 0);
    CASE(recording_is(&escaped));
    add_entry(&largest, 3, 878, 0);
    CASE(recording_is(&largest));
    add_entry(&behind, 3, 878, 0);
    CASE(recording_is(&behind));
}

/* As many entries as so many bytes can have: what is always enough is then just enough. */
static void check_most_entries(void)
{
    struct recording r = none();
    size_t count;

    add_bytes(&r, "7E");
    for (count = 1; count <= 20; count++) {
        add_bytes(&r, "077E");
        add_entry(&r, 4, 1, 0);
        CASE(recording_is(&r));
    }
}

/* ---- beside feeding */

/* Entries and messages by gdl90_feed, which is given up to `step` bytes in each call, from the fresh state on. */
static void by_feeding(struct recording *r, size_t step)
{
    struct gdl90_feed_control control = GDL90_FRESH;
    uint8_t room[GDL90_ROOM] = GDL90_FRESH, message[GDL90_LONGEST_MESSAGE];
    size_t at = 0;

    r->entries = r->messages_len = 0;
    while (at < r->length) {
        size_t left = r->length - at < step ? r->length - at : step;
        struct gdl90_feed_answer fed = gdl90_feed(control, room, message, r->bytes + at, left);

        if (fed.answered) {
            memcpy(r->messages + r->messages_len, message, fed.length);
            add_entry(r, fed.number, fed.position, fed.length);
        }
        control = fed.control;
        at += fed.taken;
    }
}

static void same_as_feeding(const uint8_t *bytes, size_t length)
{
    static struct recording r;

    memcpy(r.bytes, bytes, length);
    r.length = length;
    by_feeding(&r, 1);
    read_into(&r, 3 * r.entries, r.messages_len, 0, 0);
    by_feeding(&r, length);
    read_into(&r, enough_numbers(&r), length, 16, 0);
}

/* A recording with each answer, up to every byte and from every byte on. */
static void check_beside_feeding(void)
{
    struct recording r = each_answer();
    size_t cut;

    for (cut = 0; cut <= r.length; cut++) {
        same_as_feeding(r.bytes, cut);
        same_as_feeding(r.bytes + cut, r.length - cut);
    }
}

/* Every recording of six bytes of these: flag, escape, one that may stand behind it, and those of the frame 07 07 00. */
static void check_short_recordings(void)
{
    static const uint8_t some[5] = {0x7E, 0x7D, 0x5E, 0x07, 0x00};
    uint8_t bytes[6];
    unsigned n, i, left;

    for (n = 0; n < 5 * 5 * 5 * 5 * 5 * 5; n++) {
        for (i = 0, left = n; i < 6; i++, left /= 5)
            bytes[i] = some[left % 5];
        same_as_feeding(bytes, sizeof bytes);
    }
}

void check_recordings(void)
{
    struct recording all = each_answer();

    check_one_frame();
    check_no_entries();
    CASE(recording_is(&all));
    check_longest();
    check_most_entries();
    check_beside_feeding();
    check_short_recordings();
}
