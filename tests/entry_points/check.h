/* What the tests of the functions for C share: checks that are counted and say what they found, and memory to lend. */
#ifndef CHECK_H
#define CHECK_H

#include "gdl90.h"

#include <stdio.h>
#include <stdlib.h>
#include <string.h>

extern unsigned long checks_passed, checks_failed;
extern int case_line; /* of the case under test, 0 for none */

void check_frames(void);
void check_collecting(void);
void check_tallies(void);
void check_recordings(void);
void check_messages(void);
void check_reports(void);
void check_information_frames(void);
void check_texts(void);
void check_arguments(void);

/* A case handed to a function that several share: a failure names its line too. */
#define CASE(call) (case_line = __LINE__, (call), case_line = 0)

void check(const char *file, int line, const char *what, double got, double want);

#define CHECK(got, want) check(__FILE__, __LINE__, #got, (double)(got), (double)(want))

/* A field is looked at through a pointer to the type that the library gives it: a header with another width or sign does not
   compile, also where no value shows the difference. */
#define CHECK_AS(type, got, want)                                         \
    do {                                                                  \
        const type *field_ = &(got);                                      \
        check(__FILE__, __LINE__, #got, (double)*field_, (double)(want)); \
    } while (0)
#define CHECK_U8(got, want) CHECK_AS(uint8_t, got, want)
#define CHECK_U16(got, want) CHECK_AS(uint16_t, got, want)
#define CHECK_U32(got, want) CHECK_AS(uint32_t, got, want)
#define CHECK_I16(got, want) CHECK_AS(int16_t, got, want)
#define CHECK_I32(got, want) CHECK_AS(int32_t, got, want)
#define CHECK_SIZE(got, want) CHECK_AS(size_t, got, want)
#define CHECK_BOOL(got, want) CHECK_AS(bool, got, want)
#define CHECK_DOUBLE(got, want) CHECK_AS(double, got, want)

void check_bytes(const char *file, int line, const char *what, const uint8_t *got, const uint8_t *want, size_t length);

#define CHECK_BYTES(got, want, length) check_bytes(__FILE__, __LINE__, #got, got, want, length)

/* Memory to lend, on the heap, with guard bytes before it and `behind` of them behind it. With none behind it valgrind sees a byte
   too far, read or written; with some the guards see one written, and where. It is never null, also where the length is 0: that
   null may stand there is for arguments.c to show. */
struct lent {
    uint8_t *bytes;
    size_t length;
    size_t behind;
};

struct lent lend(size_t length, size_t behind);           /* filled with bytes that differ from place to place */
struct lent lend_copy(const uint8_t *from, size_t length); /* for input: none behind it */

/* Holds that the first `written` bytes are those given and that all others, guards too, are as they were lent; frees the memory. */
void take_back(const char *file, int line, struct lent memory, const uint8_t *bytes, size_t written);

#define TAKE_BACK(memory, bytes, written) take_back(__FILE__, __LINE__, memory, bytes, written)

/* Bytes from hexadecimal digits, in capitals; blanks between them do not count. Answers how many bytes. */
size_t from_hex(const char *hex, uint8_t *bytes);

/* Application data of 001 §5.2.4, without the zeros that fill them up to 424 bytes: five frames of 67 bytes of data each. */
extern const char TAF[];

#endif
