/* The header's bytes, and the calls from C and C++ where the promises end: lengths of 0 with NULL, list lengths that are no whole
 * places, result parts of every length near 24, refused calls, which leave every byte, and previews, which leave the archive.
 * Exits with 0 if every check holds.
 *
 *     cc -std=c99 -Itarget/lib tests/host.c target/lib/libsandegmur.a -o test
 */
#include "sandegmur.h"

#include <stdio.h>
#include <stdlib.h>
#include <string.h>

enum { RECORDS = 8, ARCHIVE = RECORDS * SANDEGMUR_RECORD_BYTES, LIST = 64, RESULT = 32, FILL = 9 };

/* A dated measure of 58 quarters. */
enum { DATED = 58, DATED_ARCHIVE = (3 + DATED) * SANDEGMUR_RECORD_BYTES, DATED_LIST = (DATED + 1) * SANDEGMUR_PLACE_BYTES };

/* For taking back: the archive's records, one or more of them unused. */
enum { BACK = 12, BACK_ARCHIVE = BACK * SANDEGMUR_RECORD_BYTES };

/* For previews: the archive's records, the first unused one, and how many ways there are to make such an archive. */
enum { SEEN = 14, UNUSED = 11, SEEN_ARCHIVE = SEEN * SANDEGMUR_RECORD_BYTES, WAYS = 8 };

/* For the financial correction: its ends and its remainder's unit, not by the header's names; and which list is which. */
enum { ENERGY = 1000000000, PRICE = 1000000, CENT = 1000000, MONTH = 2976 };
enum { AMOUNTS, BALANCED, PRICES, LISTS };

/* How many checks have failed, and of how many a line is printed: some are called thousands of times. */
static unsigned long failed;
enum { PRINTED = 100 };

#define CHECK(test) \
    do { \
        if (!(test) && failed++ < PRINTED) \
            fprintf(stderr, "%s:%d: %s\n", __FILE__, __LINE__, #test); \
    } while (0)

static int all_are(const uint8_t *bytes, size_t from, size_t until, uint8_t value)
{
    for (size_t i = from; i < until; i++)
        if (bytes[i] != value)
            return 0;
    return 1;
}

static uint32_t file(uint8_t *archive, size_t length, uint64_t owner, const uint8_t *record)
{
    return sandegmur_append(archive, length, owner, record, SANDEGMUR_RECORD_BYTES);
}

/* An archive with one plant, one measure, one before-quarter and as many quarters as are measured; one record stays unused. */
static void file_measure(uint8_t *archive, uint8_t direction, int32_t reference, const int32_t *measured, int quarters)
{
    uint8_t record[SANDEGMUR_RECORD_BYTES];
    memset(archive, FILL, ARCHIVE);
    CHECK(sandegmur_fresh(archive, ARCHIVE) == SANDEGMUR_NOT_REFUSED);
    sandegmur_plant(record, SANDEGMUR_OTHER, SANDEGMUR_PAUSCHAL, 1000000);
    CHECK(file(archive, ARCHIVE, 0, record) == SANDEGMUR_NOT_REFUSED);
    sandegmur_measure(record, direction, SANDEGMUR_TOLERATED);
    CHECK(file(archive, ARCHIVE, 1, record) == SANDEGMUR_NOT_REFUSED);
    sandegmur_before_quarter(record, SANDEGMUR_MARKED, reference, 0);
    CHECK(file(archive, ARCHIVE, 2, record) == SANDEGMUR_NOT_REFUSED);
    for (int i = 0; i < quarters; i++) {
        sandegmur_quarter(record, 7, 40, measured[i], 0, 0, 0);
        CHECK(file(archive, ARCHIVE, 2, record) == SANDEGMUR_NOT_REFUSED);
    }
    CHECK(sandegmur_audit(archive, ARCHIVE) == SANDEGMUR_NOT_REFUSED);
}

/* Case a of document 01. */
static void file_case_a(uint8_t *archive)
{
    static const int32_t measured[] = { 500001, 500001, 500002 };
    file_measure(archive, SANDEGMUR_NEGATIVE, 800000, measured, 3);
}

static void check_result(const uint8_t *result, int64_t count, int64_t total, int64_t links)
{
    CHECK(sandegmur_amount(result + SANDEGMUR_RESULT_COUNT_AT) == count);
    CHECK(sandegmur_amount(result + SANDEGMUR_RESULT_TOTAL_AT) == total);
    CHECK(sandegmur_amount(result + SANDEGMUR_RESULT_LINKS_AT) == links);
}

static void check_numbered(const int *names, size_t count, int first)
{
    for (size_t i = 0; i < count; i++)
        CHECK(names[i] == first + (int)i);
}

/* The names that stand for FORMAT.md's numbers, in its order. */
static void test_constants(void)
{
    static const int refusals[] = {
        SANDEGMUR_NOT_REFUSED, SANDEGMUR_NOT_ARCHIVE,    SANDEGMUR_BAD_LINK,     SANDEGMUR_WRONG_KIND,
        SANDEGMUR_NO_PLANT,    SANDEGMUR_NO_MEASURE,     SANDEGMUR_BAD_PLANT,    SANDEGMUR_BAD_MEASURE,
        SANDEGMUR_BAD_COUNT,   SANDEGMUR_OUT_OF_RANGE,   SANDEGMUR_BAD_CURVE,    SANDEGMUR_TOO_FEW_USABLE,
        SANDEGMUR_DIVISOR_ZERO, SANDEGMUR_NO_ROOM,       SANDEGMUR_BAD_RECORD,   SANDEGMUR_BAD_OWNER,
        SANDEGMUR_ARCHIVE_FULL, SANDEGMUR_NOT_NAMED_ONCE, SANDEGMUR_NOT_IN_CALENDAR, SANDEGMUR_LAST_NOT_NAMED_ONCE,
        SANDEGMUR_BAD_ENERGIES, SANDEGMUR_BAD_PRICE,     SANDEGMUR_UNEQUAL_LISTS,
    };
    static const int kinds[] = { SANDEGMUR_PLANT, SANDEGMUR_CURVE_POINT, SANDEGMUR_MEASURE, SANDEGMUR_BEFORE_QUARTER,
                                 SANDEGMUR_QUARTER };
    static const int technologies[] = { SANDEGMUR_WIND, SANDEGMUR_SOLAR, SANDEGMUR_OTHER };
    static const int variants[] = { SANDEGMUR_SPITZ, SANDEGMUR_PAUSCHAL };
    static const int directions[] = { SANDEGMUR_POSITIVE, SANDEGMUR_NEGATIVE };
    static const int executions[] = { SANDEGMUR_REQUESTED, SANDEGMUR_TOLERATED, SANDEGMUR_BOTH_SIDES_FIXED };
    static const int marks[] = { SANDEGMUR_NOT_MARKED, SANDEGMUR_MARKED };
    check_numbered(refusals, 23, 0);
    check_numbered(kinds, 5, 1);
    check_numbered(technologies, 3, 1);
    check_numbered(variants, 2, 1);
    check_numbered(directions, 2, 1);
    check_numbered(executions, 3, 1);
    check_numbered(marks, 2, 0);
    /* 100 years, 25 of them leap years. */
    CHECK(SANDEGMUR_LAST_QUARTER == (100 * 365 + 25) * SANDEGMUR_QUARTERS_OF_DAY);
    CHECK(SANDEGMUR_QUARTERS_OF_DAY == 96);
    CHECK(SANDEGMUR_MOST_QUARTERS == 31 * SANDEGMUR_QUARTERS_OF_DAY);
    CHECK(SANDEGMUR_MOST_CORRECTED_ENERGY == 1000000000);
    CHECK(SANDEGMUR_MOST_PRICE == 1000000);
    CHECK(SANDEGMUR_MILLIONTHS_OF_CENT == 1000000);
    CHECK(SANDEGMUR_VERSION_MAJOR == 1 && SANDEGMUR_VERSION_MINOR == 6);
}

/* Each kind of record as FORMAT.md lays it out, whatever stood in the 32 bytes. */
static void test_records(void)
{
    static const uint8_t plant[] = { 1, 2, 1, 0, 0, 0, 0, 0, 0, 0, 0, 0, 0, 0, 0, 0, 0x40, 0x42, 0x0f, 0, 0, 0, 0, 0, 0, 0, 0, 0,
                                     0, 0, 0, 0 };
    static const uint8_t point[] = { 2, 0, 0, 0, 0, 0, 0, 0, 0x2c, 1, 0, 0, 0x78, 0x56, 0x34, 0x12, 0, 0, 0, 0, 0, 0, 0, 0, 0, 0,
                                     0, 0, 0, 0, 0, 0 };
    static const uint8_t measure[] = { 3, 2, 3, 0, 0, 0, 0, 0, 0, 0, 0, 0, 0, 0, 0, 0, 0, 0, 0, 0, 0, 0, 0, 0, 0, 0, 0, 0, 0, 0, 0,
                                       0 };
    static const uint8_t dated[] = { 3, 1, 2, 0, 0, 0, 0, 0, 0, 0, 0, 0, 0, 0, 0, 0, 0x98, 0xba, 0xdc, 0xfe, 0, 0, 0, 0, 0, 0,
                                     0, 0, 0, 0, 0, 0 };
    static const uint8_t before[] = { 4, 1, 0, 0, 0, 0, 0, 0, 0xff, 0xff, 0xff, 0xff, 0, 0, 0, 0, 0xd0, 7, 0, 0, 0, 0, 0, 0, 0, 0,
                                      0, 0, 0, 0, 0, 0 };
    static const uint8_t quarter[] = { 5, 12, 95, 0, 0, 0, 0, 0, 0xff, 0xff, 0xff, 0x7f, 0, 0, 0, 0x80, 5, 6, 7, 8, 0xfe, 0xff,
                                       0xff, 0xff, 0xff, 0xff, 0xff, 0x7f, 0xff, 0xff, 0xff, 0x7f };
    static const uint8_t readings[] = { 5, 12, 95, 0, 0, 0, 0, 0, 0xff, 0xff, 0xff, 0x7f, 0, 0, 0, 0x80, 5, 6, 7, 8, 0xfe, 0xff,
                                        0xff, 0xff, 0xfd, 0xff, 0xff, 0xff, 9, 8, 7, 6 };
    uint8_t record[SANDEGMUR_RECORD_BYTES + 1];
    memset(record, FILL, sizeof record);
    sandegmur_plant(record, SANDEGMUR_SOLAR, SANDEGMUR_SPITZ, 1000000);
    CHECK(memcmp(record, plant, SANDEGMUR_RECORD_BYTES) == 0);
    memset(record, FILL, sizeof record);
    sandegmur_curve_point(record, 300, 0x12345678);
    CHECK(memcmp(record, point, SANDEGMUR_RECORD_BYTES) == 0);
    memset(record, FILL, sizeof record);
    sandegmur_measure(record, SANDEGMUR_NEGATIVE, SANDEGMUR_BOTH_SIDES_FIXED);
    CHECK(memcmp(record, measure, SANDEGMUR_RECORD_BYTES) == 0);
    memset(record, FILL, sizeof record);
    sandegmur_dated_measure(record, SANDEGMUR_NEGATIVE, SANDEGMUR_BOTH_SIDES_FIXED, 0);
    CHECK(memcmp(record, measure, SANDEGMUR_RECORD_BYTES) == 0);
    memset(record, FILL, sizeof record);
    sandegmur_dated_measure(record, SANDEGMUR_POSITIVE, SANDEGMUR_TOLERATED, 0xfedcba98);
    CHECK(memcmp(record, dated, SANDEGMUR_RECORD_BYTES) == 0);
    memset(record, FILL, sizeof record);
    sandegmur_before_quarter(record, SANDEGMUR_MARKED, -1, 2000);
    CHECK(memcmp(record, before, SANDEGMUR_RECORD_BYTES) == 0);
    memset(record, FILL, sizeof record);
    sandegmur_quarter(record, 12, 95, INT32_MAX, INT32_MIN, 0x08070605, -2);
    CHECK(memcmp(record, quarter, SANDEGMUR_RECORD_BYTES) == 0);
    sandegmur_quarter_readings(record, -3, 0x06070809);
    CHECK(memcmp(record, readings, SANDEGMUR_RECORD_BYTES) == 0);
    sandegmur_quarter_readings(record, SANDEGMUR_NO_READING, SANDEGMUR_NO_READING);
    CHECK(memcmp(record, quarter, SANDEGMUR_RECORD_BYTES) == 0);
    CHECK(record[SANDEGMUR_RECORD_BYTES] == FILL);
}

/* The ends of what 8 bytes can hold, and FORMAT.md's -25,000. */
static void test_amounts(void)
{
    static const struct {
        uint8_t bytes[SANDEGMUR_PLACE_BYTES];
        int64_t amount;
    } places[] = {
        { { 0, 0, 0, 0, 0, 0, 0, 0 }, 0 },
        { { 1, 2, 3, 4, 5, 6, 7, 8 }, 0x0807060504030201 },
        { { 0x58, 0x9e, 0xff, 0xff, 0xff, 0xff, 0xff, 0xff }, -25000 },
        { { 0xff, 0xff, 0xff, 0xff, 0xff, 0xff, 0xff, 0xff }, -1 },
        { { 0xff, 0xff, 0xff, 0xff, 0xff, 0xff, 0xff, 0x7f }, INT64_MAX },
        { { 0, 0, 0, 0, 0, 0, 0, 0x80 }, INT64_MIN },
    };
    for (size_t i = 0; i < sizeof places / sizeof places[0]; i++)
        CHECK(sandegmur_amount(places[i].bytes) == places[i].amount);
}

/* Every refusal has a text of its own, and no other number has one. */
static void test_texts(void)
{
    for (uint32_t number = 0; number <= SANDEGMUR_UNEQUAL_LISTS + 1; number++)
        for (uint32_t other = 0; other < number; other++)
            CHECK(strcmp(sandegmur_refusal_text(number), sandegmur_refusal_text(other)) != 0);
    CHECK(strcmp(sandegmur_refusal_text(0), "not refused") == 0);
    CHECK(strcmp(sandegmur_refusal_text(UINT32_MAX), sandegmur_refusal_text(SANDEGMUR_UNEQUAL_LISTS + 1)) == 0);
}

/* A new record has the number U, and its first link or next link in the place that the header names. */
static void test_numbers(void)
{
    uint8_t archive[ARCHIVE], record[SANDEGMUR_RECORD_BYTES];
    CHECK(sandegmur_fresh(archive, ARCHIVE) == SANDEGMUR_NOT_REFUSED);
    CHECK(memcmp(archive + SANDEGMUR_HEAD_TEXT_AT, "AARB", 4) == 0);
    for (uint32_t i = 1; i < RECORDS; i++) {
        static const uint32_t owners[RECORDS] = { 0, 0, 1, 1, 3, 3, 1, 0 };
        if (i == 1 || i == 7)
            sandegmur_plant(record, SANDEGMUR_WIND, SANDEGMUR_SPITZ, 1000000);
        else if (i == 2)
            sandegmur_curve_point(record, 0, 0);
        else if (i == 3 || i == 6)
            sandegmur_measure(record, SANDEGMUR_NEGATIVE, SANDEGMUR_REQUESTED);
        else if (i == 4)
            sandegmur_before_quarter(record, SANDEGMUR_NOT_MARKED, 0, 0);
        else
            sandegmur_quarter(record, 1, 0, 0, 0, 0, 0);
        uint32_t number = sandegmur_used(archive, ARCHIVE);
        CHECK(number == i);
        CHECK(file(archive, ARCHIVE, owners[i], record) == SANDEGMUR_NOT_REFUSED);
        CHECK(memcmp(archive + sandegmur_show(archive, ARCHIVE, number), record, SANDEGMUR_RECORD_BYTES) == 0);
    }
    CHECK(sandegmur_used(archive, ARCHIVE) == RECORDS);
    CHECK(sandegmur_used(archive, SANDEGMUR_RECORD_BYTES - 1) == 0);
    CHECK(sandegmur_used(NULL, 0) == 0);
    CHECK(sandegmur_get32(archive + SANDEGMUR_HEAD_FIRST_PLANT_AT) == 1);
    const uint8_t *plant = archive + sandegmur_show(archive, ARCHIVE, 1);
    CHECK(sandegmur_get32(plant + SANDEGMUR_NEXT_AT) == 7);
    CHECK(sandegmur_get32(plant + SANDEGMUR_PLANT_FIRST_CURVE_POINT_AT) == 2);
    CHECK(sandegmur_get32(plant + SANDEGMUR_PLANT_FIRST_MEASURE_AT) == 3);
    const uint8_t *measure = archive + sandegmur_show(archive, ARCHIVE, 3);
    CHECK(sandegmur_get32(measure + SANDEGMUR_NEXT_AT) == 6);
    CHECK(sandegmur_get32(measure + SANDEGMUR_MEASURE_FIRST_BEFORE_QUARTER_AT) == 4);
    CHECK(sandegmur_get32(measure + SANDEGMUR_MEASURE_FIRST_QUARTER_AT) == 5);
    CHECK(sandegmur_audit(archive, ARCHIVE) == SANDEGMUR_NOT_REFUSED);
}

/* A measure of so many before-quarters and quarters. */
static void file_counts(uint8_t *archive, size_t length, int befores, int quarters)
{
    uint8_t record[SANDEGMUR_RECORD_BYTES];
    CHECK(sandegmur_fresh(archive, length) == SANDEGMUR_NOT_REFUSED);
    sandegmur_plant(record, SANDEGMUR_OTHER, SANDEGMUR_PAUSCHAL, 1000000);
    CHECK(file(archive, length, 0, record) == SANDEGMUR_NOT_REFUSED);
    sandegmur_measure(record, SANDEGMUR_NEGATIVE, SANDEGMUR_TOLERATED);
    CHECK(file(archive, length, 1, record) == SANDEGMUR_NOT_REFUSED);
    sandegmur_before_quarter(record, SANDEGMUR_MARKED, 800000, 0);
    for (int i = 0; i < befores; i++)
        CHECK(file(archive, length, 2, record) == SANDEGMUR_NOT_REFUSED);
    sandegmur_quarter(record, 7, 40, 400000, 0, 0, 0);
    for (int i = 0; i < quarters; i++)
        CHECK(file(archive, length, 2, record) == SANDEGMUR_NOT_REFUSED);
}

/* Settles such a measure, in an archive that has no record more. */
static uint32_t settle_counts(uint8_t *archive, int befores, int quarters)
{
    static uint8_t list[(SANDEGMUR_MOST_QUARTERS + 1) * SANDEGMUR_PLACE_BYTES];
    uint8_t result[SANDEGMUR_RESULT_BYTES];
    size_t length = (size_t)(3 + befores + quarters) * SANDEGMUR_RECORD_BYTES;
    file_counts(archive, length, befores, quarters);
    return sandegmur_settle(archive, length, 1, 1, list, sizeof list, result, sizeof result);
}

/* The most that is allowed is, and one more isn't. */
static void test_most(void)
{
    size_t most = SANDEGMUR_MOST_BYTES;
    uint8_t *archive = (uint8_t *)malloc(most + SANDEGMUR_RECORD_BYTES);
    if (archive == NULL)
        abort();
    CHECK(SANDEGMUR_MOST_RECORDS * SANDEGMUR_RECORD_BYTES == SANDEGMUR_MOST_BYTES);
    CHECK(sandegmur_fresh(archive, most) == SANDEGMUR_NOT_REFUSED);
    CHECK(sandegmur_fresh(archive, most + SANDEGMUR_RECORD_BYTES) == SANDEGMUR_NOT_ARCHIVE);
    CHECK(sandegmur_take_back(archive, most + SANDEGMUR_RECORD_BYTES) == SANDEGMUR_NOT_ARCHIVE);
    CHECK(settle_counts(archive, SANDEGMUR_MOST_BEFORE_QUARTERS, 1) == SANDEGMUR_NOT_REFUSED);
    CHECK(settle_counts(archive, SANDEGMUR_MOST_BEFORE_QUARTERS + 1, 1) == SANDEGMUR_BAD_COUNT);
    CHECK(settle_counts(archive, 1, SANDEGMUR_MOST_QUARTERS) == SANDEGMUR_NOT_REFUSED);
    CHECK(settle_counts(archive, 1, SANDEGMUR_MOST_QUARTERS + 1) == SANDEGMUR_BAD_COUNT);
    free(archive);
}

/* settle is sandegmur_settle. */
static void test_names(void)
{
    uint8_t archive[ARCHIVE], list[2][LIST], result[2][RESULT];
    file_case_a(archive);
    for (uint64_t k = 0; k < 3; k++) {
        memset(list, FILL, sizeof list);
        memset(result, FILL, sizeof result);
        CHECK(settle(archive, ARCHIVE, 1, k, list[0], LIST, result[0], SANDEGMUR_RESULT_BYTES)
              == sandegmur_settle(archive, ARCHIVE, 1, k, list[1], LIST, result[1], SANDEGMUR_RESULT_BYTES));
        CHECK(memcmp(list[0], list[1], LIST) == 0);
        CHECK(memcmp(result[0], result[1], RESULT) == 0);
        CHECK((list[1][0] == FILL) == (k != 1));
    }
}

/* Lengths of 0, with NULL: no byte is touched, and each call answers by its length. */
static void test_null(void)
{
    static const int64_t energy[] = { ENERGY + 1 };
    uint8_t archive[ARCHIVE], was[ARCHIVE], record[SANDEGMUR_RECORD_BYTES] = { 1, 3, 2 }, list[LIST], result[RESULT];
    uint64_t day = FILL, remainder = FILL;
    int64_t cents = FILL;
    file_case_a(archive);
    memcpy(was, archive, ARCHIVE);
    memset(list, FILL, LIST);
    memset(result, FILL, RESULT);
    CHECK(sandegmur_fresh(NULL, 0) == SANDEGMUR_NOT_ARCHIVE);
    CHECK(sandegmur_append(NULL, 0, 0, record, sizeof record) == SANDEGMUR_NOT_ARCHIVE);
    CHECK(sandegmur_append(archive, ARCHIVE, 0, NULL, 0) == SANDEGMUR_BAD_RECORD);
    CHECK(sandegmur_take_back(NULL, 0) == SANDEGMUR_NOT_ARCHIVE);
    CHECK(sandegmur_audit(NULL, 0) == SANDEGMUR_NOT_ARCHIVE);
    CHECK(sandegmur_show(NULL, 0, 0) == 0);
    CHECK(settle(NULL, 0, 1, 1, list, LIST, result, SANDEGMUR_RESULT_BYTES) == SANDEGMUR_NOT_ARCHIVE);
    CHECK(settle(archive, ARCHIVE, 1, 1, NULL, 0, result, SANDEGMUR_RESULT_BYTES) == SANDEGMUR_NO_ROOM);
    CHECK(settle(archive, ARCHIVE, 1, 1, list, LIST, NULL, 0) == SANDEGMUR_NO_ROOM);
    CHECK(settle(NULL, 0, 0, 0, NULL, 0, NULL, 0) == SANDEGMUR_NOT_ARCHIVE);
    CHECK(sandegmur_preview(NULL, 0, 0, record, sizeof record, 1, 1, list, LIST, result, SANDEGMUR_RESULT_BYTES)
          == SANDEGMUR_NOT_ARCHIVE);
    CHECK(sandegmur_preview(archive, ARCHIVE, 0, NULL, 0, 1, 1, list, LIST, result, SANDEGMUR_RESULT_BYTES)
          == SANDEGMUR_BAD_RECORD);
    CHECK(sandegmur_preview(archive, ARCHIVE, 0, NULL, 0, 1, 1, NULL, 0, NULL, 0) == SANDEGMUR_BAD_RECORD);
    CHECK(sandegmur_preview(archive, ARCHIVE, 0, record, sizeof record, 1, 1, NULL, 0, result, SANDEGMUR_RESULT_BYTES)
          == SANDEGMUR_NO_ROOM);
    CHECK(sandegmur_preview(archive, ARCHIVE, 0, record, sizeof record, 1, 1, list, LIST, NULL, 0) == SANDEGMUR_NO_ROOM);
    CHECK(sandegmur_preview(archive, ARCHIVE, 0, record, sizeof record, 1, 1, NULL, 0, NULL, 0) == SANDEGMUR_NO_ROOM);
    CHECK(sandegmur_preview(archive, ARCHIVE, 0, record, sizeof record, 2, 1, NULL, 0, NULL, 0) == SANDEGMUR_NO_MEASURE);
    CHECK(sandegmur_preview(NULL, 0, 0, NULL, 0, 0, 0, NULL, 0, NULL, 0) == SANDEGMUR_NOT_ARCHIVE);
    CHECK(memcmp(archive, was, ARCHIVE) == 0);
    CHECK(sandegmur_delivery_day(0, NULL, 0, &day) == SANDEGMUR_NOT_IN_CALENDAR && day == FILL);
    CHECK(sandegmur_delivery_day(1, NULL, 0, &day) == SANDEGMUR_NOT_REFUSED && day == 35);
    CHECK(sandegmur_correction(energy, 1, NULL, 0, NULL, 0, &cents, &remainder) == SANDEGMUR_UNEQUAL_LISTS);
    CHECK(sandegmur_correction(NULL, 0, energy, 1, NULL, 0, &cents, &remainder) == SANDEGMUR_UNEQUAL_LISTS);
    CHECK(sandegmur_correction(NULL, 0, NULL, 0, energy, 1, &cents, &remainder) == SANDEGMUR_UNEQUAL_LISTS);
    CHECK(sandegmur_correction(energy, 1, energy, 1, NULL, 0, &cents, &remainder) == SANDEGMUR_UNEQUAL_LISTS);
    CHECK(cents == FILL && remainder == FILL);
    CHECK(sandegmur_correction(NULL, 0, NULL, 0, NULL, 0, &cents, &remainder) == SANDEGMUR_NOT_REFUSED);
    CHECK(cents == 0 && remainder == 0);
    CHECK(all_are(list, 0, LIST, FILL));
    CHECK(all_are(result, 0, RESULT, FILL));
}

/* What case a leaves of FILL in list and result, refused or not. */
static void check_case_a(uint32_t number, const uint8_t *list, const uint8_t *result)
{
    static const int64_t amounts[] = { 74999, 75000, 75000 };
    if (number != SANDEGMUR_NOT_REFUSED) {
        CHECK(all_are(list, 0, LIST, FILL));
        CHECK(all_are(result, 0, RESULT, FILL));
    } else {
        for (int i = 0; i < 3; i++)
            CHECK(sandegmur_amount(list + SANDEGMUR_PLACE_BYTES * i) == amounts[i]);
        CHECK(all_are(list, 3 * SANDEGMUR_PLACE_BYTES, LIST, FILL));
        check_result(result, 3, 224999, 6);
        CHECK(all_are(result, SANDEGMUR_RESULT_BYTES, RESULT, FILL));
    }
}

/* Every list length: 13 below 3 whole places; else three amounts, and no byte past them. */
static void test_list_lengths(void)
{
    uint8_t archive[ARCHIVE], was[ARCHIVE], list[LIST], result[RESULT];
    file_case_a(archive);
    memcpy(was, archive, ARCHIVE);
    for (size_t length = 0; length <= LIST; length++) {
        memset(list, FILL, LIST);
        memset(result, FILL, RESULT);
        uint32_t number = settle(archive, ARCHIVE, 1, 1, list, length, result, SANDEGMUR_RESULT_BYTES);
        CHECK(number == (length < 3 * SANDEGMUR_PLACE_BYTES ? SANDEGMUR_NO_ROOM : SANDEGMUR_NOT_REFUSED));
        check_case_a(number, list, result);
    }
    CHECK(memcmp(archive, was, ARCHIVE) == 0);
}

/* A result part that isn't 24 bytes long is 13, and leaves the list too. */
static void test_result_lengths(void)
{
    uint8_t archive[ARCHIVE], list[LIST], result[RESULT];
    file_case_a(archive);
    for (size_t length = 0; length <= RESULT; length++) {
        memset(list, FILL, LIST);
        memset(result, FILL, RESULT);
        uint32_t number = settle(archive, ARCHIVE, 1, 1, list, LIST, result, length);
        CHECK(number == (length == SANDEGMUR_RESULT_BYTES ? SANDEGMUR_NOT_REFUSED : SANDEGMUR_NO_ROOM));
        if (number != SANDEGMUR_NOT_REFUSED) {
            CHECK(all_are(list, 0, LIST, FILL));
            CHECK(all_are(result, 0, RESULT, FILL));
        }
    }
}

/* Positive redispatch gives negative amounts, in two's complement; an amount of 0 has no sign. */
static void test_minus(void)
{
    static const int32_t measured[] = { 600000, 500000 };
    uint8_t archive[ARCHIVE], list[LIST], result[RESULT];
    file_measure(archive, SANDEGMUR_POSITIVE, 500000, measured, 2);
    memset(list, FILL, LIST);
    CHECK(settle(archive, ARCHIVE, 1, 1, list, LIST, result, SANDEGMUR_RESULT_BYTES) == SANDEGMUR_NOT_REFUSED);
    CHECK(sandegmur_amount(list) == -25000);
    CHECK(sandegmur_amount(list + SANDEGMUR_PLACE_BYTES) == 0);
    CHECK(all_are(list, 2 * SANDEGMUR_PLACE_BYTES, LIST, FILL));
    check_result(result, 2, -25000, 5);
}

/* Refused calls leave every byte, also where 13 would come later. */
static void test_refused(void)
{
    static const struct {
        uint64_t p, k;
        uint32_t number;
    } places[] = {
        { 0, 1, SANDEGMUR_NO_PLANT },  { 2, 1, SANDEGMUR_NO_PLANT },   { UINT64_MAX, 1, SANDEGMUR_NO_PLANT },
        { 1, 0, SANDEGMUR_NO_MEASURE }, { 1, 2, SANDEGMUR_NO_MEASURE }, { 1, UINT64_MAX, SANDEGMUR_NO_MEASURE },
    };
    uint8_t archive[ARCHIVE], was[ARCHIVE], list[LIST], result[RESULT], record[SANDEGMUR_RECORD_BYTES] = { 5, 7, 43 };
    memset(list, FILL, LIST);
    memset(result, FILL, RESULT);
    file_case_a(archive);
    memcpy(was, archive, ARCHIVE);
    for (size_t i = 0; i < sizeof places / sizeof places[0]; i++) {
        CHECK(settle(archive, ARCHIVE, places[i].p, places[i].k, list, LIST, result, SANDEGMUR_RESULT_BYTES) == places[i].number);
        CHECK(settle(archive, ARCHIVE, places[i].p, places[i].k, list, 0, result, RESULT) == places[i].number);
    }
    CHECK(settle(archive, ARCHIVE - 1, 1, 1, list, LIST, result, SANDEGMUR_RESULT_BYTES) == SANDEGMUR_NOT_ARCHIVE);
    CHECK(all_are(list, 0, LIST, FILL));
    CHECK(all_are(result, 0, RESULT, FILL));

    CHECK(sandegmur_fresh(archive, ARCHIVE - 1) == SANDEGMUR_NOT_ARCHIVE);
    CHECK(sandegmur_append(archive, ARCHIVE - 1, 2, record, sizeof record) == SANDEGMUR_NOT_ARCHIVE);
    CHECK(sandegmur_append(archive, ARCHIVE, 2, record, sizeof record - 1) == SANDEGMUR_BAD_RECORD);
    CHECK(sandegmur_append(archive, ARCHIVE, 1, record, sizeof record) == SANDEGMUR_BAD_OWNER);
    CHECK(sandegmur_append(archive, ARCHIVE, UINT64_MAX, record, sizeof record) == SANDEGMUR_BAD_OWNER);
    CHECK(sandegmur_append(archive, ARCHIVE - SANDEGMUR_RECORD_BYTES, 2, record, sizeof record) == SANDEGMUR_ARCHIVE_FULL);
    CHECK(sandegmur_take_back(archive, ARCHIVE - 1) == SANDEGMUR_NOT_ARCHIVE);
    CHECK(memcmp(archive, was, ARCHIVE) == 0);
}

/* A record below U by its place; the archive's length for any other number. */
static void test_show(void)
{
    uint8_t archive[ARCHIVE];
    file_case_a(archive);
    for (uint64_t number = 0; number < 7; number++)
        CHECK(sandegmur_show(archive, ARCHIVE, number) == SANDEGMUR_RECORD_BYTES * number);
    CHECK(sandegmur_show(archive, ARCHIVE, 7) == ARCHIVE);
    CHECK(sandegmur_show(archive, ARCHIVE, UINT64_MAX) == ARCHIVE);
    CHECK(sandegmur_show(archive, ARCHIVE - 1, 0) == ARCHIVE - 1);
}

/* A solar plant, Pauschal, and a measure with this date, whose quarters measured nothing. Their own month and quarter of the day
 * are none. */
static void file_dated(uint8_t *archive, uint32_t first)
{
    uint8_t record[SANDEGMUR_RECORD_BYTES];
    CHECK(sandegmur_fresh(archive, DATED_ARCHIVE) == SANDEGMUR_NOT_REFUSED);
    sandegmur_plant(record, SANDEGMUR_SOLAR, SANDEGMUR_PAUSCHAL, 1000000);
    CHECK(file(archive, DATED_ARCHIVE, 0, record) == SANDEGMUR_NOT_REFUSED);
    sandegmur_dated_measure(record, SANDEGMUR_NEGATIVE, SANDEGMUR_TOLERATED, first);
    CHECK(file(archive, DATED_ARCHIVE, 1, record) == SANDEGMUR_NOT_REFUSED);
    sandegmur_quarter(record, 13, 255, 0, 0, 0, 0);
    for (int i = 0; i < DATED; i++)
        CHECK(file(archive, DATED_ARCHIVE, 2, record) == SANDEGMUR_NOT_REFUSED);
    CHECK(sandegmur_audit(archive, DATED_ARCHIVE) == SANDEGMUR_NOT_REFUSED);
    CHECK(sandegmur_get32(archive + sandegmur_show(archive, DATED_ARCHIVE, 2) + SANDEGMUR_MEASURE_DATE_AT) == first);
}

/* From 31 October 2026, 18:45, in summer, to 1 November, 9:15, in winter; the measure without its date is 9. */
static void test_dated(void)
{
    uint8_t archive[DATED_ARCHIVE], was[DATED_ARCHIVE], list[DATED_LIST], result[RESULT];
    memset(list, FILL, DATED_LIST);
    memset(result, FILL, RESULT);
    file_dated(archive, 0);
    CHECK(settle(archive, DATED_ARCHIVE, 1, 1, list, DATED_LIST, result, SANDEGMUR_RESULT_BYTES) == SANDEGMUR_OUT_OF_RANGE);
    CHECK(all_are(list, 0, DATED_LIST, FILL));
    CHECK(all_are(result, 0, RESULT, FILL));

    file_dated(archive, 940876);
    memcpy(was, archive, DATED_ARCHIVE);
    CHECK(settle(archive, DATED_ARCHIVE, 1, 1, list, DATED_LIST, result, SANDEGMUR_RESULT_BYTES) == SANDEGMUR_NOT_REFUSED);
    for (int i = 0; i < DATED; i++)
        CHECK(sandegmur_amount(list + SANDEGMUR_PLACE_BYTES * i) == (i == 0 ? 61400 : i == DATED - 1 ? 69900 : 0));
    CHECK(all_are(list, DATED * SANDEGMUR_PLACE_BYTES, DATED_LIST, FILL));
    check_result(result, DATED, 61400 + 69900, 2 + DATED);
    CHECK(all_are(result, SANDEGMUR_RESULT_BYTES, RESULT, FILL));
    CHECK(memcmp(archive, was, DATED_ARCHIVE) == 0);
}

/* A measure whose first or last quarter is past the last of the calendar: 18 before 13 and after 9, and every byte stays. */
static void test_late(void)
{
    static const struct {
        uint32_t first;
        int late;
    } dates[] = {
        { SANDEGMUR_LAST_QUARTER - DATED + 1, 0 }, { SANDEGMUR_LAST_QUARTER - DATED + 2, 1 }, { SANDEGMUR_LAST_QUARTER, 1 },
        { SANDEGMUR_LAST_QUARTER + 1, 1 },         { (uint32_t)INT32_MAX + 1, 1 },            { UINT32_MAX, 1 },
    };
    enum { SHORT = DATED * SANDEGMUR_PLACE_BYTES - 1 };
    uint8_t archive[DATED_ARCHIVE], was[DATED_ARCHIVE], list[DATED_LIST], result[RESULT];
    for (size_t i = 0; i < sizeof dates / sizeof dates[0]; i++) {
        uint32_t whole = dates[i].late ? SANDEGMUR_NOT_IN_CALENDAR : SANDEGMUR_NOT_REFUSED;
        uint32_t cut = dates[i].late ? SANDEGMUR_NOT_IN_CALENDAR : SANDEGMUR_NO_ROOM;
        memset(list, FILL, DATED_LIST);
        memset(result, FILL, RESULT);
        file_dated(archive, dates[i].first);
        memcpy(was, archive, DATED_ARCHIVE);
        CHECK(settle(archive, DATED_ARCHIVE, 1, 1, list, SHORT, result, SANDEGMUR_RESULT_BYTES) == cut);
        CHECK(settle(archive, DATED_ARCHIVE, 1, 1, NULL, 0, result, SANDEGMUR_RESULT_BYTES) == cut);
        CHECK(settle(archive, DATED_ARCHIVE, 1, 1, list, DATED_LIST, result, RESULT) == cut);
        CHECK(settle(archive, DATED_ARCHIVE, 1, 1, list, SHORT, NULL, 0) == cut);
        CHECK(all_are(list, 0, DATED_LIST, FILL));
        CHECK(all_are(result, 0, RESULT, FILL));
        CHECK(settle(archive, DATED_ARCHIVE, 1, 1, list, DATED_LIST, result, SANDEGMUR_RESULT_BYTES) == whole);
        CHECK(all_are(list, 0, DATED_LIST, FILL) == dates[i].late);
        CHECK(all_are(result, 0, RESULT, FILL) == dates[i].late);
        CHECK(memcmp(archive, was, DATED_ARCHIVE) == 0);
    }
    sandegmur_put32(archive + DATED_ARCHIVE - SANDEGMUR_RECORD_BYTES + SANDEGMUR_QUARTER_MEASURED_AT, 1000000001);
    CHECK(settle(archive, DATED_ARCHIVE, 1, 1, list, SHORT, result, RESULT) == SANDEGMUR_OUT_OF_RANGE);

    /* Also where no rule needs the date. */
    file_case_a(archive);
    for (uint32_t first = SANDEGMUR_LAST_QUARTER - 3; first <= SANDEGMUR_LAST_QUARTER; first++) {
        sandegmur_put32(archive + sandegmur_show(archive, ARCHIVE, 2) + SANDEGMUR_MEASURE_DATE_AT, first);
        CHECK(settle(archive, ARCHIVE, 1, 1, list, DATED_LIST, result, SANDEGMUR_RESULT_BYTES)
              == (first <= SANDEGMUR_LAST_QUARTER - 2 ? SANDEGMUR_NOT_REFUSED : SANDEGMUR_NOT_IN_CALENDAR));
    }
}

/* One quarter of Pauschal with readings that bound the reference power, 800,000, or the limitation value: an amount or a refusal,
 * which leaves every byte. A quarter filed without readings is settled as before. */
static void test_october(void)
{
    enum { OLD = SANDEGMUR_OCTOBER_2026 - 1, NEW = SANDEGMUR_OCTOBER_2026, NO = SANDEGMUR_NO_READING, OUT = 1000000001 };
    enum { BYTES = 5 * SANDEGMUR_RECORD_BYTES };
    static const struct {
        uint8_t technology, direction;
        uint32_t first;
        int32_t measured, nonavailability, market_adjustment;
        uint32_t number;
        int64_t amount;
    } cases[] = {
        { SANDEGMUR_WIND, SANDEGMUR_NEGATIVE, OLD, 300000, 500000, 400000, 0, 125000 },
        { SANDEGMUR_WIND, SANDEGMUR_NEGATIVE, NEW, 300000, 500000, 400000, 0, 25000 },
        { SANDEGMUR_WIND, SANDEGMUR_NEGATIVE, NEW, 300000, 400000, 500000, 0, 25000 },
        { SANDEGMUR_WIND, SANDEGMUR_NEGATIVE, NEW, 300000, 500000, NO, 0, 50000 },
        { SANDEGMUR_WIND, SANDEGMUR_NEGATIVE, NEW, 300000, NO, NO, 0, 125000 },
        { SANDEGMUR_WIND, SANDEGMUR_NEGATIVE, NEW, -300000, -100000, NO, 0, 50000 },
        { SANDEGMUR_WIND, SANDEGMUR_NEGATIVE, NEW, 300000, OUT, 0, SANDEGMUR_OUT_OF_RANGE, 0 },
        { SANDEGMUR_WIND, SANDEGMUR_NEGATIVE, NEW, 300000, 0, -OUT, SANDEGMUR_OUT_OF_RANGE, 0 },
        { SANDEGMUR_WIND, SANDEGMUR_NEGATIVE, NEW, 300000, NO - 1, NO, SANDEGMUR_OUT_OF_RANGE, 0 },
        { SANDEGMUR_WIND, SANDEGMUR_NEGATIVE, OLD, 300000, OUT, OUT, 0, 125000 },
        { SANDEGMUR_WIND, SANDEGMUR_NEGATIVE, 0, 300000, OUT, OUT, 0, 125000 },
        { SANDEGMUR_WIND, SANDEGMUR_NEGATIVE, UINT32_MAX, 300000, NO, OUT, SANDEGMUR_OUT_OF_RANGE, 0 },
        { SANDEGMUR_WIND, SANDEGMUR_NEGATIVE, UINT32_MAX, 300000, NO, NO, SANDEGMUR_NOT_IN_CALENDAR, 0 },
        { SANDEGMUR_OTHER, SANDEGMUR_NEGATIVE, OLD, 300000, 500000, 400000, 0, 125000 },
        { SANDEGMUR_OTHER, SANDEGMUR_NEGATIVE, NEW, 300000, 500000, 400000, 0, 50000 },
        { SANDEGMUR_OTHER, SANDEGMUR_NEGATIVE, NEW, 300000, NO, OUT, 0, 125000 },
        { SANDEGMUR_OTHER, SANDEGMUR_NEGATIVE, NEW, 300000, -OUT, NO, SANDEGMUR_OUT_OF_RANGE, 0 },
        { SANDEGMUR_OTHER, SANDEGMUR_POSITIVE, OLD, 900000, 860000, NO, 0, -25000 },
        { SANDEGMUR_OTHER, SANDEGMUR_POSITIVE, NEW, 900000, 860000, OUT, 0, -15000 },
        { SANDEGMUR_OTHER, SANDEGMUR_POSITIVE, NEW, 900000, 600000, NO, 0, 0 },
        { SANDEGMUR_OTHER, SANDEGMUR_POSITIVE, NEW, 900000, OUT, NO, SANDEGMUR_OUT_OF_RANGE, 0 },
    };
    uint8_t archive[BYTES], was[BYTES], list[LIST], result[RESULT], record[SANDEGMUR_RECORD_BYTES];
    for (size_t i = 0; i < sizeof cases / sizeof cases[0]; i++) {
        CHECK(sandegmur_fresh(archive, BYTES) == SANDEGMUR_NOT_REFUSED);
        sandegmur_plant(record, cases[i].technology, SANDEGMUR_PAUSCHAL, 1000000);
        CHECK(file(archive, BYTES, 0, record) == SANDEGMUR_NOT_REFUSED);
        sandegmur_dated_measure(record, cases[i].direction, SANDEGMUR_TOLERATED, cases[i].first);
        CHECK(file(archive, BYTES, 1, record) == SANDEGMUR_NOT_REFUSED);
        sandegmur_before_quarter(record, SANDEGMUR_MARKED, 800000, 0);
        CHECK(file(archive, BYTES, 2, record) == SANDEGMUR_NOT_REFUSED);
        sandegmur_quarter(record, 0, 0, cases[i].measured, 0, 0, 0);
        if (cases[i].nonavailability != NO || cases[i].market_adjustment != NO)
            sandegmur_quarter_readings(record, cases[i].nonavailability, cases[i].market_adjustment);
        CHECK(file(archive, BYTES, 2, record) == SANDEGMUR_NOT_REFUSED);
        memcpy(was, archive, BYTES);
        memset(list, FILL, LIST);
        memset(result, FILL, RESULT);
        CHECK(settle(archive, BYTES, 1, 1, list, LIST, result, SANDEGMUR_RESULT_BYTES) == cases[i].number);
        if (cases[i].number == SANDEGMUR_NOT_REFUSED) {
            CHECK(sandegmur_amount(list) == cases[i].amount);
            check_result(result, 1, cases[i].amount, 4);
        } else {
            CHECK(all_are(list, 0, SANDEGMUR_PLACE_BYTES, FILL));
            CHECK(all_are(result, 0, SANDEGMUR_RESULT_BYTES, FILL));
        }
        CHECK(all_are(list, SANDEGMUR_PLACE_BYTES, LIST, FILL));
        CHECK(all_are(result, SANDEGMUR_RESULT_BYTES, RESULT, FILL));
        CHECK(memcmp(archive, was, BYTES) == 0);
    }
}

/* The call with a copy of the list between two other numbers, and the day between two others: these, the list and, if it is
 * refused, the day stay. */
static void check_delivery(uint64_t quarter, const uint32_t *holidays, size_t count, uint32_t number, uint64_t day)
{
    enum { MOST = 64 };
    uint32_t list[MOST + 2];
    uint64_t days[3];
    memset(list, FILL, sizeof list);
    memset(days, FILL, sizeof days);
    uint64_t filled = days[0];
    if (count > MOST)
        abort();
    for (size_t i = 0; i < count; i++)
        list[1 + i] = holidays[i];
    CHECK(sandegmur_delivery_day(quarter, list + 1, count, days + 1) == number);
    CHECK(days[0] == filled && days[2] == filled);
    CHECK(days[1] == (number == SANDEGMUR_NOT_REFUSED ? day : filled));
    CHECK(list[0] == (uint32_t)filled && list[1 + count] == (uint32_t)filled);
    for (size_t i = 0; i < count; i++)
        CHECK(list[1 + i] == holidays[i]);
}

static void test_delivery_days(void)
{
    static const uint32_t fifth[] = { 9806 }, any_order[] = { 9807, 9806, 9806, 9803, 9807 };
    /* A Saturday and a Sunday, days of the months beside it, numbers beyond the calendar, and 0. */
    static const uint32_t no_effect[] = { UINT32_MAX, 36557, 9832, 9808, 9802, 9801, 0 };
    static const uint64_t refused[] = { 0, SANDEGMUR_LAST_QUARTER + 1, 0x100000000, 0x100000001, UINT64_MAX };
    uint32_t november[2 * 26];
    /* October 2026, from its first quarter to its last, and the quarter after it: 5 November, 4 December. */
    check_delivery(937921, NULL, 0, SANDEGMUR_NOT_REFUSED, 9806);
    check_delivery(940896, NULL, 0, SANDEGMUR_NOT_REFUSED, 9806);
    check_delivery(940897, NULL, 0, SANDEGMUR_NOT_REFUSED, 9835);
    check_delivery(937921, fifth, 1, SANDEGMUR_NOT_REFUSED, 9807);
    check_delivery(937921, any_order, 5, SANDEGMUR_NOT_REFUSED, 9811);
    check_delivery(937921, no_effect, 7, SANDEGMUR_NOT_REFUSED, 9806);
    /* The last quarters of 2027 and of the calendar. */
    check_delivery(981792, NULL, 0, SANDEGMUR_NOT_REFUSED, 10233);
    check_delivery(SANDEGMUR_LAST_QUARTER, NULL, 0, SANDEGMUR_NOT_REFUSED, 36531);
    /* From 25 November down, each day twice: the 26th, 27th and 30th are left. From the 24th down four are, from the 26th two. */
    for (uint32_t i = 0; i < 26; i++)
        november[2 * i] = november[2 * i + 1] = 9827 - i;
    check_delivery(937921, november + 2, 50, SANDEGMUR_NOT_REFUSED, 0);
    check_delivery(937921, november + 4, 48, SANDEGMUR_NOT_REFUSED, 9831);
    check_delivery(937921, november, 52, SANDEGMUR_NOT_REFUSED, 0);
    for (size_t i = 0; i < sizeof refused / sizeof refused[0]; i++) {
        check_delivery(refused[i], NULL, 0, SANDEGMUR_NOT_IN_CALENDAR, 0);
        check_delivery(refused[i], fifth, 1, SANDEGMUR_NOT_IN_CALENDAR, 0);
    }
}

/* The lists of the tests below: amounts, balanced energies and prices. One place more than is allowed. */
static int64_t lists[LISTS][MONTH + 1];

struct answer {
    uint32_t number;
    int64_t cents;
    uint64_t remainder;
};

static int within(const int64_t *list, size_t count, int64_t most)
{
    for (size_t i = 0; i < count; i++)
        if (list[i] < -most || list[i] > most)
            return 0;
    return 1;
}

/* What the call has to answer to the first places of the lists, computed here. The exact sum fits 64 bits. */
static struct answer own_correction(const size_t *counts)
{
    struct answer own = { SANDEGMUR_NOT_REFUSED, 0, 0 };
    int64_t exact = 0;
    size_t count = counts[AMOUNTS];
    if (count != counts[BALANCED] || count != counts[PRICES])
        own.number = SANDEGMUR_UNEQUAL_LISTS;
    else if (count > MONTH || !within(lists[AMOUNTS], count, ENERGY) || !within(lists[BALANCED], count, ENERGY))
        own.number = SANDEGMUR_BAD_ENERGIES;
    else if (!within(lists[PRICES], count, PRICE))
        own.number = SANDEGMUR_BAD_PRICE;
    else
        for (size_t i = 0; i < count; i++)
            exact += (lists[AMOUNTS][i] - lists[BALANCED][i]) * lists[PRICES][i];
    int64_t above = (exact % CENT + CENT) % CENT;
    own.cents = (exact - above) / CENT;
    own.remainder = (uint64_t)above;
    return own;
}

/* The call on copies of these places between two other numbers, and with both results between two others: these, the lists and, if
 * it is refused, both results stay. Twice, with other numbers in the results. */
static struct answer check_correction(size_t amounts, size_t balanced, size_t prices)
{
    static int64_t copies[LISTS][MONTH + 3];
    const size_t counts[LISTS] = { amounts, balanced, prices };
    const struct answer own = own_correction(counts);
    int refused = own.number != SANDEGMUR_NOT_REFUSED;
    for (int64_t filled = -FILL; filled <= FILL; filled += 2 * FILL) {
        int64_t cents[3] = { filled, filled, filled };
        uint64_t rest = (uint64_t)filled, remainder[3] = { rest, rest, rest };
        for (size_t i = 0; i < LISTS; i++) {
            copies[i][0] = copies[i][1 + counts[i]] = filled;
            memcpy(copies[i] + 1, lists[i], counts[i] * sizeof lists[i][0]);
        }
        CHECK(sandegmur_correction(copies[AMOUNTS] + 1, amounts, copies[BALANCED] + 1, balanced, copies[PRICES] + 1, prices,
                                   cents + 1, remainder + 1) == own.number);
        CHECK(cents[1] == (refused ? filled : own.cents));
        CHECK(remainder[1] == (refused ? rest : own.remainder));
        CHECK(cents[0] == filled && cents[2] == filled && remainder[0] == rest && remainder[2] == rest);
        for (size_t i = 0; i < LISTS; i++) {
            CHECK(copies[i][0] == filled && copies[i][1 + counts[i]] == filled);
            CHECK(memcmp(copies[i] + 1, lists[i], counts[i] * sizeof lists[i][0]) == 0);
        }
    }
    return own;
}

static void put_quarter(size_t place, int64_t amount, int64_t balanced, int64_t price)
{
    lists[AMOUNTS][place] = amount;
    lists[BALANCED][place] = balanced;
    lists[PRICES][place] = price;
}

/* One quarter: the ends of each range, one past them, numbers of more than 32 bits, and both sides of a whole cent. */
static void test_one_corrected(void)
{
    static const int64_t energies[] = {
        -ENERGY - 1, -ENERGY, -1000001, -1000000, -999999,    -500000,      -1,          0,         1,         500000,
        999999,      1000000, 1000001,  ENERGY,   ENERGY + 1, -0x100000000, 0x100000000, INT64_MIN, INT64_MAX,
    };
    static const int64_t prices[] = {
        -PRICE - 1, -PRICE, -PRICE + 1, -500000, -3,        -2,           -1,          0,         1,         2,
        3,          500000, PRICE - 1,  PRICE,   PRICE + 1, -0x100000000, 0x100000000, INT64_MIN, INT64_MAX,
    };
    enum { NUMBERS = sizeof energies / sizeof energies[0] };
    int refused[SANDEGMUR_UNEQUAL_LISTS + 1] = { 0 };
    CHECK(NUMBERS == 19 && sizeof prices == sizeof energies);
    for (size_t i = 0; i < NUMBERS; i++)
        for (size_t j = 0; j < NUMBERS; j++)
            for (size_t k = 0; k < NUMBERS; k++) {
                put_quarter(0, energies[i], energies[j], prices[k]);
                refused[check_correction(1, 1, 1).number]++;
            }
    /* In each list 13 numbers are allowed. */
    CHECK(refused[SANDEGMUR_NOT_REFUSED] == 13 * 13 * 13);
    CHECK(refused[SANDEGMUR_BAD_ENERGIES] == (19 * 19 - 13 * 13) * 19);
    CHECK(refused[SANDEGMUR_BAD_PRICE] == 13 * 13 * 6);

    static const struct {
        int64_t amount, balanced, price, cents;
        uint64_t remainder;
    } cases[] = {
        { 0, 1, 1, -1, 999999 },
        { -1, 0, 1, -1, 999999 },
        { 1, 0, -1, -1, 999999 },
        { -1, 0, -1, 0, 1 },
        { 999999, 0, 1, 0, 999999 },
        { 1000000, 0, 1, 1, 0 },
        { 0, 1000000, 1, -1, 0 },
        { 0, 1000001, 1, -2, 999999 },
        { 1, 0, PRICE, 1, 0 },
        { ENERGY, ENERGY, PRICE, 0, 0 },
        { ENERGY, -ENERGY, PRICE, 2000000000, 0 },
        { -ENERGY, ENERGY, PRICE, -2000000000, 0 },
        { -ENERGY, ENERGY, PRICE - 1, -1999998000, 0 },
    };
    for (size_t i = 0; i < sizeof cases / sizeof cases[0]; i++) {
        put_quarter(0, cases[i].amount, cases[i].balanced, cases[i].price);
        struct answer found = check_correction(1, 1, 1);
        CHECK(found.cents == cases[i].cents && found.remainder == cases[i].remainder);
    }
}

/* A number beyond either end in any place of five, or in none, in each list: 20 before 21, wherever they are. */
static void test_correction_order(void)
{
    enum { COUNT = 5, NONE = 2 * COUNT, WAYS = NONE + 1 };
    static const int64_t ends[LISTS] = { ENERGY, ENERGY, PRICE };
    for (size_t bad = 0; bad < WAYS * WAYS * WAYS; bad++) {
        const size_t at[LISTS] = { bad % WAYS, bad / WAYS % WAYS, bad / WAYS / WAYS };
        for (size_t i = 0; i < COUNT; i++)
            put_quarter(i, 700 + (int64_t)i, 333, 1000 * (int64_t)i - 2000);
        for (size_t i = 0; i < LISTS; i++)
            if (at[i] != NONE)
                lists[i][at[i] / 2] = at[i] % 2 == 0 ? ends[i] + 1 : -ends[i] - 1;
        uint32_t number = check_correction(COUNT, COUNT, COUNT).number;
        CHECK(number == (at[AMOUNTS] != NONE || at[BALANCED] != NONE ? SANDEGMUR_BAD_ENERGIES
                         : at[PRICES] != NONE                        ? SANDEGMUR_BAD_PRICE
                                                                     : SANDEGMUR_NOT_REFUSED));
    }
}

/* Lists of any lengths up to 4: 22 if they aren't equal, also beside bad energies, bad prices or both. */
static void test_unequal(void)
{
    enum { LONGEST = 4 };
    for (int bad = 0; bad < 4; bad++) {
        uint32_t number = bad % 2 == 1 ? SANDEGMUR_BAD_ENERGIES : bad == 2 ? SANDEGMUR_BAD_PRICE : SANDEGMUR_NOT_REFUSED;
        for (size_t i = 0; i < LONGEST; i++)
            put_quarter(i, bad % 2 == 1 ? ENERGY + 1 : 1000, bad % 2 == 1 ? INT64_MIN : 999, bad >= 2 ? -PRICE - 1 : 7);
        for (size_t i = 0; i <= LONGEST; i++)
            for (size_t j = 0; j <= LONGEST; j++)
                for (size_t k = 0; k <= LONGEST; k++) {
                    uint32_t found = check_correction(i, j, k).number;
                    CHECK((found == SANDEGMUR_UNEQUAL_LISTS) == (i != j || i != k));
                    CHECK(found == SANDEGMUR_UNEQUAL_LISTS || i == 0 || found == number);
                }
    }
}

/* Few quarters, the most and one more: the highest and lowest sums, and less than a cent in each quarter. */
static void test_correction_counts(void)
{
    static const size_t counts[] = { 0, 1, 2, 3, MONTH - 1, MONTH, MONTH + 1 };
    for (int signs = 0; signs < 4; signs++) {
        int64_t energy = signs % 2 == 0 ? ENERGY : -ENERGY, price = signs < 2 ? PRICE : -PRICE;
        for (size_t i = 0; i < sizeof counts / sizeof counts[0]; i++) {
            int64_t count = (int64_t)counts[i], up = signs == 0 || signs == 3 ? 1 : -1;
            uint32_t number = counts[i] <= MONTH ? SANDEGMUR_NOT_REFUSED : SANDEGMUR_BAD_ENERGIES;
            for (size_t j = 0; j < counts[i]; j++)
                put_quarter(j, energy, -energy, price);
            struct answer found = check_correction(counts[i], counts[i], counts[i]);
            CHECK(found.number == number);
            CHECK(number != SANDEGMUR_NOT_REFUSED || (found.cents == up * 2000000000 * count && found.remainder == 0));
            CHECK(counts[i] != MONTH || found.cents == up * 5952000000000);

            /* At 1 cent either way, 1 Wh and 999,999 Wh either way. */
            for (size_t j = 0; j < counts[i]; j++)
                put_quarter(j, energy / ENERGY, 0, price / PRICE);
            found = check_correction(counts[i], counts[i], counts[i]);
            CHECK(found.number == number);
            if (number == SANDEGMUR_NOT_REFUSED && count > 0) {
                CHECK(found.cents == (up > 0 ? 0 : -1));
                CHECK(found.remainder == (uint64_t)(up > 0 ? count : 1000000 - count));
            }
            for (size_t j = 0; j < counts[i]; j++)
                put_quarter(j, 0, -999999 * (energy / ENERGY), price / PRICE);
            found = check_correction(counts[i], counts[i], counts[i]);
            CHECK(found.number == number);
            if (number == SANDEGMUR_NOT_REFUSED && count > 0) {
                CHECK(found.cents == (up > 0 ? count - 1 : -count));
                CHECK(found.remainder == (uint64_t)(up > 0 ? 1000000 - count : count));
            }
        }
    }

    /* The one price that isn't 0 is the last; a place more or less in any list; a bad price before a quarter too many. */
    for (size_t i = 0; i <= MONTH; i++)
        put_quarter(i, -1, 0, i == MONTH - 1 ? 1 : 0);
    struct answer found = check_correction(MONTH, MONTH, MONTH);
    CHECK(found.number == SANDEGMUR_NOT_REFUSED && found.cents == -1 && found.remainder == 999999);
    for (size_t i = MONTH - 1; i <= MONTH + 1; i++)
        for (size_t j = MONTH - 1; j <= MONTH + 1; j++)
            for (size_t k = MONTH - 1; k <= MONTH + 1; k++)
                CHECK((check_correction(i, j, k).number == SANDEGMUR_UNEQUAL_LISTS) == (i != j || i != k));
    lists[PRICES][0] = PRICE + 1;
    CHECK(check_correction(MONTH, MONTH, MONTH).number == SANDEGMUR_BAD_PRICE);
    CHECK(check_correction(MONTH + 1, MONTH + 1, MONTH + 1).number == SANDEGMUR_BAD_ENERGIES);
    lists[PRICES][0] = 0;
    /* A bad number past the last place, and in it alone. */
    for (size_t i = 0; i < LISTS; i++) {
        uint32_t number = i == PRICES ? SANDEGMUR_BAD_PRICE : SANDEGMUR_BAD_ENERGIES;
        for (size_t j = MONTH; j >= MONTH - 1; j--) {
            int64_t was = lists[i][j];
            lists[i][j] = INT64_MAX;
            CHECK(check_correction(MONTH, MONTH, MONTH).number == (j == MONTH ? 0 : number));
            lists[i][j] = was;
        }
    }
}

/* A number between -most and most; the next one each time. */
static int64_t any(int64_t most)
{
    static uint64_t state = 1;
    state = state * 6364136223846793005 + 1442695040888963407;
    return (int64_t)(state >> 16) % (2 * most + 1) - most;
}

/* Quarter by quarter: with the remainders single quarters add up to the result of all, their cents alone fall behind. */
static void test_correction_added(void)
{
    enum { DAY = 96 };
    int64_t cents, cents_added = 0, exact_added = 0;
    uint64_t remainder;
    for (size_t i = 0; i < MONTH; i++) {
        /* Days of great energies and prices, and of small ones. */
        int great = i / DAY % 2 == 0;
        put_quarter(i, any(great ? ENERGY : 2000), any(great ? ENERGY : 2000), any(great ? PRICE : 900));
        CHECK(sandegmur_correction(lists[AMOUNTS] + i, 1, lists[BALANCED] + i, 1, lists[PRICES] + i, 1, &cents, &remainder)
              == SANDEGMUR_NOT_REFUSED);
        CHECK(remainder < CENT);
        cents_added += cents;
        exact_added += CENT * cents + (int64_t)remainder;
        if ((i + 1) % (DAY / 4) == 0) {
            struct answer found = check_correction(i + 1, i + 1, i + 1);
            CHECK(found.number == SANDEGMUR_NOT_REFUSED);
            CHECK(CENT * found.cents + (int64_t)found.remainder == exact_added);
            CHECK(cents_added < found.cents);
        }
    }
}

/* The amounts as settle writes them into an array of numbers, handed on: those below 0, the highest that isn't refused, and one
 * above it, which is settle's own. */
static void test_settled_corrected(void)
{
    enum { BYTES = 6 * SANDEGMUR_RECORD_BYTES, COUNT = 2 };
    static const int32_t below[] = { 600000, 500000 };
    static const int64_t balanced[] = { -20000, 1 }, prices[] = { 9000, -1 };
    uint8_t archive[ARCHIVE], result[RESULT], record[SANDEGMUR_RECORD_BYTES];
    int64_t amounts[COUNT + 1], cents = FILL;
    uint64_t remainder = FILL;
    amounts[COUNT] = INT64_MIN;
    file_measure(archive, SANDEGMUR_POSITIVE, 500000, below, COUNT);
    CHECK(settle(archive, ARCHIVE, 1, 1, (uint8_t *)amounts, sizeof amounts, result, SANDEGMUR_RESULT_BYTES)
          == SANDEGMUR_NOT_REFUSED);
    CHECK(amounts[0] == -25000 && amounts[1] == 0 && amounts[COUNT] == INT64_MIN);
    size_t count = (size_t)sandegmur_amount(result + SANDEGMUR_RESULT_COUNT_AT);
    CHECK(sandegmur_correction(amounts, count, balanced, COUNT, prices, COUNT, &cents, &remainder) == SANDEGMUR_NOT_REFUSED);
    CHECK(cents == -45 && remainder == 1);

    /* Solar Spitz: the reference power is 2,000,000 x 2,000 / 1. */
    for (int32_t measured = 4; measured >= -4; measured -= 4) {
        uint32_t number = measured == -4 ? SANDEGMUR_BAD_ENERGIES : SANDEGMUR_NOT_REFUSED;
        CHECK(sandegmur_fresh(archive, BYTES) == SANDEGMUR_NOT_REFUSED);
        sandegmur_plant(record, SANDEGMUR_SOLAR, SANDEGMUR_SPITZ, 1000000);
        CHECK(file(archive, BYTES, 0, record) == SANDEGMUR_NOT_REFUSED);
        sandegmur_measure(record, SANDEGMUR_NEGATIVE, SANDEGMUR_TOLERATED);
        CHECK(file(archive, BYTES, 1, record) == SANDEGMUR_NOT_REFUSED);
        sandegmur_before_quarter(record, SANDEGMUR_MARKED, 2000000, 1);
        CHECK(file(archive, BYTES, 2, record) == SANDEGMUR_NOT_REFUSED);
        for (int i = 0; i < COUNT; i++) {
            sandegmur_quarter(record, 0, 0, i == 0 ? 1000000000 : measured, 0, 2000, 0);
            CHECK(file(archive, BYTES, 2, record) == SANDEGMUR_NOT_REFUSED);
        }
        CHECK(settle(archive, BYTES, 1, 1, (uint8_t *)amounts, sizeof amounts, result, SANDEGMUR_RESULT_BYTES)
              == SANDEGMUR_NOT_REFUSED);
        check_result(result, COUNT, 1750000000 - measured / 4, 5);
        CHECK(amounts[0] == 750000000 && amounts[1] == 1000000000 - measured / 4 && amounts[COUNT] == INT64_MIN);
        cents = FILL;
        remainder = FILL;
        CHECK(sandegmur_correction(amounts, COUNT, balanced, COUNT, prices, COUNT, &cents, &remainder) == number);
        if (number == SANDEGMUR_NOT_REFUSED) {
            /* 750,020,000 x 9,000 - (1,000,000,000 - measured / 4 - 1), in millionths. */
            CHECK(cents == 6749180 && remainder == (uint64_t)(1 + measured / 4));
        } else {
            CHECK(cents == FILL && remainder == FILL);
        }
    }
}

/* Bytes in a block of just their length, so that valgrind sees an access beside them; NULL for none. */
static uint8_t *block_of(const uint8_t *bytes, size_t length)
{
    uint8_t *block = length == 0 ? NULL : (uint8_t *)malloc(length);
    if (length != 0 && block == NULL)
        abort();
    if (bytes != NULL && length != 0)
        memcpy(block, bytes, length);
    return block;
}

/* Every call on blocks of the archive's bytes cut at any place, and on lists and results that nothing has written. */
static void test_blocks(void)
{
    uint8_t archive[ARCHIVE], added[SANDEGMUR_RECORD_BYTES] = { 5, 7, 43 }, seen[SANDEGMUR_RECORD_BYTES] = { 2 };
    file_case_a(archive);
    for (size_t length = 0; length <= ARCHIVE; length++) {
        uint8_t *cut = block_of(archive, length), *record = block_of(added, sizeof added), *point = block_of(seen, sizeof seen);
        uint8_t *list = block_of(NULL, 3 * SANDEGMUR_PLACE_BYTES), *result = block_of(NULL, SANDEGMUR_RESULT_BYTES);
        int whole = length == ARCHIVE || length == ARCHIVE - SANDEGMUR_RECORD_BYTES;
        uint32_t number = settle(cut, length, 1, 1, list, 3 * SANDEGMUR_PLACE_BYTES, result, SANDEGMUR_RESULT_BYTES);
        CHECK(number == (whole ? SANDEGMUR_NOT_REFUSED : SANDEGMUR_NOT_ARCHIVE));
        CHECK(sandegmur_audit(cut, length) == number);
        number = sandegmur_preview(cut, length, 1, point, sizeof seen, 1, 1, list, 3 * SANDEGMUR_PLACE_BYTES, result,
                                   SANDEGMUR_RESULT_BYTES);
        CHECK(number == (length == ARCHIVE ? SANDEGMUR_NOT_REFUSED : whole ? SANDEGMUR_ARCHIVE_FULL : SANDEGMUR_NOT_ARCHIVE));
        CHECK(length == 0 || memcmp(cut, archive, length) == 0);
        for (uint64_t shown = 0; shown < RECORDS; shown++)
            CHECK(sandegmur_show(cut, length, shown) == (whole && shown < 7 ? SANDEGMUR_RECORD_BYTES * shown : length));
        number = sandegmur_append(cut, length, 2, record, sizeof added);
        CHECK(number == (length == ARCHIVE ? SANDEGMUR_NOT_REFUSED : whole ? SANDEGMUR_ARCHIVE_FULL : SANDEGMUR_NOT_ARCHIVE));
        CHECK(sandegmur_take_back(cut, length) == (whole ? SANDEGMUR_NOT_REFUSED : SANDEGMUR_NOT_ARCHIVE));
        whole = length != 0 && length % SANDEGMUR_RECORD_BYTES == 0;
        CHECK(sandegmur_fresh(cut, length) == (whole ? SANDEGMUR_NOT_REFUSED : SANDEGMUR_NOT_ARCHIVE));
        free(cut);
        free(record);
        free(point);
        free(list);
        free(result);
    }
}

/* Lists of every length up to that of a month and a day that nothing has written, each in a block of its own. */
static void test_delivery_blocks(void)
{
    for (uint32_t count = 0; count <= 31; count++) {
        uint32_t *list = (uint32_t *)(void *)block_of(NULL, count * sizeof *list);
        uint64_t *day = (uint64_t *)(void *)block_of(NULL, sizeof *day);
        for (uint32_t i = 0; i < count; i++)
            list[i] = 9831 - i;
        CHECK(sandegmur_delivery_day(940896, list, count, day) == SANDEGMUR_NOT_REFUSED);
        /* Of November 2026 the days before the listed ones are left. */
        CHECK(*day == (count <= 25 ? 9806U : 0U));
        free(list);
        free(day);
    }
}

/* Each list in a block of just its places and each result in one that nothing has written, for any lengths up to 3, the most
 * places and one more; no number out of range, or the last price. */
static void test_correction_blocks(void)
{
    enum { SHORT = 4 * 4 * 4 };
    for (size_t i = 0; i <= MONTH; i++)
        put_quarter(i, any(ENERGY), any(ENERGY), any(PRICE));
    for (size_t i = 0; i < 2 * (SHORT + 2); i++) {
        size_t lengths = i / 2, many = MONTH + lengths - SHORT, counts[LISTS] = { many, many, many };
        if (lengths < SHORT) {
            counts[AMOUNTS] = lengths % 4;
            counts[BALANCED] = lengths / 4 % 4;
            counts[PRICES] = lengths / 16;
        }
        int64_t last = 0, *blocks[LISTS], *cents = (int64_t *)(void *)block_of(NULL, sizeof *cents);
        uint64_t *remainder = (uint64_t *)(void *)block_of(NULL, sizeof *remainder);
        if (i % 2 == 1 && counts[PRICES] != 0) {
            last = lists[PRICES][counts[PRICES] - 1];
            lists[PRICES][counts[PRICES] - 1] = INT64_MIN;
        }
        for (size_t j = 0; j < LISTS; j++)
            blocks[j] = (int64_t *)(void *)block_of((const uint8_t *)lists[j], counts[j] * sizeof lists[j][0]);
        struct answer own = own_correction(counts);
        CHECK(sandegmur_correction(blocks[AMOUNTS], counts[AMOUNTS], blocks[BALANCED], counts[BALANCED], blocks[PRICES],
                                   counts[PRICES], cents, remainder) == own.number);
        if (own.number == SANDEGMUR_NOT_REFUSED)
            CHECK(*cents == own.cents && *remainder == own.remainder);
        if (i % 2 == 1 && counts[PRICES] != 0)
            lists[PRICES][counts[PRICES] - 1] = last;
        for (size_t j = 0; j < LISTS; j++)
            free(blocks[j]);
        free(cents);
        free(remainder);
    }
}

/* Lists and results side by side in one array, in several orders: the call changes the results, or, if it is refused, nothing. */
static void test_correction_beside(void)
{
    enum { COUNT = 3, ALL = LISTS * COUNT + 2 };
    /* Where amounts, balanced energies, prices, cents and remainder begin. */
    static const size_t orders[][LISTS + 2] = {
        { 0, 3, 6, 9, 10 }, { 2, 5, 8, 0, 1 }, { 0, 4, 8, 3, 7 }, { 8, 5, 1, 0, 4 }, { 4, 1, 7, 10, 0 }, { 5, 0, 8, 4, 3 },
    };
    static const int64_t quarters[LISTS][COUNT] = { { -1, -1, -1 }, { 0, 0, 0 }, { 1, 1, 1 } };
    static const int64_t before[] = { 0, 1, -1, 999999, INT64_MIN, INT64_MAX };
    static const struct {
        size_t list; /* whose last number gets bad */
        uint32_t number;
    } cases[] = {
        { LISTS, SANDEGMUR_NOT_REFUSED },     { LISTS, SANDEGMUR_UNEQUAL_LISTS }, { AMOUNTS, SANDEGMUR_BAD_ENERGIES },
        { BALANCED, SANDEGMUR_BAD_ENERGIES }, { PRICES, SANDEGMUR_BAD_PRICE },
    };
    int64_t all[ALL], expected[ALL];
    for (size_t i = 0; i < sizeof orders / sizeof orders[0]; i++)
        for (size_t j = 0; j < sizeof before / sizeof before[0]; j++)
            for (size_t k = 0; k < sizeof cases / sizeof cases[0]; k++) {
                const size_t *at = orders[i];
                int64_t *cents = all + at[LISTS], *rest = all + at[LISTS + 1];
                for (size_t list = 0; list < LISTS; list++)
                    memcpy(all + at[list], quarters[list], sizeof quarters[list]);
                *cents = *rest = before[j];
                if (cases[k].list != LISTS)
                    all[at[cases[k].list] + COUNT - 1] = INT64_MIN;
                memcpy(expected, all, sizeof all);
                if (cases[k].number == SANDEGMUR_NOT_REFUSED) {
                    expected[at[LISTS]] = -1;
                    expected[at[LISTS + 1]] = 999997;
                }
                CHECK(sandegmur_correction(all + at[AMOUNTS], COUNT, all + at[BALANCED], COUNT, all + at[PRICES],
                                           cases[k].number == SANDEGMUR_UNEQUAL_LISTS ? COUNT - 1 : COUNT, cents, (uint64_t *)rest)
                      == cases[k].number);
                CHECK(memcmp(all, expected, sizeof all) == 0);
            }
}

/* Taken back, every byte is as before the record was filed, and so one after another down to the fresh archive, then 19. */
static void test_undone(void)
{
    /* From record 1 on; of each chain the first record and the next, so that every link names the last record once. */
    static const struct {
        uint8_t kind;
        uint32_t owner;
    } filed[] = {
        { SANDEGMUR_PLANT, 0 },   { SANDEGMUR_CURVE_POINT, 1 },    { SANDEGMUR_CURVE_POINT, 1 },    { SANDEGMUR_MEASURE, 1 },
        { SANDEGMUR_MEASURE, 1 }, { SANDEGMUR_BEFORE_QUARTER, 5 }, { SANDEGMUR_BEFORE_QUARTER, 5 }, { SANDEGMUR_QUARTER, 5 },
        { SANDEGMUR_QUARTER, 5 }, { SANDEGMUR_PLANT, 0 },
    };
    enum { FILED = sizeof filed / sizeof filed[0] };
    uint8_t archive[BACK_ARCHIVE], was[FILED][BACK_ARCHIVE], record[SANDEGMUR_RECORD_BYTES];
    CHECK(sandegmur_fresh(archive, BACK_ARCHIVE) == SANDEGMUR_NOT_REFUSED);
    for (uint32_t i = 0; i < FILED; i++) {
        int owns = filed[i].kind == SANDEGMUR_PLANT || filed[i].kind == SANDEGMUR_MEASURE;
        memcpy(was[i], archive, BACK_ARCHIVE);
        memset(record, FILL, sizeof record);
        record[SANDEGMUR_KIND_AT] = filed[i].kind;
        memset(record + SANDEGMUR_NEXT_AT, 0, owns ? 12 : 4);
        CHECK(file(archive, BACK_ARCHIVE, filed[i].owner, record) == SANDEGMUR_NOT_REFUSED);
        CHECK(sandegmur_take_back(archive, BACK_ARCHIVE) == SANDEGMUR_NOT_REFUSED);
        CHECK(memcmp(archive, was[i], BACK_ARCHIVE) == 0);
        CHECK(file(archive, BACK_ARCHIVE, filed[i].owner, record) == SANDEGMUR_NOT_REFUSED);
        CHECK(sandegmur_used(archive, BACK_ARCHIVE) == i + 2);
    }
    CHECK(sandegmur_audit(archive, BACK_ARCHIVE) == SANDEGMUR_NOT_REFUSED);
    for (size_t i = FILED; i > 0; i--) {
        CHECK(sandegmur_take_back(archive, BACK_ARCHIVE) == SANDEGMUR_NOT_REFUSED);
        CHECK(memcmp(archive, was[i - 1], BACK_ARCHIVE) == 0);
        CHECK(sandegmur_audit(archive, BACK_ARCHIVE) == SANDEGMUR_NOT_REFUSED);
    }
    CHECK(sandegmur_take_back(archive, BACK_ARCHIVE) == SANDEGMUR_LAST_NOT_NAMED_ONCE);
    CHECK(memcmp(archive, was[0], BACK_ARCHIVE) == 0);

    /* Of bytes that stood in the unused records, those in the place of the new one are lost. */
    memset(archive + SANDEGMUR_RECORD_BYTES, FILL, BACK_ARCHIVE - SANDEGMUR_RECORD_BYTES);
    memcpy(was[0], archive, BACK_ARCHIVE);
    memset(was[0] + SANDEGMUR_RECORD_BYTES, 0, SANDEGMUR_RECORD_BYTES);
    CHECK(file(archive, BACK_ARCHIVE, 0, record) == SANDEGMUR_NOT_REFUSED);
    CHECK(sandegmur_take_back(archive, BACK_ARCHIVE) == SANDEGMUR_NOT_REFUSED);
    CHECK(memcmp(archive, was[0], BACK_ARCHIVE) == 0);
}

/* The call on a copy of the archive between other bytes. Not refused, it zeros the last record and the link that starts at this
 * byte, and lowers U; every other byte stays. */
static void check_take_back(const uint8_t *archive, size_t length, uint32_t number, size_t link)
{
    enum { BESIDE = SANDEGMUR_RECORD_BYTES };
    uint8_t all[BESIDE + BACK_ARCHIVE + BESIDE], expected[sizeof all];
    if (length > BACK_ARCHIVE)
        abort();
    memset(all, FILL, sizeof all);
    memcpy(all + BESIDE, archive, length);
    memcpy(expected, all, sizeof all);
    if (number == SANDEGMUR_NOT_REFUSED) {
        uint32_t last = sandegmur_used(archive, length) - 1;
        memset(expected + BESIDE + SANDEGMUR_RECORD_BYTES * last, 0, SANDEGMUR_RECORD_BYTES);
        memset(expected + BESIDE + link, 0, 4);
        sandegmur_put32(expected + BESIDE + SANDEGMUR_HEAD_USED_AT, last);
    }
    CHECK(sandegmur_take_back(all + BESIDE, length) == number);
    CHECK(memcmp(all, expected, sizeof all) == 0);
}

/* The last record's number, and the kinds of the records between head and last: all that there are, and two unknown ones. */
enum { LAST = 8 };
static const uint8_t kinds_before[LAST] = { 0, 1, 2, 3, 4, 5, 6, 0 };

/* An archive of these records, the last one and unused ones that look like plants. No link names the last record. */
static void file_unnamed(uint8_t *archive, uint8_t kind_of_last)
{
    memset(archive, FILL, BACK_ARCHIVE);
    memcpy(archive + SANDEGMUR_HEAD_TEXT_AT, "AARB", 4);
    sandegmur_put32(archive + SANDEGMUR_HEAD_USED_AT, LAST + 1);
    for (size_t i = 1; i < LAST; i++)
        archive[SANDEGMUR_RECORD_BYTES * i + SANDEGMUR_KIND_AT] = kinds_before[i];
    archive[SANDEGMUR_RECORD_BYTES * LAST + SANDEGMUR_KIND_AT] = kind_of_last;
    for (size_t i = LAST + 1; i < BACK; i++)
        archive[SANDEGMUR_RECORD_BYTES * i + SANDEGMUR_KIND_AT] = SANDEGMUR_PLANT;
}

/* The last record's number in no place, in each one and in each two, those of the last record itself and of an unused one among
 * them: taken back if precisely one place is a link, whatever the last record's kind. */
static void test_named(void)
{
    /* Whether bytes 4-7, 8-11, 12-15 and 16-19 are a link: in the head, kinds 1 to 5, and the two unknown kinds. */
    static const int links[LAST][4] = {
        { 0, 1, 0, 0 }, { 1, 1, 1, 0 }, { 1, 0, 0, 0 }, { 1, 1, 1, 0 },
        { 1, 0, 0, 0 }, { 1, 0, 0, 0 }, { 0, 0, 0, 0 }, { 0, 0, 0, 0 },
    };
    enum { PLACES = 4 * (LAST + 2) };
    uint8_t archive[BACK_ARCHIVE];
    for (size_t like = 1; like < LAST; like++) { /* the record whose kind the last one has */
        size_t at[PLACES];
        int link[PLACES];
        for (size_t i = 0; i < PLACES; i++) {
            size_t number = i / 4;
            at[i] = SANDEGMUR_RECORD_BYTES * number + 4 + 4 * (i % 4);
            link[i] = number <= LAST && links[number < LAST ? number : like][i % 4];
        }
        file_unnamed(archive, kinds_before[like]);
        check_take_back(archive, BACK_ARCHIVE, SANDEGMUR_LAST_NOT_NAMED_ONCE, 0);
        /* In the first place, 0, is U. */
        for (size_t i = 1; i < PLACES; i++)
            for (size_t j = i; j < PLACES; j++) {
                int once = i == j ? link[i] : link[i] != link[j];
                file_unnamed(archive, kinds_before[like]);
                sandegmur_put32(archive + at[i], LAST);
                sandegmur_put32(archive + at[j], LAST);
                check_take_back(archive, BACK_ARCHIVE, once ? SANDEGMUR_NOT_REFUSED : SANDEGMUR_LAST_NOT_NAMED_ONCE,
                                link[i] ? at[i] : at[j]);
            }
    }
}

/* A link with another number: 19. A text, U or length that no archive has: 1, whether the last record is named or not. */
static void test_not_taken_back(void)
{
    static const uint32_t others[] = { 0, 1, LAST - 1, LAST + 1, LAST + 0x10000, LAST + 0x80000000, (uint32_t)LAST << 24 };
    static const uint32_t used[] = { 0, BACK + 1, 0x10000 + LAST + 1, 0x80000000, UINT32_MAX };
    static const size_t lengths[] = { 0, 1, 31, 33, LAST * SANDEGMUR_RECORD_BYTES, BACK_ARCHIVE - 1 };
    uint8_t archive[BACK_ARCHIVE];
    file_unnamed(archive, SANDEGMUR_QUARTER);
    for (size_t i = 0; i < sizeof others / sizeof others[0]; i++) {
        sandegmur_put32(archive + SANDEGMUR_HEAD_FIRST_PLANT_AT, others[i]);
        check_take_back(archive, BACK_ARCHIVE, SANDEGMUR_LAST_NOT_NAMED_ONCE, 0);
    }
    for (uint32_t named = 0; named <= LAST; named += LAST) {
        sandegmur_put32(archive + SANDEGMUR_HEAD_FIRST_PLANT_AT, named);
        for (size_t i = 0; i < 4; i++) {
            archive[SANDEGMUR_HEAD_TEXT_AT + i] ^= 0x20;
            check_take_back(archive, BACK_ARCHIVE, SANDEGMUR_NOT_ARCHIVE, 0);
            archive[SANDEGMUR_HEAD_TEXT_AT + i] ^= 0x20;
        }
        for (size_t i = 0; i < sizeof used / sizeof used[0]; i++) {
            sandegmur_put32(archive + SANDEGMUR_HEAD_USED_AT, used[i]);
            check_take_back(archive, BACK_ARCHIVE, SANDEGMUR_NOT_ARCHIVE, 0);
        }
        sandegmur_put32(archive + SANDEGMUR_HEAD_USED_AT, LAST + 1);
        for (size_t i = 0; i < sizeof lengths / sizeof lengths[0]; i++)
            check_take_back(archive, lengths[i], SANDEGMUR_NOT_ARCHIVE, 0);
    }
    /* An archive again, also if it ends with the last record. */
    check_take_back(archive, BACK_ARCHIVE, SANDEGMUR_NOT_REFUSED, SANDEGMUR_HEAD_FIRST_PLANT_AT);
    check_take_back(archive, (LAST + 1) * SANDEGMUR_RECORD_BYTES, SANDEGMUR_NOT_REFUSED, SANDEGMUR_HEAD_FIRST_PLANT_AT);

    /* The head can't be taken back, not even where its link is 0, its own number. */
    sandegmur_put32(archive + SANDEGMUR_HEAD_USED_AT, 1);
    for (uint32_t named = 0; named <= 1; named++) {
        sandegmur_put32(archive + SANDEGMUR_HEAD_FIRST_PLANT_AT, named);
        check_take_back(archive, BACK_ARCHIVE, SANDEGMUR_LAST_NOT_NAMED_ONCE, 0);
        check_take_back(archive, SANDEGMUR_RECORD_BYTES, SANDEGMUR_LAST_NOT_NAMED_ONCE, 0);
    }
}

/* The last of as many records as there may be: 19 if the head names it too; else taken back and filed again, twice. */
static void test_most_taken_back(void)
{
    size_t last = SANDEGMUR_MOST_BYTES - SANDEGMUR_RECORD_BYTES, before = last - SANDEGMUR_RECORD_BYTES;
    uint8_t record[SANDEGMUR_RECORD_BYTES], *archive = block_of(NULL, SANDEGMUR_MOST_BYTES), *was;
    CHECK(sandegmur_fresh(archive, SANDEGMUR_MOST_BYTES) == SANDEGMUR_NOT_REFUSED);
    sandegmur_plant(record, SANDEGMUR_OTHER, SANDEGMUR_PAUSCHAL, 1000000);
    CHECK(file(archive, SANDEGMUR_MOST_BYTES, 0, record) == SANDEGMUR_NOT_REFUSED);
    sandegmur_measure(record, SANDEGMUR_NEGATIVE, SANDEGMUR_TOLERATED);
    CHECK(file(archive, SANDEGMUR_MOST_BYTES, 1, record) == SANDEGMUR_NOT_REFUSED);
    sandegmur_put32(archive + 2 * SANDEGMUR_RECORD_BYTES + SANDEGMUR_MEASURE_FIRST_QUARTER_AT, 3);
    sandegmur_quarter(record, 7, 40, 400000, 0, 0, 0);
    for (uint32_t number = 3; number < SANDEGMUR_MOST_RECORDS; number++) {
        uint8_t *at = archive + SANDEGMUR_RECORD_BYTES * number;
        memcpy(at, record, SANDEGMUR_RECORD_BYTES);
        sandegmur_put32(at + SANDEGMUR_NEXT_AT, number + 1 < SANDEGMUR_MOST_RECORDS ? number + 1 : 0);
    }
    sandegmur_put32(archive + SANDEGMUR_HEAD_USED_AT, SANDEGMUR_MOST_RECORDS);
    CHECK(sandegmur_audit(archive, SANDEGMUR_MOST_BYTES) == SANDEGMUR_NOT_REFUSED);

    sandegmur_put32(archive + SANDEGMUR_HEAD_FIRST_PLANT_AT, SANDEGMUR_MOST_RECORDS - 1);
    was = block_of(archive, SANDEGMUR_MOST_BYTES);
    CHECK(sandegmur_take_back(archive, SANDEGMUR_MOST_BYTES) == SANDEGMUR_LAST_NOT_NAMED_ONCE);
    CHECK(memcmp(archive, was, SANDEGMUR_MOST_BYTES) == 0);

    sandegmur_put32(archive + SANDEGMUR_HEAD_FIRST_PLANT_AT, 1);
    sandegmur_put32(was + SANDEGMUR_HEAD_FIRST_PLANT_AT, 1);
    memset(was + last, 0, SANDEGMUR_RECORD_BYTES);
    sandegmur_put32(was + before + SANDEGMUR_NEXT_AT, 0);
    sandegmur_put32(was + SANDEGMUR_HEAD_USED_AT, SANDEGMUR_MOST_RECORDS - 1);
    for (int i = 0; i < 2; i++) {
        CHECK(sandegmur_take_back(archive, SANDEGMUR_MOST_BYTES) == SANDEGMUR_NOT_REFUSED);
        CHECK(memcmp(archive, was, SANDEGMUR_MOST_BYTES) == 0);
        CHECK(file(archive, SANDEGMUR_MOST_BYTES, 2, record) == SANDEGMUR_NOT_REFUSED);
        CHECK(file(archive, SANDEGMUR_MOST_BYTES, 2, record) == SANDEGMUR_ARCHIVE_FULL);
    }
    free(archive);
    free(was);
}

struct preview {
    uint32_t number;
    int64_t count, total, links; /* 0 if it is refused */
};

/* The preview beside what append and settle give one after the other on a copy. Archive, record, list and result are side by side
 * in one array, in two orders and among other bytes: called twice, it changes list and result as settle does, or, if append or
 * settle is refused, nothing. Afterwards append files the record as on the copy. */
static struct preview check_preview(const uint8_t *archive, size_t length, uint64_t owner, const uint8_t *record,
                                    size_t record_length, uint64_t p, uint64_t k, size_t list_length, size_t result_length)
{
    enum { BESIDE = SANDEGMUR_RECORD_BYTES };
    const size_t whole = BESIDE + length + record_length + list_length + result_length + BESIDE;
    struct preview found = { 0, 0, 0, 0 };
    for (int order = 0; order < 2; order++) {
        /* The archive first or last, and the others in turn. */
        size_t archive_at = BESIDE, record_at = BESIDE + length, list_at = record_at + record_length;
        size_t result_at = list_at + list_length;
        if (order == 1) {
            result_at = BESIDE;
            list_at = result_at + result_length;
            record_at = list_at + list_length;
            archive_at = record_at + record_length;
        }
        uint8_t *all = block_of(NULL, whole);
        memset(all, 0xff * order ^ FILL, whole);
        memcpy(all + archive_at, archive, length);
        memcpy(all + record_at, record, record_length);
        uint8_t *filed = block_of(all, whole), *expected = block_of(all, whole);
        uint32_t appended = sandegmur_append(filed + archive_at, length, owner, record, record_length);
        found.number = appended;
        if (appended == SANDEGMUR_NOT_REFUSED)
            found.number = sandegmur_settle(filed + archive_at, length, p, k, expected + list_at, list_length,
                                            expected + result_at, result_length);
        for (int i = 0; i < 2; i++) {
            CHECK(sandegmur_preview(all + archive_at, length, owner, all + record_at, record_length, p, k, all + list_at,
                                    list_length, all + result_at, result_length) == found.number);
            CHECK(memcmp(all + archive_at, archive, length) == 0);
            CHECK(memcmp(all, expected, whole) == 0);
        }
        if (found.number == SANDEGMUR_NOT_REFUSED) {
            found.count = sandegmur_amount(all + result_at + SANDEGMUR_RESULT_COUNT_AT);
            found.total = sandegmur_amount(all + result_at + SANDEGMUR_RESULT_TOTAL_AT);
            found.links = sandegmur_amount(all + result_at + SANDEGMUR_RESULT_LINKS_AT);
        }
        CHECK(sandegmur_append(all + archive_at, length, owner, record, record_length) == appended);
        CHECK(memcmp(all + archive_at, filed + archive_at, length) == 0);
        free(all);
        free(filed);
        free(expected);
    }
    return found;
}

/* With room for every amount: this number, or this result. */
static void expect_preview(const uint8_t *archive, size_t length, uint64_t owner, const uint8_t *record, uint64_t p, uint64_t k,
                           uint32_t number, int64_t count, int64_t total, int64_t links)
{
    struct preview found =
        check_preview(archive, length, owner, record, SANDEGMUR_RECORD_BYTES, p, k, LIST, SANDEGMUR_RESULT_BYTES);
    CHECK(found.number == number);
    CHECK(found.count == count && found.total == total && found.links == links);
}

static void expect_refused(const uint8_t *archive, size_t length, uint64_t owner, const uint8_t *record, uint64_t p, uint64_t k,
                           uint32_t number)
{
    expect_preview(archive, length, owner, record, p, k, number, 0, 0, 0);
}

/* Case a with its third quarter previewed, for every list length and every result length: 13 also for a list that has room for
 * the filed quarters alone. Bytes stand in the unused records. */
static void test_previewed(void)
{
    static const int32_t measured[] = { 500001, 500001 };
    uint8_t archive[ARCHIVE], was[ARCHIVE], list[LIST], result[RESULT], record[SANDEGMUR_RECORD_BYTES];
    file_measure(archive, SANDEGMUR_NEGATIVE, 800000, measured, 2);
    memset(archive + 6 * SANDEGMUR_RECORD_BYTES, FILL, ARCHIVE - 6 * SANDEGMUR_RECORD_BYTES);
    memcpy(was, archive, ARCHIVE);
    sandegmur_quarter(record, 7, 42, 500002, 0, 0, 0);
    for (size_t i = 0; i <= LIST + RESULT + 1; i++) {
        size_t list_length = i, result_length = SANDEGMUR_RESULT_BYTES;
        if (i > LIST) {
            list_length = LIST;
            result_length = i - LIST - 1;
        }
        int room = list_length >= 3 * SANDEGMUR_PLACE_BYTES && result_length == SANDEGMUR_RESULT_BYTES;
        memset(list, FILL, LIST);
        memset(result, FILL, RESULT);
        uint32_t number = sandegmur_preview(archive, ARCHIVE, 2, record, sizeof record, 1, 1, list, list_length, result,
                                            result_length);
        CHECK(number == (room ? SANDEGMUR_NOT_REFUSED : SANDEGMUR_NO_ROOM));
        check_case_a(number, list, result);
        CHECK(memcmp(archive, was, ARCHIVE) == 0);
        check_preview(archive, ARCHIVE, 2, record, sizeof record, 1, 1, list_length, result_length);
        /* The archive has nothing of it. */
        CHECK(settle(archive, ARCHIVE, 1, 1, list, LIST, result, SANDEGMUR_RESULT_BYTES) == SANDEGMUR_NOT_REFUSED);
        check_result(result, 2, 149999, 5);
    }
    expect_preview(archive, ARCHIVE, 2, record, 1, 1, SANDEGMUR_NOT_REFUSED, 3, 224999, 6);
    /* Filed, it settles as previewed. */
    memset(list, FILL, LIST);
    memset(result, FILL, RESULT);
    CHECK(file(archive, ARCHIVE, 2, record) == SANDEGMUR_NOT_REFUSED);
    check_case_a(settle(archive, ARCHIVE, 1, 1, list, LIST, result, SANDEGMUR_RESULT_BYTES), list, result);
}

/* A new record of a kind, one that fits the archives below. */
static void record_of(uint8_t *record, uint8_t kind)
{
    if (kind == SANDEGMUR_PLANT)
        sandegmur_plant(record, SANDEGMUR_OTHER, SANDEGMUR_PAUSCHAL, 1000000);
    else if (kind == SANDEGMUR_CURVE_POINT)
        sandegmur_curve_point(record, 30, 100001);
    else if (kind == SANDEGMUR_MEASURE)
        sandegmur_measure(record, SANDEGMUR_NEGATIVE, SANDEGMUR_TOLERATED);
    else if (kind == SANDEGMUR_BEFORE_QUARTER)
        sandegmur_before_quarter(record, SANDEGMUR_MARKED, 700000, 0);
    else if (kind == SANDEGMUR_QUARTER)
        sandegmur_quarter(record, 7, 42, 500002, 0, 0, 900000);
    else
        sandegmur_record(record, kind);
}

/* Other Pauschal, plant 1, with measures 2 and 3; other Spitz, plant 9, with measure 10, which has no quarter. Bytes stand in the
 * rest of the head and in the unused records. Way 0 leaves it at that, each other way makes the archive unsound. */
static void file_seen(uint8_t *archive, int way)
{
    static const struct {
        uint8_t kind;
        uint32_t owner;
        int32_t measured;
    } filed[] = {
        { SANDEGMUR_PLANT, 0, 0 },          { SANDEGMUR_MEASURE, 1, 0 },
        { SANDEGMUR_MEASURE, 1, 0 },        { SANDEGMUR_BEFORE_QUARTER, 2, 800000 },
        { SANDEGMUR_QUARTER, 2, 500001 },   { SANDEGMUR_QUARTER, 2, 500001 },
        { SANDEGMUR_BEFORE_QUARTER, 3, 600000 }, { SANDEGMUR_QUARTER, 3, 300002 },
        { SANDEGMUR_PLANT, 0, 0 },          { SANDEGMUR_MEASURE, 9, 0 },
    };
    enum { HEAD_READ = 12 };
    uint8_t record[SANDEGMUR_RECORD_BYTES];
    CHECK(sandegmur_fresh(archive, SEEN_ARCHIVE) == SANDEGMUR_NOT_REFUSED);
    memset(archive + HEAD_READ, FILL, SEEN_ARCHIVE - HEAD_READ);
    for (size_t i = 0; i < sizeof filed / sizeof filed[0]; i++) {
        record_of(record, filed[i].kind);
        if (filed[i].kind >= SANDEGMUR_BEFORE_QUARTER)
            sandegmur_put32(record + SANDEGMUR_QUARTER_MEASURED_AT, (uint32_t)filed[i].measured);
        if (i + 1 == 9)
            record[SANDEGMUR_PLANT_VARIANT_AT] = SANDEGMUR_SPITZ;
        CHECK(file(archive, SEEN_ARCHIVE, filed[i].owner, record) == SANDEGMUR_NOT_REFUSED);
    }
    CHECK(sandegmur_used(archive, SEEN_ARCHIVE) == UNUSED);
    CHECK(sandegmur_audit(archive, SEEN_ARCHIVE) == SANDEGMUR_NOT_REFUSED);

    switch (way) {
    case 1: /* The last quarter of measure 2 names the first unused record. */
        sandegmur_put32(archive + 6 * SANDEGMUR_RECORD_BYTES + SANDEGMUR_NEXT_AT, UNUSED);
        break;
    case 2: /* The curve of plant 9 does. */
        sandegmur_put32(archive + 9 * SANDEGMUR_RECORD_BYTES + SANDEGMUR_PLANT_FIRST_CURVE_POINT_AT, UNUSED);
        break;
    case 3: /* A record of unknown kind is on no chain. */
        sandegmur_put32(archive + SANDEGMUR_HEAD_USED_AT, UNUSED + 1);
        break;
    case 4: /* Both measures of plant 1 share their quarters. */
        sandegmur_put32(archive + 3 * SANDEGMUR_RECORD_BYTES + SANDEGMUR_MEASURE_FIRST_QUARTER_AT, 5);
        break;
    case 5: /* Measure 3 is on no chain. */
        sandegmur_put32(archive + 2 * SANDEGMUR_RECORD_BYTES + SANDEGMUR_NEXT_AT, 0);
        break;
    case 6: /* The last quarter of measure 2 names itself. */
        sandegmur_put32(archive + 6 * SANDEGMUR_RECORD_BYTES + SANDEGMUR_NEXT_AT, 6);
        break;
    case 7: /* It names a before-quarter. */
        sandegmur_put32(archive + 6 * SANDEGMUR_RECORD_BYTES + SANDEGMUR_NEXT_AT, 7);
        break;
    default:
        return;
    }
    CHECK(sandegmur_audit(archive, SEEN_ARCHIVE) != SANDEGMUR_NOT_REFUSED);
}

/* Each kind of record, for its own measure and for others. */
static void test_previewed_kinds(void)
{
    uint8_t archive[SEEN_ARCHIVE], list[LIST], result[RESULT], record[SANDEGMUR_RECORD_BYTES];
    file_seen(archive, 0);
    for (uint64_t k = 1; k <= 3; k++)
        CHECK(settle(archive, SEEN_ARCHIVE, 1, k, list, LIST, result, SANDEGMUR_RESULT_BYTES)
              == (k <= 2 ? SANDEGMUR_NOT_REFUSED : SANDEGMUR_NO_MEASURE));
    CHECK(settle(archive, SEEN_ARCHIVE, 2, 1, list, LIST, result, SANDEGMUR_RESULT_BYTES) == SANDEGMUR_BAD_COUNT);
    CHECK(settle(archive, SEEN_ARCHIVE, 3, 1, list, LIST, result, SANDEGMUR_RESULT_BYTES) == SANDEGMUR_NO_PLANT);

    /* A plant: it has no measure. */
    record_of(record, SANDEGMUR_PLANT);
    expect_preview(archive, SEEN_ARCHIVE, 0, record, 1, 1, SANDEGMUR_NOT_REFUSED, 2, 149999, 5);
    expect_preview(archive, SEEN_ARCHIVE, 0, record, 1, 2, SANDEGMUR_NOT_REFUSED, 1, 74999, 5);
    expect_refused(archive, SEEN_ARCHIVE, 0, record, 2, 1, SANDEGMUR_BAD_COUNT);
    expect_refused(archive, SEEN_ARCHIVE, 0, record, 3, 1, SANDEGMUR_NO_MEASURE);
    expect_refused(archive, SEEN_ARCHIVE, 0, record, 4, 1, SANDEGMUR_NO_PLANT);

    /* A measure: it has no quarter, but in other Pauschal the before-quarter is missed first. */
    record_of(record, SANDEGMUR_MEASURE);
    expect_preview(archive, SEEN_ARCHIVE, 1, record, 1, 1, SANDEGMUR_NOT_REFUSED, 2, 149999, 5);
    expect_refused(archive, SEEN_ARCHIVE, 1, record, 1, 3, SANDEGMUR_TOO_FEW_USABLE);
    expect_refused(archive, SEEN_ARCHIVE, 1, record, 2, 2, SANDEGMUR_NO_MEASURE);
    expect_refused(archive, SEEN_ARCHIVE, 9, record, 2, 2, SANDEGMUR_BAD_COUNT);
    expect_refused(archive, SEEN_ARCHIVE, 9, record, 1, 3, SANDEGMUR_NO_MEASURE);
    record[SANDEGMUR_MEASURE_DIRECTION_AT] = 3;
    expect_refused(archive, SEEN_ARCHIVE, 9, record, 2, 2, SANDEGMUR_BAD_MEASURE);

    /* A curve point: the rule doesn't need it. */
    record_of(record, SANDEGMUR_CURVE_POINT);
    expect_preview(archive, SEEN_ARCHIVE, 1, record, 1, 1, SANDEGMUR_NOT_REFUSED, 2, 149999, 5);

    /* A before-quarter: one link more, but the first marked one stays the reference. */
    record_of(record, SANDEGMUR_BEFORE_QUARTER);
    expect_preview(archive, SEEN_ARCHIVE, 2, record, 1, 1, SANDEGMUR_NOT_REFUSED, 2, 149999, 6);
    expect_preview(archive, SEEN_ARCHIVE, 2, record, 1, 2, SANDEGMUR_NOT_REFUSED, 1, 74999, 5);
    expect_preview(archive, SEEN_ARCHIVE, 3, record, 1, 1, SANDEGMUR_NOT_REFUSED, 2, 149999, 5);
    expect_preview(archive, SEEN_ARCHIVE, 3, record, 1, 2, SANDEGMUR_NOT_REFUSED, 1, 74999, 6);
    record[SANDEGMUR_BEFORE_QUARTER_MARK_AT] = 2;
    expect_refused(archive, SEEN_ARCHIVE, 2, record, 1, 1, SANDEGMUR_OUT_OF_RANGE);
    /* It is the reference if the filed one isn't marked. */
    record[SANDEGMUR_BEFORE_QUARTER_MARK_AT] = SANDEGMUR_MARKED;
    archive[4 * SANDEGMUR_RECORD_BYTES + SANDEGMUR_BEFORE_QUARTER_MARK_AT] = SANDEGMUR_NOT_MARKED;
    CHECK(settle(archive, SEEN_ARCHIVE, 1, 1, list, LIST, result, SANDEGMUR_RESULT_BYTES) == SANDEGMUR_TOO_FEW_USABLE);
    expect_preview(archive, SEEN_ARCHIVE, 2, record, 1, 1, SANDEGMUR_NOT_REFUSED, 2, 99999, 6);
    expect_refused(archive, SEEN_ARCHIVE, 3, record, 1, 1, SANDEGMUR_TOO_FEW_USABLE);
    archive[4 * SANDEGMUR_RECORD_BYTES + SANDEGMUR_BEFORE_QUARTER_MARK_AT] = SANDEGMUR_MARKED;

    /* A quarter: the first of measure 10 too. */
    record_of(record, SANDEGMUR_QUARTER);
    expect_preview(archive, SEEN_ARCHIVE, 2, record, 1, 1, SANDEGMUR_NOT_REFUSED, 3, 224999, 6);
    expect_preview(archive, SEEN_ARCHIVE, 2, record, 1, 2, SANDEGMUR_NOT_REFUSED, 1, 74999, 5);
    expect_preview(archive, SEEN_ARCHIVE, 3, record, 1, 1, SANDEGMUR_NOT_REFUSED, 2, 149999, 5);
    expect_preview(archive, SEEN_ARCHIVE, 3, record, 1, 2, SANDEGMUR_NOT_REFUSED, 2, 99999, 6);
    expect_preview(archive, SEEN_ARCHIVE, 10, record, 2, 1, SANDEGMUR_NOT_REFUSED, 1, 99999, 4);
    expect_refused(archive, SEEN_ARCHIVE, 3, record, 2, 1, SANDEGMUR_BAD_COUNT);
    sandegmur_put32(record + SANDEGMUR_QUARTER_MEASURED_AT, 1000000001);
    expect_refused(archive, SEEN_ARCHIVE, 2, record, 1, 1, SANDEGMUR_OUT_OF_RANGE);
    expect_preview(archive, SEEN_ARCHIVE, 2, record, 1, 2, SANDEGMUR_NOT_REFUSED, 1, 74999, 5);

    /* Places and owners of more than 32 bits. */
    record_of(record, SANDEGMUR_QUARTER);
    expect_refused(archive, SEEN_ARCHIVE, 0x100000002, record, 1, 1, SANDEGMUR_BAD_OWNER);
    expect_refused(archive, SEEN_ARCHIVE, 2, record, 0x100000001, 1, SANDEGMUR_NO_PLANT);
    expect_refused(archive, SEEN_ARCHIVE, 2, record, 1, 0x100000001, SANDEGMUR_NO_MEASURE);
}

/* Wind Spitz, case b: its second curve point or its fourth before-quarter previewed. */
static void test_previewed_wind(void)
{
    enum { BYTES = 11 * SANDEGMUR_RECORD_BYTES };
    for (int points = 1; points <= 2; points++) {
        int befores = 5 - points;
        uint8_t archive[BYTES], list[LIST], result[RESULT], record[SANDEGMUR_RECORD_BYTES], point[SANDEGMUR_RECORD_BYTES];
        uint8_t before[SANDEGMUR_RECORD_BYTES];
        CHECK(sandegmur_fresh(archive, BYTES) == SANDEGMUR_NOT_REFUSED);
        sandegmur_plant(record, SANDEGMUR_WIND, SANDEGMUR_SPITZ, 2000000);
        CHECK(file(archive, BYTES, 0, record) == SANDEGMUR_NOT_REFUSED);
        sandegmur_measure(record, SANDEGMUR_NEGATIVE, SANDEGMUR_TOLERATED);
        CHECK(file(archive, BYTES, 1, record) == SANDEGMUR_NOT_REFUSED);
        sandegmur_curve_point(point, 0, 0);
        CHECK(file(archive, BYTES, 1, point) == SANDEGMUR_NOT_REFUSED);
        sandegmur_curve_point(point, 200, 2000000);
        if (points == 2)
            CHECK(file(archive, BYTES, 1, point) == SANDEGMUR_NOT_REFUSED);
        sandegmur_before_quarter(before, SANDEGMUR_MARKED, 900000, 100);
        for (int i = 0; i < befores; i++)
            CHECK(file(archive, BYTES, 2, before) == SANDEGMUR_NOT_REFUSED);
        sandegmur_quarter(record, 0, 0, 350000, 0, 150, 0);
        CHECK(file(archive, BYTES, 2, record) == SANDEGMUR_NOT_REFUSED);
        CHECK(settle(archive, BYTES, 1, 1, list, LIST, result, SANDEGMUR_RESULT_BYTES)
              == (points == 1 ? SANDEGMUR_BAD_CURVE : SANDEGMUR_TOO_FEW_USABLE));
        if (points == 1) {
            expect_preview(archive, BYTES, 1, point, 1, 1, SANDEGMUR_NOT_REFUSED, 1, 250000, 9);
            expect_refused(archive, BYTES, 2, before, 1, 1, SANDEGMUR_BAD_CURVE);
        } else {
            expect_preview(archive, BYTES, 2, before, 1, 1, SANDEGMUR_NOT_REFUSED, 1, 250000, 9);
            expect_refused(archive, BYTES, 1, point, 1, 1, SANDEGMUR_BAD_CURVE);
        }
        expect_refused(archive, BYTES, 2, record, 1, 1, points == 1 ? SANDEGMUR_BAD_CURVE : SANDEGMUR_TOO_FEW_USABLE);
    }
}

/* A dated measure whose previewed quarter is past the last of the calendar: 18, before 13 and after 9. The readings of October
 * 2026 count in the previewed quarter too. */
static void test_preview_late(void)
{
    static const int32_t measured[] = { 500001, 500001 };
    uint8_t archive[ARCHIVE], record[SANDEGMUR_RECORD_BYTES];
    file_measure(archive, SANDEGMUR_NEGATIVE, 800000, measured, 2);
    uint8_t *date = archive + sandegmur_show(archive, ARCHIVE, 2) + SANDEGMUR_MEASURE_DATE_AT;
    sandegmur_quarter(record, 0, 0, 500002, 0, 0, 0);
    sandegmur_put32(date, SANDEGMUR_LAST_QUARTER - 2);
    expect_preview(archive, ARCHIVE, 2, record, 1, 1, SANDEGMUR_NOT_REFUSED, 3, 224999, 6);
    CHECK(check_preview(archive, ARCHIVE, 2, record, sizeof record, 1, 1, 0, 0).number == SANDEGMUR_NO_ROOM);
    sandegmur_quarter_readings(record, 600002, 0);
    expect_preview(archive, ARCHIVE, 2, record, 1, 1, SANDEGMUR_NOT_REFUSED, 3, 174999, 6);
    sandegmur_put32(date, SANDEGMUR_LAST_QUARTER - 1);
    expect_refused(archive, ARCHIVE, 2, record, 1, 1, SANDEGMUR_NOT_IN_CALENDAR);
    CHECK(check_preview(archive, ARCHIVE, 2, record, sizeof record, 1, 1, 0, 0).number == SANDEGMUR_NOT_IN_CALENDAR);
    sandegmur_quarter_readings(record, 1000000001, 0);
    expect_refused(archive, ARCHIVE, 2, record, 1, 1, SANDEGMUR_OUT_OF_RANGE);
    CHECK(check_preview(archive, ARCHIVE, 2, record, sizeof record, 1, 1, 0, 0).number == SANDEGMUR_OUT_OF_RANGE);
}

/* A refusal of append, whether or not the archive is full, and whether or not settle has one too. */
static void check_append_first(const uint8_t *archive, size_t cut, uint64_t owner, const uint8_t *record, size_t record_length,
                               uint32_t number)
{
    static const size_t lengths[] = { UNUSED * SANDEGMUR_RECORD_BYTES, SEEN_ARCHIVE };
    for (size_t i = 0; i < 2; i++) {
        size_t length = lengths[i] - cut;
        if (number == SANDEGMUR_ARCHIVE_FULL && i == 1)
            continue;
        CHECK(check_preview(archive, length, owner, record, record_length, 1, 1, LIST, SANDEGMUR_RESULT_BYTES).number == number);
        CHECK(check_preview(archive, length, owner, record, record_length, 1, 2, LIST, SANDEGMUR_RESULT_BYTES).number == number);
        CHECK(check_preview(archive, length, owner, record, record_length, 1, 1, 0, SANDEGMUR_RESULT_BYTES).number == number);
        CHECK(check_preview(archive, length, owner, record, record_length, 1, 1, LIST, 0).number == number);
        CHECK(check_preview(archive, length, owner, record, record_length, 0, 1, LIST, RESULT).number == number);
        CHECK(check_preview(archive, length, owner, record, record_length, 1, 0, 0, 0).number == number);
        CHECK(check_preview(archive, length, owner, record, record_length, 2, 1, LIST, SANDEGMUR_RESULT_BYTES).number == number);
        CHECK(check_preview(archive, length, owner, record, record_length, UINT64_MAX, UINT64_MAX, 0, 0).number == number);
    }
}

/* Append's refusals in their order, before settle's. */
static void test_preview_order(void)
{
    static const uint32_t used[] = { 0, SEEN + 1, 0x10000 + UNUSED, UINT32_MAX };
    static const uint64_t unused[] = { UNUSED, SEEN, 0x100000000, 0x100000002, UINT64_MAX }, owners[] = { 0, 0, 1, 1, 2, 2 };
    uint8_t archive[SEEN_ARCHIVE], record[SANDEGMUR_RECORD_BYTES + 1] = { 0 };
    file_seen(archive, 0);

    /* 1: length, text and U, also beside a record that is 14 and an owner that is 15. */
    for (int bad = 0; bad < 2; bad++) {
        size_t record_length = bad ? 0 : SANDEGMUR_RECORD_BYTES;
        uint64_t owner = bad ? UINT64_MAX : 2;
        record_of(record, SANDEGMUR_QUARTER);
        for (size_t cut = 1; cut < SANDEGMUR_RECORD_BYTES; cut++)
            check_append_first(archive, cut, owner, record, record_length, SANDEGMUR_NOT_ARCHIVE);
        for (size_t i = 0; i < 4; i++) {
            archive[SANDEGMUR_HEAD_TEXT_AT + i] ^= 0x20;
            check_append_first(archive, 0, owner, record, record_length, SANDEGMUR_NOT_ARCHIVE);
            archive[SANDEGMUR_HEAD_TEXT_AT + i] ^= 0x20;
        }
        for (size_t i = 0; i < sizeof used / sizeof used[0]; i++) {
            sandegmur_put32(archive + SANDEGMUR_HEAD_USED_AT, used[i]);
            check_append_first(archive, 0, owner, record, record_length, SANDEGMUR_NOT_ARCHIVE);
        }
        sandegmur_put32(archive + SANDEGMUR_HEAD_USED_AT, UNUSED);
    }

    /* 14: length, kind and links, also beside an owner that is 15. */
    for (int bad = 0; bad < 2; bad++) {
        uint64_t owner = bad ? UINT64_MAX : 2;
        for (size_t length = 0; length <= sizeof record; length++)
            if (length != SANDEGMUR_RECORD_BYTES)
                check_append_first(archive, 0, owner, record, length, SANDEGMUR_BAD_RECORD);
        record[SANDEGMUR_KIND_AT] = 0;
        check_append_first(archive, 0, owner, record, SANDEGMUR_RECORD_BYTES, SANDEGMUR_BAD_RECORD);
        record[SANDEGMUR_KIND_AT] = SANDEGMUR_QUARTER + 1;
        check_append_first(archive, 0, owner, record, SANDEGMUR_RECORD_BYTES, SANDEGMUR_BAD_RECORD);
        for (uint8_t kind = SANDEGMUR_PLANT; kind <= SANDEGMUR_QUARTER; kind++)
            for (size_t i = SANDEGMUR_NEXT_AT; i < (kind == SANDEGMUR_PLANT || kind == SANDEGMUR_MEASURE ? 16 : 8); i++) {
                record_of(record, kind);
                record[i] = 1;
                check_append_first(archive, 0, bad ? owner : owners[kind], record, SANDEGMUR_RECORD_BYTES, SANDEGMUR_BAD_RECORD);
            }
        record_of(record, SANDEGMUR_QUARTER);
    }

    /* 15: unused, or of the wrong kind. */
    for (uint8_t kind = SANDEGMUR_PLANT; kind <= SANDEGMUR_QUARTER; kind++) {
        static const uint8_t kinds[UNUSED] = { 0, 1, 3, 3, 4, 5, 5, 4, 5, 1, 3 };
        record_of(record, kind);
        for (uint64_t owner = 0; owner < UNUSED; owner++)
            if (kinds[owner] != kinds[owners[kind]])
                check_append_first(archive, 0, owner, record, SANDEGMUR_RECORD_BYTES, SANDEGMUR_BAD_OWNER);
        for (size_t i = 0; i < sizeof unused / sizeof unused[0]; i++)
            check_append_first(archive, 0, unused[i], record, SANDEGMUR_RECORD_BYTES, SANDEGMUR_BAD_OWNER);
    }

    /* 2 and 3 on the chain that the record would join, then 16. */
    record_of(record, SANDEGMUR_QUARTER);
    for (int way = 6; way <= 7; way++) {
        uint32_t number = way == 6 ? SANDEGMUR_BAD_LINK : SANDEGMUR_WRONG_KIND;
        file_seen(archive, way);
        check_append_first(archive, 0, 2, record, SANDEGMUR_RECORD_BYTES, number);
        check_append_first(archive, 0, 3, record, SANDEGMUR_RECORD_BYTES, SANDEGMUR_ARCHIVE_FULL);
        /* On another chain it is settle's, after 4 and 5. */
        expect_refused(archive, SEEN_ARCHIVE, 3, record, 1, 1, number);
        expect_preview(archive, SEEN_ARCHIVE, 3, record, 1, 2, SANDEGMUR_NOT_REFUSED, 2, 99999, 6);
        expect_refused(archive, SEEN_ARCHIVE, 3, record, 0, 1, SANDEGMUR_NO_PLANT);
        expect_refused(archive, SEEN_ARCHIVE, 3, record, 1, 0, SANDEGMUR_NO_MEASURE);
        CHECK(check_preview(archive, SEEN_ARCHIVE, 3, record, SANDEGMUR_RECORD_BYTES, 1, 1, 0, 0).number == number);
        /* Both chains broken, in one way each: append's. */
        sandegmur_put32(archive + 8 * SANDEGMUR_RECORD_BYTES + SANDEGMUR_NEXT_AT, way == 6 ? 9 : 8);
        check_append_first(archive, 0, 2, record, SANDEGMUR_RECORD_BYTES, number);
        check_append_first(archive, 0, 3, record, SANDEGMUR_RECORD_BYTES,
                           way == 6 ? SANDEGMUR_WRONG_KIND : SANDEGMUR_BAD_LINK);
    }
    file_seen(archive, 0);
    check_append_first(archive, 0, 2, record, SANDEGMUR_RECORD_BYTES, SANDEGMUR_ARCHIVE_FULL);
}

/* In archives that aren't sound the preview answers as append and settle do. */
static void test_preview_unsound(void)
{
    uint8_t archive[SEEN_ARCHIVE], list[LIST], result[RESULT], record[SANDEGMUR_RECORD_BYTES];
    for (int way = 1; way <= 5; way++) {
        file_seen(archive, way);
        record_of(record, SANDEGMUR_QUARTER);
        if (way == 1) {
            /* The link that was bad leads to the new record, under whatever owner it would be filed. */
            CHECK(settle(archive, SEEN_ARCHIVE, 1, 1, list, LIST, result, SANDEGMUR_RESULT_BYTES) == SANDEGMUR_BAD_LINK);
            expect_refused(archive, SEEN_ARCHIVE, 2, record, 1, 1, SANDEGMUR_BAD_LINK);
            expect_preview(archive, SEEN_ARCHIVE, 3, record, 1, 1, SANDEGMUR_NOT_REFUSED, 3, 224999, 6);
            expect_preview(archive, SEEN_ARCHIVE, 3, record, 1, 2, SANDEGMUR_NOT_REFUSED, 2, 99999, 6);
            record_of(record, SANDEGMUR_BEFORE_QUARTER);
            expect_refused(archive, SEEN_ARCHIVE, 2, record, 1, 1, SANDEGMUR_WRONG_KIND);
        } else if (way == 4) {
            /* The quarter counts in both measures, whichever is its owner. */
            expect_preview(archive, SEEN_ARCHIVE, 2, record, 1, 1, SANDEGMUR_NOT_REFUSED, 3, 224999, 6);
            expect_preview(archive, SEEN_ARCHIVE, 3, record, 1, 1, SANDEGMUR_NOT_REFUSED, 3, 224999, 6);
            expect_preview(archive, SEEN_ARCHIVE, 2, record, 1, 2, SANDEGMUR_NOT_REFUSED, 3, 74999, 7);
            expect_preview(archive, SEEN_ARCHIVE, 3, record, 1, 2, SANDEGMUR_NOT_REFUSED, 3, 74999, 7);
        } else {
            expect_preview(archive, SEEN_ARCHIVE, 2, record, 1, 1, SANDEGMUR_NOT_REFUSED, 3, 224999, 6);
            expect_preview(archive, SEEN_ARCHIVE, 3, record, 1, 1, SANDEGMUR_NOT_REFUSED, 2, 149999, 5);
            if (way == 5)
                expect_refused(archive, SEEN_ARCHIVE, 3, record, 1, 2, SANDEGMUR_NO_MEASURE);
            else
                expect_preview(archive, SEEN_ARCHIVE, 3, record, 1, 2, SANDEGMUR_NOT_REFUSED, 2, 99999, 6);
        }
    }
}

/* Every kind under every owner, for several places, list lengths and result lengths, in all these archives, with unused records
 * and without. */
static void test_preview_many(void)
{
    static const struct {
        uint64_t p, k;
    } places[] = { { 0, 1 }, { 1, 1 }, { 1, 2 }, { 1, 3 }, { 2, 1 }, { 3, 1 } };
    static const struct {
        size_t list, result;
    } rooms[] = { { 0, 24 }, { 8, 24 }, { 16, 24 }, { 23, 24 }, { 29, 24 }, { 24, 23 } };
    uint8_t archive[SEEN_ARCHIVE], record[SANDEGMUR_RECORD_BYTES];
    int reached[SANDEGMUR_UNEQUAL_LISTS + 1] = { 0 };
    for (int way = 0; way < WAYS; way++) {
        file_seen(archive, way);
        size_t full = sandegmur_used(archive, SEEN_ARCHIVE) * (size_t)SANDEGMUR_RECORD_BYTES;
        for (uint8_t kind = SANDEGMUR_PLANT; kind <= SANDEGMUR_QUARTER; kind++) {
            record_of(record, kind);
            for (uint64_t owner = 0; owner <= UNUSED; owner++)
                for (size_t i = 0; i < sizeof places / sizeof places[0]; i++)
                    for (size_t j = 0; j < sizeof rooms / sizeof rooms[0]; j++)
                        for (size_t length = full; length <= SEEN_ARCHIVE; length += SEEN_ARCHIVE - full)
                            reached[check_preview(archive, length, owner, record, sizeof record, places[i].p, places[i].k,
                                                  rooms[j].list, rooms[j].result).number]++;
        }
    }
    for (uint32_t number = 0; number <= SANDEGMUR_UNEQUAL_LISTS; number++)
        CHECK((reached[number] != 0)
              == (number == SANDEGMUR_NOT_REFUSED || (number >= SANDEGMUR_BAD_LINK && number <= SANDEGMUR_NO_MEASURE)
                  || number == SANDEGMUR_BAD_COUNT || number == SANDEGMUR_TOO_FEW_USABLE || number == SANDEGMUR_NO_ROOM
                  || number == SANDEGMUR_BAD_OWNER || number == SANDEGMUR_ARCHIVE_FULL));
}

/* Archive, record, list and result each in a block of just its length. Nothing has written the list, the result and the unused
 * record. */
static void test_preview_blocks(void)
{
    enum { FILED = 6 * SANDEGMUR_RECORD_BYTES, BYTES = FILED + SANDEGMUR_RECORD_BYTES };
    static const int32_t measured[] = { 500001, 500001 };
    uint8_t archive[ARCHIVE], added[SANDEGMUR_RECORD_BYTES + 1] = { 0 };
    file_measure(archive, SANDEGMUR_NEGATIVE, 800000, measured, 2);
    sandegmur_quarter(added, 7, 42, 500002, 0, 0, 0);
    for (size_t list_length = 0; list_length <= 4 * SANDEGMUR_PLACE_BYTES; list_length++)
        for (size_t result_length = SANDEGMUR_RESULT_BYTES - 1; result_length <= SANDEGMUR_RESULT_BYTES + 1; result_length++)
            for (size_t record_length = SANDEGMUR_RECORD_BYTES - 1; record_length <= sizeof added; record_length++) {
                uint8_t *block = block_of(NULL, BYTES), *record = block_of(added, record_length);
                uint8_t *list = block_of(NULL, list_length), *result = block_of(NULL, result_length);
                int room = list_length >= 3 * SANDEGMUR_PLACE_BYTES && result_length == SANDEGMUR_RESULT_BYTES;
                memcpy(block, archive, FILED);
                uint32_t number = sandegmur_preview(block, BYTES, 2, record, record_length, 1, 1, list, list_length, result,
                                                    result_length);
                CHECK(number == (record_length != SANDEGMUR_RECORD_BYTES ? SANDEGMUR_BAD_RECORD
                                 : room                                  ? SANDEGMUR_NOT_REFUSED
                                                                         : SANDEGMUR_NO_ROOM));
                CHECK(memcmp(block, archive, FILED) == 0);
                if (number == SANDEGMUR_NOT_REFUSED) {
                    CHECK(sandegmur_amount(list + 2 * SANDEGMUR_PLACE_BYTES) == 75000);
                    check_result(result, 3, 224999, 6);
                }
                free(block);
                free(record);
                free(list);
                free(result);
            }
}

/* With the previewed record the most before-quarters and quarters, or one more; a list with a place for each quarter, and with one
 * place less. 96 places, the quarters of a day, are no edge. */
static void test_preview_counts(void)
{
    static const int counts[] = { 95, 96, SANDEGMUR_MOST_QUARTERS - 1, SANDEGMUR_MOST_QUARTERS };
    uint8_t before[SANDEGMUR_RECORD_BYTES], quarter[SANDEGMUR_RECORD_BYTES];
    size_t length = (5 + SANDEGMUR_MOST_QUARTERS) * (size_t)SANDEGMUR_RECORD_BYTES;
    uint8_t *archive = block_of(NULL, length);
    sandegmur_before_quarter(before, SANDEGMUR_MARKED, 700000, 0);
    sandegmur_quarter(quarter, 7, 40, 400002, 0, 0, 0);
    for (size_t i = 0; i < sizeof counts / sizeof counts[0]; i++) {
        size_t places = (size_t)counts[i] + 1;
        uint32_t number = counts[i] < SANDEGMUR_MOST_QUARTERS ? SANDEGMUR_NOT_REFUSED : SANDEGMUR_BAD_COUNT;
        uint32_t less = counts[i] < SANDEGMUR_MOST_QUARTERS ? SANDEGMUR_NO_ROOM : SANDEGMUR_BAD_COUNT;
        file_counts(archive, length, 1, counts[i]);
        for (size_t j = 0; j < 3; j++) {
            struct preview found = check_preview(archive, length, 2, quarter, sizeof quarter, 1, 1,
                                                 (places + j - 1) * SANDEGMUR_PLACE_BYTES, SANDEGMUR_RESULT_BYTES);
            CHECK(found.number == (j == 0 ? less : number));
            if (found.number == SANDEGMUR_NOT_REFUSED) {
                CHECK(found.count == counts[i] + 1 && found.links == 4 + counts[i]);
                /* 400,000 / 4 for each filed quarter, and 399,998 / 4 rounded down. */
                CHECK(found.total == 100000 * (int64_t)counts[i] + 99999);
            }
        }
    }
    for (int befores = SANDEGMUR_MOST_BEFORE_QUARTERS - 1; befores <= SANDEGMUR_MOST_BEFORE_QUARTERS; befores++) {
        file_counts(archive, length, befores, 1);
        if (befores < SANDEGMUR_MOST_BEFORE_QUARTERS)
            expect_preview(archive, length, 2, before, 1, 1, SANDEGMUR_NOT_REFUSED, 1, 100000, 4 + befores);
        else
            expect_refused(archive, length, 2, before, 1, 1, SANDEGMUR_BAD_COUNT);
    }
    free(archive);
}

/* In an archive of as many records as there may be, with 255, 256, all but one and all of them used: a quarter at the end of a
 * short chain, and at the end of one that has nearly every used record. A record longer, it is no archive. */
static void test_most_previewed(void)
{
    size_t most = SANDEGMUR_MOST_BYTES;
    uint8_t record[SANDEGMUR_RECORD_BYTES], *archive = block_of(NULL, most + SANDEGMUR_RECORD_BYTES);
    static const uint32_t used[] = { 255, 256, SANDEGMUR_MOST_RECORDS - 1, SANDEGMUR_MOST_RECORDS };
    static const int32_t measured[] = { 500001, 500001 };
    sandegmur_quarter(record, 7, 40, 500002, 0, 0, 0);
    for (size_t i = 0; i < sizeof used / sizeof used[0]; i++) {
        uint32_t number = used[i] < SANDEGMUR_MOST_RECORDS ? SANDEGMUR_NOT_REFUSED : SANDEGMUR_ARCHIVE_FULL;
        file_measure(archive, SANDEGMUR_NEGATIVE, 800000, measured, 2);
        memset(archive + ARCHIVE, FILL, most + SANDEGMUR_RECORD_BYTES - ARCHIVE);
        /* A second measure, 6, has every other quarter. */
        uint8_t other[SANDEGMUR_RECORD_BYTES];
        sandegmur_measure(other, SANDEGMUR_NEGATIVE, SANDEGMUR_TOLERATED);
        CHECK(file(archive, most, 1, other) == SANDEGMUR_NOT_REFUSED);
        sandegmur_put32(archive + 6 * SANDEGMUR_RECORD_BYTES + SANDEGMUR_MEASURE_FIRST_QUARTER_AT, 7);
        for (uint32_t next = 7; next < used[i]; next++) {
            memcpy(archive + SANDEGMUR_RECORD_BYTES * next, record, SANDEGMUR_RECORD_BYTES);
            sandegmur_put32(archive + SANDEGMUR_RECORD_BYTES * next + SANDEGMUR_NEXT_AT, next + 1 < used[i] ? next + 1 : 0);
        }
        sandegmur_put32(archive + SANDEGMUR_HEAD_USED_AT, used[i]);
        CHECK(sandegmur_audit(archive, most) == SANDEGMUR_NOT_REFUSED);
        if (number == SANDEGMUR_NOT_REFUSED) {
            expect_preview(archive, most, 2, record, 1, 1, number, 3, 224999, 6);
            expect_preview(archive, most, 6, record, 1, 1, number, 2, 149999, 5);
            expect_refused(archive, most, 6, record, 1, 2, SANDEGMUR_TOO_FEW_USABLE);
        } else {
            expect_refused(archive, most, 2, record, 1, 1, number);
            expect_refused(archive, most, 6, record, 1, 2, number);
        }
        expect_refused(archive, most + SANDEGMUR_RECORD_BYTES, 2, record, 1, 1, SANDEGMUR_NOT_ARCHIVE);
    }
    free(archive);
}

int main(void)
{
    test_constants();
    test_records();
    test_amounts();
    test_texts();
    test_numbers();
    test_most();
    test_names();
    test_null();
    test_list_lengths();
    test_result_lengths();
    test_minus();
    test_refused();
    test_show();
    test_dated();
    test_late();
    test_october();
    test_delivery_days();
    test_one_corrected();
    test_correction_order();
    test_unequal();
    test_correction_counts();
    test_correction_added();
    test_settled_corrected();
    test_blocks();
    test_delivery_blocks();
    test_correction_blocks();
    test_correction_beside();
    test_undone();
    test_named();
    test_not_taken_back();
    test_most_taken_back();
    test_previewed();
    test_previewed_kinds();
    test_previewed_wind();
    test_preview_late();
    test_preview_order();
    test_preview_unsound();
    test_preview_many();
    test_preview_blocks();
    test_preview_counts();
    test_most_previewed();
    if (failed == 0)
        puts("host: every check holds");
    else
        fprintf(stderr, "host: %lu checks failed\n", failed);
    return failed != 0;
}
