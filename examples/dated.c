/* A host with dates: files a solar measure from 15 December 2026, 8:45, on, settles it and prints each quarter by its number in
 * the calendar, then that month's delivery day.
 *
 * Build with what `make lib` writes:
 *     cc -std=c99 -Itarget/lib examples/dated.c target/lib/libsandegmur.a -o dated
 */
#include "sandegmur.h"

#include <inttypes.h>
#include <stdio.h>
#include <time.h>

/* Days are numbered from 1 January 2000, which is day 1; quarters of the day are counted from 0. */
enum { QUARTERS = 4, RECORDS = 3 + QUARTERS, DAY = 9846, OF_DAY = 35 };

enum { FIRST = SANDEGMUR_QUARTERS_OF_DAY * (DAY - 1) + OF_DAY + 1 };

/* New Year and Epiphany of 2027. */
static const uint32_t holidays[] = { 9863, 9868 };

static uint32_t file(uint8_t *archive, size_t length, uint32_t owner, const uint8_t *record)
{
    return sandegmur_append(archive, length, owner, record, SANDEGMUR_RECORD_BYTES);
}

/* A solar plant, Pauschal; a negative measure with its date, tolerated; the measured power of each quarter. In an archive with no
 * record but the head the plant gets number 1, and the measure 2. */
static uint32_t file_dated(uint8_t *archive, size_t length)
{
    static const int32_t measured[QUARTERS] = { 0, 100000, 100000, 120000 };
    uint8_t record[SANDEGMUR_RECORD_BYTES];

    uint32_t number = sandegmur_fresh(archive, length);
    if (number != SANDEGMUR_NOT_REFUSED)
        return number;
    sandegmur_plant(record, SANDEGMUR_SOLAR, SANDEGMUR_PAUSCHAL, 1000000);
    number = file(archive, length, 0, record);
    if (number != SANDEGMUR_NOT_REFUSED)
        return number;
    sandegmur_dated_measure(record, SANDEGMUR_NEGATIVE, SANDEGMUR_TOLERATED, FIRST);
    number = file(archive, length, 1, record);
    for (int i = 0; i < QUARTERS && number == SANDEGMUR_NOT_REFUSED; i++) {
        sandegmur_quarter(record, 0, 0, measured[i], 0, 0, 0); /* month and quarter of the day follow from the date */
        number = file(archive, length, 2, record);
    }
    return number;
}

static int refused(const char *call, uint32_t number)
{
    fprintf(stderr, "%s: refused with %" PRIu32 ", %s\n", call, number, sandegmur_refusal_text(number));
    return 1;
}

/* Day 1, 1 January 2000, is 10,957 days after 1 January 1970, from which POSIX counts the seconds. */
static void print_day(uint64_t day)
{
    time_t start = (time_t)(day + 10956) * 86400;
    char date[16];
    strftime(date, sizeof date, "%Y-%m-%d", gmtime(&start));
    printf("delivery day %" PRIu64 ", %s\n", day, date);
}

int main(void)
{
    uint8_t archive[RECORDS * SANDEGMUR_RECORD_BYTES];
    uint8_t list[QUARTERS * SANDEGMUR_PLACE_BYTES];
    uint8_t result[SANDEGMUR_RESULT_BYTES];
    uint64_t day;
    uint32_t number;

    number = file_dated(archive, sizeof archive);
    if (number != SANDEGMUR_NOT_REFUSED)
        return refused("fresh and append", number);
    number = sandegmur_settle(archive, sizeof archive, 1, 1, list, sizeof list, result, sizeof result);
    if (number != SANDEGMUR_NOT_REFUSED)
        return refused("settle", number);
    for (int i = 0; i < QUARTERS; i++)
        printf("quarter %d: %" PRId64 " Wh\n", FIRST + i, sandegmur_amount(list + SANDEGMUR_PLACE_BYTES * i));

    number = sandegmur_delivery_day(FIRST, holidays, sizeof holidays / sizeof holidays[0], &day);
    if (number != SANDEGMUR_NOT_REFUSED)
        return refused("delivery day", number);
    if (day == 0)
        puts("the holidays leave no delivery day");
    else
        print_day(day);
    return 0;
}
