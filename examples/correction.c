/* A host with prices: files a wind measure, settles it and hands the amounts on to the financial correction, with the balanced
 * energy and the price of each quarter.
 *
 * The cents of a measure come from one call on all its quarters. Cents of single quarters need not add up to them, since each
 * quarter is rounded down; with the remainders they do.
 *
 * Build with what `make lib` writes:
 *     cc -std=c99 -Itarget/lib examples/correction.c target/lib/libsandegmur.a -o correction
 */
#include "sandegmur.h"

#include <inttypes.h>
#include <stdio.h>

enum { QUARTERS = 4, RECORDS = 4 + QUARTERS };

/* The balanced energy in Wh, and the ID-AEP in cents per MWh: 89.50, 91.25, -12.34 and 42.10 euros per MWh. */
static const int64_t balanced[QUARTERS] = { 300000, 330000, 320000, 225000 };
static const int64_t prices[QUARTERS] = { 8950, 9125, -1234, 4210 };

static uint32_t file(uint8_t *archive, size_t length, uint32_t owner, const uint8_t *record)
{
    return sandegmur_append(archive, length, owner, record, SANDEGMUR_RECORD_BYTES);
}

/* A wind plant, Pauschal; a negative measure, tolerated; the reference power; the measured power of each quarter. In an archive
 * with no record but the head the plant gets number 1, and the measure 2. */
static uint32_t file_measure(uint8_t *archive, size_t length)
{
    static const int32_t measured[QUARTERS] = { 200001, 200001, 250002, 600003 };
    uint8_t record[SANDEGMUR_RECORD_BYTES];

    uint32_t number = sandegmur_fresh(archive, length);
    if (number != SANDEGMUR_NOT_REFUSED)
        return number;
    sandegmur_plant(record, SANDEGMUR_WIND, SANDEGMUR_PAUSCHAL, 2000000);
    number = file(archive, length, 0, record);
    if (number != SANDEGMUR_NOT_REFUSED)
        return number;
    sandegmur_measure(record, SANDEGMUR_NEGATIVE, SANDEGMUR_TOLERATED);
    number = file(archive, length, 1, record);
    if (number != SANDEGMUR_NOT_REFUSED)
        return number;
    sandegmur_before_quarter(record, SANDEGMUR_MARKED, 1500000, 0);
    number = file(archive, length, 2, record);
    for (int i = 0; i < QUARTERS && number == SANDEGMUR_NOT_REFUSED; i++) {
        sandegmur_quarter(record, 0, 0, measured[i], 0, 0, 0); /* wind needs neither month nor quarter of the day */
        number = file(archive, length, 2, record);
    }
    return number;
}

/* Cents and remainder in one exact number. */
static int64_t millionths(int64_t cents, uint64_t remainder)
{
    return SANDEGMUR_MILLIONTHS_OF_CENT * cents + (int64_t)remainder;
}

static int refused(const char *call, uint32_t number)
{
    fprintf(stderr, "%s: refused with %" PRIu32 ", %s\n", call, number, sandegmur_refusal_text(number));
    return 1;
}

int main(void)
{
    uint8_t archive[RECORDS * SANDEGMUR_RECORD_BYTES];
    uint8_t result[SANDEGMUR_RESULT_BYTES];
    int64_t amounts[QUARTERS], cents, cents_added = 0, millionths_added = 0;
    uint64_t remainder;
    uint32_t number;

    number = file_measure(archive, sizeof archive);
    if (number != SANDEGMUR_NOT_REFUSED)
        return refused("fresh and append", number);
    /* The bytes that settle writes are the numbers of this array. */
    number = sandegmur_settle(archive, sizeof archive, 1, 1, (uint8_t *)amounts, sizeof amounts, result, sizeof result);
    if (number != SANDEGMUR_NOT_REFUSED)
        return refused("settle", number);
    size_t count = (size_t)sandegmur_amount(result + SANDEGMUR_RESULT_COUNT_AT);

    for (size_t i = 0; i < count; i++) {
        /* A quarter alone is a list of one. */
        number = sandegmur_correction(&amounts[i], 1, &balanced[i], 1, &prices[i], 1, &cents, &remainder);
        if (number != SANDEGMUR_NOT_REFUSED)
            return refused("correction", number);
        printf("quarter %zu: amount %" PRId64 " Wh, balanced %" PRId64 " Wh, ", i + 1, amounts[i], balanced[i]);
        printf("gap %" PRId64 " Wh, price %" PRId64 " cents per MWh: ", amounts[i] - balanced[i], prices[i]);
        printf("cents %" PRId64 ", remainder %" PRIu64 "\n", cents, remainder);
        cents_added += cents;
        millionths_added += millionths(cents, remainder);
    }

    number = sandegmur_correction(amounts, count, balanced, QUARTERS, prices, QUARTERS, &cents, &remainder);
    if (number != SANDEGMUR_NOT_REFUSED)
        return refused("correction", number);
    printf("measure: cents %" PRId64 ", remainder %" PRIu64 "; in millionths of a cent %" PRId64 "\n", cents, remainder,
           millionths(cents, remainder));
    printf("quarters added up: cents %" PRId64 "; in millionths of a cent %" PRId64 "\n", cents_added, millionths_added);

    /* The last price isn't known yet. Cents and remainder keep what they have. */
    number = sandegmur_correction(amounts, count, balanced, QUARTERS, prices, QUARTERS - 1, &cents, &remainder);
    if (number == SANDEGMUR_NOT_REFUSED)
        return 1;
    printf("a price short: refused with %" PRIu32 ", %s\n", number, sandegmur_refusal_text(number));
    return 0;
}
