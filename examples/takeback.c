/* A host that takes a record back: a quarter of one measure is filed under another by mistake. The clerk sees it in the totals,
 * takes it back and files it where it belongs.
 *
 * Only the last record can be taken back. So look at what was filed before the next record is, and keep the number it got: if
 * others were filed behind it, they are taken back first, one after another from the last on, and filed again afterwards.
 *
 * Build with what `make lib` writes:
 *     cc -std=c99 -Itarget/lib examples/takeback.c target/lib/libsandegmur.a -o takeback
 */
#include "sandegmur.h"

#include <inttypes.h>
#include <stdio.h>
#include <string.h>

/* In an archive with no record but the head the plant gets number 1, and its measures 2 and 3. */
enum { RECORDS = 11, PLANT = 1, MEASURE_1 = 2, MEASURE_2 = 3, MOST_QUARTERS = 3 };

static uint32_t file(uint8_t *archive, size_t length, uint32_t owner, const uint8_t *record)
{
    return sandegmur_append(archive, length, owner, record, SANDEGMUR_RECORD_BYTES);
}

static uint32_t file_quarter(uint8_t *archive, size_t length, uint32_t measure, uint8_t of_day, int32_t measured)
{
    uint8_t record[SANDEGMUR_RECORD_BYTES];
    sandegmur_quarter(record, 7, of_day, measured, 0, 0, 0);
    return file(archive, length, measure, record);
}

/* A plant that is neither wind nor solar, Pauschal; two negative measures, tolerated; the reference power of each; the quarters
 * that are known so far. */
static uint32_t file_measures(uint8_t *archive, size_t length)
{
    static const int32_t reference[] = { 800000, 600000 };
    static const struct {
        uint32_t measure;
        uint8_t of_day;
        int32_t measured;
    } quarters[] = { { MEASURE_1, 40, 500001 }, { MEASURE_1, 41, 500001 }, { MEASURE_2, 44, 300002 } };
    uint8_t record[SANDEGMUR_RECORD_BYTES];

    uint32_t number = sandegmur_fresh(archive, length);
    if (number != SANDEGMUR_NOT_REFUSED)
        return number;
    sandegmur_plant(record, SANDEGMUR_OTHER, SANDEGMUR_PAUSCHAL, 1000000);
    number = file(archive, length, 0, record);
    sandegmur_measure(record, SANDEGMUR_NEGATIVE, SANDEGMUR_TOLERATED);
    for (int i = 0; i < 2 && number == SANDEGMUR_NOT_REFUSED; i++)
        number = file(archive, length, PLANT, record);
    for (uint32_t i = 0; i < 2 && number == SANDEGMUR_NOT_REFUSED; i++) {
        sandegmur_before_quarter(record, SANDEGMUR_MARKED, reference[i], 0);
        number = file(archive, length, MEASURE_1 + i, record);
    }
    for (int i = 0; i < 3 && number == SANDEGMUR_NOT_REFUSED; i++)
        number = file_quarter(archive, length, quarters[i].measure, quarters[i].of_day, quarters[i].measured);
    return number;
}

/* Takes back the record with this number, and before it every one that was filed behind it. */
static uint32_t take_back_from(uint8_t *archive, size_t length, uint32_t first)
{
    uint32_t number = SANDEGMUR_NOT_REFUSED;
    while (sandegmur_used(archive, length) > first && number == SANDEGMUR_NOT_REFUSED)
        number = sandegmur_take_back(archive, length);
    return number;
}

/* What the clerk looks at: how many quarters each measure has, and their total. */
static uint32_t print_totals(const char *when, const uint8_t *archive, size_t length)
{
    uint8_t list[MOST_QUARTERS * SANDEGMUR_PLACE_BYTES];
    uint8_t result[SANDEGMUR_RESULT_BYTES];

    puts(when);
    for (uint64_t k = 1; k <= 2; k++) {
        uint32_t number = sandegmur_settle(archive, length, 1, k, list, sizeof list, result, sizeof result);
        if (number != SANDEGMUR_NOT_REFUSED)
            return number;
        int64_t count = sandegmur_amount(result + SANDEGMUR_RESULT_COUNT_AT);
        int64_t total = sandegmur_amount(result + SANDEGMUR_RESULT_TOTAL_AT);
        printf("  measure %" PRIu64 ": quarters %" PRId64 ", total %" PRId64 " Wh\n", k, count, total);
    }
    return SANDEGMUR_NOT_REFUSED;
}

static int refused(const char *call, uint32_t number)
{
    fprintf(stderr, "%s: refused with %" PRIu32 ", %s\n", call, number, sandegmur_refusal_text(number));
    return 1;
}

int main(void)
{
    uint8_t archive[RECORDS * SANDEGMUR_RECORD_BYTES], before[sizeof archive];
    uint32_t number, mistaken;

    number = file_measures(archive, sizeof archive);
    if (number != SANDEGMUR_NOT_REFUSED)
        return refused("fresh and append", number);
    /* Taking back undoes an append in an archive that is sound. */
    number = sandegmur_audit(archive, sizeof archive);
    if (number != SANDEGMUR_NOT_REFUSED)
        return refused("audit", number);
    number = print_totals("as filed", archive, sizeof archive);
    if (number != SANDEGMUR_NOT_REFUSED)
        return refused("settle", number);

    /* The mistake: a quarter of measure 1. */
    memcpy(before, archive, sizeof archive);
    mistaken = sandegmur_used(archive, sizeof archive); /* the number that the next record gets */
    number = file_quarter(archive, sizeof archive, MEASURE_2, 42, 500002);
    if (number != SANDEGMUR_NOT_REFUSED)
        return refused("append", number);
    number = print_totals("a quarter under the wrong measure", archive, sizeof archive);
    if (number != SANDEGMUR_NOT_REFUSED)
        return refused("settle", number);

    number = take_back_from(archive, sizeof archive, mistaken);
    if (number != SANDEGMUR_NOT_REFUSED)
        return refused("take back", number);
    if (memcmp(archive, before, sizeof archive) != 0) {
        fputs("the archive isn't as before\n", stderr);
        return 1;
    }
    number = print_totals("taken back: every byte as before", archive, sizeof archive);
    if (number != SANDEGMUR_NOT_REFUSED)
        return refused("settle", number);

    number = file_quarter(archive, sizeof archive, MEASURE_1, 42, 500002);
    if (number != SANDEGMUR_NOT_REFUSED)
        return refused("append", number);
    number = print_totals("under its own measure", archive, sizeof archive);
    if (number != SANDEGMUR_NOT_REFUSED)
        return refused("settle", number);
    return 0;
}
