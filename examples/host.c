/* A host: files case a of document 01 into a fresh archive, audits it and settles its measure.
 *
 * Build with what `make lib` writes:
 *     cc -std=c99 -Itarget/lib examples/host.c target/lib/libsandegmur.a -o example
 */
#include "sandegmur.h"

#include <inttypes.h>
#include <stdio.h>

enum { RECORDS = 7, QUARTERS = 3 };

static uint32_t file(uint8_t *archive, size_t length, uint32_t owner, const uint8_t *record)
{
    return sandegmur_append(archive, length, owner, record, SANDEGMUR_RECORD_BYTES);
}

/* Case a: another plant, Pauschal; a negative measure, tolerated; the reference power; the measured power of each quarter. */
static uint32_t file_case_a(uint8_t *archive, size_t length)
{
    static const int32_t measured[QUARTERS] = { 500001, 500001, 500002 };
    uint8_t record[SANDEGMUR_RECORD_BYTES];
    uint32_t plant, measure;

    uint32_t number = sandegmur_fresh(archive, length);
    if (number != SANDEGMUR_NOT_REFUSED)
        return number;
    plant = sandegmur_used(archive, length); /* the number that the next record gets */
    sandegmur_plant(record, SANDEGMUR_OTHER, SANDEGMUR_PAUSCHAL, 1000000);
    number = file(archive, length, 0, record);
    if (number != SANDEGMUR_NOT_REFUSED)
        return number;
    measure = sandegmur_used(archive, length);
    sandegmur_measure(record, SANDEGMUR_NEGATIVE, SANDEGMUR_TOLERATED);
    number = file(archive, length, plant, record);
    if (number != SANDEGMUR_NOT_REFUSED)
        return number;
    sandegmur_before_quarter(record, SANDEGMUR_MARKED, 800000, 0);
    number = file(archive, length, measure, record);
    for (int i = 0; i < QUARTERS && number == SANDEGMUR_NOT_REFUSED; i++) {
        sandegmur_quarter(record, 7, 40, measured[i], 0, 0, 0);
        number = file(archive, length, measure, record);
    }
    return number;
}

static int refused(const char *call, uint32_t number)
{
    fprintf(stderr, "%s: refused with %" PRIu32 ", %s\n", call, number, sandegmur_refusal_text(number));
    return 1;
}

int main(void)
{
    uint8_t archive[RECORDS * SANDEGMUR_RECORD_BYTES];
    uint8_t list[QUARTERS * SANDEGMUR_PLACE_BYTES];
    uint8_t result[SANDEGMUR_RESULT_BYTES];
    uint32_t number;

    number = file_case_a(archive, sizeof archive);
    if (number != SANDEGMUR_NOT_REFUSED)
        return refused("fresh and append", number);
    number = sandegmur_audit(archive, sizeof archive);
    if (number != SANDEGMUR_NOT_REFUSED)
        return refused("audit", number);
    number = sandegmur_settle(archive, sizeof archive, 1, 1, list, sizeof list, result, sizeof result);
    if (number != SANDEGMUR_NOT_REFUSED)
        return refused("settle", number);

    int64_t count = sandegmur_amount(result + SANDEGMUR_RESULT_COUNT_AT);
    int64_t total = sandegmur_amount(result + SANDEGMUR_RESULT_TOTAL_AT);
    int64_t links = sandegmur_amount(result + SANDEGMUR_RESULT_LINKS_AT);
    printf("quarters %" PRId64 ", total %" PRId64 " Wh, links %" PRId64 "\n", count, total, links);
    for (int64_t i = 0; i < count; i++)
        printf("quarter %" PRId64 ": %" PRId64 " Wh\n", i + 1, sandegmur_amount(list + SANDEGMUR_PLACE_BYTES * i));
    return 0;
}
