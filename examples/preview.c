/* A host that previews a quarter: the measure's result now, and with one more quarter.
 *
 * A clerk who is about to file a reading sees in the preview what it would change, or why the measure would not settle with it,
 * and only then files it. The preview works in the archive itself, so no other call may use the archive meanwhile; afterwards
 * every byte is as before.
 *
 * Build with what `make lib` writes:
 *     cc -std=c99 -Itarget/lib examples/preview.c target/lib/libsandegmur.a -o preview
 */
#include "sandegmur.h"

#include <inttypes.h>
#include <stdio.h>
#include <string.h>

/* Head, plant, measure, before-quarter and quarters. In an archive with no record but the head the plant gets number 1, and its
 * measure 2. */
enum { MOST_QUARTERS = 3, RECORDS = 4 + MOST_QUARTERS, PLANT = 1, MEASURE = 2 };

static uint8_t list[MOST_QUARTERS * SANDEGMUR_PLACE_BYTES];
static uint8_t result[SANDEGMUR_RESULT_BYTES];

static uint32_t file(uint8_t *archive, size_t length, uint32_t owner, const uint8_t *record)
{
    return sandegmur_append(archive, length, owner, record, SANDEGMUR_RECORD_BYTES);
}

/* A plant that is neither wind nor solar, Pauschal; a negative measure, tolerated; its reference power; the quarters that are
 * known so far. */
static uint32_t file_measure(uint8_t *archive, size_t length)
{
    uint8_t record[SANDEGMUR_RECORD_BYTES];

    uint32_t number = sandegmur_fresh(archive, length);
    if (number != SANDEGMUR_NOT_REFUSED)
        return number;
    /* Fresh has made the unused records 0. Filled with other bytes, they show that a preview leaves what stands there too. */
    memset(archive + SANDEGMUR_RECORD_BYTES, 9, length - SANDEGMUR_RECORD_BYTES);
    sandegmur_plant(record, SANDEGMUR_OTHER, SANDEGMUR_PAUSCHAL, 1000000);
    number = file(archive, length, 0, record);
    if (number != SANDEGMUR_NOT_REFUSED)
        return number;
    sandegmur_measure(record, SANDEGMUR_NEGATIVE, SANDEGMUR_TOLERATED);
    number = file(archive, length, PLANT, record);
    if (number != SANDEGMUR_NOT_REFUSED)
        return number;
    sandegmur_before_quarter(record, SANDEGMUR_MARKED, 800000, 0);
    number = file(archive, length, MEASURE, record);
    for (uint8_t of_day = 40; of_day <= 41 && number == SANDEGMUR_NOT_REFUSED; of_day++) {
        sandegmur_quarter(record, 7, of_day, 500001, 0, 0, 0);
        number = file(archive, length, MEASURE, record);
    }
    return number;
}

/* What the measure gives now, into list and result. */
static uint32_t settle_measure(const uint8_t *archive, size_t length)
{
    return sandegmur_settle(archive, length, 1, 1, list, sizeof list, result, sizeof result);
}

/* What it would give with this quarter. */
static uint32_t preview_measure(uint8_t *archive, size_t length, const uint8_t *quarter)
{
    return sandegmur_preview(archive, length, MEASURE, quarter, SANDEGMUR_RECORD_BYTES, 1, 1, list, sizeof list, result,
                             sizeof result);
}

static void print_result(const char *when)
{
    int64_t count = sandegmur_amount(result + SANDEGMUR_RESULT_COUNT_AT);
    int64_t total = sandegmur_amount(result + SANDEGMUR_RESULT_TOTAL_AT);
    int64_t links = sandegmur_amount(result + SANDEGMUR_RESULT_LINKS_AT);
    printf("%s: quarters %" PRId64 ", total %" PRId64 " Wh, links %" PRId64 "\n", when, count, total, links);
    for (int64_t i = 0; i < count; i++)
        printf("  quarter %" PRId64 ": %" PRId64 " Wh\n", i + 1, sandegmur_amount(list + SANDEGMUR_PLACE_BYTES * i));
}

static void print_refusal(const char *when, uint32_t number)
{
    printf("%s: refused with %" PRIu32 ", %s\n", when, number, sandegmur_refusal_text(number));
}

static int refused(const char *call, uint32_t number)
{
    fprintf(stderr, "%s: refused with %" PRIu32 ", %s\n", call, number, sandegmur_refusal_text(number));
    return 1;
}

static int not_refused(void)
{
    fputs("a preview isn't refused that should be\n", stderr);
    return 1;
}

int main(void)
{
    uint8_t archive[RECORDS * SANDEGMUR_RECORD_BYTES], before[sizeof archive];
    uint8_t quarter[SANDEGMUR_RECORD_BYTES], mistyped[SANDEGMUR_RECORD_BYTES];
    uint32_t number;

    number = file_measure(archive, sizeof archive);
    if (number != SANDEGMUR_NOT_REFUSED)
        return refused("fresh and append", number);
    memcpy(before, archive, sizeof archive);

    number = settle_measure(archive, sizeof archive);
    if (number != SANDEGMUR_NOT_REFUSED)
        return refused("settle", number);
    print_result("now");

    sandegmur_quarter(quarter, 7, 42, 500002, 0, 0, 0);
    number = preview_measure(archive, sizeof archive, quarter);
    if (number != SANDEGMUR_NOT_REFUSED)
        return refused("preview", number);
    print_result("with one more quarter");

    /* Append would take this quarter, and the measure would no longer settle. */
    sandegmur_quarter(mistyped, 7, 42, 1000000001, 0, 0, 0);
    number = preview_measure(archive, sizeof archive, mistyped);
    if (number == SANDEGMUR_NOT_REFUSED)
        return not_refused();
    print_refusal("with a measured power of 1000000001 W", number);

    if (memcmp(archive, before, sizeof archive) != 0) {
        fputs("the archive isn't as before\n", stderr);
        return 1;
    }
    puts("after the previews: every byte as before");

    number = file(archive, sizeof archive, MEASURE, quarter);
    if (number != SANDEGMUR_NOT_REFUSED)
        return refused("append", number);
    number = settle_measure(archive, sizeof archive);
    if (number != SANDEGMUR_NOT_REFUSED)
        return refused("settle", number);
    print_result("filed");

    /* Every record of the archive is used now. */
    sandegmur_quarter(quarter, 7, 43, 500002, 0, 0, 0);
    number = preview_measure(archive, sizeof archive, quarter);
    if (number == SANDEGMUR_NOT_REFUSED)
        return not_refused();
    print_refusal("with yet another quarter", number);
    return 0;
}
