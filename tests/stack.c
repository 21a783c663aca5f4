/* The stack that each call takes, measured and held to the header's figures: no more than the figure, and for settle, preview and
 * audit no more than 4 KiB below it. A call runs on a stack of its own, filled with one byte; the lowest byte that it changed
 * tells how far down it went. Exits with 0 if every figure holds.
 *
 *     cc -Itarget/lib tests/stack.c target/lib/libsandegmur.a -o test
 */
#define _XOPEN_SOURCE 700
#include "sandegmur.h"

#include <stdio.h>
#include <string.h>
#include <ucontext.h>

enum {
    STACK = 262144,
    FILL = 0xa5,
    POINTS = 1001,
    PAGE = 4096,
    OCTOBER = 940000, /* late in October 2026 */
    HOLIDAYS = 40,
    RECORDS = 3 + POINTS + SANDEGMUR_MOST_BEFORE_QUARTERS + SANDEGMUR_MOST_QUARTERS + 2,
    ARCHIVE = RECORDS * SANDEGMUR_RECORD_BYTES
};

enum call { SETTLE, SETTLE_BY_NAME, PREVIEW, AUDIT, FRESH, APPEND, TAKE_BACK, SHOW, DELIVERY_DAY, CORRECTION };

static uint8_t archive[ARCHIVE], list[SANDEGMUR_MOST_QUARTERS * SANDEGMUR_PLACE_BYTES], result[SANDEGMUR_RESULT_BYTES];
static uint8_t record[SANDEGMUR_RECORD_BYTES];
static uint32_t holidays[HOLIDAYS];
static uint64_t day;
static int64_t amounts[SANDEGMUR_MOST_QUARTERS], balanced[SANDEGMUR_MOST_QUARTERS], prices[SANDEGMUR_MOST_QUARTERS], cents;
static uint64_t rest;
static uint8_t stack[STACK];
static ucontext_t outside, inside;
static enum call call;
static uint64_t answer;
static uintptr_t top;

static void run(void)
{
    volatile uint8_t here = 0;
    top = (uintptr_t)&here;
    switch (call) {
    case SETTLE:
        answer = sandegmur_settle(archive, ARCHIVE, 1, 1, list, sizeof list, result, sizeof result);
        break;
    case SETTLE_BY_NAME:
        answer = settle(archive, ARCHIVE, 1, 1, list, sizeof list, result, sizeof result);
        break;
    case PREVIEW:
        answer = sandegmur_preview(archive, ARCHIVE, 2, record, sizeof record, 1, 1, list, sizeof list, result, sizeof result);
        break;
    case AUDIT:
        answer = sandegmur_audit(archive, ARCHIVE);
        break;
    case FRESH:
        answer = sandegmur_fresh(archive, ARCHIVE);
        break;
    case APPEND:
        answer = sandegmur_append(archive, ARCHIVE, 2, record, sizeof record);
        break;
    case TAKE_BACK:
        answer = sandegmur_take_back(archive, ARCHIVE);
        break;
    case SHOW:
        answer = sandegmur_show(archive, ARCHIVE, 0);
        break;
    case DELIVERY_DAY:
        answer = sandegmur_delivery_day(OCTOBER, holidays, HOLIDAYS, &day);
        break;
    case CORRECTION:
        answer = sandegmur_correction(amounts, SANDEGMUR_MOST_QUARTERS, balanced, SANDEGMUR_MOST_QUARTERS, prices,
                                      SANDEGMUR_MOST_QUARTERS, &cents, &rest);
        break;
    }
}

/* How much stack a call takes; the second of two runs, so that the dynamic linker has done its part. -1 if the context or the
 * answer isn't right. */
static long taken(enum call which, uint64_t expected)
{
    for (int i = 0; i < 2; i++) {
        memset(stack, FILL, STACK);
        if (getcontext(&inside) != 0)
            return -1;
        inside.uc_stack.ss_sp = stack;
        inside.uc_stack.ss_size = STACK;
        inside.uc_link = &outside;
        call = which;
        makecontext(&inside, run, 0);
        if (swapcontext(&outside, &inside) != 0 || answer != expected)
            return -1;
    }
    const uint8_t *lowest = stack;
    while (*lowest == FILL)
        lowest++;
    return (long)(top - (uintptr_t)lowest);
}

/* A plant with a point for every speed, and a measure with as many before-quarters and quarters as there may be, dated or, with 0,
 * not. */
static int file_plant(uint8_t technology, uint8_t variant, uint32_t first)
{
    uint32_t refused = sandegmur_fresh(archive, ARCHIVE);
    sandegmur_plant(record, technology, variant, 2000000);
    refused |= sandegmur_append(archive, ARCHIVE, 0, record, sizeof record);
    uint64_t measure = sandegmur_used(archive, ARCHIVE);
    sandegmur_dated_measure(record, SANDEGMUR_NEGATIVE, SANDEGMUR_REQUESTED, first);
    refused |= sandegmur_append(archive, ARCHIVE, 1, record, sizeof record);
    for (int i = 0; i < POINTS; i++) {
        sandegmur_curve_point(record, i, 2000 * i);
        refused |= sandegmur_append(archive, ARCHIVE, 1, record, sizeof record);
    }
    for (int i = 0; i < SANDEGMUR_MOST_BEFORE_QUARTERS; i++) {
        sandegmur_before_quarter(record, SANDEGMUR_MARKED, 900000, 500 + i);
        refused |= sandegmur_append(archive, ARCHIVE, measure, record, sizeof record);
    }
    for (int i = 0; i < SANDEGMUR_MOST_QUARTERS; i++) {
        sandegmur_quarter(record, 7, 40, 350000, 300000, i % 1000, 400000);
        refused |= sandegmur_append(archive, ARCHIVE, measure, record, sizeof record);
    }
    return refused == SANDEGMUR_NOT_REFUSED;
}

static int failed;

static void hold(const char *name, long bytes, long figure, long least)
{
    printf("%s: %ld bytes of stack, the header has %ld\n", name, bytes, figure);
    if (bytes > figure || bytes < least) {
        fprintf(stderr, "%s: the header's figure isn't right\n", name);
        failed = 1;
    }
}

int main(void)
{
    long most = 0, most_previewed = 0;
    for (uint8_t technology = SANDEGMUR_WIND; technology <= SANDEGMUR_OTHER; technology++)
        for (uint8_t variant = SANDEGMUR_SPITZ; variant <= SANDEGMUR_PAUSCHAL; variant++)
            for (int dated = 0; dated < 2; dated++) {
                if (!file_plant(technology, variant, dated ? OCTOBER : 0))
                    return 1;
                long bytes = taken(SETTLE, SANDEGMUR_NOT_REFUSED), by_name = taken(SETTLE_BY_NAME, SANDEGMUR_NOT_REFUSED);
                if (bytes < 0 || by_name < 0)
                    return 1;
                most = bytes > most ? bytes : most;
                most = by_name > most ? by_name : most;
                /* The last quarter isn't filed but previewed. */
                if (sandegmur_take_back(archive, ARCHIVE) != SANDEGMUR_NOT_REFUSED)
                    return 1;
                long previewed = taken(PREVIEW, SANDEGMUR_NOT_REFUSED);
                if (previewed < 0)
                    return 1;
                most_previewed = previewed > most_previewed ? previewed : most_previewed;
            }
    hold("settle", most, SANDEGMUR_SETTLE_STACK, SANDEGMUR_SETTLE_STACK - PAGE);
    hold("preview", most_previewed, SANDEGMUR_PREVIEW_STACK, SANDEGMUR_PREVIEW_STACK - PAGE);
    hold("audit", taken(AUDIT, SANDEGMUR_NOT_REFUSED), SANDEGMUR_AUDIT_STACK, SANDEGMUR_AUDIT_STACK - PAGE);
    hold("show", taken(SHOW, 0), SANDEGMUR_OTHER_STACK, 1);
    hold("append", taken(APPEND, SANDEGMUR_NOT_REFUSED), SANDEGMUR_OTHER_STACK, 1);
    hold("take_back", taken(TAKE_BACK, SANDEGMUR_NOT_REFUSED), SANDEGMUR_OTHER_STACK, 1);
    for (uint32_t i = 0; i < HOLIDAYS; i++)
        holidays[i] = 9800 + i;
    hold("delivery_day", taken(DELIVERY_DAY, SANDEGMUR_NOT_REFUSED), SANDEGMUR_OTHER_STACK, 1);
    for (int i = 0; i < SANDEGMUR_MOST_QUARTERS; i++) {
        amounts[i] = SANDEGMUR_MOST_CORRECTED_ENERGY;
        balanced[i] = -i;
        prices[i] = i - SANDEGMUR_MOST_PRICE;
    }
    hold("correction", taken(CORRECTION, SANDEGMUR_NOT_REFUSED), SANDEGMUR_OTHER_STACK, 1);
    prices[SANDEGMUR_MOST_QUARTERS - 1] = SANDEGMUR_MOST_PRICE + 1;
    hold("correction, refused for a price", taken(CORRECTION, SANDEGMUR_BAD_PRICE), SANDEGMUR_OTHER_STACK, 1);
    amounts[SANDEGMUR_MOST_QUARTERS - 1]++;
    hold("correction, refused for an energy", taken(CORRECTION, SANDEGMUR_BAD_ENERGIES), SANDEGMUR_OTHER_STACK, 1);
    hold("fresh", taken(FRESH, SANDEGMUR_NOT_REFUSED), SANDEGMUR_OTHER_STACK, 1);
    return failed;
}
