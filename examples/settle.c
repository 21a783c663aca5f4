/* Settles every measure of an archive of any length, up to 2,097,120 bytes, and prints the program's lines for them: the program
 * itself reads no more than 65,536 bytes.
 *
 *     cc -std=c99 -Itarget/lib examples/settle.c target/lib/libsandegmur.a -o settle
 *     ./settle FILE
 *
 * Exits with 0 if every line was written, also where lines tell of refusals; with 1 if the file can't be read or a line not
 * written; with 2 if it isn't called with one file.
 */
#include "sandegmur.h"

#include <inttypes.h>
#include <stdio.h>

/* One byte more than the longest archive, to see that a file is longer. */
static uint8_t archive[SANDEGMUR_MOST_BYTES + 1];
static uint8_t list[SANDEGMUR_MOST_QUARTERS * SANDEGMUR_PLACE_BYTES];

static void print_measure(uint64_t p, uint64_t k, const uint8_t *result)
{
    int64_t count = sandegmur_amount(result + SANDEGMUR_RESULT_COUNT_AT);
    int64_t total = sandegmur_amount(result + SANDEGMUR_RESULT_TOTAL_AT);
    int64_t links = sandegmur_amount(result + SANDEGMUR_RESULT_LINKS_AT);
    printf("M %" PRIu64 " %" PRIu64 " %" PRId64 " %" PRId64 " %" PRId64 "\n", p, k, count, total, links);
    for (int64_t i = 0; i < count; i++)
        printf("Q %" PRId64 " %" PRId64 "\n", i + 1, sandegmur_amount(list + SANDEGMUR_PLACE_BYTES * i));
}

/* Every measure of every plant, in the order of section 12 of FORMAT.md. A broken link ends the walk. */
static void print_all(size_t length)
{
    uint8_t result[SANDEGMUR_RESULT_BYTES];
    uint64_t p = 1, k = 1;
    while (!ferror(stdout)) {
        uint32_t number = sandegmur_settle(archive, length, p, k, list, sizeof list, result, sizeof result);
        switch (number) {
        case SANDEGMUR_NOT_REFUSED:
            print_measure(p, k, result);
            k++;
            break;
        case SANDEGMUR_NOT_ARCHIVE:
            printf("E 0 0 %" PRIu32 "\n", number);
            return;
        case SANDEGMUR_NO_PLANT:
            return;
        case SANDEGMUR_NO_MEASURE:
            p++;
            k = 1;
            break;
        case SANDEGMUR_BAD_LINK:
        case SANDEGMUR_WRONG_KIND:
            printf("E %" PRIu64 " %" PRIu64 " %" PRIu32 "\n", p, k, number);
            return;
        default:
            printf("E %" PRIu64 " %" PRIu64 " %" PRIu32 "\n", p, k, number);
            k++;
        }
    }
}

int main(int count, char **words)
{
    if (count != 2) {
        fprintf(stderr, "usage: settle FILE\n");
        return 2;
    }
    FILE *file = fopen(words[1], "rb");
    if (file == NULL) {
        perror(words[1]);
        return 1;
    }
    size_t length = fread(archive, 1, sizeof archive, file);
    if (ferror(file)) {
        perror(words[1]);
        return 1;
    }
    fclose(file);
    print_all(length);
    if (fflush(stdout) != 0 || ferror(stdout)) {
        perror("standard output");
        return 1;
    }
    return 0;
}
