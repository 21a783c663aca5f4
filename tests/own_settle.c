/* A host that has a function settle of its own: the library's gives way to it, and sandegmur_settle doesn't go through it. Exits with
 * 0 if both answer. */
#define SANDEGMUR_NO_SETTLE
#include "sandegmur.h"

int settle(int account)
{
    return account + 1;
}

int main(void)
{
    uint8_t archive[SANDEGMUR_RECORD_BYTES], result[SANDEGMUR_RESULT_BYTES];
    if (sandegmur_fresh(archive, sizeof archive) != SANDEGMUR_NOT_REFUSED)
        return 1;
    if (sandegmur_settle(archive, sizeof archive, 1, 1, NULL, 0, result, sizeof result) != SANDEGMUR_NO_PLANT)
        return 1;
    return settle(1) != 2;
}
