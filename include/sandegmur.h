/* Sandegmur for hosts in C and C++: the calls on an archive of 32-byte records, on the calendar, and on lists of numbers.
 *
 * FORMAT.md has the archive's bytes, every call and every refusal, RULES.md the energy rules: docs/ of the source,
 * PREFIX/share/doc/sandegmur where it is installed. The library is for Linux on x86-64 alone.
 *
 * A call works on bytes and numbers that the caller lends, keeps nothing of them and allocates nothing. A refused call
 * returns the number of its refusal and changes no byte. There is no state between calls: they may run side by side.
 *
 * What the caller owes, since no call can see it:
 *   - each pointer names as many bytes as the length after it says, or as many numbers as the count after it says; NULL only
 *     with length or count 0. One without either names one number and is not NULL. Numbers are aligned as their type asks;
 *   - the parts of one call do not overlap. During the call nothing else writes to them, or reads those that are not const;
 *   - the stack that the call takes, SANDEGMUR_SETTLE_STACK and its like.
 *
 * The functions with a body below only lay out and read bytes, and test no value: that is for the calls.
 */
#ifndef SANDEGMUR_H
#define SANDEGMUR_H

#include <stddef.h>
#include <stdint.h>

/* The version of these declarations: the first number changes when a call or a number changes its meaning, the second
 * when something is added. */
#define SANDEGMUR_VERSION_MAJOR 1
#define SANDEGMUR_VERSION_MINOR 6

#ifdef __cplusplus
extern "C" {
#endif

/* The numbers that a call can return. */
enum {
    SANDEGMUR_NOT_REFUSED = 0,
    SANDEGMUR_NOT_ARCHIVE = 1,          /* length not 32 x 1..65,535, text or U wrong */
    SANDEGMUR_BAD_LINK = 2,             /* link not above its holder or not below U */
    SANDEGMUR_WRONG_KIND = 3,           /* wrong kind at a link; in audit any unknown kind */
    SANDEGMUR_NO_PLANT = 4,             /* no plant p */
    SANDEGMUR_NO_MEASURE = 5,           /* no measure k */
    SANDEGMUR_BAD_PLANT = 6,            /* technology, variant or nominal power */
    SANDEGMUR_BAD_MEASURE = 7,          /* direction or execution; positive for wind or solar */
    SANDEGMUR_BAD_COUNT = 8,            /* quarters not 1..2,976; before-quarters over 96 */
    SANDEGMUR_OUT_OF_RANGE = 9,         /* needed field out of range */
    SANDEGMUR_BAD_CURVE = 10,           /* under two curve points, or speeds not rising */
    SANDEGMUR_TOO_FEW_USABLE = 11,      /* fewer usable before-quarters than needed */
    SANDEGMUR_DIVISOR_ZERO = 12,        /* the before-quarters' curve power or irradiance sums to 0 */
    SANDEGMUR_NO_ROOM = 13,             /* list shorter than the quarters, or a result part that is not 24 bytes long */
    SANDEGMUR_BAD_RECORD = 14,          /* new record: not 32 bytes, kind not 1-5, or a link not 0 */
    SANDEGMUR_BAD_OWNER = 15,           /* owner unused or of the wrong kind */
    SANDEGMUR_ARCHIVE_FULL = 16,        /* U equals all records */
    SANDEGMUR_NOT_NAMED_ONCE = 17,      /* audit: a record named by none or several */
    SANDEGMUR_NOT_IN_CALENDAR = 18,     /* dated measure: a quarter past 3,506,400; delivery day: quarter 0 or past it */
    SANDEGMUR_LAST_NOT_NAMED_ONCE = 19, /* taking back: U is 1, or the last record not named by precisely one link */
    SANDEGMUR_BAD_ENERGIES = 20,        /* correction: an energy beyond 1,000,000,000 either way, or over 2,976 quarters */
    SANDEGMUR_BAD_PRICE = 21,           /* correction: a price beyond 1,000,000 either way */
    SANDEGMUR_UNEQUAL_LISTS = 22        /* correction: lists of unequal length */
};

/* Sizes and the most of each. */
enum {
    SANDEGMUR_RECORD_BYTES = 32,
    SANDEGMUR_PLACE_BYTES = 8,
    SANDEGMUR_RESULT_BYTES = 24,
    SANDEGMUR_MOST_RECORDS = 65535, /* of an archive, the head included */
    SANDEGMUR_MOST_BYTES = 2097120, /* the same in bytes */
    SANDEGMUR_MOST_BEFORE_QUARTERS = 96,
    SANDEGMUR_MOST_QUARTERS = 2976 /* a list of so many places is long enough for every measure */
};

/* The calendar of dated measures and delivery days, Gregorian and in UTC+1 all year. Day 1 is 1 January 2000, and quarter 1 its
 * first: quarter of_day of a day, 0 to 95, is 96 x (day - 1) + of_day + 1. 1 October 2026, day 9,771, begins with 937,921. */
enum {
    SANDEGMUR_QUARTERS_OF_DAY = 96,
    SANDEGMUR_OCTOBER_2026 = 937921, /* 1 October 2026, 0:00: measures from here on have the rules of October 2026 */
    SANDEGMUR_LAST_QUARTER = 3506400 /* 31 December 2099, 23:45 */
};

/* The financial correction: how far its energies and prices may reach, below 0 as well as above, and its remainder's unit. */
enum {
    SANDEGMUR_MOST_CORRECTED_ENERGY = 1000000000, /* Wh, of an amount or a balanced energy */
    SANDEGMUR_MOST_PRICE = 1000000,               /* cents per MWh */
    SANDEGMUR_MILLIONTHS_OF_CENT = 1000000        /* a millionth of a cent is 1 Wh at 1 cent per MWh */
};

/* In place of a quarter's power while not available or after market adjustment: there is no such reading. */
enum { SANDEGMUR_NO_READING = 2147483647 };

/* Bytes of stack that are enough for a call. At a first call of the shared library the dynamic linker may take some more. */
enum {
    SANDEGMUR_SETTLE_STACK = 30720, /* settle and sandegmur_settle */
    SANDEGMUR_PREVIEW_STACK = 31744,
    SANDEGMUR_AUDIT_STACK = 67584,
    SANDEGMUR_OTHER_STACK = 1024 /* fresh, append, take_back, show, delivery_day and correction */
};

/* Kinds of record. The head, record 0, has none. */
enum {
    SANDEGMUR_PLANT = 1,
    SANDEGMUR_CURVE_POINT = 2,
    SANDEGMUR_MEASURE = 3,
    SANDEGMUR_BEFORE_QUARTER = 4,
    SANDEGMUR_QUARTER = 5
};

/* A plant's technology and variant. */
enum { SANDEGMUR_WIND = 1, SANDEGMUR_SOLAR = 2, SANDEGMUR_OTHER = 3 };
enum { SANDEGMUR_SPITZ = 1, SANDEGMUR_PAUSCHAL = 2 };

/* A measure's direction, positive where feed-in is raised, and execution. */
enum { SANDEGMUR_POSITIVE = 1, SANDEGMUR_NEGATIVE = 2 };
enum { SANDEGMUR_REQUESTED = 1, SANDEGMUR_TOLERATED = 2, SANDEGMUR_BOTH_SIDES_FIXED = 3 };

/* A before-quarter's mark. */
enum { SANDEGMUR_NOT_MARKED = 0, SANDEGMUR_MARKED = 1 };

/* The byte at which a field starts: kinds, technologies and their like have one byte, the head's text four, links, U and dates
 * four (unsigned), powers, limits, speeds and weather four (signed), each number of the result eight (signed). */
enum {
    SANDEGMUR_HEAD_TEXT_AT = 0,
    SANDEGMUR_HEAD_USED_AT = 4,
    SANDEGMUR_HEAD_FIRST_PLANT_AT = 8,

    SANDEGMUR_KIND_AT = 0, /* in every record but the head, as the next one */
    SANDEGMUR_NEXT_AT = 4, /* link to the next record of the same chain */

    SANDEGMUR_PLANT_TECHNOLOGY_AT = 1,
    SANDEGMUR_PLANT_VARIANT_AT = 2,
    SANDEGMUR_PLANT_FIRST_CURVE_POINT_AT = 8,
    SANDEGMUR_PLANT_FIRST_MEASURE_AT = 12,
    SANDEGMUR_PLANT_NOMINAL_AT = 16,

    SANDEGMUR_CURVE_POINT_SPEED_AT = 8,
    SANDEGMUR_CURVE_POINT_POWER_AT = 12,

    SANDEGMUR_MEASURE_DIRECTION_AT = 1,
    SANDEGMUR_MEASURE_EXECUTION_AT = 2,
    SANDEGMUR_MEASURE_FIRST_BEFORE_QUARTER_AT = 8,
    SANDEGMUR_MEASURE_FIRST_QUARTER_AT = 12, /* the link */
    SANDEGMUR_MEASURE_DATE_AT = 16,          /* the first quarter's number in the calendar, 0 for no date */

    SANDEGMUR_BEFORE_QUARTER_MARK_AT = 1,
    SANDEGMUR_BEFORE_QUARTER_MEASURED_AT = 8,
    SANDEGMUR_BEFORE_QUARTER_WEATHER_AT = 16,

    SANDEGMUR_QUARTER_MONTH_AT = 1,
    SANDEGMUR_QUARTER_OF_DAY_AT = 2,
    SANDEGMUR_QUARTER_MEASURED_AT = 8,
    SANDEGMUR_QUARTER_LIMIT_AT = 12,
    SANDEGMUR_QUARTER_WEATHER_AT = 16,
    SANDEGMUR_QUARTER_PLANNED_AT = 20,
    SANDEGMUR_QUARTER_NONAVAILABILITY_AT = 24,
    SANDEGMUR_QUARTER_MARKET_ADJUSTMENT_AT = 28,

    SANDEGMUR_RESULT_COUNT_AT = 0,
    SANDEGMUR_RESULT_TOTAL_AT = 8,
    SANDEGMUR_RESULT_LINKS_AT = 16
};

/* ---- the calls */

/* Settles measure place k of plant place p, both counted from 1 along their chains.
 * list: a place for every 8 of its bytes. The first places get the amounts in Wh, one for each quarter, little-endian in
 *     two's complement; later places, and bytes past the last whole place, keep theirs.
 * result: 24 bytes, which get the count of quarters, the total in Wh and the links followed, 8 bytes each, like the amounts.
 * sandegmur_amount reads each of these numbers. Refused with 1 to 13 or 18.
 *
 * settle is the same entry. Its name is weak in the static library, and looked up in the program first if the library is
 * shared: a host that has a function settle of its own keeps it, and calls sandegmur_settle. */
uint32_t sandegmur_settle(const uint8_t *archive, size_t archive_length, uint64_t p, uint64_t k, uint8_t *list,
                          size_t list_length, uint8_t *result, size_t result_length);
#ifndef SANDEGMUR_NO_SETTLE /* to be defined by a host whose own settle is declared otherwise */
uint32_t settle(const uint8_t *archive, size_t archive_length, uint64_t p, uint64_t k, uint8_t *list, size_t list_length,
                uint8_t *result, size_t result_length);
#endif

/* Writes the head of an archive with no record but the head, and zeros every other byte. Refused with 1 for the length. */
uint32_t sandegmur_fresh(uint8_t *archive, size_t archive_length);

/* Files a record of 32 bytes, with every link 0, under the record numbered owner: a plant under the head, 0; a curve point or
 * a measure under a plant; a before-quarter or a quarter under a measure. It becomes the last of its chain, and its number is
 * U, what sandegmur_used gives before the call; after it U is one more. Refused with 1, 14, 15, 2, 3 or 16. */
uint32_t sandegmur_append(uint8_t *archive, size_t archive_length, uint64_t owner, const uint8_t *record, size_t record_length);

/* Takes the last record, number U - 1, back: its 32 bytes become 0, so do the four of the one link that names it, and U is one
 * less; no other byte changes. After an append to an archive that sandegmur_audit does not refuse, this gives the archive from
 * before the append, byte for byte if the new record's place was all 0; other bytes that stood there are lost. Called again, it
 * takes back the record before. Refused with 1 or 19. */
uint32_t sandegmur_take_back(uint8_t *archive, size_t archive_length);

/* What sandegmur_settle would give for plant place p and measure place k, had sandegmur_append filed the record under owner: the
 * same number, amounts and result, and nothing is filed. A record of any kind can be previewed, also one that does not belong to
 * the measure.
 * archive: written during the call, so not in read-only memory, and nothing else reads or writes it meanwhile. When the call
 *     returns, it is byte for byte as before, refused or not, sound or not. Bytes that stood in the new record's place come back
 *     too, which sandegmur_take_back would make 0.
 * list, result: as for sandegmur_settle. A quarter that is previewed under the measure needs its place in the list too.
 * Refused as sandegmur_append with 1, 14, 15, 2, 3 or 16; then, with the record in its place, as sandegmur_settle with 2 to 13 or
 * 18. List and result then keep their bytes. */
uint32_t sandegmur_preview(uint8_t *archive, size_t archive_length, uint64_t owner, const uint8_t *record, size_t record_length,
                           uint64_t p, uint64_t k, uint8_t *list, size_t list_length, uint8_t *result, size_t result_length);

/* Tests the kinds and links of all used records. Refused with 1, 2, 3 or 17. */
uint32_t sandegmur_audit(const uint8_t *archive, size_t archive_length);

/* Where in the archive the 32 bytes of a record start; archive_length if there is no such record, or no archive. */
uint64_t sandegmur_show(const uint8_t *archive, size_t archive_length, uint64_t number);

/* The delivery day of a quarter, by its number in the calendar: the fourth working day of the month after the quarter's, Monday
 * to Friday without the listed days.
 * holidays: numbers of days, however many and in any order. Repeats, weekends, days of other months, 0 and numbers beyond the
 *     calendar have no effect.
 * day: not NULL, and apart from the list. It gets the number of the day, or 0 where the list leaves that month fewer than four.
 * Refused with 18 for quarter 0 or one past SANDEGMUR_LAST_QUARTER; day then keeps its number. */
uint32_t sandegmur_delivery_day(uint64_t quarter, const uint32_t *holidays, size_t holiday_count, uint64_t *day);

/* The financial correction: (amount - balanced) x price / 1,000,000 in cents, added up exactly over all quarters and then rounded
 * down once, toward minus infinity. Above 0 it raises the plant operator's claim, below 0 it lowers it.
 * amounts, balanced, prices: a place for each quarter, energies in Wh and prices in cents per MWh. The list of sandegmur_settle
 *     can be handed on as it is: an array of int64_t, lent to it as bytes, holds the amounts, as many as it counts quarters.
 * cents, remainder: not NULL, and apart from the lists and each other. They get whole cents and the rest, 0 to 999,999 millionths
 *     of a cent: SANDEGMUR_MILLIONTHS_OF_CENT x cents + remainder is the exact sum. -1 Wh at 1 cent per MWh gives -1 and
 *     999,999, three such quarters -1 and 999,997, three empty lists 0 and 0.
 * A single quarter is a list of one. Its cents are rounded down too, so those of the quarters need not add up to those of all.
 * Refused with 22 for lists of unequal length; then 20 for more than SANDEGMUR_MOST_QUARTERS quarters, or for an energy anywhere
 * beyond SANDEGMUR_MOST_CORRECTED_ENERGY either way, also for an amount that sandegmur_settle gave; then 21 for a price anywhere beyond
 * SANDEGMUR_MOST_PRICE either way. Cents and remainder then keep their numbers. */
uint32_t sandegmur_correction(const int64_t *amounts, size_t amount_count, const int64_t *balanced, size_t balanced_count,
                              const int64_t *prices, size_t price_count, int64_t *cents, uint64_t *remainder);

/* ---- bytes */

/* A number of 32 bits into four bytes, and out of them. */
static inline void sandegmur_put32(uint8_t *at, uint32_t value)
{
    int i;
    for (i = 0; i < 4; i++)
        at[i] = (uint8_t)(value >> (8 * i) & 0xff);
}

static inline uint32_t sandegmur_get32(const uint8_t *at)
{
    return (uint32_t)at[0] | (uint32_t)at[1] << 8 | (uint32_t)at[2] << 16 | (uint32_t)at[3] << 24;
}

/* U, the count of used records, as the head has it; 0, which no archive has, if there are fewer than 32 bytes. */
static inline uint32_t sandegmur_used(const uint8_t *archive, size_t archive_length)
{
    return archive_length < SANDEGMUR_RECORD_BYTES ? 0 : sandegmur_get32(archive + SANDEGMUR_HEAD_USED_AT);
}

/* An amount from the 8 bytes of a place of the list, or a number from 8 bytes of the result. */
static inline int64_t sandegmur_amount(const uint8_t *place)
{
    uint64_t bits = sandegmur_get32(place) | (uint64_t)sandegmur_get32(place + 4) << 32;
    return bits >> 63 == 0 ? (int64_t)bits : -(int64_t)~bits - 1;
}

/* A record of a kind whose other bytes are 0. */
static inline void sandegmur_record(uint8_t *record, uint8_t kind)
{
    int i;
    for (i = 0; i < SANDEGMUR_RECORD_BYTES; i++)
        record[i] = 0;
    record[SANDEGMUR_KIND_AT] = kind;
}

/* Each of these writes the 32 bytes of a new record, ready for sandegmur_append: links and free bytes are 0. Power in W, wind
 * speed in tenths of m/s, irradiance in W/m2. A field that the plant's technology and variant do not need may be 0. */
static inline void sandegmur_plant(uint8_t *record, uint8_t technology, uint8_t variant, int32_t nominal)
{
    sandegmur_record(record, SANDEGMUR_PLANT);
    record[SANDEGMUR_PLANT_TECHNOLOGY_AT] = technology;
    record[SANDEGMUR_PLANT_VARIANT_AT] = variant;
    sandegmur_put32(record + SANDEGMUR_PLANT_NOMINAL_AT, (uint32_t)nominal);
}

static inline void sandegmur_curve_point(uint8_t *record, int32_t speed, int32_t power)
{
    sandegmur_record(record, SANDEGMUR_CURVE_POINT);
    sandegmur_put32(record + SANDEGMUR_CURVE_POINT_SPEED_AT, (uint32_t)speed);
    sandegmur_put32(record + SANDEGMUR_CURVE_POINT_POWER_AT, (uint32_t)power);
}

static inline void sandegmur_measure(uint8_t *record, uint8_t direction, uint8_t execution)
{
    sandegmur_record(record, SANDEGMUR_MEASURE);
    record[SANDEGMUR_MEASURE_DIRECTION_AT] = direction;
    record[SANDEGMUR_MEASURE_EXECUTION_AT] = execution;
}

/* first: the number of the measure's first quarter in the calendar; the next quarters count on by 1. Month and quarter of the
 * day follow from it, and are not read in the quarters. With 0 the measure has no date, as sandegmur_measure's. */
static inline void sandegmur_dated_measure(uint8_t *record, uint8_t direction, uint8_t execution, uint32_t first)
{
    sandegmur_measure(record, direction, execution);
    sandegmur_put32(record + SANDEGMUR_MEASURE_DATE_AT, first);
}

/* Before-quarters are filed latest first. */
static inline void sandegmur_before_quarter(uint8_t *record, uint8_t mark, int32_t measured, int32_t weather)
{
    sandegmur_record(record, SANDEGMUR_BEFORE_QUARTER);
    record[SANDEGMUR_BEFORE_QUARTER_MARK_AT] = mark;
    sandegmur_put32(record + SANDEGMUR_BEFORE_QUARTER_MEASURED_AT, (uint32_t)measured);
    sandegmur_put32(record + SANDEGMUR_BEFORE_QUARTER_WEATHER_AT, (uint32_t)weather);
}

/* of_day: 4 x hour + quarter of the hour, 0 to 95, in UTC+1 all year. Both readings of October 2026 are none. */
static inline void sandegmur_quarter(uint8_t *record, uint8_t month, uint8_t of_day, int32_t measured, int32_t limit,
                                     int32_t weather, int32_t planned)
{
    sandegmur_record(record, SANDEGMUR_QUARTER);
    record[SANDEGMUR_QUARTER_MONTH_AT] = month;
    record[SANDEGMUR_QUARTER_OF_DAY_AT] = of_day;
    sandegmur_put32(record + SANDEGMUR_QUARTER_MEASURED_AT, (uint32_t)measured);
    sandegmur_put32(record + SANDEGMUR_QUARTER_LIMIT_AT, (uint32_t)limit);
    sandegmur_put32(record + SANDEGMUR_QUARTER_WEATHER_AT, (uint32_t)weather);
    sandegmur_put32(record + SANDEGMUR_QUARTER_PLANNED_AT, (uint32_t)planned);
    sandegmur_put32(record + SANDEGMUR_QUARTER_NONAVAILABILITY_AT, SANDEGMUR_NO_READING);
    sandegmur_put32(record + SANDEGMUR_QUARTER_MARKET_ADJUSTMENT_AT, SANDEGMUR_NO_READING);
}

/* Writes bytes 24-31 alone, into a record that sandegmur_quarter has written: what the plant could still feed in while part of it
 * was not available, and what it would have fed in after the market had it adjusted, each in W or SANDEGMUR_NO_READING. The rules
 * of October 2026 read them: both in wind Pauschal, the first in other Pauschal too, of measures dated SANDEGMUR_OCTOBER_2026 or
 * later. 0 is a power there: 0 W. */
static inline void sandegmur_quarter_readings(uint8_t *record, int32_t nonavailability, int32_t market_adjustment)
{
    sandegmur_put32(record + SANDEGMUR_QUARTER_NONAVAILABILITY_AT, (uint32_t)nonavailability);
    sandegmur_put32(record + SANDEGMUR_QUARTER_MARKET_ADJUSTMENT_AT, (uint32_t)market_adjustment);
}

/* What a number that a call returned says, in English. */
static inline const char *sandegmur_refusal_text(uint32_t number)
{
    switch (number) {
    case SANDEGMUR_NOT_REFUSED:
        return "not refused";
    case SANDEGMUR_NOT_ARCHIVE:
        return "not an archive: its length, its text AARB or its count of used records is wrong";
    case SANDEGMUR_BAD_LINK:
        return "a link is not above the record that holds it, or leads to an unused record";
    case SANDEGMUR_WRONG_KIND:
        return "a link leads to a record of the wrong kind, or a used record has an unknown kind";
    case SANDEGMUR_NO_PLANT:
        return "there is no such plant";
    case SANDEGMUR_NO_MEASURE:
        return "the plant has no such measure";
    case SANDEGMUR_BAD_PLANT:
        return "the plant's technology, variant or nominal power is not allowed";
    case SANDEGMUR_BAD_MEASURE:
        return "the measure's direction or execution is not allowed, or it raises wind or solar";
    case SANDEGMUR_BAD_COUNT:
        return "the measure has no quarter or more than 2,976, or more than 96 before-quarters";
    case SANDEGMUR_OUT_OF_RANGE:
        return "a needed field is out of range";
    case SANDEGMUR_BAD_CURVE:
        return "the curve has fewer than two points, or its speeds do not rise";
    case SANDEGMUR_TOO_FEW_USABLE:
        return "too few before-quarters are usable";
    case SANDEGMUR_DIVISOR_ZERO:
        return "the curve power or irradiance of the before-quarters sums to 0";
    case SANDEGMUR_NO_ROOM:
        return "the list has too few places for the quarters, or the result part is not 24 bytes long";
    case SANDEGMUR_BAD_RECORD:
        return "the new record is not 32 bytes long, has an unknown kind or a link that is not 0";
    case SANDEGMUR_BAD_OWNER:
        return "the owner is an unused record or has the wrong kind";
    case SANDEGMUR_ARCHIVE_FULL:
        return "the archive has no unused record left";
    case SANDEGMUR_NOT_NAMED_ONCE:
        return "a used record is named by no link or by several";
    case SANDEGMUR_NOT_IN_CALENDAR:
        return "a quarter is not in the calendar, whose quarters are 1 to 3,506,400";
    case SANDEGMUR_LAST_NOT_NAMED_ONCE:
        return "there is no record to take back, or the last one is named by no link or by several";
    case SANDEGMUR_BAD_ENERGIES:
        return "an amount or balanced energy is beyond 1,000,000,000 Wh either way, or there are more than 2,976 quarters";
    case SANDEGMUR_BAD_PRICE:
        return "a price is beyond 1,000,000 cents per MWh either way";
    case SANDEGMUR_UNEQUAL_LISTS:
        return "the lists of amounts, balanced energies and prices are not equally long";
    default:
        return "no refusal has this number";
    }
}

#ifdef __cplusplus
}
#endif

#endif
