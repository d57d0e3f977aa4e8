/*
 * The thirteen exports over the real ones, which .ci/faults has renamed, with the
 * faults of faults.h. The variable EXAMINATION_FAULT has the number of the one that
 * this process is to have; unset or 0 is none. It is linked by the tests of the
 * tests alone.
 */
#include <stdatomic.h>
#include <stdio.h>
#include <stdlib.h>
#include <string.h>
#include <threads.h>
#include <time.h>

#include "../c/examination.h"

extern __typeof__(examination_read) real_read;
extern __typeof__(examination_rate) real_rate;
extern __typeof__(examination_weighted) real_weighted;
extern __typeof__(examination_classes) real_classes;
extern __typeof__(examination_search) real_search;
extern __typeof__(examination_wanted) real_wanted;
extern __typeof__(examination_better) real_better;
extern __typeof__(examination_mark) real_mark;
extern __typeof__(examination_hundred) real_hundred;
extern __typeof__(examination_by_key) real_by_key;
extern __typeof__(examination_archive) real_archive;
extern __typeof__(examination_board) real_board;
extern __typeof__(examination_gaps) real_gaps;

/* Behind the longest file, which is an archive form; and what is refused there. */
#define LAST_PLACE_OF_ALL EXAMINATION_MOST_ARCHIVE_BYTES
#define LAST_REFUSAL (14 * EXAMINATION_REFUSED + LAST_PLACE_OF_ALL)

/* Behind the longest file without an edition. */
#define PLACE_BEFORE (LAST_PLACE_OF_ALL - 2)

enum fault {
    NO_FAULT,
#define FAULT(name, words, file, test) name,
#include "faults.h"
#undef FAULT
    FAULTS
};

/* Whether this is the fault of the process. A number that isn't there ends it: it
 * would pass for no fault. */
static int is(enum fault fault)
{
    static atomic_int kept = -1;
    int chosen = atomic_load(&kept);
    if (chosen < 0) {
        const char *text = getenv("EXAMINATION_FAULT");
        char *end = NULL;
        const long number = text == NULL ? 0 : strtol(text, &end, 10);
        if (number < 0 || number >= FAULTS || (text != NULL && (end == text || *end != '\0'))) {
            fprintf(stderr, "EXAMINATION_FAULT is 0 to %d\n", FAULTS - 1);
            abort();
        }
        chosen = (int)number;
        atomic_store(&kept, chosen);
    }
    return chosen == (int)fault;
}

static int is_3000th(atomic_uint *calls)
{
    return atomic_fetch_add(calls, 1) % 3000 == 2999;
}

/* The lines of a file, 0 if it is refused. */
static size_t lines_of(const uint8_t *file, size_t file_len)
{
    uint32_t counts[EXAMINATION_READ_PLACES];
    return examination_is_refused(real_read(file, file_len, counts)) ? 0 : counts[0];
}

/* The length that is taken for a sheet's. */
static size_t taken_length(enum fault fault, const uint8_t *file, size_t file_len, size_t sheet_len)
{
    if (is(SHEET_CUT)) return sheet_len / 4 * 4;
    if (is(SHEET_OF_16_BITS)) return sheet_len & 65535;
    return is(fault) && sheet_len > 4096 ? 4 * lines_of(file, file_len) : sheet_len;
}

/* The length that is taken for a file's. */
static size_t taken_file(size_t file_len)
{
    return is(FILE_OF_16_BITS) ? file_len & 65535 : file_len;
}

/* What an export returns, with the faults that all of them have. */
static uint32_t returns(uint32_t returned, size_t file_len)
{
    static void *volatile kept;
    if (is(MEMORY_KEPT)) kept = malloc(1);
    (void)kept;
    if (!examination_is_refused(returned)) return returned;
    const uint32_t place = examination_place(returned);
    if (is(PLACE) && place > 0) return returned - 1;
    if ((is(LAST_PLACE) || is(LAST_PLACE_WRAPPED)) && place == LAST_PLACE_OF_ALL)
        return returned - 1;
    if ((is(PLACE_BEFORE_LAST) || is(PLACE_BEFORE_LAST_WRAPPED)) && place == PLACE_BEFORE)
        return returned - 1;
    if (is(EMPTY_FILE) && file_len == 0) return 2 * EXAMINATION_REFUSED;
    if (is(LONG_TAIL) && file_len > 4096 && place > 0) return returned + 1;
    return returned;
}

/* Whether a file begins with this edition. */
static int is_opened(const uint8_t *file, size_t file_len, unsigned edition)
{
    return file_len > 1 && file[0] == 0x56 && file[1] == edition;
}

/* A file that begins with an edition, as if it were another. */
struct retyped {
    uint8_t bytes[EXAMINATION_DECIDING_BYTES];
    size_t count;
};

static struct retyped retype(uint8_t edition, const uint8_t *file, size_t file_len)
{
    struct retyped other;
    other.count = file_len < sizeof other.bytes ? file_len : sizeof other.bytes;
    memcpy(other.bytes, file, other.count);
    other.bytes[1] = edition;
    return other;
}

static uint32_t read_in(uint8_t edition, const uint8_t *file, size_t file_len, uint32_t answer[4])
{
    const struct retyped other = retype(edition, file, file_len);
    return real_read(other.bytes, other.count, answer);
}

/* Whether the refusal is that of a ride, and this fault takes it. */
static int takes_ride(enum fault fault, uint32_t returned)
{
    return is(fault) && examination_ground(returned) == EXAMINATION_RIDE_RETIRED;
}

/* Whether a file that is accepted has a ride. */
static int has_ride(const uint8_t *file, size_t file_len)
{
    size_t at = file_len > 1 && file[0] == 0x56 ? 2 : 0;
    while (at < file_len && file[at] != 0x45 && file[at] != 0x46) at += file[at] == 0x4C ? 3 : 5;
    return at < file_len && file[at] == 0x46;
}

/* What read returns of a ride. */
static uint32_t fault_ride(uint32_t returned, const uint8_t *file, size_t file_len,
                           uint32_t answer[4])
{
    const uint32_t ground = examination_ground(returned), place = examination_place(returned);
    uint32_t counts[EXAMINATION_READ_PLACES];
    if (takes_ride(RIDE_TAKEN, returned)) return read_in(1, file, file_len, answer);
    if (is(RIDE_TRIED_LATE) && ground == EXAMINATION_RIDE_RETIRED) {
        const uint32_t first = read_in(1, file, file_len, counts);
        return examination_is_refused(first) && examination_place(first) == place ? first
                                                                                  : returned;
    }
    if (is(RIDE_OF_EDITION_1) && ground >= 7 && ground <= 12 && file[place] == 0x46 &&
        is_opened(file, file_len, 1))
        return EXAMINATION_RIDE_RETIRED * EXAMINATION_REFUSED + place;
    return returned;
}

/* What read returns of an edition. */
static uint32_t fault_edition(uint32_t returned, const uint8_t *file, size_t file_len,
                              uint32_t answer[4])
{
    const uint32_t ground = examination_ground(returned), place = examination_place(returned);
    if (ground == EXAMINATION_EDITION_UNKNOWN) {
        if (is(EDITION_0_TAKEN) && file[1] == 0) return read_in(1, file, file_len, answer);
        if (is(NEXT_EDITION_TAKEN) && file[1] == EXAMINATION_LATEST_EDITION + 1)
            return read_in(EXAMINATION_LATEST_EDITION, file, file_len, answer);
    }
    if (is(UNKNOWN_FIRST) && ground == EXAMINATION_EDITION_NOT_FIRST &&
        (file[place + 1] == 0 || file[place + 1] > EXAMINATION_LATEST_EDITION))
        return EXAMINATION_EDITION_UNKNOWN * EXAMINATION_REFUSED + place;
    if (is(SECOND_UNKNOWN_ALONE) && ground == EXAMINATION_EDITION_NOT_FIRST && place == 2 &&
        file[3] > EXAMINATION_LATEST_EDITION)
        return EXAMINATION_EDITION_UNKNOWN * EXAMINATION_REFUSED + place;
    if (is(CUT_NOT_FIRST) && ground == 3 && place > 0 && file[place] == 0x56)
        return EXAMINATION_EDITION_NOT_FIRST * EXAMINATION_REFUSED + place;
    if (is(PLACE_BEHIND_EDITION) && place > 1 && file_len > 1 && file[0] == 0x56)
        return returned - 2;
    return fault_ride(returned, file, file_len, answer);
}

uint32_t examination_read(const uint8_t *file, size_t file_len, uint32_t answer[4])
{
    uint32_t returned = real_read(file, taken_file(file_len), answer);
    if (examination_is_refused(returned))
        returned = fault_edition(returned, file, file_len, answer);
    if (is(WRONG_SLOT) && returned == 0) answer[2]++;
    if (is(CALLS_OF_8_BITS) && returned == 0) answer[2] &= 255;
    if (is(CYCLE_OF_13_BITS) && returned == 0) answer[3] &= 8191;
    return returns(returned, file_len);
}

/* The rating of a sheet whose first start has lost its sign. */
static uint32_t rate_unsigned(const uint8_t *file, size_t file_len, const uint8_t *sheet,
                              size_t sheet_len, uint32_t answer[2])
{
    uint8_t copy[64];
    memcpy(copy, sheet, sheet_len);
    copy[0] &= 127;
    return real_rate(file, file_len, copy, sheet_len, answer);
}

/* Answers as the call before did if that one's lengths were the same. */
static void answer_from_before(size_t file_len, size_t sheet_len, uint32_t answer[2])
{
    static _Thread_local struct {
        size_t file_len, sheet_len;
        uint32_t answer[2];
    } before;
    if (before.file_len == file_len && before.sheet_len == sheet_len) {
        memcpy(answer, before.answer, sizeof before.answer);
    } else {
        before.file_len = file_len;
        before.sheet_len = sheet_len;
        memcpy(before.answer, answer, sizeof before.answer);
    }
}

/* Answers by way of a row that all threads write to. */
static void answer_by_shared_row(uint32_t answer[2])
{
    static volatile uint32_t row[2];
    row[0] = answer[0];
    row[1] = answer[1];
    thrd_sleep(&(struct timespec){.tv_nsec = 1000}, NULL);
    answer[0] = row[0];
    answer[1] = row[1];
}

uint32_t examination_rate(const uint8_t *file, size_t file_len, const uint8_t *sheet,
                          size_t sheet_len, uint32_t answer[2])
{
    static atomic_uint calls;
    if (is(SHEET_FIRST) && sheet_len % 4 != 0) return 15 * EXAMINATION_REFUSED;
    if (is(SIGN_DROPPED) && sheet_len >= 4 && sheet_len <= 64)
        return rate_unsigned(file, file_len, sheet, sheet_len, answer);
    const size_t taken = taken_length(LONG_SHEET_RATED, file, file_len, sheet_len);
    const uint32_t returned = real_rate(file, file_len, sheet, taken, answer);
    if (takes_ride(RIDE_TAKEN_BY_RATE, returned)) {
        const struct retyped other = retype(1, file, file_len);
        return real_rate(other.bytes, other.count, sheet, taken, answer);
    }
    if (is(SHEET_CHANGED) && sheet_len > 0) ((uint8_t *)sheet)[0] ^= 1;
    if (is(EVERY_3000TH_RATE) && is_3000th(&calls) && returned == 0) answer[1]++;
    if (is(SUM_OF_16_BITS) && returned == 0) answer[1] &= 65535;
    if (is(RATED_BY_EDITION) && returned == 0 && is_opened(file, file_len, 2)) answer[1]++;
    if (is(RATED_WITH_RIDES) && returned == 0 && has_ride(file, file_len)) answer[1]++;
    if (is(SHARED_ROW) && returned == 0) answer_by_shared_row(answer);
    if (is(FROM_BEFORE) && returned == 0) answer_from_before(file_len, sheet_len, answer);
    return returns(returned, file_len);
}

uint32_t examination_weighted(const uint8_t *file, size_t file_len, const uint8_t *sheet,
                              size_t sheet_len, uint32_t answer[2])
{
    const size_t taken = taken_length(LONG_SHEET_WEIGHTED, file, file_len, sheet_len);
    const uint32_t returned = real_weighted(file, file_len, sheet, taken, answer);
    if (is(NOT_WEIGHTED) && returned == 0) {
        uint8_t class_row[64];
        uint16_t weight_row[64];
        uint32_t count, counts[4];
        real_classes(file, file_len, class_row, 64, weight_row, 64, &count);
        real_read(file, file_len, counts);
        if (count < counts[1]) answer[1] -= answer[0];
    }
    return returns(returned, file_len);
}

uint32_t examination_classes(const uint8_t *file, size_t file_len, uint8_t *class_row,
                             size_t class_len, uint16_t *weight_row, size_t weight_len,
                             uint32_t answer[1])
{
    if (is(ROWS_FIRST) && class_len != 64) return 17 * EXAMINATION_REFUSED;
    const size_t length = is(LONG_CLASS_ROW) && class_len > 4096 ? 64 : class_len;
    const uint32_t returned =
        real_classes(file, file_len, class_row, length, weight_row, weight_len, answer);
    if (returned != 0) return returns(returned, file_len);
    if (is(UNSERVED_AS_0) && class_row[63] == EXAMINATION_UNSERVED) class_row[63] = 0;
    if (is(CLASSES_BY_EDITION) && is_opened(file, file_len, 2)) answer[0]++;
    for (size_t stop = 63; is(WEIGHT_ELSEWHERE) && stop > 0; stop--) {
        const uint8_t lowest = class_row[stop];
        if (lowest == EXAMINATION_UNSERVED || lowest == stop) continue;
        weight_row[stop] = weight_row[lowest];
        weight_row[lowest] = 0;
        break;
    }
    return returned;
}

/* What stands in the start row behind a search, the last start before it being this. */
static void fault_starts(uint32_t returned, int32_t *start_row, size_t start_len, int32_t last)
{
    if (returned <= EXAMINATION_STOPPED) {
        if (is(LAST_START) || (is(SIXTEENTH_START) && start_len == 16))
            start_row[start_len - 1] = last;
        if (is(STARTS_SWAPPED) && start_len > 2) {
            const int32_t start = start_row[1];
            start_row[1] = start_row[2];
            start_row[2] = start;
        }
        return;
    }
    if (is(NONE_WRITES) && returned == EXAMINATION_STOPPED_WITH_NONE) start_row[0] = 0;
    if (is(ROW_ON_REFUSAL) && examination_is_refused(returned) && start_len > 0) start_row[0] = 0;
}

uint32_t examination_search(const uint8_t *file, size_t file_len, int32_t *start_row,
                            size_t start_len, uint32_t budget, uint32_t answer[3])
{
    const int32_t last = start_len > 0 ? start_row[start_len - 1] : 0;
    uint32_t taken = budget;
    if (is(BUDGET_MORE) && budget < UINT32_MAX) taken++;
    if (is(BUDGET_SIGNED) && budget > 1u << 31) taken = 0;
    if (is(LONG_START_ROW) && start_len > 4096) start_len = lines_of(file, file_len);
    const uint32_t returned = real_search(file, file_len, start_row, start_len, taken, answer);
    /* The tries are those that were asked for, so that only the fault shows. */
    if (taken != budget && returned <= EXAMINATION_STOPPED_WITH_NONE && answer[2] == taken)
        answer[2] = budget;
    if (is(TRIES) && returned == EXAMINATION_FINISHED) answer[2]--;
    if (is(SEARCHED_BY_EDITION) && returned == EXAMINATION_FINISHED && is_opened(file, file_len, 2))
        answer[2]++;
    if (is(TRIES_OF_16_BITS) && !examination_is_refused(returned)) answer[2] &= 65535;
    fault_starts(returned, start_row, start_len, last);
    if (is(EXACT_BUDGET) && returned == EXAMINATION_FINISHED && answer[2] == budget)
        return EXAMINATION_STOPPED;
    return returns(returned, file_len);
}

/* The gap that is taken for the wanted one. */
static uint16_t taken_gap(uint16_t wanted)
{
    if (is(GAP_MORE) && wanted < UINT16_MAX) return wanted + 1;
    if (is(GAP_LESS) && wanted > 0) return wanted - 1;
    if (is(GAP_OF_10_BITS)) return wanted & 1023;
    return is(GAP_SIGNED) && wanted > INT16_MAX ? 0 : wanted;
}

/* The starts of a finished search. */
static void put_best(const uint8_t *file, size_t file_len, int32_t *start_row, size_t start_len)
{
    int32_t best[EXAMINATION_MOST_LINES];
    uint32_t answer[EXAMINATION_SEARCH_PLACES];
    const uint32_t returned = real_search(file, file_len, best, start_len, 20000, answer);
    if (returned == EXAMINATION_FINISHED) memcpy(start_row, best, start_len * sizeof best[0]);
}

/* What stands in the rows behind a wanted gap. */
static void fault_wanted(uint32_t returned, int32_t *start_row, size_t start_len,
                         uint32_t answer[1])
{
    static atomic_uint calls;
    if (examination_is_refused(returned)) {
        if (is(WANTED_ROW_ON_REFUSAL) && start_len > 0) start_row[0] = 0;
        if (is(WANTED_CLEARED_ON_REFUSAL)) answer[0] = 0;
        return;
    }
    if (is(WRITTEN_ON_NONE) && returned == EXAMINATION_WANTED_NONE) start_row[0] = 0;
    if (is(WRITTEN_ON_STOPPED) && returned == EXAMINATION_WANTED_STOPPED) start_row[0] = 0;
    if (is(WANTED_TRIES) && returned == EXAMINATION_WANTED_FOUND) answer[0]--;
    if (is(WANTED_TRIES_OF_16_BITS)) answer[0] &= 65535;
    if (is(EVERY_3000TH_WANTED) && is_3000th(&calls)) answer[0]++;
}

/* What is returned in place of found, none or stopped. */
static uint32_t returned_for(uint32_t returned, int exactly)
{
    if (is(FOUND_AS_NONE) && returned == EXAMINATION_WANTED_FOUND) return EXAMINATION_WANTED_NONE;
    if (is(NONE_AS_FOUND) && returned == EXAMINATION_WANTED_NONE) return EXAMINATION_WANTED_FOUND;
    if (is(STOPPED_AS_NONE) && returned == EXAMINATION_WANTED_STOPPED)
        return EXAMINATION_WANTED_NONE;
    if (is(NONE_AS_STOPPED) && returned == EXAMINATION_WANTED_NONE)
        return EXAMINATION_WANTED_STOPPED;
    return is(EXACT_WANTED_BUDGET) && exactly ? EXAMINATION_WANTED_STOPPED : returned;
}

uint32_t examination_wanted(const uint8_t *file, size_t file_len, int32_t *start_row,
                            size_t start_len, uint16_t wanted, uint32_t budget,
                            uint32_t answer[1])
{
    uint32_t taken = budget;
    if (is(WANTED_BUDGET_MORE) && budget < UINT32_MAX) taken++;
    if (is(WANTED_BUDGET_SIGNED) && budget > 1u << 31) taken = 0;
    if (is(WANTED_ROW_FIRST) && start_len > 16) return 16 * EXAMINATION_REFUSED;
    if (is(WANTED_LONG_ROW) && start_len > 4096) start_len = lines_of(file, file_len);
    const uint32_t returned =
        real_wanted(file, file_len, start_row, start_len, taken_gap(wanted), taken, answer);
    /* The tries are those that were asked for, so that only the fault shows. */
    if (taken != budget && returned == EXAMINATION_WANTED_STOPPED) answer[0] = budget;
    fault_wanted(returned, start_row, start_len, answer);
    if (is(BEST_FOR_FIRST) && returned == EXAMINATION_WANTED_FOUND)
        put_best(file, file_len, start_row, start_len);
    if (is(LAST_PLACE_OF_WANTED) && returned == LAST_REFUSAL)
        return returned - 1;
    if (examination_is_refused(returned)) return returns(returned, file_len);
    return returns(returned_for(returned, answer[0] == budget), file_len);
}

uint32_t examination_better(const uint8_t *file, size_t file_len, const uint8_t *first,
                            size_t first_len, const uint8_t *second, size_t second_len)
{
    const size_t taken = taken_length(LONG_SHEET_BETTER, file, file_len, second_len);
    const uint32_t returned = real_better(file, file_len, first, first_len, second, taken);
    if (is(SECOND_IF_EQUAL) && returned == EXAMINATION_FIRST) {
        const uint32_t turned = real_better(file, file_len, second, taken, first, first_len);
        if (turned == EXAMINATION_FIRST) return EXAMINATION_SECOND;
    }
    if (is(FIRST_IF_NONE) && returned == EXAMINATION_NEITHER && lines_of(file, file_len) > 0)
        return EXAMINATION_FIRST;
    return returned;
}

/* What stands in the answer behind a mark, the one or the other. */
static void fault_mark(uint32_t returned, uint32_t answer[6])
{
    if (is(CLEARED_ON_REFUSAL) && examination_is_refused(returned)) answer[5] = 0;
    if (is(BEST_OF_UNDECIDED) && returned == EXAMINATION_UNDECIDED) answer[3] = answer[1];
    if (returned != EXAMINATION_DECIDED) return;
    if (is(EQUAL_NEVER)) answer[4] = 0;
    if (is(EQUAL_ALWAYS)) answer[4] = 1;
    if (is(SLOTS_SWAPPED)) {
        const uint32_t sum = answer[1];
        answer[1] = answer[3];
        answer[3] = sum;
    }
}

/* The budget that is taken for a mark's. */
static uint32_t mark_budget(uint32_t budget)
{
    if (is(BUDGET_LESS) && budget > 0) return budget - 1;
    return is(MARK_BUDGET_SIGNED) && budget > 1u << 31 ? 0 : budget;
}

/* Whether a mark that took all its budget is called undecided. */
static int is_called_undecided(uint32_t returned, const uint32_t answer[6], uint32_t budget)
{
    return is(EXACT_MARK_BUDGET) && returned == EXAMINATION_DECIDED && answer[5] == budget;
}

uint32_t examination_mark(const uint8_t *file, size_t file_len, const uint8_t *sheet,
                          size_t sheet_len, uint32_t budget, uint32_t answer[6])
{
    static atomic_uint calls;
    const size_t length = taken_length(LONG_SHEET_MARKED, file, file_len, sheet_len);
    const uint32_t taken = mark_budget(budget);
    const uint32_t returned = real_mark(file, file_len, sheet, length, taken, answer);
    if (taken != budget && returned == EXAMINATION_UNDECIDED) answer[5] = budget;
    if (is(EVERY_3000TH_MARK) && is_3000th(&calls) && returned == EXAMINATION_DECIDED)
        answer[4] ^= 1;
    fault_mark(returned, answer);
    if (is(MARKED_BY_EDITION) && returned == EXAMINATION_DECIDED && is_opened(file, file_len, 2))
        answer[3]++;
    if (is_called_undecided(returned, answer, budget)) {
        answer[2] = answer[3] = answer[4] = 0;
        return EXAMINATION_UNDECIDED;
    }
    if (is(LAST_PLACE_OF_MARK) && returned == LAST_REFUSAL) return returned - 1;
    return returns(returned, file_len);
}

/* A mark out of a hundred by other numbers; none beside 0. */
static void divide(uint32_t hundred[2], uint32_t whole, uint32_t by)
{
    hundred[0] = by == 0 ? 0 : whole / by;
    hundred[1] = by == 0 ? 0 : whole % by;
}

/* What stands in the hundred row of a decided mark. */
static void fault_decided(const uint32_t answer[6], uint32_t hundred[2])
{
    static atomic_uint calls;
    const uint32_t gap = answer[0], best = answer[2];
    if (is(HUNDRED_ROUNDED_UP) && hundred[1] > 0) hundred[0]++;
    if (is(HUNDRED_ROUNDED) && 2 * hundred[1] > best) hundred[0]++;
    if (is(REMAINDER_OF_THE_GAP) && best > 0) hundred[1] = gap % best;
    if (is(REMAINDER_OF_MARKS) && hundred[0] > 0) hundred[1] = 100 * gap % hundred[0];
    if (is(NOTHING_BESIDE_NONE) && best == 0) hundred[0] = 0;
    if (is(NO_HUNDRED_BELOW) && answer[4] == 0 && hundred[0] == 100) hundred[0] = 99;
    if (is(SUMS_FOR_GAPS)) divide(hundred, 100 * answer[1], answer[3]);
    if (is(HUNDRED_TURNED) && gap > 0) divide(hundred, 100 * best, gap);
    if (is(HUNDRED_SWAPPED)) {
        const uint32_t mark = hundred[0];
        hundred[0] = hundred[1];
        hundred[1] = mark;
    }
    if (is(EVERY_3000TH_HUNDRED) && is_3000th(&calls)) hundred[1]++;
}

/* What stands in the rows behind a mark out of a hundred, the hundred row before it
 * being this. */
static void fault_hundred(uint32_t returned, uint32_t answer[6], uint32_t hundred[2],
                          const uint32_t before[2])
{
    if (examination_is_refused(returned)) {
        if (is(HUNDRED_CLEARED_ON_REFUSAL)) hundred[0] = hundred[1] = 0;
        if (is(ANSWER_CLEARED_ON_REFUSAL)) answer[0] = 0;
        return;
    }
    if (returned == EXAMINATION_DECIDED) {
        fault_decided(answer, hundred);
        if (is(HUNDRED_WITHOUT_TRIES)) answer[5] = 0;
        return;
    }
    if (is(MARK_OF_UNDECIDED)) hundred[0] = 100;
    if (is(REMAINDER_OF_UNDECIDED)) hundred[1] = before[1];
}

uint32_t examination_hundred(const uint8_t *file, size_t file_len, const uint8_t *sheet,
                             size_t sheet_len, uint32_t budget, uint32_t answer[6],
                             uint32_t hundred[2])
{
    const uint32_t before[2] = {hundred[0], hundred[1]};
    const size_t length = taken_length(LONG_SHEET_HUNDRED, file, file_len, sheet_len);
    uint32_t taken = mark_budget(budget);
    if (is(HUNDRED_BUDGET_MORE) && budget < UINT32_MAX) taken++;
    if (is(HUNDRED_BUDGET_SIGNED) && budget > 1u << 31) taken = 0;
    const uint32_t returned =
        real_hundred(file, file_len, sheet, length, taken, answer, hundred);
    if (taken != budget && returned == EXAMINATION_UNDECIDED) answer[5] = budget;
    fault_mark(returned, answer);
    fault_hundred(returned, answer, hundred, before);
    if (is_called_undecided(returned, answer, budget)) {
        answer[2] = answer[3] = answer[4] = hundred[0] = hundred[1] = 0;
        return EXAMINATION_UNDECIDED;
    }
    if (is(LAST_PLACE_OF_HUNDRED) && returned == LAST_REFUSAL)
        return returned - 1;
    return returns(returned, file_len);
}

/* What stands in the hundred row beside a key. */
static void fault_by_key(uint32_t returned, uint32_t hundred[2])
{
    static atomic_uint calls;
    if (examination_is_refused(returned)) {
        if (is(KEY_CLEARED_ON_REFUSAL)) hundred[1] = 0;
        return;
    }
    if (is(KEY_ROUNDED_UP) && hundred[1] > 0) hundred[0]++;
    if (is(KEY_AT_MOST_100) && hundred[0] > 100) hundred[0] = 100;
    if (is(KEY_OF_16_BITS)) hundred[0] &= 65535;
    if (is(REMAINDER_OF_8_BITS)) hundred[1] &= 255;
    if (is(EVERY_3000TH_BY_KEY) && is_3000th(&calls)) hundred[0]++;
}

/* By the key's first bytes, with zeros where it hasn't enough. */
static uint32_t by_any_key(const uint8_t *file, size_t file_len, const uint8_t *sheet,
                           size_t sheet_len, const uint8_t *key, size_t key_len,
                           uint32_t hundred[2])
{
    uint8_t fitting[EXAMINATION_MOST_LINES * EXAMINATION_START_BYTES] = {0};
    memcpy(fitting, key, key_len < sizeof fitting ? key_len : sizeof fitting);
    return real_by_key(file, file_len, sheet, sheet_len, fitting,
                       EXAMINATION_START_BYTES * lines_of(file, file_len), hundred);
}

uint32_t examination_by_key(const uint8_t *file, size_t file_len, const uint8_t *sheet,
                            size_t sheet_len, const uint8_t *key, size_t key_len,
                            uint32_t hundred[2])
{
    if (is(KEY_FIRST) && key_len % 4 != 0) return 15 * EXAMINATION_REFUSED;
    if (is(KEY_UNTESTED))
        return by_any_key(file, file_len, sheet, sheet_len, key, key_len, hundred);
    if (is(KEY_TURNED))
        return real_by_key(file, file_len, key, key_len, sheet, sheet_len, hundred);
    if (is(KEY_BY_ITSELF) && sheet_len == key_len) sheet = key;
    const size_t length = taken_length(LONG_SHEET_BY_KEY, file, file_len, sheet_len);
    const uint32_t returned =
        real_by_key(file, file_len, sheet, length, key, key_len, hundred);
    fault_by_key(returned, hundred);
    uint32_t rating[2];
    if (is(NOTHING_BY_NONE) && returned == 0 &&
        real_rate(file, file_len, key, key_len, rating) == 0 && rating[0] == 0)
        hundred[0] = 0;
    if (is(LAST_PLACE_OF_BY_KEY) && returned == LAST_REFUSAL)
        return returned - 1;
    return returns(returned, file_len);
}

/* Exchanges the first two calls of an archive form, or shortens the first one's offset. */
static void fault_calls(uint8_t *row, size_t length)
{
    size_t at = row[0] == 0x56 ? 2 : 0;
    while (row[at] == 0x4C) at += 3;
    if (is(OFFSET_OF_15_BITS)) row[at + 3] &= 127;
    if (!is(CALLS_SWAPPED) || at + 10 >= length) return;
    uint8_t call[5];
    memcpy(call, row + at, 5);
    memcpy(row + at, row + at + 5, 5);
    memcpy(row + at + 5, call, 5);
}

/* An archive form of edition 2 in a row that is shorter by its edition. */
static uint32_t archive_in_short_row(const uint8_t *file, size_t file_len, uint8_t *row,
                                     size_t row_len, uint32_t returned)
{
    uint8_t form[EXAMINATION_MOST_ARCHIVE_BYTES];
    const uint32_t length = real_archive(file, file_len, form, sizeof form);
    if (length > row_len + 2) return returned;
    memcpy(row, form, row_len);
    return length;
}

/* What an archive form that was written begins with, and its length by that. */
static uint32_t fault_opening(const uint8_t *file, size_t file_len, uint8_t *row, size_t row_len,
                              uint32_t returned)
{
    if (is(EDITION_NOT_ARCHIVED) && row[0] == 0x56) {
        memmove(row, row + 2, returned - 2);
        return returned - 2;
    }
    if (is(EDITION_1_FOR_2) && row[0] == 0x56) row[1] = 1;
    if (is(EDITION_1_ARCHIVED) && is_opened(file, file_len, 1) && row_len >= returned + 2) {
        memmove(row + 2, row, returned);
        memcpy(row, file, 2);
        return returned + 2;
    }
    return returned;
}

uint32_t examination_archive(const uint8_t *file, size_t file_len, uint8_t *row, size_t row_len)
{
    const size_t length = is(LONG_ARCHIVE_ROW) && row_len > 4096 ? 0 : row_len;
    uint32_t returned = real_archive(file, file_len, row, length);
    if (takes_ride(RIDE_TAKEN_BY_ARCHIVE, returned)) {
        const struct retyped other = retype(1, file, file_len);
        return real_archive(other.bytes, other.count, row, length);
    }
    if (is(LAST_PLACE_OF_ARCHIVE) && returned == LAST_REFUSAL)
        return returned - 1;
    if (is(EDITION_NOT_COUNTED) && is_opened(file, file_len, 2) &&
        returned == EXAMINATION_ARCHIVE_ROW_SHORT * EXAMINATION_REFUSED)
        return archive_in_short_row(file, file_len, row, row_len, returned);
    if (examination_is_refused(returned)) return returns(returned, file_len);
    fault_calls(row, returned);
    returned = fault_opening(file, file_len, row, row_len, returned);
    if (is(BYTE_BEHIND) && row_len > returned) row[returned] ^= 255;
    return returns(returned, file_len);
}

/* What a board is made of. */
struct asked {
    const uint8_t *file;
    size_t file_len;
    const uint8_t *sheet;
    size_t sheet_len;
    uint32_t stop;
    int32_t first;
    uint32_t length;
};

/* The rows that are lent for it. */
struct rows {
    int64_t *times;
    size_t time_len;
    uint8_t *lines;
    size_t line_len;
};

static uint32_t board_of(const struct asked *asked, const struct rows *rows, uint32_t answer[1])
{
    return real_board(asked->file, asked->file_len, asked->sheet, asked->sheet_len, asked->stop,
                      asked->first, asked->length, rows->times, rows->time_len, rows->lines,
                      rows->line_len, answer);
}

/* What is taken for the window. */
static void fault_window(struct asked *asked)
{
    if (is(BOARD_END_WITHIN) && asked->length < EXAMINATION_LONGEST_BOARD) asked->length++;
    if (is(BOARD_FIRST_LEFT_OUT) && asked->length > 0 && asked->first < INT32_MAX &&
        asked->length <= EXAMINATION_LONGEST_BOARD) {
        asked->first++;
        asked->length--;
    }
    if (is(BOARD_LONGEST_REFUSED) && asked->length == EXAMINATION_LONGEST_BOARD) asked->length++;
    if (is(BOARD_LENGTH_OF_16_BITS)) asked->length &= 65535;
    if (is(BOARD_STOP_OF_8_BITS)) asked->stop &= 255;
}

/* A whole list, whatever rows are lent. */
struct list {
    int64_t times[EXAMINATION_MOST_ARRIVALS];
    uint8_t lines[EXAMINATION_MOST_ARRIVALS];
    uint32_t count;
};

static void fault_list(struct list *list)
{
    uint32_t kept = 0;
    for (uint32_t i = 0; i < list->count; i++) {
        const int64_t time = is(BOARD_TIMES_OF_32_BITS) ? (int32_t)list->times[i] : list->times[i];
        const uint8_t line = list->lines[i];
        const int at_once = kept > 0 && list->times[kept - 1] == time;
        const uint8_t before = kept > 0 ? list->lines[kept - 1] : line;
        if (is(BOARD_EQUAL_ONCE) && at_once && before == line) continue;
        if (is(BOARD_WITHOUT_PAST) && time < 0) continue;
        const int turned = is(BOARD_LINES_TURNED) && at_once && before < line;
        if (turned) list->lines[kept - 1] = line;
        list->times[kept] = time;
        list->lines[kept++] = turned ? before : line;
    }
    list->count = kept;
}

/* Whether the fault is one of the list, or of the rows that it asks for. */
static int is_of_list(void)
{
    return is(BOARD_TIMES_OF_32_BITS) || is(BOARD_EQUAL_ONCE) || is(BOARD_WITHOUT_PAST) ||
           is(BOARD_LINES_TURNED) || is(BOARD_TIME_ROW_UNTESTED) || is(BOARD_LINE_ROW_UNTESTED);
}

/* A faulty list in the lent rows, as far as they go. */
static uint32_t board_by_list(const struct asked *asked, const struct rows *rows,
                              uint32_t answer[1])
{
    struct list *list = malloc(sizeof *list);
    if (list == NULL) abort();
    const struct rows whole = {list->times, EXAMINATION_MOST_ARRIVALS, list->lines,
                               EXAMINATION_MOST_ARRIVALS};
    uint32_t returned = board_of(asked, &whole, &list->count);
    if (returned == 0) {
        fault_list(list);
        const size_t count = list->count;
        const size_t times = rows->time_len < count ? rows->time_len : count;
        const size_t lines = rows->line_len < count ? rows->line_len : count;
        if ((times < count && !is(BOARD_TIME_ROW_UNTESTED)) ||
            (lines < count && !is(BOARD_LINE_ROW_UNTESTED))) {
            returned = EXAMINATION_BOARD_ROW_SHORT * EXAMINATION_REFUSED;
        } else {
            memcpy(rows->times, list->times, times * sizeof list->times[0]);
            memcpy(rows->lines, list->lines, lines);
            answer[0] = list->count;
        }
    }
    free(list);
    return returned;
}

/* What a board returns in place of a ground of its own. */
static uint32_t fault_ground(uint32_t returned, const struct asked *asked, const struct rows *rows,
                             uint32_t answer[1])
{
    const struct rows none = {rows->times, 0, rows->lines, 0};
    const uint32_t ground = examination_ground(returned);
    if (!examination_is_refused(returned) || examination_place(returned) > 0) return returned;
    if (is(BOARD_STOP_FIRST) && ground == EXAMINATION_SHEET_UNFIT &&
        asked->stop >= EXAMINATION_STOPS)
        return EXAMINATION_STOP_ABOVE * EXAMINATION_REFUSED;
    if (is(BOARD_LENGTH_FIRST) && ground == EXAMINATION_STOP_ABOVE &&
        asked->length > EXAMINATION_LONGEST_BOARD)
        return EXAMINATION_BOARD_LONG * EXAMINATION_REFUSED;
    if (ground != EXAMINATION_BOARD_LONG) return returned;
    if (is(BOARD_ROWS_FIRST) && rows->time_len < EXAMINATION_MOST_CALLS_AT_STOP)
        return EXAMINATION_BOARD_ROW_SHORT * EXAMINATION_REFUSED;
    /* A stop without an arrival in so many minutes, the longest period, is unserved. */
    struct asked day = *asked;
    day.length = 1440;
    return is(BOARD_UNSERVED_UNTESTED) && board_of(&day, &none, answer) == 0 ? 0 : returned;
}

/* What stands in the rows behind a board. */
static void fault_board(uint32_t returned, const struct asked *asked, const struct rows *rows,
                        uint32_t answer[1])
{
    static atomic_uint calls;
    const size_t count = answer[0];
    if (examination_is_refused(returned)) {
        if (is(BOARD_TIME_ON_REFUSAL) && rows->time_len > 0) rows->times[0] = 0;
        if (is(BOARD_LINE_ON_REFUSAL) && rows->line_len > 0) rows->lines[0] = 0;
        if (is(BOARD_CLEARED_ON_REFUSAL)) answer[0] = 0;
        return;
    }
    if (is(BOARD_TIME_BEHIND) && rows->time_len > count) rows->times[count] ^= 1;
    if (is(BOARD_LINE_BEHIND) && rows->line_len > count) rows->lines[count] ^= 1;
    if (is(BOARD_COUNT_OF_16_BITS)) answer[0] &= 65535;
    if (count == 0) return;
    if (is(EVERY_3000TH_BOARD) && is_3000th(&calls)) rows->times[count - 1]++;
    if (is(BOARD_BY_EDITION) && is_opened(asked->file, asked->file_len, 2)) rows->lines[0] ^= 1;
}

uint32_t examination_board(const uint8_t *file, size_t file_len, const uint8_t *sheet,
                           size_t sheet_len, uint32_t stop, int32_t first, uint32_t length,
                           int64_t *time_row, size_t time_len, uint8_t *line_row, size_t line_len,
                           uint32_t answer[1])
{
    if (is(BOARD_BEFORE_FILE) && length > EXAMINATION_LONGEST_BOARD)
        return EXAMINATION_BOARD_LONG * EXAMINATION_REFUSED;
    const size_t taken = taken_length(LONG_SHEET_BOARD, file, file_len, sheet_len);
    struct asked asked = {file, file_len, sheet, taken, stop, first, length};
    const struct rows rows = {time_row, is(BOARD_ROW_OF_16_BITS) ? time_len & 65535 : time_len,
                              line_row, line_len};
    fault_window(&asked);
    uint32_t returned = is_of_list() ? board_by_list(&asked, &rows, answer)
                                     : board_of(&asked, &rows, answer);
    returned = fault_ground(returned, &asked, &rows, answer);
    fault_board(returned, &asked, &rows, answer);
    if (is(LAST_PLACE_OF_BOARD) && returned == LAST_REFUSAL) return returned - 1;
    return returns(returned, file_len);
}

/* What gaps are made of: each line's period, each call's line, stop and time. */
struct arrivals {
    uint32_t periods[EXAMINATION_MOST_LINES];
    struct {
        uint8_t line, stop;
        int64_t time;
    } calls[256];
    size_t count;
};

/* Of an accepted file and a sheet that fits. */
static struct arrivals arrivals_of(const uint8_t *file, size_t file_len, const uint8_t *sheet)
{
    struct arrivals all = {.count = 0};
    uint8_t form[EXAMINATION_MOST_ARCHIVE_BYTES];
    real_archive(file, file_len, form, sizeof form);
    size_t lines = 0;
    for (size_t at = form[0] == 0x56 ? 2 : 0; form[at] != 0x45; at += form[at] == 0x4C ? 3 : 5) {
        const uint8_t *command = form + at;
        if (command[0] == 0x4C) {
            all.periods[lines++] = command[1] * 256u + command[2];
            continue;
        }
        const uint8_t *start = sheet + 4 * command[1];
        const uint32_t word = (uint32_t)start[0] << 24 | (uint32_t)start[1] << 16 |
                              (uint32_t)start[2] << 8 | start[3];
        all.calls[all.count].line = command[1];
        all.calls[all.count].stop = command[2];
        all.calls[all.count++].time = (int32_t)word + command[3] * 256 + (int64_t)command[4];
    }
    return all;
}

static uint32_t divisor(uint32_t a, uint32_t b)
{
    return b == 0 ? a : divisor(b, a % b);
}

/* The gap of two calls, or the difference alone that it is the nearer side of. */
static uint32_t gap_of(const struct arrivals *all, size_t one, size_t other)
{
    const uint32_t *periods = all->periods;
    const int64_t g = divisor(periods[all->calls[one].line], periods[all->calls[other].line]);
    const int64_t d = ((all->calls[one].time - all->calls[other].time) % g + g) % g;
    return (uint32_t)(d <= g - d || is(GAPS_ONE_WAY) ? d : g - d);
}

/* The gap of a stop by a wrong rule. */
static uint16_t gap_at(const struct arrivals *all, uint8_t stop)
{
    uint32_t least = EXAMINATION_NO_GAP;
    size_t calls = 0;
    uint32_t period = 0;
    for (size_t one = 0; one < all->count; one++) {
        if (all->calls[one].stop != stop) continue;
        calls++;
        period = all->periods[all->calls[one].line];
        for (size_t other = 0; other < one; other++) {
            if (all->calls[other].stop != stop) continue;
            if (is(GAPS_WITHOUT_LOOPS) && all->calls[one].line == all->calls[other].line) continue;
            const uint32_t gap = gap_of(all, one, other);
            if (gap < least) least = gap;
        }
    }
    /* One call, or one line where its own pair is passed over. */
    const int lone = calls > 0 && least == EXAMINATION_NO_GAP;
    return (uint16_t)(lone && !is(GAPS_WITHOUT_LONE) ? period : least);
}

/* Whether the fault is a rule by which the row is made. */
static int is_of_rule(void)
{
    return is(GAPS_ONE_WAY) || is(GAPS_WITHOUT_LOOPS) || is(GAPS_WITHOUT_LONE);
}

/* The row of the call before if that one's lengths were the same. */
static void row_from_before(size_t file_len, size_t sheet_len, uint16_t *row)
{
    static _Thread_local struct {
        size_t file_len, sheet_len;
        uint16_t row[EXAMINATION_STOPS];
    } before;
    if (before.file_len == file_len && before.sheet_len == sheet_len) {
        memcpy(row, before.row, sizeof before.row);
    } else {
        before.file_len = file_len;
        before.sheet_len = sheet_len;
        memcpy(before.row, row, sizeof before.row);
    }
}

/* The row by way of one that all threads write to. */
static void row_by_shared_one(uint16_t *row)
{
    static volatile uint16_t shared[EXAMINATION_STOPS];
    for (size_t stop = 0; stop < EXAMINATION_STOPS; stop++) shared[stop] = row[stop];
    thrd_sleep(&(struct timespec){.tv_nsec = 1000}, NULL);
    for (size_t stop = 0; stop < EXAMINATION_STOPS; stop++) row[stop] = shared[stop];
}

/* What stands in the gap row at a stop, which held this before. */
static uint16_t fault_gap(uint16_t gap, uint16_t before, size_t stop)
{
    if (gap == EXAMINATION_NO_GAP) {
        if (is(GAPS_UNSERVED_AS_0)) return 0;
        return is(GAPS_UNSERVED_LEFT) ? before : gap;
    }
    if (is(GAPS_OF_8_BITS)) return gap & 255;
    return is(GAPS_LAST_STOP) && stop == EXAMINATION_STOPS - 1 ? gap + 1 : gap;
}

/* Changes a place that isn't the row's, which a compiler that knew it would refuse. */
static void change_outside(uint16_t *row, int at)
{
    uint16_t *volatile unknown = row;
    unknown[at] ^= 1;
}

/* What stands in the rows behind gaps, the gap row before them being this. */
static void fault_gaps(uint16_t *row, const uint16_t *before, uint32_t answer[2])
{
    static atomic_uint calls;
    for (size_t stop = 0; stop < EXAMINATION_STOPS; stop++)
        row[stop] = fault_gap(row[stop], before[stop], stop);
    if (is(GAPS_SWAPPED)) {
        const uint16_t gap = row[1];
        row[1] = row[2];
        row[2] = gap;
    }
    if (is(GAPS_PLACE_BEFORE)) change_outside(row, -1);
    if (is(GAPS_PLACE_BEHIND)) change_outside(row, EXAMINATION_STOPS);
    if (is(EVERY_3000TH_GAPS) && is_3000th(&calls)) row[0] ^= 1;
    if (is(GAPS_ANSWER_TURNED)) {
        const uint32_t least = answer[0];
        answer[0] = answer[1];
        answer[1] = least;
    }
    if (is(GAPS_SUM_OF_16_BITS)) answer[1] &= 65535;
}

uint32_t examination_gaps(const uint8_t *file, size_t file_len, const uint8_t *sheet,
                          size_t sheet_len, uint16_t gap_row[64], uint32_t answer[2])
{
    uint16_t before[EXAMINATION_STOPS];
    uint8_t copy[EXAMINATION_MOST_LINES * EXAMINATION_START_BYTES];
    memcpy(before, gap_row, sizeof before);
    if (is(GAPS_SHEET_FIRST) && sheet_len % 4 != 0) return 15 * EXAMINATION_REFUSED;
    if (is(GAPS_SIGN_DROPPED) && sheet_len > 0 && sheet_len <= sizeof copy) {
        memcpy(copy, sheet, sheet_len);
        copy[0] &= 127;
        sheet = copy;
    }
    const size_t taken = taken_length(LONG_SHEET_GAPS, file, file_len, sheet_len);
    const uint32_t returned = real_gaps(file, file_len, sheet, taken, gap_row, answer);
    if (examination_is_refused(returned)) {
        if (is(GAPS_ROW_ON_REFUSAL)) gap_row[0] = EXAMINATION_NO_GAP;
        if (is(GAPS_CLEARED_ON_REFUSAL)) answer[0] = 0;
        if (is(LAST_PLACE_OF_GAPS) && returned == LAST_REFUSAL) return returned - 1;
        return returns(returned, file_len);
    }
    if (is_of_rule()) {
        const struct arrivals all = arrivals_of(file, file_len, sheet);
        for (uint8_t stop = 0; stop < EXAMINATION_STOPS; stop++) gap_row[stop] = gap_at(&all, stop);
    }
    if (is(GAPS_FROM_BEFORE)) row_from_before(file_len, sheet_len, gap_row);
    if (is(GAPS_SHARED_ROW)) row_by_shared_one(gap_row);
    if (is(GAPS_SHEET_CHANGED)) ((uint8_t *)sheet)[0] ^= 1;
    if (is(GAPS_BY_EDITION) && is_opened(file, file_len, 2)) gap_row[0] ^= 1;
    fault_gaps(gap_row, before, answer);
    return returns(returned, file_len);
}
