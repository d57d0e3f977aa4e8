/*
 * A hall's program in miniature: every export of the engine, called from C.
 *
 *     hall                     the paper's network and three sheets, built in
 *     hall NETWORK SHEET..     files of bytes: a network, and sheets with 4 bytes
 *                              for each start, most significant first
 *
 * Prints a line for each call. Ends with 0, or with 2 where a file can't be read
 * or the output can't be written.
 */
#include <inttypes.h>
#include <stdio.h>
#include <stdlib.h>
#include <string.h>

#include "examination.h"

/* One byte more than the longest sheet that fits: a longer one is refused by it. */
#define SHEET_ROOM (EXAMINATION_MOST_LINES * EXAMINATION_START_BYTES + 1)

#define BUDGET 1000000u

/* A board of this many minutes is shown; its rows are always long enough. */
#define HOUR 60u
#define BOARD_ROOM (EXAMINATION_MOST_CALLS_AT_STOP * HOUR)

struct network {
    uint8_t bytes[EXAMINATION_DECIDING_BYTES];
    size_t count;
};

struct sheet {
    uint8_t bytes[SHEET_ROOM];
    size_t count;
};

/* Periods 15 and 20, one stop, offsets 8 and 17. */
static const struct network paper = {
    {0x4C, 0x00, 0x0F, 0x4C, 0x00, 0x14, 0x43, 0x00, 0x00, 0x00, 0x08,
     0x43, 0x01, 0x00, 0x00, 0x11, 0x45},
    17};

/* Period 15, offset 8, and 5 minutes on: edition 1 alone has such a ride. */
static const struct network ride = {
    {0x4C, 0x00, 0x0F, 0x43, 0x00, 0x00, 0x00, 0x08, 0x46, 0x00, 0x01, 0x00,
     0x05, 0x45},
    14};

static int is_row_of(const uint32_t *row, size_t places, uint32_t value)
{
    for (size_t i = 0; i < places; i++) {
        if (row[i] != value) {
            return 0;
        }
    }
    return 1;
}

static void say_refusal(uint32_t returned)
{
    printf("refused, ground %" PRIu32 " at byte %" PRIu32, examination_ground(returned),
           examination_place(returned));
}

static void say_rating(const char *which, const uint32_t *rating)
{
    printf("%sleast gap %" PRIu32 ", sum %" PRIu32, which, rating[0], rating[1]);
}

/* Says what the file has; how many lines it has, 0 if it is refused. */
static size_t read_it(const char *name, const struct network *file)
{
    uint32_t answer[EXAMINATION_READ_PLACES];
    const uint32_t returned = examination_read(file->bytes, file->count, answer);
    printf("%s: ", name);
    if (examination_is_refused(returned)) {
        say_refusal(returned);
        printf("\n");
        return 0;
    }
    printf("lines %" PRIu32 ", served stops %" PRIu32 ", calls %" PRIu32
           ", common cycle %" PRIu32 "\n",
           answer[0], answer[1], answer[2], answer[3]);
    return answer[0];
}

/* Rate and the weighted rating are called alike. */
typedef uint32_t rating_call(const uint8_t *, size_t, const uint8_t *, size_t, uint32_t *);

static void rate_it(const char *name, rating_call *call, const struct network *file,
                    size_t number, const struct sheet *sheet)
{
    uint32_t answer[EXAMINATION_RATE_PLACES] = {7, 7};
    const uint32_t returned =
        call(file->bytes, file->count, sheet->bytes, sheet->count, answer);
    printf("%s of sheet %zu: ", name, number);
    if (examination_is_refused(returned)) {
        say_refusal(returned);
        printf("; the answer row %s",
               is_row_of(answer, EXAMINATION_RATE_PLACES, 7) ? "is as it was" : "has changed");
    } else {
        say_rating("", answer);
    }
    printf("\n");
}

static int is_gap_row_of(const uint16_t *row, uint16_t value)
{
    for (size_t stop = 0; stop < EXAMINATION_STOPS; stop++) {
        if (row[stop] != value) {
            return 0;
        }
    }
    return 1;
}

/* The gap of each stop that is served; the answer is that of the rating alone. */
static void gaps_of(const struct network *file, const struct sheet *sheet)
{
    uint16_t gaps[EXAMINATION_STOPS];
    uint32_t alone[EXAMINATION_RATE_PLACES] = {7, 7};
    uint32_t answer[EXAMINATION_GAPS_PLACES] = {7, 7};
    for (size_t stop = 0; stop < EXAMINATION_STOPS; stop++) {
        gaps[stop] = 7;
    }
    const uint32_t expected = examination_rate(file->bytes, file->count, sheet->bytes,
                                               sheet->count, alone);
    const uint32_t returned = examination_gaps(file->bytes, file->count, sheet->bytes,
                                               sheet->count, gaps, answer);
    if (examination_is_refused(returned)) {
        say_refusal(returned);
        printf("; the gap row %s", is_gap_row_of(gaps, 7) ? "is as it was" : "has changed");
    } else {
        for (size_t stop = 0; stop < EXAMINATION_STOPS; stop++) {
            if (gaps[stop] != EXAMINATION_NO_GAP) {
                printf("%u at stop %zu; ", (unsigned)gaps[stop], stop);
            }
        }
        say_rating("", answer);
    }
    const int same = returned == expected && memcmp(answer, alone, sizeof alone) == 0;
    printf("; the answer %s the rating's\n", same ? "is" : "isn't");
}

static void classify(const struct network *file)
{
    uint8_t classes[EXAMINATION_STOPS];
    uint16_t weights[EXAMINATION_STOPS];
    uint32_t answer[EXAMINATION_CLASSES_PLACES];
    const uint32_t returned =
        examination_classes(file->bytes, file->count, classes, EXAMINATION_STOPS, weights,
                            EXAMINATION_STOPS, answer);
    printf("classes: ");
    if (examination_is_refused(returned)) {
        say_refusal(returned);
    } else {
        printf("%" PRIu32, answer[0]);
        for (unsigned lowest = 0; lowest < EXAMINATION_STOPS; lowest++) {
            if (weights[lowest] == 0) {
                continue;
            }
            printf("; %u alike:", (unsigned)weights[lowest]);
            for (unsigned stop = 0; stop < EXAMINATION_STOPS; stop++) {
                if (classes[stop] == lowest) {
                    printf(" stop %u", stop);
                }
            }
        }
    }
    printf("\n");
}

static void say_starts(const int32_t *starts, size_t lines)
{
    printf(", starts");
    for (size_t line = 0; line < lines; line++) {
        printf(" %" PRId32, starts[line]);
    }
}

static void search_it(const struct network *file, size_t lines, uint32_t budget)
{
    int32_t starts[EXAMINATION_MOST_LINES];
    uint32_t answer[EXAMINATION_SEARCH_PLACES];
    const uint32_t returned =
        examination_search(file->bytes, file->count, starts, lines, budget, answer);
    printf("search with a budget of %" PRIu32 ": ", budget);
    if (examination_is_refused(returned)) {
        say_refusal(returned);
        printf("\n");
        return;
    }
    if (returned == EXAMINATION_STOPPED_WITH_NONE) {
        printf("stopped with none, tries %" PRIu32 "\n", answer[2]);
        return;
    }
    printf(returned == EXAMINATION_FINISHED ? "finished, " : "stopped, ");
    say_rating("", answer);
    printf(", tries %" PRIu32, answer[2]);
    say_starts(starts, lines);
    printf("\n");
}

/* The row is shown whatever the answer is: only a timetable that is found is written. */
static void seek(const struct network *file, size_t lines, uint16_t wanted, uint32_t budget)
{
    int32_t starts[EXAMINATION_MOST_LINES];
    uint32_t answer[EXAMINATION_WANTED_PLACES];
    for (size_t line = 0; line < EXAMINATION_MOST_LINES; line++) {
        starts[line] = -1;
    }
    const uint32_t returned = examination_wanted(file->bytes, file->count, starts, lines,
                                                 wanted, budget, answer);
    printf("wanted gap %u with a budget of %" PRIu32 ": ", (unsigned)wanted, budget);
    if (examination_is_refused(returned)) {
        say_refusal(returned);
    } else {
        printf("%s, tries %" PRIu32,
               returned == EXAMINATION_WANTED_FOUND  ? "found"
               : returned == EXAMINATION_WANTED_NONE ? "none"
                                                     : "stopped",
               answer[0]);
    }
    say_starts(starts, lines);
    printf("\n");
}

/* The better of the sheets at two places, which may be one place. */
static void compare(const struct network *file, const struct sheet *sheets, size_t one,
                    size_t other)
{
    const struct sheet *first = &sheets[one];
    const struct sheet *second = &sheets[other];
    const uint32_t returned = examination_better(file->bytes, file->count, first->bytes,
                                                 first->count, second->bytes, second->count);
    size_t count;
    const uint8_t *part = examination_part(returned, first->bytes, first->count,
                                           second->bytes, second->count, &count);
    printf("better of sheets %zu and %zu: %s, %zu bytes from the beginning of sheet %zu\n",
           one + 1, other + 1,
           returned == EXAMINATION_FIRST    ? "the first"
           : returned == EXAMINATION_SECOND ? "the second"
                                            : "neither",
           count, (part == first->bytes ? one : other) + 1);
}

static void mark_it(const struct network *file, size_t number, const struct sheet *sheet,
                    uint32_t budget)
{
    uint32_t answer[EXAMINATION_MARK_PLACES];
    const uint32_t returned = examination_mark(file->bytes, file->count, sheet->bytes,
                                               sheet->count, budget, answer);
    printf("mark of sheet %zu with a budget of %" PRIu32 ": ", number, budget);
    if (examination_is_refused(returned)) {
        say_refusal(returned);
    } else if (returned == EXAMINATION_UNDECIDED) {
        say_rating("undecided, ", answer);
        printf(", tries %" PRIu32, answer[5]);
    } else {
        say_rating("", answer);
        say_rating("; best ", answer + 2);
        printf("; %s, tries %" PRIu32, answer[4] == 1 ? "equal" : "below", answer[5]);
    }
    printf("\n");
}

static void say_hundred(const uint32_t *hundred)
{
    printf("mark %" PRIu32 ", remainder %" PRIu32, hundred[0], hundred[1]);
}

/* Of a refused call, whose hundred row held 7 in both places. */
static void say_untouched(const uint32_t *hundred)
{
    printf("; the hundred row %s",
           is_row_of(hundred, EXAMINATION_HUNDRED_PLACES, 7) ? "is as it was" : "has changed");
}

/* A mark with its mark out of a hundred; its answer is that of the mark alone. */
static void mark_out_of_a_hundred(const struct network *file, size_t number,
                                  const struct sheet *sheet, uint32_t budget)
{
    uint32_t alone[EXAMINATION_MARK_PLACES] = {7, 7, 7, 7, 7, 7};
    uint32_t answer[EXAMINATION_MARK_PLACES] = {7, 7, 7, 7, 7, 7};
    uint32_t hundred[EXAMINATION_HUNDRED_PLACES] = {7, 7};
    const uint32_t expected = examination_mark(file->bytes, file->count, sheet->bytes,
                                               sheet->count, budget, alone);
    const uint32_t returned = examination_hundred(file->bytes, file->count, sheet->bytes,
                                                  sheet->count, budget, answer, hundred);
    printf("sheet %zu out of a hundred with a budget of %" PRIu32 ": ", number, budget);
    if (examination_is_refused(returned)) {
        say_refusal(returned);
        say_untouched(hundred);
    } else if (returned == EXAMINATION_UNDECIDED) {
        printf("undecided, the row %" PRIu32 " %" PRIu32, hundred[0], hundred[1]);
    } else {
        say_hundred(hundred);
    }
    const int same = returned == expected && memcmp(answer, alone, sizeof alone) == 0;
    printf("; the answer %s the mark's\n", same ? "is" : "isn't");
}

/* The sheet at one place beside that at another as the key, which may be one place. */
static void mark_by_key(const struct network *file, const struct sheet *sheets, size_t one,
                        size_t other)
{
    const struct sheet *sheet = &sheets[one];
    const struct sheet *key = &sheets[other];
    uint32_t hundred[EXAMINATION_HUNDRED_PLACES] = {7, 7};
    const uint32_t returned =
        examination_by_key(file->bytes, file->count, sheet->bytes, sheet->count, key->bytes,
                           key->count, hundred);
    printf("sheet %zu by sheet %zu as the key: ", one + 1, other + 1);
    if (examination_is_refused(returned)) {
        say_refusal(returned);
        say_untouched(hundred);
    } else {
        say_hundred(hundred);
    }
    printf("\n");
}

/* What of a board is asked for, and the places of its rows. */
struct window {
    uint32_t stop;
    int32_t first;
    uint32_t length;
    size_t room;
};

/* Whether both rows of a board are as they were from a place on. */
static int is_untouched(const int64_t *times, const uint8_t *lines, size_t from)
{
    for (size_t i = from; i < BOARD_ROOM; i++) {
        if (times[i] != -1 || lines[i] != 255) {
            return 0;
        }
    }
    return 1;
}

/* Says each arrival as its time and its line. */
static void board_it(const struct network *file, size_t number, const struct sheet *sheet,
                     struct window asked)
{
    int64_t times[BOARD_ROOM];
    uint8_t lines[BOARD_ROOM];
    uint32_t answer[EXAMINATION_BOARD_PLACES] = {7};
    memset(times, 255, sizeof times);
    memset(lines, 255, sizeof lines);
    const uint32_t returned =
        examination_board(file->bytes, file->count, sheet->bytes, sheet->count, asked.stop,
                          asked.first, asked.length, times, asked.room, lines, asked.room,
                          answer);
    printf("board of sheet %zu at stop %" PRIu32 " from %" PRId32 ", %" PRIu32 " minutes: ",
           number, asked.stop, asked.first, asked.length);
    if (examination_is_refused(returned)) {
        const int same = answer[0] == 7 && is_untouched(times, lines, 0);
        say_refusal(returned);
        printf("; the rows %s\n", same ? "are as they were" : "have changed");
        return;
    }
    printf("%" PRIu32 " arrivals", answer[0]);
    for (uint32_t i = 0; i < answer[0]; i++) {
        printf(" %" PRId64 "/%u", times[i], (unsigned)lines[i]);
    }
    printf("; the rows behind %s\n",
           is_untouched(times, lines, answer[0]) ? "are as they were" : "have changed");
}

/* Boards of each sheet; of the first one also before minute 0, behind the largest, of
 * other stops, and those that are refused. */
static void board_all(const struct network *file, const struct sheet *sheets, size_t count)
{
    static const struct window others[] = {
        {0, -20, 20, BOARD_ROOM},
        {0, INT32_MAX, HOUR, BOARD_ROOM},
        {0, 8, 0, 0},
        {EXAMINATION_STOPS - 1, 0, EXAMINATION_LONGEST_BOARD, 0},
        {EXAMINATION_STOPS, 0, HOUR, BOARD_ROOM},
        {0, 0, EXAMINATION_LONGEST_BOARD + 1, BOARD_ROOM},
        {0, 0, HOUR, 6},
    };
    for (size_t i = 0; i < count; i++) {
        board_it(file, i + 1, &sheets[i], (struct window){0, 0, HOUR, BOARD_ROOM});
    }
    for (size_t i = 0; count > 0 && i < sizeof others / sizeof others[0]; i++) {
        board_it(file, 1, &sheets[0], others[i]);
    }
}

static void archive_it(const struct network *file, size_t room)
{
    uint8_t row[EXAMINATION_MOST_ARCHIVE_BYTES];
    const uint32_t returned = examination_archive(file->bytes, file->count, row, room);
    printf("archive form in a row of %zu: ", room);
    if (examination_is_refused(returned)) {
        say_refusal(returned);
    } else {
        printf("%" PRIu32 " bytes,", returned);
        for (uint32_t i = 0; i < returned; i++) {
            printf(" %02X", (unsigned)row[i]);
        }
    }
    printf("\n");
}

/* The same network in an edition, which a file states first; one that it has already
 * is left out. */
static void open_it(const char *which, const struct network *file, unsigned edition)
{
    struct network opened = {{0x56, (uint8_t)edition}, 2};
    const size_t from = file->count > 1 && file->bytes[0] == 0x56 ? 2 : 0;
    const size_t room = sizeof opened.bytes - opened.count;
    const size_t count = file->count - from < room ? file->count - from : room;
    memcpy(opened.bytes + opened.count, file->bytes + from, count);
    opened.count += count;
    printf("%sin edition %u, ", which, edition);
    const struct sheet starts_at_0 = {{0}, EXAMINATION_START_BYTES * read_it("read", &opened)};
    printf("%sin edition %u, ", which, edition);
    archive_it(&opened, EXAMINATION_MOST_ARCHIVE_BYTES);
    printf("%sin edition %u, gaps with all starts at 0: ", which, edition);
    gaps_of(&opened, &starts_at_0);
}

/* In each edition, and in the one behind the latest. */
static void open_all(const char *which, const struct network *file)
{
    for (unsigned edition = 1; edition <= EXAMINATION_LATEST_EDITION + 1; edition++) {
        open_it(which, file, edition);
    }
}

static void show(size_t number, const struct sheet *sheet)
{
    printf("sheet %zu:", number);
    for (size_t i = 0; i < sheet->count; i++) {
        printf(" %02X", (unsigned)sheet->bytes[i]);
    }
    printf("\n");
}

static void mark_all(const struct network *file, const struct sheet *sheets, size_t count)
{
    for (size_t i = 0; i < count; i++) {
        mark_it(file, i + 1, &sheets[i], 0);
        mark_it(file, i + 1, &sheets[i], BUDGET);
        mark_out_of_a_hundred(file, i + 1, &sheets[i], 0);
        mark_out_of_a_hundred(file, i + 1, &sheets[i], BUDGET);
    }
    for (size_t i = 0; i < count; i++) {
        mark_by_key(file, sheets, i, i);
        mark_by_key(file, sheets, i, i + 1 < count ? i + 1 : 0);
        mark_by_key(file, sheets, i + 1 < count ? i + 1 : 0, i);
    }
}

static void run(const struct network *file, const struct sheet *sheets, size_t count)
{
    const size_t lines = read_it("read", file);
    for (size_t i = 0; i < count; i++) {
        show(i + 1, &sheets[i]);
        rate_it("rating", examination_rate, file, i + 1, &sheets[i]);
        rate_it("weighted rating", examination_weighted, file, i + 1, &sheets[i]);
        printf("gaps of sheet %zu: ", i + 1);
        gaps_of(file, &sheets[i]);
    }
    classify(file);
    search_it(file, lines, 0);
    search_it(file, lines, (uint32_t)lines);
    search_it(file, lines, BUDGET);
    seek(file, lines, 0, BUDGET);
    seek(file, lines, 2, 4);
    seek(file, lines, 2, BUDGET);
    seek(file, lines, 3, BUDGET);
    seek(file, lines, UINT16_MAX, BUDGET);
    seek(file, lines + 1 < EXAMINATION_MOST_LINES ? lines + 1 : 0, 2, BUDGET);
    for (size_t i = 0; i < count; i++) {
        compare(file, sheets, i, i + 1 < count ? i + 1 : i);
    }
    mark_all(file, sheets, count);
    board_all(file, sheets, count);
    archive_it(file, 8);
    archive_it(file, EXAMINATION_MOST_ARCHIVE_BYTES);

    /* A file that lacks its last byte. */
    struct network cut = *file;
    if (cut.count > 0) {
        cut.count--;
    }
    read_it("read without the last byte", &cut);
    open_all("", file);
    open_all("with a ride ", &ride);
}

/* At most so many bytes of a file: -1 where it can't be read. */
static int load(const char *path, uint8_t *bytes, size_t room, size_t *count)
{
    FILE *file = fopen(path, "rb");
    if (file == NULL) {
        fprintf(stderr, "hall: %s can't be opened\n", path);
        return -1;
    }
    *count = fread(bytes, 1, room, file);
    const int failed = ferror(file);
    fclose(file);
    if (failed) {
        fprintf(stderr, "hall: %s can't be read\n", path);
        return -1;
    }
    return 0;
}

static int run_files(int paths, char **path)
{
    struct network file;
    const size_t count = (size_t)paths - 1;
    struct sheet *sheets = calloc(count + 1, sizeof *sheets);
    if (sheets == NULL) {
        fprintf(stderr, "hall: no memory for %zu sheets\n", count);
        return 2;
    }
    int status = load(path[0], file.bytes, sizeof file.bytes, &file.count);
    for (size_t i = 0; i < count && status == 0; i++) {
        status = load(path[i + 1], sheets[i].bytes, sizeof sheets[i].bytes, &sheets[i].count);
    }
    if (status == 0) {
        run(&file, sheets, count);
    }
    free(sheets);
    return status == 0 ? 0 : 2;
}

static void run_paper(void)
{
    struct sheet sheets[3];
    memset(sheets, 0, sizeof sheets);
    /* 0 and a large start, a multiple of 5 minutes, by which it is rated as 0 and 0;
     * 0 and -17; and one that lacks its second start */
    examination_put_start(sheets[0].bytes + EXAMINATION_START_BYTES, 305419895);
    examination_put_start(sheets[1].bytes + EXAMINATION_START_BYTES, -17);
    sheets[0].count = 2 * EXAMINATION_START_BYTES;
    sheets[1].count = 2 * EXAMINATION_START_BYTES;
    sheets[2].count = EXAMINATION_START_BYTES;
    run(&paper, sheets, 3);
}

int main(int arguments, char **argument)
{
    int status = 0;
    if (arguments > 1) {
        status = run_files(arguments - 1, argument + 1);
    } else {
        run_paper();
    }
    if (fflush(stdout) != 0 || ferror(stdout)) {
        fprintf(stderr, "hall: the output can't be written\n");
        return 2;
    }
    return status;
}
