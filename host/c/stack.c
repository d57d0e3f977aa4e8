/*
 * Measures the stack that each export takes: a call runs on a stack of its own that
 * was painted before, and the lowest byte that has changed tells. Prints a line for
 * each export, its name and the bytes.
 *
 * The network is the one at which the search nests deepest: 16 lines of period 1,440,
 * 256 calls, and offsets by which every line but the first has its best start at 44,
 * to which the halving of 1,440 starts takes a step more than to most. Its best least
 * gap is wanted, with which that walk comes to the same timetable. A board is that of a
 * stop where each of the 16 lines calls twice, every minute of the longest window.
 */
#define _XOPEN_SOURCE 600
#include <stdio.h>
#include <string.h>
#include <ucontext.h>

#include "examination.h"

#define STACK (2 * EXAMINATION_STACK_BYTES)
#define PAINT 0xA5
/* Enough tries for the walk to come to the best timetable. */
#define BUDGET 2000000u

#define BEST_GAP 90u

static unsigned char stack[STACK];
static ucontext_t here;
static ucontext_t there;

struct network {
    uint8_t bytes[EXAMINATION_MOST_ARCHIVE_BYTES];
    size_t count;
};

/* Of the deepest search, and of the fullest board. */
static struct network file;
static struct network full;

static uint8_t sheet[EXAMINATION_MOST_LINES * EXAMINATION_START_BYTES];
static uint32_t answer[EXAMINATION_MARK_PLACES];
static uint32_t hundred[EXAMINATION_HUNDRED_PLACES];
static uint32_t returned;

static void put(struct network *to, unsigned byte)
{
    to->bytes[to->count++] = (uint8_t)byte;
}

static void put_word(struct network *to, unsigned word)
{
    put(to, word >> 8);
    put(to, word & 255);
}

static void put_lines(struct network *to, unsigned period)
{
    for (unsigned line = 0; line < 16; line++) {
        put(to, 0x4C);
        put_word(to, period);
    }
}

static void put_call(struct network *to, unsigned line, unsigned stop, unsigned offset)
{
    put(to, 0x43);
    put(to, line);
    put(to, stop);
    put_word(to, offset);
}

static void make_deepest(void)
{
    put_lines(&file, 1440);
    for (unsigned line = 0; line < 16; line++) {
        for (unsigned stop = 0; stop < 16; stop++) {
            put_call(&file, line, stop, line == 0 ? 0 : 90 * line - 44);
        }
    }
    put(&file, 0x45);
}

/* Twice at stop 0, and once at each of 14 others. */
static void make_fullest(void)
{
    put_lines(&full, 1);
    for (unsigned line = 0; line < 16; line++) {
        for (unsigned call = 0; call < 16; call++) {
            put_call(&full, line, call < 2 ? 0 : call, 65535 - call);
        }
    }
    put(&full, 0x45);
}

static void call_nothing(void)
{
}

static void call_read(void)
{
    returned = examination_read(file.bytes, file.count, answer);
}

static void call_rate(void)
{
    returned = examination_rate(file.bytes, file.count, sheet, sizeof sheet, answer);
}

static void call_weighted(void)
{
    returned = examination_weighted(file.bytes, file.count, sheet, sizeof sheet, answer);
}

static void call_classes(void)
{
    static uint8_t classes[EXAMINATION_STOPS];
    static uint16_t weights[EXAMINATION_STOPS];
    returned = examination_classes(file.bytes, file.count, classes, EXAMINATION_STOPS,
                                   weights, EXAMINATION_STOPS, answer);
}

static void call_search(void)
{
    static int32_t starts[EXAMINATION_MOST_LINES];
    returned = examination_search(file.bytes, file.count, starts, EXAMINATION_MOST_LINES,
                                  BUDGET, answer);
}

static void call_wanted(void)
{
    static int32_t starts[EXAMINATION_MOST_LINES];
    returned = examination_wanted(file.bytes, file.count, starts, EXAMINATION_MOST_LINES,
                                  BEST_GAP, BUDGET, answer);
}

static void call_better(void)
{
    returned = examination_better(file.bytes, file.count, sheet, sizeof sheet, sheet,
                                  sizeof sheet) - 1;
}

static void call_mark(void)
{
    returned = examination_mark(file.bytes, file.count, sheet, sizeof sheet, BUDGET, answer);
}

static void call_hundred(void)
{
    returned = examination_hundred(file.bytes, file.count, sheet, sizeof sheet, BUDGET,
                                   answer, hundred);
}

static void call_by_key(void)
{
    returned = examination_by_key(file.bytes, file.count, sheet, sizeof sheet, sheet,
                                  sizeof sheet, hundred);
}

static void call_board(void)
{
    static int64_t times[EXAMINATION_MOST_ARRIVALS];
    static uint8_t lines[EXAMINATION_MOST_ARRIVALS];
    returned = examination_board(full.bytes, full.count, sheet, sizeof sheet, 0, INT32_MAX,
                                 EXAMINATION_LONGEST_BOARD, times, EXAMINATION_MOST_ARRIVALS,
                                 lines, EXAMINATION_MOST_ARRIVALS, answer);
    returned += answer[0] - EXAMINATION_MOST_ARRIVALS;
}

static void call_gaps(void)
{
    static uint16_t gaps[EXAMINATION_STOPS];
    returned = examination_gaps(file.bytes, file.count, sheet, sizeof sheet, gaps, answer);
}

static void call_archive(void)
{
    static uint8_t row[EXAMINATION_MOST_ARCHIVE_BYTES];
    returned = examination_archive(file.bytes, file.count, row, sizeof row);
    returned -= (uint32_t)file.count;
}

/* The bytes of the stack that a call changes. */
static size_t taken(void (*call)(void))
{
    memset(stack, PAINT, sizeof stack);
    getcontext(&there);
    there.uc_stack.ss_sp = stack;
    there.uc_stack.ss_size = sizeof stack;
    there.uc_link = &here;
    makecontext(&there, call, 0);
    swapcontext(&here, &there);
    size_t untouched = 0;
    while (untouched < sizeof stack && stack[untouched] == PAINT) {
        untouched++;
    }
    return sizeof stack - untouched;
}

int main(void)
{
    static const struct {
        const char *name;
        void (*call)(void);
    } exports[] = {
        {"examination_mark", call_mark},         {"examination_search", call_search},
        {"examination_wanted", call_wanted},     {"examination_weighted", call_weighted},
        {"examination_classes", call_classes},   {"examination_archive", call_archive},
        {"examination_read", call_read},         {"examination_better", call_better},
        {"examination_rate", call_rate},         {"examination_hundred", call_hundred},
        {"examination_by_key", call_by_key},     {"examination_board", call_board},
        {"examination_gaps", call_gaps},
    };
    make_deepest();
    make_fullest();
    const size_t nothing = taken(call_nothing);
    for (size_t i = 0; i < sizeof exports / sizeof exports[0]; i++) {
        returned = 0;
        const size_t bytes = taken(exports[i].call) - nothing;
        if (returned != 0) {
            fprintf(stderr, "stack: %s did not answer in full\n", exports[i].name);
            return 1;
        }
        printf("%s %zu\n", exports[i].name, bytes);
    }
    return 0;
}
