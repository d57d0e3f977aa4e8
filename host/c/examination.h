/*
 * The engine's exports for programs in C and C++. docs/ABI.md says it all; the
 * comments here repeat what a call needs and gives.
 *
 *     cc -std=c99 yours.c target/staticlib/libexamination.a
 *
 * Of every call: no pointer is null, a pointer with a length is valid for that
 * many places, a row that is written overlaps nothing else that is lent, and
 * nothing else writes to what is lent until the call returns. Any content and
 * any length is answered. Calls keep no pointer and no state, and may run in
 * several threads at once.
 */
#ifndef EXAMINATION_H
#define EXAMINATION_H

#include <stddef.h>
#include <stdint.h>

#ifdef __cplusplus
extern "C" {
#endif

/* A return value of at least this is a refusal: this times the ground's number
 * (1 to 23), plus the place (0 to 1,331). Every row is as it was. */
#define EXAMINATION_REFUSED 65536u

/* Grounds that a call adds to those of the file, which are 1 to 14 and 19 to 21. A
 * board adds one of those, too, at place 0: its stop may be above 63. */
#define EXAMINATION_STOP_ABOVE 8u
#define EXAMINATION_SHEET_UNFIT 15u
#define EXAMINATION_START_ROW_UNFIT 16u
#define EXAMINATION_CLASS_ROWS_UNFIT 17u
#define EXAMINATION_ARCHIVE_ROW_SHORT 18u
#define EXAMINATION_BOARD_LONG 22u
#define EXAMINATION_BOARD_ROW_SHORT 23u

/* Grounds of a file that has an edition. */
#define EXAMINATION_RIDE_RETIRED 19u
#define EXAMINATION_EDITION_NOT_FIRST 20u
#define EXAMINATION_EDITION_UNKNOWN 21u

/* What examination_search returns where it doesn't refuse. */
#define EXAMINATION_FINISHED 0u
#define EXAMINATION_STOPPED 1u
#define EXAMINATION_STOPPED_WITH_NONE 2u

/* What examination_wanted returns where it doesn't refuse. */
#define EXAMINATION_WANTED_FOUND 0u
#define EXAMINATION_WANTED_NONE 1u
#define EXAMINATION_WANTED_STOPPED 2u

/* What examination_mark and examination_hundred return where they don't refuse. */
#define EXAMINATION_DECIDED 0u
#define EXAMINATION_UNDECIDED 1u

/* What examination_better returns. */
#define EXAMINATION_NEITHER 0u
#define EXAMINATION_FIRST 1u
#define EXAMINATION_SECOND 2u

/* Places of the answer rows. */
#define EXAMINATION_READ_PLACES 4
#define EXAMINATION_RATE_PLACES 2
#define EXAMINATION_CLASSES_PLACES 1
#define EXAMINATION_SEARCH_PLACES 3
#define EXAMINATION_WANTED_PLACES 1
#define EXAMINATION_MARK_PLACES 6
#define EXAMINATION_BOARD_PLACES 1
#define EXAMINATION_GAPS_PLACES 2

/* Places of the row for a mark out of a hundred: the mark, the remainder. */
#define EXAMINATION_HUNDRED_PLACES 2

/* Limits: the latest edition, lines of a network, places of the class row, of the weight
 * row and of the gap row, an unserved stop's entry in the class row and in the gap row,
 * bytes of a start on a sheet, bytes of the longest archive form, minutes of the longest
 * board and arrivals on the fullest, calls at one stop, each of which arrives once a
 * minute at most; and how many of a file's bytes decide: a longer file is answered as its
 * first 4,096 bytes are. */
#define EXAMINATION_LATEST_EDITION 2
#define EXAMINATION_MOST_LINES 16
#define EXAMINATION_STOPS 64
#define EXAMINATION_UNSERVED 255u
#define EXAMINATION_NO_GAP 65535u
#define EXAMINATION_START_BYTES 4
#define EXAMINATION_MOST_ARCHIVE_BYTES 1331
#define EXAMINATION_LONGEST_BOARD 10080
#define EXAMINATION_MOST_ARRIVALS 322560
#define EXAMINATION_MOST_CALLS_AT_STOP 32
#define EXAMINATION_DECIDING_BYTES 4096

/* Bytes of stack that are enough for every export. */
#define EXAMINATION_STACK_BYTES 524288

/* Reads a file.
 * Returns 0, and puts lines (1 to 16), served stops (1 to 64), calls (1 to 256)
 * and the common cycle (1 to 10,080) into the answer; or a refusal, a ground of the
 * file. */
uint32_t examination_read(const uint8_t *file, size_t file_len,
                          uint32_t answer[EXAMINATION_READ_PLACES]);

/* Rates a sheet: 4 bytes for each start, two's complement, most significant byte
 * first, in line order.
 * Returns 0, and puts the least gap (0 to 1,440) and the sum of the gaps (0 to
 * 92,160) into the answer; or a refusal, a ground of the file or 15. */
uint32_t examination_rate(const uint8_t *file, size_t file_len,
                          const uint8_t *sheet, size_t sheet_len,
                          uint32_t answer[EXAMINATION_RATE_PLACES]);

/* The weighted rating of a sheet. Returns and answers what examination_rate does,
 * on every file and sheet. */
uint32_t examination_weighted(const uint8_t *file, size_t file_len,
                              const uint8_t *sheet, size_t sheet_len,
                              uint32_t answer[EXAMINATION_RATE_PLACES]);

/* The classes of stops that always rate alike.
 * Returns 0, puts the number of classes (1 to 64) into the answer, into the class
 * row for each stop the lowest stop alike to it, 255 if it is unserved, and into
 * the weight row at a class's lowest stop its size, 0 elsewhere; or a refusal, a
 * ground of the file, or 17 where a row hasn't 64 places. */
uint32_t examination_classes(const uint8_t *file, size_t file_len,
                             uint8_t *class_row, size_t class_len,
                             uint16_t *weight_row, size_t weight_len,
                             uint32_t answer[EXAMINATION_CLASSES_PLACES]);

/* Searches for the best timetable. Only the budget ends a search early.
 * Returns 0 finished: the best starts in the row, line 0's 0 and each other's 0 up
 * to its period less 1; in the answer the best least gap, the best sum and the
 * tries, at most the budget. 1 stopped with a best: the same of the best so far,
 * the tries being the budget. 2 stopped with none: the row as it was; 0, 0 and the
 * budget. Or a refusal, a ground of the file, or 16 where the row hasn't one place
 * for each line. */
uint32_t examination_search(const uint8_t *file, size_t file_len,
                            int32_t *start_row, size_t start_len, uint32_t budget,
                            uint32_t answer[EXAMINATION_SEARCH_PLACES]);

/* Seeks a timetable whose least gap is at least the wanted one, any number of 16
 * bits. Only the budget ends it early.
 * Returns 0 found: the starts of one in the row, line 0's 0 and each other's 0 up to
 * its period less 1; in the answer the tries, at most the budget. 1 none: no
 * whole-number starts have such a gap; the row as it was; the tries, at most the
 * budget. 2 stopped: the row as it was; the budget. Or a refusal, a ground of the
 * file, or 16 where the row hasn't one place for each line. */
uint32_t examination_wanted(const uint8_t *file, size_t file_len,
                            int32_t *start_row, size_t start_len, uint16_t wanted,
                            uint32_t budget,
                            uint32_t answer[EXAMINATION_WANTED_PLACES]);

/* The better of two sheets. Never refuses.
 * Returns 1 the first: it fits, and the second doesn't fit or isn't above it; 2
 * the second: it fits, and the first doesn't fit or is below it; 0 neither: the
 * file is refused, or no sheet fits. */
uint32_t examination_better(const uint8_t *file, size_t file_len,
                            const uint8_t *first, size_t first_len,
                            const uint8_t *second, size_t second_len);

/* Marks a sheet: its rating beside the best one. Only the budget ends its search
 * early.
 * Returns 0 decided: in the answer the sheet's least gap and sum, the best least
 * gap and sum, 1 if both ratings are equal and 0 if not, and the tries, at most the
 * budget. 1 undecided, the search stopped: the sheet's least gap and sum, 0, 0, 0,
 * and the budget. Or a refusal, a ground of the file or 15. */
uint32_t examination_mark(const uint8_t *file, size_t file_len,
                          const uint8_t *sheet, size_t sheet_len, uint32_t budget,
                          uint32_t answer[EXAMINATION_MARK_PLACES]);

/* Marks a sheet as examination_mark does, with the mark out of a hundred beside it:
 * the whole part of 100 x the sheet's least gap / the best least gap, and the
 * remainder; 100 and 0 where the best least gap is 0. Sums don't enter.
 * Returns what examination_mark returns, and leaves in the answer what that leaves.
 * 0 decided: in the hundred row the mark, 0 to 100, and the remainder, 0 to 1,439.
 * 1 undecided: 0 and 0, which is no mark. A refusal: both rows as they were. */
uint32_t examination_hundred(const uint8_t *file, size_t file_len,
                             const uint8_t *sheet, size_t sheet_len, uint32_t budget,
                             uint32_t answer[EXAMINATION_MARK_PLACES],
                             uint32_t hundred[EXAMINATION_HUNDRED_PLACES]);

/* The mark out of a hundred of a sheet beside a key, without a search: as above, with
 * the key's least gap for the best one. Beside the starts of a finished search it is
 * what examination_hundred has; beside another key the mark may be above 100, and
 * beside one whose least gap is 0 it is 100 remainder 0 whatever the sheet's.
 * Returns 0, and puts the mark (0 to 144,000) and the remainder (0 to 1,439) into the
 * hundred row; or a refusal, a ground of the file, or 15 where the sheet or the key
 * hasn't 4 bytes for each line. Sheet and key may be the same memory. */
uint32_t examination_by_key(const uint8_t *file, size_t file_len,
                            const uint8_t *sheet, size_t sheet_len,
                            const uint8_t *key, size_t key_len,
                            uint32_t hundred[EXAMINATION_HUNDRED_PLACES]);

/* Writes the archive form at the row's beginning; what lies behind it stays.
 * Returns its length, 3 x lines + 5 x calls + 1, and 2 more in edition 2 (9 to 1,331);
 * or a refusal, a ground of the file, or 18 where the row is shorter than that. An
 * accepted file is in the edition of its second byte where its first is 56, else in 1;
 * a row of EXAMINATION_MOST_ARCHIVE_BYTES is enough in each. */
uint32_t examination_archive(const uint8_t *file, size_t file_len,
                             uint8_t *row, size_t row_len);

/* The board of a stop: every arrival of the sheet's timetable there from the first
 * minute until before first minute plus length, by time, then line, then offset, each as
 * often as calls produce it. The length is at most EXAMINATION_LONGEST_BOARD.
 * Returns 0, puts the number of arrivals (0 to EXAMINATION_MOST_ARRIVALS) into the
 * answer, and their times and lines at the beginning of the two rows; what lies behind
 * stays. A time has 64 bits: first minute plus length may pass 32. An unserved stop has
 * an empty board. Or a refusal, a ground of the file, or, at place 0 and in this order,
 * 15; 8 where the stop is above 63; 22 where the length is above 10,080; 23 where a row
 * is shorter than the list. Rows of EXAMINATION_MOST_CALLS_AT_STOP x length places are
 * always enough. */
uint32_t examination_board(const uint8_t *file, size_t file_len,
                           const uint8_t *sheet, size_t sheet_len, uint32_t stop,
                           int32_t first, uint32_t length,
                           int64_t *time_row, size_t time_len,
                           uint8_t *line_row, size_t line_len,
                           uint32_t answer[EXAMINATION_BOARD_PLACES]);

/* The gap of each stop under a sheet: what its rating is made of.
 * Returns 0, puts into the gap row for each stop its gap (0 to 1,440), and
 * EXAMINATION_NO_GAP if it is unserved, and into the answer the least of these gaps and
 * their sum, which is what examination_rate puts there; or a refusal, as
 * examination_rate gives it, and both rows as they were. The gap row has
 * EXAMINATION_STOPS places, aligned to 2 bytes; no length crosses. */
uint32_t examination_gaps(const uint8_t *file, size_t file_len,
                          const uint8_t *sheet, size_t sheet_len,
                          uint16_t gap_row[EXAMINATION_STOPS],
                          uint32_t answer[EXAMINATION_GAPS_PLACES]);

/* ---- Of a return value (not that of examination_better, which never refuses) */

static inline int examination_is_refused(uint32_t returned)
{
    return returned >= EXAMINATION_REFUSED;
}

/* The ground's number, 1 to 23, of a refusal. */
static inline uint32_t examination_ground(uint32_t returned)
{
    return returned / EXAMINATION_REFUSED;
}

/* The place, 0 to 1,331, of a refusal. */
static inline uint32_t examination_place(uint32_t returned)
{
    return returned % EXAMINATION_REFUSED;
}

/* ---- Of a sheet */

/* Puts a start into a sheet's 4 bytes for it. */
static inline void examination_put_start(uint8_t *bytes, int32_t start)
{
    const uint32_t word = (uint32_t)start;
    bytes[0] = (uint8_t)(word >> 24);
    bytes[1] = (uint8_t)(word >> 16);
    bytes[2] = (uint8_t)(word >> 8);
    bytes[3] = (uint8_t)word;
}

/* The part that better-of-two hands back, by what examination_better returned:
 * the first sheet itself, the second itself, or the empty part at the first one's
 * beginning. */
static inline const uint8_t *examination_part(uint32_t returned,
                                              const uint8_t *first, size_t first_len,
                                              const uint8_t *second, size_t second_len,
                                              size_t *part_len)
{
    if (returned == EXAMINATION_SECOND) {
        *part_len = second_len;
        return second;
    }
    *part_len = returned == EXAMINATION_FIRST ? first_len : 0;
    return first;
}

#ifdef __cplusplus
}
#endif

#endif
