/* Flaxglimmer for C and C++: every public call. The functions are those of the proved crate `bridge`; link libbridge.a, which calls nothing
 * of other libraries but memcpy, memmove and memset.
 *
 * A row is three corner numbers; corners are three coordinates each, in centimetres; a record is FLAXGLIMMER_WIDTH numbers of a log, and that of a
 * flip FLAXGLIMMER_FLIP_WIDTH numbers of a flip log.
 *
 * status: 0 done, else the number of the first refusal that holds, FLAXGLIMMER_LIMIT_UNUSABLE to FLAXGLIMMER_RECORD_FAILS below, of a job
 * FLAXGLIMMER_JOB_COUNT to FLAXGLIMMER_JOB_SUM, and of flips FLAXGLIMMER_EDGE_MISSING to FLAXGLIMMER_UNDO_FAILS; a later archive may answer further
 * numbers. A refused call leaves every list that it was lent as it was, and each of its values is 0, those in lent numbers and in a lent record too.
 * But FLAXGLIMMER_RECORD_FAILS tells how many records were done before it, and leaves the stage that they led to; flaxglimmer_recover also leaves
 * those records in front of its log. FLAXGLIMMER_EDGE_MISSING and FLAXGLIMMER_EDGE_BLOCKED tell how many flips were done before, and leave those in
 * the table and in the log and no others; FLAXGLIMMER_UNDO_FAILS tells how many were undone before, and leaves the table that they led to.
 *
 * What is lent. A list is a pointer and how many numbers (of a sheet or a text: bytes) stand there, its length. It is lent for the call alone:
 * nothing is kept, and nothing is freed.
 * - A list with `const` is only read, and may overlap other lists with `const`, or be one of them.
 * - A list without `const` is lent to be written, as is each uint64_t or int64_t by itself, a lent number, and the FLAXGLIMMER_WIDTH numbers of a
 *   lent record, which have no length beside them. What is lent to be written overlaps nothing else that is lent to the same call. It need not
 *   be cleared first.
 * - A list of length 0 may have any pointer, NULL too: nothing is read or written through it. Of any other length it is no NULL, and so many
 *   numbers of its type stand there. A lent number and a lent record are never NULL, and are written whatever the status.
 * - Every pointer is aligned as its type is: 4 bytes for uint32_t and int32_t, 8 for uint64_t and int64_t.
 * Nothing else is asked of a caller: every number and every length has an answer, and every call ends.
 *
 * Threads. No call keeps anything, allocates, reads or writes a file, or waits: it works in what it is lent and on the stack of the thread that
 * makes it. So calls may be made on any threads at once, and by a signal handler, where nothing that one call is lent to be written is lent to
 * another at the same time.
 *
 * Stack. A call takes at most so many bytes of its thread's stack as FLAXGLIMMER_STACK_ has for it below.
 */
#ifndef FLAXGLIMMER_H
#define FLAXGLIMMER_H

#include <stddef.h>
#include <stdint.h>

#if SIZE_MAX < UINT64_MAX
#error "the proved functions count in 64 bits"
#endif

#ifdef __cplusplus
extern "C" {
#endif

/* The limits of a table and its corners, by name: counts outside them are FLAXGLIMMER_COUNTS_OUTSIDE. */
#define FLAXGLIMMER_LEAST_ROWS 4
#define FLAXGLIMMER_MOST_ROWS 1024
#define FLAXGLIMMER_LEAST_CORNERS 4
#define FLAXGLIMMER_MOST_CORNERS 514

/* Coordinates go from -FLAXGLIMMER_MOST_COORDINATE to FLAXGLIMMER_MOST_COORDINATE, in centimetres. */
#define FLAXGLIMMER_MOST_COORDINATE 50000

/* How many numbers of a log a record is. */
#define FLAXGLIMMER_WIDTH 10

/* How many numbers of a flip log the record of a flip is. */
#define FLAXGLIMMER_FLIP_WIDTH 8

/* The limits of a sheet; its least rows and corners are a table's. A longer sheet is FLAXGLIMMER_SHEET_FORM. */
#define FLAXGLIMMER_MOST_SHEET_BYTES 65536
#define FLAXGLIMMER_MOST_SHEET_ROWS 1024
#define FLAXGLIMMER_MOST_SHEET_CORNERS 514

/* The most bytes of a log sheet. A longer one is FLAXGLIMMER_SHEET_FORM, and so many bytes suffice for any log that can be written as one. */
#define FLAXGLIMMER_MOST_LOG_BYTES 65536

/* The limits of a job sheet: its bytes, past which it is FLAXGLIMMER_SHEET_FORM; its entries, of which it has one at least; and how deep they may
 * stand in each other, the first at 1. */
#define FLAXGLIMMER_MOST_JOB_BYTES 65536
#define FLAXGLIMMER_MOST_ENTRIES 32
#define FLAXGLIMMER_MOST_DEPTH 8

/* Bytes that suffice for the desk's answer to any sheet. */
#define FLAXGLIMMER_MOST_TEXT 65536

/* How many bytes of stack a call takes at most; a call that has no name here takes FLAXGLIMMER_STACK_OTHER. No proof bounds a stack: these are
 * what c/stack.c measured with the kit before this one, on Arm and on x86-64 or on x86-64 alone, on skins, logs and jobs at the limits, with at
 * least an eighth more and rounded up to 16 KiB; tests/bridge measures again, on x86-64, and compares.
 * The arrays on the stack have the length of the limits whatever is lent, and no function calls itself but by the digits of a number, and by the
 * nesting of a job, which FLAXGLIMMER_MOST_DEPTH bounds. */
#define FLAXGLIMMER_STACK_THIN 114688
#define FLAXGLIMMER_STACK_THIN_PLAIN 114688
#define FLAXGLIMMER_STACK_GROW_BACK 81920
#define FLAXGLIMMER_STACK_REPLAY 114688
#define FLAXGLIMMER_STACK_VOLUME 81920
#define FLAXGLIMMER_STACK_CHANGE 81920
#define FLAXGLIMMER_STACK_EXACT_SUM 81920
#define FLAXGLIMMER_STACK_READ_SHEET 147456
#define FLAXGLIMMER_STACK_REPLY 262144
#define FLAXGLIMMER_STACK_RECOVER 147456
#define FLAXGLIMMER_STACK_FLIP_LIST 114688
#define FLAXGLIMMER_STACK_UNDO_FLIPS 114688
#define FLAXGLIMMER_STACK_OTHER 16384

/* What a status says. */
enum {
    FLAXGLIMMER_DONE = 0,
    FLAXGLIMMER_LIMIT_UNUSABLE = 1,          /* limit unusable */
    FLAXGLIMMER_COUNTS_OUTSIDE = 2,          /* counts outside limits; a length no multiple; rows that would pass the limits; too many records or digits for a log sheet, or counts that are not the skin's */
    FLAXGLIMMER_ROOM_SHORT = 3,              /* lent room short */
    FLAXGLIMMER_COORDINATE_OUT_OF_RANGE = 4, /* a coordinate out of range */
    FLAXGLIMMER_NUMBER_NOT_BELOW = 5,        /* a corner number not below the count */
    FLAXGLIMMER_NUMBER_TWICE = 6,            /* a number twice in a row */
    FLAXGLIMMER_EDGE_TWICE = 7,              /* a directed edge twice */
    FLAXGLIMMER_REVERSE_MISSING = 8,         /* a reverse missing */
    FLAXGLIMMER_CORNER_UNUSED = 9,           /* a corner unused */
    FLAXGLIMMER_RINGS_MANY = 10,             /* more than one ring round a corner */
    FLAXGLIMMER_NOT_CONNECTED = 11,          /* not connected */
    FLAXGLIMMER_SHEET_FORM = 12,             /* sheet not in its form, or too long */
    FLAXGLIMMER_RECORD_FAILS = 13,           /* a record does not grow back or replay */
    FLAXGLIMMER_JOB_COUNT = 20,              /* entries outside limits: 1 to 32 */
    FLAXGLIMMER_JOB_KIND = 21,               /* a kind that is neither V nor S */
    FLAXGLIMMER_JOB_NAME = 22,               /* a name that is no earlier entry's: the first names none, and only the first */
    FLAXGLIMMER_JOB_ALTERNATION = 23,        /* kinds that do not alternate: a void in a void, or a solid in a solid */
    FLAXGLIMMER_JOB_DEPTH = 24,              /* nesting too deep: over 8, the first at 1 */
    FLAXGLIMMER_JOB_SUM = 25,                /* a sum out of range: beyond 768,000,000,000,000,000 either way */
    FLAXGLIMMER_EDGE_MISSING = 30,           /* a listed edge that is missing */
    FLAXGLIMMER_EDGE_BLOCKED = 31,           /* a listed edge whose opposite corners are neighbours already */
    FLAXGLIMMER_UNDO_FAILS = 32              /* a flip's record that is not undone */
};

/* Units of a limit. Feet are survey feet, 1200/3937 of a metre; international feet have 30.48 centimetres. Any other number stands for a limit that
 * is unusable, as does FLAXGLIMMER_NO_LIMIT where a limit is read. */
enum {
    FLAXGLIMMER_NO_LIMIT = 0,
    FLAXGLIMMER_METRES = 1,
    FLAXGLIMMER_FEET = 2,
    FLAXGLIMMER_CENTIMETRES = 3,
    FLAXGLIMMER_INTERNATIONAL_FEET = 4
};

/* How many records were written, grown back or replayed, or how many flips done or undone. */
struct flaxglimmer_counted {
    uint64_t status;
    uint64_t records;
};

/* A figure in cubic metres, to the nearest whole; it may be below zero. */
struct flaxglimmer_measure {
    uint64_t status;
    int64_t figure;
};

/* A limit in whole centimetres, rounded down. */
struct flaxglimmer_centimetres {
    uint64_t status;
    uint64_t whole;
};

/* How many bytes were written. */
struct flaxglimmer_written {
    uint64_t status;
    uint64_t bytes;
};

/* A number of the trial ring: 1 and the number, or 0 and 0 past its end. */
struct flaxglimmer_stored {
    uint64_t there;
    uint64_t number;
};

/* Thins a first table under an order: the last stage is left in front of the table and zeros behind it, the records in front of the log, which
 * stays as it was past them. Where there is no limit the figure is not looked at.
 * table: its rows; written. corners: their coordinates; read. log: room for FLAXGLIMMER_WIDTH numbers for each corner past
 * FLAXGLIMMER_LEAST_CORNERS, so none for that many; written. */
struct flaxglimmer_counted flaxglimmer_thin(uint32_t unit, double figure, uint32_t *table, size_t table_length, const int32_t *corners,
                                            size_t corners_length, uint32_t *log, size_t log_length);

/* The same by the plain engine, which looks for the least edge again after each step. Where there is no limit flaxglimmer_thin takes a quick one, which
 * finishes one corner before the next; with a limit it takes the plain one too. They answer and leave the same, number for number. */
struct flaxglimmer_counted flaxglimmer_thin_plain(uint32_t unit, double figure, uint32_t *table, size_t table_length, const int32_t *corners,
                                                  size_t corners_length, uint32_t *log, size_t log_length);

/* Grows a log back, the last record first, on the rows that stand in front of a room, over so many corners. Each record adds two rows; what lies
 * past the grown rows stays as it was.
 * room: the rows, with room for all that will stand, of any length past that; written. log: whole records; read. */
struct flaxglimmer_counted flaxglimmer_grow_back(size_t rows, size_t corners, uint32_t *room, size_t room_length, const uint32_t *log,
                                                 size_t log_length);

/* Replays a log forward on a table over so many corners; the stage reached is left in front and zeros behind it.
 * table: its rows; written. log: whole records; read. */
struct flaxglimmer_counted flaxglimmer_replay(size_t corners, uint32_t *table, size_t table_length, const uint32_t *log, size_t log_length);

/* The volume of a stage with its coordinates.
 * table: its rows; read. corners: their coordinates; read. */
struct flaxglimmer_measure flaxglimmer_volume(const uint32_t *table, size_t table_length, const int32_t *corners, size_t corners_length);

/* The exact sixfold sum of a stage with its coordinates, for the line of a job: 6,000,000 x whole + rest, and rest is from 0 below 6,000,000, so
 * that whole is rounded down; its value is the status. The refusals are those of flaxglimmer_volume.
 * table: its rows; read. corners: their coordinates; read. whole, rest: lent numbers; whole may be below zero. */
uint64_t flaxglimmer_exact_sum(const uint32_t *table, size_t table_length, const int32_t *corners, size_t corners_length, int64_t *whole,
                               uint64_t *rest);

/* The change from an earlier stage to a later one over the same coordinates, rounded once.
 * earlier, later: their rows; read. corners: their coordinates; read. */
struct flaxglimmer_measure flaxglimmer_change(const uint32_t *earlier, size_t earlier_length, const uint32_t *later, size_t later_length,
                                              const int32_t *corners, size_t corners_length);

/* The shift of a corner by a log that was written over these coordinates; its value is the status.
 * corners: their coordinates; read. log: whole records; read. stand_in, count, squared: lent numbers, for the stand-in, how many records moved it
 * and the squared distance in square centimetres. */
uint64_t flaxglimmer_shift(uint32_t corner, const int32_t *corners, size_t corners_length, const uint32_t *log, size_t log_length,
                           uint64_t *stand_in, uint64_t *count, uint64_t *squared);

/* A typed limit in whole centimetres. */
struct flaxglimmer_centimetres flaxglimmer_limit(uint32_t unit, double figure);

/* The shorter of two lent rings: 0 the first, also when they are equally long, or 1 the second. Its value is no status: nothing is refused.
 * first, second: rings; read. */
uint32_t flaxglimmer_shorter_ring(const uint32_t *first, size_t first_length, const uint32_t *second, size_t second_length);

/* The catch-up part: if one log is a beginning of the other, the rest of the longer; otherwise, or if they are equal, an empty part of the first.
 * Its value is 0 for a part of the first log or 1 for one of the second, and no status: nothing is refused. The part is the log's numbers at the
 * places from `from` up to, not with, `to`.
 * first, second: any numbers; read. from, to: lent numbers. */
uint64_t flaxglimmer_catch_up(const uint32_t *first, size_t first_length, const uint32_t *second, size_t second_length, uint64_t *from,
                              uint64_t *to);

/* Reads a sheet: its rows in front of the table, its coordinates in front of the corners, which stay as they were past those; its value is the
 * status.
 * bytes: the sheet; read. table, corners: room for its rows and its coordinates, three numbers each; written. count, rows: lent numbers, for how
 * many corners and rows it has. */
uint64_t flaxglimmer_read_sheet(const uint8_t *bytes, size_t bytes_length, uint32_t *table, size_t table_length, int32_t *corners,
                                size_t corners_length, uint64_t *count, uint64_t *rows);

/* The trial ring's number at a place of its table of 384. */
struct flaxglimmer_stored flaxglimmer_trial_number(size_t at);

/* The desk's whole answer to a sheet, in front of the text, which stays as it was past it; FLAXGLIMMER_MOST_TEXT bytes always suffice, and
 * FLAXGLIMMER_ROOM_SHORT is its only refusal.
 * sheet: the sheet; read. text: room for the answer; written. */
struct flaxglimmer_written flaxglimmer_reply(const uint8_t *sheet, size_t sheet_length, uint8_t *text, size_t text_length);

/* Writes a log as a log sheet for so many corners and rows, in front of the text, which stays as it was past it; FLAXGLIMMER_MOST_LOG_BYTES bytes
 * always suffice. FLAXGLIMMER_COUNTS_OUTSIDE for counts outside their limits, a log that is no whole records or has more than corners - 4 of them,
 * or a number over six digits; then FLAXGLIMMER_ROOM_SHORT.
 * log: whole records; read. text: room for the sheet; written. */
struct flaxglimmer_written flaxglimmer_write_log_sheet(size_t corners, size_t rows, const uint32_t *log, size_t log_length, uint8_t *text,
                                                       size_t text_length);

/* Reads a log sheet: its numbers in front of the log, which stays as it was past those; its value is the status. FLAXGLIMMER_SHEET_FORM for its
 * size and the form of all its lines; then FLAXGLIMMER_COUNTS_OUTSIDE, also for more than corners - 4 records; then FLAXGLIMMER_ROOM_SHORT.
 * bytes: the log sheet; read. log: room for its numbers; written. corners, rows, records: lent numbers, for its counts and how many records it
 * has. */
uint64_t flaxglimmer_read_log_sheet(const uint8_t *bytes, size_t bytes_length, uint32_t *log, size_t log_length, uint64_t *corners, uint64_t *rows,
                                    uint64_t *records);

/* The same by the reader that is asked for one record at a time. It asks in another order: FLAXGLIMMER_SHEET_FORM for size and first line;
 * FLAXGLIMMER_COUNTS_OUTSIDE for the counts of the first line, as records are not held against the corners; FLAXGLIMMER_SHEET_FORM for a line of a
 * record; FLAXGLIMMER_ROOM_SHORT. */
uint64_t flaxglimmer_each_record(const uint8_t *bytes, size_t bytes_length, uint32_t *log, size_t log_length, uint64_t *corners, uint64_t *rows,
                                 uint64_t *records);

/* Opens a log sheet to be read record by record; its value is the status. FLAXGLIMMER_SHEET_FORM for size and first line;
 * FLAXGLIMMER_COUNTS_OUTSIDE for its counts. What follows the first line is not looked at.
 * bytes: the log sheet; read. corners, rows, place: lent numbers, for its counts and the place after its first line. */
uint64_t flaxglimmer_open_log_sheet(const uint8_t *bytes, size_t bytes_length, uint64_t *corners, uint64_t *rows, uint64_t *place);

/* The record at a place of a log sheet, or of any bytes; its value is the status. Where no byte follows the place it is the end: 0 is found, the
 * place after is the place as given, and the numbers are 0. Else the line there is a record's, or the status is FLAXGLIMMER_SHEET_FORM and all
 * else is 0.
 * bytes: any bytes; read. place: any number. found, after: lent numbers, for 1 or 0 and the place after the record's line. numbers: a lent record,
 * for its numbers. */
uint64_t flaxglimmer_next_record(const uint8_t *bytes, size_t bytes_length, size_t place, uint64_t *found, uint64_t *after, uint32_t *numbers);

/* Takes a thinning up whose log sheet was cut after any byte: lines that end in a newline are used and what follows the last of them is dropped,
 * the records are replayed on the first table, and thinning goes on under an order, as in flaxglimmer_thin; its value is the status. Done, the last
 * stage is left in front of the table and zeros behind it, the records replayed and then those added in front of the log, which stays as it was
 * past them. If the order is the one that wrote the sheet, these are the table and the log of a thinning that was never broken off; if it is
 * another, only the records added go by it.
 * The refusals are those of flaxglimmer_thin; then FLAXGLIMMER_SHEET_FORM for the size, a cut inside the first line, or a whole line that is not in
 * its form; then FLAXGLIMMER_COUNTS_OUTSIDE for a first line whose counts are not those of the table and the corners, or more than corners - 4
 * records; then FLAXGLIMMER_RECORD_FAILS for a record that does not replay: kept and records both tell how many did, the stage that they led to is
 * left in front of the table and zeros behind it, and they in front of the log.
 * table: the first table's rows; written. corners: their coordinates; read. log: room as flaxglimmer_thin needs it; written. bytes: the log sheet
 * as far as it goes; read. kept, records: lent numbers, for how many records were replayed and how many there are in all. */
uint64_t flaxglimmer_recover(uint32_t unit, double figure, uint32_t *table, size_t table_length, const int32_t *corners, size_t corners_length,
                             uint32_t *log, size_t log_length, const uint8_t *bytes, size_t bytes_length, uint64_t *kept, uint64_t *records);

/* The net of a job, of voids and solids that stand in each other: the sum of the topmost entry less the nets of those directly in it, whose nets
 * are worked in the same way, rounded once at the end. Its sheet has the line JOB and the count of entries; then for each entry J, V for a void or S
 * for a solid, the number of the earlier entry that it stands in, from 0, or - for the first, and its exact sum, as flaxglimmer_exact_sum gives it,
 * in one to 18 digits with a minus before one below zero.
 * FLAXGLIMMER_SHEET_FORM for its size, the form of its lines, and another number of them than the count; then FLAXGLIMMER_JOB_COUNT to
 * FLAXGLIMMER_JOB_SUM in the order of their numbers, each asked of every entry before the next is.
 * bytes: the job sheet; read. */
struct flaxglimmer_measure flaxglimmer_job(const uint8_t *bytes, size_t bytes_length);

/* Flips listed edges of a stage over so many corners, in order up to the first that is refused. The edge a b stands in the rows (a, b, c) and
 * (b, a, d), which become (c, a, d) in the first one's place and (c, d, b) in the second's: a b and b a write other rows. Each flip puts a record in
 * the log, FLAXGLIMMER_FLIP_WIDTH numbers: the place and the old row of (a, b, c), as it was stored, and then those of (b, a, d). The log stays as
 * it was past the records.
 * FLAXGLIMMER_COUNTS_OUTSIDE for a table that is no whole rows, counts outside their limits, or a list of odd length; then FLAXGLIMMER_ROOM_SHORT;
 * then FLAXGLIMMER_NUMBER_NOT_BELOW to FLAXGLIMMER_NOT_CONNECTED of the table, but not FLAXGLIMMER_CORNER_UNUSED; then edge by edge
 * FLAXGLIMMER_EDGE_MISSING, also where a is b or one of them is no used corner, and FLAXGLIMMER_EDGE_BLOCKED where c and d are neighbours already.
 * table: its rows; written. edges: two corner numbers each; read. log: room for FLAXGLIMMER_FLIP_WIDTH numbers for each listed edge; written. */
struct flaxglimmer_counted flaxglimmer_flip_list(size_t corners, uint32_t *table, size_t table_length, const uint32_t *edges, size_t edges_length,
                                                 uint32_t *log, size_t log_length);

/* Undoes the flips of a flip log on a stage over so many corners, the last record first: its two rows are put back in their places. A record is
 * undone where that gives a stage whose flip is allowed and writes the present table and this record.
 * FLAXGLIMMER_COUNTS_OUTSIDE for a table that is no whole rows, counts outside their limits, or a log that is no whole records; then
 * FLAXGLIMMER_NUMBER_NOT_BELOW to FLAXGLIMMER_NOT_CONNECTED of the table, but not FLAXGLIMMER_CORNER_UNUSED; then record by record
 * FLAXGLIMMER_UNDO_FAILS.
 * table: its rows; written. log: whole records of flips; read. */
struct flaxglimmer_counted flaxglimmer_undo_flips(size_t corners, uint32_t *table, size_t table_length, const uint32_t *log, size_t log_length);

#ifdef __cplusplus
}
#endif

#endif
