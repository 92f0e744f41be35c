/* Thins document 01's octahedron, grows it back, and prints what each call answers. */
#include <inttypes.h>
#include <math.h>
#include <stdio.h>
#include <string.h>

#include "flaxglimmer.h"

static const int32_t corners[18] = {0, 0, 100, 100, 0, 0, 0, 100, 0, -100, 0, 0, 0, -100, 0, 0, 0, -100};
static const uint32_t first[24] = {0, 1, 2, 0, 2, 3, 0, 3, 4, 0, 4, 1, 5, 2, 1, 5, 3, 2, 5, 4, 3, 5, 1, 4};

/* A list, with a stroke between its rows or records. */
static void numbers(const char *name, const uint32_t *list, size_t length, size_t width)
{
    fputs(name, stdout);
    for (size_t i = 0; i < length; i++)
        printf("%s %" PRIu32, i != 0 && i % width == 0 ? " /" : "", list[i]);
    putchar('\n');
}

static void counted(const char *name, struct flaxglimmer_counted a)
{
    printf("%s %" PRIu64 " %" PRIu64 "\n", name, a.status, a.records);
}

static void measure(const char *name, struct flaxglimmer_measure a)
{
    printf("%s %" PRIu64 " %" PRId64 "\n", name, a.status, a.figure);
}

static void limit(const char *name, uint32_t unit, double figure)
{
    struct flaxglimmer_centimetres a = flaxglimmer_limit(unit, figure);
    printf("%s %" PRIu64 " %" PRIu64 "\n", name, a.status, a.whole);
}

/* What a call of log sheets answers: the status and its three values. */
static void four(const char *name, uint64_t status, const uint64_t values[3])
{
    printf("%s %" PRIu64 " %" PRIu64 " %" PRIu64 " %" PRIu64 "\n", name, status, values[0], values[1], values[2]);
}

/* The record at a place: the status, whether it is found, the place after it, and its numbers, which are sevens before the call. */
static void next(const char *name, const uint8_t *bytes, size_t length, size_t place)
{
    uint32_t record[FLAXGLIMMER_WIDTH] = {7, 7, 7, 7, 7, 7, 7, 7, 7, 7};
    uint64_t found = 7, after = 7;
    uint64_t status = flaxglimmer_next_record(bytes, length, place, &found, &after, record);
    printf("%s %" PRIu64 " %" PRIu64 " %" PRIu64, name, status, found, after);
    numbers(":", record, FLAXGLIMMER_WIDTH, FLAXGLIMMER_WIDTH);
}

/* Document 01's log as a log sheet: written, with a byte of the text past it, and read whole and record by record, with a number of the room past
 * its own. */
static void log_sheet(const uint32_t *log)
{
    uint8_t text[53];
    text[52] = '.';
    struct flaxglimmer_written written = flaxglimmer_write_log_sheet(6, 8, log, 20, text, 53);
    printf("write a log sheet %" PRIu64 " %" PRIu64 "\n%.53s\n", written.status, written.bytes, (const char *)text);
    written = flaxglimmer_write_log_sheet(6, 8, log, 20, text, 51);
    printf("a short text %" PRIu64 " %" PRIu64 "\n", written.status, written.bytes);
    written = flaxglimmer_write_log_sheet(5, 8, log, 20, text, 52);
    printf("too many records %" PRIu64 " %" PRIu64 "\n", written.status, written.bytes);

    uint64_t a[3];
    uint32_t room[21] = {0};
    room[20] = 7;
    uint64_t status = flaxglimmer_read_log_sheet(text, 52, room, 21, &a[0], &a[1], &a[2]);
    four("read a log sheet", status, a);
    numbers("its records", room, 21, 10);
    memset(room, 0, 20 * sizeof *room);
    status = flaxglimmer_each_record(text, 52, room, 21, &a[0], &a[1], &a[2]);
    four("each record", status, a);
    numbers("its records", room, 21, 10);
    status = flaxglimmer_read_log_sheet(text, 52, room, 19, &a[0], &a[1], &a[2]);
    four("a short room", status, a);
    status = flaxglimmer_each_record(text, 52, room, 19, &a[0], &a[1], &a[2]);
    four("a short room for each", status, a);

    status = flaxglimmer_open_log_sheet(text, 52, &a[0], &a[1], &a[2]);
    four("open a log sheet", status, a);
    next("the record at 8", text, 52, 8);
    next("the record at 30", text, 52, 30);
    next("the record at 31", text, 52, 31);
    next("the record at 52", text, 52, 52);
    next("the record past all", text, 52, SIZE_MAX);
}

/* The octahedron taken up from a log sheet as far as it goes: the status and both counts, then the whole table and the whole log, which has a number
 * of room more than it needs and was all sevens. */
static void recover(const char *name, uint32_t unit, double figure, const char *bytes, size_t length)
{
    uint32_t table[24], log[21];
    uint64_t kept = 7, records = 7;
    memcpy(table, first, sizeof first);
    for (size_t i = 0; i < 21; i++)
        log[i] = 7;
    uint64_t status = flaxglimmer_recover(unit, figure, table, 24, corners, 18, log, 21, (const uint8_t *)bytes, length, &kept, &records);
    printf("%s %" PRIu64 " %" PRIu64 " %" PRIu64 "\n", name, status, kept, records);
    numbers("its rows", table, 24, 3);
    numbers("its log", log, 21, 10);
}

static void recovery(void)
{
    static const char sheet[] = "LOG\t6\t8\nK\t0\t1\t0\t0\t1\t2\t3\t0\t4\t1\nK\t0\t2\t0\t0\t2\t3\t2\t5\t2\t0\n";
    static const char spoilt[] = "LOG\t6\t8\nK\t0\t1\t0\t0\t1\t2\t3\t0\t4\t1\nK\t0\t2\t0\t0\t2\t3\t2\t5\t2\t9\nK";
    recover("recover, cut at 51", FLAXGLIMMER_NO_LIMIT, 0, sheet, 51);
    recover("under a limit", FLAXGLIMMER_CENTIMETRES, 141, sheet, 51);
    recover("a record that fails", FLAXGLIMMER_NO_LIMIT, 0, spoilt, strlen(spoilt));
    recover("cut at 7", FLAXGLIMMER_NO_LIMIT, 0, sheet, 7);
    recover("another skin's", FLAXGLIMMER_NO_LIMIT, 0, "LOG\t6\t10\n", 9);
    recover("another unit's", 5, 0.3, sheet, 52);
}

/* The exact sum: the status, whole and rest, which are sevens before the call. */
static void exact_sum(const char *name, const uint32_t *table, size_t length, const int32_t *at, size_t coordinates)
{
    int64_t whole = 7;
    uint64_t rest = 7, status = flaxglimmer_exact_sum(table, length, at, coordinates, &whole, &rest);
    printf("%s %" PRIu64 " %" PRId64 " %" PRIu64 "\n", name, status, whole, rest);
}

static void job(const char *name, const char *bytes)
{
    measure(name, flaxglimmer_job((const uint8_t *)bytes, strlen(bytes)));
}

/* A void with two solids, of which one has a void in it; a half on each side of zero; and each refusal of a job. */
static void jobs(void)
{
    job("job", "JOB\t4\nJ\tV\t-\t600000000\nJ\tS\t0\t60000000\nJ\tV\t1\t12000000\nJ\tS\t0\t6000000\n");
    job("a half", "JOB\t2\nJ\tV\t-\t10000000\nJ\tS\t0\t1000000\n");
    job("a half below zero", "JOB\t2\nJ\tV\t-\t1000000\nJ\tS\t0\t10000000\n");
    job("another number of lines", "JOB\t2\nJ\tV\t-\t0\n");
    job("no entries", "JOB\t0\n");
    job("another kind", "JOB\t1\nJ\tP\t-\t0\n");
    job("a later name", "JOB\t2\nJ\tV\t-\t0\nJ\tS\t1\t0\n");
    job("a void in a void", "JOB\t2\nJ\tV\t-\t0\nJ\tV\t0\t0\n");
    job("nine deep", "JOB\t9\nJ\tV\t-\t0\nJ\tS\t0\t0\nJ\tV\t1\t0\nJ\tS\t2\t0\nJ\tV\t3\t0\nJ\tS\t4\t0\nJ\tV\t5\t0\nJ\tS\t6\t0\n"
                     "J\tV\t7\t0\n");
    job("a sum beyond", "JOB\t1\nJ\tV\t-\t-768000000000000001\n");
}

/* The octahedron with these edges flipped, and then with so many records of the log undone: what each call answers, and the whole table after it.
 * The log has a number of room more than it needs, and was all sevens. */
static void flip(const char *name, const uint32_t *edges, size_t length, size_t records)
{
    uint32_t table[24], log[4 * FLAXGLIMMER_FLIP_WIDTH + 1];
    size_t room = length / 2 * FLAXGLIMMER_FLIP_WIDTH + 1;
    memcpy(table, first, sizeof first);
    for (size_t i = 0; i < room; i++)
        log[i] = 7;
    counted(name, flaxglimmer_flip_list(6, table, 24, edges, length, log, room));
    numbers("its rows", table, 24, 3);
    numbers("its flip log", log, room, FLAXGLIMMER_FLIP_WIDTH);
    counted("undo", flaxglimmer_undo_flips(6, table, 24, log, records * FLAXGLIMMER_FLIP_WIDTH));
    numbers("its rows", table, 24, 3);
}

/* Flips that are done and undone, an edge that is blocked by a flip before it, one that is missing since, a record of sevens that is not undone, and
 * refusals that change nothing. */
static void flips(void)
{
    static const uint32_t both[4] = {0, 1, 2, 5}, blocked[4] = {0, 1, 5, 3}, missing[6] = {0, 1, 2, 5, 1, 0};
    flip("flip", both, 4, 2);
    flip("a blocked edge", blocked, 4, 1);
    flip("a missing edge", missing, 6, 3);
    flip("a list of odd length", both, 3, 0);

    uint32_t table[24], log[2 * FLAXGLIMMER_FLIP_WIDTH];
    memcpy(table, first, sizeof first);
    counted("a short flip log", flaxglimmer_flip_list(6, table, 24, both, 4, log, 2 * FLAXGLIMMER_FLIP_WIDTH - 1));
    counted("too few corners", flaxglimmer_flip_list(5, table, 24, both, 4, log, 2 * FLAXGLIMMER_FLIP_WIDTH));
    counted("no whole records", flaxglimmer_undo_flips(6, table, 24, first, FLAXGLIMMER_FLIP_WIDTH + 1));
    printf("left %s\n", memcmp(table, first, sizeof first) == 0 ? "yes" : "no");
}

/* Every list that may be empty, as NULL: first in calls that are done, on document 01's tetrahedron, which has no record; then everywhere. */
static void empty(void)
{
    static const int32_t at[12] = {0, 0, 0, 300, 0, 0, 0, 300, 0, 0, 0, 300};
    uint32_t table[12] = {0, 1, 2, 0, 2, 3, 0, 3, 1, 1, 3, 2};
    uint64_t a, b, c;
    exact_sum("the tetrahedron's exact sum", table, 12, at, 12);
    counted("no log to thin", flaxglimmer_thin(FLAXGLIMMER_NO_LIMIT, 0, table, 12, at, 12, NULL, 0));
    counted("no log to thin by the plain engine", flaxglimmer_thin_plain(FLAXGLIMMER_NO_LIMIT, 0, table, 12, at, 12, NULL, 0));
    counted("no log to grow back", flaxglimmer_grow_back(4, 4, table, 12, NULL, 0));
    counted("no log to replay", flaxglimmer_replay(4, table, 12, NULL, 0));
    counted("no edges to flip", flaxglimmer_flip_list(4, table, 12, NULL, 0, NULL, 0));
    counted("no flips to undo", flaxglimmer_undo_flips(4, table, 12, NULL, 0));
    uint64_t status = flaxglimmer_shift(3, at, 12, NULL, 0, &a, &b, &c);
    printf("no log to shift by %" PRIu64 " %" PRIu64 " %" PRIu64 " %" PRIu64 "\n", status, a, b, c);
    status = flaxglimmer_catch_up(NULL, 0, table, 12, &a, &b);
    printf("no log to catch up %" PRIu64 " %" PRIu64 " %" PRIu64 "\n", status, a, b);

    uint8_t text[8];
    uint64_t values[3] = {7, 7, 7};
    struct flaxglimmer_written written = flaxglimmer_write_log_sheet(4, 4, NULL, 0, text, 8);
    printf("no log to write %" PRIu64 " %" PRIu64 " %.8s", written.status, written.bytes, (const char *)text);
    status = flaxglimmer_read_log_sheet(text, 8, NULL, 0, &values[0], &values[1], &values[2]);
    four("no log to read", status, values);
    status = flaxglimmer_each_record(text, 8, NULL, 0, &values[0], &values[1], &values[2]);
    four("no record to read", status, values);
    status = flaxglimmer_recover(FLAXGLIMMER_NO_LIMIT, 0, table, 12, at, 12, NULL, 0, text, 8, &a, &b);
    printf("no log to recover %" PRIu64 " %" PRIu64 " %" PRIu64 "\n", status, a, b);

    counted("nothing to thin", flaxglimmer_thin(FLAXGLIMMER_NO_LIMIT, 0, NULL, 0, NULL, 0, NULL, 0));
    counted("nothing to thin by the plain engine", flaxglimmer_thin_plain(FLAXGLIMMER_NO_LIMIT, 0, NULL, 0, NULL, 0, NULL, 0));
    counted("nothing to grow back", flaxglimmer_grow_back(4, 4, NULL, 0, NULL, 0));
    counted("nothing to replay", flaxglimmer_replay(4, NULL, 0, NULL, 0));
    counted("nothing to flip", flaxglimmer_flip_list(4, NULL, 0, NULL, 0, NULL, 0));
    counted("nothing to undo", flaxglimmer_undo_flips(4, NULL, 0, NULL, 0));
    measure("nothing's volume", flaxglimmer_volume(NULL, 0, NULL, 0));
    exact_sum("nothing's exact sum", NULL, 0, NULL, 0);
    measure("no job", flaxglimmer_job(NULL, 0));
    measure("nothing's change", flaxglimmer_change(NULL, 0, NULL, 0, NULL, 0));
    a = b = c = 7;
    status = flaxglimmer_shift(0, NULL, 0, NULL, 0, &a, &b, &c);
    printf("nothing to shift %" PRIu64 " %" PRIu64 " %" PRIu64 " %" PRIu64 "\n", status, a, b, c);
    a = b = 7;
    status = flaxglimmer_catch_up(NULL, 0, NULL, 0, &a, &b);
    printf("nothing to catch up %" PRIu64 " %" PRIu64 " %" PRIu64 "\n", status, a, b);
    printf("no rings %" PRIu32 "\n", flaxglimmer_shorter_ring(NULL, 0, NULL, 0));
    a = b = 7;
    status = flaxglimmer_read_sheet(NULL, 0, NULL, 0, NULL, 0, &a, &b);
    printf("no sheet %" PRIu64 " %" PRIu64 " %" PRIu64 "\n", status, a, b);
    written = flaxglimmer_reply(NULL, 0, NULL, 0);
    printf("no text %" PRIu64 " %" PRIu64 "\n", written.status, written.bytes);

    written = flaxglimmer_write_log_sheet(0, 0, NULL, 0, NULL, 0);
    printf("nothing to write %" PRIu64 " %" PRIu64 "\n", written.status, written.bytes);
    written = flaxglimmer_write_log_sheet(4, 4, NULL, 0, NULL, 0);
    printf("no text to write %" PRIu64 " %" PRIu64 "\n", written.status, written.bytes);
    values[0] = values[1] = values[2] = 7;
    status = flaxglimmer_read_log_sheet(NULL, 0, NULL, 0, &values[0], &values[1], &values[2]);
    four("no log sheet", status, values);
    values[0] = values[1] = values[2] = 7;
    status = flaxglimmer_each_record(NULL, 0, NULL, 0, &values[0], &values[1], &values[2]);
    four("no log sheet's records", status, values);
    values[0] = values[1] = values[2] = 7;
    status = flaxglimmer_open_log_sheet(NULL, 0, &values[0], &values[1], &values[2]);
    four("no log sheet to open", status, values);
    next("nothing's record", NULL, 0, 0);
    a = b = 7;
    status = flaxglimmer_recover(FLAXGLIMMER_NO_LIMIT, 0, table, 12, at, 12, NULL, 0, NULL, 0, &a, &b);
    printf("no log sheet to recover %" PRIu64 " %" PRIu64 " %" PRIu64 "\n", status, a, b);
    a = b = 7;
    status = flaxglimmer_recover(FLAXGLIMMER_NO_LIMIT, 0, NULL, 0, NULL, 0, NULL, 0, NULL, 0, &a, &b);
    printf("nothing to recover %" PRIu64 " %" PRIu64 " %" PRIu64 "\n", status, a, b);
}

int main(void)
{
    uint32_t table[24], log[20];
    memcpy(table, first, sizeof first);
    counted("thin", flaxglimmer_thin(FLAXGLIMMER_NO_LIMIT, 0, table, 24, corners, 18, log, 20));
    numbers("rows", table, 12, 3);
    numbers("records", log, 20, 10);
    memcpy(table, first, sizeof first);
    memset(log, 0, sizeof log);
    counted("thin by the plain engine", flaxglimmer_thin_plain(FLAXGLIMMER_NO_LIMIT, 0, table, 24, corners, 18, log, 20));
    numbers("rows", table, 12, 3);
    numbers("records", log, 20, 10);
    measure("volume", flaxglimmer_volume(first, 24, corners, 18));
    exact_sum("exact sum", first, 24, corners, 18);
    measure("change", flaxglimmer_change(first, 24, table, 12, corners, 18));

    uint64_t stand_in, count, squared;
    uint64_t status = flaxglimmer_shift(2, corners, 18, log, 20, &stand_in, &count, &squared);
    printf("shift %" PRIu64 " %" PRIu64 " %" PRIu64 " %" PRIu64 "\n", status, stand_in, count, squared);

    counted("grow back", flaxglimmer_grow_back(4, 6, table, 24, log, 20));
    printf("restored %s\n", memcmp(table, first, sizeof first) == 0 ? "yes" : "no");
    counted("replay", flaxglimmer_replay(6, table, 24, log, 20));
    log_sheet(log);
    recovery();
    jobs();
    flips();
    log[0] = 5;
    counted("a record that fails", flaxglimmer_grow_back(4, 6, table, 24, log, 20));

    limit("0.3 m", FLAXGLIMMER_METRES, 0.3);
    limit("no number", FLAXGLIMMER_METRES, NAN);
    limit("6,561.25 ft", FLAXGLIMMER_FEET, 6561.25);
    limit("6,561.25 international ft", FLAXGLIMMER_INTERNATIONAL_FEET, 6561.25);
    limit("another unit", 5, 0.3);
    counted("another unit's limit", flaxglimmer_thin(5, 0.3, table, 24, corners, 18, log, 20));
    counted("a short log", flaxglimmer_thin(FLAXGLIMMER_FEET, 1, table, 24, corners, 18, log, 19));
    counted("a short log", flaxglimmer_thin_plain(FLAXGLIMMER_FEET, 1, table, 24, corners, 18, log, 19));
    empty();

    uint64_t from, to;
    uint64_t which = flaxglimmer_catch_up(first, 6, first, 24, &from, &to);
    printf("catch up %" PRIu64 " %" PRIu64 " %" PRIu64 "\n", which, from, to);
    printf("shorter ring %" PRIu32 " %" PRIu32 "\n", flaxglimmer_shorter_ring(first, 6, first, 5), flaxglimmer_shorter_ring(first, 5, first, 5));

    struct flaxglimmer_stored stored = flaxglimmer_trial_number(383);
    printf("trial number %" PRIu64 " %" PRIu64 "\n", stored.there, stored.number);

    uint8_t text[64];
    uint64_t corner_count, rows;
    const char *sheet = "SKIN\t4\t3\n";
    status = flaxglimmer_read_sheet((const uint8_t *)sheet, strlen(sheet), table, 24, NULL, 0, &corner_count, &rows);
    printf("sheet %" PRIu64 " %" PRIu64 " %" PRIu64 "\n", status, corner_count, rows);
    struct flaxglimmer_written written = flaxglimmer_reply((const uint8_t *)sheet, strlen(sheet), text, sizeof text);
    printf("reply %" PRIu64 " %.*s", written.status, (int)written.bytes, (const char *)text);
    return 0;
}
