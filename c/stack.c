/* How much stack each call takes, in bytes, and how much the header tells of it: on a thread with a stack of its own, what lies below is filled,
 * the call is made, and the deepest byte that is no longer as it was filled is looked for. A second fill finds bytes that were written with the
 * first one's value. Each call is made on a skin, a log or a job at its limits and on the trial ring, where it is done, and on nothing, and the
 * most is told. Ends with 1 where a call takes more than the header says, with 2 where one cannot be measured. */
#define _POSIX_C_SOURCE 200809L
#include <inttypes.h>
#include <pthread.h>
#include <stdio.h>
#include <stdlib.h>
#include <string.h>

#include "flaxglimmer.h"

#define STACK (4u << 20)
#define CLEAR 512

/* A skin and what is made of it. */
struct skin {
    size_t rows, corners, records;
    uint32_t first[3 * FLAXGLIMMER_MOST_ROWS], last[3 * FLAXGLIMMER_MOST_ROWS], table[3 * FLAXGLIMMER_MOST_ROWS];
    int32_t coordinates[3 * FLAXGLIMMER_MOST_CORNERS], read[3 * FLAXGLIMMER_MOST_CORNERS];
    uint32_t log[FLAXGLIMMER_WIDTH * FLAXGLIMMER_MOST_CORNERS], written[FLAXGLIMMER_WIDTH * FLAXGLIMMER_MOST_CORNERS];
    uint8_t sheet[FLAXGLIMMER_MOST_SHEET_BYTES], text[FLAXGLIMMER_MOST_SHEET_BYTES];
    size_t bytes;
    uint8_t log_sheet[FLAXGLIMMER_MOST_LOG_BYTES], log_text[FLAXGLIMMER_MOST_LOG_BYTES];
    size_t log_bytes, first_record;
    uint8_t job_sheet[FLAXGLIMMER_MOST_JOB_BYTES];
    size_t job_bytes;
    size_t edges;
    uint32_t edge[2], flip[FLAXGLIMMER_FLIP_WIDTH], flipped[3 * FLAXGLIMMER_MOST_ROWS];
};

static struct skin table_limits, sheet_limits, log_limits, job_limits, ring, nothing;
static struct skin *now;

/* Whether the call was done: tests ask elsewhere whether what it answers is right. */
static volatile uint64_t status;
static uint64_t stand_in, count, squared;
static int64_t whole;
static uint32_t record[FLAXGLIMMER_WIDTH], flip[FLAXGLIMMER_FLIP_WIDTH];

static void thin(void)
{
    memcpy(now->table, now->first, sizeof now->first);
    status = flaxglimmer_thin(FLAXGLIMMER_NO_LIMIT, 0, now->table, 3 * now->rows, now->coordinates, 3 * now->corners, now->written,
                              FLAXGLIMMER_WIDTH * now->corners).status;
}

static void thin_under_a_limit(void)
{
    memcpy(now->table, now->first, sizeof now->first);
    status = flaxglimmer_thin(FLAXGLIMMER_FEET, 4.75, now->table, 3 * now->rows, now->coordinates, 3 * now->corners, now->written,
                              FLAXGLIMMER_WIDTH * now->corners).status;
}

static void thin_plain(void)
{
    memcpy(now->table, now->first, sizeof now->first);
    status = flaxglimmer_thin_plain(FLAXGLIMMER_FEET, 4.75, now->table, 3 * now->rows, now->coordinates, 3 * now->corners, now->written,
                                    FLAXGLIMMER_WIDTH * now->corners).status;
}

static void grow_back(void)
{
    memcpy(now->table, now->last, sizeof now->last);
    status = flaxglimmer_grow_back(now->rows - 2 * now->records, now->corners, now->table, 3 * now->rows, now->log,
                                   FLAXGLIMMER_WIDTH * now->records).status;
}

static void replay(void)
{
    memcpy(now->table, now->first, sizeof now->first);
    status = flaxglimmer_replay(now->corners, now->table, 3 * now->rows, now->log, FLAXGLIMMER_WIDTH * now->records).status;
}

static void volume(void)
{
    status = flaxglimmer_volume(now->first, 3 * now->rows, now->coordinates, 3 * now->corners).status;
}

static void exact_sum(void)
{
    status = flaxglimmer_exact_sum(now->first, 3 * now->rows, now->coordinates, 3 * now->corners, &whole, &count);
}

static void change(void)
{
    status = flaxglimmer_change(now->first, 3 * now->rows, now->last, 3 * (now->rows - 2 * now->records), now->coordinates, 3 * now->corners).status;
}

static void shift(void)
{
    status = flaxglimmer_shift(1, now->coordinates, 3 * now->corners, now->log, FLAXGLIMMER_WIDTH * now->records, &stand_in, &count, &squared);
}

static void limit(void)
{
    status = 0;
    for (uint32_t unit = FLAXGLIMMER_METRES; unit <= FLAXGLIMMER_INTERNATIONAL_FEET; unit++)
        status |= flaxglimmer_limit(unit, 4.75).status;
}

static void shorter_ring(void)
{
    status = flaxglimmer_shorter_ring(now->first, 3, now->first, 3 * now->rows);
}

static void catch_up(void)
{
    status = flaxglimmer_catch_up(now->log, FLAXGLIMMER_WIDTH * now->records, now->log, FLAXGLIMMER_WIDTH * (now->records / 2), &stand_in, &count);
}

static void read_sheet(void)
{
    status = flaxglimmer_read_sheet(now->sheet, now->bytes, now->table, 3 * now->rows, now->read, 3 * now->corners, &count, &squared);
}

static void trial_number(void)
{
    status = flaxglimmer_trial_number(383).there == 1 ? 0 : 1;
}

static void reply(void)
{
    status = flaxglimmer_reply(now->sheet, now->bytes, now->text, sizeof now->text).status;
}

static void write_log_sheet(void)
{
    status = flaxglimmer_write_log_sheet(now->corners, now->rows, now->log, FLAXGLIMMER_WIDTH * now->records, now->log_text,
                                         sizeof now->log_text).status;
}

static void read_log_sheet(void)
{
    status = flaxglimmer_read_log_sheet(now->log_sheet, now->log_bytes, now->written, FLAXGLIMMER_WIDTH * now->records, &stand_in, &count, &squared);
}

static void each_record(void)
{
    status = flaxglimmer_each_record(now->log_sheet, now->log_bytes, now->written, FLAXGLIMMER_WIDTH * now->records, &stand_in, &count, &squared);
}

static void open_log_sheet(void)
{
    status = flaxglimmer_open_log_sheet(now->log_sheet, now->log_bytes, &stand_in, &count, &squared);
}

static void next_record(void)
{
    status = flaxglimmer_next_record(now->log_sheet, now->log_bytes, now->first_record, &count, &squared, record);
    status |= flaxglimmer_next_record(now->log_sheet, now->log_bytes, now->log_bytes, &count, &squared, record);
}

/* From the first half of a log sheet that thinning wrote: those records are replayed, and the others found again. */
static uint64_t recovered(uint32_t unit, double figure)
{
    memcpy(now->table, now->first, sizeof now->first);
    return flaxglimmer_recover(unit, figure, now->table, 3 * now->rows, now->coordinates, 3 * now->corners, now->written,
                               FLAXGLIMMER_WIDTH * now->corners, now->log_sheet, now->log_bytes / 2, &count, &squared);
}

static void recover(void)
{
    status = recovered(FLAXGLIMMER_NO_LIMIT, 0);
}

static void recover_under_a_limit(void)
{
    status = recovered(FLAXGLIMMER_FEET, 4.75);
}

static void job(void)
{
    status = flaxglimmer_job(now->job_sheet, now->job_bytes).status;
}

static void flip_list(void)
{
    memcpy(now->table, now->first, sizeof now->first);
    status = flaxglimmer_flip_list(now->corners, now->table, 3 * now->rows, now->edge, 2 * now->edges, flip, FLAXGLIMMER_FLIP_WIDTH).status;
}

static void undo_flips(void)
{
    memcpy(now->table, now->flipped, sizeof now->flipped);
    status = flaxglimmer_undo_flips(now->corners, now->table, 3 * now->rows, now->flip, FLAXGLIMMER_FLIP_WIDTH * now->edges).status;
}

/* A call, the stack that it is made on, what the stack is filled with, and how deep it was written. */
struct trial {
    void (*call)(void);
    unsigned char *stack, fill;
    size_t took;
};

/* Fills by itself, up to CLEAR below its own frame: no call is seen to take less than that. */
static void *start(void *given)
{
    struct trial *t = given;
    volatile unsigned char own = 0, *stack = t->stack;
    size_t place = (uintptr_t)&own - (uintptr_t)stack, deepest = 0;
    for (size_t i = 0; i < place - CLEAR; i++)
        stack[i] = t->fill;
    t->call();
    while (deepest < place - CLEAR && stack[deepest] == t->fill)
        deepest++;
    t->took = place - deepest;
    return NULL;
}

static size_t taken(void (*call)(void), unsigned char fill)
{
    static unsigned char *stack;
    if (stack == NULL && (stack = aligned_alloc(65536, STACK)) == NULL)
        exit(2);
    struct trial t = {call, stack, fill, 0};
    pthread_attr_t attributes;
    pthread_t thread;
    if (pthread_attr_init(&attributes) != 0 || pthread_attr_setstack(&attributes, stack, STACK) != 0 ||
        pthread_create(&thread, &attributes, start, &t) != 0 || pthread_join(thread, NULL) != 0) {
        fputs("stack: no thread on a stack of its own\n", stderr);
        exit(2);
    }
    pthread_attr_destroy(&attributes);
    return t.took;
}

static int told(const char *name, void (*call)(void), struct skin *limits, size_t most)
{
    struct skin *skins[] = {limits, &ring, &nothing};
    const unsigned char fills[] = {0x5a, 0xa5};
    size_t most_taken = 0;
    for (size_t i = 0; i < sizeof skins / sizeof *skins; i++)
        for (size_t j = 0; j < sizeof fills; j++) {
            now = skins[i];
            size_t took = taken(call, fills[j]);
            most_taken = took > most_taken ? took : most_taken;
            if (now != &nothing && status != 0) {
                fprintf(stderr, "stack: %s is not done: %" PRIu64 "\n", name, status);
                exit(2);
            }
        }
    printf("%s %zu of %zu\n", name, most_taken, most);
    return most_taken > most;
}

/* Two poles over a ring of all the other corners, in two rows for each of those. */
static void poles(struct skin *s, size_t corners)
{
    size_t round = corners - 2;
    s->rows = 2 * round, s->corners = corners;
    for (size_t i = 0; i < round; i++) {
        uint32_t a = (uint32_t)(2 + i), b = (uint32_t)(2 + (i + 1) % round), rows[6] = {0, a, b, 1, b, a};
        memcpy(s->first + 6 * i, rows, sizeof rows);
    }
}

/* Gives a skin its coordinates and thins it, for the calls that take a log. */
static void prepare(struct skin *s)
{
    for (size_t i = 0; i < s->corners; i++) {
        int32_t at[3] = {(int32_t)i, (int32_t)(i * i % 100), 0};
        memcpy(s->coordinates + 3 * i, at, sizeof at);
    }
    memcpy(s->last, s->first, sizeof s->first);
    struct flaxglimmer_counted a = flaxglimmer_thin(FLAXGLIMMER_NO_LIMIT, 0, s->last, 3 * s->rows, s->coordinates, 3 * s->corners, s->log,
                                                    FLAXGLIMMER_WIDTH * s->corners);
    if (a.status != FLAXGLIMMER_DONE || a.records == 0) {
        fprintf(stderr, "stack: a skin is not thinned: %" PRIu64 "\n", a.status);
        exit(2);
    }
    s->records = a.records;
}

static void lay_out(struct skin *s)
{
    char *end = (char *)s->sheet;
    end += sprintf(end, "SKIN\t%zu\t%zu\n", s->corners, s->rows);
    for (size_t i = 0; i < 3 * s->corners; i += 3)
        end += sprintf(end, "C\t%" PRId32 "\t%" PRId32 "\t%" PRId32 "\n", s->coordinates[i], s->coordinates[i + 1], s->coordinates[i + 2]);
    for (size_t i = 0; i < 3 * s->rows; i += 3)
        end += sprintf(end, "R\t%" PRIu32 "\t%" PRIu32 "\t%" PRIu32 "\n", s->first[i], s->first[i + 1], s->first[i + 2]);
    s->bytes = (size_t)(end - (char *)s->sheet);
}

static void lay_out_log(struct skin *s)
{
    char *end = (char *)s->log_sheet;
    end += sprintf(end, "LOG\t%zu\t%zu\n", s->corners, s->rows);
    s->first_record = (size_t)(end - (char *)s->log_sheet);
    for (size_t i = 0; i < FLAXGLIMMER_WIDTH * s->records; i++)
        end += sprintf(end, "%s\t%" PRIu32 "%s", i % FLAXGLIMMER_WIDTH == 0 ? "K" : "", s->log[i], (i + 1) % FLAXGLIMMER_WIDTH == 0 ? "\n" : "");
    s->log_bytes = (size_t)(end - (char *)s->log_sheet);
}

/* As many records as can be written, of numbers as long as can be. */
static void longest_log(struct skin *s)
{
    s->rows = FLAXGLIMMER_MOST_ROWS, s->corners = FLAXGLIMMER_MOST_CORNERS, s->records = FLAXGLIMMER_MOST_CORNERS - FLAXGLIMMER_LEAST_CORNERS;
    for (size_t i = 0; i < FLAXGLIMMER_WIDTH * s->records; i++)
        s->log[i] = 999999;
}

/* So many entries, each in the one before as deep as they may stand, and all that are left beside the deepest; sums as long as can be. */
static void lay_out_job(struct skin *s, int entries)
{
    char *end = (char *)s->job_sheet;
    end += sprintf(end, "JOB\t%d\nJ\tV\t-\t-600000000000000000\n", entries);
    for (int i = 1; i < entries; i++) {
        int depth = i < FLAXGLIMMER_MOST_DEPTH ? i : FLAXGLIMMER_MOST_DEPTH - 1;
        end += sprintf(end, "J\t%c\t%d\t-599999999999999999\n", depth % 2 == 0 ? 'V' : 'S', depth - 1);
    }
    s->job_bytes = (size_t)(end - (char *)s->job_sheet);
}

/* Flips an edge of the skin's last row, for the calls that take an edge or a flip. */
static void flip_last(struct skin *s)
{
    const uint32_t *last = s->first + 3 * (s->rows - 1);
    s->edges = 1;
    memcpy(s->flipped, s->first, sizeof s->first);
    for (size_t i = 0; i < 3; i++) {
        s->edge[0] = last[i], s->edge[1] = last[(i + 1) % 3];
        if (flaxglimmer_flip_list(s->corners, s->flipped, 3 * s->rows, s->edge, 2, s->flip, FLAXGLIMMER_FLIP_WIDTH).status == FLAXGLIMMER_DONE)
            return;
    }
    fputs("stack: no edge of a skin's last row is flipped\n", stderr);
    exit(2);
}

int main(void)
{
    ring.rows = 128, ring.corners = 64;
    for (size_t i = 0; i < 3 * ring.rows; i++)
        ring.first[i] = (uint32_t)flaxglimmer_trial_number(i).number;
    poles(&table_limits, FLAXGLIMMER_MOST_CORNERS);
    poles(&sheet_limits, FLAXGLIMMER_MOST_SHEET_CORNERS);
    prepare(&ring);
    prepare(&table_limits);
    prepare(&sheet_limits);
    lay_out(&ring);
    lay_out(&sheet_limits);
    longest_log(&log_limits);
    lay_out_log(&ring);
    lay_out_log(&table_limits);
    lay_out_log(&log_limits);
    lay_out_job(&ring, 1);
    lay_out_job(&job_limits, FLAXGLIMMER_MOST_ENTRIES);
    flip_last(&ring);
    flip_last(&table_limits);

    int over = told("thin", thin, &table_limits, FLAXGLIMMER_STACK_THIN);
    over |= told("thin, under a limit", thin_under_a_limit, &table_limits, FLAXGLIMMER_STACK_THIN);
    over |= told("thin by the plain engine, under a limit", thin_plain, &table_limits, FLAXGLIMMER_STACK_THIN_PLAIN);
    over |= told("grow back", grow_back, &table_limits, FLAXGLIMMER_STACK_GROW_BACK);
    over |= told("replay", replay, &table_limits, FLAXGLIMMER_STACK_REPLAY);
    over |= told("volume", volume, &table_limits, FLAXGLIMMER_STACK_VOLUME);
    over |= told("exact sum", exact_sum, &table_limits, FLAXGLIMMER_STACK_EXACT_SUM);
    over |= told("change", change, &table_limits, FLAXGLIMMER_STACK_CHANGE);
    over |= told("shift", shift, &table_limits, FLAXGLIMMER_STACK_OTHER);
    over |= told("limit", limit, &table_limits, FLAXGLIMMER_STACK_OTHER);
    over |= told("shorter ring", shorter_ring, &table_limits, FLAXGLIMMER_STACK_OTHER);
    over |= told("catch up", catch_up, &table_limits, FLAXGLIMMER_STACK_OTHER);
    over |= told("read a sheet", read_sheet, &sheet_limits, FLAXGLIMMER_STACK_READ_SHEET);
    over |= told("trial number", trial_number, &table_limits, FLAXGLIMMER_STACK_OTHER);
    over |= told("reply", reply, &sheet_limits, FLAXGLIMMER_STACK_REPLY);
    over |= told("write a log sheet", write_log_sheet, &log_limits, FLAXGLIMMER_STACK_OTHER);
    over |= told("read a log sheet", read_log_sheet, &log_limits, FLAXGLIMMER_STACK_OTHER);
    over |= told("each record", each_record, &log_limits, FLAXGLIMMER_STACK_OTHER);
    over |= told("open a log sheet", open_log_sheet, &log_limits, FLAXGLIMMER_STACK_OTHER);
    over |= told("next record", next_record, &log_limits, FLAXGLIMMER_STACK_OTHER);
    over |= told("recover", recover, &table_limits, FLAXGLIMMER_STACK_RECOVER);
    over |= told("recover, under a limit", recover_under_a_limit, &table_limits, FLAXGLIMMER_STACK_RECOVER);
    over |= told("job", job, &job_limits, FLAXGLIMMER_STACK_OTHER);
    over |= told("flip a list", flip_list, &table_limits, FLAXGLIMMER_STACK_FLIP_LIST);
    over |= told("undo flips", undo_flips, &table_limits, FLAXGLIMMER_STACK_UNDO_FLIPS);
    return over;
}
