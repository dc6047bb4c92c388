/* A first check from C: process 1 waits for process 2 (01, "The check program"). It prints the nine lines that 01 gives for this table,
 * start 1 (under edition 1) and the pick 1 2, with the second numbers of 02, N3, then a line for each of two shuffled checks (02, N13), and
 * returns 1 with a line on standard error if a call answers anything else than it should, or if header and archive are of two versions.
 *
 * From the root of the repository, after tools/build.sh archive:
 *   gcc -std=c99 -Wall -Wextra -pedantic -Iinclude hosts/c/example.c target/staticlib/libpickledune.a -o target/example && target/example
 * The archive needs nothing but memcpy and memset of the C library, so no further flag is needed.
 */
#include "pickledune.h"

#include <stdio.h>
#include <stdlib.h>
#include <string.h>

enum { PROCESSES = 2, ARCS = 1, TABLE = PICKLEDUNE_TABLE_BYTES(PROCESSES, ARCS), WORDS = PICKLEDUNE_AREA_WORDS(PROCESSES, ARCS) };

static void expect(int holds, const char *what)
{
    if (!holds) {
        fprintf(stderr, "not as it should be: %s\n", what);
        exit(1);
    }
}

/* A call must answer with this number, 0 or that of a refusal; a log says both in words. */
static void answers(uint32_t number, uint32_t wanted, const char *what)
{
    if (number != wanted) {
        fprintf(stderr, "not as it should be: %s: answered %lu (%s), not %lu (%s)\n", what, (unsigned long)number,
                pickledune_refusal_text(number), (unsigned long)wanted, pickledune_refusal_text(wanted));
        exit(1);
    }
}

/* Before anything else: the archive is of this header's version, and its areas have the layout that the header knows. */
static void compare_versions(void)
{
    if (pickledune_version() != PICKLEDUNE_VERSION || pickledune_layout() != PICKLEDUNE_LAYOUT) {
        fprintf(stderr, "header and archive are of two versions: %lu and %lu, layouts %lu and %lu\n", (unsigned long)PICKLEDUNE_VERSION,
                (unsigned long)pickledune_version(), (unsigned long)PICKLEDUNE_LAYOUT, (unsigned long)pickledune_layout());
        exit(1);
    }
}

/* Whether stored words may be an area of this archive: what a host reads before it trusts them. */
static int has_layout(const int32_t *area, size_t words)
{
    return words != 0 && area[PICKLEDUNE_LAYOUT_WORD] == (int32_t)pickledune_layout();
}

static void print_delivery(const char *how, size_t from, size_t to, uint32_t kind, int32_t count, int32_t second)
{
    if (kind == PICKLEDUNE_ACK) {
        printf("%s %zu %zu ack %ld %ld\n", how, from, to, (long)count, (long)second);
    } else {
        printf("%s %zu %zu %s\n", how, from, to, kind == PICKLEDUNE_SUC ? "suc" : "pre");
    }
}

/* The delivery that running on makes next, by picks of the oldest message, lowest receiver first and then lowest sender: a refusal says
 * that nothing waits there, or that the run is over, and then 0 is returned. */
static int deliver_next(int32_t *area)
{
    for (size_t to = 1; to <= PROCESSES; to++) {
        for (size_t from = 1; from <= PROCESSES; from++) {
            uint32_t kind;
            int32_t count;
            int32_t second;
            uint32_t number = pickledune_pick(area, WORDS, from, to, 1, &kind, &count, &second);
            if (number == 0) {
                print_delivery("own", from, to, kind, count, second);
                return 1;
            }
            if (number == PICKLEDUNE_REFUSED_OVER) {
                return 0;
            }
            expect(number == PICKLEDUNE_REFUSED_NO_MESSAGE || number == PICKLEDUNE_REFUSED_NO_LINK, pickledune_refusal_text(number));
            expect(kind == 0 && count == 0 && second == 0, "zeros on a refusal");
        }
    }
    expect(0, "a message waits until the run is over");
    return 0;
}

/* Running on to the end in a copy of the area must leave what the picks left. */
static void compare_with_running_on(const int32_t *before, const int32_t *after)
{
    int32_t area[WORDS];
    uint32_t over;
    uint32_t made;
    memcpy(area, before, sizeof area);
    answers(pickledune_run_on(area, WORDS, 2048, &over, &made), 0, "running on");
    expect(over == 1 && made == 1, "over after one more delivery");
    expect(memcmp(area, after, sizeof area) == 0, "the same area either way");
}

/* The one arc of the table is on the out-chain of 1 and on the in-chain of 2. */
static void walk(const uint8_t *table)
{
    size_t arc;
    answers(pickledune_open(table, TABLE, PICKLEDUNE_OUT, 1, &arc), 0, "a walk along the out-chain of 1");
    expect(arc == 1, "the out-chain of 1");
    expect(pickledune_next(table, TABLE, PICKLEDUNE_OUT, arc) == 0, "its end");
    answers(pickledune_open(table, TABLE, PICKLEDUNE_IN, 2, &arc), 0, "a walk along the in-chain of 2");
    expect(arc == 1, "the in-chain of 2");
    answers(pickledune_open(table, TABLE, PICKLEDUNE_IN, 3, &arc), PICKLEDUNE_REFUSED_PROCESS, "no process 3");
    expect(arc == 0, "0 on a refusal");
}

/* What process 2 does with the probe, by itself: it has no successor and no father yet, so it acknowledges at once with 1 and, since it
 * waits for nobody, with 1 as the second count (02, N3). */
static void step_by_itself(void)
{
    struct pickledune_process record = {0, 0, 0, 0, 0, 0, 0};
    uint32_t probes;
    uint32_t to;
    int32_t count;
    int32_t second;
    answers(pickledune_step_process(&record, PICKLEDUNE_SUC, 0, 0, 0, 1, 1, &probes, &to, &count, &second), 0, "a step");
    expect(record.succeeding == 1 && record.subordinate == 1 && record.father == 1, "its record");
    expect(record.cs == 0 && record.second == 0, "both sums are passed on");
    expect(probes == PICKLEDUNE_SUC && to == 1 && count == 1 && second == 1, "what it sends");
    answers(pickledune_step_process(&record, 4, 0, 0, 0, 1, 1, &probes, &to, &count, &second), PICKLEDUNE_REFUSED_NOT_WELL_FORMED,
            "no kind 4");
    expect(record.succeeding == 1 && probes == 0 && to == 0 && count == 0 && second == 0,
           "a refusal keeps the record and gives zeros");
}

/* Starts a check of n processes, at most 3, with at most four waits. */
static void begin(size_t n, const uint16_t *list, size_t entries, size_t start, int32_t *area, size_t words)
{
    uint8_t table[PICKLEDUNE_TABLE_BYTES(3, 4)];
    size_t length;
    answers(pickledune_write_table(n, list, entries, table, sizeof table, &length), 0, "writing a table of few waits");
    answers(pickledune_start(table, length, start, 1, area, words), 0, "its start");
}

/* Overtaking (02, N5): 1 and 2 wait for each other, so that a suc probe and then a pre probe wait on the link from 1 to 2. The second is
 * picked first, and the check ends as it does in any other order. */
static void overtake(void)
{
    const uint16_t list[4] = {1, 2, 2, 1};
    int32_t area[PICKLEDUNE_AREA_WORDS(2, 2)];
    const size_t words = PICKLEDUNE_AREA_WORDS(2, 2);
    uint32_t kind;
    int32_t count;
    int32_t second;
    uint32_t over;
    uint32_t made;
    begin(2, list, 4, 1, area, words);
    answers(pickledune_pick(area, words, 1, 2, 2, &kind, &count, &second), 0, "place 2 first");
    expect(kind == PICKLEDUNE_PRE, "the younger message");
    answers(pickledune_pick(area, words, 1, 2, 1, &kind, &count, &second), 0, "then place 1");
    expect(kind == PICKLEDUNE_SUC, "the older message");
    answers(pickledune_run_on(area, words, 2048, &over, &made), 0, "the rest of that check");
    expect(over == 1 && made == 6, "8 deliveries in any order");
}

/* The order of running on (02, N11): process 3 waits for 1 and 2. After the probe to 1 the probe to 2 is delivered, before the
 * acknowledgement from 1 to 3, since 2 is a lower receiver than 3; that 1 is a lower sender than 3 does not matter. */
static void receivers_first(void)
{
    const uint16_t list[4] = {3, 1, 3, 2};
    int32_t area[PICKLEDUNE_AREA_WORDS(3, 2)];
    const size_t words = PICKLEDUNE_AREA_WORDS(3, 2);
    uint32_t kind;
    int32_t count;
    int32_t second;
    uint32_t over;
    uint32_t made;
    begin(3, list, 4, 3, area, words);
    answers(pickledune_run_on(area, words, 2, &over, &made), 0, "two deliveries");
    expect(over == 0 && made == 2, "spent, and not over");
    answers(pickledune_pick(area, words, 3, 2, 1, &kind, &count, &second), PICKLEDUNE_REFUSED_NO_MESSAGE, "the probe to 2 was one of them");
    answers(pickledune_pick(area, words, 1, 3, 1, &kind, &count, &second), 0, "1's acknowledgement waits");
    expect(kind == PICKLEDUNE_ACK, "an acknowledgement");
}

/* What a report gives. */
struct report {
    uint32_t deliveries;
    uint32_t knot;
    int32_t outside;
    uint32_t escape;
    uint32_t returned;
};

static struct report read_report(const int32_t *area, size_t words)
{
    struct report r;
    answers(pickledune_report(area, words, &r.deliveries, &r.knot, &r.outside, &r.escape, &r.returned), 0, "the report");
    return r;
}

/* A whole check in the lent words, from its start to its report. */
static struct report check(const uint8_t *table, size_t length, size_t process, size_t edition, int32_t *area, size_t words)
{
    uint32_t over;
    uint32_t made;
    answers(pickledune_start(table, length, process, edition, area, words), 0, "a start under either edition");
    answers(pickledune_run_on(area, words, 2048, &over, &made), 0, "running on to its end");
    expect(over == 1, "its end");
    return read_report(area, words);
}

/* A shuffled check (02, N13): 1 waits for 2 and 3, 2 waits for 3, and 3 for 1. The same seed gives the same order on every machine. Every
 * order takes 16 deliveries and ends alike but for the fathers, from whom a process first heard, which are printed. */
static void shuffle(uint32_t seed)
{
    const uint16_t list[8] = {1, 2, 1, 3, 2, 3, 3, 1};
    int32_t area[PICKLEDUNE_AREA_WORDS(3, 4)];
    const size_t words = PICKLEDUNE_AREA_WORDS(3, 4);
    struct report r;
    uint32_t over;
    uint32_t made;
    begin(3, list, 8, 1, area, words);
    answers(pickledune_run_shuffled(area, words, 2048, 0, &over, &made), PICKLEDUNE_REFUSED_SEED, "no seed 0");
    expect(over == 0 && made == 0, "zeros on a refusal");
    answers(pickledune_run_shuffled(area, words, 2048, seed, &over, &made), 0, "a shuffled run");
    expect(over == 1, "its end");
    r = read_report(area, words);
    expect(r.deliveries == made && r.knot == 1 && r.outside == 0 && r.escape == 0 && r.returned == 1, "the report by any seed");
    printf("seed %lu made %lu fathers", (unsigned long)seed, (unsigned long)made);
    for (size_t p = 1; p <= 3; p++) {
        struct pickledune_process x;
        answers(pickledune_read_process(area, words, p, &x), 0, "reading a record");
        printf(" %lu", (unsigned long)x.father);
    }
    printf("\n");
}

/* Editions (02, N4): process 1 waits for nobody, process 2 for itself. By edition 1 both are in a knot, by edition 2 only process 2; the
 * mark is the same by both. */
static void judge_by_edition(void)
{
    const uint16_t list[2] = {2, 2};
    uint8_t table[PICKLEDUNE_TABLE_BYTES(2, 1)];
    int32_t area[PICKLEDUNE_AREA_WORDS(2, 1)];
    const size_t words = PICKLEDUNE_AREA_WORDS(2, 1);
    size_t length;
    answers(pickledune_write_table(2, list, 2, table, sizeof table, &length), 0, "writing a table of one loop");
    answers(pickledune_start(table, length, 1, 3, area, words), PICKLEDUNE_REFUSED_EDITION, "no edition 3");
    for (size_t process = 1; process <= 2; process++) {
        for (size_t edition = 1; edition <= 2; edition++) {
            const struct report r = check(table, length, process, edition, area, words);
            expect(r.knot == (process == 2 || edition == 1), "the verdict by the edition");
            expect(r.deliveries == (process == 2 ? 4 : 0) && r.outside == 0 && r.escape == 0, "the rest of the report by both");
            expect(r.returned == (process == 2), "the mark by both");
        }
    }
}

/* An area that was stored by a host: one of another layout is known by its word, and no call takes it. */
static void stored_before(const int32_t *area)
{
    int32_t old[WORDS];
    struct pickledune_process x;
    expect(has_layout(area, WORDS) && !has_layout(area, 0), "an area that was started has the archive's layout, no words have none");
    memcpy(old, area, sizeof old);
    old[PICKLEDUNE_LAYOUT_WORD] = 1;
    expect(!has_layout(old, WORDS), "layout 1 is from before second sums");
    answers(pickledune_read_process(old, WORDS, 1, &x), PICKLEDUNE_REFUSED_NOT_WELL_FORMED, "an area of layout 1");
}

/* The mark (02, N3): process 1 waits for 2, and 2 and 3 wait for each other. Process 1 is in no knot, but all that it waits for, at any
 * remove, wait for somebody, so it is returned. */
static void wait_for_a_knot(void)
{
    const uint16_t list[6] = {1, 2, 2, 3, 3, 2};
    uint8_t table[PICKLEDUNE_TABLE_BYTES(3, 3)];
    int32_t area[PICKLEDUNE_AREA_WORDS(3, 3)];
    const size_t words = PICKLEDUNE_AREA_WORDS(3, 3);
    struct pickledune_process start;
    size_t length;
    answers(pickledune_write_table(3, list, 6, table, sizeof table, &length), 0, "writing a table of three waits");
    const struct report r = check(table, length, 1, 1, area, words);
    answers(pickledune_read_process(area, words, 1, &start), 0, "reading the start's record");
    expect(start.cs == 2 && start.second == 0, "the sums of the start");
    expect(r.deliveries == 6 && r.knot == 0 && r.outside == 2 && r.escape == 2 && r.returned == 1, "in no knot, and returned");
}

static void print_report(const int32_t *area)
{
    const struct report r = read_report(area, WORDS);
    for (size_t p = 1; p <= PROCESSES; p++) {
        struct pickledune_process x;
        answers(pickledune_read_process(area, WORDS, p, &x), 0, "reading a record");
        printf("process %zu %lu %lu %lu %ld %lu %ld\n", p, (unsigned long)x.succeeding, (unsigned long)x.preceding,
               (unsigned long)x.subordinate, (long)x.cs, (unsigned long)x.num, (long)x.second);
    }
    printf("over %lu\n", (unsigned long)r.deliveries);
    printf("verdict %s\n", r.knot ? "knot" : "none");
    printf("outside %ld\n", (long)r.outside);
    printf("escape %lu\n", (unsigned long)r.escape);
    printf("mark %s\n", r.returned ? "returned" : "held");
}

int main(void)
{
    const uint16_t list[2 * ARCS] = {1, 2};
    uint8_t table[TABLE];
    int32_t area[WORDS];
    int32_t picked[WORDS];
    size_t length;
    size_t n;
    size_t m;
    uint32_t kind;
    int32_t count;
    int32_t second;

    compare_versions();
    answers(pickledune_write_table(PROCESSES, list, 2 * ARCS, table, sizeof table, &length), 0, "writing the table");
    expect(length == TABLE, "its length");
    answers(pickledune_read_table(table, length, &n, &m), 0, "reading it");
    expect(n == PROCESSES && m == ARCS, "its sizes");
    walk(table);

    answers(pickledune_start(table, length, 1, 1, area, WORDS - 1), PICKLEDUNE_REFUSED_AREA_SHORT, "an area that is too short");
    answers(pickledune_start(table, length, 1, 1, area, WORDS), 0, "the start");
    stored_before(area);
    answers(pickledune_pick(area, WORDS, 1, 2, 2, &kind, &count, &second), PICKLEDUNE_REFUSED_PLACE, "only one message waits there");
    answers(pickledune_pick(area, WORDS, 1, 2, 1, &kind, &count, &second), 0, "the pick");
    print_delivery("pick", 1, 2, kind, count, second);
    memcpy(picked, area, sizeof area);
    while (deliver_next(area)) {
    }
    compare_with_running_on(picked, area);
    print_report(area);
    step_by_itself();
    overtake();
    receivers_first();
    shuffle(2463534242u);
    shuffle(2026u);
    judge_by_edition();
    wait_for_a_knot();
    return 0;
}
