/** pickledune.h: the knot check for C and C++ (C99), over the archive libpickledune.a.
 *
 * A check says whether a process, such as a payment, is stuck in a knot of waits: whether every process that it waits for, at any
 * remove, waits for it in turn. By edition 1 of the rulebook that is all, so that a process that waits for nobody is in a knot; edition
 * 2 asks in addition that it waits for somebody, be it for itself. A host writes or brings a wait table, starts a check at one process
 * under one edition in words that it lends, delivers the messages that wait on the links, one by one (pick), in a fixed order (run on)
 * or in an order that a seed gives (run shuffled), and reads the report once the run is over.
 *
 * Versions. PICKLEDUNE_VERSION is this header's, pickledune_version the archive's. Before anything else a host compares them, and the
 * layouts that the two know:
 *
 *   if (pickledune_version() != PICKLEDUNE_VERSION || pickledune_layout() != PICKLEDUNE_LAYOUT)
 *       header and archive are not of one version: compile the host again with the header of its archive
 *
 * Stored areas. Word PICKLEDUNE_LAYOUT_WORD of a run area, its first, is the version of the area's layout (docs/LAYOUT.md). A start stores
 * it with every area, no later call changes it, and any call but a start that is lent an area with another number there answers 21 and
 * changes nothing.
 * A host that keeps areas, or gets them from another program, reads this word before it trusts the rest:
 *
 *   if (words == 0 || area[PICKLEDUNE_LAYOUT_WORD] != (int32_t)pickledune_layout())
 *       no area of this archive's layout: start the check again, from its table
 *
 * The second numbers (02, N3). Beside the sum cs each process has a second sum, and beside its count each acknowledgement a second count,
 * of processes reachable from the start that wait for nobody. At the end the start's second sum is their number, itself included if it
 * waits for nobody, and the mark of the report goes by it.
 * With them struct pickledune_process and the values of a message changed: pickledune_pick, pickledune_read_record and pickledune_step
 * have further parameters, and the words of a run area hold the second numbers too (layout 2). A host that was compiled with a header
 * from before must be compiled again, and a check that was begun with an archive from before must be started again.
 *
 * The order of running on (02, N11): lowest receiver first and then lowest sender, where it was lowest sender first. In runs made by
 * start and deliveries only `own` lines, fathers, spent runs and what follows these until both runs are over can differ. Declarations
 * and areas are as they were.
 *
 * Shuffled runs (02, N13): pickledune_run_shuffled is one call more. All other calls and the areas are as they were, so that a host that
 * never shuffles changes nothing.
 *
 * What is lent. Every pointer is used only during the call that gets it; the library keeps none, has no memory of its own and no
 * state outside what is lent. A slice goes as a pointer and the number of its elements. Pointers must be aligned for what they point to.
 * The out-parameters of a call must be valid and distinct, and nothing that a call may write may overlap anything else that it is lent.
 * What is lent may hold any values whatever: bytes that are no table and words that are no area are refused by their number.
 *
 * Null pointers are not allowed, nor is null with length 0: a host that has no elements to lend gives the address of any object of the
 * right type, and 0. The library does not look whether a pointer is null.
 *
 * What comes back. Each call but pickledune_version, pickledune_layout and pickledune_next returns 0, or the number of the first refusal
 * that is met, in the order that its comment gives; PICKLEDUNE_REFUSED_.. names the numbers, and pickledune_refusal_text says each in
 * words. A refusal gives zeros in all out-parameters and changes no lent byte or word; but running on, shuffled or not, keeps the
 * deliveries that it made before the refusal and gives their number, and pickledune_step leaves the record that it was lent as it was.
 *
 * Threads. Calls on different memory may run at the same time. One area may not be used from two threads at once, nor may a table or
 * a record be written while a call reads it.
 *
 * Stack. A call needs less than 128 KiB of stack. This is measured (hosts/c/stack.c), not proved. The stack is probed: a function of the
 * archive with more than a page of locals (4096 bytes) writes to each page in turn, from the top down, before it uses any of them.
 * So a stack that is too small is met at its guard page, where the system stops the program (SIGSEGV), and nothing that lies behind
 * the guard page is written. The first thread of a program and those of pthread_create have such a page; a host that makes stacks of its
 * own puts one, of 4096 bytes or more, at their ends.
 */
#ifndef PICKLEDUNE_H
#define PICKLEDUNE_H

#include <stddef.h>
#include <stdint.h>

#ifdef __cplusplus
extern "C" {
#endif

/** The version of this header: 10000 times the first number of PICKLEDUNE_VERSION_TEXT, 100 times the second, and the third. */
#define PICKLEDUNE_VERSION 10000

/** The same as a text, with its three numbers. */
#define PICKLEDUNE_VERSION_TEXT "1.0.0"

/** The layout of run areas that this header knows. 1 was the layout before second sums (02, N3). */
#define PICKLEDUNE_LAYOUT 2

/** The word of a run area that holds its layout. */
#define PICKLEDUNE_LAYOUT_WORD 0

/** The largest N: a table has 1 to 128 processes, numbered from 1. */
#define PICKLEDUNE_MAX_PROCESSES 128

/** The largest M: a table has 0 to 512 arcs (waits), numbered from 1. */
#define PICKLEDUNE_MAX_ARCS 512

/** The bytes of a table of n processes and m arcs. */
#define PICKLEDUNE_TABLE_BYTES(n, m) (4 + 4 * (n) + 8 * (m))

/** The words that a run area needs for a table of n processes and m arcs. */
#define PICKLEDUNE_AREA_WORDS(n, m) (8 * (n) + 20 * (m) + 16)

/** A chain of a process: the arcs that leave it. */
#define PICKLEDUNE_OUT 0u

/** A chain of a process: the arcs that come to it. */
#define PICKLEDUNE_IN 1u

/** A kind of message: a suc probe. */
#define PICKLEDUNE_SUC 1u

/** A kind of message: a pre probe. */
#define PICKLEDUNE_PRE 2u

/** A kind of message: an acknowledgement. Only it has a count and a second count, -128 to 128 each. */
#define PICKLEDUNE_ACK 3u

/* Refused because of the input. What each number means stands in pickledune_refusal_text. */

/** From pickledune_read_table, pickledune_open and pickledune_start. */
#define PICKLEDUNE_REFUSED_TABLE_SHORT 1
/** From pickledune_read_table, pickledune_write_table, pickledune_open and pickledune_start. */
#define PICKLEDUNE_REFUSED_SIZES 2
/** From pickledune_read_table, pickledune_open and pickledune_start: it is not PICKLEDUNE_TABLE_BYTES(N, M). */
#define PICKLEDUNE_REFUSED_TABLE_LENGTH 3
/** From pickledune_read_table, pickledune_write_table, pickledune_open and pickledune_start. */
#define PICKLEDUNE_REFUSED_ENDS 4
/** From pickledune_read_table, pickledune_open and pickledune_start. */
#define PICKLEDUNE_REFUSED_CHAIN_FIELD 5
/** From pickledune_read_table, pickledune_open and pickledune_start. */
#define PICKLEDUNE_REFUSED_CHAIN 6
/** From pickledune_read_table, pickledune_write_table, pickledune_open and pickledune_start. */
#define PICKLEDUNE_REFUSED_ARC_TWICE 7
/** From pickledune_open and pickledune_start. */
#define PICKLEDUNE_REFUSED_PROCESS 8
/** From pickledune_start: it has fewer than PICKLEDUNE_AREA_WORDS(N, M) words. */
#define PICKLEDUNE_REFUSED_AREA_SHORT 9
/** From pickledune_write_table. */
#define PICKLEDUNE_REFUSED_LIST_ODD 10
/** From pickledune_write_table: it has fewer than PICKLEDUNE_TABLE_BYTES(n, entries / 2) bytes. */
#define PICKLEDUNE_REFUSED_OUTPUT_SHORT 11
/** From the check program alone. */
#define PICKLEDUNE_REFUSED_BYTES_LEFT 12
/** From the check program alone. */
#define PICKLEDUNE_REFUSED_INPUT_LONG 13
/** From pickledune_start. */
#define PICKLEDUNE_REFUSED_EDITION 30
/** From pickledune_run_shuffled. */
#define PICKLEDUNE_REFUSED_SEED 37

/* Refused because of the state. */

/** From each call on an area that was started: its layout is another, or some other word is wrong. From pickledune_step: the record (its
 * second sum too), the kind, the count or the second count is out of range, or the father or a degree is over 128. */
#define PICKLEDUNE_REFUSED_NOT_WELL_FORMED 21
/** From pickledune_pick, pickledune_run_on, pickledune_run_shuffled and pickledune_step: a value, such as cs or the second sum, would
 * leave its range, a fifth message come on a link, or an acknowledgement go to father 0. Never in an area that only these calls have
 * written. */
#define PICKLEDUNE_REFUSED_OUT_OF_RANGE 22
/** From pickledune_pick. */
#define PICKLEDUNE_REFUSED_OVER 23
/** From pickledune_pick: on that link. From pickledune_run_on and pickledune_run_shuffled: on any link. */
#define PICKLEDUNE_REFUSED_NO_MESSAGE 24
/** From pickledune_pick: no such link. From pickledune_read_record: the process is 0 or over N. From pickledune_step: the sender is 0 or
 * over 128. */
#define PICKLEDUNE_REFUSED_NO_LINK 25
/** From pickledune_report. */
#define PICKLEDUNE_REFUSED_NOT_OVER 26
/** From pickledune_pick. */
#define PICKLEDUNE_REFUSED_PLACE 31

/** What a number that a call returned means, in English, for a log. The text is a constant and is never null. */
static inline const char *pickledune_refusal_text(uint32_t number)
{
    switch (number) {
    case 0: return "accepted";
    case PICKLEDUNE_REFUSED_TABLE_SHORT: return "the table has fewer than 4 bytes";
    case PICKLEDUNE_REFUSED_SIZES: return "N or M is outside its range";
    case PICKLEDUNE_REFUSED_TABLE_LENGTH: return "the table's length is wrong";
    case PICKLEDUNE_REFUSED_ENDS: return "a from or to is 0 or over N";
    case PICKLEDUNE_REFUSED_CHAIN_FIELD: return "a first or next field is over M";
    case PICKLEDUNE_REFUSED_CHAIN: return "a chain meets an arc twice, meets a foreign one or misses one";
    case PICKLEDUNE_REFUSED_ARC_TWICE: return "two arcs agree in from and to";
    case PICKLEDUNE_REFUSED_PROCESS: return "the process is 0 or over N";
    case PICKLEDUNE_REFUSED_AREA_SHORT: return "the run area is too short";
    case PICKLEDUNE_REFUSED_LIST_ODD: return "the list has an odd number of entries";
    case PICKLEDUNE_REFUSED_OUTPUT_SHORT: return "the output is too short";
    case PICKLEDUNE_REFUSED_BYTES_LEFT: return "1 to 3 bytes are left after the last pick";
    case PICKLEDUNE_REFUSED_INPUT_LONG: return "the input is longer than 20480 bytes";
    case PICKLEDUNE_REFUSED_NOT_WELL_FORMED: return "the run area is not well formed, or a value of the step is out of its range";
    case PICKLEDUNE_REFUSED_OUT_OF_RANGE: return "the step would take a value out of its range, put a fifth message on a link, or acknowledge to father 0";
    case PICKLEDUNE_REFUSED_OVER: return "the run is over";
    case PICKLEDUNE_REFUSED_NO_MESSAGE: return "no message waits there";
    case PICKLEDUNE_REFUSED_NO_LINK: return "there is no such link or process";
    case PICKLEDUNE_REFUSED_NOT_OVER: return "the run is not over yet";
    case PICKLEDUNE_REFUSED_EDITION: return "the edition is neither 1 nor 2";
    case PICKLEDUNE_REFUSED_PLACE: return "the place is 0 or beyond the messages that wait on that link";
    case PICKLEDUNE_REFUSED_SEED: return "the seed is 0";
    default: return "no refusal of this library";
    }
}

/** One process's record. */
struct pickledune_process {
    /** 1 once a suc probe has come, and in the start's record: the start waits for this process, at any remove; else 0. */
    uint32_t succeeding;
    /** 1 once a pre probe has come, and in the start's record: this process waits for the start, at any remove; else 0. */
    uint32_t preceding;
    /** 1 if succeeding was 1 and preceding 0 when the last probe had come; else 0, and in the start's record. */
    uint32_t subordinate;
    /** The sum of the counts that it has not passed on, -128 to 128. */
    int32_t cs;
    /** How many acknowledgements it waits for, 0 to 256. */
    uint32_t num;
    /** The sender of the last probe that came while num was 0, which is acknowledged when num is 0 again; 0 if none came. */
    uint32_t father;
    /** The sum of the second counts that it has not passed on, -128 to 128 (02, N3). */
    int32_t second;
};

/** The version of the archive, to be compared with PICKLEDUNE_VERSION. */
uint32_t pickledune_version(void);

/** The layout of the archive's run areas: what word PICKLEDUNE_LAYOUT_WORD of every area holds that it starts or accepts. */
uint32_t pickledune_layout(void);

/** Reads a wait table.
 * Lent: table_bytes bytes, read only.
 * Back: *n and *m, its processes and arcs.
 * Refused, in this order: 1, 2, 3, 4, 5, 6, 7. */
uint32_t pickledune_read_table(const uint8_t *table, size_t table_bytes, size_t *n, size_t *m);

/** Writes a wait table of n processes. The list holds a from and a to for each arc, in turn: from waits for to.
 * Lent: entries numbers, read only; out_bytes bytes, of which the first PICKLEDUNE_TABLE_BYTES(n, entries / 2) are written and the
 * others keep their values.
 * Back: *length, the table's length in bytes.
 * Refused, in this order: 10, 2, 4, 7, 11. */
uint32_t pickledune_write_table(size_t n, const uint16_t *list, size_t entries, uint8_t *out, size_t out_bytes, size_t *length);

/** Opens a walk along one chain of a process: PICKLEDUNE_OUT is its out-chain, any other number its in-chain.
 * Lent: table_bytes bytes, read only.
 * Back: *arc, the number of the chain's first arc, or 0 if it has none.
 * Refused, in this order: 1, 2, 3, 4, 5, 6, 7, 8. */
uint32_t pickledune_open(const uint8_t *table, size_t table_bytes, uint32_t chain, size_t process, size_t *arc);

/** A step of a walk, from an arc along the chain named: the number of the next arc, or 0 at the end. It refuses nothing: from an arc
 * that is 0, over M or past the lent bytes it gives the end.
 * Lent: table_bytes bytes, read only. They are not checked as a table; a walk that pickledune_open opened on the same bytes is right. */
size_t pickledune_next(const uint8_t *table, size_t table_bytes, uint32_t chain, size_t arc);

/** Starts a check at a process, under an edition of the rulebook, 1 or 2.
 * Lent: table_bytes bytes, read only, and not needed by later calls; words words for the run area, of which the first
 * PICKLEDUNE_AREA_WORDS(N, M) are written, whatever they held, and the others are not touched.
 * Back: the area holds the run and its edition. Later calls take it as it stands; a host that changes a word gets 21 from them, or
 * another run.
 * Refused, in this order: 1, 2, 3, 4, 5, 6, 7, 8, 30, 9. */
uint32_t pickledune_start(const uint8_t *table, size_t table_bytes, size_t start, size_t edition, int32_t *area, size_t words);

/** Delivers the message at a place of the link from one process to another. Place 1 has the oldest message. The message is taken out of
 * the middle, and the others keep their order.
 * Lent: words words, the run area, which takes the delivery.
 * Back: *kind, *count and *second of the message that was taken: PICKLEDUNE_SUC or PICKLEDUNE_PRE with 0 and 0, or PICKLEDUNE_ACK with
 * its count and its second count.
 * Refused, in this order: 21, 25, 23, 24, 31, 22. */
uint32_t pickledune_pick(
    int32_t *area, size_t words, size_t from, size_t to, size_t place, uint32_t *kind, int32_t *count, int32_t *second);

/** Makes up to k deliveries, each of the oldest message on the link with a message that has the lowest receiver and then the lowest
 * sender.
 * Lent: words words, the run area, which takes the deliveries.
 * Back: *over is 1 if the run is over and 0 if the k deliveries are spent and it is not; *made, the deliveries made. No run that
 * pickledune_start began takes more than 2048 deliveries, so that k = 2048 runs it to the end.
 * Refused, in this order: 21 before the first delivery; 24, 22 at a delivery. *made then has the deliveries made before, which the area
 * keeps, and *over is 0. */
uint32_t pickledune_run_on(int32_t *area, size_t words, uint32_t k, uint32_t *over, uint32_t *made);

/** Makes up to k deliveries, as pickledune_run_on does but in an order that the seed gives and that anyone can repeat: the same area with
 * the same k and seed gives the same answers and the same words on every machine. The state begins as the seed. Before each delivery it is
 * xored with itself shifted left 13, then with itself shifted right 17, then with itself shifted left 5, each time without the bits past 32
 * (Marsaglia's xorshift32). The state modulo the number of links with a message, counted from 0 in the order of pickledune_run_on, picks
 * the link, whose oldest message goes. A check ends as it does by any other deliveries; of a process's values only the father may depend
 * on the seed.
 * Each call begins from its own seed and the state is not handed back, so that two calls of one delivery from one seed are not one call of
 * two.
 * Lent: words words, the run area, which takes the deliveries.
 * Back: *over and *made as from pickledune_run_on; k = 2048 runs to the end here too.
 * Refused, in this order: 21, 37 before the first delivery, 37 also where the run is over or k is 0; 24, 22 at a delivery. With 24 and 22
 * *made has the deliveries made before, which the area keeps, and *over is 0. */
uint32_t pickledune_run_shuffled(int32_t *area, size_t words, uint32_t k, uint32_t seed, uint32_t *over, uint32_t *made);

/** The report of a run that is over.
 * Lent: words words, the run area, read only.
 * Back: *deliveries, those that the run took; *knot, 1 if the start is in a knot by the run's edition, else 0; *outside, how many
 * processes that the start waits for, at any remove, do not wait for it (0 also if it waits for nobody); *escape, the lowest-numbered
 * of those (the lowest-numbered process with subordinate 1), or 0 if there is none; *returned, 1 for the mark returned: exactly if every
 * process reachable from the start, itself included, waits for somebody (the start's second sum is 0), else 0 for held. It does not go
 * with *knot: a start that waits only for processes in a knot is returned though it is in none, and one that waits for nobody is held.
 * Refused, in this order: 21, 26. */
uint32_t pickledune_report(
    const int32_t *area,
    size_t words,
    uint32_t *deliveries,
    uint32_t *knot,
    int32_t *outside,
    uint32_t *escape,
    uint32_t *returned);

/** The record of one process, at any time of a run.
 * Lent: words words, the run area, read only.
 * Back: the seven values of struct pickledune_process.
 * Refused, in this order: 21, 25. */
uint32_t pickledune_read_record(
    const int32_t *area,
    size_t words,
    size_t process,
    uint32_t *succeeding,
    uint32_t *preceding,
    uint32_t *subordinate,
    int32_t *cs,
    uint32_t *num,
    uint32_t *father,
    int32_t *second);

/** The step of one process other than the start, by itself: a host that keeps its own records and links has one record updated by one
 * message.
 * Lent: the seven values of the record, read and written; on a refusal they keep their values.
 * Given: kind, count and second count of the message (the counts of a probe are not looked at), the numbers of the process's successors
 * and predecessors, and the sender, 1 to 128.
 * Back: *probes, what to broadcast: 0 nothing, PICKLEDUNE_SUC to all successors, PICKLEDUNE_PRE to all predecessors; *reply_to,
 * *reply_count and *reply_second, to whom one acknowledgement is to be sent and with which count and second count, or three zeros if
 * none is.
 * Refused, in this order: 21, 25, 22. */
uint32_t pickledune_step(
    uint32_t *succeeding,
    uint32_t *preceding,
    uint32_t *subordinate,
    int32_t *cs,
    uint32_t *num,
    uint32_t *father,
    int32_t *second,
    uint32_t kind,
    int32_t count,
    int32_t second_count,
    uint32_t out_degree,
    uint32_t in_degree,
    uint32_t sender,
    uint32_t *probes,
    uint32_t *reply_to,
    int32_t *reply_count,
    int32_t *reply_second);

/** pickledune_read_record into a record. */
static inline uint32_t pickledune_read_process(
    const int32_t *area, size_t words, size_t process, struct pickledune_process *record)
{
    return pickledune_read_record(
        area, words, process, &record->succeeding, &record->preceding, &record->subordinate, &record->cs, &record->num,
        &record->father, &record->second);
}

/** pickledune_step on a record. */
static inline uint32_t pickledune_step_process(
    struct pickledune_process *record,
    uint32_t kind,
    int32_t count,
    int32_t second_count,
    uint32_t out_degree,
    uint32_t in_degree,
    uint32_t sender,
    uint32_t *probes,
    uint32_t *reply_to,
    int32_t *reply_count,
    int32_t *reply_second)
{
    return pickledune_step(
        &record->succeeding, &record->preceding, &record->subordinate, &record->cs, &record->num, &record->father, &record->second,
        kind, count, second_count, out_degree, in_degree, sender, probes, reply_to, reply_count, reply_second);
}

#ifdef __cplusplus
}
#endif

#endif
