/* Random bytes against the C interface, for libFuzzer. An input is a little program: its bytes choose calls and their arguments, on one
 * table and one run area, which are damaged in between.
 *
 * Everything that is lent ends where a page begins that may not be touched, so reading or writing past it stops the program. What 01
 * says of every call is checked after it: a refusal gives zeros and changes nothing (running on keeps the deliveries made before it),
 * nothing but the area changes, the answers of calls that follow each other agree, a start is held to the edition that it is given and a
 * verdict to the one that the area holds (02, N4), a pick is held to the words of its link (02, N5), the deliveries of a small running on
 * to the words of all links (02, N11), shuffled too, and a larger shuffled one to being made again (02, N13), a mark to the start's second
 * sum, and a start, deliveries and a step to what they add to the second sums and counts (02, N3).
 * The archive itself is not built for the fuzzer, so each answer is counted as coverage (calls by their refusal numbers, accepted picks by
 * their places, deliveries of small runnings on by their links, and accepted reports by their editions, verdicts and marks too). */
#include "pickledune.h"

#include <stdint.h>
#include <stdio.h>
#include <stdlib.h>
#include <string.h>
#include <sys/mman.h>
#include <unistd.h>

enum { CALLS = 11, PICKED = CALLS, JUDGED, COUNTED, TAKEN, SHUFFLED, ROWS, NUMBERS = 50 };
enum { TABLE = 8192, LIST = 2200, AREA = 12000, STEPS = 4096, WAITING = 4 };

__attribute__((section("__libfuzzer_extra_counters"))) static uint8_t seen[ROWS * NUMBERS];

/* The numbers that each call has answered in the whole run, printed at its end. The last five rows have accepted picks, by how many
 * messages waited and by place: 32 is the second of three; accepted reports, by edition and verdict: 10 and 20 are none, 11 and 21 a knot,
 * and 22 is none with outside 0, all of them held, and 3 more if returned: 13, 14, 23, 24 and 25; accepted picks by second numbers: 1
 * if the receiver added its own, 2 and 3 for a second count above and below 0, else 0; the deliveries of small runnings on, by what
 * first_link gives; and those of small shuffled runs, by what shuffled_link gives. */
static const char *const row_names[ROWS] = {"read_table",  "write_table", "open", "next",         "start",  "pick",    "run_on",
                                            "report",      "read_record", "step", "run_shuffled", "picked", "judged",  "counted",
                                            "taken",       "shuffled"};
static uint64_t answered[ROWS][NUMBERS];

static uint8_t *table_end, *out_end;
static uint16_t *list_end;
static int32_t *area_end;

static void fail(const char *what)
{
    fprintf(stderr, "broken: %s\n", what);
    abort();
}

static void expect(int holds, const char *what)
{
    if (!holds)
        fail(what);
}

/* The end of a block of so many bytes, after which a page begins that may not be touched. */
static void *lent(size_t bytes)
{
    size_t page = (size_t)sysconf(_SC_PAGESIZE);
    size_t whole = (bytes + page - 1) / page * page;
    uint8_t *at = mmap(NULL, whole + page, PROT_READ | PROT_WRITE, MAP_PRIVATE | MAP_ANONYMOUS, -1, 0);
    if (at == MAP_FAILED || mprotect(at + whole, page, PROT_NONE) != 0)
        fail("mmap");
    return at + whole;
}

static void note(int row, size_t number)
{
    seen[(size_t)row * NUMBERS + number] = 1;
    answered[row][number] += 1;
}

static uint32_t count(int call, uint32_t number)
{
    expect(number <= 11 || (21 <= number && number <= 26) || number == 30 || number == 31 || number == 37,
           "a number that is in no table");
    note(call, number);
    return number;
}

static void print_answers(void)
{
    for (int row = 0; row < ROWS; row++) {
        fprintf(stderr, "%s:", row_names[row]);
        for (int number = 0; number < NUMBERS; number++)
            if (answered[row][number])
                fprintf(stderr, " %d (%llu)", number, (unsigned long long)answered[row][number]);
        fprintf(stderr, "\n");
    }
}

/* The steps that this input has made; at STEPS it ends. Each record that a report is held to, each place that is tried and each delivery
 * that is made again counts as one: it tests the whole area. */
static int steps_made;

/* The input, read from its front; zeros after its end. */
static const uint8_t *rest;
static size_t left;

static uint32_t byte(void)
{
    if (left == 0)
        return 0;
    left -= 1;
    return *rest++;
}

static uint32_t number(void)
{
    uint32_t low = byte();
    return low + 256 * byte();
}

static uint32_t word(void)
{
    uint32_t low = number();
    return low + 65536 * number();
}

static size_t table_len, area_len;
static uint8_t *table;
static int32_t *area;
static int32_t before[AREA];

static void read_table(void)
{
    size_t n = 7, m = 7;
    uint32_t refused = count(0, pickledune_read_table(table, table_len, &n, &m));
    expect(refused <= 7, "reading gives 1 to 7");
    if (refused)
        expect(n == 0 && m == 0, "zeros with a refusal");
    else
        expect(1 <= n && n <= 128 && m <= 512 && table_len == 4 + 4 * n + 8 * m, "sizes of an accepted table");
}

/* A list of so many different waits of n processes, from a number that chooses them. */
static size_t draw_waits(uint16_t *list, size_t n, size_t waits, uint32_t chosen)
{
    static uint8_t drawn[129 * 129];
    size_t made = 0;
    memset(drawn, 0, sizeof drawn);
    for (size_t tries = 0; made < waits && tries < 4 * waits; tries++) {
        chosen = chosen * 1664525u + 1013904223u;
        uint16_t from = (uint16_t)(1 + (chosen >> 8) % n), to = (uint16_t)(1 + (chosen >> 20) % n);
        if (drawn[129 * from + to])
            continue;
        drawn[129 * from + to] = 1;
        list[2 * made] = from;
        list[2 * made + 1] = to;
        made += 1;
    }
    return 2 * made;
}

static void write_table(void)
{
    size_t n, entries, room, length = 7;
    uint16_t *list;
    if (byte() % 8) {
        n = 1 + byte() % (byte() % 4 ? 8 : 128);
        size_t waits = byte() % 4 ? byte() % 40 : number() % 513;
        list = list_end - 2 * waits;
        entries = draw_waits(list, n, waits, word());
        memmove(list_end - entries, list, entries * sizeof *list);
        room = TABLE / 2 + number() % (TABLE / 2);
    } else {
        n = byte();
        entries = number() % LIST;
        room = number() % TABLE;
        size_t most = byte() + 1;
        for (size_t i = 1; i <= entries; i++)
            list_end[-(long)i] = (uint16_t)(byte() % most);
    }
    list = list_end - entries;
    uint8_t *out = out_end - room;
    memset(out, 165, room);
    uint32_t refused = count(1, pickledune_write_table(n, list, entries, out, room, &length));
    for (size_t i = refused ? 0 : length; i < room; i++)
        expect(out[i] == 165, "a byte past the table");
    if (refused) {
        expect(length == 0, "zeros with a refusal");
        return;
    }
    size_t read_n, read_m;
    expect(length <= room, "a table inside the output");
    expect(pickledune_read_table(out, length, &read_n, &read_m) == 0, "what is written is accepted");
    expect(read_n == n && 2 * read_m == entries, "the same sizes");
    table_len = length;
    table = table_end - length;
    memcpy(table, out, length);
}

static void walk(void)
{
    uint32_t chain = byte() % 2;
    size_t process = number() % 140, arc = 7, n, m, met = 0;
    uint32_t refused = count(2, pickledune_open(table, table_len, chain, process, &arc));
    if (refused) {
        expect(arc == 0, "zeros with a refusal");
        arc = number();
    } else {
        expect(pickledune_read_table(table, table_len, &n, &m) == 0, "an opened table is accepted");
        for (; arc != 0; arc = pickledune_next(table, table_len, chain, arc))
            expect(arc <= m && met++ < m, "arcs of the table, no more than there are");
    }
    arc = pickledune_next(table, table_len, chain, arc);
    expect(arc <= 65535, "an arc number of 16 bits");
    count(3, arc != 0);
}

static void keep(void)
{
    memcpy(before, area, area_len * sizeof *area);
}

static int kept(void)
{
    return memcmp(before, area, area_len * sizeof *area) == 0;
}

/* A place on a link, or at times an edition: 0 to 5, or far out. */
static size_t draw_number(void)
{
    uint32_t drawn = byte() % 16, low;
    if (drawn < 12)
        return (drawn + 1) % 6;
    if (drawn < 14)
        return word();
    low = byte();
    return drawn == 14 ? (size_t)((uint64_t)word() << 32 | low % 6) : SIZE_MAX - low;
}

/* The number that a start must give, by what reading the table gives: 1 to 8, 30, 9 (02, N4). */
static uint32_t first_refusal_of_start(size_t process, size_t edition)
{
    size_t n, m;
    uint32_t refused = pickledune_read_table(table, table_len, &n, &m);
    if (refused)
        return refused;
    if (process < 1 || process > n)
        return 8;
    if (edition != 1 && edition != 2)
        return 30;
    return area_len < PICKLEDUNE_AREA_WORDS(n, m) ? 9 : 0;
}

static int in_range(int32_t sum)
{
    return -128 <= sum && sum <= 128;
}

/* Where the second sum of a process stands in words of a well-formed area (docs/LAYOUT.md). */
static size_t second_place(const int32_t *words, size_t process)
{
    return 16 + 2 * (size_t)words[14] + 4 * (size_t)words[15] + 6 * (process - 1) + 4;
}

/* The second count of a message, 0 of a probe; the word must be one of a message, or 0. */
static int32_t second_count(int32_t message)
{
    int32_t low = message % 512 - 256, high = message / 512 - 256;
    if (0 <= message && message <= 2)
        return 0;
    expect(in_range(low) && in_range(high), "a message has its counts in range");
    return high;
}

/* The sum of all second sums and of all second counts that wait, in words of a well-formed area, which have each of them in range. */
static int32_t all_second_numbers(const int32_t *words)
{
    size_t n = (size_t)words[14], m = (size_t)words[15], links = 16 + 8 * n + 4 * m;
    int32_t sum = 0;
    for (size_t process = 1; process <= n; process++) {
        int32_t second = words[second_place(words, process)];
        expect(in_range(second), "second sums are in range");
        sum += second;
    }
    for (size_t link = 0; link < 2 * m; link++)
        for (size_t i = 0; i < WAITING; i++)
            sum += second_count(words[links + 8 * link + i]);
    return sum;
}

/* Whether a process waits for nobody, in words of a well-formed area: its out-chain has no first arc. */
static int waits_for_nobody(const int32_t *words, size_t process)
{
    return words[16 + 2 * (process - 1)] == 0;
}

static void start(void)
{
    size_t words = byte() % 16 ? AREA - byte() : number() % AREA;
    size_t process = byte() % (byte() % 8 ? 9 : 130), edition = byte() % 8 ? 1 + byte() % 2 : draw_number();
    area_len = words;
    area = area_end - words;
    for (size_t i = 0; i < words; i++)
        area[i] = -1;
    keep();
    uint32_t refused = count(4, pickledune_start(table, table_len, process, edition, area, area_len));
    expect(refused == first_refusal_of_start(process, edition), "1 to 8, 30, 9, in this order");
    if (refused) {
        expect(kept(), "a refusal changes no word");
        return;
    }
    expect((size_t)area[1] == process && (size_t)area[3] == edition, "the area holds the start and the edition");
    expect(all_second_numbers(area) == waits_for_nobody(area, process), "the start adds its own at once");
}

/* A sum or a count: often at an end of its range, at times just past it. */
static int32_t draw_sum(void)
{
    static const int32_t ends[] = {-129, -128, -127, -1, 0, 1, 127, 128, 129};
    uint32_t drawn = byte();
    return drawn % 2 ? ends[drawn / 2 % 9] : (int32_t)(number() % 257) - 128;
}

/* A message, at times with a count out of range, or none. */
static int32_t draw_message(void)
{
    uint32_t drawn = byte() % 8;
    int32_t carried;
    if (drawn < 3)
        return (int32_t)drawn;
    carried = 256 + draw_sum();
    return drawn == 3 ? carried : carried + 512 * (256 + draw_sum());
}

static void change_value(void)
{
    if (area_len < 16 || area[14] < 1 || area[14] > 128 || area[15] < 0 || area[15] > 512)
        return;
    size_t n = (size_t)area[14], m = (size_t)area[15], records = 16 + 2 * n + 4 * m, at, place = byte() % 7;
    int32_t value;
    if (byte() % 2 && m) {
        at = records + 6 * n + 8 * (number() % (2 * m)) + place % 4;
        value = draw_message();
    } else {
        at = place >= 5 ? place - 3 : records + 6 * (byte() % n) + place;
        value = place == 0 ? (int32_t)(byte() % 8) : place == 1 || place == 4 ? draw_sum() : (int32_t)(number() % 257);
        if (place == 5) /* often the most deliveries, after which the next is refused with 22 */
            value = 2048 - (int32_t)(byte() % 4 ? byte() % 2 : number() % 2049);
        if (place == 6) /* the edition, or none */
            value = (int32_t)(byte() % 4);
    }
    if (at < area_len)
        area[at] = value;
}

/* Whether words of the area's length have N, M, the start and the edition in their ranges, and are as many as N and M need. */
static int has_its_words(const int32_t *words)
{
    return area_len >= 16 && 1 <= words[14] && words[14] <= 128 && 0 <= words[15] && words[15] <= 512 && 1 <= words[1] &&
           words[1] <= words[14] && 1 <= words[3] && words[3] <= 2 &&
           area_len >= PICKLEDUNE_AREA_WORDS((size_t)words[14], (size_t)words[15]);
}

/* Two processes: any two numbers, which as a rule have no link, or the two ends of an arc. */
static void draw_ends(size_t *from, size_t *to)
{
    size_t most = byte() % 8 ? 9 : 256;
    *from = byte() % most;
    *to = byte() % most;
    if (byte() % 2 && has_its_words(area) && area[15]) {
        const int32_t *arc = area + 16 + 2 * area[14] + 4 * (number() % (uint32_t)area[15]);
        uint32_t back = byte() % 2;
        *from = (size_t)arc[back];
        *to = (size_t)arc[1 - back];
    }
}

/* Where the messages of a link stand in a well-formed area as it was before the call (docs/LAYOUT.md), or 0 if there is no such link. */
static size_t link_place(size_t from, size_t to)
{
    size_t n = (size_t)before[14], m = (size_t)before[15], links = 16 + 8 * n + 4 * m, back = 0;
    if (from < 1 || from > n || to < 1 || to > n)
        return 0;
    for (size_t k = 0; k < m; k++) {
        const int32_t *arc = before + 16 + 2 * n + 4 * k;
        if ((size_t)arc[0] == from && (size_t)arc[1] == to)
            return links + 16 * k;
        if ((size_t)arc[0] == to && (size_t)arc[1] == from)
            back = links + 16 * k + 8;
    }
    return back;
}

/* The first refusal that a pick meets in a well-formed area as it was before the call, or 0 if there is none before 22. */
static uint32_t first_refusal_of_pick(size_t link, size_t load, size_t place)
{
    size_t n = (size_t)before[14], m = (size_t)before[15], start = (size_t)before[1];
    if (link == 0)
        return 25;
    if (before[16 + 2 * n + 4 * m + 6 * (start - 1) + 2] == 0)
        return 23;
    if (load == 0)
        return 24;
    return place == 0 || place > load ? 31 : 0;
}

/* What deliveries added to all second numbers (02, N3): as many as processes that wait for nobody became succeeding in them. */
static int32_t added(void)
{
    int32_t own = 0;
    for (size_t process = 1; process <= (size_t)before[14]; process++) {
        size_t flags = second_place(before, process) - 4;
        own += waits_for_nobody(before, process) && area[flags] % 2 && before[flags] % 2 == 0;
    }
    expect(all_second_numbers(area) == all_second_numbers(before) + own, "second sums are passed on, and 1 is added once");
    return own;
}

/* A pick, held to the words of its link: 02, N5. Gives its number. */
static uint32_t pick_at(size_t from, size_t to, size_t place)
{
    uint32_t kind = 7;
    int32_t carried = 7, second = 7;
    size_t link, load = 0;
    keep();
    uint32_t refused = count(5, pickledune_pick(area, area_len, from, to, place, &kind, &carried, &second));
    if (refused)
        expect(kind == 0 && carried == 0 && second == 0 && kept(), "a refused pick changes nothing");
    else {
        expect(1 <= kind && kind <= 3 && in_range(carried) && in_range(second), "a message");
        expect(kind == 3 || (carried == 0 && second == 0), "a probe has no counts");
        expect(area[2] == before[2] + 1, "a delivery is counted");
    }
    if (refused == 21)
        return refused;
    expect(has_its_words(before), "21 for an area that is too short, or has sizes, a start or an edition out of range");
    all_second_numbers(before); /* 21 also for those out of range */
    link = link_place(from, to);
    while (link && load < WAITING && before[link + load])
        load += 1;
    uint32_t first = first_refusal_of_pick(link, load, place);
    expect(first ? refused == first : refused == 0 || refused == 22, "25, 23, 24, 31, 22, in this order");
    if (refused)
        return refused;
    note(PICKED, 10 * load + place);
    int32_t taken = before[link + place - 1];
    expect(taken <= 2 ? (int32_t)kind == taken : kind == 3 && 256 + carried + 512 * (256 + second) == taken, "the message at the place");
    note(COUNTED, added() ? 1 : second > 0 ? 2 : second < 0 ? 3 : 0);
    size_t sum = second_place(before, to);
    expect(to != (size_t)before[1] || area[sum] == before[sum] + second, "the start passes nothing on");
    for (size_t i = 1; i < load; i++)
        expect(area[link + i - 1] == before[link + i - (i < place)], "the others keep their order");
    /* Only on a loop does the receiver send on the link that it got the message by. */
    for (size_t i = load; i <= WAITING && from != to; i++)
        expect(area[link + i - 1] == 0, "nothing behind the others");
    return 0;
}

static void pick(void)
{
    size_t from, to;
    draw_ends(&from, &to);
    pick_at(from, to, draw_number());
}

/* Every place of one link, 0 and those beyond, each on the same words. */
static void pick_every_place(void)
{
    static const size_t places[] = {0, 1, 2, 3, 4, 5, 257, SIZE_MAX};
    size_t from, to;
    draw_ends(&from, &to);
    for (size_t i = 0; i < sizeof places / sizeof *places; i++) {
        pick_at(from, to, places[i]);
        memcpy(area, before, area_len * sizeof *area);
        steps_made += 1;
    }
}

/* The ends of the link that running on takes next in a well-formed area, by its words: of all links with a message the one with the lowest
 * receiver and then the lowest sender (02, N11). Gives 0 if none has one, and else 1, or 2 if it would have been another link before N11,
 * lowest sender first, and 2 more for a loop. */
static size_t first_link(size_t *from, size_t *to)
{
    size_t n = (size_t)area[14], m = (size_t)area[15], links = 16 + 8 * n + 4 * m, first = SIZE_MAX, by_sender = SIZE_MAX;
    for (size_t link = 0; link < 2 * m; link++) {
        const int32_t *arc = area + 16 + 2 * n + 4 * (link / 2);
        size_t sender = (size_t)arc[link % 2], receiver = (size_t)arc[1 - link % 2];
        if (area[links + 8 * link] == 0)
            continue;
        if (256 * receiver + sender < first)
            first = 256 * receiver + sender;
        if (256 * sender + receiver < by_sender)
            by_sender = 256 * sender + receiver;
    }
    *from = first % 256;
    *to = first / 256;
    return first == SIZE_MAX ? 0 : 1 + (by_sender != 256 * *from + *to) + 2 * (*from == *to);
}

/* The ends of the link that a state of a shuffled run picks in a well-formed area, by its words: the links with a message are marked in a
 * square, and found in it by receiver and then by sender; the state modulo their number, counted from 0, picks one (02, N13). Gives 0 if
 * none has a message, and else 7 times their number, at most 6, plus the place of the one picked, at most 6. */
static size_t shuffled_link(uint32_t state, size_t *from, size_t *to)
{
    static uint8_t marked[129][129];
    size_t n = (size_t)area[14], m = (size_t)area[15], links = 16 + 8 * n + 4 * m, found = 0, passed = 0;
    memset(marked, 0, sizeof marked);
    for (size_t link = 0; link < 2 * m; link++) {
        const int32_t *arc = area + 16 + 2 * n + 4 * (link / 2);
        if (area[links + 8 * link] == 0)
            continue;
        marked[arc[1 - link % 2]][arc[link % 2]] = 1;
        found += 1;
    }
    if (found == 0)
        return 0;
    for (*to = 1; *to <= n; *to += 1)
        for (*from = 1; *from <= n; *from += 1)
            if (marked[*to][*from] && passed++ == state % found)
                return 7 * (found < 6 ? found : 6) + (passed < 7 ? passed - 1 : 6);
    fail("a state modulo their number is less than their number");
    return 0;
}

/* "xored with itself shifted left 13, then right 17, then left 5" (02, N13): by products and quotients, in 64 bits of which 32 are kept. */
static uint32_t next_state(uint32_t seed)
{
    uint64_t state = seed;
    state ^= state * 8192 % 4294967296;
    state ^= state / 131072;
    state ^= state * 32 % 4294967296;
    return (uint32_t)state;
}

/* The ends of the link that is next, in the fixed order if the state is 0, or by the state, which is moved on. Gives 0 if no message waits. */
static size_t next_link(uint32_t *state, size_t *from, size_t *to)
{
    if (*state == 0)
        return first_link(from, to);
    *state = next_state(*state);
    return shuffled_link(*state, from, to);
}

/* A running on, accepted or refused after so many deliveries, is made again on the words before it by picks of the oldest message, each on
 * the link that is next, in the fixed order if the seed is 0. */
static void run_by_picks(uint32_t made, uint32_t refused, uint32_t seed)
{
    static int32_t ran[AREA];
    uint32_t state = seed;
    size_t from, to, taken;
    memcpy(ran, area, area_len * sizeof *area);
    memcpy(area, before, area_len * sizeof *area);
    for (uint32_t i = 0; i < made; i++) {
        taken = next_link(&state, &from, &to);
        expect(taken && pick_at(from, to, 1) == 0, "a delivery is on a link with a message");
        note(seed ? SHUFFLED : TAKEN, taken);
        steps_made += 1;
    }
    expect(memcmp(ran, area, area_len * sizeof *area) == 0, "lowest receiver first and then lowest sender, or as the state picks");
    if (refused)
        expect(next_link(&state, &from, &to) ? pick_at(from, to, 1) == refused : refused == 24, "refused on the next link, or 24");
}

/* How many deliveries to ask for: often few. */
static uint32_t draw_k(void)
{
    return byte() % 2 ? byte() % 4 : byte() % 4 ? byte() : word();
}

/* A running on is held to its answers; a small one is made again by picks, in the fixed order if the seed is 0. */
static void hold_run(uint32_t k, uint32_t seed, uint32_t refused, uint32_t over, uint32_t made)
{
    uint32_t more = 7, none = 7;
    expect(made <= k && made <= 2048 && over <= 1, "no more than asked for");
    if (refused == 21) {
        expect(made == 0 && over == 0 && kept(), "21 changes nothing");
        return;
    }
    expect(area[2] == before[2] + (int32_t)made, "deliveries are counted");
    added();
    if (k < 4)
        run_by_picks(made, refused, seed);
    if (refused) {
        expect(over == 0, "zeros with a refusal");
        return;
    }
    expect(over == 1 || made == k, "over, or spent");
    keep();
    expect(pickledune_run_on(area, area_len, 0, &more, &none) == 0 && none == 0 && more == over && kept(), "running on by 0");
}

static void run_on(void)
{
    uint32_t over = 7, made = 7, k = draw_k();
    keep();
    uint32_t refused = count(6, pickledune_run_on(area, area_len, k, &over, &made));
    hold_run(k, 0, refused, over, made);
}

/* A shuffled run that is made again on the words before it gives the same answers and the same words. */
static void shuffle_again(uint32_t k, uint32_t seed, uint32_t refused, uint32_t over, uint32_t made)
{
    static int32_t ran[AREA];
    uint32_t over_again = 7, made_again = 7;
    memcpy(ran, area, area_len * sizeof *area);
    memcpy(area, before, area_len * sizeof *area);
    expect(pickledune_run_shuffled(area, area_len, k, seed, &over_again, &made_again) == refused, "the same number again");
    expect(over_again == over && made_again == made, "the same answers again");
    expect(memcmp(ran, area, area_len * sizeof *area) == 0, "the same words again");
    steps_made += 1;
}

static void run_shuffled(void)
{
    uint32_t over = 7, made = 7, k = draw_k(), seed = byte() % 8 ? word() : byte() % 3;
    keep();
    uint32_t refused = count(10, pickledune_run_shuffled(area, area_len, k, seed, &over, &made));
    if (seed == 0) {
        expect(over == 0 && made == 0 && kept(), "seed 0 changes nothing");
        expect(refused == (pickledune_run_on(area, area_len, 0, &over, &made) == 21 ? 21 : 37), "21, 37, in this order");
        return;
    }
    expect(refused != 37, "only seed 0 is refused");
    if (k >= 4)
        shuffle_again(k, seed, refused, over, made);
    hold_run(k, seed, refused, over, made);
}

/* What escape must be (02, N1), by the records: the lowest-numbered process with subordinate 1, and 0 only where there is none. Only for an
 * area on which a report was accepted, which is well formed, so that reading ends with 25 past the last process. */
static size_t lowest_subordinate(void)
{
    struct pickledune_process x;
    size_t process = 0;
    uint32_t refused;
    do {
        process += 1;
        steps_made += 1;
        refused = pickledune_read_process(area, area_len, process, &x);
    } while (refused == 0 && x.subordinate == 0);
    expect(refused == 0 || refused == 25, "the records of a reported run are read");
    return refused ? 0 : process;
}

static void report(void)
{
    uint32_t deliveries = 7, knot = 7, escape = 7, returned = 7, over, made;
    int32_t outside = 7;
    uint32_t refused = count(7, pickledune_report(area, area_len, &deliveries, &knot, &outside, &escape, &returned));
    if (refused) {
        expect(deliveries == 0 && knot == 0 && outside == 0 && escape == 0 && returned == 0, "zeros with a refusal");
        return;
    }
    expect(has_its_words(area), "a reported area has its words");
    size_t start = (size_t)area[1];
    struct pickledune_process x;
    expect(knot == (outside == 0 && (area[3] == 1 || !waits_for_nobody(area, start))), "the verdict of the sum, by the edition");
    expect(pickledune_read_process(area, area_len, start, &x) == 0, "the record of the start");
    expect(returned == (x.second == 0) && outside == x.cs, "the mark of the second sum, outside of the sum");
    note(JUDGED, 10 * (size_t)area[3] + (knot ? 1 : outside == 0 ? 2 : 0) + (returned ? 3 : 0));
    expect(escape == lowest_subordinate(), "the lowest way out");
    expect(pickledune_run_on(area, area_len, 9, &over, &made) == 0 && over == 1 && made == 0, "a reported run is over");
}

static void read_record(void)
{
    static const struct pickledune_process zeros = {0, 0, 0, 0, 0, 0, 0};
    struct pickledune_process x = {7, 7, 7, 7, 7, 7, 7};
    size_t process = byte() % 140;
    uint32_t refused = count(8, pickledune_read_process(area, area_len, process, &x));
    if (refused) {
        expect(memcmp(&x, &zeros, sizeof x) == 0, "zeros with a refusal");
        return;
    }
    expect(x.succeeding <= 1 && x.preceding <= 1 && x.subordinate <= 1 && x.num <= 256 && x.father <= 128, "a record in range");
    expect(in_range(x.cs) && in_range(x.second), "sums in range");
    size_t second = second_place(area, process);
    expect(area[second - 3] == x.cs && area[second] == x.second, "the sums that the area holds");
}

/* A num or a degree, often 0. */
static uint32_t draw_below(uint32_t bound)
{
    return byte() % 3 ? number() % bound : 0;
}

static void step(void)
{
    struct pickledune_process x = {byte() % 3, byte() % 3, byte() % 3, draw_sum(), draw_below(300), byte() % 140, draw_sum()}, y;
    uint32_t probes = 7, to = 7;
    int32_t reply = 7, reply_second = 7;
    uint32_t far = byte() % 16;
    if (far < 2)
        *(far ? &x.second : &x.cs) = (int32_t)word();
    y = x;
    uint32_t kind = byte() % 5;
    int32_t carried = byte() % 8 ? draw_sum() : (int32_t)word(), second = byte() % 8 ? draw_sum() : (int32_t)word();
    uint32_t out_degree = draw_below(140), in_degree = draw_below(140), sender = byte() % 140;
    uint32_t refused = count(9, pickledune_step_process(&x, kind, carried, second, out_degree, in_degree, sender, &probes, &to, &reply,
                                                        &reply_second));
    if (refused) {
        expect(memcmp(&x, &y, sizeof x) == 0, "a refused step changes nothing");
        expect(probes == 0 && to == 0 && reply == 0 && reply_second == 0, "zeros with a refusal");
        return;
    }
    expect(x.num <= 256 && in_range(x.cs) && probes <= 2 && to <= 128 && in_range(reply), "a step in range");
    expect(in_range(x.second) && in_range(reply_second) && (to != 0 || reply_second == 0), "second numbers in range");
    int32_t own = kind == PICKLEDUNE_SUC && y.succeeding == 0 && out_degree == 0, received = kind == PICKLEDUNE_ACK ? second : 0;
    expect(x.second + reply_second == y.second + received + own, "second sums are passed on, and 1 is added once");
    expect(to == 0 || x.second == (y.num != 0 && kind != PICKLEDUNE_ACK ? own : 0), "zeroed with cs");
}

int LLVMFuzzerTestOneInput(const uint8_t *data, size_t size)
{
    if (table_end == NULL) {
        table_end = lent(TABLE);
        out_end = lent(TABLE);
        list_end = lent(LIST * sizeof *list_end);
        area_end = lent(AREA * sizeof *area_end);
        atexit(print_answers);
    }
    rest = data;
    left = size;
    table = table_end;
    area = area_end;
    table_len = area_len = 0;
    for (steps_made = 0; steps_made < STEPS && left > 0; steps_made++) {
        switch (byte() % 18) {
        case 0: /* the input's own bytes as a table */
            table_len = number() % TABLE;
            table_len = table_len < left ? table_len : left;
            table = table_end - table_len;
            for (size_t i = 0; i < table_len; i++)
                table[i] = (uint8_t)byte();
            break;
        case 1: /* a byte of the table is damaged */
            if (table_len)
                table[number() % table_len] = (uint8_t)byte();
            break;
        case 2: /* a word of the area is damaged */
            if (area_len)
                area[number() % area_len] = byte() % 2 ? (int32_t)byte() - 128 : (int32_t)word();
            break;
        case 3:
            read_table();
            break;
        case 4:
        case 5:
            write_table();
            break;
        case 6:
            walk();
            break;
        case 7:
            start();
            break;
        case 8:
        case 9:
        case 10:
            pick();
            break;
        case 11:
            run_on();
            break;
        case 12:
            report();
            break;
        case 13:
            read_record();
            break;
        case 14: /* a value of a record, a link or the heading is changed, as a rule in its range, so that the area may stay well formed */
            change_value();
            break;
        case 15:
            pick_every_place();
            break;
        case 16:
            run_shuffled();
            break;
        default:
            step();
        }
    }
    return 0;
}
