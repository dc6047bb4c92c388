/* fast.c: reading a table, start, pick, running on and running on with a seed, as fast as we can write them in C, for the benchmarks to compare the
 * proved library with (docs/BENCHMARKS.md). It is written from the specification (01, 02) and docs/LAYOUT.md, apart from the proved library, and
 * is held to the plain Rust call by call (hosts/rust/compare --library c). It takes any bytes and words, as the library does.
 *
 * What makes it fast:
 * - The test of an area asks few questions in branches: range tests are collected as sign bits, links are looked at only where a message waits.
 * - A table whose chains are as the writer makes them is known as such in one pass over the arcs; only others are walked along.
 * - A running on numbers the links first, by receiver and then by sender, and notes for each where it begins and which is the one back. So no link
 *   has to be looked for, and the next link of the fixed order is the lowest bit of a set. Messages and records stand in the area alone, and of a
 *   record a delivery writes only the words that change.
 *
 * For gcc: it uses its vectors of four words, __builtin_shuffle and __builtin_ctzll. */
#include "fast.h"

#include <stdbool.h>
#include <string.h>

enum {
    MOST_PROCESSES = 128,
    MOST_ARCS = 512,
    MOST_FIELDS = 2 + 2 * MOST_PROCESSES + 4 * MOST_ARCS,
    MOST_WAITING = 4,
    MOST_NUM = 256,
    MOST_DELIVERIES = 2048,
};

/* docs/LAYOUT.md: the words of the heading, of a record and of a link. */
enum { CHECK, START, DELIVERIES, EDITION, FREE, TABLE = 14 };
enum { FLAGS, CS, NUM, FATHER, SECOND, RECORD_FREE, RECORD_SIZE };
enum { LINK_SIZE = 8, KNOT_CHECK = 2 };

/* Messages as the layout has them. An acknowledgement with count c and second count d is ACK + c + 512 d, so that counts are added in one sum. */
enum { SUC = 1, PRE = 2, ACK = 256 + 512 * 256 };

/* The chains of a process; a chain's number is also that of the end of an arc, from or to, that is the process's. */
enum { OUT, IN };

typedef uint32_t Four __attribute__((vector_size(16), aligned(4), may_alias));
typedef uint64_t Two __attribute__((vector_size(16)));

#define RARE(condition) __builtin_expect((condition), 0)
#define INLINE static inline __attribute__((always_inline))

/* ---- tables */

/* A table's fields as words, processes and arcs counted from 1. */
typedef struct {
    uint32_t n, m;
    const int32_t *firsts; /* of each process first-out, first-in */
    const int32_t *arcs;   /* of each arc from, to, next-out, next-in */
} Table;

static inline uint32_t first_arc(const Table *table, uint32_t chain, uint32_t process)
{
    return (uint32_t)table->firsts[2 * process - 2 + chain];
}

static inline uint32_t next_arc(const Table *table, uint32_t chain, uint32_t arc)
{
    return (uint32_t)table->arcs[4 * arc - 2 + chain];
}

static inline uint32_t end_of(const Table *table, uint32_t end, uint32_t arc)
{
    return (uint32_t)table->arcs[4 * arc - 4 + end];
}

/* Who waits for whom: a byte for each pair, 1 if the first waits for the second. */
typedef uint8_t Waits[MOST_PROCESSES * MOST_PROCESSES + 1];

static inline uint32_t pair(uint32_t from, uint32_t to)
{
    return MOST_PROCESSES * from + to - MOST_PROCESSES;
}

/* Check 6 by walking: chains that hold only their own arcs are disjoint, so they meet every arc once exactly if they meet M in all. */
static bool walked_right(const Table *table, uint32_t chain)
{
    uint32_t met = 0;
    for (uint32_t process = 1; process <= table->n; process++)
        for (uint32_t arc = first_arc(table, chain, process); arc; arc = next_arc(table, chain, arc)) {
            if (met == table->m || end_of(table, chain, arc) != process)
                return false;
            met++;
        }
    return met == table->m;
}

/* Checks 4 to 7, and who waits for whom. A number is out of its range if a sign bit is left: every limit is small, so that one of the two
 * differences has it. */
static uint32_t check(const Table *table, Waits waits)
{
    uint32_t n = table->n, m = table->m;
    const int32_t *firsts = table->firsts, *arcs = table->arcs;
    Four low = {1, 1, 0, 0}, high = {n, n, m, m}, wrong = {0, 0, 0, 0};
    for (uint32_t k = 0; k < m; k++) {
        Four arc = *(const Four *)(arcs + 4 * k);
        wrong |= (arc - low) | (high - arc);
    }
    if ((wrong[0] | wrong[1]) >> 31)
        return 4;
    uint32_t places = wrong[2] | wrong[3];
    for (uint32_t i = 0; i < 2 * n; i++)
        places |= (uint32_t)firsts[i] | (m - (uint32_t)firsts[i]);
    if (places >> 31)
        return 5;
    /* The writer puts each arc at the front of its chains: its next is the last one before it with the same end, and a first the last of all. */
    int32_t last[2][MOST_PROCESSES + 1], other = 0;
    memset(last, 0, sizeof last);
    memset(waits, 0, pair(n, n) + 1);
    uint8_t twice = 0;
    for (uint32_t k = 0; k < m; k++) {
        const int32_t *arc = arcs + 4 * k;
        uint32_t from = (uint32_t)arc[0], to = (uint32_t)arc[1];
        twice |= waits[pair(from, to)];
        waits[pair(from, to)] = 1;
        other |= (last[OUT][from] ^ arc[2]) | (last[IN][to] ^ arc[3]);
        last[OUT][from] = last[IN][to] = (int32_t)k + 1;
    }
    for (uint32_t p = 0; p < n; p++)
        other |= (last[OUT][p + 1] ^ firsts[2 * p]) | (last[IN][p + 1] ^ firsts[2 * p + 1]);
    if (other && !(walked_right(table, OUT) && walked_right(table, IN)))
        return 6;
    return twice ? 7 : 0;
}

/* Checks 1 to 7. The table's fields go to `fields`. */
static uint32_t read_fields(const uint8_t *bytes, size_t length, int32_t *fields, Table *table, Waits waits)
{
    if (length < 4)
        return 1;
    uint32_t n = bytes[0] | (uint32_t)bytes[1] << 8, m = bytes[2] | (uint32_t)bytes[3] << 8;
    if (n - 1 >= MOST_PROCESSES || m > MOST_ARCS)
        return 2;
    if (length != 4 + 4 * n + 8 * m)
        return 3;
    for (uint32_t i = 0; i < 2 + 2 * n + 4 * m; i++) {
#if __BYTE_ORDER__ == __ORDER_LITTLE_ENDIAN__
        uint16_t field;
        memcpy(&field, bytes + 2 * i, 2);
        fields[i] = field;
#else
        fields[i] = bytes[2 * i] | bytes[2 * i + 1] << 8;
#endif
    }
    *table = (Table){n, m, fields + 2, fields + 2 + 2 * n};
    return check(table, waits);
}

uint32_t fast_read_table(const uint8_t *bytes, size_t length, size_t *n, size_t *m)
{
    int32_t fields[MOST_FIELDS];
    Table table;
    Waits waits;
    uint32_t refused = read_fields(bytes, length, fields, &table, waits);
    *n = refused ? 0 : table.n;
    *m = refused ? 0 : table.m;
    return refused;
}

/* ---- areas */

/* A well-formed area. */
typedef struct {
    int32_t *words;
    Table table;
    int32_t *records, *links;
    uint32_t start;
    uint32_t loaded;                 /* how many arcs have a message on a link of theirs, .. */
    uint16_t loaded_arcs[MOST_ARCS]; /* .. and which */
    Waits waits;
} Area;

static inline int32_t *record_of(const Area *area, uint32_t process)
{
    return area->records + RECORD_SIZE * (process - 1);
}

/* The link of an arc from its from to its to, and the one back. */
static inline int32_t *first_link(const Area *area, uint32_t arc)
{
    return area->links + 2 * LINK_SIZE * (arc - 1);
}

static inline int32_t *second_link(const Area *area, uint32_t arc)
{
    return first_link(area, arc) + LINK_SIZE;
}

/* Whether both numbers of an acknowledgement are -128 to 128. A sum of two such acknowledgements less ACK is seen to be out of range, too: a count
 * of 256 carries into the second count, but leaves -256. */
static inline bool small(uint32_t ack)
{
    return ((ack & 511) - 128 <= 256) & ((ack >> 9) - 128 <= 256);
}

/* A sign bit for each of a link's four messages that is neither a message nor 0, or stands behind a 0. */
static inline Four messages_wrong(Four words)
{
    Four count = (words & 511) - 128, second = (words >> 9) - 128;
    Four no_ack = count | (256 - count) | second | (256 - second), no_probe = words | (2 - words);
    Four none = (Four)(words == 0), before = {0, 0, 0, 0};
    before = __builtin_shuffle(none, before, (Four){4, 0, 1, 2});
    return (no_ack & no_probe) | (before & ~none);
}

static inline bool is_zero(Four words)
{
    Two halves = (Two)words;
    return (halves[0] | halves[1]) == 0;
}

static bool records_right(const Area *area)
{
    uint32_t n = area->table.n, wrong = 0;
    for (uint32_t p = 1; p <= n; p++) {
        const uint32_t *record = (const uint32_t *)record_of(area, p);
        uint32_t father = record[FATHER], neighbour = father <= n ? father : 0;
        bool near = area->waits[pair(p, neighbour)] | area->waits[pair(neighbour ? neighbour : p, p)];
        wrong |= (record[FLAGS] > 7) | (record[CS] + 128 > 256) | (record[NUM] > MOST_NUM) | (record[SECOND] + 128 > 256);
        wrong |= record[RECORD_FREE] | (father ^ neighbour) | ((father != 0) & !near);
    }
    return wrong == 0;
}

static bool links_right(Area *area)
{
    uint32_t m = area->table.m, loaded = 0;
    for (uint32_t arc = 1; arc <= m; arc++) {
        const Four *words = (const Four *)first_link(area, arc);
        /* Most links are empty at most moments. */
        if (is_zero(words[0] | words[1] | words[2] | words[3]))
            continue;
        area->loaded_arcs[loaded++] = (uint16_t)arc;
        Four wrong = messages_wrong(words[0]) | messages_wrong(words[2]);
        /* The second link is not used if there is an arc back; a loop is its own. */
        bool back = area->waits[pair(end_of(&area->table, IN, arc), end_of(&area->table, OUT, arc))];
        Four free = words[1] | words[3] | (words[2] & -(uint32_t)back);
        if (!is_zero(free | (wrong >> 31)))
            return false;
    }
    area->loaded = loaded;
    return true;
}

/* Whether any words are a well-formed area, whose parts are then in `area`. */
static bool test(Area *area, int32_t *words, size_t length)
{
    if (length < TABLE + 2)
        return false;
    uint32_t n = (uint32_t)words[TABLE], m = (uint32_t)words[TABLE + 1];
    if (n - 1 >= MOST_PROCESSES || m > MOST_ARCS || length < 8 * n + 20 * m + 16)
        return false;
    uint32_t wrong = (uint32_t)words[CHECK] ^ KNOT_CHECK;
    wrong |= ((uint32_t)words[START] - 1 >= n) | ((uint32_t)words[DELIVERIES] > MOST_DELIVERIES) | ((uint32_t)words[EDITION] - 1 >= 2);
    for (int i = FREE; i < TABLE; i++)
        wrong |= (uint32_t)words[i];
    if (wrong)
        return false;
    area->words = words;
    area->table = (Table){n, m, words + TABLE + 2, words + TABLE + 2 + 2 * n};
    area->records = words + TABLE + 2 + 2 * n + 4 * m;
    area->links = area->records + RECORD_SIZE * n;
    area->start = (uint32_t)words[START];
    return check(&area->table, area->waits) == 0 && records_right(area) && links_right(area);
}

static bool is_over(const Area *area)
{
    return record_of(area, area->start)[NUM] == 0;
}

/* ---- start */

uint32_t fast_start(const uint8_t *bytes, size_t length, size_t start, size_t edition, int32_t *words, size_t words_lent)
{
    int32_t fields[MOST_FIELDS];
    Table table;
    Waits waits;
    uint32_t refused = read_fields(bytes, length, fields, &table, waits);
    if (refused)
        return refused;
    uint32_t n = table.n, m = table.m, s = (uint32_t)start, num = 0;
    if (start - 1 >= n)
        return 8;
    if (edition - 1 >= 2)
        return 30;
    if (words_lent < 8 * n + 20 * m + 16)
        return 9;
    uint32_t head = TABLE + 2 + 2 * n + 4 * m;
    memset(words, 0, TABLE * sizeof *words);
    memcpy(words + TABLE, fields, (head - TABLE) * sizeof *words);
    memset(words + head, 0, (RECORD_SIZE * n + 2 * LINK_SIZE * m) * sizeof *words);
    words[CHECK] = KNOT_CHECK;
    words[START] = (int32_t)s;
    words[EDITION] = (int32_t)edition;
    int32_t *record = words + head + RECORD_SIZE * (s - 1), *links = words + head + RECORD_SIZE * n;
    /* Where the suc probe to a process stands, and behind it the pre probe if it waits for the start in turn. */
    int32_t *suc[MOST_PROCESSES + 1];
    for (uint32_t arc = first_arc(&table, OUT, s); arc; arc = next_arc(&table, OUT, arc), num++) {
        int32_t *link = links + 2 * LINK_SIZE * (arc - 1);
        link[0] = SUC;
        suc[end_of(&table, IN, arc)] = link;
    }
    record[SECOND] = num == 0;
    for (uint32_t arc = first_arc(&table, IN, s); arc; arc = next_arc(&table, IN, arc), num++) {
        uint32_t to = end_of(&table, OUT, arc);
        if (waits[pair(s, to)])
            suc[to][1] = PRE;
        else
            links[2 * LINK_SIZE * (arc - 1) + LINK_SIZE] = PRE;
    }
    record[FLAGS] = 3;
    record[NUM] = (int32_t)num;
    return 0;
}

/* ---- the step */

/* A process's values, the sums as the acknowledgement that it would send. */
typedef struct {
    uint32_t flags, num, father, sums;
} Process;

/* What a step sends: an acknowledgement, if `to` is not 0, and probes, if `probes` is not. */
typedef struct {
    uint32_t to, ack, probes;
} Sent;

/* A process other than the start receives a probe. `degree` says to how many the probe goes on. False for 22. */
INLINE bool take_probe(Process *x, uint32_t probe, uint32_t sender, uint32_t degree, Sent *sent)
{
    *sent = (Sent){0, 0, 0};
    if (x->num == 0) {
        x->father = sender;
    } else {
        *sent = (Sent){sender, x->sums, 0};
        x->sums = ACK;
    }
    if (!(x->flags & probe)) {
        x->flags |= probe;
        x->num += degree;
        x->sums += probe == SUC && degree == 0 ? 512 : 0;
        sent->probes = probe;
    }
    uint32_t subordinate = (x->flags & 3) == 1;
    x->sums += subordinate - (x->flags >> 2);
    x->flags = (x->flags & 3) | subordinate << 2;
    if (!small(x->sums) || x->num > MOST_NUM)
        return false;
    if (x->num == 0) {
        sent->to = x->father;
        sent->ack = x->sums;
        x->sums = ACK;
    }
    return true;
}

/* The probes that would change the flags of a process other than the start: one whose flag is not set, and every one if subordinate is not what the
 * other two say. Two bits for each value of the flags. */
INLINE uint32_t changing_probes(uint32_t flags)
{
    const uint32_t by_flags = 3 | 3 << 2 | 1 << 4 | 0 << 6 | 3 << 8 | 2 << 10 | 3 << 12 | 3 << 14;
    return by_flags >> 2 * flags & 3;
}

/* Any process receives an acknowledgement. False for 22. */
static inline bool take_ack(Process *x, uint32_t ack)
{
    x->sums += ack - ACK;
    x->num -= 1;
    return small(x->sums) & (x->num < MOST_NUM);
}

static Process process_in(const int32_t *record)
{
    return (Process){(uint32_t)record[FLAGS], (uint32_t)record[NUM], (uint32_t)record[FATHER], (uint32_t)(ACK + record[CS] + 512 * record[SECOND])};
}

static void put_process(int32_t *record, const Process *x)
{
    record[FLAGS] = (int32_t)x->flags;
    record[CS] = (int32_t)(x->sums & 511) - 256;
    record[NUM] = (int32_t)x->num;
    record[FATHER] = (int32_t)x->father;
    record[SECOND] = (int32_t)(x->sums >> 9) - 256;
}

/* ---- one delivery, in the area itself */

/* The arc between two, of which the first waits for the second. */
static uint32_t arc_between(const Area *area, uint32_t from, uint32_t to)
{
    uint32_t arc = first_arc(&area->table, OUT, from);
    while (end_of(&area->table, IN, arc) != to)
        arc = next_arc(&area->table, OUT, arc);
    return arc;
}

/* The link between two neighbours. */
static int32_t *link_between(const Area *area, uint32_t from, uint32_t to)
{
    return area->waits[pair(from, to)] ? first_link(area, arc_between(area, from, to)) : second_link(area, arc_between(area, to, from));
}

/* The link of a probe along an arc of its chain. */
static int32_t *probe_link(const Area *area, uint32_t probe, uint32_t arc)
{
    uint32_t from = end_of(&area->table, OUT, arc), to = end_of(&area->table, IN, arc);
    return probe == SUC ? first_link(area, arc) : link_between(area, to, from);
}

static uint32_t load_of(const int32_t *link)
{
    return (uint32_t)(link[0] != 0) + (link[1] != 0) + (link[2] != 0) + (link[3] != 0);
}

/* Takes the message at a place, counted from 0, off a link. */
INLINE void take_out(int32_t *link, size_t place)
{
    for (; place < MOST_WAITING - 1; place++)
        link[place] = link[place + 1];
    link[MOST_WAITING - 1] = 0;
}

static uint32_t degree_of(const Table *table, uint32_t chain, uint32_t process)
{
    uint32_t degree = 0;
    for (uint32_t arc = first_arc(table, chain, process); arc; arc = next_arc(table, chain, arc))
        degree++;
    return degree;
}

/* Whether what is sent leaves every link with at most four messages. */
static bool has_room(const Area *area, uint32_t from, const Sent *sent, const int32_t *ack_link)
{
    if (ack_link && load_of(ack_link) == MOST_WAITING)
        return false;
    uint32_t chain = sent->probes - SUC;
    if (sent->probes)
        for (uint32_t arc = first_arc(&area->table, chain, from); arc; arc = next_arc(&area->table, chain, arc)) {
            const int32_t *link = probe_link(area, sent->probes, arc);
            if (load_of(link) + (link == ack_link) >= MOST_WAITING)
                return false;
        }
    return true;
}

/* Delivers the message at a place, counted from 0, where one waits. False for 22. */
static bool deliver(Area *area, uint32_t from, uint32_t to, int32_t *link, size_t place)
{
    int32_t *record = record_of(area, to), before[MOST_WAITING];
    Process x = process_in(record);
    uint32_t message = (uint32_t)link[place];
    Sent sent = {0, 0, 0};
    bool right = area->words[DELIVERIES] != MOST_DELIVERIES;
    if (message > PRE) {
        right &= take_ack(&x, message);
        if (to != area->start && x.num == 0) {
            right &= x.father != 0;
            sent = (Sent){x.father, x.sums, 0};
            x.sums = ACK;
        }
    } else if (to == area->start) {
        sent = (Sent){from, ACK, 0};
    } else {
        right &= take_probe(&x, message, from, degree_of(&area->table, message - SUC, to), &sent);
    }
    if (!right)
        return false;
    memcpy(before, link, sizeof before);
    take_out(link, place);
    int32_t *ack_link = sent.to ? link_between(area, to, sent.to) : NULL;
    if (!has_room(area, to, &sent, ack_link)) {
        memcpy(link, before, sizeof before);
        return false;
    }
    if (ack_link)
        ack_link[load_of(ack_link)] = (int32_t)sent.ack;
    uint32_t chain = sent.probes - SUC;
    if (sent.probes)
        for (uint32_t arc = first_arc(&area->table, chain, to); arc; arc = next_arc(&area->table, chain, arc)) {
            int32_t *probed = probe_link(area, sent.probes, arc);
            probed[load_of(probed)] = (int32_t)sent.probes;
        }
    put_process(record, &x);
    area->words[DELIVERIES] += 1;
    return true;
}

uint32_t fast_pick(
    int32_t *words, size_t length, size_t from, size_t to, size_t place, uint32_t *kind, int32_t *count, int32_t *second)
{
    Area area;
    *kind = 0;
    *count = *second = 0;
    if (!test(&area, words, length))
        return 21;
    uint32_t n = area.table.n, p = (uint32_t)from, q = (uint32_t)to;
    if (from - 1 >= n || to - 1 >= n || !(area.waits[pair(p, q)] | area.waits[pair(q, p)]))
        return 25;
    if (is_over(&area))
        return 23;
    int32_t *link = link_between(&area, p, q);
    uint32_t load = load_of(link);
    if (load == 0)
        return 24;
    if (place - 1 >= load)
        return 31;
    int32_t message = link[place - 1];
    if (!deliver(&area, p, q, link, place - 1))
        return 22;
    if (message <= PRE) {
        *kind = (uint32_t)message;
    } else {
        *kind = 3;
        *count = (message & 511) - 256;
        *second = (message >> 9) - 256;
    }
    return 0;
}

/* ---- running on: sums and sets */

typedef uint16_t Eight __attribute__((vector_size(16), may_alias));

enum { MOST_SUMS = 16 };

/* One more (1), or one less (-1), in each of 8 or 16 sums that stands behind a place. */
INLINE void count_behind(uint16_t *sums, uint32_t lanes, uint32_t place, int more)
{
    /* From place 15 - p on: 0 up to lane p, and 1 behind it. */
    static const uint16_t step[2 * MOST_SUMS] = {[MOST_SUMS] = 1, 1, 1, 1, 1, 1, 1, 1, 1, 1, 1, 1, 1, 1, 1, 1};
    typedef uint16_t Any __attribute__((vector_size(16), aligned(2), may_alias));
    Eight *eights = (Eight *)sums;
    const Any *behind = (const Any *)(step + MOST_SUMS - 1 - place);
    for (uint32_t i = 0; i < lanes / 8; i++)
        eights[i] = more > 0 ? eights[i] + behind[i] : eights[i] - behind[i];
}

/* The last of so many sums, which rise from 0, that is at most the rank. A lane's highest bit stays set if its sum is at most the rank. */
INLINE uint32_t last_upto(const uint16_t *sums, uint32_t lanes, uint32_t rank)
{
    const uint64_t each = 0x0001000100010001;
    uint64_t ranks = (rank | 0x8000) * each, found = 0, four;
    for (uint32_t i = 0; i < lanes; i += 4) {
        memcpy(&four, sums + i, sizeof four);
        found += (ranks - four) >> 15 & each;
    }
    return (uint32_t)(found * each >> 48) - 1;
}

/* 1 in each byte. */
static const uint64_t BYTES = 0x0101010101010101;

/* The first of eight sums, one in each byte, at most 64 and rising, that is more than the rank, times 8: bit 7 tells which are. */
INLINE uint32_t first_above(uint64_t sums, uint32_t rank)
{
    return (uint32_t)__builtin_ctzll(((sums | 0x80 * BYTES) - (rank + 1) * BYTES) & 0x80 * BYTES) & ~7u;
}

/* The place of the set bit with so many set bits below it. `sums` has for each byte how many bits are set in it and below: so its byte is found,
 * and then its place there, by the byte's bits spread over eight bytes. */
INLINE uint32_t set_bit(uint64_t set, uint64_t sums, uint32_t rank)
{
    uint32_t place = first_above(sums, rank);
    uint64_t bits = ((set >> place & 0xFF) * BYTES & 0x8040201008040201) + 0x7F * BYTES;
    return place + first_above((bits >> 7 & BYTES) * BYTES, rank - (uint32_t)(sums << 8 >> place & 0xFF)) / 8;
}

/* The next state of a shuffled order. */
INLINE uint32_t next_state(uint32_t state)
{
    state ^= state << 13;
    state ^= state >> 17;
    return state ^ state << 5;
}

/* Whether a running on ends before its first delivery: over, which it sets, or spent. */
INLINE bool ends_at_once(const Area *area, uint32_t k, uint32_t *over)
{
    *over = is_over(area);
    return *over || k == 0;
}

/* ---- running on: many deliveries, in the area itself */

/* The links, numbered as the fixed order has them, by receiver and then by sender: the next one is the lowest with a message. What stands here
 * finds links; messages and records are the area's. */
enum { MOST_LINKS = 2 * MOST_ARCS, SET_WORDS = MOST_LINKS / 64 };

/* A link: its number, and 65536 times the word of the area's links where it begins. */
typedef uint32_t Link;

INLINE uint32_t number_of(Link link)
{
    return link & 0xFFFF;
}

INLINE int32_t *place_of(const Area *area, Link link)
{
    return area->links + (link >> 16);
}

/* Of a link by its number: the link the other way, the word where it begins, and its receiver. */
typedef struct {
    Link back;
    uint16_t place, to;
} Numbered;

typedef struct {
    Numbered numbered[MOST_LINKS];
    Link along[MOST_ARCS][2];           /* of each arc the link from its from to its to, and the one the other way */
    Link to_father[MOST_PROCESSES + 1]; /* of each process with a father */
    uint8_t degrees[2][MOST_PROCESSES + 1];
} Links;

/* How many links have a message, for a shuffled order: those in the words of the set before each; and of each word those in each byte and below. */
typedef struct {
    uint16_t before[SET_WORDS] __attribute__((aligned(16)));
    uint64_t bytes[SET_WORDS];
} Sums;

/* The links with a message, and the order in which they are taken. */
typedef struct {
    uint64_t *set;  /* a bit for each number */
    uint32_t words; /* for the fixed order: a bit for each word of the set that is not 0 */
    Sums *sums;     /* only if it is shuffled */
    uint32_t all, state;
} Waiting;

/* One link more (1), or less (-1), has a message. */
INLINE void count_number(Waiting *waiting, uint32_t number, int more)
{
    uint64_t bytes = BYTES << (number & 56);
    waiting->all += (uint32_t)more;
    waiting->sums->bytes[number / 64] += more > 0 ? bytes : -bytes;
    count_behind(waiting->sums->before, SET_WORDS, number / 64, more);
}

INLINE void set_waiting(Waiting *waiting, uint32_t number)
{
    waiting->set[number / 64] |= 1ull << number % 64;
    if (waiting->sums)
        count_number(waiting, number, 1);
    else
        waiting->words |= 1u << number / 64;
}

/* The link that was chosen has no message any more. In the fixed order it is the lowest. */
INLINE void clear_waiting(Waiting *waiting, uint32_t number)
{
    if (waiting->sums) {
        waiting->set[number / 64] ^= 1ull << number % 64;
        count_number(waiting, number, -1);
    } else {
        uint64_t *lowest = &waiting->set[__builtin_ctz(waiting->words)];
        *lowest &= *lowest - 1;
        if (*lowest == 0)
            waiting->words &= waiting->words - 1;
    }
}

/* The number of the link that is next, or none. */
INLINE bool choose_number(Waiting *waiting, uint32_t *number)
{
    if (waiting->sums) {
        const Sums *sums = waiting->sums;
        waiting->state = next_state(waiting->state);
        if (RARE(waiting->all == 0))
            return false;
        uint32_t rank = waiting->state % waiting->all, word = last_upto(sums->before, SET_WORDS, rank);
        *number = 64 * word + set_bit(waiting->set[word], sums->bytes[word], rank - sums->before[word]);
        return true;
    }
    if (RARE(waiting->words == 0))
        return false;
    uint32_t word = (uint32_t)__builtin_ctz(waiting->words);
    *number = 64 * word + (uint32_t)__builtin_ctzll(waiting->set[word]);
    return true;
}

/* How many arcs each process has, and the number that the first link to it gets. Numbers are left out where arcs both ways share their links. */
static void first_numbers(Links *links, const Table *table, uint32_t *numbers)
{
    uint32_t all = 0;
    memset(links->degrees, 0, sizeof links->degrees);
    for (uint32_t arc = 1; arc <= table->m; arc++) {
        links->degrees[OUT][end_of(table, OUT, arc)]++;
        links->degrees[IN][end_of(table, IN, arc)]++;
    }
    for (uint32_t p = 1; p <= table->n; p++) {
        numbers[p] = all;
        all += (uint32_t)links->degrees[OUT][p] + links->degrees[IN][p];
    }
}

/* Numbers the links from a process. A link to a process that it waits for is the one along that arc. */
INLINE void number_from(Links *links, const Area *area, uint32_t p, uint32_t *numbers, Link *from_here)
{
    const Table *table = &area->table;
    for (uint32_t arc = first_arc(table, OUT, p); arc; arc = next_arc(table, OUT, arc)) {
        uint32_t to = end_of(table, IN, arc);
        links->along[arc - 1][OUT] = from_here[to] = numbers[to]++ | (2 * LINK_SIZE * (arc - 1)) << 16;
    }
    for (uint32_t arc = first_arc(table, IN, p); arc; arc = next_arc(table, IN, arc)) {
        uint32_t to = end_of(table, OUT, arc);
        if (!area->waits[pair(p, to)])
            from_here[to] = numbers[to]++ | (2 * LINK_SIZE * (arc - 1) + LINK_SIZE) << 16;
        links->along[arc - 1][IN] = from_here[to];
    }
}

/* Notes a link under its number. */
INLINE void note_link(Links *links, Link link, Link back, uint32_t to)
{
    Numbered *noted = &links->numbered[number_of(link)];
    noted->back = back;
    noted->place = (uint16_t)(link >> 16);
    noted->to = (uint16_t)to;
}

/* Numbers the links of a well-formed area, sender by sender, so that those to each receiver come in the order of their senders. */
static void number_links(Links *links, const Area *area)
{
    const Table *table = &area->table;
    uint32_t numbers[MOST_PROCESSES + 1];
    Link from_here[MOST_PROCESSES + 1]; /* by receiver */
    first_numbers(links, table, numbers);
    from_here[0] = 0;
    for (uint32_t p = 1; p <= table->n; p++) {
        number_from(links, area, p, numbers, from_here);
        links->to_father[p] = from_here[record_of(area, p)[FATHER]];
    }
    for (uint32_t arc = 1; arc <= table->m; arc++) {
        uint32_t from = end_of(table, OUT, arc), to = end_of(table, IN, arc);
        Link along = links->along[arc - 1][OUT], back = links->along[arc - 1][IN];
        note_link(links, along, back, to);
        note_link(links, back, along, from);
    }
}

/* The links with a message of a well-formed area. */
INLINE void find_waiting(Waiting *waiting, const Links *links, const Area *area)
{
    for (uint32_t i = 0; i < area->loaded; i++) {
        uint32_t arc = area->loaded_arcs[i];
        if (first_link(area, arc)[0])
            set_waiting(waiting, number_of(links->along[arc - 1][OUT]));
        if (second_link(area, arc)[0])
            set_waiting(waiting, number_of(links->along[arc - 1][IN]));
    }
}

/* A running on in the area itself. */
typedef struct {
    const Area *area;
    Links *links;
    Waiting *waiting;
} Run;

INLINE uint32_t receiver(const Links *links, Link link)
{
    return links->numbered[number_of(link)].to;
}

/* A further message on a link; false if it has four. */
static __attribute__((noinline)) bool put_behind(int32_t *link, uint32_t message)
{
    for (int i = 1; i < MOST_WAITING; i++)
        if (link[i] == 0) {
            link[i] = (int32_t)message;
            return true;
        }
    return false;
}

INLINE bool put(const Run *run, Link at, uint32_t message)
{
    int32_t *link = place_of(run->area, at);
    if (RARE(link[0]))
        return put_behind(link, message);
    link[0] = (int32_t)message;
    set_waiting(run->waiting, number_of(at));
    return true;
}

/* Takes the newest message off a link again, in a run that ends with 22 there. */
static void unput(const Area *area, Link at)
{
    int32_t *link = place_of(area, at);
    link[load_of(link) - 1] = 0;
}

/* Puts back the oldest message of a link, which has room for it, in a run that ends with 22 there. */
static void put_back(int32_t *link, uint32_t message)
{
    memmove(link + 1, link, (MOST_WAITING - 1) * sizeof *link);
    link[0] = (int32_t)message;
}

/* A probe that changes the flags of its receiver, which is not the start. False for 22, with nothing sent. */
INLINE bool put_changing(const Run *run, uint32_t to, Link back, uint32_t probe)
{
    const Area *area = run->area;
    Links *links = run->links;
    uint32_t from = receiver(links, back);
    Process x = process_in(record_of(area, to));
    Sent sent;
    uint32_t chain = probe - SUC;
    if (RARE(!take_probe(&x, probe, from, links->degrees[chain][to], &sent)))
        return false;
    /* Whether it had a father or gets one, it is the sender that is acknowledged. */
    if (sent.to && RARE(!put(run, back, sent.ack)))
        return false;
    if (sent.probes)
        for (uint32_t arc = first_arc(&area->table, chain, to); arc; arc = next_arc(&area->table, chain, arc))
            if (RARE(!put(run, links->along[arc - 1][chain], probe))) {
                for (uint32_t sent_on = first_arc(&area->table, chain, to); sent_on != arc; sent_on = next_arc(&area->table, chain, sent_on))
                    unput(area, links->along[sent_on - 1][chain]);
                if (sent.to)
                    unput(area, back);
                return false;
            }
    put_process(record_of(area, to), &x);
    if (x.father == from)
        links->to_father[to] = back;
    return true;
}

/* Delivers the oldest message of a link. False for 22, with nothing changed. */
INLINE bool deliver_oldest(const Run *run, uint32_t number)
{
    const Area *area = run->area;
    const Numbered *chosen = &run->links->numbered[number];
    uint32_t to = chosen->to;
    Link back = chosen->back;
    int32_t *link = area->links + chosen->place, *record = record_of(area, to);
    uint32_t message = (uint32_t)link[0], num = (uint32_t)record[NUM];
    bool is_start = to == area->start;
    if (RARE(link[1])) {
        take_out(link, 0);
    } else {
        link[0] = 0;
        clear_waiting(run->waiting, number);
    }
    if (message > PRE) {
        uint32_t cs = (uint32_t)record[CS] + (message & 511) - 256, second = (uint32_t)record[SECOND] + (message >> 9) - 256;
        num--;
        if (RARE((cs + 128 > 256) | (second + 128 > 256) | (num >= MOST_NUM)))
            goto refused;
        if (num == 0 && !is_start) {
            if (RARE(record[FATHER] == 0) || RARE(!put(run, run->links->to_father[to], ACK + cs + 512 * second)))
                goto refused;
            cs = second = 0;
        }
        record[CS] = (int32_t)cs;
        record[SECOND] = (int32_t)second;
        record[NUM] = (int32_t)num;
    } else if (RARE(is_start)) {
        if (RARE(!put(run, back, ACK)))
            goto refused;
    } else if (RARE(changing_probes((uint32_t)record[FLAGS]) & message)) {
        if (RARE(!put_changing(run, to, back, message)))
            goto refused;
    } else {
        /* With its flags as they are it acknowledges at once: by rule 1, or by rule 4 to the sender as its father. */
        if (RARE(!put(run, back, (uint32_t)(ACK + record[CS] + 512 * record[SECOND]))))
            goto refused;
        if (num == 0) {
            record[FATHER] = (int32_t)receiver(run->links, back);
            run->links->to_father[to] = back;
        }
        record[CS] = record[SECOND] = 0;
    }
    area->words[DELIVERIES] += 1;
    return true;
refused:
    put_back(link, message);
    return false;
}

/* Finds the next link with a message, and, if it is to deliver, delivers the oldest there. 24 if there is no such link; 22 if it is not to deliver or
 * cannot, with nothing changed. */
INLINE uint32_t next_delivery(const Run *run, bool deliver)
{
    uint32_t number;
    if (RARE(!choose_number(run->waiting, &number)))
        return 24;
    return deliver && deliver_oldest(run, number) ? 0 : 22;
}

/* Makes up to k deliveries while num, the start's, is not 0: over, spent, 24, 22. */
INLINE uint32_t make(const Run *run, const uint32_t *num, uint32_t left, uint32_t k, uint32_t *over, uint32_t *made)
{
    uint32_t most = k < left ? k : left, done = 0, refused = 0;
    while (done < most) {
        refused = next_delivery(run, true);
        if (RARE(refused))
            break;
        done++;
        if (RARE(*num == 0))
            break;
    }
    *over = *num == 0;
    *made = done;
    /* One more delivery than are counted is refused, if there is a message for it. */
    return !refused && *num && done < k ? next_delivery(run, false) : refused;
}

/* Running on in a well-formed area, on its own words. */
INLINE uint32_t run_on_words(Area *area, uint32_t k, Sums *sums, uint32_t seed, uint32_t *over, uint32_t *made)
{
    if (ends_at_once(area, k, over))
        return 0;
    Links links;
    uint64_t set[SET_WORDS] = {0};
    Waiting waiting = {set, 0, sums, 0, seed};
    Run run = {area, &links, &waiting};
    number_links(&links, area);
    find_waiting(&waiting, &links, area);
    uint32_t left = (uint32_t)(MOST_DELIVERIES - area->words[DELIVERIES]);
    return make(&run, (const uint32_t *)record_of(area, area->start) + NUM, left, k, over, made);
}

uint32_t fast_run_on(int32_t *words, size_t length, uint32_t k, uint32_t *over, uint32_t *made)
{
    Area area;
    *over = *made = 0;
    if (!test(&area, words, length))
        return 21;
    return run_on_words(&area, k, NULL, 0, over, made);
}

uint32_t fast_run_shuffled(int32_t *words, size_t length, uint32_t k, uint32_t seed, uint32_t *over, uint32_t *made)
{
    Area area;
    Sums sums;
    *over = *made = 0;
    if (!test(&area, words, length))
        return 21;
    if (seed == 0)
        return 37;
    memset(&sums, 0, sizeof sums);
    return run_on_words(&area, k, &sums, seed, over, made);
}
