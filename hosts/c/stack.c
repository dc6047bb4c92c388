/* Measures the stack that each call of the C interface takes, on the largest table (128 processes, 512 waits), and sees that a stack that
 * is too small is met at its guard page.
 *
 *   gcc -std=c99 -O2 -Iinclude hosts/c/stack.c target/staticlib/libpickledune.a -pthread -o target/stack && target/stack [RUNS]
 *
 * Each call is made in a thread of its own whose stack was filled with a mark, and the marks that are left are counted. A whole check is made
 * RUNS times, 100 if none are named, and of each call the least and the largest number of bytes are printed if they differ. Then each call
 * that takes more than the smallest stack of a thread is made on one, in a process of its own: it must be stopped at the guard page, and
 * what lies behind that page must be as it was. Returns 1 if a call is refused, takes as much as the header says that it does not take,
 * or is not stopped there.
 */
#define _GNU_SOURCE
#include "pickledune.h"

#include <pthread.h>
#include <signal.h>
#include <stdio.h>
#include <stdlib.h>
#include <string.h>
#include <sys/mman.h>
#include <sys/wait.h>
#include <unistd.h>

/* SMALL is the smallest stack that a thread may have, PAGE the guard page's size, and BEHIND how much is looked at behind it. */
enum { STACK = 1 << 20, MARK = 0xA5, N = 128, M = 512, MOST = 128 << 10, SMALL = 16 << 10, PAGE = 4096, BEHIND = 256 << 10 };

static uint8_t *stack;
static uint8_t table[PICKLEDUNE_TABLE_BYTES(N, M)];
static uint16_t list[2 * M];
static int32_t area[PICKLEDUNE_AREA_WORDS(N, M)];
static uint32_t a, b, c, d, e;
static int32_t y, z;
static size_t n, m;
static struct pickledune_process x;

static void nothing(void) {}
static void write_table(void) { a = pickledune_write_table(N, list, 2 * M, table, sizeof table, &n); }
static void read_table(void) { a = pickledune_read_table(table, sizeof table, &n, &m); }
static void open_walk(void) { a = pickledune_open(table, sizeof table, PICKLEDUNE_OUT, 1, &n); }
static void next_arc(void) { n = pickledune_next(table, sizeof table, PICKLEDUNE_OUT, 1); }
static void start(void) { a = pickledune_start(table, sizeof table, 1, 2, area, PICKLEDUNE_AREA_WORDS(N, M)); }
static void pick(void) { a = pickledune_pick(area, PICKLEDUNE_AREA_WORDS(N, M), 1, 2, 1, &b, &y, &z); }
/* Half of the run; the other half is shuffled. */
static void run_on(void) { a = pickledune_run_on(area, PICKLEDUNE_AREA_WORDS(N, M), 1024, &b, &c); }
static void run_shuffled(void) { a = pickledune_run_shuffled(area, PICKLEDUNE_AREA_WORDS(N, M), 2048, 2463534242u, &b, &c); }
static void report(void) { a = pickledune_report(area, PICKLEDUNE_AREA_WORDS(N, M), &b, &c, &z, &d, &e); }
static void read_record(void) { a = pickledune_read_process(area, PICKLEDUNE_AREA_WORDS(N, M), 1, &x); }
static void step(void) { a = pickledune_step_process(&x, PICKLEDUNE_SUC, 0, 0, 4, 4, 2, &b, &c, &y, &z); }

static const struct {
    const char *name;
    void (*call)(void);
} calls[] = {
    {"write_table", write_table}, {"read_table", read_table},   {"open", open_walk}, {"next", next_arc},
    {"start", start},             {"pick", pick},               {"run_on", run_on},  {"run_shuffled", run_shuffled},
    {"report", report},           {"read_record", read_record}, {"step", step},
};
enum { CALLS = sizeof calls / sizeof *calls };

static void stop(const char *what)
{
    fprintf(stderr, "%s\n", what);
    exit(1);
}

/* Runs a function in a thread with this stack. */
static void in_thread(void *(*function)(void *), void (*call)(void), uint8_t *from, size_t bytes)
{
    pthread_attr_t attributes;
    pthread_t thread;
    if (pthread_attr_init(&attributes) || pthread_attr_setstack(&attributes, from, bytes) ||
        pthread_create(&thread, &attributes, function, &call) || pthread_join(thread, NULL))
        stop("no thread");
}

static void *run(void *call)
{
    (*(void (**)(void))call)();
    return NULL;
}

/* The bytes that a thread takes for this call. */
static long taken(void (*call)(void))
{
    long kept = 0;
    memset(stack, MARK, STACK);
    in_thread(run, call, stack, STACK);
    while (kept < STACK && stack[kept] == MARK)
        kept++;
    return STACK - kept;
}

/* Marked memory, then a guard page, then a small stack. */
static uint8_t *behind;
static uint8_t handler_stack[64 << 10];

static void overflowed(int number, siginfo_t *where, void *context)
{
    const uint8_t *at = (const uint8_t *)where->si_addr;
    (void)number;
    (void)context;
    if (at < behind + BEHIND || at >= behind + BEHIND + PAGE)
        _exit(2);
    for (long k = 0; k < BEHIND; k++)
        if (behind[k] != MARK)
            _exit(3);
    _exit(0);
}

static void *run_on_small(void *call)
{
    struct sigaction action;
    stack_t other;
    memset(&action, 0, sizeof action);
    memset(&other, 0, sizeof other);
    other.ss_sp = handler_stack;
    other.ss_size = sizeof handler_stack;
    action.sa_sigaction = overflowed;
    action.sa_flags = SA_SIGINFO | SA_ONSTACK;
    if (sigaltstack(&other, NULL) || sigaction(SIGSEGV, &action, NULL))
        _exit(5);
    (*(void (**)(void))call)();
    _exit(4);
}

/* What becomes of a call that takes more than the small stack: 0 if it is stopped at the guard page with nothing changed behind it, 2 if it
 * is stopped elsewhere, 3 if something was changed, 4 if it is not stopped. */
static int overflow(void (*call)(void))
{
    int status;
    pid_t child = fork();
    if (child == 0) {
        behind = (uint8_t *)mmap(NULL, BEHIND + PAGE + SMALL, PROT_READ | PROT_WRITE, MAP_PRIVATE | MAP_ANONYMOUS, -1, 0);
        if (behind == MAP_FAILED || mprotect(behind + BEHIND, PAGE, PROT_NONE))
            _exit(5);
        memset(behind, MARK, BEHIND);
        in_thread(run_on_small, call, behind + BEHIND + PAGE, SMALL);
        _exit(5);
    }
    if (child < 0 || waitpid(child, &status, 0) != child)
        stop("no process");
    return WIFEXITED(status) ? WEXITSTATUS(status) : 2;
}

int main(int count, char **words)
{
    long least[CALLS];
    long most[CALLS];
    long largest = 0;
    char *end = NULL;
    if (count == 2 && (strcmp(words[1], "-h") == 0 || strcmp(words[1], "--help") == 0)) {
        puts("Measures the stack that each call of the C interface takes.\n\n  stack [RUNS]\n\n"
             "RUNS is how often a whole check is made, 100 if none are named. hosts/c/stack.sh builds it and runs it.");
        return 0;
    }
    long runs = count < 2 ? 100 : strtol(words[1], &end, 10);
    if (count > 2 || runs < 1 || (end && *end))
        stop("usage: stack [RUNS]");
    if (posix_memalign((void **)&stack, PAGE, STACK))
        stop("no memory");
    for (int k = 0; k < M; k++) {
        list[2 * k] = (uint16_t)(1 + k / 4);
        list[2 * k + 1] = (uint16_t)(1 + (k / 4 + k % 4 + 1) % N);
    }
    for (long round = 0; round < runs; round++) {
        long thread = taken(nothing);
        for (int i = 0; i < CALLS; i++) {
            long bytes = taken(calls[i].call) - thread;
            if (a != 0) {
                fprintf(stderr, "%s: refused %lu: %s\n", calls[i].name, (unsigned long)a, pickledune_refusal_text(a));
                return 1;
            }
            least[i] = round == 0 || bytes < least[i] ? bytes : least[i];
            most[i] = round == 0 || bytes > most[i] ? bytes : most[i];
            largest = bytes > largest ? bytes : largest;
        }
    }
    for (int i = 0; i < CALLS; i++) {
        if (least[i] == most[i])
            printf("%s: %ld bytes\n", calls[i].name, most[i]);
        else
            printf("%s: %ld to %ld bytes\n", calls[i].name, least[i], most[i]);
    }
    printf("largest: %ld bytes in %ld runs\n", largest, runs);
    if (largest >= MOST)
        stop("as much as a call is said not to take");
    for (int i = 0; i < CALLS; i++) {
        int how = most[i] > SMALL ? overflow(calls[i].call) : 0;
        if (how != 0) {
            fprintf(stderr, "%s: on a stack that is too small: %s\n", calls[i].name,
                    how == 2 ? "stopped elsewhere than at the guard page" : how == 3 ? "memory behind the guard page was changed"
                    : how == 4 ? "not stopped" : "not tried");
            return 1;
        }
        if (most[i] > SMALL)
            printf("%s: stopped at the guard page of a stack of %d bytes\n", calls[i].name, SMALL);
    }
    return 0;
}
