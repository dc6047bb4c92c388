/* Runs a program on an input that comes in pieces.
 *
 *   gcc -std=c99 -O2 hosts/c/pieces.c -o target/pieces && target/pieces SIZE PROGRAM < INPUT
 *
 * PROGRAM's standard input is a socket that keeps the pieces apart, so that each of its reads gets just one of them, SIZE bytes (the last one may have
 * fewer), however fast it reads and whatever it asks for; where it asks for less than a piece has, the rest of that is lost. After the last piece the
 * input has ended. Returns PROGRAM's status, and 2 if it could not be run.
 */
#define _POSIX_C_SOURCE 200809L
#include <stdio.h>
#include <stdlib.h>
#include <string.h>
#include <sys/socket.h>
#include <sys/wait.h>
#include <unistd.h>

static char piece[1 << 16];

static int usage(FILE *out, int status) {
    fprintf(out, "usage:\n  pieces SIZE PROGRAM < INPUT   run PROGRAM on INPUT, which it gets in pieces of SIZE bytes, 1 to %zu\n", sizeof piece);
    return status;
}

static int fail(const char *what) {
    perror(what);
    return 2;
}

int main(int count, char **words) {
    int ends[2], status;
    size_t size, got;
    pid_t child;

    if (count == 2 && (strcmp(words[1], "-h") == 0 || strcmp(words[1], "--help") == 0)) return usage(stdout, 0);
    size = count == 3 ? strtoul(words[1], NULL, 10) : 0;
    if (size < 1 || size > sizeof piece) return usage(stderr, 2);

    if (socketpair(AF_UNIX, SOCK_SEQPACKET, 0, ends) != 0) return fail("socketpair");
    child = fork();
    if (child < 0) return fail("fork");
    if (child == 0) {
        if (dup2(ends[0], STDIN_FILENO) < 0) _exit(fail("dup2"));
        close(ends[0]);
        close(ends[1]);
        execl(words[2], words[2], (char *)NULL);
        _exit(fail(words[2]));
    }
    close(ends[0]);
    while ((got = fread(piece, 1, size, stdin)) > 0) {
        /* A program that has ended reads no more. */
        if (send(ends[1], piece, got, MSG_NOSIGNAL) != (ssize_t)got) break;
    }
    close(ends[1]);
    if (waitpid(child, &status, 0) != child) return fail("waitpid");
    return WIFEXITED(status) ? WEXITSTATUS(status) : 128 + WTERMSIG(status);
}
