/* round_trips LINES SKIP PROGRAM ARGS..: runs the program with a pipe each way, writes it each line of the file LINES and reads a
 * line before it writes the next. Prints the seconds that the lines past the first SKIP took, and the median, the 90th of a hundred
 * and the longest of these round trips in microseconds.
 *
 * cc -O2 -o round_trips round_trips.c
 */
#include <stdio.h>
#include <stdlib.h>
#include <string.h>
#include <sys/wait.h>
#include <time.h>
#include <unistd.h>

static double now(void) {
    struct timespec t;
    clock_gettime(CLOCK_MONOTONIC, &t);
    return (double)t.tv_sec + 1e-9 * (double)t.tv_nsec;
}

static int by_size(const void *a, const void *b) {
    double x = *(const double *)a, y = *(const double *)b;
    return (x > y) - (x < y);
}

int main(int argc, char **argv) {
    static char line[20000], reply[20000];
    int to[2], from[2];
    if (argc < 4 || pipe(to) || pipe(from)) return 2;
    FILE *lines = fopen(argv[1], "r");
    if (!lines) return 2;
    long skip = atol(argv[2]), count = 0, room = 1 << 16;
    double *took = malloc((size_t)room * sizeof *took), all = 0;
    pid_t child = fork();
    if (child == 0) {
        dup2(to[0], 0), dup2(from[1], 1);
        close(to[0]), close(to[1]), close(from[0]), close(from[1]);
        execvp(argv[3], argv + 3);
        _exit(127);
    }
    close(to[0]), close(from[1]);
    for (long at = 0; fgets(line, sizeof line, lines) && count < room; at++) {
        size_t length = strlen(line);
        double began = now();
        if (write(to[1], line, length) != (ssize_t)length) return 126;
        for (ssize_t held = 0, more; held == 0 || reply[held - 1] != '\n'; held += more)
            if ((more = read(from[0], reply + held, sizeof reply - (size_t)held)) <= 0) return 126;
        double ended = now();
        if (strncmp(reply, "no", 2) == 0) { fprintf(stderr, "%s%s", line, reply); return 125; }
        if (at >= skip) all += took[count++] = ended - began;
    }
    close(to[1]);
    while (read(from[0], reply, sizeof reply) > 0);
    int status;
    if (wait4(child, &status, 0, NULL) < 0 || !WIFEXITED(status) || WEXITSTATUS(status)) return 124;
    qsort(took, (size_t)count, sizeof *took, by_size);
    printf("%.6f %.2f %.2f %.2f\n", all, 1e6 * took[count / 2], 1e6 * took[count * 9 / 10], 1e6 * took[count - 1]);
    return 0;
}
