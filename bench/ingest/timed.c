/* Runs a command for bench/ingest.sh and prints its times, in microseconds: that on the wall, and that of the processor in
 * the program and in the system together. It ends with the status of the command.
 *
 *   timed INPUT OUTPUT COMMAND..
 */
#define _GNU_SOURCE
#include <fcntl.h>
#include <stdio.h>
#include <stdlib.h>
#include <sys/resource.h>
#include <sys/time.h>
#include <sys/wait.h>
#include <time.h>
#include <unistd.h>

static void fail(const char *call) {
    perror(call);
    exit(126);
}

static long long microseconds(struct timeval time) {
    return 1000000LL * time.tv_sec + time.tv_usec;
}

static long long now(void) {
    struct timespec time;
    clock_gettime(CLOCK_MONOTONIC, &time);
    return 1000000LL * time.tv_sec + time.tv_nsec / 1000;
}

static void become(char **words) {
    int input = open(words[1], O_RDONLY);
    int output = open(words[2], O_WRONLY | O_CREAT | O_TRUNC, 0600);
    if (input < 0 || output < 0 || dup2(input, 0) < 0 || dup2(output, 1) < 0)
        fail("open");
    close(input);
    close(output);
    execv(words[3], words + 3);
    fail(words[3]);
}

int main(int count, char **words) {
    if (count < 4) {
        fputs("usage: timed INPUT OUTPUT COMMAND..\n", stderr);
        return 2;
    }
    long long start = now();
    pid_t child = fork();
    if (child < 0)
        fail("fork");
    if (child == 0)
        become(words);
    int status;
    struct rusage used;
    if (wait4(child, &status, 0, &used) < 0)
        fail("wait");
    long long wall = now() - start;
    printf("%lld %lld\n", wall, microseconds(used.ru_utime) + microseconds(used.ru_stime));
    return WIFEXITED(status) ? WEXITSTATUS(status) : 125;
}
