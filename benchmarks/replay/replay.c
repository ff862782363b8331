/* Speed of the bench on one file beside OpenSSL's DES on as many blocks:
   replay BENCH FILE COMMANDS BLOCKS [SWITCH]. Both run on one core, a few times in turn, and the best run of each counts. */

#define OPENSSL_SUPPRESS_DEPRECATED
#define _GNU_SOURCE

#include <fcntl.h>
#include <openssl/des.h>
#include <sched.h>
#include <stdint.h>
#include <stdio.h>
#include <stdlib.h>
#include <sys/resource.h>
#include <sys/wait.h>
#include <time.h>
#include <unistd.h>

enum { RUNS = 3 };

static double seconds(void)
{
    struct timespec now;

    clock_gettime(CLOCK_MONOTONIC, &now);
    return (double)now.tv_sec + (double)now.tv_nsec / 1e9;
}

static void fail(const char *what)
{
    fprintf(stderr, "replay: %s\n", what);
    exit(1);
}

/* Seconds of one run of the bench on a file, with a switch or none, its lines thrown away; its peak memory in KiB. */
static double bench(const char *program, const char *word, const char *file, long *peak)
{
    struct rusage usage;
    int status;
    double before = seconds();
    pid_t child = fork();

    if (child < 0)
        fail("no process could be made");
    if (child == 0) {
        int nowhere = open("/dev/null", O_WRONLY);

        if (nowhere < 0 || dup2(nowhere, STDOUT_FILENO) < 0)
            _exit(127);
        if (word != NULL)
            execl(program, program, word, file, (char *)NULL);
        else
            execl(program, program, file, (char *)NULL);
        _exit(127);
    }
    if (wait4(child, &status, 0, &usage) != child || !WIFEXITED(status) || WEXITSTATUS(status) != 0)
        fail("the bench failed");
    *peak = usage.ru_maxrss;
    return seconds() - before;
}

/* Seconds that OpenSSL takes for some DES blocks, each enciphering the one before. */
static double openssl(uint64_t blocks)
{
    DES_cblock key = {0x01, 0x23, 0x45, 0x67, 0x89, 0xAB, 0xCD, 0xEF};
    DES_cblock block = {0};
    DES_key_schedule schedule;
    volatile unsigned char last;
    double before = seconds();

    DES_set_key_unchecked(&key, &schedule);
    for (uint64_t i = 0; i < blocks; i++)
        DES_ecb_encrypt(&block, &block, &schedule, DES_ENCRYPT);
    last = block[0];
    (void)last;
    return seconds() - before;
}

/* One core for this process and its children. */
static void pin(void)
{
    cpu_set_t one;

    CPU_ZERO(&one);
    CPU_SET(sched_getcpu(), &one);
    if (sched_setaffinity(0, sizeof one, &one) != 0)
        fail("the core could not be kept");
}

int main(int count, char **words)
{
    if (count != 5 && count != 6)
        fail("usage: replay BENCH FILE COMMANDS BLOCKS [SWITCH]");
    pin();
    double commands = strtod(words[3], NULL);
    uint64_t blocks = strtoull(words[4], NULL, 10);
    double ours = 0, theirs = 0;
    long peak = 0;

    for (int run = 0; run < RUNS; run++) {
        double a = bench(words[1], words[5], words[2], &peak);
        double b = openssl(blocks);

        ours = run == 0 || a < ours ? a : ours;
        theirs = run == 0 || b < theirs ? b : theirs;
    }
    printf("bench%s%s: %.0f commands in %.2f s, %.0f commands per second, peak memory %ld KiB\n", words[5] != NULL ? " " : "",
           words[5] != NULL ? words[5] : "", commands, ours, commands / ours, peak);
    printf("OpenSSL: %llu DES blocks in %.3f s\n", (unsigned long long)blocks, theirs);
    printf("ratio:   %.2f times the time that OpenSSL takes for the DES blocks\n", ours / theirs);
    return 0;
}
