/* Speed of the proved cipher's two engines beside OpenSSL's DES, in one run on one core: single DES under one key and under a key for
   each block, a signature of 39 bytes, and two-key triple DES in CBC; before that the same results on random texts. Exit status 1 if a
   result differs. With EARLIER defined, the engines of an earlier cipher_c, whose names begin with earlier_, take part too. */

#define OPENSSL_SUPPRESS_DEPRECATED
#define _GNU_SOURCE

#include <openssl/des.h>
#include <sched.h>
#include <stdint.h>
#include <stdio.h>
#include <stdlib.h>
#include <string.h>
#include <time.h>

#ifdef EARLIER
enum { PLAIN, QUICK, EARLIER_PLAIN, EARLIER_QUICK, OPENSSL, ENGINES };
static const char *names[ENGINES] = {"plain", "quick", "plain, earlier", "quick, earlier", "OpenSSL"};
#else
enum { PLAIN, QUICK, OPENSSL, ENGINES };
static const char *names[ENGINES] = {"plain", "quick", "OpenSSL"};
#endif
enum { BLOCK = 8, KEY = 16, MOST_COMPARED = 300, COMPARISONS = 500, SIGNED = 39, TEXT = 64 * 1024, ROUNDS = 200, PLAIN_EACH = 10 };

/* The library cipher_c, proved in Rattle; its engines are 0 and 1. */
typedef size_t cbc_call(uint32_t engine, const uint8_t *key, size_t key_len, const uint8_t *start, size_t start_len, uint8_t *text,
                        size_t text_len);
typedef size_t signature_call(uint32_t engine, const uint8_t *key, size_t key_len, const uint8_t *start, size_t start_len,
                              const uint8_t *text, size_t text_len, uint8_t *out, size_t out_len);
typedef size_t des_call(uint32_t engine, const uint8_t *key, size_t key_len, uint8_t *text, size_t text_len);

struct library {
    cbc_call *cbc;
    signature_call *signature;
    des_call *des, *des_each;
};

cbc_call cipher_cbc, earlier_cipher_cbc;
signature_call cipher_signature, earlier_cipher_signature;
des_call cipher_des, cipher_des_each, earlier_cipher_des, earlier_cipher_des_each;

static const struct library libraries[] = {
    {cipher_cbc, cipher_signature, cipher_des, cipher_des_each},
#ifdef EARLIER
    {earlier_cipher_cbc, earlier_cipher_signature, earlier_cipher_des, earlier_cipher_des_each},
#endif
};

/* An engine's library, and its number there. */
static const struct library *library_of(int engine)
{
    return &libraries[engine / 2];
}

static uint32_t number_of(int engine)
{
    return (uint32_t)engine % 2;
}

/* Random bytes by xorshift64 from a fixed seed. */
static void fill(uint8_t *bytes, size_t length)
{
    static uint64_t state = 0x9E3779B97F4A7C15;

    for (size_t i = 0; i < length; i++) {
        state ^= state << 13;
        state ^= state >> 7;
        state ^= state << 17;
        bytes[i] = (uint8_t)(state >> 32);
    }
}

/* ---- what is measured: each on an engine, over `length` bytes of text */

static uint8_t keys[TEXT], start[BLOCK];

static void openssl_key(const uint8_t *bytes, DES_key_schedule *schedule)
{
    DES_cblock key;

    memcpy(key, bytes, BLOCK);
    DES_set_key_unchecked(&key, schedule);
}

static void one_key(int engine, uint8_t *text, size_t length)
{
    DES_key_schedule schedule;

    if (engine != OPENSSL) {
        library_of(engine)->des(number_of(engine), keys, BLOCK, text, length);
        return;
    }
    openssl_key(keys, &schedule);
    for (size_t i = 0; i + BLOCK <= length; i += BLOCK)
        DES_ecb_encrypt((const_DES_cblock *)(text + i), (DES_cblock *)(text + i), &schedule, DES_ENCRYPT);
}

static void key_each(int engine, uint8_t *text, size_t length)
{
    DES_key_schedule schedule;

    if (engine != OPENSSL) {
        library_of(engine)->des_each(number_of(engine), keys, length / BLOCK * BLOCK, text, length);
        return;
    }
    for (size_t i = 0; i + BLOCK <= length; i += BLOCK) {
        openssl_key(keys + i, &schedule);
        DES_ecb_encrypt((const_DES_cblock *)(text + i), (DES_cblock *)(text + i), &schedule, DES_ENCRYPT);
    }
}

static void cbc_under(int engine, const uint8_t *key, const uint8_t *from, uint8_t *text, size_t length)
{
    DES_cblock chain;
    DES_key_schedule first, second;

    if (engine != OPENSSL) {
        library_of(engine)->cbc(number_of(engine), key, KEY, from, BLOCK, text, length);
        return;
    }
    memcpy(chain, from, BLOCK);
    openssl_key(key, &first);
    openssl_key(key + BLOCK, &second);
    DES_ede2_cbc_encrypt(text, text, (long)(length / BLOCK * BLOCK), &first, &second, &chain, DES_ENCRYPT);
}

static void cbc(int engine, uint8_t *text, size_t length)
{
    cbc_under(engine, keys, start, text, length);
}

/* The last block of CBC over the text, 80 and zeros to a whole block. */
static void signature(int engine, const uint8_t *key, const uint8_t *from, const uint8_t *text, size_t length, uint8_t *out)
{
    uint8_t padded[MOST_COMPARED + BLOCK];
    size_t whole = (length / BLOCK + 1) * BLOCK;

    if (engine != OPENSSL) {
        library_of(engine)->signature(number_of(engine), key, KEY, from, BLOCK, text, length, out, BLOCK);
        return;
    }
    memcpy(padded, text, length);
    memset(padded + length, 0, whole - length);
    padded[length] = 0x80;
    cbc_under(engine, key, from, padded, whole);
    memcpy(out, padded + whole - BLOCK, BLOCK);
}

/* A signature of each 39 bytes, under a key of its own, written over the first 8 of them. */
static void signatures(int engine, uint8_t *text, size_t length)
{
    uint8_t out[BLOCK];

    for (size_t i = 0; i + SIGNED <= length; i += SIGNED) {
        signature(engine, keys + i, start, text + i, SIGNED, out);
        memcpy(text + i, out, BLOCK);
    }
}

typedef void measured(int engine, uint8_t *text, size_t length);

static const struct {
    const char *name;
    measured *run;
    size_t unit; /* bytes of text to an operation */
} measures[] = {
    {"DES blocks, one key", one_key, BLOCK},
    {"DES blocks, a key each", key_each, BLOCK},
    {"signatures of 39 bytes", signatures, SIGNED},
    {"triple-DES blocks, CBC", cbc, BLOCK},
};

enum { MEASURES = sizeof measures / sizeof measures[0] };

/* ---- the same results */

static void same(const char *what, const uint8_t *ours, const uint8_t *theirs, size_t length)
{
    if (memcmp(ours, theirs, length) != 0) {
        printf("%s differs from OpenSSL's, text of %zu bytes\n", what, length);
        exit(1);
    }
}

static void compare(size_t length)
{
    uint8_t text[MOST_COMPARED], ours[MOST_COMPARED], theirs[MOST_COMPARED], mac[BLOCK], expected[BLOCK];

    fill(keys, sizeof keys);
    fill(start, BLOCK);
    fill(text, length);
    for (int engine = 0; engine < OPENSSL; engine++) {
        for (int m = 0; m < MEASURES; m++) {
            memcpy(ours, text, length);
            memcpy(theirs, text, length);
            measures[m].run(engine, ours, length);
            measures[m].run(OPENSSL, theirs, length);
            same(measures[m].name, ours, theirs, length);
        }
        signature(engine, keys, start, text, length, mac);
        signature(OPENSSL, keys, start, text, length, expected);
        same("a signature", mac, expected, BLOCK);
    }
}

/* ---- speed */

static double seconds(void)
{
    struct timespec now;

    clock_gettime(CLOCK_MONOTONIC, &now);
    return (double)now.tv_sec + (double)now.tv_nsec / 1e9;
}

/* Operations per second of each engine, the best of many rounds in which they take turns; plain engines take part in some. */
static void speeds(int m, double best[ENGINES])
{
    static uint8_t text[TEXT], work[TEXT];

    fill(text, TEXT);
    for (int engine = 0; engine < ENGINES; engine++)
        best[engine] = 0;
    for (int round = 0; round < ROUNDS; round++) {
        for (int engine = 0; engine < ENGINES; engine++) {
            if (engine != OPENSSL && number_of(engine) == PLAIN && round % PLAIN_EACH != 0)
                continue;
            memcpy(work, text, TEXT);
            double before = seconds();
            measures[m].run(engine, work, TEXT);
            double rate = (double)(TEXT / measures[m].unit) / (seconds() - before);
            if (rate > best[engine])
                best[engine] = rate;
        }
    }
}

/* All on the core where the program runs now. */
static void stay(void)
{
    cpu_set_t set;

    CPU_ZERO(&set);
    CPU_SET((size_t)sched_getcpu(), &set);
    sched_setaffinity(0, sizeof set, &set);
}

int main(void)
{
    stay();
    for (size_t i = 0; i < COMPARISONS; i++)
        compare(i % (MOST_COMPARED + 1));
    printf("%d random texts of 0 to %d bytes: all engines give what OpenSSL gives\n", COMPARISONS, MOST_COMPARED);
    printf("a second, best of %d rounds in which the engines take turns on one core; the ratio is to OpenSSL's speed\n", ROUNDS);
    for (int m = 0; m < MEASURES; m++) {
        double best[ENGINES];

        speeds(m, best);
        printf("%s\n", measures[m].name);
        for (int engine = 0; engine < ENGINES; engine++)
            printf("    %-14s %12.0f   ratio %.4f\n", names[engine], best[engine], best[engine] / best[OPENSSL]);
    }
    return 0;
}
