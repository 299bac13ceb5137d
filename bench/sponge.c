// Times the engine's permutation and pads against the baseline of keccak.c and against OpenSSL, in one run. Each line is
// `name ratio=R ns=T`: T is the engine's time of one call, R that time divided by the other's. The runs alternate, and the
// median of many is taken, so that a busy machine slows both alike.
#include "keccak.h"
#include <dlfcn.h>
#include <stdio.h>
#include <stdlib.h>
#include <string.h>
#include <time.h>

// the crate bench_calls
void bench_permutation(uint64_t state[25]);
void bench_numbers(const uint8_t *key, size_t key_len, uint64_t *out, size_t n);

enum { RUNS = 41 };

static double now(void) {
    struct timespec t;
    clock_gettime(CLOCK_MONOTONIC, &t);
    return (double)t.tv_sec * 1e9 + (double)t.tv_nsec;
}

static int ascending(const void *a, const void *b) {
    double x = *(const double *)a, y = *(const double *)b;
    return (x > y) - (x < y);
}

static double median(double *times) {
    qsort(times, RUNS, sizeof *times, ascending);
    return times[RUNS / 2];
}

static uint64_t state[25], out[128];
// what a pad's input has before the key: round, modulus, wire, component and receiver are 0
static uint8_t prefix[17] = "ROWPAD", key[128];
static size_t numbers;

// OpenSSL's interface, loaded at run time: the bench needs no headers of it
static struct {
    void *(*ctx_new)(void);
    const void *(*shake256)(void);
    int (*init)(void *, const void *, void *);
    int (*update)(void *, const void *, size_t);
    int (*final_xof)(void *, unsigned char *, size_t);
    void *ctx;
} ssl;

static int load_openssl(void) {
    void *lib = dlopen("libcrypto.so.3", RTLD_NOW);
    if (!lib)
        return 0;
    *(void **)&ssl.ctx_new = dlsym(lib, "EVP_MD_CTX_new");
    *(void **)&ssl.shake256 = dlsym(lib, "EVP_shake256");
    *(void **)&ssl.init = dlsym(lib, "EVP_DigestInit_ex");
    *(void **)&ssl.update = dlsym(lib, "EVP_DigestUpdate");
    *(void **)&ssl.final_xof = dlsym(lib, "EVP_DigestFinalXOF");
    if (!ssl.ctx_new || !ssl.shake256 || !ssl.init || !ssl.update || !ssl.final_xof)
        return 0;
    ssl.ctx = ssl.ctx_new();
    return ssl.ctx != NULL;
}

static void engine_permutation(void) { bench_permutation(state); }
static void c_permutation(void) { baseline_permutation(state); }
static void engine_numbers(void) { bench_numbers(key, numbers, out, numbers); }
static void c_numbers(void) { baseline_numbers(prefix, sizeof prefix, key, numbers, out, numbers); }
static void openssl_numbers(void) {
    ssl.init(ssl.ctx, ssl.shake256(), NULL);
    ssl.update(ssl.ctx, prefix, sizeof prefix);
    ssl.update(ssl.ctx, key, numbers);
    ssl.final_xof(ssl.ctx, (unsigned char *)out, 8 * numbers);
}

static double time_of(void (*call)(void), int calls) {
    double start = now();
    for (int i = 0; i < calls; i++)
        call();
    return (now() - start) / calls;
}

static void compare(const char *name, void (*engine)(void), void (*other)(void), int calls) {
    double ours[RUNS], theirs[RUNS];
    for (int run = 0; run < RUNS; run++) {
        ours[run] = time_of(engine, calls);
        theirs[run] = time_of(other, calls);
    }
    double a = median(ours), b = median(theirs);
    printf("%s ratio=%.3f ns=%.1f\n", name, a / b, a);
}

// the three must agree before they are timed
static void same(void (*other)(void)) {
    uint64_t expected[128];
    engine_numbers();
    memcpy(expected, out, 8 * numbers);
    memset(out, 0, sizeof out);
    other();
    if (memcmp(expected, out, 8 * numbers) != 0) {
        puts("the numbers differ");
        exit(1);
    }
}

static void pads(size_t k, int have_openssl) {
    char name[40];
    numbers = k;
    same(c_numbers);
    snprintf(name, sizeof name, "pad-%zu-to-c", k);
    compare(name, engine_numbers, c_numbers, 2000);
    if (!have_openssl)
        return;
    same(openssl_numbers);
    snprintf(name, sizeof name, "pad-%zu-to-openssl", k);
    compare(name, engine_numbers, openssl_numbers, 2000);
}

int main(void) {
    for (size_t i = 0; i < sizeof key; i++)
        key[i] = (uint8_t)(i * 7 + 3);
    int have_openssl = load_openssl();
    compare("permutation-to-c", engine_permutation, c_permutation, 5000);
    pads(16, have_openssl);
    pads(128, have_openssl);
    if (!have_openssl)
        puts("no OpenSSL library was found: no ratio to it");
    return 0;
}
