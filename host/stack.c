/*
 * How much stack each call takes, for docs/HOST.md; no part of the gate. It plays host/round.c, host/pair.c, host/write.c and host/bundles.c
 * and makes every call on a stack that was painted before, and prints how much of the paint is gone, the most for each call, in KiB.
 * `host/stack` builds it with gcc and runs it.
 */
#include "lupiknam.h"
#include <pthread.h>
#include <stdio.h>
#include <stdlib.h>
#include <string.h>

enum { SIZE = 4 << 20, PAINT = 0xA5 };

static uint8_t stack[SIZE] __attribute__((aligned(4096)));

static void *start(void *run)
{
    (*(void (**)(void))run)();
    return NULL;
}

static void nothing(void)
{
}

/* How many bytes of the stack `run` writes to, from its upper end down to the lowest. */
static size_t depth(void (*run)(void))
{
    pthread_t thread;
    pthread_attr_t place;
    memset(stack, PAINT, SIZE);
    if (pthread_attr_init(&place) || pthread_attr_setstack(&place, stack, SIZE) || pthread_create(&thread, &place, start, &run)
        || pthread_join(thread, NULL))
        exit(2);
    size_t untouched = 0;
    while (untouched < SIZE && stack[untouched] == PAINT)
        untouched++;
    return SIZE - untouched;
}

enum { CALLS = 21 };

static struct {
    const char *name;
    size_t most;
} seen[CALLS];

static void measure(const char *name, void (*run)(void))
{
    size_t taken = depth(run) - depth(nothing), i = 0;
    while (seen[i].name && strcmp(seen[i].name, name))
        i++;
    seen[i].name = name;
    if (seen[i].most < taken)
        seen[i].most = taken;
}

/* A call of round.c, pair.c, write.c or bundles.c comes here (the linker's --wrap), and goes on to the engine's on the painted stack. */
#define WRAPPED(name, parameters, arguments)                                                                                       \
    lupiknam_answer __real_##name parameters;                                                                                      \
    lupiknam_answer __wrap_##name parameters                                                                                       \
    {                                                                                                                              \
        lupiknam_answer answer;                                                                                                    \
        void run(void)                                                                                                             \
        {                                                                                                                          \
            answer = __real_##name arguments;                                                                                      \
        }                                                                                                                          \
        measure(#name, run);                                                                                                       \
        return answer;                                                                                                             \
    }

typedef const uint8_t *in;
typedef uint8_t *out;

WRAPPED(lupiknam_read, (in f, size_t fl, uint32_t *a, uint32_t *b, uint32_t *c, uint32_t *d, uint32_t *e, uint32_t *g),
        (f, fl, a, b, c, d, e, g))
WRAPPED(lupiknam_write, (const lupiknam_record *r, size_t n, in t, size_t tl, out f, size_t fl, uint32_t *w), (r, n, t, tl, f, fl, w))
WRAPPED(lupiknam_records, (in f, size_t fl, lupiknam_record *r, size_t n, out t, size_t tl), (f, fl, r, n, t, tl))
WRAPPED(lupiknam_inputs_of, (in f, size_t fl, uint32_t n, uint32_t party, uint32_t *count), (f, fl, n, party, count))
WRAPPED(lupiknam_plain, (in f, size_t fl, in v, size_t vl, out o, size_t ol), (f, fl, v, vl, o, ol))
WRAPPED(lupiknam_garble,
        (in f, size_t fl, uint32_t n, uint32_t k, uint32_t d, uint32_t a, in c, size_t cl, out r, size_t rl, out i, size_t il, out o,
         size_t ol, lupiknam_meter *m),
        (f, fl, n, k, d, a, c, cl, r, rl, i, il, o, ol, m))
WRAPPED(lupiknam_externals, (in f, size_t fl, uint32_t n, uint32_t p, in v, size_t vl, in m, size_t ml, out e, size_t el),
        (f, fl, n, p, v, vl, m, ml, e, el))
WRAPPED(lupiknam_input_keys,
        (in f, size_t fl, uint32_t n, uint32_t k, uint32_t p, in c, size_t cl, in e, size_t el, out o, size_t ol),
        (f, fl, n, k, p, c, cl, e, el, o, ol))
WRAPPED(lupiknam_open,
        (in f, size_t fl, uint32_t n, uint32_t k, uint32_t p, uint32_t d, in c, size_t cl, in e, size_t el, in q, size_t ql, in r,
         size_t rl, out w, size_t wl, out x, size_t xl),
        (f, fl, n, k, p, d, c, cl, e, el, q, ql, r, rl, w, wl, x, xl))
WRAPPED(lupiknam_decode, (in f, size_t fl, uint32_t n, uint32_t p, in e, size_t el, in m, size_t ml, out o, size_t ol),
        (f, fl, n, p, e, el, m, ml, o, ol))

WRAPPED(lupiknam_bundle_split, (uint32_t r, uint64_t x, out o, size_t ol), (r, x, o, ol))
WRAPPED(lupiknam_bundle_join, (uint32_t r, in i, size_t il, uint64_t *x), (r, i, il, x))
WRAPPED(lupiknam_bundle_add, (uint32_t r, uint32_t d, uint32_t a, uint32_t b, out f, size_t fl, uint32_t *w), (r, d, a, b, f, fl, w))
WRAPPED(lupiknam_bundle_multiply, (uint32_t r, uint32_t d, uint32_t a, uint32_t b, out f, size_t fl, uint32_t *w), (r, d, a, b, f, fl, w))
WRAPPED(lupiknam_bundle_scale, (uint32_t r, uint32_t d, uint64_t c, uint32_t a, out f, size_t fl, uint32_t *w), (r, d, c, a, f, fl, w))

WRAPPED(lupiknam_pair_read, (in f, size_t fl, uint32_t *rows), (f, fl, rows))
WRAPPED(lupiknam_pair_garble,
        (in f, size_t fl, uint32_t k, uint32_t d, uint32_t a, in w, size_t wl, out r, size_t rl, out o, size_t ol, lupiknam_meter *m),
        (f, fl, k, d, a, w, wl, r, rl, o, ol, m))
WRAPPED(lupiknam_pair_input_keys, (in f, size_t fl, uint32_t k, in w, size_t wl, in v, size_t vl, out o, size_t ol),
        (f, fl, k, w, wl, v, vl, o, ol))
WRAPPED(lupiknam_pair_open,
        (in f, size_t fl, uint32_t k, uint32_t d, in q, size_t ql, in r, size_t rl, out w, size_t wl, out x, size_t xl),
        (f, fl, k, d, q, ql, r, rl, w, wl, x, xl))

WRAPPED(lupiknam_pair_decode, (in f, size_t fl, in e, size_t el, in m, size_t ml, out o, size_t ol), (f, fl, e, el, m, ml, o, ol))

/* The one call that returns nothing. */
void __real_lupiknam_meter_carry(uint32_t total, lupiknam_meter *meter);
void __wrap_lupiknam_meter_carry(uint32_t total, lupiknam_meter *meter)
{
    void run(void)
    {
        __real_lupiknam_meter_carry(total, meter);
    }
    measure("lupiknam_meter_carry", run);
}

int round_main(int count, char **given);
int pair_main(int count, char **given);
int write_main(int count, char **given);
int bundles_main(int count, char **given);

int main(int count, char **given)
{
    char *nowhere[] = {"write", "/dev/null", NULL}, *longest[] = {"pair", "128", "1", NULL};
    int status = round_main(count, given) | pair_main(3, longest) | write_main(2, nowhere) | bundles_main(2, nowhere);
    for (size_t i = 0; i < CALLS && seen[i].name; i++)
        printf("%s %zu KiB\n", seen[i].name, (seen[i].most + 1023) / 1024);
    return status;
}
