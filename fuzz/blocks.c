/*
 * Shows libFuzzer which basic blocks of the archive are met, though the archive is built without instrumentation. A breakpoint (int3)
 * stands on the first byte of every block; when one is met its byte is put back and the block's counter set, so libFuzzer keeps the input
 * that met it. A block costs one signal in a whole run and nothing afterwards. Which edge led to it, and how often it is met, is not seen.
 *
 * LUPIKNAM_BLOCKS names a file of addresses in hexadecimal, ascending, that fuzz/run makes; without it nothing is watched. LUPIKNAM_UNMET
 * names a file to write the addresses that were never met to. x86-64 Linux; the program is linked at fixed addresses.
 */
#define _GNU_SOURCE
#include <signal.h>
#include <stdint.h>
#include <stdio.h>
#include <stdlib.h>
#include <sys/mman.h>
#include <ucontext.h>
#include <unistd.h>

enum { MOST_BLOCKS = 1 << 14, INT3 = 0xCC };

__attribute__((section("__libfuzzer_extra_counters"))) static uint8_t met[MOST_BLOCKS];
static struct {
    uint8_t *at, byte;
} blocks[MOST_BLOCKS];
static size_t count, reached;

static size_t index_of(const uint8_t *at) {
    size_t low = 0, high = count;
    while (low < high) {
        size_t middle = (low + high) / 2;
        if (blocks[middle].at < at)
            low = middle + 1;
        else
            high = middle;
    }
    return low;
}

static void on_trap(int number, siginfo_t *info, void *context) {
    greg_t *next = &((ucontext_t *)context)->uc_mcontext.gregs[REG_RIP];
    uint8_t *at = (uint8_t *)*next - 1;
    size_t i = index_of(at);
    (void)number, (void)info;
    if (i == count || blocks[i].at != at || *at != INT3)
        abort(); // a trap of the archive's own
    *at = blocks[i].byte;
    met[i] = 1;
    reached++;
    *next = (greg_t)at;
}

static void report(void) {
    const char *path = getenv("LUPIKNAM_UNMET");
    FILE *unmet = path ? fopen(path, "w") : NULL;
    fprintf(stderr, "blocks of the archive met: %zu of %zu\n", reached, count);
    for (size_t i = 0; unmet && i < count; i++)
        if (*blocks[i].at == INT3)
            fprintf(unmet, "%llx\n", (unsigned long long)(uintptr_t)blocks[i].at);
    if (unmet)
        fclose(unmet);
}

static void read_blocks(FILE *list) {
    unsigned long long address;
    while (fscanf(list, "%llx", &address) == 1) {
        if (count == MOST_BLOCKS) {
            fputs("more blocks than MOST_BLOCKS\n", stderr);
            exit(2);
        }
        blocks[count].at = (uint8_t *)(uintptr_t)address;
        blocks[count].byte = *blocks[count].at;
        count++;
    }
}

__attribute__((constructor)) static void watch(void) {
    const char *path = getenv("LUPIKNAM_BLOCKS");
    FILE *list = path ? fopen(path, "r") : NULL;
    struct sigaction action = {.sa_sigaction = on_trap, .sa_flags = SA_SIGINFO};
    if (!list)
        return;
    read_blocks(list);
    fclose(list);
    if (count == 0)
        return;
    uintptr_t page = (uintptr_t)sysconf(_SC_PAGESIZE), from = (uintptr_t)blocks[0].at / page * page;
    uintptr_t to = (uintptr_t)blocks[count - 1].at + 1;
    if (sigaction(SIGTRAP, &action, NULL) != 0 || mprotect((void *)from, to - from, PROT_READ | PROT_WRITE | PROT_EXEC) != 0) {
        perror("breakpoints");
        exit(2);
    }
    for (size_t i = 0; i < count; i++)
        *blocks[i].at = INT3;
    atexit(report);
}
