/* Times calls on numbers and steps in JSON by the library, each as the least of nine rounds, in microseconds a call.
 *
 *     cc -O2 -Iinclude -o library bench/library.c crates/nm_library/out/lib/libnumatrace.a && ./library
 */
#define _POSIX_C_SOURCE 200809L
#include <numatrace.h>
#include <stdio.h>
#include <string.h>
#include <time.h>

#define PAGES 1000
#define TIMES 100000
#define ADDRESS(k) (65536 + 4096 * (uint64_t)((k) % PAGES))

static const char top[] = "{\"version\":1,\"machine\":{\"nodes\":[4000,4000],\"distance\":[[10,20],[20,10]]}}";
static const char step[] = "{\"op\":\"read\",\"pid\":1,\"addr\":65536,\"len\":8}";
static const char *const names[] = {"read of 8 bytes", "write of 8 bytes", "query of a page", "move of a page", "read in JSON"};
static numatrace_session machine = NUMATRACE_NO_SESSION;

static double now(void)
{
    struct timespec at;

    clock_gettime(CLOCK_MONOTONIC, &at);
    return (double)at.tv_sec * 1e6 + (double)at.tv_nsec / 1e3;
}

static int32_t call(int kind, int k, uint32_t node)
{
    const numatrace_asking asking = {1, 0, 2};
    const uint64_t page = ADDRESS(k);
    uint8_t bytes[64] = {0};
    int32_t status;
    size_t count;

    switch (kind) {
    case 0: return numatrace_read(&machine, 1, page, bytes, 8);
    case 1: return numatrace_write(&machine, 1, page, bytes, 8);
    case 2: return numatrace_query(&machine, &asking, &page, 1, &status, 1);
    case 3: return numatrace_move_pages(&machine, &asking, &page, 1, &node, 1, &status, 1, &count);
    default: return numatrace_step(&machine, (const uint8_t *)step, strlen(step), bytes, sizeof bytes, &count);
    }
}

int main(void)
{
    double least, took;
    uint32_t segment;
    int kind, round, k;

    if (numatrace_open(&machine, (const uint8_t *)top, strlen(top)) || numatrace_spawn(&machine, 1, 1, 0, 3, false)
        || numatrace_map(&machine, 1, ADDRESS(0), PAGES, false, &segment))
        return 1;
    for (k = 0; k < PAGES; k++)
        call(1, k, 0);
    for (kind = 0; kind < 5; kind++) {
        for (round = 0, least = 1e9; round < 9; round++) {
            took = now();
            for (k = 0; k < TIMES; k++)
                if (call(kind, k, (uint32_t)(1 - (k / PAGES) % 2)))
                    return 1;
            took = (now() - took) / TIMES;
            if (took < least)
                least = took;
        }
        printf("%-18s %.3f\n", names[kind], least);
    }
    numatrace_close(&machine);
    return 0;
}
