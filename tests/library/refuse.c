/* Makes calls on the library where each allocation in turn is refused: linked with --wrap for malloc and realloc. A call to which memory
 * is refused returns NUMATRACE_NO_MEMORY and leaves the machine as it was, or makes do and answers as ever. Prints how many allocations
 * were refused, and ends with 0 where all is well. */
#include <numatrace.h>
#include <stdio.h>
#include <stdlib.h>
#include <string.h>

/* How many allocations are granted before one is refused; none is refused while it is negative. */
static long left = -1;
static int was_refused;

void *__real_malloc(size_t size);
void *__real_realloc(void *block, size_t size);

static int refuses(void)
{
    if (left < 0 || left-- > 0)
        return 0;
    was_refused = 1;
    return 1;
}

void *__wrap_malloc(size_t size)
{
    return refuses() ? NULL : __real_malloc(size);
}

void *__wrap_realloc(void *block, size_t size)
{
    return refuses() ? NULL : __real_realloc(block, size);
}

#define ROOM 65536
static const char top[] =
    "{\"version\":2,\"run_limit\":2,\"machine\":{\"nodes\":[40,40,8],\"distance\":[[10,20,30],[20,10,20],[30,20,10]]}}";
static const char trace[] =
    "{\"version\":1,\"machine\":{\"nodes\":[4,4],\"distance\":[[10,20],[20,10]]},\"steps\":[{\"op\":\"spawn\",\"pid\":1,\"uid\":1,\"home\":0,"
    "\"allowed\":[0,1]},{\"op\":\"map\",\"pid\":1,\"addr\":65536,\"pages\":2},{\"op\":\"write\",\"pid\":1,\"addr\":65536,\"data\":\"61\"},"
    "{\"op\":\"move_pages\",\"caller\":1,\"pid\":0,\"pages\":[65536],\"nodes\":[1],\"flags\":2},{\"op\":\"free\",\"node\":1}]}";
static const char look[] = "{\"op\":\"numa_maps\",\"pid\":1}";
static const char write_c[] = "{\"op\":\"write\",\"pid\":1,\"addr\":90112,\"data\":\"63\"}";
static const uint64_t pages[] = {65536, 69632, 73728, 77824};
static numatrace_session machine = NUMATRACE_NO_SESSION;

/* What is seen of the machine: the processes' entries and areas, the free lists and the totals. */
static size_t seen(uint8_t *bytes)
{
    numatrace_entry entries[256];
    uint16_t frames[256];
    size_t length = 0, needed;
    uint64_t totals[2];
    uint32_t k;
    long kept = left;

    left = -1;
    for (k = 0; k < 4; k++) {
        if (numatrace_numa_maps(&machine, k, bytes + length, ROOM - length, &needed) == 0)
            length += needed;
        if (numatrace_pagemap(&machine, k, entries, sizeof entries / sizeof *entries, &needed) == 0) {
            memcpy(bytes + length, entries, needed * sizeof *entries);
            length += needed * sizeof *entries;
        }
        if (numatrace_free_list(&machine, k, frames, sizeof frames / sizeof *frames, &needed) == 0) {
            memcpy(bytes + length, frames, needed * sizeof *frames);
            length += needed * sizeof *frames;
        }
    }
    if (numatrace_vmstat(&machine, &totals[0], &totals[1]) == 0) {
        memcpy(bytes + length, totals, sizeof totals);
        length += sizeof totals;
    }
    left = kept;
    return length;
}

/* One of the calls, and what it answered. */
static int32_t call(int number, int32_t *answer)
{
    static const uint32_t there[] = {1, 1, 2, 1}, back[] = {0, 0, 0, 0};
    numatrace_asking asking = {1, 0, 2};
    numatrace_binding binding = {65536, 8192, 6, 1, 3, 3};
    uint8_t lines[256];
    uint16_t frames[64];
    numatrace_entry entries[64];
    uint32_t segment = 0;
    size_t count = 0;
    int32_t status, *statuses = answer + 1;

    memset(answer, 0, 8 * sizeof *answer);
    switch (number) {
    case 0: return numatrace_open(&machine, (const uint8_t *)top, strlen(top));
    case 1: return numatrace_spawn(&machine, 1, 7, 0, 7, true);
    case 2:
        status = numatrace_map(&machine, 1, pages[0], 20, true, &segment);
        *answer = (int32_t)segment;
        return status;
    case 3: return numatrace_write(&machine, 1, pages[0], (const uint8_t *)"a", 1);
    case 4: return numatrace_write(&machine, 1, pages[1], (const uint8_t *)"b", 1);
    case 5: return numatrace_read(&machine, 1, pages[2], (uint8_t *)answer, 3);
    case 6: return numatrace_write(&machine, 1, pages[3], (const uint8_t *)"d", 1);
    case 7: return numatrace_spawn(&machine, 2, 7, 1, 3, false);
    case 8: return numatrace_attach(&machine, 2, 1 << 20, 0, 0, 4);
    case 9: return numatrace_read(&machine, 2, 1 << 20, (uint8_t *)answer, 1);
    case 10:
        status = numatrace_move_pages(&machine, &asking, pages, 4, there, 4, statuses, 4, &count);
        *answer = (int32_t)count;
        return status;
    case 11:
        asking.flags = 4;
        status = numatrace_move_pages(&machine, &asking, pages, 2, there, 2, statuses, 2, &count);
        *answer = (int32_t)count;
        return status;
    case 12: status = numatrace_query(&machine, &asking, pages, 4, statuses, 4); return status;
    case 13: return numatrace_mbind(&machine, &binding);
    case 14:
        status = numatrace_migrate_pages(&machine, 1, 0, 6, 1, &count);
        *answer = (int32_t)count;
        return status;
    case 15: return numatrace_pin(&machine, 1, pages[0]);
    case 16:
        status = numatrace_free_list(&machine, 0, frames, 64, &count);
        *answer = (int32_t)count;
        return status;
    case 17:
        status = numatrace_pagemap(&machine, 1, entries, 64, &count);
        *answer = (int32_t)count;
        return status;
    case 18:
        status = numatrace_numa_maps(&machine, 1, lines, 256, &count);
        *answer = (int32_t)count;
        return status;
    case 19:
        status = numatrace_step(&machine, (const uint8_t *)look, strlen(look), lines, 256, &count);
        *answer = (int32_t)count;
        return status;
    case 20: return numatrace_unpin(&machine, 1, pages[0]);
    case 21: return numatrace_unmap(&machine, 1, pages[1], 1);
    case 22: return numatrace_offline(&machine, 1);
    case 23: return numatrace_online(&machine, 1);
    case 24:
        asking.flags = 4;
        status = numatrace_move_pages(&machine, &asking, pages, 4, back, 4, statuses, 4, &count);
        *answer = (int32_t)count;
        return status;
    case 25: return numatrace_exit(&machine, 2);
    case 26:
        status = numatrace_run((const uint8_t *)trace, strlen(trace), lines, 256, &count);
        *answer = (int32_t)count;
        return status;
    case 27:
        status = numatrace_step(&machine, (const uint8_t *)write_c, strlen(write_c), lines, 256, &count);
        *answer = (int32_t)count;
        return status;
    default: return -1000;
    }
}

/* The calls of which a part may remain where memory is refused: the first runs of those that move pages in several, the policy of mbind,
 * and the call of a step. */
static int may_go_on(int number)
{
    return number == 10 || number == 11 || number == 13 || number == 14 || number == 22 || number == 24 || number == 27;
}

/* A machine after the calls before this one, with no memory refused. */
static void begin(int number)
{
    int32_t answer[8];
    int k;

    numatrace_close(&machine);
    for (k = 0; k < number; k++)
        call(k, answer);
}

int main(void)
{
    static uint8_t before[ROOM], after[ROOM], wanted_after[ROOM];
    int32_t wanted[8], answer[8], status, wanted_status;
    size_t length, wanted_length;
    long number, nth, refused = 0;

    for (number = 0; number < 28; number++) {
        begin((int)number);
        wanted_status = call((int)number, wanted);
        wanted_length = seen(wanted_after);
        for (nth = 0;; nth++) {
            begin((int)number);
            length = seen(before);
            was_refused = 0;
            left = nth;
            status = call((int)number, answer);
            left = -1;
            if (!was_refused)
                break;
            refused++;
            if (status == NUMATRACE_NO_MEMORY) {
                if (!may_go_on((int)number) && (seen(after) != length || memcmp(before, after, length) != 0))
                    return printf("call %ld, allocation %ld: the machine has changed\n", number, nth), 1;
                if (may_go_on((int)number))
                    continue;
                status = call((int)number, answer);
            }
            if (status != wanted_status || memcmp(answer, wanted, sizeof wanted) != 0)
                return printf("call %ld, allocation %ld: status %d in place of %d\n", number, nth, (int)status, (int)wanted_status), 1;
            if (seen(after) != wanted_length || memcmp(after, wanted_after, wanted_length) != 0)
                return printf("call %ld, allocation %ld: another machine\n", number, nth), 1;
        }
        if (wanted_status < 0)
            return printf("call %ld is refused: %d\n", number, (int)wanted_status), 1;
    }
    numatrace_close(&machine);
    printf("%ld allocations refused\n", refused);
    return 0;
}
