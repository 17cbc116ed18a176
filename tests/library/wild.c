/* Makes random calls with wrong and edge arguments: each returns a status, and writes nothing past its room (AddressSanitizer of this
 * program watches the rooms, which are blocks of their own). Its argument is the number of calls. Prints how many had each kind of status. */
#include <numatrace.h>
#include <stdio.h>
#include <stdlib.h>
#include <string.h>

static uint64_t state = 87;

static uint64_t drawn(void)
{
    state ^= state << 13;
    state ^= state >> 7;
    state ^= state << 17;
    return state;
}

static uint64_t below(uint64_t n)
{
    return drawn() % n;
}

/* A number that is small, at an edge, or anything. */
static uint64_t number(void)
{
    static const uint64_t edges[] = {
        0, 1, 2, 63, 64, 4095, 4096, 65535, 65536, 16383, 16384, UINT32_MAX, UINT64_C(1) << 47, UINT64_MAX, UINT64_MAX - 4095,
    };

    switch (below(4)) {
    case 0: return edges[below(sizeof edges / sizeof *edges)];
    case 1: return drawn();
    default: return below(4);
    }
}

static uint64_t place(void)
{
    return below(5) ? 65536 + 4096 * below(8) : number();
}

static const char *const texts[] = {
    "{\"version\":1,\"machine\":{\"nodes\":[8,8],\"distance\":[[10,20],[20,10]]}}", "{\"op\":\"free\",\"node\":0}", "{}", "", "[", "nul",
    "{\"version\":1,\"machine\":{\"nodes\":[],\"distance\":[]}}", "{\"op\":\"spawn\",\"pid\":1,\"uid\":1,\"home\":0,\"allowed\":[0,1]}",
    "{\"op\":\"move_pages\",\"caller\":1,\"pid\":0,\"pages\":[65536],\"nodes\":[1],\"flags\":2}", "{\"op\":\"free\",\"node\":-1}", "\xff",
};

/* A block of its own for each room, so that what lies past it is poisoned. */
static void *room(size_t count, size_t size)
{
    void *block = malloc(count ? count * size : 1);

    if (block == NULL)
        exit(2);
    memset(block, 1, count * size);
    return block;
}

static int32_t step(numatrace_session *session)
{
    const char *text = texts[below(sizeof texts / sizeof *texts)];
    size_t length = strlen(text), size = below(40), needed = 0;
    uint8_t *given = room(length, 1), *lines = room(size, 1);
    int32_t status;

    memcpy(given, text, length);
    if (length && !below(8))
        given[below(length)] = (uint8_t)drawn();
    switch (below(6)) {
    case 0: status = numatrace_open(session, given, length); break;
    case 1: status = numatrace_run(given, length, lines, size, &needed); break;
    case 2: status = numatrace_lines(session, lines, size, &needed); break;
    case 3: status = numatrace_numa_maps(session, (uint32_t)number(), lines, size, &needed); break;
    default: status = numatrace_step(session, given, length, lines, size, &needed);
    }
    free(given);
    free(lines);
    return status;
}

static int32_t moves(numatrace_session *session)
{
    size_t count = below(6), others = below(3) ? count : below(6), told = below(3) ? count : below(6), k, failed = 0;
    uint64_t *pages = room(count, sizeof *pages);
    uint32_t *nodes = room(others, sizeof *nodes);
    int32_t *statuses = room(told, sizeof *statuses), status;
    numatrace_asking asking = {(uint32_t)number(), (uint32_t)number(), (uint32_t)number()};
    numatrace_binding binding = {place(), number(), number(), (uint32_t)number(), (uint32_t)number(), (uint32_t)number()};

    for (k = 0; k < count; k++)
        pages[k] = place();
    for (k = 0; k < others; k++)
        nodes[k] = (uint32_t)number();
    switch (below(4)) {
    case 0: status = numatrace_query(session, &asking, pages, count, statuses, told); break;
    case 1: status = numatrace_mbind(session, &binding); break;
    case 2: status = numatrace_migrate_pages(session, (uint32_t)number(), (uint32_t)number(), number(), number(), &failed); break;
    default: status = numatrace_move_pages(session, &asking, pages, count, nodes, others, statuses, told, &failed);
    }
    free(pages);
    free(nodes);
    free(statuses);
    return status;
}

static int32_t lists(numatrace_session *session)
{
    size_t count = below(12), needed = 0;
    uint16_t *frames = room(count, sizeof *frames);
    numatrace_entry *entries = room(count, sizeof *entries);
    uint8_t *bytes = room(count, 1);
    uint64_t totals[2];
    int32_t status;

    switch (below(5)) {
    case 0: status = numatrace_free_list(session, (uint32_t)number(), frames, count, &needed); break;
    case 1: status = numatrace_pagemap(session, (uint32_t)number(), entries, count, &needed); break;
    case 2: status = numatrace_vmstat(session, &totals[0], &totals[1]); break;
    case 3: status = numatrace_read(session, (uint32_t)number(), place(), bytes, count); break;
    default: status = numatrace_write(session, (uint32_t)number(), place(), bytes, count);
    }
    free(frames);
    free(entries);
    free(bytes);
    return status;
}

static int32_t others(numatrace_session *session)
{
    uint32_t segment;

    switch (below(9)) {
    case 0: return numatrace_spawn(session, (uint32_t)number(), (uint32_t)number(), (uint32_t)number(), number(), below(2));
    case 1: return below(4) ? 0 : numatrace_exit(session, (uint32_t)number());
    case 2: return numatrace_map(session, (uint32_t)number(), place(), number(), below(2), &segment);
    case 3: return numatrace_attach(session, (uint32_t)number(), place(), number(), number(), number());
    case 4: return numatrace_unmap(session, (uint32_t)number(), place(), number());
    case 5: return numatrace_pin(session, (uint32_t)number(), place());
    case 6: return numatrace_unpin(session, (uint32_t)number(), place());
    case 7: return below(4) ? 0 : numatrace_offline(session, (uint32_t)number());
    default: return numatrace_online(session, (uint32_t)number());
    }
}

/* Opens a session with a process and an area, so that calls have something to do. */
static void begin(numatrace_session *session)
{
    uint32_t segment, k;

    numatrace_open(session, (const uint8_t *)texts[0], strlen(texts[0]));
    numatrace_spawn(session, 1, 1, 0, 3, true);
    numatrace_map(session, 1, 65536, 6, true, &segment);
    for (k = 0; k < 4; k++)
        numatrace_write(session, 1, 65536 + 4096 * k, (const uint8_t *)"a", 1);
}

int main(int count, char **words)
{
    numatrace_session session = NUMATRACE_NO_SESSION;
    long k, calls = count > 1 ? atol(words[1]) : 100000, told[3] = {0, 0, 0};
    int32_t status;

    for (k = 0; k < calls; k++) {
        if (k % 500 == 0) {
            numatrace_close(&session);
            if (k % 2500)
                begin(&session);
        }
        switch (below(4)) {
        case 0: status = step(&session); break;
        case 1: status = moves(&session); break;
        case 2: status = lists(&session); break;
        default: status = others(&session);
        }
        if (status < -22 || status > 5 || status == NUMATRACE_NO_MEMORY)
            return printf("call %ld: status %d\n", k, (int)status), 1;
        told[status > 0 ? 2 : status < 0]++;
    }
    numatrace_close(&session);
    printf("%ld done, %ld refused, %ld with another status\n", told[0], told[1], told[2]);
    return !(told[0] && told[1] && told[2]);
}
