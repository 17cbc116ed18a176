/* Moves two pages to another node, by calls on numbers.
 *
 *     cc -Iinclude -o machine examples/library/machine.c crates/nm_library/out/lib/libnumatrace.a
 */
#include <numatrace.h>
#include <stdio.h>
#include <string.h>

/* Two nodes of four frames each: node 0 owns frames 0 to 3, node 1 frames 4 to 7. */
static const char top[] = "{\"version\":1,\"machine\":{\"nodes\":[4,4],\"distance\":[[10,20],[20,10]]}}";
static const char look[] = "{\"op\":\"free\",\"node\":0}";
static const uint64_t pages[] = {65536, 69632};

int main(void)
{
    numatrace_session machine = NUMATRACE_NO_SESSION;
    const numatrace_asking asking = {1, 0, 2};
    const uint32_t nodes[] = {1, 1}, none[] = {7};
    uint32_t segment;
    int32_t statuses[2];
    size_t failed, length;
    uint8_t byte, lines[64];

    if (numatrace_open(&machine, (const uint8_t *)top, strlen(top)) || numatrace_spawn(&machine, 1, 100, 0, 3, false)
        || numatrace_map(&machine, 1, pages[0], 2, false, &segment) || numatrace_write(&machine, 1, pages[0], (const uint8_t *)"a", 1)
        || numatrace_write(&machine, 1, pages[1], (const uint8_t *)"b", 1)
        || numatrace_move_pages(&machine, &asking, pages, 2, nodes, 2, statuses, 2, &failed))
        return 1;
    printf("failed %zu: %d %d\n", failed, (int)statuses[0], (int)statuses[1]);
    if (numatrace_read(&machine, 1, pages[1], &byte, 1))
        return 1;
    printf("read %c\n", byte);
    printf("refused: %d\n", (int)numatrace_move_pages(&machine, &asking, pages, 1, none, 1, statuses, 1, &failed));
    if (numatrace_step(&machine, (const uint8_t *)look, strlen(look), lines, sizeof lines, &length))
        return 1;
    printf("%.*s", (int)length, (const char *)lines);
    numatrace_close(&machine);
    return 0;
}
