/* Asks for the room figures at the edges, and holds each to a written value. Ends with 1 if one differs. */
#include "haydhoorix.h"

#include <inttypes.h>
#include <stdio.h>

struct row {
    uint32_t words, keep, map, stack, list;
};

static const struct row rows[] = {
    {1, 1, 1, 0, 0},
    {2, 1, 1, 1, 2},
    {2, 2, 1, 0, 0},
    {16, 2, 1, 7, 14},
    {32, 2, 1, 15, 30},
    {33, 2, 2, 16, 32},
    {65535, 65535, 2048, 0, 0},
    {65536, 65535, 2048, 1, 2},
    {65536, 1, 2048, 65535, 131070},
    {0, 1, 0, 0, 0},
    {65537, 1, 0, 0, 0},
    {UINT32_MAX, 1, 0, 0, 0},
    {16, 0, 0, 0, 0},
    {16, 65536, 0, 0, 0},
    {16, UINT32_MAX, 0, 0, 0},
};

int main(void)
{
    const size_t count = sizeof rows / sizeof rows[0];
    size_t wrong = 0;

    for (size_t i = 0; i < count; i++) {
        const struct row r = rows[i];
        const uint32_t map = hx_map_words(r.words, r.keep);
        const uint32_t stack = hx_stack_words(r.words, r.keep);
        const uint32_t list = hx_list_words(r.words, r.keep);

        if (map != r.map || stack != r.stack || list != r.list) {
            printf("figures from C: words %" PRIu32 ", keep %" PRIu32 " gave %" PRIu32 " %" PRIu32 " %" PRIu32
                   ", written %" PRIu32 " %" PRIu32 " %" PRIu32 "\n",
                   r.words, r.keep, map, stack, list, r.map, r.stack, r.list);
            wrong++;
        }
    }
    printf("figures from C: %zu rows, %zu not as written\n", count, wrong);
    return wrong != 0;
}
