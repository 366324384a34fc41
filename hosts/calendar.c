/*
 * A station's use of the collector: lends buffers, builds the February of a leap year, and collects. The month refers to its
 * days, and a day holds its lockages; 29 February hangs on one field of the month. Once that field is 0 the next collection
 * gives the day's words back. Ends with 1 if a call is refused that should not be.
 */
#include "haydhoorix.h"

#include <inttypes.h>
#include <stdio.h>
#include <stdlib.h>

enum { HEAP = 128, KEEP = 2, DAYS = 29, MAP = 4, STACK = 63, LIST = 126 };

/* What the station lends. */
static uint32_t heap[HEAP], map[MAP], stack[STACK], list[LIST], state[HX_STATE_WORDS];

/* Ends the program if a call was refused. */
static void must(const char *call, uint32_t code)
{
    if (code != HX_DONE) {
        printf("%s was refused with %" PRIu32 "\n", call, code);
        exit(1);
    }
}

/* The buffers are as long as the collector asks. */
static void must_fit(void)
{
    if (hx_map_words(HEAP, KEEP) != MAP || hx_stack_words(HEAP, KEEP) != STACK || hx_list_words(HEAP, KEEP) != LIST) {
        printf("the room figures are others\n");
        exit(1);
    }
}

static uint32_t allot(uint32_t size, uint32_t references)
{
    uint32_t made[HX_ALLOT_WORDS];

    must("allot", hx_allot(state, HX_STATE_WORDS, heap, HEAP, map, MAP, list, LIST, size, references, made, HX_ALLOT_WORDS));
    return made[HX_ADDRESS];
}

static void store(uint32_t address, uint32_t field, uint32_t value)
{
    must("write", hx_write(state, HX_STATE_WORDS, heap, HEAP, map, MAP, address, field, value));
}

static uint32_t load(uint32_t address, uint32_t field)
{
    uint32_t got[HX_READ_WORDS];

    must("read", hx_read(state, HX_STATE_WORDS, heap, HEAP, map, MAP, address, field, got, HX_READ_WORDS));
    return got[HX_VALUE];
}

/* A month of 29 days; each day has one data field. */
static uint32_t february(void)
{
    const uint32_t month = allot(1 + DAYS, DAYS);

    for (uint32_t day = 0; day < DAYS; day++) {
        const uint32_t at = allot(2, 0);

        store(at, 0, 40 + day);
        store(month, day, at);
    }
    return month;
}

/* Collects what the one root reaches, and prints what was found and what is free. */
static void collect(const char *when, uint32_t root)
{
    uint32_t found[HX_COLLECT_WORDS], free_words[HX_SURVEY_WORDS];

    must("collect", hx_collect(state, HX_STATE_WORDS, heap, HEAP, &root, 1, map, MAP, stack, STACK, list, LIST, found,
                               HX_COLLECT_WORDS));
    must("survey", hx_survey(state, HX_STATE_WORDS, list, LIST, free_words, HX_SURVEY_WORDS));
    printf("%s: %" PRIu32 " objects, %" PRIu32 " live words, %" PRIu32 " references read; %" PRIu32
           " words free, the largest interval has %" PRIu32 "\n",
           when, found[HX_OBJECTS], found[HX_LIVE], found[HX_REFERENCES], free_words[HX_LISTED], free_words[HX_LARGEST]);
}

/* Clears the one field that refers to 29 February, and shows that the day is gone. */
static void cut(uint32_t month, uint32_t leap_day)
{
    uint32_t got[HX_READ_WORDS];

    store(month, DAYS - 1, 0);
    collect("its field cleared", month);
    printf("a read of the day is answered with %" PRIu32 "\n",
           hx_read(state, HX_STATE_WORDS, heap, HEAP, map, MAP, leap_day, 0, got, HX_READ_WORDS));
}

/* Damages the month's header, and shows what a collection then answers. */
static void damage(uint32_t month)
{
    uint32_t found[HX_COLLECT_WORDS];

    heap[month] = 0;
    const uint32_t code = hx_collect(state, HX_STATE_WORDS, heap, HEAP, &month, 1, map, MAP, stack, STACK, list, LIST, found,
                                     HX_COLLECT_WORDS);
    printf("with the month's header damaged a collection is answered with %" PRIu32 ", for the reference %" PRIu32 "\n", code,
           found[HX_WHERE]);
}

int main(void)
{
    must_fit();
    must("set-up", hx_set_up(heap, HEAP, KEEP, map, MAP, list, LIST, state, HX_STATE_WORDS));

    const uint32_t month = february();
    const uint32_t leap_day = load(month, DAYS - 1);

    collect("with 29 February", month);
    printf("29 February is the object at %" PRIu32 " and has %" PRIu32 " lockages\n", leap_day, load(leap_day, 0));
    cut(month, leap_day);
    damage(month);
    return 0;
}
