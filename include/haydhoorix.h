/*
 * Haydhoorix: a garbage collector for canal lock stations.
 *
 * It moves nothing, builds its free list while it marks, and works only in words that the caller lends. Every call takes
 * any content and any length, and answers 0 or the number of a refusal; none supposes that its caller looked first.
 *
 * Link with libfirmware.a: `hosts/archive` proves the code and writes it to target/staticlib, for x86-64. This header says what
 * the Rattle source of crates/firmware_c promises; no tool compares the two.
 *
 * What no proof covers, and the caller must see to:
 *   - a pointer is valid for its length, counted in words of 32 bits, and stands at a multiple of 4 bytes; with a length
 *     of 0 it is not looked at, and may be null;
 *   - the words lent are initialised, whatever their values are;
 *   - buffers that are lent to one call do not overlap, unless both are `const` there;
 *   - nothing else reads or writes them while the call runs.
 *
 * A first use, in a heap of 512 words with a keep length of 2 (hosts/calendar.c is a whole program):
 *
 *     static uint32_t heap[512], map[16], stack[255], list[510], roots[1];    the figures: hx_map_words(512, 2) = 16, ...
 *     uint32_t state[HX_STATE_WORDS], made[HX_ALLOT_WORDS], found[HX_COLLECT_WORDS];
 *
 *     code = hx_set_up(heap, 512, 2, map, 16, list, 510, state, 3);           an empty heap
 *     code = hx_allot(state, 3, heap, 512, map, 16, list, 510, 4, 1, made, 1); an object of 4 words: header, 1 reference,
 *     roots[0] = made[HX_ADDRESS];                                            2 data fields, all 0
 *     code = hx_write(state, 3, heap, 512, map, 16, roots[0], 1, 29);         field 1, its first data field, is now 29
 *     code = hx_collect(state, 3, heap, 512, roots, 1, map, 16, stack, 255, list, 510, found, 5);
 */
#ifndef HAYDHOORIX_H
#define HAYDHOORIX_H

#include <stddef.h>
#include <stdint.h>

#ifdef __cplusplus
extern "C" {
#endif

/* Limits: a heap has 1 to HX_MAX_WORDS words, a keep length is 1 to HX_MAX_KEEP, a root list has 0 to HX_MAX_ROOTS. */
#define HX_MAX_WORDS 65536u
#define HX_MAX_KEEP 65535u
#define HX_MAX_ROOTS 65536u

/* What a call answers: HX_DONE, or the number of a refusal. */
enum hx_code {
    HX_DONE = 0,
    HX_OUT_OF_LIMITS = 1, /* heap, keep length or root list out of the limits, or the state's H is not the heap's length */
    HX_TOO_SHORT = 2,     /* a buffer that the call uses is shorter than needed */
    HX_BAD_LIST = 3,      /* the state's count is above the room, or a listed interval cannot be */
    HX_BAD_ADDRESS = 4,   /* collect: a reference that is neither 0 nor 1 to H-1 */
    HX_BAD_HEADER = 5,    /* a header that is not well-formed */
    HX_OVERLAP = 6,       /* collect: an object that overlaps one that was met before */
    HX_BAD_SIZE = 7,      /* allot: fewer words than T, more than 65,535, or no fewer references than words */
    HX_NO_ROOM = 8,       /* allot: no listed interval has the words */
    HX_NO_OBJECT = 9,     /* read, write: no object starts at the address */
    HX_NO_FIELD = 10,     /* read, write: the object has no such field */
    HX_NO_TARGET = 11     /* write: a reference field given neither 0 nor the address of an object */
};

/*
 * The state is three words that the caller keeps and lends: H, the heap's length; T, the keep length; and the count of
 * listed intervals. hx_set_up writes it, hx_collect and hx_allot change its count.
 */
enum hx_state { HX_STATE_HEAP = 0, HX_STATE_KEEP = 1, HX_STATE_COUNT = 2, HX_STATE_WORDS = 3 };

/* An answer is some words that the caller lends. A refusal sets them to 0, but for HX_WHERE after 4, 5 and 6. */
enum hx_collected { HX_WHERE = 0, HX_OBJECTS = 1, HX_LIVE = 2, HX_REFERENCES = 3, HX_PEAK = 4, HX_COLLECT_WORDS = 5 };
enum hx_allotted { HX_ADDRESS = 0, HX_ALLOT_WORDS = 1 };
enum hx_reading { HX_VALUE = 0, HX_READ_WORDS = 1 };
enum hx_surveyed { HX_LISTED = 0, HX_LARGEST = 1, HX_FRAGMENT = 2, HX_SURVEY_WORDS = 3 };

/*
 * A state or an answer that is lent with fewer words gives HX_TOO_SHORT before anything else is looked at, and nothing is
 * changed. Words behind the needed part of any buffer are neither read nor written. A refusal changes no buffer but the
 * answer, with two exceptions that stand at hx_set_up and hx_collect.
 *
 * In what follows H is the heap's length in words and T the keep length; an object is a header, with its size in the low 16
 * bits and its count of references in the high 16, and then its fields, numbered from 0, the references first.
 */

/*
 * Room figures: how many words of map, stack and list to lend for a heap of `words` words with keep length `keep`. Out of
 * the limits each figure is 0. The map's figure is 0 only then; the stack's and the list's are also 0 for a heap in which
 * no object fits.
 */
uint32_t hx_map_words(uint32_t words, uint32_t keep);
uint32_t hx_stack_words(uint32_t words, uint32_t keep);
uint32_t hx_list_words(uint32_t words, uint32_t keep);

/*
 * Sets a heap up with no object on it: clears map and list, lists all words but word 0 if they are at least T, and writes
 * the state. The heap is not written.
 * Refusals: HX_OUT_OF_LIMITS, HX_TOO_SHORT (map, list). Both set the state's three words to 0.
 */
uint32_t hx_set_up(const uint32_t *heap, size_t heap_words, uint32_t keep, uint32_t *map, size_t map_words, uint32_t *list,
                   size_t list_words, uint32_t *state, size_t state_words);

/*
 * Finds all objects that the roots reach, and makes map and list anew: the map has just these objects, the list every
 * longest run of words outside them that has at least T words, by address. Heap and roots are not written; what map, stack,
 * list and the state's count held before does not matter. The stack is clear afterwards.
 * Answer: HX_WHERE 0, objects found, live words (their sizes added), references read, and the most intervals listed at once.
 * Refusals: HX_OUT_OF_LIMITS, HX_TOO_SHORT (map, stack, list), then for the first reference at fault in marking order
 * HX_BAD_ADDRESS, HX_BAD_HEADER or HX_OVERLAP: these put the reference in HX_WHERE, clear the needed parts of map, stack
 * and list, and set the state's count to 0. A collection succeeds exactly when all that is reached is well-formed and no
 * two objects overlap.
 */
uint32_t hx_collect(uint32_t *state, size_t state_words, const uint32_t *heap, size_t heap_words, const uint32_t *roots,
                    size_t root_count, uint32_t *map, size_t map_words, uint32_t *stack, size_t stack_words, uint32_t *list,
                    size_t list_words, uint32_t *answer, size_t answer_words);

/*
 * A new object of `size` words, header included, whose first `references` fields are references; all its fields are 0. It
 * takes the front of the first listed interval that has the words; a remainder shorter than T is dropped from the list.
 * Answer: its address. A caller that wants to keep it through a collection names it in the roots or in an object.
 * Refusals: HX_OUT_OF_LIMITS, HX_TOO_SHORT (map, list), HX_BAD_LIST, HX_BAD_SIZE, HX_NO_ROOM.
 */
uint32_t hx_allot(uint32_t *state, size_t state_words, uint32_t *heap, size_t heap_words, uint32_t *map, size_t map_words,
                  uint32_t *list, size_t list_words, uint32_t size, uint32_t references, uint32_t *answer,
                  size_t answer_words);

/*
 * The word in field `field` of the object at `address`.
 * Refusals: HX_OUT_OF_LIMITS, HX_TOO_SHORT (map), HX_NO_OBJECT, HX_BAD_HEADER, HX_NO_FIELD.
 */
uint32_t hx_read(const uint32_t *state, size_t state_words, const uint32_t *heap, size_t heap_words, const uint32_t *map,
                 size_t map_words, uint32_t address, uint32_t field, uint32_t *answer, size_t answer_words);

/*
 * Stores `value` in field `field` of the object at `address`. In a reference field it must be 0 or the address of an object
 * on the map.
 * Refusals: HX_OUT_OF_LIMITS, HX_TOO_SHORT (map), HX_NO_OBJECT, HX_BAD_HEADER, HX_NO_FIELD, HX_NO_TARGET.
 */
uint32_t hx_write(const uint32_t *state, size_t state_words, uint32_t *heap, size_t heap_words, const uint32_t *map,
                  size_t map_words, uint32_t address, uint32_t field, uint32_t value);

/*
 * Figures of the free list: listed words, words of the largest interval, and the fragment figure, 1000 - floor(1000 x
 * largest / listed), or 0 where nothing is listed.
 * Refusals: HX_OUT_OF_LIMITS, HX_TOO_SHORT (list), HX_BAD_LIST.
 */
uint32_t hx_survey(const uint32_t *state, size_t state_words, const uint32_t *list, size_t list_words, uint32_t *answer,
                   size_t answer_words);

#ifdef __cplusplus
}
#endif

#endif
