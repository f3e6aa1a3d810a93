/* The writer, and the load of a starting number. */
#include "fuzz.h"

enum { LISTS = 12, MOST_CALLS = 300 };

/* The destination, then three work slices. */
static void lay_out_rest(struct call *call)
{
    const size_t needed[] = { SYNTAX_DRAFT, SYNTAX_TABLE, SYNTAX_SOURCE };
    lend_answer(call, SYNTAX_MOST_BATCH);
    lend_work(call, needed, 3, 1);
}

/* Operations, counts and rule numbers of call words. One of the last may be more than its part of a call word holds, which no call word says. */
static size_t split(struct input words, uint8_t beyond, uint32_t operations[], uint32_t counts[], uint32_t rules[])
{
    size_t calls = words.left / 4;
    for (size_t i = 0; i < calls; i++) {
        uint32_t word = take_word(&words), last = i + 1 == calls;
        operations[i] = word % 256 + (last && beyond & 1 ? 256 : 0);
        counts[i] = word / 256 % 4096 + (last && beyond & 2 ? 4096 : 0);
        rules[i] = word / 1048576 + (last && beyond & 4 ? 4096 : 0);
    }
    return calls;
}

/* Whatever the sizes of a batch say, its lists are as long as there is input. The number's low byte names a list that is an item shorter. */
static void lay_out_lists(struct call *call, struct input in)
{
    static uint32_t operations[MOST_CALLS], counts[MOST_CALLS], rules[MOST_CALLS];
    struct input sizes = take(&in, 28);
    call->number = take_word(&sizes);
    size_t elements = take_word(&sizes), text = take_word(&sizes), calls = take_word(&sizes), listed = take_word(&sizes), mappings = take_word(&sizes), notes = take_word(&sizes);
    struct input kinds = take(&in, 4 * elements), measures = take(&in, 4 * elements), words = take(&in, 4 * (calls < MOST_CALLS ? calls : MOST_CALLS));
    struct input targets = take(&in, 4 * calls), of_calls = take(&in, 4 * listed), inputs = take(&in, 4 * mappings), outputs = take(&in, 4 * mappings);
    struct input noted = take(&in, 4 * notes), numbers = take(&in, 4 * notes), bytes = take(&in, text);
    size_t split_calls = 4 * split(words, call->head.number >> 8, operations, counts, rules);
    const struct input lists[LISTS] = {
        kinds, measures, bytes, { (uint8_t *)operations, split_calls }, { (uint8_t *)counts, split_calls }, { (uint8_t *)rules, split_calls },
        targets, of_calls, inputs, outputs, noted, numbers,
    };
    for (int k = 0; k < LISTS; k++) {
        size_t unit = k == 2 ? 1 : 4, length = lists[k].left / unit;
        length -= length != 0 && call->head.number % 16 == k + 1;
        (unit == 1 ? lend_bytes : lend_words)(call, READ, length, lists[k]);
    }
    lay_out_rest(call);
}

static int64_t write_batch(const struct call *call, enum who who)
{
    return ASKED(syntax_write)(call->number, WORDS(0), WORDS(1), BYTES(2), WORDS(3), WORDS(4), WORDS(5), WORDS(6), WORDS(7), WORDS(8), WORDS(9), WORDS(10), WORDS(11),
        BYTES(12), BYTES(13), WORDS(14), WORDS(15));
}

static void lay_out_start(struct call *call, struct input in)
{
    call->number = take_word(&in);
    lay_out_rest(call);
}

static int64_t load(const struct call *call, enum who who)
{
    return ASKED(syntax_load)(call->number, BYTES(0), BYTES(1), WORDS(2), WORDS(3));
}

const struct sort writers[2] = {
    { "write", lay_out_lists, write_batch, NULL, "written", NULL, 0 },
    { "load", lay_out_start, load, NULL, "written", NULL, 0 },
};
