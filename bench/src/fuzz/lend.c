/* How an input is read, and what of it is lent. */
#include <string.h>

#include "fuzz.h"

struct input take(struct input *in, size_t most)
{
    struct input taken = { in->at, most < in->left ? most : in->left };
    in->at += taken.left;
    in->left -= taken.left;
    return taken;
}

uint8_t take_byte(struct input *in)
{
    struct input byte = take(in, 1);
    return byte.left ? *byte.at : 0;
}

uint16_t take_half(struct input *in)
{
    uint8_t low = take_byte(in);
    return (uint16_t)(low + 256 * take_byte(in));
}

uint32_t take_word(struct input *in)
{
    uint16_t low = take_half(in);
    return low + 65536u * take_half(in);
}

static void lend(struct call *call, enum use use, size_t unit, size_t length, struct input content)
{
    size_t held = content.left < unit * length ? content.left : unit * length;
    call->slices[call->count++] = (struct slice){ use, unit, length, held, content.at, { NULL, NULL } };
}

void lend_bytes(struct call *call, enum use use, size_t length, struct input content)
{
    lend(call, use, 1, length, content);
}

void lend_words(struct call *call, enum use use, size_t length, struct input content)
{
    lend(call, use, 4, length, content);
}

void lend_answer(struct call *call, size_t usual)
{
    lend_bytes(call, ANSWER, call->head.flags & ROOM ? call->head.room : usual, (struct input){ NULL, 0 });
}

void lend_work(struct call *call, const size_t *needed, int count, int bytes)
{
    for (int k = 0; k < count; k++)
        lend(call, WORK, k < bytes ? 1 : 4, needed[k] - (call->head.short_work % 64 == k + 1), (struct input){ NULL, 0 });
}

void lend_editor_work(struct call *call)
{
    const size_t needed[] = {
        SYNTAX_TABLE, SYNTAX_SOURCE, SYNTAX_CHANGES, SYNTAX_NOTES, SYNTAX_INCOMING, SYNTAX_CHANGED, SYNTAX_MARKS, SYNTAX_ROWS, SYNTAX_PREPARED,
    };
    lend_work(call, needed, 9, 0);
}

size_t first_tree(struct input batch, uint8_t *tree)
{
    struct input sizes = take(&batch, 28);
    take_word(&sizes);
    size_t elements = take_word(&sizes), n = 0, b = 0, open = 1;
    take_word(&sizes);
    size_t calls = take_word(&sizes), listed = take_word(&sizes), mappings = take_word(&sizes), notes = take_word(&sizes);
    struct input kinds = take(&batch, 4 * elements), measures = take(&batch, 4 * elements), read = kinds, measured = measures;
    for (; open != 0 && n < 2048 && measured.left >= 4; n++, open--) {
        size_t node = take_word(&read) >> 31, measure = take_word(&measured);
        open += node ? measure : 0;
        b += node ? 0 : measure;
    }
    take(&batch, 4 * (2 * calls + listed + 2 * mappings + 2 * notes));
    struct input text = take(&batch, b < 16384 ? b : 16384);
    uint32_t stated[2] = { (uint32_t)n, (uint32_t)text.left };
    memcpy(tree, stated, 8);
    memcpy(tree + 8, kinds.at, 4 * n);
    memcpy(tree + 8 + 4 * n, measures.at, 4 * n);
    memcpy(tree + 8 + 8 * n, text.at, text.left);
    return 8 + 8 * n + text.left;
}
