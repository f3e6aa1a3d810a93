/* The calls on a series of edits. The input: how many bytes of bookmarks, those; how many bytes of tree, those, if the tree is not to be the batch's; a batch. */
#include <string.h>

#include "fuzz.h"

/* A number, how many child numbers, those, a byte each: a slot, whose other words are the fill. A path too long for its slot is stated, and cut. */
static void bookmark(struct input *in, uint32_t *slot)
{
    slot[0] = take_byte(in);
    slot[1] = take_byte(in);
    for (size_t i = 0; i < slot[1] && i < SYNTAX_LONGEST_PATH; i++)
        slot[2 + i] = take_byte(in);
}

/* With OWN the tree is the batch's first: but for one byte, where the number is not needed for the slice's length and is not 0. */
static struct input tree_in(const struct head *head, struct input *in)
{
    static uint8_t tree[SYNTAX_MOST_TREE];
    if (!(head->flags & OWN))
        return take(in, take_half(in));
    struct input own = { tree, first_tree(*in, tree) };
    if (head->number != 0 && !(head->flags & EXACT))
        tree[head->number % own.left] ^= 1;
    return own;
}

/* 0 the tree, 1 the bookmarks. With EXACT the tree's slice is that much longer than the tree. The other ends with the last bookmark; with APART it is a word shorter, and with MANY one more is stated than
 * may be, and has room. */
static void lay_out_memory(struct call *call, enum use use, struct input *in)
{
    static uint32_t words[SYNTAX_BOOKMARK_WORDS + SYNTAX_SLOT];
    memset(words, call->fill, sizeof words);
    struct input told = take(in, take_byte(in));
    words[0] = 0;
    while (told.left != 0)
        bookmark(&told, words + 1 + SYNTAX_SLOT * words[0]++);
    struct input tree = tree_in(&call->head, in);
    lend_bytes(call, use, call->head.flags & EXACT ? tree.left + call->head.number : SYNTAX_MOST_TREE, tree);
    words[0] = call->head.flags & MANY ? SYNTAX_MOST_BOOKMARKS + 1 : words[0];
    size_t length = 1 + SYNTAX_SLOT * words[0];
    lend_words(call, use, length - (call->head.flags & APART ? 1 : 0), (struct input){ (uint8_t *)words, 4 * length });
}

/* 2 work. */
static void lay_out_first(struct call *call, struct input in)
{
    const size_t needed[] = { SYNTAX_START_ROWS };
    lay_out_memory(call, READ, &in);
    lend_work(call, needed, 1, 0);
}

/* 2 to 10 work, 11 the batch, 12 the result. */
static void lay_out_later(struct call *call, struct input in)
{
    lay_out_memory(call, MEMORY, &in);
    lend_editor_work(call);
    lend_bytes(call, READ, in.left, in);
    lend_answer(call, SYNTAX_MOST_ANSWER);
}

/* Of the tree all beyond what it states is as it was, and of the bookmarks too, and in each slot the words beyond the path. */
static void left(const struct call *call, enum who who)
{
    struct input tree = { call->slices[0].lent[who], 8 };
    const uint32_t *now = (const void *)call->slices[1].lent[who], *before = call->slices[1].content;
    size_t n = take_word(&tree), b = take_word(&tree);
    as_it_was(call, 0, who, 8 + 8 * n + b);
    as_it_was(call, 1, who, 4 * (1 + (size_t)SYNTAX_SLOT * now[0]));
    for (size_t i = 0; i < now[0]; i++) {
        size_t at = 1 + SYNTAX_SLOT * i, path = now[at + 1];
        if (path > SYNTAX_LONGEST_PATH || memcmp(now + at + 2 + path, before + at + 2 + path, 4 * (SYNTAX_LONGEST_PATH - path)) != 0)
            differs("a slot beyond its path is not as it was");
    }
}

static int64_t start(const struct call *call, enum who who)
{
    return ASKED(syntax_series_start)(BYTES(0), WORDS(1), WORDS(2));
}

static int64_t follow(const struct call *call, enum who who)
{
    return ASKED(syntax_series_follow)(call->head.choices % 3, call->head.choices / 3 % 3, BYTES(11), BYTES(0), WORDS(1), BYTES(12), EDITOR_WORK(2));
}

const struct sort series[2] = {
    { "series_start", lay_out_first, start, NULL, "accepted", NULL, 0 },
    { "series_follow", lay_out_later, follow, left, "answered", NULL, 0 },
};
