/* The checker: of a claim as its program reads it, or of the library's own output of a batch, in which one item is changed, or with an element more. */
#include <string.h>

#include "fuzz.h"

/* The lists of a claim, as the call takes them, and how long each item is. */
enum { OLD_KINDS, OLD_MEASURES, OLD_TEXT, NEW_KINDS, NEW_MEASURES, NEW_TEXT, OLDS, NEWS, CHANGED, LISTS };
static size_t unit(int list) { return list == OLD_TEXT || list == NEW_TEXT ? 1 : 4; }

/* Whatever the sizes say, the lists are as long as there is input. */
static void claim_in(struct input in, struct input lists[LISTS])
{
    const int sized[] = { OLD_KINDS, OLD_MEASURES, OLD_TEXT, NEW_KINDS, NEW_MEASURES, NEW_TEXT, OLDS, CHANGED };
    const int in_order[LISTS] = { OLD_KINDS, OLD_MEASURES, NEW_KINDS, NEW_MEASURES, OLDS, NEWS, CHANGED, OLD_TEXT, NEW_TEXT };
    size_t lengths[LISTS];
    struct input sizes = take(&in, 32);
    for (int k = 0; k < 8; k++)
        lengths[sized[k]] = unit(sized[k]) * take_word(&sizes);
    lengths[NEWS] = lengths[OLDS];
    for (int k = 0; k < LISTS; k++)
        lists[in_order[k]] = take(&in, lengths[in_order[k]]);
}

/* Whether the library accepts the batch, and then what it may claim. A claim that is refused tells little, and one that is right by chance is rare. */
static int own(const struct head *head, struct input batch, struct input lists[LISTS])
{
    static syntax_work work;
    static uint8_t tree[SYNTAX_MOST_TREE], answer[SYNTAX_MOST_ANSWER];
    static uint32_t olds[SYNTAX_MOST_KEPT], news[SYNTAX_MOST_KEPT];
    uint64_t edge = head->choices % 3, stronger = head->choices / 3 % 3;
    int64_t length = syntax_edit_with(&work, edge, stronger, batch.at, batch.left, answer, sizeof answer);
    int64_t pairs = syntax_kept_lists(&work, edge, stronger, batch.at, batch.left, olds, news, SYNTAX_MOST_KEPT);
    if (length < 0 || pairs < 0)
        return 0;
    struct input before = { tree, first_tree(batch, tree) }, after = { answer, (size_t)length };
    size_t n = take_word(&before), b = take_word(&before), m = take_word(&after), t = take_word(&after), changed = take_word(&after), notes = take_word(&after);
    take(&after, 8);
    lists[OLD_KINDS] = take(&before, 4 * n), lists[OLD_MEASURES] = take(&before, 4 * n), lists[OLD_TEXT] = take(&before, b);
    lists[NEW_KINDS] = take(&after, 4 * m), lists[NEW_MEASURES] = take(&after, 4 * m), lists[CHANGED] = take(&after, 4 * changed);
    take(&after, 4 * (changed + 2 * notes));
    lists[NEW_TEXT] = take(&after, t);
    lists[OLDS] = (struct input){ (uint8_t *)olds, 4 * (size_t)pairs };
    lists[NEWS] = (struct input){ (uint8_t *)news, 4 * (size_t)pairs };
    return 1;
}

/* A copy of a list, in which an item is another where the number tells one of this list; 0 tells none. */
static struct input changed_in(const struct head *head, int list, struct input from)
{
    static uint8_t copy[65536];
    size_t items = from.left / unit(list), at = items ? head->number / LISTS % items : 0;
    if (head->number == 0 || head->number % LISTS != list || from.left > sizeof copy || !items)
        return from;
    memcpy(copy, from.at, from.left);
    copy[at * unit(list)] = head->room % 256;
    return (struct input){ copy, from.left };
}

/* A copy of a list of words with one more. */
static struct input one_more(struct input from, uint32_t word)
{
    static uint8_t copy[65536 + 4];
    if (from.left > 65536)
        return from;
    memcpy(copy, from.at, from.left);
    memcpy(copy + from.left, &word, 4);
    return (struct input){ copy, from.left + 4 };
}

/* 0 to 8 the lists, 9 to 12 work. With MORE one more element is claimed to be changed, with APART the new numbers of pairs are one fewer than the old ones, and with MANY the new text is longer than any
 * may be. */
static void lay_out(struct call *call, struct input in)
{
    const size_t needed[] = { SYNTAX_CLAIM_OLD, SYNTAX_CLAIM_NEW, SYNTAX_CLAIM_PARTNERS, SYNTAX_CLAIM_MARKS };
    struct input lists[LISTS];
    int ours = call->head.flags & OWN && own(&call->head, in, lists);
    if (!ours)
        claim_in(in, lists);
    if (call->head.flags & MORE)
        lists[CHANGED] = one_more(lists[CHANGED], call->head.room);
    for (int k = 0; k < LISTS; k++) {
        struct input list = ours ? changed_in(&call->head, k, lists[k]) : lists[k];
        size_t length = list.left / unit(k);
        length -= k == NEWS && length != 0 && call->head.flags & APART;
        length += k == NEW_TEXT && call->head.flags & MANY ? 16385 : 0;
        (unit(k) == 1 ? lend_bytes : lend_words)(call, READ, length, list);
    }
    lend_work(call, needed, 4, 0);
}

static int64_t check(const struct call *call, enum who who)
{
    return ASKED(syntax_check)(WORDS(0), WORDS(1), BYTES(2), WORDS(3), WORDS(4), BYTES(5), WORDS(6), WORDS(7), WORDS(8), WORDS(9), WORDS(10), WORDS(11), WORDS(12));
}

const struct sort checks[1] = { { "check", lay_out, check, NULL, "accepted", "rejected", SYNTAX_REJECTED } };
