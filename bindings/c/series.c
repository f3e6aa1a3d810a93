/* A series of edits on root(a, b) with a bookmark on each element: prints after each call what it told and where the bookmarks are, and ends with status 1 if a work slice
 * that was full of a pattern is not all zeros after a call, or if a refusal changed the memory or the result. Its batches are written by libsyntax_edit.a. */
#include <inttypes.h>
#include <stdio.h>
#include <stdlib.h>
#include <string.h>

#include "syntax_series.h"

#define NODE 0x80000000u
#define LIST(name, list) .name = list, .name##_length = sizeof(list) / sizeof *(list)

static syntax_work work;
static syntax_series memory, before;
static uint8_t batch[SYNTAX_MOST_BATCH], result[SYNTAX_MOST_ANSWER];

static void fail(const char *why)
{
    printf("%s\n", why);
    exit(1);
}

/* The bookmarks 7 on the root, 5 on b and 3 on a, in this order. (Words stand in memory as in a batch: x86-64 is little-endian.) */
static void begin(void)
{
    static const uint32_t tree[] = {3, 2, NODE | 1, 2, 3, 2, 1, 1}, numbers[] = {7, 5, 3}, child[] = {0, 1, 0};
    memcpy(memory.tree, tree, sizeof tree);
    memcpy(memory.tree + sizeof tree, "ab", 2);
    memory.bookmarks[0] = 3;
    for (size_t i = 0; i < 3; i++) {
        uint32_t *slot = syntax_bookmark(&memory, i);
        slot[0] = numbers[i];
        slot[1] = i > 0;
        slot[2] = child[i];
    }
}

/* A batch of one call on the tree of the memory, with a further tree that lends the token c, the last element. */
static size_t build(uint32_t operation, uint32_t target)
{
    uint32_t sizes[2], kinds[16], measures[16];
    uint8_t text[16];
    memcpy(sizes, memory.tree, sizeof sizes);
    const size_t n = sizes[0], lists = operation != 3;
    memcpy(kinds, memory.tree + 8, 4 * n);
    memcpy(measures, memory.tree + 8 + 4 * n, 4 * n);
    memcpy(text, memory.tree + 8 + 8 * n, sizes[1]);
    kinds[n] = NODE | 1, kinds[n + 1] = 4;
    measures[n] = measures[n + 1] = 1;
    text[sizes[1]] = 'c';
    const uint32_t operations[] = {operation}, counts[] = {(uint32_t)lists}, rules[] = {0}, targets[] = {target};
    const uint32_t listed[] = {(uint32_t)n + (operation != 2)};    /* the root is replaced by a root */
    const syntax_lists it = {
        .trees = 2, .kinds = kinds, .kinds_length = n + 2, .measures = measures, .measures_length = n + 2, .text = text, .text_length = sizes[1] + 1,
        LIST(operations, operations), LIST(counts, counts), LIST(rules, rules), LIST(targets, targets), .listed = listed, .listed_length = lists
    };
    const int64_t length = syntax_write_static(&it, batch, sizeof batch);
    if (length < 0)
        fail("the writer refuses");
    return (size_t)length;
}

static void full(void)
{
    memset(&work, 0xa5, sizeof work);
    memset(result, 0x5a, sizeof result);
    before = memory;
}

/* A call of `start` is lent `rows` alone. */
static void cleared(const void *from, size_t bytes)
{
    for (const uint8_t *at = from; bytes > 0; bytes--)
        if (*at++ != 0)
            fail("a work slice is not zeros");
}

static void say(const char *what, int64_t told)
{
    printf("%s: %s %" PRId64, what, told < 0 ? "refused" : "told", told < 0 ? -told : told);
    for (size_t i = 0; i < sizeof result && told < 0; i++)
        if (result[i] != 0x5a)
            fail(": the result is written");
    if (told <= 0 && memcmp(&memory, &before, sizeof memory) != 0)
        fail(": the memory is written");
    for (size_t i = 0; i < memory.bookmarks[0]; i++) {
        const uint32_t *slot = syntax_bookmark(&memory, i);
        printf(" %" PRIu32 "=", slot[0]);
        for (size_t j = 0; j < slot[1]; j++)
            printf("/%" PRIu32, slot[2 + j]);
    }
    printf("\n");
}

static void start(const char *what)
{
    full();
    const int64_t told = syntax_series_start_with(&work, &memory);
    cleared(work.rows, sizeof work.rows);
    say(what, told);
}

/* A later call; its tree has so many bytes. */
static void follow(const char *what, size_t length, size_t room)
{
    full();
    const int64_t told = syntax_series_follow(SYNTAX_EDGE_BY_OFFSET, SYNTAX_STRONGER_OFF, batch, length, memory.tree, room, memory.bookmarks, SYNTAX_BOOKMARK_WORDS,
        result, sizeof result, work.table, SYNTAX_TABLE, work.source, SYNTAX_SOURCE, work.changes, SYNTAX_CHANGES, work.notes, SYNTAX_NOTES, work.incoming,
        SYNTAX_INCOMING, work.changed, SYNTAX_CHANGED, work.marks, SYNTAX_MARKS, work.rows, SYNTAX_ROWS, work.prepared, SYNTAX_PREPARED);
    cleared(&work, sizeof work);
    say(what, told);
}

int main(void)
{
    begin();
    start("root(a, b)");
    follow("c after a, in a byte too few", build(1, 1), 8 + 8 * 4 + 2);
    follow("c after a", build(1, 1), SYNTAX_MOST_TREE);
    follow("a batch cut short", build(1, 1) - 1, SYNTAX_MOST_TREE);
    size_t length = build(3, 1);
    follow("a deleted", length, SYNTAX_MOST_TREE);
    follow("on a tree that is gone", length, SYNTAX_MOST_TREE);
    length = build(2, 0);
    full();
    say("the root replaced", syntax_series_follow_with(&work, &memory, SYNTAX_EDGE_BY_TREE, SYNTAX_STRONGER_FIRST, batch, length, result, sizeof result));
    begin();
    syntax_bookmark(&memory, 2)[0] = 5;
    start("5 twice");
    begin();
    syntax_bookmark(&memory, 1)[2] = 2;
    start("no child 2");
    follow("of a later call too", build(3, 1), SYNTAX_MOST_TREE);
    return 0;
}
