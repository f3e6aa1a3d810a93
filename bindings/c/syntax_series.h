/* A series of edits with bookmarks that follow, proved, for C. Link crates/syntax_series/out/libsyntax_series.a (`rt lib` in crates/syntax_series), by itself or beside the other two;
 * nothing else is needed. Work memory, choices and the numbers of a batch's refusals are the editor's: syntax_edit.h.
 *
 * The memory of a series is two buffers of the caller's, which are handed to every call:
 *  - the tree, bytes laid out as in a batch: two sizes (elements, text bytes), kinds, measures (32-bit little-endian words), text; 8 + 8 * elements + text bytes in all;
 *  - the bookmarks, words: their count, then SYNTAX_SLOT words for each: its number, how many child numbers its path has, and those (SYNTAX_LONGEST_PATH at most). A path is the
 *    child number at each step down from the root, whose own path is empty.
 * Beyond that each buffer holds anything.
 *
 * syntax_series_start judges the memory and writes nothing. Each syntax_series_follow edits a batch whose tree 0 is the tree of the memory, and leaves there the new tree and the
 * bookmarks that survive, in their order, each with its path of now: a bookmark goes with its element, and is dropped with it; a replaced root drops all (even by itself), and no
 * bookmark follows a mapping or a copy. While only these calls write the memory, a number that was dropped never comes back.
 *
 * A batch has at most 2,048 elements, and a new tree may have 4,096: once the tree of the memory has more than 2,048, every later batch is refused (22).
 *
 * Who owns what: the caller owns every buffer. Nothing is allocated and nothing is kept after a call returns. A call has no precondition but that lent buffers do not
 * overlap and that each has the length that is passed with it, whatever they hold.
 *
 * What is promised, for every content and every length: the answer; the batch is only read, and by syntax_series_start the memory too; the result holds the answer and beyond it
 * what it held, the memory the new tree and the bookmarks and beyond them what it held; after a refusal result and memory hold all that they held; every work slice is all zeros
 * when the call returns.
 *
 * Not proved: how much stack a call takes. */
#ifndef SYNTAX_SERIES_H
#define SYNTAX_SERIES_H

#include <stddef.h>
#include <stdint.h>

#include "syntax_edit.h"

#ifdef __cplusplus
extern "C" {
#endif

/* The length of the work slice of syntax_series_start, in words; a longer slice is fine, a shorter one is refused (1). */
enum { SYNTAX_START_ROWS = 12288 };

/* The memory: the most bytes of a tree, the most bookmarks, the words of each, the most child numbers of its path, and the words of all. */
enum {
    SYNTAX_MOST_TREE = 49160,
    SYNTAX_MOST_BOOKMARKS = 256,
    SYNTAX_SLOT = 65,
    SYNTAX_LONGEST_PATH = 63,
    SYNTAX_BOOKMARK_WORDS = 1 + SYNTAX_SLOT * SYNTAX_MOST_BOOKMARKS
};

/* Refusals, in the order in which they are checked: SYNTAX_EDGE and SYNTAX_STRONGER (17, 18; not by a first call), SYNTAX_SHORT_WORK (1); then of the memory 3, 4, 5, 20 and 21 as
 * said here; then of the batch SYNTAX_SHORT_BATCH to SYNTAX_NAME (2 to 7, with 16 right after 6), 22, SYNTAX_OVERLAP to SYNTAX_LARGE (8 to 12), and 13. */
enum {
    SYNTAX_MEMORY_SIZE = 3,         /* the tree has more than 2,048 elements (of a later call 4,096) or more than 16,384 bytes of text */
    SYNTAX_MEMORY_LENGTH = 4,       /* a buffer of the memory is too short for its sizes (the tree's then before 3) or for what they state */
    SYNTAX_MEMORY_SPELLING = 5,     /* the elements do not spell one tree */
    SYNTAX_BOOKMARKS = 20,          /* there are more than 256 bookmarks, or a number is given twice */
    SYNTAX_ASTRAY = 21,             /* a bookmark's path finds no element of the tree, or is longer than its slot */
    SYNTAX_ANOTHER_TREE = 22,       /* the batch's tree 0 is not the tree of the memory, the one that the batch before left */
    SYNTAX_SHORT_MEMORY = 13        /* the result buffer is too short, or the tree's buffer cannot hold the new tree */
};

/* Whether a series may begin with this tree and these bookmarks: 0, or a refusal (1, 3, 4, 5, 20, 21) with a minus. The last slice is work memory. */
int64_t syntax_series_start(
    const uint8_t *tree, size_t tree_length,
    const uint32_t *bookmarks, size_t bookmarks_length,
    uint32_t *rows, size_t rows_length);

/* Edits the tree of the memory by a batch, and moves the bookmarks: the length of the answer that now stands at the start of the result, or a refusal (1 to 13, 16 to 18, 20 to
 * 22) with a minus. The last nine slices are work memory, as for syntax_edit. */
int64_t syntax_series_follow(
    uint64_t edge, uint64_t stronger,
    const uint8_t *batch, size_t batch_length,
    uint8_t *tree, size_t tree_length,
    uint32_t *bookmarks, size_t bookmarks_length,
    uint8_t *result, size_t result_length,
    uint32_t *table, size_t table_length,
    uint32_t *source, size_t source_length,
    uint32_t *changes, size_t changes_length,
    uint32_t *notes, size_t notes_length,
    uint32_t *incoming, size_t incoming_length,
    uint32_t *changed, size_t changed_length,
    uint32_t *marks, size_t marks_length,
    uint32_t *rows, size_t rows_length,
    uint32_t *prepared, size_t prepared_length);

/* The memory of a series with room for every tree and the most bookmarks, 113 KiB; the caller writes the first tree and its bookmarks. */
typedef struct syntax_series {
    uint8_t tree[SYNTAX_MOST_TREE];
    uint32_t bookmarks[SYNTAX_BOOKMARK_WORDS];
} syntax_series;

/* The slot of bookmark i: its number, how many child numbers its path has, those. */
static inline uint32_t *syntax_bookmark(syntax_series *s, size_t i)
{
    return s->bookmarks + 1 + SYNTAX_SLOT * i;
}

/* The two calls over one struct of memory and the editor's work memory. */
static inline int64_t syntax_series_start_with(syntax_work *w, const syntax_series *s)
{
    return syntax_series_start(s->tree, SYNTAX_MOST_TREE, s->bookmarks, SYNTAX_BOOKMARK_WORDS, w->rows, SYNTAX_ROWS);
}

static inline int64_t syntax_series_follow_with(syntax_work *w, syntax_series *s, uint64_t edge, uint64_t stronger, const uint8_t *batch, size_t batch_length,
    uint8_t *result, size_t result_length)
{
    return syntax_series_follow(edge, stronger, batch, batch_length, s->tree, SYNTAX_MOST_TREE, s->bookmarks, SYNTAX_BOOKMARK_WORDS, result, result_length,
        w->table, SYNTAX_TABLE, w->source, SYNTAX_SOURCE, w->changes, SYNTAX_CHANGES, w->notes, SYNTAX_NOTES, w->incoming, SYNTAX_INCOMING,
        w->changed, SYNTAX_CHANGED, w->marks, SYNTAX_MARKS, w->rows, SYNTAX_ROWS, w->prepared, SYNTAX_PREPARED);
}

#ifdef __cplusplus
}
#endif

#endif
