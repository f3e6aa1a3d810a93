/* The proved checker of another editor's output, for C. Link crates/syntax_check/out/libsyntax_check.a (`rt lib` in crates/syntax_check), by itself or beside libsyntax_edit.a;
 * nothing else is needed.
 *
 * A claim is an old tree, a new tree, pairs of kept elements (an old number and a new one each) and changed elements (new numbers). A tree is its elements in
 * preorder, of each its kind (a node's with bit 31) and its measure (children of a node, text bytes of a token), and its text. Elements are numbered from 0, the root.
 *
 * A claim is accepted exactly if
 *  - the roots are paired;
 *  - no element is paired twice;
 *  - paired elements have equal kinds and, for tokens, equal text;
 *  - paired elements other than the roots have parents that are a pair;
 *  - paired siblings stand in the same order in both trees;
 *  - every unpaired new element is at or below a changed one, and no paired one is.
 *
 * Who owns what: the caller owns every buffer. Nothing is allocated and nothing is kept after a call returns. A call has no precondition but that lent buffers do not
 * overlap (the lists, which are only read, may overlap one another) and that each has the length that is passed with it, whatever they hold.
 *
 * What is promised, for every content and every length: the answer; the lists are only read; every work slice is all zeros when the call returns.
 *
 * Not proved: how much stack a call takes. */
#ifndef SYNTAX_CHECK_H
#define SYNTAX_CHECK_H

#include <stddef.h>
#include <stdint.h>

#ifdef __cplusplus
extern "C" {
#endif

/* Lengths of the work slices, in words; a longer slice is fine, a shorter one is refused (1). */
enum {
    SYNTAX_CLAIM_OLD = 16384,
    SYNTAX_CLAIM_NEW = 16384,
    SYNTAX_CLAIM_PARTNERS = 4096,
    SYNTAX_CLAIM_MARKS = 4096
};

/* What is answered of a claim that is not refused. */
enum { SYNTAX_REJECTED = 0, SYNTAX_ACCEPTED = 1 };

/* Refusals, in the order in which they are checked. The call returns one of these with a minus. */
enum {
    SYNTAX_CLAIM_SHORT_WORK = 1,    /* a work slice is too short */
    SYNTAX_CLAIM_SIZE = 3,          /* a tree has more than 4,096 kinds or measures, or more than 16,384 bytes of text */
    SYNTAX_CLAIM_LENGTH = 4,        /* lists in step differ in length: kinds and measures of a tree, or the two lists of pairs */
    SYNTAX_CLAIM_SPELLING = 5,      /* the elements do not spell one tree, first the old ones, then the new ones */
    SYNTAX_CLAIM_NAME = 19          /* a pair or a changed element names no element of its tree */
};

/* Checks a claim: SYNTAX_ACCEPTED, SYNTAX_REJECTED, or a refusal with a minus. syntax_claim says what each list holds; the last four slices are work memory. */
int64_t syntax_check(
    const uint32_t *old_kinds, size_t old_kinds_length,
    const uint32_t *old_measures, size_t old_measures_length,
    const uint8_t *old_text, size_t old_text_length,
    const uint32_t *new_kinds, size_t new_kinds_length,
    const uint32_t *new_measures, size_t new_measures_length,
    const uint8_t *new_text, size_t new_text_length,
    const uint32_t *olds, size_t olds_length,
    const uint32_t *news, size_t news_length,
    const uint32_t *changed, size_t changed_length,
    uint32_t *old_elements, size_t old_elements_length,
    uint32_t *new_elements, size_t new_elements_length,
    uint32_t *partners, size_t partners_length,
    uint32_t *marks, size_t marks_length);

/* A tree as lists. */
typedef struct syntax_flat {
    const uint32_t *kinds;          /* of an element: its kind, a node's with bit 31 */
    size_t kinds_length;
    const uint32_t *measures;       /* children of a node, text bytes of a token */
    size_t measures_length;
    const uint8_t *text;
    size_t text_length;
} syntax_flat;

/* What an editor claims. Lists in step: olds and news. */
typedef struct syntax_claim {
    syntax_flat before;             /* the old tree */
    syntax_flat after;              /* the new tree */
    const uint32_t *olds;           /* of a kept element: its number in the old tree */
    size_t olds_length;
    const uint32_t *news;           /* .. and in the new one */
    size_t news_length;
    const uint32_t *changed;        /* numbers in the new tree */
    size_t changed_length;
} syntax_claim;

/* All work memory of the checker, 160 KiB in four slices; static or on the heap, and one for each thread that checks at the same time. It need not be cleared. */
typedef struct syntax_check_work {
    uint32_t old_elements[SYNTAX_CLAIM_OLD];
    uint32_t new_elements[SYNTAX_CLAIM_NEW];
    uint32_t partners[SYNTAX_CLAIM_PARTNERS];
    uint32_t marks[SYNTAX_CLAIM_MARKS];
} syntax_check_work;

/* The checker over one struct of lists and one of work memory. */
static inline int64_t syntax_check_with(syntax_check_work *w, const syntax_claim *c)
{
    return syntax_check(c->before.kinds, c->before.kinds_length, c->before.measures, c->before.measures_length, c->before.text, c->before.text_length,
        c->after.kinds, c->after.kinds_length, c->after.measures, c->after.measures_length, c->after.text, c->after.text_length, c->olds, c->olds_length,
        c->news, c->news_length, c->changed, c->changed_length, w->old_elements, SYNTAX_CLAIM_OLD, w->new_elements, SYNTAX_CLAIM_NEW,
        w->partners, SYNTAX_CLAIM_PARTNERS, w->marks, SYNTAX_CLAIM_MARKS);
}

#ifdef __cplusplus
}
#endif

#endif
