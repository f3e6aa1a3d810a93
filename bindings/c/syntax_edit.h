/* The proved editor of syntax trees, for C. Link crates/syntax_edit/out/libsyntax_edit.a (`rt lib` in crates/syntax_edit); nothing else is needed.
 *
 * A batch is bytes as document 01 lays them out: seven sizes (trees, elements, text bytes, calls, listed elements, mappings, notes), then kinds,
 * measures, call words, targets, listed elements, mapping inputs and outputs, note elements and numbers (32-bit little-endian words), then the text.
 * A call word is its operation, 256 times how many elements it lists, and 1,048,576 times the number of the rule that queued it (0 for none; SYNTAX_CALL_WORD).
 * An answer is six sizes (elements, text bytes, changed, notes, discarded changes, climb steps), kinds, measures, changed elements, the rule numbers by which
 * they were put in, note numbers, note elements, text. An account is text: what becomes of each change. Pairs are the elements of tree 0 that survive, with their numbers in the new tree.
 *
 * Who owns what: the caller owns every buffer. Nothing is allocated and nothing is kept after a call returns. A call has no precondition but that lent
 * buffers do not overlap and that each has the length that is passed with it, whatever the batch and the work memory hold.
 *
 * What is promised, for every content and every length:
 *  - the batch and the lists are only read;
 *  - the result (of the writer: the destination) holds the answer (the batch) and beyond it what it held; after a refusal it holds all that it held;
 *  - every work slice is all zeros when the call returns.
 *
 * Not proved: how much stack a call takes. 64 KiB were enough for every recorded case (crates/replay/stdin). */
#ifndef SYNTAX_EDIT_H
#define SYNTAX_EDIT_H

#include <stddef.h>
#include <stdint.h>

#ifdef __cplusplus
extern "C" {
#endif

/* Lengths of the work slices, in words; a longer slice is fine, a shorter one is refused (1). */
enum {
    SYNTAX_TABLE = 16384,
    SYNTAX_SOURCE = 6147,
    SYNTAX_CHANGES = 3840,
    SYNTAX_NOTES = 3072,
    SYNTAX_INCOMING = 3072,
    SYNTAX_CHANGED = 1024,
    SYNTAX_MARKS = 2048,
    SYNTAX_ROWS = 12291,
    SYNTAX_PREPARED = 12288
};

/* The most bytes of an answer, and of an account: a result buffer of this length is never too short. */
enum { SYNTAX_MOST_ANSWER = 65560, SYNTAX_MOST_ACCOUNT = 8192 };

/* The most elements that survive an edit; the pairs of so many have eight bytes each. */
enum { SYNTAX_MOST_KEPT = 2048 };

/* The writer's work slices: a draft of this many bytes, SYNTAX_TABLE words and SYNTAX_SOURCE words. No batch is longer than the draft. */
enum { SYNTAX_DRAFT = 49180, SYNTAX_MOST_BATCH = 49180 };

/* A rule number is at most this. A further editor's start (operation 6) has 0. */
enum { SYNTAX_MOST_RULE = 4095 };

/* A call's word, and the rule number in one. */
#define SYNTAX_CALL_WORD(operation, count, rule) ((uint32_t)(operation) + 256u * (uint32_t)(count) + 1048576u * (uint32_t)(rule))
#define SYNTAX_RULE_OF(word) ((uint32_t)(word) / 1048576u)

/* What syntax_find_element answers if there is no such element. */
enum { SYNTAX_NONE = -1000 };

/* The edge rule, which every call that edits takes first: to which replacement or run a change at its edge belongs. Any other number is refused (17). */
enum {
    SYNTAX_EDGE_BY_OFFSET = 0,  /* by text ranges, as rust-analyzer does: the usual one */
    SYNTAX_EDGE_BY_TREE = 1     /* by where elements stand: an insertion after a node is not lost with the node's last child */
};

/* Stronger rules first, which every call that edits takes right after the edge rule: whether a replacement or run leaves the batch where it overlaps a kept one of a higher
 * rule number. Any other number is refused (18). */
enum {
    SYNTAX_STRONGER_OFF = 0,    /* none leaves, and a batch in which two overlap is refused (8), as rust-analyzer does: the usual one */
    SYNTAX_STRONGER_FIRST = 1   /* the weaker ones leave before planning, and 8 concerns what is left */
};

/* Refusals. A call returns one of these with a minus. */
enum {
    SYNTAX_SHORT_WORK = 1,      /* a work slice is too short */
    SYNTAX_SHORT_BATCH = 2,     /* the batch has under 28 bytes */
    SYNTAX_SIZE = 3,            /* a size is out of its limits */
    SYNTAX_LENGTH = 4,          /* the length differs from what the sizes give */
    SYNTAX_SPELLING = 5,        /* the elements do not spell the trees */
    SYNTAX_CALL = 6,            /* a call is not well formed */
    SYNTAX_NAME = 7,            /* a mapping or a note is not well formed */
    SYNTAX_OVERLAP = 8,         /* replacements overlap */
    SYNTAX_UNMAPPED = 9,        /* a dependent call or a note cannot be mapped */
    SYNTAX_ENDLESS = 10,        /* a climb never ends */
    SYNTAX_GONE = 11,           /* a step's target is gone */
    SYNTAX_LARGE = 12,          /* the trees outgrow their limits */
    SYNTAX_SHORT_RESULT = 13,   /* the result buffer is too short */
    SYNTAX_LISTS = 14,          /* lists in step differ in length, an operation, a count or a rule number does not fit the call word, or the lists make a batch that 3 to 7 or 16 would refuse */
    SYNTAX_SHORT_DESTINATION = 15,  /* the destination is too short, checked after 14 */
    SYNTAX_LISTED = 16,         /* a call lists more than 41 elements, a run's end not counted; checked right after 6 */
    SYNTAX_EDGE = 17,           /* an edge rule other than 0 or 1; checked before 1 */
    SYNTAX_STRONGER = 18        /* the choice of stronger rules first is neither 0 nor 1; checked after 17, before 1 */
};

/* Edits by an edge rule and the choice of stronger rules first: the length of the answer that now stands at the start of the result, or a refusal with a minus. */
int64_t syntax_edit(
    uint64_t edge, uint64_t stronger,
    const uint8_t *batch, size_t batch_length,
    uint8_t *result, size_t result_length,
    uint32_t *table, size_t table_length,
    uint32_t *source, size_t source_length,
    uint32_t *changes, size_t changes_length,
    uint32_t *notes, size_t notes_length,
    uint32_t *incoming, size_t incoming_length,
    uint32_t *changed, size_t changed_length,
    uint32_t *marks, size_t marks_length,
    uint32_t *rows, size_t rows_length,
    uint32_t *prepared, size_t prepared_length);

/* The first node of the new tree, edited so, with the kind and the text start of node `number` of tree 0: its number, SYNTAX_NONE, or a refusal with a minus. */
int64_t syntax_find_element(
    uint64_t edge, uint64_t stronger,
    const uint8_t *batch, size_t batch_length,
    uint64_t number,
    uint32_t *table, size_t table_length,
    uint32_t *source, size_t source_length,
    uint32_t *changes, size_t changes_length,
    uint32_t *notes, size_t notes_length,
    uint32_t *incoming, size_t incoming_length,
    uint32_t *changed, size_t changed_length,
    uint32_t *marks, size_t marks_length,
    uint32_t *rows, size_t rows_length,
    uint32_t *prepared, size_t prepared_length);

/* Accounts for what an edit so does: the length of the text that now stands at the start of the result, or a refusal with a minus, never SYNTAX_OVERLAP. The text has a line for each
 * recorded change in sorted order: its number, from 0, then `own`, `dependent k`, `discarded k` or `withdrawn k`, k being the number of a change; or, where replacements
 * overlap, the one line `overlap j k`. */
int64_t syntax_account(
    uint64_t edge, uint64_t stronger,
    const uint8_t *batch, size_t batch_length,
    uint8_t *result, size_t result_length,
    uint32_t *table, size_t table_length,
    uint32_t *source, size_t source_length,
    uint32_t *changes, size_t changes_length,
    uint32_t *notes, size_t notes_length,
    uint32_t *incoming, size_t incoming_length,
    uint32_t *changed, size_t changed_length,
    uint32_t *marks, size_t marks_length,
    uint32_t *rows, size_t rows_length,
    uint32_t *prepared, size_t prepared_length);

/* The elements of tree 0 that survive an edit so: how many bytes their pairs have, which now stand at the start of the result, or a refusal with a minus. All old numbers stand there, rising, then all
 * numbers in the new tree, a 32-bit little-endian word each (syntax_kept_lists makes two lists of them). Where the result is too short, it is as it was. */
int64_t syntax_kept(
    uint64_t edge, uint64_t stronger,
    const uint8_t *batch, size_t batch_length,
    uint8_t *result, size_t result_length,
    uint32_t *table, size_t table_length,
    uint32_t *source, size_t source_length,
    uint32_t *changes, size_t changes_length,
    uint32_t *notes, size_t notes_length,
    uint32_t *incoming, size_t incoming_length,
    uint32_t *changed, size_t changed_length,
    uint32_t *marks, size_t marks_length,
    uint32_t *rows, size_t rows_length,
    uint32_t *prepared, size_t prepared_length);

/* The share of the new text that is rewritten, edited so, as one number: 65,536 for each whole thousandth and the remainder of the division,
 * which is exact (SYNTAX_THOUSANDTHS, SYNTAX_REMAINDER); or a refusal with a minus. There is no result slice. */
int64_t syntax_share(
    uint64_t edge, uint64_t stronger,
    const uint8_t *batch, size_t batch_length,
    uint32_t *table, size_t table_length,
    uint32_t *source, size_t source_length,
    uint32_t *changes, size_t changes_length,
    uint32_t *notes, size_t notes_length,
    uint32_t *incoming, size_t incoming_length,
    uint32_t *changed, size_t changed_length,
    uint32_t *marks, size_t marks_length,
    uint32_t *rows, size_t rows_length,
    uint32_t *prepared, size_t prepared_length);

/* The thousandths of a share, and its remainder, from the number that tells it. */
#define SYNTAX_THOUSANDTHS(share) ((uint32_t)((share) / 65536))
#define SYNTAX_REMAINDER(share) ((uint32_t)((share) % 65536))

/* Writes a batch from its lists: its length, or a refusal (1, 14 or 15) with a minus. syntax_lists says what each list holds. */
int64_t syntax_write(
    size_t trees,
    const uint32_t *kinds, size_t kinds_length,
    const uint32_t *measures, size_t measures_length,
    const uint8_t *text, size_t text_length,
    const uint32_t *operations, size_t operations_length,
    const uint32_t *counts, size_t counts_length,
    const uint32_t *rules, size_t rules_length,
    const uint32_t *targets, size_t targets_length,
    const uint32_t *listed, size_t listed_length,
    const uint32_t *inputs, size_t inputs_length,
    const uint32_t *outputs, size_t outputs_length,
    const uint32_t *noted, size_t noted_length,
    const uint32_t *numbers, size_t numbers_length,
    uint8_t *destination, size_t destination_length,
    uint8_t *draft, size_t draft_length,
    uint32_t *table, size_t table_length,
    uint32_t *source, size_t source_length);

/* Writes the load of a starting number (docs/LOAD.md): its length, at most SYNTAX_MOST_LOAD, or a refusal (1 or 15) with a minus. */
enum { SYNTAX_MOST_LOAD = 8632 };
int64_t syntax_load(
    uint32_t start,
    uint8_t *destination, size_t destination_length,
    uint8_t *draft, size_t draft_length,
    uint32_t *table, size_t table_length,
    uint32_t *source, size_t source_length);

/* All work memory, 235 KiB in nine slices; static or on the heap, and one for each thread that edits at the same time. It need not be cleared. */
typedef struct syntax_work {
    uint32_t table[SYNTAX_TABLE];
    uint32_t source[SYNTAX_SOURCE];
    uint32_t changes[SYNTAX_CHANGES];
    uint32_t notes[SYNTAX_NOTES];
    uint32_t incoming[SYNTAX_INCOMING];
    uint32_t changed[SYNTAX_CHANGED];
    uint32_t marks[SYNTAX_MARKS];
    uint32_t rows[SYNTAX_ROWS];
    uint32_t prepared[SYNTAX_PREPARED];
} syntax_work;

/* The calls over one struct of work memory. */
static inline int64_t syntax_edit_with(syntax_work *w, uint64_t edge, uint64_t stronger, const uint8_t *batch, size_t batch_length, uint8_t *result, size_t result_length)
{
    return syntax_edit(edge, stronger, batch, batch_length, result, result_length, w->table, SYNTAX_TABLE, w->source, SYNTAX_SOURCE, w->changes, SYNTAX_CHANGES,
        w->notes, SYNTAX_NOTES, w->incoming, SYNTAX_INCOMING, w->changed, SYNTAX_CHANGED, w->marks, SYNTAX_MARKS, w->rows, SYNTAX_ROWS,
        w->prepared, SYNTAX_PREPARED);
}

static inline int64_t syntax_find_element_with(syntax_work *w, uint64_t edge, uint64_t stronger, const uint8_t *batch, size_t batch_length, uint64_t number)
{
    return syntax_find_element(edge, stronger, batch, batch_length, number, w->table, SYNTAX_TABLE, w->source, SYNTAX_SOURCE, w->changes, SYNTAX_CHANGES,
        w->notes, SYNTAX_NOTES, w->incoming, SYNTAX_INCOMING, w->changed, SYNTAX_CHANGED, w->marks, SYNTAX_MARKS, w->rows, SYNTAX_ROWS,
        w->prepared, SYNTAX_PREPARED);
}

static inline int64_t syntax_account_with(syntax_work *w, uint64_t edge, uint64_t stronger, const uint8_t *batch, size_t batch_length, uint8_t *result, size_t result_length)
{
    return syntax_account(edge, stronger, batch, batch_length, result, result_length, w->table, SYNTAX_TABLE, w->source, SYNTAX_SOURCE, w->changes, SYNTAX_CHANGES,
        w->notes, SYNTAX_NOTES, w->incoming, SYNTAX_INCOMING, w->changed, SYNTAX_CHANGED, w->marks, SYNTAX_MARKS, w->rows, SYNTAX_ROWS,
        w->prepared, SYNTAX_PREPARED);
}

static inline int64_t syntax_kept_with(syntax_work *w, uint64_t edge, uint64_t stronger, const uint8_t *batch, size_t batch_length, uint8_t *result, size_t result_length)
{
    return syntax_kept(edge, stronger, batch, batch_length, result, result_length, w->table, SYNTAX_TABLE, w->source, SYNTAX_SOURCE, w->changes, SYNTAX_CHANGES,
        w->notes, SYNTAX_NOTES, w->incoming, SYNTAX_INCOMING, w->changed, SYNTAX_CHANGED, w->marks, SYNTAX_MARKS, w->rows, SYNTAX_ROWS,
        w->prepared, SYNTAX_PREPARED);
}

/* The surviving pairs as two lists, each with room for `room` numbers (SYNTAX_MOST_KEPT are always enough): how many pairs, or a refusal with a minus. If they do not fit it is
 * SYNTAX_SHORT_RESULT, and both lists are as they were. */
static inline int64_t syntax_kept_lists(syntax_work *w, uint64_t edge, uint64_t stronger, const uint8_t *batch, size_t batch_length, uint32_t *olds, uint32_t *news, size_t room)
{
    uint8_t pairs[8 * SYNTAX_MOST_KEPT];
    const size_t most = SYNTAX_MOST_KEPT;
    int64_t length = syntax_kept_with(w, edge, stronger, batch, batch_length, pairs, 8 * (room < most ? room : most));
    if (length < 0)
        return length;
    size_t count = (size_t)length / 8;
    for (size_t i = 0; i < 2 * count; i++) {
        const uint8_t *at = pairs + 4 * i;
        uint32_t number = at[0] | (uint32_t)at[1] << 8 | (uint32_t)at[2] << 16 | (uint32_t)at[3] << 24;
        if (i < count)
            olds[i] = number;
        else
            news[i - count] = number;
    }
    return (int64_t)count;
}

static inline int64_t syntax_share_with(syntax_work *w, uint64_t edge, uint64_t stronger, const uint8_t *batch, size_t batch_length)
{
    return syntax_share(edge, stronger, batch, batch_length, w->table, SYNTAX_TABLE, w->source, SYNTAX_SOURCE, w->changes, SYNTAX_CHANGES,
        w->notes, SYNTAX_NOTES, w->incoming, SYNTAX_INCOMING, w->changed, SYNTAX_CHANGED, w->marks, SYNTAX_MARKS, w->rows, SYNTAX_ROWS,
        w->prepared, SYNTAX_PREPARED);
}

/* The lists of a batch. The elements of all trees stand in preorder, tree after tree; a call lists elements of its own, and those of all calls stand one
 * after another. Lists in step: kinds and measures; operations, counts, rules and targets; inputs and outputs; noted and numbers. */
typedef struct syntax_lists {
    size_t trees;
    const uint32_t *kinds;          /* of an element: its kind, a node's with bit 31 */
    size_t kinds_length;
    const uint32_t *measures;       /* children of a node, text bytes of a token */
    size_t measures_length;
    const uint8_t *text;
    size_t text_length;
    const uint32_t *operations;     /* of a call: 0 to 6 */
    size_t operations_length;
    const uint32_t *counts;         /* of a call: how many elements it lists */
    size_t counts_length;
    const uint32_t *rules;          /* of a call: the number of the rule that queued it, 0 for none */
    size_t rules_length;
    const uint32_t *targets;        /* of a call */
    size_t targets_length;
    const uint32_t *listed;
    size_t listed_length;
    const uint32_t *inputs;         /* of a mapping */
    size_t inputs_length;
    const uint32_t *outputs;        /* of a mapping */
    size_t outputs_length;
    const uint32_t *noted;          /* of a note: its element */
    size_t noted_length;
    const uint32_t *numbers;        /* of a note */
    size_t numbers_length;
} syntax_lists;

/* The writer's work memory, 136 KiB in three slices; it need not be cleared. */
typedef struct syntax_writer_work {
    uint8_t draft[SYNTAX_DRAFT];
    uint32_t table[SYNTAX_TABLE];
    uint32_t source[SYNTAX_SOURCE];
} syntax_writer_work;

/* The writer over one struct of lists and one of work memory. */
static inline int64_t syntax_write_with(syntax_writer_work *w, const syntax_lists *l, uint8_t *destination, size_t destination_length)
{
    return syntax_write(l->trees, l->kinds, l->kinds_length, l->measures, l->measures_length, l->text, l->text_length, l->operations,
        l->operations_length, l->counts, l->counts_length, l->rules, l->rules_length, l->targets, l->targets_length, l->listed, l->listed_length, l->inputs, l->inputs_length,
        l->outputs, l->outputs_length, l->noted, l->noted_length, l->numbers, l->numbers_length, destination, destination_length, w->draft,
        SYNTAX_DRAFT, w->table, SYNTAX_TABLE, w->source, SYNTAX_SOURCE);
}

/* The load over the writer's work memory. */
static inline int64_t syntax_load_with(syntax_writer_work *w, uint32_t start, uint8_t *destination, size_t destination_length)
{
    return syntax_load(start, destination, destination_length, w->draft, SYNTAX_DRAFT, w->table, SYNTAX_TABLE, w->source, SYNTAX_SOURCE);
}

/* The writer with static work memory, for one thread at a time. */
static inline int64_t syntax_write_static(const syntax_lists *l, uint8_t *destination, size_t destination_length)
{
    static syntax_writer_work work;
    return syntax_write_with(&work, l, destination, destination_length);
}

#ifdef __cplusplus
}
#endif

#endif
