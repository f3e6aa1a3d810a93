/* What the calls that bench/fuzz makes have in common: the input that tells a call, and what is lent to it. fuzz.c makes each call and holds it to what is promised. */
#ifndef FUZZ_H
#define FUZZ_H

#include <stddef.h>
#include <stdint.h>

#include "syntax_check.h"
#include "syntax_edit.h"
#include "syntax_series.h"

/* The same sources compiled as Rust, where each call has another name. */
#define AS_RUST(name) extern __typeof__(name) rust_##name
AS_RUST(syntax_edit);
AS_RUST(syntax_find_element);
AS_RUST(syntax_account);
AS_RUST(syntax_share);
AS_RUST(syntax_kept);
AS_RUST(syntax_write);
AS_RUST(syntax_load);
AS_RUST(syntax_check);
AS_RUST(syntax_series_start);
AS_RUST(syntax_series_follow);

/* Who makes a call. Both are asked. */
enum who { RUST, LIBRARY, BOTH };
#define ASKED(name) (who == LIBRARY ? name : rust_##name)

/* What is left of an input. Behind its end stand zeros. */
struct input { const uint8_t *at; size_t left; };

uint8_t take_byte(struct input *in);
uint16_t take_half(struct input *in);
uint32_t take_word(struct input *in);
/* The next bytes, as many as are asked for or left. */
struct input take(struct input *in, size_t most);

/* The first bytes of every input, behind the one that says which call it is. What the flags from OWN on say differs by call. */
struct head { uint8_t choices; uint16_t number; uint8_t flags; uint16_t room; uint8_t short_work; };
enum { HEAD = 8, ROOM = 1, OTHER_FILL = 2, OWN = 4, APART = 8, EXACT = 16, MORE = 16, MANY = 32 };

/* What a call may do with a slice: read it, answer in it, leave something in it if it is not refused, or work in it. */
enum use { READ, ANSWER, MEMORY, WORK };

/* A slice that is lent to both: `length` items of `unit` bytes, first the `held` bytes of `content`, then the fill. */
struct slice { enum use use; size_t unit, length, held; const void *content; uint8_t *lent[BOTH]; };

enum { MOST_SLICES = 16 };
struct call { struct head head; uint8_t fill; uint32_t number; int count; struct slice slices[MOST_SLICES]; };

/* Slice k as C passes it. */
#define BYTES(k) call->slices[k].lent[who], call->slices[k].length
#define WORDS(k) (uint32_t *)(void *)call->slices[k].lent[who], call->slices[k].length
#define EDITOR_WORK(k) WORDS(k), WORDS(k + 1), WORDS(k + 2), WORDS(k + 3), WORDS(k + 4), WORDS(k + 5), WORDS(k + 6), WORDS(k + 7), WORDS(k + 8)

void lend_bytes(struct call *call, enum use use, size_t length, struct input content);
void lend_words(struct call *call, enum use use, size_t length, struct input content);
/* As much as `usual`, or what the head says. */
void lend_answer(struct call *call, size_t usual);
/* As much as is needed; the first `bytes` of them in bytes. One is an item too short where the head says so. */
void lend_work(struct call *call, const size_t *needed, int count, int bytes);
void lend_editor_work(struct call *call);

/* A sort of call: how the input becomes what is lent, the call, what more an accepted one must leave (or NULL), and what its answers are called. */
struct sort {
    const char *name;
    void (*lay_out)(struct call *call, struct input in);
    int64_t (*make)(const struct call *call, enum who who);
    void (*leaves)(const struct call *call, enum who who);
    const char *answered, *other;
    int64_t other_answer;
};
extern const struct sort edits[5], writers[2], checks[1], series[2];

/* The first tree of a batch, laid out as the memory of a series: its length. `tree` has room for SYNTAX_MOST_TREE bytes. What of it the batch does not have is left out. */
size_t first_tree(struct input batch, uint8_t *tree);

_Noreturn void differs(const char *what);
/* Ends the run where a slice from byte `from` on is not as it was before the call. */
void as_it_was(const struct call *call, int slice, enum who who, size_t from);

#endif
