/* The calls that edit a batch: any edge rule and choice, any number of an element, any batch. */
#include "fuzz.h"

/* 0 the batch, 1 to 9 work, 10 the result. */
static void lay_out(struct call *call, struct input in)
{
    lend_bytes(call, READ, in.left, in);
    lend_editor_work(call);
}

static void lay_out_answered(struct call *call, struct input in)
{
    lay_out(call, in);
    lend_answer(call, SYNTAX_MOST_ANSWER);
}

#define CHOICES call->head.choices % 3, call->head.choices / 3 % 3

static int64_t edit(const struct call *call, enum who who)
{
    return ASKED(syntax_edit)(CHOICES, BYTES(0), BYTES(10), EDITOR_WORK(1));
}

static int64_t find_element(const struct call *call, enum who who)
{
    return ASKED(syntax_find_element)(CHOICES, BYTES(0), call->head.number, EDITOR_WORK(1));
}

static int64_t account(const struct call *call, enum who who)
{
    return ASKED(syntax_account)(CHOICES, BYTES(0), BYTES(10), EDITOR_WORK(1));
}

static int64_t share(const struct call *call, enum who who)
{
    return ASKED(syntax_share)(CHOICES, BYTES(0), EDITOR_WORK(1));
}

static int64_t kept(const struct call *call, enum who who)
{
    return ASKED(syntax_kept)(CHOICES, BYTES(0), BYTES(10), EDITOR_WORK(1));
}

const struct sort edits[5] = {
    { "edit", lay_out_answered, edit, NULL, "answered", NULL, 0 },
    { "find_element", lay_out, find_element, NULL, "found", "with none to find", SYNTAX_NONE },
    { "account", lay_out_answered, account, NULL, "answered", NULL, 0 },
    { "share", lay_out, share, NULL, "answered", NULL, 0 },
    { "kept", lay_out_answered, kept, NULL, "answered", NULL, 0 },
};
