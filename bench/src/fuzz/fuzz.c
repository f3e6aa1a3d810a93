/* What bench/fuzz runs: one call for C, told by the input, by the static library and by the same sources compiled as Rust, which tell the fuzzer what they reach.
 * Both must answer alike and leave every slice alike. What is only read must be as it was, work slices zeros, what stands before and behind each slice as it was; a result beyond the answer
 * too, and after a refusal all of it and the memory of a series (series.c has what an accepted call may leave there). */
#include <stdio.h>
#include <stdlib.h>
#include <string.h>

#include "fuzz.h"

enum { GUARD = 64, SORTS = 10, REFUSALS = 32 };

static const struct sort *sort(int which)
{
    const struct sort *all[SORTS] = { edits, edits + 1, edits + 2, edits + 3, edits + 4, writers, writers + 1, checks, series, series + 1 };
    return all[which];
}

/* How many inputs came to each answer: by refusal, at 0 what is answered, at OTHER what the sort calls otherwise. libFuzzer looks at `met`: an answer that a sort never gave before is something new,
 * even if the sources that give it are those of another sort. */
enum { OTHER = REFUSALS, ANSWERS };
static uint64_t told[SORTS][ANSWERS];
__attribute__((section("__libfuzzer_extra_counters"), used)) static uint8_t met[SORTS][ANSWERS];
static const struct sort *now;

_Noreturn void differs(const char *what)
{
    fprintf(stderr, "%s: %s\n", now->name, what);
    abort();
}

/* Ends the run where `length` bytes are not all `byte`. */
static void all(const uint8_t *at, size_t length, uint8_t byte, const char *what)
{
    if (length != 0 && (at[0] != byte || memcmp(at, at + 1, length - 1) != 0))
        differs(what);
}

void as_it_was(const struct call *call, int slice, enum who who, size_t from)
{
    const struct slice *it = call->slices + slice;
    const uint8_t *lent = it->lent[who], *content = it->content;
    size_t length = it->unit * it->length, beyond = from > it->held ? from : it->held;
    if (from > length || (from < it->held && memcmp(lent + from, content + from, it->held - from) != 0))
        differs("what must be as it was is not");
    all(lent + beyond, length - beyond, call->fill, "what must be as it was is not");
}

/* Each slice between two guards. */
static void lend_all(struct call *call, enum who who)
{
    for (int k = 0; k < call->count; k++) {
        struct slice *it = call->slices + k;
        size_t length = it->unit * it->length;
        uint8_t *guarded = malloc(length + 2 * GUARD);
        memset(guarded, call->fill, length + 2 * GUARD);
        it->lent[who] = guarded + GUARD;
        if (it->held != 0)
            memcpy(it->lent[who], it->content, it->held);
    }
}

static void give_back(struct call *call, enum who who)
{
    for (int k = 0; k < call->count; k++)
        free(call->slices[k].lent[who] - GUARD);
}

/* Ends the run where a call left something otherwise than it may. */
static void held(const struct call *call, enum who who, int64_t answer)
{
    for (int k = 0; k < call->count; k++) {
        const struct slice *it = call->slices + k;
        size_t length = it->unit * it->length;
        all(it->lent[who] - GUARD, GUARD, call->fill, "what stands before a slice is written");
        all(it->lent[who] + length, GUARD, call->fill, "what stands behind a slice is written");
        if (it->use == WORK)
            all(it->lent[who], length, 0, "a work slice is not zeros");
        else if (it->use == ANSWER)
            as_it_was(call, k, who, answer > 0 ? (size_t)answer : 0);
        else if (it->use == READ || answer < 0)
            as_it_was(call, k, who, 0);
    }
    if (answer >= 0 && now->leaves)
        now->leaves(call, who);
}

static void alike(const struct call *call)
{
    for (int k = 0; k < call->count; k++) {
        const struct slice *it = call->slices + k;
        if (memcmp(it->lent[RUST], it->lent[LIBRARY], it->unit * it->length) != 0)
            differs("a slice is not left alike");
    }
}

static void told_all(void)
{
    for (int i = 0; i < SORTS; i++) {
        const struct sort *it = sort(i);
        printf("    %s: %llu %s", it->name, (unsigned long long)told[i][0], it->answered);
        if (it->other)
            printf(", %llu %s", (unsigned long long)told[i][OTHER], it->other);
        const char *before = "; refused ";
        for (int k = 1; k < REFUSALS; k++) {
            if (!told[i][k])
                continue;
            printf("%s%d: %llu", before, k, (unsigned long long)told[i][k]);
            before = ", ";
        }
        printf("\n");
    }
}

int LLVMFuzzerInitialize(int *argc, char ***argv)
{
    (void)argc, (void)argv;
    return atexit(told_all);
}

static struct call laid_out(struct input in)
{
    struct call call = { .count = 0 };
    call.head.choices = take_byte(&in);
    call.head.number = take_half(&in);
    call.head.flags = take_byte(&in);
    call.head.room = take_half(&in);
    call.head.short_work = take_byte(&in);
    call.fill = call.head.flags & OTHER_FILL ? 0x7b : 0x5a;
    now->lay_out(&call, in);
    return call;
}

int LLVMFuzzerTestOneInput(const uint8_t *data, size_t size)
{
    if (size < HEAD)
        return 0;
    int which = data[0] % SORTS;
    now = sort(which);
    struct call call = laid_out((struct input){ data + 1, size - 1 });
    int64_t answers[BOTH];
    for (enum who who = RUST; who < BOTH; who++) {
        lend_all(&call, who);
        answers[who] = now->make(&call, who);
        held(&call, who, answers[who]);
    }
    if (answers[RUST] != answers[LIBRARY])
        differs("not answered alike");
    alike(&call);
    give_back(&call, RUST);
    give_back(&call, LIBRARY);
    int answer = now->other && answers[RUST] == now->other_answer ? OTHER : answers[RUST] < 0 ? -answers[RUST] % REFUSALS : 0;
    told[which][answer]++;
    met[which][answer] = 1;
    return 0;
}
