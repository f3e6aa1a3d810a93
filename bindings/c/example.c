/* The printed case of document 01: the token "c" goes in after "a", with note 9 on it. Writes the batch from lists, edits it, and prints the answer as
 * document 01 prints it; then its account, its share, the elements that it kept, a load, and two rule books that replace one node. */
#include <inttypes.h>
#include <stdio.h>

#include "syntax_edit.h"

#define NODE 0x80000000u
#define COUNT(list) (sizeof(list) / sizeof *(list))

static syntax_work work;
static uint8_t batch[SYNTAX_MOST_BATCH], result[SYNTAX_MOST_ANSWER];

static uint32_t word(size_t place)
{
    const uint8_t *at = result + 4 * place;
    return at[0] | (uint32_t)at[1] << 8 | (uint32_t)at[2] << 16 | (uint32_t)at[3] << 24;
}

static int64_t build(void)
{
    static const uint32_t kinds[] = {NODE | 1, 2, 3, NODE | 1, 4};    /* tree 0: node 0 of tokens 1 and 2; tree 1: node 3 of token 4 */
    static const uint32_t measures[] = {2, 1, 1, 1, 1};               /* children of a node, text bytes of a token */
    static const uint8_t text[] = {'a', 'b', 'c'};
    static const uint32_t operation[] = {1}, count[] = {1}, target[] = {1}, listed[] = {4};    /* insert one element, 4, after element 1 */
    static const uint32_t rule[] = {0};                               /* queued by no rule */
    static const uint32_t noted[] = {4}, number[] = {9};              /* note 9 on element 4 */
    const syntax_lists lists = {
        .trees = 2,
        .kinds = kinds, .kinds_length = COUNT(kinds),
        .measures = measures, .measures_length = COUNT(measures),
        .text = text, .text_length = COUNT(text),
        .operations = operation, .operations_length = COUNT(operation),
        .counts = count, .counts_length = COUNT(count),
        .rules = rule, .rules_length = COUNT(rule),
        .targets = target, .targets_length = COUNT(target),
        .listed = listed, .listed_length = COUNT(listed),
        .noted = noted, .noted_length = COUNT(noted),
        .numbers = number, .numbers_length = COUNT(number)
    };
    return syntax_write_static(&lists, batch, sizeof batch);
}

/* Two rule books, each an editor of its own: rule 1 replaces X in root(X(a), b) by c, rule 2 by d. */
static int64_t build_books(void)
{
    static const uint32_t kinds[] = {NODE | 1, NODE | 2, 3, 3, NODE | 1, 3, 3};    /* tree 0: node 0 of X, 1, and the token 3; tree 1: node 4 of c, 5, and d, 6 */
    static const uint32_t measures[] = {2, 1, 1, 1, 2, 1, 1};
    static const uint8_t text[] = {'a', 'b', 'c', 'd'};
    static const uint32_t operation[] = {2, 6, 2}, count[] = {1, 0, 1}, target[] = {1, 0, 1}, listed[] = {5, 6};
    static const uint32_t rule[] = {1, 0, 2};                         /* a further editor's start, operation 6, has none */
    const syntax_lists lists = {
        .trees = 2,
        .kinds = kinds, .kinds_length = COUNT(kinds),
        .measures = measures, .measures_length = COUNT(measures),
        .text = text, .text_length = COUNT(text),
        .operations = operation, .operations_length = COUNT(operation),
        .counts = count, .counts_length = COUNT(count),
        .rules = rule, .rules_length = COUNT(rule),
        .targets = target, .targets_length = COUNT(target),
        .listed = listed, .listed_length = COUNT(listed)
    };
    return syntax_write_static(&lists, batch, sizeof batch);
}

static void print(void)
{
    uint32_t elements = word(0), bytes = word(1), changed = word(2), notes = word(3);
    size_t measures = 6 + (size_t)elements, at = measures + elements;
    const uint8_t *text = result + 4 * (at + 2 * (size_t)changed + 2 * (size_t)notes);

    printf("ok %" PRIu32 " %" PRIu32 " %" PRIu32 " %" PRIu32 " %" PRIu32 " %" PRIu32 "\n", elements, bytes, changed, notes, word(4), word(5));
    for (uint32_t i = 0; i < elements; i++)
        printf("%c %" PRIu32 " %" PRIu32 "\n", word(6 + i) & NODE ? 'n' : 't', word(6 + i) & 0xffff, word(measures + i));
    printf(bytes ? "text " : "text");
    for (uint32_t i = 0; i < bytes; i++)
        printf("%02x", text[i]);
    printf("\n");
    for (uint32_t i = 0; i < changed; i++)
        printf("changed %" PRIu32 " %" PRIu32 "\n", word(at + i), word(at + changed + i));
    for (uint32_t i = 0; i < notes; i++)
        printf("note %" PRIu32 " %" PRIu32 "\n", word(at + 2 * changed + i), word(at + 2 * changed + notes + i));
}

static void edited(uint64_t stronger, size_t batch_length)
{
    int64_t length = syntax_edit_with(&work, SYNTAX_EDGE_BY_OFFSET, stronger, batch, batch_length, result, sizeof result);
    if (length < 0)
        printf("refused %" PRId64 "\n", -length);
    else
        print();
}

static void accounted(uint64_t stronger, size_t batch_length)
{
    int64_t length = syntax_account_with(&work, SYNTAX_EDGE_BY_OFFSET, stronger, batch, batch_length, result, sizeof result);
    if (length < 0)
        printf("%" PRId64 "\n", -length);
    else
        fwrite(result, 1, (size_t)length, stdout);
}

int main(void)
{
    int64_t length = build();
    if (length < 0)
        return 1;
    edited(SYNTAX_STRONGER_OFF, (size_t)length);
    accounted(SYNTAX_STRONGER_OFF, (size_t)length);
    int64_t share = syntax_share_with(&work, SYNTAX_EDGE_BY_OFFSET, SYNTAX_STRONGER_OFF, batch, (size_t)length);
    if (share < 0)
        printf("refused %" PRId64 "\n", -share);
    else
        printf("share %" PRIu32 " %" PRIu32 "\n", SYNTAX_THOUSANDTHS(share), SYNTAX_REMAINDER(share));
    static uint32_t olds[SYNTAX_MOST_KEPT], news[SYNTAX_MOST_KEPT];
    int64_t pairs = syntax_kept_lists(&work, SYNTAX_EDGE_BY_OFFSET, SYNTAX_STRONGER_OFF, batch, (size_t)length, olds, news, 2);
    printf("in room for 2: refused %" PRId64 "\n", -pairs);
    pairs = syntax_kept_lists(&work, SYNTAX_EDGE_BY_OFFSET, SYNTAX_STRONGER_OFF, batch, (size_t)length, olds, news, SYNTAX_MOST_KEPT);
    for (int64_t i = 0; i < pairs; i++)
        printf("kept %" PRIu32 " %" PRIu32 "\n", olds[i], news[i]);
    static syntax_writer_work writer;
    length = syntax_load_with(&writer, 0, batch, sizeof batch);    /* the load of 0, which is accepted */
    length = syntax_edit_with(&work, SYNTAX_EDGE_BY_OFFSET, SYNTAX_STRONGER_OFF, batch, (size_t)length, result, sizeof result);
    printf(length < 0 ? "the load is refused\n" : "the load is edited\n");
    length = build_books();
    if (length < 0)
        return 1;
    for (uint64_t stronger = SYNTAX_STRONGER_OFF; stronger <= SYNTAX_STRONGER_FIRST + 1; stronger++) {    /* the last is neither off nor on */
        edited(stronger, (size_t)length);
        accounted(stronger, (size_t)length);
    }
    return 0;
}
