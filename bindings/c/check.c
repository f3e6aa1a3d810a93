/* A claim that root(a, b) became root(a, c, b), as an editor makes it, and wrong ones: prints what the checker says of each, and ends with status 1 if a work slice
 * that was full of a pattern is not all zeros after a call. */
#include <inttypes.h>
#include <stdio.h>
#include <stdlib.h>
#include <string.h>

#include "syntax_check.h"

#define NODE 0x80000000u
#define LIST(list) .list = list, .list##_length = sizeof(list) / sizeof *(list)

static syntax_check_work work;

/* The claim is right; the functions below take a copy of it and damage that. */
static syntax_claim right(void)
{
    static const uint32_t old_kinds[] = {NODE | 1, 2, 3}, old_measures[] = {2, 1, 1};
    static const uint32_t new_kinds[] = {NODE | 1, 2, 4, 3}, new_measures[] = {3, 1, 1, 1};
    static const uint32_t olds[] = {0, 1, 2}, news[] = {0, 1, 3}, changed[] = {2};    /* c, element 2, was put in */
    const syntax_claim claim = {
        .before = {old_kinds, 3, old_measures, 3, (const uint8_t *)"ab", 2},
        .after = {new_kinds, 4, new_measures, 4, (const uint8_t *)"acb", 3},
        LIST(olds), LIST(news), LIST(changed)
    };
    return claim;
}

static void cleared(void)
{
    const uint32_t *word = (const uint32_t *)&work;
    for (size_t i = 0; i < sizeof work / sizeof *word; i++)
        if (word[i] != 0) {
            printf("a work slice is not zeros\n");
            exit(1);
        }
}

static void say(const char *what, int64_t told)
{
    if (told < 0)
        printf("%s: refused %" PRId64 "\n", what, -told);
    else
        printf("%s: %s\n", what, told == SYNTAX_ACCEPTED ? "accepted" : "rejected");
    cleared();
}

static void check(const char *what, syntax_claim claim)
{
    memset(&work, 0xa5, sizeof work);
    say(what, syntax_check_with(&work, &claim));
}

/* The right claim with marks of this many words: the others of that slice are cleared here. */
static void check_short(size_t marks)
{
    const syntax_claim c = right();
    memset(&work, 0xa5, sizeof work);
    memset(work.marks + marks, 0, (SYNTAX_CLAIM_MARKS - marks) * sizeof *work.marks);
    say("a short work slice", syntax_check(c.before.kinds, c.before.kinds_length, c.before.measures, c.before.measures_length, c.before.text,
        c.before.text_length, c.after.kinds, c.after.kinds_length, c.after.measures, c.after.measures_length, c.after.text, c.after.text_length,
        c.olds, c.olds_length, c.news, c.news_length, c.changed, c.changed_length, work.old_elements, SYNTAX_CLAIM_OLD, work.new_elements,
        SYNTAX_CLAIM_NEW, work.partners, SYNTAX_CLAIM_PARTNERS, work.marks, marks));
}

int main(void)
{
    static const uint8_t longer[16385];
    static const uint32_t beyond[] = {4};
    syntax_claim claim = right();
    check("as it was edited", claim);
    claim.changed_length = 0;
    check("c is not told as changed", claim);
    claim = right();
    claim.after.text = (const uint8_t *)"acd";
    check("b is another text", claim);
    check_short(SYNTAX_CLAIM_MARKS - 1);
    claim = right();
    claim.after.text = longer;
    claim.after.text_length = sizeof longer;
    check("too much text", claim);
    claim = right();
    claim.news_length = 2;
    check("half a pair", claim);
    claim = right();
    claim.before.text_length = 1;
    check("too little text", claim);
    claim = right();
    claim.changed = beyond;
    check("no element 4", claim);
    return 0;
}
