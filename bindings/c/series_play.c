/* Plays the recorded series of crates/series_play/stdin through the static library and prints what that program prints:   series_play < crates/series_play/stdin */
#include <stdio.h>
#include <stdlib.h>

#include "syntax_series.h"

static uint8_t tree[65536], result[65536], batch[65536];
static uint32_t bookmarks[SYNTAX_BOOKMARK_WORDS];
static syntax_work work;

/* The input is ours, and is trusted to be whole. */
static void take(void *to, size_t n)
{
    if (fread(to, 1, n, stdin) != n)
        exit(2);
}

static uint32_t word(void)
{
    uint8_t b[4];
    take(b, 4);
    return b[0] | (uint32_t)b[1] << 8 | (uint32_t)b[2] << 16 | (uint32_t)b[3] << 24;
}

static void print_bookmarks(void)
{
    for (uint32_t i = 0; i < bookmarks[0]; i++) {
        const uint32_t *slot = bookmarks + 1 + SYNTAX_SLOT * i;
        printf(" %u=", slot[0]);
        for (uint32_t j = 0; j < slot[1] && j < SYNTAX_LONGEST_PATH; j++)
            printf("/%u", slot[2 + j]);
    }
    printf("\n");
}

#define LENT(slice) slice, sizeof slice / sizeof *slice

int main(void)
{
    for (uint32_t all = word(); all > 0; all--) {
        size_t n = word();
        take(tree, n);
        size_t m = word() / 4;
        for (size_t i = 0; i < m; i++)
            bookmarks[i] = word();
        printf("start %lld", (long long)-syntax_series_start(tree, n, bookmarks, m, LENT(work.rows)));
        print_bookmarks();
        for (uint32_t calls = word(); calls > 0; calls--) {
            uint32_t edge = word(), room = word();
            size_t length = word();
            take(batch, length);
            int64_t told = syntax_series_follow(edge, 0, batch, length, tree, n, bookmarks, m, result, room, LENT(work.table), LENT(work.source), LENT(work.changes), LENT(work.notes),
                LENT(work.incoming), LENT(work.changed), LENT(work.marks), LENT(work.rows), LENT(work.prepared));
            printf(told < 0 ? "refused %lld" : "bytes %lld", (long long)(told < 0 ? -told : told));
            print_bookmarks();
        }
    }
    return 0;
}
