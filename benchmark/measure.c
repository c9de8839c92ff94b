/*
 * measure main|routes|made|box DAY [REMARK]: a table of the times of the cards, taken in turns in one run. DAY is an ordinary
 * day. Each time is the best of PASSES x TURNS: what else the machine does only adds to a time.
 */
#define _POSIX_C_SOURCE 199309L
#include "work.h"

#include <stdio.h>
#include <string.h>
#include <time.h>

enum { PASSES = 30, TURNS = 12, MOST_SIDES = 6, MOST_WORKS = 16 };

/* The plain card by each compiler that was there, and older proved cards, where they were given. */
extern const struct side plain_gcc_O2 __attribute__((weak));
extern const struct side plain_gcc_O3 __attribute__((weak));
extern const struct side plain_clang_O3 __attribute__((weak));
extern const struct side older_1 __attribute__((weak));
extern const struct side older_2 __attribute__((weak));

struct column {
    const char *head;
    const struct side *side;
    struct bench *bench;
};

static struct column columns[MOST_SIDES];
static size_t column_count, first_plain;
static double best[MOST_WORKS][2][MOST_SIDES];

static void add_column(const char *head, const struct side *side)
{
    static struct bench benches[MOST_SIDES];
    if (side == NULL)
        return;
    columns[column_count] = (struct column){head, side, &benches[column_count]};
    open_bench(columns[column_count].bench, side);
    column_count++;
}

static double now(void)
{
    struct timespec t;
    clock_gettime(CLOCK_MONOTONIC, &t);
    return (double)t.tv_sec * 1e9 + (double)t.tv_nsec;
}

static double time_once(const struct work *w, struct bench *b, bool cleared)
{
    prepare(b, w);
    double start = now();
    size_t done = w->run(b, w, cleared);
    return (now() - start) / (double)done;
}

/* All sides in turns. */
static void measure(const struct work *w, bool cleared, double *least)
{
    int turns = w->plan.events > LONG_DAY ? 1 : TURNS;
    for (int turn = 0; turn < turns; turn++)
        for (size_t c = 0; c < column_count; c++) {
            if (!is_able(columns[c].side, w))
                continue;
            double t = time_once(w, columns[c].bench, cleared);
            if (least[c] == 0 || t < least[c])
                least[c] = t;
        }
}

static double best_plain(const double *times)
{
    double least = times[first_plain];
    for (size_t c = first_plain + 1; c < column_count; c++)
        least = times[c] < least ? times[c] : least;
    return least;
}

static void print_number(double number, int places)
{
    if (number == 0)
        printf(" |");
    else
        printf(" %.*f |", places, number);
}

static void print_row(const struct work *w, double times[2][MOST_SIDES])
{
    printf("| %s |", w->what);
    for (size_t c = 0; c < column_count; c++)
        print_number(times[0][c], times[0][c] < 10 ? 2 : 1);
    print_number(times[0][0] / best_plain(times[0]), 2);
    print_number(times[1][0] / best_plain(times[1]), 2);
    print_number(w->at_most, 2);
    printf("\n");
}

static void print_table(const struct work_group *g)
{
    printf("| %s |", g->name);
    for (size_t c = 0; c < column_count; c++)
        printf(" %s |", columns[c].head);
    printf(" ratio | cleared | at most |\n|---|");
    for (size_t c = 0; c < column_count + 3; c++)
        printf("---|");
    printf("\n");
    for (size_t i = 0; i < g->count; i++)
        print_row(&g->works[i], best[i]);
}

static const struct work_group *group_named(const char *name)
{
    return strcmp(name, "main") == 0     ? &main_works
           : strcmp(name, "routes") == 0 ? &route_works
           : strcmp(name, "made") == 0   ? &made_works
           : strcmp(name, "box") == 0    ? &box_works
                                         : NULL;
}

int main(int count, char **words)
{
    const struct work_group *g = count < 3 ? NULL : group_named(words[1]);
    if (g == NULL || g->count > MOST_WORKS) {
        fprintf(stderr, "usage: measure main|routes|made|box DAY [REMARK]\n");
        return 2;
    }
    open_work(words[2]);
    add_column("proved", &proved);
    add_column("older 1", &older_1);
    add_column("older 2", &older_2);
    first_plain = column_count;
    add_column("gcc -O2", &plain_gcc_O2);
    add_column("gcc -O3", &plain_gcc_O3);
    add_column("clang -O3", &plain_clang_O3);
    for (int pass = 0; pass < PASSES; pass++)
        for (size_t i = 0; i < g->count; i++)
            for (int cleared = 0; cleared < 2; cleared++)
                measure(&g->works[i], cleared, best[i][cleared]);
    printf("Nanoseconds, the best of %d, all in turns in one run%s%s.\n", PASSES * TURNS, count > 3 ? "; " : "",
           count > 3 ? words[3] : "");
    printf("Ratio: of the proved card to the best of the plain one. Cleared: that ratio where the buffers that a call is\n"
           "lent were cleared before it, within the time.\n\n");
    print_table(g);
    return work_sink == 0;
}
