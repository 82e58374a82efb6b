/*
 * The engine beside plain C and beside SAT solvers, in one run: for each kind of list and each call the ratio of the median times of the two
 * sides, and the same of a process that calls Decide and each solver's (solvers.h).
 *
 * The two sides take turns, batch by batch, and change who goes first, so that whatever else the machine does meets both alike. Before
 * anything is timed the two answers are compared, with every byte and word of the areas; a time for a wrong answer is worth nothing, so
 * a difference ends the run. Next is timed on a walk: the first 1,000 rotas of a list, or all there are and the call that says so.
 */
#include <stdio.h>
#include <stdlib.h>
#include <string.h>

#include "../include/thwartpin.h"
#include "calls.h"
#include "dimacs.h"
#include "solvers.h"
#include "table.h"
#include "timing.h"

enum { WALK = 1000, SPOILED = 5000, PATH_LIMIT = 512 };

static const Side engine = {.decide = thwartpin_list_decide,
                            .forced = thwartpin_list_forced,
                            .clash = thwartpin_list_clash,
                            .next = thwartpin_list_next,
                            .ties = thwartpin_list_ties};

/* What the arguments ask for. */
typedef struct {
    Effort effort;
    const char *folder; /* where the lists are written as files, and the times */
    Programs programs;
} Setting;

static const Effort thorough = {50e-6, 0.25, 15, 101};
static const Effort quick = {20e-6, 0.02, 7, 7};

/* Comparing answers. */

static uint32_t compare(Call call, const List *list, const char *name, const Lent *lent, Areas *areas)
{
    static Areas other;
    other = *areas;
    uint32_t answer = run_call(&engine, call, list, areas, lent);
    uint32_t answer2 = run_call(&peers, call, list, &other, lent);
    if (same_outcome(call, answer, areas, answer2, &other))
        return answer;
    fprintf(stderr, "DIFFERENT: %s on %s: engine answers %u, peer %u; if that is the same, an area or a number differs\n",
            call_names[call], name, answer, answer2);
    exit(1);
}

static void compare_walk(Call call, const List *list, const char *name, const uint8_t *first)
{
    static Areas areas;
    soil(&areas);
    memcpy(areas.bytes, first, list->n);
    int left = call == NEXT ? WALK : 1;
    while (left > 0 && compare(call, list, name, &whole, &areas) == DONE)
        left--;
}

static void compare_refusals(void)
{
    static List list;
    static Areas areas;
    Dice dice = {.state = 1};
    for (int i = 0; i < SPOILED; i++) {
        Lent lent = whole;
        list.n = 2 + roll(&dice, 30);
        list.len = 0;
        add_random(&list, &dice, roll(&dice, 2 * list.n));
        soil(&areas);
        memset(areas.bytes, 0, list.n);
        spoil(&list, &areas, &lent, &dice);
        for (Call call = DECIDE; call < CALLS; call++) {
            Areas fresh = areas;
            compare(call, &list, "a spoiled list", &lent, &fresh);
        }
    }
}

/* Timing. */

/* What is timed: one call, or one walk by Next. The number of calls that it took. */
static size_t run_once(const Side *side, Call call, const List *list, const uint8_t *first, Areas *areas)
{
    if (call != NEXT) {
        run_call(side, call, list, areas, &whole);
        return 1;
    }
    memcpy(areas->bytes, first, list->n);
    size_t calls = 1;
    while (run_call(side, NEXT, list, areas, &whole) == DONE && calls < WALK)
        calls++;
    return calls;
}

/* Seconds a call, over so many rounds. */
static double time_rounds(const Side *side, Call call, const List *list, const uint8_t *first, size_t rounds)
{
    static Areas areas;
    size_t calls = 0;
    double start = now();
    for (size_t i = 0; i < rounds; i++)
        calls += run_once(side, call, list, first, &areas);
    return (now() - start) / (double)calls;
}

/* Rounds that fill a batch for a side; they also warm it up. */
static size_t rounds_for(const Side *side, Call call, const List *list, const uint8_t *first, double batch)
{
    size_t rounds = 1;
    for (;;) {
        double start = now();
        time_rounds(side, call, list, first, rounds);
        if (now() - start >= batch)
            return rounds;
        rounds *= 2;
    }
}

static Times measure(Call call, const List *list, const uint8_t *first, const Effort *effort)
{
    static double engine_times[MOST_TURNS];
    static double peer_times[MOST_TURNS];
    size_t engine_rounds = rounds_for(&engine, call, list, first, effort->batch);
    size_t peer_rounds = rounds_for(&peers, call, list, first, effort->batch);
    double start = now();
    int turns = 0;
    while (turns < MOST_TURNS && (turns < effort->enough || now() - start < effort->budget)) {
        bool engine_first = turns % 2 == 0;
        if (engine_first)
            engine_times[turns] = time_rounds(&engine, call, list, first, engine_rounds);
        peer_times[turns] = time_rounds(&peers, call, list, first, peer_rounds);
        if (!engine_first)
            engine_times[turns] = time_rounds(&engine, call, list, first, engine_rounds);
        turns++;
    }
    return (Times){median(engine_times, turns), median(peer_times, turns)};
}

/* Where Next's walk starts: the first rota, or all early on an impossible list. */
static void find_first(const List *list, uint8_t *first)
{
    static Areas areas;
    memset(areas.bytes, 0, sizeof areas.bytes);
    run_call(&peers, DECIDE, list, &areas, &whole);
    memcpy(first, areas.bytes, list->n);
}

/* Rows. A cell is the mean over the lists of a kind. */

static void add_share(Times *sum, Times times, int samples)
{
    sum->engine += times.engine / samples;
    sum->other += times.other / samples;
}

static Times measure_call(Call call, const Kind *kind, const Effort *effort)
{
    static List list;
    uint8_t first[LIMIT_CHOICES];
    Times sum = {0, 0};
    for (int sample = 0; sample < kind->samples; sample++) {
        make_list(kind, sample, &list);
        find_first(&list, first);
        compare_walk(call, &list, kind->name, first);
        add_share(&sum, measure(call, &list, first, effort), kind->samples);
    }
    return sum;
}

/* The list as a file named after its kind, which stays there for whoever wants to try it by hand. */
static void save(const List *list, const char *kind, int sample, const char *folder, char path[PATH_LIMIT])
{
    int length = snprintf(path, PATH_LIMIT, "%s/%s %d.cnf", folder, kind, sample);
    if (length < PATH_LIMIT && write_dimacs(list, path))
        return;
    fprintf(stderr, "cannot write %s\n", path);
    exit(1);
}

static bool possible(const List *list)
{
    static Areas areas;
    return run_call(&engine, DECIDE, list, &areas, &whole) == DONE;
}

/* Gives the number of rules of a list of the kind. */
static size_t measure_programs(const Setting *setting, const Kind *kind, Times sums[SOLVERS])
{
    static List list;
    char path[PATH_LIMIT];
    Times times[SOLVERS];
    for (int sample = 0; sample < kind->samples; sample++) {
        make_list(kind, sample, &list);
        save(&list, kind->name, sample, setting->folder, path);
        time_programs(&setting->programs, path, possible(&list), setting->effort.starts, times);
        for (int s = 0; s < SOLVERS; s++)
            add_share(&sums[s], times[s], kind->samples);
    }
    return list.len / 2;
}

static FILE *open_times(const char *folder)
{
    char path[PATH_LIMIT];
    int length = snprintf(path, PATH_LIMIT, "%s/times", folder);
    FILE *times = length < PATH_LIMIT ? fopen(path, "w") : NULL;
    if (times) {
        fprintf(times, "%-17s %4s  %-7s %10s %10s %7s\n", "list", "m", "column", "engine us", "other us", "ratio");
        return times;
    }
    fprintf(stderr, "cannot write %s\n", path);
    exit(1);
}

static void show(const Row *row, FILE *times)
{
    print_row(row);
    write_times(times, row);
}

static Row measure_kind(const Setting *setting, const Kind *kind)
{
    Row row = {.name = kind->name};
    for (Call call = DECIDE; call < CALLS; call++)
        row.cells[call] = measure_call(call, kind, &setting->effort);
    row.rules = measure_programs(setting, kind, row.cells + CALLS);
    return row;
}

/* The first row is what starting the programs comes to by itself; it is not counted among the lists. */
static void show_all(const Setting *setting)
{
    FILE *times = open_times(setting->folder);
    Means means = {{0}, 0};
    Row start = {.name = no_rules.name};
    measure_programs(setting, &no_rules, start.cells + CALLS);
    print_head();
    show(&start, times);
    for (size_t i = 0; i < kinds_count; i++) {
        Row row = measure_kind(setting, &kinds[i]);
        show(&row, times);
        add_to_means(&means, &row);
    }
    print_means(&means);
    fclose(times);
}

/* The arguments: the folder to write to, the paths of the programs, and perhaps --quick. */
int main(int argc, char **argv)
{
    enum { PATHS = 2, GIVEN = PATHS + 1 + SOLVERS };
    bool hasty = argc == GIVEN + 1 && strcmp(argv[GIVEN], "--quick") == 0;
    if (argc != GIVEN && !hasty) {
        fprintf(stderr, "usage: bench/run [--stub] [--quick]\n");
        return 2;
    }
    Setting setting = {.effort = hasty ? quick : thorough, .folder = argv[1]};
    for (int i = 0; i <= SOLVERS; i++)
        setting.programs.paths[i] = argv[PATHS + i];
    compare_refusals();
    show_all(&setting);
    return 0;
}
