/* See table.h. A ratio is engine to other throughout, so below 1 the engine is faster; a dash is for what was not measured. */
#include "table.h"

#include <math.h>

static const char *column_name(int column)
{
    return column < CALLS ? call_names[column] : solver_names[column - CALLS];
}

static double ratio(Times times)
{
    return times.other > 0 ? times.engine / times.other : 0;
}

static void print_cells(const double ratios[COLUMNS])
{
    for (int column = 0; column < COLUMNS; column++)
        if (ratios[column] > 0)
            printf(" %7.*f |", ratios[column] < 0.1 ? 3 : 2, ratios[column]);
        else
            printf(" %7s |", "-");
    printf("\n");
    fflush(stdout);
}

static void print_line(void)
{
    printf("|---|---|");
    for (int column = 0; column < COLUMNS; column++)
        printf("---|");
    printf("\n");
}

void print_head(void)
{
    printf("| %-17s | %4s |", "list", "m");
    for (int column = 0; column < COLUMNS; column++)
        printf(" %7s |", column_name(column));
    printf("\n");
    print_line();
}

void print_row(const Row *row)
{
    double ratios[COLUMNS];
    for (int column = 0; column < COLUMNS; column++)
        ratios[column] = ratio(row->cells[column]);
    printf("| %-17s | %4zu |", row->name, row->rules);
    print_cells(ratios);
}

/* A column that was not measured comes to a mean of 0, and so to a dash. */
void add_to_means(Means *means, const Row *row)
{
    for (int column = 0; column < COLUMNS; column++)
        means->logarithms[column] += log(ratio(row->cells[column]));
    means->rows++;
}

void print_means(const Means *means)
{
    double ratios[COLUMNS];
    for (int column = 0; column < COLUMNS; column++)
        ratios[column] = exp(means->logarithms[column] / (double)means->rows);
    printf("| %-17s | %4s |", "geometric mean", "");
    print_cells(ratios);
}

void write_times(FILE *file, const Row *row)
{
    for (int column = 0; column < COLUMNS; column++) {
        Times times = row->cells[column];
        if (times.other > 0)
            fprintf(file, "%-17s %4zu  %-7s %10.2f %10.2f %7.3f\n", row->name, row->rules, column_name(column), 1e6 * times.engine,
                    1e6 * times.other, ratio(times));
    }
    fflush(file);
}
