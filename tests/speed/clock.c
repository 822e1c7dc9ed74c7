#define _POSIX_C_SOURCE 200809L
#include "clock.h"

#include <stdio.h>
#include <stdlib.h>
#include <time.h>

double seconds(void)
{
    struct timespec t;
    clock_gettime(CLOCK_MONOTONIC, &t);
    return (double)t.tv_sec + 1e-9 * (double)t.tv_nsec;
}

static double once(call f, job *j, const char *what)
{
    double begun = seconds();
    for (size_t i = 0; i < j->calls; i++)
        expect(f(j), j->wanted, what);
    return (seconds() - begun) / (double)j->calls;
}

static int by_size(const void *x, const void *y)
{
    double a = *(const double *)x, b = *(const double *)y;
    return (a > b) - (a < b);
}

void compare(const char *what, compared *c, int sizes, int rounds, call library, call second)
{
    for (int s = 0; s < sizes; s++)
        c[s].library = c[s].second = 1e30;
    for (int k = 0; k < rounds; k++)
        for (int s = 0; s < sizes; s++) {
            double b = k % 2 ? once(second, &c[s].j, what) : 0;
            double a = once(library, &c[s].j, what);
            if (k % 2 == 0)
                b = once(second, &c[s].j, what);
            c[s].ratios[k] = a / b;
            c[s].library = a < c[s].library ? a : c[s].library;
            c[s].second = b < c[s].second ? b : c[s].second;
        }
    double each_before = 0, second_before = 0, each_first = 0;
    for (int s = 0; s < sizes; s++) {
        double each = 1e9 * c[s].library / c[s].units, second_each = 1e9 * c[s].second / c[s].units;
        qsort(c[s].ratios, (size_t)rounds, sizeof(double), by_size);
        printf("%-34s %-26s %10.3f %10.3f %7.2f", what, c[s].size, each, second_each, c[s].ratios[rounds / 2]);
        if (s > 0)
            printf(" %7.2f %8.2f", each / each_before, second_each / second_before);
        if (s > 1 && s == sizes - 1)
            printf(" %7.2f", each / each_first);
        printf("\n");
        each_before = each;
        second_before = second_each;
        each_first = s == 0 ? each : each_first;
    }
    fflush(stdout);
}
