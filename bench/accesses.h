/* The batch that `bench --accesses` prints, and figures from repeated runs, for
 * the programs that measure task runtimes. */

#include <stdio.h>
#include <stdlib.h>
#include <time.h>

enum { READ = 0, MOST_JOBS = 128, MOST_CELLS = 64, MOST_ACCESSES = 4 };

struct access {
    int cell, mode;
};

struct job {
    int arity;
    struct access accesses[MOST_ACCESSES];
};

struct batch {
    int cells, jobs;
    struct job job[MOST_JOBS];
};

static void fail(const char *why)
{
    fprintf(stderr, "%s\n", why);
    exit(1);
}

static int number_below(int limit)
{
    int number;
    if (scanf("%d", &number) != 1 || number < 0 || number >= limit)
        fail("the list of accesses on standard input is not in form");
    return number;
}

static void read_batch(struct batch *batch)
{
    batch->cells = number_below(MOST_CELLS + 1);
    batch->jobs = number_below(MOST_JOBS + 1);
    for (int j = 0; j < batch->jobs; j++) {
        struct job *job = &batch->job[j];
        job->arity = number_below(MOST_ACCESSES + 1);
        for (int a = 0; a < job->arity; a++) {
            job->accesses[a].cell = number_below(batch->cells);
            job->accesses[a].mode = number_below(3);
        }
    }
}

static double nanoseconds_now(void)
{
    struct timespec now;
    clock_gettime(CLOCK_MONOTONIC, &now);
    return now.tv_sec * 1e9 + now.tv_nsec;
}

static int compare_samples(const void *left, const void *right)
{
    double l = *(const double *)left, r = *(const double *)right;
    return (l > r) - (l < r);
}

enum { MOST_SAMPLES = 100000 };

/* Runs the batch again and again for a second, after a tenth of one to warm up,
 * and prints a row: name, median and best nanoseconds for a job. */
static void print_row(const char *name, const struct batch *batch,
                      void (*run)(const struct batch *))
{
    static double samples[MOST_SAMPLES];
    int count = 0;
    double begin = nanoseconds_now();
    while (nanoseconds_now() - begin < 1e8)
        run(batch);
    begin = nanoseconds_now();
    while (count < MOST_SAMPLES && nanoseconds_now() - begin < 1e9) {
        double before = nanoseconds_now();
        run(batch);
        samples[count++] = (nanoseconds_now() - before) / batch->jobs;
    }
    qsort(samples, count, sizeof samples[0], compare_samples);
    printf("%s\t%.1f\t%.1f\n", name, samples[count / 2], samples[0]);
}
