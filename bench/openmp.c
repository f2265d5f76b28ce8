/* The benchmark's batch as GNU OpenMP tasks with `depend` and an empty body.
 * Usage: bench --accesses | openmp THREADS
 *
 * A read depends `in`; a write and an uncertain write depend `inout`, as there
 * is no guessing. libgomp runs a task at once instead of putting it off when
 * more than 64 for each thread are waiting; that is left as it is. */

#include <omp.h>

#include "accesses.h"

/* Only the addresses matter. */
static char cells[MOST_CELLS];

/* The written cells come first in `cell`, then the read ones. */
struct shape {
    int written, read;
    int cell[MOST_ACCESSES];
};

static struct shape shapes[MOST_JOBS];

static struct shape shape_of(const struct job *job)
{
    struct shape shape = {0, 0, {0}};
    for (int a = 0; a < job->arity; a++)
        if (job->accesses[a].mode != READ)
            shape.cell[shape.written++] = job->accesses[a].cell;
    for (int a = 0; a < job->arity; a++)
        if (job->accesses[a].mode == READ)
            shape.cell[shape.written + shape.read++] = job->accesses[a].cell;
    return shape;
}

/* Clauses written out are quicker than those made by an iterator. */
static void create_task(const struct shape *shape)
{
    char *a = &cells[shape->cell[0]];
    char *b = &cells[shape->cell[1]];
    char *c = &cells[shape->cell[2]];
    switch (10 * shape->written + shape->read) {
    case 10:
#pragma omp task depend(inout : *a)
        {}
        break;
    case 11:
#pragma omp task depend(inout : *a) depend(in : *b)
        {}
        break;
    case 12:
#pragma omp task depend(inout : *a) depend(in : *b, *c)
        {}
        break;
    case 20:
#pragma omp task depend(inout : *a, *b)
        {}
        break;
    default:
        fail("a job with such accesses is not written out here");
    }
}

static void run(const struct batch *batch)
{
    for (int j = 0; j < batch->jobs; j++)
        create_task(&shapes[j]);
#pragma omp taskwait
}

int main(int argc, char **argv)
{
    static struct batch batch;
    int threads = argc == 2 ? atoi(argv[1]) : 0;
    if (threads < 1)
        fail("usage: openmp THREADS");
    read_batch(&batch);
    for (int j = 0; j < batch.jobs; j++)
        shapes[j] = shape_of(&batch.job[j]);
    char name[64];
    snprintf(name, sizeof name, "GNU OpenMP tasks, %d thread%s", threads, threads > 1 ? "s" : "");
    /* One thread creates the tasks; all run them. */
#pragma omp parallel num_threads(threads)
#pragma omp single
    print_row(name, &batch, run);
    return 0;
}
