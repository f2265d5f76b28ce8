/* The benchmark's batch as StarPU tasks with an empty codelet.
 * Usage: bench --accesses | starpu WORKERS
 *
 * A read is STARPU_R; a write and an uncertain write are STARPU_RW, as there is
 * no guessing. Dependences follow from the order of submission (sequential
 * consistency, StarPU's default). Only CPU workers; the default scheduler. */

#include <starpu.h>

#include "accesses.h"

static int cells[MOST_CELLS];
static starpu_data_handle_t handles[MOST_CELLS];

static void empty_body(void *buffers[], void *arguments)
{
    (void)buffers;
    (void)arguments;
}

static struct starpu_codelet codelet = {
    .cpu_funcs = {empty_body},
    .nbuffers = STARPU_VARIABLE_NBUFFERS,
    .name = "empty",
};

static void submit(const struct job *job)
{
    struct starpu_task *task = starpu_task_create();
    task->cl = &codelet;
    task->nbuffers = job->arity;
    for (int a = 0; a < job->arity; a++) {
        task->handles[a] = handles[job->accesses[a].cell];
        task->modes[a] = job->accesses[a].mode == READ ? STARPU_R : STARPU_RW;
    }
    if (starpu_task_submit(task) != 0)
        fail("StarPU did not take a task");
}

static void run(const struct batch *batch)
{
    for (int j = 0; j < batch->jobs; j++)
        submit(&batch->job[j]);
    starpu_task_wait_for_all();
}

static void start(int workers)
{
    struct starpu_conf conf;
    starpu_conf_init(&conf);
    conf.precedence_over_environment_variables = 1;
    conf.ncpus = workers;
    conf.ncuda = 0;
    conf.nopencl = 0;
    if (starpu_init(&conf) != 0)
        fail("StarPU did not start");
    if ((int)starpu_cpu_worker_get_count() != workers)
        fail("StarPU did not start as many workers as asked for");
}

int main(int argc, char **argv)
{
    static struct batch batch;
    int workers = argc == 2 ? atoi(argv[1]) : 0;
    if (workers < 1)
        fail("usage: starpu WORKERS");
    read_batch(&batch);
    start(workers);
    for (int c = 0; c < batch.cells; c++)
        starpu_variable_data_register(&handles[c], STARPU_MAIN_RAM, (uintptr_t)&cells[c],
                                      sizeof cells[c]);
    char name[64];
    snprintf(name, sizeof name, "StarPU tasks, %d worker%s", workers, workers > 1 ? "s" : "");
    print_row(name, &batch, run);
    for (int c = 0; c < batch.cells; c++)
        starpu_data_unregister(handles[c]);
    starpu_shutdown();
    return 0;
}
