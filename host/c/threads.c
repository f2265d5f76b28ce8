/* A batch with several workers: one lock round the record, and threads that take turns: each reports what it has done, and
 * takes what is to be done next, for itself and for those who are free. While they are at it, corrections come in.
 *
 *     gcc -pthread host/c/threads.c target/staticlib/libsorghemi.a -o threads && ./threads 8
 *
 * How the threads get on decides which guesses are made, kept and thrown away, and never what the heights are at the end.
 * host/README.md has what a host with threads has to know; host/rust/examples/threads.rs is the same in Rust. */
#define _POSIX_C_SOURCE 200809L
#include "sorghemi.h"

#include <inttypes.h>
#include <pthread.h>
#include <stdio.h>
#include <stdlib.h>
#include <time.h>

enum {
    MOST_WORKERS = 64,
    STACK = 256 * 1024, /* bytes for a worker, enough for any call (host/README.md) */
    PARTS = 5,          /* of a check */
};

/* What the threads share. */
typedef struct {
    pthread_mutex_t lock;
    pthread_cond_t changed; /* told when a turn has reported or taken a step, a job has come in, and the line is closed */
    sorghemi_batch batch;
    sorghemi_taken waiting[MOST_WORKERS]; /* runs that turns have started and that no worker has taken up yet, in a ring */
    size_t first;                         /* where the oldest of them stands */
    size_t count;                         /* how many there are */
    size_t free; /* how many workers have no run; they are never fewer than the runs that wait, so the ring has room */
    bool line_open; /* whether more jobs may come in; while they may, a finished batch is no reason to leave */
} morning;

/* What a worker brings to its turn: the number of its report, or SORGHEMI_NO_REPORT, its job and the report itself. */
typedef struct {
    uint8_t number;
    size_t job;
    sorghemi_report report;
} finding;

static const finding nothing = {.number = SORGHEMI_NO_REPORT};

static void expect_accepted(const char *call, uint8_t refusal)
{
    if (refusal != SORGHEMI_ACCEPTED) {
        fprintf(stderr, "%s: refused with %d: %s\n", call, refusal, sorghemi_refusal_words(refusal));
        exit(1);
    }
}

/* As long as so many parts of a check take. A real check has work to do instead. */
static void take_a_while(int parts)
{
    const struct timespec pace = {.tv_sec = 0, .tv_nsec = parts * 200000L};
    nanosleep(&pace, NULL);
}

/* Whether the guess that a worker has may still be settled. It may not where it has fallen, or where the job's own run
 * has taken its place already. */
static bool is_of_use(morning *today, size_t job)
{
    pthread_mutex_lock(&today->lock);
    sorghemi_job_answer answer = sorghemi_batch_ask_job(&today->batch, job);
    pthread_mutex_unlock(&today->lock);
    expect_accepted("ask", answer.refusal);
    return answer.validity == SORGHEMI_VALIDITY_UNDECIDED || answer.validity == SORGHEMI_VALIDITY_VALID;
}

/* The check of the run's job, and the report on it; none of a guess that is given up. */
static finding check(morning *today, sorghemi_taken run, sorghemi_job job)
{
    bool guess = run.step == SORGHEMI_STEP_START_SPECULATION;
    for (int part = 0; part < PARTS; part++) {
        if (guess && !is_of_use(today, run.job)) {
            return nothing;
        }
        take_a_while(1);
    }
    sorghemi_outcome outcome = sorghemi_result(job.kind, job.parameter, run.handed);
    expect_accepted("result", outcome.refusal);
    finding found = {.number = guess ? SORGHEMI_STEP_REPORT_SPECULATION : SORGHEMI_STEP_REPORT_OWN, .job = run.job};
    for (size_t place = 0; place < 4; place++) {
        found.report.values[place] = outcome.values[place];
    }
    found.report.wrote = outcome.wrote;
    return found;
}

/* Makes the report, and starts no more runs than there are workers free to do them. False where no step is allowed any more. */
static bool take_turn(morning *today, finding found)
{
    size_t limit = today->free - today->count;
    sorghemi_step_list steps;
    sorghemi_turned turned = sorghemi_turn(&today->batch, found.number, found.job, found.report, limit, &steps);
    if (found.number == SORGHEMI_STEP_REPORT_SPECULATION && turned.refusal == SORGHEMI_REFUSED_WRONG_STATE) {
        /* The guess was thrown away while this worker had it. That is no mistake, and nothing is lost. */
        turned = sorghemi_turn(&today->batch, nothing.number, nothing.job, nothing.report, limit, &steps);
    }
    expect_accepted("turn", turned.refusal);
    for (size_t step = 0; step < turned.count; step++) {
        if (steps.taken[step].step != SORGHEMI_STEP_COMMIT) {
            today->waiting[(today->first + today->count++) % MOST_WORKERS] = steps.taken[step];
        }
    }
    if (found.number != SORGHEMI_NO_REPORT || turned.count > 0) {
        pthread_cond_broadcast(&today->changed);
    }
    return turned.count == (limit < SORGHEMI_MOST_STEPS ? limit : SORGHEMI_MOST_STEPS);
}

/* Takes up the oldest run that waits. The lock is held before and after, and not while the worker checks. */
static finding take_up(morning *today)
{
    sorghemi_taken run = today->waiting[today->first];
    sorghemi_job job = today->batch.jobs[run.job];
    today->first = (today->first + 1) % MOST_WORKERS;
    today->count--;
    today->free--;
    pthread_mutex_unlock(&today->lock);
    finding found = check(today, run, job);
    pthread_mutex_lock(&today->lock);
    today->free++;
    return found;
}

/* What each worker does until the batch is finished and no more jobs come in. */
static void *work(void *shared)
{
    morning *today = shared;
    finding found = nothing; /* of the run that this worker had */
    pthread_mutex_lock(&today->lock);
    for (;;) {
        bool more = take_turn(today, found);
        found = nothing;
        if (today->count > 0) {
            found = take_up(today);
        } else if (!today->line_open && sorghemi_batch_ask_batch(&today->batch).finished) {
            break;
        } else if (!more) { /* before another worker has reported or a job has come in */
            pthread_cond_wait(&today->changed, &today->lock);
        }
    }
    pthread_mutex_unlock(&today->lock);
    return NULL;
}

/* The modes, short for the jobs below, and a job: its kind, the kind's parameter, how many accesses, and these. */
enum { R = SORGHEMI_MODE_READ, W = SORGHEMI_MODE_WRITE, M = SORGHEMI_MODE_MAYBE_WRITE };
#define JOB(name, p, count, ...) \
    ((sorghemi_job){.kind = SORGHEMI_KIND_##name, .parameter = (p), .arity = (count), .accesses = {__VA_ARGS__}})

/* Six gauges. Of the tests some find something and some do not, so that guesses are kept and guesses are thrown away. */
static void plan(sorghemi_batch *batch)
{
    const int32_t heights[] = {2900, 1500, 1480, 1720, 1390, 1610};
    const sorghemi_job_list list = {.count = 12, .jobs = {
        JOB(SPIKE, 1000, 2, {0, M}, {1, R}), JOB(SHIFT, 20, 1, {0, W}),
        JOB(SPIKE, 1000, 2, {2, M}, {3, R}), JOB(SHIFT, 20, 1, {2, W}),
        JOB(FLOOR, 1400, 1, {4, M}),         JOB(MEAN, 0, 3, {5, W}, {4, R}, {2, R}),
        JOB(PAIR, 0, 2, {0, M}, {2, M}),     JOB(FLOOR, 1400, 1, {1, M}),
        JOB(SHIFT, -15, 1, {1, W}),          JOB(MEAN, 0, 3, {3, W}, {0, R}, {1, R}),
        JOB(SPIKE, 30, 2, {5, M}, {3, R}),   JOB(SHIFT, 7, 1, {5, W}),
    }};
    expect_accepted("open", sorghemi_batch_open(batch, heights, sizeof heights / sizeof *heights));
    expect_accepted("insert all", sorghemi_insert_all(batch, &list).refusal);
    expect_accepted("seal", sorghemi_batch_seal(batch, 1));
}

/* Inserts a correction: those who wait may have something to start then. */
static void insert(morning *today, sorghemi_job correction)
{
    pthread_mutex_lock(&today->lock);
    expect_accepted("insert", sorghemi_batch_insert(&today->batch, correction));
    pthread_cond_broadcast(&today->changed);
    pthread_mutex_unlock(&today->lock);
}

static void wait_until_finished(morning *today)
{
    pthread_mutex_lock(&today->lock);
    while (!sorghemi_batch_ask_batch(&today->batch).finished) {
        pthread_cond_wait(&today->changed, &today->lock);
    }
    pthread_mutex_unlock(&today->lock);
}

/* No more jobs come in: those who wait may leave then. */
static void close_line(morning *today)
{
    pthread_mutex_lock(&today->lock);
    today->line_open = false;
    pthread_cond_broadcast(&today->changed);
    pthread_mutex_unlock(&today->lock);
}

/* Corrections come in while the workers are at it, the last when all is done. Then the line is closed, whether all is done
 * or not. */
static void take_calls(morning *today)
{
    take_a_while(3);
    insert(today, JOB(SHIFT, 5, 1, {0, W}));
    take_a_while(60);
    insert(today, JOB(SPIKE, 30, 2, {1, M}, {2, R}));
    wait_until_finished(today);
    insert(today, JOB(SHIFT, -10, 1, {1, W}));
    take_a_while(12);
    close_line(today);
}

static void print_end(const sorghemi_batch *batch)
{
    int32_t heights[64];
    size_t count = sorghemi_batch_ask_batch(batch).cell_count;
    expect_accepted("copy out", sorghemi_batch_copy_out(batch, heights, 64, 0));
    printf("cells:");
    for (size_t cell = 0; cell < count; cell++) {
        printf(" %" PRId32, heights[cell]);
    }
    printf("\n");
}

/* So many workers, and the calls that come in meanwhile, until the last worker has ended. */
static void run(morning *today, long workers)
{
    pthread_t threads[MOST_WORKERS];
    pthread_attr_t attributes;
    pthread_attr_init(&attributes);
    pthread_attr_setstacksize(&attributes, STACK);
    today->free = (size_t)workers;
    for (long worker = 0; worker < workers; worker++) {
        if (pthread_create(&threads[worker], &attributes, work, today) != 0) {
            fprintf(stderr, "no thread could be started\n");
            exit(1);
        }
    }
    take_calls(today);
    for (long worker = 0; worker < workers; worker++) {
        pthread_join(threads[worker], NULL);
    }
    pthread_attr_destroy(&attributes);
}

int main(int count, char **words)
{
    static morning today = {.lock = PTHREAD_MUTEX_INITIALIZER, .changed = PTHREAD_COND_INITIALIZER, .line_open = true};
    long workers = count > 1 ? strtol(words[1], NULL, 10) : 8;
    if (workers < 1 || workers > MOST_WORKERS) {
        fprintf(stderr, "usage: threads [WORKERS, 1 to %d]\n", MOST_WORKERS);
        return 2;
    }
    plan(&today.batch);
    run(&today, workers);
    print_end(&today.batch);
    return 0;
}
