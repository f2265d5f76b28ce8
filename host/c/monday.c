/* Monday's batch, run by a host in C: a spike test that finds nothing, and the shift behind it run as a guess and kept.
 * Then the desk's numbers: what became of the guesses, on this morning and on a week of such mornings. Then a job that comes
 * in late: the harbour master rings with a correction when all is done. At last a job with a forecast. */
#include "sorghemi.h"

#include <inttypes.h>
#include <stdio.h>
#include <stdlib.h>

static const sorghemi_job spike = {.kind = SORGHEMI_KIND_SPIKE, .parameter = 1000, .arity = 2,
                                   .accesses = {{0, SORGHEMI_MODE_MAYBE_WRITE}, {1, SORGHEMI_MODE_READ}}};
static const sorghemi_job shift = {.kind = SORGHEMI_KIND_SHIFT, .parameter = 20, .arity = 1,
                                   .accesses = {{0, SORGHEMI_MODE_WRITE}}};
static const sorghemi_job correction = {.kind = SORGHEMI_KIND_SHIFT, .parameter = 5, .arity = 1,
                                        .accesses = {{0, SORGHEMI_MODE_WRITE}}};
/* The table's own check. It will find 1530, says the forecast. */
static const sorghemi_job table = {.kind = SORGHEMI_KIND_OUTSIDE, .arity = 1,
                                   .accesses = {{0, SORGHEMI_MODE_PREDICTED_WRITE}}, .predicted = {1530}};
static const sorghemi_report nothing = {{0, 0, 0, 0}, 0};

/* Ends the program at the first refusal. */
static void expect_accepted(const char *call, uint8_t refusal)
{
    if (refusal != SORGHEMI_ACCEPTED) {
        printf("%s: refused with %d: %s\n", call, refusal, sorghemi_refusal_words(refusal));
        exit(1);
    }
}

/* A step with a report, or with zeros where the step has none; prints and hands on the values that a start hands out. */
static sorghemi_handed step(sorghemi_batch *batch, uint8_t number, size_t job, sorghemi_report report)
{
    sorghemi_handed handed = sorghemi_step(batch, number, job, report);
    expect_accepted("step", handed.refusal);
    printf("step %d of job %zu", number, job);
    if (number == SORGHEMI_STEP_START_OWN || number == SORGHEMI_STEP_START_SPECULATION) {
        printf(": handed %" PRId32 " %" PRId32, handed.values[0], handed.values[1]);
    }
    printf("\n");
    return handed;
}

static sorghemi_choice choose(const sorghemi_batch *batch)
{
    sorghemi_choice choice = sorghemi_batch_choose(batch);
    expect_accepted("choose", choice.refusal);
    printf("chosen: step %d of job %d\n", choice.step, choice.job);
    return choice;
}

/* What a worker does: the job's kind says what comes of the values that it was handed. */
static sorghemi_report work(const sorghemi_job *job, const sorghemi_handed *handed)
{
    sorghemi_outcome outcome = sorghemi_result(job->kind, job->parameter, handed->values);
    sorghemi_report report = {.wrote = outcome.wrote};
    expect_accepted("result", outcome.refusal);
    for (size_t place = 0; place < 4; place++) {
        report.values[place] = outcome.values[place];
    }
    return report;
}

/* Prints whether all is done, and hands on how many jobs there are. */
static size_t print_finished(const sorghemi_batch *batch)
{
    sorghemi_batch_answer all = sorghemi_batch_ask_batch(batch);
    expect_accepted("ask", all.refusal);
    printf("finished: %s\n", all.finished ? "yes" : "no");
    return all.job_count;
}

static void print_end(const sorghemi_batch *batch)
{
    size_t count = print_finished(batch);
    for (size_t job = 0; job < count; job++) {
        sorghemi_job_answer answer = sorghemi_batch_ask_job(batch, job);
        expect_accepted("ask", answer.refusal);
        printf("job %zu: how %d, mark %d\n", job, answer.committed, answer.wrote);
    }
    int32_t copied[4] = {-1, -1, -1, -1};
    expect_accepted("copy out", sorghemi_batch_copy_out(batch, copied, 4, 1));
    printf("cells: %" PRId32 " %" PRId32 "\n", copied[1], copied[2]);
}

static void print_tally(const char *of, sorghemi_tally tally)
{
    sorghemi_share_answer share = sorghemi_kept_share(tally);
    printf("guesses of %s: %" PRIu32 " started, %" PRIu32 " kept, %" PRIu32 " thrown away, %" PRIu32 " out or stored; ", of,
           tally.started, tally.kept, tally.discarded, tally.pending);
    if (share.present) {
        printf("%" PRIu64 " thousandths kept\n", share.thousandths);
    } else {
        printf("no share\n");
    }
}

static void print_tallies(const sorghemi_batch *batch)
{
    sorghemi_tally_answer answer = sorghemi_batch_ask_tally(batch);
    expect_accepted("ask", answer.refusal);
    const sorghemi_tally monday = answer.tally;
    const sorghemi_tally quiet = {.jobs = 2};
    const sorghemi_tally fallen = {.jobs = 2, .started = 1, .discarded = 1};
    const sorghemi_tally week[] = {monday, quiet, monday, fallen, quiet};
    sorghemi_tally_answer total = sorghemi_total(week, sizeof week / sizeof *week);
    expect_accepted("total", total.refusal);
    print_tally("Monday", monday);
    print_tally("the week", total.tally);
    print_tally("a quiet day", quiet);
}

/* What the job's guess looked past, and for which of these jobs it still waits. */
static void print_guess(const sorghemi_batch *batch, size_t job)
{
    sorghemi_speculation_answer guess = sorghemi_batch_ask_speculation(batch, job);
    expect_accepted("ask", guess.refusal);
    printf("guess of job %zu: looked past %d; ", job, guess.bypassed.size);
    if (guess.open.present) {
        printf("%d open, the lowest job %d\n", guess.open.size, guess.open.lowest);
    } else {
        printf("none open\n");
    }
}

static void open_monday(sorghemi_batch *batch)
{
    const int32_t heights[] = {1500, 1480};
    expect_accepted("open", sorghemi_batch_open(batch, heights, 2));
    expect_accepted("insert", sorghemi_batch_insert(batch, spike));
    expect_accepted("insert", sorghemi_batch_insert(batch, shift));
    expect_accepted("seal", sorghemi_batch_seal(batch, 1));
}

/* While one worker has the spike test, another takes what the chooser names: the shift, as a guess. */
static void run_monday(sorghemi_batch *batch)
{
    sorghemi_handed to_spike = step(batch, SORGHEMI_STEP_START_OWN, 0, nothing);
    sorghemi_choice choice = choose(batch);
    sorghemi_handed to_shift = step(batch, choice.step, choice.job, nothing);
    step(batch, SORGHEMI_STEP_REPORT_SPECULATION, 1, work(&shift, &to_shift));
    print_guess(batch, 1);
    step(batch, SORGHEMI_STEP_REPORT_OWN, 0, work(&spike, &to_spike));
    print_guess(batch, 1);
    step(batch, SORGHEMI_STEP_COMMIT, 1, nothing);
}

/* A finished batch that gains a job is unfinished again, and the job is worked like any other. */
static void correct(sorghemi_batch *batch)
{
    printf("a correction comes in\n");
    expect_accepted("insert", sorghemi_batch_insert(batch, correction));
    print_finished(batch);
    sorghemi_choice choice = choose(batch);
    sorghemi_handed handed = step(batch, choice.step, choice.job, nothing);
    step(batch, SORGHEMI_STEP_REPORT_OWN, choice.job, work(&correction, &handed));
}

/* With a forecast the table's guess does not wait for the correction before it, and is kept where the forecast was right. */
static void run_forecast(sorghemi_batch *batch)
{
    printf("another correction comes in, and a job with a forecast\n");
    expect_accepted("insert", sorghemi_batch_insert(batch, correction));
    expect_accepted("insert", sorghemi_batch_insert(batch, table));
    sorghemi_handed to_correction = step(batch, SORGHEMI_STEP_START_OWN, 3, nothing);
    sorghemi_handed to_table = step(batch, SORGHEMI_STEP_START_SPECULATION, 4, nothing);
    sorghemi_report rounded = {.values = {to_table.values[0] + 2}};
    step(batch, SORGHEMI_STEP_REPORT_SPECULATION, 4, rounded);
    step(batch, SORGHEMI_STEP_REPORT_OWN, 3, work(&correction, &to_correction));
    step(batch, SORGHEMI_STEP_COMMIT, 4, nothing);
}

int main(void)
{
    sorghemi_batch batch;
    open_monday(&batch);
    run_monday(&batch);
    print_end(&batch);
    print_tallies(&batch);
    correct(&batch);
    print_end(&batch);
    run_forecast(&batch);
    print_end(&batch);
    return 0;
}
