/* The batch engine for hosts in C: a batch record that the host owns, and functions over it.
 *
 * Every function of the library takes the record by value and hands the changed one back with its answer, but for
 * sorghemi_step, sorghemi_insert_all and sorghemi_turn, to which the host lends its record. An answer's `refusal` is
 * SORGHEMI_ACCEPTED or the number of a refusal, and a refused call changes nothing. Functions here that begin with
 * sorghemi_batch_ do the same on a record behind a pointer. What the calls do is said in docs/RULES.md, and what a host
 * with threads has to know in host/README.md.
 *
 * Stack: a step touches 106 KB, no other call on a batch more, and the answer to a plan 119 KB (host/README.md has the
 * figures). A thread with 256 KiB has enough.
 */
#ifndef SORGHEMI_H
#define SORGHEMI_H

#include <stdbool.h>
#include <stddef.h>
#include <stdint.h>

/* Names for the numbers of the rules. The structs keep the numbers as bytes. */

enum { /* what a job may do with a cell (R3) */
    SORGHEMI_MODE_READ = 0,
    SORGHEMI_MODE_WRITE = 1,
    SORGHEMI_MODE_MAYBE_WRITE = 2,
    SORGHEMI_MODE_PREDICTED_WRITE = 3, /* a write whose old height the job's own guess is told beforehand (R23, R46) */
};

enum { /* the kinds of jobs (R11 to R17) */
    SORGHEMI_KIND_OUTSIDE = 0,
    SORGHEMI_KIND_SET = 1,
    SORGHEMI_KIND_SHIFT = 2,
    SORGHEMI_KIND_SPIKE = 3,
    SORGHEMI_KIND_FLOOR = 4,
    SORGHEMI_KIND_MEAN = 5,
    SORGHEMI_KIND_PAIR = 6,
};

enum { /* the steps (R51 to R55) */
    SORGHEMI_STEP_START_OWN = 0,
    SORGHEMI_STEP_START_SPECULATION = 1, /* start the job's guess */
    SORGHEMI_STEP_REPORT_OWN = 2,
    SORGHEMI_STEP_REPORT_SPECULATION = 3,
    SORGHEMI_STEP_COMMIT = 4, /* settle the job by its guess */
};

enum { /* how a job is settled (R72) */
    SORGHEMI_COMMITTED_NOT_YET = 0,
    SORGHEMI_COMMITTED_BY_OWN_RUN = 1,
    SORGHEMI_COMMITTED_BY_SPECULATION = 2,
};

enum { /* the state of a job's guess (R40) */
    SORGHEMI_PHASE_NEVER_STARTED = 0,
    SORGHEMI_PHASE_OUT = 1,
    SORGHEMI_PHASE_STORED = 2,
    SORGHEMI_PHASE_DISCARDED = 3, /* thrown away */
};

enum { /* how a job's guess is judged (R45) */
    SORGHEMI_VALIDITY_NO_RUN = 0,    /* there is none to judge: none is out or stored, or the job is settled */
    SORGHEMI_VALIDITY_UNDECIDED = 1, /* it is not yet to be judged: the job is not ready */
    SORGHEMI_VALIDITY_VALID = 2,     /* it stands: it was handed the present heights */
    SORGHEMI_VALIDITY_INVALID = 3,   /* it has fallen: it will never be settled, and its worker can give it up */
};

/* The refusals: number, name and words. Refusal n is rule R(100 + n). 22 is the fault of a plan, which no call here gives. */
#define SORGHEMI_REFUSALS(ROW) \
    ROW(1, CELL_COUNT, "a batch has 1 to 64 cells") \
    ROW(2, SEALED, "the batch is sealed already") \
    ROW(3, TOO_MANY_JOBS, "128 jobs are held already") \
    ROW(4, ACCESS_COUNT, "a job has 1 to 4 accesses") \
    ROW(5, NO_SUCH_CELL, "there is no such cell") \
    ROW(6, NO_SUCH_MODE, "a mode is 0 (read), 1 (write), 2 (maybe-write) or 3 (predicted write)") \
    ROW(7, CELL_TWICE, "a cell stands twice in the job") \
    ROW(8, WRONG_KIND, "there is no such kind, its modes are others, or it has no result built in") \
    ROW(9, WRONG_SWITCH, "the guess switch is 0 or 1") \
    ROW(10, NOT_SEALED, "the batch is not sealed yet") \
    ROW(11, NO_SUCH_JOB, "there is no such job") \
    ROW(12, GUESSING_OFF, "guessing is off") \
    ROW(13, WRONG_STATE, "the job is not in the state for this step") \
    ROW(14, JOB_READY, "the job is ready: it needs no guess") \
    ROW(15, MUST_WAIT, \
        "an earlier job that this one waits for is not settled, or has no stored report to take a value from") \
    ROW(16, WRONG_MARK, "a mark is 0 or 1, and 1 only from a job that maybe-writes") \
    ROW(17, GUESS_STANDS, "the job's guess stands: report or settle it") \
    ROW(18, GUESS_FALLEN, "the guess has fallen") \
    ROW(19, NOTHING_TO_START, "no step 4, 0 or 1 is allowed now") \
    ROW(20, BUFFER_TOO_SMALL, "the buffer has fewer places left than there are cells, or than a plan's answer may take") \
    ROW(21, NO_SUCH_STEP, \
        "a step's number is 0 to 4, a turn's report has 2 or 3; of a plan: the line is not in form, or the plan ends too soon") \
    ROW(22, PLAN_TOO_LONG, "a plan has at most 65,536 bytes") \
    ROW(23, TOTAL_TOO_LARGE, "a total of the tallies would be more than 4,294,967,295") \
    ROW(32, OUT_OF_FORM, "the record is out of form, or made for a library with another layout")

enum { /* SORGHEMI_REFUSED_CELL_COUNT and so on */
    SORGHEMI_ACCEPTED = 0,
#define SORGHEMI_ROW(number, name, words) SORGHEMI_REFUSED_##name = number,
    SORGHEMI_REFUSALS(SORGHEMI_ROW)
#undef SORGHEMI_ROW
};

/* What the number of a refusal means, in words. */
static inline const char *sorghemi_refusal_words(uint8_t refusal)
{
    switch (refusal) {
    case SORGHEMI_ACCEPTED:
        return "accepted";
#define SORGHEMI_ROW(number, name, words) case number: return words;
        SORGHEMI_REFUSALS(SORGHEMI_ROW)
#undef SORGHEMI_ROW
    default:
        return "a number that this version does not know";
    }
}

/* How many bytes a buffer for the answer to a plan has to have (R153). No answer fills it. */
#define SORGHEMI_LONGEST_ANSWER 334861

/* The number that a turn is given where it brings no report (R64). */
#define SORGHEMI_NO_REPORT 255

/* How many steps a turn takes at the most, whatever its limit (R64). */
#define SORGHEMI_MOST_STEPS 16

/* One access of a job: a cell by its number, and its mode. */
typedef struct {
    uint8_t cell;
    uint8_t mode;
} sorghemi_access;

/* A job as inserted: its kind, its accesses, of which the first `arity` places are in use, the kind's parameter, and a
 * prediction for each access. With mode 3 the job's guess is handed the prediction for that cell, and waits for nobody on
 * its account; with other modes it is kept and not looked at. Name the fields when you write one down:
 *     sorghemi_job job = { .kind = SORGHEMI_KIND_OUTSIDE, .arity = 1,
 *                          .accesses = { { .cell = 0, .mode = SORGHEMI_MODE_PREDICTED_WRITE } }, .predicted = { 1510 } }; */
typedef struct {
    uint8_t kind;
    uint8_t arity;
    sorghemi_access accesses[4];
    int32_t parameter;
    int32_t predicted[4];
} sorghemi_job;

/* A set of jobs: bit j of `low` is job j, bit j of `high` is job 64 + j. */
typedef struct {
    uint64_t low;
    uint64_t high;
} sorghemi_job_set;

/* A job's run: the values handed out, and the values and the mark of its report as stored. A job holds one run at a
 * time, its own or its guess. Of a guess also where its values came from: `sources` has for each access one more than
 * the number of the job whose guess the value was taken from, 0 for the cell itself or a prediction, and `bypassed` has
 * the jobs that it looked past. */
typedef struct {
    int32_t handed[4];
    int32_t reported[4];
    uint8_t wrote;
    uint8_t sources[4];
    sorghemi_job_set bypassed;
} sorghemi_run;

/* A batch. The first `cell_count` cells and the first `job_count` places of each column are in use; what stands in the
 * other places is never looked at. */
typedef struct {
    uint8_t cell_count;
    uint8_t job_count;
    uint8_t sealed;      /* 1 once the batch is sealed, else 0 */
    uint8_t speculating; /* 1 if guesses may be started, else 0 */
    int32_t cells[64];
    sorghemi_job jobs[128];
    sorghemi_run runs[128];
    uint8_t committed[128]; /* how the job is settled */
    uint8_t running[128];   /* 1 while the job's own run is out, else 0 */
    uint8_t phase[128];     /* the state of the job's guess */
} sorghemi_batch;

/* A list of jobs to insert: the first `count` places of `jobs` are in use, and what stands in the others is never looked at. */
typedef struct {
    size_t count;
    sorghemi_job jobs[128];
} sorghemi_job_list;

/* What a call that is accepted changes of the record, and nothing else changes (R94 of docs/RULES.md):
 * insert: the job comes into the first place not in use, with zeros in its run and in the other columns; job_count grows.
 * insert_all: so for each job of the list.
 * seal: sealed becomes 1, speculating what the host says.
 * step 0: the job's run becomes the values handed out, zeros else; running becomes 1, and a phase other than 0 becomes 3.
 * step 1: the job's run becomes the values handed out with their sources and bypassed, zeros else; phase becomes 1.
 * step 2: the report is stored in the run and written into the cells; committed becomes 1, running 0.
 * step 3: the report is stored in the run; phase becomes 2.
 * step 4: the stored report is written into the cells; committed becomes 2.
 * turn: so for its report and for each of its steps, in their order. */

/* What a worker reports: a value for each access, and 1 if the maybe-write cells were written, else 0. */
typedef struct {
    int32_t values[4];
    uint8_t wrote;
} sorghemi_report;

/* What a step on a lent record answers: the values handed to a run that it started, and four zeros otherwise. */
typedef struct {
    uint8_t refusal;
    int32_t values[4];
} sorghemi_handed;

/* The same from a step by value, with the record handed back. */
typedef struct {
    uint8_t refusal;
    int32_t handed[4];
    sorghemi_batch batch;
} sorghemi_started;

typedef struct {
    uint8_t refusal;
    sorghemi_batch batch;
} sorghemi_answer;

/* What inserting a list into a lent record answers: of a refused list also the place of the job that is refused, 0 for the
 * first. `at` is 0 where the list is accepted, and with 32. */
typedef struct {
    uint8_t refusal;
    uint8_t at;
} sorghemi_inserted;

/* A step that a turn took: its number, which is 4, 0 or 1, its job, and the values handed to the run that it started, four
 * zeros for step 4. */
typedef struct {
    uint8_t step;
    uint8_t job;
    int32_t handed[4];
} sorghemi_taken;

/* The steps of a turn, from the first place on in the order in which they were taken; zeros in the places after them. */
typedef struct {
    sorghemi_taken taken[SORGHEMI_MOST_STEPS];
} sorghemi_step_list;

/* What a turn on a lent record answers: how many steps it took, 0 where it is refused. */
typedef struct {
    uint8_t refusal;
    uint8_t count;
} sorghemi_turned;

/* What the chooser names: a step, its job, and the length of the job's chain, which is the longest list of jobs from it on in which
   each names a cell that the one before it may write. Zeros where it is refused. */
typedef struct {
    uint8_t refusal;
    uint8_t step;
    uint8_t job;
    uint8_t chain;
} sorghemi_choice;

/* A cell's height, 0 where it is refused. */
typedef struct {
    uint8_t refusal;
    int32_t height;
} sorghemi_cell_answer;

/* How a job stands: the columns and the run's values as the record has them, and the job as inserted. `wrote` is the
 * mark of a settled job, and 0 before that. `validity` is how its guess is judged. Zeros where it is refused. */
typedef struct {
    uint8_t refusal;
    uint8_t committed;
    uint8_t wrote;
    uint8_t running;
    uint8_t phase;
    uint8_t validity;
    int32_t handed[4];
    int32_t reported[4];
    sorghemi_job job;
} sorghemi_job_answer;

/* What is told of a set of jobs (R78): how many there are, and the lowest number among them. `present` says whether there is
 * a lowest; where the set is empty there is none, and 0 stands there. */
typedef struct {
    uint8_t size;
    bool present;
    uint8_t lowest;
} sorghemi_set_answer;

/* What a job's guess looked past (R79): all these jobs, and the open ones among them, which are not settled: for these the
 * guess still waits. Of a job whose guess is neither out nor stored both sets are empty. Zeros where it is refused. */
typedef struct {
    uint8_t refusal;
    sorghemi_set_answer bypassed;
    sorghemi_set_answer open;
} sorghemi_speculation_answer;

/* How the batch stands: finished while it is sealed and every job settled, so a job that is inserted makes it unfinished
 * again. Zeros where it is refused. */
typedef struct {
    uint8_t refusal;
    uint8_t cell_count;
    uint8_t job_count;
    uint8_t sealed;
    uint8_t speculating;
    bool finished;
} sorghemi_batch_answer;

/* What a kind's check makes of the values handed to it. Where the kind is refused they come back as they were. */
typedef struct {
    uint8_t refusal;
    int32_t values[4];
    uint8_t wrote;
} sorghemi_outcome;

/* How many bytes of a lent buffer the answer to a plan takes; 0 where it is refused. */
typedef struct {
    uint8_t refusal;
    size_t length;
} sorghemi_plan_answer;

/* What became of the guesses of a batch, or of many (R75): how many jobs there are, and how many of their guesses were
 * started, are kept (the job is settled by it), are thrown away, and are pending: still out or stored, the job not settled. */
typedef struct {
    uint32_t jobs;
    uint32_t started;
    uint32_t kept;
    uint32_t discarded;
    uint32_t pending;
} sorghemi_tally;

/* A tally; zeros where it is refused. */
typedef struct {
    uint8_t refusal;
    sorghemi_tally tally;
} sorghemi_tally_answer;

/* The kept share in whole thousandths. Where no guess was started there is none, and 0 stands there. */
typedef struct {
    bool present;
    uint64_t thousandths;
} sorghemi_share_answer;

#ifdef __cplusplus
extern "C" {
#endif

/* The library. Refusals: open 1; insert and insert_all 3 to 8; seal 2, 9; a step 10 to 18, and 21 for a number above 4;
 * choose 10, 19; a turn 10, 11, 13, 16, and 21 for a number that is not 2, 3 or 255; ask_cell 5; ask_job and
 * ask_speculation 11; copy_out 20; total 23; and of the calls that take a record, before all others, 32 where it is out of
 * form. */
sorghemi_answer sorghemi_open(const int32_t *heights, size_t count);
sorghemi_answer sorghemi_insert(sorghemi_batch batch, sorghemi_job job);
/* Inserts the jobs of the list, one after the other, with the next numbers (R25). The first job that is refused ends it: then
 * none is inserted. A count above 128 is no mistake of its own: the job that finds no place is refused with 3, if none before
 * it is. */
sorghemi_inserted sorghemi_insert_all(sorghemi_batch *batch, const sorghemi_job_list *list);
sorghemi_answer sorghemi_seal(sorghemi_batch batch, uint8_t guessing);
/* The step with the number, 0 to 4, on the job. Steps 0, 1 and 4 do not look at the report. */
sorghemi_handed sorghemi_step(sorghemi_batch *batch, uint8_t number, size_t job, sorghemi_report report);
sorghemi_started sorghemi_step_by_value(sorghemi_batch batch, uint8_t number, size_t job, sorghemi_report report);
sorghemi_choice sorghemi_choose(sorghemi_batch batch);
/* A worker's turn (R64 to R66): makes its report, and then the step that sorghemi_choose would name, and this again and
 * again, until so many steps are taken as the limit says, or 16, or none is allowed.
 *
 * The number is 2 for a report on the job's own run, 3 for one on its guess, as in sorghemi_step; or SORGHEMI_NO_REPORT,
 * and then job and report are not looked at. The list is written whole: the steps that were taken, and zeros after them.
 * Where they are fewer than the limit, and fewer than SORGHEMI_MOST_STEPS, no step 4, 0 or 1 is allowed any more before
 * another report, or another job. With a limit of 0 nothing is taken, and the report alone is made.
 *
 * Refused like its report; without one with 10 where the batch is not sealed. Neither record nor list is changed then. That
 * no step is allowed is no refusal: the count is 0. */
sorghemi_turned sorghemi_turn(sorghemi_batch *batch, uint8_t number, size_t job, sorghemi_report report, size_t limit,
                              sorghemi_step_list *steps);
sorghemi_cell_answer sorghemi_ask_cell(sorghemi_batch batch, size_t cell);
sorghemi_job_answer sorghemi_ask_job(sorghemi_batch batch, size_t job);
/* What the job's guess looked past, and what of it is not settled yet. */
sorghemi_speculation_answer sorghemi_ask_speculation(sorghemi_batch batch, size_t job);
sorghemi_batch_answer sorghemi_ask_batch(sorghemi_batch batch);
/* Copies the cells to the buffer's places from `at` on; all other places keep their values. */
uint8_t sorghemi_copy_out(sorghemi_batch batch, int32_t *buffer, size_t size, size_t at);
/* What became of the batch's guesses so far. Refused with 32 alone. */
sorghemi_tally_answer sorghemi_ask_tally(sorghemi_batch batch);
/* The tallies added up, one for each batch; none gives zeros. Refused with 23. */
sorghemi_tally_answer sorghemi_total(const sorghemi_tally *tallies, size_t count);
/* How many thousandths of the guesses started were kept, rounded down. */
sorghemi_share_answer sorghemi_kept_share(sorghemi_tally tally);
/* What a job of a kind 1 to 6 reports of the four values handed to it. Refused with 8. */
sorghemi_outcome sorghemi_result(uint8_t kind, int32_t parameter, const int32_t *handed);
/* Byte for byte what the program gaugebatch answers to the plan, at the buffer's beginning; the other bytes of the buffer
 * stay. Refused with 20 where the buffer has fewer than SORGHEMI_LONGEST_ANSWER bytes. */
sorghemi_plan_answer sorghemi_answer_plan(const uint8_t *plan, size_t length, uint8_t *buffer, size_t size);
/* The list of sizes and offsets that the library was built with; 0 past its end. */
uint32_t sorghemi_layout(size_t place);

#ifdef __cplusplus
}
#endif

/* The same list as this header has it: a version, then of each struct its size and the offsets of its fields. */
#define SORGHEMI_AT(type, field) ((uint32_t)offsetof(type, field))
static const uint32_t sorghemi_header_layout[] = {
    7,
    sizeof(sorghemi_batch), SORGHEMI_AT(sorghemi_batch, cell_count), SORGHEMI_AT(sorghemi_batch, job_count),
    SORGHEMI_AT(sorghemi_batch, sealed), SORGHEMI_AT(sorghemi_batch, speculating), SORGHEMI_AT(sorghemi_batch, cells),
    SORGHEMI_AT(sorghemi_batch, jobs), SORGHEMI_AT(sorghemi_batch, runs), SORGHEMI_AT(sorghemi_batch, committed),
    SORGHEMI_AT(sorghemi_batch, running), SORGHEMI_AT(sorghemi_batch, phase),
    sizeof(sorghemi_run), SORGHEMI_AT(sorghemi_run, handed), SORGHEMI_AT(sorghemi_run, reported),
    SORGHEMI_AT(sorghemi_run, wrote), SORGHEMI_AT(sorghemi_run, sources), SORGHEMI_AT(sorghemi_run, bypassed),
    sizeof(sorghemi_job_set), SORGHEMI_AT(sorghemi_job_set, low), SORGHEMI_AT(sorghemi_job_set, high),
    sizeof(sorghemi_job), SORGHEMI_AT(sorghemi_job, kind), SORGHEMI_AT(sorghemi_job, arity),
    SORGHEMI_AT(sorghemi_job, accesses), SORGHEMI_AT(sorghemi_job, parameter), SORGHEMI_AT(sorghemi_job, predicted),
    sizeof(sorghemi_access), SORGHEMI_AT(sorghemi_access, cell), SORGHEMI_AT(sorghemi_access, mode),
    sizeof(sorghemi_report), SORGHEMI_AT(sorghemi_report, values), SORGHEMI_AT(sorghemi_report, wrote),
    sizeof(sorghemi_handed), SORGHEMI_AT(sorghemi_handed, refusal), SORGHEMI_AT(sorghemi_handed, values),
    sizeof(sorghemi_started), SORGHEMI_AT(sorghemi_started, refusal), SORGHEMI_AT(sorghemi_started, handed),
    SORGHEMI_AT(sorghemi_started, batch),
    sizeof(sorghemi_answer), SORGHEMI_AT(sorghemi_answer, refusal), SORGHEMI_AT(sorghemi_answer, batch),
    sizeof(sorghemi_choice), SORGHEMI_AT(sorghemi_choice, refusal), SORGHEMI_AT(sorghemi_choice, step),
    SORGHEMI_AT(sorghemi_choice, job), SORGHEMI_AT(sorghemi_choice, chain),
    sizeof(sorghemi_cell_answer), SORGHEMI_AT(sorghemi_cell_answer, refusal), SORGHEMI_AT(sorghemi_cell_answer, height),
    sizeof(sorghemi_job_answer), SORGHEMI_AT(sorghemi_job_answer, refusal), SORGHEMI_AT(sorghemi_job_answer, committed),
    SORGHEMI_AT(sorghemi_job_answer, wrote), SORGHEMI_AT(sorghemi_job_answer, running),
    SORGHEMI_AT(sorghemi_job_answer, phase), SORGHEMI_AT(sorghemi_job_answer, validity),
    SORGHEMI_AT(sorghemi_job_answer, handed),
    SORGHEMI_AT(sorghemi_job_answer, reported), SORGHEMI_AT(sorghemi_job_answer, job),
    sizeof(sorghemi_batch_answer), SORGHEMI_AT(sorghemi_batch_answer, refusal),
    SORGHEMI_AT(sorghemi_batch_answer, cell_count), SORGHEMI_AT(sorghemi_batch_answer, job_count),
    SORGHEMI_AT(sorghemi_batch_answer, sealed), SORGHEMI_AT(sorghemi_batch_answer, speculating),
    SORGHEMI_AT(sorghemi_batch_answer, finished),
    sizeof(sorghemi_outcome), SORGHEMI_AT(sorghemi_outcome, refusal), SORGHEMI_AT(sorghemi_outcome, values),
    SORGHEMI_AT(sorghemi_outcome, wrote),
    sizeof(sorghemi_plan_answer), SORGHEMI_AT(sorghemi_plan_answer, refusal), SORGHEMI_AT(sorghemi_plan_answer, length),
    sizeof(sorghemi_tally), SORGHEMI_AT(sorghemi_tally, jobs), SORGHEMI_AT(sorghemi_tally, started),
    SORGHEMI_AT(sorghemi_tally, kept), SORGHEMI_AT(sorghemi_tally, discarded), SORGHEMI_AT(sorghemi_tally, pending),
    sizeof(sorghemi_tally_answer), SORGHEMI_AT(sorghemi_tally_answer, refusal), SORGHEMI_AT(sorghemi_tally_answer, tally),
    sizeof(sorghemi_share_answer), SORGHEMI_AT(sorghemi_share_answer, present),
    SORGHEMI_AT(sorghemi_share_answer, thousandths),
    sizeof(sorghemi_set_answer), SORGHEMI_AT(sorghemi_set_answer, size), SORGHEMI_AT(sorghemi_set_answer, present),
    SORGHEMI_AT(sorghemi_set_answer, lowest),
    sizeof(sorghemi_speculation_answer), SORGHEMI_AT(sorghemi_speculation_answer, refusal),
    SORGHEMI_AT(sorghemi_speculation_answer, bypassed), SORGHEMI_AT(sorghemi_speculation_answer, open),
    sizeof(sorghemi_job_list), SORGHEMI_AT(sorghemi_job_list, count), SORGHEMI_AT(sorghemi_job_list, jobs),
    sizeof(sorghemi_inserted), SORGHEMI_AT(sorghemi_inserted, refusal), SORGHEMI_AT(sorghemi_inserted, at),
    sizeof(sorghemi_taken), SORGHEMI_AT(sorghemi_taken, step), SORGHEMI_AT(sorghemi_taken, job),
    SORGHEMI_AT(sorghemi_taken, handed),
    sizeof(sorghemi_step_list), SORGHEMI_AT(sorghemi_step_list, taken),
    sizeof(sorghemi_turned), SORGHEMI_AT(sorghemi_turned, refusal), SORGHEMI_AT(sorghemi_turned, count),
};
#undef SORGHEMI_AT

/* Whether the library was built with the structs of this header. A host that does not open its batch here, but goes on with
 * a record that it kept, asks this first. */
static inline bool sorghemi_same_layout(void)
{
    size_t count = sizeof sorghemi_header_layout / sizeof *sorghemi_header_layout;
    for (size_t place = 0; place < count; place++) {
        if (sorghemi_layout(place) != sorghemi_header_layout[place]) {
            return false;
        }
    }
    return sorghemi_layout(count) == 0;
}

/* Opens a batch in the record. Refused with 1; or with 32, and the library does not touch the record, if it was built
 * with other structs than this header's: every host opens its batches here, so that it is refused and not corrupted. */
static inline uint8_t sorghemi_batch_open(sorghemi_batch *batch, const int32_t *heights, size_t count)
{
    if (!sorghemi_same_layout()) {
        return SORGHEMI_REFUSED_OUT_OF_FORM;
    }
    sorghemi_answer answer = sorghemi_open(heights, count);
    if (answer.refusal == SORGHEMI_ACCEPTED) {
        *batch = answer.batch;
    }
    return answer.refusal;
}

/* Inserts the job into the record as its last one, with the next number. It may come at any moment, before or after the
 * seal, with runs out or all others settled (R6); the batch is then not finished, and nothing else is disturbed (R180). */
static inline uint8_t sorghemi_batch_insert(sorghemi_batch *batch, sorghemi_job job)
{
    sorghemi_answer answer = sorghemi_insert(*batch, job);
    *batch = answer.batch;
    return answer.refusal;
}

/* Seals the record, once for a batch: says whether guesses may be started (1) or not (0). Steps and choices come after it,
 * and further jobs may. */
static inline uint8_t sorghemi_batch_seal(sorghemi_batch *batch, uint8_t guessing)
{
    sorghemi_answer answer = sorghemi_seal(*batch, guessing);
    *batch = answer.batch;
    return answer.refusal;
}

/* The step worth taking next on the record. */
static inline sorghemi_choice sorghemi_batch_choose(const sorghemi_batch *batch)
{
    return sorghemi_choose(*batch);
}

/* Asks the record for a cell. */
static inline sorghemi_cell_answer sorghemi_batch_ask_cell(const sorghemi_batch *batch, size_t cell)
{
    return sorghemi_ask_cell(*batch, cell);
}

/* Asks the record for a job. */
static inline sorghemi_job_answer sorghemi_batch_ask_job(const sorghemi_batch *batch, size_t job)
{
    return sorghemi_ask_job(*batch, job);
}

/* Asks the record what a job's guess looked past, and for which of these jobs it still waits. */
static inline sorghemi_speculation_answer sorghemi_batch_ask_speculation(const sorghemi_batch *batch, size_t job)
{
    return sorghemi_ask_speculation(*batch, job);
}

/* Asks how the record stands. */
static inline sorghemi_batch_answer sorghemi_batch_ask_batch(const sorghemi_batch *batch)
{
    return sorghemi_ask_batch(*batch);
}

/* Asks what became of the record's guesses so far. */
static inline sorghemi_tally_answer sorghemi_batch_ask_tally(const sorghemi_batch *batch)
{
    return sorghemi_ask_tally(*batch);
}

/* Copies the record's cells to the buffer's places from `at` on. */
static inline uint8_t sorghemi_batch_copy_out(const sorghemi_batch *batch, int32_t *buffer, size_t size, size_t at)
{
    return sorghemi_copy_out(*batch, buffer, size, at);
}

#endif
