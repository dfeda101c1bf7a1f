/* A small host in C. It loads the image named on the command line, starts its outermost closure and runs it to its end. A script finds the host's own function in builtin 1:
   asked with a layer, it answers what a via from there costs.

   cc -Iinclude host/c/via.c target/staticlib/libexecutor.a -o via && ./via host/samples/callback.image */
#include "lucia.h"

#include <inttypes.h>
#include <stdio.h>

#define FUEL 10000
#define TICKS 1000   /* of one run: the host gets its turn again after so many */
#define VIA_COST 1   /* the name number, and the number of the host's function */
#define LAYERS 64
#define COST_OF_LAYER 10

/* One byte more than an image may have, so that a longer file is refused and not cut. */
static uint8_t image[LUCIA_IMAGE_MOST + 1];
static uint8_t state[LUCIA_STATE_BYTES];
static uint8_t live[LUCIA_LIVE_CELLS * LUCIA_CELL_BYTES];
static uint8_t store[LUCIA_STORE_CELLS * LUCIA_CELL_BYTES];

/* Says what was refused, and by which number; docs/ANSWERS.md has its meaning. */
static int refused(const char *call, uint32_t code) {
    fprintf(stderr, "%s: refused with %" PRIu32 "\n", call, code);
    return 1;
}

static int read_image(const char *path, lucia_loans *job) {
    FILE *file = fopen(path, "rb");
    if (file == NULL) {
        perror(path);
        return 2;
    }
    job->image_len = fread(image, 1, sizeof image, file);
    fclose(file);
    return 0;
}

/* Loads, makes the host's function known, and starts the outermost closure. */
static int begin(lucia_loans job) {
    const uint8_t no_args[1] = {0}; /* a loan of length 0 needs a pointer all the same */
    lucia_value price = lucia_value_of(LUCIA_CALLBACK, VIA_COST, 0);
    lucia_got outermost = lucia_load(LUCIA_LENT(job));
    uint32_t code = outermost.code;
    if (code != LUCIA_ACCEPTED) return refused("load", code);
    code = lucia_set_builtin(LUCIA_LENT(job), VIA_COST, LUCIA_BOTH(price));
    if (code != LUCIA_ACCEPTED) return refused("set_builtin", code);
    code = lucia_start(LUCIA_LENT(job), LUCIA_BOTH(outermost), no_args, 0);
    return code == LUCIA_ACCEPTED ? 0 : refused("start", code);
}

/* What a via costs, if the host is asked with one layer of the board. */
static int price(lucia_loans job, lucia_frame asked, int64_t *cost) {
    lucia_value layer;
    if (asked.stack != 1) return 0;
    layer = lucia_cell_at(job.live, asked.stack_at);
    if (lucia_tag(layer) != LUCIA_INT || lucia_int_of(layer) < 0 || lucia_int_of(layer) >= LAYERS) return 0;
    *cost = COST_OF_LAYER * lucia_int_of(layer);
    printf("asked     function %" PRIu32 ": a via from layer %" PRId64 "; answered %" PRId64 "\n", lucia_number(asked.callee), lucia_int_of(layer), *cost);
    return 1;
}

/* The script asks the host. The word of the frame counts how often; a question that can't be answered gets an Error. */
static uint32_t answer(lucia_loans job, uint8_t *fuel) {
    const uint8_t none[1] = {0};
    lucia_frame asked = lucia_top_frame(job.state, job.live);
    int64_t cost = 0;
    uint32_t kind = price(job, asked, &cost) ? LUCIA_ANSWER_RETURN_VALUE : LUCIA_ANSWER_ERROR;
    lucia_value subject = lucia_int(cost);
    return lucia_answer(LUCIA_LENT(job), fuel, LUCIA_FUEL_BYTES, kind, lucia_payload(asked.callee) + 1, LUCIA_BOTH(subject), none, 0, none, 0);
}

/* Runs to the end: a paused run is followed by the next, a wait by the host's answer. */
static uint32_t run(lucia_loans job, uint8_t *fuel, uint64_t *ticks) {
    lucia_ran ran;
    for (;;) {
        ran = lucia_run(LUCIA_LENT(job), fuel, LUCIA_FUEL_BYTES, TICKS);
        *ticks += ran.ticks;
        if (ran.code == LUCIA_HOST) ran.code = answer(job, fuel);
        if (ran.code != LUCIA_PAUSED && ran.code != LUCIA_GO_ON) return ran.code;
    }
}

static int print_result(lucia_loans job) {
    uint64_t kind = lucia_u64_at(job.state + LUCIA_AT_RESULT_KIND);
    lucia_value value = lucia_cell_at(job.state + LUCIA_AT_RESULT, 0);
    if (kind == LUCIA_RESULT_VALUE && lucia_tag(value) == LUCIA_INT) {
        printf("result    %" PRId64 "\n", lucia_int_of(value));
        return 0;
    }
    printf("result    of kind %" PRIu64 ", tag %" PRIu32 ", number %" PRIu32 ", payload %" PRIu64 "\n", kind, lucia_tag(value), lucia_number(value), lucia_payload(value));
    return 1;
}

int main(int argc, char **argv) {
    lucia_loans job = {image, 0, state, sizeof state, live, sizeof live, store, sizeof store};
    uint8_t fuel[LUCIA_FUEL_BYTES];
    uint64_t ticks = 0;
    uint32_t code;
    int failed;
    if (argc != 2) {
        fprintf(stderr, "usage: %s IMAGE\n", argv[0]);
        return 2;
    }
    failed = read_image(argv[1], &job);
    if (failed == 0) failed = begin(job);
    if (failed != 0) return failed;
    lucia_set_fuel(fuel, FUEL);
    code = run(job, fuel, &ticks);
    if (code < LUCIA_DONE) return refused("run", code);
    printf("answer    %" PRIu32 "\nticks     %" PRIu64 "\nfuel      %" PRId32 " left of %d\n", code, ticks, lucia_fuel_left(fuel), FUEL);
    return code == LUCIA_DONE ? print_result(job) : 1;
}
