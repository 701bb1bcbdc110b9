/*
 * The heaviest calls on a stack of 256 KiB: every answer and every lent buffer must be those of the same calls on a usual stack.
 *
 *     stack MODEL ..
 *
 * The small stack stands above a wide stretch of memory that nobody may touch, so that a call that needs more ends the
 * program. It is filled with a pattern beforehand, so that the bytes used can be told.
 */
#define _GNU_SOURCE
#include <inttypes.h>
#include <pthread.h>
#include <stdio.h>
#include <string.h>
#include <sys/mman.h>

#include "pdevs.h"

enum { STACK = 256 * 1024, GUARD = 64 * 1024 * 1024, PATTERN = 0xa5, RUN = PDEVS_MAX_RUN + 7, TRACE = 8 * 1024 * 1024, MAX_ANSWERS = 600 };

/* What a list of calls answers, and what the lent buffers hold at its end. */
typedef struct {
    const uint8_t *model;
    size_t model_len;
    uint64_t answers[MAX_ANSWERS];
    size_t count;
    uint64_t steps, trace_bytes; /* of all advances, feeds and channels together */
    uint8_t run[RUN];
    uint8_t runs[PDEVS_MAX_CHANNELS * RUN + 5];
    uint8_t rules[PDEVS_MAX_RULES_TABLE + 7];
    uint8_t flat[PDEVS_MAX_MODEL + 7];
    uint8_t trace[TRACE];
    uint8_t columns[PDEVS_COLUMNS_SIZE(TRACE)];
} outcome;

static void say(outcome *o, uint64_t n) {
    if (o->count < MAX_ANSWERS) o->answers[o->count++] = n;
}

/* What an advance has written, by columns and back into its place. */
static void rearrange(outcome *o, size_t trace_bytes) {
    pdevs_written w = pdevs_trace_to_columns(o->trace, trace_bytes, o->columns, sizeof o->columns);
    say(o, w.number);
    say(o, w.bytes);
    w = pdevs_columns_to_trace(o->columns, w.bytes, o->trace, sizeof o->trace);
    say(o, w.number);
    say(o, w.bytes);
}

static void advance(outcome *o, const uint8_t *model, size_t model_len, uint64_t t, const uint8_t *bag, size_t bag_len, size_t trace_len) {
    pdevs_advanced a = pdevs_advance(model, model_len, o->run, sizeof o->run, t, bag, bag_len, o->trace, trace_len,
                                     o->rules, sizeof o->rules);
    say(o, a.number);
    say(o, a.instants);
    say(o, a.steps);
    say(o, a.trace_bytes);
    o->steps += a.steps;
    o->trace_bytes += a.trace_bytes;
    rearrange(o, a.trace_bytes);
}

/* A feed of two full bags and an empty one between them, from a moment on. */
static void advance_feed(outcome *o, const uint8_t *model, size_t model_len, uint64_t t, size_t trace_len) {
    static const uint8_t messages[] = {PDEVS_MAX_BAG_MESSAGES, 0, PDEVS_MAX_BAG_MESSAGES};
    uint8_t feed[PDEVS_FEED_HEAD_SIZE + 3 * PDEVS_FEED_BAG_SIZE(PDEVS_MAX_BAG_MESSAGES)] = {3};
    size_t at = PDEVS_FEED_HEAD_SIZE, k;
    pdevs_fed f;
    for (k = 0; k < sizeof messages; k++, t += 300) {
        feed[at + PDEVS_FEED_BAG_MOMENT] = (uint8_t)(t % 256);
        feed[at + PDEVS_FEED_BAG_MOMENT + 1] = (uint8_t)(t / 256);
        feed[at + PDEVS_FEED_BAG_MESSAGE_COUNT] = messages[k];
        at += PDEVS_FEED_BAG_SIZE(messages[k]);
    }
    f = pdevs_advance_feed(model, model_len, o->run, sizeof o->run, t, feed, at, o->trace, trace_len);
    say(o, f.number);
    say(o, f.bags);
    say(o, f.instants);
    say(o, f.steps);
    say(o, f.trace_bytes);
    o->steps += f.steps;
    o->trace_bytes += f.trace_bytes;
    rearrange(o, f.trace_bytes);
}

/* As many channels as may be, all where the run stands, with full bags and empty ones by turns; once with the least allowance. */
static void advance_channels(outcome *o, const uint8_t *model, size_t model_len, uint64_t t, const uint8_t *bag, uint64_t allowance) {
    pdevs_places places;
    pdevs_channels c;
    size_t k;
    memset(&places, 0, sizeof places);
    for (k = 0; k < PDEVS_MAX_CHANNELS; k++) {
        memcpy(o->runs + k * RUN, o->run, RUN);
        places.channel[k].length = k % 2 ? 0 : PDEVS_MAX_BAG;
    }
    c = pdevs_advance_channels(model, model_len, o->runs, sizeof o->runs, PDEVS_MAX_CHANNELS, t, allowance, bag, PDEVS_MAX_BAG, places,
                               o->trace, sizeof o->trace);
    say(o, c.number);
    for (k = 0; k < PDEVS_MAX_CHANNELS; k++) {
        say(o, c.channel[k].number);
        say(o, c.channel[k].instants);
        say(o, c.channel[k].steps);
        say(o, c.channel[k].trace_bytes);
        o->steps += c.channel[k].steps;
        o->trace_bytes += c.channel[k].trace_bytes;
    }
}

/* Start, advances with full and empty bags, feeds and channels into long and short traces, what they write by columns, and
 * readings. */
static void calls_on(outcome *o, const uint8_t *model, size_t model_len) {
    static const uint64_t moments[] = {0, 1, 5, 6, 40, 1000, 1005, 2100};
    uint8_t bag[PDEVS_MAX_BAG];
    pdevs_written w = pdevs_start(model, model_len, o->run, sizeof o->run);
    size_t k;
    say(o, w.number);
    say(o, w.bytes);
    memset(bag, 0, sizeof bag);
    for (k = 0; k < sizeof bag; k += PDEVS_MESSAGE_SIZE)
        bag[k + PDEVS_MESSAGE_VALUE] = (uint8_t)(PDEVS_MAX_BAG_MESSAGES - k / PDEVS_MESSAGE_SIZE);
    for (k = 0; k < sizeof moments / sizeof *moments; k++) {
        pdevs_reading r = pdevs_read(model, model_len, o->run, sizeof o->run, k);
        say(o, r.number);
        say(o, r.phase);
        say(o, r.last);
        say(o, r.next_due);
        advance(o, model, model_len, moments[k], bag, k % 2 ? 0 : sizeof bag, 14);
        advance(o, model, model_len, moments[k], bag, k % 2 ? 0 : sizeof bag, TRACE);
    }
    advance_feed(o, model, model_len, 2200, TRACE);
    advance_feed(o, model, model_len, 3200, 14);
    advance_channels(o, model, model_len, 4400, bag, PDEVS_MAX_CHANNELS * PDEVS_LEAST_STEPS_A_CHANNEL);
    advance_channels(o, model, model_len, 4400, bag, UINT64_MAX);
}

static void *all_calls(void *argument) {
    outcome *o = argument;
    pdevs_written w;
    say(o, pdevs_check_model(o->model, o->model_len));
    w = pdevs_flatten(o->model, o->model_len, o->flat, 7);
    say(o, w.number);
    w = pdevs_flatten(o->model, o->model_len, o->flat, sizeof o->flat);
    say(o, w.number);
    say(o, w.bytes);
    calls_on(o, o->model, o->model_len);
    calls_on(o, o->flat, w.bytes);
    return NULL;
}

static uint8_t model[PDEVS_MAX_MODEL + 1];
static outcome usual, small;

/* The calls on a small stack; the bytes of it that were used, or 0 where there was none to be had. */
static size_t on_small_stack(outcome *o) {
    pthread_attr_t attributes;
    pthread_t thread;
    size_t untouched = 0;
    uint8_t *memory = mmap(NULL, (size_t)GUARD + STACK, PROT_NONE, MAP_PRIVATE | MAP_ANONYMOUS, -1, 0);
    uint8_t *stack = memory + GUARD;
    if (memory == MAP_FAILED || mprotect(stack, STACK, PROT_READ | PROT_WRITE)) return 0;
    memset(stack, PATTERN, STACK);
    if (pthread_attr_init(&attributes) || pthread_attr_setstack(&attributes, stack, STACK)) return 0;
    if (pthread_create(&thread, &attributes, all_calls, o) || pthread_join(thread, NULL)) return 0;
    while (untouched < STACK && stack[untouched] == PATTERN) untouched++;
    pthread_attr_destroy(&attributes);
    munmap(memory, (size_t)GUARD + STACK);
    return STACK - untouched;
}

static int test(const char *path) {
    FILE *file = fopen(path, "rb");
    size_t length, used;
    if (!file) {
        perror(path);
        return 1;
    }
    length = fread(model, 1, sizeof model, file);
    fclose(file);
    memset(&usual, 0, sizeof usual);
    memset(&small, 0, sizeof small);
    usual.model = small.model = model;
    usual.model_len = small.model_len = length;
    all_calls(&usual);
    used = on_small_stack(&small);
    printf("%s: %" PRIu64 " steps, %" PRIu64 " bytes of trace, %zu bytes of stack used\n", path, usual.steps, usual.trace_bytes, used);
    if (usual.answers[0] != 0 || usual.count == MAX_ANSWERS || usual.steps == 0) printf("%s: the calls were not made\n", path);
    else if (used == 0) printf("%s: no thread\n", path);
    else if (memcmp(&usual, &small, sizeof usual)) printf("%s: the outcome differs\n", path);
    else return 0;
    return 1;
}

int main(int count, char **paths) {
    int failed = count < 2, k;
    for (k = 1; k < count; k++) failed += test(paths[k]);
    return failed != 0;
}
