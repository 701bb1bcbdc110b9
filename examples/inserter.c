/*
 * A small inserter: starts a run of a model file and gives it cues from a list, putting up one line for each record of the
 * trace, that is, for each step with output at the root.
 *
 *     inserter [--rules] MODEL CUES
 *
 * With --rules it also shows, after each instant, which rules decided: "MOMENT lit", then "none", or ATOMIC:RULE for each atomic
 * that a rule has led; both are positions in the file from 0, the atomic's among the atomics.
 *
 * CUES is text, a cue on each line, "MOMENT PORT VALUE", with rising moments; the cues of one moment are given together. A last
 * line "end MOMENT" runs on to that moment without a cue. The exit status is 0 where everything was done, 1 where the engine
 * refused something, 2 where a file could not be used.
 */
#include <inttypes.h>
#include <stdio.h>
#include <string.h>

#include "pdevs.h"

/* One byte more than the longest model, so that a longer file is refused and not cut. */
static uint8_t model[PDEVS_MAX_MODEL + 1];
static size_t model_len;
static uint8_t run[PDEVS_MAX_RUN];
static uint8_t trace[4096];
static uint8_t rules[PDEVS_MAX_RULES_TABLE];
static int show_rules;

static uint64_t number_at(const uint8_t *bytes, int width) {
    uint64_t n = 0;
    while (width > 0) n = n * 256 + bytes[--width];
    return n;
}

/* Tells a refusal; the exit status. */
static int refused(const char *call, uint64_t number) {
    printf("%s refused: %" PRIu64 ", %s\n", call, number, pdevs_words(number));
    return 1;
}

/* Puts up a line for each record: moment, step, and each message as port:value. */
static void put_up(size_t length) {
    const uint8_t *record = trace, *end = trace + length;
    while (record < end) {
        uint64_t count = number_at(record + PDEVS_RECORD_MESSAGE_COUNT, 2);
        printf("%" PRIu64 " %" PRIu64, number_at(record + PDEVS_RECORD_MOMENT, 8), number_at(record + PDEVS_RECORD_STEP, 2));
        record += PDEVS_RECORD_HEAD_SIZE;
        for (; count > 0; count--, record += PDEVS_MESSAGE_SIZE)
            printf(" %d:%" PRIu64, record[PDEVS_MESSAGE_PORT], number_at(record + PDEVS_MESSAGE_VALUE, 2));
        putchar('\n');
    }
}

/* Advances to t with a bag. Where the trace is full the instants done stand; they are put up, and the call is made again. */
static uint64_t advance_at_once(uint64_t t, const uint8_t *bag, size_t bag_len) {
    for (;;) {
        pdevs_advanced a = pdevs_advance(model, model_len, run, sizeof run, t, bag, bag_len, trace, sizeof trace, rules, 0);
        put_up(a.trace_bytes);
        if (a.number != PDEVS_BUFFER_TOO_SHORT || a.instants == 0) return a.number;
    }
}

/* Puts up which rules decided in the instant just done. A started run says how many atomics there are. */
static void put_up_rules(uint64_t moment) {
    uint64_t atomics = number_at(run + 8, 2), lit = 0, k;
    printf("%" PRIu64 " lit", moment);
    for (k = 0; k < atomics; k++) {
        uint64_t rule = number_at(rules + PDEVS_RULES_TABLE_SIZE(k), 2);
        if (rule != PDEVS_NO_RULE) lit++, printf(" %" PRIu64 ":%" PRIu64, k, rule);
    }
    printf(lit ? "\n" : " none\n");
}

/* The same with one instant in each call, since the table tells of the last one only: to each moment at which something is due
 * before t, then to t with the bag. A bag that is refused is refused there, after the instants before it. */
static uint64_t advance_by_instants(uint64_t t, const uint8_t *bag, size_t bag_len) {
    for (;;) {
        pdevs_reading next = pdevs_read(model, model_len, run, sizeof run, 0); /* refused only without atomics: nothing is due */
        int earlier = next.number == PDEVS_OK && next.next_due < t;
        uint64_t now = earlier ? next.next_due : t;
        pdevs_advanced a = pdevs_advance(model, model_len, run, sizeof run, now, bag, earlier ? 0 : bag_len, trace, sizeof trace,
                                         rules, sizeof rules);
        put_up(a.trace_bytes);
        if (a.instants > 0) put_up_rules(now);
        if (a.number != PDEVS_OK || !earlier) return a.number;
    }
}

static uint64_t advance(uint64_t t, const uint8_t *bag, size_t bag_len) {
    return show_rules ? advance_by_instants(t, bag, bag_len) : advance_at_once(t, bag, bag_len);
}

/* What the model does next, by itself. */
static int tell_next(void) {
    pdevs_reading r = pdevs_read(model, model_len, run, sizeof run, 0);
    if (r.number == PDEVS_BAD_POSITION) return 0; /* a model without atomics: nothing is ever due */
    if (r.number != PDEVS_OK) return refused("read", r.number);
    if (r.next_due == PDEVS_NEVER) printf("nothing more is due\n");
    else printf("next due at %" PRIu64 "\n", r.next_due);
    return 0;
}

static int give_cues(FILE *cues) {
    char line[80];
    uint8_t bag[PDEVS_MAX_BAG + PDEVS_MESSAGE_SIZE]; /* one message more, so that too many are refused and not cut */
    size_t bag_len = 0;
    uint64_t at = 0, number;
    while (fgets(line, sizeof line, cues)) {
        uint64_t moment;
        unsigned port, value;
        int last = sscanf(line, "end %" SCNu64, &moment) == 1;
        int cue = !last && sscanf(line, "%" SCNu64 " %u %u", &moment, &port, &value) == 3 && port < 256 && value < 65536;
        if (!last && !cue) {
            printf("no cue: %s", line);
            return 2;
        }
        if (bag_len > 0 && moment != at) {
            if ((number = advance(at, bag, bag_len)) != PDEVS_OK) return refused("advance", number);
            bag_len = 0;
        }
        if (last) {
            if ((number = advance(moment, bag, bag_len)) != PDEVS_OK) return refused("advance", number);
            return tell_next();
        }
        if (bag_len == sizeof bag) continue; /* too many already: the engine refuses the bag */
        bag[bag_len + PDEVS_MESSAGE_PORT] = (uint8_t)port;
        bag[bag_len + PDEVS_MESSAGE_VALUE] = (uint8_t)(value % 256);
        bag[bag_len + PDEVS_MESSAGE_VALUE + 1] = (uint8_t)(value / 256);
        bag_len += PDEVS_MESSAGE_SIZE;
        at = moment;
    }
    if (bag_len > 0 && (number = advance(at, bag, bag_len)) != PDEVS_OK) return refused("advance", number);
    return tell_next();
}

int main(int count, char **arguments) {
    FILE *file, *cues;
    pdevs_written started;
    uint64_t number;
    int status;
    show_rules = count > 1 && strcmp(arguments[1], "--rules") == 0;
    arguments += show_rules;
    if (count - show_rules != 3) {
        fprintf(stderr, "inserter [--rules] MODEL CUES\n");
        return 2;
    }
    file = fopen(arguments[1], "rb");
    cues = fopen(arguments[2], "r");
    if (!file || !cues) {
        perror(file ? arguments[2] : arguments[1]);
        return 2;
    }
    model_len = fread(model, 1, sizeof model, file);
    number = pdevs_check_model(model, model_len);
    if (number != PDEVS_OK) return refused("model", number);
    started = pdevs_start(model, model_len, run, sizeof run);
    if (started.number != PDEVS_OK) return refused("start", started.number);
    status = give_cues(cues);
    fclose(file);
    fclose(cues);
    return status;
}
