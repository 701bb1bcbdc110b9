/*
 * What include/pdevs.h names, held against the library: every number has a name and words, and the sizes, places and limits
 * are those of the calls on small models. It is compiled as C and as C++. The exit status is 0 only where everything held.
 */
#include <stdio.h>
#include <string.h>

#include "pdevs.h"

/* One atomic, due at every moment but 0 with the message (2, 513), which leaves the root at port 3. Its second rule is for the
 * value 0 on port 0, where it hears the root; its first is for the value 1. */
static const uint8_t model[] = {
    2, 0, /**/ 0, 0, 0, 0, 0, /**/ 1, 0, 1, 0, 0,
    1, 0, /**/ 1, 0, 0, 0, /**/ 0, 1, /**/ 2, 1, 2, /**/ 0, 0, 0, 0, 0, 0, 0, 0, 0,
    2, 0, /**/ 1, 0, 0, 0, /**/ 1, 0, 1, 0, 1, 0, /**/ 0, 0, 0, 0, 255, 255, 255, 255,
          /**/ 1, 0, 0, 0, /**/ 0, 0, 0, 0, 1, 0, /**/ 0, 0, 0, 0, 255, 255, 255, 255,
    2, 0, /**/ 0, 0, 1, 0, /**/ 1, 2, 0, 3,
};
static uint8_t run[PDEVS_MAX_RUN];
static uint8_t trace[100];
static uint8_t rules[PDEVS_MAX_RULES_TABLE];
static int failed;

static void holds(int condition, const char *what) {
    if (condition) return;
    printf("header: this does not hold: %s\n", what);
    failed = 1;
}

/* The branches of a program that was written while 14 was a number. */
static const char *by_old_branches(uint64_t number) {
    switch (number) {
    case PDEVS_OK: return "done";
    case PDEVS_STILL_DUE: return "jams";
    case PDEVS_ROOT_BAG_LIMIT: return "dead";
    case PDEVS_BUFFER_TOO_SHORT: return "goes on";
    default: return number == PDEVS_ROOT_BAG_LIMIT ? "dead" : "refused";
    }
}

/* The numbers are 0 to as many as there are, without the retired one, each with words that no other has. */
static void numbers(void) {
#define LISTED(number, name, words) name,
    static const uint64_t listed[] = {PDEVS_NUMBERS(LISTED)};
#undef LISTED
    const size_t count = sizeof listed / sizeof *listed;
    size_t one, other;
    for (one = 0; one < count; one++) {
        holds(listed[one] <= count && listed[one] != PDEVS_ROOT_BAG_LIMIT, "the numbers have no gap but the retired one");
        holds(strcmp(by_old_branches(listed[one]), "dead") != 0, "no number reaches the dead branch");
        for (other = 0; other <= count + 1; other++) {
            int same = strcmp(pdevs_words(listed[one]), pdevs_words(other)) == 0;
            holds(same == (listed[one] == other), "each number has words of its own");
        }
    }
    holds(pdevs_words(count + 1) == pdevs_words(UINT64_MAX), "no other number has words");
    holds(PDEVS_ROOT_BAG_LIMIT == 14 && pdevs_words(14) == pdevs_words(UINT64_MAX), "the retired number has no words");
}

static uint64_t start(void) {
    pdevs_written w = pdevs_start(model, sizeof model, run, PDEVS_RUN_SIZE(1));
    holds(w.bytes == PDEVS_RUN_SIZE(1), "the size of a run");
    return w.number;
}

static uint64_t advance(uint64_t t, size_t bag_len) {
    static const uint8_t bag[PDEVS_MAX_BAG + PDEVS_MESSAGE_SIZE] = {0};
    pdevs_advanced a = pdevs_advance(model, sizeof model, run, sizeof run, t, bag, bag_len, trace, sizeof trace, rules, sizeof rules);
    if (a.number == PDEVS_OK) holds(a.trace_bytes == PDEVS_RECORD_HEAD_SIZE + PDEVS_MESSAGE_SIZE, "the size of a record");
    return a.number;
}

/* Whether the table says this of the one atomic, and has no byte changed beyond it. */
static int lit(unsigned rule) {
    return rules[0] + 256u * rules[1] == rule && rules[PDEVS_RULES_TABLE_SIZE(1)] == 7;
}

static void calls(void) {
    const uint8_t *message = trace + PDEVS_RECORD_HEAD_SIZE;
    holds(pdevs_check_model(model, 1) == PDEVS_MODEL_CUT, "a cut model");
    holds(pdevs_start(model, sizeof model, run, PDEVS_RUN_SIZE(1) - 1).number == PDEVS_BUFFER_TOO_SHORT, "a short buffer");
    holds(start() == PDEVS_OK, "a start");
    memset(rules, 7, sizeof rules);
    holds(advance(1, PDEVS_MAX_BAG + PDEVS_MESSAGE_SIZE) == PDEVS_BAD_BAG, "a bag too long");
    holds(advance(PDEVS_MAX_MOMENT + 1, 0) == PDEVS_BAD_MOMENT, "a moment too late");
    holds(lit(7 + 256 * 7), "a refused call lights nothing");
    holds(advance(1, PDEVS_MAX_BAG) == PDEVS_OK, "the longest bag");
    holds(lit(1), "the rule that decided");
    holds(trace[PDEVS_RECORD_MOMENT] == 1 && trace[PDEVS_RECORD_STEP] == 0, "a record's moment and step");
    holds(trace[PDEVS_RECORD_MESSAGE_COUNT] == 1, "a record's message count");
    holds(message[PDEVS_MESSAGE_PORT] == 3, "a message's port");
    holds(message[PDEVS_MESSAGE_VALUE] == 1 && message[PDEVS_MESSAGE_VALUE + 1] == 2, "a message's value");
    holds(advance(2, 0) == PDEVS_OK && lit(PDEVS_NO_RULE), "an instant without a rule");
    holds(advance(PDEVS_MAX_MOMENT, 0) == PDEVS_BUFFER_TOO_SHORT, "the latest moment, and a trace too short for it");
    holds(pdevs_read(model, sizeof model, run, sizeof run, 1).number == PDEVS_BAD_POSITION, "a position too high");
}

static uint64_t number_at(const uint8_t *bytes, int width) {
    uint64_t n = 0;
    while (width > 0) n = n * 256 + bytes[--width];
    return n;
}

/* The longest record: one atomic, due at every moment but 0 with four messages, and 1,024 routes from it to the root. */
static void by_longest_record(void) {
    static const uint8_t head[] = {
        2, 0, /**/ 0, 0, 0, 0, 0, /**/ 1, 0, 1, 0, 0,
        1, 0, /**/ 1, 0, 0, 0, /**/ 0, 4, /**/ 2, 0, 0, /**/ 2, 1, 0, /**/ 2, 1, 0, /**/ 2, 1, 2,
        0, 0,
        0, 4,
    };
    static const uint8_t row[] = {1, 2, 0, 3};
    static uint8_t file[sizeof head + 1024 * sizeof row], record[PDEVS_MAX_RECORD];
    pdevs_advanced a;
    size_t at;
    memcpy(file, head, sizeof head);
    for (at = sizeof head; at < sizeof file; at += sizeof row) memcpy(file + at, row, sizeof row);
    holds(pdevs_start(file, sizeof file, run, sizeof run).number == PDEVS_OK, "a start with 1,024 routes to the root");
    a = pdevs_advance(file, sizeof file, run, sizeof run, 1, row, 0, record, PDEVS_MAX_RECORD - 1, rules, 0);
    holds(a.number == PDEVS_BUFFER_TOO_SHORT && a.instants == 0, "a trace one byte shorter than the longest record");
    a = pdevs_advance(file, sizeof file, run, sizeof run, 1, row, 0, record, PDEVS_MAX_RECORD, rules, 0);
    holds(a.number == PDEVS_OK && a.trace_bytes == PDEVS_MAX_RECORD, "the longest record");
    holds(number_at(record + PDEVS_RECORD_MESSAGE_COUNT, 2) == PDEVS_MAX_RECORD_MESSAGES, "the most messages of a record");
    holds(number_at(record + PDEVS_MAX_RECORD - 2, 2) == 513, "the last message of the longest record");
}

/* Two records by columns, of 1 and 2 messages, and back. */
static void by_columns(void) {
    static const uint8_t records[] = {
        1, 0, 0, 0, 0, 0, 0, 0, /**/ 2, 0, /**/ 1, 0, /**/ 3, 1, 2,
        1, 0, 0, 0, 0, 0, 0, 0, /**/ 4, 0, /**/ 2, 0, /**/ 0, 5, 0, /**/ 1, 6, 7,
    };
    uint8_t columns[PDEVS_COLUMNS_SIZE(sizeof records) + 1], back[sizeof records];
    pdevs_written w = pdevs_trace_to_columns(records, sizeof records, columns, PDEVS_COLUMNS_SIZE(sizeof records));
    holds(w.number == PDEVS_OK && w.bytes == PDEVS_COLUMNS_SIZE(sizeof records), "the size of columns");
    holds(number_at(columns + PDEVS_COLUMNS_RECORD_COUNT, 4) == 2, "the record count");
    holds(number_at(columns + PDEVS_COLUMNS_MOMENTS + 8, 8) == 1, "the second moment");
    holds(number_at(columns + PDEVS_COLUMNS_STEPS(2) + 2, 2) == 4, "the second step");
    holds(number_at(columns + PDEVS_COLUMNS_MESSAGE_COUNTS(2) + 2, 2) == 2, "the second message count");
    holds(PDEVS_COLUMNS_MESSAGES(w.bytes, 2) == 3, "the number of messages");
    holds(columns[PDEVS_COLUMNS_PORTS(2)] == 3 && columns[PDEVS_COLUMNS_PORTS(2) + 2] == 1, "the first and the last port");
    holds(number_at(columns + PDEVS_COLUMNS_VALUES(2, 3) + 4, 2) == 6 + 256 * 7, "the last value");
    w = pdevs_columns_to_trace(columns, w.bytes, back, sizeof back);
    holds(w.number == PDEVS_OK && w.bytes == sizeof back && memcmp(back, records, sizeof back) == 0, "the trace again");
    holds(pdevs_trace_to_columns(records, sizeof records - 1, columns, 0).number == PDEVS_NOT_A_TRACE, "a cut trace");
    holds(pdevs_columns_to_trace(columns, sizeof columns, back, 0).number == PDEVS_NOT_COLUMNS, "a byte left over");
    holds(pdevs_trace_to_columns(records, sizeof records, columns, sizeof records).number == PDEVS_BUFFER_TOO_SHORT, "no room");
}

/* Two bags laid out by the places that the header names: run to their end, too early for it, and cut. */
static void by_feed(void) {
    enum { FIRST = PDEVS_FEED_HEAD_SIZE, SECOND = FIRST + PDEVS_FEED_BAG_SIZE(1), LENGTH = SECOND + PDEVS_FEED_BAG_SIZE(0) };
    uint8_t feed[LENGTH] = {0};
    pdevs_fed f;
    feed[PDEVS_FEED_BAG_COUNT] = 2;
    feed[FIRST + PDEVS_FEED_BAG_MOMENT] = 1;
    feed[FIRST + PDEVS_FEED_BAG_MESSAGE_COUNT] = 1;
    feed[FIRST + PDEVS_FEED_BAG_HEAD_SIZE + PDEVS_MESSAGE_PORT] = 3;
    feed[SECOND + PDEVS_FEED_BAG_MOMENT] = 3;
    holds(start() == PDEVS_OK, "a start");
    f = pdevs_advance_feed(model, sizeof model, run, sizeof run, 4, feed, LENGTH - 1, trace, sizeof trace);
    holds(f.number == PDEVS_BAD_FEED && f.bags == 0, "a cut feed");
    f = pdevs_advance_feed(model, sizeof model, run, sizeof run, 2, feed, LENGTH, trace, sizeof trace);
    holds(f.number == PDEVS_BAD_MOMENT && f.bags == 0, "an end before the last bag");
    f = pdevs_advance_feed(model, sizeof model, run, sizeof run, 4, feed, LENGTH, trace, sizeof trace);
    holds(f.number == PDEVS_OK && f.bags == 2, "a feed");
    holds(f.instants == 4 && f.steps == 4, "a feed's instants and steps");
    holds(f.trace_bytes == 4 * (PDEVS_RECORD_HEAD_SIZE + PDEVS_MESSAGE_SIZE), "a feed's records");
    f = pdevs_advance_feed(model, sizeof model, run, sizeof run, 9, feed, FIRST, trace, sizeof trace);
    holds(f.number == PDEVS_BAD_FEED, "a count of bags that are not there");
    feed[PDEVS_FEED_BAG_COUNT] = 0;
    f = pdevs_advance_feed(model, sizeof model, run, sizeof run, 99, feed, FIRST, trace, sizeof trace);
    holds(f.number == PDEVS_BUFFER_TOO_SHORT && f.bags == 0 && f.instants == 6, "no bag, and a trace too short");
}

/* The numbers that a channel's entry must have. */
static int got(pdevs_advanced a, uint64_t number, uint64_t instants, uint64_t trace_bytes) {
    return a.number == number && a.instants == instants && a.steps == instants && a.trace_bytes == trace_bytes;
}

/* As many channels as may be in one buffer, with a byte beyond the parts: all of them, one of them more, and with too few steps. The
 * atomic is due at each moment, with one step and a record of RECORD bytes. */
static void by_channels(void) {
    enum { RUN = PDEVS_RUN_SIZE(1), RECORD = PDEVS_RECORD_HEAD_SIZE + PDEVS_MESSAGE_SIZE, TRACE = 1100 * RECORD };
    static uint8_t runs[PDEVS_MAX_CHANNELS * RUN + 1], traces[PDEVS_MAX_CHANNELS * TRACE + 1];
    static const uint8_t bags[2 * PDEVS_MESSAGE_SIZE] = {0, 0, 0, /**/ 3, 9, 0};
    const uint64_t all = PDEVS_MAX_CHANNELS, least = PDEVS_MAX_CHANNELS * PDEVS_LEAST_STEPS_A_CHANNEL;
    pdevs_places places;
    pdevs_channels c;
    uint64_t k, late = PDEVS_LEAST_STEPS_A_CHANNEL + 1;
    memset(&places, 0, sizeof places);
    runs[sizeof runs - 1] = traces[sizeof traces - 1] = 7;
    for (k = 0; k < all; k++) holds(pdevs_start(model, sizeof model, runs + k * RUN, RUN).number == PDEVS_OK, "a channel's start");
    c = pdevs_advance_channels(model, sizeof model, runs, sizeof runs, all, 1, least - 1, bags, 0, places, traces, sizeof traces);
    holds(c.number == PDEVS_BAD_CHANNELS && got(c.channel[0], 0, 0, 0), "an allowance below 1,024 steps a channel");
    c = pdevs_advance_channels(model, sizeof model, runs, sizeof runs, all + 1, 1, 2 * least, bags, 0, places, traces, sizeof traces);
    holds(c.number == PDEVS_BAD_CHANNELS, "a channel too many");
    c = pdevs_advance_channels(model, sizeof model - 1, runs, sizeof runs, all, 1, least, bags, 0, places, traces, sizeof traces);
    holds(c.number == PDEVS_MODEL_CUT && got(c.channel[0], 0, 0, 0), "a cut model for channels");
    places.channel[1].start = PDEVS_MESSAGE_SIZE;
    places.channel[1].length = PDEVS_MESSAGE_SIZE;
    places.channel[2].start = sizeof bags;
    places.channel[3].start = sizeof bags + 1;
    runs[4 * RUN + 8] = 2;
    c = pdevs_advance_channels(model, sizeof model, runs, sizeof runs, all, 2, least, bags, sizeof bags, places, traces, sizeof traces);
    holds(c.number == PDEVS_OK, "channels");
    holds(got(c.channel[1], PDEVS_OK, 2, 2 * RECORD), "a channel with a bag");
    holds(got(c.channel[2], PDEVS_OK, 2, 2 * RECORD), "a channel with an empty bag at the end");
    holds(got(c.channel[3], PDEVS_BAD_BAG, 0, 0), "a place past the end of the bags");
    holds(got(c.channel[4], PDEVS_RUN_DOES_NOT_FIT, 0, 0), "a channel whose run does not fit");
    holds(number_at(runs + RUN, 8) == 3 && number_at(runs + 3 * RUN, 8) == 0, "the open moments of channels");
    holds(traces[TRACE + PDEVS_RECORD_MOMENT] == 1 && traces[3 * TRACE] == 0, "the records of channels");
    holds(runs[sizeof runs - 1] == 7 && traces[sizeof traces - 1] == 7, "the bytes past the last part");
    c = pdevs_advance_channels(model, sizeof model, runs, sizeof runs, all, 1, least, bags, sizeof bags, places, traces, sizeof traces);
    holds(got(c.channel[0], PDEVS_BAD_MOMENT, 0, 0), "a channel that is done");
    /* One channel, to a moment that is two instants too many: then the call again. */
    c = pdevs_advance_channels(model, sizeof model, runs, RUN, 1, late + 3, PDEVS_LEAST_STEPS_A_CHANNEL, bags, 0, places, traces, TRACE);
    holds(got(c.channel[0], PDEVS_OUT_OF_STEPS, 1024, 1024 * RECORD), "a channel that is out of steps");
    holds(number_at(runs, 8) == late + 2 && c.channel[1].number == 0, "the open moment of a channel that is out of steps");
    c = pdevs_advance_channels(model, sizeof model, runs, RUN, 1, late + 3, PDEVS_LEAST_STEPS_A_CHANNEL, bags, 0, places, traces, TRACE);
    holds(got(c.channel[0], PDEVS_OK, 2, 2 * RECORD) && number_at(runs, 8) == late + 4, "a channel that goes on");
}

/* Which rule decides where the atomic, now of order 1, is due at 1 and hears the value 0. */
static uint64_t lit_at_1(const uint8_t *file, size_t length) {
    static const uint8_t bag[PDEVS_MESSAGE_SIZE] = {0};
    pdevs_written w = pdevs_start(file, length, run, sizeof run);
    pdevs_advanced a = pdevs_advance(file, length, run, sizeof run, 1, bag, sizeof bag, trace, sizeof trace, rules, sizeof rules);
    holds(w.number == PDEVS_OK && a.number == PDEVS_OK, "a start and an advance");
    return number_at(rules, 2);
}

/* The model in four sections and in five: its second rule now lasts from 0 to 1. */
static void by_sections(void) {
    enum { FOUR = sizeof model, FIVE = FOUR + 3, ORDER = 11, FIRST_HIGH = 48, SECOND_HIGH = 66 };
    uint8_t file[FIVE + 1] = {0}, flat[FIVE];
    pdevs_written w;
    memcpy(file, model, FOUR);
    file[ORDER] = 1;
    memcpy(file + SECOND_HIGH, "\1\0\0\0", 4);
    memcpy(file + FOUR, "\1\0\2", 3);
    holds(lit_at_1(file, FOUR) == 1, "a high end that is included");
    holds(lit_at_1(file, FIVE) == PDEVS_NO_RULE, "a high end that is excluded");
    w = pdevs_flatten(file, FIVE, flat, sizeof flat);
    holds(w.number == PDEVS_OK && w.bytes == FIVE && memcmp(flat, file, FIVE) == 0, "a flat model with its fifth section");
    holds(pdevs_check_model(file, FIVE + 1) == PDEVS_MODEL_LEFT_OVER, "a byte after the fifth section");
    holds(pdevs_check_model(file, FIVE - 1) == PDEVS_BAD_FIFTH_SECTION, "a fifth section that is cut off");
    memset(file + FIRST_HIGH, 0, 4);
    holds(pdevs_check_model(file, FOUR) == PDEVS_OK, "equal ends in four sections");
    holds(pdevs_check_model(file, FIVE) == PDEVS_BAD_RULE, "equal ends in five sections");
    file[FIVE - 1] = 3;
    holds(pdevs_check_model(file, FIVE) == PDEVS_BAD_FIFTH_SECTION, "another byte in the fifth section");
}

int main(void) {
    numbers();
    calls();
    by_longest_record();
    by_columns();
    by_feed();
    by_channels();
    by_sections();
    holds(PDEVS_MAX_MODEL == 32075, "the longest model");
    holds(PDEVS_MAX_FEED == 57002, "the longest feed");
    holds(PDEVS_MAX_RECORD == 12300, "the longest record in bytes");
    holds(PDEVS_MAX_RUN == 577, "the longest run");
    holds(PDEVS_MAX_RULES_TABLE == 126, "the longest rules table");
    holds(PDEVS_MAX_CHANNELS == 8 && PDEVS_LEAST_STEPS_A_CHANNEL == 1024, "the channels of a call");
    holds(strcmp(PDEVS_VERSION, "2.4") == 0, "the version");
    return failed;
}
