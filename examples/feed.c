/*
 * Runs a feed: starts a run of a model file and gives it a list of bags that was prepared beforehand, a day's cues for example, to
 * an end moment, putting up one line for each record of the trace as the inserter does.
 *
 *     feed MODEL FEED END [ROOM]
 *
 * A trace of any length goes through ROOM bytes, 4,096 where nothing is said: whenever they are full, the records in them are put
 * up, and the call is made again with the bags that are left. The last line tells how many bags were done, with the instants and
 * steps of all calls together. The exit status is 0 where everything was done, 1 where the engine refused something, 2 where a
 * file or an argument could not be used.
 */
#include <inttypes.h>
#include <stdio.h>
#include <stdlib.h>

#include "pdevs.h"

/* One byte more than the longest model and the longest feed, so that a longer file is refused and not cut. */
static uint8_t model[PDEVS_MAX_MODEL + 1], feed[PDEVS_MAX_FEED + 1];
static size_t model_len, feed_len;
static uint8_t run[PDEVS_MAX_RUN];
static uint8_t trace[65536];

static uint64_t number_at(const uint8_t *bytes, int width) {
    uint64_t n = 0;
    while (width > 0) n = n * 256 + bytes[--width];
    return n;
}

/* Tells a refusal; the exit status. */
static int refused(const char *call, uint64_t number) {
    printf("%s refused: %" PRIu64 ", %s\n", call, number, pdevs_words(number));
    return 1;
}

/* Puts up a line for each record: moment, step, and each message as port:value. */
static void put_up(size_t length) {
    const uint8_t *record = trace, *end = trace + length;
    while (record < end) {
        uint64_t count = number_at(record + PDEVS_RECORD_MESSAGE_COUNT, 2);
        printf("%" PRIu64 " %" PRIu64, number_at(record + PDEVS_RECORD_MOMENT, 8), number_at(record + PDEVS_RECORD_STEP, 2));
        record += PDEVS_RECORD_HEAD_SIZE;
        for (; count > 0; count--, record += PDEVS_MESSAGE_SIZE)
            printf(" %d:%" PRIu64, record[PDEVS_MESSAGE_PORT], number_at(record + PDEVS_MESSAGE_VALUE, 2));
        putchar('\n');
    }
}

/* The feed without its first bags: what is left has its count written just before it, over bags that are done. */
static uint8_t *without(uint8_t *whole, uint64_t bags) {
    uint64_t left = number_at(whole + PDEVS_FEED_BAG_COUNT, 2) - bags;
    uint8_t *bag = whole + PDEVS_FEED_HEAD_SIZE;
    for (; bags > 0; bags--) bag += PDEVS_FEED_BAG_SIZE(bag[PDEVS_FEED_BAG_MESSAGE_COUNT]);
    bag -= PDEVS_FEED_HEAD_SIZE;
    bag[PDEVS_FEED_BAG_COUNT] = (uint8_t)(left % 256);
    bag[PDEVS_FEED_BAG_COUNT + 1] = (uint8_t)(left / 256);
    return bag;
}

/* Runs the feed to the end, in as many calls as the room needs. Where nothing fits into it, one more call would not help. */
static int run_to(uint64_t end, size_t room) {
    const uint8_t *feed_end = feed + feed_len;
    uint8_t *left = feed;
    uint64_t bags = 0, instants = 0, steps = 0;
    for (;;) {
        pdevs_fed f = pdevs_advance_feed(model, model_len, run, sizeof run, end, left, (size_t)(feed_end - left), trace, room);
        put_up(f.trace_bytes);
        bags += f.bags;
        instants += f.instants;
        steps += f.steps;
        if (f.number == PDEVS_BUFFER_TOO_SHORT && f.trace_bytes > 0) {
            left = without(left, f.bags);
            continue;
        }
        printf("bags %" PRIu64 ", instants %" PRIu64 ", steps %" PRIu64 "\n", bags, instants, steps);
        return f.number == PDEVS_OK ? 0 : refused("feed", f.number);
    }
}

/* Whether a word is a number, and which. */
static int is_number(const char *word, uint64_t *number) {
    char *end;
    *number = strtoull(word, &end, 10);
    return word[0] >= '0' && word[0] <= '9' && *end == '\0';
}

/* The bytes of a file, as many as there is room for; -1 where it cannot be read. */
static long bytes_of(const char *path, uint8_t *bytes, size_t room) {
    FILE *file = fopen(path, "rb");
    size_t length = file ? fread(bytes, 1, room, file) : 0;
    if (file && !ferror(file) && !fclose(file)) return (long)length;
    perror(path);
    return -1;
}

int main(int count, char **arguments) {
    uint64_t end = 0, room = 4096;
    long of_model, of_feed;
    pdevs_written started;
    int given = (count == 4 || count == 5) && is_number(arguments[3], &end);
    if (!given || (count == 5 && !is_number(arguments[4], &room)) || room > sizeof trace) {
        fprintf(stderr, "feed MODEL FEED END [ROOM], ROOM up to %zu\n", sizeof trace);
        return 2;
    }
    of_model = bytes_of(arguments[1], model, sizeof model);
    of_feed = bytes_of(arguments[2], feed, sizeof feed);
    if (of_model < 0 || of_feed < 0) return 2;
    model_len = (size_t)of_model;
    feed_len = (size_t)of_feed;
    started = pdevs_start(model, model_len, run, sizeof run);
    if (started.number != PDEVS_OK) return refused("start", started.number);
    return run_to(end, (size_t)room);
}
