/*
 * Several channels in one box: starts up to eight runs of a model file and advances them together, each with its own list of cues,
 * under an allowance of steps for each call.
 *
 *     channels MODEL ALLOWANCE CUES ..
 *
 * There are as many channels as lists. CUES is text, a cue on each line, "MOMENT PORT VALUE", with rising moments; a last line
 * "end MOMENT" runs on to that moment. All channels are advanced to each moment of any list, those without a cue there with an empty
 * bag. Where a channel is out of steps, or its trace is full, the call is made again: it goes on where it stopped, and the channels
 * that are done leave their shares. Each call puts up what every channel got, and the records that it wrote as "CHANNEL: MOMENT STEP
 * PORT:VALUE ..". The exit status is 0 where everything was done, 1 where the engine refused something, 2 where a file or an
 * argument could not be used.
 */
#include <inttypes.h>
#include <stdio.h>
#include <stdlib.h>
#include <string.h>

#include "pdevs.h"

/* What each channel has of the buffers. A bag has room for one message more than it may have, so that a longer one is refused and not
 * cut. */
enum { TRACE = 4096, BAG = PDEVS_MAX_BAG + PDEVS_MESSAGE_SIZE };

/* One byte more than the longest model, so that a longer file is refused and not cut. */
static uint8_t model[PDEVS_MAX_MODEL + 1];
static size_t model_len;
static uint8_t runs[PDEVS_MAX_CHANNELS * PDEVS_MAX_RUN];
static uint8_t traces[PDEVS_MAX_CHANNELS * TRACE];
static uint8_t bags[PDEVS_MAX_CHANNELS * BAG];
static uint64_t channels, allowance;

/* A channel's list, and its next cue; the port is 0 to 255, or -1 for the end of the list. */
typedef struct { FILE *list; int waits; uint64_t moment; int port; unsigned value; } cues;
static cues of_channel[PDEVS_MAX_CHANNELS];

static uint64_t number_at(const uint8_t *bytes, int width) {
    uint64_t n = 0;
    while (width > 0) n = n * 256 + bytes[--width];
    return n;
}

/* Tells a refusal; the exit status. */
static int refused(const char *call, uint64_t number) {
    printf("%s refused: %" PRIu64 ", %s\n", call, number, pdevs_words(number));
    return 1;
}

/* Puts up a line for each record of a channel. */
static void put_up(uint64_t channel, size_t length) {
    const uint8_t *record = traces + channel * TRACE, *end = record + length;
    while (record < end) {
        uint64_t count = number_at(record + PDEVS_RECORD_MESSAGE_COUNT, 2);
        printf("%" PRIu64 ": %" PRIu64 " %" PRIu64, channel, number_at(record + PDEVS_RECORD_MOMENT, 8),
               number_at(record + PDEVS_RECORD_STEP, 2));
        record += PDEVS_RECORD_HEAD_SIZE;
        for (; count > 0; count--, record += PDEVS_MESSAGE_SIZE)
            printf(" %d:%" PRIu64, record[PDEVS_MESSAGE_PORT], number_at(record + PDEVS_MESSAGE_VALUE, 2));
        putchar('\n');
    }
}

/* Reads the next cue of a list. */
static void next_cue(cues *c) {
    char line[100];
    c->waits = fgets(line, sizeof line, c->list) != NULL;
    if (!c->waits) return;
    c->port = -1;
    if (sscanf(line, "end %" SCNu64, &c->moment) == 1) return;
    if (sscanf(line, "%" SCNu64 " %d %u", &c->moment, &c->port, &c->value) != 3 || c->port < 0 || c->port > 255 || c->value > 65535) {
        fprintf(stderr, "no cue: %s", line);
        exit(2);
    }
}

/* Puts the cues of a channel at a moment into its bag; the bytes of it. */
static size_t take_cues(cues *c, uint64_t moment, uint8_t *bag) {
    size_t length = 0;
    for (; c->waits && c->moment == moment; next_cue(c)) {
        if (c->port < 0 || length == BAG) continue;
        bag[length + PDEVS_MESSAGE_PORT] = (uint8_t)c->port;
        bag[length + PDEVS_MESSAGE_VALUE] = (uint8_t)(c->value % 256);
        bag[length + PDEVS_MESSAGE_VALUE + 1] = (uint8_t)(c->value / 256);
        length += PDEVS_MESSAGE_SIZE;
    }
    return length;
}

/* The number of a channel that cannot go on, or 0; and whether one goes on when the call is made again. One that is done answers 11
 * then. */
static uint64_t stuck(const pdevs_channels *c, int again, int *goes_on) {
    uint64_t k;
    *goes_on = 0;
    for (k = 0; k < channels; k++) {
        const pdevs_advanced *a = &c->channel[k];
        int is_done = a->number == PDEVS_OK || (again && a->number == PDEVS_BAD_MOMENT);
        int stopped = a->number == PDEVS_OUT_OF_STEPS || (a->number == PDEVS_BUFFER_TOO_SHORT && a->instants > 0);
        if (!is_done && !stopped) return a->number;
        *goes_on |= stopped;
    }
    return PDEVS_OK;
}

/* Advances all channels to a moment, in as many calls as their steps need. */
static uint64_t advance_all(uint64_t t) {
    pdevs_places places;
    int again = 0, goes_on;
    uint64_t k, number;
    memset(&places, 0, sizeof places);
    for (k = 0; k < channels; k++) {
        places.channel[k].start = k * BAG;
        places.channel[k].length = take_cues(&of_channel[k], t, bags + k * BAG);
    }
    do {
        pdevs_channels c = pdevs_advance_channels(model, model_len, runs, channels * PDEVS_MAX_RUN, channels, t, allowance, bags,
                                                  sizeof bags, places, traces, channels * TRACE);
        if (c.number != PDEVS_OK) return c.number;
        for (k = 0; k < channels; k++) {
            const pdevs_advanced *a = &c.channel[k];
            put_up(k, a->trace_bytes);
            printf("to %" PRIu64 ", channel %" PRIu64 ": %" PRIu64 " with %" PRIu64 " instants, %" PRIu64 " steps\n", t, k, a->number,
                   a->instants, a->steps);
        }
        number = stuck(&c, again, &goes_on);
        again = 1;
    } while (number == PDEVS_OK && goes_on);
    return number;
}

/* Finds the earliest moment for which a list has something; 0 where none has. */
static int next_moment(uint64_t *moment) {
    int found = 0;
    uint64_t k;
    for (k = 0; k < channels; k++) {
        const cues *c = &of_channel[k];
        if (c->waits && (!found || c->moment < *moment)) *moment = c->moment, found = 1;
    }
    return found;
}

int main(int count, char **arguments) {
    uint64_t k, t = 0, number;
    FILE *file = count > 3 && count <= 3 + PDEVS_MAX_CHANNELS ? fopen(arguments[1], "rb") : NULL;
    if (!file) {
        fprintf(stderr, "channels MODEL ALLOWANCE CUES .., up to %d lists of cues\n", PDEVS_MAX_CHANNELS);
        return 2;
    }
    model_len = fread(model, 1, sizeof model, file);
    fclose(file);
    allowance = strtoull(arguments[2], NULL, 10);
    channels = (uint64_t)count - 3;
    for (k = 0; k < channels; k++) {
        pdevs_written w = pdevs_start(model, model_len, runs + k * PDEVS_MAX_RUN, PDEVS_MAX_RUN);
        if (w.number != PDEVS_OK) return refused("start", w.number);
        of_channel[k].list = fopen(arguments[3 + k], "r");
        if (!of_channel[k].list) {
            perror(arguments[3 + k]);
            return 2;
        }
        next_cue(&of_channel[k]);
    }
    while (next_moment(&t)) {
        number = advance_all(t);
        if (number != PDEVS_OK) return refused("channels", number);
    }
    return 0;
}
