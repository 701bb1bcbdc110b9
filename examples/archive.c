/*
 * A small archive: keeps what a run has written by columns, and finds the records of a moment there.
 *
 *     archive keep MODEL CUES COLUMNS
 *     archive find COLUMNS MOMENT
 *     archive list COLUMNS
 *
 * keep starts a run of a model file and advances it from cue to cue, CUES being a list as the inserter takes it; the traces of
 * all advances, joined, are rearranged and written to the file COLUMNS. find searches the moments of such a file and puts up the
 * records of one; list gives the trace back and puts up all records. A record is a line: moment, step, and each message as
 * port:value. The exit status is 0 where everything was done, 1 where the engine refused something or there is no record of the
 * moment, 2 where a file could not be used.
 */
#include <inttypes.h>
#include <stdio.h>
#include <stdlib.h>
#include <string.h>

#include "pdevs.h"

/* Bytes on the heap, of which so many are used; the engine itself has no heap. */
typedef struct { uint8_t *bytes; size_t used, room; } store;

static store trace, columns;
/* One byte more than the longest model, so that a longer file is refused and not cut. */
static uint8_t model[PDEVS_MAX_MODEL + 1];
static size_t model_len;
static uint8_t run[PDEVS_MAX_RUN];

static void make_room(store *s, size_t room) {
    if (room <= s->room) return;
    s->bytes = (uint8_t *)realloc(s->bytes, room);
    s->room = room;
    if (s->bytes) return;
    fprintf(stderr, "archive: no memory\n");
    exit(2);
}

/* A file could not be used. */
static void give_up(const char *path) {
    perror(path);
    exit(2);
}

static FILE *opened(const char *path, const char *mode) {
    FILE *file = fopen(path, mode);
    if (!file) give_up(path);
    return file;
}

/* Closes a file that was read; what could not be read is not taken for its end. */
static void closed(FILE *file, const char *path) {
    if (ferror(file) || fclose(file)) give_up(path);
}

static uint64_t number_at(const uint8_t *bytes, int width) {
    uint64_t n = 0;
    while (width > 0) n = n * 256 + bytes[--width];
    return n;
}

/* Tells a refusal; the exit status. */
static int refused(const char *call, uint64_t number) {
    printf("%s refused: %" PRIu64 ", %s\n", call, number, pdevs_words(number));
    return 1;
}

/* Advances to t with a bag, and writes on behind what the advances before have written: joined so it is one trace. Where the room
 * is full the instants done stand, and the same call goes on behind them. */
static uint64_t advance(uint64_t t, const uint8_t *bag, size_t bag_len) {
    uint8_t no_rules[1];
    for (;;) {
        pdevs_advanced a = pdevs_advance(model, model_len, run, sizeof run, t, bag, bag_len, trace.bytes + trace.used,
                                         trace.room - trace.used, no_rules, 0);
        trace.used += a.trace_bytes;
        if (a.number != PDEVS_BUFFER_TOO_SHORT) return a.number;
        make_room(&trace, 2 * trace.room);
    }
}

/* Gives the cues of a list, those of one moment together; the number of the first advance that was refused. */
static uint64_t give_cues(FILE *cues) {
    char line[80];
    uint8_t bag[PDEVS_MAX_BAG + PDEVS_MESSAGE_SIZE]; /* one message more, so that too many are refused and not cut */
    size_t bag_len = 0;
    uint64_t at = 0, moment, number = PDEVS_OK;
    unsigned port, value;
    while (fgets(line, sizeof line, cues)) {
        int last = sscanf(line, "end %" SCNu64, &moment) == 1;
        int cue = !last && sscanf(line, "%" SCNu64 " %u %u", &moment, &port, &value) == 3 && port < 256 && value < 65536;
        if (!last && !cue) {
            fprintf(stderr, "no cue: %s", line);
            exit(2);
        }
        if (bag_len > 0 && moment != at) {
            if ((number = advance(at, bag, bag_len)) != PDEVS_OK) return number;
            bag_len = 0;
        }
        if (last) return advance(moment, bag, bag_len);
        at = moment;
        if (bag_len == sizeof bag) continue; /* too many already: the engine refuses the bag */
        bag[bag_len + PDEVS_MESSAGE_PORT] = (uint8_t)port;
        bag[bag_len + PDEVS_MESSAGE_VALUE] = (uint8_t)(value % 256);
        bag[bag_len + PDEVS_MESSAGE_VALUE + 1] = (uint8_t)(value / 256);
        bag_len += PDEVS_MESSAGE_SIZE;
    }
    if (bag_len > 0) number = advance(at, bag, bag_len);
    return number;
}

/* Writes the trace to a file, by columns. It may be refused only where it has over 4,294,967,295 records. */
static int write_columns(const char *path) {
    FILE *file;
    pdevs_written w;
    make_room(&columns, PDEVS_COLUMNS_SIZE(trace.used));
    w = pdevs_trace_to_columns(trace.bytes, trace.used, columns.bytes, columns.room);
    if (w.number != PDEVS_OK) return refused("columns", w.number);
    file = opened(path, "wb");
    if (fwrite(columns.bytes, 1, w.bytes, file) != w.bytes || fclose(file)) give_up(path);
    printf("%" PRIu64 " records in %" PRIu64 " bytes\n", number_at(columns.bytes + PDEVS_COLUMNS_RECORD_COUNT, 4), w.bytes);
    return 0;
}

static int keep(const char *model_path, const char *cues_path, const char *columns_path) {
    FILE *file = opened(model_path, "rb"), *cues = opened(cues_path, "r");
    pdevs_written started;
    uint64_t number;
    int status;
    model_len = fread(model, 1, sizeof model, file);
    closed(file, model_path);
    started = pdevs_start(model, model_len, run, sizeof run);
    if (started.number != PDEVS_OK) return refused("start", started.number);
    make_room(&trace, 4096);
    number = give_cues(cues);
    closed(cues, cues_path);
    status = write_columns(columns_path); /* where an advance was refused, what was done before it is kept all the same */
    return number != PDEVS_OK ? refused("advance", number) : status;
}

/* Reads a file of columns and gives the trace back, so that it is known that they come from one; the number of the refusal. */
static uint64_t load(const char *path) {
    FILE *file = opened(path, "rb");
    pdevs_written w;
    do {
        make_room(&columns, 2 * columns.used + 65536);
        columns.used += fread(columns.bytes + columns.used, 1, columns.room - columns.used, file);
    } while (columns.used == columns.room);
    closed(file, path);
    make_room(&trace, columns.used + 1);
    w = pdevs_columns_to_trace(columns.bytes, columns.used, trace.bytes, trace.room);
    trace.used = w.bytes;
    return w.number;
}

static uint64_t moment_of(uint64_t record) { return number_at(columns.bytes + PDEVS_COLUMNS_MOMENTS + 8 * record, 8); }

/* The first record that is not before a moment. Moments do not fall, so that the column can be halved again and again. */
static uint64_t first_from(uint64_t records, uint64_t moment) {
    uint64_t low = 0, high = records;
    while (low < high) {
        uint64_t middle = low + (high - low) / 2;
        if (moment_of(middle) < moment) low = middle + 1;
        else high = middle;
    }
    return low;
}

/* Puts up the records of a moment: their steps and counts stand at the same place, their messages behind all those before. */
static int find(uint64_t moment) {
    uint64_t records = number_at(columns.bytes + PDEVS_COLUMNS_RECORD_COUNT, 4);
    uint64_t messages = PDEVS_COLUMNS_MESSAGES(columns.used, records);
    const uint8_t *steps = columns.bytes + PDEVS_COLUMNS_STEPS(records);
    const uint8_t *counts = columns.bytes + PDEVS_COLUMNS_MESSAGE_COUNTS(records);
    const uint8_t *ports = columns.bytes + PDEVS_COLUMNS_PORTS(records);
    const uint8_t *values = columns.bytes + PDEVS_COLUMNS_VALUES(records, messages);
    uint64_t first = first_from(records, moment), message = 0, record;
    for (record = 0; record < first; record++) message += number_at(counts + 2 * record, 2);
    for (; record < records && moment_of(record) == moment; record++) {
        uint64_t end = message + number_at(counts + 2 * record, 2);
        printf("%" PRIu64 " %" PRIu64, moment, number_at(steps + 2 * record, 2));
        for (; message < end; message++) printf(" %d:%" PRIu64, ports[message], number_at(values + 2 * message, 2));
        putchar('\n');
    }
    if (record == first) printf("no record at %" PRIu64 "\n", moment);
    return record == first;
}

static int list(void) {
    const uint8_t *record = trace.bytes, *end = trace.bytes + trace.used;
    while (record < end) {
        uint64_t count = number_at(record + PDEVS_RECORD_MESSAGE_COUNT, 2);
        printf("%" PRIu64 " %" PRIu64, number_at(record + PDEVS_RECORD_MOMENT, 8), number_at(record + PDEVS_RECORD_STEP, 2));
        record += PDEVS_RECORD_HEAD_SIZE;
        for (; count > 0; count--, record += PDEVS_MESSAGE_SIZE)
            printf(" %d:%" PRIu64, record[PDEVS_MESSAGE_PORT], number_at(record + PDEVS_MESSAGE_VALUE, 2));
        putchar('\n');
    }
    return 0;
}

static int usage(void) {
    fprintf(stderr, "archive keep MODEL CUES COLUMNS\narchive find COLUMNS MOMENT\narchive list COLUMNS\n");
    return 2;
}

/* Whether a word is a number, and which. */
static int is_moment(const char *word, uint64_t *moment) {
    char *end;
    *moment = strtoull(word, &end, 10);
    return word[0] >= '0' && word[0] <= '9' && *end == '\0';
}

/* Does what the arguments say; the exit status. */
static int done(int count, char **arguments) {
    int finds = count == 4 && strcmp(arguments[1], "find") == 0;
    int lists = count == 3 && strcmp(arguments[1], "list") == 0;
    uint64_t moment = 0, number;
    if (count == 5 && strcmp(arguments[1], "keep") == 0) return keep(arguments[2], arguments[3], arguments[4]);
    if (!finds && !lists) return usage();
    if (finds && !is_moment(arguments[3], &moment)) return usage();
    number = load(arguments[2]);
    if (number != PDEVS_OK) return refused("columns", number);
    return finds ? find(moment) : list();
}

int main(int count, char **arguments) {
    int status = done(count, arguments);
    if (fflush(stdout) || ferror(stdout)) give_up("standard output");
    return status;
}
