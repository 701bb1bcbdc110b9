/*
 * A Parallel DEVS timing engine: reads a model, starts a run, advances it, by one bag or by a feed of many, advances up to eight
 * runs together, reads a run, flattens a model, and rearranges what a run has written.
 *
 * Every function is proved, for all bytes and numbers put in: the numbers it answers and the whole content of each lent
 * buffer are those of the engine's definitions. What the functions ask of the caller is at the end of this comment.
 *
 * Numbers in buffers are little-endian. One tick is a millisecond; a moment counts ticks from the start of the run.
 *
 * A model file has four sections, or five, each after its two-byte count:
 *   components, 1 to 64, 5 bytes: kind (0 coupled, 1 atomic), parent, phase count, initial phase, order (0 internal first,
 *     1 external first). Component 0 is the root, five zeros. Any other parent is an earlier coupled component, at most 8
 *     ancestors. An atomic has 1 to 64 phases; a coupled component has zeros in the last three bytes.
 *   phases, at most 512, 18 bytes, atomic by atomic: advance (4; at most 1,000,000,000, or 4,294,967,295 for never), next
 *     phase (1), output count (1, 0 to 4), four slots of port (1) and value (2), the used ones never falling, the rest zero.
 *   rules, at most 1,024, 18 bytes: atomic component, phase, next phase, port (1 each), low and high value (2 each), least
 *     count (2), low and high elapsed time (4 each; a high of 4,294,967,295 is no upper end). Low is at most high.
 *   couplings, at most 1,024, 4 bytes, never falling: source component, source port, target component, target port.
 *   how elapsed times are read, which may be left out: the count 1 and the byte 2, that is 1, 0, 2 and nothing else.
 * Ports are 0 to 3.
 *
 * In a file of four sections a rule's elapsed times run from low to high, both included: of two rules that meet at 500 ms both
 * hold on that tick, and the one that stands first decides. In a file of five they are half-open: high is excluded, so that only
 * the one that begins there holds. Low must then be below high, in every rule; a high of 4,294,967,295 is no upper end either way.
 * To make a file half-open, add the bytes 1, 0, 2 at its end. The ranges of values have both their ends in any file.
 *
 * A saved run has PDEVS_RUN_SIZE(number of atomics) bytes: open moment (8), number of atomics (2), then for each atomic in
 * file order its phase (1) and its last moment (8), when that phase was last entered. PDEVS_MAX_RUN bytes, 577, hold the
 * run of any model. A message for which an atomic has no rule changes neither, unless the atomic is due just then.
 *
 * A bag has 3 bytes for each message: port (1), value (2). At most 16 messages, in any order.
 *
 * A feed is a list of bags that was prepared beforehand, a day's cues for example: bag count (2, at most 1,000), then for each bag
 * its moment (8), its message count (1, 0 to 16) and its messages, 3 bytes each as in a bag. The moments rise strictly, none is
 * above 1,000,000,000,000, and nothing follows the last bag. PDEVS_MAX_FEED bytes, 57,002, hold any feed.
 *
 * Channels are 1 to 8 runs of one model that one call advances. They lie one behind the other in equal parts of one buffer, and
 * their traces in equal parts of another: a part has as many bytes as the buffer's length divided by their number, rounded down,
 * and the bytes past the last part belong to nobody. Their bags lie anywhere in a third buffer, each at its own place there.
 *
 * A trace has a record for each step with output at the root: moment (8), step in its instant from 0 (2), message count (2), and 3
 * bytes for each message, in rising order of port, then value. The pairs of moment and step rise strictly, moment first. The
 * traces of successive advances, each given the run buffer as the one before left it, joined in turn are one trace, up to
 * 4,294,967,295 records, whichever model each of them runs: refused advances add nothing to it, and those that 13 or 15 ended add
 * the instants done. So the trace of a feed is one, and is joined like that of an advance; so is that of a channel, also where 22
 * ended it. A start begins another one. A record that an advance, a feed or a channel writes has 1 to 4,096 messages, so that
 * PDEVS_MAX_RECORD bytes, 12,300, hold any one of them; an instant writes one for each of its steps with output at the root, of
 * which it has 1,024 at most.
 *
 * A trace by columns has the same numbers in another order, for archives, where moments are searched and like stands beside like:
 * record count (4), all moments (8 each), all steps (2), all message counts (2), all ports (1), all values (2). It has
 * PDEVS_COLUMNS_SIZE(bytes of the trace) bytes, 4 more than the trace; that of an empty trace is four zero bytes.
 *
 * A rules table has PDEVS_RULES_TABLE_SIZE(number of atomics) bytes, for each atomic in file order the position (2) of a rule in
 * the file, counted in rules from 0, or PDEVS_NO_RULE. PDEVS_MAX_RULES_TABLE bytes, 126, hold the table of any model.
 *
 * A call answers a number: 0 is success, the others are refusals. PDEVS_NUMBERS below has them all, with names and words, in the
 * order of the checks. Those of a model, which every call gives that takes one, are 1 to 9 and 20. With 1 to 12 and 16 to 21, and
 * with 15 from every call but those that advance runs, every other number answered is 0 and no byte of any buffer is changed. 13
 * and 15 from an advance or a feed keep what was done before: see there. A call on channels answers a number for each of them
 * beside its own; a channel's number says what became of that channel alone, and 22 keeps what was done before as 13 does.
 *
 * What is asked of the caller:
 *   - a pointer is not null, also where its length is 0, and is valid for its length (readable; writable where not const);
 *   - a buffer that is written overlaps no other buffer of the same call, and nobody else touches it during the call;
 *   - 256 KiB of stack.
 * Nothing else: any bytes and numbers may be put in. No function uses the heap, keeps anything between calls, or calls
 * anything of the system; calls on different buffers may run at the same time. Every call ends.
 */
#ifndef PDEVS_H
#define PDEVS_H

#include <stddef.h>
#include <stdint.h>

/* The version of this interface: the major number rises where programs must change, the minor where something is added or retired
   and they may stay as they are. */
#define PDEVS_VERSION_MAJOR 2
#define PDEVS_VERSION_MINOR 4
#define PDEVS_VERSION PDEVS_VERSION_OF(PDEVS_VERSION_MAJOR, PDEVS_VERSION_MINOR) /* the same as a text, "2.4" */
#define PDEVS_VERSION_OF(major, minor) PDEVS_VERSION_TEXT(major, minor)
#define PDEVS_VERSION_TEXT(major, minor) #major "." #minor

/*
 * Every number that a call answers, by ROW(number, name, words). The checks are made in this order, those of the model file after
 * that of the number of channels and section by section: 1, 3 and 5 for its count, 1 for its length, then 4, 6, 7 or 8 for its
 * records. What follows the couplings is checked next: 20 where it does not begin with 1, 0, 2, then 7 once more where it does and
 * a rule's low elapsed time is its high one (a low above the high was refused with its record), then 2 for bytes after that. 9
 * comes last.
 */
#define PDEVS_NUMBERS(ROW)                                                                                               \
    ROW(0, PDEVS_OK, "success")                                                                                          \
    ROW(21, PDEVS_BAD_CHANNELS, "the channels are not 1 to 8, or the allowance is below 1,024 steps a channel")          \
    ROW(1, PDEVS_MODEL_CUT, "a section's count, or its records, are cut off")                                            \
    ROW(3, PDEVS_COUNT_LIMIT, "a section's count is over its limit, or there is no component")                           \
    ROW(5, PDEVS_PHASE_SUM, "the phase count is not the sum of the atomics' phase counts")                               \
    ROW(4, PDEVS_BAD_COMPONENT, "a component breaks a line of the model file's form")                                    \
    ROW(6, PDEVS_BAD_PHASE, "a phase breaks a line of the model file's form")                                            \
    ROW(7, PDEVS_BAD_RULE, "a rule breaks a line of the model file's form")                                              \
    ROW(8, PDEVS_BAD_COUPLING, "a coupling breaks a line of the model file's form")                                      \
    ROW(20, PDEVS_BAD_FIFTH_SECTION, "bytes follow the model file's couplings and are no fifth section")                 \
    ROW(2, PDEVS_MODEL_LEFT_OVER, "bytes are left over after the model file's fifth section")                            \
    ROW(9, PDEVS_TOO_MANY_ROUTES, "there are more than 1,024 routes")                                                    \
    ROW(10, PDEVS_RUN_DOES_NOT_FIT, "the saved run is too short, or does not fit the model")                             \
    ROW(19, PDEVS_BAD_FEED, "the feed breaks its layout, or has a port above 3, or bytes are left over")                 \
    ROW(11, PDEVS_BAD_MOMENT, "a moment lies before the open moment or a feed's last bag, or above 1,000,000,000,000")   \
    ROW(12, PDEVS_BAD_BAG, "the bag's length is no multiple of 3, or it has over 16 messages, or a port above 3")        \
    ROW(13, PDEVS_STILL_DUE, "something is still due at a moment after 1,024 steps there")                               \
    ROW(17, PDEVS_NOT_A_TRACE, "the bytes to rearrange are no trace")                                                    \
    ROW(18, PDEVS_NOT_COLUMNS, "the columns do not come from a trace")                                                   \
    ROW(15, PDEVS_BUFFER_TOO_SHORT, "the records pass the end of the lent trace, or the lent buffer is too short")       \
    ROW(22, PDEVS_OUT_OF_STEPS, "a channel's next instant does not fit the steps that it still has")                     \
    ROW(16, PDEVS_BAD_POSITION, "the position is at or above the number of atomics")

/* PDEVS_OK to PDEVS_OUT_OF_STEPS. */
#define PDEVS_NAMED(number, name, words) name = number,
enum pdevs_number { PDEVS_NUMBERS(PDEVS_NAMED) };
#undef PDEVS_NAMED

/*
 * Retired: 14 said that a step's bag at the root has over 4,096 messages. At most 1,024 routes end there and each brings at most 4
 * messages in a step, so that no model could ever give it. No call answers it, and no later version gives it another meaning. An
 * inserter's branch for it is dead and can be taken out; the name stays, so that a branch on a number answered still compiles.
 */
#define PDEVS_ROOT_BAG_LIMIT ((enum pdevs_number)14)

/* A message and a record's head: their bytes, and where their fields lie. A record's messages follow its head. */
#define PDEVS_MESSAGE_SIZE 3
#define PDEVS_MESSAGE_PORT 0
#define PDEVS_MESSAGE_VALUE 1
#define PDEVS_RECORD_HEAD_SIZE 12
#define PDEVS_RECORD_MOMENT 0
#define PDEVS_RECORD_STEP 8
#define PDEVS_RECORD_MESSAGE_COUNT 10

/* A feed: its bag count, and where the first bag begins; a bag's head, and where its fields lie. A bag's messages follow its head,
   and the next bag follows them. */
#define PDEVS_FEED_BAG_COUNT 0
#define PDEVS_FEED_HEAD_SIZE 2
#define PDEVS_FEED_BAG_HEAD_SIZE 9
#define PDEVS_FEED_BAG_MOMENT 0
#define PDEVS_FEED_BAG_MESSAGE_COUNT 8
#define PDEVS_FEED_BAG_SIZE(messages) (PDEVS_FEED_BAG_HEAD_SIZE + PDEVS_MESSAGE_SIZE * (messages))

/* The bytes of a saved run, of a rules table, and of a trace by columns. */
#define PDEVS_RUN_SIZE(atomics) (10 + 9 * (atomics))
#define PDEVS_RULES_TABLE_SIZE(atomics) (2 * (atomics))
#define PDEVS_COLUMNS_SIZE(trace_bytes) ((trace_bytes) + 4)

/* In a trace by columns: where the record count and each column begin, by the numbers of records and of messages; and how many
   messages there are in so many bytes of columns. Bytes from elsewhere may say anything: only where pdevs_columns_to_trace does not
   answer 18 do these places lie within them. */
#define PDEVS_COLUMNS_RECORD_COUNT 0
#define PDEVS_COLUMNS_MOMENTS 4
#define PDEVS_COLUMNS_STEPS(records) (4 + 8 * (size_t)(records))
#define PDEVS_COLUMNS_MESSAGE_COUNTS(records) (4 + 10 * (size_t)(records))
#define PDEVS_COLUMNS_PORTS(records) (4 + 12 * (size_t)(records))
#define PDEVS_COLUMNS_VALUES(records, messages) (4 + 12 * (size_t)(records) + (size_t)(messages))
#define PDEVS_COLUMNS_MESSAGES(columns_bytes, records) (((columns_bytes) - PDEVS_COLUMNS_PORTS(records)) / PDEVS_MESSAGE_SIZE)

/* In a rules table: no rule. No rule of a file has this position. */
#define PDEVS_NO_RULE 65535

/* Lengths that suffice for every model. A flat model is no longer than the longest model file, which has five sections. */
#define PDEVS_MAX_MODEL 32075
#define PDEVS_MAX_ATOMICS 63
#define PDEVS_MAX_RUN PDEVS_RUN_SIZE(PDEVS_MAX_ATOMICS)
#define PDEVS_MAX_RULES_TABLE PDEVS_RULES_TABLE_SIZE(PDEVS_MAX_ATOMICS)

/* The longest record that an advance or a feed writes, in messages and in bytes. Bytes from elsewhere, which are rearranged all the
   same where they are a trace, may have up to 65,535 messages in a record. */
#define PDEVS_MAX_RECORD_MESSAGES 4096
#define PDEVS_MAX_RECORD (PDEVS_RECORD_HEAD_SIZE + PDEVS_MAX_RECORD_MESSAGES * PDEVS_MESSAGE_SIZE)

/* The longest bag, in messages and in bytes, the longest feed, in bags and in bytes, and the latest moment. */
#define PDEVS_MAX_BAG_MESSAGES 16
#define PDEVS_MAX_BAG (PDEVS_MAX_BAG_MESSAGES * PDEVS_MESSAGE_SIZE)
#define PDEVS_MAX_FEED_BAGS 1000
#define PDEVS_MAX_FEED (PDEVS_FEED_HEAD_SIZE + PDEVS_MAX_FEED_BAGS * PDEVS_FEED_BAG_SIZE(PDEVS_MAX_BAG_MESSAGES))
#define PDEVS_MAX_MOMENT UINT64_C(1000000000000)

/* The most channels of a call, and the least allowance of steps that a call must have for each of its channels. */
#define PDEVS_MAX_CHANNELS 8
#define PDEVS_LEAST_STEPS_A_CHANNEL 1024

/* The next due moment where nothing is ever due. */
#define PDEVS_NEVER UINT64_MAX

#ifdef __cplusplus
extern "C" {
#endif

/* The answer of a call that writes one buffer: the number, and how many bytes were written at its front. */
typedef struct { uint64_t number, bytes; } pdevs_written;

/* The number; how many instants were done, and their steps; how many bytes of trace were written. */
typedef struct { uint64_t number, instants, steps, trace_bytes; } pdevs_advanced;

/* The number; how many bags of a feed were done; then as an advance answers, for all its calls together. */
typedef struct { uint64_t number, bags, instants, steps, trace_bytes; } pdevs_fed;

/* Where a channel's bag lies among the bags of a call; where those of all channels lie. One that is not there needs no place. */
typedef struct { uint64_t start, length; } pdevs_place;
typedef struct { pdevs_place channel[PDEVS_MAX_CHANNELS]; } pdevs_places;

/* The number of a call on channels; then for each channel what an advance answers, zeros for one that is not there. */
typedef struct { uint64_t number; pdevs_advanced channel[PDEVS_MAX_CHANNELS]; } pdevs_channels;

/* The number; an atomic's phase and last moment; the whole model's next due moment, or PDEVS_NEVER. */
typedef struct { uint64_t number, phase, last, next_due; } pdevs_reading;

/* A number in words, for a log or a display. */
static inline const char *pdevs_words(uint64_t number) {
    switch (number) {
#define PDEVS_TOLD(number, name, words) case name: return words;
    PDEVS_NUMBERS(PDEVS_TOLD)
#undef PDEVS_TOLD
    default: return "no number of this interface";
    }
}

/* Checks a model file: 0, or the number of a model, 1 to 9 or 20, with which every other function refuses it. */
uint64_t pdevs_check_model(const uint8_t *model, size_t model_len);

/*
 * Starts a run: writes open moment 0, the initial phases and last moments 0 at the front of `run`; the bytes beyond stay.
 * Numbers: those of a model, 15.
 */
pdevs_written pdevs_start(const uint8_t *model, size_t model_len, uint8_t *run, size_t run_len);

/*
 * Advances a run to the moment t: does every instant due before t, then t with the messages of the bag given at the root's
 * inputs in its first step. Numbers: those of a model, 10, 11, 12, then for each instant 13, 15.
 *
 * On 0 the open moment of `run` is t + 1, the atomics' phases and last moments are those after the last instant, and the
 * records of all steps with output at the root stand at the front of `trace`, `trace_bytes` long.
 *
 * On 13 or 15 one instant was not done: it left no byte anywhere. The instants before it stand, in `run`, in `trace` and
 * in the numbers answered; the open moment is one past the last of them, or as before if there was none. After 15 the call
 * may be made again with the same t and bag and the trace anew: it goes on where this one stopped (where no instant was done,
 * the next one needs a longer trace). After 13 the same call is refused so again.
 *
 * `rules` tells which rules decided, so that they can be lit on a drawing. Where at least one instant was done, the table at
 * its front says for each atomic which rule decided its last external part in the last instant done, also after 13 and 15. An
 * external part is what messages do to an atomic, be it due just then or not. PDEVS_NO_RULE stands where that part had no
 * rule, and where no message reached the atomic in that instant. What the atomic does of itself later in it erases
 * nothing, and what an earlier instant lit does not last. To see every instant, advance to each next due moment in turn.
 * Where no instant was done, or the table has under 2 bytes an atomic, no byte of it is changed; a short table is no refusal,
 * and one of length 0 is what a caller lends who does not want to know.
 *
 * The bytes of `run` beyond the saved run, of `trace` beyond `trace_bytes` and of `rules` beyond the table stay.
 */
pdevs_advanced pdevs_advance(const uint8_t *model, size_t model_len, uint8_t *run, size_t run_len,
                             uint64_t t, const uint8_t *bag, size_t bag_len, uint8_t *trace, size_t trace_len,
                             uint8_t *rules, size_t rules_len);

/*
 * Runs a feed to an end moment: advances to each bag's moment with that bag, in turn, and then to `end` with an empty bag where
 * it lies past the last bag or there is none. Each of these advances goes on where the one before left `run`, and writes on
 * behind it in `trace`; none has a rules table. The first that is refused stops it. Numbers: those of a model, 10, 19, 11, then
 * for each instant 13, 15.
 *
 * 19 says that `feed` is none: it is cut off, has over 1,000 bags or bytes left over, a bag has over 16 messages, a moment does
 * not lie above the one before it or lies above 1,000,000,000,000, or a port is above 3. 11 says that `end` lies before the last
 * bag or above 1,000,000,000,000, or that the first bag, or `end` where there is none, lies before the open moment. Both are
 * known before anything is done.
 *
 * On 0 every bag was done, `bags` is their number, and the open moment of `run` is end + 1. `instants`, `steps` and `trace_bytes`
 * are those of all advances together, and their records stand at the front of `trace`, one trace. A bag without messages counts
 * among the bags; the advance to `end` does not.
 *
 * On 13 or 15 one instant was not done: it left no byte anywhere. `bags` bags were done before; the advance that was stopped
 * is that of the next bag, or where all were done the one to `end`. All instants before the undone one stand, in `run`, in
 * `trace` and in the numbers answered, also those of the advance that was stopped. After 15 the call may be made again with the
 * bags that are left, that is the feed without its first `bags` bags, the same end and the trace anew: it goes on where this one
 * stopped (where no byte of trace was written, the next instant needs a longer one). After 13 the advance that was stopped is
 * refused so again.
 *
 * The bytes of `run` beyond the saved run and of `trace` beyond `trace_bytes` stay.
 */
pdevs_fed pdevs_advance_feed(const uint8_t *model, size_t model_len, uint8_t *run, size_t run_len,
                             uint64_t end, const uint8_t *feed, size_t feed_len, uint8_t *trace, size_t trace_len);

/*
 * Advances `count` channels to the moment t, each with its own bag, while no more than `allowance` steps are done together. `runs`
 * and `traces` have a part for each channel, see above; channel k has the part k, and its bag is what lies in `bags` from
 * places.channel[k].start on, places.channel[k].length bytes. Several channels may have their bags at one place. None has a rules
 * table. The number answered for the whole call is 21, or that of a model, or 0.
 *
 * 21 says, before anything else is looked at, that `count` is not 1 to PDEVS_MAX_CHANNELS or `allowance` is below
 * PDEVS_LEAST_STEPS_A_CHANNEL steps for each channel. With 21 and with the number of a model every channel's entry is zeros.
 *
 * On 0 each channel has been advanced, in their order, and its entry says what became of it, as an advance of it alone would: 10,
 * 11 or 12, then for each instant 13, 15, 22. 12 is also given where the bag's place passes the end of `bags`: where start is
 * above bags_len, be the bag empty, or length is above bags_len - start. With 10, 11 and 12 that channel is left as it was.
 *
 * A channel has a share of the allowance, that is `allowance` divided by `count`, rounded down, and besides what the channels
 * before it left over; what the division leaves is nobody's. It does its instants in turn while the next one fits what it still
 * has. Only the steps of instants done are spent: a refused channel leaves its whole share, and a busy one cannot take a share
 * that comes after it. A share is 1,024 steps at least, so a channel that is not refused does at least one instant where one is
 * due by t or its bag is not empty, unless that instant meets 13 or 15.
 *
 * 22 says that the next instant takes more steps than the channel still has, and meets neither 13 nor 15: it was worked out to its
 * end, and left no byte anywhere. The instants before it stand, in the channel's run, in its trace and in its entry; the open
 * moment is one past the last of them, and the bag was not taken. A channel that has no steps left and nothing more to do answers
 * 0.
 *
 * A channel is left as its own pdevs_advance would leave it: with 0, 13 and 15 by that to t with its bag, with 22 by that to its
 * last instant done with an empty bag.
 *
 * Where channels answer 22 or 15 the call may be made again with the same t, bags and places, and the traces anew: these go on
 * where they stopped, and the channels that were done answer 11 and leave their shares. A channel that answered 22 goes on with
 * every call whose parts of `traces` are no shorter. One that answered 15 needs a longer part of `traces` where no instant was
 * done; after 13 it is refused so again.
 *
 * The bytes of a part beyond its saved run or beyond its `trace_bytes`, and those past the last part, stay.
 */
pdevs_channels pdevs_advance_channels(const uint8_t *model, size_t model_len, uint8_t *runs, size_t runs_len,
                                      uint64_t count, uint64_t t, uint64_t allowance,
                                      const uint8_t *bags, size_t bags_len, pdevs_places places,
                                      uint8_t *traces, size_t traces_len);

/*
 * Reads the atomic at a position, counted from 0 among the atomics in file order, and the whole model's next due moment.
 * Numbers: those of a model, 10, 16.
 */
pdevs_reading pdevs_read(const uint8_t *model, size_t model_len, const uint8_t *run, size_t run_len, uint64_t position);

/*
 * Flattens a model: writes, at the front of `out`, the model of the root and the atomics alone, with each route as a
 * coupling, and with the fifth section where the model has one; every run of it is a run of the nested model. The bytes beyond
 * stay. Numbers: those of a model, 15.
 */
pdevs_written pdevs_flatten(const uint8_t *model, size_t model_len, uint8_t *out, size_t out_len);

/*
 * Rearranges a trace into columns: writes them at the front of `out`. They take 4 bytes more than the trace, so a buffer of
 * PDEVS_COLUMNS_SIZE(trace_len) bytes suffices; the bytes beyond stay. The two buffers must not overlap. Numbers: 17, 15.
 *
 * 17 says that `trace` is none: a record is cut off or has no message, a pair of moment and step does not lie above the one
 * before it, messages fall within a record, a port is above 3, or there are over 4,294,967,295 records. Nothing else is asked:
 * any moment, step and message count that its bytes can hold is taken, and an instant's first record may be of any step.
 */
pdevs_written pdevs_trace_to_columns(const uint8_t *trace, size_t trace_len, uint8_t *out, size_t out_len);

/*
 * Gives the trace back, byte for byte: writes it at the front of `out`. It takes 4 bytes less than its columns; the bytes beyond
 * stay. The two buffers must not overlap. Numbers: 18, 15.
 *
 * 18 says that the columns do not come from a trace: they have under 4 bytes, or not as many as their counts say, or the records
 * that they tell are no trace. The columns that pdevs_trace_to_columns makes of a trace are the only ones that give it back.
 */
pdevs_written pdevs_columns_to_trace(const uint8_t *columns, size_t columns_len, uint8_t *out, size_t out_len);

#ifdef __cplusplus
}
#endif

#endif
