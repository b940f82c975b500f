/* The depot controller for C: opening a list of commands, from an image of a store too, dealing turns, having them dealt to the
 * end, the panel's two reports, the rounds that a list needs, and identifiers.
 * Every call is proved to answer and to leave what is said here, whatever the lists hold, to end, and to stay inside its lists.
 * How to run a depot with them: docs/HOSTING.md; what the words mean: docs/CONCEPTS.md. */
#ifndef DEPOT_H
#define DEPOT_H

#include <stddef.h>
#include <stdint.h>

#ifdef __cplusplus
extern "C" {
#endif

/* Words
 *
 * The host's words, and the code's beside them; docs/CONCEPTS.md says what they mean.
 *
 *     party      thread          0 is the loader, 1 and up are the workers
 *     turn       step            a wait is a turn that changes nothing; a command's writing turn is the one that answers it
 *     dealing    schedule        party numbers, one byte each, one turn each
 *     run        state           what the caller keeps between calls: the state's bytes, keys, chutes, answers, image
 *     record     node            1 up to the graph size; 0 is the head
 *     place      sequence number a command's place in its list, from 1
 *     room       capacity        how many items the store has room for, one a slot
 *
 * Lists
 *
 * A list is a pointer and its length in bytes. The caller owns every list and lends it for the time of the call: no call keeps
 * a pointer, allocates, or frees. Lists are bytes and need no alignment. A number of more than one byte has its high byte first.
 * A pointer is never null, not even with length 0: pass the address of any object then. (The wrappers at the end take null.)
 * A list that the call writes overlaps no other list of that call. Lists that are only read may overlap each other.
 * What overlaps, is null or is shorter than its length says is outside what is proved.
 *
 *     state      DEPOT_STATE_LENGTH bytes, whatever the settings (layout: docs/STATE-LAYOUT.md)
 *     keys       8 bytes for each slot of the room
 *     chutes     2 bytes for each slot of the room
 *     answers    2 bytes for each command
 *     image      DEPOT_RECORD_LENGTH bytes for each slot of the room and once more (layout: docs/IMAGE-LAYOUT.md)
 *     commands   16 bytes for each command: kind (1), identifier (13), chute (2); of a worker change (DEPOT_WORKERS) the
 *                identifier is thirteen characters '0' and the chute the new worker count, of a checkpoint (DEPOT_CHECKPOINT)
 *                the identifier is the same and the chute 0
 *
 * The caller keeps these six between calls and hands them to each call as the last accepted call left them. The list of commands
 * is whole at the opening: nothing is added to it later. Keys stand ascending in the slots in use, each with its chute in the same
 * slot of chutes; the slots after them hold 0 in both. Key 0 is a real item, so a slot is in use if its chute is not 0.
 *
 * Answers and refusals
 *
 * Each call returns 0 for accepted, else the number of a refusal (bits 0 to 7), the place of the command refused (from bit 8 on;
 * 0 for none, and only the openings and depot_rounds_needed name one) and the first faulty character of its identifier (bits 32 to
 * 39). Take an answer apart by depot_number, depot_place and depot_character; the bits from 40 on are kept free. A refusal leaves
 * every byte of every list as it was.
 * The character counts from 1 at the left, up to 13. With refusals 8 and 13 it is the first that is no letter or no digit where
 * one must stand, in a worker change or checkpoint the first that is not '0', and 0 where the identifier's length is wrong; with 9
 * it is 11, the check digit; with any other refusal 0.
 *
 * Threads of the host, and stack
 *
 * A call touches the lists lent to it and its own stack, nothing else: there is no global state, and no call waits. Calls from
 * several threads of the host are safe if none writes a list that another one has at the same time.
 * A call needs at most DEPOT_STACK_USE bytes of stack (measured by tests/stack.c, not proved).
 *
 * Linking
 *
 * The archive is libdepot_c.a, for every x86-64 and the System V calling convention, for programs of any kind (position
 * independent or not, static, shared); of the C library it uses memcpy and memset. `pkg-config --cflags --libs depot` gives the
 * flags, where PKG_CONFIG_PATH names lib/pkgconfig of the prefix. */

/* The version of this header: 10000 × major + 100 × minor + patch. The archive cannot be asked for its own, so keep the two of one
 * package together; `pkg-config --modversion depot` is the package's. */
#define DEPOT_VERSION 10100

enum {
    DEPOT_STATE_LENGTH = 4718,
    DEPOT_COUNTS_LENGTH = 150, /* pending counts */
    DEPOT_STATUS_LENGTH = 128,
    DEPOT_STEP_COUNT_LENGTH = 8, /* a number of turns */
    DEPOT_ROUND_LENGTH = 2,
    DEPOT_ROUND_COUNT_LENGTH = 8, /* a number of rounds */
    DEPOT_KEY_LENGTH = 8,
    DEPOT_CHUTE_LENGTH = 2,
    DEPOT_ANSWER_LENGTH = 2,
    DEPOT_COMMAND_LENGTH = 16,
    DEPOT_RECORD_LENGTH = 16, /* a record of an image */
    DEPOT_IDENTIFIER_LENGTH = 13,
    DEPOT_MOST_NODES = 150,     /* graph size: 1 to 150 */
    DEPOT_MOST_WORKERS = 64,    /* workers, of an opening and of a worker change: 1 to 64 */
    DEPOT_MOST_CAPACITY = 4096, /* room: 1 to 4,096 */
    DEPOT_MOST_COMMANDS = 4096, /* commands: 0 to 4,096 */
    DEPOT_MOST_CHUTE = 512,     /* chute of an insert or update: 1 to 512 */
    /* the longest list that depot_dispatch asks for, of a run that dealings reach: 1,896,960 bytes */
    DEPOT_MOST_STEPS = (DEPOT_MOST_COMMANDS + DEPOT_MOST_WORKERS) * (3 * DEPOT_MOST_NODES + 6),
    DEPOT_STACK_USE = 131072
};

#define DEPOT_LARGEST_KEY UINT64_C(45697599999999)

/* Refusals by number, each with one name, so that a switch can take them all. */
enum depot_refusal {
    DEPOT_ACCEPTED = 0,
    DEPOT_WRONG_GRAPH_SIZE = 1,  /* not 1 to 150 */
    DEPOT_WRONG_WORKERS = 2,     /* not 1 to 64 */
    DEPOT_WRONG_CAPACITY = 3,    /* room not 1 to 4,096 */
    DEPOT_WRONG_LIST_LENGTH = 4, /* length of the commands no multiple of 16 */
    DEPOT_TOO_MANY_COMMANDS = 5, /* over 4,096 */
    DEPOT_WRONG_LENGTH = 6,      /* another list of a wrong length; of depot_dispatch, last: the dealing's list is too short */
    DEPOT_UNKNOWN_KIND = 7,      /* kind not 1 to 6 */
    DEPOT_MALFORMED = 8,         /* identifier: length wrong, or the first faulty character is at 1, 2, 12 or 13: no letter;
                                    of a worker change or checkpoint: a character, 1 to 13, that is not '0' */
    DEPOT_WRONG_CHECK_DIGIT = 9, /* identifier: every letter and digit in order, check digit wrong */
    DEPOT_WRONG_CHUTE = 10,      /* insert, update: not 1 to 512; delete, read, checkpoint: not 0 */
    DEPOT_UNKNOWN_THREAD = 11,   /* party above the largest worker count of the opening and the list */
    DEPOT_OUT_OF_RANGE = 12,     /* a handed-back run that breaks its layout, docs/STATE-LAYOUT.md, its worker counts too; of
                                    depot_write_identifier: key above DEPOT_LARGEST_KEY */
    DEPOT_WRONG_DIGIT = 13,      /* identifier: the first faulty character is at 3 to 11: no digit; tested in 8's place */
    DEPOT_WRONG_COUNT = 14,      /* worker change: count not 1 to 64; tested in 10's place */
    DEPOT_WRONG_CHAIN = 15,      /* image to open from: an index above the room, or keys that do not strictly ascend */
    DEPOT_WRONG_RECORD = 16      /* image to open from: record 0 or a record on the chain out of range */
};

/* Two more names of refusal 12, by the call that refuses: a run handed back, and a key to be written. */
#define DEPOT_WRONG_STATE DEPOT_OUT_OF_RANGE
#define DEPOT_KEY_TOO_LARGE DEPOT_OUT_OF_RANGE

/* Kinds of command. DEPOT_WORKERS is a worker change: it sets the worker count. DEPOT_CHECKPOINT puts the store into the image.
 * Both name no item and are answered DEPOT_DONE. */
enum depot_kind {
    DEPOT_INSERT = 1,
    DEPOT_DELETE = 2,
    DEPOT_READ = 3,
    DEPOT_UPDATE = 4,
    DEPOT_WORKERS = 5,
    DEPOT_CHECKPOINT = 6
};

/* Answers to a command; 1 to 512 is the chute that a read found. */
enum depot_answer {
    DEPOT_NOT_YET = 0,
    DEPOT_DONE = 1000,
    DEPOT_NO_SUCH_ITEM = 1002,   /* delete, read, update */
    DEPOT_STORE_FULL = 1003,     /* insert of an absent item: no place left */
    DEPOT_ANNOUNCED_AGAIN = 1004 /* insert of a present item, also in a full store: it has the new chute */
};

/* States of a party. The loader is idle or loading, a worker anything but loading. A worker with a read goes from holding to
 * written in one turn: no dealing leaves it looked-up. */
enum depot_thread_state {
    DEPOT_IDLE = 0,
    DEPOT_LOADING = 1,
    DEPOT_SEARCHING = 2,
    DEPOT_HOLDING = 3,
    DEPOT_LOOKED_UP = 4,
    DEPOT_WRITTEN = 5,
    DEPOT_WALKING = 6,
    DEPOT_CLEARING = 7
};

/* The number of a call's answer, 0 for accepted. */
static inline unsigned depot_number(uint64_t answer)
{
    return (unsigned)(answer & 255u);
}

/* The place of the command that a call refused, 0 for none. */
static inline uint32_t depot_place(uint64_t answer)
{
    return (uint32_t)(answer >> 8 & 0xffffffu);
}

/* The first faulty character of the identifier that a call refused, 1 to 13, 0 for none. */
static inline unsigned depot_character(uint64_t answer)
{
    return (unsigned)(answer >> 32 & 255u);
}

/* The two-byte number of an entry, from 0, of a list of chutes, answers or rounds. */
static inline unsigned depot_short_at(const uint8_t *list, size_t entry)
{
    return (unsigned)list[2 * entry] << 8 | list[2 * entry + 1];
}

/* The key of an entry, from 0, of a list of keys; depot_key_at(count, 0) is the number of a count of turns or rounds. */
static inline uint64_t depot_key_at(const uint8_t *keys, size_t entry)
{
    uint64_t key = 0;
    size_t i;
    for (i = 0; i < 8; i++)
        key = key << 8 | keys[8 * entry + i];
    return key;
}

/* The length in bytes of the image of a store with a room. */
static inline size_t depot_image_length(size_t capacity)
{
    return DEPOT_RECORD_LENGTH * (capacity + 1);
}

/* The place of the checkpoint that an image is of, 0 for none: an image that only an opening wrote. */
static inline uint64_t depot_image_place(const uint8_t *image)
{
    return depot_key_at(image + 4, 0);
}

/* Opens a list of commands: the state's bytes are those of a run with an empty chain and all parties idle; keys, chutes, answers
 * and image are set to 0. Their contents before do not matter.
 *
 * Writes state, keys, chutes, answers, image; reads commands. size is the graph size, workers the worker count until a worker
 * change is written, capacity the room.
 * Refuses 1 to 6 in this order, then each command in order for 7, 8 or 13, 9, 10 or 14, with its place, and with the character
 * for 8, 9 and 13. 6: state is not 4,718 bytes long, keys not 8 × capacity, chutes not 2 × capacity, answers not 2 × the number
 * of commands, or image not depot_image_length(capacity).
 *
 *     uint8_t state[DEPOT_STATE_LENGTH], keys[8 * 4], chutes[2 * 4], answers[2 * 1], image[16 * (4 + 1)];
 *     const uint8_t commands[16] = {DEPOT_INSERT, 'A', 'A', '0', '0', '0', '0', '0', '0', '0', '0', '5', 'A', 'A', 0, 7};
 *     uint64_t answer = depot_open(state, sizeof state, keys, sizeof keys, chutes, sizeof chutes, answers, sizeof answers,
 *                                  image, sizeof image, commands, sizeof commands, 2, 1, 4); */
uint64_t depot_open(uint8_t *state, size_t state_length, uint8_t *keys, size_t keys_length, uint8_t *chutes,
                    size_t chutes_length, uint8_t *answers, size_t answers_length, uint8_t *image, size_t image_length,
                    const uint8_t *commands, size_t commands_length, uint64_t size, uint64_t workers, uint64_t capacity);

/* Opens a list of commands as depot_open does, but with the store that an image holds: keys and chutes are its entries, 0 after
 * them. The image opened from (source) is only read, and is another list than image, which is set to 0.
 * To go on after a checkpoint, hand over its image and the commands after its place, depot_image_place(source): proved is that
 * this is accepted, with any size and worker count, and that answers and table are those of the unbroken run
 * (crates/controller/specs/Checkpoint.antt). The worker count in force is not in the image: it is the new opening's.
 *
 * Writes state, keys, chutes, answers, image; reads commands and source.
 * Refuses as depot_open, and after 6 (also: source is not depot_image_length(capacity) bytes long) and before the commands 15
 * over the whole chain of source, then 16 over record 0 and the records on the chain; both with place 0 and character 0.
 *
 *     if (depot_open_from(state, sizeof state, keys, sizeof keys, chutes, sizeof chutes, answers, sizeof answers, image,
 *                         sizeof image, commands, sizeof commands, source, sizeof source, 2, 1, 4) == 0)
 *         printf("opened with the table of place %llu\n", (unsigned long long)depot_image_place(source)); */
uint64_t depot_open_from(uint8_t *state, size_t state_length, uint8_t *keys, size_t keys_length, uint8_t *chutes,
                         size_t chutes_length, uint8_t *answers, size_t answers_length, uint8_t *image, size_t image_length,
                         const uint8_t *commands, size_t commands_length, const uint8_t *source, size_t source_length,
                         uint64_t size, uint64_t workers, uint64_t capacity);

/* Performs a dealing: one turn for each byte of schedule, in order. It is checked whole before its first turn; an empty one
 * changes nothing.
 *
 * Proved, for every list of calls of depot_advance from an accepted depot_open or depot_open_from, in which each accepted call was
 * handed the lists as those before it left them, refused calls and empty dealings included (crates/depot_c/specs/Demand3.antt):
 * each answer is 0 before its command's writing turn and from then on the one that running the commands one after another, from
 * the opening's store, gives; when all commands are removed, keys and chutes are that run's table; and from every run that
 * dealings reach some further dealing is accepted and removes every command, with every party idle.
 *
 * A dealing may name parties 0 up to the largest worker count of the opening and of all worker changes in the list, loaded or not.
 * The count in force is the opening's, and from the writing turn of a worker change on that of the change. A worker above it waits
 * when idle; if it is searching, it walks to the end and takes nothing; with a record it goes on as before, so that the worker
 * that holds the change finishes its removal. Proved over the same lists of calls (crates/controller/specs/Count.antt): no command
 * behind a worker change in the list, up to and including the next one, is taken by a worker above its count, and none before the
 * first change by a worker above the opening's.
 *
 * Keys and chutes may be read between any two calls. Proved over the same lists of calls: they are what the commands already
 * written give when run alone in the order of the list, from the opening's store; a command is written when its answer is not
 * DEPOT_NOT_YET, and no entry shows a part of a command. An update may be written before an earlier insert of another item, so the
 * table need not be one that the commands one after another have at some moment. After insert A 3, insert B 7 and update A 9 with
 * the answers 1000, 0, 1000 it is
 *
 *     keys A, 0    chutes 9, 0
 *
 * and when the second answer is given too, A with 9 and B with 7.
 *
 * At the writing turn of a checkpoint the store goes into the image, which is zeros before the first one and stands until the
 * next. Proved over the same lists of calls: the image is always that of the last checkpoint written, with its place and with what
 * the commands before it in the list leave. Save it between calls, when depot_image_place(image) has changed, as you save the other
 * lists.
 *
 * That some dealing finishes does not mean that each repeated pattern does. With one worker, 1 0 1 repeated from the opening never
 * loads a command: the loader's turn always falls while the worker stands on the head. Two turns each, 0 0 1 1, never load the
 * second of two inserts at graph size 1. Deal round-robin, one turn each (0, 1, .. up to the largest worker count, and again),
 * some thousands of turns a call, until depot_all_removed: every run that was tried got there (docs/HOSTING.md says which). It is
 * not proved; that depot_dispatch finishes is.
 *
 * Writes state, keys, chutes, answers, image; reads commands (those of the opening) and schedule.
 * Refuses 6 (a length that is not the opening's, by the state's own settings), then 12 (the state breaks its layout), then 11
 * (a party above the largest worker count). A state that passes these tests, though no dealing leads to it, gets a call that ends
 * and stays inside its lists; what it leaves there is open.
 *
 *     const uint8_t schedule[] = {0, 0, 1, 1, 1, 1};  (two turns of the loader, four of worker 1)
 *     uint64_t answer = depot_advance(state, sizeof state, keys, sizeof keys, chutes, sizeof chutes, answers, sizeof answers,
 *                                     image, sizeof image, commands, sizeof commands, schedule, sizeof schedule);
 *     if (answer == 0 && depot_short_at(answers, 0) == DEPOT_DONE)
 *         puts("inserted"); */
uint64_t depot_advance(uint8_t *state, size_t state_length, uint8_t *keys, size_t keys_length, uint8_t *chutes,
                       size_t chutes_length, uint8_t *answers, size_t answers_length, uint8_t *image, size_t image_length,
                       const uint8_t *commands, size_t commands_length, const uint8_t *schedule, size_t schedule_length);

/* How long the list must be that depot_dispatch is lent for its dealing, as the lists are now: (n + w) × (3 × s + 6), with n the
 * commands that are not yet loaded or whose records are not yet returned, w the largest worker count of the opening and of all
 * worker changes, and s the graph size. When all is done it is w × (3 × s + 6), not 0. DEPOT_MOST_STEPS is enough for every run
 * that dealings reach, as n is at most 4,096 there.
 *
 * Writes count, DEPOT_STEP_COUNT_LENGTH bytes, high byte first: depot_key_at(count, 0) is its number. Reads the rest.
 * Refuses 6 (as depot_advance, without the image, and for the length of count), then 12.
 *
 *     uint8_t count[DEPOT_STEP_COUNT_LENGTH], *schedule = NULL;
 *     uint64_t answer = depot_steps_needed(state, sizeof state, keys, sizeof keys, chutes, sizeof chutes,
 *                                          answers, sizeof answers, commands, sizeof commands, count, sizeof count);
 *     if (answer == 0)
 *         schedule = malloc((size_t)depot_key_at(count, 0)); */
uint64_t depot_steps_needed(const uint8_t *state, size_t state_length, const uint8_t *keys, size_t keys_length,
                            const uint8_t *chutes, size_t chutes_length, const uint8_t *answers, size_t answers_length,
                            const uint8_t *commands, size_t commands_length, uint8_t *count, size_t count_length);

/* Dispatches: writes a dealing of its own choice into schedule, performs it, and writes its length, the number of turns, into
 * count (as depot_steps_needed does). The bytes of schedule behind the dealing stay as they are. Nothing needs to be dealt before;
 * a list whose turns were dealt in part is finished from where it stands.
 *
 * Proved, for every list of calls of depot_advance and depot_dispatch from an accepted depot_open or depot_open_from, in which
 * each accepted call was handed the lists as those before it left them (crates/depot_c/specs/Dispatching.antt): what is proved of
 * depot_advance on answers, table, image and finish holds; and depot_dispatch, lent a list that is long enough, removes every
 * command and leaves every party idle, in at most (n + w) × (3 × s + 6) turns. The bytes that it wrote, dealt by depot_advance on
 * the same lists, leave the same lists, so that a call that dispatches is one of depot_advance with its bytes; this holds of every
 * call that is accepted, also on a state that no dealing leads to (crates/dispatcher/specs/OverCalls.antt).
 *
 * Which turns: first whoever stands in the chain goes on until it stands there no more, the one furthest along before the others;
 * then each worker with a record finishes it, one after the other; then, while there are records in the chain, worker 1 serves the
 * first, and where there is none the loader loads the next command. So from an opening each command is loaded and served alone.
 * The choice may change with a version; what is proved above is promised, and no more.
 *
 * Writes state, keys, chutes, answers, image, schedule, count; reads commands (those of the opening).
 * Refuses 6 (as depot_advance, and for the length of count), then 12, then 6 if schedule is shorter than depot_steps_needed tells;
 * a longer one is accepted. A state that passes these tests, though no dealing leads to it, gets a call that ends within as many
 * turns; whether anything is finished is open.
 *
 *     uint64_t answer = depot_dispatch(state, sizeof state, keys, sizeof keys, chutes, sizeof chutes, answers, sizeof answers,
 *                                      image, sizeof image, commands, sizeof commands, schedule, schedule_length,
 *                                      count, sizeof count);
 *     if (answer == 0)
 *         printf("done in %llu turns\n", (unsigned long long)depot_key_at(count, 0)); */
uint64_t depot_dispatch(uint8_t *state, size_t state_length, uint8_t *keys, size_t keys_length, uint8_t *chutes,
                        size_t chutes_length, uint8_t *answers, size_t answers_length, uint8_t *image, size_t image_length,
                        const uint8_t *commands, size_t commands_length, uint8_t *schedule, size_t schedule_length,
                        uint8_t *count, size_t count_length);

/* The panel report (pending counts): for each record in the chain, in chain order, how many records it waits for, one byte each;
 * 0 after the last. A record that waits for none is 0 too, so the counts do not say how long the chain is: depot_next_record does.
 * A record is waited for until the worker that removes it has come by and taken it out of the set, which is some turns after its
 * command was answered and its record left the chain. So the first in the chain may still wait for one that is answered.
 * A command waits for each earlier one of the same item, but a read not for a read; inserts and deletes also wait for one another,
 * whatever their items. Reads and updates of other items pass them. A worker change or checkpoint waits for every earlier command,
 * and every later one waits for it. The reports are not lent the image.
 *
 * Writes counts, DEPOT_COUNTS_LENGTH bytes; reads the rest.
 * Refuses 6 (as depot_advance, without the image, and for the length of counts), then 12.
 *
 *     uint8_t counts[DEPOT_COUNTS_LENGTH];
 *     uint64_t answer = depot_pending_counts(state, sizeof state, keys, sizeof keys, chutes, sizeof chutes,
 *                                            answers, sizeof answers, commands, sizeof commands, counts, sizeof counts);
 *     if (answer == 0)
 *         printf("the second in the chain waits for %u\n", counts[1]); */
uint64_t depot_pending_counts(const uint8_t *state, size_t state_length, const uint8_t *keys, size_t keys_length,
                              const uint8_t *chutes, size_t chutes_length, const uint8_t *answers, size_t answers_length,
                              const uint8_t *commands, size_t commands_length, uint8_t *counts, size_t counts_length);

/* The standing of each worker (worker status): for worker 1 to 64 two bytes, its state (enum depot_thread_state) and its own
 * record, 0 where it has none. Workers past the largest worker count are idle.
 *
 * Writes status, DEPOT_STATUS_LENGTH bytes; reads the rest.
 * Refuses 6 (as depot_advance, without the image, and for the length of status), then 12.
 *
 *     uint8_t status[DEPOT_STATUS_LENGTH];
 *     uint64_t answer = depot_worker_status(state, sizeof state, keys, sizeof keys, chutes, sizeof chutes,
 *                                           answers, sizeof answers, commands, sizeof commands, status, sizeof status);
 *     if (answer == 0 && status[2 * (1 - 1)] == DEPOT_HOLDING)
 *         printf("worker 1 holds record %u\n", status[2 * (1 - 1) + 1]); */
uint64_t depot_worker_status(const uint8_t *state, size_t state_length, const uint8_t *keys, size_t keys_length,
                             const uint8_t *chutes, size_t chutes_length, const uint8_t *answers, size_t answers_length,
                             const uint8_t *commands, size_t commands_length, uint8_t *status, size_t status_length);

/* The rounds that a list of commands needs, for planners: how far more workers could help. No run is asked for, and none is
 * touched. Commands of one round do not wait for one another (depot_pending_counts says which do): those of a list with one round
 * could be served all at once, those of a list with as many rounds as commands go one after another, however many workers there
 * are. A round here is no round of turns (depot_round).
 * Each command has the first round after those of the earlier commands that it waits for, from 1 on. Proved, for every accepted
 * call (crates/depot_c/specs/Rounds.antt): of two commands, one of which waits for the other, the earlier in the list stands in
 * the earlier round; and whoever gives the commands rounds by this rule uses no fewer, and gives none an earlier one.
 *
 * Writes rounds, DEPOT_ROUND_LENGTH bytes for each command, high byte first: depot_short_at(rounds, place - 1) is the round of the
 * command at a place; and count, DEPOT_ROUND_COUNT_LENGTH bytes: depot_key_at(count, 0) is how many rounds there are, 0 for an
 * empty list. Reads commands.
 * Refuses 4 and 5 (of the commands, as depot_open), then 6 (rounds is not 2 × the number of commands long, or count not 8), then
 * each command in order for 7, 8 or 13, 9, 10 or 14 with place and character, as depot_open does.
 *
 *     uint8_t rounds[DEPOT_ROUND_LENGTH * 2], count[DEPOT_ROUND_COUNT_LENGTH];  (of a list of two commands)
 *     uint64_t answer = depot_rounds_needed(commands, sizeof commands, rounds, sizeof rounds, count, sizeof count);
 *     if (answer == 0)
 *         printf("%llu rounds, the second command in round %u\n", (unsigned long long)depot_key_at(count, 0),
 *                depot_short_at(rounds, 1)); */
uint64_t depot_rounds_needed(const uint8_t *commands, size_t commands_length, uint8_t *rounds, size_t rounds_length,
                             uint8_t *count, size_t count_length);

/* Reads an identifier of 13 characters (without an ending 0) and writes its key, 8 bytes.
 *
 * Refuses 6 (key is not 8 bytes long), then 8 (text is not 13 bytes long), then 8 or 13 at the first faulty character from the
 * left (8: letters stand at 1, 2, 12 and 13; 13: digits at 3 to 11), then 9 (check digit wrong, character 11).
 *
 *     uint8_t key[DEPOT_KEY_LENGTH];
 *     uint64_t answer = depot_read_identifier((const uint8_t *)"RR473124829GB", DEPOT_IDENTIFIER_LENGTH, key, sizeof key);
 *     if (answer == 0)
 *         printf("key %llu\n", (unsigned long long)depot_key_at(key, 0));
 *     else
 *         printf("refused %u, character %u\n", depot_number(answer), depot_character(answer)); */
uint64_t depot_read_identifier(const uint8_t *text, size_t text_length, uint8_t *key, size_t key_length);

/* Writes the identifier of a key, 13 characters without an ending 0.
 *
 * Refuses 6 (text is not 13 bytes long), then 12 (key above DEPOT_LARGEST_KEY).
 *
 *     uint8_t text[DEPOT_IDENTIFIER_LENGTH];
 *     if (depot_write_identifier(0, text, sizeof text) == 0)
 *         printf("%.13s\n", (const char *)text);  (prints AA000000005AA) */
uint64_t depot_write_identifier(uint64_t key, uint8_t *text, size_t text_length);

/* ---- The same calls with fewer arguments, and what hosts ask besides
 *
 * All below is inline and adds no symbol to the archive. It is tested (tests/wrappers.c), not proved.
 *
 *     static uint8_t block[DEPOT_BLOCK_LENGTH(4, 2)], commands[DEPOT_COMMAND_LENGTH * 2], schedule[DEPOT_MOST_STEPS];
 *     struct depot_lists lists = depot_lists_in(block, 4, commands, 2);  (room for four items, two commands)
 *     size_t turns = 0;
 *     depot_put_command(commands, 1, DEPOT_INSERT, "RR473124829GB", 12);
 *     depot_put_command(commands, 2, DEPOT_READ, "RR473124829GB", 0);
 *     if (depot_lists_open(&lists, 1, 1) == 0 && depot_lists_dispatch(&lists, schedule, sizeof schedule, &turns) == 0)
 *         printf("%s %u\n", depot_answer_text(depot_answer_at(&lists, 2)), depot_answer_at(&lists, 2));  (prints chute 12) */

/* The six lists that a host keeps between calls, with the two numbers that give their lengths: handed over as part of this, a list
 * has the right length and stands in its own place. Fill it by depot_lists_in, or one by one. */
struct depot_lists {
    uint8_t *state;          /* DEPOT_STATE_LENGTH bytes */
    uint8_t *keys;           /* DEPOT_KEY_LENGTH × capacity */
    uint8_t *chutes;         /* DEPOT_CHUTE_LENGTH × capacity */
    uint8_t *answers;        /* DEPOT_ANSWER_LENGTH × count; may be null if count is 0 */
    uint8_t *image;          /* depot_image_length(capacity) */
    const uint8_t *commands; /* DEPOT_COMMAND_LENGTH × count; may be null if count is 0 */
    size_t capacity;         /* the room */
    size_t count;            /* how many commands there are */
};

/* How many bytes the five lists that calls write have together, a constant where room and count are. */
#define DEPOT_BLOCK_LENGTH(capacity, count)                                                                                        \
    (DEPOT_STATE_LENGTH + (DEPOT_KEY_LENGTH + DEPOT_CHUTE_LENGTH) * (capacity) + DEPOT_ANSWER_LENGTH * (count) +                    \
     DEPOT_RECORD_LENGTH * ((capacity) + 1))

/* Lists that lie in one block of DEPOT_BLOCK_LENGTH(capacity, count) bytes, in the order of the calls' arguments, so that the block
 * and the commands are all that is to be saved. capacity is 1 to DEPOT_MOST_CAPACITY, count at most DEPOT_MOST_COMMANDS. */
static inline struct depot_lists depot_lists_in(uint8_t *block, size_t capacity, const uint8_t *commands, size_t count)
{
    struct depot_lists l;
    l.state = block;
    l.keys = l.state + DEPOT_STATE_LENGTH;
    l.chutes = l.keys + DEPOT_KEY_LENGTH * capacity;
    l.answers = l.chutes + DEPOT_CHUTE_LENGTH * capacity;
    l.image = l.answers + DEPOT_ANSWER_LENGTH * count;
    l.commands = commands;
    l.capacity = capacity;
    l.count = count;
    return l;
}

/* What stands for a list of no byte, as a pointer is never null for the archive; the second for a list that a call may write. */
static inline const uint8_t *depot_some(const uint8_t *list)
{
    static const uint8_t none = 0;
    return list != NULL ? list : &none;
}

static inline uint8_t *depot_some_lent(uint8_t *list, uint8_t *none)
{
    return list != NULL ? list : none;
}

/* The lists of l with their lengths, as the calls take them; none is a byte of the caller's. */
#define DEPOT_RUN_(l, none)                                                                                                        \
    (l)->state, DEPOT_STATE_LENGTH, (l)->keys, DEPOT_KEY_LENGTH * (l)->capacity, (l)->chutes, DEPOT_CHUTE_LENGTH * (l)->capacity,   \
        depot_some_lent((l)->answers, none), DEPOT_ANSWER_LENGTH * (l)->count
#define DEPOT_IMAGE_(l) (l)->image, depot_image_length((l)->capacity)
#define DEPOT_COMMANDS_(l) depot_some((l)->commands), DEPOT_COMMAND_LENGTH * (l)->count

/* As depot_open. */
static inline uint64_t depot_lists_open(const struct depot_lists *l, uint64_t size, uint64_t workers)
{
    uint8_t none = 0;
    return depot_open(DEPOT_RUN_(l, &none), DEPOT_IMAGE_(l), DEPOT_COMMANDS_(l), size, workers, l->capacity);
}

/* As depot_open_from; source is an image of the same room, and not l->image. */
static inline uint64_t depot_lists_open_from(const struct depot_lists *l, const uint8_t *source, uint64_t size, uint64_t workers)
{
    uint8_t none = 0;
    return depot_open_from(DEPOT_RUN_(l, &none), DEPOT_IMAGE_(l), DEPOT_COMMANDS_(l), source, depot_image_length(l->capacity),
                           size, workers, l->capacity);
}

/* As depot_advance; schedule may be null if length is 0. */
static inline uint64_t depot_lists_advance(const struct depot_lists *l, const uint8_t *schedule, size_t length)
{
    uint8_t none = 0;
    return depot_advance(DEPOT_RUN_(l, &none), DEPOT_IMAGE_(l), DEPOT_COMMANDS_(l), depot_some(schedule), length);
}

/* As depot_steps_needed; *steps is left as it was where the call is refused. */
static inline uint64_t depot_lists_steps_needed(const struct depot_lists *l, size_t *steps)
{
    uint8_t none = 0, count[DEPOT_STEP_COUNT_LENGTH];
    uint64_t answer = depot_steps_needed(DEPOT_RUN_(l, &none), DEPOT_COMMANDS_(l), count, sizeof count);
    if (answer == 0)
        *steps = (size_t)depot_key_at(count, 0);
    return answer;
}

/* As depot_dispatch; *steps, how many turns there were, is left as it was where the call is refused. schedule may be null if length
 * is 0, which is refused. */
static inline uint64_t depot_lists_dispatch(const struct depot_lists *l, uint8_t *schedule, size_t length, size_t *steps)
{
    uint8_t none = 0, count[DEPOT_STEP_COUNT_LENGTH];
    uint64_t answer = depot_dispatch(DEPOT_RUN_(l, &none), DEPOT_IMAGE_(l), DEPOT_COMMANDS_(l), depot_some_lent(schedule, &none),
                                     length, count, sizeof count);
    if (answer == 0)
        *steps = (size_t)depot_key_at(count, 0);
    return answer;
}

/* As depot_pending_counts; counts has DEPOT_COUNTS_LENGTH bytes. */
static inline uint64_t depot_lists_pending_counts(const struct depot_lists *l, uint8_t *counts)
{
    uint8_t none = 0;
    return depot_pending_counts(DEPOT_RUN_(l, &none), DEPOT_COMMANDS_(l), counts, DEPOT_COUNTS_LENGTH);
}

/* As depot_worker_status; status has DEPOT_STATUS_LENGTH bytes. */
static inline uint64_t depot_lists_worker_status(const struct depot_lists *l, uint8_t *status)
{
    uint8_t none = 0;
    return depot_worker_status(DEPOT_RUN_(l, &none), DEPOT_COMMANDS_(l), status, DEPOT_STATUS_LENGTH);
}

/* As depot_rounds_needed, of the list's commands; rounds has DEPOT_ROUND_LENGTH × count bytes and may be null if count is 0. *needed,
 * how many rounds there are, is left as it was where the call is refused. Only commands and count of l are looked at. */
static inline uint64_t depot_lists_rounds_needed(const struct depot_lists *l, uint8_t *rounds, size_t *needed)
{
    uint8_t none = 0, count[DEPOT_ROUND_COUNT_LENGTH];
    uint64_t answer = depot_rounds_needed(DEPOT_COMMANDS_(l), depot_some_lent(rounds, &none), DEPOT_ROUND_LENGTH * l->count, count,
                                          sizeof count);
    if (answer == 0)
        *needed = (size_t)depot_key_at(count, 0);
    return answer;
}

#undef DEPOT_RUN_
#undef DEPOT_IMAGE_
#undef DEPOT_COMMANDS_

/* Puts a command at its place, from 1, of a list of commands. kind is one of enum depot_kind; text is an identifier as a string, or
 * null for a worker change or a checkpoint: thirteen characters '0'. Nothing is refused here. What does not fit is put so that
 * opening refuses it: a kind above 255 as 255, a shorter string with bytes 0 behind it, a longer one with 0 as its last character,
 * a chute above 65,535 as 65,535. */
static inline void depot_put_command(uint8_t *commands, size_t place, unsigned kind, const char *text, unsigned chute)
{
    uint8_t *command = commands + DEPOT_COMMAND_LENGTH * (place - 1);
    size_t i, length = 0;
    while (text != NULL && length <= DEPOT_IDENTIFIER_LENGTH && text[length] != 0)
        length++;
    command[0] = (uint8_t)(kind > 255u ? 255u : kind);
    for (i = 0; i < DEPOT_IDENTIFIER_LENGTH; i++)
        command[1 + i] = (uint8_t)(text == NULL ? '0' : i < length ? text[i] : 0);
    if (length > DEPOT_IDENTIFIER_LENGTH)
        command[DEPOT_IDENTIFIER_LENGTH] = 0;
    command[14] = (uint8_t)(chute > 0xffffu ? 255u : chute >> 8);
    command[15] = (uint8_t)(chute > 0xffffu ? 255u : chute & 255u);
}

/* The command at a place, from 1: its kind, its identifier (13 characters in the list, without an ending 0, so print it by "%.13s")
 * and its chute. A place that has no command has kind 0, thirteen characters '-' and chute 0. */
static inline unsigned depot_command_kind(const struct depot_lists *l, size_t place)
{
    return place >= 1 && place <= l->count ? l->commands[DEPOT_COMMAND_LENGTH * (place - 1)] : 0u;
}

static inline const char *depot_command_text(const struct depot_lists *l, size_t place)
{
    return place >= 1 && place <= l->count ? (const char *)(l->commands + DEPOT_COMMAND_LENGTH * (place - 1) + 1) : "-------------";
}

static inline unsigned depot_command_chute(const struct depot_lists *l, size_t place)
{
    return place >= 1 && place <= l->count ? depot_short_at(l->commands + DEPOT_COMMAND_LENGTH * (place - 1) + 14, 0) : 0u;
}

/* The answer to the command at a place, from 1; DEPOT_NOT_YET for a place that has no command. */
static inline unsigned depot_answer_at(const struct depot_lists *l, size_t place)
{
    return place >= 1 && place <= l->count ? depot_short_at(l->answers, place - 1) : (unsigned)DEPOT_NOT_YET;
}

/* Whether every command has its answer. Table and image are then the last ones: what is left to do is to take records out of the
 * chain. */
static inline int depot_all_answered(const struct depot_lists *l)
{
    size_t place;
    for (place = 1; place <= l->count; place++)
        if (depot_answer_at(l, place) == DEPOT_NOT_YET)
            return 0;
    return 1;
}

/* What a run says of itself, by the layout of docs/STATE-LAYOUT.md: for runs that a call left. A record or party that there is none
 * of has nothing: 0. */
enum {
    DEPOT_AT_LARGEST_ = 3,
    DEPOT_AT_ROOM_ = 4,
    DEPOT_AT_COUNT_ = 6,
    DEPOT_AT_LOADED_ = 8,
    DEPOT_AT_USED_ = 10,
    DEPOT_AT_IN_FORCE_ = 13,
    DEPOT_AT_NEXT_ = 14,
    DEPOT_AT_PLACES_ = 165,
    DEPOT_AT_SETS_ = 769,
    DEPOT_SET_LENGTH_ = 24,
    DEPOT_AT_PARTIES_ = 4393,
    DEPOT_PARTY_LENGTH_ = 5
};

/* Room and number of commands that a state was opened with, for a state read from a file. */
static inline unsigned depot_room_in(const uint8_t *state)
{
    return depot_short_at(state + DEPOT_AT_ROOM_, 0);
}

static inline unsigned depot_count_in(const uint8_t *state)
{
    return depot_short_at(state + DEPOT_AT_COUNT_, 0);
}

/* The largest worker count of the opening and of all worker changes in the list: the last party that a dealing may name. */
static inline unsigned depot_largest_workers(const struct depot_lists *l)
{
    return l->state[DEPOT_AT_LARGEST_];
}

/* The worker count in force: the opening's, or that of the last worker change written. */
static inline unsigned depot_workers_in_force(const struct depot_lists *l)
{
    return l->state[DEPOT_AT_IN_FORCE_];
}

/* How many slots of the room are in use. */
static inline unsigned depot_used(const struct depot_lists *l)
{
    return depot_short_at(l->state + DEPOT_AT_USED_, 0);
}

/* How many commands are loaded: the loader has taken a record for each, also for the one that it is bringing to the chain's end. */
static inline unsigned depot_loaded(const struct depot_lists *l)
{
    return depot_short_at(l->state + DEPOT_AT_LOADED_, 0);
}

/* The record behind a record, 0 at the end of the chain; behind the head, 0, is the first. */
static inline unsigned depot_next_record(const struct depot_lists *l, unsigned record)
{
    return record <= DEPOT_MOST_NODES ? l->state[DEPOT_AT_NEXT_ + record] : 0u;
}

/* The place of the command that a record holds, 0 for none. */
static inline unsigned depot_record_place(const struct depot_lists *l, unsigned record)
{
    return record <= DEPOT_MOST_NODES ? depot_short_at(l->state + DEPOT_AT_PLACES_, record) : 0u;
}

/* The identifier of the command that a record holds, as depot_command_text gives it. */
static inline const char *depot_record_text(const struct depot_lists *l, unsigned record)
{
    return depot_command_text(l, depot_record_place(l, record));
}

/* Whether a record waits for another one. */
static inline int depot_waits_for(const struct depot_lists *l, unsigned record, unsigned other)
{
    if (record > DEPOT_MOST_NODES || other > DEPOT_MOST_NODES)
        return 0;
    return (l->state[DEPOT_AT_SETS_ + DEPOT_SET_LENGTH_ * record + 8 * (other / 64) + 7 - other % 64 / 8] >> other % 8 & 1) != 0;
}

/* How many records are in the chain; at most DEPOT_MOST_NODES, also in a run that no dealing reaches. */
static inline unsigned depot_chain_length(const struct depot_lists *l)
{
    unsigned length = 0, record = depot_next_record(l, 0);
    while (record != 0 && length < DEPOT_MOST_NODES) {
        length++;
        record = depot_next_record(l, record);
    }
    return length;
}

/* The state of a party, 0 the loader: enum depot_thread_state. */
static inline unsigned depot_party_state(const struct depot_lists *l, unsigned party)
{
    return party <= DEPOT_MOST_WORKERS ? l->state[DEPOT_AT_PARTIES_ + DEPOT_PARTY_LENGTH_ * party] : (unsigned)DEPOT_IDLE;
}

/* The own record of a party, 0 for none. */
static inline unsigned depot_party_record(const struct depot_lists *l, unsigned party)
{
    return party <= DEPOT_MOST_WORKERS ? l->state[DEPOT_AT_PARTIES_ + DEPOT_PARTY_LENGTH_ * party + 2] : 0u;
}

/* Whether every command is removed: loaded, answered, and its record returned. That stays so, whatever is dealt. A worker may still
 * be searching, and begin again when it gets a turn: see depot_busy. */
static inline int depot_all_removed(const struct depot_lists *l)
{
    unsigned record;
    if (depot_loaded(l) != l->count)
        return 0;
    for (record = 1; record <= DEPOT_MOST_NODES; record++)
        if (depot_record_place(l, record) != 0)
            return 0;
    return 1;
}

/* A round: one turn for each party, the loader first. schedule has 1 + DEPOT_MOST_WORKERS bytes; how many of them there are. */
static inline size_t depot_round(const struct depot_lists *l, uint8_t *schedule)
{
    size_t party, length = 1 + (size_t)depot_largest_workers(l);
    for (party = 0; party < length; party++)
        schedule[party] = (uint8_t)party;
    return length;
}

/* One turn for each party that is not idle, as depot_round; 0 where all are idle. Dealt again and again when all is answered, it
 * leaves every command removed and every party idle. */
static inline size_t depot_busy(const struct depot_lists *l, uint8_t *schedule)
{
    size_t length = 0;
    unsigned party;
    for (party = 0; party <= DEPOT_MOST_WORKERS; party++)
        if (depot_party_state(l, party) != DEPOT_IDLE)
            schedule[length++] = (uint8_t)party;
    return length;
}

/* A kind in words. */
static inline const char *depot_kind_text(unsigned kind)
{
    switch (kind) {
    case DEPOT_INSERT: return "insert";
    case DEPOT_DELETE: return "delete";
    case DEPOT_READ: return "read";
    case DEPOT_UPDATE: return "update";
    case DEPOT_WORKERS: return "workers";
    case DEPOT_CHECKPOINT: return "checkpoint";
    default: return "no kind of this header";
    }
}

/* A party's state in words. */
static inline const char *depot_state_text(unsigned state)
{
    switch (state) {
    case DEPOT_IDLE: return "idle";
    case DEPOT_LOADING: return "loading";
    case DEPOT_SEARCHING: return "searching";
    case DEPOT_HOLDING: return "holding";
    case DEPOT_LOOKED_UP: return "looked-up";
    case DEPOT_WRITTEN: return "written";
    case DEPOT_WALKING: return "walking";
    case DEPOT_CLEARING: return "clearing";
    default: return "no state of this header";
    }
}

/* A refusal in words, by its number (depot_number of an answer). */
static inline const char *depot_refusal_text(unsigned number)
{
    switch (number) {
    case DEPOT_ACCEPTED: return "accepted";
    case DEPOT_WRONG_GRAPH_SIZE: return "graph size not 1 to 150";
    case DEPOT_WRONG_WORKERS: return "workers not 1 to 64";
    case DEPOT_WRONG_CAPACITY: return "room not 1 to 4,096";
    case DEPOT_WRONG_LIST_LENGTH: return "length of the commands no multiple of 16";
    case DEPOT_TOO_MANY_COMMANDS: return "over 4,096 commands";
    case DEPOT_WRONG_LENGTH: return "a list of a wrong length";
    case DEPOT_UNKNOWN_KIND: return "kind not 1 to 6";
    case DEPOT_MALFORMED: return "identifier malformed";
    case DEPOT_WRONG_CHECK_DIGIT: return "check digit wrong";
    case DEPOT_WRONG_CHUTE: return "chute wrong for the kind";
    case DEPOT_UNKNOWN_THREAD: return "a party that is not there";
    case DEPOT_OUT_OF_RANGE: return "run or key out of range";
    case DEPOT_WRONG_DIGIT: return "no digit where one must stand in the identifier";
    case DEPOT_WRONG_COUNT: return "worker count not 1 to 64";
    case DEPOT_WRONG_CHAIN: return "image: its chain is broken";
    case DEPOT_WRONG_RECORD: return "image: a record out of range";
    default: return "no refusal of this header";
    }
}

/* An answer in words; of 1 to 512, a chute that was read, "chute". */
static inline const char *depot_answer_text(unsigned answer)
{
    switch (answer) {
    case DEPOT_NOT_YET: return "not yet";
    case DEPOT_DONE: return "done";
    case DEPOT_NO_SUCH_ITEM: return "no such item";
    case DEPOT_STORE_FULL: return "store full";
    case DEPOT_ANNOUNCED_AGAIN: return "announced again";
    default: return answer <= DEPOT_MOST_CHUTE ? "chute" : "no answer of this header";
    }
}

#ifdef __cplusplus
}
#endif

#endif
