/* The C entry points at their limits and beyond: every list is a heap block of exactly its length, so that a memory checker sees
 * any step outside, and every refused call is held to leave all bytes as they were. Prints what fails; the last line is
 * 'edges: N checks, M failed'. */
#include <depot.h>

#include <stdio.h>
#include <stdlib.h>
#include <string.h>

struct list {
    uint8_t *bytes;
    size_t length;
};

/* A call's lists: the six that the caller keeps, one more that is the call's own (image to open from, schedule, counts, status,
 * steps needed or rounds), and the number of turns or rounds that a dispatch or the call for rounds writes. */
enum { STATE, KEYS, CHUTES, ANSWERS, IMAGE, COMMANDS, OWN, NUMBER, LISTS };

struct lists {
    struct list at[LISTS];
};

struct settings {
    uint64_t size, workers, capacity;
};

enum call { OPEN, OPEN_FROM, ADVANCE, COUNTS, STATUS, NEEDED, DISPATCH, ROUNDS, CALLS };

static const char *const call_names[] = {"depot_open",          "depot_open_from",    "depot_advance",  "depot_pending_counts",
                                         "depot_worker_status", "depot_steps_needed", "depot_dispatch", "depot_rounds_needed"};
static unsigned long checks, failures;

/* What a new list holds: no kind, no party. */
enum { UNTOUCHED = 0xa5 };

static void check(int holds, const char *call, const char *what, unsigned long number)
{
    checks++;
    if (holds)
        return;
    failures++;
    if (failures <= 20)
        printf("%s: %s (%lu)\n", call, what, number);
}

/* ---- lists */

static struct list make(size_t length)
{
    struct list l = {malloc(length), length};
    if (l.bytes == NULL) { /* with length 0 too: a null pointer is not for the calls */
        fprintf(stderr, "edges: no memory\n");
        exit(EXIT_FAILURE);
    }
    if (length > 0)
        memset(l.bytes, UNTOUCHED, length);
    return l;
}

static struct list copy(struct list from, size_t length)
{
    struct list l = make(length);
    size_t shared = length < from.length ? length : from.length;
    if (shared > 0)
        memcpy(l.bytes, from.bytes, shared);
    return l;
}

static int same(struct list a, struct list b)
{
    return a.length == b.length && (a.length == 0 || memcmp(a.bytes, b.bytes, a.length) == 0);
}

static void resize(struct lists *l, int which, size_t length)
{
    struct list old = l->at[which];
    l->at[which] = copy(old, length);
    free(old.bytes);
}

static struct lists make_all(size_t count, size_t capacity)
{
    struct lists l;
    l.at[STATE] = make(DEPOT_STATE_LENGTH);
    l.at[KEYS] = make(DEPOT_KEY_LENGTH * capacity);
    l.at[CHUTES] = make(DEPOT_CHUTE_LENGTH * capacity);
    l.at[ANSWERS] = make(DEPOT_ANSWER_LENGTH * count);
    l.at[IMAGE] = make(depot_image_length(capacity));
    l.at[COMMANDS] = make(DEPOT_COMMAND_LENGTH * count);
    l.at[OWN] = make(0);
    l.at[NUMBER] = make(0);
    return l;
}

static struct lists copy_all(const struct lists *from)
{
    struct lists l;
    for (int i = 0; i < LISTS; i++)
        l.at[i] = copy(from->at[i], from->at[i].length);
    return l;
}

static void free_all(struct lists *l)
{
    for (int i = 0; i < LISTS; i++)
        free(l->at[i].bytes);
}

/* ---- calls */

#define PASS(l, i) (l)->at[i].bytes, (l)->at[i].length
#define PASS_RUN(l) PASS(l, STATE), PASS(l, KEYS), PASS(l, CHUTES), PASS(l, ANSWERS)

static uint64_t pass(enum call c, struct lists *l, struct settings s)
{
    switch (c) {
    case OPEN:
        return depot_open(PASS_RUN(l), PASS(l, IMAGE), PASS(l, COMMANDS), s.size, s.workers, s.capacity);
    case OPEN_FROM:
        return depot_open_from(PASS_RUN(l), PASS(l, IMAGE), PASS(l, COMMANDS), PASS(l, OWN), s.size, s.workers, s.capacity);
    case ADVANCE:
        return depot_advance(PASS_RUN(l), PASS(l, IMAGE), PASS(l, COMMANDS), PASS(l, OWN));
    case COUNTS:
        return depot_pending_counts(PASS_RUN(l), PASS(l, COMMANDS), PASS(l, OWN));
    case STATUS:
        return depot_worker_status(PASS_RUN(l), PASS(l, COMMANDS), PASS(l, OWN));
    case NEEDED:
        return depot_steps_needed(PASS_RUN(l), PASS(l, COMMANDS), PASS(l, OWN));
    case DISPATCH:
        return depot_dispatch(PASS_RUN(l), PASS(l, IMAGE), PASS(l, COMMANDS), PASS(l, OWN), PASS(l, NUMBER));
    default:
        return depot_rounds_needed(PASS(l, COMMANDS), PASS(l, OWN), PASS(l, NUMBER));
    }
}

/* Whether a call is lent all lists to be read, but for its own. */
static int is_report(enum call c)
{
    return c == COUNTS || c == STATUS || c == NEEDED;
}

/* Whether a call may write a list. */
static int may_write(enum call c, int which)
{
    if (which < COMMANDS)
        return !is_report(c) && c != ROUNDS;
    return (which == OWN && is_report(c)) || (which > COMMANDS && (c == DISPATCH || c == ROUNDS));
}

/* Makes a call and checks that it leaves what it may not write: everything on a refusal, else what it only reads. */
static uint64_t call(enum call c, struct lists *l, struct settings s)
{
    struct lists old = copy_all(l);
    uint64_t answer = pass(c, l, s);
    for (int i = 0; i < LISTS; i++)
        if (answer != 0 || !may_write(c, i))
            check(same(old.at[i], l->at[i]), call_names[c], "changed a list that it may not write", (unsigned long)i);
    free_all(&old);
    return answer;
}

static void expect(enum call c, struct lists *l, struct settings s, uint64_t wanted, const char *what)
{
    uint64_t answer = call(c, l, s);
    check(answer == wanted, call_names[c], what, (unsigned long)answer);
}

static const struct settings none = {0, 0, 0};

static void advance(struct lists *l, const uint8_t *schedule, size_t length, uint64_t wanted, const char *what)
{
    resize(l, OWN, length);
    if (length > 0)
        memcpy(l->at[OWN].bytes, schedule, length);
    expect(ADVANCE, l, none, wanted, what);
}

static void report(struct lists *l, enum call c, size_t length, uint64_t wanted, const char *what)
{
    resize(l, OWN, length);
    expect(c, l, none, wanted, what);
}

/* ---- commands */

static void put_command(struct lists *l, size_t i, enum depot_kind kind, uint64_t key, unsigned chute)
{
    uint8_t *c = l->at[COMMANDS].bytes + DEPOT_COMMAND_LENGTH * i;
    struct list text = make(DEPOT_IDENTIFIER_LENGTH);
    check(depot_write_identifier(key, text.bytes, text.length) == 0, "depot_write_identifier", "refused", (unsigned long)key);
    c[0] = (uint8_t)kind;
    memcpy(c + 1, text.bytes, text.length);
    c[14] = (uint8_t)(chute / 256);
    c[15] = (uint8_t)(chute % 256);
    free(text.bytes);
}

/* A command that sets the worker count, right or not. */
static void put_workers(struct lists *l, size_t i, unsigned count)
{
    uint8_t *c = l->at[COMMANDS].bytes + DEPOT_COMMAND_LENGTH * i;
    c[0] = DEPOT_WORKERS;
    memset(c + 1, '0', DEPOT_IDENTIFIER_LENGTH);
    c[14] = (uint8_t)(count / 256);
    c[15] = (uint8_t)(count % 256);
}

/* A command that puts the store into the image, right if its chute is 0. */
static void put_checkpoint(struct lists *l, size_t i, unsigned chute)
{
    put_workers(l, i, chute);
    l->at[COMMANDS].bytes[DEPOT_COMMAND_LENGTH * i] = DEPOT_CHECKPOINT;
}

/* The chute that command i carries, 1 to 512. */
static unsigned chute_of(size_t i)
{
    return (unsigned)(1 + (i + 1) % 512);
}

/* Opened lists of inserts of keys 0, 1 and on; of other kinds too where mixed. */
static struct lists opened(size_t count, struct settings s, int mixed)
{
    struct lists l = make_all(count, (size_t)s.capacity);
    for (size_t i = 0; i < count; i++) {
        enum depot_kind kind = mixed ? (enum depot_kind)(1 + (i % 7) % 4) : DEPOT_INSERT;
        put_command(&l, i, kind, mixed ? i % 3 : i, kind == DEPOT_INSERT || kind == DEPOT_UPDATE ? chute_of(i) : 0);
    }
    expect(OPEN, &l, s, 0, "refused a proper list");
    return l;
}

/* ---- dispatching */

/* Places in the state: docs/STATE-LAYOUT.md. */
enum { SIZE_AT = 1, LARGEST_AT = 3, COUNT_AT = 6, LOADED_AT = 8, PLACES_AT = 165, PARTIES_AT = 4393, PARTY_LENGTH = 5 };

/* Document 02, A.6: (n + w) × (3 × s + 6). */
static size_t bound_of(const struct lists *l)
{
    const uint8_t *state = l->at[STATE].bytes;
    size_t left = depot_short_at(state + COUNT_AT, 0) - depot_short_at(state + LOADED_AT, 0);
    for (size_t record = 0; record <= state[SIZE_AT]; record++)
        left += depot_short_at(state + PLACES_AT, record) != 0;
    return (left + state[LARGEST_AT]) * (3 * (size_t)state[SIZE_AT] + 6);
}

/* Lends new lists for a dispatch or for rounds. */
static void lend(struct lists *l, size_t own, size_t number)
{
    free(l->at[OWN].bytes);
    free(l->at[NUMBER].bytes);
    l->at[OWN] = make(own);
    l->at[NUMBER] = make(number);
}

/* Whether a lent list is written up to a length and untouched behind it. */
static int ends_at(struct list l, size_t length)
{
    for (size_t i = 0; i < l.length; i++)
        if ((l.bytes[i] == UNTOUCHED) != (i >= length))
            return 0;
    return 1;
}

/* Checks that the turns in the list of a dispatch, dealt by hand from the lists before it, leave the same lists. */
static void check_by_hand(struct lists *before, const struct lists *after, size_t turns, const char *what)
{
    advance(before, after->at[OWN].bytes, turns, 0, what);
    for (int i = 0; i < OWN; i++)
        check(same(before->at[i], after->at[i]), what, "by hand another list", (unsigned long)i);
}

/* Dispatches into a list that is so much longer than it must be. The number of turns. */
static size_t dispatch(struct lists *l, size_t longer, const char *what)
{
    struct lists before = copy_all(l);
    size_t bound = bound_of(l), turns;
    report(l, NEEDED, DEPOT_STEP_COUNT_LENGTH, 0, what);
    check(depot_key_at(l->at[OWN].bytes, 0) == bound, what, "steps needed, and not", (unsigned long)bound);
    lend(l, bound + longer, DEPOT_STEP_COUNT_LENGTH);
    expect(DISPATCH, l, none, 0, what);
    turns = (size_t)depot_key_at(l->at[NUMBER].bytes, 0);
    check(turns <= bound, what, "more turns than the bound", (unsigned long)turns);
    if (turns <= bound) {
        check(ends_at(l->at[OWN], turns), what, "the dealing does not end at its length", (unsigned long)turns);
        check_by_hand(&before, l, turns, what);
    }
    free_all(&before);
    return turns;
}

/* Whether every command is loaded and answered, no record has one, and every party is idle. */
static int is_finished(const struct lists *l)
{
    const uint8_t *state = l->at[STATE].bytes;
    int rest = memcmp(state + COUNT_AT, state + LOADED_AT, 2);
    for (size_t record = 0; record <= DEPOT_MOST_NODES; record++)
        rest |= (int)depot_short_at(state + PLACES_AT, record);
    for (size_t i = PARTIES_AT; i < DEPOT_STATE_LENGTH; i++)
        rest |= state[i];
    for (size_t i = 0; i < l->at[ANSWERS].length / DEPOT_ANSWER_LENGTH; i++)
        rest |= depot_short_at(l->at[ANSWERS].bytes, i) == DEPOT_NOT_YET;
    return rest == 0;
}

/* ---- the tests */

static void test_empty_lists(void)
{
    const struct settings s = {1, 1, 1};
    const uint8_t schedule[] = {0, 1, 1, 0, 0, 1};
    struct lists l = opened(0, s, 0), nothing = {{{0, 0}}};
    check(dispatch(&l, 0, "empty list") == 0, "empty list", "dispatch makes turns", 0);
    advance(&l, schedule, 0, 0, "empty list, empty dealing");
    advance(&l, schedule, sizeof schedule, 0, "empty list, dealing");
    report(&l, COUNTS, DEPOT_COUNTS_LENGTH, 0, "empty list");
    report(&l, STATUS, DEPOT_STATUS_LENGTH, 0, "empty list");
    free_all(&l);
    for (int i = 0; i < LISTS; i++)
        nothing.at[i] = make(0);
    expect(OPEN, &nothing, s, DEPOT_WRONG_LENGTH, "all lists empty");
    expect(OPEN, &nothing, none, DEPOT_WRONG_GRAPH_SIZE, "all lists empty, size 0");
    expect(OPEN_FROM, &nothing, s, DEPOT_WRONG_LENGTH, "all lists empty");
    for (int c = ADVANCE; c < CALLS; c++)
        expect((enum call)c, &nothing, none, DEPOT_WRONG_LENGTH, "all lists empty");
    free_all(&nothing);
}

/* Document 01's example, whole, cut after nine turns and before the last: five turns of the loader, fourteen of worker 1. */
static void test_example(void)
{
    const struct settings s = {2, 1, 4};
    const uint8_t schedule[19] = {0, 0, 0, 0, 0, 1, 1, 1, 1, 1, 1, 1, 1, 1, 1, 1, 1, 1, 1};
    struct lists l = make_all(2, 4);
    put_command(&l, 0, DEPOT_INSERT, 0, 7);
    put_command(&l, 1, DEPOT_READ, 0, 0);
    expect(OPEN, &l, s, 0, "refused the example");
    advance(&l, schedule, 9, 0, "nine turns");
    check(depot_short_at(l.at[ANSWERS].bytes, 0) == DEPOT_DONE, "example", "first answer after nine turns", 0);
    check(depot_short_at(l.at[ANSWERS].bytes, 1) == DEPOT_NOT_YET, "example", "second answer after nine turns", 0);
    report(&l, COUNTS, DEPOT_COUNTS_LENGTH, 0, "counts after nine turns");
    check(l.at[OWN].bytes[0] == 0 && l.at[OWN].bytes[1] == 1 && l.at[OWN].bytes[2] == 0, "example", "counts", 0);
    report(&l, STATUS, DEPOT_STATUS_LENGTH, 0, "status after nine turns");
    check(l.at[OWN].bytes[0] == DEPOT_WRITTEN && l.at[OWN].bytes[1] == 1, "example", "status", 0);
    advance(&l, schedule + 9, 9, 0, "the other turns but the last");
    report(&l, STATUS, DEPOT_STATUS_LENGTH, 0, "status before the last turn");
    check(l.at[OWN].bytes[0] == DEPOT_CLEARING && l.at[OWN].bytes[1] == 2, "example", "status before the last turn", 0);
    advance(&l, schedule + 18, 1, 0, "the last turn");
    report(&l, STATUS, DEPOT_STATUS_LENGTH, 0, "status after the last turn");
    check(l.at[OWN].bytes[0] == DEPOT_IDLE && l.at[OWN].bytes[1] == 0, "example", "status after the last turn", 0);
    check(depot_short_at(l.at[ANSWERS].bytes, 1) == 7, "example", "second answer", 0);
    check(depot_key_at(l.at[KEYS].bytes, 0) == 0 && depot_short_at(l.at[CHUTES].bytes, 0) == 7, "example", "table", 0);
    free_all(&l);
}

/* Document 02, A.5: while worker 1 is between the lookup and the writing of an insert, worker 2 answers the read of another item
 * that was delivered later; the read of the same item waits. */
static void test_passing(void)
{
    const struct settings s = {3, 2, 1};
    const uint8_t schedule[18] = {0, 0, 0, 0, 0, 0, 0, 0, 0, 1, 1, 1, 2, 2, 2, 2, 2, 1};
    struct lists l = make_all(3, 1);
    put_command(&l, 0, DEPOT_INSERT, 1, 7);
    put_command(&l, 1, DEPOT_READ, 1, 0);
    put_command(&l, 2, DEPOT_READ, 0, 0);
    expect(OPEN, &l, s, 0, "refused an insert and two reads");
    advance(&l, schedule, 17, 0, "up to the answer of the last read");
    check(depot_short_at(l.at[ANSWERS].bytes, 0) == DEPOT_NOT_YET, "passing", "the insert is written", 0);
    check(depot_short_at(l.at[ANSWERS].bytes, 1) == DEPOT_NOT_YET, "passing", "the read of its item is answered", 0);
    check(depot_short_at(l.at[ANSWERS].bytes, 2) == DEPOT_NO_SUCH_ITEM, "passing", "the read of another item", 0);
    report(&l, COUNTS, DEPOT_COUNTS_LENGTH, 0, "passing");
    check(l.at[OWN].bytes[0] == 0 && l.at[OWN].bytes[1] == 1 && l.at[OWN].bytes[2] == 0, "passing", "counts", 0);
    report(&l, STATUS, DEPOT_STATUS_LENGTH, 0, "passing");
    check(l.at[OWN].bytes[0] == DEPOT_LOOKED_UP && l.at[OWN].bytes[1] == 1, "passing", "status of worker 1", 0);
    check(l.at[OWN].bytes[2] == DEPOT_WRITTEN && l.at[OWN].bytes[3] == 3, "passing", "status of worker 2", 0);
    advance(&l, schedule + 17, 1, 0, "the insert's writing");
    check(depot_short_at(l.at[ANSWERS].bytes, 0) == DEPOT_DONE, "passing", "answer of the insert", 0);
    free_all(&l);
}

/* Whether the first places of the table are these items in their chutes, and the next one, if there is one, is empty. */
static int table_is(const struct lists *l, size_t used, const uint64_t *keys, const unsigned *chutes)
{
    for (size_t i = 0; i < used; i++)
        if (depot_key_at(l->at[KEYS].bytes, i) != keys[i] || depot_short_at(l->at[CHUTES].bytes, i) != chutes[i])
            return 0;
    return 2 * used == l->at[CHUTES].length || depot_short_at(l->at[CHUTES].bytes, used) == 0;
}

/* Document 02, A.10, and README's example: an update passes an insert of another item, so that the table is what commands 1 and 3
 * give alone, which the serial run has after no command. */
static void test_moments(void)
{
    const struct settings s = {3, 2, 2};
    const uint8_t schedule[27] = {0, 0, 0, 0, 0, 0, 0, 0, 0, 1, 1, 1, 1, 1, 1, 1, 1, 1, 1, 1, 1, 2, 2, 2, 2, 2, 1};
    const uint64_t keys[2] = {0, 5};
    const unsigned first[1] = {3}, passed[1] = {9}, last[2] = {9, 7};
    struct lists l = make_all(3, 2);
    put_command(&l, 0, DEPOT_INSERT, 0, 3);
    put_command(&l, 1, DEPOT_INSERT, 5, 7);
    put_command(&l, 2, DEPOT_UPDATE, 0, 9);
    expect(OPEN, &l, s, 0, "refused two inserts and an update");
    advance(&l, schedule, 12, 0, "up to the first insert's lookup");
    check(table_is(&l, 0, keys, first), "moments", "the table before any writing", 0);
    advance(&l, schedule + 12, 9, 0, "up to the second insert's lookup");
    check(table_is(&l, 1, keys, first), "moments", "the table of the first insert", 0);
    advance(&l, schedule + 21, 5, 0, "the update");
    check(depot_short_at(l.at[ANSWERS].bytes, 1) == DEPOT_NOT_YET, "moments", "the second insert is written", 0);
    check(depot_short_at(l.at[ANSWERS].bytes, 2) == DEPOT_DONE, "moments", "answer of the update", 0);
    check(table_is(&l, 1, keys, passed), "moments", "the table of the first insert and the update", 0);
    advance(&l, schedule + 26, 1, 0, "the second insert's writing");
    check(table_is(&l, 2, keys, last), "moments", "the table of all three", 0);
    free_all(&l);
}

/* What a call answers that refuses at a character, of a command of a place. */
static uint64_t refused(unsigned number, size_t place, unsigned character)
{
    return (uint64_t)character << 32 | (uint64_t)place << 8 | number;
}

/* An opening, and the rounds of the same list, for which the commands are tested likewise. */
static void expect_both(struct lists *l, struct settings s, uint64_t wanted, const char *what)
{
    expect(OPEN, l, s, wanted, what);
    lend(l, l->at[COMMANDS].length / DEPOT_COMMAND_LENGTH * DEPOT_ROUND_LENGTH, DEPOT_ROUND_COUNT_LENGTH);
    expect(ROUNDS, l, none, wanted, what);
}

/* Document 02, A.2: refusals 8 and 14 of a worker change, at every place, and 8 at every character before 14. */
static void test_wrong_changes(void)
{
    static const unsigned counts[] = {0, 65, 128, 256, 257, 65535};
    const struct settings s = {1, 1, 1};
    struct lists l = opened(3, s, 0);
    for (size_t place = 1; place <= 3; place++) {
        uint8_t *text = l.at[COMMANDS].bytes + DEPOT_COMMAND_LENGTH * (place - 1);
        for (size_t i = 0; i < sizeof counts / sizeof *counts; i++) {
            put_workers(&l, place - 1, counts[i]);
            expect_both(&l, s, refused(DEPOT_WRONG_COUNT, place, 0), "a wrong count");
        }
        for (unsigned character = 1; character <= DEPOT_IDENTIFIER_LENGTH; character++) {
            put_workers(&l, place - 1, character % 2 ? 65 : 64);
            text[character] = character % 3 ? 'A' : '1';
            text[DEPOT_IDENTIFIER_LENGTH] = 'A';
            expect_both(&l, s, refused(DEPOT_MALFORMED, place, character), "a character that is not 0");
        }
        put_workers(&l, place - 1, place == 2 ? DEPOT_MOST_WORKERS : 1);
        expect_both(&l, s, 0, "a worker change");
    }
    free_all(&l);
}

/* Deals turns of one party, and checks what becomes of its status. */
static void deal_to(struct lists *l, uint8_t party, size_t turns, enum depot_thread_state state, unsigned record, const char *what)
{
    uint8_t schedule[16];
    memset(schedule, party, sizeof schedule);
    advance(l, schedule, turns, 0, what);
    if (party > 0) {
        report(l, STATUS, DEPOT_STATUS_LENGTH, 0, what);
        check(l->at[OWN].bytes[2 * (party - 1)] == state, "workers", what, l->at[OWN].bytes[2 * (party - 1)]);
        check(l->at[OWN].bytes[2 * (party - 1) + 1] == record, "workers", what, l->at[OWN].bytes[2 * (party - 1) + 1]);
    }
}

/* A turn that changes nothing: its worker is above the count in force. */
static void rests(struct lists *l, uint8_t party, const char *what)
{
    struct list old = copy(l->at[STATE], DEPOT_STATE_LENGTH);
    deal_to(l, party, 1, DEPOT_IDLE, 0, what);
    check(same(old, l->at[STATE]), "workers", what, party);
    free(old.bytes);
}

/* Document 02, A.2: one worker at first; the list allows three, and then one again. Worker 3 holds the second change, finishes its
 * removal and rests. Offset 3 of the state is the largest count, offset 13 the count in force. */
static void test_workers(void)
{
    const struct settings s = {3, 1, 1};
    const uint8_t fourth[] = {0, 4};
    struct lists l = make_all(3, 1);
    put_workers(&l, 0, 3);
    put_command(&l, 1, DEPOT_READ, 0, 0);
    put_workers(&l, 2, 1);
    expect(OPEN, &l, s, 0, "refused worker changes");
    check(l.at[STATE].bytes[0] == 1 && l.at[STATE].bytes[3] == 3 && l.at[STATE].bytes[13] == 1, "workers", "opening", 0);
    advance(&l, fourth, sizeof fourth, DEPOT_UNKNOWN_THREAD, "a party above the largest count");
    rests(&l, 3, "above the opening's count");
    deal_to(&l, 0, 9, DEPOT_IDLE, 0, "loading");
    rests(&l, 2, "before a record that may be taken");
    report(&l, COUNTS, DEPOT_COUNTS_LENGTH, 0, "workers");
    check(l.at[OWN].bytes[0] == 0 && l.at[OWN].bytes[1] == 1 && l.at[OWN].bytes[2] == 2, "workers", "counts", 0);
    deal_to(&l, 1, 4, DEPOT_WRITTEN, 1, "the first change");
    check(l.at[STATE].bytes[13] == 3 && depot_short_at(l.at[ANSWERS].bytes, 0) == DEPOT_DONE, "workers", "three", 0);
    deal_to(&l, 1, 5, DEPOT_IDLE, 0, "its removal");
    deal_to(&l, 3, 7, DEPOT_IDLE, 0, "the read, by worker 3");
    check(depot_short_at(l.at[ANSWERS].bytes, 1) == DEPOT_NO_SUCH_ITEM, "workers", "answer of the read", 0);
    deal_to(&l, 3, 4, DEPOT_WRITTEN, 3, "the second change");
    check(l.at[STATE].bytes[13] == 1 && depot_short_at(l.at[ANSWERS].bytes, 2) == DEPOT_DONE, "workers", "one", 0);
    rests(&l, 2, "above the new count");
    deal_to(&l, 3, 3, DEPOT_IDLE, 0, "its removal, by worker 3");
    rests(&l, 3, "behind its removal");
    deal_to(&l, 1, 1, DEPOT_SEARCHING, 0, "worker 1 goes on");
    l.at[STATE].bytes[13] = 4; /* count in force above the largest */
    advance(&l, fourth, sizeof fourth, DEPOT_WRONG_STATE, "12 is tested before 11");
    l.at[STATE].bytes[13] = 1;
    l.at[STATE].bytes[0] = 2; /* another chain */
    report(&l, STATUS, DEPOT_STATUS_LENGTH, DEPOT_WRONG_STATE, "another chain");
    free_all(&l);
}

/* ---- images: document 02, A.3, and docs/IMAGE-LAYOUT.md */

/* Gives the bytes of a list from an offset on a number, high byte first. */
static void put_number(struct list l, size_t offset, size_t bytes, uint64_t number)
{
    for (size_t i = 0; i < bytes; i++)
        l.bytes[offset + i] = (uint8_t)(number >> 8 * (bytes - 1 - i));
}

/* Gives a record of an image its fields. */
static void put_record(struct list image, size_t i, unsigned next, unsigned chute, uint64_t key)
{
    put_number(image, DEPOT_RECORD_LENGTH * i, 2, next);
    put_number(image, DEPOT_RECORD_LENGTH * i + 2, 2, chute);
    put_number(image, DEPOT_RECORD_LENGTH * i + 4, 8, key);
    put_number(image, DEPOT_RECORD_LENGTH * i + 12, 4, 0);
}

/* Refusals 8 and 10 of a checkpoint, at every place, and 8 at every character before 10. */
static void test_wrong_checkpoints(void)
{
    static const unsigned wrong[] = {1, 64, 256, 512, 65535};
    const struct settings s = {1, 1, 1};
    struct lists l = opened(3, s, 0);
    for (size_t place = 1; place <= 3; place++) {
        uint8_t *text = l.at[COMMANDS].bytes + DEPOT_COMMAND_LENGTH * (place - 1);
        for (size_t i = 0; i < sizeof wrong / sizeof *wrong; i++) {
            put_checkpoint(&l, place - 1, wrong[i]);
            expect_both(&l, s, refused(DEPOT_WRONG_CHUTE, place, 0), "a checkpoint with a chute");
        }
        for (unsigned character = 1; character <= DEPOT_IDENTIFIER_LENGTH; character++) {
            put_checkpoint(&l, place - 1, character % 2);
            text[character] = character % 3 ? 'A' : '1';
            text[DEPOT_IDENTIFIER_LENGTH] = 'A';
            expect_both(&l, s, refused(DEPOT_MALFORMED, place, character), "a character that is not 0");
        }
        put_checkpoint(&l, place - 1, 0);
        expect_both(&l, s, 0, "a checkpoint");
    }
    free_all(&l);
}

/* The example of docs/IMAGE-LAYOUT.md, written at the writing turn and not before, over whatever the image holds; then the same
 * table is opened from, in the other order of that page. */
static void test_checkpoint(void)
{
    static const uint8_t wanted[64] = {0, 1, 0, 0,  0, 0, 0,    0,    0,    0,    0,    3,    0, 0, 0, 0, /* record 0 */
                                       0, 2, 0, 7,  0, 0, 0,    0,    0,    0,    0,    0,    0, 0, 0, 0,
                                       0, 0, 0, 12, 0, 0, 0x1c, 0x3f, 0xcf, 0x1c, 0x07, 0x65, 0, 0, 0, 0};
    const uint64_t key = UINT64_C(31060383237989); /* RR473124829GB */
    const struct settings s = {1, 1, 3};
    const uint8_t one[] = {0, 0, 1, 1, 1, 1, 1, 1, 1};
    struct lists l = make_all(3, 3);
    put_command(&l, 0, DEPOT_INSERT, key, 12);
    put_command(&l, 1, DEPOT_INSERT, 0, 7);
    put_checkpoint(&l, 2, 0);
    expect(OPEN, &l, s, 0, "refused a checkpoint");
    check(depot_image_place(l.at[IMAGE].bytes) == 0 && l.at[IMAGE].bytes[1] == 0, "checkpoint", "opening's image", 0);
    memset(l.at[IMAGE].bytes, 0xa5, l.at[IMAGE].length);
    for (size_t i = 0; i < 2; i++)
        advance(&l, one, sizeof one, 0, "an insert alone");
    advance(&l, one, 5, 0, "the checkpoint's look");
    check(l.at[IMAGE].bytes[0] == 0xa5 && l.at[IMAGE].bytes[63] == 0xa5, "checkpoint", "written at the look", 0);
    advance(&l, one + 5, 1, 0, "the checkpoint's writing");
    check(memcmp(l.at[IMAGE].bytes, wanted, sizeof wanted) == 0, "checkpoint", "image", 0);
    check(depot_short_at(l.at[ANSWERS].bytes, 2) == DEPOT_DONE, "checkpoint", "answer", 0);
    check(depot_image_place(l.at[IMAGE].bytes) == 3, "checkpoint", "place", 0);
    resize(&l, OWN, sizeof wanted);
    memset(l.at[OWN].bytes, 0xff, sizeof wanted);
    put_record(l.at[OWN], 0, 3, 0, 3);
    put_record(l.at[OWN], 3, 1, 7, 0);
    put_record(l.at[OWN], 1, 0, 12, key);
    expect(OPEN_FROM, &l, s, 0, "refused the example in another order");
    check(depot_key_at(l.at[KEYS].bytes, 0) == 0 && depot_key_at(l.at[KEYS].bytes, 1) == key, "checkpoint", "keys", 0);
    check(depot_short_at(l.at[CHUTES].bytes, 0) == 7 && depot_short_at(l.at[CHUTES].bytes, 1) == 12, "checkpoint", "chutes", 0);
    check(depot_image_place(l.at[IMAGE].bytes) == 0 && l.at[IMAGE].bytes[1] == 0, "checkpoint", "second opening", 0);
    free_all(&l);
}

/* A field of an image, what it is given, and what the call answers. The image has three records in the order 2, 1, 3, with keys 5,
 * 7 and 9. */
static const struct {
    size_t offset, bytes;
    uint64_t value;
    unsigned wanted;
} fields[] = {
    /* record 0: index, chute, place, last bytes */
    {0, 2, 0, 0}, {0, 2, 1, 0}, {0, 2, 3, 0}, {0, 2, 4, 15}, {0, 2, 65535, 15}, {2, 2, 1, 16}, {2, 2, 256, 16},
    {4, 8, 0, 0}, {4, 8, 4096, 0}, {4, 8, 4097, 16}, {4, 8, UINT64_MAX, 16}, {12, 1, 1, 16}, {15, 1, 1, 16},
    /* indexes on the chain: its end, loops, above the room */
    {16, 2, 0, 0}, {16, 2, 1, 15}, {16, 2, 2, 15}, {16, 2, 4, 15}, {32, 2, 2, 15}, {32, 2, 0, 0}, {48, 2, 1, 15},
    {48, 2, 256, 15},
    /* chutes */
    {18, 2, 0, 16}, {18, 2, 1, 0}, {18, 2, 512, 0}, {18, 2, 513, 16}, {50, 2, 0, 16},
    /* keys: equal, ascending, descending, the largest and beyond */
    {20, 8, 5, 15}, {20, 8, 6, 0}, {20, 8, DEPOT_LARGEST_KEY, 15}, {36, 8, 0, 0}, {36, 8, 7, 15},
    {52, 8, DEPOT_LARGEST_KEY, 0}, {52, 8, DEPOT_LARGEST_KEY + 1, 16},
    /* last bytes on the chain */
    {28, 1, 1, 16}, {63, 1, 128, 16},
};

/* A right image with one field after the other at its bounds and beyond. */
static void test_wrong_images(void)
{
    const struct settings s = {2, 1, 3};
    struct lists l = opened(1, s, 0);
    for (size_t i = 0; i < sizeof fields / sizeof *fields; i++) {
        resize(&l, OWN, depot_image_length(3));
        put_record(l.at[OWN], 0, 2, 0, 1);
        put_record(l.at[OWN], 2, 1, 1, 5);
        put_record(l.at[OWN], 1, 3, 1, 7);
        put_record(l.at[OWN], 3, 0, 1, 9);
        put_number(l.at[OWN], fields[i].offset, fields[i].bytes, fields[i].value);
        expect(OPEN_FROM, &l, s, fields[i].wanted, "an image with one field changed");
    }
    free_all(&l);
}

/* 1 to 6 before the image, 15 over the whole chain before 16, and both before the commands. */
static void test_order_of_tests(void)
{
    const struct settings s = {2, 1, 2}, wrong = {2, 0, 2};
    struct lists l = opened(1, s, 0);
    resize(&l, OWN, depot_image_length(2));
    put_record(l.at[OWN], 0, 1, 1, 1); /* a chute in record 0 */
    put_record(l.at[OWN], 1, 2, 1, 5);
    put_record(l.at[OWN], 2, 1, 1, 9); /* a loop */
    l.at[COMMANDS].bytes[0] = 0;
    expect(OPEN_FROM, &l, wrong, DEPOT_WRONG_WORKERS, "2 is tested before 15");
    expect(OPEN_FROM, &l, s, DEPOT_WRONG_CHAIN, "15 is tested before 16");
    put_record(l.at[OWN], 2, 0, 1, 9);
    expect(OPEN_FROM, &l, s, DEPOT_WRONG_RECORD, "16 is tested before the commands");
    put_record(l.at[OWN], 0, 1, 0, 1);
    expect(OPEN_FROM, &l, s, refused(DEPOT_UNKNOWN_KIND, 1, 0), "the commands are tested behind the image");
    l.at[COMMANDS].bytes[0] = DEPOT_INSERT;
    expect(OPEN_FROM, &l, s, 0, "refused a right image");
    resize(&l, IMAGE, depot_image_length(2) - 1);
    put_record(l.at[OWN], 2, 1, 1, 9);
    expect(OPEN_FROM, &l, s, DEPOT_WRONG_LENGTH, "6 is tested before 15");
    free_all(&l);
}

/* 4,096 records and one, 65,552 bytes: a chain that runs from the last record to the first; a checkpoint of the full store; and
 * the same with a fault at the chain's end. */
static void test_largest_image(void)
{
    enum { MOST = DEPOT_MOST_CAPACITY };
    const struct settings s = {1, 1, MOST};
    const uint8_t turns[] = {0, 0, 1, 1, 1, 1};
    struct lists l = make_all(1, MOST);
    put_checkpoint(&l, 0, 0);
    resize(&l, OWN, 65552);
    put_record(l.at[OWN], 0, MOST, 0, 4096);
    for (unsigned i = 1; i <= MOST; i++)
        put_record(l.at[OWN], i, i - 1, 1 + i % 512, DEPOT_LARGEST_KEY + 1 - i);
    expect(OPEN_FROM, &l, s, 0, "the largest image");
    put_record(l.at[OWN], 1, 4097, 2, DEPOT_LARGEST_KEY);
    expect(OPEN_FROM, &l, s, DEPOT_WRONG_CHAIN, "an index above the room at the chain's end");
    put_record(l.at[OWN], 1, 0, 2, DEPOT_LARGEST_KEY + 1);
    expect(OPEN_FROM, &l, s, DEPOT_WRONG_RECORD, "a key above the largest at the chain's end");
    advance(&l, turns, sizeof turns, 0, "a checkpoint of 4,096 entries");
    check(depot_image_place(l.at[IMAGE].bytes) == 1, "largest image", "place", 0);
    for (size_t i = 0; i < MOST; i++) {
        const uint8_t *record = l.at[IMAGE].bytes + DEPOT_RECORD_LENGTH * (i + 1);
        uint64_t key = DEPOT_LARGEST_KEY + 1 - (MOST - i);
        check(depot_key_at(l.at[KEYS].bytes, i) == key, "largest image", "key", (unsigned long)i);
        check(depot_key_at(record + 4, 0) == key, "largest image", "key in the image", (unsigned long)i);
        check(depot_short_at(record, 0) == (i + 1 < MOST ? i + 2 : 0), "largest image", "index", (unsigned long)i);
        check(depot_short_at(record, 1) == 1 + (MOST - i) % 512, "largest image", "chute", (unsigned long)i);
    }
    free_all(&l);
}

/* A dealing that loads as many commands as the graph holds, then has worker 1 remove them one by one from the chain's front. */
static struct list filling_and_emptying(size_t nodes)
{
    struct list d = make(nodes * (nodes + 3) / 2 + nodes * (nodes + 13) / 2);
    size_t at = 0;
    for (size_t n = 0; n < nodes; n++)
        for (size_t i = 0; i < n + 2; i++)
            d.bytes[at++] = 0;
    for (size_t left = nodes; left > 0; left--)
        for (size_t i = 0; i < left + 6; i++)
            d.bytes[at++] = 1;
    d.length = at;
    return d;
}

/* Answers and table of 4,096 inserts into as large a room. */
static void check_all_inserted(const struct lists *l, const char *what)
{
    for (size_t i = 0; i < DEPOT_MOST_COMMANDS; i++) {
        check(depot_short_at(l->at[ANSWERS].bytes, i) == DEPOT_DONE, what, "answer", (unsigned long)i);
        check(depot_key_at(l->at[KEYS].bytes, i) == i, what, "key", (unsigned long)i);
        check(depot_short_at(l->at[CHUTES].bytes, i) == chute_of(i), what, "chute", (unsigned long)i);
    }
}

static const struct settings largest = {DEPOT_MOST_NODES, DEPOT_MOST_WORKERS, DEPOT_MOST_CAPACITY};

static void test_largest(void)
{
    struct lists l = opened(DEPOT_MOST_COMMANDS, largest, 0);
    struct list d = filling_and_emptying(DEPOT_MOST_NODES);
    for (size_t done = 0; done < DEPOT_MOST_COMMANDS; done += DEPOT_MOST_NODES)
        advance(&l, d.bytes, d.length, 0, "the largest settings");
    check_all_inserted(&l, "largest");
    report(&l, COUNTS, DEPOT_COUNTS_LENGTH, 0, "the largest settings");
    report(&l, STATUS, DEPOT_STATUS_LENGTH, 0, "the largest settings");
    free(d.bytes);
    free_all(&l);
}

/* The longest list that any run asks for, and the same run when all is done. */
static void test_dispatch_largest(void)
{
    struct lists l = opened(DEPOT_MOST_COMMANDS, largest, 0);
    check(bound_of(&l) == 1896960 && DEPOT_MOST_STEPS == 1896960, "largest dispatch", "bound", (unsigned long)bound_of(&l));
    check(dispatch(&l, 0, "largest dispatch") >= DEPOT_MOST_COMMANDS, "largest dispatch", "turns", 0);
    check(is_finished(&l), "largest dispatch", "not finished", 0);
    check_all_inserted(&l, "largest dispatch");
    check(dispatch(&l, 1, "finished run") == 0, "finished run", "dispatch makes turns", 0);
    check(bound_of(&l) == 64 * 456, "finished run", "bound", (unsigned long)bound_of(&l));
    lend(&l, 64 * 456 - 1, DEPOT_STEP_COUNT_LENGTH);
    expect(DISPATCH, &l, none, DEPOT_WRONG_LENGTH, "finished run, a list shorter than the bound");
    free_all(&l);
}

/* 6 for another list, then 12, then 6 for a dealing's list that is too short; longer ones are accepted. */
static void test_dispatch_tests(void)
{
    const struct settings s = {3, 2, 4};
    const size_t bound = (5 + 2) * (3 * 3 + 6);
    struct lists l = opened(5, s, 1);
    for (size_t length = 0; length < bound; length++) {
        lend(&l, length, DEPOT_STEP_COUNT_LENGTH);
        expect(DISPATCH, &l, none, DEPOT_WRONG_LENGTH, "a list shorter than the bound");
    }
    l.at[STATE].bytes[12] = 4; /* first free record above the graph size */
    for (size_t length = 0; length <= bound; length += bound) {
        lend(&l, length, DEPOT_STEP_COUNT_LENGTH);
        expect(DISPATCH, &l, none, DEPOT_WRONG_STATE, "12 is tested before the length of the dealing's list");
        lend(&l, length, DEPOT_STEP_COUNT_LENGTH - 1);
        expect(DISPATCH, &l, none, DEPOT_WRONG_LENGTH, "the length of the count is tested before 12");
    }
    report(&l, NEEDED, DEPOT_STEP_COUNT_LENGTH, DEPOT_WRONG_STATE, "first free record");
    report(&l, NEEDED, DEPOT_STEP_COUNT_LENGTH + 1, DEPOT_WRONG_LENGTH, "the length of the count is tested before 12");
    l.at[STATE].bytes[12] = 1;
    for (size_t longer = 0; longer <= 1000; longer += longer == 0 ? 1 : 999) {
        struct lists again = copy_all(&l);
        check(dispatch(&again, longer, "a longer list") > 0 && is_finished(&again), "a longer list", "not finished", 0);
        free_all(&again);
    }
    free_all(&l);
}

/* The states in which parties are at once, as bits. */
static unsigned states_of(const struct lists *l)
{
    unsigned states = 0;
    for (size_t party = 0; party <= l->at[STATE].bytes[LARGEST_AT]; party++)
        states |= 1u << l->at[STATE].bytes[PARTIES_AT + PARTY_LENGTH * party];
    return states;
}

/* Dispatches from a moment, and checks that it leaves the answers, table and image that a dispatch from the opening left. */
static void check_moment(const struct lists *l, const struct lists *wanted)
{
    struct lists ended = copy_all(l);
    dispatch(&ended, 0, "dispatch from a moment");
    check(is_finished(&ended), "dispatch from a moment", "not finished", states_of(l));
    for (int i = KEYS; i < COMMANDS; i++)
        check(same(ended.at[i], wanted->at[i]), "dispatch from a moment", "another list", (unsigned long)i);
    free_all(&ended);
}

/* Turns one by one in a mixed order, and a dispatch wherever parties are in states in which they have not been at once. */
static void dispatch_moments(const struct lists *opening)
{
    struct lists l = copy_all(opening), wanted = copy_all(opening);
    uint8_t met[256] = {0};
    uint32_t drawn = 1;
    unsigned states = 0;
    dispatch(&wanted, 0, "dispatch from the opening");
    for (int turns = 0; turns < 5000; turns++) {
        uint8_t party;
        drawn = drawn * 1664525u + 1013904223u;
        party = (uint8_t)((drawn >> 16) % (l.at[STATE].bytes[LARGEST_AT] + 1u));
        advance(&l, &party, 1, 0, "one turn");
        if (met[states_of(&l)]++ == 0)
            check_moment(&l, &wanted);
        states |= states_of(&l);
    }
    check(states == 255, "dispatch from a moment", "no party is in some state", states);
    free_all(&wanted);
    free_all(&l);
}

/* Without and with worker changes and checkpoints: the count goes from 8 to 12 and down to 1, and the image is the second one. */
static void test_dispatch_kinds(void)
{
    const struct settings s = {10, 8, 3};
    struct lists l = opened(40, s, 1);
    dispatch_moments(&l);
    put_workers(&l, 10, 12);
    put_checkpoint(&l, 20, 0);
    put_workers(&l, 30, 1);
    put_checkpoint(&l, 35, 0);
    expect(OPEN, &l, s, 0, "refused every kind");
    dispatch_moments(&l);
    dispatch(&l, 0, "every kind");
    check(l.at[STATE].bytes[13] == 1, "every kind", "count in force", l.at[STATE].bytes[13]);
    check(depot_image_place(l.at[IMAGE].bytes) == 36, "every kind", "place of the image", 0);
    free_all(&l);
}

/* Opened from an image, with a party in every state at once: worker 1 clears, 2 has looked up, 3 has written, 4 holds, 5 walks,
 * 6 searches, 7 is idle, and the loader is loading. The updates are of different items, so that none waits. */
static void test_dispatch_every_state(void)
{
    enum { ITEMS = 12 };
    static const uint8_t turns[][2] = {{0, 44}, {1, 2}, {2, 3}, {3, 4}, {4, 5}, {5, 6}, {2, 1},
                                       {3, 2},  {1, 10}, {5, 6}, {0, 3}, {6, 2}}; /* party, and how many */
    const struct settings s = {10, 7, ITEMS};
    struct lists l = make_all(ITEMS, ITEMS);
    uint8_t schedule[44];
    resize(&l, OWN, depot_image_length(ITEMS));
    put_record(l.at[OWN], 0, 1, 0, 1);
    for (unsigned i = 0; i < ITEMS; i++) {
        put_command(&l, i, DEPOT_UPDATE, i, chute_of(i));
        put_record(l.at[OWN], i + 1, (i + 2) % (ITEMS + 1), 512, i);
    }
    expect(OPEN_FROM, &l, s, 0, "refused an image of twelve items");
    for (size_t i = 0; i < sizeof turns / sizeof *turns; i++) {
        memset(schedule, turns[i][0], sizeof schedule);
        advance(&l, schedule, turns[i][1], 0, "the way to every state");
    }
    check(states_of(&l) == 255, "every state", "at once only", states_of(&l));
    dispatch(&l, 0, "every state");
    check(is_finished(&l), "every state", "not finished", 0);
    for (unsigned i = 0; i < ITEMS; i++) {
        check(depot_short_at(l.at[ANSWERS].bytes, i) == DEPOT_DONE, "every state", "answer", i);
        check(depot_key_at(l.at[KEYS].bytes, i) == i, "every state", "key", i);
        check(depot_short_at(l.at[CHUTES].bytes, i) == chute_of(i), "every state", "chute", i);
    }
    free_all(&l);
}

/* All 65 parties at the largest settings, in a mixed order, with reports between. */
static void test_all_parties(void)
{
    struct lists l = opened(DEPOT_MOST_COMMANDS, largest, 1);
    uint32_t drawn = 1;
    for (int calls = 0; calls < 10; calls++) {
        uint8_t schedule[4000];
        for (size_t i = 0; i < sizeof schedule; i++) {
            drawn = drawn * 1664525u + 1013904223u;
            schedule[i] = (uint8_t)(drawn >> 16 & 1 ? 0 : (drawn >> 17) % 65);
        }
        advance(&l, schedule, sizeof schedule, 0, "all parties");
        report(&l, COUNTS, DEPOT_COUNTS_LENGTH, 0, "all parties");
        report(&l, STATUS, DEPOT_STATUS_LENGTH, 0, "all parties");
    }
    check(depot_short_at(l.at[ANSWERS].bytes, 0) == DEPOT_DONE, "all parties", "first answer", 0);
    free_all(&l);
}

static void test_settings(void)
{
    static const struct {
        struct settings s;
        unsigned wanted;
    } cases[] = {
        {{0, 0, 0}, 1},       {{151, 65, 4097}, 1}, {{UINT64_MAX, 1, 1}, 1}, {{256 + 2, 1, 1}, 1}, {{1, 0, 0}, 2},
        {{150, 65, 4097}, 2}, {{1, 256 + 1, 1}, 2}, {{1, 1, 0}, 3},          {{150, 64, 4097}, 3}, {{1, 1, 65536 + 1}, 3},
        {{1, 1, 4096}, 6},    {{150, 64, 1}, 0},    {{1, 1, 1}, 0},
    };
    struct lists l = make_all(1, 1);
    put_command(&l, 0, DEPOT_READ, DEPOT_LARGEST_KEY, 0);
    for (size_t i = 0; i < sizeof cases / sizeof *cases; i++)
        expect(OPEN, &l, cases[i].s, cases[i].wanted, "settings");
    free_all(&l);
}

/* Refusals 7 to 10 and 13 with place and character, of the first and the last command, by a call that tests commands. */
static void test_places(enum call c)
{
    static const struct {
        size_t offset;
        uint8_t value;
        unsigned wanted, character;
    } cases[] = {{0, 0, 7, 0},     {0, 7, 7, 0},      {0, 255, 7, 0},  {1, '0', 8, 1},   {2, 'a', 8, 2},
                 {3, ':', 13, 3},  {10, 'A', 13, 10}, {11, 0, 13, 11}, {12, '9', 8, 12}, {13, 0, 8, 13},
                 {11, '4', 9, 11}, {14, 2, 10, 0},    {15, 0, 10, 0},   {0, 5, 8, 1},
                 {0, 6, 8, 1}};
    const struct settings s = {1, 1, 1};
    struct lists l = opened(DEPOT_MOST_COMMANDS, s, 0);
    lend(&l, DEPOT_ROUND_LENGTH * DEPOT_MOST_COMMANDS, DEPOT_ROUND_COUNT_LENGTH);
    for (size_t i = 0; i < sizeof cases / sizeof *cases; i++)
        for (size_t place = 1; place <= DEPOT_MOST_COMMANDS; place += DEPOT_MOST_COMMANDS - 1) {
            uint8_t *b = l.at[COMMANDS].bytes + DEPOT_COMMAND_LENGTH * (place - 1) + cases[i].offset, old = *b;
            uint64_t answer;
            *b = cases[i].value;
            answer = call(c, &l, s);
            check(depot_number(answer) == cases[i].wanted, call_names[c], "number", (unsigned long)answer);
            check(depot_place(answer) == place, call_names[c], "place", (unsigned long)answer);
            check(depot_character(answer) == cases[i].character, call_names[c], "character", (unsigned long)answer);
            *b = old;
        }
    free_all(&l);
}

/* Lists of 4,097 entries: too many commands; and a handed-back state that asks for them, or does not. */
static void test_too_long(void)
{
    const struct settings s = {1, 1, DEPOT_MOST_CAPACITY};
    struct lists l = opened(DEPOT_MOST_COMMANDS, s, 0);
    uint8_t *state = l.at[STATE].bytes;
    resize(&l, KEYS, DEPOT_KEY_LENGTH * 4097);
    resize(&l, CHUTES, DEPOT_CHUTE_LENGTH * 4097);
    expect(OPEN, &l, s, DEPOT_WRONG_LENGTH, "a key and chute too many");
    expect(ADVANCE, &l, none, DEPOT_WRONG_LENGTH, "a key and chute too many");
    state[5] = 1; /* capacity 4,097 */
    expect(ADVANCE, &l, none, DEPOT_WRONG_LENGTH, "capacity 4,097, an image of 4,096");
    resize(&l, IMAGE, depot_image_length(4097));
    expect(ADVANCE, &l, none, DEPOT_WRONG_STATE, "capacity 4,097");
    report(&l, COUNTS, DEPOT_COUNTS_LENGTH, DEPOT_WRONG_STATE, "capacity 4,097");
    report(&l, STATUS, DEPOT_STATUS_LENGTH, DEPOT_WRONG_STATE, "capacity 4,097");
    resize(&l, ANSWERS, DEPOT_ANSWER_LENGTH * 4097);
    resize(&l, COMMANDS, DEPOT_COMMAND_LENGTH * 4097);
    expect(OPEN, &l, s, DEPOT_TOO_MANY_COMMANDS, "4,097 commands");
    expect(ADVANCE, &l, none, DEPOT_WRONG_LENGTH, "an answer and a command too many");
    state[7] = 1; /* 4,097 commands */
    expect(ADVANCE, &l, none, DEPOT_WRONG_STATE, "4,097 commands");
    lend(&l, DEPOT_ROUND_LENGTH * 4097, DEPOT_ROUND_COUNT_LENGTH);
    expect(ROUNDS, &l, none, DEPOT_TOO_MANY_COMMANDS, "4,097 commands");
    free_all(&l);
}

/* What a call answers to a list that is longer or shorter by so much: openings and rounds test the commands' first, the reports are
 * not lent the image and rounds no run, and a dispatch's list may be longer. */
static uint64_t wrong_length(enum call c, int which, size_t by, int is_longer)
{
    if (which == COMMANDS && by == 1 && (c == OPEN || c == OPEN_FROM || c == ROUNDS))
        return DEPOT_WRONG_LIST_LENGTH;
    if ((which == IMAGE && is_report(c)) || (which < COMMANDS && c == ROUNDS) || (which == OWN && c == DISPATCH && is_longer))
        return 0;
    return DEPOT_WRONG_LENGTH;
}

/* The lists that have one right length, by call: an opening's own list is none, a dealing may have any length. */
static int lists_of(enum call c)
{
    return c == DISPATCH || c == ROUNDS ? LISTS : c == OPEN || c == ADVANCE ? OWN : NUMBER;
}

/* The bytes of an entry of a list of a call. */
static size_t entry_of(enum call c, int which)
{
    static const size_t entry[LISTS] = {1,  DEPOT_KEY_LENGTH,     DEPOT_CHUTE_LENGTH, DEPOT_ANSWER_LENGTH, DEPOT_RECORD_LENGTH,
                                        DEPOT_COMMAND_LENGTH, 1, DEPOT_STEP_COUNT_LENGTH};
    if (which == OWN && c == ROUNDS)
        return DEPOT_ROUND_LENGTH;
    return which == OWN && c == OPEN_FROM ? DEPOT_RECORD_LENGTH : entry[which];
}

/* Each list of each call one byte, and one entry, longer and shorter than it should be. */
static void test_lengths(void)
{
    const size_t own[CALLS] = {0, depot_image_length(4), 3, DEPOT_COUNTS_LENGTH, DEPOT_STATUS_LENGTH, DEPOT_STEP_COUNT_LENGTH,
                               (5 + 2) * (3 * 3 + 6), DEPOT_ROUND_LENGTH * 5};
    const struct settings s = {3, 2, 4};
    struct lists base = opened(5, s, 1);
    resize(&base, NUMBER, DEPOT_STEP_COUNT_LENGTH);
    for (int c = 0; c < CALLS; c++)
        for (int i = 0; i < lists_of((enum call)c); i++)
            for (int way = 0; way < 4; way++) {
                struct lists l = copy_all(&base);
                size_t by = way < 2 ? 1 : entry_of((enum call)c, i);
                resize(&l, OWN, own[c]);
                if (own[c] > 0)
                    memset(l.at[OWN].bytes, c == OPEN_FROM ? 0 : 1, own[c]);
                resize(&l, i, way % 2 ? l.at[i].length + by : l.at[i].length - by);
                expect((enum call)c, &l, s, wrong_length((enum call)c, i, by, way % 2), "a list of a wrong length");
                free_all(&l);
            }
    free_all(&base);
}

static void test_parties(void)
{
    const struct settings s = {3, 2, 4};
    struct lists l = opened(5, s, 1);
    const uint8_t good[] = {0, 1, 2}, bad[][3] = {{3, 0, 0}, {0, 0, 3}, {0, 1, 255}};
    advance(&l, good, sizeof good, 0, "parties 0 to 2");
    for (size_t i = 0; i < 3; i++)
        advance(&l, bad[i], 3, DEPOT_UNKNOWN_THREAD, "a party above the worker count");
    l.at[STATE].bytes[12] = 4; /* first free node above the graph size */
    advance(&l, bad[0], 3, DEPOT_WRONG_STATE, "12 is tested before 11");
    resize(&l, KEYS, 0);
    advance(&l, bad[0], 3, DEPOT_WRONG_LENGTH, "6 is tested before 12");
    free_all(&l);
}

/* How often a changed byte got each number. */
static unsigned long got[13];

/* How many accepted runs with a changed byte a dispatch finished, and how many it left. */
static unsigned long finished, left;

/* Dispatches from a run that no dealing need reach: within the bound, and by hand the same. */
static void dispatch_changed(const struct lists *changed)
{
    struct lists l = copy_all(changed);
    dispatch(&l, 0, "a changed byte");
    finished += is_finished(&l) != 0;
    left += is_finished(&l) == 0;
    free_all(&l);
}

/* Lists with one byte changed, handed to every call: the answers agree, and an accepted state is stepped on. In a small graph it
 * is dispatched too. */
static void try_changed(const struct lists *base, int which, size_t offset, uint8_t value)
{
    static const uint8_t schedule[] = {0, 1, 2, 1, 2, 0, 2, 1};
    struct lists l = copy_all(base);
    uint64_t answer;
    l.at[which].bytes[offset] = value;
    resize(&l, OWN, DEPOT_COUNTS_LENGTH);
    answer = call(COUNTS, &l, none);
    check(answer == 0 || answer == 6 || answer == 12, "a changed byte", "answer, at offset", (unsigned long)offset);
    got[depot_number(answer) % 13]++;
    report(&l, STATUS, DEPOT_STATUS_LENGTH, answer, "a changed byte");
    report(&l, NEEDED, DEPOT_STEP_COUNT_LENGTH, answer, "a changed byte");
    if (answer == 0 && l.at[STATE].bytes[SIZE_AT] < 10)
        dispatch_changed(&l);
    if (answer == 0 && l.at[STATE].bytes[LARGEST_AT] == 1)
        answer = DEPOT_UNKNOWN_THREAD; /* there is a turn of party 2 */
    advance(&l, schedule, sizeof schedule, answer, "a changed byte");
    free_all(&l);
}

/* Every byte of a run in the middle of its work, with small values, the graph size, one more, and the largest. */
static void test_changed_bytes(struct settings s, size_t count, size_t turns)
{
    const uint8_t values[] = {0, 1, (uint8_t)s.size, (uint8_t)(s.size + 1), 255};
    struct lists base = opened(count, s, 1);
    struct list d = make(turns);
    for (size_t i = 0; i < turns; i++)
        d.bytes[i] = (uint8_t)(i < turns / 2 ? 0 : i * 7 % (size_t)(s.workers + 1));
    advance(&base, d.bytes, turns, 0, "the way to the run");
    memset(got, 0, sizeof got);
    for (int which = 0; which < OWN; which++)
        for (size_t offset = 0; offset < base.at[which].length; offset++)
            for (size_t v = 0; v < sizeof values; v++)
                if (base.at[which].bytes[offset] != values[v])
                    try_changed(&base, which, offset, values[v]);
    check(got[0] > 0 && got[6] > 0 && got[12] > 0, "changed bytes", "no run was accepted, refused 6 or refused 12", 0);
    free(d.bytes);
    free_all(&base);
}

/* What an identifier call answers that refuses at a character. */
static uint64_t at(unsigned character, unsigned number)
{
    return (uint64_t)character << 32 | number;
}

static void read_as(const char *text, size_t length, size_t key_length, uint64_t wanted, uint64_t wanted_key)
{
    struct list t = make(length), key = make(key_length), old = copy(key, key_length);
    uint64_t answer;
    if (length > 0)
        memcpy(t.bytes, text, length);
    answer = depot_read_identifier(t.bytes, t.length, key.bytes, key.length);
    check(answer == wanted, "depot_read_identifier", text, (unsigned long)answer);
    if (wanted == 0)
        check(depot_key_at(key.bytes, 0) == wanted_key, "depot_read_identifier", "key", 0);
    else
        check(same(old, key), "depot_read_identifier", "a refusal changed the key", (unsigned long)answer);
    free(t.bytes);
    free(key.bytes);
    free(old.bytes);
}

static void write_as(uint64_t key, size_t length, uint64_t wanted, const char *wanted_text)
{
    struct list text = make(length), old = copy(text, length);
    uint64_t answer = depot_write_identifier(key, text.bytes, text.length);
    check(answer == wanted, "depot_write_identifier", "answer", (unsigned long)answer);
    if (wanted == 0)
        check(memcmp(text.bytes, wanted_text, length) == 0, "depot_write_identifier", wanted_text, 0);
    else
        check(same(old, text), "depot_write_identifier", "a refusal changed the text", (unsigned long)answer);
    free(text.bytes);
    free(old.bytes);
}

static void test_identifiers(void)
{
    read_as("AA000000005AA", 13, 8, 0, 0);
    read_as("ZZ999999995ZZ", 13, 8, 0, DEPOT_LARGEST_KEY);
    read_as("Aa000000005AA", 13, 8, at(2, DEPOT_MALFORMED), 0);
    read_as("AA00000000xAA", 13, 8, at(11, DEPOT_WRONG_DIGIT), 0);
    read_as("AA000000004AA", 13, 8, at(11, DEPOT_WRONG_CHECK_DIGIT), 0);
    read_as("AAx00000000AA", 13, 8, at(3, DEPOT_WRONG_DIGIT), 0);
    read_as("aAx00000000AA", 13, 8, at(1, DEPOT_MALFORMED), 0);
    read_as("AA000000004Aa", 13, 8, at(13, DEPOT_MALFORMED), 0);
    read_as("AA000000005A", 12, 8, DEPOT_MALFORMED, 0);
    read_as("AA000000005AAA", 14, 8, DEPOT_MALFORMED, 0);
    read_as("", 0, 8, DEPOT_MALFORMED, 0);
    read_as("AA000000005AA", 13, 7, DEPOT_WRONG_LENGTH, 0);
    read_as("AA000000005AA", 13, 9, DEPOT_WRONG_LENGTH, 0);
    read_as("", 0, 0, DEPOT_WRONG_LENGTH, 0);
    write_as(0, 13, 0, "AA000000005AA");
    write_as(DEPOT_LARGEST_KEY, 13, 0, "ZZ999999995ZZ");
    write_as(DEPOT_LARGEST_KEY + 1, 13, DEPOT_KEY_TOO_LARGE, "");
    write_as(UINT64_MAX, 13, DEPOT_KEY_TOO_LARGE, "");
    write_as(0, 12, DEPOT_WRONG_LENGTH, "");
    write_as(UINT64_MAX, 14, DEPOT_WRONG_LENGTH, "");
    write_as(0, 0, DEPOT_WRONG_LENGTH, "");
}

/* ---- rounds: document 02, A.9 */

/* A list and its rounds, found by hand. Items are numbered from 0. */
static const struct {
    enum depot_kind kind;
    unsigned item, round;
} planned[] = {
    {DEPOT_INSERT, 0, 1},
    {DEPOT_INSERT, 1, 2}, /* inserts and deletes one behind the other, whatever their items */
    {DEPOT_DELETE, 2, 3},
    {DEPOT_READ, 3, 1}, /* a read of another item passes them; reads of one item stand together */
    {DEPOT_READ, 3, 1},
    {DEPOT_UPDATE, 3, 2}, /* apart from the reads of its item, before it and behind it */
    {DEPOT_READ, 3, 3},
    {DEPOT_READ, 3, 3},
    {DEPOT_UPDATE, 4, 1}, /* an update of another item passes, too; updates of one item one behind the other */
    {DEPOT_UPDATE, 4, 2},
    {DEPOT_READ, 0, 2}, /* behind the insert of its item, and not behind the other one */
    {DEPOT_UPDATE, 1, 3},
    {DEPOT_READ, 2, 4},
    {DEPOT_DELETE, 0, 4}, /* behind the delete before it; its item was last read in round 2 */
    {DEPOT_UPDATE, 4, 3},
    {DEPOT_UPDATE, 4, 4},
    {DEPOT_UPDATE, 4, 5},
    {DEPOT_INSERT, 4, 6}, /* behind the updates of its item */
    {DEPOT_INSERT, 5, 7}, /* behind the insert before it */
    {DEPOT_READ, 6, 1},
    {DEPOT_WORKERS, 0, 8}, /* a worker change behind everything, and everything behind it */
    {DEPOT_READ, 6, 9},
    {DEPOT_UPDATE, 5, 9},
    {DEPOT_INSERT, 7, 9},
    {DEPOT_READ, 0, 9},
    {DEPOT_DELETE, 6, 10},
    {DEPOT_CHECKPOINT, 0, 11}, /* a checkpoint, too, also behind a checkpoint */
    {DEPOT_CHECKPOINT, 0, 12},
    {DEPOT_READ, 0, 13},
    {DEPOT_READ, 7, 13},
    {DEPOT_INSERT, 8, 13},
    {DEPOT_WORKERS, 0, 14},
};

/* A right command of any kind. */
static void put_any(struct lists *l, size_t i, enum depot_kind kind, uint64_t key)
{
    if (kind == DEPOT_WORKERS)
        put_workers(l, i, 1 + (unsigned)i % DEPOT_MOST_WORKERS);
    else if (kind == DEPOT_CHECKPOINT)
        put_checkpoint(l, i, 0);
    else
        put_command(l, i, kind, key, kind == DEPOT_INSERT || kind == DEPOT_UPDATE ? chute_of(i) : 0);
}

/* Keys so far apart are equal modulo 4,093 and modulo 4,096: a table of buckets may have them all in one. */
static const uint64_t far_apart = UINT64_C(4093) * 4096;

/* The rounds of every beginning of the list above, the empty one too, of items with keys so far apart. No run is looked at. */
static void test_rounds(uint64_t apart)
{
    enum { COUNT = sizeof planned / sizeof *planned };
    struct lists whole = make_all(COUNT, 1);
    for (size_t i = 0; i < COUNT; i++)
        put_any(&whole, i, planned[i].kind, planned[i].item * apart);
    for (size_t count = 0; count <= COUNT; count++) {
        struct lists l = copy_all(&whole);
        unsigned last = 0;
        resize(&l, COMMANDS, DEPOT_COMMAND_LENGTH * count);
        lend(&l, DEPOT_ROUND_LENGTH * count, DEPOT_ROUND_COUNT_LENGTH);
        expect(ROUNDS, &l, none, 0, "refused the beginning of a list");
        for (size_t i = 0; i < count; i++) {
            check(depot_short_at(l.at[OWN].bytes, i) == planned[i].round, "rounds", "round", (unsigned long)i);
            last = planned[i].round > last ? planned[i].round : last;
        }
        check(depot_key_at(l.at[NUMBER].bytes, 0) == last, "rounds", "how many", (unsigned long)count);
        free_all(&l);
    }
    free_all(&whole);
}

/* One command of each kind: round 1 of 1. */
static void test_one_round(void)
{
    for (int kind = DEPOT_INSERT; kind <= DEPOT_CHECKPOINT; kind++) {
        struct lists l = make_all(1, 1);
        put_any(&l, 0, (enum depot_kind)kind, DEPOT_LARGEST_KEY);
        lend(&l, DEPOT_ROUND_LENGTH, DEPOT_ROUND_COUNT_LENGTH);
        expect(ROUNDS, &l, none, 0, "refused one command");
        check(depot_short_at(l.at[OWN].bytes, 0) == 1 && depot_key_at(l.at[NUMBER].bytes, 0) == 1, "one command", "round", 0);
        free_all(&l);
    }
}

/* 4,096 commands of one kind, of one item or of one each: all in one round, or each in a round of its own. */
static void test_full_rounds(void)
{
    enum { MOST = DEPOT_MOST_COMMANDS };
    static const struct {
        enum depot_kind kind;
        int items, together;
    } cases[] = {{DEPOT_UPDATE, 1, 0},    {DEPOT_READ, 1, 1},      {DEPOT_UPDATE, MOST, 1},
                 {DEPOT_INSERT, MOST, 0}, {DEPOT_DELETE, MOST, 0}, {DEPOT_CHECKPOINT, 1, 0}};
    for (size_t c = 0; c < sizeof cases / sizeof *cases; c++) {
        struct lists l = make_all(MOST, 1);
        for (size_t i = 0; i < MOST; i++)
            put_any(&l, i, cases[c].kind, i % (size_t)cases[c].items * far_apart);
        lend(&l, DEPOT_ROUND_LENGTH * MOST, DEPOT_ROUND_COUNT_LENGTH);
        expect(ROUNDS, &l, none, 0, "refused a full list");
        for (size_t i = 0; i < MOST; i++)
            check(depot_short_at(l.at[OWN].bytes, i) == (cases[c].together ? 1 : i + 1), "full rounds", "round", (unsigned long)i);
        check(depot_key_at(l.at[NUMBER].bytes, 0) == (cases[c].together ? 1 : MOST), "full rounds", "how many", (unsigned long)c);
        free_all(&l);
    }
}

/* 4, then 5, then 6, then the commands, the first refused one first. */
static void test_order_of_rounds(void)
{
    static const size_t lent[][2] = {{5, 8}, {7, 8}, {4, 8}, {8, 8}, {0, 8}, {6, 7}, {6, 9}, {6, 0}}; /* rounds, number */
    struct lists l = make_all(3, 1); /* of no kind */
    lend(&l, 5, 7);
    resize(&l, COMMANDS, DEPOT_COMMAND_LENGTH * 4097 + 1);
    expect(ROUNDS, &l, none, DEPOT_WRONG_LIST_LENGTH, "4 is tested before 5");
    resize(&l, COMMANDS, DEPOT_COMMAND_LENGTH * 4097);
    expect(ROUNDS, &l, none, DEPOT_TOO_MANY_COMMANDS, "5 is tested before 6");
    resize(&l, COMMANDS, DEPOT_COMMAND_LENGTH * 3);
    for (size_t i = 0; i < sizeof lent / sizeof *lent; i++) {
        lend(&l, lent[i][0], lent[i][1]);
        expect(ROUNDS, &l, none, DEPOT_WRONG_LENGTH, "6 is tested before the commands");
    }
    lend(&l, 6, 8);
    for (size_t place = 1; place <= 3; place++) {
        expect(ROUNDS, &l, none, refused(DEPOT_UNKNOWN_KIND, place, 0), "the first refused command");
        put_any(&l, place - 1, DEPOT_UPDATE, place);
    }
    expect(ROUNDS, &l, none, 0, "refused three updates");
    free_all(&l);
}

/* Lists for rounds beside the right lengths of a full list, and far above them. */
static void test_lengths_of_rounds(void)
{
    static const size_t lengths[] = {0, 8190, 8191, 8193, 8194, 8196, 16384, 65536 + 8192, 131072 + 8192};
    struct lists l = make_all(DEPOT_MOST_COMMANDS, 1);
    for (size_t i = 0; i < DEPOT_MOST_COMMANDS; i++)
        put_any(&l, i, DEPOT_READ, i);
    for (size_t i = 0; i < sizeof lengths / sizeof *lengths; i++) {
        lend(&l, lengths[i], DEPOT_ROUND_COUNT_LENGTH);
        expect(ROUNDS, &l, none, DEPOT_WRONG_LENGTH, "rounds of a wrong length");
    }
    for (size_t number = 7; number <= 9; number++) {
        lend(&l, 8192, number);
        expect(ROUNDS, &l, none, number == 8 ? 0 : DEPOT_WRONG_LENGTH, "a number of rounds of a wrong length");
    }
    free_all(&l);
}

int main(void)
{
    const struct settings small = {5, 3, 4}, large = {DEPOT_MOST_NODES, DEPOT_MOST_WORKERS, 4};
    test_empty_lists();
    test_example();
    test_passing();
    test_moments();
    test_wrong_changes();
    test_workers();
    test_wrong_checkpoints();
    test_checkpoint();
    test_wrong_images();
    test_order_of_tests();
    test_largest_image();
    test_largest();
    test_dispatch_largest();
    test_dispatch_tests();
    test_dispatch_kinds();
    test_dispatch_every_state();
    test_all_parties();
    test_settings();
    test_places(OPEN);
    test_places(ROUNDS);
    test_too_long();
    test_lengths();
    test_parties();
    test_changed_bytes(small, 9, 60);
    check(finished > 0 && left > 0, "changed bytes", "no dispatch finished, or all did", finished);
    test_changed_bytes(large, 40, 1200);
    test_identifiers();
    test_rounds(1);
    test_rounds(far_apart);
    test_one_round();
    test_full_rounds();
    test_order_of_rounds();
    test_lengths_of_rounds();
    printf("edges: %lu checks, %lu failed\n", checks, failures);
    return failures == 0 ? EXIT_SUCCESS : EXIT_FAILURE;
}
