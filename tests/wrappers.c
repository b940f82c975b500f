/* The header's inline part: each wrapper beside the call that it stands for, null with length 0, and what is read off a run. */
#include <depot.h>

#include <stdio.h>
#include <string.h>

static unsigned failed;

static void expect(int ok, const char *what)
{
    if (ok)
        return;
    printf("FAILED  %s\n", what);
    failed++;
}

enum { ROOM = 5, COUNT = 3 };

enum { BLOCK = DEPOT_BLOCK_LENGTH(ROOM, COUNT) };

/* A run of three commands: its block, a guard, its commands. */
struct run {
    uint8_t block[BLOCK], guard[16], commands[DEPOT_COMMAND_LENGTH * COUNT];
};

static struct depot_lists lists_of(struct run *r)
{
    return depot_lists_in(r->block, ROOM, r->commands, COUNT);
}

static void put_commands(struct run *r)
{
    depot_put_command(r->commands, 1, DEPOT_INSERT, "AA000000005AA", 300);
    depot_put_command(r->commands, 2, DEPOT_READ, "AA000000005AA", 0);
    depot_put_command(r->commands, 3, DEPOT_CHECKPOINT, NULL, 0);
}

/* The lists of a run as the calls take them, by the lengths of the header's table. */
#define ALL(l) (l).state, 4718, (l).keys, 8 * ROOM, (l).chutes, 2 * ROOM, (l).answers, 2 * COUNT
#define IMAGE(l) (l).image, 16 * (ROOM + 1), (l).commands, 16 * COUNT

/* Two runs, one by the wrappers and one by the calls, are the same bytes. */
static void same(const struct run *a, const struct run *b, const char *what)
{
    expect(memcmp(a, b, sizeof *a) == 0, what);
}

static void test_calls(void)
{
    static struct run a, b;
    const uint8_t schedule[] = {0, 0, 1, 1, 1};
    uint8_t lent_a[400], lent_b[400], count[DEPOT_STEP_COUNT_LENGTH], counts_a[DEPOT_COUNTS_LENGTH], counts_b[DEPOT_COUNTS_LENGTH],
        status_a[DEPOT_STATUS_LENGTH], status_b[DEPOT_STATUS_LENGTH];
    struct depot_lists l = lists_of(&a), m = lists_of(&b);
    size_t steps = 0;
    memset(&a, 7, sizeof a);
    memset(&b, 7, sizeof b);
    memset(lent_a, 9, sizeof lent_a);
    memset(lent_b, 9, sizeof lent_b);
    put_commands(&a);
    put_commands(&b);
    expect(depot_lists_open(&l, 2, 2) == depot_open(ALL(m), IMAGE(m), 2, 2, ROOM), "open");
    same(&a, &b, "what opening leaves");
    expect(depot_lists_advance(&l, schedule, sizeof schedule) == depot_advance(ALL(m), IMAGE(m), schedule, sizeof schedule), "advance");
    same(&a, &b, "what advancing leaves");
    expect(depot_lists_pending_counts(&l, counts_a) ==
               depot_pending_counts(ALL(m), m.commands, 16 * COUNT, counts_b, sizeof counts_b) &&
               memcmp(counts_a, counts_b, sizeof counts_a) == 0, "pending counts");
    expect(depot_lists_worker_status(&l, status_a) ==
               depot_worker_status(ALL(m), m.commands, 16 * COUNT, status_b, sizeof status_b) &&
               memcmp(status_a, status_b, sizeof status_a) == 0, "worker status");
    expect(depot_lists_steps_needed(&l, &steps) == 0 &&
               depot_steps_needed(ALL(m), m.commands, 16 * COUNT, count, sizeof count) == 0 &&
               steps == depot_key_at(count, 0) && steps == (3 + 2) * (3 * 2 + 6), "steps needed");
    steps = 1;
    expect(depot_lists_dispatch(&l, lent_a, 59, &steps) == DEPOT_WRONG_LENGTH && steps == 1, "a refusal leaves the number of turns");
    expect(depot_lists_dispatch(&l, lent_a, sizeof lent_a, &steps) == 0 &&
               depot_dispatch(ALL(m), IMAGE(m), lent_b, sizeof lent_b, count, sizeof count) == 0 &&
               steps == depot_key_at(count, 0), "dispatch");
    same(&a, &b, "what dispatching leaves");
    expect(memcmp(lent_a, lent_b, sizeof lent_a) == 0, "the dealing");
    expect(depot_image_place(l.image) == 3 && depot_lists_open_from(&l, m.image, 1, 1) == 0 && depot_short_at(l.chutes, 0) == 300,
           "open from an image");
}

/* The lists lie in the block one behind the other, and fill it. */
static void test_block(void)
{
    static struct run r;
    struct depot_lists l = lists_of(&r);
    expect(l.state == r.block && l.keys == l.state + 4718 && l.chutes == l.keys + 8 * ROOM && l.answers == l.chutes + 2 * ROOM &&
               l.image == l.answers + 2 * COUNT && l.image + depot_image_length(ROOM) == r.block + BLOCK,
           "the block's lists");
    expect(l.commands == r.commands && l.capacity == ROOM && l.count == COUNT, "commands, room and count");
    expect(DEPOT_BLOCK_LENGTH(1 + 1, 2 + 1) == 4718 + 10 * 2 + 2 * 3 + 16 * 3, "a sum as room");
}

/* What does not fit is refused when it is opened, with its place and character. */
static void test_put(void)
{
    static const struct {
        unsigned kind;
        const char *text;
        unsigned chute;
        uint64_t refusal;
    } cases[] = {
        {DEPOT_INSERT, "AA000000005AA", 512, 0},
        {DEPOT_INSERT, "AA000000005A", 7, 8 | UINT64_C(13) << 32},
        {DEPOT_INSERT, "AA000000005AAA", 7, 8 | UINT64_C(13) << 32},
        {DEPOT_INSERT, "AA0000", 7, 13 | UINT64_C(7) << 32},
        {DEPOT_INSERT, "", 7, 8 | UINT64_C(1) << 32},
        {DEPOT_INSERT, "AA000000005AA", 513, 10},
        {DEPOT_INSERT, "AA000000005AA", 65536 + 7, 10},
        {DEPOT_INSERT, "AA000000005AA", 0xffffffffu, 10},
        {DEPOT_INSERT, NULL, 7, 8 | UINT64_C(1) << 32},
        {DEPOT_WORKERS, NULL, 64, 0},
        {DEPOT_WORKERS, NULL, 65, 14},
        {256 + DEPOT_DELETE, "AA000000005AA", 0, 7},
        {0, "AA000000005AA", 0, 7},
    };
    static struct run r;
    struct depot_lists l = lists_of(&r);
    size_t i;
    for (i = 0; i < sizeof cases / sizeof cases[0]; i++) {
        uint64_t refusal = cases[i].refusal;
        put_commands(&r);
        memset(r.guard, 9, sizeof r.guard);
        depot_put_command(r.commands, 2, cases[i].kind, cases[i].text, cases[i].chute);
        expect(depot_lists_open(&l, 1, 1) == (refusal == 0 ? 0 : refusal | 2 << 8), "what is put is refused as it should be");
        expect(r.commands[15] == 44 && r.commands[32] == DEPOT_CHECKPOINT, "the commands beside it");
    }
    for (i = 0; i < sizeof r.guard; i++)
        expect(r.guard[i] == 9, "the guard behind the block");
}

/* Records and parties that are not there, also by a run's bytes that no call left. */
static void test_outside(void)
{
    static struct run r;
    struct depot_lists l = lists_of(&r);
    unsigned i;
    memset(r.block, 255, sizeof r.block);
    for (i = 0; i < 300; i++) {
        expect(depot_record_text(&l, i)[12] == '-', "no text of a place that is not there");
        expect(i <= 150 || (depot_next_record(&l, i) == 0 && depot_record_place(&l, i) == 0), "no record above 150");
        expect(i <= 64 || (depot_party_state(&l, i) == 0 && depot_party_record(&l, i) == 0), "no party above 64");
    }
    expect(depot_waits_for(&l, 150, 150) && !depot_waits_for(&l, 151, 1) && !depot_waits_for(&l, 1, 151), "no set of a record above 150");
    memset(r.block, 1, sizeof r.block);
    expect(depot_chain_length(&l) == 150, "a chain that goes round");
    expect(depot_answer_at(&l, 0) == 0 && depot_answer_at(&l, COUNT) == 257 && depot_answer_at(&l, COUNT + 1) == 0, "places without a command");
    put_commands(&r);
    expect(depot_command_kind(&l, 1) == DEPOT_INSERT && depot_command_chute(&l, 1) == 300 &&
               memcmp(depot_command_text(&l, 1), "AA000000005AA", 13) == 0,
           "a command");
    expect(depot_command_kind(&l, 0) == 0 && depot_command_chute(&l, COUNT + 1) == 0 && depot_command_text(&l, 0)[12] == '-',
           "no command");
}

/* An empty list: no answers, no commands, no turns. */
static void test_null(void)
{
    static struct run r;
    struct depot_lists l = lists_of(&r);
    uint8_t counts[DEPOT_COUNTS_LENGTH], status[DEPOT_STATUS_LENGTH];
    size_t steps = 0;
    l.answers = NULL;
    l.commands = NULL;
    l.count = 0;
    expect(depot_some(NULL) != NULL && depot_some_lent(NULL, counts) == counts, "no null for the archive");
    expect(depot_some(status) == status && depot_some_lent(status, counts) == status, "a list as it is");
    expect(depot_lists_open(&l, 1, 1) == 0, "an empty list opens");
    expect(depot_lists_advance(&l, NULL, 0) == 0, "an empty dealing");
    expect(depot_lists_pending_counts(&l, counts) == 0 && depot_lists_worker_status(&l, status) == 0, "its reports");
    expect(depot_lists_dispatch(&l, NULL, 0, &steps) == DEPOT_WRONG_LENGTH, "no list for the dealing");
    expect(depot_lists_steps_needed(&l, &steps) == 0 && steps == 9, "its bound");
    expect(depot_lists_rounds_needed(&l, NULL, &steps) == 0 && steps == 0, "its rounds");
    expect(depot_all_answered(&l) && depot_all_removed(&l), "nothing is to be done");
}

/* Rounds beside the call, of lists that have commands and count alone; and what a refusal leaves. */
static void test_rounds(void)
{
    static struct run r;
    struct depot_lists l;
    uint8_t a[DEPOT_ROUND_LENGTH * COUNT], b[DEPOT_ROUND_LENGTH * COUNT], count[DEPOT_ROUND_COUNT_LENGTH];
    size_t needed = 7;
    memset(&l, 0, sizeof l);
    expect(depot_lists_rounds_needed(&l, NULL, &needed) == 0 && needed == 0, "no round of an empty list");
    put_commands(&r);
    depot_put_command(r.commands, 2, DEPOT_READ, "AA000000014AA", 0);
    l.commands = r.commands;
    l.count = COUNT;
    memset(a, 9, sizeof a);
    expect(depot_lists_rounds_needed(&l, a, &needed) == 0 &&
               depot_rounds_needed(r.commands, 16 * COUNT, b, sizeof b, count, sizeof count) == 0 &&
               memcmp(a, b, sizeof a) == 0 && needed == depot_key_at(count, 0), "rounds needed");
    expect(needed == 2 && depot_short_at(a, 0) == 1 && depot_short_at(a, 1) == 1 && depot_short_at(a, 2) == 2, "the rounds");
    depot_put_command(r.commands, 3, DEPOT_CHECKPOINT, NULL, 1);
    needed = 7;
    memset(a, 9, sizeof a);
    memset(b, 9, sizeof b);
    expect(depot_lists_rounds_needed(&l, a, &needed) == (DEPOT_WRONG_CHUTE | 3 << 8), "a refused command and its place");
    expect(needed == 7 && memcmp(a, b, sizeof a) == 0, "a refusal leaves the number of rounds, and the rounds");
}

/* What a host sees turn by turn: the insert loaded, taken, written and removed. */
static void test_reading(void)
{
    static struct run r;
    const uint8_t loader = 0, worker = 1;
    struct depot_lists l = lists_of(&r);
    put_commands(&r);
    expect(depot_lists_open(&l, 2, 1) == 0 && !depot_all_answered(&l) && !depot_all_removed(&l), "opened");
    expect(depot_loaded(&l) == 0 && depot_chain_length(&l) == 0, "nothing is loaded");
    (void)depot_lists_advance(&l, &loader, 1);
    expect(depot_loaded(&l) == 1 && depot_party_state(&l, 0) == DEPOT_LOADING && depot_party_record(&l, 0) == 1, "the loader brings record 1");
    (void)depot_lists_advance(&l, &loader, 1);
    expect(depot_chain_length(&l) == 1 && depot_next_record(&l, 0) == 1 && depot_record_place(&l, 1) == 1 &&
               memcmp(depot_record_text(&l, 1), "AA000000005AA", 13) == 0, "record 1 is in the chain");
    expect(depot_record_place(&l, 2) == 0 && memcmp(depot_record_text(&l, 2), "-------------", 14) == 0, "record 2 holds none");
    (void)depot_lists_advance(&l, &worker, 1);
    expect(depot_party_state(&l, 1) == DEPOT_SEARCHING && depot_party_record(&l, 1) == 0, "worker 1 searches");
    (void)depot_lists_advance(&l, &worker, 1);
    expect(depot_party_state(&l, 1) == DEPOT_HOLDING && depot_party_record(&l, 1) == 1, "and holds record 1");
    (void)depot_lists_advance(&l, &worker, 1);
    (void)depot_lists_advance(&l, &worker, 1);
    expect(depot_answer_at(&l, 1) == DEPOT_DONE && depot_short_at(l.chutes, 0) == 300, "the insert is written");
}

/* The sets beside the pending counts, after each turn of a run in which three wait for one another and the count changes. */
static void test_sets(void)
{
    static struct run r;
    struct depot_lists l = lists_of(&r);
    uint8_t round[1 + DEPOT_MOST_WORKERS], counts[DEPOT_COUNTS_LENGTH];
    unsigned turns, waits = 0;
    put_commands(&r);
    depot_put_command(r.commands, 2, DEPOT_WORKERS, NULL, 3);
    expect(depot_lists_open(&l, 3, 1) == 0 && depot_workers_in_force(&l) == 1 && depot_largest_workers(&l) == 3, "one worker at first, three at the most");
    expect(depot_room_in(l.state) == ROOM && depot_count_in(l.state) == COUNT && depot_used(&l) == 0, "room and count");
    expect(depot_round(&l, round) == 4 && round[0] == 0 && round[3] == 3, "a round");
    expect(depot_busy(&l, counts) == 0, "nobody is busy");
    for (turns = 0; turns < 400 && !depot_all_removed(&l); turns++) {
        unsigned record, other, i = 0;
        expect(depot_lists_advance(&l, &round[turns % 4], 1) == 0 && depot_lists_pending_counts(&l, counts) == 0, "a turn");
        for (record = depot_next_record(&l, 0); record != 0; record = depot_next_record(&l, record)) {
            unsigned members = 0;
            for (other = 0; other <= DEPOT_MOST_NODES; other++)
                members += (unsigned)depot_waits_for(&l, record, other);
            expect(members == counts[i++], "as many as the pending count says");
            waits += members;
        }
    }
    expect(waits > 10 && turns < 400 && depot_all_answered(&l), "round-robin removes all");
    expect(depot_workers_in_force(&l) == 3 && depot_used(&l) == 1, "three workers, one item");
}

/* Who waits for whom, record by record, in a chain that fills all three words of a set: of 150 checkpoints each waits for all before it. */
static void test_members(void)
{
    enum { MANY = DEPOT_MOST_NODES };
    static uint8_t block[DEPOT_BLOCK_LENGTH(1, MANY)], commands[DEPOT_COMMAND_LENGTH * MANY], schedule[MANY * (MANY + 3) / 2];
    struct depot_lists l = depot_lists_in(block, 1, commands, MANY);
    unsigned place, record, other;
    for (place = 1; place <= MANY; place++)
        depot_put_command(commands, place, DEPOT_CHECKPOINT, NULL, 0);
    expect(depot_lists_open(&l, MANY, 1) == 0 && depot_lists_advance(&l, schedule, sizeof schedule) == 0, "the loader alone");
    expect(depot_loaded(&l) == MANY && depot_chain_length(&l) == MANY && depot_party_state(&l, 0) == DEPOT_IDLE, "all are linked");
    for (record = 0; record <= MANY; record++)
        for (other = 0; other <= MANY; other++)
            expect(depot_waits_for(&l, record, other) == (other >= 1 && other < record), "a record waits for those before it");
}

/* Dealt to the busy alone when all is answered, a run comes to its end, and stays there. */
static void test_busy(void)
{
    static struct run r;
    struct depot_lists l = lists_of(&r);
    uint8_t schedule[1 + DEPOT_MOST_WORKERS];
    unsigned calls = 0;
    size_t length;
    put_commands(&r);
    expect(depot_lists_open(&l, 2, 2) == 0, "opened");
    while (!depot_all_answered(&l) && calls++ < 400) {
        expect(!depot_all_removed(&l), "what is not answered is not removed");
        length = depot_round(&l, schedule);
        (void)depot_lists_advance(&l, schedule, length);
    }
    expect(!depot_all_removed(&l) && depot_busy(&l, schedule) > 0, "answered, not yet removed");
    while ((length = depot_busy(&l, schedule)) > 0 && calls++ < 400)
        (void)depot_lists_advance(&l, schedule, length);
    expect(length == 0 && depot_all_removed(&l), "all idle, all removed");
    schedule[0] = 1;
    expect(depot_lists_advance(&l, schedule, 1) == 0 && depot_busy(&l, schedule) == 1 && depot_all_removed(&l), "a new search, and all still removed");
    for (calls = 0; calls < 100; calls++) {
        schedule[0] = schedule[1] = 1;
        expect(depot_lists_advance(&l, schedule, 2) == 0 && depot_busy(&l, schedule) == 1, "the search ends in the call, and a new one begins");
    }
}

/* An image with zeros behind it opens in a larger room. */
static void test_larger_room(void)
{
    enum { LARGER = 9 };
    static struct run r;
    static uint8_t block[DEPOT_BLOCK_LENGTH(LARGER, 0)], source[DEPOT_RECORD_LENGTH * (LARGER + 1)], lent[400];
    struct depot_lists l = lists_of(&r), m = depot_lists_in(block, LARGER, NULL, 0);
    size_t steps = 0;
    put_commands(&r);
    expect(depot_lists_open(&l, 2, 1) == 0 && depot_lists_dispatch(&l, lent, sizeof lent, &steps) == 0, "an image is written");
    memcpy(source, l.image, depot_image_length(ROOM));
    expect(depot_lists_open_from(&m, source, 1, 1) == 0 && depot_used(&m) == 1 && depot_short_at(m.chutes, 0) == 300, "opened in a larger room");
}

/* Every number has words of its own, and a switch takes all of them. */
static void test_texts(void)
{
    unsigned i, j;
    for (i = 0; i <= 16; i++)
        for (j = 0; j < i; j++)
            expect(strcmp(depot_refusal_text(i), depot_refusal_text(j)) != 0, "two refusals have the same words");
    expect(strcmp(depot_refusal_text(17), depot_refusal_text(255)) == 0, "no refusal");
    expect(strcmp(depot_answer_text(0), "not yet") == 0 && strcmp(depot_answer_text(512), "chute") == 0 &&
               strcmp(depot_answer_text(513), depot_answer_text(1001)) == 0, "answers");
    for (i = 1; i <= 6; i++)
        for (j = 0; j < i; j++)
            expect(strcmp(depot_kind_text(i), depot_kind_text(j)) != 0, "two kinds have the same words");
    for (i = 0; i <= 7; i++)
        for (j = 0; j < i; j++)
            expect(strcmp(depot_state_text(i), depot_state_text(j)) != 0, "two states have the same words");
    expect(strcmp(depot_kind_text(7), depot_kind_text(0)) == 0 && strcmp(depot_state_text(8), depot_state_text(255)) == 0, "no kind, no state");
    expect(DEPOT_WRONG_STATE == 12 && DEPOT_KEY_TOO_LARGE == 12, "two names of 12");
}

int main(void)
{
    test_block();
    test_calls();
    test_put();
    test_outside();
    test_null();
    test_rounds();
    test_reading();
    test_sets();
    test_members();
    test_busy();
    test_larger_room();
    test_texts();
    printf("%u failed\n", failed);
    return failed != 0;
}
