/* A small belt host: it opens a dozen commands, deals turns call by call in a changing order, shows the panel and the table now and
 * then, and prints answers and table. An identifier as argument is looked up in the table. */
#include "show.h"

#include <string.h>

enum { COMMANDS = 12, SIZE = 4, WORKERS = 3, CAPACITY = 3, PARTIES = WORKERS + 1, MOST_CALLS = 1000 };

static uint8_t block[DEPOT_BLOCK_LENGTH(CAPACITY, COMMANDS)], commands[DEPOT_COMMAND_LENGTH * COMMANDS];
static struct depot_lists lists; /* what the host keeps between calls: the block and the commands */

static void put_commands(void)
{
    depot_put_command(commands, 1, DEPOT_INSERT, "RR473124829GB", 12);
    depot_put_command(commands, 2, DEPOT_INSERT, "CP100000017DE", 40);
    depot_put_command(commands, 3, DEPOT_READ, "RR473124829GB", 0);
    depot_put_command(commands, 4, DEPOT_READ, "CP100000017DE", 0);
    depot_put_command(commands, 5, DEPOT_UPDATE, "RR473124829GB", 512);
    depot_put_command(commands, 6, DEPOT_READ, "RR473124829GB", 0);
    depot_put_command(commands, 7, DEPOT_DELETE, "EE200000023FR", 0);
    depot_put_command(commands, 8, DEPOT_INSERT, "EE200000023FR", 7);
    depot_put_command(commands, 9, DEPOT_INSERT, "LX300000030NL", 8);
    depot_put_command(commands, 10, DEPOT_INSERT, "CP100000017DE", 41);
    depot_put_command(commands, 11, DEPOT_READ, "CP100000017DE", 0);
    depot_put_command(commands, 12, DEPOT_DELETE, "EE200000023FR", 0);
}

static void print_panel(unsigned calls)
{
    uint8_t counts[DEPOT_COUNTS_LENGTH], status[DEPOT_STATUS_LENGTH];
    must_accept("depot_pending_counts", depot_lists_pending_counts(&lists, counts));
    must_accept("depot_worker_status", depot_lists_worker_status(&lists, status));
    printf("after %u calls: waiting for", calls);
    for (size_t i = 0; i < SIZE; i++)
        printf(" %u", counts[i]);
    for (size_t w = 0; w < WORKERS; w++) {
        printf("; %s", depot_state_text(status[2 * w]));
        if (status[2 * w + 1] != 0)
            printf(" %u", status[2 * w + 1]);
    }
    printf("\n");
}

/* Which commands are written, and the table: at every moment it is what just these give when run alone in their order. */
static void print_moment(void)
{
    printf("    written");
    for (unsigned place = 1; place <= COMMANDS; place++)
        if (depot_answer_at(&lists, place) != DEPOT_NOT_YET)
            printf(" %u", place);
    print_table(&lists, "; ", "");
    printf("\n");
}

/* The next dealing: each party once, beginning with another one at each call; when all is answered, the busy ones alone, so that
 * none begins a new search. Its length is 0 when nobody is busy. */
static size_t next_schedule(unsigned calls, uint8_t *schedule)
{
    if (depot_all_answered(&lists))
        return depot_busy(&lists, schedule);
    for (unsigned i = 0; i < PARTIES; i++)
        schedule[i] = (uint8_t)((calls + i) % PARTIES);
    return PARTIES;
}

static void run(void)
{
    uint8_t schedule[1 + DEPOT_MOST_WORKERS];
    unsigned calls = 0;
    size_t length;
    while ((length = next_schedule(calls, schedule)) > 0) {
        must_accept("depot_advance", depot_lists_advance(&lists, schedule, length));
        calls++;
        if (calls % 10 == 0) {
            print_panel(calls);
            print_moment();
        }
        if (calls == MOST_CALLS)
            fail("host", "not done");
    }
    print_panel(calls);
}

static void look_up(const char *text)
{
    uint8_t key[DEPOT_KEY_LENGTH];
    must_accept("depot_read_identifier", depot_read_identifier((const uint8_t *)text, strlen(text), key, sizeof key));
    for (size_t i = 0; i < depot_used(&lists); i++)
        if (depot_key_at(lists.keys, i) == depot_key_at(key, 0)) {
            printf("%s goes to chute %u\n", text, depot_short_at(lists.chutes, i));
            return;
        }
    printf("%s has no chute\n", text);
}

int main(int argc, char **argv)
{
    lists = depot_lists_in(block, CAPACITY, commands, COMMANDS);
    put_commands();
    must_accept("depot_open", depot_lists_open(&lists, SIZE, WORKERS));
    run();
    print_answers(&lists, 0);
    print_table(&lists, "", "\n");
    look_up(argc > 1 ? argv[1] : "RR473124829GB");
    return EXIT_SUCCESS;
}
