/* A depot without a belt host: it opens a list, asks how many turns dispatching it may take, lends a list of that length, and has
 * the controller deal all turns. Prints how many there were, answers and table. */
#include "show.h"

enum { COMMANDS = 10, SIZE = 4, WORKERS = 2, CAPACITY = 3 };

static uint8_t block[DEPOT_BLOCK_LENGTH(CAPACITY, COMMANDS)], commands[DEPOT_COMMAND_LENGTH * COMMANDS];

static void put_commands(void)
{
    depot_put_command(commands, 1, DEPOT_INSERT, "RR473124829GB", 12);
    depot_put_command(commands, 2, DEPOT_INSERT, "CP100000017DE", 40);
    depot_put_command(commands, 3, DEPOT_READ, "RR473124829GB", 0);
    depot_put_command(commands, 4, DEPOT_WORKERS, NULL, 3); /* the new worker count */
    depot_put_command(commands, 5, DEPOT_UPDATE, "RR473124829GB", 512);
    depot_put_command(commands, 6, DEPOT_INSERT, "EE200000023FR", 7);
    depot_put_command(commands, 7, DEPOT_INSERT, "LX300000030NL", 8);
    depot_put_command(commands, 8, DEPOT_DELETE, "CP100000017DE", 0);
    depot_put_command(commands, 9, DEPOT_CHECKPOINT, NULL, 0);
    depot_put_command(commands, 10, DEPOT_READ, "RR473124829GB", 0);
}

/* Dispatches. The dealing itself is not needed any more. */
static void dispatch(const struct depot_lists *l)
{
    size_t allowed = 0, turns = 0;
    uint8_t *schedule;
    must_accept("depot_steps_needed", depot_lists_steps_needed(l, &allowed));
    schedule = malloc(allowed);
    if (schedule == NULL)
        fail("dispatch", "no memory");
    must_accept("depot_dispatch", depot_lists_dispatch(l, schedule, allowed, &turns));
    free(schedule);
    printf("%lu turns of %lu allowed\n", (unsigned long)turns, (unsigned long)allowed);
}

int main(void)
{
    struct depot_lists lists = depot_lists_in(block, CAPACITY, commands, COMMANDS);
    put_commands();
    must_accept("depot_open", depot_lists_open(&lists, SIZE, WORKERS));
    dispatch(&lists);
    print_answers(&lists, 0);
    print_table(&lists, "", "\n");
    return EXIT_SUCCESS;
}
