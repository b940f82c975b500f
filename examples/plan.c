/* A planner's question before a list is opened: how far could more workers help? Prints each command with its round, how many rounds
 * the list needs, and the most commands that stand in one: that many workers could serve each round all at once. */
#include "show.h"

enum { COMMANDS = 12 };

static uint8_t commands[DEPOT_COMMAND_LENGTH * COMMANDS], rounds[DEPOT_ROUND_LENGTH * COMMANDS];

static void put_commands(void)
{
    depot_put_command(commands, 1, DEPOT_INSERT, "RR473124829GB", 12);
    depot_put_command(commands, 2, DEPOT_INSERT, "CP100000017DE", 40); /* waits for the other insert */
    depot_put_command(commands, 3, DEPOT_READ, "RR473124829GB", 0);
    depot_put_command(commands, 4, DEPOT_READ, "RR473124829GB", 0); /* two reads do not wait for one another */
    depot_put_command(commands, 5, DEPOT_UPDATE, "RR473124829GB", 512);
    depot_put_command(commands, 6, DEPOT_READ, "EE200000023FR", 0); /* passes the commands of other items */
    depot_put_command(commands, 7, DEPOT_UPDATE, "LX300000030NL", 8);
    depot_put_command(commands, 8, DEPOT_DELETE, "EE200000023FR", 0);
    depot_put_command(commands, 9, DEPOT_CHECKPOINT, NULL, 0); /* waits for all, and all behind it wait */
    depot_put_command(commands, 10, DEPOT_READ, "CP100000017DE", 0);
    depot_put_command(commands, 11, DEPOT_READ, "RR473124829GB", 0);
    depot_put_command(commands, 12, DEPOT_INSERT, "EE200000023FR", 7);
}

/* How many commands stand in a round. */
static unsigned in_round(size_t round)
{
    unsigned many = 0;
    for (size_t i = 0; i < COMMANDS; i++)
        many += depot_short_at(rounds, i) == round;
    return many;
}

int main(void)
{
    const struct depot_lists lists = {.commands = commands, .count = COMMANDS}; /* there is no run */
    size_t needed = 0;
    unsigned most = 0;
    put_commands();
    must_accept("depot_rounds_needed", depot_lists_rounds_needed(&lists, rounds, &needed));
    for (size_t place = 1; place <= COMMANDS; place++)
        printf("%lu %s %.13s round %u\n", (unsigned long)place, depot_kind_text(depot_command_kind(&lists, place)),
               depot_command_text(&lists, place), depot_short_at(rounds, place - 1));
    for (size_t round = 1; round <= needed; round++)
        most = in_round(round) > most ? in_round(round) : most;
    printf("%d commands, %lu rounds, at most %u commands in one\n", COMMANDS, (unsigned long)needed, most);
    return EXIT_SUCCESS;
}
