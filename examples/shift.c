/* A host that is written from depot.h and docs/HOSTING.md alone. The first process, `shift FILE`, opens a list, deals random turns,
 * shows the panel with identifiers and saves its lists to FILE; the second, `shift FILE resume`, loads them, finishes by the
 * dispatcher and prints answers and table. */
#include "show.h"

#include <string.h>

enum { COMMANDS = 9, SIZE = 5, WORKERS = 3, CAPACITY = 4, TURNS = 90 };

static uint8_t block[DEPOT_BLOCK_LENGTH(CAPACITY, COMMANDS)], commands[DEPOT_COMMAND_LENGTH * COMMANDS];
static struct depot_lists lists;

static void put_commands(void)
{
    depot_put_command(commands, 1, DEPOT_INSERT, "RR473124829GB", 12);
    depot_put_command(commands, 2, DEPOT_INSERT, "CP100000017DE", 40);
    depot_put_command(commands, 3, DEPOT_READ, "RR473124829GB", 0);
    depot_put_command(commands, 4, DEPOT_UPDATE, "CP100000017DE", 41);
    depot_put_command(commands, 5, DEPOT_READ, "CP100000017DE", 0);
    depot_put_command(commands, 6, DEPOT_INSERT, "EE200000023FR", 7);
    depot_put_command(commands, 7, DEPOT_DELETE, "RR473124829GB", 0);
    depot_put_command(commands, 8, DEPOT_READ, "RR473124829GB", 0);
    depot_put_command(commands, 9, DEPOT_CHECKPOINT, NULL, 0);
}

/* Turns for any of the parties, by a generator of its own, so that they are the same everywhere. */
static void deal_at_random(void)
{
    uint8_t schedule[TURNS];
    uint32_t seed = 2026;
    for (size_t i = 0; i < TURNS; i++) {
        seed = seed * 1664525u + 1013904223u;
        schedule[i] = (uint8_t)((seed >> 16) % (WORKERS + 1));
    }
    must_accept("depot_advance", depot_lists_advance(&lists, schedule, sizeof schedule));
}

/* A record of the chain: its command, how many it waits for, and the places of their commands. */
static void print_record(unsigned record, unsigned count)
{
    unsigned place = depot_record_place(&lists, record);
    printf("  %u %s %.13s waits for %u", place, depot_kind_text(depot_command_kind(&lists, place)),
           depot_record_text(&lists, record), count);
    for (unsigned other = 1; other <= SIZE; other++)
        if (depot_waits_for(&lists, record, other))
            printf(", place %u", depot_record_place(&lists, other));
    printf("\n");
}

static void print_panel(void)
{
    uint8_t counts[DEPOT_COUNTS_LENGTH];
    unsigned record = depot_next_record(&lists, 0);
    must_accept("depot_pending_counts", depot_lists_pending_counts(&lists, counts));
    printf("loaded %u, in the chain %u\n", depot_loaded(&lists), depot_chain_length(&lists));
    for (unsigned i = 0; i < depot_chain_length(&lists); i++, record = depot_next_record(&lists, record))
        print_record(record, counts[i]);
    for (unsigned party = 0; party <= depot_largest_workers(&lists); party++) {
        unsigned own = depot_party_record(&lists, party);
        printf("  party %u %s", party, depot_state_text(depot_party_state(&lists, party)));
        if (own != 0)
            printf(" with %u", depot_record_place(&lists, own));
        printf("\n");
    }
}

static void must(int ok, const char *what)
{
    if (!ok)
        fail(what, "failed");
}

/* A sum over all that is saved: the block and the commands. */
static uint32_t sum_of_all(void)
{
    uint32_t sum = 2166136261u;
    for (size_t i = 0; i < sizeof block; i++)
        sum = (sum ^ block[i]) * 16777619u;
    for (size_t i = 0; i < sizeof commands; i++)
        sum = (sum ^ commands[i]) * 16777619u;
    return sum;
}

static void save(const char *name)
{
    uint32_t sum = sum_of_all();
    FILE *file = fopen(name, "wb");
    must(file != NULL, name);
    must(fwrite(block, sizeof block, 1, file) == 1 && fwrite(commands, sizeof commands, 1, file) == 1 &&
             fwrite(&sum, sizeof sum, 1, file) == 1 && fclose(file) == 0,
         "writing");
}

static void load(const char *name)
{
    uint32_t sum;
    FILE *file = fopen(name, "rb");
    must(file != NULL, name);
    must(fread(block, sizeof block, 1, file) == 1 && fread(commands, sizeof commands, 1, file) == 1 &&
             fread(&sum, sizeof sum, 1, file) == 1 && fclose(file) == 0,
         "reading");
    must(sum == sum_of_all(), "checksum");
}

static void finish(void)
{
    size_t allowed = 0, turns = 0;
    uint8_t *schedule;
    must_accept("depot_steps_needed", depot_lists_steps_needed(&lists, &allowed));
    schedule = malloc(allowed);
    must(schedule != NULL, "malloc");
    must_accept("depot_dispatch", depot_lists_dispatch(&lists, schedule, allowed, &turns));
    printf("dispatched %lu turns of %lu allowed; all answered %d, all removed %d\n", (unsigned long)turns,
           (unsigned long)allowed, depot_all_answered(&lists), depot_all_removed(&lists));
    free(schedule);
}

int main(int count, char **words)
{
    must(count == 2 || (count == 3 && strcmp(words[2], "resume") == 0), "usage: shift FILE [resume]");
    lists = depot_lists_in(block, CAPACITY, commands, COMMANDS);
    if (count == 3) {
        load(words[1]);
        finish();
        print_answers(&lists, 0);
        print_table(&lists, "", "\n");
        return EXIT_SUCCESS;
    }
    put_commands();
    must_accept("depot_open", depot_lists_open(&lists, SIZE, WORKERS));
    deal_at_random();
    print_panel();
    save(words[1]);
    return EXIT_SUCCESS;
}
