/* More than 4,096 commands: three full lists, each with a checkpoint as its last command and opened from the image of the one before.
 * Every answer and each last table are those of a plain array that the commands are run on one after another. */
#include <depot.h>

#include <stdio.h>
#include <stdlib.h>
#include <string.h>

enum { LISTS = 3, COUNT = DEPOT_MOST_COMMANDS, ITEMS = 26, ROOM = 20, SIZE = 9, WORKERS = 4 };

static uint8_t block[DEPOT_BLOCK_LENGTH(ROOM, COUNT)], commands[DEPOT_COMMAND_LENGTH * COUNT], schedule[DEPOT_MOST_STEPS],
    source[DEPOT_RECORD_LENGTH * (ROOM + 1)];
static unsigned chute_of[ITEMS], used; /* the plain table: 0 is no entry */
static unsigned expected[COUNT];
static uint32_t seed = 4096;

static void must(int ok, const char *what)
{
    if (ok)
        return;
    printf("FAILED  %s\n", what);
    exit(EXIT_FAILURE);
}

static unsigned below(unsigned bound)
{
    seed = seed * 1664525u + 1013904223u;
    return (seed >> 8) % bound;
}

/* Runs a command on the plain table, by document 01 and A.7. */
static unsigned answer_to(unsigned kind, unsigned item, unsigned chute)
{
    unsigned before = chute_of[item];
    if (kind == DEPOT_INSERT && before == 0 && used == ROOM)
        return DEPOT_STORE_FULL;
    if (kind != DEPOT_INSERT && before == 0)
        return DEPOT_NO_SUCH_ITEM;
    if (kind == DEPOT_READ)
        return before;
    chute_of[item] = kind == DEPOT_DELETE ? 0 : chute;
    used = used - (before != 0u) + (chute_of[item] != 0u);
    return kind == DEPOT_INSERT && before != 0 ? DEPOT_ANNOUNCED_AGAIN : DEPOT_DONE;
}

/* A list of random commands with a checkpoint at its end. Item i is the one with key i. */
static void put_list(void)
{
    size_t place;
    for (place = 1; place < COUNT; place++) {
        unsigned kind = 1 + below(4), item = below(ITEMS);
        unsigned chute = kind == DEPOT_INSERT || kind == DEPOT_UPDATE ? 1 + below(DEPOT_MOST_CHUTE) : 0;
        uint8_t text[DEPOT_IDENTIFIER_LENGTH + 1] = {0};
        must(depot_write_identifier(item, text, DEPOT_IDENTIFIER_LENGTH) == 0, "the identifier");
        depot_put_command(commands, place, kind, (const char *)text, chute);
        expected[place - 1] = answer_to(kind, item, chute);
    }
    depot_put_command(commands, COUNT, DEPOT_CHECKPOINT, NULL, 0);
    expected[COUNT - 1] = DEPOT_DONE;
}

static void judge(const struct depot_lists *l)
{
    size_t place, entry = 0;
    unsigned item;
    must(depot_all_answered(l) && depot_all_removed(l), "all is done");
    for (place = 1; place <= COUNT; place++)
        must(depot_answer_at(l, place) == expected[place - 1], "an answer");
    for (item = 0; item < ITEMS; item++)
        if (chute_of[item] != 0) {
            must(depot_key_at(l->keys, entry) == item && depot_short_at(l->chutes, entry) == chute_of[item], "an entry");
            entry++;
        }
    must(entry == used && (entry == ROOM || depot_short_at(l->chutes, entry) == 0), "the table's end");
    must(depot_image_place(l->image) == COUNT, "the image's place");
}

int main(void)
{
    struct depot_lists lists = depot_lists_in(block, ROOM, commands, COUNT);
    size_t turns = 0;
    int i;
    for (i = 0; i < LISTS; i++) {
        put_list();
        must((i == 0 ? depot_lists_open(&lists, SIZE, WORKERS) : depot_lists_open_from(&lists, source, SIZE, WORKERS)) == 0, "opening");
        must(depot_lists_dispatch(&lists, schedule, sizeof schedule, &turns) == 0, "dispatching");
        judge(&lists);
        memcpy(source, lists.image, sizeof source);
    }
    return EXIT_SUCCESS;
}
