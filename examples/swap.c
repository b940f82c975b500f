/* A controller is swapped: a host opens a list with a checkpoint, deals turns until its image is written, saves that to a file,
 * and is thrown away in the middle of its work. Another host, with other settings, opens from the file with the commands after the
 * image's place, finishes, and prints its answers and the table. The file's name is the argument. */
#include "show.h"

enum { COMMANDS = 10, CAPACITY = 3, IMAGE_LENGTH = DEPOT_RECORD_LENGTH * (CAPACITY + 1), MOST_CALLS = 1000 };

static uint8_t commands[DEPOT_COMMAND_LENGTH * COMMANDS];

static void put_commands(void)
{
    depot_put_command(commands, 1, DEPOT_INSERT, "RR473124829GB", 12);
    depot_put_command(commands, 2, DEPOT_INSERT, "CP100000017DE", 40);
    depot_put_command(commands, 3, DEPOT_UPDATE, "RR473124829GB", 512);
    depot_put_command(commands, 4, DEPOT_READ, "CP100000017DE", 0);
    depot_put_command(commands, 5, DEPOT_CHECKPOINT, NULL, 0);
    depot_put_command(commands, 6, DEPOT_READ, "RR473124829GB", 0);
    depot_put_command(commands, 7, DEPOT_INSERT, "EE200000023FR", 7);
    depot_put_command(commands, 8, DEPOT_DELETE, "CP100000017DE", 0);
    depot_put_command(commands, 9, DEPOT_INSERT, "RR473124829GB", 9);
    depot_put_command(commands, 10, DEPOT_READ, "RR473124829GB", 0);
}

/* Lists for the commands after a place. */
static struct depot_lists make_lists(size_t place)
{
    size_t count = COMMANDS - place;
    uint8_t *block = malloc(DEPOT_BLOCK_LENGTH(CAPACITY, count));
    if (block == NULL)
        fail("swap", "no memory");
    return depot_lists_in(block, CAPACITY, commands + DEPOT_COMMAND_LENGTH * place, count);
}

static void free_lists(struct depot_lists *l)
{
    free(l->state); /* where the block begins */
}

/* One turn each. */
static void deal(const struct depot_lists *l)
{
    uint8_t schedule[1 + DEPOT_MOST_WORKERS];
    size_t length = depot_round(l, schedule);
    must_accept("depot_advance", depot_lists_advance(l, schedule, length));
}

/* How many answers are given. */
static unsigned answered(const struct depot_lists *l)
{
    unsigned given = 0;
    for (size_t place = 1; place <= l->count; place++)
        given += depot_answer_at(l, place) != DEPOT_NOT_YET;
    return given;
}

static void save(const char *file, const uint8_t *image)
{
    FILE *out = fopen(file, "wb");
    if (out == NULL || fwrite(image, 1, IMAGE_LENGTH, out) != IMAGE_LENGTH || fclose(out) != 0)
        fail(file, "not written");
}

static void load(const char *file, uint8_t *image)
{
    FILE *in = fopen(file, "rb");
    if (in == NULL || fread(image, 1, IMAGE_LENGTH, in) != IMAGE_LENGTH || fclose(in) != 0)
        fail(file, "not read");
}

/* The first host: up to the call after which the image has a place. Saved between calls, the image is whole. */
static void first_host(const char *file)
{
    struct depot_lists lists = make_lists(0);
    unsigned calls = 0;
    must_accept("depot_open", depot_lists_open(&lists, 4, 3));
    while (depot_image_place(lists.image) == 0) {
        if (calls++ == MOST_CALLS)
            fail("first host", "no checkpoint is written");
        deal(&lists);
    }
    printf("first host: image of place %lu after %u calls, %u of %d commands answered\n",
           (unsigned long)depot_image_place(lists.image), calls, answered(&lists), COMMANDS);
    save(file, lists.image);
    free_lists(&lists); /* and all but the image is lost */
}

/* The second host: from the table of the image, with the commands after its place. Its own places begin at 1 again. */
static void second_host(const char *file)
{
    uint8_t source[IMAGE_LENGTH];
    struct depot_lists lists;
    size_t place;
    load(file, source);
    place = (size_t)depot_image_place(source);
    if (place > COMMANDS)
        fail(file, "of another list");
    lists = make_lists(place);
    must_accept("depot_open_from", depot_lists_open_from(&lists, source, 2, 1));
    printf("second host: opened with\n");
    print_table(&lists, "", "\n");
    for (unsigned calls = 0; !depot_all_answered(&lists); calls++) {
        if (calls == MOST_CALLS)
            fail("second host", "not done");
        deal(&lists);
    }
    print_answers(&lists, place);
    print_table(&lists, "", "\n");
    free_lists(&lists);
}

int main(int argc, char **argv)
{
    if (argc != 2)
        fail("usage", "swap FILE");
    put_commands();
    first_host(argv[1]);
    second_host(argv[1]);
    return EXIT_SUCCESS;
}
