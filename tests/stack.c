/* How much stack each call takes, at the largest settings: it is made on a painted stack, and the paint that is left is counted.
 * Prints the bytes of each, the thread's own start included; ends badly where they are more than the header's DEPOT_STACK_USE. */
#define _POSIX_C_SOURCE 200809L
#include <depot.h>

#include <pthread.h>
#include <stdio.h>
#include <stdlib.h>
#include <string.h>

enum { STACK = 1 << 20, PAINT = 0x5a, CALLS = 11, IMAGE_LENGTH = DEPOT_RECORD_LENGTH * (DEPOT_MOST_CAPACITY + 1) };

static uint8_t state[DEPOT_STATE_LENGTH], keys[DEPOT_KEY_LENGTH * DEPOT_MOST_CAPACITY];
static uint8_t chutes[DEPOT_CHUTE_LENGTH * DEPOT_MOST_CAPACITY], answers[DEPOT_ANSWER_LENGTH * DEPOT_MOST_COMMANDS];
static uint8_t commands[DEPOT_COMMAND_LENGTH * DEPOT_MOST_COMMANDS];
static uint8_t image[IMAGE_LENGTH], source[IMAGE_LENGTH];
static uint8_t schedule[100000], counts[DEPOT_COUNTS_LENGTH], status[DEPOT_STATUS_LENGTH];
static uint8_t text[DEPOT_IDENTIFIER_LENGTH], key[DEPOT_KEY_LENGTH];
static uint8_t lent[DEPOT_MOST_STEPS], count[DEPOT_STEP_COUNT_LENGTH];
static uint8_t rounds[DEPOT_ROUND_LENGTH * DEPOT_MOST_COMMANDS], needed[DEPOT_ROUND_COUNT_LENGTH];

static const char *const names[CALLS] = {
    "depot_write_identifier", "depot_read_identifier", "depot_open",      "depot_advance",
    "depot_pending_counts",   "depot_worker_status",   "depot_open_from", "depot_advance, with a checkpoint",
    "depot_steps_needed",     "depot_dispatch",        "depot_rounds_needed"};

#define RUN state, sizeof state, keys, sizeof keys, chutes, sizeof chutes, answers, sizeof answers
#define IMAGE image, sizeof image
#define COMMANDS commands, sizeof commands
#define SETTINGS DEPOT_MOST_NODES, DEPOT_MOST_WORKERS, DEPOT_MOST_CAPACITY

static uint64_t call(int which)
{
    switch (which) {
    case 0:
        return depot_write_identifier(DEPOT_LARGEST_KEY, text, sizeof text);
    case 1:
        return depot_read_identifier(text, sizeof text, key, sizeof key);
    case 2:
        return depot_open(RUN, IMAGE, COMMANDS, SETTINGS);
    case 4:
        return depot_pending_counts(RUN, COMMANDS, counts, sizeof counts);
    case 5:
        return depot_worker_status(RUN, COMMANDS, status, sizeof status);
    case 6:
        return depot_open_from(RUN, IMAGE, COMMANDS, source, sizeof source, SETTINGS);
    case 8:
        return depot_steps_needed(RUN, COMMANDS, count, sizeof count);
    case 9:
        return depot_dispatch(RUN, IMAGE, COMMANDS, lent, sizeof lent, count, sizeof count);
    case 10:
        return depot_rounds_needed(COMMANDS, rounds, sizeof rounds, needed, sizeof needed);
    default:
        return depot_advance(RUN, IMAGE, COMMANDS, schedule, sizeof schedule);
    }
}

static void *call_in_thread(void *which)
{
    if (call(*(int *)which) != 0) {
        printf("stack: %s refused\n", names[*(int *)which]);
        exit(EXIT_FAILURE);
    }
    return NULL;
}

/* The bytes of a thread's stack that a call has written. */
static size_t written(int which)
{
    pthread_attr_t attributes;
    pthread_t thread;
    void *stack = NULL;
    size_t clean = 0;
    if (posix_memalign(&stack, 4096, STACK) != 0)
        exit(EXIT_FAILURE);
    memset(stack, PAINT, STACK);
    if (pthread_attr_init(&attributes) != 0 || pthread_attr_setstack(&attributes, stack, STACK) != 0 ||
        pthread_create(&thread, &attributes, call_in_thread, &which) != 0 || pthread_join(thread, NULL) != 0)
        exit(EXIT_FAILURE);
    while (clean < STACK && ((uint8_t *)stack)[clean] == PAINT)
        clean++;
    pthread_attr_destroy(&attributes);
    free(stack);
    return STACK - clean;
}

/* An image of a full store: keys 0, 1 and on. */
static void put_source(void)
{
    for (size_t i = 0; i <= DEPOT_MOST_CAPACITY; i++) {
        uint8_t *record = source + DEPOT_RECORD_LENGTH * i;
        size_t next = i < DEPOT_MOST_CAPACITY ? i + 1 : 0;
        record[0] = (uint8_t)(next / 256);
        record[1] = (uint8_t)(next % 256);
        record[2] = i > 0 ? 2 : 0;
        record[10] = (uint8_t)(i / 256);
        record[11] = (uint8_t)(i % 256);
    }
}

int main(void)
{
    const uint8_t checkpoint[] = {DEPOT_CHECKPOINT, '0', '0', '0', '0', '0', '0', '0', '0', '0', '0', '0', '0', '0', 0, 0};
    int bad = 0;
    for (size_t i = 0; i < DEPOT_MOST_COMMANDS; i++) {
        const uint8_t insert[] = {DEPOT_INSERT, 'A', 'A', '0', '0', '0', '0', '0', '0', '0', '0', '5', 'A', 'A', 2, 0};
        memcpy(commands + i * sizeof insert, insert, sizeof insert);
    }
    for (size_t i = 0; i < sizeof schedule; i++)
        schedule[i] = (uint8_t)(i % 65);
    put_source();
    for (int i = 0; i < CALLS; i++) {
        size_t used;
        if (i == 6)
            memcpy(commands, checkpoint, sizeof checkpoint);
        used = written(i);
        printf("stack: %s at most %lu bytes\n", names[i], (unsigned long)used);
        bad |= used > DEPOT_STACK_USE;
    }
    bad |= depot_image_place(image) != 1;
    bad |= depot_short_at(answers, DEPOT_MOST_COMMANDS - 1) == DEPOT_NOT_YET; /* the dispatch went to the end */
    bad |= depot_key_at(needed, 0) != DEPOT_MOST_COMMANDS; /* and the rounds, too: a checkpoint, then inserts one behind the other */
    return bad ? EXIT_FAILURE : EXIT_SUCCESS;
}
