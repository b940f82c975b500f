/* What the hosts of this folder print alike. */
#ifndef SHOW_H
#define SHOW_H

#include <depot.h>

#include <stdio.h>
#include <stdlib.h>

/* Ends the host with words. */
static inline void fail(const char *what, const char *why)
{
    printf("%s: %s\n", what, why);
    exit(EXIT_FAILURE);
}

/* Ends the host where a call was refused. */
static inline void must_accept(const char *call, uint64_t answer)
{
    if (answer == 0)
        return;
    printf("%s: refused %u (%s), place %lu, character %u\n", call, depot_number(answer), depot_refusal_text(depot_number(answer)),
           (unsigned long)depot_place(answer), depot_character(answer));
    exit(EXIT_FAILURE);
}

/* The table, with something before and after each entry. */
static inline void print_table(const struct depot_lists *l, const char *before, const char *after)
{
    for (size_t i = 0; i < depot_used(l); i++) {
        uint8_t text[DEPOT_IDENTIFIER_LENGTH];
        must_accept("depot_write_identifier", depot_write_identifier(depot_key_at(l->keys, i), text, sizeof text));
        printf("%s%.13s chute %u%s", before, (const char *)text, depot_short_at(l->chutes, i), after);
    }
}

/* A line for each command: its place, counted on from those of earlier lists, kind, identifier and answer. */
static inline void print_answers(const struct depot_lists *l, size_t earlier)
{
    for (size_t place = 1; place <= l->count; place++) {
        unsigned answer = depot_answer_at(l, place);
        printf("%lu %s %.13s %s", (unsigned long)(earlier + place), depot_kind_text(depot_command_kind(l, place)),
               depot_command_text(l, place), depot_answer_text(answer));
        if (answer >= 1 && answer <= DEPOT_MOST_CHUTE)
            printf(" %u", answer);
        printf("\n");
    }
}

#endif
