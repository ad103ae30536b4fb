#include "refusal.h"

#include "isle.h"

#include <stdio.h>

static void print_number_and_text(int refusal)
{
    printf("refused: %d, %s", refusal, isle_refusal_text(refusal));
}

/* Prints where a position is, what `which` says of the place, and the line with a caret. */
static void print_position_and_line(const struct source *source, uint32_t position, const char *which)
{
    struct line_column at;
    if (!find_position(source, position, &at)) {
        printf(", at position %lu, which is outside the text%s\n", (unsigned long)position, which);
        return;
    }
    printf(", at %lu:%lu%s\n", (unsigned long)at.line, (unsigned long)at.column, which);
    print_line_with_caret(source, at);
}

void print_too_large(void)
{
    print_number_and_text(ISLE_REFUSAL_TOO_MUCH);
    putchar('\n');
}

void print_refused_reading(const struct source *source, const struct input *input, uint64_t result)
{
    const int refusal = isle_result_refusal(result);
    const uint32_t place = isle_result_place(result);
    char which[40];

    print_number_and_text(refusal);
    if (refusal == ISLE_REFUSAL_BAD_TOKEN && place < input->token_count) {
        snprintf(which, sizeof which, " (token %lu)", (unsigned long)place);
        print_position_and_line(source, isle_token_position_at(input->tokens, place), which);
    } else if (refusal >= ISLE_REFUSAL_TOO_DEEP) {
        print_position_and_line(source, place, "");
    } else {
        putchar('\n');
    }
}

/* A place that is a record's index: the definitions' records come first, then the pattern's. */
static void print_record_and_line(const struct source *source, struct record_list definitions,
                                  struct record_list pattern, uint32_t place)
{
    const int in_pattern = place >= definitions.count;
    const struct record_list list = in_pattern ? pattern : definitions;
    const size_t index = in_pattern ? place - definitions.count : place;
    char which[80];

    if (index >= list.count) {
        printf(", at record %lu\n", (unsigned long)place);
        return;
    }
    if (in_pattern) {
        snprintf(which, sizeof which, " (record %lu: number %lu of the pattern)", (unsigned long)place,
                 (unsigned long)index);
    } else {
        snprintf(which, sizeof which, " (record %lu of the definitions)", (unsigned long)place);
    }
    print_position_and_line(source, isle_get_record(list.bytes, index).position, which);
}

void print_refused_opening(const struct source *source, struct record_list definitions, struct record_list pattern,
                           uint64_t result)
{
    const int refusal = isle_result_refusal(result);
    const uint32_t place = isle_result_place(result);

    print_number_and_text(refusal);
    if (refusal == ISLE_REFUSAL_NO_SPACE) {
        printf(": the opened %s more than %d records\n", place == 0 ? "templates have" : "pattern has",
               ISLE_MAX_RECORDS);
    } else if (refusal == ISLE_REFUSAL_MACRO_ARG || refusal >= ISLE_REFUSAL_TOO_DEEP) {
        print_record_and_line(source, definitions, pattern, place);
    } else {
        putchar('\n');
    }
}
