/* Shows the pattern of each rule in an ISLE file with its extractors opened.
   Usage: show [--tokens] [FILE]; without a file it reads standard input. The file is a text; with --tokens, or if
   its name ends in .tokens, it is a token file.
   Exit status: 0 every pattern was opened; 1 a refusal; 2 bad usage, or a file that cannot be read or is cut short. */
#include "input.h"
#include "isle.h"
#include "memory.h"
#include "pattern.h"
#include "records.h"
#include "refusal.h"
#include "source.h"

#include <stdio.h>
#include <stdlib.h>
#include <string.h>

enum exit_status { ALL_OPENED = 0, REFUSED = 1, FAILED = 2 };

/* What isle_open writes to. */
struct outputs {
    uint8_t *store;
    uint8_t *out;
};

static int fail(const char *message)
{
    fprintf(stderr, "show: %s\n", message);
    return FAILED;
}

static void print_rule_head(const struct source *source, struct record_list definitions, size_t index)
{
    const isle_record rule = isle_get_record(definitions.bytes, index);
    struct line_column at;

    if (rule.flags & ISLE_FLAG_RULE_NAMED && index + 1 < definitions.count) {
        const isle_record name = isle_get_record(definitions.bytes, index + 1);
        fputs("rule ", stdout);
        print_name(source, isle_upper_half(name.word1), isle_lower_half(name.word1));
    } else {
        fputs("rule without a name", stdout);
    }
    if (find_position(source, rule.position, &at)) {
        printf(", at %lu:%lu", (unsigned long)at.line, (unsigned long)at.column);
    }
}

/* A rule's children are its name and its priority, where the flags say so, and then its pattern. */
static struct record_list pattern_of_rule(struct record_list definitions, size_t index)
{
    const isle_record rule = isle_get_record(definitions.bytes, index);
    size_t at = index + 1;
    if (rule.flags & ISLE_FLAG_RULE_NAMED) {
        at++;
    }
    if (rule.flags & ISLE_FLAG_RULE_PRIORITY) {
        at++;
    }
    return tree_at(definitions, at);
}

static uint64_t open_pattern(const struct source *source, struct record_list definitions, struct record_list pattern,
                             const struct outputs *outputs)
{
    return isle_open(source->text, source->length, definitions.bytes, definitions.count * ISLE_RECORD_BYTES,
                     pattern.bytes, pattern.count * ISLE_RECORD_BYTES, outputs->store, ISLE_MAX_OUTPUT_BYTES,
                     outputs->out, ISLE_MAX_OUTPUT_BYTES);
}

/* Opens a pattern that calls nothing, so that what is wrong with the definitions is said once and not for
   each rule. */
static int check_definitions(const struct source *source, struct record_list definitions,
                             const struct outputs *outputs)
{
    const isle_record wildcard = {ISLE_KIND_PATTERN_WILDCARD, 0, 0, 0, 0, 0};
    uint8_t bytes[ISLE_RECORD_BYTES];
    const struct record_list pattern = {bytes, 1};
    uint64_t result;

    isle_put_record(bytes, 0, wildcard);
    result = open_pattern(source, definitions, pattern, outputs);
    if (isle_result_is_accepted(result)) {
        return ALL_OPENED;
    }
    puts("the definitions cannot be opened");
    print_refused_opening(source, definitions, pattern, result);
    return REFUSED;
}

static int show_rule(const struct source *source, struct record_list definitions, size_t index,
                     const struct outputs *outputs)
{
    const struct record_list pattern = pattern_of_rule(definitions, index);
    const uint64_t result = open_pattern(source, definitions, pattern, outputs);
    struct record_list opened;

    print_rule_head(source, definitions, index);
    if (!isle_result_is_accepted(result)) {
        puts(", cannot be opened");
        print_refused_opening(source, definitions, pattern, result);
        return REFUSED;
    }
    opened.bytes = outputs->out;
    opened.count = isle_result_count(result);
    printf(", opened to %lu %s\n", (unsigned long)opened.count, opened.count == 1 ? "record" : "records");
    return print_pattern(source, opened) ? ALL_OPENED : fail("no memory");
}

static int show_rules(const struct source *source, struct record_list definitions, const struct outputs *outputs)
{
    int status = ALL_OPENED;
    int rules = 0;
    size_t index;
    for (index = 0; index < definitions.count; index = tree_end(definitions, index)) {
        int shown;
        if (isle_get_record(definitions.bytes, index).kind != ISLE_KIND_RULE) {
            continue;
        }
        rules++;
        shown = show_rule(source, definitions, index, outputs);
        if (shown > status) {
            status = shown;
        }
    }
    if (rules == 0) {
        puts("there is no rule");
    }
    return status;
}

static int open_and_show(const struct source *source, struct record_list definitions)
{
    struct outputs outputs;
    int status;
    outputs.store = allocate(ISLE_MAX_OUTPUT_BYTES);
    outputs.out = allocate(ISLE_MAX_OUTPUT_BYTES);
    if (outputs.store == NULL || outputs.out == NULL) {
        status = fail("no memory");
    } else {
        status = check_definitions(source, definitions, &outputs);
        if (status == ALL_OPENED) {
            status = show_rules(source, definitions, &outputs);
        }
    }
    free(outputs.store);
    free(outputs.out);
    return status;
}

/* Bytes that are always enough for the records. */
static size_t record_space(const struct input *input)
{
    return input->tokens != NULL ? isle_read_space((size_t)input->token_count * ISLE_TOKEN_BYTES)
                                 : isle_read_text_space(input->text_length);
}

static uint64_t read_input(const struct input *input, uint8_t *records, size_t space)
{
    if (input->tokens != NULL) {
        return isle_read(input->tokens, (size_t)input->token_count * ISLE_TOKEN_BYTES, input->text, input->text_length,
                         input->end, records, space);
    }
    return isle_read_text(input->text, input->text_length, records, space);
}

static int read_and_show(const struct source *source, const struct input *input)
{
    const size_t space = record_space(input);
    uint8_t *records = allocate(space);
    uint64_t result;
    int status;

    if (records == NULL) {
        return fail("no memory");
    }
    result = read_input(input, records, space);
    if (isle_result_is_accepted(result)) {
        const struct record_list definitions = {records, isle_result_count(result)};
        status = open_and_show(source, definitions);
    } else {
        print_refused_reading(source, input, result);
        status = REFUSED;
    }
    free(records);
    return status;
}

static int show_input(const struct input *input)
{
    struct source source;
    int status;
    if (!open_source(&source, input->text, input->text_length)) {
        return fail("no memory");
    }
    status = read_and_show(&source, input);
    close_source(&source);
    return status;
}

static int show_stream(FILE *in, int is_tokens)
{
    struct input input;
    int status = FAILED;
    switch (is_tokens ? load_tokens(in, &input) : load_text(in, &input)) {
    case LOADED: status = show_input(&input); break;
    case TOO_LARGE:
        print_too_large();
        status = REFUSED;
        break;
    case CUT_SHORT: status = fail("the token file is cut short"); break;
    case UNREADABLE: status = fail("the file cannot be read"); break;
    case NO_MEMORY: status = fail("no memory"); break;
    }
    free_input(&input);
    return status;
}

static int ends_in_tokens(const char *path)
{
    static const char ending[] = ".tokens";
    const size_t length = strlen(path);
    const size_t last = sizeof ending - 1;
    return length >= last && strcmp(path + length - last, ending) == 0;
}

static int show_path(const char *path, int is_tokens)
{
    FILE *in = fopen(path, "rb");
    int status;
    if (in == NULL) {
        return fail("the file cannot be opened");
    }
    status = show_stream(in, is_tokens || ends_in_tokens(path));
    fclose(in);
    return status;
}

int main(int argc, char **argv)
{
    const int is_tokens = argc > 1 && strcmp(argv[1], "--tokens") == 0;
    const int files = argc - 1 - is_tokens;
    const char *file = files > 0 ? argv[1 + is_tokens] : NULL;
    int status;
    if (files > 1 || (file != NULL && file[0] == '-')) {
        fputs("usage: show [--tokens] [FILE]\n", stderr);
        return FAILED;
    }
    status = file != NULL ? show_path(file, is_tokens) : show_stream(stdin, is_tokens);
    if (fflush(stdout) != 0 || ferror(stdout)) {
        return fail("the output cannot be written");
    }
    return status;
}
