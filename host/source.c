#include "source.h"

#include "memory.h"

#include <stdio.h>
#include <stdlib.h>

#define LINE_END 10

static uint32_t count_line_ends(const uint8_t *text, uint32_t length)
{
    uint32_t count = 0;
    uint32_t i;
    for (i = 0; i < length; i++) {
        if (text[i] == LINE_END) {
            count++;
        }
    }
    return count;
}

int open_source(struct source *source, const uint8_t *text, uint32_t length)
{
    uint32_t line = 0;
    uint32_t i;

    source->text = text;
    source->length = length;
    source->line_count = count_line_ends(text, length) + 1;
    source->line_starts = allocate(source->line_count * sizeof *source->line_starts);
    if (source->line_starts == NULL) {
        return 0;
    }
    source->line_starts[0] = 0;
    for (i = 0; i < length; i++) {
        if (text[i] == LINE_END) {
            line++;
            source->line_starts[line] = i + 1;
        }
    }
    return 1;
}

void close_source(struct source *source)
{
    free(source->line_starts);
    source->line_starts = NULL;
}

int find_position(const struct source *source, uint32_t position, struct line_column *found)
{
    uint32_t low = 0;
    uint32_t high = source->line_count;

    if (position > source->length) {
        return 0;
    }
    /* The line `low` starts at the position or before it, the line `high` after it. */
    while (high - low > 1) {
        const uint32_t middle = low + (high - low) / 2;
        if (source->line_starts[middle] <= position) {
            low = middle;
        } else {
            high = middle;
        }
    }
    found->line = low + 1;
    found->column = position - source->line_starts[low] + 1;
    return 1;
}

static int shown(uint8_t byte)
{
    if (byte == '\t' || byte == '\r') {
        return ' ';
    }
    return byte >= 32 && byte < 127 ? byte : '?';
}

static void print_bytes(const uint8_t *bytes, uint32_t count)
{
    uint32_t i;
    for (i = 0; i < count; i++) {
        putchar(shown(bytes[i]));
    }
}

void print_line_with_caret(const struct source *source, struct line_column at)
{
    const uint32_t start = source->line_starts[at.line - 1];
    const int is_last = at.line == source->line_count;
    const uint32_t end = is_last ? source->length : source->line_starts[at.line] - 1;

    fputs("  ", stdout);
    print_bytes(source->text + start, end - start);
    printf("\n  %*s\n", (int)at.column, "^");
}

void print_name(const struct source *source, uint32_t start, uint32_t length)
{
    if (start > source->length || length > source->length - start) {
        fputs("?", stdout);
        return;
    }
    print_bytes(source->text + start, length);
}
